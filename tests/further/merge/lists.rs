//! The core over many lists of events: its output is a prefix of the order, and in the end all of it. Its
//! rings and rounds hold as much as they should.

use crate::merge::cores::{core_of, is_prefix};
use crate::merge::cores::events::step;
use crate::merge::numbers::Numbers;
use afdx_frame::Network::{A, B, self};
use specified::{Core, CoreSizes, Event};
use std::alloc::AllocError;
use std::process::Abort;
use std::test::Fail;

/// The event of this number, among those of two taps and three workers, of which one is none.
fn event_of(number: u64) -> Event {
    match number {
        0 => Event::Put(A),
        1 => Event::Put(B),
        2 => Event::End(A),
        3 => Event::End(B),
        4 => Event::Fetch(A),
        5 => Event::Fetch(B),
        6 => Event::Cut,
        7 => Event::Gather,
        8 | 9 | 10 => Event::Claim(number as u32 - 8),
        _ => Event::Post((number.saturating_sub(11).min(2)) as u32),
    }
}

/// So many events at random, and then each in turn until nothing is left to do.
fn runs(
    rt: &(impl Abort + AllocGlobal),
    seed: u64,
    mut core: Core,
    order: &[(u64, Network)],
) -> Result<(), Fail> {
    let mut numbers = Numbers::new(seed);
    for _ in 0..numbers.below(200) {
        step(&mut core, event_of(numbers.below(14)))?;
        is_prefix(rt, &core, order);
    }
    for _ in 0..30 {
        for number in 0..14 {
            step(&mut core, event_of(number))?;
            is_prefix(rt, &core, order);
        }
    }
    assert!(rt; core.output().len() == order.len(), "seed {seed}");
    Ok(())
}

#[test]
fn lists_of_events(rt: HostRuntime) -> Result<(), Fail> {
    for (ring, round) in [(64, 256), (1, 1), (2, 3)] {
        let sizes = CoreSizes { ring, round };
        for seed in 0..50 {
            let core = core_of(&rt, sizes, 0, &[1, 9], &[5, 9])?;
            runs(&rt, seed, core, &[(1, A), (5, B), (9, A), (9, B)])?;
            let core = core_of(&rt, sizes, 5, &[10, 5], &[12, 7])?;
            runs(&rt, seed, core, &[(5, A), (7, B), (10, A), (12, B)])?;
            let core = core_of(&rt, sizes, 0, &[], &[3])?;
            runs(&rt, seed, core, &[(3, B)])?;
        }
    }
    Ok(())
}

/// The same event, so many times. Returns how often it happened.
fn steps(core: &mut Core, event: Event, times: u32) -> Result<u32, AllocError> {
    let mut happened: u32 = 0;
    for _ in 0..times {
        if step(core, event)? {
            happened = happened.saturating_add(1);
        }
    }
    Ok(happened)
}

/// Rings and rounds of these sizes hold so much and no more.
fn bounds(rt: &(impl Abort + AllocGlobal), ring: u32, round: u32) -> Result<(), Fail> {
    let stamps = vec![in rt.alloc(); 7; 600]?;
    let sizes = CoreSizes {
        ring: ring as usize,
        round: round as usize,
    };
    let mut core = core_of(rt, sizes, 0, &stamps, &[])?;
    step(&mut core, Event::End(B))?;
    step(&mut core, Event::Fetch(B))?;
    assert!(rt; steps(&mut core, Event::Put(A), 100)? == ring);
    for _ in 0..600 {
        step(&mut core, Event::Fetch(A))?;
        step(&mut core, Event::Put(A))?;
    }
    step(&mut core, Event::End(A))?;
    steps(&mut core, Event::Fetch(A), 100)?;
    assert!(rt; steps(&mut core, Event::Cut, 2)? == 1);
    for _ in 0..300 {
        step(&mut core, Event::Claim(0))?;
        step(&mut core, Event::Post(0))?;
    }
    step(&mut core, Event::Claim(1))?;
    assert!(rt; steps(&mut core, Event::Gather, 2)? == 1);
    assert!(rt; core.output().len() == round as usize);
    Ok(())
}

#[test]
fn rings_and_rounds_are_bounded(rt: HostRuntime) -> Result<(), Fail> {
    for (ring, round) in [(64, 256), (1, 1), (3, 255)] {
        bounds(&rt, ring, round)?;
    }
    Ok(())
}
