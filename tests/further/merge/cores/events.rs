//! Events of which some can't happen.

use afdx_frame::Network::{A, B};
use specified::{Core, Event};
use std::alloc::AllocError;
use super::{AMPLE, Digits, core_of, is_prefix};

/// Lets an event happen, if it can.
pub fn step(core: &mut Core, event: Event) -> Result<bool, AllocError> {
    core.event(&Digits, event)
}

/// Events of a recording of one frame and an empty one, and which of them can happen.
const EVENTS: [(Event, bool); 24] = [
    (Event::Fetch(A), false),
    (Event::End(A), false),
    (Event::Put(A), true),
    (Event::Put(A), false),
    (Event::End(A), true),
    (Event::End(A), false),
    (Event::Fetch(A), true),
    (Event::Cut, false),
    (Event::End(B), true),
    (Event::Fetch(B), true),
    (Event::Claim(0), false),
    (Event::Cut, true),
    (Event::Cut, false),
    (Event::Post(0), false),
    (Event::Claim(0), true),
    (Event::Claim(0), false),
    (Event::Claim(1), true),
    (Event::Claim(2), false),
    (Event::Gather, false),
    (Event::Post(0), true),
    (Event::Gather, false),
    (Event::Claim(0), true),
    (Event::Gather, true),
    (Event::Gather, false),
];

#[test]
fn events_that_happen(rt: HostRuntime) -> Result<(), AllocError> {
    let mut core = core_of(&rt, AMPLE, 0, &[1], &[])?;
    for (event, happens) in &EVENTS {
        assert!(rt; step(&mut core, *event) == Ok(*happens));
    }
    is_prefix(&rt, &core, &[(1, A)]);
    assert!(rt; core.output().len() == 1);
    Ok(())
}
