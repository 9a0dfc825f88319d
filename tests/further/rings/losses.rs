//! What a ring loses is told, and neither of its threads waits for one that is gone.

use crate::rings::{Open, Taken, recording, take_most};
use crate::rings::passing::pass;
use crate::support::SOUND;
use afdx_frame::Network;
use pcap_io::{MemSource, TapReader};
use std::alloc::Global;
use std::test::Fail;
use std::thread;
use tap_queue::{RingLost, TapItem, feed, tap_ring};

/// A reader of network A over memory, whose frames have these stamps and 60 bytes.
fn stamped_reader(alloc: Global, stamps: &[u32], late: u64) -> Result<TapReader<MemSource>, Fail> {
    let source = MemSource::new(recording(alloc, stamps, 60)?, SOUND);
    match TapReader::open(source, Network::A, 1 << 32, late) {
        Ok(reader) => Ok(reader),
        Err(_) => Err("it isn't opened".into()),
    }
}

#[test]
fn a_ring_left_without_an_ending(rt: HostRuntime) -> Result<(), Fail> {
    let (put, mut end) = tap_ring(rt.alloc(), Network::A, 0)?;
    drop(put);
    for _ in 0..2 {
        assert!(rt; matches!(end.take(&rt), Err(RingLost)));
    }
    Ok(())
}

#[test]
fn a_ring_of_the_other_network(rt: HostRuntime) -> Result<(), Fail> {
    let alloc = rt.alloc();
    let ring = tap_ring(alloc, Network::B, 0)?;
    let passed = pass(
        &rt,
        alloc,
        stamped_reader(alloc, &[1, 2, 3], 0)?,
        ring,
        &Open,
    )?;
    assert!(rt; passed.items.is_empty());
    assert!(rt; passed.settled.is_err());
    Ok(())
}

#[test]
fn a_ring_of_a_shorter_window(rt: HostRuntime) -> Result<(), Fail> {
    let alloc = rt.alloc();
    let stamps = [1000, 2000, 1500, 3000];
    for (late, taken, settles) in [(0, 2, false), (499, 2, false), (500, 5, true)] {
        let ring = tap_ring(alloc, Network::A, late)?;
        let passed = pass(
            &rt,
            alloc,
            stamped_reader(alloc, &stamps, 1000)?,
            ring,
            &Open,
        )?;
        assert!(rt; passed.items.len() == taken, "late {late}");
        assert!(rt; passed.settled.is_ok() == settles, "late {late}");
    }
    Ok(())
}

#[test]
fn nothing_is_settled_before_all_was_taken(rt: HostRuntime) -> Result<(), Fail> {
    let alloc = rt.alloc();
    // Three frames and the ending.
    for count in 0..=4 {
        let reader = stamped_reader(alloc, &[1, 2, 3], 0)?;
        let (put, end) = tap_ring(alloc, Network::A, 0)?;
        let fed = feed(&rt, alloc, reader, put, &Open);
        let Taken { items, end } = take_most(&rt, alloc, end, count)?;
        assert!(rt; items.len() == count);
        assert!(rt;
            end.settle(fed).is_ok() == (count == 4),
            "{count} of 4 taken"
        );
    }
    Ok(())
}

#[test]
fn a_taker_that_is_gone(rt: HostRuntime) -> Result<(), Fail> {
    let alloc = rt.alloc();
    let stamps: Vec<u32> = (0..3000).collect(alloc)?;
    let (put, end) = tap_ring(alloc, Network::A, 0)?;
    drop(end);
    drop(feed(&rt, alloc, stamped_reader(alloc, &stamps, 0)?, put, &Open));
    Ok(())
}

#[test]
fn a_taker_that_goes_while_the_ring_is_full(rt: HostRuntime) -> Result<(), Fail> {
    let alloc = rt.alloc();
    let stamps: Vec<u32> = (0..3000).collect(alloc)?;
    let reader = stamped_reader(alloc, &stamps, 0)?;
    let (put, mut end) = tap_ring(alloc, Network::A, 0)?;
    let (_, first) = thread::join(
        &rt,
        || feed(&rt, alloc, reader, put, &Open),
        || {
            let first = end.take(&rt);
            drop(end);
            first
        },
    );
    assert!(rt; matches!(first?, TapItem::Frame(frame) if frame.number() == 0));
    Ok(())
}
