//! Rings that are fed and taken on one thread: what is taken, whether the ring is settled or left, and what
//! is left of the source that comes back.

use crate::recording::opened;
use crate::rings::{Open, Taken, fed_ring, recording, take_most};
use crate::support::SOUND;
use afdx_frame::Network::{self, A, B};
use pcap_io::{DeviceFault, Ending, MemSource, ReadFault, Script, TapReader, TapSource};
use std::alloc::AllocError;
use std::process::Abort;
use std::sync::Wait;
use tap_queue::{RingLost, TapBatch, TapItem, feed, tap_ring};

/// A reader of network A of frames of 60 bytes with these stamps, each of which may be late by 1000.
fn reader_of(
    rt: &(impl Abort + AllocGlobal),
    stamps: &[u32],
    script: Script,
) -> Result<TapReader<MemSource>, AllocError> {
    let bytes = recording(rt.alloc(), stamps, 60)?;
    Ok(opened(rt, MemSource::new(bytes, script), 1000))
}

/// A ring's network and window, the stamps of network A, the most items that are taken and how many come,
/// whether it can be settled then, and left.
type Case = (Network, u64, &'static [u32], usize, usize, bool, bool);

const CASES: [Case; 9] = [
    // Three frames and the ending: nothing is settled before all was taken.
    (A, 0, &[1, 2, 3], 0, 0, false, true),
    (A, 0, &[1, 2, 3], 1, 1, false, true),
    (A, 0, &[1, 2, 3], 2, 2, false, true),
    (A, 0, &[1, 2, 3], 3, 3, false, true),
    (A, 0, &[1, 2, 3], 4, 4, true, true),
    // A ring of the other network.
    (B, 0, &[1, 2, 3], 9, 0, false, false),
    // Rings of shorter windows, and of one that is long enough.
    (A, 0, &[1000, 2000, 1500, 3000], 9, 2, false, false),
    (A, 499, &[1000, 2000, 1500, 3000], 9, 2, false, false),
    (A, 500, &[1000, 2000, 1500, 3000], 9, 5, true, true),
];

/// What is left of a source that comes back, if it does: the answer to one more read.
fn comes_back(
    rt: &impl Abort,
    back: Result<MemSource, RingLost>,
    answer: Option<Result<usize, DeviceFault>>,
) {
    match back {
        Ok(mut source) => assert!(rt; Some(source.read(&mut [0; 8])) == answer),
        Err(RingLost) => assert!(rt; answer.is_none()),
    }
}

/// Feeds a ring, takes of it, and settles or leaves it, with or without a word to stop before and after: what
/// was put is there all the same, and nothing is left in the source that comes back.
fn gives_back<R: Wait + Abort + AllocGlobal>(
    rt: &R,
    case: Case,
    stops: bool,
    settles: bool,
) -> Result<(), AllocError> {
    let (network, late, stamps, most, count, is_settled, is_left) = case;
    let reader = reader_of(rt, stamps, SOUND)?;
    let (fed, end) = fed_ring(rt, rt.alloc(), reader, network, late)?;
    if stops {
        end.stop();
    }
    let Taken { items, end } = take_most(rt, rt.alloc(), end, most)?;
    assert!(rt; items.len() == count);
    if stops {
        end.stop();
    }
    let (back, right) = if settles {
        (end.settle(fed), is_settled)
    } else {
        (end.leave(fed), is_left)
    };
    comes_back(rt, back, right.then_some(Ok(0)));
    Ok(())
}

#[test]
fn rings_that_are_settled_or_left(rt: HostRuntime) -> Result<(), AllocError> {
    for case in CASES {
        for (stops, settles) in [(false, true), (false, false), (true, true), (true, false)] {
            gives_back(&rt, case, stops, settles)?;
        }
    }
    Ok(())
}

/// A source that never fails and one that fails within the third frame: how many items come, whether the last
/// one is the ending, and what the source answers then.
const LASTS: [(usize, usize, bool, Result<usize, DeviceFault>); 2] = [
    (usize::MAX, 4, true, Ok(0)),
    (24 + 76 + 76 + 10, 3, false, Err(DeviceFault)),
];

/// The last item is the ending of three frames, or the source's fault.
fn is_last(rt: &impl Abort, item: Option<&TapItem>, ends: bool) {
    match item {
        Some(TapItem::End(ending)) => assert!(rt; ends && *ending == Ending::Clean(3)),
        Some(TapItem::Failed(fault)) => assert!(rt; !ends && *fault == ReadFault::Device),
        _ => panic!(rt; "the last item is a frame"),
    }
}

#[test]
fn the_last_item_of_a_source(rt: HostRuntime) -> Result<(), AllocError> {
    for (most, count, ends, answer) in LASTS {
        let reader = reader_of(&rt, &[1, 2, 3], Script { most, ..SOUND })?;
        let (fed, end) = fed_ring(&rt, rt.alloc(), reader, A, 0)?;
        let Taken { items, end } = take_most(&rt, rt.alloc(), end, 9)?;
        assert!(rt; items.len() == count);
        is_last(&rt, items.last(), ends);
        comes_back(&rt, end.settle(fed), Some(answer));
    }
    Ok(())
}

#[test]
fn a_ring_that_was_stopped_before_it_is_fed(rt: HostRuntime) -> Result<(), AllocError> {
    let reader = reader_of(&rt, &[1, 2, 3], SOUND)?.with_block_len(64);
    let (put, mut end) = tap_ring(rt.alloc(), A, 0)?;
    end.stop();
    let fed = feed(&rt, rt.alloc(), reader, put, &Open);
    // Nothing was put, and no more than a block and a packet were read after the file header.
    assert!(rt; !end.is_ready());
    comes_back(&rt, end.leave(fed), Some(Ok(8)));
    Ok(())
}

#[test]
fn a_ring_that_has_something_to_take(rt: HostRuntime) -> Result<(), AllocError> {
    let (put, mut end) = tap_ring(rt.alloc(), A, 0)?;
    assert!(rt; !end.is_ready());
    assert!(rt; !end.is_soon_ready(&rt));
    let fed = feed(&rt, rt.alloc(), reader_of(&rt, &[1], SOUND)?, put, &Open);
    for _ in 0..2 {
        assert!(rt; end.is_ready());
        assert!(rt; end.is_soon_ready(&rt));
        assert!(rt; end.take(&rt).is_ok());
    }
    // After the ending there is nothing to wait for.
    assert!(rt; end.is_ready());
    drop(fed);
    Ok(())
}

#[test]
fn a_ring_that_nobody_feeds(rt: HostRuntime) -> Result<(), AllocError> {
    let (put, mut end) = tap_ring(rt.alloc(), A, 0)?;
    drop(put);
    assert!(rt; end.is_ready());
    Ok(())
}

/// A ring's window, the stamps of network A, and how many frames come together after the first. None: one
/// of them isn't the next.
type Together = (u64, &'static [u32], Option<usize>);

const TOGETHER: [Together; 4] = [
    (0, &[1], Some(0)),
    (0, &[1, 2, 3], Some(2)),
    (499, &[1000, 2000, 1500], None),
    (500, &[1000, 2000, 1500], Some(2)),
];

/// How many frames come together after the first that a ring of this window gives.
fn together<R: Wait + Abort + AllocGlobal>(
    rt: &R,
    late: u64,
    stamps: &[u32],
) -> Result<Option<usize>, AllocError> {
    let reader = reader_of(rt, stamps, SOUND)?;
    let (_fed, mut end) = fed_ring(rt, rt.alloc(), reader, A, late)?;
    assert!(rt; matches!(end.take(rt), Ok(TapItem::Frame(_))));
    Ok(match end.take_batch(rt) {
        Ok(TapBatch::Frames(frames)) => Some(frames.count()),
        Ok(TapBatch::End(_)) => Some(0),
        Ok(TapBatch::Failed(_)) | Err(RingLost) => None,
    })
}

#[test]
fn frames_that_came_together(rt: HostRuntime) {
    for (late, stamps, count) in &TOGETHER {
        assert!(rt; matches!(together(&rt, *late, stamps), Ok(found) if found == *count));
    }
}
