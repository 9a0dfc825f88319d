//! A ring that its taker stops or leaves: the thread that reads the recording comes to its end, and the
//! source comes back, whatever is left in the ring.
ghost use Rattle.std.specs.Prelude.{◌≡◌, [], IfOk};
ghost use Rattle.tap_queue.specs.Ring.{IsRing, SameEnd, SamePut, put_items, put_of};

use crate::rings::{Open, Taken, recording, take_most};
use crate::rings::passing::Passed;
use afdx_frame::Network;
use pcap_io::{Ending, ReadSource, TapReader, TapSource};
use std::alloc::{AllocError, Global};
use std::process::Abort;
use std::sync::Wait;
use std::test::Fail;
use std::thread;
use std::thread::Threads;
use tap_queue::{BATCH_LEN, Fed, RING_LEN, RingLost, TapEnd, TapItem, TapPut, feed, tap_ring};

/// The bytes of a packet, and of a block of the reader.
const PACKET: usize = 76;

const BLOCK: usize = 65_536;

/// A reader of network A over these bytes.
fn reader_over(bytes: &[u8]) -> Result<TapReader<ReadSource<&[u8]>>, Fail> {
    match TapReader::open(ReadSource::new(bytes), Network::A, 1 << 32, 0) {
        Ok(reader) => Ok(reader),
        Err(_) => Err("it isn't opened".into()),
    }
}

/// A recording of so many frames of 60 bytes, a nanosecond apart.
fn frames(alloc: Global, count: u32) -> Result<Vec<u8>, AllocError> {
    let stamps: Vec<u32> = (0..count).collect(alloc)?;
    recording(alloc, &stamps, 60)
}

#[test]
fn a_ring_that_was_stopped_before_it_is_fed(rt: HostRuntime) -> Result<(), Fail> {
    let alloc = rt.alloc();
    let bytes = frames(alloc, 3000)?;
    let (put, mut end) = tap_ring(alloc, Network::A, 0)?;
    end.stop();
    let fed = feed(&rt, alloc, reader_over(&bytes)?, put, &Open);
    // Nothing was put, and no more than a block and a packet were read after the file header.
    assert!(rt; !end.is_ready());
    let left = end.leave(fed)?.into_reader().len();
    let read = 24 + BLOCK + PACKET;
    assert!(rt;
        left.saturating_add(read) >= bytes.len(),
        "{left} bytes left"
    );
    Ok(())
}

/// Takes so many items, and stops the ring.
fn take_and_stop<R: Wait>(
    rt: &R,
    alloc: Global,
    end: TapEnd,
    most: usize,
) -> Result<Taken, AllocError>
    ensures { IfOk result (λ taken. SameEnd end taken.end) }
{
    let taken = take_most(rt, alloc, end, most)?;
    taken.end.stop();
    Ok(taken)
}

/// Reads a recording into a ring on one thread, takes so many items on another, which then stops it, and
/// leaves the ring.
fn pass_some<R: Threads + Wait + Sync, S: TapSource + Send + Drop>(
    rt: &R,
    alloc: Global,
    reader: TapReader<S>,
    ring: (TapPut, TapEnd),
    most: usize,
) -> Result<Passed<S>, AllocError>
    requires none_put { put_items ring.0 ≡ [] }
    requires ring { IsRing ring.0 ring.1 }
{
    let (put, end) = ring;
    let (fed, taken) = thread::join(
        rt,
        move || -> Fed<S>
            requires { put_items put ≡ [] }
            ensures { SamePut put (put_of result) }
        { feed(rt, alloc, reader, put, &Open) },
        move || -> Result<Taken, AllocError>
            ensures { IfOk result (λ taken. SameEnd end taken.end) }
        { take_and_stop(rt, alloc, end, most) },
    );
    let Taken { items, end } = taken?;
    Ok(Passed {
        items,
        settled: end.leave(fed),
    })
}

#[test]
fn a_ring_that_is_stopped_in_mid_recording(rt: HostRuntime) -> Result<(), Fail> {
    let alloc = rt.alloc();
    let bytes = frames(alloc, 20_000)?;
    for most in [0, 1, 511, 512, 513, 3000] {
        let ring = tap_ring(alloc, Network::A, 0)?;
        let passed = pass_some(&rt, alloc, reader_over(&bytes)?, ring, most)?;
        assert!(rt; passed.items.len() == most);
        for (number, item) in (0..).zip(&passed.items) {
            assert!(rt; matches!(item, TapItem::Frame(frame) if frame.number() == number));
        }
        let left = passed.settled?.into_reader().len();
        // The ring's batches, the one that was being taken, and the one that was being put.
        let frames = most.min(3000) + (RING_LEN + 2) * BATCH_LEN;
        let read = 24 + PACKET * frames + BLOCK;
        assert!(rt;
            left.saturating_add(read) >= bytes.len(),
            "{left} bytes left, {most} taken"
        );
    }
    Ok(())
}

#[test]
fn a_ring_that_is_stopped_after_its_ending(rt: HostRuntime) -> Result<(), Fail> {
    let alloc = rt.alloc();
    let bytes = frames(alloc, 3)?;
    let (put, end) = tap_ring(alloc, Network::A, 0)?;
    let fed = feed(&rt, alloc, reader_over(&bytes)?, put, &Open);
    // What was put is still there.
    end.stop();
    let Taken { items, end } = take_most(&rt, alloc, end, usize::MAX)?;
    assert!(rt; items.len() == 4);
    assert!(rt; matches!(items.last(), Some(TapItem::End(Ending::Clean(3)))));
    end.stop();
    assert!(rt; end.settle(fed)?.into_reader().is_empty());
    Ok(())
}

#[test]
fn a_ring_that_is_left_with_items(rt: HostRuntime) -> Result<(), Fail> {
    let alloc = rt.alloc();
    let bytes = frames(alloc, 3)?;
    // Three frames and the ending.
    for count in 0..=4 {
        let (put, end) = tap_ring(alloc, Network::A, 0)?;
        let fed = feed(&rt, alloc, reader_over(&bytes)?, put, &Open);
        let Taken { items, end } = take_most(&rt, alloc, end, count)?;
        assert!(rt; items.len() == count);
        assert!(rt; end.leave(fed)?.into_reader().is_empty());
    }
    Ok(())
}

#[test]
fn a_ring_that_is_left_after_a_loss(rt: HostRuntime) -> Result<(), Fail> {
    let alloc = rt.alloc();
    let bytes = frames(alloc, 3)?;
    let (put, mut end) = tap_ring(alloc, Network::B, 0)?;
    let fed = feed(&rt, alloc, reader_over(&bytes)?, put, &Open);
    // A frame of the other network.
    assert!(rt; matches!(end.take(&rt), Err(RingLost)));
    assert!(rt; end.leave(fed).is_err());
    Ok(())
}

#[test]
fn a_ring_that_has_something_to_take(rt: HostRuntime) -> Result<(), Fail> {
    let alloc = rt.alloc();
    let (put, mut end) = tap_ring(alloc, Network::A, 0)?;
    assert!(rt; !end.is_ready());
    assert!(rt; !end.is_soon_ready(&rt));
    let bytes = frames(alloc, 1)?;
    let fed = feed(&rt, alloc, reader_over(&bytes)?, put, &Open);
    for _ in 0..2 {
        assert!(rt; end.is_ready());
        assert!(rt; end.is_soon_ready(&rt));
        end.take(&rt)?;
    }
    // After the ending there is nothing to wait for.
    assert!(rt; end.is_ready());
    drop(fed);
    let (put, mut end) = tap_ring(alloc, Network::A, 0)?;
    drop(put);
    assert!(rt; end.is_ready());
    Ok(())
}
