//! Recordings that pass through a ring between two threads, and what came of them beside what a reader alone
//! gives.
ghost use Rattle.std.specs.Prelude.{◌≡◌, [], IfOk};
ghost use Rattle.tap_queue.specs.Ring.{IsRing, SameEnd, SamePut, put_items, put_of};

use crate::rings::{Taken, take_most};
use crate::support::SOUND;
use afdx_frame::Network;
use pcap_io::{Item, MemSource, TapReader, TapSource};
use std::alloc::{AllocError, Global};
use std::process::Abort;
use std::sync::Wait;
use std::test::Fail;
use std::thread;
use std::thread::Threads;
use tap_queue::{Fed, RingLost, TapEnd, TapGate, TapItem, TapPut, feed};

/// A reader of network B over memory.
pub(crate) fn reader_of(
    alloc: Global,
    bytes: &[u8],
    late: u64,
) -> Result<TapReader<MemSource>, Fail> {
    let source = MemSource::new(Vec::from_slice(alloc, bytes)?, SOUND);
    match TapReader::open(source, Network::B, 1 << 32, late) {
        Ok(reader) => Ok(reader),
        Err(_) => Err("it isn't opened".into()),
    }
}

/// The item is what a reader gives.
pub(crate) fn same(rt: &impl Abort, item: &TapItem, given: &Item) {
    match (item, given) {
        (TapItem::Frame(frame), Item::Frame(expected)) => {
            assert!(rt; frame.key() == expected.key());
            assert!(rt; frame.whole() == expected.whole());
            assert!(rt; frame.view().bytes() == expected.view().bytes());
        }
        (TapItem::End(ending), Item::End(expected)) => assert!(rt; ending == expected),
        _ => panic!(rt; "an item of another kind"),
    }
}

/// What came through a ring, and what was settled in the end.
#[derive(Drop)]
pub(crate) struct Passed<S> {
    pub(crate) items: Vec<TapItem>,
    pub(crate) settled: Result<S, RingLost>,
}

/// Reads a recording into a ring on one thread and takes it on another, and settles.
pub(crate) fn pass<R: Threads + Wait + Sync, S: TapSource + Send + Drop, G: TapGate + Sync>(
    rt: &R,
    alloc: Global,
    reader: TapReader<S>,
    ring: (TapPut, TapEnd),
    gate: &G,
) -> Result<Passed<S>, AllocError>
    requires none_put { put_items ring.0 ≡ [] }
    requires ring { IsRing ring.0 ring.1 }
{
    let (put, end) = ring;
    let (fed, taken) = thread::join(
        rt,
        move || -> Fed<S>
            requires { put_items put ≡ [] }
            ensures { SamePut put (put_of result) }
        { feed(rt, alloc, reader, put, gate) },
        move || -> Result<Taken, AllocError>
            ensures { IfOk result (λ taken. SameEnd end taken.end) }
        { take_most(rt, alloc, end, usize::MAX) },
    );
    let Taken { items, end } = taken?;
    Ok(Passed {
        items,
        settled: end.settle(fed),
    })
}
