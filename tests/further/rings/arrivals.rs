//! A frame can be taken as soon as the source gave it: it doesn't wait for those that come later.

use crate::rings::{Open, recording};
use afdx_frame::Network;
use pcap_io::{Ending, ReadSource, TapReader};
use std::{io, thread};
use std::io::Read;
use std::process::Abort;
use std::sync::Wait;
use std::sync::atomic::AtomicU64;
use std::sync::atomic::Ordering::SeqCst;
use std::test::Fail;
use std::thread::yield_now;
use tap_queue::{TapEnd, TapItem, feed, tap_ring};

/// For how many turns the source waits for a frame to be taken.
const TURNS: u32 = 10_000_000;

/// The bytes of a packet of a frame of 60 bytes.
const PACKET: usize = 76;

/// What both threads know.
#[derive(Drop)]
struct Counts {
    /// How many frames were taken.
    taken: AtomicU64,
    /// How often the source waited in vain.
    in_vain: AtomicU64,
}

/// A source that gives a packet only once all frames before it were taken.
#[derive(Drop)]
struct Patient<'a> {
    /// What is left of the packet that is being given, or of the file header.
    rest: &'a [u8],
    /// The packets after it.
    later: &'a [u8],
    given: u64,
    counts: &'a Counts,
}

impl<'a> Patient<'a> {
    /// Waits until the frames of all packets so far were taken.
    fn wait(&self) {
        for _ in 0..TURNS {
            if self.counts.taken.load(SeqCst) >= self.given {
                return;
            }
            yield_now();
        }
        self.counts.in_vain.fetch_add(1, SeqCst);
    }
}

impl<'a> Read for Patient<'a> {
    fn read(&mut self, buf: &mut [u8]) -> io::Result<usize> {
        if self.rest.is_empty() && !self.later.is_empty() {
            self.wait();
            self.given = self.given.saturating_add(1);
            (self.rest, self.later) = self.later.split_at(self.later.len().min(PACKET));
        }
        self.rest.read(buf)
    }
}

/// Takes what a ring gives, and counts the frames. Returns what came last.
fn count_frames<R: Wait + Abort>(rt: &R, end: TapEnd, counts: &Counts) -> Result<TapItem, Fail> {
    let mut end = end;
    for _ in rt.forever() {
        match end.take(rt)? {
            TapItem::Frame(_) => {
                counts.taken.fetch_add(1, SeqCst);
            }
            last => return Ok(last),
        }
    }
    Err("no last item".into())
}

#[test]
fn no_frame_waits_for_the_next(rt: HostRuntime) -> Result<(), Fail> {
    let alloc = rt.alloc();
    let stamps: Vec<u32> = (0..600).collect(alloc)?;
    let bytes = recording(alloc, &stamps, 60)?;
    let counts = Counts {
        taken: AtomicU64::new(0),
        in_vain: AtomicU64::new(0),
    };
    assert!(rt; bytes.len() > 24);
    let source = ReadSource::new(Patient {
        rest: &bytes[..24],
        later: &bytes[24..],
        given: 0,
        counts: &counts,
    });
    let Ok(reader) = TapReader::open(source, Network::A, 1 << 32, 0) else {
        return Err("it isn't opened".into());
    };
    let (put, end) = tap_ring(alloc, Network::A, 0)?;
    let (_, last) = thread::join(
        &rt,
        || feed(&rt, alloc, reader, put, &Open),
        || count_frames(&rt, end, &counts),
    );
    assert!(rt; matches!(last?, TapItem::End(Ending::Clean(600))));
    assert!(rt; counts.in_vain.load(SeqCst) == 0);
    Ok(())
}
