//! The gate that is told of each recording: it shows that both are read at once.

use crate::rings::recording;
use afdx_frame::Network;
use pcap_io::{ReadSource, TapReader};
use std::{io, thread};
use std::io::Read;
use std::sync::atomic::AtomicU64;
use std::sync::atomic::Ordering::SeqCst;
use std::test::Fail;
use std::thread::yield_now;
use tap_queue::{TapGate, feed, tap_ring};

/// For how many turns a recording waits for the other.
const TURNS: u32 = 1_000_000;

/// What is known of one network's recording.
#[derive(Drop)]
struct Tap {
    /// How often the gate was told of it.
    told: AtomicU64,
    /// How often its source was read.
    reads: AtomicU64,
    /// How often its source had been read when the gate was told.
    reads_before: AtomicU64,
}

impl Tap {
    fn new() -> Tap {
        Tap {
            told: AtomicU64::new(0),
            reads: AtomicU64::new(0),
            reads_before: AtomicU64::new(0),
        }
    }
}

/// It holds the first call until the other network's has entered, and notes if it never does.
#[derive(Drop)]
struct BothTaps {
    a: Tap,
    b: Tap,
    alone: AtomicU64,
}

impl TapGate for BothTaps {
    fn tap(&self, network: Network) {
        let (own, other) = match network {
            Network::A => (&self.a, &self.b),
            Network::B => (&self.b, &self.a),
        };
        own.reads_before.store(own.reads.load(SeqCst), SeqCst);
        own.told.fetch_add(1, SeqCst);
        for _ in 0..TURNS {
            if other.told.load(SeqCst) > 0 {
                return;
            }
            yield_now();
        }
        self.alone.store(1, SeqCst);
    }
}

/// Bytes that are read, with a count of the reads.
#[derive(Drop)]
struct Counted<'a> {
    rest: &'a [u8],
    reads: &'a AtomicU64,
}

impl<'a> Read for Counted<'a> {
    fn read(&mut self, buf: &mut [u8]) -> io::Result<usize> {
        self.reads.fetch_add(1, SeqCst);
        self.rest.read(buf)
    }
}

/// A reader of these bytes whose reads the tap counts.
fn reader_of<'a>(
    bytes: &'a [u8],
    tap: &'a Tap,
    network: Network,
) -> Result<TapReader<ReadSource<Counted<'a>>>, Fail> {
    let source = ReadSource::new(Counted {
        rest: bytes,
        reads: &tap.reads,
    });
    match TapReader::open(source, network, 1 << 32, 0) {
        Ok(reader) => Ok(reader),
        Err(_) => Err("it isn't opened".into()),
    }
}

#[test]
fn both_recordings_are_read_at_once(rt: HostRuntime) -> Result<(), Fail> {
    let alloc = rt.alloc();
    let bytes = recording(alloc, &[1, 2, 3], 60)?;
    for _ in 0..20 {
        let gate = BothTaps {
            a: Tap::new(),
            b: Tap::new(),
            alone: AtomicU64::new(0),
        };
        let a = reader_of(&bytes, &gate.a, Network::A)?;
        let b = reader_of(&bytes, &gate.b, Network::B)?;
        let (put_a, end_a) = tap_ring(alloc, Network::A, 0)?;
        let (put_b, end_b) = tap_ring(alloc, Network::B, 0)?;
        thread::join(
            &rt,
            || feed(&rt, alloc, a, put_a, &gate),
            || feed(&rt, alloc, b, put_b, &gate),
        );
        assert!(rt; gate.alone.load(SeqCst) == 0);
        for tap in [&gate.a, &gate.b] {
            assert!(rt; tap.told.load(SeqCst) == 1);
            // The header alone was read.
            assert!(rt; tap.reads_before.load(SeqCst) == 1);
            assert!(rt; tap.reads.load(SeqCst) > 1);
        }
        drop((end_a, end_b));
    }
    Ok(())
}
