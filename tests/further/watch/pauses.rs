//! A tap that pauses: what is safe is handed to the sinks before the run says that it waits, and when the tap
//! goes on nothing is missing.

use crate::support::{EVERY, SOUND, loaded};
use crate::watch::Given;
use crate::watch::comparing::left_by_one;
use crate::watch::safe::{PACKET, Pair, ROOM, Steady, table_of};
use afdx_frame::Network;
use bpf_loader::Program;
use filter_workers::RunGate;
use pcap_io::{DeviceFault, MemSink, OutSink, ReadSource, Script};
use std::alloc::{AllocError, Global};
use std::io;
use std::io::Read;
use std::process::Abort;
use std::sync::Wait;
use std::sync::atomic::AtomicU64;
use std::sync::atomic::Ordering::SeqCst;
use std::test::Fail;
use std::thread::{Threads, yield_now};
use tap_queue::TapGate;
use vl_config::Config;
use watch_run::{RunObserver, watch};

/// For how many turns a tap pauses at the longest.
const TURNS: u32 = 10_000_000;

/// How many bytes both sinks have taken, and how many they had when the run last said that it waits.
#[derive(Drop)]
struct Board {
    captured: AtomicU64,
    listed: AtomicU64,
    captured_before: AtomicU64,
    listed_before: AtomicU64,
    /// How often a tap paused in vain.
    in_vain: AtomicU64,
}

impl Board {
    fn new() -> Board {
        Board {
            captured: AtomicU64::new(0),
            listed: AtomicU64::new(0),
            captured_before: AtomicU64::new(0),
            listed_before: AtomicU64::new(0),
            in_vain: AtomicU64::new(0),
        }
    }
}

impl RunGate for Board {
    fn run(&self, _worker: u32, _number: u64) {}
}

impl TapGate for Board {
    fn tap(&self, _network: Network) {}
}

impl RunObserver for Board {
    fn waits(&self) {
        self.captured_before
            .store(self.captured.load(SeqCst), SeqCst);
        self.listed_before.store(self.listed.load(SeqCst), SeqCst);
    }
}

/// A sink that tells how many bytes it took.
#[derive(Drop)]
struct Told<'a, W> {
    sink: W,
    count: &'a AtomicU64,
}

impl<'a, W: OutSink> OutSink for Told<'a, W> {
    ghost contents = { λ s. W.contents s.sink };

    ghost failures = { λ s. W.failures s.sink };

    fn write(&mut self, bytes: &[u8]) -> Result<usize, DeviceFault> {
        let answer = self.sink.write(bytes);
        if let Ok(count) = answer {
            self.count.fetch_add(count as u64, SeqCst);
        }
        answer
    }
}

/// A part of a recording. Before it comes, the run has to wait with so many bytes in the capture and in the
/// ledger.
#[derive(Clone, Copy)]
struct Part<'a> {
    bytes: &'a [u8],
    captured: u64,
    listed: u64,
}

/// A source that pauses between the parts of its recording.
#[derive(Drop)]
struct Pausing<'a, 'p, 'b> {
    rest: &'a [u8],
    later: &'p [Part<'a>],
    board: &'b Board,
}

impl<'a, 'p, 'b> Pausing<'a, 'p, 'b> {
    /// Waits until the run waits with so much in both sinks.
    fn pause(&self, part: Part<'_>) {
        for _ in 0..TURNS {
            if self.board.captured_before.load(SeqCst) == part.captured
                && self.board.listed_before.load(SeqCst) == part.listed
            {
                return;
            }
            yield_now();
        }
        self.board.in_vain.fetch_add(1, SeqCst);
    }
}

impl<'a, 'p, 'b> Read for Pausing<'a, 'p, 'b> {
    fn read(&mut self, buf: &mut [u8]) -> io::Result<usize> {
        if self.rest.is_empty()
            && let Some(part) = self.later.first()
        {
            let part = *part;
            self.pause(part);
            self.rest = part.bytes;
            self.later = &self.later[1..];
        }
        self.rest.read(buf)
    }
}

/// How many frames come before each pause, around batches of 512 items and rounds of 1024, and how many in
/// all.
const PAUSES: [u32; 9] = [0, 1, 2, 511, 512, 513, 1024, 1025, 2000];

const COUNT: u32 = 2500;

/// How many frames the other recording has.
const OTHERS: u32 = 3000;

/// The parts of the recording that pauses, after its file header.
fn parts_of<'a>(
    alloc: Global,
    bytes: &'a [u8],
    late: bool,
    pausing: Network,
) -> Result<Vec<Part<'a>>, Fail> {
    let mut parts = Vec::new(alloc);
    let ends = PAUSES.iter().skip(1).chain(&[COUNT]);
    for (begin, end) in PAUSES.iter().zip(ends) {
        let pair = Pair {
            failing: pausing,
            given: Steady {
                late,
                count: *begin,
            },
            other: Steady {
                late,
                count: OTHERS,
            },
        };
        let safe = pair.safe(alloc)?;
        let place_of = |count: u32| 24 + PACKET * count.min(COUNT) as usize;
        parts.push(Part {
            bytes: bytes
                .get(place_of(*begin)..place_of(*end))
                .ok_or("no such part")?,
            captured: safe.capture.len() as u64,
            listed: safe.ledger.len() as u64,
        })?;
    }
    Ok(parts)
}

/// A source of these bytes, and of some parts after them.
fn pausing_source<'a, 'p, 'b>(
    rest: &'a [u8],
    later: &'p [Part<'a>],
    board: &'b Board,
) -> ReadSource<Pausing<'a, 'p, 'b>> {
    ReadSource::new(Pausing { rest, later, board })
}

/// A sink with room for all, which tells here how much it took.
fn telling_sink(alloc: Global, count: &AtomicU64) -> Result<Told<'_, MemSink>, AllocError> {
    let sink = MemSink::new(
        alloc,
        Script {
            most: ROOM,
            ..SOUND
        },
    )?;
    Ok(Told { sink, count })
}

/// The source of one network pauses. Each time what is safe is written, and in the end all.
fn goes_on<R: Threads + Wait + Sync + Abort + AllocGlobal>(
    rt: &R,
    given: Given<'_>,
    late: bool,
    pausing: Network,
    workers: u32,
) -> Result<(), Fail> {
    let alloc = rt.alloc();
    let expected = left_by_one(rt, given, ROOM)?;
    let (config, board) = (Config::read(alloc, given.table)?, Board::new());
    let programs: [Program; 1] = [loaded(alloc, EVERY)?];
    let paused = match pausing {
        Network::A => given.a,
        Network::B => given.b,
    };
    let parts = parts_of(alloc, paused, late, pausing)?;
    let (header, board) = (paused.get(..24).ok_or("no file header")?, &board);
    let (none, parts) = parts.split_at(0);
    let (a, b) = match pausing {
        Network::A => (
            pausing_source(header, parts, board),
            pausing_source(given.b, none, board),
        ),
        Network::B => (
            pausing_source(given.a, none, board),
            pausing_source(header, parts, board),
        ),
    };
    let (capture, ledger) = (
        telling_sink(alloc, &board.captured)?,
        telling_sink(alloc, &board.listed)?,
    );
    let ran = watch(
        rt, alloc, &config, &programs, workers, a, b, capture, ledger, board,
    );
    let Ok(watched) = ran else {
        panic!(rt; "a fault")
    };
    assert!(rt; board.in_vain.load(SeqCst) == 0, "{workers} workers");
    assert!(rt; watched.capture.sink.taken() == expected.capture.taken());
    assert!(rt; watched.ledger.sink.taken() == expected.ledger.taken());
    Ok(())
}

#[test]
fn a_tap_that_pauses(rt: HostRuntime) -> Result<(), Fail> {
    let alloc = rt.alloc();
    for late in [false, true] {
        let paused = Steady { late, count: COUNT }.bytes(alloc)?;
        let whole = Steady {
            late,
            count: OTHERS,
        }
        .bytes(alloc)?;
        let table = table_of(alloc, late)?;
        for (pausing, a, b) in [(Network::A, &paused, &whole), (Network::B, &whole, &paused)] {
            let given = Given {
                table: &table,
                filters: &[EVERY],
                a,
                b,
            };
            for workers in [1, 2, 8] {
                goes_on(&rt, given, late, pausing, workers)?;
            }
        }
    }
    Ok(())
}
