//! What a run tells of its faults: each that ends it is told once, and before the threads that read the
//! recordings are waited for; a whole run tells none.

use crate::support::{EVERY, HEADER, SOUND, TABLE};
use crate::watch::{Given, NO_FAILURE, Ran, Scripts, Way, run_past};
use crate::watch::comparing::roomy;
use crate::watch::long::tap_of;
use afdx_frame::Network;
use bpf_loader::Program;
use filter_workers::RunGate;
use pcap_io::{MemSink, ReadSource, Script};
use run_fault::{Output, WatchFault};
use std::io;
use std::io::Read;
use std::process::Abort;
use std::sync::Wait;
use std::sync::atomic::AtomicU64;
use std::sync::atomic::Ordering::SeqCst;
use std::test::Fail;
use std::thread::{Threads, yield_now};
use tap_queue::TapGate;
use vl_config::Config;
use watch_run::{RunObserver, watch};

/// For how many turns a source waits.
const TURNS: u32 = 10_000_000;

/// It counts how often a fault was told, and how often another.
#[derive(Drop)]
struct Notes {
    expected: WatchFault,
    told: AtomicU64,
    others: AtomicU64,
    /// How often a source waited in vain.
    in_vain: AtomicU64,
}

impl Notes {
    fn new(expected: WatchFault) -> Notes {
        Notes {
            expected,
            told: AtomicU64::new(0),
            others: AtomicU64::new(0),
            in_vain: AtomicU64::new(0),
        }
    }

    /// How often the fault was told, how often another, and how often a source waited in vain.
    fn counts(&self) -> [u64; 3] {
        [
            self.told.load(SeqCst),
            self.others.load(SeqCst),
            self.in_vain.load(SeqCst),
        ]
    }
}

impl RunGate for Notes {
    fn run(&self, _worker: u32, _number: u64) {}
}

impl TapGate for Notes {
    fn tap(&self, _network: Network) {}
}

impl RunObserver for Notes {
    fn aborts(&self, fault: WatchFault) {
        let count = if fault == self.expected {
            &self.told
        } else {
            &self.others
        };
        count.fetch_add(1, SeqCst);
    }
}

/// A run over two recordings of 3000 frames. Returns what was told, and what is left.
fn told_of<R: Threads + Wait + Sync + AllocGlobal>(
    rt: &R,
    way: Way,
    filters: &[&str],
    scripts: Scripts,
    expected: WatchFault,
) -> Result<([u64; 3], Ran), Fail> {
    let tap = tap_of(rt.alloc(), 0, 3000)?;
    let given = Given {
        table: TABLE,
        filters,
        a: &tap,
        b: &tap,
    };
    let gate = Notes::new(expected);
    let ran = run_past(rt, way, given, scripts, &gate)?;
    Ok((gate.counts(), ran))
}

/// Devices of which one fails after so many bytes, and that fault.
fn failing(most: usize) -> [(Scripts, WatchFault); 4] {
    let fails = Script { most, ..SOUND };
    let sound = roomy(1 << 20);
    [
        (
            Scripts { a: fails, ..sound },
            WatchFault::Read {
                network: Network::A,
            },
        ),
        (
            Scripts { b: fails, ..sound },
            WatchFault::Read {
                network: Network::B,
            },
        ),
        (
            Scripts {
                capture: fails,
                ..sound
            },
            WatchFault::Write {
                output: Output::Capture,
            },
        ),
        (
            Scripts {
                ledger: fails,
                ..sound
            },
            WatchFault::Write {
                output: Output::Ledger,
            },
        ),
    ]
}

#[test]
fn a_fault_is_told_once(rt: HostRuntime) -> Result<(), Fail> {
    for workers in [1, 2, 3, 8] {
        for most in [24, 1000, 100_000] {
            for (scripts, fault) in failing(most) {
                let way = Way::Workers(workers);
                let (told, ran) = told_of(&rt, way, &[EVERY], scripts, fault)?;
                assert!(rt; ran.outcome.err() == Some(fault));
                assert!(rt;
                    told == [1, 0, 0],
                    "{fault:?} after {most}, {workers} workers"
                );
            }
        }
    }
    Ok(())
}

#[test]
fn a_whole_run_tells_no_fault(rt: HostRuntime) -> Result<(), Fail> {
    for workers in [1, 2, 8] {
        let way = Way::Workers(workers);
        let (told, ran) = told_of(&rt, way, &[EVERY], roomy(1 << 20), WatchFault::Memory)?;
        assert!(rt; ran.outcome.is_ok());
        assert!(rt; told == [0; 3]);
    }
    Ok(())
}

#[test]
fn no_fault_is_told_before_the_threads_start(rt: HostRuntime) -> Result<(), Fail> {
    let (told, ran) = told_of(
        &rt,
        Way::Workers(9),
        &[EVERY],
        NO_FAILURE,
        WatchFault::Workers,
    )?;
    assert!(rt; ran.outcome.err() == Some(WatchFault::Workers) && told == [0; 3]);
    let (told, ran) = told_of(&rt, Way::Workers(2), &[], NO_FAILURE, WatchFault::Filters)?;
    assert!(rt; ran.outcome.err() == Some(WatchFault::Filters) && told == [0; 3]);
    // within the file headers and the ledger's first line
    for (scripts, fault) in failing(10) {
        let (told, ran) = told_of(&rt, Way::Workers(2), &[EVERY], scripts, fault)?;
        assert!(rt; ran.outcome.err() == Some(fault) && told == [0; 3]);
    }
    Ok(())
}

/// A source that waits at the end of its bytes until a fault was told.
#[derive(Drop)]
struct Held<'a, 'n> {
    rest: &'a [u8],
    waits: bool,
    notes: &'n Notes,
}

impl<'a, 'n> Held<'a, 'n> {
    /// Waits until a fault was told.
    fn wait(&self) {
        for _ in 0..TURNS {
            if self.notes.told.load(SeqCst) > 0 {
                return;
            }
            yield_now();
        }
        self.notes.in_vain.fetch_add(1, SeqCst);
    }
}

impl<'a, 'n> Read for Held<'a, 'n> {
    fn read(&mut self, buf: &mut [u8]) -> io::Result<usize> {
        if self.waits && self.rest.is_empty() {
            self.wait();
        }
        self.rest.read(buf)
    }
}

/// A source of these bytes, which may wait at their end until a fault was told.
fn held_source<'a, 'n>(rest: &'a [u8], waits: bool, notes: &'n Notes) -> ReadSource<Held<'a, 'n>> {
    ReadSource::new(Held { rest, waits, notes })
}

/// One tap stays open until the fault was told by which the capture's sink ends the run: the thread that
/// reads it can't come to its end before.
fn tells_while_held<R: Threads + Wait + Sync + Abort + AllocGlobal>(
    rt: &R,
    workers: u32,
    held: Network,
) -> Result<(), Fail> {
    let alloc = rt.alloc();
    let output = Output::Capture;
    let notes = Notes::new(WatchFault::Write { output });
    let (short, long) = (tap_of(alloc, 0, 100)?, tap_of(alloc, 0, 3000)?);
    let (a, b) = match held {
        Network::A => (short.as_slice(), long.as_slice()),
        Network::B => (long.as_slice(), short.as_slice()),
    };
    let a = held_source(a, held == Network::A, &notes);
    let b = held_source(b, held == Network::B, &notes);
    let fails = Script {
        most: HEADER.len() + 10,
        ..SOUND
    };
    let capture = MemSink::new(alloc, fails)?;
    let ledger = MemSink::new(
        alloc,
        Script {
            most: 1 << 20,
            ..SOUND
        },
    )?;
    let config = Config::read(alloc, TABLE)?;
    let programs: [Program; 1] = [crate::support::loaded(alloc, EVERY)?];
    match watch(
        rt, alloc, &config, &programs, workers, a, b, capture, ledger, &notes,
    ) {
        Ok(_) => panic!(rt; "no fault"),
        Err(refused) => {
            assert!(rt; refused.fault == notes.expected);
            assert!(rt; refused.a.is_some() && refused.b.is_some());
        }
    }
    assert!(rt; notes.counts() == [1, 0, 0], "{workers} workers");
    Ok(())
}

#[test]
fn a_fault_is_told_while_a_tap_stays_open(rt: HostRuntime) -> Result<(), Fail> {
    for workers in [1, 2, 8] {
        tells_while_held(&rt, workers, Network::A)?;
        tells_while_held(&rt, workers, Network::B)?;
    }
    Ok(())
}
