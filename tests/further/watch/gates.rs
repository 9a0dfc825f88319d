//! The gates of a run on threads: they show that both taps are read at once, that workers run at
//! once, and that each frame is told once.

use crate::support::{EVERY, TABLE};
use crate::watch::{Given, Way, recording, run_past};
use crate::watch::comparing::{leaves_the_same, left_by_one, roomy};
use crate::watch::long::tap_of;
use afdx_frame::Network;
use filter_workers::RunGate;
use std::alloc::{AllocError, Global};
use std::process::Abort;
use std::sync::Wait;
use std::sync::atomic::AtomicU64;
use std::sync::atomic::Ordering::SeqCst;
use std::test::Fail;
use std::thread::{Threads, yield_now};
use tap_queue::TapGate;
use watch_run::RunObserver;

/// For how many turns a call waits for another.
const TURNS: u32 = 1_000_000;

/// Room for the outputs of the few frames below.
const ROOM: usize = 4096;

/// It holds the first run until another enters, and the thread of each tap until that of the other
/// has entered, and counts those that waited for nothing.
#[derive(Drop)]
struct Meeting {
    runs: AtomicU64,
    taps_a: AtomicU64,
    taps_b: AtomicU64,
    alone: AtomicU64,
}

impl Meeting {
    fn new() -> Meeting {
        Meeting {
            runs: AtomicU64::new(0),
            taps_a: AtomicU64::new(0),
            taps_b: AtomicU64::new(0),
            alone: AtomicU64::new(0),
        }
    }

    /// Waits until there were so many calls.
    fn wait_for(&self, calls: &AtomicU64, count: u64) {
        for _ in 0..TURNS {
            if calls.load(SeqCst) >= count {
                return;
            }
            yield_now();
        }
        self.alone.fetch_add(1, SeqCst);
    }
}

impl RunGate for Meeting {
    fn run(&self, _worker: u32, _number: u64) {
        if self.runs.fetch_add(1, SeqCst) == 0 {
            self.wait_for(&self.runs, 2);
        }
    }
}

impl TapGate for Meeting {
    fn tap(&self, network: Network) {
        let (own, other) = match network {
            Network::A => (&self.taps_a, &self.taps_b),
            Network::B => (&self.taps_b, &self.taps_a),
        };
        own.fetch_add(1, SeqCst);
        self.wait_for(other, 1);
    }
}

impl RunObserver for Meeting {}

/// A recording of four frames.
fn four(alloc: Global) -> Result<Vec<u8>, AllocError> {
    recording(alloc, &[(0, 1), (1, 2), (2, 3), (3, 4)])
}

#[test]
fn taps_and_workers_at_once(rt: HostRuntime) -> Result<(), Fail> {
    let tap = four(rt.alloc())?;
    let given = Given {
        table: TABLE,
        filters: &[EVERY],
        a: &tap,
        b: &tap,
    };
    let expected = left_by_one(&rt, given, ROOM)?;
    for _ in 0..20 {
        let gate = Meeting::new();
        let ran = run_past(&rt, Way::Workers(2), given, roomy(ROOM), &gate)?;
        leaves_the_same(&rt, &ran, &expected);
        assert!(rt; gate.alone.load(SeqCst) == 0);
        assert!(rt; gate.runs.load(SeqCst) == 8);
        assert!(rt; gate.taps_a.load(SeqCst) == 1);
        assert!(rt; gate.taps_b.load(SeqCst) == 1);
    }
    Ok(())
}

/// It counts the calls for each place of a round, the workers, and the calls for each network.
#[derive(Drop)]
struct Notes {
    places: Vec<AtomicU64>,
    workers: AtomicU64,
    beyond: AtomicU64,
}

impl Notes {
    /// For rounds of up to 1024 frames.
    fn new(alloc: Global) -> Result<Notes, AllocError> {
        let mut places = Vec::new(alloc);
        for _ in 0..1024 {
            places.push(AtomicU64::new(0))?;
        }
        Ok(Notes {
            places,
            workers: AtomicU64::new(0),
            beyond: AtomicU64::new(0),
        })
    }

    /// How many calls there were for a place.
    fn calls(&self, place: usize) -> Option<u64> {
        Some(self.places.get(place)?.load(SeqCst))
    }
}

impl RunGate for Notes {
    fn run(&self, worker: u32, number: u64) {
        self.workers.fetch_or(1 << worker % 64, SeqCst);
        let calls = self.places.get(number as usize).unwrap_or(&self.beyond);
        calls.fetch_add(1, SeqCst);
    }
}

impl TapGate for Notes {
    fn tap(&self, _network: Network) {}
}

impl RunObserver for Notes {}

/// Each of so many frames is told once, whatever rounds they come in: each round has its frames at the places
/// from 0 on.
fn tells_each_once<R: Threads + Wait + Sync + Abort + AllocGlobal>(
    rt: &R,
    given: Given<'_>,
    frames: u64,
) -> Result<(), Fail> {
    for workers in [1, 2, 8] {
        let gate = Notes::new(rt.alloc())?;
        let ran = run_past(rt, Way::Workers(workers), given, roomy(1 << 18), &gate)?;
        assert!(rt; ran.outcome.is_ok());
        let (mut told, mut before) = (0u64, u64::MAX);
        for place in 0..1024 {
            let calls = gate.calls(place).unwrap_or(0);
            assert!(rt; calls <= before, "place {place}");
            told = told.saturating_add(calls);
            before = calls;
        }
        assert!(rt; told == frames);
        assert!(rt; gate.beyond.load(SeqCst) == 0);
        assert!(rt; gate.workers.load(SeqCst) >> workers % 64 == 0);
    }
    Ok(())
}

#[test]
fn each_frame_is_told_once(rt: HostRuntime) -> Result<(), Fail> {
    for (count, filters) in [
        (4, [EVERY].as_slice()),
        (4, &[EVERY, EVERY]),
        (300, &[EVERY]),
    ] {
        let tap = tap_of(rt.alloc(), 0, count)?;
        let given = Given {
            table: TABLE,
            filters,
            a: &tap,
            b: &tap,
        };
        tells_each_once(&rt, given, 2 * u64::from(count))?;
    }
    Ok(())
}
