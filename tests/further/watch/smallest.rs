//! The two-tap ledger by runs with the smallest sizes of rings, rounds and chunks, and with blocks that are
//! shorter than a packet.

use crate::support::{TABLE, TWO_TAPS};
use crate::watch::{
    DeviceSet, Given, NO_FAILURE, NOT_FIRST, Ran, devices_by, programs_of, recording,
};
use bpf_loader::Program;
use std::alloc::{AllocError, Global};
use std::num::NonZeroUsize;
use std::process::Abort;
use std::test::Fail;
use tap_queue::RingSizes;
use vl_config::Config;
use watch_run::{OpenGate, Plan, RunSizes, sized_watch, sized_watch_whole};

/// The sizes, where a round has so many frames.
fn sizes_of(round: NonZeroUsize) -> RunSizes {
    RunSizes {
        block: 64,
        ring: RingSizes {
            batches: 1,
            items: 1,
        },
        round,
        chunk: 1,
    }
}

/// The run has left the two-tap ledger.
fn has_left(rt: &impl Abort, ran: &Ran, capture: &[u8]) {
    assert!(rt; ran.outcome.is_ok());
    assert!(rt; ran.capture.taken() == capture);
    assert!(rt; ran.ledger.taken() == TWO_TAPS.as_bytes());
}

/// What the runs are given.
#[derive(Drop)]
struct Runs {
    a: Vec<u8>,
    b: Vec<u8>,
    /// What the capture has then.
    capture: Vec<u8>,
    config: Config,
    programs: Vec<Program>,
    sizes: RunSizes,
}

impl Runs {
    /// Of two taps, with the smallest sizes.
    fn new(alloc: Global) -> Result<Runs, Fail> {
        Ok(Runs {
            a: recording(alloc, &[(0, 1), (100, 2)])?,
            b: recording(alloc, &[(200, 2)])?,
            capture: recording(alloc, &[(100, 2), (200, 2)])?,
            config: Config::read(alloc, TABLE)?,
            programs: programs_of(alloc, &[NOT_FIRST])?,
            sizes: sizes_of(NonZeroUsize::new(1).ok_or("0")?),
        })
    }

    fn devices(&self, alloc: Global) -> Result<DeviceSet, AllocError> {
        let given = Given {
            table: TABLE,
            filters: &[NOT_FIRST],
            a: &self.a,
            b: &self.b,
        };
        devices_by(alloc, given, NO_FAILURE)
    }
}

#[test]
fn whole_runs_of_the_smallest_sizes(rt: HostRuntime) -> Result<(), Fail> {
    let alloc = rt.alloc();
    let runs = Runs::new(alloc)?;
    let set = runs.devices(alloc)?;
    let done = sized_watch_whole(
        alloc,
        runs.sizes,
        &runs.config,
        &Plan::pcap(&runs.programs),
        set.a,
        set.b,
        set.capture,
        set.ledger,
    );
    has_left(&rt, &Ran::of(done), &runs.capture);
    Ok(())
}

#[test]
fn runs_of_the_smallest_sizes(rt: HostRuntime) -> Result<(), Fail> {
    let alloc = rt.alloc();
    let runs = Runs::new(alloc)?;
    let set = runs.devices(alloc)?;
    let done = sized_watch(
        &rt,
        alloc,
        runs.sizes,
        &runs.config,
        Plan::pcap(&runs.programs),
        2,
        set.a,
        set.b,
        set.capture,
        set.ledger,
        &OpenGate,
    );
    has_left(&rt, &Ran::of(done), &runs.capture);
    Ok(())
}
