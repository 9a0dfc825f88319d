//! A sink that fails early in long recordings: what is left of them isn't read.

use crate::support::{EVERY, SOUND, TABLE};
use crate::watch::{Given, Ran, Scripts, Way, run};
use crate::watch::comparing::roomy;
use crate::watch::long::tap_of;
use pcap_io::Script;
use run_fault::{Output, WatchFault};
use std::process::Abort;
use std::sync::Wait;
use std::test::Fail;
use std::thread::Threads;
use tap_queue::{BATCH_LEN, RING_LEN};

/// How many frames each recording has.
const FRAMES: u32 = 200_000;

/// The most frames of a recording that are taken and in rings where a sink fails in the first round: two
/// rounds, the batches of the ring, one that is being taken and one that is being put.
const MOST_FRAMES: u64 = 2 * 1024 + (RING_LEN as u64 + 2) * BATCH_LEN as u64;

/// The bytes of those frames, of the file header and of a block that is read ahead.
const MOST_READ: u64 = 24 + 76 * MOST_FRAMES + 65_536;

/// How many bytes were read of each source.
fn read_of(ran: &Ran) -> Option<[u64; 2]> {
    Some([ran.a.as_ref()?.passed, ran.b.as_ref()?.passed])
}

/// An output fails: neither recording is read on, and both sources come back.
fn reads_no_further<R: Threads + Wait + Sync + Abort + AllocGlobal>(
    rt: &R,
    tap: &[u8],
    workers: u32,
    scripts: Scripts,
    output: Output,
) -> Result<(), Fail> {
    let given = Given {
        table: TABLE,
        filters: &[EVERY],
        a: tap,
        b: tap,
    };
    let ran = run(rt, Way::Workers(workers), given, scripts)?;
    assert!(rt; ran.outcome.err() == Some(WatchFault::Write { output }));
    let failures = match output {
        Output::Capture => [0, 0, 1, 0],
        Output::Ledger => [0, 0, 0, 1],
    };
    assert!(rt; ran.failures() == Some(failures));
    let read = read_of(&ran).ok_or("a source is lost")?;
    assert!(rt;
        read[0] <= MOST_READ && read[1] <= MOST_READ,
        "{read:?} bytes were read, {workers} workers"
    );
    Ok(())
}

/// The workers, and how many bytes are written before an output fails.
const EARLY: [(u32, usize); 6] = [
    (1, 24),
    (2, 25),
    (2, 30_000),
    (3, 1000),
    (8, 24),
    (8, 30_000),
];

#[test]
fn an_output_that_fails_early(rt: HostRuntime) -> Result<(), Fail> {
    let tap = tap_of(rt.alloc(), 0, FRAMES)?;
    for (workers, most) in EARLY {
        let fails = Script { most, ..SOUND };
        let of_capture = Scripts {
            capture: fails,
            ..roomy(1 << 16)
        };
        reads_no_further(&rt, &tap, workers, of_capture, Output::Capture)?;
        let of_ledger = Scripts {
            ledger: fails,
            ..roomy(1 << 18)
        };
        reads_no_further(&rt, &tap, workers, of_ledger, Output::Ledger)?;
    }
    Ok(())
}
