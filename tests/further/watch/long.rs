//! Recordings that are longer than the rings, and of different lengths: on threads the outputs are
//! those of one thread.

use crate::support::{EVERY, HEADER, SOUND, TABLE};
use crate::watch::{Given, NO_FAILURE, Ran, Scripts, Way, push_packet, recording, run};
use crate::watch::comparing::{Left, leaves_the_same, left_by_one, roomy};
use afdx_frame::Network;
use pcap_io::{BadReason, Ending, Script};
use run_fault::{Output, WatchFault};
use std::alloc::{AllocError, Global};
use std::process::Abort;
use std::sync::Wait;
use std::test::Fail;
use std::thread::Threads;

/// Room for the outputs of 10 000 frames of 60 bytes.
const ROOM: usize = 1 << 20;

/// A recording of so many frames of the sequence number 1, a nanosecond apart, from this time on.
pub fn tap_of(alloc: Global, begin: u32, count: u32) -> Result<Vec<u8>, AllocError> {
    let mut bytes = Vec::from_slice(alloc, &HEADER)?;
    for place in 0..count {
        push_packet(&mut bytes, begin.saturating_add(place), 5, 60, 1)?;
    }
    Ok(bytes)
}

/// The taps, judged by the table of one link and taken by a filter that accepts all.
fn given_by<'a>(a: &'a [u8], b: &'a [u8]) -> Given<'a> {
    Given {
        table: TABLE,
        filters: &[EVERY],
        a,
        b,
    }
}

/// The runs on threads leave what that on one thread does, which is returned.
fn the_same_by_all<R: Threads + Wait + Sync + Abort + AllocGlobal>(
    rt: &R,
    given: Given<'_>,
    most: usize,
) -> Result<Left, Fail> {
    let expected = left_by_one(rt, given, most)?;
    for workers in [1, 2, 8] {
        let ran = run(rt, Way::Workers(workers), given, roomy(most))?;
        leaves_the_same(rt, &ran, &expected);
    }
    Ok(expected)
}

#[test]
fn three_hundred_frames_a_tap(rt: HostRuntime) -> Result<(), Fail> {
    let tap = tap_of(rt.alloc(), 0, 300)?;
    let left = the_same_by_all(&rt, given_by(&tap, &tap), ROOM)?;
    assert!(rt; left.capture.taken().len() == 45624);
    assert!(rt; (left.counts.a, left.counts.b) == (Ending::Clean(300), Ending::Clean(300)));
    Ok(())
}

/// A recording whose second record lies before its first one.
fn bad_at_second(alloc: Global) -> Result<Vec<u8>, AllocError> {
    recording(alloc, &[(2000, 1), (1999, 2)])
}

/// A tap of 5000 frames, beside a short one that ends so: as that of B, and as that of A.
fn beside_many<R: Threads + Wait + Sync + Abort + AllocGlobal>(
    rt: &R,
    many: &[u8],
    short: &[u8],
    ending: Ending,
) -> Result<(), Fail> {
    let all = Ending::Clean(5000);
    let left = the_same_by_all(rt, given_by(many, short), ROOM)?;
    assert!(rt; (left.counts.a, left.counts.b) == (all, ending));
    let left = the_same_by_all(rt, given_by(short, many), ROOM)?;
    assert!(rt; (left.counts.a, left.counts.b) == (ending, all));
    Ok(())
}

#[test]
fn taps_of_different_lengths(rt: HostRuntime) -> Result<(), Fail> {
    let many = tap_of(rt.alloc(), 0, 5000)?;
    let few = recording(rt.alloc(), &[(10, 1), (2500, 2), (2500, 3)])?;
    let bad = bad_at_second(rt.alloc())?;
    beside_many(&rt, &many, &few, Ending::Clean(3))?;
    let back = Ending::Bad(1, BadReason::StampBack { by: 1 });
    beside_many(&rt, &many, &bad, back)?;
    beside_many(&rt, &many, &HEADER, Ending::Clean(0))
}

/// A script that stops after so many bytes.
fn stops(most: usize) -> Script {
    Script { most, ..SOUND }
}

/// The outputs have what belongs to the first so many frames, and no more.
fn has_first_of(rt: &impl Abort, ran: &Ran, whole: &Left, frames: usize) {
    assert!(rt; frames <= 10_000);
    let packets = whole.capture.taken().get(..24 + 76 * frames);
    assert!(rt; packets == Some(ran.capture.taken()), "another capture");
    let ledger = ran.ledger.taken();
    assert!(rt; whole.ledger.taken().starts_with(ledger), "another ledger");
    assert!(rt; ledger.ends_with(b"\n"));
    let lines = ledger.iter().filter(|byte| **byte == b'\n').count();
    assert!(rt; lines == frames + 1);
}

/// A source that fails after so many bytes, while the other one has many frames. So many frames are safe
/// where it is that of A, and where it is that of B.
fn fails_early<R: Threads + Wait + Sync + Abort + AllocGlobal>(
    rt: &R,
    long: &[u8],
    short: &[u8],
    most: usize,
    safe: (usize, usize),
) -> Result<(), Fail> {
    let cut = &short[..most.min(short.len())];
    let on_a = Scripts {
        a: stops(most),
        ..roomy(ROOM)
    };
    let ran = run(rt, Way::Workers(2), given_by(short, long), on_a)?;
    let network = Network::A;
    assert!(rt; ran.outcome.err() == Some(WatchFault::Read { network }));
    assert!(rt; ran.failures() == Some([1, 0, 0, 0]));
    has_first_of(
        rt,
        &ran,
        &left_by_one(rt, given_by(cut, long), ROOM)?,
        safe.0,
    );
    let on_b = Scripts {
        b: stops(most),
        ..roomy(ROOM)
    };
    let ran = run(rt, Way::Workers(2), given_by(long, short), on_b)?;
    let network = Network::B;
    assert!(rt; ran.outcome.err() == Some(WatchFault::Read { network }));
    assert!(rt; ran.failures() == Some([0, 1, 0, 0]));
    has_first_of(
        rt,
        &ran,
        &left_by_one(rt, given_by(long, cut), ROOM)?,
        safe.1,
    );
    Ok(())
}

/// How many bytes come of the short recording before it fails, and how many frames are safe where it is
/// that of A and where it is that of B: its own, and of the others those before its last one. One of A with
/// the timestamp of that is safe too.
const EARLY: [(usize, (usize, usize)); 6] = [
    (24, (0, 0)),
    (25, (0, 0)),
    (100, (11, 12)),
    (140, (11, 12)),
    (176, (2502, 2503)),
    (252, (2503, 2504)),
];

#[test]
fn a_source_that_fails_early(rt: HostRuntime) -> Result<(), Fail> {
    let many = tap_of(rt.alloc(), 0, 5000)?;
    let short = recording(rt.alloc(), &[(10, 1), (2500, 2), (2500, 3)])?;
    for (most, safe) in EARLY {
        fails_early(&rt, &many, &short, most, safe)?;
    }
    Ok(())
}

/// A sink that fails while both rings are full: both sources come back.
fn fails_while_full<R: Threads + Wait + Sync + Abort + AllocGlobal>(
    rt: &R,
    tap: &[u8],
    scripts: Scripts,
    output: Output,
) -> Result<(), Fail> {
    let ran = run(rt, Way::Workers(2), given_by(tap, tap), scripts)?;
    assert!(rt; ran.outcome.err() == Some(WatchFault::Write { output }));
    let failures = match output {
        Output::Capture => [0, 0, 1, 0],
        Output::Ledger => [0, 0, 0, 1],
    };
    assert!(rt; ran.failures() == Some(failures));
    let whole = left_by_one(rt, given_by(tap, tap), ROOM)?;
    assert!(rt; whole.capture.taken().starts_with(ran.capture.taken()));
    assert!(rt; whole.ledger.taken().starts_with(ran.ledger.taken()));
    Ok(())
}

#[test]
fn a_sink_that_fails_while_the_rings_are_full(rt: HostRuntime) -> Result<(), Fail> {
    let tap = tap_of(rt.alloc(), 0, 5000)?;
    for most in [24, 25, 1000, 30_000] {
        let of_capture = Scripts {
            capture: stops(most),
            ..roomy(ROOM)
        };
        fails_while_full(&rt, &tap, of_capture, Output::Capture)?;
        let of_ledger = Scripts {
            ledger: stops(most),
            ..roomy(ROOM)
        };
        fails_while_full(&rt, &tap, of_ledger, Output::Ledger)?;
    }
    Ok(())
}
