//! Devices that stop, or fail once and go on, at every place of the two-tap ledger: the fault is
//! that device's, it has failed once, and each output has a prefix of its text.

use crate::support::{HEADER, TABLE, TWO_TAPS};
use crate::watch::{Given, NOT_FIRST, NO_FAILURE, Ran, Scripts, WIDE, Way, recording, run};
use afdx_frame::Network;
use pcap_io::Script;
use run_fault::{Output, WatchFault};
use std::alloc::Global;
use std::process::Abort;
use std::sync::Wait;
use std::test::Fail;
use std::thread::Threads;

/// The bytes of both recordings, and of the capture.
const LEN_A: usize = 176;

const LEN_B: usize = 100;

const LEN: usize = 176;

const READ_A: WatchFault = WatchFault::Read {
    network: Network::A,
};

const READ_B: WatchFault = WatchFault::Read {
    network: Network::B,
};

const WRITE_CAPTURE: WatchFault = WatchFault::Write {
    output: Output::Capture,
};

const WRITE_LEDGER: WatchFault = WatchFault::Write {
    output: Output::Ledger,
};

/// On one thread and on several, by devices that pass one byte at once, seven and many.
const CASES: [(Way, usize); 6] = [
    (Way::OneThread, 1),
    (Way::OneThread, 7),
    (Way::OneThread, usize::MAX),
    (Way::Workers(2), 1),
    (Way::Workers(2), 7),
    (Way::Workers(2), usize::MAX),
];

/// The two-tap ledger, over these devices.
fn ran<R: Threads + Wait + Sync + AllocGlobal>(
    rt: &R,
    way: Way,
    scripts: Scripts,
) -> Result<Ran, Fail> {
    let a = recording(rt.alloc(), &[(0, 1), (100, 2)])?;
    let b = recording(rt.alloc(), &[(200, 2)])?;
    let given = Given {
        table: TABLE,
        filters: &[NOT_FIRST],
        a: &a,
        b: &b,
    };
    run(rt, way, given, scripts)
}

/// The whole capture.
fn capture(alloc: Global) -> Result<Vec<u8>, Fail> {
    Ok(recording(alloc, &[(100, 2), (200, 2)])?)
}

/// A script that stops after so many bytes.
fn stops(piece: usize, most: usize) -> Script {
    Script {
        piece,
        most,
        miss: None,
    }
}

/// A script by which one call fails.
fn misses(piece: usize, call: usize) -> Script {
    Script {
        piece,
        miss: Some(call as u64),
        ..WIDE
    }
}

/// How often each device has failed where the run ended with this fault: the fault's device once.
fn failures_by(fault: WatchFault) -> [u64; 4] {
    match fault {
        WatchFault::Read {
            network: Network::A,
        } => [1, 0, 0, 0],
        WatchFault::Read {
            network: Network::B,
        } => [0, 1, 0, 0],
        WatchFault::Write {
            output: Output::Capture,
        } => [0, 0, 1, 0],
        WatchFault::Write {
            output: Output::Ledger,
        } => [0, 0, 0, 1],
        _ => [0; 4],
    }
}

/// All is written where nothing failed; else the fault is this one. Returns whether it failed.
fn failed(rt: &(impl Abort + AllocGlobal), ran: &Ran, expected: WatchFault) -> Result<bool, Fail> {
    match ran.outcome {
        Ok(_) => {
            assert!(rt; ran.capture.taken() == capture(rt.alloc())?.as_slice());
            assert!(rt; ran.ledger.taken() == TWO_TAPS.as_bytes());
            assert!(rt; ran.failures() == Some([0; 4]));
            Ok(false)
        }
        Err(fault) => {
            assert!(rt; fault == expected);
            assert!(rt; ran.failures() == Some(failures_by(fault)));
            Ok(true)
        }
    }
}

/// The capture has so many bytes of the whole one, and the ledger a prefix of its text.
fn has_captured(rt: &(impl Abort + AllocGlobal), ran: &Ran, most: usize) -> Result<(), Fail> {
    let whole = capture(rt.alloc())?;
    let written = ran.capture.taken();
    assert!(rt; whole.starts_with(written), "after {most} bytes");
    assert!(rt; written.len() == most.min(LEN));
    assert!(rt; TWO_TAPS.as_bytes().starts_with(ran.ledger.taken()));
    assert!(rt;
        most >= 24 || ran.ledger.taken().is_empty(),
        "after {most} bytes"
    );
    Ok(())
}

/// The ledger has so many bytes of its text, and the capture a prefix of the whole one.
fn has_listed(rt: &(impl Abort + AllocGlobal), ran: &Ran, most: usize) -> Result<(), Fail> {
    let written = ran.ledger.taken();
    assert!(rt;
        TWO_TAPS.as_bytes().starts_with(written),
        "after {most} bytes"
    );
    assert!(rt; written.len() == most.min(TWO_TAPS.len()));
    assert!(rt; capture(rt.alloc())?.starts_with(ran.capture.taken()));
    Ok(())
}

/// A sink for the capture that stops after each number of bytes.
fn stops_capturing<R: Threads + Wait + Sync + Abort + AllocGlobal>(
    rt: &R,
    way: Way,
    piece: usize,
) -> Result<(), Fail> {
    for most in 0..=LEN {
        let scripts = Scripts {
            capture: stops(piece, most),
            ..NO_FAILURE
        };
        let ran = ran(rt, way, scripts)?;
        let refused = failed(rt, &ran, WRITE_CAPTURE)?;
        assert!(rt; refused == (most < LEN), "after {most} bytes");
        has_captured(rt, &ran, most)?;
    }
    Ok(())
}

#[test]
fn a_capture_sink_that_stops(rt: HostRuntime) -> Result<(), Fail> {
    assert!(rt; capture(rt.alloc())?.len() == LEN);
    for (way, piece) in CASES {
        stops_capturing(&rt, way, piece)?;
    }
    Ok(())
}

/// A sink for the ledger that stops after each number of bytes.
fn stops_listing<R: Threads + Wait + Sync + Abort + AllocGlobal>(
    rt: &R,
    way: Way,
    piece: usize,
) -> Result<(), Fail> {
    for most in 0..=TWO_TAPS.len() {
        let scripts = Scripts {
            ledger: stops(piece, most),
            ..NO_FAILURE
        };
        let ran = ran(rt, way, scripts)?;
        let refused = failed(rt, &ran, WRITE_LEDGER)?;
        assert!(rt; refused == (most < TWO_TAPS.len()), "after {most} bytes");
        has_listed(rt, &ran, most)?;
    }
    Ok(())
}

#[test]
fn a_ledger_sink_that_stops(rt: HostRuntime) -> Result<(), Fail> {
    for (way, piece) in CASES {
        stops_listing(&rt, way, piece)?;
    }
    Ok(())
}

/// The ledger's first line, and the lines of the frames of which these many bytes of a recording of
/// A were given, and of all frames of B.
fn lines_with_a(given: usize) -> &'static str {
    match given {
        0..24 => "",
        24..100 => "afdx-ledger 2\n200 B 0 5 2 regular within first deliver 60 01\n",
        100..LEN_A => "afdx-ledger 2\n0 A 0 5 1 regular within first deliver - 00\n\
             200 B 0 5 2 regular within first deliver 60 01\n",
        _ => "afdx-ledger 2\n0 A 0 5 1 regular within first deliver - 00\n\
             100 A 1 5 2 regular within next deliver 60 01\n\
             200 B 0 5 2 regular within first copy 60 01\n",
    }
}

/// The same of B, and of all frames of A.
fn lines_with_b(given: usize) -> &'static str {
    match given {
        0..24 => "",
        24..LEN_B => "afdx-ledger 2\n0 A 0 5 1 regular within first deliver - 00\n\
             100 A 1 5 2 regular within next deliver 60 01\n",
        _ => lines_with_a(LEN_A),
    }
}

/// The outputs of a run on one thread that a failing source ended: whole lines and packets, a prefix of those
/// of the frames that were given.
fn has_wholes(
    rt: &(impl Abort + AllocGlobal),
    ran: &Ran,
    lines: &str,
    stamps: &[(u32, u8)],
) -> Result<(), Fail> {
    let written = ran.ledger.taken();
    assert!(rt; lines.as_bytes().starts_with(written));
    assert!(rt; written.is_empty() || written.ends_with(b"\n"));
    let taken = ran.capture.taken();
    if lines.is_empty() {
        assert!(rt; taken.is_empty());
        return Ok(());
    }
    let packets = recording(rt.alloc(), stamps)?;
    assert!(rt; packets.starts_with(taken));
    assert!(rt; taken.len() == 24 || taken.len() == 100 || taken.len() == 176);
    Ok(())
}

/// The lines of the frames that are safe once a source has failed, after the ledger's first one, and what is
/// accepted of them.
#[derive(Clone, Copy)]
struct Safe {
    lines: &'static str,
    accepted: &'static [(u32, u8)],
}

const NONE_SAFE: Safe = Safe {
    lines: "",
    accepted: &[],
};

const FIRST_SAFE: Safe = Safe {
    lines: "0 A 0 5 1 regular within first deliver - 00\n",
    accepted: &[],
};

const A_SAFE: Safe = Safe {
    lines: "0 A 0 5 1 regular within first deliver - 00\n100 A 1 5 2 regular within next deliver 60 01\n",
    accepted: &[(100, 2)],
};

const ALL_SAFE: Safe = Safe {
    lines: "0 A 0 5 1 regular within first deliver - 00\n100 A 1 5 2 regular within next deliver 60 01\n\
            200 B 0 5 2 regular within first copy 60 01\n",
    accepted: &[(100, 2), (200, 2)],
};

/// What is safe where A's source has failed after so many bytes: the frame of B comes after all of A's.
/// None: it wasn't opened.
fn safe_with_a(given: usize) -> Option<Safe> {
    match given {
        0..24 => None,
        24..100 => Some(NONE_SAFE),
        100..LEN_A => Some(FIRST_SAFE),
        _ => Some(A_SAFE),
    }
}

/// The same of B's source: without its frame no frame of A is safe.
fn safe_with_b(given: usize) -> Option<Safe> {
    match given {
        0..24 => None,
        24..LEN_B => Some(NONE_SAFE),
        _ => Some(ALL_SAFE),
    }
}

/// The outputs of a run on threads that a failing source ended have what is safe, and no more.
fn has_safe(rt: &(impl Abort + AllocGlobal), ran: &Ran, safe: Option<Safe>) -> Result<(), Fail> {
    let Some(Safe { lines, accepted }) = safe else {
        assert!(rt; ran.ledger.taken().is_empty());
        assert!(rt; ran.capture.taken().is_empty());
        return Ok(());
    };
    let ledger = format!(in rt.alloc(); "afdx-ledger 2\n{lines}")?;
    assert!(rt; ran.ledger.taken() == ledger.as_bytes());
    let capture = recording(rt.alloc(), accepted)?;
    assert!(rt; ran.capture.taken() == capture.as_slice());
    Ok(())
}

/// The accepted frames of which these many bytes of A were given, and of B.
fn accepted_with_a(given: usize) -> &'static [(u32, u8)] {
    if given < LEN_A {
        &[(200, 2)]
    } else {
        &[(100, 2), (200, 2)]
    }
}

/// The run over a source of A that gave so many bytes and then failed once, or reached its end.
fn fails_on_a<R: Threads + Wait + Sync + Abort + AllocGlobal>(
    rt: &R,
    way: Way,
    script: Script,
    given: usize,
) -> Result<(), Fail> {
    let scripts = Scripts {
        a: script,
        ..NO_FAILURE
    };
    let ran = ran(rt, way, scripts)?;
    // The read after the last byte, which finds the end, fails too.
    let refused = failed(rt, &ran, READ_A)?;
    assert!(rt; refused == (given <= LEN_A), "after {given} bytes");
    match way {
        _ if !refused => Ok(()),
        Way::OneThread => has_wholes(rt, &ran, lines_with_a(given), accepted_with_a(given)),
        Way::Workers(_) => has_safe(rt, &ran, safe_with_a(given)),
    }
}

/// The same of B.
fn fails_on_b<R: Threads + Wait + Sync + Abort + AllocGlobal>(
    rt: &R,
    way: Way,
    script: Script,
    given: usize,
) -> Result<(), Fail> {
    let scripts = Scripts {
        b: script,
        ..NO_FAILURE
    };
    let ran = ran(rt, way, scripts)?;
    let refused = failed(rt, &ran, READ_B)?;
    assert!(rt; refused == (given <= LEN_B), "after {given} bytes");
    match way {
        _ if !refused => Ok(()),
        Way::OneThread => has_wholes(rt, &ran, lines_with_b(given), &[(100, 2), (200, 2)]),
        Way::Workers(_) => has_safe(rt, &ran, safe_with_b(given)),
    }
}

/// Sources that stop after each number of bytes.
fn stops_reading<R: Threads + Wait + Sync + Abort + AllocGlobal>(
    rt: &R,
    way: Way,
    piece: usize,
) -> Result<(), Fail> {
    for most in 0..=LEN_A + 1 {
        fails_on_a(rt, way, stops(piece, most), most)?;
        fails_on_b(rt, way, stops(piece, most), most)?;
    }
    Ok(())
}

#[test]
fn sources_that_stop(rt: HostRuntime) -> Result<(), Fail> {
    for (way, piece) in CASES {
        stops_reading(&rt, way, piece)?;
    }
    Ok(())
}

/// Sources of single bytes, of which each call fails alone.
fn misses_reading<R: Threads + Wait + Sync + Abort + AllocGlobal>(
    rt: &R,
    way: Way,
) -> Result<(), Fail> {
    for call in 0..LEN_A + 3 {
        fails_on_a(rt, way, misses(1, call), call)?;
        fails_on_b(rt, way, misses(1, call), call)?;
    }
    Ok(())
}

#[test]
fn sources_that_miss(rt: HostRuntime) -> Result<(), Fail> {
    misses_reading(&rt, Way::OneThread)?;
    misses_reading(&rt, Way::Workers(2))
}

/// A sink for the capture that takes single bytes, of which each call fails alone.
fn misses_capturing<R: Threads + Wait + Sync + Abort + AllocGlobal>(
    rt: &R,
    way: Way,
) -> Result<(), Fail> {
    for call in 0..LEN + 2 {
        let scripts = Scripts {
            capture: misses(1, call),
            ..NO_FAILURE
        };
        let ran = ran(rt, way, scripts)?;
        let refused = failed(rt, &ran, WRITE_CAPTURE)?;
        assert!(rt; refused == (call < LEN), "call {call}");
        has_captured(rt, &ran, call)?;
    }
    Ok(())
}

#[test]
fn a_capture_sink_that_misses(rt: HostRuntime) -> Result<(), Fail> {
    misses_capturing(&rt, Way::OneThread)?;
    misses_capturing(&rt, Way::Workers(2))
}

/// A sink for the ledger that takes single bytes, of which each call fails alone.
fn misses_listing<R: Threads + Wait + Sync + Abort + AllocGlobal>(
    rt: &R,
    way: Way,
) -> Result<(), Fail> {
    for call in 0..TWO_TAPS.len() + 2 {
        let scripts = Scripts {
            ledger: misses(1, call),
            ..NO_FAILURE
        };
        let ran = ran(rt, way, scripts)?;
        let refused = failed(rt, &ran, WRITE_LEDGER)?;
        assert!(rt; refused == (call < TWO_TAPS.len()), "call {call}");
        has_listed(rt, &ran, call)?;
    }
    Ok(())
}

#[test]
fn a_ledger_sink_that_misses(rt: HostRuntime) -> Result<(), Fail> {
    misses_listing(&rt, Way::OneThread)?;
    misses_listing(&rt, Way::Workers(2))
}

/// The fault of the source that the merger comes to first is told. It has failed once, and the other one may
/// have failed too.
fn fails_on_both<R: Threads + Wait + Sync + Abort + AllocGlobal>(
    rt: &R,
    given: (usize, usize),
    fault: WatchFault,
    safe: Safe,
) -> Result<(), Fail> {
    let scripts = Scripts {
        a: stops(usize::MAX, given.0),
        b: stops(7, given.1),
        ..NO_FAILURE
    };
    let ran = ran(rt, Way::Workers(2), scripts)?;
    assert!(rt; ran.outcome.err() == Some(fault));
    let failures = ran.failures();
    assert!(rt;
        failures == Some(failures_by(fault)) || failures == Some([1, 1, 0, 0]),
        "{failures:?}"
    );
    has_safe(rt, &ran, Some(safe))
}

/// How many bytes come of each recording before it fails: after the headers, within frames and after
/// them, and at the ends. The fault, and the frames that are safe.
const STOPS: [((usize, usize), WatchFault, Safe); 8] = [
    ((24, 24), READ_A, NONE_SAFE),
    ((24, 70), READ_A, NONE_SAFE),
    ((70, 24), READ_A, NONE_SAFE),
    ((100, 99), READ_B, NONE_SAFE),
    ((150, 60), READ_B, NONE_SAFE),
    ((150, 100), READ_A, FIRST_SAFE),
    ((176, 24), READ_B, NONE_SAFE),
    ((176, 100), READ_A, A_SAFE),
];

#[test]
fn both_sources_stop(rt: HostRuntime) -> Result<(), Fail> {
    for (given, fault, safe) in STOPS {
        fails_on_both(&rt, given, fault, safe)?;
    }
    Ok(())
}

#[test]
fn a_header_alone_is_read_to_its_end(rt: HostRuntime) -> Result<(), Fail> {
    let given = Given {
        table: TABLE,
        filters: &[NOT_FIRST],
        a: &HEADER,
        b: &HEADER,
    };
    let scripts = Scripts {
        b: stops(usize::MAX, 24),
        ..NO_FAILURE
    };
    for way in [Way::OneThread, Way::Workers(2)] {
        let ran = run(&rt, way, given, scripts)?;
        assert!(rt; ran.outcome.err() == Some(READ_B));
        assert!(rt; ran.failures() == Some([0, 1, 0, 0]));
        assert!(rt; ran.capture.taken() == HEADER.as_slice());
        assert!(rt; ran.ledger.taken() == b"afdx-ledger 2\n".as_slice());
    }
    Ok(())
}
