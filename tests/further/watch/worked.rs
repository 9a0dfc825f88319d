//! The worked examples of a whole analysis, on one thread and on several, over devices that pass
//! many bytes, some and single ones.

use crate::support::{EVERY, HEADER, TABLE, TWO_TAPS};
use crate::watch::{
    Given, NO_FAILURE, NOT_FIRST, Ran, Scripts, WAYS, WIDE, Way, push_packet, recording, run,
};
use afdx_frame::Network;
use pcap_io::{BadReason, Ending, HeaderFault, Script};
use run_fault::WatchFault;
use std::alloc::Global;
use std::process::Abort;
use std::sync::Wait;
use std::test::Fail;
use std::thread::Threads;

/// What a run is given, and what it has to leave.
#[derive(Clone, Copy)]
struct Example {
    table: &'static str,
    filters: &'static [&'static str],
    /// The frames of both recordings: timestamps and sequence numbers. A's recording may lack its last byte.
    a: &'static [(u32, u8)],
    b: &'static [(u32, u8)],
    is_cut: bool,
    endings: [Ending; 2],
    frames: u64,
    /// The packets of the capture: timestamps, how many bytes are kept, and sequence numbers.
    capture: &'static [(u32, u8, u8)],
    ledger: &'static str,
}

const TWO_TAP_LEDGER: Example = Example {
    table: TABLE,
    filters: &[NOT_FIRST],
    a: &[(0, 1), (100, 2)],
    b: &[(200, 2)],
    is_cut: false,
    endings: [Ending::Clean(2), Ending::Clean(1)],
    frames: 3,
    capture: &[(100, 60, 2), (200, 60, 2)],
    ledger: TWO_TAPS,
};

const A_SECOND_FILTER: Example = Example {
    filters: &[NOT_FIRST, "1,6 0 0 8,"],
    capture: &[(0, 8, 1), (100, 60, 2), (200, 60, 2)],
    ledger: "afdx-ledger 2\n\
        0 A 0 5 1 regular within first deliver 8 02\n\
        100 A 1 5 2 regular within next deliver 60 03\n\
        200 B 0 5 2 regular within first copy 60 03\n\
        link 5 brake frames 3 toolong 0 excess 0 out 0 copy 1 delivered 2\n\
        filter 0 accepted 2\n\
        filter 1 accepted 3\n\
        tap A clean 2\n\
        tap B clean 1\n\
        total frames 3 accepted 3 cut 0 runt 0 oversize 0 foreign 0 unconfigured 0 toolong 0 \
        excess 0 out 0 copy 1 delivered 2\n",
    ..TWO_TAP_LEDGER
};

const A_COPY_AT_ONE_STAMP: Example = Example {
    filters: &[EVERY],
    a: &[(5, 1)],
    b: &[(5, 1)],
    endings: [Ending::Clean(1), Ending::Clean(1)],
    frames: 2,
    capture: &[(5, 60, 1), (5, 60, 1)],
    ledger: "afdx-ledger 2\n\
        5 A 0 5 1 regular within first deliver 60 01\n\
        5 B 0 5 1 regular within first copy 60 01\n\
        link 5 brake frames 2 toolong 0 excess 0 out 0 copy 1 delivered 1\n\
        filter 0 accepted 2\n\
        tap A clean 1\n\
        tap B clean 1\n\
        total frames 2 accepted 2 cut 0 runt 0 oversize 0 foreign 0 unconfigured 0 toolong 0 \
        excess 0 out 0 copy 1 delivered 1\n",
    ..TWO_TAP_LEDGER
};

const TWO_EMPTY_TAPS: Example = Example {
    filters: &[EVERY],
    a: &[],
    b: &[],
    endings: [Ending::Clean(0), Ending::Clean(0)],
    frames: 0,
    capture: &[],
    ledger: "afdx-ledger 2\n\
        link 5 brake frames 0 toolong 0 excess 0 out 0 copy 0 delivered 0\n\
        filter 0 accepted 0\n\
        tap A clean 0\n\
        tap B clean 0\n\
        total frames 0 accepted 0 cut 0 runt 0 oversize 0 foreign 0 unconfigured 0 toolong 0 \
        excess 0 out 0 copy 0 delivered 0\n",
    ..TWO_TAP_LEDGER
};

/// The second packet of A lacks its last byte, and the fraction of B's second one is a whole second.
const A_TORN_RECORD: Example = Example {
    filters: &[EVERY],
    a: &[(10, 1), (11, 2)],
    b: &[(12, 1), (1_000_000_000, 2)],
    is_cut: true,
    endings: [Ending::Cut(1), Ending::Bad(1, BadReason::Fraction)],
    frames: 2,
    capture: &[(10, 60, 1), (12, 60, 1)],
    ledger: "afdx-ledger 2\n\
        10 A 0 5 1 regular within first deliver 60 01\n\
        12 B 0 5 1 regular within first copy 60 01\n\
        link 5 brake frames 2 toolong 0 excess 0 out 0 copy 1 delivered 1\n\
        filter 0 accepted 2\n\
        tap A cut 1\n\
        tap B bad 1 fraction\n\
        total frames 2 accepted 2 cut 0 runt 0 oversize 0 foreign 0 unconfigured 0 toolong 0 \
        excess 0 out 0 copy 1 delivered 1\n",
    ..TWO_TAP_LEDGER
};

const A_STAMP_THAT_GOES_BACK: Example = Example {
    a: &[(10, 1), (9, 2)],
    is_cut: false,
    endings: [
        Ending::Bad(1, BadReason::StampBack { by: 1 }),
        Ending::Bad(1, BadReason::Fraction),
    ],
    ledger: "afdx-ledger 2\n\
        10 A 0 5 1 regular within first deliver 60 01\n\
        12 B 0 5 1 regular within first copy 60 01\n\
        link 5 brake frames 2 toolong 0 excess 0 out 0 copy 1 delivered 1\n\
        filter 0 accepted 2\n\
        tap A bad 1 stampback\n\
        tap B bad 1 fraction\n\
        total frames 2 accepted 2 cut 0 runt 0 oversize 0 foreign 0 unconfigured 0 toolong 0 \
        excess 0 out 0 copy 1 delivered 1\n",
    ..A_TORN_RECORD
};

/// In its table a stamp may lie by a microsecond below the greatest one before it.
const A_LATE_FRAME: Example = Example {
    table: "constant = 50331648\nlate_us = 1\n[[link]]\nid = 5\nname = \"brake\"\nbag_ms = 1\n\
        jitter_us = 0\nsmax = 200\nintegrity = true\nredundancy = true\nskew_us = 1000\n",
    filters: &[EVERY],
    a: &[(0, 1), (2000, 3), (1000, 2)],
    b: &[],
    endings: [Ending::Clean(3), Ending::Clean(0)],
    frames: 3,
    capture: &[(0, 60, 1), (1000, 60, 2), (2000, 60, 3)],
    ledger: "afdx-ledger 2\n\
        0 A 0 5 1 regular within first deliver 60 01\n\
        1000 A 2 5 2 regular within next deliver 60 01\n\
        2000 A 1 5 3 regular within next deliver 60 01\n\
        link 5 brake frames 3 toolong 0 excess 0 out 0 copy 0 delivered 3\n\
        filter 0 accepted 3\n\
        tap A clean 3\n\
        tap B clean 0\n\
        total frames 3 accepted 3 cut 0 runt 0 oversize 0 foreign 0 unconfigured 0 toolong 0 \
        excess 0 out 0 copy 0 delivered 3\n",
    ..TWO_TAP_LEDGER
};

const TOO_LATE: Example = Example {
    table: TABLE,
    endings: [Ending::Bad(2, BadReason::StampBack { by: 1000 }), Ending::Clean(0)],
    frames: 2,
    capture: &[(0, 60, 1), (2000, 60, 3)],
    ledger: "afdx-ledger 2\n\
        0 A 0 5 1 regular within first deliver 60 01\n\
        2000 A 1 5 3 regular within skip deliver 60 01\n\
        link 5 brake frames 2 toolong 0 excess 0 out 0 copy 0 delivered 2\n\
        filter 0 accepted 2\n\
        tap A bad 2 stampback\n\
        tap B clean 0\n\
        total frames 2 accepted 2 cut 0 runt 0 oversize 0 foreign 0 unconfigured 0 toolong 0 \
        excess 0 out 0 copy 0 delivered 2\n",
    ..A_LATE_FRAME
};

const EXAMPLES: [Example; 8] = [
    A_COPY_AT_ONE_STAMP,
    TWO_TAP_LEDGER,
    A_SECOND_FILTER,
    TWO_EMPTY_TAPS,
    A_TORN_RECORD,
    A_STAMP_THAT_GOES_BACK,
    A_LATE_FRAME,
    TOO_LATE,
];

/// The capture of an example.
fn capture_of(alloc: Global, example: &Example) -> Result<Vec<u8>, Fail> {
    let mut capture = Vec::from_slice(alloc, &HEADER)?;
    for (stamp, kept, number) in example.capture {
        push_packet(&mut capture, *stamp, 5, *kept, *number)?;
    }
    Ok(capture)
}

/// The run has left what it has to.
fn has_left(rt: &impl Abort, ran: &Ran, example: &Example, capture: &[u8]) {
    assert!(rt; ran.ledger.taken() == example.ledger.as_bytes());
    assert!(rt; ran.capture.taken() == capture);
    match ran.outcome {
        Ok(counts) => {
            let [a, b] = example.endings;
            assert!(rt; counts.a == a && counts.b == b);
            assert!(rt; counts.totals.frames == example.frames);
        }
        Err(fault) => panic!(rt; "a fault: {fault}"),
    }
}

/// The run leaves it, however many bytes the devices pass at once.
fn leaves_by<R: Threads + Wait + Sync + Abort + AllocGlobal>(
    rt: &R,
    way: Way,
    given: Given<'_>,
    example: &Example,
) -> Result<(), Fail> {
    let capture = capture_of(rt.alloc(), example)?;
    for piece in [1, 7, usize::MAX] {
        let narrow = Script { piece, ..WIDE };
        let scripts = Scripts {
            a: narrow,
            b: narrow,
            capture: narrow,
            ledger: narrow,
        };
        has_left(rt, &run(rt, way, given, scripts)?, example, &capture);
    }
    Ok(())
}

/// The run leaves it, however it is done.
fn leaves<R: Threads + Wait + Sync + Abort + AllocGlobal>(
    rt: &R,
    example: &Example,
) -> Result<(), Fail> {
    let mut a = recording(rt.alloc(), example.a)?;
    if example.is_cut {
        a.pop();
    }
    let b = recording(rt.alloc(), example.b)?;
    let given = Given {
        table: example.table,
        filters: example.filters,
        a: &a,
        b: &b,
    };
    for way in &WAYS {
        leaves_by(rt, *way, given, example)?;
    }
    Ok(())
}

#[test]
fn worked_examples(rt: HostRuntime) -> Result<(), Fail> {
    for example in &EXAMPLES {
        leaves(&rt, example)?;
    }
    Ok(())
}

/// The run ends with this fault, has written nothing, and gives both sources back. Returns how many bytes
/// were read.
fn refuses<R: Threads + Wait + Sync + Abort + AllocGlobal>(
    rt: &R,
    way: Way,
    given: Given<'_>,
    fault: WatchFault,
) -> Result<u64, Fail> {
    let ran = run(rt, way, given, NO_FAILURE)?;
    assert!(rt; ran.outcome.err() == Some(fault));
    assert!(rt; ran.capture.taken().is_empty());
    assert!(rt; ran.ledger.taken().is_empty());
    assert!(rt; ran.failures() == Some([0; 4]));
    match (&ran.a, &ran.b) {
        (Some(a), Some(b)) => Ok(a.passed.saturating_add(b.passed)),
        _ => panic!(rt; "a source is lost"),
    }
}

/// Both recordings.
type Taps = (&'static [u8], &'static [u8]);

const NO_BYTES: Taps = (&[], &[]);

const NO_FRAMES: Taps = (&HEADER, &HEADER);

/// Numbers of filters that are refused before anything is read.
const FILTERS: [(&[&str], Taps); 4] = [
    (&[], NO_BYTES),
    (&[], NO_FRAMES),
    (&[EVERY; 9], NO_BYTES),
    (&[EVERY; 9], NO_FRAMES),
];

#[test]
fn numbers_of_filters(rt: HostRuntime) -> Result<(), Fail> {
    for (filters, (a, b)) in &FILTERS {
        let given = Given {
            table: TABLE,
            filters: *filters,
            a: *a,
            b: *b,
        };
        for way in &WAYS {
            assert!(rt; refuses(&rt, *way, given, WatchFault::Filters)? == 0);
        }
    }
    Ok(())
}

/// What is wrong beside the number of workers, which is refused first: the filters, and the recordings.
const BESIDE_WORKERS: [(&[&str], Taps); 4] = [
    (&[EVERY], NO_FRAMES),
    (&[EVERY], NO_BYTES),
    (&[], NO_BYTES),
    (&[EVERY; 9], NO_FRAMES),
];

#[test]
fn numbers_of_workers(rt: HostRuntime) -> Result<(), Fail> {
    for (filters, (a, b)) in &BESIDE_WORKERS {
        let given = Given {
            table: TABLE,
            filters: *filters,
            a: *a,
            b: *b,
        };
        for workers in [0, 9, 256, u32::MAX] {
            let read = refuses(&rt, Way::Workers(workers), given, WatchFault::Workers)?;
            assert!(rt; read == 0, "{workers} workers");
        }
    }
    Ok(())
}

const SHORT: [u8; 24] = [0; 24];

const PART: [u8; 23] = [
    0x4d, 0x3c, 0xb2, 0xa1, 2, 0, 4, 0, 0, 0, 0, 0, 0, 0, 0, 0, 0, 0, 4, 0, 1, 0, 0,
];

/// Recordings of which one has no file header, its network, and the fault.
const HEADERLESS: [(Taps, Network, HeaderFault); 4] = [
    (NO_BYTES, Network::A, HeaderFault::Short),
    ((&SHORT, &HEADER), Network::A, HeaderFault::Magic),
    ((&HEADER, &PART), Network::B, HeaderFault::Short),
    ((&HEADER, &SHORT), Network::B, HeaderFault::Magic),
];

#[test]
fn taps_without_a_header(rt: HostRuntime) -> Result<(), Fail> {
    for ((a, b), network, fault) in &HEADERLESS {
        let given = Given {
            table: TABLE,
            filters: &[EVERY],
            a: *a,
            b: *b,
        };
        let fault = WatchFault::Header {
            network: *network,
            fault: *fault,
        };
        for way in &WAYS {
            refuses(&rt, *way, given, fault)?;
        }
    }
    Ok(())
}
