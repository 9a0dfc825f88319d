//! The worked examples, as they are written, with each word of each judgement and the dashes where there is
//! none.

use crate::ledger::{TWO, WAYS, add, round_of};
use crate::rows::{FRAME, Row};
use crate::support::{SOUND, TABLE, TWO_TAPS};
use afdx_frame::Network;
use pcap_io::{BadReason, Ending, MemSink, Script};
use std::process::Abort;
use std::test::Fail;
use verdict_ledger::{Ledger, LedgerVersion};
use vl_config::Config;

/// A sink with room for each of them.
const WIDE: Script = Script {
    most: 4096,
    ..SOUND
};

/// Frames, how many filters there are, how both recordings ended, and the ledger.
#[derive(Clone, Copy)]
struct Example {
    table: &'static str,
    rows: &'static [Row],
    filters: u32,
    a: Ending,
    b: Ending,
    text: &'static str,
    /// How many frames each filter accepts.
    accepted: [u64; 8],
}

const TWO_TAP_LEDGER: Example = Example {
    table: TABLE,
    rows: &TWO,
    filters: 1,
    a: Ending::Clean(2),
    b: Ending::Clean(1),
    text: TWO_TAPS,
    accepted: [2, 0, 0, 0, 0, 0, 0, 0],
};

const A_SECOND_FILTER: Example = Example {
    rows: &[
        Row {
            keep: Some(8),
            mask: 2,
            ..FRAME
        },
        Row {
            place: 1,
            stamp: 100,
            number: 2,
            mask: 3,
            ..FRAME
        },
        Row {
            network: Network::B,
            stamp: 200,
            number: 2,
            mask: 3,
            ..FRAME
        },
    ],
    filters: 2,
    text: "afdx-ledger 2\n\
        0 A 0 5 1 regular within first deliver 8 02\n\
        100 A 1 5 2 regular within next deliver 60 03\n\
        200 B 0 5 2 regular within first copy 60 03\n\
        link 5 brake frames 3 toolong 0 excess 0 out 0 copy 1 delivered 2\n\
        filter 0 accepted 2\n\
        filter 1 accepted 3\n\
        tap A clean 2\n\
        tap B clean 1\n\
        total frames 3 accepted 3 cut 0 runt 0 oversize 0 foreign 0 unconfigured 0 toolong 0 \
        excess 0 out 0 copy 1 delivered 2\n",
    accepted: [2, 3, 0, 0, 0, 0, 0, 0],
    ..TWO_TAP_LEDGER
};

const TWO_EMPTY_TAPS: Example = Example {
    rows: &[],
    a: Ending::Clean(0),
    b: Ending::Clean(0),
    text: "afdx-ledger 2\n\
        link 5 brake frames 0 toolong 0 excess 0 out 0 copy 0 delivered 0\n\
        filter 0 accepted 0\n\
        tap A clean 0\n\
        tap B clean 0\n\
        total frames 0 accepted 0 cut 0 runt 0 oversize 0 foreign 0 unconfigured 0 toolong 0 \
        excess 0 out 0 copy 0 delivered 0\n",
    accepted: [0; 8],
    ..TWO_TAP_LEDGER
};

const A_COPY_AT_ONE_STAMP: Example = Example {
    rows: &[
        Row { stamp: 5, ..FRAME },
        Row {
            network: Network::B,
            stamp: 5,
            ..FRAME
        },
    ],
    a: Ending::Cut(1),
    b: Ending::Bad(1, BadReason::Fraction),
    text: "afdx-ledger 2\n\
        5 A 0 5 1 regular within first deliver 60 01\n\
        5 B 0 5 1 regular within first copy 60 01\n\
        link 5 brake frames 2 toolong 0 excess 0 out 0 copy 1 delivered 1\n\
        filter 0 accepted 2\n\
        tap A cut 1\n\
        tap B bad 1 fraction\n\
        total frames 2 accepted 2 cut 0 runt 0 oversize 0 foreign 0 unconfigured 0 toolong 0 \
        excess 0 out 0 copy 1 delivered 1\n",
    ..TWO_TAP_LEDGER
};

const A_LATE_FRAME: Example = Example {
    rows: &[
        FRAME,
        Row {
            place: 2,
            stamp: 1000,
            number: 2,
            ..FRAME
        },
        Row {
            place: 1,
            stamp: 2000,
            number: 3,
            ..FRAME
        },
    ],
    a: Ending::Bad(2, BadReason::StampBack { by: 1000 }),
    b: Ending::Clean(0),
    text: "afdx-ledger 2\n\
        0 A 0 5 1 regular within first deliver 60 01\n\
        1000 A 2 5 2 regular within next deliver 60 01\n\
        2000 A 1 5 3 regular within next deliver 60 01\n\
        link 5 brake frames 3 toolong 0 excess 0 out 0 copy 0 delivered 3\n\
        filter 0 accepted 3\n\
        tap A bad 2 stampback\n\
        tap B clean 0\n\
        total frames 3 accepted 3 cut 0 runt 0 oversize 0 foreign 0 unconfigured 0 toolong 0 \
        excess 0 out 0 copy 0 delivered 3\n",
    accepted: [3, 0, 0, 0, 0, 0, 0, 0],
    ..TWO_TAP_LEDGER
};

/// A frame that no filter accepts.
const DROPPED: Row = Row {
    keep: None,
    mask: 0,
    ..FRAME
};

/// One frame of each class, and frames that meet each judgement. The second link, 6, has integrity checking
/// and redundancy management off.
const EACH_WORD: Example = Example {
    table: crate::judges::TWO_LINKS,
    rows: &[
        Row {
            captured: 59,
            ..DROPPED
        },
        Row {
            place: 1,
            stamp: 1,
            whole: 59,
            captured: 59,
            ..DROPPED
        },
        Row {
            place: 2,
            stamp: 2,
            whole: 1515,
            captured: 1515,
            ..DROPPED
        },
        Row {
            place: 3,
            stamp: 3,
            first: 7,
            ..DROPPED
        },
        Row {
            place: 4,
            stamp: 4,
            link: 7,
            number: 9,
            ..DROPPED
        },
        Row {
            place: 5,
            stamp: 5,
            whole: 197,
            captured: 197,
            ..DROPPED
        },
        Row {
            place: 6,
            stamp: 1_000_000,
            whole: 196,
            captured: 196,
            ..DROPPED
        },
        Row {
            place: 7,
            stamp: 1_000_001,
            number: 2,
            ..DROPPED
        },
        Row {
            place: 8,
            stamp: 3_000_000,
            number: 0,
            ..DROPPED
        },
        Row {
            place: 9,
            stamp: 5_000_000,
            number: 1,
            ..DROPPED
        },
        Row {
            place: 10,
            stamp: 7_000_000,
            number: 3,
            ..DROPPED
        },
        Row {
            network: Network::B,
            stamp: 7_000_500,
            number: 3,
            keep: Some(60),
            mask: 0xaf,
            ..FRAME
        },
        Row {
            place: 11,
            stamp: 9_000_000,
            number: 9,
            ..DROPPED
        },
        Row {
            place: 12,
            stamp: 9_000_001,
            link: 6,
            number: 9,
            ..DROPPED
        },
        Row {
            place: 13,
            stamp: 9_000_002,
            whole: 0,
            captured: 0,
            ..DROPPED
        },
    ],
    filters: 8,
    a: Ending::Bad(14, BadReason::Length),
    b: Ending::Bad(1, BadReason::TooMany),
    text: "afdx-ledger 2\n\
        0 A 0 - - cut - - - - 00\n\
        1 A 1 - - runt - - - - 00\n\
        2 A 2 - - oversize - - - - 00\n\
        3 A 3 - - foreign - - - - 00\n\
        4 A 4 7 9 unconfigured - - - - 00\n\
        5 A 5 5 1 toolong - - - - 00\n\
        1000000 A 6 5 1 regular within first deliver - 00\n\
        1000001 A 7 5 2 regular excess - - - 00\n\
        3000000 A 8 5 0 regular within reset deliver - 00\n\
        5000000 A 9 5 1 regular within next deliver - 00\n\
        7000000 A 10 5 3 regular within skip deliver - 00\n\
        7000500 B 0 5 3 regular within first copy 60 af\n\
        9000000 A 11 5 9 regular within out - - 00\n\
        9000001 A 12 6 9 regular within off both - 00\n\
        9000002 A 13 - - runt - - - - 00\n\
        link 5 brake frames 8 toolong 1 excess 1 out 1 copy 1 delivered 4\n\
        link 6 flaps frames 1 toolong 0 excess 0 out 0 copy 0 delivered 1\n\
        filter 0 accepted 1\n\
        filter 1 accepted 1\n\
        filter 2 accepted 1\n\
        filter 3 accepted 1\n\
        filter 4 accepted 0\n\
        filter 5 accepted 1\n\
        filter 6 accepted 0\n\
        filter 7 accepted 1\n\
        tap A bad 14 length\n\
        tap B bad 1 toomany\n\
        total frames 15 accepted 1 cut 1 runt 2 oversize 1 foreign 1 unconfigured 1 toolong 1 \
        excess 1 out 1 copy 1 delivered 5\n",
    accepted: [1, 1, 1, 1, 0, 1, 0, 1],
};

const EXAMPLES: [Example; 6] = [
    TWO_TAP_LEDGER,
    A_SECOND_FILTER,
    TWO_EMPTY_TAPS,
    A_COPY_AT_ONE_STAMP,
    A_LATE_FRAME,
    EACH_WORD,
];

/// The example's ledger, of which no line is written yet.
fn begun(
    rt: &(impl Abort + AllocGlobal),
    config: &Config,
    filters: u32,
) -> Result<Ledger<MemSink>, Fail> {
    assert!(rt; 1 <= filters && filters <= 8);
    match Ledger::begin(rt.alloc(), config, filters, LedgerVersion::Two, MemSink::new(rt.alloc(), WIDE)?) {
        Ok(ledger) => Ok(ledger),
        Err(refused) => Err(refused.fault.into()),
    }
}

/// The ledger, finished, is the example's.
fn ends(rt: &impl Abort, ledger: Ledger<MemSink>, example: &Example) {
    match ledger.finish(example.a, example.b) {
        Ok((sink, totals)) => {
            assert!(rt; sink.taken() == example.text.as_bytes());
            assert!(rt; totals.frames == example.rows.len() as u64);
            assert!(rt; totals.filters == example.accepted);
        }
        Err(_) => panic!(rt; "the ledger wasn't finished"),
    }
}

/// The ledger of the frames is the example's, however it is written.
fn reads(rt: &(impl Abort + AllocGlobal), example: &Example) -> Result<(), Fail> {
    let config = Config::read(rt.alloc(), example.table)?;
    let round = round_of(rt, &config, example.rows).ok_or("no round")?;
    for by in &WAYS {
        let mut ledger = begun(rt, &config, example.filters)?;
        add(rt, &mut ledger, &round, *by)?;
        ends(rt, ledger, example);
    }
    Ok(())
}

#[test]
fn worked_examples(rt: HostRuntime) -> Result<(), Fail> {
    for example in &EXAMPLES {
        reads(&rt, example)?;
    }
    Ok(())
}
