//! Runs that are compared with that on one thread.

use crate::support::SOUND;
use crate::watch::{Given, NO_FAILURE, Ran, Scripts, Sink, Way, WatchCounts, run};
use pcap_io::Script;
use std::process::Abort;
use std::sync::Wait;
use std::test::Fail;
use std::thread::Threads;

/// What a run over devices that never fail leaves.
#[derive(Drop)]
pub struct Left {
    pub counts: WatchCounts,
    pub capture: Sink,
    pub ledger: Sink,
}

/// What a run on one thread leaves, whose outputs have no more than so many bytes each.
pub fn left_by_one<R: Threads + Wait + Sync + Abort + AllocGlobal>(
    rt: &R,
    given: Given<'_>,
    most: usize,
) -> Result<Left, Fail> {
    let ran = run(rt, Way::OneThread, given, roomy(most))?;
    match ran.outcome {
        Ok(counts) => Ok(Left {
            counts,
            capture: ran.capture,
            ledger: ran.ledger,
        }),
        Err(fault) => panic!(rt; "a fault: {fault}"),
    }
}

/// Devices that never fail, the outputs with room for so many bytes each.
pub fn roomy(most: usize) -> Scripts {
    let wide = Script { most, ..SOUND };
    Scripts {
        capture: wide,
        ledger: wide,
        ..NO_FAILURE
    }
}

/// The run leaves what that on one thread does, byte for byte.
pub fn leaves_the_same(rt: &impl Abort, ran: &Ran, expected: &Left) {
    match ran.outcome {
        Ok(counts) => {
            assert!(rt; counts.a == expected.counts.a && counts.b == expected.counts.b);
            assert!(rt; counts.totals == expected.counts.totals);
        }
        Err(fault) => panic!(rt; "a fault: {fault}"),
    }
    assert!(rt;
        ran.capture.taken() == expected.capture.taken(),
        "another capture"
    );
    assert!(rt;
        ran.ledger.taken() == expected.ledger.taken(),
        "another ledger"
    );
    assert!(rt; ran.failures() == Some([0; 4]));
}
