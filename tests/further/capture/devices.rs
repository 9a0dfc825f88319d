//! Devices that fail once, or stop: the fault is that device's, and what was written is a prefix of the
//! capture.

use crate::ending::ends;
use crate::support::{EVERY, FIRST_RUN, ROOM, SOUND, WIDE, loaded};
use afdx_frame::Network;
use run_fault::{Output, WatchFault};
use pcap_io::{Ending, MemSink, MemSource, Script};
use specified::{capture_one, capture_over};
use std::alloc::{AllocError, Global};
use std::process::Abort;
use std::test::Fail;

mod stops;

/// What a device's fault is, and its line.
#[derive(Clone, Copy)]
pub(crate) struct Failing {
    fault: WatchFault,
    line: &'static str,
}

pub(crate) const READ: Failing = Failing {
    fault: WatchFault::Read {
        network: Network::A,
    },
    line: "afdxmon: watch 3 Read A",
};

pub(crate) const WRITE: Failing = Failing {
    fault: WatchFault::Write {
        output: Output::Capture,
    },
    line: "afdxmon: watch 4 Write capture",
};

/// The devices of a run.
fn devices(alloc: Global, scripts: (Script, Script)) -> Result<(MemSource, MemSink), AllocError> {
    let source = MemSource::new(Vec::from_slice(alloc, &FIRST_RUN)?, scripts.0);
    Ok((source, MemSink::new(alloc, scripts.1)?))
}

/// Runs `capture_one`. Returns the fault if there is one, and the sink.
fn captured(
    rt: &(impl Abort + AllocGlobal),
    scripts: (Script, Script),
) -> Result<(Option<WatchFault>, MemSink), Fail> {
    let program = loaded(rt.alloc(), EVERY)?;
    let (source, sink) = devices(rt.alloc(), scripts)?;
    match capture_one(rt.alloc(), &program, source, sink) {
        Ok((ending, _source, sink)) => {
            assert!(rt; ending == Ending::Clean(2));
            Ok((None, sink))
        }
        Err(refused) => Ok((Some(refused.fault), refused.capture)),
    }
}

/// Either nothing failed and all is written, or the fault is the given one and what is written is a prefix
/// of all.
fn is_right(fault: Option<WatchFault>, written: &[u8], failing: Failing) -> bool {
    match fault {
        None => written == FIRST_RUN.as_slice(),
        Some(fault) => fault == failing.fault && FIRST_RUN.starts_with(written),
    }
}

/// Runs `capture_one` and the command, which ends alike, over devices of which one may fail. Returns whether
/// it failed, and how many bytes were written.
pub(crate) fn tried(
    rt: &(impl Abort + AllocGlobal),
    scripts: (Script, Script),
    failing: Failing,
) -> Result<(bool, usize), Fail> {
    let (fault, sink) = captured(rt, scripts)?;
    assert!(rt; is_right(fault, sink.taken(), failing));
    let (source, second) = devices(rt.alloc(), scripts)?;
    let ran = capture_over(rt.alloc(), EVERY, source, second);
    let failed = fault.is_some();
    let line = if failed { failing.line } else { "" };
    ends(rt, &ran, line, sink.taken());
    Ok((failed, sink.taken().len()))
}

/// It passes a byte at each call, and the call after the first 30 fails.
const MISSES: Script = Script {
    piece: 1,
    most: ROOM,
    miss: Some(30),
};

const MISSES_AT_ONCE: Script = Script {
    miss: Some(0),
    ..SOUND
};

/// It passes a byte at each call, and fails after 99.
const STOPS_WITHIN: Script = Script {
    piece: 1,
    most: 99,
    miss: None,
};

const STOPS_AFTER_A_FRAME: Script = Script { most: 100, ..SOUND };

const STOPS_AFTER_50: Script = Script { most: 50, ..SOUND };

/// The source and the sink, which of them fails, and what is found: whether it failed, and how many bytes
/// were written. A capture has its file header, and the packets that lie whole in what the source gave.
static DEVICES: [(Script, Script, Failing, (bool, usize)); 7] = [
    (SOUND, WIDE, READ, (false, 176)),
    (STOPS_WITHIN, WIDE, READ, (true, 24)),
    (STOPS_AFTER_A_FRAME, WIDE, READ, (true, 100)),
    (MISSES, WIDE, READ, (true, 24)),
    (MISSES_AT_ONCE, WIDE, READ, (true, 0)),
    (SOUND, STOPS_AFTER_50, WRITE, (true, 50)),
    (SOUND, MISSES, WRITE, (true, 30)),
];

#[test]
fn a_device_that_fails(rt: HostRuntime) -> Result<(), Fail> {
    for (source, sink, failing, found) in &DEVICES {
        assert!(rt; tried(&rt, (*source, *sink), *failing)? == *found);
    }
    Ok(())
}
