//! Devices that stop, or fail once and go on, while the two-tap ledger is written: the fault is that
//! device's, it has failed once, and each output has a prefix of its text.

use crate::support::{SOUND, TABLE, TWO_TAPS};
use crate::watch::{Given, NO_FAILURE, NOT_FIRST, Ran, Scripts, WIDE, Way, recording, run};
use afdx_frame::Network;
use pcap_io::Script;
use run_fault::{Output, WatchFault};
use std::process::Abort;
use std::sync::Wait;
use std::test::Fail;
use std::thread::Threads;

/// A device of a run.
#[derive(Clone, Copy)]
enum Device {
    A,
    B,
    Capture,
    Ledger,
}

/// What a run leaves in its outputs: so many bytes, or any prefix.
type Left = (Option<usize>, Option<usize>);

/// The device that fails, after how many bytes, and what is left.
type Case = (Device, usize, Left);

/// Sources that fail in a run on threads, which leaves what is safe.
const SOURCES: [Case; 9] = [
    (Device::A, 0, (Some(0), Some(0))),
    (Device::A, 23, (Some(0), Some(0))),
    (Device::A, 24, (Some(24), Some(14))),
    // A's first frame is safe, and not accepted.
    (Device::A, 100, (Some(24), Some(58))),
    // Both frames of A are safe, that of B is not.
    (Device::A, 176, (Some(100), Some(104))),
    (Device::B, 0, (Some(0), Some(0))),
    (Device::B, 24, (Some(24), Some(14))),
    (Device::B, 99, (Some(24), Some(14))),
    // The frame of B, and those of A, which come before it.
    (Device::B, 100, (Some(176), Some(148))),
];

/// On one thread it leaves a prefix of what belongs to the frames that were given.
const SOURCES_OF_ONE: [Case; 6] = [
    (Device::A, 0, (Some(0), Some(0))),
    (Device::A, 176, (None, None)),
    (Device::B, 0, (Some(0), Some(0))),
    (Device::B, 24, (None, None)),
    (Device::B, 99, (None, None)),
    (Device::B, 100, (None, None)),
];

/// Sinks that fail, which have taken this many bytes.
const SINKS: [Case; 7] = [
    (Device::Capture, 0, (Some(0), Some(0))),
    (Device::Capture, 24, (Some(24), None)),
    (Device::Capture, 99, (Some(99), None)),
    (Device::Capture, 175, (Some(175), None)),
    (Device::Ledger, 0, (None, Some(0))),
    (Device::Ledger, 58, (None, Some(58))),
    (Device::Ledger, 200, (None, Some(200))),
];

/// The devices where one follows a script, how often each fails, and the fault.
fn scripts_of(device: Device, script: Script) -> (Scripts, [u64; 4], WatchFault) {
    let sound = NO_FAILURE;
    match device {
        Device::A => (
            Scripts { a: script, ..sound },
            [1, 0, 0, 0],
            WatchFault::Read {
                network: Network::A,
            },
        ),
        Device::B => (
            Scripts { b: script, ..sound },
            [0, 1, 0, 0],
            WatchFault::Read {
                network: Network::B,
            },
        ),
        Device::Capture => (
            Scripts {
                capture: script,
                ..sound
            },
            [0, 0, 1, 0],
            WatchFault::Write {
                output: Output::Capture,
            },
        ),
        Device::Ledger => (
            Scripts {
                ledger: script,
                ..sound
            },
            [0, 0, 0, 1],
            WatchFault::Write {
                output: Output::Ledger,
            },
        ),
    }
}

/// The two-tap ledger, over these devices.
fn ran<R: Threads + Wait + Sync + AllocGlobal>(
    rt: &R,
    way: Way,
    scripts: Scripts,
) -> Result<Ran, Fail> {
    let a = recording(rt.alloc(), &[(0, 1), (100, 2)])?;
    let b = recording(rt.alloc(), &[(200, 2)])?;
    let given = Given {
        table: TABLE,
        filters: &[NOT_FIRST],
        a: &a,
        b: &b,
    };
    run(rt, way, given, scripts)
}

/// A prefix of the whole text, of so many bytes where that is known.
fn is_prefix(written: &[u8], whole: &[u8], len: Option<usize>) -> bool {
    whole.starts_with(written) && len.unwrap_or(written.len()) == written.len()
}

/// Where a device follows this script, the run ends with that device's fault.
fn fails<R: Threads + Wait + Sync + Abort + AllocGlobal>(
    rt: &R,
    way: Way,
    device: Device,
    script: Script,
    left: Left,
) -> Result<(), Fail> {
    let (scripts, failures, fault) = scripts_of(device, script);
    let ran = ran(rt, way, scripts)?;
    assert!(rt; ran.outcome.err() == Some(fault));
    assert!(rt; ran.failures() == Some(failures));
    let capture = recording(rt.alloc(), &[(100, 2), (200, 2)])?;
    assert!(rt; is_prefix(ran.capture.taken(), &capture, left.0));
    assert!(rt; is_prefix(ran.ledger.taken(), TWO_TAPS.as_bytes(), left.1));
    Ok(())
}

/// Devices that pass this many bytes at once, and stop; and one of single bytes that fails once.
fn scripts_after(most: usize) -> [Script; 4] {
    let stops = Script { most, ..SOUND };
    [
        Script { piece: 1, ..stops },
        Script { piece: 7, ..stops },
        stops,
        Script {
            piece: 1,
            miss: Some(most as u64),
            ..WIDE
        },
    ]
}

/// Ways, and what fails in them.
const RUNS: [(Way, &[Case]); 4] = [
    (Way::Workers(2), &SOURCES),
    (Way::OneThread, &SOURCES_OF_ONE),
    (Way::Workers(2), &SINKS),
    (Way::OneThread, &SINKS),
];

#[test]
fn devices_that_stop_or_fail_once(rt: HostRuntime) -> Result<(), Fail> {
    for (way, cases) in &RUNS {
        for (device, most, left) in *cases {
            for script in &scripts_after(*most) {
                fails(&rt, *way, *device, *script, *left)?;
            }
        }
    }
    Ok(())
}
