//! Recordings of small frames, and what is found in them.

use crate::recording::push_packet;
use crate::support::{HEADER, SOUND};
use afdx_frame::{Network, Stamp, TapFrame};
use cut_run::{FindFault, FrameFinder};
use pcap_io::{MemSource, Script};
use std::alloc::{AllocError, Global};
use std::process::Abort;

/// What is asked for: a second, an index, and the fault.
type Asked = (u32, u8, Option<FindFault>);

/// A recording of frames of one byte, their index, at these seconds.
fn recording(alloc: Global, seconds: &[u32]) -> Result<Vec<u8>, AllocError> {
    let mut bytes = Vec::from_slice(alloc, &HEADER)?;
    for (index, second) in seconds.iter().enumerate() {
        push_packet(&mut bytes, [*second, 0, 1, 1], &[(index % 251) as u8])?;
    }
    Ok(bytes)
}

/// The frame is the one of this stamp and index.
fn is_frame(rt: &impl Abort, frame: &TapFrame, stamp: Stamp, index: u8) {
    assert!(rt; frame.number() == u64::from(index));
    assert!(rt; frame.stamp() == stamp);
    assert!(rt; matches!(frame.view().bytes(), [byte] if *byte == index));
}

/// Asks for frames at these seconds and indices, in turn: each has the fault, or the frame of the index.
fn asks(rt: &(impl Abort + AllocGlobal), source: MemSource, asked: &[Asked]) {
    let Ok(mut finder) = FrameFinder::open(rt.alloc(), source, Network::A) else {
        panic!(rt; "it isn't opened")
    };
    for (second, index, wanted) in asked {
        let stamp = Stamp(u64::from(*second) * 1_000_000_000);
        match finder.find(rt.alloc(), stamp, u64::from(*index)) {
            Ok(frame) => {
                assert!(rt; wanted.is_none());
                is_frame(rt, &frame, stamp, *index);
            }
            Err(fault) => assert!(rt; *wanted == Some(fault)),
        }
    }
}

const ABSENT: Option<FindFault> = Some(FindFault::Absent);

/// The seconds of frames, and what is asked for in their recording, whose source never fails.
const SOUND_ASKED: [(&[u32], &[Asked]); 9] = [
    // In order, all and some.
    (
        &[1, 2, 2, 5],
        &[(1, 0, None), (2, 1, None), (2, 2, None), (5, 3, None)],
    ),
    (&[1, 2, 2, 5], &[(2, 2, None), (5, 3, None)]),
    // Late ones. Those that nobody asks for are passed over.
    (
        &[9, 3, 7, 7, 1, 8],
        &[
            (1, 4, None),
            (3, 1, None),
            (7, 2, None),
            (7, 3, None),
            (8, 5, None),
            (9, 0, None),
        ],
    ),
    (
        &[9, 3, 7, 7, 1, 8],
        &[(3, 1, None), (7, 3, None), (9, 0, None)],
    ),
    // Absent ones: of no frames, one past the end, and then one that was passed.
    (&[], &[(0, 0, ABSENT), (1, 0, ABSENT)]),
    (&[1, 2], &[(1, 2, ABSENT), (2, 1, None), (3, 2, ABSENT)]),
    // Another timestamp, read on to and passed, below and above the frame's.
    (
        &[4, 6],
        &[(3, 0, ABSENT), (4, 0, None), (5, 1, ABSENT), (6, 1, None)],
    ),
    (&[4, 6], &[(5, 1, ABSENT), (7, 0, ABSENT)]),
    (&[8, 2], &[(2, 1, None), (7, 0, ABSENT), (8, 0, None)]),
];

#[test]
fn frames_by_timestamp_and_index(rt: HostRuntime) -> Result<(), AllocError> {
    for (seconds, asked) in &SOUND_ASKED {
        let source = MemSource::new(recording(rt.alloc(), seconds)?, SOUND);
        asks(&rt, source, asked);
    }
    Ok(())
}

/// The second frame is truncated.
const TRUNCATED_ASKED: [Asked; 3] = [(1, 0, None), (2, 1, ABSENT), (3, 1, ABSENT)];

/// The source fails within the second frame.
const FAILING_ASKED: [Asked; 3] = [
    (1, 0, None),
    (2, 1, Some(FindFault::Device)),
    (3, 1, Some(FindFault::Failed)),
];

#[test]
fn a_truncated_recording(rt: HostRuntime) -> Result<(), AllocError> {
    // After the file header and the first frame, within the second.
    for len in 41..58 {
        let mut bytes = recording(rt.alloc(), &[1, 2])?;
        bytes.truncate(len);
        asks(&rt, MemSource::new(bytes, SOUND), &TRUNCATED_ASKED);
    }
    Ok(())
}

#[test]
fn a_source_that_fails(rt: HostRuntime) -> Result<(), AllocError> {
    // After the same bytes; each later call fails too.
    for most in 41..58 {
        let bytes = recording(rt.alloc(), &[1, 2])?;
        asks(
            &rt,
            MemSource::new(bytes, Script { most, ..SOUND }),
            &FAILING_ASKED,
        );
    }
    Ok(())
}
