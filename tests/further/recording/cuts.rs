//! The recordings of the first run and of tap A of the two-tap ledger, truncated at every byte offset and
//! with every byte changed to every other value, and read and written in pieces: the copy and the ending
//! are those of the reference parser.

use crate::recording::copies::{WAYS, Way, copy, room, source};
use crate::recording::reference::{End, slow_capture};
use crate::support::{FIRST_RUN, ROOM, TAP_A};
use std::process::Abort;
use std::test::Fail;

/// How many bytes are kept of each frame.
const KEEPS: [u32; 2] = [u32::MAX, 20];

/// A copy in such pieces is the reference's, with the same ending.
fn agrees(
    rt: &(impl Abort + AllocGlobal),
    bytes: &[u8],
    keep: u32,
    pieces: (usize, usize),
    way: Way,
) -> Result<(), Fail> {
    let alloc = rt.alloc();
    let (want, end) = slow_capture(alloc, bytes, keep)?;
    let source = source(alloc, bytes, pieces.0)?;
    let sink = room(alloc, ROOM, pieces.1)?;
    let (sink, found) = copy(alloc, source, sink, keep, way)?;
    assert!(rt; found == end);
    assert!(rt; sink.taken() == want.as_slice());
    Ok(())
}

/// The sizes of the pieces that are read, and of those that are written.
const PIECES: [(usize, usize); 6] = [
    (usize::MAX, usize::MAX),
    (1, usize::MAX),
    (usize::MAX, 1),
    (1, 1),
    (7, 7),
    (0, 0),
];

#[test]
fn every_prefix(rt: HostRuntime) -> Result<(), Fail> {
    for keep in KEEPS {
        for pieces in PIECES {
            for len in 0..=176 {
                for way in WAYS {
                    agrees(&rt, &FIRST_RUN[..len], keep, pieces, way)?;
                    agrees(&rt, &TAP_A[..len], keep, pieces, way)?;
                }
            }
        }
    }
    Ok(())
}

/// The recording with each byte changed to each other value.
fn every_change(
    rt: &(impl Abort + AllocGlobal),
    recording: [u8; 176],
    keep: u32,
) -> Result<(), Fail> {
    let mut bytes = recording;
    for at in 0..176 {
        let before = bytes[at];
        for change in 1..=255u8 {
            bytes[at] = before ^ change;
            for way in WAYS {
                agrees(rt, &bytes, keep, (usize::MAX, usize::MAX), way)?;
            }
        }
        bytes[at] = before;
    }
    Ok(())
}

#[test]
fn every_changed_byte(rt: HostRuntime) -> Result<(), Fail> {
    for keep in KEEPS {
        every_change(&rt, FIRST_RUN, keep)?;
        every_change(&rt, TAP_A, keep)?;
    }
    Ok(())
}

/// Lengths to which the recording is truncated, from the first to below the second, and its ending.
const RANGES: [(usize, usize, End); 6] = [
    (0, 24, End::Short),
    (24, 25, End::Clean(0)),
    (25, 100, End::Cut(0)),
    (100, 101, End::Clean(1)),
    (101, 176, End::Cut(1)),
    (176, 177, End::Clean(2)),
];

#[test]
fn known_cuts(rt: HostRuntime) -> Result<(), Fail> {
    let alloc = rt.alloc();
    let mut bytes = FIRST_RUN;
    for (from, to, end) in RANGES {
        for len in from..to {
            assert!(rt; len <= 176);
            assert!(rt;
                slow_capture(alloc, &FIRST_RUN[..len], 0)?.1 == end,
                "{len} bytes"
            );
        }
    }
    // One byte more is claimed, and so the second record begins one byte late.
    bytes[32] = 61;
    assert!(rt; slow_capture(alloc, &bytes, 0)?.1 == End::Length(1));
    Ok(())
}
