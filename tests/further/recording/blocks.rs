//! Recordings that are longer than the reader's block: the copy is the reference's, whatever sizes the
//! block, the reads and the records have.

use crate::recording::copies::{BLOCK, LONGEST, WAYS, copy, push_record, room, source};
use crate::recording::reference::{End, slow_capture};
use crate::support::HEADER;
use std::alloc::{AllocError, Global};
use std::process::Abort;
use std::test::Fail;

/// A recording of records of these lengths.
fn recording(alloc: Global, lens: &[usize]) -> Result<Vec<u8>, AllocError> {
    let mut bytes = Vec::from_slice(alloc, &HEADER)?;
    for (stamp, len) in lens.iter().enumerate() {
        push_record(
            &mut bytes,
            stamp,
            (*len).min(LONGEST),
            stamp.to_le_bytes()[0],
        )?;
    }
    Ok(bytes)
}

/// The copies of a recording in each way, read in such pieces, are the recording itself.
fn copies_itself(
    rt: &(impl Abort + AllocGlobal),
    bytes: &[u8],
    frames: u64,
    piece: usize,
) -> Result<(), Fail> {
    let alloc = rt.alloc();
    for way in WAYS {
        let source = source(alloc, bytes, piece)?;
        let sink = room(alloc, bytes.len(), usize::MAX)?;
        let (sink, end) = copy(alloc, source, sink, u32::MAX, way)?;
        assert!(rt; end == End::Clean(frames), "{way:?}, pieces of {piece}");
        assert!(rt; sink.taken() == bytes, "{way:?}, pieces of {piece}");
    }
    Ok(())
}

#[test]
fn a_record_across_the_end_of_the_block(rt: HostRuntime) -> Result<(), Fail> {
    let alloc = rt.alloc();
    // The block is filled after the first header. Its end falls on each byte of the second record.
    for short in 0..=80 {
        let bytes = recording(alloc, &[BLOCK - short, 60, 0, 60])?;
        for piece in [BLOCK, usize::MAX] {
            copies_itself(&rt, &bytes, 4, piece)?;
        }
    }
    Ok(())
}

/// Lengths of records, around those of a header, of frames and of the block.
const LENS: [usize; 18] = [
    60, 0, 1, 15, 16, 17, 1514, 9000, 60, 40_000, 1514, 0, 0, 60, 65_520, 65_536, 3, 1514,
];

#[test]
fn reads_of_each_size(rt: HostRuntime) -> Result<(), Fail> {
    let alloc = rt.alloc();
    let bytes = recording(alloc, &LENS)?;
    for piece in [1, 15, 16, 17, 1500, BLOCK, usize::MAX] {
        copies_itself(&rt, &bytes, 18, piece)?;
    }
    Ok(())
}

/// Lengths of records, of which some are the longest.
const LONG_LENS: [usize; 10] = [
    60,
    LONGEST,
    0,
    60,
    LONGEST,
    LONGEST,
    60,
    100_000,
    LONGEST - 1,
    60,
];

#[test]
fn the_longest_records_between_short_ones(rt: HostRuntime) -> Result<(), Fail> {
    let alloc = rt.alloc();
    let bytes = recording(alloc, &LONG_LENS)?;
    for piece in [16, 4096, BLOCK, usize::MAX] {
        copies_itself(&rt, &bytes, 10, piece)?;
    }
    // Truncated within the longest record.
    for len in [24 + 76 + 16, 24 + 76 + 17, 24 + 76 + 16 + LONGEST - 1] {
        assert!(rt; len <= bytes.len());
        for way in WAYS {
            let (want, end) = slow_capture(alloc, &bytes[..len], u32::MAX)?;
            let source = source(alloc, &bytes[..len], usize::MAX)?;
            let sink = room(alloc, len, usize::MAX)?;
            let (sink, found) = copy(alloc, source, sink, u32::MAX, way)?;
            assert!(rt; end == End::Cut(1));
            assert!(rt; found == end);
            assert!(rt; sink.taken() == want.as_slice());
        }
    }
    Ok(())
}

#[test]
fn thousands_of_frames(rt: HostRuntime) -> Result<(), Fail> {
    let alloc = rt.alloc();
    let lens = vec![in alloc; 1514; 3000]?;
    let bytes = recording(alloc, &lens)?;
    copies_itself(&rt, &bytes, 3000, usize::MAX)?;
    copies_itself(&rt, &bytes, 3000, 1500)
}
