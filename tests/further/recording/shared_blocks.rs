//! Frames share the reader's blocks: those that are held keep their bytes while the reader goes on, and
//! memory that comes back is used again without a trace of what stood there.

use crate::recording::copies::{LONGEST, push_record};
use crate::rings::Open;
use crate::support::{HEADER, SOUND};
use afdx_frame::{Network, TapFrame};
use pcap_io::{Ending, Found, Item, MemSource, TapReader};
use std::alloc::{AllocError, Global};
use std::collections::VecDeque;
use std::process::Abort;
use std::sync::Wait;
use std::test::Fail;
use std::thread;
use tap_queue::{TapEnd, TapItem, feed, tap_ring};

/// The lengths of the frames, in turn.
const LENS: [usize; 5] = [60, 1514, 61, 3000, 700];

/// The lengths of the reader's block: shorter than any frame, than most, and longer than all but one.
const BLOCKS: [usize; 5] = [64, 1000, 4096, 65_536, 131_072];

/// A recording of so many frames of these lengths, but the middle one is as long as a frame can be.
fn mixed(alloc: Global, count: usize) -> Result<Vec<u8>, AllocError> {
    let mut bytes = Vec::from_slice(alloc, &HEADER)?;
    for (place, len) in (0..count).zip(LENS.iter().cycle()) {
        let len = if place == count / 2 { LONGEST } else { *len };
        push_record(&mut bytes, place, len, place.to_le_bytes()[0])?;
    }
    Ok(bytes)
}

/// A reader of network B over memory.
fn reader_of(alloc: Global, bytes: &[u8]) -> Result<TapReader<MemSource>, Fail> {
    let source = MemSource::new(Vec::from_slice(alloc, bytes)?, SOUND);
    match TapReader::open(source, Network::B, 1 << 32, 0) {
        Ok(reader) => Ok(reader),
        Err(_) => Err("it isn't opened".into()),
    }
}

/// The frame is what the reader finds next.
fn is_next(
    rt: &(impl Abort + AllocGlobal),
    frame: &TapFrame,
    reader: &mut TapReader<MemSource>,
) -> Result<(), Fail> {
    match reader.advance(rt.alloc())? {
        Found::Frame => {
            let expected = reader.frame();
            assert!(rt; frame.key() == expected.key());
            assert!(rt; frame.whole() == expected.whole());
            assert!(rt; frame.view().bytes() == expected.view().bytes());
            Ok(())
        }
        Found::End(_) => Err("no frame".into()),
    }
}

/// Takes what a ring gives and holds the last so many frames. Before a frame goes it is still what a second
/// reader finds, which comes to it only then. Returns how many there were.
fn hold_frames<R: Wait + Abort + AllocGlobal>(
    rt: &R,
    end: TapEnd,
    behind: TapReader<MemSource>,
    held: usize,
) -> Result<u64, Fail> {
    let (mut end, mut behind) = (end, behind);
    let mut frames = VecDeque::new(rt.alloc());
    for _ in rt.forever() {
        let TapItem::Frame(frame) = end.take(rt)? else {
            break;
        };
        frames.push_back(frame)?;
        if frames.len() >= held
            && let Some(oldest) = frames.pop_front()
        {
            is_next(rt, &oldest, &mut behind)?;
        }
    }
    for frame in &frames {
        is_next(rt, frame, &mut behind)?;
    }
    match behind.advance(rt.alloc())? {
        Found::End(Ending::Clean(count)) => Ok(count),
        _ => Err("no clean ending".into()),
    }
}

#[test]
fn frames_that_are_held(rt: HostRuntime) -> Result<(), Fail> {
    let alloc = rt.alloc();
    let bytes = mixed(alloc, 3000)?;
    for block in BLOCKS {
        for held in [1, 64, 2000, usize::MAX] {
            let reader = reader_of(alloc, &bytes)?.with_block_len(block);
            let behind = reader_of(alloc, &bytes)?;
            let (put, end) = tap_ring(alloc, Network::B, 0)?;
            let (_, count) = thread::join(
                &rt,
                || feed(&rt, alloc, reader, put, &Open),
                || hold_frames(&rt, end, behind, held),
            );
            assert!(rt; count? == 3000, "{held} held, blocks of {block}");
        }
    }
    Ok(())
}

/// The length of each frame in a recording that is cut, and how many there are.
const LEN: usize = 100;

const COUNT: usize = 40;

/// A recording of frames of one length, of which all bytes but the last are the same.
fn alike(alloc: Global) -> Result<Vec<u8>, AllocError> {
    let mut bytes = Vec::from_slice(alloc, &HEADER)?;
    for place in 0..COUNT {
        push_record(&mut bytes, place, LEN, 9)?;
    }
    Ok(bytes)
}

/// Reads a recording and holds the last so many frames. Returns how many came, and the ending.
fn read_held(
    rt: &(impl Abort + AllocGlobal),
    reader: TapReader<MemSource>,
    held: usize,
) -> Result<(usize, Ending), Fail> {
    let mut reader = reader;
    let mut frames: VecDeque<TapFrame> = VecDeque::new(rt.alloc());
    for count in 0..=COUNT {
        match reader.next(rt.alloc())? {
            Item::End(ending) => return Ok((count, ending)),
            Item::Frame(frame) => {
                let bytes = frame.view().bytes();
                assert!(rt; bytes.len() == LEN);
                let alike = bytes.iter().filter(|byte| **byte == 9).count();
                assert!(rt; alike == LEN - 1);
                assert!(rt; bytes.last() == Some(&(9 ^ 0xff)));
                frames.push_back(frame)?;
            }
        }
        if frames.len() > held {
            drop(frames.pop_front());
        }
    }
    Err("no ending".into())
}

#[test]
fn a_cut_packet_in_memory_that_came_back(rt: HostRuntime) -> Result<(), Fail> {
    let alloc = rt.alloc();
    let bytes = alike(alloc)?;
    for block in [64, 116, 500, 4096] {
        for held in [0, 3, 20] {
            // What the last packet lacks stood in the memory before, as a frame's bytes.
            for cut in 1..=116 {
                assert!(rt; cut <= bytes.len());
                let reader = reader_of(alloc, &bytes[..bytes.len() - cut])?;
                let read = read_held(&rt, reader.with_block_len(block), held)?;
                let ending = if cut == 116 {
                    Ending::Clean(39)
                } else {
                    Ending::Cut(39)
                };
                assert!(rt;
                    read == (39, ending),
                    "{cut} bytes cut, {held} held, blocks of {block}"
                );
            }
        }
    }
    Ok(())
}
