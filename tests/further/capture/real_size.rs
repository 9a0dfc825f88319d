//! Captures at real size: thousands of frames of 1514 bytes, frames of 262144 bytes, filters of 4096
//! instructions, texts of a hundred kilobytes. With ample memory none of them is refused.

use crate::support::{EVERY, HEADER, SOUND};
use capture_run::CaptureRun;
use pcap_io::{Ending, MemSink, MemSource, Script};
use specified::run_capture;
use std::alloc::{AllocError, Global};
use std::process::Abort;
use std::test::Fail;

/// A nanosecond recording of frames of these lengths, a nanosecond apart.
fn recording(alloc: Global, lengths: &[u32]) -> Result<Vec<u8>, AllocError> {
    let mut bytes = Vec::from_slice(alloc, &HEADER)?;
    let mut nanoseconds = 0u32;
    for len in lengths {
        bytes.extend_from_slice(&[0; 4])?;
        bytes.extend_from_slice(&nanoseconds.to_le_bytes())?;
        bytes.extend_from_slice(&len.to_le_bytes())?;
        bytes.extend_from_slice(&len.to_le_bytes())?;
        let end = bytes.len().saturating_add(*len as usize);
        bytes.resize(end, 7)?;
        nanoseconds = nanoseconds.wrapping_add(1);
    }
    Ok(bytes)
}

/// The filter keeps the whole recording, of so many frames.
fn is_kept_whole(
    rt: &impl Abort,
    alloc: Global,
    filter: &str,
    bytes: &[u8],
    count: u64,
) -> Result<(), AllocError> {
    let source = MemSource::new(Vec::from_slice(alloc, bytes)?, SOUND);
    let room = Script {
        most: bytes.len(),
        ..SOUND
    };
    let CaptureRun {
        outcome,
        source: _,
        sink,
    } = run_capture(alloc, filter, source, MemSink::new(alloc, room)?);
    match outcome {
        Ok(ending) => assert!(rt; ending == Ending::Clean(count)),
        Err(_) => assert!(rt; false, "a fault"),
    }
    assert!(rt; sink.taken() == bytes, "another capture than the recording");
    Ok(())
}

#[test]
fn thousands_of_frames(rt: HostRuntime) -> Result<(), Fail> {
    let lengths = vec![in rt.alloc(); 1514; 3000]?;
    let bytes = recording(rt.alloc(), &lengths)?;
    is_kept_whole(&rt, rt.alloc(), EVERY, &bytes, 3000)?;
    Ok(())
}

#[test]
fn the_longest_frames(rt: HostRuntime) -> Result<(), Fail> {
    let bytes = recording(rt.alloc(), &[60, 262_144, 61, 65_536, 0, 262_143, 60])?;
    is_kept_whole(&rt, rt.alloc(), EVERY, &bytes, 7)?;
    Ok(())
}

#[test]
fn the_longest_filter(rt: HostRuntime) -> Result<(), Fail> {
    let bytes = recording(rt.alloc(), &[60, 1514])?;
    let mut filter = String::from_str(rt.alloc(), "4096,")?;
    for _ in 0..4095 {
        // ld #7
        filter.push_str("0 0 0 7,")?;
    }
    // ret #-1
    filter.push_str("6 0 0 4294967295,")?;
    is_kept_whole(&rt, rt.alloc(), &filter, &bytes, 2)?;
    Ok(())
}

#[test]
fn a_long_text(rt: HostRuntime) -> Result<(), Fail> {
    let bytes = recording(rt.alloc(), &[60])?;
    let mut filter = String::from_str(rt.alloc(), "1,")?;
    for _ in 0..100_000 {
        filter.push_str(" ")?;
    }
    filter.push_str("6 0 0 4294967295,")?;
    is_kept_whole(&rt, rt.alloc(), &filter, &bytes, 1)?;
    Ok(())
}
