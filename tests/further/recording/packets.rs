//! Packets made in memory: they are what the writer writes of their frames, and the writer puts them as they
//! are.

use crate::recording::copies::LONGEST;
use crate::support::{HEADER, SOUND};
use afdx_frame::{FrameBytes, Network, Stamp, TapFrame};
use pcap_io::{CaptureWriter, MemSink, Script, WriteFault, WriteSink, append_packet};
use std::alloc::Global;
use std::process::Abort;
use std::sync::Arc;
use std::test::Fail;

/// The packet of a frame of two bytes at 258 ns.
const PACKET: [u8; 18] = [0, 0, 0, 0, 2, 1, 0, 0, 2, 0, 0, 0, 2, 0, 0, 0, 9, 9];

/// Stamp, length on the wire, captured bytes.
const FRAMES: [(u64, u32, usize); 7] = [
    (258, 2, 2),
    (0, 0, 0),
    (1, 60, 0),
    (1_000_000_000, 60, 60),
    (1_999_999_999, 1514, 64),
    (4_294_967_295_999_999_999, u32::MAX, 1514),
    (7_000_000_123, 262_144, LONGEST),
];

/// A frame of these parts, whose bytes stand in a block before one that isn't the frame's.
fn frame_of(alloc: Global, stamp: u64, whole: u32, captured: usize) -> Result<TapFrame, Fail> {
    let mut block = Vec::new(alloc);
    for place in 0..captured {
        block.push(place.to_le_bytes()[0] ^ 9)?;
    }
    let to = block.len();
    block.push(7)?;
    let bytes = FrameBytes::part(&Arc::new(alloc, block)?, 0, to)?;
    match TapFrame::sharing(Network::A, 0, Stamp(stamp), whole, bytes) {
        Some(frame) => Ok(frame),
        None => Err("no such frame".into()),
    }
}

fn begun(alloc: Global) -> Result<CaptureWriter<WriteSink<Vec<u8>>>, Fail> {
    match CaptureWriter::begin(WriteSink::new(Vec::new(alloc))) {
        Ok(writer) => Ok(writer),
        Err(_) => Err("the sink failed".into()),
    }
}

#[test]
fn packets_are_what_is_put_of_their_frames(rt: HostRuntime) -> Result<(), Fail> {
    let alloc = rt.alloc();
    let mut one_by_one = begun(alloc)?;
    let mut packets = Vec::new(alloc);
    for (stamp, whole, captured) in FRAMES {
        let frame = frame_of(alloc, stamp, whole, captured)?;
        let captured = frame.view().bytes().len() as u32;
        for most in [0, 1, 59, u32::MAX] {
            let keep = captured.min(most);
            one_by_one.put(&frame, keep)?;
            append_packet(&mut packets, &frame.lent(), keep)?;
        }
    }
    let mut at_once = begun(alloc)?;
    at_once.put_packets(&packets)?;
    let written = one_by_one.finish().into_writer();
    assert!(rt; written.starts_with(&HEADER));
    assert!(rt; written.ends_with(&packets));
    assert!(rt; written.len() == packets.len().saturating_add(24));
    assert!(rt; at_once.finish().into_writer() == written);
    Ok(())
}

/// The frame of two bytes of value 9.
fn frame_of_two(alloc: Global) -> Result<TapFrame, Fail> {
    let bytes = Vec::from_slice(alloc, &[9; 2])?;
    match TapFrame::new(Network::A, 0, Stamp(258), 2, bytes) {
        Ok(frame) => Ok(frame),
        Err(_) => Err("no such frame".into()),
    }
}

/// The packet of which one byte is kept, after the seconds of its timestamp.
const END_OF_CUT_PACKET: [u8; 13] = [2, 1, 0, 0, 1, 0, 0, 0, 2, 0, 0, 0, 9];

#[test]
fn a_packet_is_appended_to_what_stands_there(rt: HostRuntime) -> Result<(), Fail> {
    let alloc = rt.alloc();
    let frame = frame_of_two(alloc)?;
    let mut bytes = Vec::from_slice(alloc, b"before")?;
    let captured = frame.view().bytes().len() as u32;
    append_packet(&mut bytes, &frame.lent(), captured)?;
    assert!(rt; bytes.len() == 6 + 18);
    assert!(rt; bytes.starts_with(b"before"));
    assert!(rt; bytes.ends_with(&PACKET));
    append_packet(&mut bytes, &frame.lent(), captured.min(1))?;
    assert!(rt; bytes.len() == 6 + 18 + 17);
    assert!(rt; bytes.starts_with(b"before"));
    assert!(rt; bytes.ends_with(&END_OF_CUT_PACKET));
    Ok(())
}

/// A frame of twenty bytes.
fn frame_of_twenty(alloc: Global) -> Result<TapFrame, Fail> {
    frame_of(alloc, 1_000_000_000, 60, 20)
}

/// The capture of two frames, and its packets.
fn capture_of_two(alloc: Global) -> Result<(Vec<u8>, Vec<u8>), Fail> {
    let mut packets = Vec::new(alloc);
    for frame in [frame_of_two(alloc)?, frame_of_twenty(alloc)?] {
        let captured = frame.view().bytes().len() as u32;
        append_packet(&mut packets, &frame.lent(), captured)?;
    }
    let mut capture = Vec::from_slice(alloc, &HEADER)?;
    capture.extend_from_slice(&packets)?;
    Ok((capture, packets))
}

/// Puts the packets to a sink that fails: it keeps what was written before, and nothing is written after.
fn puts_a_prefix(
    rt: &(impl Abort + AllocGlobal),
    script: Script,
    written: usize,
) -> Result<(), Fail> {
    let (capture, packets) = capture_of_two(rt.alloc())?;
    assert!(rt; written < capture.len());
    let sink = match CaptureWriter::begin(MemSink::new(rt.alloc(), script)?) {
        Err(sink) => {
            assert!(rt; written < 24);
            sink
        }
        Ok(mut writer) => {
            assert!(rt; written >= 24);
            assert!(rt; writer.put_packets(&packets) == Err(WriteFault::Device));
            assert!(rt; writer.put_packets(&packets) == Err(WriteFault::Failed));
            assert!(rt; writer.put_packets(&[]) == Err(WriteFault::Failed));
            let frame = frame_of_two(rt.alloc())?;
            assert!(rt; writer.put(&frame, 0) == Err(WriteFault::Failed));
            writer.finish()
        }
    };
    assert!(rt; sink.taken() == &capture[..written]);
    Ok(())
}

/// The bytes of the capture of two frames.
const CAPTURE_LEN: usize = 24 + 18 + 36;

#[test]
fn a_sink_that_fails_after_each_byte(rt: HostRuntime) -> Result<(), Fail> {
    for most in 0..CAPTURE_LEN {
        for piece in [1, 5, usize::MAX] {
            let script = Script {
                piece,
                most,
                ..SOUND
            };
            puts_a_prefix(&rt, script, most)?;
        }
    }
    Ok(())
}

#[test]
fn a_sink_that_fails_at_each_call(rt: HostRuntime) -> Result<(), Fail> {
    // Pieces that divide the file header and the packets.
    for (piece, calls) in [(1, CAPTURE_LEN), (3, CAPTURE_LEN / 3), (6, CAPTURE_LEN / 6)] {
        for call in 0..calls {
            let script = Script {
                piece,
                most: 4096,
                miss: Some(call as u64),
            };
            puts_a_prefix(&rt, script, piece * call)?;
        }
    }
    Ok(())
}

#[test]
fn packets_are_put_in_one_go(rt: HostRuntime) -> Result<(), Fail> {
    let (capture, packets) = capture_of_two(rt.alloc())?;
    // The third call would fail: the file header is one, and all packets are one.
    let script = Script {
        most: 4096,
        miss: Some(2),
        ..SOUND
    };
    let Ok(mut writer) = CaptureWriter::begin(MemSink::new(rt.alloc(), script)?) else {
        return Err("the sink failed".into());
    };
    // No packets are no call.
    writer.put_packets(&[])?;
    writer.put_packets(&packets)?;
    writer.put_packets(&[])?;
    assert!(rt; writer.put_packets(&packets) == Err(WriteFault::Device));
    assert!(rt; writer.finish().taken() == capture.as_slice());
    Ok(())
}

#[test]
fn frames_after_packets(rt: HostRuntime) -> Result<(), Fail> {
    let alloc = rt.alloc();
    let (capture, packets) = capture_of_two(alloc)?;
    let mut writer = begun(alloc)?;
    assert!(rt; packets.len() > 18);
    writer.put_packets(&packets[..18])?;
    let frame = frame_of_twenty(alloc)?;
    let captured = frame.view().bytes().len() as u32;
    writer.put(&frame, captured)?;
    assert!(rt; writer.finish().into_writer().as_slice() == capture.as_slice());
    Ok(())
}
