//! The writer: what it puts of frames and of packets that were made in memory, also to a sink that fails.

use crate::recording::frame_of_two;
use crate::support::{HEADER, SOUND};
use afdx_frame::{Network, Stamp, TapFrame};
use pcap_io::{CaptureWriter, MemSink, Script, WriteFault};
use std::alloc::{AllocError, Global};
use std::process::Abort;

mod after;

/// The packet of the frame.
const PACKET: [u8; 18] = [0, 0, 0, 0, 2, 1, 0, 0, 2, 0, 0, 0, 2, 0, 0, 0, 9, 9];

/// The packet twice.
const PACKETS: [u8; 36] = [
    0, 0, 0, 0, 2, 1, 0, 0, 2, 0, 0, 0, 2, 0, 0, 0, 9, 9, 0, 0, 0, 0, 2, 1, 0, 0, 2, 0, 0, 0, 2, 0,
    0, 0, 9, 9,
];

/// The capture of the frame.
const CAPTURE: [u8; 42] = [
    0x4d, 0x3c, 0xb2, 0xa1, 2, 0, 4, 0, 0, 0, 0, 0, 0, 0, 0, 0, 0, 0, 4, 0, 1, 0, 0, 0, 0, 0, 0, 0,
    2, 1, 0, 0, 2, 0, 0, 0, 2, 0, 0, 0, 9, 9,
];

/// A writer to a sink that doesn't fail at once.
pub(crate) fn begun(
    rt: &(impl Abort + AllocGlobal),
    script: Script,
) -> Result<CaptureWriter<MemSink>, AllocError> {
    match CaptureWriter::begin(MemSink::new(rt.alloc(), script)?) {
        Ok(writer) => Ok(writer),
        Err(_) => panic!(rt; "the sink failed"),
    }
}

/// Puts the frame, or its packet, twice: the sink fails, and then the writer.
fn fails(rt: &impl Abort, writer: &mut CaptureWriter<MemSink>, frame: &TapFrame, as_packet: bool) {
    let captured = frame.view().bytes().len() as u32;
    for fault in [WriteFault::Device, WriteFault::Failed] {
        let put = if as_packet {
            writer.put_packets(&PACKET)
        } else {
            writer.put(frame, captured)
        };
        assert!(rt; put == Err(fault));
    }
}

/// Puts the frame, or its packet, to a sink that fails: it keeps what was written before, and nothing is
/// written after.
fn keeps_a_prefix(
    rt: &(impl Abort + AllocGlobal),
    frame: &TapFrame,
    script: Script,
    written: usize,
    as_packet: bool,
) -> Result<(), AllocError> {
    let sink = match CaptureWriter::begin(MemSink::new(rt.alloc(), script)?) {
        Err(sink) => {
            assert!(rt; written < 24);
            sink
        }
        Ok(mut writer) => {
            assert!(rt; written >= 24);
            fails(rt, &mut writer, frame, as_packet);
            writer.finish()
        }
    };
    assert!(rt; written < 42);
    assert!(rt; sink.taken() == &CAPTURE[..written]);
    Ok(())
}

#[test]
fn a_sink_that_fails(rt: HostRuntime) -> Result<(), AllocError> {
    let frame = frame_of_two(rt.alloc())?;
    for as_packet in [false, true] {
        for most in 0..42 {
            for piece in [1, usize::MAX] {
                let script = Script {
                    piece,
                    most,
                    ..SOUND
                };
                keeps_a_prefix(&rt, &frame, script, most, as_packet)?;
            }
        }
        // At one call alone, in pieces that divide the file header and the packet.
        for (piece, calls) in [(1, 42), (3, 14)] {
            for call in 0..calls {
                let script = Script {
                    piece,
                    most: 4096,
                    miss: Some(call as u64),
                };
                keeps_a_prefix(&rt, &frame, script, piece * call, as_packet)?;
            }
        }
    }
    Ok(())
}

#[test]
fn packets_are_put_in_one_go(rt: HostRuntime) -> Result<(), AllocError> {
    // The third call would fail: the file header is one, all packets are one, and no packets are none.
    let script = Script {
        most: 4096,
        miss: Some(2),
        ..SOUND
    };
    let mut writer = begun(&rt, script)?;
    for packets in [&[][..], &PACKETS, &[]] {
        assert!(rt; writer.put_packets(packets) == Ok(()));
    }
    assert!(rt; writer.put_packets(&PACKETS) == Err(WriteFault::Device));
    let sink = writer.finish();
    assert!(rt; sink.taken().len() == 60);
    assert!(rt; sink.taken().starts_with(&HEADER));
    assert!(rt; sink.taken().ends_with(&PACKETS));
    Ok(())
}
