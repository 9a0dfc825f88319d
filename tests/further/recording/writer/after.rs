//! A frame that is put after a packet that was made in memory.

use crate::support::SOUND;
use afdx_frame::TapFrame;
use pcap_io::Script;
use std::alloc::AllocError;
use std::process::Abort;
use super::{PACKET, PACKETS, begun, frame_of_two};

/// Puts the packet of the frame, and then the frame.
fn puts_both(rt: &(impl Abort + AllocGlobal), frame: &TapFrame) -> Result<(), AllocError> {
    let captured = frame.view().bytes().len() as u32;
    let mut writer = begun(rt, Script { most: 100, ..SOUND })?;
    assert!(rt; writer.put_packets(&PACKET) == Ok(()));
    assert!(rt; writer.put(frame, captured) == Ok(()));
    let sink = writer.finish();
    assert!(rt; sink.taken().len() == 60);
    assert!(rt; sink.taken().ends_with(&PACKETS));
    Ok(())
}

#[test]
fn a_frame_after_a_packet(rt: HostRuntime) -> Result<(), AllocError> {
    puts_both(&rt, &frame_of_two(rt.alloc())?)
}
