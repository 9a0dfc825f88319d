//! Recordings that are truncated, wrong file headers, and microseconds.

use crate::recording::opened;
use crate::recording::writer::begun;
use crate::support::{FIRST_RUN, HEADER, SOUND};
use afdx_frame::{LentFrame, Network, Stamp};
use pcap_io::{BadReason, Ending, Found, HeaderFault, MemSource, OpenFault, Script, TapReader};
use std::alloc::AllocError;
use std::process::Abort;
use super::comes;

/// Lengths to which the first run's recording is truncated, from the first to below the second, how many
/// frames there are, and the ending.
const CUTS: [(usize, usize, usize, Ending); 5] = [
    (24, 25, 0, Ending::Clean(0)),
    (25, 100, 0, Ending::Cut(0)),
    (100, 101, 1, Ending::Clean(1)),
    (101, 176, 1, Ending::Cut(1)),
    (176, 177, 2, Ending::Clean(2)),
];

/// The recording of these bytes has so many frames and this ending.
fn gives(
    rt: &(impl Abort + AllocGlobal),
    bytes: &[u8],
    frames: usize,
    ending: Ending,
) -> Result<(), AllocError> {
    let source = MemSource::new(Vec::from_slice(rt.alloc(), bytes)?, SOUND);
    let mut reader = opened(rt, source, 0);
    comes(rt, &mut reader, true, frames, [Ok(Some(ending)); 2]);
    Ok(())
}

#[test]
fn known_cuts(rt: HostRuntime) -> Result<(), AllocError> {
    let mut bytes = FIRST_RUN;
    for (from, to, frames, ending) in &CUTS {
        for len in *from..*to {
            gives(&rt, &bytes[..len.min(176)], *frames, *ending)?;
        }
    }
    // One byte more is claimed, and so the second packet begins one byte late.
    bytes[32] = 61;
    gives(&rt, &bytes, 1, Ending::Bad(1, BadReason::Length))
}

/// How long the file header is, which of its bytes is another, which call of the source fails, and the fault.
const HEADER_FAULTS: [(usize, usize, u8, Option<u64>, OpenFault); 7] = [
    (23, 0, 0x4d, None, OpenFault::Header(HeaderFault::Short)),
    (24, 0, 0x4e, None, OpenFault::Header(HeaderFault::Magic)),
    (24, 4, 3, None, OpenFault::Header(HeaderFault::Version)),
    (24, 6, 3, None, OpenFault::Header(HeaderFault::Version)),
    (24, 20, 2, None, OpenFault::Header(HeaderFault::LinkType)),
    (24, 23, 1, None, OpenFault::Header(HeaderFault::LinkType)),
    (24, 0, 0x4d, Some(0), OpenFault::Device),
];

/// Why a source isn't opened, if it isn't.
fn fault_of(source: MemSource) -> Option<OpenFault> {
    match TapReader::open(source, Network::A, 1 << 32, 0) {
        Ok(_) => None,
        Err(refused) => Some(refused.fault),
    }
}

#[test]
fn header_faults(rt: HostRuntime) -> Result<(), AllocError> {
    for (len, at, byte, miss, fault) in &HEADER_FAULTS {
        assert!(rt; *len <= 24 && *at < 24);
        let mut header = HEADER;
        header[*at] = *byte;
        let bytes = Vec::from_slice(rt.alloc(), &header[..*len])?;
        let script = Script {
            miss: *miss,
            ..SOUND
        };
        assert!(rt; fault_of(MemSource::new(bytes, script)) == Some(*fault));
    }
    Ok(())
}

/// A recording of microseconds, big-endian, with one packet of 60 bytes.
const MICROSECONDS: [u8; 100] = [
    0xa1, 0xb2, 0xc3, 0xd4, 0, 2, 0, 4, 0, 0, 0, 0, 0, 0, 0, 0, 0, 4, 0, 0, 0, 0, 0, 1, 0, 0, 0, 1,
    0, 0, 0, 5, 0, 0, 0, 0x3c, 0, 0, 0, 0x3c, 7, 7, 7, 7, 7, 7, 7, 7, 7, 7, 7, 7, 7, 7, 7, 7, 7, 7,
    7, 7, 7, 7, 7, 7, 7, 7, 7, 7, 7, 7, 7, 7, 7, 7, 7, 7, 7, 7, 7, 7, 7, 7, 7, 7, 7, 7, 7, 7, 7, 7,
    7, 7, 7, 7, 7, 7, 7, 7, 7, 7,
];

/// The same in nanoseconds, little-endian: 40 of the bytes are kept.
const NANOSECONDS: [u8; 80] = [
    0x4d, 0x3c, 0xb2, 0xa1, 2, 0, 4, 0, 0, 0, 0, 0, 0, 0, 0, 0, 0, 0, 4, 0, 1, 0, 0, 0, 1, 0, 0, 0,
    0x88, 0x13, 0, 0, 40, 0, 0, 0, 60, 0, 0, 0, 7, 7, 7, 7, 7, 7, 7, 7, 7, 7, 7, 7, 7, 7, 7, 7, 7,
    7, 7, 7, 7, 7, 7, 7, 7, 7, 7, 7, 7, 7, 7, 7, 7, 7, 7, 7, 7, 7, 7, 7,
];

/// The frame of the packet is written with 40 of its bytes.
fn is_written(rt: &(impl Abort + AllocGlobal), frame: &LentFrame<'_>) -> Result<(), AllocError> {
    assert!(rt; frame.view().bytes() == &MICROSECONDS[40..]);
    let mut writer = begun(rt, Script { most: 100, ..SOUND })?;
    assert!(rt; writer.put_lent(frame, 40) == Ok(()));
    assert!(rt; writer.finish().taken() == NANOSECONDS.as_slice());
    Ok(())
}

#[test]
fn microseconds_are_read_and_written_as_nanoseconds(rt: HostRuntime) -> Result<(), AllocError> {
    let bytes = Vec::from_slice(rt.alloc(), &MICROSECONDS)?;
    let mut reader = opened(&rt, MemSource::new(bytes, SOUND), 0);
    assert!(rt; reader.advance(rt.alloc()) == Ok(Found::Frame));
    let frame = reader.frame();
    assert!(rt; frame.stamp() == Stamp(1_000_005_000));
    is_written(&rt, &frame)
}
