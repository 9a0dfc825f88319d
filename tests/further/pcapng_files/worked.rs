//! Worked examples, and a source that fails once.

use crate::support::SOUND;
use afdx_frame::{Network, TapFrame};
use pcap_io::{Ending, Item, MemSource, Script, TapReader, TapSource};
use pcapng::{Choice, RecordingSource};
use std::alloc::{AllocError, Global};
use std::process::Abort;

/// A frame: its timestamp in nanoseconds, its length on the wire, and its captured bytes.
pub(super) type Wanted<'a> = (u64, u32, &'a [u8]);

/// A section header of 28 bytes, little-endian.
pub(super) const LITTLE: &[u8] = &[
    0x0a, 0x0d, 0x0d, 0x0a, 28, 0, 0, 0, 0x4d, 0x3c, 0x2b, 0x1a, 1, 0, 0, 0, 0xff, 0xff, 0xff,
    0xff, 0xff, 0xff, 0xff, 0xff, 28, 0, 0, 0,
];

/// An Ethernet interface in microseconds, little-endian.
pub(super) const ETHERNET: &[u8] = &[1, 0, 0, 0, 20, 0, 0, 0, 1, 0, 0, 0, 0, 0, 4, 0, 20, 0, 0, 0];

/// An enhanced packet of interface 0: timestamp 0x0000_0001_0000_0002, two bytes of sixty.
pub(super) const PACKET: &[u8] = &[
    6, 0, 0, 0, 36, 0, 0, 0, 0, 0, 0, 0, 1, 0, 0, 0, 2, 0, 0, 0, 2, 0, 0, 0, 60, 0, 0, 0, 7, 8, 0,
    0, 36, 0, 0, 0,
];

/// All these bytes, one after another.
pub(super) fn joined(alloc: Global, parts: &[&[u8]]) -> Result<Vec<u8>, AllocError> {
    let mut bytes = Vec::new(alloc);
    for part in parts {
        bytes.extend_from_slice(part)?;
    }
    Ok(bytes)
}

/// What reads a recording of this format.
type Reader = TapReader<RecordingSource<MemSource>>;

/// A source of these bytes as what they stand for.
pub(super) fn source_of(
    alloc: Global,
    bytes: &[u8],
    script: Script,
    choice: Choice,
) -> Result<RecordingSource<MemSource>, AllocError> {
    let source = MemSource::new(Vec::from_slice(alloc, bytes)?, script);
    match RecordingSource::new(alloc, source, choice) {
        Ok(source) => Ok(source),
        Err(_) => Err(AllocError),
    }
}

/// The frame is the one that is wanted.
fn is_wanted(rt: &impl Abort, frame: &TapFrame, wanted: &Wanted<'_>) {
    let (stamp, whole, bytes) = wanted;
    assert!(rt; frame.stamp().0 == *stamp);
    assert!(rt; frame.whole() == *whole);
    assert!(rt; frame.view().bytes() == *bytes);
}

/// The reader gives these frames and ends so.
fn gives(
    rt: &(impl Abort + AllocGlobal),
    reader: &mut Reader,
    wanted: &[Wanted<'_>],
    ending: Ending,
) {
    for wanted in wanted {
        match reader.next(rt.alloc()) {
            Ok(Item::Frame(frame)) => is_wanted(rt, &frame, wanted),
            _ => panic!(rt; "it ends early"),
        }
    }
    assert!(rt; matches!(reader.next(rt.alloc()), Ok(Item::End(end)) if end == ending));
}

/// The recording of these parts holds these frames and ends so, in whatever pieces it comes.
pub(super) fn holds(
    rt: &(impl Abort + AllocGlobal),
    parts: &[&[u8]],
    choice: Choice,
    wanted: &[Wanted<'_>],
    ending: Ending,
) -> Result<(), AllocError> {
    let bytes = joined(rt.alloc(), parts)?;
    for piece in [usize::MAX, 1, 7] {
        let source = source_of(rt.alloc(), &bytes, Script { piece, ..SOUND }, choice)?;
        match TapReader::open(source, Network::A, 1 << 32, 0) {
            Ok(mut reader) => gives(rt, &mut reader, wanted, ending),
            Err(_) => panic!(rt; "it isn't opened"),
        }
    }
    Ok(())
}

/// A recording written by editcap of Wireshark: an option names the system, the interface counts
/// nanoseconds.
const EDITCAP: &[u8] = &[
    0xa, 0xd, 0xd, 0xa, 0x6c, 0, 0, 0, 0x4d, 0x3c, 0x2b, 0x1a, 1, 0, 0, 0, 0xff, 0xff, 0xff, 0xff,
    0xff, 0xff, 0xff, 0xff, 4, 0, 0x45, 0, 0x45, 0x64, 0x69, 0x74, 0x63, 0x61, 0x70, 0x20, 0x28,
    0x57, 0x69, 0x72, 0x65, 0x73, 0x68, 0x61, 0x72, 0x6b, 0x29, 0x20, 0x34, 0x2e, 0x30, 0x2e, 0x31,
    0x37, 0x20, 0x28, 0x47, 0x69, 0x74, 0x20, 0x76, 0x34, 0x2e, 0x30, 0x2e, 0x31, 0x37, 0x20, 0x70,
    0x61, 0x63, 0x6b, 0x61, 0x67, 0x65, 0x64, 0x20, 0x61, 0x73, 0x20, 0x34, 0x2e, 0x30, 0x2e, 0x31,
    0x37, 0x2d, 0x30, 0x2b, 0x64, 0x65, 0x62, 0x31, 0x32, 0x75, 0x33, 0x29, 0, 0, 0, 0, 0, 0, 0,
    0x6c, 0, 0, 0, 1, 0, 0, 0, 0x20, 0, 0, 0, 1, 0, 0, 0, 0, 0, 4, 0, 9, 0, 1, 0, 9, 0, 0, 0, 0, 0,
    0, 0, 0x20, 0, 0, 0, 6, 0, 0, 0, 0x5c, 0, 0, 0, 0, 0, 0, 0, 0xfe, 0x9c, 0x97, 0x17, 0x15, 0xcd,
    0x85, 0x3d, 0x3c, 0, 0, 0, 0x3c, 0, 0, 0, 0, 1, 2, 3, 4, 5, 6, 7, 8, 9, 0xa, 0xb, 0xc, 0xd,
    0xe, 0xf, 0x10, 0x11, 0x12, 0x13, 0x14, 0x15, 0x16, 0x17, 0x18, 0x19, 0x1a, 0x1b, 0x1c, 0x1d,
    0x1e, 0x1f, 0x20, 0x21, 0x22, 0x23, 0x24, 0x25, 0x26, 0x27, 0x28, 0x29, 0x2a, 0x2b, 0x2c, 0x2d,
    0x2e, 0x2f, 0x30, 0x31, 0x32, 0x33, 0x34, 0x35, 0x36, 0x37, 0x38, 0x39, 0x3a, 0x3b, 0x5c, 0, 0,
    0, 6, 0, 0, 0, 0x60, 0, 0, 0, 0, 0, 0, 0, 0xfe, 0x9c, 0x97, 0x17, 5, 0x94, 0x5f, 0xad, 0x3d, 0,
    0, 0, 0x3d, 0, 0, 0, 0, 1, 2, 3, 4, 5, 6, 7, 8, 9, 0xa, 0xb, 0xc, 0xd, 0xe, 0xf, 0x10, 0x11,
    0x12, 0x13, 0x14, 0x15, 0x16, 0x17, 0x18, 0x19, 0x1a, 0x1b, 0x1c, 0x1d, 0x1e, 0x1f, 0x20, 0x21,
    0x22, 0x23, 0x24, 0x25, 0x26, 0x27, 0x28, 0x29, 0x2a, 0x2b, 0x2c, 0x2d, 0x2e, 0x2f, 0x30, 0x31,
    0x32, 0x33, 0x34, 0x35, 0x36, 0x37, 0x38, 0x39, 0x3a, 0x3b, 0x3c, 0, 0, 0, 0x60, 0, 0, 0,
];

/// The bytes of its second frame, and but for the last one of its first.
const COUNTED: [u8; 61] = [
    0, 1, 2, 3, 4, 5, 6, 7, 8, 9, 10, 11, 12, 13, 14, 15, 16, 17, 18, 19, 20, 21, 22, 23, 24, 25,
    26, 27, 28, 29, 30, 31, 32, 33, 34, 35, 36, 37, 38, 39, 40, 41, 42, 43, 44, 45, 46, 47, 48, 49,
    50, 51, 52, 53, 54, 55, 56, 57, 58, 59, 60,
];

/// A block of a type that isn't read.
pub(super) const CUSTOM: &[u8] = &[0xad, 11, 0, 0, 16, 0, 0, 0, 1, 2, 3, 4, 16, 0, 0, 0];

/// The packet with a comment of one byte.
pub(super) const COMMENTED: &[u8] = &[
    6, 0, 0, 0, 48, 0, 0, 0, 0, 0, 0, 0, 1, 0, 0, 0, 2, 0, 0, 0, 2, 0, 0, 0, 60, 0, 0, 0, 7, 8, 0,
    0, 1, 0, 1, 0, 0x21, 0, 0, 0, 0, 0, 0, 0, 48, 0, 0, 0,
];

#[test]
fn what_editcap_writes(rt: HostRuntime) -> Result<(), AllocError> {
    let wanted = [
        (1_700_000_000_123_456_789, 60, &COUNTED[..60]),
        (1_700_000_002_000_000_005, 61, &COUNTED[..]),
    ];
    holds(&rt, &[EDITCAP], Choice::Any, &wanted, Ending::Clean(2))
}

/// Reads to the end, going on after a failure: how many bytes came, and how many reads failed.
fn reads(source: &mut RecordingSource<MemSource>) -> (usize, u32) {
    let (mut came, mut failures) = (0usize, 0u32);
    for _ in 0..50 {
        match source.read(&mut [0; 7]) {
            Ok(some) => came = came.saturating_add(some),
            Err(_) => failures = failures.saturating_add(1),
        }
    }
    (came, failures)
}

#[test]
fn a_source_that_fails_once(rt: HostRuntime) -> Result<(), AllocError> {
    let bytes = joined(rt.alloc(), &[LITTLE, ETHERNET, PACKET, CUSTOM, COMMENTED])?;
    for call in [0, 3, 50] {
        let script = Script {
            piece: 2,
            miss: Some(call),
            ..SOUND
        };
        let mut source = source_of(rt.alloc(), &bytes, script, Choice::Any)?;
        // The file header and two packets of two bytes each, all but once.
        assert!(rt; reads(&mut source) == (24 + 2 * 18, 1));
    }
    Ok(())
}
