//! Recordings written out by hand, after the format's draft: each kind of block, each ending and each fault.

use crate::support::SOUND;
use afdx_frame::Network;
use pcap_io::{BadReason, Ending, HeaderFault, OpenFault, Script, TapReader, fill};
use pcapng::{Choice, Interface, InterfaceName};
use std::alloc::{AllocError, Global};
use std::process::Abort;
use super::worked::{COMMENTED, CUSTOM, ETHERNET, LITTLE, PACKET, Wanted, holds, joined, source_of};

/// A section header of 28 bytes, big-endian.
const BIG: &[u8] = &[
    0x0a, 0x0d, 0x0d, 0x0a, 0, 0, 0, 28, 0x1a, 0x2b, 0x3c, 0x4d, 0, 1, 0, 0, 0xff, 0xff, 0xff,
    0xff, 0xff, 0xff, 0xff, 0xff, 0, 0, 0, 28,
];

/// An Ethernet interface in microseconds, big-endian, and one of another link type.
const BIG_ETHERNET: &[u8] = &[0, 0, 0, 1, 0, 0, 0, 20, 0, 1, 0, 0, 0, 4, 0, 0, 0, 0, 0, 20];

const OTHER_LINK: &[u8] = &[
    1, 0, 0, 0, 20, 0, 0, 0, 113, 0, 0, 0, 0, 0, 4, 0, 20, 0, 0, 0,
];

/// The packet, big-endian.
const BIG_PACKET: &[u8] = &[
    0, 0, 0, 6, 0, 0, 0, 36, 0, 0, 0, 0, 0, 0, 0, 1, 0, 0, 0, 2, 0, 0, 0, 2, 0, 0, 0, 60, 7, 8, 0,
    0, 0, 0, 0, 36,
];

/// The same packet of interface 1.
const SECOND_PACKET: &[u8] = &[
    6, 0, 0, 0, 36, 0, 0, 0, 1, 0, 0, 0, 1, 0, 0, 0, 2, 0, 0, 0, 2, 0, 0, 0, 60, 0, 0, 0, 7, 8, 0,
    0, 36, 0, 0, 0,
];

/// The frame of these packets, in microseconds.
pub(super) const FRAME: Wanted<'static> = (4_294_967_298_000, 60, &[7, 8]);

/// What a recording holds: none of these frames, one, or two.
pub(super) const NONE: &[Wanted<'static>] = &[];

pub(super) const ONE: &[Wanted<'static>] = &[FRAME];

pub(super) const TWO: &[Wanted<'static>] = &[FRAME, FRAME];

/// The recording of these parts isn't opened, for this fault.
pub(super) fn refuses(
    rt: &(impl Abort + AllocGlobal),
    parts: &[&[u8]],
    fault: HeaderFault,
) -> Result<(), AllocError> {
    let bytes = joined(rt.alloc(), parts)?;
    for piece in [usize::MAX, 1] {
        let source = source_of(rt.alloc(), &bytes, Script { piece, ..SOUND }, Choice::Any)?;
        match TapReader::open(source, Network::A, 1 << 32, 0) {
            Ok(_) => panic!(rt; "it is opened"),
            Err(refused) => assert!(rt; refused.fault == OpenFault::Header(fault)),
        }
    }
    Ok(())
}

/// An interface with the option `if_tsresol`, of microseconds.
const RESOLUTION: &[u8] = &[
    1, 0, 0, 0, 32, 0, 0, 0, 1, 0, 0, 0, 0, 0, 4, 0, 9, 0, 1, 0, 6, 0, 0, 0, 0, 0, 0, 0, 32, 0, 0,
    0,
];

/// An interface with the option `if_tsoffset`, of no seconds.
const NO_OFFSET: [u8; 32] = [
    1, 0, 0, 0, 32, 0, 0, 0, 1, 0, 0, 0, 0, 0, 4, 0, 14, 0, 8, 0, 0, 0, 0, 0, 0, 0, 0, 0, 32, 0, 0,
    0,
];

/// An interface with the option `if_tsoffset`, in seconds.
fn with_offset(seconds: i64) -> [u8; 32] {
    let mut block = NO_OFFSET;
    block[20..28].copy_from_slice(&seconds.to_le_bytes());
    block
}

/// An interface of the name `a0`, behind a comment.
const NAMED: &[u8] = &[
    1, 0, 0, 0, 40, 0, 0, 0, 1, 0, 0, 0, 0, 0, 4, 0, 1, 0, 3, 0, 0x68, 0x69, 0x21, 0, 2, 0, 2, 0,
    0x61, 0x30, 0, 0, 0, 0, 0, 0, 40, 0, 0, 0,
];

/// The packet as an obsolete packet block, with seven packets dropped before it.
const OBSOLETE: &[u8] = &[
    2, 0, 0, 0, 36, 0, 0, 0, 0, 0, 7, 0, 1, 0, 0, 0, 2, 0, 0, 0, 2, 0, 0, 0, 60, 0, 0, 0, 7, 8, 0,
    0, 36, 0, 0, 0,
];

/// A copy of the bytes in which one is another.
fn changed(alloc: Global, bytes: &[u8], at: usize, value: u8) -> Result<Vec<u8>, AllocError> {
    let mut copy = Vec::from_slice(alloc, bytes)?;
    if let Some(byte) = copy.get_mut(at) {
        *byte = value;
    }
    Ok(copy)
}

/// Packets of interface 1 as well as of interface 0, where both are of Ethernet, and where the first isn't.
const TWO_INTERFACES: &[&[u8]] = &[LITTLE, ETHERNET, NAMED, PACKET, SECOND_PACKET];

const OTHER_FIRST: &[&[u8]] = &[LITTLE, OTHER_LINK, NAMED, PACKET, SECOND_PACKET];

/// Two sections, each in its byte order.
const BOTH_ORDERS: &[&[u8]] = &[LITTLE, ETHERNET, PACKET, BIG, BIG_ETHERNET, BIG_PACKET];

/// Another interface, whose name differs.
const RENAMED: &[u8] = &[
    1, 0, 0, 0, 32, 0, 0, 0, 1, 0, 0, 0, 0, 0, 4, 0, 2, 0, 1, 0, b'x', 0, 0, 0, 0, 0, 0, 0, 32, 0,
    0, 0,
];

/// What a recording consists of, which interface is chosen, the frames, and the ending.
type Recorded = (
    &'static [&'static [u8]],
    Choice,
    &'static [Wanted<'static>],
    Ending,
);

const RECORDINGS: [Recorded; 19] = [
    (&[LITTLE], Choice::Any, NONE, Ending::Clean(0)),
    // One frame in both byte orders, in each block that has a packet, and among blocks that aren't read.
    (
        &[LITTLE, ETHERNET, PACKET],
        Choice::Any,
        ONE,
        Ending::Clean(1),
    ),
    (
        &[BIG, BIG_ETHERNET, BIG_PACKET],
        Choice::Any,
        ONE,
        Ending::Clean(1),
    ),
    (
        &[LITTLE, ETHERNET, OBSOLETE],
        Choice::Any,
        ONE,
        Ending::Clean(1),
    ),
    (
        &[LITTLE, ETHERNET, COMMENTED],
        Choice::Any,
        ONE,
        Ending::Clean(1),
    ),
    (
        &[LITTLE, CUSTOM, NAMED, CUSTOM, PACKET, CUSTOM],
        Choice::Any,
        ONE,
        Ending::Clean(1),
    ),
    (BOTH_ORDERS, Choice::Any, TWO, Ending::Clean(2)),
    (BOTH_ORDERS, Choice::Number(0), TWO, Ending::Clean(2)),
    // The interfaces of the section before are gone.
    (
        &[LITTLE, ETHERNET, PACKET, BIG, BIG_PACKET],
        Choice::Any,
        ONE,
        Ending::Bad(1, BadReason::UnknownInterface),
    ),
    (
        TWO_INTERFACES,
        Choice::Any,
        ONE,
        Ending::Bad(1, BadReason::SeveralInterfaces),
    ),
    (TWO_INTERFACES, Choice::Number(0), ONE, Ending::Clean(1)),
    (TWO_INTERFACES, Choice::Number(1), ONE, Ending::Clean(1)),
    (
        TWO_INTERFACES,
        Choice::Number(2),
        NONE,
        Ending::Bad(0, BadReason::NoSuchInterface),
    ),
    // An interface of a later section is known by its name, and by its number where a name is missing.
    (
        &[LITTLE, NAMED, PACKET, LITTLE, RENAMED, PACKET],
        Choice::Any,
        ONE,
        Ending::Bad(1, BadReason::SeveralInterfaces),
    ),
    (
        &[
            LITTLE,
            RENAMED,
            PACKET,
            LITTLE,
            ETHERNET,
            RENAMED,
            SECOND_PACKET,
        ],
        Choice::Any,
        TWO,
        Ending::Clean(2),
    ),
    (
        &[LITTLE, RENAMED, PACKET, LITTLE, ETHERNET, PACKET],
        Choice::Any,
        TWO,
        Ending::Clean(2),
    ),
    (
        &[
            LITTLE,
            ETHERNET,
            PACKET,
            LITTLE,
            RENAMED,
            ETHERNET,
            SECOND_PACKET,
        ],
        Choice::Any,
        ONE,
        Ending::Bad(1, BadReason::SeveralInterfaces),
    ),
    (OTHER_FIRST, Choice::Any, ONE, Ending::Clean(1)),
    (OTHER_FIRST, Choice::Number(0), NONE, Ending::Clean(0)),
];

#[test]
fn recordings(rt: HostRuntime) -> Result<(), AllocError> {
    for (parts, choice, wanted, ending) in &RECORDINGS {
        holds(&rt, parts, *choice, wanted, *ending)?;
    }
    Ok(())
}

/// Names of interfaces, how many frames they have of two interfaces, and the ending.
const NAMES: [(&[u8], &[Wanted<'static>], Ending); 2] = [
    (b"a0", ONE, Ending::Clean(1)),
    (b"a1", NONE, Ending::Bad(0, BadReason::NoSuchInterface)),
];

#[test]
fn interfaces_by_name(rt: HostRuntime) -> Result<(), AllocError> {
    for (name, wanted, ending) in &NAMES {
        match InterfaceName::new(name) {
            Some(name) => holds(&rt, TWO_INTERFACES, Choice::Name(name), wanted, *ending)?,
            None => panic!(rt; "too long a name"),
        }
    }
    Ok(())
}

/// Values of the option `if_tsresol`, and the timestamp of the packet in nanoseconds.
const RESOLUTIONS: [(u8, u64); 9] = [
    (6, 4_294_967_298_000),
    (9, 4_294_967_298),
    (3, 4_294_967_298_000_000),
    (12, 4_294_967),
    (19, 0),
    (40, 0),
    (138, 4_194_304_001_953_125),
    (158, 4_000_000_001),
    (255, 0),
];

#[test]
fn resolutions(rt: HostRuntime) -> Result<(), AllocError> {
    for (value, stamp) in &RESOLUTIONS {
        let interface = changed(rt.alloc(), RESOLUTION, 20, *value)?;
        let parts = [LITTLE, &interface, PACKET];
        holds(
            &rt,
            &parts,
            Choice::Any,
            &[(*stamp, 60, &[7, 8])],
            Ending::Clean(1),
        )?;
    }
    Ok(())
}

/// Offsets in seconds, and the timestamp of the packet in nanoseconds.
const OFFSETS: [(i64, u64); 4] = [
    (1, 4_295_967_298_000),
    (-1, 4_293_967_298_000),
    (-4294, 967_298_000),
    (4_294_963_000, 4_294_967_294_967_298_000),
];

#[test]
fn offsets(rt: HostRuntime) -> Result<(), AllocError> {
    for (offset, stamp) in &OFFSETS {
        let parts = [LITTLE, &with_offset(*offset), PACKET];
        holds(
            &rt,
            &parts,
            Choice::Any,
            &[(*stamp, 60, &[7, 8])],
            Ending::Clean(1),
        )?;
    }
    for offset in &[-4295, 4_294_963_002, i64::MAX, i64::MIN] {
        let parts = [LITTLE, &with_offset(*offset), PACKET];
        let bad = Ending::Bad(0, BadReason::StampRange);
        holds(&rt, &parts, Choice::Any, NONE, bad)?;
    }
    Ok(())
}

/// Which interface is chosen, and how many packets are skipped.
const SKIPPED: [(Choice, u64); 3] = [
    (Choice::Any, 2),
    (Choice::Number(0), 2),
    (Choice::Number(1), 0),
];

#[test]
fn packets_that_are_skipped(rt: HostRuntime) -> Result<(), AllocError> {
    let parts = [LITTLE, OTHER_LINK, NAMED, PACKET, SECOND_PACKET, PACKET];
    let bytes = joined(rt.alloc(), &parts)?;
    for (choice, skipped) in &SKIPPED {
        let script = Script { piece: 5, ..SOUND };
        let mut source = source_of(rt.alloc(), &bytes, script, *choice)?;
        assert!(rt; fill(&mut source, &mut [0u8; 100]).is_ok());
        assert!(rt; source.skipped() == *skipped);
        are_described(&rt, source.interfaces());
    }
    Ok(())
}

/// The interfaces are one without a name that isn't Ethernet, and `a0`; both have packets.
fn are_described(rt: &impl Abort, interfaces: &[Interface]) {
    let [first, second] = interfaces else {
        panic!(rt; "two interfaces")
    };
    assert!(rt; !first.ethernet && second.ethernet);
    assert!(rt; first.has_packets && second.has_packets);
    assert!(rt; first.name.is_none() && second.number == 1);
    match &second.name {
        Some(name) => assert!(rt; name.as_bytes() == b"a0".as_slice()),
        None => panic!(rt; "a name"),
    }
}

/// An option of 100 bytes, a magic number of no recording, and three bytes.
const BAD_HEADERS: [(&[&[u8]], HeaderFault); 3] = [
    (
        &[&[
            0x0a, 0x0d, 0x0d, 0x0a, 32, 0, 0, 0, 0x4d, 0x3c, 0x2b, 0x1a, 1, 0, 0, 0, 0xff, 0xff,
            0xff, 0xff, 0xff, 0xff, 0xff, 0xff, 1, 0, 100, 0, 32, 0, 0, 0,
        ]],
        HeaderFault::SectionOption,
    ),
    (
        &[b"pcng", &[2, 0, 4, 0], &[0; 12], &[1, 0, 0, 0]],
        HeaderFault::Magic,
    ),
    (&[b"pcn"], HeaderFault::Short),
];

/// Which byte of a section header is another, and the fault.
const HEADER_FAULTS: [(usize, u8, HeaderFault); 7] = [
    (8, 0, HeaderFault::ByteOrderMagic),
    (12, 2, HeaderFault::SectionVersion),
    (4, 29, HeaderFault::SectionLength),
    (4, 24, HeaderFault::SectionLength),
    (7, 1, HeaderFault::SectionLength),
    (24, 27, HeaderFault::SectionLengthsDiffer),
    (4, 32, HeaderFault::Short),
];

#[test]
fn header_faults(rt: HostRuntime) -> Result<(), AllocError> {
    for (at, value, fault) in &HEADER_FAULTS {
        let header = changed(rt.alloc(), LITTLE, *at, *value)?;
        refuses(&rt, &[&header], *fault)?;
    }
    Ok(())
}

#[test]
fn bad_headers(rt: HostRuntime) -> Result<(), AllocError> {
    for (parts, fault) in &BAD_HEADERS {
        refuses(&rt, parts, *fault)?;
    }
    Ok(())
}

/// Which byte of a packet is another, and the reason.
const PACKET_REASONS: [(usize, u8, BadReason); 8] = [
    (4, 35, BadReason::BlockLength),
    (4, 28, BadReason::BlockLength),
    (7, 1, BadReason::BlockLength),
    (8, 1, BadReason::UnknownInterface),
    (15, 255, BadReason::StampRange),
    (22, 5, BadReason::Length),
    (20, 5, BadReason::BlockBounds),
    (32, 37, BadReason::BlockLengthsDiffer),
];

#[test]
fn reasons_of_packets(rt: HostRuntime) -> Result<(), AllocError> {
    for (at, value, reason) in &PACKET_REASONS {
        let packet = changed(rt.alloc(), PACKET, *at, *value)?;
        let parts = [LITTLE, ETHERNET, PACKET, &packet, PACKET];
        holds(&rt, &parts, Choice::Any, ONE, Ending::Bad(1, *reason))?;
    }
    Ok(())
}

/// A packet without an interface.
const SIMPLE: &[u8] = &[3, 0, 0, 0, 16, 0, 0, 0, 0, 0, 0, 0, 16, 0, 0, 0];

/// Blocks behind a section and an interface, which of their bytes is another, and the reason.
const BAD_BLOCKS: [(&[u8], usize, u8, BadReason); 7] = [
    (LITTLE, 8, 0, BadReason::Section),
    (LITTLE, 12, 2, BadReason::Section),
    (SIMPLE, 0, 3, BadReason::SimplePacket),
    (CUSTOM, 12, 20, BadReason::BlockLengthsDiffer),
    (COMMENTED, 34, 9, BadReason::BlockBounds),
    (NAMED, 18, 40, BadReason::BlockBounds),
    // A resolution of two bytes.
    (RESOLUTION, 18, 2, BadReason::BlockBounds),
];

#[test]
fn reasons_of_other_blocks(rt: HostRuntime) -> Result<(), AllocError> {
    for (bytes, at, value, reason) in &BAD_BLOCKS {
        let block = changed(rt.alloc(), bytes, *at, *value)?;
        let parts = [LITTLE, ETHERNET, &block];
        holds(&rt, &parts, Choice::Any, NONE, Ending::Bad(0, *reason))?;
    }
    Ok(())
}

#[test]
fn a_resolution_of_seconds(rt: HostRuntime) -> Result<(), AllocError> {
    let interface = changed(rt.alloc(), RESOLUTION, 20, 0)?;
    let parts = [LITTLE, &interface, PACKET];
    let late = Ending::Bad(0, BadReason::StampRange);
    holds(&rt, &parts, Choice::Any, NONE, late)
}
