//! What is read of recordings in several files, how they end, and what is told of the first of them.

use crate::support::{HEADER, SOUND};
use afdx_frame::Network;
use pcap_io::{BadReason, Ending, Found, HeaderFault, OpenFault, Script, TapReader};
use std::alloc::AllocError;
use std::process::Abort;
use super::{MICRO_BIG, NANO_BIG, NANO_LITTLE, Part, WHOLE, joined};

/// A file of microseconds, little-endian, of one packet: 2 bytes of 60 on the wire.
const MICRO_LITTLE: &[u8] = &[
    0xd4, 0xc3, 0xb2, 0xa1, 2, 0, 4, 0, 0, 0, 0, 0, 0, 0, 0, 0, 0, 0, 4, 0, 1, 0, 0, 0, 3, 0, 0, 0,
    5, 0, 0, 0, 2, 0, 0, 0, 60, 0, 0, 0, 7, 8,
];

/// A file whose second packet claims too many bytes, and two files that were put together.
const TOO_LONG: &[u8] = &[
    0x4d, 0x3c, 0xb2, 0xa1, 2, 0, 4, 0, 0, 0, 0, 0, 0, 0, 0, 0, 0, 0, 4, 0, 1, 0, 0, 0, 1, 0, 0, 0,
    5, 0, 0, 0, 2, 0, 0, 0, 60, 0, 0, 0, 7, 8, 1, 0, 0, 0, 5, 0, 0, 0, 1, 0, 4, 0, 1, 0, 4, 0,
];

const TOGETHER: &[u8] = &[
    0xa1, 0xb2, 0x3c, 0x4d, 0, 2, 0, 4, 0, 0, 0, 0, 0, 0, 0, 0, 0, 4, 0, 0, 0, 0, 0, 1, 0, 0, 0, 2,
    0, 0, 0, 5, 0, 0, 0, 2, 0, 0, 0, 60, 7, 8, 0xd4, 0xc3, 0xb2, 0xa1, 2, 0, 4, 0, 0, 0, 0, 0, 0,
    0, 0, 0, 0, 0, 4, 0, 1, 0, 0, 0,
];

/// The files, the times of the frames in nanoseconds, the ending, and the file that is read last.
type Row = (&'static [Part], &'static [u64], Ending, u64);

const ROWS: [Row; 10] = [
    (
        &[(NANO_LITTLE, WHOLE)],
        &[1_000_000_005],
        Ending::Clean(1),
        0,
    ),
    (
        &[
            (NANO_LITTLE, WHOLE),
            (NANO_BIG, WHOLE),
            (&HEADER, WHOLE),
            (MICRO_LITTLE, WHOLE),
            (MICRO_BIG, WHOLE),
        ],
        &[1_000_000_005, 2_000_000_005, 3_000_005_000, 4_000_005_000],
        Ending::Clean(4),
        4,
    ),
    (
        &[(&HEADER, WHOLE), (&HEADER, WHOLE)],
        &[],
        Ending::Clean(0),
        1,
    ),
    (
        &[(NANO_LITTLE, WHOLE), (NANO_BIG, 41), (MICRO_BIG, WHOLE)],
        &[1_000_000_005],
        Ending::Cut(1),
        1,
    ),
    (
        &[(NANO_LITTLE, 39), (MICRO_BIG, WHOLE)],
        &[],
        Ending::Cut(0),
        0,
    ),
    (
        &[(NANO_LITTLE, WHOLE), (MICRO_BIG, 23), (NANO_BIG, WHOLE)],
        &[1_000_000_005],
        Ending::Bad(1, BadReason::NextFile),
        1,
    ),
    (
        &[(NANO_LITTLE, WHOLE), (&[], WHOLE), (NANO_BIG, WHOLE)],
        &[1_000_000_005],
        Ending::Bad(1, BadReason::NextFile),
        1,
    ),
    (
        &[(NANO_BIG, WHOLE), (TOO_LONG, WHOLE), (MICRO_BIG, WHOLE)],
        &[2_000_000_005],
        Ending::Bad(1, BadReason::StampBack { by: 1_000_000_000 }),
        1,
    ),
    (
        &[(TOO_LONG, WHOLE), (MICRO_BIG, WHOLE)],
        &[1_000_000_005],
        Ending::Bad(1, BadReason::Length),
        0,
    ),
    (
        &[(TOGETHER, WHOLE), (MICRO_BIG, WHOLE)],
        &[2_000_000_005],
        Ending::Bad(1, BadReason::FileHeader),
        0,
    ),
];

/// A reader gives the frames of a row, each of 2 bytes of 60 on the wire, and then its ending.
fn holds(rt: &(impl Abort + AllocGlobal), row: &Row, piece: usize) -> Result<(), AllocError> {
    let (parts, stamps, ending, last) = row;
    let source = joined(rt.alloc(), parts, Script { piece, ..SOUND }, None)?;
    let Ok(mut reader) = TapReader::open(source, Network::B, 1 << 32, 0) else {
        panic!(rt; "it isn't opened")
    };
    for stamp in *stamps {
        assert!(rt; reader.advance(rt.alloc()) == Ok(Found::Frame));
        let frame = reader.frame();
        assert!(rt; frame.stamp().0 == *stamp && frame.whole() == 60);
        assert!(rt; frame.view().bytes() == [7, 8].as_slice());
    }
    for _ in 0..2 {
        assert!(rt; reader.advance(rt.alloc()) == Ok(Found::End(*ending)));
    }
    assert!(rt; reader.source().file() == *last);
    Ok(())
}

#[test]
fn several_files_are_read_as_one(rt: HostRuntime) -> Result<(), AllocError> {
    for row in &ROWS {
        for piece in [1, 7, usize::MAX] {
            holds(&rt, row, piece)?;
        }
    }
    Ok(())
}

/// The files, and what is told of the first of them.
const FAULTS: [(&[Part], HeaderFault); 4] = [
    (&[], HeaderFault::Short),
    (&[(&[], WHOLE), (NANO_BIG, WHOLE)], HeaderFault::Short),
    (&[(NANO_BIG, 23), (NANO_BIG, WHOLE)], HeaderFault::Short),
    (&[(&[7; 24], WHOLE)], HeaderFault::Magic),
];

#[test]
fn a_fault_of_the_first_file_is_told(rt: HostRuntime) -> Result<(), AllocError> {
    for (parts, fault) in &FAULTS {
        let source = joined(rt.alloc(), parts, SOUND, None)?;
        match TapReader::open(source, Network::A, 1 << 32, 0) {
            Ok(_) => panic!(&rt; "it is opened"),
            Err(refused) => assert!(&rt; refused.fault == OpenFault::Header(*fault)),
        }
    }
    Ok(())
}
