//! The reader's endings and faults, by the bytes of recordings. Truncated ones, each layout and each wrong
//! file header are cases of the program (`tests/program`).

use crate::recording::{opened, push_packet};
use crate::support::{HEADER, SOUND};
use afdx_frame::Network;
use pcap_io::{BadReason, Ending, Found, Item, MemSource, ReadFault, Script, TapReader, TapSource};
use std::alloc::{AllocError, Global};
use std::process::Abort;

mod bytes;

/// A packet's nanoseconds, the bytes that it claims, and those that are there.
type Packet = (u32, u32, usize);

/// A recording of these packets.
fn recording(alloc: Global, packets: &[Packet]) -> Result<Vec<u8>, AllocError> {
    let mut bytes = Vec::from_slice(alloc, &HEADER)?;
    for (nanoseconds, claimed, there) in packets {
        let captured = &[0u8; 60][..(*there).min(60)];
        push_packet(&mut bytes, [0, *nanoseconds, *claimed, 60], captured)?;
    }
    Ok(bytes)
}

/// What comes next: a frame, for which `None` stands, an ending or a fault.
type Next = Result<Option<Ending>, ReadFault>;

/// What comes next by `advance`, which lends frames, or by `next`.
fn next_of(alloc: Global, reader: &mut TapReader<MemSource>, lent: bool) -> Next {
    if lent {
        return match reader.advance(alloc) {
            Ok(Found::Frame) => Ok(None),
            Ok(Found::End(ending)) => Ok(Some(ending)),
            Err(fault) => Err(fault),
        };
    }
    match reader.next(alloc) {
        Ok(Item::Frame(_)) => Ok(None),
        Ok(Item::End(ending)) => Ok(Some(ending)),
        Err(fault) => Err(fault),
    }
}

/// So many frames come, and then these two.
fn comes(
    rt: &(impl Abort + AllocGlobal),
    reader: &mut TapReader<MemSource>,
    lent: bool,
    frames: usize,
    last: [Next; 2],
) {
    for _ in 0..frames {
        assert!(rt; next_of(rt.alloc(), reader, lent) == Ok(None));
    }
    for next in last {
        assert!(rt; next_of(rt.alloc(), reader, lent) == next);
    }
}

/// Packets, how many are read at most, how late a stamp may come, how many frames there are, and the
/// ending.
type Row = (&'static [Packet], u64, u64, usize, Ending);

const ENDINGS: [Row; 10] = [
    (&[], 1 << 32, 0, 0, Ending::Clean(0)),
    (&[(1, 60, 60), (2, 60, 59)], 1 << 32, 0, 1, Ending::Cut(1)),
    (
        &[(1, 60, 60), (1_000_000_000, 60, 60)],
        1 << 32,
        0,
        1,
        Ending::Bad(1, BadReason::Fraction),
    ),
    (
        &[(10, 60, 60), (9, 60, 60)],
        1 << 32,
        0,
        1,
        Ending::Bad(1, BadReason::StampBack { by: 1 }),
    ),
    (
        &[(1, 60, 60), (2, 60, 60), (3, 60, 60)],
        2,
        0,
        2,
        Ending::Bad(2, BadReason::TooMany),
    ),
    (&[(1, 60, 60), (2, 60, 60)], 2, 0, 2, Ending::Clean(2)),
    (
        &[(10, 60, 60), (4, 60, 60)],
        1 << 32,
        5,
        1,
        Ending::Bad(1, BadReason::StampBack { by: 6 }),
    ),
    (
        &[(10, 60, 60), (4, 60, 60)],
        1 << 32,
        6,
        2,
        Ending::Clean(2),
    ),
    (
        &[(1, 60, 60), (2, 262_145, 60)],
        1 << 32,
        0,
        1,
        Ending::Bad(1, BadReason::Length),
    ),
    (&[(1, 60, 60), (2, 61, 60)], 1 << 32, 0, 1, Ending::Cut(1)),
];

/// The recording of a row, in pieces of so many bytes, has the row's frames and its ending.
fn ends(
    rt: &(impl Abort + AllocGlobal),
    row: &Row,
    piece: usize,
    lent: bool,
) -> Result<(), AllocError> {
    let (packets, most, late, frames, ending) = row;
    assert!(rt; *most <= 1 << 32);
    let source = MemSource::new(recording(rt.alloc(), packets)?, Script { piece, ..SOUND });
    let Ok(mut reader) = TapReader::open(source, Network::A, *most, *late) else {
        panic!(rt; "it isn't opened")
    };
    comes(rt, &mut reader, lent, *frames, [Ok(Some(*ending)); 2]);
    Ok(())
}

#[test]
fn endings(rt: HostRuntime) -> Result<(), AllocError> {
    for row in &ENDINGS {
        for piece in [0, 1, 7, usize::MAX] {
            for lent in [false, true] {
                ends(&rt, row, piece, lent)?;
            }
        }
    }
    Ok(())
}

/// After so many frames the source fails, and the reader for good.
fn fails(rt: &(impl Abort + AllocGlobal), script: Script, frames: usize) -> Result<(), AllocError> {
    for lent in [true, false] {
        let bytes = recording(rt.alloc(), &[(1, 60, 60), (2, 60, 60)])?;
        let mut reader = opened(rt, MemSource::new(bytes, script), 0);
        let faults = [Err(ReadFault::Device), Err(ReadFault::Failed)];
        comes(rt, &mut reader, lent, frames, faults);
        // A device that fails at one call alone goes on, and the reader doesn't.
        let mut source = reader.into_source();
        assert!(rt; source.read(&mut [0; 1]).is_ok() == script.miss.is_some());
    }
    Ok(())
}

#[test]
fn a_source_that_fails(rt: HostRuntime) -> Result<(), AllocError> {
    // Call 0 reads the file header, 1 the first packet's header, 2 all that is left, and 3 finds the end.
    for (call, frames) in &[(1, 0), (2, 0), (3, 2)] {
        let miss = Some(*call);
        fails(&rt, Script { miss, ..SOUND }, *frames)?;
    }
    // The frames that lie whole in the bytes which the source gave come before its fault.
    for most in 24..=176 {
        fails(&rt, Script { most, ..SOUND }, (most - 24) / 76)?;
    }
    Ok(())
}

/// How many bytes come, and how many of the packets after the first are held whole.
const HELD: [(usize, u32); 7] = [
    (45, 0),
    (46, 0),
    (60, 0),
    (61, 1),
    (62, 1),
    (96, 1),
    (97, 2),
];

/// Whether a packet is held, and what comes next.
fn holds(
    rt: &(impl Abort + AllocGlobal),
    reader: &mut TapReader<MemSource>,
    held: bool,
    next: Next,
) {
    assert!(rt; reader.holds_packet() == held);
    assert!(rt; next_of(rt.alloc(), reader, false) == next);
}

#[test]
fn all_is_held_that_came_before_a_fault(rt: HostRuntime) -> Result<(), AllocError> {
    for (most, held) in &HELD {
        let bytes = recording(rt.alloc(), &[(1, 5, 5), (1, 0, 0), (1, 20, 20)])?;
        let script = Script {
            most: *most,
            ..SOUND
        };
        let mut reader = opened(&rt, MemSource::new(bytes, script), 0);
        holds(&rt, &mut reader, false, Ok(None));
        for _ in 0..*held {
            holds(&rt, &mut reader, true, Ok(None));
        }
        holds(&rt, &mut reader, false, Err(ReadFault::Device));
    }
    Ok(())
}
