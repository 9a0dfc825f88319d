//! A plain, slow reader and writer of recordings, which follows the savefile format (pcap 2.4) on the
//! whole list of bytes: the header, and then one record after the other.

ghost use Rattle.std.specs.Prelude.{◌≤◌, length};

use crate::support::HEADER;
use std::alloc::{AllocError, Global};

/// Nanoseconds.
const SECOND: u64 = 1_000_000_000;

/// How a recording ends, with the number of frames read whole, or what its header lacks.
#[derive(Clone, Copy, Debug, PartialEq, Eq)]
pub enum End {
    Short,
    Magic,
    Version,
    LinkType,
    Clean(u64),
    Cut(u64),
    Length(u64),
    Fraction(u64),
    /// And by how many nanoseconds the stamp goes back.
    StampBack(u64, u64),
}

/// How a recording writes its numbers.
#[derive(Clone, Copy)]
struct Spelling {
    /// The most significant byte of a number stands first.
    high_first: bool,
    /// The nanoseconds of one step of a stamp's fraction.
    step: u64,
}

/// A record: its stamp in nanoseconds, the length on the wire and the captured bytes.
#[derive(Clone, Copy)]
struct Record<'a> {
    stamp: u64,
    whole: u32,
    captured: &'a [u8],
}

/// The number that these bytes write.
fn number(spelling: Spelling, bytes: &[u8]) -> u32 {
    let mut value = 0u32;
    if spelling.high_first {
        for byte in bytes {
            value = value.wrapping_mul(256).wrapping_add(u32::from(*byte));
        }
    } else {
        for byte in bytes.iter().rev() {
            value = value.wrapping_mul(256).wrapping_add(u32::from(*byte));
        }
    }
    value
}

/// The spelling that a whole header names.
fn spelling_of(header: &[u8]) -> Result<Spelling, End>
    requires { 24 ≤ length header.now }
{
    let high_first = Spelling {
        high_first: true,
        step: 1,
    };
    let (high_first, step) = match number(high_first, &header[..4]) {
        0x4d3c_b2a1 => (false, 1),
        0xa1b2_3c4d => (true, 1),
        0xd4c3_b2a1 => (false, 1000),
        0xa1b2_c3d4 => (true, 1000),
        _ => return Err(End::Magic),
    };
    let spelling = Spelling { high_first, step };
    if number(spelling, &header[4..6]) != 2 || number(spelling, &header[6..8]) != 4 {
        return Err(End::Version);
    }
    if number(spelling, &header[20..24]) != 1 {
        return Err(End::LinkType);
    }
    Ok(spelling)
}

/// The record that the bytes begin with, after so many complete ones of which the last has the stamp
/// `high`, and the bytes that follow it.
fn next_record(
    spelling: Spelling,
    rest: &[u8],
    count: u64,
    high: u64,
) -> Result<(Record<'_>, &[u8]), End> {
    if rest.is_empty() {
        return Err(End::Clean(count));
    }
    if rest.len() < 16 {
        return Err(End::Cut(count));
    }
    let seconds = u64::from(number(spelling, &rest[..4]));
    let fraction = u64::from(number(spelling, &rest[4..8])).wrapping_mul(spelling.step);
    let claimed = number(spelling, &rest[8..12]);
    let wire = number(spelling, &rest[12..16]);
    if claimed > 262_144 {
        return Err(End::Length(count));
    }
    if fraction >= SECOND {
        return Err(End::Fraction(count));
    }
    let stamp = seconds.wrapping_mul(SECOND).wrapping_add(fraction);
    if stamp < high {
        return Err(End::StampBack(count, high.wrapping_sub(stamp)));
    }
    let body = &rest[16..];
    let captured = claimed as usize;
    if body.len() < captured {
        return Err(End::Cut(count));
    }
    let record = Record {
        stamp,
        whole: wire.max(claimed),
        captured: &body[..captured],
    };
    Ok((record, &body[captured..]))
}

/// Writes a record with the first bytes of its frame, at most `keep`: in nanoseconds, the least
/// significant byte first.
fn write_record(out: &mut Vec<u8>, record: &Record<'_>, keep: u32) -> Result<(), AllocError> {
    let kept = record.captured.len().min(keep as usize);
    out.extend_from_slice(&(record.stamp / SECOND).to_le_bytes()[..4])?;
    out.extend_from_slice(&(record.stamp % SECOND).to_le_bytes()[..4])?;
    out.extend_from_slice(&kept.to_le_bytes()[..4])?;
    out.extend_from_slice(&record.whole.to_le_bytes())?;
    out.extend_from_slice(&record.captured[..kept])
}

/// The capture of a recording by a filter that answers `keep` for each frame, and the recording's
/// ending.
pub(crate) fn slow_capture(
    alloc: Global,
    bytes: &[u8],
    keep: u32,
) -> Result<(Vec<u8>, End), AllocError> {
    let mut out = Vec::new(alloc);
    if bytes.len() < 24 {
        return Ok((out, End::Short));
    }
    let spelling = match spelling_of(bytes) {
        Ok(spelling) => spelling,
        Err(end) => return Ok((out, end)),
    };
    out.extend_from_slice(&HEADER)?;
    let mut rest = &bytes[24..];
    let mut high = 0;
    for count in 0..u64::MAX {
        match next_record(spelling, rest, count, high) {
            Err(end) => return Ok((out, end)),
            Ok((record, following)) => {
                if keep > 0 {
                    write_record(&mut out, &record, keep)?;
                }
                high = record.stamp;
                rest = following;
            }
        }
    }
    Ok((out, End::Clean(u64::MAX)))
}
