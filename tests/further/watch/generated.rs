//! Small pairs of recordings from a fixed generator: on threads the outputs are those of one
//! thread.

use crate::support::{EVERY, Generator, HEADER};
use crate::watch::{Given, NOT_FIRST, Way, run};
use crate::watch::comparing::{leaves_the_same, left_by_one, roomy};
use pcap_io::{BadReason, Ending};
use std::alloc::{AllocError, Global};
use std::process::Abort;
use std::sync::Wait;
use std::test::Fail;
use std::thread::Threads;

/// Room for each output of a pair.
const ROOM: usize = 1 << 16;

/// A table of two links, with no window for late stamps. The judgements of the second are off.
const PROMPT: &str =
    "constant = 50331648\n[[link]]\nid = 5\nname = \"brake\"\nbag_ms = 1\njitter_us = 0\n\
     smax = 200\nintegrity = true\nredundancy = true\nskew_us = 1000\n\
     [[link]]\nid = 6\nname = \"flaps\"\nbag_ms = 2\njitter_us = 500\n\
     smax = 100\nintegrity = false\nredundancy = false\nskew_us = 0\n";

/// The same, with a third link, in which a stamp may lie by two microseconds below an earlier one.
pub const LATE: &str =
    "constant = 50331648\nlate_us = 2\n[[link]]\nid = 5\nname = \"brake\"\nbag_ms = 1\n\
     jitter_us = 0\nsmax = 200\nintegrity = true\nredundancy = true\nskew_us = 3\n\
     [[link]]\nid = 6\nname = \"flaps\"\nbag_ms = 2\njitter_us = 500\n\
     smax = 100\nintegrity = false\nredundancy = false\nskew_us = 0\n\
     [[link]]\nid = 300\nname = \"gear\"\nbag_ms = 1\njitter_us = 100\n\
     smax = 1518\nintegrity = true\nredundancy = false\nskew_us = 1\n";

/// Links of the tables, and one that is in none.
const LINKS: [u16; 6] = [5, 5, 5, 6, 300, 9];

/// Sizes of frames: of the smallest, around those of links, and too small ones.
const SIZES: [usize; 8] = [60, 60, 61, 96, 97, 200, 59, 14];

/// How much later than the one before a frame comes, in nanoseconds.
const STEPS: [u32; 8] = [0, 0, 1, 999, 1000, 1001, 3000, 1_000_000];

/// By how much a stamp may lie below its frame's time, in nanoseconds.
const DELAYS: [u32; 6] = [0, 0, 0, 0, 1000, 2000];

/// `ldb [59]`, `ret a`: what is kept goes by the sequence number.
const BY_NUMBER: &str = "2,48 0 0 59,22 0 0 0,";

/// The filters that a pair is given, by its number.
const FILTERS: [&[&str]; 4] = [
    &[EVERY],
    &[NOT_FIRST, EVERY],
    &[BY_NUMBER],
    &[
        NOT_FIRST,
        BY_NUMBER,
        "1,6 0 0 0,",
        "1,6 0 0 1,",
        EVERY,
        NOT_FIRST,
        EVERY,
        BY_NUMBER,
    ],
];

/// A frame as it is recorded.
#[derive(Clone, Copy)]
struct Recorded {
    stamp: u32,
    link: u16,
    len: usize,
    /// How many bytes it has beyond those that were captured.
    lost: u32,
    number: u8,
}

/// Appends a packet.
fn push_recorded(bytes: &mut Vec<u8>, frame: Recorded) -> Result<(), AllocError> {
    let len = frame.len.min(200);
    let whole = (len as u32).saturating_add(frame.lost);
    let mut text = [0; 200];
    text[0] = 3;
    [text[4], text[5]] = frame.link.to_be_bytes();
    // Where the last byte of an ordinary frame stands, and where a filter looks for it.
    text[59] = frame.number;
    if let Some(last) = text[..len].last_mut() {
        *last = frame.number;
    }
    bytes.extend_from_slice(&[0; 4])?;
    bytes.extend_from_slice(&frame.stamp.to_le_bytes())?;
    bytes.extend_from_slice(&(len as u32).to_le_bytes())?;
    bytes.extend_from_slice(&whole.to_le_bytes())?;
    bytes.extend_from_slice(&text[..len])
}

/// A member of a list.
fn pick<T: Copy>(generator: &mut Generator, list: &[T], none: T) -> T {
    let at = generator.below(list.len());
    list.get(at).copied().unwrap_or(none)
}

/// A frame that comes at this time. Its number is near the one before.
fn drawn(generator: &mut Generator, time: u32, before: u8) -> Recorded {
    let after = before % 255 + 1;
    Recorded {
        stamp: time.saturating_sub(pick(generator, &DELAYS, 0)),
        link: pick(generator, &LINKS, 5),
        len: pick(generator, &SIZES, 60),
        lost: pick(generator, &[0, 0, 0, 0, 0, 0, 0, 4], 0),
        number: pick(
            generator,
            &[after, after, after, after, before, after % 255 + 1, 0, 200],
            0,
        ),
    }
}

/// The header of a record that claims a byte more than the longest has.
const TOO_LONG: [u8; 16] = [0, 0, 0, 0, 0, 0, 0, 0, 1, 0, 4, 0, 1, 0, 4, 0];

/// Appends what may stand after the last frame, which came at this time.
fn push_ending(
    bytes: &mut Vec<u8>,
    generator: &mut Generator,
    time: u32,
) -> Result<(), AllocError> {
    let next = |stamp| Recorded {
        stamp,
        link: 5,
        len: 60,
        lost: 0,
        number: 1,
    };
    match generator.below(6) {
        0 => {
            push_recorded(bytes, next(time))?;
            for _ in 0..=generator.below(75) {
                bytes.pop();
            }
            Ok(())
        }
        1 => bytes.extend_from_slice(&TOO_LONG),
        2 => push_recorded(bytes, next(1_000_000_000)),
        3 => push_recorded(bytes, next(time.saturating_sub(2001))),
        _ => Ok(()),
    }
}

/// A recording of up to 40 frames, or in one of eight of up to 400, after the ring is full.
fn tap(alloc: Global, generator: &mut Generator) -> Result<Vec<u8>, AllocError> {
    let mut bytes = Vec::from_slice(alloc, &HEADER)?;
    let most = pick(generator, &[40, 40, 40, 40, 40, 40, 40, 400], 40);
    let mut time = 5000u32;
    let mut number = 254;
    for _ in 0..generator.below(most) {
        time = time
            .saturating_add(pick(generator, &STEPS, 0))
            .min(900_000_000);
        let frame = drawn(generator, time, number);
        number = frame.number;
        push_recorded(&mut bytes, frame)?;
    }
    push_ending(&mut bytes, generator, time)?;
    Ok(bytes)
}

/// Which kind of ending this is.
fn kind_of(ending: Ending) -> usize {
    match ending {
        Ending::Clean(_) => 0,
        Ending::Cut(_) => 1,
        Ending::Bad(_, BadReason::Length) => 2,
        Ending::Bad(_, BadReason::Fraction) => 3,
        Ending::Bad(_, BadReason::StampBack { .. }) => 4,
        Ending::Bad(..) => 5,
    }
}

/// The runs by 1, 2, 3 and 8 workers, and so many more by three, leave what that on one thread
/// does. Returns the kinds of the endings.
fn agree<R: Threads + Wait + Sync + Abort + AllocGlobal>(
    rt: &R,
    given: Given<'_>,
    more: usize,
) -> Result<[usize; 2], Fail> {
    let expected = left_by_one(rt, given, ROOM)?;
    for workers in [1, 2, 3, 8] {
        let ran = run(rt, Way::Workers(workers), given, roomy(ROOM))?;
        leaves_the_same(rt, &ran, &expected);
    }
    for _ in 0..more {
        let ran = run(rt, Way::Workers(3), given, roomy(ROOM))?;
        leaves_the_same(rt, &ran, &expected);
    }
    Ok([kind_of(expected.counts.a), kind_of(expected.counts.b)])
}

#[test]
fn pairs_of_small_recordings(rt: HostRuntime) -> Result<(), Fail> {
    let mut generator = Generator {
        state: 0x2545_f491_4f6c_dd1d,
    };
    let mut kinds = [false; 6];
    for pair in 0..60 {
        let (a, b) = (
            tap(rt.alloc(), &mut generator)?,
            tap(rt.alloc(), &mut generator)?,
        );
        let given = Given {
            table: if pair % 2 == 0 { PROMPT } else { LATE },
            filters: FILTERS[pair / 2 % 4],
            a: &a,
            b: &b,
        };
        let more = if pair % 12 == 5 { 20 } else { 0 };
        for kind in agree(&rt, given, more)? {
            kinds[kind.min(5)] = true;
        }
    }
    // Every kind of ending but that of too many frames was met.
    assert!(rt; kinds[..5].iter().all(|met| *met), "{kinds:?}");
    Ok(())
}
