//! Runs of other sizes of blocks, rings, batches, rounds and chunks: the outputs are those of one thread with
//! the program's sizes.

use crate::support::{EVERY, Generator, HEADER};
use crate::watch::{DeviceSet, Given, NOT_FIRST, Ran, devices_by, programs_of};
use crate::watch::comparing::{leaves_the_same, left_by_one, roomy};
use crate::watch::generated::LATE;
use std::alloc::{AllocError, Global};
use std::num::NonZeroUsize;
use std::process::Abort;
use std::sync::Wait;
use std::test::Fail;
use std::thread::Threads;
use tap_queue::RingSizes;
use vl_config::Config;
use watch_run::{OpenGate, Plan, RunSizes, sized_watch, sized_watch_whole};

/// The lengths of rounds: of one frame, around a power of two, and the program's and a longer one.
const ROUNDS: [usize; 7] = [1, 2, 255, 256, 257, 1024, 4096];

/// The lengths of blocks, in bytes: shorter than a packet, between packets, the program's and a longer one.
const BLOCKS: [usize; 4] = [64, 1000, 65_536, 131_072];

/// How many batches a ring holds, how many items a batch, and how many frames a chunk.
const BATCHES: [usize; 4] = [1, 2, 4, 9];

const ITEMS: [usize; 3] = [1, 7, 512];

const CHUNKS: [usize; 5] = [1, 5, 64, 256, 4096];

/// The bytes of the longest packet of a recording.
const LONGEST: u32 = 262_144;

/// Room for each output of a pair, and where the longest packets are in it.
const ROOM: usize = 1 << 20;

const WIDE_ROOM: usize = 1 << 21;

/// A day, in seconds.
const DAY: u32 = 86_400;

/// The shape of a recording.
#[derive(Clone, Copy)]
struct Shape {
    /// The second in which its frames were recorded.
    second: u32,
    frames: u32,
    /// The last of so many packets has the greatest length.
    longest_of: u32,
}

/// A recording of some frames of usual lengths.
const USUAL: Shape = Shape {
    second: 0,
    frames: 600,
    longest_of: u32::MAX,
};

/// Appends the packet of a frame of link 5, of at least 7 bytes.
fn push_frame(
    bytes: &mut Vec<u8>,
    second: u32,
    nanoseconds: u32,
    len: u32,
    number: u8,
) -> Result<(), AllocError> {
    for field in [second, nanoseconds, len, len] {
        bytes.extend_from_slice(&field.to_le_bytes())?;
    }
    bytes.extend_from_slice(&[3, 0, 0, 0, 0, 5])?;
    let end = bytes.len().saturating_add(len as usize).saturating_sub(7);
    bytes.resize(end, 0)?;
    bytes.push(number)?;
    Ok(())
}

/// A number below a limit.
fn below(generator: &mut Generator, limit: u32) -> u32 {
    u32::try_from(generator.below(limit as usize)).unwrap_or(0)
}

/// A recording whose timestamps lie up to two microseconds below the greatest one before them.
fn tap(alloc: Global, generator: &mut Generator, shape: Shape) -> Result<Vec<u8>, AllocError> {
    let mut bytes = Vec::from_slice(alloc, &HEADER)?;
    let mut time = 5000u32;
    for place in 1..=shape.frames {
        time = time.saturating_add(below(generator, 3000)).min(900_000_000);
        let stamp = time.saturating_sub(below(generator, 2001));
        let len = if place % shape.longest_of.max(1) == 0 {
            LONGEST
        } else {
            below(generator, 150).saturating_add(60)
        };
        push_frame(&mut bytes, shape.second, stamp, len, (place % 255) as u8)?;
    }
    Ok(bytes)
}

/// The sizes of the run of this number.
fn sizes_of(number: usize, block: usize, round: NonZeroUsize) -> RunSizes {
    RunSizes {
        block,
        ring: RingSizes {
            batches: BATCHES[number % 4],
            items: ITEMS[number % 3],
        },
        round,
        chunk: CHUNKS[number % 5],
    }
}

/// The run of these sizes on threads, by so many workers, or on one thread.
fn run_of<R: Threads + Wait + Sync + AllocGlobal>(
    rt: &R,
    sizes: RunSizes,
    workers: Option<u32>,
    given: Given<'_>,
    room: usize,
) -> Result<Ran, Fail> {
    let alloc = rt.alloc();
    let config = Config::read(alloc, given.table)?;
    let programs = programs_of(alloc, given.filters)?;
    let DeviceSet {
        a,
        b,
        capture,
        ledger,
    } = devices_by(alloc, given, roomy(room))?;
    let plan = Plan::pcap(&programs);
    Ok(Ran::of(match workers {
        None => sized_watch_whole(alloc, sizes, &config, &plan, a, b, capture, ledger),
        Some(workers) => {
            let gate = &OpenGate;
            sized_watch(
                rt, alloc, sizes, &config, plan, workers, a, b, capture, ledger, gate,
            )
        }
    }))
}

/// The runs of all rounds and blocks leave what that on one thread with the program's sizes does.
fn agree<R: Threads + Wait + Sync + Abort + AllocGlobal>(
    rt: &R,
    a: Shape,
    b: Shape,
    filters: &[&str],
    room: usize,
) -> Result<(), Fail> {
    let mut generator = Generator {
        state: 0x9e37_79b9_7f4a_7c15,
    };
    let (a, b) = (
        tap(rt.alloc(), &mut generator, a)?,
        tap(rt.alloc(), &mut generator, b)?,
    );
    let given = Given {
        table: LATE,
        filters,
        a: &a,
        b: &b,
    };
    let expected = left_by_one(rt, given, room)?;
    let mut number = 0usize;
    for round in ROUNDS {
        let Some(round) = NonZeroUsize::new(round) else {
            continue;
        };
        for block in BLOCKS {
            let sizes = sizes_of(number, block, round);
            // One in nine on one thread, the others by 1 to 8 workers.
            let workers = match (number % 9) as u32 {
                0 => None,
                workers => Some(workers),
            };
            let ran = run_of(rt, sizes, workers, given, room)?;
            leaves_the_same(rt, &ran, &expected);
            number = number.saturating_add(1);
        }
    }
    Ok(())
}

#[test]
fn late_frames_by_any_sizes(rt: HostRuntime) -> Result<(), Fail> {
    agree(&rt, USUAL, USUAL, &[NOT_FIRST, EVERY], ROOM)
}

/// A recording with two of the longest packets between short ones.
const WITH_LONGEST: Shape = Shape {
    frames: 20,
    longest_of: 9,
    ..USUAL
};

#[test]
fn longest_packets_of_a_tap_by_any_sizes(rt: HostRuntime) -> Result<(), Fail> {
    agree(&rt, WITH_LONGEST, USUAL, &["1,6 0 0 200,"], ROOM)
}

#[test]
fn longest_packets_of_both_taps_by_any_sizes(rt: HostRuntime) -> Result<(), Fail> {
    agree(&rt, WITH_LONGEST, WITH_LONGEST, &[EVERY], WIDE_ROOM)
}

#[test]
fn tap_a_day_behind_by_any_sizes(rt: HostRuntime) -> Result<(), Fail> {
    let ahead = Shape {
        second: DAY,
        frames: 300,
        ..USUAL
    };
    agree(&rt, USUAL, ahead, &[NOT_FIRST], ROOM)?;
    agree(&rt, ahead, USUAL, &[EVERY], ROOM)
}
