//! The pool of workers: rounds of many sizes, each put before the one before is taken.

use std::alloc::Global;
use std::process::Abort;
use std::sync::Wait;
use std::test::Fail;
use std::thread;
use std::thread::{Scope, Threads};
use worker_pool::{Done, MAX_CHUNK, Pool, PoolFault, Task};

/// Which items a batch is of, the number of the first, and how often its memory was used.
#[derive(Drop)]
struct Span {
    from: usize,
    to: usize,
    first: u64,
    used: u32,
}

/// Notes the items of each chunk.
#[derive(Drop)]
struct Note;

impl Task for Note {
    ghost use Rattle.std.specs.Prelude.{◌≡◌, length};

    type Round = Vec<u64>;

    type Batch = Span;

    ghost len = { λ task round. length round.items };

    ghost is_batch = { λ task round from to batch. (batch.from ≡ from) × (batch.to ≡ to) };

    fn len(&self, round: &Vec<u64>) -> usize {
        round.len()
    }

    fn spare(&self) -> Span {
        Span {
            from: 0,
            to: 0,
            first: 0,
            used: 0,
        }
    }

    fn work(&self, round: &Vec<u64>, from: usize, to: usize, spare: Span) -> Span {
        Span {
            from,
            to,
            first: round[from],
            used: spare.used.saturating_add(1),
        }
    }
}

/// The numbers from 7 on, so many.
fn round_of(alloc: Global, size: usize) -> Result<Vec<u64>, PoolFault> {
    let mut round = Vec::with_capacity(alloc, size)?;
    for number in 0..size {
        if round.push((number as u64).wrapping_add(7)).is_err() {
            return Err(PoolFault::Memory);
        }
    }
    Ok(round)
}

/// The batches cover the round, one after another.
fn covers(rt: &impl Abort, size: usize, done: &Done<Vec<u64>, Span>) {
    let mut next = 0usize;
    for span in &done.batches {
        assert!(rt; span.from == next);
        assert!(rt; span.to > span.from && span.to <= span.from.saturating_add(done.chunk));
        assert!(rt; span.first == (span.from as u64).wrapping_add(7));
        next = span.to;
    }
    assert!(rt; next == size);
    assert!(rt; done.round.len() == size);
    assert!(rt; done.chunk >= 1 && done.chunk <= MAX_CHUNK);
}

/// Rounds of so many items, each put before the batches of the one before are taken.
fn overlapped<'s, E, R: Threads + Wait + Abort + Sync>(
    scope: &Scope<'s, E>,
    rt: &'s R,
    alloc: Global,
    workers: u32,
    sizes: &[usize],
) -> Result<u32, PoolFault> {
    let mut pool = Pool::start(scope, rt, alloc, Note, workers)?;
    let mut most = 0u32;
    let mut before = 0usize;
    let mut flight = pool.put(round_of(alloc, 0)?)?;
    for size in sizes {
        let next = pool.put(round_of(alloc, *size)?)?;
        let done = pool.take(rt, flight)?;
        covers(rt, before, &done);
        for span in &done.batches {
            most = most.max(span.used);
        }
        pool.give_back(done.batches);
        flight = next;
        before = *size;
    }
    let done = pool.take(rt, flight)?;
    covers(rt, before, &done);
    pool.close();
    Ok(most)
}

/// Runs the rounds in a scope of their own.
fn run<R: Threads + Wait + Abort + Sync>(
    rt: &R,
    alloc: Global,
    workers: u32,
    sizes: &[usize],
) -> Result<u32, PoolFault> {
    thread::scope(
        thread::scope_env(),
        rt,
        |scope| overlapped(scope, rt, alloc, workers, sizes),
    )
}

/// The number of workers, the rounds, and how often a batch's memory was used at least.
const ROUNDS: [(u32, &[usize], u32); 10] = [
    (0, &SIZES, 1),
    (1, &SIZES, 1),
    (2, &SIZES, 1),
    (3, &SIZES, 1),
    (4, &SIZES, 1),
    (5, &SIZES, 1),
    (6, &SIZES, 1),
    (7, &SIZES, 1),
    (8, &SIZES, 1),
    (3, &[700; 60], 4),
];

const SIZES: [usize; 9] = [0, 1, 255, 256, 257, 2048, 3, 0, 5000];

#[test]
fn rounds_on_one_to_eight_workers(rt: HostRuntime) -> Result<(), Fail> {
    for (workers, sizes, least) in &ROUNDS {
        let most = run(&rt, rt.alloc(), *workers, sizes)?;
        assert!(rt; most >= *least, "{workers} workers");
    }
    Ok(())
}
