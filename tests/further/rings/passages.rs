//! Whole recordings through a ring: every item of the reader in its order, and the source back.

use crate::rings::{Open, recording};
use crate::rings::passing::{pass, reader_of, same};
use afdx_frame::Network;
use pcap_io::{BadReason, Ending, ReadFault, ReadSource, TapReader, TapSource};
use std::io;
use std::io::Read;
use std::process::Abort;
use std::sync::Wait;
use std::test::Fail;
use std::thread::Threads;
use tap_queue::{BATCH_LEN, RING_LEN, TapItem, tap_ring};

/// The bytes without the last ones.
fn without(bytes: &[u8], last: usize) -> &[u8] {
    &bytes[..bytes.len().saturating_sub(last)]
}

/// The lengths of the reader's block: the usual one, and one that fills whole batches with short frames.
const BLOCKS: [usize; 2] = [65_536, 262_144];

/// A recording goes through a ring: each item as the reader alone gives it, and this ending.
fn passes<R: Threads + Wait + Sync + Abort + AllocGlobal>(
    rt: &R,
    bytes: &[u8],
    late: u64,
    ending: Ending,
) -> Result<(), Fail> {
    for block in BLOCKS {
        passes_in_blocks(rt, bytes, late, ending, block)?;
    }
    Ok(())
}

/// The same, read in blocks of so many bytes.
fn passes_in_blocks<R: Threads + Wait + Sync + Abort + AllocGlobal>(
    rt: &R,
    bytes: &[u8],
    late: u64,
    ending: Ending,
    block: usize,
) -> Result<(), Fail> {
    let alloc = rt.alloc();
    let ring = tap_ring(alloc, Network::B, late)?;
    let reader = reader_of(alloc, bytes, late)?.with_block_len(block);
    let passed = pass(rt, alloc, reader, ring, &Open)?;
    let mut alone = reader_of(alloc, bytes, late)?;
    for item in &passed.items {
        same(rt, item, &alone.next(alloc)?);
    }
    let last = passed.items.last();
    assert!(rt; matches!(last, Some(TapItem::End(found)) if *found == ending));
    let mut source = passed.settled?;
    assert!(rt; source.read(&mut [0; 8]) == Ok(0));
    Ok(())
}

/// How many frames a batch has room for, and a ring.
const BATCH: u32 = BATCH_LEN as u32;

const RING: u32 = RING_LEN as u32 * BATCH;

/// Numbers of frames around those of a batch and of a ring.
const COUNTS: [u32; 9] = [
    0,
    1,
    BATCH - 1,
    BATCH,
    BATCH + 1,
    RING - 1,
    RING,
    RING + 1,
    2 * RING + 1,
];

#[test]
fn clean_recordings(rt: HostRuntime) -> Result<(), Fail> {
    for count in COUNTS {
        let stamps: Vec<u32> = (0..count).collect(rt.alloc())?;
        let bytes = recording(rt.alloc(), &stamps, 60)?;
        passes(&rt, &bytes, 0, Ending::Clean(u64::from(count)))?;
    }
    Ok(())
}

#[test]
fn an_ending_at_the_end_of_a_batch(rt: HostRuntime) -> Result<(), Fail> {
    for count in [BATCH - 2, BATCH - 1, BATCH, BATCH + 1] {
        let mut stamps: Vec<u32> = (1..=count).collect(rt.alloc())?;
        // A packet that was read ahead with the frames before it ends the recording.
        stamps.push(0)?;
        let bytes = recording(rt.alloc(), &stamps, 60)?;
        let by = u64::from(count);
        let ending = Ending::Bad(by, BadReason::StampBack { by });
        passes(&rt, &bytes, 0, ending)?;
    }
    Ok(())
}

#[test]
fn a_recording_of_real_size(rt: HostRuntime) -> Result<(), Fail> {
    let stamps: Vec<u32> = (0..3000).collect(rt.alloc())?;
    let bytes = recording(rt.alloc(), &stamps, 1514)?;
    passes(&rt, &bytes, 0, Ending::Clean(3000))
}

#[test]
fn a_cut_recording(rt: HostRuntime) -> Result<(), Fail> {
    let bytes = recording(rt.alloc(), &[1, 2, 3], 60)?;
    passes(&rt, without(&bytes, 1), 0, Ending::Cut(2))?;
    passes(&rt, without(&bytes, 60), 0, Ending::Cut(2))
}

#[test]
fn a_bad_recording(rt: HostRuntime) -> Result<(), Fail> {
    let bytes = recording(rt.alloc(), &[1000, 2000, 1500, 999], 60)?;
    passes(&rt, &bytes, 0, Ending::Bad(2, BadReason::StampBack { by: 500 }))?;
    passes(&rt, &bytes, 500, Ending::Bad(3, BadReason::StampBack { by: 1001 }))?;
    passes(&rt, &bytes, 1001, Ending::Clean(4))
}

/// A reader that fails where its bytes end, and counts how often it failed.
#[derive(Drop)]
struct Failing<'a> {
    rest: &'a [u8],
    failures: u64,
}

impl<'a> Read for Failing<'a> {
    fn read(&mut self, buf: &mut [u8]) -> io::Result<usize> {
        if self.rest.is_empty() {
            self.failures = self.failures.saturating_add(1);
            return Err(io::ErrorKind::Other.into());
        }
        self.rest.read(buf)
    }
}

#[test]
fn a_source_that_fails(rt: HostRuntime) -> Result<(), Fail> {
    let alloc = rt.alloc();
    let stamps: Vec<u32> = (0..200).collect(alloc)?;
    let bytes = recording(alloc, &stamps, 1514)?;
    let source = ReadSource::new(Failing {
        rest: without(&bytes, 10),
        failures: 0,
    });
    let Ok(reader) = TapReader::open(source, Network::A, 1 << 32, 0) else {
        return Err("it isn't opened".into());
    };
    let passed = pass(&rt, alloc, reader, tap_ring(alloc, Network::A, 0)?, &Open)?;
    assert!(rt; passed.items.len() == 200);
    let last = passed.items.last();
    assert!(rt; matches!(last, Some(TapItem::Failed(ReadFault::Device))));
    assert!(rt; passed.settled?.into_reader().failures == 1);
    Ok(())
}
