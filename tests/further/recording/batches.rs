//! Frames that a reader gives together.

use crate::recording::{opened, push_packet};
use crate::support::{HEADER, SOUND};
use pcap_io::{Batched, Ending, MemSource, ReadFault, Script, TapReader};
use std::alloc::AllocError;
use std::process::Abort;

/// A reader of packets of so many bytes each.
fn reader_of(
    rt: &(impl Abort + AllocGlobal),
    packets: &[u32],
    script: Script,
) -> Result<TapReader<MemSource>, AllocError> {
    let mut bytes = Vec::from_slice(rt.alloc(), &HEADER)?;
    for captured in packets {
        let there = &[0u8; 60][..(*captured as usize).min(60)];
        push_packet(&mut bytes, [0, 1, *captured, 60], there)?;
    }
    Ok(opened(rt, MemSource::new(bytes, script), 0))
}

/// So many frames come together, of which the first has this number.
fn come(
    rt: &(impl Abort + AllocGlobal),
    reader: &mut TapReader<MemSource>,
    most: usize,
    number: u64,
    count: usize,
) {
    match reader.next_batch(rt.alloc(), most) {
        Ok(Batched::Frames(frames)) => {
            assert!(rt; frames.count() == count);
            assert!(rt; frames.first().number() == number);
            assert!(rt; frames.last().whole() == 60);
        }
        _ => panic!(rt; "no frames come"),
    }
}

/// Twice comes the same ending, or a fault and then that the reader has failed.
fn stops(rt: &(impl Abort + AllocGlobal), reader: &mut TapReader<MemSource>, at: Option<Ending>) {
    for fault in [ReadFault::Device, ReadFault::Failed] {
        match reader.next_batch(rt.alloc(), 512) {
            Ok(Batched::Frames(_)) => panic!(rt; "frames come"),
            Ok(Batched::End(ending)) => assert!(rt; at == Some(ending)),
            Err(found) => assert!(rt; at.is_none() && found == fault),
        }
    }
}

/// The length of a block, the most frames of a batch, the bytes of the packets, and how many frames come
/// together.
type Case = (usize, usize, &'static [u32], &'static [usize]);

const CASES: [Case; 7] = [
    (65_536, 512, &[60; 5], &[5]),
    (65_536, 2, &[60; 5], &[2, 2, 1]),
    (65_536, 0, &[60; 2], &[1, 1]),
    // A block of two packets and a part of the third one.
    (160, 512, &[60; 5], &[2, 2, 1]),
    (65_536, 512, &[60, 0, 60], &[3]),
    // A packet of no bytes needs no block.
    (65_536, 512, &[0, 60, 60], &[1, 2]),
    (65_536, 512, &[], &[]),
];

#[test]
fn frames_that_are_read_together(rt: HostRuntime) -> Result<(), AllocError> {
    for (len, most, packets, counts) in &CASES {
        let mut reader = reader_of(&rt, packets, SOUND)?.with_block_len(*len);
        let mut number = 0u64;
        for count in *counts {
            come(&rt, &mut reader, *most, number, *count);
            number = number.saturating_add(*count as u64);
        }
        stops(&rt, &mut reader, Some(Ending::Clean(number)));
    }
    Ok(())
}

/// How many bytes come before a fault, and how many of three frames.
const CUT: [(usize, usize); 4] = [(176, 2), (175, 1), (251, 2), (252, 3)];

#[test]
fn frames_that_were_read_together_before_a_fault(rt: HostRuntime) -> Result<(), AllocError> {
    for (most, count) in &CUT {
        let script = Script {
            most: *most,
            ..SOUND
        };
        let mut reader = reader_of(&rt, &[60; 3], script)?;
        come(&rt, &mut reader, 512, 0, *count);
        stops(&rt, &mut reader, None);
    }
    Ok(())
}
