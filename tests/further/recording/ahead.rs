//! Whether the next packet was read ahead whole, at each length of a recording of three packets, by how
//! many bytes its source gave.

use crate::support::{HEADER, SOUND};
use afdx_frame::Network;
use pcap_io::{Item, MemSource, ReadFault, ReadSource, Script, TapReader};
use std::alloc::{AllocError, Global};
use std::io;
use std::io::Read;
use std::process::Abort;
use std::sync::atomic::AtomicU64;
use std::sync::atomic::Ordering::SeqCst;
use std::test::Fail;

/// The captured bytes of the three packets.
const LENS: [u8; 3] = [5, 0, 20];

/// The bytes of the whole recording: the file header, and three packets with theirs.
const WHOLE: usize = 24 + 21 + 16 + 36;

/// The file header of a big-endian nanosecond recording.
const BIG_HEADER: [u8; 24] = [
    0xa1, 0xb2, 0x3c, 0x4d, 0, 2, 0, 4, 0, 0, 0, 0, 0, 0, 0, 0, 0, 4, 0, 0, 0, 0, 0, 1,
];

/// The recording of the three packets, in either byte order.
fn three_packets(alloc: Global, big: bool) -> Result<Vec<u8>, AllocError> {
    let mut bytes = Vec::from_slice(alloc, if big { &BIG_HEADER } else { &HEADER })?;
    for len in LENS {
        let len = u32::from(len);
        for word in [0, 1, len, len] {
            bytes.extend_from_slice(&if big {
                word.to_be_bytes()
            } else {
                word.to_le_bytes()
            })?;
        }
        for _ in 0..len {
            bytes.push(9)?;
        }
    }
    Ok(bytes)
}

/// Bytes that are read in pieces, with a count of those that were.
#[derive(Drop)]
struct Counted<'a> {
    rest: &'a [u8],
    piece: usize,
    given: &'a AtomicU64,
}

impl<'a> Read for Counted<'a> {
    fn read(&mut self, buf: &mut [u8]) -> io::Result<usize> {
        let len = buf.len().min(self.piece);
        let came = self.rest.read(&mut buf[..len])?;
        self.given.fetch_add(came as u64, SeqCst);
        Ok(came)
    }
}

/// Reads these bytes, and compares before each item: a packet is held where so many bytes were given.
fn holds_what_was_given(
    rt: &(impl Abort + AllocGlobal),
    bytes: &[u8],
    piece: usize,
    block: usize,
) -> Result<(), Fail> {
    let given = AtomicU64::new(0);
    let source = ReadSource::new(Counted {
        rest: bytes,
        piece,
        given: &given,
    });
    let Ok(reader) = TapReader::open(source, Network::A, 1 << 32, 0) else {
        return Err("it isn't opened".into());
    };
    let mut reader = reader.with_block_len(block);
    let mut end: u64 = 24;
    for len in LENS {
        end = end.saturating_add(16 + u64::from(len));
        let before = given.load(SeqCst);
        let holds = reader.holds_packet();
        assert!(rt;
            holds == (before >= end),
            "{before} of {} bytes in pieces of {piece}, blocks of {block}",
            bytes.len()
        );
        if let Item::End(_) = reader.next(rt.alloc())? {
            assert!(rt; !holds && (bytes.len() as u64) < end);
            return Ok(());
        }
        if holds {
            // Nothing was read of the source for it.
            assert!(rt; given.load(SeqCst) == before);
        }
    }
    assert!(rt; !reader.holds_packet());
    Ok(())
}

#[test]
fn packets_held_of_each_prefix(rt: HostRuntime) -> Result<(), Fail> {
    for big in [false, true] {
        let bytes = three_packets(rt.alloc(), big)?;
        assert!(rt; bytes.len() == WHOLE);
        for len in 24..=WHOLE {
            for piece in [1, 7, 16, 21, 40, usize::MAX] {
                for block in [0, 16, 30, 64, 65_536] {
                    holds_what_was_given(&rt, &bytes[..len], piece, block)?;
                }
            }
        }
    }
    Ok(())
}

/// How many of the packets after the first come whole of so many bytes.
const HELD: [(usize, u32); 7] = [
    (45, 0),
    (46, 0),
    (60, 0),
    (61, 1),
    (62, 1),
    (96, 1),
    (97, 2),
];

#[test]
fn all_is_held_that_came_before_a_fault(rt: HostRuntime) -> Result<(), Fail> {
    let alloc = rt.alloc();
    for (most, held) in HELD {
        let script = Script { most, ..SOUND };
        let source = MemSource::new(three_packets(alloc, false)?, script);
        let Ok(mut reader) = TapReader::open(source, Network::A, 1 << 32, 0) else {
            return Err("it isn't opened".into());
        };
        assert!(rt; !reader.holds_packet());
        assert!(rt; matches!(reader.next(alloc), Ok(Item::Frame(_))));
        for _ in 0..held {
            assert!(rt; reader.holds_packet(), "{most} bytes");
            assert!(rt; matches!(reader.next(alloc), Ok(Item::Frame(_))));
        }
        assert!(rt; !reader.holds_packet(), "{most} bytes");
        assert!(rt; matches!(reader.next(alloc), Err(ReadFault::Device)));
    }
    Ok(())
}
