//! Recordings that are cut anywhere, that are read in small buffers from sources that fail, that describe
//! many interfaces, and that have long blocks.

use pcap_io::{BadReason, Ending, HeaderFault, MemSource, Script, TapSource};
use pcapng::{Choice, RecordingSource};
use std::test::Fail;
use super::worked::{COMMENTED, CUSTOM, ETHERNET, LITTLE, PACKET, holds, joined};
use super::kinds::{FRAME, NONE, ONE, TWO, refuses};

#[test]
fn too_many_interfaces(rt: HostRuntime) -> Result<(), Fail> {
    let alloc = rt.alloc();
    let mut bytes = joined(alloc, &[LITTLE])?;
    for _ in 0..256 {
        bytes.extend_from_slice(ETHERNET)?;
    }
    let bad = Ending::Bad(1, BadReason::TooManyInterfaces);
    for (parts, ending) in [
        (&[&bytes, PACKET][..], Ending::Clean(1)),
        (&[&bytes, PACKET, ETHERNET][..], bad),
    ] {
        holds(&rt, parts, Choice::Any, ONE, ending)?;
    }
    Ok(())
}

#[test]
fn cut_anywhere(rt: HostRuntime) -> Result<(), Fail> {
    let alloc = rt.alloc();
    let whole = joined(alloc, &[LITTLE, ETHERNET, PACKET, CUSTOM, PACKET])?;
    for len in 0..whole.len() + 1 {
        let cut = [&whole[..len]];
        let (frames, ending) = match len {
            0..28 => {
                refuses(&rt, &cut, HeaderFault::Short)?;
                continue;
            }
            28 | 48 => (NONE, Ending::Clean(0)),
            29..84 => (NONE, Ending::Cut(0)),
            84 | 100 => (ONE, Ending::Clean(1)),
            85..136 => (ONE, Ending::Cut(1)),
            _ => (TWO, Ending::Clean(2)),
        };
        holds(&rt, &cut, Choice::Any, frames, ending)?;
    }
    Ok(())
}

/// All that the source gives, in reads of so many bytes, with its failures: up to 300 bytes.
fn given<S: TapSource>(source: &mut S, size: usize, text: &mut [u8; 300]) -> (usize, u64) {
    let mut done = 0;
    let mut failures = 0u64;
    for _ in 0..1000 {
        if done >= text.len() {
            break;
        }
        let to = text.len().min(done.saturating_add(size));
        match source.read(&mut text[done..to]) {
            Ok(0) => break,
            Ok(came) => done += came,
            Err(_) => failures = failures.saturating_add(1),
        }
    }
    (done, failures)
}

/// The header of the packet in nanosecond pcap.
const PACKET_HEADER: [u8; 16] = [
    0xc6, 0x10, 0, 0, 0xd0, 0xcb, 0xa7, 0x39, 2, 0, 0, 0, 60, 0, 0, 0,
];

#[test]
fn small_buffers_and_failures(rt: HostRuntime) -> Result<(), Fail> {
    let alloc = rt.alloc();
    let bytes = joined(alloc, &[LITTLE, ETHERNET, PACKET, CUSTOM, COMMENTED])?;
    for size in [1, 15, 16, 17, 300] {
        for miss in [None, Some(0), Some(3), Some(50)] {
            let script = Script {
                piece: 2,
                most: usize::MAX,
                miss,
            };
            let source = MemSource::new(Vec::from_slice(alloc, &bytes)?, script);
            let Ok(mut source) = RecordingSource::new(alloc, source, Choice::Any) else {
                panic!(rt; "no memory")
            };
            let mut text = [0u8; 300];
            let (done, failures) = given(&mut source, size, &mut text);
            assert!(rt; done == 24 + 2 * 18);
            assert!(rt; failures == u64::from(miss.is_some()));
            assert!(rt; &text[24..40] == &PACKET_HEADER[..]);
            assert!(rt; &text[40..42] == &[7, 8][..]);
            assert!(rt; &text[58..60] == &[7, 8][..]);
        }
    }
    Ok(())
}

/// An enhanced packet of interface 0, of 200000 bytes, up to these.
const LONG_PACKET: [u8; 28] = [
    6, 0, 0, 0, 0x60, 0x0d, 3, 0, 0, 0, 0, 0, 1, 0, 0, 0, 2, 0, 0, 0, 0x40, 0x0d, 3, 0, 0x40, 0x0d,
    3, 0,
];

#[test]
fn a_long_block(rt: HostRuntime) -> Result<(), Fail> {
    let alloc = rt.alloc();
    // A packet of 200000 bytes, and a block of as many that is skipped.
    for kind in [6, 5] {
        let mut block = Vec::with_capacity(alloc, 200_032)?;
        block.push(kind)?;
        block.extend_from_slice(&LONG_PACKET[1..])?;
        block.resize(200_028, 9)?;
        block.extend_from_slice(&[0x60, 0x0d, 3, 0])?;
        let parts = [LITTLE, ETHERNET, PACKET, block.as_slice(), PACKET];
        if kind == 6 {
            let mut body = Vec::with_capacity(alloc, 200_000)?;
            body.resize(200_000, 9)?;
            let frames = [FRAME, (FRAME.0, 200_000, body.as_slice()), FRAME];
            holds(&rt, &parts, Choice::Any, &frames, Ending::Clean(3))?;
        } else {
            let frames = [FRAME, FRAME];
            holds(&rt, &parts, Choice::Any, &frames, Ending::Clean(2))?;
        }
    }
    Ok(())
}
