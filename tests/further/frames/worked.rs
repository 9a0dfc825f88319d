//! Worked examples.

use afdx_frame::{
    FrameBytes, FrameView, Key, LentFrame, Network, Stamp, TapFrame, VlId, key_order,
};
use std::alloc::Global;
use std::sync::Arc;
use std::test::Fail;

/// Nanoseconds.
const SECOND: u64 = 1_000_000_000;

/// From a source on network A to link 5: addresses, type, two bytes of body, sequence number 42.
pub(crate) const FRAME: [u8; 17] = [
    0x03, 0, 0, 0, 0, 5, 0x02, 0, 0, 0, 1, 0x20, 0x08, 0, 0x45, 0x46, 42,
];

/// Number, stamp, length on the wire, captured bytes, and whether they are within all bounds.
const BOUNDS: [(u64, u64, u32, usize, bool); 12] = [
    (0, 0, 0, 0, true),
    ((1 << 32) - 1, 0, 64, 64, true),
    (1 << 32, 0, 64, 64, false),
    (u64::MAX, 0, 64, 64, false),
    (0, (SECOND << 32) - 1, 64, 64, true),
    (0, SECOND << 32, 64, 64, false),
    (0, u64::MAX, 64, 64, false),
    (0, 0, u32::MAX, 262144, true),
    (0, 0, u32::MAX, 262145, false),
    (0, 0, 64, 64, true),
    (0, 0, 63, 64, false),
    (0, 0, 0, 1, false),
];

const fn key(stamp: u64, network: Network, number: u64) -> Key {
    Key {
        stamp: Stamp(stamp),
        network,
        number,
    }
}

/// The frame has this key, this length on the wire, and so many captured bytes, each of them a 7.
fn is_of(frame: &TapFrame, key: Key, whole: u32, captured: usize) -> bool {
    let bytes = frame.view().bytes();
    frame.key() == key
        && frame.whole() == whole
        && bytes.len() == captured
        && bytes.iter().all(|byte| *byte == 7)
}

#[test]
fn frames_at_their_bounds(rt: HostRuntime) -> Result<(), Fail> {
    for bounds in &BOUNDS {
        let (number, stamp, whole, captured, fits) = *bounds;
        let bytes = vec![in rt.alloc(); 7; captured]?;
        match TapFrame::new(Network::B, number, Stamp(stamp), whole, bytes) {
            Ok(frame) => {
                assert!(rt; fits && is_of(&frame, key(stamp, Network::B, number), whole, captured));
            }
            Err(back) => {
                assert!(rt; !fits && back.len() == captured && back.last() == Some(&7));
            }
        }
    }
    Ok(())
}

/// Bytes of a frame: a part of a block, between two bytes that aren't the frame's, or its own.
fn bytes_of(alloc: Global, captured: usize, shared: bool) -> Result<FrameBytes, Fail> {
    if !shared {
        return Ok(FrameBytes::own(vec![in alloc; 7; captured]?));
    }
    let mut block = vec![in alloc; 8]?;
    block.resize(captured.saturating_add(1), 7)?;
    let to = block.len();
    block.push(8)?;
    Ok(FrameBytes::part(&Arc::new(alloc, block)?, 1, to)?)
}

#[test]
fn frames_that_share_at_their_bounds(rt: HostRuntime) -> Result<(), Fail> {
    for bounds in &BOUNDS {
        let (number, stamp, whole, captured, fits) = *bounds;
        for shared in [true, false] {
            let bytes = bytes_of(rt.alloc(), captured, shared)?;
            match TapFrame::sharing(Network::B, number, Stamp(stamp), whole, bytes) {
                Some(frame) => {
                    assert!(rt;
                        fits && is_of(&frame, key(stamp, Network::B, number), whole, captured)
                    );
                }
                None => assert!(rt; !fits),
            }
        }
    }
    Ok(())
}

#[test]
fn a_part_outlives_its_block(rt: HostRuntime) -> Result<(), Fail> {
    let alloc = rt.alloc();
    let block = Arc::new(alloc, FRAME.to_vec(alloc)?)?;
    let part = FrameBytes::part(&block, 2, 9)?;
    let whole = FrameBytes::part(&block, 0, FRAME.len())?;
    drop(block);
    drop(whole);
    assert!(rt; part.as_slice() == &FRAME[2..9]);
    assert!(rt; FrameBytes::own(FRAME.to_vec(alloc)?).as_slice() == FRAME.as_slice());
    Ok(())
}

/// A frame of 60 bytes on the wire, with these bytes.
fn sample(alloc: Global) -> Option<TapFrame> {
    let bytes = FRAME.to_vec(alloc).ok()?;
    TapFrame::new(Network::B, 3, Stamp(8), 60, bytes).ok()
}

/// Each part of the frame is what it was made of.
fn is_sample(frame: &TapFrame) -> bool {
    frame.network() == Network::B
        && frame.number() == 3
        && frame.stamp() == Stamp(8)
        && frame.whole() == 60
        && frame.key() == key(8, Network::B, 3)
        && frame.view().vl() == Some(VlId(5))
        && frame.view().bytes() == FRAME.as_slice()
}

fn is_lent_sample(frame: &LentFrame<'_>) -> bool {
    frame.network() == Network::B
        && frame.number() == 3
        && frame.stamp() == Stamp(8)
        && frame.whole() == 60
        && frame.key() == key(8, Network::B, 3)
        && frame.view().bytes() == FRAME.as_slice()
}

#[test]
fn parts_of_a_frame(rt: HostRuntime) {
    let Some(frame) = sample(rt.alloc()) else {
        panic!(rt; "no frame within the bounds");
    };
    assert!(rt; is_sample(&frame));
    assert!(rt; is_lent_sample(&frame.lent()));
}

#[test]
fn keys_by_stamp_then_network_then_number(rt: HostRuntime) {
    use Network::{A, B};
    for (lower, higher) in [
        (key(1, B, 9), key(2, A, 0)),
        (key(1, A, 9), key(1, B, 0)),
        (key(1, A, 0), key(1, A, 1)),
        (key(1, B, 9), key(1, B, 10)),
    ] {
        assert!(rt; lower < higher && higher > lower);
    }
    key_order();
}

const CONSTANT: Option<u32> = Some(0x0300_0000);

const LINK: Option<VlId> = Some(VlId(5));

/// How many bytes of the frame a view has, its constant field, its link, its sequence number and its body.
type Shortest = (
    usize,
    Option<u32>,
    Option<VlId>,
    Option<u8>,
    Option<&'static [u8]>,
);

const SHORTEST: [Shortest; 9] = [
    (0, None, None, None, None),
    (1, None, None, Some(3), None),
    (3, None, None, Some(0), None),
    (4, CONSTANT, None, Some(0), None),
    (5, CONSTANT, None, Some(0), None),
    (6, CONSTANT, LINK, Some(5), None),
    (14, CONSTANT, LINK, Some(0), None),
    (15, CONSTANT, LINK, Some(0x45), Some(&[])),
    (17, CONSTANT, LINK, Some(42), Some(&[0x45, 0x46])),
];

#[test]
fn views_at_their_shortest_lengths(rt: HostRuntime) {
    for (len, constant, link, sequence, body) in &SHORTEST {
        let bytes = &FRAME[..(*len).min(17)];
        let view = FrameView::new(bytes);
        assert!(rt; view.bytes() == bytes && view.body() == *body);
        assert!(rt;
            view.constant() == *constant && view.vl() == *link && view.sequence() == *sequence
        );
    }
}
