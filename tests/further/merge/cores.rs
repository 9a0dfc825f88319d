//! The core over recordings, and its output.

use crate::merge::frame_at;
use afdx_frame::Network::{self, A, B};
use afdx_frame::{LentFrame, TapFrame};
use specified::{Core, CoreSizes, Work, is_recording};
use std::alloc::AllocError;
use std::process::Abort;

pub mod events;

/// Answers each frame by the last digits of its stamp.
pub struct Digits;

impl Work for Digits {
    ghost use Rattle.std.specs.Prelude.{◌%◌};

    ghost answer_of = { λ _ f. f.stamp % 1000 };

    fn answer(&self, frame: &LentFrame<'_>) -> u32 {
        (frame.stamp().0 % 1000) as u32
    }
}

fn recording(
    rt: &(impl Abort + AllocGlobal),
    network: Network,
    stamps: &[u64],
) -> Result<Vec<TapFrame>, AllocError> {
    let mut frames = Vec::new(rt.alloc());
    for (number, stamp) in stamps.iter().enumerate() {
        frames.push(frame_at(rt, network, number as u64, *stamp))?;
    }
    Ok(frames)
}

/// The sizes of a core whose rings and rounds have room for all frames of a short test.
pub const AMPLE: CoreSizes = CoreSizes {
    ring: 64,
    round: 256,
};

/// A core of these sizes over two recordings, with two workers.
pub fn core_of(
    rt: &(impl Abort + AllocGlobal),
    sizes: CoreSizes,
    late: u64,
    a: &[u64],
    b: &[u64],
) -> Result<Core, AllocError> {
    let a = recording(rt, A, a)?;
    let b = recording(rt, B, b)?;
    assert!(rt; is_recording(A, late, &a));
    assert!(rt; is_recording(B, late, &b));
    assert!(rt; sizes.ring > 0);
    assert!(rt; sizes.round > 0);
    Core::new(rt.alloc(), sizes, a, b, 2, late)
}

/// Compares the output with the order: stamp and network of each frame.
pub fn is_prefix(rt: &impl Abort, core: &Core, order: &[(u64, Network)]) {
    assert!(rt; core.output().len() <= order.len());
    for (answered, (stamp, network)) in core.output().iter().zip(order) {
        let key = answered.frame.key();
        assert!(rt; key.stamp.0 == *stamp);
        assert!(rt; key.network == *network);
        assert!(rt; u64::from(answered.answer) == *stamp % 1000);
    }
}
