//! A worked round of frames.

use crate::support::{ONE_LINK, frame};
use crate::workers::generated::{filtered, programs_of, tap_frame};
use filter_workers::Decision;
use frame_batch::Round;
use std::test::Fail;

#[test]
fn one_link_of_two_frames(rt: HostRuntime) -> Result<(), Fail> {
    let alloc = rt.alloc();
    let programs = programs_of(alloc, &[ONE_LINK])?;
    let mut frames = Vec::new(alloc);
    for (number, link) in [(0, 5), (1, 6)] {
        let Some(frame) = tap_frame(number, frame(alloc, link, 60, 1)?) else {
            panic!(rt; "a frame is out of bounds")
        };
        frames.push(frame)?;
    }
    let frames = Round::from_frames(alloc, frames)?;
    let accepted = Decision {
        mask: 1,
        answer: u32::MAX,
    };
    let rejected = Decision { mask: 0, answer: 0 };
    let decisions = filtered(&rt, &programs, &frames)?;
    assert!(rt; decisions.as_slice() == [accepted, rejected].as_slice());
    Ok(())
}
