//! Generated rounds, and large frames.

use crate::support::{EVERY, ONE_LINK, frame, loaded};
use afdx_frame::{Network, Stamp, TapFrame};
use bpf_loader::Program;
use bpf_machine::run;
use filter_workers::Decision;
use frame_batch::Round;
use specified::filter_round;
use std::alloc::{AllocError, Global};
use std::process::Abort;
use std::test::Fail;

/// A frame of network A that is captured whole.
pub(crate) fn tap_frame(number: u64, bytes: Vec<u8>) -> Option<TapFrame> {
    let whole = u32::try_from(bytes.len()).ok()?;
    TapFrame::new(Network::A, number, Stamp(number), whole, bytes).ok()
}

/// The programs of texts in the numeric form.
pub(crate) fn programs_of(alloc: Global, texts: &[&str]) -> Result<Vec<Program>, Fail> {
    let mut programs = Vec::new(alloc);
    for text in texts {
        programs.push(loaded(alloc, text)?)?;
    }
    Ok(programs)
}

/// Filters a round.
pub(crate) fn filtered(
    rt: &(impl Abort + AllocGlobal),
    programs: &[Program],
    frames: &Round,
) -> Result<Vec<Decision>, AllocError> {
    assert!(rt; programs.len() <= 8);
    filter_round(rt.alloc(), programs, frames)
}

/// `ldb [59]`, `ret a`.
const SEQUENCE: &str = "2,48 0 0 59,22 0 0 0,";

/// `ld len`, `sub #60`, `ret a`: it rejects the frames of 60 bytes.
const EXCESS_LENGTH: &str = "3,128 0 0 0,20 0 0 60,22 0 0 0,";

/// `ret #0`.
const NONE: &str = "1,6 0 0 0,";

/// Frames of 60 to 68 bytes, of links 0 to 6 in turn, with different last bytes.
pub(crate) fn round_of(alloc: Global, count: u64) -> Option<Round> {
    let mut frames = Vec::new(alloc);
    for number in 0..count {
        let len = 60 + (number % 9) as usize;
        let last = (number % 51 * 5) as u8;
        let bytes = frame(alloc, (number % 7) as u8, len, last).ok()?;
        frames.push(tap_frame(number, bytes)?).ok()?;
    }
    Round::from_frames(alloc, frames).ok()
}

/// What the filters say of each frame, found by one run after the other.
pub(crate) fn one_by_one(
    alloc: Global,
    programs: &[Program],
    frames: &Round,
) -> Result<Vec<Decision>, AllocError> {
    let mut all = Vec::new(alloc);
    for index in 0..frames.len() {
        let frame = frames.frame(index);
        let mut decision = Decision { mask: 0, answer: 0 };
        for (place, program) in programs.iter().enumerate() {
            let (answer, _) = run(program, &frame.view(), frame.whole());
            if answer != 0 && place < 8 {
                decision.mask |= 1 << place;
            }
            decision.answer = decision.answer.max(answer);
        }
        all.push(decision)?;
    }
    Ok(all)
}

#[test]
fn generated_rounds(rt: HostRuntime) -> Result<(), Fail> {
    let alloc = rt.alloc();
    let one = programs_of(alloc, &[SEQUENCE])?;
    let three = programs_of(alloc, &[ONE_LINK, SEQUENCE, EXCESS_LENGTH])?;
    let eight = programs_of(
        alloc,
        &[
            NONE,
            SEQUENCE,
            ONE_LINK,
            NONE,
            EXCESS_LENGTH,
            EXCESS_LENGTH,
            SEQUENCE,
            EVERY,
        ],
    )?;
    for count in [0, 1, 2, 7, 255, 256, 1000] {
        let frames = round_of(alloc, count).ok_or("no frames")?;
        for programs in [&one, &three, &eight] {
            let expected = one_by_one(alloc, programs, &frames)?;
            let decisions = filtered(&rt, programs, &frames)?;
            assert!(rt; decisions.as_slice() == expected.as_slice(), "{count} frames");
        }
    }
    Ok(())
}

#[test]
fn large_frames(rt: HostRuntime) -> Result<(), Fail> {
    let alloc = rt.alloc();
    let programs = programs_of(alloc, &[EXCESS_LENGTH, SEQUENCE])?;
    let mut frames = Vec::new(alloc);
    for number in 0..6 {
        frames.push(tap_frame(number, frame(alloc, 5, 262_144, 7)?).ok_or("no frame")?)?;
    }
    let frames = Round::from_frames(alloc, frames)?;
    let expected = Decision {
        mask: 1,
        answer: 262_084,
    };
    let decisions = filtered(&rt, &programs, &frames)?;
    assert!(rt; decisions.as_slice() == [expected; 6].as_slice());
    Ok(())
}
