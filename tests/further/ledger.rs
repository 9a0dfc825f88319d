//! The ledger: the worked examples as they are written, each word, devices that fail, and lines made as text.
//!
//! Each ledger is written by single lines, by a round, and by a round's text.

// further: mod devices;
// further: mod examples;
// further: mod many;

use crate::rows::{FRAME, Row, frame_of, judge_next};
use afdx_frame::Network;
use frame_batch::Round as Frames;
use pcap_io::OutSink;
use std::alloc::{AllocError, Global};
use std::process::Abort;
use verdict_ledger::{Ledger, LedgerFault, LedgerVersion, append_lines};
use vl_config::Config;
use vl_judge::{Lanes, Verdict};

/// The lists that a round of the ledger takes.
#[derive(Drop)]
pub struct Round {
    pub frames: Frames,
    pub verdicts: Vec<Verdict>,
    pub keeps: Vec<Option<u32>>,
    pub masks: Vec<u8>,
}

impl Round {
    /// Of no frame.
    pub fn new(alloc: Global) -> Round {
        Round {
            frames: Frames::new(alloc),
            verdicts: Vec::new(alloc),
            keeps: Vec::new(alloc),
            masks: Vec::new(alloc),
        }
    }
}

/// A round of these rows, with the verdicts under the table. None: there is no memory for it.
pub fn round_of(rt: &(impl Abort + AllocGlobal), config: &Config, rows: &[Row]) -> Option<Round> {
    let mut lanes = Lanes::new(rt.alloc(), config).ok()?;
    let mut round = Round::new(rt.alloc());
    let mut frames = Vec::new(rt.alloc());
    for row in rows {
        let frame = frame_of(rt.alloc(), row)?;
        let verdict = judge_next(rt, &mut lanes, &frame);
        let has_room = round.verdicts.push(verdict).is_ok()
            && round.keeps.push(row.keep).is_ok()
            && round.masks.push(row.mask).is_ok()
            && frames.push(frame).is_ok();
        if !has_room {
            return None;
        }
    }
    round.frames = Frames::from_frames(rt.alloc(), frames).ok()?;
    Some(round)
}

/// How the lines of a round come into a ledger.
#[derive(Clone, Copy)]
pub enum By {
    Lines,
    Round,
    Text,
}

pub const WAYS: [By; 3] = [By::Lines, By::Round, By::Text];

/// Adds the lines of a round to a ledger that isn't full.
pub fn add<W: OutSink>(
    rt: &(impl Abort + AllocGlobal),
    ledger: &mut Ledger<W>,
    round: &Round,
    by: By,
) -> Result<(), LedgerFault> {
    match by {
        By::Lines => add_lines(rt, ledger, round),
        By::Round => add_round(rt, ledger, round),
        By::Text => add_text(rt, ledger, round),
    }
}

/// Adds the line of one frame.
fn add_line<W: OutSink>(
    rt: &impl Abort,
    ledger: &mut Ledger<W>,
    round: &Round,
    index: usize,
) -> Result<(), LedgerFault> {
    assert!(rt; index < round.frames.len() && index < round.verdicts.len());
    assert!(rt; index < round.keeps.len() && index < round.masks.len());
    assert!(rt; ledger.totals().frames < 1 << 34);
    ledger.line(
        &round.frames.frame(index),
        &round.verdicts[index],
        round.keeps[index],
        round.masks[index],
    )
}

/// Adds each line by itself, up to the first that fails.
fn add_lines<W: OutSink>(
    rt: &impl Abort,
    ledger: &mut Ledger<W>,
    round: &Round,
) -> Result<(), LedgerFault> {
    for index in 0..round.frames.len() {
        let before = ledger.totals().frames;
        let added = add_line(rt, ledger, round, index);
        let counted = u64::from(added.is_ok());
        assert!(rt; ledger.totals().frames == before.saturating_add(counted));
        if added.is_err() {
            return added;
        }
    }
    Ok(())
}

/// Adds a round by one call.
fn add_round<W: OutSink>(
    rt: &impl Abort,
    ledger: &mut Ledger<W>,
    round: &Round,
) -> Result<(), LedgerFault> {
    assert!(rt; round.verdicts.len() == round.frames.len());
    assert!(rt; round.keeps.len() == round.frames.len());
    assert!(rt; round.masks.len() == round.frames.len());
    assert!(rt; ledger.totals().frames < 1 << 33 && round.frames.len() < 1 << 33);
    ledger.round(&round.frames, &round.verdicts, &round.keeps, &round.masks)
}

/// Makes the text of a round, and adds that.
fn add_text<W: OutSink>(
    rt: &(impl Abort + AllocGlobal),
    ledger: &mut Ledger<W>,
    round: &Round,
) -> Result<(), LedgerFault> {
    assert!(rt; round.verdicts.len() == round.frames.len());
    assert!(rt; round.keeps.len() == round.frames.len());
    assert!(rt; round.masks.len() == round.frames.len());
    assert!(rt; ledger.totals().frames < 1 << 33 && round.frames.len() < 1 << 33);
    let Round {
        frames,
        verdicts,
        keeps,
        masks,
    } = round;
    let mut text = Vec::new(rt.alloc());
    let version = LedgerVersion::Two;
    if append_lines(&mut text, version, &frames.all(), verdicts, keeps, masks).is_err() {
        assert!(rt; text.is_empty());
        return Err(LedgerFault::Memory);
    }
    // Once the text stands, it is written without memory.
    let added = ledger.round_text(&text, frames, verdicts, keeps, masks);
    assert!(rt; added != Err(LedgerFault::Memory));
    added
}

/// The frames of the two-tap ledger, of which the filter drops the sequence number 1.
pub const TWO: [Row; 3] = [
    Row {
        keep: None,
        mask: 0,
        ..FRAME
    },
    Row {
        place: 1,
        stamp: 100,
        number: 2,
        ..FRAME
    },
    Row {
        network: Network::B,
        stamp: 200,
        number: 2,
        ..FRAME
    },
];

/// The lines of the two-tap ledger.
pub const LINES: &str = "0 A 0 5 1 regular within first deliver - 00\n\
    100 A 1 5 2 regular within next deliver 60 01\n\
    200 B 0 5 2 regular within first copy 60 01\n";
