//! The most links, many lines, and rounds beside single lines and texts.

use crate::ledger::{By, Round, add};
use crate::rows::judge_next;
use afdx_frame::{Network, Stamp, TapFrame};
use frame_batch::Round as Frames;
use pcap_io::{Ending, WriteSink};
use std::alloc::Global;
use std::fmt::Write;
use std::process::Abort;
use std::test::Fail;
use verdict_ledger::{Ledger, LedgerVersion};
use vl_config::Config;
use vl_judge::Lanes;

/// A table of so many links, at most 4096, whose identifiers are 16 apart.
fn table_of(alloc: Global, links: u32) -> Result<String, Fail> {
    let mut table = String::new(alloc);
    table.push_str("constant = 50331648\n")?;
    for link in 0..links.min(4096) {
        let id = link * 16;
        write!(
            table,
            "[[link]]\nid = {id}\nname = \"link-{id}\"\nbag_ms = 1\njitter_us = 0\nsmax = 200\n\
             integrity = true\nredundancy = true\nskew_us = 0\n"
        )?;
    }
    Ok(table)
}

/// The frame at an index: those of all links in turn, 1 us apart.
fn frame_at(alloc: Global, place: u32) -> Result<TapFrame, Fail> {
    let [_, _, high, low] = (place % 4096 * 16).to_be_bytes();
    let mut bytes = Vec::with_capacity(alloc, 60)?;
    bytes.extend_from_slice(&[3, 0, 0, 0, high, low])?;
    bytes.resize(60, 0)?;
    let network = if place % 2 == 0 {
        Network::A
    } else {
        Network::B
    };
    let stamp = Stamp(u64::from(place) * 1000);
    Ok(TapFrame::new(network, u64::from(place), stamp, 60, bytes).map_err(|_| "no such frame")?)
}

/// So many frames, with their verdicts; each third is accepted.
fn many_of(rt: &(impl Abort + AllocGlobal), config: &Config, len: u32) -> Result<Round, Fail> {
    let mut lanes = Lanes::new(rt.alloc(), config)?;
    let mut round = Round::new(rt.alloc());
    let mut frames = Vec::new(rt.alloc());
    for place in 0..len {
        let frame = frame_at(rt.alloc(), place)?;
        round.verdicts.push(judge_next(rt, &mut lanes, &frame))?;
        frames.push(frame)?;
        round
            .keeps
            .push(if place % 3 == 0 { Some(60) } else { None })?;
        round.masks.push(u8::from(place % 3 == 0))?;
    }
    round.frames = Frames::from_frames(rt.alloc(), frames)?;
    Ok(round)
}

/// A ledger in memory, of one filter, in which no frame stands yet.
fn begun(alloc: Global, config: &Config) -> Result<Ledger<WriteSink<Vec<u8>>>, Fail> {
    match Ledger::begin(alloc, config, 1, LedgerVersion::Two, WriteSink::new(Vec::new(alloc))) {
        Ok(ledger) => Ok(ledger),
        Err(refused) => Err(refused.fault.into()),
    }
}

/// The bytes of a ledger that ends after two clean recordings of 50000 frames.
fn finished(ledger: Ledger<WriteSink<Vec<u8>>>) -> Result<Vec<u8>, Fail> {
    match ledger.finish(Ending::Clean(50_000), Ending::Clean(50_000)) {
        Ok((sink, _)) => Ok(sink.into_writer()),
        Err(refused) => Err(refused.fault.into()),
    }
}

#[test]
fn a_round_of_all_links_is_its_lines(rt: HostRuntime) -> Result<(), Fail> {
    let config = Config::read(rt.alloc(), &table_of(rt.alloc(), 4096)?)?;
    let round = many_of(&rt, &config, 100_000)?;
    let mut by_round = begun(rt.alloc(), &config)?;
    add(&rt, &mut by_round, &round, By::Round)?;
    let mut by_lines = begun(rt.alloc(), &config)?;
    add(&rt, &mut by_lines, &round, By::Lines)?;
    assert!(rt; by_lines.totals() == by_round.totals());
    assert!(rt; by_round.totals().frames == 100_000);
    assert!(rt; by_round.totals().filters == [33_334, 0, 0, 0, 0, 0, 0, 0]);
    let (round_text, line_text) = (finished(by_round)?, finished(by_lines)?);
    assert!(rt; round_text == line_text && round_text.len() > 4_000_000);
    Ok(())
}

/// Writes rounds by texts and by rounds in turn, and returns what was written.
fn by_both(
    rt: &(impl Abort + AllocGlobal),
    config: &Config,
    rounds: &[Round],
) -> Result<Vec<u8>, Fail> {
    let mut ledger = begun(rt.alloc(), config)?;
    for (place, round) in rounds.iter().enumerate() {
        let by = if place % 2 == 0 { By::Text } else { By::Round };
        add(rt, &mut ledger, round, by)?;
    }
    finished(ledger)
}

#[test]
fn texts_are_the_lines_of_their_rounds(rt: HostRuntime) -> Result<(), Fail> {
    let alloc = rt.alloc();
    // Frames of most links are unconfigured.
    let config = Config::read(alloc, &table_of(alloc, 64)?)?;
    let mut rounds = Vec::new(alloc);
    for len in [0, 1, 1024, 1025, 3000] {
        rounds.push(many_of(&rt, &config, len)?)?;
    }
    let mut by_round = begun(alloc, &config)?;
    let mut by_text = begun(alloc, &config)?;
    for round in &rounds {
        add(&rt, &mut by_round, round, By::Round)?;
        add(&rt, &mut by_text, round, By::Text)?;
        assert!(rt; by_text.totals() == by_round.totals());
    }
    assert!(rt; by_text.totals().frames == 5050);
    let written = finished(by_round)?;
    assert!(rt; finished(by_text)? == written);
    assert!(rt; by_both(&rt, &config, &rounds)? == written);
    Ok(())
}
