//! Rounds over many links and over few, beside single judgements; and a million frames of 4096 links.

use crate::judges::rounds::judged;
use crate::rows::{bytes_of, judge_next};
use afdx_frame::{Network, Stamp, TapFrame};
use frame_batch::Round;
use integrity::Integrity;
use redundancy::Redundancy;
use std::alloc::Global;
use std::process::Abort;
use std::test::Fail;
use vl_config::Config;
use vl_judge::Lanes;

fn frame_at(
    network: Network,
    place: u64,
    stamp: u64,
    whole: u32,
    bytes: Vec<u8>,
) -> Result<TapFrame, Fail> {
    Ok(TapFrame::new(network, place, Stamp(stamp), whole, bytes).map_err(|_| "no such frame")?)
}

/// A table of links with the identifiers from 1 on.
fn table_of(alloc: Global, links: u32) -> Result<String, Fail> {
    let mut text = format!(in alloc; "constant = 50331648\n")?;
    for id in 1..=links {
        text.push_str(format!(in alloc;
            "[[link]]\nid = {id}\nname = \"link-{id}\"\nbag_ms = 1\njitter_us = 0\nsmax = 200\n\
             integrity = true\nredundancy = true\nskew_us = 1000\n"
        )?
        .as_str())?;
    }
    Ok(text)
}

/// Frames of both networks, of the links 1 to `links` and some above them, some too short to have a
/// link and some too long for theirs.
fn mixed(alloc: Global, from: u64, count: u64, links: u64) -> Result<Round, Fail> {
    let mut frames = Vec::new(alloc);
    for place in from..from.saturating_add(count) {
        let link = (place % 8191 * 37 % (links % 4096 + 3) + 1) as u16;
        let len = if place % 29 == 0 {
            5
        } else {
            60 + place as usize % 150
        };
        let bytes = bytes_of(alloc, 3, link, len, (place / 64 % 256) as u8)?;
        let network = if place % 3 == 0 {
            Network::A
        } else {
            Network::B
        };
        let stamp = place % (1 << 40) * 1000;
        frames.push(frame_at(network, place, stamp, len as u32, bytes)?)?;
    }
    Ok(Round::from_frames(alloc, frames)?)
}

/// Judges rounds by one call, and by one for each frame: both say the same.
fn agree(rt: &(impl Abort + AllocGlobal), links: u32) -> Result<(), Fail> {
    let text = table_of(rt.alloc(), links)?;
    let config = Config::read(rt.alloc(), text.as_str())?;
    let mut one_by_one = Lanes::new(rt.alloc(), &config)?;
    let mut lanes = Lanes::new(rt.alloc(), &config)?;
    for (from, count) in [(0, 256), (256, 256), (512, 1), (513, 2), (515, 4096)] {
        let round = mixed(rt.alloc(), from, count, links as u64)?;
        let said = judged(rt, &mut lanes, &round)?;
        assert!(rt; said.len() == round.len());
        let frames = round.to_frames(rt.alloc())?;
        for (frame, verdict) in frames.iter().zip(&said) {
            let expected = judge_next(rt, &mut one_by_one, frame);
            assert!(rt; *verdict == expected, "{links} links, frame {}", frame.number());
        }
        assert!(rt; lanes.last() == one_by_one.last());
    }
    Ok(())
}

#[test]
fn rounds_over_links(rt: HostRuntime) -> Result<(), Fail> {
    for links in [0, 1, 2, 3, 7, 8, 9, 64, 1000] {
        agree(&rt, links)?;
    }
    Ok(())
}

/// A table of 4096 links, the identifiers falling.
fn large_table(alloc: Global) -> Result<String, Fail> {
    let mut text = format!(in alloc; "constant = 50331648\n")?;
    for index in 0..4096u32 {
        let id = 4096 - index;
        text.push_str(format!(in alloc;
            "[[link]]\nid = {id}\nname = \"link-{id}\"\nbag_ms = 1\njitter_us = 0\nsmax = 200\n\
             integrity = true\nredundancy = true\nskew_us = 1000\n"
        )?
        .as_str())?;
    }
    Ok(text)
}

#[test]
fn a_million_frames_of_4096_links(rt: HostRuntime) -> Result<(), Fail> {
    let text = large_table(rt.alloc())?;
    let config = Config::read(rt.alloc(), text.as_str())?;
    assert!(rt; config.links().len() == 4096);
    for pair in config.links().windows(2) {
        if let [lower, higher] = pair {
            assert!(rt; lower.id < higher.id);
        }
    }
    let mut lanes = Lanes::new(rt.alloc(), &config)?;
    for place in 0..1_000_000u64 {
        let round = place / 4096;
        let number = if round == 0 {
            0
        } else {
            ((round - 1) % 255 + 1) as u8
        };
        let bytes = bytes_of(rt.alloc(), 3, (place % 4096) as u16 + 1, 60, number)?;
        let frame = frame_at(Network::A, place, place * 1000, 60, bytes)?;
        let verdict = judge_next(&rt, &mut lanes, &frame);
        let integrity = if round == 0 {
            Integrity::First
        } else {
            Integrity::Next
        };
        assert!(rt; verdict.integrity == Some(integrity), "frame {place}");
        assert!(rt;
            verdict.redundancy == Some(Redundancy::Deliver),
            "frame {place}"
        );
    }
    Ok(())
}
