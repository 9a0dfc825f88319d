//! A whole analysis at real size: 4096 virtual links, 100 000 frames, and frames of the greatest
//! size.

use crate::support::{EVERY, HEADER};
use crate::watch::{Given, NO_FAILURE, Ran, Scripts, WIDE, Way, push_packet, run};
use crate::watch::comparing::{leaves_the_same, left_by_one, roomy};
use pcap_io::{Ending, Script};
use std::alloc::{AllocError, Global};
use std::fmt::Write;
use std::process::Abort;
use std::test::Fail;

/// The frames of a recording, and the links of the table.
const FRAMES: u32 = 50_000;

const LINKS: u32 = 4096;

/// A table of so many links, whose identifiers are 16 apart, for frames of up to `smax` bytes.
fn table_of(alloc: Global, links: u32, smax: u32) -> Result<String, Fail> {
    let mut table = String::new(alloc);
    table.push_str("constant = 50331648\n")?;
    for link in 0..links {
        let id = id_of(link);
        write!(
            table,
            "[[link]]\nid = {id}\nname = \"link-{id}\"\nbag_ms = 1\njitter_us = 0\nsmax = {smax}\n\
             integrity = true\nredundancy = true\nskew_us = 1\n"
        )?;
    }
    Ok(table)
}

fn id_of(place: u32) -> u16 {
    ((place % LINKS) * 16) as u16
}

/// The sequence number of the frame at an index: each link begins with 1.
fn number_of(place: u32) -> u8 {
    (place / LINKS + 1).min(255) as u8
}

/// A recording of frames of all links in turn, a microsecond apart, from this time on.
fn tap(alloc: Global, begin: u32) -> Result<Vec<u8>, AllocError> {
    let mut bytes = Vec::from_slice(alloc, &HEADER)?;
    for place in 0..FRAMES {
        push_packet(
            &mut bytes,
            begin.wrapping_add(place * 1000),
            id_of(place),
            60,
            number_of(place),
        )?;
    }
    Ok(bytes)
}

/// The capture of both recordings, of which that of B begins half a microsecond later.
fn capture_of(alloc: Global) -> Result<Vec<u8>, AllocError> {
    let mut bytes = Vec::from_slice(alloc, &HEADER)?;
    for place in 0..FRAMES {
        let (id, number) = (id_of(place), number_of(place));
        push_packet(&mut bytes, place * 1000, id, 60, number)?;
        push_packet(&mut bytes, place * 1000 + 500, id, 60, number)?;
    }
    Ok(bytes)
}

/// The ledger: each frame of B is the copy of one of A.
fn ledger_of(alloc: Global) -> Result<String, Fail> {
    let mut text = String::from_str(alloc, "afdx-ledger 2\n")?;
    for place in 0..FRAMES {
        let (id, number) = (id_of(place), number_of(place));
        let word = if place < LINKS { "first" } else { "next" };
        let (a, b) = (place * 1000, place * 1000 + 500);
        write!(
            text,
            "{a} A {place} {id} {number} regular within {word} deliver 60 01\n\
             {b} B {place} {id} {number} regular within {word} copy 60 01\n"
        )?;
    }
    for link in 0..LINKS {
        let id = id_of(link);
        // The first links have one frame more.
        let count = FRAMES / LINKS + u32::from(link < FRAMES % LINKS);
        let both = 2 * count;
        write!(
            text,
            "link {id} link-{id} frames {both} toolong 0 excess 0 out 0 copy {count} \
             delivered {count}\n"
        )?;
    }
    text.push_str(
        "filter 0 accepted 100000\ntap A clean 50000\ntap B clean 50000\n\
         total frames 100000 accepted 100000 cut 0 runt 0 oversize 0 foreign 0 unconfigured 0 \
         toolong 0 excess 0 out 0 copy 50000 delivered 50000\n",
    )?;
    Ok(text)
}

/// The run left this capture and this ledger, of frames that all have a copy.
fn has_left(rt: &impl Abort, ran: &Ran, capture: &[u8], ledger: &str) {
    match ran.outcome {
        Ok(counts) => {
            let all = Ending::Clean(u64::from(FRAMES));
            assert!(rt; (counts.a, counts.b) == (all, all));
            assert!(rt; counts.totals.copy == u64::from(FRAMES));
        }
        Err(_) => panic!(rt; "a fault"),
    }
    assert!(rt; ran.capture.taken() == capture, "another capture");
    assert!(rt; ran.ledger.taken() == ledger.as_bytes(), "another ledger");
}

#[test]
fn all_links_on_both_networks(rt: HostRuntime) -> Result<(), Fail> {
    let alloc = rt.alloc();
    let (capture, ledger) = (capture_of(alloc)?, ledger_of(alloc)?);
    let table = table_of(alloc, LINKS, 64)?;
    let (a, b) = (tap(alloc, 0)?, tap(alloc, 500)?);
    let given = Given {
        table: &table,
        filters: &[EVERY],
        a: &a,
        b: &b,
    };
    let scripts = Scripts {
        capture: Script {
            most: capture.len(),
            ..WIDE
        },
        ledger: Script {
            most: ledger.len(),
            ..WIDE
        },
        ..NO_FAILURE
    };
    for way in [Way::OneThread, Way::Workers(2)] {
        has_left(&rt, &run(&rt, way, given, scripts)?, &capture, &ledger);
    }
    Ok(())
}

/// The bytes of the largest frame, and of a packet of it.
const LARGE: usize = 1514;

const LARGE_PACKET: usize = LARGE + 16;

/// How many large frames a recording has, and of how many links.
const LARGE_FRAMES: u32 = 3000;

const FEW_LINKS: u32 = 64;

/// The packet of a large frame without its stamp, its link and its sequence number.
fn large_packet() -> [u8; LARGE_PACKET] {
    let mut packet = [0; LARGE_PACKET];
    let len = (LARGE as u32).to_le_bytes();
    packet[8..12].copy_from_slice(&len);
    packet[12..16].copy_from_slice(&len);
    packet[16] = 3;
    packet
}

/// A recording of large frames of 64 links in turn, 20 microseconds apart, from this time on.
fn large_tap(alloc: Global, begin: u32) -> Result<Vec<u8>, AllocError> {
    let mut packet = large_packet();
    let mut bytes = Vec::from_slice(alloc, &HEADER)?;
    for place in 0..LARGE_FRAMES {
        let stamp = begin.wrapping_add(place * 20_000);
        packet[4..8].copy_from_slice(&stamp.to_le_bytes());
        let id = ((place % FEW_LINKS) * 16) as u16;
        packet[20..22].copy_from_slice(&id.to_be_bytes());
        packet[LARGE_PACKET - 1] = (place / FEW_LINKS + 1).min(255) as u8;
        bytes.extend_from_slice(&packet)?;
    }
    Ok(bytes)
}

#[test]
fn large_frames_on_both_networks(rt: HostRuntime) -> Result<(), Fail> {
    let alloc = rt.alloc();
    let table = table_of(alloc, FEW_LINKS, 1518)?;
    let (a, b) = (large_tap(alloc, 0)?, large_tap(alloc, 500)?);
    let given = Given {
        table: &table,
        filters: &[EVERY, "1,6 0 0 64,"],
        a: &a,
        b: &b,
    };
    let room = a.len().saturating_add(b.len());
    let expected = left_by_one(&rt, given, room)?;
    let all = Ending::Clean(u64::from(LARGE_FRAMES));
    assert!(rt; (expected.counts.a, expected.counts.b) == (all, all));
    assert!(rt; expected.counts.totals.copy == u64::from(LARGE_FRAMES));
    let packets = LARGE_FRAMES as usize * LARGE_PACKET;
    assert!(rt; expected.capture.taken().len() == 24 + 2 * packets);
    let ran = run(&rt, Way::Workers(2), given, roomy(room))?;
    leaves_the_same(&rt, &ran, &expected);
    Ok(())
}
