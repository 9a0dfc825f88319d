//! A source that fails in mid-recording: the outputs have what belongs to all frames that are safe without
//! those that it didn't give, to the last one, and nothing else.

use crate::support::{EVERY, HEADER, SOUND, TABLE};
use crate::watch::{Given, Ran, Scripts, Way, run};
use crate::watch::comparing::roomy;
use afdx_frame::Network;
use pcap_io::Script;
use run_fault::WatchFault;
use std::alloc::{AllocError, Global};
use std::fmt::Write;
use std::process::Abort;
use std::sync::Wait;
use std::test::Fail;
use std::thread::Threads;

/// Room for each output.
pub const ROOM: usize = 1 << 20;

/// The bytes of a packet.
pub const PACKET: usize = 76;

/// A recording of so many frames of link 5, one for each millisecond. With a window of a millisecond each
/// two of them stand in turned order.
#[derive(Clone, Copy)]
pub struct Steady {
    pub late: bool,
    pub count: u32,
}

impl Steady {
    /// The millisecond of the frame at a place, and the place of the frame of a millisecond.
    fn turned(self, place: u32) -> u32 {
        if self.late { place ^ 1 } else { place }
    }

    /// Whether there is a frame of this millisecond.
    fn has(self, time: u32) -> bool {
        self.turned(time) < self.count
    }

    /// The millisecond of its latest frame.
    fn high(self) -> Option<u32> {
        (0..self.count).map(|place| self.turned(place)).max()
    }

    /// The bytes of the recording.
    pub fn bytes(self, alloc: Global) -> Result<Vec<u8>, AllocError> {
        let mut bytes = Vec::from_slice(alloc, &HEADER)?;
        for place in 0..self.count {
            push_frame(&mut bytes, self.turned(place))?;
        }
        Ok(bytes)
    }
}

/// The sequence number of the frame of a millisecond: 1 to 255 over and over.
fn number_of(time: u32) -> u8 {
    (time % 255 + 1).min(255) as u8
}

/// Appends the packet of the frame of a millisecond.
fn push_frame(bytes: &mut Vec<u8>, time: u32) -> Result<(), AllocError> {
    let mut packet = [0; PACKET];
    packet[..4].copy_from_slice(&(time / 1000).to_le_bytes());
    packet[4..8].copy_from_slice(&((time % 1000).min(999) * 1_000_000).to_le_bytes());
    [packet[8], packet[12]] = [60; 2];
    [packet[16], packet[21], packet[75]] = [3, 5, number_of(time)];
    bytes.extend_from_slice(&packet)
}

/// No frame that may still come of the network that has failed, whose latest frame is so high, belongs before
/// one of that network. The other recording is read on as far as it has to be.
fn is_safe(failing: Network, high: Option<u32>, network: Network, moment: u32) -> bool {
    high.is_some_and(|high| match (failing, network) {
        // A frame of A belongs before that of B with its stamp.
        (Network::A, Network::B) => moment < high,
        _ => moment <= high,
    })
}

/// The recordings of both networks, of which that of one is given so far.
#[derive(Clone, Copy)]
pub struct Pair {
    pub failing: Network,
    pub given: Steady,
    pub other: Steady,
}

/// What a capture and a ledger have of some frames.
#[derive(Drop)]
pub struct Written {
    pub capture: Vec<u8>,
    pub ledger: String,
}

impl Pair {
    /// The recordings of A and of B.
    fn taps(self) -> [(Network, Steady); 2] {
        match self.failing {
            Network::A => [(Network::A, self.given), (Network::B, self.other)],
            Network::B => [(Network::A, self.other), (Network::B, self.given)],
        }
    }

    /// What belongs to the safe frames.
    pub fn safe(self, alloc: Global) -> Result<Written, Fail> {
        let mut capture = Vec::from_slice(alloc, &HEADER)?;
        let mut ledger = String::from_str(alloc, "afdx-ledger 2\n")?;
        let high = self.given.high();
        let [(_, a), _] = self.taps();
        for time in 0..=high.unwrap_or(0) {
            let moment = time.saturating_add(u32::from(self.given.late));
            for (network, steady) in self.taps() {
                if !steady.has(time) || !is_safe(self.failing, high, network, moment) {
                    continue;
                }
                push_frame(&mut capture, time)?;
                let name = if network == Network::A { 'A' } else { 'B' };
                let place = steady.turned(time);
                let way = if time == 0 { "first" } else { "next" };
                let copy = network == Network::B && a.has(time);
                let fate = if copy { "copy" } else { "deliver" };
                writeln!(
                    ledger,
                    "{} {name} {place} 5 {} regular within {way} {fate} 60 01",
                    u64::from(time) * 1_000_000,
                    number_of(time)
                )?;
            }
        }
        Ok(Written { capture, ledger })
    }
}

/// The table, with a window of a millisecond or none.
pub fn table_of(alloc: Global, late: bool) -> Result<String, AllocError> {
    let window = if late { "late_us = 1000\n" } else { "" };
    let mut table = String::from_str(alloc, window)?;
    table.push_str(TABLE)?;
    Ok(table)
}

/// The devices where one network's source fails, and how often each has failed then.
fn scripts_of(failing: Network, fails: Script) -> (Scripts, [u64; 4]) {
    let sound = roomy(ROOM);
    match failing {
        Network::A => (Scripts { a: fails, ..sound }, [1, 0, 0, 0]),
        Network::B => (Scripts { b: fails, ..sound }, [0, 1, 0, 0]),
    }
}

/// The source of one network fails after the frames that it gives.
fn leaves_safe<R: Threads + Wait + Sync + Abort + AllocGlobal>(
    rt: &R,
    pair: Pair,
    workers: u32,
) -> Result<(), Fail> {
    let alloc = rt.alloc();
    let Pair {
        failing,
        given,
        other,
    } = pair;
    let next = Steady {
        count: given.count.saturating_add(1),
        ..given
    };
    let (failed, whole) = (next.bytes(alloc)?, other.bytes(alloc)?);
    // With a window the packet after the last frame is cut.
    let most = failed
        .len()
        .saturating_sub(if given.late { 40 } else { PACKET });
    let (scripts, failures) = scripts_of(failing, Script { most, ..SOUND });
    let (a, b) = match failing {
        Network::A => (&failed, &whole),
        Network::B => (&whole, &failed),
    };
    let table = table_of(alloc, given.late)?;
    let run_of = Given {
        table: &table,
        filters: &[EVERY],
        a,
        b,
    };
    let ran = run(rt, Way::Workers(workers), run_of, scripts)?;
    let fault = WatchFault::Read { network: failing };
    assert!(rt; ran.outcome.err() == Some(fault), "{workers} workers");
    assert!(rt; ran.failures() == Some(failures), "{workers} workers");
    has_written(rt, &ran, &pair.safe(alloc)?, given.count, workers);
    Ok(())
}

/// The outputs are these.
fn has_written(rt: &impl Abort, ran: &Ran, expected: &Written, given: u32, workers: u32) {
    let (capture, ledger) = (ran.capture.taken(), ran.ledger.taken());
    assert!(rt;
        ledger == expected.ledger.as_bytes(),
        "another ledger, {} bytes: {given} frames by {workers} workers",
        ledger.len()
    );
    assert!(rt;
        capture == expected.capture.as_slice(),
        "another capture, {} bytes: {given} frames by {workers} workers",
        capture.len()
    );
}

/// The same on either network, beside a longer recording, one that is as long, and a shorter one.
fn leaves_safe_beside<R: Threads + Wait + Sync + Abort + AllocGlobal>(
    rt: &R,
    given: Steady,
    workers: u32,
) -> Result<(), Fail> {
    let count = given.count;
    for others in [count.saturating_add(1500), count, count / 2] {
        // None of its pairs is broken.
        let count = others.saturating_add(others % 2);
        let other = Steady { count, ..given };
        for failing in [Network::A, Network::B] {
            let pair = Pair {
                failing,
                given,
                other,
            };
            leaves_safe(rt, pair, workers)?;
        }
    }
    Ok(())
}

#[test]
fn what_a_failing_source_leaves(rt: HostRuntime) -> Result<(), Fail> {
    // around batches of 512 items and rounds of 1024
    for count in [0, 1, 511, 512, 513, 1024, 1025, 2000] {
        for (late, workers) in [(false, 1), (true, 2), (true, 3), (false, 8)] {
            leaves_safe_beside(&rt, Steady { late, count }, workers)?;
        }
    }
    Ok(())
}
