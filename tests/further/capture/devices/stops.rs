//! Devices that fail once, or stop, at every place.

use crate::capture::devices::{READ, WRITE, tried};
use crate::support::{ROOM, SOUND, WIDE};
use pcap_io::Script;
use std::test::Fail;

/// The bytes of the first run's recording, and of its capture.
const LEN: usize = 176;

/// How many bytes a capture of every frame has, once the source gave so many: its file header, and the
/// packets that lie whole in them.
fn complete_prefix(given: usize) -> usize {
    match given {
        0..24 => 0,
        24..100 => 24,
        100..LEN => 100,
        _ => LEN,
    }
}

#[test]
fn a_source_that_stops(rt: HostRuntime) -> Result<(), Fail> {
    for piece in [1, 7, usize::MAX] {
        for most in 0..=LEN + 2 {
            let source = Script {
                piece,
                most,
                miss: None,
            };
            let (failed, written) = tried(&rt, (source, WIDE), READ)?;
            // The read after the last byte, which finds the end, fails too.
            assert!(rt; failed == (most <= LEN), "after {most} bytes");
            assert!(rt; written == complete_prefix(most), "after {most} bytes");
        }
    }
    Ok(())
}

#[test]
fn a_source_that_misses(rt: HostRuntime) -> Result<(), Fail> {
    for call in 0..180 {
        for piece in [1, 7, usize::MAX] {
            let source = Script {
                piece,
                most: usize::MAX,
                miss: Some(call),
            };
            let (failed, written) = tried(&rt, (source, WIDE), READ)?;
            if piece == 1 {
                assert!(rt; failed == (call <= 176), "call {call}");
                assert!(rt; written == complete_prefix(call as usize), "call {call}");
            }
            assert!(rt; written == complete_prefix(written), "call {call}");
            assert!(rt; failed || call > 0);
            assert!(rt; !failed || call <= 176);
        }
    }
    Ok(())
}

#[test]
fn a_sink_that_stops(rt: HostRuntime) -> Result<(), Fail> {
    for piece in [1, 7, usize::MAX] {
        for most in 0..=LEN + 2 {
            let sink = Script {
                piece,
                most,
                miss: None,
            };
            let found = tried(&rt, (SOUND, sink), WRITE)?;
            assert!(rt; found == (most < LEN, most.min(LEN)), "after {most} bytes");
        }
    }
    Ok(())
}

#[test]
fn a_sink_that_misses(rt: HostRuntime) -> Result<(), Fail> {
    for call in 0..180 {
        for piece in [1, 7, usize::MAX] {
            let sink = Script {
                piece,
                most: ROOM,
                miss: Some(call),
            };
            let (failed, written) = tried(&rt, (SOUND, sink), WRITE)?;
            if piece == 1 {
                assert!(rt; failed == (call < 176), "call {call}");
                assert!(rt; written as u64 == call.min(176), "call {call}");
            }
            assert!(rt; failed || call > 0);
            assert!(rt; !failed || call < 176);
        }
    }
    Ok(())
}
