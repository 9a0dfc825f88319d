//! Sinks that fail: the ledger has a prefix of its text, and every later call writes nothing.

use crate::ledger::{By, Round, TWO, WAYS, add, round_of};
use crate::support::{SOUND, TABLE, TWO_TAPS};
use pcap_io::{Ending, MemSink, Script};
use std::process::Abort;
use std::test::Fail;
use verdict_ledger::{Ledger, LedgerFault, LedgerVersion};
use vl_config::Config;

/// Adds the lines. Where that fails each later call fails too, counts nothing and writes nothing. Returns the
/// fault of the next call, if it fails.
fn adds(
    rt: &(impl Abort + AllocGlobal),
    ledger: &mut Ledger<MemSink>,
    round: &Round,
    by: By,
) -> LedgerFault {
    let Err(fault) = add(rt, ledger, round, by) else {
        assert!(rt; ledger.totals().frames == 3);
        return LedgerFault::Device;
    };
    assert!(rt; fault == LedgerFault::Device);
    let frames = ledger.totals().frames;
    assert!(rt; frames == 0 || matches!(by, By::Lines));
    for later in &WAYS {
        assert!(rt; add(rt, ledger, round, *later) == Err(LedgerFault::Failed));
        assert!(rt; ledger.totals().frames == frames);
    }
    LedgerFault::Failed
}

/// Writes the ledger of two taps to a sink of this script, and gives what it took.
fn written(
    rt: &(impl Abort + AllocGlobal),
    config: &Config,
    round: &Round,
    by: By,
    script: Script,
) -> Result<MemSink, Fail> {
    let sink = MemSink::new(rt.alloc(), script)?;
    let mut ledger = match Ledger::begin(rt.alloc(), config, 1, LedgerVersion::Two, sink) {
        Ok(ledger) => ledger,
        Err(refused) => {
            assert!(rt; refused.fault == LedgerFault::Device);
            return Ok(refused.sink);
        }
    };
    let next = adds(rt, &mut ledger, round, by);
    match ledger.finish(Ending::Clean(2), Ending::Clean(1)) {
        Ok((sink, _)) => {
            assert!(rt; next == LedgerFault::Device);
            Ok(sink)
        }
        Err(refused) => {
            assert!(rt; refused.fault == next);
            Ok(refused.sink)
        }
    }
}

/// Each way to write the ledger leaves the first so many bytes of it.
fn leaves(
    rt: &(impl Abort + AllocGlobal),
    config: &Config,
    script: Script,
    most: usize,
) -> Result<(), Fail> {
    let round = round_of(rt, config, &TWO).ok_or("no round")?;
    for by in &WAYS {
        let sink = written(rt, config, &round, *by, script)?;
        assert!(rt; TWO_TAPS.as_bytes().starts_with(sink.taken()));
        assert!(rt; sink.taken().len() == most);
    }
    Ok(())
}

#[test]
fn a_sink_that_fails_after_each_byte(rt: HostRuntime) -> Result<(), Fail> {
    let config = Config::read(rt.alloc(), TABLE)?;
    for most in 0..=TWO_TAPS.len() {
        for piece in [1, 10, usize::MAX] {
            let script = Script {
                piece,
                most,
                ..SOUND
            };
            leaves(&rt, &config, script, most)?;
        }
    }
    Ok(())
}

/// A sink that takes a byte at a call and fails at one call alone: what was written before stays.
#[test]
fn a_sink_of_single_bytes_that_fails_at_each_call(rt: HostRuntime) -> Result<(), Fail> {
    let config = Config::read(rt.alloc(), TABLE)?;
    for call in 0..TWO_TAPS.len() {
        let script = Script {
            piece: 1,
            most: 4096,
            miss: Some(call as u64),
        };
        leaves(&rt, &config, script, call)?;
    }
    Ok(())
}

/// A ledger that stopped after the first line of a frame.
const ONE_LINE: &str = "afdx-ledger 2\n0 A 0 5 1 regular within first deliver - 00\n";

/// The third call alone fails: the first line is one, and that of the first frame is another.
#[test]
fn a_line_that_fails(rt: HostRuntime) -> Result<(), Fail> {
    let config = Config::read(rt.alloc(), TABLE)?;
    let round = round_of(&rt, &config, &TWO).ok_or("no round")?;
    let script = Script {
        most: 4096,
        miss: Some(2),
        ..SOUND
    };
    let sink = written(&rt, &config, &round, By::Lines, script)?;
    assert!(rt; sink.taken() == ONE_LINE.as_bytes());
    Ok(())
}
