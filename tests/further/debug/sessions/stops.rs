//! A tap and a sink that fail after each byte, and commands at the limit.

use crate::debug::sessions::{Given, ONE_FRAME, PRINTED, ends_with, walk};
use crate::support::SOUND;
use pcap_io::Script;
use std::test::Fail;

/// The most bytes of the commands.
const LIMIT: usize = 16_777_216;

#[test]
fn a_tap_that_fails_after_each_byte(rt: HostRuntime) -> Result<(), Fail> {
    for most in 0..=ONE_FRAME {
        let given = Given {
            tap_script: Script { most, ..SOUND },
            ..walk()
        };
        ends_with(&rt, &given, "afdxmon: watch 3 Read A", b"")?;
    }
    Ok(())
}

#[test]
fn commands_at_the_limit(rt: HostRuntime) -> Result<(), Fail> {
    let alloc = rt.alloc();
    // What follows `quit` is read, and not answered.
    let mut commands = Vec::from_slice(alloc, b"quit\n")?;
    commands.resize(LIMIT, b' ')?;
    let given = Given {
        commands: &commands,
        ..walk()
    };
    ends_with(&rt, &given, "", b"frames 1\nbye\n")?;
    commands.push(b' ')?;
    let given = Given {
        commands: &commands,
        ..walk()
    };
    ends_with(&rt, &given, "afdxmon: file -", b"")?;
    Ok(())
}

#[test]
fn a_sink_that_fails_after_each_byte(rt: HostRuntime) -> Result<(), Fail> {
    let printed = PRINTED.as_bytes();
    for most in 0..printed.len() {
        let given = Given {
            sink_script: Script { most, ..SOUND },
            ..walk()
        };
        ends_with(&rt, &given, "afdxmon: file -", printed.get(..most).unwrap_or(b""))?;
    }
    Ok(())
}
