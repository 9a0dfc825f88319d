//! A text at the limit, and a sink that fails after each byte.

use crate::capture::asm::{FILE, PRINTED, SOURCE, ran};
use crate::ending::ends;
use crate::support::{SOUND, WIDE};
use pcap_io::Script;
use std::test::Fail;

/// The most bytes of a text.
const LIMIT: usize = 16_777_216;

#[test]
fn a_text_at_the_limit(rt: HostRuntime) -> Result<(), Fail> {
    let alloc = rt.alloc();
    for (len, line) in [(LIMIT, "afdxmon: asm 2 Empty"), (LIMIT + 1, FILE)] {
        let text = vec![in alloc; b' '; len]?;
        ends(&rt, &ran(alloc, &text, (SOUND, WIDE))?, line, b"");
    }
    Ok(())
}

#[test]
fn a_sink_that_fails_after_each_byte(rt: HostRuntime) -> Result<(), Fail> {
    for most in 0..PRINTED.len() {
        let ran = ran(rt.alloc(), SOURCE, (SOUND, Script { most, ..SOUND }))?;
        ends(&rt, &ran, FILE, &PRINTED[..most]);
    }
    Ok(())
}
