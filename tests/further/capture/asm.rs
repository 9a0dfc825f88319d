//! The command `asm` over devices: what it prints, its status and the line of its fault.

use crate::ending::ends;
use crate::support::{SOUND, WIDE};
use pcap_io::{MemSink, MemSource, Script};
use specified::{Ran, asm_over};
use std::alloc::{AllocError, Global};
use std::test::Fail;

mod stops;

/// The ethertype filter's source, and its numeric form as it is printed.
pub(crate) const SOURCE: &[u8] = b"ldh [12]\njne #0x806, drop\nret #-1\ndrop: ret #0\n";

pub(crate) const PRINTED: &[u8] = b"4,40 0 0 12,21 0 1 2054,6 0 0 4294967295,6 0 0 0,\n";

/// The line of the fault of a device that fails, or of a text that is none.
pub(crate) const FILE: &str = "afdxmon: file -";

/// The command over these bytes.
pub(crate) fn ran(
    alloc: Global,
    source: &[u8],
    scripts: (Script, Script),
) -> Result<Ran<MemSink>, AllocError> {
    let source = MemSource::new(Vec::from_slice(alloc, source)?, scripts.0);
    Ok(asm_over(alloc, source, MemSink::new(alloc, scripts.1)?))
}

const TEN: Script = Script { most: 10, ..SOUND };

const BY_ONE: Script = Script { piece: 1, ..SOUND };

const WIDE_BY_ONE: Script = Script { piece: 1, ..WIDE };

/// The source, its device and the sink, the line and what is printed.
static ENDS: [(&[u8], (Script, Script), &str, &[u8]); 5] = [
    (SOURCE, (SOUND, WIDE), "", PRINTED),
    (SOURCE, (BY_ONE, WIDE_BY_ONE), "", PRINTED),
    (b"ld\xff", (SOUND, WIDE), FILE, b""),
    (SOURCE, (TEN, WIDE), FILE, b""),
    (SOURCE, (SOUND, TEN), FILE, b"4,40 0 0 1"),
];

#[test]
fn ends_of_the_command(rt: HostRuntime) -> Result<(), Fail> {
    for (source, scripts, line, printed) in &ENDS {
        ends(&rt, &ran(rt.alloc(), source, *scripts)?, line, printed);
    }
    Ok(())
}
