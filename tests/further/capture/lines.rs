//! The command `capture` over devices: what it writes, its status and the line of its fault.

use crate::ending::ends;
use crate::support::{FIRST_RUN, HEADER, ONE_LINK, SOUND, WIDE};
use pcap_io::{Ending, MemSink, MemSource, Script};
use specified::{Ran, capture_over, run_capture};
use std::alloc::{AllocError, Global};
use std::test::Fail;

/// The command over these bytes.
fn ran(
    alloc: Global,
    code: &str,
    bytes: &[u8],
    script: Script,
) -> Result<Ran<MemSink>, AllocError> {
    let source = MemSource::new(Vec::from_slice(alloc, bytes)?, script);
    Ok(capture_over(alloc, code, source, MemSink::new(alloc, WIDE)?))
}

/// The filter as `tcpdump -ddd` prints it.
const ON_LINES: &str = "4\n40 0 0 4\n21 0 1 5\n6 0 0 4294967295\n6 0 0 0\n";

#[test]
fn the_first_run(rt: HostRuntime) -> Result<(), Fail> {
    for code in [ONE_LINK, ON_LINES] {
        let ran = ran(rt.alloc(), code, &FIRST_RUN, SOUND)?;
        ends(&rt, &ran, "", &FIRST_RUN[..100]);
    }
    Ok(())
}

#[test]
fn the_first_run_by_its_ending(rt: HostRuntime) -> Result<(), Fail> {
    let source = MemSource::new(Vec::from_slice(rt.alloc(), &FIRST_RUN)?, SOUND);
    let ran = run_capture(
        rt.alloc(),
        ONE_LINK,
        source,
        MemSink::new(rt.alloc(), WIDE)?,
    );
    assert!(rt; matches!(ran.outcome, Ok(Ending::Clean(2))));
    assert!(rt; ran.sink.taken() == &FIRST_RUN[..100]);
    Ok(())
}

/// Filters in the numeric form, and the line of the fault of each.
static FILTER_FAULTS: [(&str, &str); 15] = [
    ("1,x", "afdxmon: numeric 1 Character at 2"),
    ("1,6 0 256 0", "afdxmon: numeric 2 Number at 6"),
    ("1,6 0 0", "afdxmon: numeric 3 Form at 2"),
    ("", "afdxmon: numeric 3 Form at 0"),
    ("2,6 0 0 0,", "afdxmon: numeric 4 Count at 10"),
    ("4097,", "afdxmon: numeric 5 TooMany at 0"),
    ("0,", "afdxmon: load 1 Length"),
    ("2,23 0 0 0,6 0 0 0,", "afdxmon: load 2 UnknownCode at 0"),
    ("2,52 0 0 0,6 0 0 0,", "afdxmon: load 3 ZeroDivisor at 0"),
    ("2,100 0 0 32,6 0 0 0,", "afdxmon: load 4 Shift at 0"),
    ("2,2 0 0 16,6 0 0 0,", "afdxmon: load 5 Scratch at 0"),
    (
        "2,32 0 0 2147483648,6 0 0 0,",
        "afdxmon: load 6 Offset at 0",
    ),
    ("2,5 0 0 1,6 0 0 0,", "afdxmon: load 7 Jump at 0"),
    ("2,6 0 0 0,0 0 0 1,", "afdxmon: load 8 NoReturn"),
    (
        "4,21 0 1 0,2 0 0 0,96 0 0 0,22 0 0 0,",
        "afdxmon: load 9 Unstored at 2 word 0",
    ),
];

#[test]
fn faults_of_the_filter(rt: HostRuntime) -> Result<(), Fail> {
    // The filter's fault comes before any of the recording, and nothing is read or written.
    let broken = Script {
        miss: Some(0),
        ..SOUND
    };
    for (code, line) in &FILTER_FAULTS {
        for bytes in [[].as_slice(), HEADER.as_slice()] {
            for source in [SOUND, broken] {
                ends(&rt, &ran(rt.alloc(), code, bytes, source)?, line, &[]);
            }
        }
    }
    Ok(())
}
