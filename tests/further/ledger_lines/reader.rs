//! Ledgers that a reader by the written rules has judged: the number of lines that are read, or that of the
//! first wrong line, and what is found there. `C` is the end of a complete ledger, `I` that of an incomplete
//! one and `P` that of one that ends within a line, `H` a wrong head, `O` a wrong order, `N` a missing
//! newline, `X` a line that is too long, `M` one line more than are read, and `a` to `m` a wrong field.
use crate::ledger_lines::frames::letter;
use crate::ledger_lines::pieces;
use ledger_text::{FoundLine, LedgerReader, LedgerStop, LineFault, ReadFault};
use pcap_io::{MemSource, Script};
use std::alloc::Global;
use std::process::Abort;
use std::test::Fail;

/// A small ledger, in parts.
const PARTS: [&[u8]; 10] = [
    b"afdx-ledger 2\n",
    b"1800000012119534506 A 960 301 163 regular excess - - 108 01\n",
    b"90 B 10 - - foreign - - - 6 80\n",
    b"link 301 engine_1 frames 1 toolong 0 excess 1 out 0 copy 0 delivered 0\n",
    b"link 302 brake frames 0 toolong 0 excess 0 out 0 copy 0 delivered 0\n",
    b"filter 0 accepted 2\n",
    b"tap A clean 961\n",
    b"tap B bad 11 stampback\n",
    b"total frames 2 accepted 2 cut 0 runt 0 oversize 0 foreign 1 unconfigured 0 toolong 0 excess 1",
    b" out 0 copy 0 delivered 0\n",
];

/// Whole ledgers, and what is found in them.
const LEDGERS: [(&[u8], u64, u8); 23] = [
    (b"", 0, b'I'),
    (b"\n", 1, b'H'),
    (b"afdx-ledger 2\n", 1, b'I'),
    (b"afdx-ledger 3\n", 1, b'I'),
    (b"afdx-ledger 1\n", 1, b'H'),
    (b"afdx-ledger 2\r\n", 1, b'H'),
    (b"afdx-ledger 2", 0, b'P'),
    (b"afdx-ledger 2\n7 A", 1, b'P'),
    (b"afdx-ledger 2\ntotal\n", 2, b'C'),
    (
        b"afdx-ledger 2\ntap A clean 0\nfilter 0 accepted 1\n",
        3,
        b'O',
    ),
    (
        b"afdx-ledger 2\nlink 1\n7 A 1 - - cut - - - - 00\n",
        3,
        b'O',
    ),
    (b"afdx-ledger 2\nfilter 0\nlink 1\n", 3, b'O'),
    (b"afdx-ledger 2\nafdx-ledger 2\n", 2, b'a'),
    (b"afdx-ledger 2\nlinks 1\n", 2, b'a'),
    (b"afdx-ledger 2\n\n", 2, b'a'),
    (
        b"afdx-ledger 2\n7 A 1 3 4 regular within next deliver - ff\n",
        2,
        b'k',
    ),
    (
        b"afdx-ledger 2\n7 A 1 3 4 regular within next copy 77 00\n",
        2,
        b'k',
    ),
    (
        b"afdx-ledger 3\n7 A 1 - - cut - - - - 00 64\ntotal\n",
        3,
        b'C',
    ),
    (
        b"afdx-ledger 3\n7 A 1 - - cut - - - - 00 64\n7 A 2 - - cut - - - - 00\n",
        3,
        b'm',
    ),
    (
        b"afdx-ledger 2\n7 A 1 - - cut - - - - 00\n7 A 2 - - cut - - - - 00 64\n",
        3,
        b'l',
    ),
    (b"afdx-ledger 2\nlink\n\n", 3, b'O'),
    (b"afdx-ledger 2\nlink\nfilter\ntap\ntap\ntotal\n", 6, b'C'),
    (b"afdx-ledger 2\ntap\ntotal 1\n ", 4, b'N'),
];

/// The letter of a fault in a line.
fn fault_letter(fault: LineFault) -> u8 {
    match fault {
        LineFault::Head => b'H',
        LineFault::Order => b'O',
        LineFault::Newline => b'N',
        LineFault::Long => b'X',
        LineFault::TooMany => b'M',
        LineFault::Frame(fault) => letter(&Err(fault)),
    }
}

/// The letter of an end, and what the next call finds: the same end, behind what stands of a line.
fn end_letter(end: FoundLine) -> (u8, FoundLine) {
    match end {
        FoundLine::Incomplete(
            LedgerStop {
                lines,
                within_line: true,
            },
        ) => {
            let within_line = false;
            (
                b'P',
                FoundLine::Incomplete(LedgerStop { lines, within_line }),
            )
        }
        FoundLine::Complete => (b'C', end),
        FoundLine::Line(_) | FoundLine::Incomplete(_) => (b'I', end),
    }
}

/// Reads the bytes to their end or their first fault, which are found again at the next call.
pub fn outcome(
    rt: &impl Abort,
    alloc: Global,
    bytes: &[u8],
    script: Script,
) -> Result<(u64, u8), Fail> {
    let source = MemSource::new(Vec::from_slice(alloc, bytes)?, script);
    let Ok(mut reader) = LedgerReader::new(alloc, source) else {
        panic!(rt; "no memory for a block")
    };
    for lines in 0..=bytes.len() {
        match reader.advance() {
            Ok(FoundLine::Line(_)) => assert!(rt;
                reader.number() == (lines as u64).saturating_add(1)
            ),
            Ok(end) => {
                let (letter, again) = end_letter(end);
                assert!(rt; reader.advance() == Ok(again));
                return Ok((reader.number(), letter));
            }
            Err(ReadFault::Line { number, fault }) => {
                assert!(rt; reader.advance() == Err(ReadFault::Failed));
                return Ok((number, fault_letter(fault)));
            }
            Err(fault) => {
                assert!(rt; fault == ReadFault::Device);
                assert!(rt; reader.advance() == Err(ReadFault::Failed));
                return Ok((reader.number(), b'D'));
            }
        }
    }
    panic!(rt; "no end")
}

/// All parts.
pub fn ledger(alloc: Global) -> Result<Vec<u8>, Fail> {
    let mut bytes = Vec::new(alloc);
    for part in &PARTS {
        bytes.extend_from_slice(part)?;
    }
    Ok(bytes)
}

#[test]
fn reads_whole_ledgers(rt: HostRuntime) -> Result<(), Fail> {
    for (bytes, number, letter) in &LEDGERS {
        let found = outcome(&rt, rt.alloc(), bytes, pieces(1000))?;
        assert!(rt; found.0 == *number && found.1 == *letter);
    }
    Ok(())
}

/// At each call the device fails once: the lines that came whole before it are read.
#[test]
fn reads_up_to_a_failure(rt: HostRuntime) -> Result<(), Fail> {
    let bytes = ledger(rt.alloc())?;
    let mut came = 0;
    for call in 0..20 {
        let script = Script {
            piece: 40,
            most: usize::MAX,
            miss: Some(call),
        };
        if came < bytes.len() {
            let lines = bytes[..came].iter().filter(|byte| **byte == b'\n').count();
            let found = outcome(&rt, rt.alloc(), &bytes, script)?;
            assert!(rt; found.0 == lines as u64 && found.1 == b'D', "at {call}");
        }
        came = came.saturating_add(40);
    }
    Ok(())
}

/// How many bytes a line after the head has, whether a newline, and what is found, at which line.
const LONG_LINES: [(usize, bool, u64, u8); 4] = [
    (65_535, true, 2, b'a'),
    (65_536, true, 2, b'X'),
    (65_535, false, 1, b'P'),
    (65_536, false, 2, b'X'),
];

#[test]
fn bounds_long_lines(rt: HostRuntime) -> Result<(), Fail> {
    for (len, newline, number, letter) in &LONG_LINES {
        let mut bytes = Vec::from_slice(rt.alloc(), b"afdx-ledger 2\n")?;
        bytes.resize(len.saturating_add(14), b'7')?;
        if *newline {
            bytes.push(b'\n')?;
        }
        let found = outcome(&rt, rt.alloc(), &bytes, pieces(1000))?;
        assert!(rt; found.0 == *number && found.1 == *letter, "{len} bytes");
    }
    Ok(())
}
