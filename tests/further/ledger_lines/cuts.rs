//! Ledgers with each cut and each changed byte, and lines across blocks.
//!
//! A reader by the written rules has judged the ledgers: the number of lines that are read, or that of the
//! first wrong line, and what is found there. `C` is the end of a complete ledger, `I` that of an incomplete
//! one and `P` that of one that ends within a line, `H` a wrong head, `O` a wrong order, `N` a missing
//! newline, `X` a line that is too long, `M` one line more than are read, and `a` to `l` a wrong field.
use crate::ledger_lines::pieces;
use crate::ledger_lines::reader::{ledger, outcome};
use ledger_text::{FoundLine, LedgerReader, LedgerStop};
use pcap_io::MemSource;
use std::alloc::Global;
use std::process::Abort;
use std::test::Fail;

/// What is found in its prefixes, from the empty one on: a hexadecimal digit and a letter for each.
const PREFIXES: [&[u8]; 10] = [
    b"0I0P0P0P0P0P0P0P0P0P0P0P0P0P1I1P1P1P1P1P1P1P1P1P1P1P1P1P1P1P1P1P1P1P1P1P1P1P1P1P1P1P1P1P1P",
    b"1P1P1P1P1P1P1P1P1P1P1P1P1P1P1P1P1P1P1P1P1P1P1P1P1P1P1P1P1P2I2P2P2P2P2P2P2P2P2P2P2P2P2P2P2P",
    b"2P2P2P2P2P2P2P2P2P2P2P2P2P2P2P3I3P3P3P3P3P3P3P3P3P3P3P3P3P3P3P3P3P3P3P3P3P3P3P3P3P3P3P3P3P",
    b"3P3P3P3P3P3P3P3P3P3P3P3P3P3P3P3P3P3P3P3P3P3P3P3P3P3P3P3P3P3P3P3P3P3P3P3P3P3P3P3P3P4I4P4P4P",
    b"4P4P4P4P4P4P4P4P4P4P4P4P4P4P4P4P4P4P4P4P4P4P4P4P4P4P4P4P4P4P4P4P4P4P4P4P4P4P4P4P4P4P4P4P4P",
    b"4P4P4P4P4P4P4P4P4P4P4P4P4P4P4P4P4P4P4P5I5P5P5P5P5P5P5P5P5P5P5P5P5P5P5P5P5P5P5P6I6P6P6P6P6P",
    b"6P6P6P6P6P6P6P6P6P6P7I7P7P7P7P7P7P7P7P7P7P7P7P7P7P7P7P7P7P7P7P7P7P8I8P8P8P8P8P8P8P8P8P8P8P",
    b"8P8P8P8P8P8P8P8P8P8P8P8P8P8P8P8P8P8P8P8P8P8P8P8P8P8P8P8P8P8P8P8P8P8P8P8P8P8P8P8P8P8P8P8P8P",
    b"8P8P8P8P8P8P8P8P8P8P8P8P8P8P8P8P8P8P8P8P8P8P8P8P8P8P8P8P8P8P8P8P8P8P8P8P8P8P8P8P8P8P8P8P8P",
    b"8P8P8P8P8P8P8P8P8P8P8P8P8P8P8P8P8P9C",
];

/// Bytes that stand in the place of others.
const OTHERS: [u8; 4] = *b"\n 0l";

/// What is found where a byte is changed to each of the others, from the first byte on.
const CHANGES: [&[u8]; 38] = [
    b"1H1H1H1H1H1H1H1H1H1H1H1H1H1H1H1H1H1H1H1H1H1H1H9C1H1H1H1H1H1H1H1H1H1H1H1H1H1H1H1H1H1H1H1H1H",
    b"9C1H1H1H1H1H1H9C1H1H1H2a2a2a2a2b2b9C2a2b2b9C2a2b2b9C2a2b2b9C2a2b2b9C2a2b2b9C2a2b2b9C2a2b2b",
    b"9C2a2b2b9C2a2b2b9C2a2b2b9C2a2b2b9C2a2b2b9C2a2b2b9C2a2b2b9C2a2b2b9C2a2b2b9C2a2b2b9C2a2b9C2a",
    b"2a2b2b2b2b2c9C2b2b2c2c2c2c2d2e9C2c2d2d9C2c2d9C2e2c2d2d2d2d2e2f9C2d2e2e9C2d2e9C2d2d2e2e2e2e",
    b"2f2f9C2e2f2f9C2e2f9C2e2e2f2f2f2f2f2f2f2f2f2f2f2f2f2f2f2f2f2f2f9C2f2f2f2f2f2f2f2f2g9C2f2f2g",
    b"2g2g2g2g2g2g2g2g2g2g2g2g2g2g2g2g2g2g2g2g2g2g2g2h9C2g2g2h2h2h2h2i9C2h2h2i2i2i2i2j9C2i2i2j2j",
    b"2j2j2k2k9C2j2k2k9C2j2k9C2k2j2k2k9C2k2k2k2k2k9C2l2k2k3a3a3a3a3b3b9C3a3b9C3a3a3b3b3b3b3c9C3b",
    b"3b3c3c3c3c3d3d9C3c3d9C3c3c3d3d3e3d3e9C3d3d3e3e3e3e3f9C3e3e3f3f3f3f3f3f3f3f3f3f3f3f3f3f3f3f",
    b"3f3f3f3f3f3f3f3f3f3f3f3f3g9C3f3f3g3g3g3g3h9C3g3g3h3h3h3h3i9C3h3h3i3i3i3i3j9C3i3i3j3j9C3j3k",
    b"9C3k3j3k3k3k3k3k3k9C3k9C3l3k3k4a4a4a9C4a4a4a4a4a4a4a4a4a4a4a4a5O9C4a4a5O9C9C9C5O9C9C9C5O9C",
    b"9C9C5O9C9C9C5O9C9C9C5O9C9C9C5O9C9C9C5O9C9C9C5O9C9C9C5O9C9C9C5O9C9C9C5O9C9C9C5O9C9C9C5O9C9C",
    b"9C5O9C9C9C5O9C9C9C5O9C9C9C5O9C9C9C5O9C9C9C5O9C9C9C5O9C9C9C5O9C9C9C5O9C9C9C5O9C9C9C5O9C9C9C",
    b"5O9C9C9C5O9C9C9C5O9C9C9C5O9C9C9C5O9C9C9C5O9C9C9C5O9C9C9C5O9C9C9C5O9C9C9C5O9C9C9C5O9C9C9C5O",
    b"9C9C9C5O9C9C9C5O9C9C9C5O9C9C9C5O9C9C9C5O9C9C9C5O9C9C9C5O9C9C9C5O9C9C9C5O9C9C9C5O9C9C9C5O9C",
    b"9C9C5O9C9C9C5O9C9C9C5O9C9C9C5O9C9C9C5O9C9C9C5O9C9C9C5O9C9C9C5O9C9C9C5O9C9C9C5O9C9C9C5O9C9C",
    b"9C5O9C9C9C5O9C9C9C5O9C9C9C5O9C9C9C5O9C9C9C5O9C9C9C9C8C8C8C5O5O5O9C5O5O5O5O5O5O5O5O5O5O5O5O",
    b"6O9C5O5O6O9C9C9C6O9C9C9C6O9C9C9C6O9C9C9C6O9C9C9C6O9C9C9C6O9C9C9C6O9C9C9C6O9C9C9C6O9C9C9C6O",
    b"9C9C9C6O9C9C9C6O9C9C9C6O9C9C9C6O9C9C9C6O9C9C9C6O9C9C9C6O9C9C9C6O9C9C9C6O9C9C9C6O9C9C9C6O9C",
    b"9C9C6O9C9C9C6O9C9C9C6O9C9C9C6O9C9C9C6O9C9C9C6O9C9C9C6O9C9C9C6O9C9C9C6O9C9C9C6O9C9C9C6O9C9C",
    b"9C6O9C9C9C6O9C9C9C6O9C9C9C6O9C9C9C6O9C9C9C6O9C9C9C6O9C9C9C6O9C9C9C6O9C9C9C6O9C9C9C6O9C9C9C",
    b"6O9C9C9C6O9C9C9C6O9C9C9C6O9C9C9C6O9C9C9C6O9C9C9C6O9C9C9C6O9C9C9C6O9C9C9C6O9C9C9C6O9C9C9C6O",
    b"9C9C9C6O9C9C9C6O9C9C9C6O9C9C9C6O9C9C9C6O9C9C9C6O9C9C9C9C8C8C8C6O6O6O6O6O6O6O6O6O6O6O9C6O6O",
    b"6O6O6O6O6O6O6O6O6O6O7O9C6O6O7O9C9C9C7O9C9C9C7O9C9C9C7O9C9C9C7O9C9C9C7O9C9C9C7O9C9C9C7O9C9C",
    b"9C7O9C9C9C7O9C9C9C7O9C9C9C7O9C9C9C9C8C8C8C7O7O7O7O7O7O7O7O7O7O7O7O8O9C7O7O8O9C9C9C8O9C9C9C",
    b"8O9C9C9C8O9C9C9C8O9C9C9C8O9C9C9C8O9C9C9C8O9C9C9C8O9C9C9C8O9C9C9C8O9C9C9C9C8C8C8C8O8O8O8O8O",
    b"8O8O8O8O8O8O8O9O9C8O8O9O9C9C9C9O9C9C9C9O9C9C9C9O9C9C9C9O9C9C9C9O9C9C9C9O9C9C9C9O9C9C9C9O9C",
    b"9C9C9O9C9C9C9O9C9C9C9O9C9C9C9O9C9C9C9O9C9C9C9O9C9C9C9O9C9C9C9O9C9C9C9O9C9C9C9C8I8I8I9O9O9O",
    b"9O9O9O9O9O9O9O9O9O9O9O9O9O9O9O9O9CaO9C9O9OaO9C9C9CaO9C9C9CaO9C9C9CaO9C9C9CaO9C9C9CaO9C9C9C",
    b"aO9C9C9CaO9C9C9CaO9C9C9CaO9C9C9CaO9C9C9CaO9C9C9CaO9C9C9CaO9C9C9CaO9C9C9CaO9C9C9CaO9C9C9CaO",
    b"9C9C9CaO9C9C9CaO9C9C9CaO9C9C9CaO9C9C9CaO9C9C9CaO9C9C9CaO9C9C9CaO9C9C9CaO9C9C9CaO9C9C9CaO9C",
    b"9C9CaO9C9C9CaO9C9C9CaO9C9C9CaO9C9C9CaO9C9C9CaO9C9C9CaO9C9C9CaO9C9C9CaO9C9C9CaO9C9C9CaO9C9C",
    b"9CaO9C9C9CaO9C9C9CaO9C9C9CaO9C9C9CaO9C9C9CaO9C9C9CaO9C9C9CaO9C9C9CaO9C9C9CaO9C9C9CaO9C9C9C",
    b"aO9C9C9CaO9C9C9CaO9C9C9CaO9C9C9CaO9C9C9CaO9C9C9CaO9C9C9CaO9C9C9CaO9C9C9CaO9C9C9CaO9C9C9CaO",
    b"9C9C9CaO9C9C9CaO9C9C9CaO9C9C9CaO9C9C9CaO9C9C9CaO9C9C9CaO9C9C9CaO9C9C9CaO9C9C9CaO9C9C9CaO9C",
    b"9C9CaO9C9C9CaO9C9C9CaO9C9C9CaO9C9C9CaO9C9C9CaO9C9C9CaO9C9C9CaO9C9C9CaO9C9C9CaO9C9C9CaO9C9C",
    b"9CaO9C9C9CaO9C9C9CaO9C9C9CaO9C9C9CaO9C9C9CaO9C9C9CaO9C9C9CaO9C9C9CaO9C9C9CaO9C9C9CaO9C9C9C",
    b"aO9C9C9CaO9C9C9CaO9C9C9CaO9C9C9CaO9C9C9CaO9C9C9CaO9C9C9CaO9C9C9CaO9C9C9CaO9C9C9CaO9C9C9CaO",
    b"9C9C9CaO9C9C9CaO9C9C9CaO9C9C9CaO9C9C9C9C8P8P8P",
];

/// The rows of wanted texts, one after another.
fn joined(alloc: Global, rows: &[&[u8]]) -> Result<Vec<u8>, Fail> {
    let mut bytes = Vec::new(alloc);
    for row in rows {
        bytes.extend_from_slice(row)?;
    }
    Ok(bytes)
}

/// What a digit and a letter say.
fn wanted(pair: &[u8]) -> (u64, u8) {
    match pair {
        [digit, letter] => (
            u64::from((*digit as char).to_digit(16).unwrap_or(0)),
            *letter,
        ),
        _ => (0, b'?'),
    }
}

#[test]
fn reads_prefixes_of_a_ledger(rt: HostRuntime) -> Result<(), Fail> {
    let bytes = ledger(rt.alloc())?;
    let all = joined(rt.alloc(), &PREFIXES)?;
    assert!(rt; all.len() / 2 == bytes.len().saturating_add(1));
    for (len, pair) in all.chunks(2).enumerate() {
        if len <= bytes.len() {
            for piece in [1, 7, 1000] {
                let found = outcome(&rt, rt.alloc(), &bytes[..len], pieces(piece))?;
                assert!(rt; found == wanted(pair), "at {len}");
            }
        }
    }
    Ok(())
}

#[test]
fn reads_changed_ledgers(rt: HostRuntime) -> Result<(), Fail> {
    let bytes = ledger(rt.alloc())?;
    let all = joined(rt.alloc(), &CHANGES)?;
    assert!(rt; all.len() / 2 / OTHERS.len() == bytes.len());
    for (at, pairs) in all.chunks(2 * OTHERS.len()).enumerate() {
        for (other, pair) in OTHERS.iter().zip(pairs.chunks(2)) {
            let mut changed = Vec::from_slice(rt.alloc(), &bytes)?;
            if at < changed.len() {
                changed[at] = *other;
            }
            let found = outcome(&rt, rt.alloc(), &changed, pieces(1000))?;
            assert!(rt; found == wanted(pair), "at {at}");
        }
    }
    Ok(())
}

/// Lines that straddle blocks are lent whole.
#[test]
fn lends_lines_across_blocks(rt: HostRuntime) -> Result<(), Fail> {
    let line = b"1800000025007789442 A 1981 210 0 regular within reset deliver 60 02\n".as_slice();
    let mut bytes = Vec::from_slice(rt.alloc(), b"afdx-ledger 2\n")?;
    for _ in 0..3000 {
        bytes.extend_from_slice(line)?;
    }
    for piece in [1000, 65_535, 65_536, 1_000_000] {
        let source = MemSource::new(Vec::from_slice(rt.alloc(), &bytes)?, pieces(piece));
        let Ok(mut reader) = LedgerReader::new(rt.alloc(), source) else {
            panic!(&rt; "no memory for a block")
        };
        assert!(rt; matches!(reader.advance(), Ok(FoundLine::Line(_))));
        for _ in 0..3000 {
            assert!(rt; matches!(reader.advance(), Ok(FoundLine::Line(_))));
            assert!(rt; reader.line() == &line[..67]);
        }
        let stop = LedgerStop {
            lines: 3001,
            within_line: false,
        };
        assert!(rt; reader.advance() == Ok(FoundLine::Incomplete(stop)));
        assert!(rt; reader.number() == 3001);
    }
    Ok(())
}
