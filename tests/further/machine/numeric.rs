//! The numeric form by worked examples.

use crate::machine::loading::{Word, words_of};
use bpf_isa::{read_numeric, write_numeric};
use bpf_isa::NumericFault::{Character, Count, Form, Number, TooMany, self};
use std::test::Fail;

/// Accepts whole ARP frames, as bpf_asm writes it.
const ARP: &str = "4,40 0 0 12,21 0 1 2054,6 0 0 4294967295,6 0 0 0,";

/// A filter on the frame's type: `ldh [12]; jeq #kind, 0, 1; ret #kept; ret #0`. That on ARP, and that of
/// `tcpdump -ddd ip`.
const OF_ARP: [Word; 4] = [
    (40, 0, 0, 12),
    (21, 0, 1, 2054),
    (6, 0, 0, 4294967295),
    (6, 0, 0, 0),
];

const OF_IP: [Word; 4] = [
    (40, 0, 0, 12),
    (21, 0, 1, 2048),
    (6, 0, 0, 262144),
    (6, 0, 0, 0),
];

/// Texts that are read, each with its instructions: the filter on ARP in each form.
static READ: [(&str, &[Word]); 8] = [
    (ARP, &OF_ARP),
    // without the last comma
    ("4,40 0 0 12,21 0 1 2054,6 0 0 4294967295,6 0 0 0", &OF_ARP),
    (
        "4\n40 0 0 12\n21 0 1 2054\n6 0 0 4294967295\n6 0 0 0\n",
        &OF_ARP,
    ),
    (
        "4\r\n40 0 0 12\r\n21 0 1 2054\r\n6 0 0 4294967295\r\n6 0 0 0\r\n",
        &OF_ARP,
    ),
    (
        "\t4 ,, 40\t0 0 12 , \r\n21 0 1 2054,6 0 0 4294967295\n\n6 0 0 0",
        &OF_ARP,
    ),
    (
        "00000000000000004,40 00 000 0012,21 0 1 2054,6 0 0 00000000004294967295,6 0 0 0,",
        &OF_ARP,
    ),
    ("4\n40 0 0 12\n21 0 1 2048\n6 0 0 262144\n6 0 0 0\n", &OF_IP),
    ("0,", &[]),
];

#[test]
fn reads(rt: HostRuntime) -> Result<(), Fail> {
    for (text, words) in &READ {
        let read = read_numeric(rt.alloc(), text)?;
        assert!(rt;
            read.as_slice() == words_of(rt.alloc(), words)?.as_slice(),
            "in {text}"
        );
    }
    Ok(())
}

/// Texts that aren't read, each with its fault.
static REFUSED: [(&str, NumericFault); 15] = [
    ("2,6 0 0 0,", Count { at: 10 }),
    // a surplus instruction, and a fault in one
    ("1,6 0 0 0,6 0 0 0,", Count { at: 18 }),
    ("0,6 0 0 0,", Count { at: 10 }),
    ("1,6 0 0 0,6 0 0,", Form { at: 10 }),
    ("1,6 0 0", Form { at: 2 }),
    ("1,6 0 256 0", Number { at: 6 }),
    ("1,x", Character { at: 2 }),
    ("4097,", TooMany { at: 0 }),
    ("", Form { at: 0 }),
    // the filter on ARP, truncated
    ("4", Count { at: 1 }),
    ("4,", Count { at: 2 }),
    ("4,4", Form { at: 2 }),
    ("4,40 0 0 12,21 0 1 2054,6 0 0 4294967295", Count { at: 40 }),
    (
        "4,40 0 0 12,21 0 1 2054,6 0 0 4294967295,",
        Count { at: 41 },
    ),
    (
        "4,40 0 0 12,21 0 1 2054,6 0 0 4294967295,6 0 0 ",
        Form { at: 41 },
    ),
];

#[test]
fn refuses(rt: HostRuntime) {
    for (text, fault) in &REFUSED {
        assert!(rt;
            read_numeric(rt.alloc(), text).err() == Some(*fault),
            "in {text}"
        );
    }
}

#[test]
fn writes(rt: HostRuntime) -> Result<(), Fail> {
    let text = write_numeric(rt.alloc(), words_of(rt.alloc(), &OF_ARP)?.as_slice())?;
    assert!(rt; text.as_str() == ARP);
    Ok(())
}
