//! Texts that are source, and their statements.

use bpf_text::{Mnemonic, Operand, Source, Statement, statements};
use std::test::Fail;

/// The filter of the worked example: the frames that aren't ARP.
pub(crate) const ETHERTYPE: &str = "ldh [12]\njne #0x806, drop\nret #-1\ndrop: ret #0";

/// The statements of the worked example.
const OF_ETHERTYPE: [Statement<'static>; 4] = [
    Statement {
        at: 0,
        label: None,
        mnemonic: Mnemonic::Ldh,
        operand: Operand::Absolute(12),
    },
    Statement {
        at: 9,
        label: None,
        mnemonic: Mnemonic::Jne,
        operand: Operand::Branch(Source::K(0x806), "drop", None),
    },
    Statement {
        at: 26,
        label: None,
        mnemonic: Mnemonic::Ret,
        operand: Operand::Immediate(u32::MAX),
    },
    Statement {
        at: 34,
        label: Some("drop"),
        mnemonic: Mnemonic::Ret,
        operand: Operand::Immediate(0),
    },
];

/// Two statements among blanks and comments, in either case.
const OF_BLANKS: [Statement<'static>; 2] = [
    Statement {
        at: 0,
        label: None,
        mnemonic: Mnemonic::Ldh,
        operand: Operand::Absolute(12),
    },
    Statement {
        at: 13,
        label: None,
        mnemonic: Mnemonic::Ret,
        operand: Operand::Immediate(16),
    },
];

/// Two statements with labels.
const OF_LABELS: [Statement<'static>; 2] = [
    Statement {
        at: 0,
        label: Some("L"),
        mnemonic: Mnemonic::Ret,
        operand: Operand::Immediate(0),
    },
    Statement {
        at: 10,
        label: Some("l_1"),
        mnemonic: Mnemonic::Ret,
        operand: Operand::A,
    },
];

static TEXTS: [(&str, &[Statement<'static>]); 5] = [
    (ETHERTYPE, &OF_ETHERTYPE),
    ("", &[]),
    ("# a line\n;\t\r\n/* two\nlines **/", &[]),
    ("LDH/**/[12]\r\nRet#0X10 ; to the end\n#ret #0", &OF_BLANKS),
    ("L: ret #0 l_1:ret %A", &OF_LABELS),
];

#[test]
fn blanks_comments_labels_and_case(rt: HostRuntime) -> Result<(), Fail> {
    for (text, found) in &TEXTS {
        assert!(rt;
            statements(rt.alloc(), text)?.as_slice() == *found,
            "{text}"
        );
    }
    Ok(())
}
