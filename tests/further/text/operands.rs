//! Each form of operand, as the only statement of a text.

use bpf_text::{Mnemonic, Operand, Source, Statement, statements};
use std::test::Fail;

const THREE: Source = Source::K(3);

/// Texts of one statement, with its mnemonic and operand: loads and stores, jumps where the comparison
/// holds and where it fails, arithmetic, moves and returns.
const STATEMENTS: [(&str, Mnemonic, Operand<'static>); 48] = [
    ("ld [4]", Mnemonic::Ld, Operand::Absolute(4)),
    ("ld [x + 4]", Mnemonic::Ld, Operand::Indirect(4)),
    ("ld [%x+-4]", Mnemonic::Ld, Operand::Indirect(4_294_967_292)),
    ("ld M[3]", Mnemonic::Ld, Operand::Scratch(3)),
    ("ld #7", Mnemonic::Ld, Operand::Immediate(7)),
    ("ld len", Mnemonic::Ld, Operand::Len),
    ("ld #len", Mnemonic::Ld, Operand::Len),
    ("ldi #7", Mnemonic::Ldi, Operand::Immediate(7)),
    ("ldi +7", Mnemonic::Ldi, Operand::Immediate(7)),
    ("ldxi #0b101", Mnemonic::Ldxi, Operand::Immediate(5)),
    ("ldxi 017", Mnemonic::Ldxi, Operand::Immediate(15)),
    ("ldh [x+4]", Mnemonic::Ldh, Operand::Indirect(4)),
    ("ldb [4]", Mnemonic::Ldb, Operand::Absolute(4)),
    ("ldx m[3]", Mnemonic::Ldx, Operand::Scratch(3)),
    ("ldx #7", Mnemonic::Ldx, Operand::Immediate(7)),
    ("ldx LEN", Mnemonic::Ldx, Operand::Len),
    ("ldx # len", Mnemonic::Ldx, Operand::Len),
    ("ldx 4*([14]&0xf)", Mnemonic::Ldx, Operand::HeaderLength(14)),
    (
        "ldxb 0x4 * ( [14] & 15 )",
        Mnemonic::Ldxb,
        Operand::HeaderLength(14),
    ),
    ("st M[3]", Mnemonic::St, Operand::Scratch(3)),
    ("stx M[3]", Mnemonic::Stx, Operand::Scratch(3)),
    ("jmp t", Mnemonic::Jmp, Operand::Target("t")),
    ("ja t", Mnemonic::Ja, Operand::Target("t")),
    (
        "jeq #3, t",
        Mnemonic::Jeq,
        Operand::Branch(THREE, "t", None),
    ),
    (
        "jeq #3, t, f",
        Mnemonic::Jeq,
        Operand::Branch(THREE, "t", Some("f")),
    ),
    (
        "jset #3, t",
        Mnemonic::Jset,
        Operand::Branch(THREE, "t", None),
    ),
    (
        "jgt x, t",
        Mnemonic::Jgt,
        Operand::Branch(Source::X, "t", None),
    ),
    (
        "jge %x, t, f",
        Mnemonic::Jge,
        Operand::Branch(Source::X, "t", Some("f")),
    ),
    (
        "jneq #3, t",
        Mnemonic::Jneq,
        Operand::Branch(THREE, "t", None),
    ),
    (
        "jne x, t",
        Mnemonic::Jne,
        Operand::Branch(Source::X, "t", None),
    ),
    (
        "jlt #3, t",
        Mnemonic::Jlt,
        Operand::Branch(THREE, "t", None),
    ),
    (
        "jle %X, t",
        Mnemonic::Jle,
        Operand::Branch(Source::X, "t", None),
    ),
    ("add #3", Mnemonic::Add, Operand::Source(THREE)),
    ("sub x", Mnemonic::Sub, Operand::Source(Source::X)),
    ("mul %x", Mnemonic::Mul, Operand::Source(Source::X)),
    ("div #3", Mnemonic::Div, Operand::Source(THREE)),
    ("mod x", Mnemonic::Mod, Operand::Source(Source::X)),
    ("and #3", Mnemonic::And, Operand::Source(THREE)),
    ("or x", Mnemonic::Or, Operand::Source(Source::X)),
    ("xor #3", Mnemonic::Xor, Operand::Source(THREE)),
    ("lsh x", Mnemonic::Lsh, Operand::Source(Source::X)),
    ("rsh #3", Mnemonic::Rsh, Operand::Source(THREE)),
    ("neg", Mnemonic::Neg, Operand::None),
    ("tax", Mnemonic::Tax, Operand::None),
    ("txa", Mnemonic::Txa, Operand::None),
    ("ret #5", Mnemonic::Ret, Operand::Immediate(5)),
    ("ret a", Mnemonic::Ret, Operand::A),
    ("ret %a", Mnemonic::Ret, Operand::A),
];

#[test]
fn each_form_of_operand(rt: HostRuntime) -> Result<(), Fail> {
    for (text, mnemonic, operand) in &STATEMENTS {
        let found = Statement {
            at: 0,
            label: None,
            mnemonic: *mnemonic,
            operand: *operand,
        };
        assert!(rt;
            statements(rt.alloc(), text)?.as_slice() == [found].as_slice(),
            "{text}"
        );
    }
    Ok(())
}
