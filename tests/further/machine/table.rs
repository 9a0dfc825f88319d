//! The instruction table row by row, with values worked out by hand, and the families' codes.

ghost use Rattle.std.specs.Prelude.{◌<◌, IsTrue};
ghost use Rattle.bpf_isa.specs.Table.{CanStep};

use afdx_frame::FrameView;
use bpf_isa::{
    Alu, Condition, Family, Insn, Jump, Load, LoadX, Move, Operator, Outcome, Packed, Return,
    Source, State, Store, canonical,
};
use std::process::Abort;

/// The captured bytes of a frame. Its length on the wire is `WHOLE`.
const FRAME: [u8; 24] = [
    0x10, 0x21, 0x32, 0x43, 0x54, 0x65, 0x7d, 0x87, 0x98, 0xa9, 0xba, 0xcb, 0xdc, 0xed, 0xfe, 0x0f,
    0x01, 0x12, 0x23, 0x34, 0x45, 0x56, 0x67, 0x78,
];

const WHOLE: u32 = 1514;

/// M[i] is 50 + i.
const BEFORE: State = State {
    place: 10,
    a: 74565,
    x: 11,
    scratch: [
        50, 51, 52, 53, 54, 55, 56, 57, 58, 59, 60, 61, 62, 63, 64, 65,
    ],
};

/// What an instruction changes.
#[derive(Clone, Copy)]
enum Effect {
    A(u32),
    X(u32),
    /// M[6] alone.
    Slot(u32),
    /// The pc alone.
    Goes(usize),
    Ends(u32),
}

fn outcome(before: State, effect: Effect) -> Outcome
    requires { before.place < 4096 }
{
    let mut after = before;
    after.place += 1;
    match effect {
        Effect::A(value) => after.a = value,
        Effect::X(value) => after.x = value,
        Effect::Slot(value) => after.scratch[6] = value,
        Effect::Goes(place) => after.place = place,
        Effect::Ends(answer) => return Outcome::Done(answer),
    }
    Outcome::On(after)
}

/// Each field holds something, whether its code reads it or not.
const fn full(code: u16) -> Packed {
    word(code, 20, 40, 6)
}

const fn word(code: u16, jt: u8, jf: u8, k: u32) -> Packed {
    Packed { code, jt, jf, k }
}

/// Whether a word can be carried out at a pc.
fn can_step(word: Packed, place: usize) -> bool
    requires { place < 4096 }
    ensures { IsTrue result → CanStep word place }
{
    let Packed { code, jt, jf, k } = word;
    let divides = code == 0x34 || code == 0x94;
    let scratch = code == 0x60 || code == 0x61 || (code == 0x02 || code == 0x03);
    let always = code == 0x05;
    let branches = code == 0x15
        || code == 0x1d
        || code == 0x25
        || code == 0x2d
        || code == 0x35
        || code == 0x3d
        || code == 0x45
        || code == 0x4d;
    (!divides || k != 0)
        && (!scratch || k < 16)
        && (!always || place + 1 + (k as usize) < 4096)
        && (!branches || (place + 1 + (jt as usize) < 4096 && place + 1 + (jf as usize) < 4096))
}

/// Carries an instruction out on the frame, by `step`.
fn stepped<F: Family>(rt: &impl Abort, insn: F, before: State) -> Outcome {
    assert!(rt; before.place < 4096);
    assert!(rt; can_step(insn.pack(), before.place));
    insn.step(before, &FrameView::new(&FRAME), WHOLE)
}

/// The same by `advance`.
fn advanced<F: Family>(rt: &impl Abort, insn: F, before: State) -> Outcome {
    assert!(rt; before.place < 4096);
    assert!(rt; can_step(insn.pack(), before.place));
    let mut state = before;
    match insn.advance(&mut state, &FrameView::new(&FRAME), WHOLE) {
        Some(answer) => Outcome::Done(answer),
        None => Outcome::On(state),
    }
}

/// Which fields of its word a code reads.
#[derive(Clone, Copy)]
enum Reads {
    /// None of them.
    Nothing,
    /// k alone.
    K,
    /// Both targets of a conditional jump by A and X.
    Targets,
    /// Both targets and k.
    All,
}

/// The canonical form of a word whose fields all hold something.
fn plain_word(code: u16, reads: Reads) -> Packed {
    match reads {
        Reads::Nothing => word(code, 0, 0, 0),
        Reads::K => word(code, 0, 0, 6),
        Reads::Targets => word(code, 20, 40, 0),
        Reads::All => full(code),
    }
}

/// A row of the table: its mnemonic, its code, what that reads, and its effect.
type Row = (&'static str, u16, Reads, Effect);

/// The row's word, with all fields and in canonical form, unpacks to an instruction of the family, which
/// packs in canonical form and has the row's effect.
fn row_holds<F: Family>(rt: &impl Abort, row: &Row) {
    let (mnemonic, code, reads, effect) = row;
    let plain = plain_word(*code, *reads);
    let want = outcome(BEFORE, *effect);
    for word in [full(*code), plain] {
        let Some(insn) = F::unpack(word) else {
            panic!(rt; "not of the family: {mnemonic}");
        };
        assert!(rt;
            insn.pack() == plain && canonical(word) == plain,
            "{mnemonic}"
        );
        assert!(rt;
            stepped(rt, insn, BEFORE) == want && advanced(rt, insn, BEFORE) == want,
            "{mnemonic}"
        );
    }
}

/// The family has these rows and no other, each with a code of its classes. Each holds of the family, and
/// of all instructions.
fn family_has<F: Family>(rt: &impl Abort, rows: &[Row]) {
    assert!(rt; rows.len() == F::CODES);
    for row in rows {
        let class = row.1 % 8;
        assert!(rt; F::FIRST_CLASS <= class && class <= F::LAST_CLASS);
        row_holds::<F>(rt, row);
        row_holds::<Insn>(rt, row);
    }
}

/// The rows of each family.
const LOADS: [Row; 9] = [
    ("ld #k", 0x00, Reads::K, Effect::A(6)),
    ("ld [k]", 0x20, Reads::K, Effect::A(0x7d87_98a9)),
    ("ldh [k]", 0x28, Reads::K, Effect::A(0x7d87)),
    ("ldb [k]", 0x30, Reads::K, Effect::A(0x7d)),
    // the offset 17
    ("ld [x + k]", 0x40, Reads::K, Effect::A(0x1223_3445)),
    ("ldh [x + k]", 0x48, Reads::K, Effect::A(0x1223)),
    ("ldb [x + k]", 0x50, Reads::K, Effect::A(0x12)),
    ("ld M[k]", 0x60, Reads::K, Effect::A(56)),
    ("ld len", 0x80, Reads::Nothing, Effect::A(1514)),
];

const LOADS_OF_X: [Row; 4] = [
    ("ldx #k", 0x01, Reads::K, Effect::X(6)),
    ("ldx M[k]", 0x61, Reads::K, Effect::X(56)),
    ("ldx len", 0x81, Reads::Nothing, Effect::X(1514)),
    // 4 * 13
    ("ldxb 4*([k]&0xf)", 0xb1, Reads::K, Effect::X(52)),
];

const STORES: [Row; 2] = [
    ("st M[k]", 0x02, Reads::K, Effect::Slot(74565)),
    ("stx M[k]", 0x03, Reads::K, Effect::Slot(11)),
];

#[test]
fn loads_and_stores(rt: HostRuntime) {
    family_has::<Load>(&rt, &LOADS);
    family_has::<LoadX>(&rt, &LOADS_OF_X);
    family_has::<Store>(&rt, &STORES);
}

const ARITHMETIC: [Row; 21] = [
    ("add #k", 0x04, Reads::K, Effect::A(74571)),
    ("add x", 0x0c, Reads::Nothing, Effect::A(74576)),
    ("sub #k", 0x14, Reads::K, Effect::A(74559)),
    ("sub x", 0x1c, Reads::Nothing, Effect::A(74554)),
    ("mul #k", 0x24, Reads::K, Effect::A(447390)),
    ("mul x", 0x2c, Reads::Nothing, Effect::A(820215)),
    ("div #k", 0x34, Reads::K, Effect::A(12427)),
    ("div x", 0x3c, Reads::Nothing, Effect::A(6778)),
    ("or #k", 0x44, Reads::K, Effect::A(74567)),
    ("or x", 0x4c, Reads::Nothing, Effect::A(74575)),
    ("and #k", 0x54, Reads::K, Effect::A(4)),
    ("and x", 0x5c, Reads::Nothing, Effect::A(1)),
    ("lsh #k", 0x64, Reads::K, Effect::A(4772160)),
    ("lsh x", 0x6c, Reads::Nothing, Effect::A(152709120)),
    ("rsh #k", 0x74, Reads::K, Effect::A(1165)),
    ("rsh x", 0x7c, Reads::Nothing, Effect::A(36)),
    ("neg", 0x84, Reads::Nothing, Effect::A(4294892731)),
    ("mod #k", 0x94, Reads::K, Effect::A(3)),
    ("mod x", 0x9c, Reads::Nothing, Effect::A(7)),
    ("xor #k", 0xa4, Reads::K, Effect::A(74563)),
    ("xor x", 0xac, Reads::Nothing, Effect::A(74574)),
];

#[test]
fn arithmetic(rt: HostRuntime) {
    family_has::<Alu>(&rt, &ARITHMETIC);
}

const JUMPS: [Row; 9] = [
    ("ja", 0x05, Reads::K, Effect::Goes(17)),
    ("jeq #k", 0x15, Reads::All, Effect::Goes(51)),
    ("jeq x", 0x1d, Reads::Targets, Effect::Goes(51)),
    ("jgt #k", 0x25, Reads::All, Effect::Goes(31)),
    ("jgt x", 0x2d, Reads::Targets, Effect::Goes(31)),
    ("jge #k", 0x35, Reads::All, Effect::Goes(31)),
    ("jge x", 0x3d, Reads::Targets, Effect::Goes(31)),
    ("jset #k", 0x45, Reads::All, Effect::Goes(31)),
    ("jset x", 0x4d, Reads::Targets, Effect::Goes(31)),
];

const RETURNS: [Row; 2] = [
    ("ret #k", 0x06, Reads::K, Effect::Ends(6)),
    ("ret a", 0x16, Reads::Nothing, Effect::Ends(74565)),
];

const MOVES: [Row; 2] = [
    ("tax", 0x07, Reads::Nothing, Effect::X(74565)),
    ("txa", 0x87, Reads::Nothing, Effect::A(11)),
];

#[test]
fn jumps_returns_and_moves(rt: HostRuntime) {
    family_has::<Jump>(&rt, &JUMPS);
    family_has::<Return>(&rt, &RETURNS);
    family_has::<Move>(&rt, &MOVES);
}

/// A word of the table has this effect.
fn has_effect(rt: &impl Abort, word: Packed, before: State, effect: Effect) {
    let Some(insn) = Insn::unpack(word) else {
        panic!(rt; "not listed: code {}", word.code);
    };
    assert!(rt; before.place < 4096);
    let want = outcome(before, effect);
    assert!(rt;
        stepped(rt, insn, before) == want,
        "code {}, k {}",
        word.code,
        word.k
    );
}

/// Comparisons of A, which is 74565 and shares no bit with 2: the code of jeq, jgt, jge or jset, the
/// operand, and whether it holds.
const COMPARISONS: [(u16, u32, bool); 20] = [
    (0x15, 2, false),
    (0x25, 2, true),
    (0x35, 2, true),
    (0x45, 2, false),
    (0x15, 74564, false),
    (0x25, 74564, true),
    (0x35, 74564, true),
    (0x45, 74564, true),
    (0x15, 74565, true),
    (0x25, 74565, false),
    (0x35, 74565, true),
    (0x45, 74565, true),
    (0x15, 74566, false),
    (0x25, 74566, false),
    (0x35, 74566, false),
    (0x45, 74566, true),
    (0x15, 131072, false),
    (0x25, 131072, false),
    (0x35, 131072, false),
    (0x45, 131072, false),
];

#[test]
fn tests_tell_the_four_conditions_apart(rt: HostRuntime) {
    for (code, operand, holds) in &COMPARISONS {
        let effect = Effect::Goes(if *holds { 31 } else { 51 });
        has_effect(&rt, word(*code, 20, 40, *operand), BEFORE, effect);
        let by_x = State {
            x: *operand,
            ..BEFORE
        };
        has_effect(&rt, word(*code | 8, 20, 40, 74565), by_x, effect);
    }
}

/// Instructions over numbers at their ends, and loads at the end of the frame, of which 24 bytes are
/// captured: by code, from A, X and k.
const ENDS: [(u16, u32, u32, u32, Effect); 28] = [
    // add #k, sub #k, mul #k
    (0x04, u32::MAX, 0, 1, Effect::A(0)),
    (0x14, 0, 0, 1, Effect::A(u32::MAX)),
    (0x24, 65536, 0, 65536, Effect::A(0)),
    (0x24, 65537, 0, 65537, Effect::A(131073)),
    // lsh x, rsh x
    (0x6c, 3, 31, 0, Effect::A(0x8000_0000)),
    (0x6c, 3, 32, 0, Effect::A(0)),
    (0x6c, 3, 33, 0, Effect::A(0)),
    (0x7c, 0xc000_0000, 31, 0, Effect::A(1)),
    (0x7c, 0xc000_0000, 32, 0, Effect::A(0)),
    (0x7c, 0xc000_0000, 33, 0, Effect::A(0)),
    // div x, mod x
    (0x3c, 1, 0, 7, Effect::Ends(0)),
    (0x9c, 1, 0, 7, Effect::Ends(0)),
    // neg
    (0x84, 5, 0, 0, Effect::A(4294967291)),
    (0x84, 0, 0, 0, Effect::A(0)),
    // ld [k], ldh [k], ldb [k]
    (0x20, 74565, 0, 20, Effect::A(0x4556_6778)),
    (0x20, 74565, 0, 21, Effect::Ends(0)),
    (0x28, 74565, 0, 22, Effect::A(0x6778)),
    (0x28, 74565, 0, 23, Effect::Ends(0)),
    (0x30, 74565, 0, 23, Effect::A(0x78)),
    (0x30, 74565, 0, 24, Effect::Ends(0)),
    // ld [x + k], ldh [x + k], ldb [x + k]
    (0x40, 74565, 20, 1, Effect::Ends(0)),
    (0x48, 74565, 20, 3, Effect::Ends(0)),
    (0x50, 74565, 20, 4, Effect::Ends(0)),
    // ldxb 4*([k]&0xf)
    (0xb1, 74565, 0, 23, Effect::X(32)),
    (0xb1, 74565, 0, 24, Effect::Ends(0)),
    // X + k is 0, 1 and 2 modulo 2^32: ld, ldh and ldb
    (0x40, 74565, u32::MAX, 1, Effect::A(0x1021_3243)),
    (0x48, 74565, 0x8000_0000, 0x8000_0001, Effect::A(0x2132)),
    (0x50, 74565, 4, 4294967294, Effect::A(0x32)),
];

#[test]
fn numbers_and_loads_at_their_ends(rt: HostRuntime) {
    for (code, a, x, k, effect) in &ENDS {
        let before = State {
            a: *a,
            x: *x,
            ..BEFORE
        };
        has_effect(&rt, word(*code, 0, 0, *k), before, *effect);
    }
}

#[test]
fn operands(rt: HostRuntime) {
    let less = Jump::If(Condition::AtLeast, Source::K(61), 0, 1);
    assert!(rt; Load::Length.operand() == None && LoadX::HeaderLength(14).operand() == Some(14));
    assert!(rt; Store::X(6).operand() == 6 && Return::A.operand() == None);
    assert!(rt; Alu::Binary(Operator::Add, Source::X).operand() == Some(Source::X));
    assert!(rt;
        less.operand() == (Source::K(61), 0, 1) && Insn::Jump(less).operand() == (0, 1, 61)
    );
}

#[test]
fn canonical_forms_and_conditions(rt: HostRuntime) {
    // ret #7, and codes that aren't listed
    assert!(rt; canonical(word(6, 9, 9, 7)) == word(6, 0, 0, 7));
    assert!(rt; canonical(word(23, 9, 9, 7)) == word(23, 9, 9, 7));
    assert!(rt; canonical(word(0x106, 9, 9, 7)) == word(0x106, 9, 9, 7));
    assert!(rt;
        Condition::AtLeast.holds(u32::MAX, u32::MAX) && !Condition::Greater.holds(1, u32::MAX)
    );
}

#[test]
fn starts_at_zero(rt: HostRuntime) {
    let zero = State {
        place: 0,
        a: 0,
        x: 0,
        scratch: [0; 16],
    };
    assert!(rt; State::start() == zero);
}
