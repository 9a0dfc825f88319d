//! Worked filters: the words of their source, their answers and steps on a frame, and a listing.

use crate::support::{frame, loaded};
use afdx_frame::FrameView;
use bpf_asm::{assemble, listing};
use bpf_isa::read_numeric;
use bpf_loader::Program;
use std::process::Abort;
use std::test::Fail;

/// A filter's source, and its words in the numeric form.
type Filter = (&'static str, &'static str);

/// Not the EtherType of ARP: drop.
const ETHERTYPE: Filter = (
    "ldh [12]\njne #0x806, drop\nret #-1\ndrop: ret #0\n",
    "4,40 0 0 12,21 0 1 2054,6 0 0 4294967295,6 0 0 0,",
);

/// The frames of virtual link 5.
const ONE_LINK: Filter = (
    "ldh [4]\njne #5, drop\nret #-1\ndrop: ret #0\n",
    "4,40 0 0 4,21 0 1 5,6 0 0 4294967295,6 0 0 0,",
);

/// Answers with the frame's last byte.
const LAST_BYTE: Filter = (
    "ld len\nsub #1\ntax\nldb [x + 0]\nret a\n",
    "5,128 0 0 0,20 0 0 1,7 0 0 0,80 0 0 0,22 0 0 0,",
);

const JUMP_IF_LESS: Filter = (
    "ld len\njlt #61, s\nret #0\ns: ret #60\n",
    "4,128 0 0 0,53 0 1 61,6 0 0 0,6 0 0 60,",
);

/// Byte 14, by an offset that wraps.
const WRAPPING: Filter = (
    "ldx #16\nldb [x + 4294967294]\nret a",
    "3,1 0 0 16,80 0 0 4294967294,22 0 0 0,",
);

/// A shift by 33.
const SHIFT: Filter = (
    "ld #5\nldx #33\nrsh x\nret a",
    "4,0 0 0 5,1 0 0 33,124 0 0 0,22 0 0 0,",
);

const NEGATION: Filter = ("ld #5\nneg\nret a", "3,0 0 0 5,132 0 0 0,22 0 0 0,");

const DIVISION: Filter = ("ld #1\ndiv x\nret #9", "3,0 0 0 1,60 0 0 0,6 0 0 9,");

const HEADER_LENGTH: Filter = (
    "ldxb 4*([59]&0xf)\ntxa\nret a",
    "3,177 0 0 59,135 0 0 0,22 0 0 0,",
);

/// No path comes to the load of a slot that is never stored.
const PASSED_BY: Filter = ("ja n\nld M[0]\nn: ret #0", "3,5 0 0 1,96 0 0 0,6 0 0 0,");

/// A filter, a frame by its link, length and last byte, and the return value and the steps of its run.
type Run = (Filter, (u8, u32, u8), u32, u32);

/// Programs with what their runs give.
static RUNS: [Run; 16] = [
    (ETHERTYPE, (5, 60, 1), 0, 3),
    (
        ("LDH [12]\nRet #0X10", "2,40 0 0 12,6 0 0 16,"),
        (5, 60, 1),
        16,
        2,
    ),
    (ONE_LINK, (5, 60, 1), 4294967295, 3),
    (ONE_LINK, (6, 60, 1), 0, 3),
    (LAST_BYTE, (5, 60, 0), 0, 5),
    (LAST_BYTE, (5, 60, 17), 17, 5),
    // A word load one byte past the frame's end, and at its end.
    (
        ("ld [57]\nret #1\n", "2,32 0 0 57,6 0 0 1,"),
        (5, 60, 1),
        0,
        1,
    ),
    (
        ("ld [56]\nret #1\n", "2,32 0 0 56,6 0 0 1,"),
        (5, 60, 1),
        1,
        2,
    ),
    (WRAPPING, (5, 15, 9), 9, 3),
    (SHIFT, (5, 60, 1), 0, 4),
    (NEGATION, (5, 60, 1), 4294967291, 3),
    (DIVISION, (5, 60, 1), 0, 2),
    (HEADER_LENGTH, (5, 60, 19), 12, 3),
    (JUMP_IF_LESS, (5, 60, 1), 60, 3),
    (JUMP_IF_LESS, (5, 61, 1), 0, 3),
    (PASSED_BY, (5, 60, 1), 0, 2),
];

/// The program of a filter: its words, which its source has too.
fn program_of(rt: &(impl Abort + AllocGlobal), (source, words): Filter) -> Result<Program, Fail> {
    let assembled = assemble(rt.alloc(), source)?;
    let words = read_numeric(rt.alloc(), words)?;
    assert!(rt; assembled.as_slice() == words.as_slice(), "{source}");
    Ok(Program::load(words)?)
}

/// The filter gives this return value after so many steps.
fn gives(rt: &(impl Abort + AllocGlobal), run: &Run) -> Result<(), Fail> {
    let (filter, (link, len, last), answer, steps) = *run;
    let program = program_of(rt, filter)?;
    let bytes = frame(rt.alloc(), link, len as usize, last)?;
    let ran = bpf_machine::run(&program, &FrameView::new(&bytes), len);
    assert!(rt; ran == (answer, steps));
    Ok(())
}

#[test]
fn words_answers_and_steps(rt: HostRuntime) -> Result<(), Fail> {
    for run in &RUNS {
        gives(&rt, run)?;
    }
    Ok(())
}

#[test]
fn listing_assembles_again(rt: HostRuntime) -> Result<(), Fail> {
    let alloc = rt.alloc();
    let program = loaded(alloc, ETHERTYPE.1)?;
    let text = listing(alloc, &program)?;
    assert!(rt;
        text.as_str() == "L0: ldh [12]\nL1: jeq #2054, L2, L3\nL2: ret #4294967295\nL3: ret #0\n"
    );
    let again = assemble(alloc, &text)?;
    assert!(rt; again.as_slice() == program.insns());
    Ok(())
}
