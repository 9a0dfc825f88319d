//! Thousands of small programs from a fixed generator. If one loads, its run is that of the reference
//! interpreter.

use crate::machine::reference::{Input, Seen, reference_run};
use crate::support::Generator;
use afdx_frame::FrameView;
use bpf_isa::{Outcome, Packed, State};
use bpf_loader::Program;
use bpf_machine::{run, step};
use std::alloc::{AllocError, Global};
use std::process::Abort;
use std::test::Fail;

/// All codes: loads into A and X, stores, arithmetic, jumps, returns and moves.
const CODES: [u16; 49] = [
    0x00, 0x20, 0x28, 0x30, 0x40, 0x48, 0x50, 0x60, 0x80, 0x01, 0x61, 0x81, 0xb1, 0x02, 0x03, 0x04,
    0x0c, 0x14, 0x1c, 0x24, 0x2c, 0x34, 0x3c, 0x44, 0x4c, 0x54, 0x5c, 0x64, 0x6c, 0x74, 0x7c, 0x84,
    0x94, 0x9c, 0xa4, 0xac, 0x05, 0x15, 0x1d, 0x25, 0x2d, 0x35, 0x3d, 0x45, 0x4d, 0x06, 0x16, 0x07,
    0x87,
];

/// Operands of arithmetic, of jumps and of returns.
const VALUES: [u32; 16] = [
    0,
    1,
    2,
    3,
    5,
    31,
    32,
    33,
    60,
    255,
    256,
    0x7fff_ffff,
    0x8000_0000,
    0xffff_fffe,
    0xffff_ffff,
    0x0300_0000,
];

/// Offsets into a frame, around the ends of the frames below.
const OFFSETS: [u32; 16] = [
    0,
    1,
    4,
    5,
    10,
    11,
    13,
    14,
    15,
    56,
    57,
    58,
    59,
    60,
    0x7fff_ffff,
    0x8000_0000,
];

/// Scratch memory slots, the last of which doesn't exist.
const SCRATCH: [u32; 8] = [0, 1, 0, 1, 14, 15, 0, 16];

/// Distances of a shift, the last of them too long.
const SHIFTS: [u32; 8] = [0, 1, 7, 8, 16, 30, 31, 32];

/// A member of a list.
fn pick(generator: &mut Generator, list: &[u32]) -> u32 {
    let at = generator.below(list.len());
    list.get(at).copied().unwrap_or(0)
}

/// The operand of an instruction that so many follow.
fn operand(generator: &mut Generator, code: u16, room: usize) -> u32 {
    match code {
        0x20 | 0x28 | 0x30 | 0xb1 => pick(generator, &OFFSETS),
        0x60 | 0x61 | 0x02 | 0x03 => pick(generator, &SCRATCH),
        0x64 | 0x74 => pick(generator, &SHIFTS),
        0x05 => u32::try_from(generator.below(room)).unwrap_or(0),
        _ => pick(generator, &VALUES),
    }
}

/// An instruction that so many follow: a return if none does.
fn word(generator: &mut Generator, room: usize) -> Packed {
    let drawn = generator.below(CODES.len());
    let code = match room {
        0 if drawn % 2 == 0 => 0x06,
        0 => 0x16,
        _ => CODES.get(drawn).copied().unwrap_or(0),
    };
    Packed {
        code,
        jt: u8::try_from(generator.below(room)).unwrap_or(0),
        jf: u8::try_from(generator.below(room)).unwrap_or(0),
        k: operand(generator, code, room),
    }
}

/// A program of 1 to 12 instructions, half of them after stores of M[0] and M[1].
pub(crate) fn program(alloc: Global, generator: &mut Generator) -> Result<Vec<Packed>, AllocError> {
    let mut words = Vec::new(alloc);
    if generator.below(2) == 0 {
        // ldx len; st M[0]; stx M[1]
        for code in [0x81, 0x02, 0x03] {
            words.push(Packed {
                code,
                jt: 0,
                jf: 0,
                k: u32::from(code == 0x03),
            })?;
        }
    }
    let len = generator.below(12);
    for following in (0..=len).rev() {
        words.push(word(generator, following))?;
    }
    Ok(words)
}

/// The run of a program, by its steps.
fn stepped(rt: &impl Abort, program: &Program, view: &FrameView<'_>, whole: u32) -> (u32, u32) {
    let mut state = State::start();
    for steps in 1..=4096 {
        assert!(rt; state.place < program.len());
        match step(program, state, view, whole) {
            Outcome::Done(answer) => return (answer, steps),
            Outcome::On(next) => state = next,
        }
    }
    (0, 0)
}

/// The bytes of the longest frame. Of the other two, one has its first 15 and one has none.
pub(crate) fn frame_bytes(generator: &mut Generator) -> [u8; 60] {
    let mut bytes = [0; 60];
    for byte in &mut bytes {
        *byte = u8::try_from(generator.below(256)).unwrap_or(0);
    }
    bytes
}

/// A program's run on the three frames, and its steps, are those of the reference interpreter.
fn agrees(rt: &impl Abort, program: &Program, words: &[Packed], bytes: &[u8; 60], seen: &mut Seen) {
    let len = words.len();
    for (captured, whole) in [(60, 60), (15, 1514), (0, u32::MAX)] {
        let input = Input {
            bytes: &bytes[..captured],
            whole,
        };
        let view = FrameView::new(input.bytes);
        let ran = run(program, &view, whole);
        assert!(rt; Some(ran) == reference_run(words, input, seen), "{len} instructions");
        assert!(rt; stepped(rt, program, &view, whole) == ran, "{len} instructions");
    }
}

/// How many of so many programs load. Each that does runs as in the reference interpreter.
fn loaded_of(
    rt: &(impl Abort + AllocGlobal),
    count: u32,
    seen: &mut Seen,
) -> Result<u32, AllocError> {
    let mut generator = Generator {
        state: 0x2545_f491_4f6c_dd1d,
    };
    let bytes = frame_bytes(&mut generator);
    let mut loaded = 0u32;
    for _ in 0..count {
        let words = program(rt.alloc(), &mut generator)?;
        let copy = Vec::from_slice(rt.alloc(), &words)?;
        if let Ok(program) = Program::load(words) {
            loaded = loaded.saturating_add(1);
            agrees(rt, &program, &copy, &bytes, seen);
        }
    }
    Ok(loaded)
}

#[test]
fn runs_are_those_of_the_table(rt: HostRuntime) -> Result<(), Fail> {
    let mut seen: Seen = [false; 256];
    let loaded = loaded_of(&rt, 6000, &mut seen)?;
    assert!(rt; loaded >= 2000, "only {loaded} programs load");
    for code in CODES {
        let mark = seen.get(code as usize);
        assert!(rt;
            mark.copied() == Some(true),
            "code {code:#x} was never carried out"
        );
    }
    Ok(())
}
