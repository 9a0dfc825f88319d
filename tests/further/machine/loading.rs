//! The loader by one program for each fault, and by paths.

use bpf_isa::Packed;
use bpf_loader::{LoadFault, Program};
use std::alloc::{AllocError, Global};
use std::process::Abort;
use std::test::Fail;

/// A packed instruction: its code, jt, jf and k.
pub(crate) type Word = (u16, u8, u8, u32);

pub(crate) fn words_of(alloc: Global, words: &[Word]) -> Result<Vec<Packed>, AllocError> {
    let mut packed = Vec::new(alloc);
    for (code, jt, jf, k) in words {
        packed.push(Packed {
            code: *code,
            jt: *jt,
            jf: *jf,
            k: *k,
        })?;
    }
    Ok(packed)
}

/// `ret #0`
const RETURN_0: Word = (6, 0, 0, 0);

/// jeq #0, 0, 1; st M[0]; ld M[0]; ret a: one path jumps over the store.
const PASSED_BY: [Word; 4] = [(21, 0, 1, 0), (2, 0, 0, 0), (96, 0, 0, 0), (22, 0, 0, 0)];

/// ja 1; ld M[0]; ret #0: no path comes to the load.
const UNREACHED: [Word; 3] = [(5, 0, 0, 1), (96, 0, 0, 0), RETURN_0];

/// Programs, each with its fault if it has one.
static FAULTS: [(&[Word], Option<LoadFault>); 9] = [
    // div #0
    (
        &[(52, 0, 0, 0), RETURN_0],
        Some(LoadFault::ZeroDivisor { at: 0 }),
    ),
    (
        &[(23, 0, 0, 0), RETURN_0],
        Some(LoadFault::UnknownCode { at: 0 }),
    ),
    // lsh #32
    (
        &[(100, 0, 0, 32), RETURN_0],
        Some(LoadFault::Shift { at: 0 }),
    ),
    // st M[16]
    (
        &[(2, 0, 0, 16), RETURN_0],
        Some(LoadFault::Scratch { at: 0 }),
    ),
    // ld [2^31]
    (
        &[(32, 0, 0, 2147483648), RETURN_0],
        Some(LoadFault::Offset { at: 0 }),
    ),
    // ja 1
    (&[(5, 0, 0, 1), RETURN_0], Some(LoadFault::Jump { at: 0 })),
    // ret #0; ld #1
    (&[RETURN_0, (0, 0, 0, 1)], Some(LoadFault::NoReturn)),
    (&PASSED_BY, Some(LoadFault::Unstored { at: 2, word: 0 })),
    (&UNREACHED, None),
];

/// The instructions load, or are returned as they were with this fault.
fn loads(
    rt: &(impl Abort + AllocGlobal),
    words: &[Word],
    fault: Option<LoadFault>,
) -> Result<(), Fail> {
    let given = words_of(rt.alloc(), words)?;
    match Program::load(given) {
        Ok(program) => assert!(rt; fault.is_none() && program.len() == words.len()),
        Err(refused) => {
            let same = words_of(rt.alloc(), words)?;
            assert!(rt;
                Some(refused.fault) == fault && refused.words.as_slice() == same.as_slice()
            );
        }
    }
    Ok(())
}

#[test]
fn one_fault_each(rt: HostRuntime) -> Result<(), Fail> {
    for (words, fault) in &FAULTS {
        loads(&rt, words, *fault)?;
    }
    Ok(())
}

#[test]
fn canonical_form(rt: HostRuntime) -> Result<(), Fail> {
    // ret #7, with jump fields that it doesn't read
    let words = words_of(rt.alloc(), &[(6, 9, 9, 7)])?;
    let Ok(program) = Program::load(words) else {
        panic!(rt; "a return is loaded");
    };
    let loaded = Packed {
        code: 6,
        jt: 0,
        jf: 0,
        k: 7,
    };
    assert!(rt; program.len() == 1);
    assert!(rt; program.at(0) == loaded);
    assert!(rt; program.insns() == [loaded].as_slice());
    Ok(())
}

/// So many returns, and the fault.
const LENGTHS: [(usize, Option<LoadFault>); 6] = [
    (0, Some(LoadFault::Length)),
    (1, None),
    (4095, None),
    (4096, None),
    (4097, Some(LoadFault::Length)),
    (65_536, Some(LoadFault::Length)),
];

#[test]
fn one_instruction_too_many(rt: HostRuntime) -> Result<(), Fail> {
    let word = Packed {
        code: 6,
        jt: 0,
        jf: 0,
        k: 0,
    };
    for (count, fault) in &LENGTHS {
        match Program::load(vec![in rt.alloc(); word; *count]?) {
            Ok(program) => {
                assert!(rt;
                    fault.is_none() && program.len() == *count,
                    "{count} instructions"
                );
            }
            Err(refused) => {
                assert!(rt;
                    Some(refused.fault) == *fault && refused.words.len() == *count,
                    "{count} instructions"
                );
            }
        }
    }
    Ok(())
}
