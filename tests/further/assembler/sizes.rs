//! Filters of 4096 statements, each with a label.

use bpf_asm::{AsmFault, assemble, listing};
use bpf_isa::Packed;
use bpf_loader::Program;
use std::alloc::{AllocError, Global};
use std::test::Fail;

/// The most statements of a filter.
const MOST: usize = 4096;

/// So many labelled statements, each but the last a jump to the next one.
fn chain(alloc: Global, count: usize) -> Result<String, AllocError> {
    let mut text = String::new(alloc);
    for at in 1..count {
        let line = format!(in alloc; "L{}: ja L{at}\n", at - 1)?;
        text.push_str(&line)?;
    }
    let last = format!(in alloc; "L{}: ret #0\n", count.saturating_sub(1))?;
    text.push_str(&last)?;
    Ok(text)
}

#[test]
fn most_labelled_statements(rt: HostRuntime) -> Result<(), Fail> {
    let alloc = rt.alloc();
    let words = assemble(alloc, &chain(alloc, MOST)?)?;
    assert!(rt; words.len() == MOST);
    for (at, word) in words.iter().enumerate() {
        let code = if at < MOST - 1 { 0x05 } else { 0x06 };
        assert!(rt;
            *word
                == Packed {
                    code,
                    jt: 0,
                    jf: 0,
                    k: 0
                }
        );
    }
    let more = assemble(alloc, &chain(alloc, MOST + 1)?).err();
    assert!(rt; more == Some(AsmFault::TooMany));
    Ok(())
}

/// The most labelled statements, as a listing has them: conditional jumps, as far as they go, and a
/// return.
fn branches(alloc: Global) -> Result<String, AllocError> {
    let mut text = String::new(alloc);
    for at in 0..MOST - 1 {
        let far = (at + 256).min(MOST - 1);
        let line = format!(in alloc; "L{at}: jeq #{at}, L{}, L{far}\n", at + 1)?;
        text.push_str(&line)?;
    }
    let last = format!(in alloc; "L{}: ret #4294967295\n", MOST - 1)?;
    text.push_str(&last)?;
    Ok(text)
}

#[test]
fn longest_listing(rt: HostRuntime) -> Result<(), Fail> {
    let alloc = rt.alloc();
    let text = branches(alloc)?;
    let words = assemble(alloc, &text)?;
    let program = Program::load(words.clone()?)?;
    let listed = listing(alloc, &program)?;
    assert!(rt; listed.as_str() == text.as_str());
    let again = assemble(alloc, &listed)?;
    assert!(rt; again.as_slice() == words.as_slice());
    Ok(())
}
