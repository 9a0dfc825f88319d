//! A program of 4096 instructions, and thousands of frames.

use crate::debugger::worked::{answer_to, session};
use bpf_debugger::{Command, Reply, Session};
use bpf_isa::{Outcome, Packed, State};
use bpf_loader::Program;
use std::process::Abort;
use std::test::Fail;

/// The instruction at an index of the long program: `add #1` and `st M[0]` to `st M[15]` in turn, and
/// `ret a` at the end.
fn word(index: usize) -> Packed {
    let (code, k) = match index {
        4095 => (0x16, 0),
        _ if index % 2 == 0 => (0x04, 1),
        _ => (0x02, (index / 2 % 16) as u32),
    };
    Packed {
        code,
        jt: 0,
        jf: 0,
        k,
    }
}

/// A slot after so many steps: the last of its stores.
fn slot(slot: usize, steps: usize) -> u32 {
    let mut value = 0;
    for step in 0..steps {
        if step % 2 == 1 && step / 2 % 16 == slot {
            value = u32::try_from(step / 2).unwrap_or(0).saturating_add(1);
        }
    }
    value
}

fn state_after(steps: usize) -> State {
    let mut scratch = [0; 16];
    for (index, value) in scratch.iter_mut().enumerate() {
        *value = slot(index, steps);
    }
    State {
        place: steps,
        a: u32::try_from(steps.div_ceil(2)).unwrap_or(0),
        x: 0,
        scratch,
    }
}

fn long(rt: &(impl Abort + AllocGlobal)) -> Result<Session, Fail> {
    let mut words = Vec::new(rt.alloc());
    for index in 0..4096 {
        words.push(word(index))?;
    }
    session(rt.alloc(), Program::load(words)?, &[(&[0; 60], 60)])
}

/// A command leads to the state after so many steps.
fn leads(rt: &(impl Abort + AllocGlobal), session: &mut Session, command: Command, m: usize) {
    let shown = Outcome::On(state_after(m));
    assert!(rt;
        session.command(command) == Ok(Reply::At { m, shown }),
        "up to {m} steps"
    );
}

#[test]
fn the_longest_walk(rt: HostRuntime) -> Result<(), Fail> {
    let mut session = long(&rt)?;
    let rt = &rt;
    leads(rt, &mut session, Command::Select(0), 0);
    leads(rt, &mut session, Command::Step(2047), 2047);
    let end = Reply::At {
        m: 4096,
        shown: Outcome::Done(2048),
    };
    assert!(rt; session.command(Command::Step(4096)) == Ok(end));
    leads(rt, &mut session, Command::Step(-1), 4095);
    leads(rt, &mut session, Command::Step(-4095), 0);
    assert!(rt; session.command(Command::Breakpoint(4095)).is_ok());
    leads(rt, &mut session, Command::Cont, 4095);
    for m in (4000..4095).rev() {
        leads(rt, &mut session, Command::Step(-1), m);
    }
    leads(rt, &mut session, Command::Step(-4096), 0);
    Ok(())
}

#[test]
fn the_longest_listing(rt: HostRuntime) -> Result<(), Fail> {
    let mut session = long(&rt)?;
    let text = answer_to(rt.alloc(), &mut session, "disassemble")?;
    assert!(rt; text.as_str().lines().count() == 4096);
    assert!(rt; text.as_str().starts_with("L0: add #1\nL1: st M[0]\n"));
    assert!(rt; text.as_str().ends_with("\nL4094: add #1\nL4095: ret a\n"));
    Ok(())
}

#[test]
fn a_tally_of_thousands(rt: HostRuntime) -> Result<(), Fail> {
    // ldb [0]; ret a: it rejects the frames whose first byte is 0.
    let words = crate::support::loaded(rt.alloc(), "2,48 0 0 0,22 0 0 0,")?;
    let bytes = [[0u8; 60], [1; 60], [2; 60]];
    let mut frames: Vec<(&[u8], u32)> = Vec::new(rt.alloc());
    for number in 0..9000 {
        if let Some(one) = bytes.get(number % 3) {
            frames.push((one.as_slice(), 60))?;
        }
    }
    let mut session = session(rt.alloc(), words, &frames)?;
    assert!(rt; session.frames() == 9000);
    let tally = Reply::Tally {
        accepted: 6000,
        rejected: 3000,
    };
    assert!(rt; session.command(Command::Tally) == Ok(tally));
    Ok(())
}
