//! Sessions that are worked out by hand.

use crate::support::{frame, loaded};
use afdx_frame::{FrameView, Network, Stamp, TapFrame};
use bpf_debugger::{
    Command, Reply, Session, Undo, bad_command_line, read_command, render, undo,
};
use bpf_isa::{Outcome, State};
use bpf_loader::Program;
use bpf_machine::step;
use std::alloc::{AllocError, Global};
use std::process::Abort;
use std::test::Fail;

/// A session over a program, with frames of network A of these bytes.
pub(crate) fn session(
    alloc: Global,
    program: Program,
    frames: &[(&[u8], u32)],
) -> Result<Session, Fail> {
    let mut taken = Vec::new(alloc);
    for (number, (bytes, whole)) in frames.iter().enumerate() {
        let bytes = Vec::from_slice(alloc, bytes)?;
        let frame = TapFrame::new(Network::A, number as u64, Stamp(0), *whole, bytes);
        taken.push(frame.map_err(|_| "a frame out of bounds")?)?;
    }
    Ok(Session::new(alloc, program, taken)?)
}

/// What the program prints for a line.
pub(crate) fn answer_to(
    alloc: Global,
    session: &mut Session,
    line: &str,
) -> Result<String, AllocError> {
    match read_command(line) {
        None => String::from_str(alloc, bad_command_line()),
        Some(command) => match session.command(command) {
            Ok(reply) => render(alloc, &reply),
            Err(fault) => String::from_str(alloc, fault.line()),
        },
    }
}

/// `ld #7`, `st M[3]`, `ldx M[3]`, `txa`, `ret a`
const STORING: &str = "5,0 0 0 7,2 0 0 3,97 0 0 3,135 0 0 0,22 0 0 0,";

const START: &str = "at 0 pc 0 A 0 X 0 M 0 0 0 0 0 0 0 0 0 0 0 0 0 0 0 0\n";

const LOADED: &str = "at 1 pc 1 A 7 X 0 M 0 0 0 0 0 0 0 0 0 0 0 0 0 0 0 0\n";

const STORED: &str = "at 2 pc 2 A 7 X 0 M 0 0 0 7 0 0 0 0 0 0 0 0 0 0 0 0\n";

const IN_X: &str = "at 3 pc 3 A 7 X 7 M 0 0 0 7 0 0 0 0 0 0 0 0 0 0 0 0\n";

const IN_A: &str = "at 4 pc 4 A 7 X 7 M 0 0 0 7 0 0 0 0 0 0 0 0 0 0 0 0\n";

/// A line, and what is printed for it.
type Line = (&'static str, &'static str);

static WALK: [Line; 14] = [
    ("step +1", "fault 1 NoFrame\n"),
    ("cont", "fault 1 NoFrame\n"),
    ("select 0", START),
    ("step +3", IN_X),
    ("step -2", LOADED),
    ("step +2", IN_X),
    ("step -9", START),
    ("breakpoint 2", "breakpoint 2 set\n"),
    ("cont", STORED),
    ("cont", "at 5 done 7\n"),
    ("tally", "tally accepted 1 rejected 0\n"),
    ("select 1", "fault 2 NoSuchFrame\n"),
    ("breakpoint 5", "fault 3 NoSuchInsn\n"),
    ("quit", "bye\n"),
];

static BACK_OVER_A_STORE: [Line; 12] = [
    ("select 0", START),
    ("breakpoint 2", "breakpoint 2 set\n"),
    ("cont", STORED),
    ("step -1", LOADED),
    ("cont", STORED),
    ("step +9", "at 5 done 7\n"),
    ("step -1", IN_A),
    ("step 0", IN_A),
    ("step -3", LOADED),
    // A refused `select` leaves the frame and the position.
    ("select 1", "fault 2 NoSuchFrame\n"),
    ("step 1", STORED),
    (
        "disassemble",
        "L0: ld #7\nL1: st M[3]\nL2: ldx M[3]\nL3: txa\nL4: ret a\n",
    ),
];

fn storing(rt: &(impl Abort + AllocGlobal)) -> Result<Session, Fail> {
    let program = loaded(rt.alloc(), STORING)?;
    let bytes = frame(rt.alloc(), 5, 60, 1)?;
    session(rt.alloc(), program, &[(&bytes, 60)])
}

/// The session prints these texts for these lines.
fn prints(
    rt: &(impl Abort + AllocGlobal),
    session: &mut Session,
    lines: &[Line],
) -> Result<(), Fail> {
    for (line, text) in lines {
        let printed = answer_to(rt.alloc(), session, line)?;
        assert!(rt; printed.as_str() == *text, "{line}");
    }
    Ok(())
}

#[test]
fn the_walk(rt: HostRuntime) -> Result<(), Fail> {
    let mut session = storing(&rt)?;
    assert!(rt; session.frames() == 1);
    prints(&rt, &mut session, &WALK)
}

#[test]
fn steps_back_over_a_store(rt: HostRuntime) -> Result<(), Fail> {
    let mut session = storing(&rt)?;
    prints(&rt, &mut session, &BACK_OVER_A_STORE)
}

/// The command leads to this entry of the run.
fn leads(rt: &impl Abort, session: &mut Session, command: Command, m: usize, shown: Outcome) {
    assert!(rt; session.command(command) == Ok(Reply::At { m, shown }));
}

#[test]
fn ends_of_a_long_step(rt: HostRuntime) -> Result<(), Fail> {
    let mut session = storing(&rt)?;
    let start = Outcome::On(State::start());
    leads(&rt, &mut session, Command::Select(0), 0, start);
    leads(
        &rt,
        &mut session,
        Command::Step(i64::MAX),
        5,
        Outcome::Done(7),
    );
    leads(&rt, &mut session, Command::Step(i64::MIN), 0, start);
    for set in [true, false] {
        let reply = Reply::Breakpoint { at: 2, set };
        assert!(rt; session.command(Command::Breakpoint(2)) == Ok(reply));
    }
    leads(&rt, &mut session, Command::Cont, 5, Outcome::Done(7));
    Ok(())
}

/// The record of the step that stores M[3] leads back to the state before it.
#[test]
fn a_step_is_undone(rt: HostRuntime) -> Result<(), Fail> {
    let program = loaded(rt.alloc(), STORING)?;
    let before = State {
        place: 1,
        a: 7,
        x: 2,
        scratch: [9; 16],
    };
    assert!(rt; before.place < program.len());
    let record = Undo::of(&program, &before);
    let mut after = before;
    after.place = 2;
    after.scratch[3] = 7;
    assert!(rt; step(&program, before, &FrameView::new(&[]), 60) == Outcome::On(after));
    assert!(rt; undo(&record, after) == before);
    Ok(())
}
