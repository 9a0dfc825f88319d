//! Sessions over small programs from a fixed generator, beside one that runs the reference interpreter
//! from the start for each reply.

use crate::debugger::worked::session;
use crate::machine::generated::{frame_bytes, program};
use crate::machine::reference::{Input, reference_entry};
use crate::support::Generator;
use afdx_frame::FrameView;
use bpf_asm::listing;
use bpf_debugger::{Command, DebugFault, Reply, Undo, undo};
use bpf_isa::{Outcome, Packed, State};
use bpf_loader::Program;
use bpf_machine::step;
use std::alloc::{AllocError, Global};
use std::process::Abort;
use std::test::Fail;

/// The session that keeps a position alone.
#[derive(Drop)]
struct Slow<'a> {
    words: &'a [Packed],
    frames: &'a [Input<'a>],
    selected: Option<usize>,
    position: usize,
    breakpoints: [bool; 16],
}

impl Slow<'_> {
    /// The entry of the run at a position of the selected frame, or the last.
    fn entry(&self, position: usize) -> Option<(usize, Outcome)> {
        let input = *self.frames.get(self.selected?)?;
        reference_entry(self.words, input, position)
    }

    fn shown(&self) -> Result<Reply, DebugFault> {
        let (m, shown) = self.entry(self.position).ok_or(DebugFault::NoFrame)?;
        Ok(Reply::At { m, shown })
    }

    fn select(&mut self, frame: u32) -> Result<Reply, DebugFault> {
        if frame as usize >= self.frames.len() {
            return Err(DebugFault::NoSuchFrame);
        }
        self.selected = Some(frame as usize);
        self.position = 0;
        self.shown()
    }

    fn step(&mut self, by: i64) -> Result<Reply, DebugFault> {
        let (last, _) = self.entry(4096).ok_or(DebugFault::NoFrame)?;
        let target = i64::try_from(self.position).unwrap_or(0).saturating_add(by);
        self.position = usize::try_from(target).unwrap_or(0).min(last);
        self.shown()
    }

    fn stands(&self, position: usize) -> bool {
        match self.entry(position) {
            Some((_, Outcome::On(state))) => {
                self.breakpoints.get(state.place).copied().unwrap_or(false)
            }
            _ => true,
        }
    }

    fn cont(&mut self) -> Result<Reply, DebugFault> {
        let (last, _) = self.entry(4096).ok_or(DebugFault::NoFrame)?;
        let stop = (self.position.saturating_add(1)..last).find(|position| self.stands(*position));
        self.position = stop.unwrap_or(last);
        self.shown()
    }

    fn toggle(&mut self, at: u32) -> Result<Reply, DebugFault> {
        if at as usize >= self.words.len() {
            return Err(DebugFault::NoSuchInsn);
        }
        match self.breakpoints.get_mut(at as usize) {
            None => Err(DebugFault::NoSuchInsn),
            Some(set) => {
                *set = !*set;
                Ok(Reply::Breakpoint { at, set: *set })
            }
        }
    }

    fn tally(&self) -> Reply {
        let mut accepted = 0usize;
        let mut rejected = 0usize;
        for input in self.frames {
            match reference_entry(self.words, *input, 4096) {
                Some((_, Outcome::Done(answer))) if answer > 0 => {
                    accepted = accepted.saturating_add(1);
                }
                _ => rejected = rejected.saturating_add(1),
            }
        }
        Reply::Tally { accepted, rejected }
    }
}

/// A command, near the ends of what there is.
fn command(generator: &mut Generator) -> Command {
    let small = generator.below(14);
    let distance = i64::try_from(small).unwrap_or(0);
    match generator.below(16) {
        0 | 1 => Command::Select(u32::try_from(generator.below(4)).unwrap_or(0)),
        2..=5 => Command::Step(i64::try_from(generator.below(4)).unwrap_or(0)),
        6..=8 => Command::Step(0i64.saturating_sub(distance)),
        9 => Command::Step(distance),
        10 | 11 => Command::Cont,
        12 | 13 => Command::Breakpoint(u32::try_from(small).unwrap_or(0)),
        14 => Command::Tally,
        _ if small == 0 => Command::Step(i64::MIN),
        _ if small == 1 => Command::Step(i64::MAX),
        _ if small == 2 => Command::Disassemble,
        _ => Command::Quit,
    }
}

fn expected(
    alloc: Global,
    slow: &mut Slow<'_>,
    program: &Program,
    command: Command,
) -> Result<Result<Reply, DebugFault>, AllocError> {
    Ok(match command {
        Command::Select(frame) => slow.select(frame),
        Command::Step(by) => slow.step(by),
        Command::Cont => slow.cont(),
        Command::Breakpoint(at) => slow.toggle(at),
        Command::Disassemble => Ok(Reply::Listing(listing(alloc, program)?)),
        Command::Tally => Ok(slow.tally()),
        Command::Quit => Ok(Reply::Bye),
    })
}

/// Sixty commands of a session give what the slow session gives.
fn agrees(
    rt: &(impl Abort + AllocGlobal),
    generator: &mut Generator,
    words: &[Packed],
    program: &Program,
    copy: Program,
    bytes: &[u8; 60],
) -> Result<(), Fail> {
    let frames = [(60usize, 60u32), (15, 1514), (0, 0)];
    let inputs = frames.map(|(captured, whole)| Input {
        bytes: bytes.get(..captured).unwrap_or(&[]),
        whole,
    });
    let given = inputs.map(|input| (input.bytes, input.whole));
    let mut session = session(rt.alloc(), copy, &given)?;
    let mut slow = Slow {
        words,
        frames: &inputs,
        selected: None,
        position: 0,
        breakpoints: [false; 16],
    };
    let len = words.len();
    for number in 0..60 {
        let command = command(generator);
        let right = expected(rt.alloc(), &mut slow, program, command)?;
        assert!(rt;
            session.command(command) == right,
            "command {number} of a session over {len} instructions"
        );
    }
    Ok(())
}

#[test]
fn replies_are_those_of_runs_from_the_start(rt: HostRuntime) -> Result<(), Fail> {
    let mut generator = Generator {
        state: 0x9e37_79b9_7f4a_7c15,
    };
    let bytes = frame_bytes(&mut generator);
    let mut loaded = 0u32;
    for _ in 0..2500 {
        let words = program(rt.alloc(), &mut generator)?;
        let kept = Vec::from_slice(rt.alloc(), &words)?;
        let other = Vec::from_slice(rt.alloc(), &words)?;
        if let (Ok(first), Ok(second)) = (Program::load(words), Program::load(other)) {
            loaded = loaded.saturating_add(1);
            agrees(&rt, &mut generator, &kept, &first, second, &bytes)?;
        }
    }
    assert!(rt; loaded >= 800, "only {loaded} programs load");
    Ok(())
}

#[test]
fn each_step_is_undone(rt: HostRuntime) -> Result<(), Fail> {
    let mut generator = Generator {
        state: 0x5851_f42d_4c95_7f2d,
    };
    let bytes = frame_bytes(&mut generator);
    let mut undone = 0u32;
    for _ in 0..2000 {
        let words = program(rt.alloc(), &mut generator)?;
        if let Ok(program) = Program::load(words) {
            let mut state = State::start();
            for _ in 0..4096 {
                assert!(rt; state.place < program.len());
                let record = Undo::of(&program, &state);
                match step(&program, state, &FrameView::new(&bytes), 60) {
                    Outcome::Done(_) => break,
                    Outcome::On(next) => {
                        assert!(rt; undo(&record, next) == state);
                        undone = undone.saturating_add(1);
                        state = next;
                    }
                }
            }
        }
    }
    assert!(rt; undone >= 3000, "only {undone} steps");
    Ok(())
}
