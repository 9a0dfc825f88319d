//! Lines that are commands, and lines that are none.

use bpf_debugger::{Command, DebugFault, bad_command_line, read_command};

static COMMANDS: [(&str, Command); 22] = [
    ("select 0", Command::Select(0)),
    ("select 4294967295", Command::Select(u32::MAX)),
    ("select 0000000000000000000000000000007", Command::Select(7)),
    ("  select   3  ", Command::Select(3)),
    ("step 1", Command::Step(1)),
    ("step +1", Command::Step(1)),
    ("step -1", Command::Step(-1)),
    ("step 0", Command::Step(0)),
    ("step -0", Command::Step(0)),
    ("step +0", Command::Step(0)),
    ("step 4294967295", Command::Step(4294967295)),
    ("step +4294967295", Command::Step(4294967295)),
    ("step -4294967295", Command::Step(-4294967295)),
    ("step -007", Command::Step(-7)),
    ("breakpoint 4095", Command::Breakpoint(4095)),
    ("breakpoint 00", Command::Breakpoint(0)),
    ("cont", Command::Cont),
    (" cont ", Command::Cont),
    ("disassemble", Command::Disassemble),
    ("tally", Command::Tally),
    ("quit", Command::Quit),
    ("quit   ", Command::Quit),
];

static NO_COMMANDS: [&str; 42] = [
    "",
    " ",
    "     ",
    "\r",
    "\t",
    "quit\r",
    "\tquit",
    "quit\t",
    "select\t0",
    "select",
    "select 0 0",
    "select -1",
    "select +1",
    "select 4294967296",
    "select 18446744073709551616",
    "select 0x1",
    "select 1a",
    "select one",
    "Select 0",
    "SELECT 0",
    "select0",
    "step",
    "step + 1",
    "step - 1",
    "step ++1",
    "step +-1",
    "step +",
    "step -",
    "step 4294967296",
    "step -4294967296",
    "step 1 2",
    "breakpoint",
    "breakpoint -1",
    "breakpoint +2",
    "cont 1",
    "quit quit",
    "tally 0",
    "con",
    "contt",
    "select 1\u{e9}",
    "s\u{e9}lect 1",
    "select \u{661}",
];

#[test]
fn commands(rt: HostRuntime) {
    for (line, command) in &COMMANDS {
        assert!(rt; read_command(line) == Some(*command), "{line}");
    }
}

#[test]
fn other_lines(rt: HostRuntime) {
    for line in &NO_COMMANDS {
        assert!(rt; read_command(line).is_none(), "{line}");
    }
}

#[test]
fn faults(rt: HostRuntime) {
    for (line, text) in [
        (bad_command_line(), "fault 0 BadCommand\n"),
        (DebugFault::NoFrame.line(), "fault 1 NoFrame\n"),
        (DebugFault::NoSuchFrame.line(), "fault 2 NoSuchFrame\n"),
        (DebugFault::NoSuchInsn.line(), "fault 3 NoSuchInsn\n"),
        (DebugFault::Memory.line(), "fault 4 Memory\n"),
    ] {
        assert!(rt; line == text);
    }
}
