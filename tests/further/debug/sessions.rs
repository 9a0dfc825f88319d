//! The command `debug` over devices: what it prints, its status and the line of its fault.

use crate::ending::ends;
use crate::support::{FIRST_RUN, SOUND};
use pcap_io::{MemSink, MemSource, Script};
use specified::{Ran, debug_over};
use std::alloc::{AllocError, Global};
use std::process::Abort;
use std::test::Fail;

mod stops;

/// `ld #7`, `st M[3]`, `ldx M[3]`, `txa`, `ret a`
const STORING: &str = "5,0 0 0 7,2 0 0 3,97 0 0 3,135 0 0 0,22 0 0 0,";

/// The debugger's walk.
const WALK: &[u8] =
    b"step +1\nselect 0\nstep +3\nstep -2\nstep +2\nstep -9\nbreakpoint 2\ncont\ncont\n\
    tally\nselect 1\nbreakpoint 5\nquit\n";

pub(crate) const PRINTED: &str = "\
frames 1
fault 1 NoFrame
at 0 pc 0 A 0 X 0 M 0 0 0 0 0 0 0 0 0 0 0 0 0 0 0 0
at 3 pc 3 A 7 X 7 M 0 0 0 7 0 0 0 0 0 0 0 0 0 0 0 0
at 1 pc 1 A 7 X 0 M 0 0 0 0 0 0 0 0 0 0 0 0 0 0 0 0
at 3 pc 3 A 7 X 7 M 0 0 0 7 0 0 0 0 0 0 0 0 0 0 0 0
at 0 pc 0 A 0 X 0 M 0 0 0 0 0 0 0 0 0 0 0 0 0 0 0 0
breakpoint 2 set
at 2 pc 2 A 7 X 0 M 0 0 0 7 0 0 0 0 0 0 0 0 0 0 0 0
at 5 done 7
tally accepted 1 rejected 0
fault 2 NoSuchFrame
fault 3 NoSuchInsn
bye
";

/// The length of a recording of the first frame alone.
pub(crate) const ONE_FRAME: usize = 100;

/// A sink with room for all.
const WIDE: Script = Script {
    most: 4096,
    ..SOUND
};

/// What the command is given.
#[derive(Clone, Copy)]
pub(crate) struct Given<'a> {
    pub(crate) filter: &'a str,
    pub(crate) tap: &'a [u8],
    pub(crate) commands: &'a [u8],
    pub(crate) tap_script: Script,
    pub(crate) commands_script: Script,
    pub(crate) sink_script: Script,
}

/// The debugger's walk, over devices that never fail.
pub(crate) fn walk() -> Given<'static> {
    Given {
        filter: STORING,
        tap: &FIRST_RUN[..ONE_FRAME],
        commands: WALK,
        tap_script: SOUND,
        commands_script: SOUND,
        sink_script: WIDE,
    }
}

fn ran(alloc: Global, given: &Given<'_>) -> Result<Ran<MemSink>, AllocError> {
    let tap = MemSource::new(Vec::from_slice(alloc, given.tap)?, given.tap_script);
    let commands = Vec::from_slice(alloc, given.commands)?;
    let commands = MemSource::new(commands, given.commands_script);
    let sink = MemSink::new(alloc, given.sink_script)?;
    Ok(debug_over(alloc, given.filter, tap, commands, sink))
}

/// The command ends with this line, or none where it is empty, and has printed this.
pub(crate) fn ends_with(
    rt: &(impl Abort + AllocGlobal),
    given: &Given<'_>,
    line: &str,
    printed: &[u8],
) -> Result<(), AllocError> {
    ends(rt, &ran(rt.alloc(), given)?, line, printed);
    Ok(())
}

#[test]
fn the_walk(rt: HostRuntime) -> Result<(), Fail> {
    for piece in [usize::MAX, 7, 1] {
        let given = Given {
            tap_script: Script { piece, ..SOUND },
            commands_script: Script { piece, ..SOUND },
            sink_script: Script { piece, ..WIDE },
            ..walk()
        };
        ends_with(&rt, &given, "", PRINTED.as_bytes())?;
    }
    Ok(())
}

/// Lines of commands, and what is printed.
static LINES: [(&str, &str); 18] = [
    ("", "frames 1\n"),
    ("\n", "frames 1\n"),
    (" \n\n    ", "frames 1\n"),
    ("quit", "frames 1\nbye\n"),
    ("quit\ntally\n", "frames 1\nbye\n"),
    ("\n  quit  \nquit\n", "frames 1\nbye\n"),
    ("tally\n", "frames 1\ntally accepted 1 rejected 0\n"),
    ("tally", "frames 1\ntally accepted 1 rejected 0\n"),
    ("breakpoint  04\n", "frames 1\nbreakpoint 4 set\n"),
    // Only a newline ends a line, and only a space ends a word.
    ("quit\r\nquit\n", "frames 1\nfault 0 BadCommand\nbye\n"),
    ("\r\n", "frames 1\nfault 0 BadCommand\n"),
    ("\t\n", "frames 1\nfault 0 BadCommand\n"),
    ("\tquit\n", "frames 1\nfault 0 BadCommand\n"),
    ("select\t0\n", "frames 1\nfault 0 BadCommand\n"),
    ("select\n", "frames 1\nfault 0 BadCommand\n"),
    ("Quit\n", "frames 1\nfault 0 BadCommand\n"),
    ("sélect 0\n", "frames 1\nfault 0 BadCommand\n"),
    ("select 4294967296\n", "frames 1\nfault 0 BadCommand\n"),
];

#[test]
fn lines(rt: HostRuntime) -> Result<(), Fail> {
    for (commands, printed) in &LINES {
        let given = Given {
            commands: commands.as_bytes(),
            ..walk()
        };
        ends_with(&rt, &given, "", printed.as_bytes())?;
    }
    Ok(())
}

/// The filter, the tap and the commands, of which the tap's and the commands' devices may fail after 30
/// bytes, and the line of the fault. There is no room for what is printed, so each has a later fault too.
type Faulty = (
    &'static str,
    &'static [u8],
    &'static [u8],
    (bool, bool),
    &'static str,
);

static FAULTS: [Faulty; 6] = [
    (
        "",
        b"",
        WALK,
        (false, false),
        "afdxmon: numeric 3 Form at 0",
    ),
    ("0,", b"", WALK, (false, false), "afdxmon: load 1 Length"),
    (
        STORING,
        b"",
        WALK,
        (false, true),
        "afdxmon: watch 2 Header A 1 Short",
    ),
    (
        STORING,
        &FIRST_RUN,
        b"\xff",
        (true, false),
        "afdxmon: watch 3 Read A",
    ),
    (STORING, &FIRST_RUN, WALK, (false, true), "afdxmon: file -"),
    (
        STORING,
        &FIRST_RUN,
        b"tally\n\xff",
        (false, false),
        "afdxmon: file -",
    ),
];

#[test]
fn the_first_fault(rt: HostRuntime) -> Result<(), Fail> {
    let fails = Script { most: 30, ..SOUND };
    let no_room = Script { most: 0, ..SOUND };
    for (filter, tap, commands, (tap_fails, commands_fail), line) in &FAULTS {
        let given = Given {
            filter,
            tap,
            commands,
            tap_script: if *tap_fails { fails } else { SOUND },
            commands_script: if *commands_fail { fails } else { SOUND },
            sink_script: no_room,
        };
        ends_with(&rt, &given, line, b"")?;
    }
    Ok(())
}

#[test]
fn a_sink_that_fails(rt: HostRuntime) -> Result<(), Fail> {
    let given = Given {
        sink_script: Script { most: 20, ..SOUND },
        ..walk()
    };
    ends_with(&rt, &given, "afdxmon: file -", b"frames 1\nfault 1 NoF")?;
    Ok(())
}
