//! The words of the command line.

use command_line::{CaptureArguments, CommandLine, DebugArguments, FilterArgument, Invocation, WatchArguments, read_arguments};
use std::alloc::{AllocError, Global};
use std::test::Fail;

/// The program's words, its own name first.
fn words(alloc: Global, texts: &[&str]) -> Result<Vec<String>, AllocError> {
    let mut words = Vec::new(alloc);
    for text in texts {
        words.push(String::from_str(alloc, text)?)?;
    }
    Ok(words)
}

/// Words, and what they give.
static COMMANDS: [(&[&str], Invocation<'static>); 3] = [
    (
        &[
            "afdxmon",
            "watch",
            "--config",
            "t",
            "--ledger",
            "l",
            "--b",
            "b",
            "--workers",
            "8",
        ],
        Invocation::Watch(WatchArguments {
            config: "t",
            filter: None,
            a: None,
            b: Some("b"),
            capture: None,
            ledger: "l",
            manifest: None,
            digest: false,
            workers: 8,
            quiet: false,
            strict: false,
            resumes: false,
            pcapng: false,
            late: None,
        }),
    ),
    (
        &["afdxmon", "debug", "--source", "s", "--tap", "t"],
        Invocation::Debug(DebugArguments {
            filter: FilterArgument::Source("s"),
            tap: "t",
            late: None,
        }),
    ),
    (&["afdxmon", "asm"], Invocation::Asm),
];

#[test]
fn commands_are_taken(rt: HostRuntime) -> Result<(), Fail> {
    for (texts, expected) in &COMMANDS {
        let words = words(rt.alloc(), texts)?;
        let expected = CommandLine {
            command: *expected,
            verbose: false,
        };
        assert!(rt; read_arguments(rt.alloc(), &words)? == expected);
    }
    Ok(())
}

/// All is told where `-v` or `--verbose` is given.
#[test]
fn verbose_is_taken(rt: HostRuntime) -> Result<(), Fail> {
    let expected = CommandLine {
        command: Invocation::Asm,
        verbose: true,
    };
    for word in ["-v", "--verbose"] {
        let words = words(rt.alloc(), &["afdxmon", "asm", word])?;
        assert!(rt; read_arguments(rt.alloc(), &words)? == expected);
    }
    Ok(())
}

/// The words of `capture`, and what they give: the filter, the recording and the output.
static CAPTURES: [(&[&str], FilterArgument<'static>, &str, &str); 10] = [
    (
        &["afdxmon", "capture", "--code", "1,6 0 0 0,"],
        FilterArgument::Code("1,6 0 0 0,"),
        "-",
        "-",
    ),
    (
        &["afdxmon", "capture", "--code=1,6 0 0 0,"],
        FilterArgument::Code("1,6 0 0 0,"),
        "-",
        "-",
    ),
    (
        &["afdxmon", "capture", "--code", ""],
        FilterArgument::Code(""),
        "-",
        "-",
    ),
    (
        &["afdxmon", "capture", "--code="],
        FilterArgument::Code(""),
        "-",
        "-",
    ),
    (
        &["afdxmon", "capture", "--code", "-"],
        FilterArgument::Code("-"),
        "-",
        "-",
    ),
    (
        &["afdxmon", "capture", "--code=-1"],
        FilterArgument::Code("-1"),
        "-",
        "-",
    ),
    (
        &["afdxmon", "capture", "--filter", "f"],
        FilterArgument::Numeric("f"),
        "-",
        "-",
    ),
    (
        &["afdxmon", "capture", "a", "--source", "s"],
        FilterArgument::Source("s"),
        "a",
        "-",
    ),
    (
        &["afdxmon", "capture", "-o", "o", "--filter", "f", "-"],
        FilterArgument::Numeric("f"),
        "-",
        "o",
    ),
    (
        &["afdxmon", "capture", "--output=o", "--filter", "f", "a"],
        FilterArgument::Numeric("f"),
        "a",
        "o",
    ),
];

#[test]
fn captures_are_taken(rt: HostRuntime) -> Result<(), Fail> {
    for (texts, filter, recording, output) in &CAPTURES {
        let words = words(rt.alloc(), texts)?;
        let expected = CaptureArguments {
            filter: *filter,
            recording,
            output,
            pcapng: false,
            late: None,
        };
        assert!(rt; read_arguments(rt.alloc(), &words)?.command == Invocation::Capture(expected));
    }
    Ok(())
}

/// Words that are no command with its arguments.
static REFUSED: [&[&str]; 25] = [
    &[],
    &["afdxmon"],
    &["afdxmon", "help"],
    &["afdxmon", "--help"],
    &["afdxmon", "-h"],
    &["afdxmon", "help", "capture"],
    &["afdxmon", "record"],
    &["afdxmon", "capture"],
    &["afdxmon", "capture", "--help"],
    &["afdxmon", "capture", "--code"],
    &["afdxmon", "capture", "--code", "-1"],
    &["afdxmon", "capture", "--code", "--code"],
    &["afdxmon", "capture", "--code", "0,", "--code", "0,"],
    &["afdxmon", "capture", "--code", "0,", "more", "words"],
    &["afdxmon", "capture", "--code", "0,", "--filter", "0,"],
    &["afdxmon", "capture", "--filter", "0,", "--source", "0,"],
    &["afdxmon", "capture", "more"],
    &["afdxmon", "debug", "--tap", "t"],
    &["afdxmon", "debug", "--tap", "t", "--code", "0,"],
    &[
        "afdxmon", "debug", "--tap", "t", "--filter", "f", "--source", "s",
    ],
    &["afdxmon", "watch", "--config", "t", "--ledger", "l"],
    &[
        "afdxmon",
        "watch",
        "--config",
        "t",
        "--ledger",
        "l",
        "--a",
        "a",
        "--capture",
        "c",
    ],
    &["afdxmon", "watch", "--config", "t", "--a", "a"],
    &["afdxmon", "asm", "source"],
    &["afdxmon", "asm", "--code", "0,"],
];

#[test]
fn other_words_are_refused(rt: HostRuntime) -> Result<(), Fail> {
    for texts in &REFUSED {
        let words = words(rt.alloc(), texts)?;
        assert!(rt; read_arguments(rt.alloc(), &words).is_err());
    }
    Ok(())
}
