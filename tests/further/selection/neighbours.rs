//! Which lines are taken beside selected ones.
//!
//! A ledger is written as a letter a line: its link, or a dash for none. A selected line has a capital
//! letter, or a plus. What is taken is written beside it, a mark a line.
use crate::selection::choices::everything;
use afdx_frame::{Network, Stamp, VlId};
use ledger_text::{Chooser, FrameLine, Neighbours, Selection};
use std::process::Abort;
use std::test::Fail;
use vl_config::Class;
use vl_judge::Verdict;

/// Filter 0 accepts the frame.
fn by_filter() -> Selection {
    Selection {
        filters: Some(1),
        ..everything()
    }
}

/// The line of a letter. Networks take turns.
fn line_of(index: usize, letter: u8) -> FrameLine {
    let link = match letter {
        b'a' | b'A' => Some(VlId(0)),
        b'b' | b'B' => Some(VlId(301)),
        b'c' | b'C' => Some(VlId(65535)),
        _ => None,
    };
    let selected = letter == b'+' || letter.is_ascii_uppercase();
    FrameLine {
        stamp: Stamp(index as u64),
        network: if index % 2 == 0 {
            Network::A
        } else {
            Network::B
        },
        number: 0,
        link,
        sequence: None,
        verdict: Verdict {
            class: Class::Foreign,
            policing: None,
            integrity: None,
            redundancy: None,
        },
        kept: None,
        mask: if selected { 1 } else { 0 },
    }
}

/// How many lines are taken on each side of a selected one, the lines, and which are taken. Between two
/// selected lines twice as many lie as are taken on a side, or one more; links take turns; some have no link.
const CASES: [(u32, &str, &str); 17] = [
    (1, "aaaAaaa", "..###.."),
    (1, "AaaaA", "##.##"),
    (2, "Aaaa", "###."),
    (9, "abaAbab", "#.##.#."),
    (u32::MAX, "baaaAb", ".####."),
    (2, "aaaAAaaa", ".######."),
    (2, "aaaAaAaaa", ".#######."),
    (1, "aAaaAa", "######"),
    (1, "aAaaaAa", "###.###"),
    (2, "AaaaaA", "######"),
    (2, "AaaaaaA", "###.###"),
    (1, "abAbBaab", "#.####.#"),
    (1, "cabCacbcaA", "#..#.#..##"),
    (1, "-A+-a+", ".##.##"),
    (3, "---", "..."),
    (0, "aAaAAa-+", ".#.##..#"),
    (1, "", ""),
];

/// Says of each line whether it is taken, and compares it with the marks.
fn takes(
    rt: &(impl Abort + AllocGlobal),
    around: u32,
    text: &[u8],
    marks: &[u8],
) -> Result<(), Fail> {
    assert!(rt; text.len() == marks.len());
    let selection = by_filter();
    let mut chooser = Chooser::new(None);
    let mut neighbours = Neighbours::new(rt.alloc(), around)?;
    for (index, letter) in text.iter().enumerate() {
        let line = line_of(index, *letter);
        neighbours.note(&line, chooser.takes(&selection, &line))?;
    }
    let mut chooser = Chooser::new(Some(neighbours));
    for (index, (letter, mark)) in text.iter().zip(marks).enumerate() {
        let taken = chooser.takes(&selection, &line_of(index, *letter));
        assert!(rt; taken == (*mark == b'#'), "line {index}");
    }
    Ok(())
}

#[test]
fn lines_beside_selected_ones(rt: HostRuntime) -> Result<(), Fail> {
    for (around, text, marks) in &CASES {
        takes(&rt, *around, text.as_bytes(), marks.as_bytes())?;
    }
    Ok(())
}

/// Letters of another ledger, and whether they are taken.
const LATER: [(u8, bool); 5] = [
    (b'a', true),
    (b'b', false),
    (b'a', true),
    (b'A', false),
    (b'+', true),
];

/// What came later than the first ledger's lines is near none of them.
#[test]
fn another_ledger(rt: HostRuntime) -> Result<(), Fail> {
    let selection = by_filter();
    let mut neighbours = Neighbours::new(rt.alloc(), 1)?;
    neighbours.note(&line_of(0, b'A'), true)?;
    let mut chooser = Chooser::new(Some(neighbours));
    for (letter, taken) in &LATER {
        assert!(rt; chooser.takes(&selection, &line_of(0, *letter)) == *taken);
    }
    Ok(())
}
