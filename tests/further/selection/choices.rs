//! Worked examples.
use afdx_frame::{Network, Stamp, VlId};
use integrity::Integrity;
use ledger_text::{FrameLine, LinkSet, Moment, Selection, Word, WordFault, matches, read_mask, read_words};
use policing::Policing;
use redundancy::Redundancy;
use std::process::Abort;
use std::test::Fail;
use vl_config::Class;
use vl_judge::Verdict;

/// Every line is taken.
pub(crate) fn everything() -> Selection {
    Selection {
        links: None,
        network: None,
        words: None,
        from: None,
        to: None,
        filters: None,
    }
}

/// Three hours into the second day.
const NOW: u64 = 97_200_000_000_000;

/// A copy on link 301 at that moment, that filters 0 and 2 accept.
const COPY: FrameLine = FrameLine {
    stamp: Stamp(NOW),
    network: Network::B,
    number: 7,
    link: Some(VlId(301)),
    sequence: Some(9),
    verdict: Verdict {
        class: Class::Regular,
        policing: Some(Policing::Within),
        integrity: Some(Integrity::Next),
        redundancy: Some(Redundancy::Copy),
    },
    kept: Some(60),
    mask: 5,
};

/// A runt has no link, and no other word.
const RUNT: FrameLine = FrameLine {
    stamp: Stamp(NOW),
    network: Network::A,
    number: 8,
    link: None,
    sequence: None,
    verdict: Verdict {
        class: Class::Runt,
        policing: None,
        integrity: None,
        redundancy: None,
    },
    kept: None,
    mask: 0,
};

/// The first frame of the ledger: an hour into the second day.
const FIRST: Stamp = Stamp(90_000_000_000_000);

/// An hour, in nanoseconds.
const HOUR: u64 = 3_600_000_000_000;

fn is_taken(rt: &impl Abort, selection: &Selection, copy: bool, runt: bool) {
    assert!(rt; selection.takes(FIRST, &COPY) == copy, "the copy");
    assert!(rt; selection.takes(FIRST, &RUNT) == runt, "the runt");
}

/// The network, the moments from which and to which frames are taken, a mask of filters, and whether the copy
/// and the runt are taken.
type Part = (
    Option<Network>,
    Option<Moment>,
    Option<Moment>,
    Option<u8>,
    bool,
    bool,
);

const PARTS: [Part; 26] = [
    (None, None, None, None, true, true),
    (Some(Network::A), None, None, None, false, true),
    (Some(Network::B), None, None, None, true, false),
    (None, Some(Moment::At(Stamp(NOW))), None, None, true, true),
    (
        None,
        Some(Moment::At(Stamp(NOW - 1))),
        None,
        None,
        true,
        true,
    ),
    (
        None,
        Some(Moment::At(Stamp(NOW + 1))),
        None,
        None,
        false,
        false,
    ),
    (None, Some(Moment::OfDay(3 * HOUR)), None, None, true, true),
    (
        None,
        Some(Moment::OfDay(3 * HOUR + 1)),
        None,
        None,
        false,
        false,
    ),
    (None, Some(Moment::OfDay(0)), None, None, true, true),
    (
        None,
        Some(Moment::OfDay(u64::MAX)),
        None,
        None,
        false,
        false,
    ),
    (None, Some(Moment::Near(3 * HOUR)), None, None, true, true),
    (
        None,
        Some(Moment::Near(3 * HOUR + 1)),
        None,
        None,
        false,
        false,
    ),
    (None, Some(Moment::Near(15 * HOUR)), None, None, true, true),
    (None, None, Some(Moment::At(Stamp(NOW))), None, true, true),
    (
        None,
        None,
        Some(Moment::At(Stamp(NOW - 1))),
        None,
        false,
        false,
    ),
    (
        None,
        None,
        Some(Moment::At(Stamp(NOW + 1))),
        None,
        true,
        true,
    ),
    (None, None, Some(Moment::OfDay(3 * HOUR)), None, true, true),
    (
        None,
        None,
        Some(Moment::OfDay(3 * HOUR - 1)),
        None,
        false,
        false,
    ),
    (None, None, Some(Moment::OfDay(u64::MAX)), None, true, true),
    (None, None, None, Some(1), true, false),
    (None, None, None, Some(2), false, false),
    (None, None, None, Some(4), true, false),
    (None, None, None, Some(5), true, false),
    (None, None, None, Some(7), true, false),
    (None, None, None, Some(250), false, false),
    (None, None, None, Some(255), true, false),
];

#[test]
fn parts(rt: HostRuntime) {
    for (network, from, to, filters, copy, runt) in &PARTS {
        let selection = Selection {
            links: None,
            network: *network,
            words: None,
            from: *from,
            to: *to,
            filters: *filters,
        };
        is_taken(&rt, &selection, *copy, *runt);
    }
}

/// Half an hour, in nanoseconds.
const HALF: u64 = HOUR / 2;

fn next(of_day: u64, after: u64, before: u64) -> Moment {
    Moment::Next {
        of_day,
        after,
        before,
    }
}

#[test]
fn moments_after_the_first_frame(rt: HostRuntime) {
    // A moment, and whether lines two hours after the first frame are no earlier, and no later.
    let rows: [(Moment, bool, bool); 13] = [
        (Moment::Since(0), true, false),
        (Moment::Since(2 * HOUR - 1), true, false),
        (Moment::Since(2 * HOUR), true, true),
        (Moment::Since(2 * HOUR + 1), false, true),
        (Moment::Since(u64::MAX), false, true),
        (next(3 * HOUR, 0, 0), true, true),
        (next(3 * HOUR - 1, 0, 0), true, false),
        (next(3 * HOUR + 1, 0, 0), false, true),
        (next(HOUR, 0, 0), true, false),
        (next(HOUR - 1, 0, 0), false, true),
        (next(3 * HOUR, 2 * HOUR + 1, 0), false, true),
        (next(HALF, 0, 43 * HALF), true, true),
        (next(HALF, 0, u64::MAX), true, false),
    ];
    for (moment, since, until) in &rows {
        let from = Selection {
            from: Some(*moment),
            ..everything()
        };
        is_taken(&rt, &from, *since, *since);
        let to = Selection {
            to: Some(*moment),
            ..everything()
        };
        is_taken(&rt, &to, *until, *until);
    }
}

/// Ranges of links, and whether the copy, of link 301, is taken.
const RANGES: [(u16, u16, bool); 7] = [
    (301, 301, true),
    (300, 302, true),
    (0, 300, false),
    (0, 301, true),
    (302, 65535, false),
    (301, 65535, true),
    (302, 300, false),
];

/// Identifiers, and whether they are in the set of the first and the last one.
const ENDS: [(u16, bool); 4] = [(0, true), (1, false), (65534, false), (65535, true)];

#[test]
fn links(rt: HostRuntime) -> Result<(), Fail> {
    for (first, last, taken) in &RANGES {
        let mut set = LinkSet::new(rt.alloc())?;
        set.insert_range(VlId(*first), VlId(*last));
        let selection = Selection {
            links: Some(set),
            ..everything()
        };
        is_taken(&rt, &selection, *taken, false);
    }
    let mut set = LinkSet::new(rt.alloc())?;
    set.insert_range(VlId(0), VlId(0));
    set.insert_range(VlId(65535), VlId(65535));
    for (id, held) in &ENDS {
        assert!(rt; set.contains(VlId(*id)) == *held, "{id}");
    }
    Ok(())
}

/// Words, and whether the copy and the runt are taken.
const WORDS: [(&str, bool, bool); 12] = [
    ("faults", false, true),
    ("faults,copy", true, true),
    ("copy", true, false),
    ("next", true, false),
    ("within", true, false),
    ("regular", true, false),
    ("runt", false, true),
    ("deliver,out", false, false),
    ("deliver,next", true, false),
    ("cut,runt,copy", true, true),
    ("discarded", true, true),
    ("delivered", false, false),
];

#[test]
fn words(rt: HostRuntime) -> Result<(), Fail> {
    for (text, copy, runt) in &WORDS {
        let named = read_words(rt.alloc(), text)?;
        is_taken(
            &rt,
            &Selection {
                words: Some(named),
                ..everything()
            },
            *copy,
            *runt,
        );
    }
    is_taken(
        &rt,
        &Selection {
            words: Some(Vec::new(rt.alloc())),
            ..everything()
        },
        false,
        false,
    );
    Ok(())
}

/// What `discarded` stands for.
const DISCARDED: [Word; 9] = [
    Word::Class(Class::Cut),
    Word::Class(Class::Runt),
    Word::Class(Class::Oversize),
    Word::Class(Class::Foreign),
    Word::Class(Class::Unconfigured),
    Word::Class(Class::TooLong),
    Word::Policing(Policing::Excess),
    Word::Integrity(Integrity::Out),
    Word::Redundancy(Redundancy::Copy),
];

/// Each word, and what it names.
const NAMED: [(&str, &[Word]); 20] = [
    ("cut", &[Word::Class(Class::Cut)]),
    ("runt", &[Word::Class(Class::Runt)]),
    ("oversize", &[Word::Class(Class::Oversize)]),
    ("foreign", &[Word::Class(Class::Foreign)]),
    ("unconfigured", &[Word::Class(Class::Unconfigured)]),
    ("toolong", &[Word::Class(Class::TooLong)]),
    ("regular", &[Word::Class(Class::Regular)]),
    ("within", &[Word::Policing(Policing::Within)]),
    ("excess", &[Word::Policing(Policing::Excess)]),
    ("first", &[Word::Integrity(Integrity::First)]),
    ("reset", &[Word::Integrity(Integrity::Reset)]),
    ("next", &[Word::Integrity(Integrity::Next)]),
    ("skip", &[Word::Integrity(Integrity::Skip)]),
    ("off", &[Word::Integrity(Integrity::Off)]),
    ("out", &[Word::Integrity(Integrity::Out)]),
    ("deliver", &[Word::Redundancy(Redundancy::Deliver)]),
    ("copy", &[Word::Redundancy(Redundancy::Copy)]),
    ("both", &[Word::Redundancy(Redundancy::Both)]),
    ("discarded", &DISCARDED),
    (
        "delivered",
        &[
            Word::Redundancy(Redundancy::Deliver),
            Word::Redundancy(Redundancy::Both),
        ],
    ),
];

#[test]
fn words_from_text(rt: HostRuntime) -> Result<(), Fail> {
    for (text, words) in &NAMED {
        let named = read_words(rt.alloc(), text)?;
        assert!(rt; named.as_slice() == *words, "{text}");
    }
    Ok(())
}

/// Words that aren't read, and the place of the first wrong one.
const WRONG_WORDS: [(&str, usize); 8] = [
    ("", 0),
    ("-", 0),
    ("Cut", 0),
    ("cut ", 0),
    (",cut", 0),
    ("cut,", 1),
    ("cut,,runt", 1),
    ("cut,runt,nothing,off,?", 2),
];

#[test]
fn wrong_words(rt: HostRuntime) {
    for (text, index) in &WRONG_WORDS {
        let fault = read_words(rt.alloc(), text).err();
        assert!(rt; fault == Some(WordFault::Item(*index)), "{text}");
    }
}

/// Texts, and the masks that they are.
const MASKS: [(&str, Option<u8>); 22] = [
    ("1", Some(1)),
    ("9", Some(9)),
    ("01", Some(1)),
    ("a", Some(10)),
    ("F", Some(15)),
    ("fF", Some(255)),
    ("80", Some(128)),
    ("", None),
    ("0", None),
    ("00", None),
    ("g", None),
    ("1g", None),
    ("+1", None),
    (" 1", None),
    ("001", None),
    ("100", None),
    ("/", None),
    (":", None),
    ("@", None),
    ("G", None),
    ("`", None),
    ("0x1", None),
];

#[test]
fn masks(rt: HostRuntime) {
    for (text, mask) in &MASKS {
        assert!(rt; read_mask(text) == *mask, "{text}");
    }
}

/// Patterns, names, and whether the name is one of the pattern's.
const PATTERNS: [(&[u8], &[u8], bool); 15] = [
    (b"engine_1", b"engine_1", true),
    (b"engine_1", b"engine_2", false),
    (b"engine_*", b"engine_1", true),
    (b"engine_1*", b"engine_1", true),
    (b"*", b"", true),
    (b"", b"", true),
    (b"", b"a", false),
    (b"*_*", b"engine_1", true),
    (b"*a*b*", b"aab", true),
    (b"*b*a", b"aab", false),
    (b"a*ba", b"ababa", true),
    (b"**", b"aab", true),
    (b"*b", b"aaaaaaaaaaaaaaaaaaaaaaaaaaaaaaab", true),
    (b"engine", b"engine_1", false),
    (b"engine_1", b"engine", false),
];

#[test]
fn patterns(rt: HostRuntime) {
    for (index, (pattern, name, matched)) in PATTERNS.iter().enumerate() {
        assert!(rt; matches(pattern, name) == *matched, "{index}");
    }
}
