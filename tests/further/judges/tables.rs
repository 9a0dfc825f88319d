//! The reader of the table: one fault each, several at once, the keys that may be absent, and the
//! order of the links.

use afdx_frame::VlId;
use std::alloc::{AllocError, Global};
use std::process::Abort;
use std::test::Fail;
use vl_config::{Config, ConfigFault, Link};

/// The lines of the worked examples' table.
const LINES: [&str; 10] = [
    "constant = 50331648",
    "[[link]]",
    "id = 5",
    "name = \"brake\"",
    "bag_ms = 1",
    "jitter_us = 0",
    "smax = 200",
    "integrity = true",
    "redundancy = true",
    "skew_us = 1000",
];

/// The lines of a second link after its name.
const SECOND_LINK: [&str; 5] = [
    "bag_ms = 128",
    "jitter_us = 100000",
    "smax = 1518",
    "integrity = false",
    "redundancy = false",
];

fn push_line(text: &mut String, line: &str) -> Result<(), AllocError> {
    text.push_str(line)?;
    text.push_str("\n")
}

/// The worked table with the line that begins with `key` replaced; of an empty key, with `line` at the top.
fn table_with(alloc: Global, key: &str, line: &str) -> Result<String, AllocError> {
    let mut text = String::new(alloc);
    if key.is_empty() {
        push_line(&mut text, line)?;
    }
    for given in &LINES {
        let is_replaced = !key.is_empty() && given.starts_with(key);
        push_line(&mut text, if is_replaced { line } else { *given })?;
    }
    Ok(text)
}

/// Appends a link with these lines of its identifier and its name, and this last line.
fn push_link(text: &mut String, given: &[&str; 3]) -> Result<(), AllocError> {
    push_line(text, "[[link]]")?;
    for line in &given[..2] {
        push_line(text, line)?;
    }
    for line in &SECOND_LINK {
        push_line(text, line)?;
    }
    push_line(text, given[2])
}

/// The fault of a text.
fn fault_of(alloc: Global, text: &str) -> Option<ConfigFault> {
    Config::read(alloc, text).err()
}

const NO_KEY: ConfigFault = ConfigFault::Missing { link: Some(0) };

const NO_RANGE: ConfigFault = ConfigFault::Range { link: Some(0) };

/// The line that stands in place of the line of a key, or at the top, and the fault.
const SINGLE_FAULTS: [(&str, &str, ConfigFault); 31] = [
    ("constant", "", ConfigFault::Missing { link: None }),
    ("id", "", NO_KEY),
    ("name", "", NO_KEY),
    ("bag_ms", "", NO_KEY),
    ("jitter_us", "", NO_KEY),
    ("smax", "", NO_KEY),
    ("integrity", "", NO_KEY),
    ("redundancy", "", NO_KEY),
    ("skew_us", "", NO_KEY),
    ("bag_ms", "bag_ms = 3", NO_RANGE),
    (
        "constant",
        "constant = 1",
        ConfigFault::Range { link: None },
    ),
    (
        "smax",
        "smax = \"200\"",
        ConfigFault::Kind { link: Some(0) },
    ),
    ("smax", "smax = 63", NO_RANGE),
    ("smax", "smax = 1519", NO_RANGE),
    ("id", "id = 65536", NO_RANGE),
    ("id", "id = -1", NO_RANGE),
    ("id", "id = 9223372036854775807", NO_RANGE),
    ("name", "name = \"\"", NO_RANGE),
    ("name", "name = \"a b\"", NO_RANGE),
    ("skew_us", "skew_us = 1000001", NO_RANGE),
    (
        "skew_us",
        "skew_us = 1\nskew = 1",
        ConfigFault::UnknownKey { link: Some(0) },
    ),
    ("skew_us", "skew_us = 1\ngroup = \"\"", NO_RANGE),
    ("skew_us", "skew_us = 1\ngroup = \"port 7\"", NO_RANGE),
    (
        "skew_us",
        "skew_us = 1\ngroup = 7",
        ConfigFault::Kind { link: Some(0) },
    ),
    ("", "late_us = 1000001", ConfigFault::Range { link: None }),
    ("", "late_us = 1.0", ConfigFault::Kind { link: None }),
    ("", "filters = [\"\", 1]", ConfigFault::Kind { link: None }),
    (
        "",
        "filters = [\"\", \"\", \"\", \"\", \"\", \"\", \"\", \"\"]",
        ConfigFault::TooMany,
    ),
    ("", "late = 5", ConfigFault::UnknownKey { link: None }),
    ("", "[", ConfigFault::Text),
    ("", "late_us = 9223372036854775808", ConfigFault::Text),
];

#[test]
fn one_fault_of_a_table_each(rt: HostRuntime) -> Result<(), Fail> {
    for (key, line, fault) in &SINGLE_FAULTS {
        let text = table_with(rt.alloc(), key, line)?;
        let found = fault_of(rt.alloc(), text.as_str());
        assert!(rt; found == Some(*fault), "{key}: {line}");
    }
    Ok(())
}

const FIVE: &str = "id = 5";

const NUMBERLESS: &str = "id = \"\"";

const BRAKE: &str = "name = \"brake\"";

const NAMELESS: &str = "name = \"\"";

const SKEW: &str = "skew_us = 0";

const MORE: &str = "skew = 0\nskew_us = 0";

/// A line at the top, the second link's identifier, name and last line, and the first fault.
const SEVERAL_FAULTS: [(&str, [&str; 3], ConfigFault); 11] = [
    (
        "",
        [FIVE, "name = \"flaps\"", SKEW],
        ConfigFault::TwiceId { link: Some(1) },
    ),
    (
        "",
        ["id = 6", BRAKE, SKEW],
        ConfigFault::TwiceName { link: Some(1) },
    ),
    (
        "",
        [FIVE, BRAKE, SKEW],
        ConfigFault::TwiceId { link: Some(1) },
    ),
    (
        "",
        [FIVE, BRAKE, ""],
        ConfigFault::Missing { link: Some(1) },
    ),
    (
        "",
        [NUMBERLESS, BRAKE, ""],
        ConfigFault::Missing { link: Some(1) },
    ),
    (
        "",
        [NUMBERLESS, NAMELESS, SKEW],
        ConfigFault::Kind { link: Some(1) },
    ),
    (
        "",
        [FIVE, NAMELESS, MORE],
        ConfigFault::Range { link: Some(1) },
    ),
    (
        "",
        [FIVE, BRAKE, MORE],
        ConfigFault::UnknownKey { link: Some(1) },
    ),
    (
        "late = 0",
        [NUMBERLESS, NAMELESS, ""],
        ConfigFault::UnknownKey { link: None },
    ),
    (
        "late_us = -1",
        [NUMBERLESS, NAMELESS, ""],
        ConfigFault::Range { link: None },
    ),
    (
        "late_us = true\nlate = 0",
        [NUMBERLESS, NAMELESS, ""],
        ConfigFault::Kind { link: None },
    ),
];

#[test]
fn the_first_of_several_faults(rt: HostRuntime) -> Result<(), Fail> {
    for (top, second, fault) in &SEVERAL_FAULTS {
        let mut text = table_with(rt.alloc(), "", top)?;
        push_link(&mut text, second)?;
        let found = fault_of(rt.alloc(), text.as_str());
        assert!(rt; found == Some(*fault), "{text}");
    }
    Ok(())
}

/// The identifier, the name, the gap, the jitter, the largest frame, what is on, and the skew of a link.
type Values = (u16, &'static str, u64, u64, u32, bool, bool, u64);

/// What the table below says of its links, by rising identifier.
const LINKS: [Values; 2] = [
    (
        4,
        "flaps",
        128_000_000,
        100_000_000,
        1518,
        false,
        false,
        1_000_000_000,
    ),
    (5, "brake", 1_000_000, 0, 200, true, true, 1_000_000),
];

fn has_values(rt: &impl Abort, link: &Link, values: &Values) {
    let (id, name, bag, jitter, smax, integrity, redundancy, skew) = *values;
    assert!(rt; link.id == VlId(id));
    assert!(rt; link.name.as_str() == name);
    assert!(rt; link.bag == bag && link.jitter == jitter && link.smax == smax);
    assert!(rt; link.integrity == integrity && link.redundancy == redundancy);
    assert!(rt; link.skew == skew);
}

fn has_links(rt: &impl Abort, config: &Config) {
    assert!(rt; config.links().len() == LINKS.len());
    for (link, values) in config.links().iter().zip(&LINKS) {
        has_values(rt, link, values);
    }
    match config.link(VlId(4)) {
        Some(link) => assert!(rt; link.smax == 1518),
        None => panic!(rt; "no link 4"),
    }
    assert!(rt; config.link(VlId(6)).is_none());
}

/// The second link's lines.
const FLAPS: [&str; 3] = ["id = 4", "name = \"flaps\"", "skew_us = 1000000"];

const FILTERS: [&str; 2] = ["1,6 0 0 8,", ""];

#[test]
fn a_table_as_it_reads(rt: HostRuntime) -> Result<(), Fail> {
    let top = "late_us = 1\nfilters = [\"1,6 0 0 8,\", \"\"]";
    let mut text = table_with(rt.alloc(), "", top)?;
    push_link(&mut text, &FLAPS)?;
    let config = Config::read(rt.alloc(), text.as_str())?;
    assert!(rt; config.constant() == 0x0300_0000);
    assert!(rt; config.late() == 1000);
    assert!(rt; config.filters().len() == FILTERS.len());
    for (filter, wanted) in config.filters().iter().zip(&FILTERS) {
        assert!(rt; filter.as_str() == *wanted);
    }
    has_links(&rt, &config);
    Ok(())
}

#[test]
fn a_table_without_the_keys_that_may_be_absent(rt: HostRuntime) -> Result<(), Fail> {
    let bare = Config::read(rt.alloc(), "constant = 50331648")?;
    assert!(rt; bare.late() == 0);
    assert!(rt; bare.links().is_empty());
    assert!(rt; bare.filters().is_empty());
    Ok(())
}
