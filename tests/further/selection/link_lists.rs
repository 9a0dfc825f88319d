//! Sets of links from text.
use afdx_frame::VlId;
use ledger_text::{ItemFault, LinkSet, LinkSetFault};
use std::process::Abort;
use std::test::Fail;
use vl_config::Config;

/// Links 300 `Rudder-left`, 301 `Rudder-right` and 65535 `Slat`.
const TABLE: &str = r#"
constant = 50331648

[[link]]
id = 300
name = "Rudder-left"
bag_ms = 1
jitter_us = 0
smax = 200
integrity = true
redundancy = true
skew_us = 1000

[[link]]
id = 301
name = "Rudder-right"
bag_ms = 1
jitter_us = 0
smax = 200
integrity = true
redundancy = true
skew_us = 1000

[[link]]
id = 65535
name = "Slat"
bag_ms = 1
jitter_us = 0
smax = 200
integrity = true
redundancy = true
skew_us = 1000
"#;

/// Whether there is a table, a list, and of some identifiers whether they are in its set.
type List = (bool, &'static str, &'static [(u16, bool)]);

const LISTS: [List; 12] = [
    (false, "0", &[(0, true), (1, false), (65535, false)]),
    (false, "65535", &[(65534, false), (65535, true), (0, false)]),
    (
        false,
        "007,12",
        &[(7, true), (12, true), (0, false), (8, false)],
    ),
    (
        false,
        "3-5",
        &[(2, false), (3, true), (4, true), (5, true), (6, false)],
    ),
    (false, "5-5", &[(4, false), (5, true), (6, false)]),
    (false, "0-65535", &[(0, true), (32768, true), (65535, true)]),
    (
        false,
        "3-7,5-9,20",
        &[(2, false), (3, true), (9, true), (10, false), (20, true)],
    ),
    (true, "Slat", &[(300, false), (301, false), (65535, true)]),
    (true, "Rudder*", &[(300, true), (301, true), (65535, false)]),
    (
        true,
        "*",
        &[(300, true), (301, true), (65535, true), (0, false)],
    ),
    (true, "*t", &[(300, true), (301, true), (65535, true)]),
    (
        true,
        "*-right,Sl*t,299",
        &[(299, true), (300, false), (301, true), (65535, true)],
    ),
];

/// Reads the list, and says of each identifier whether it is in the set.
fn holds(rt: &(impl Abort + AllocGlobal), table: Option<&Config>, text: &str, ids: &[(u16, bool)]) {
    match LinkSet::read(rt.alloc(), text, table) {
        Ok(set) => {
            for (id, held) in ids {
                assert!(rt; set.contains(VlId(*id)) == *held, "{id} in {text}");
            }
        }
        Err(_) => panic!(rt; "{text} isn't read"),
    }
}

#[test]
fn lists(rt: HostRuntime) -> Result<(), Fail> {
    let table = Config::read(rt.alloc(), TABLE)?;
    for (with_table, text, ids) in &LISTS {
        holds(
            &rt,
            if *with_table { Some(&table) } else { None },
            text,
            ids,
        );
    }
    Ok(())
}

/// Whether there is a table, a list that isn't read, and the place and the fault of the first wrong item.
const WRONG_ITEMS: [(bool, &str, usize, ItemFault); 21] = [
    (false, "", 0, ItemFault::Empty),
    (false, "1,,2", 1, ItemFault::Empty),
    (false, "1,2,", 2, ItemFault::Empty),
    (false, "65536", 0, ItemFault::Number),
    (false, "0-65536", 0, ItemFault::Number),
    (false, "5-", 0, ItemFault::Number),
    (false, "5-6-7", 0, ItemFault::Number),
    (false, "5-+6", 0, ItemFault::Number),
    (false, "4,5x", 1, ItemFault::Number),
    (false, "5-3", 0, ItemFault::Order),
    (false, "1-2,65535-0", 1, ItemFault::Order),
    (false, "5-3,65536", 0, ItemFault::Order),
    (false, "7,+5", 1, ItemFault::NeedsTable),
    (false, "-5", 0, ItemFault::NeedsTable),
    (false, "Slat", 0, ItemFault::NeedsTable),
    (true, "slat", 0, ItemFault::NoSuchLink),
    (true, "Slat*x", 0, ItemFault::NoSuchLink),
    (true, "Rudder", 0, ItemFault::NoSuchLink),
    (true, "*Right", 0, ItemFault::NoSuchLink),
    (true, "-5", 0, ItemFault::NoSuchLink),
    (true, "+5", 0, ItemFault::NoSuchLink),
];

#[test]
fn wrong_items(rt: HostRuntime) -> Result<(), Fail> {
    let table = Config::read(rt.alloc(), TABLE)?;
    for (with_table, text, index, fault) in &WRONG_ITEMS {
        let table = if *with_table { Some(&table) } else { None };
        let found = LinkSet::read(rt.alloc(), text, table).err();
        assert!(rt; found == Some(LinkSetFault::Item(*index, *fault)), "{text}");
    }
    Ok(())
}
