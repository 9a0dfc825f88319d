//! A table with every key, cut at every byte and with every byte changed to every other value: the fault is
//! that of a slow reader, and a table that reads has the values of the TOML document.

use crate::judges::reference::slow_fault;
use std::alloc::{AllocError, Global};
use std::process::Abort;
use std::test::Fail;
use toml::{Table, Value};
use vl_config::{Config, ConfigFault, Link};

/// The worked table with the keys of the network that may be absent, and integrity checking off.
const WHOLE: &str =
    "late_us = 7\nfilters = [\"1,6 0 0 8,\", \"\"]\nconstant = 50331648\n[[link]]\nid = 5\n\
     name = \"brake_1\"\nbag_ms = 1\njitter_us = 0\nsmax = 200\nintegrity = false\nredundancy = true\n\
     skew_us = 1000\n";

/// The text's fault is that of the slow reader, and otherwise its values are the document's.
fn agrees(rt: &(impl Abort + AllocGlobal), text: &str) {
    let alloc = rt.alloc();
    let read = Config::read(alloc, text);
    let Ok(table) = toml::table_from_str(alloc, text) else {
        assert!(rt; matches!(read, Err(ConfigFault::Text)), "{text}");
        return;
    };
    match read {
        Ok(config) => {
            assert!(rt; slow_fault(&table).is_none(), "{text}");
            assert!(rt; is_top(&config, &table), "{text}");
            assert!(rt;
                config.links().len() == array_at(&table, "link").len(),
                "{text}"
            );
            for link in config.links() {
                assert!(rt; is_in(link, &table), "{text}");
            }
        }
        Err(fault) => assert!(rt; Some(fault) == slow_fault(&table), "{text}"),
    }
}

fn array_at<'a>(table: &'a Table, key: &str) -> &'a [Value] {
    match table.get(key) {
        Some(value) => match value.as_array() {
            Some(values) => values.as_slice(),
            None => &[],
        },
        None => &[],
    }
}

/// The constant field, the window and the filters are the document's.
fn is_top(config: &Config, table: &Table) -> bool {
    let filters = array_at(table, "filters");
    integer_at(table, "constant") == Some(i64::from(config.constant()))
        && integer_at(table, "late_us").unwrap_or(0) == (config.late() / 1000) as i64
        && config.filters().len() == filters.len()
        && config
            .filters()
            .iter()
            .zip(filters)
            .all(|(text, value)| value.as_str() == Some(text.as_str()))
}

fn integer_at(table: &Table, key: &str) -> Option<i64> {
    table.get(key)?.as_integer()
}

/// One of the document's links has these values.
fn is_in(link: &Link, table: &Table) -> bool {
    array_at(table, "link").iter().any(|value| value
        .as_table()
        .is_some_and(|table| is_link(link, table)))
}

fn is_link(link: &Link, table: &Table) -> bool {
    let number = |key: &str| integer_at(table, key).unwrap_or(-1);
    let switch = |key: &str| match table.get(key) {
        Some(value) => value.as_bool(),
        None => None,
    };
    let name = match table.get("name") {
        Some(value) => value.as_str(),
        None => None,
    };
    number("id") == i64::from(link.id.0)
        && name == Some(link.name.as_str())
        && number("bag_ms") == (link.bag / 1_000_000) as i64
        && number("jitter_us") == (link.jitter / 1000) as i64
        && number("smax") == i64::from(link.smax)
        && switch("integrity") == Some(link.integrity)
        && switch("redundancy") == Some(link.redundancy)
        && number("skew_us") == (link.skew / 1000) as i64
}

/// The text's bytes with the byte at an index replaced.
fn with_byte(alloc: Global, index: usize, byte: u8) -> Result<Vec<u8>, AllocError> {
    let mut bytes = Vec::from_slice(alloc, WHOLE.as_bytes())?;
    if index < bytes.len() {
        bytes[index] = byte;
    }
    Ok(bytes)
}

#[test]
fn every_prefix(rt: HostRuntime) -> Result<(), Fail> {
    for len in 0..=WHOLE.len() {
        if let Ok(text) = std::str::from_utf8(&WHOLE.as_bytes()[..len]) {
            agrees(&rt, text);
        }
    }
    Ok(())
}

#[test]
fn every_changed_byte(rt: HostRuntime) -> Result<(), Fail> {
    for index in 0..WHOLE.len() {
        for byte in 0..=255u8 {
            let bytes = with_byte(rt.alloc(), index, byte)?;
            if let Ok(text) = std::str::from_utf8(&bytes) {
                agrees(&rt, text);
            }
        }
    }
    Ok(())
}
