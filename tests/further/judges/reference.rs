//! A slow reader of the table: it follows the rules on the TOML value, key by key.

use toml::{Table, Value};
use vl_config::ConfigFault;

/// What the value of a key must be.
#[derive(Clone, Copy)]
enum Rule {
    /// An integer from the first to the second.
    Between(i64, i64),
    /// An integer of 32 bits whose bits 24 and 25 are 1.
    Constant,
    /// A power of 2 up to 128.
    Bag,
    Boolean,
    Name,
    Tables,
    Strings,
}

/// A key, whether it must be there, and its rule.
type Row = (&'static str, bool, Rule);

const TOP: [Row; 4] = [
    ("constant", true, Rule::Constant),
    ("link", false, Rule::Tables),
    ("late_us", false, Rule::Between(0, 1_000_000)),
    ("filters", false, Rule::Strings),
];

const LINK: [Row; 9] = [
    ("id", true, Rule::Between(0, 65535)),
    ("name", true, Rule::Name),
    ("bag_ms", true, Rule::Bag),
    ("jitter_us", true, Rule::Between(0, 100_000)),
    ("smax", true, Rule::Between(64, 1518)),
    ("integrity", true, Rule::Boolean),
    ("redundancy", true, Rule::Boolean),
    ("skew_us", true, Rule::Between(0, 1_000_000)),
    ("group", false, Rule::Name),
];

/// The first fault of a document.
pub fn slow_fault(table: &Table) -> Option<ConfigFault> {
    let top = keys_fault(&TOP, None, table);
    if top.is_some() {
        return top;
    }
    let links = array_at(table, "link");
    if links.len() > 4096 || array_at(table, "filters").len() > 7 {
        return Some(ConfigFault::TooMany);
    }
    for (index, link) in links.iter().enumerate() {
        let fault = keys_fault(&LINK, Some(index as u32), link.as_table()?);
        if fault.is_some() {
            return fault;
        }
    }
    for (index, link) in links.iter().enumerate() {
        let link = link.as_table()?;
        let place = Some(index as u32);
        if links[..index]
            .iter()
            .any(|earlier| has_same(earlier, link, "id"))
        {
            return Some(ConfigFault::TwiceId { link: place });
        }
        if links[..index]
            .iter()
            .any(|earlier| has_same(earlier, link, "name"))
        {
            return Some(ConfigFault::TwiceName { link: place });
        }
    }
    None
}

fn keys_fault(rows: &[Row], link: Option<u32>, table: &Table) -> Option<ConfigFault> {
    for (key, required, _) in rows {
        if *required && table.get(*key).is_none() {
            return Some(ConfigFault::Missing { link });
        }
    }
    for (key, _, rule) in rows {
        if table.get(*key).is_some_and(|value| !is_kind(*rule, value)) {
            return Some(ConfigFault::Kind { link });
        }
    }
    for (key, _, rule) in rows {
        if table
            .get(*key)
            .is_some_and(|value| !is_in_range(*rule, value))
        {
            return Some(ConfigFault::Range { link });
        }
    }
    for key in table.keys() {
        if !rows.iter().any(|(known, _, _)| *known == key.as_str()) {
            return Some(ConfigFault::UnknownKey { link });
        }
    }
    None
}

fn is_kind(rule: Rule, value: &Value) -> bool {
    match rule {
        Rule::Between(_, _) | Rule::Constant | Rule::Bag => value.is_integer(),
        Rule::Boolean => value.is_bool(),
        Rule::Name => value.is_str(),
        Rule::Tables => items(value).is_some_and(|items| items.iter().all(|item| item.is_table())),
        Rule::Strings => items(value).is_some_and(|items| items.iter().all(|item| item.is_str())),
    }
}

fn is_in_range(rule: Rule, value: &Value) -> bool {
    let number = value.as_integer().unwrap_or(-1);
    match rule {
        Rule::Between(least, most) => least <= number && number <= most,
        Rule::Constant => {
            (0..=0xffff_ffff).contains(&number) && number & 0x0300_0000 == 0x0300_0000
        }
        Rule::Bag => [1, 2, 4, 8, 16, 32, 64, 128].contains(&number),
        Rule::Name => is_name(value.as_str().unwrap_or("")),
        Rule::Boolean | Rule::Tables | Rule::Strings => true,
    }
}

fn is_name(name: &str) -> bool {
    (1..=32).contains(&name.len())
        && name.bytes().all(|byte| byte.is_ascii_alphanumeric() || byte == b'_' || byte == b'-')
}

fn items(value: &Value) -> Option<&[Value]> {
    match value.as_array() {
        Some(values) => Some(values.as_slice()),
        None => None,
    }
}

fn array_at<'a>(table: &'a Table, key: &str) -> &'a [Value] {
    match table.get(key) {
        Some(value) => items(value).unwrap_or(&[]),
        None => &[],
    }
}

/// The earlier link has the same integer or string at a key.
fn has_same(earlier: &Value, link: &Table, key: &str) -> bool {
    let Some(earlier) = earlier.as_table() else {
        return false;
    };
    match (earlier.get(key), link.get(key)) {
        (Some(one), Some(other)) => {
            one.as_integer() == other.as_integer() && one.as_str() == other.as_str()
        }
        _ => false,
    }
}
