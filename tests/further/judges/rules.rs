//! The worked examples of policing, integrity checking and redundancy management.

use crate::support::TABLE;
use afdx_frame::{Network, Stamp, VlId};
use integrity::{Check, Integrity};
use policing::{Account, Policing};
use redundancy::{Pair, Redundancy};
use std::test::Fail;
use vl_config::Config;

#[test]
fn an_account_to_its_last_byte(rt: HostRuntime) -> Result<(), Fail> {
    let config = Config::read(rt.alloc(), TABLE)?;
    let link = config.link(VlId(5)).ok_or("no link 5")?;
    let mut account = Account::full(link);
    let begins_full = account.judge(Stamp(0), 200);
    let a_nanosecond_early = account.judge(Stamp(999_999), 200);
    let just_in_time = account.judge(Stamp(1_000_000), 200);
    let full_again = account.judge(Stamp(1_001_000_000), 200);
    let not_past_the_cap = account.judge(Stamp(1_001_000_000), 200);
    assert!(rt; begins_full == Policing::Within);
    assert!(rt; a_nanosecond_early == Policing::Excess);
    assert!(rt; just_in_time == Policing::Within);
    assert!(rt; full_again == Policing::Within);
    assert!(rt; not_past_the_cap == Policing::Excess);
    Ok(())
}

/// Is it checked, sequence numbers in turn, and the verdict on each.
const NUMBERS: [(bool, u8, Integrity); 10] = [
    (true, 254, Integrity::First),
    (true, 255, Integrity::Next),
    (true, 2, Integrity::Skip),
    (true, 5, Integrity::Out),
    (true, 6, Integrity::Next),
    (true, 0, Integrity::Reset),
    (true, 2, Integrity::Skip),
    (true, 2, Integrity::Out),
    (false, 9, Integrity::Off),
    (true, 10, Integrity::Next),
];

#[test]
fn numbers_around_the_wrap(rt: HostRuntime) {
    let mut check = Check::new();
    for (on, number, said) in &NUMBERS {
        let found = check.judge(*on, *number);
        assert!(rt; found == *said, "number {number}");
        assert!(rt; found.is_valid() == (*said != Integrity::Out));
    }
}

#[test]
fn copies_at_the_skews_bound(rt: HostRuntime) {
    let skew = 1_000_000;
    let mut pair = Pair::new();
    let first = pair.judge(true, skew, Network::A, 0, Stamp(0));
    let at_the_bound = pair.judge(true, skew, Network::B, 0, Stamp(1_000_000));
    let on_the_same_network = pair.judge(true, skew, Network::A, 0, Stamp(1_000_001));
    let past_the_bound = pair.judge(true, skew, Network::B, 0, Stamp(2_000_002));
    assert!(rt; first == Redundancy::Deliver);
    assert!(rt; at_the_bound == Redundancy::Copy);
    assert!(rt; on_the_same_network == Redundancy::Deliver);
    assert!(rt; past_the_bound == Redundancy::Deliver);
}

#[test]
fn number_zero_twice_on_one_network(rt: HostRuntime) {
    let skew = 1_000_000;
    let mut pair = Pair::new();
    let first = pair.judge(true, skew, Network::A, 0, Stamp(0));
    let second = pair.judge(true, skew, Network::A, 0, Stamp(100));
    let off = pair.judge(false, skew, Network::B, 0, Stamp(100));
    let after_both = pair.judge(true, skew, Network::A, 0, Stamp(100));
    assert!(rt; first == Redundancy::Deliver);
    assert!(rt; second == Redundancy::Deliver);
    assert!(rt; off == Redundancy::Both);
    assert!(rt; after_both == Redundancy::Copy);
}
