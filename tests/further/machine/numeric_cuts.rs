//! A filter in the numeric form, cut at every byte and with every byte changed to every other value, beside
//! a reference reader of the whole list of bytes.
//!
//! Commas and newlines separate items, other blanks the numbers of an item; an item without a number is
//! none. The first item is the count alone, each further one has four numbers. The first fault is an unknown
//! byte; then, item by item, a wrong number of numbers, then a number that is too large; at last the count.

use bpf_isa::{NumericFault, Packed, read_numeric};
use std::alloc::{AllocError, Global};
use std::process::Abort;
use std::test::Fail;

const TEXT: &str = "4,40 0 0 12,21 0 1 2054,6 0 0 4294967295,6 0 0 0,";

/// A number of a text, with the byte offset of its first digit. One above 2^40 is 2^40.
#[derive(Clone, Copy)]
struct Number {
    at: usize,
    value: u64,
}

/// The most that each number of an instruction may be.
const MOST: [u64; 4] = [65_535, 255, 255, 4_294_967_295];

const LARGE: u64 = 1 << 40;

fn is_known(byte: u8) -> bool {
    byte.is_ascii_digit() || is_end(byte) || byte == b' ' || byte == b'\t' || byte == b'\r'
}

/// Does the byte end an item?
fn is_end(byte: u8) -> bool {
    byte == b',' || byte == b'\n'
}

/// The numbers of the bytes, each a run of digits.
fn numbers_of(alloc: Global, bytes: &[u8]) -> Result<Vec<Number>, AllocError> {
    let mut numbers: Vec<Number> = Vec::new(alloc);
    let mut before = false;
    for (at, byte) in bytes.iter().enumerate() {
        let is_digit = byte.is_ascii_digit();
        let digit = u64::from(byte.saturating_sub(b'0'));
        if is_digit && !before {
            numbers.push(Number { at, value: digit })?;
        } else if is_digit {
            if let Some(number) = numbers.last_mut() {
                number.value = number
                    .value
                    .saturating_mul(10)
                    .saturating_add(digit)
                    .min(LARGE);
            }
        }
        before = is_digit;
    }
    Ok(numbers)
}

/// How many items end before a byte offset.
fn item_of(bytes: &[u8], at: usize) -> usize {
    bytes.iter().take(at).filter(|byte| is_end(**byte)).count()
}

/// The items that have a number, in order: the numbers of each.
fn items_of(alloc: Global, bytes: &[u8]) -> Result<Vec<Vec<Number>>, AllocError> {
    let mut items: Vec<Vec<Number>> = Vec::new(alloc);
    let mut last = None;
    for number in &numbers_of(alloc, bytes)? {
        let item = item_of(bytes, number.at);
        if last != Some(item) {
            items.push(Vec::new(alloc))?;
            last = Some(item);
        }
        if let Some(numbers) = items.last_mut() {
            numbers.push(*number)?;
        }
    }
    Ok(items)
}

/// The first number that is too large.
fn too_large(item: &[Number], most: &[u64]) -> Option<NumericFault> {
    let (large, _) = item
        .iter()
        .zip(most)
        .find(|(number, most)| number.value > **most)?;
    Some(NumericFault::Number { at: large.at })
}

/// The fault of the first item.
fn count_fault(item: &[Number]) -> Option<NumericFault> {
    let first = item.first()?;
    if item.len() != 1 {
        return Some(NumericFault::Form { at: first.at });
    }
    if first.value > 4096 && first.value <= 4_294_967_295 {
        return Some(NumericFault::TooMany { at: first.at });
    }
    too_large(item, &MOST[3..])
}

/// The fault of a further item.
fn word_fault(item: &[Number]) -> Option<NumericFault> {
    let first = item.first()?;
    if item.len() != 4 {
        return Some(NumericFault::Form { at: first.at });
    }
    too_large(item, &MOST)
}

/// The first fault of a text.
fn slow_fault(alloc: Global, text: &str) -> Result<Option<NumericFault>, AllocError> {
    let bytes = text.as_bytes();
    if let Some(at) = bytes.iter().position(|byte| !is_known(*byte)) {
        return Ok(Some(NumericFault::Character { at }));
    }
    let items = items_of(alloc, bytes)?;
    let Some((count, words)) = items.split_first() else {
        return Ok(Some(NumericFault::Form { at: bytes.len() }));
    };
    let fault = count_fault(count).or(words.iter().find_map(|word| word_fault(word)));
    if fault.is_some() {
        return Ok(fault);
    }
    if count.first().map(|number| number.value) != Some(words.len() as u64) {
        return Ok(Some(NumericFault::Count { at: bytes.len() }));
    }
    Ok(None)
}

/// The instruction has the numbers of the item.
fn is_word(word: Packed, item: &[Number]) -> bool {
    let fields = [
        u64::from(word.code),
        u64::from(word.jt),
        u64::from(word.jf),
        u64::from(word.k),
    ];
    item.len() == 4
        && item
            .iter()
            .zip(fields)
            .all(|(number, field)| number.value == field)
}

/// The text has the instructions or the fault that the reference reader finds.
fn agrees(rt: &(impl Abort + AllocGlobal), text: &str) -> Result<(), Fail> {
    let fault = slow_fault(rt.alloc(), text)?;
    match read_numeric(rt.alloc(), text) {
        Ok(words) => {
            assert!(rt; fault == None, "{text:?}");
            let items = items_of(rt.alloc(), text.as_bytes())?;
            assert!(rt; items.len() == words.len().saturating_add(1), "{text:?}");
            assert!(rt;
                words
                    .iter()
                    .zip(items.iter().skip(1))
                    .all(|(word, item)| is_word(*word, item)),
                "{text:?}"
            );
        }
        Err(found) => assert!(rt; Some(found) == fault, "{text:?}"),
    }
    Ok(())
}

#[test]
fn every_prefix(rt: HostRuntime) -> Result<(), Fail> {
    for len in 0..=TEXT.len() {
        if let Ok(text) = std::str::from_utf8(&TEXT.as_bytes()[..len]) {
            agrees(&rt, text)?;
        }
    }
    Ok(())
}

/// The text's bytes with the byte at an index replaced.
fn with_byte(alloc: Global, index: usize, byte: u8) -> Result<Vec<u8>, AllocError> {
    let mut bytes = Vec::from_slice(alloc, TEXT.as_bytes())?;
    if index < bytes.len() {
        bytes[index] = byte;
    }
    Ok(bytes)
}

#[test]
fn every_changed_byte(rt: HostRuntime) -> Result<(), Fail> {
    for index in 0..TEXT.len() {
        for byte in 0..=255u8 {
            let bytes = with_byte(rt.alloc(), index, byte)?;
            if let Ok(text) = std::str::from_utf8(&bytes) {
                agrees(&rt, text)?;
            }
        }
    }
    Ok(())
}
