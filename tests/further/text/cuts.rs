//! The filter of the worked example, cut at every place and with every byte changed to every other
//! value, beside the reference parser.

use crate::text::forms::ETHERTYPE;
use crate::text::reference::slow_read;
use bpf_text::statements;
use std::alloc::{AllocError, Global};
use std::process::Abort;
use std::test::Fail;

/// More forms than the worked example has.
const FORMS: &str = "l: LD [x+ -4];\njeq #0x5, l_1, Out ldx 4*([14]&0xf) /**/ neg ret a\nout:tax";

/// The text has the statements or the fault that the reference parser reports.
fn agrees(rt: &(impl Abort + AllocGlobal), text: &str) -> Result<(), Fail> {
    match (statements(rt.alloc(), text), slow_read(rt.alloc(), text)?) {
        (Ok(read), Ok(offsets)) => {
            assert!(rt; read.len() == offsets.len(), "{text}");
            assert!(rt;
                read.iter()
                    .zip(&offsets)
                    .all(|(statement, at)| statement.at == *at),
                "{text}"
            );
        }
        (Err(fault), Err(slow)) => assert!(rt; fault == slow, "{text}"),
        _ => assert!(rt; false, "{text}"),
    }
    Ok(())
}

/// The text's bytes with the byte at an index replaced.
fn with_byte(alloc: Global, text: &str, index: usize, byte: u8) -> Result<Vec<u8>, AllocError> {
    let mut bytes = Vec::from_slice(alloc, text.as_bytes())?;
    if index < bytes.len() {
        bytes[index] = byte;
    }
    Ok(bytes)
}

#[test]
fn every_prefix(rt: HostRuntime) -> Result<(), Fail> {
    for text in [ETHERTYPE, FORMS] {
        for len in 0..=text.len() {
            if let Ok(cut) = std::str::from_utf8(&text.as_bytes()[..len]) {
                agrees(&rt, cut)?;
            }
        }
    }
    Ok(())
}

#[test]
fn every_changed_byte(rt: HostRuntime) -> Result<(), Fail> {
    for text in [ETHERTYPE, FORMS] {
        for index in 0..text.len() {
            for byte in 0..=255u8 {
                let bytes = with_byte(rt.alloc(), text, index, byte)?;
                if let Ok(changed) = std::str::from_utf8(&bytes) {
                    agrees(&rt, changed)?;
                }
            }
        }
    }
    Ok(())
}
