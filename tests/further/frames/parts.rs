//! Every part of a block that frames share.

use crate::frames::worked::FRAME;
use afdx_frame::FrameBytes;
use std::sync::Arc;
use std::test::Fail;

#[test]
fn parts_of_a_block(rt: HostRuntime) -> Result<(), Fail> {
    let alloc = rt.alloc();
    let block = Arc::new(alloc, FRAME.to_vec(alloc)?)?;
    let mut parts = Vec::new(alloc);
    for from in 0..=FRAME.len() {
        for to in from..=FRAME.len() {
            parts.push((from, to, FrameBytes::part(&block, from, to)?))?;
        }
    }
    assert!(rt; parts.len() == 171);
    // While a part is left, the block isn't given back.
    let Err(block) = Arc::try_unwrap(block) else {
        return Err("the block was given back".into());
    };
    for (from, to, part) in parts {
        assert!(rt; from <= to && to <= FRAME.len());
        assert!(rt; part.as_slice() == &FRAME[from..to], "from {from} to {to}");
    }
    match Arc::try_unwrap(block) {
        Ok(bytes) => assert!(rt; bytes.as_slice() == FRAME.as_slice()),
        Err(_) => panic!(rt; "the block is still shared"),
    }
    Ok(())
}
