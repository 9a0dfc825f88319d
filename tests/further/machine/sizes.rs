//! Programs of real sizes, read, written, loaded and run.

use afdx_frame::FrameView;
use bpf_isa::{NumericFault, Packed, read_numeric, write_numeric};
use bpf_loader::{LoadFault, Program};
use bpf_machine::run;
use std::alloc::{AllocError, Global};
use std::test::Fail;

/// Sizes of filters that tcpdump compiles, and the largest two.
const SIZES: [u32; 6] = [5, 20, 60, 1000, 4095, 4096];

/// The text of a program of so many instructions, which counts to its size less 1: `add #1` each, and
/// `ret a`.
fn counting(alloc: Global, size: u32) -> Result<String, AllocError> {
    let mut text = format!(in alloc; "{size},")?;
    for _ in 1..size {
        text.push_str("4 0 0 1,")?;
    }
    text.push_str("22 0 0 0,")?;
    Ok(text)
}

#[test]
fn read_write_load_and_run(rt: HostRuntime) -> Result<(), Fail> {
    let alloc = rt.alloc();
    for size in SIZES {
        let text = counting(alloc, size)?;
        let words = read_numeric(alloc, &text)?;
        assert!(rt; words.len() == size as usize);
        let add = Packed {
            code: 0x04,
            jt: 0,
            jf: 0,
            k: 1,
        };
        let (last, others) = words.as_slice().split_last().ok_or("no instruction")?;
        assert!(rt;
            others.iter().all(|word| *word == add),
            "{size} instructions"
        );
        assert!(rt; last.code == 0x16);
        let written = write_numeric(alloc, &words)?;
        assert!(rt; written.as_str() == text.as_str());
        let program = Program::load(words)?;
        assert!(rt; program.len() == size as usize);
        let ran = run(&program, &FrameView::new(&[]), 0);
        assert!(rt; ran == (size.saturating_sub(1), size));
    }
    Ok(())
}

#[test]
fn lengths(rt: HostRuntime) -> Result<(), Fail> {
    let alloc = rt.alloc();
    for (count, reads, loads) in [
        (0, true, false),
        (1, true, true),
        (4096, true, true),
        (4097, false, false),
    ] {
        let mut text = format!(in alloc; "{count}\n")?;
        for _ in 0..count {
            text.push_str("6 0 0 7\n")?;
        }
        match read_numeric(alloc, &text) {
            Err(fault) => {
                assert!(rt; !reads, "{count} words");
                assert!(rt; fault == NumericFault::TooMany { at: 0 });
            }
            Ok(words) => {
                assert!(rt; reads, "{count} words");
                match Program::load(words) {
                    Ok(program) => {
                        assert!(rt; loads, "{count} words");
                        assert!(rt; run(&program, &FrameView::new(&[]), 0) == (7, 1));
                    }
                    Err(refused) => {
                        assert!(rt; !loads, "{count} words");
                        assert!(rt; refused.fault == LoadFault::Length);
                    }
                }
            }
        }
    }
    Ok(())
}
