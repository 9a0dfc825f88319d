//! Texts of real sizes: a filter of 4096 labelled statements, and texts of 16 MiB.

use bpf_text::{Mnemonic, Operand, TextFault, statements};
use std::alloc::{AllocError, Global};
use std::process::Abort;
use std::test::Fail;

/// The most bytes of a text that the program reads.
const LIMIT: usize = 1 << 24;

/// So many bytes: the piece, again and again, and a part of it last.
fn filled(alloc: Global, piece: &str, len: usize) -> Result<String, AllocError> {
    let mut text = String::with_capacity(alloc, len)?;
    let size = piece.len().max(1);
    for _ in 0..len / size {
        text.push_str(piece)?;
    }
    for _ in 0..len % size {
        text.push(' ')?;
    }
    Ok(text)
}

#[test]
fn labelled_statements(rt: HostRuntime) -> Result<(), Fail> {
    let mut text = String::new(rt.alloc());
    for index in 0..4096u32 {
        let line = format!(in rt.alloc(); "L{index}: ret #{index}\n")?;
        text.push_str(line.as_str())?;
    }
    let read = statements(rt.alloc(), text.as_str())?;
    assert!(rt; read.len() == 4096);
    for (index, statement) in read.iter().enumerate() {
        let label = format!(in rt.alloc(); "L{index}")?;
        assert!(rt; statement.label == Some(label.as_str()), "{label}");
        assert!(rt; statement.mnemonic == Mnemonic::Ret, "{label}");
        assert!(rt;
            statement.operand == Operand::Immediate(index as u32),
            "{label}"
        );
    }
    Ok(())
}

/// The text, filled up to the limit with the piece, has no statement.
fn is_blank(rt: &(impl Abort + AllocGlobal), piece: &str) -> Result<(), Fail> {
    let text = filled(rt.alloc(), piece, LIMIT)?;
    assert!(rt;
        statements(rt.alloc(), text.as_str())?.is_empty(),
        "{piece}"
    );
    Ok(())
}

#[test]
fn comments_up_to_the_limit(rt: HostRuntime) -> Result<(), Fail> {
    is_blank(&rt, "/**/")?;
    is_blank(&rt, "/* ret #0 */\n")?;
    is_blank(&rt, "#ret #0\n;/*\n")?;
    is_blank(&rt, "                ")
}

#[test]
fn statements_up_to_the_limit(rt: HostRuntime) -> Result<(), Fail> {
    let text = filled(rt.alloc(), "neg\n", LIMIT)?;
    assert!(rt; statements(rt.alloc(), text.as_str())?.len() == LIMIT / 4);
    let text = filled(rt.alloc(), "l: jeq #5, then, else\n", LIMIT)?;
    assert!(rt; statements(rt.alloc(), text.as_str())?.len() == LIMIT / 22);
    Ok(())
}

#[test]
fn one_token_up_to_the_limit(rt: HostRuntime) -> Result<(), Fail> {
    let name = filled(rt.alloc(), "a", LIMIT)?;
    let fault = statements(rt.alloc(), name.as_str()).err();
    assert!(rt; fault == Some(TextFault::Form { at: LIMIT }));
    let number = filled(rt.alloc(), "9", LIMIT)?;
    let fault = statements(rt.alloc(), number.as_str()).err();
    assert!(rt; fault == Some(TextFault::Form { at: 0 }));
    let unclosed = filled(rt.alloc(), "/* ", LIMIT)?;
    let fault = statements(rt.alloc(), unclosed.as_str()).err();
    assert!(rt; fault == Some(TextFault::Character { at: 0 }));
    Ok(())
}
