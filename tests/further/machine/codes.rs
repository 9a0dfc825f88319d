//! How many codes each family has, of all that there are.

use bpf_isa::{Alu, Family, Insn, Jump, Load, LoadX, Move, Packed, Return, Store};
use std::process::Abort;

/// How many codes unpack in the family. All are of its classes, and in the table.
fn codes_of<F: Family>(rt: &impl Abort) -> usize {
    let mut codes = 0usize;
    for code in 0..=u16::MAX {
        let word = Packed {
            code,
            jt: 9,
            jf: 9,
            k: 7,
        };
        if F::unpack(word).is_some() {
            codes = codes.saturating_add(1);
            assert!(rt; Insn::unpack(word).is_some(), "code {code:#x}");
            let class = code % 8;
            assert!(rt;
                F::FIRST_CLASS <= class && class <= F::LAST_CLASS,
                "code {code:#x}"
            );
        }
    }
    codes
}

#[test]
fn codes_by_family(rt: HostRuntime) {
    assert!(rt; codes_of::<Load>(&rt) == 9);
    assert!(rt; codes_of::<LoadX>(&rt) == 4);
    assert!(rt; codes_of::<Store>(&rt) == 2);
    assert!(rt; codes_of::<Alu>(&rt) == 21);
    assert!(rt; codes_of::<Jump>(&rt) == 9);
    assert!(rt; codes_of::<Return>(&rt) == 2);
    assert!(rt; codes_of::<Move>(&rt) == 2);
    assert!(rt; codes_of::<Insn>(&rt) == 49);
}
