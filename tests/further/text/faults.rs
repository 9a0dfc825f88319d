//! Texts that aren't source, and their faults.

use bpf_text::TextFault::{self, Character, Form, Number, ReservedLabel};
use bpf_text::statements;

/// Texts with the fault of a byte or a number, then with that of a statement or a label.
static FAULTS: [(&str, TextFault); 32] = [
    ("ld @", Character { at: 3 }),
    ("ret #0 /* ret #1", Character { at: 7 }),
    ("/*/", Character { at: 0 }),
    ("ret #0 \u{e9}", Character { at: 7 }),
    ("ret #0\u{b}", Character { at: 6 }),
    ("ld #4294967296", Number { at: 4 }),
    ("ld #-2147483649", Number { at: 5 }),
    ("ret #08", Number { at: 5 }),
    ("ret #0x", Number { at: 5 }),
    ("ret #5a", Number { at: 5 }),
    ("5a", Number { at: 0 }),
    ("x: ret #0", ReservedLabel { at: 0 }),
    ("M", ReservedLabel { at: 0 }),
    ("ret #0 Ld : ret #0", ReservedLabel { at: 7 }),
    ("jmp LEN", ReservedLabel { at: 4 }),
    ("jeq #0, l, ret", ReservedLabel { at: 11 }),
    ("ldq [1]", Form { at: 4 }),
    ("l:", Form { at: 2 }),
    ("l: k: ret #0", Form { at: 3 }),
    ("l: x", Form { at: 3 }),
    ("l: ld : ret #0", Form { at: 6 }),
    ("ret", Form { at: 3 }),
    ("ret 99999999999", Form { at: 4 }),
    ("ret x", Form { at: 4 }),
    ("ld\n#5", Form { at: 5 }),
    ("ldh len", Form { at: 4 }),
    ("ldx [4]", Form { at: 4 }),
    ("jne #0, t, f", Form { at: 9 }),
    ("ldxb 3*([14]&0xf)", Form { at: 5 }),
    ("ldxb 4*([14]&4294967311)", Form { at: 13 }),
    ("ld [x - 4]", Form { at: 6 }),
    ("ld # # 5", Form { at: 5 }),
];

#[test]
fn faults(rt: HostRuntime) {
    for (text, fault) in &FAULTS {
        assert!(rt;
            statements(rt.alloc(), text).err() == Some(*fault),
            "{text}"
        );
    }
}
