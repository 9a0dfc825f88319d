//! Lines that a reader by the written rules has judged, one letter for each: a dot where the line is a
//! frame's, or the letter of the first wrong field, `a` for field 1.
use afdx_frame::{Network, Stamp, VlId};
use integrity::Integrity;
use ledger_text::{FrameFault, FrameLine, read_frame};
use policing::Policing;
use redundancy::Redundancy;
use std::process::Abort;
use std::test::Fail;
use verdict_ledger::LedgerVersion;
use vl_config::Class;
use vl_judge::Verdict;

/// The letter of what is read.
pub fn letter(read: &Result<FrameLine, FrameFault>) -> u8 {
    match read {
        Ok(_) => b'.',
        Err(FrameFault::Timestamp) => b'a',
        Err(FrameFault::Network) => b'b',
        Err(FrameFault::Index) => b'c',
        Err(FrameFault::Link) => b'd',
        Err(FrameFault::Sequence) => b'e',
        Err(FrameFault::Class) => b'f',
        Err(FrameFault::Policing) => b'g',
        Err(FrameFault::Integrity) => b'h',
        Err(FrameFault::Redundancy) => b'i',
        Err(FrameFault::Kept) => b'j',
        Err(FrameFault::Mask) => b'k',
        Err(FrameFault::Fields) => b'l',
        Err(FrameFault::Length) => b'm',
    }
}

/// Bytes that stand in the place of others.
const OTHERS: [u8; 12] = *b" -0159ABaefg";

const LINE_0: &[u8] = b"1800000012119534506 A 960 301 163 regular excess - - 108 01";

const PREFIXES_0: &[u8] = b"abbbbbbbbbbbbbbbbbbbbccddddeeeeffffffffffggggggghhiijjkkkkk.";

const CHANGES_0: &[u8] = b"\
    aaa.aaaaaaaaba....aaaaaaba....aaaaaaba....aaaaaaba....aaaaaaba....aaaaaaba....aaaaaa\
    ba....aaaaaaba....aaaaaaba....aaaaaaba....aaaaaaba....aaaaaaba....aaaaaaba....aaaaaa\
    ba....aaaaaaba....aaaaaaba....aaaaaaba....aaaaaaba....aaaaaa.aaaaaaaaaaabbbbbb..bbbb\
    .bbbbbbbbbbbccc...ccccccec....ccccccdc....cccccc.ceeeeccccccddd...ddddddfd....dddddd\
    ed....dddddd.dddddddddddeee.eeeeeeeefe....eeeeeefe....eeeeee.eeeeeeeeeeeffffffffffff\
    fffffffff.fffffffffffff.ffffffffffffffffffffffffffffffff.fffffffffffffff.fffffffffff\
    ggggggggg.ggggggggggggggggggggggggggggggggggg.gggggggggggggggggggggggggg.ggggggggggg\
    h.hhhhhhhhhh.hhhhhhhhhhhi.iiiiiiiiii.iiiiiiiiiiijjj...jjjjjjkj....jjjjjjkj....jjjjjj\
    .jkkkkjjjjjjkk....kk...kkkk...kk...k";

const LINE_1: &[u8] = b"1800000025008110442 B 1985 210 0 regular within reset copy 60 02";

const PREFIXES_1: &[u8] = b"abbbbbbbbbbbbbbbbbbbbccdddddeeeeffffffffggggggghhhhhhiiiiijjkkkk.";

const CHANGES_1: &[u8] = b"\
    aaa.aaaaaaaaba....aaaaaaba....aaaaaaba....aaaaaaba....aaaaaaba....aaaaaaba....aaaaaa\
    ba....aaaaaaba....aaaaaaba....aaaaaaba....aaaaaaba....aaaaaaba....aaaaaaba....aaaaaa\
    ba....aaaaaaba....aaaaaaba....aaaaaaba....aaaaaaba....aaaaaa.aaaaaaaaaaabbbbbb..bbbb\
    .bbbbbbbbbbbccc...ccccccfc....ccccccfc....ccccccdc....cccccc.ceeeeccccccddd...dddddd\
    fd....dddddded....dddddd.deeeeddddddee....eeeeee.eeeeeeeeeeefffffffffffffffffffff.ff\
    fffffffffff.ffffffffffffffffffffffffffffffff.fffffffffffffff.fffffffffffgggggggggggg\
    gggggggggggggggggggggggggggggggggggggggggggggggggggggggggggg.ggggggggggghhhhhhhhhhhh\
    hhhhhhhhh.hhhhhhhhhhhhhhhhhhhhhhh.hhhhhhhhhhhhhh.hhhhhhhhhhhiiiiiiiiiiiiiiiiiiiiiiii\
    iiiiiiiiiiiiiiiiiiiiiiii.iiiiiiiiiiijjj...jjjjjjkj....jjjjjj.jkkkkjjjjjjkk....kk...k\
    kkk...kk...k";

const LINE_2: &[u8] = b"0 A 0 5 255 regular within out - - 00";

const PREFIXES_2: &[u8] = b"abbccddeeffffffffffggggggghhhhiijjkkk.";

const CHANGES_2: &[u8] = b"\
    aa....aaaaaa.aaaaaaaaaaabbbbbb..bbbb.bbbbbbbbbbbcc....cccccc.cccccccccccde....dddddd\
    .deeeeddddddeee.eeeeeeeefe...eeeeeeefe...eeeeeee.eeeeeeeeeeefffffffffffffffffffff.ff\
    fffffffffff.ffffffffffffffffffffffffffffffff.fffffffffffffff.fffffffffffgggggggggggg\
    gggggggggggggggggggggggggggggggggggggggggggggggggggggggggggg.ggggggggggghhhhhhhhhhhh\
    hhhhhhhhhhhhhhhhhhhhhhhh.hhhhhhhhhhhi.iiiiiiiiii.iiiiiiiiiiij.kkkkjjjjjj.jjjjjjjjjjj\
    kk.kkkkkkkkkkk.kkkkkkkkk";

const LINE_3: &[u8] = b"4294967295999999999 B 4294967295 65535 7 unconfigured - - - 4294967295 ff";

const PREFIXES_3: &[u8] =
    b"abbbbbbbbbbbbbbbbbbbbccdddddddddddeeeeeefffffffffffffgghhiijjkkkkkkkkkkkk.";

const CHANGES_3: &[u8] = b"\
    aaa.aaaaaaaaba..aaaaaaaaba....aaaaaaba..aaaaaaaaba....aaaaaaba...aaaaaaaba...aaaaaaa\
    ba..aaaaaaaaba....aaaaaaba...aaaaaaaba....aaaaaaba....aaaaaaba....aaaaaaba....aaaaaa\
    ba....aaaaaaba....aaaaaaba....aaaaaaba....aaaaaaba....aaaaaa.aaaaaaaaaaabbbbbb..bbbb\
    .bbbbbbbbbbbccc.ccccccccdc..ccccccccdc....ccccccdc..ccccccccdc....ccccccec...ccccccc\
    ec...cccccccec..ccccccccec....ccccccdc...ccccccc.cccccccccccddd..ddddddded...ddddddd\
    fd...dddddddfd..dddddddded...ddddddd.dddddddddddee....eeeeee.eeeeeeeeeeeffffffffffff\
    ffffffffffffffffffffffffffffffffffffffffffffffffffffffffff.ffffffffffffffffffffffff.\
    fffffffffffffffffffffffffffffffff.ffffffffffffff.fffffffffffg.gggggggggg.ggggggggggg\
    h.hhhhhhhhhh.hhhhhhhhhhhi.iiiiiiiiii.iiiiiiiiiiijjj.jjjjjjjjkj..jjjjjjjjkj....jjjjjj\
    kj..jjjjjjjjkj....jjjjjjkj...jjjjjjjkj...jjjjjjjlj..jjjjjjjjkj....jjjjjjkj...jjjjjjj\
    .jjjjjjjjjjjkk....kk...kkk....kk...k";

const LINE_4: &[u8] = b"7 A 1 - - foreign - - - - 80";

const PREFIXES_4: &[u8] = b"abbccddeeffffffffgghhiijjkkkk";

const CHANGES_4: &[u8] = b"\
    aakkkkaaaaaakaaaaaaaaaaabbbbbbkkbbbbkbbbbbbbbbbbcckkkkcccccckcccccccccccdkeeeedddddd\
    kdddddddddddekeeeeeeeeeekeeeeeeeeeeeffffffffffkffffffffffffffffffffffffffffffffffkff\
    fffffffffffffffffffffffkffffffffffffkfffffffffffgkggggggggggkggggggggggghkhhhhhhhhhh\
    khhhhhhhhhhhikiiiiiiiiiikiiiiiiiiiiijk....jjjjjjkjjjjjjjjjjjkk.kkkkkkkkkkkkkkkkkkkkk";

const LINE_5: &[u8] = b"90 B 10 42 9 toolong - - - 1500 7f";

const PREFIXES_5: &[u8] = b"abbbccdddeeeffffffffgghhiijjkkkkkk.";

const CHANGES_5: &[u8] = b"\
    aaa...aaaaaaba....aaaaaa.aaaaaaaaaaabbbbbb..bbbb.bbbbbbbbbbbccc...ccccccdc....cccccc\
    .ceeeeccccccddd...dddddded....dddddd.deeeeddddddee....eeeeee.eeeeeeeeeeeffffffffffff\
    fffffffffffffffffffffffffffffffffffffffffffffffffffffffffffffffffffffff..fffffffffff\
    g.gggggggggg.gggggggggggh.hhhhhhhhhh.hhhhhhhhhhhi.iiiiiiiiii.iiiiiiiiiiijjj...jjjjjj\
    kj....jjjjjjkj....jjjjjjkj....jjjjjj.jjjjjjjjjjjkk....kk...kkk....kk...k";

const LINE_6: &[u8] = b"10 A 3 9 1 regular within off both 61 0a";

const PREFIXES_6: &[u8] = b"abbbccddeeffffffffggggggghhhhiiiiijjkkkk.";

const CHANGES_6: &[u8] = b"\
    aaa...aaaaaaba....aaaaaa.aaaaaaaaaaabbbbbb..bbbb.bbbbbbbbbbbcc....cccccc.ceeeecccccc\
    de....dddddd.deeeeddddddee....eeeeee.eeeeeeeeeeefffffffffffffffffffff.fffffffffffff.\
    ffffffffffffffffffffffffffffffff.fffffffffffffff.fffffffffffgggggggggggggggggggggggg\
    gggggggggggggggggggggggggggggggggggggggggggggggg.ggggggggggghhhhhhhhhhhhhhhhhhhhhh.h\
    hhhhhhhhhh.h.hhhhhhhhhhhiiiiiiiiiiiiiiiiiiiiiiiiiiiiiiiiiiiiiiiiiiiiiiii.iiiiiiiiiii\
    jjj...jjjjjjkj....jjjjjj.jjjjjjjjjjjkk....kk...kkkk...kk...k";

const LINE_7: &[u8] = b"7 A 1 - - foreign - - - 64 80";

const PREFIXES_7: &[u8] = b"abbccddeeffffffffgghhiijjkkkk.";

const CHANGES_7: &[u8] = b"\
    aa....aaaaaa.aaaaaaaaaaabbbbbb..bbbb.bbbbbbbbbbbcc....cccccc.cccccccccccd.eeeedddddd\
    .ddddddddddde.eeeeeeeeee.eeeeeeeeeeeffffffffff.ffffffffffffffffffffffffffffffffff.ff\
    fffffffffffffffffffffff.ffffffffffff.fffffffffffg.gggggggggg.gggggggggggh.hhhhhhhhhh\
    .hhhhhhhhhhhi.iiiiiiiiii.iiiiiiiiiiijjj...jjjjjjkj....jjjjjj.jkkkkjjjjjjkkk...kk...k\
    kk....kk...k";

/// Whole lines, each with its letter.
const LINES: [(&[u8], u8); 46] = [
    (b"", b'a'),
    (b" ", b'a'),
    (b"7 A 1 - - cut - - - - 00", b'.'),
    (b"7 A 1 - - runt - - - - 00", b'.'),
    (b"7 A 1 - - oversize - - - - 00", b'.'),
    (b"7 A 1 3 4 cut - - - - 00", b'f'),
    (b"7 A 1 - - regular within next deliver - 00", b'f'),
    (b"7 A 1 3 - regular within next deliver - 00", b'e'),
    (b"7 A 1 3 4 regular - - - - 00", b'g'),
    (b"7 A 1 3 4 regular excess next - - 00", b'h'),
    (b"7 A 1 3 4 regular within - - - 00", b'h'),
    (b"7 A 1 3 4 regular within out copy - 00", b'i'),
    (b"7 A 1 3 4 regular within first - - 00", b'i'),
    (b"7 A 1 3 4 toolong within - - - 00", b'g'),
    (b"4294967296000000000 A 1 3 4 regular excess - - - 00", b'a'),
    (
        b"18446744073709551616 A 1 3 4 regular excess - - - 00",
        b'a',
    ),
    (b"7 A 4294967296 3 4 regular excess - - - 00", b'c'),
    (b"7 A 1 65536 4 regular excess - - - 00", b'd'),
    (b"7 A 1 3 256 regular excess - - - 00", b'e'),
    (b"7 A 1 3 4 regular excess - - 4294967296 00", b'j'),
    (b"7 A 1 3 4 regular excess - - 07 00", b'j'),
    (b"07 A 1 3 4 regular excess - - 7 00", b'a'),
    (b"+7 A 1 3 4 regular excess - - 7 00", b'a'),
    (b"7 A 1 3 4 regular excess - - 7 0", b'k'),
    (b"7 A 1 3 4 regular excess - - 7 000", b'k'),
    (b"7 A 1 3 4 regular excess - - 7 0A", b'k'),
    (b"7 A 1 3 4 regular excess - - 7 01 ", b'l'),
    (b"7 A 1 3 4 regular excess - - 7 01 1", b'l'),
    (b"7 A 1 3 4 regular excess - - 7 00 ", b'k'),
    (b"7 A 1 3 4 regular excess - - 7 00 1", b'k'),
    (b"7 A 1 3 4 regular excess - - - 00 ", b'l'),
    (b"7 A 1 3 4 regular within next deliver - ff", b'k'),
    (b"7 A 1 3 4 regular within next copy 77 00", b'k'),
    (b"7 A 1 3 4 regular within next copy 0 00", b'k'),
    (b"7 A 1 3 4 regular within next copy 0 10", b'.'),
    (b" 7 A 1 3 4 regular excess - - 7 00", b'a'),
    (b"7  A 1 3 4 regular excess - - 7 00", b'b'),
    (b"7 A 1 3 4 regular within skip deliver 7 01", b'.'),
    (b"7 A 1 3 4 regular within skip deliver 7 00", b'k'),
    (b"7\tA 1 3 4 regular within skip deliver 7 00", b'a'),
    (b"7 A 1 3 4 regular within skip deliver 7 00\r", b'k'),
    (
        b"link 301 engine_1 frames 932 toolong 0 excess 10 out 3 copy 451 delivered 468",
        b'a',
    ),
    (b"7 C 1 3 4 regular excess - - 7 00", b'b'),
    (b"7 A 1 3 4 Regular excess - - 7 00", b'f'),
    (
        b"99999999999999999999 A 1 3 4 regular excess - - 7 00",
        b'a',
    ),
    (b"7 A 1 3 4 unconfigured excess - - 7 00", b'g'),
];

/// Lines, what is read in their prefixes, and what is read where a byte is changed to each of the others: one
/// after another at the first place, and then at the next.
const CASES: [(&[u8], &[u8], &[u8]); 8] = [
    (LINE_0, PREFIXES_0, CHANGES_0),
    (LINE_1, PREFIXES_1, CHANGES_1),
    (LINE_2, PREFIXES_2, CHANGES_2),
    (LINE_3, PREFIXES_3, CHANGES_3),
    (LINE_4, PREFIXES_4, CHANGES_4),
    (LINE_5, PREFIXES_5, CHANGES_5),
    (LINE_6, PREFIXES_6, CHANGES_6),
    (LINE_7, PREFIXES_7, CHANGES_7),
];

/// Reads each prefix of the line.
fn prefixes(rt: &impl Abort, line: &[u8], wanted: &[u8]) {
    assert!(rt; wanted.len() == line.len() + 1);
    for (len, want) in wanted.iter().enumerate() {
        if len <= line.len() {
            assert!(rt; letter(&read_frame(LedgerVersion::Two, &line[..len])) == *want, "at {len}");
        }
    }
}

/// Reads the line with the byte at an index changed to each of the others.
fn changes(rt: &impl Abort, line: &[u8], at: usize, wanted: &[u8]) {
    assert!(rt; at < line.len() && line.len() <= 96);
    for (other, want) in OTHERS.iter().zip(wanted) {
        let mut changed = [0u8; 96];
        changed[..line.len()].copy_from_slice(line);
        changed[at] = *other;
        assert!(rt;
            letter(&read_frame(LedgerVersion::Two, &changed[..line.len()])) == *want,
            "at {at}"
        );
    }
}

#[test]
fn reads_prefixes_and_changed_lines(rt: HostRuntime) {
    for (line, beginnings, changed) in &CASES {
        prefixes(&rt, line, beginnings);
        assert!(rt; changed.len() / OTHERS.len() == line.len());
        for (at, wanted) in changed.chunks(OTHERS.len()).enumerate() {
            changes(&rt, line, at, wanted);
        }
    }
}

#[test]
fn reads_whole_lines(rt: HostRuntime) {
    for (line, want) in &LINES {
        assert!(rt; letter(&read_frame(LedgerVersion::Two, line)) == *want);
    }
}

#[test]
fn reads_the_values(rt: HostRuntime) {
    let line = b"1800000012119534506 A 960 301 163 regular within skip copy 108 a1";
    let values = FrameLine {
        stamp: Stamp(1_800_000_012_119_534_506),
        network: Network::A,
        number: 960,
        link: Some(VlId(301)),
        sequence: Some(163),
        verdict: Verdict {
            class: Class::Regular,
            policing: Some(Policing::Within),
            integrity: Some(Integrity::Skip),
            redundancy: Some(Redundancy::Copy),
        },
        kept: Some(108),
        mask: 0xa1,
        length: None,
    };
    assert!(rt; read_frame(LedgerVersion::Two, line) == Ok(values));
}

/// What stands after the mask of a line, and what is read of the line in versions 2 and 3.
const LENGTHS: [(&[u8], u8, u8); 12] = [
    (b"", b'.', b'm'),
    (b" ", b'l', b'm'),
    (b" 0", b'l', b'.'),
    (b" 64", b'l', b'.'),
    (b" 4294967295", b'l', b'.'),
    (b" 4294967296", b'l', b'm'),
    (b" 064", b'l', b'm'),
    (b" -", b'l', b'm'),
    (b" +64", b'l', b'm'),
    (b" 64 ", b'l', b'l'),
    (b" 64 64", b'l', b'l'),
    (b"  64", b'l', b'm'),
];

#[test]
fn reads_lengths(rt: HostRuntime) {
    let line = b"7 A 1 3 4 regular within next deliver - 00";
    for (rest, two, three) in &LENGTHS {
        assert!(rt; line.len() + rest.len() <= 96);
        let mut text = [0u8; 96];
        text[..line.len()].copy_from_slice(line);
        let len = line.len() + rest.len();
        text[line.len()..len].copy_from_slice(rest);
        assert!(rt; letter(&read_frame(LedgerVersion::Two, &text[..len])) == *two);
        assert!(rt; letter(&read_frame(LedgerVersion::Three, &text[..len])) == *three);
    }
}
