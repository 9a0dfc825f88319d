"""Tests of what the program tells a person, whole: advice and carets at a terminal, none elsewhere, and the help."""
import os
import resource
import struct
import subprocess

from tests.analyser import watch
from tests.blocks import CUSTOM, MOST_INTERFACES, Blocks
from tests.harness import EVERY, FAULT, PROGRAM, SUCCESS, difference, frame, header, readable_program, record, run, run_at_terminal
from tests.stamps import version_of_the_program
from tests.texts import ABOUT, ADVICE, ALLOWED, CHECK_SEQUENCES, CORRECT, COUNTS, DISPUTED, EXPRESSION, FULL, GZIP, LINK_KEYS, NO_DOCUMENT
from tests.texts import NO_TEXT, NOT_NUMERIC, PROGRAM_HELP, SOURCE, TOP_KEYS, XZ, ZSTD, advice_on, advice_on_ending, help_of
from tests.watching import LINK_5, TABLE, AtADesk

MIB = 1 << 20
FAR = b"\tjeq #0, l\n" + b"ret #0\n" * 256 + b"l: ret #0"
# A refused source, its fault, and the place, line and caret that a terminal shows.
SOURCES = (
    (b"ld @", "asm 1 Text 1 Character at 3", "1:4\nld @\n   ^\n"),
    (b"ret #0\nld #4294967296", "asm 1 Text 2 Number at 11", "2:5\nld #4294967296\n    ^\n"),
    (b"ld #1\n\tjne #5 l\nret a", "asm 1 Text 3 Form at 14", "2:9\n\tjne #5 l\n\t       ^\n"),
    (b"l:", "asm 1 Text 3 Form at 2", "1:3\nl:\n  ^\n"),
    (b"ldq [1]", "asm 1 Text 3 Form at 4", "1:5\nldq [1]\n    ^\n"),
    (b"ret #0 x: ret #0\nret #1", "asm 1 Text 4 ReservedLabel at 7", "1:8\nret #0 x: ret #0\n       ^\n"),
    (b"", "asm 2 Empty", ""),
    (b"ret #0\n" * 4097, "asm 3 TooMany", ""),
    (b"l: ret #0\n\n  l: ret #0", "asm 4 TwiceLabel at 1", "3:3\n  l: ret #0\n  ^\n"),
    (b"ld #1\n  jmp l\nret a", "asm 5 NoLabel at 1", "2:7\n  jmp l\n      ^\n"),
    (b"jeq #0 /* no */, no\nret #0", "asm 5 NoLabel at 0", "1:18\njeq #0 /* no */, no\n                 ^\n"),
    (b"jeq #0, l, k\nl: ret #0", "asm 5 NoLabel at 0", "1:12\njeq #0, l, k\n           ^\n"),
    (b"jeq x,\n l,\n k\nl: ret #0", "asm 5 NoLabel at 0", "3:2\n k\n ^\n"),
    (b"l: ret #0 jmp l", "asm 6 Backward at 1", "1:15\nl: ret #0 jmp l\n              ^\n"),
    (b"l: jmp l", "asm 6 Backward at 0", "1:8\nl: jmp l\n       ^\n"),
    (FAR, "asm 7 TooFar at 0", "1:10\n\tjeq #0, l\n\t        ^\n"),
    (b"ret #0\r\nld @\r\n", "asm 1 Text 1 Character at 11", "2:4\nld @\n   ^\n"),
    ("/* \u00e9 */ ld @".encode(), "asm 1 Text 1 Character at 12", "1:12\n/* \u00e9 */ ld @\n           ^\n"),
    # A line of 200 bytes is shown, a longer one isn't, nor one with a control character.
    (b"ld #1 " * 32 + b"   ld  @", "asm 1 Text 1 Character at 199", "1:200\n" + "ld #1 " * 32 + "   ld  @\n" + " " * 199 + "^\n"),
    (b"ld #1 " * 32 + b"    ld  @", "asm 1 Text 1 Character at 200", "1:201\n"),
    (b"ld #1\nld\t\x1b[0m", "asm 1 Text 1 Character at 9", "2:4\n"),
)
# A refused filter, its fault, and the place, line and caret; nothing of them where the fault is of the whole.
CODES = (
    ("1,x", "numeric 1 Character at 2", "1:3\n1,x\n  ^\n"),
    ("1,6 0 256 0", "numeric 2 Number at 6", "1:7\n1,6 0 256 0\n      ^\n"),
    ("", "numeric 3 Form at 0", ""),
    ("1,6 0 0", "numeric 3 Form at 2", "1:3\n1,6 0 0\n  ^\n"),
    ("2,6 0 0 0,", "numeric 4 Count at 10", "1:1\n2,6 0 0 0,\n^\n"),
    ("4097,", "numeric 5 TooMany at 0", "1:1\n4097,\n^\n"),
    ("0,", "load 1 Length", ""),
    ("2,23 0 0 0,6 0 0 0,", "load 2 UnknownCode at 0", "1:3\n2,23 0 0 0,6 0 0 0,\n  ^\n"),
    ("2,52 0 0 0,6 0 0 0,", "load 3 ZeroDivisor at 0", "1:3\n2,52 0 0 0,6 0 0 0,\n  ^\n"),
    ("2,100 0 0 32,6 0 0 0,", "load 4 Shift at 0", "1:3\n2,100 0 0 32,6 0 0 0,\n  ^\n"),
    ("2,2 0 0 16,6 0 0 0,", "load 5 Scratch at 0", "1:3\n2,2 0 0 16,6 0 0 0,\n  ^\n"),
    ("2,32 0 0 2147483648,6 0 0 0,", "load 6 Offset at 0", "1:3\n2,32 0 0 2147483648,6 0 0 0,\n  ^\n"),
    ("2,5 0 0 1,6 0 0 0,", "load 7 Jump at 0", "1:3\n2,5 0 0 1,6 0 0 0,\n  ^\n"),
    ("2,6 0 0 0,0 0 0 1,", "load 8 NoReturn", ""),
    ("4,21 0 1 0,2 0 0 0,96 0 0 0,22 0 0 0,", "load 9 Unstored at 2 word 0", "1:20\n4,21 0 1 0,2 0 0 0,96 0 0 0,22 0 0 0,\n" + " " * 19 + "^\n"),
    ("3\n0 0 0 1\n\n 52 0 0 0\n6 0 0 0\n", "load 3 ZeroDivisor at 1", "4:2\n 52 0 0 0\n ^\n"),
)
# Blanks around a filter are bytes of it, so that offsets count them; others than the form has are faults.
BLANKS = (
    ("  1,x", "numeric 1 Character at 4", "1:5\n  1,x\n    ^\n"),
    ("\n\n1,6 0 256 0", "numeric 2 Number at 8", "3:7\n1,6 0 256 0\n      ^\n"),
    ("2,6 0 0 0, \n", "numeric 4 Count at 12", "1:1\n2,6 0 0 0, \n^\n"),
    ("\n , \n2,6 0 0 0", "numeric 4 Count at 14", "3:1\n2,6 0 0 0\n^\n"),
    (" \t\n", "numeric 3 Form at 3", ""),
    ("\v1,6 0 0 0,", "numeric 1 Character at 0", "1:1\n"),
    ("1,6 0 0 0,\f", "numeric 1 Character at 10", "1:11\n"),
    ("1,6 0 0 0,\u00a0", "numeric 1 Character at 10", "1:11\n1,6 0 0 0,\u00a0\n          ^\n"),
)
# Texts in the place of the numeric form, and what they look like. All are refused at their first byte.
WRITTEN = (
    ("ip and udp", EXPRESSION),
    ("ether[4:2] = 5", EXPRESSION),
    ("!ip", EXPRESSION),
    ("(tcp or udp)", EXPRESSION),
    ("Port 53", EXPRESSION),
    ("ret #0", SOURCE),
    ("ldh [4]\njne #5, drop\nret #-1\ndrop: ret #0\n", SOURCE),
    ("ldh [4]\njne 5, drop\nret #-1\n", SOURCE),
    ("ldh [4]\n\njne 5, drop", SOURCE),
    ("{ return 1; }", NOT_NUMERIC),
    ("\"ip\"", NOT_NUMERIC),
)
# What is wrong with a run: the contents of inputs, the paths in the place of the desk's, the fault, and what stands before
# the advice at a terminal. `missing` and `directory` stand for such paths.
MISSING, DIRECTORY, THROUGH = "No such file or directory (os error 2)", "Is a directory (os error 21)", "Not a directory (os error 20)"
RUNS = (
    ({}, {"config": "missing"}, "file --config", "{config}: " + MISSING + "\n"),
    ({}, {"config": "directory"}, "file --config", "{config}: " + DIRECTORY + "\n"),
    ({"config": b"constant = \xff"}, {}, "file --config", "{config}: not UTF-8 at byte 11\n"),
    ({"config": b" " * 16777217}, {}, "file --config", "{config}: it has 16777217 bytes\n"),
    ({}, {"filter": "missing"}, "file --filter", "{filter}: " + MISSING + "\n"),
    ({}, {"filter": "through"}, "file --filter", "{filter}: " + THROUGH + "\n"),
    ({"filter": b"\xff"}, {}, "file --filter", "{filter}: not UTF-8 at byte 0\n"),
    ({}, {"a": "missing"}, "file --a", "{a}: " + MISSING + "\n"),
    ({}, {"b": "missing"}, "file --b", "{b}: " + MISSING + "\n"),
    ({}, {"b": "through"}, "file --b", "{b}: " + THROUGH + "\n"),
    ({}, {"capture": "directory"}, "file --capture", "{capture}: " + DIRECTORY + "\n"),
    ({}, {"ledger": "directory"}, "file --ledger", "{ledger}: " + DIRECTORY + "\n"),
    ({}, {"ledger": "through"}, "file --ledger", "{ledger}: " + THROUGH + "\n"),
    ({"config": 'filters = ["1,x"]\n' + TABLE}, {}, "numeric 1 Character at 2 filter 1", '{config}:1:1: filter 1\nfilters = ["1,x"]\n^\n1,x\n  ^\n'),
    ({"config": f'filters = ["{EVERY}", "0,"]\n' + TABLE}, {}, "load 1 Length filter 2", f'{{config}}:1:1: filter 2\nfilters = ["{EVERY}", "0,"]\n^\n'),
    ({"config": "filters = [\n'1,52 0 0 0,']\n" + TABLE}, {}, "load 3 ZeroDivisor at 0 filter 1", "{config}:1:1: filter 1\nfilters = [\n^\n1,52 0 0 0,\n  ^\n"),
    ({"filter": "1,x"}, {}, "numeric 1 Character at 2", "{filter}:1:3\n1,x\n  ^\n"),
    ({"filter": "2,52 0 0 0\n6 0 0 0"}, {}, "load 3 ZeroDivisor at 0", "{filter}:1:3\n2,52 0 0 0\n  ^\n"),
    ({"filter": "0,"}, {}, "load 1 Length", "{filter}: "),
    ({"a": b""}, {}, "watch 2 Header A 1 Short", "{a}: "),
    ({"a": bytes(24)}, {}, "watch 2 Header A 2 Magic", "{a}: "),
    ({"a": header(version=(2, 3))}, {}, "watch 2 Header A 3 Version", "{a}: "),
    ({"b": header(link_type=101)}, {}, "watch 2 Header B 4 LinkType", "{b}: "),
    ({}, {"a": "directory"}, "watch 3 Read A", "{a}: " + DIRECTORY + "\n"),
    ({}, {"b": "directory"}, "watch 3 Read B", "{b}: " + DIRECTORY + "\n"),
    ({}, {"capture": "/dev/full"}, "watch 4 Write capture", "{capture}: " + FULL + "\n"),
    ({}, {"ledger": "/dev/full"}, "watch 4 Write ledger", "{ledger}: " + FULL + "\n"),
)
BRAKE, FLAPS = 'link 0, id 5, name "brake"', 'link 1, id 6, name "flaps"'
LINK_6 = LINK_5.replace("= 5", "= 6").replace("brake", "flaps")
# Links as inline tables: a whole one, and one around its BAG.
OF_INLINE = "link = [{ id = 5, name = 'brake', bag_ms = 1, jitter_us = 0, smax = 200, integrity = true, redundancy = true, skew_us = 1 }"
INLINE = "constant = 50331648\n" + OF_INLINE
AT_BAG, AFTER_BAG = '{ id = 6, name = "flaps", ', ", jitter_us = 0, smax = 200, integrity = true, redundancy = true, skew_us = 1 }"
# A table, its fault, what a terminal shows after the table's path, and by what to correct it. TABLE has its link in line 3.
TABLES = (
    ("constant = \n", "1 Text", ":1:12: invalid value, expected a string, number, boolean, date-time, array or inline table\nconstant = \n           ^\n", NO_DOCUMENT),
    (TABLE + "[[link]\n", "1 Text", ":12:8: unclosed array table, expected `]]`\n[[link]\n       ^\n", NO_DOCUMENT),
    (TABLE + "smax = 200\n", "1 Text", ":12:1: duplicate key\nsmax = 200\n^\n", NO_DOCUMENT),
    (LINK_5, "2 Missing top", ": constant is missing\n", ALLOWED["constant"]),
    (TABLE + LINK_6.replace("smax = 200\n", ""), "2 Missing link 1", f":13:1: {FLAPS}: smax is missing\n[[link]]\n^\n", ALLOWED["smax"]),
    (TABLE + "[[link]]\n", "2 Missing link 1", ":12:1: link 1: id is missing\n[[link]]\n^\n", ALLOWED["id"]),
    ("constant = true", "3 Kind top", ":1:1: constant = true\nconstant = true\n^\n", ALLOWED["constant"]),
    ("constant = 50331648\nlink = [5]\n", "3 Kind top", ":2:1: link = a value of type array\nlink = [5]\n^\n", ALLOWED["link"]),
    ("filters = [\"1,6 0 0 0,\", 5]\n" + TABLE, "3 Kind top", ":1:1: filters = a value of type array\nfilters = [\"1,6 0 0 0,\", 5]\n^\n", ALLOWED["filters"]),
    (TABLE.replace("smax = 200", 'smax = "200"'), "3 Kind link 0", f':8:1: {BRAKE}: smax = "200"\nsmax = "200"\n^\n', ALLOWED["smax"]),
    (TABLE.replace("true", '"on"', 1), "3 Kind link 0", f':9:1: {BRAKE}: integrity = "on"\nintegrity = "on"\n^\n', ALLOWED["integrity"]),
    ("late_us = 1000001\n" + TABLE, "4 Range top", ":1:1: late_us = 1000001\nlate_us = 1000001\n^\n", ALLOWED["late_us"]),
    (TABLE.replace("50331648", "1"), "4 Range top", ":1:1: constant = 1\nconstant = 1\n^\n", ALLOWED["constant"]),
    (TABLE.replace("bag_ms = 1", "bag_ms = 3"), "4 Range link 0", f":6:1: {BRAKE}: bag_ms = 3\nbag_ms = 3\n^\n", ALLOWED["bag_ms"]),
    (TABLE.replace("bag_ms = 1", "  \"bag_ms\"=3 # ms"), "4 Range link 0", f":6:3: {BRAKE}: bag_ms = 3\n  \"bag_ms\"=3 # ms\n  ^\n", ALLOWED["bag_ms"]),
    (TABLE.replace("bag_ms = 1", "bag_ms = 3").replace("\n", "\r\n"), "4 Range link 0", f":6:1: {BRAKE}: bag_ms = 3\nbag_ms = 3\n^\n", ALLOWED["bag_ms"]),
    (TABLE + LINK_6.replace("smax = 200", "smax = 63"), "4 Range link 1", f":18:1: {FLAPS}: smax = 63\nsmax = 63\n^\n", ALLOWED["smax"]),
    (TABLE.replace("id = 5", "id = -1"), "4 Range link 0", ':4:1: link 0, id -1, name "brake": id = -1\nid = -1\n^\n', ALLOWED["id"]),
    (TABLE + 'group = "port 7"\n', "4 Range link 0", f':12:1: {BRAKE}: group = "port 7"\ngroup = "port 7"\n^\n', ALLOWED["group"]),
    (TABLE + "group = 7\n", "3 Kind link 0", f":12:1: {BRAKE}: group = 7\ngroup = 7\n^\n", ALLOWED["group"]),
    (TABLE.replace("brake", "b r"), "4 Range link 0", ':5:1: link 0, id 5, name "b r": name = "b r"\nname = "b r"\n^\n', ALLOWED["name"]),
    (TABLE.replace("brake", "b" * 64), "4 Range link 0", f':5:1: link 0, id 5, name "{"b" * 64}": name = "{"b" * 64}"\nname = "{"b" * 64}"\n^\n', ALLOWED["name"]),
    (TABLE.replace("brake", "b" * 65), "4 Range link 0", f':5:1: link 0, id 5: name = a value of type string\nname = "{"b" * 65}"\n^\n', ALLOWED["name"]),
    (TABLE.replace("jitter_us = 0", "jitter_us = 100001"), "4 Range link 0", f":7:1: {BRAKE}: jitter_us = 100001\njitter_us = 100001\n^\n", ALLOWED["jitter_us"]),
    (TABLE.replace("skew_us = 1000", "skew_us = 1000001"), "4 Range link 0", f":11:1: {BRAKE}: skew_us = 1000001\nskew_us = 1000001\n^\n", ALLOWED["skew_us"]),
    ("Constant = 5\n" + TABLE, "5 UnknownKey top", ":1:1: unknown key Constant\nConstant = 5\n^\n", TOP_KEYS),
    (TABLE + "bag = 4\n", "5 UnknownKey link 0", f":12:1: {BRAKE}: unknown key bag\nbag = 4\n^\n", LINK_KEYS),
    (TABLE + LINK_5.replace("brake", "flaps"), "6 TwiceId link 1", ':14:1: link 1, id 5, name "flaps": id = 5\nid = 5\n^\n', BRAKE + " has it too: each link has its own id"),
    (TABLE + LINK_5.replace("= 5", "= 6"), "7 TwiceName link 1", ':15:1: link 1, id 6, name "brake": name = "brake"\nname = "brake"\n^\n', BRAKE + " has it too: each link has its own name"),
    (f"filters = {['1,6 0 0 0,'] * 8}\n" + TABLE, "8 TooMany", f":1:1: 1 link and 8 filters\nfilters = {['1,6 0 0 0,'] * 8}\n^\n", COUNTS),
    ("constant = 50331648\n" + "[[link]]\n" * 4097, "8 TooMany", ":4098:1: 4097 links and 0 filters\n[[link]]\n^\n", COUNTS),
    # What stands in strings and arrays is no header and no key. Inline tables have their place; a long line isn't shown.
    ('filters = ["""\n[[link]]\nbag_ms = 3\n""", [\n[[1]]], "]"]\n' + TABLE, "3 Kind top", ":1:1: filters = a value of type array\n" + 'filters = ["""\n^\n', ALLOWED["filters"]),
    ('filters = ["""\n[[link]]\nbag_ms = 3\n"""]\n' + TABLE.replace("bag_ms = 1", "bag_ms = 3"), "4 Range link 0", f":10:1: {BRAKE}: bag_ms = 3\nbag_ms = 3\n^\n", ALLOWED["bag_ms"]),
    (f"{INLINE}, {AT_BAG}bag_ms = 3{AFTER_BAG}]\n", "4 Range link 1", f":2:{len(OF_INLINE + AT_BAG) + 3}: {FLAPS}: bag_ms = 3\n", ALLOWED["bag_ms"]),
    (f"{INLINE},\n  {AT_BAG}bag_ms = 3{AFTER_BAG} # [\n]\n", "4 Range link 1", f":3:{len(AT_BAG) + 3}: {FLAPS}: bag_ms = 3\n  {AT_BAG}bag_ms = 3{AFTER_BAG} # [\n{' ' * (len(AT_BAG) + 2)}^\n", ALLOWED["bag_ms"]),
    (f"{INLINE},\n  {{ id = 6 }}]\n", "2 Missing link 1", ":3:3: link 1, id 6: name is missing\n  { id = 6 }]\n  ^\n", ALLOWED["name"]),
    (f"{INLINE}, {{ }}]\n", "2 Missing link 1", f":2:{len(OF_INLINE) + 3}: link 1: id is missing\n{OF_INLINE}, {{ }}]\n{' ' * (len(OF_INLINE) + 2)}^\n", ALLOWED["id"]),
)
# pcapng files whose first section header is wrong, and the fault.
SECTIONS = (
    (Blocks().section(magic=1).bytes(), "5 ByteOrderMagic"),
    (Blocks().section(2).bytes(), "6 SectionVersion"),
    (Blocks().section(length=24).bytes(), "7 SectionLength"),
    (Blocks().section(last=24).bytes(), "8 SectionLengthsDiffer"),
    (Blocks().section(options=b"\1\0\x09\0").bytes(), "9 SectionOption"),
)
# Files that are no recordings, the fault, and what its advice is where the first bytes say what they are.
HEADS = (
    (b"\x0a\x0d\x0d\x0a" + bytes(40), "5 ByteOrderMagic", ADVICE["watch 2 Header A 5"]),
    (b"\x1f\x8b\x08\0" + bytes(40), "2 Magic", GZIP),
    (b"\x28\xb5\x2f\xfd" + bytes(40), "2 Magic", ZSTD),
    (b"\xfd7zXZ\0" + bytes(40), "2 Magic", XZ),
    (header(link_type=0x24000001), "4 LinkType", CHECK_SEQUENCES),
    (header(layout=">", link_type=0x24000001), "4 LinkType", CHECK_SEQUENCES),
    (header(magic=0xA1B2C3D4, link_type=0x44000001), "4 LinkType", CHECK_SEQUENCES),
    (header(layout=">", link_type=0x24000065), "4 LinkType", ADVICE["watch 2 Header B 4"]),
    (header(link_type=113), "4 LinkType", ADVICE["watch 2 Header B 4"]),
)


LINE = "1000000000000000000 A 0 5 1 regular within first {} - 00\n"


# A copy 1500 us after its delivery, counts of link 5, and the same of another link and of a filter.
LATE_COPY = LINE.format("deliver") + LINE.format("copy").replace("A 0", "B 0").replace("1000000000000000000", "1000000000001500000")
# Four frames at once: their sizes, 64 bytes at least, are more together than Smax, 200.
AT_ONCE = "".join(LINE.format("deliver").replace("A 0 5 1", f"A {k} 5 {k + 1}").replace("first", "next" if k else "first") for k in range(4))
COUNTED = "link {} frames 1 toolong 0 excess 0 out 0 copy 0 delivered 1\n"
# What a ledger of another table has after its head, at which line and as what it contradicts this one, and how.
OF_OTHER_TABLES = (
    (LINE.format("deliver").replace(" 5 1 ", " 500 1 "), "2 link", "link 500 isn't in the table {}"),
    (LINE.format("-").replace("regular within first", "unconfigured - -"), "2 link", "link 5 brake is unconfigured there, and the table {} has it"),
    (LINE.format("both"), "2 link", "link 5 brake has other integrity checking or redundancy management in the table {}"),
    (LATE_COPY, "3 copy", "link 5 brake has a copy 1500 us after its delivery, and SkewMax 1000 us in the table {}"),
    (LINE.format("-").replace("within first", "excess -"), "2 verdict", "link 5 brake has a frame in excess of an account that holds it, by the table {}"),
    (AT_ONCE, "5 verdict", "link 5 brake has a frame within an account that can't hold it, by the table {}"),
    (LINE.format("deliver").replace("- 00", "197 01"), "2 verdict", "link 5 brake has a frame that isn't toolong, and longer than Smax in the table {}"),
    (LINE.format("deliver") + COUNTED.format("5 flaps"), "3 counts", "link 5 brake of the table {} is flaps there"),
    (LINE.format("deliver") + COUNTED.format("4 flaps"), "3 counts", "link 4 isn't in the table {}"),
    (LINE.format("deliver") + "filter 0 accepted 0\n", "3 counts", "link 5 brake of the table {} has no counts there"),
)


# Recordings of two frames that end early, in each way, and one that does before its first frame.
TWO = header() + record(1, frame(5, 60, 1)) + record(2, frame(5, 60, 2))


def two():
    """A pcapng file of two packets."""
    return Blocks().section().interface("eth0", 9).packet(1, frame(5, 60, 1)).packet(2, frame(5, 60, 2))


def many():
    """More interfaces than are read."""
    file = two()
    for _ in range(MOST_INTERFACES):
        file.interface()
    return file


EARLY = (
    (TWO + b"\0", "cut after 2 frames: truncated within a record"),
    (TWO + record(0, frame(5, 60, 3)), "bad after 2 frames: timestamp out of order by 2 ns (--late-us 1 takes it)"),
    (TWO + struct.pack("<IIII", 0, 3, 262145, 60), "bad after 2 frames: captured length over 262144 bytes"),
    (TWO + struct.pack("<IIII", 0, 10**9, 60, 60), "bad after 2 frames: fraction of a second out of range"),
    (header() + struct.pack("<IIII", 0, 3, 262145, 60), "bad after 0 frames: captured length over 262144 bytes"),
    (two().block(CUSTOM, bytes(4), 13).bytes(), "bad after 2 frames: a block's length is wrong"),
    (two().block(CUSTOM, bytes(4), last=20).bytes(), "bad after 2 frames: the two lengths of a block differ"),
    (two().packet(3, b"frame", captured=9).bytes(), "bad after 2 frames: a packet or an option reaches beyond its block"),
    (two().packet(3, b"frame", 1).bytes(), "bad after 2 frames: a packet of an interface that isn't described"),
    (two().bytes() + Blocks().section(2).bytes(), "bad after 2 frames: a section of another version"),
    (two().simple(b"frame").bytes(), "bad after 2 frames: a packet without a timestamp"),
    (two().packet(2**63, b"frame").bytes(), "bad after 2 frames: timestamp before 1970 or after 2106"),
    (many().bytes(), "bad after 2 frames: too many interfaces"),
    (Blocks().section().interface().block(CUSTOM, bytes(4), 13).bytes(), "bad after 0 frames: a block's length is wrong"),
)


class Telling(AtADesk):
    def twice(self, name, line, lead, arguments, advice=None, **how):
        """A fault at a terminal and elsewhere: the same status and fault line, and what leads to the advice, and that, at the
        terminal and with -v alone. Whole lines lead to it, or the file's name before it."""
        expected = f"afdxmon: {line}\n"
        ran = run(arguments, stdout=subprocess.PIPE, **how)
        fault = difference(ran, FAULT, lambda told: told == expected, b"")
        ran = run_at_terminal(arguments, **how)
        whole = expected + lead + (advice or advice_on(line)) + "\n"
        if not fault and (ran.returncode != FAULT or ran.stderr != whole):
            fault = f"at a terminal: status {ran.returncode}, {ran.stderr!r}, not {whole!r}"
        ran = run([arguments[0], "-v", *arguments[1:]], stdout=subprocess.PIPE, **how)
        if not fault and (ran.returncode != FAULT or ran.stderr.decode() != whole):
            fault = f"with -v: status {ran.returncode}, {ran.stderr!r}, not {whole!r}"
        self.case(f"{name}: {line}", fault)
        return line

    def test_faults(self):
        """Each fault that can be had has its own advice."""
        told = []
        for source, line, shown in SOURCES:
            told.append(self.twice("a source", line, shown and "standard input:" + shown, ["asm"], input=source))
        self.no_texts()
        for code, line, shown in CODES + BLANKS:
            lead = f"--code:{shown}" if shown else "--code: "
            told.append(self.twice(f"the filter {code!r}", line, lead, ["capture", "--code", code], input=header()))
        for code, advice in WRITTEN:
            lead = f"--code:1:1\n{code.splitlines()[0]}\n^\n"
            self.twice(f"the filter {code!r}", "numeric 1 Character at 0", lead, ["capture", "--code", code], advice=advice, input=header())
        told += self.runs()
        self.tables()
        self.desk.lay(config=TABLE, filter=EVERY, a=header(), b=header())
        told.append(self.twice("a run", "watch 1 Workers", "", [*self.desk.arguments(), "--workers", "9"], stdin=subprocess.DEVNULL))
        told += self.sessions()
        told += self.captures()
        told += self.reports()
        told += self.switches()
        told += [key for key in ADVICE if key.startswith("report 7 Transit")]  # report_transit.py has these
        told.append(self.twice("a draft", "links 1 Constant", "", ["links", "--a", self.desk.paths["a"], "--constant", "5"], stdin=subprocess.DEVNULL))
        told.append("check 1 Unsound")  # check.py has it, beside the answer
        told += ["file --manifest", "watch 4 Write manifest"]  # manifest.py has these
        told += ["order --a", "repeated --a"]  # several.py has these
        told.append("interfaces RECORDING")  # blocks.py has it
        told.append("file --icd")  # icd.py has it
        told += [f"report 5 Manifest {what}" for what in ("at 1 form", "version", "table", "ledger")]
        told += self.little_memory()
        for key in ADVICE:
            if not any((line + " ").startswith(key) for line in told):
                self.case("each advice", f"no case has the fault {key}")

    def no_texts(self):
        """Standard input that is no text: the reason that is true, of `asm` and of the commands of `debug`."""
        self.desk.lay(filter=EVERY, a=header())
        debug = ["debug", "--filter", self.desk.paths["filter"], "--tap", self.desk.paths["a"]]
        for arguments in (["asm"], debug):
            for given, reason in (
                (b"\xff", "not UTF-8 at byte 0"),
                ("/* \u00e9 */ ret #0 \u00e9".encode()[:-1], "not UTF-8 at byte 16"),
                (b" " * 16777217, "it has more than 16777216 bytes"),
            ):
                self.twice("no text", "file -", f"standard input: {reason}\n", arguments, advice=NO_TEXT, input=given)
            folder = os.open(self.desk.directory, os.O_RDONLY)
            self.twice("a directory as standard input", "file -", f"standard input: {DIRECTORY}\n", arguments, advice=NO_TEXT, stdin=folder)
            os.close(folder)

    def runs(self):
        """What is wrong with a run over two recordings, with the path as it was given."""
        places = {"missing": os.path.join(self.desk.directory, "missing"), "directory": self.desk.directory, "/dev/full": "/dev/full"}
        places["through"] = os.path.join(self.desk.paths["a"], "in")
        told = []
        for contents, elsewhere, line, lead in RUNS:
            self.desk.lay(**{"config": TABLE, "filter": EVERY, "a": header(), "b": header(), **contents})
            paths = {option: places[place] for option, place in elsewhere.items()}
            lead = lead.format(**{**self.desk.paths, **paths})
            told.append(self.twice("a run", line, lead, self.desk.arguments(**paths), stdin=subprocess.DEVNULL))
        self.desk.lay(config=TABLE, filter=EVERY, a=header(), b=header())
        self.twice("a path that is relative", "file --a", "./x: " + MISSING + "\n", self.desk.arguments(a="./x"), cwd=self.desk.directory, stdin=subprocess.DEVNULL)
        for given, fault, advice in HEADS:
            self.desk.lay(config=TABLE, filter=EVERY, a=header(), b=given)
            lead = self.desk.paths["b"] + ": "
            self.twice("a file that is no recording", f"watch 2 Header B {fault}", lead, self.desk.arguments(), advice=advice.format(self.desk.paths["b"]), stdin=subprocess.DEVNULL)
        # Standard input isn't read again, so nothing more is known of it.
        given, lead = b"no recording: 0123456789", "standard input: "
        self.twice("a stream that is no recording", "watch 2 Header A 2 Magic", lead, ["capture", "--code", EVERY], input=given)
        for given, fault in SECTIONS:
            self.desk.lay(config=TABLE, filter=EVERY, a=given, b=header())
            told.append(self.twice("a damaged section header", f"watch 2 Header A {fault}", self.desk.paths["a"] + ": ", self.desk.arguments(), stdin=subprocess.DEVNULL))
        self.refused_to()
        self.piped()
        return told

    def tables(self):
        """What is wrong with a table: the key in its line, what stands there and what is allowed."""
        for table, line, shown, advice in TABLES:
            self.desk.lay(config=table, filter=EVERY, a=header(), b=header())
            self.twice("a table", f"config {line}", self.desk.paths["config"] + shown, self.desk.arguments(), advice=CORRECT + advice, stdin=subprocess.DEVNULL)

    def refused_to(self):
        """Files that another user may not read or write."""
        if os.getuid() != 0:
            return
        self.desk.lay(config=TABLE, filter=EVERY, a=header(), b=header())
        how = {"program": readable_program(self.desk.directory), "stdin": subprocess.DEVNULL, "user": 65534}
        for option in ("config", "a", "capture"):
            os.chmod(self.desk.paths[option], 0o600)
            lead = self.desk.paths[option] + ": Permission denied (os error 13)\n"
            self.twice("a file of another user", f"file --{option}", lead, self.desk.arguments(), **how)
            os.chmod(self.desk.paths[option], 0o666)
        os.chmod(self.desk.directory, 0o700)

    def piped(self):
        """A pipe isn't opened a second time: what is wrong with it is known from its one reading."""
        self.desk.lay(config=TABLE, a=header(), b=header())
        fifo = os.path.join(self.desk.directory, "fifo")
        os.mkfifo(fifo)
        for runner in (run, run_at_terminal):
            writer = subprocess.Popen(["bash", "-c", f"printf '\\377' > '{fifo}'"])
            ran = runner(self.desk.arguments(filter=fifo), stdin=subprocess.DEVNULL, **({} if runner is run_at_terminal else {"stdout": subprocess.PIPE}))
            writer.wait()
            said = ran.stderr if isinstance(ran.stderr, str) else ran.stderr.decode()
            whole = "afdxmon: file --filter\n" + (f"{fifo}: not UTF-8 at byte 0\n{ADVICE['file --filter']}\n" if runner is run_at_terminal else "")
            self.case("a pipe as a filter", "" if (ran.returncode, said) == (FAULT, whole) else f"status {ran.returncode}, {said!r}, not {whole!r}")
        os.remove(fifo)

    def sessions(self):
        """What is wrong with a session: its recording is --tap, and its fault lines call that A."""
        self.desk.lay(filter=EVERY, a=b"", b=header()[:4] + bytes(20), capture="1,x")
        missing = os.path.join(self.desk.directory, "missing")
        told = []
        for filters, tap, line, lead in (
            ("filter", missing, "file --tap", f"{missing}: {MISSING}\n"),
            ("filter", self.desk.directory, "watch 3 Read A", f"{self.desk.directory}: {DIRECTORY}\n"),
            ("filter", self.desk.paths["a"], "watch 2 Header A 1 Short", self.desk.paths["a"] + ": "),
            ("filter", self.desk.paths["b"], "watch 2 Header A 3 Version", self.desk.paths["b"] + ": "),
            ("capture", self.desk.paths["a"], "numeric 1 Character at 2", self.desk.paths["capture"] + ":1:3\n1,x\n  ^\n"),
        ):
            arguments = ["debug", "--filter", self.desk.paths[filters], "--tap", tap]
            told.append(self.twice("a session", line, lead, arguments, stdin=subprocess.DEVNULL))
        return told

    def captures(self):
        """What is wrong with a capture that names its files."""
        self.desk.lay(filter="1,x", a=header(), b="ldh [12]\nret x\n")
        missing = os.path.join(self.desk.directory, "missing")
        filters, tap, source = (self.desk.paths[name] for name in ("filter", "a", "b"))
        told = []
        for line, lead, arguments in (
            ("file RECORDING", f"{missing}: {MISSING}\n", ["--code", EVERY, missing]),
            ("file --source", f"{missing}: {MISSING}\n", ["--source", missing, tap]),
            ("file --output", f"{self.desk.directory}: {DIRECTORY}\n", ["--code", EVERY, tap, "-o", self.desk.directory]),
            ("numeric 1 Character at 2", f"{filters}:1:3\n1,x\n  ^\n", ["--filter", filters, tap]),
            ("asm 1 Text 3 Form at 13", f"{source}:2:5\nret x\n    ^\n", ["--source", source, tap]),
        ):
            told.append(self.twice("a capture", line, lead, ["capture", *arguments], stdin=subprocess.DEVNULL))
        return told

    def reports(self):
        """What is wrong with a ledger that a report is made of."""
        head, told = "afdx-ledger 2\n", []
        self.desk.lay(config=TABLE)
        ledger = os.path.join(self.desk.directory, "given.ledger")
        for text, line in (
            ("x\n", "report 1 Ledger at 1 head"),
            (head + "x\n", "report 1 Ledger at 2 timestamp"),
            (head + LINE.format("copy"), "report 2 Contradiction at 2 copy"),
            (head + LINE.format("deliver") + "link 5 frames 2\n", "report 2 Contradiction at 3 counts"),
        ):
            with open(ledger, "w", encoding="ascii") as out:
                out.write(text)
            told.append(self.twice("a report", line, f"{ledger}: ", ["report", "--config", self.desk.paths["config"], "--ledger", ledger], stdin=subprocess.DEVNULL))
        told += self.other_tables(head, ledger)
        arguments = ["report", "--config", self.desk.paths["config"], "--ledger", self.desk.directory]
        told.append(self.twice("a report", "report 3 Read Ledger", f"{self.desk.directory}: {DIRECTORY}\n", arguments, stdin=subprocess.DEVNULL))
        return told

    def other_tables(self, head, ledger):
        """A ledger of another table, its own and that of an earlier flight: the link, and how both differ."""
        told, table = [], self.desk.paths["config"]
        own = os.path.join(self.desk.directory, "own.ledger")
        with open(own, "w", encoding="ascii") as out:
            out.write(head + LINE.format("deliver"))
        for text, place, words in OF_OTHER_TABLES:
            with open(ledger, "w", encoding="ascii") as out:
                out.write(head + text)
            line, _ = place.split()
            advice = f"line {line}: " + words.format(table) + "\n" + DISPUTED
            arguments = ["report", "--config", table, "--ledger", ledger]
            told.append(self.twice("a report", f"report 2 Contradiction at {place}", f"{ledger}: ", arguments, advice=advice, stdin=subprocess.DEVNULL))
            arguments = ["report", "--config", table, "--ledger", own, "--baseline", ledger]
            self.twice("a report of two flights", f"report 6 Baseline 2 Contradiction at {place}", f"{ledger}: ", arguments, advice=advice, stdin=subprocess.DEVNULL)
            arguments = ["report", "--config", table, "--ledger", "-"]
            self.twice("a report of a pipe", f"report 2 Contradiction at {place}", "standard input: ", arguments, advice=advice, input=(head + text).encode())
            advice = f"line {line}: " + words.format("standard input") + "\n" + DISPUTED
            arguments = ["report", "--config", "-", "--ledger", ledger]
            self.twice("a report by a piped table", f"report 2 Contradiction at {place}", f"{ledger}: ", arguments, advice=advice, input=TABLE.encode())
        return told

    def switches(self):
        """What is wrong with the recordings at a switch, whose answer goes to standard output, and with the links that are routed."""
        self.desk.lay(config=TABLE, a=header(), b=header())
        arguments = ["transit", *(word for option, of in (("config", "config"), ("before", "a"), ("after", "b")) for word in (f"--{option}", self.desk.paths[of]))]
        whole = f"afdxmon: transit 1 Unsound\n{ADVICE['transit 1 Unsound']}\n"
        ran = run([*arguments, "-v"], stdin=subprocess.DEVNULL, stdout=subprocess.PIPE)
        self.case("a switch: transit 1 Unsound", difference(ran, FAULT, lambda told: told == whole))
        told = self.twice("a switch", "transit 8 Selection routed at 0", "", [*arguments, "--routed", "70000"], stdin=subprocess.DEVNULL)
        return ["transit 1 Unsound", told]

    def little_memory(self):
        """A process of 16 MiB: a text of 16 MB doesn't fit, nor does the stack of a thread, which has 8 MiB."""

        def limit():
            resource.setrlimit(resource.RLIMIT_STACK, (8 * MIB, 8 * MIB))
            resource.setrlimit(resource.RLIMIT_AS, (16 * MIB, 16 * MIB))

        blanks = b" " * (16 * 10**6)
        self.desk.lay(config=TABLE, filter=EVERY, a=header(), b=header())
        debug = ["debug", "--filter", self.desk.paths["filter"], "--tap", self.desk.paths["a"]]
        ran = run(self.desk.arguments(), stdin=subprocess.DEVNULL, stdout=subprocess.PIPE, preexec_fn=limit)
        made = watch(TABLE, EVERY, header(), header())
        self.case("little memory: no room for a thread", self.desk.agrees(ran, made.capture, made.lines + made.summary))
        told = [self.twice("little memory", "asm 8 Memory", "", ["asm"], input=blanks + b"ret #0", preexec_fn=limit)]
        told.append(self.twice("little memory", "debug 4 Memory", "", debug, input=blanks, preexec_fn=limit))
        self.desk.lay(config=TABLE, filter=blanks + EVERY.encode(), a=header(), b=header())
        told.append(self.twice("little memory", "watch 7 Memory", "", self.desk.arguments(), stdin=subprocess.DEVNULL, preexec_fn=limit))
        return told

    def test_helps(self):
        """Help and version, whole, on standard output, at a terminal and elsewhere, by each way to ask for them."""
        version = version_of_the_program()
        asked = [(["--help"], PROGRAM_HELP), (["-h"], PROGRAM_HELP), (["help"], PROGRAM_HELP), (["--version"], version), (["-V"], version)]
        for command in ABOUT:
            asked += [([command, "--help"], help_of(command)), ([command, "-h"], help_of(command)), (["help", command], help_of(command))]
        for arguments, text in asked:
            # Where the usage is clap's own it names the program by its file.
            for usage in ("Usage: afdxmon <COMMAND>", "Usage: afdxmon asm [OPTIONS]"):
                text = text.replace(usage, usage.replace("afdxmon", os.path.basename(PROGRAM)))
            fault = difference(run(arguments, stdin=subprocess.DEVNULL, stdout=subprocess.PIPE), SUCCESS, "", text.encode())
            ran = run_at_terminal(arguments, stdin=subprocess.DEVNULL)
            if not fault and (ran.returncode != SUCCESS or ran.stderr or ran.stdout != text.encode()):
                fault = f"at a terminal: status {ran.returncode}, {ran.stderr!r}, {ran.stdout!r}"
            self.case(f"the text of {' '.join(arguments)}", fault)

    def test_notes(self):
        """The note on a recording that ends early, and at a terminal what to do with it. Elsewhere the note stands alone."""
        for given, ending in EARLY:
            note = f"afdxmon: note: recording ends {ending}\n"
            self.desk.lay(filter=EVERY, a=given)
            debug = ["debug", "--filter", self.desk.paths["filter"], "--tap", self.desk.paths["a"]]
            for arguments, how, name in (
                (["capture", "--code", EVERY], {"input": given}, "standard input"),
                (debug, {"stdin": subprocess.DEVNULL}, self.desk.paths["a"]),
            ):
                ran = run(arguments, stdout=subprocess.PIPE, **how)
                fault = difference(ran, SUCCESS, note[:-1])
                ran = run_at_terminal(arguments, **how)
                whole = f"{note}{name}: {advice_on_ending(note)}\n"
                if not fault and (ran.returncode, ran.stderr) != (SUCCESS, whole):
                    fault = f"at a terminal: status {ran.returncode}, {ran.stderr!r}, not {whole!r}"
                self.case(f"a note of {arguments[0]}: {ending}", fault)
