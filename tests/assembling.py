"""Tests of `afdxmon asm` as a program: each mnemonic with each form of operand, whole filters, and faults."""
import subprocess

from tests.harness import FAULT, SUCCESS, Case
from tests.harness import run
from tests.texts import FULL, UNWRITTEN

# Each form as one statement, and its word as Linux's bpf_asm prints it. `then` is 2 statements farther than the next,
# `else` 3.
FORMS = (
    # loads, stores and moves
    ("ld [14]", "32 0 0 14"), ("ld [x + 14]", "64 0 0 14"), ("ld [%x + 14]", "64 0 0 14"),
    ("ld M[14]", "96 0 0 14"), ("ld #14", "0 0 0 14"), ("ld len", "128 0 0 0"), ("ld #len", "128 0 0 0"),
    ("ldi #14", "0 0 0 14"), ("ldi 14", "0 0 0 14"), ("ldh [14]", "40 0 0 14"), ("ldh [x + 14]", "72 0 0 14"),
    ("ldb [14]", "48 0 0 14"), ("ldb [x + 14]", "80 0 0 14"), ("ldx M[14]", "97 0 0 14"),
    ("ldx #14", "1 0 0 14"), ("ldx 4*([14]&0xf)", "177 0 0 14"), ("ldx len", "129 0 0 0"),
    ("ldx #len", "129 0 0 0"), ("ldxi #14", "1 0 0 14"), ("ldxi 14", "1 0 0 14"),
    ("ldxb 4*([14]&0xf)", "177 0 0 14"), ("st M[14]", "2 0 0 14"), ("stx M[14]", "3 0 0 14"),
    ("tax", "7 0 0 0"), ("txa", "135 0 0 0"),
    # arithmetic
    ("add #14", "4 0 0 14"), ("add x", "12 0 0 0"), ("sub #14", "20 0 0 14"), ("sub x", "28 0 0 0"),
    ("mul #14", "36 0 0 14"), ("mul x", "44 0 0 0"), ("div #14", "52 0 0 14"), ("div x", "60 0 0 0"),
    ("or #14", "68 0 0 14"), ("or x", "76 0 0 0"), ("and #14", "84 0 0 14"), ("and x", "92 0 0 0"),
    ("lsh #14", "100 0 0 14"), ("lsh x", "108 0 0 0"), ("rsh #14", "116 0 0 14"), ("rsh x", "124 0 0 0"),
    ("mod #14", "148 0 0 14"), ("mod x", "156 0 0 0"), ("xor #14", "164 0 0 14"), ("xor %x", "172 0 0 0"),
    ("neg", "132 0 0 0"), ("add #-14", "4 0 0 4294967282"),
    # jumps
    ("jmp then", "5 0 0 2"), ("ja else", "5 0 0 3"), ("jeq #14, then", "21 2 0 14"),
    ("jeq #14, then, else", "21 2 3 14"), ("jeq x, then", "29 2 0 0"), ("jeq x, then, else", "29 2 3 0"),
    ("jeq %x, then", "29 2 0 0"), ("jgt #14, then", "37 2 0 14"), ("jgt #14, then, else", "37 2 3 14"),
    ("jgt x, then", "45 2 0 0"), ("jgt x, then, else", "45 2 3 0"), ("jge #14, then", "53 2 0 14"),
    ("jge #14, then, else", "53 2 3 14"), ("jge x, then", "61 2 0 0"), ("jge x, then, else", "61 2 3 0"),
    ("jset #14, then", "69 2 0 14"), ("jset #14, then, else", "69 2 3 14"), ("jset x, then", "77 2 0 0"),
    ("jset x, then, else", "77 2 3 0"), ("jneq #14, then", "21 0 2 14"), ("jneq x, then", "29 0 2 0"),
    ("jne #14, then", "21 0 2 14"), ("jne x, then", "29 0 2 0"), ("jlt #14, then", "53 0 2 14"),
    ("jlt x, then", "61 0 2 0"), ("jle #14, then", "37 0 2 14"), ("jle x, then", "45 0 2 0"),
    ("jeq #14, else, then", "21 3 2 14"), ("jeq #14, then, then", "21 2 2 14"),
    # returns
    ("ret #14", "6 0 0 14"), ("ret a", "22 0 0 0"), ("ret %a", "22 0 0 0"),
    # either case, signs, the bases of numbers, and blanks between tokens
    ("ld [%x+-4]", "64 0 0 4294967292"), ("ldi +7", "0 0 0 7"), ("ldxi #0b101", "1 0 0 5"), ("ldxi 017", "1 0 0 15"),
    ("ldh [x+4]", "72 0 0 4"), ("ldx m[3]", "97 0 0 3"), ("ldx LEN", "129 0 0 0"), ("ldx # len", "129 0 0 0"),
    ("ldxb 0x4 * ( [14] & 15 )", "177 0 0 14"), ("mul %x", "44 0 0 0"), ("jge %x, then, else", "61 2 3 0"),
    ("jle %X, then", "45 0 2 0"),
)
TAIL = "\nret #1\nret #2\nthen: ret #3\nelse: ret #4\n"
TAIL_FORM = "6 0 0 1,6 0 0 2,6 0 0 3,6 0 0 4,"
# Whole filters, and their numeric form.
FILTERS = (
    ("a path without a store", "jeq #0, s, n\ns: st M[0]\nn: ld M[0]\nret a\n", "4,21 0 1 0,2 0 0 0,96 0 0 0,22 0 0 0,"),
    (
        "a sequence number one byte too early",
        "      ld len\n      sub #2\n      tax\n      ldb [x + 0]\n      jeq #17, keep\n      ret #0\nkeep: ret #-1\n",
        "7,128 0 0 0,20 0 0 2,7 0 0 0,80 0 0 0,21 1 0 17,6 0 0 0,6 0 0 4294967295,",
    ),
    # A jump that always goes has 32 bits for its distance.
    ("a jump over 256 statements", "jmp l" + "\nret #0" * 256 + "\nl: ret #0\n", "258,5 0 0 256," + "6 0 0 0," * 257),
)
# Faults beside those of `sources` in tests/program.
FAULTS = (
    ("X: ret #0", "1 Text 4 ReservedLabel at 0"),
    # The text's fault comes before those of its labels.
    ("jmp l ldq [1]", "1 Text 3 Form at 10"),
    ("; nothing\n/* at all */", "2 Empty"),
    ("l: jmp l ret #0", "6 Backward at 0"),
    # A label that stands twice comes before any target, and targets go from left to right.
    ("jmp n l: ret #0 l: ret #0", "4 TwiceLabel at 2"),
    ("l: jeq #0, l, n ret #0", "6 Backward at 0"),
    ("l: jeq #0, n, l ret #0", "5 NoLabel at 0"),
    ("jne #0, l" + "\nret #0" * 256 + "\nl: ret #0\n", "7 TooFar at 0"),
)


class Assembling(Case):
    def assembled(self, name, source, status, line, out):
        self.judge(name, run(["asm"], input=source.encode(), stdout=subprocess.PIPE), status, line, out.encode())

    def test_full_disks(self):
        """Of a form that fits into what is handed over at once, and of one that doesn't."""
        for name, source in (("a filter", "ret #0\n"), ("a filter of 4096 instructions", "ld #4294967295\n" * 4095 + "ret #0\n")):
            with open("/dev/full", "wb") as full:
                ran = run(["asm", "-v"], input=source.encode(), stdout=full)
            self.judge(f"asm: {name} on a full disk", ran, FAULT, f"afdxmon: file -\nstandard output: {FULL}\n{UNWRITTEN}")

    def test_statements(self):
        for statement, word in FORMS:
            self.assembled(f"the statement {statement}", statement + TAIL, SUCCESS, "", f"5,{word},{TAIL_FORM}\n")

    def test_filters(self):
        for name, source, form in FILTERS:
            self.assembled(f"asm: {name}", source, SUCCESS, "", form + "\n")

    def test_faults(self):
        for source, fault in FAULTS:
            self.assembled(f"asm: the fault {fault} of {source[:40]!r}", source, FAULT, f"afdxmon: asm {fault}", "")
