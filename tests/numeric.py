"""A slow reader of the numeric form, and a filter's text cut at every byte and changed at every byte, beside it.

The reader follows docs/FILTERS.md on the whole list of bytes: commas and newlines separate items, other blanks the numbers
of an item, and the first fault has the byte offset that the table there gives it.
"""
import re
import subprocess

from tests.harness import FAULT, Case, header, run

TEXT = b"4,40 0 0 12,21 0 1 2054,6 0 0 4294967295,6 0 0 0,"
# Each byte of the form, its neighbours, and others that look like blanks, signs or the beginning of a number.
BYTES = b"0123456789, \t\r\n/:;.-+xXa\x01\v\f\x1c\x7f'"
OTHERS = (
    *(b"1,6 0 0 0", b"\n\n1\n\n6 0 0 0\r\n", b"0,", b",,,", b"1 1,6 0 0 0", b"99999999999999999999,", b"4294967296", b"5000,6"),
    *(b"1,65536 0 0 0", b"1,6 0 256 0", b"1,6 0 0 4294967296", b"1,6 0 0 0 0", b"2,6 0 0 0,6 300 0 0,x", b"1,6 0 0 0,6 0 0 0,6"),
)
MOST = (2**16 - 1, 2**8 - 1, 2**8 - 1, 2**32 - 1)


class Refused(Exception):
    """A fault: its number, its name and its byte offset."""


def refuse(number, name, at):
    raise Refused(f"{number} {name} at {at}")


def items_of(text):
    """The items that have a number: of each the numbers, each with the byte offset of its first digit."""
    items = []
    for item in re.finditer(rb"[^,\n]+", text):
        numbers = re.finditer(rb"[0-9]+", item.group())
        items.append([(item.start() + number.start(), int(number.group())) for number in numbers])
    return [item for item in items if item]


def limited(numbers, most):
    for (at, value), limit in zip(numbers, most):
        if value > limit:
            refuse(2, "Number", at)


def read(text):
    """The instructions of a text, each as (code, jt, jf, k)."""
    unknown = re.search(rb"[^0-9, \t\r\n]", text)
    if unknown:
        refuse(1, "Character", unknown.start())
    items = items_of(text)
    if not items:
        refuse(3, "Form", len(text))
    count, *others = items
    if len(count) != 1:
        refuse(3, "Form", count[0][0])
    limited(count, MOST[3:])
    if count[0][1] > 4096:
        refuse(5, "TooMany", count[0][0])
    for item in others:
        if len(item) != 4:
            refuse(3, "Form", item[0][0])
        limited(item, MOST)
    if len(others) != count[0][1]:
        refuse(4, "Count", len(text))
    return [tuple(value for _, value in item) for item in others]


def agrees(text):
    """How the program's answer to a filter's text differs from the slow reader's."""
    # An argument that begins with a dash would be an option.
    code = [b"--code=" + text] if text.startswith(b"-") else ["--code", text]
    ran = run(["capture", *code], input=header(), stdout=subprocess.PIPE)
    told = ran.stderr.decode()
    try:
        read(text)
    except Refused as fault:
        expected = f"afdxmon: numeric {fault}\n"
        return "" if ran.returncode == FAULT and told == expected else f"{text!r}: {told!r}, not {expected!r}"
    # What is read may still not load.
    good = not told.startswith("afdxmon: numeric") and (ran.returncode == FAULT) == told.startswith("afdxmon: load")
    return "" if good else f"{text!r}: status {ran.returncode}, {told!r}"


def changed():
    for at in range(len(TEXT)):
        for byte in BYTES:
            if byte != TEXT[at]:
                yield TEXT[:at] + bytes([byte]) + TEXT[at + 1:]
        yield TEXT[:at] + TEXT[at + 1:]
        yield TEXT[:at] + "\u00a0".encode() + TEXT[at:]


class Numeric(Case):
    def test_prefixes(self):
        faults = [fault for fault in (agrees(TEXT[:length]) for length in range(len(TEXT) + 1)) if fault]
        self.case("the numeric form: every prefix of a filter", "; ".join(faults[:3]))

    def test_changed(self):
        texts = list(changed())
        faults = [fault for fault in map(agrees, texts) if fault]
        self.case(f"the numeric form: {len(texts)} texts that differ in a byte", "; ".join(faults[:3]))

    def test_others(self):
        for text in OTHERS:
            self.case(f"the numeric form: {text!r}", agrees(text))
