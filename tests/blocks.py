"""Recordings as pcapng, read by each command: what is read of them, and what is told of those that are wrong.

Files are written here block by block after the IETF's draft of pcapng 1.0, and read by a slow reader over the whole list of
blocks. It shares nothing with the product. Where dumpcap's tools are installed, files of theirs are read too.
"""
import os
import random
import shutil
import struct
import subprocess

from tests import pairs
from tests.harness import EVERY, FAULT, FIRST_64, SUCCESS, Case, difference, frame, header, record, run
from tests.reference import FILE_STARTS, HEADER, disorder, parse, record_of
from tests.texts import ADVICE
from tests.watching import TABLE

SECTION, INTERFACE, OLD_PACKET, SIMPLE, NAMES, STATISTICS, PACKET, CUSTOM = 0x0A0D0D0A, 1, 2, 3, 4, 5, 6, 0xBAD
NAME, RESOLUTION, OFFSET, COMMENT = 2, 9, 14, 1
MAX_NAME = 64
MOST_CAPTURED, MOST_BLOCK, MOST_INTERFACES, LAST_SECOND = 262144, 1 << 20, 256, 1 << 32
# The words of an ending's line: settled here, and nowhere else in these tests.
REASONS = {
    "blocklength": "a block's length is wrong",
    "blocklengthsdiffer": "the two lengths of a block differ",
    "blockbounds": "a packet or an option reaches beyond its block",
    "unknowninterface": "a packet of an interface that isn't described",
    "section": "a section of another version",
    "simplepacket": "a packet without a timestamp",
    "stamprange": "timestamp before 1970 or after 2106",
    "severalinterfaces": "packets of several interfaces, and none is chosen",
    "toomanyinterfaces": "too many interfaces",
    "nosuchinterface": "the chosen interface isn't there",
    "length": "captured length over 262144 bytes",
    "fileheader": "another pcap file begins here",
    "stampback": "timestamp out of order",
}


class Blocks:
    """A file that is written block by block, in a section's byte order."""

    def __init__(self, order="<"):
        self.order, self.out = order, []

    def pack(self, form, *values):
        return struct.pack(self.order + form, *values)

    def block(self, kind, body, length=None, last=None):
        body += bytes(-len(body) % 4)
        length = len(body) + 12 if length is None else length
        self.out.append(self.pack("II", kind, length) + body + self.pack("I", length if last is None else last))
        return self

    def options(self, *given, end=True):
        packed = b"".join(self.pack("HH", code, len(value)) + value + bytes(-len(value) % 4) for code, value in given)
        return packed + bytes(4) if given and end else packed

    def section(self, major=1, minor=0, magic=0x1A2B3C4D, options=b"", **how):
        return self.block(SECTION, self.pack("IHHq", magic, major, minor, -1) + options, **how)

    def interface(self, name=None, resolution=None, offset=None, link_type=1, more=(), **how):
        given = [*more]
        if name is not None:
            given.append((NAME, name.encode()))
        if resolution is not None:
            given.append((RESOLUTION, bytes([resolution])))
        if offset is not None:
            given.append((OFFSET, self.pack("q", offset)))
        return self.block(INTERFACE, self.pack("HHI", link_type, 0, 0) + self.options(*given), **how)

    def packet(self, ticks, data, interface=0, original=None, options=b"", captured=None, **how):
        fields = self.pack("IIIII", interface, ticks >> 32 & 0xFFFFFFFF, ticks & 0xFFFFFFFF, len(data) if captured is None else captured, len(data) if original is None else original)
        return self.block(PACKET, fields + data + bytes(-len(data) % 4) + options, **how)

    def old_packet(self, ticks, data, interface=0, original=None):
        fields = self.pack("HHIIII", interface, 7, ticks >> 32 & 0xFFFFFFFF, ticks & 0xFFFFFFFF, len(data), len(data) if original is None else original)
        return self.block(OLD_PACKET, fields + data + bytes(-len(data) % 4))

    def simple(self, data):
        return self.block(SIMPLE, self.pack("I", len(data)) + data)

    def bytes(self):
        return b"".join(self.out)


def nanoseconds(ticks, resolution, offset):
    """A timestamp since 1970, cut down to nanoseconds."""
    fine = 2 ** (resolution & 0x7F) if resolution & 0x80 else 10**resolution
    return ticks * 10**9 // fine + offset * 10**9


class Wrong(Exception):
    """A block that ends the reading, with the reason's word."""


def options_of(order, body):
    """The options, up to their end."""
    found, at = [], 0
    while at + 4 <= len(body):
        code, length = struct.unpack_from(order + "HH", body, at)
        if code == 0:
            return found
        if at + 4 + length > len(body):
            raise Wrong("blockbounds")
        found.append((code, body[at + 4 : at + 4 + length]))
        at += 4 + length + -length % 4
    if at < len(body):
        raise Wrong("blockbounds")
    return found


def first(options, code, size):
    """The first option of a code, whose length is fixed where a size is given."""
    found = [value for one, value in options if one == code]
    if found and size is not None and any(len(value) != size for value in found):
        raise Wrong("blockbounds")
    return found[0] if found else None


def interface_of(order, body):
    """An interface's link type, name, resolution and offset."""
    options = options_of(order, body[8:])
    resolution, offset = first(options, RESOLUTION, 1), first(options, OFFSET, 8)
    return {
        "ethernet": struct.unpack_from(order + "H", body)[0] == 1,
        "name": first(options, NAME, None),
        "resolution": 6 if resolution is None else resolution[0],
        "offset": 0 if offset is None else struct.unpack(order + "q", offset)[0],
    }


def blocks_of(data):
    """Each block of a file, with its byte order. The last one may be a part, or wrong."""
    at, order = 0, "<"
    while at < len(data):
        if len(data) - at < 8:
            raise EOFError
        if data[at : at + 4] == b"\x0a\x0d\x0d\x0a" and len(data) - at >= 12:
            order = ">" if data[at + 8 : at + 12] == b"\x1a\x2b\x3c\x4d" else "<"
        kind, length = struct.unpack_from(order + "II", data, at)
        if length % 4 or length < 12:
            raise Wrong("blocklength")
        if len(data) - at < length:
            raise EOFError
        if struct.unpack_from(order + "I", data, at + length - 4)[0] != length:
            raise Wrong("blocklengthsdiffer")
        yield order, kind, data[at + 8 : at + length - 4]
        at += length


class Reader:
    """Reads the frames of the chosen interface, one block after another."""

    def __init__(self, choice):
        self.choice, self.interfaces, self.frames, self.skipped, self.high, self.late = choice, [], [], 0, 0, None
        # With no choice: each section's interface that had packets, by its number and its name, and that of this section.
        self.earlier, self.here = [], None
        self.was_described = choice is None

    def chosen(self, number):
        if self.choice is None:
            if self.here is None and self.is_other(number):
                raise Wrong("severalinterfaces")
            if self.here not in (None, number):
                raise Wrong("severalinterfaces")
            self.here = number
            return True
        if isinstance(self.choice, int):
            return number == self.choice
        names = [one["name"] for one in self.interfaces]
        return self.choice.encode() in names and names.index(self.choice.encode()) == number

    def name_of(self, number):
        name = self.interfaces[number]["name"]
        return None if name is None or len(name) > MAX_NAME else name

    def is_other(self, number):
        """An interface of this section isn't the one of earlier sections, whose numbers say nothing where both have names."""
        if not self.earlier:
            return False
        names = [name for _, name in self.earlier if name is not None]
        if names and self.name_of(number) is not None:
            return names[-1] != self.name_of(number)
        return self.earlier[-1][0] != number

    def take(self, order, number, high, low, captured, original, rest):
        if number >= len(self.interfaces):
            raise Wrong("unknowninterface")
        if captured > MOST_CAPTURED:
            raise Wrong("length")
        if captured + -captured % 4 > len(rest):
            raise Wrong("blockbounds")
        options_of(order, rest[captured + -captured % 4 :])
        one = self.interfaces[number]
        if not one["ethernet"]:
            # Of a chosen interface alone it is told that it gives nothing.
            self.skipped += self.choice is None or self.chosen(number)
            return
        if not self.chosen(number):
            return
        stamp = nanoseconds(high << 32 | low, one["resolution"], one["offset"])
        if not 0 <= stamp < LAST_SECOND * 10**9:
            raise Wrong("stamprange")
        if not captured and not original and record_of(stamp, 0, b"")[:8] in FILE_STARTS:
            raise Wrong("fileheader")
        if stamp < self.high:
            self.late = self.high - stamp
            raise Wrong("stampback")
        self.high = stamp
        self.frames.append((stamp, max(captured, original), rest[:captured]))

    def pass_block(self, order, kind, body):
        if kind == SECTION:
            if struct.unpack_from(order + "H", body, 4)[0] != 1:
                raise Wrong("section")
            if self.here is not None:
                self.earlier.append((self.here, self.name_of(self.here)))
            self.interfaces, self.here = [], None
        elif kind == INTERFACE:
            self.interfaces.append(interface_of(order, body))
            number = len(self.interfaces) - 1
            self.was_described = self.was_described or self.choice in (number, (self.interfaces[-1]["name"] or b"").decode())
        elif kind == PACKET:
            self.take(order, *struct.unpack_from(order + "IIIII", body), body[20:])
        elif kind == OLD_PACKET:
            number, _, *fields = struct.unpack_from(order + "HHIIII", body)
            self.take(order, number, *fields, body[20:])
        elif kind == SIMPLE:
            raise Wrong("simplepacket")

    def read(self, data):
        """The frames, the ending in a ledger's words, and how many packets are not of Ethernet."""
        try:
            for order, kind, body in blocks_of(data):
                self.pass_block(order, kind, body)
        except EOFError:
            return self.frames, f"cut {len(self.frames)}", self.skipped
        except Wrong as wrong:
            return self.frames, f"bad {len(self.frames)} {wrong}", self.skipped
        ending = "clean" if self.was_described else "bad"
        return self.frames, f"{ending} {len(self.frames)}" + ("" if self.was_described else " nosuchinterface"), self.skipped


def known_as(earlier, number, name):
    """Which interface of earlier sections this one is: by the names, or where one of the two has none by the numbers."""
    by_name = [at for at, (_, known) in enumerate(earlier) if name is not None and known == name]
    by_number = [at for at, (other, known) in enumerate(earlier) if other == number and None in (known, name)]
    return (by_name + by_number + [None])[0]


def listed(data):
    """The Ethernet interfaces of all sections of a file of whole blocks, each once, as a fault lists them.

    One that has a name has no number there where it has several, or another interface has it in another section.
    """
    known, earlier, count, numbers = [], 0, 0, set()
    for order, kind, body in blocks_of(data):
        if kind == SECTION:
            earlier, count = len(known), 0
        elif kind == INTERFACE:
            one = interface_of(order, body)
            name = None if one["name"] is None or len(one["name"]) > MAX_NAME else one["name"]
            if one["ethernet"]:
                at = known_as(known[:earlier], count, name)
                if at is None:
                    at = len(known)
                    known.append((count, name))
                known[at] = (count, name or known[at][1])
                numbers.add((at, count))
            count += 1
    own = {at for at, number in numbers if all((one == at) == (other == number) for one, other in numbers)}
    words = ((str(number) if at in own or not name else "", name.decode() if name else "") for at, (number, name) in enumerate(known))
    return ", ".join(" ".join(filter(None, one)) for one in words) or "none of Ethernet"


def note_of(ending, skipped, network=None, late=0):
    """What standard error is told, of a timestamp out of order by how many nanoseconds."""
    who = "recording" if network is None else f"recording of network {network}"
    lines = []
    how, count, *reason = ending.split()
    if how != "clean":
        why = REASONS[reason[0]] if reason else "truncated within a record"
        why += disorder("capture", late) if reason == ["stampback"] else ""
        lines.append(f"afdxmon: note: {who} ends {how} after {count} frame{'' if count == '1' else 's'}: {why}")
    if skipped:
        lines.append(f"afdxmon: note: {who} has {skipped} packet{'' if skipped == 1 else 's'} not of Ethernet")
    return "\n".join(lines)


class Bench:
    def __init__(self, directory):
        self.directory = directory

    def path(self, name):
        return os.path.join(self.directory, name)

    def put(self, name, data):
        with open(self.path(name), "wb") as out:
            out.write(data)
        return self.path(name)


DATA = [frame(5, 60, 1), frame(5, 61, 2), frame(6, 62, 3), frame(6, 63, 4)]
SECOND = 1_800_000_000


def four(file, unit=10**6, **how):
    """Four packets, a second apart."""
    for i, data in enumerate(DATA):
        file.packet((SECOND + i) * unit, data, **how)
    return file


def plain(order="<"):
    return Blocks(order).section().interface("eth0", 9)


def both_networks():
    """Two Ethernet interfaces and one of another kind."""
    file = Blocks().section().interface("eth0", 9).interface("usb", 9, link_type=220).interface("eth1", 9)
    for i, data in enumerate(DATA):
        file.packet((SECOND + i) * 10**9, data).packet((SECOND + i) * 10**9 + 5, b"usb", 1).packet((SECOND + i) * 10**9 + 1000, data, 2)
    return file.bytes()


def ticks_of(stamp, resolution):
    """The ticks of a timestamp that the resolution can say."""
    return stamp * 2 ** (resolution & 0x7F) // 10**9 if resolution & 0x80 else stamp * 10**resolution // 10**9


def as_blocks(chance, taps):
    """Recordings as one pcapng file, an interface each, with what else may stand in one."""
    order, resolution = chance.choice("<>"), chance.choice((9, 9, 9, 12))
    offset = chance.choice((None, 0, 1_000_000, -5))
    file = Blocks(order).section()
    for i, _ in enumerate(taps):
        file.interface(f"eth{i}", resolution, offset)
    usb = len(taps)
    file.interface("usb", link_type=220)
    packets = [(at, i, frame) for i, frames in enumerate(taps) for at, frame in enumerate(frames)]
    # Each recording keeps its order; the two are mixed by chance.
    queues = [[one for one in packets if one[1] == i] for i, _ in enumerate(taps)]
    while any(queues):
        _, number, (stamp, original, data) = chance.choice([queue for queue in queues if queue]).pop(0)
        ticks = ticks_of(stamp - (offset or 0) * 10**9, resolution)
        if ticks < 0 or ticks >= 2**64:
            return None
        how = chance.choice(("packet", "packet", "packet", "commented", "old"))
        if how == "old":
            file.old_packet(ticks, data, number, original)
        else:
            file.packet(ticks, data, number, original, file.options((COMMENT, b"x" * chance.randrange(9))) if how == "commented" else b"")
        if chance.random() < 0.1:
            file.block(CUSTOM, chance.randbytes(4 * chance.randrange(9)))
        if chance.random() < 0.05:
            file.packet(chance.randrange(2**64), chance.randbytes(7), usb)
    return file.bytes()


class AtABench(Case):
    """A test of `capture` at a bench of its own."""

    def setUp(self):
        self.bench = Bench(self.folder)

    def captured(self, name, data, choice=None):
        """`capture` of a file and of standard input writes what the slow reader reads, and notes how that ended."""
        reader = Reader(choice)
        frames, ending, skipped = reader.read(data)
        expected = HEADER + b"".join(record_of(*one) for one in frames)
        path = self.bench.put("in.pcapng", data)
        suffix = "" if choice is None else f":{choice}"
        told = note_of(ending, skipped, late=reader.late)
        of_file = of_stream = (SUCCESS, told, expected)
        if ending.endswith("nosuchinterface"):
            # A file is looked at first; of a stream it shows at the end.
            of_file, of_stream = (FAULT, f"afdxmon: interfaces RECORDING: {listed(data)}", b""), (FAULT, told, expected)
        fault = difference(run(["capture", "--code", EVERY, path + suffix], stdin=subprocess.DEVNULL, stdout=subprocess.PIPE), *of_file)
        stream = "/dev/stdin" + suffix if suffix else "-"
        fault = fault or difference(run(["capture", "--code", EVERY, stream], input=data, stdout=subprocess.PIPE), *of_stream)
        self.case(f"pcapng: {name}{suffix}", fault)

    def refused(self, name, data, line, choice=""):
        """A file that is refused, with its line; no output is made."""
        path = self.bench.put("in.pcapng", data)
        out = self.bench.path("refused.out")
        ran = run(["capture", "--code", EVERY, path + choice, "-o", out], stdin=subprocess.DEVNULL, stdout=subprocess.PIPE)
        fault = difference(ran, FAULT, line, b"")
        if not fault and os.path.exists(out) and os.path.getsize(out):
            fault = "an output was begun"
        self.case(f"pcapng: {name}", fault)


class Pcapng(AtABench):

    def test_formats(self):
        """Byte orders, resolutions, offsets, options, blocks that aren't read."""
        for order in "<>":
            self.captured(f"microseconds, {order}", four(Blocks(order).section().interface()).bytes())
            self.captured(f"nanoseconds, {order}", four(plain(order), 10**9).bytes())
            for resolution in (0, 1, 3, 6, 7, 9):
                self.captured(f"resolution {resolution}, {order}", four(Blocks(order).section().interface("eth0", resolution), 10**resolution).bytes())
            for resolution, ticks in ((10, 18_000_000_001_234_567_891), (12, 2**64 - 1), (18, 2**64 - 1), (19, 2**63), (20, 2**64 - 1), (28, 2**64 - 1), (29, 2**64 - 1), (127, 2**64 - 1)):
                self.captured(f"resolution {resolution}, {order}", Blocks(order).section().interface("eth0", resolution).packet(ticks, DATA[0]).bytes())
            for power in (0, 1, 10, 20, 30, 31, 32, 34, 35, 52, 63, 64, 65, 94, 127):
                ticks = min(2**64 - 1, (SECOND << power) + (1 << power) // 3) if power < 64 else 2**64 - 1
                self.captured(f"resolution 2^-{power}, {order}", Blocks(order).section().interface("eth0", 128 + power).packet(ticks, DATA[0]).bytes())
            for offset in (-SECOND, -1, 0, 1, LAST_SECOND - SECOND - 4, LAST_SECOND - SECOND - 3, LAST_SECOND, -SECOND - 1, 2**63 - 1, -(2**63)):
                self.captured(f"offset {offset}, {order}", four(Blocks(order).section().interface("eth0", 6, offset)).bytes())
            more = [(COMMENT, b"a comment"), (3, b"xyz"), (12, b"Linux"), (RESOLUTION, b"\x09"), (RESOLUTION, b"\x06"), (2988, b"12345")]
            self.captured(f"options, {order}", four(Blocks(order).section(options=Blocks(order).options((COMMENT, b"of a section"), (2, b"hardware"))).interface("eth0", more=more), 10**9).bytes())
            file = plain(order).block(NAMES, bytes(8)).block(CUSTOM, bytes(40))
            for i, data in enumerate(DATA):
                file.packet((SECOND + i) * 10**9, data, options=file.options((COMMENT, b"packet %d" % i), (2, bytes(4)), end=i % 2 == 0)).block(STATISTICS, file.pack("III", 0, 0, 0))
            self.captured(f"blocks that aren't read, {order}", file.bytes())
        self.captured("the obsolete packet block", plain().old_packet(SECOND * 10**9, DATA[0]).old_packet(SECOND * 10**9 + 1, DATA[1], original=100).bytes())
        self.captured("a length on the wire", plain().packet(1, DATA[0], original=1000).packet(2, DATA[1], original=3).packet(3, b"", original=60).bytes())
        self.captured("version 1.2", four(Blocks().section(minor=2).interface()).bytes())
        self.captured("no interface", Blocks().section().bytes())
        self.captured("no packet", plain().bytes())

    def test_sections(self):
        """Sections number their interfaces anew, in byte orders of their own."""
        two = four(Blocks("<").section().interface("eth0", 9), 10**9).bytes() + Blocks(">").section().interface("eth0").packet((SECOND + 5) * 10**6, DATA[0]).bytes()
        self.captured("two sections", two)
        self.captured("two sections", two, 0)
        self.captured("two sections", two, "eth0")
        self.captured("two sections", two, 1)
        other = four(Blocks().section().interface("eth0", 9), 10**9).bytes() + Blocks().section().interface("lo", 9, link_type=113).interface("eth0", 9).packet((SECOND + 5) * 10**9, DATA[0], 1).bytes()
        self.captured("an interface of another number in each section", other, "eth0")
        self.captured("an interface of another number in each section", other, 0)
        self.captured("a packet before its section's interface", four(plain(), 10**9).section().packet(SECOND * 10**9 + 10**10, DATA[0]).bytes())

    def two_of_a_name(self):
        """Of several interfaces of one name in a section its first is meant by the name, each by its number."""
        file = Blocks().section().interface("usb", 9, link_type=220).interface("eth0", 9).interface("eth0", 9).interface("eth1", 9)
        for i, data in enumerate(DATA):
            for number in (2, 1, 3):
                file.packet((SECOND + i) * 10**9 + number, data[:60] + bytes([number]), number)
        later = Blocks(">").section().interface("eth1").interface("eth0").packet((SECOND + 9) * 10**6, DATA[0], 1).interface("eth0").packet((SECOND + 10) * 10**6, DATA[1], 2)
        both = file.bytes() + later.packet((SECOND + 11) * 10**6, DATA[2], 1).bytes()
        kinds = Blocks().section().interface("eth0", 9, link_type=220).interface("eth0", 9).packet(1, DATA[0], 1).packet(2, DATA[1]).packet(3, DATA[2], 1).bytes()
        for choice in ("eth0", 1, 2, "eth1"):
            self.captured("two interfaces of a name", file.bytes(), choice)
            self.captured("two interfaces of a name, in two sections", both, choice)
        self.captured("two interfaces of a name, the first not of Ethernet", kinds, "eth0")
        frames, ending, _ = Reader("eth0").read(file.bytes())
        self.case("pcapng: a name means the first interface of it", "" if [data[-1] for *_, data in frames] == [1] * len(DATA) else ending)

    def test_absent(self):
        """A chosen interface that isn't there, or comes late, in files larger than what is looked at first."""
        large = plain()
        for i in range(1000):
            large.packet((SECOND + i) * 10**9, bytes(1500) + bytes([i % 256]))
        late = large.bytes() + Blocks().section().interface("eth0").interface("late").packet((SECOND + 2000) * 10**6, DATA[0], 1).bytes()
        for choice in (9, "late", "eth0", 0, 1):
            self.captured("one interface, 1.5 MB", large.bytes(), choice)
            self.captured("an interface of a second section, after 1.5 MB", late, choice)
        for name, words in (("watch", ["--config", self.bench.put("table", TABLE.encode()), "--a", "FILE", "--ledger", "OUT"]), ("links", ["--a", "FILE"]), ("cut", ["--ledger", self.bench.put("ledger", b"afdx-ledger 2\n"), "--a", "FILE", "-o", "OUT"])):
            places = {"FILE": self.bench.put("in.pcapng", large.bytes()) + ":9", "OUT": self.bench.put("older", b"older")}
            ran = run([name, *(places.get(word, word) for word in words)], stdin=subprocess.DEVNULL, stdout=subprocess.PIPE)
            fault = difference(ran, FAULT, f"afdxmon: interfaces --a: {listed(large.bytes())}", b"")
            with open(places["OUT"], "rb") as out:
                self.case(f"pcapng: {name} of an interface that isn't there", fault or ("" if out.read() == b"older" else "an output was begun"))

    def test_choices(self):
        """An interface by its number and its name; a path that is there as it stands wins."""
        both = both_networks()
        for choice in (0, 1, 2, 3, 65535, "eth0", "eth1", "usb", "eth", "eth00", "ETH0"):
            self.captured("interfaces", both, choice)
        self.two_of_a_name()
        several = "afdxmon: interfaces RECORDING: 0 eth0, 2 eth1"
        self.refused("several interfaces", both, several)
        ran = run(["capture", "-v", "--code", EVERY, self.bench.path("in.pcapng")], stdin=subprocess.DEVNULL, stdout=subprocess.PIPE)
        self.case("pcapng: several interfaces, in full", difference(ran, FAULT, f"{several}\n{self.bench.path('in.pcapng')}: {ADVICE['interfaces']}", b""))
        damaged = Blocks().section().interface("eth0", 9).interface("eth1", 9).packet(1, DATA[0]).packet(2, DATA[1], 1).interface("eth2", 9, last=8)
        self.refused("an interface whose lengths differ isn't listed", damaged.bytes(), "afdxmon: interfaces RECORDING: 0 eth0, 1 eth1")
        usb = Blocks().section().interface("usb", 9, link_type=220).packet(1, b"usb").bytes()
        for name, data, choice in (("another kind alone", usb, ":eth7"), ("no interface", Blocks().section().bytes(), ":0")):
            self.refused(f"an interface of a file of {name}", data, "afdxmon: interfaces RECORDING: none of Ethernet", choice)
        self.beside_a_dash()
        one = Blocks().section().interface("eth0", 9).interface("eth1", 9)
        for i, data in enumerate(DATA):
            one.packet((SECOND + i) * 10**9, data, 1)
        self.captured("two interfaces, packets of one", one.bytes())
        self.captured("two interfaces, packets of one", one.bytes(), 0)
        nameless = Blocks().section().interface(None, 9).interface(None, 9).packet(1, DATA[0]).packet(2, DATA[0], 1).bytes()
        self.refused("several interfaces without names", nameless, "afdxmon: interfaces RECORDING: 0, 1")
        ran = run(["capture", "--code", EVERY, "-"], input=both, stdout=subprocess.PIPE)
        frames, ending, skipped = Reader(None).read(both)
        self.case("pcapng: several interfaces through a pipe", difference(ran, SUCCESS, note_of(ending, skipped), HEADER + b"".join(record_of(*frame) for frame in frames)))
        literal = self.bench.put("x:1", four(plain(), 10**9).bytes())
        self.bench.put("x", both)
        ran = run(["capture", "--code", EVERY, literal], stdin=subprocess.DEVNULL, stdout=subprocess.PIPE)
        self.case("pcapng: a path that is there as it stands", difference(ran, SUCCESS, "", HEADER + b"".join(record_of(*one) for one in Reader(None).read(four(plain(), 10**9).bytes())[0])))
        ran = run(["capture", "--code", EVERY, self.bench.path("missing:0")], stdin=subprocess.DEVNULL, stdout=subprocess.PIPE)
        self.case("pcapng: neither the path nor what stands before the colon", difference(ran, FAULT, "afdxmon: file RECORDING", b""))
        recording = self.bench.put("plain.pcap", header() + record(5, DATA[0]))
        ran = run(["capture", "--code", EVERY, recording + ":0"], stdin=subprocess.DEVNULL, stdout=subprocess.PIPE)
        self.case("pcapng: an interface of a pcap file", difference(ran, SUCCESS, "", HEADER + record(5, DATA[0])))
        self.of_pcap(recording)

    def beside_a_dash(self):
        """`-` is standard input, beside a file of that name too: that isn't looked at, and nothing is read twice. The file is `./-`."""
        self.bench.put("-", both_networks())
        late = plain().packet(SECOND * 10**9 + 5000, DATA[0]).packet(SECOND * 10**9, DATA[1])
        for name, data in (("in order", four(plain(), 10**9).bytes()), ("out of order", late.bytes())):
            for word, choice in (("-", None), ("-:0", 0), ("-:eth0", "eth0")):
                reader = Reader(choice)
                frames, ending, skipped = reader.read(data)
                ran = run(["capture", "--code", EVERY, "--", word], cwd=self.bench.directory, input=data, stdout=subprocess.PIPE)
                expected = HEADER + b"".join(record_of(*one) for one in frames)
                self.case(f"pcapng: {word} beside a file -, {name}", difference(ran, SUCCESS, note_of(ending, skipped, late=reader.late), expected))
        ran = run(["capture", "--code", EVERY, "./-"], cwd=self.bench.directory, stdin=subprocess.DEVNULL, stdout=subprocess.PIPE)
        self.case("pcapng: ./- is the file", difference(ran, FAULT, "afdxmon: interfaces RECORDING: 0 eth0, 2 eth1", b""))

    def of_pcap(self, recording):
        """A pcap file has the interface 0, without a name: another one that is chosen isn't there."""
        later = self.bench.put("later.pcap", header() + record(6, DATA[1]))
        config, older = self.bench.put("table", TABLE.encode()), self.bench.put("older", b"older")
        for choice in (":1", ":eth7", ":00001", ":-"):
            for words, option in (
                (["capture", "--code", EVERY, "-o", older], "RECORDING"),
                (["watch", "--config", config, "--ledger", older, "--a"], "--a"),
                (["links", "--b"], "--b"),
                (["check", "--config", config, "--a"], "--a"),
            ):
                for files in ([recording + choice], [recording, later + choice]):
                    words_too = [*words, *files] if words[0] != "capture" else [*words[:3], *files, *words[3:]]
                    ran = run(words_too, stdin=subprocess.DEVNULL, stdout=subprocess.PIPE)
                    self.case(f"pcapng: {words[0]} of {len(files)} pcap files, {choice}", difference(ran, FAULT, f"afdxmon: interfaces {option}: 0", b""))
        with open(older, "rb") as out:
            self.case("pcapng: an interface of a pcap file, refused", "" if out.read() == b"older" else "an output was begun")

    def test_wrong(self):
        """Each thing that may be wrong later than the first section header, after a good packet."""

        def begun(order="<"):
            return plain(order).packet(SECOND * 10**9, DATA[0])

        later = SECOND * 10**9 + 1
        for order in "<>":
            for length in (0, 4, 8, 13, 14, 15, 2**32 - 1):
                self.captured(f"a block of {length} bytes, {order}", begun(order).block(CUSTOM, bytes(400), length).bytes())
            self.captured(f"another length at the end, {order}", begun(order).packet(later, DATA[1], last=96).bytes())
            self.captured(f"another length at the end of a block that isn't read, {order}", begun(order).block(CUSTOM, bytes(400), last=416).packet(later, DATA[1]).bytes())
            self.captured(f"captured bytes beyond the block, {order}", begun(order).packet(later, DATA[1], captured=65).bytes())
            self.captured(f"an option beyond the block, {order}", begun(order).packet(later, DATA[1], options=struct.pack(order + "HH", 1, 5) + bytes(4)).bytes())
            self.captured(f"an interface that isn't described, {order}", begun(order).packet(later, DATA[1], 1).bytes())
            self.captured(f"a section of version 2, {order}", begun(order).bytes() + Blocks(order).section(2).interface().bytes())
            self.captured(f"a simple packet, {order}", begun(order).simple(DATA[1]).bytes())
            self.captured(f"a timestamp before the one before it, {order}", begun(order).packet(later - 2, DATA[1]).bytes())
            self.captured(f"a resolution of two bytes, {order}", begun(order).interface(more=[(RESOLUTION, b"66")]).bytes())
            self.captured(f"an offset of four bytes, {order}", begun(order).interface(more=[(OFFSET, b"6666")]).bytes())
        for seconds, fraction in (struct.unpack("<II", start) for start in FILE_STARTS):
            stamp = seconds * 10**9 + fraction
            self.captured(f"no bytes at {seconds}.{fraction:09}, as a pcap file begins", begun().packet(stamp, b"").packet(stamp, DATA[1]).bytes())
            self.captured(f"no bytes a nanosecond after {seconds}.{fraction:09}", plain().packet(stamp + 1, b"").packet(stamp + 1, DATA[1]).bytes())
            self.captured(f"no bytes of one on the wire at {seconds}.{fraction:09}", plain().packet(stamp, b"", original=1).bytes())
        for size in (MOST_CAPTURED - 1, MOST_CAPTURED, MOST_CAPTURED + 1):
            self.captured(f"{size} captured bytes", begun().packet(later, bytes(size)).packet(later, DATA[0]).bytes())
        self.captured("a long block that isn't read", begun().block(CUSTOM, bytes(3 << 20)).packet(later, DATA[1]).bytes())
        many = begun()
        for _ in range(MOST_INTERFACES - 1):
            many.interface()
        self.captured(f"{MOST_INTERFACES} interfaces", many.packet(later, DATA[1]).bytes())
        say_too_many = many.interface().packet(later, DATA[1]).bytes()
        path = self.bench.put("in.pcapng", say_too_many)
        told = note_of("bad 2 toomanyinterfaces", 0)
        frames = Reader(None).read(say_too_many)[0][:2]
        expected = HEADER + b"".join(record_of(*one) for one in frames)
        self.case(f"pcapng: {MOST_INTERFACES + 1} interfaces", difference(run(["capture", "--code", EVERY, path], stdin=subprocess.DEVNULL, stdout=subprocess.PIPE), SUCCESS, told, expected))

    def test_heads(self):
        """Each thing that may be wrong with the first section header: refused, and no output is begun."""
        line = "afdxmon: watch 2 Header A {}"
        whole = four(plain(), 10**9).bytes()
        for length in (4, 8, 12, 27):
            self.refused(f"a head of {length} bytes", whole[:length], line.format("1 Short"))
        for order in "<>":
            rest = four(plain(order), 10**9).bytes()[28:]
            self.refused(f"another byte-order magic, {order}", Blocks(order).section(magic=0x1A2B3C4E).bytes() + rest, line.format("5 ByteOrderMagic"))
            for version in (0, 2, 256):
                self.refused(f"version {version}, {order}", Blocks(order).section(version).bytes() + rest, line.format("6 SectionVersion"))
            for length in (0, 12, 24, 27, 29, 30, MOST_BLOCK + 4):
                self.refused(f"a head that says {length} bytes, {order}", Blocks(order).section(length=length).bytes() + bytes(MOST_BLOCK), line.format("7 SectionLength"))
            self.refused(f"a head of two lengths, {order}", Blocks(order).section(last=32).bytes() + rest, line.format("8 SectionLengthsDiffer"))
            self.refused(f"a head's option beyond it, {order}", Blocks(order).section(options=struct.pack(order + "HH", 1, 9) + bytes(8)).bytes() + rest, line.format("9 SectionOption"))
        self.refused("the magic number of no recording", b"pcng" + HEADER[4:], line.format("2 Magic"))

    def test_cuts(self):
        """A file cut behind each byte."""
        file = Blocks().section().interface("eth0", 9).packet(5, DATA[0], options=Blocks().options((COMMENT, b"one"))).block(CUSTOM, bytes(20)).packet(7, DATA[1]).bytes()
        for length in range(28, len(file) + 1):
            self.captured(f"cut at byte {length}", file[:length])

    def test_generated(self):
        """`watch` on one file of two interfaces writes what it writes on two pcap files."""
        tried = 0
        for seed in range(40):
            chance = random.Random(1000 + seed)
            config, code, a, b = pairs.pair(chance)
            taps = [parse(given, 1 << 62)[0] for given in (a, b)]
            file = as_blocks(chance, taps)
            if file is None:
                continue
            tried += 1
            for name, data in (("config", config.encode()), ("filter", code.encode()), ("both.pcapng", file)):
                self.bench.put(name, data)
            outs = {}
            for way, names in (("pcap", ("a.pcap", "b.pcap")), ("pcapng", (self.bench.path("both.pcapng") + ":0", self.bench.path("both.pcapng") + ":eth1"))):
                if way == "pcap":
                    names = [self.bench.put(name, HEADER + b"".join(record_of(*one) for one in frames)) for name, frames in zip(names, taps)]
                words = ["watch", "--config", self.bench.path("config"), "--filter", self.bench.path("filter"), "--a", names[0], "--b", names[1]]
                ran = run([*words, "--capture", self.bench.path("capture"), "--ledger", self.bench.path("ledger")], stdin=subprocess.DEVNULL, stdout=subprocess.PIPE)
                with open(self.bench.path("capture"), "rb") as capture, open(self.bench.path("ledger"), "rb") as ledger:
                    outs[way] = ran.returncode, capture.read(), ledger.read()
            self.case(f"pcapng: pair {seed} as one file", "" if outs["pcap"] == outs["pcapng"] else f"{[len(part) for part in outs['pcap'][1:]]}, {[len(part) for part in outs['pcapng'][1:]]}, statuses {outs['pcap'][0]}, {outs['pcapng'][0]}")
            words = ["cut", "--ledger", self.bench.path("ledger"), "--a", self.bench.path("both.pcapng:0"), "--b", self.bench.path("both.pcapng:1"), "--verdict", "delivered"]
            plain_words = [*words[:3], "--a", self.bench.path("a.pcap"), "--b", self.bench.path("b.pcap"), *words[7:]]
            cut_of = [run(one, stdin=subprocess.DEVNULL, stdout=subprocess.PIPE).stdout for one in (words, plain_words)]
            self.case(f"pcapng: cut of pair {seed}", "" if cut_of[0] == cut_of[1] and cut_of[0][:4] == HEADER[:4] else "they differ")
        self.case("pcapng: pairs are tried", "" if tried >= 20 else f"{tried}")

    def test_other_commands(self):
        """`debug` reads pcapng, and notes what is left out; `watch` tells the interfaces of the network's file."""
        both = self.bench.put("both.pcapng", both_networks())
        ran = run(["debug", "--filter", self.bench.put("filter", FIRST_64.encode()), "--tap", both + ":eth1"], input=b"tally\n", stdout=subprocess.PIPE)
        self.case("pcapng: debug", difference(ran, SUCCESS, "", b"frames 4\ntally accepted 4 rejected 0\n"))
        self.bench.put("config", TABLE.encode())
        ledger = self.bench.put("ledger", b"older")
        for network, given in (("A", ["--a", both]), ("B", ["--b", both])):
            ran = run(["watch", "--config", self.bench.path("config"), *given, "--ledger", ledger], stdin=subprocess.DEVNULL, stdout=subprocess.PIPE)
            with open(ledger, "rb") as kept:
                older = kept.read()
            fault = difference(ran, FAULT, f"afdxmon: interfaces --{network.lower()}: 0 eth0, 2 eth1", b"")
            self.case(f"pcapng: several interfaces of network {network}", fault or ("" if older == b"older" else "the ledger was touched"))
        ran = run(["watch", "--config", self.bench.path("config"), "--a", both + ":0", "--b", both + ":1", "--ledger", "-"], stdin=subprocess.DEVNULL, stdout=subprocess.PIPE)
        told = note_of("clean 0", 4, "B")
        self.case("pcapng: packets that are not of Ethernet", difference(ran, SUCCESS, told))
        ran = run(["watch", "--config", self.bench.path("config"), "--a", both + ":0", "--ledger", both], stdin=subprocess.DEVNULL, stdout=subprocess.PIPE)
        self.case("pcapng: an output that is an input", difference(ran, FAULT, "afdxmon: file --ledger", b""))

    def test_tools(self):
        """Files of editcap and mergecap read as the pcap files that they come of."""
        for tool in ("editcap", "mergecap"):
            if not shutil.which(tool):
                self.case(f"pcapng: {tool} is left out", "")
                continue
            taps = [HEADER + b"".join(record(SECOND * 10**9 + i * 1000 + shift, data) for i, data in enumerate(DATA * 9)) for shift in (0, 7)]
            paths = [self.bench.put(f"{i}.pcap", data) for i, data in enumerate(taps)]
            out = self.bench.path("out.pcapng")
            command = [tool, "-F", "pcapng", paths[0], out] if tool == "editcap" else [tool, "-F", "pcapng", "-I", "none", "-w", out, *paths]
            subprocess.run(command, check=True, capture_output=True, timeout=60)
            for i, expected in enumerate(taps[:1] if tool == "editcap" else taps):
                ran = run(["capture", "--code", EVERY, f"{out}:{i}"], stdin=subprocess.DEVNULL, stdout=subprocess.PIPE)
                self.case(f"pcapng: interface {i} of {tool}", difference(ran, SUCCESS, "", expected))
