"""Small pairs of recordings with a table and filters, made by chance, for the tests of `afdxmon watch`."""
import struct

from tests.harness import EVERY, FIRST_64, LINK5, ODD, header, record

# ldb [5], st M[1], tax, ldb [x + 0], add x, ldx M[1], sub x, ret a: the byte at the offset that the link's low byte says
BY_LINK = "8,48 0 0 5,2 0 0 1,7 0 0 0,80 0 0 0,12 0 0 0,97 0 0 1,28 0 0 0,22 0 0 0,"
# ldxb 4*([14]&0xf), ldh [x + 4], mod #3, neg, jgt #0, ret a, ret #0
BY_HEADER_LENGTH = "7,177 0 0 14,72 0 0 4,148 0 0 3,132 0 0 0,37 0 1 0,22 0 0 0,6 0 0 0,"
FILTERS = [EVERY, FIRST_64, LINK5, ODD, BY_LINK, BY_HEADER_LENGTH, "1,6 0 0 0,", "1,6 0 0 1,"]
# What the pairs together have to show; `toomany` needs 2^32 frames.
WORDS = {
    *"cut runt oversize foreign unconfigured toolong regular within excess first reset next skip off out".split(),
    *"deliver copy both clean bad length fraction stampback fileheader A B - 00 01 02 03 ff".split(),
}
LINK = """
[[link]]
id = {}
name = "link-{}"
bag_ms = {}
jitter_us = {}
smax = {}
integrity = {}
redundancy = {}
skew_us = {}
"""


def table(chance, links, late):
    lines = ["constant = 50331648\n"]
    if late is not None:
        lines.append(f"late_us = {late}\n")
    filters = [chance.choice(FILTERS) for _ in range(chance.choice((0, 0, 1, 2, 7)))]
    if filters:
        lines.append(f"filters = {filters}\n")
    for link in links:
        switches = [chance.choice(("true", "true", "true", "false")) for _ in range(2)]
        jitter, smax = chance.choice((0, 0, 1, 500, 100000)), chance.choice((64, 65, 100, 200, 1518, 1518))
        lines.append(LINK.format(link, link, chance.choice((1, 1, 2, 8, 128)), jitter, smax, *switches, chance.choice((0, 1, 3, 1000, 1000000))))
    return "".join(lines)


def number_after(chance, number):
    """Mostly the next one."""
    after = number % 255 + 1
    return chance.choice([after] * 8 + [number, 0, after % 255 + 1, chance.randrange(256)])


def frame(chance, link, number):
    size = chance.choice((60, 60, 61, 96, 97, 196)) if chance.random() < 0.8 else chance.choice((0, 3, 5, 59, 60, 197, 1514, 1515))
    constant = b"\3\0\0\0" if chance.random() < 0.95 else b"\7\0\0\0"
    return (constant + struct.pack(">H", link) + chance.randbytes(max(0, size - 7)) + bytes([number]))[:size]


def sent(chance, links):
    """Frames as they are sent: a time, and the bytes."""
    time, numbers = chance.choice((0, 999_997_000, 10**18)), dict.fromkeys([*links, 9], 254)
    for _ in range(chance.randrange(60)):
        time += chance.choice((0, 0, 1000, 1001, 3000, 999_999, 10**6, 2 * 10**6, 10**8))
        link = 9 if chance.random() < 0.03 else chance.choice(links)
        numbers[link] = number_after(chance, numbers[link])
        yield time, frame(chance, link, numbers[link])


def ending(chance, packets, layout, unit, last):
    """What may stand after the last packet."""
    kind = chance.choice(("clean", "clean", "clean", "cut", "length", "fraction", "stampback", "fileheader"))
    following = record(last, bytes(60), layout, unit)
    if kind == "cut":
        return (packets + following)[: -chance.randrange(1, 76)]
    if kind == "length":
        return packets + following[:8] + struct.pack(layout + "II", 262145, 262145)
    if kind == "fraction":
        return packets + following[:4] + struct.pack(layout + "I", 10**9 // unit) + following[8:]
    if kind == "fileheader":
        return packets + header(chance.choice("<>"), chance.choice((0xA1B23C4D, 0xA1B2C3D4))) + following
    if kind == "stampback" and last > 2 * 10**6:
        return packets + record(last - 2 * 10**6, bytes(60), layout, unit)
    return packets


def tap(chance, frames, late):
    """A network's recording: of the frames some are lost, each arrives later, some are recorded out of order."""
    layout, unit = chance.choice("<>"), chance.choice((1, 1, 1000))
    delay = chance.choice((0, 1, 1000, 10**6))
    taken = sorted((time + chance.choice((delay, delay, 0)), data) for time, data in frames if chance.random() < 0.9)
    for i in range(len(taken) - 1):
        if chance.random() < 0.2 and taken[i + 1][0] - taken[i][0] <= 1000 * (late or 0) + chance.choice((0, 0, 0, 1)):
            taken[i], taken[i + 1] = taken[i + 1], taken[i]
    packets = b""
    for stamp, data in taken:
        # One packet of twenty is truncated, one says a wire length below what it holds.
        packets += record(stamp, data, layout, unit, chance.choice([len(data)] * 18 + [len(data) + 4, len(data) // 2]))
    last = max((stamp for stamp, _ in taken), default=0)
    return header(layout, 0xA1B23C4D if unit == 1 else 0xA1B2C3D4) + ending(chance, packets, layout, unit, last)


def pair(chance):
    """A table, a filter, and the recordings of both networks."""
    links = chance.sample((5, 6, 8, 300, 65535), chance.randrange(1, 5))
    late = chance.choice((None, 0, 1, 3, 1000))
    frames = list(sent(chance, links))
    return table(chance, links, late), chance.choice(FILTERS), tap(chance, frames, late), tap(chance, frames, late)
