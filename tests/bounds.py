"""Runs of `afdxmon watch` at the bounds of the table and of the command line, and between them.

Each value of VALUES is run at least once, the others of its case are chosen by chance. Frames come at the bounds too: of an
account, of SkewMax, of the window for late timestamps and of Smax. Each run is compared with the slow analyser, whole files.
"""
import random
import struct

from tests import pairs
from tests.analyser import watch
from tests.harness import EVERY, header, record
from tests.watching import AtADesk

SECOND = 10**9
LAST_SECOND = 4294967295
VALUES = {
    "workers": (1, 2, 3, 4, 5, 6, 7, 8),
    "filters": (0, 1, 2, 3, 4, 5, 6, 7),
    "name": (1, 2, 16, 17, 31, 32),
    "late_us": (0, 1, 1000, 1001, 500_000, 10**6),
    "skew_us": (0, 1, 1000, 1001, 10**6),
    "jitter_us": (0, 1, 1000, 10**5),
    "smax": (64, 65, 500, 1517, 1518),
    "bag_ms": (1, 2, 4, 8, 16, 32, 64, 128),
    "links": (0, 1, 2, 64),
    "second": (0, 1_988_150_400, 2**31 - 1, 2**31, 3_000_000_000, LAST_SECOND),
    "id": (0, 1, 255, 256, 32768, 65535),
    "constant": (0x03000000, 0x0300FFFF, 0x7FFFFFFF, 0xFFFFFFFF),
    "integrity": ("true", "false"),
    "redundancy": ("true", "false"),
    "ending": ("clean", "cut", "length", "fraction", "stampback"),
}
LINK = """
[[link]]
id = {id}
name = "{name}"
bag_ms = {bag_ms}
jitter_us = {jitter_us}
smax = {smax}
integrity = {integrity}
redundancy = {redundancy}
skew_us = {skew_us}
"""
LETTERS = "abcdefghijklmnopqrstuvwxyzABCDEFGHIJKLMNOPQRSTUVWXYZ0123456789_-"


def names(chance, length, count):
    """So many different names of one length, or longer where there are too few of it."""
    found = {}
    while len(found) < count:
        longer = 3 if length < 3 and len(found) else length
        found["".join(chance.choice(LETTERS) for _ in range(longer))] = None
    return list(found)


def table(chance, case, ids):
    lines = [f"constant = {case['constant']}\nlate_us = {case['late_us']}\n"]
    filters = [chance.choice(pairs.FILTERS) for _ in range(case["filters"])]
    if filters:
        lines.append(f"filters = {filters}\n")
    lines += [LINK.format(**{**case, "id": one, "name": name}) for one, name in zip(ids, names(chance, case["name"], len(ids)))]
    return "".join(lines)


def frames_of(chance, case, ids):
    """Frames as they are sent: a time within the case's second on, and the bytes."""
    time, number, last = case["second"] * SECOND, 0, (LAST_SECOND + 1) * SECOND - 1
    bag, jitter, smax = case["bag_ms"] * 10**6, case["jitter_us"] * 1000, case["smax"]
    steps = (0, 1, 1000, bag - 1, bag, bag + 1, max(0, bag - jitter), jitter, case["late_us"] * 1000)
    for _ in range(chance.randrange(20, 60)):
        time = min(last, time + chance.choice(steps))
        link = chance.choice([*ids, *ids[:3], *ids[:3], 9]) if ids else chance.choice((0, 9, 65535))
        size = chance.choice((60, 60, smax - 4, smax - 4, smax - 3, min(1514, smax + 1), 1514, 59, 1515))
        number = pairs.number_after(chance, number)
        yield time, (struct.pack(">IH", case["constant"], link) + chance.randbytes(size - 7) + bytes([number]))[:size]


def tap(chance, case, sent, delay):
    """A recording of the frames, each later by the delay at most: few are lost, some are recorded late within the window."""
    late, last = case["late_us"] * 1000, (LAST_SECOND + 1) * SECOND - 1
    arrived = []
    for time, data in sent:
        if chance.random() < 0.9:
            stamp = min(last, time + chance.choice((delay, delay, 0)))
            arrived.append((stamp + chance.choice((0, 0, late // 2, late)), stamp, data))
    arrived.sort(key=lambda one: one[:2])
    packets = b"".join(record(stamp, data, original=chance.choice([len(data)] * 18 + [len(data) + 4])) for _, stamp, data in arrived)
    high = max((stamp for _, stamp, _ in arrived), default=0)
    if case["ending"] == "stampback" and high <= late:
        return header() + packets
    return header() + packets + ending(case["ending"], high, high - late - 1)


def ending(kind, high, before):
    following = record(high, bytes(60))
    return {
        "clean": b"",
        "cut": following[:-1],
        "length": following[:8] + struct.pack("<II", 262145, 262145),
        "fraction": following[:4] + struct.pack("<I", SECOND) + following[8:],
        "stampback": record(max(0, before), bytes(60)),
    }[kind]


def inputs(chance, case):
    """The table, the filter and the two recordings of a case."""
    ids = [case["id"], *chance.sample([one for one in range(65536) if one not in (9, case["id"])], max(0, case["links"] - 1))][: case["links"]]
    sent = list(frames_of(chance, case, ids))
    skew = case["skew_us"] * 1000
    delay = chance.choice((0, skew, skew + 1))
    code = chance.choice(pairs.FILTERS)
    return table(chance, case, ids), code, tap(chance, case, sent, 0), tap(chance, case, sent, delay)


def all_cases():
    """The name of each case and what it is made of."""
    for key, values in VALUES.items():
        for value in values:
            chance = random.Random(f"{key} {value}")
            case = {other: chance.choice(others) for other, others in VALUES.items()}
            yield f"{key} {value}", chance, {**case, key: value}
    most = {**{key: values[-1] for key, values in VALUES.items()}, "ending": "clean"}
    least = {**{key: values[0] for key, values in VALUES.items()}, "links": 1}
    for name, case in (("all at the most", most), ("all at the least", least), ("4096 links", {**least, "links": 4096, "name": 32})):
        yield name, random.Random(name), case


class Bounds(AtADesk):
    def test_bounds(self):
        for name, chance, case in all_cases():
            config, code, a, b = inputs(chance, case)
            expected = watch(config, code, a, b)
            self.desk.lay(config=config, filter=code, a=a, b=b)
            ran = self.desk.watch("--workers", str(case["workers"]))
            self.case(f"watch at its bounds: {name}", self.desk.agrees(ran, expected.capture, expected.lines + expected.summary))

    def test_last_nanosecond(self):
        """The largest identifiers of frames and the last timestamp stand alone, and nothing comes after them."""
        alone = header() + record((LAST_SECOND + 1) * SECOND - 1, struct.pack(">IH", 0x03000000, 65535) + bytes(53) + b"\xff")
        link = {"id": 65535, "name": "x", "bag_ms": 128, "jitter_us": 10**5, "smax": 64, "integrity": "true", "redundancy": "true", "skew_us": 10**6}
        config = "constant = 50331648\n" + LINK.format(**link)
        expected = watch(config, EVERY, alone, alone)
        self.desk.lay(config=config, filter=EVERY, a=alone, b=alone)
        self.case("watch at its bounds: the last nanosecond", self.desk.agrees(self.desk.watch(), expected.capture, expected.lines + expected.summary))
