"""Recordings of flights without a fault, and faults that are planted in them, for the tests of `report` and `check`.

A flight is a table and the frames of both networks. Its links send periodically with jitter up to the bound, at random
intervals, in bursts, or a few times; some have redundancy management off, some come on one network alone.
"""
import json
import random
from collections import namedtuple

from tests.harness import frame, header, record

START = 1_800_000_000 * 10**9
MS, SECOND = 10**6, 10**9
CONSTANT = "constant = 50331648\n"
WHOLE = "1,6 0 0 262144,"
Flight = namedtuple("Flight", "links taps")


def link(number, bag=8, jitter=0, redundancy=True, skew=1000):
    return {"id": number, "name": f"link_{number}", "bag_ms": bag, "jitter_us": jitter, "smax": 200, "integrity": True,
            "redundancy": redundancy, "skew_us": skew}


def table_of(links, filters=()):
    text = CONSTANT + "filters = [" + ", ".join(f'"{f}"' for f in filters) + "]\n"
    for one in links:
        text += "\n[[link]]\n" + "".join(f"{key} = {json.dumps(value)}\n" for key, value in one.items())
    return text


def recording_of(frames, snaplen=262144):
    """Frames by (time since the start, bytes)."""
    return header() + b"".join(record(START + stamp, data[:snaplen], original=len(data)) for stamp, data in frames)


# ---- when a link sends

def periodic(chance, one, end):
    """Each BAG, later by up to the jitter, often by all of it: two frames are BAG less jitter apart at least."""
    bag, jitter = one["bag_ms"] * MS, one["jitter_us"] * 1000
    at = chance.randrange(bag)
    while at < end:
        yield at + chance.choice((0, jitter, chance.randrange(jitter + 1)))
        at += bag


def sporadic(chance, one, end, mean=20):
    """At exponential intervals of so many BAG in the mean, one BAG at least."""
    bag = one["bag_ms"] * MS
    at = chance.randrange(bag)
    while at < end:
        yield at
        at += bag + int(chance.expovariate(1 / (mean * bag)))


def bursts(chance, one, end, frames=20, pause=100):
    """So many frames a BAG apart, then a pause of so many BAG in the mean."""
    bag = one["bag_ms"] * MS
    at = chance.randrange(bag)
    while at < end:
        for _ in range(chance.randint(frames // 2, frames)):
            if at < end:
                yield at
            at += bag
        at += bag + int(chance.expovariate(1 / (pause * bag)))


def few(chance, one, end):
    return sorted(chance.randrange(end // MS) * MS for _ in range(chance.randint(1, 12)))


def apart(times, bag):
    """Those that are a BAG apart at least."""
    kept = []
    for at in times:
        if not kept or at - kept[-1] >= bag:
            kept.append(at)
    return kept


# ---- what the networks bring

def following(number):
    return 1 if number == 255 else number + 1


def addressed(data, network):
    """The frame with a source address of this network: its last byte begins with the bits 001 on A and 010 on B."""
    return data[:11] + bytes([0x20 if network == "A" else 0x40]) + data[12:]


def flight_of(chance, sending, skew=100_000):
    """Of (link, times, networks): each frame on these networks, with a skew below this on the later one."""
    taps = {"A": [], "B": []}
    for one, times, networks in sending:
        number = 0
        for at in times:
            late = chance.choice("AB")
            for n in networks:
                stamp = at + (chance.randrange(1, skew) if n == late and len(networks) > 1 else 0)
                taps[n].append((stamp, addressed(frame(one["id"], 60 + number % 64, number), n)))
            number = following(number)
    for n in "AB":
        taps[n].sort(key=lambda f: f[0])
    return Flight([one for one, _, _ in sending], taps)


def without(flight, gone):
    """The flight without the frames of which this holds: (network, time, link)."""
    taps = {n: [f for f in flight.taps[n] if not gone(n, f[0], f[1][5])] for n in "AB"}
    return Flight(flight.links, taps)


def sound_flight(seed):
    """A flight in which nothing is wrong. Each fourth has one network alone."""
    chance = random.Random(seed)
    seconds = chance.choice((4, 8, 12))
    end, alone = seconds * SECOND, seed % 4 == 3
    sending = []
    for number in range(1, chance.randint(5, 9)):
        off = chance.random() < 0.3
        one = link(number, chance.choice((4, 8, 16, 32, 64, 128)), chance.choice((0, 100, 500)), not off)
        kind = chance.choice((periodic, periodic, sporadic, bursts, few)) if number > 2 else periodic
        if kind is not periodic:
            one["jitter_us"] = 0
        times = list(kind(chance, one, end))
        if kind is few:
            times = apart(times, one["bag_ms"] * MS)
        networks = "A" if alone else chance.choice(("A", "B", "AB")) if off else "AB"
        sending.append((one, times, networks))
    return flight_of(chance, sending)
