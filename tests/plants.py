"""Flights of many links with planted faults, whose findings are known before the program runs.

A flight has senders; each has a lane on each of its networks, a list of frames. A fault of tests/faults.py removes, moves, repeats or
renumbers frames, and says by a plant (tests/truths.py) what must be told of that: by what it did alone, not by what a report defines.
"""
import os
import random
import struct
from collections import namedtuple

from tests.flights import MS, SECOND, START, link as row_of, table_of
from tests.harness import EVERY, header, run

HEAD = b"\x03\0\0\0"
BAGS = (1, 2, 4, 8, 16, 32, 64, 128)
OTHER = {"A": "B", "B": "A"}
BY_LINK = ("lost", "alone", "both")
Written = namedtuple("Written", "table ledger")


class Unfit(Exception):
    """This flight has no place for a fault."""


class Frame:
    """A frame of a lane: the sender's count of it, its number, when it came, its size, how many bytes are recorded."""

    __slots__ = ("place", "number", "stamp", "size", "held")

    def __init__(self, place, number, stamp, size):
        self.place, self.number, self.stamp, self.size, self.held = place, number, stamp, size, None


def number_of(first, place):
    """The sequence number of a sender's frame, whose first one has this number."""
    return (first - 1 + place) % 255 + 1 if first else (place - 1) % 255 + 1 if place else 0


class Sender:
    """A link's sender: its row of the table, when it sent, and its lanes by network."""

    def __init__(self, row, way, period, sent, first=0, networks="AB"):
        self.row, self.id, self.way, self.period, self.sent, self.first, self.networks = row, row["id"], way, period, sent, first, networks
        self.bag, self.jitter, self.skew = row["bag_ms"] * MS, row["jitter_us"] * 1000, row["skew_us"] * 1000
        self.both = networks == "AB" and row["redundancy"]
        self.path, self.blind = {"A": 0, "B": 0}, False
        self.lanes = {"A": [], "B": []}

    def arrive(self, chance, size, path, bound=False):
        """The frames come on the networks, later than sent by the way through it and by jitter up to half of the link's."""
        half = self.jitter // 2
        for n in self.networks:
            self.path[n] = path[n]
            for place, at in enumerate(self.sent):
                late = path[n] + (half if bound and chance.random() < 0.5 else chance.randrange(half + 1))
                self.lanes[n].append(Frame(place, number_of(self.first, place), START + at + late, size))

    def places(self, f, t):
        """The counts of the frames that are sent between these times and are on all of its networks."""
        have = [{frame.place for frame in self.lanes[n]} for n in self.networks]
        return [place for place, at in enumerate(self.sent) if f <= at < t and all(place in of for of in have)]

    def remove(self, n, places):
        """Removes these frames from a network. How many there were."""
        before, gone = len(self.lanes[n]), set(places)
        self.lanes[n] = [frame for frame in self.lanes[n] if frame.place not in gone]
        return before - len(self.lanes[n])

    def frames(self, n, places):
        """The frames of a network that have these places."""
        gone = set(places)
        return [frame for frame in self.lanes[n] if frame.place in gone]

    def around(self, f, t, networks=None):
        """The last frame's time before the time f and the first one's from t on, at which nothing is removed, in the recording's time."""
        stamps = [frame.stamp for n in networks or self.networks for frame in self.lanes[n]]
        before, after = [at for at in stamps if at < START + f], [at for at in stamps if at >= START + t]
        return max(before, default=START), min(after, default=max(stamps, default=START))

    def proven(self):
        """The time from which on the link is known to be periodic, with a margin; none if it never is."""
        if self.way != "periodic":
            return None
        tight = 2 * self.period >= 3 * self.bag + 4 * self.jitter and 20 * self.jitter <= self.period
        frames = 24 if tight else 84
        return self.sent[0] + frames * self.period if self.jitter * 4 <= self.period and len(self.sent) > frames else None


class Flight:
    """Senders, and frames that belong to none, as (time, bytes, length on the wire)."""

    def __init__(self, end, senders):
        self.end, self.senders, self.strange, self.tail = end, senders, {"A": [], "B": []}, {"A": None, "B": None}

    def stamps(self, n):
        """The times of a network's frames, in order."""
        return sorted(frame.stamp for sender in self.senders for frame in sender.lanes[n])

    def ends(self, n):
        """The first and the last time of a network."""
        stamps = self.stamps(n)
        return (stamps[0], stamps[-1]) if stamps else (START, START + self.end)

    def records(self, n):
        """The records of a network's recording, by time."""
        out = []
        for sender in self.senders:
            cache = {}
            for frame in sender.lanes[n]:
                body = cache.get(frame.size)
                if body is None:
                    body = cache[frame.size] = HEAD + struct.pack(">H", sender.id) + bytes(frame.size - 7)
                out.append((frame.stamp, body + bytes((frame.number,)), frame.size, frame.held or frame.size))
        out += [(stamp, data, size, len(data)) for stamp, data, size in self.strange[n]]
        out.sort(key=lambda one: one[0])
        return out

    def recording(self, n):
        """The bytes of a network's recording."""
        rows = [struct.pack("<IIII", at // SECOND, at % SECOND, held, size) + data[:held] for at, data, size, held in self.records(n)]
        return header() + b"".join(rows) + (self.tail[n] or b"")

    def write(self, folder):
        """Writes table, recordings and ledger into a folder."""
        path = {name: os.path.join(folder, name) for name in ("t.toml", "a.pcap", "b.pcap", "f.bpf", "v.ledger")}
        with open(path["t.toml"], "w", encoding="ascii") as out:
            out.write(table_of([sender.row for sender in self.senders]))
        with open(path["f.bpf"], "w", encoding="ascii") as out:
            out.write(EVERY)
        taps = []
        for n in "AB":
            with open(path[f"{n.lower()}.pcap"], "wb") as out:
                out.write(self.recording(n))
            taps += [f"--{n.lower()}", path[f"{n.lower()}.pcap"]]
        ran = run(["watch", "--config", path["t.toml"], "--filter", path["f.bpf"], *taps, "--ledger", path["v.ledger"], "--capture",
                   os.devnull])
        return Written(path["t.toml"], path["v.ledger"]), ran


# ---- when senders send

def periodic(chance, row, end, period):
    """Each period, later by up to half of the jitter."""
    half, at = row["jitter_us"] * 500, chance.randrange(period)
    while at + half < end:
        yield at + chance.randrange(half + 1)
        at += period


def sporadic(chance, row, end, mean):
    """At random intervals of so much in the mean, one BAG at least."""
    bag = row["bag_ms"] * MS + row["jitter_us"] * 1000
    at = chance.randrange(mean)
    while at < end:
        yield at
        at += bag + int(chance.expovariate(1 / mean))


def bursts(chance, row, end, mean):
    """Up to 20 frames a BAG apart, then a pause."""
    bag = row["bag_ms"] * MS + row["jitter_us"] * 1000
    at = chance.randrange(mean)
    while at < end:
        for _ in range(chance.randint(5, 20)):
            if at < end:
                yield at
            at += bag
        at += bag + int(chance.expovariate(1 / (10 * mean)))


def few(chance, row, end, mean):
    """Some frames at any time, a BAG apart at least."""
    bag, last = row["bag_ms"] * MS + row["jitter_us"] * 1000, None
    for at in sorted(chance.randrange(end) for _ in range(chance.randint(1, 12))):
        if last is None or at - last > bag:
            last = at
            yield at


WAYS = {"periodic": periodic, "sporadic": sporadic, "bursts": bursts, "few": few}


def sender_of(chance, number, end, frames, way="periodic", bound=False):
    """A link with about so many frames: its BAG, jitter, SkewMax, redundancy, and the ways of its frames by chance."""
    period = end // frames
    fit = [bag for bag in BAGS if bag * MS <= period] or [1]
    bag = fit[-1] if chance.random() < 0.6 else chance.choice(fit[-3:])
    if chance.random() < 0.5 and period < 4 * bag * MS:
        period = max(1, period // (bag * MS)) * bag * MS
    jitter = chance.choice((0, 0, 100, 200, 500))
    if bag < 8:
        jitter = min(jitter, 50 * bag)
    networks, redundancy = "AB", chance.random() >= 0.1
    if not redundancy:
        networks = chance.choice(("A", "B", "AB", "AB"))
    row = row_of(number, bag, jitter, redundancy, chance.choice((1000, 2000, 3000, 5000)))
    row["smax"] = chance.choice((64, 100, 200, 400))
    sent = list(WAYS[way](chance, row, end, period))
    if not sent:
        sent = [end // 2]
    sender = Sender(row, way, period, sent, chance.choice((0, 1, chance.randrange(256))), networks)
    longer = chance.randrange(row["skew_us"] * 300 + 1)
    path = {"A": 20_000, "B": 20_000}
    path[chance.choice("AB")] += longer
    size = row["smax"] - 4 if chance.random() < 0.5 else chance.randint(60, row["smax"] - 4)
    sender.arrive(chance, size, path, bound)
    return sender


LENGTHS = (20 * SECOND, 20 * SECOND, 20 * SECOND, 90 * SECOND, 3600 * SECOND, 86400 * SECOND)


def flight_of(chance, links=None, end=None, frames=None, sound=False):
    """A sound flight of 10 to 60 links, with 4000 to 20000 frames whatever its length."""
    links = links or chance.choice((10, 12, 15, 20, 20, 30, 30, 45, 60))
    end = end or chance.choice(LENGTHS)
    frames = frames or chance.randint(5000, 12000 if links < 30 else 16000)
    senders = []
    for number in range(1, links + 1):
        draw = chance.random()
        way = "periodic" if draw < 0.8 else "sporadic" if draw < 0.9 else "bursts" if draw < 0.96 else "few"
        share = max(100, frames // (2 * links))
        senders.append(sender_of(chance, number, end, chance.randint(share * 2 // 3, share * 4 // 3), way, sound and chance.random() < 0.5))
    return Flight(end, senders)


def even_flight(chance, links=12, seconds=20, bag=32, period=None, jitter=200, skew=2000, frames=None, sizes=100, redundancy=True):
    """A flight of links that are alike, for the cases whose numbers are fixed."""
    end = seconds * SECOND
    senders = []
    for number in range(1, links + 1):
        row = row_of(number, bag, jitter, redundancy, skew)
        step = int(period * MS) if period else end // frames if frames else bag * MS
        sent = list(periodic(chance, row, end, step))
        sender = Sender(row, "periodic", step, sent, 1 + 20 * number % 255)
        sender.arrive(chance, sizes, {"A": 20_000, "B": 120_000})
        senders.append(sender)
    return Flight(end, senders)


class World:
    """A flight in which faults are planted: who is still free, and the time that the next fault may take."""

    def __init__(self, seed, flight, zone):
        self.chance, self.flight, self.zone = random.Random(f"faults of {seed}"), flight, zone
        self.free = list(flight.senders)

    def network(self):
        """A or B, by chance."""
        return self.chance.choice("AB")

    def some(self, most=40):
        """How many links: often one, else up to so many and a third of those that are free."""
        room = max(1, min(most, len(self.free) // 3))
        return self.chance.choice((1, 1, 2, self.chance.randint(1, room)))

    def take(self, count, fits=lambda sender: True):
        """Links that no fault has touched and that this one fits."""
        found = [sender for sender in self.free if fits(sender)]
        if len(found) < count or not count:
            raise Unfit
        taken = self.chance.sample(found, count)
        self.free = [sender for sender in self.free if sender not in taken]
        return sorted(taken, key=lambda sender: sender.id)

    def size(self, least, most):
        """A size from the least to the most, rather small than large."""
        if most < least:
            raise Unfit
        return min(most, int(least * (most / least) ** self.chance.random() ** 1.5)) if self.chance.random() < 0.8 else least

    def quiet(self, sender):
        """Whether the link is known to be periodic when this zone begins."""
        known = sender.proven()
        return known is not None and known <= self.zone[0]
