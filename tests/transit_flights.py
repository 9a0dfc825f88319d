"""Recordings before and after a model switch, with faults planted in it, for the tests of `afdxmon transit`.

The switch knows which frame became which, since it is the one that sends it on: what has to be said of each frame is known before a
program looks at the recordings. Each sender keeps well clear of its account's border, but for the frames that are too many on purpose.
"""
import random
from collections import namedtuple

from tests.flights import CONSTANT, MS, START, link, recording_of
from tests.transit_reference import Options

US = 10**3
BOUND, END, BORDER_END = 500 * US, 600 * MS, 250 * MS
# Longest transit of a frame that isn't held, in nanoseconds.
FASTEST, WIRE = 12 * US, 80
TAP = 60
ROUTED, UNROUTED, ELSEWHERE, UNLISTED = (1, 2, 3, 4, 5), 6, 7, 50
# `links` has the link of each frame that went in.
Flight = namedtuple("Flight", "config before after options outcomes planted links")
# A frame at the port in: when, its link, its bytes, and what the switch does with it.
Sent = namedtuple("Sent", "at link data does")
# Each fault, and by how much the switch holds the frame.
HOLDS = {"slow": 700 * US, "overtaken": 9 * MS, "lost in the window": 30 * MS}
FAULTS = ("dropped", "lax", "refused", "changed", "twice", "slow", "overtaken", "lost in the window")


def data_of(chance, number, sequence, size=150):
    return b"\x03\0\0\0" + number.to_bytes(2, "big") + chance.randbytes(size - 7) + bytes([sequence])


def table_text(links):
    keys = ("id", "name", "bag_ms", "jitter_us", "smax", "integrity", "redundancy", "skew_us")
    shown = {bool: lambda value: str(value).lower(), str: repr, int: str}
    lines = [f"{key} = {shown[type(one[key])](one[key])}" for one in links for key in keys]
    blocks = ["\n".join(lines[i : i + len(keys)]) for i in range(0, len(lines), len(keys))]
    return CONSTANT + "".join(f"\n[[link]]\n{block}\n" for block in blocks).replace("'", '"')


class Sender:
    """What one link sends: a frame of Smax each BAG, and some more."""

    def __init__(self, chance, one, plan):
        self.chance, self.one, self.plan, self.sequence = chance, one, dict(plan), 0

    def frame(self, at, does="passes"):
        self.sequence = self.sequence % 255 + 1
        return Sent(at, self.one["id"], data_of(self.chance, self.one["id"], self.sequence, self.one["smax"] - 4), does)

    def sends(self):
        bag, at, count = self.one["bag_ms"] * MS, self.chance.randrange(MS), 0
        while at < END:
            fault = self.plan.get(count, "passes")
            if fault in ("lax", "refused"):
                yield self.frame(at)
                yield self.frame(at + bag // 4, fault)
            else:
                yield self.frame(at, fault)
            at, count = at + bag + self.chance.randrange(20 * US, 60 * US), count + 1


def plans(chance, faults, links):
    """Which frame of which link each fault is planted in: one fault in ten frames of a link, in the middle of the flight."""
    slots = [(one, count) for one in links for count in range(12, 60, 12)]
    chance.shuffle(slots)
    plan = {one: [] for one in links}
    for fault in faults:
        one, count = slots.pop()
        plan[one].append((count, fault))
    return plan


def sent_of(chance, links, faults):
    plan = plans(chance, faults, ROUTED)
    sent = [one for each in links if each["id"] != ELSEWHERE for one in Sender(chance, each, plan.get(each["id"], ())).sends()]
    for at in range(90 * MS, END - 90 * MS, 45 * MS):
        sent.append(Sent(at + 777, UNLISTED, data_of(chance, UNLISTED, 1), "refused"))
    return sorted(sent, key=lambda one: one.at)


def switched(chance, sent):
    """What the switch sends on, as (when, bytes, place among the frames sent in, its outcome at the port out if it has none)."""
    out = []
    for place, one in enumerate(sent):
        if one.does in ("dropped", "refused") or one.link == UNROUTED:
            continue
        at = one.at + FASTEST + WIRE * (len(one.data) + 12) + chance.randrange(4 * US) + HOLDS.get(one.does, 0)
        data = one.data
        if one.does == "changed":
            data = data[:40] + bytes([data[40] ^ 1]) + data[41:]
        out.append((at, data, place, "new" if one.does == "lost in the window" else None))
        if one.does == "twice":
            out.append((at + 300 * US, data, None, "twice"))
    for at in range(MS, END, 5 * MS):
        out.append((at, data_of(chance, ELSEWHERE, at // MS % 255 + 1), None, "elsewhere"))
    return sorted(out, key=lambda one: one[0])


def expected(sent, out, stamps, came, options):
    """What has to be said of each frame of a line, by (side, number): `stamps` are those of both recordings, `came` the place at which
    each frame that was sent in came out."""
    words, (ins, outs) = {}, stamps
    for number, one in enumerate(sent):
        covered = outs[0] <= ins[number] - options.early and ins[number] + options.within <= outs[-1]
        unpaired = number not in came or one.does == "lost in the window"
        if unpaired and not covered:
            words["before", number] = "open"
        elif one.link == UNROUTED:
            words["before", number] = "unrouted"
        else:
            words["before", number] = {"passes": "passed", "twice": "passed", "lost in the window": "dropped"}.get(one.does, one.does)
    for number, (_, _, place, word) in enumerate(out):
        covered = ins[0] <= outs[number] - options.within and outs[number] + options.early <= ins[-1]
        if word is not None:
            words["after", number] = word if covered or word == "twice" else "open"
    return words


def transit_flight(seed, faults=FAULTS):
    """A flight of a switch with these faults."""
    chance = random.Random(seed)
    links = [link(number, bag, 0) for number, bag in zip((*ROUTED, UNROUTED, ELSEWHERE), (8, 8, 8, 4, 4, 8, 8))]
    options = Options(bound=BOUND)
    sent = sent_of(chance, links, faults)
    out = switched(chance, sent)
    came = {place: number for number, (_, _, place, _) in enumerate(out) if place is not None}
    ins = sorted(one.at + chance.randint(-TAP, TAP) for one in sent)
    outs = sorted(at + chance.randint(-TAP, TAP) for at, *_ in out)
    words = expected(sent, out, ([START + at for at in ins], [START + at for at in outs]), came, options)
    before = recording_of((at, one.data) for at, one in zip(ins, sent))
    after = recording_of((at, data) for at, (_, data, _, _) in zip(outs, out))
    planted = [(one.does, number) for number, one in enumerate(sent) if one.does in faults and one.link != UNLISTED]
    return Flight(table_text(links), before, after, options, words, planted, [one.link for one in sent])


def leaking(flight, leaks):
    """What has to be said where the port out isn't that of these links: what came out leaked, and what
    didn't needn't."""
    words = dict(flight.outcomes)
    for number, link in enumerate(flight.links):
        word = words["before", number]
        if link in leaks and word != "changed":
            words["before", number] = "leak" if word in ("passed", "slow", "overtaken", "lax") else \
                "unrouted" if word in ("dropped", "refused") else word
    return words


# ---- a switch at the border of its accounts

class Account:
    """A switch's account of a link, exact by the switch's own clock: in bytes times BAG in nanoseconds."""

    def __init__(self, one, by_frames):
        self.smax, self.bag, self.by_frames = one["smax"], one["bag_ms"] * MS, by_frames
        self.cap = self.smax * (self.bag + one["jitter_us"] * US)
        self.content, self.at = self.cap, 0

    def price(self, size):
        return (self.smax if self.by_frames else size) * self.bag

    def holds(self, at):
        return min(self.cap, self.content + self.smax * (at - self.at))

    def fits_at(self, size):
        """The first nanosecond at which it holds the price of a frame."""
        return self.at + max(0, -(-(self.price(size) - self.content) // self.smax))

    def charge(self, at, size):
        self.content, self.at = self.holds(at) - self.price(size), at


def apart_by(chance, fault):
    """When a frame is sent, from the first nanosecond at which it fits: near it, where a tap sees now this
    and now that; or beyond doubt, where the switch does wrong."""
    if fault:
        return chance.randrange(3000, 9000) * (1 if fault == "dropped" else -1)
    return chance.choice((0, -1, 1, -TAP, TAP, chance.randint(-900, 900), chance.randint(-40_000, 400_000)))


def at_border(chance, one, by_frames, faults):
    """The frames of a link, each with what the switch does. After the first one comes a pause, in which
    the account is full again, so that a tap's reader knows it too."""
    account, sequence, last = Account(one, by_frames), 1, chance.randrange(MS)
    yield Sent(last, one["id"], data_of(chance, one["id"], sequence, one["smax"] - 4), "passed")
    account.charge(last, one["smax"])
    last += 3 * (account.bag + one["jitter_us"] * US)
    while last < BORDER_END:
        size = chance.choice((64, 100, 150, 200))
        fault = chance.choice(faults) if faults and chance.random() < 0.1 else None
        at = max(account.fits_at(size) + apart_by(chance, fault), last + 40 * US)
        spare = account.holds(at) - account.price(size)
        doubt = 3000 * account.smax
        if fault == "lax" and spare > -doubt or fault == "dropped" and spare < doubt:
            fault = None
        does = fault or ("passed" if spare >= 0 else "refused")
        sequence = sequence % 255 + 1
        yield Sent(at, one["id"], data_of(chance, one["id"], sequence, size - 4), does)
        if does == "passed":
            account.charge(at, size)
        last = at


def border_flight(seed, faults, by_frames):
    """A flight of senders at the border, whose switch polices to the nanosecond; it passes some that are
    too many, and drops some that fit, where it has these faults."""
    chance = random.Random(seed)
    links = [link(1, 1, 0), link(2, 1, 500), link(3, 2, 3000), link(4, 4, 100)]
    sent = sorted(one for each in links for one in at_border(chance, each, by_frames, faults))
    out = []
    for place, one in enumerate(sent):
        if one.does in ("passed", "lax"):
            at = one.at + FASTEST + WIRE * (len(one.data) + 12) + chance.randrange(4 * US)
            out.append((at, one.data, place, None))
    out.sort(key=lambda one: one[0])
    came = {place: number for number, (_, _, place, _) in enumerate(out)}
    ins = sorted(one.at + chance.choice((-TAP, TAP, chance.randint(-TAP, TAP))) for one in sent)
    outs = sorted(at + chance.randint(-TAP, TAP) for at, *_ in out)
    options = Options(frames=by_frames)
    words = expected(sent, out, ([START + at for at in ins], [START + at for at in outs]), came, options)
    before = recording_of((at, one.data) for at, one in zip(ins, sent))
    after = recording_of((at, data) for at, (_, data, _, _) in zip(outs, out))
    planted = [(one.does, number) for number, one in enumerate(sent) if one.does in faults]
    return Flight(table_text(links), before, after, options, words, planted, [one.link for one in sent])
