"""Faults that are planted in flights, each with what must be told of it.

Each takes a world (tests/plants.py), changes the frames of its flight, and returns a plant (tests/truths.py). Arguments that are left out
are drawn by chance, from the least that must be told to large.
"""
import struct

from tests.flights import MS, SECOND, START
from tests.plants import OTHER, Unfit
from tests.truths import Plant


def ids(senders):
    """The identifiers of these links."""
    return [sender.id for sender in senders]


def scattered(chance, places, count, distance=4):
    """So many of these places, each so far from the next one at least."""
    room = len(places) - (count - 1) * (distance - 1)
    if count < 1 or room < count:
        raise Unfit
    picked = sorted(chance.sample(range(room), count))
    return [places[at + i * (distance - 1)] for i, at in enumerate(picked)]


def inner(world, sender, margin=2):
    """The sender's places in the zone without those at its ends and the flight's."""
    last = len(sender.sent) - 1 - margin
    return [place for place in sender.places(*world.zone) if margin <= place <= last][margin : -margin or None]


def span_of(senders, places, networks="AB"):
    """Bounds of the beginning and the end of what happens at these places: between the frames around them, with some slack."""
    begins, ends = [], []
    for sender in senders:
        own, sent = sorted(places[sender.id]), sender.sent
        slack = 2 * sender.skew + sender.jitter + sum(sender.path.values())
        at = lambda place: sent[min(max(place, 0), len(sent) - 1)]
        begins.append((at(own[0] - 2) - slack, at(first_free(own) + 1) + slack))
        ends.append((at(own[-1] - 2) - slack, at(own[-1] + 3) + slack))
    return {"start": (START + min(f for f, _ in begins), START + max(t for _, t in begins)),
            "end": (START + min(f for f, _ in ends), START + max(t for _, t in ends))}


def first_free(places):
    """The first place after the first row of these."""
    place, have = places[0], set(places)
    while place in have:
        place += 1
    return place


def note_losses(plant, n, senders, numbers):
    """Counts what is lost on a network, by sender, and came on the other. The signs of that."""
    alone = sum(number for sender, number in zip(senders, numbers) if sender.both)
    plant.count(f"lost.{n}", sum(numbers)).count(f"alone.{OTHER[n]}", alone)
    return {f"lost.{n}": sum(numbers), f"alone.{OTHER[n]}": alone}


# ---- losses

def lost(world, n=None, links=None, frames=None, row=1, redundancy=None):
    """Some frames of links are lost on a network, so many in a row, here and there."""
    n = n or world.network()
    fits = lambda s: n in s.networks and len(inner(world, s)) >= 8 and (redundancy is None or s.row["redundancy"] == redundancy)
    senders = world.take(links or world.some(), fits)
    places, numbers = {}, []
    for sender in senders:
        room = inner(world, sender)
        rows = frames or world.size(1, max(1, len(room) // (2 * (row + 4))))
        places[sender.id] = [at + i for at in scattered(world.chance, room[: len(room) - row], rows, row + 4) for i in range(row)]
        numbers.append(sender.remove(n, places[sender.id]))
    plant = Plant(f"{sum(numbers)} frames of links {ids(senders)[:9]} lost on {n}, {row} in a row")
    signs = note_losses(plant, n, senders, numbers)
    level = scattered_level(numbers[0], len(senders[0].lanes[n])) if len(senders) == 1 else None
    return plant.want("lost", n, ids(senders), count=sum(numbers), signs=signs, level=level, **span_of(senders, places))


def scattered_level(number, frames):
    """The level of so many signs that a link has here and there, among so many frames. Near the limit it's left open."""
    if number < 3:
        return "notice"
    return "trouble" if number * 900 >= frames else None


def lost_at_end(world, n=None, frames=None, first=False):
    """The first or the last frames of a link are lost on one network, whose recording has other frames before or after them."""
    n, frames = n or world.network(), frames or world.chance.choice((1, 2, 3, 5, 7))
    ends = world.flight.ends(n)
    inside = lambda s, place: ends[0] + s.skew < START + s.sent[place] < ends[1] - s.skew - s.jitter - max(s.path.values())
    fits = lambda s: s.both and s.way == "periodic" and inside(s, 0) and inside(s, -1) and len(s.sent) > 40
    sender = world.take(1, fits)[0]
    count = len(sender.sent)
    places = range(frames) if first else range(count - frames, count)
    number = sender.remove(n, places)
    plant = Plant(f"the {'first' if first else 'last'} {number} frames of link {sender.id} are lost on {n}")
    plant.count(f"alone.{OTHER[n]}", number).count(f"lost.{n}", 0, number)
    # that it came too late or stopped there is as true as that some frames are lost
    return plant.want({"lost", "absent", "starts late on" if first else "stops on"}, n, [sender.id], count=number, single=True,
                      signs={f"alone.{OTHER[n]}": number})


def first_lost(world, **how):
    """The first frames of a link are lost on one network."""
    return lost_at_end(world, first=True, **how)


def last_lost(world, **how):
    """The last frames of a link are lost on one network."""
    return lost_at_end(world, first=False, **how)


def lost_on_both(world, links=None, frames=None, row=1):
    """The same frames are lost on both networks, fewer than an absence has in a row."""
    senders = world.take(links or world.some(4),
                         lambda s: s.networks == "AB" and s.way == "periodic" and world.quiet(s) and len(inner(world, s)) >= 12)
    places, number = {}, 0
    for sender in senders:
        room = inner(world, sender)
        rows = frames or world.size(1, max(1, len(room) // (3 * (row + 4))))
        places[sender.id] = [at + i for at in scattered(world.chance, room[: len(room) - row], rows, row + 4) for i in range(row)]
        number += sender.remove("A", places[sender.id])
        sender.remove("B", places[sender.id])
    plant = Plant(f"{number} frames of links {ids(senders)} lost on both networks, {row} in a row")
    signs = {"lost.A": number, "lost.B": number, "both": number}
    for word in signs:
        plant.count(word, number)
    return plant.want("lost", "AB", ids(senders), count=(number, 2 * number), signs=signs, **span_of(senders, places))


def lost_on_each(world, frames=None):
    """A link loses some frames on A and others on B: all of them came."""
    senders = world.take(1, lambda s: s.both and len(inner(world, s)) >= 24)
    sender = senders[0]
    places = scattered(world.chance, inner(world, sender), 2 * (frames or world.size(1, len(inner(world, sender)) // 16)), 6)
    a, b = sender.remove("A", places[::2]), sender.remove("B", places[1::2])
    plant = Plant(f"link {sender.id} loses {a} frames on A and {b} others on B")
    signs = {"lost.A": a, "lost.B": b, "alone.A": b, "alone.B": a, "both": 0}
    for word, number in signs.items():
        plant.count(word, number)
    return plant.want("lost", ("A", "B", "AB"), [sender.id], count=a + b, signs=signs, **span_of(senders, {sender.id: places}))


def absent(world, n=None, rows=None, size=None):
    """A link is missing on one network for 8 frames or more in a row, once or some times."""
    n = n or world.network()
    sender = world.take(1, lambda s: s.both and len(inner(world, s)) >= 16)[0]
    room = inner(world, sender)
    size = size or world.size(8, max(8, len(room) // 2))
    rows = rows or world.chance.choice((1, 1, 2, 3))
    if rows * (size + 6) > len(room):
        rows = 1
    places = [at + i for at in scattered(world.chance, room[: len(room) - size], rows, size + 4) for i in range(size)]
    number = sender.remove(n, places)
    plant = Plant(f"link {sender.id} absent from {n} for {size} frames, {rows} times")
    signs = note_losses(plant, n, [sender], [number])
    return plant.want("absent", n, [sender.id], count=number, signs=signs, **span_of([sender], {sender.id: places}))


def absent_on_both(world, size=None):
    """A link's frames are missing on both networks, 8 or more in a row: the numbers say that it sent."""
    sender = world.take(1, lambda s: s.both and world.quiet(s) and len(inner(world, s)) >= 16)[0]
    room = inner(world, sender)
    size = size or world.size(8, min(100, len(room) - 4))
    places = [at + i for at in scattered(world.chance, room[: len(room) - size], 1, size) for i in range(size)]
    number = sender.remove("A", places)
    sender.remove("B", places)
    plant = Plant(f"link {sender.id} absent from both networks for {size} frames that it sent")
    signs = {"lost.A": number, "lost.B": number, "both": number}
    for word in signs:
        plant.count(word, number)
    return plant.want("absent", ("A", "B", "AB"), [sender.id], count=(number, 2 * number), signs=signs,
                      **span_of([sender], {sender.id: places}))


def window(world, senders, least, share=0.9):
    """A time within the zone in which each of these sends so many frames at least."""
    f, t = world.zone
    need = int((least + 2) * max(sender.period for sender in senders))
    if need > share * (t - f):
        raise Unfit
    size = world.size(need, int(share * (t - f)))
    begin = f + world.chance.randrange(t - f - size + 1)
    return begin, begin + size


def absent_group(world, n=None, links=None, least=10):
    """Several links are missing on one network at the same time: a port, or a switch."""
    n = n or world.network()
    links = links or max(3, world.some(40))
    senders = world.take(links, lambda s: s.both and s.way == "periodic" and (least + 4) * s.period < world.zone[1] - world.zone[0])
    if 2 * links > len(world.flight.senders):
        raise Unfit
    f, t = window(world, senders, least)
    places = {sender.id: sender.places(f, t) for sender in senders}
    numbers = [sender.remove(n, places[sender.id]) for sender in senders]
    plant = Plant(f"links {ids(senders)} absent from {n} at the same time, {numbers} frames")
    signs = note_losses(plant, n, senders, numbers)
    return plant.want("absent", n, ids(senders), signs=signs, single=True, **span_of(senders, places))


def absent_group_on_both(world, links=None, least=10):
    """Several links are missing on both networks at the same time, though they sent: it was lost before the networks part."""
    links = links or max(3, world.some(12))
    senders = world.take(links, lambda s: s.both and world.quiet(s) and (least + 4) * s.period < world.zone[1] - world.zone[0])
    if 2 * links > len(world.flight.senders):
        raise Unfit
    f, t = world.zone
    world.zone = f, min(t, f + 90 * min(s.period for s in senders))
    f, t = window(world, senders, least)
    places = {sender.id: sender.places(f, t) for sender in senders}
    number = sum(sender.remove("A", places[sender.id]) for sender in senders)
    for sender in senders:
        sender.remove("B", places[sender.id])
    plant = Plant(f"links {ids(senders)} absent from both networks at the same time, {number} frames")
    signs = {"lost.A": number, "lost.B": number, "both": number}
    for word in signs:
        plant.count(word, number)
    return plant.want("absent", ("A", "B", "AB"), ids(senders), signs=signs, **span_of(senders, places))


def absent_in_silence(world, n="A", size=None):
    """A link is absent from one network while the other network is silent for a part of that time."""
    sender = world.take(1, lambda s: s.both and world.quiet(s) and len(inner(world, s)) >= 60)[0]
    places = inner(world, sender)[10:50]
    gone = sender.remove(OTHER[n], places)
    f, t = sender.sent[places[12]] - sender.period // 2, sender.sent[places[12]] + (size or 10 * sender.period)
    here = len(sender.lanes[n])
    whole = silence_at(world, n, f, t)
    both = here - len(sender.lanes[n])
    whole.text += f", and link {sender.id} absent from {OTHER[n]} for {gone} frames, of them about {both} in that time"
    whole.count(f"lost.{OTHER[n]}", gone).count(f"alone.{n}", gone - both).count("both", both)
    return whole.want("absent", OTHER[n], [sender.id], signs={f"lost.{OTHER[n]}": gone}, **span_of([sender], {sender.id: places}))


# ---- networks

def spacing(flight, n):
    """The usual time between two lines of a network."""
    return flight.end // max(1, len(flight.stamps(n)))


def hole(world, networks, f, t):
    """Removes the frames of these networks that come from f to t. How many of each sender are gone, by network."""
    gone = {}
    for n in networks:
        for sender in world.flight.senders:
            places = [frame.place for frame in sender.lanes[n] if START + f <= frame.stamp < START + t]
            if places:
                gone[n, sender] = set(places)
                sender.remove(n, places)
    return gone


def edges(stamps, f, t):
    """The last of these times before f, and the first one from t on."""
    return max(at for at in stamps if at < START + f), min(at for at in stamps if at >= START + t)


def missing_in(world, networks, gone):
    """Of a hole in these networks: signs that are sure, as bounds, all signs, and the links of which a ledger can't tell all."""
    sure, plant, unsure = Plant(""), Plant(""), set()
    for (n, sender), places in gone.items():
        other = {frame.place for frame in sender.lanes[OTHER[n]]}
        # where a lane is so slow that more happens between its frames than the hole, or both networks are silent and the rate isn't known,
        # what is missing has no place in time
        begin, end = (START + at for at in (world.zone[0] - world.flight.end // 100, world.zone[1] + world.flight.end // 100))
        here = {frame.place for frame in sender.lanes[n] if begin <= frame.stamp < end}
        inside = min(here, default=1 << 60) < min(places) and max(here, default=-1) > max(places) and not sender.blind
        known = inside and (len(places & other) == len(places) and sender.both or world.quiet(sender))
        both = len(places & gone.get((OTHER[n], sender), set())) * (n == "A")
        for word, number in ((f"lost.{n}", len(places)), (f"alone.{OTHER[n]}", len(places & other) * sender.both), ("both", both)):
            sure.count(word, number if known and (word != "both" or sender.both) else 0, number)
            plant.count(word, number if inside and (word != "both" or sender.both) else 0, number)
        if not known:
            unsure.add(sender.id)
    return sure, plant, unsure


def silence(world, networks=None, size=None):
    """A network, or both, has no frame for a while, which numbers say."""
    networks = networks or world.chance.choice(("A", "B", "AB"))
    f, t = world.zone
    usual = max(spacing(world.flight, n) for n in networks)
    size = size or world.size(16 * usual, (t - f) // 2)
    begin = f + world.chance.randrange(t - f - size + 1)
    return silence_at(world, networks, begin, begin + size)


def silence_at(world, networks, begin, end):
    """These networks have no frame between these times."""
    gone, size = hole(world, networks, begin, end), end - begin
    sure, plant, unsure = missing_in(world, networks, gone)
    plant.text = f"no frame on {networks} for {size / SECOND:.6f} s"
    if min(sure.least[f"lost.{n}"] for n in networks) < 10 or len({sender for _, sender in gone}) < 4:
        raise Unfit
    signs = {word: (sure.least[word], sure.signs[word]) for word in sure.signs}
    around = [edges(world.flight.stamps(n), begin, begin + size) for n in networks]
    if unsure:
        plant.allow(("lost", "absent", "starts late on", "stops on", "never on", "outage"), unsure)
    count = tuple(sum(signs.get(f"lost.{n}", (0, 0))[i] for n in networks) for i in (0, 1))
    return plant.want("silence", networks, count=count, signs=signs, single=True,
                      start=(min(e[0] for e in around), max(e[0] for e in around)),
                      end=(min(e[1] for e in around), max(e[1] for e in around)))


def shift(world, n, at, size, senders=None):
    """Frames of a network from this time on come so much later. How many pairs of both networks are moved."""
    pairs = 0
    for sender in senders or world.flight.senders:
        moved = {frame.place for frame in sender.lanes[n] if frame.stamp >= START + at}
        for frame in sender.lanes[n]:
            if frame.place in moved:
                frame.stamp += size
        if sender.both:
            pairs += len(moved & {frame.place for frame in sender.lanes[OTHER[n]]})
    return pairs


def slowest(world, share=1.0):
    """The period that this share of the periodic links of both networks doesn't exceed."""
    periods = sorted(s.period for s in world.flight.senders if s.way == "periodic" and s.networks == "AB")
    return periods[int((len(periods) - 1) * share)]


def clock_step(world, n=None, size=None):
    """The clock of a network's recorder goes forward: time passes there, but no frame is missing."""
    n = n or world.network()
    sure = [s for s in world.free if world.quiet(s) and n in s.networks]
    if len(sure) < 10:
        raise Unfit
    least = 7 * sorted(s.period for s in sure)[len(sure) * 9 // 10]
    size = size or world.size(least, max(least, 100 * least))
    f, t = world.zone
    at = f + world.chance.randrange(t - f)
    pairs = shift(world, n, at, size)
    before, after = edges(world.flight.stamps(n), at, at)
    plant = Plant(f"the clock of {n} goes forward by {size / SECOND:.6f} s").count(f"step.{n}", 0, 1).count("step", 0, 1)
    plant.count(f"late.{n}", 0, pairs).count(f"late.{OTHER[n]}", 0, pairs)
    plant.want("clock step", n, count=1, single=True, start=(before, before), end=(before, START + world.flight.end + size + SECOND))
    return plant.allow(("recorder ends early",), levels=("info", "notice"))


def clocks_step(world, size=None):
    """Both clocks go forward alike, or all senders paused."""
    sure = [s for s in world.free if world.quiet(s) and s.networks == "AB"]
    if len(sure) < 10:
        raise Unfit
    least = 7 * sorted(s.period for s in sure)[len(sure) * 9 // 10]
    size = size or world.size(least, 100 * least)
    f, t = world.zone
    at = f + world.chance.randrange(t - f)
    for sender in world.flight.senders:
        moved = {frame.place for n in "AB" for frame in sender.lanes[n] if frame.stamp >= START + at}
        for n in "AB":
            for frame in sender.lanes[n]:
                if frame.place in moved:
                    frame.stamp += size
    stamps = [edges(world.flight.stamps(n), at + size // 2, at + size // 2) for n in "AB"]
    plant = Plant(f"both clocks go forward by {size / SECOND:.6f} s").count("step", 0, 2)
    return plant.want("clock step", "AB", single=True, start=(min(e[0] for e in stamps), max(e[0] for e in stamps)))


def skew_step(world, n=None, size=None):
    """The clock of a network's recorder, or all of its path, moves by less than an interval."""
    n = n or world.network()
    pairs = [s for s in world.flight.senders if s.both and s.way == "periodic"]
    if len(pairs) < 6:
        raise Unfit
    least = max(200_000, 8 * max(s.jitter for s in pairs))
    size = size or world.size(least, min(20 * MS, min(s.period for s in pairs) * 2 // 3))
    f, t = world.zone
    blocks = 5 * SECOND + 10 * slowest(world)
    if f < blocks or world.flight.end - f < blocks:
        raise Unfit
    at = f + world.chance.randrange(min(t, world.flight.end - blocks) - f + 1)
    number = shift(world, n, at, size)
    slack = 4 * SECOND + 4 * slowest(world)
    plant = Plant(f"frames on {n} come {size / MS:.3f} ms later from then on").count("step", 1)
    late = all(abs(s.path[n] - s.path[OTHER[n]] + size) > s.skew + s.jitter for s in pairs)
    for net in "AB":
        plant.count(f"late.{net}", 0, number)
    signs = {"step": 1, f"late.{n}": (number * 9 // 10 if late else 0, number)}
    return plant.want("skew step", n, count=1, single=True, signs=signs, start=(START + at - slack, START + at + slack))


def drift(world, ppb=None):
    """The clock of B is faster or slower than that of A, for all of the flight."""
    end = world.flight.end
    most = max(s.jitter for s in world.flight.senders) + 100_000
    ppb = ppb or world.chance.choice((-1, 1)) * world.size(max(100, 12 * most * SECOND // end), 300_000)
    pairs = 0
    for sender in world.flight.senders:
        for frame in sender.lanes["B"]:
            frame.stamp += (frame.stamp - START) * ppb // SECOND
        pairs += len(sender.lanes["B"])
    plant = Plant(f"B's clock is {ppb} ppb faster than A's").count("drift", 1).count("late.A", 0, pairs).count("late.B", 0, pairs)
    plant.count("early.A", 0, pairs).count("early.B", 0, pairs)
    plant.want("drift", "AB", count=1, single=True)
    return plant.allow(("recorder starts late", "recorder ends early"), levels=("info",))


def coarse(world, grain=None):
    """Stamps are multiples of this: what they say of jitter and skew isn't known."""
    grain = grain or world.chance.choice((100_000, MS, 10 * MS))
    number = 0
    for sender in world.flight.senders:
        for n in "AB":
            for frame in sender.lanes[n]:
                frame.stamp -= frame.stamp % grain
            number += len(sender.lanes[n])
    plant = Plant(f"stamps are multiples of {grain} ns").count("coarse", 1)
    for n in "AB":
        plant.count(f"late.{n}", 0, number).count(f"early.{n}", 0, number)
    return plant.want("coarse stamps", "AB", count=1, single=True)


def recorder_late(world, n=None, size=None):
    """The recorder of a network begins later than the other."""
    return recorder(world, n or world.network(), size, True)


def recorder_ends(world, n=None, size=None):
    """The recorder of a network ends earlier than the other."""
    return recorder(world, n or world.network(), size, False)


def last_line(flight):
    """When the flight's last frame came, since its start."""
    return max(flight.ends(n)[1] for n in "AB") - START + 1


def recorder(world, n, size, begins):
    """A network's recording lacks what came before or after a time."""
    end = last_line(world.flight)
    size = size or world.size(20 * spacing(world.flight, n), world.flight.end // 5 if begins else world.flight.end * 9 // 100)
    hole(world, n, *((0, size) if begins else (end - size, 2 * end)))
    plant = Plant(f"the recorder of {n} {'begins late' if begins else 'ends early'} by {size / SECOND:.6f} s")

    def finish():
        """What is wanted, once all is planted."""
        ends, others = world.flight.ends(n), world.flight.ends(OTHER[n])
        apart = ends[0] - others[0] if begins else others[1] - ends[1]
        level = None if abs(apart - SECOND) < 100 * MS else "notice" if apart >= SECOND else "info"
        number = unrecorded(world, n, begins)
        plant.want("recorder starts late" if begins else "recorder ends early", n, count=number, single=True, level=level,
                   signs={f"unrecorded.{n}": number})

    plant.finish = finish
    return plant


def unrecorded(world, n, begins):
    """Bounds of how many frames of the other network came before a network's first line or after its last, of links that come on it. Those of
    a link without numbers may be told, or not."""
    ends, sure, maybe = world.flight.ends(n), 0, 0
    for sender in world.flight.senders:
        if sender.both and sender.lanes[n]:
            have = {frame.place for frame in sender.lanes[n]}
            for frame in {one.place: one for one in sender.lanes[OTHER[n]] if one.place not in have}.values():
                before = ends[0] - frame.stamp if begins else frame.stamp - ends[1]
                sure += before > sender.skew and not sender.blind
                maybe += before > -sender.skew
    return sure, maybe


def many_silences(world, count=70, n="A", size=80 * MS):
    """A network is silent more often than findings are kept of a kind: the others are told by one that counts them."""
    usual, number, alone = world.flight.end // (count + 20), 0, 0
    for i in range(count):
        gone = hole(world, n, (i + 16) * usual, (i + 16) * usual + size)
        number += sum(len(places) for places in gone.values())
        alone += sum(len(places) for (_, sender), places in gone.items() if sender.both)
    plant = Plant(f"no frame on {n} for {size // MS} ms, {count} times").count(f"lost.{n}", number).count(f"alone.{OTHER[n]}", alone)
    return plant.want("silence", (n, "AB"), signs={f"lost.{n}": number, f"alone.{OTHER[n]}": alone})


def mixed(world):
    """The recording of A holds the frames of both networks, that of B none."""
    number, named = 0, ids(sender for sender in world.flight.senders if sender.both)
    for sender in world.flight.senders:
        number += len(sender.lanes["B"])
        sender.lanes["A"] = sorted(sender.lanes["A"] + sender.lanes["B"], key=lambda frame: frame.stamp)
        sender.lanes["B"] = []
    plant = Plant("the recording of A holds the frames of both networks").count("repeat.A", number).want("no frames", "B", level="info")
    return plant.want("twice", "A", named, signs={"repeat.A": number}, single=True)


def clock_back(world, n=None, size=None):
    """The clock of a network's recorder goes back: what follows can't be read."""
    plant = broken(world, n or world.network(), size)
    n = next(net for net in "AB" if world.flight.tail[net])
    world.flight.tail[n] = struct.pack("<IIII", START // SECOND, 0, 60, 60) + b"\x03\0\0\0\0\1" + bytes(54)
    plant.text = f"the clock of {n} goes back"
    return plant


def broken(world, n=None, size=None):
    """The recording of a network ends within a frame."""
    n = n or world.network()
    size = size or world.size(50 * spacing(world.flight, n), world.flight.end * 9 // 100)
    end = last_line(world.flight)
    hole(world, n, end - size, 2 * end)
    world.flight.tail[n] = struct.pack("<IIII", (START + end) // SECOND + 1, 0, 60, 60) + bytes(30)
    plant = Plant(f"the recording of {n} is cut off {size / SECOND:.6f} s before the end").count(f"ending.{n}", 1)
    plant.finish = lambda: plant.want("recording broken", n, count=1, single=True, level="trouble",
                                      signs={f"unrecorded.{n}": unrecorded(world, n, False)})
    return plant


def no_frames(world, n=None):
    """The recording of a network has no frame."""
    n = n or world.network()
    only = ids(sender for sender in world.flight.senders if sender.networks == n)
    hole(world, n, -SECOND, 2 * world.flight.end)
    plant = Plant(f"no frame on {n}").count("never", len(only)).want("no frames", n, count=1, single=True, level="info")
    return plant.want("never", "AB", only, signs={"never": len(only)}) if only else plant
