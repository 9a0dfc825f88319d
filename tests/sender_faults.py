"""Faults of senders and of single frames, that are planted in flights; those of networks and losses are in tests/faults.py.

Each takes a world (tests/plants.py), changes the frames of its flight, and returns a plant (tests/truths.py).
"""
import struct

from tests.faults import ids, inner, note_losses, scattered, shift, span_of, window
from tests.flights import MS, SECOND, START
from tests.plants import HEAD, OTHER, Frame, Unfit, number_of
from tests.truths import Plant

MICRO = 1000


def renumber(sender, places=()):
    """Takes out these places and lets the numbers go on: the sender paused. The lanes' places are those of the frames that are left."""
    gone = set(places)
    kept = [place for place in range(len(sender.sent)) if place not in gone]
    new = {place: i for i, place in enumerate(kept)}
    for n in sender.networks:
        sender.remove(n, gone)
        for frame in sender.lanes[n]:
            frame.place = new[frame.place]
            frame.number = number_of(sender.first, frame.place)
    sender.sent = [sender.sent[place] for place in kept]


def arrivals(sender):
    """When each frame came first, by its place."""
    first = {}
    for n in sender.networks:
        for frame in sender.lanes[n]:
            first[frame.place] = min(first.get(frame.place, frame.stamp), frame.stamp)
    return first


def outage(world, times=None, size=None):
    """A periodic link pauses on both networks: its numbers go on after that."""
    sender = world.take(1, lambda s: world.quiet(s) and len(inner(world, s)) >= 20)[0]
    room = inner(world, sender)
    size = size or world.size(6, len(room) // 2)
    times = times or world.chance.choice((1, 1, 2, 3))
    if times * (size + 6) > len(room):
        times = 1
    begins = scattered(world.chance, room[: len(room) - size], times, size + 4)
    renumber(sender, [at + i for at in begins for i in range(size)])
    first = arrivals(sender)
    f, t = begins[0], begins[-1] - (times - 1) * size
    plant = Plant(f"link {sender.id} pauses {times} times for {size} intervals").count("outage", times)
    return plant.want("outage", ("A", "B", "AB"), [sender.id], count=times, signs={"outage": times}, single=True,
                      start=(first[f - 1], first[f - 1]), end=(first[t], first[t] + sender.skew))


def pausing(world, links, least):
    """Links that pause at the same time, with the time, and their first places after it."""
    senders = world.take(links, lambda s: s.both and world.quiet(s) and (least + 4) * s.period < world.zone[1] - world.zone[0])
    if 2 * links > len(world.flight.senders):
        raise Unfit
    f, t = window(world, senders, least)
    after = {}
    for sender in senders:
        places = sender.places(f, t)
        after[sender.id] = places[0]
        renumber(sender, places)
    return senders, f, t, after


def outage_group(world, links=None):
    """Several links pause at the same time: their sender did."""
    senders, f, t, _ = pausing(world, links or max(3, world.some(40)), 10)
    slack = 2 * max(sender.period for sender in senders)
    plant = Plant(f"links {ids(senders)} pause at the same time").count("outage", len(senders))
    return plant.want("outage", "AB", ids(senders), signs={"outage": len(senders)}, single=True,
                      start=(START + f - slack, START + f + slack), end=(START + t - slack, START + t + slack))


def restart_group(world, links=None):
    """Several links pause at the same time and begin anew with number 0."""
    senders, f, t, after = pausing(world, links or max(3, world.some(40)), 10)
    for sender in senders:
        begin_anew(sender, [after[sender.id]])
    slack = 2 * max(sender.period for sender in senders)
    plant = Plant(f"links {ids(senders)} pause at the same time and begin anew").count("outage", len(senders))
    signs = {"outage": len(senders), "reset.A": len(senders), "reset.B": len(senders)}
    return plant.want("outage", "AB", ids(senders), signs=signs, single=True, start=(START + f - slack, START + f + slack))


def power_cycle(world, size=None):
    """All senders are off for a while, and begin anew with number 0."""
    senders = world.take(len(world.flight.senders), lambda s: s.both and s.way == "periodic")
    f, t = world.zone
    size = size or 12 * max(sender.period for sender in senders)
    if 2 * size > t - f:
        raise Unfit
    f += (t - f - size) // 2
    for sender in senders:
        places = sender.places(f, f + size)
        renumber(sender, places)
        begin_anew(sender, [places[0]])
    slack = 2 * max(sender.period for sender in senders)
    plant = Plant(f"all senders are off for {size // 1000000} ms and begin anew").count("outage", len(senders))
    signs = {"outage": len(senders), "reset.A": len(senders), "reset.B": len(senders)}
    return plant.want("outage", "AB", ids(senders), signs=signs, single=True, start=(START + f - slack, START + f + slack))


def restart(world):
    """A link pauses, and begins anew with number 0."""
    sender = world.take(1, lambda s: s.both and world.quiet(s) and s.way == "periodic" and len(inner(world, s)) >= 40)[0]
    room = inner(world, sender)
    begin = room[len(room) // 2]
    renumber(sender, range(begin, begin + 12))
    begin_anew(sender, [begin])
    plant = Plant(f"link {sender.id} pauses and begins anew at frame {begin}").count("outage", 1)
    return plant.want("outage", ("A", "B", "AB"), [sender.id], count=1, signs={"outage": 1, "reset.A": 1, "reset.B": 1}, single=True)


def begin_anew(sender, places):
    """The sender's numbers begin with 0 at these places."""
    marks = sorted(places)
    for n in sender.networks:
        for frame in sender.lanes[n]:
            last = [mark for mark in marks if mark <= frame.place]
            if last:
                frame.number = number_of(0, frame.place - last[-1])


def reset(world, times=None):
    """A sender begins anew with number 0, without a pause."""
    sender = world.take(1, lambda s: s.both and s.way == "periodic" and len(inner(world, s)) >= 20)[0]
    places = scattered(world.chance, inner(world, sender), times or world.chance.choice((1, 1, 2)), 8)
    begin_anew(sender, places)
    plant = Plant(f"link {sender.id} begins anew with number 0 at {places}")
    times = len(places)
    return plant.want("reset", "AB", [sender.id], count=(times, 2 * times), signs={"reset.A": times, "reset.B": times},
                      **span_of([sender], {sender.id: places}))


def reset_lost(world, n=None, frames=1):
    """A sender begins anew, and its first frames after that are lost on one network, which knows of it by the other alone."""
    n = n or world.network()
    sender = world.take(1, lambda s: s.both and s.way == "periodic" and len(inner(world, s)) >= 20)[0]
    place = inner(world, sender)[4]
    begin_anew(sender, [place])
    sender.remove(n, range(place, place + frames))
    plant = Plant(f"link {sender.id} begins anew with number 0 at frame {place}, which is lost on {n} with {frames - 1} after it")
    plant.count(f"lost.{n}", 0, frames).count(f"alone.{OTHER[n]}", 0, frames)
    for word in ("jump", "repeat", "stray"):
        plant.count(f"{word}.{n}", 0, 20)
    # its own numbers say that they jumped, and look old until enough of them follow each other
    plant.allow(("lost", "jump", "old", "stray"), [sender.id])
    return plant.want("reset", (OTHER[n], "AB"), [sender.id], signs={f"reset.{OTHER[n]}": 1}, single=True)


def reset_group(world, links=None):
    """Several senders begin anew at the same time, without a pause."""
    links = links or max(3, world.some(40))
    senders = world.take(links, lambda s: s.both and s.way == "periodic" and 12 * s.period < world.zone[1] - world.zone[0])
    quickest, (f, t) = min(sender.period for sender in senders), world.zone
    at = f + world.chance.randrange(t - f)
    marks = {}
    for sender in senders:
        marks[sender.id] = [next((place for place, sent in enumerate(sender.sent) if sent >= at and place > 2), 0)]
        if not marks[sender.id][0] or sender.sent[marks[sender.id][0]] - at > quickest:
            raise Unfit
        begin_anew(sender, marks[sender.id])
    plant = Plant(f"links {ids(senders)} begin anew at the same time")
    return plant.want("reset", "AB", ids(senders), signs={"reset.A": links, "reset.B": links}, single=True, **span_of(senders, marks))


def wraps_to_zero(world):
    """A sender counts 255, 0 in place of 255, 1."""
    sender = world.take(1, lambda s: s.both and s.way == "periodic" and len(s.sent) > 270)[0]
    for n in sender.networks:
        for frame in sender.lanes[n]:
            frame.number = frame.place % 256
    plant = Plant(f"link {sender.id} counts from 255 to 0")

    def finish():
        """What is wanted, once all is planted."""
        marks = {n: sum(not frame.number for frame in sender.lanes[n][1:]) for n in "AB"}
        if any(marks.values()):
            plant.want("reset", "AB" if all(marks.values()) else ("A", "B", "AB"), [sender.id],
                       signs={f"reset.{n}": marks[n] for n in "AB"})

    plant.finish, plant.links = finish, {sender.id}
    return plant


def until(world, sender, at, n=None):
    """Removes the frames of a sender that are sent from a time on, of one network or of both. How many."""
    places = [place for place, sent in enumerate(sender.sent) if sent >= at]
    return [sender.remove(net, places) for net in (n or sender.networks)][0]


def since(sender, at, n=None):
    """Removes the frames that are sent before a time. How many."""
    places = [place for place, sent in enumerate(sender.sent) if sent < at]
    return [sender.remove(net, places) for net in (n or sender.networks)][0]


def stops(world, links=None):
    """Periodic links send no more, all from the same time on."""
    links = links or world.chance.choice((1, 1, 2, 3, max(3, world.some(40))))
    f, t = world.zone
    senders = world.take(links, lambda s: world.quiet(s) and 10 * max(s.period, s.bag) < world.flight.end - f)
    if 2 * links > len(world.flight.senders):
        raise Unfit
    last = world.flight.end - 10 * max(max(s.period, s.bag) for s in senders)
    if last <= f:
        raise Unfit
    at = f + world.chance.randrange(min(t, last) - f)
    for sender in senders:
        until(world, sender, at)
    ends = [max(frame.stamp for n in s.networks for frame in s.lanes[n]) for s in senders]
    plant = Plant(f"links {ids(senders)} stop at {at / SECOND:.3f} s").count("stop", links)
    slack = max(s.period + s.skew for s in senders)
    return plant.want("stops", ("A", "B", "AB"), ids(senders), signs={"stop": links}, single=links == 1 or links >= 3 and alike(senders),
                      count=links, start=(min(ends) - slack, max(ends)))


def alike(senders):
    """Whether links have periods so alike that their moments fall within two intervals of each."""
    return max(s.period for s in senders) <= min(s.period for s in senders)


def starts_late(world, links=None):
    """Periodic links send nothing before a time."""
    links = links or world.chance.choice((1, 1, 2, 3, max(3, world.some(40))))
    fits = lambda s: s.proven() is not None and s.proven() + 6 * max(s.period, s.bag) < world.flight.end * 2 // 5
    senders = world.take(links, fits)
    if 2 * links > len(world.flight.senders):
        raise Unfit
    least = 6 * max(max(s.period, s.bag) for s in senders)
    at = world.size(least, min(world.flight.end * 2 // 5 - s.proven() + s.sent[0] for s in senders))
    for sender in senders:
        since(sender, at)
    begins = [min(frame.stamp for n in s.networks for frame in s.lanes[n]) for s in senders]
    plant = Plant(f"links {ids(senders)} start at {at / SECOND:.3f} s").count("late start", links)
    return plant.want("starts late", ("A", "B", "AB"), ids(senders), signs={"late start": links},
                      single=links == 1 or links >= 3 and alike(senders),
                      count=links, level="notice", end=(min(begins), max(begins) + max(s.skew for s in senders)))


def one_sided(world, plant, kind, n, senders, what):
    """Of links that come on the other network alone for a while: what must be told, once all is planted."""
    def finish():
        """What is wanted, once all is planted."""
        frames = [(s, frame) for s in senders for frame in s.lanes[OTHER[n]] if what(s, frame)]
        number, (first, last) = len({(s.id, frame.place) for s, frame in frames}), world.flight.ends(n)
        # what came before the first line of the network or after its last isn't recorded there
        least = number - sum(not first + s.skew < frame.stamp < last - s.skew for s, frame in frames)
        plant.count(f"alone.{OTHER[n]}", least, number).count(f"lost.{n}", 0, number)
        plant.want(kind, n, ids(senders), signs={f"alone.{OTHER[n]}": (least, number)}, single=len(senders) == 1)

    plant.finish, plant.links = finish, set(ids(senders))
    # where the network's first or last line is that of another link, a ledger can't tell a recorder that began later or ended sooner
    return plant.allow(("recorder starts late", "recorder ends early"), levels=("info", "notice"))


def stops_on(world, n=None, links=None):
    """Links come no more on one network; the other has them to the end."""
    n, links = n or world.network(), links or world.chance.choice((1, 1, 2, max(3, world.some(40))))
    f, t = world.zone
    senders = world.take(links, lambda s: s.both and s.way == "periodic" and 12 * s.period < world.flight.end - t)
    if 2 * links > len(world.flight.senders):
        raise Unfit
    at = f + world.chance.randrange(t - f)
    for sender in senders:
        until(world, sender, at, n)
    plant = Plant(f"links {ids(senders)} stop on {n} at {at / SECOND:.3f} s")
    return one_sided(world, plant, "stops on", n, senders, lambda sender, frame: sender.sent[frame.place] >= at)


def starts_late_on(world, n=None, links=None):
    """Links come on one network from a time on only; the other has them from the start."""
    n, links = n or world.network(), links or world.chance.choice((1, 1, 2, max(3, world.some(40))))
    senders = world.take(links, lambda s: s.both and s.way == "periodic")
    if 2 * links > len(world.flight.senders):
        raise Unfit
    least = 12 * max(s.period for s in senders)
    at = world.size(least, max(least, world.flight.end // 3))
    for sender in senders:
        since(sender, at, n)
    plant = Plant(f"links {ids(senders)} start on {n} at {at / SECOND:.3f} s")
    return one_sided(world, plant, "starts late on", n, senders, lambda sender, frame: sender.sent[frame.place] < at)


def never_on(world, n=None, links=None):
    """Links with redundancy management come on one network alone."""
    n, links = n or world.network(), links or world.chance.choice((1, 1, 2, max(3, world.some(40))))
    senders = world.take(links, lambda s: s.both)
    if 2 * links > len(world.flight.senders):
        raise Unfit
    for sender in senders:
        sender.remove(n, range(len(sender.sent)))
    plant = Plant(f"links {ids(senders)} never come on {n}")
    return one_sided(world, plant, "never on", n, senders, lambda sender, frame: True)


def never(world, links=None):
    """Links of the table have no frame."""
    senders = world.take(links or world.some(40))
    for sender in senders:
        for n in sender.networks:
            sender.lanes[n] = []
    plant = Plant(f"links {ids(senders)} have no frame").count("never", len(senders))
    return plant.want("never", "AB", ids(senders), count=len(senders), signs={"never": len(senders)}, level="silent")


def respaced(sender, at, factor, frames=None):
    """From a time on, for so many frames or to the end, the sender's intervals are longer by a factor. Frames beyond the end are gone."""
    begin = next(place for place, sent in enumerate(sender.sent) if sent >= at)
    until_place = len(sender.sent) if frames is None else min(len(sender.sent), begin + frames)
    moves, end = {}, sender.sent[-1]
    for place in range(begin, len(sender.sent)):
        steps = min(place, until_place) - begin
        moves[place] = int((factor - 1) * steps * sender.period)
    gone = {place for place, move in moves.items() if sender.sent[place] + move > end}
    for n in sender.networks:
        sender.remove(n, gone)
        for frame in sender.lanes[n]:
            frame.stamp += moves.get(frame.place, 0)
    sender.sent = [sent + moves.get(place, 0) for place, sent in enumerate(sender.sent) if place not in gone]
    return begin


def rate(world, factor=None):
    """A periodic link goes on with another interval, by a half or twice as much, or more."""
    factor = factor or world.chance.choice((1 / 3, 0.5, 2, 3))
    fits = lambda s: world.quiet(s) and 20 * s.jitter <= s.period and s.period * factor >= 1.6 * s.bag and inner(world, s)
    sender = world.take(1, fits)[0]
    room = inner(world, sender)
    at = sender.sent[room[len(room) // 4]]
    left = (world.flight.end - at) // sender.period / max(1, factor)
    if left < 40:
        raise Unfit
    respaced(sender, at, factor)
    # a faster sender has as many frames as before, which end sooner: it sends on to the end
    more(sender, world.flight.end, int(sender.period * factor))
    plant = Plant(f"the interval of link {sender.id} becomes {factor} times as long at {at / SECOND:.3f} s").count("rate", 1)
    slack = int(3 * sender.period * max(1, factor))
    return plant.want("rate", ("A", "B", "AB"), [sender.id], count=1, signs={"rate": 1}, level="notice",
                      start=(START + at - slack, START + at + slack))


def more(sender, end, period):
    """The sender goes on to the end of the flight with this interval."""
    size = next(frame.size for n in sender.networks for frame in sender.lanes[n])
    at, place = sender.sent[-1] + period, len(sender.sent)
    while at + sender.jitter < end:
        sender.sent.append(at)
        for n in sender.networks:
            sender.lanes[n].append(Frame(place, number_of(sender.first, place), START + at + sender.path[n], size))
        at, place = at + period, place + 1


def early(world, frames=None):
    """Some frames are sent sooner than the BAG allows, on both networks."""
    fits = lambda s: s.both and s.way == "periodic" and s.period < 1.05 * s.bag and s.jitter * 8 <= s.bag and len(inner(world, s)) >= 12
    sender = world.take(1, fits)[0]
    places = scattered(world.chance, inner(world, sender), frames or world.size(1, len(inner(world, sender)) // 6), 5)
    for n in sender.networks:
        for frame in sender.frames(n, places):
            frame.stamp -= sender.bag // 2
    number = len(places)
    plant = Plant(f"link {sender.id} sends {number} frames half a BAG too early").count("early.A", number).count("early.B", number)
    return plant.want("bag", "AB", [sender.id], signs={"early.A": number, "early.B": number}, single=True, level="trouble",
                      **span_of([sender], {sender.id: places}))


def too_fast(world, frames=None, factor=0.6):
    """A link sends faster than its BAG for a while."""
    fits = lambda s: s.both and world.quiet(s) and s.period < 1.05 * s.bag and s.jitter * 8 <= s.bag and len(inner(world, s)) >= 12
    sender = world.take(1, fits)[0]
    room = inner(world, sender)
    frames = frames or world.size(4, len(room) // 2)
    begin = respaced(sender, sender.sent[room[0]], factor, frames)
    more(sender, world.flight.end, sender.period)
    plant = Plant(f"link {sender.id} sends {frames} frames at {factor} of its BAG, from frame {begin} on")
    plant.count("early.A", frames).count("early.B", frames).count("rate", 0, 2)
    return plant.want("bag", "AB", [sender.id], signs={"early.A": frames, "early.B": frames}, single=True, level="trouble")


def bunched(world, n=None, times=None):
    """Frames of a link are held up in one network and come close together."""
    n = n or world.network()
    fits = lambda s: s.both and s.way == "periodic" and s.period < 1.05 * s.bag and s.jitter * 8 <= s.bag and len(inner(world, s)) >= 12
    sender = world.take(1, lambda s: fits(s) and s.bag > 2 * s.skew)[0]
    places = scattered(world.chance, inner(world, sender), times or world.size(1, len(inner(world, sender)) // 8), 6)
    stamps = {frame.place: frame.stamp for frame in sender.lanes[n]}
    for frame in sender.frames(n, places):
        frame.stamp = stamps[frame.place + 2] - 200 * MICRO
    for frame in sender.frames(n, [place + 1 for place in places]):
        frame.stamp = stamps[frame.place + 1] - 100 * MICRO
    number = len(places)
    plant = Plant(f"frames of link {sender.id} come close together on {n} {number} times").count(f"early.{n}", number, 2 * number)
    plant.count(f"late.{n}", 0, 2 * number)
    return plant.want("bunched", n, [sender.id], signs={f"early.{n}": (number, 2 * number)}, single=True,
                      **span_of([sender], {sender.id: places}))


def random_link(world, networks=("AB",)):
    """A link that sends at random intervals, and its longest one: a pause of many times that is told."""
    fits = lambda s: s.way == "sporadic" and s.networks in networks and s.row["redundancy"] and len(inner(world, s)) >= 12
    sender = world.take(1, lambda s: fits(s) and sum(at < world.zone[0] for at in s.sent) >= 140)[0]
    return sender, max(b - a for a, b in zip(sender.sent, sender.sent[1:]))


def random_stops(world):
    """A link that sends at random intervals sends no more, for longer than it ever paused by many times."""
    sender, longest = random_link(world)
    at = world.zone[0]
    if world.flight.end - at < 9 * longest + sender.jitter + MS:
        raise Unfit
    until(world, sender, at)
    last = max(frame.stamp for frame in sender.lanes["A"] + sender.lanes["B"])
    plant = Plant(f"link {sender.id}, which sends at random, stops at {at / SECOND:.3f} s").count("stop", 1)
    return plant.want("stops", ("A", "B", "AB"), [sender.id], count=1, signs={"stop": 1}, single=True, start=(last - 2 * sender.skew, last))


def random_outage(world, factor=10):
    """A link that sends at random intervals pauses for many times its longest interval. With a smaller factor it's nothing to tell."""
    sender, longest = random_link(world)
    f, t = world.zone
    size = factor * longest
    if f + size + 3 * longest > world.flight.end:
        raise Unfit
    renumber(sender, [place for place, at in enumerate(sender.sent) if f <= at < f + size])
    plant = Plant(f"link {sender.id}, which sends at random, pauses for {factor} times its longest interval")
    if factor < 6:
        return plant
    return plant.count("outage", 1).want("outage", ("A", "B", "AB"), [sender.id], count=1, signs={"outage": 1}, single=True)


def random_pause(world):
    """A link that sends at random intervals pauses for twice or three times its longest interval: nothing to tell."""
    return random_outage(world, world.chance.choice((1, 2, 3)))


# ---- frames

def too_long(world, networks=None, links=None, frames=None):
    """Frames are longer than Smax."""
    networks = networks or world.chance.choice(("A", "B", "AB"))
    senders = world.take(links or world.some(), lambda s: networks in s.networks and len(inner(world, s)) >= 4)
    number = 0
    for sender in senders:
        places = scattered(world.chance, inner(world, sender), frames or world.size(1, len(inner(world, sender)) // 2), 2)
        number += len(places)
        for n in networks:
            for frame in sender.frames(n, places):
                frame.size = sender.row["smax"] - 3
    plant = Plant(f"{number} frames of links {ids(senders)[:9]} are too long on {networks}")
    signs = {f"toolong.{n}": number for n in networks}
    return plant.want("toolong", networks, ids(senders), count=number * len(networks), signs=signs, level="trouble")


def late(world, n=None, frames=None):
    """Some frames come on one network later than SkewMax after the other's, but before their successors."""
    n = n or world.network()
    fits = lambda s: s.both and s.way == "periodic" and s.period > 2 * s.bag + 4 * s.skew and len(inner(world, s)) >= 8
    sender = world.take(1, fits)[0]
    places = scattered(world.chance, inner(world, sender), frames or world.size(1, len(inner(world, sender)) // 8), 4)
    size = sender.skew + sender.jitter + abs(sender.path["A"] - sender.path["B"]) + 100 * MICRO
    for frame in sender.frames(n, places):
        frame.stamp += size
    number = len(places)
    plant = Plant(f"{number} frames of link {sender.id} come {size / MS:.3f} ms later on {n}").count(f"late.{n}", number)
    return plant.want("late", n, [sender.id], count=number, signs={f"late.{n}": number}, single=True,
                      **span_of([sender], {sender.id: places}))


def skew_moves(world, links=None, n=None):
    """The way of a link through one network gets longer, or that of several at the same time."""
    n, links = n or world.network(), links or world.chance.choice((1, 1, 2, 3, 4))
    f, t = world.zone
    even = lambda s: s.both and s.way == "periodic" and 16 * s.jitter <= s.skew
    fits = lambda s: even(s) and s.period > 4 * s.skew + 2 * s.jitter and 60 * s.period < t - f
    senders = world.take(links, fits)
    if 5 * links > len(world.flight.senders) or max(s.period for s in senders) > 2 * min(s.period for s in senders):
        raise Unfit
    at = f + world.chance.randrange(max(1, t - f - 60 * max(s.period for s in senders)))
    number = 0
    for sender in senders:
        size = sender.skew * world.chance.randrange(50, 160) // 100
        number += shift(world, n, at, max(size, 200_000), [sender])
    plant = Plant(f"the way of links {ids(senders)} on {n} gets longer at {at / SECOND:.3f} s").count("moved", links)
    plant.count("late.A", 0, number).count("late.B", 0, number)
    slack = 8 * max(s.period for s in senders)
    return plant.want("skew moves", "AB", ids(senders), signs={"moved": links}, single=links == 1,
                      start=(START + at - slack, START + at + slack))


def twice(world, n=None, links=None, frames=None):
    """Some frames come twice on one network."""
    n = n or world.network()
    senders = world.take(links or world.some(4), lambda s: n in s.networks and len(inner(world, s)) >= 4)
    number = 0
    for sender in senders:
        places = scattered(world.chance, inner(world, sender), frames or world.size(1, len(inner(world, sender)) // 2), 2)
        number += repeat(world, sender, n, places, lambda frame: frame.stamp + world.chance.randrange(2, 50) * MICRO)
    plant = Plant(f"{number} frames of links {ids(senders)} come twice on {n}").count(f"repeat.{n}", number)
    return plant.want("twice", n, ids(senders), count=number, signs={f"repeat.{n}": number})


def repeat(world, sender, n, places, stamp):
    """These frames come again on a network, at a time by this. How many."""
    copies = []
    for frame in sender.frames(n, places):
        copy = Frame(frame.place, frame.number, stamp(frame), frame.size)
        copies.append(copy)
    sender.lanes[n] = sorted(sender.lanes[n] + copies, key=lambda frame: frame.stamp)
    return len(copies)


def all_twice(world, n=None):
    """The recording of a network has its frames twice for a while."""
    n = n or world.network()
    number, named = 0, []
    for sender in world.flight.senders:
        places = sender.places(*world.zone) if n in sender.networks else []
        if places:
            named.append(sender.id)
            number += repeat(world, sender, n, places, lambda frame: frame.stamp + 5 * MICRO)
    if 10 * len(named) < 9 * sum(n in sender.networks for sender in world.flight.senders):
        raise Unfit
    plant = Plant(f"all {number} frames on {n} are recorded twice for a while").count(f"repeat.{n}", number)
    return plant.want("twice", n, named, count=number, signs={f"repeat.{n}": number}, single=True)


def reordered(world, n=None, frames=None):
    """Some frames come just after their successors on one network."""
    n = n or world.network()
    sender = world.take(1, lambda s: s.both and s.way == "periodic" and len(inner(world, s)) >= 8)[0]
    places = scattered(world.chance, inner(world, sender), frames or world.size(1, len(inner(world, sender)) // 8), 5)
    stamps = {frame.place: frame.stamp for frame in sender.lanes[n]}
    for frame in sender.frames(n, places):
        frame.stamp = stamps[frame.place + 1] + 20 * MICRO
    sender.lanes[n].sort(key=lambda frame: frame.stamp)
    number = len(places)
    plant = Plant(f"{number} frames of link {sender.id} come after their successors on {n}").count(f"reordered.{n}", number)
    plant.count(f"late.{n}", 0, number)
    # where policing finds a frame that comes at once after its successor excess, that it bunches there is true as well
    plant.allow("bunched", [sender.id])
    return plant.want("reordered", n, [sender.id], count=number, signs={f"reordered.{n}": number}, single=True)


def other_number(chance, number):
    """A number that is far from this one on both sides."""
    return (number - 1 + chance.randrange(90, 160)) % 255 + 1


def wrong_numbers(world, n=None, frames=None):
    """Some frames of a link have a wrong number on one network: bit errors."""
    n = n or world.network()
    sender = world.take(1, lambda s: s.both and s.period < 8 * s.bag and s.way == "periodic" and len(inner(world, s)) >= 8)[0]
    places = scattered(world.chance, inner(world, sender), frames or world.size(1, len(inner(world, sender)) // 8), 5)
    for frame in sender.frames(n, places):
        frame.number = other_number(world.chance, frame.number)
    number = len(places)
    plant = Plant(f"{number} frames of link {sender.id} have a wrong number on {n}").count(f"stray.{n}", 0, number).count(f"repeat.{n}", 0,
                                                                                                                          number)
    signs = note_losses(plant, n, [sender], [number])
    return plant.want(("stray", "old"), n, [sender.id], count=number, signs=signs, **span_of([sender], {sender.id: places}))


def strays(world, n=None, frames=None):
    """Frames with the link's identifier and any number come among its own: misaddressed."""
    n = n or world.network()
    sender = world.take(1, lambda s: s.both and s.way == "periodic" and s.period < 8 * s.bag and len(inner(world, s)) >= 8)[0]
    places = scattered(world.chance, inner(world, sender), frames or world.size(1, len(inner(world, sender)) // 8), 5)
    count = repeat(world, sender, n, places, lambda frame: frame.stamp + sender.period // 3)
    seen = set()
    for frame in sender.lanes[n]:
        if frame.place in seen:
            frame.number = other_number(world.chance, frame.number)
        elif frame.place in places:
            seen.add(frame.place)
    plant = Plant(f"{count} strange frames with the identifier of link {sender.id} on {n}").count(f"stray.{n}", 0,
                                                                                                  count).count(f"repeat.{n}", 0, count)
    plant.count(f"early.{n}", 0, 2 * count).count(f"late.{n}", 0, count)
    # a strange frame takes its share of the account, so that the link's next one may be excess
    plant.allow(("bunched", "old", "stray", "lost"), [sender.id])
    return plant.want(("stray", "old"), n, [sender.id])


def replayed(world, n=None, frames=None):
    """Frames come again on one network, many intervals later."""
    n = n or world.network()
    sender = world.take(1, lambda s: s.both and s.way == "periodic" and len(inner(world, s, 30)) >= 8)[0]
    places = scattered(world.chance, inner(world, sender, 30), frames or world.size(1, len(inner(world, sender, 30)) // 8), 5)
    later = {place: world.chance.randrange(5, 25) for place in places}
    stamps = {frame.place: frame.stamp for frame in sender.lanes[n]}
    number = repeat(world, sender, n, places, lambda frame: stamps[frame.place + later[frame.place]] + sender.period // 3)
    plant = Plant(f"{number} frames of link {sender.id} come again on {n} many intervals later").count(f"repeat.{n}", number)
    plant.count(f"early.{n}", 0, 2 * number).count(f"late.{n}", 0, number)
    plant.allow("bunched", [sender.id])
    return plant.want("old", n, [sender.id], count=number, signs={f"repeat.{n}": number}, single=True)


def stuck(world, frames=None):
    """A sender's number stands still for a while, then goes on from there."""
    sender = world.take(1, lambda s: s.both and world.quiet(s) and len(inner(world, s)) >= 16)[0]
    room = inner(world, sender)
    frames = frames or world.size(1, len(room) // 2)
    begin = room[2]
    for n in sender.networks:
        for frame in sender.lanes[n]:
            if frame.place > begin:
                frame.number = number_of(sender.first, max(begin, frame.place - frames))
    plant = Plant(f"the number of link {sender.id} stands still for {frames} frames").count("repeat.A", frames).count("repeat.B", frames)
    plant.count("late.A", 0, frames).count("late.B", 0, frames)
    return plant.want("stuck", "AB", [sender.id], count=(frames, 2 * frames), signs={"repeat.A": frames, "repeat.B": frames}, single=True)


def frozen(world, back=None):
    """A sender's number falls back by so many, and stands still there to the end."""
    sender = world.take(1, lambda s: s.both and s.way == "periodic" and world.quiet(s) and len(inner(world, s)) >= 300)[0]
    begin, back = inner(world, sender)[150], back or world.chance.randrange(1, 120)
    frames = {n: 0 for n in sender.networks}
    for n in sender.networks:
        for frame in sender.lanes[n]:
            if frame.place > begin:
                frame.number = number_of(sender.first, begin - back)
                frames[n] += 1
    plant = Plant(f"the number of link {sender.id} falls back by {back} and stands still")
    for n in sender.networks:
        for word in ("repeat", "stray", "late"):
            plant.count(f"{word}.{n}", 0, frames[n])
    return plant.want("stuck", "AB", [sender.id], count=(frames["A"], frames["A"] + frames["B"]), single=True)


def twice_later(world, n=None):
    """Each frame of a link comes twice on a network, the second time after six tenths of its interval."""
    n = n or world.network()
    sender = world.take(1, lambda s: s.both and s.way == "periodic" and world.quiet(s) and len(inner(world, s)) >= 40)[0]
    number = repeat(world, sender, n, inner(world, sender), lambda frame: frame.stamp + sender.period * 6 // 10)
    plant = Plant(f"{number} frames of link {sender.id} come twice on {n}, {sender.period * 6 // 10} ns apart")
    plant.count(f"repeat.{n}", number)
    for word in ("late.A", "late.B", f"early.{n}", f"excess.{n}"):
        plant.count(word, 0, number)
    plant.allow(("bunched",), [sender.id])
    return plant.want("twice", n, [sender.id], count=number, signs={f"repeat.{n}": number})


def no_number(world, n=None):
    """The last byte of a link's frames is always the same, on one network or on both."""
    n = n or world.chance.choice(("A", "B", "AB"))
    sender = world.take(1, lambda s: s.both and s.way == "periodic" and len(s.sent) >= 40)[0]
    number, byte = 0, world.chance.randrange(1, 256)
    for net in n:
        for frame in sender.lanes[net]:
            frame.number = byte
        number += len(sender.lanes[net])
    plant = Plant(f"the last byte of link {sender.id} on {n} is always {byte}")
    for net in "AB":
        for word in ("repeat", "lost", "alone", "late", "early", "stray", "unrecorded", "jump"):
            plant.count(f"{word}.{net}", 0, number)
    plant.count("both", 0, number).count("apart", 0, 1)
    sender.blind = True
    return plant.want("no number", ("A", "B", "AB"), [sender.id])


def jump(world, size=None):
    """A sender's numbers jump ahead: no frame is missing, there was no time for it."""
    sender = world.take(1, lambda s: s.both and world.quiet(s) and s.period < 8 * s.bag and len(inner(world, s)) >= 8)[0]
    size = size or world.chance.choice((-1, 1)) * world.chance.randrange(50, 110)
    begin = world.chance.choice(inner(world, sender))
    renumbered(sender, begin, size, "AB")
    plant = Plant(f"the numbers of link {sender.id} jump by {size}").count("jump.A", 0, 1).count("jump.B", 0, 1)
    plant.count("repeat.A", 0, 20).count("repeat.B", 0, 20)
    # going back by less than 64, numbers look old until 16 of them follow each other
    plant.allow("old", [sender.id])
    span = span_of([sender], {sender.id: range(begin, begin + (20 if size < 0 else 1))})
    bounds = span["start"][0], span["end"][1]
    return plant.want("jump", "AB", [sender.id], count=(1, 2), signs={"jump.A": 1, "jump.B": 1}, start=bounds, end=bounds)


def renumbered(sender, begin, size, networks):
    """From a place on the numbers are so much greater on these networks."""
    for n in networks:
        for frame in sender.lanes[n]:
            if frame.place >= begin:
                frame.number = number_of(sender.first or 1, frame.place + 255 + size - (not sender.first))


def skipped(world, size=None, times=None):
    """A sender skips a number or two: its intervals stay as they are, so no frame is missing."""
    sender = world.take(1, lambda s: s.both and world.quiet(s) and len(inner(world, s)) >= 16)[0]
    size, room = size or world.chance.choice((1, 2)), inner(world, sender)
    places = scattered(world.chance, room, times or world.size(1, max(1, len(room) // 10)), 6)
    for i, place in enumerate(places):
        renumbered(sender, place, size * (i + 1), "AB")
    number = size * len(places)
    plant = Plant(f"link {sender.id} skips {size} numbers {len(places)} times").count("skipped.A", number).count("skipped.B", number)
    return plant.want("skipped", "AB", [sender.id], count=(number, 2 * number), signs={"skipped.A": number, "skipped.B": number})


def apart(world, size=None, n=None):
    """The numbers of one network go on by others than those of the other network."""
    n = n or world.network()
    f, t = world.zone
    sender = world.take(1,
                        lambda s: s.both and world.quiet(s) and s.period < 8 * s.bag and 80 * s.period < t - f and s.period > 4 * s.skew)[0]
    size = size or world.chance.choice((-1, 1)) * world.chance.randrange(30, 90)
    begin = inner(world, sender)[2]
    renumbered(sender, begin, size, n)
    number = len(sender.lanes[n]) - begin
    plant = Plant(f"the numbers of link {sender.id} on {n} are {size} greater from frame {begin} on").count("apart", 1).allow("old",
                                                                                                                              [sender.id])
    for net in "AB":
        for word in ("jump", "late", "lost", "alone", "repeat"):
            plant.count(f"{word}.{net}", 0, 130 if word in ("lost", "alone") else number)
    return plant.want("apart", "AB", [sender.id], count=1, signs={"apart": 1}, single=True)


def cut(world, n=None, links=None, frames=None):
    """Some frames of one network are cut short by its recorder."""
    n = n or world.network()
    senders = world.take(links or world.some(), lambda s: n in s.networks and len(inner(world, s)) >= 8)
    places, numbers = {}, []
    for sender in senders:
        places[sender.id] = scattered(world.chance, inner(world, sender), frames or world.size(1, len(inner(world, sender)) // 8), 4)
        for frame in sender.frames(n, places[sender.id]):
            frame.held = frame.size - 8
        numbers.append(len(places[sender.id]))
    plant = Plant(f"{sum(numbers)} frames of links {ids(senders)[:9]} on {n} are cut short")
    signs = note_losses(plant, n, senders, numbers)
    return plant.want("cut", n, count=sum(numbers), signs={**signs, f"cut.{n}": sum(numbers)}, single=True)


def cut_whole(world, n=None):
    """All frames of a link on a network are cut short by its recorder."""
    n = n or world.network()
    sender = world.take(1, lambda s: s.both and s.way == "periodic")[0]
    for frame in sender.lanes[n]:
        frame.held = frame.size - 8
    number = len(sender.lanes[n])
    plant = Plant(f"all {number} frames of link {sender.id} on {n} are cut short").count(f"alone.{OTHER[n]}", 0, number)
    plant.count(f"unrecorded.{n}", 0, number)
    return plant.want("cut", n, count=number, single=True)


def strange(world, kind, n=None, frames=None):
    """Frames that no link of the table sends."""
    n = n or world.network()
    f, t = world.zone
    unknown = 1000 + world.chance.randrange(1000)
    number = frames or world.size(1, 300)
    for _ in range(number):
        size = {"runt": 40, "oversize": 1600}.get(kind, 100)
        head = (b"\x01\x80\xc2\0" if kind == "foreign" else HEAD) + struct.pack(">H", unknown if kind == "unconfigured" else 1)
        world.flight.strange[n].append((START + world.chance.randrange(f, t), head + bytes(size - 6), size))
    plant = Plant(f"{number} frames on {n} are {kind}")
    return plant.want(kind, n, count=number, signs={f"{kind}.{n}": number}, single=True)


def runt(world, **how):
    """Frames are below 60 bytes."""
    return strange(world, "runt", **how)


def oversize(world, **how):
    """Frames are above 1514 bytes."""
    return strange(world, "oversize", **how)


def foreign(world, **how):
    """Frames have another constant field."""
    return strange(world, "foreign", **how)


def unconfigured(world, **how):
    """Frames are of links that the table lacks."""
    return strange(world, "unconfigured", **how)


# ---- nothing to tell of

def short_pauses(world, times=None):
    """A periodic link pauses for one or two intervals, which isn't told: its numbers go on."""
    sender = world.take(1, lambda s: world.quiet(s) and len(inner(world, s)) >= 20)[0]
    size = world.chance.choice((1, 2))
    places = scattered(world.chance, inner(world, sender), times or world.size(1, len(inner(world, sender)) // 8), 6)
    renumber(sender, [at + i for at in places for i in range(min(size, 1 if 3 * sender.jitter > sender.period else size))])
    return Plant(f"link {sender.id} pauses for {size} intervals {len(places)} times: nothing to tell")
