"""Short recordings of all kinds for the tests of `afdxmon transit` beside its slow judge, by seeds.

Few links with few different frames: many are equal, lost, changed, repeated, late, at equal times, cut or
of no link. Some recordings are several files of several formats.
"""
import os
import random
import subprocess
from collections import namedtuple

from tests.flights import START
from tests.harness import TOP, frame, header, record
from tests.reference import parse
from tests.several import pieces, rise
from tests.transit_reference import Options

US, MS, SECOND, YEAR = 10**3, 10**6, 10**9, 31_557_600 * 10**9
LINK = """
[[link]]
id = {0}
name = "link_{0}"
bag_ms = {1}
jitter_us = {2}
smax = 200
integrity = true
redundancy = true
skew_us = 1000
"""
# A table, both recordings as one pcap file each, the options, and the files of each recording.
Case = namedtuple("Case", "config before after options files")
# A frame of a recording: when since the start, bytes, length on the wire.
Taken = namedtuple("Taken", "at data length")


def commit():
    """The seeds that aren't fixed begin with SEED of the environment, or else with the commit's sum."""
    if os.environ.get("SEED"):
        return os.environ["SEED"]
    try:
        command = ["git", "-C", TOP, "rev-parse", "--short=12", "HEAD"]
        ran = subprocess.run(command, capture_output=True, check=False)
    except OSError:
        return "none"
    return ran.stdout.decode().strip() or "none"


def table(links, late=0):
    """A table of links, each as (number, BAG in ms, jitter in us)."""
    return f"constant = 50331648\nlate_us = {late}\n" + "".join(LINK.format(*link) for link in links)


def random_options(chance):
    shifts = (0, 0, 0, 70_000, -70_000, 123, 2 * SECOND, -30 * YEAR)
    return Options(
        within=chance.choice((1, 2, 5, 10)) * MS,
        early=chance.choice((0, 1, 2)) * MS,
        shift=chance.choice(shifts),
        bound=chance.choice((None, 300 * US, 0)),
        grace=chance.choice((0, 1000, 1000, 100_000)),
        frames=chance.random() < 0.3,
        routed=chance.choice((None, None, [1], [1, 2])),
        network=chance.choice("-AB"),
    )


def went_in(chance, step, links):
    """The frames that went in, in order: bursts at one time, and pauses."""
    at, longest, among = 10 * MS, chance.choice((3, 3, 6, 20)), (1, *links, *links, *links, 9)
    for _ in range(chance.randint(0, chance.choice((10, 50, 50, 90)))):
        at += chance.randrange(0, longest) * step
        size = chance.choice((60, 60, 60, 60, 60, 100, 100, 196, 196, 196, 197, 59))
        data = frame(chance.choice(among), size, chance.randrange(1, 4))
        kind = chance.random()
        if kind < 0.05:
            data = b"\x02" + data[1:]
        elif kind < 0.07:
            data = frame(1, 1515, 1)
        length = len(data) + (chance.choice((1, 40)) if chance.random() < 0.04 else 0)
        yield Taken(at, data, length)


def changed(chance, data):
    """A frame with another byte, or shorter, or longer."""
    kind = chance.random()
    if kind < 0.2:
        return data[:-9] + data[-1:]
    if kind < 0.3:
        return data[:-1] + bytes(7) + data[-1:]
    where = chance.choice((30, 7, len(data) - 2))
    return data[:where] + b"\x01" + data[where + 1 :]


def came_out(chance, ins, shift):
    """The frames that came out, in order: some never, some changed, some twice, some ahead of their time;
    and some of which no frame went in."""
    out, last = [], max((one.at for one in ins), default=10 * MS)
    for one in ins:
        kind = chance.random()
        came = one.at + chance.randrange(0, 8) * 100 * US - chance.choice((0, 0, 300 * US)) - shift
        if kind < 0.15:
            continue
        if kind < 0.3:
            data = changed(chance, one.data)
            one = Taken(one.at, data, len(data))
        out.append(one._replace(at=came))
        if kind > 0.9:
            out.append(one._replace(at=came + chance.randrange(0, 4) * MS))
    for _ in range(chance.randint(0, 4)):
        data = frame(chance.choice((1, 3, 4)), 64, chance.randrange(1, 4))
        out.append(Taken(chance.randrange(5 * MS, last + 5 * MS) - shift, data, len(data)))
    return sorted(out)


def late(chance, frames, window):
    """Some frames are recorded later than their time, by up to the window; of a few recordings one by more
    than that."""
    behind = [chance.choice((0, 0, 0, chance.randrange(window + 1))) for _ in frames]
    frames = [one._replace(at=one.at - time) for one, time in zip(frames, behind)]
    if len(frames) > 1 and chance.random() < 0.05:
        where = chance.randrange(1, len(frames))
        high = max(one.at for one in frames[:where])
        frames[where] = frames[where]._replace(at=high - window - chance.choice((0, 1, 1, 5000)))
    return frames


def pcap(frames):
    return header() + b"".join(record(START + one.at, one.data, original=one.length) for one in frames)


def files_of(chance, recording, config, window):
    """One file, or several that are the same recording."""
    files = pieces(chance, recording, 5) if chance.random() < 0.4 else [recording]
    is_whole = parse(recording, window)[1].startswith("clean")
    return files if is_whole and rise(files, config) else [recording]


def random_case(seed):
    """Two short recordings, their table and the options."""
    chance = random.Random(seed)
    numbers = range(1, chance.choice((2, 3, 4, 8)))
    links = [(number, chance.choice((1, 1, 2, 4)), chance.choice((0, 500, 4000))) for number in numbers]
    options, window = random_options(chance), chance.choice((0, 0, 500))
    ins = list(went_in(chance, chance.choice((50 * US, 200 * US, MS, 2 * MS, 4 * MS)), numbers))
    outs = came_out(chance, ins, options.shift)
    config = table(links, window)
    before, after = (pcap(late(chance, frames, window * US)) for frames in (ins, outs))
    files = [files_of(chance, recording, config, window * US) for recording in (before, after)]
    return Case(config, before, after, options, files)
