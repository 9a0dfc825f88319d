"""Recordings at the ports of a path of three switches, with faults planted in it, for the tests of
examples/fleet/path.

The model sends each frame from port to port itself, and its recorders write exact times. So it knows of
each frame of port 0 where it was recorded, how long each switch took, and who lost it.
"""
import random
from collections import Counter, defaultdict, namedtuple

from tests.flights import CONSTANT, MS, START, recording_of

US = 10**3
SWITCHES, FRAMES, INTERVAL = 3, 50, 6 * MS
WITHIN, EARLY, BOUND = 10 * MS, MS, 300 * US
# Links of the path; one that the second switch sends elsewhere; one that comes from elsewhere into the first;
# and one that has equal frames alone.
LINKS, UNROUTED, ELSEWHERE, EQUAL = (1, 2, 3, 4), 5, 6, 7
SLOW = 2
# Of frames by link and index: what becomes of each, and where. A recorder that missed it has the number of
# its port.
FAULTS = {
    (1, 12): ("dropped", "1"), (1, 20): ("dropped", "2"), (1, 28): ("dropped", "3"),
    (3, 12): ("missed", "1"), (3, 20): ("missed", "2"), (3, 28): ("missed", "1 to 2"),
    (4, 12): ("refused", "1"), (4, 20): ("held", "2"),
}
Sent = namedtuple("Sent", "link sequence data fate place times")
Flight = namedtuple("Flight", "config ports rows account")


def table():
    """The table of the links."""
    rows = "bag_ms = 2\njitter_us = 0\nsmax = 200\nintegrity = true\nredundancy = true\nskew_us = 1000\n"
    links = (*LINKS, UNROUTED, ELSEWHERE, EQUAL)
    return CONSTANT + "".join(f'\n[[link]]\nid = {link}\nname = "link_{link}"\n{rows}' for link in links)


def data_of(chance, link, sequence):
    return b"\x03\0\0\0" + link.to_bytes(2, "big") + chance.randbytes(196 - 7) + bytes([sequence])


def lost_at(fate, place):
    """The first port that a frame doesn't come to."""
    return int(place) if fate in ("dropped", "refused", "unrouted") else SWITCHES + 1


def times_of(chance, link, at, fate, place):
    """The times of a frame at the ports that it comes to. One that is held stays for longer than the
    window."""
    times = [at]
    for switch in range(1, lost_at(fate, place)):
        held = 100 * US if link == SLOW and at % 7 == 0 else 0
        held += 15 * MS if fate == "held" and int(place) == switch else 0
        times.append(times[-1] + chance.randrange(20 * US, 60 * US) + held)
    return times


def sent(chance):
    """All frames of port 0. A sender keeps clear of its account; a frame that is refused comes right
    behind another one."""
    for link in (*LINKS, UNROUTED):
        for index in range(FRAMES):
            at = 5 * MS + index * INTERVAL + link * 331 * US + chance.randrange(50 * US)
            fate, place = FAULTS.get((link, index), ("unrouted", "2") if link == UNROUTED else ("came", ""))
            at -= INTERVAL - MS if fate == "refused" else 0
            data = data_of(chance, link, index + 1)
            yield Sent(link, index + 1, data, fate, place, times_of(chance, link, at, fate, place))
    # Of two equal frames the first is lost. The path's window is longer: there the second one comes out as
    # its partner.
    data = data_of(chance, EQUAL, 1)
    yield Sent(EQUAL, 1, data, "dropped", "2", [60 * MS, 60 * MS + 20 * US])
    for at, data in ((30 * MS, data_of(chance, EQUAL, 9)), (60 * MS + WITHIN, data)):
        yield Sent(EQUAL, data[-1], data, "came", "", [at, at + 20 * US, at + 50 * US, at + 90 * US])


def is_recorded(one, port):
    first, _, last = one.place.partition(" to ")
    return port < len(one.times) and not (one.fate == "missed" and int(first) <= port <= int(last or first))


def recorded(frames, chance):
    """The frames of each port, in order, as (when, bytes, the frame that was sent)."""
    ports = []
    for port in range(SWITCHES + 1):
        ports.append([(one.times[port], one.data, one) for one in frames if is_recorded(one, port)])
    for index in range(FRAMES):
        at, data = 5 * MS + index * INTERVAL + 3 * MS, data_of(chance, ELSEWHERE, index + 1)
        for port in range(1, SWITCHES + 1):
            ports[port].append((at + port * 30 * US, data, None))
    return [sorted(port, key=lambda one: one[0]) for port in ports]


def fate_of(one, ports):
    """The fate and the place; where the second switch's recording out doesn't cover the window, no more is
    known."""
    first, last = ports[2][0][0], ports[2][-1][0]
    at = one.times[1] if len(one.times) > 1 else 0
    is_open = one.fate == "unrouted" and not (first <= at - EARLY and at + WITHIN <= last)
    return ("open" if is_open else one.fate), one.place


def row_of(one, numbers, ports):
    """The words of a frame's line of CSV."""
    fate, place = fate_of(one, ports)
    seen = [numbers[port].get(id(one)) for port in range(SWITCHES + 1)]
    latencies = []
    for switch in range(1, SWITCHES + 1):
        known = None not in (seen[switch - 1], seen[switch]) and not (fate == "held" and place == str(switch))
        latencies.append(one.times[switch] - one.times[switch - 1] if known else None)
    whole = one.times[-1] - one.times[0] if len(one.times) > SWITCHES else None
    head = [START + one.times[0], one.link, f"link_{one.link}", one.sequence, fate, place]
    words = [*head, *seen, *latencies, whole]
    return ["" if word is None else str(word) for word in words]


def path_flight(seed):
    """A table, the recordings by port, the lines of CSV of port 0's frames in order, and how many frames
    each fate has by place and link."""
    chance = random.Random(seed)
    frames = list(sent(chance))
    ports = recorded(frames, chance)
    numbers = [{id(one): number for number, (_, _, one) in enumerate(port) if one} for port in ports]
    rows = [row_of(one, numbers, ports) for _, _, one in ports[0]]
    account = defaultdict(Counter)
    for row in rows:
        account[row[4], row[5]][row[1]] += 1
    recordings = [recording_of((at, data) for at, data, _ in port) for port in ports]
    return Flight(table(), recordings, rows, account)
