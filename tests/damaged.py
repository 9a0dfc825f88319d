"""Ledgers that no flight brings, and flights that are another one seen otherwise: for the accounting of `report`'s findings.

A ledger is damaged by lines: some are gone, come twice, have other numbers, times or words. What `report` refuses is set right after that:
lines are in their order, and a copy has its delivery before it. The lines of counts are left out, as in the ledger of a stopped run.
"""
import tomllib

from tests.flights import MS
from tests.plants import OTHER

TIME, NETWORK, INDEX, LINK, NUMBER, CLASS, POLICING, INTEGRITY, REDUNDANCY = range(9)
NO_LINK = ("cut", "runt", "oversize", "foreign")


def lines_of_frames(text):
    """The lines of frames of a ledger, as lists of fields."""
    rows = [line.split() for line in text.splitlines()]
    return [row for row in rows if len(row) == 11 and row[TIME].isdigit()]


def part_of(chance, rows, most=4):
    """Bounds of a part of the lines, rather short."""
    first = chance.randrange(len(rows))
    return first, min(len(rows), first + 1 + int(len(rows) / most * chance.random() ** 3))


# ---- one damage each

def some_gone(chance, rows):
    """Lines here and there are gone."""
    share = chance.choice((0.001, 0.01, 0.1, 0.5))
    return [row for row in rows if chance.random() >= share]


def part_gone(chance, rows):
    """Lines in a row are gone."""
    first, last = part_of(chance, rows)
    return rows[:first] + rows[last:]


def link_gone(chance, rows):
    """A link's lines are gone from a line on, or up to it, on one network or both."""
    link, at = chance.choice(rows)[LINK], chance.randrange(len(rows))
    before, networks = chance.random() < 0.5, chance.choice(("A", "B", "AB"))
    return [row for i, row in enumerate(rows) if row[LINK] != link or row[NETWORK] not in networks or (i < at) != before]


def network_gone(chance, rows):
    """A network's lines are gone, all or some in a row."""
    first, last = part_of(chance, rows, chance.choice((1, 4)))
    n = chance.choice("AB")
    return [row for i, row in enumerate(rows) if row[NETWORK] != n or not first <= i < last]


def other_numbers(chance, rows):
    """Some lines have any number."""
    share, few = chance.choice((0.001, 0.02, 0.3)), chance.random() < 0.5
    for row in rows:
        if row[NUMBER] != "-" and chance.random() < share:
            row[NUMBER] = str(chance.choice((0, 1, 255)) if few else chance.randrange(256))
    return rows


def same_numbers(chance, rows):
    """All lines of a link, or some in a row, have one number."""
    link, (first, last), number = chance.choice(rows)[LINK], part_of(chance, rows, 1), str(chance.randrange(256))
    for row in rows[first:last]:
        if row[LINK] == link and link != "-":
            row[NUMBER] = number
    return rows


def same_times(chance, rows):
    """Lines in a row have one time."""
    first, last = part_of(chance, rows)
    for row in rows[first:last]:
        row[TIME] = rows[first][TIME]
    return rows


def coarse_times(chance, rows):
    """Times are multiples of something."""
    grain = 10 ** chance.randrange(3, 10)
    for row in rows:
        row[TIME] = str(int(row[TIME]) // grain * grain)
    return rows


def jump_in_time(chance, rows):
    """The times of a network, or of both, jump ahead from a line on."""
    first, size, networks = chance.randrange(len(rows)), int(10 ** (3 + 10 * chance.random())), chance.choice(("A", "B", "AB"))
    for row in rows[first:]:
        if row[NETWORK] in networks:
            row[TIME] = str(int(row[TIME]) + size)
    return rows


def other_networks(chance, rows):
    """Some lines are of the other network."""
    share = chance.choice((0.01, 0.5, 1))
    for row in rows:
        if chance.random() < share:
            row[NETWORK] = OTHER[row[NETWORK]]
    return rows


def twice(chance, rows):
    """Lines come twice."""
    share, later = chance.choice((0.01, 0.2, 1)), chance.choice((0, 10, MS, 50 * MS))
    again = [[str(int(row[TIME]) + later), *row[1:]] for row in rows if chance.random() < share]
    return rows + again


def other_words(chance, rows):
    """Some lines are judged otherwise."""
    share = chance.choice((0.002, 0.05, 0.5))
    word = chance.choice(("excess", "toolong", "out", "reset", "deliver", *NO_LINK, "unconfigured"))
    for row in rows:
        if row[REDUNDANCY] == "deliver" and chance.random() < share:
            judged = {"excess": ["regular", "excess", "-", "-"], "toolong": ["toolong", "-", "-", "-"],
                      "out": ["regular", "within", "out", "-"],
                      "reset": ["regular", "within", "reset", "deliver"], "deliver": ["regular", "within", "next", "deliver"],
                      "unconfigured": ["unconfigured", "-", "-", "-"]}.get(word, [word, "-", "-", "-"])
            row[CLASS:REDUNDANCY + 1] = judged
            if word in NO_LINK:
                row[LINK] = row[NUMBER] = "-"
            if word == "unconfigured":
                row[LINK] = str(60000 + chance.randrange(40))
            if word == "reset":
                row[NUMBER] = "0"
    return rows


DAMAGES = (some_gone, part_gone, link_gone, network_gone, other_numbers, same_numbers, same_times, coarse_times, jump_in_time,
           other_networks,
           twice, other_words)


# ---- what a report takes

def set_right(rows, table):
    """The text of these lines in their order, without the copies that have no delivery to be one of."""
    with open(table, "rb") as text:
        skews = {str(row["id"]): row["skew_us"] * 1000 for row in tomllib.load(text)["link"]}
    rows.sort(key=lambda row: (int(row[TIME]), row[NETWORK]))
    delivered, count, out = {}, {"A": 0, "B": 0}, ["afdx-ledger 2\n"]
    for row in rows:
        at, n, key = int(row[TIME]), row[NETWORK], (row[LINK], row[NUMBER])
        row[INDEX], count[n] = str(count[n]), count[n] + 1
        if row[REDUNDANCY] == "copy":
            network, before = delivered.get(key, (n, at))
            if network == n or at - before > skews[row[LINK]]:
                row[REDUNDANCY] = "deliver"
        if row[REDUNDANCY] == "deliver":
            delivered[key] = n, at
        out.append(" ".join(row) + "\n")
    return "".join(out)


def damaged(chance, text, table):
    """A damaged ledger, and what was done to it."""
    rows, done = lines_of_frames(text), []
    for damage in chance.choices(DAMAGES, k=chance.choice((1, 1, 2, 3))):
        changed = damage(chance, [list(row) for row in rows])
        if changed:
            rows, _ = changed, done.append(damage.__name__)
    return set_right(rows, table), done


# ---- one flight seen otherwise

def moved_in_time(flight, size):
    """The flight at another time."""
    for sender in flight.senders:
        for n in "AB":
            for frame in sender.lanes[n]:
                frame.stamp += size
    for n in "AB":
        flight.strange[n] = [(stamp + size, data, whole) for stamp, data, whole in flight.strange[n]]


def exchanged(flight):
    """The flight with the recordings of A and B exchanged."""
    for sender in flight.senders:
        sender.lanes = {"A": sender.lanes["B"], "B": sender.lanes["A"]}
    flight.strange, flight.tail = ({"A": of["B"], "B": of["A"]} for of in (flight.strange, flight.tail))


def renamed(flight, chance):
    """The flight with other identifiers of links. The new one of each."""
    new = dict(zip((sender.id for sender in flight.senders), chance.sample(range(2000, 60000), len(flight.senders))))
    for sender in flight.senders:
        sender.id = sender.row["id"] = new[sender.id]
    return new


def essence(told, network=None, link=None, later=0):
    """What is told, but for its words, as seen with other networks, identifiers and times."""
    network, link = network or {}, link or {}
    word = lambda key: f"{key[:-1]}{network.get(key[-1], key[-1])}" if key[-2:] in (".A", ".B") else key
    out = []
    for one in told.findings:
        signs = sorted((word(key), number) for key, number in one["signs"].items() if number)
        out.append((one["kind"], one["level"], network.get(one["networks"], one["networks"]), sorted(link.get(i, i) for i in one["links"]),
                    one["from"] + later, one["to"] + later, one["count"], signs))
    return sorted(out)
