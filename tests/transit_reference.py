"""What `afdxmon transit` has to say of two recordings, slowly, for its tests.

It works on whole lists and by definitions: a pair is what the relation says, not what a queue gives; policing looks at sums over the
frames before, not at an account; an outcome looks over all frames. Only reading and the classes are shared with tests/analyser.py.

usage: tests/transit_reference.py CONFIG BEFORE AFTER [OPTION=NUMBER..]
"""
import os
import sys
from collections import namedtuple

sys.path.insert(0, os.path.dirname(os.path.dirname(os.path.abspath(__file__))))
sys.dont_write_bytecode = True
from tests.analyser import ADDRESSED, Frame, class_of, link_id, size_of, table_of  # noqa: E402
from tests.reference import parse  # noqa: E402

BEFORE = ("passed", "slow", "overtaken", "changed", "lax", "leak", "dropped", "refused", "unrouted", "open")
AFTER = ("twice", "new", "elsewhere", "open")
DISCARDED = ("runt", "oversize", "foreign", "unconfigured", "toolong")
ON_A_LINK = ("toolong", "regular")
LAST = 2**32 * 10**9 - 1


class Options:
    """In nanoseconds. `routed`: the links that are routed to the port out, or None; `frames`: policing charges each frame Smax."""

    def __init__(self, within=10**7, early=10**6, shift=0, bound=None, grace=1000, routed=None, frames=False, network="-"):
        self.within, self.early, self.shift, self.bound, self.grace = within, early, shift, bound, grace
        self.routed, self.frames, self.network = routed, frames, network

    def line(self):
        routed = "-" if self.routed is None else ",".join(str(link) for link in sorted(self.routed))
        police = "frames" if self.frames else "bytes"
        return (f"run network {self.network} within {self.within} early {self.early} shift {self.shift} bound {word(self.bound)} "
                f"police {police} grace {self.grace} routed {routed}\n")


class Seen:
    """A frame of either recording, as it was read."""

    def __init__(self, table, number, stamp, whole, data):
        self.frame = Frame(stamp, "-", number, whole, data)
        self.stamp, self.number, self.data = stamp, number, data
        self.cls = class_of(table, self.frame)
        self.link = link_id(self.frame) if self.cls in ADDRESSED else None
        self.sequence = data[-1] if self.cls in ADDRESSED else None
        self.policing = self.partner = self.how = None


def word(value):
    return "-" if value is None else str(value)


def read(table, recording, shift=0, early=0):
    """The frames in order, and how the recording ends. A shifted time stays within those that a timestamp
    can have, and so early before the last of them."""
    frames, ending = parse(recording, table.late)
    times = (min(max(stamp + shift, 0), LAST - early) for stamp, _, _ in frames)
    seen = [Seen(table, number, time, *frame[1:]) for number, (time, frame) in enumerate(zip(times, frames))]
    return sorted(seen, key=lambda one: (one.stamp, one.number)), ending


# ---- pairs

def bytes_of(one):
    return None if one.cls == "cut" else one.data


def place_of(one):
    return None if one.link is None else (one.link, one.sequence)


def may_be(options, key, before, after):
    return key(before) is not None and key(before) == key(after) and -options.early <= after.stamp - before.stamp <= options.within


def pairing(options, befores, afters, key):
    """The pairs, in the order of what came out: each is the first that may be it, of those that have no partner before it. And how
    often there was a choice."""
    pairs, choices = [], 0
    for after in afters:
        taken = [before for before, _ in pairs]
        free = [one for one in befores if may_be(options, key, one, after) and one not in taken]
        if free:
            pairs.append((free[0], after))
            choices += len(free) > 1
    return pairs, choices


def pair(options, befores, afters):
    """Gives each frame of a pair its partner, and says which frames came out twice."""
    alike, choices = pairing(options, befores, afters, bytes_of)
    for before, after in alike:
        before.partner, before.how, after.partner, after.how = after, "alike", before, "alike"
    twice = [q for q in afters if q.how is None and any(may_be(options, bytes_of, p, q) for p in befores)]
    rest = [p for p in befores if p.how is None], [q for q in afters if q.how is None and q not in twice]
    for before, after in pairing(options, *rest, place_of)[0]:
        before.partner, before.how, after.partner, after.how = after, "changed", before, "changed"
    return twice, choices


# ---- policing

def cost(options, link, one):
    return (link.smax if options.frames else size_of(one.frame)) * link.bag


def has_room(link, costs, one, price, grace):
    """Whether the frame fits each window of so many charged frames, as (frame, price), where each time is longer by the grace."""
    cap = link.smax * (link.bag + link.jitter)
    sums = [(other, sum(p for _, p in costs[i:])) for i, (other, _) in enumerate(costs)]
    return price <= cap and all(spent + price <= cap + link.smax * (one.stamp - other.stamp + grace) for other, spent in sums)


def surely_fits(link, costs, first, one, price, grace):
    """Whether some moment when the account held nothing less than 0 gives enough: that of the link's first regular frame, or that
    after one that came out, however low the account was then."""
    cap = link.smax * (link.bag + link.jitter)
    for start, moment in enumerate([first.stamp, *(other.stamp for other, _ in costs)]):
        later = costs[start:]
        spent = sum(p for _, p in later)
        capped = all(sum(p for _, p in later[i:]) + price <= cap + link.smax * (one.stamp - other.stamp - grace) for i, (other, _) in enumerate(later))
        if capped and spent + price <= link.smax * (one.stamp - moment - grace):
            return True
    return False


def police(options, table, befores):
    for link in table.links.values():
        regular = [one for one in befores if one.cls == "regular" and one.link == link.id]
        costs = []
        for one in regular:
            price = cost(options, link, one)
            if not has_room(link, costs, one, price, options.grace):
                one.policing = "excess"
            elif not options.grace or surely_fits(link, costs, regular[0], one, price, options.grace):
                one.policing = "within"
            else:
                one.policing = "unsure"
            if one.policing != "excess" and (not options.grace or one.how):
                costs.append((one, price))


# ---- outcomes

def covers(frames, first, last):
    """Whether a recording covers this time."""
    return bool(frames) and min(one.stamp for one in frames) <= first and last <= max(one.stamp for one in frames)


def is_routed(options, one, afters):
    if options.routed is not None:
        return one.link in options.routed
    return any(other.link == one.link and other.stamp <= one.stamp + options.within for other in afters)


def overtaken(one, befores):
    others = [p for p in befores if p.how == "alike" and p.link == one.link]
    return any(p.stamp > one.stamp and p.partner.stamp < one.partner.stamp for p in others)


def of_before(options, one, befores, afters):
    discarded = one.cls in DISCARDED or one.policing == "excess"
    listed = one.cls in ON_A_LINK
    if one.cls == "cut":
        return "-"
    if one.how == "alike":
        if options.routed is not None and listed and one.link not in options.routed:
            return "leak"
        if discarded:
            return "lax"
        if overtaken(one, befores):
            return "overtaken"
        late = options.bound is not None and one.partner.stamp - one.stamp > options.bound
        return "slow" if late else "passed"
    if one.how == "changed":
        return "changed"
    if not covers(afters, one.stamp - options.early, one.stamp + options.within):
        return "open"
    if listed and not is_routed(options, one, afters):
        return "unrouted"
    return "refused" if discarded or one.policing == "unsure" else "dropped"


def of_after(options, one, befores, twice):
    if one.cls == "cut":
        return "-"
    if one in twice:
        return "twice"
    if not covers(befores, one.stamp - options.within, one.stamp + options.early):
        return "open"
    if one.link is not None and not any(p.link == one.link and p.stamp <= one.stamp + options.early for p in befores):
        return "elsewhere"
    return "new"


# ---- the ledger

def differs(one):
    """The first byte that differs from the partner's."""
    ours, theirs = one.data, one.partner.data
    return next((i for i, (a, b) in enumerate(zip(ours, theirs)) if a != b), min(len(ours), len(theirs)))


def line_of(side, one, outcome):
    head = f"{one.stamp} {side} {one.number} {word(one.link)} {word(one.sequence)} {one.cls} {word(one.policing)} {outcome}"
    if side == "after" or one.how is None:
        return f"{head} - - -\n"
    where = differs(one) if one.how == "changed" else None
    return f"{head} {one.partner.number} {one.partner.stamp - one.stamp} {word(where)}\n"


def rounded(latency):
    """Towards zero, to eight leading binary digits."""
    low = max(abs(latency).bit_length() - 8, 0)
    size = abs(latency) >> low << low
    return size if latency >= 0 else -size


def latency_line(of, befores):
    values = sorted(one.partner.stamp - one.stamp for one in befores if one.how == "alike")
    if not values:
        return f"latency {of} count 0 sum 0 least - p50 - p99 - p999 - greatest -\n"
    p50, p99, p999 = (rounded(values[-(-len(values) * share // 1000) - 1]) for share in (500, 990, 999))
    return (f"latency {of} count {len(values)} sum {sum(values)} least {values[0]} p50 {p50} p99 {p99} p999 {p999} "
            f"greatest {values[-1]}\n")


def counts(words, outcomes):
    return " ".join(f"{one} {outcomes.count(one)}" for one in words)


Judged = namedtuple("Judged", "lines summary outcomes choices")


def judge(config, before, after, options):
    """The ledger of a table and two recordings up to the last line of a frame, and the rest of it; each outcome, as (side, number) and
    word."""
    table = table_of(config)
    befores, before_ends = read(table, before)
    afters, after_ends = read(table, after, options.shift, options.early)
    twice, choices = pair(options, befores, afters)
    police(options, table, befores)
    rows = [(p.stamp, 0, p.number, p, of_before(options, p, befores, afters)) for p in befores]
    rows += [(q.stamp, 1, q.number, q, of_after(options, q, befores, twice)) for q in afters if q.how is None]
    rows.sort(key=lambda row: row[:3])
    sides = ("before", "after")
    lines = ["afdx-transit 1\n", options.line(), *(line_of(sides[side], one, outcome) for _, side, _, one, outcome in rows)]
    ended = [f"tap before {before_ends}\n", f"tap after {after_ends}\n"]
    summary = [*summary_of(table, befores, afters, rows), *ended, total_of(befores, afters, rows, choices)]
    outcomes = {(sides[side], number): outcome for _, side, number, _, outcome in rows}
    return Judged("".join(lines).encode(), "".join(summary).encode(), outcomes, choices)


def summary_of(table, befores, afters, rows):
    for link in sorted(table.links.values()):
        ours = [[row[4] for row in rows if row[1] == side and row[3].link == link.id] for side in (0, 1)]
        gone_in = sum(one.link == link.id for one in befores)
        come_out = sum(one.link == link.id for one in afters)
        yield f"link {link.id} {link.name} before {gone_in} {counts(BEFORE, ours[0])} after {come_out} {counts(AFTER, ours[1])}\n"
        yield latency_line(link.id, [one for one in befores if one.link == link.id])
    yield latency_line("all", befores)


def total_of(befores, afters, rows, choices):
    ins, outs = [[row[4] for row in rows if row[1] == side] for side in (0, 1)]
    return (f"total frames {len(rows)} before {len(befores)} cut {ins.count('-')} {counts(BEFORE, ins)} "
            f"after {len(afters)} cut {outs.count('-')} {counts(AFTER, outs)} choice {choices}\n")


def main():
    if len(sys.argv) < 4:
        sys.exit(__doc__)
    with open(sys.argv[1], encoding="utf-8") as config, open(sys.argv[2], "rb") as before, open(sys.argv[3], "rb") as after:
        judged = judge(config.read(), before.read(), after.read(), Options(**{k: int(v) for k, v in (o.split("=") for o in sys.argv[4:])}))
    sys.stdout.write((judged.lines + judged.summary).decode())


if __name__ == "__main__":
    main()
