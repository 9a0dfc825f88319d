"""A slow analyser of two taps, for the tests of `afdxmon watch` and for its examples.

It follows docs/RULES.md and docs/LEDGER.md on whole lists: frames are sorted, policing looks at all windows of frames,
integrity checking at the nearest earlier number, and redundancy management searches back. It shares nothing with the
product, and keeps no account and no table of deliveries.

usage: tests/analyser.py CONFIG FILTER A B CAPTURE LEDGER
"""
import os
import sys
import tomllib
from collections import defaultdict, namedtuple

sys.path.insert(0, os.path.dirname(os.path.dirname(os.path.abspath(__file__))))
sys.dont_write_bytecode = True
from tests.reference import HEADER, accept_length, parse, program_of, record_of  # noqa: E402

Frame = namedtuple("Frame", "stamp network number whole data")
Table = namedtuple("Table", "constant links late filters")
Link = namedtuple("Link", "id name bag jitter smax integrity redundancy skew")
Verdict = namedtuple("Verdict", "frame cls policing integrity redundancy", defaults=("-", "-", "-"))
Watched = namedtuple("Watched", "capture lines summary verdicts")
ADDRESSED = ("unconfigured", "toolong", "regular")


def table_of(text):
    """The table of a text without faults. Times are in nanoseconds."""
    top = tomllib.loads(text)
    links = {}
    for one in top.get("link", []):
        links[one["id"]] = Link(
            one["id"], one["name"], one["bag_ms"] * 10**6, one["jitter_us"] * 1000, one["smax"], one["integrity"], one["redundancy"], one["skew_us"] * 1000
        )
    return Table(top["constant"], links, top.get("late_us", 0) * 1000, top.get("filters", []))


def link_id(frame):
    return int.from_bytes(frame.data[4:6], "big")


def size_of(frame):
    """The length on the wire with the frame check sequence."""
    return frame.whole + 4


def class_of(table, frame):
    if len(frame.data) < frame.whole:
        return "cut"
    if frame.whole < 60:
        return "runt"
    if frame.whole > 1514:
        return "oversize"
    if int.from_bytes(frame.data[:4], "big") != table.constant:
        return "foreign"
    if link_id(frame) not in table.links:
        return "unconfigured"
    return "toolong" if size_of(frame) > table.links[link_id(frame)].smax else "regular"


def policing_of(link, frame, earlier):
    """`earlier`: the regular frames of the link and network before it, as (stamp, size if within, else 0), oldest first."""
    charged = size_of(frame)
    for stamp, size in [(frame.stamp, 0), *reversed(earlier)]:
        charged += size
        if charged * link.bag > link.smax * (link.bag + link.jitter) + link.smax * (frame.stamp - stamp):
            return "excess"
    return "within"


def number_after(number):
    return 1 if number == 255 else number + 1


def integrity_of(link, number, earlier):
    """`earlier`: the numbers of the frames within the account of the link and network before it."""
    if not link.integrity:
        return "off"
    if not earlier:
        return "first"
    if number == 0:
        return "reset"
    if number == number_after(earlier[-1]):
        return "next"
    return "skip" if number == number_after(number_after(earlier[-1])) else "out"


def redundancy_of(link, frame, earlier):
    """`earlier`: the link's delivered frames before it."""
    if not link.redundancy:
        return "both"
    latest = next((one for one in reversed(earlier) if one.data[-1] == frame.data[-1]), None)
    if latest is not None and latest.network != frame.network and frame.stamp - latest.stamp <= link.skew:
        return "copy"
    return "deliver"


def verdicts_of(table, frames):
    """The verdict of each frame, along the order."""
    regular, within, delivered = defaultdict(list), defaultdict(list), defaultdict(list)
    for frame in frames:
        cls = class_of(table, frame)
        if cls != "regular":
            yield Verdict(frame, cls)
            continue
        link, lane = table.links[link_id(frame)], (link_id(frame), frame.network)
        policing = policing_of(link, frame, regular[lane])
        regular[lane].append((frame.stamp, size_of(frame) if policing == "within" else 0))
        if policing == "excess":
            yield Verdict(frame, cls, policing)
            continue
        integrity = integrity_of(link, frame.data[-1], within[lane])
        within[lane].append(frame.data[-1])
        if integrity == "out":
            yield Verdict(frame, cls, policing, integrity)
            continue
        redundancy = redundancy_of(link, frame, delivered[link.id])
        if redundancy != "copy":
            delivered[link.id].append(frame)
        yield Verdict(frame, cls, policing, integrity, redundancy)


def line_of(verdict, kept, mask):
    frame = verdict.frame
    address = f"{link_id(frame)} {frame.data[-1]}" if verdict.cls in ADDRESSED else "- -"
    judged = f"{verdict.cls} {verdict.policing} {verdict.integrity} {verdict.redundancy}"
    return f"{frame.stamp} {frame.network} {frame.number} {address} {judged} {kept} {mask:02x}\n"


def counts(verdicts):
    def how_many(field, *words):
        return sum(getattr(verdict, field) in words for verdict in verdicts)

    judged = f"toolong {how_many('cls', 'toolong')} excess {how_many('policing', 'excess')} out {how_many('integrity', 'out')}"
    return f"{judged} copy {how_many('redundancy', 'copy')} delivered {how_many('redundancy', 'deliver', 'both')}"


def summary_of(table, verdicts, masks, filters, endings):
    """The lines after those of the frames."""
    lines = []
    for link in sorted(table.links.values()):
        own = [one for one in verdicts if one.cls in ("toolong", "regular") and link_id(one.frame) == link.id]
        lines.append(f"link {link.id} {link.name} frames {len(own)} {counts(own)}")
    lines += [f"filter {i} accepted {sum(mask >> i & 1 for mask in masks)}" for i in range(filters)]
    lines += [f"tap {network} {ending}" for network, ending in zip("AB", endings)]
    classes = [f"{word} {sum(one.cls == word for one in verdicts)}" for word in ("cut", "runt", "oversize", "foreign", "unconfigured")]
    accepted = sum(mask != 0 for mask in masks)
    lines.append(f"total frames {len(verdicts)} accepted {accepted} {' '.join(classes)} {counts(verdicts)}")
    return "".join(line + "\n" for line in lines)


def watch(config, code, a, b):
    """What `afdxmon watch` makes of a table, a filter in the numeric form and two recordings: the capture, the ledger up to
    its last line of a frame, and the rest of the ledger."""
    table = table_of(config)
    programs = [program_of(text) for text in (code, *table.filters)]
    frames, endings = [], []
    for network, recording in (("A", a), ("B", b)):
        taken, ending = parse(recording, table.late)
        frames += [Frame(stamp, network, number, whole, data) for number, (stamp, whole, data) in enumerate(taken)]
        endings.append(ending)
    frames.sort(key=lambda frame: (frame.stamp, frame.network, frame.number))
    verdicts = list(verdicts_of(table, frames))
    capture, lines, masks = [HEADER], ["afdx-ledger 2\n"], []
    for verdict in verdicts:
        frame = verdict.frame
        answers = [accept_length(program, frame.data, frame.whole) for program in programs]
        masks.append(sum((answer != 0) << i for i, answer in enumerate(answers)))
        kept = "-"
        if masks[-1]:
            kept = min(max(answers), len(frame.data))
            capture.append(record_of(frame.stamp, frame.whole, frame.data[:kept]))
        lines.append(line_of(verdict, kept, masks[-1]))
    summary = summary_of(table, verdicts, masks, len(programs), endings)
    return Watched(b"".join(capture), "".join(lines).encode(), summary.encode(), verdicts)


def main():
    if len(sys.argv) != 7:
        sys.exit(__doc__)
    config, code, a, b, capture, ledger = sys.argv[1:]
    with open(config, encoding="utf-8") as table, open(code, encoding="utf-8") as text, open(a, "rb") as tap_a, open(b, "rb") as tap_b:
        watched = watch(table.read(), text.read(), tap_a.read(), tap_b.read())
    with open(capture, "wb") as out:
        out.write(watched.capture)
    with open(ledger, "wb") as out:
        out.write(watched.lines + watched.summary)


if __name__ == "__main__":
    main()
