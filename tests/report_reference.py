"""The numbers of a report beside its findings, from the definitions of docs/REPORT.md over the whole list of a ledger's lines.

Slow on purpose: each number is looked for in the list, and nothing is carried along. Prints them as the JSON of
`report --json` has them:  report_reference.py TABLE LEDGER. What is found is tested by planted faults (tests/findings.py).
"""

import json
import sys
import tomllib
from collections import namedtuple

Line = namedtuple("Line", "at stamp network number link sequence cls policing integrity redundancy kept mask ordinal size has_length")
CLASSES = ["cut", "runt", "oversize", "foreign", "unconfigured", "toolong"]
SIGNS = CLASSES + ["excess", "out"]
BINS, WHOLE = 240, 262144


def optional(field, read=int):
    return None if field == "-" else read(field)


def read_lines(path):
    """The lines of frames, with each line's place in the ledger and its ordinal on its network, from 1; the lines of counts; and where the ledger
    ends. The size of a frame is its length on the wire in version 3, else what is kept of it."""
    lines, ordinals, tail = [], {"A": 0, "B": 0}, []
    with open(path, encoding="ascii") as ledger:
        held = ledger.read().split("\n")
        stop = {"lines": len(held) - 1, "within_line": held.pop() != ""}
        assert held[:1] in ([], ["afdx-ledger 2"], ["afdx-ledger 3"])
        with_length = held[:1] == ["afdx-ledger 3"]
        for text in held[1:]:
            f = text.split()
            if not f[0].isdigit():
                tail.append(f)
                continue
            ordinals[f[1]] += 1
            lines.append(Line(len(lines), int(f[0]), f[1], int(f[2]), optional(f[3]), optional(f[4]), f[5], optional(f[6], str),
                              optional(f[7], str), optional(f[8], str), optional(f[9]), int(f[10], 16), ordinals[f[1]],
                              int(f[11]) if with_length else optional(f[9]), with_length))
            assert len(f) == 11 + with_length
    return lines, tail, stop


def rule_of(line):
    if line.cls != "regular":
        return line.cls
    if line.policing == "excess":
        return "excess"
    return "out" if line.integrity == "out" else None


def counts(lines):
    said = {"frames": len(lines), "accepted": sum(l.kept is not None for l in lines)}
    said.update({cls: sum(l.cls == cls for l in lines) for cls in CLASSES})
    said["excess"] = sum(l.policing == "excess" for l in lines)
    said["out"] = sum(l.integrity == "out" for l in lines)
    said["copy"] = sum(l.redundancy == "copy" for l in lines)
    said["delivered"] = sum(l.redundancy in ("deliver", "both") for l in lines)
    return said


def takes_whole(text):
    """Is the filter one `ret #k` that takes every frame whole?"""
    form = text.split(",")
    fields = form[1].split()
    return int(form[0]) == 1 and fields[0] == "6" and int(fields[3]) >= WHOLE


def tells_sizes(lines, table):
    return any(line.has_length for line in lines) or any(takes_whole(text) for text in table.get("filters", []))


def bytes_of(ledger, lines):
    """With the check sequence, where sizes are known."""
    return sum(l.size + 4 for l in lines if l.size is not None) if ledger.sizes else None


def place(line):
    return {"stamp": str(line.stamp), "number": line.number}


def signs(hits):
    """The signs that occur, of a list of (sign, line, amount)."""
    said = []
    for sign in SIGNS:
        of = [(l, n) for s, l, n in hits if s == sign and n > 0]
        if of:
            order = sorted((l for l, _ in of), key=lambda l: (l.stamp, l.number))
            said.append({"sign": sign, "count": sum(n for _, n in of), "first": place(order[0]), "last": place(order[-1])})
    return said


class Ledger:
    def __init__(self, lines, sizes):
        self.lines, self.sizes = lines, sizes
        self.of = {n: [l for l in lines if l.network == n] for n in "AB"}


def ranked(values, index):
    """The value at this index of the rising order, rounded down to five binary digits."""
    if not values:
        return 0
    value = min(sorted(values)[index], 2**31 - 1)
    shift = max(0, value.bit_length() - 5)
    return value >> shift << shift


def median(skews):
    return ranked(skews, (len(skews) - 1) // 2)


def numbers_of(seen):
    """The lines by their sequence numbers."""
    by = [[] for _ in range(256)]
    for l in seen:
        by[l.sequence].append(l)
    return by


def skews(seen):
    """Of each copy its line, and how much later it came."""
    said, by = [], numbers_of(seen)
    for l in seen:
        if l.redundancy == "copy":
            d = max((d for d in by[l.sequence] if d.at < l.at and d.redundancy == "deliver"), key=lambda d: d.at)
            said.append((l, l.stamp - d.stamp))
    return said


def row_of(name, of, start, width, merge=sum):
    """A row of the timeline, of a list of (line, amount)."""
    bins = [[] for _ in range(BINS)]
    for l, amount in of:
        bins[(l.stamp - start) // width].append(amount)
    return {"row": name, "bins": [merge(amounts) if amounts else 0 for amounts in bins]}


def timeline(lines, hits, copies, start, width):
    """The rows in which something came."""
    rows = [("frames", [(l, 1) for l in lines], sum), ("load", [(l, l.size + 24) for l in lines if l.size is not None], sum),
            ("skew", copies, max)]
    rows += [(sign, [(l, n) for s, l, n in hits if s == sign and n > 0], sum) for sign in SIGNS]
    return [row_of(name, of, start, width, merge) for name, of, merge in rows if of]


def lane_of(ledger, link, lane):
    said = {"frames": len(lane), "bytes": bytes_of(ledger, lane), "excess_lead": 0}
    intervals = [q.stamp - p.stamp for p, q in zip(lane, lane[1:])]
    for q, interval in zip(lane[1:], intervals):
        if rule_of(q) == "excess":
            said["excess_lead"] = max(said["excess_lead"], link["bag"] - link["jitter"] - interval)
    said["least"] = min(intervals, default=None)
    said["greatest"] = max(intervals, default=None)
    said["interval_sum"], said["intervals"] = sum(intervals), len(intervals)
    return said, [(rule_of(l), l, 1) for l in lane if rule_of(l)]


def link_of(ledger, link):
    seen = [l for l in ledger.lines if l.link == link["id"] and l.cls in ("toolong", "regular")]
    lanes = {n: [l for l in seen if l.network == n] for n in "AB"}
    copies = skews(seen)
    of_copies = [skew for _, skew in copies]
    said = {"id": link["id"], "name": link["name"], "counts": counts(seen), "copies": len(of_copies), "skew_sum": sum(of_copies),
            "skew_greatest": max(of_copies, default=0), "skew_median": median(of_copies)}
    hits = {}
    for n in "AB":
        said[n.lower()], hits[n] = lane_of(ledger, link, lanes[n])
    return said, hits, copies


def ending_of(tail, network):
    for f in tail:
        if f[0] == "tap" and f[1] == network:
            return {"end": f[2], "frames": int(f[3]), "reason": f[4] if len(f) > 4 else ""}
    return None


def network_of(ledger, network, tail, copies, start, width):
    lines = ledger.of[network]
    own = [(rule_of(l), l, 1) for l in lines if rule_of(l)]
    return {"frames": len(lines), "first": str(lines[0].stamp) if lines else None, "last": str(lines[-1].stamp) if lines else None,
            "bytes": bytes_of(ledger, lines), "counts": counts(lines), "ending": ending_of(tail, network),
            "signs": signs(own), "timeline": timeline(lines, own, copies, start, width)}


def by_time(table_path, ledger_path):
    """The width of a bin, and of each link its row of the table and what it has by time on each network: of each bin the amounts that come there."""
    with open(table_path, "rb") as table:
        table = tomllib.load(table)
    lines, _, _ = read_lines(ledger_path)
    ledger = Ledger(lines, tells_sizes(lines, table))
    start, width, said = lines[0].stamp if lines else 0, width_of(lines), {}

    def bins(of):
        found = [[] for _ in range(BINS)]
        for l, amount in of:
            found[(l.stamp - start) // width].append(amount)
        return found

    for link in table.get("link", []):
        row = dict(link, bag=link["bag_ms"] * 10**6, jitter=link["jitter_us"] * 1000, skew=link["skew_us"] * 1000)
        _, hits, copies = link_of(ledger, row)
        rows = said[link["id"]] = {"row": row, "A": {}, "B": {}}
        for n in "AB":
            lane = [l for l in ledger.of[n] if l.link == link["id"] and l.cls in ("toolong", "regular")]
            rows[n] = {"frames": bins((l, 1) for l in lane), "bytes": bins((l, l.size + 4) for l in lane if l.size is not None),
                       "interval": bins((q, q.stamp - p.stamp) for p, q in zip(lane, lane[1:])),
                       "skew": bins((l, skew) for l, skew in copies if l.network == n)}
            for sign in SIGNS:
                rows[n][sign] = bins((l, amount) for s, l, amount in hits[n] if s == sign)
    return width, (lines[-1].stamp - start) // width + 1 if lines else 0, said


def width_of(lines):
    """How wide a bin is."""
    width = 5**9
    while lines and lines[-1].stamp - lines[0].stamp >= BINS * width:
        width *= 2
    return width


def reference(table_path, ledger_path):
    with open(table_path, "rb") as table:
        table = tomllib.load(table)
    lines, tail, stop = read_lines(ledger_path)
    ledger = Ledger(lines, tells_sizes(lines, table))
    links = []
    copies = {"A": [], "B": []}
    for link in sorted(table.get("link", []), key=lambda l: l["id"]):
        link = dict(link, bag=link["bag_ms"] * 10**6, jitter=link["jitter_us"] * 1000, skew=link["skew_us"] * 1000)
        said, _, of_copies = link_of(ledger, link)
        links.append(said)
        for n in "AB":
            copies[n] += [(l, skew) for l, skew in of_copies if l.network == n]
    width, start = width_of(lines), lines[0].stamp if lines else 0
    outside = []
    for vl in sorted({l.link for l in lines if l.cls == "unconfigured"}):
        of = [l for l in lines if l.cls == "unconfigured" and l.link == vl]
        outside.append({"id": vl, "frames": len(of), "network": of[0].network, "first": place(of[0])})
    whole = any(f[0] == "total" for f in tail)
    return {"version": 2, "whole": whole, "stopped": None if whole else stop, "start": str(lines[0].stamp) if lines else None,
            "end": str(lines[-1].stamp) if lines else None, "width": width, "counts": counts(lines),
            "filters": [sum(l.mask >> i & 1 for l in lines) for i in range(1 + len(table.get("filters", [])))],
            "a": network_of(ledger, "A", tail, copies["A"], start, width),
            "b": network_of(ledger, "B", tail, copies["B"], start, width),
            "links": links, "outside": outside}


def differences(mine, theirs, path=""):
    """Where the reference's members differ from another report's."""
    if path.endswith((".signs", ".timeline")) and isinstance(theirs, list):
        name = "sign" if path.endswith(".signs") else "row"
        theirs = [one for one in theirs if one[name] in SIGNS or one[name] in ("frames", "load", "skew")]
    if isinstance(mine, dict) and isinstance(theirs, dict):
        return [d for k in mine for d in differences(mine[k], theirs.get(k), f"{path}.{k}")]
    if isinstance(mine, list) and isinstance(theirs, list) and len(mine) == len(theirs):
        return [d for i, (a, b) in enumerate(zip(mine, theirs)) for d in differences(a, b, f"{path}[{i}]")]
    return [] if mine == theirs else [f"{path}: {mine} is told as {theirs}"]


if __name__ == "__main__":
    print(json.dumps(reference(sys.argv[1], sys.argv[2])))
