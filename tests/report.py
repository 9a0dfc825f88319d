"""`afdxmon report` as a program: its numbers against a slow counter over the whole list of lines, its page, its faults.

Ledgers come of `afdxmon watch` on recordings that are made here: traffic of some links with losses, bursts, resets, silences
of a network, late copies, frames outside the table.
"""
import csv
import json
import math
import os
import random
import re
import shutil
import subprocess
import xml.etree.ElementTree as tree

from tests import report_reference
from tests.cut import stopped
from tests.harness import FAULT, SUCCESS, Case, difference, ended, frame, header, record, run
from tests.texts import ADVICE, DISPUTED, MISUSE

CONSTANT = "constant = 50331648\n"
WHOLE, HALF = "1,6 0 0 262144,", "1,6 0 0 64,"
LIMIT = 1_200_000


def table_of(links, filters=()):
    text = CONSTANT + "filters = [" + ", ".join(f'"{f}"' for f in filters) + "]\n"
    for link in links:
        text += "\n[[link]]\n" + "".join(f"{key} = {json.dumps(value)}\n" for key, value in link.items())
    return text


def links_of(chance, count):
    return [{"id": 10 + 7 * i, "name": f"link_{i}", "bag_ms": chance.choice((1, 2, 4, 8)), "jitter_us": chance.choice((0, 100, 500)),
             "smax": chance.choice((100, 200, 400)), "integrity": chance.random() < 0.9, "redundancy": chance.random() < 0.9,
             "skew_us": chance.choice((300, 1000, 5000))} for i in range(count)]


def following(number):
    return 1 if number == 255 else number + 1


def traffic(chance, links, seconds, trouble):
    """The frames of both networks, by (timestamp, bytes)."""
    taps = {"A": [], "B": []}
    end = int(seconds * 10**9)
    silent = {n: (end // 3 + chance.randrange(end // 10), end // 2) if chance.random() < trouble * 5 else (0, 0) for n in "AB"}
    for link in links[: len(links) - 1]:
        at, number = chance.randrange(link["bag_ms"] * 10**6), 0
        quiet = chance.choice("AB") if chance.random() < trouble * 2 else None
        while at < end:
            size = chance.randint(60, min(110, link["smax"] + (6 if chance.random() < trouble else -4)))
            for n in "AB":
                skew = chance.randrange(200_000) if n == "B" else 0
                if chance.random() < trouble / 4:
                    skew += link["skew_us"] * 1000 + chance.randrange(10**6)
                stamp = at + skew
                gone = chance.random() < trouble or (n == quiet and at > end // 2) or silent[n][0] <= stamp < silent[n][1]
                if not gone:
                    taps[n].append((stamp, frame(link["id"], size, number)))
                if chance.random() < trouble / 8:
                    taps[n].append((stamp + 1000, frame(link["id"], size, number)))
            number = 0 if chance.random() < trouble / 20 else following(number)
            if chance.random() < trouble / 3:
                for _ in range(chance.randint(1, 140)):
                    number = following(number)
            early = chance.random() < trouble / 2
            at += link["bag_ms"] * 10**6 // (4 if early else 1) + chance.randrange(link["jitter_us"] * 1000 + 1)
    for n in "AB":
        for _ in range(int(trouble * 20)):
            bad = chance.choice((frame(9, 80, 1), frame(5000, 90, 2), bytes(70), frame(10, 40, 1), frame(10, 1600, 1)))
            taps[n].append((chance.randrange(end), bad))
        taps[n].sort(key=lambda f: f[0])
    return taps


def recording_of(frames):
    return header() + b"".join(record(1_800_000_000 * 10**9 + stamp, data) for stamp, data in frames)


def ledger_in(folder, table, taps):
    """Writes table, recordings and, by `watch`, the ledger; returns the paths of table and ledger."""
    paths = {name: os.path.join(folder, name) for name in ("t.toml", "a.pcap", "b.pcap", "f.bpf", "v.ledger")}
    with open(paths["t.toml"], "w", encoding="ascii") as out:
        out.write(table)
    for n in "AB":
        with open(paths[f"{n.lower()}.pcap"], "wb") as out:
            out.write(recording_of(taps[n]))
    with open(paths["f.bpf"], "w", encoding="ascii") as out:
        out.write(HALF)
    ran = run(["watch", "--config", paths["t.toml"], "--filter", paths["f.bpf"], "--a", paths["a.pcap"], "--b", paths["b.pcap"],
               "--ledger", paths["v.ledger"], "--capture", os.devnull])
    return paths["t.toml"], paths["v.ledger"], ran


def report(table, ledger, *more):
    return run(["report", "--config", table, "--ledger", ledger, *more], stdout=subprocess.PIPE)


def numbers_fault(table, ledger):
    ran = report(table, ledger, "--json")
    if ran.returncode != SUCCESS:
        return f"status {ran.returncode}: {ran.stderr!r}"
    if str(2**64 - 1).encode() in ran.stdout:
        return "a value that isn't there stands as 2^64 - 1"
    told = json.loads(ran.stdout)
    if told["unaccounted"]:
        return f"unaccounted: {told['unaccounted']}"
    for n in "AB":
        for sign in told[n.lower()]["signs"]:
            if told["totals"].get(f"{sign['sign']}.{n}", 0) != sign["count"]:
                return f"{sign['sign']} on {n}: {sign['count']}, in all {told['totals']}"
    found = report_reference.differences(report_reference.reference(table, ledger), told)
    return "; ".join(found[:3])


def page_fault(table, ledger):
    ran = report(table, ledger)
    if ran.returncode != SUCCESS:
        return f"status {ran.returncode}: {ran.stderr!r}"
    page = ran.stdout.decode("ascii")
    for word in ("<script", "http:", "https:", "<link", "<img", "url("):
        if word in page:
            return f"the page has {word}"
    if len(page) > LIMIT:
        return f"the page has {len(page)} bytes"
    for part in page.split("<svg")[1:]:
        drawing = "<svg" + part[: part.index("</svg>") + 6]
        try:
            tree.fromstring(drawing)
        except tree.ParseError as error:
            return f"a drawing isn't XML: {error}: {drawing[:120]}"
    return ""


def stair(values, top, half, base, up, per):
    """The path of an area in steps, `half` high where a value is `top`, or more."""
    path, height = "", 0
    for column, value in enumerate(values):
        now = max(1, min(value, top) * half // top) if value else 0
        if now != height:
            path += (f"H{column * per}" if height else f"M{column * per} {base}") + f"V{base - now if up else base + now}"
            height = now
    return path + (f"H{len(values) * per}V{base}" if height else "")


def interval_y(interval, bag, half):
    """Where an interval stands, by the root of its distance from BAG."""
    moved = math.isqrt(min(abs(interval - bag), bag) * 10**6 // bag) * (half - 1) // 1000
    return half - moved if interval > bag else half + moved


def band(columns, bag, per):
    """The path of least to greatest intervals."""
    path = ""
    for column, times in enumerate(columns):
        if times:
            high = interval_y(max(times), bag, 18)
            deep = max(interval_y(min(times), bag, 18), high + 2) - high
            path += f"M{column * per} {high}h{per}v{deep}h-{per}z"
    return path


def strip_paths(strip):
    """Of each row of a strip its label and the paths that it draws, by their class."""
    for row in strip.split('<div class="row">')[1:]:
        label = row.split('<span class="lb">')[1].split("<")[0]
        yield label, dict(re.findall(r'<path class="([a-z]+)" d="([^"]*)"', row))


def strips_fault(table, ledger):
    """What the page draws of links in trouble by time, against what comes in each bin by the list of lines."""
    page = report(table, ledger).stdout.decode("ascii")
    width, used, links = report_reference.by_time(table, ledger)
    for strip in page.split('<section class="det" id="v')[1:]:
        link = links[int(strip.split('"')[0])]
        row = link["row"]
        number, unit = re.search(r"a column is ([0-9.]+)&#8239;(\w*s)<", strip).groups()
        per = round(float(number) * {"s": 10**9, "ms": 10**6}[unit] / width)

        def columns(n, name):
            return [sum(link[n][name][at : min(at + per, used)], []) for at in range(0, used, per)]

        for label, paths in strip_paths(strip.split("</section>")[0]):
            if label.startswith("interval"):
                n = label[-1]
                wanted, found = [band(columns(n, "interval"), row["bag"], per)], [paths["f" + n.lower()]]
            elif label in ("frames", "bytes", "skew") or label in report_reference.SIGNS:
                merge = max if label == "skew" else sum
                sides = {n: [merge(of) if of else 0 for of in columns(n, label)] for n in "AB"}
                limit = {"frames": max(1, per * width // row["bag"]), "bytes": max(1, per * width * row["smax"] // row["bag"]),
                         "skew": row["skew"]}.get(label, 0)
                top = max(1, limit * 115 // 100, *sides["A"], *sides["B"])
                base = {"frames": 24, "bytes": 18, "skew": 22}.get(label, 10)
                wanted = [stair(sides[n], top, base - 1, base, n == "A", per) for n in "AB"]
                found = [next((path for kind, path in paths.items() if kind in ("f" + n, "x" + n, "k" + n)), "") for n in "ab"]
            else:
                continue
            if wanted != found:
                return f"link {strip.split(chr(34))[0]}, {label}: {found} in place of {wanted}"[:400]
    return ""


STEP = 10**6
OF_NO_LINK = frame(9999, 60, 1)


def one_link():
    return [{"id": 10, "name": "link", "bag_ms": 1, "jitter_us": 0, "smax": 100, "integrity": True, "redundancy": True, "skew_us": 1000}]


# ---- ledgers that are written here, line by line: each says what is wanted of it


def written(folder, link, lines, more=()):
    """Writes a table of the link and a ledger of these lines: (time, network, sequence number, words). `more` stands after them. Returns the
    paths of both."""
    paths, numbers = [os.path.join(folder, name) for name in ("written.toml", "written.ledger")], {"A": 0, "B": 0}
    with open(paths[0], "w", encoding="ascii") as out:
        out.write(table_of([link]))
    with open(paths[1], "w", encoding="ascii") as out:
        out.write("afdx-ledger 2\n")
        for at, n, number, words in lines:
            out.write(f"{10**18 + at} {n} {numbers[n]} {link['id']} {number} {words} - 00\n")
            numbers[n] += 1
        out.write("".join(more))
    return paths


DELIVER = "regular within next deliver"


# ---- a long flight: what happened is marked where it was, and times are those of the day

HOUR_LINKS = [{"id": 10 + i, "name": f"link_{i}", "bag_ms": 128, "jitter_us": 0, "smax": 100, "integrity": True, "redundancy": True, "skew_us": 1000}
              for i in range(10)]
SECONDS = 10**9


def long_taps():
    """Two hours of ten links, a frame each 4 s: link_0 pauses from 1000 s on for 100 s, B is silent from 3000 s to 3100 s, both clocks go
    forward by 600 s at 5000 s. With the frames, the last before each and the first after it."""
    taps = {"A": [], "B": []}
    for place, link in enumerate(HOUR_LINKS):
        number = 0
        for second in range(0, 7200, 4):
            if place == 0 and 1000 <= second < 1100:
                continue
            number = following(number)
            at = second * SECONDS + place * 30 * STEP + (600 * SECONDS if second >= 5000 else 0)
            taps["A"].append((at, frame(link["id"], 60, number)))
            if not 3000 <= second < 3100:
                taps["B"].append((at + 20_000, frame(link["id"], 60, number)))
    for n in "AB":
        taps[n].sort(key=lambda one: one[0])
    return taps


def around(times, moment):
    """The last time before a moment and the first from there on."""
    return max(at for at in times if at < moment), min(at for at in times if at >= moment)


def clock(at):
    """A moment of the long flight, which begins at 08:00 UTC."""
    seconds = 8 * 3600 + at // SECONDS
    return f"{seconds // 3600:02}:{seconds // 60 % 60:02}:{seconds % 60:02} (+{(at + 5 * 10**7) // 10**8 / 10:.1f} s)"


def marks_of(row):
    """Of each mark in a drawing its class, where its half begins, where it begins in tenths of a bin, and how wide it is."""
    found = re.findall(r'<rect class="(\w+)" y="(\d+)" height="\d+" x="([\d.]+)" width="([\d.]+)"><title>([^<]*)</title>', row)
    return {(kind, int(y), round(float(x) * 10), round(float(width) * 10), title) for kind, y, x, width, title in found}


# ---- a part of a flight

def counts_of(found):
    """The lines by network, and the links that have some."""
    return found["a"]["frames"], found["b"]["frames"], sorted(link["id"] for link in found["links"] if link["a"]["frames"] + link["b"]["frames"])


class Report(Case):
    def test_generated(self):
        for seed, count, seconds, trouble, filters in (
            (1, 6, 2, 0.02, (WHOLE,)), (2, 5, 3, 0.1, ()), (3, 8, 2, 0.3, (WHOLE, HALF)), (4, 4, 4, 0.01, ()), (5, 3, 1, 0.0, ()),
            (6, 12, 1, 0.05, (HALF,)),
        ):
            chance = random.Random(seed)
            links = links_of(chance, count)
            taps = traffic(chance, links, seconds, trouble)
            table, ledger, ran = ledger_in(self.folder, table_of(links, filters), taps)
            name = f"report: {count} links, {sum(map(len, taps.values()))} frames, seed {seed}"
            if ran.returncode != SUCCESS:
                self.case(name, f"watch: {ran.stderr!r}")
                continue
            self.case(f"{name}: numbers as by the slow counter", numbers_fault(table, ledger))
            self.case(f"{name}: page", page_fault(table, ledger))
            self.case(f"{name}: what is drawn by time", strips_fault(table, ledger))

    def test_silences_of_one_network(self):
        """B is silent for two thirds, and then A; a link never comes on B."""
        chance = random.Random(9)
        links = links_of(chance, 4)
        taps = traffic(chance, links, 3, 0.02)
        taps["B"] = [f for f in taps["B"] if not 10**9 <= f[0] < 2 * 10**9 and f[1][4:6] != b"\0\x0a"]
        taps["A"] = [f for f in taps["A"] if f[0] < 2_200_000_000 or f[0] > 2_700_000_000]
        table, ledger, _ = ledger_in(self.folder, table_of(links), taps)
        self.case("report: silences: numbers as by the slow counter", numbers_fault(table, ledger))
        taps["B"] = []
        table, ledger, _ = ledger_in(self.folder, table_of(links), taps)
        self.case("report: one network alone: numbers as by the slow counter", numbers_fault(table, ledger))
        self.case("report: one network alone: page", page_fault(table, ledger))

    def test_first_of_several(self):
        """The first frame is told of a link outside the table, that has one or more."""
        for count in (1, 2):
            outside = [f"{10**18 + STEP * i} A {i} 5000 7 unconfigured - - - - 00\n" for i in range(1, count + 1)]
            paths = written(self.folder, one_link()[0], [(0, "A", 1, DELIVER)], outside)
            told = json.loads(report(*paths, "--json").stdout)["outside"]
            wanted = [{"id": 5000, "frames": count, "network": "A", "first": {"stamp": str(10**18 + STEP), "number": 1}}]
            self.case(f"report: {count} frames of a link outside the table", "" if told == wanted else f"{told} in place of {wanted}")

    def test_empty_and_many(self):
        links = [dict(links_of(random.Random(1), 1)[0], id=i + 1, name=f"l{i}", redundancy=True, integrity=True, smax=200)
                 for i in range(4096)]
        table, ledger, _ = ledger_in(self.folder, table_of(links), {"A": [], "B": []})
        self.case("report: an empty ledger, 4096 links: numbers", numbers_fault(table, ledger))
        self.case("report: an empty ledger, 4096 links: page below 1.2 MB", page_fault(table, ledger))
        frames = {n: [(i * 2000 + r * 10**8 + (500 if n == "B" else 0), frame(i + 1, 64, r * (3 if i % 2 else 1) + 1))
                      for r in range(4) for i in range(4096)] for n in "AB"}
        table, ledger, _ = ledger_in(self.folder, table_of(links), frames)
        self.case("report: 4096 links, half in trouble: page below 1.2 MB", page_fault(table, ledger))

    def test_shares(self):
        """The share of frames that are discarded, in per cent: rounded down to one decimal, and below a tenth to the first digit."""
        for wrong, count, shown in ((0, 5, "0.0"), (1, 3, "33.3"), (2, 3, "66.6"), (3, 3, "100.0"), (1, 1000, "0.1"), (3, 2000, "0.1"), (1, 1001, "0.09"),
                                    (1, 2000, "0.05"), (7, 19_331, "0.03"), (9999, 10_000, "99.9"), (1, 12_000, "0.008"), (0, 0, "0.0")):
            frames = [(i * STEP, OF_NO_LINK if i < wrong else frame(10, 60, i % 255 + 1)) for i in range(count)]
            table, ledger, _ = ledger_in(self.folder, table_of(one_link(), ()), {"A": frames, "B": []})
            page = report(table, ledger).stdout.decode()
            grouped = f"{wrong:,}".replace(",", "&#8239;")
            tile = f'<h3>Discarded</h3><p class="big">{grouped}<small> = {shown} %</small>'
            self.case(f"report: {wrong} of {count} frames discarded", "" if tile in page else page.partition("<h3>Discarded")[2][:80])

    def test_unfinished(self):
        """What stands of a ledger whose run was stopped: whole lines alone, the beginning of one more, and nothing."""
        chance = random.Random(4)
        links = [dict(l, redundancy=True, integrity=True) for l in links_of(chance, 3)]
        table, ledger, _ = ledger_in(self.folder, table_of(links), traffic(chance, links, 1, 0.02))
        with open(ledger, "rb") as file:
            whole = file.read()
        ends = [at + 1 for at, byte in enumerate(whole) if byte == 10]
        part = os.path.join(self.folder, "part.ledger")
        for name, size in (("nothing", 0), ("a part of the head", 5), ("the head", ends[0]), ("a part of the first frame's line", ends[0] + 1),
                           ("40 lines", ends[39]), ("a line without its newline", ends[40] - 1), ("all but the total", ends[-2]),
                           ("a total without its newline", ends[-1] - 1)):
            with open(part, "wb") as file:
                file.write(whole[:size])
            ran = report(table, part)
            page = ran.stdout.decode("ascii")
            claims = [(ran.returncode == SUCCESS and ran.stderr.decode() == stopped(part, whole[:size]) + "\n", f"note: {ran.stderr!r}"),
                      ("The ledger isn't whole" in page, "the page doesn't say it"), (">1970-" not in page and ", 1970-" not in page, "1970")]
            fault = numbers_fault(table, part) or "; ".join(what for holds, what in claims if not holds)
            self.case(f"report: of a ledger {name}", fault)

    def test_broken(self):
        chance = random.Random(3)
        links = [dict(l, redundancy=True, integrity=True) for l in links_of(chance, 3)]
        table, ledger, _ = ledger_in(self.folder, table_of(links), traffic(chance, links, 1, 0.02))
        with open(ledger, encoding="ascii") as file:
            lines = file.read().splitlines(True)
        copy = next(i for i, l in enumerate(lines) if " copy " in l)
        regular = next(i for i, l in enumerate(lines) if " regular " in l)
        link_counts = next(i for i, l in enumerate(lines) if l.startswith("link "))
        total = len(lines) - 1
        changed = os.path.join(self.folder, "changed.ledger")

        def told(name, edit, line):
            mine = list(lines)
            edit(mine)
            with open(changed, "w", encoding="ascii") as file:
                file.write("".join(mine))
            ran = report(table, changed, "--json")
            want = f"afdxmon: {line}\n".encode()
            self.case(f"report: {name}", "" if (ran.returncode, ran.stderr, ran.stdout) == (FAULT, want, b"") else
                f"status {ran.returncode}, {ran.stderr!r} in place of {want!r}")

        def put(at, old, new):
            def edit(mine):
                mine[at] = mine[at].replace(old, new, 1)
            return edit

        def ended_by(at, fields):
            def edit(mine):
                mine[at] = " ".join([*mine[at].split()[:9], fields]) + "\n"
            return edit

        number = lines[regular].split()[3]
        told("no head", put(0, "2", "1"), "report 1 Ledger at 1 head")
        told("a line that doesn't read", put(regular, "regular", "irregular"), f"report 1 Ledger at {regular + 1} class")
        told("bytes kept for no filter", ended_by(regular, "60 00"), f"report 1 Ledger at {regular + 1} mask")
        told("a filter that keeps no bytes", ended_by(regular, "- ff"), f"report 1 Ledger at {regular + 1} mask")
        told("a link outside the table", put(regular, f" {number} ", " 9999 "), f"report 2 Contradiction at {regular + 1} link")
        told("a copy without its delivery", put(copy, lines[copy].split()[1], "AB"[lines[copy].split()[1] == "A"]),
             f"report 2 Contradiction at {copy + 1} copy")
        told("a link's counts", put(link_counts, "frames ", "frames 1"), f"report 2 Contradiction at {link_counts + 1} counts")
        told("the total", put(total, "delivered ", "delivered 1"), f"report 2 Contradiction at {total + 1} counts")
        told("a part of a line after the total", lambda mine: mine.append("total"), f"report 1 Ledger at {total + 2} newline")

    def test_what_is_told(self):
        """The table is asked after where its SkewMax or its links can be what differs, and not where the ledger was changed."""
        links = [dict(one_link()[0], id=number, name=f"link_{number}", skew_us=2000) for number in (10, 11)]
        taps = {n: [(i * STEP + skew, frame(10, 60, i % 255 + 1)) for i in range(400)] for n, skew in (("A", 0), ("B", 100_000))}
        table, ledger, _ = ledger_in(self.folder, table_of(links), taps)
        with open(ledger, encoding="ascii") as file:
            lines = file.read().splitlines(True)
        changed = os.path.join(self.folder, "changed.ledger")
        gone = [at for at, line in enumerate(lines) if " deliver " in line][300]
        counts = [at for at, line in enumerate(lines) if line.startswith("link ")]
        whole = {word: ADVICE[f"report 2 Contradiction at {at} {word}"] for word, at in (("copy", 2), ("counts", 3))}

        def late(others):
            """A copy 3 ms after its delivery, after which the link delivers so many other numbers."""
            line = "{} {} 0 10 {} regular within next {} - 00\n"
            stamps = [10**18 + i * 1000 for i in range(others + 1)]
            return [lines[0], *(line.format(at, "A", i + 1, "deliver") for i, at in enumerate(stamps)), line.format(10**18 + 3 * STEP, "B", 1, "copy")]

        asked = f"link_10 has a copy 3000 us after its delivery, and SkewMax 2000 us in the table {table}"
        for name, mine, at, word, words in (
            ("a copy whose delivery is gone, and an equal number before", lines[:gone] + lines[gone + 1 :], gone + 1, "copy", None),
            ("a late copy, 127 other numbers after its delivery", late(127), 130, "copy", asked),
            ("a late copy, 128 other numbers after its delivery", late(128), 131, "copy", None),
            ("counts of the first link twice", lines[: counts[1]] + lines[counts[0] :], counts[1] + 1, "counts", None),
            ("counts of the last link twice", lines[: counts[1] + 1] + lines[counts[1] :], counts[1] + 2, "counts", None),
            ("no counts of the first link", lines[: counts[0]] + lines[counts[1] :], counts[0] + 1, "counts", f"link_10 of the table {table} has no counts there"),
        ):
            with open(changed, "w", encoding="ascii") as file:
                file.write("".join(mine))
            told = f"line {at}: link 10 {words}\n{DISPUTED}" if words else whole[word]
            fault = difference(report(table, changed, "-v"), FAULT, f"afdxmon: report 2 Contradiction at {at} {word}\n{changed}: {told}", b"")
            self.case(f"report: {name}", fault)

    def test_edited_tables(self):
        """Tables that were edited after the run, without a manifest: refused where no sizes of frames give the ledger's verdicts, and taken
        where a run with the edited table would write the same ledger."""
        one = {"id": 10, "name": "link_0", "bag_ms": 4, "jitter_us": 0, "smax": 100, "integrity": True, "redundancy": True, "skew_us": 1000}
        taps = {"A": [(2 * i * STEP, frame(10, 96, i % 255 + 1)) for i in range(200)], "B": []}
        for name, run_of, told_of, words in (
            ("BAG 4 ms for 2 ms", {"bag_ms": 2, "jitter_us": 100}, {"bag_ms": 4, "jitter_us": 100}, "within an account that can't hold it, by"),
            ("BAG 1 ms for 2 ms", {"bag_ms": 2, "jitter_us": 500}, {"bag_ms": 1, "jitter_us": 500}, None),
            ("BAG 2 ms for 4 ms", {"bag_ms": 4}, {"bag_ms": 2}, "in excess of an account that holds it, by"),
            ("jitter 4 ms for none", {"bag_ms": 4}, {"bag_ms": 4, "jitter_us": 4000}, "in excess of an account that holds it, by"),
            ("Smax 64 for 100", {"bag_ms": 2}, {"bag_ms": 2, "smax": 64}, "that isn't toolong, and longer than Smax in"),
            ("Smax 150 for 100", {"bag_ms": 2}, {"bag_ms": 2, "smax": 150}, None),
        ):
            _, ledger, _ = ledger_in(self.folder, table_of([{**one, **run_of}]), taps)
            with open(ledger, encoding="ascii") as file:
                rows = [line.split() for line in file if line[0].isdigit()]
            edited = os.path.join(self.folder, "edited.toml")
            with open(edited, "w", encoding="ascii") as out:
                out.write(table_of([{**one, **told_of}]))
            table, bag = {**one, **told_of}, told_of["bag_ms"] * 10**6
            most, last, at = None, 0, None
            for number, row in enumerate(rows, 2):
                stamp, size = int(row[0]), max(64, int(row[9]) + 4 if row[9] != "-" else 64)
                cap = table["smax"] * (bag + table["jitter_us"] * 1000)
                most = cap if most is None else min(cap, most + table["smax"] * (stamp - last))
                last = stamp
                if words and (size > table["smax"] if "Smax" in name else row[6] == "excess" if "excess" in words else size * bag > most):
                    at = number
                    break
                most -= size * bag
            told = f"{ledger}: line {at}: link 10 link_0 has a frame {words} the table {edited}\n{DISPUTED}"
            ran = report(edited, ledger, "-v", "--json")
            fault = difference(ran, FAULT, f"afdxmon: report 2 Contradiction at {at} verdict\n{told}", b"") if words else "" if ran.returncode == SUCCESS else f"{ran.stderr!r}"
            self.case(f"report: a table edited after the run: {name}", fault)

    def test_same_lines(self):
        """A table edited after the run that gives each line as it is, is taken."""
        taken = 0
        for seed in range(40):
            chance = random.Random(1700 + seed)
            links = links_of(chance, 4)
            taps = traffic(chance, links, 1, 0.02 if seed % 2 else 0)
            _, ledger, _ = ledger_in(self.folder, table_of(links), taps)
            with open(ledger, encoding="ascii") as file:
                before = file.read()
            kept = os.path.join(self.folder, "kept.ledger")
            shutil.copy(ledger, kept)
            edited = [dict(link, **{key: chance.choice(values)}) for link in links
                      for key, values in [chance.choice((("bag_ms", (1, 2, 4, 8)), ("jitter_us", (0, 100, 500, 5000)), ("smax", (100, 200, 400))))]]
            table, ledger, _ = ledger_in(self.folder, table_of(edited), taps)
            with open(ledger, encoding="ascii") as file:
                if file.read() != before:
                    continue
            taken += 1
            ran = report(table, kept, "--json")
            if ran.returncode != SUCCESS:
                self.case(f"report: an edited table that gives the same ledger, seed {seed}", f"{ran.stderr!r}")
        self.case("report: edited tables that give the same ledger are taken", "" if taken >= 4 else f"only {taken} of 40 give it")

    def test_marked_where_it_was(self):
        """The timeline and the strips mark what happened where it was, and say times of a long flight in UTC too."""
        taps = long_taps()
        table, ledger, _ = ledger_in(self.folder, table_of(HOUR_LINKS), taps)
        said = json.loads(report(table, ledger, "--json").stdout)
        page = report(table, ledger).stdout.decode("ascii")
        width, base = said["width"], 12

        def mark(kind, half, begin, end, title):
            return kind, half * base, begin * 10 // width, max(end - begin, width // 2) * 10 // width, title

        silent = around([at for at, _ in taps["B"]], 3000 * SECONDS)
        step = [(max(at for at, _ in taps[n] if at < 5000 * SECONDS), min(at for at, _ in taps[n] if at >= 5000 * SECONDS)) for n in "AB"]
        own = [at for at, data in taps["A"] if data[5] == 10]
        pause = around(own, 1000 * SECONDS)
        timeline = page.split("<h2>Timeline")[1].split("</section>")[0]
        events = marks_of(timeline.split('<span class="lb">events</span>')[1].split("</svg>")[0])
        wanted = mark("si", 1, *silent, "network silent")
        self.case("report: a silence is marked where it was", "" if wanted in events and sum(one[0] == "si" for one in events) == 1 else f"{wanted}: {events}")
        steps = {one[1:4] for one in events if one[0] == "st"}
        near = all(any(half == one[0] and abs(one[1] - begin * 10 // width) <= 1 for one in steps) for half, (begin, _) in zip((0, base), step))
        self.case("report: a step of both clocks is marked where it was", "" if near and len(steps) == 2 else f"{step}: {events}")
        paused = {one[1:] for one in events if one[0] == "ou"}
        wanted = {mark("ou", half, *pause, "link pauses")[1:] for half in (0, 1)}
        near = len(paused) == 2 and all(abs(one[1] - other[1]) <= 1 for one, other in zip(sorted(paused), sorted(wanted)))
        self.case("report: an outage is marked where it was", "" if near else f"{wanted}: {paused}")
        strip = page.split('<section class="det" id="v10">')[1].split("</section>")[0]
        kinds = {label: {one[0] for one in marks_of(row)} for label, row in
                 ((row.split('<span class="lb">')[1].split("<")[0], row) for row in strip.split('<div class="row">')[1:])}
        self.case("report: a link's strip marks them", "" if kinds["frames"] == {"si", "st", "ou"} and kinds["interval A"] == {"st", "ou"} else f"{kinds}")
        text = next(one["text"] for one in said["findings"] if one["kind"] == "silence")
        wanted = f"Network B silent for 104 s, from {clock(silent[0])} to {clock(silent[1])}: 250 numbers of 10 links are missing"
        self.case("report: times of a long flight", "" if text == wanted else f"{text!r} in place of {wanted!r}")
        used = min((int(said["end"]) - int(said["start"])) // width + 1, 240)
        span = used * width
        labels = [f"{8 + at // 3600:02}:{at // 60 % 60:02}" for at in range(0, span // SECONDS, 900) if 500 <= at * SECONDS * 10_000 // span < 9850]
        axis = timeline.split('<div class="ax">')[1].split("</div>")[0]
        told = re.findall(r'<b style="left:[\d.]+%">([^<]*)</b>', axis)
        self.case("report: the axis of a long flight", "" if told == ["UTC", *labels] else f"{told} in place of {labels}")
        plain = ": 1 sign<" in page and " in all" not in page and "with a notice" in page
        self.case("report: counts in plain words", "" if plain else "they aren't")
        narrow = page.split("@media screen and (max-width:1000px)")[1].split("@media")[0]
        self.case("report: a narrow page hides no column", "" if ".ms{display:none}" not in narrow and ".wide{display:block" in narrow else "it does")

    def test_told_to_fail(self):
        """--fail-on: the status, the line and the JSON's member, with findings of trouble, of notice alone, and of neither."""
        def taps(lost=(), zeros=()):
            made = {"A": [], "B": []}
            for i in range(300):
                data = frame(10, 60, 0 if i in zeros else i % 255 + 1)
                made["B"].append((i * STEP + 20_000, data))
                if i not in lost:
                    made["A"].append((i * STEP, data))
            return made

        for name, how, levels in (("trouble", {"lost": range(100, 120)}, {"trouble"}), ("notice", {"zeros": (150,)}, {"notice"}), ("nothing", {}, set())):
            table, ledger, _ = ledger_in(self.folder, table_of(one_link()), taps(**how))
            found = json.loads(report(table, ledger, "--json").stdout)
            counts = {level: sum(one["level"] == level for one in found["findings"]) for level in ("trouble", "notice")}
            self.case(f"report: a flight with {name}", "" if {level for level in counts if counts[level]} == levels and found["fail_on"] is None else f"{counts}")
            for level, count, words in (("trouble", counts["trouble"], "of trouble"), ("notice", sum(counts.values()), "of trouble or notice")):
                line = f"afdxmon: findings {count} {words}: --fail-on {level}" if count else ""
                ran = report(table, ledger, "--fail-on", level, "--json")
                self.case(f"report: a flight with {name}, --fail-on {level}", difference(ran, 3 if count else SUCCESS, line))
                member = json.loads(ran.stdout)["fail_on"]
                self.case(f"report: a flight with {name}, --fail-on {level}: JSON", "" if member == {"level": level, "findings": count} else f"{member}")
        ran = report(table, ledger, "--fail-on", "anything")
        self.case("report: another level", "" if ran.returncode == 2 and MISUSE["NoLevel"].encode() in ran.stderr else f"{ran.stderr!r}")

    def test_strict(self):
        """--strict: a recording that ends early has status 3, and its note as ever; AFDXMON_VERBOSE=1 is --verbose."""
        taps = {n: [(i * STEP, frame(10, 60, i % 255 + 1)) for i in range(9)] for n in "AB"}
        table, ledger, _ = ledger_in(self.folder, table_of(one_link()), taps)
        paths = [os.path.join(self.folder, name) for name in ("a.pcap", "b.pcap")]
        command = ["watch", "--config", table, "--a", paths[0], "--b", paths[1], "--ledger", ledger]
        with open(paths[1], "rb") as whole:
            held = whole.read()
        note = "afdxmon: note: recording of network B ends cut after 8 frames: truncated within a record"
        self.case("watch: --strict with whole recordings", difference(run([*command, "--strict"], stdout=subprocess.PIPE), SUCCESS, "", b""))
        with open(paths[1], "wb") as out:
            out.write(held[:-1])
        self.case("watch: a recording that ends early", difference(run(command, stdout=subprocess.PIPE), SUCCESS, note, b""))
        self.case("watch: --strict with one that ends early", difference(run([*command, "--strict"], stdout=subprocess.PIPE), 3, note, b""))
        whole = run([*command, "--verbose"], stdout=subprocess.PIPE).stderr
        for value, wanted in (("1", whole), ("0", note.encode() + b"\n"), ("", note.encode() + b"\n")):
            ran = run(command, stdout=subprocess.PIPE, env={**os.environ, "AFDXMON_VERBOSE": value})
            self.case(f"watch: AFDXMON_VERBOSE={value}", "" if ran.stderr == wanted and wanted else f"{ran.stderr!r} in place of {wanted!r}")

    def test_parts(self):
        """--from, --to, --link and --network tell of the lines that cut takes by the same words, and cut's lines are taken as a part."""
        chance = random.Random(12)
        links = [dict(l, redundancy=True, integrity=True) for l in links_of(chance, 5)]
        table, ledger, _ = ledger_in(self.folder, table_of(links), traffic(chance, links, 2, 0.02))
        part = os.path.join(self.folder, "part.ledger")
        for name, words in (("a time", ["--from", "+0.5", "--to", "+1.25s"]), ("a link", ["--link", "link_1,10"]), ("a network", ["--network", "B"]),
                            ("a minute", ["--from", "08:00", "--to", "08:00:00.7"]), ("all of these", ["--from", "+0.5s", "--to", "+1", "--link", "link_*", "--network", "A"]),
                            ("nothing", ["--from", "+100"])):
            cut = run(["cut", "--config", table, "--ledger", ledger, *words, "--ledger-only", "-o", part], stdout=subprocess.PIPE)
            with open(part, encoding="ascii") as text:
                rows = [line.split() for line in text]
            wanted = (sum(row[1] == "A" for row in rows), sum(row[1] == "B" for row in rows), sorted({int(row[3]) for row in rows if row[5] in ("regular", "toolong")}))
            ran = report(table, ledger, *words, "--json")
            found = json.loads(ran.stdout) if ran.returncode == SUCCESS else {}
            told = counts_of(found) if found else ran.stderr
            self.case(f"report: of {name}", "" if cut.returncode == SUCCESS and told == wanted and found["counts"]["frames"] == len(rows) else f"{told} in place of {wanted}, {cut.stderr!r}")
            asked = dict(zip(("from", "to", "link", "network"), [None] * 4)) | {word[2:]: value for word, value in zip(words[::2], words[1::2])}
            self.case(f"report: of {name}: JSON says so", "" if found.get("part") == {**asked, "partial": False} else f"{found.get('part')}")
            page = report(table, ledger, *words).stdout.decode("ascii")
            self.case(f"report: of {name}: the page says so", "" if "<b>A part of the flight:</b>" in page and page_fault(table, ledger) == "" else "it doesn't")
            if not rows:
                continue
            ran = report(table, part, "--json")
            alone = json.loads(ran.stdout) if ran.returncode == SUCCESS else {}
            same = alone and counts_of(alone) == wanted and alone["part"]["partial"] is True and alone["unaccounted"] == {}
            same = same and [one["text"] for one in alone["findings"]] == [one["text"] for one in found["findings"]]
            self.case(f"report: of cut's lines of {name}", "" if same and ran.stderr == b"" else f"{ran.stderr!r} {alone and counts_of(alone)}")
        whole = json.loads(report(table, ledger, "--json").stdout)
        self.case("report: of all: no part", "" if whole["part"] is None else f"{whole['part']}")
        ran = report(table, ledger, "--network", "C")
        self.case("report: of another network", "" if ran.returncode == 2 and MISUSE["NoNetwork"].encode() in ran.stderr else f"{ran.stderr!r}")

    def test_links_as_values(self):
        """--csv: a row for each link, with the numbers of the JSON. --title: the page's."""
        chance = random.Random(13)
        links = links_of(chance, 5)
        table, ledger, _ = ledger_in(self.folder, table_of(links), traffic(chance, links, 2, 0.05))
        path = os.path.join(self.folder, "links.csv")
        ran = report(table, ledger, "--json", "--csv", path, "--title", "Flight <7>")
        found = json.loads(ran.stdout)["links"]
        with open(path, encoding="ascii", newline="") as text:
            rows = list(csv.DictReader(text))
        wanted = []
        for link in found:
            signs = {f"{sign['sign']}_{n}": str(sign["count"]) for n in "ab" for sign in link[n]["signs"]}
            known = {name: str(link[n][what]) if link[n][what] is not None else "" for what in ("least", "greatest") for n in "ab"
                     for name in [f"{'most' if what == 'greatest' else what}_{n}_ns"]}
            row = {"id": str(link["id"]), "name": link["name"], "level": link["level"], "signs": str(link["signs"]), "copies": str(link["copies"]),
                   "frames_a": str(link["a"]["frames"]), "frames_b": str(link["b"]["frames"]), "lost_both": str(link["lost_both"]),
                   "late_most_ns": str(link["late_greatest"]), **known}
            wanted.append(row | {f"{word}_{n}": signs.get(f"{word}_{n}", "0") for word in ("toolong", "excess", "out", "lost", "repeat", "reset", "alone", "late", "early")
                                 for n in "ab"})
        told = [{key: row[key] for key in wanted[0]} for row in rows]
        self.case("report: the links as comma-separated values", "" if told == wanted else f"{told[:1]} in place of {wanted[:1]}")
        page = report(table, ledger, "--title", "Flight <7>").stdout.decode("ascii")
        self.case("report: a title", "" if "<title>Flight &#60;7&#62;, " in page and "<h1>Flight &#60;7&#62;</h1>" in page else page[:400])
        ran = report(table, ledger, "--csv", ledger)
        self.case("report: values in place of the ledger", "" if ran.returncode == FAULT and ran.stderr == b"afdxmon: file --csv\n" else f"{ran.stderr!r}")

    def test_in_a_browser(self):
        browser = shutil.which("chromium") or shutil.which("chromium-browser")
        if browser is None:
            self.skip("report: the page in a browser", "needs chromium")
            return
        chance = random.Random(1)
        links = links_of(chance, 6)
        table, ledger, _ = ledger_in(self.folder, table_of(links, (WHOLE,)), traffic(chance, links, 2, 0.05))
        page = os.path.join(self.folder, "report.html")
        run(["report", "--config", table, "--ledger", ledger, "-o", page])
        shown, printed = os.path.join(self.folder, "page.png"), os.path.join(self.folder, "page.pdf")
        ways = [(f"{width} pixels wide", shown, [f"--window-size={width},1000", f"--screenshot={shown}"]) for width in (1400, 800, 500)]
        ways.append(("in the dark", shown, ["--blink-settings=preferredColorScheme=0", f"--screenshot={shown}"]))
        ways.append(("on A4", printed, ["--no-pdf-header-footer", f"--print-to-pdf={printed}"]))
        for name, made, options in ways:
            ran = ended([browser, "--headless", "--no-sandbox", "--disable-gpu", "--enable-logging=stderr", *options, "file://" + page],
                        capture_output=True)
            messages = [line for line in ran.stderr.decode("utf-8", "replace").splitlines() if "CONSOLE" in line]
            if not os.path.exists(made):
                messages.append("nothing was drawn")
            self.case(f"report: the page in a browser, {name}", "; ".join(messages[:2]))
            if os.path.exists(made):
                os.remove(made)
