"""`afdxmon report --baseline`: two flights compared, with changes that are planted, against a slow comparison in fractions.

A flight is written by `afdxmon watch` on recordings that are made here; its numbers are those that the report of its ledger alone has, and
what got worse comes from the rule of docs/REPORT.md in exact fractions.
"""
import html
import json
import math
import os
import pty
import re
import subprocess
from fractions import Fraction

from tests.harness import FAULT, PROGRAM, SUCCESS, Case, ended, frame, run, run_at_terminal
from tests.report import ledger_in, table_of
from tests.texts import advice_on

COUNTS = ["lost_both", "excess", "toolong", "late", "lost", "out", "alone", "repeat", "reset"]
SENTENCES = {"lost_copies": "Lost its copies since the baseline", "new": "New since the baseline", "silent": "Silent since the baseline",
             "lost_both": "More missing on both networks (lost) than in the baseline"}
SENTENCES |= {word: f"More {word} than in the baseline" for word in COUNTS if word != "lost_both"}
MS = 10**6
OUTSIDE = 5000


def reference(table, ledger):
    """The numbers of one flight."""
    return json.loads(run(["report", "--config", table, "--ledger", ledger, "--json"], stdout=subprocess.PIPE).stdout)


# ---- the comparison, by its definition

def rounded(number):
    return math.floor(number + Fraction(1, 2))


def numbers_of(said, length):
    """A link's numbers in a flight, None where it has no frame."""
    lanes = (said["a"], said["b"])
    frames = sum(lane["frames"] for lane in lanes)
    if not frames:
        return None
    counts = {word: sum(sign["count"] for lane in lanes for sign in lane["signs"] if sign["sign"] == word) for word in COUNTS}
    counts["lost_both"] = said["lost_both"]["count"] if isinstance(said["lost_both"], dict) else said["lost_both"]
    least = [lane["least"] for lane in lanes if lane["least"] is not None]
    skew = max(said["skew_greatest"], said["late_greatest"])
    return {"frames": frames, "rate": rounded(Fraction(frames * 10**12, length)) if length else None, "copies": said["copies"],
            "least": min(least, default=None), "skew": skew if said["copies"] or skew else None,
            "skew_median": said["skew_median"] if said["copies"] else None, "counts": counts,
            "shares": {word: rounded(Fraction(count * 10**6, frames)) for word, count in counts.items()}}


def has_grown(word, now, then):
    """Did a count grow by 3 at least, and to more than twice as many by frame?"""
    return now["counts"][word] - then["counts"][word] >= 3 \
        and Fraction(now["counts"][word], now["frames"]) > 2 * Fraction(then["counts"][word], then["frames"])


def changed_of(today, before):
    """In what a link is otherwise: its rate by more than a quarter, its median skew by 10 us and twofold, a count in either direction."""
    if not today or not before:
        return []
    changed = []
    if None not in (today["rate"], before["rate"]) and abs(today["rate"] - before["rate"]) > before["rate"] // 4:
        changed.append("rate")
    if None not in (today["skew_median"], before["skew_median"]):
        apart, lesser = abs(today["skew_median"] - before["skew_median"]), min(today["skew_median"], before["skew_median"])
        changed += ["skew"] if apart >= 10_000 and apart > lesser else []
    return changed + [word for word in COUNTS if has_grown(word, today, before) or has_grown(word, before, today)]


def is_among(finding, others):
    """Has a flight a finding of this kind and networks, about one of its links?"""
    links = set(finding["links"])
    return any(other["kind"] == finding["kind"] and other["networks"] == finding["networks"]
               and (links & set(other["links"]) or not links and not other["links"]) for other in others)


def findings_of(today, before):
    """What is found in one of two flights alone, and how many findings of each kind they have."""
    def only(own, others):
        return [one for one in own if not re.match(r"and \d+ more: ", one["text"]) and not is_among(one, others)]

    kinds = list(dict.fromkeys(one["kind"] for one in [*today, *before]))
    return {"new": only(today, before), "gone": only(before, today),
            "kinds": [{"kind": kind, "today": sum(one["kind"] == kind for one in today), "baseline": sum(one["kind"] == kind for one in before)}
                      for kind in kinds]}


def worse_of(today, before, redundancy):
    if not today and not before:
        return []
    if not before:
        return ["new"]
    if not today:
        return ["silent"]
    lost = ["lost_copies"] if redundancy and not today["copies"] and before["copies"] else []
    return lost + [word for word in COUNTS if has_grown(word, today, before)]


def compared(links, today, before):
    """What the member `baseline` of the JSON has to be."""
    of = {flight: int(said["end"] or 0) - int(said["start"] or 0) for flight, said in (("today", today), ("before", before))}
    rows = []
    for link, now, then in zip(sorted(links, key=lambda one: one["id"]), today["links"], before["links"]):
        now, then = numbers_of(now, of["today"]), numbers_of(then, of["before"])
        rows.append({"id": link["id"], "name": link["name"], "worse": worse_of(now, then, link["redundancy"]), "changed": changed_of(now, then),
                     "today": now, "baseline": then})
    known = {link["id"] for link in before["outside"]}
    return {"whole": before["whole"], "start": before["start"], "end": before["end"], "counts": before["counts"], "links": rows,
            "table": {"added": [], "removed": [], "renamed": [], "changed": []}, "findings": findings_of(today["findings"], before["findings"]),
            "new_outside": [link["id"] for link in today["outside"] if link["id"] not in known]}


# ---- flights with so many frames of each link, and what is planted in them

def link(number, **other):
    return {"id": number, "name": f"link_{number}", "bag_ms": 1, "jitter_us": 0, "smax": 100, "integrity": True, "redundancy": True,
            "skew_us": 1000, **other}


def flight(links, frames, too_long=(), alone=(), missing=(), late=(), absent=(), outside=0, again=(), reset=()):
    """So many frames of each link, 4 ms apart, on both networks: of a link of `too_long` so many are too long on A, of one of
    `missing` so many are lost on both networks, of one of `late` the second of so many is beyond SkewMax, of one of `again` the first
    so many come a second time after so many nanoseconds, of one of `reset` so many have the number 0, links `alone` come on A alone,
    `absent` ones not at all, and so many frames are of no link of the table."""
    too_long, missing, late, again, reset = dict(too_long), dict(missing), dict(late), dict(again), dict(reset)
    taps = {"A": [], "B": []}
    for place, one in enumerate(links):
        number = one["id"]
        if number in absent:
            continue
        for i in range(frames):
            at, sequence = i * 4 * MS + place * 7000, i % 255 + 1
            if i % 20 == 15 and i // 20 < reset.get(number, 0):
                sequence = 0
            count, after = again.get(number, (0, 0))
            if i < count:
                taps["A"].append((at + after, frame(number, 80, sequence)))
            if 0 < i - 5 <= 2 * missing.get(number, 0) and i % 2:
                continue
            size = 140 if i % 3 == 1 and i // 3 < too_long.get(number, 0) else 80
            taps["A"].append((at, frame(number, size, sequence)))
            if number not in alone:
                skew = 1_500_000 if i % 3 == 1 and i // 3 < late.get(number, 0) else 3000
                taps["B"].append((at + skew, frame(number, 80, sequence)))
    taps["A"] += [(i * MS + 500_000, frame(OUTSIDE, 60, 1)) for i in range(outside)]
    for n in "AB":
        taps[n].sort(key=lambda one: one[0])
    return taps


class Flights:
    """The two ledgers of a case, of one table."""

    def __init__(self, folder, links, today, before):
        self.links = links
        paths = []
        for name, taps in (("today", today), ("before", before)):
            own = os.path.join(folder, name)
            os.makedirs(own, exist_ok=True)
            table, ledger, ran = ledger_in(own, table_of(links), taps)
            assert ran.returncode == SUCCESS, ran.stderr
            paths.append(ledger)
        self.table, (self.today, self.before) = table, paths
        self.command = ["report", "--config", table, "--ledger", self.today, "--baseline", self.before]
        self.reference = compared(links, reference(table, self.today), reference(table, self.before))
        self.worse = {row["id"]: row["worse"] for row in self.reference["links"] if row["worse"]}

    def told(self, *more):
        return run([*self.command, *more], stdout=subprocess.PIPE)

    def json_fault(self):
        ran = self.told("--json")
        if ran.returncode != SUCCESS:
            return f"status {ran.returncode}: {ran.stderr!r}"
        told = json.loads(ran.stdout)
        mine = told.pop("baseline")
        alone = json.loads(run([*self.command[:5], "--json"], stdout=subprocess.PIPE).stdout)
        if told != alone:
            return "the other members aren't those without a baseline"
        for key, wanted in self.reference.items():
            if mine[key] != wanted:
                return f"{key}: {mine[key]} in place of {wanted}"
        return "" if set(mine) == set(self.reference) else f"members {sorted(mine)}"

    def page_fault(self):
        ran = self.told()
        if ran.returncode != SUCCESS:
            return f"status {ran.returncode}: {ran.stderr!r}"
        page = ran.stdout.decode("ascii")
        found = page.split("What to look at first")[1].split("</ol>")[0]
        heads = [html.unescape(head).rstrip(":") for head in re.findall(r"<li>.*?<b>(.*?)</b>", found)]
        words = [word for word in SENTENCES if any(word in worse for worse in self.worse.values())]
        wanted = [SENTENCES[word] for word in words]
        calm = [row["changed"] for row in self.reference["links"] if not row["worse"]]
        wanted += [f"Another {word} than in the baseline" for word in ("rate", "skew") if any(word in changed for changed in calm)]
        if self.reference["new_outside"]:
            wanted.append("New since the baseline, outside the table")
        if heads[: len(wanted)] != wanted or any("baseline" in head for head in heads[len(wanted) :]):
            return f"first things {heads} in place of {wanted}"
        table = page.split("Compared with the baseline")[1].split("</section>")[0]
        rows = re.findall(r'<tr><td class="r id">(\d+)</td><td class="nm">(.*?)</td><td class="w">(.*?)</td>(.*?)</tr>', table)
        if sorted(int(row[0]) for row in rows) != sorted(row["id"] for row in self.reference["links"])[: len(rows)] and len(rows) < 64:
            return f"rows {[row[0] for row in rows]}"
        by_id = {row["id"]: row for row in self.reference["links"]}
        first = [(by_id[int(row[0])]["worse"] != [], by_id[int(row[0])]["changed"] != []) for row in rows]
        order = [(worse, worse or changed) for worse, changed in first]
        if order != sorted(order, reverse=True):
            return "a link that got worse stands after one that didn't"
        new = found.count('<i class="new">new</i>')
        if new != len(self.reference["findings"]["new"]) or page.count(">gone: <b>") != min(len(self.reference["findings"]["gone"]), 24):
            return f"{new} findings are new"
        for number, name, worse, cells in rows:
            fault = row_fault(by_id[int(number)], name, worse, cells)
            if fault:
                return f"row {number}: {fault}"
        return ""

    def text(self):
        """What a terminal is shown."""
        ours, theirs = pty.openpty()
        try:
            ran = ended([PROGRAM, *self.command], stdout=theirs, stderr=subprocess.PIPE)
        finally:
            os.close(theirs)
        told = b""
        while True:
            try:
                more = os.read(ours, 65536)
            except OSError:
                break
            if not more:
                break
            told += more
        os.close(ours)
        return ran.returncode, told.decode("ascii").replace("\r\n", "\n")

    def text_fault(self):
        status, told = self.text()
        if status != SUCCESS:
            return f"status {status}"
        wanted = [f"links worse than in the baseline: {len(self.worse)}"]
        by_id = {row["id"]: row for row in self.reference["links"]}
        lines = [text_of(by_id[number]) for number in self.worse]
        mine = told.splitlines()
        at = next((i for i, line in enumerate(mine) if line.startswith("links worse")), None)
        if at is None or mine[at] != wanted[0]:
            return f"{mine[:4]} have no line {wanted[0]!r}"
        own = [line for line in mine if line.startswith("worse ")]
        calm = [row for row in self.reference["links"] if row["changed"] and not row["worse"]]
        told_of = [line.split()[1] for line in mine if line.startswith("changed ")]
        if f"links otherwise than in the baseline: {len(calm)}" not in mine or set(told_of) > {str(row["id"]) for row in calm}:
            return f"{told_of} are otherwise, not {[row['id'] for row in calm]}"
        counts = [len(self.reference["findings"][which]) for which in ("new", "gone")]
        if f"findings new since the baseline: {counts[0]}, gone: {counts[1]}" not in mine:
            return f"{counts} are new and gone"
        if mine[at + 1 : at + 1 + len(own)] != own or not set(own) <= set(lines) or len(own) != min(len(lines), 14):
            return f"{own} in place of {lines}"
        more = f"and {len(lines) - 14} more links got worse"
        return "" if (more in mine) == (len(lines) > 14) else f"{more!r} is told wrongly"


def thousandths(number):
    return "&#8211;" if number is None else f"{number // 1000}.{number % 1000:03}"


def grouped(number):
    return "&#8211;" if number is None else f"{number:,}".replace(",", "&#8239;")


def hundredths(number):
    return "&#8211;" if number is None else f"{number // 10_000 // 100}.{number // 10_000 % 100:02}"


def row_fault(row, name, worse, cells):
    """A row of the page against a link's comparison."""
    words, _, others = worse.partition("<i>")
    calm = [word for word in row["changed"] if word not in row["worse"]]
    if (name, words.split(), others.removesuffix("</i>").split()) != (row["name"], row["worse"], calm):
        return f"{name} {worse} in place of {row['name']} {row['worse']} {calm}"
    wanted = []
    for numbers in (row["today"], row["baseline"]):
        if numbers is None:
            wanted.append(["&#8211;"] * 13)
            continue
        skew = None if numbers["skew"] is None else numbers["skew"] // 1000
        wanted.append([thousandths(numbers["rate"]), grouped(numbers["copies"]), hundredths(numbers["least"]), grouped(skew)]
                      + [thousandths(numbers["shares"][word]) for word in COUNTS])
    told = re.findall(r'<td class="r( w)?">(.*?)<br/><i>(.*?)</i></td>', cells)
    if [cell[1] for cell in told] != wanted[0] or [cell[2] for cell in told] != wanted[1]:
        return f"{told} in place of {wanted}"
    marked = [word for word, cell in zip(COUNTS, told[4:]) if cell[0]]
    return "" if marked == [word for word in COUNTS if word in row["worse"]] else f"{marked} are marked"


def text_of(row):
    """The line of a link that got worse."""
    rates = []
    for word, numbers in (("frames/s", row["today"]), ("baseline", row["baseline"])):
        rate = 0 if numbers is None else numbers["rate"]
        rates.append(f"{word} {'-' if rate is None else thousandths(rate)}")
    words = [f"{word} {row['today']['counts'][word]} baseline {row['baseline']['counts'][word]}" if word in COUNTS else word for word in row["worse"]]
    return f"worse    {row['id']:>5} {row['name']} {' '.join(rates + words)}"


class Baseline(Case):
    def judged(self, name, links, today, before, worse):
        """A case: what got worse by the rule, as it is said here, and the JSON, the page and the text by the slow comparison."""
        flights = Flights(self.folder, links, today, before)
        if worse is not None:
            self.case(f"baseline: {name}: the slow comparison", "" if flights.worse == worse else f"{flights.worse} in place of {worse}")
        self.case(f"baseline: {name}: JSON", flights.json_fault())
        self.case(f"baseline: {name}: page", flights.page_fault())
        self.case(f"baseline: {name}: text", flights.text_fault())
        return flights

    def test_planted(self):
        """Links that are lost, new and silent, and counts at the bounds of the rule, in flights of one length."""
        links = [link(n) for n in range(10, 20)] + [link(20, redundancy=False)]
        before = flight(links, 300, too_long={13: 1, 14: 1, 15: 5, 16: 5, 17: 0}, late={19: 2}, absent={11})
        today = flight(links, 300, too_long={13: 3, 14: 4, 15: 10, 16: 11, 17: 3}, missing={18: 4}, late={19: 9}, absent={12}, alone={10, 20}, outside=3)
        worse = {10: ["lost_copies", "alone"], 11: ["new"], 12: ["silent"], 14: ["toolong"], 16: ["toolong"], 17: ["toolong"],
                 18: ["lost_both", "lost"], 19: ["late"]}
        flights = self.judged("planted changes", links, today, before, worse)
        same = Flights.__new__(Flights)
        same.__dict__.update(flights.__dict__, before=flights.today, command=[*flights.command[:6], flights.today])
        same.reference = compared(links, reference(flights.table, flights.today), reference(flights.table, flights.today))
        same.worse = {row["id"]: row["worse"] for row in same.reference["links"] if row["worse"]}
        self.case("baseline: the same ledger twice: nothing got worse", "" if same.worse == {} else f"{same.worse}")
        self.case("baseline: the same ledger twice: JSON", same.json_fault())
        self.case("baseline: the same ledger twice: page", same.page_fault())
        self.case("baseline: the same ledger twice: text", same.text_fault())

    def test_each_way(self):
        """Each way in which a link gets worse is told."""
        links = [link(n) for n in range(20, 30)]
        before = flight(links, 300, absent={21})
        today = flight(links, 300, alone={20}, absent={22}, missing={23: 5}, again={24: (6, 100_000), 25: (6, 1_500_000)}, too_long={26: 4},
                       late={27: 4}, reset={28: 5})
        flights = self.judged("each way", links, today, before, None)
        told = {word for worse in flights.worse.values() for word in worse}
        self.case("baseline: each way is told", "" if told == set(SENTENCES) else f"{sorted(set(SENTENCES) - told)} aren't")

    def test_lengths(self):
        """Flights of different lengths: what is as common gets no worse, and what is just over twice as common does."""
        links = [link(n) for n in range(30, 36)]
        short, double = {30: 5, 31: 5, 32: 5, 33: 1, 34: 10, 35: 10}, {30: 10, 31: 20, 32: 21, 33: 3, 34: 20, 35: 40}
        self.judged("a flight that is twice as long", links, flight(links, 300, too_long=double), flight(links, 150, too_long=short),
               {32: ["toolong"]})
        self.judged("a baseline that is twice as long", links, flight(links, 150, too_long={30: 10, 31: 13, 32: 12, 33: 5, 34: 12, 35: 10}),
               flight(links, 300, too_long={30: 10, 31: 10, 32: 10, 33: 5, 34: 9, 35: 20}), {31: ["toolong"], 34: ["toolong"]})

    def test_empty(self):
        """A flight without a frame, and many links."""
        links = [link(n) for n in range(40, 42)]
        frames, none = flight(links, 20), {"A": [], "B": []}
        self.judged("a baseline without a frame", links, frames, none, {40: ["new"], 41: ["new"]})
        self.judged("no frame today", links, none, frames, {40: ["silent"], 41: ["silent"]})
        self.judged("no frame in either flight", links, none, none, {})
        links = [link(n) for n in range(100, 190)]
        self.judged("90 links that are new", links, flight(links, 3), flight(links, 3, absent=range(110, 190)), None)

    def test_other_rates(self):
        """A rate that is halved, one that is a quarter less, skews tenfold and by a little, and a count that fell: none got worse."""
        def taps(rows):
            made = {"A": [], "B": []}
            for place, (number, (period, skew, too_long)) in enumerate(rows.items()):
                for i in range(1200 // period):
                    size = 140 if i % 3 == 1 and i // 3 < too_long else 80
                    made["A"].append((i * period * MS + place * 7000, frame(number, size, i % 255 + 1)))
                    made["B"].append((i * period * MS + place * 7000 + skew, frame(number, 80, i % 255 + 1)))
            return {n: sorted(made[n], key=lambda one: one[0]) for n in "AB"}

        links = [link(n) for n in range(60, 66)]
        before = {60: (4, 3000, 0), 61: (5, 3000, 0), 62: (4, 3000, 0), 63: (4, 3000, 0), 64: (4, 3000, 8), 65: (4, 3000, 0)}
        today = {60: (8, 3000, 0), 61: (6, 3000, 0), 62: (4, 30_000, 0), 63: (4, 9000, 0), 64: (4, 3000, 2), 65: (4, 3000, 0)}
        flights = self.judged("other rates and skews", links, taps(today), taps(before), {})
        told = {row["id"]: row["changed"] for row in flights.reference["links"]}
        self.case("baseline: other rates and skews: what is told", "" if told == {60: ["rate"], 61: [], 62: ["skew"], 63: [], 64: ["toolong"], 65: []} else f"{told}")

    def test_revisions(self):
        """The baseline has another table: a link is added, one removed, one renamed, one changed, and the rest is compared by identifier."""
        olds = [link(70), link(71), link(72), link(73)]
        news = [link(70), link(71, name="other"), link(72, bag_ms=2, skew_us=2000), link(74)]
        paths = {}
        for name, links, more in (("old", olds, {}), ("new", news, {"too_long": {70: 9}})):
            own = os.path.join(self.folder, name)
            os.makedirs(own, exist_ok=True)
            paths[name] = ledger_in(own, table_of(links), flight(links, 200, **more))[:2]
        command = ["report", "--config", paths["new"][0], "--ledger", paths["new"][1], "--baseline", paths["old"][1]]
        whole = [*command, "--baseline-config", paths["old"][0]]
        ran = run([*whole, "--json"], stdout=subprocess.PIPE)
        told = json.loads(ran.stdout)["baseline"] if ran.returncode == SUCCESS else {}
        wanted = {"added": [{"id": 74, "name": "link_74", "before": None, "keys": []}], "removed": [{"id": 73, "name": None, "before": "link_73", "keys": []}],
                  "renamed": [{"id": 71, "name": "other", "before": "link_71", "keys": []}],
                  "changed": [{"id": 72, "name": "link_72", "before": "link_72", "keys": ["bag_ms", "skew_us"]}]}
        self.case("baseline: of another table: what differs", "" if told.get("table") == wanted else f"{ran.stderr!r} {told.get('table')}")
        worse = {one["id"]: one["worse"] for one in told.get("links", [])}
        self.case("baseline: of another table: links by identifier", "" if worse == {70: ["toolong"], 71: [], 72: [], 74: ["new"]} else f"{worse}")
        new = [(one["kind"], one["links"]) for one in told["findings"]["new"]]
        self.case("baseline: of another table: the finding that is new", "" if ("toolong", [70]) in new else f"{new}")
        page = run(whole, stdout=subprocess.PIPE).stdout.decode("ascii")
        lines = ["Links of the table added: 74 link_74<", "Links of the table removed: 73 link_73<", "Links of the table renamed: 71 other<",
                 "Links of the table changed: 72 link_72<"]
        self.case("baseline: of another table: page", "" if all(line in page for line in lines) else "a line is missing")
        ran = run([*command, "--json"], stdout=subprocess.PIPE)
        self.case("baseline: of another table that isn't given", "" if ran.returncode == FAULT and ran.stderr.startswith(b"afdxmon: report 6 Baseline 2 Contradiction")
            else f"{ran.returncode} {ran.stderr!r}")
        wrong = os.path.join(self.folder, "wrong.toml")
        with open(wrong, "w", encoding="ascii") as out:
            out.write("constant = 1\n")
        ran = run([*command, "--baseline-config", wrong], stdout=subprocess.PIPE)
        self.case("baseline: a table of it that isn't one", "" if (ran.returncode, ran.stderr) == (FAULT, b"afdxmon: file --baseline-config\n") else f"{ran.stderr!r}")

    def test_faults(self):
        """A baseline that isn't one, and files that are one."""
        links = [link(50)]
        flights = Flights(self.folder, links, flight(links, 20), flight(links, 20))
        with open(flights.before, encoding="ascii") as file:
            lines = file.read().splitlines(True)
        changed = os.path.join(self.folder, "changed.ledger")
        output = os.path.join(self.folder, "page.html")

        def refused(name, arguments, status, line):
            ran = run([*flights.command[:5], *arguments], stdout=subprocess.PIPE)
            want = f"afdxmon: {line}\n".encode()
            self.case(f"baseline: {name}", "" if (ran.returncode, ran.stderr, ran.stdout) == (status, want, b"") else
                f"status {ran.returncode}, {ran.stderr!r} in place of {want!r}")

        def with_line(at, old, new, line):
            mine = list(lines)
            mine[at] = mine[at].replace(old, new, 1)
            with open(changed, "w", encoding="ascii") as file:
                file.write("".join(mine))
            refused(f"a baseline with {new!r} in line {at + 1}", ["--baseline", changed], FAULT, line)

        with_line(0, "2", "1", "report 6 Baseline 1 Ledger at 1 head")
        with_line(3, "regular", "irregular", "report 6 Baseline 1 Ledger at 4 class")
        with_line(2, " 50 ", " 51 ", "report 6 Baseline 2 Contradiction at 3 link")
        with_line(len(lines) - 1, "delivered ", "delivered 1", f"report 6 Baseline 2 Contradiction at {len(lines)} counts")
        ran = run_at_terminal([*flights.command[:5], "--baseline", changed])
        wanted = f"afdxmon: report 6 Baseline 2 Contradiction at {len(lines)} counts\n{changed}: {advice_on('report 2 Contradiction at 3 counts')}\n"
        self.case("baseline: a terminal is told what is wrong with it", "" if ran.stderr == wanted else f"{ran.stderr!r} in place of {wanted!r}")
        absent = os.path.join(self.folder, "absent")
        ran = run_at_terminal([*flights.command[:5], "--baseline", absent])
        wanted = f"afdxmon: file --baseline\n{absent}: "
        self.case("baseline: a terminal is told why it isn't had", "" if ran.stderr.startswith(wanted) and len(ran.stderr) > len(wanted) + 1 else
            f"{ran.stderr!r}")
        refused("a baseline that isn't there", ["--baseline", os.path.join(self.folder, "absent")], FAULT, "file --baseline")
        refused("a baseline that is a directory", ["--baseline", self.folder], FAULT, "report 6 Baseline 3 Read Ledger")
        refused("an output that is the baseline", ["--baseline", flights.before, "-o", flights.before], FAULT, "file --output")
        with open(flights.before, encoding="ascii") as file:
            self.case("baseline: it is as it was", "" if file.read() == "".join(lines) else "it is written over")
        ran = run([*flights.command[:3], "--ledger", "-", "--baseline", "-"], stdout=subprocess.PIPE, stdin=subprocess.DEVNULL)
        self.case("baseline: standard input twice", "" if (ran.returncode, ran.stderr) == (FAULT, b"afdxmon: file --baseline\n") else f"{ran.stderr!r}")
        with open(changed, "w", encoding="ascii") as file:
            file.write("".join(lines[:-1]))
        ran = run([*flights.command[:5], "--baseline", changed, "--json"], stdout=subprocess.PIPE)
        self.case("baseline: one without its line total", "" if ran.returncode == SUCCESS and json.loads(ran.stdout)["baseline"]["whole"] is False
            else f"status {ran.returncode}: {ran.stderr!r}")
        with open(flights.before, "rb") as file:
            ran = run([*flights.command[:5], "--baseline", "-", "-o", output], stdin=file, stdout=subprocess.PIPE)
        with open(output, "rb") as file:
            same = file.read() == flights.told().stdout
        self.case("baseline: standard input", "" if ran.returncode == SUCCESS and same else f"status {ran.returncode}: {ran.stderr!r}")
