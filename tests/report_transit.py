"""`afdxmon report --transit`: the page's section on what a switch did, its JSON and its lines, beside a slow reader of the whole ledger.

The recordings come of a model switch that plants its faults (tests/transit_flights.py), and at random (tests/transit.py); `transit`
writes the ledger, and the judge of tests/transit_reference.py says what has to stand in it. The numbers are taken from that judge.
"""
import json
import math
import os
import pty
import re
import subprocess
import xml.etree.ElementTree as tree
from collections import namedtuple

from tests.harness import FAULT, PROGRAM, SUCCESS, Case, command_of, frame, put, run, run_at_terminal, told_to
from tests.texts import advice_on
from tests.transit import PLAIN, US, options_of, pcap, plain_flight, random_case, table
from tests.transit_flights import BOUND, transit_flight
from tests.transit_reference import AFTER, BEFORE, judge, rounded

FAULTS = ("dropped", "lax", "leak", "slow", "overtaken", "changed", "twice", "new")
PAIRED = ("passed", "slow", "overtaken", "changed", "lax", "leak")
SECOND, BINS, RANDOM = 10**9, 240, 60
Row = namedtuple("Row", "time side number link sequence cls policing outcome other latency differs")


# ---- the numbers, by their definitions

def rows_of(ledger):
    """The lines of frames."""
    return [Row(*line.split(" ")) for line in ledger.decode().split("\n") if line[:1].isdigit()]


def came_out(row):
    return int(row.time) + (int(row.latency) if row.latency != "-" else 0)


def kind_of(rows, word, page):
    """The frames of a fault, by second from the first frame of either recording on, and by the page's columns."""
    ours = [row for row in rows if row.outcome == word]
    start = min(min(int(row.time), came_out(row)) for row in rows)
    seconds = [(int(row.time) - start) // SECOND for row in ours]
    most = max(seconds.count(second) for second in seconds)
    columns = [(int(row.time) - int(page["start"])) // page["width"] for row in ours]
    return {"frames": len(ours), "links": len({row.link for row in ours}), "first": ours[0].time, "last": ours[-1].time,
            "most_in_a_second": most, "second": min(second for second in seconds if seconds.count(second) == most),
            "bins": [columns.count(column) for column in range(BINS)]}


def latency_of(rows):
    values = sorted(int(row.latency) for row in rows if row.latency != "-" and row.outcome != "changed")
    if not values:
        return None
    ranks = {f"p{name}": rounded(values[math.ceil(len(values) * share / 1000) - 1]) for name, share in ((50, 500), (99, 990), (999, 999))}
    return {"count": len(values), "least": values[0], **ranks, "greatest": values[-1]}


def counts_of(rows):
    ins, outs = ([row.outcome for row in rows if row.side == side] for side in ("before", "after"))
    found = {word: (ins + outs).count(word) for word in BEFORE + AFTER if word != "open"}
    return {"before": len(ins), "after": len(outs) + sum(word in PAIRED for word in ins), **found, "open_before": ins.count("open"),
            "open_after": outs.count("open")}


def silences_of(rows, word):
    """Rows of 64 frames or more with this outcome, between which no frame has a partner."""
    found, current = [], []
    for row in [*rows, Row(*["-"] * 7, "passed", *["-"] * 3)]:
        if row.outcome == word:
            current.append(row)
        elif row.outcome in PAIRED:
            if len(current) >= 64:
                found.append({"frames": len(current), "links": len({one.link for one in current}), "from": current[0].time, "to": current[-1].time})
            current = []
    return found


def link_of(rows, number, name):
    ours = [row for row in rows if row.link == str(number)]
    return {"id": number, "name": name, **counts_of(ours), "latency": latency_of(ours) if name else None}


def section_of(ledger, links, page):
    """The member `transit` of a report, from a whole ledger, by the table's links as (number, name) and the page's own JSON."""
    rows, lines = rows_of(ledger), ledger.decode().split("\n")
    run_line = dict(zip(*[iter(lines[1].split(" ")[1:])] * 2))
    number = {key: None if run_line[key] == "-" else int(run_line[key]) for key in ("within", "early", "shift", "bound", "grace")}
    others = list(dict.fromkeys(int(row.link) for row in rows if row.link != "-" and int(row.link) not in dict(links)))
    cut = {f"cut_{side}": sum(row.outcome == "-" and row.side == side for row in rows) for side in ("before", "after")}
    return {
        "network": None if run_line["network"] == "-" else run_line["network"], **{f"{key}_ns": value for key, value in number.items()},
        "police": run_line["police"], "routed": None if run_line["routed"] == "-" else [int(one) for one in run_line["routed"].split(",")],
        "start": str(min(min(int(row.time), came_out(row)) for row in rows)) if rows else None,
        "total": {"lines": len(rows), **counts_of(rows), **cut, "choice": int(lines[-2].split(" ")[-1])}, "latency": latency_of(rows),
        "kinds": {word: kind_of(rows, word, page) for word in FAULTS if any(row.outcome == word for row in rows)},
        "silences": {"before": silences_of(rows, "new"), "after": silences_of(rows, "dropped")},
        "links": [link_of(rows, *one) for one in links] + [link_of(rows, one, None) for one in others],
    }


def difference_of(got, wanted, where="transit"):
    """Where two JSON values differ, if they do."""
    if isinstance(wanted, dict) and isinstance(got, dict) and got.keys() == wanted.keys():
        return next(filter(None, (difference_of(got[key], wanted[key], f"{where}.{key}") for key in wanted)), "")
    if isinstance(wanted, list) and isinstance(got, list) and len(got) == len(wanted):
        return next(filter(None, (difference_of(*pair, f"{where}[{at}]") for at, pair in enumerate(zip(got, wanted)))), "")
    return "" if got == wanted else f"{where} is {got!r}, not {wanted!r}"


# ---- runs

Made = namedtuple("Made", "table ledger transit ran")


class Sections(Case):
    """What the parts below share."""

    def made(self, config, before, after, *options):
        """A table, a ledger of verdicts on the recording before, and a ledger of transits: their paths."""
        paths = [put(self.folder, name, data) for name, data in (("t.toml", config), ("before.pcap", before), ("after.pcap", after))]
        ledger, transit = os.path.join(self.folder, "v.ledger"), os.path.join(self.folder, "transit.ledger")
        run(["watch", "--config", paths[0], "--a", paths[1], "--ledger", ledger])
        ran = run(["transit", "--config", paths[0], "--before", paths[1], "--after", paths[2], "--ledger", transit, *options], stdout=-1)
        return Made(paths[0], ledger, transit, ran)

    def words(self, made, *more):
        return ["report", "--config", made.table, "--ledger", made.ledger, "--transit", made.transit, *more]

    def report(self, made, *more):
        return run(self.words(made, *more), stdout=-1)


def contents(path):
    with open(path, "rb") as given:
        return given.read()


def links_of(config):
    """The links of a table's text, as (number, name)."""
    return sorted(zip(map(int, re.findall(r"^id = (\d+)", config, re.M)), re.findall(r'^name = "(.*)"', config, re.M)))


class Numbers(Sections):
    """The member `transit` of the JSON."""

    def check(self, name, config, before, after, options):
        made = self.made(config, before, after, *options_of(options))
        judged = judge(config, before, after, options)
        ran = self.report(made, "--json")
        if ran.returncode != SUCCESS or ran.stderr:
            return self.case(name, f"status {ran.returncode}: {ran.stderr!r}; the command: {command_of(ran)}")
        page = json.loads(ran.stdout)
        fault = difference_of(page["transit"], section_of(judged.lines + judged.summary, links_of(config), page))
        return self.case(name, fault and f"{fault}; the command: {command_of(ran)}")

    def test_random(self):
        for seed in range(RANDOM):
            config, before, after, options, _ = random_case(seed)
            self.check(f"random recordings {seed}", config, before, after, options)

    def test_planted(self):
        """The model switch's own numbers: how many frames have each fault that it planted."""
        for seed in range(4):
            flight = transit_flight(seed)
            made = self.made(flight.config, flight.before, flight.after, "--bound-us", str(BOUND // US))
            told = json.loads(self.report(made, "--json").stdout)["transit"]
            words = list(flight.outcomes.values())
            wanted = {word: words.count(word) for word in FAULTS if word in words}
            got = {word: kind["frames"] for word, kind in told["kinds"].items()}
            self.case(f"a switch with planted faults {seed}", "" if got == wanted else f"{got}, not {wanted}")

    def test_silences(self):
        before, after = plain_flight()
        for name, ins, outs in (("after", before, after[:150] + after[250:]), ("before", before[:150] + before[250:], after)):
            made = self.made(PLAIN, pcap(ins), pcap(outs))
            told = json.loads(self.report(made, "--json").stdout)["transit"]["silences"]
            got = {side: [(one["frames"], one["links"]) for one in found] for side, found in told.items()}
            wanted = {"before": [], "after": [], name: [(100, 2)]}
            self.case(f"a silence {name}", "" if got == wanted else f"{got}, not {wanted}")

    def test_many_routed(self):
        """The line `run` may be longer than a block."""
        before, after = plain_flight(count=40)
        made = self.made(PLAIN, pcap(before), pcap(after), "--routed", "0-65535")
        told = json.loads(self.report(made, "--json").stdout)["transit"]["routed"]
        self.case("each identifier is routed", "" if told == list(range(65536)) else f"{len(told)} of them")

    def test_without(self):
        before, after = plain_flight(count=40)
        made = self.made(PLAIN, pcap(before), pcap(after))
        ran = run(self.words(made, "--json")[:5] + ["--json"], stdout=-1)
        self.case("no ledger of transits", "" if json.loads(ran.stdout)["transit"] is None else ran.stdout[-80:])
        page = run(self.words(made)[:5], stdout=-1).stdout
        self.case("no section without it", "" if b"What the switch did" not in page else "there is one")

    def test_pipe(self):
        before, after = plain_flight(count=40)
        made = self.made(PLAIN, pcap(before), pcap(after))
        piped = run([*self.words(made, "--json")[:6], "-", "--json"], stdout=-1, input=contents(made.transit))
        same = piped.stdout == self.report(made, "--json").stdout and piped.returncode == SUCCESS
        self.case("a pipe", "" if same else f"{piped.returncode} {piped.stderr!r}")


def text_of(element):
    return re.sub(r"[\u202f\s]+", " ", "".join(element.itertext())).strip()


def section_in(page):
    """The page's section on the switch."""
    body = tree.fromstring(re.sub(r"^<!doctype html>", "", page.decode()))
    return next(one for one in body.iter("section") if (one.find("h2") is not None and text_of(one.find("h2")).startswith("What the switch did")))


class Page(Sections):
    """The section of the page."""

    def flight(self):
        """Frames of two links, of which some faults are planted at known times: four frames aren't sent on, one is changed, one comes
        twice, three are slow."""
        before, after = plain_flight(count=4000)
        gone, slow = {1000, 1001, 1002, 3000}, {2000, 2001, 2003}
        out = []
        for index, (at, data) in enumerate(after):
            if index in gone:
                continue
            data = data[:40] + b"\x01" + data[41:] if index == 2500 else data
            out.append((at + 700 * US if index in slow else at, data))
            if index == 2600:
                out.append((at + 300 * US, data))
        return before, sorted(out)

    def test_section(self):
        before, after = self.flight()
        made = self.made(PLAIN, pcap(before), pcap(after), "--bound-us", "500", "--network", "A")
        ran, told = self.report(made), json.loads(self.report(made, "--json").stdout)
        section = section_in(ran.stdout)
        head = text_of(section.find("h2"))
        wanted = f"What the switch did by the ledger of transits {made.transit}, network A: 4 000 frames went in, 3 997 came out"
        self.case("page: the head", "" if head == wanted else head)
        rows = [[text_of(cell) for cell in row.iter("td")] for row in section.iter("tr")][1:]
        wanted = [
            ["dropped", "4", "1.000 s before #1 000", "3 from 1.000 s", "2", "1 link_1 3"],
            ["lax", "0", "", "", "", ""], ["leak", "0", "", "", "", ""],
            ["slow", "3", "2.000 s before #2 000", "3 from 2.000 s", "2", "2 link_2 2"],
            ["overtaken", "0", "", "", "", ""],
            ["changed", "1", "2.500 s before #2 500", "1 from 2.000 s", "1", "1 link_1 1"],
            ["twice", "1", "2.600 s after #2 598", "1 from 2.000 s", "1", "1 link_1 1"],
            ["new", "0", "", "", "", ""],
        ]
        self.case("page: the table of faults", "" if [row[:6] for row in rows] == wanted else f"{rows}")
        self.strips(section, told)
        self.latencies(section, told["transit"])

    def strips(self, section, told):
        """Each strip has a column where a fault has frames, and only there."""
        used = (int(told["end"]) - int(told["start"])) // told["width"] + 1
        drawn = {}
        for row in section.iter("div"):
            path = row.find("svg/path[@class='mt']")
            if path is not None:
                drawn[text_of(row[0])] = [int(x) for x in re.findall(r"M(\d+) 20V", path.get("d"))]
        wanted = {word: [at for at, count in enumerate(kind["bins"][:used]) if count] for word, kind in told["transit"]["kinds"].items()}
        self.case("page: the strips", "" if drawn == wanted else f"{drawn}, not {wanted}")
        none = [text_of(one) for one in section.iter("p") if text_of(one).startswith("none:")]
        self.case("page: the faults that don't occur", "" if none == ["none: lax, leak, overtaken, new"] else f"{none}")

    def latencies(self, section, told):
        """The bars of latency: their order, and places that grow as the numbers do, on one scale."""
        rows = [row for row in section.iter("div") if row.find("svg/rect[@class='fa']") is not None]
        ids = [int(text_of(row[0].find("small"))) for row in rows[1:]]
        wanted = [one["id"] for one in sorted(told["links"], key=lambda one: (-one["latency"]["greatest"], one["id"]))]
        self.case("page: slowest links first", "" if ids == wanted else f"{ids}, not {wanted}")
        low = 10 ** min(len(str(one["latency"]["least"])) - 1 for one in told["links"])
        high = 10 ** max(len(str(one["latency"]["greatest"] - 1)) for one in told["links"])
        place = lambda value: 1000 * math.log(value / low) / math.log(high / low)  # noqa: E731
        for row, one in zip(rows, [told, *sorted(told["links"], key=lambda one: -one["latency"]["greatest"])]):
            thin, thick = row.find("svg/rect[@class='ka']"), row.find("svg/rect[@class='fa']")
            got = [int(thin.get("x")), int(thin.get("x")) + int(thin.get("width")), int(thick.get("x")), int(thick.get("x")) + int(thick.get("width"))]
            named = [place(one["latency"][name]) for name in ("least", "greatest", "p50", "p99")]
            near = all(abs(a - b) <= 3 for a, b in zip(got, named))
            self.case(f"page: the bar of {text_of(row[0])}", "" if near else f"{got}, not {named}")

    def test_notes(self):
        """Faults of another time than the page's, and a part of a flight."""
        before, after = self.flight()
        made = self.made(PLAIN, pcap(before), pcap(after), "--bound-us", "500")
        section = text_of(section_in(self.report(made, "--from", "+2.4s").stdout))
        told = "The section is of the whole ledger of transits." in section and "In none of the columns lie 6 of the frames with faults" in section
        self.case("page: a part of a flight", "" if told else section[:600])
        whole = text_of(section_in(self.report(made).stdout))
        self.case("page: the whole flight has no such notes", "" if "whole ledger" not in whole and "In none" not in whole else whole[:600])

    def test_random(self):
        """The page says the same as the JSON, also of latencies below 0 and of frames that hold no link."""
        for seed in range(20):
            config, before, after, options, _ = random_case(seed)
            made = self.made(config, before, after, *options_of(options))
            ran, told = self.report(made), json.loads(self.report(made, "--json").stdout)["transit"]
            section = section_in(ran.stdout)
            rows = {text_of(row[0]): text_of(row[1]) for row in section.iter("tr") if row[0].tag == "td"}
            wanted = {word: str(told["kinds"].get(word, {"frames": 0})["frames"]) for word in FAULTS}
            fault = "" if rows == wanted else f"{rows}, not {wanted}"
            bars = [row for row in section.iter("div") if row.find("svg/rect[@class='fa']") is not None]
            count = sum(one["latency"] is not None for one in told["links"]) + (told["latency"] is not None)
            places = [int(bar.get(key)) for row in bars for bar in row.iter("rect") for key in ("x", "width")]
            fault = fault or ("" if len(bars) == count and all(0 <= place <= 1000 for place in places) else f"{len(bars)} bars of {count}: {places}")
            self.case(f"page: random recordings {seed}", fault and f"{fault}; the command: {command_of(ran)}")

    def test_silence(self):
        before, after = plain_flight()
        made = self.made(PLAIN, pcap(before), pcap(after[:150] + after[250:]))
        section = text_of(section_in(self.report(made).stdout))
        told = "nothing came out for 99 ms from 0.150 s: 100 frames of 2 links" in section
        self.case("page: a silence", "" if told else section)

    def test_many(self):
        """A page of many links is no longer than other pages."""
        links = [(number, 2, 0) for number in range(1, 513)]
        before = [(100_000_000 + number * 50 * US + round_ * 40_000_000, frame(number, 100, round_ + 1)) for round_ in range(4) for number, _, _ in links]
        after = [(at + 30 * US + data[5] * US, data) for at, data in before]
        made = self.made(table(links), pcap(sorted(before)), pcap(sorted(after)))
        ran = self.report(made)
        section = text_of(section_in(ran.stdout))
        fault = "" if "and 448 more links" in section and len(ran.stdout) < 1_200_000 else f"{len(ran.stdout)} bytes"
        self.case("page: 512 links", fault)

    def test_terminal(self):
        """A terminal's lines."""
        before, after = self.flight()
        made = self.made(PLAIN, pcap(before), pcap(after), "--bound-us", "500", "--network", "A")
        ours, theirs = pty.openpty()
        subprocess.run([PROGRAM, *self.words(made)], stdout=theirs, stderr=subprocess.DEVNULL, timeout=60, check=True)
        os.close(theirs)
        lines = told_to(ours).split("\n")
        os.close(ours)
        wanted = ["switch of network A: in 4000, out 3997, passed 3992, refused 0, not judged 0",
                  "faults of the switch: dropped 4, slow 3, changed 1,".replace(",", ""), "  twice 1"]
        at = next((at for at, line in enumerate(lines) if line.startswith("switch of")), 0)
        got = lines[at : at + 3]
        latency = lines[at + 3] if len(lines) > at + 3 else ""
        fits = re.fullmatch(r"latency: least 30\.?\d* us, median \d+\.?\d* us, 99 % \d+\.?\d* us, greatest \d+\.?\d* us", latency)
        self.case("a terminal is told of the switch", "" if got == wanted and fits else f"{lines[at : at + 5]}, not {wanted}")


def changed(ledger, number, old, new):
    """The ledger with one text of a line, counted from 1, replaced."""
    lines = ledger.decode().split("\n")
    assert old in lines[number - 1], (lines[number - 1], old)
    lines[number - 1] = lines[number - 1].replace(old, new, 1)
    return "\n".join(lines).encode()


class Refusals(Sections):
    """A ledger of transits that isn't one, or contradicts the table or itself."""

    def given(self):
        """A short flight of two links, of which a frame is changed, one is dropped, and one more is of a link that the table lacks."""
        before, after = plain_flight(count=60)
        stray = (before[30][0] + 333 * US, frame(9, 100, 7))
        out = [(at, data[:40] + b"\x01" + data[41:] if index == 20 else data) for index, (at, data) in enumerate(after) if index != 40]
        return self.made(PLAIN, pcap(sorted([*before, stray])), pcap(out))

    def refused(self, name, made, ledger, told, config=None):
        path = put(self.folder, "wrong.ledger", ledger)
        words = [path if word == made.transit else word for word in self.words(made, "--json")]
        if config is not None:
            other = put(self.folder, "other.toml", config)
            watched = os.path.join(self.folder, "other.ledger")
            run(["watch", "--config", other, "--a", os.path.join(self.folder, "before.pcap"), "--ledger", watched])
            words[2], words[4] = other, watched
        self.judge(name, run(words, stdout=-1), FAULT, f"afdxmon: report 7 Transit {told}", b"")

    def test_fields(self):
        made = self.given()
        ledger = contents(made.transit)
        lines = ledger.decode().split("\n")
        plain = next(at for at, line in enumerate(lines, 1) if " passed " in line)
        stray = next(at for at, line in enumerate(lines, 1) if " unconfigured " in line)
        fields = lines[plain - 1].split(" ")
        for name, place, value, word in (
            ("time", 0, "x", "time"), ("a time with a zero before it", 0, "0" + fields[0], "time"), ("a time after 2106", 0, str(2**32 * SECOND), "time"),
            ("side", 1, "between", "side"), ("number", 2, "-1", "number"), ("a number of 2^32", 2, str(2**32), "number"),
            ("link", 3, "65536", "link"), ("sequence", 4, "256", "sequence"), ("no sequence", 4, "-", "sequence"),
            ("class", 5, "regulr", "class"), ("a class without a link", 5, "foreign", "class"), ("policing", 6, "-", "policing"),
            ("outcome", 7, "new", "outcome"), ("an outcome that doesn't follow", 7, "lax", "outcome"), ("a partner", 8, "-", "other"),
            ("latency", 9, "-0", "latency"), ("differs", 10, "3", "differs"), ("more", 10, "- -", "fields"),
        ):
            wrong = " ".join([*fields[:place], value, *fields[place + 1 :]])
            self.refused(f"a wrong field: {name}", made, changed(ledger, plain, lines[plain - 1], wrong), f"1 Ledger at {plain} {word}")
        wrong = changed(ledger, stray, " unconfigured - ", " unconfigured within ")
        self.refused("policing of a link that isn't in the table", made, wrong, f"1 Ledger at {stray} policing")
        wrong = changed(ledger, stray, " unconfigured - ", " regular within ").replace(b" within refused - - -", b" within dropped - - -", 1)
        self.refused("a regular frame of a link that the table lacks", made, wrong, f"2 Contradiction at {stray} link")

    def test_lines(self):
        made = self.given()
        ledger = contents(made.transit)
        lines = ledger.decode().split("\n")[:-1]
        first = next(at for at, line in enumerate(lines, 1) if line.startswith("link "))

        def joined(*parts):
            return "".join(f"{line}\n" for line in parts).encode()

        for name, wrong, told in (
            ("another version", changed(ledger, 1, "afdx-transit 1", "afdx-transit 2"), "1 Ledger at 1 head"),
            ("a ledger of verdicts", contents(made.ledger), "1 Ledger at 1 head"),
            ("no line run", joined(lines[0], *lines[2:]), "1 Ledger at 2 run"),
            ("another network", changed(ledger, 2, "network -", "network C"), "1 Ledger at 2 run"),
            ("a routed link that is none", changed(ledger, 2, "routed -", "routed 1,,2"), "1 Ledger at 2 run"),
            ("two lines in the other order", joined(*lines[:5], lines[6], lines[5], *lines[7:]), "1 Ledger at 7 order"),
            ("a line twice", joined(*lines[:6], *lines[5:]), "1 Ledger at 7 order"),
            ("total in the middle", joined(*lines[:9], lines[-1], *lines[9:]), "1 Ledger at 10 order"),
            ("a link without its latency", joined(*lines[:first], *lines[first + 1 :]), f"1 Ledger at {first + 1} order"),
            ("a count without a number", changed(ledger, first, "before ", "before x"), f"1 Ledger at {first} form"),
            ("nothing", b"", "1 Ledger at 1 total"), ("the head alone", joined(lines[0]), "1 Ledger at 2 total"),
            ("no total", joined(*lines[:-1]), f"1 Ledger at {len(lines)} total"),
            ("half of total", ledger[:-20], f"1 Ledger at {len(lines)} total"),
            ("frames alone", joined(*lines[:20]), "1 Ledger at 21 total"),
            ("more after total", ledger + b"x", f"1 Ledger at {len(lines) + 1} newline"),
            ("a line after total", ledger + lines[-1].encode() + b"\n", f"1 Ledger at {len(lines) + 1} order"),
            ("a line longer than a block", joined(*lines[:4], lines[4] + "0" * 70000, *lines[5:]), "1 Ledger at 5 long"),
            ("a list longer than all identifiers", changed(ledger, 2, "routed -", "routed " + "1," * 300000 + "1"), "1 Ledger at 2 long"),
        ):
            self.refused(f"a wrong line: {name}", made, wrong, told)

    def test_counts(self):
        made = self.given()
        ledger = contents(made.transit)
        lines = ledger.decode().split("\n")[:-1]
        place = {word: next(at for at, line in enumerate(lines, 1) if line.startswith(word)) for word in
                 ("link 1 ", "link 2 ", "latency 1 ", "latency all ", "tap before ", "tap after ", "total ")}
        for word, old, new in (
            ("link 1 ", "passed ", "passed 1"), ("link 1 ", "link_1", "link_x"), ("link 2 ", "link 2 ", "link 3 "),
            ("latency 1 ", "count ", "count 1"), ("latency 1 ", "sum ", "sum 1"), ("latency 1 ", "least ", "least -"),
            ("latency all ", "greatest ", "greatest 1"), ("tap before ", "clean ", "clean 1"), ("tap after ", "clean ", "clean 1"),
            ("total ", "frames ", "frames 1"), ("total ", "dropped ", "dropped 1"),
        ):
            at = place[word]
            line = lines[at - 1].replace(old, new, 1)
            self.refused(f"counts: {word}with {new}", made, changed(ledger, at, lines[at - 1], line), f"2 Contradiction at {at} counts")
        for outcome, word in (("dropped", "link 1 "), ("changed", "link 1 "), ("refused", "tap before ")):
            gone = next(at for at, line in enumerate(lines) if f" {outcome} " in line and line[0].isdigit())
            kept = "".join(f"{line}\n" for line in lines[:gone] + lines[gone + 1 :]).encode()
            self.refused(f"counts: a line of {outcome} is left out", made, kept, f"2 Contradiction at {place[word] - 1} counts")
        early = next(at for at, line in enumerate(lines, 1) if line.startswith("link 2 "))
        kept = "".join(f"{line}\n" for line in lines[: early - 1] + lines[early + 1 :]).encode()
        self.refused("counts: a link of the table is left out", made, kept, f"2 Contradiction at {early} counts")

    def test_table(self):
        """The table of another run."""
        made = self.given()
        ledger = contents(made.transit)
        lines = ledger.decode().split("\n")
        two = next(at for at, line in enumerate(lines, 1) if line.split(" ")[3:4] == ["2"])
        self.refused("a table without a link", made, ledger, f"2 Contradiction at {two} link", table([(1, 2, 0)]))
        stray = next(at for at, line in enumerate(lines, 1) if " unconfigured " in line)
        self.refused("a table with one link more", made, ledger, f"2 Contradiction at {stray} link", PLAIN + table([(9, 2, 0)]).split("\n", 2)[2])
        first = next(at for at, line in enumerate(lines, 1) if line.startswith("link 1 "))
        self.refused("a table with another name", made, ledger, f"2 Contradiction at {first} counts", PLAIN.replace("link_1", "one"))

    def test_files(self):
        made = self.given()
        words = self.words(made, "--json")
        gone = [word.replace("transit.ledger", "gone.ledger") for word in words]
        self.judge("a ledger that isn't there", run(gone, stdout=-1), FAULT, "afdxmon: file --transit", b"")
        folder = [self.folder if word == made.transit else word for word in words]
        self.judge("a folder", run(folder, stdout=-1), FAULT, "afdxmon: report 7 Transit 3 Read Ledger", b"")
        before = contents(made.transit)
        ran = run([*words, "-o", made.transit], stdout=-1)
        self.judge("the output is the ledger", ran, FAULT, "afdxmon: file --output", b"")
        self.case("the ledger stays", "" if contents(made.transit) == before else "it is another")
        both = [*words[:4], "-", "--transit", "-"]
        self.judge("both ledgers are standard input", run(both, stdout=-1, input=b""), FAULT, "afdxmon: file --transit", b"")

    def test_advice(self):
        """A terminal is told what is wrong, of which file."""
        made = self.given()
        lines = contents(made.transit).decode().split("\n")[:-1]
        head, rest = lines[:2], lines[next(at for at, line in enumerate(lines) if line.startswith("link ")) :]
        first = lines[2]
        words = self.words(made, "--json")
        words[6] = os.path.join(self.folder, "wrong.ledger")
        for wrong, fault in (
            (["afdx-ledger 2"], "1 Ledger at 1 head"), ([head[0], first], "1 Ledger at 2 run"), (head[:1], "1 Ledger at 2 total"),
            ([*lines[:6], *lines[5:]], "1 Ledger at 7 order"), ([*head, first.replace(" 1 1 ", " 8 1 ")], "2 Contradiction at 3 link"),
            ([*head, first, *rest], "2 Contradiction at 4 counts"),
        ):
            put(self.folder, "wrong.ledger", "".join(f"{line}\n" for line in wrong))
            told = run_at_terminal(words).stderr
            wanted = f"afdxmon: report 7 Transit {fault}\n{words[6]}: {advice_on(f'report 7 Transit {fault}')}\n"
            self.case(f"advice on {fault}", "" if told == wanted else f"{told!r}, not {wanted!r}")
        words[6] = os.path.join(self.folder, "gone.ledger")
        told = run_at_terminal(words).stderr
        self.case("advice on a ledger that isn't there", "" if told.startswith(f"afdxmon: file --transit\n{words[6]}: ") else f"{told!r}")
