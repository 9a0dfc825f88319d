"""What `afdxmon report` and `check` call healthy: sound flights have no finding and no question, and what is planted in them is asked
about by `check`. What a report finds is in tests/findings.py; here is how it says so, on the page and at a terminal.

What is wrong is known from the planting; the numbers of each report are also those of tests/report_reference.py.
"""
import json
import os
import random
import re
import shlex
import subprocess

from tests import flights
from tests.check import questions_in
from tests.flights import SECOND, WHOLE, flight_of, link, periodic, table_of, without
from tests.harness import EVERY, PROGRAM, SUCCESS, Case, run
from tests.report import numbers_fault

SOUND_FLIGHTS = 50


class Judged:
    """A flight that `watch` has judged: its table and its ledger."""

    def __init__(self, folder, flight, filters=(), snaplen=None, table=None):
        self.path = {name: os.path.join(folder, name) for name in ("t.toml", "a.pcap", "b.pcap", "f.bpf", "v.ledger")}
        with open(self.path["t.toml"], "w", encoding="ascii") as out:
            out.write(table_of(flight.links if table is None else table, filters))
        with open(self.path["f.bpf"], "w", encoding="ascii") as out:
            out.write(EVERY)
        self.taps = []
        for n in "AB":
            path = self.path[f"{n.lower()}.pcap"]
            with open(path, "wb") as out:
                out.write(flights.recording_of(flight.taps[n], (snaplen or {}).get(n, 262144)))
            if flight.taps[n]:
                self.taps += [f"--{n.lower()}", path]
        self.ran = run(["watch", "--config", self.path["t.toml"], "--filter", self.path["f.bpf"], *self.taps, "--ledger",
                        self.path["v.ledger"], "--capture", os.devnull])

    def report(self, *more):
        ran = run(["report", "--config", self.path["t.toml"], "--ledger", self.path["v.ledger"], *more], stdout=subprocess.PIPE)
        return ran.stdout.decode("ascii")

    def json(self):
        return json.loads(self.report("--json"))

    def findings(self):
        """The sentences of what to look at first, as a reader has them."""
        page = self.report()
        listed = page[page.index("What to look at first") :]
        return [words_of(one) for one in re.findall(r"<li>(.*?)<details>", listed[: listed.index("</ol>")])]

    def terminal(self):
        ran = subprocess.run(["script", "-qec", f"'{PROGRAM}' report --config '{self.path['t.toml']}' --ledger '{self.path['v.ledger']}'",
                              os.devnull], stdin=subprocess.DEVNULL, capture_output=True, timeout=60)
        return ran.stdout.decode("ascii", "replace").replace("\r\n", "\n")

    def check(self, *more):
        ran = run(["check", "--config", self.path["t.toml"], *self.taps, *more], stdout=subprocess.PIPE)
        return ran.stdout.decode()


def words_of(html):
    text = re.sub(r"<[^>]*>", "", re.sub(r"<svg.*?</svg>", "", html))
    for old, new in (("&#8239;", ""), ("&#181;", "u"), ("&#183;", "|"), ("&#8211;", "-")):
        text = text.replace(old, new)
    return " ".join(text.split())


def near(found, wanted, by=0.01):
    return abs(found - wanted) <= by * wanted


def sending(chance, end, rows):
    """Links that send so: (identifier, BAG, how, networks)."""
    rows = [(link(number, bag), how, networks) for number, bag, how, networks in rows]
    return flight_of(chance, [(one, list(how(chance, one, end)), networks) for one, how, networks in rows])


class Healthy(Case):
    def expect(self, name, judged, *claims):
        """Each claim is (what holds, what it is)."""
        fault = f"watch: {judged.ran.stderr!r}" if judged.ran.returncode != SUCCESS else numbers_fault(judged.path["t.toml"], judged.path["v.ledger"])
        if not fault:
            fault = "; ".join(what for holds, what in claims if not holds)
            if fault:
                fault += f": {judged.findings()}"
        self.case(f"healthy: {name}", fault)

    def test_texts(self):
        """How findings are said: on the page in one piece, at a terminal in lines of 80 columns."""
        rows = [(i, 16, periodic, "AB") for i in range(1, 7)]
        flight = sending(random.Random(3), 20 * SECOND, rows)
        gone = without(flight, lambda n, at, l: n == "A" and 8 * SECOND <= at < 13 * SECOND or l == 6 and at >= 15 * SECOND)
        judged = Judged(self.folder, gone)
        found, shown = judged.findings(), judged.terminal()
        lines = shown.splitlines()
        silence = re.compile(r"Network A silent for 5(\.0\d)?s, from 7\.99\d s to 1(2\.9|3\.0)\d\d s: \d+ numbers of 6 links are missing")
        stop = re.compile(r"link_6 stops at 14\.9\d\d s on both networks \(usual interval 1[56](\.\d)?ms\)")
        said = " ".join(shown.split())
        claims = [(len(found) == 2 and silence.fullmatch(found[0]) and stop.fullmatch(found[1]), "the page"),
                  (all(len(line) <= 80 for line in lines), "a line beyond 80 columns"),
                  (sum(line.startswith("trouble  ") for line in lines) == 2, "the terminal's levels"),
                  ("Network A silent for 5.0" in said and "link_6 stops at 14.9" in said, "the terminal"), ("links 6: 1 in trouble" in said, "the counts")]
        self.expect("two findings, on the page and at a terminal", judged, *claims)
        judged = Judged(self.folder, flight)
        claims = [("Nothing found" in judged.terminal(), "the terminal"), ("Nothing found" in judged.report(), "the page"), (not judged.findings(), "a finding")]
        self.expect("a flight without a finding says what was looked at", judged, *claims)
        many = without(flight, lambda n, at, l: n == "A" and any(i * SECOND // 2 <= at < i * SECOND // 2 + SECOND // 5 for i in range(2, 38)))
        judged = Judged(self.folder, many)
        told = re.search(r"^and (\d+) more, by level: trouble (\d+)$", judged.terminal(), re.M)
        self.expect("more findings than a terminal has", judged, (told and told[1] == told[2] == str(len(judged.json()["findings"]) - 20), f"{told}"))

    def test_cut_commands(self):
        """Each finding's command cuts frames, as it stands in the JSON."""
        rows = [(i, 16, periodic, "AB") for i in range(1, 7)]
        flight = sending(random.Random(5), 20 * SECOND, rows)
        judged = Judged(self.folder, without(flight, lambda n, at, l: n == "A" and l in (2, 3) and 8 * SECOND <= at < 9 * SECOND))
        for finding in judged.json()["findings"]:
            words = shlex.split(finding["cut"])
            words[words.index("a.pcap")], words[words.index("b.pcap")] = judged.path["a.pcap"], judged.path["b.pcap"]
            words[words.index("finding.pcap")] = os.path.join(self.folder, "finding.pcap")
            ran = run(words[1:])
            size = os.path.getsize(words[-1]) if not ran.returncode else 0
            self.case(f"healthy: the command of a finding: {finding['kind']}", "" if size > 24 else f"{finding['cut']}: {ran.stderr!r}")

    def test_sizes_of_frames(self):
        flight = sending(random.Random(9), 2 * SECOND, [(1, 8, periodic, "AB")])
        told = Judged(self.folder, flight).json()
        unknown = told["a"]["bytes"] is None and told["links"][0]["a"]["bytes"] is None
        judged = Judged(self.folder, flight, (WHOLE,))
        told = judged.json()
        size = sum(len(data) + 4 for _, data in flight.taps["A"])
        self.expect("bytes are sizes, or null", judged, (unknown, "null where sizes aren't known"),
               (told["a"]["bytes"] == told["links"][0]["a"]["bytes"] == size, "one meaning"))

    def asked(self, name, answer, *words):
        lines = questions_in(answer)
        fault = "" if len(lines) == 1 and all(word in lines[0] for word in words) and "sound: no, 0 faults and 1 question" in answer else answer
        self.case(f"healthy: check: {name}", fault)

    def test_questions(self):
        rows = [(i, 16, periodic, "AB") for i in range(1, 7)]
        flight = sending(random.Random(10), 20 * SECOND, rows)
        frames = sum(len(flight.taps[n]) for n in "AB")
        answer = Judged(self.folder, flight, table=[link(100), link(101)]).check()
        self.asked("a table of another aircraft", answer, "that of another aircraft?", f"{frames} of {frames} frames")
        cut = sum(len(data) > 100 for _, data in flight.taps["A"])
        answer = Judged(self.folder, flight, snaplen={"A": 100}).check()
        self.asked("frames cut short", answer, "network A cut frames at 100 bytes?", f"{cut} of {len(flight.taps['A'])} frames", "tcpdump -s 0")
        mixed = flights.Flight(flight.links, {"A": sorted(flight.taps["A"] + flight.taps["B"], key=lambda f: f[0]), "B": []})
        answer = Judged(self.folder, mixed).check()
        self.asked("both networks in one recording", answer, "network A hold both networks?", "tcpdump --nano -r", "ether[11] & 0xe0 = 0x20")
        twice = flights.Flight(flight.links, {"A": [f for at, data in flight.taps["A"] for f in ((at, data), (at + 2000, data))], "B": []})
        count = f"{len(flight.taps['A'])} of {2 * len(flight.taps['A'])} frames"
        self.asked("frames recorded twice", Judged(self.folder, twice).check(), "network A hold frames twice?", count, "editcap")
        for ppm, faster, lost in ((50, "B", False), (-50, "A", False), (50, "B", True)):
            moved = [(at + at * ppm // 10**6, data) for at, data in flight.taps["B"]]
            last = {data[4:6]: at for at, data in moved}
            moved = [(at, data) for at, data in moved if not lost or at < last[data[4:6]]]
            answer = Judged(self.folder, flights.Flight(flight.links, {"A": flight.taps["A"], "B": moved})).check()
            told = re.search(r"That of ([AB]) is ([0-9.]+) ppm faster, say 6 of 6 links", answer)
            name = f"clocks that drift, {faster} faster" + (", the last frames of B lost" if lost else "")
            self.asked(name, answer, "do the clocks of the taps drift?", told[0] if told and told[1] == faster and near(float(told[2]), 50, 0.25) else "50 ppm")
        moved = [(at + at * 5 // 10**6, data) for at, data in flight.taps["B"]]
        answer = Judged(self.folder, flights.Flight(flight.links, {"A": flight.taps["A"], "B": moved})).check()
        self.case("healthy: check: clocks that drift by 5 ppm are no question", "" if answer.endswith("\nsound: yes\n") else answer)
        # No clock drifts by more than a thousand parts in a million.
        for ppm, asks in ((990, True), (1010, False)):
            moved = [(at + at * ppm // 10**6, data) for at, data in flight.taps["B"]]
            answer = Judged(self.folder, flights.Flight(flight.links, {"A": flight.taps["A"], "B": moved})).check()
            self.case(f"healthy: check: clocks that move apart by {ppm} ppm", "" if ("do the clocks of the taps drift?" in answer) == asks else answer)

    def test_sound_flights(self):
        faults = []
        for seed in range(SOUND_FLIGHTS):
            flight = flights.sound_flight(seed)
            judged = Judged(self.folder, flight)
            told = judged.json()
            bad = [one["text"] for one in told["findings"] if one["level"] != "info"] + [one["name"] for one in told["links"] if one["level"] != "clean"]
            if judged.ran.returncode != SUCCESS or bad:
                faults.append(f"seed {seed}: {judged.ran.stderr!r} {bad}")
            answer = judged.check()
            if not any(line.startswith("sound: yes") for line in answer.splitlines()):
                faults.append(f"seed {seed}: check: {answer}")
        self.case(f"healthy: {SOUND_FLIGHTS} sound flights have no finding above info, and no question", "; ".join(faults[:4]))
