"""`watch --details`: a ledger of version 3, which has each frame's length on the wire, and all that reads one.

Lengths are planted: each frame's is known before the program runs. All else of the ledger is that of the run without the option.
"""
import json
import os
import random
import sqlite3
import subprocess

from tests import pairs
from tests.analyser import table_of
from tests.flights import SECOND, WHOLE, periodic
from tests.harness import EVERY, FAULT, FIRST_64, SUCCESS, TOP, Case, difference, frame, header, put, read, record, run
from tests.healthy import Judged, sending
from tests.reference import parse
from tests.report import numbers_fault
from tests.watching import TABLE

CASES, NOON = 60, 1_800_000_000 * 10**9
HEADS = {2: b"afdx-ledger 2\n", 3: b"afdx-ledger 3\n"}
# A frame of each class: its link, its length on the wire, and how many bytes of it are captured.
EACH_CLASS = (
    ("cut", 5, 100, 60), ("cut", 5, 2**32 - 1, 60), ("runt", 5, 59, 59), ("oversize", 5, 1515, 1515), ("unconfigured", 9, 61, 61),
    ("toolong", 5, 197, 197), ("regular", 5, 60, 60), ("regular", 5, 196, 196), ("regular", 5, 61, 61),
)  # fmt: skip


def planted():
    """A recording with a frame of each class, and the lengths of its frames."""
    packets = [record(NOON + at * SECOND, frame(number, held, at + 1), original=whole) for at, (_, number, whole, held) in enumerate(EACH_CLASS)]
    foreign = b"\7" + frame(5, 70, 1)[1:]
    packets.append(record(NOON + len(EACH_CLASS) * SECOND, foreign))
    return header() + b"".join(packets), [whole for _, _, whole, _ in EACH_CLASS] + [70]


def with_lengths(ledger, lengths):
    """The ledger of version 3 that this one of version 2 belongs to. The lengths are those of each network's frames, by their indices."""
    lines = ledger.splitlines(keepends=True)
    assert lines[0] == HEADS[2]
    made = [HEADS[3]]
    for line in lines[1:]:
        words = line.split()
        length = b" %d\n" % lengths[words[1].decode()][int(words[2])] if line[:1].isdigit() else b"\n"
        made.append(line[:-1] + length)
    return b"".join(made)


class Run:
    """Runs of `watch` over two recordings, without the option and with it."""

    def __init__(self, folder, a, b, config=TABLE, code=EVERY, more=()):
        self.folder = folder
        for name, data in (("table.toml", config), ("filter", code), ("a.pcap", a), ("b.pcap", b)):
            put(folder, name, data)
        self.ran = {version: self.watch(version, more) for version in (2, 3)}
        self.ledgers = {version: read(folder, f"{version}.ledger") for version in (2, 3)}
        self.captures = {version: read(folder, f"{version}.capture") for version in (2, 3)}

    def path(self, name):
        return os.path.join(self.folder, name)

    def taps(self):
        return ["--a", self.path("a.pcap"), "--b", self.path("b.pcap")]

    def watch(self, version, more):
        words = ["watch", "--config", self.path("table.toml"), "--filter", self.path("filter"), *self.taps(), *more]
        words += ["--ledger", self.path(f"{version}.ledger"), "--capture", self.path(f"{version}.capture")]
        return run([*words, *(["--details"] if version == 3 else [])])

    def fault(self, lengths):
        """How the runs differ in more than the lengths."""
        plain, detailed = self.ran[2], self.ran[3]
        if (plain.returncode, plain.stderr) != (detailed.returncode, detailed.stderr):
            return f"status {plain.returncode} and {detailed.returncode}, {plain.stderr!r} and {detailed.stderr!r}"
        if self.captures[2] != self.captures[3]:
            return "another capture"
        wanted, found = with_lengths(self.ledgers[2], lengths).splitlines(), self.ledgers[3].splitlines()
        return next((f"{one!r}, not {other!r}" for one, other in zip(found, wanted) if one != other), "" if len(found) == len(wanted) else "more lines, or fewer")

    def edited(self, version, at, old, new, name="edited.ledger"):
        """The ledger of a version with another text in its line of this number, from 1. Its path."""
        lines = self.ledgers[version].splitlines(keepends=True)
        assert old in lines[at - 1], (old, lines[at - 1])
        lines[at - 1] = lines[at - 1].replace(old, new, 1)
        return put(self.folder, name, b"".join(lines))


class Details(Case):
    def of_each_class(self, **how):
        data, lengths = planted()
        return Run(self.folder, data, data, **how), {"A": lengths, "B": lengths}

    def test_each_class(self):
        """The length is that on the wire, of cut frames too, whatever the capture keeps."""
        for name, code in (("whole", EVERY), ("64 bytes", FIRST_64), ("none", "1,6 0 0 0,")):
            both, lengths = self.of_each_class(code=code)
            self.case(f"a frame of each class, {name} kept", both.fault(lengths))
        words = [line.split() for line in both.ledgers[3].decode().splitlines()[1:] if line[0].isdigit()]
        told = {(one[5], int(one[11])) for one in words}
        self.case("the classes of the lengths", "" if told == {*((cls, whole) for cls, _, whole, _ in EACH_CLASS), ("foreign", 70)} else f"{told}")

    def test_random(self):
        """Pairs of recordings with each word of a verdict, and with endings of all kinds, by 1, 2 and 8 workers."""
        for seed in range(CASES):
            chance = random.Random(seed)
            config, code, a, b = pairs.pair(chance)
            more = chance.choice(((), ("--workers", "1"), ("--workers", "8")))
            both = Run(self.folder, a, b, config, code, more)
            late = table_of(config).late
            lengths = {n: [whole for _, whole, _ in parse(data, late)[0]] for n, data in (("A", a), ("B", b))}
            if both.ran[2].returncode == SUCCESS:
                self.case(f"pair {seed}", both.fault(lengths))

    def test_cut(self):
        """Frames are cut by either version; lines come as they stand."""
        both, _ = self.of_each_class()
        for selection in ((), ("--verdict", "faults"), ("--network", "B"), ("--link", "5", "--around", "1")):
            cut = {version: run(["cut", "--ledger", both.path(f"{version}.ledger"), *both.taps(), *selection], stdout=subprocess.PIPE) for version in (2, 3)}
            same = cut[3].returncode == SUCCESS and cut[2].stdout == cut[3].stdout and len(cut[3].stdout) > 24
            self.case(f"frames cut by {selection}", "" if same else f"{cut[3].stderr!r}")
            words = [["cut", "--ledger", both.path(f"{version}.ledger"), "--ledger-only", *selection] for version in (2, 3)]
            plain, detailed = (run(one, stdout=subprocess.PIPE).stdout.splitlines(keepends=True) for one in words)
            taken = [line for line in both.ledgers[3].splitlines(keepends=True) if line.rpartition(b" ")[0] + b"\n" in plain]
            self.case(f"lines cut by {selection}", "" if detailed == taken and len(detailed) == len(plain) > 0 else f"{detailed}"[:300])

    def test_pcapng(self):
        """The comments of packets are those of version 2."""
        both, lengths = self.of_each_class(more=("--pcapng",))
        self.case("a capture as pcapng", both.fault(lengths))
        cut = [run(["cut", "--ledger", both.path(f"{version}.ledger"), *both.taps(), "--pcapng"], stdout=subprocess.PIPE).stdout for version in (2, 3)]
        self.case("a cut as pcapng", "" if cut[0] == cut[1] and len(cut[0]) > 100 else "another one")

    def refused(self, name, path, told):
        """`cut`, `cut --ledger-only` and `report` refuse the ledger alike."""
        folder = os.path.dirname(path)
        taps = ["--a", os.path.join(folder, "a.pcap"), "--b", os.path.join(folder, "b.pcap")]
        for command, words in (("cut", [*taps]), ("cut", ["--ledger-only"]), ("report", ["--config", os.path.join(folder, "table.toml")])):
            ran = run([command, "--ledger", path, *words], stdout=subprocess.PIPE)
            self.case(f"{name}: {command} {words[-1:]}", difference(ran, FAULT, f"afdxmon: {command} 1 Ledger at {told}"))

    def test_refusals(self):
        """A line with a field too few or too many, and lengths that are none, with the line's number."""
        both, _ = self.of_each_class()
        # That of A's frame of 60 bytes.
        at = 14
        line = both.ledgers[3].splitlines()[at - 1]
        assert line.endswith(b" 60"), line
        tail = line[-6:]
        cases = [("no length", tail, tail[:-3], "length"), ("two lengths", tail, tail + b" 60", "fields"), ("a space behind", tail, tail + b" ", "fields")]
        for text in (b"4294967296", b"99999999999999999999", b"060", b"+60", b"-", b"6 0", b"0x3c", b"60.", b"", b"sixty"):
            fault = "fields" if text == b"6 0" else "length"
            cases.append((f"length {text.decode()!r}", tail, tail[:-2] + text, fault))
        for name, old, new, fault in cases:
            self.refused(name, both.edited(3, at, old + b"\n", new + b"\n"), f"{at} {fault}")
        self.refused("version 2 with a length", both.edited(2, at, b"\n", b" 60\n"), f"{at} fields")
        self.refused("version 3 without lengths", both.edited(2, 1, HEADS[2], HEADS[3]), "2 length")
        self.refused("version 2 with lengths", both.edited(3, 1, HEADS[3], HEADS[2]), "2 fields")
        for head in (b"afdx-ledger 4\n", b"afdx-ledger 1\n", b"afdx-ledger 32\n", b"afdx-ledger  3\n", b"afdx-ledger 3 \n", b"afdx-ledger 3\r\n"):
            self.refused(f"the head {head!r}", both.edited(3, 1, HEADS[3], head), "1 head")

    def test_incomplete(self):
        """A ledger whose run was stopped: its whole lines count."""
        both, _ = self.of_each_class()
        lines = both.ledgers[3].splitlines(keepends=True)
        for lost in (1, 3, 4, len(lines[4]) - 1):
            path = put(self.folder, "part.ledger", b"".join(lines[:5])[:-lost])
            ran = run(["cut", "--ledger", path, "--ledger-only"], stdout=subprocess.PIPE)
            told = f"afdxmon: note: {path} ends within line 5: its run was stopped, or goes on; whole lines: 4"
            self.case(f"without its last {lost} bytes", difference(ran, SUCCESS, told, b"".join(lines[1:4])))

    def test_report(self):
        """Bytes and loads of each link and network are those of the lengths, without a filter that takes frames whole."""
        flight = sending(random.Random(9), 4 * SECOND, [(number, 8, periodic, networks) for number, networks in ((1, "AB"), (2, "AB"), (3, "A"))])
        judged = Judged(self.folder, flight)
        table, plain = judged.path["t.toml"], judged.path["v.ledger"]
        detailed = os.path.join(self.folder, "detailed.ledger")
        ran = run(["watch", "--config", table, *judged.taps, "--ledger", detailed, "--details"])
        self.case("a run without a filter", "" if ran.returncode == SUCCESS else f"{ran.stderr!r}")
        told = json.loads(run(["report", "--config", table, "--ledger", detailed, "--json"], stdout=subprocess.PIPE).stdout)
        sent = {n: [data for _, data in flight.taps[n]] for n in "AB"}
        for n in "AB":
            self.case(f"bytes of network {n}", self.unlike(told[n.lower()]["bytes"], sum(len(data) + 4 for data in sent[n])))
            loads = next((row["bins"] for row in told[n.lower()]["timeline"] if row["row"] == "load"), [])
            self.case(f"load of network {n}", self.unlike(sum(loads), sum(len(data) + 24 for data in sent[n])))
        for one in told["links"]:
            for n in "AB":
                own = [data for data in sent[n] if int.from_bytes(data[4:6], "big") == one["id"]]
                self.case(f"bytes of link {one['id']} on {n}", self.unlike(one[n.lower()]["bytes"], sum(len(data) + 4 for data in own)))
        self.case("sizes", "" if told["sizes"] is True else f"{told['sizes']}")
        self.case("all numbers", numbers_fault(table, detailed))
        page = run(["report", "--config", table, "--ledger", detailed], stdout=subprocess.PIPE).stdout.decode()
        self.case("the page", "" if "lengths on the wire" in page and "bits on the wire" in page else "it has no load")
        self.case("the page without sizes", "" if "bits on the wire" not in judged.report() else "it has loads")

    def unlike(self, found, wanted):
        return "" if found == wanted else f"{found}, not {wanted}"

    def test_same_report(self):
        """Beside the sizes, a report says what it does of version 2; and of whole frames what a filter that keeps them says."""
        data, lengths = planted()
        whole = f"filters = [{json.dumps(WHOLE)}]\n"
        both = Run(self.folder, data, data, TABLE)
        words = ["report", "--config", both.path("table.toml"), "--json", "--ledger"]
        told = [json.loads(run([*words, both.path(f"{version}.ledger")], stdout=subprocess.PIPE).stdout) for version in (2, 3)]
        found = [[{name: it for name, it in one.items() if name != "cut"} for one in it["findings"]] for it in told]
        self.case("the findings", self.unlike(found[1], found[0]))
        self.case("the counts", self.unlike(told[1]["counts"], told[0]["counts"]))
        self.case("all numbers, with cut frames", numbers_fault(both.path("table.toml"), both.path("3.ledger")))
        flight = sending(random.Random(10), 2 * SECOND, [(1, 8, periodic, "AB"), (2, 16, periodic, "AB")])
        judged = Judged(self.folder, flight, (WHOLE,))
        filtered = judged.json()
        self.case("a filter in the table", "" if whole.strip() in read(judged.path["t.toml"]).decode() else "it isn't there")
        detailed = os.path.join(self.folder, "whole.ledger")
        run(["watch", "--config", judged.path["t.toml"], *judged.taps, "--ledger", detailed, "--details"])
        found = json.loads(run(["report", "--config", judged.path["t.toml"], "--ledger", detailed, "--json"], stdout=subprocess.PIPE).stdout)
        for n in "ab":
            self.case(f"network {n}", self.unlike(found[n]["bytes"], filtered[n]["bytes"]))

    def test_part(self):
        """The lines that `cut --ledger-only` wrote are a part, of whatever version, and tell sizes."""
        both, lengths = self.of_each_class()
        part = put(self.folder, "part.ledger", run(["cut", "--ledger", both.path("3.ledger"), "--ledger-only", "--network", "A"], stdout=subprocess.PIPE).stdout)
        words = ["report", "--config", both.path("table.toml"), "--json", "--ledger"]
        for name, given in (("a file", None), ("a pipe", read(part))):
            ran = run([*words, part if given is None else "-"], stdout=subprocess.PIPE, input=given)
            told = json.loads(ran.stdout or b"{}")
            self.case(f"a part of {name}", self.unlike(told.get("a", {}).get("bytes"), sum(length + 4 for length in lengths["A"])) or f"{ran.stderr!r}" * (ran.returncode != SUCCESS))
        one = put(self.folder, "one.ledger", read(part).splitlines(keepends=True)[6])
        told = json.loads(run([*words, one], stdout=subprocess.PIPE).stdout or b"{}")
        self.case("a part of one line", self.unlike(told.get("a", {}).get("bytes"), 64))
        mixed = put(self.folder, "mixed.ledger", read(part) + both.ledgers[2].splitlines(keepends=True)[-12])
        ran = run([*words, mixed], stdout=subprocess.PIPE)
        self.case("lines of both versions", "" if ran.returncode == FAULT else f"status {ran.returncode}")

    def test_manifest(self):
        """The manifest's spans and sums are those of the ledger that is written."""
        both, _ = self.of_each_class()
        told = {}
        for version in (2, 3):
            words = ["--manifest", both.path("run.json"), "--digest"]
            both.watch(version, words)
            told[version] = json.loads(read(self.folder, "run.json"))
        size = os.path.getsize(both.path("3.ledger"))
        self.case("the ledger's bytes", self.unlike(told[3]["outputs"]["ledger"]["bytes"], size))
        for network in "ab":
            self.case(f"the span of {network}", self.unlike(told[3]["inputs"][network], told[2]["inputs"][network]))
        ran = run(["report", "--config", both.path("table.toml"), "--ledger", both.path("3.ledger"), "--manifest", both.path("run.json"), "--json"], stdout=subprocess.PIPE)
        self.case("a report by the manifest", difference(ran, SUCCESS, lambda text: True))

    def test_example_load(self):
        """The database of examples/fleet has the lengths, and one of an earlier version gets their column."""
        both, lengths = self.of_each_class()
        paths = [put(self.folder, f"flight{version}", "ledger", both.ledgers[version]) for version in (2, 3)]
        load = [os.path.join(TOP, "examples", "fleet", "load"), "--frames", both.path("flights.sqlite")]
        ran = subprocess.run([*load, *paths], capture_output=True)
        with sqlite3.connect(both.path("flights.sqlite")) as database:
            rows = database.execute("SELECT flight, network, number, length FROM frames ORDER BY 1, 2, 3").fetchall()
        wanted = [(f"flight{version}", n, at, lengths[n][at] if version == 3 else None) for version in (2, 3) for n in "AB" for at in range(len(lengths[n]))]
        self.case("a database", "" if rows == wanted and ran.returncode == 0 else f"{rows}, {ran.stderr!r}"[:300])
