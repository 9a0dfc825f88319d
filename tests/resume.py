"""`--resume-after-cut`: a recording goes on behind a file that ends within a packet, or has bytes that are no packet.

Which packets are whole is known from where a file is torn, so the ledger and the capture have to be those of a run over files that
have just these packets.
"""
import json
import os
import random
import subprocess

from tests.harness import EVERY, SUCCESS, Case, difference, frame, put, read, run
from tests.manifest import utc
from tests.several import lay, pcap, pcapng
from tests.watching import TABLE

CASES, MS, START = 40, 10**6, 1_800_000_000 * 10**9
CUT, DAMAGED = "ends within a packet", "has bytes that are no packet"


def sent(chance, count=60):
    """The packets of a recording: (timestamp, size on the wire, bytes)."""
    frames = [frame(chance.choice((5, 5, 9)), chance.choice((60, 100, 196, 1514)), number % 255 + 1) for number in range(count)]
    return [(START + number * MS + chance.randrange(MS // 2), len(data), data) for number, data in enumerate(frames)]


def pieces(chance, packets, most):
    """Packets in so many parts, none of them without one."""
    places = sorted(chance.sample(range(1, len(packets)), most - 1))
    return [packets[first:last] for first, last in zip([0, *places], [*places, len(packets)])]


def torn(chance, packets, how, form):
    """A file that is torn behind some of the packets, damaged behind one at least: its bytes, and how many packets are whole."""
    whole = chance.randrange(0 if how == CUT else 1, len(packets))
    made = (lambda some: pcapng(random.Random(3), some)) if form == "pcapng" else (lambda some: pcap(some, "<", 1))
    good, further = made(packets[:whole]), made(packets)
    behind = len(further) - len(good)
    if how == CUT:
        return further[: len(good) + chance.randrange(1, min(behind, 70))], whole
    noise = bytes(chance.randrange(64, 4096)) if chance.random() < 0.5 else b"\xff" * chance.randrange(64, 4096)
    return good + noise + further[len(good) :], whole


class Resume(Case):
    """Recordings in several files, some of them torn."""

    def watch(self, a, b, *more, name="run"):
        """A run over the files of both networks: how it ended, its ledger and its capture."""
        outputs = [os.path.join(self.folder, f"{name}.{kind}") for kind in ("ledger", "pcap")]
        words = ["watch", "--config", put(self.folder, "table.toml", TABLE), "--filter", put(self.folder, "every", EVERY)]
        ran = run([*words, "--a", *a, "--b", *b, "--ledger", outputs[0], "--capture", outputs[1], *more])
        return ran, [read(path) if os.path.exists(path) else b"" for path in outputs]

    def laid(self, name, files):
        return lay(self.folder, name, files)

    def one(self, seed):
        chance = random.Random(seed)
        a, b = sent(chance), sent(chance)
        files, whole, told = {"a": [], "b": []}, {"a": [], "b": []}, []
        for network, packets in (("a", a), ("b", b)):
            parts = pieces(chance, packets, chance.randrange(2, 6))
            for number, part in enumerate(parts):
                how = chance.choice((CUT, DAMAGED, None) if len(part) > 1 else (CUT, None)) if number + 1 < len(parts) else None
                form = chance.choice(("pcap", "pcapng"))
                if how is None:
                    files[network].append(pcap(part, "<", 1))
                    whole[network].append(files[network][-1])
                    continue
                data, count = torn(chance, part, how, form)
                files[network].append(data)
                whole[network].append(pcap(part[:count], "<", 1))
                told.append((network, number, how))
        paths = {network: self.laid(f"torn_{network}", files[network]) for network in "ab"}
        clean = {network: self.laid(f"whole_{network}", whole[network]) for network in "ab"}
        notes = [f"afdxmon: note: {paths[network][number]} {how}: the run goes on with the next file" for network, number, how in told]
        ran, outputs = self.watch(paths["a"], paths["b"], "--resume-after-cut")
        _, expected = self.watch(clean["a"], clean["b"], name="whole")
        said = [line for line in ran.stderr.decode().splitlines() if "goes on with the next file" in line]
        fault = difference(ran, SUCCESS, lambda text: said == notes)
        if not fault and outputs != expected:
            fault = f"the ledger or the capture is another than over the whole packets: {ran.args}"
        self.case(f"torn files {seed}", fault)

    def test_random(self):
        for seed in range(CASES):
            self.one(seed)

    def test_last_file(self):
        """The last file's end is the recording's: it is told as without the option."""
        chance = random.Random(5)
        a, b = sent(chance), pcap(sent(chance), "<", 1)
        parts = pieces(chance, a, 3)
        last = pcap(parts[2], "<", 1)[:-3]
        paths = self.laid("a", [pcap(parts[0], "<", 1), pcap(parts[1], "<", 1), last])
        with_option, outputs = self.watch(paths, self.laid("b", [b]), "--resume-after-cut")
        without, expected = self.watch(paths, self.laid("b", [b]), name="without")
        self.case("the same ledger", "" if outputs == expected else "another ledger")
        self.judge("the same notes", with_option, without.returncode, without.stderr.decode().rstrip("\n"))

    def test_without_header(self):
        """A file that ends within its header ends the recording: no note says that the run goes on."""
        chance = random.Random(8)
        a, b = sent(chance), pcap(sent(chance), "<", 1)
        parts = pieces(chance, a, 3)
        for held in (1, 10, 23):
            files = [pcap(parts[0], "<", 1), pcap(parts[1], "<", 1)[:held], pcap(parts[2], "<", 1)]
            paths, of_b = self.laid("headless", files), self.laid("b", [b])
            manifest = os.path.join(self.folder, "run.json")
            ran, (ledger, _) = self.watch(paths, of_b, "--resume-after-cut", "--manifest", manifest)
            ended = f"tap A bad {len(parts[0])} nextfile" in ledger.decode().splitlines()
            lists = json.loads(read(manifest))["inputs"]["a"]["torn"]
            told = [line for line in ran.stderr.decode().splitlines() if "goes on" in line]
            self.case(f"{held} bytes of a header", "" if ended and not lists and not told else f"{ended}, {lists}, {told}: {ran.args}")

    def test_without_option(self):
        """Without the option a torn file ends the recording, as it always did."""
        chance = random.Random(6)
        a, b = sent(chance), pcap(sent(chance), "<", 1)
        parts = pieces(chance, a, 3)
        paths = self.laid("a", [pcap(parts[0], "<", 1)[:-3], pcap(parts[1], "<", 1), pcap(parts[2], "<", 1)])
        ran, (ledger, _) = self.watch(paths, self.laid("b", [b]))
        ended = [line for line in ledger.decode().splitlines() if line.startswith("tap A ")]
        self.case("cut", "" if ended == [f"tap A cut {len(parts[0]) - 1}"] else f"{ended}")

    def test_many(self):
        """Sixteen torn files are named, and the others counted."""
        chance = random.Random(7)
        packets, b = sent(chance), pcap(sent(chance), "<", 1)
        files = [pcap(packets[:1], "<", 1)] + [pcap([one, one], "<", 1)[:-1] for one in packets[1:21]] + [pcap(packets[21:], "<", 1)]
        paths = self.laid("many", files)
        ran, (ledger, _) = self.watch(paths, self.laid("b", [b]), "--resume-after-cut", "--late-us", "1000000")
        said = ran.stderr.decode().splitlines()
        named = [line for line in said if "goes on with the next file" in line]
        self.case("sixteen are named", "" if len(named) == 16 else f"{said}")
        self.case("four more", "" if "afdxmon: note: 4 more files end so" in said else f"{said}")


STEP, LATER = 8 * MS, "the run goes on with the next file"
LINKS = """constant = 50331648
[[link]]
id = 5
name = "brake"
bag_ms = 8
jitter_us = 500
smax = 1518
integrity = true
redundancy = true
skew_us = 2000
[[link]]
id = 9
name = "flap"
bag_ms = 8
jitter_us = 500
smax = 1518
integrity = true
redundancy = true
skew_us = 2000
"""


def periodic(count=500, late=0):
    """Two links with a frame each 8 ms, as one network has them."""
    for number in range(count):
        for place, link in enumerate((5, 9)):
            data = frame(link, 100, (number - 1) % 255 + 1 if number else 0)
            yield START + number * STEP + place * MS + number * 7919 % 5003 + late, len(data), data


class TornFlight(Case):
    """A flight of two periodic links: one file of A is torn, so that A lacks the frames of a known time."""

    def setUp(self):
        super().setUp()
        a, b = list(periodic()), list(periodic(late=100_000))
        # The second of three files loses its last 30 packets, and the next one's bytes with them.
        self.parts = [a[:300], a[300:600], a[600:]]
        self.whole = [self.parts[0], self.parts[1][:270], self.parts[2]]
        second = pcap(self.whole[1], "<", 1) + pcap(self.parts[1][270:271], "<", 1)[24:-1]
        self.a = lay(self.folder, "torn", [pcap(self.parts[0], "<", 1), second, pcap(self.parts[2], "<", 1)])
        self.clean = lay(self.folder, "whole", [pcap(part, "<", 1) for part in self.whole])
        self.b = lay(self.folder, "b", [pcap(b, "<", 1)])
        self.table = put(self.folder, "links.toml", LINKS)
        self.last, self.next = self.whole[1][-1][0], self.parts[2][0][0]

    def path(self, name):
        return os.path.join(self.folder, name)

    def watched(self, *more, a=None):
        words = ["watch", "--config", self.table, "--a", *(a or self.a), "--b", *self.b, "--ledger", self.path("run.ledger")]
        return run([*words, "--manifest", self.path("run.json"), *more])

    def same(self, name, words, of_torn, of_whole, *more):
        """A command says of the torn files, with the option, what it says of their whole packets."""
        torn = run([*words, *of_torn, *more, "--resume-after-cut"], stdout=subprocess.PIPE)
        whole = run([*words, *of_whole, *more], stdout=subprocess.PIPE)
        expected = whole.stdout.replace(b"/whole_", b"/torn_")
        fits = torn.stdout == expected and torn.returncode == whole.returncode == 0
        self.case(name, "" if fits else f"{torn.returncode}, {torn.stdout[:300]}, not {expected[:300]}: {torn.args}")

    def test_strict(self):
        note = f"afdxmon: note: {self.a[1]} {CUT}: {LATER}"
        self.judge("strict, torn", self.watched("--resume-after-cut", "--strict"), 3, note)
        self.judge("not strict, torn", self.watched("--resume-after-cut"), 0, note)
        self.judge("strict, whole", self.watched("--resume-after-cut", "--strict", a=self.clean), 0, "")

    def test_manifest(self):
        self.watched("--resume-after-cut")
        torn = json.loads(read(self.path("run.json")))["inputs"]["a"]["torn"]
        stamps = {"last": str(self.last), "last_utc": utc(self.last), "next": str(self.next), "next_utc": utc(self.next)}
        self.case("the torn file", "" if torn == [{"path": self.a[1], "how": "cut", **stamps}] else f"{torn}")
        of_b = json.loads(read(self.path("run.json")))["inputs"]["b"]["torn"]
        self.case("none of B", "" if of_b is None else f"{of_b}")

    def reported(self, *more):
        words = ["report", "--config", self.table, "--ledger", self.path("run.ledger"), "--json", "-o", self.path("report.json"), *more]
        ran = run(words)
        self.judge("report", ran, 0, "")
        return json.loads(read(self.path("report.json")))["findings"]

    def test_report(self):
        """By the manifest the numbers that are missing there are the recorder's; without it they look like a silence of A."""
        self.watched("--resume-after-cut")
        found = self.reported("--manifest", self.path("run.json"))
        of_torn = [one for one in found if one["kind"] == "recording torn"]
        missing = 30
        fits = len(of_torn) == 1 and of_torn[0]["count"] == missing and of_torn[0]["networks"] == "A" and of_torn[0]["level"] == "notice"
        self.case("one finding of 30 numbers", "" if fits else f"{of_torn}")
        others = [one["kind"] for one in found if one["kind"] != "recording torn" and one["level"] != "info"]
        self.case("no other finding", "" if others == [] else f"{others}")
        without = [one["kind"] for one in self.reported()]
        self.case("without the manifest", "" if "recording torn" not in without and without != [] else f"{without}")

    def test_cut(self):
        self.watched("--resume-after-cut")
        words = ["cut", "--ledger", self.path("run.ledger"), "--link", "9", "-o", "-"]
        self.same("cut", words, ["--a", *self.a, "--b", *self.b], ["--a", *self.clean, "--b", *self.b])
        ran = run([*words, "--a", *self.a, "--b", *self.b], stdout=subprocess.PIPE)
        self.judge("cut without the option", ran, 1, lambda text: text.startswith("afdxmon: cut "))

    def test_links(self):
        self.same("links", ["links"], ["--a", *self.a, "--b", *self.b], ["--a", *self.clean, "--b", *self.b])

    def test_check(self):
        words = ["check", "--config", self.table, "--a", *self.a, "--b", *self.b, "--resume-after-cut"]
        ran = run(words, stdout=subprocess.PIPE)
        lines = ran.stdout.decode().splitlines()
        fits = ran.returncode == 1 and f"fault: of network A {self.a[1]} {CUT}" in lines and lines[-1] == "sound: no, 1 fault and 0 questions"
        self.case("check", "" if fits else f"{ran.returncode} {lines}: {ran.args}")
        answer = json.loads(run([*words, "--json"], stdout=subprocess.PIPE).stdout)
        fits = answer["a"]["torn"] == [{"path": self.a[1], "how": "cut"}] and answer["b"]["torn"] == [] and answer["sound"] is False
        self.case("check, as JSON", "" if fits else f"{answer['a']} {answer['b']}")

    def test_transit(self):
        words = ["transit", "--config", self.table]
        self.same("transit", words, ["--before", *self.a, "--after", *self.b], ["--before", *self.clean, "--after", *self.b], "--json")

    def test_transit_cut(self):
        """By a ledger of transits: the frames of the torn files' whole packets, and none without the option."""
        ledger, sides = self.path("transit.ledger"), ["--before", *self.a, "--after", *self.b]
        run(["transit", "--config", self.table, "--before", *self.clean, "--after", *self.b, "--ledger", ledger], stdout=subprocess.PIPE)
        words = ["cut", "--ledger", ledger, "-o", "-"]
        for more in ((), ("--verdict", "new"), ("--link", "9", "--pcapng")):
            self.same(f"cut by transits {' '.join(more)}", words, sides, ["--before", *self.clean, "--after", *self.b], *more)
        whole = sorted([one for part in self.whole for one in part] + list(periodic(late=100_000)), key=lambda one: one[0])
        ran = run([*words, *sides, "--resume-after-cut"], stdout=subprocess.PIPE)
        self.case("cut by transits, each frame", "" if ran.stdout == pcap(whole, "<", 1) else f"{len(ran.stdout)} bytes; the command: {ran.args}")
        ran = run([*words, *sides], stdout=subprocess.PIPE)
        self.judge("cut by transits without the option", ran, 1, lambda text: text.startswith("afdxmon: cut 3 Absent at "))

    def test_first_packet(self):
        """A file whose first packet is noise is no file out of order."""
        for name, noise in (("zeros", bytes(160)), ("ones", b"\xff" * 160)):
            files = [pcap(self.parts[0], "<", 1), pcap([], "<", 1) + noise, pcap(self.parts[2], "<", 1)]
            paths = lay(self.folder, name, files)
            ran = self.watched("--resume-after-cut", a=paths)
            self.judge(f"a first packet of {name}", ran, 0, f"afdxmon: note: {paths[1]} {DAMAGED}: {LATER}")
