"""What a report says of flights in which one thing is wrong, by its words: the numbers in them are known from what was planted.

The signs and kinds of such findings are those of tests/findings.py. Here stand the sentences, and what must not be told.
"""
import json
import os
import random
import shlex
import struct
import subprocess

from tests import faults, plants
from tests import sender_faults as senders
from tests.findings import told, zones
from tests.harness import PROGRAM, SUCCESS, Case, read, run
from tests.plants import START, Frame, World

SECOND, MS = 10**9, 10**6


class Tellings(Case):
    """A flight of 12 links each 32 ms for 20 s, with one fault."""

    def world(self, name, **flight):
        world = World(name, plants.even_flight(random.Random(f"flight of {name}"), **flight), (0, 0))
        world.zone = zones(world.flight.end, 1)[0]
        return world

    def told(self, world):
        self.written, ran = world.flight.write(self.folder)
        self.assertIn(ran.returncode, (0, 1), ran.stderr)
        return told(*self.written).findings

    def report(self, *more):
        """What is told of the flight that was written last, by these options."""
        words = ["report", "--config", self.written.table, "--ledger", self.written.ledger, "--json", *more]
        return json.loads(run(words, stdout=subprocess.PIPE).stdout)["findings"]

    def says(self, name, found, kind, text):
        """A case: one finding is of this kind, and says this."""
        texts = [one["text"] for one in found if one["kind"] == kind]
        self.case(name, "" if len(texts) == 1 and text in texts[0] else f"{text!r}, not {texts}")

    def test_both_networks(self):
        """Of numbers that are missing on both networks it is told how many on each, and how many on both."""
        for size in (8, 20):
            world = self.world(f"absent for {size}")
            faults.absent_on_both(world, size=size).finish()
            text = f": {size} on A, {size} on B, {size} of them on both"
            self.says(f"{size} numbers", self.told(world), "absent", f"{2 * size} numbers are missing{text}")

    def test_silence(self):
        """A silence of both networks, by how many numbers each link lacks."""
        world = self.world("silence of both")
        kept = {n: {s.id: len(s.lanes[n]) for s in world.flight.senders} for n in "AB"}
        faults.silence(world, networks="AB", size=SECOND).finish()
        lost = [sum(kept[n].values()) - sum(len(s.lanes[n]) for s in world.flight.senders) for n in "AB"]
        found = [one for one in self.told(world) if one["kind"] == "silence"]
        fits = len(found) == 1 and f"of 12 links are missing: {lost[0]} on A, {lost[1]} on B, " in found[0]["text"]
        self.case("a second", "" if fits else f"{lost}, not {[one['text'] for one in found]}")

    def test_resets(self):
        """A reset that both networks show is one."""
        for times in (1, 3):
            world = self.world(f"{times} resets")
            senders.reset(world, times=times).finish()
            found = [one for one in self.told(world) if one["kind"] == "reset"]
            fits = [one["count"] for one in found] == [times] and f"number 0 {times} time{'s' if times > 1 else ''}," in found[0]["text"]
            self.case(f"{times} times", "" if fits else f"{[(one['count'], one['text']) for one in found]}")

    def test_outside(self):
        """Of links outside the table those with the most frames are named first."""
        world = self.world("links outside")
        counts = {**{number: 1 for number in range(900, 909)}, 950: 40, 949: 7}
        for place, (number, count) in enumerate(counts.items()):
            for again in range(count):
                data = bytes.fromhex("03000000") + struct.pack(">H", number) + bytes(94)
                world.flight.strange["A"].append((START + 5 * SECOND + place * MS + again * 20 * MS, data, 100))
        self.says("the most first", self.told(world), "unconfigured", "(unconfigured): link 950 (40), link 949 (7), link 900 (1), ")

    def test_no_common_time(self):
        """No frame is late where one recording begins after the other has ended."""
        for later in "AB":
            world = self.world(f"apart in time {later}")
            for sender in world.flight.senders:
                for frame in sender.lanes[later]:
                    frame.stamp += 61 * SECOND
            found = self.told(world)
            late = [one["text"] for one in found if one["kind"] == "late" or "late" in one["text"] and "begins" not in one["text"]]
            begins = [one["text"] for one in found if one["kind"] == "recorder starts late"]
            fits = not late and len(begins) == 1 and begins[0].startswith(f"Recording {later} begins 61 s after the other")
            self.case(f"{later} a minute later", "" if fits else f"{late} {begins}")

    def test_extra_frames(self):
        """A link that has more frames on one network goes on on the other to the end: it doesn't stop there."""
        for n, other in (("A", "B"), ("B", "A")):
            world = self.world(f"more frames on {n}")
            sender = world.take(1)[0]
            lane, half = sender.lanes[n], len(sender.lanes[n]) // 2
            more = [Frame(frame.place, 0, frame.stamp + 16 * MS, frame.size) for frame in lane[half:]]
            sender.lanes[n] = sorted(lane + more, key=lambda frame: frame.stamp)
            for place, frame in enumerate(sender.lanes[n][half:]):
                frame.number = (lane[half - 1].number + place) % 255 + 1
            stops = [one["text"] for one in self.told(world) if one["kind"] in ("stops", "stops on")]
            self.case(f"{len(more)} frames more on {n}", "" if not stops else f"{other} has the link to the end: {stops}")

    def test_parts(self):
        """Of a part of a ledger, and of one that was stopped, it isn't told where recordings begin and end."""
        world = self.world("B silent")
        faults.silence(world, networks="B", size=4 * SECOND).finish()
        silent = next(one for one in self.told(world) if one["kind"] == "silence")
        inside = silent["from"] + SECOND
        part = self.report("--from", str(inside))
        self.says("from within a silence", part, "recorder starts late", "Network B has no frame in the first ")
        part = self.report("--to", str(silent["to"] - SECOND))
        self.says("to within a silence", part, "recorder ends early", "Network B has no frame in the last ")
        part = self.report("--from", str(inside), "--to", str(silent["to"] - SECOND))
        self.says("within a silence", part, "no frames", "Network B has no frame in the part")
        lines = read(self.written.ledger).split(b"\n")
        whole = sum(int(line.split(b" ", 1)[0]) < silent["to"] - SECOND for line in lines if line[:1].isdigit())
        with open(self.written.ledger, "wb") as out:
            out.write(b"\n".join(lines[: 1 + whole]) + b"\n")
        self.says("stopped", self.report(), "recorder ends early", "Network B has no frame in the last ")

    def test_cut(self):
        """The command that a finding has cuts its frames, of a recording in several files too."""
        world = self.world("lost frames")
        faults.lost(world, n="A", links=1, frames=5).finish()
        self.told(world)
        taps = []
        for n in "ab":
            data = read(os.path.join(self.folder, f"{n}.pcap"))
            at, half = 24, len(data) // 2
            while at < half:
                at += 16 + struct.unpack_from("<I", data, at + 8)[0]
            paths = [os.path.join(self.folder, f"{n}{part}.pcap") for part in (1, 2)]
            for path, some in zip(paths, (data[:at], data[:24] + data[at:])):
                with open(path, "wb") as out:
                    out.write(some)
            taps += [f"--{n}", *paths]
        manifest = os.path.join(self.folder, "run.json")
        ran = run(["watch", "--config", self.written.table, *taps, "--ledger", self.written.ledger, "--manifest", manifest])
        self.judge("two files each", ran, SUCCESS, "")
        lost = next(one for one in self.report("--manifest", manifest) if one["kind"] == "lost")
        words = shlex.split(lost["cut"])
        ran = subprocess.run([PROGRAM, *words[1:]], cwd=self.folder, capture_output=True)
        cut = read(os.path.join(self.folder, "finding.pcap")) if ran.returncode == 0 else b""
        self.case("its frames", "" if words[0] == "afdxmon" and len(cut) > 24 else f"{ran.returncode} {ran.stderr!r}: {lost['cut']}")
