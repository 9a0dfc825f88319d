"""Tests of the summary that `watch` ends with at a terminal or with --verbose: whole, with each hint, and nowhere else."""
import os
import re
import subprocess
import zlib

from tests.analyser import watch
from tests.harness import EVERY, SUCCESS, TOP, difference, frame, header, read, record, run_at_terminal
from tests.texts import advice_on_ending
from tests.watching import LINK_5, TABLE, AtADesk, notes_on, tap

DISCARDS = ("cut", "runt", "oversize", "foreign", "unconfigured", "toolong", "excess", "out")
MS = 10**6


def worst_of(rows):
    """The line on the links with the most discards, at most five of those that have any."""
    found = []
    for row in rows:
        if row[0] == "link":
            count = dict(zip(row[3::2], map(int, row[4::2])))
            reasons = [f"{count[word]} {word}" for word in ("toolong", "excess", "out") if count[word]]
            discards = sum(count[word] for word in ("toolong", "excess", "out"))
            found.append((-discards, int(row[1]), f"{row[1]} {row[2]} ({', '.join(reasons)})"))
    worst = [link for discards, _, link in sorted(found)[:5] if discards]
    return f"afdxmon: summary: worst links: {', '.join(worst)}\n" if worst else ""


def summary_of(ledger, hint):
    """The summary of a run that wrote this ledger."""
    rows = [line.split() for line in ledger.decode().splitlines()]
    total = next(row for row in rows if row[0] == "total")
    count = dict(zip(total[1::2], total[2::2]))
    taps = {row[1]: row[3] for row in rows if row[0] == "tap"}
    discards = ", ".join(f"{name} {count[name]}" for name in DISCARDS)
    return (
        f"afdxmon: summary: frames {count['frames']}, delivered {count['delivered']}, copies {count['copy']}, "
        f"accepted {count['accepted']}; of network A {taps['A']}, of network B {taps['B']}\n"
        f"afdxmon: summary: discarded {discards}\n" + (f"afdxmon: hint: {hint}\n" if hint else "") + worst_of(rows)
    )


FOREIGN = "nearly all frames are foreign: is the table's 'constant' that of this network?"
TOO_LONG = "nearly all frames are too long: does 'smax' count a frame without its check sequence?"
NO_COPY = "no frame is a copy of another: are the clocks of the taps apart?"
NUMBERS = "more than one frame in eight is out: does a recording hold check sequences, both networks, or each frame twice? afdxmon check tells"
REPEATS = "more than one frame in four is excess: does a recording hold both networks, or each frame twice (afdxmon check tells), or is a bag_ms of the table too long?"
OTHER_TABLE = "more than half of the frames are unconfigured: is the table that of another aircraft?"
CUT_FRAMES = "more than one frame in a hundred is cut short: record frames whole, tcpdump -s 0"
FEW_COPIES = "hardly a frame is a copy of another: do the clocks of the taps drift? afdxmon check tells"
ONE_RECORDING = "each frame has its copy: are --a and --b two names of one recording?"


def frames(count, start=0, size=60, first=0):
    """So many frames of link 5, one each 2 ms, with sequence numbers that go on from `first`."""
    return [(start + i * 2 * MS, frame(5, size, (first + i) % 255 + 1)) for i in range(count)]


def checked(frames):
    """The frames with their check sequences."""
    return [(stamp, data + zlib.crc32(data).to_bytes(4, "little")) for stamp, data in frames]


def tap_of(note):
    """The option of the recording that a note is on."""
    return re.search(r"of network ([AB])", note)[1].lower()


class Summaries(AtADesk):
    def summed(self, name, config, a, b, hint):
        """A run at a terminal, where --quiet leaves the notes alone but --verbose asks for all, and in a pipe with --verbose."""
        expected = watch(config, EVERY, a, b)
        ledger = expected.lines + expected.summary
        notes = notes_on(ledger, {"A": a, "B": b})
        told = "".join(f"{note}\n{self.desk.paths[tap_of(note)]}: {advice_on_ending(note)}\n" for note in notes.splitlines())
        summary = told + summary_of(ledger, hint)
        for more, whole in (((), summary), (("--quiet",), told), (("--quiet", "--verbose"), summary)):
            self.desk.lay(config=config, filter=EVERY, a=a, b=b)
            ran = run_at_terminal([*self.desk.arguments(), *more], stdin=subprocess.DEVNULL)
            fault = "" if (ran.returncode, ran.stderr, ran.stdout) == (SUCCESS, whole, b"") else f"status {ran.returncode}, {ran.stderr!r}, not {whole!r}"
            left = self.desk.compared("capture", expected.capture) or self.desk.compared("ledger", ledger)
            self.case(" ".join(["watch: the summary", *more, "of", name]), fault or left)
        for more in ((), ("--quiet",)):
            self.desk.lay(config=config, filter=EVERY, a=a, b=b)
            ran = self.desk.watch("--verbose", *more)
            self.case(" ".join(["watch: the summary in a pipe --verbose", *more, "of", name]), difference(ran, SUCCESS, lambda text: text == summary, b""))
        self.desk.lay(config=config, filter=EVERY, a=a, b=b)
        self.case(f"watch: --quiet in a pipe, of {name}", difference(self.desk.watch("--quiet"), SUCCESS, notes, b""))

    def test_worst(self):
        """Links with discards of each kind: fewer than are told, more of them, as many of several, the last of many links."""

        def table(names):
            return TABLE.partition("\n")[0] + "\n" + "".join(LINK_5.replace("= 5", f"= {link}").replace("brake", name) for link, name in names.items())

        def late(link, excess, out=0, toolong=0):
            """Frames of a link, so many of which exceed its account, come out of sequence and are too long."""
            whole = [(link * 10**9 + i * 2 * MS, frame(link, 60, i + 1)) for i in range(3)]
            whole += [(link * 10**9 + 4 * MS + 1 + i, frame(link, 60, 4)) for i in range(excess)]
            whole += [(link * 10**9 + (10 + i) * MS, frame(link, 60, 100 if i % 2 else 200)) for i in range(out)]
            return whole + [(link * 10**9 + (50 + i) * MS, frame(link, 300, 4)) for i in range(toolong)]

        few = {7: "x" * 32, 9: "flap_2", 10: "fuel"}
        desks = late(7, 3) + late(9, 0, 2, 1) + late(10, 0)
        self.summed("three links", table(few), tap(*desks), tap(), NUMBERS)
        seven = {link: f"link_{link}" for link in range(1, 8)}
        more = sum((late(link, excess, 0, toolong) for link, excess, toolong in zip(seven, (1, 4, 2, 2, 0, 3, 1), (1, 0, 0, 0, 2, 1, 0))), [])
        self.summed("seven links", table(seven), tap(*more), tap(), None)
        many = {link: f"link_{link:027}" for link in range(1, 4097)}
        last = sum((late(link, link % 7) for link in (1, 500, 700, 1301, 2000, 2901, 4000, 4096)), [])
        self.summed("4096 links", table(many), tap(*last), tap(), None)

    def test_summed(self):
        foreign = "constant = 117440512\n" + LINK_5
        other = TABLE + LINK_5.replace("= 5", "= 6").replace("brake", "flaps")
        short = TABLE.replace("smax = 200", "smax = 64")
        sound, late = frames(20), frames(19, start=100)
        day = frames(20, start=86_400 * 10**9)
        # A frame of another class in each ten, so that nine in ten are foreign or too long, and then one less.
        few = [(stamp, b"\4" + data[1:]) for stamp, data in frames(9)]
        self.summed("two taps of which one lost a frame", TABLE, tap(*sound), tap(*late), None)
        self.summed("a tap that is empty", TABLE, tap(*sound), tap(), None)
        self.summed("two empty taps", TABLE, tap(), tap(), None)
        self.summed("a truncated tap", TABLE, tap(*sound)[:-1], tap(*late), None)
        self.summed("another constant", foreign, tap(*sound), tap(*sound), FOREIGN)
        self.summed("nine foreign frames in ten", other, tap(*few, (10**9, frame(5, 60, 1))), tap(), FOREIGN)
        self.summed("nine foreign frames in eleven", other, tap(*few, *frames(2, start=10**9)), tap(), None)
        self.summed("frames over Smax", short, tap(*frames(20, size=120)), tap(*frames(20, size=120)), TOO_LONG)
        for unlisted, listed, hint in ((20, 20, None), (21, 20, OTHER_TABLE), (20, 0, OTHER_TABLE)):
            strange = [(stamp, frame(77, 60, 1)) for stamp, _ in frames(unlisted, start=10**9)]
            self.summed(f"{unlisted} frames of {unlisted + listed} that the table lacks", TABLE, tap(*frames(listed), *strange), tap(), hint)
        for cut, count, hint in ((1, 100, None), (2, 100, CUT_FRAMES), (1, 99, CUT_FRAMES), (2, 200, None), (3, 200, CUT_FRAMES)):
            held = header() + b"".join(
                record(stamp, data[: 50 if k < cut else 60], original=60) for k, (stamp, data) in enumerate(frames(count)))
            self.summed(f"{cut} cut frames of {count}", TABLE, held, tap(), hint)
        for held, out, hint in ((21, 3, None), (20, 3, NUMBERS), (5, 10, NUMBERS)):
            jumps = [(10**9 + i * 2 * MS, frame(5, 60, 100 if i % 2 else 200)) for i in range(out)]
            self.summed(f"{out} frames of {held + out} that are out", TABLE, tap(*frames(held), *jumps), tap(), hint)
        # The account has credit for two of the frames that come again.
        for held, excess, hint in ((13, 5, None), (13, 6, REPEATS), (12, 5, REPEATS)):
            again = [(stamp + 1 + i, data) for i in range(2 + excess) for stamp, data in frames(held)[-1:]]
            self.summed(f"{excess} frames of {held + 2 + excess} that are excess", TABLE, tap(*frames(held), *again), tap(), hint)
        both = sorted(sound + frames(20, start=1000), key=lambda one: one[0])
        self.summed("both networks in one recording", TABLE, tap(*both), tap(), NUMBERS)
        self.summed("frames recorded twice", TABLE, tap(*both), tap(*both), NUMBERS)
        self.summed("check sequences in network B's recording", TABLE, tap(*sound), tap(*checked(sound)), NUMBERS)
        self.summed("taps a day apart", TABLE, tap(*sound), tap(*day), NO_COPY)
        for copies, count, hint in ((3, 64, FEW_COPIES), (4, 64, None), (4, 79, None), (4, 80, FEW_COPIES)):
            near = [one if i < copies else (one[0] + 86_400 * 10**9, one[1]) for i, one in enumerate(frames(count))]
            self.summed(f"{copies} copies of {count} frames", TABLE, tap(*frames(count)), tap(*near), hint)
        self.summed("one recording twice", TABLE, tap(*sound), tap(*sound), ONE_RECORDING)
        self.summed("each frame with its copy a nanosecond later", TABLE, tap(*sound), tap(*frames(20, start=1)), None)
        self.summed("one recording and its start", TABLE, tap(*sound), tap(*sound)[:-1], None)
        self.summed("one recording, and a frame of another link", TABLE, tap(*sound), tap(*sound, (10**9, frame(77, 60, 1))), None)
        example = [read(os.path.join(TOP, "examples", "flight" + end)) for end in (".toml", "_a.pcap", "_b.pcap")]
        self.summed("the flight of examples", example[0].decode(), *example[1:], None)
