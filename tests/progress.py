"""Tests of the line that shows at a terminal how far a command has read: what it says, how often, and that it is gone."""
import os
import pty
import re
import subprocess
import threading
import time

from tests.analyser import watch
from tests.harness import EVERY, PROGRAM, SUCCESS, frame, header, recording, shown
from tests.summaries import OTHER_TABLE, summary_of
from tests.watching import TABLE, AtADesk, tap

LINE = re.compile(r"afdxmon: (?:A (\d+) %, )?(?:B (\d+) %, )?(\d+) (frames|bytes), (\d+) a second")


class Screen:
    """A terminal as standard error: all that is written to it, with the time of each piece."""

    def __init__(self):
        self.ours, self.theirs = pty.openpty()
        self.pieces = []
        self.reader = threading.Thread(target=self.read, daemon=True)

    def read(self):
        while True:
            try:
                piece = os.read(self.ours, 65536)
            except OSError:
                return  # nobody has it open any more
            self.pieces.append((time.monotonic(), piece.decode("utf-8", "replace")))

    def run(self, arguments, feed, **how):
        """Runs a command while `feed` gives it what it waits for. Its status, and all that the terminal got."""
        child = subprocess.Popen([PROGRAM, *arguments], stdout=subprocess.PIPE, stderr=self.theirs, **how)
        os.close(self.theirs)
        self.reader.start()
        feed()
        self.out = child.communicate(timeout=60)[0]
        self.reader.join(60)
        os.close(self.ours)
        return child.returncode, "".join(text for _, text in self.pieces).replace("\r\n", "\n")


def slowly(path, *pieces):
    """What writes these pieces to a pipe, with a pause before each but the first in which the line becomes due."""

    def feed():
        with open(path, "wb", buffering=0) as out:
            out.write(pieces[0])
            for piece in pieces[1:]:
                time.sleep(0.8)
                out.write(piece)

    return feed


class Progress(AtADesk):
    def judged(self, name, told, expected, last):
        """The lines that came, of which the last says this, and what is left on the screen."""
        lines = [match.groups() for match in LINE.finditer(told)]
        if shown(told) != expected:
            return self.case(name, f"the screen shows {shown(told)!r}, not {expected!r}")
        if not lines or lines[-1][:4] != last:
            return self.case(name, f"the lines are {lines}, the last not {last}")
        count = int(last[2])
        # It came between 0.8 and 5 seconds after the start, for each piece that was waited for.
        rate = int(lines[-1][4])
        return self.case(name, "" if count // 10 <= rate <= count * 2 else f"{rate} {last[3]} a second of {count}")

    def test_networks(self):
        """`watch` with one recording in a file and one that comes by a pipe, in both byte orders. When its end comes, all before is judged."""
        few = tap(*((i, frame(5, 60, i % 255 + 1)) for i in range(100)))
        pipe = os.path.join(self.desk.directory, "pipe")
        os.mkfifo(pipe)
        for layout, unit in (("<", 1), (">", 1), ("<", 1000), (">", 1000)):
            many = recording(1001, layout, unit, sizes=(60, 300))
            cut = len(many) - 40
            expected = watch(TABLE, EVERY, many, few)
            summary = summary_of(expected.lines + expected.summary, OTHER_TABLE)
            for quiet in (False, True):
                self.desk.lay(config=TABLE, filter=EVERY, b=few)
                arguments = self.desk.arguments(a=pipe) + ["--quiet"] * quiet
                status, told = Screen().run(arguments, slowly(pipe, many[:cut], many[cut:]), stdin=subprocess.DEVNULL)
                name = f"progress of watch{' --quiet' * quiet}, byte order {layout}, unit {unit}"
                if quiet:
                    self.case(name, "" if (status, told) == (SUCCESS, "") else f"status {status}, {told!r}")
                else:
                    self.judged(name, told, summary, (None, "100", "1100", "frames"))
                ledger = expected.lines + expected.summary
                self.case(f"{name}: its outputs", self.desk.compared("capture", expected.capture) or self.desk.compared("ledger", ledger))
        os.remove(pipe)

    def test_seldom(self):
        """At most two lines a second, however often there is something to read."""
        frames = [frame(5, 60, i % 255 + 1) for i in range(150)]
        pieces = [tap(*((i, data) for i, data in enumerate(frames)))]
        pipe = os.path.join(self.desk.directory, "often")
        os.mkfifo(pipe)

        def feed():
            with open(pipe, "wb", buffering=0) as out:
                whole = pieces[0]
                out.write(whole[:24])
                for at in range(24, len(whole), 76):
                    time.sleep(0.02)
                    out.write(whole[at : at + 76])

        self.desk.lay(config=TABLE, filter=EVERY)
        screen, begun = Screen(), time.monotonic()
        status, told = screen.run(self.desk.arguments(a=pipe, b=None), feed, stdin=subprocess.DEVNULL)
        most = (time.monotonic() - begun) / 0.5
        count = len(LINE.findall(told))
        self.case("progress: at most two lines a second", "" if status == SUCCESS and 2 <= count <= most else f"status {status}, {count} lines, at most {most}")
        os.remove(pipe)

    def test_session(self):
        """`debug` shows it while it reads its recording, before it answers."""
        pipe = os.path.join(self.desk.directory, "session")
        os.mkfifo(pipe)
        self.desk.lay(filter=EVERY)
        whole = header() + tap(*((i, frame(5, 60, 1)) for i in range(300)))[24:]
        screen = Screen()
        arguments = ["debug", "--filter", self.desk.paths["filter"], "--tap", pipe]
        status, told = screen.run(arguments, slowly(pipe, whole[:-10], whole[-10:]), stdin=subprocess.DEVNULL)
        if (status, screen.out) != (SUCCESS, b"frames 300\n"):
            self.case("progress of debug: its answer", f"status {status}, {screen.out!r}")
        self.judged("progress of debug", told, "", (None, None, str(len(whole)), "bytes"))
        os.remove(pipe)
