"""`--late-us` of `capture`, `debug` and `watch`: which timestamps out of order are taken, and what the note says of one that isn't.

Expected frames come from the reference parser with a window, ledgers from the slow analyser over a table with that window; with
`any` the peer is tcpdump, which takes every order.
"""
import os
import random
import shutil
import subprocess

from tests import pairs
from tests.analyser import watch
from tests.harness import EVERY, SUCCESS, USAGE, difference, frame, header, record, run
from tests.reference import HEADER, disorder, lateness_after, parse, record_of
from tests.texts import MISUSE, usage_error
from tests.watching import TABLE, AtADesk

US = 1000
# Windows in microseconds: both bounds and between, and every order.
WINDOWS = (None, "0", "1", "2", "13", "14", "1000", "999999", "1000000", "any")


def nanoseconds(window):
    return 0 if window is None else 1 << 64 if window == "any" else int(window) * US


def given(window):
    return [] if window is None else ["--late-us", window]


def disordered(chance, frames, most):
    """A recording of frames in which some timestamps lie below earlier ones, by up to so many nanoseconds."""
    stamps, high = [], 10**18
    for _ in range(frames):
        high += chance.randrange(1, 40 * US)
        stamps.append(high - chance.choice((0, 0, 0, chance.randrange(most + 1))))
    return header() + b"".join(record(stamp, frame(5, 60, i % 255 + 1)) for i, stamp in enumerate(stamps))


def steps(lateness):
    """Two frames a second apart, and one so many nanoseconds before the second, with one more after it."""
    stamps = (10**18, 10**18 + 3 * 10**9, 10**18 + 3 * 10**9 - lateness, 10**18 + 4 * 10**9)
    return header() + b"".join(record(stamp, frame(5, 60, i + 1)) for i, stamp in enumerate(stamps))


def note_on(command, recording, window, who="recording"):
    """The note on a recording that a frame out of order ended."""
    frames, ending = parse(recording, nanoseconds(window))
    how, count, *reason = ending.split()
    if how == "clean":
        return frames, ""
    late = disorder(command, lateness_after(recording, int(count)))
    return frames, f"afdxmon: note: {who} ends bad after {count} frame{'' if count == '1' else 's'}: timestamp out of order{late}"


class Late(AtADesk):
    def captures(self, name, recording):
        path = os.path.join(self.folder, "in.pcap")
        with open(path, "wb") as out:
            out.write(recording)
        for window in WINDOWS:
            frames, note = note_on("capture", recording, window)
            expected = HEADER + b"".join(record_of(*one) for one in frames)
            faults = []
            for source, how in (([path], {"stdin": subprocess.DEVNULL}), ([], {"input": recording})):
                ran = run(["capture", "--code", EVERY, *given(window), *source], stdout=subprocess.PIPE, **how)
                faults.append(difference(ran, SUCCESS, note, expected))
            self.case(f"late: capture {name}, --late-us {window}", faults[0] or faults[1])

    def debugs(self, name, recording):
        paths = [os.path.join(self.folder, name) for name in ("filter", "tap.pcap")]
        for path, content in zip(paths, (EVERY.encode(), recording)):
            with open(path, "wb") as out:
                out.write(content)
        for window in WINDOWS:
            frames, note = note_on("debug", recording, window)
            ran = run(["debug", "--filter", paths[0], "--tap", paths[1], *given(window)], input=b"", stdout=subprocess.PIPE)
            self.case(f"late: debug {name}, --late-us {window}", difference(ran, SUCCESS, note, f"frames {len(frames)}\n".encode()))

    def test_windows(self):
        for name, recording in (
            ("disorder of 20 us", disordered(random.Random(1), 400, 20 * US)),
            ("disorder of 2 s", disordered(random.Random(2), 400, 2 * 10**9)),
            ("order", disordered(random.Random(3), 400, 0)),
            *((f"a frame {late} ns late", steps(late)) for late in (1, 999, US, US + 1, 13 * US, 13 * US + 204, 999999 * US, 10**9 - 1, 10**9, 10**9 + 1, 3 * 10**9)),
        ):
            self.captures(name, recording)
            self.debugs(name, recording)

    def test_peer(self):
        """tcpdump keeps every frame, whatever its timestamp."""
        if not shutil.which("tcpdump"):
            self.skip("late: --late-us any beside tcpdump", "no tcpdump here")
            return
        path, kept = os.path.join(self.folder, "in.pcap"), os.path.join(self.folder, "kept.pcap")
        for seed in range(3):
            with open(path, "wb") as out:
                out.write(disordered(random.Random(seed), 2000, 10**9 * seed))
            subprocess.run(["tcpdump", "--nano", "-r", path, "-w", kept], capture_output=True, check=True, timeout=60)
            ran = run(["capture", "--code", EVERY, "--late-us", "any", path], stdin=subprocess.DEVNULL, stdout=subprocess.PIPE)
            with open(kept, "rb") as file:
                theirs = file.read()
            self.case(f"late: --late-us any beside tcpdump, {seed}", difference(ran, SUCCESS, "", HEADER + theirs[24:]))

    def test_watched(self):
        """The option stands in place of the table's window, be that greater or less or none."""
        chance = random.Random(5)
        for in_table in (None, 0, 3, 1000):
            for window in (None, "0", "1", "3", "1000", "1000000"):
                _, code, a, b = pairs.pair(chance)
                a, b = disordered(chance, 40, 2000), disordered(chance, 40, 2 * 10**6)
                head, rest = TABLE.split("\n", 1)
                table = f"{head}\n" + ("" if in_table is None else f"late_us = {in_table}\n") + rest
                wanted = f"{head}\nlate_us = {window if window is not None else in_table or 0}\n{rest}"
                expected = watch(wanted, code, a, b)
                self.desk.lay(config=table, filter=code, a=a, b=b)
                fault = self.desk.agrees(self.desk.watch(*given(window)), expected.capture, expected.lines + expected.summary)
                ran = run([*self.desk.arguments(a="-"), *given(window)], input=a, stdout=subprocess.PIPE)
                fault = fault or self.desk.agrees(ran, expected.capture, expected.lines + expected.summary)
                self.case(f"late: watch --late-us {window}, late_us = {in_table}", fault)

    def test_refused(self):
        """What is no window is refused, and nothing is written."""
        self.desk.lay(config=TABLE, filter=EVERY, a=header(), b=header())
        wrong = ("", " ", "-1", "1.5", "1000001", "18446744073709551616", "any ", "ANY", "all", "0x10", "1us")
        commands = {
            "capture": ["capture", "--code", EVERY],
            "debug": ["debug", "--filter", self.desk.paths["filter"], "--tap", self.desk.paths["a"]],
            "watch": self.desk.arguments(),
        }
        for command, arguments in commands.items():
            for text in wrong + (("any",) if command == "watch" else ()):
                whole = usage_error(command, MISUSE["Unordered" if text == "any" else "NoLateness"])
                ran = run([*arguments, f"--late-us={text}"], input=b"", stdout=subprocess.PIPE)
                fault = difference(ran, USAGE, lambda told, whole=whole: told == whole, b"")
                self.case(f"late: {command} --late-us={text}", fault or self.desk.compared("ledger", b"older"))
