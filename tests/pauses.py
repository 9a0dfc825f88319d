"""Tests of what a terminal is told where one network gives nothing for 10 s while the other isn't read: two pipes that one
writer fills, one after the other.
"""
import concurrent.futures
import os
import subprocess
import threading
import time

from tests.analyser import watch
from tests.harness import EVERY, PROGRAM, SUCCESS, Case, frame, shown
from tests.progress import Screen
from tests.summaries import summary_of
from tests.watching import TABLE, Desk, tap

MS = 10**6
TOLD = "afdxmon: network {} has given nothing for 10 s, and network {} is not read meanwhile: are both written by one program, one after the other?"
# More frames than a network's threads hold for the other's, in more bytes than a pipe holds.
MANY = tap(*((i * 2 * MS, frame(5, 180, i % 255 + 1)) for i in range(6000)))
FEW = tap(*((i * 2 * MS + 1000, frame(5, 180, i % 255 + 1)) for i in range(100)))


class Pipes:
    """Two pipes with names, and a run over them."""

    def __init__(self, directory, a, b):
        os.mkdir(directory)
        self.desk = Desk(directory)
        self.desk.lay(config=TABLE, filter=EVERY)
        self.recordings = {"a": a, "b": b}
        self.pipes = {name: os.path.join(directory, name) for name in "ab"}
        for pipe in self.pipes.values():
            os.path.lexists(pipe) and os.remove(pipe)
            os.mkfifo(pipe)

    def write(self, name, start=0, end=None):
        """Writes a part of a network's recording, and leaves its pipe open."""
        out = open(self.pipes[name], "wb", buffering=0)
        self.go_on(out, name, start, end)
        return out

    def go_on(self, out, name, start, end=None):
        whole = memoryview(self.recordings[name])[start:end]
        while whole:
            whole = whole[out.write(whole) :]

    def arguments(self):
        return self.desk.arguments(**self.pipes)

    def left(self):
        """How the outputs differ from those that both recordings have to give, and the ledger."""
        expected = watch(TABLE, EVERY, self.recordings["a"], self.recordings["b"])
        ledger = expected.lines + expected.summary
        return self.desk.compared("capture", expected.capture) or self.desk.compared("ledger", ledger), ledger


def in_turn(pipes, first, second):
    """One writer: all of one network, and then the other. The second has somebody else to come to its help."""

    def feed():
        writer = threading.Thread(target=lambda: pipes.write(first).close(), daemon=True)
        writer.start()
        time.sleep(12.5)
        pipes.write(second).close()
        writer.join(60)

    return feed


def headers_first(pipes):
    """One writer that begins both, and then fills A."""

    def feed():
        a, b = pipes.write("a", 0, 24), pipes.write("b", 0, 24)
        writer = threading.Thread(target=pipes.go_on, args=(a, "a", 24), daemon=True)
        writer.start()
        time.sleep(12.5)
        pipes.go_on(b, "b", 24)
        b.close()
        writer.join(60)
        a.close()

    return feed


def both_pause(pipes):
    """Two writers that have nothing to write for a while."""

    def feed():
        half = 24 + 196 * 50
        a, b = pipes.write("a", 0, half), pipes.write("b", 0, half)
        time.sleep(12.5)
        for out, name in ((a, "a"), (b, "b")):
            pipes.go_on(out, name, half)
            out.close()

    return feed


def at_terminal(name, pipes, feed, told, *more):
    """A run at a terminal, its name and its fault: this is told once, between 10 and 12.5 s after the start, and nothing else but the summary."""
    screen, begun = Screen(), time.monotonic()
    status, whole = screen.run([*pipes.arguments(), *more], feed, stdin=subprocess.DEVNULL)
    left, ledger = pipes.left()
    expected = "" if more else (told + "\n" if told else "") + summary_of(ledger, None)
    fault = "" if (status, shown(whole)) == (SUCCESS, expected) else f"status {status}, {shown(whole)!r}, not {expected!r}"
    when = next((at - begun for at, text in screen.pieces if told and told.split(":")[1] in text), 10)
    if not fault and not 10 <= when <= 12.5:
        fault = f"it came after {when:.1f} s"
    return name, fault or left


def in_a_pipe(name, pipes, feed):
    child = subprocess.Popen([PROGRAM, *pipes.arguments()], stdin=subprocess.DEVNULL, stdout=subprocess.PIPE, stderr=subprocess.PIPE)
    feed()
    out, told = child.communicate(timeout=60)
    left, _ = pipes.left()
    fault = "" if (child.returncode, out, told.decode()) == (SUCCESS, b"", "") else f"{child.returncode}, {told!r}"
    return name, fault or left


class Pauses(Case):
    def pipes(self, name, a=MANY, b=FEW):
        return Pipes(os.path.join(self.folder, name), a, b)

    def test_pauses(self):
        """The runs take 12 s each, all of them at once."""
        a_waits, b_waits = TOLD.format("B", "A"), TOLD.format("A", "B")
        a_first, b_first = self.pipes("a"), self.pipes("b", FEW, MANY)
        headers, both, quiet, pipe = self.pipes("headers"), self.pipes("both", FEW, FEW), self.pipes("quiet"), self.pipes("pipe")
        runs = (
            (at_terminal, "A and then B", a_first, in_turn(a_first, "a", "b"), a_waits),
            (at_terminal, "B and then A", b_first, in_turn(b_first, "b", "a"), b_waits),
            (at_terminal, "both headers, and then A", headers, headers_first(headers), a_waits),
            (at_terminal, "both networks pause", both, both_pause(both), None),
            (at_terminal, "--quiet", quiet, headers_first(quiet), None, "--quiet"),
            (in_a_pipe, "standard error is a pipe", pipe, headers_first(pipe)),
        )
        with concurrent.futures.ThreadPoolExecutor(len(runs)) as pool:
            for name, fault in pool.map(lambda run: run[0](*run[1:]), runs):
                self.case(f"pauses: {name}", fault)
