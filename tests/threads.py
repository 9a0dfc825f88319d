"""The threads of `afdxmon watch`: how many there are, runs on one processor, taps that pause, and taps and outputs that fail in mid-run."""
import os
import pty
import resource
import select
import subprocess
import sys
import time
import tty

from tests import long
from tests.analyser import watch
from tests.harness import EVERY, FAULT, ODD, PROGRAM, SUCCESS, TOP, ended, header, read, readable_program
from tests.watching import TABLE, AtADesk

# The frames of a round at most.
ROUND = 1024
# A user who has no other process.
NOBODY = 65534
# 4096 steps on each frame: a round of 256 frames takes a worker some milliseconds.
LONGEST = "4096," + "0 0 0 7," * 4095 + "6 0 0 60,"


def threads_of(child):
    try:
        return len(os.listdir(f"/proc/{child.pid}/task"))
    except FileNotFoundError:
        return 0  # it has ended


def most_threads(command):
    """The greatest number of threads that a run shows, and its status."""
    child = subprocess.Popen(command, stdin=subprocess.DEVNULL, stdout=subprocess.DEVNULL, stderr=subprocess.DEVNULL)
    most, until = 0, time.monotonic() + 60
    while child.poll() is None:
        most = max(most, threads_of(child))
        if time.monotonic() > until:
            child.kill()
    return most, child.returncode


def without_threads(most):
    """Has the process be one of a user who may have so many threads."""
    os.setgid(NOBODY)
    os.setuid(NOBODY)
    resource.setrlimit(resource.RLIMIT_NPROC, (most, most))


def with_threads(command, most):
    """What a command comes to as that user. None: this machine doesn't let it be run so."""
    pipes = {"stdin": subprocess.DEVNULL, "stdout": subprocess.PIPE, "stderr": subprocess.PIPE}
    try:
        return ended(command, preexec_fn=lambda: without_threads(most), **pipes)
    except (OSError, subprocess.SubprocessError):
        return None


def pour(into, other, data):
    """Gives all bytes to a terminal or a pipe, and waits until they were read from its other end. Returns whether they were taken."""
    left = memoryview(data)
    while left:
        if not select.select([], [into], [], 30)[1]:
            return False
        left = left[os.write(into, left[:4096]):]
    until = time.monotonic() + 30
    while long.unread(other):
        if time.monotonic() > until:
            return False
        time.sleep(0.001)
    # A terminal may still hold bytes back; the caller waits for the reader to rest.
    return True


class FailingTap:
    """A terminal as a tap: it gives bytes as a pipe does, and a read that waits when the other end closes fails."""

    def __init__(self):
        self.ours, self.theirs = pty.openpty()
        tty.setraw(self.theirs)
        os.set_blocking(self.ours, False)
        self.path = os.ttyname(self.theirs)

    def pour(self, data):
        return pour(self.ours, self.theirs, data)

    def fail(self):
        os.close(self.ours)

    def close(self):
        os.close(self.theirs)


class OpenTap:
    """A pipe as a tap, which stays open until it is closed."""

    def __init__(self, desk):
        self.path = os.path.join(desk.directory, "pipe")
        os.mkfifo(self.path)
        self.end = os.open(self.path, os.O_RDWR | os.O_NONBLOCK)

    def pour(self, data):
        return pour(self.end, self.end, data)

    def close(self):
        os.close(self.end)
        os.remove(self.path)


def state_of(child, task):
    """The letter for what a thread does. `-`: it has ended."""
    try:
        with open(f"/proc/{child.pid}/task/{task}/stat", encoding="ascii") as stat:
            return stat.read().rsplit(")", 1)[1].split()[0]
    # It may end before its file is opened, and before that is read.
    except (FileNotFoundError, ProcessLookupError):
        return "-"


def rest(child):
    """Waits until the threads of a process have all slept for a while: the one that reads the tap waits for more."""
    still, until = 0, time.monotonic() + 30
    while still < 20 and time.monotonic() < until:
        states = {state_of(child, task) for task in os.listdir(f"/proc/{child.pid}/task")}
        still = still + 1 if states == {"S"} else 0
        time.sleep(0.005)


def unlike(desk, frames, safe):
    """How the outputs of a run that has ended early differ from what belongs to the first so many frames of both taps."""
    packets, lines = b"".join(long.pieces_twice(frames)), long.lines(0, frames).splitlines(keepends=True)
    return desk.compared("capture", packets[: 24 + 76 * safe]) or desk.compared("ledger", b"".join([b"afdx-ledger 2\n", *lines[:safe]]))


def safe_of(network, given):
    """How many frames are safe where one tap has given so many and the other one has more: all of that tap, and of the other those before
    its last one. A's frame at one stamp comes before B's."""
    return max(0, 2 * given - 1) if network == "a" else 2 * given


def started(desk, network, tap, workers, **elsewhere):
    """A run in which one tap is this one."""
    command = [PROGRAM, *desk.arguments(**{network: tap.path}, **elsewhere), "--workers", workers]
    return subprocess.Popen(command, stdin=subprocess.DEVNULL, stdout=subprocess.PIPE, stderr=subprocess.PIPE)


class Threads(AtADesk):
    def test_counted(self):
        """More workers show more threads at once. A run of one worker has the calling thread and those of the taps."""
        table = f"filters = {[LONGEST] * 7}\n" + TABLE
        # More than both rings hold, so that the taps are read as long as the filters run.
        given = header() + long.packets(0, 12000)
        self.desk.lay(config=table, filter=LONGEST, a=given, b=given)
        found, statuses = [], set()
        for workers in (1, 2, 4, 8):
            most, status = most_threads([PROGRAM, *self.desk.arguments(), "--workers", str(workers)])
            found.append(most)
            statuses.add(status)
        rising = all(fewer < more for fewer, more in zip(found, found[1:]))
        fault = "" if statuses == {SUCCESS} and rising and found[0] >= 3 else f"status {statuses}, {found} threads"
        self.case("watch: more workers show more threads, 1, 2, 4 and 8", fault)

    def test_on_one_processor(self):
        """Threads that have one processor between them come to the same end."""
        example = {option: read(os.path.join(TOP, "examples", "flight" + suffix)) for option, suffix in
                   (("config", ".toml"), ("filter", ".filter"), ("a", "_a.pcap"), ("b", "_b.pcap"))}
        steady = header() + long.packets(0, 3000)
        heavy = f"filters = {[LONGEST] * 2}\n" + TABLE
        only = min(os.sched_getaffinity(0))
        frames, short = 3000, header() + long.packets(0, 300)
        steady_out = (b"".join(long.pieces_twice(frames)), b"afdx-ledger 2\n" + long.lines(0, frames) + long.totals(frames, 2 * frames))
        made = watch(example["config"].decode(), example["filter"].decode(), example["a"], example["b"])
        slow = watch(heavy, ODD, short, short)
        for name, given, out in (
            ("the flight of examples", example, (made.capture, made.lines + made.summary)),
            ("3000 frames a tap", {"config": TABLE, "filter": EVERY, "a": steady, "b": steady}, steady_out),
            ("filters of 4096 steps", {"config": heavy, "filter": ODD, "a": short, "b": short}, (slow.capture, slow.lines + slow.summary)),
        ):
            for workers in ("1", "2", "8"):
                self.desk.lay(**given)
                command = [PROGRAM, *self.desk.arguments(), "--workers", workers]
                pipes = {"stdin": subprocess.DEVNULL, "stdout": subprocess.PIPE, "stderr": subprocess.PIPE}
                ran = ended(command, preexec_fn=lambda: os.sched_setaffinity(0, {only}), **pipes)
                self.case(f"watch on one processor: {name}, {workers} workers", self.desk.agrees(ran, *out))

    def test_beside_busy_ones(self):
        """Threads come to the same end beside processes that keep all processors busy."""
        frames = 20_000
        steady = header() + long.packets(0, frames)
        out = (b"".join(long.pieces_twice(frames)), b"afdx-ledger 2\n" + long.lines(0, frames) + long.totals(frames, 2 * frames))
        busy = [subprocess.Popen([sys.executable, "-c", "while True: pass"]) for _ in range(2 * (os.cpu_count() or 1))]
        try:
            for workers in ("1", "2", "3", "4", "5", "6", "7", "8"):
                self.desk.lay(config=TABLE, filter=EVERY, a=steady, b=steady)
                pipes = {"stdin": subprocess.DEVNULL, "stdout": subprocess.PIPE, "stderr": subprocess.PIPE}
                ran = ended([PROGRAM, *self.desk.arguments(), "--workers", workers], **pipes)
                self.case(f"watch beside busy processes, {workers} workers", self.desk.agrees(ran, *out))
        finally:
            for child in busy:
                child.kill()
                child.wait()

    def test_few_threads(self):
        """Where the system lets no thread be started, or a few, the run is the same: the calling thread reads the taps that have none, and does
        what no worker does."""
        steady, short = header() + long.packets(0, 3000), header() + long.packets(0, 300)
        program = readable_program(self.desk.directory)
        if os.getuid() or with_threads([program, "--version"], 4) is None:
            self.skip("watch: no thread to be had", "the program can't be run as a user who may have no threads")
            return
        for name, a, b in (
            ("both taps", steady, steady),
            ("A ends first", short, steady),
            ("B ends first", steady, short),
            ("no frame on A", header(), short),
            ("A is truncated in a packet", steady[:-7], steady),
        ):
            made = watch(TABLE, EVERY, a, b)
            for most in (1, 2, 3, 4):
                for workers in ("1", "2", "8"):
                    self.desk.lay(config=TABLE, filter=EVERY, a=a, b=b)
                    for path in self.desk.paths.values():
                        os.chmod(path, 0o666)
                    ran = with_threads([program, *self.desk.arguments(), "--workers", workers], most)
                    fault = self.desk.agrees(ran, made.capture, made.lines + made.summary)
                    self.case(f"watch: {most - 1} threads to be had, {name}, {workers} workers", fault)

    def failing_tap(self, network, given, workers):
        """One tap fails after so many frames, of which the other one has more: what is written belongs to all safe frames, and to no other."""
        frames = 3000
        whole = header() + long.packets(0, frames)
        self.desk.lay(config=TABLE, filter=EVERY, a=whole, b=whole)
        tap = FailingTap()
        child = started(self.desk, network, tap, workers)
        taken = tap.pour(header() + long.packets(0, given) + long.packet(given)[:30])
        rest(child)
        tap.fail()
        out, told = child.communicate(timeout=60)
        tap.close()
        good = taken and (child.returncode, told, out) == (FAULT, f"afdxmon: watch 3 Read {network.upper()}\n".encode(), b"")
        fault = "" if good else f"status {child.returncode}, {told!r}"
        fault = fault or unlike(self.desk, frames, safe_of(network, given))
        self.case(f"watch: tap {network.upper()} fails after {given} of {frames} frames, {workers} workers", fault)

    def test_failing_taps(self):
        """A tap fails in mid-run: the outputs have all that was safe."""
        for network in ("a", "b"):
            for given, workers in ((0, "2"), (1, "3"), (512, "1"), (513, "2"), (1024, "8"), (2000, "2"), (2000, "8")):
                self.failing_tap(network, given, workers)

    def pausing_tap(self, network, given, workers):
        """One tap pauses after so many frames: what is safe is written meanwhile, and all once it goes on."""
        frames = 3000
        name = f"watch: tap {network.upper()} pauses after {given} of {frames} frames, {workers} workers"
        whole = header() + long.packets(0, frames)
        self.desk.lay(config=TABLE, filter=EVERY, a=whole, b=whole)
        tap = OpenTap(self.desk)
        child = started(self.desk, network, tap, workers)
        fault = "" if tap.pour(header() + long.packets(0, given)) else "the tap isn't read"
        until = time.monotonic() + 30
        while unlike(self.desk, frames, safe_of(network, given)) and time.monotonic() < until:
            time.sleep(0.005)
        self.case(name, fault or unlike(self.desk, frames, safe_of(network, given)))
        tap.pour(long.packets(given, frames))
        tap.close()
        out, told = child.communicate(timeout=60)
        fault = "" if (child.returncode, told, out) == (SUCCESS, b"", b"") else f"status {child.returncode}, {told!r}"
        fault = fault or self.desk.compared("capture", b"".join(long.pieces_twice(frames)))
        ledger = b"afdx-ledger 2\n" + long.lines(0, frames) + long.totals(frames, 2 * frames)
        self.case(f"{name}, and goes on", fault or self.desk.compared("ledger", ledger))

    def test_pausing_taps(self):
        for network in ("a", "b"):
            for given, workers in ((1, "2"), (513, "1"), (2000, "8")):
                self.pausing_tap(network, given, workers)

    def test_told_at_once(self):
        """The fault of an output is told while a tap stays open."""
        whole = header() + long.packets(0, 3000)
        for network in ("a", "b"):
            self.desk.lay(config=TABLE, filter=EVERY, a=whole, b=whole)
            tap = OpenTap(self.desk)
            child = started(self.desk, network, tap, "2", capture="/dev/full")
            tap.pour(header() + long.packets(0, 2000))
            line = b"afdxmon: watch 4 Write capture\n"
            told = child.stderr.readline() if select.select([child.stderr], [], [], 30)[0] else b""
            tap.close()
            rest_of = child.communicate(timeout=60)
            good = (told, child.returncode, rest_of) == (line, FAULT, (b"", b""))
            self.case(f"watch: the capture fails while tap {network.upper()} stays open", "" if good else f"{told!r}, status {child.returncode}, {rest_of!r}")

    def test_failing_outputs(self):
        """An output fails in mid-run: the other has the rounds before that."""
        frames, buffer = 3000, 65536
        whole = header() + long.packets(0, frames)
        for output, other, size in (("capture", "ledger", 76), ("ledger", "capture", 60)):
            self.desk.lay(config=TABLE, filter=EVERY, a=whole, b=whole)
            ran = self.desk.watch(**{output: "/dev/full"})
            good = (ran.returncode, ran.stderr) == (FAULT, f"afdxmon: watch 4 Write {output}\n".encode())
            has = (len(self.desk.left("capture")) - 24) // 76 if other == "capture" else self.desk.left("ledger").count(b"\n") - 1
            least = max(0, buffer // size - ROUND)
            fault = "" if good and has >= least else f"status {ran.returncode}, {ran.stderr!r}, the {other} has {has} frames, not {least}"
            self.case(f"watch: the {output} fails in mid-run", fault)
