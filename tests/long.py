"""Recordings above 32 MiB, more than a million frames, the widest window for late timestamps, and the program's memory.

The recordings are regular, so what the program makes of them is said in closed form.
"""
import fcntl
import os
import struct
import subprocess
import termios
import threading
import time
from array import array

from tests.harness import EVERY, PROGRAM, SUCCESS, difference, frame, header, record, run
from tests.watching import NO_FAULT, TABLE, AtADesk

STEP = 10**6
FRAMES = [frame(5, 60, number) for number in range(256)]
# ldb [59], jeq #1, ret #-1, ret #0: the frames with sequence number 1, one of 255
ONE_OF_255 = "4,48 0 0 59,21 0 1 1,6 0 0 4294967295,6 0 0 0,"
MORE_THAN_A_MILLION = 1_050_000
CHUNK = 51_000
MIB = 1 << 20


def packet(place):
    """Frame number `place` of link 5: one for each BAG, with the sequence numbers 1 to 255 over and over."""
    stamp = place * STEP
    return struct.pack("<IIII", stamp // 10**9, stamp % 10**9, 60, 60) + FRAMES[place % 255 + 1]


def packets(first, last):
    return b"".join(map(packet, range(first, last)))


def pieces(frames):
    """A recording of so many frames, by pieces."""
    yield header()
    for first in range(0, frames, CHUNK):
        yield packets(first, min(frames, first + CHUNK))


def pieces_twice(frames):
    """What a capture has of both taps with so many frames, by pieces."""
    yield header()
    for first in range(0, frames, CHUNK):
        yield b"".join(packet(i) * 2 for i in range(first, min(frames, first + CHUNK)))


def lines(first, last, place_of=None, kept=lambda number: "60 01"):
    """The lines of the ledger where both taps have the frames from `first` to `last`, each with its place in its recording."""
    out = []
    for i in range(first, last):
        number, place = i % 255 + 1, place_of(i) if place_of else i
        judged = f"5 {number} regular within {'next' if i else 'first'}"
        out.append(f"{i * STEP} A {place} {judged} deliver {kept(number)}\n{i * STEP} B {place} {judged} copy {kept(number)}\n")
    return "".join(out).encode()


def totals(frames, accepted):
    return f"""link 5 brake frames {2 * frames} toolong 0 excess 0 out 0 copy {frames} delivered {frames}
filter 0 accepted {accepted}
tap A clean {frames}
tap B clean {frames}
total frames {2 * frames} accepted {accepted} {NO_FAULT} copy {frames} delivered {frames}
""".encode()


def of_255(number):
    return "60 01" if number == 1 else "- 00"


def compared(path, expected):
    """How a file differs from what is expected, which comes by pieces."""
    at = 0
    with open(path, "rb") as given:
        for piece in expected:
            if given.read(len(piece)) != piece:
                return f"{os.path.basename(path)} differs within the {len(piece)} bytes from byte {at} on"
            at += len(piece)
        return f"{os.path.basename(path)} goes on after byte {at}" if given.read(1) else ""


def write(path, expected):
    with open(path, "wb") as out:
        for piece in expected:
            out.write(piece)


def ledger_of(frames, kept, accepted):
    yield b"afdx-ledger 2\n"
    for first in range(0, frames, CHUNK):
        yield lines(first, min(frames, first + CHUNK), kept=kept)
    yield totals(frames, accepted)


def unread(descriptor):
    """How many bytes of a pipe or terminal nobody has read yet."""
    count = array("i", [0])
    fcntl.ioctl(descriptor, termios.FIONREAD, count)
    return count[0]


def peak_of(child):
    """The most memory that a process has had so far, in bytes."""
    with open(f"/proc/{child.pid}/status", encoding="ascii") as status:
        return next(int(line.split()[1]) for line in status if line.startswith("VmHWM:")) * 1024


def poured(pipe, frames, gate):
    """Writes a recording into a pipe, says so once it is read, and closes the pipe when it is told to."""
    try:
        with open(pipe, "wb", buffering=0) as out:
            for piece in pieces(frames):
                left = memoryview(piece)
                while left:
                    left = left[out.write(left[: 1 << 16]):]
            until = time.monotonic() + 60
            while unread(out.fileno()) and time.monotonic() < until:
                time.sleep(0.001)
            gate.wait(60)
            gate.wait(60)
    except (BrokenPipeError, threading.BrokenBarrierError):
        gate.abort()  # the program has ended before its time


def peak(arguments, pipes, frames):
    """The program's peak memory once it has read a recording of so many frames from each pipe, before these close."""
    gate = threading.Barrier(len(pipes) + 1)
    writers = [threading.Thread(target=poured, args=(pipe, frames, gate), daemon=True) for pipe in pipes]
    for writer in writers:
        writer.start()
    with open(pipes[0] if arguments[0] == "capture" else os.devnull, "rb") as stdin:
        child = subprocess.Popen([PROGRAM, *arguments], stdin=stdin, stdout=subprocess.DEVNULL, stderr=subprocess.PIPE)
    most = None
    try:
        gate.wait(60)
        most = peak_of(child)
        gate.wait(60)
    except threading.BrokenBarrierError:
        child.kill()
    told = child.communicate(timeout=60)[1]
    return None if child.returncode or told else most


class Long(AtADesk):
    def test_a_million(self):
        """One recording of 80 MB, more than a million frames: as both taps of watch, and for capture."""
        frames = MORE_THAN_A_MILLION
        path = os.path.join(self.desk.directory, "long.pcap")
        write(path, pieces(frames))
        ones = [packet(i) for i in range(0, frames, 255)]
        self.desk.lay(config=TABLE, filter=ONE_OF_255, a=b"", b=b"")
        fault = difference(self.desk.watch(a=path, b=path), SUCCESS, "", b"")
        fault = fault or compared(self.desk.paths["capture"], [header(), b"".join(one * 2 for one in ones)])
        self.case(f"watch: {frames} frames a tap", fault or compared(self.desk.paths["ledger"], ledger_of(frames, of_255, 2 * len(ones))))
        with open(path, "rb") as given:
            ran = run(["capture", "--code", ONE_OF_255], stdin=given, stdout=subprocess.PIPE)
        self.judge(f"capture: {frames} frames", ran, SUCCESS, "", header() + b"".join(ones))
        with open(path, "rb") as given, open(self.desk.paths["capture"], "wb") as out:
            fault = difference(run(["capture", "--code", EVERY], stdin=given, stdout=out), SUCCESS, "")
        self.case(f"capture: {frames} frames, all", fault or compared(self.desk.paths["capture"], pieces(frames)))
        os.remove(path)

    def test_debugged(self):
        """Recordings for `debug`: above 32 MiB, and of 10^5 frames."""
        large = header() + b"".join(record(i, frame(5, 262144, i + 1)) for i in range(140))
        many = b"".join(pieces(100_000))
        start = "at 0 pc 0 A 0 X 0 M" + " 0" * 16 + "\n"
        for name, given, count in (("36 MB", large, 140), ("100000 frames", many, 100_000)):
            self.desk.lay(filter=EVERY, a=given)
            arguments = ["debug", "--filter", self.desk.paths["filter"], "--tap", self.desk.paths["a"]]
            ran = run(arguments, input=f"select {count - 1}\ntally\n".encode(), stdout=subprocess.PIPE)
            self.judge(f"debug: {name}", ran, SUCCESS, "", f"frames {count}\n{start}tally accepted {count} rejected 0\n".encode())

    def test_widest_window(self):
        """Frames that come as late as a window of a second allows: blocks of 900 frames in falling order, 899 ms wide."""
        frames, block = 90_000, 900
        places = [first + i for first in range(0, frames, block) for i in reversed(range(block))]
        given = header() + b"".join(map(packet, places))
        self.desk.lay(config="late_us = 1000000\n" + TABLE, filter=ONE_OF_255, a=given, b=given)
        ones = [packet(i) * 2 for i in range(0, frames, 255)]
        fault = difference(self.desk.watch("--workers", "8"), SUCCESS, "", b"") or compared(self.desk.paths["capture"], [header(), *ones])
        ledger = [b"afdx-ledger 2\n", lines(0, frames, lambda i: i - i % block + block - 1 - i % block, of_255), totals(frames, 2 * len(ones))]
        self.case(f"watch: {frames} frames a tap in a window of a second", fault or compared(self.desk.paths["ledger"], ledger))

    def test_memory(self):
        """A recording that is 30 times as long takes no more memory: both are longer than all that a run holds at once."""
        pipes = [os.path.join(self.desk.directory, "pipe_" + network) for network in ("a", "b")]
        for pipe in pipes:
            os.mkfifo(pipe)
        self.desk.lay(config=TABLE, filter=ONE_OF_255, a=b"", b=b"")
        for command, arguments, given in (
            ("watch", self.desk.arguments(a=pipes[0], b=pipes[1]), pipes),
            ("capture", ["capture", "--code", ONE_OF_255], pipes[:1]),
        ):
            short, long = (peak(arguments, given, frames) for frames in (10_000, 300_000))
            name = f"{command}: the peak memory over 300000 frames beside 10000"
            if short is None or long is None:
                self.case(name, "a run failed")
            else:
                self.case(name, "" if long <= 1.5 * short + 4 * MIB else f"{long} bytes beside {short}")
        for pipe in pipes:
            os.remove(pipe)
