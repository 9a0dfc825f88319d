"""Frames of a recording that goes on: each is handed on while the recording pauses, in each format, also where files come before it."""
import os
import select
import subprocess
import time

from tests.blocks import CUSTOM, NAMES, STATISTICS, Blocks
from tests.harness import EVERY, PROGRAM, frame, header, put, read, record
from tests.long import packet
from tests.threads import OpenTap
from tests.watching import TABLE, AtADesk

PATIENCE = 30
# Seconds of a processor in two seconds of a pause.
MOST_BUSY = 0.5


def blocks(order, others):
    """The recording of tests/long.py as pcapng, packet by packet: what stands before the first one, and each packet with what follows it."""
    def one(place):
        file = Blocks(order).packet(place * 10**6, frame(5, 60, place % 255 + 1), options=Blocks(order).options((1, b"a comment")) if others else b"")
        for kind in (NAMES, STATISTICS, CUSTOM) if others else ():
            file.block(kind, bytes(8))
        return file.bytes()

    return Blocks(order).section().interface("eth0", 9).bytes(), one


FORMATS = {
    "pcap": (header(), packet),
    "pcap of the other byte order": (header(">"), lambda place: record(place * 10**6, frame(5, 60, place % 255 + 1), ">")),
    "pcapng": blocks("<", False),
    "pcapng of the other byte order": blocks(">", False),
    "pcapng with comments and other blocks": blocks("<", True),
}


def within(seconds, holds):
    """Whether it holds by then."""
    until = time.monotonic() + seconds
    while not holds() and time.monotonic() < until:
        time.sleep(0.005)
    return holds()


class Live(AtADesk):
    def watched(self, name, before, first, one, counts):
        """A run of `watch` over network A alone: after each pause the capture and the ledger have all frames that came."""
        self.desk.lay(config=TABLE, filter=EVERY)
        pipe, outputs = OpenTap(self.desk), {"capture": self.desk.paths["capture"], "ledger": self.desk.paths["ledger"]}
        for path in outputs.values():
            os.path.lexists(path) and os.remove(path)
        words = [PROGRAM, "watch", "--config", self.desk.paths["config"], "--filter", self.desk.paths["filter"], "--a", *before, pipe.path]
        child = subprocess.Popen([*words, *(word for option, path in outputs.items() for word in (f"--{option}", path))], stdin=subprocess.DEVNULL,
                                 stdout=subprocess.PIPE, stderr=subprocess.PIPE)
        given, fault = len(before), ""
        pipe.pour(first)
        for count in counts:
            pipe.pour(b"".join(map(one, range(given, count))))
            given = count
            wanted = {"capture": header() + b"".join(map(packet, range(given))), "ledger": b"afdx-ledger 2\n" + of_a(given)}
            fault = fault or ("" if within(PATIENCE, lambda wanted=wanted: are_there(outputs, wanted)) else f"after {given} frames the outputs lack some")
        pipe.close()
        told = child.communicate(timeout=60)[1]
        self.case(f"live: watch, {name}", fault or ("" if (child.returncode, told) == (0, b"") else f"status {child.returncode}, {told!r}"))

    def captured(self, name, first, one, counts):
        """The same of `capture`, through pipes on both sides."""
        child = subprocess.Popen([PROGRAM, "capture", "--code", EVERY], stdin=subprocess.PIPE, stdout=subprocess.PIPE, stderr=subprocess.PIPE, bufsize=0)
        given, fault, got = 0, "", b""
        child.stdin.write(first)
        for count in counts:
            child.stdin.write(b"".join(map(one, range(given, count))))
            given = count
            got, wrong = seen(child, got, header() + b"".join(map(packet, range(given))))
            fault = fault or wrong
        out, told = child.communicate(timeout=60)
        self.case(f"live: capture, {name}", fault or ("" if (child.returncode, told, out) == (0, b"", b"") else f"status {child.returncode}, {told!r}"))

    def test_formats(self):
        for name, (first, one) in FORMATS.items():
            self.watched(name, (), first, one, (1, 2, 3, 700))
            self.captured(name, first, one, (1, 2, 3, 700))

    def test_after_files(self):
        """Files come before the pipe."""
        files = [put(self.desk.directory, f"file_{place}", header() + packet(place)) for place in range(3)]
        for name, (first, one) in FORMATS.items():
            for count in (1, 3):
                self.watched(f"{name} after {count} files", files[:count], first, one, (count + 1, count + 2, 300))


    def test_cut(self):
        """A ledger that goes on: after each pause the output has the frames of all lines that came, or the lines."""
        whole = put(self.desk.directory, "whole", header() + b"".join(map(packet, range(700))))
        for name, more, head, one in (("cut", ("--a", whole), header(), packet),
                                      ("cut --ledger-only", ("--ledger-only",), b"", lambda place: of_a(place + 1, place))):
            pipe = OpenTap(self.desk)
            child = subprocess.Popen([PROGRAM, "cut", "--ledger", pipe.path, *more], stdin=subprocess.DEVNULL, stdout=subprocess.PIPE, stderr=subprocess.PIPE)
            given, fault, got = 0, "", b""
            pipe.pour(b"afdx-ledger 2\n")
            for count in (1, 2, 3, 700):
                pipe.pour(of_a(count, given))
                given = count
                got, wrong = seen(child, got, head + b"".join(map(one, range(given))))
                fault = fault or wrong
            pipe.pour(b"total frames 700 accepted 700\n")
            pipe.close()
            out, told = child.communicate(timeout=60)
            self.case(f"live: {name}", fault or ("" if (child.returncode, told, out) == (0, b"", b"") else f"status {child.returncode}, {told!r}"))

    def test_idle(self):
        """A run whose recordings pause takes next to no time of a processor."""
        self.desk.lay(config=TABLE, filter=EVERY)
        pipes = [OpenTap(self.desk)]
        os.rename(pipes[0].path, pipes[0].path + "_a")
        pipes[0].path += "_a"
        pipes.append(OpenTap(self.desk))
        for workers in ("1", "8"):
            words = [*self.desk.arguments(a=pipes[0].path, b=pipes[1].path), "--workers", workers]
            child = subprocess.Popen([PROGRAM, *words], stdin=subprocess.DEVNULL, stdout=subprocess.DEVNULL, stderr=subprocess.PIPE)
            for pipe in pipes:
                os.write(pipe.end, header() + b"".join(map(packet, range(500))))
            time.sleep(0.5)
            before = ticks_of(child)
            time.sleep(2)
            took = (ticks_of(child) - before) / os.sysconf("SC_CLK_TCK")
            child.kill()
            child.communicate(timeout=60)
            self.case(f"live: a pause with {workers} workers", "" if took <= MOST_BUSY else f"{took:.2f} s of a processor in two seconds")
        for pipe in pipes:
            pipe.close()


def seen(child, got, wanted):
    """All that a run has written to its output so far, which has to come to what is wanted; and how it differs from that."""
    while len(got) < len(wanted) and select.select([child.stdout], [], [], PATIENCE)[0]:
        piece = os.read(child.stdout.fileno(), 1 << 16)
        if not piece:
            break
        got += piece
    return got, "" if got == wanted else f"{len(got)} bytes are written, not {len(wanted)}"


def ticks_of(child):
    """The processor's time that a process has had."""
    with open(f"/proc/{child.pid}/stat", encoding="ascii") as stat:
        return sum(map(int, stat.read().rsplit(")", 1)[1].split()[11:13]))


def are_there(outputs, wanted):
    """Whether each output holds what is wanted of it."""
    return all(os.path.exists(outputs[option]) and read(outputs[option]) == text for option, text in wanted.items())


def of_a(frames, first=0):
    """The lines of the recording on network A alone, up to so many frames."""
    return b"".join(f"{place * 10**6} A {place} 5 {place % 255 + 1} regular within {'next' if place else 'first'} deliver 60 01\n".encode()
                    for place in range(first, frames))
