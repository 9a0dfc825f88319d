"""Captures as pcapng (`--pcapng`): the files of `capture`, `watch` and `cut` byte by byte.

They are compared with a writer of whole files that follows the format (draft-ietf-opsawg-pcapng, version 1.0) and
docs/FORMATS.md, over the packets of the reference parser and the lines of the slow analyser. Where tshark is installed, it
reads the comments and the names of interfaces.
"""
import os
import random
import shutil
import struct
import subprocess
import threading

from tests import pairs
from tests.analyser import table_of, watch
from tests.cut import chosen, frame_lines, nothing, recordings_of
from tests.harness import EVERY, FAULT, FIRST_64, LINK5, ODD, PROGRAM, SUCCESS, TOP, USAGE, Case, difference, frame, header, record, recording, run
from tests.reference import capture, parse
from tests.watching import TABLE, WORKERS, tap

STAGES = ("class", "policing", "integrity", "redundancy")
OLDER = b"older"
WRITE = {
    "capture": "afdxmon: capture 4 Write",
    "watch": "afdxmon: watch 4 Write capture",
    "cut": "afdxmon: cut 6 Write Output",
}


def padded(data):
    return data + bytes(-len(data) % 4)


def block(kind, body):
    return struct.pack("<II", kind, 12 + len(body)) + body + struct.pack("<I", 12 + len(body))


def option(code, value):
    return struct.pack("<HH", code, len(value)) + padded(value)


END = option(0, b"")


def head(*names):
    """The section header, and an interface for each name, or one without a name."""
    out = block(0x0A0D0D0A, struct.pack("<IHHq", 0x1A2B3C4D, 1, 0, -1))
    for name in names or (b"",):
        out += block(1, struct.pack("<HHI", 1, 0, 262144) + (option(2, name) if name else b"") + option(9, b"\x09") + END)
    return out


def packet(interface, stamp, whole, data, comment=None):
    fields = struct.pack("<IIIII", interface, stamp >> 32, stamp & 0xFFFFFFFF, len(data), whole)
    return block(6, fields + padded(data) + (option(1, comment.encode()) + END if comment is not None else b""))


def comment_of(line, names):
    """The verdict of a ledger's line in words. `names`: those of links by identifier."""
    fields = line.split()
    word, stage = [(word, stage) for word, stage in zip(fields[5:9], STAGES) if word != "-"][-1]
    if fields[3] == "-":
        return f"{word} ({stage})"
    name = names.get(int(fields[3]))
    return f"VL {fields[3]}{' ' + name if name else ''} SN {fields[4]}: {word} ({stage})"


def names_of(config):
    return {link.id: link.name for link in table_of(config).links.values()}


def annotated(lines, packets, names):
    """The file of packets that have these lines."""
    out = [head(b"A", b"B")]
    for line, one in zip(lines, packets, strict=True):
        out.append(packet("AB".index(line.split()[1]), *one, comment_of(line, names)))
    return b"".join(out)


def of_recording(given, code):
    """What `capture` leaves of a recording."""
    return head() + b"".join(packet(0, *one) for one in parse(capture(given, code), 1 << 62)[0])


def of_watch(expected, config):
    """What `watch` leaves as its capture, by the slow analyser's."""
    kept = [line for line in frame_lines(expected.lines) if line.split()[9] != "-"]
    return annotated(kept, parse(expected.capture, 1 << 62)[0], names_of(config))


class Place:
    """A directory with the files of one run after another."""

    def __init__(self, directory):
        self.directory = directory

    def path(self, name):
        return os.path.join(self.directory, name)

    def put(self, **contents):
        for name, content in contents.items():
            with open(self.path(name), "wb") as out:
                out.write(content.encode() if isinstance(content, str) else content)

    def read(self, name):
        with open(self.path(name), "rb") as given:
            return given.read()

    def watch(self, *flags, **paths):
        """Runs watch over the files that were put, with other paths for some options."""
        words = ["watch"]
        for name in ("config", "filter", "a", "b", "capture", "ledger"):
            words += ["--" + name, paths.get(name, self.path(name))]
        return run([*words, "--pcapng", *flags], stdin=subprocess.DEVNULL, stdout=subprocess.PIPE)

    def cut(self, *flags, **how):
        words = ["cut", *(word for name in ("ledger", "a", "b") for word in ("--" + name, self.path(name)))]
        return run([*words, "--pcapng", *flags], **{"stdin": subprocess.DEVNULL, "stdout": subprocess.PIPE, **how})


def flight():
    """The flight of examples: the table, the filter, and the recordings."""
    out = []
    for suffix in (".toml", ".filter", "_a.pcap", "_b.pcap"):
        with open(os.path.join(TOP, "examples", "flight" + suffix), "rb") as given:
            out.append(given.read())
    return out[0].decode(), out[1].decode(), out[2], out[3]


class Annotated(Case):
    def setUp(self):
        self.place = Place(self.folder)

    def test_captures(self):
        for layout, unit in (("<", 1), (">", 1), ("<", 1000)):
            given = recording(2000, layout, unit)
            for what, code in (("all", EVERY), ("some", LINK5), ("the first 64 bytes", FIRST_64), ("by the last byte", ODD)):
                ran = run(["capture", "--code", code, "--pcapng"], input=given, stdout=subprocess.PIPE)
                self.case(f"pcapng: capture, {len(given)} bytes, {layout}{unit}, {what}", difference(ran, SUCCESS, "", of_recording(given, code)))
        large = header() + b"".join(record(i, frame(5, size, 1)) for i, size in enumerate([60, 262144, 61, 62, 63, 65536, 65520, 262143, 60]))
        ran = run(["capture", "--code", EVERY, "--pcapng"], input=large, stdout=subprocess.PIPE)
        self.case("pcapng: capture, frames larger than every buffer", difference(ran, SUCCESS, "", of_recording(large, EVERY)))
        ran = run(["capture", "--code", EVERY, "--pcapng"], input=header(), stdout=subprocess.PIPE)
        self.case("pcapng: capture, no packet", difference(ran, SUCCESS, "", head()))
        self.place.put(out=OLDER * 100000, given=large)
        ran = run(["capture", "--code", EVERY, "--pcapng", "-o", self.place.path("out"), self.place.path("given")], stdout=subprocess.PIPE)
        fault = difference(ran, SUCCESS, "", b"") or ("" if self.place.read("out") == of_recording(large, EVERY) else "the file differs")
        self.case("pcapng: capture, over a longer file", fault)
        ran = run(["capture", "--code", EVERY, self.place.path("out")], stdout=subprocess.PIPE)
        self.case("pcapng: capture reads its own file back", difference(ran, SUCCESS, "", capture(large, EVERY)))

    def watched(self, name, config, code, a, b, *flags):
        """A run whose capture has the verdicts, and whose ledger is as ever."""
        expected = watch(config, code, a, b)
        self.place.put(config=config, filter=code, a=a, b=b, capture=OLDER, ledger=OLDER)
        ran = self.place.watch(*flags)
        fault = "" if ran.returncode == SUCCESS else difference(ran, SUCCESS, "")
        fault = fault or ("" if self.place.read("ledger") == expected.lines + expected.summary else "the ledger differs")
        fault = fault or ("" if self.place.read("capture") == of_watch(expected, config) else "the capture differs")
        self.case(f"pcapng: watch, {name}{' ' if flags else ''}{' '.join(flags)}", fault)
        return expected

    def test_runs(self):
        for seed in range(60):
            config, code, a, b = pairs.pair(random.Random(seed))
            self.watched(f"pair {seed}", config, code, a, b, *WORKERS[seed % len(WORKERS)])
        many = tap(*((i * 10**6, frame(5 + i % 3, 60 + i % 5, i // 3 % 255 + 1)) for i in range(6000)))
        for flags in WORKERS:
            self.watched("6000 frames on both networks", TABLE, EVERY, many, many, *flags)
        large = tap(*((i, frame(5, size, 1)) for i, size in enumerate([60, 262144, 61, 65536, 65520, 262143, 60])))
        self.watched("frames larger than every buffer", TABLE, EVERY, large, large)

    def test_cuts(self):
        config, code, a, b = flight()
        ledger = self.watched("the flight of examples", config, code, a, b)
        ledger = ledger.lines + ledger.summary
        held = recordings_of(a, b)
        for options in ({}, {"verdict": "excess,out"}, {"network": "B"}, {"link": "301"}, {"verdict": "excess", "around": "2"}, {"link": "65535"}):
            lines = chosen(ledger, options, config)
            packets = [held[line.split()[1]][int(line.split()[2])] for line in lines]
            words = [word for name, value in options.items() for word in ("--" + name, value)]
            told = " ".join(words) or "all"
            note = "" if lines else nothing(ledger, options)
            self.case(f"pcapng: cut, {told}", difference(self.place.cut(*words), SUCCESS, note, annotated(lines, packets, {})))
            ran = self.place.cut(*words, "--config", self.place.path("config"))
            self.case(f"pcapng: cut, {told}, with names", difference(ran, SUCCESS, note, annotated(lines, packets, names_of(config))))

    def test_faults(self):
        """Devices that fail, and arguments that don't go together."""
        given = tap(*((i * 10**6, frame(5, 196, i % 255 + 1)) for i in range(1000)))
        for name, tapped in (("a full disk", given), ("a full disk, found at the flush", tap((0, frame(5, 60, 1))))):
            self.place.put(config=TABLE, filter=EVERY, a=tapped, b=tapped, given=tapped)
            ran = self.place.watch(ledger=self.place.path("ledger"))
            self.case(f"pcapng: watch before {name}", difference(ran, SUCCESS, ""))
            self.case(f"pcapng: cut, {name}", difference(self.place.cut("-o", "/dev/full"), FAULT, WRITE["cut"], b""))
            ran = run(["capture", "--code", EVERY, "--pcapng", "-o", "/dev/full", self.place.path("given")], stdout=subprocess.PIPE)
            self.case(f"pcapng: capture, {name}", difference(ran, FAULT, lambda told: told.startswith("afdxmon: ") and "rite" in told, b""))
            self.case(f"pcapng: watch, {name}", difference(self.place.watch(capture="/dev/full"), FAULT, WRITE["watch"], b""))
        self.closed_pipe(given)
        self.place.put(capture=OLDER)
        words = ["watch", *(word for name in ("config", "filter", "a", "b", "ledger") for word in ("--" + name, self.place.path(name)))]
        self.case("pcapng: watch without --capture", difference(run([*words, "--pcapng"], stdout=subprocess.PIPE), USAGE, lambda told: "--pcapng" in told, b""))
        self.case("pcapng: cut --ledger-only", difference(self.place.cut("--ledger-only"), USAGE, lambda told: "--pcapng" in told, b""))

    def closed_pipe(self, given):
        """The capture is a pipe whose reader takes some bytes and leaves."""
        pipe = self.place.path("pipe")
        os.mkfifo(pipe)
        self.place.put(config=TABLE, filter=EVERY, a=given, b=given)
        words = ["watch", *(word for name in ("config", "filter", "a", "b", "ledger") for word in ("--" + name, self.place.path(name)))]
        child = subprocess.Popen([PROGRAM, *words, "--capture", pipe, "--pcapng"], stdin=subprocess.DEVNULL, stdout=subprocess.PIPE, stderr=subprocess.PIPE)
        with open(pipe, "rb", buffering=0) as reader:
            taken = reader.read(1000)
        out, told = child.communicate(timeout=60)
        fault = difference(subprocess.CompletedProcess([], child.returncode, out, told), FAULT, WRITE["watch"], b"")
        expected = of_watch(watch(TABLE, EVERY, given, given), TABLE)
        self.case("pcapng: watch, a closed pipe", fault or ("" if expected.startswith(taken) else "what came is no prefix"))
        os.remove(pipe)

    def test_live(self):
        """Packets of a pipe that pauses can be seen with their verdicts."""
        first = header() + record(10**18, frame(5, 60, 1))
        pipe = self.place.path("live")
        os.mkfifo(pipe)
        self.place.put(config=TABLE, filter=EVERY, b=tap())
        words = ["watch", *(word for name in ("config", "filter", "b", "ledger") for word in ("--" + name, self.place.path(name)))]
        child = subprocess.Popen([PROGRAM, *words, "--a", pipe, "--capture", "-", "--pcapng"], stdin=subprocess.DEVNULL, stdout=subprocess.PIPE, stderr=subprocess.DEVNULL)
        expected = of_watch(watch(TABLE, EVERY, first, tap()), TABLE)
        late = threading.Timer(30, child.kill)
        late.start()
        with open(pipe, "wb", buffering=0) as writer:
            writer.write(first)
            seen = child.stdout.read(len(expected))
        rest = child.stdout.read()
        child.wait()
        late.cancel()
        os.remove(pipe)
        self.case("pcapng: watch, a pipe that pauses", "" if seen + rest == expected else "what was seen differs")

    def test_by_tshark(self):
        """An independent reader shows the comments and the names of the interfaces."""
        name = "pcapng: tshark reads comments and interfaces"
        if not shutil.which("tshark"):
            return self.skip(name, "tshark isn't installed")
        config, code, a, b = flight()
        expected = watch(config, code, a, b)
        self.place.put(config=config, filter=code, a=a, b=b)
        self.place.watch()
        ran = subprocess.run(["tshark", "-r", self.place.path("capture"), "-T", "fields", "-e", "frame.comment", "-e", "frame.interface_name"], capture_output=True, timeout=120)
        kept = [line for line in frame_lines(expected.lines) if line.split()[9] != "-"]
        names = names_of(config)
        lines = "".join(f"{comment_of(line, names)}\t{line.split()[1]}\n" for line in kept)
        self.case(name, "" if ran.stdout.decode() == lines else f"it shows {ran.stdout[:200]!r}; {ran.stderr[:200]!r}")
