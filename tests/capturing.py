"""The commands `capture` and `asm` on streams: successes, notes, faults, and how the program is called.

Expected captures come from the reference parser in tests/reference.py.
"""
import os
import socket
import struct
import subprocess

from tests.harness import EVERY, FAULT, FIRST_64, HERE, LINK5, ODD, PROGRAM, SUCCESS, USAGE, Case, frame, header, record, recording, run
from tests.reference import HEADER, capture, frames_of, record_of


FIRST_RUN = header() + record(0, frame(5, 60, 1)) + record(1, frame(6, 60, 1))


ETHERTYPE = b"ldh [12]\njne #0x806, drop\nret #-1\ndrop: ret #0"
ETHERTYPE_FORM = b"4,40 0 0 12,21 0 1 2054,6 0 0 4294967295,6 0 0 0,\n"


class Capturing(Case):
    def captured(self, name, code, given, status, line, out=None):
        self.judge(name, run(["capture", "--code", code], input=given, stdout=subprocess.PIPE), status, line, out)

    def test_successes(self):
        self.captured("the first run: one link copied out", LINK5, FIRST_RUN, SUCCESS, "", FIRST_RUN[:100])
        self.captured("a file header alone", EVERY, header(), SUCCESS, "", HEADER)
        self.captured("the numeric form on lines", LINK5.replace(",", "\n"), FIRST_RUN, SUCCESS, "", FIRST_RUN[:100])
        for layout, unit in (("<", 1), (">", 1), ("<", 1000), (">", 1000)):
            big = recording(5000, layout, unit)
            name = f"{len(big)} bytes, {'little' if layout == '<' else 'big'}-endian, {'nano' if unit == 1 else 'micro'}seconds"
            for what, code in (("few", LINK5), ("all", EVERY), ("cut", FIRST_64), ("by the last byte", ODD)):
                self.captured(f"{name}, {what}", code, big, SUCCESS, "", capture(big, code))
        large = header() + b"".join(record(i, frame(5, size, 1)) for i, size in enumerate([60, 262144, 61, 65536, 65520, 262143, 60]))
        self.captured("records of 262144 bytes between small ones", EVERY, large, SUCCESS, "", large)
        empty = header() + b"".join(record(i, b"") for i in range(3))
        self.captured("frames of no bytes", EVERY, empty, SUCCESS, "", empty)
        longest = "4096," + "0 0 0 7," * 4095 + "6 0 0 60,"
        self.captured("a filter of 4096 instructions", longest, FIRST_RUN, SUCCESS, "", FIRST_RUN)
        spaced = "1," + " " * 100_000 + "6 0 0 0,"
        self.captured("an argument of 100 kilobytes", spaced, FIRST_RUN, SUCCESS, "", HEADER)

    def test_notes(self):
        note = "afdxmon: note: recording ends "
        self.captured("a truncated recording", EVERY, FIRST_RUN[:-1], SUCCESS, note + "cut after 1 frame: truncated within a record", FIRST_RUN[:100])
        back = FIRST_RUN + record(0, frame(5, 60, 2))
        by_one = "bad after 2 frames: timestamp out of order by 1 ns (--late-us 1 takes it)"
        self.captured("a timestamp out of order", EVERY, back, SUCCESS, note + by_one, FIRST_RUN)
        self.captured("a timestamp out of order, of a packet that is cut", EVERY, back[:-1], SUCCESS, note + by_one, FIRST_RUN)
        self.captured("a fraction out of range", EVERY, header() + struct.pack("<IIII", 0, 10**9, 0, 0), SUCCESS, note + "bad after 0 frames: fraction of a second out of range", HEADER)
        with open(os.path.join(HERE, "..", "examples", "out_of_order.pcap"), "rb") as example:
            out_of_order = example.read()
        self.captured("the example that is out of order", EVERY, out_of_order, SUCCESS, note + by_one.replace("2 frames", "4 frames"), capture(out_of_order, EVERY))
        self.captured("a record that claims 262145 bytes", EVERY, header() + struct.pack("<IIII", 0, 0, 262145, 0), SUCCESS, note + "bad after 0 frames: captured length over 262144 bytes", HEADER)

    def test_faults(self):
        for code, line in (
            ("1,x", "numeric 1 Character at 2"),
            ("1,6 0 256 0", "numeric 2 Number at 6"),
            ("1,6 0 0", "numeric 3 Form at 2"),
            ("", "numeric 3 Form at 0"),
            ("2,6 0 0 0,", "numeric 4 Count at 10"),
            ("4097,", "numeric 5 TooMany at 0"),
            ("0,", "load 1 Length"),
            ("2,23 0 0 0,6 0 0 0,", "load 2 UnknownCode at 0"),
            ("2,52 0 0 0,6 0 0 0,", "load 3 ZeroDivisor at 0"),
            ("2,100 0 0 32,6 0 0 0,", "load 4 Shift at 0"),
            ("2,2 0 0 16,6 0 0 0,", "load 5 Scratch at 0"),
            ("2,32 0 0 2147483648,6 0 0 0,", "load 6 Offset at 0"),
            ("2,5 0 0 1,6 0 0 0,", "load 7 Jump at 0"),
            ("2,6 0 0 0,0 0 0 1,", "load 8 NoReturn"),
            ("4,21 0 1 0,2 0 0 0,96 0 0 0,22 0 0 0,", "load 9 Unstored at 2 word 0"),
        ):
            self.captured(f"the filter {code!r}", code, FIRST_RUN, FAULT, f"afdxmon: {line}", b"")
        for what, given, line in (
            ("no bytes", b"", "1 Short"),
            ("23 bytes", header()[:23], "1 Short"),
            ("the first bytes of a pcapng file", b"\x0a\x0d\x0d\x0a" + bytes(40), "5 ByteOrderMagic"),
            ("a gzip file", b"\x1f\x8b\x08\0" + bytes(40), "2 Magic"),
            ("a magic number that differs in a byte", b"\0" + header()[1:], "2 Magic"),
            ("version 2.3", header(version=(2, 3)), "3 Version"),
            ("version 1.4", header(version=(1, 4)), "3 Version"),
            ("link type 101", header(link_type=101), "4 LinkType"),
            ("link type 0", header(link_type=0), "4 LinkType"),
        ):
            self.captured(what, EVERY, given, FAULT, f"afdxmon: watch 2 Header A {line}", b"")

    def assembled(self, name, source, status, line, out=b""):
        self.judge(name, run(["asm"], input=source, stdout=subprocess.PIPE), status, line, out)

    def test_sources(self):
        """The command asm: programs as Linux's bpf_asm prints them, and refusals."""
        for name, source, form in (
            ("the ethertype filter", ETHERTYPE, ETHERTYPE_FORM),
            ("a newline at the end", ETHERTYPE + b"\n", ETHERTYPE_FORM),
            ("carriage returns", ETHERTYPE.replace(b"\n", b"\r\n"), ETHERTYPE_FORM),
            ("the last byte", b"ld len\nsub #1\ntax\nldb [x + 0]\nret a", b"5,128 0 0 0,20 0 0 1,7 0 0 0,80 0 0 0,22 0 0 0,\n"),
            ("jump if less", b"ld len\njlt #61, s\nret #0\ns: ret #60", b"4,128 0 0 0,53 0 1 61,6 0 0 0,6 0 0 60,\n"),
            ("either case", b"LDH [12]\nRet #0X10", b"2,40 0 0 12,6 0 0 16,\n"),
            ("a target at distance 255", b"jeq #0, l\n" + b"ret #0\n" * 255 + b"l: ret #0", b"257,21 255 0 0," + b"6 0 0 0," * 256 + b"\n"),
        ):
            self.assembled(name, source, SUCCESS, "", form)
        many = b"".join(b"l%d: ret #%d\n" % (i, i) for i in range(4096))
        self.assembled("4096 statements with labels", many, SUCCESS, "", b"4096," + b"".join(b"6 0 0 %d," % i for i in range(4096)) + b"\n")
        for source, line in (
            (b"ldq [1]", "asm 1 Text 3 Form at 4"),
            (b"x: ret #0", "asm 1 Text 4 ReservedLabel at 0"),
            (b"ld #4294967296", "asm 1 Text 2 Number at 4"),
            (b"ld @", "asm 1 Text 1 Character at 3"),
            (b"l:", "asm 1 Text 3 Form at 2"),
            (b"", "asm 2 Empty"),
            (b"jmp l", "asm 5 NoLabel at 0"),
            (b"l: ret #0 jmp l", "asm 6 Backward at 1"),
            (b"l: ret #0 l: ret #0", "asm 4 TwiceLabel at 1"),
            (b"jmp l\nL: ret #0", "asm 5 NoLabel at 0"),
            (b"\xff", "file -"),
        ):
            self.assembled(f"the source {source!r}", source, FAULT, f"afdxmon: {line}")
        self.assembled("a target at distance 256", b"jeq #0, l\n" + b"ret #0\n" * 256 + b"l: ret #0", FAULT, "afdxmon: asm 7 TooFar at 0")
        self.assembled("4097 statements", b"ret #0\n" * 4097, FAULT, "afdxmon: asm 3 TooMany")
        self.assembled("16777216 spaces", b" " * 16777216, FAULT, "afdxmon: asm 2 Empty")
        self.assembled("16777217 spaces", b" " * 16777217, FAULT, "afdxmon: file -")
        with open("/dev/full", "wb") as full:
            self.judge("the numeric form on a full disk", run(["asm"], input=ETHERTYPE, stdout=full), FAULT, "afdxmon: file -")
        closed = subprocess.run(["bash", "-c", f"'{PROGRAM}' asm <&-"], stdout=subprocess.PIPE, stderr=subprocess.PIPE, timeout=60)
        self.judge("asm with closed standard input", closed, FAULT, "afdxmon: file -", b"")

    def test_examples(self):
        """The filters of examples/filters on the recording beside them: each keeps what it says."""
        folder = os.path.join(HERE, "..", "examples")
        with open(os.path.join(folder, "three_links.pcap"), "rb") as recorded:
            given = recorded.read()
        keeps = {
            "link5_head.asm": lambda data, whole: 64 if data[4:6] == b"\0\5" else 0,
            "reset.asm": lambda data, whole: len(data) if data[-1] == 0 else 0,
            "too_long.asm": lambda data, whole: len(data) if data[4:6] == b"\0\6" and whole + 4 > 600 else 0,
        }
        if sorted(keeps) != sorted(os.listdir(os.path.join(folder, "filters"))):
            self.case("the filters of examples/filters", "one is missing here or there")
        for name, keep in keeps.items():
            with open(os.path.join(folder, "filters", name), "rb") as source:
                code = run(["asm"], input=source.read(), stdout=subprocess.PIPE).stdout.decode()
            kept = [(stamp, whole, data[: keep(data, whole)]) for stamp, whole, data in frames_of(given) if keep(data, whole)]
            out = HEADER + b"".join(record_of(stamp, whole, data) for stamp, whole, data in kept)
            self.captured(f"examples/filters/{name}, which keeps {len(kept)} frames", code, given, SUCCESS, "", out)

    def test_devices(self):
        path = os.path.join(self.folder, "recording.pcap")
        big = recording(3000)
        with open(path, "wb") as out:
            out.write(big)
        command = ["capture", "--code", EVERY]
        with open(path, "rb") as given, open("/dev/full", "wb") as full:
            self.judge("a full disk", run(command, stdin=given, stdout=full), FAULT, "afdxmon: watch 4 Write capture")
        with open("/dev/full", "wb") as full:
            self.judge("a full disk, found at the flush", run(command, input=FIRST_RUN, stdout=full), FAULT, "afdxmon: watch 4 Write capture")
        with open(path, "rb") as given:
            reads, writes = os.pipe()
            child = subprocess.Popen([PROGRAM, *command], stdin=given, stdout=writes, stderr=subprocess.PIPE)
            os.close(writes)
            prefix = os.read(reads, 10000)
            os.close(reads)
            told = child.communicate(timeout=60)[1]
            ran = subprocess.CompletedProcess(command, child.returncode, prefix, told)
            self.judge("a closed pipe", ran, FAULT, "afdxmon: watch 4 Write capture", big[: len(prefix)])
        shell = f"'{PROGRAM}' capture --code '{EVERY}'"
        for name, redirection, line in (("closed standard input", "<&-", "3 Read A"), ("closed standard output", f"< '{path}' >&-", "4 Write capture")):
            self.judge(name, subprocess.run(["bash", "-c", f"{shell} {redirection}"], stdout=subprocess.DEVNULL, stderr=subprocess.PIPE, timeout=60), FAULT, f"afdxmon: watch {line}")
        directory = os.open(self.folder, os.O_RDONLY)
        self.judge("a directory as standard input", run(command, stdin=directory, stdout=subprocess.PIPE), FAULT, "afdxmon: watch 3 Read A", b"")
        os.close(directory)
        self.failing(command, big)

    def failing(self, command, big):
        """Standard input that gives the first bytes and then fails: a socket whose other end closes with bytes unread."""
        for given in (10, 60_000, 100_000, 131_073, 190_001):
            ours, theirs = socket.socketpair()
            ours.setsockopt(socket.SOL_SOCKET, socket.SO_SNDBUF, 1 << 20)
            theirs.send(b"never read")
            ours.sendall(big[:given])
            ours.close()
            ran = run(command, stdin=theirs, stdout=subprocess.PIPE)
            theirs.close()
            expected = capture(big[:given], EVERY) if given >= 24 else b""
            self.judge(f"standard input that fails after {given} bytes", ran, FAULT, "afdxmon: watch 3 Read A", expected)

    def test_usage(self):
        def mentions(*words):
            return lambda told: all(word in told for word in words)

        for name, arguments, line in (
            ("no arguments", [], mentions("Usage", "capture", "asm")),
            ("an unknown command", ["inspect"], mentions("inspect")),
            ("no filter", ["capture"], mentions("--code <TEXT>")),
            ("an option twice", ["capture", "--code", EVERY, "--code", EVERY], mentions("--code")),
            ("an argument of asm", ["asm", "source"], mentions("source")),
            ("an argument that isn't UTF-8", ["capture", "--code", b"\xff"], "afdxmon: an argument is not valid UTF-8"),
        ):
            self.judge(name, run(arguments, input=FIRST_RUN, stdout=subprocess.PIPE), USAGE, line, b"")
        self.judge("--code=FILTER", run(["capture", "--code=" + LINK5], input=FIRST_RUN, stdout=subprocess.PIPE), SUCCESS, "", FIRST_RUN[:100])
