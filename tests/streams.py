"""Tests of how files are given: options that are left out, the standard streams by `-`, and the ways to give `capture` its
filter, its recording and its output.
"""
import itertools
import os
import pty
import select
import socket
import subprocess

from tests.analyser import watch
from tests.harness import EVERY, FAULT, LINK5, PROGRAM, SUCCESS, USAGE, difference, ended, frame, read, recording, run
from tests.harness import run_at_terminal, told_to
from tests.reference import HEADER, capture
from tests.texts import ADVICE, ALSO, CLOSED, MISUSE, READ_TWICE, RECORDING_TOO, TAKEN, TO_A_TERMINAL, usage_error
from tests.watching import OLDER, TABLE, AtADesk, notes_on, tap

INPUTS = ("config", "filter", "a", "b")
OUTPUTS = ("capture", "ledger")
# The inputs of other commands in the order in which they are looked at, and of these what a command can't do without.
READ_BY = {
    "cut": (("ledger", "a", "b", "config"), ("ledger", "a")),
    "links": (("icd", "a", "b"), ()),
    "report": (("config", "manifest", "ledger", "baseline"), ("config", "ledger")),
    "check": (("config", "filter", "a", "b"), ("config",)),
}
NO_FRAME = "1,6 0 0 0,"
LINK5_SOURCE = "ldh [4]\njne #5, drop\nret #-1\ndrop: ret #0\n"
A = tap(*((i * 1000, frame(5, 60 + i, i + 1)) for i in range(40)))
B = tap(*((i * 1000 + 500, frame(5, 60 + i, i + 1)) for i in range(3, 50)))
GIVEN = {"config": TABLE, "filter": EVERY, "a": A, "b": B}
WHOLE = watch(TABLE, EVERY, A, B)
RECORDING = recording(300)


def ledger_of(whole):
    return whole.lines + whole.summary


def line_of(fault):
    """The line of a fault, or of the file of an option."""
    return f"afdxmon: {fault}" if fault.startswith("watch ") else f"afdxmon: file {fault}"


# The paths by which the system names a stream, and the stream, by what closes it.
PATHS = {
    "<&-": ("input", ["/dev/stdin", "/dev/fd/0", "/proc/self/fd/0"]),
    ">&-": ("output", ["/dev/stdout", "/dev/fd/1", "/proc/self/fd/1"]),
    "2>&-": ("error", ["/dev/stderr", "/dev/fd/2", "/proc/self/fd/2"]),
}


class Files:
    """Files of one command, by name."""

    def __init__(self, folder):
        self.folder = folder

    def path(self, name):
        return os.path.join(self.folder, name)

    def write(self, name, data):
        with open(self.path(name), "wb") as out:
            out.write(data if isinstance(data, bytes) else data.encode())
        return self.path(name)

    def left(self, name):
        return read(self.path(name)) if os.path.lexists(self.path(name)) else None


def at_terminal(arguments):
    """A run whose standard output is a terminal: its status, what the terminal shows, and standard error."""
    ours, theirs = pty.openpty()
    try:
        ran = ended([PROGRAM, *arguments], stdin=subprocess.DEVNULL, stdout=theirs, stderr=subprocess.PIPE)
    finally:
        os.close(theirs)
    shown = told_to(ours)
    os.close(ours)
    return ran.returncode, shown, ran.stderr.decode()


class Streams(AtADesk):
    def setUp(self):
        super().setUp()
        self.files = Files(os.path.join(self.folder, "files"))
        os.mkdir(self.files.folder)

    def test_left_out(self):
        """What isn't given stands for nothing: no capture, a filter that accepts no frame, a recording without frames."""
        table = f'filters = ["{EVERY}"]\n' + TABLE
        for name, absent, config, (code, a, b) in (
            ("--capture", ["capture"], TABLE, (EVERY, A, B)),
            ("--capture and --filter", ["capture", "filter"], TABLE, (NO_FRAME, A, B)),
            ("--capture and --filter, beside a filter of the table", ["capture", "filter"], table, (NO_FRAME, A, B)),
            ("--a", ["a"], TABLE, (EVERY, HEADER, B)),
            ("--b", ["b"], TABLE, (EVERY, A, HEADER)),
            ("--b, --capture and --filter", ["b", "capture", "filter"], TABLE, (NO_FRAME, A, HEADER)),
        ):
            expected = watch(config, code, a, b)
            for workers in ("1", "2", "8"):
                self.desk.lay(**{**GIVEN, "config": config})
                ran = self.desk.watch("--workers", workers, **dict.fromkeys(absent))
                written = OLDER if "capture" in absent else expected.capture
                self.case(f"watch: without {name}, --workers {workers}", self.desk.agrees(ran, written, ledger_of(expected)))
        for name, absent in (
            ("--capture without --filter", ["filter"]),
            ("neither --a nor --b", ["a", "b"]),
            ("neither --a nor --b nor --filter", ["a", "b", "filter"]),
        ):
            self.desk.lay(**GIVEN)
            whole = usage_error("watch", MISUSE["Unfiltered" if absent == ["filter"] else "NoRecording"])
            fault = difference(self.desk.watch(**dict.fromkeys(absent)), USAGE, lambda told: told == whole, b"")
            self.case(f"watch: {name}", fault or self.desk.compared("capture", OLDER) or self.desk.compared("ledger", OLDER))

    def test_standard_input(self):
        """Each input of `watch` on standard input, in turn, from a file and from a pipe."""
        for option in INPUTS:
            self.desk.lay(**GIVEN)
            with open(self.desk.paths[option], "rb") as given:
                ran = run(self.desk.arguments(**{option: "-"}), stdin=given, stdout=subprocess.PIPE)
            self.case(f"watch: --{option} - from a file", self.desk.agrees(ran, WHOLE.capture, ledger_of(WHOLE)))
            content = read(self.desk.paths[option])
            self.desk.lay(**{**GIVEN, option: "another"})
            ran = run(self.desk.arguments(**{option: "-"}), input=content, stdout=subprocess.PIPE)
            self.case(f"watch: --{option} - from a pipe", self.desk.agrees(ran, WHOLE.capture, ledger_of(WHOLE)))
        self.desk.lay(**GIVEN)
        os.rename(self.desk.paths["a"], os.path.join(self.desk.directory, "-"))
        ran = run(self.desk.arguments(a="./-"), cwd=self.desk.directory, stdin=subprocess.DEVNULL, stdout=subprocess.PIPE)
        self.case("watch: --a ./- is a file of that name", self.desk.agrees(ran, WHOLE.capture, ledger_of(WHOLE)))

    def test_standard_output(self):
        for option, text, other in (("capture", WHOLE.capture, "ledger"), ("ledger", ledger_of(WHOLE), "capture")):
            self.desk.lay(**GIVEN)
            fault = difference(self.desk.watch(**{option: "-"}), SUCCESS, notes_on(ledger_of(WHOLE), {}), text)
            rest = WHOLE.capture if other == "capture" else ledger_of(WHOLE)
            self.case(f"watch: --{option} -", fault or self.desk.compared(option, OLDER) or self.desk.compared(other, rest))
        self.desk.lay(**GIVEN)
        ran = run(self.desk.arguments(capture=None, filter=None, b=None, a="-", ledger="-"), input=A, stdout=subprocess.PIPE)
        self.judge("watch: verdicts from standard input to standard output", ran, SUCCESS, "", ledger_of(watch(TABLE, NO_FRAME, A, HEADER)))
        with open("/dev/full", "wb") as full:
            ran = run(self.desk.arguments(ledger="-"), stdin=subprocess.DEVNULL, stdout=full)
        self.judge("watch: --ledger - on a full disk", ran, FAULT, "afdxmon: watch 4 Write ledger")

    def refused_twice(self, name, line, advice, arguments, place="standard input", **how):
        """A fault at a terminal, with what it is about and its advice, and elsewhere."""
        self.judge(name, run(arguments, stdout=subprocess.PIPE, **how), FAULT, f"afdxmon: {line}", b"")
        ran = run_at_terminal(arguments, **how)
        whole = f"afdxmon: {line}\n{place}: {advice}\n"
        fault = "" if (ran.returncode, ran.stderr, ran.stdout) == (FAULT, whole, b"") else f"status {ran.returncode}, {ran.stderr!r}, not {whole!r}"
        self.case(f"{name}, at a terminal", fault)

    def test_taken(self):
        """A stream that two options name is refused before anything is opened."""
        for first, second in [*itertools.combinations(INPUTS, 2), OUTPUTS]:
            self.desk.lay(**GIVEN)
            arguments = self.desk.arguments(**{first: "-", second: "-"})
            place = "standard output" if second in OUTPUTS else "standard input"
            self.refused_twice(f"watch: --{first} - and --{second} -", f"file --{second}", TAKEN[first], arguments, place, input=b"")
            self.case("watch: the outputs stand", self.desk.compared("capture", OLDER) or self.desk.compared("ledger", OLDER))
        every = self.desk.arguments(**dict.fromkeys((*INPUTS, *OUTPUTS), "-"))
        self.refused_twice("watch: - everywhere", "file --filter", TAKEN["config"], every, input=b"")
        self.refused_twice("capture: --filter - and no recording", "file RECORDING", TAKEN["filter"], ["capture", "--filter", "-"], input=b"")
        self.refused_twice("capture: --source - and -", "file RECORDING", TAKEN["source"], ["capture", "--source", "-", "-"], input=b"")
        for command, (inputs, needed) in READ_BY.items():
            for first, second in itertools.combinations(inputs, 2):
                given = {**dict.fromkeys(needed, "nowhere"), first: "-", second: "-"}
                words = [command, *(word for option, path in given.items() for word in (f"--{option}", path))]
                self.refused_twice(f"{command}: --{first} - and --{second} -", f"file --{second}", TAKEN[first], words, input=b"")
        for option, more in (("filter", ["--tap", "nowhere"]), ("source", ["--tap", "nowhere"]), ("tap", ["--filter", "nowhere"])):
            self.refused_twice(f"debug: --{option} -", f"file --{option}", TAKEN["commands"], ["debug", f"--{option}", "-", *more], input=b"")

    def test_closed(self):
        """A stream that is closed is refused, though a file that is opened would get its number."""
        for option, redirection in (("a", "<&-"), ("config", "<&-"), ("ledger", ">&-"), ("capture", ">&-")):
            self.desk.lay(**GIVEN)
            words = " ".join(f"'{word}'" for word in [PROGRAM, *self.desk.arguments(**{option: "-"})])
            ran = ended(["bash", "-c", f"{words} {redirection}"], stdout=subprocess.DEVNULL, stderr=subprocess.PIPE)
            fault = difference(ran, FAULT, f"afdxmon: file --{option}")
            self.case(f"watch: --{option} - {redirection}", fault or self.desk.compared("capture", OLDER) or self.desk.compared("ledger", OLDER))
        self.closed_of_others()
        self.closed_by_path()

    def closed_of_others(self):
        """The same of the other commands: a recording that they open isn't taken for the stream."""
        self.desk.lay(**{**GIVEN, "ledger": "afdx-ledger 2\n"})
        config, code, a, ledger = (self.desk.paths[name] for name in ("config", "filter", "a", "ledger"))
        for words, option, redirection in (
            (["capture", "--code", EVERY, a], "watch 4 Write capture", ">&-"),
            (["capture", "--filter", code], "watch 3 Read A", "<&-"),
            (["cut", "--ledger", ledger, "--a", a], "--output", ">&-"),
            (["cut", "--ledger", "-", "--a", a, "-o", self.desk.paths["capture"]], "--ledger", "<&-"),
            (["report", "--config", config, "--ledger", ledger], "--output", ">&-"),
            (["links", "--a", a], "-", ">&-"),
            (["links", "--a", "-"], "--a", "<&-"),
            (["check", "--config", config, "--a", a], "-", ">&-"),
            (["asm"], "-", ">&-"),
            (["asm"], "-", "<&-"),
            (["debug", "--filter", code, "--tap", a], "-", ">&-"),
            (["debug", "--filter", code, "--tap", a], "-", "<&-"),
        ):
            line, closed = line_of(option), "output" if redirection == ">&-" else "input"
            for more, told in ([], line), (["-v"], f"{line}\n{CLOSED.format(closed)}"):
                typed = " ".join(f"'{word}'" for word in [PROGRAM, *words, *more])
                ran = ended(["bash", "-c", f"{typed} {redirection}"], stdin=subprocess.DEVNULL, stdout=subprocess.PIPE, stderr=subprocess.PIPE)
                self.judge(" ".join([words[0], *more, option, redirection]), ran, FAULT, told, b"")
        for asked in ("--version",), ("--help",), ("help", "watch"), ("-V",), ("capture", "--help"):
            with open("/dev/full", "wb") as full:
                ran = run(list(asked), stdin=subprocess.DEVNULL, stdout=full)
            self.judge(f"{' '.join(asked)} on a full disk", ran, FAULT, "afdxmon: file -")
            ran = ended(["bash", "-c", f"'{PROGRAM}' {' '.join(asked)} >&-"], stdin=subprocess.DEVNULL, stderr=subprocess.PIPE)
            self.judge(f"{' '.join(asked)} to a closed standard output", ran, FAULT, "afdxmon: file -")

    def closed_by_path(self):
        """The same of a stream that is named by its path in the system, be it as a later file of a recording."""
        self.desk.lay(**{**GIVEN, "ledger": ledger_of(WHOLE)})
        config, code, a, ledger, out = (self.desk.paths[name] for name in ("config", "filter", "a", "ledger", "capture"))
        watching = ["watch", "--config", config, "--a", a]
        for words, option, redirection in (
            ([*watching, "--ledger", out, "--b"], "--b", "<&-"),
            (["watch", "--config", config, "--ledger", out, "--a", a], "--a", "<&-"),
            ([*watching, "--ledger"], "--ledger", ">&-"),
            ([*watching, "--ledger"], "--ledger", "2>&-"),
            (["report", "--config", config, "--ledger", ledger, "-o", out, "--baseline"], "--baseline", "<&-"),
            (["check", "--config", config, "--a", a, "--b"], "--b", "<&-"),
            (["cut", "--ledger", ledger, "-o", out, "--a", a, "--b"], "--b", "<&-"),
            (["capture", "--filter", code, a, "-o"], "watch 4 Write capture", ">&-"),
            (["capture", "--filter", code, "-o", out], "watch 3 Read A", "<&-"),
        ):
            stream, paths = PATHS[redirection]
            told = "" if stream == "error" else f"{line_of(option)}\n{CLOSED.format(stream)}"
            for path in paths:
                typed = " ".join(f"'{word}'" for word in [PROGRAM, *words, path, "-v"])
                ran = ended(["bash", "-c", f"{typed} {redirection}"], stdin=subprocess.DEVNULL, stdout=subprocess.PIPE, stderr=subprocess.PIPE)
                self.judge(f"{words[0]} {option} {path} {redirection}", ran, FAULT, told, b"")
        self.case("no output was taken for a closed stream", self.desk.compared("capture", OLDER) or self.desk.compared("ledger", ledger_of(WHOLE)))

    def test_one_pipe_twice(self):
        """A pipe that two files are is refused by whatever names, before it is opened. A regular file, or /dev/null, may be read twice."""
        self.desk.lay(**{**GIVEN, "ledger": ledger_of(WHOLE)})
        config, code, a, ledger, out = (self.desk.paths[name] for name in ("config", "filter", "a", "ledger", "capture"))
        fifo = os.path.join(self.desk.directory, "pipe")
        os.mkfifo(fifo)
        watching = ["watch", "--config", config, "--ledger", out]
        for words, option, told in (
            ([*watching, "--a", a, "/dev/stdin", "--b", "-"], "--a", f"/dev/stdin: {READ_TWICE}"),
            ([*watching, "--a", "-", "--b", "/dev/stdin"], "--b", f"/dev/stdin: {READ_TWICE}"),
            ([*watching, "--a", "/dev/fd/0", "--b", "-"], "--b", f"standard input: {READ_TWICE}"),
            ([*watching, "--a", fifo, "--b", fifo], "--b", f"{fifo}: {READ_TWICE}"),
            (["watch", "--config", "/dev/stdin", "--a", "-", "--ledger", out], "--a", f"standard input: {READ_TWICE}"),
            (["check", "--config", config, "--a", "/dev/stdin", "--b", "/proc/self/fd/0"], "--b", f"/proc/self/fd/0: {READ_TWICE}"),
            (["report", "--config", config, "--ledger", "-", "--baseline", "/dev/stdin", "-o", out], "--baseline", f"/dev/stdin: {READ_TWICE}"),
            (["cut", "--ledger", "-", "--a", "/dev/stdin", "-o", out], "--a", f"/dev/stdin: {READ_TWICE}"),
            (["links", "--a", fifo, fifo], "--a", f"{fifo}: {READ_TWICE}"),
            (["capture", "--filter", "-", "/dev/stdin", "-o", out], "RECORDING", f"/dev/stdin: {READ_TWICE}"),
            (["debug", "--filter", code, "--tap", "/dev/stdin"], "--tap", f"/dev/stdin: {READ_TWICE}"),
            (["debug", "--source", "/dev/stdin", "--tap", a], "--source", f"/dev/stdin: {READ_TWICE}"),
        ):
            ran = run([*words, "-v"], input=b"", stdout=subprocess.PIPE)
            self.judge(f"{words[0]}: one pipe twice, {option}", ran, FAULT, f"afdxmon: file {option}\n{told}", b"")
        ours, theirs = socket.socketpair()
        with ours, theirs:
            ran = run([*watching, "--a", "-", "--b", "/dev/stdin", "-v"], stdin=theirs, stdout=subprocess.PIPE)
        self.judge("watch: one socket twice", ran, FAULT, f"afdxmon: file --b\n/dev/stdin: {READ_TWICE}", b"")
        self.case("the outputs stand", self.desk.compared("capture", OLDER) or self.desk.compared("ledger", ledger_of(WHOLE)))
        ran = run(["watch", "--config", config, "--a", "/dev/null", "--b", "/dev/null", "--ledger", out], stdin=subprocess.DEVNULL, stdout=subprocess.PIPE)
        self.judge("watch: /dev/null twice", ran, FAULT, "afdxmon: watch 2 Header A 1 Short", b"")
        ran = run(["capture", "--filter", "-", "/dev/null"], stdin=subprocess.DEVNULL, stdout=subprocess.PIPE)
        self.judge("capture: - and /dev/null are one device", ran, FAULT, "afdxmon: numeric 3 Form at 0", b"")
        with open(a, "rb") as given:
            ran = run(["watch", "--config", config, "--a", "-", "--b", "/dev/stdin", "--ledger", "-"], stdin=given, stdout=subprocess.PIPE)
        self.judge("watch: - and /dev/stdin are one regular file", ran, SUCCESS, "", ledger_of(watch(TABLE, NO_FRAME, A, A)))
        os.remove(fifo)

    def test_captures(self):
        """Each way to give the filter, with each way to give the recording, with each way to give the output."""
        expected = capture(RECORDING, LINK5)
        code, source = self.files.write("code", LINK5), self.files.write("source", LINK5_SOURCE)
        given = self.files.write("in.pcap", RECORDING)
        out = self.files.path("out.pcap")
        filters = (["--code", LINK5], ["--filter", code], ["--source", source])
        words = ([], ["-"], [given])
        outputs = ([], ["-o", "-"], ["--output=-"], ["-o", out], [f"-o{out}"], ["--output", out])
        for flt, word, output in itertools.product(filters, words, outputs):
            self.files.write("out.pcap", bytes(len(RECORDING)))
            to_file = any(out in it for it in output)
            stdin = {"stdin": subprocess.DEVNULL} if word == [given] else {"input": RECORDING}
            ran = run(["capture", *flt, *word, *output], stdout=subprocess.PIPE, **stdin)
            fault = difference(ran, SUCCESS, "", b"" if to_file else expected)
            left = self.files.left("out.pcap") if to_file else expected
            name = " ".join(["capture:", flt[0], *("FILE" if it == given else it for it in word), *(it.replace(out, "FILE") for it in output)])
            self.case(name, fault or ("" if left == expected else f"{len(left)} bytes in the file, not {len(expected)}"))
        self.judge("capture: the filter on standard input", run(["capture", "--filter", "-", given], input=LINK5.encode(), stdout=subprocess.PIPE), SUCCESS, "", expected)
        self.judge("capture: the source on standard input", run(["capture", "--source", "-", given], input=LINK5_SOURCE.encode(), stdout=subprocess.PIPE), SUCCESS, "", expected)
        os.remove(out)
        self.judge("capture: a new output", run(["capture", *filters[0], "-o", out, given], stdin=subprocess.DEVNULL, stdout=subprocess.PIPE), SUCCESS, "", b"")
        self.case("capture: it is written", "" if self.files.left("out.pcap") == expected else "it is another")

    def test_capture_faults(self):
        """Faults in their order, each with all that may come after it. The output stands."""
        absent, code = self.files.path("absent"), self.files.write("code", LINK5)
        given, short = self.files.write("in.pcap", RECORDING), self.files.write("short.pcap", b"\x4d")
        for name, flt, word, output, line in (
            ("no filter file", ["--filter", absent], absent, self.files.folder, "file --filter"),
            ("a directory as filter", ["--filter", self.files.folder], absent, self.files.folder, "file --filter"),
            ("a filter file that isn't UTF-8", ["--filter", self.files.write("latin", b"\xff")], absent, self.files.folder, "file --filter"),
            ("a filter file that isn't numeric", ["--filter", self.files.write("words", "ret")], absent, self.files.folder, "numeric 1 Character at 0"),
            ("a filter file that doesn't load", ["--filter", self.files.write("none", "0,")], absent, self.files.folder, "load 1 Length"),
            ("no source file", ["--source", absent], absent, self.files.folder, "file --source"),
            ("a source that isn't assembled", ["--source", self.files.write("bad", "ld @")], absent, self.files.folder, "asm 1 Text 1 Character at 3"),
            ("a source that doesn't load", ["--source", self.files.write("open", "ld #1")], absent, self.files.folder, "load 8 NoReturn"),
            ("no recording", ["--filter", code], absent, absent, "file RECORDING"),
            ("an output that is the recording", ["--filter", code], given, given, "file --output"),
            ("an output that is the filter", ["--filter", code], short, code, "file --output"),
            ("a directory as output", ["--filter", code], short, self.files.folder, "file --output"),
            ("a recording without a file header", ["--filter", code], short, self.files.write("out.pcap", OLDER), "watch 2 Header A 1 Short"),
            ("a directory as recording", ["--filter", code], self.files.folder, self.files.path("out.pcap"), "watch 3 Read A"),
            ("a full disk", ["--filter", code], given, "/dev/full", "watch 4 Write capture"),
        ):
            ran = run(["capture", *flt, word, "-o", output], stdin=subprocess.DEVNULL, stdout=subprocess.PIPE)
            self.judge(f"capture: {name}", ran, FAULT, f"afdxmon: {line}", b"")
        for name, expected in (("in.pcap", RECORDING), ("code", LINK5.encode()), ("out.pcap", OLDER), ("absent", None)):
            self.case(f"capture: {name} stands after its faults", "" if self.files.left(name) == expected else "it has changed")
        shown = f"{self.files.path('bad')}:1:4\nld @\n   ^\n{ADVICE['asm 1 Text 1']}\n"
        ran = run_at_terminal(["capture", "--source", self.files.path("bad"), given], stdin=subprocess.DEVNULL)
        whole = "afdxmon: asm 1 Text 1 Character at 3\n" + shown
        self.case("capture: a source's fault is shown at a terminal", "" if (ran.returncode, ran.stderr) == (FAULT, whole) else f"{ran.returncode}, {ran.stderr!r}")

    def ends_while_it_pauses(self, name, arguments, given, line, output):
        """A command whose output can't be written, and whose input stays open after these bytes, ends at once."""
        reads, writes = os.pipe()
        os.write(writes, given)
        child = subprocess.Popen([PROGRAM, *arguments], stdin=reads, stdout=output, stderr=subprocess.PIPE)
        os.close(reads)
        try:
            told = child.communicate(timeout=5)[1].decode()
            fault = "" if (child.returncode, told) == (FAULT, f"afdxmon: {line}\n") else f"status {child.returncode}, {told!r}"
        except subprocess.TimeoutExpired:
            child.kill()
            child.wait()
            fault = "it goes on"
        os.close(writes)
        self.case(f"{name} while its input pauses", fault)

    def test_refused_outputs(self):
        """An output that can't be written, of an input that pauses after a part of a packet or of a line."""
        some, lines = RECORDING[:5000], ledger_of(WHOLE)[:3000]
        ledger = ["cut", "--ledger", "-", "--a", self.files.write("a.pcap", A), "--b", self.files.write("b.pcap", B)]
        for name, arguments, given, line in (
            ("capture", ["capture", "--code", EVERY], some, "watch 4 Write capture"),
            ("capture --pcapng", ["capture", "--code", EVERY, "--pcapng"], some, "watch 4 Write capture"),
            ("cut", ledger, lines, "cut 6 Write Output"),
            ("cut --ledger-only", [*ledger, "--ledger-only"], lines, "cut 6 Write Output"),
        ):
            self.ends_while_it_pauses(f"{name} -o /dev/full", [*arguments, "-o", "/dev/full"], given, line, subprocess.DEVNULL)
            reads, writes = os.pipe()
            os.close(reads)
            self.ends_while_it_pauses(f"{name} to a closed pipe", arguments, given, line, writes)
            os.close(writes)

    def tells_while_it_pauses(self, name, arguments, given, line, held):
        """A run whose output can't be written, and whose inputs stay open after these bytes, tells it at once, and ends with them."""
        reads, writes = os.pipe()
        os.write(writes, given)
        child = subprocess.Popen([PROGRAM, *arguments], stdin=reads, stdout=subprocess.DEVNULL, stderr=subprocess.PIPE)
        os.close(reads)
        told = os.read(child.stderr.fileno(), 4096) if select.select([child.stderr], [], [], 5)[0] else b"nothing"
        os.close(writes)
        os.close(held)
        try:
            rest = child.communicate(timeout=20)[1]
            fits = (child.returncode, told, rest) == (FAULT, f"afdxmon: {line}\n".encode(), b"")
            fault = "" if fits else f"status {child.returncode}, {told!r}, then {rest!r}"
        except subprocess.TimeoutExpired:
            child.kill()
            child.wait()
            fault = "it goes on"
        self.case(f"{name} while its inputs pause", fault)

    def test_refused_outputs_of_watch(self):
        """An output of `watch` that can't be written, while both recordings pause after a part of a packet."""
        self.desk.lay(**GIVEN)
        fifo = os.path.join(self.desk.directory, "fifo")
        os.mkfifo(fifo)
        for output in ("capture", "ledger"):
            held = os.open(fifo, os.O_RDWR)
            os.write(held, B[:5000])
            arguments = self.desk.arguments(a="-", b=fifo, **{output: "/dev/full"})
            self.tells_while_it_pauses(f"watch --{output} /dev/full", arguments, A[:5000], f"watch 4 Write {output}", held)
        os.remove(fifo)

    def test_same_files(self):
        """An output that is the recording, the filter or the source, by each way to name it."""
        paths = {"filter": self.files.write("code", LINK5), "source": self.files.write("source", LINK5_SOURCE), "recording": self.files.write("in.pcap", RECORDING)}
        for kind, path in paths.items():
            names = [path, os.path.join(self.files.folder, ".", os.path.basename(path))]
            for make, link in ((os.symlink, f"symlink_{kind}"), (os.link, f"hard_{kind}")):
                make(path, self.files.path(link))
                names.append(self.files.path(link))
            flt = ["--source", paths["source"]] if kind == "source" else ["--filter", paths["filter"]]
            also = RECORDING_TOO if kind == "recording" else ALSO.format(kind)
            for name in names:
                command = ["capture", *flt, paths["recording"], "-o", name]
                self.refused_twice(f"capture: the output is the {kind}", "file --output", also, command, name, stdin=subprocess.DEVNULL)
        command = [PROGRAM, "capture", "--code", EVERY]
        with open(paths["recording"], "rb") as given:
            ran = ended([*command, "-o", paths["recording"]], stdin=given, stdout=subprocess.PIPE, stderr=subprocess.PIPE)
        self.judge("capture: the output is the file on standard input", ran, FAULT, "afdxmon: file --output", b"")
        with open(paths["recording"], "ab") as out:
            ran = ended([*command, paths["recording"]], stdin=subprocess.DEVNULL, stdout=out, stderr=subprocess.PIPE)
        self.judge("capture: standard output is the recording", ran, FAULT, "afdxmon: file --output")
        for name, expected in (("in.pcap", RECORDING), ("code", LINK5.encode()), ("source", LINK5_SOURCE.encode())):
            self.case(f"capture: {name} stands", "" if self.files.left(name) == expected else "it has changed")

    def test_terminals(self):
        """Packets aren't written to a terminal, and nothing is looked at then. A ledger is."""
        told = (USAGE, "", TO_A_TERMINAL + "\n")
        for name, arguments in (
            ("capture", ["capture", "--filter", "nowhere", "nowhere"]),
            ("capture -o -", ["capture", "--code", EVERY, "nowhere", "-o", "-"]),
            ("watch --capture -", self.desk.arguments(config="nowhere", capture="-")),
        ):
            found = at_terminal(arguments)
            self.case(f"{name} at a terminal", "" if found == told else f"{found!r}")
        self.desk.lay(**GIVEN)
        found = at_terminal(self.desk.arguments(ledger="-"))
        expected = (SUCCESS, ledger_of(WHOLE).decode(), "")
        self.case("watch --ledger - at a terminal", "" if found == expected else f"{found!r}"[:300])
        given = self.files.write("in.pcap", RECORDING)
        found = at_terminal(["capture", "--code", LINK5, given, "-o", self.files.path("out.pcap")])
        self.case("capture -o FILE at a terminal", "" if found == (SUCCESS, "", "") and self.files.left("out.pcap") == capture(RECORDING, LINK5) else f"{found!r}")

    def test_misuse(self):
        """Options that don't go together, with the whole text."""
        for command, more, name in (
            ("capture", [], "NoFilter"),
            ("capture", ["in.pcap", "-o", "out.pcap"], "NoFilter"),
            ("capture", ["--code", EVERY, "--filter", "f"], "TwoFilters"),
            ("capture", ["--code", EVERY, "--source", "f"], "TwoFilters"),
            ("capture", ["--filter", "f", "--source", "f"], "TwoFilters"),
            ("capture", ["--code", EVERY, "--filter", "f", "--source", "f"], "TwoFilters"),
            ("debug", ["--tap", "t"], "NoFilter"),
            ("debug", ["--tap", "t", "--filter", "f", "--source", "f"], "TwoFilters"),
            ("watch", ["--config", "t", "--ledger", "l", "--a", "a", "--pcapng"], "Uncaptured"),
            ("watch", ["--config", "t", "--ledger", "l", "--a", "a", "--filter", "f", "--pcapng"], "Uncaptured"),
            ("watch", ["--config", "t", "--ledger", "l", "--pcapng"], "NoRecording"),
            ("watch", ["--config", "t", "--ledger", "l", "--a", "a", "--capture", "c", "--pcapng"], "Unfiltered"),
            ("cut", ["--ledger", "l", "--ledger-only", "--pcapng"], "NoPackets"),
            ("cut", ["--ledger", "l", "--a", "a", "--ledger-only", "--pcapng", "--network", "C"], "NoPackets"),
            ("cut", ["--ledger", "l", "--pcapng"], "NoRecording"),
            ("cut", ["--ledger", "l", "--config", "t", "--link", "5", "--verdict", "out", "--from", "1", "--to", "2"], "NoRecording"),
            ("links", [], "NoLinks"),
            ("links", ["--constant", "0x03000000"], "NoLinks"),
        ):
            whole = usage_error(command, MISUSE[name])
            ran = run([command, *more], input=b"", stdout=subprocess.PIPE)
            self.judge(" ".join([command, *more, "is refused"]), ran, USAGE, lambda told, whole=whole: told == whole, b"")
        source, given = self.files.write("source", LINK5_SOURCE), self.files.write("in.pcap", RECORDING)
        ran = run(["debug", "--source", source, "--tap", given], input=b"disassemble\ntally\n", stdout=subprocess.PIPE)
        by_code = run(["debug", "--filter", self.files.write("code", LINK5), "--tap", given], input=b"disassemble\ntally\n", stdout=subprocess.PIPE)
        accepted = (len(capture(RECORDING, LINK5)) > 24) and by_code.stdout
        self.judge("debug --source is as --filter with its numeric form", ran, SUCCESS, "", accepted)
        shown = f"{self.files.path('bad')}:1:4\nld @\n   ^\n{ADVICE['asm 1 Text 1']}\n"
        ran = run_at_terminal(["debug", "--source", self.files.write("bad", "ld @"), "--tap", given], stdin=subprocess.DEVNULL)
        whole = "afdxmon: asm 1 Text 1 Character at 3\n" + shown
        self.case("debug: a source's fault is shown at a terminal", "" if (ran.returncode, ran.stderr) == (FAULT, whole) else f"{ran.returncode}, {ran.stderr!r}")
