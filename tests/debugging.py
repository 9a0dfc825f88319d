"""Tests of `afdxmon debug` as a program: sessions, faults in their order, and a terminal."""
import os
import pty
import re
import select
import subprocess

from tests.harness import EVERY, FAULT, HERE, PROGRAM, SUCCESS, USAGE, Case
from tests.harness import frame, header, record, run
from tests.texts import COMMANDS, FULL, UNWRITTEN, advice_on_ending

STORING = "5,0 0 0 7,2 0 0 3,97 0 0 3,135 0 0 0,22 0 0 0,"
ZEROS = " 0" * 16
START = f"at 0 pc 0 A 0 X 0 M{ZEROS}\n"
WALK = (
    ("step +1", "fault 1 NoFrame\n"),
    ("select 0", START),
    ("step +3", "at 3 pc 3 A 7 X 7 M 0 0 0 7" + " 0" * 12 + "\n"),
    ("step -2", f"at 1 pc 1 A 7 X 0 M{ZEROS}\n"),
    ("step +2", "at 3 pc 3 A 7 X 7 M 0 0 0 7" + " 0" * 12 + "\n"),
    ("step -9", START),
    ("breakpoint 2", "breakpoint 2 set\n"),
    ("cont", "at 2 pc 2 A 7 X 0 M 0 0 0 7" + " 0" * 12 + "\n"),
    ("cont", "at 5 done 7\n"),
    ("tally", "tally accepted 1 rejected 0\n"),
    ("select 1", "fault 2 NoSuchFrame\n"),
    ("breakpoint 5", "fault 3 NoSuchInsn\n"),
    ("quit", "bye\n"),
)
ONE_FRAME = header() + record(0, frame(5, 60, 1))


class Files:
    """A filter and a tap, in files."""

    def __init__(self, folder):
        self.folder = folder

    def write(self, name, data):
        path = os.path.join(self.folder, name)
        with open(path, "wb") as out:
            out.write(data if isinstance(data, bytes) else data.encode())
        return path

    def command(self, code=STORING, tap=ONE_FRAME):
        return ["debug", "--filter", self.write("filter", code), "--tap", self.write("tap.pcap", tap)]


NOTE = "afdxmon: note: recording ends "
# A recording that doesn't end clean, how many frames stand before its end, and the note on it.
ENDINGS = (
    ("truncated", ONE_FRAME + ONE_FRAME[24:99], 1, NOTE + "cut after 1 frame: truncated within a record"),
    ("truncated at its first packet", header() + b"\0", 0, NOTE + "cut after 0 frames: truncated within a record"),
    ("truncated within its first packet's bytes", ONE_FRAME[:99], 0, NOTE + "cut after 0 frames: truncated within a record"),
    ("truncated within its second packet's header", (ONE_FRAME + ONE_FRAME[24:])[:115], 1, NOTE + "cut after 1 frame: truncated within a record"),
    ("out of order", header() + b"".join(record(stamp, frame(5, 60, 1)) for stamp in (7, 8, 6)), 2, NOTE + "bad after 2 frames: timestamp out of order by 2 ns (--late-us 1 takes it)"),
)


# What is typed: the walk, and commands with tabs around them, which are none.
NO_COMMANDS = tuple((line, "fault 0 BadCommand\n") for line in ("\tquit", "quit\t", "quit \t ", "select\t0"))
TYPED = (*WALK[:-1], *NO_COMMANDS, ("  quit  ", "bye\n"))


def told_up_to(ours, end):
    """What comes from a terminal up to `end`, up to its close, or for half a minute."""
    told = b""
    while not told.endswith(end) and select.select([ours], [], [], 30)[0]:
        try:
            told += os.read(ours, 65536)
        except OSError:
            break  # nobody has the terminal open any more
    return told


def typed_at(child, ours, sees):
    """What a session says on standard output and, where it sees a terminal there, on standard error."""
    said, told = child.stdout.readline(), b""
    try:
        for line, _ in TYPED:
            if sees:
                told += told_up_to(ours, b"> ")
            os.write(ours, line.encode() + b"\n")
            said += child.stdout.readline()
    except OSError:
        pass  # the session has ended before its time
    told = told + told_up_to(ours, b"> ") if sees else child.stderr.read()
    return said + child.stdout.read(), told


class Debugging(Case):
    def setUp(self):
        self.files = Files(self.folder)

    def answered(self, name, command, given, out, note=""):
        given = given if isinstance(given, bytes) else given.encode()
        self.judge(name, run(command, input=given, stdout=subprocess.PIPE), SUCCESS, note, out.encode())

    def test_sessions(self):
        command = self.files.command()
        self.answered("the debugger's walk", command, "".join(line + "\n" for line, _ in WALK), "frames 1\n" + "".join(text for _, text in WALK))
        for name, given, out in (
            ("no commands", "", ""),
            ("blank lines of commands", "\n  \n\n ", ""),
            ("a last line without its newline", "tally", "tally accepted 1 rejected 0\n"),
            ("commands after quit", "quit\ntally\n", "bye\n"),
            ("carriage returns in commands", "quit\r\nselect 0\r\n\r\n", "fault 0 BadCommand\n" * 3),
            ("tabs in commands", "\tquit\nquit\t\nquit \t\n\t\nselect\t0\nquit\v\n", "fault 0 BadCommand\n" * 6),
            ("spaces in commands", "  select   00  \n", START),
        ):
            self.answered(name, command, given, "frames 1\n" + out)
        self.answered("a recording without frames", self.files.command(tap=header()), "select 0\n", "frames 0\nfault 2 NoSuchFrame\n")
        many = header() + b"".join(record(i, frame(5, 1514, i % 255 + 1)) for i in range(5000))
        self.answered("5000 frames", self.files.command(EVERY, many), "select 4999\ntally\n", f"frames 5000\n{START}tally accepted 5000 rejected 0\n")
        self.answered("100000 commands", self.files.command(), "tally\n" * 100_000, "frames 1\n" + "tally accepted 1 rejected 0\n" * 100_000)

    def test_endings(self):
        """How a recording ends is noted, once the session is over. After a fault it isn't."""
        for name, tap, count, note in ENDINGS:
            command = self.files.command(tap=tap)
            self.answered(f"a tap that is {name}", command, "", f"frames {count}\n", note)
            self.answered(f"a tap that is {name}, and commands after quit", command, "quit\ntally\n", f"frames {count}\nbye\n", note)
            ran = run(command, input=b"tally\n\xff", stdout=subprocess.PIPE)
            self.judge(f"a tap that is {name}, and commands that aren't UTF-8", ran, FAULT, "afdxmon: file -", b"")
            with open("/dev/full", "wb") as full:
                ran = run(command, input=b"tally\n", stdout=full)
            self.judge(f"a tap that is {name}, and replies on a full disk", ran, FAULT, "afdxmon: file -")

    def test_page(self):
        """The session of docs/DEBUGGER.md: each command that it names, and what it shows after it."""
        with open(os.path.join(HERE, "..", "docs", "DEBUGGER.md"), encoding="utf-8") as text:
            told = text.read().split("\n## Commands")[0]
        code = re.search(r"^echo '([^']*)' > number17$", told, re.MULTILINE).group(1)
        tap = header() + b"".join(record(i * 1_000_000, frame(5, 60, 16 + i)) for i in range(3))
        begun = told[re.search(r"The session\s+begins\s+with\s+the\s+number\s+of\s+frames", told).start():]
        named = re.compile(r"\*\*`([^`]*)`\*\*")
        commands = named.findall(begun)
        shown = "".join(block + "\n" for block in re.findall(r"^```\n(.*?)\n```$", begun.split("With `sub #1`")[0], re.MULTILINE | re.DOTALL))
        if len(commands) < 5:
            self.case("the session of docs/DEBUGGER.md", f"it names only {commands}")
        self.answered("the session of docs/DEBUGGER.md", self.files.command(code, tap), "".join(line + "\n" for line in commands), shown)
        self.answered("its filter, mended", self.files.command(code.replace("20 0 0 2", "20 0 0 1"), tap), "tally\n", "frames 3\ntally accepted 1 rejected 2\n")

    def test_faults(self):
        absent = os.path.join(self.files.folder, "absent")
        sound, tap = self.files.write("sound", STORING), self.files.write("sound.pcap", ONE_FRAME)
        # Each line's later files have faults too.
        for name, code, recorded, given, line in (
            ("no filter file", absent, absent, b"\xff", "file --filter"),
            ("a directory as filter", self.files.folder, absent, b"\xff", "file --filter"),
            ("a filter file that isn't UTF-8", self.files.write("latin", b"\xff"), absent, b"\xff", "file --filter"),
            ("a filter file that isn't numeric", self.files.write("words", "ret"), absent, b"\xff", "numeric 1 Character at 0"),
            ("a filter file that doesn't load", self.files.write("none", "0,"), absent, b"\xff", "load 1 Length"),
            ("no tap", sound, absent, b"\xff", "file --tap"),
            ("a directory as tap", sound, self.files.folder, b"\xff", "watch 3 Read A"),
            ("a tap without a file header", sound, self.files.write("short", b"\x4d"), b"\xff", "watch 2 Header A 1 Short"),
            ("commands that aren't UTF-8", sound, tap, b"tally\n\xff", "file -"),
            ("commands over the limit", sound, tap, b"tally\n" + b" " * 16777211, "file -"),
        ):
            ran = run(["debug", "--filter", code, "--tap", recorded], input=given, stdout=subprocess.PIPE)
            self.judge(name, ran, FAULT, f"afdxmon: {line}", b"")
        command = ["debug", "--filter", sound, "--tap", tap]
        with open("/dev/full", "wb") as full:
            self.judge("replies on a full disk", run(command, input=b"tally\n", stdout=full), FAULT, "afdxmon: file -")
            ran = run([*command, "-v"], input=b"tally\n", stdout=full)
            self.judge("replies on a full disk, in full", ran, FAULT, f"afdxmon: file -\nstandard output: {FULL}\n{UNWRITTEN}")
        shell = f"'{PROGRAM}' debug --filter '{sound}' --tap '{tap}'"
        for name, redirection in (("debug with closed standard input", "<&-"), ("debug with closed standard output", "< /dev/null >&-")):
            ran = subprocess.run(["bash", "-c", f"{shell} {redirection}"], stdout=subprocess.DEVNULL, stderr=subprocess.PIPE, timeout=60)
            self.judge(name, ran, FAULT, "afdxmon: file -")
        reads, writes = os.pipe()
        child = subprocess.Popen([PROGRAM, *command], stdin=subprocess.PIPE, stdout=writes, stderr=subprocess.PIPE)
        os.close(writes)
        os.close(reads)
        told = child.communicate(b"tally\n", timeout=60)[1]
        self.judge("replies into a closed pipe", subprocess.CompletedProcess(command, child.returncode, None, told), FAULT, "afdxmon: file -")
        for name, arguments in (
            ("debug without a tap", ["debug", "--filter", sound]),
            ("debug without a filter", ["debug", "--tap", tap]),
            ("an argument too many of debug", ["debug", "more", *command[1:]]),
        ):
            self.judge(name, run(arguments, input=b"", stdout=subprocess.PIPE), USAGE, lambda told: "--tap <FILE>" in told or "more" in told, b"")

    def test_typed(self):
        """Commands that are typed at a terminal are answered one by one, as they would be from a file. There are prompts only
        where standard error is a terminal too."""
        expected = "frames 1\n" + "".join(text for _, text in TYPED)
        prompts = COMMANDS + "\r\n> " + "".join(line + "\r\n> " for line, _ in TYPED)[:-2]
        _, cut, _, note = ENDINGS[0]
        for name, sees, tap, told_last in (
            ("commands at a terminal", False, ONE_FRAME, ""),
            ("commands at a terminal, with prompts", True, ONE_FRAME, ""),
            ("commands at a terminal, of a truncated tap", False, cut, note + "\n"),
            ("commands at a terminal, with prompts, of a truncated tap", True, cut, f"{note}\r\n{{}}: {advice_on_ending(note)}\r\n"),
        ):
            command = self.files.command(tap=tap)
            shown = prompts * sees + told_last.format(command[-1])
            ours, theirs = pty.openpty()
            child = subprocess.Popen([PROGRAM, *command], stdin=theirs, stdout=subprocess.PIPE, stderr=theirs if sees else subprocess.PIPE)
            os.close(theirs)
            said, told = typed_at(child, ours, sees)
            status = child.wait(timeout=60)
            good = status == SUCCESS and said == expected.encode() and told == shown.encode()
            self.case(name, "" if good else f"status {status}, {said!r}, {told!r}")
            child.stdout.close()
            os.close(ours)
