"""Hostile surroundings: a limit on the size of files, names that would act on a terminal, two outputs that are one pipe, and a table
with a million links. What has to come of each is known before the program runs.
"""
import json
import os
import re
import resource
import subprocess
import time

from tests.analyser import watch
from tests.blocks import Blocks
from tests.harness import EVERY, FAULT, PROGRAM, TOP, USAGE, Case, difference, ended, frame, read, recording, run
from tests.reference import capture
from tests.streams import ledger_of
from tests.texts import ADVICE, ALSO, UNWRITTEN, WRITTEN_TWICE
from tests.watching import TABLE, Desk, tap

# A colour, a line of its own, a tab, a line's start, a C1 control, and a mark that turns the writing round.
EVIL = "a\x1b[31m\nsound: yes\t\r\x9b\u202e.pcap"
SHOWN = "a\\u{1b}[31m\\u{a}sound: yes\\u{9}\\u{d}\\u{9b}\\u{202e}.pcap"
GIVEN = tap(*((number * 1000, frame(5, 60, number % 255 + 1)) for number in range(200)))


def limited(most):
    """What sets the size that files may have at most in a process, as `ulimit -f` does."""
    return lambda: resource.setrlimit(resource.RLIMIT_FSIZE, (most, most))


def run_limited(arguments, most, **how):
    return run(arguments, preexec_fn=limited(most), **{"stdout": subprocess.PIPE, **how})


def stacks():
    """The stack that docs/PROOFS.md names for each command, in KiB."""
    rows = re.findall(r"^\| (`\w+`(?:, `\w+`)*) \| (\d+) \|$", read(os.path.join(TOP, "docs", "PROOFS.md")).decode(), re.M)
    return {command: int(size) for commands, size in rows for command in re.findall(r"\w+", commands)}


def has_raw(text):
    """The first character of a text that would act on a terminal."""
    raw = [it for it in text if it in "\x1b\r\t\x9b\u202e"]
    return repr(raw[0]) if raw else ""


class Hostile(Case):
    def test_file_limit(self):
        """A file that gets too long is a write that fails: the fault line, status 1, and what was written up to the limit."""
        big, out = os.path.join(self.folder, "big.pcap"), os.path.join(self.folder, "out")
        given = recording(3000)
        with open(big, "wb") as made:
            made.write(given)
        whole = capture(given, EVERY)
        for most in (0, 1, 24, 65535, 65536, 65537, len(whole) - 1):
            ran = run_limited(["capture", "--code", EVERY, big, "-o", out, "-v"], most)
            told = f"afdxmon: watch 4 Write capture\n{out}: File too large (os error 27)\n{UNWRITTEN}"
            fault = difference(ran, FAULT, told, b"") or ("" if read(out) == whole[:most] else "the file isn't the first bytes")
            self.case(f"hostile: capture -o, files up to {most} bytes", fault)
        for name, before in (("capture > file", b""), ("capture >> file", b"x" * 1000)):
            with open(out, "wb") as made:
                made.write(before)
            with open(out, "ab") as made:
                ran = run_limited(["capture", "--code", EVERY, big], 70000, stdout=made)
            fault = difference(ran, FAULT, "afdxmon: watch 4 Write capture")
            self.case(f"hostile: {name}, up to 70000 bytes", fault or ("" if read(out) == (before + whole)[:70000] else "the file isn't the first bytes"))
        ran = run_limited(["capture", "--code", EVERY, big, "-o", out], len(whole))
        self.case("hostile: a file as long as the limit", difference(ran, 0, "", b"") or ("" if read(out) == whole else "another file"))
        ran = run_limited(["capture", "--code", EVERY, big], 0)
        self.judge("hostile: a pipe has no limit", ran, 0, "", whole)
        ran = run_limited(["capture", "--code", EVERY, big, "-o", "/dev/null"], 0)
        self.judge("hostile: /dev/null has none", ran, 0, "", b"")

    def test_each_output(self):
        """The same of each output of each command."""
        desk = Desk(self.folder)
        desk.lay(config=TABLE, filter=EVERY, a=GIVEN, b=GIVEN)
        out = os.path.join(self.folder, "out")
        sides = ["--a", desk.paths["a"], "--b", desk.paths["b"]]
        watching = ["watch", "--config", desk.paths["config"], *sides]
        ledger, packets = desk.paths["ledger"], os.path.join(self.folder, "packets")
        run([*watching, "--ledger", ledger], stdout=subprocess.PIPE)
        for words, line in (
            ([*watching, "--ledger", out], "watch 4 Write ledger"),
            ([*watching, "--ledger", packets, "--capture", out, "--filter", desk.paths["filter"]], "watch 4 Write capture"),
            ([*watching, "--ledger", "/dev/null", "--manifest", out], "watch 4 Write manifest"),
            (["report", "--config", desk.paths["config"], "--ledger", ledger, "-o", out], "file --output"),
            (["cut", "--ledger", ledger, *sides, "-o", out], "cut 6 Write Output"),
            (["cut", "--ledger", ledger, "--ledger-only", "-o", out], "cut 6 Write Output"),
        ):
            ran = run_limited(words, 30)
            self.case(f"hostile: {' '.join(words[:1])} {line}, up to 30 bytes", difference(ran, FAULT, f"afdxmon: {line}", b"") or ("" if os.path.getsize(out) <= 30 else "longer"))
        for words, given in (
            (["links", *sides], b""),
            (["check", "--config", desk.paths["config"], *sides], b""),
            (["asm"], b"ret #0\n" * 9),
            (["debug", "--filter", desk.paths["filter"], "--tap", desk.paths["a"]], b"show\n" * 9),
            (["--help"], b""),
            (["help", "watch"], b""),
            (["--version"], b""),
        ):
            with open(out, "wb") as made:
                ran = run_limited(words, 5, stdout=made, input=given)
            self.case(f"hostile: {words[0]} > file, up to 5 bytes", difference(ran, FAULT, "afdxmon: file -") or ("" if os.path.getsize(out) == 5 else f"{os.path.getsize(out)} bytes"))

    def test_full_messages(self):
        """Where standard error is a file without room, the status alone tells."""
        told, out = os.path.join(self.folder, "told"), os.path.join(self.folder, "out")
        for name, words, status in (
            ("a fault", ["capture", "--code", "1,x"], FAULT),
            ("a note", ["capture", "--code", EVERY], 0),
            ("a write that fails", ["capture", "--code", EVERY, "-o", out], FAULT),
        ):
            with open(told, "wb") as made:
                made.write(bytes(100))
            with open(told, "ab") as made:
                how = {"stdout": subprocess.PIPE, "stderr": made, "preexec_fn": limited(100), "input": GIVEN[:-1]}
                ran = ended([PROGRAM, *words], **how)
            self.case(f"hostile: full messages, {name}", "" if ran.returncode == status and read(told) == bytes(100) else f"status {ran.returncode}")

    def test_names(self):
        """Control characters in a path stand escaped, so that no path begins a line of its own."""
        desk = Desk(self.folder)
        desk.lay(config=TABLE, filter=EVERY, a=GIVEN, b=GIVEN)
        evil, shown = os.path.join(self.folder, EVIL), os.path.join(self.folder, SHOWN)
        with open(evil, "wb") as made:
            made.write(GIVEN)
        config, ledger, out = desk.paths["config"], desk.paths["ledger"], os.path.join(self.folder, "out")
        run(["watch", "--config", config, "--a", desk.paths["a"], "--ledger", ledger], stdout=subprocess.PIPE)
        none, not_there = evil + ".none", "No such file or directory (os error 2)"
        for words, line, told in (
            (["capture", "--code", EVERY, none], "file RECORDING", f"{shown}.none: {not_there}"),
            (["watch", "--config", none, "--a", evil, "--ledger", out], "file --config", f"{shown}.none: {not_there}"),
            (["watch", "--config", config, "--a", none, "--ledger", out], "file --a", f"{shown}.none: {not_there}"),
            (["watch", "--config", evil, "--a", evil, "--ledger", out], "file --config", f"{shown}: not UTF-8 at byte 2"),
            (["watch", "--config", config, "--a", evil, "--ledger", evil], "file --ledger", f"{shown}: {ALSO.format('a')}"),
            (["report", "--config", config, "--ledger", none], "file --ledger", f"{shown}.none: {not_there}"),
            (["report", "--config", config, "--ledger", evil], "report 1 Ledger at 1 head", f"{shown}: {ADVICE['report 1 Ledger at 1 head']}"),
            (["capture", "--filter", evil, evil], "file --filter", f"{shown}: not UTF-8 at byte 2"),
            (["cut", "--ledger", ledger, "--a", none], "file --a", f"{shown}.none: {not_there}"),
            (["links", "--icd", none, "--a", evil], "file --icd", f"{shown}.none: {not_there}"),
        ):
            ran = run([*words, "-v"], stdout=subprocess.PIPE)
            said = ran.stderr.decode("utf-8", "replace")
            fits = ran.returncode == FAULT and said.startswith(f"afdxmon: {line}\n{told}")
            fault = "" if fits else f"status {ran.returncode}, {said!r}, not {told!r}"
            self.case(f"hostile: names, {words[0]} {line}", fault or has_raw(said))
        ran = run(["check", "--config", config, "--a", evil, desk.paths["b"], "--b", evil], stdout=subprocess.PIPE)
        said = ran.stdout.decode()
        lines = [it for it in said.splitlines() if it.startswith("sound: ")]
        self.case("hostile: names, check", has_raw(said) or ("" if len(lines) == 1 and f"network A: {shown} and 1 more file: " in said and lines[0] != "sound: yes" else said))
        ran = run(["check", "--json", "--config", config, "--a", evil], stdout=subprocess.PIPE)
        raw = [byte for byte in ran.stdout.strip(b"\n") if byte < 32]
        self.case("hostile: names, check --json", f"{raw}" if raw else "" if json.loads(ran.stdout)["a"]["path"] == evil else "another path")
        manifest, page = os.path.join(self.folder, "manifest"), os.path.join(self.folder, "page.html")
        run(["watch", "--config", config, "--a", evil, "--ledger", ledger, "--manifest", manifest], stdout=subprocess.PIPE)
        self.case("hostile: names, the manifest", "" if json.loads(read(manifest))["inputs"]["a"]["path"] == evil else "another path")
        run(["report", "--config", config, "--ledger", ledger, "--manifest", manifest, "-o", page], stdout=subprocess.PIPE)
        text = read(page).decode()
        self.case("hostile: names, the page", has_raw(text))

    def test_keys(self):
        """Keys and values of a table stand escaped too."""
        table = os.path.join(self.folder, "evil.toml")
        with open(table, "w") as made:
            made.write('constant = 0x03000000\n"\\u001b[31m\\nsound: yes" = 1\n')
        ran = run(["check", "--config", table], stdout=subprocess.PIPE)
        said = ran.stdout.decode()
        self.case("hostile: a key of the table, check", has_raw(said) or ("" if said.count("\nsound: ") == 1 and "\\u{1b}[31m\\u{a}sound: yes" in said else said))
        ran = run(["watch", "--config", table, "--a", table, "--ledger", "/dev/null", "-v"], stdout=subprocess.PIPE)
        said = ran.stderr.decode()
        self.case("hostile: a key of the table, watch", has_raw(said) or ("" if "\\u{1b}[31m\\u{a}sound: yes" in said else said))

    def test_interfaces(self):
        """Names of interfaces that would act on a terminal aren't shown: their numbers stand for them."""
        path, packet = os.path.join(self.folder, "several.pcapng"), frame(5, 60, 1)
        for evil in ("\x1b[31m", "a\nsound: yes", "a\tb", "\x9b31m", "\u202eb"):
            file = Blocks().section().interface(evil, 9).interface("eth1", 9).packet(10**18, packet).packet(10**18 + 1, packet, 1)
            with open(path, "wb") as made:
                made.write(file.bytes())
            ran = run(["capture", "--code", EVERY, path, "-v"], stdout=subprocess.PIPE)
            said = ran.stderr.decode()
            fits = ran.returncode == FAULT and said.startswith("afdxmon: interfaces RECORDING: 0, 1 eth1\n")
            self.case(f"hostile: an interface named {evil!r}", has_raw(said) or ("" if fits and "sound" not in said else repr(said)))

    def test_words(self):
        """Arguments that are refused are shown without what acts on a terminal; one with a line break isn't shown."""
        ran = run(["capture", "--code", EVERY, "--\x1b[31mx"], stdout=subprocess.PIPE)
        said = ran.stderr.decode()
        self.case("hostile: an argument with an escape", has_raw(said) or ("" if ran.returncode == USAGE and "--\\u{1b}[31mx" in said else said))
        ran = run(["capture", "--code", EVERY, "--x\nsound: yes"], stdout=subprocess.PIPE)
        line = "afdxmon: the arguments aren't taken, nor shown, since one has a line break"
        self.judge("hostile: an argument with a line break", ran, USAGE, line, b"")

    def test_one_pipe(self):
        """Two outputs that are one pipe would be mixed."""
        desk = Desk(self.folder)
        desk.lay(config=TABLE, filter=EVERY, a=GIVEN, b=GIVEN)
        fifo, link = os.path.join(self.folder, "fifo"), os.path.join(self.folder, "link")
        os.mkfifo(fifo)
        os.symlink(fifo, link)
        twice = WRITTEN_TWICE
        watching = ["watch", "--config", desk.paths["config"], "--filter", desk.paths["filter"], "--a", desk.paths["a"], "--b", desk.paths["b"]]
        for name, capture_to, ledger_to, manifest_to, option, told in (
            ("standard output", "/dev/stdout", "/dev/stdout", None, "--ledger", "/dev/stdout"),
            ("- and its path", "-", "/dev/fd/1", None, "--ledger", "/dev/fd/1"),
            ("a path of it and -", "/proc/self/fd/1", "-", None, "--ledger", "standard output"),
            ("a named pipe", fifo, fifo, None, "--ledger", fifo),
            ("a named pipe and a symlink to it", fifo, link, None, "--ledger", link),
            ("the manifest", None, "/dev/stdout", "/dev/fd/1", "--manifest", "/dev/fd/1"),
        ):
            given = [("--capture", capture_to), ("--ledger", ledger_to), ("--manifest", manifest_to)]
            ran = run([*watching, *(it for pair in given if pair[1] for it in pair), "-v"], stdout=subprocess.PIPE)
            self.judge(f"hostile: one pipe for two outputs, {name}", ran, FAULT, f"afdxmon: file {option}\n{told}: {twice}", b"")
        ran = run([*watching, "--capture", "/dev/null", "--ledger", "/dev/null"], stdout=subprocess.PIPE)
        self.judge("hostile: /dev/null for two outputs", ran, 0, "", b"")
        ran = run([*watching, "--ledger", "/dev/stdout"], stdout=subprocess.PIPE)
        self.judge("hostile: one output to a pipe", ran, 0, "", ledger_of(watch(TABLE, EVERY, GIVEN, GIVEN)))

    def test_many_links(self):
        """A table of a million links is refused at the speed of reading, by its one fault."""
        table = os.path.join(self.folder, "many.toml")
        with open(table, "w") as made:
            made.write("constant = 0x03000000\n" + "[[link]]\n" * 1_000_000)
        start = time.monotonic()
        ran = run(["check", "--config", table], stdout=subprocess.PIPE)
        took = time.monotonic() - start
        first = f"{table}:4098:1: 1000000 links and 0 filters: at most 4096 links and 7 filters"
        wanted = f"table: {table}: 1 fault\nfault: {first}\nsound: no, 1 fault and 0 questions\n"
        self.judge("hostile: a million links", ran, FAULT, "afdxmon: check 1 Unsound", wanted.encode())
        self.case("hostile: they are refused within seconds", "" if took < 5 else f"it took {took:.1f} s")

    def test_stack(self):
        """Each command runs as ever within the stack that docs/PROOFS.md names for it, on a table and a manifest as deep as may be."""
        desk = Desk(self.folder)
        desk.lay(config=TABLE, filter=EVERY, a=GIVEN, b=GIVEN)
        paths = desk.paths
        deep = {"table": "constant = 50331648\nfilters = " + "[" * 80 + "]" * 80, "manifest": '{"manifest": 1, "x": ' + "[" * 126 + "]" * 126 + "}"}
        for name, text in deep.items():
            with open(os.path.join(self.folder, name), "w", encoding="ascii") as made:
                made.write(text)
        ledger, sides = os.path.join(self.folder, "l"), ["--a", paths["a"], "--b", paths["b"]]
        watching = ["watch", "--config", paths["config"], *sides, "--ledger", ledger]
        runs = [watching, [*watching, "--workers", "8", "--manifest", "-", "--digest"]]
        runs += [["watch", "--config", os.path.join(self.folder, "table"), *sides, "--ledger", ledger]]
        runs += [["capture", "--code", EVERY, paths["a"], "--pcapng"], ["debug", "--filter", paths["filter"], "--tap", paths["a"]], ["asm"]]
        runs += [["check", "--config", paths["config"], *sides], ["links", *sides], ["cut", "--ledger", ledger, *sides, "--around", "3"]]
        ports = ["--before", paths["a"], "--after", paths["b"]]
        runs += [["transit", "--config", paths["config"], *ports, *more] for more in ([], ["--json"])]
        runs += [["report", "--config", paths["config"], "--ledger", ledger, *more] for more in ([], ["--json"], ["--manifest", os.path.join(self.folder, "manifest")])]
        self.case("hostile: docs/PROOFS.md names the stack of each command", "" if {words[0] for words in runs} == set(stacks()) else f"{stacks()}")
        for words in runs:
            size = stacks()[words[0]] * 1024
            how = {"stdout": subprocess.PIPE, "input": b"ret #0\n" if words == ["asm"] else b""}
            whole = run(words, **how)
            ran = run(words, preexec_fn=lambda: resource.setrlimit(resource.RLIMIT_STACK, (size, size)), **how)
            name = " ".join(map(os.path.basename, words))
            self.case(f"hostile: {name}, a stack of {size} bytes", difference(ran, whole.returncode, whole.stderr.decode().rstrip("\n"), whole.stdout))
