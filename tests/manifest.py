"""`afdxmon watch --manifest` and `afdxmon report --manifest`: the whole texts, and what is refused.

Digests are those of hashlib, lengths those of the files, frames, timestamps and endings those of tests/reference.py.
"""
import datetime
import fcntl
import hashlib
import html
import itertools
import json
import os
import re
import shutil
import signal
import struct
import subprocess
import termios
import threading
import time

from tests.analyser import watch
from tests.harness import (
    EVERY, FAULT, PROGRAM, SUCCESS, TOP, USAGE, difference, frame, header, put, read, record, run, run_at_terminal,
)
from tests.reference import parse
from tests.texts import FULL, MANIFEST, MISUSE, OUTPUT, UNWRITTEN, advice_on
from tests.watching import TABLE, AtADesk, notes_on, tap

START = 1_800_000_000 * 10**9
# The bytes that a pipe has room for.
PIPE = 65536
ENDS = {
    "clean": b"",
    "cut": record(START + 10**9, frame(5, 60, 9))[:-1],
    "length": record(START + 10**9, b"")[:8] + (262145).to_bytes(4, "little") * 2,
    "fraction": (1_800_000_001).to_bytes(4, "little") + (10**9).to_bytes(4, "little") + bytes(8),
    "stampback": record(0, frame(5, 60, 9)),
}


def frames(*stamps):
    return tap(*((START + stamp, frame(5, 60, number % 255 + 1)) for number, stamp in enumerate(stamps)))


A, B = frames(0, 10**6, 2 * 10**6 + 1), frames(500, 10**6 + 500)
INPUTS = {"config": TABLE, "filter": EVERY, "a": A, "b": B}
WHOLE = watch(TABLE, EVERY, A, B)
LEDGER = WHOLE.lines + WHOLE.summary


def digest(data):
    return hashlib.sha256(data).hexdigest()


def utc(stamp):
    """As RFC 3339 writes it, with as many decimals as it needs."""
    second = datetime.datetime.fromtimestamp(stamp // 10**9, datetime.timezone.utc)
    decimals = f"{stamp % 10**9:09}".rstrip("0")
    return f"{second:%Y-%m-%dT%H:%M:%S}{'.' if decimals else ''}{decimals}Z"


def file_of(path, data, hashed):
    return {"path": path, "bytes": len(data), "sha256": digest(data) if hashed else None}


def foreign_of(taken):
    """The frames of another constant field, which have no EtherType, if there are some."""
    foreign = [data for stamp, whole, data in taken if 64 <= whole + 4 <= 1518 and len(data) == whole and data[:4] != b"\x03\0\0\0"]
    return [{"ethertype": "0x0000", "name": "without an EtherType", "frames": len(foreign)}] if foreign else None


def recording_of(path, data, hashed, known=True):
    """A recording's members. Of a run that met a fault nothing is known but its bytes."""
    members = {"path": path, "files": None, **file_of(path, data, hashed)}
    members.update(dict.fromkeys(("frames", "end", "reason", "first", "first_utc", "last", "last_utc", "dropped", "torn", "tagged", "foreign", "crossed")))
    if known:
        taken, ending = parse(data)
        end, count, *reason = ending.split()
        members.update(frames=int(count), end=end, reason=reason[0] if reason else None, tagged=0, foreign=foreign_of(taken))
        if taken:
            first, last = min(taken)[0], max(taken)[0]
            members.update(first=str(first), first_utc=utc(first), last=str(last), last_utc=utc(last))
    return members


def program_of():
    told = run(["--version"], stdout=subprocess.PIPE).stdout.decode()
    version, commit = re.fullmatch(r"afdxmon (\S+) \(commit (\S+)\) proved by \S+\n", told).groups()
    return {"name": "afdxmon", "version": version, "commit": commit}


def manifest_of(arguments, paths, given, written, hashed, fault=None):
    """The manifest of a run with these arguments: the paths by their options, and what was read and written."""
    known = fault is None
    inputs = {"config": file_of(paths["config"], given["config"].encode(), True)}
    inputs["filter"] = file_of(paths["filter"], given["filter"].encode(), True) if paths["filter"] else None
    for network in "ab":
        inputs[network] = recording_of(paths[network], given[network], hashed, known) if paths[network] else None
    outputs = {option: file_of(paths[option], written[option], hashed) if paths[option] else None for option in ("capture", "ledger")}
    return {"manifest": 1, "program": program_of(), "command": [PROGRAM, *arguments], "fault": fault, "inputs": inputs, "outputs": outputs}


def text_of(manifest):
    return (json.dumps(manifest, indent=2, ensure_ascii=False) + "\n").encode()


class Run:
    """A run of `watch` on a desk with a manifest."""

    def __init__(self, desk, given, *more, **elsewhere):
        self.desk, self.given = desk, given
        self.paths = {**desk.paths, **elsewhere}
        self.target = os.path.join(desk.directory, "run.json")
        with open(self.target, "wb") as older:
            older.write(b"older, and longer than nothing")
        desk.lay(**given)
        self.hashed = "--digest" in more
        self.arguments = [*desk.arguments(**elsewhere), "--manifest", self.target, *more]

    def run(self, runner=run, **how):
        return runner(self.arguments, stdin=subprocess.DEVNULL, **{"stdout": subprocess.PIPE, **how})

    def expected(self, written, fault=None):
        return text_of(manifest_of(self.arguments, self.paths, self.given, written, self.hashed, fault))

    def compared(self, written, fault=None):
        """How the manifest that was written differs from what is expected."""
        found, wanted = read(self.target), self.expected(written, fault)
        return "" if found == wanted else f"the manifest is {found.decode()}, not {wanted.decode()}"


def verified(folder):
    """What the guide's command says of the files of a run: those that it calls sound, and its status."""
    command = re.search(r"\$ (jq -r '\(\.inputs.*?sha256sum -c)", read(TOP, "docs", "GUIDE.md").decode(), re.S)[1]
    ran = subprocess.run(["bash", "-o", "pipefail", "-c", command], cwd=folder, capture_output=True, text=True)
    return [line.removesuffix(": OK") for line in ran.stdout.splitlines() if line.endswith(": OK")], ran.returncode


def is_full(pipe):
    return struct.unpack("i", fcntl.ioctl(pipe, termios.FIONREAD, bytes(4)))[0] == PIPE


def awaited(process, look):
    """What a look finds, once it finds something, within ten seconds of a process."""
    for _ in range(1000):
        if (found := look()) or process.poll() is not None:
            return found
        time.sleep(0.01)
    return None


def pour(path, data):
    with open(path, "wb") as pipe:
        pipe.write(data)


# ---- report


class Reports:
    """A ledger, its table and its manifest, and reports on changed ones."""

    def __init__(self, desk, *more):
        self.desk, self.it = desk, Run(desk, INPUTS, *more)
        self.it.run()
        self.manifest = json.loads(read(self.it.target))
        self.changed = os.path.join(desk.directory, "changed.json")

    def put(self, manifest):
        """Writes a changed manifest, and returns its path."""
        data = manifest if isinstance(manifest, bytes) else text_of(manifest)
        with open(self.changed, "wb") as out:
            out.write(data)
        return self.changed

    def report(self, manifest, *more, runner=run, **elsewhere):
        paths = {"config": self.desk.paths["config"], "ledger": self.desk.paths["ledger"], **elsewhere}
        given = ["--manifest", manifest] if manifest else []
        how = {} if runner is run_at_terminal else {"stdout": subprocess.PIPE}
        return runner(["report", "--config", paths["config"], "--ledger", paths["ledger"], *given, *more], **how)


def grouped(number):
    return f"{number:,}".replace(",", "&#8239;")


def shown_file(word, members):
    return f"<br/>{word} <b>{html.escape(members['path'])}</b>: {grouped(members['bytes'])} bytes"


def shown_digest(members):
    return f", SHA-256 <code>{members['sha256']}</code>" if members["sha256"] else ""


def shown_recording(word, members):
    """A recording, with how many files it is in, and with each one's digest."""
    files = members["files"] or []
    more = f" and {len(files) - 1} more file{'s' if len(files) > 2 else ''}" if len(files) > 1 else ""
    text = shown_file(word, members).replace("</b>", f"</b>{more}") + f", {grouped(members['frames'])} frames"
    text += f" from {members['first_utc']} to {members['last_utc']}, ends {members['end']}"
    text += f" ({members['reason']})" if members["reason"] else ""
    digested = [(number, file) for number, file in enumerate(files, 1) if file["sha256"]]
    return text + shown_digest(members) + "".join(shown_file(f"{word}, file {number}", file) + shown_digest(file) for number, file in digested)


def shown(manifest):
    """The paragraph of the page's head on the run."""
    program, inputs, outputs = manifest["program"], manifest["inputs"], manifest["outputs"]
    arguments = "".join("".join(c if " " <= c <= "~" and c not in '&<>"' else f"&#{ord(c)};" for c in word) + " " for word in manifest["command"])
    text = f'<p class="of">{program["name"]} {program["version"]} (commit {program["commit"]}): <code>{arguments}</code>'
    if manifest["fault"]:
        text += f"<br/>it met a fault: {manifest['fault']}"
    for word, members in (("table", inputs["config"]), ("filter", inputs["filter"])):
        text += shown_file(word, members) + shown_digest(members) if members else ""
    for word, members in (("A", inputs["a"]), ("B", inputs["b"])):
        text += shown_recording(word, members) if members else ""
    for word, members in (("capture", outputs["capture"]), ("ledger", outputs["ledger"])):
        text += shown_file(word, members) + shown_digest(members) if members else ""
    return text + "</p>"


TIES = {
    None: "Table and ledger were not tied: no manifest of the run was given. ",
    (): "The table has the SHA-256 of the run's manifest, and the ledger its length. ",
    ("--digest",): "Table and ledger have the SHA-256 of the run's manifest. ",
}


class Manifest(AtADesk):
    def refused(self, reports, name, manifest, line, *told, **elsewhere):
        """In a pipe the line alone, and at a terminal what is told besides."""
        ran = reports.report(manifest, **elsewhere)
        fault = difference(ran, FAULT, f"afdxmon: {line}", b"")
        ran = reports.report(manifest, runner=run_at_terminal, **elsewhere)
        wanted = "".join(text + "\n" for text in (f"afdxmon: {line}", *told))
        if not fault and (ran.returncode, ran.stderr, ran.stdout) != (FAULT, wanted, b""):
            fault = f"at a terminal {ran.stderr!r}, not {wanted!r}"
        self.case(f"manifest: report: {name}: {line}", fault)

    def watched(self, name, given, *more, **elsewhere):
        """A run that succeeds: its outputs and its manifest."""
        a, b = (given[network] if elsewhere.get(network, "") is not None else header() for network in "ab")
        code = given["filter"] if elsewhere.get("filter", "") is not None else "1,6 0 0 0,"
        whole = watch(given["config"], code, a, b)
        written = {"capture": whole.capture, "ledger": whole.lines + whole.summary}
        for options in ((), ("--digest",), ("--digest", "--workers", "8")):
            it = Run(self.desk, given, *more, *options, **elsewhere)
            ran = it.run()
            fault = difference(ran, SUCCESS, notes_on(written["ledger"], {"A": a, "B": b}), b"") or it.compared(written)
            self.case(" ".join(["manifest:", name, *options]), fault or self.desk.compared("ledger", written["ledger"]))

    def test_runs(self):
        self.watched("two recordings, a filter and a capture", INPUTS)
        self.watched("no filter and no capture", INPUTS, filter=None, capture=None)
        self.watched("one network", INPUTS, b=None)
        self.watched("the other network", INPUTS, a=None)
        self.watched("no frames", {**INPUTS, "a": header(), "b": header()})
        self.watched("frames at one stamp on one network", {**INPUTS, "a": frames(7, 7), "b": header()})
        self.watched("timestamp 0", {**INPUTS, "a": tap((0, frame(5, 60, 1))), "b": header()})
        for end, bytes_after in ENDS.items():
            self.watched(f"a recording that ends {end}", {**INPUTS, "b": B + bytes_after})
        many = frames(*(i * 1000 for i in range(5000)))
        few = frames(1000, 2000)
        self.watched("5000 frames on A, and B ends early", {**INPUTS, "a": many, "b": few})
        self.watched("5000 frames on B, and A begins late", {**INPUTS, "a": frames(4_000_000, 4_999_999), "b": many})
        names = "\n".join(f'[[link]]\nid = {i}\nname = "A_{i}"\nbag_ms = 1\njitter_us = 0\nsmax = 200\nintegrity = true\nredundancy = true\nskew_us = 1000'
                          for i in range(100, 140))
        self.watched("links whose names have capitals", {**INPUTS, "config": TABLE + names})
        late = frames(0, 2000, 1000, 3000)
        self.watched("a bad recording after 2 frames", {**INPUTS, "a": late})

    def test_standard_output(self):
        """The manifest to standard output, and to a pipe."""
        it = Run(self.desk, INPUTS, "--digest")
        it.arguments[it.arguments.index(it.target)] = "-"
        ran = it.run()
        wanted = it.expected({"capture": WHOLE.capture, "ledger": LEDGER})
        self.case("manifest: to standard output", difference(ran, SUCCESS, "", wanted))
        for option in ("capture", "ledger"):
            it = Run(self.desk, INPUTS, **{option: "-"})
            it.arguments[it.arguments.index(it.target)] = "-"
            self.case(f"manifest: --{option} is standard output too", difference(it.run(), FAULT, "afdxmon: file --manifest", b""))

    def test_verification(self):
        """The guide's command over a manifest takes each file of a run, and refuses one of which a byte was changed."""
        if not shutil.which("jq"):
            return self.skip("manifest: the guide's verification", "jq")
        names = {"config": TABLE, "a_1": frames(0, 10**6), "a_2": frames(2 * 10**6), "a_3": frames(3 * 10**6), "b": B}
        for name, data in names.items():
            put(self.desk.directory, name, data)
        arguments = "watch --config config --a a_1 a_2 a_3 --b b --ledger ledger --manifest run.json --digest".split()
        ran = run(arguments, cwd=self.desk.directory, stdin=subprocess.DEVNULL)
        found = verified(self.desk.directory)
        self.case("manifest: verification: several files", "" if ran.returncode == 0 and found == ([*names, "ledger"], 0) else f"{ran.stderr} {found}")
        for changed in ("a_2", "a_3", "b", "ledger"):
            before = read(self.desk.directory, changed)
            put(self.desk.directory, changed, before[:-1] + bytes([before[-1] ^ 1]))
            found = verified(self.desk.directory)
            wanted = [name for name in [*names, "ledger"] if name != changed]
            self.case(f"manifest: verification: a byte of {changed} was changed", "" if found == (wanted, 1) else f"{found}, not {wanted}")
            put(self.desk.directory, changed, before)

    def test_bad_recording(self):
        """A recording that ends bad has the digest of its first bytes, as many as the manifest says."""
        a = frames(0, 2000, *range(1000, 5_000_000, 1000))
        it = Run(self.desk, {**INPUTS, "a": a}, "--digest")
        it.run()
        found = json.loads(read(it.target))["inputs"]["a"]
        fits = found["end"] == "bad" and 0 < found["bytes"] <= len(a) and found["sha256"] == digest(a[: found["bytes"]])
        self.case("manifest: the digest of a recording that ends bad", "" if fits else repr(found))

    def test_pipes(self):
        """All inputs by pipes: of them the bytes that were read."""
        given = {**INPUTS, "a": frames(*(i * 1000 for i in range(3000)))}
        whole = watch(TABLE, EVERY, given["a"], given["b"])
        written = {"capture": whole.capture, "ledger": whole.lines + whole.summary}
        names = {option: os.path.join(self.desk.directory, "pipe_" + option) for option in INPUTS}
        it = Run(self.desk, given, "--digest", **names)
        for path in names.values():
            os.mkfifo(path)
        writers = [threading.Thread(target=pour, args=(path, given[option].encode() if isinstance(given[option], str) else given[option]))
                   for option, path in names.items()]
        for writer in writers:
            writer.start()
        ran = it.run()
        for writer in writers:
            writer.join()
        self.case("manifest: inputs that are pipes", difference(ran, SUCCESS, "", b"") or it.compared(written))
        it = Run(self.desk, INPUTS, "--digest", a="-")
        ran = run(it.arguments, input=A, stdout=subprocess.PIPE)
        self.case("manifest: a recording on standard input", difference(ran, SUCCESS, "", b"") or it.compared({"capture": WHOLE.capture, "ledger": LEDGER}))

    def test_pipes_out(self):
        """Outputs that are pipes: of them the bytes that were written."""
        given = {**INPUTS, "a": frames(*(i * 1000 for i in range(5000)))}
        whole = watch(TABLE, EVERY, given["a"], given["b"])
        written = {"capture": whole.capture, "ledger": whole.lines + whole.summary}
        names = {option: os.path.join(self.desk.directory, "pipe_" + option) for option in written}
        it = Run(self.desk, given, "--digest", **names)
        came = {}
        for path in names.values():
            os.mkfifo(path)
        readers = [threading.Thread(target=lambda option, path: came.update({option: read(path)}), args=pair) for pair in names.items()]
        for reader in readers:
            reader.start()
        ran = it.run()
        for reader in readers:
            reader.join()
        self.case("manifest: outputs that are pipes", difference(ran, SUCCESS, "", b"") or it.compared(written) or ("" if came == written else "they differ"))

    def test_short_write(self):
        """A pipe takes the ledger's lines up to the ninth byte of the last one, then the rest: it isn't read as a line of its own.

        All lines are written at once when network B ends. The pipe is full then, and a signal ends the write.
        """
        name = "manifest: a line that is written in two parts"
        config = f"late_us = 1000000\n{TABLE}"

        def recorded(count, shorter=0):
            """Network A of so many frames, of which the first ones have a line that is a byte shorter."""
            a = tap(*((START + i * 10**6, frame(5, 60 if i < shorter else 100, i % 255 + 1)) for i in range(count)))
            return a, watch(config, EVERY, a, header())

        lengths = [0, *itertools.accumulate(map(len, recorded(1000)[1].lines.splitlines(True)[1:]))]
        before = next(i for i, length in enumerate(lengths) if length >= PIPE - 9)
        a, expected = recorded(before + 1, lengths[before] - (PIPE - 9))
        names = {option: os.path.join(self.desk.directory, "pipe_" + option) for option in ("b", "ledger")}
        it = Run(self.desk, {**INPUTS, "config": config, "a": a, "b": header()}, **names)
        for path in names.values():
            os.mkfifo(path)
        with open(os.open(names["ledger"], os.O_RDONLY | os.O_NONBLOCK), "rb", buffering=0) as ledger, open(names["b"], "r+b", buffering=0) as b:
            process = subprocess.Popen([PROGRAM, *it.arguments], stdin=subprocess.DEVNULL, stdout=subprocess.PIPE, stderr=subprocess.PIPE)
            b.write(header())
            head = awaited(process, lambda: ledger.read(14)) or b""
            b.close()
            filled = awaited(process, lambda: is_full(ledger))
            if filled:
                process.send_signal(signal.SIGSTOP)
                os.waitpid(process.pid, os.WUNTRACED)
                process.send_signal(signal.SIGCONT)
            os.set_blocking(ledger.fileno(), True)
            came = head + ledger.read()
        out, told = process.communicate()
        if not filled:
            return self.skip(name, f"a pipe of {PIPE} bytes")
        written = {"capture": expected.capture, "ledger": expected.lines + expected.summary}
        fault = difference(subprocess.CompletedProcess(process.args, process.returncode, out, told), SUCCESS, "", b"")
        self.case(name, fault or it.compared(written) or ("" if came == written["ledger"] else "the ledger differs"))

    def test_usage(self):
        self.desk.lay(**INPUTS)
        ran = self.desk.watch("--digest")
        told = f"error: {MISUSE['NoManifest']}\n"
        self.case("manifest: --digest alone", difference(ran, USAGE, lambda text: text.startswith(told), b""))
        ran = self.desk.watch("--manifest")
        self.case("manifest: --manifest without a file", difference(ran, USAGE, lambda text: "--manifest <FILE>" in text, b""))

    def test_outputs(self):
        """A manifest that can't be opened or written, or is another file of the run."""
        nowhere = os.path.join(self.desk.directory, "nowhere", "run.json")
        for name, path, line, more in (
            ("in a directory that isn't there", nowhere, "file --manifest",
             f"{nowhere}: No such file or directory (os error 2)\n{OUTPUT.format('manifest')}\n"),
            ("on a full disk", "/dev/full", "watch 4 Write manifest", f"/dev/full: {FULL}\n{UNWRITTEN}\n"),
        ):
            for runner, rest in ((run, ""), (run_at_terminal, more)):
                it = Run(self.desk, INPUTS)
                it.arguments[it.arguments.index(it.target)] = path
                ran = runner([*it.arguments, "--quiet"], stdin=subprocess.DEVNULL, **({} if rest else {"stdout": subprocess.PIPE}))
                said = ran.stderr if isinstance(ran.stderr, str) else ran.stderr.decode()
                wanted = f"afdxmon: {line}\n{rest}"
                fault = "" if (ran.returncode, said) == (FAULT, wanted) else f"status {ran.returncode}, {said!r}, not {wanted!r}"
                if path == "/dev/full":
                    fault = fault or self.desk.compared("ledger", LEDGER) or self.desk.compared("capture", WHOLE.capture)
                self.case(f"manifest: {name}{' at a terminal' if rest else ''}", fault)
        for option in ("config", "filter", "a", "b", "capture", "ledger"):
            it = Run(self.desk, INPUTS)
            it.arguments[it.arguments.index(it.target)] = self.desk.paths[option]
            before = {name: read(path) for name, path in self.desk.paths.items()}
            ran = it.run()
            first = option if option in ("capture", "ledger") else "manifest"
            fault = difference(ran, FAULT, f"afdxmon: file --{first}", b"")
            changed = [name for name, path in self.desk.paths.items() if read(path) != before[name]]
            self.case(f"manifest: it is the file of --{option}", fault or ("files have changed" if changed else ""))

    def test_faults(self):
        """A run that meets a fault: the manifest has its line. Before the run nothing is written."""
        it = Run(self.desk, INPUTS, "--digest", capture="/dev/full")
        ran = it.run()
        written = {"capture": b"", "ledger": self.desk.left("ledger")}
        self.case("manifest: of a run whose capture can't be written", difference(ran, FAULT, "afdxmon: watch 4 Write capture", b"")
            or it.compared(written, "watch 4 Write capture"))
        it = Run(self.desk, {**INPUTS, "b": b"no recording at all, and longer than a header"}, "--digest")
        ran = it.run()
        fault = difference(ran, FAULT, "afdxmon: watch 2 Header B 2 Magic", b"")
        told = json.loads(read(it.target)) if not fault else {}
        wanted = json.loads(it.expected({"capture": b"", "ledger": b""}, "watch 2 Header B 2 Magic"))
        if told:
            # How far A was read by then isn't certain.
            for members in (told, wanted):
                members["inputs"]["a"].update(bytes=None, sha256=None)
        self.case("manifest: of a run whose recording isn't one", fault or ("" if told == wanted else f"{told}, not {wanted}"))
        it = Run(self.desk, {**INPUTS, "config": "constant = 0\n"})
        older = read(it.target)
        ran = it.run()
        self.case("manifest: a refused table leaves an older one", difference(ran, FAULT, "afdxmon: config 4 Range top", b"")
            or ("" if read(it.target) == older else "it has changed"))

    def test_pages(self):
        """The page and the numbers with a manifest, and without one."""
        for more in ((), ("--digest",)):
            reports = Reports(self.desk, *more)
            name = " ".join(["manifest: report", *more])
            ran = reports.report(reports.it.target, "--json")
            told = json.loads(ran.stdout) if ran.returncode == SUCCESS else {}
            self.case(f"{name}: its numbers have it", difference(ran, SUCCESS, "") or ("" if told["manifest"] == reports.manifest else f"{told['manifest']}"))
            page = reports.report(reports.it.target).stdout.decode("ascii")
            self.case(f"{name}: its page has the run", "" if shown(reports.manifest) in page else f"{re.findall('<p class=.of.*?</p>', page)}, not {shown(reports.manifest)}")
            self.case(f"{name}: its page has what ties them", "" if TIES[more] in page else "it hasn't")
        without = json.loads(reports.report(None, "--json").stdout)
        self.case("manifest: report: numbers without one", "" if without["manifest"] is None else f"{without['manifest']}")
        cuts = [finding.pop("cut") for finding in told["findings"]]
        for finding in without["findings"]:
            del finding["cut"]
        self.case("manifest: report: the same numbers", "" if {**told, "manifest": None} == without else "they differ")
        recordings = [f" --a {reports.manifest['inputs']['a']['path']} ", f" --b {reports.manifest['inputs']['b']['path']} "]
        self.case("manifest: report: a finding's command has its recordings", "" if all(path in cut for cut in cuts for path in recordings) else f"{cuts}")
        page = reports.report(None).stdout.decode("ascii")
        untied = f'<p class="of">table <b>{html.escape(self.desk.paths["config"])}</b>: nothing ties it to the ledger, since no manifest of the run was given</p>'
        self.case("manifest: report: a page without one", "" if TIES[None] in page and untied in page else "it doesn't say so")
        strange = {**reports.manifest, "command": ["<&\"'>", "f\u00fcr @\n"], "fault": "watch 7 Memory"}
        page = reports.report(reports.put(strange)).stdout.decode("ascii")
        self.case("manifest: report: arguments of any characters", "" if shown(strange) in page else f"{re.findall('<p class=.of.*?</p>', page)}")
        more = {**reports.manifest, "later": {"added": [1]}}
        ran = reports.report(reports.put(more), "--json")
        self.case("manifest: report: a member that isn't known", difference(ran, SUCCESS, "") or
            ("" if json.loads(ran.stdout)["manifest"] == reports.manifest else "it is told"))

    def test_wrong_manifests(self):
        reports = Reports(self.desk, "--digest")
        form = advice_on("report 5 Manifest at")
        changed = reports.changed

        def refused(name, manifest, line, *told, **elsewhere):
            self.refused(reports, name, reports.put(manifest), line, *told, **elsewhere)

        def without(*path):
            copy = json.loads(json.dumps(reports.manifest))
            members = copy
            for name in path[:-1]:
                members = members[name]
            del members[path[-1]]
            return copy

        refused("no text", b"", "report 5 Manifest at 1 form", f"{changed}: EOF while parsing at line 1 column 0", form)
        refused("no JSON", b"{\n\n no}", "report 5 Manifest at 3 form", f"{changed}: invalid JSON at line 3 column 2", form)
        refused("a list", b"[]", "report 5 Manifest at 1 form", f"{changed}: missing field `manifest` at line 1 column 2", form)
        refused("no version", without("manifest"), f"report 5 Manifest at {len(text_of(without('manifest')).splitlines())} form",
                f"{changed}: missing field `manifest` at line {len(text_of(without('manifest')).splitlines())} column 1", form)
        for version in (0, 2, 4294967295, 4294967296):
            refused(f"version {version}", {**reports.manifest, "manifest": version}, "report 5 Manifest version",
                    f"{changed}: {advice_on('report 5 Manifest version')}")
        refused("another version without its members", b'{"manifest": 2}', "report 5 Manifest version", f"{changed}: {advice_on('report 5 Manifest version')}")
        for path in (("program",), ("command",), ("inputs",), ("outputs",)):
            data = text_of(without(*path))
            lines = len(data.splitlines())
            refused(f"no {path[0]}", without(*path), f"report 5 Manifest at {lines} form", f"{changed}: missing field `{path[0]}` at line {lines} column 1", form)
        data = text_of({**reports.manifest, "command": "watch"})
        line = data[: data.index(b'"command"')].count(b"\n") + 1
        ran = reports.report(reports.put(data))
        self.case("manifest: report: a command that is no list", difference(ran, FAULT, f"afdxmon: report 5 Manifest at {line} form", b""))
        other = json.loads(json.dumps(reports.manifest))
        other["inputs"]["config"]["sha256"] = None
        table = f"{self.desk.paths['config']}: {advice_on('report 5 Manifest table')}"
        refused("no digest of the table", other, "report 5 Manifest table", table)
        other["inputs"]["config"]["sha256"] = digest(b"other")
        refused("another digest of the table", other, "report 5 Manifest table", table)
        path = os.path.join(self.desk.directory, "missing.json")
        self.refused(reports, "no such file", path, "file --manifest", f"{path}: No such file or directory (os error 2)", MANIFEST)
        with open(changed, "wb") as out:
            out.write(b"{\xff}")
        self.refused(reports, "not UTF-8", changed, "file --manifest", f"{changed}: not UTF-8 at byte 1", MANIFEST)
        with open(changed, "wb") as out:
            out.write(b" " * (16777216 - len(read(reports.it.target))) + read(reports.it.target))
        self.case("manifest: report: 16777216 bytes", difference(reports.report(changed, "--json"), SUCCESS, ""))
        with open(changed, "ab") as out:
            out.write(b" ")
        self.refused(reports, "16777217 bytes", changed, "file --manifest", f"{changed}: it has 16777217 bytes", MANIFEST)

    def test_other_files(self):
        """A table and a ledger that aren't the manifest's."""
        for more in ((), ("--digest",)):
            reports = Reports(self.desk, *more)
            target, how = reports.it.target, f" after a run {'with --digest' if more else 'without it'}"
            other = os.path.join(self.desk.directory, "other")

            def put(data):
                with open(other, "wb") as out:
                    out.write(data)

            put(TABLE.replace("skew_us = 1000", "skew_us = 1001").encode())
            self.refused(reports, "another table" + how, target, "report 5 Manifest table", f"{other}: {advice_on('report 5 Manifest table')}", config=other)
            put(TABLE.encode() + b"\n")
            self.refused(reports, "a table with a newline more" + how, target, "report 5 Manifest table", f"{other}: {advice_on('report 5 Manifest table')}", config=other)
            whole = watch(TABLE, EVERY, A, frames(500))
            put(whole.lines + whole.summary)
            self.refused(reports, "a ledger of another run" + how, target, "report 5 Manifest ledger", f"{other}: {advice_on('report 5 Manifest ledger')}", ledger=other)
            put(LEDGER.replace(str(START).encode(), str(START + 1).encode()))
            if more:
                self.refused(reports, "a ledger as long" + how, target, "report 5 Manifest ledger", f"{other}: {advice_on('report 5 Manifest ledger')}", ledger=other)
            else:
                self.case("manifest: report: a ledger as long" + how, difference(reports.report(target, "--json", ledger=other), SUCCESS, ""))
            ran = run(["report", "--config", self.desk.paths["config"], "--ledger", "-", "--manifest", target, "--json"], input=LEDGER, stdout=subprocess.PIPE)
            self.case("manifest: report: the ledger by a pipe" + how, difference(ran, SUCCESS, ""))
            page = os.path.join(self.desk.directory, "run.json")
            before = read(page)
            ran = reports.report(target, "-o", page)
            self.case("manifest: report: its page is the manifest's file" + how, difference(ran, FAULT, "afdxmon: file --output", b"")
                or ("" if read(page) == before else "it has changed"))
        ran = run(["report", "--config", self.desk.paths["config"], "--ledger", "-", "--manifest", "-"], input=LEDGER, stdout=subprocess.PIPE)
        self.case("manifest: report: standard input twice", difference(ran, FAULT, "afdxmon: file --ledger", b""))
