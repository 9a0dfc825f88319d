"""Inputs larger than every buffer, list and bound that the program has within: each result is known in closed form.

No count in a document bounds these inputs, so the program may neither refuse them nor forget a part of them.
"""
import hashlib
import json
import os
import re
import resource
import subprocess

from tests.analyser import watch
from tests.blocks import CUSTOM, MOST_BLOCK, Blocks, note_of
from tests.harness import EVERY, FAULT, SUCCESS, difference, frame, header, put, read, run
from tests.several import lay
from tests.watching import TABLE, AtADesk, tap

START = 1_800_000_000 * 10**9
# A virtual link that the table lacks: its frames need no rule but that of their class.
OUTSIDE = 6
# With the widest window for late timestamps: frames within a second wait for each other.
WIDE = f"late_us = 1000000\n{TABLE}"
# How many files a run may have open: its streams, inputs and outputs, and what the system needs.
FEW_FILES = 16


def listed(desk, option, paths):
    """The words that name many files of a recording."""
    return [f"--{option}", "@" + put(desk.directory, f"{option}.list", "\n".join(paths) + "\n")]


class RealSize(AtADesk):
    def test_pending(self, frames=50_000):
        """All frames of both recordings stand within a second, in falling or in rising order, and wait in the window."""
        for order, step in (("falling", -(10**9 // frames - 1)), ("rising", 10**9 // frames - 1)):
            a, b = (tap(*((START + 10**9 + i * step - own, frame(OUTSIDE, 60, i % 255 + 1)) for i in range(frames))) for own in (0, 1))
            expected = watch(WIDE, EVERY, a, b)
            self.desk.lay(config=WIDE, filter=EVERY, a=a, b=b)
            fault = self.desk.agrees(self.desk.watch(), expected.capture, expected.lines + expected.summary)
            self.case(f"real size: watch, {frames} frames of each network in {order} order", fault)
            words = ["cut", "--ledger", self.desk.paths["ledger"], "--a", self.desk.paths["a"], "--b", self.desk.paths["b"]]
            ran = run(words, stdin=subprocess.DEVNULL, stdout=subprocess.PIPE)
            self.case(f"real size: cut, {frames} frames of each network in {order} order", difference(ran, SUCCESS, "", expected.capture))

    def test_many_files(self):
        """A recording in more files than any list within the program has places for."""
        for count in (1024, 1025, 5000):
            packets = [(START + i * 10**5, frame(OUTSIDE, 60, i % 255 + 1)) for i in range(count)]
            paths = lay(self.desk.directory, f"many_{count}", [tap(one) for one in packets])
            expected = watch(TABLE, EVERY, tap(*packets), header())
            self.desk.lay(config=TABLE, filter=EVERY, b=header())
            ran = self.desk.watch(*listed(self.desk, "a", paths), a=None)
            fault = difference(ran, SUCCESS, "", b"") or self.desk.compared("capture", expected.capture)
            self.case(f"real size: watch, {count} files", fault or self.desk.compared("ledger", expected.lines + expected.summary))
            ran = run(["cut", "--ledger", self.desk.paths["ledger"], *listed(self.desk, "a", paths)], stdin=subprocess.DEVNULL, stdout=subprocess.PIPE)
            self.case(f"real size: cut, {count} files", difference(ran, SUCCESS, "", expected.capture))

    def test_open_files(self, count=200):
        """One file of each recording is open at a time, however many there are."""
        packets = [(START + i * 10**5, frame(OUTSIDE, 60, i % 255 + 1)) for i in range(count)]
        lists = [word for option in "ab" for word in listed(self.desk, option, lay(self.desk.directory, f"open_{option}", [tap(one) for one in packets]))]
        expected = watch(TABLE, EVERY, tap(*packets), tap(*packets))
        self.desk.lay(config=TABLE, filter=EVERY)
        ledger, config = self.desk.paths["ledger"], ["--config", self.desk.paths["config"]]
        few = {"preexec_fn": lambda: resource.setrlimit(resource.RLIMIT_NOFILE, (FEW_FILES, FEW_FILES)), "stdin": subprocess.DEVNULL, "stdout": subprocess.PIPE}
        ran = run(["watch", *config, "--filter", self.desk.paths["filter"], *lists, "--capture", self.desk.paths["capture"], "--ledger", ledger], **few)
        fault = difference(ran, SUCCESS, "", b"") or self.desk.compared("capture", expected.capture) or self.desk.compared("ledger", expected.lines + expected.summary)
        self.case(f"real size: watch, {count} files of each network and {FEW_FILES} open ones", fault)
        put(ledger, expected.lines + expected.summary)
        ran = run(["cut", "--ledger", ledger, *lists], **few)
        self.case(f"real size: cut, {count} files of each network and {FEW_FILES} open ones", difference(ran, SUCCESS, "", expected.capture))
        ports = [{"--a": "--before", "--b": "--after"}.get(word, word) for word in lists]
        for name, words in (("check", ["check", *config, *lists]), ("links", ["links", *lists]), ("transit", ["transit", *config, *ports])):
            ran = run(words, **few)
            refused = ran.returncode not in (SUCCESS, FAULT) or b"afdxmon: file" in ran.stderr or b"Read" in ran.stderr
            self.case(f"real size: {name}, {count} files of each side and {FEW_FILES} open ones", f"status {ran.returncode}, {ran.stderr!r}" if refused else "")

    def test_digests(self):
        """Each file of a recording has its own bytes and its own digest in the manifest."""
        for count in (1, 2, 3, 4, 5, 9):
            files = [tap((START + i * 10**6, frame(OUTSIDE, 60 + i, 1))) for i in range(count)]
            paths = lay(self.desk.directory, "digest", files)
            self.desk.lay(config=TABLE)
            target = os.path.join(self.desk.directory, "run.json")
            ran = self.desk.watch("--a", *paths, "--manifest", target, "--digest", a=None, b=None, filter=None, capture=None)
            fault = difference(ran, SUCCESS, "", b"")
            found = json.loads(read(target))["inputs"]["a"] if not fault else {}
            wanted = [{"path": path, "bytes": len(data), "sha256": hashlib.sha256(data).hexdigest()} for path, data in zip(paths, files)]
            given = found.get("files") or [{key: found.get(key) for key in ("path", "bytes", "sha256")}]
            self.case(f"real size: the digests of {count} files", fault or ("" if given == wanted else f"{given}, not {wanted}"))

    def test_gaps(self):
        """`check` tells each gap of more than a second between two files, the first eight of them."""
        for count in (1, 7, 8, 9, 10):
            for gap, told in ((10**9, 0), (10**9 + 1, min(count, 8))):
                starts = [START + i * gap for i in range(count + 1)]
                paths = lay(self.desk.directory, f"gaps_{count}_{gap}", [tap((start, frame(5, 60, i + 1))) for i, start in enumerate(starts)])
                ran = run(["check", "--config", put(self.desk.directory, "config", TABLE), "--a", *paths], stdin=subprocess.DEVNULL, stdout=subprocess.PIPE)
                lines = [line for line in ran.stderr.decode().splitlines() if "a gap of" in line]
                between = [f" between {first} and {second}" for first, second in zip(paths, paths[1:])][:told]
                fits = len(lines) == told and all(line.endswith(end) for line, end in zip(lines, between))
                fits = fits and (b"network A has more gaps between its files\n" in ran.stderr) == (0 < told < count)
                self.case(f"real size: check, {count} gaps of {gap} ns between files", "" if fits else repr(ran.stderr))

    def test_order(self):
        """Files that are given in another order are named in the right one, each of them."""
        for count in (2, 31, 32, 33, 40):
            paths = lay(self.desk.directory, f"order_{count}", [tap((START + i * 10**6, frame(5, 60, i % 255 + 1))) for i in range(count)])
            self.desk.lay(config=TABLE)
            ran = self.desk.watch("--a", *paths[::-1], a=None, b=None, filter=None, capture=None)
            told = ran.stderr.decode().rstrip("\n")
            named = told.removeprefix("afdxmon: order --a: by time they are ").split(" ")
            fits = ran.returncode == FAULT and named[:min(count, 32)] == paths[:32]
            self.case(f"real size: {count} files in falling order are named in theirs", "" if fits else f"status {ran.returncode}, {told!r}")

    def test_runs_of_a_link(self, runs=10_000):
        """`cut --around` over a link whose frames are taken 10 000 times apart from each other."""
        stamps = range(START, START + 5 * runs * 10**6, 10**6)
        lines = [f"{stamp} A {i} 5 {i % 255 + 1} regular within {'next' if i else 'first'} deliver {'60 01' if i % 5 == 2 else '- 00'}\n" for i, stamp in enumerate(stamps)]
        put(self.desk.directory, "ledger", "afdx-ledger 2\n" + "".join(lines) + f"total frames {len(lines)} accepted 0\n")
        for around, near in ((0, (2,)), (1, (1, 2, 3)), (2, (0, 1, 2, 3, 4))):
            words = ["cut", "--ledger", self.desk.paths["ledger"], "--ledger-only", "--filters", "01", "--around", str(around)]
            ran = run(words, stdin=subprocess.DEVNULL, stdout=subprocess.PIPE)
            expected = "".join(line for i, line in enumerate(lines) if i % 5 in near).encode()
            self.case(f"real size: cut --around {around}, {runs} runs of a link", difference(ran, SUCCESS, "", expected))

    def test_identifiers(self):
        """A report counts each identifier that the table lacks, up to the greatest."""
        outside = [*range(0, 5), *range(6, 2000, 7), *range(60_900, 65_536)]
        a = tap(*((START + i * 1000, frame(link, 60, 1)) for i, link in enumerate(outside)))
        self.desk.lay(config=TABLE, a=a, b=header())
        self.desk.watch(filter=None, capture=None)
        ran = run(["report", "--config", self.desk.paths["config"], "--ledger", self.desk.paths["ledger"], "--json"], stdin=subprocess.DEVNULL, stdout=subprocess.PIPE)
        fault = difference(ran, SUCCESS, "")
        found = json.loads(ran.stdout) if not fault else {"counts": {}, "outside": []}
        counts = found["counts"].get("unconfigured"), sum(one["frames"] for one in found["outside"])
        self.case(f"real size: report, {len(outside)} identifiers outside the table", fault or ("" if counts[0] == len(outside) else repr(counts)))
        known = [one["id"] for one in found["outside"]]
        self.case("real size: report names identifiers outside the table", fault or ("" if known and set(known) <= set(outside) else repr(known[:9])))

    def test_large_frames(self, frames=200, size=200_000):
        """Frames of 200 000 bytes in one round: each chunk of it that a worker takes has more than 2 MB, a sixteenth for eight workers."""
        a = tap(*((START + i * 10**6, frame(OUTSIDE, size, i % 255 + 1)) for i in range(frames)))
        expected = watch(WIDE, EVERY, a, header())
        for workers in ("1", "2", "8"):
            self.desk.lay(config=WIDE, filter=EVERY, a=a, b=header())
            fault = self.desk.agrees(self.desk.watch("--workers", workers), expected.capture, expected.lines + expected.summary)
            self.case(f"real size: watch, {frames} frames of {size} bytes, {workers} workers", fault)

    def test_names_of_files(self):
        """Several files are named by the first, and how many more there are."""
        for count, more in ((1, ""), (2, " and 1 more file"), (3, " and 2 more files")):
            paths = lay(self.desk.directory, f"names_{count}", [tap((START + i * 10**6, frame(5, 60, i + 1))) for i in range(count)])
            ran = run(["check", "--config", put(self.desk.directory, "config", TABLE), "--a", *paths, "--json"], stdin=subprocess.DEVNULL, stdout=subprocess.PIPE)
            found = json.loads(ran.stdout)["a"]["path"]
            self.case(f"real size: check names {count} files", "" if found == paths[0] + more else repr(found))

    def test_second_interface(self):
        """A packet of a second interface that ends in the first 1 048 576 bytes is refused before the run; a later one ends it."""
        one, two = frame(5, 60, 1), frame(5, 60, 2)
        begun = Blocks().section().interface("one", 9).interface("two", 9).packet(START, one).bytes()
        last = Blocks().packet(START + 1, two, 1).bytes()
        for over, at_once in ((-4, True), (0, True), (4, False)):
            filling = bytes(MOST_BLOCK + over - len(begun) - len(last) - 12)
            path = put(self.desk.directory, "interfaces", begun + Blocks().block(CUSTOM, filling).bytes() + last)
            ran = run(["capture", "--code", EVERY, path], stdin=subprocess.DEVNULL, stdout=subprocess.PIPE)
            refused = (FAULT, "afdxmon: interfaces RECORDING: 0 one, 1 two", b"")
            ended = (SUCCESS, note_of("bad 1 severalinterfaces", 0), tap((START, one)))
            self.case(f"real size: a second interface up to byte {MOST_BLOCK + over}", difference(ran, *(refused if at_once else ended)))

    def test_longest_block(self):
        """A packet's block of 1 048 576 bytes is read, and none of more."""
        frames = [(START, frame(5, 60, 1)), (START + 1, frame(5, 60, 2))]
        for over, ending in ((0, "clean 2"), (4, "bad 1 blocklength")):
            file = Blocks().section().interface("one", 9).packet(*frames[0])
            # 16 comments, of which the last fills the block up. The packet and the options' end take 96 bytes.
            comments = [bytes(65532)] * 15
            comments.append(bytes(MOST_BLOCK + over - 96 - 15 * 65536 - 4))
            file.packet(*frames[1], options=file.options(*((1, comment) for comment in comments)))
            path = put(self.desk.directory, "longest", file.bytes())
            ran = run(["capture", "--code", EVERY, path], stdin=subprocess.DEVNULL, stdout=subprocess.PIPE)
            self.case(f"real size: a block of {MOST_BLOCK + over} bytes", difference(ran, SUCCESS, note_of(ending, 0), tap(*frames[: 2 if over == 0 else 1])))

    def test_files_of_several_formats(self):
        """Of files of both formats the packets that are not of Ethernet are counted in all, and the format told is that of the first."""
        pcap, others = tap((START, frame(5, 60, 1))), (1, 2, 0, 3)
        files = []
        for number, count in enumerate(others, 1):
            file = Blocks().section().interface("eth0", 9).interface("can0", 9, link_type=227)
            file.packet(START + number * 10**6, frame(5, 60, number + 1))
            for _ in range(count):
                file.packet(START + number * 10**6, bytes(16), 1)
            files.append(file.bytes())
        for name, order in (("pcap", [pcap, *files]), ("pcapng", [files[0], tap((START + 2 * 10**6, frame(5, 60, 3)))])):
            paths = lay(self.desk.directory, name, order)
            skipped = sum(others) if name == "pcap" else others[0]
            self.desk.lay(config=TABLE, filter=EVERY, b=header())
            ran = self.desk.watch("--a", *paths, a=None)
            self.case(f"real size: packets not of Ethernet in {len(paths)} files", difference(ran, SUCCESS, note_of(f"clean {len(paths)}", skipped, "A"), b""))
            ran = run(["check", "--config", self.desk.paths["config"], "--a", *paths], stdin=subprocess.DEVNULL, stdout=subprocess.PIPE)
            line = next((line for line in ran.stdout.decode().splitlines() if line.startswith("network A: ")), "")
            self.case(f"real size: check tells the format of the first of {len(paths)} files", "" if re.search(f" more files?: {name}[,;]", line) else repr(line))
