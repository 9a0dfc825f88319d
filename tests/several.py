"""A recording in several files: any cut of a recording into files, in any mixture of formats, is the recording.

Expected ledgers and captures are those of the slow analyser over the whole recording; the cuts are made here. Recorders' own
cuts come from editcap, dumpcap's companion, and tcpdump, where they are there.
"""
import glob
import hashlib
import json
import os
import random
import re
import shutil
import struct
import subprocess
import tempfile

from tests import pairs
from tests.analyser import watch
from tests.blocks import Blocks
from tests.harness import EVERY, FAULT, LINK5, PROGRAM, SUCCESS, USAGE, difference, frame, header, record, run, run_at_terminal
from tests.reference import FILE_STARTS, HEADER, LAYOUTS, MAX_CAPTURED, capture, parse
from tests.texts import ADVICE, AMONG, UNREADABLE
from tests.watching import REASONS, TABLE, AtADesk

MAGIC = {("<", 1): 0xA1B23C4D, (">", 1): 0xA1B23C4D, ("<", 1000): 0xA1B2C3D4, (">", 1000): 0xA1B2C3D4}


def packets_of(recording):
    """The layout of a recording, its whole packets that any reader takes, as fields and bytes, and what stands after them."""
    order, unit, fractions = LAYOUTS[recording[:4]]
    packets, at = [], 24
    while at + 16 <= len(recording):
        seconds, fraction, captured, original = struct.unpack_from(order + "IIII", recording, at)
        # A file header within a recording is one in a pcap file alone: of another format it would be a packet.
        starts = not captured and not original and recording[at : at + 8] in FILE_STARTS
        if starts or captured > MAX_CAPTURED or fraction >= fractions or at + 16 + captured > len(recording):
            break
        packets.append((seconds * 10**9 + fraction * unit, original, recording[at + 16 : at + 16 + captured]))
        at += 16 + captured
    return (order, unit), packets, recording[at:]


def pcap(packets, order, unit, rest=b""):
    return header(order, MAGIC[order, unit]) + b"".join(record(stamp, data, order, unit, original) for stamp, original, data in packets) + rest


def pcapng(chance, packets):
    blocks = Blocks(chance.choice("<>")).section().interface("eth0", 9)
    for stamp, original, data in packets:
        blocks.packet(stamp, data, original=max(original, len(data)))
    return blocks.bytes()


def in_some_format(chance, packets):
    fine = any(stamp % 1000 for stamp, *_ in packets)
    forms = [("<", 1), (">", 1)] + ([] if fine else [("<", 1000), (">", 1000)])
    return pcapng(chance, packets) if chance.random() < 0.3 else pcap(packets, *chance.choice(forms))


def pieces(chance, recording, most=6):
    """The files of a recording that is cut anywhere between packets: some without any, the last with what ends it."""
    (order, unit), packets, rest = packets_of(recording)
    places = sorted(chance.randrange(len(packets) + 1) for _ in range(chance.randrange(most)))
    files = [in_some_format(chance, packets[first:last]) for first, last in zip([0, *places], places)]
    return [*files, pcap(packets[places[-1] if places else 0 :], order, unit, rest)]


def lay(directory, name, files):
    """Writes files, and returns their paths in their order."""
    paths = [os.path.join(directory, f"{name}_{number:04}") for number in range(len(files))]
    for path, content in zip(paths, files):
        with open(path, "wb") as out:
            out.write(content)
    return paths


def named(form, directory, option, paths):
    """The words of a command line that name files: as a pattern gives them, by a list, or by both."""
    if form == "words":
        return [f"--{option}", *paths]
    half = 0 if form == "list" else len(paths) // 2
    listed = os.path.join(directory, f"{option}.list")
    with open(listed, "w") as out:
        out.write("\n".join(paths[half:]) + "\n\n")
    return [f"--{option}", *paths[:half], f"@{listed}"]


def told_of(ledger, counts):
    """How the note on each recording begins that its ledger doesn't call clean, and the note on its files."""
    lines = []
    for line in ledger.decode().splitlines():
        if line.startswith("tap ") and " clean " not in line:
            network, way, count, *reason = line.split()[1:]
            frames = f"{count} frame{'' if count == '1' else 's'}"
            why = REASONS[reason[0]] if reason else "truncated within a record"
            lines.append(f"afdxmon: note: recording of network {network} ends {way} after {frames}: {why}")
            if counts[network] > 1:
                lines.append("afdxmon: note: it ended in ")
    return lines


def fits(told, beginnings):
    lines = told.splitlines()
    return len(lines) == len(beginnings) and all(line.startswith(begin) for line, begin in zip(lines, beginnings))


def rise(files, config):
    """Whether the first timestamps of files rise but for the table's window."""
    late = re.search(r"^late_us = (\d+)$", config, re.M)
    high = 0
    for file in files:
        first = first_stamp(file)
        if first is not None:
            if first + (int(late[1]) * 1000 if late else 0) < high:
                return False
            high = max(high, first)
    return True


def first_stamp(file):
    if file[:4] in LAYOUTS:
        frames, _ = parse(file, 1 << 64)
        return frames[0][0] if frames else None
    order, at = "<" if file[8:12] == b"\x4d\x3c\x2b\x1a" else ">", 0
    while at + 12 <= len(file):
        kind, length = struct.unpack_from(order + "II", file, at)
        if kind == 6:
            high, low = struct.unpack_from(order + "II", file, at + 12)
            return high << 32 | low
        at += length
    return None


STEADY = [(10**18 + i * 10**6, frame(5 + i % 2, 60, i // 2 % 255 + 1)) for i in range(60)]
WHOLE = header() + b"".join(record(*one) for one in STEADY)
THREE = [header() + b"".join(record(*one) for one in STEADY[first : first + 20]) for first in (0, 20, 40)]


def desk_command(paths):
    return [PROGRAM, "capture", "--code", EVERY, *paths]


class Several(AtADesk):
    def test_generated(self):
        """Hundreds of cuts, within the window of late timestamps and anywhere else."""
        for seed in range(200):
            chance = random.Random(1000 + seed)
            config, code, a, b = pairs.pair(chance)
            files = {network: pieces(chance, recording) for network, recording in (("A", a), ("B", b))}
            expected = watch(config, code, a, b)
            self.desk.lay(config=config, filter=code)
            words = []
            for network in "AB":
                paths = lay(self.desk.directory, network, files[network])
                words += named(chance.choice(("words", "list", "both")), self.desk.directory, network.lower(), paths)
            words.insert(0 if chance.random() < 0.5 else len(words), "--quiet")
            ran = self.desk.watch(*words, a=None, b=None)
            out_of_order = [network for network in "AB" if not rise(files[network], config)]
            if out_of_order:
                told = f"afdxmon: order --{out_of_order[0].lower()}: by time they are "
                fault = difference(ran, FAULT, lambda text, told=told: text.startswith(told), b"")
                self.case(f"several: watch, cut {seed}, where a file begins with a frame out of order", fault)
                continue
            ledger = expected.lines + expected.summary
            beginnings = told_of(ledger, {network: len(files[network]) for network in "AB"})
            fault = difference(ran, SUCCESS, lambda told, lines=beginnings: fits(told, lines), b"")
            self.case(f"several: watch, cut {seed}", fault or self.desk.compared("capture", expected.capture) or self.desk.compared("ledger", ledger))

    def test_long_list(self):
        """A thousand files a network, of a few frames each."""
        frames = [(10**18 + i * 10**5, frame(5 + i % 3, 60, i // 3 % 255 + 1)) for i in range(5000)]
        whole = header() + b"".join(record(*one) for one in frames)
        files = [header() + b"".join(record(*one) for one in frames[first : first + 5]) for first in range(0, 5000, 5)]
        expected = watch(TABLE, EVERY, whole, whole)
        for form in ("words", "list"):
            self.desk.lay(config=TABLE, filter=EVERY)
            words = [word for name in "ab" for word in named(form, self.desk.directory, name, lay(self.desk.directory, name, files))]
            ran = self.desk.watch(*words, a=None, b=None)
            fault = difference(ran, SUCCESS, "", b"")
            self.case(f"several: a thousand files as {form}", fault or self.desk.compared("capture", expected.capture) or self.desk.compared("ledger", expected.lines + expected.summary))

    def test_other_commands(self):
        """What the commands print or write of the files is what they do of the whole."""
        self.desk.lay(config=TABLE, filter=LINK5, a=WHOLE, b=WHOLE)
        paths = lay(self.desk.directory, "three", THREE)
        self.desk.watch()
        kept = self.desk.left("capture")
        ledger = self.desk.paths["ledger"]
        cases = {
            "capture, after the options": ["capture", "--code", LINK5, *paths],
            "capture, before the options": ["capture", *paths, "--code", LINK5],
            "capture, between options": ["capture", "--code", LINK5, *paths, "-o", "-"],
            "capture, after a flag": ["capture", f"--code={LINK5}", "-v", *paths],
            "capture, after two hyphens": ["capture", "--code", LINK5, "--", *paths],
            "cut": ["cut", "--ledger", ledger, "--a", *paths, "--network", "A", "--filters", "01"],
        }
        for name, arguments in cases.items():
            ran = run(arguments, stdin=subprocess.DEVNULL, stdout=subprocess.PIPE)
            expected = kept if name == "cut" else capture(WHOLE, LINK5)
            wanted = expected[: 24 + (len(expected) - 24) // 2] if name == "cut" else expected
            fault = difference(ran, SUCCESS, lambda told: "note" not in told or "passed over" in told)
            self.case(f"several: {name}", fault or ("" if ran.stdout[:24] == HEADER and (name == "cut" or ran.stdout == wanted) else "another capture"))
        alone = run(["cut", "--ledger", ledger, "--a", self.desk.paths["a"], "--network", "A", "--filters", "01"], stdin=subprocess.DEVNULL, stdout=subprocess.PIPE)
        ran = run(cases["cut"], stdin=subprocess.DEVNULL, stdout=subprocess.PIPE)
        self.case("several: cut is that of the whole", "" if ran.stdout == alone.stdout and len(alone.stdout) > 24 else "another capture")
        for command in (["links"], ["check", "--config", self.desk.paths["config"]], ["check", "--config", self.desk.paths["config"], "--whole", "--json"]):
            both = [run([*command, *words], stdin=subprocess.DEVNULL, stdout=subprocess.PIPE) for words in (("--a", self.desk.paths["a"]), ("--a", *paths))]
            name = f"{paths[0]} and 2 more files"
            expected = both[0].stdout.replace(self.desk.paths["a"].encode(), name.encode())
            fault = difference(both[1], both[0].returncode, both[0].stderr.decode().rstrip("\n"), expected)
            self.case(f"several: {' '.join(command[:1] + command[3:])}", fault)
        session = b"select 45\nstep 1\nquit\n"
        both = [run(["debug", "--filter", self.desk.paths["filter"], "--tap", *words], input=session, stdout=subprocess.PIPE) for words in ([self.desk.paths["a"]], paths)]
        self.case("several: debug", difference(both[1], SUCCESS, "", both[0].stdout))

    def test_endings(self):
        """A file that ends cut or bad ends the recording, and one whose header isn't read; the note names it."""
        self.desk.lay(config=TABLE, filter=EVERY)
        late = header() + record(10**18, frame(5, 60, 1))
        length = header() + struct.pack("<IIII", 10**9, 0, 262145, 262145)
        middle = {
            "cut": (THREE[1][:-1], "cut 39", "truncated within a record"),
            "cut in a header": (THREE[1] + bytes(15), "cut 40", "truncated within a record"),
            "a wrong length": (length, "bad 20 length", "captured length over 262144 bytes"),
            "out of order": (THREE[1] + late[24:], "bad 40 stampback", "timestamp out of order by 39000 us (--late-us 39000 takes it)"),
            "no header": (b"1", "bad 20 nextfile", "the next file has no header that is read"),
            "no bytes": (b"", "bad 20 nextfile", "the next file has no header that is read"),
            "another format": (b"PK\3\4" + bytes(40), "bad 20 nextfile", "the next file has no header that is read"),
            "another link type": (header(link_type=105), "bad 20 nextfile", "the next file has no header that is read"),
            "another file's header within": (THREE[1] + THREE[2], "bad 40 fileheader", "another pcap file begins here"),
        }
        for name, (content, tap, why) in middle.items():
            for last in (False, True):
                paths = lay(self.desk.directory, "end", [THREE[0], content] + ([] if last else [THREE[2]]))
                ran = self.desk.watch("--a", *paths, a=None, b=None, capture=None, filter=None)
                way, count, *_ = tap.split()
                told = f"afdxmon: note: recording of network A ends {way} after {count} frames: {why}"
                where = f"afdxmon: note: it ended in {paths[1]}, " + ("the last of its 2 files" if last else "file 2 of 3: 1 was not read")
                fault = difference(ran, SUCCESS, lambda text, told=told, where=where: fits(text, [told, where]), b"")
                found = [line for line in self.desk.left("ledger").decode().splitlines() if line.startswith("tap A")]
                self.case(f"several: {name}{', the last file' if last else ''}", fault or ("" if found == [f"tap A {tap}"] else repr(found)))
        self.desk.lay(config=TABLE, filter=EVERY)
        ran = self.desk.watch("--a", *lay(self.desk.directory, "first", [b"1", *THREE]), a=None, b=None, capture=None, filter=None)
        self.case("several: the first file has no header", difference(ran, FAULT, "afdxmon: watch 2 Header A 1 Short", b"") or self.desk.compared("ledger", b"older"))

    def test_refused(self):
        """What is found before a run begins: nothing is written."""
        paths = lay(self.desk.directory, "three", THREE)
        swapped = [paths[1], paths[0], paths[2]]
        link = os.path.join(self.desk.directory, "link")
        os.symlink(paths[0], link)
        absent = os.path.join(self.desk.directory, "absent")
        empty = os.path.join(self.desk.directory, "empty")
        open(empty, "w").close()
        by_time = f"afdxmon: order --a: by time they are {' '.join(paths)}"
        order, once, reads = (ADVICE[line] for line in ("order --a", "repeated --a", "file --a"))
        missing = "No such file or directory (os error 2)"
        cases = {
            "another order": (swapped, by_time, f"{swapped[0]}: {order}"),
            "a file twice": ([*paths, paths[0]], "afdxmon: repeated --a", f"{paths[0]}: {once}"),
            "a file twice by a link": ([*paths, link], "afdxmon: repeated --a", f"{link}: {once}"),
            "a file that isn't there": ([*paths, absent], "afdxmon: file --a", f"{absent}: {missing}\n{reads}"),
            "a list that isn't there": ([f"@{absent}"], "afdxmon: file --a", f"@{absent}: {missing}\n{reads}"),
            "a list without a path": ([f"@{empty}"], "afdxmon: file --a", f"@{empty}: the list has no path\n{reads}"),
        }
        for command in ("watch", "check"):
            for name, (files, line, advice) in cases.items():
                self.desk.lay(config=TABLE, filter=EVERY)
                arguments = self.desk.arguments(a=None, b=None) if command == "watch" else ["check", "--config", self.desk.paths["config"]]
                for full in (False, True):
                    ran = run([*arguments, "--a", *files, *(["-v"] if full else [])], stdin=subprocess.DEVNULL, stdout=subprocess.PIPE)
                    fault = difference(ran, FAULT, f"{line}\n{advice}" if full else line, b"")
                    self.case(f"several: {command}: {name}{', in full' if full else ''}", fault or self.desk.compared("ledger", b"older"))
        self.desk.lay(config=TABLE, filter=EVERY)
        ran = run([*self.desk.arguments(a=None, b=None, ledger=paths[1]), "--a", *paths], stdin=subprocess.DEVNULL, stdout=subprocess.PIPE)
        self.case("several: an output that is a file of them", difference(ran, FAULT, "afdxmon: file --ledger", b""))
        ran = run([*self.desk.arguments(), "--a", *paths], stdin=subprocess.DEVNULL, stdout=subprocess.PIPE)
        self.case("several: the option twice", difference(ran, USAGE, lambda told: "cannot be used multiple times" in told, b""))
        ran = run([*self.desk.arguments(a=None, b=None), f"--a={paths[0]}", paths[1]], stdin=subprocess.DEVNULL, stdout=subprocess.PIPE)
        self.case("several: a word that is no option's", difference(ran, USAGE, lambda told: "unexpected argument" in told, b""))

    def test_unreadable(self):
        """A later file that can't be read is named, and why, by each command."""
        self.desk.lay(config=TABLE, filter=EVERY)
        paths = lay(self.desk.directory, "three", THREE)
        folder = os.path.join(self.desk.directory, "folder")
        os.mkdir(folder)
        why = f"{folder}: Is a directory (os error 21)\n{UNREADABLE}"
        unsound = f"afdxmon: check 1 Unsound\n{ADVICE['check 1 Unsound']}\n{why}"
        for words, line in (
            ([*self.desk.arguments(a=None, b=None, capture=None, filter=None), "--a"], f"afdxmon: watch 3 Read A\n{why}"),
            ([*self.desk.arguments(a=paths[0], b=None, capture=None, filter=None), "--b"], f"afdxmon: watch 3 Read B\n{why}"),
            (["capture", "--code", EVERY], f"afdxmon: watch 3 Read A\n{why}"),
            (["debug", "--filter", self.desk.paths["filter"], "--tap"], f"afdxmon: watch 3 Read A\n{why}"),
            (["links", "--a"], f"afdxmon: watch 3 Read A\n{why}"),
            (["links", "--b"], f"afdxmon: watch 3 Read B\n{why}"),
            (["check", "--config", self.desk.paths["config"], "--b"], unsound),
        ):
            for files in ([paths[0], folder], [folder, paths[0]], [*paths, folder]):
                ran = run([words[0], "-v", *words[1:], *files], stdin=subprocess.DEVNULL, stdout=subprocess.PIPE)
                self.judge(f"several: {words[0]} {words[-1]} names a directory, {files.index(folder) + 1} of {len(files)}", ran, FAULT, line)

    def test_gaps(self):
        """`check` tells where nothing was recorded for more than a second between two files, across files without frames too."""
        self.desk.lay(config=TABLE)
        starts = (0, 5 * 10**7, 5 * 10**7 + 10**9 + 4 * 10**6, 4 * 10**9)
        files = [header() + b"".join(record(10**18 + start + i * 10**6, frame(5, 60, i + 1)) for i in range(5)) for start in starts]
        files.insert(3, header())
        files.insert(0, header())
        paths = lay(self.desk.directory, "gaps", files)
        gap = f"afdxmon: note: network A: a gap of 2.942 s between {paths[4]} and {paths[5]}"
        ran = run(["check", "--config", self.desk.paths["config"], "--a", *paths], stdin=subprocess.DEVNULL, stdout=subprocess.PIPE)
        self.case("several: check tells a gap", "" if ran.stderr.decode().splitlines()[:1] == [gap] and ran.stderr.count(b"a gap of") == 1 else repr(ran.stderr))

    def test_windows(self):
        """First timestamps may lie below earlier ones by the run's window."""
        late = [header() + record(10**18 + stamp, frame(5, 60, i + 1)) for i, stamp in enumerate((10**6, 10**6 - 1000, 10**6))]
        for window, status in ((None, FAULT), ("0", FAULT), ("1", SUCCESS), ("2", SUCCESS)):
            self.desk.lay(config=TABLE, filter=EVERY)
            paths = lay(self.desk.directory, "late", late)
            ran = self.desk.watch("--a", *paths, *(["--late-us", window] if window else []), a=None, b=None, capture=None, filter=None)
            self.case(f"several: first timestamps out of order, --late-us {window}", "" if ran.returncode == status else repr(ran.stderr))
            ran = run(["capture", "--code", EVERY, *(["--late-us", window] if window else []), *paths], stdin=subprocess.DEVNULL, stdout=subprocess.PIPE)
            self.case(f"several: the same of capture, --late-us {window}", "" if ran.returncode == status else repr(ran.stderr))
        ran = run(["capture", "--code", EVERY, "--late-us", "any", *lay(self.desk.directory, "any", THREE[::-1])], stdin=subprocess.DEVNULL, stdout=subprocess.PIPE)
        expected = HEADER + b"".join(part[24:] for part in THREE[::-1])
        self.case("several: capture --late-us any takes every order", difference(ran, SUCCESS, "", expected))

    def test_lists(self):
        """A path that begins with @ is given after ./, and one in a list as it stands; a file in a list has its interface too."""
        self.desk.lay(config=TABLE, filter=EVERY)
        plain = lay(self.desk.directory, "three", THREE)
        at = os.path.join(self.desk.directory, "@odd")
        shutil.copy(plain[0], at)
        ran = run(["capture", "--code", EVERY, "./@odd", *plain[1:]], cwd=self.desk.directory, stdin=subprocess.DEVNULL, stdout=subprocess.PIPE)
        self.case("several: a path that begins with @", difference(ran, SUCCESS, "", WHOLE))
        two = Blocks("<").section().interface("eth0", 9).interface("eth1", 9)
        for stamp, data in STEADY[20:40]:
            two.packet(stamp, data, interface=1).packet(stamp, data, interface=0)
        with open(plain[1], "wb") as out:
            out.write(two.bytes())
        chosen = os.path.join(self.desk.directory, "chosen")
        with open(chosen, "w") as out:
            out.write(f"@odd\r\n{plain[1]}:eth1\r\n{plain[2]}\r\n")
        ran = run(["capture", "--code", EVERY, f"@{chosen}"], cwd=self.desk.directory, stdin=subprocess.DEVNULL, stdout=subprocess.PIPE)
        self.case("several: a list with an interface", difference(ran, SUCCESS, "", WHOLE))
        path = os.path.join(self.desk.directory, "@odd").encode()
        refused = "afdxmon: file RECORDING"
        for name, list_of_one, *how in (
            ("16777216 bytes", path.rjust(16777216, b"\n"), SUCCESS, "", HEADER + THREE[0][24:]),
            ("16777217 bytes", path.rjust(16777217, b"\n"), FAULT, refused, b""),
            ("bytes that aren't UTF-8", path + b"\n\xff", FAULT, refused, b""),
        ):
            with open(chosen, "wb") as out:
                out.write(list_of_one)
            ran = run(["capture", "--code", EVERY, f"@{chosen}"], stdin=subprocess.DEVNULL, stdout=subprocess.PIPE)
            self.case(f"several: a list of {name}", difference(ran, *how))
        ran = run(["capture", "--code", EVERY, "@/dev/zero"], stdin=subprocess.DEVNULL, stdout=subprocess.PIPE)
        self.case("several: a list without an end", difference(ran, FAULT, refused, b""))
        ran = run(["capture", "--code", EVERY, *plain], stdin=subprocess.DEVNULL, stdout=subprocess.PIPE)
        self.case("several: a file of several interfaces", difference(ran, FAULT, "afdxmon: interfaces RECORDING: 0 eth0, 1 eth1", b""))

    def test_lists_without_paths(self):
        """Why a list has no path is known from its one reading, of a pipe too."""
        self.desk.lay(config=TABLE)
        arguments = [*self.desk.arguments(a=None, b=None, capture=None, filter=None), "-v", "--a"]
        fifo, large = (os.path.join(self.desk.directory, name) for name in ("fifo", "large"))
        os.mkfifo(fifo)
        writer = subprocess.Popen(["bash", "-c", f"printf '' > '{fifo}'"])
        ran = run([*arguments, f"@{fifo}"], stdin=subprocess.DEVNULL, stdout=subprocess.PIPE)
        writer.wait(timeout=60)
        self.judge("several: a list that is a pipe without a path", ran, FAULT, f"afdxmon: file --a\n@{fifo}: the list has no path\n{ADVICE['file --a']}", b"")
        for size, why in ((16777216, "the list has no path"), (16777217, "it has 16777217 bytes")):
            with open(large, "w") as out:
                out.write("\n" * size)
            ran = run([*arguments, f"@{large}"], stdin=subprocess.DEVNULL, stdout=subprocess.PIPE)
            self.judge(f"several: a list of {size} bytes without a path", ran, FAULT, f"afdxmon: file --a\n@{large}: {why}\n{ADVICE['file --a']}", b"")

    def test_manifests(self):
        """The manifest has each file that was read, and the page's head says how many there are, and has the digest of each."""
        self.desk.lay(config=TABLE, filter=EVERY)
        paths = lay(self.desk.directory, "three", THREE)
        path = os.path.join(self.desk.directory, "run.json")
        ran = self.desk.watch("--a", *paths, "--manifest", path, a=None, b=None, capture=None, filter=None)
        with open(path) as text:
            record_of_a = json.load(text)["inputs"]["a"]
        files = [(file["path"], file["bytes"]) for file in record_of_a["files"]]
        found = (record_of_a["path"], record_of_a["bytes"], record_of_a["frames"], files)
        expected = (paths[0], sum(map(len, THREE)), 60, [(path, len(content)) for path, content in zip(paths, THREE)])
        self.case("several: manifest", difference(ran, SUCCESS, "", b"") or ("" if found == expected else repr(found)))
        grouped = lambda number: f"{number:,}".replace(",", "&#8239;")
        for count, more in ((1, ""), (2, " and 1 more file"), (3, " and 2 more files")):
            for option in ((), ("--digest",)):
                self.desk.watch("--a", *paths[:count], "--manifest", path, *option, a=None, b=None, capture=None, filter=None)
                ran = run(["report", "--config", self.desk.paths["config"], "--ledger", self.desk.paths["ledger"], "--manifest", path], stdout=subprocess.PIPE)
                head = ran.stdout.decode().partition('<p class="key">')[0]
                fits = f"<br/>A <b>{paths[0]}</b>{more}: {grouped(sum(map(len, THREE[:count])))} bytes, {20 * count} frames from " in head
                digests = [hashlib.sha256(content).hexdigest() for content in THREE[:count]] if option else []
                told = re.findall("<br/>A, file ([0-9]+) <b>([^<]*)</b>: ([0-9&#;]+) bytes, SHA-256 <code>([0-9a-f]+)</code>", head)
                wanted = [(str(n + 1), paths[n], grouped(len(THREE[n])), digest) for n, digest in enumerate(digests)] if count > 1 else []
                alone = count > 1 or head.count(f"clean, SHA-256 <code>{''.join(digests)}</code>") == len(digests)
                self.case(f"several: the page's head, {count} files {' '.join(option)}", "" if fits and alone and told == wanted else head[-1500:])

    def test_pipes(self):
        """A pipe may be one of the files, and is opened when it is its turn."""
        self.desk.lay(config=TABLE, filter=EVERY)
        paths = lay(self.desk.directory, "three", THREE)
        os.remove(paths[1])
        os.mkfifo(paths[1])
        writer = subprocess.Popen(["bash", "-c", f"cat > '{paths[1]}'"], stdin=subprocess.PIPE)
        process = subprocess.Popen(desk_command(paths), stdin=subprocess.DEVNULL, stdout=subprocess.PIPE, stderr=subprocess.PIPE)
        writer.communicate(THREE[1], timeout=60)
        out, told = process.communicate(timeout=60)
        self.case("several: a pipe between files", "" if (process.returncode, out, told) == (SUCCESS, WHOLE, b"") else repr((process.returncode, len(out), told)))

    def test_vanished(self):
        """A file that is gone when it is its turn is named, and the packets of those before it are given."""
        self.desk.lay(config=TABLE, filter=EVERY)
        paths = lay(self.desk.directory, "three", THREE)
        os.remove(paths[1])
        os.mkfifo(paths[1])
        process = subprocess.Popen([*desk_command(paths), "-v"], stdin=subprocess.DEVNULL, stdout=subprocess.PIPE, stderr=subprocess.PIPE)
        # The run opens the pipe once the first file was read; the last file goes before it has the pipe's bytes.
        with open(paths[1], "wb") as pipe:
            os.remove(paths[2])
            pipe.write(THREE[1])
        out, told = process.communicate(timeout=60)
        line = f"afdxmon: watch 3 Read A\n{paths[2]}: No such file or directory (os error 2)\n{UNREADABLE}\n"
        before = HEADER + b"".join(part[24:] for part in THREE[:2])
        self.case("several: a file that is gone", "" if (process.returncode, out, told.decode()) == (FAULT, before, line) else repr((process.returncode, len(out), told)))

    def test_standard_input(self):
        """Standard input is named /dev/stdin among several files: `-` is refused there, on the command line and in a list."""
        self.desk.lay(config=TABLE, filter=EVERY, ledger="afdx-ledger 2\n")
        paths = lay(self.desk.directory, "three", THREE)
        by_name = [paths[0], "/dev/stdin", paths[2]]
        self.judge("several: /dev/stdin between files", run(desk_command(by_name)[1:], input=THREE[1], stdout=subprocess.PIPE), SUCCESS, "", WHOLE)
        line = f"afdxmon: {AMONG}"
        for words in (
            ["capture", "--code", EVERY],
            [*self.desk.arguments(a=None, b=None), "--a"],
            [*self.desk.arguments(b=None), "--b"],
            ["check", "--config", self.desk.paths["config"], "--a"],
            ["links", "--b"],
            ["cut", "--ledger", self.desk.paths["ledger"], "--a"],
            ["debug", "--filter", self.desk.paths["filter"], "--tap"],
        ):
            for files in ([paths[0], "-", paths[2]], ["-", paths[1]], [paths[0], "-"], ["-", "-"]):
                ran = run([*words, *files], input=THREE[1], stdout=subprocess.PIPE)
                self.judge(f"several: {words[0]} {words[-1]} of {len(files)} files, {files.index('-') + 1} is -", ran, USAGE, line, b"")
        listed = os.path.join(self.desk.directory, "listed")
        with open(listed, "w") as out:
            out.write(f"{paths[0]}\n-\n{paths[2]}\n")
        ran = run(["capture", "-v", "--code", EVERY, f"@{listed}"], input=THREE[1], stdout=subprocess.PIPE)
        told = line.replace("afdxmon: ", "afdxmon: file RECORDING\n")
        self.judge("several: - in a list of several", ran, FAULT, told, b"")
        ran = run(["capture", "--code", EVERY, "x", "y", "-o", os.path.join(self.desk.directory, "out"), "z", "w"], stdin=subprocess.DEVNULL, stdout=subprocess.PIPE)
        self.judge("several: files in two places are told as they were typed", ran, USAGE, lambda told: "'z w'" in told and "\0" not in told, b"")

    def test_at_terminal(self):
        """A terminal shows progress of all files, and nothing of it stays."""
        self.desk.lay(config=TABLE, filter=EVERY)
        paths = lay(self.desk.directory, "three", THREE)
        ran = run_at_terminal([*self.desk.arguments(a=None, b=None, capture=None, filter=None), "--a", *paths], stdin=subprocess.DEVNULL)
        self.case("several: at a terminal", "" if ran.returncode == SUCCESS and ran.stderr.startswith("afdxmon: summary: frames 60,") else repr(ran.stderr))

    def test_recorders(self):
        """Files as editcap and tcpdump cut them, and as dumpcap records them."""
        frames = [(10**18 + i * 10**7, frame(5 + i % 3, 560 + i % 40, i // 3 % 255 + 1)) for i in range(4000)]
        whole = header() + b"".join(record(*one) for one in frames)
        self.desk.lay(config=TABLE, filter=EVERY, a=whole)
        expected = watch(TABLE, EVERY, whole, header())
        cutters = {
            "editcap -c": ["editcap", "-F", "nsecpcap", "-c", "500", self.desk.paths["a"], "{}/cut.pcap"],
            "editcap -c, pcapng": ["editcap", "-c", "500", self.desk.paths["a"], "{}/cut.pcapng"],
            "editcap -i": ["editcap", "-F", "nsecpcap", "-i", "7", self.desk.paths["a"], "{}/cut.pcap"],
            "tcpdump -C": ["tcpdump", "--nano", "-r", self.desk.paths["a"], "-w", "{}/cut.pcap", "-C", "1", "-Z", "root"],
            "dumpcap -b filesize": ["dumpcap", "-q", "-i", "-", "-b", "filesize:300", "-w", "{}/cut.pcapng"],
            "dumpcap -b packets, pcap": ["dumpcap", "-q", "-P", "-i", "-", "-b", "packets:500", "-w", "{}/cut.pcap"],
        }
        for name, command in cutters.items():
            if not shutil.which(command[0]):
                self.skip(f"several: {name}", f"no {command[0]} here")
                continue
            with tempfile.TemporaryDirectory() as folder:
                os.chmod(folder, 0o777)
                made = subprocess.run([word.replace("{}", folder) for word in command], input=whole, capture_output=True, timeout=60)
                paths = sorted(glob.glob(f"{folder}/*"), key=lambda path: (len(path), path))
                if made.returncode or len(paths) < 3:
                    self.skip(f"several: {name}", f"it makes {len(paths)} files")
                    continue
                ran = self.desk.watch("--a", *paths, a=None, b=None)
                fault = difference(ran, SUCCESS, "", b"")
                self.case(f"several: {name}", fault or self.desk.compared("capture", expected.capture) or self.desk.compared("ledger", expected.lines + expected.summary))
