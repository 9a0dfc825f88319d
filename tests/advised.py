"""Tests that what the program advises works: each command of docs/MESSAGES.md, of docs/FILTERS.md and of the advice runs as it
stands, and what it writes is taken.

The commands name in.pcap, in.pcap.gz, in.pcap.zst and in.asm. A command whose tool isn't installed is left out.
"""
import os
import re
import shutil
import struct
import subprocess
import tempfile

from tests import texts
from tests.harness import EVERY, PROGRAM, SUCCESS, TOP, Case, frame, header, read, record, run

FRAMES = [(10, frame(5, 60, 1)), (20, frame(5, 60, 2)), (30, frame(6, 80, 3))]
WHOLE = header() + b"".join(record(*one) for one in FRAMES)
TOOLS = ("editcap", "reordercap", "gunzip", "unzstd", "tcpdump", "afdxmon")


# Recordings that are refused or end early, by a word of the command that mends them, and the frames that are to come out.
BAD = struct.pack("<IIII", 0, 40, 262145, 60) + bytes(60)
TAG = b"\x81\x00\x00\x05"
MENDS = (
    ("-C 12:4", {"in.pcap": header() + b"".join(record(stamp, data[:12] + TAG + data[12:]) for stamp, data in FRAMES)}, FRAMES),
    ("-C -4", {"in.pcap": header(link_type=0x24000001) + b"".join(record(stamp, data + b"fcs.") for stamp, data in FRAMES)}, FRAMES),
    ("1-2", {"in.pcap": header() + b"".join(record(*one) for one in FRAMES[:2]) + BAD}, FRAMES[:2]),
    ("-c 1000000000", {"in.pcap": WHOLE}, FRAMES),
    (" -d ", {"in.pcap": header() + b"".join(record(stamp + later, data) for stamp, data in FRAMES for later in (0, 1))}, FRAMES),
    ("-i 60", {"in.pcap": WHOLE}, FRAMES),
    ("reordercap", {"in.pcap": header() + b"".join(record(*one) for one in FRAMES[::-1])}, FRAMES),
    ("editcap -F nsecpcap in.pcap out.pcap", {"in.pcap": header(version=(2, 3)) + WHOLE[24:]}, FRAMES),
    ("gunzip", {"in.pcap": WHOLE}, FRAMES),
    ("unzstd", {"in.pcap": WHOLE}, FRAMES),
)
PACKERS = {"gunzip": ["gzip", "in.pcap"], "unzstd": ["zstd", "-q", "--rm", "in.pcap"]}


def commands():
    """The commands that the page and the advice show."""
    pages = (read(TOP, "docs", page).decode() for page in ("MESSAGES.md", "FILTERS.md"))
    shown = [word for page in pages for word in re.findall(r"`([^`\n]*)`", page)]
    told = [text.format(2) for text in (*texts.ADVICE.values(), *texts.ENDINGS.values())]
    told += [texts.CHECK_SEQUENCES, texts.EXPRESSION, texts.SOURCE, texts.NOT_NUMERIC]
    tool = "|".join(TOOLS)
    files = r"in\.\S+|out\.pcap|1-2|-\S+|[0-9]+|nsecpcap|EN10MB|'[^']*'|asm|<"
    found = {word for word in shown if re.match(rf"({tool}) .*(in\.|'ip)", word)}
    for text in told:
        found |= {match.group().strip(" :;,") for match in re.finditer(rf"\b({tool})( ({files}))+", text)}
    return sorted(command for command in found if re.search(r" in\.|'", command))


def frames_of(desk):
    """The frames that the program takes of the files that a command wrote, and whether it took them whole."""
    written = sorted(name for name in os.listdir(desk) if name.startswith("out")) or ["in.pcap"]
    if len(written) != 1:
        return f"it wrote {written}"
    with open(os.path.join(desk, written[0]), "rb") as recording:
        ran = run(["capture", "--code", EVERY], stdin=recording, stdout=subprocess.PIPE)
    return ran.stdout if (ran.returncode, ran.stderr) == (SUCCESS, b"") else f"{written[0]} isn't taken: {ran.stderr!r}"


def mended(command):
    """A command that mends a recording. What comes out is compared with the frames that are to come out."""
    word, files, frames = next(row for row in MENDS if row[0] in command)
    with tempfile.TemporaryDirectory() as desk:
        for name, content in files.items():
            with open(os.path.join(desk, name), "wb") as out:
                out.write(content)
        if word in PACKERS:
            if not shutil.which(PACKERS[word][0]):
                return None
            subprocess.run(PACKERS[word], cwd=desk, check=True)
        ran = subprocess.run(["bash", "-c", command], cwd=desk, capture_output=True, timeout=60)
        if ran.returncode:
            return f"status {ran.returncode}, {ran.stderr!r}"
        found = frames_of(desk)
    expected = header() + b"".join(record(*one) for one in frames)
    return "" if found == expected else found if isinstance(found, str) else f"{found!r}, not {expected!r}"


def compiled(command):
    """A command that prints a filter in the numeric form: the program takes it."""
    with tempfile.TemporaryDirectory() as desk:
        with open(os.path.join(desk, "in.asm"), "w", encoding="utf-8") as out:
            out.write("ldh [4]\njne #5, drop\nret #-1\ndrop: ret #0\n")
        os.symlink(PROGRAM, os.path.join(desk, "afdxmon"))
        how = {**os.environ, "PATH": desk + os.pathsep + os.environ["PATH"]}
        ran = subprocess.run(["bash", "-c", command], cwd=desk, capture_output=True, timeout=60, env=how, text=True)
    if ran.returncode:
        return f"status {ran.returncode}, {ran.stderr!r}"
    taken = run(["capture", "--code", ran.stdout], input=WHOLE, stdout=subprocess.PIPE)
    return "" if (taken.returncode, taken.stderr) == (SUCCESS, b"") else f"it isn't taken: {taken.stderr!r}"


def unpacked(packer, suffix):
    """The words that the advice on a compressed recording has stand in its place, in a shell that has them."""
    with tempfile.TemporaryDirectory() as desk:
        path = os.path.join(desk, "in.pcap")
        with open(path, "wb") as out:
            out.write(WHOLE)
        subprocess.run([packer, "-q", path], check=True)
        ran = run(["capture", "-v", "--code", EVERY, path + suffix], stdout=subprocess.PIPE)
        words = ran.stderr.decode().splitlines()[-1].partition(f"({packer}) as it is read: ")[2]
        ran = subprocess.run(["bash", "-c", f"'{PROGRAM}' capture --code '{EVERY}' {words}"], capture_output=True, timeout=60)
        expected = header() + b"".join(record(*one) for one in FRAMES)
        return "" if words and (ran.returncode, ran.stdout) == (SUCCESS, expected) else f"{words!r}: {ran.stderr!r}"


class Advised(Case):
    def test_packers(self):
        for packer, suffix in (("gzip", ".gz"), ("zstd", ".zst"), ("xz", ".xz")):
            if shutil.which(packer):
                self.case(f"advised: a recording that is compressed by {packer}", unpacked(packer, suffix))

    def test_commands(self):
        found = commands()
        missing = [word for word, _, _ in MENDS if not any(word in command for command in found)]
        self.case("each recording that is mended", f"no command has {missing}" if missing else "")
        for command in found:
            tool = command.split()[0]
            if tool != "afdxmon" and not shutil.which(tool):
                continue
            fault = compiled(command) if tool in ("tcpdump", "afdxmon") else mended(command)
            if fault is not None:
                self.case(f"advised: {command}", fault)
