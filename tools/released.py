"""What stands in release/: the program, packed, and what it was made of.

release/SOURCES has a line for each of these, its name first: the toolchain, as `rt version` says it; the sums of the sources
(tools/sources), of the proved object file, of the program that the toolchain itself links of it (dynamically), of the C library
that tools/link takes, of the program, and of the packed file; and the byte of the program at which the commit stands. The program
is as it was linked, without a commit.
"""

import gzip
import hashlib
import subprocess

from crate_trees import TOP

PACKED = TOP / "release" / "afdxmon-linux-x86_64.gz"
SOURCES = TOP / "release" / "SOURCES"
COMMIT = b"(commit unknown-tree)"


def sum_of(data):
    return hashlib.sha256(data).hexdigest()


def library():
    """The sum of this machine's C library, as tools/link takes it, or None where it has none."""
    ran = subprocess.run([TOP / "tools" / "link", "--library"], capture_output=True, text=True)
    return ran.stdout.strip() if ran.returncode == 0 else None


def said():
    """What release/SOURCES says, by the names of its lines: nothing where it isn't there."""
    lines = SOURCES.read_text().splitlines() if SOURCES.exists() else []
    return {name: value for name, _, value in (line.partition(" ") for line in lines)}


def place_of_commit(program):
    """The byte of the program at which the commit stands, or None where that isn't once."""
    if program.count(COMMIT) != 1:
        return None
    return program.index(COMMIT) + COMMIT.index(b"unknown")


def write(toolchain, sources, made):
    """Writes release/ anew. The same bytes come of the same program: the packed file has no name and no time."""
    program = made["program"]
    packed = gzip.compress(program, 9, mtime=0)
    lines = {
        "toolchain": toolchain,
        "sources": sources,
        "object": sum_of(made["object"]),
        "dynamic": sum_of(made["dynamic"]),
        "library": library(),
        "program": sum_of(program),
        "packed": sum_of(packed),
        "commit-at": place_of_commit(program),
    }
    PACKED.parent.mkdir(exist_ok=True)
    PACKED.write_bytes(packed)
    SOURCES.write_text("".join(f"{name} {value}\n" for name, value in lines.items()))
