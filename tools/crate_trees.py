"""The crates of crates.txt, those of the program with the sum of its sources, and trees in which one is worked on beside others.

An rt keeps others out of all crates below its own, so crates that share one below them would wait for each other. In a tree of its
own a crate has its files, and those of the crates below with what was built of them: links to the same files.
"""

import os
import pathlib
import re
import shutil
import subprocess

TOP = pathlib.Path(__file__).resolve().parent.parent
PARTS = ("src", "specs", "proofs")


class Crates:
    """The crates of the repository, and which of them each stands on."""

    def __init__(self):
        lines = (TOP / "crates.txt").read_text().splitlines()
        self.lines = {re.match(r"\w+", line)[0]: line for line in lines if re.match(r"\w", line)}
        uses = {name: line.partition(":")[2].split() for name, line in self.lines.items()}
        self.uses = {name: [it for it in of if it in self.lines] for name, of in uses.items()}

    def below(self, name):
        """The crates that one stands on, itself left out."""
        found, left = set(), list(self.uses[name])
        while left:
            it = left.pop()
            if it not in found:
                found.add(it)
                left += self.uses[it]
        return found

    def files(self, name, parts=PARTS):
        """What a crate is made of."""
        return sorted(it for part in parts for it in (TOP / "crates" / name / part).rglob("*") if it.is_file())

    def size(self, name, parts=PARTS):
        """How many lines a crate has."""
        return sum(file.read_bytes().count(b"\n") for file in self.files(name, parts))


class Program(Crates):
    """The program's crate and those that it stands on."""

    def __init__(self):
        super().__init__()
        self.names = sorted({"afdxmon", *self.below("afdxmon")})

    def sources(self):
        """A sum of all that the program is made of."""
        return subprocess.run([TOP / "tools" / "sources"], capture_output=True, check=True, text=True).stdout.strip()


def plant(crates, name, trees):
    """Makes the tree of a crate below the folder `trees`. The crate's folder in it."""
    tree, below = trees / name, crates.below(name)
    shutil.rmtree(tree, ignore_errors=True)
    for it in [*below, name]:
        for part in [*PARTS, *(["out/rlib"] if it in below else [])]:
            of = TOP / "crates" / it / part
            if of.is_dir():
                shutil.copytree(of, tree / "crates" / it / part, copy_function=os.link)
    (tree / "crates.txt").write_text("".join(f"{crates.lines[it]}\n" for it in sorted([*below, name])))
    shutil.copy(TOP / "HANDLES", tree)
    return tree / "crates" / name
