"""The commit that `--version` names: that of the sources, which `tools/stamp` puts into the linked program."""
import os
import re
import shutil
import subprocess
import unittest

from tests.harness import PROGRAM, TOP, Case
from tests.texts import VERSION

UNKNOWN = "unknown-tree"
PLACE = re.compile(rb"\(commit (unknown-tree|[0-9a-f]{12})\)")


def git(directory, *arguments):
    who = {"GIT_AUTHOR_NAME": "a", "GIT_AUTHOR_EMAIL": "a@b", "GIT_COMMITTER_NAME": "a", "GIT_COMMITTER_EMAIL": "a@b"}
    environment = {**os.environ, **who, "GIT_CONFIG_GLOBAL": os.devnull, "GIT_CONFIG_SYSTEM": os.devnull}
    return subprocess.run(["git", *arguments], cwd=directory, capture_output=True, text=True, env=environment, timeout=60)


def commits_of_the_program():
    """The commits that it has, of which there is to be one."""
    with open(PROGRAM, "rb") as program:
        return [commit.decode() for commit in PLACE.findall(program.read())]


def version_of_the_program():
    """What `--version` prints."""
    return VERSION.replace(UNKNOWN, " ".join(commits_of_the_program()))


class Tree:
    """A repository with a crate and a linked program, and tools/stamp."""

    LINKED = b"\x7fELF and more\0afdxmon 1.0.0 (commit unknown-tree)\0unknown-tree\0"
    AT = LINKED.index(b"unknown-tree")

    def __init__(self, directory):
        self.directory = directory
        for path in ("tools", "crates/one/src", "bin"):
            os.makedirs(os.path.join(directory, path))
        shutil.copy(os.path.join(TOP, "tools", "stamp"), os.path.join(directory, "tools"))
        self.write(".gitignore", b"/bin/\nout/\n")
        self.write("crates/one/src/lib.rt", b"//! One.\n")
        self.write("bin/linked", self.LINKED)

    def write(self, path, data):
        with open(os.path.join(self.directory, path), "wb") as out:
            out.write(data)

    def stamp(self, at=AT):
        """Stamps the linked program at a byte. What it is then, if it is one, and what was said."""
        target = os.path.join(self.directory, "bin", "program")
        if os.path.exists(target):
            os.remove(target)
        command = [os.path.join(self.directory, "tools", "stamp"), os.path.join("bin", "linked"), os.path.join("bin", "program"), str(at)]
        ran = subprocess.run(command, cwd=self.directory, capture_output=True, timeout=60)
        made = None
        if os.path.exists(target):
            with open(target, "rb") as program:
                made = program.read()
            if not os.access(target, os.X_OK):
                made = b"it can't be run"
        return ran.returncode, made, ran.stderr.decode()

    def commit(self):
        git(self.directory, "add", "-A")
        git(self.directory, "commit", "-q", "-m", "one")
        return git(self.directory, "rev-parse", "HEAD").stdout[:12]


class Stamps(Case):
    def test_of_the_program(self):
        """The program names a commit in one place, and that has the sources of the crates that are here."""
        commits = commits_of_the_program()
        self.case("the program has one commit", "" if len(commits) == 1 else f"it has {commits}")
        commit = (commits or [UNKNOWN])[0]
        if commit == UNKNOWN or not shutil.which("git") or git(TOP, "rev-parse", "--git-dir").returncode:
            self.skip("the commit has the sources that are here", f"it says {commit}, or there is no git here")
            return
        differs = git(TOP, "diff", "--stat", commit, "--", "crates", "crates.txt", "HANDLES")
        self.case("the commit has the sources that are here", differs.stdout + differs.stderr)

    def has(self, name, tree, commit):
        ran, expected = tree.stamp(), tree.LINKED.replace(b"(commit unknown-tree)", b"(commit %s)" % commit.encode())
        self.case(f"stamp: {name}", "" if ran == (0, expected, "") else f"it leaves {ran}")

    @unittest.skipUnless(shutil.which("git"), "no git here")
    def test_of_a_tree(self):
        tree = Tree(self.folder)
        self.has("without git", tree, UNKNOWN)
        git(tree.directory, "init", "-q")
        self.has("without a commit", tree, UNKNOWN)
        first = tree.commit()
        self.has("a commit", tree, first)
        tree.write("README.md", b"more\n")
        self.has("a document that isn't committed", tree, first)
        tree.write("crates/one/src/lib.rt", b"//! Another.\n")
        self.has("a source that differs", tree, UNKNOWN)
        second = tree.commit()
        self.has("the next commit", tree, second)
        self.case("stamp: two commits differ", "" if first != second else f"both are {first}")
        tree.write("crates/one/src/more.rt", b"//! More.\n")
        self.has("a source that is new", tree, UNKNOWN)
        os.remove(os.path.join(tree.directory, "crates/one/src/more.rt"))
        self.has("the sources as they were", tree, second)
        for at in (tree.AT - 1, tree.AT + 1, len(tree.LINKED), 10**9):
            ran, told = tree.stamp(at), f"stamp: the program hasn't 'unknown-tree' at byte {at}\n"
            self.case(f"stamp: at byte {at}", "" if ran == (1, None, told) else f"it leaves {ran}")
