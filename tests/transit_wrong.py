"""Wrong programs that the tests of `afdxmon transit` have to refuse: each runs the program, and edits the
ledger that it left."""
import os
import subprocess
import sys

from tests.harness import PROGRAM, TOP, Case, put

# Runs the program, and replaces what a pattern finds first in the ledger.
WRONG = """#!{python}
import os, re, subprocess, sys
words = sys.argv[1:]
ended = subprocess.run([{program!r}, *words])
path = words[words.index("--ledger") + 1] if "--ledger" in words else ""
if os.path.isfile(path):
    with open(path) as ledger:
        text = ledger.read()
    with open(path, "w") as ledger:
        ledger.write(re.sub({pattern!r}, {replacement}, text, count=1, flags=re.M))
sys.exit(ended.returncode)
"""
ONE_MORE = "lambda found: found[1] + str(int(found[2]) + 1)"
# What is wrong: a pattern, and the text or function that replaces it.
EDITS = {
    "an outcome": (r" refused - - -$", "' dropped - - -'"),
    "a lost line": (r"^\d+ before .*\n", "''"),
    "a line twice": (r"^(\d+ after .*\n)", r"r'\1\1'"),
    "a latency by a nanosecond": (r"( passed \d+ )(-?\d+)(?= -$)", ONE_MORE),
    "a partner": (r"( passed )(\d+)(?= -?\d+ -$)", ONE_MORE),
    "a policing": (r" unsure (passed|slow) ", r"r' within \1 '"),
    "a byte that differs": (r"( changed \d+ -?\d+ )(\d+)", ONE_MORE),
    "a frame twice that is new": (r" twice - - -$", "' new - - -'"),
    "a sequence number": (r"^(\d+ after \d+ \d+ )(\d+)", ONE_MORE),
    "two lines in another order": (r"^(\d+ before .*\n)(\d+ before .*\n)", r"r'\2\1'"),
    "a rank": (r"( p99 )(\d+)", ONE_MORE),
    "a count of a link": (r"(^link 1 .* after )(\d+)", ONE_MORE),
    "a count of all": (r"(^total .* open )(\d+)", ONE_MORE),
    "how many choices": (r"( choice )(\d+)$", ONE_MORE),
}


class Wrong(Case):
    def said_of(self, pattern, replacement):
        """What the tests beside the slow judge say of a wrong program."""
        how = {"python": sys.executable, "program": PROGRAM, "pattern": pattern, "replacement": replacement}
        wrong = put(self.folder, "wrong", WRONG.format(**how))
        os.chmod(wrong, 0o755)
        environment = {**os.environ, "PROGRAM": wrong, "JUDGED": "50", "TMPDIR": self.folder}
        command = [sys.executable, "-m", "unittest", "-f", "tests.transit.Judge"]
        return subprocess.run(command, cwd=TOP, env=environment, capture_output=True, text=True, timeout=600)

    def test_wrong(self):
        for name, edit in EDITS.items():
            ran = self.said_of(*edit)
            refused = ran.returncode == 1 and "AssertionError: recordings" in ran.stderr
            fault = "" if refused else f"status {ran.returncode}: {ran.stderr[-300:]}"
            self.case(f"{name} is refused", fault)

    def test_right(self):
        """The program as it is passes in the same way."""
        ran = self.said_of("^$", "''")
        fault = "" if ran.returncode == 0 else f"status {ran.returncode}: {ran.stderr[-300:]}"
        self.case("no edit is refused", fault)
