"""The commands of README, docs/GUIDE.md, docs/FILTERS.md and the man pages do what stands there, and what is said beside them is so."""
import glob
import os
import re
import shutil
import signal
import subprocess
import tempfile
import time

from tests.harness import EVERY, PROGRAM, SUCCESS, TOP, Case, difference, frame, header, read, run
from tests.reference import HEADER, frames_of, record_of
from tests.watching import TABLE, Desk, tap

# The interpreter for which Debian's packages are.
DEBIAN_PYTHON = "/usr/bin/python3"
TOOLS = ("editcap", "gzip", "jq", "mergecap", "tcpdump", "tshark", "xxd", "zcat")
WRITTEN = re.compile(r"(?:(?<!2)>|\s(?:-w|-o|--ledger|--capture))\s*([\w.]+)")
MS = 10**6


def commands_of(page):
    """Each command of a page that stands with what it prints, and that."""
    for block in re.findall(r"^```console\n(.*?)^```", read(os.path.join(TOP, page)).decode(), re.M | re.S):
        for part in re.split(r"^\$ ", block, flags=re.M)[1:]:
            lines = part.splitlines(keepends=True)
            count = 1
            while "".join(lines[:count]).count("'") % 2 or lines[count - 1].endswith(("\\\n", "&\n", "|\n")):
                count += 1
            yield "".join(lines[:count]), "".join(lines[count:])


def surroundings(directory):
    """How a reader runs commands: in a directory, with the program on the PATH."""
    path = f"{directory}/bin:{os.environ['PATH']}"
    return {"cwd": directory, "env": {**os.environ, "LC_ALL": "C", "PATH": path}, "timeout": 60}


def has_pandas():
    return subprocess.run([DEBIAN_PYTHON, "-c", "import pandas, matplotlib"], capture_output=True).returncode == 0


def with_program(directory):
    os.mkdir(os.path.join(directory, "bin"))
    os.symlink(PROGRAM, os.path.join(directory, "bin", "afdxmon"))
    if os.path.exists(DEBIAN_PYTHON):
        os.symlink(DEBIAN_PYTHON, os.path.join(directory, "bin", "python3"))


def missing_for(command, absent, directory):
    """Why a command can't be run: a tool that isn't here, or a file that a command which was skipped would have written."""
    tool = missing_tool(command)
    if tool:
        return f"no {tool} here"
    file = next((file for file in sorted(absent) if re.search(rf"(?<![\w.-]){re.escape(file)}(?![\w.-])", command)), None)
    pattern = next((word for word in command.split() if re.fullmatch(r"[\w.]*\*[\w.*]*", word) and not glob.glob(word, root_dir=directory)), None)
    return file and f"no {file} here" or pattern and f"no {pattern} here"


def missing_tool(command):
    if "import ledger" in command and not has_pandas():
        return "pandas and matplotlib"
    return next((tool for tool in TOOLS if re.search(rf"\b{tool} ", command) and not shutil.which(tool)), None)


def literals(page):
    """The examples of a man page."""
    text = read(os.path.join(TOP, "man", page)).decode()
    blocks = re.findall(r"^\.Bd -literal.*?\n(.*?)^\.Ed", text, re.M | re.S)
    return [block.replace("\\&", "").replace("\\e", "\\") for block in blocks]


def interrupted(command, directory):
    """What a ledger has half a second after Ctrl-C, of a run whose recorders pause at their recordings' ends. Is it whole?"""
    how = {**surroundings(directory), "stdout": subprocess.DEVNULL, "stderr": subprocess.DEVNULL}
    del how["timeout"]
    # As a terminal starts it, whatever this process ignores.
    child = subprocess.Popen(["bash", "-c", command], start_new_session=True, preexec_fn=lambda: signal.signal(signal.SIGINT, signal.SIG_DFL), **how)
    ledger = os.path.join(directory, "stopped.ledger")
    deadline = time.monotonic() + 60
    while time.monotonic() < deadline and not (os.path.exists(ledger) and read(ledger).count(b"\n") == 9369):
        time.sleep(0.05)
    time.sleep(0.3)
    os.killpg(child.pid, signal.SIGINT)
    try:
        child.wait(10)
    except subprocess.TimeoutExpired:
        os.killpg(child.pid, signal.SIGKILL)
        child.wait()
    text = read(ledger)
    os.remove(ledger)
    return text


class Guide(Case):
    def page_in(self, directory, page):
        """Runs the commands of a page in a directory, one after another."""
        how = {**surroundings(directory), "stdout": subprocess.PIPE, "stderr": subprocess.STDOUT}
        absent = set()
        for command, printed in commands_of(page):
            name = f"{page}: {' '.join(command.split())[:100]}"
            why = missing_for(command, absent, directory)
            if why:
                absent.update(WRITTEN.findall(command))
                self.skip(name, why)
                continue
            ran = subprocess.run(["bash", "-c", command], **how)
            self.case(name, "" if ran.stdout == printed.encode() else f"printed {ran.stdout[:300]!r}")

    def test_pages(self):
        """The commands of the pages for users run in a copy of the examples."""
        for page in ("README.md", os.path.join("examples", "README.md"), os.path.join("docs", "GUIDE.md"), os.path.join("docs", "FILTERS.md")):
            with tempfile.TemporaryDirectory() as directory:
                copy = shutil.copytree(os.path.join(TOP, "examples"), os.path.join(directory, "examples"))
                with_program(copy)
                self.page_in(copy, page)

    def test_sources(self):
        """The example of docs/FILTERS.md keeps what its comment says."""
        (source,) = re.findall(r"^```\n(; .*?)^```", read(os.path.join(TOP, "docs", "FILTERS.md")).decode(), re.M | re.S)
        with open(os.path.join(TOP, "examples", "three_links.pcap"), "rb") as given:
            recorded = given.read()
        keeps = [(stamp, whole, data[: {5: whole, 6: whole, 7: 100}.get(int.from_bytes(data[4:6], "big"), 0)]) for stamp, whole, data in frames_of(recorded)]
        expected = HEADER + b"".join(record_of(stamp, whole, kept) for stamp, whole, kept in keeps)
        with tempfile.TemporaryDirectory() as directory:
            path = os.path.join(directory, "example.asm")
            with open(path, "w", encoding="utf-8") as out:
                out.write(source)
            ran = run(["capture", "--source", path], input=recorded, stdout=subprocess.PIPE)
        self.judge("docs/FILTERS.md: the example", ran, SUCCESS, "", expected)

    def test_session(self):
        """The commands of docs/DEBUGGER.md write its files, and begin its session."""
        page = read(os.path.join(TOP, "docs", "DEBUGGER.md")).decode()
        command = re.search(r"^```\n(echo .*?)^```", page, re.M | re.S)[1]
        tool = missing_tool(command)
        if tool:
            self.skip("docs/DEBUGGER.md: its files", f"no {tool} here")
            return
        with tempfile.TemporaryDirectory() as directory:
            with_program(directory)
            ran = subprocess.run(["bash", "-e", "-c", command], input=b"tally\n", capture_output=True, **surroundings(directory))
        self.judge("docs/DEBUGGER.md: its files", ran, SUCCESS, "", b"frames 3\ntally accepted 0 rejected 3\n")

    def runs(self, name, command, directory):
        """Commands that end well, without a word on standard error."""
        tool = missing_tool(command)
        if tool:
            self.skip(name, f"no {tool} here")
            return
        ran = subprocess.run(["bash", "-e", "-c", command], capture_output=True, **surroundings(directory))
        self.case(name, "" if ran.returncode == 0 and not ran.stderr else f"status {ran.returncode}, {ran.stderr!r}")

    def test_manual(self):
        """The examples of the man pages run, without a word on standard error."""
        (table,) = literals("afdxmon-table.5")
        with_program(self.folder)
        with open(os.path.join(self.folder, "table.toml"), "w", encoding="utf-8") as out:
            out.write(table)
        lines, search = literals("afdxmon-ledger.5")
        run, *others = literals("afdxmon.1")
        run = run.replace("/usr/share/doc/afdxmon/examples", os.path.join(TOP, "examples"))
        with_table = run.partition("\n")[2].replace("examples/flight.toml", "table.toml").replace("flight.ledger", "table.ledger")
        for command in (run, *others, with_table, search):
            self.runs(f"the manual: {' '.join(command.split())[:100]}", command, self.folder)
        ledger = read(os.path.join(self.folder, "flight.ledger")).decode()
        others = [part for part in lines.split("..\n") if part not in ledger]
        self.case("the manual: lines of a ledger", f"the flight's hasn't {others}" if others else "")

    def test_table_of_csv(self):
        """The table that an interface document makes is that of the flight, but for what the document doesn't say."""
        script, document = (os.path.join(TOP, "examples", name) for name in ("table_of_csv", "flight.csv"))
        written = read(os.path.join(TOP, "examples", "flight.toml")).decode()
        links = [re.sub(r"#.*", "", link).split() for link in written.split("[[link]]")[1:]]
        for name, text in (("as it is", read(document)), ("of Windows", b"\xef\xbb\xbf" + read(document).replace(b"\n", b"\r\n"))):
            path = os.path.join(self.folder, "links.csv")
            with open(path, "wb") as out:
                out.write(text)
            made = subprocess.run([script, path, "0x07000000"], stdout=subprocess.PIPE, timeout=60).stdout.decode()
            head, *rest = made.split("[[link]]")
            same = head == "constant = 0x07000000\n\n" and [link.split() for link in rest] == links
            self.case(f"a table from an interface document {name}", "" if same else f"it is {made[:300]!r}")

    def test_tagged(self):
        """A frame with a VLAN tag is judged as its link's, four bytes longer."""
        desk = Desk(self.folder)
        frames = [frame(5, size, number) for number, size in enumerate((60, 92, 93, 60), 1)]
        frames = [data[:12] + b"\x81\0\0\7" + data[12:] for data in frames]
        desk.lay(
            config=TABLE.replace("smax = 200", "smax = 100"),
            filter=EVERY,
            a=tap(*((i * 2 * MS, data) for i, data in enumerate(frames))),
            b=header(),
        )
        ran = desk.watch()
        found = [line.split(" ", 3)[3] for line in desk.left("ledger").decode().splitlines()[1:5]]
        expected = [
            "5 1 regular within first deliver 64 01",
            "5 2 regular within next deliver 96 01",
            "5 3 toolong - - - 97 01",
            "5 4 regular within skip deliver 64 01",
        ]
        self.case("frames with VLAN tags", difference(ran, SUCCESS, "", b"") or ("" if found == expected else f"judged {found}"))

    def test_stopping(self):
        """A live run that Ctrl-C stops, and one whose recorders alone it stops, as the guide has them."""
        with_program(self.folder)
        os.symlink(os.path.join(TOP, "examples"), os.path.join(self.folder, "examples"))
        taps = " ".join(f"--{tap} <(trap - INT; cat examples/flight_{tap}.pcap; exec sleep 60)" for tap in "ab")
        command = f"afdxmon watch --config examples/flight.toml {taps} --ledger stopped.ledger"
        left = interrupted(command, self.folder)
        whole = interrupted(f"(trap '' INT; exec {command})", self.folder)
        self.case("Ctrl-C leaves a recorders' run complete", "" if whole.splitlines()[-1].startswith(b"total ") else f"{whole[-100:]!r}")
        is_first = whole.startswith(left) and left.endswith(b"\n") and left.count(b"\n") == 9369
        self.case("Ctrl-C leaves whole lines of what was safe", "" if is_first and b"\ntotal" not in left else f"{left[-100:]!r}")
