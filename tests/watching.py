"""`afdxmon watch` as a program: its status, its lines, and its two files byte for byte.

What it writes is compared with the texts of worked examples, and with the slow analyser in tests/analyser.py.
"""
import os
import random
import subprocess
import threading

from tests import pairs
from tests.analyser import watch
from tests.harness import EVERY, FAULT, ODD, PROGRAM, SUCCESS, TOP, USAGE, Case, difference, frame, header, read, record, run
from tests.reference import HEADER, disorder, lateness_after

LINK_5 = """
[[link]]
id = 5
name = "brake"
bag_ms = 1
jitter_us = 0
smax = 200
integrity = true
redundancy = true
skew_us = 1000
"""
TABLE = "constant = 50331648\n" + LINK_5
OPTIONS = ("config", "filter", "a", "b", "capture", "ledger")
# What an older run has left in the outputs.
OLDER = b"older"
# ldb [59], jeq #1, ret #64, ret #0: the first 64 bytes of frames with another sequence number than 1
NOT_FIRST = "4,48 0 0 59,21 1 0 1,6 0 0 64,6 0 0 0,"
WORKERS = ((), ("--workers", "1"), ("--workers", "2"), ("--workers", "8"), ("--workers=3",))
NO_FRAME = "frames 0 toolong 0 excess 0 out 0 copy 0 delivered 0"
NO_FAULT = "cut 0 runt 0 oversize 0 foreign 0 unconfigured 0 toolong 0 excess 0 out 0"


def tap(*frames):
    """A recording of frames, each a stamp and its bytes."""
    return header() + b"".join(record(stamp, data) for stamp, data in frames)


REASONS = {
    "length": "captured length over 262144 bytes",
    "fraction": "fraction of a second out of range",
    "stampback": "timestamp out of order",
    "toomany": "too many frames",
    "fileheader": "another pcap file begins here",
    "nextfile": "the next file has no header that is read",
}


def notes_on(ledger, recordings):
    """What standard error has of the recordings of this ledger, without the last newline."""
    notes = []
    for line in ledger.decode().splitlines():
        if line.startswith("tap ") and " clean " not in line:
            network, way, count, *reason = line.split()[1:]
            why = REASONS[reason[0]] if reason else "truncated within a record"
            if reason == ["stampback"]:
                why += disorder("watch", lateness_after(recordings[network], int(count)))
            frames = f"{count} frame{'' if count == '1' else 's'}"
            notes.append(f"afdxmon: note: recording of network {network} ends {way} after {frames}: {why}")
    return "\n".join(notes)


class Desk:
    """A directory with the six files of one run after another."""

    def __init__(self, directory):
        self.directory = directory
        self.paths = {option: os.path.join(directory, option) for option in OPTIONS}

    def lay(self, **contents):
        """Writes the inputs, and leaves something in the outputs as an older run would."""
        for option, path in self.paths.items():
            content = contents.get(option, OLDER)
            with open(path, "wb") as out:
                out.write(content.encode() if isinstance(content, str) else content)

    def arguments(self, **elsewhere):
        """The arguments, with the desk's paths but for those given. An option whose path is None is left out."""
        paths = {**self.paths, **elsewhere}
        return ["watch", *(word for option, path in paths.items() if path is not None for word in ("--" + option, path))]

    def watch(self, *more, **elsewhere):
        return run([*self.arguments(**elsewhere), *more], stdin=subprocess.DEVNULL, stdout=subprocess.PIPE)

    def left(self, option):
        with open(self.paths[option], "rb") as given:
            return given.read()

    def compared(self, option, expected):
        """How an output differs from what is expected."""
        found = self.left(option)
        if found == expected:
            return ""
        same = len(os.path.commonprefix([found, expected]))
        begin = max(0, same - 40)
        return f"the {option} differs at byte {same}: {found[begin : same + 40]!r}, not {expected[begin : same + 40]!r}"

    def agrees(self, ran, capture, ledger):
        """How a run that should succeed differs from that. It notes each recording that its ledger doesn't call clean."""
        recordings = {network: self.left(network.lower()) if os.path.exists(self.paths[network.lower()]) else b"" for network in "AB"}
        return difference(ran, SUCCESS, notes_on(ledger, recordings), b"") or self.compared("capture", capture) or self.compared("ledger", ledger)


class AtADesk(Case):
    """A test of `watch` at a desk of its own."""

    def setUp(self):
        self.desk = Desk(self.folder)

    def refused(self, name, ran, line):
        """A run that ends with a fault and leaves the outputs as they were."""
        fault = difference(ran, FAULT, "afdxmon: " + line, b"") or self.desk.compared("capture", OLDER) or self.desk.compared("ledger", OLDER)
        self.case(f"watch: {name}: {line}", fault)


class Watching(AtADesk):

    def worked_example(self, name, config, code, a, b, capture, ledger):
        for arguments in WORKERS:
            self.desk.lay(config=config, filter=code, a=a, b=b)
            self.case(" ".join(["watch:", name, *arguments]), self.desk.agrees(self.desk.watch(*arguments), capture, ledger.encode()))

    def test_worked_examples(self):
        one, two, three = (frame(5, 60, number) for number in (1, 2, 3))
        same = tap((5, one))
        self.worked_example("a frame and its copy at one stamp", TABLE, EVERY, same, same, tap((5, one), (5, one)), f"""afdx-ledger 2
5 A 0 5 1 regular within first deliver 60 01
5 B 0 5 1 regular within first copy 60 01
link 5 brake frames 2 toolong 0 excess 0 out 0 copy 1 delivered 1
filter 0 accepted 2
tap A clean 1
tap B clean 1
total frames 2 accepted 2 {NO_FAULT} copy 1 delivered 1
""")
        a, b = tap((0, one), (100, two)), tap((200, two))
        self.worked_example("the two-tap ledger", TABLE, NOT_FIRST, a, b, tap((100, two), (200, two)), f"""afdx-ledger 2
0 A 0 5 1 regular within first deliver - 00
100 A 1 5 2 regular within next deliver 60 01
200 B 0 5 2 regular within first copy 60 01
link 5 brake frames 3 toolong 0 excess 0 out 0 copy 1 delivered 2
filter 0 accepted 2
tap A clean 2
tap B clean 1
total frames 3 accepted 2 {NO_FAULT} copy 1 delivered 2
""")
        head = header() + record(0, one[:8], original=60) + record(100, two) + record(200, two)
        self.worked_example("a second filter from the table", 'filters = ["1,6 0 0 8,"]\n' + TABLE, NOT_FIRST, a, b, head, f"""afdx-ledger 2
0 A 0 5 1 regular within first deliver 8 02
100 A 1 5 2 regular within next deliver 60 03
200 B 0 5 2 regular within first copy 60 03
link 5 brake frames 3 toolong 0 excess 0 out 0 copy 1 delivered 2
filter 0 accepted 2
filter 1 accepted 3
tap A clean 2
tap B clean 1
total frames 3 accepted 3 {NO_FAULT} copy 1 delivered 2
""")
        self.worked_example("two empty taps", TABLE, EVERY, HEADER, HEADER, HEADER, f"""afdx-ledger 2
link 5 brake {NO_FRAME}
filter 0 accepted 0
tap A clean 0
tap B clean 0
total frames 0 accepted 0 {NO_FAULT} copy 0 delivered 0
""")
        torn = tap((0, one)) + record(1, two)[:-1]
        fraction = tap((7, one)) + record(8, two)[:4] + (10**9).to_bytes(4, "little") + record(8, two)[8:]
        self.worked_example("torn records and stamps that go back", TABLE, EVERY, torn, fraction, tap((0, one), (7, one)), f"""afdx-ledger 2
0 A 0 5 1 regular within first deliver 60 01
7 B 0 5 1 regular within first copy 60 01
link 5 brake frames 2 toolong 0 excess 0 out 0 copy 1 delivered 1
filter 0 accepted 2
tap A cut 1
tap B bad 1 fraction
total frames 2 accepted 2 {NO_FAULT} copy 1 delivered 1
""")
        late = tap((0, one), (2000, three), (1000, two))
        self.worked_example("a late frame in the ledger", "late_us = 1\n" + TABLE, EVERY, late, HEADER, tap((0, one), (1000, two), (2000, three)), f"""afdx-ledger 2
0 A 0 5 1 regular within first deliver 60 01
1000 A 2 5 2 regular within next deliver 60 01
2000 A 1 5 3 regular within next deliver 60 01
link 5 brake frames 3 toolong 0 excess 0 out 0 copy 0 delivered 3
filter 0 accepted 3
tap A clean 3
tap B clean 0
total frames 3 accepted 3 {NO_FAULT} copy 0 delivered 3
""")
        self.worked_example("a frame too late for the window", TABLE, EVERY, late, HEADER, tap((0, one), (2000, three)), f"""afdx-ledger 2
0 A 0 5 1 regular within first deliver 60 01
2000 A 1 5 3 regular within skip deliver 60 01
link 5 brake frames 2 toolong 0 excess 0 out 0 copy 0 delivered 2
filter 0 accepted 2
tap A bad 2 stampback
tap B clean 0
total frames 2 accepted 2 {NO_FAULT} copy 0 delivered 2
""")

    def watched(self, name, config, code, a, b, paths=None):
        """A run that leaves what the slow analyser makes. `paths` are those of taps elsewhere."""
        expected = watch(config, code, a, b)
        self.desk.lay(config=config, filter=code, a=a, b=b)
        self.case(f"watch: {name}", self.desk.agrees(self.desk.watch(**(paths or {})), expected.capture, expected.lines + expected.summary))
        return expected

    def by_each_count(self, name, given, expected):
        """Runs with 1 to 8 workers leave the same."""
        fault = ""
        for count in range(1, 9):
            self.desk.lay(**given)
            ran = self.desk.watch("--workers", str(count))
            fault = fault or self.desk.agrees(ran, expected.capture, expected.lines + expected.summary)
        self.case(f"watch: {name}, 1 to 8 workers", fault)

    def test_generated(self):
        """Small pairs of recordings: late, equal and missing stamps, every class and verdict, several links and filters."""
        told = set()
        for seed in range(150):
            given = dict(zip(("config", "filter", "a", "b"), pairs.pair(random.Random(seed))))
            expected = self.watched(f"pair {seed}", *given.values())
            self.by_each_count(f"pair {seed}", given, expected)
            told.update((expected.lines + expected.summary).decode().replace("\n", " ").split(" "))
        missing = sorted(pairs.WORDS - told)
        self.case("watch: the pairs have each word of a ledger", f"without {missing}" if missing else "")

    def test_long_pairs(self):
        day = 86_400 * 10**9
        first, second = ([(begin + i * 10**6, frame(5 + i % 60, 60, i // 60 % 255 + 1)) for i in range(6000)] for begin in (0, day))
        table = "constant = 50331648\n" + "".join(LINK_5.replace("= 5", f"= {i}").replace("brake", f"link_{i}") for i in range(5, 60))
        self.watched("B begins a day after A", table, ODD, tap(*first), tap(*second))
        self.watched("A begins a day after B", table, ODD, tap(*second), tap(*first))
        self.watched("6000 frames on both networks", table, ODD, tap(*first), tap(*first))
        large = tap(*((i, frame(5, size, 1)) for i, size in enumerate([60, 262144, 61, 65536, 65520, 262143, 60])))
        self.watched("frames of 262144 bytes between small ones", TABLE, EVERY, large, large)
        example = {option: read(os.path.join(TOP, "examples", "flight" + suffix)) for option, suffix in
                   (("config", ".toml"), ("filter", ".filter"), ("a", "_a.pcap"), ("b", "_b.pcap"))}
        self.watched("the flight of examples", example["config"].decode(), example["filter"].decode(), example["a"], example["b"])

    def test_config_faults(self):
        """Each fault of a table, with its line. The outputs are not touched."""
        other = LINK_5.replace("= 5", "= 6").replace("brake", "flaps")
        cases = [
            ("[", "1 Text"),
            ("[\n" + TABLE, "1 Text"),
            ("constant = 9223372036854775808\n" + LINK_5, "1 Text"),
            (LINK_5, "2 Missing top"),
            ('constant = "3"\n' + LINK_5, "3 Kind top"),
            ("constant = 50331648\nlink = 5", "3 Kind top"),
            ("constant = 50331648\nlink = [5]", "3 Kind top"),
            ("filters = [5]\n" + TABLE, "3 Kind top"),
            ("constant = 1\n" + LINK_5, "4 Range top"),
            ("late_us = 1000001\n" + TABLE, "4 Range top"),
            ("late = 1\n" + TABLE, "5 UnknownKey top"),
            (TABLE.replace("smax = 200\n", ""), "2 Missing link 0"),
            (TABLE.replace("smax = 200", 'smax = "200"'), "3 Kind link 0"),
            (TABLE.replace("bag_ms = 1", "bag_ms = 3"), "4 Range link 0"),
            (TABLE + "bag = 4\n", "5 UnknownKey link 0"),
            (TABLE + other.replace("skew_us = 1000", "skew_us = 1000001"), "4 Range link 1"),
            (TABLE + other.replace("= 6", "= 5"), "6 TwiceId link 1"),
            (TABLE + other.replace("flaps", "brake"), "7 TwiceName link 1"),
            (f"filters = {['1,6 0 0 0,'] * 8}\n" + TABLE, "8 TooMany"),
            ("constant = 50331648\n" + "[[link]]\n" * 4096, "2 Missing link 0"),
            ("constant = 50331648\n" + "[[link]]\n" * 4097, "8 TooMany"),
        ]
        for config, line in cases:
            self.desk.lay(config=config, filter="", a=b"", b=b"")
            self.refused("a table", self.desk.watch(), "config " + line)

    def test_order_of_faults(self):
        """Of a fault and all that may come after it, the first has its line. What older runs left in the outputs stands."""
        missing, directory = os.path.join(self.desk.directory, "missing"), self.desk.directory
        inputs = {"config": TABLE, "filter": EVERY, "a": HEADER, "b": HEADER}
        two = 'filters = ["{}", "{}"]\n' + TABLE
        # What is wrong: the contents of inputs, and paths in the place of the desk's.
        steps = [
            ("file --config", {}, {"config": missing}),
            ("file --config", {}, {"config": directory}),
            ("file --config", {"config": b"\xff"}, {}),
            ("file --config", {"config": b"#" * 16777217}, {}),
            ("config 2 Missing top", {"config": b"#" * 16777216}, {}),
            ("file --filter", {}, {"filter": missing}),
            ("file --filter", {}, {"filter": directory}),
            ("file --filter", {"filter": b"\xff"}, {}),
            ("file --filter", {"filter": b" " * 16777217}, {}),
            ("numeric 3 Form at 16777216", {"filter": b" " * 16777216}, {}),
            ("numeric 1 Character at 0", {"filter": "ldh [4]"}, {}),
            ("load 2 UnknownCode at 0", {"filter": "1,23 0 0 0,"}, {}),
            ("numeric 1 Character at 2 filter 1", {"config": two.format("1,x", "1,y")}, {}),
            ("load 9 Unstored at 0 word 3 filter 1", {"config": two.format("2,96 0 0 3,6 0 0 0", "1,y")}, {}),
            ("numeric 4 Count at 9 filter 2", {"config": two.format(EVERY, "2,6 0 0 0")}, {}),
            ("load 8 NoReturn filter 2", {"config": two.format(EVERY, "1,0 0 0 0")}, {}),
            ("file --a", {}, {"a": missing}),
            ("file --b", {}, {"b": missing}),
            ("file --capture", {}, {"capture": self.desk.paths["config"]}),
            ("file --ledger", {}, {"ledger": self.desk.paths["config"]}),
            ("file --capture", {}, {"capture": directory}),
            ("file --ledger", {}, {"ledger": directory}),
            ("watch 1 Workers", {}, {"workers": "9"}),
            ("watch 3 Read A", {}, {"a": directory}),
            ("watch 2 Header A 1 Short", {"a": b""}, {}),
            ("watch 2 Header A 2 Magic", {"a": bytes(24)}, {}),
            ("watch 3 Read B", {}, {"b": directory}),
            ("watch 2 Header B 4 LinkType", {"b": header(link_type=101)}, {}),
        ]
        for i, (line, _, _) in enumerate(steps):
            contents, elsewhere = dict(inputs), {}
            for _, content, paths in reversed(steps[i:]):
                contents.update(content)
                for option in {**content, **paths}:
                    elsewhere.pop(option, None)
                elsewhere.update(paths)
            workers = ["--workers", elsewhere.pop("workers")] if "workers" in elsewhere else []
            self.desk.lay(**contents)
            self.refused("the first fault", self.desk.watch(*workers, **elsewhere), line)

    def test_workers(self):
        for count in ("0", "9", "255"):
            self.desk.lay(config=TABLE, filter=EVERY, a=b"", b=b"")
            self.refused(f"{count} workers", self.desk.watch("--workers", count), "watch 1 Workers")

    def test_usage(self):
        """Invalid arguments: status 2, and no file is touched."""
        cases = [(f"without --{option}", self.desk.arguments(**{option: None}), f"--{option}") for option in ("config", "ledger")]
        cases += [(f"--workers {count}", [*self.desk.arguments(), "--workers", count], count) for count in ("256", "two", "1.5", "")]
        cases += [
            ("--workers -1", [*self.desk.arguments(), "--workers", "-1"], "-1"),
            ("an option twice", [*self.desk.arguments(), "--a", "more"], "--a"),
            ("a word too many", [*self.desk.arguments(), "more"], "more"),
            ("a path that begins with a dash", self.desk.arguments(a="-a"), "-a"),
        ]
        for name, arguments, mentioned in cases:
            self.desk.lay(config=TABLE, filter=EVERY, a=HEADER, b=HEADER)
            ran = run(arguments, stdin=subprocess.DEVNULL, stdout=subprocess.PIPE)
            fault = difference(ran, USAGE, lambda told: mentioned in told, b"")
            self.case(f"watch: {name}", fault or self.desk.compared("capture", OLDER) or self.desk.compared("ledger", OLDER))

    def prefixes(self, name, ran, line, expected, outputs):
        """A run that a fault ended: of these outputs each has a prefix of its text."""
        texts = {"capture": expected.capture, "ledger": expected.lines + expected.summary}
        wrong = [option for option in outputs if not texts[option].startswith(self.desk.left(option))]
        self.case(f"watch: {name}: {line}", difference(ran, FAULT, f"afdxmon: {line}", b"") or ", ".join(f"the {option} is no prefix" for option in wrong))

    def test_devices(self):
        short = tap((0, frame(5, 60, 1)))
        long = tap(*((i * 10**6, frame(5, 196, i % 255 + 1)) for i in range(1000)))
        for what, given in (("a full disk", long), ("a full disk, found at the flush", short)):
            expected = watch(TABLE, EVERY, given, given)
            for output, other in (("capture", "ledger"), ("ledger", "capture")):
                self.desk.lay(config=TABLE, filter=EVERY, a=given, b=given)
                self.prefixes(what, self.desk.watch(**{output: "/dev/full"}), f"watch 4 Write {output}", expected, [other])
        self.closed_pipes(long)
        for network, line in (("a", "watch 3 Read A"), ("b", "watch 3 Read B")):
            self.desk.lay(config=TABLE, filter=EVERY, a=short, b=short)
            # The program's own memory: nothing is mapped at its beginning.
            self.refused("a tap that can't be read", self.desk.watch(**{network: "/proc/self/mem"}), line)
        self.through_pipes(long)

    def closed_pipes(self, given):
        """An output is a pipe whose reader takes some bytes and leaves."""
        pipe = os.path.join(self.desk.directory, "pipe")
        os.mkfifo(pipe)
        expected = watch(TABLE, EVERY, given, given)
        for output, other in (("capture", "ledger"), ("ledger", "capture")):
            self.desk.lay(config=TABLE, filter=EVERY, a=given, b=given)
            child = subprocess.Popen([PROGRAM, *self.desk.arguments(**{output: pipe})], stdin=subprocess.DEVNULL, stdout=subprocess.PIPE, stderr=subprocess.PIPE)
            with open(pipe, "rb", buffering=0) as reader:
                reader.read(1000)
            out, told = child.communicate(timeout=60)
            ran = subprocess.CompletedProcess([], child.returncode, out, told)
            self.prefixes("a closed pipe", ran, f"watch 4 Write {output}", expected, [other])
        os.remove(pipe)

    def through_pipes(self, given):
        """Taps that are pipes."""
        pipes = {network: os.path.join(self.desk.directory, "pipe_" + network) for network in ("a", "b")}

        def pour(path):
            with open(path, "wb") as out:
                out.write(given)

        for path in pipes.values():
            os.mkfifo(path)
            threading.Thread(target=pour, args=(path,), daemon=True).start()
        self.watched("taps through pipes", TABLE, EVERY, given, given, pipes)
