"""`afdxmon cut` as a program: packets and lines byte by byte, compared with a slow cut over whole lists.

The slow cut takes a ledger's lines one by one, tries each option on each, and looks frames up in the parsed recordings.
It shares nothing with the product. Ledgers come of `afdxmon watch` on the pairs of tests/pairs.py.

A line's number counts the ledger's lines from 1, its head among them. A span within a day is sought day by day: it is the
first one that isn't over before the ledger's first frame.
"""
import datetime
import os
import random
import re
import subprocess
import threading

from tests import pairs
from tests.analyser import table_of
from tests.harness import EVERY, FAULT, PROGRAM, SUCCESS, USAGE, Case, difference, frame, header, record, run
from tests.reference import HEADER, parse, record_of
from tests.streams import at_terminal
from tests.texts import MISUSE, TO_A_TERMINAL
from tests.watching import TABLE, tap

# Every line that standard error may have: the words are settled here, and nowhere else in these tests.
LINES = {
    "head": "afdxmon: cut 1 Ledger at {} head",
    "class": "afdxmon: cut 1 Ledger at {} class",
    "mask": "afdxmon: cut 1 Ledger at {} mask",
    "after total": "afdxmon: cut 1 Ledger at {} newline",
    "order": "afdxmon: cut 2 Order at {}",
    "absent": "afdxmon: cut 3 Absent at {}",
    "header": "afdxmon: cut 4 Header {} {}",
    "read": "afdxmon: cut 5 Read {}",
    "write": "afdxmon: cut 6 Write Output",
    "memory": "afdxmon: cut 7 Memory",
    "selection": "afdxmon: cut 8 Selection {} at {}",
    "open": "afdxmon: file {}",
    "stopped": "afdxmon: note: {} ends after line {}, without its total: its run was stopped, or goes on; whole lines: {}",
    "part": "afdxmon: note: {} ends within line {}: its run was stopped, or goes on; whole lines: {}",
    "empty": "afdxmon: note: {} is empty: its run was stopped, or goes on; whole lines: 0",
    "passed": "afdxmon: note: {} selected line{} of network {} passed over: no recording is given",
    "nothing": "afdxmon: note: no line is selected:{}\nafdxmon: note: the ledger has frames from {} to {}",
    "frameless": "afdxmon: note: no line is selected: the ledger has no frames",
}
DISCARDED = set("cut runt oversize foreign unconfigured toolong excess out copy".split())
GROUPS = {"discarded": DISCARDED, "delivered": {"deliver", "both"}, "faults": DISCARDED - {"copy"}}
DAY = 86_400 * 10**9
UNITS = {"ms": 10**6, "us": 10**3, "s": 10**9}
OPTIONS = ("link", "network", "verdict", "from", "to", "span", "filters", "around")


def said(text):
    """What a time says, and nanoseconds: since 1970 (`at`), since midnight (`day`) or since the ledger's first frame (`since`)."""
    if text.isdigit():
        return "at", int(text)
    if text.startswith("+"):
        return "since", length(text[1:] if text.endswith("s") else text[1:] + "s")
    whole, _, fraction = text.removesuffix("Z").partition(".")
    nanoseconds = int(fraction.ljust(9, "0")) if fraction else 0
    if not text.endswith("Z"):
        hours, minutes, seconds = map(int, (whole + ":00" if whole.count(":") == 1 else whole).split(":"))
        return "day", ((hours * 60 + minutes) * 60 + seconds) * 10**9 + nanoseconds
    at = datetime.datetime.fromisoformat(whole + "+00:00")
    return "at", round((at - datetime.datetime.fromisoformat("1970-01-01T00:00:00+00:00")) / datetime.timedelta(seconds=1)) * 10**9 + nanoseconds


def length(text):
    """The nanoseconds of a length of time."""
    unit = next(unit for unit in UNITS if text.endswith(unit))
    whole, _, fraction = text.removesuffix(unit).partition(".")
    return int(whole) * UNITS[unit] + int(fraction.ljust(len(str(UNITS[unit])) - 1, "0") or "0")


def next_of(clock, earliest):
    """The first moment of a time of day from a moment on, sought day by day."""
    days = (earliest // DAY + step for step in range(-1, 3))
    return next(day * DAY + clock for day in days if day * DAY + clock >= earliest)


def span_of(options, first):
    """The first and the last moment that are selected, in nanoseconds since 1970; None where there is none."""
    kind, start = said(options["from"]) if "from" in options else (None, None)
    until, end = said(options["to"]) if "to" in options else ("span", length(options["span"])) if "span" in options else (None, None)
    if kind == "day" and (until == "day" and start <= end or until == "span" and start + end < DAY):
        days = ((first // DAY + step) * DAY for step in range(3))
        spans = ((day + start, day + (end if until == "day" else start + end)) for day in days)
        return next(span for span in spans if span[1] >= first)
    low = {None: None, "at": start, "since": first + (start or 0), "day": first // DAY * DAY + (start or 0)}[kind]
    if kind == "day" and until in (None, "at", "since"):
        low = next_of(start, max(first - DAY // 2, 0))
    if until is None:
        return low, None
    if until == "day":
        return low, next_of(end, first if low is None else low)
    return low, {"at": end, "since": first + end, "span": (first if low is None else low) + end}[until]


def written(time):
    """A moment as RFC 3339 has it, with nine digits."""
    at = datetime.datetime.fromtimestamp(time // 10**9, datetime.timezone.utc)
    return f"{at:%Y-%m-%dT%H:%M:%S}.{time % 10**9:09}Z"


def links_of(text, config):
    """The identifiers that a list of links means."""
    found = set()
    for item in text.split(","):
        numbers = re.fullmatch(r"(\d+)(?:-(\d+))?", item)
        if numbers:
            found.update(range(int(numbers[1]), int(numbers[2] or numbers[1]) + 1))
        else:
            pattern = ".*".join(map(re.escape, item.split("*")))
            found.update(link.id for link in table_of(config).links.values() if re.fullmatch(pattern, link.name))
    return found


def nameless(text, config):
    """The first item of a list of links that is a name, and no link's."""
    return next((at for at, item in enumerate(text.split(",")) if not item[0].isdigit() and not links_of(item, config)), None)


def refused_option(options, config):
    """The first option that is refused, and the item of its text. Of two times of one kind, not of the day, --to isn't the earlier one."""
    wrong = nameless(options["link"], config) if "link" in options else None
    if wrong is not None:
        return "link", wrong
    ends = [said(options[end]) for end in ("from", "to") if end in options]
    kinds = {kind for kind, _ in ends}
    return ("to", 0) if len(ends) == 2 and len(kinds) == 1 and kinds != {"day"} and ends[1][1] < ends[0][1] else None


def meets(fields, options, config, span):
    """Does a frame's line meet each option? `span`: the first moment and the last, if there are such."""
    words = set()
    for word in options.get("verdict", "").split(","):
        words |= GROUPS.get(word, {word})
    time = int(fields[0])
    return (
        ("network" not in options or fields[1] == options["network"])
        and ("link" not in options or fields[3] != "-" and int(fields[3]) in links_of(options["link"], config))
        and ("verdict" not in options or bool(words & set(fields[5:9])))
        and (span[0] is None or span[0] <= time)
        and (span[1] is None or time <= span[1])
        and ("filters" not in options or int(options["filters"], 16) & int(fields[10], 16) != 0)
    )


def frame_lines(ledger):
    """The whole lines of frames, each with its newline."""
    lines = ledger.decode("ascii").splitlines(keepends=True)[1:]
    return [line for line in lines if line.endswith("\n") and line[0].isdigit()]


def nearby(links, selected, around):
    """Of each frame: is it selected, or at most so many frames of its link away from one that is?"""
    ranks = [links[:at].count(link) for at, link in enumerate(links)]
    taken = {(link, rank) for link, rank, one in zip(links, ranks, selected) if one}
    return [one or link != "-" and any((link, rank + step) in taken for step in range(-around, around + 1)) for link, rank, one in zip(links, ranks, selected)]


def chosen(ledger, options, config):
    """The lines of the selected frames, and of those around them."""
    lines = [line.split() for line in frame_lines(ledger)]
    span = span_of(options, int(lines[0][0])) if lines else (None, None)
    selected = [meets(fields, options, config, span) for fields in lines]
    if "around" in options:
        selected = nearby([fields[3] for fields in lines], selected, min(int(options["around"]), len(lines)))
    return [line for line, one in zip(frame_lines(ledger), selected) if one]


def packets_of(lines, recordings):
    """A capture of these lines' frames, whole. `recordings`: by network, what parse makes of them; other frames are left out."""
    out = [HEADER]
    for line in lines:
        _, network, index = line.split()[:3]
        if network in recordings:
            out.append(record_of(*recordings[network][int(index)]))
    return b"".join(out)


class Bench:
    """A directory with the files of one cut after another."""

    def __init__(self, directory):
        self.directory = directory

    def path(self, name):
        return os.path.join(self.directory, name)

    def put(self, **contents):
        for name, content in contents.items():
            with open(self.path(name), "wb") as out:
                out.write(content.encode() if isinstance(content, str) else content)

    def read(self, name):
        with open(self.path(name), "rb") as given:
            return given.read()

    def arguments(self, options=None, networks="ab", *flags):
        """The arguments of a cut, with those of `options` that name a network's files or the output replaced."""
        words = ["cut", "--ledger", self.path("ledger")]
        for network in networks:
            words += ["--" + network, self.path(network)]
        for name, value in (options or {}).items():
            words += ["--" + name, value]
        if "*" in (options or {}).get("link", "") or re.search("[a-z]", (options or {}).get("link", "")):
            words += ["--config", self.path("config")]
        return [*words, *flags]

    def cut(self, options=None, networks="ab", *flags, **how):
        return run(self.arguments(options, networks, *flags), **{"stdin": subprocess.DEVNULL, "stdout": subprocess.PIPE, **how})

    def watched(self, config, code, a, b):
        """Lays a run's files, its ledger among them."""
        self.put(config=config, filter=code, a=a, b=b)
        given = [word for name in ("config", "filter", "a", "b", "ledger") for word in ("--" + name, self.path(name))]
        subprocess.run([PROGRAM, "watch", *given, "--capture", self.path("kept")], check=True, capture_output=True, timeout=60)
        return self.read("ledger")


def recordings_of(a, b, networks="ab"):
    """What the recordings hold, however late a timestamp comes."""
    return {network.upper(): parse(given, 1 << 62)[0] for network, given in (("a", a), ("b", b)) if network in networks}


def utc(time):
    """A moment as the notes write it: without zeros at its end."""
    whole, fraction = written(time).removesuffix("Z").split(".")
    return whole + ("." + fraction.rstrip("0") if fraction.strip("0") else "") + "Z"


def nothing(ledger, options):
    """The note on a selection that takes no line."""
    times = [int(line.split()[0]) for line in frame_lines(ledger)]
    if not times:
        return LINES["frameless"]
    texts = "".join(f" --{name} {options[name]}" for name in ("link", "network", "verdict", "filters") if name in options)
    ends = "".join(f" {word} {utc(max(end, 0))}" for word, end in zip(("from", "to"), span_of(options, times[0])) if end is not None)
    return LINES["nothing"].format(texts + ends, utc(times[0]), utc(times[-1]))


def stopped(name, ledger):
    """The note on the end of a ledger without its line `total`."""
    lines = ledger.splitlines(keepends=True)
    whole = sum(line.endswith(b"\n") for line in lines)
    if not lines:
        return LINES["empty"].format(name)
    return LINES["stopped"].format(name, whole, whole) if whole == len(lines) else LINES["part"].format(name, whole + 1, whole)


def notes_of(ledger, options, lines, networks):
    """The notes of a cut of these lines, with the recordings of these networks; none means that lines are printed."""
    passed = [line for line in lines if networks and line.split()[1].lower() not in networks]
    if passed:
        return LINES["passed"].format(len(passed), "" if len(passed) == 1 else "s", passed[0].split()[1])
    return "" if lines else nothing(ledger, options)


def told_of(*lines):
    """What standard error is told, without its last newline."""
    return "\n".join(line for line in lines if line)


def times_of(chance, ledger):
    """A frame's moment, one nanosecond before it, or one after it, as a person may write it."""
    lines = frame_lines(ledger)
    stamp = int(chance.choice(lines).split()[0]) + chance.choice((0, 0, -1, 1)) if lines else 0
    stamp = max(0, stamp)
    forms = [str(stamp), written(stamp), written(stamp)[11:29]]
    if stamp % 10**9 == 0:
        forms.append(written(stamp)[11:19])
    first = int(lines[0].split()[0]) if lines else 0
    if stamp >= first:
        forms.append(f"+{(stamp - first) // 10**9}.{(stamp - first) % 10**9:09}")
    return chance.choice(forms)


def length_of(chance, ledger):
    """The time between two frames, or a nanosecond less or more, in seconds, or in a smaller unit where it is so many whole nanoseconds."""
    times = [int(line.split()[0]) for line in frame_lines(ledger)] or [0]
    time = max(0, abs(chance.choice(times) - chance.choice(times)) + chance.choice((0, 0, -1, 1)))
    unit, scale = chance.choice(list(UNITS.items()))
    return f"{time // scale}.{str(time % scale).rjust(len(str(scale)) - 1, '0')}{unit}" if time // scale < 2**32 else f"{time // 10**9}s"


def some_options(chance, ledger, config):
    """A selection by chance: each option alone or with others."""
    words = sorted({word for line in frame_lines(ledger) for word in line.split()[5:9]} - {"-"} | set(GROUPS) | {"runt"})
    names = [link.name for link in table_of(config).links.values()]
    make = {
        "link": lambda: chance.choice(("5", "6-8", "5,300", "0-65535", "9", "8-8,5", "link-*", "*5", "*-*0*", names[0], f"9,{names[-1]}")),
        "network": lambda: chance.choice("AB"),
        "verdict": lambda: ",".join(chance.sample(words, chance.choice((1, 1, 2, 3)))),
        "from": lambda: times_of(chance, ledger),
        "to": lambda: times_of(chance, ledger),
        "span": lambda: length_of(chance, ledger),
        "filters": lambda: chance.choice(("01", "02", "06", "ff", "80", "fe")),
        "around": lambda: chance.choice(("0", "1", "1", "2", "3", "5", "65535")),
    }
    names = chance.sample(OPTIONS, chance.choice((0, 1, 1, 2, 3)))
    return {name: make[name]() for name in names if name != "span" or "to" not in names}


# Times of a day that begins at 10^18 - 10^18 % DAY, and a link of three frames on each network.
NOON = 1_800_000_000 * 10**9 // DAY * DAY + DAY // 2


def small():
    """Six frames: on each network three of link 5, and of link 6 one on A alone, which no table has."""
    a = tap((NOON, frame(5, 60, 1)), (NOON + 10**9, frame(6, 60, 1)), (NOON + 2 * 10**9, frame(5, 61, 2)), (NOON + 4 * 10**9, frame(5, 62, 3)))
    b = tap((NOON, frame(5, 60, 1)), (NOON + 2 * 10**9 + 1, frame(5, 61, 2)), (NOON + 4 * 10**9, frame(5, 62, 3)))
    return a, b


def pour(path, given):
    try:
        with open(path, "wb") as out:
            out.write(given)
    except BrokenPipeError:
        pass


class Cut(Case):
    def setUp(self):
        self.bench = Bench(self.folder)

    def compared(self, name, options, config, a, b, networks="ab", line=""):
        """A cut that has to succeed: its packets and its lines, without those of a network that has no recording, and all lines without recordings.
        A name that no link has is refused, and a span that ends before it begins."""
        ledger = self.bench.read("ledger")
        wrong = refused_option(options, config)
        if wrong:
            told = LINES["selection"].format(*wrong)
            fault = difference(self.bench.cut(options, networks), FAULT, told, b"") or difference(self.bench.cut(options, "", "--ledger-only"), FAULT, told, b"")
            return self.case(f"cut: {name}: --{wrong[0]} is refused", fault)
        lines = chosen(ledger, options, config)
        read = "".join(one for one in lines if one.split()[1].lower() in networks).encode()
        told = told_of(notes_of(ledger, options, lines, networks), line)
        fault = difference(self.bench.cut(options, networks), SUCCESS, told, packets_of(lines, recordings_of(a, b, networks)))
        fault = fault or difference(self.bench.cut(options, networks, "--ledger-only"), SUCCESS, told, read)
        alone = told_of(notes_of(ledger, options, lines, ""), line)
        fault = fault or difference(self.bench.cut(options, "", "--ledger-only"), SUCCESS, alone, "".join(lines).encode())
        self.case(f"cut: {name}: {' '.join(f'--{key} {value}' for key, value in options.items())}", fault)

    def test_generated(self):
        """Selections over small pairs: late, equal and missing timestamps, each class and verdict."""
        used = set()
        for seed in range(60):
            chance = random.Random(seed)
            config, code, a, b = pairs.pair(chance)
            ledger = self.bench.watched(config, code, a, b)
            for _ in range(3):
                options = some_options(chance, ledger, config)
                used.update(options)
                self.compared(f"pair {seed}", options, config, a, b)
            network = chance.choice("ab")
            self.compared(f"pair {seed}, network {network.upper()}", {"network": network.upper()}, config, a, b, network)
            alone = {"a": (a, HEADER), "b": (HEADER, b)}[network]
            self.bench.watched(config, code, *alone)
            self.compared(f"pair {seed}, network {network.upper()} alone", some_options(chance, ledger, config), config, *alone, network)
        self.case("cut: each option is tried", "" if used == set(OPTIONS) else f"without {set(OPTIONS) - used}")

    def test_bounds(self):
        """Each option at its bounds, on frames of which each has its own time."""
        a, b = small()
        self.bench.watched(TABLE, EVERY, a, b)
        two = NOON + 2 * 10**9
        cases = [{}]
        cases += [{end: text} for end in ("from", "to") for time in (two - 1, two, two + 1, two + 2) for text in (str(time), written(time), written(time)[11:29])]
        cases += [{"from": "12:00:02", "to": "12:00:02"}, {"from": "00:00:00", "to": "23:59:59.999999999"}, {"from": "12:00:02.0", "to": "12:00:02.000000001"}]
        cases += [{"from": str(two + 1), "to": str(two)}, {"from": "0", "to": str(2**32 * 10**9 - 1)}]
        cases += [{"from": first, "to": last} for first in (written(two + 1), "12:00:02.000000001") for last in (written(two), "12:00:02", str(two))]
        cases += [{end: text} for end in ("from", "to") for text in ("+0", "+2", "+2.0", "+1.999999999", "+2.000000001", "+2.000000002", "+4", "+4.000000001", "+4294967295.999999999")]
        cases += [{end: text} for end in ("from", "to") for text in ("+2s", "+1.999999999s", "+2.000000001s", "+2000ms", "+2000.000001ms", "+2000000us", "+1999999.999us", "+0us", "12:00", "12:01", "11:59", "00:00", "23:59")]
        cases += [{"from": "12:00", "to": text} for text in ("12:00", "12:00:02", "12:01", "11:59", "+2s")] + [{"from": "12:00", "span": "2s"}, {"from": "11:59", "span": "2s"}]
        cases += [{"from": "+1", "to": text} for text in ("+1", "+2", "+0.999999999", "12:00:02", "12:00:00", str(two), written(two))]
        cases += [{"to": text} for text in ("12:00:00", "11:59:59.999999999", "12:00:00.000000001", "00:00:00", "23:59:59.999999999")]
        cases += [{"from": text} for text in ("11:59:59.999999999", "00:00:00", "23:59:59.999999999")]
        cases += [{"from": "12:00:01", "to": "12:00:00.999999999"}, {"from": "11:00:00", "to": "11:59:59"}, {"from": "11:00:00", "to": "12:00:00"}, {"from": written(two), "to": "12:00:01"}]
        spans = ("0s", "0.000000001s", "2s", "2.000000001s", "1.999999999s", "2000ms", "1999.999999ms", "2000000us", "2000000.001us", "0us", "4294967295.999999999s", "86399s", "86400s", "43200s")
        cases += [{**start, "span": text} for start in ({}, {"from": "+0"}, {"from": "+2"}, {"from": str(two)}, {"from": "12:00:02"}, {"from": "11:59:58"}, {"from": "00:00:00"}, {"from": str(2**32 * 10**9 - 1)})
                  for text in spans]
        cases += [{"verdict": text} for text in ("faults", "faults,copy", "discarded,faults")]
        cases += [{"link": text} for text in ("5", "5-5", "4-5", "5-6", "6", "4", "7-65535", "0-4,6-65535", "brake", "br*", "*", "b*e", "br*ake", "*rak", "6,brake")]
        cases += [{"network": "A"}, {"network": "B"}, {"verdict": "first"}, {"verdict": "next,unconfigured"}, {"verdict": "discarded"}, {"verdict": "delivered"}, {"verdict": "regular"}]
        cases += [{"filters": "01"}, {"filters": "fe"}, {"filters": "03"}]
        cases += [{"link": "5", "network": "B", "verdict": "copy", "from": str(two), "to": str(two + 1), "filters": "01"}]
        cases += [{"around": text, **more} for text in ("0", "1", "2", "3", "4", "5", "6", "65534", "65535") for more in ({}, {"verdict": "first"}, {"from": str(two), "to": str(two)}, {"link": "6"})]
        for options in cases:
            self.compared("bounds", options, TABLE, a, b)
        for network in "ab":
            for options in ({}, {"network": "A"}, {"network": "B"}, {"verdict": "copy"}, {"link": "6"}, {"from": "+4"}, {"from": "+2", "around": "1"}, {"verdict": "runt"}):
                self.compared(f"recording {network.upper()} alone", options, TABLE, a, b, network)

    def test_midnight(self):
        """A run across midnight, by times of day alone, and one that begins just after it."""
        for first in (NOON + DAY // 2 - 10 * 10**9, NOON + DAY // 2 - 2 * 10**9 + 1, NOON + DAY // 2, NOON + DAY // 2 + 10**9, 0, 10**9):
            packets = [(first + second * 10**9, frame(5, 60, second % 255 + 1)) for second in range(30)]
            a = tap(*packets)
            self.bench.watched(TABLE, EVERY, a, HEADER)
            ends = ("23:59:58", "23:59:58.000000001", "00:00:00", "00:00:02", "00:00:06", "12:00:00")
            cases = [{"from": start, "to": end} for start in ends for end in ends] + [{end: text} for end in ("from", "to") for text in ends]
            cases += [{"from": start, "span": span} for start in ends for span in ("0s", "2s", "8s", "86400s")]
            cases += [{"from": start, "to": end} for start in ends for end in ("+4", str(first + 8 * 10**9))]
            for options in cases:
                self.compared(f"from {written(first)}", options, TABLE, a, HEADER, "a")

    def test_every_fault(self):
        """`faults` takes each discard but copies, on a ledger that has each word of fields 6 to 9."""
        fields = {"cut": "cut - - -", "runt": "runt - - -", "oversize": "oversize - - -", "foreign": "foreign - - -", "unconfigured": "unconfigured - - -",
                  "toolong": "toolong - - -", "excess": "regular excess - -", "out": "regular within out -", "copy": "regular within next copy",
                  "deliver": "regular within skip deliver", "both": "regular within off both"}
        linked = {word for word in fields if word not in ("cut", "runt", "oversize", "foreign")}
        lines = [f"{NOON + at} A {at} {'5' if word in linked else '-'} {'1' if word in linked else '-'} {text} - 00\n"
                 for at, (word, text) in enumerate(fields.items())]
        self.bench.put(ledger="afdx-ledger 2\n" + "".join(lines))
        taken = [line for line, word in zip(lines, fields) if word not in ("copy", "deliver", "both")]
        ran = self.bench.cut({"verdict": "faults"}, "", "--ledger-only")
        told = stopped(self.bench.path("ledger"), self.bench.read("ledger"))
        self.case("cut: --verdict faults, each word", difference(ran, SUCCESS, told, "".join(taken).encode()))

    def test_late(self):
        """A late frame stands earlier in the ledger than in its recording, which is read whole for it."""
        a = tap((NOON, frame(5, 60, 1)), (NOON + 2000, frame(5, 60, 3)), (NOON + 1000, frame(5, 60, 2)), (NOON + 2000, frame(5, 60, 4)))
        config = "late_us = 1\n" + TABLE
        self.bench.watched(config, EVERY, a, HEADER)
        for options in ({}, {"from": str(NOON + 1000)}, {"to": str(NOON + 1000)}, {"from": str(NOON + 2000)}):
            self.compared("a late frame", options, config, a, HEADER)

    def test_truncated_frames(self):
        """Packets have the frame as recorded: a truncated one with its length on the wire, whatever a filter keeps of others."""
        a = header() + record(NOON, frame(5, 60, 1)[:20], original=60) + record(NOON + 1, frame(5, 60, 2))
        self.bench.watched(TABLE, "1,6 0 0 8,", a, HEADER)
        for options in ({}, {"verdict": "cut"}, {"filters": "01"}):
            self.compared("frames whole as recorded", options, TABLE, a, HEADER)

    def test_unfinished(self):
        """Ledgers of runs that were aborted: whole lines alone, or a part of the last one."""
        a, b = small()
        ledger = self.bench.watched(TABLE, EVERY, a, b)
        lines = ledger.splitlines(keepends=True)
        part = b"".join(lines[:5])
        kept = [(f"{count} lines of a ledger", b"".join(lines[:count])) for count in (1, 2, 4, 8, len(lines) - 1)]
        kept += [(f"the fifth line without its last {lost} bytes", part[:-lost]) for lost in (1, 2, 30, len(lines[4]) - 1)]
        kept += [("a part of the head", lines[0][:5]), ("a part of the last line", ledger[:-1]), ("an empty ledger", b"")]
        for name, held in kept:
            self.bench.put(ledger=held)
            for options in ({}, {"around": "1", "link": "6"}):
                self.compared(name, options, TABLE, a, b, line=stopped(self.bench.path("ledger"), held))
            ran = run(["cut", "--ledger", "-", "--ledger-only"], stdout=subprocess.PIPE, input=held)
            self.case(f"cut: {name}, of a pipe", "" if stopped("standard input", held) in ran.stderr.decode() and ran.returncode == SUCCESS else repr(ran.stderr))
        self.bench.put(ledger=ledger + lines[1][:9])
        told = LINES["after total"].format(len(lines) + 1)
        self.case("cut: a part of a line after the total", difference(self.bench.cut(), FAULT, told, packets_of(frame_lines(ledger), recordings_of(a, b))))

    def refused(self, name, told, before, a, b, flags=()):
        """A cut that a line ends: what stands before it is written."""
        lines = frame_lines(before)
        expected = "".join(lines).encode() if flags else packets_of(lines, recordings_of(a, b))
        self.case(f"cut: {name}: {told}", difference(self.bench.cut(None, "ab", *flags), FAULT, told, expected))

    def test_other_recordings(self):
        """Lines that the recordings don't bear out, each with the line's number."""
        a, b = small()
        lines = self.bench.watched(TABLE, EVERY, a, b).splitlines(keepends=True)
        head, third = lines[0], b"".join(lines[:3])

        def changed(name, at, old, new, line, before):
            self.bench.put(ledger=b"".join([*lines[:at], lines[at].replace(old, new, 1), *lines[at + 1 :]]))
            self.refused(name, LINES[line].format(at + 1), before, a, b)

        changed("another index", 3, b" A 1 ", b" A 2 ", "absent", third)
        changed("an index past the recording's end", 3, b" A 1 ", b" A 4 ", "absent", third)
        changed("another timestamp", 3, str(NOON + 10**9).encode(), str(NOON + 10**9 + 1).encode(), "absent", third)
        changed("another network", 3, b" A 1 ", b" B 1 ", "absent", third)
        changed("an earlier timestamp", 3, str(NOON + 10**9).encode(), str(NOON - 1).encode(), "order", third)
        changed("a line of other words", 3, b"unconfigured", b"unknown", "class", third)
        changed("a line without its last field", 3, b" 01\n", b"\n", "mask", third)
        changed("bytes kept for no filter", 3, b" 60 01\n", b" 60 00\n", "mask", third)
        changed("a filter that keeps no bytes", 3, b" 60 01\n", b" - 01\n", "mask", third)
        changed("another version", 0, b"ledger 2", b"ledger 1", "head", head)
        self.bench.put(ledger=b"".join([*lines[:3], lines[2], *lines[3:]]))
        self.refused("a line twice", LINES["order"].format(4), third, a, b)
        self.bench.put(ledger=b"".join(lines), a=b, b=a)
        self.refused("networks swapped", LINES["absent"].format(4), third, b, a)
        self.bench.put(a=tap((NOON, frame(5, 60, 1))), b=b)
        self.refused("another recording", LINES["absent"].format(4), third, tap((NOON, frame(5, 60, 1))), b)
        self.bench.put(a=a)
        for network in "AB":
            self.bench.put(ledger=b"".join(lines), a=a, b=b)
            self.bench.put(**{network.lower(): header()[:23]})
            self.case(f"cut: recording {network} is short", difference(self.bench.cut(), FAULT, LINES["header"].format(network, "1 Short"), b""))

    def test_streams(self):
        """Files through pipes, `-` for each of them, and both ways to name the output."""
        a, b = small()
        ledger = self.bench.watched(TABLE, EVERY, a, b)
        packets = packets_of(frame_lines(ledger), recordings_of(a, b))
        words = self.bench.arguments()
        for option, name in (("--ledger", "ledger"), ("--a", "a"), ("--b", "b")):
            at = words.index(option) + 1
            through = [*words[:at], "-", *words[at + 1 :]]
            self.case(f"cut: {option} -", difference(run(through, input=self.bench.read(name), stdout=subprocess.PIPE), SUCCESS, "", packets))
            pipe = self.bench.path("pipe")
            os.mkfifo(pipe)
            pourer = threading.Thread(target=pour, args=(pipe, self.bench.read(name)), daemon=True)
            pourer.start()
            self.case(f"cut: {option} through a pipe", difference(run([*words[:at], pipe, *words[at + 1 :]], stdin=subprocess.DEVNULL, stdout=subprocess.PIPE), SUCCESS, "", packets))
            os.remove(pipe)
        for flag in ("-o", "--output"):
            self.bench.put(out=b"older")
            fault = difference(self.bench.cut(None, "ab", flag, self.bench.path("out")), SUCCESS, "", b"")
            self.case(f"cut: {flag} FILE", fault or ("" if self.bench.read("out") == packets else "the file differs"))
            self.case(f"cut: {flag} -", difference(self.bench.cut(None, "ab", flag, "-"), SUCCESS, "", packets))
        self.case("cut: lines with recordings", difference(self.bench.cut({"network": "A"}, "ab", "--ledger-only"), SUCCESS, "", "".join(chosen(ledger, {"network": "A"}, TABLE)).encode()))

    def test_ledger_of_a_pipe(self):
        """Frames around others need the ledger twice: one that comes through a pipe is refused before anything is written."""
        a, b = small()
        ledger = self.bench.watched(TABLE, EVERY, a, b)
        words = [*self.bench.arguments({"around": "1"}), "-o", self.bench.path("out")]
        at = words.index("--ledger") + 1
        told = LINES["selection"].format("around", 0)
        self.bench.put(out=b"older")
        pipe = self.bench.path("pipe")
        os.mkfifo(pipe)
        pourer = threading.Thread(target=pour, args=(pipe, ledger), daemon=True)
        for name, path in (("-", "-"), ("a pipe", pipe)):
            if path == pipe:
                pourer.start()
            fault = difference(run([*words[:at], path, *words[at + 1 :]], input=ledger, stdout=subprocess.PIPE), FAULT, told, b"")
            self.case(f"cut: --around with the ledger of {name}", fault or ("" if self.bench.read("out") == b"older" else "the output was touched"))
        os.remove(pipe)
        words[words.index("--around") + 1] = "0"
        fault = difference(run([*words[:at], "-", *words[at + 1 :]], input=ledger, stdout=subprocess.PIPE), SUCCESS, "", b"")
        self.case("cut: --around 0 reads the ledger once", fault or ("" if self.bench.read("out") == packets_of(frame_lines(ledger), recordings_of(a, b)) else "the file differs"))

    def test_usage(self):
        """Refused options: status 2 and the option in the text; of a selection status 1 and the item. Nothing is written."""
        a, b = small()
        self.bench.watched(TABLE, EVERY, a, b)
        whole = self.bench.arguments()
        cases = [("no ledger", ["cut", "--a", self.bench.path("a")], "--ledger"), ("no recording", whole[:3], "--a, --b")]
        cases += [(f"--{name} twice", [*whole, f"--{name}", value, f"--{name}", value], f"--{name}") for name, value in
                  (("link", "5"), ("network", "A"), ("verdict", "out"), ("from", "1"), ("to", "1"), ("span", "1s"), ("filters", "01"), ("around", "1"))]
        cases += [(f"--around {text!r}", [*whole, f"--around={text}"], "--around") for text in ("65536", "-1", "", "1.5", "one")]
        cases += [(f"--network {text!r}", [*whole, f"--network={text}"], "--network") for text in ("C", "a", "AB", "")]
        wrong = [("link", text) for text in ("5-4", "65536", "5,", ",5", "5--6", "", "brake", "5-")]
        wrong += [("verdict", text) for text in ("exces", "out,", "", "A", "out copy", "-")]
        wrong += [("filters", text) for text in ("", "0", "100", "0g", "+1", "00")]
        wrong += [(end, text) for end in ("from", "to") for text in ("24:00:00", "24:00", "12:60", "12:0", "1:000", "12:0x", "12:.0", "12:00Z", "+s", "+ms", "+1ss", "+1m", "+1h", "+1.0000001ms", "+1.s", "12:60:00", "12:00:00.", "12:00:00.1234567890", "1969-12-31T23:59:59Z",
                  "2027-02-29T00:00:00Z", "2106-02-07T06:28:16Z", str(2**32 * 10**9), "-1", "noon", "+", "++1", "+-1", "+1.", "+.5", "+1.0123456789", "1s", "1+1", "+ 1", "+1.2.3", "+1.+5", "+4294967296", "2027-01-15T08:00:12", "2027-01-15T08:00:12+01:00", "")]
        wrong += [("span", text) for text in ("", "2", "s", "ms", "2m", "2h", "2ns", "-1s", "+1s", "1.s", ".5s", "1.0000000001s", "1.0000001ms", "1.0001us", "2 s", "2S", "2ss",
                  "2mss", "1e3s", "1:00s", "1.2.3s", "4294967296s", "4294967296us")]
        cases += [("--to and --span", [*whole, "--to", "1", "--span", "1s"], MISUSE["TwoEnds"])]
        for name, arguments, mentioned in cases:
            ran = run(arguments, stdin=subprocess.DEVNULL, stdout=subprocess.PIPE)
            self.case(f"cut: {name}", difference(ran, USAGE, lambda told: mentioned in told, b""))
        texts = [(name, [*whole, f"--{name}={text}"], 1 if text in ("5,", "out,") else 0) for name, text in wrong]
        texts += [("link", [*whole, "--config", self.bench.path("config"), "--link", "5,flaps"], 1)]
        for name, arguments, item in texts:
            ran = run(arguments, stdin=subprocess.DEVNULL, stdout=subprocess.PIPE)
            self.case(f"cut: {arguments[-1]}", difference(ran, FAULT, LINES["selection"].format(name, item), b""))
        found = at_terminal(whole)
        self.case("cut: packets never go to a terminal", "" if found == (USAGE, "", TO_A_TERMINAL + "\n") else f"{found!r}"[:300])
        found = at_terminal([*whole, "--ledger-only"])
        lines = "".join(frame_lines(self.bench.read("ledger")))
        self.case("cut: lines go to a terminal", "" if found == (SUCCESS, lines, "") else f"{found!r}"[:300])

    def test_devices(self):
        """Files that can't be opened, read or written."""
        a, b = small()
        self.bench.watched(TABLE, EVERY, a, b)
        whole = self.bench.arguments()
        for option, of in (("--ledger", "Ledger"), ("--a", "A"), ("--b", "B")):
            at = whole.index(option) + 1
            for path, line in ((self.bench.path("missing"), LINES["open"].format(option)), (self.bench.directory, LINES["read"].format(of)), ("/proc/self/mem", LINES["read"].format(of))):
                # The capture is begun before the ledger is read.
                begun = header() if of == "Ledger" and os.path.exists(path) else b""
                ran = run([*whole[:at], path, *whole[at + 1 :]], stdin=subprocess.DEVNULL, stdout=subprocess.PIPE)
                self.case(f"cut: {option} {os.path.basename(path)}", difference(ran, FAULT, line, begun))
        for flags in ((), ("--ledger-only",)):
            with open("/dev/full", "wb") as full:
                self.case(f"cut: a full disk {' '.join(flags)}", difference(self.bench.cut(None, "ab", *flags, stdout=full), FAULT, LINES["write"]))
            self.case(f"cut: -o /dev/full {' '.join(flags)}", difference(self.bench.cut(None, "ab", *flags, "-o", "/dev/full"), FAULT, LINES["write"], b""))

    def test_older_outputs(self):
        """An output holds what a run without a fault wrote, be it nothing. After a fault before that it stands."""
        a, b = small()
        self.bench.watched(TABLE, EVERY, a, b)
        out = self.bench.path("older")
        for flags, written in (((), header()), (("--ledger-only",), b"")):
            for name, options, status, line, left in (
                ("no line is selected", {"verdict": "oversize"}, SUCCESS, nothing(self.bench.read("ledger"), {"verdict": "oversize"}), written),
                ("a selection that is refused", {"verdict": "nonsense"}, FAULT, LINES["selection"].format("verdict", 0), b"older"),
            ):
                self.bench.put(older=b"older")
                fault = difference(self.bench.cut(options, "ab", *flags, "-o", out), status, line, b"")
                found = self.bench.read("older")
                self.case(f"cut: an older output, {name} {' '.join(flags)}", fault or ("" if found == left else f"it holds {found!r}"))

    def test_a_million(self, frames=1_000_000):
        """A ledger of a million lines and its recordings, in closed form: every 1000th frame on A, and all lines of B."""
        stamps = range(NOON, NOON + frames // 2 * 10**6, 10**6)
        packets = [record(stamp, frame(5, 60, i % 255 + 1)) for i, stamp in enumerate(stamps)]
        recording = header() + b"".join(packets)
        lines = []
        for i, stamp in enumerate(stamps):
            judged = f"{i} 5 {i % 255 + 1} regular within {'next' if i else 'first'}"
            verdict = "deliver 60 01" if i % 1000 == 0 else "deliver - 00"
            lines += [f"{stamp} A {judged} {verdict}\n", f"{stamp} B {judged} copy - 00\n"]
        self.bench.put(a=recording, b=recording, ledger=("afdx-ledger 2\n" + "".join(lines)).encode() + b"total frames %d accepted 0\n" % frames)
        ran = self.bench.cut({"filters": "01"})
        self.case(f"cut: {frames} lines, one of a thousand", difference(ran, SUCCESS, "", header() + b"".join(packets[::1000])))
        ran = self.bench.cut({"verdict": "copy"})
        self.case(f"cut: {frames} lines, all of a network", difference(ran, SUCCESS, "", recording))
        near = {at + step for at in range(0, frames, 2000) for step in range(-3, 4)}
        ran = self.bench.cut({"filters": "01", "around": "3"}, "", "--ledger-only")
        expected = "".join(line for at, line in enumerate(lines) if at in near).encode()
        self.case(f"cut: {frames} lines, three around one of a thousand", difference(ran, SUCCESS, "", expected))
        ran = self.bench.cut({"from": str(stamps[-1])}, "", "--ledger-only")
        self.case(f"cut: {frames} lines, the last ones", difference(ran, SUCCESS, "", "".join(lines[-2:]).encode()))
