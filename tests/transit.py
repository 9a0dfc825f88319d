"""`transit`: what a switch did, beside a slow judge that works on whole lists, and beside a model switch that knows what it did.

The judge (tests/transit_reference.py) says each outcome by its definition, so ledgers are compared whole. The model switch
(tests/transit_flights.py) plants each fault, and each has to be told, and nothing else where the switch is right.
"""
import json
import os
import random
import re
import struct
import subprocess
import threading
import zlib

from tests.harness import Case, FAULT, PROGRAM, SUCCESS, USAGE, command_of, frame, header, put, read, record, run
from tests.long import peak_of
from tests.transit_cases import commit, random_case, table
from tests.transit_flights import BOUND, FAULTS, ROUTED, START, border_flight, leaking, transit_flight
from tests.transit_reference import AFTER, BEFORE, Options, judge

MS, US, SECOND = 10**6, 10**3, 10**9
# How many cases are judged: the first ones have the same seeds at each commit. A group of them is told as
# one.
JUDGED, FIXED, GROUP = int(os.environ.get("JUDGED", "2000")), 200, 50
FLIGHTS = 40
BOUNDED = ("--bound-us", str(BOUND // US))
# Seconds within which the longest recordings are read.
PATIENCE = 300
UNSOUND = "afdxmon: transit 1 Unsound"
FAULT_WORDS = ("dropped", "lax", "leak", "slow", "overtaken", "changed", "twice", "new")


def pcap(frames):
    """A recording of frames by (time since the start in nanoseconds, bytes)."""
    return header() + b"".join(record(START + at, data) for at, data in frames)


def options_of(options):
    """The words of a command line for these options."""
    words = ["--within-us", options.within // US, "--early-us", options.early // US, "--shift-ns", options.shift]
    words += ["--grace-us", options.grace // US, "--police", "frames" if options.frames else "bytes"]
    if options.bound is not None:
        words += ["--bound-us", options.bound // US]
    if options.routed is not None:
        words += ["--routed", ",".join(map(str, sorted(options.routed)))]
    if options.network != "-":
        words += ["--network", options.network]
    return [str(word) for word in words]


class Transit(Case):
    """What the parts below share."""

    def given(self, config, before, after, *more):
        """The words of a run over these recordings, each the bytes of one file or a list of those of
        several."""
        words = ["transit", "--config", put(self.folder, "table.toml", config)]
        for side, files in (("before", before), ("after", after)):
            files = files if isinstance(files, list) else [files]
            names = [f"{side}.pcap", *(f"{side}{number}.pcap" for number in range(1, len(files)))]
            words += [f"--{side}", *(put(self.folder, *each) for each in zip(names, files))]
        return [*words, *more]

    def transit(self, config, before, after, *more):
        return run(self.given(config, before, after, *more), stdout=-1)

    def ledger(self, config, before, after, *more):
        """A run, and the ledger that it leaves."""
        path = os.path.join(self.folder, "transit.ledger")
        if os.path.exists(path):
            os.remove(path)
        ran = self.transit(config, before, after, "--ledger", path, *more)
        return ran, read(path) if os.path.exists(path) else b""

    def answer(self, config, before, after, *more):
        """A run, and its answer as JSON."""
        ran = self.transit(config, before, after, "--json", *more)
        return ran, json.loads(ran.stdout) if ran.stdout else {}


def first_difference(got, wanted):
    """The first line that differs, if one does."""
    if got == wanted:
        return ""
    lines = zip(got.split(b"\n") + [b"(no line)"] * 2, wanted.split(b"\n") + [b"(no line)"] * 2)
    for number, (one, other) in enumerate(lines, 1):
        if one != other:
            return f"line {number} is {one!r}, not {other!r}"
    return "the ledgers differ"


class Judge(Transit):
    """Ledgers whole, beside the slow judge's."""

    def differs(self, case):
        """How the ledger of a case differs from the judge's."""
        judged = judge(case.config, case.before, case.after, case.options)
        ran, ledger = self.ledger(case.config, *case.files, *options_of(case.options))
        fault = first_difference(ledger, judged.lines + judged.summary)
        is_unsound = UNSOUND in ran.stderr.decode().split("\n")
        if ran.returncode != (FAULT if is_unsound else SUCCESS):
            fault = f"status {ran.returncode}: {ran.stderr!r}"
        return fault and f"{fault}; the command: {command_of(ran)}"

    def test_random(self):
        """Generated recordings; from some on their seeds change with the commit, so each commit has
        others."""
        for first in range(0, JUDGED, GROUP):
            name = f"{'SEED=' + commit() + ' ' if first >= FIXED else ''}recordings {first}"
            for number in range(first, min(first + GROUP, JUDGED)):
                fault = self.differs(random_case(number if number < FIXED else f"{commit()} {number}"))
                if fault:
                    fault = f"recordings {number}: {fault}"
                    break
            self.case(f"{name} to {number}", fault)


class ModelSwitch(Transit):
    """Each fault that is planted is told, and none where the switch is right."""

    def flight(self, name, flight, *more):
        """A flight of which each outcome is told as the model has it."""
        ran, ledger = self.ledger(flight.config, flight.before, flight.after, *more)
        got = {}
        for line in ledger.decode().split("\n"):
            words = line.split(" ")
            if words[0].isdigit():
                got[words[1], int(words[2])] = words[7]
        wrong = {key: (got.get(key), word) for key, word in flight.outcomes.items() if got.get(key) != word}
        some = dict(list(wrong.items())[:3])
        fault = f"{len(wrong)} others of (side, number): told, planted: {some}" if wrong else ""
        if ran.returncode != SUCCESS or ran.stderr:
            fault = f"status {ran.returncode}: {ran.stderr!r}"
        self.case(name, fault and f"{fault}; the command: {command_of(ran)}")

    def test_planted(self):
        for seed in (*range(FLIGHTS // 2), *(f"{commit()} {number}" for number in range(FLIGHTS // 2))):
            self.flight(f"all faults planted, flight {seed}", transit_flight(seed, FAULTS), *BOUNDED)
        for fault in FAULTS:
            self.flight(f"{fault} planted alone", transit_flight(1000, (fault,)), *BOUNDED)

    def test_leaks(self):
        """Links that come out of a port that isn't theirs."""
        for seed in range(FLIGHTS // 4):
            flight = transit_flight(seed, FAULTS)
            leaks = random.Random(seed).sample(ROUTED, seed % 3 + 1)
            items = [f"link_{link}" if link % 2 else str(link) for link in ROUTED if link not in leaks]
            flight = flight._replace(outcomes=leaking(flight, leaks))
            self.flight(f"leaks of {leaks}, flight {seed}", flight, "--routed", ",".join(items), *BOUNDED)

    def test_border(self):
        """Senders at the border of their accounts, taps off by up to 60 ns, and the default grace: each
        frame too many that is passed is told, each that fits and is dropped, and nothing of a switch that
        is right."""
        for number in range(FLIGHTS // 4):
            seed = number if number % 2 else f"{commit()} {number}"
            for faults in ((), ("lax", "dropped")):
                for police in ("bytes", "frames"):
                    flight = border_flight(seed, faults, police == "frames")
                    enough = not faults or {"lax", "dropped"} <= {does for does, _ in flight.planted}
                    name = f"at the border, {' and '.join(faults) or 'right'}, of {police}, flight {seed}"
                    self.flight(name, flight, "--police", police)
                    self.case(f"{name}: its faults are there", "" if enough else "none is planted")

    def test_without_grace(self):
        """Without a grace a right switch is blamed at the border, as the page says: so the flights above
        have a border."""
        flight = border_flight(1, (), False)
        ran, answer = self.answer(flight.config, flight.before, flight.after, "--grace-us", "0")
        kinds = set(answer.get("kinds", {}))
        fault = "" if {"lax", "dropped"} <= kinds else f"{kinds}; the command: {command_of(ran)}"
        self.case("a right switch without a grace", fault)

    def test_right(self):
        for seed in range(FLIGHTS // 2):
            flight = transit_flight(seed, ())
            ran, answer = self.answer(flight.config, flight.before, flight.after, *BOUNDED)
            told = {kind: of["frames"] for kind, of in answer.get("kinds", {}).items()}
            fault = "" if ran.returncode == SUCCESS and told == {} and answer["questions"] == [] else f"{told} {answer.get('questions')}"
            self.case(f"a right switch {seed}", fault and f"{fault}; the command: {command_of(ran)}")


def plain_flight(count=400, transit=30 * US, start=100 * MS, links=(1, 2)):
    """Frames of two links, each its own, and how they come out: some microseconds later, more or less."""
    chance, before, after = random.Random(5), [], []
    for index in range(count):
        at = start + index * MS
        data = frame(links[index % len(links)], 100, index // len(links) % 255 + 1)
        data = data[:14] + index.to_bytes(4, "big") + data[18:]
        before.append((at, data))
        after.append((at + transit + chance.randrange(20) * US + (200 * US if index % 37 == 0 else 0), data))
    return before, after


PLAIN = table([(1, 2, 0), (2, 2, 0)])
CHECKED = b"".join


def with_check(data):
    """A frame with its check sequence at its end."""
    return data + struct.pack("<I", zlib.crc32(data))


class Questions(Transit):
    """Each wrong input asks its question."""

    def asks(self, name, word, before, after, *more, config=PLAIN, **numbers):
        ran, answer = self.answer(config, before, after, *more)
        asked = [one["question"] for one in answer.get("questions", [])]
        fault = "" if asked[:1] == [word] and ran.returncode == FAULT else f"asked {asked}, not {word}; {ran.stderr!r}"
        question = answer["questions"][0] if asked else {}
        for key, value in numbers.items():
            if not fault and question.get(key) != value:
                fault = f"{key} is {question.get(key)}, not {value}"
        self.case(name, fault and f"{fault}; the command: {command_of(ran)}")

    def test_questions(self):
        before, after = plain_flight()
        ins, outs = pcap(before), pcap(after)
        least = min(out[0] - into[0] for into, out in zip(before, after))
        ran, answer = self.answer(PLAIN, ins, outs)
        fine = ran.returncode == SUCCESS and answer["sound"] and not ran.stderr
        self.case("a right switch has no question", "" if fine else f"{answer.get('questions')} {ran.stderr!r}; {command_of(ran)}")
        self.asks("no frame before", "empty_before", pcap([]), outs)
        self.asks("no frame after", "empty_after", ins, pcap([]))
        self.asks("both recordings swapped", "swapped", outs, ins)
        self.asks("one recording as both", "same_recording", ins, ins)
        cut = header() + b"".join(record(START + at, data[:60], original=100) for at, data in after)
        self.asks("frames after cut short", "cut_after", ins, cut)
        checked = pcap([(at, with_check(data)) for at, data in before])
        self.asks("check sequences before", "check_sequence_before", checked, outs)
        self.asks("a table of another network", "constant", ins, outs, config=PLAIN.replace("50331648", "50331649"))
        self.asks("a table of other links", "other_table", ins, outs, config=table([(8, 2, 0), (9, 2, 0)]))
        early = pcap([(at - 40 * US, data) for at, data in after])
        self.asks("clocks apart by less than the window", "clocks", ins, early, nanoseconds=least - 40 * US, at_least=True,
                  shift_ns=40 * US - least)
        far = pcap([(at + 2 * SECOND, data) for at, data in after])
        self.asks("clocks apart by two seconds", "clocks", ins, far, at_least=False, shift_ns=-2 * SECOND - least)
        twice = pcap([one for one in before for _ in (0, 1)])
        self.asks("each frame before twice", "twice_before", twice, outs)
        again = pcap(sorted(one for at, data in after for one in ((at, data), (at + 300 * US, data))))
        self.asks("each frame after twice", "twice_after", ins, again)
        day = pcap([(at + 90 * SECOND, data[:20] + b"\x07" + data[21:]) for at, data in after])
        self.asks("no common time", "apart", ins, day)
        other = pcap([(at, data[:5] + b"\x09" + data[6:]) for at, data in after])
        self.asks("another port", "other_port", ins, other, config=table([(1, 2, 0), (2, 2, 0), (9, 1, 0)]))
        network = pcap([(at, data[:11] + b"\x40" + data[12:]) for at, data in after])
        self.asks("two networks", "two_networks", ins, network)
        written = pcap([(at, data[:20] + b"\x40" + data[21:]) for at, data in after])
        self.asks("all frames rewritten", "rewritten", ins, written)
        lost = pcap(after[:150] + after[250:])
        self.asks("nothing recorded after for a time", "silence_after", ins, lost, frames=100, links=2)
        missed = pcap(before[:150] + before[250:])
        self.asks("nothing recorded before for a time", "silence_before", missed, outs, frames=100, links=2)
        self.asks("transits longer than the window", "window", ins, pcap(sorted(slow_frames(after))), "--within-us", "5000")

    def test_drift(self):
        before, after = plain_flight(count=15000)
        drifting = pcap([(at + (at - 100 * MS) * 20 // 10**6, data) for at, data in after])
        ran, answer = self.answer(PLAIN, pcap(before), drifting)
        asked = answer.get("questions") or [{}]
        near = abs(asked[0].get("parts_per_billion", 0) - 20000) < 2000
        fault = "" if asked[0].get("question") == "drift" and near and ran.returncode == FAULT else f"{asked} {ran.stderr!r}"
        self.case("a clock that drifts by 20 us a second", fault and f"{fault}; the command: {command_of(ran)}")

    def test_step(self):
        """The clock of the port out is set at a moment, or the switch holds all frames from then on. That is no drift."""
        before, after = plain_flight(count=30000, start=0)
        for size in (200 * US, MS, 5 * MS, -900 * US):
            for at in (8 * SECOND, 15 * SECOND, 20 * SECOND, 25 * SECOND):
                late = pcap(sorted((out + (size if went >= at else 0), data) for (went, data), (out, _) in zip(before, after)))
                ran, answer = self.answer(PLAIN, pcap(before), late)
                asked = answer.get("questions") or [{}]
                told = asked[0].get("question") == "step" and len(asked) == 1 and ran.returncode == FAULT
                close = told and abs(asked[0]["nanoseconds"] - size) <= 20 * US and int(asked[0]["from"]) < START + at <= int(asked[0]["to"])
                way, told_size = ("falls" if size < 0 else "rises"), abs(asked[0].get("nanoseconds", 0)) // US
                wanted = f"did a clock step, or the load or path change? The least latency {way} by {told_size}."
                close = close and asked[0]["text"].startswith(wanted) and f" us at {at // SECOND} s. " in asked[0]["text"]
                self.case(f"a step of {size / MS} ms at {at // SECOND} s", "" if close else f"{asked}; the command: {command_of(ran)}")

    def test_no_step(self):
        """What is neither a drift nor a step: a queue for a time, a step for two seconds alone, and a clock that is set again and again."""
        before, after = plain_flight(count=30000, start=0)
        for name, late in (
            ("a queue from 10 s to 20 s", lambda at: 500 * US if 10 * SECOND <= at < 20 * SECOND else 0),
            ("a step at 28.5 s", lambda at: 500 * US if at >= 28 * SECOND + 500 * MS else 0),
            ("a clock that is set each five seconds", lambda at: at % (5 * SECOND) // 5000),
            ("a step of 60 us", lambda at: 60 * US if at >= 15 * SECOND else 0),
        ):
            shifted = pcap(sorted((out + late(went), data) for (went, data), (out, _) in zip(before, after)))
            ran, answer = self.answer(PLAIN, pcap(before), shifted)
            asked = [one["question"] for one in answer.get("questions", [{"question": "none"}])]
            self.case(f"neither drift nor step: {name}", f"{asked}; the command: {command_of(ran)}" if asked else "")

    def test_early(self):
        """A clock that is set back by more than the window: it begins too late, and the advice is the option that takes all frames."""
        before, after = plain_flight(count=10000, start=0)
        for size in (5 * MS, 20 * MS):
            back = pcap(sorted((out - (size if went >= 5 * SECOND else 0), data) for (went, data), (out, _) in zip(before, after)))
            ran, answer = self.answer(PLAIN, pcap(before), back)
            text = " ".join(one["text"] for one in answer.get("questions", []))
            given = re.search(r"Give --early-us (\d+)", text)
            fault = "" if given and size <= int(given[1]) * US <= 4 * size else text
            _, mended = self.answer(PLAIN, pcap(before), back, "--early-us", given[1] if given else "1000")
            left = mended["total"]["dropped"] + mended["total"]["new"]
            fault = fault or (f"{left} frames have no partner" if left else "")
            self.case(f"a clock that is set back by {size // MS} ms", fault and f"{fault}; the command: {command_of(ran)}")


class Bars(Transit):
    """The rows of the transits, by the borders that they show: a transit of a border's length is in the row that begins there."""

    def rows(self, name, transits):
        count = len(transits)
        before = [(SECOND + index * 20 * MS, frame(index % 2 + 1, 100, index // 2 % 255 + 1)) for index in range(count)]
        before = [(at, data[:14] + index.to_bytes(4, "big") + data[18:]) for index, (at, data) in enumerate(before)]
        after = sorted((at + transit, data) for (at, data), transit in zip(before, transits))
        ran = self.transit(table([(1, 8, 0), (2, 8, 0)]), pcap(before), pcap(after))
        told = {(int(low), int(high)): int(found) for low, high, found in re.findall(r"^ +(\d+) to +(\d+) us +(\d+)", ran.stdout.decode(), re.M)}
        wrong = {row: found for row, found in told.items() if found != sum(row[0] * US <= one < row[1] * US for one in transits)}
        fault = f"{wrong} of {told}" if wrong or sum(told.values()) != count else ""
        self.case(name, fault and f"{fault}; the command: {command_of(ran)}")

    def test_borders(self):
        for border in (one * 10**power for power in range(3) for one in (1, 2, 5)):
            self.rows(f"all of {border * 10} us", [border * 10 * US] * 60)
            around = [border * 10 * US + off for off in (-300, -1, 0, 1, 300) for _ in range(12)]
            self.rows(f"around {border * 10} us", around)
        self.rows("of the first transits above 50 us", [50_000 + index for index in range(200)])
        self.rows("just above and below 100 us", [60_000] * 100 + [100_300])


def slow_frames(after):
    """The frames of a flight of which a hundred in the middle come out 30 ms later."""
    for index, (at, data) in enumerate(after):
        yield (at + 30 * MS if 150 <= index < 250 else at, data)


class CommandLine(Transit):
    """Options at their bounds and beyond, files, and what is left after a fault."""

    # Of each option its bounds, and what it is to the judge, which counts in nanoseconds.
    BOUNDS = {
        "--within-us": (1, 10_000_000, "within"), "--early-us": (0, 1_000_000, "early"),
        "--bound-us": (0, 10_000_000, "bound"), "--grace-us": (0, 1_000_000, "grace"),
        "--shift-ns": (-(2**63), 2**63 - 1, "shift"), "--late-us": (0, 1_000_000, None),
    }

    def at_bound(self, option, value, judged, ins, outs):
        """A run with a value of an option: its ledger is the judge's."""
        given = {judged: value if judged == "shift" else value * US} if judged else {}
        config = PLAIN if judged else PLAIN.replace("late_us = 0", f"late_us = {value}")
        expected = judge(config, ins, outs, Options(**given))
        ran, ledger = self.ledger(PLAIN, ins, outs, option, str(value))
        fault = first_difference(ledger, expected.lines + expected.summary)
        if ran.returncode not in (SUCCESS, FAULT) or not ran.stdout:
            fault = f"status {ran.returncode}: {ran.stderr!r}"
        self.case(f"{option} {value}", fault and f"{fault}; the command: {command_of(ran)}")

    def test_bounds(self):
        before, after = plain_flight(count=120)
        after[40:42] = after[41:39:-1]
        del after[60:63]
        ins, outs = pcap(before), pcap(sorted(after))
        for option, (least, most, judged) in self.BOUNDS.items():
            recorded = pcap(after) if option == "--late-us" else outs
            for value in (least, most):
                self.at_bound(option, value, judged, ins, recorded)
            for value in (least - 1, most + 1, "x", ""):
                ran = self.transit(PLAIN, ins, outs, option, str(value))
                fault = "" if ran.returncode == USAGE and not ran.stdout else f"status {ran.returncode}: {ran.stderr!r}"
                self.case(f"{option} {value!r} is refused", fault and f"{fault}; the command: {command_of(ran)}")
        for option, values in (("--police", ("packets", "")), ("--network", ("C", "a"))):
            for value in values:
                ran = self.transit(PLAIN, ins, outs, option, value)
                fault = "" if ran.returncode == USAGE else f"status {ran.returncode}: {ran.stderr!r}"
                self.case(f"{option} {value!r} is refused", fault and f"{fault}; the command: {command_of(ran)}")
        for value, item in (("70000", 0), ("1,link_9", 1), ("", 0)):
            self.judge(f"--routed {value!r} is refused", self.transit(PLAIN, ins, outs, "--routed", value), FAULT,
                       f"afdxmon: transit 8 Selection routed at {item}", b"")

    def test_faults(self):
        before, after = plain_flight(count=40)
        ins, outs = pcap(before), pcap(after)
        self.judge("no recording before", self.transit(PLAIN, b"no pcap", outs), FAULT, "afdxmon: transit 2 Header before 1 Short", b"")
        self.judge("no recording after", self.transit(PLAIN, ins, b"\0" * 24), FAULT, "afdxmon: transit 2 Header after 2 Magic", b"")
        words = self.given(PLAIN, ins, outs)
        gone = [word.replace("before.pcap", "gone.pcap") for word in words]
        self.judge("a file before that isn't there", run(gone, stdout=-1), FAULT, "afdxmon: file --before", b"")
        gone = [word.replace("after.pcap", "gone.pcap") for word in words]
        self.judge("a file after that isn't there", run(gone, stdout=-1), FAULT, "afdxmon: file --after", b"")
        self.judge("a table that is none", self.transit("link = 1", ins, outs), FAULT, "afdxmon: config 2 Missing top", b"")
        words = self.given(PLAIN, ins, outs)
        for option in ("before.pcap", "after.pcap", "table.toml"):
            path = os.path.join(self.folder, option)
            self.judge(f"the ledger is {option}", run([*words, "--ledger", path], stdout=-1), FAULT, "afdxmon: file --ledger", b"")
        full = run([*words, "--ledger", "/dev/full"], stdout=-1)
        self.judge("a ledger that can't be written", full, FAULT, "afdxmon: transit 4 Write ledger", b"")

    def test_older_ledger(self):
        before, after = plain_flight(count=40)
        path = put(self.folder, "older.ledger", "older")
        ran = self.transit(PLAIN, b"no pcap", pcap(after), "--ledger", path)
        kept = read(path) == b"older"
        self.case("an older ledger stays where nothing is read", "" if kept and ran.returncode == FAULT else f"{read(path)[:40]!r}; {command_of(ran)}")

    def test_files(self):
        """Several files, and pcapng, are read as one pcap file is."""
        before, after = plain_flight(count=300)
        whole, ledger = self.ledger(PLAIN, pcap(before), pcap(after))
        parts = [put(self.folder, f"part{number}.pcap", pcap(before[number * 100 : number * 100 + 100])) for number in range(3)]
        words = self.given(PLAIN, pcap(before), pcap(after))
        path = os.path.join(self.folder, "several.ledger")
        several = [*words[:4], *parts, *words[5:], "--ledger", path]
        ran = run(several, stdout=-1)
        same = ran.returncode == SUCCESS and read(path) == ledger and whole.returncode == SUCCESS
        self.case("three files before", "" if same else f"{ran.returncode} {ran.stderr!r}; the command: {command_of(ran)}")
        piped = run([*words[:4], "-", *words[5:], "--ledger", path], stdout=-1, input=pcap(before))
        same = piped.returncode == SUCCESS and read(path) == ledger
        self.case("a pipe before", "" if same else f"{piped.returncode} {piped.stderr!r}; the command: {command_of(piped)}")

    def test_text(self):
        """The answer at its shortest, whole."""
        before, after = plain_flight(count=200)
        ran = self.transit(PLAIN, pcap(before), pcap(after), "--network", "A")
        lines = ran.stdout.decode().split("\n")
        wide = [line for line in lines if len(line) > 80]
        head = lines[0] == "transit of network A: 200 frames in, 200 out" and lines[-2:] == ["sound: yes", ""]
        fault = "" if head and not wide and "faults: none" in lines else f"{wide} {lines}"
        self.case("the answer of a right switch", fault and f"{fault}; the command: {command_of(ran)}")

    def test_json(self):
        """The answer's numbers are the ledger's."""
        for seed in range(60):
            case = random_case(seed)
            _, ledger = self.ledger(case.config, *case.files, *options_of(case.options))
            ran, answer = self.answer(case.config, *case.files, *options_of(case.options))
            total = ledger.decode().rstrip("\n").split("\n")[-1] if ledger else ""
            counts = re.findall(r"(\w+) (\d+)", total.partition(" after ")[0]), re.findall(r"(\w+) (\d+)", total.partition(" after ")[2])
            wanted = {word: int(count) for word, count in counts[0] if word in BEFORE and word != "open"}
            wanted |= {word: int(count) for word, count in counts[1] if word in AFTER and word != "open"}
            got = {word: answer["total"].get(word) for word in wanted}
            lines = [line.split(" ") for line in ledger.decode().split("\n") if line[:1].isdigit()]
            faults = [line for line in lines if line[7] in FAULT_WORDS]
            told = [[one["time"], one["side"], str(one["number"])] for one in answer["faults"]]
            fault = "" if got == wanted and told == [line[:3] for line in faults[:100]] else f"{got}, not {wanted}"
            by_kind = {kind: sum(line[7] == kind for line in faults) for kind in FAULT_WORDS}
            kinds = {kind: of["frames"] for kind, of in answer["kinds"].items()}
            fault = fault or ("" if kinds == {kind: count for kind, count in by_kind.items() if count} else f"kinds {kinds}, not {by_kind}")
            self.case(f"the answer beside the ledger {seed}", fault and f"{fault}; the command: {command_of(ran)}")


def packet(at, number, late):
    """A frame of one of two links, each of its own, with its time."""
    stamp = START + at + late
    return struct.pack("<IIII", stamp // SECOND, stamp % SECOND, 60, 60) + ENDLESS[number % len(ENDLESS)]


# Frames of both links with all sequence numbers. The same one comes again after half a second.
ENDLESS = [frame(1 + number % 2, 60, number // 2 % 255 + 1) for number in range(510)]
CHUNK = 5100


def packets(count, transit=0):
    """A recording of a frame each millisecond, by pieces."""
    yield header()
    for first in range(0, count, CHUNK):
        some = range(first, min(first + CHUNK, count))
        yield b"".join(packet(number * MS, number, transit) for number in some)


class Memory(Transit):
    """Memory is flat however long the recordings are, and where one ends long before the other."""

    MOST, LONG, SHORT = 24 << 20, 10**6, 20_000

    @staticmethod
    def pour(path, pieces, gate, is_held):
        """Writes a recording into a pipe. One that is held ends once the memory was looked at."""
        try:
            with open(path, "wb") as out:
                for piece in pieces:
                    out.write(piece)
                out.flush()
                if is_held:
                    gate.wait(PATIENCE)
                    gate.wait(PATIENCE)
        except (BrokenPipeError, threading.BrokenBarrierError):
            gate.abort()

    def peak(self, before, after):
        """The most memory that a run has had in bytes when it has nearly read these many frames from two
        pipes, its ledger's last line and the command."""
        ledger = os.path.join(self.folder, "transit.ledger")
        paths = [os.path.join(self.folder, f"{side}.pipe") for side in ("before", "after")]
        gate = threading.Barrier(2 + (after == before))
        config = put(self.folder, "table.toml", table([(1, 2, 0), (2, 2, 0)]))
        words = ["transit", "--config", config, "--before", paths[0], "--after", paths[1], "--ledger", ledger]
        for path, count, transit in zip(paths, (before, after), (0, 30 * US)):
            if not os.path.exists(path):
                os.mkfifo(path)
            how = (path, packets(count, transit), gate, count == before)
            threading.Thread(target=self.pour, args=how, daemon=True).start()
        child = subprocess.Popen([PROGRAM, *words], stdout=subprocess.DEVNULL, stderr=subprocess.PIPE)
        most = None
        try:
            gate.wait(PATIENCE)
            most = peak_of(child)
            gate.wait(PATIENCE)
        except threading.BrokenBarrierError:
            child.kill()
        child.communicate(timeout=PATIENCE)
        with open(ledger, "rb") as text:
            text.seek(max(os.path.getsize(ledger) - 400, 0))
            last = text.read().rstrip(b"\n").rpartition(b"\n")[2]
        return most, last.decode(), " ".join([PROGRAM, *words])

    def test_flat(self):
        short, _, _ = self.peak(self.SHORT, self.SHORT)
        for name, after in (("both as long", self.LONG), ("the recording after ends early", 1000)):
            used, last, words = self.peak(self.LONG, after)
            counts = f"total frames {self.LONG} before {self.LONG} cut 0 passed {after} "
            fault = "" if last.startswith(counts) else f"the ledger ends {last!r}"
            if not used or not short or used > min(self.MOST, short + (6 << 20)):
                fault = f"{(used or 0) >> 10} KiB, and {(short or 0) >> 10} KiB of {self.SHORT} frames"
            self.case(f"memory of {self.LONG} frames, {name}", fault and f"{fault}; the command: {words}")
