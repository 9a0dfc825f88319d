"""`transit` and the cuts of its ledger at real size, over recordings of all kinds, and over files that fail.

Where recordings are long, what has to be written is said in closed form; over short ones it follows from the slow judge's ledger
(tests/transit_reference.py), which is laid as the ledger that `cut` reads: no output of the program's own is trusted.
"""
import os
import subprocess

from tests.cut import stopped
from tests.harness import FAULT, PROGRAM, SUCCESS, command_of, difference, frame, header, put, read, record, run
from tests.threads import FailingTap, rest
from tests.transit import PLAIN, SECOND, US, Transit, first_difference, pcap, plain_flight, table
from tests.transit_cases import commit, random_case
from tests.transit_cut import frame_lines, frames_of, packets_of, pcap_of, pcapng_of
from tests.transit_flights import START
from tests.transit_reference import AFTER, BEFORE, Options, judge, rounded

LINKS, STEP, RANDOM = 50, 20 * US, 120
OUTCOMES = (*BEFORE, *AFTER, "-")
NO_LINE = "afdxmon: note: no line is selected"


def went_in(count):
    """Frames of 50 links, of each link one a millisecond, its BAG; each frame is another one."""
    for index in range(count):
        data = frame(index % LINKS + 1, 100, index // LINKS % 255 + 1)
        yield index * STEP, data[:14] + index.to_bytes(4, "big") + data[18:]


def changed(data):
    return data[:40] + b"\x07" + data[41:]


def counts(words, **some):
    return " ".join(f"{word} {some.get(word, 0)}" for word in words)


def latency_line(of, count, length):
    if not count:
        return f"latency {of} count 0 sum 0 least - p50 - p99 - p999 - greatest -\n"
    ranks = " ".join(f"p{rank} {rounded(length)}" for rank in (50, 99, 999))
    return f"latency {of} count {count} sum {count * length} least {length} {ranks} greatest {length}\n"


class RealSize(Transit):
    """More frames within the window than any list of the program has places for."""

    WORDS = ("--within-us", "2000000", "--early-us", "0", "--grace-us", "0", "--routed", f"1-{LINKS}")
    TABLE = table([(link, 1, 0) for link in range(1, LINKS + 1)])

    def expected(self, count, outs, word, length, rest_of, *others):
        """The ledger of frames that all have this outcome, and this latency if they are alike. `rest_of` has the other fields of a line;
        others are of frames that came out alone, as (number, time, link, sequence number, outcome)."""
        routed = ",".join(map(str, range(1, LINKS + 1)))
        heads = [(index % LINKS + 1, index // LINKS % 255 + 1) for index in range(count)]
        lines = [(index * STEP, f"before {index} {link} {sequence} regular within {word} {rest_of(index)}\n") for index, (link, sequence) in enumerate(heads)]
        lines += [(at, f"after {number} {link} {sequence} regular - {how} - - -\n") for number, at, link, sequence, how in others]
        text = ["afdx-transit 1\n", f"run network - within {2 * SECOND} early 0 shift 0 bound - police bytes grace 0 routed {routed}\n"]
        text += [f"{START + at} {line}" for at, line in sorted(lines, key=lambda one: one[0])]
        own, partners = count // LINKS, outs - len(others)
        for link in range(1, LINKS + 1):
            alone = [how for *_, of, _, how in others if of == link]
            told = {how: alone.count(how) for how in set(alone)}
            text.append(f"link {link} link_{link} before {own} {counts(BEFORE, **{word: own})} after {partners // LINKS + len(alone)} {counts(AFTER, **told)}\n")
            text.append(latency_line(link, own if length else 0, length))
        alone = [how for *_, how in others]
        text += [latency_line("all", count if length else 0, length), f"tap before clean {count}\n", f"tap after clean {outs}\n"]
        text.append(f"total frames {count + len(others)} before {count} cut 0 {counts(BEFORE, **{word: count})} "
                    f"after {outs} cut 0 {counts(AFTER, **{how: alone.count(how) for how in set(alone)})} choice 0\n")
        return "".join(text).encode()

    def pending(self, name, count, after, ledger):
        """A run, and a cut of all frames by its ledger."""
        before = list(went_in(count))
        ran, text = self.ledger(self.TABLE, pcap(before), pcap(after), *self.WORDS)
        fault = first_difference(text, ledger) or ("" if ran.returncode in (SUCCESS, FAULT) else f"status {ran.returncode}: {ran.stderr!r}")
        self.case(f"{count} frames in the window, {name}", fault and f"{fault}; the command: {command_of(ran)}")
        paths = [put(self.folder, "whole.ledger", ledger), *(os.path.join(self.folder, f"{side}.pcap") for side in ("before", "after"))]
        ran = run(["cut", "--ledger", paths[0], "--before", paths[1], "--after", paths[2]], stdout=-1)
        whole = header() + b"".join(record(START + at, data) for at, data in sorted(before + after, key=lambda one: one[0]))
        self.judge(f"cut of {count} frames in the window, {name}", ran, SUCCESS, "", whole)

    def test_pending(self, count=50_000):
        """All frames that went in stand within a second, and come out a second later: as they are, changed, twice, or not at all."""
        before = list(went_in(count))
        later = [(at + SECOND, data) for at, data in before]
        as_they_are = lambda index: f"{index} {SECOND} -"  # noqa: E731
        self.pending("passed", count, later, self.expected(count, count, "passed", SECOND, as_they_are))
        ledger = self.expected(count, count, "changed", 0, lambda index: f"{index} {SECOND} 40")
        self.pending("changed", count, [(at, changed(data)) for at, data in later], ledger)
        again = [(at + 2 * SECOND, data) for at, data in before]
        others = [(count + index, at, data[5], data[-1], "twice") for index, (at, data) in enumerate(again)]
        self.pending("twice", count, later + again, self.expected(count, 2 * count, "passed", SECOND, as_they_are, *others))
        ends = [(-SECOND, frame(1, 100, 1)), (4 * SECOND, frame(1, 100, 1))]
        others = [(number, at, 1, 1, "open") for number, (at, _) in enumerate(ends)]
        self.pending("dropped", count, ends, self.expected(count, 2, "dropped", 0, lambda index: "- - -", *others))

    def test_links(self):
        """Each identifier that there is, in a table of 4000 links, has its line, its lane and its counts."""
        listed = range(8, 65536, 16)[:4000]
        config = table([(link, 1, 0) for link in listed])
        before = [(link * STEP, frame(link, 100, 1)) for link in range(65536)]
        after = [(at + 30 * US, data) for at, data in before]
        ran, text = self.ledger(config, pcap(before), pcap(after), "--grace-us", "0", "--early-us", "0")
        words = {True: "regular within passed", False: "unconfigured - lax"}
        lines = [f"{START + link * STEP} before {link} {link} 1 {words[link in listed]} {link} {30 * US} -" for link in range(65536)]
        got = text.decode().split("\n")
        wrong = next((f"line {at + 3} is {one!r}, not {other!r}" for at, (one, other) in enumerate(zip(got[2:], lines)) if one != other), "")
        of_links = [line for link in listed for line in (
            f"link {link} link_{link} before 1 {counts(BEFORE, passed=1)} after 1 {counts(AFTER)}", latency_line(link, 1, 30 * US)[:-1])]
        ends = [*of_links, latency_line("all", 65536, 30 * US)[:-1]]
        fault = wrong or ("" if got[2 + 65536 : 2 + 65536 + len(ends)] == ends else "the lines of links differ")
        self.case("each identifier", fault and f"{fault}; the command: {command_of(ran)}")
        ran, answer = self.answer(config, pcap(before), pcap(after), "--grace-us", "0", "--early-us", "0")
        told = [one["id"] for one in answer["links"]], [one["id"] for one in answer["unlisted"]], answer["kinds"]["lax"]["links"]
        wanted = list(listed), [link for link in range(65536) if link not in listed], 65536 - len(listed)
        self.case("the answer has each identifier", "" if told == wanted else f"{told[2]} links are lax; the command: {command_of(ran)}")


class CutOfEach(Transit):
    """Cuts by the judge's ledgers of generated recordings."""

    def cut(self, *more):
        return run(["cut", "--ledger", os.path.join(self.folder, "judged.ledger"), "--before", os.path.join(self.folder, "before.pcap"),
                    "--after", os.path.join(self.folder, "after.pcap"), *more], stdout=-1)

    def test_random(self):
        """Latencies below 0, frames that are recorded in part, late and equal timestamps, moved clocks: what each outcome takes."""
        used = set()
        for seed in (*range(RANDOM // 2), *(f"{commit()} cut {number}" for number in range(RANDOM // 2))):
            case = random_case(seed)
            text = judge(case.config, case.before, case.after, case.options)
            lines = frame_lines(text.lines)
            for name, data in (("before.pcap", case.before), ("after.pcap", case.after), ("judged.ledger", text.lines + text.summary), ("table.toml", case.config)):
                put(self.folder, name, data)
            frames = frames_of(case.before), frames_of(case.after, case.options.shift)
            fault = ""
            for word in (*sorted({fields[7] for fields in lines}), *([OUTCOMES[seed % len(OUTCOMES)]] if isinstance(seed, int) else ())):
                packets = packets_of([fields for fields in lines if fields[7] == word], *frames)
                used.update([word] if packets else [])
                told = "" if packets else NO_LINE
                fault = fault or difference(self.cut(f"--verdict={word}"), SUCCESS, told, pcap_of(packets))
                fault = fault or difference(self.cut(f"--verdict={word}", "--pcapng"), SUCCESS, told, pcapng_of(packets, {}))
            fault = fault or difference(self.cut(), SUCCESS, "" if lines else NO_LINE, pcap_of(packets_of(lines, *frames)))
            self.case(f"recordings {seed}", fault)
        self.case("each outcome is cut", "" if used == set(OUTCOMES) else f"without {set(OUTCOMES) - used}")

    def flight(self):
        """The judge's ledger of a flight whose frames come out 30 us later, its lines, and its recordings."""
        before, after = plain_flight(count=60)
        self.recordings = [pcap(before), pcap(sorted(after))]
        lines = judge(PLAIN, *self.recordings, Options(grace=0)).lines.decode().splitlines(keepends=True)
        for name, data in zip(("before.pcap", "after.pcap"), self.recordings):
            put(self.folder, name, data)
        return lines

    def test_partners(self):
        """Two lines that take one frame, and lines whose frame is another or isn't there: the line is named."""
        lines = self.flight()
        fields = [line.rstrip("\n").split(" ") for line in lines[2:]]

        def changed(at, **some):
            """The ledger with some fields of a line, the first of which is 1, replaced."""
            words = [some.get(f"field_{number}", field) for number, field in enumerate(fields[at], 1)]
            return "".join([*lines[: at + 2], " ".join(words) + "\n", *lines[at + 3 :]])

        for at in (0, 20, 59):
            near = at - 1 if at else 1
            for name, text, number in (
                ("the partner of a line near it", changed(at, field_9=fields[near][8]), max(at, near) + 3 if at != 0 else 3),
                ("a partner that isn't there", changed(at, field_9="60"), at + 3),
                ("a partner at another time", changed(at, field_10=str(int(fields[at][9]) + 1)), at + 3),
                ("a frame that isn't there", changed(at, field_3="60"), at + 3),
            ):
                put(self.folder, "judged.ledger", text)
                words = ["--from", fields[at][0], "--to", fields[at][0]] if "near" not in name else []
                ran = self.cut(*words)
                wanted = [f"afdxmon: cut 3 Absent at {number}\n"] if "near" not in name else [f"afdxmon: cut 3 Absent at {one + 3}\n" for one in (at, near)]
                fault = "" if ran.returncode == FAULT and ran.stderr.decode() in wanted else f"status {ran.returncode}, {ran.stderr!r}, not one of {wanted}"
                self.case(f"line {at + 3}: {name}", fault and f"{fault}; the command: {command_of(ran)}")

    def test_torn(self):
        """A ledger of a run that was stopped is taken as far as its whole lines go, and the note names the last of them."""
        text = "".join(self.flight()).encode()
        frames, whole = [frames_of(recording) for recording in self.recordings], text.split(b"\n")
        for kept in (2, 3, 30, 61, 62):
            for lost in (0, 1, 2, 20):
                held = b"\n".join(whole[:kept]) + b"\n"
                held = held[: len(held) - lost] if kept > 2 else held
                path = put(self.folder, "judged.ledger", held)
                fields = frame_lines(held[: held.rfind(b"\n") + 1])
                told = ("" if fields else f"{NO_LINE}\n") + stopped(path, held)
                self.case(f"{kept} lines, the last without {lost} bytes", difference(self.cut(), SUCCESS, told, pcap_of(packets_of(fields, *frames))))

    def test_many_routed(self):
        """The ledger's second line may be longer than a block."""
        lines = self.flight()
        lines[1] = lines[1].replace("routed -", "routed " + ",".join(map(str, range(65536))))
        put(self.folder, "judged.ledger", "".join(lines))
        fields, frames = frame_lines("".join(lines).encode()), [frames_of(recording) for recording in self.recordings]
        told = lambda text: text.startswith("afdxmon: note: ")  # noqa: E731
        self.case("each identifier is routed", difference(self.cut(), SUCCESS, told, pcap_of(packets_of(fields, *frames))))

    def test_devices(self):
        """Files that can't be opened, that are no recording, that can't be read or written."""
        lines = self.flight()
        put(self.folder, "judged.ledger", "".join(lines))
        ledger, sides = os.path.join(self.folder, "judged.ledger"), {side: os.path.join(self.folder, f"{side}.pcap") for side in ("before", "after")}
        short, gone = put(self.folder, "short", header()[:23]), os.path.join(self.folder, "gone")

        def words(**other):
            return ["cut", "--ledger", other.get("ledger", ledger), *(word for side in sides for word in (f"--{side}", other.get(side, sides[side])))]

        for side in sides:
            for path, told in ((short, f"afdxmon: cut 4 Header {side} 1 Short"), (self.folder, f"afdxmon: cut 5 Read {side}"),
                               ("/proc/self/mem", f"afdxmon: cut 5 Read {side}")):
                ran = run(words(**{side: path}), stdout=-1)
                fault = difference(ran, FAULT, told) or ("" if ran.stdout in (b"", header()) else "packets were written")
                self.case(f"--{side} {os.path.basename(path)}", fault)
        for path, told in ((gone, "afdxmon: file --ledger"), (self.folder, "afdxmon: cut 5 Read Ledger"), ("/proc/self/mem", "afdxmon: cut 5 Read Ledger")):
            self.case(f"--ledger {os.path.basename(path)}", difference(run(words(ledger=path), stdout=-1), FAULT, told))
        for flags in ((), ("--pcapng",)):
            self.case(f"a full disk {' '.join(flags)}", difference(run([*words(), *flags, "-o", "/dev/full"], stdout=-1), FAULT, "afdxmon: cut 6 Write Output", b""))


class FailingRecordings(Transit):
    """A recording that fails in mid-run: the ledger has the lines that are certain, and no part of a line."""

    def failing(self, side, count, given):
        before, after = plain_flight(count=count)
        # Every frame comes out as late as the others, so that the order is that of the frames that went in.
        after = [(at + 30 * US, data) for at, data in before]
        path = os.path.join(self.folder, f"failed_{side}_{given}.ledger")
        words, tap = self.given(PLAIN, pcap(before), pcap(after), "--grace-us", "0", "--ledger", path), FailingTap()
        words[words.index(f"--{side}") + 1] = tap.path
        child = subprocess.Popen([PROGRAM, *words], stdin=subprocess.DEVNULL, stdout=subprocess.PIPE, stderr=subprocess.PIPE)
        recorded = pcap(before if side == "before" else after)
        taken = tap.pour(recorded[: 24 + 116 * given + 30])
        rest(child)
        tap.fail()
        out, told = child.communicate(timeout=60)
        tap.close()
        ended = (child.returncode, told, out) == (FAULT, f"afdxmon: transit 3 Read {side}\n".encode(), b"") and taken
        fault = "" if ended else f"status {child.returncode}, {told!r}, {out[:80]!r}"
        lines = [f"{START + at} before {number} {data[5]} {data[-1]} regular within passed {number} {30 * US} -" for number, (at, data) in enumerate(before)]
        got = read(path).decode() if os.path.exists(path) else ""
        found = got.split("\n")[2:-1]
        # A line is certain twice the window after its frame.
        least, most = max(0, given - 25), max(0, given - 20)
        if not fault and (got and not got.endswith("\n") or found != lines[: len(found)] or not least <= len(found) <= most):
            fault = f"{len(found)} lines, not {least} to {most}, or others"
        self.case(f"--{side} fails after {given} of {count} frames", fault)

    def test_failing(self):
        for side in ("before", "after"):
            for given in (0, 1, 30, 700, 1999):
                self.failing(side, 2000, given)
