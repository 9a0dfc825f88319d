"""`cut` by a ledger of transits: both frames of each line that is taken, byte by byte.

What has to be written follows here from the ledger's text and the recordings, by whole lists: each line that meets the options takes
its own frame, and its partner. The program finds them in one pass.
"""
import os
import struct

from tests.annotated import head, packet
from tests.cut import nearby
from tests.harness import FAULT, SUCCESS, USAGE, Case, difference, header, put, read, record, run
from tests.transit import Transit, options_of, pcap, table
from tests.transit_flights import BOUND, START, transit_flight

US, SECOND = 10**3, 10**9
FAULTS = ("slow", "overtaken", "changed", "lax", "leak", "dropped", "twice", "new")
CUT_WORDS = {"-": "recorded in part"}
NO_LINE = "afdxmon: note: no line is selected"
OUTCOMES = ("passed", *FAULTS[:5], "dropped", "refused", "unrouted", "open", "twice", "new", "elsewhere")


def frames_of(recording, shift=0):
    """The frames of a pcap file of nanoseconds: (stamp, size on the wire, bytes)."""
    frames, at = [], 24
    while at < len(recording):
        seconds, nanos, kept, whole = struct.unpack_from("<IIII", recording, at)
        frames.append((seconds * SECOND + nanos + shift, whole, recording[at + 16 : at + 16 + kept]))
        at += 16 + kept
    return frames


def frame_lines(ledger):
    return [line.split(" ") for line in ledger.decode().split("\n") if line[:1].isdigit()]


def comment_of(fields, names):
    """What a line says, in words."""
    _, _, _, link, sequence, _, _, outcome, _, latency, differs = fields
    name = names.get(link)
    address = "" if link == "-" else f"VL {link}{' ' + name if name else ''} SN {sequence}: "
    where = "" if differs == "-" else f" at byte {differs}"
    size = abs(int(latency)) if latency != "-" else 0
    after = "" if latency == "-" else f" after {'-' if latency[0] == '-' else ''}{size // 1000}.{size % 1000 // 100} us"
    return f"{address}{CUT_WORDS.get(outcome, outcome)}{where}{after} (transit)"


def packets_of(lines, before, after, sides=(0, 1)):
    """The packets that lines take, in the order of the ledger's clock: (interface, stamp, size, bytes, line)."""
    taken = []
    for fields in lines:
        side, number, other = fields[1], int(fields[2]), fields[8]
        own = 0 if side == "before" else 1
        taken.append((own, number, fields))
        if other != "-":
            taken.append((1, int(other), fields))
    recordings = (before, after)
    found = [(*recordings[side][number], side, number, fields) for side, number, fields in taken if side in sides]
    return sorted(((stamp, side, number, whole, data, fields) for stamp, whole, data, side, number, fields in found),
                  key=lambda one: one[:3])


def pcapng_of(packets, names):
    return head(b"before", b"after") + b"".join(
        packet(side, stamp, whole, data, comment_of(fields, names)) for stamp, side, _, whole, data, fields in packets)


def pcap_of(packets):
    return header() + b"".join(record(stamp, data, original=whole) for stamp, _, _, whole, data, _ in packets)


class TransitCut(Transit):
    """A flight over a model switch, and cuts of its ledger."""

    def flight(self, seed=7, *more):
        self.given_flight = flight = transit_flight(seed)
        ran, self.text = self.ledger(flight.config, flight.before, flight.after, "--bound-us", str(BOUND // US), *more)
        self.assertIn(ran.returncode, (SUCCESS, FAULT))
        self.path = put(self.folder, "flight.ledger", self.text)
        self.before, self.after = (os.path.join(self.folder, name) for name in ("before.pcap", "after.pcap"))
        return flight

    def cut(self, *more, ledger=None, before=None, after=None):
        words = ["cut", "--ledger", ledger or self.path, "--before", before or self.before, "--after", after or self.after]
        return run([*words, *more], stdout=-1)

    def frames(self, shift=0):
        return frames_of(self.given_flight.before), frames_of(self.given_flight.after, shift)

    def test_each_outcome(self):
        """What each word takes, as pcap and as pcapng with the names of a table."""
        flight = self.flight()
        config = put(self.folder, "table.toml", flight.config)
        names = {str(number): name for number, name in names_in(flight.config)}
        lines, (before, after) = frame_lines(self.text), self.frames()
        for word in (*OUTCOMES, "faults", "dropped,lax"):
            words = FAULTS if word == "faults" else word.split(",")
            packets = packets_of([fields for fields in lines if fields[7] in words], before, after)
            told = "" if packets else NO_LINE
            self.judge(f"--verdict {word}", self.cut("--verdict", word), SUCCESS, told, pcap_of(packets))
            ran = self.cut("--verdict", word, "--pcapng", "--config", config)
            self.judge(f"--verdict {word} --pcapng", ran, SUCCESS, told, pcapng_of(packets, names))
        self.judge("all", self.cut(), SUCCESS, "", pcap_of(packets_of(lines, before, after)))
        self.judge("without a table", self.cut("--verdict", "faults", "--pcapng"), SUCCESS, "",
                   pcapng_of(packets_of([fields for fields in lines if fields[7] in FAULTS], before, after), {}))

    def test_links_and_times(self):
        self.flight(8)
        lines, (before, after) = frame_lines(self.text), self.frames()
        first = int(lines[0][0])
        middle = int(lines[len(lines) // 2][0])
        for name, options, takes in (
            ("a link", ("--link", "2"), lambda fields: fields[3] == "2"),
            ("links", ("--link", "1-3"), lambda fields: fields[3] in "123" and fields[3] != "-"),
            ("from a moment on", ("--from", str(middle)), lambda fields: int(fields[0]) >= middle),
            ("to a moment", ("--to", str(middle)), lambda fields: int(fields[0]) <= middle),
            ("past it", ("--from", str(middle + 1)), lambda fields: int(fields[0]) > middle),
            ("a span", ("--from", "+0.1", "--span", "100ms"), lambda fields: 10**8 <= int(fields[0]) - first <= 2 * 10**8),
            ("dropped of a link", ("--link", "1-5", "--verdict", "dropped"), lambda fields: fields[7] == "dropped"),
        ):
            packets = packets_of([fields for fields in lines if takes(fields)], before, after)
            self.judge(name, self.cut(*options), SUCCESS, "" if packets else NO_LINE, pcap_of(packets))

    def test_around(self):
        """Lines near those that are selected, by link, as often as the options say."""
        for seed in (8, 18):
            self.flight(seed)
            lines, (before, after) = frame_lines(self.text), self.frames()
            links, middle = [fields[3] for fields in lines], lines[len(lines) // 2][0]
            for name, options, takes in (
                ("faults", ("--verdict", "faults"), lambda fields: fields[7] in FAULTS),
                ("dropped", ("--verdict", "dropped"), lambda fields: fields[7] == "dropped"),
                ("not in the table", ("--verdict", "unrouted,elsewhere"), lambda fields: fields[7] in ("unrouted", "elsewhere")),
                ("a link to a moment", ("--link", "2", "--to", middle), lambda fields: fields[3] == "2" and int(fields[0]) <= int(middle)),
                ("all", (), lambda fields: True),
                ("none", ("--link", "65535"), lambda fields: False),
            ):
                for around in (0, 1, 2, 3, 65535):
                    near = nearby(links, [takes(fields) for fields in lines], min(around, len(lines)))
                    packets = packets_of([fields for fields, one in zip(lines, near) if one], before, after)
                    self.judge(f"{name}, --around {around}", self.cut(*options, "--around", str(around)), SUCCESS,
                               "" if packets else NO_LINE, pcap_of(packets))
        words = ["cut", "--ledger", "-", "--before", self.before, "--after", self.after, "--around", "1"]
        self.judge("--around by a pipe", run(words, stdout=-1, input=self.text), FAULT, "afdxmon: cut 8 Selection around at 0", b"")
        for text in ("65536", "-1", ""):
            self.case(f"--around {text!r}", difference(self.cut(f"--around={text}"), USAGE, lambda told: "--around" in told, b""))

    def test_around_in_torn_ledgers(self):
        """Each ledger is read as far as it goes, or to its first wrong line."""
        self.flight(19)
        lines, (before, after) = self.text.split(b"\n"), self.frames()
        for kept in range(2, 12):
            text = b"\n".join(lines[:kept]) + b"\n"
            fields = frame_lines(text)
            near = nearby([one[3] for one in fields], [one[7] in FAULTS for one in fields], 2)
            ran = self.cut("--verdict", "faults", "--around", "2", ledger=put(self.folder, "torn.ledger", text))
            taken = pcap_of(packets_of([one for one, is_near in zip(fields, near) if is_near], before, after))
            self.case(f"{kept} lines", difference(ran, SUCCESS, lambda told: "afdxmon: note: " in told, taken))
            damaged = put(self.folder, "damaged.ledger", text + b"odd\n")
            ran = self.cut("--verdict", "faults", "--around", "2", ledger=damaged)
            self.case(f"a wrong line after {kept}", difference(ran, FAULT, lambda told, at=kept + 1: f"cut 1 Ledger at {at} " in told, b""))

    def test_one_recording(self):
        """A recording that isn't given has no frames in the capture."""
        self.flight(9)
        lines, (before, after) = frame_lines(self.text), self.frames()
        taken = [fields for fields in lines if fields[7] in FAULTS]
        for side, path, option in ((0, self.before, "--before"), (1, self.after, "--after")):
            ran = run(["cut", "--ledger", self.path, option, path, "--verdict", "faults"], stdout=-1)
            self.judge(f"{option} alone", ran, SUCCESS, "", pcap_of(packets_of(taken, before, after, (side,))))

    def test_shifted(self):
        """Timestamps of the port out are by the clock of the port in."""
        for shift in (70_000, -70_000, 2 * SECOND, -2 * SECOND):
            flight = self.flight(10)
            moved = header() + b"".join(record(stamp - shift, data, original=whole) for stamp, whole, data in frames_of(flight.after))
            ran, text = self.ledger(flight.config, flight.before, moved, "--bound-us", str(BOUND // US), "--shift-ns", str(shift))
            ledger = put(self.folder, "shifted.ledger", text)
            before, after = frames_of(flight.before), frames_of(moved, shift)
            taken = [fields for fields in frame_lines(text) if fields[7] in FAULTS]
            ran = self.cut("--verdict", "faults", ledger=ledger)
            self.judge(f"shifted by {shift} ns", ran, SUCCESS, "", pcap_of(packets_of(taken, before, after)))

    def test_several_files(self):
        """Recordings in two files each."""
        flight = self.flight(11)
        paths = {}
        for name, data in (("before", flight.before), ("after", flight.after)):
            frames = frames_of(data)
            half = len(frames) // 2
            for part, some in (("1", frames[:half]), ("2", frames[half:])):
                paths[name + part] = put(self.folder, f"{name}{part}.pcap", header() + b"".join(
                    record(stamp, bytes_, original=whole) for stamp, whole, bytes_ in some))
        ran = run(["cut", "--ledger", self.path, "--before", f"{paths['before1']},{paths['before2']}",
                   "--after", f"{paths['after1']},{paths['after2']}", "--verdict", "faults"], stdout=-1)
        if ran.returncode == FAULT:
            lists = [put(self.folder, f"{name}.list", f"{paths[name + '1']}\n{paths[name + '2']}\n") for name in ("before", "after")]
            ran = run(["cut", "--ledger", self.path, "--before", f"@{lists[0]}", "--after", f"@{lists[1]}", "--verdict", "faults"],
                      stdout=-1)
        taken = [fields for fields in frame_lines(self.text) if fields[7] in FAULTS]
        self.judge("two files each", ran, SUCCESS, "", pcap_of(packets_of(taken, *self.frames())))

    def test_pipe(self):
        """The ledger on standard input."""
        self.flight(12)
        taken = [fields for fields in frame_lines(self.text) if fields[7] in FAULTS]
        words = ["cut", "--ledger", "-", "--before", self.before, "--after", self.after, "--verdict", "faults"]
        ran = run(words, stdout=-1, input=self.text)
        self.judge("a pipe", ran, SUCCESS, "", pcap_of(packets_of(taken, *self.frames())))

    def test_other_recordings(self):
        """Recordings of another flight: the first line whose frame isn't there is named."""
        self.flight(13)
        other = put(self.folder, "other.pcap", transit_flight(14).before)
        lines = self.text.decode().split("\n")
        first = next(number for number, line in enumerate(lines, 1) if line[:1].isdigit())
        self.judge("another recording", self.cut(before=other), FAULT, f"afdxmon: cut 3 Absent at {first}")
        short = put(self.folder, "short.pcap", self.given_flight.after[:24])
        ran = self.cut("--verdict", "passed", after=short)
        first = next(number for number, line in enumerate(lines, 1) if line[:1].isdigit() and line.split(" ")[7] == "passed")
        self.judge("no frame came out", ran, FAULT, f"afdxmon: cut 3 Absent at {first}")

    def test_damaged_ledgers(self):
        """Each line that can't stand where it does, by its number and what is wrong there."""
        self.flight(15)
        lines = self.text.decode().split("\n")
        at = next(number for number, line in enumerate(lines) if line[:1].isdigit() and line.split(" ")[7] == "changed")
        fields = lines[at].split(" ")

        def changed(place, text):
            return lines[:at] + [" ".join(fields[:place] + [text] + fields[place + 1 :])] + lines[at + 1 :]

        cases = [("no head", ["afdx-ledger 2"] + lines[1:], 1, "head"), ("no second line", lines[:1] + lines[2:], 2, "run")]
        for place, (text, word) in enumerate((("x", "time"), ("A", "side"), ("-1", "number"), ("65536", "link"), ("256", "sequence"),
                                             ("odd", "class"), ("outside", "policing"), ("lost", "outcome"), ("-", "other"),
                                             ("1.5", "latency"), ("-", "differs"))):
            cases.append((f"field {place + 1}", changed(place, text), at + 1, word))
        cases.append(("a field more", lines[:at] + [lines[at] + " 1"] + lines[at + 1 :], at + 1, "fields"))
        cases.append(("an earlier time", lines[: at + 1] + [" ".join(["0"] + fields[1:])] + lines[at + 1 :], at + 2, "order"))
        end = next(number for number, line in enumerate(lines) if line.startswith("link "))
        cases.append(("a frame after counts", lines[: end + 1] + [lines[end - 1]] + lines[end + 1 :], end + 2, "order"))
        cases.append(("a long line", lines[:at] + ["1" * 70_000] + lines[at:], at + 1, "long"))
        for name, changed_lines, number, word in cases:
            ledger = put(self.folder, "damaged.ledger", "\n".join(changed_lines))
            self.judge(name, self.cut("--verdict", "new", ledger=ledger), FAULT, f"afdxmon: cut 1 Ledger at {number} {word}")

    def test_incomplete(self):
        """A ledger of a run that was stopped is taken as far as it goes."""
        self.flight(16)
        lines, (before, after) = frame_lines(self.text), self.frames()
        text = b"\n".join(self.text.split(b"\n")[: 2 + len(lines) // 2]) + b"\n"
        ledger = put(self.folder, "stopped.ledger", text)
        ran = self.cut(ledger=ledger)
        told = f"afdxmon: note: the ledger has no line total after line {text.count(10)}"
        self.case("stopped", difference(ran, SUCCESS, lambda text: text.startswith("afdxmon: note: "),
                                        pcap_of(packets_of(frame_lines(text), before, after))) and f"{ran.stderr!r}, as {told}")

    def test_bad_use(self):
        self.flight(17)
        of_watch = "--a, --b, --network, --filters and --ledger-only are for ledgers of watch"
        for name, options, text in (
            ("--a", ("--a", self.before), of_watch), ("--network", ("--network", "A"), of_watch),
            ("--filters", ("--filters", "1"), of_watch),
            ("--ledger-only", ("--ledger-only",), of_watch),
            ("two ends", ("--to", "+1", "--span", "1s"), "--to and --span both end the span of time"),
        ):
            ran = self.cut(*options)
            self.case(name, difference(ran, USAGE, lambda told, text=text: text in told, b""))
        for name, options, told in (
            ("a word that is none", ("--verdict", "dropped,within"), "afdxmon: cut 8 Selection verdict at 1"),
            ("a link that is none", ("--link", "1,x"), "afdxmon: cut 8 Selection link at 1"),
        ):
            self.judge(name, self.cut(*options), FAULT, told, b"")
        self.judge("an output that is an input", self.cut("-o", self.before), FAULT, "afdxmon: file --output", b"")


def names_in(config):
    """The links of a table: (number, name)."""
    number = None
    for line in config.split("\n"):
        key, _, value = line.partition(" = ")
        if key == "id":
            number = int(value)
        elif key == "name" and number is not None:
            yield number, value.strip('"')
