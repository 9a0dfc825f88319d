"""The whole answer of `transit`, as JSON and as text, beside numbers that are taken from the slow judge's ledger by definition.

The judge (tests/transit_reference.py) works on whole lists. What the answer has to say of its lines follows here from the definitions of
docs/TRANSIT.md, so that no number of the program's own is looked at.
"""
import datetime
import math
import random
from bisect import bisect
from collections import namedtuple
from itertools import groupby

from tests.harness import FAULT, SUCCESS, command_of, frame, header, record
from tests.report_transit import FAULTS, PAIRED, counts_of, difference_of, links_of, rows_of
from tests.transit import PLAIN, Transit, first_difference, options_of, pcap, plain_flight, table, with_check
from tests.transit_cases import Case, commit, random_case
from tests.transit_flights import START, transit_flight
from tests.transit_reference import Options, judge, read, rounded, table_of

US, MS, SECOND = 10**3, 10**6, 10**9
RANDOM, KEPT, COLUMNS, BARS, WIDTH, SLOWEST = 120, 100, 80, 7, 44, 5
# The ends of the rows of bars in nanoseconds: 1, 2, 5, 10 .. us.
EDGES = [one * 10**power * US for power in range(9) for one in (1, 2, 5)]


# ---- the numbers, by their definitions

def transits_of(rows):
    """The transits of pairs with the same bytes."""
    return [int(row.latency) for row in rows if row.latency != "-" and row.outcome != "changed"]


def latency_of(rows, bound):
    return of_values(transits_of(rows), bound)


def of_values(values, bound):
    """What is told of these transits. A rank is a rounded length that so many of a thousand don't exceed."""
    values = sorted(values)
    if not values:
        return None
    ranks = {f"p{name}": rounded(values[math.ceil(len(values) * share / 1000) - 1]) for name, share in ((50, 500), (99, 990), (999, 999))}
    bins = [[length, len(list(those))] for length, those in groupby(sorted(map(rounded, values)))]
    return {"count": len(values), "sum": sum(values), "mean": sum(values) // len(values), "least": values[0], **ranks,
            "greatest": values[-1], "over": sum(bound is not None and value >= 0 and value > bound for value in values),
            "negative": sum(value < 0 for value in values), "histogram": bins}


def dropped_in_a_row(rows):
    """The most dropped frames of a link between which none of it came out."""
    most = now = 0
    for row in rows:
        now = now + 1 if row.outcome == "dropped" else 0 if row.outcome in PAIRED else now
        most = max(most, now)
    return most


def link_of(rows, number, name, bound):
    ours = [row for row in rows if row.link == str(number)]
    faults = [row.time for row in ours if row.outcome in FAULTS]
    return {"id": number, "name": name, **counts_of(ours), "row": dropped_in_a_row(ours), "first": faults[0] if faults else None,
            "latency": latency_of(ours, bound)}


def kind_of(rows, word, start):
    """The frames of a fault, and the first of the seconds in which most of them stand."""
    ours = [row for row in rows if row.outcome == word]
    seconds = [(int(row.time) - start) // SECOND for row in ours]
    most = max(map(seconds.count, set(seconds)))
    return {"frames": len(ours), "links": len({row.link for row in ours}), "first": ours[0].time, "last": ours[-1].time,
            "most_in_a_second": most, "second": min(second for second in set(seconds) if seconds.count(second) == most)}


def silences_of(rows, word):
    """The first rows of 64 frames or more with this outcome, between which no frame has a partner."""
    found, current = [], []
    for row in [*rows, None]:
        if row is None or row.outcome in PAIRED:
            if len(current) >= 64:
                found.append({"from": current[0].time, "to": current[-1].time, "frames": len(current), "links": len({one.link for one in current})})
            current = []
        elif row.outcome == word:
            current.append(row)
    return found[:KEPT]


def recorded(seen, ending, path):
    times = [one.stamp for one in seen]
    word, frames = ending.split()[:2]
    return {"path": path, "frames": int(frames), "end": word, "first": str(min(times)) if times else None, "last": str(max(times)) if times else None}


def common_of(befores, afters, options):
    """The moments whose windows both recordings cover."""
    if not befores or not afters:
        return None
    ins, outs = ([one.stamp for one in seen] for seen in (befores, afters))
    first, last = max(min(ins), min(outs) + options.early), min(max(ins), max(outs) - options.within)
    return {"first": str(first), "last": str(last)} if first <= last else None


def notes_of(told):
    """How the notes on whole recordings begin."""
    found, total, latency = [], told["total"], told["latency"]
    if total["choice"]:
        found.append(f"of {counted(total['choice'], 'frame')} an equal one was in the window: which is which isn't certain.")
    if latency and latency["greatest"] * 10 > told["within_ns"] * 9:
        found.append("latencies reach the window's end.")
    if total["cut_before"] + total["cut_after"]:
        frames = counted(total["cut_before"] + total["cut_after"], "frame")
        found.append(f"{frames} cut short, not compared: as many of the dropped and the new may be none.")
    return found


# What the answer is told from: its numbers, the lines of frames, the lanes of frames without a link and of each link, and the first moment.
Known = namedtuple("Known", "told rows lanes start")


def lanes_of(links, befores, afters, options):
    """The links of the table, and then others as they are met: a frame that came out is met when it may have gone in."""
    frames = [(one.stamp, 0, one.number, one.link) for one in befores]
    frames += [(one.stamp + options.early, 1, one.number, one.link) for one in afters]
    met = [str(link) for *_, link in sorted(frames, key=lambda one: one[:3]) if link is not None]
    return list(dict.fromkeys(["-", *(str(number) for number, _ in links), *met]))


def known_of(case, paths):
    """All that the answer has but its questions and notes."""
    judged, (config, options) = judge(case.config, case.before, case.after, case.options), (table_of(case.config), case.options)
    rows, bound = rows_of(judged.lines + judged.summary), options.bound
    (befores, before_ends), (afters, after_ends) = read(config, case.before), read(config, case.after, options.shift, options.early)
    links = links_of(case.config)
    others = sorted({one.link for one in befores + afters if one.link is not None} - set(dict(links)))
    cut = {f"cut_{side}": sum(row.outcome == "-" and row.side == side for row in rows) for side in ("before", "after")}
    counts = {word: count for word, count in counts_of(rows).items() if word not in ("before", "after")}
    starts = [min(one.stamp for one in seen) for seen in (befores, afters) if seen]
    told = {
        "transit": 1, "network": None if options.network == "-" else options.network, "within_ns": options.within, "early_ns": options.early,
        "shift_ns": options.shift, "bound_ns": bound, "police": "frames" if options.frames else "bytes", "grace_ns": options.grace,
        "routed": None if options.routed is None else sorted(options.routed), "before": recorded(befores, before_ends, paths[0]),
        "after": recorded(afters, after_ends, paths[1]), "common": common_of(befores, afters, options), "total": {**counts, **cut, "choice": judged.choices},
        "latency": latency_of(rows, bound), "links": [link_of(rows, *one, bound) for one in links],
        "unlisted": [link_of(rows, one, None, bound) for one in others],
        "silences": {"before": silences_of(rows, "new"), "after": silences_of(rows, "dropped")},
        "kinds": {word: kind_of(rows, word, min(starts)) for word in FAULTS if any(row.outcome == word for row in rows)},
        "faults": [{"time": row.time, "side": row.side, "number": int(row.number), "link": number_or(row.link), "sequence": number_or(row.sequence),
                    "fault": row.outcome} for row in rows if row.outcome in FAULTS][:KEPT],
    }
    return Known(told, rows, lanes_of(links, befores, afters, options), min(starts, default=0))


def number_or(text):
    return None if text == "-" else int(text)


# ---- the text, of these numbers

def counted(count, kind):
    return f"{count} {kind}{'' if count == 1 else 's'}"


def length(nanoseconds):
    """A length of time in a unit that suits it, its last digit cut off."""
    sign, size = "-" if nanoseconds < 0 else "", abs(nanoseconds)
    if size < 10 * MS:
        return f"{sign}{size // US}.{size % US // 100} us"
    if size < SECOND:
        return f"{sign}{size // MS}.{size % MS // (MS // 10)} ms"
    return f"{sign}{size // SECOND}.{size % SECOND // MS:03} s"


def utc(time):
    """A moment as RFC 3339 has it, without zeros at its end."""
    at, part = datetime.datetime.fromtimestamp(time // SECOND, datetime.timezone.utc), f".{time % SECOND:09}".rstrip("0").rstrip(".")
    return f"{at:%Y-%m-%dT%H:%M:%S}{part}Z"


def wrapped(line, indent):
    """A line set in by blanks, in pieces of at most 80 columns; each but the first is set in by two."""
    lines = [" " * indent]
    for at, word in enumerate(line.split(" ")):
        if at and len(lines[-1]) + len(word) >= COLUMNS:
            lines.append("  " + word)
        else:
            lines[-1] += (" " if at else "") + word
    return lines


def right(known):
    """What is no fault, in one sentence."""
    total, of = known.told["total"], lambda word: counted(len({row.link for row in known.rows if row.outcome == word}), "link")
    parts = [f"{total['passed']} passed"]
    for word, text in (("refused", "refused by the rules"), ("unrouted", f"of {of('unrouted')} not come out so far"),
                       ("elsewhere", f"of {of('elsewhere')} not gone in so far")):
        parts += [f"{total[word]} {text}"] if total[word] else []
    for words, text in ((("open_before", "open_after"), "at the ends"), (("cut_before", "cut_after"), "cut short")):
        count = sum(total[word] for word in words)
        parts += [f"{count} {text}, not judged"] if count else []
    return wrapped("; ".join(parts), 2)


def faults(known):
    """The table of faults: of each kind the first, the worst second, and the link that has most; of several such that of the first lane."""
    told, names = known.told, {one["id"]: one["name"] for one in known.told["links"]}
    if not told["kinds"]:
        return ["faults: none"]
    lines = ["fault        frames        first    most in a second  links"]
    for word, kind in told["kinds"].items():
        of = [row.link for row in known.rows if row.outcome == word]
        worst = max(known.lanes, key=of.count)
        name = "no link" if worst == "-" else " ".join(filter(None, (worst, names.get(int(worst)))))
        more = f" ({of.count(worst)}) and {kind['links'] - 1} more" if kind["links"] > 1 else ""
        since = int(kind["first"]) - known.start
        lines.append(f"{word:<10}{kind['frames']:>9} {since // SECOND:>7}.{since % SECOND // 100_000:04} s {kind['most_in_a_second']:>8} at "
                     f"{kind['second']:>6} s  {name}{more}")
    return lines


def bars(values):
    """The transits as rows of bars. Where there would be more than seven, the smaller one at either end goes into its neighbour."""
    counts = [0] * (len(EDGES) + 1)
    for value in values:
        counts[bisect(EDGES, value)] += 1
    used = [at for at, count in enumerate(counts) if count]
    first, last, below, above = used[0], used[-1], used[0] == 0, used[-1] == len(EDGES)
    while last - first >= BARS:
        if counts[first] <= counts[last]:
            counts[first + 1] += counts[first]
            first, below = first + 1, True
        else:
            counts[last - 1] += counts[last]
            last, above = last - 1, True
    most, lines = max(counts[first : last + 1]), []
    for at in range(first, last + 1):
        low, high = EDGES[at - 1] // US if at else 0, EDGES[at] // US if at < len(EDGES) else 0
        head = f"   below    {high:>8} us" if at == first and below else f"{low:>9} or more  us" if at == last and above else f"{low:>8} to {high:>8} us"
        lines.append(f"{head}{counts[at]:>11} {'#' * math.ceil(counts[at] * WIDTH / most)}".rstrip(" "))
    return lines


def latencies(known, row_by):
    """The transits of all pairs, each in the row of its length or of what that is rounded to, and the five slowest links."""
    told, of = known.told, known.told["latency"]
    if of is None:
        return []
    over = "" if told["bound_ns"] is None else f"; above {length(told['bound_ns'])}: {of['over']} of {of['count']}"
    lines = [f"latency: least {length(of['least'])}, mean {length(of['mean'])}, 99 % {length(of['p99'])}, 99.9 % {length(of['p999'])},",
             f"         greatest {length(of['greatest'])}{over}", *bars(map(row_by, transits_of(known.rows)))]
    slow = [one for one in told["links"] + told["unlisted"] if one["latency"]]
    slow.sort(key=lambda one: (-one["latency"]["greatest"], known.lanes.index(str(one["id"]))))
    whole = lambda size: int(size / US)  # noqa: E731
    lines += [" link slowest                  in     out   least    mean    99 %  most us"] if slow else []
    for one in slow[:SLOWEST]:
        its = one["latency"]
        lines.append(f"{one['id']:>5} {(one['name'] or '-')[:18]:<18} {one['before']:>8}{its['count']:>8}{whole(its['least']):>8}{whole(its['mean']):>8}"
                     f"{whole(its['p99']):>8}{whole(its['greatest']):>9}")
    return lines


def text_of(known, row_by):
    """The lines of the text up to its notes and questions."""
    told = known.told
    network, common = f" of network {told['network']}" if told["network"] else "", told["common"]
    lines = [f"transit{network}: {counted(told['before']['frames'], 'frame')} in, {told['after']['frames']} out"]
    if common:
        first, last = int(common["first"]), int(common["last"])
        lines += [f"  {length(last - first)} in common, from {utc(first)}", f"  to {utc(last)}"]
    else:
        lines.append("  no common time")
    return [*lines, *right(known), *faults(known), *latencies(known, row_by)]


class Answer(Transit):
    """All of it, of whole recordings."""

    def whole(self, name, case):
        """A case: the JSON and the text of these recordings."""
        words = self.given(case.config, case.before, case.after, *options_of(case.options))
        known = known_of(case, [words[4], words[6]])
        ran, answer = self.answer(case.config, case.before, case.after, *options_of(case.options))
        asked, notes = answer.pop("questions"), answer.pop("notes")
        fault = difference_of(answer, {**known.told, "sound": not asked}, "answer")
        if not fault and ran.returncode != (FAULT if asked else SUCCESS):
            fault = f"status {ran.returncode} with {len(asked)} questions"
        is_clean = {known.told[side]["end"] for side in ("before", "after")} == {"clean"}
        if is_clean and [one.partition(" Give")[0].partition(" Record")[0] for one in notes] != notes_of(known.told):
            fault = fault or f"notes {notes}, not {notes_of(known.told)}"
        self.case(f"JSON: {name}", fault and f"{fault}; the command: {command_of(ran)}")
        ran = self.transit(case.config, case.before, case.after, *options_of(case.options))
        lines, wanted = ran.stdout.decode().split("\n"), text_of(known, int)
        if lines[: len(wanted)] != wanted:
            # Version 1.0.0 rounds a transit before it looks for its row.
            wanted = text_of(known, rounded)
        wrong = next(((got, want) for got, want in zip(lines, wanted) if got != want), None)
        fault = f"the line {wrong[0]!r}, not {wrong[1]!r}" if wrong else ""
        after = lines[len(wanted)] if len(lines) > len(wanted) else ""
        if not after.startswith(("note: ", "question: ", "sound: ")):
            fault = fault or f"the line {after!r} after the numbers"
        self.case(f"text: {name}", fault and f"{fault}; the command: {command_of(ran)}")

    def test_random(self):
        for seed in (*range(RANDOM // 2), *(f"{commit()} answer {number}" for number in range(RANDOM // 2))):
            self.whole(f"recordings {seed}", random_case(seed))

    def test_truncated(self):
        """Recordings that end within a packet, or in a wrong one: the frames before count, also in the ledger."""
        for seed in range(24):
            case, chance = random_case(seed), random.Random(seed)
            for side in ("before", "after"):
                recording = getattr(case, side)
                short = recording[: max(24, len(recording) - chance.choice((1, 9, 60, 200)))] if seed % 3 else recording + record(START, b"")[:8] + b"\xff" * 8
                one = case._replace(**{side: short})
                self.whole(f"recordings {seed}, {side} ends early", one)
                judged = judge(one.config, one.before, one.after, one.options)
                ran, ledger = self.ledger(one.config, one.before, one.after, *options_of(one.options))
                fault = first_difference(ledger, judged.lines + judged.summary)
                self.case(f"ledger: recordings {seed}, {side} ends early", fault and f"{fault}; the command: {command_of(ran)}")

    def test_planted(self):
        for seed in range(8):
            flight = transit_flight(seed)
            self.whole(f"a switch with planted faults {seed}", Case(flight.config, flight.before, flight.after, flight.options, None))

    def test_lengths(self):
        """Transits of all sizes up to the longest window, those below 0 too: a nanosecond, and each power of two and of ten with its neighbours."""
        sizes = sorted({size + step for power in range(34) for size in (2**power, 10 ** min(power, 9)) for step in (-1, 0, 1)})
        sizes = [size for size in sizes if size < 10 * SECOND] + [-size for size in sizes if size <= SECOND]
        before = [(at * MS, frame(at % 2 + 1, 100 + at // 255, at % 255 + 1)) for at in range(len(sizes))]
        after = sorted((at + 2 * SECOND + size, data) for (at, data), size in zip(before, sizes))
        before = [(at + 2 * SECOND, data) for at, data in before]
        for bound in (None, 0, MS):
            options = Options(within=10 * SECOND, early=SECOND, bound=bound)
            self.whole(f"transits of all sizes, bound {bound}", Case(PLAIN, pcap(before), pcap(after), options, None))

    def test_many_lengths(self, count=6000):
        """More lengths than any list of the program has places for: thousands of bins."""
        sizes = [int(10 * SECOND ** (index / count)) + index for index in range(count)]
        sizes = [size * (-1) ** (index % 3 == 0) if size < SECOND else size for index, size in enumerate(sizes)]
        before = [(2 * SECOND + index * MS, frame(index % 2 + 1, 100, index // 2 % 255 + 1)) for index in range(count)]
        before = [(at, data[:14] + index.to_bytes(4, "big") + data[18:]) for index, (at, data) in enumerate(before)]
        after = sorted((at + size, data) for (at, data), size in zip(before, sizes))
        words = ("--within-us", "10000000", "--early-us", "1000000", "--bound-us", "1000", "--grace-us", "0")
        ran, answer = self.answer(PLAIN, pcap(before), pcap(after), *words)
        for name, told, own in (("all", answer, sizes), ("link 1", answer["links"][0], sizes[::2]), ("link 2", answer["links"][1], sizes[1::2])):
            wanted = of_values(own, MS)
            fault = difference_of(told["latency"], wanted, "latency")
            self.case(f"{len(wanted['histogram'])} bins, {name}", fault and f"{fault}; the command: {command_of(ran)}")

    def test_silences(self):
        """63 frames in a row that the other recording lacks are no silence, and 64 are one."""
        before, after = plain_flight()
        for size in (63, 64, 65):
            for side in ("before", "after"):
                held = {"before": before, "after": after}
                held[side] = held[side][:150] + held[side][150 + size :]
                ran, answer = self.answer(PLAIN, pcap(held["before"]), pcap(held["after"]))
                lacks = {"before": after, "after": before}[side][150 : 150 + size]
                told = [{"from": str(START + lacks[0][0]), "to": str(START + lacks[-1][0]), "frames": size, "links": 2}] if size >= 64 else []
                wanted = {"before": [], "after": [], side: told}
                asked = [{key: one.get(key) for key in ("question", "from", "to", "frames", "links")} for one in answer["questions"]]
                fault = difference_of(answer["silences"], wanted, "silences")
                fault = fault or difference_of(asked, [{"question": f"silence_{side}", **one} for one in told], "questions")
                self.case(f"{size} frames that are not in {side}", fault and f"{fault}; the command: {command_of(ran)}")

    def test_many(self, rows=120, size=64):
        """More silences and more frames with a fault than the answer lists: the first hundred are, and all are counted."""
        count = rows * (size + 1)
        before, after = plain_flight(count=count)
        gone = [(at, data) for index, (at, data) in enumerate(before) if index % (size + 1) < size and 2 * (size + 1) <= index < count - size - 1]
        kept = {at for at, _ in gone}
        ran, answer = self.answer(PLAIN, pcap(before), pcap([one for one, (at, _) in zip(after, before) if at not in kept]))
        groups = [gone[first : first + size] for first in range(0, len(gone), size)]
        silences = [{"from": str(START + one[0][0]), "to": str(START + one[-1][0]), "frames": size, "links": 2} for one in groups]
        seconds = [(at - before[0][0]) // SECOND for at, _ in gone]
        most = max(map(seconds.count, set(seconds)))
        kind = {"frames": len(gone), "links": 2, "first": str(START + gone[0][0]), "last": str(START + gone[-1][0]), "most_in_a_second": most,
                "second": min(one for one in set(seconds) if seconds.count(one) == most)}
        numbers = [index for index, (at, _) in enumerate(before) if at in kept]
        listed = [{"time": str(START + at), "side": "before", "number": number, "link": data[5], "sequence": data[-1], "fault": "dropped"}
                  for number, (at, data) in zip(numbers, gone)]
        fault = difference_of(answer["silences"], {"before": [], "after": silences[:KEPT]}, "silences")
        fault = fault or difference_of(answer["kinds"], {"dropped": kind}, "kinds") or difference_of(answer["faults"], listed[:KEPT], "faults")
        # Two of these groups follow each other before a frame of the same link comes out.
        fault = fault or difference_of([one["row"] for one in answer["links"]], [size] * 2, "rows")
        self.case(f"{len(groups)} silences of {size} frames", fault and f"{fault}; the command: {command_of(ran)}")


class Drift(Transit):
    """The least transits along recordings that are longer than the program has parts of a second for."""

    STEP, NOISE = 100 * MS, 4 * MS

    def drifting(self, seconds, rate, clean):
        """A frame each tenth of a second. Where the port out isn't quiet, in all but one of four seconds, a frame takes longer."""
        chance, before, after = random.Random(seconds), [], []
        for index in range(seconds * 10):
            at = index * self.STEP + SECOND
            data = frame(index % 2 + 1, 100, index // 2 % 255 + 1)
            data = data[:14] + index.to_bytes(4, "big") + data[18:]
            late = 0 if index // 10 % 4 == clean else chance.randrange(MS, self.NOISE)
            before.append((at, data))
            after.append((at + 30 * US + late + rate(at), data))
        return pcap(before), pcap(sorted(after))

    def test_long(self):
        """A clock that drifts is asked for, whichever of its seconds are quiet; one that doesn't isn't, nor one that turns."""
        table_ = table([(1, 128, 0), (2, 128, 0)])
        for seconds in (100, 500, 600, 1100, 2300):
            for clean in range(4):
                whole = seconds * SECOND
                turns = lambda at, whole=whole: 2 * min(at, whole - at) // 10**6  # noqa: E731
                for name, rate, wanted in (("steady", lambda at: 0, None), ("2 us a second", lambda at: 2 * at // 10**6, 2000), ("turning", turns, None)):
                    ran, answer = self.answer(table_, *self.drifting(seconds, rate, clean))
                    told = [(one["question"], one.get("parts_per_billion")) for one in answer["questions"]]
                    good = not told if wanted is None else [one for one, _ in told] == ["drift"] and abs(told[0][1] - wanted) <= wanted // 20
                    name = f"{seconds} s, {name}, each fourth second from {clean} on quiet"
                    self.case(name, "" if good else f"{told}; the command: {command_of(ran)}")

    def test_least(self):
        """A drift of 10 us in all is asked for, and a smaller one isn't, either way."""
        config = table([(1, 128, 0), (2, 128, 0)])
        for micros, sign in ((8, 1), (8, -1), (13, 1), (13, -1)):
            before = [(SECOND + index * self.STEP, frame(index % 2 + 1, 100, index // 2 % 255 + 1)) for index in range(10_000)]
            after = [(at + 50 * US + sign * micros * US * (at - SECOND) // (1000 * SECOND), data) for at, data in before]
            ran, answer = self.answer(config, pcap(before), pcap(after))
            told, wanted = [one["question"] for one in answer["questions"]], ["drift"] * (micros == 13)
            self.case(f"{sign * micros} us in a thousand seconds", "" if told == wanted else f"asked {told}, not {wanted}; the command: {command_of(ran)}")


class Thresholds(Transit):
    """Each question at the number of frames from which on it is asked, and one frame below it."""

    def asked(self, name, before, after, *wanted):
        ran, answer = self.answer(PLAIN, pcap(sorted(before, key=lambda one: one[0])), pcap(sorted(after, key=lambda one: one[0])))
        told = [one["question"] for one in answer["questions"]]
        self.case(name, "" if told == list(wanted) else f"asked {told}, not {list(wanted)}; the command: {command_of(ran)}")

    def some(self, count, of=400):
        """As many places of a flight, spread over it."""
        return set(random.Random(count).sample(range(of), count))

    def edited(self, frames, places, edit):
        return [(at, edit(data)) if place in places else (at, data) for place, (at, data) in enumerate(frames)]

    def test_frames(self):
        """Frames of another network, of other links, changed, and with check sequences."""
        before, after = plain_flight()
        of_network = lambda data: b"\x02" + data[1:]  # noqa: E731
        of_link = lambda data: data[:5] + b"\x09" + data[6:]  # noqa: E731
        for name, edit, least, word in (("another constant field", of_network, 360, "constant"), ("links that the table lacks", of_link, 201, "other_table")):
            for count in (least - 1, least):
                some = self.some(count)
                self.asked(f"{count} of 400 frames of {name}", self.edited(before, some, edit), self.edited(after, some, edit), *[word] * (count == least))
        at_byte = lambda place: lambda data: data[:place] + b"\x40" + data[place + 1 :]  # noqa: E731
        for count in (200, 201):
            self.asked(f"{count} of 400 frames are changed", before, self.edited(after, self.some(count), at_byte(20)), *["rewritten"] * (count == 201))
        for count in (269, 270):
            some = sorted(self.some(300))
            changed = self.edited(self.edited(after, some[:count], at_byte(11)), some[count:], at_byte(20))
            self.asked(f"{count} of 300 changed frames differ in byte 11", before, changed, "two_networks" if count == 270 else "rewritten")
        for count in (57, 58):
            some = self.some(count, 64) | set(range(64, 400))
            both = (self.edited(frames, some, with_check) for frames in (before, after))
            self.asked(f"{count} of the first 64 frames have a check sequence", *both, *("check_sequence_before", "check_sequence_after") * (count == 58))

    def test_parts(self):
        """Frames that are recorded in part: more than one in a hundred."""
        before, after = plain_flight()
        for side in ("before", "after"):
            for count in (4, 5):
                held = {"before": before, "after": after}
                files = {name: pcap(frames) for name, frames in held.items()}
                files[side] = header() + b"".join(record(START + at, data[:60] if place in self.some(count) else data, original=len(data))
                                                  for place, (at, data) in enumerate(held[side]))
                ran, answer = self.answer(PLAIN, files["before"], files["after"])
                told, wanted = [one["question"] for one in answer["questions"]], [f"cut_{side}"] * (count == 5)
                self.case(f"{count} of 400 frames of {side} are cut", "" if told == wanted else f"asked {told}, not {wanted}; the command: {command_of(ran)}")

    def test_copies(self):
        """Frames that went in or came out twice: more than a quarter."""
        before, after = plain_flight()
        for count in (133, 134):
            again = [[(at + 10 * US, data) for place, (at, data) in enumerate(frames) if place in self.some(count)] for frames in (before, after)]
            self.asked(f"{count} frames went in twice, of {400 + count}", before + again[0], after + again[1], *["twice_before"] * (count == 134))
            self.asked(f"{count} frames came out twice, of {400 + count}", before, after + again[1], *["twice_after"] * (count == 134))

    def test_clocks(self):
        """One frame that comes out before it went in, and one that takes a nanosecond where all others take none."""
        before, after = plain_flight()
        early = [(at - 300 * US if place == 200 else at, data) for place, (at, data) in enumerate(after)]
        self.asked("no frame comes out early", before, after)
        self.asked("one frame comes out early", before, early, "clocks")
        self.asked("all latencies are 0", before, before, "same_recording")
        self.asked("one latency is a nanosecond", before, [(at + (place == 200), data) for place, (at, data) in enumerate(before)])

    def test_window(self):
        """64 frames in a row that came out too late, and 63: in a pause, so that no other frame comes between them."""
        before, after = ([(at + (500 * MS if place >= 300 else 0), data) for place, (at, data) in enumerate(frames)] for frames in plain_flight())
        for size in (63, 64):
            slow = [(at + 250 * MS if 150 <= place < 150 + size else at, data) for place, (at, data) in enumerate(after)]
            self.asked(f"{size} frames come out after the window", before, slow, *["window"] * (size == 64))
