"""What `afdxmon report` tells of a flight: its findings, against the truth of what was planted.

Flights of many links get faults whose findings are known before the program runs (tests/plants.py, tests/faults.py): what must be told, of
which links, when and with how many signs. All else that is told is a false alarm (tests/truths.py). A tenth of the flights changes with
the commit. Of the environment: AFDXMON_SEED, for other flights; AFDXMON_FLIGHTS, how many flights with faults; AFDXMON_ALL, whether all
sound flights, flights seen otherwise and damaged ledgers are run.

usage: python3 -m tests.findings SEED    runs one flight or ledger again, as a failure names it, and keeps its files
"""
import concurrent.futures
import json
import os
import random
import re
import shlex
import subprocess
import sys
import tempfile

from tests import damaged, faults, plants
from tests import sender_faults as senders
from tests.harness import PROGRAM, SUCCESS, TOP, Case, run
from tests.known import FAST, FIXED
from tests.plants import Unfit, World
from tests.transit_cases import commit
from tests.truths import RANK, Told, accounting, faults_of, lines_of

ALL = bool(os.environ.get("AFDXMON_ALL"))
FLIGHTS = int(os.environ.get("AFDXMON_FLIGHTS", "1000"))
SOUND, RELATIVES, LEDGERS = (200, 200, 2000) if ALL else (60, 40, 300)
# Each fault, the families of findings that it may bring, and how often it is drawn.
DRAWN = (
    (faults.lost, "lost cut", 3), (faults.lost_on_both, "lost cut", 1), (faults.lost_on_each, "lost cut", 1),
    (faults.first_lost, "lost cut start clock", 1), (faults.last_lost, "lost cut end clock", 1),
    (faults.absent, "absent cut", 2), (faults.absent_on_both, "absent cut", 1), (faults.absent_group, "absent cut", 3),
    (faults.absent_group_on_both, "absent cut", 1), (senders.random_stops, "end", 1), (senders.random_outage, "outage", 1),
    (senders.random_pause, "outage", 1), (faults.clock_back, "end clock", 1), (faults.silence, "silence", 4),
    (faults.clock_step, "clock end", 2), (faults.clocks_step, "clock", 1), (faults.skew_step, "clock start end", 2),
    (faults.drift, "alone clock", 2), (faults.coarse, "alone", 1), (faults.recorder_late, "start", 1), (faults.recorder_ends, "end", 1),
    (faults.broken, "end", 1), (faults.no_frames, "alone", 1), (senders.outage, "outage", 3), (senders.outage_group, "outage", 2),
    (senders.restart_group, "outage reset", 2), (senders.reset, "reset", 1), (senders.reset_group, "reset", 1),
    (senders.wraps_to_zero, "reset", 1),
    (senders.stops, "end", 3), (senders.starts_late, "start", 2), (senders.stops_on, "end", 2), (senders.starts_late_on, "start", 2),
    (senders.never_on, "never", 1), (senders.never, "never", 1), (senders.rate, "rate", 2), (senders.early, "bag", 1),
    (senders.too_fast, "bag", 1),
    (senders.bunched, "bunched clock", 1), (senders.too_long, "toolong", 2), (senders.late, "late clock", 2),
    (senders.skew_moves, "late clock", 2),
    (senders.twice, "twice", 2), (senders.all_twice, "twice stuck never", 1), (senders.reordered, "reordered", 2), (senders.wrong_numbers, "stray", 2),
    (senders.strays, "stray", 1), (senders.replayed, "stray", 1), (senders.stuck, "stuck", 1), (senders.no_number, "stuck", 1),
    (senders.jump, "jump", 1),
    (senders.skipped, "jump", 1), (senders.apart, "apart clock", 1), (senders.cut, "lost absent cut", 1), (senders.runt, "runt", 1),
    (senders.oversize, "oversize", 1), (senders.foreign, "foreign", 1), (senders.unconfigured, "unconfigured", 1),
    (senders.short_pauses, "outage", 1),
)
# What the recorders do comes after what they record.
RECORDERS = (faults.recorder_late, faults.recorder_ends, faults.broken, faults.clock_back, faults.no_frames)
FAMILIES = {fault: set(families.split()) for fault, families, _ in DRAWN}


class Refused(Exception):
    """The report says that the table's accounts can't give a verdict."""


def told(table, ledger):
    """What is told of a ledger: findings, signs, what isn't accounted for, and each link's level."""
    ran = run(["report", "--config", table, "--ledger", ledger, "--json"], stdout=subprocess.PIPE)
    if re.fullmatch(rb"afdxmon: report 2 Contradiction at \d+ verdict\n", ran.stderr):
        raise Refused
    if ran.returncode != SUCCESS:
        raise AssertionError(f"report ended with {ran.returncode}: {ran.stderr!r}")
    found = json.loads(ran.stdout)
    for finding in found["findings"]:
        finding["from"], finding["to"] = int(finding["from"]), int(finding["to"])
    levels = {str(link["id"]): link["level"] for link in found["links"]}
    return Told(found["findings"], found["totals"], found["unaccounted"], levels)


def seeds_of(count):
    """The seeds of so many flights: a tenth of them changes with the commit. AFDXMON_SEED has others for all."""
    base = os.environ.get("AFDXMON_SEED")
    always, changing = base or "constant", base or commit()
    return [f"{changing if i % 10 == 9 else always}/{i}" for i in range(count)]


# ---- one flight

def drawn(chance):
    """The faults of a flight: one, or three whose findings can't be taken for each other's, in the order of their times."""
    weights = [weight for *_, weight in DRAWN]
    first = chance.choices(DRAWN, weights)[0][0]
    chosen = [first]
    while chance.random() < 0.5 and len(chosen) < 3 or len(chosen) == 2:
        if "alone" in FAMILIES[first]:
            break
        more = chance.choices(DRAWN, weights)[0][0]
        if "alone" not in FAMILIES[more] and not any(FAMILIES[more] & FAMILIES[one] for one in chosen):
            chosen.append(more)
    return sorted(chosen, key=lambda fault: ("clock" in FAMILIES[fault], FAMILIES[fault] == {"silence"}))


def zones(end, count):
    """Times of so many faults, one after the other, apart from the flight's ends."""
    width = 50 // count
    return [(end * (40 + i * width) // 100, end * (40 + (i + 1) * width - (4 if count > 1 else 0)) // 100) for i in range(count)]


def planted(seed):
    """A flight with its plants, by a seed; draws again where a fault has no place."""
    for attempt in range(60):
        chance = random.Random(f"{seed} {attempt}")
        chosen = drawn(chance)
        flight = plants.flight_of(chance)
        world = World(f"{seed} {attempt}", flight, (0, 0))
        try:
            truth = []
            for fault, zone in sorted(zip(chosen, zones(flight.end, len(chosen))), key=lambda one: one[0] in RECORDERS):
                world.zone = zone
                truth.append(fault(world))
        except Unfit:
            continue
        for plant in truth:
            plant.finish()
        return flight, truth, [fault.__name__ for fault in chosen]
    raise AssertionError(f"no flight for seed {seed}")


def judged(flight, truth, folder):
    """How what is told of a flight differs from its truth."""
    written, ran = flight.write(folder)
    if ran.returncode not in (0, 1):
        return [f"watch ended with {ran.returncode}: {ran.stderr!r}"], None
    found = told(*written)
    with open(written.ledger, encoding="ascii") as text:
        lines = lines_of(text.read())
    return faults_of(found, truth, lines), found


def again_by(seed):
    """The command that runs a flight or a ledger again."""
    return f"cd {shlex.quote(TOP)} && PROGRAM={shlex.quote(PROGRAM)} python3 -m tests.findings {shlex.quote(seed)}"


def shown(seed, truth, found, differences):
    """What was planted, what was told, and the command that runs the case again."""
    rows = [f"{one['level']} {one['kind']} {one['networks']} {one['links'][:9]} {one['signs']} {one['text']}"
            for one in (found.findings if found else [])]
    return "\n".join([f"seed {seed}", *(f"  planted: {plant.text}" for plant in truth), *(f"  differs: {it}" for it in differences[:6]),
                      *(f"  told: {row[:300]}" for row in rows[:12]), f"  again by: {again_by(seed)}"])


def flights_of(seeds):
    """Runs these flights. Of each its first fault's name, and what is wrong."""
    out = []
    with tempfile.TemporaryDirectory() as folder:
        for seed in seeds:
            flight, truth, names = planted(seed)
            try:
                differences, found = judged(flight, truth, folder)
            except Exception as error:  # a report that ends with a fault is told with its flight
                differences, found = [repr(error)], None
            out.append((names, shown(seed, truth, found, differences) if differences else ""))
    return out


def side_by_side(work, tasks):
    """The results of this work on each task, so many at once as JOBS says."""
    with concurrent.futures.ProcessPoolExecutor(int(os.environ.get("JOBS", os.cpu_count() or 1))) as pool:
        for result in pool.map(work, tasks):
            yield from result


# ---- flights whose numbers are fixed

def fixed_flight(row):
    """A flight of the table and its truth."""
    name, fault, how, *flight = row
    world = World(name, plants.even_flight(random.Random(f"flight of {name}"), **(flight[0] if flight else FAST)), (0, 0))
    world.zone = zones(world.flight.end, 1)[0]
    plant = fault(world, **how)
    plant.finish()
    return world.flight, [plant]


def fixed_case(places):
    """Runs these cases of the table. Of each its name and what is wrong."""
    out = []
    with tempfile.TemporaryDirectory() as folder:
        for place in places:
            name = FIXED[place][0]
            try:
                flight, truth = fixed_flight(FIXED[place])
                differences, found = judged(flight, truth, folder)
            except Exception as error:  # told with its name
                differences, found, truth = [repr(error)], None, []
            out.append((name, shown(f"fixed {name}", truth, found, differences) if differences else ""))
    return out


# ---- flights without a fault

def sound(seed):
    """A flight with nothing to tell: jitter at the bound, bursts, random intervals, recorders that begin and end milliseconds apart."""
    chance = random.Random(f"sound {seed}")
    flight = plants.flight_of(chance, sound=True)
    for n in "AB":
        for begin, end in ((0, chance.randrange(20 * faults.MS)), (flight.end - chance.randrange(20 * faults.MS), 2 * flight.end)):
            if chance.random() < 0.5:
                faults.hole(World(seed, flight, (0, 0)), n, begin, end)
    return flight


def sound_flights(seeds):
    """Of each of these flights its seed and what is told above info."""
    out = []
    with tempfile.TemporaryDirectory() as folder:
        for seed in seeds:
            written, _ = sound(seed).write(folder)
            found = told(*written)
            wrong = [f"{one['kind']} {one['networks']} {one['links'][:6]} {one['text']}" for one in found.findings if RANK[one["level"]]]
            wrong += accounting(found)
            wrong += [f"link {link} is {level}" for link, level in found.levels.items() if level != "clean"]
            out.append((seed, f"{again_by(f'sound {seed}')}: {wrong[:3]}" if wrong else ""))
    return out


# ---- one flight seen otherwise, and ledgers of none

def seen_otherwise(seeds):
    """Of each flight: is the same told of it at another time, with A and B exchanged, with other identifiers, and what of a part of it?"""
    out = []
    with tempfile.TemporaryDirectory() as folder:
        for seed in seeds:
            chance, wrong = random.Random(f"otherwise {seed}"), []
            whole = damaged.essence(told(*planted(seed)[0].write(folder)[0]))
            later = chance.randrange(10**15)
            for what in ("later", "exchanged", "renamed"):
                flight, new = planted(seed)[0], {}
                if what == "later":
                    damaged.moved_in_time(flight, later)
                elif what == "exchanged":
                    damaged.exchanged(flight)
                else:
                    new = {now: before for before, now in damaged.renamed(flight, chance).items()}
                found = told(*flight.write(folder)[0])
                seen = damaged.essence(found, plants.OTHER if what == "exchanged" else {}, new, -later if what == "later" else 0)
                if seen != whole:
                    wrong.append((what, [one for one in whole if one not in seen][:2], [one for one in seen if one not in whole][:2]))
            out.append((seed, f"{again_by(f'otherwise {seed}')}: {wrong}" if wrong else ""))
    return out


def damaged_ledger(seed, folder):
    """A ledger that is damaged, or a part of one, with its table, and what was done."""
    chance = random.Random(f"damaged {seed}")
    written, _ = planted(seed)[0].write(folder)
    with open(written.ledger, encoding="ascii") as text:
        lines = text.read()
    if chance.random() < 0.25:
        size = chance.randrange(len(lines))
        text, done = lines[: lines.rindex("\n", 0, max(size, 20)) + 1], ["cut off"]
    else:
        text, done = damaged.damaged(chance, lines, written.table)
    with open(written.ledger, "w", encoding="ascii") as out:
        out.write(text)
    return written, text, done


def accounts(seeds):
    """Of each of these ledgers what is wrong with its accounting."""
    out = []
    with tempfile.TemporaryDirectory() as folder:
        for seed in seeds:
            try:
                written, text, done = damaged_ledger(seed, folder)
                wrong = accounting(told(*written), lines_of(text))
            except Refused:
                # Lines are missing before an excess: the table's accounts can't give it.
                wrong = []
            except Exception as error:  # a report that ends with a fault is told with its ledger
                wrong, done = [repr(error)], []
            out.append((seed, f"{again_by(f'damaged {seed}')}: {done}: {wrong[:3]}" if wrong else ""))
    return out


def again(seed):
    """Runs one flight or ledger again, and keeps its files."""
    folder = tempfile.mkdtemp(prefix="findings_")
    kind, _, rest = seed.partition(" ")
    if kind == "damaged":
        written, text, done = damaged_ledger(rest, folder)
        return print(done, accounting(told(*written), lines_of(text)), *written)
    if kind == "otherwise":
        return print(seen_otherwise([rest]))
    rows = {f"fixed {row[0]}": row for row in FIXED}
    if kind == "sound":
        flight, truth = sound(rest), []
    else:
        flight, truth = fixed_flight(rows[seed]) if seed in rows else planted(seed)[:2]
    differences, found = judged(flight, truth, folder)
    return print(shown(seed, truth, found, differences), f"{folder}: {'FAILED' if differences else 'ok'}", sep="\n")


class Findings(Case):
    def test_fixed(self):
        """The table of flights whose numbers are fixed, each a case."""
        places = range(len(FIXED))
        for name, fault in side_by_side(fixed_case, [places[i : i + 6] for i in range(0, len(places), 6)]):
            self.case(f"findings: {name}", fault)

    def test_random(self):
        """Flights with one fault or three; the cases are by the first fault."""
        seeds, found = seeds_of(FLIGHTS), {}
        for names, fault in side_by_side(flights_of, [seeds[i : i + 20] for i in range(0, len(seeds), 20)]):
            found.setdefault(names[0], []).append(fault)
        for name in sorted(found):
            wrong = [fault for fault in found[name] if fault]
            self.case(f"findings: flights with the fault {name}", f"{len(wrong)} are wrong\n" + "\n".join(wrong[:3]) if wrong else "")

    def many(self, name, work, count, share):
        """A case of so many flights or ledgers, so many in one piece of work."""
        seeds = seeds_of(count)
        found = [fault for _, fault in side_by_side(work, [seeds[i : i + share] for i in range(0, count, share)]) if fault]
        self.case(f"findings: {count} {name}", f"{len(found)} are wrong\n" + "\n".join(found[:4]) if found else "")

    def test_apart(self):
        """Of networks that count apart it is told by how much B's numbers are greater."""
        rows = {row[0]: row for row in FIXED}
        for name, greater in (("the numbers on A are 50 greater", 205), ("the numbers on B are 80 greater", 80), ("the numbers on B are -70 greater", 185)):
            with tempfile.TemporaryDirectory() as folder:
                texts = [one["text"] for one in told(*fixed_flight(rows[name])[0].write(folder)[0]).findings if one["kind"] == "apart"]
            fits = len(texts) == 1 and f"(B's number is A's and {greater})" in texts[0]
            self.case(f"findings: {name}", "" if fits else f"{texts}")

    def test_sound(self):
        self.many("sound flights have nothing to tell", sound_flights, SOUND, 5)

    def test_seen_otherwise(self):
        self.many("flights seen otherwise are told alike", seen_otherwise, RELATIVES, 2)

    def test_damaged(self):
        self.many("damaged ledgers have an account of all signs", accounts, LEDGERS, 10)


if __name__ == "__main__":
    again(sys.argv[1])
