"""What must be told of a flight whose faults are known, what may be told, and how what was told differs from that.

A plant says what must be told by `Wanted`, what may be told beside it, how many signs of each word it brings, and which links it touches.
All else above the level "info" is a false alarm, each link that isn't touched must be clean, and no other sign may be counted.
"""
from collections import Counter, namedtuple

RANK = {"clean": 0, "info": 0, "notice": 1, "trouble": 2, "silent": 3}
# Signs that each line of the ledger says by itself.
OF_LINES = ("cut", "runt", "oversize", "foreign", "unconfigured", "toolong", "excess", "out", "reset")
# Signs that depend on the rules of policing or on who came first, so a plant says at most how many there may be.
Told = namedtuple("Told", "findings signs unaccounted levels")


class Wanted:
    """A finding, or several of the same kinds, that must be told: of these links, with so many signs, beginning and ending so."""

    def __init__(self, kinds, networks, links=(), *, start=None, end=None, count=None, signs=None, single=False, level=None):
        self.kinds = {kinds} if isinstance(kinds, str) else set(kinds)
        self.networks = {networks} if isinstance(networks, str) else set(networks)
        self.links, self.start, self.end = frozenset(links), start, end
        self.count, self.signs, self.single, self.level = count, signs or {}, single, level

    def __repr__(self):
        links = f" of {sorted(self.links)}" if self.links else ""
        return f"{' or '.join(sorted(self.kinds))} on {' or '.join(sorted(self.networks))}{links}, signs {self.signs}"


class Plant:
    """A planted fault and its truth."""

    def __init__(self, text):
        self.text, self.wanted, self.may, self.signs, self.links = text, [], [], Counter(), set()
        self.least, self.finish = Counter(), lambda: None

    def want(self, *given, **more):
        """Adds a finding that must be told."""
        self.wanted.append(Wanted(*given, **more))
        self.links |= self.wanted[-1].links
        return self

    def allow(self, kinds, links=None, levels=None):
        """Findings that may be told beside: a ledger leaves it open, or they are true as well."""
        self.may.append(({kinds} if isinstance(kinds, str) else set(kinds), None if links is None else set(links), levels))
        self.links |= set(links or ())
        return self

    def count(self, word, least, most=None):
        """So many signs of this word are planted."""
        self.least[word] += least
        self.signs[word] += least if most is None else most
        return self


def bounds(number):
    """A number as bounds."""
    return number if isinstance(number, tuple) else (number, number)


def within(number, wanted):
    """Whether a number is the wanted one, or lies in the bounds."""
    low, high = bounds(wanted)
    return low <= number <= high


def sum_of(findings, word):
    """How many signs of a word these findings have."""
    return sum(one["signs"].get(word, 0) for one in findings)


def matching(told, wanted):
    """The findings that may be the one that is wanted."""
    rows = [one for one in told.findings if one["kind"] in wanted.kinds and one["networks"] in wanted.networks]
    return [one for one in rows if not wanted.links or wanted.links & set(one["links"])]


def differs(wanted, rows, others, shared):
    """How the findings that match a wanted one differ from it. `others`: links that other plants touch; `shared`: may they have more?"""
    if not rows:
        return [f"isn't told: {wanted}"]
    faults, links = [], set().union(*(one["links"] for one in rows))
    if wanted.links and not wanted.links <= links <= wanted.links | others:
        faults.append(f"told of links {sorted(links)}: {wanted}")
    if shared:
        # another plant may have signs in the same finding: these are among them
        few = [word for word, number in wanted.signs.items() if sum_of(rows, word) < bounds(number)[0]]
        return faults + [f"has {sum_of(rows, word)} signs {word}: {wanted}" for word in few]
    if wanted.single and len(rows) != 1:
        faults.append(f"told {len(rows)} times: {wanted}")
    if wanted.start and not within(min(one["from"] for one in rows), wanted.start):
        faults.append(f"begins at {min(one['from'] for one in rows)}, not in {wanted.start}: {wanted}")
    if wanted.end and not within(max(one["to"] for one in rows), wanted.end):
        faults.append(f"ends at {max(one['to'] for one in rows)}, not in {wanted.end}: {wanted}")
    if wanted.count is not None and not within(sum(one["count"] for one in rows), wanted.count):
        faults.append(f"counts {sum(one['count'] for one in rows)}, not {wanted.count}: {wanted}")
    if wanted.level and any(one["level"] != wanted.level for one in rows):
        faults.append(f"has level {rows[0]['level']}, not {wanted.level}: {wanted}")
    for word, number in wanted.signs.items():
        if not within(sum_of(rows, word), number):
            faults.append(f"has {sum_of(rows, word)} signs {word}, not {number}: {wanted}")
    return faults


def allowed(one, plants):
    """Whether a plant lets this finding be told beside what must be."""
    for plant in plants:
        for kinds, links, levels in plant.may:
            if one["kind"] in kinds and (links is None or set(one["links"]) <= plant.links) and (levels is None or one["level"] in levels):
                return True
    return False


def false_alarms(told, plants):
    """Findings above info that nothing planted is the cause of."""
    wanted = {id(one) for plant in plants for want in plant.wanted for one in matching(told, want)}
    for one in told.findings:
        if RANK[one["level"]] and id(one) not in wanted and not allowed(one, plants):
            yield f"false alarm: {one['level']} {one['kind']} {one['networks']} {one['links'][:8]}: {one['text']}"


def accounting(told, lines=None):
    """Each sign is in one finding, each link has the highest level of the findings that name it; signs of lines are those of the lines."""
    faults, sums, levels = [], Counter(), dict.fromkeys(told.levels, "clean")
    if told.unaccounted:
        faults.append(f"unaccounted: {told.unaccounted}")
    for one in told.findings:
        sums.update(one["signs"])
        for link in map(str, one["links"]):
            if RANK[one["level"]] > RANK[levels.get(link, "silent")]:
                levels[link] = one["level"]
    if {word: n for word, n in sums.items() if n} != {word: n for word, n in told.signs.items() if n}:
        faults.append(f"the signs of findings are {dict(sums)}, in all {told.signs}")
    if levels != told.levels:
        faults.append(f"levels are {told.levels}, by the findings {levels}")
    faults += [f"{n} signs {word}" for word, n in told.signs.items() if n < 0]
    faults += [f"a finding counts 0: {one['text']}" for one in told.findings if not one["count"]]
    for word, number in (lines or {}).items():
        if told.signs.get(word, 0) != number:
            faults.append(f"{told.signs.get(word, 0)} signs {word}, but {number} lines of the ledger")
    return faults


def lines_of(ledger):
    """How many lines of a ledger say each sign by themselves."""
    found = {f"{word}.{n}": 0 for word in OF_LINES for n in "AB"}
    for line in ledger.splitlines():
        field = line.split()
        if len(field) == 11 and field[0].isdigit():
            said = next((word for word in (field[5], field[6], field[7]) if word in OF_LINES), None)
            if said:
                found[f"{said}.{field[1]}"] += 1
    return found


def totals(told, plants):
    """Signs that nothing planted is the cause of, or too few of them."""
    for word in sorted(set(told.signs) | set().union(*(plant.signs for plant in plants))):
        base, number = word.split(".")[0], told.signs.get(word, 0)
        least, most = sum(plant.least[word] for plant in plants), sum(plant.signs[word] for plant in plants)
        if base in OF_LINES or base in ("unrecorded", "no frames"):
            continue
        if not least <= number <= most:
            yield f"{number} signs {word} in all, planted {least if least == most else (least, most)}"


def faults_of(told, plants, lines=None):
    """All that differs between what was told and what must be told of these plants."""
    faults = accounting(told, lines)
    for plant in plants:
        others = set().union(*(other.links for other in plants if other is not plant))
        for wanted in plant.wanted:
            shared = any(kinds & wanted.kinds and links for other in plants if other is not plant for kinds, links, _ in other.may)
            faults += differs(wanted, matching(told, wanted), others, shared)
    faults += false_alarms(told, plants)
    faults += totals(told, plants)
    touched = {str(link) for plant in plants for link in plant.links}
    faults += [f"link {link} is {level}" for link, level in told.levels.items() if level != "clean" and link not in touched]
    return faults
