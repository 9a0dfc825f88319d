"""The module examples/ledger.py: what it reads of ledgers, beside a slow reader of their lines."""
import json
import os
import subprocess
from collections import Counter, defaultdict

from tests.guide import DEBIAN_PYTHON, has_pandas
from tests.harness import TOP, Case, put, run
from tests.path_flights import SWITCHES, path_flight

FLIGHT = os.path.join(TOP, "examples")
# What the module finds, as JSON: each in words that the slow reader has too.
SCRIPT = """
import json, sys, pandas, ledger
path, table = sys.argv[1:]
frames = ledger.read(path)
def rows(frames):
    given = frames.astype({"time": "int64"}).astype(object)
    return given.where(given.notna(), None).values.tolist()
skew, intervals = ledger.skew(frames), ledger.intervals(frames)
found = {
    "rows": rows(frames),
    "in parts": [row for part in ledger.parts(path, 700) for row in rows(part)],
    "types": [str(kind) for kind in frames.dtypes],
    "totals": ledger.totals(path).to_dict(),
    "links": ledger.links(path).reset_index().values.tolist(),
    "excess": [[time.value, link, count] for (time, link), count in ledger.excess(frames, "1s").items()],
    "least": {str(link): int(it.value) for link, it in intervals.groupby("link")["interval"].min().items()},
    "skew": {str(link): [int(it.max().value), len(it)] for link, it in skew.groupby("link")["skew"]},
    "kbit": ledger.bandwidth(frames, "60s").sum().sum(),
    "table": ledger.table(table)["bag_ms"].to_dict(),
    "same": float(ledger.compared(path, path)["grew"].abs().sum().sum()),
}
ledger.draw_intervals(frames, table, path + ".intervals.png")
ledger.draw_skew(frames, path + ".skew.png")
print(json.dumps(found, default=int))
"""


# The same of the ledgers of a path's switches.
OF_PATH = """
import json, sys, pandas, ledger
def rows(frames):
    given = frames.astype({"time": "int64"}).astype(object)
    return given.where(given.notna(), None).values.tolist()
lines = ledger.transits(sys.argv[1])
of_links = ledger.latencies(lines)[["count", "min", "mean", "max"]]
found = {
    "transits": rows(lines),
    "types": [str(kind) for kind in lines.dtypes],
    "latencies": of_links.reset_index().values.tolist(),
    "joined": rows(ledger.joined(*sys.argv[1:])),
}
print(json.dumps(found, default=int))
"""


def lines_of(path):
    with open(path, encoding="ascii") as text:
        return [line.split() for line in text.read().splitlines()[1:]]


def slowly(path):
    """The same by loops over the lines."""
    frames = [[int(w[0]), w[1], int(w[2]), *w[3:10], int(w[10], 16), *map(int, w[11:])] for w in lines_of(path) if w[0].isdigit()]
    rows = [[None if it == "-" else int(it) if at in (3, 4, 9) else it for at, it in enumerate(row)] for row in frames]
    excess, least, last, delivered, skews = Counter(), {}, {}, {}, defaultdict(list)
    for time, network, _, link, sequence, kind, policing, _, redundancy, *_ in rows:
        if policing == "excess":
            excess[time // 10**9 * 10**9, link] += 1
        if kind == "regular":
            if (link, network) in last:
                least[str(link)] = min(time - last[link, network], least.get(str(link), 10**20))
            last[link, network] = time
        if redundancy == "deliver":
            delivered[link, sequence] = time
        elif redundancy == "copy":
            skews[str(link)].append(time - delivered[link, sequence])
    counts = [w for w in lines_of(path) if w[0] == "link"]
    total = lines_of(path)[-1][1:]
    return {
        "rows": rows,
        "in parts": rows,
        "types": ["datetime64[ns, UTC]", "category", "int64", "Int32", "UInt8", *["category"] * 4, "Int32", "uint8", *["int64"] * (len(rows[0]) - 11)],
        "totals": dict(zip(total[::2], map(int, total[1::2]))),
        "links": [[int(w[1]), w[2], *map(int, w[4::2])] for w in counts],
        "excess": [[time, link, count] for (time, link), count in sorted(excess.items())],
        "least": least,
        "skew": {link: [max(found), len(found)] for link, found in skews.items()},
        "kbit": 8 * sum(row[-1] if row[11:] else row[9] or 0 for row in rows if row[3] is not None) / 60_000,
    }


def of_latencies(some):
    return len(some), min(some), sum(some) / len(some), max(some)


def path_slowly(first, rows):
    """The same by the lines of the first ledger, and by the rows of the model that sent the frames."""
    lines, latencies = [], defaultdict(list)
    for words in lines_of(first):
        if words[0].isdigit():
            numbers = (0, 2, 3, 4, 8, 9, 10)
            words = [None if it == "-" else int(it) if at in numbers else it for at, it in enumerate(words)]
            lines.append(words)
            latencies[words[3]] += [words[9]] if words[9] is not None else []
    came = [(row[0], row[1], row[3], *row[-1 - SWITCHES :]) for row in rows if row[4] == "came"]
    types = ["datetime64[ns, UTC]", "category", "int64", "Int32", "UInt8", *["category"] * 3]
    return {
        "transits": lines,
        "types": [*types, "Int64", "Int64", "Int32"],
        "latencies": [[link, *of_latencies(some)] for link, some in sorted(latencies.items()) if some],
        "joined": [list(map(int, words)) for words in came],
    }


def found_in(*words, script=SCRIPT):
    environment = {**os.environ, "PYTHONPATH": os.pathsep.join([FLIGHT, os.environ.get("PYTHONPATH", "")])}
    command = [DEBIAN_PYTHON, "-c", script, *words]
    ran = subprocess.run(command, capture_output=True, env=environment, text=True)
    return json.loads(ran.stdout) if ran.returncode == 0 else ran.stderr[-500:]


class Dataframes(Case):
    more = ()

    def setUp(self):
        if not has_pandas():
            self.skipTest("no pandas and matplotlib here")
        self.ledger = os.path.join(self.folder, "flight.ledger")
        taps = [word for tap in "ab" for word in (f"--{tap}", os.path.join(FLIGHT, f"flight_{tap}.pcap"))]
        tables = [os.path.join(FLIGHT, f"flight.{kind}") for kind in ("toml", "filter")]
        run(["watch", "--config", tables[0], "--filter", tables[1], *taps, "--ledger", self.ledger, *self.more])

    def test_frames(self):
        found, expected = found_in(self.ledger, os.path.join(FLIGHT, "flight.toml")), slowly(self.ledger)
        for name, value in expected.items():
            same = isinstance(found, dict) and (abs(found[name] - value) < 1e-6 if name == "kbit" else found[name] == value)
            self.case(f"examples/ledger.py: {name}", "" if same else f"{str(found[name] if isinstance(found, dict) else found)[:300]}")
        right = isinstance(found, dict) and found["table"]["301"] == 128 and found["same"] == 0
        self.case("examples/ledger.py: a table, and a flight beside itself", "" if right else f"{str(found)[:300]}")
        for name in ("intervals", "skew"):
            picture = f"{self.ledger}.{name}.png"
            drawn = os.path.exists(picture) and open(picture, "rb").read(8) == b"\x89PNG\r\n\x1a\n"
            self.case(f"examples/ledger.py: the picture of {name}", "" if drawn else "it isn't there")

    def test_incomplete(self):
        with open(self.ledger, "rb+") as text:
            text.truncate(os.path.getsize(self.ledger) - 1)
        command = [DEBIAN_PYTHON, "-c", "import ledger, sys; ledger.read(sys.argv[1])", self.ledger]
        ran = subprocess.run(command, capture_output=True, env={**os.environ, "PYTHONPATH": FLIGHT})
        self.case("examples/ledger.py: an incomplete ledger", "" if b"ledger.Incomplete" in ran.stderr else f"{ran.stderr[-200:]!r}")


class WithLengths(Dataframes):
    """A ledger of version 3."""

    more = ("--details",)


class OfPath(Case):
    def test_path(self):
        """The ledgers of a path's switches: each line, and the latencies of the frames that came through."""
        if not has_pandas():
            self.skipTest("no pandas and matplotlib here")
        flight = path_flight(1)
        table = put(self.folder, "table.toml", flight.config)
        ports = [put(self.folder, f"port{at}.pcap", data) for at, data in enumerate(flight.ports)]
        ledgers = [os.path.join(self.folder, f"hop{at}.ledger") for at in range(1, SWITCHES + 1)]
        for before, after, ledger in zip(ports, ports[1:], ledgers):
            words = ["--config", table, "--before", before, "--after", after, "--ledger", ledger]
            run(["transit", *words], stdout=subprocess.DEVNULL)
        found, expected = found_in(*ledgers, script=OF_PATH), path_slowly(ledgers[0], flight.rows)
        for name, value in expected.items():
            got = found[name] if isinstance(found, dict) else found
            self.case(f"examples/ledger.py: {name} of a path", "" if got == value else f"{got}"[:300])
