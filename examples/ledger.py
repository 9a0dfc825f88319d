"""A ledger of afdxmon in data frames of pandas (docs/GUIDE.md has what can be asked of them).

    import ledger
    frames = ledger.read("flight.ledger")          # a row for each frame
    table = ledger.table("flight.toml")            # a row for each virtual link
    ledger.excess(frames, "10s")
    transits = ledger.transits("transit.ledger")   # of `afdxmon transit`: a row for each line of a frame
    ledger.joined("hop1.ledger", "hop2.ledger")    # frames that came through each switch of a path

Needs pandas, and matplotlib for the pictures. Times are exact: nanoseconds in UTC. A word that is `-` in the ledger is
missing (NA). The columns have the names of docs/LEDGER.md and docs/TRANSIT.md.
"""
import json
import os
import tomllib

import pandas

WORDS = {
    "network": ["A", "B"],
    "class": ["cut", "runt", "oversize", "foreign", "unconfigured", "toolong", "regular"],
    "policing": ["within", "excess"],
    "integrity": ["first", "next", "skip", "reset", "off", "out"],
    "redundancy": ["deliver", "both", "copy"],
}
TYPES = {
    "time": "int64",
    **{name: pandas.CategoricalDtype(words) for name, words in WORDS.items()},
    "number": "int64",
    "link": "Int32",
    "sequence": "UInt8",
    "kept": "Int32",
    "mask": "string",
    "length": "int64",
}
NAMES = ["time", "network", "number", "link", "sequence", "class", "policing", "integrity", "redundancy", "kept", "mask"]
WITH_LENGTHS = b"afdx-ledger 3\n"  # the first line of a ledger of `watch --details`
OUTCOMES = ["passed", "slow", "overtaken", "changed", "lax", "leak", "dropped", "refused", "unrouted", "open"]
OF_TRANSITS = {
    **{name: TYPES[name] for name in ("time", "number", "link", "sequence", "class")},
    "side": pandas.CategoricalDtype(["before", "after"]),
    "policing": pandas.CategoricalDtype(["within", "excess", "unsure"]),
    "outcome": pandas.CategoricalDtype([*OUTCOMES, "twice", "new", "elsewhere"]),
    "other": "Int64",
    "latency": "Int64",
    "differs": "Int32",
}
TRANSIT_NAMES = ["time", "side", *NAMES[2:7], "outcome", "other", "latency", "differs"]
DELIVERED = ["deliver", "both"]
TAIL = 1 << 22  # bytes that hold all lines of counts: 4096 virtual links of at most 800 bytes, and some more


class Incomplete(Exception):
    """A ledger without its line `total`: its run was aborted, or still writes."""


def counts(path):
    """The lines of counts, as lists of words."""
    with open(path, "rb") as text:
        text.seek(max(os.path.getsize(path) - TAIL, 0))
        lines = text.read().decode("ascii").split("\n")
    if lines[-1] or len(lines) < 2 or not lines[-2].startswith("total "):
        raise Incomplete(path)
    return [line.split(" ") for line in lines if line[:1] in ("l", "f", "t")]


def totals(path):
    """The line `total`: how many frames there are of each word."""
    words = counts(path)[-1][1:]
    return pandas.Series(list(map(int, words[1::2])), words[::2], name="frames")


def links(path):
    """The lines `link`: a row for each virtual link of the table, with its counts."""
    rows = [words[1:] for words in counts(path) if words[0] == "link"]
    found = pandas.DataFrame([[int(row[0]), row[1], *map(int, row[3::2])] for row in rows])
    found.columns = ["id", "name", "frames", "toolong", "excess", "out", "copy", "delivered"]
    return found.set_index("id")


def names(path):
    """The columns of a ledger: version 3 has the frame's length on the wire too."""
    with open(path, "rb") as text:
        return [*NAMES, "length"] if text.readline(64) == WITH_LENGTHS else NAMES


def parts(path, size=1_000_000):
    """The lines of frames, so many at a time, for ledgers that memory doesn't hold."""
    count = int(totals(path)["frames"])
    columns = names(path)
    how = {"sep": " ", "names": columns, "dtype": {name: TYPES[name] for name in columns}, "skiprows": 1, "nrows": count}
    how |= {"na_values": ["-"], "keep_default_na": False}
    if count == 0:
        return
    with pandas.read_csv(path, chunksize=size, **how) as text:
        for part in text:
            part["time"] = pandas.to_datetime(part["time"], unit="ns", utc=True)
            part["mask"] = part["mask"].map(lambda mask: int(mask, 16)).astype("uint8")
            yield part


def read(path):
    """All lines of frames."""
    found = list(parts(path))
    return pandas.concat(found, ignore_index=True) if found else pandas.DataFrame(columns=names(path))


def transits(path):
    """All lines of frames of a ledger of transits."""
    count = int(totals(path)["frames"])
    how = {"skiprows": 2, "nrows": count, "na_values": ["-"], "keep_default_na": False}
    found = pandas.read_csv(path, sep=" ", names=TRANSIT_NAMES, dtype=OF_TRANSITS, **how)
    return found.assign(time=pandas.to_datetime(found["time"], unit="ns", utc=True))


def latencies(transits):
    """Of each link how many frames have a latency, the least, the mean, ranks and the greatest, in
    nanoseconds."""
    found = transits.dropna(subset=["latency"]).astype({"latency": "int64"})
    return found.groupby("link")["latency"].describe(percentiles=[0.5, 0.99, 0.999])


def joined(*paths):
    """The frames that came through all switches of a path, by the ledgers of its switches in order: the
    latency of each as `hop1` and so on, and that of all as `latency`, in nanoseconds."""
    found, hops = None, [f"hop{at}" for at in range(1, len(paths) + 1)]
    for hop, path in zip(hops, paths):
        lines = transits(path).query("side == 'before'").dropna(subset=["other"])
        if found is None:
            found = lines[["time", "link", "sequence", "other", "latency"]].rename(columns={"latency": hop})
        else:
            names = {"number": "other", "other": "next", "latency": hop}
            found = found.merge(lines[list(names)].rename(columns=names), on="other")
            found = found.drop(columns="other").rename(columns={"next": "other"})
    return found.drop(columns="other").assign(latency=found[hops].sum(axis=1))


def table(path):
    """The virtual links of a table: a row for each identifier."""
    with open(path, "rb") as text:
        return pandas.DataFrame(tomllib.load(text).get("link", [])).set_index("id").sort_index()


def report(path):
    """The links of `afdxmon report --json`: a row for each identifier, with a column for each number, as `a.frames` or `lost_both`."""
    with open(path, encoding="utf-8") as text:
        return pandas.json_normalize(json.load(text)["links"]).set_index("id").sort_index()


def findings(path):
    """The findings of `afdxmon report --json`, worst first, with a column for each sign, as `signs.lost.A`."""
    with open(path, encoding="utf-8") as text:
        return pandas.json_normalize(json.load(text)["findings"])


def excess(frames, window="1s"):
    """How many frames of each link policing discards in each window of time that has one."""
    found = frames[frames["policing"] == "excess"]
    return found.groupby([pandas.Grouper(key="time", freq=window), "link"]).size().rename("frames")


def intervals(frames):
    """The time from each frame of a link and network to the one before it, as far as they come to policing."""
    seen = frames[frames["class"] == "regular"]
    before = seen.groupby(["link", "network"], observed=True)["time"].shift()
    return seen.assign(interval=seen["time"] - before).dropna(subset=["interval"])


def skew(frames):
    """Each copy with how long it came after the frame that was delivered."""
    columns = ["time", "network", "link", "sequence"]
    first = frames.loc[frames["redundancy"] == "deliver", columns].assign(delivered=lambda it: it["time"])
    copies = frames.loc[frames["redundancy"] == "copy", columns]
    found = pandas.merge_asof(copies, first, on="time", by=["link", "sequence"], suffixes=("", "_first"))
    return found.assign(skew=found["time"] - found["delivered"])


def bandwidth(frames, window="1s"):
    """kbit/s of each link and network in each window of time, of a ledger of `watch --details`, or one whose run had a filter that keeps
    frames whole."""
    seen = frames.dropna(subset=["link"])
    bits = 8 * seen.groupby([pandas.Grouper(key="time", freq=window), "link", "network"], observed=True)["length" if "length" in seen else "kept"].sum()
    return (bits / 1000 / pandas.Timedelta(window).total_seconds()).unstack(["link", "network"], fill_value=0)


def compared(today, before):
    """What policing, integrity checking and Smax discard of each thousand frames of a link, in two ledgers, and how much that grew."""
    rates = {}
    for name, path in (("today", today), ("before", before)):
        found = links(path)
        rates[name] = 1000 * found[["toolong", "excess", "out"]].div(found["frames"].where(found["frames"] > 0), axis=0)
    rates["grew"] = rates["today"] - rates["before"]
    return pandas.concat(rates, axis=1)


def draw_intervals(frames, config, path):
    """A histogram of the intervals of all links, each as a part of its BAG."""
    from matplotlib.figure import Figure

    found = intervals(frames)
    bag = found["link"].map(table(config)["bag_ms"]).astype(float)
    part = found["interval"].dt.total_seconds() * 1000 / bag
    figure = Figure(figsize=(8, 3.5), layout="constrained")
    axes = figure.subplots()
    axes.hist(part.clip(upper=2), bins=100, range=(0, 2), log=True, color="#4472c4")
    axes.axvline(1, color="#c00000", linewidth=1, label="BAG")
    axes.set(xlabel="interval between frames of a link, in BAGs (2: 2 and more)", ylabel="frames")
    axes.legend()
    figure.savefig(path, dpi=100)


def draw_skew(frames, path):
    """The skew of each copy over time, in a colour for each link."""
    from matplotlib.figure import Figure

    figure = Figure(figsize=(8, 3.5), layout="constrained")
    axes = figure.subplots()
    for link, found in skew(frames).groupby("link"):
        axes.plot(found["time"], found["skew"].dt.total_seconds() * 1e6, ".", markersize=2, label=str(link))
    axes.set(xlabel="time (UTC)", ylabel="skew in microseconds")
    axes.legend(title="link", fontsize=8, markerscale=4, loc="upper left", bbox_to_anchor=(1, 1))
    figure.savefig(path, dpi=100)
