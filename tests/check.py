"""`afdxmon check` as a program: its answers line by line, compared with what the rules say of tables and recordings made here.

The expected answers share nothing with the product: faults are those that were put into a table, in the order of docs/TABLE.md; copies
are looked for among all earlier frames, check sequences by zlib, and the difference of clocks over the frames that were shifted.
"""
import json
import os
import random
import re
import struct
import subprocess
import textwrap
import zlib
from datetime import datetime, timedelta, timezone

from tests import flights
from tests import texts
from tests.harness import FAULT, SUCCESS, Case, difference, frame, header, record, run, run_at_terminal
from tests.reference import disorder, lateness_after, parse

MS = 10**6
START = 1_800_000_000 * 10**9
UNSOUND = "afdxmon: check 1 Unsound"
TOP = {"constant": "50331648", "late_us": "0", "filters": "[]"}
LINK = {"id": "5", "name": '"brake"', "bag_ms": "1", "jitter_us": "0", "smax": "200", "integrity": "true", "redundancy": "true", "skew_us": "1000"}
TOP_KEYS, LINK_KEYS = ("constant", "link", "late_us", "filters"), (*LINK, "group")
REQUIRED = {"constant", *LINK}
KNOWN = {
    None: "the table has constant, late_us, filters and the links",
    0: "a link has id, name, bag_ms, jitter_us, smax, integrity, redundancy, skew_us and group",
}
# Of each key values that are taken, out of range, and of another type.
VALUES = {
    "constant": (["50331648", "4294967295", "0x03000000"], ["0", "50331647", "16777216", "4294967296", "67108864", "-1"], ['"x"', "true", "1.5"]),
    "late_us": (["0", "1000000"], ["-1", "1000001"], ['"0"', "false"]),
    "filters": (["[]", '["1,6 0 0 0,"]'], [], ["1", '"1,6 0 0 0,"', "[1]", '[["1,6 0 0 0,"]]']),
    "id": (["0", "65535", "77"], ["-1", "65536", "9223372036854775807"], ['"5"', "5.0", "true"]),
    "name": (['"a"', '"' + "z" * 32 + '"', '"A-z_09"'], ['""', '"' + "z" * 33 + '"', '"a b"', '"é"'], ["5", "true", '["a"]']),
    "bag_ms": (["1", "2", "64", "128"], ["0", "3", "129", "256", "-1"], ['"1"', "1.0"]),
    "jitter_us": (["0", "100000"], ["-1", "100001"], ["true", "0.5"]),
    "smax": (["64", "1518", "100"], ["63", "1519", "0", "-64"], ['"64"', "{}"]),
    "integrity": (["true", "false"], [], ["1", '"true"', "1979-05-27"]),
    "redundancy": (["true", "false"], [], ["0", '"no"']),
    "skew_us": (["0", "1000000"], ["-1", "1000001"], ["[]", '"1"']),
    "group": (['"p"', '"' + "g" * 32 + '"', '"Port-7_B"'], ['""', '"' + "g" * 33 + '"', '"port 7"', '"port/7"', '"ü"'], ["7", "true", '["port_7"]']),
}


# ---- tables


class Table:
    """A table as text, and where each key and header stands: `places` by (link, key), from 1."""

    def __init__(self, top, links):
        self.top, self.links, self.lines, self.places = top, links, [], {}
        for key, value in top.items():
            self.add(None, key, f"{key} = {value}")
        for index, link in enumerate(links):
            self.add(index, None, "[[link]]")
            for key, value in link.items():
                self.add(index, key, f"  {key} = {value}", 3)
        self.text = "\n".join(self.lines) + "\n"

    def add(self, link, key, line, column=1):
        self.lines.append(line)
        self.places[link, key] = (len(self.lines), column)


def kind_of(value):
    """The type of a value in the words of TOML."""
    if value in ("true", "false"):
        return "boolean"
    for start, kind in (('"', "string"), ("[", "array"), ("{", "table")):
        if value.startswith(start):
            return kind
    if value[:4].isdigit() and "-" in value:
        return "datetime"
    return "float" if "." in value else "integer"


def shown(key, value):
    kind = kind_of(value)
    if kind == "integer":
        return f"{key} = {int(value, 0)}"
    return f"{key} = {value}" if kind in ("boolean", "string") else f"{key} = a value of type {kind}"


def named(index, link):
    text = f"link {index}"
    for key in ("id", "name"):
        if key in link and kind_of(link[key]) in ("integer", "string", "boolean"):
            text += f", {key} {int(link[key], 0) if kind_of(link[key]) == 'integer' else link[key]}"
    return text


def told(table, link, key, word, found, allowed):
    """A fault as the reference has it: what the line and the JSON say of it."""
    of = table.links[link] if link is not None else {}
    line, column = table.places.get((link, key)) or (table.places[link, None] if link is not None else (None, None))
    subject = f"{named(link, of)}: " if link is not None else ""
    number = int(of["id"], 0) if kind_of(of.get("id", '"')) == "integer" else None
    name = of["name"][1:-1] if kind_of(of.get("name", "1")) == "string" else None
    return {"fault": word, "line": line, "column": column, "link": link, "id": number, "name": name, "key": key, "found": subject + found, "allowed": allowed}


def is_in(key, value, which):
    return value in VALUES[key][which]


def faults_of_keys(table, link):
    """The faults of one table's keys: missing ones, other types, out of range, unknown ones."""
    of, keys = (table.top, TOP_KEYS) if link is None else (table.links[link], LINK_KEYS)
    out = [told(table, link, key, "Missing", f"{key} is missing", texts.ALLOWED[key]) for key in keys if key in REQUIRED and key not in of]
    for which, word in ((2, "Kind"), (1, "Range")):
        out += [told(table, link, key, word, shown(key, of[key]), texts.ALLOWED[key]) for key in keys if key in of and is_in(key, of[key], which)]
    unknown = sorted((key for key in of if key not in keys), key=str.encode)
    return out + [told(table, link, key, "UnknownKey", f"unknown key {key}", KNOWN[None if link is None else 0]) for key in unknown]


def faults_of_twins(table):
    """What an earlier link has: identifiers, and then names, that are in range."""
    out = []
    for index, link in enumerate(table.links):
        for key, word in (("id", "TwiceId"), ("name", "TwiceName")):
            if key not in link or is_in(key, link[key], 1) or is_in(key, link[key], 2):
                continue
            twins = [k for k, other in enumerate(table.links[:index]) if other.get(key) == link[key]]
            if twins:
                taken = f"{named(twins[0], table.links[twins[0]])} has it too: each link has its own {key}"
                out.append(told(table, index, key, word, shown(key, link[key]), taken))
    return out


def faults_of(table):
    out = faults_of_keys(table, None)
    for index in range(len(table.links)):
        out += faults_of_keys(table, index)
    return out + faults_of_twins(table)


def line_of(path, fault):
    place = f":{fault['line']}:{fault['column']}" if fault["line"] else ""
    return f"fault: {path}{place}: {fault['found']}: {fault['allowed']}\n"


def counted(count, kind):
    return f"{count} {kind}" + ("" if count == 1 else "s")


def text_of_table(path, table):
    """The answer on a table alone."""
    faults = faults_of(table)
    if not faults:
        constant = int(table.top["constant"], 0)
        return f"table: {path}: {counted(len(table.links), 'link')}, constant {constant}\n" + filters_in(table) + "sound: yes\n"
    text = f"table: {path}: {counted(len(faults), 'fault')}\n" + "".join(line_of(path, fault) for fault in faults[:100])
    text += f"fault: and {len(faults) - 100} more in the table\n" if len(faults) > 100 else ""
    return text + f"sound: no, {counted(len(faults), 'fault')} and 0 questions\n"


def filters_in(table):
    return "filter: 1 of the table: 1 instruction\n" if "6 0 0 0" in table.top.get("filters", "") else ""


def tables():
    """Tables with one, two and many faults, by name."""
    for key, (good, out_of_range, others) in VALUES.items():
        for value in good + out_of_range + others:
            if key in TOP:
                yield f"{key} = {value}", Table({**TOP, key: value}, [LINK])
            else:
                yield f"a link with {key} = {value}", Table(TOP, [LINK, {**LINK, "id": "6", "name": '"rudder"', key: value}])
    for key in (*TOP, *LINK_KEYS):
        yield f"no {key}", Table({k: v for k, v in TOP.items() if k != key}, [{k: v for k, v in LINK.items() if k != key}])
    yield "no link", Table(TOP, [])
    yield "unknown keys", Table({**TOP, "z": "1", "Speed": "2"}, [{**LINK, "smin": "64", "BAG": "1"}])
    yield "a link that has all of another", Table(TOP, [LINK, LINK])
    yield "three links of one id, two of one name", Table(TOP, [LINK, {**LINK, "name": '"b"'}, {**LINK, "id": "9"}, {**LINK, "name": '"c"'}])
    yield "twins, one of which lacks its id", Table(TOP, [{k: v for k, v in LINK.items() if k != "id"}, {**LINK, "name": '"b"'}, {**LINK, "name": '"c"'}])
    yield "an id out of range twice", Table(TOP, [{**LINK, "id": "65536"}, {**LINK, "id": "65536", "name": '"b"'}])
    yield "two faults in one link", Table(TOP, [{**LINK, "bag_ms": "3", "smax": "63"}])
    chance = random.Random(21)
    for count in (2, 9, 60, 300):
        links = []
        for index in range(count):
            link = {**LINK, "id": str(chance.randrange(count * 2)), "name": f'"l{chance.randrange(count * 2)}"'}
            for key in LINK_KEYS:
                what = chance.random()
                if what < 0.05:
                    link.pop(key, None)
                elif what < 0.15 and VALUES[key][1]:
                    link[key] = chance.choice(VALUES[key][1])
                elif what < 0.2:
                    link[key] = chance.choice(VALUES[key][2])
            links.append(link)
        yield f"{count} links with faults at random", Table({**TOP, "late_us": chance.choice(["0", "-1"])}, links)


def write(path, content):
    with open(path, "wb") as file:
        file.write(content if isinstance(content, bytes) else content.encode())
    return path


def asked(*arguments, **how):
    return run(["check", *arguments], stdout=subprocess.PIPE, **how)


def first_difference(found, expected):
    pairs = zip(found.splitlines() + [""], expected.splitlines() + [""])
    return next((f"{one!r}, not {other!r}" for one, other in pairs if one != other), "" if found == expected else "the ends differ")


# ---- recordings


def moment(stamp):
    """A timestamp in UTC, with as many decimals as it has."""
    second = datetime(1970, 1, 1, tzinfo=timezone.utc) + timedelta(seconds=stamp // 10**9)
    fraction = f"{stamp % 10**9:09}".rstrip("0")
    return second.strftime("%Y-%m-%dT%H:%M:%S") + (f".{fraction}" if fraction else "") + "Z"


FORMATS = {
    b"\x4d\x3c\xb2\xa1": "pcap, little-endian, nanoseconds",
    b"\xa1\xb2\x3c\x4d": "pcap, big-endian, nanoseconds",
    b"\xd4\xc3\xb2\xa1": "pcap, little-endian, microseconds",
    b"\xa1\xb2\xc3\xd4": "pcap, big-endian, microseconds",
    b"\x0a\x0d\x0d\x0a": "pcapng",
}
ENDS = {"clean": "it ends clean", "cut": "it ends cut, within a record"}
BAD = {"stampback": "timestamp out of order", "length": "captured length over 262144 bytes", "fraction": "fraction of a second out of range", "fileheader": "another pcap file begins here"}


def network_line(network, path, recording, frames, ending, kind=None):
    count = counted(len(frames), "frame")
    text = f"network {network}: {path}: {kind or FORMATS[recording[:4]]}; {count}"
    stamps = [stamp for stamp, _, _ in frames]
    text += f", {moment(min(stamps))} to {moment(max(stamps))}" if stamps else ""
    word, _, *why = ending.split()
    text += "; " + (ENDS[word] if word in ENDS else f"it ends bad: {BAD[why[0]]}") + "\n"
    late = disorder("check", lateness_after(recording, len(frames))) if why == ["stampback"] else ""
    return text + (f"fault: of network {network} no frame is read after {count}: {BAD[why[0]]}{late}\n" if word == "bad" else "")


def copies_within(frames, skew):
    """The places of a link's frames, (network, stamp, number, bytes) in order, that are copies."""
    copies = set()
    for at, (network, stamp, number, _) in enumerate(frames):
        before = next((k for k in reversed(range(at)) if frames[k][2] == number), None)
        if before is None or before in copies or frames[before][0] == network:
            continue
        since = sum(frames[k][0] != network for k in range(before, at))
        if since <= 128 and stamp - frames[before][1] <= skew:
            copies.add(at)
    return copies


def sourceless(data):
    """A frame without its source address."""
    return data[:6] + data[12:]


# What frames of other traffic carry, by EtherType.
KINDS = {0: "without an EtherType", 0x0800: "IPv4", 0x0806: "ARP", 0x8100: "802.1Q", 0x86DD: "IPv6", 0x88CC: "LLDP", 0x88F7: "PTP"}


def nearly_all(count, of):
    return of > 0 and of - count <= of // 10


def where(frames):
    """Of frames, (stamp, link), the links and the time."""
    links = sorted({link for _, link in frames})
    more = f" and {len(links) - 1} more" if len(links) > 1 else ""
    return f"of link {links[0]}{more}, from {moment(min(frames)[0])} to {moment(max(frames)[0])}"


class Reference:
    """What the rules say of two recordings, each a list of (stamp, length, bytes), and a table of links."""

    def __init__(self, links, a, b, constant, readable, expected):
        self.taps, self.links, self.constant, self.readable = {"A": a, "B": b}, links, constant, readable
        self.foreign, self.long, self.unlisted, self.by_link = {}, 0, {}, {link["id"]: [] for link in links}
        self.expected = {kind: 0 for kind in expected}
        self.kinds, self.listed, self.held = {}, {"A": [], "B": []}, {}
        frames = sorted((stamp, network, k) for network, tap in self.taps.items() for k, (stamp, _, _) in enumerate(tap))
        for stamp, network, k in frames:
            self.see(network, *self.taps[network][k])
        self.all = len(frames)

    def see(self, network, stamp, length, data):
        if len(data) < length or not 60 <= length <= 1514:
            return
        constant, link = int.from_bytes(data[:4], "big"), int.from_bytes(data[4:6], "big")
        if constant != self.constant:
            kind = int.from_bytes(data[12:14], "big")
            kind = kind if kind >= 0x600 else 0
            if kind in self.expected:
                self.expected[kind] += 1
                return
            self.foreign[constant] = self.foreign.get(constant, 0) + 1
            self.kinds[kind] = self.kinds.get(kind, 0) + 1
        elif link not in self.by_link:
            self.unlisted[link] = self.unlisted.get(link, 0) + 1
        else:
            smax = next(one["smax"] for one in self.links if one["id"] == link)
            self.long += length + 4 > smax
            self.by_link[link].append((network, stamp, data[-1], data))
            self.listed[network].append((stamp, link, data[11] >> 5))
            self.held.setdefault((network, link), []).append((stamp, data))

    def of(self, link, network):
        return [(stamp, number) for on, stamp, number, _ in self.by_link[link] if on == network]

    def same(self):
        key = lambda tap: [(stamp, length, data[4:6], data[-1:]) for stamp, length, data in tap]
        return bool(self.taps["A"]) and key(self.taps["A"]) == key(self.taps["B"])

    def marked(self, network, as_network):
        tap = self.taps[network]
        return nearly_all(sum(len(data) > 11 and data[11] >> 5 == {"A": 1, "B": 2}[as_network] for _, _, data in tap), len(tap))

    def has_checks(self, network):
        whole = [data for _, length, data in self.taps[network] if len(data) == length][:64]
        return nearly_all(sum(zlib.crc32(data[:-4]).to_bytes(4, "little") == data[-4:] for data in whole), len(whole))

    def pairs(self):
        """Frames of A and B and copies, of the links with redundancy management on."""
        on = [link for link in self.links if link["redundancy"]]
        count = lambda network: sum(len(self.of(link["id"], network)) for link in on)
        copies = sum(len(self.copies(link)) for link in on)
        return count("A"), count("B"), copies

    def copies(self, link):
        """The places of a link's copies."""
        return copies_within(self.by_link[link["id"]], link["skew_us"] * 1000 if link["redundancy"] else 0)

    def lonely(self):
        """How many redundant links have 8 frames on both networks at least, and no copy."""
        on = [link for link in self.links if link["redundancy"]]
        return sum(min(len(self.of(link["id"], "A")), len(self.of(link["id"], "B"))) >= 8 and not self.copies(link) for link in on)

    def unlike(self):
        """The question on copies of links with integrity checking that differ from the last frame of the other network, if that has the number."""
        out, count = [], 0
        for link in self.links:
            frames = self.by_link[link["id"]]
            for at in sorted(self.copies(link)) if link["integrity"] else ():
                network, stamp, number, data = frames[at]
                last = next(frames[k] for k in reversed(range(at)) if frames[k][0] != network)
                count += last[2] == number
                if last[2] == number and sourceless(last[3]) != sourceless(data):
                    out.append((stamp, link["id"]))
        if not out:
            return []
        text = f"do both networks carry the same frames? {len(out)} of {count} copies have other bytes than their frames, source addresses aside, "
        return [(f"{text}{where(out)}.", "Compare a pair in Wireshark. Clocks that are a round of 255 numbers apart look so, too")]

    def difference(self):
        """How far B's clock is ahead, by most of the links whose pair is further apart than their own SkewMax, how many say so, and how
        many links have a pair."""
        apart, met_links = [], 0
        for link in sorted(self.links, key=lambda one: one["id"]):
            if not link["redundancy"]:
                continue
            a, b = self.of(link["id"], "A")[:32], self.of(link["id"], "B")[:32]
            met = next(((stamp - first) for stamp, number in b for first, same in a if same == number), None)
            met_links += met is not None
            apart += [] if met is None or abs(met) <= link["skew_us"] * 1000 else [met]
        if not apart:
            return None
        support = [sum(abs(one - other) <= 5 * MS for other in apart) for one in apart]
        best = apart[support.index(max(support))]
        return (best, max(support), met_links) if 2 * max(support) >= met_links else None

    def overlap(self):
        spans = [(min(tap)[0], max(tap)[0]) for tap in self.taps.values() if tap]
        return None if len(spans) < 2 else not (spans[0][1] < spans[1][0] or spans[1][1] < spans[0][0])

    def empty(self):
        """The networks whose recording has no frame, and no packet that can't be read."""
        return [network for network, tap in self.taps.items() if not tap and network in self.readable]

    def questions(self):
        """Each question, and the lines of what to do."""
        out = [
            (f"was network {network} recorded? Its recording has no frame.", "Look at its tap, or leave the recording out")
            for network in self.empty()
        ]
        if self.same():
            out.append(("are --a and --b one recording? All their frames are the same.", "Name the other network's recording in the place of one"))
        else:
            if self.marked("A", "B") and self.marked("B", "A"):
                out.append(("are the networks swapped? The source addresses in --a are of network B, those in --b of A.", "Swap --a and --b"))
            out += [
                (f"are both recordings of network {n}? So say their source addresses.", f"Name a recording of network {other} as --{other.lower()}")
                for n, other in ("AB", "BA")
                if self.marked("A", n) and self.marked("B", n)
            ]
            if self.overlap() is False:
                out.append(APART)
        foreign = sum(self.foreign.values())
        of = self.all - sum(self.expected.values())
        if nearly_all(foreign, of):
            constant = max(self.foreign, key=lambda one: self.foreign[one])
            out.append((
                f"is the table's 'constant' that of this network? {foreign} of {of} frames have another; {self.foreign[constant]} have {constant}.",
                f"Set 'constant' to {constant} in the table, if that is this network's",
            ))
        checks = [n for n in "AB" if self.has_checks(n)]
        off = "Take them off: editcap -F nsecpcap -L -C {} in.pcap out.pcap"
        out += [(f"does the recording of network {n} hold frame check sequences?", off.format("-4")) for n in checks]
        tagged = {n: sum(data[12:14] == b"\x81\0" for _, _, data in self.taps[n]) for n in "AB"}
        tagged = {n: count for n, count in tagged.items() if nearly_all(count, len(self.taps[n]))}
        out += [
            (f"do the frames of network {n} have 802.1Q tags? {count} of {len(self.taps[n])} of them have one, as some taps add it.", off.format("12:4"))
            for n, count in tagged.items()
        ]
        if not checks and not tagged and nearly_all(self.long, self.all):
            text = f"does 'smax' count a frame without its check sequence? {self.long} of {self.all} frames are longer."
            out.append((text, "Add 4 to each 'smax' of the table"))
        out += self.unlike() if not checks and not tagged else []
        out += self.classes()
        out += self.clocks() if not checks and not self.same() else []
        return out + [text for network in "AB" for text in self.doubles(network) + self.crossings(network)]

    def doubles(self, network):
        """Of a network the frames that have all bytes of the one before, less than half of a BAG later."""
        out = []
        for link in self.links:
            frames = self.held.get((network, link["id"]), [])
            for (before, same), (stamp, data) in zip(frames, frames[1:]):
                if link["integrity"] and same == data and 2 * (stamp - before) < link["bag_ms"] * MS:
                    out.append((stamp, link["id"]))
        if not out:
            return []
        text = f"does the recording of network {network} hold frames twice? {len(out)} of {len(self.listed[network])} frames there have all bytes of the one before, "
        text += f"less than half of a BAG later, {where(out)}."
        return [(text, "Record each frame once (a mirror port brings both ways), or take off the second:", "editcap -F nsecpcap -d in.pcap out.pcap")]

    def crossings(self, network):
        """A network where frames of the table's links name the other one, though nearly all name one."""
        wired = self.same() or any(self.marked("A", one) and self.marked("B", other) for one in "AB" for other in "AB" if (one, other) != ("A", "B"))
        other, listed = {"A": "B", "B": "A"}[network], self.listed[network]
        others = [(stamp, link) for stamp, link, mark in listed if mark == {"A": 1, "B": 2}[other]]
        if wired or not others or not nearly_all(sum(mark in (1, 2) for _, _, mark in listed), len(listed)):
            return []
        text = f"were cables of network {network} swapped? {len(others)} of {len(listed)} frames there have source addresses of network {other}, {where(others)}."
        return [(text, "Swap the cables or taps back, and judge the parts before and after alone (editcap -B, -A)")]

    def classes(self):
        unlisted, out = sum(self.unlisted.values()), []
        if 2 * unlisted > self.all:
            text = f"is the table that of another aircraft? {unlisted} of {self.all} frames are of links that it lacks."
            out.append((text, "Name this network's table as --config"))
        for network, tap in self.taps.items():
            held = [len(data) for _, length, data in tap if len(data) < length]
            if len(held) > len(tap) // 100:
                text = f"does the recorder of network {network} cut frames at {max(held)} bytes? {len(held)} of {len(tap)} frames are cut short."
                out.append((text, "Record whole frames, by tcpdump -s 0: no rule can judge these"))
        return out

    def clocks(self):
        a, b, copies = self.pairs()
        told, lonely = self.difference(), self.lonely()
        if not (a and b and 2 * copies < a and 2 * copies < b):
            if told and lonely >= 2 and nearly_all(told[1], told[2]):
                text = f"are the clocks of the taps apart by rounds of 255 numbers? Most frames have a copy, and {counted(lonely, 'link')} have none."
                return [(text + self.apart(told), self.set_back(told))]
            return []
        if told is None and not (copies == 0 and self.overlap()):
            return []
        text = "are the clocks of the taps apart? Under half of the frames have a copy within SkewMax."
        if told:
            return [(text + self.apart(told), self.set_back(told))]
        return [(text, "Synchronise the taps (PTP), or take both recordings of one flight")]

    @staticmethod
    def apart(told):
        ahead, nanos = "B" if told[0] > 0 else "A", abs(told[0])
        return f" By equal sequence numbers that of {ahead} is {nanos // 10**9}.{nanos % 10**9:09} s ahead, say {told[1]} of {told[2]} links."

    @staticmethod
    def set_back(told):
        ahead, nanos = "B" if told[0] > 0 else "A", abs(told[0])
        return f"Set that of {ahead} back: editcap -F nsecpcap -t -{nanos // 10**9}.{nanos % 10**9:09} in.pcap out.pcap"

    def notes(self):
        absent = [f"{link['id']} {link['name']}" for link in sorted(self.links, key=lambda one: one["id"]) if not self.by_link[link["id"]]]
        unlisted = [f"{link} ({counted(frames, 'frame')})" for link, frames in sorted(self.unlisted.items())]
        text = ""
        for what, names in ((f"no frame is of {counted(len(absent), 'link')} of the table", absent), (f"the table lacks {counted(len(unlisted), 'link')}", unlisted)):
            if names:
                text += f"note: {what}: " + ", ".join(names[:20]) + (f" and {len(names) - 20} more" if len(names) > 20 else "") + "\n"
        listed = lambda counts: [f"{count} {KINDS[kind]}" if kind in KINDS else f"{count} of EtherType 0x{kind:04x}" for kind, count in counts.items()]
        if self.expected:
            text += f"note: expected traffic, {counted(sum(self.expected.values()), 'frame')}: {', '.join(listed(self.expected))}\n"
        if self.kinds:
            kinds, more = listed(self.kinds), sum(list(self.kinds.values())[8:])
            text += f"note: foreign traffic, {counted(sum(self.kinds.values()), 'frame')}: {', '.join(kinds[:8])}" + (f" and {more} more" if more else "") + "\n"
        return text


APART = ("do the recordings belong together? One ends before the other begins.", "Take both recordings of one flight, or set one right by editcap -t")


def asking(asked, *advice):
    """The lines of a question: at most 100 columns, and below it what to do."""
    lines = textwrap.wrap(f"question: {asked}", 100, subsequent_indent="  ", break_long_words=False, break_on_hyphens=False)
    return "".join(f"{line}\n" for line in (*lines, *(f"  {line}" for line in advice)))


def toml_of(links, constant=50331648, late=0):
    text = f"constant = {constant}\nlate_us = {late}\n"
    return text + "".join("\n[[link]]\n" + "".join(f"{key} = {json.dumps(value)}\n" for key, value in link.items()) for link in links)


def questions_in(text):
    """The questions of an answer, each as one line with what to do."""
    return [line for line in text.replace("\n  ", " ").splitlines() if line.startswith("question: ")]


def expected(config, links, recordings, constant=50331648, late=0, kinds=(), traffic=()):
    """The answer on a sound table and recordings, by network (path, bytes), with other traffic of these EtherTypes expected."""
    text = f"table: {config}: {counted(len(links), 'link')}, constant {constant}\n"
    taps, readable = {"A": [], "B": []}, set()
    for network, (path, recording) in recordings.items():
        taps[network], ending = parse(recording, late)
        text += network_line(network, path, recording, taps[network], ending, dict(kinds).get(network))
        if not ending.startswith("bad"):
            readable.add(network)
    faults = len(recordings) - len(readable)
    about = Reference(links, taps["A"], taps["B"], constant, readable, traffic)
    text += {True: "overlap: the recordings overlap in time\n", False: "overlap: none\n", None: ""}[about.overlap()]
    questions = about.questions()
    text += "".join(asking(*question) for question in questions) + about.notes()
    sound = "yes" if not questions and not faults else f"no, {counted(faults, 'fault')} and {counted(len(questions), 'question')}"
    return text + f"sound: {sound}\n"


def links_of(chance, count):
    ids = chance.sample(range(65536), count)
    return [
        {"id": ids[k], "name": f"l{k}", "bag_ms": chance.choice((1, 2, 4, 8)), "jitter_us": 500, "smax": chance.randrange(100, 1500), "integrity": True,
         "redundancy": chance.random() < 0.9, "skew_us": 1000}
        for k in range(count)
    ]


def sent(chance, links, cycles, marks=(0x20, 0x40), check=False, first=3):
    """Both networks' frames, (stamp, bytes): each link sends by its BAG, the copy on B comes some microseconds later."""
    taps = {"A": [], "B": []}
    for link in links:
        number, at = chance.randrange(1, 256), START + chance.randrange(link["bag_ms"] * MS)
        for _ in range(cycles):
            number, at = number % 255 + 1, at + link["bag_ms"] * MS
            size = chance.randrange(60, link["smax"] - 3)
            for network, mark in zip("AB", marks):
                data = bytearray(frame(link["id"], size, number))
                data[0], data[11] = first, mark
                data += zlib.crc32(bytes(data)).to_bytes(4, "little") if check else b""
                taps[network].append((at + chance.randrange(50_000) + (100_000 if network == "B" else 0), bytes(data)))
    return [sorted(taps[network]) for network in "AB"]


def file_of(frames, shift=0, layout="<", unit=1):
    magic = 0xA1B23C4D if unit == 1 else 0xA1B2C3D4
    return header(layout, magic) + b"".join(record((stamp + shift) // unit * unit, data, layout, unit) for stamp, data in frames)


def met(links, by):
    """Both networks' frames, 40 of each link: that of the link at a place with a number comes so many nanoseconds later on B."""
    taps = {"A": [], "B": []}
    for place, link in enumerate(links):
        for number in range(1, 41):
            at = START + place * 10_000 + number * 8 * MS
            for network, mark, stamp in (("A", 0x20, at), ("B", 0x40, at + by(place, number))):
                data = bytearray(frame(link["id"], 80, number))
                data[11] = mark
                taps[network].append((stamp, bytes(data)))
    return [file_of(sorted(taps[network])) for network in "AB"]


def pairs():
    """Tables and pairs of recordings, by name: links, A and B."""
    chance = random.Random(31)
    links = links_of(chance, 6)
    a, b = sent(chance, links, 60)
    yield "two recordings that belong together", links, file_of(a), file_of(b)
    yield "networks swapped", links, file_of(b), file_of(a)
    yield "both of network A", links, file_of(a), file_of([(stamp + 70_000, data) for stamp, data in a])
    yield "one recording twice", links, file_of(a), file_of(a)
    yield "the same frames in another order of bytes", links, file_of(a), file_of(a, layout=">")
    yield "microseconds", links, file_of(a, unit=1000), file_of(b, layout=">", unit=1000)
    for shift in (3 * 10**9, -250 * MS, 7_200 * 10**9, -1_100_000, 30 * MS):
        yield f"the clock of B {shift} ns ahead", links, file_of(a), file_of(b, shift)
    nine = [{**link, "redundancy": True} for link in links_of(chance, 9)]
    a9, b9 = sent(chance, nine, 60)
    for wide in range(10):
        mixed = [{**link, "skew_us": 5000 if k < wide else 2000} for k, link in enumerate(nine)]
        for shift in (2_500_000, -2_500_000, 5_500_000):
            yield f"the clock of B {shift} ns ahead, {wide} of 9 links with a SkewMax of 5 ms", mixed, file_of(a9), file_of(b9, shift)
    even = sorted(({**link, "redundancy": True, "smax": 500} for link in links), key=lambda one: one["id"])
    yield "first copies that come by SkewMax later, and the others by more", even, *met(even, lambda place, number: MS + (number > 1))
    for few in (2, 3, 4):
        yield f"{few} of 6 links tell another difference of clocks", even, *met(even, lambda place, number: (90 if place < few else 30) * MS)
    for name, shift in (("last frame of B", a[0][0] - b[-1][0]), ("first frame of B", a[-1][0] - b[0][0])):
        yield f"the {name} at the time of A's", links, file_of(a), file_of(b, shift)
    yield "no overlap, and other frames", links, file_of(a), file_of(sent(random.Random(5), links, 40)[1], 10**12)
    yield "network A alone", links, file_of(a), None
    yield "network B alone", links, None, file_of(b)
    yield "an empty recording of network B", links, file_of(a), header()
    yield "an empty recording of network A", links, header(), file_of(b)
    yield "an empty recording alone", links, header(), None
    yield "a recording whose one frame isn't whole", links, file_of(a), header() + record(b[0][0], frame(9, 60, 1), original=100)
    yield "no frame at all", links, header(), header()
    unreadable = header() + struct.pack("<IIII", 1, 0, 262145, 262145) + bytes(262145)
    yield "no frame of B, whose one packet is truncated", links, file_of(a), header() + record(b[0][0], b[0][1])[:-1]
    yield "a first packet of B that can't be read", links, file_of(a), unreadable
    yield "an empty recording of A, and of B a first packet that can't be read", links, header(), unreadable
    yield "links that no frame names", links + [{**links[0], "id": (links[0]["id"] + 1) % 65536, "name": "none"}], file_of(a), file_of(b)
    yield "links that the table lacks", links[:2], file_of(a), file_of(b)
    many = [{**link, "name": f"m{k}"} for k, link in enumerate(links_of(chance, 60))]
    a2, b2 = sent(chance, many, 4)
    yield "60 links, of which the table has 30", many[:30], file_of(a2), file_of(b2)
    yield "60 links that no frame names", many, file_of([]), file_of(a[:1])
    yield "another constant field", links, *(file_of(tap) for tap in sent(chance, links, 20, first=7))
    odd = ([(stamp, bytes([7 if k % 2 else 11]) + data[1:]) for k, (stamp, data) in enumerate(tap)] for tap in (a, b))
    yield "two other constant fields, equally often", links, *(file_of(tap) for tap in odd)
    for lacking in (6, 7):
        whole = ([(stamp, data[:-4] if 64 - lacking <= k < 64 else data) for k, (stamp, data) in enumerate(tap)] for tap in sent(chance, links, 30, check=True))
        yield f"check sequences, which {lacking} of the first 64 frames lack", links, *(file_of(tap) for tap in whole)
    yield "check sequences", links, *(file_of(tap) for tap in sent(chance, links, 30, check=True))
    yield "check sequences on network A", links, file_of(sent(chance, links, 30, check=True)[0]), file_of(b)
    yield "frames longer than Smax", [{**link, "smax": 64} for link in links], *(
        file_of([(stamp, data[:-1] + bytes(40) + data[-1:]) for stamp, data in tap]) for tap in (a, b))
    yield "no redundancy", [{**link, "redundancy": False} for link in links], file_of(a), file_of(b, 3 * 10**9)
    yield "a recording that is cut short", links, file_of(a)[:-7], file_of(b)
    yield "a frame out of order", links, file_of(a) + record(a[0][0], a[0][1]), file_of(b)
    yield "frames that aren't whole", links, file_of(a), file_of(b) + record(b[-1][0], frame(9, 60, 1), original=100)
    held = b"".join(record(stamp, data[: 58 - 10 * (k % 4)], original=len(data)) for k, (stamp, data) in enumerate(b))
    yield "frames cut short at several lengths", links, file_of(a), header() + held
    for frames, cut in ((99, 1), (100, 1), (100, 2), (199, 1), (199, 2), (200, 2), (200, 3)):
        tap = sent(chance, links, 100)[1][:frames]
        held = b"".join(record(stamp, data[:50 if k < cut else None], original=len(data)) for k, (stamp, data) in enumerate(tap))
        yield f"{cut} of {frames} frames that aren't whole", links, file_of(a), header() + held


def marked_as(data, mark):
    """A frame with another last byte of its source address."""
    return data[:11] + bytes([mark]) + data[12:]


def tagged(frames, untagged=0):
    """Frames with an 802.1Q tag behind their addresses, but for the first ones."""
    return [(stamp, data if k < untagged else data[:12] + b"\x81\0\0\x07" + data[12:]) for k, (stamp, data) in enumerate(frames)]


def other(stamp, ethertype, size=60):
    """A frame of other traffic."""
    return stamp, b"\x01\x1b\x19\0\0\0" + bytes(5) + b"\x40" + struct.pack(">H", ethertype) + bytes(size - 14)


def taps_and_cables():
    """What taps, cables and other devices do: links, A and B, by name."""
    chance = random.Random(36)
    links = links_of(chance, 6)
    a, b = sent(chance, links, 50)
    yield "802.1Q tags", links, file_of(tagged(a)), file_of(tagged(b))
    yield "802.1Q tags on network B", links, file_of(a), file_of(tagged(b))
    full = [{**link, "smax": 64} for link in links]
    short = [[(stamp, data[:59] + data[-1:]) for stamp, data in tap] for tap in (a, b)]
    yield "802.1Q tags on frames of Smax", full, *(file_of(tagged(tap)) for tap in short)
    for untagged in (30, 31):
        yield f"802.1Q tags, which {untagged} of 300 frames of A lack", links, file_of(tagged(a, untagged)), file_of(b)
    whole = sent(chance, links, 30, check=True)[1]
    yield "check sequences on network B alone", links, file_of(a), file_of(whole)
    least = min(link["id"] for link in links)
    for name, swapped in (("one link", {least}), ("three links", set(sorted(link["id"] for link in links)[1:4]))):
        taps = [[(stamp, marked_as(data, data[11] ^ 0x60) if int.from_bytes(data[4:6], "big") in swapped else data) for stamp, data in tap] for tap in (a, b)]
        yield f"cables of {name} swapped", links, *(file_of(tap) for tap in taps)
    late = a[len(a) // 2][0]
    taps = [[(stamp, marked_as(data, data[11] ^ 0x60) if stamp >= late else data) for stamp, data in tap] for tap in (a, b)]
    yield "cables swapped from a moment on", links, *(file_of(tap) for tap in taps)
    taps = [[(stamp, marked_as(data, data[11] ^ 0x60) if k == 7 else data) for k, (stamp, data) in enumerate(tap)] for tap in (a, b)]
    yield "one frame of each network from the other", links, *(file_of(tap) for tap in taps)
    yield "one frame of A from the other network, and none of B", links, file_of(taps[0]), file_of(b)
    for unnamed in (30, 31):
        tap = [(stamp, marked_as(data, 0x40 if k == 299 else 0 if k < unnamed else 0x20)) for k, (stamp, data) in enumerate(a)]
        yield f"a frame from the other network, and {unnamed} of 300 that name none", links, file_of(tap), file_of(b)
    none = [[(stamp, marked_as(data, 0)) for stamp, data in tap] for tap in (a, b)]
    yield "source addresses that name no network", links, *(file_of(tap) for tap in none)
    unlisted = [link for link in links if link["id"] != least]
    taps = [[(stamp, marked_as(data, data[11] ^ 0x60) if int.from_bytes(data[4:6], "big") == least else data) for stamp, data in tap] for tap in (a, b)]
    yield "cables swapped of a link that the table lacks", unlisted, *(file_of(tap) for tap in taps)
    kinds = (0x88F7, 0x0806, 0x88F7, 0x88CC, 0x0800, 0x86DD, 0x8100, 0x05FF, 0, 0x0600)
    traffic = [other(START + k, kind) for k, kind in enumerate(kinds)]
    yield "other traffic of eight kinds on A", links, file_of(sorted(a + traffic)), file_of(b)
    traffic += [other(START + 50 + k, 0x9000 + k % 2) for k in range(5)]
    yield "other traffic of ten kinds on B", links, file_of(a), file_of(sorted(b + traffic))
    yield "one frame of other traffic", links, file_of(sorted(a + traffic[:1])), file_of(b)


def doubled(frames, which, later=2000, times=1):
    """Frames, of which those for which this holds, (place, stamp, bytes), come again, so many nanoseconds later."""
    again = [(stamp + (n + 1) * later, data) for k, (stamp, data) in enumerate(frames) if which(k, stamp, data) for n in range(times)]
    return sorted(frames + again, key=lambda one: one[0])


def mirrors():
    """Frames that are recorded twice: links, A and B, by name."""
    chance = random.Random(37)
    links = links_of(chance, 6)
    a, b = sent(chance, links, 50)
    link = links[3]
    is_of = lambda k, stamp, data: data[4:6] == struct.pack(">H", link["id"])
    late = a[len(a) // 2][0]
    yield "all frames of A twice", links, file_of(doubled(a, lambda *_: True)), file_of(b)
    yield "all frames of both networks twice", links, *(file_of(doubled(tap, lambda *_: True)) for tap in (a, b))
    yield "all frames of A three times", links, file_of(doubled(a, lambda *_: True, times=2)), file_of(b)
    yield "frames of one link of B twice", links, file_of(a), file_of(doubled(b, is_of))
    yield "frames of B twice from a moment on", links, file_of(a), file_of(doubled(b, lambda k, stamp, data: stamp >= late))
    yield "one frame of A twice", links, file_of(doubled(a, lambda k, stamp, data: k == 77)), file_of(b)
    yield "frames of B twice at one time", links, file_of(a), file_of(doubled(b, lambda k, stamp, data: k % 7 == 0, later=0))
    half = link["bag_ms"] * MS // 2
    for later in (half - 1, half):
        yield f"frames of a link of A twice, {later} ns later of {2 * half}", links, file_of(doubled(a, is_of, later)), file_of(b)
    again = [(stamp + 2000, data[:40] + bytes([data[40] ^ 1]) + data[41:]) for k, (stamp, data) in enumerate(a) if is_of(k, stamp, data)]
    yield "frames of a link of A twice, but for a bit", links, file_of(sorted(a + again)), file_of(b)
    off = [{**one, "integrity": one is not link} for one in links]
    yield "frames of a link of A twice, without integrity checking", off, file_of(doubled(a, is_of)), file_of(b)
    lacking = [one for one in links if one is not link]
    yield "frames of a link twice that the table lacks", lacking, file_of(doubled(a, is_of)), file_of(b)


def unlike_copies():
    """Copies that have other bytes than their frames: links, A and B, by name."""
    chance = random.Random(39)
    links = [{**link, "integrity": True, "redundancy": True} for link in links_of(chance, 6)]
    a, b = sent(chance, links, 50)
    link = links[2]
    is_of = lambda data: data[4:6] == struct.pack(">H", link["id"])
    flipped = lambda data, at: data[:at] + bytes([data[at] ^ 1]) + data[at + 1 :]
    longer = lambda data: data[:-1] + bytes(4) + data[-1:]
    for name, changed in (
        ("a bit of a link's frames on B", [(stamp, flipped(data, 40) if is_of(data) else data) for stamp, data in b]),
        ("a bit of one frame on B", [(stamp, flipped(data, 58) if k == 99 else data) for k, (stamp, data) in enumerate(b)]),
        ("a source address", [(stamp, flipped(data, 9)) for stamp, data in b]),
        ("the byte after it", [(stamp, flipped(data, 12) if k % 10 == 0 else data) for k, (stamp, data) in enumerate(b)]),
        ("lengths of frames on B", [(stamp, longer(data) if k % 3 == 0 and len(data) < 90 else data) for k, (stamp, data) in enumerate(b)]),
    ):
        yield f"copies with another value: {name}", links, file_of(a), file_of(changed)
    off = [{**one, "integrity": one is not link, "redundancy": one is not links[3]} for one in links]
    yield "copies of which some links aren't compared", off, file_of(a), file_of([(stamp, flipped(data, 40)) for stamp, data in b])
    counted_up = [[(stamp, data[:20] + struct.pack(">Q", (stamp // MS)) + data[28:]) for stamp, data in tap] for tap in (a, a)]
    yield "copies whose payload tells their time", links, file_of(counted_up[0]), file_of([(stamp + 3000, data[:11] + b"\x40" + data[12:]) for stamp, data in counted_up[1]])


# ---- clocks


def rounds():
    """Clocks that are apart by a round of 255 numbers of some links: links, A and B, by name."""
    for name, bags in (("two others", (8, 8, 8, 8, 8, 4, 32, 16)), ("one other", (8, 8, 8, 8, 8, 4, 4, 16)), ("none other", (8,) * 6)):
        links = [{"id": k + 1, "name": f"l{k}", "bag_ms": bag, "jitter_us": 500, "smax": 400, "integrity": True, "redundancy": True, "skew_us": 1000} for k, bag in enumerate(bags)]
        taps = {"A": [], "B": []}
        for link in links:
            step = link["bag_ms"] * MS
            for k in range(6_000 * MS // step):
                for network, late in (("A", 0), ("B", 40_000 + 255 * 8 * MS)):
                    data = marked_as(frame(link["id"], 80, k % 255 + 1), 0x20 if network == "A" else 0x40)
                    taps[network].append((START + link["id"] * 10_000 + k * step + late, data))
        yield f"the clock of B ahead by a round of links with BAG 8 ms, and {name}", links, *(file_of(sorted(taps[network])) for network in "AB")


def flight_of_clocks(chance, bags=(4, 8, 8, 16, 32, 64, 128, 16, 4, 8), seconds=20):
    """A sound flight of periodic links."""
    rows = [flights.link(k + 1, bag, 100, True, 5000) for k, bag in enumerate(bags)]
    return flights.flight_of(chance, [(row, list(flights.periodic(chance, row, seconds * 10**9)), "AB") for row in rows])


def stamp_of(text):
    """The nanoseconds since 1970 of a moment."""
    whole, _, fraction = text.removesuffix("Z").partition(".")
    second = (datetime.fromisoformat(whole + "+00:00") - datetime(1970, 1, 1, tzinfo=timezone.utc)) // timedelta(seconds=1)
    return second * 10**9 + int(fraction.ljust(9, "0") if fraction else 0)


def later(tap, at, size):
    """The frames of a tap whose clock goes forward by so much from a moment on."""
    return [(stamp + (size if stamp >= at else 0), data) for stamp, data in tap]


# By how much clocks are set.
SIZES = [800_000, 2 * MS, 5 * MS, 20 * MS, 50 * MS, 100 * MS, 300 * MS, 10**9, 2_040 * MS, 60 * 10**9, 3600 * 10**9]


def statistics(interface, options, order="<"):
    """A pcapng block of an interface's statistics."""
    body = struct.pack(order + "III", interface, 0, 0)
    for code, value in options:
        body += struct.pack(order + "HH", code, len(value)) + value + bytes(-len(value) % 4)
    body += bytes(4)
    return struct.pack(order + "II", 5, len(body) + 12) + body + struct.pack(order + "I", len(body) + 12)


def pcapng(interfaces, frames, order="<"):
    """A pcapng file of Ethernet interfaces with these names, and of frames (interface, stamp, bytes, and options that their packets have)."""
    block = lambda kind, body: struct.pack(order + "II", kind, len(body) + 12) + body + struct.pack(order + "I", len(body) + 12)
    out = block(0x0A0D0D0A, struct.pack(order + "IHHq", 0x1A2B3C4D, 1, 0, -1))
    for name in interfaces:
        text = name.encode()
        options = struct.pack(order + "HH", 2, len(text)) + text + bytes(-len(text) % 4) + struct.pack(order + "HH", 9, 1) + b"\x09\0\0\0" + bytes(4)
        out += block(1, struct.pack(order + "HHI", 1, 0, 0) + options)
    for interface, stamp, data, *given in frames:
        options = b"".join(struct.pack(order + "HH", code, len(value)) + value + bytes(-len(value) % 4) for code, value in given)
        fields = struct.pack(order + "IIIII", interface, stamp >> 32, stamp & 0xFFFFFFFF, len(data), len(data))
        out += block(6, fields + data + bytes(-len(data) % 4) + options + (bytes(4) if given else b""))
    return out


class Check(Case):
    def judged(self, name, ran, text, line=None):
        """An answer: its text whole, and the status and standard error that go with it."""
        sound = "\nsound: yes" in text
        fault = difference(ran, SUCCESS if sound else FAULT, ("" if sound else UNSOUND) if line is None else line)
        self.case(f"check: {name}", fault or first_difference(ran.stdout.decode(), text))

    def test_of_tables(self):
        path = os.path.join(self.folder, "t.toml")
        for name, table in tables():
            write(path, table.text)
            self.judged(name, asked("--config", path), text_of_table(path, table))
            ran = asked("--config", path, "--json")
            answer, faults = json.loads(ran.stdout), faults_of(table)
            fits = answer["table"]["faults"] == faults[:100] and answer["table"]["fault_count"] == len(faults) and answer["sound"] == (not faults)
            self.case(f"check: {name}, as JSON", "" if fits else f"{answer['table']} is not {faults[:3]}")

    def test_of_wide_tables(self):
        """Tables whose faults are no key's, and links in other forms."""
        path = os.path.join(self.folder, "t.toml")
        write(path, "constant = 50331648\nlink = [\n  { id = 5, bag_ms = 3 },\n  7,\n]\n")
        missing = [key for key in LINK if key not in ("id", "bag_ms")]
        text = f"table: {path}: 8 faults\nfault: {path}:2:1: link = a value of type array: {texts.ALLOWED['link']}\n"
        text += "".join(f"fault: {path}:3:3: link 0, id 5: {key} is missing: {texts.ALLOWED[key]}\n" for key in missing)
        text += f"fault: {path}:3:13: link 0, id 5: bag_ms = 3: {texts.ALLOWED['bag_ms']}\nsound: no, 8 faults and 0 questions\n"
        self.judged("links as inline tables, one of them none", asked("--config", path), text)
        write(path, "constant = 50331648\nlate_us == 1\n")
        ran = asked("--config", path)
        self.case("check: a text that is no TOML", difference(ran, FAULT, UNSOUND) or ("" if ran.stdout.startswith(f"table: {path}: 1 fault\nfault: {path}:2:".encode()) else repr(ran.stdout)))
        many = Table(TOP, [{**LINK, "id": str(k), "name": f'"l{k}"'} for k in range(4097)])
        write(path, many.text)
        line, _ = many.places[4096, None]
        text = f"table: {path}: 1 fault\nfault: {path}:{line}:1: 4097 links and 0 filters: at most 4096 links and 7 filters\nsound: no, 1 fault and 0 questions\n"
        self.judged("4097 links", asked("--config", path), text)
        write(path, Table({**TOP, "filters": str(["1,6 0 0 0,"] * 8).replace("'", '"')}, [LINK]).text)
        text = f"table: {path}: 1 fault\nfault: {path}:3:1: 1 link and 8 filters: at most 4096 links and 7 filters\nsound: no, 1 fault and 0 questions\n"
        self.judged("eight filters", asked("--config", path), text)

    def test_of_filters(self):
        path, code = os.path.join(self.folder, "t.toml"), os.path.join(self.folder, "f.bpf")
        write(path, Table({**TOP, "filters": '["1,6 0 0 0,", "2,6 0 0 0,255 0 0 0,", "x"]'}, [LINK]).text)
        write(code, "2,5 0 0 1,6 0 0 0,")
        text = f"table: {path}: 1 link, constant 50331648\nfault: load 7 Jump at 0\nfilter: 1 of the table: 1 instruction\n"
        text += "fault: load 2 UnknownCode at 1 filter 2\nfault: numeric 1 Character at 0 filter 3\nsound: no, 3 faults and 0 questions\n"
        self.judged("three filters that are refused", asked("--config", path, "--filter", code), text)
        write(path, Table(TOP, [LINK]).text)
        write(code, "3,40 0 0 12,6 0 0 4294967295,6 0 0 0,")
        text = f"table: {path}: 1 link, constant 50331648\nfilter: --filter: 3 instructions\nsound: yes\n"
        self.judged("a filter", asked("--config", path, "--filter", code), text)

    def test_of_clocks(self):
        """Clocks that are set while they record, which is told with its size and its moment, and what looks like it."""
        config, paths = os.path.join(self.folder, "t.toml"), {n: os.path.join(self.folder, f"{n}.pcap") for n in "AB"}

        def answer(flight, taps):
            write(config, flights.table_of(flight.links))
            for n in "AB":
                write(paths[n], header() + b"".join(record(START + stamp, data) for stamp, data in taps[n]))
            given = [word for n in "AB" if taps[n] for word in (f"--{n.lower()}", paths[n])]
            return json.loads(asked("--config", config, *given, "--json").stdout)

        for seed, (n, size, part) in enumerate((n, size, part) for n in "AB" for size in SIZES for part in (0.3, 0.5, 0.7)):
            chance = random.Random(3900 + seed)
            flight = flight_of_clocks(chance)
            at = int(part * 20 * 10**9) + chance.randrange(10**9)
            found = answer(flight, {**flight.taps, n: later(flight.taps[n], at, size)})["questions"]
            one = found[0] if len(found) == 1 else None
            fits = one and one["question"] == f"step_{n.lower()}" and one["difference"]["ahead"] == n
            told = int(one["difference"]["nanoseconds"]) if fits else 0
            close = abs(told - size) <= (max(size // 20, 150_000) if "set forward by" in (one or {}).get("text", "") else 10 * MS)
            moments = [stamp_of(text) for text in re.findall(r"[0-9-]+T[0-9:.]+Z", one["text"])] if fits else []
            around = len(moments) == 2 and moments[0] < START + at <= moments[1] and moments[1] - moments[0] < size + 500 * MS
            self.case(f"check: the clock of {n} goes forward by {size / 10**9} s after {part} of the flight", "" if fits and close and around else json.dumps(found))
        chance = random.Random(3950)
        flight = flight_of_clocks(chance)
        early = 3 * 10**9
        for name, taps in (
            ("of B", {**flight.taps, "B": [(stamp if stamp >= early else stamp - START, data) for stamp, data in flight.taps["B"]]}),
            ("of A alone", {"A": [(stamp if stamp >= early else stamp - START, data) for stamp, data in flight.taps["A"]], "B": []}),
        ):
            found = answer(flight, taps)["questions"]
            fits = len(found) == 1 and found[0]["question"] == f"step_{name[3].lower()}" and "from 1970-01-01T00:00:02." in found[0]["text"] and " to 2027-" in found[0]["text"]
            self.case(f"check: a clock {name} that begins in 1970", "" if fits else json.dumps(found))
        paused = {n: [(stamp if stamp < 8 * 10**9 else stamp + 4 * 10**9, data) for stamp, data in flight.taps[n]] for n in "AB"}
        lost = {**flight.taps, "B": [f for f in flight.taps["B"] if not 8 * 10**9 <= f[0] < 10 * 10**9]}
        moved = lambda links, size: {**flight.taps, "B": sorted((stamp + (size if data[5] in links and stamp >= 9 * 10**9 else 0), data) for stamp, data in flight.taps["B"])}
        for name, taps in (
            ("all senders pause", paused), ("all senders of one recording pause", {"A": paused["A"], "B": []}), ("network B is silent, and its frames are lost", lost),
            ("the path of one link becomes longer", moved((4,), 1_500_000)), ("the paths of half of the links become longer", moved((1, 2, 3, 4, 5), 1_500_000)),
            ("the path of one link becomes much longer", moved((4,), 40 * MS)),
        ):
            found = answer(flight, taps)["questions"]
            self.case(f"check: {name}", "" if not found else json.dumps(found))
        for ppm in (60, -80, 400):
            found = answer(flight, {**flight.taps, "B": [(stamp + stamp * ppm // 10**6, data) for stamp, data in flight.taps["B"]]})["questions"]
            self.case(f"check: clocks that drift by {ppm} ppm", "" if [one["question"] for one in found] == ["drift"] else json.dumps(found))

    def test_of_small_steps(self):
        """A clock that is set by 1 ms while frames are up to 300 us late: that is no drift. One that drifts is asked for."""
        chance = random.Random(3990)
        links = [{**link, "period": link["bag_ms"] * MS} for link in ({"id": k, "bag_ms": chance.choice((32, 64, 128))} for k in range(1, 13))]
        rows = [{"id": one["id"], "name": f"vl_{one['id']}", "bag_ms": one["bag_ms"], "jitter_us": 500, "smax": 200, "integrity": True, "redundancy": True,
                 "skew_us": 5000} for one in links]
        config, end = write(os.path.join(self.folder, "t.toml"), toml_of(rows)), 60 * 10**9

        def tap(late, moved):
            """Each frame is up to 300 us late on each network, and the clock of A goes forward as it is said."""
            found = []
            for one in links:
                first = chance.randrange(30 * MS)
                found += [(first + k * one["period"], frame(one["id"], 96, k % 255 + 1)) for k in range((end - first) // one["period"])]
            taps = [[(at + chance.randrange(300_000) + late * n, data) for at, data in found] for n in (0, 1)]
            return sorted((at + moved(at), data) for at, data in taps[0]), sorted(taps[1])

        for name, moved, wanted in (
            *((f"is set by 1 ms at {at} s", lambda stamp, at=at: MS if stamp >= at * 10**9 else 0, (["step_a"], [])) for at in (10, 20, 30, 40, 50)),
            ("drifts by 20 ppm", lambda stamp: stamp // 50_000, (["drift"],)),
            ("drifts by -30 ppm", lambda stamp: -stamp * 3 // 100_000, (["drift"],)),
        ):
            paths = [write(os.path.join(self.folder, f"{n}.pcap"), header() + b"".join(record(START + at, data) for at, data in frames))
                     for n, frames in zip("ab", tap(200_000, moved))]
            found = json.loads(asked("--config", config, "--a", paths[0], "--b", paths[1], "--json").stdout)["questions"]
            self.case(f"check: the clock of A {name}", "" if [one["question"] for one in found] in wanted else json.dumps(found))

    def test_of_holes(self):
        """Zeros and noise within a file: what ends the recording isn't a time."""
        links = [{"id": 5, "name": "brake", "bag_ms": 1, "jitter_us": 0, "smax": 200, "integrity": False, "redundancy": False, "skew_us": 0}]
        config, path = write(os.path.join(self.folder, "t.toml"), toml_of(links)), os.path.join(self.folder, "a.pcap")
        frames = [record(START + k * MS, frame(5, 60, k + 1)) for k in range(40)]
        hole = "by more than a day: zeros or noise stand in the file there (a bad sector, a hole), or a clock was reset"
        for name, there, why in (
            ("512 zeros", bytes(512), f"timestamp out of order {hole}"),
            ("16 zeros", bytes(16), f"timestamp out of order {hole}"),
            ("ones", b"\xff" * 512, "captured length over 262144 bytes"),
        ):
            write(path, header() + b"".join(frames[:20]) + there + b"".join(frames[20:]))
            ran = asked("--config", config, "--a", path)
            wanted = f"fault: of network A no frame is read after 20 frames: {why}\n"
            found = "".join(line + "\n" for line in ran.stdout.decode().splitlines() if line.startswith("fault: "))
            self.case(f"check: {name} within a file", "" if found == wanted and ran.returncode == FAULT else ran.stdout.decode())
            ran = run(["watch", "--config", config, "--a", path, "--ledger", os.path.join(self.folder, "l")])
            note = f"afdxmon: note: recording of network A ends bad after 20 frames: {why}"
            self.case(f"check: {name} within a file, watch", difference(ran, SUCCESS, note))

    def test_of_drops(self):
        """What recorders say at the ends of pcapng files of packets that they dropped."""
        links = [{"id": 5, "name": "brake", "bag_ms": 1, "jitter_us": 0, "smax": 200, "integrity": False, "redundancy": False, "skew_us": 0}]
        config, paths = write(os.path.join(self.folder, "t.toml"), toml_of(links)), [os.path.join(self.folder, name) for name in ("a.pcapng", "b.pcapng")]
        frames = [(0, START + k * MS, frame(5, 60, k + 1)) for k in range(4)]
        both = frames + [(1, START + k * MS, frame(5, 60, k + 1)) for k in range(4, 8)]
        for order in "<>":
            count = lambda number: struct.pack(order + "Q", number)
            one = pcapng(["eth0"], frames, order)
            two = pcapng(["eth0", "eth1"], both, order)
            drops = statistics(0, [(2, count(1)), (4, count(900)), (5, count(400)), (7, count(75))], order)
            of_second = statistics(1, [(5, count(3))], order)
            # Each packet may say how many were dropped before it: 3 before the third of the first interface, 40 before the last of each.
            before = {2: 3, 3: 40, 7: 40}
            lossy = [(*one, (4, count(before.get(number, 0))), *[(1, b"seen")] * (number % 2)) for number, one in enumerate(both)]
            long_comment = [(0, START, frame(5, 60, 1), (1, bytes(4_464)), (4, count(2**33)))]
            huge = [(0, START + k * MS, frame(5, 60, k + 1), (1, bytes(40_000)), (4, count(1))) for k in range(20)]
            other_code = [(0, START, frame(5, 60, 1), (5, count(9)), (4, count(9)[:4]))]
            for name, recording, choice, dropped in (
                ("nothing", one, "", 0),
                ("no drop", one + statistics(0, [(4, count(9)), (5, count(0))], order), "", 0),
                ("drops of the interface and of the system", one + drops, "", 475),
                ("one drop", one + statistics(0, [(5, count(1))], order), "", 1),
                ("statistics without options", one + statistics(0, [], order), "", 0),
                ("a count of four bytes", one + statistics(0, [(5, count(7)[:4])], order), "", 0),
                ("a comment before the count", one + statistics(0, [(1, b"hello"), (5, count(2**40))], order), "", 2**40),
                ("two blocks", one + drops + statistics(0, [(5, count(1))], order), "", 476),
                ("a block of 4096 bytes", one + statistics(0, [(1, bytes(4052)), (5, count(6))], order), "", 6),
                ("a block of 4100 bytes", one + statistics(0, [(1, bytes(4056)), (5, count(6))], order), "", 0),
                ("the first interface", two + drops + of_second, ":0", 475),
                ("the second interface", two + drops + of_second, ":1", 3),
                ("the second interface by its name", two + drops + of_second, ":eth1", 3),
                ("statistics before packets", pcapng(["eth0"], [], order) + drops + pcapng(["eth0"], frames, order), "", 0),
                ("packets that were dropped before others", pcapng(["eth0"], lossy[:4], order), "", 43),
                ("packets dropped, by interface", pcapng(["eth0", "eth1"], lossy, order), ":0", 43),
                ("packets dropped, by the second interface's name", pcapng(["eth0", "eth1"], lossy, order), ":eth1", 40),
                ("fewer at the end than before packets", pcapng(["eth0"], lossy[:4], order) + statistics(0, [(5, count(42))], order), "", 43),
                ("more at the end than before packets", pcapng(["eth0"], lossy[:4], order) + statistics(0, [(5, count(44))], order), "", 44),
                ("a count behind a long comment", pcapng(["eth0"], long_comment, order), "", 2**33),
                ("counts over several blocks of a read", pcapng(["eth0"], huge, order), "", 20),
                ("another option, and a count of four bytes", pcapng(["eth0"], other_code, order), "", 0),
                ("two sections of two orders", pcapng(["eth0"], lossy[:4], order) + pcapng(["eth0"], lossy[:0], "<>"[order == "<"]) + pcapng(["eth0"], [(0, START + MS * 9, frame(5, 60, 9), (4, struct.pack("<>"[order == "<"] + "Q", 7)))], "<>"[order == "<"]), "", 50),
                ("a pcap file that ends like statistics", header() + record(START, frame(5, 60, 1)) + record(START + 1, drops.ljust(100, b"\0")[-100:] + drops), "", 0),
            ):
                write(paths[0], recording)
                ran = asked("--config", config, "--a", paths[0] + choice)
                wanted = f"note: the recorder of network A dropped {counted(dropped, 'packet')}\n" if dropped else ""
                found = "".join(line + "\n" for line in ran.stdout.decode().splitlines() if " dropped " in line)
                self.case(f"check: dropped, {name}, {order}", "" if found == wanted else f"{found!r}, not {wanted!r}; {ran.stdout}")
                answer = json.loads(asked("--config", config, "--a", paths[0] + choice, "--json").stdout)
                self.case(f"check: dropped, {name}, {order}, as JSON", "" if answer["a"]["dropped"] == dropped else str(answer["a"]))
                outputs = [os.path.join(self.folder, name) for name in ("l", "m.json", "page.html")]
                ran = run(["watch", "--config", config, "--a", paths[0] + choice, "--ledger", outputs[0], "--manifest", outputs[1]])
                note = f"afdxmon: note: the recorder of network A dropped {counted(dropped, 'packet')}" if dropped else ""
                with open(outputs[1], encoding="utf-8") as file:
                    manifest = json.load(file)["inputs"]["a"]["dropped"]
                run(["report", "--config", config, "--ledger", outputs[0], "--manifest", outputs[1], "-o", outputs[2]])
                with open(outputs[2], encoding="ascii") as file:
                    page = file.read().replace("&#8239;", "")
                said = f"its recorder dropped {counted(dropped, 'packet')}: lost numbers may be these" in page
                fits = manifest == (dropped or None) and said == (dropped > 0) and said == (" dropped " in page)
                self.case(f"check: dropped, {name}, {order}, watch and its report", difference(ran, SUCCESS, note) or ("" if fits else f"{manifest}, {said}"))
            write(paths[0], one + drops)
            write(paths[1], pcapng(["eth0"], [(0, stamp + 10**9, data) for _, stamp, data in frames], order) + statistics(0, [(7, count(25))], order))
            ran = asked("--config", config, "--a", paths[0], paths[1])
            self.case(f"check: dropped, of two files, {order}", "" if b"note: the recorder of network A dropped 500 packets\n" in ran.stdout else str(ran.stdout))

    def test_of_recordings(self):
        config, paths = os.path.join(self.folder, "t.toml"), {network: os.path.join(self.folder, f"{network}.pcap") for network in "AB"}
        for name, links, a, b in (*pairs(), *taps_and_cables(), *mirrors(), *unlike_copies(), *rounds()):
            write(config, toml_of(links))
            given, recordings = ["--config", config], {}
            for network, recording in (("A", a), ("B", b)):
                if recording is not None:
                    given += [f"--{network.lower()}", write(paths[network], recording)]
                    recordings[network] = (paths[network], recording)
            text = expected(config, links, recordings)
            self.judged(name, asked(*given), text)
            answer = json.loads(asked(*given, "--json").stdout)
            told = [f"question: {one['text']}" for one in answer["questions"]]
            fits = told == questions_in(text) and answer["sound"] == text.endswith("yes\n")
            fits = fits and [link["id"] for link in answer["links"]] == sorted(link["id"] for link in links)
            self.case(f"check: {name}, as JSON", "" if fits else json.dumps(answer)[:600])

    def test_of_expected(self):
        """Other traffic that is expected, by names and by numbers."""
        chance = random.Random(38)
        links = links_of(chance, 4)
        a, b = sent(chance, links, 30)
        kinds = (0x88F7, 0x88CC, 0x88F7, 0x0806, 0x0026, 0x8100, 0x9000, 0x9001, 0x9002, 0x9003, 0x9004, 0x9005, 0x9006)
        traffic = [other(START + k, kind) for k, kind in enumerate(kinds)]
        config, paths = write(os.path.join(self.folder, "t.toml"), toml_of(links)), [os.path.join(self.folder, f"{network}.pcap") for network in "ab"]
        for name, frames_a, frames_b in (("some", sorted(a + traffic), b), ("nearly all", traffic, []), ("none", a, b)):
            recordings = {"A": (write(paths[0], file_of(frames_a)), file_of(frames_a)), "B": (write(paths[1], file_of(frames_b)), file_of(frames_b))}
            for text, of in (
                ("ptp", [0x88F7]),
                ("lldp,ptp,arp,ipv4", [0x88CC, 0x88F7, 0x0806, 0x0800]),
                ("0x9006,0x88f7,ptp", [0x9006, 0x88F7]),
                ("802.3,802.1q,ipv6", [0, 0x8100, 0x86DD]),
                ("ptp,lldp,arp,802.3,802.1q,0x9000,0x9001,0x9002,0x9003,0x9004,0x9005,0x9006", list(dict.fromkeys(kinds[:4])) + [0, *kinds[5:]]),
            ):
                ran = asked("--config", config, "--a", paths[0], "--b", paths[1], "--expected", text)
                self.judged(f"{name} other traffic, --expected {text}", ran, expected(config, links, recordings, traffic=of))
                answer = json.loads(asked("--config", config, "--a", paths[0], "--b", paths[1], "--expected", text, "--json").stdout)
                told = {one["ethertype"]: one["frames"] for one in answer["foreign"] if one["expected"]}
                there = {kind: sum((one if one >= 0x600 else 0) == kind for one in kinds) if name != "none" else 0 for kind in of}
                self.case(f"check: {name} other traffic, --expected {text}, as JSON", "" if told == there else f"{answer['foreign']}, not {there}")
        for text in ("", "ptp,", "PTP", "0x5ff", "0x10000", "88f7", "ptp lldp"):
            ran = asked("--config", config, "--expected", text)
            wanted = texts.MISUSE["NoKind"].encode()
            self.case(f"check: --expected {text!r}", "" if ran.returncode == 2 and wanted in ran.stderr else f"{ran.returncode}: {ran.stderr!r}")

    def test_of_disorder(self):
        """A frame out of order, by how much, and the `late_us` of the table that takes it: with that the recording is read whole."""
        links = [{"id": 5, "name": "brake", "bag_ms": 1, "jitter_us": 0, "smax": 200, "integrity": False, "redundancy": False, "skew_us": 0}]
        config, path = os.path.join(self.folder, "t.toml"), os.path.join(self.folder, "a.pcap")
        for late, told in (
            (999, " by 999 ns (late_us = 1 of the table takes it)"),
            (1000, " by 1 us (late_us = 1 of the table takes it)"),
            (1001, " by 1 us (late_us = 2 of the table takes it)"),
            (10**9, " by 1.000 s (late_us = 1000000 of the table takes it)"),
            (10**9 + 1, " by 1.000 s"),
            (86_400 * 10**9 - 1, " by 86399.999 s"),
            (86_400 * 10**9, " by more than a day: zeros or noise stand in the file there (a bad sector, a hole), or a clock was reset"),
        ):
            stamps = (START, START + 2 * 10**9, START + 2 * 10**9 - late, START + 3 * 10**9)
            recording = header() + b"".join(record(stamp, frame(5, 60, i + 1)) for i, stamp in enumerate(stamps))
            write(path, recording)
            for window in (0, -(-late // 1000)):
                write(config, toml_of(links, late=min(window, 10**6)))
                line = "" if 0 < window <= 10**6 else f"fault: of network A no frame is read after 2 frames: timestamp out of order{told}\n"
                for what, a, how in (("a file", path, {}), ("a pipe", "-", {"input": recording})):
                    ran = asked("--config", config, "--a", a, **how)
                    found = "".join(line + "\n" for line in ran.stdout.decode().splitlines() if line.startswith("fault: "))
                    fits = found == line and ran.returncode == (FAULT if line else SUCCESS)
                    self.case(f"check: a frame late by {late} ns, late_us {window}, of {what}", "" if fits else ran.stdout.decode())

    def test_of_inputs(self):
        """Standard input, pcapng, damaged files, a terminal and a full output."""
        chance = random.Random(41)
        links = links_of(chance, 3)
        a, b = (file_of(tap) for tap in sent(chance, links, 40))
        config, paths = write(os.path.join(self.folder, "t.toml"), toml_of(links)), [os.path.join(self.folder, name) for name in ("a.pcap", "b.pcap", "a.pcapng", "no.pcap")]
        write(paths[0], a)
        write(paths[1], b)
        text = expected(config, links, {"A": (paths[0], a), "B": (paths[1], b)})
        for option, path, content in (("--config", config, toml_of(links).encode()), ("--a", paths[0], a), ("--b", paths[1], b)):
            given = {"--config": config, "--a": paths[0], "--b": paths[1], option: "-"}
            ran = asked(*(word for pair in given.items() for word in pair), input=content)
            self.judged(f"{option} from standard input", ran, text.replace(f" {path}:", " standard input:"))
        ran = asked("--config", "-", "--a", "-", input=b"")
        self.case("check: standard input twice", difference(ran, FAULT, "afdxmon: file --a", b""))
        run(["capture", "--code", "1,6 0 0 4294967295,", paths[0], "-o", paths[2], "--pcapng"])
        self.judged("a pcapng recording", asked("--config", config, "--a", paths[2], "--b", paths[1]),
               expected(config, links, {"A": (paths[2], a), "B": (paths[1], b)}, kinds=(("A", "pcapng"),)))
        write(paths[3], b"no recording, but some bytes")
        text = f"table: {config}: 3 links, constant 50331648\nfault: watch 2 Header B 2 Magic\nsound: no, 1 fault and 0 questions\n"
        self.judged("a file that is no recording", asked("--config", config, "--a", paths[0], "--b", paths[3]), text)
        packed = write(os.path.join(self.folder, "b.pcap.gz"), b"\x1f\x8b\x08\0" + bytes(30))
        ran = run(["check", "--config", config, "--a", paths[0], "--b", packed, "-v"], stdout=subprocess.PIPE)
        told = f"{UNSOUND}\n{texts.ADVICE['check 1 Unsound']}\n{packed}: {texts.GZIP.format(packed)}\n"
        self.case("check: a compressed recording, in full", difference(ran, FAULT, lambda said: said == told, text.encode()))
        for option in ("--config", "--filter", "--a", "--b"):
            given = {"--config": config, option: os.path.join(self.folder, "absent")}
            self.case(f"check: {option} that isn't there", difference(asked(*(word for pair in given.items() for word in pair)), FAULT, f"afdxmon: file {option}", b""))
        with open("/dev/full", "wb") as full:
            ran = run(["check", "--config", config], stdout=full)
        self.case("check: a full output", difference(ran, FAULT, "afdxmon: file -"))
        with open("/dev/full", "wb") as full:
            ran = run(["check", "--config", config, "-v"], stdout=full)
        self.case("check: a full output, in full", difference(ran, FAULT, f"afdxmon: file -\nstandard output: {texts.FULL}\n{texts.UNWRITTEN}"))
        write(config, toml_of(links).replace("bag_ms = ", "bag_ms = 3 #"))
        ran = run_at_terminal(["check", "--config", config])
        advice = texts.ADVICE["check 1 Unsound"]
        self.case("check: an unsound run at a terminal", "" if ran.returncode == FAULT and ran.stderr == f"{UNSOUND}\n{advice}\n" else repr(ran.stderr))

    def test_of_long_recordings(self):
        """Of more than 10^6 frames the first are read; the others may be anything."""
        links = [{"id": 5, "name": "brake", "bag_ms": 1, "jitter_us": 0, "smax": 200, "integrity": False, "redundancy": False, "skew_us": 0}]
        config, paths = write(os.path.join(self.folder, "t.toml"), toml_of(links)), [os.path.join(self.folder, name) for name in ("a.pcap", "b.pcap")]
        one, goes_on = record(START, frame(5, 60, 1)), "it goes on, and no more was read"
        many = record(START + 9, frame(5, 60, 2))
        for name, more, goes_on, part in (
            ("10^6 frames", b"", "it ends clean", ""),
            ("a frame more", many, goes_on, " (99 %)"),
            ("as many more", many * 10**6, goes_on, " (50 %)"),
            ("as many more, of a pipe", many * 10**6, goes_on, ""),
        ):
            with open(paths[0], "wb") as file:
                file.write(header() + one * 10**6 + more)
            write(paths[1], header() + record(START + 5, frame(5, 60, 1)))
            text = f"table: {config}: 1 link, constant 50331648\n"
            text += f"network A: {paths[0]}: pcap, little-endian, nanoseconds; 1000000 frames, {moment(START)} to {moment(START)}; {goes_on}\n"
            text += f"network B: {paths[1]}: pcap, little-endian, nanoseconds; 1 frame, {moment(START + 5)} to {moment(START + 5)}; it ends clean\n"
            text += f"overlap: not within what was read of the recordings\nsound: yes; of A by its first 1000000 frames{part}\n" if more else f"overlap: none\n{asking(*APART)}sound: no, 0 faults and 1 question\n"
            if name.endswith("pipe"):
                with open(paths[0], "rb") as given:
                    piped = subprocess.Popen(["cat"], stdin=given, stdout=subprocess.PIPE)
                ran = asked("--config", config, "--a", "-", "--b", paths[1], stdin=piped.stdout)
                piped.stdout.close()
                piped.wait()
                self.judged(name, ran, text.replace(f" {paths[0]}:", " standard input:"))
                continue
            self.judged(name, asked("--config", config, "--a", paths[0], "--b", paths[1]), text)
