"""`afdxmon links` as a program: its drafts byte by byte, compared with estimates over whole lists of frames.

The estimates share nothing with the product: jitter is the greatest over all windows of frames, the median stands in
the sorted gaps, and a copy is looked for among all earlier frames. A run of `watch` with each draft follows.
"""
import os
import random
import re
import struct
import subprocess
from decimal import ROUND_HALF_UP, Decimal
from itertools import accumulate

from tests.check import counted, moment
from tests.harness import EVERY, FAULT, SUCCESS, Case, difference, frame, header, record, run
from tests.reference import parse

MS = 10**6
BAGS = [MS << power for power in range(8)]
GROUP = 0x03000000
START = 1_700_000_000 * 10**9
# How far a timestamp may lie below one before it.
LATE = 10**9
MAX_LINKS = 4096
HEAD = """\
# A draft of the table of virtual links: what was seen in recordings, and not what was specified.
# Check each value against the ICD.
"""
ENDINGS = {
    "clean": "# Network {}: {}.\n",
    "cut": "# Network {}: {}, then the recording is truncated.\n",
    "bad": "# Network {}: {}, then a packet that can't be read.\n",
}
WRONG = {"foreign", "unconfigured", "toolong", "excess"}


def bucket(gap):
    """From where up to where the gaps reach that share a bucket with this one."""
    units = gap >> 11
    if units >= 1 << 19:
        return 1 << 30, 1 << 64
    shift = max(units.bit_length() - 6, 0)
    return units >> shift << shift << 11, ((units >> shift) + 1) << shift << 11


def needs_of(stamps, bag):
    """What each frame but the first needs: the greatest over the windows that it ends."""
    return [max((j - i) * bag - (stamps[j] - stamps[i]) for i in range(j + 1)) for j in range(1, len(stamps))]


class Side:
    """The frames of a link on one network."""

    def __init__(self, frames):
        self.stamps = [stamp for stamp, _, _ in frames]
        self.numbers = [number for _, _, number in frames]
        self.size = max((length for _, length, _ in frames), default=0)
        self.gaps = [after - before for before, after in zip(self.stamps, self.stamps[1:])]
        steps = list(zip(self.numbers, self.numbers[1:]))
        self.follow = sum(after == before % 255 + 1 for before, after in steps)
        self.others = len(steps) - self.follow
        self.median = bucket(sorted(self.gaps)[(len(self.gaps) - 1) // 2]) if self.gaps else None

    def bag(self):
        if not self.median:
            return BAGS[-1]
        return max([bag for bag in BAGS if bag // 21 * 20 < self.median[1]], default=BAGS[0])

    def seen(self, network):
        if not self.stamps:
            return f"# {network}: no frame.\n"
        if len(self.stamps) == 1:
            return f"# {network}: 1 frame.\n"
        text = f"# {network}: {len(self.stamps)} frames; of their numbers {self.follow} follow, {self.others} don't.\n"
        if self.gaps:
            reach = f"{min(self.gaps) // 1000} to {max(self.gaps) // 1000} us, median about {about(max(self.median[0], min(self.gaps)))}"
            text += f"# {network}: intervals {reach}.\n"
        return text

    def needed(self, network, bag):
        needs = needs_of(self.stamps, bag)
        most = -(-max(needs, default=0) // 1000)
        if not most:
            return 0, ""
        at = self.stamps[1 + needs.index(max(needs))]
        text = f"# {network}: largest need {most} us, at {moment(at)}"
        text += ", more than a table allows" if most > 100_000 else ""
        enough = [p for p in range(18) if sum(need // 1000 >= 1 << p for need in needs) <= len(self.stamps) // 1000]
        text += f"; all but 0.1 per cent of the frames need less than {1 << enough[0]} us" if enough and 1 << enough[0] < most else ""
        return most, text + ".\n"


def copies_of(frames):
    """The skews of the copies among a link's frames, (network, stamp, number) in order."""
    skews, copies = [], set()
    for at, (network, stamp, number) in enumerate(frames):
        before = next((k for k in reversed(range(at)) if frames[k][2] == number), None)
        if before is None or before in copies or frames[before][0] == network:
            continue
        since = sum(frames[k][0] != network for k in range(before, at))
        if since <= 128 and stamp - frames[before][1] <= 10**9:
            copies.add(at)
            skews.append(stamp - frames[before][1])
    return skews


def estimate(frames, bag=None):
    """What is drafted of a link's frames, where the BAG is given with the jitter that they need at it."""
    sides = sides_of(frames)
    bag = bag or min(side.bag() for side in sides)
    most = max(side.needed(network, bag)[0] for network, side in zip("AB", sides))
    skews = copies_of([(on, stamp, number) for on, stamp, _, number in frames])
    fewer = min(len(side.stamps) for side in sides)
    both = fewer > 0 and len(skews) * 2 >= fewer
    size = max(side.size for side in sides) + 4
    return {
        "bag_ms": bag // MS,
        "jitter_us": min(most, 100_000),
        "smax": max(size + size % 2, 64),
        "integrity": sum(s.follow for s in sides) >= sum(s.others for s in sides),
        "redundancy": both,
        "skew_us": min(-(-max(skews) // 1000), 10**6) if both else 0,
    }


def sides_of(frames):
    return [Side([(stamp, length, number) for on, stamp, length, number in frames if on == network]) for network in "AB"]


def seen_text(frames, bag):
    sides = sides_of(frames)
    text = sides[0].seen("A") + sides[1].seen("B")
    text += "".join(side.needed(network, bag)[1] for network, side in zip("AB", sides))
    copies = len(copies_of([(on, stamp, number) for on, stamp, _, number in frames]))
    return text + f"# {counted(copies, 'frame')} came on both networks.\n"


def keys_text(link, name, values):
    text = f'id = {link}\nname = "{name}"\n'
    return text + "".join(f"{key} = {str(value).lower()}\n" for key, value in values.items())


def link_text(link, frames):
    values = estimate(frames)
    return "\n[[link]]\n" + seen_text(frames, values["bag_ms"] * MS) + keys_text(link, f"vl_{link}", values)


def draft(a, b, wanted=None):
    """The draft of two recordings, each bytes or None."""
    return drafted(HEAD, a, b, wanted, lambda links: "".join(link_text(link, links[link]) for link in sorted(links)))


def about(nanos):
    """A length of time, rounded half up to three digits, but to no less than a microsecond and no more than a millisecond."""
    digit = Decimal(10) ** min(max(Decimal(nanos).adjusted() - 2, 3), 6)
    rounded = (Decimal(nanos) / digit).quantize(Decimal(1), ROUND_HALF_UP) * digit
    return f"{int(rounded / 1000)} us" if rounded < MS else f"{Decimal(int(rounded / 1000)) / 1000:f} ms"


def window_text(a, b, late):
    """The line of `late_us`: twice what was seen, at least 100 and at most 1000000."""
    seen = -(-late // 1000)
    why = "no recording was given" if a is None and b is None else f"one was {seen} us late" if seen else "none was seen"
    return f"late_us = {min(max(2 * seen, 100), 10**6)}  # room for timestamps out of order: {why}\n"


def left_out_text(links):
    """The comment on the links whose frames are all cut short."""
    named = ", ".join(map(str, links[:8])) + (f" and {len(links) - 8} more" if len(links) > 8 else "")
    return f"# Links that aren't here, since all their frames are cut short: {named}.\n" if links else ""


def drafted(head, a, b, wanted, texts):
    """A draft with this head, and the text of all links, by their frames."""
    text, frames, unusable, late = head, [], 0, 0
    for network, recording in (("A", a), ("B", b)):
        if recording is None:
            continue
        found, ending = parse(recording, LATE)
        stamps = [stamp for stamp, _, _ in found]
        late = max([late, *(high - stamp for high, stamp in zip(accumulate(stamps, max), stamps))])
        kind, count = ending.split()[:2]
        text += ENDINGS[kind].format(network, counted(int(count), "frame"))
        frames += [(stamp, network, k, length, data) for k, (stamp, length, data) in enumerate(found)]
    fields, cut = {}, {}
    strays = 0
    for stamp, network, _, length, data in sorted(frames, key=lambda f: f[:3]):
        if len(data) < 6 or len(data) < length or not 60 <= length <= 1514:
            unusable += 1
            if 6 <= len(data) < length and data[0] & 3 == 3:
                constant, link = struct.unpack_from(">IH", data)
                cut.setdefault(link, constant)
            continue
        constant, link = struct.unpack_from(">IH", data)
        kept = constant == wanted if wanted is not None else constant & GROUP == GROUP
        if constant not in fields and (not kept or len(fields) >= 8):
            strays += 1
            continue
        fields.setdefault(constant, []).append((link, network, stamp, length, data[-1]))
    several = f"# {unusable} frames weren't recorded whole, or aren't of 60 to 1514 bytes.\n"
    text += "# 1 frame wasn't recorded whole, or isn't of 60 to 1514 bytes.\n" if unusable == 1 else several if unusable else ""
    main = max(fields, key=lambda constant: len(fields[constant]), default=wanted)
    text += left_out_text([link for link, constant in sorted(cut.items()) if main in (None, constant) and all(
        link != of[0] for of in fields.get(main, []))])
    if not fields:
        none = "this constant field" if wanted is not None else "a constant field with bits 24 and 25 set"
        none = f"No frame has {none}" if a is not None or b is not None else "No recording was given"
        assumed = f"{none}: 0x{GROUP:08x} is assumed" if wanted is None else none
        return text + f"# {assumed}.\nconstant = {GROUP if wanted is None else wanted}\n" + window_text(a, b, late) + texts({})
    for constant, of in fields.items():
        text += f"# Another constant field: {constant}, in {counted(len(of), 'frame')}.\n" if constant != main else ""
    several = f"# {strays} frames have further constant fields.\n"
    text += "# 1 frame has a further constant field.\n" if strays == 1 else several if strays else ""
    links, beyond = {}, 0
    for link, network, stamp, length, number in fields[main]:
        if link in links or len(links) < MAX_LINKS:
            links.setdefault(link, []).append((network, stamp, length, number))
        else:
            beyond += 1
    several = f"# {beyond} frames are of links beyond the first {MAX_LINKS}.\n"
    text += f"# 1 frame is of a link beyond the first {MAX_LINKS}.\n" if beyond == 1 else several if beyond else ""
    text += f"\nconstant = {main}  # {counted(len(fields[main]), 'frame')}\n"
    return text + window_text(a, b, late) + texts(links)


# ---- recordings of known tables


def sent(chance, links, cycles, loss=0.0, burst=0.0, reset=0.0, skew=50_000):
    """The recordings of both networks: each link sends by its BAG, and its frames may be lost, late or renumbered."""
    frames = {"A": [], "B": []}
    for link, bag, size in links:
        number, at = chance.randrange(256), START + chance.randrange(bag)
        for _ in range(cycles):
            number = 0 if chance.random() < reset else number % 255 + 1
            at += 0 if chance.random() < burst else bag
            moment = at + chance.randrange(200_000)
            for network in "AB":
                if chance.random() >= loss:
                    frames[network].append((moment + chance.randrange(skew), frame(link, size, number)))
    return [header() + b"".join(record(*each) for each in sorted(frames[network])) for network in "AB"]


def table(chance, count):
    ids = chance.sample(range(65536), count)
    return [(link, chance.choice(BAGS), chance.randrange(60, 1515)) for link in ids]


def cut_to(size, links, recording):
    """The recording with the frames of these links cut to so many bytes."""
    packets = [(stamp, data[:size] if int.from_bytes(data[4:6], "big") in links else data, len(data)) for stamp, _, data in parse(recording, 1 << 62)[0]]
    return header() + b"".join(record(stamp, data, original=whole) for stamp, data, whole in packets)


def pairs():
    chance = random.Random(11)
    for count, cycles in ((1, 1), (1, 300), (2, 150), (63, 40), (4096, 3)):
        yield f"{count} links, {cycles} frames each", sent(chance, table(chance, count), cycles)
    few = table(chance, 5)
    for name, how in (
        ("losses", {"loss": 0.1}),
        ("bursts", {"burst": 0.02}),
        ("resets", {"reset": 0.05}),
        ("copies far apart", {"skew": 3_000_000}),
        ("all of these", {"loss": 0.05, "burst": 0.01, "reset": 0.01, "skew": 900_000}),
    ):
        yield name, sent(chance, few, 200, **how)
    a, b = sent(chance, few, 100)
    other = header() + b"".join(record(START + k, b"\x07" + frame(5, 80, 1)[1:]) for k in range(20))
    for by in (1, 1000, 1001, LATE - 1, LATE, LATE + 1):
        last = parse(a)[0][-1][0]
        yield f"the last timestamp {by} ns late", (a + record(last - by, frame(few[0][0], 60, 9)), b)
    yield "taps of several queues", [
        header() + b"".join(record(stamp, data) for stamp, _, data in sorted(parse(one)[0], key=lambda f: f[0] + chance.randrange(3 * MS)))
        for one in (a, b)
    ]
    yield "network B recorded twice", (a, header() + b"".join(record(at + by, data) for at, _, data in parse(b)[0] for by in (0, 2000)))
    for frames, copies in ((3, 1), (3, 2), (4, 1), (4, 2)):
        yield f"{copies} of {frames} frames are copies", [
            header() + b"".join(
                record(START + k * 8 * MS + skew, frame(7, 80, k + 1 if k < copies else k + other)) for k in range(frames))
            for skew, other in ((0, 1), (50_000, 101))
        ]
    for more in (1, 3):
        yield f"{MAX_LINKS + more} links", (
            header() + b"".join(record(START + k * 1000, frame(k, 60, 1)) for k in range(MAX_LINKS + more)), None)
    yield "networks swapped", (b, a)
    yield "one recording for both networks", (a, a)
    yield "network A alone", (a, None)
    yield "network B alone", (None, b)
    yield "an empty recording", (a, header())
    yield "no frame at all", (header(), header())
    yield "another constant field", (a, other + b"".join(record(START + 30, b"\x00" + frame(5, 80, 1)[1:]) for _ in range(3)))
    yield "one frame of another constant field, and one of another kind", (
        a, b + record(START + 10**12, b"\x07" + frame(5, 80, 1)[1:]) + record(START + 10**12, b"\x00" + frame(5, 80, 1)[1:]))
    alternate = b"".join(record(START + k * MS, bytes([3 if k % 2 else 7]) + frame(5, 80, k // 2 + 1)[1:]) for k in range(20))
    yield "two constant fields, equally often", (header() + alternate, None)
    for bit in (1, 2):
        one = b"".join(record(START + k, bytes([bit]) + frame(5, 80, k + 1)[1:]) for k in range(2))
        yield f"constant fields with bit {23 + bit} alone", (a, header() + one)
    yield "one frame too long", (a, header() + record(START, frame(9, 1514, 1)) + record(START + 1, frame(9, 1600, 2)))
    for gap in (144_167_000, 144_500_000, 144_499_999, 999_499, 999_500, 1_004_999, 1_005_000, 9_995_000, 10_049_999, 10_050_000, 99_950_000, 1_000_499_999):
        yield f"frames {gap} ns apart", (header() + b"".join(record(START + k * gap, frame(7, 80, k % 255 + 1)) for k in range(4)), None)
    for need, rest in ((246_000, 246_000), (256_000, 256_000), (256_000, 255_999), (257_000, 255_999), (300_000, 200_000), (300_000, 0)):
        stamps, at = [], START
        for k in range(1001):
            stamps.append(at - (need if k == 700 else rest if k % 2 else 0) * (k > 0))
            at += 4 * MS
        yield f"a need of {need} ns and others of {rest}", (header() + b"".join(record(stamp, frame(7, 80, k % 255 + 1)) for k, stamp in enumerate(stamps)), None)
    yield "a recording that is cut short", (a[: len(a) // 2 + 3], b)
    for count in (1, 8, 9, 11):
        many = sorted(table(chance, 12))
        short = {link for link, _, _ in many[:count]}
        yield f"{count} links whose frames are all cut short", [cut_to(50, short, one) for one in sent(chance, many, 20)]
    yield "some frames of each link cut short", [cut_to(50, range(65536), a), b]
    yield "frames cut, short and long", (
        a, header() + b"".join(record(START + k, frame(9, size, k), original=1600) for k, size in enumerate((60, 1514, 1600, 40)))
    )


def ledger_of(work, config, a, b):
    paths = {"config": config, "a": os.path.join(work, "a"), "b": os.path.join(work, "b")}
    given = [word for key, path in paths.items() if key == "config" or (a, b)["ab".index(key)] is not None for word in (f"--{key}", path)]
    ledger = os.path.join(work, "ledger")
    ran = run(["watch", *given, "--ledger", ledger], stdout=subprocess.PIPE)
    with open(ledger, encoding="utf-8") as file:
        return ran, file.read()


class Links(Case):
    def test_pairs(self):
        for name, (a, b) in pairs():
            given = []
            for option, recording in (("a", a), ("b", b)):
                if recording is not None:
                    path = os.path.join(self.folder, option)
                    with open(path, "wb") as file:
                        file.write(recording)
                    given += [f"--{option}", path]
            ran = run(["links", *given], stdout=subprocess.PIPE)
            text = draft(a, b)
            early = re.search("truncated|can't be read", text)
            cut = re.search("# Links that aren't here, since all their frames are cut short: (.*)\\.\n", text)
            note = f"afdxmon: note: not drafted, since all their frames are cut short: links {cut[1]}" if cut else ""
            note = (lambda told: told.startswith("afdxmon: note: ")) if early else note
            self.case(f"links: {name}", difference(ran, SUCCESS, note, text.encode()))
            self.judged(name, text, a, b)

    def judged(self, name, text, a, b):
        """`watch` with the draft: no verdict that the draft rules out."""
        config = os.path.join(self.folder, "draft.toml")
        with open(config, "w", encoding="utf-8") as file:
            file.write(text)
        ran, ledger = ledger_of(self.folder, config, a, b)
        lines = [line for line in ledger.splitlines() if line[:1].isdigit()]
        allowed = {"excess"} if "more than a table allows" in text else set()
        several = {"foreign"} if "constant field" in text else set()
        beyond = {"unconfigured"} if "beyond the first" in text else set()
        found = {word for line in lines for word in line.split()} & WRONG - allowed - several - beyond
        self.case(f"links: watch with the draft, {name}", f"status {ran.returncode}" if ran.returncode else " ".join(sorted(found)))

    def test_constants(self):
        """The constant field that the draft is to have."""
        path = os.path.join(self.folder, "a")
        data = header() + b"".join(record(START + k * MS, bytes([3 + 4 * (k % 3 == 0)]) + frame(k % 7, 80, k)[1:]) for k in range(60))
        with open(path, "wb") as file:
            file.write(data)
        for text, constant in (("0x03000000", GROUP), ("50331648", GROUP), ("0x07000000", 0x07000000), ("117440512", 0x07000000), ("0xffffffff", 2**32 - 1)):
            ran = run(["links", "--a", path, "--constant", text], stdout=subprocess.PIPE)
            self.case(f"links: --constant {text}", difference(ran, SUCCESS, "", draft(data, None, constant).encode()))
        for text in ("5", "0x", "", "0x01000000", "0x100000000", "4294967296", "-1", "3 0", "0x3g"):
            ran = run(["links", "--a", path, f"--constant={text}"], stdout=subprocess.PIPE)
            self.case(f"links: --constant '{text}' is refused", difference(ran, FAULT, "afdxmon: links 1 Constant", b""))

    def test_of_pcapng(self):
        """A pcapng recording has the draft of the pcap file that it was made of."""
        paths = [os.path.join(self.folder, name) for name in ("in.pcap", "in.pcapng")]
        (data, _) = sent(random.Random(12), table(random.Random(13), 9), 50)
        with open(paths[0], "wb") as file:
            file.write(data)
        run(["capture", "--code", EVERY, paths[0], "-o", paths[1], "--pcapng"], stdout=subprocess.PIPE)
        ran = run(["links", "--a", paths[1]], stdout=subprocess.PIPE)
        self.case("links: a pcapng recording", difference(ran, SUCCESS, "", draft(data, None).encode()))
