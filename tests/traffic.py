"""The manifest's counts of what frames carry, and the findings of `report` from them: other traffic by kind, tags, swapped cables.

Each case plants frames, and knows how many there are and when they come.
"""
import json
import os
import struct

from tests.harness import SUCCESS, Case, header, put, read, record, run
from tests.resume import LINKS

MS, START = 10**6, 1_800_000_000 * 10**9
COUNT = 400
PTP, LLDP = 0x88F7, 0x88CC


def of_link(link, sequence, network, tagged=False):
    """A frame of a link whose source address names a network (001 A, 010 B)."""
    source = b"\x02\0\0\0\0" + bytes([{"A": 0x20, "B": 0x40}[network]])
    kind = b"\x81\0\0\x05\x08\0" if tagged else b"\x08\0"
    body = bytes(80)
    return b"\x03\0\0\0" + struct.pack(">H", link) + source + kind + body + bytes([sequence])


def foreign(kind):
    return b"\x01\x80\xc2\0\0\x0e" + b"\x02\0\0\0\0\x01" + struct.pack(">H", kind) + bytes(50)


def stamp_of(place, number):
    """When a link's frame comes, with a jitter of some microseconds."""
    return START + number * 8 * MS + place * MS + number * 7919 % 5003


def sequence(number):
    return (number - 1) % 255 + 1 if number else 0


class Traffic(Case):
    def flight(self, name, frame_of, more=()):
        """A run over two recordings of two links, each with a frame in 8 ms; frame_of(network, link, number) is one."""
        paths = {}
        for network in "AB":
            frames = [(stamp_of(place, number), frame_of(network, link, number)) for number in range(COUNT) for place, link in enumerate((5, 9))]
            frames += [(START + stamp, data) for on, stamp, data in more if on == network]
            paths[network] = put(self.folder, f"{name}_{network}.pcap", header() + b"".join(record(stamp, data) for stamp, data in sorted(frames)))
        self.table = put(self.folder, "links.toml", LINKS)
        self.ledger, self.manifest, self.page = (os.path.join(self.folder, f"{name}.{kind}") for kind in ("ledger", "json", "report"))
        words = ["--config", self.table, "--a", paths["A"], "--b", paths["B"], "--ledger", self.ledger, "--manifest", self.manifest]
        self.judge(f"{name}: watch", run(["watch", *words]), SUCCESS, "")
        return json.loads(read(self.manifest))["inputs"]

    def found(self, name, *more):
        """The findings above info of the report, by the manifest."""
        words = ["report", "--config", self.table, "--ledger", self.ledger, "--manifest", self.manifest, "--json", "-o", self.page, *more]
        self.judge(f"{name}: report", run(words), SUCCESS, "")
        return [one for one in json.loads(read(self.page))["findings"] if one["level"] != "info"]

    def is_so(self, name, found, wanted):
        self.case(name, "" if found == wanted else f"{found}, not {wanted}")

    def test_sound(self):
        inputs = self.flight("sound", lambda network, link, number: of_link(link, sequence(number), network))
        for network in "ab":
            self.is_so(f"nothing on {network}", [inputs[network][one] for one in ("tagged", "foreign", "crossed", "torn", "dropped")], [0, None, None, None, None])
        self.is_so("no finding", self.found("sound"), [])

    def test_swapped(self):
        """The cables of link 9 are swapped from its frame 100 to its frame 299."""
        swapped = range(100, 300)

        def one(network, link, number):
            return of_link(link, sequence(number), network if link == 5 or number not in swapped else "BA"["AB".index(network)])

        inputs = self.flight("swapped", one)
        first, last = (stamp_of(1, number) for number in (100, 299))
        for network in "ab":
            wanted = [{"link": 9, "frames": 200, "of": COUNT, "first": str(first), "last": str(last)}]
            self.is_so(f"swapped on {network}", inputs[network]["crossed"], wanted)
        found = [(one["kind"], one["level"], one["networks"], one["links"], one["from"], one["to"], one["count"]) for one in self.found("swapped")]
        self.is_so("two findings", sorted(found), [("crossed", "trouble", on, [9], str(first), str(last), 200) for on in "AB"])

    def test_tagged(self):
        inputs = self.flight("tagged", lambda network, link, number: of_link(link, sequence(number), network, tagged=network == "B"))
        self.is_so("tags of B alone", [inputs[network]["tagged"] for network in "ab"], [0, 2 * COUNT])
        found = [(one["kind"], one["networks"], one["count"]) for one in self.found("tagged")]
        self.is_so("a finding", found, [("tagged", "B", 2 * COUNT)])

    def test_kinds(self):
        """On A are so many frames of PTP that they are a quarter of all, and some of LLDP and of an unnamed kind."""
        more = [("A", number * 4 * MS + 3, foreign(PTP)) for number in range(800)]
        more += [("A", number * 500 * MS + 5, foreign(LLDP)) for number in range(4)] + [("A", 77 * MS + 7, foreign(0x88B5))]
        inputs = self.flight("kinds", lambda network, link, number: of_link(link, sequence(number), network), more)
        kinds = [(one["ethertype"], one["name"], one["frames"]) for one in inputs["a"]["foreign"]]
        self.is_so("kinds of A", kinds, [("0x88f7", "PTP", 800), ("0x88cc", "LLDP", 4), ("0x88b5", None, 1)])
        self.is_so("none of B", inputs["b"]["foreign"], None)
        found = self.found("kinds")
        self.is_so("trouble", [(one["kind"], one["level"], one["count"]) for one in found], [("foreign", "trouble", 805)])
        text = "805 frames on A have another constant field (foreign: 800 PTP, 4 LLDP, 1 of EtherType 0x88b5)"
        self.is_so("the kinds by name", found[0]["text"] if found else None, text)
        self.is_so("expected", self.found("expected", "--expected", "ptp,lldp"), [])
        others = [(one["kind"], one["level"]) for one in self.found("others", "--expected", "lldp")]
        self.is_so("another kind is expected", others, [("foreign", "trouble")])

    def test_of_no_manifest(self):
        words = ["report", "--config", "t.toml", "--ledger", "l", "--expected", "ptp"]
        ran = run(words)
        said = ran.stderr.decode()
        self.case("--expected without a manifest", "" if ran.returncode == 2 and "Name the run's manifest, which has them, by --manifest" in said else f"{ran.returncode} {said}")
