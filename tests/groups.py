"""`afdxmon report` by a table whose links have groups: sentences, page, JSON and values, against what was planted.

A flight of 24 links, of which 8 are of `port_7`, 8 of `port_8`, 4 of `adc` and 4 of no group. What is lost of which links is planted
(tests/plants.py), so each text is known before the program runs.
"""
import csv
import json
import os
import pty
import random
import re
import subprocess

from tests.flights import SECOND, table_of
from tests.harness import PROGRAM, SUCCESS, Case, run, told_to
from tests.plants import even_flight

GROUPS = {**dict.fromkeys(range(1, 9), "port_7"), **dict.fromkeys(range(9, 17), "port_8"), **dict.fromkeys(range(17, 21), "adc")}
LINKS = range(1, 25)
# When links are absent, in nanoseconds since the flight's start.
GONE = 8 * SECOND, 10 * SECOND


def grouped(groups=GROUPS):
    """The flight, by whose table these links have groups."""
    flight = even_flight(random.Random("groups"), links=len(LINKS))
    for sender in flight.senders:
        if sender.id in groups:
            sender.row["group"] = groups[sender.id]
    return flight


def absent(flight, links, networks="A"):
    """These links are missing for two seconds. How many frames that are."""
    gone = 0
    for sender in flight.senders:
        if sender.id in links:
            places = sender.places(*GONE)
            gone += sum(sender.remove(n, places) for n in networks)
    return gone


def scattered(flight, links, each=3):
    """Each of these links lacks so many frames on B, a second apart."""
    gone = 0
    for sender in flight.senders:
        if sender.id in links:
            gone += sender.remove("B", [sender.places((5 + k) * SECOND, (6 + k) * SECOND)[sender.id % 8] for k in range(each)])
    return gone


def never(flight, links):
    """These links are never seen."""
    for sender in flight.senders:
        if sender.id in links:
            sender.lanes = {"A": [], "B": []}


def names(links):
    """Links as a sentence names them."""
    told = [f"link_{link}" for link in links]
    return ", ".join(told[:6]) + (f" and {len(told) - 6} more" if len(told) > 6 else "")


def at_terminal(arguments):
    """What a terminal is shown."""
    ours, theirs = pty.openpty()
    try:
        subprocess.run([PROGRAM, *arguments], stdout=theirs, stderr=subprocess.DEVNULL, timeout=60, check=True)
    finally:
        os.close(theirs)
    told = told_to(ours)
    os.close(ours)
    return told


class Groups(Case):
    def written(self, flight):
        written, ran = flight.write(self.folder)
        self.case("groups: watch takes the table", "" if ran.returncode == SUCCESS else f"status {ran.returncode}: {ran.stderr!r}")
        return ["report", "--config", written.table, "--ledger", written.ledger]

    def report(self, flight, *more):
        """The command, and its JSON."""
        command = self.written(flight)
        ran = run([*command, "--json", *more], stdout=subprocess.PIPE)
        self.case("groups: status", "" if ran.returncode == SUCCESS else f"status {ran.returncode}: {ran.stderr!r}")
        return command, json.loads(ran.stdout) if ran.returncode == SUCCESS else {"findings": [], "links": []}

    def tells(self, name, told, kind, links, who, group):
        """One finding of this kind: it has these links, this group, and says so."""
        found = [one for one in told["findings"] if one["kind"] == kind]
        fits = len(found) == 1 and found[0]["links"] == sorted(links) and found[0]["group"] == group and who in found[0]["text"]
        self.case(f"groups: {name}", "" if fits else f"{[(one['links'], one.get('group'), one['text']) for one in found]}, not {who!r} of {group}")

    def test_sentences(self):
        """Whose links a finding names: a group, all of it or a part, several groups, and none."""
        for name, links, who, group in (
            ("eight links of one port", range(1, 9), "all 8 links of port_7 absent from A (", "port_7"),
            ("seven of the eight", range(1, 8), f"7 links of port_7 ({names(range(1, 8))}) absent from A (", "port_7"),
            ("three of the eight", (2, 3, 8), f"3 links of port_7 ({names((2, 3, 8))}) absent from A (", "port_7"),
            ("all four of another group", range(17, 21), "all 4 links of adc absent from A (", "adc"),
            ("links of two groups", range(5, 12), f"{names(range(5, 12))} absent from A (", None),
            ("links of a group and of none", range(18, 24), f"{names(range(18, 24))} absent from A (", None),
            ("links of no group", range(21, 25), f"{names(range(21, 25))} absent from A (", None),
            ("one link of a group", (3,), "link_3 absent from A (", "port_7"),
            ("one link of none", (22,), "link_22 absent from A (", None),
        ):
            flight = grouped()
            absent(flight, links)
            _, told = self.report(flight)
            self.tells(name, told, "absent", links, who, group)
        flight = grouped({7: "alone"})
        absent(flight, (7,))
        self.tells("a group of one link", self.report(flight)[1], "absent", (7,), "link_7 absent from A (", "alone")
        flight = grouped({})
        absent(flight, range(1, 9))
        self.tells("a table without groups", self.report(flight)[1], "absent", range(1, 9), f"{names(range(1, 9))} absent from A (", None)
        for count in (1, 31, 32):
            flight = grouped({link: "p" * count for link in range(1, 9)})
            absent(flight, range(1, 9))
            self.tells(f"a group of {count} letters", self.report(flight)[1], "absent", range(1, 9), f"all 8 links of {'p' * count} absent", "p" * count)

    def test_other_kinds(self):
        """Scattered losses, and links that are never seen."""
        flight = grouped()
        gone = scattered(flight, range(9, 17))
        self.tells("scattered losses of a port", self.report(flight)[1], "lost", range(9, 17), f": all 8 links of port_8; {gone} of them came on A", "port_8")
        flight = grouped()
        never(flight, range(1, 9))
        self.tells("a port that is never seen", self.report(flight)[1], "never", range(1, 9), "In the table, never seen: all 8 links of port_7", "port_7")
        flight = grouped()
        never(flight, range(2, 9))
        self.tells("a port of which one link is seen", self.report(flight)[1], "never", range(2, 9), f"never seen: 7 links of port_7 ({names(range(2, 9))})", "port_7")

    def test_shown(self):
        """A terminal's lines, the page, the JSON's links, and the values."""
        flight = grouped()
        absent(flight, range(1, 9))
        values = os.path.join(self.folder, "links.csv")
        command, told = self.report(flight, "--csv", values)
        groups = {link["id"]: link["group"] for link in told["links"]}
        self.case("groups: links of the JSON", "" if groups == {link: GROUPS.get(link) for link in LINKS} else f"{groups}")
        with open(values, encoding="ascii", newline="") as text:
            rows = list(csv.DictReader(text))
        fits = list(rows[0])[-1] == "group" and {int(row["id"]): row["group"] for row in rows} == {link: GROUPS.get(link, "") for link in LINKS}
        self.case("groups: values", "" if fits else f"{rows[:2]}")
        page = run(command, stdout=subprocess.PIPE).stdout.decode("ascii")
        cells = dict(re.findall(r'<td class="nm">(?:<a href="#v\d+">)?(\w+)(?:</a>)?</td><td>([\w-]*)</td><td class="spk">', page))
        self.case("groups: the page's table", "" if cells == {f"link_{link}": GROUPS.get(link, "") for link in LINKS} else f"{cells}")
        fits = page.count("<th>group</th>") == 1 and "<b>all 8 links of port_7 absent from A</b>" in page
        self.case("groups: the page", "" if fits else "it lacks the head or the sentence")
        flight = grouped({})
        absent(flight, range(1, 9))
        page = run(self.written(flight), stdout=subprocess.PIPE).stdout.decode("ascii")
        fits = "<th>group</th>" not in page and page.count('</td><td class="spk">') == len(LINKS)
        self.case("groups: the page of a table without groups", "" if fits else "it has them")

    def test_lines(self):
        """Lines for a terminal have at most 80 columns, with the longest group too."""
        for group in ("port_7", "P" * 32):
            for links in (range(1, 9), range(1, 8)):
                flight = grouped({link: group for link in range(1, 9)})
                absent(flight, links)
                text = at_terminal(self.written(flight))
                who = f"all 8 links of {group}" if len(links) == 8 else f"7 links of {group} ({names(links)})"
                wide = [line for line in text.splitlines() if len(line) > 80]
                self.case(f"groups: {len(links)} of {group} at a terminal", "" if who in " ".join(text.split()) and not wide else f"{wide} {text}")

    def test_compared(self):
        """A table whose links have got groups differs from that of the baseline in them."""
        flight = grouped()
        command = self.written(flight)
        plain = os.path.join(self.folder, "plain.toml")
        rows = [{key: value for key, value in sender.row.items() if key != "group"} for sender in flight.senders]
        with open(plain, "w", encoding="ascii") as out:
            out.write(table_of(rows))
        ran = run([*command, "--json", "--baseline", command[4], "--baseline-config", plain], stdout=subprocess.PIPE)
        changed = json.loads(ran.stdout)["baseline"]["table"]["changed"] if ran.returncode == SUCCESS else ran.stderr
        wanted = [{"id": link, "name": f"link_{link}", "before": f"link_{link}", "keys": ["group"]} for link in GROUPS]
        self.case("groups: compared with a table without groups", "" if changed == wanted else f"{changed}")
