"""Sections of pcapng recordings, each with interfaces of its own: which of them is the one that was read before.

Expected values are how many packets the rule of docs/FORMATS.md lets through; the slow reader of tests/blocks.py reads the files too.
"""
import subprocess

from tests.blocks import DATA, SECOND, AtABench, Blocks, Reader, listed, note_of
from tests.harness import EVERY, SUCCESS, difference, run
from tests.reference import HEADER, record_of


def named_sections(*sections):
    """A file of sections. Each is given as its interfaces' names, and which of them has a packet."""
    file = Blocks()
    for at, (names, number) in enumerate(sections):
        file.section()
        for name in names:
            file.interface(name, 9)
        file.packet((SECOND + at) * 10**9, DATA[at % 4], number)
    return file.bytes()


# Sections, and how many of their packets are of the first section's interface.
LATER_SECTIONS = (
    ("two names of one number", 1, (["eth0"], 0), (["eth1"], 0)),
    ("one name of two numbers", 2, (["eth0"], 0), (["eth1", "eth0"], 1)),
    ("one name of two numbers, and the other", 2, (["eth0"], 0), (["eth1", "eth0"], 1), (["eth1", "eth0"], 0)),
    ("one name, and back", 3, (["eth1", "eth0"], 1), (["eth0"], 0), (["lo", "eth1", "eth0"], 2)),
    ("no names, one number", 2, ([None], 0), ([None], 0)),
    ("no names, two numbers", 1, ([None], 0), ([None, None], 1)),
    ("a name, and none of its number", 2, (["eth0"], 0), ([None], 0)),
    ("a name, and none of another number", 1, (["eth0"], 0), (["eth0", None], 1)),
    ("none, and a name of its number", 2, ([None], 0), (["eth0"], 0)),
    ("none, and a name of another number", 1, ([None], 0), ([None, "eth0"], 1)),
    ("a name, none, and another name", 2, (["eth0"], 0), ([None], 0), (["eth1"], 0)),
    ("a name, none, and the name of another number", 3, (["eth0"], 0), ([None], 0), (["eth1", "eth0"], 1)),
    ("none, a name, and another name", 2, ([None], 0), (["eth0"], 0), (["eth1"], 0)),
    ("a name of two numbers, and none of the later", 3, (["eth0"], 0), (["lo", "eth0"], 1), ([None, None], 1)),
    ("a name of two numbers, and none of the earlier", 2, (["eth0"], 0), (["lo", "eth0"], 1), ([None, None], 0)),
    ("two interfaces of a name in a section, after one", 2, (["eth0"], 0), (["eth0", "eth0"], 1)),
    ("names of 64 bytes", 2, (["e" * 64], 0), (["lo", "e" * 64], 1)),
    ("names of 65 bytes", 1, (["e" * 65], 0), (["lo", "e" * 65], 1)),
    ("names of 65 bytes, one number", 2, (["e" * 65], 0), (["f" * 65], 0)),
    ("a name that another begins with", 1, (["eth"], 0), (["eth0"], 0)),
)


# What a fault lists of all sections' interfaces, of which none was chosen, or none that is there: no number that chooses two
# of them, where their names choose one.
LISTS = (
    ("two names of one number", "eth1, eth0", (["eth1"], 0), (["eth0"], 0)),
    ("one name of two numbers, and another", "eth0, eth1", (["eth0"], 0), (["eth1", "eth0"], 0)),
    ("a name that comes later, and another", "eth0, eth1", ([None], 0), (["eth0"], 0), (["eth1"], 0)),
    ("no names, two numbers", "0, 1", ([None], 0), ([None, None], 1)),
    ("names in another order, and more", "eth0, eth1, 2 usb0, eth2", (["eth0", "eth1", "usb0"], 0), (["eth2", "eth0"], 0)),
    ("names in the same order", "0 eth0, 1 eth1", (["eth0", "eth1"], 0), (["eth0", "eth1"], 1)),
    ("a number with a name and without", "eth0, 1, lo", (["eth0", None], 0), (["lo", "eth0"], 0)),
    ("a name of digits, which are a number", "0, eth0", (["7"], 0), (["eth0"], 0)),
)


class Sections(AtABench):
    def test_later_sections(self):
        """With no choice an interface of a later section is known by its name, and by its number where a name is missing."""
        for name, count, *sections in LATER_SECTIONS:
            data = named_sections(*sections)
            frames, ending, _ = Reader(None).read(data)
            wanted = f"clean {count}" if count == len(sections) else f"bad {count} severalinterfaces"
            self.case(f"pcapng: sections: {name}, read slowly", "" if (len(frames), ending) == (count, wanted) else ending)
            expected = HEADER + b"".join(record_of(*one) for one in frames)
            ran = run(["capture", "--code", EVERY, "-"], input=data, stdout=subprocess.PIPE)
            self.case(f"pcapng: sections: {name}, of a pipe", difference(ran, SUCCESS, note_of(ending, 0), expected))
            if count == len(sections):
                self.captured(f"sections: {name}", data)
            else:
                self.refused(f"sections: {name}", data, f"afdxmon: interfaces RECORDING: {listed(data)}")
        here = Blocks().section().interface("eth0", 9).interface("eth0", 9).packet(1, DATA[0]).packet(2, DATA[1], 1).bytes()
        self.refused("two interfaces of a name in one section", here, "afdxmon: interfaces RECORDING: 0 eth0, 1 eth0")

    def test_lists(self):
        """A fault names the interfaces of all sections, where none is chosen and where the chosen one isn't there."""
        for name, told, *sections in LISTS:
            data = named_sections(*sections)
            self.refused(f"sections: the list of {name}", data, f"afdxmon: interfaces RECORDING: {told}")
            self.refused(f"sections: the list of {name}, one chosen", data, f"afdxmon: interfaces RECORDING: {told}", ":eth7")
        usb = Blocks().section().interface("usb", 9, link_type=220).section().interface(None, 9).packet(1, DATA[0]).section().interface("eth0", 9).interface("eth1", 9)
        told = "afdxmon: interfaces RECORDING: 0 eth0, 1 eth1"
        self.refused("sections: the list has interfaces of Ethernet alone", usb.packet(2, DATA[1], 1).bytes(), told)
