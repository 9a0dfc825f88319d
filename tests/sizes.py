"""Filters of many instructions, and texts of many megabytes."""
import subprocess

from tests.harness import EVERY, SUCCESS, frame, header, record, run
from tests.watching import TABLE, AtADesk

COUNTS = (1, 2, 256, 257, 1000, 1001, 2000, 3000, 4095, 4096)
MEGABYTE = 10**6
LARGE = (MEGABYTE, 3 * MEGABYTE, 8 * MEGABYTE, 12 * MEGABYTE, 16 * MEGABYTE, 16_777_215)
ONE_FRAME = header() + record(0, frame(5, 60, 1))


def numeric(count):
    """A filter of so many instructions: it loads constants and returns 60."""
    return f"{count}," + "".join(f"0 0 0 {i}," for i in range(count - 1)) + "6 0 0 60,"


class Sizes(AtADesk):
    def test_filters(self):
        """Filters of so many instructions, through each command that takes or prints one."""
        for count in COUNTS:
            code = numeric(count)
            source = "".join(f"ld #{i}\n" for i in range(count - 1)) + "ret #60"
            self.judge(f"asm: {count} instructions", run(["asm"], input=source.encode(), stdout=subprocess.PIPE), SUCCESS, "", code.encode() + b"\n")
            self.judge(f"capture: {count} instructions", run(["capture", "--code", code], input=ONE_FRAME, stdout=subprocess.PIPE), SUCCESS, "", ONE_FRAME)
            self.desk.lay(config=f'filters = ["{code}"]\n' + TABLE, filter=code, a=ONE_FRAME, b=header())
            listing = "".join(f"L{i}: ld #{i}\n" for i in range(count - 1)) + f"L{count - 1}: ret #60\n"
            arguments = ["debug", "--filter", self.desk.paths["filter"], "--tap", self.desk.paths["a"]]
            expected = f"frames 1\n{listing}tally accepted 1 rejected 0\n"
            self.judge(f"debug: {count} instructions", run(arguments, input=b"disassemble\ntally\n", stdout=subprocess.PIPE), SUCCESS, "", expected.encode())
            ran = self.desk.watch()
            kept = self.desk.left("ledger").split(b"\n")[1:2] == [b"0 A 0 5 1 regular within first deliver 60 03"]
            self.judge(f"watch: {count} instructions", ran, SUCCESS, "", b"")
            self.case(f"watch: {count} instructions, its line", "" if kept else f"{self.desk.left('ledger')[:80]!r}")

    def test_large_texts(self):
        """Texts of many megabytes: a source, a filter, a table and a session's commands."""
        for size in LARGE:
            comment = b"; " + b"x" * (size - 10) + b"\nret #0"
            self.judge(f"asm: a source of {size} bytes", run(["asm"], input=comment, stdout=subprocess.PIPE), SUCCESS, "", b"1,6 0 0 0,\n")
            code = " " * (size - len(EVERY)) + EVERY
            self.desk.lay(config="#" * (size - len(TABLE) - 1) + "\n" + TABLE, filter=code, a=ONE_FRAME, b=header())
            self.judge(f"watch: a table and a filter of {size} bytes", self.desk.watch(), SUCCESS, "", b"")
            arguments = ["debug", "--filter", self.desk.paths["filter"], "--tap", self.desk.paths["a"]]
            commands = b" " * (size - 6) + b"\ntally"
            ran = run(arguments, input=commands, stdout=subprocess.PIPE)
            self.judge(f"debug: a filter and commands of {size} bytes", ran, SUCCESS, "", b"frames 1\ntally accepted 1 rejected 0\n")
