"""Scripts of tests, each of which ends with 'N passed, M failed', run side by side."""
import concurrent.futures
import re
import subprocess
import sys
import time

CLOSING = re.compile(r"(\d+) passed, (\d+) failed\n\Z")
SKIPPED = re.compile(r"^program: (.*: skipped: .*)$", re.M)


def ran(command, stopped):
    """What a script printed, how many of its cases passed and failed, and how long it took. One without a closing line failed."""
    if stopped:
        return "", 0, 0, 0
    start = time.monotonic()
    ended = subprocess.run(command, stdin=subprocess.DEVNULL, stdout=subprocess.PIPE, stderr=subprocess.STDOUT, text=True, errors="replace")
    closing = CLOSING.search(ended.stdout)
    passed, failed = map(int, closing.groups()) if closing else (0, 1)
    return ended.stdout, passed, failed or int(ended.returncode != 0), time.monotonic() - start


class Count:
    """How many cases of each script passed and failed, and what those that failed said."""

    def __init__(self):
        self.scripts, self.faults, self.skipped = {}, {}, set()

    def take(self, name, ended):
        """Prints what a script said, and keeps its count in place of an earlier one."""
        said, passed, failed, took = ended
        closing = f"{name}: {passed} passed, {failed} failed, {took:.0f} s"
        sys.stdout.write(CLOSING.sub("", said))
        print(closing, flush=True)
        self.scripts[name] = passed, failed
        self.skipped.update(SKIPPED.findall(said))
        lines = said.splitlines()
        self.faults[name] = ([it for it in lines if "FAILED" in it] or [*lines[-10:], closing]) if failed else []

    def failing(self):
        return [name for name, (_, failed) in self.scripts.items() if failed]


def side_by_side(commands, jobs, skipped=None, only_first=False):
    """Runs commands by their names, so many at a time, and prints what each said as it ends. How many cases passed and failed. Each
    case that was skipped, and what it lacked, is added to the set `skipped`.

    A script that failed is run once more, by itself, after the others: what failed because the machine had too much to do passes then,
    and its first failure stands above. What fails again is printed again at the end, where it is found. With `only_first` none begins
    after one that failed.
    """
    count, stopped = Count(), []
    with concurrent.futures.ThreadPoolExecutor(jobs) as pool:
        running = {pool.submit(ran, command, stopped): name for name, command in commands.items()}
        for ended in concurrent.futures.as_completed(running):
            count.take(running[ended], ended.result())
            if only_first:
                stopped += count.failing()
    for name in [] if only_first else count.failing():
        print(f"{name}: once more, by itself", flush=True)
        count.take(name, ran(commands[name], []))
    for name in count.failing():
        print("\n".join(count.faults[name]), flush=True)
    if skipped is not None:
        skipped |= count.skipped
    return tuple(sum(counts) for counts in zip(*count.scripts.values()))
