"""The memory of runs over long recordings, of each command that passes over them, in each format: it is that of short ones.

The recordings come through pipes. A run's memory is looked at once it has read them, before they close.
"""
import os
import select
import subprocess
import threading
import time

from tests.blocks import Blocks
from tests.harness import EVERY, PROGRAM, SUCCESS, command_of, difference, put, run
from tests.long import CHUNK, FRAMES, MIB, ONE_OF_255, STEP, ledger_of, of_255, peak_of, pieces, unread, write
from tests.transit import MS, START, US, packets as transit_packets, table
from tests.transit_reference import AFTER, BEFORE
from tests.transit_sizes import counts, latency_line
from tests.watching import TABLE, AtADesk

SHORT, LONG, PATIENCE = 10_000, 300_000, 120
# Seconds without a byte read, and the most bytes that are read ahead of the other recording.
PAUSE, MOST_AHEAD = 1.5, 6 * MIB


def pcapng_pieces(frames, first=0):
    """The recording of tests/long.py as a pcapng file, each packet with a comment, by pieces; or its frames from one on."""
    yield Blocks().section().interface("eth0", 9).bytes()
    told = Blocks().options((1, b"a comment of some length, which nobody reads"))
    for start in range(first, frames, CHUNK):
        some = Blocks()
        for place in range(start, min(start + CHUNK, frames)):
            some.packet(place * STEP, FRAMES[place % 255 + 1], options=told)
        yield some.bytes()


def sections(frames):
    """The recording with a new section, and its interface, for each tenth frame, by pieces."""
    for start in range(0, frames, CHUNK):
        some = Blocks()
        for place in range(start, min(start + CHUNK, frames)):
            if place % 10 == 0:
                some.section().interface("eth0", 9)
            some.packet(place * STEP, FRAMES[place % 255 + 1])
        yield some.bytes()


def last_part(frames):
    """The last third of the recording, as a file of its own."""
    return pcapng_pieces(frames, frames * 2 // 3)


def transit_ledger(frames):
    """The ledger of a switch that passes each frame of tests/transit.py after 30 us, by pieces."""
    yield b"afdx-transit 1\nrun network - within 10000000 early 1000000 shift 0 bound - police bytes grace 1000 routed -\n"
    for start in range(0, frames, CHUNK):
        yield "".join(f"{START + at * MS} before {at} {at % 2 + 1} {at // 2 % 255 + 1} regular within passed {at} {30 * US} -\n"
                      for at in range(start, min(start + CHUNK, frames))).encode()
    own = frames // 2
    for link in (1, 2):
        yield f"link {link} link_{link} before {own} {counts(BEFORE, passed=own)} after {own} {counts(AFTER)}\n{latency_line(link, own, 30 * US)}".encode()
    yield f"{latency_line('all', frames, 30 * US)}tap before clean {frames}\ntap after clean {frames}\n".encode()
    yield f"total frames {frames} before {frames} cut 0 {counts(BEFORE, passed=frames)} after {frames} cut 0 {counts(AFTER)} choice 0\n".encode()


def poured(pipe, given, gate):
    """Writes a recording into a pipe, says so once it is read, and closes the pipe when it is told to."""
    try:
        with open(pipe, "wb", buffering=0) as out:
            for piece in given:
                left = memoryview(piece)
                while left:
                    left = left[out.write(left[: 1 << 16]):]
            until = time.monotonic() + PATIENCE
            while unread(out.fileno()) and time.monotonic() < until:
                time.sleep(0.001)
            gate.wait(PATIENCE)
            gate.wait(PATIENCE)
    except (BrokenPipeError, threading.BrokenBarrierError):
        gate.abort()  # the program has ended before its time


def peak(words, pipes):
    """The most memory of a run, and how it ended. Each pipe is given with its pieces."""
    gate = threading.Barrier(len(pipes) + 1)
    writers = [threading.Thread(target=poured, args=(*pipe, gate), daemon=True) for pipe in pipes]
    for writer in writers:
        writer.start()
    child = subprocess.Popen([PROGRAM, *words], stdin=subprocess.DEVNULL, stdout=subprocess.DEVNULL, stderr=subprocess.PIPE)
    most = 0
    try:
        gate.wait(PATIENCE)
        most = peak_of(child)
        gate.wait(PATIENCE)
    except threading.BrokenBarrierError:
        child.kill()
    told = child.communicate(timeout=PATIENCE)[1]
    for writer in writers:
        writer.join(PATIENCE)
    return most, subprocess.CompletedProcess([PROGRAM, *words], child.returncode, None, told)


class Memory(AtADesk):
    def path(self, name):
        return os.path.join(self.desk.directory, name)

    def flat(self, name, words_of, pipes_of):
        """A case: the memory of a run by so many frames."""
        found = []
        for frames in (SHORT, LONG):
            pipes = [(self.path(pipe), given) for pipe, given in pipes_of(frames)]
            for pipe, _ in pipes:
                os.path.lexists(pipe) and os.remove(pipe)
                os.mkfifo(pipe)
            most, ran = peak([str(word) for word in words_of(frames)], pipes)
            found.append(most)
            if ran.returncode or ran.stderr and not ran.stderr.startswith(b"afdxmon: note: no line is selected"):
                return self.case(name, f"status {ran.returncode}, {ran.stderr!r}; the command: {command_of(ran)}")
        short, long = found
        fault = "" if short and long <= 1.5 * short + 4 * MIB else f"{long >> 10} KiB of {LONG} frames, {short >> 10} of {SHORT}"
        return self.case(f"memory: {name}", fault and f"{fault}; the command: {command_of(ran)}")

    def test_formats(self):
        """`watch` and `capture` over pcapng, with comments and details, and over several files."""
        self.desk.lay(config=TABLE, filter=ONE_OF_255)
        two = [self.path("pipe_a"), self.path("pipe_b")]
        both = lambda frames: [("pipe_a", pcapng_pieces(frames)), ("pipe_b", pcapng_pieces(frames))]  # noqa: E731
        self.flat("watch, pcapng in and out, with details", lambda frames: [*self.desk.arguments(a=two[0], b=two[1]), "--pcapng", "--details"], both)
        self.flat("watch, every frame is kept", lambda frames: [*self.desk.arguments(a=two[0], b=two[1], filter=put(self.path("every"), EVERY))], both)
        self.flat("capture of pcapng", lambda frames: ["capture", "--code", ONE_OF_255, "--pcapng", two[0]], lambda frames: [("pipe_a", pcapng_pieces(frames))])

        def files(frames):
            """Two files of a third each, and a pipe for the last one."""
            third = frames // 3
            whole = list(pcapng_pieces(2 * third))
            write(self.path("one"), pcapng_pieces(third))
            write(self.path("two"), [whole[0], *pcapng_pieces(2 * third, third)][1:])
            return ["watch", "--config", self.desk.paths["config"], "--filter", self.desk.paths["filter"], "--a", self.path("one"), self.path("two"),
                    self.path("pipe_a"), "--capture", self.path("kept"), "--ledger", self.path("lines")]

        self.flat("watch over three files", files, lambda frames: [("pipe_a", last_part(frames))])

    def test_sections(self):
        """A pcapng file of many sections: each of its frames is read, and no section is kept."""
        given, two = put(self.path("sections"), b"".join(sections(60_000))), [self.path("pipe_a"), self.path("pipe_b")]
        ran = run(["capture", "--code", EVERY, given], stdin=subprocess.DEVNULL, stdout=subprocess.PIPE)
        self.case("6000 sections", difference(ran, SUCCESS, "", b"".join(pieces(60_000))))
        self.desk.lay(config=TABLE, filter=ONE_OF_255)
        self.flat("capture of many sections", lambda frames: ["capture", "--code", ONE_OF_255, two[0]], lambda frames: [("pipe_a", sections(frames))])
        self.flat("watch of many sections", lambda frames: self.desk.arguments(a=two[0], b=two[1]),
                  lambda frames: [("pipe_a", sections(frames)), ("pipe_b", sections(frames))])

    def test_one_network(self):
        """A network that ends, or that pauses, while the other goes on."""
        self.desk.lay(config=TABLE, filter=ONE_OF_255)
        ends = {"a": lambda frames: [("pipe_a", pieces(100)), ("pipe_b", pieces(frames))], "b": lambda frames: [("pipe_a", pieces(frames)), ("pipe_b", pieces(100))]}
        for network, pipes in ends.items():
            put(self.path("first"), b"".join(pieces(100)))
            two = {"a": self.path("pipe_a"), "b": self.path("pipe_b"), network: self.path("first")}
            self.flat(f"watch, network {network.upper()} ends early", lambda frames, two=two: self.desk.arguments(**two),
                      lambda frames, pipes=pipes, network=network: [one for one in pipes(frames) if one[0] != f"pipe_{network}"])
        config = put(self.path("table.toml"), table([(1, 2, 0), (2, 2, 0)]))
        late = put(self.path("late.toml"), table([(1, 2, 0), (2, 2, 0)], 1000))
        for name, words, given in (
            ("watch", lambda a, b: self.desk.arguments(a=a, b=b), pieces),
            ("transit", lambda a, b: ["transit", "--config", config, "--before", a, "--after", b], transit_packets),
            ("transit with late timestamps", lambda a, b: ["transit", "--config", late, "--before", a, "--after", b], transit_packets),
        ):
            for pausing in (0, 1):
                self.held_back(f"{name}, recording {pausing + 1} pauses", words, given, pausing)

    def held_back(self, name, words_of, given, pausing):
        """A case: a recording isn't read on while the other pauses, but for some blocks of it."""
        paths = [self.path(pipe) for pipe in ("pipe_a", "pipe_b")]
        for path in paths:
            os.path.lexists(path) and os.remove(path)
            os.mkfifo(path)
        ends = [os.open(path, os.O_RDWR | os.O_NONBLOCK) for path in paths]
        child = subprocess.Popen([PROGRAM, *words_of(*paths)], stdin=subprocess.DEVNULL, stdout=subprocess.DEVNULL, stderr=subprocess.PIPE)
        os.write(ends[pausing], b"".join(given(100)))
        whole, taken, moved = memoryview(b"".join(given(LONG))), 0, time.monotonic()
        while time.monotonic() - moved < PAUSE and taken < len(whole):
            if select.select([], [ends[1 - pausing]], [], 0.05)[1]:
                taken, moved = taken + os.write(ends[1 - pausing], whole[taken : taken + 65536]), time.monotonic()
        child.kill()
        child.communicate(timeout=PATIENCE)
        for end in ends:
            os.close(end)
        fault = "" if taken <= MOST_AHEAD else f"{taken} bytes of the other one were read"
        self.case(f"memory: {name}", fault and f"{fault}; the command: {command_of(subprocess.CompletedProcess([PROGRAM, *words_of(*paths)], None))}")

    def test_cuts(self):
        """`cut` by a ledger of `watch`: with recordings, and of lines alone."""
        two = ["--a", self.path("pipe_a"), "--b", self.path("pipe_b")]
        both = lambda frames: [("pipe_a", pieces(frames)), ("pipe_b", pieces(frames))]  # noqa: E731

        # The run goes on until its ledger's pipe closes.
        lines = lambda frames: [("pipe_l", ledger_of(frames, of_255, 2 * -(-frames // 255)))]  # noqa: E731
        for name, with_recordings, more in (
            ("of all", True, ()), ("of one frame in 255", True, ("--filters", "01")), ("--pcapng", True, ("--pcapng",)), ("--ledger-only", False, ("--ledger-only",)),
            ("--ledger-only with recordings", True, ("--ledger-only",)), ("of nothing that is there", True, ("--verdict", "excess", "--to", "+1")),
        ):
            words = ["cut", "--ledger", self.path("pipe_l"), *(two if with_recordings else ()), *more]
            self.flat(f"cut {name}", lambda frames, words=words: words, lambda frames, given=with_recordings: lines(frames) + (both(frames) if given else []))

    def test_transits(self):
        """`transit` over late timestamps, and `cut` by its ledger."""
        config = put(self.path("table.toml"), table([(1, 2, 0), (2, 2, 0)], 1000))
        two = ["--before", self.path("pipe_a"), "--after", self.path("pipe_b")]
        both = lambda frames: [("pipe_a", transit_packets(frames)), ("pipe_b", transit_packets(frames, 30 * US))]  # noqa: E731

        def laid(frames, *more):
            write(self.path("transit.ledger"), transit_ledger(frames))
            return ["cut", "--ledger", self.path("transit.ledger"), *two, *more]

        self.flat("transit with late timestamps", lambda frames: ["transit", "--config", config, *two, "--ledger", self.path("out")], both)
        self.flat("cut by a ledger of transits", laid, both)
        self.flat("cut by a ledger of transits, pcapng", lambda frames: laid(frames, "--pcapng", "--config", config), both)
