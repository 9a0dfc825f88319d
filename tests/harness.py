"""What the tests of the program share: running it, comparing what it leaves, and building recordings.

The environment names the program as PROGRAM: bin/afdxmon by default.
"""
import functools
import os
import pty
import random
import shlex
import shutil
import struct
import subprocess
import tempfile
import unittest

HERE = os.path.dirname(os.path.abspath(__file__))
TOP = os.path.dirname(HERE)
RELEASED = os.path.join(TOP, "bin", "afdxmon")
PROGRAM = os.path.abspath(os.environ.get("PROGRAM", RELEASED))
EVERY = "1,6 0 0 4294967295,"
LINK5 = "4,40 0 0 4,21 0 1 5,6 0 0 4294967295,6 0 0 0,"
FIRST_64 = "1,6 0 0 64,"
# ld len, sub #1, tax, ldb [x + 0], jset #1, ret #-1, ret #0: an odd sequence number, the last byte of each frame
ODD = "7,128 0 0 0,20 0 0 1,7 0 0 0,80 0 0 0,69 0 1 1,6 0 0 4294967295,6 0 0 0,"
USAGE, FAULT, SUCCESS = 2, 1, 0
patience = {"seconds": 60}
# The run that ended last in a test, if one did.
recent = []
COMMAND = "; the command: "
# A traceback ends where a test calls what stands here.
__unittest = True


def record(stamp, data, layout="<", unit=1, original=None):
    fields = (stamp // 10**9, stamp % 10**9 // unit, len(data), len(data) if original is None else original)
    return struct.pack(layout + "IIII", *fields) + data


def frame(link, size, sequence):
    return b"\x03\0\0\0" + struct.pack(">H", link) + bytes(size - 7) + bytes([sequence])


def header(layout="<", magic=0xA1B23C4D, version=(2, 4), link_type=1):
    return struct.pack(layout + "IHHIIII", magic, *version, 0, 0, 262144, link_type)


def read(*path):
    """The bytes of a file."""
    with open(os.path.join(*path), "rb") as given:
        return given.read()


def put(*parts):
    """Writes a file, whose path the parts but the last are, with the folders that it stands in. Its path."""
    *path, data = parts
    os.makedirs(os.path.dirname(os.path.join(*path)), exist_ok=True)
    with open(os.path.join(*path), "wb") as out:
        out.write(data.encode() if isinstance(data, str) else data)
    return os.path.join(*path)


def recording(frames, layout="<", unit=1, sizes=(60, 1514)):
    """Frames of many links, of random sizes and bytes."""
    chance, out, stamp = random.Random(7), [header(layout, 0xA1B23C4D if unit == 1 else 0xA1B2C3D4)], 10**18
    for i in range(frames):
        stamp += chance.randrange(0, 5) * 1000
        size = chance.randint(*sizes)
        data = b"\x03\0\0\0" + struct.pack(">H", chance.randrange(8)) + chance.randbytes(size - 7) + bytes([i % 255 + 1])
        out.append(record(stamp, data, layout, unit, size + chance.choice((0, 0, 4))))
    return b"".join(out)


class Case(unittest.TestCase):
    """A test of the program, whose cases are its subTests; one without them is a case itself."""

    failed = False

    @functools.cached_property
    def folder(self):
        """The path of this test's folder, which stays where a case failed."""
        folder = tempfile.TemporaryDirectory()
        self.addCleanup(lambda: folder._finalizer.detach() if self.failed else folder.cleanup())
        return os.path.realpath(folder.name)

    def run(self, result=None):
        recent.clear()
        return super().run(result)

    def case(self, name, fault):
        """A case, which fails by a fault that isn't empty. A failure shows the program's command, and the one that runs the test again
        up to its first failure."""
        with self.subTest(name):
            if fault:
                self.failed = True
                if recent and COMMAND not in fault:
                    fault += COMMAND + command_of(recent[0])
                program = "" if PROGRAM == RELEASED else f"PROGRAM={shlex.quote(PROGRAM)} "
                self.fail(f"{fault}\nagain by: cd {shlex.quote(TOP)} && {program}python3 -m unittest -f {self.id()}")

    def judge(self, name, ran, status, line, out=None):
        """A case: a run with this status, this whole standard error and, where it is given, this standard output."""
        self.case(name, difference(ran, status, line, out))

    def skip(self, name, why):
        """A case that this machine lacks something for: neither passed nor failed."""
        with self.subTest(name):
            self.skipTest(why)


def command_of(ran):
    """The command of a run that failed, as a shell takes it. What it was given on standard input stands in a file."""
    words, given = shlex.join(map(str, ran.args)), getattr(ran, "given", None)
    if given:
        with tempfile.NamedTemporaryFile(prefix="standard_input_", delete=False) as file:
            file.write(given if isinstance(given, bytes) else given.encode())
        words += f" < {file.name}"
    where = getattr(ran, "folder", None)
    return f"cd {shlex.quote(str(where))} && {words}" if where else words


def difference(ran, status, line, out=None):
    """How a run differs from the status, the whole of standard error and, where it is given, standard output; and its command."""
    fault = how_it_differs(ran, status, line, out)
    return fault + COMMAND + command_of(ran) if fault else ""


def how_it_differs(ran, status, line, out):
    told = ran.stderr.decode("utf-8", "replace")
    if ran.returncode != status:
        return f"status {ran.returncode}, not {status}; {told!r}"
    fits = line(told) if callable(line) else told == (line + "\n" if line else "")
    if not fits:
        return f"standard error is {told!r}"
    if out is not None and ran.stdout != out:
        return f"{len(ran.stdout or b'')} bytes on standard output, not the {len(out)} expected"
    return ""


def ended(command, **how):
    """Runs a command to its end. One that goes on for a minute is ended, which its status says; later ones have less time."""
    try:
        ran = subprocess.run(command, timeout=patience["seconds"], **how)
    except subprocess.TimeoutExpired as late:
        status = f"none within {patience['seconds']} seconds"
        patience["seconds"] = 10
        ran = subprocess.CompletedProcess(command, status, late.stdout or b"", late.stderr or b"")
    ran.given, ran.folder = how.get("input"), how.get("cwd")
    recent[:] = [ran]
    return ran


def run(arguments, program=PROGRAM, **how):
    return ended([program, *arguments], stderr=subprocess.PIPE, **how)


def shown(told):
    """What is left on a terminal of what was written to it: a carriage return goes back to the line's start."""
    lines = []
    for line in told.split("\n"):
        cells = ""
        for piece in line.split("\r"):
            cells = piece + cells[len(piece) :]
        lines.append(cells.rstrip(" ") if "\r" in line else cells)
    return "\n".join(lines)


def told_to(terminal):
    """All that is written to a terminal up to its close and stands there then, with the newlines of a file."""
    told = b""
    while True:
        try:
            piece = os.read(terminal, 65536)
        except OSError:
            piece = b""  # nobody has the terminal open any more
        if not piece:
            return shown(told.decode("utf-8", "replace").replace("\r\n", "\n"))
        told += piece


def readable_program(folder):
    """A copy of the program in this folder, which another user may look into: that user may not look into the folder that it stands in."""
    program = shutil.copy(PROGRAM, os.path.join(folder, "program"))
    os.chmod(folder, 0o755)
    # Those above it that this run of the tests made are private too.
    while os.path.basename(folder := os.path.dirname(folder)).startswith(tempfile.gettempprefix()) and not os.stat(folder).st_mode & 0o001:
        os.chmod(folder, 0o755)
    os.chmod(program, 0o755)
    return program


def run_at_terminal(arguments, program=PROGRAM, **how):
    """Runs with standard error at a terminal. Standard error is a text."""
    ours, theirs = pty.openpty()
    try:
        ran = ended([program, *arguments], stdout=subprocess.PIPE, stderr=theirs, **how)
    finally:
        os.close(theirs)
    ran.stderr = told_to(ours)
    os.close(ours)
    return ran
