"""Tests that `watch` destroys nothing: an output that is another of its files is refused, and what an older run left in
the outputs stands until the run writes.
"""
import os
import shutil
import subprocess

from tests.analyser import watch
from tests.harness import EVERY, FAULT, PROGRAM, difference, frame, header, run, run_at_terminal
from tests.texts import ALSO
from tests.watching import OLDER, OPTIONS, TABLE, AtADesk, tap

OUTPUTS = ("capture", "ledger")
GIVEN = tap((0, frame(5, 60, 1)), (100, frame(5, 60, 2)))
INPUTS = {"config": TABLE, "filter": EVERY, "a": GIVEN, "b": GIVEN}
WRITTEN = watch(TABLE, EVERY, GIVEN, GIVEN)


def standing(desk):
    """What stands in the desk's folder, by name: of a file its bytes, of a link where it leads."""
    found = {}
    for entry in os.scandir(desk.directory):
        if entry.is_symlink():
            found[entry.name] = os.readlink(entry.path)
        elif entry.is_file():
            with open(entry.path, "rb") as given:
                found[entry.name] = given.read()
    return found


def without(desk, *names):
    for name in names:
        if os.path.lexists(os.path.join(desk.directory, name)):
            os.remove(os.path.join(desk.directory, name))


def names_of(desk, option):
    """Each way to name the file of an option, and the path."""
    for kind, make in (("symlink", os.symlink), ("hard", os.link)):
        without(desk, f"{kind}_{option}")
        make(desk.paths[option], os.path.join(desk.directory, f"{kind}_{option}"))
    return (
        ("by one path", desk.paths[option]),
        ("by its name", option),
        ("by ./", f"./{option}"),
        ("by ../", f"../{os.path.basename(desk.directory)}/{option}"),
        ("by a symlink to its folder", f"here/./{option}"),
        ("by a symlink", f"symlink_{option}"),
        ("by a hard link", os.path.join(desk.directory, f"hard_{option}")),
    )


# What is wrong with a run before it writes: the contents of inputs, the paths in the place of the desk's, other
# arguments, and the fault. `nowhere` stands for a path that isn't there, `directory` for the folder.
EARLY = (
    ({}, {"config": "nowhere"}, (), "file --config"),
    ({"config": "["}, {}, (), "config 1 Text"),
    ({}, {"filter": "nowhere"}, (), "file --filter"),
    ({"filter": "1,x"}, {}, (), "numeric 1 Character at 2"),
    ({"filter": "0,"}, {}, (), "load 1 Length"),
    ({"config": 'filters = ["0,"]\n' + TABLE}, {}, (), "load 1 Length filter 1"),
    ({}, {"a": "nowhere"}, (), "file --a"),
    ({}, {"b": "nowhere"}, (), "file --b"),
    ({}, {}, ("--workers", "0"), "watch 1 Workers"),
    ({}, {}, ("--workers", "9"), "watch 1 Workers"),
    ({"a": b"\x0a\x0d\x0d\x0a" + bytes(40)}, {}, (), "watch 2 Header A 5 ByteOrderMagic"),
    ({"b": b""}, {}, (), "watch 2 Header B 1 Short"),
    ({"b": header(link_type=101)}, {}, (), "watch 2 Header B 4 LinkType"),
    ({}, {"a": "directory"}, (), "watch 3 Read A"),
    ({}, {"b": "directory"}, (), "watch 3 Read B"),
)


class Outputs(AtADesk):
    def setUp(self):
        super().setUp()
        os.symlink(".", os.path.join(self.folder, "here"))

    def is_other_file(self, name, output, other, made=(), **elsewhere):
        """An output that is another file is refused, in a pipe and at a terminal, and no file is another than before, but for
        those that are `made`, which are empty."""
        line, told = f"afdxmon: file --{output}", []
        for runner, whole in ((run, line + "\n"), (run_at_terminal, line + f"\n{elsewhere.get(output, self.desk.paths[output])}: {ALSO.format(other)}\n")):
            expected = {**standing(self.desk), **dict.fromkeys(made, b"")}
            how = {} if runner is run_at_terminal else {"stdout": subprocess.PIPE}
            ran = runner(self.desk.arguments(**elsewhere), cwd=self.desk.directory, stdin=subprocess.DEVNULL, **how)
            said = ran.stderr if isinstance(ran.stderr, str) else ran.stderr.decode()
            if (ran.returncode, said, ran.stdout) != (FAULT, whole, b""):
                told.append(f"status {ran.returncode}, {said!r}, not {whole!r}")
            if standing(self.desk) != expected:
                told.append("files have changed")
            without(self.desk, *made)
        self.case(f"watch: --{output} is --{other} {name}", "; ".join(told))

    def test_other_files(self):
        """Each output as each other file, by each name of that. The capture is looked at first."""
        self.desk.lay(**INPUTS)
        for output in OUTPUTS:
            for other in OPTIONS:
                if other == output:
                    continue
                first = OUTPUTS if other in OUTPUTS else (output, other)
                for name, path in names_of(self.desk, other):
                    self.is_other_file(name, *first, **{output: path})
        self.is_other_file("and the ledger is --a", "capture", "b", capture="b", ledger="a")
        self.is_other_file("where the capture is a folder", "ledger", "filter", capture=self.desk.directory, ledger="filter")
        with open(self.desk.paths["a"], "rb") as given:
            ran = run(self.desk.arguments(a="/dev/stdin", ledger=self.desk.paths["a"]), stdin=given, stdout=subprocess.PIPE)
        self.refused("the recording on standard input is the ledger", ran, "file --ledger")
        self.case("watch: it stands", "" if self.desk.left("a") == GIVEN else "it has changed")

    def test_of_other_commands(self):
        """The output of `cut` and of `report` as each file that the command reads. manifest.py has that of a manifest."""
        self.desk.lay(**INPUTS)
        shutil.copy(self.desk.paths["ledger"], os.path.join(self.desk.directory, "baseline"))
        read_by = {"cut": ("ledger", "a", "b", "config"), "report": ("config", "ledger", "baseline")}
        for command, inputs in read_by.items():
            paths = [os.path.join(self.desk.directory, option) for option in inputs]
            for path in paths:
                before = standing(self.desk)
                words = [command, *(word for option, path in zip(inputs, paths) for word in (f"--{option}", path)), "-o", path]
                ran = run(words, stdin=subprocess.DEVNULL, stdout=subprocess.PIPE)
                fault = difference(ran, FAULT, "afdxmon: file --output", b"")
                self.case(f"{command}: --output is --{os.path.basename(path)}", fault or ("" if standing(self.desk) == before else "files have changed"))
        without(self.desk, "baseline")

    def test_new_files(self):
        """A file that isn't there yet, by two names."""
        self.desk.lay(**INPUTS)
        without(self.desk, *OUTPUTS)
        for name, one, two in (
            ("by one new name", "new", "new"),
            ("by ./ of a new file", "new", "./new"),
            ("by ../ of a new file", os.path.join(self.desk.directory, "new"), f"here/../{os.path.basename(self.desk.directory)}/new"),
            ("by a symlink to its folder, of a new file", "here/new", "new"),
        ):
            self.is_other_file(name, *OUTPUTS, capture=one, ledger=two)
        os.symlink("new", os.path.join(self.desk.directory, "link"))
        # Only once the file is there do both names lead to it.
        self.is_other_file("by a symlink to a new file", *OUTPUTS, ["new"], capture="link", ledger="new")
        without(self.desk, "link")

    def agreeing(self, name, capture, ledger):
        """A run that succeeds, with its outputs at these paths, which end in the folder's files of the last two names."""
        ran = run(self.desk.arguments(capture=capture, ledger=ledger), cwd=self.desk.directory, stdin=subprocess.DEVNULL, stdout=subprocess.PIPE)
        fault = difference(ran, 0, "", b"")
        for path, whole in ((capture, WRITTEN.capture), (ledger, WRITTEN.lines + WRITTEN.summary)):
            with open(os.path.join(self.desk.directory, path), "rb") as written:
                if written.read() != whole:
                    fault = fault or f"{path} isn't what it should be"
        self.case(f"watch: {name}", fault)

    def test_apart(self):
        """Files that are alike in name alone, and outputs that are longer than what they become."""
        self.desk.lay(**INPUTS)
        without(self.desk, *OUTPUTS)
        os.mkdir(os.path.join(self.desk.directory, "folder"))
        self.agreeing("new files of one name in two folders", "new", "folder/new")
        self.agreeing("older files of one name in two folders", "new", "folder/new")
        shutil.rmtree(os.path.join(self.desk.directory, "folder"))
        without(self.desk, "new")
        self.numbered_alike()
        for name in OUTPUTS:
            with open(self.desk.paths[name], "wb") as out:
                out.write(bytes(1 << 20))
        self.agreeing("outputs that were longer", "capture", "ledger")
        os.symlink("capture", os.path.join(self.desk.directory, "link"))
        self.agreeing("an older output by a symlink", "link", "ledger")
        self.case("watch: the symlink stands", "" if os.path.islink(os.path.join(self.desk.directory, "link")) else "it is gone")
        without(self.desk, "link")

    def numbered_alike(self):
        """Two older files with one number, each on a device of its own."""
        if not shutil.which("unshare"):
            self.skip("watch: older files of one number on two devices", "no unshare here")
            return
        folders = [os.path.join(self.desk.directory, name) for name in ("one", "two")]
        mounted = " && ".join(f"mkdir '{folder}' && mount -t tmpfs none '{folder}' && echo > '{folder}/new'" for folder in folders)
        alike = " && ".join([f"[ $(stat -c %i '{folders[0]}/new') = $(stat -c %i '{folders[1]}/new') ]", "echo alike"])
        words = " ".join(f"'{word}'" for word in [PROGRAM, *self.desk.arguments(capture=f"{folders[0]}/new", ledger=f"{folders[1]}/new")])
        kept = " && ".join(f"cp '{folder}/new' '{self.desk.paths[name]}'" for folder, name in zip(folders, OUTPUTS))
        script = f"{mounted} && {alike} && {words} && {kept}"
        ran = subprocess.run(["unshare", "--mount", "--map-root-user", "sh", "-c", script], stdin=subprocess.DEVNULL, capture_output=True, timeout=60)
        for folder in folders:
            shutil.rmtree(folder, ignore_errors=True)
        if b"alike" not in ran.stdout:
            self.skip("watch: older files of one number on two devices", f"no devices of its own here: {ran.stderr.decode().strip()[:100]}")
            return
        fault = difference(ran, 0, "", b"alike\n")
        self.case("watch: older files of one number on two devices", fault or self.desk.compared("capture", WRITTEN.capture) or self.desk.compared("ledger", WRITTEN.lines + WRITTEN.summary))

    def test_devices(self):
        """The null device may be named twice, and a pipe once: the bytes of two outputs would be mixed there."""
        self.desk.lay(**INPUTS)
        self.case("watch: /dev/null twice", difference(self.desk.watch(capture="/dev/null", ledger="/dev/null"), 0, "", b""))
        self.refused("/dev/null as a recording too", self.desk.watch(a="/dev/null", capture="/dev/null"), "watch 2 Header A 1 Short")
        pipe = os.path.join(self.desk.directory, "pipe")
        os.mkfifo(pipe)
        self.case("watch: a pipe twice", difference(self.desk.watch(capture=pipe, ledger=pipe), FAULT, "afdxmon: file --ledger", b""))
        os.remove(pipe)

    def test_early_faults(self):
        """After a fault before the run writes an older output is as it was, and a new one isn't there, or is empty."""
        places = {"nowhere": os.path.join(self.desk.directory, "nowhere"), "directory": self.desk.directory}
        for contents, elsewhere, more, line in EARLY:
            paths = {option: places[place] for option, place in elsewhere.items()}
            self.desk.lay(**{**INPUTS, **contents})
            self.refused("older outputs", self.desk.watch(*more, **paths), line)
            without(self.desk, *OUTPUTS)
            ran = self.desk.watch(*more, **paths)
            found = {name: standing(self.desk).get(name) for name in OUTPUTS}
            expected = dict.fromkeys(OUTPUTS, b"" if line.startswith("watch") else None)
            fault = difference(ran, FAULT, "afdxmon: " + line, b"")
            self.case(f"watch: new outputs: {line}", fault or ("" if found == expected else f"the outputs are {found!r}"))
        self.desk.lay(**INPUTS)
        for output, other in (OUTPUTS, OUTPUTS[::-1]):
            ran = self.desk.watch(**{output: self.desk.directory})
            self.refused("an output that can't be opened", ran, f"file --{output}")
            self.case(f"watch: the {other} stands", "" if self.desk.left(other) == OLDER else "it has changed")

    def test_later_faults(self):
        """A run that began to write leaves its own prefix, in the place of what stood there."""
        a = tap(*((i, frame(5, 60, i % 255 + 1)) for i in range(2000)))
        whole = watch(TABLE, EVERY, a, GIVEN)
        for output, other in (OUTPUTS, OUTPUTS[::-1]):
            self.desk.lay(**{**INPUTS, "a": a})
            with open(self.desk.paths[other], "wb") as out:
                out.write(b"older" * 10**6)
            ran = self.desk.watch(**{output: "/dev/full"})
            text = whole.capture if other == "capture" else whole.lines + whole.summary
            left = self.desk.left(other)
            fault = difference(ran, FAULT, f"afdxmon: watch 4 Write {output}", b"")
            self.case(f"watch: a full disk, and an older {other}", fault or ("" if left and text.startswith(left) else f"{left[:60]!r} begins it"))

    def test_lists(self):
        """A list of a recording's files is a file of the command too: no output may be it."""
        self.desk.lay(**INPUTS)
        with open(os.path.join(self.desk.directory, "listed"), "w") as out:
            out.write(self.desk.paths["a"] + "\n")
        os.symlink("listed", os.path.join(self.desk.directory, "link"))
        for output in OUTPUTS:
            for network, path in (("a", "listed"), ("b", "here/listed"), ("a", "link")):
                self.is_other_file(f"in a list, by {path}", output, network, **{network: "@listed", output: path})
        with open(self.desk.paths["ledger"], "w") as out:
            out.write("afdx-ledger 2\n")
        for words, option in (
            ([*self.desk.arguments(a="@listed"), "--manifest", "listed"], "manifest"),
            (["capture", "--code", EVERY, "@listed", "-o", "listed"], "output"),
            (["capture", "--code", EVERY, "a", "@listed", "-o", "link"], "output"),
            (["cut", "--ledger", "ledger", "--a", "@listed", "-o", "listed"], "output"),
            (["cut", "--ledger", "ledger", "--a", "a", "--b", "b", "@listed", "-o", "./listed"], "output"),
        ):
            before = standing(self.desk)
            ran = run(words, cwd=self.desk.directory, stdin=subprocess.DEVNULL, stdout=subprocess.PIPE)
            fault = difference(ran, FAULT, f"afdxmon: file --{option}", b"")
            self.case(f"{words[0]}: --{option} is a list of the recording", fault or ("" if standing(self.desk) == before else "files have changed"))
        without(self.desk, "listed", "link")
