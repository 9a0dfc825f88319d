"""The man pages and the completions name each option of each command that `--help` prints, and no other. The man pages
have each key, word and fault line of the documents."""
import os
import pty
import re
import select
import shutil
import subprocess
import tempfile
import time

from tests.harness import PROGRAM, TOP, Case, read

MAN, COMPLETIONS = os.path.join(TOP, "man"), os.path.join(TOP, "completions")
PAGES = ("afdxmon.1", "afdxmon-ledger.5", "afdxmon-table.5")
FILE_OPTIONS = set("--config --filter --a --b --capture --ledger --source --output -o --tap".split())
OPTION = re.compile(r"(?<![\w-])--?[a-zA-Z][\w-]*")


def differ(found, expected):
    """How two sets of words differ."""
    found, expected = set(found), set(expected)
    more, less = sorted(found - expected), sorted(expected - found)
    return "; ".join(f"{what} {' '.join(words)}" for what, words in (("has", more), ("lacks", less)) if words)


def help_on(*command):
    return subprocess.run([PROGRAM, *command, "--help"], stdout=subprocess.PIPE, timeout=60).stdout.decode()


def options_in_help(text):
    """The options that a help text lists, short and long."""
    rows = text.partition("Options:\n")[2].split("\n\n")[0].splitlines()
    return {word for row in rows for word in OPTION.findall(re.split(r" {2,}(?=[A-Z])", row.strip())[0])}


def commands_in_help():
    return re.findall(r"^  (\w+) ", help_on().partition("Commands:\n")[2].partition("\n\n")[0], re.M)


def sections(page, macro):
    """The parts of a man page below each heading of a kind, by heading."""
    parts = re.split(rf"^\.{macro} (.*)\n", page, flags=re.M)
    return dict(zip(parts[1::2], (re.split(r"^\.Sh ", part, flags=re.M)[0] for part in parts[2::2])))


def options_in_page(text, tags_only=True):
    """The options that a man page tags, or all that it names: `Fl -a` is --a."""
    lines = [line for line in text.splitlines() if line.startswith(".It ") or not tags_only]
    return {"-" + word for line in lines for word in re.findall(r"\bFl (-?\w[\w-]*)", line)}


def synopsis(page):
    """The options that the synopsis gives each command."""
    parts = re.split(r"^\.Nm\n", sections(page, "Sh")["SYNOPSIS"], flags=re.M)[1:]
    by_command = {}
    for part in parts:
        command = re.match(r"\.Cm (\w+)", part)
        found = {"-" + word for word in re.findall(r"\bFl (-?\w[\w-]*)|\| (-\w[\w-]*)", part) for word in word if word}
        by_command[command[1] if command else ""] = found
    return by_command


class Bash:
    """Calls the completion as bash does: with the words of the line, and where the cursor is."""

    name = "bash"
    SCRIPT = """source "$1"; shift
        COMP_WORDS=("$@"); COMP_CWORD=$(($# - 1))
        _afdxmon "$1" "${@: -1}" "${@: -2:1}"
        printf '%s\\n' "${COMPREPLY[@]}" """

    def __enter__(self):
        return self

    def __exit__(self, *_):
        pass

    def offers(self, line):
        words = [word for word in re.split(r" |(=)", line) if word is not None]
        command = ["bash", "-c", self.SCRIPT, "bash", os.path.join(COMPLETIONS, "afdxmon.bash"), *words]
        return subprocess.run(command, stdout=subprocess.PIPE, timeout=60).stdout.decode().split()


class Fish:
    """Asks fish for what it would offer."""

    name = "fish"

    def __enter__(self):
        self.home = tempfile.TemporaryDirectory()
        return self

    def __exit__(self, *_):
        self.home.cleanup()

    def offers(self, line):
        script = f"source '{COMPLETIONS}/afdxmon.fish'; complete -C '{line}'"
        environment = {**os.environ, "HOME": self.home.name}
        ran = subprocess.run(["fish", "-c", script], stdout=subprocess.PIPE, env=environment, timeout=60)
        return [row.split("\t")[0].rstrip("/") for row in ran.stdout.decode().splitlines()]


class Zsh:
    """Lists what zsh offers at a terminal."""

    name = "zsh"
    SETUP = (
        "PS1='zsh> ' LISTMAX=1000; fpath=(%s $fpath); autoload -Uz compinit; compinit -u -D; "
        "zstyle ':completion:*' verbose no; bindkey '^X' list-choices; echo S''ET\n"
    )

    def __enter__(self):
        self.terminal, theirs = pty.openpty()
        environment = {"PATH": os.environ["PATH"], "HOME": "/", "TERM": "dumb", "LC_ALL": "C", "COLUMNS": "300"}
        streams = {"stdin": theirs, "stdout": theirs, "stderr": theirs}
        self.shell = subprocess.Popen(["zsh", "-f", "-i"], **streams, env=environment, start_new_session=True)
        os.close(theirs)
        os.write(self.terminal, (self.SETUP % COMPLETIONS).encode())
        self.told_up_to("SET\r\n.*zsh> ")
        return self

    def __exit__(self, *_):
        self.shell.kill()
        self.shell.wait()
        os.close(self.terminal)

    def told_up_to(self, mark, seconds=30):
        """What the terminal shows until a pattern matches."""
        told, end = "", time.monotonic() + seconds
        while not re.search(mark, told, re.S) and time.monotonic() < end:
            if select.select([self.terminal], [], [], 0.1)[0]:
                told += os.read(self.terminal, 65536).decode("utf-8", "replace")
        return told

    def offers(self, line):
        # ^X lists the choices, and then zsh shows the prompt and the line again; ^U clears the line.
        os.write(self.terminal, line.encode() + b"\x18")
        told = self.told_up_to("\nzsh> " + re.escape(line))
        os.write(self.terminal, b"\x15")
        self.told_up_to("\r       ", 1)
        return [word.rstrip("/") for word in told.partition("\n")[2].rpartition("\nzsh> ")[0].split()]


def entries(page, macro="Ic"):
    """What a man page tags with words of a macro: the words, and the text below."""
    parts = re.split(rf"^\.It {macro} (\w.*)\n", page, flags=re.M)
    return dict(zip(parts[1::2], parts[2::2]))


def numbers(text):
    return set(re.findall(r"(?<![\w.])\d+(?!\.?\w)", text))


def options_of_the_help():
    """The options of each command, and of the program itself."""
    options = {command: options_in_help(help_on(command)) for command in commands_in_help() if command != "help"}
    return {**options, "": options_in_help(help_on()), "help": set()}


class Manual(Case):
    def test_options_of_the_page(self):
        """The options of each command, where the man page describes them and in its synopsis."""
        options, page = options_of_the_help(), read(MAN, "afdxmon.1").decode()
        described, usage = sections(page, "Ss"), synopsis(page)
        self.case("the man page has each command", differ(described, {command for command in options if command}))
        for command in filter(None, options):
            if command != "help":
                own = options[command] - {"-h", "--help", "-v", "--verbose"}
                self.case(f"the man page on {command}", differ(options_in_page(described.get(command, "")), own))
                self.case(f"the synopsis of {command}", differ(usage.get(command, ()), own))
        self.case("the man page's own options", differ(options_in_page(sections(page, "Sh")["OPTIONS"]), options[""] | {"-v", "--verbose"}))

    def offered(self, shell, options):
        """What a shell offers for the start of each line."""
        commands = {command for command in options if command}
        words = (word for word in shell.offers("afdxmon ") if not word.startswith("-"))
        self.case(f"{shell.name} completes commands", differ(words, commands))
        self.case(f"{shell.name} completes the commands of help", differ(shell.offers("afdxmon help "), commands))
        for command in set(options) - {"help"}:
            line = f"afdxmon {command} ".replace("  ", " ")
            self.case(f"{shell.name} completes the options of {line}", differ(shell.offers(line + "-"), options[command]))
        for line in ("afdxmon watch --workers ", "afdxmon watch --workers="):
            workers = (word.rpartition("=")[2] for word in shell.offers(line))
            self.case(f"{shell.name} completes the number of {line}", differ(workers, "12345678"))
        for command, texts in (("capture", {"any"}), ("debug", {"any"}), ("watch", set())):
            line = f"afdxmon {command} --late-us "
            self.case(f"{shell.name} completes no number of {line}", differ({word.rpartition("=")[2] for word in shell.offers(line)}, texts))
        for command in filter(None, options):
            for option in sorted(options[command] & FILE_OPTIONS):
                start = os.path.join(COMPLETIONS, "afdxmon.b")
                names = {os.path.basename(name) for name in shell.offers(f"afdxmon {command} {option} {start}")}
                self.case(f"{shell.name} completes the file of {command} {option}", differ(names, {"afdxmon.bash"}))

    def test_generated(self):
        """The completions and the synopsis are those that tools/completions makes of the help, and two man pages those that
        tools/manuals makes of their documents."""
        tools = (
            ("completions", [PROGRAM], "the help", ("completions/_afdxmon", "completions/afdxmon.bash", "completions/afdxmon.fish", "man/afdxmon.1")),
            ("manuals", [], "its document", ("man/afdxmon-table.5", "man/afdxmon-ledger.5")),
        )
        with tempfile.TemporaryDirectory() as folder:
            for part in ("completions", "docs", "man"):
                shutil.copytree(os.path.join(TOP, part), os.path.join(folder, part))
            for tool, arguments, source, names in tools:
                subprocess.run([os.path.join(TOP, "tools", tool), *arguments, folder], check=True, timeout=120)
                for name in names:
                    same = read(folder, name) == read(TOP, name)
                    self.case(f"{name} is as made of {source}", "" if same else f"it isn't: make {tool}")

    def test_completions(self):
        options = options_of_the_help()
        for shell in (Bash(), Fish(), Zsh()):
            if not shutil.which(shell.name):
                self.skip(f"the completions of {shell.name}", f"no {shell.name} here")
                continue
            with shell:
                self.offered(shell, options)

    def test_keys(self):
        """The keys of a table, each with the numbers of its range and its default."""
        described, known = entries(read(MAN, "afdxmon-table.5").decode()), {}
        rows = re.findall(r"^\| `(\w+)` \| ((?:integer|array|string|boolean).*)", read(TOP, "docs", "TABLE.md").decode(), re.M)
        for key, row in rows:
            cells = row.split(" | ")
            known[key] = numbers(re.sub(r"\(.*?\)", "", " ".join(cells[1:-1])))
        self.case("afdxmon-table(5) has each key", differ(described, known))
        for key, expected in known.items():
            self.case(f"afdxmon-table(5) on {key}", differ(expected - numbers(described.get(key, "")), ()))

    def test_words(self):
        """The words of a ledger, and its lines of counts."""
        described = {word.split()[0] for word in entries(read(MAN, "afdxmon-ledger.5").decode())}
        document = read(TOP, "docs", "LEDGER.md").decode()
        tables = document.partition("## Discarded")[2].partition("Look for these")[0]
        known = {word for row in re.findall(r"^\| (`.*?) \|", tables, re.M) for word in re.findall(r"`(\w+)`", row)}
        known |= set(re.findall(r"^\| `(\w+) ", document.partition("## The lines of counts")[2], re.M))
        self.case("afdxmon-ledger(5) has each word", differ(described, known))

    def test_fault_lines(self):
        """Each fault line of the documents has an entry, and no other. Places are left out."""
        tagged = [row for page in PAGES for row in re.findall(r"^\.It Li (\w+ \d.*)", read(MAN, page).decode(), re.M)]
        found = {" ".join(re.sub(r"\bAr \w+|\bLi\b", "", row).split()) for row in tagged}
        documents = "".join(read(TOP, "docs", page).decode() for page in ("MESSAGES.md", "TABLE.md", "FILTERS.md"))
        lines = re.findall(r"`(?:afdxmon: )?((?:asm|debug|numeric|load|cut|links|check|report|transit|watch|config) \d \w[\w ]*)`", documents)
        known = {re.sub(r"(?<=at) [NI]\b|(?<=word) W\b|(?<=link) \d| (?:WHAT|REASON|OPTION|COLUMN|FAULT)\b", "", line) for line in lines}
        self.case("the man pages have each fault line", differ(found, known))

    def test_lint(self):
        """No page has a warning."""
        for page in PAGES:
            path = os.path.join(MAN, page)
            for command in (["mandoc", "-Tlint"], ["man", "--warnings", "-E", "UTF-8", "-l"]):
                if not shutil.which(command[0]):
                    self.skip(f"{command[0]} on {page}", f"no {command[0]} here")
                    continue
                environment = {**os.environ, "MANPAGER": "cat", "LC_ALL": "C"}
                ran = subprocess.run([*command, path], capture_output=True, env=environment, timeout=60)
                told = ran.stdout if command[0] == "mandoc" else ran.stderr
                # Whether the pages of others are installed says nothing of this one.
                warnings = [line for line in told.decode().splitlines() if "referenced manual not found" not in line]
                self.case(f"{command[0]} on {page}", "; ".join(warnings))
