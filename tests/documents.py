"""The documents as texts: one width, links that lead somewhere, plain sentences, and each fault, ending, word, key and member of
a JSON of the program in its page. Each option stands in afdxmon(1), which tests/manual.py compares with the help. The advice that the
program gives says what to do, in the sources as in docs/MESSAGES.md."""
import json
import os
import re
import subprocess
import tempfile

from tests import texts
from tests.guide import commands_of
from tests.harness import PROGRAM, TOP, Case

WIDTH = 100
LINK = re.compile(r"\]\(([^)\s]+)\)")
# Faults of watch that the program refuses before a run, or that a run without threads can't meet.
UNTOLD = {"5 Spawn", "8 Filters"}
# The words of all pages of docs/, where bars of tables are none; and sentences of more than LONG words, by page. These numbers
# may only fall.
WORDS = 26_000
LONG = 30
LONG_SENTENCES = {}
# Forms over which a reader stumbles, and what to write.
RIDDLES = (
    (r"^(What|Whether|Who|Which|How|Of|That|Those) (?!is that\b)[^?]*$", "begin with who does something, or with the thing"),
    (r", but for\b", "name the exceptions"),
    (r"\bis without a\b|\bwithout bytes, at a time\b|\bat one of (the )?\w+ moments\b", "say what it has or hasn't, and when"),
    (r"\bthat is there is\b|\bfile is meant\b|\b[Ww]ho sleeps\b", "name the thing, and say what becomes of it"),
    (r"\bcontrol can't come\b|\breference that can't exist\b", "say that it is unreachable"),
    (r"\blaziest\b|\b[Ee]ach landing\b|\bmore lines tell\b|\bmost are like\b|\bgoes by cases\b", "say who does what"),
    (r"\bone of (eight|nine|ten) `|, a meeting\b|\btwo ghost members\b", "name them"),
    (r"\bhalv(es|ing) the (file|ledger)\b|\bfinds no constant fault\b|\bWithout one clock\b", "say how, and what follows"),
)
# How advice begins, and what a line of its own may be below it: a command.
VERBS = (
    "Add Assemble Choose Compare Compile Convert Copy Correct Divide Do End Give Judge Jump Keep Leave Let Look Make Name Raise Read Record Rename Report "
    "Run Select Set Shift Shorten Sort Split Store Swap Synchronise Take Unpack Use Write"
).split()
SAYS_WHAT_TO_DO = re.compile(rf"({'|'.join(VERBS)})\b")
COMMAND = re.compile(r"(editcap|tcpdump) ")
ODD_COMMENT = re.compile(r"(//[/!]?|--+( -+)?) (what|whether|who|those|of those)\b", re.I)


def pages():
    """The documents, by their paths."""
    found = ["README.md", "CONTRIBUTING.md", "CHANGELOG.md", os.path.join("examples", "README.md")]
    return found + sorted(os.path.join("docs", name) for name in os.listdir(os.path.join(TOP, "docs")) if name.endswith(".md"))


def text_of(page):
    with open(os.path.join(TOP, page), encoding="utf-8") as given:
        return given.read()


def prose_of(text):
    """The lines that are neither code nor tables, with their numbers."""
    fenced = False
    for number, line in enumerate(text.splitlines(), 1):
        if line.lstrip().startswith("```"):
            fenced = not fenced
        elif not fenced and not line.startswith(("    ", "|")):
            yield number, line


def anchors_of(text):
    """The anchors of a page's headings, as GitHub makes them."""
    titles = (re.sub(r"[`*]|\[([^\]]*)\]\([^)]*\)", r"\1", line.lstrip("# ")) for _, line in prose_of(text) if line.startswith("#"))
    return {re.sub(r"[^\w\- ]", "", title.lower()).replace(" ", "-") for title in titles}


def wide_lines(page):
    """Lines of prose that are too wide. Links can't be broken."""
    return [f"line {number} has {len(line)}" for number, line in prose_of(text_of(page)) if len(line) > WIDTH and "](" not in line]


def false_lists(page):
    """Lines within a paragraph that begin as an item of a list does."""
    before = ""
    for number, line in prose_of(text_of(page)):
        if re.match(r"\d+\. |[-+*] ", line) and before and not re.match(r"\d+\. |[-+*] | ", before):
            yield f"line {number} begins a list"
        before = line


def wide_commands(page):
    """Lines of commands that are too wide. What commands print is as it is."""
    written = [command for command, _ in commands_of(page)] + re.findall(r"^```sh\n(.*?)^```", text_of(page), re.M | re.S)
    return [line for command in written for line in command.splitlines() if len(line) > WIDTH]


def dead_links(page):
    """Links to files that aren't there, and to headings that their page doesn't have."""
    for target in LINK.findall(text_of(page)):
        path, _, anchor = target.partition("#")
        if "://" in path:
            continue
        file = os.path.normpath(os.path.join(os.path.dirname(page), path)) if path else page
        if not os.path.exists(os.path.join(TOP, file)):
            yield f"{target}: no such file"
        elif anchor and file.endswith(".md") and anchor not in anchors_of(text_of(file)):
            yield f"{target}: no such heading"


def cells_of(line):
    """The texts of a line: the cells of a table's row, or one."""
    return [cell.strip() for cell in line.strip("|").split("|")] if line.startswith("|") else [line]


def sentences_of(text):
    """The sentences of a page, in running text, lists and cells of tables, without the targets of links."""
    blocks, fenced = [[]], False
    for line in text.splitlines():
        if line.lstrip().startswith("```"):
            fenced = not fenced
        elif fenced or not line or line.startswith(("    ", "#")):
            blocks.append([])
        elif line.startswith("|"):
            blocks += [[cell] for cell in cells_of(line)] + [[]]
        else:
            item = re.match(r"(\d+\.|-) ", line)
            blocks += [[]] if item else []
            blocks[-1].append(line[item.end() :] if item else line.strip())
    for block in blocks:
        yield from filter(None, re.split(r"(?<=[.?!:])\s+(?=[A-Z`*\[(])", re.sub(r"\]\([^)]*\)", "]", " ".join(block))))


def words_of(text):
    """Words as a reader counts them: with a letter or a digit."""
    return [word for word in text.split() if re.search(r"[A-Za-z0-9]", word)]


def riddles(page):
    """Sentences over which a reader stumbles, with what to write."""
    for sentence in sentences_of(text_of(page)):
        for form, advice in RIDDLES:
            if re.search(form, sentence):
                yield f"{sentence[:60]!r}: {advice}"


def odd_comments():
    """Comments in the sources, specifications and proofs that begin with a question's word, and not with what the thing is or does."""
    for where, folders, names in os.walk(os.path.join(TOP, "crates")):
        if "out" in folders:
            folders.remove("out")
        for name in sorted(name for name in names if name.endswith((".rt", ".antt"))):
            lines = text_of(os.path.join(where, name)).splitlines()
            for number, (before, line) in enumerate(zip(["", *lines], lines), 1):
                if ODD_COMMENT.match(line.lstrip()) and not before.lstrip().startswith(("//", "--")):
                    yield f"{os.path.relpath(os.path.join(where, name), TOP)}:{number}"


def literals_of(*path):
    """The string literals of a source with a blank in them, as the program has them."""
    code = "\n".join(line for line in text_of(os.path.join("crates", *path)).splitlines() if not line.lstrip().startswith("//"))
    for literal in re.findall(r'"((?:[^"\\]|\\.)*)"', code, re.S):
        text = re.sub(r"\\\n\s*", "", literal).replace("\\n", "\n")
        if re.search(r"\w \S", text):
            yield text


def advices():
    """All advice in the sources: texts of one line or more."""
    yield from literals_of("check_answer", "src", "advice.rt")
    yield from literals_of("transit_answer", "src", "advice.rt")
    yield from (text for text in literals_of("transit_answer", "src", "notes.rt") if text[0].isupper())
    # What an option is to name stands without its verb.
    yield from (f"Let --baseline-config name {text}" if text[0].islower() else text for text in literals_of("command_line", "src", "meaning.rt"))
    yield from (text for text in literals_of("commands", "src", "files.rt") if text[0].isupper())
    # These stand below a line that says what is wrong.
    yield from (text.partition("\n  ")[2] for text in literals_of("command_line", "src", "misuse.rt"))
    told = [*literals_of("messages", "src", "messages.rt"), *literals_of("command_line", "src", "exit.rt")]
    yield from (text.partition("\n")[2] if "\n" in text else text for text in told if text[0].isupper() or "\n" in text)


def vague(advice):
    """What is wrong with an advice: its first line doesn't say what to do, a later one is neither that nor a command, or one is too long."""
    first, *more = advice.splitlines() or [""]
    if not SAYS_WHAT_TO_DO.match(first):
        return f"{advice!r} doesn't begin with a verb"
    odd = [line for line in more if not SAYS_WHAT_TO_DO.match(line) and not COMMAND.match(line)]
    odd += [line for line in (first, *more) if len(line) > WIDTH]
    return f"{odd[0]!r}" if odd else ""


def advised_in(page):
    """The cells of a page's tables that say what to do."""
    column = None
    for line in text_of(page).splitlines():
        if not line.startswith("|"):
            column = None
        elif column is None:
            heads = cells_of(line)
            column = heads.index("what to do") if "what to do" in heads else -1
        elif column >= 0 and not line.startswith("|--"):
            yield cells_of(line)[column]


def unlisted_pages():
    """Pages of docs/ that its README doesn't name."""
    linked = {target.partition("#")[0] for target in LINK.findall(text_of(os.path.join("docs", "README.md")))}
    return sorted({os.path.basename(page) for page in pages() if page.startswith("docs")} - linked - {"README.md"})


def found_in(pattern, *path):
    """What a pattern finds in the sources of a crate, or in one of them."""
    given = os.path.join(TOP, "crates", *path)
    names = [os.path.join(where, name) for where, _, names in os.walk(given) for name in names if name.endswith(".rt")]
    names = names or [given]
    return {word.strip() for name in names for word in re.findall(pattern, text_of(name))}


def lacks(known, page, form="`WORD`"):
    """What of a list a page, or several, don't have."""
    text = "\n".join(text_of(os.path.join("docs", name)) for name in page.split())
    missing = [word for word in sorted(known) if not re.search(form.replace("WORD", re.escape(word)), text)]
    return f"{page} lacks {', '.join(missing)}" if missing else "" if known else "the sources have none where they are looked for"


def members_of(value):
    """The names of all members in a JSON value."""
    inner = value.values() if isinstance(value, dict) else value if isinstance(value, list) else ()
    return (set(value) if isinstance(value, dict) else set()).union(*map(members_of, inner))


class Documents(Case):
    def test_pages(self):
        for page in pages():
            self.case(f"{page}: lines of at most {WIDTH} columns", "; ".join((wide_lines(page) + wide_commands(page))[:3]))
            self.case(f"{page}: lists", "; ".join(list(false_lists(page))[:3]))
            self.case(f"{page}: links", "; ".join(list(dead_links(page))[:3]))
        self.case("docs/README.md names each page", ", ".join(unlisted_pages()))

    def test_plain(self):
        """The pages aren't too long, nor are more of their sentences than there were, and no sentence is a riddle."""
        counts = {page: len(words_of(text_of(page))) for page in pages() if page.startswith("docs")}
        total = sum(counts.values())
        told = ", ".join(f"{os.path.basename(page)} {count}" for page, count in counts.items())
        self.case(f"docs/: {total} words of at most {WORDS}: {told}", "" if total <= WORDS else "they are more")
        for page in pages():
            if page == "CHANGELOG.md":
                continue
            long = [sentence for sentence in sentences_of(text_of(page)) if len(words_of(sentence)) > LONG]
            most = LONG_SENTENCES.get(page, 0)
            self.case(f"{page}: at most {most} sentences above {LONG} words", "" if len(long) <= most else f"{len(long)}: {long[-1]}")
            self.case(f"{page}: no riddles", "; ".join(list(riddles(page))[:3]))

    def test_comments(self):
        self.case("no comment begins as a question does", ", ".join(list(odd_comments())[:3]))

    def test_advice(self):
        """Each advice says what to do, in lines of at most 100 columns; so do the page that lists faults and the texts of these tests."""
        known = list(advices())
        self.case("the sources have advice", "" if len(known) > 120 else f"{len(known)} texts")
        copies = [*texts.ADVICE.values(), *texts.ENDINGS.values(), *texts.TAKEN.values(), *(text.partition("\n  ")[2] for text in texts.MISUSE.values())]
        for name, told in (("the sources", known), ("tests/texts.py", copies)):
            self.case(f"advice of {name} says what to do", "; ".join([fault for fault in map(vague, told) if fault][:3]))
        cells = list(advised_in(os.path.join("docs", "MESSAGES.md")))
        odd = [cell for cell in cells if not SAYS_WHAT_TO_DO.match(re.sub(r"^\[", "", cell))]
        self.case("docs/MESSAGES.md says what to do", "; ".join(odd[:3]) if len(cells) > 40 else f"{len(cells)} cells")

    def test_facts(self):
        """What a reader looks up: of each kind where it stands in the program's sources, and in which page it has to stand."""
        faults = found_in(r'"(\d [A-Z]\w*(?: \d [A-Z]\w*)?(?: \w+)?)"', "command_line", "src") - UNTOLD
        self.case("documents: each fault", lacks(faults, "MESSAGES.md TABLE.md FILTERS.md DEBUGGER.md", r"`[^`\n]*\bWORD\b"))
        self.case("documents: each ending's word", lacks(found_in(r'BadReason::\w+(?: { .. })? => "([a-z]+)"', "pcap_io", "src"), "FORMATS.md", r"bad\(n, WORD\)"))
        self.case("documents: each ending's message", lacks(found_in(r'BadReason::\w+(?: { .. })? => "([^"]+)"', "command_line", "src", "message.rt"), "MESSAGES.md FORMATS.md", "WORD"))
        self.case("documents: each key", lacks(found_in(r'Key::\w+ => "(\w+)"', "vl_config", "src"), "TABLE.md", r"\n\| `WORD` "))
        words = {
            word
            for kind, crate in (("Class", "vl_config"), ("Policing", "policing"), ("Integrity", "integrity"), ("Redundancy", "redundancy"))
            for word in found_in(rf'{kind}::\w+ => "(\w+)"', crate, "src")
        }
        self.case("documents: each word of a verdict", lacks(words, "LEDGER.md", r"\n\| `WORD` "))
        # Of a gap, and of what is early or in excess, it is decided what it is.
        kinds = found_in(r'Kind::\w+ => "([a-z ]+)"', "findings", "src", "kind.rt") - {"gap", "early", "excess"}
        self.case("documents: each kind of finding", lacks(kinds, "REPORT.md", "`WORD`"))

    def test_members(self):
        """Each member of report --json and of check --json, as the flight gives them."""
        table, a, b = (os.path.join(TOP, "examples", f"flight{name}") for name in (".toml", "_a.pcap", "_b.pcap"))
        with tempfile.TemporaryDirectory() as folder:
            ledger, wrong = os.path.join(folder, "ledger"), os.path.join(folder, "wrong.toml")
            with open(wrong, "w", encoding="utf-8") as out:
                out.write("constant = 1\n")
            subprocess.run([PROGRAM, "watch", "--config", table, "--a", a, "--b", b, "--ledger", ledger], check=True, timeout=60)
            for page, command in (
                ("REPORT.md", ["report", "--config", table, "--ledger", ledger, "--json"]),
                ("MESSAGES.md", ["check", "--config", table, "--a", a, "--b", a, "--json"]),
                ("MESSAGES.md", ["check", "--config", wrong, "--a", a, "--json"]),
            ):
                ran = subprocess.run([PROGRAM, *command], stdout=subprocess.PIPE, stderr=subprocess.DEVNULL, timeout=60)
                self.case(f"documents: each member of {' '.join(command[:1] + command[-1:])}", lacks({name.split(".")[0] for name in members_of(json.loads(ran.stdout))}, page))
