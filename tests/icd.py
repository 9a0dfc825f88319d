"""`afdxmon links --icd` as a program: drafts of documents and recordings, byte by byte, and documents that are refused.

The documents are written and read by Python's csv, what was seen comes of tests/links.py, and how both stand is said here in
closed form. `watch` takes each draft.
"""
import csv
import io
import os
import random
import subprocess

from tests.harness import FAULT, SUCCESS, USAGE, Case, difference, frame, header, record, run, run_at_terminal
from tests.links import GROUP, MS, START, copies_of, drafted, estimate, keys_text, seen_text, sent, sides_of
from tests.texts import ADVICE, CORRECT_ICD, MISUSE

HEAD = """\
# A draft of the table of virtual links: what an ICD specifies, and what was seen in recordings where it leaves a value out.
"""
KEYS = ("bag_ms", "jitter_us", "smax", "integrity", "redundancy", "skew_us")
HEADS = ("id", "name", *KEYS)
# What a draft has of a key that is neither specified nor seen.
NEITHER = {"bag_ms": 128, "jitter_us": 0, "smax": 64, "integrity": True, "redundancy": False, "skew_us": 0}
LETTERS = "abcdefghijklmnopqrstuvwxyzABCDEFGHIJKLMNOPQRSTUVWXYZ0123456789_-"
BOUNDS = {
    "id": (0, 1, 255, 256, 32768, 65535),
    "name": (1, 2, 16, 17, 20, 31, 32),
    "bag_ms": (1, 2, 4, 8, 16, 32, 64, 128),
    "jitter_us": (0, 1, 500, 99_999, 100_000),
    "smax": (64, 65, 500, 1517, 1518),
    "integrity": (True, False),
    "redundancy": (True, False),
    "skew_us": (0, 1, 1000, 999_999, 1_000_000),
}


def written(rows, heads=HEADS, **how):
    """A document of rows, each a dictionary: what one lacks is blank."""
    out = io.StringIO()
    writer = csv.writer(out, **{"lineterminator": "\n", **how})
    writer.writerow(heads)
    for row in rows:
        writer.writerow([str(row.get(head, "")).lower() if head != "name" else row.get(head, "") for head in heads])
    return out.getvalue()


# ---- how what was seen stands to what is specified


def seen_values(frames, bag, both):
    """What the frames say: of BAG and jitter only where there are intervals, of integrity where a number follows or doesn't, of
    redundancy where both networks are recorded, and of skew where there are copies. The size is that of the longest frame, and not
    a draft's, which is rounded up."""
    if not frames:
        return {}
    sides = sides_of(frames)
    values, at_bag = estimate(frames), estimate(frames, bag * MS)
    gaps = any(side.gaps for side in sides)
    found = {"smax": max(side.size for side in sides) + 4}
    if gaps:
        found.update(bag_ms=values["bag_ms"], jitter_us=at_bag["jitter_us"], integrity=values["integrity"])
    if both:
        found["redundancy"] = values["redundancy"]
    if copies_of([(on, stamp, number) for on, stamp, _, number in frames]):
        found["skew_us"] = values["skew_us"]
    return found


def told_values(frames, seen):
    """What is told of the frames: the jitter is that of the BAG that is told."""
    return {**seen, "jitter_us": estimate(frames)["jitter_us"]} if "jitter_us" in seen else seen


def stand(key, specified, seen):
    if specified == seen:
        return "same"
    if key in ("integrity", "redundancy"):
        return "beyond"
    return "beyond" if (seen < specified if key == "bag_ms" else seen > specified) else "within"


def listed(heading, words):
    return f"# {heading}: {', '.join(words)}.\n" if words else ""


def link_text(link, row, frames, a, b, counts):
    """A link's table; `counts` gains what it is."""
    if row is None:
        counts["unspecified"].append(f"{link} ({len(frames)} frame{'' if len(frames) == 1 else 's'})")
        values = estimate(frames)
        block = "[[link]]\n" + seen_text(frames, values["bag_ms"] * MS) + keys_text(link, f"vl_{link}", values)
        commented = [line if line.startswith("#") else f"# {line}" for line in block.splitlines(keepends=True)]
        return "\n# The ICD has no such link: its frames are unconfigured.\n" + "".join(commented)
    bag = row.get("bag_ms") or (estimate(frames)["bag_ms"] if frames else NEITHER["bag_ms"])
    seen = seen_values(frames, bag, a and b)
    values = {**(estimate(frames, bag * MS) if frames else NEITHER), "bag_ms": bag}
    if "redundancy" in row:
        skews = copies_of([(on, stamp, number) for on, stamp, _, number in frames]) if row["redundancy"] else []
        values["skew_us"] = min(-(-max(skews, default=0) // 1000), 10**6)
    values.update({key: row[key] for key in KEYS if key in row})
    text = "\n[[link]]\n" + (seen_text(frames, bag * MS) if frames else "")
    if "original" in row:
        text += f'# Its name in the ICD: "{row["original"]}".\n'
    if not frames and (a or b):
        counts["unseen"] += 1
        text += "# No frame was seen.\n"
    text += listed("Not in the ICD, but seen", [key for key in KEYS if key not in row and key in seen])
    text += listed("Neither in the ICD nor seen", [key for key in KEYS if key not in row and key not in seen])
    stands = {key: stand(key, row[key], seen[key]) for key in KEYS if key in row and key in seen}
    told = told_values(frames, seen)
    if stands.get("jitter_us") == "same" and told["jitter_us"] != row["jitter_us"]:
        stands["jitter_us"] = stands["bag_ms"]
    for how in ("beyond", "within"):
        text += listed(f"Seen {how} the ICD", [f"{key} {str(told[key]).lower()}" for key in KEYS if stands.get(key) == how])
    if "beyond" in stands.values():
        counts["beyond"] += 1
    elif "within" in stands.values():
        counts["within"] += 1
    text += keys_text(link, row.get("name") or f"vl_{link}", values)
    return text + (f'group = "{row["group"]}"\n' if "group" in row else "")


def expected(rows, a=None, b=None, wanted=None):
    """The draft, what is told beside it, and what a terminal is told besides."""
    counts = {**dict.fromkeys(("beyond", "within", "unseen"), 0), "unspecified": []}
    specified = {row["id"]: row for row in rows}

    def texts(links):
        ids = sorted({*specified, *links})
        return "".join(link_text(link, specified.get(link), links.get(link, []), a is not None, b is not None, counts) for link in ids)

    text = drafted(HEAD, a, b, wanted, texts)
    words = {"beyond": "links seen beyond the ICD", "within": "within it", "unseen": "not seen", "unspecified": "seen and not in it"}
    lacked = counts["unspecified"]
    counts["unspecified"] = len(lacked)
    told = ", ".join(f"{words[kind]}: {count}" for kind, count in counts.items() if count)
    named = ", ".join(lacked[:8]) + (f" and {len(lacked) - 8} more" if len(lacked) > 8 else "")
    note = f"afdxmon: note: not drafted, since the ICD has no such links: {named}" if lacked else ""
    return text, note, f"afdxmon: note: {told}. The draft's comments say how\n" if told else ""


# ---- cases


def named(chance, length, taken):
    while True:
        name = "".join(chance.choice(LETTERS) for _ in range(length))
        if name not in taken:
            taken.add(name)
            return name


def row_of(chance, link, keys, taken):
    row = {"id": link}
    for key in keys:
        bound = chance.choice(BOUNDS[key])
        row[key] = named(chance, max(bound, 3), taken) if key == "name" else bound
    return row


class Desk:
    """A folder with a document and recordings, and the runs on them."""

    def __init__(self, work):
        self.work = work

    def path(self, name):
        return os.path.join(self.work, name)

    def put(self, name, data):
        with open(self.path(name), "wb") as file:
            file.write(data if isinstance(data, bytes) else data.encode())
        return self.path(name)

    def arguments(self, document, a=None, b=None, more=()):
        given = ["links", "--icd", self.put("icd.csv", document), *more]
        for option, recording in (("a", a), ("b", b)):
            if recording is not None:
                given += [f"--{option}", self.put(option, recording)]
        return given


# Heads that are read as each key's. `Smax` and `BAG` may lack their unit; jitter and skew may not.
SYNONYMS = {
    "id": ("ID", "Id.", "VL", "VL ID", "vl-id", "VL_ID", "VLID", "Virtual Link", "Virtual Link ID"),
    "name": ("Name", "VL Name", "Virtual Link Name"),
    "bag_ms": ("BAG", "BAG [ms]", "BAG (ms)", "Bag ms", "bag/ms", "Bandwidth Allocation Gap", "Bandwidth Allocation Gap (ms)"),
    "jitter_us": ("Jitter [us]", "Jitter (\u00b5s)", "Max. Jitter [\u03bcs]", "Jitter max us", "JITTER US"),
    "smax": ("Smax", "S max", "Smax [bytes]", "Smax (byte)", "Lmax", "Lmax [octets]", "Max Frame Size", "Max. frame length (bytes)"),
    "integrity": ("Integrity", "Integrity Checking"),
    "redundancy": ("Redundancy", "Redundancy Management"),
    "skew_us": ("Skew [us]", "SkewMax [us]", "Max Skew (\u00b5s)", "skew_max_us"),
}
# Heads that name a key in another unit, or lack it.
OTHER_UNITS = {
    "bag_ms": ("BAG [us]", "BAG (s)", "BAG [Hz]"),
    "jitter_us": ("Jitter", "Max Jitter [ms]", "Jitter (ns)"),
    "smax": ("Smax [bits]", "Lmax [words]"),
    "skew_us": ("SkewMax", "Skew Max [ms]", "Max skew (s)"),
}
UNITS = {"bag_ms": "ms", "jitter_us": "us", "smax": "bytes", "skew_us": "us"}


# Names that no table holds, their links, and the names that the draft has.
NAMES = (
    (1, "Engine 1", "Engine_1_1"),
    (2, "Engine/1", "Engine_1_2"),
    (3, "K\u00fchlung", "Kuehlung_3"),
    (4, "\u00c4\u00d6\u00dc\u00e4\u00f6\u00fc\u00df", "AeOeUeaeoeuess_4"),
    (5, "a.b", "a_b_5"),
    (6, "///", "vl_6"),
    (7, "(x)", "x_7"),
    (8, "a" * 33, "a" * 30 + "_8"),
    (10, "a" * 28 + "\u00e4", "a" * 28 + "_10"),
    (11, "a" * 27 + "\u00e4", "a" * 27 + "ae_11"),
    (12, "\u00e9\u00e8 \u00e0, \u00f1\u00c7", "ee_a_nC_12"),
    (13, "A-B__C D", "A-B__C_D_13"),
    (14, "\u65e5\u672c", "vl_14"),
    (15, "5 \u00b5s", "5_us_15"),
    (16, "_ x", "_x_16"),
    (17, "x _", "x__17"),
    (18, "'x'", "x_18"),
    (65535, "b" * 33, "b" * 26 + "_65535"),
)


# Groups of documents, and those that the draft has.
GROUPS = (
    ("port_7", "port_7"),
    ("A", "A"),
    ("L" * 32, "L" * 32),
    ("L" * 33, "L" * 32),
    ("L" * 31 + "\u00e4", "L" * 31),
    ("L" * 30 + "\u00e4", "L" * 30 + "ae"),
    ("Port 7", "Port_7"),
    ("Port / 7", "Port_7"),
    (" Port 7 ", "Port_7"),
    ("(x)", "x_"),
    ("K\u00fchlung-2", "Kuehlung-2"),
    ("\u65e5\u672c", None),
    ("///", None),
    ("7", "7"),
)
# Heads that are read as that of groups.
OF_GROUPS = ("group", "Group", "LRU", "lru", "Port", "PORT", "Equipment")


class Icd(Case):
    def setUp(self):
        self.desk = Desk(self.folder)

    def drafts(self, name, document, rows, a=None, b=None, wanted=None, more=()):
        """The draft whole, at a terminal with what stands beside it, and `watch` takes it."""
        more = more if wanted is None else ("--constant", str(wanted))
        arguments = self.desk.arguments(document, a, b, more)
        text, note, told = expected(rows, a, b, wanted)
        ran = run(arguments, stdout=subprocess.PIPE)
        self.case(f"icd: {name}", difference(ran, SUCCESS, note, text.encode()))
        at_terminal = run_at_terminal(arguments, stdin=subprocess.DEVNULL)
        told = f"{note}\n{told}" if note else told
        self.case(f"icd: {name}, at a terminal", "" if at_terminal.stderr == told else f"{at_terminal.stderr!r}, not {told!r}")
        self.desk.put("draft.toml", text)
        taken = run(["watch", "--config", self.desk.path("draft.toml"), "--a", self.desk.put("empty", header()), "--ledger", self.desk.path("ledger")], stdout=subprocess.PIPE)
        self.case(f"icd: {name}, watch takes it", f"status {taken.returncode}, {taken.stderr!r}" if taken.returncode else "")

    def refuses(self, name, document, line, status=FAULT, **given):
        ran = run(self.desk.arguments(document, **given), stdout=subprocess.PIPE)
        self.case(f"icd: {name} is refused", difference(ran, status, line, b""))

    def lists(self, name, document, line, faults, more=()):
        """A document is refused by its first fault; a person is told all, each after its line."""
        arguments = self.desk.arguments(document, more=more)
        ran = run(arguments, stdout=subprocess.PIPE)
        self.case(f"icd: {name}, to a script", difference(ran, FAULT, f"afdxmon: {line}", b""))
        ran = run_at_terminal(arguments, stdin=subprocess.DEVNULL)
        whole = f"afdxmon: {line}\n" + "".join(f"{self.desk.path('icd.csv')}:{fault}\n" for fault in faults) + CORRECT_ICD + "\n"
        told = (ran.returncode, ran.stderr) == (FAULT, whole)
        self.case(f"icd: {name}, at a terminal", "" if told else f"status {ran.returncode}, {ran.stderr!r}, not {whole!r}")

    def test_documents(self):
        """Documents alone: each key at its bounds and between, and with any of the columns."""
        chance, taken = random.Random(31), set()
        for key, bounds in BOUNDS.items():
            rows = []
            for at, bound in enumerate(bounds):
                row = row_of(chance, at + 1000, HEADS[1:], taken)
                row[key] = named(chance, max(bound, 2), taken) if key == "name" else bound
                rows.append(row)
            self.drafts(f"{key} at its bounds and between", written(rows), rows)
        one = {"id": 7, "name": "x", "bag_ms": 1}
        self.drafts("a name of one letter", written([one]), [one])
        for lacking in KEYS:
            keys = [key for key in HEADS[1:] if key != lacking]
            rows = [row_of(chance, link, keys, taken) for link in (3, 9)]
            self.drafts(f"no column {lacking}", written(rows, ["id", *keys]), rows)
        self.drafts("a column of identifiers alone", "id\n5\n4\n65535\n", [{"id": 4}, {"id": 5}, {"id": 65535}])
        self.drafts("heads alone", "id,name\n", [])
        for count in (1, 2, 4095, 4096):
            rows = [row_of(chance, link, ("bag_ms", "smax"), taken) for link in chance.sample(range(65536), count)]
            self.drafts(f"{count} links", written(rows, ("id", "bag_ms", "smax")), rows)
        for wanted in (GROUP, 0x07000000, 2**32 - 1):
            self.drafts(f"--constant {wanted}", written([one]), [one], wanted=wanted)

    def test_forms(self):
        """One table, written in the ways that spreadsheets write."""
        chance, taken = random.Random(32), set()
        rows = [row_of(chance, link, HEADS[1:], taken) for link in (1, 500, 65535)]
        plain = written(rows)
        backwards = written(rows, HEADS[::-1])
        wide = written([{**row, "remark": 'a "b", c', "Latency": 12} for row in rows], ("remark", *HEADS, "Latency"))
        for name, document in (
            ("lines that end in a carriage return", written(rows, lineterminator="\r\n")),
            ("a byte order mark", "\ufeff" + plain),
            ("semicolons", written(rows, delimiter=";")),
            ("semicolons, and a comma in a cell", written(rows, delimiter=";") .replace("id;", "id;remark, if any;", 1).replace("\n1;", "\n1;a, b;").replace("\n500;", "\n500;;").replace("\n65535;", "\n65535;c;")),
            ("every cell in quotes", written(rows, quoting=csv.QUOTE_ALL)),
            ("white space around cells", plain.replace(",", " ,\t")),
            ("heads in capitals", plain.replace(",".join(HEADS), ",".join(HEADS).upper())),
            ("columns the other way round", backwards),
            ("other columns", wide),
            ("every cell in quotes, lines that end in a carriage return", written(rows, quoting=csv.QUOTE_ALL, lineterminator="\r\n")),
            ("every cell in quotes, semicolons", written(rows, quoting=csv.QUOTE_ALL, delimiter=";")),
            ("every cell in quotes, after a byte order mark", "\ufeff" + written(rows, quoting=csv.QUOTE_ALL)),
            ("quotes within cells, and line breaks within quotes", wide.replace('a ""b"", c', 'a ""b""\n,c\n')),
            ("separators and line breaks of all kinds within quotes", wide.replace('a ""b"", c', 'a;b,\r\n,;\n')),
            ("two quotes for one within quotes", wide.replace('"a ""b"", c"', '"a""b"')),
            ("a cell of one quote, within quotes", wide.replace('"a ""b"", c"', '""""')),
            ("nothing within quotes", wide.replace('"a ""b"", c"', '""')),
            ("a quote after the first letter of a cell", wide.replace('"a ""b"", c"', 'a"b')),
            ("a quote in a cell without quotes", wide.replace('"a ""b"", c"', '5" and 6"')),
            ("a last cell in quotes, and no line break at the end", backwards[:-1] .replace(",1\n", ',"1"\n').replace(",65535", ',"65535"')),
            ("no line break at the end", plain.rstrip("\n")),
            ("blank rows and rows of blank cells", plain.replace("\n500,", "\n\n" + "," * 7 + "\n  ,,,,,,,\n500,")),
            ("identifiers in hexadecimal digits", plain.replace("\n500,", "\n0x1f4,").replace("\n65535,", "\n0xFFFF,")),
            ("flags in capitals", plain.replace("true", "TRUE").replace("false", "False")),
            ("flags as yes and no", plain.replace("true", "yes").replace("false", "NO")),
            ("flags as 1 and 0", plain.replace("true", "1").replace("false", "0")),
        ):
            self.drafts(name, document, rows)

    def test_recorded(self):
        """Documents and recordings of the same links: what one has and the other, within and beyond."""
        chance = random.Random(33)
        known = [(10, 4 * MS, 200), (20, 8 * MS, 640), (30, 128 * MS, 1514), (40, MS, 60), (50, 2 * MS, 61), (60, 16 * MS, 1513)]
        a, b = sent(chance, known, 60, skew=90_000)
        exact = {}
        for row_id, bag, size in known:
            exact[row_id] = {"id": row_id, "bag_ms": bag // MS, "jitter_us": 500, "smax": size + 4, "integrity": True, "redundancy": True, "skew_us": 100}
        for name, one, other in (("both networks", a, b), ("network A", a, None), ("network B", None, b)):
            self.drafts(f"nothing specified but identifiers, {name}", written([{"id": link} for link in exact]), [{"id": link} for link in exact], one, other)
            self.drafts(f"all specified, {name}", written(exact.values()), list(exact.values()), one, other)
            for key in KEYS:
                for bound in BOUNDS[key]:
                    rows = [{**row, key: bound} for row in exact.values()]
                    self.drafts(f"{key} {bound}, {name}", written(rows), rows, one, other)
                rows = [{k: v for k, v in row.items() if k != key} for row in exact.values()]
                self.drafts(f"{key} left out, {name}", written(rows), rows, one, other)
            for key in ("bag_ms", "redundancy"):
                for bound in BOUNDS[key]:
                    rows = [{"id": link, key: bound} for link in exact]
                    self.drafts(f"{key} {bound} and nothing else, {name}", written(rows), rows, one, other)
        rows = [exact[10], {"id": 11, "name": "unseen", "bag_ms": 2}, {"id": 65535}]
        self.drafts("links of either", written(rows), rows, a, b)
        single = header() + record(START, frame(10, 80, 1))
        self.drafts("one frame", written([exact[10]]), [exact[10]], single, header())
        self.drafts("no frame", written([exact[10]]), [exact[10]], header(), None)

    def test_together(self):
        """Frames each 64 ms, 0 to 300 us late, of a link that is specified with a BAG of 32 ms: the comment's BAG and jitter hold together."""
        lates = [300_000, 0, 150_000, 300_000, 20_000] * 40
        path, icd = os.path.join(self.folder, "a.pcap"), os.path.join(self.folder, "icd.csv")
        with open(path, "wb") as file:
            file.write(header() + b"".join(record(START + k * 64 * MS + late, frame(102, 96, k % 255 + 1)) for k, late in enumerate(lates)))
        for jitter in (500, 300, 0):
            with open(icd, "w", encoding="utf-8") as file:
                file.write(f"id,bag_ms,jitter_us,smax,integrity\n102,32,{jitter},100,true\n")
            text = run(["links", "--icd", icd, "--a", path], stdout=subprocess.PIPE).stdout.decode()
            wanted = "# Seen within the ICD: bag_ms 64" + (", jitter_us 300" if jitter != 300 else "")
            found = [line for line in text.splitlines() if line.startswith("# Seen")]
            self.case(f"icd: the jitter of the BAG that was seen, {jitter} us specified", "" if found and found[0].startswith(wanted) and len(found) == 1 else str(found))

    def test_refused(self):
        """Documents that are refused, and the first thing that is wrong with each."""
        good = "id,name,bag_ms,jitter_us,smax,integrity,redundancy,skew_us\n1,one,1,0,64,true,true,0\n"
        wrong = {
            "id": ("", "-1", "65536", "x", "1.000", "0x", "0x10000", "0x1.0", "0XG", "0X-1", "1 2", "08", "65536.0", '"""1"""'),
            "bag_ms": ("0", "3", "129", "256", "-1", "-1.0", "1.", ".0", "1.01", "1.000", '"1,0"', "1.0.0", "3.0", "x", "true", "1ms"),
            "jitter_us": ("-1", "100001", "0.5", "x", "1e3"),
            "smax": ("0", "63", "1519", "-64", "x"),
            "integrity": ("2", "x", "on", "truee", "-1", "1.000", "true.0", "2.0"),
            "redundancy": ("2", "x", "off", "t"),
            "skew_us": ("-1", "1000001", "x"),
        }
        for key, texts in wrong.items():
            for text in texts:
                cells = ["2", "two", "2", "1", "65", "true", "false", "1"]
                cells[HEADS.index(key)] = text
                self.refuses(f"{key} '{text[:12]}'", good + ",".join(cells) + "\n", f"afdxmon: links 2 Icd at 3 {key}")
        for name, document, what in (
            ("an empty document", "", "1 head"),
            ("a document of line breaks", "\n\n\n", "1 head"),
            ("no column id", "name,bag_ms\none,1\n", "1 head"),
            ("a column twice", "id,smax,id\n1,64,1\n", "1 head"),
            ("another column twice, in another case", "id,smax, SMAX \n1,64,64\n", "1 head"),
            ("heads after blank lines", "\n\nname\nx\n", "3 head"),
            ("a row that is too short", good + "2,two,2\n", "3 cells"),
            ("a row that is too long", good + "2,two,2,1,65,true,false,1,\n", "3 cells"),
            ("a row that is too short, after blank lines", good + "\n\n2\n", "5 cells"),
            ("lengths before values", "id,smax\n1,0\n2\n", "3 cells"),
            ("an open quote in the last column", 'id,remark\n5,"open\n7,q\n9,r\n', "2 cells"),
            ("an open quote in the last row", 'id,remark\n5,"a\nb"\n7,"', "4 cells"),
            ("an open quote after a quote in quotes", 'id,remark\n5,p\n7,"a""\n', "3 cells"),
            ("an open quote after carriage returns", 'id,remark\r\n\r\n5,"a\r\n7,q\r\n', "3 cells"),
            ("an open quote in the heads", 'id,"remark\n5,p\n', "1 cells"),
            ("an open quote before values", 'id,smax\n5,0\n7,"64\n', "3 cells"),
            ("an open quote before lengths", 'id,remark\n5\n7,"a\n', "3 cells"),
            ("an open quote before a later cell in quotes", 'id,remark\n5,"open\n7,q\n9,"r"\n11,s\n', "2 cells"),
            ("an open quote in a row's second line", 'id,a,b\n5,"x\ny","z', "3 cells"),
            ("an open quote after a mark", '\ufeff"id\n5\n', "1 cells"),
            ("an open quote in the line after that of a mark", '\ufeffid,b\n,"', "2 cells"),
            ("text after a closing quote", 'id,remark\n5,p\n7,"a" b\n', "3 cells"),
            ("a space after a closing quote", 'id,remark\n5,"a" \n', "2 cells"),
            ("text after a closing quote, after a cell of two lines", 'id,remark\n5,"a\nb"\n7,"c"d\n', "4 cells"),
            ("text after a closing quote, and carriage returns", 'id,remark\r\n5,"a"\r\n7,"b"c\r\n', "3 cells"),
            ("text after a closing quote, after a mark", '\ufeff"id"x\n5\n', "1 cells"),
            ("a comma after a closing quote, where semicolons separate", 'id;remark\n5;"a",b\n', "2 cells"),
            ("a semicolon after a closing quote, where commas separate", 'id,remark\n5,"a";b\n', "2 cells"),
            ("an identifier twice", "id\n5\n6\n5\n", "4 twiceid"),
            ("an identifier twice, once in hexadecimal digits", "id\n16\n0x10\n", "3 twiceid"),
            ("a name twice", "id,name\n5,x\n6,y\n7,x\n", "4 twicename"),
            ("an identifier and its name twice", "id,name\n5,x\n5,x\n", "3 twiceid"),
            ("an earlier row first", "id,smax\n5,64\n6,0\n5,64\n", "3 smax"),
            ("the first wrong cell of a row first", "skew_us,id,smax\nx,x,x\n", "2 id"),
            ("a row of several lines before it", 'id,remark\n1,"a\nb\nc"\nx,\n', "5 id"),
            ("a mark before the heads", "\ufeffid\nx\n", "2 id"),
            ("a mark before the heads, far down", "\ufeffid\n" + "".join(f"{link}\n" for link in range(999)) + "x\n", "1001 id"),
            ("carriage returns", "id\r\n1\r\n\r\nx\r\n", "4 id"),
            ("4097 links", "id\n" + "".join(f"{link}\n" for link in range(4097)), "4098 toomany"),
            ("4097 links of which one stands twice", "id\n" + "".join(f"{link}\n" for link in range(4096)) + "0\n", "4098 twiceid"),
        ):
            self.refuses(name, document, f"afdxmon: links 2 Icd at {what}")
        self.refuses("a name that is drafted for another link", "id,name\n5,vl_6\n6,\n", "afdxmon: links 3 Draft 7 TwiceName link 1")
        many = header() + b"".join(record(START + k, frame(60_000 + k, 60, 1)) for k in range(2))
        full = [{"id": link} for link in range(4096)]
        self.drafts("4096 links, and two that the document lacks", written(full, ["id"]), full, many)
        self.refuses("text that isn't UTF-8", b"id\n\xff\n", "afdxmon: file --icd")
        self.refuses("more than 16 MiB", "id\n" + "#" * 2**24, "afdxmon: file --icd")

    def test_spreadsheets(self):
        """One table, as spreadsheets write it: numbers with a fraction, tabs, a first line `sep=`, lines of blank cells."""
        chance, taken = random.Random(34), set()
        rows = [row_of(chance, link, HEADS[1:], taken) for link in (1, 500, 65535)]
        plain = written(rows)

        def fractions(separator, fraction):
            lines = [line.split(separator) for line in written(rows, delimiter=separator).splitlines()]
            for line in lines[1:]:
                flags = {"true": "1", "false": "0"}
                line[:] = [cell + fraction if cell.isdigit() and at != 1 else flags[cell] + fraction if cell in flags else cell for at, cell in enumerate(line)]
            return "\n".join(separator.join(line) for line in lines) + "\n"

        tabs = written(rows, delimiter="\t")
        for name, document in (
            ("numbers as 4.0", fractions(",", ".0")),
            ("numbers as 4.00", fractions(",", ".00")),
            ("numbers as 4,0 among semicolons", fractions(";", ",0")),
            ("numbers as 4,00 among tabs", fractions("\t", ",00")),
            ("numbers as 4.0 among semicolons", fractions(";", ".0")),
            ("numbers as 4,0 after sep=|", "sep=|\n" + fractions("|", ",0")),
            ("identifiers after 0X", plain.replace("\n500,", "\n0X1F4,").replace("\n65535,", "\n0Xffff,")),
            ("tabs", tabs),
            ("tabs, and a comma and a semicolon in a cell", written([{**row, "remark": "a, b; c"} for row in rows], (*HEADS, "remark"), delimiter="\t")),
            ("tabs, and a comma in a quoted head", written([{**row, "a, b": "c"} for row in rows], ("a, b", *HEADS), delimiter="\t", quoting=csv.QUOTE_ALL)),
            ("tabs after lines of tabs", "\t" * 7 + "\n" + "\t" * 7 + "\n" + tabs),
            ("tabs after a mark", "\ufeff" + tabs),
            ("sep=;", "sep=;\n" + written(rows, delimiter=";")),
            ("SEP=; and a carriage return", "SEP=;\r\n" + written(rows, delimiter=";", lineterminator="\r\n")),
            ("sep=, and a semicolon in the first head", "sep=,\n" + written([{**row, "a;b": "c"} for row in rows], ("a;b", *HEADS))),
            ("sep= and a tab", "sep=\t\n" + tabs),
            ("sep=| after a mark", "\ufeffsep=|\n" + written(rows, delimiter="|")),
            ("lines before the heads", "\n\r\n,,,\n , ,\n" + plain),
            ("blank lines and lines of fewer and more blank cells", plain.replace("\n500,", "\n\n,\n,,,,,,,,,,,\n \n500,")),
        ):
            self.drafts(name, document, rows)
        self.refuses("a separator that sep= doesn't name", "sep=:\nid:name\n", "afdxmon: links 2 Icd at 1 head")
        self.refuses("sep= of two characters", "sep=;;\nid;name;x\n", "afdxmon: links 2 Icd at 1 head")
        self.refuses("a row after sep=", "sep=;\nid;smax\n1;64\n2;0\n", "afdxmon: links 2 Icd at 4 smax")
        self.refuses("a quote after sep=", 'sep=;\nid;b\n1;"\n', "afdxmon: links 2 Icd at 3 cells")
        self.refuses("a comma in a number among commas", 'id,bag_ms\n1,"4,0"\n', "afdxmon: links 2 Icd at 2 bag_ms")
        for text in ("4,000", "4.000", "4,01", "4,", ",0", "4,0.0", "4.0,0", "-4,0"):
            self.refuses(f"{text} among semicolons", f"id;bag_ms\n1;{text}\n", "afdxmon: links 2 Icd at 2 bag_ms")

    def test_heads(self):
        """The heads of columns: synonyms, other units, and heads that `--column` names."""
        chance, taken = random.Random(35), set()
        rows = [row_of(chance, link, HEADS[1:], taken) for link in (1, 500)]
        plain = written(rows)
        for key, synonyms in SYNONYMS.items():
            for synonym in synonyms:
                changed = [synonym if head == key else head for head in HEADS]
                self.drafts(f"{synonym} for {key}", plain.replace(",".join(HEADS), ",".join(changed), 1), rows)
        self.drafts("a key's name before its synonyms", written([{**row, "VL": "x", "BAG [us]": 9, "Jitter": 3} for row in rows], ("VL", "BAG [us]", *HEADS, "Jitter")), rows)
        bare = [{"id": 7}]
        for head in ("VL IDs", "ident", "BAG size", "Smaximum", "Jitters [us]", "Latency [us]", "\u00fc"):
            self.drafts(f"{head} is no key's", f"id,{head}\n7,x\n", bare)
        for key, others in OTHER_UNITS.items():
            unit = UNITS[key]
            for other in others:
                why = f'1: column B, "{other}", doesn\'t say {unit}: if it is in {unit}, --column {key}=HEAD takes it, and --column {key}= passes it over'
                self.lists(f"{other} for {key}", f"id,{other}\n7,64\n", "links 2 Icd at 1 head", [why])
                self.drafts(f"{other} passed over", f"id,{other}\n7,64\n", bare, more=("--column", f"{key}="))
                row = {"id": 7, key: 64}
                self.drafts(f"{other} taken", f"id,{other}\n7,64\n", [row], more=("--column", f"{key}={other}"))
        self.drafts("a head that is given", "VL-Nr,Gr\u00f6\u00dfe\n7,64\n", [{"id": 7, "smax": 64}], more=("--column", "id=VL-Nr", "--column=smax=Gr\u00f6\u00dfe"))
        self.drafts("a head that is given in another case, with spaces", "vl-nr ,b\n7,64\n", bare, more=("--column", "id= VL-Nr"))
        self.drafts("a head with an equals sign", "a=b,b\n7,64\n", bare, more=("--column", "id=a=b"))
        self.drafts("a given head before the key's name", "id,VL\n9,7\n", bare, more=("--column", "id=VL"))
        given = [word for key in HEADS for word in ("--column", f"{key}=x {key}")]
        self.drafts("all heads given", plain.replace(",".join(HEADS), ",".join(f"x {key}" for key in HEADS), 1), rows, more=given)
        self.lists("a given head that isn't there", "id,b\n7,64\n", "links 2 Icd at 1 head", ["1: no head is the one that --column smax= names"], more=("--column", "smax=c"))
        self.lists("a given head twice", "id,b,B\n7,64,64\n", "links 2 Icd at 1 head", ['1: column C, "B", is the second of smax: --column smax=HEAD says which is'], more=("--column", "smax=b"))
        self.lists("two synonyms", "VL,VL ID\n7,7\n", "links 2 Icd at 1 head", ['1: column B, "VL ID", is the second of id: --column id=HEAD says which is'])
        for why, more in (
            (MISUSE["NoColumn"], ("--column", "id")),
            (MISUSE["NoColumn"], ("--column", "ID=x")),
            (MISUSE["NoColumn"], ("--column", "constant=x")),
            (MISUSE["NoColumn"], ("--column", "=x")),
            (MISUSE["NoColumn"], ("--column", "id=x", "--column", "id=y")),
        ):
            self.refuses(f"arguments {' '.join(more)}", "id\n7\n", lambda text, why=why: why in text, USAGE, more=more)
        ran = run(["links", "--a", self.desk.put("empty", header()), "--column", "id=x"], stdout=subprocess.PIPE)
        self.case("icd: --column without --icd", difference(ran, USAGE, lambda text: MISUSE["NoDocument"] in text, b""))

    def test_groups(self):
        """The group of a link: heads, texts that a table holds and others, and rows and documents that have none."""
        for head in OF_GROUPS:
            self.drafts(f"{head} for group", f"id,{head}\n7,port_7\n8,\n", [{"id": 7, "group": "port_7"}, {"id": 8}])
        rows = [{"id": link, **({"group": group} if group else {})} for link, (_, group) in enumerate(GROUPS, 1)]
        document = "id,LRU\n" + "".join(f'{link},"{original}"\n' for link, (original, _) in enumerate(GROUPS, 1))
        self.drafts("groups that a table holds, and others", document, rows)
        named_rows = [{"id": 7, "name": "a", "bag_ms": 2, "group": "fcc"}, {"id": 9, "name": "b", "bag_ms": 4, "group": "fcc"}]
        plain = "name,lru,id,bag_ms\na,fcc,7,2\nb,fcc,9,4\n"
        self.drafts("a group among other columns", plain, named_rows)
        self.drafts("the first of two columns that may be the group", "id,LRU,Port\n7,fcc,3\n8,,4\n", [{"id": 7, "group": "fcc"}, {"id": 8}])
        self.drafts("the same, the other way round", "id,Port,LRU\n7,3,fcc\n", [{"id": 7, "group": "3"}])
        self.drafts("group before its synonyms", "id,LRU,group\n7,fcc,g\n", [{"id": 7, "group": "g"}])
        self.drafts("a head that is given for the group", "id,LRU,Port\n7,fcc,3\n", [{"id": 7, "group": "3"}], more=("--column", "group=Port"))
        self.drafts("a group that is passed over", "id,LRU\n7,fcc\n", [{"id": 7}], more=("--column", "group="))
        self.drafts("a row that has a group alone", "id,LRU\n,fcc\n7,fcc\n", [{"id": 7, "group": "fcc"}])
        for head in ("Groups", "LRU name", "Portion", "UDP Port"):
            self.drafts(f"{head} is no group", f"id,{head}\n7,x\n", [{"id": 7}])
        self.lists("group twice", "id,group,Group\n7,a,b\n", "links 2 Icd at 1 head",
                   ['1: column C, "Group", is the second of group: --column group=HEAD says which is'])
        frames = header() + b"".join(record(START + k * MS, frame(7, 80, k % 255 + 1)) for k in range(3))
        self.drafts("groups, and a recording", "id,LRU\n7,fcc\n8,fcc\n", [{"id": 7, "group": "fcc"}, {"id": 8, "group": "fcc"}], frames)

    def test_names(self):
        """Names that no table holds: the draft has others, which differ, and says the documents' own."""
        rows = [{"id": link, "name": name, "original": original} for link, original, name in NAMES]
        document = written([{"id": link, "name": original} for link, original, _ in NAMES], ("id", "name"))
        self.drafts("names that no table holds", document, rows)
        backwards = written([{"id": link, "name": original} for link, original, _ in NAMES[::-1]], ("id", "name"))
        self.drafts("names that no table holds, the other way round", backwards, rows)
        for count in (1, 31, 32):
            self.drafts(f"a name of {count} letters", f"id,name\n7,{'a' * count}\n", [{"id": 7, "name": "a" * count}])
        for count, shown in ((200, "a" * 200), (201, "a" * 200 + "..")):
            self.drafts(f"a name of {count} letters", f"id,name\n7,{'a' * count}\n", [{"id": 7, "name": "a" * 30 + "_7", "original": shown}])
        for name, cell, shown, made in (
            ("a line break", '"a\nb"', "a\\u{a}b", "a_b_7"),
            ("a quote", '"a""b"', 'a"b', "a_b_7"),
            ("a delete", "a\x7f", "a\\u{7f}", "a_7"),
            ("a hash", "# a", "# a", "a_7"),
        ):
            self.drafts(f"{name} in a name", f"id,name\n7,{cell}\n", [{"id": 7, "name": made, "original": shown}])
        frames = header() + b"".join(record(START + k * MS, frame(7, 80, k % 255 + 1)) for k in range(3))
        sent_rows = [{"id": 7, "name": "a_b_7", "original": "a b"}, {"id": 8, "name": "c_d_8", "original": "c d"}]
        self.drafts("names that no table holds, and a recording", "id,name\n7,a b\n8,c d\n", sent_rows, frames)
        self.refuses("a name that is made for another link", "id,name\n7,a b\n8,a_b_7\n", "afdxmon: links 2 Icd at 3 twicename")
        self.refuses("the same, the other way round", "id,name\n8,a_b_7\n7,a b\n", "afdxmon: links 2 Icd at 3 twicename")
        self.refuses("a name twice that no table holds", "id,name\n7,a b\n8,a b\n", "afdxmon: links 2 Icd at 3 twicename")

    def test_told(self):
        """What is told of a document that is refused: all its faults, each with its line, its column and what stands there."""
        none = "no head is id; others may be name, bag_ms, jitter_us, smax, integrity, redundancy, skew_us and group"
        smax = "smax is an integer, 64 to 1518"
        ids = "id is an integer, 0 to 65535"
        flag = "a flag is true or false, yes or no, 1 or 0"
        for name, document, line, faults in (
            ("a number", "id,smax\n5,0\n", "2 smax", [f'2: column B, "smax", has "0": {smax}']),
            ("a BAG", "id,BAG [ms]\n5,3\n", "2 bag_ms", ['2: column B, "BAG [ms]", has "3": bag_ms is 1, 2, 4, 8, 16, 32, 64 or 128']),
            ("a flag", "id,integrity\n5,on\n", "2 integrity", [f'2: column B, "integrity", has "on": {flag}']),
            ("a blank identifier", "name,id\nx,\n", "2 id", [f'2: column B, "id", is blank: {ids}']),
            ("no identifiers", "name\nx\n", "1 head", [f"1: {none}"]),
            ("nothing", "", "1 head", [f"1: {none}"]),
            ("a length", "id,smax\n5\n", "2 cells", ["2: the row has 1 cells, and the heads are 2"]),
            ("a quote", 'id,smax\n5,"6\n', "2 cells", ["2: a quote isn't closed, or text follows it"]),
            ("an identifier twice", "id\n5\n5\n", "3 twiceid", ['3: column A, "id", has "5": the row of line 2 has the identifier']),
            ("a name twice", "id,name\n5,x\n\n6,x\n", "4 twicename", ['4: column B, "name", has "x": the row of line 2 has the name']),
            ("all cells of a row", "VL ID,name,BAG,jitter_us,Smax [bytes],integrity,redundancy,skew_us\nx,n,x,x,x,x,x,x\n", "2 id", [
                f'2: column A, "VL ID", has "x": {ids}', '2: column C, "BAG", has "x": bag_ms is 1, 2, 4, 8, 16, 32, 64 or 128',
                '2: column D, "jitter_us", has "x": jitter_us is an integer, 0 to 100000', f'2: column E, "Smax [bytes]", has "x": {smax}',
                f'2: column F, "integrity", has "x": {flag}', f'2: column G, "redundancy", has "x": {flag}',
                '2: column H, "skew_us", has "x": skew_us is an integer, 0 to 1000000']),
            ("rows that are wrong among good ones", "id,smax,name\n1,64,a\n2,1,b\n3,64,c\n4,x,d\n2,64,e\n5,64,d\n", "3 smax", [
                f'3: column B, "smax", has "1": {smax}', f'5: column B, "smax", has "x": {smax}',
                '6: column A, "id", has "2": the row of line 3 has the identifier', '7: column C, "name", has "d": the row of line 5 has the name']),
            ("a wrong cell of a row, and an identifier that an earlier one has", "id,smax\n5,64\n5,0\n", "3 smax", [
                f'3: column B, "smax", has "0": {smax}', '3: column A, "id", has "5": the row of line 2 has the identifier']),
            ("lengths, then heads, then values", "id,smax,Jitter\n1,0,1\n2,64\n3,64,1,1\n", "3 cells", [
                "3: the row has 2 cells, and the heads are 3", "4: the row has 4 cells, and the heads are 3",
                '1: column C, "Jitter", doesn\'t say us: if it is in us, --column jitter_us=HEAD takes it, and --column jitter_us= passes it over',
                f'2: column B, "smax", has "0": {smax}']),
            ("heads and values without identifiers", "name,smax\na,0\n", "1 head", [f"1: {none}", f'2: column B, "smax", has "0": {smax}']),
            ("a quote alone", 'id,smax\n5,0\n6\n7,"\n', "4 cells", ["4: a quote isn't closed, or text follows it"]),
            ("40 characters", f"id\n{'x' * 40}\n", "2 id", [f'2: column A, "id", has "{"x" * 40}": {ids}']),
            ("41 characters", f"id\n{'x' * 41}\n", "2 id", [f'2: column A, "id", has "{"x" * 40}..": {ids}']),
            ("a control", "id\na\x1bb\n", "2 id", [f'2: column A, "id", has "a\\u{{1b}}b": {ids}']),
            ("4097 links, and rows after them", "id\n" + "".join(f"{link}\n" for link in range(4098)) + "x\n", "4098 toomany", ["4098: there are at most 4096 links in a table, and no further row is read"]),
        ):
            self.lists(name, document, f"links 2 Icd at {line}", faults)
        for place, letters in ((25, "Z"), (26, "AA"), (51, "AZ"), (52, "BA"), (701, "ZZ"), (702, "703")):
            document = "id," + "," * (place - 1) + "smax\n1" + "," * place + "0\n"
            self.lists(f"column {letters}", document, "links 2 Icd at 2 smax", [f'2: column {letters}, "smax", has "0": {smax}'])
        for count, more in ((19, []), (20, []), (21, [" and 1 more fault"]), (22, [" and 2 more faults"]), (4096, [" and 4076 more faults"])):
            document = "id,smax\n" + "".join(f"{link},0\n" for link in range(count))
            faults = [f'{line + 2}: column B, "smax", has "0": {smax}' for line in range(min(count, 20))]
            self.lists(f"{count} faults", document, "links 2 Icd at 2 smax", faults + more)
        for count in (19, 20):
            document = "name,smax\n" + "5\n" * count
            faults = [f"{line + 2}: the row has 1 cells, and the heads are 2" for line in range(count)]
            self.lists(f"{count} lengths and no identifiers", document, "links 2 Icd at 2 cells", faults + ([f"1: {none}"] if count < 20 else [" and 1 more fault"]))
        ran = run(["links", "--icd", "-", "--verbose"], input=b"id,smax\n5,0\n", stdout=subprocess.PIPE)
        whole = f'afdxmon: links 2 Icd at 2 smax\nstandard input:2: column B, "smax", has "0": {smax}\n{CORRECT_ICD}'
        self.case("icd: faults of standard input, with --verbose", difference(ran, FAULT, whole, b""))

    def test_unreadable(self):
        """What a terminal is told of a document that can't be read: why, and what is needed."""
        needs = ADVICE["file --icd"] + "\n"
        for name, path, why in (
            ("missing", self.desk.path("none"), "No such file or directory (os error 2)"),
            ("too long", self.desk.put("long.csv", b"#" * (2**24 + 1)), "it has 16777217 bytes"),
            ("not UTF-8", self.desk.put("latin.csv", b"id\n\xff\n"), "not UTF-8 at byte 3"),
        ):
            ran = run_at_terminal(["links", "--icd", path], stdin=subprocess.DEVNULL)
            whole = f"afdxmon: file --icd\n{path}: {why}\n{needs}"
            self.case(f"icd: a file that is {name}, at a terminal", "" if ran.stderr == whole else f"{ran.stderr!r}, not {whole!r}")

    def test_streams(self):
        """The document from standard input, and files that can't be had."""
        rows = [{"id": 5, "name": "five"}]
        text, _, _ = expected(rows)
        document = written(rows, ("id", "name")).encode()
        ran = run(["links", "--icd", "-"], input=document, stdout=subprocess.PIPE)
        self.case("icd: from standard input", difference(ran, SUCCESS, "", text.encode()))
        ran = run(["links", "--icd", "-", "--a", "-"], input=document, stdout=subprocess.PIPE)
        self.case("icd: standard input twice", difference(ran, FAULT, "afdxmon: file --a", b""))
        for name, path in (("missing", self.desk.path("none")), ("directory", self.desk.work)):
            ran = run(["links", "--icd", path], stdout=subprocess.PIPE)
            self.case(f"icd: a {name} file", difference(ran, FAULT, "afdxmon: file --icd", b""))
        ran = run(["links"], stdout=subprocess.PIPE)
        fits = MISUSE["NoLinks"]
        self.case("icd: nothing given", difference(ran, USAGE, lambda text: fits in text, b""))
