"""What the program tells a person: the advice on each fault, the help of each command, and what a session begins with.

These are the texts as they are meant to be, whole. The tests compare what the program prints with them.
"""
import re

NOT_NUMERIC = "Give the numeric form of a filter, as printed by: tcpdump -y EN10MB -ddd 'ip and udp'"
EXPRESSION = "Compile this expression to its numeric form, as by: tcpdump -y EN10MB -ddd 'ip and udp'"
SOURCE = "Assemble this source into its numeric form: afdxmon asm < in.asm"
NO_MEMORY = "End other programs, or raise the limit by ulimit -v: the system has no memory left for it"
RECORDING = "Let {} name a recording that can be read: a pcap or pcapng file, or a pipe"
OUTPUT = "Let --{} name a file that can be written, in a directory that is there"
LEDGER = "Let --ledger name a ledger that can be read: a file of watch, or a pipe"
MANIFEST = "Let --manifest name a manifest that can be read: a file of watch, at most 16 MiB of UTF-8"
UNREADABLE = "Give a recording that can be read: a file or a pipe"
UNWRITTEN = "Make room on its disk, raise ulimit -f, or keep the reader of its pipe running"
NO_TEXT = "Give a text of at most 16 MiB of UTF-8"
FEW_INSTRUCTIONS = "Give a filter of at most 4096 instructions"
DAMAGED_SECTION = "Record again: the section header of this pcapng file is damaged"
# A ledger and a table that differ on a link, which is told before.
DISPUTED = "Take the table of the run, and the ledger as watch wrote it"
# The first words of a fault line after `afdxmon: `, and the line that a terminal shows last.
ADVICE = {
    "file --config": "Let --config name a table of virtual links: a TOML document, at most 16 MiB of UTF-8",
    "file --filter": "Let --filter name a filter in the numeric form, at most 16 MiB of UTF-8",
    "file --a": RECORDING.format("--a"),
    "file --b": RECORDING.format("--b"),
    "file --tap": RECORDING.format("--tap"),
    "file RECORDING": RECORDING.format("RECORDING"),
    "file --source": "Let --source name a filter's source, at most 16 MiB of UTF-8",
    "file --icd": "Let --icd name a document of comma-separated values, at most 16 MiB of UTF-8",
    "file --output": OUTPUT.format("output"),
    "file --capture": OUTPUT.format("capture"),
    "file --ledger": OUTPUT.format("ledger"),
    "file --manifest": OUTPUT.format("manifest"),
    "interfaces": "Choose one of these by name or number, as flight.pcapng:eth0; of a pcap file none",
    "order --a": "Give the files of a recording in the order of their first timestamps",
    "repeated --a": "Give each file of a recording once",
    "asm 1 Text 1": "Take out this byte, or end the comment by */: no word of the language begins so",
    "asm 1 Text 2": "Write a number below 2^32, as 31, 0x1f, 0b11 or 017",
    "asm 1 Text 3": "Correct the statement: it doesn't go on like this",
    "asm 1 Text 4": "Rename the label: a word of the language can't be one",
    "asm 2": "Write at least one statement",
    "asm 3": FEW_INSTRUCTIONS,
    "asm 4": "Rename the label: an earlier statement has the same",
    "asm 5": "Give a later statement the label that the jump names: none has it",
    "asm 6": "Jump forward, to a later statement: no jump goes back",
    "asm 7": "Use ja on the way: a conditional jump skips at most 255 statements",
    "asm 8": NO_MEMORY,
    "debug 4": NO_MEMORY,
    "numeric 1": NOT_NUMERIC,
    "numeric 2": NOT_NUMERIC,
    "numeric 3": NOT_NUMERIC,
    "numeric 4": "Correct the first number, which says how many instructions follow",
    "numeric 5": FEW_INSTRUCTIONS,
    "load 1": "Give a filter of 1 to 4096 instructions",
    "load 2": "Use the 49 instructions of classic BPF; of Linux's extensions only 'len' is taken",
    "load 3": "Divide by another constant than 0",
    "load 4": "Shift by at most 31 bits",
    "load 5": "Use the slots M[0] to M[15] of scratch memory: it has no others",
    "load 6": "Give an offset of at most 2147483647: there are no negative offsets",
    "load 7": "Shorten the jump: it leads past the last instruction",
    "load 8": "Make the last instruction a return",
    "load 9": "Store to the slot of scratch memory on each path to the instruction that reads it",
    "watch 1": "Give 1 to 8 as --workers",
    "watch 2 Header A 1": "Record again: the file ends within its header",
    "watch 2 Header A 2": "Give a pcap or pcapng file, unpacked if it was compressed (gunzip)",
    "watch 2 Header A 3": "Convert it to a pcap file of version 2.4: editcap -F nsecpcap in.pcap out.pcap",
    "watch 2 Header B 4": "Record on an Ethernet interface: this pcap file has another link type than 1, Ethernet",
    "watch 2 Header A 5": DAMAGED_SECTION,
    "watch 2 Header A 6": "Record as pcapng 1.0 or pcap: this pcapng file has another major version than 1",
    "watch 2 Header A 7": DAMAGED_SECTION,
    "watch 2 Header A 8": DAMAGED_SECTION,
    "watch 2 Header A 9": DAMAGED_SECTION,
    "watch 3 Read A": UNREADABLE,
    "watch 3 Read B": UNREADABLE,
    "watch 4 Write capture": UNWRITTEN,
    "watch 4 Write ledger": UNWRITTEN,
    "watch 4 Write manifest": UNWRITTEN,
    "watch 7": NO_MEMORY,
    "links 1 Constant": "Give --constant a number of 32 bits with bits 24 and 25 set, as 0x03000000 or 50331648",
    "transit 1 Unsound": "Read the answer's questions: what was found may be wrong",
    "transit 8 Selection": "Give --routed identifiers 0 to 65535, as 301-305,42, or names of the table, as engine_*",
    "check 1 Unsound": "Read why in the answer: a run with these inputs would not be sound",
    "report 1 Ledger": "Take the ledger as watch wrote it: the line has no frame's form",
    "report 1 Ledger at 1 head": "Give a ledger of version 2 or 3, as afdxmon watch --ledger writes it",
    "report 2 Contradiction at 2 link": "Take the table of the run: this one doesn't say the same of the link",
    "report 2 Contradiction at 2 copy": "Take the run's ledger and table as they were: the copy has no delivery before it",
    "report 2 Contradiction at 3 counts": "Take the run's ledger and table as they were: the frames' lines give other counts",
    "report 2 Contradiction at 2 verdict": "Take the table of the run: the verdict can't come of this one's BAG, jitter and Smax",
    "report 3 Read Ledger": LEDGER,
    "report 7 Transit 1 Ledger at 1 head": "Give a ledger of transits, as afdxmon transit --ledger writes it",
    "report 7 Transit 1 Ledger at 2 run": "Take the ledger as transit wrote it: the line has another form",
    "report 7 Transit 1 Ledger at 7 order": "Take the ledger as transit wrote it: no such line stands there",
    "report 7 Transit 1 Ledger at 2 total": "Run transit to its end: the ledger has no line total",
    "report 7 Transit 2 Contradiction at 3 link": "Take the table of the run: this one doesn't say the same of the link",
    "report 7 Transit 2 Contradiction at 4 counts": "Take the run's ledger and table as they were: the frames' lines give other counts",
    "report 5 Manifest at": "Give a manifest, as afdxmon watch --manifest writes it",
    "report 5 Manifest version": "Give a manifest of version 1",
    "report 5 Manifest table": "Take the table of the run: the manifest has another SHA-256",
    "report 5 Manifest ledger": "Take the ledger of the run: the manifest has another length or SHA-256",
}
# What a table may have at each key.
ALLOWED = {
    "constant": "constant is an integer, 0 to 4294967295, with bits 24 and 25 set",
    "link": "each link is a table of its own, which begins with [[link]]",
    "late_us": "late_us is an integer, 0 to 1000000",
    "filters": "filters is an array of at most 7 strings",
    "id": "id is an integer, 0 to 65535",
    "name": "name is a string of 1 to 32 letters, digits, _ and -",
    "bag_ms": "bag_ms is 1, 2, 4, 8, 16, 32, 64 or 128",
    "jitter_us": "jitter_us is an integer, 0 to 100000",
    "smax": "smax is an integer, 64 to 1518",
    "integrity": "integrity is true or false",
    "redundancy": "redundancy is true or false",
    "skew_us": "skew_us is an integer, 0 to 1000000",
    "group": "group is a string of 1 to 32 letters, digits, _ and -",
}
NO_DOCUMENT = "the table is a TOML document"
TOP_KEYS = "the table has constant, late_us, filters and the links"
LINK_KEYS = "a link has id, name, bag_ms, jitter_us, smax, integrity, redundancy, skew_us and group"
COUNTS = "at most 4096 links and 7 filters"
# What a terminal shows before what a table may have.
CORRECT = "Correct it: "
# The advice below the faults of an interface document, which are listed.
CORRECT_ICD = "Correct these lines, or name the heads of columns by --column KEY=HEAD"
# The advice on a file that is no recording, by the first bytes that it has.
GZIP = "Unpack it (gzip) as it is read: --b <(zcat {})"
ZSTD = "Unpack it (zstd) as it is read: --b <(zstdcat {})"
XZ = "Unpack it (xz) as it is read: --b <(xzcat {})"
# What the system says of an output that it takes no longer.
FULL = "No space left on device (os error 28)"
CHECK_SEQUENCES = "Take off the frames' check sequences: editcap -F nsecpcap -L -C -4 in.pcap out.pcap"
# The advice on a recording that ends early, by the words of its note.
DAMAGED = "Keep what is before the damage: editcap -F nsecpcap -r in.pcap out.pcap 1-{}"
ENDINGS = {
    "truncated within a record": "Record again, or go on with the frames before it",
    "timestamp out of order": "Sort its frames, since those from there on are left out: reordercap in.pcap out.pcap",
    "captured length over 262144 bytes": DAMAGED,
    "fraction of a second out of range": DAMAGED,
    "too many frames": "Split it, since the rest is left out: editcap -F nsecpcap -c 1000000000 in.pcap out.pcap",
    "a block's length is wrong": DAMAGED,
    "the two lengths of a block differ": DAMAGED,
    "a packet or an option reaches beyond its block": DAMAGED,
    "a packet of an interface that isn't described": DAMAGED,
    "a section of another version": DAMAGED,
    "a packet without a timestamp": "Record with enhanced packets, as dumpcap does: simple packets have no time",
    "timestamp before 1970 or after 2106": "Set the recorder's clock, and record again: the frames from there on are left out",
    "packets of several interfaces, and none is chosen": "Choose one by its number or name after the path, as flight.pcapng:0",
    "too many interfaces": "Record at most 256 interfaces in a section: the rest is left out",
    "the chosen interface isn't there": "Choose one of those that this lists: capinfos in.pcapng",
    "another pcap file begins here": "Give the files apart, as --a FIRST SECOND: the rest of this one is left out",
    "the next file has no header that is read": "Give a recording in its place: that file and those after it are left out",
}
DAMAGED_AT_ONCE = "Record again: the file is damaged at its first packet"


def advice_on_ending(note):
    """The advice on the recording of a note, a line of standard error."""
    count, why = re.search(r"after (\d+) frames?: (.*?)(?: by \S+ \S+(?: \(.*\))?)?$", note.rstrip("\n")).groups()
    advice = ENDINGS[why]
    return DAMAGED_AT_ONCE if "{}" in advice and count == "0" else advice.format(count)


def advice_on(line):
    """The advice on a fault line without `afdxmon: `."""
    words = line.split()
    known = [" ".join(words[:count]) for count in range(len(words), 0, -1) if " ".join(words[:count]) in ADVICE]
    return ADVICE[known[0]]


ABOUT = {
    "capture": "Copies the frames of a recording that a filter accepts",
    "asm": "Assembles a filter's source from standard input, and prints its numeric form",
    "watch": "Judges the frames of two recordings, and writes those that a filter accepts",
    "debug": "Steps through a filter on the frames of a recording, by commands from standard input",
    "cut": "Copies the frames of two recordings that a ledger's lines select",
    "links": "Prints a draft of the table of virtual links that recordings have",
    "report": "Writes an HTML page on what a ledger says, or its numbers",
    "check": "Tells whether a run of watch with these inputs would be sound",
    "transit": "Tells what a switch did with the frames that went in",
}
# What each command's help says after the line of what it does.
HELP = {
    "capture": r"""
Usage: afdxmon capture [OPTIONS] <--code <TEXT>|--filter <FILE>|--source <FILE>> [RECORDING]...

Arguments:
  [RECORDING]  The recording, pcap or pcapng files, or @LIST of paths [default: -]

Options:
      --code <TEXT>      The filter in the numeric form, as `tcpdump -ddd` prints it
      --filter <FILE>    The filter in the numeric form, as `afdxmon asm` prints it
      --source <FILE>    The filter's source, as `afdxmon asm` reads it
  -o, --output <FILE>    The capture to write, a nanosecond pcap file [default: -]
      --pcapng           Write the capture as pcapng
      --late-us <N|any>  Take timestamps that are out of order by N microseconds, or in any order
  -v, --verbose          Tell standard error, whatever it is, what a terminal is told but progress
  -h, --help             Print help

One of --code, --filter and --source gives the filter. '-' is standard input, or standard output.

Example: keep the frames of virtual link 5
  afdxmon capture --code "$(tcpdump -y EN10MB -ddd 'ether[4:2] = 5')" recording.pcap -o link5.pcap
""",
    "asm": r"""
Usage: afdxmon asm [OPTIONS]

Options:
  -v, --verbose  Tell standard error, whatever it is, what a terminal is told but progress
  -h, --help     Print help

Example: keep the frames of virtual link 5
  printf 'ldh [4]\njne #5, drop\nret #-1\ndrop: ret #0\n' | afdxmon asm
""",
    "watch": r"""
Usage: afdxmon watch [OPTIONS] --config <FILE> --ledger <FILE> <--a <FILE>...|--b <FILE>...>

Options:
      --config <FILE>     The table of virtual links, a TOML document
      --filter <FILE>     The filter in the numeric form, as `afdxmon asm` prints it
      --a <FILE>          The recording of network A, pcap or pcapng files, or @LIST of paths
      --b <FILE>          The recording of network B, pcap or pcapng files, or @LIST of paths
      --capture <FILE>    The capture to write, a nanosecond pcap file
      --ledger <FILE>     The ledger of verdicts to write
      --details           Write a ledger of version 3, with each frame's length on the wire
      --manifest <FILE>   The manifest to write: a JSON text of what the run was of
      --digest            Take the SHA-256 of recordings and outputs into the manifest
      --workers <N>       The number of workers, 1 to 8 [default: 2]
      --late-us <N>       Take timestamps out of order by N microseconds, in place of the table's late_us
      --quiet             Leave out progress and summary at a terminal
      --strict            End with status 3 where a recording ends early or a file is torn, not with 0
      --resume-after-cut  Go on with the next file of a recording behind one that is cut or damaged
      --pcapng            Write the capture as pcapng, with verdicts as packet comments
  -v, --verbose           Tell standard error, whatever it is, what a terminal is told but progress
  -h, --help              Print help

A network whose recording isn't given has no frames. Without --filter no frame is accepted, and
--capture can't be given. '-' is standard input, or standard output.

Example: keep the frames that examples/flight.filter accepts, and judge them all
  afdxmon watch --config flight.toml --filter flight.filter --a a.pcap --b b.pcap \
    --capture kept.pcap --ledger verdicts.ledger
""",
    "debug": r"""
Usage: afdxmon debug [OPTIONS] --tap <FILE>... <--filter <FILE>|--source <FILE>>

Options:
      --filter <FILE>    The filter in the numeric form, as `afdxmon asm` prints it
      --source <FILE>    The filter's source, as `afdxmon asm` reads it
      --tap <FILE>       The recording, pcap or pcapng files, or @LIST of paths
      --late-us <N|any>  Take timestamps that are out of order by N microseconds, or in any order
  -v, --verbose          Tell standard error, whatever it is, what a terminal is told but progress
  -h, --help             Print help

Commands: select <n>, step [+|-]<n>, cont, breakpoint <n>, disassemble, tally, quit

Example: the state before the filter's first three instructions on frame 0
  printf 'select 0\nstep 1\nstep 1\n' | afdxmon debug --filter flight.filter --tap a.pcap
""",
    "cut": r"""
Usage: afdxmon cut [OPTIONS] --ledger <FILE> <--a <FILE>...|--b <FILE>...|--ledger-only>
       afdxmon cut [OPTIONS] --ledger <FILE> <--before <FILE>...|--after <FILE>...>

Options:
      --ledger <FILE>     The ledger of the recordings
      --a <FILE>          The recording of network A, pcap or pcapng files, or @LIST of paths
      --b <FILE>          The recording of network B, pcap or pcapng files, or @LIST of paths
      --before <FILE>     By a ledger of transits: the recording at the port in
      --after <FILE>      By a ledger of transits: the recording at the port out
      --config <FILE>     The table of virtual links: --link may then have their names
      --link <LIST>       Virtual links, as '301-305,42' or 'engine_*'; '*' stands for any letters
      --network <A|B>     The network
      --verdict <LIST>    Words of the ledger's fields 6 to 9, 'discarded', 'faults' or 'delivered'
      --from <TIME>       The first moment
      --to <TIME>         The last moment
      --span <LENGTH>     How long after --from the last moment is: '2s', '250ms', '80us'
      --filters <MASK>    A mask of filters in hexadecimal: '06' is what filter 1 or 2 accepts
      --around <N>        Take N frames of the same link before and after each selected one too [default: 0]
      --ledger-only       Print the ledger's lines of the selected frames in place of packets
      --resume-after-cut  Go on with the next file of a recording behind one that is cut or damaged
      --pcapng            Write the capture as pcapng, with verdicts as packet comments
  -o, --output <FILE>     The nanosecond pcap file to write, or the text file of lines [default: -]
  -v, --verbose           Tell standard error, whatever it is, what a terminal is told but progress
  -h, --help              Print help

Frames are written whole, as recorded, in the ledger's order. A frame is selected if it meets every
option from --link to --filters that is given. With --around the ledger is read twice: it has to be
a file. Lines of a network whose recording isn't given are passed over. A TIME is
'2027-01-15T08:00:12.119534506Z', the '08:00:12.1195' or '08:00' of the recording's day in UTC,
'+12.1195' or '+12s' after the ledger's first frame, or nanoseconds since 1970. A --to earlier in
the day than --from is one of the next day. '-' is standard input, or standard output.

By a ledger of transits, as `afdxmon transit --ledger` writes it, --verdict takes words of its
field 8 or 'faults', and each frame that went in has the one that came out of it beside it.

Example: keep the frames that policing discarded
  afdxmon cut --ledger flight.ledger --a a.pcap --b b.pcap --verdict excess -o excess.pcap
""",
    "links": r"""
Usage: afdxmon links [OPTIONS] <--a <FILE>...|--b <FILE>...|--icd <FILE>>

Options:
      --a <FILE>           The recording of network A, pcap or pcapng files, or @LIST of paths
      --b <FILE>           The recording of network B, pcap or pcapng files, or @LIST of paths
      --constant <NUMBER>  The constant field of the links' frames, as 0x03000000
      --icd <FILE>         The links that are specified: values separated by commas, semicolons or tabs
      --column <KEY=HEAD>  The head of a key's column in the ICD, as id='VL-Nr'; may be given again
      --resume-after-cut   Go on with the next file of a recording behind one that is cut or damaged
  -v, --verbose            Tell standard error, whatever it is, what a terminal is told but progress
  -h, --help               Print help

The draft says what was seen and not what was specified: check it against the ICD. With --icd it says
what the ICD specifies, and what was seen where that leaves a value out; comments say where both differ.
The ICD is a table as spreadsheets export it: the heads of its columns are id and any of name, bag_ms,
jitter_us, smax, integrity, redundancy, skew_us and group, or as 'VL ID', 'BAG [ms]' and 'LRU'; --column
names others, and all else is passed over. Without --constant the draft has the most common constant
field with bits 24 and 25 set. '-' is standard input.

Example: a table from two recordings, and a run with it
  afdxmon links --a a.pcap --b b.pcap > draft.toml
  afdxmon watch --config draft.toml --a a.pcap --b b.pcap --ledger verdicts.ledger
""",
    "report": r"""
Usage: afdxmon report [OPTIONS] --config <FILE> --ledger <FILE>

Options:
      --config <FILE>           The table of virtual links, a TOML document
      --ledger <FILE>           The ledger of verdicts, as `afdxmon watch` writes it
      --manifest <FILE>         The manifest of the run, as `afdxmon watch` writes it
      --expected <LIST>         Kinds of other traffic that the networks are to have, as 'ptp,lldp,0x88cc'
      --baseline <FILE>         The ledger of an earlier flight to compare with
      --baseline-config <FILE>  The table of that flight, where it was another one
      --transit <FILE>          A ledger of transits to tell of too, as `afdxmon transit` writes it
      --from <TIME>             The first moment of what is told
      --to <TIME>               The last moment
      --link <LIST>             The virtual links, as '301-305,42' or 'engine_*'
      --network <A|B>           The network
      --json                    Write the page's numbers as JSON in place of the page
      --csv <FILE>              Write the links too, a row each of comma-separated values
      --title <TEXT>            The title of the page
      --fail-on <LEVEL>         End with status 3 where there are findings of trouble, or by 'notice' of notice too
  -o, --output <FILE>           The page to write, or the JSON text [default: -]
  -v, --verbose                 Tell standard error, whatever it is, what a terminal is told but progress
  -h, --help                    Print help

The page is one file without scripts and links. Without -o a terminal is shown the first part as text.
--from, --to, --link and --network tell of a part of the ledger; they are those of `afdxmon cut`, whose
--ledger-only writes a ledger's part that is taken too. '-' is standard input, or standard output.

Example: a page on a run, and one that compares it with the flight before
  afdxmon report --config flight.toml --ledger verdicts.ledger -o report.html
  afdxmon report --config flight.toml --ledger today.ledger --baseline yesterday.ledger -o two.html
""",
    "check": r"""
Usage: afdxmon check [OPTIONS] --config <FILE>

Options:
      --config <FILE>     The table of virtual links, a TOML document
      --filter <FILE>     The filter in the numeric form, as `afdxmon asm` prints it
      --a <FILE>          The recording of network A, pcap or pcapng files, or @LIST of paths
      --b <FILE>          The recording of network B, pcap or pcapng files, or @LIST of paths
      --expected <LIST>   Kinds of other traffic that the networks are to have, as 'ptp,lldp,0x88cc'
      --whole             Read the recordings to their ends, not their first 1000000 frames
      --resume-after-cut  Go on with the next file of a recording behind one that is cut or damaged
      --json              Write the answer as JSON in place of text
  -v, --verbose           Tell standard error, whatever it is, what a terminal is told but progress
  -h, --help              Print help

The answer goes to standard output; nothing else is written. Of each recording the first 1000000
frames are read, by --whole all. The exit status is 0 where a run would be sound, else 1. '-' is
standard input.

Example: whether a table, a filter and two recordings belong together
  afdxmon check --config flight.toml --filter flight.filter --a a.pcap --b b.pcap
""",
    "transit": r"""
Usage: afdxmon transit [OPTIONS] --config <FILE> --before <FILE>... --after <FILE>...

Options:
      --config <FILE>          The table of virtual links, a TOML document
      --before <FILE>          The recording at the port in, pcap or pcapng files, or @LIST of paths
      --after <FILE>           The recording at the port out, by the same clock
      --network <A|B>          The network, for the ledger's second line
      --within-us <N>          The longest transit that is looked for [default: 10000]
      --early-us <N>           How far clocks and stamps may be off [default: 1000]
      --bound-us <N>           Tell frames whose transit was longer
      --routed <LIST>          The links that are routed to the port out, as '301-305,42' or 'engine_*'
      --shift-ns <N>           Add this to each timestamp of --after [default: 0]
      --police <bytes|frames>  How the switch polices: by a frame's bytes, or each as its link's Smax [default: bytes]
      --grace-us <N>           How far the switch's and the taps' times between frames may differ [default: 1]
      --late-us <N>            Take timestamps out of order by N microseconds, in place of the table's late_us
      --resume-after-cut       Go on with the next file of a recording behind one that is cut or damaged
      --ledger <FILE>          The ledger of transits to write
      --json                   Write the answer as JSON in place of text
  -v, --verbose                Tell standard error, whatever it is, what a terminal is told but progress
  -h, --help                   Print help

Both recordings are made by one clock. The answer goes to standard output; the ledger has a line for each
frame that went in, and for each that came out and never went in. The exit status is 1 where a question
is open, as whether the clocks are apart. '-' is standard input, or standard output.

Example: what the switch did, and each frame that it dropped
  afdxmon transit --config flight.toml --before in.pcap --after out.pcap --ledger transit.ledger
  grep ' dropped ' transit.ledger
""",
}
PROGRAM_HELP = (
    "Analyses recordings of AFDX networks (ARINC 664 Part 7)\n\nUsage: afdxmon <COMMAND>\n\nCommands:\n"
    + "".join(f"  {name:7}  {about}\n" for name, about in ABOUT.items())
    + "  help     Print this message or the help of the given subcommand(s)\n\n"
    + "Options:\n  -h, --help     Print help\n  -V, --version  Print version\n"
)
# The commit is in the place of the letters, of which the program has as many.
VERSION = "afdxmon 1.0.0 (commit unknown-tree) proved by rattle-kit-13b\n"
# What a session at a terminal begins with.
COMMANDS = "commands: select N, step [+|-]N, cont, breakpoint N, disassemble, tally, quit"


def help_of(command):
    return ABOUT[command] + "\n" + HELP[command]


# What clap's error says of arguments that don't go together.
MISUSE = {
    "NoFilter": "no filter is given\n  Name one by --filter or --source",
    "TwoFilters": "more than one filter is given\n  Give one of them",
    "NoRecording": "no recording is given\n  Name one by --a, --b or both",
    "NoLinks": "no recording is given\n  Name one by --a, --b or both, or an ICD by --icd",
    "NoColumn": "--column isn't KEY=HEAD, or has a KEY twice\n  Give as KEY id, name, bag_ms, jitter_us, smax, integrity, redundancy, skew_us or group",
    "NoDocument": "--column is of a document, and none is given\n  Name it by --icd",
    "Unfiltered": "--capture has no filter, which says of what frames it is\n  Name one by --filter",
    "NoNetwork": "--network is neither A nor B\n  Give A or B",
    "NoKind": "--expected has a kind that isn't known\n  Give arp, ipv4, ipv6, lldp, ptp, 802.1q, 802.3 or EtherTypes as 0x88f7, with commas",
    "NoLevel": "--fail-on is neither trouble nor notice\n  Give one of them",
    "NoPolicing": "--police is neither bytes nor frames\n  Give one of them",
    "Uncaptured": "--pcapng says how a capture is written, and none is\n  Name one by --capture",
    "NoManifest": "--digest has no manifest to write digests to\n  Name one by --manifest",
    "NoKinds": "--expected names kinds of traffic, and a ledger has none\n  Name the run's manifest, which has them, by --manifest",
    "NoBaseline": "--baseline-config is the table of a baseline, and none is given\n  Name its ledger by --baseline",
    "NoLateness": "--late-us is no number of microseconds, 0 to 1000000\n  Give one, or for capture and debug any",
    "Unordered": "--late-us any is for capture and debug: others put frames of two recordings in order\n  Give a number of microseconds, 0 to 1000000",
    "NoPackets": "--pcapng says how packets are written, and --ledger-only leaves them out\n  Give one of them",
    "TwoEnds": "--to and --span both end the span of time\n  Give one of them",
}


def usage_error(command, message):
    """The text on arguments that a command refuses."""
    usage = HELP[command].split("\n\n")[0].strip("\n")
    return f"error: {message}\n\n{usage}\n\nFor more information, try '--help'.\n"


# The last line at a terminal where a standard stream is named twice, by what has it already.
TAKEN = {
    "commands": "Name a file: the commands are read from standard input",
    **{
        name: f"Name a file: '-' stands for --{name} already"
        for name in ("config", "filter", "source", "a", "b", "capture", "ledger", "manifest", "icd")
    },
}
TO_A_TERMINAL = "afdxmon: packets aren't written to a terminal\nName a file by -o (of watch by --capture), or use a pipe"
# What stands before the advice on a file that is one of several, and which name it has there.
AMONG = "'-' can't be one of several files of a recording\nName standard input /dev/stdin there"
# What a terminal is told of an output that another option names, of a closed stream, and of a pipe that two options name.
ALSO = "Name another file to write: this is that of --{} too"
RECORDING_TOO = "Name another file to write: this is the recording too"
CLOSED = "Name a file: standard {} is closed"
READ_TWICE = "Name another file: this one is read already, and can be read once"
WRITTEN_TWICE = "Name another file: this one is written already, and takes one output"
