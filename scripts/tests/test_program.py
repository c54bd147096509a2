"""The program from outside: what it writes, where it writes it, and its exit status.

It is run on files of cases, on lines as long as can be, on devices that fail, with words on its
command line that are right and wrong, with less memory than it wants, and on the examples. What it
says of numbers is compared with docs/PROTOCOL.md and docs/PROGRAM.md."""

import collections
import csv
import hashlib
import json
import os
import pty
import re
import subprocess
import sys

from shared import random_words, station
from shared.checks import NO_FILE, NOT_PRINTED, advised, expect, expect_end, first_line
from shared.histories import write_chapters, write_history, write_rows
from shared.running import (
    CLOSED_PIPE, CRATES, EXAMPLES, PATIENCE, close_input, limit_memory, run, run_unread,
)  # fmt: skip
from shared.serving import UNKEPT
from shared.station import FIVE_POINTS, KNOWN_SITE, LONGEST_LINE, SITES, SIXTY_FOUR_POINTS
from tests.built import PROGRAM
from tests.suite import make_folder, start_chance, test_each

FOLDER = CRATES / "forecourt"
STORED, ANSWERS = FOLDER / "stdin", FOLDER / "stdout"
MESSAGES, REPLIES = STORED.read_text().splitlines(), ANSWERS.read_bytes().splitlines(keepends=True)
FIRST = MESSAGES[0].replace(" ", "")
LEAST_MEMORY = 12_000 * 1024  # octets of addresses, too few for 200,000 replies or rows
HERE = make_folder()
OWN_SITE = "give the site file on which its rows were made"


def forecourt(*words, given=b"", **how):
    given = given.encode() if isinstance(given, str) else given
    return run(PROGRAM, *words, given=given, cwd=FOLDER, **how)


def read_if_there(path, otherwise=""):
    return path.read_text() if path.exists() else otherwise


def expect_whole(folder, kind):
    """Each file of the folder is that of a case: it has one of this kind beside it."""
    cases = {file.stem for file in folder.glob(f"*.{kind}")}
    expect(
        f"{folder.name}/ has no file without its .{kind}",
        {file.stem for file in folder.iterdir()} - cases,
        set(),
    )


def expect_quiet(what, words, given=b""):
    """A command whose output nobody reads ends as SIGPIPE ends others, and says nothing."""
    expect_end(what, run_unread(PROGRAM, *words, given=given), CLOSED_PIPE)


@test_each
def closed_pipes():
    """Whoever reads a command's output has closed the pipe."""
    rows = STORED.read_bytes()
    expect_quiet("no words", [], rows)
    for words in (["replay"], ["report"], ["report", "--json"], ["sales"], ["meters"]):
        expect_quiet(" ".join(words), [words[0], KNOWN_SITE, *words[1:]], rows)
    expect_quiet("check", ["check", KNOWN_SITE])
    expect_quiet("explain", ["explain"], rows)
    expect_quiet("explain 20", ["explain", "20"])
    expect_quiet("spell", ["spell"], b"t1 SignOn\n")
    for words in ([], ["--loopback"]):
        demo = ["demo", FIVE_POINTS, FOLDER / "demos/two_tills.demo", *words]
        expect_quiet(f"demo {words}", demo)
    for words in (["help"], ["--version"], ["check", "--help"]):
        expect_quiet(" ".join(words), words)
    body = write_rows(station.sign_on(1), station.sign_off(1))
    history = write_history(HERE / "history", KNOWN_SITE, *write_chapters(KNOWN_SITE, body))
    for words in (["replay"], ["replay", "--json"], ["report"], ["sales"], ["meters"], ["explain"],
                  ["explain", "--times"], ["shifts"], ["next"], ["verify"]):  # fmt: skip
        expect_quiet(f"{words} of a history", [words[0], history, *words[1:]])
    one = "--workers", "1", "--sessions", "1"
    for command, before, words in (("serve", "", one), ("station", UNKEPT, ())):
        end = run_unread(PROGRAM, command, KNOWN_SITE, "--port", "0", *words)
        expect_end(f"{command} can't say where it listens", end, 1, b"", before + NOT_PRINTED)


@test_each
def cases():
    """Each file of cases/, of explained/ for explain, and of reports/ for report on the known
    site: what is written for NAME.hex is NAME.out, the text on standard error NAME.err, below a
    fault with what to do, and the status NAME.status; without these files there is no such text,
    and the status is 0."""
    for kind, words in (
        ("cases", []), ("explained", ["explain"]), ("reports", ["report", KNOWN_SITE])
    ):
        expect_whole(FOLDER / kind, "hex")
        for case in sorted((FOLDER / kind).glob("*.hex")):
            end = forecourt(*words, given=case)
            status = int(read_if_there(case.with_suffix(".status"), "0"))
            text = read_if_there(case.with_suffix(".err")).rstrip("\n")
            text = advised(text) if text.startswith(("fault", "line")) else text
            expect_end(f"{kind}/{case.name}", end, status, case.with_suffix(".out"), text)


@test_each
def stored_messages():
    """Messages in one piece, an octet a line, with a faulty line, and cut."""
    whole = STORED.read_text()
    octets = "".join(whole.split())
    folded = "".join(octets[at : at + 2] + "\n" for at in range(0, len(octets), 2))
    expect_end("the stored messages", forecourt(given=STORED), out=ANSWERS)
    expect_end(
        "all messages on one line, without a line feed",
        forecourt(given=whole.replace("\n", "")),
        out=ANSWERS,
    )
    expect_end("an octet a line", forecourt(given=folded), out=ANSWERS)
    end = forecourt(given="01010201004500\n")
    expect_end("a truncated message", end, 1, b"", advised("fault 44"))
    end = forecourt(given=f"{MESSAGES[0]}\n01x\n")
    expect_end("a bad line", end, 1, REPLIES[0], advised("line 2: not hexadecimal"))


def fill_line(text, length=LONGEST_LINE):
    """The text behind as many spaces as make it so long."""
    return text.rjust(length)


@test_each
def long_lines():
    """The longest line has 65,536 octets, spaces and comments counted too, with or without a
    line feed."""
    too_long = advised("line 1: too long")
    for end in ("", "\n"):
        longest = forecourt(given=fill_line(FIRST) + end)
        expect_end(f"the longest line, ended by {end!r}", longest, out=REPLIES[0])
        longer = forecourt(given=fill_line(FIRST, LONGEST_LINE + 1) + end)
        expect_end(f"a line that is too long, ended by {end!r}", longer, 1, b"", too_long)
    end = forecourt(given="0101\n#" + " " * LONGEST_LINE + "\n")
    too_long = advised("line 2: too long")
    expect_end("a comment that is too long, behind half a message", end, 1, b"", too_long)


@test_each
def devices():
    """An output that takes nothing, and a standard input that is closed."""
    refused = b"0201010100e300050101010128\n"
    end = forecourt(given="010102010143000401233E00\n")
    expect_end("a wrong code", end, 1, refused, advised("fault 40"))
    full = {"given": STORED, "sink": "/dev/full"}
    shut = {"given": None, "preexec_fn": close_input}
    expect_end("an output that takes nothing", forecourt(**full), 1, b"", NOT_PRINTED)
    expect_end("a closed standard input", forecourt(**shut), 1, b"", advised("fault 61"))
    for word in ("--help", "--version"):
        expect_end(f"an output that takes no {word}", forecourt(word, **full), 1, b"", NOT_PRINTED)
    end = forecourt("check", KNOWN_SITE, **full)
    expect_end("an output that takes no ok", end, 1, b"", NOT_PRINTED)
    for words in (["explain"], ["report", KNOWN_SITE]):
        end = forecourt(*words, **full)
        expect_end(f"{words[0]} to an output that takes nothing", end, 1, b"", NOT_PRINTED)
        end = forecourt(*words, **shut)
        expect_end(f"{words[0]} on a closed standard input", end, 1, b"", advised("fault 61"))


@test_each
def terminals():
    """At a terminal a command says what is typed there; else it says nothing."""
    messages, requests = "a message in hexadecimal", "a request in words, as t1 SignOn"
    of_messages = [], ["replay", KNOWN_SITE], ["explain"]
    for words, what in [*((words, messages) for words in of_messages), (["spell"], requests)]:
        master, slave = pty.openpty()
        os.write(master, b"\x04")
        how = {"stdin": slave, "capture_output": True, "timeout": PATIENCE}
        ended = subprocess.run([PROGRAM, *words], **how)
        for end in (master, slave):
            os.close(end)
        said = f"type {what}, a line each, and Ctrl-D at the end; forecourt --help lists the"
        got = ended.returncode, ended.stdout, ended.stderr.decode()
        expect(f"{words} at a terminal", got, (0, b"", f"{said} commands\n"))
        expect_end(f"{words} not at a terminal", forecourt(*words, given=""), 0, b"")


def expect_mistake(*words):
    """Mistakes on the command line: status 2, nothing on standard output, some text on standard
    error, and no file is read."""
    end = forecourt(*words, given=STORED)
    got = end.status, end.out, end.err != "", "cannot read" in end.err
    expect(f"words: {words}", got, (2, b"", True, False))


def expect_help(first, *words):
    """What clap prints is on standard output, with status 0; this is its first line."""
    end = forecourt(*words, given=STORED)
    lines = end.out.decode().splitlines()
    expect(f"words: {words}", (end.status, lines[:1], end.err), (0, [first], ""))
    return lines


@test_each
def mistaken_words():
    """Mistakes on the command line."""
    for words in (
        ["stray"], ["check"], ["check", KNOWN_SITE, KNOWN_SITE], [
            "check", KNOWN_SITE, "--changes"
        ], ["replay"],
        ["replay", KNOWN_SITE, "--changes", "--changes"], ["replay", KNOWN_SITE, "--change=1"], [
            "--changes"
        ], ["--"],
        ["explain", KNOWN_SITE], ["report"], ["report", KNOWN_SITE, "--changes"], [
            "report", KNOWN_SITE, KNOWN_SITE
        ],
        ["shifts"], ["shifts", "a", "b"], ["shifts", "a", "--changes"], ["next"], [
            "next", "a", "b"
        ], ["next", "a", "--json"], ["station", KNOWN_SITE, "--port=0", "--journal", "a"],
        [b"check\xff", KNOWN_SITE], ["check", "no_such_file", "extra"],
    ):  # fmt: skip
        expect_mistake(*words)


@test_each
def help_texts():
    """What `help`, `--help` and `--version` print, of each command, too."""
    lines = expect_help("forecourt 0.1.0", "--version")
    digest = hashlib.sha256(open(PROGRAM, "rb").read()).hexdigest()
    expect("which program it is", lines[1:], [f"sha256 {digest}"])
    for word in ("help", "--help", "-h"):
        first = "Runs a filling station's forecourt, and reads what it kept. Without a command it"
        alone = "replays the messages on standard input with a site of its own"
        lines = expect_help(f"{first} {alone}", word)
        named = [line.split()[0] for line in lines if line.startswith("  ")]
        for name in (
            "check", "replay", "report", "serve", "station", "demo", "shifts", "next", "explain",
            "sales", "meters", "spell", "ask", "verify", "story", "help", "-h,", "-V,",
        ):
            expect(f"{word} speaks of {name}", name in named, True)
    for command, first in (
        ("check", "Reads a site file, and prints its faults, or how large the site is"),
        (
            "replay",
            "Prints the replies of a history, or those to messages on standard input, with the site"
            " of a file",
        ),
        (
            "report",
            "Prints the report of a history, or of recorded messages on standard input, with the"
            " site of a file",
        ),
        (
            "serve",
            "Serves tills and dispensers on 127.0.0.1, settles, and prints the report of the day",
        ),
        (
            "station",
            "Serves every till and dispenser of a site on 127.0.0.1 until standard input ends, and"
            " prints the report of the day, or of the whole history",
        ),
        ("demo", "Runs the tills and dispensers of a script, and prints the report of the day"),
        ("shifts", "Prints what each shift of a history cleared, one line for each"),
        (
            "next",
            "Prints the site file with which a new history continues this one, or what has to be"
            " settled first",
        ),
        (
            "explain",
            "Prints the messages of standard input in words, or the rows of a history, or what a"
            " number means",
        ),
        (
            "sales",
            "Prints as CSV the sales of a history, or of recorded messages on standard input, with"
            " the site of a file",
        ),
        (
            "meters",
            "Prints what each nozzle metered in a history, or in recorded messages on standard"
            " input, with the site of a file",
        ),
        ("verify", "Reads a whole history, and prints its last seal, or the first fault in it"),
        (
            "story",
            "Prints the rows of one sale of a history in words, from its release to its clear",
        ),
        ("spell", "Turns requests in words on standard input into messages in hexadecimal"),
        (
            "ask",
            "Sends the requests in words on standard input to a running station, and prints its"
            " replies",
        ),
    ):
        lines = expect_help(first, command, "--help")
        is_example = lines[-1].startswith("Example") and f"forecourt {command} " in lines[-1]
        expect(f"{command} --help ends with an example", is_example, True)
        if command == "station":
            text = "\n".join(lines)
            for word in ("[FILE]", "--history <FOLDER>", "--page <N>", "--detached", "--json"):
                expect(f"{command} --help speaks of {word}", word in text, True)
            expect(f"{command} --help speaks of no journal", "journal" in text, False)


@test_each
def site_files():
    """Each site file of the cases: `ok ..` on standard output, or its first fault on standard
    error, on the first line. A replay on a faulty one says the same, and answers nothing."""
    expect_whole(SITES, "toml")
    for case in sorted(SITES.glob("*.toml")):
        text = case.with_suffix(".out").read_text()
        end = forecourt("check", case, given=STORED)
        if text.startswith("ok"):
            expect_end(f"check {case.name}", end, 0, text.encode())
        else:
            told = end._replace(err=first_line(end.err))
            expect_end(f"check {case.name}", told, 1, b"", text.rstrip("\n"))
            replay = forecourt("replay", case, given="no hexadecimal\n")
            expect(f"replay on {case.name}", replay, end)
    for command, name, why in (
        ("check", "no_such_file", NO_FILE), ("check", ".", "Is a directory"),
        ("report", "no_such_file", NO_FILE), ("check", "src/main.rt/x", "Not a directory"),
    ):  # fmt: skip
        end = forecourt(command, name, given=STORED)
        expect_end(f"{command} on {name}", end, 1, b"", f"cannot read {name}: {why}")


@test_each
def lines_to_explain():
    """What is explained is read as a replay reads it: a line that is too long, even one that
    doesn't end, takes no more memory than the longest."""
    end = forecourt("explain", given=b"0" * 100_000_000, preexec_fn=limit_memory(60_000 * 1024))
    expect_end("explain on a line that does not end", end, 1, b"", advised("line 1: too long"))
    end = forecourt("explain", given=fill_line(FIRST) + "\n")
    expect_end("explain on the longest line", end, 0, b"t1 SignOn, token 1\n")


# The names of refusals 1 to 25, and of the faults.
REFUSALS = """
NotSignedOn SignedOn NoSuchPoint NoSuchNozzle NoSuchProduct NoSuchTransaction NotManager BadPrice
BadPreset WrongState AssignedToOther NotYours NotYourPoint WrongNozzle BufferFull SequenceSpent
MeterGap MeterBack MeterJump LockedByOther NotLocked AlreadyCleared Ending ShiftsSpent MeterSpent
""".split()
DETAILED = {10, 11, 14, 17, 18, 20, 22}
FAULTS = {30: "BookFull", 31: "NoMemory"}
FAULTS.update(zip(range(40, 44), "BadCode BadKind BadLength BadItem".split()))
FAULTS.update(zip(range(50, 59), """
NotForUs BadOriginator BadAddress UnknownItem ItemMissing BadDecimal BadNumber OriginatorChanged
NotARequest
""".split()))  # fmt: skip
FAULTS[44] = "Truncated"
FAULTS.update(zip(range(59, 66), """
TurnLimit StrangeReceipt ReadFault WriteFault AcceptFault NoWorker PollsSpent
""".split()))  # fmt: skip
FAULTS.update(zip(range(70, 77), """
NotToml UnknownKey MissingKey WrongKind OutOfRange Repeated UnknownProduct
""".split()))  # fmt: skip

DOCUMENTS = [CRATES.parent / f"docs/{name}.md" for name in ("PROTOCOL", "PROGRAM")]
REFUSALS_HEAD = "| No | Name (detail) | No | Name (detail) |"
FAULTS_HEAD = "| No | Name of the fault | No | Name of the fault |"
# A full book and a change of originator are answered, a state that doesn't come is a worker's.
ENDING_NOTHING = {30, 57, 65}


@test_each
def explained_numbers():
    """`explain NUMBER` has a line for each refusal and fault; another word is a mistake."""
    fronts = {n: f"refusal {n} {name}: " for n, name in enumerate(REFUSALS, 1)}
    fronts.update({n: f"fault {n} {name}: " for n, name in FAULTS.items()})
    for n in range(256):
        if n not in fronts:
            expect_mistake("explain", str(n))
            continue
        end, front = forecourt("explain", str(n), given=STORED), fronts[n]
        line = end.out.decode()
        parts = line[: len(front)], line[len(front) :].count("\n"), "(detail: " in line
        wanted = (front, 1, n in DETAILED)
        expect(f"explain {n}", (end.status, end.err, parts), (0, "", wanted))
    for word in ("256", "-1", "+1", "+20", " 20", "1.0", "x", "", "one"):
        expect_mistake("explain", word)
    expect_mistake("explain", "1", "2")
    end = forecourt("explain", "1", given=STORED, sink="/dev/full")
    expect_end("explain 1 to an output that takes nothing", end, 1, b"", NOT_PRINTED)


def read_tables(head):
    """The rows of the tables of PROTOCOL and PROGRAM that begin with this line, as cells."""
    rows, is_read = [], False
    for line in (line for path in DOCUMENTS for line in path.read_text().splitlines()):
        is_read = line == head or is_read and line.startswith("|")
        if is_read and line != head and not line.startswith("|---"):
            rows.append([cell.strip() for cell in line.strip("|").split("|")])
    return rows


def find_numbers(text):
    """The numbers of the faults that a text names: `fault 40` to `fault 43`, say."""
    numbers = [*map(int, re.findall(r"`fault (\d+)[^`]*`", text))]
    return [*range(numbers[0], numbers[1] + 1)] if "` to `" in text else numbers


def explain_all():
    """What each number means, as `explain NUMBER` says: its kind, its name, and whether it has a
    detail."""
    meanings = {}
    for number in range(256):
        end = forecourt("explain", str(number))
        if end.status == 0:
            kind, _, name, rest = end.out.decode().split(" ", 3)
            meanings[number] = (kind, name.removesuffix(":"), "(detail: " in rest)
    return meanings


@test_each
def numbers_of_the_documents():
    """The documents' tables of numbers have just the numbers that `explain` knows, with their
    names, and a detail where it says so."""
    drawn = {}
    for kind, head in (("refusal", REFUSALS_HEAD), ("fault", FAULTS_HEAD)):
        cells = [cell for row in read_tables(head) for cell in row]
        for number, name in zip(cells[::2], cells[1::2]):
            if number:
                has_detail = name.endswith(")")
                drawn[int(number)] = (kind, name.split(" (")[0], has_detail)
    known = explain_all()
    for number in sorted({*drawn} | {*known}):
        expect(f"number {number}", drawn.get(number), known.get(number))


@test_each
def faults_of_the_documents():
    """The documents' tables of faults name faults that `explain` knows, each with its exit status
    where it ends the program; a fault that isn't there is an answer, or ends a dispenser's own
    work."""
    kinds = {number: kind for number, (kind, _, _) in explain_all().items()}
    answered = [int(row[0]) for row in read_tables("| No | Fault |")]
    in_files = [n for row in read_tables("| Fault | When |") for n in find_numbers(row[0])]
    statuses = {}
    for texts, status, *_ in read_tables("| Standard error | Status | When | Of |"):
        texts = texts.replace("unsettled 60", "fault 60")
        statuses.update((number, status) for number in find_numbers(texts))
    for number in (*answered, *in_files, *statuses):
        expect(f"fault {number}", kinds.get(number), "fault")
    faults = {number for number, kind in kinds.items() if kind == "fault"}
    expect("faults that end nothing", faults - {*statuses}, {*answered, *ENDING_NOTHING})
    wanted = {**dict.fromkeys(statuses, "1"), 31: "4", 60: "3"}
    expect("statuses", statuses, wanted)


@test_each
def spelled_lines():
    """Comments stay, spaces don't count, and a line without a token has the next one: they rise
    from 1 and begin again behind 31. Each request of explained/ is spelled as it was."""
    given = "# a day\n\n  # noon\n\t t1\tSignOn \r\nt1 SignOff , token  9\n"
    wanted = "# a day\n\n  # noon\n010102010041000401013100\n010102010049000401013200\n"
    expect_end("comments and spaces", forecourt("spell", given=given), 0, wanted.encode())
    end = forecourt("spell", given="t1 ReadSite\n" * 31 + "t1 ReadSite, token 0\nt1 ReadSite")
    tokens = [int(line[10:12], 16) for line in end.out.decode().splitlines()]
    expect("tokens", (end.status, tokens), (0, [*range(1, 32), 0, 1]))
    for case in sorted((FOLDER / "explained").glob("*.out")):
        lines = [x for x in case.read_text().splitlines() if x[0] in "td" and x[:3] != "to "]
        given = "".join(f"{line}\n" for line in lines)
        spelled = forecourt("spell", given=given)
        told = forecourt("explain", given=spelled.out)
        expect_end(f"{case.name}, spelled", told, 0, given.encode())
    full = {"given": "t1 SignOn\n", "sink": "/dev/full"}
    end = forecourt("spell", **full)
    expect_end("spell to an output that takes nothing", end, 1, b"", NOT_PRINTED)
    end = forecourt("spell", given=None, preexec_fn=close_input)
    expect_end("spell on a closed standard input", end, 1, b"", advised("fault 61"))
    end = forecourt("spell", given="#" + " " * LONGEST_LINE)
    expect_end("spell on a line that is too long", end, 1, b"", advised("line 1: too long"))


# A line, and what is said of it. Behind the last ones the words are parted by a comma.
WRONG_WORDS = r"""
x1 SignOn                 | word 1 "x1": t1 to t32, or d1 to d64
t33 SignOn                | word 1 "t33": t1 to t32, or d1 to d64
t01 SignOn                | word 1 "t01": t1 to t32, or d1 to d64
d65 Online 1              | word 1 "d65": t1 to t32, or d1 to d64
T1 signon                 | word 1 "T1": t1 to t32, or d1 to d64
t1                        | word 2 is missing: the name of an event, as SignOn
t1 signon                 | word 2 "signon": the name of an event, perhaps SignOn
t1 signon now             | word 2 "signon": the name of an event, perhaps SignOn
t1 Realease 1             | word 2 "Realease": the name of an event, perhaps Release
d1 lft 1 1@0              | word 2 "lft": the name of an event, perhaps Lift
t1 ReadPiont 1            | word 2 "ReadPiont": the name of an event, as SignOn
t1 Sign                   | word 2 "Sign": the name of an event, as SignOn
t1 SignOn now             | word 3 "now": nothing more
t1 Open                   | word 3 is missing: a fuelling point, 1 to 64
t1 Open 65                | word 3 "65": a fuelling point, 1 to 64
t1 Open 65 2              | word 3 "65": a fuelling point, 1 to 64
t1 Open +1                | word 3 "+1": a fuelling point, 1 to 64
t1 Open 1 2               | word 4 "2": nothing more
t1 Open 1 2 3             | word 4 "2": nothing more
t1 Release                | word 3 is missing: a fuelling point, 1 to 64
t1 Release 0              | word 3 "0": a fuelling point, 1 to 64
t1 Release 1 2000         | word 4 "2000": volume, money, or nothing
t1 Release 1 litres 3     | word 4 "litres": volume, money, or nothing
t1 Release 1 litres 3 now | word 4 "litres": volume, money, or nothing
t1 Release 1 volume       | word 5 is missing: a number, 0 to 4294967295
t1 Release 1 volume 3.0   | word 5 "3.0": a number, 0 to 4294967295
t1 Release 1 volume 3.0 l | word 5 "3.0": a number, 0 to 4294967295
t1 Release 1 volume 3 l   | word 6 "l": nothing more
t1 Prepay 0               | word 3 "0": a fuelling point, 1 to 64
t1 Prepay 1               | word 4 is missing: a number, 0 to 4294967295
t1 Prepay 1 4294967296    | word 4 "4294967296": a number, 0 to 4294967295
t1 Prepay 1 x y           | word 4 "x": a number, 0 to 4294967295
t1 SetPrice 9             | word 3 "9": a product, 1 to 8
t1 SetPrice 9 1500        | word 3 "9": a product, 1 to 8
t1 SetPrice 1             | word 4 is missing: a number, 0 to 4294967295
t1 ReadProduct            | word 3 is missing: a product, 1 to 8
t1 ReadProduct 9 1        | word 3 "9": a product, 1 to 8
d1 Lift 0                 | word 3 "0": a fuelling point, 1 to 64
d1 Lift 1                 | word 4 is missing: a nozzle and its meter's reading, as 1@1000
d1 Lift 1 9@0             | word 4 "9@0": a nozzle and its meter's reading, as 1@1000
d1 Lift 1 9@0 1           | word 4 "9@0": a nozzle and its meter's reading, as 1@1000
d1 Lift 1 1@1000000000000 | word 4 "1@1000000000000": a nozzle and its meter's reading, as 1@1000
d1 Lift 1 1               | word 4 "1": a nozzle and its meter's reading, as 1@1000
t1 Lock                   | word 3 is missing: a transaction, as 3/1, or with its shift 3/2/1
t1 Lock 1/0               | word 3 "1/0": a transaction, as 3/1, or with its shift 3/2/1
t1 Lock 1/1000/1          | word 3 "1/1000/1": a transaction, as 3/1, or with its shift 3/2/1
t1 Lock 1/1/1/1           | word 3 "1/1/1/1": a transaction, as 3/1, or with its shift 3/2/1
t1 Lock 1 1               | word 3 "1": a transaction, as 3/1, or with its shift 3/2/1
t1 Online 1               | word 2 "Online": what a till asks for, as SignOn
t1 Online 99              | word 2 "Online": what a till asks for, as SignOn
t1 HangUp                 | word 2 "HangUp": what a till asks for, as SignOn
t1 Lift 1 1@1, token 99   | word 2 "Lift": what a till asks for, as SignOn
d1 Open 1                 | word 2 "Open": what a dispenser reports, as Online
d1 ReplaceMeter 1 1       | word 2 "ReplaceMeter": what a dispenser reports, as Online
t1 SignOn,                | word 3 is missing: token
t1 SignOn, tokens 1       | word 3 "tokens": token
t1 SignOn, token          | word 4 is missing: a token's number, 0 to 31
t1 SignOn, token 32       | word 4 "32": a token's number, 0 to 31
t1 SignOn,token 032 1     | word 4 "032": a token's number, 0 to 31
t1 SignOn, token 1 2      | word 5 "2": nothing more
t1 SignOn, token 1, token | word 4 "1,": a token's number, 0 to 31
t1 Release 1 money 1,     | word 6 is missing: token
t1 Release 1 money 1,tok  | word 6 "tok": token
t1 Release 1 money, token | word 5 is missing before the comma: a number, 0 to 4294967295
t1 Prepay 2, 3000         | word 4 is missing before the comma: a number, 0 to 4294967295
t1, token 1               | word 2 is missing before the comma: the name of an event, as SignOn
t1 Release 1 volume 3 l,5 | word 6 "l": nothing more
t1 Release 1 volume 9,000 | word 6 "000": token (numbers have no commas)
t1 Prepay 2,3000          | word 4 is missing before the comma: a number, 0 to 4294967295 (numbers have no commas)
t1 Prepay 1 20,00         | word 5 "00": token (numbers have no commas)
t1 Release 1 2,5          | word 4 "2": volume, money, or nothing (numbers have no commas)
, token 1                 | word 1 is missing before the comma: t1 to t32, or d1 to d64
,                         | word 1 is missing before the comma: t1 to t32, or d1 to d64
"""
# Octets of a line, and how its word is quoted: at most 40 octets, with others than printable ones
# by their numbers.
QUOTED_WORDS = (
    (b"t1 Sign\x1b[31mOn", r'word 2 "Sign\x1b[31mOn"'),
    (b't1 "SignOn"', r'word 2 "\x22SignOn\x22"'),
    (rb"t1 \n", r'word 2 "\x5cn"'),
    ("t1 Début".encode(), r'word 2 "D\xc3\xa9but"'),
    (b"t1 \x00\x7f\xff", r'word 2 "\x00\x7f\xff"'),
    (b"t1 " + 40 * b"a", f'word 2 "{40 * "a"}"'),
    (b"t1 " + 41 * b"a", f'word 2 "{40 * "a"}"..'),
)


@test_each
def wrong_words():
    """The first line that asks for nothing ends a text; what came before it is spelled."""
    before = b"010102010041000401013100\n"
    for case in WRONG_WORDS.strip().splitlines():
        line, why = (part.strip() for part in case.split("|"))
        end = forecourt("spell", given=f"t1 SignOn\n{line}\nt1 SignOff\n")
        expect_end(f"spell: {line}", end, 1, before, f"line 2: {why}")
    for line, quoted in QUOTED_WORDS:
        end = forecourt("spell", given=line)
        why = f"line 1: {quoted}: the name of an event, as SignOn"
        expect_end(f"spell: {line}", end, 1, b"", why)


# What some editors write before a text.
MARK = b"\xef\xbb\xbf"


@test_each
def marked_texts():
    """One byte order mark before a text is dropped: of hexadecimal, of words, of a script. A second
    one is refused, and so is a part of one."""
    stored, script = STORED.read_bytes(), FOLDER / "demos/two_tills.demo"
    for words in (
        [], ["explain"], *([kind, KNOWN_SITE] for kind in ("replay", "report", "sales", "meters"))
    ):
        marked = forecourt(*words, given=MARK + stored)
        expect(f"{words[:1]} of a marked text", marked, forecourt(*words, given=stored))
    end = forecourt("spell", given=MARK + b"t1 SignOn\n")
    expect_end("spell of a marked text", end, 0, f"{FIRST.lower()}\n".encode())
    marked = HERE / "marked.demo"
    marked.write_bytes(MARK + script.read_bytes())
    end = forecourt("demo", FIVE_POINTS, marked)
    expect_end("a marked script", end, 0, script.with_suffix(".report"))
    for front in (MARK + MARK, MARK[:2]):
        end = forecourt(given=front + stored)
        expect_end(f"{front} before a text", end, 1, b"", advised("line 1: not hexadecimal"))
    end = forecourt("spell", given=MARK + MARK + b"t1 SignOn\n")
    why = r'line 1: word 1 "\xef\xbb\xbft1": t1 to t32, or d1 to d64'
    expect_end("spell of a text with two marks", end, 1, b"", why)
    marked.write_bytes(MARK + MARK + script.read_bytes())
    end = forecourt("demo", FIVE_POINTS, marked)
    expect_end("a script with two marks", end, 1, b"", advised("script line 1", text=""))


@test_each
def random_events(seed):
    """Spelled events are explained in their words again; any text is spelled, or told a fault."""
    chance = start_chance(seed, 38)
    lines = [random_words.choose_event(chance) for _ in range(10_000)]
    spelled = forecourt("spell", given="".join(f"{line}\n" for line in lines))
    told = "".join(f"{line}, token {at % 31 + 1}\n" for at, line in enumerate(lines))
    end = forecourt("explain", given=spelled.out)
    expect_end("10,000 random events", end, 0, told.encode())
    for number in range(300):
        text = random_words.choose_text(chance)
        end = forecourt("spell", given=text)
        is_told = end.status == 1 and end.err.startswith("line ") and end.out == b""
        is_spelled = end.status == 0 and end.err == "" and end.out.count(b"\n") == 1
        expect(f"random text {number}: {text!r}", is_told or is_spelled, True)


DAYS = ("day", "fuelling_day", "paying_day")
TITLES = "shift point number product name millilitres mills cents prepaid status till".split()
TITLES.append("cleared in shift")
# The sales of the paying day, by its words: two of diesel and one of petrol, prepaid with 3,000.
PAID = """1,1,1,1,diesel,10000,1500,1500,,cleared,1,1
1,1,2,1,diesel,4000,1500,600,,cleared,2,2
2,1,1,2,petrol,5000,1799,900,3000,cleared,1,2
"""


def read_table(day, *words):
    end = forecourt("sales", FIVE_POINTS, *words, given=EXAMPLES / f"{day}.hex")
    expect(f"{day}: sales {words}", (end.status, end.err), (0, ""))
    return end.out.decode()


def sum_volumes(rows):
    """The millilitres of each product's sales, by their status."""
    volumes = collections.Counter()
    for row in rows:
        volumes[int(row["product"]), row.get("status", "adjusted")] += int(row["millilitres"])
    return volumes


def read_report(day):
    """The millilitres of each product by what became of them, as the report prints them."""
    report = forecourt("report", FIVE_POINTS, given=EXAMPLES / f"{day}.hex").out.decode()
    volumes = collections.Counter()
    for line in report.splitlines():
        if line.startswith("product "):
            words = line.split()
            figures = dict(zip(words[3::2], map(int, words[4::2])))
            for status in ("payable", "locked", "cleared", "adjusted"):
                if figures[status]:
                    volumes[int(words[1]), status] = figures[status]
    return volumes


# What the report of the paying day says, for people: its figures are those of its plain report.
HUMAN = """40 rows
3 cleared for 30.00

litres     metered   running   payable    locked   cleared  adjusted
1 diesel    14.000     0.000     0.000     0.000    14.000     0.000
2 petrol     5.000     0.000     0.000     0.000     5.000     0.000
total       19.000     0.000     0.000     0.000    19.000     0.000
"""


@test_each
def human_report():
    """The report for people."""
    day = EXAMPLES / "paying_day.hex"
    end = forecourt("report", FIVE_POINTS, "--human", given=day)
    expect_end("the report of the paying day, for people", end, 0, HUMAN.encode())
    end = forecourt("report", FIVE_POINTS, "--human", given=day.read_text() + "01\n")
    expect_end("for people, up to a fault", end, 1, HUMAN.encode(), advised("fault 44"))
    end = forecourt("report", FIVE_POINTS, "--human", given=day, sink="/dev/full")
    expect_end("for people, to an output that takes nothing", end, 1, b"", NOT_PRINTED)
    end = forecourt("report", FIVE_POINTS, "--human", given=None, preexec_fn=close_input)
    expect_end("for people, on a closed standard input", end, 1, b"", advised("fault 61"))


@test_each
def each_event_is_drawn():
    """Random events are of each variant of Event, and of no other name."""
    source = (CRATES / "site_base/src/event.rt").read_text()
    body = re.search(r"^pub enum Event \{$(.*?)^\}$", source, re.M | re.S).group(1)
    variants = {*re.findall(r"^    (\w+)", body, re.M)}
    chance = start_chance(0, "each event")
    drawn = {random_words.choose_event(chance).split()[1] for _ in range(10_000)}
    expect("variants that shared/random_words.py doesn't draw", variants - drawn, set())
    expect("names that are no variant's", drawn - variants, set())


@test_each
def words_of_the_documents():
    """PROGRAM has the words of each event, and each of its examples is spelled and explained."""
    examples = [cells[2].strip("`") for cells in read_tables("| Event | Its words | Example |")]
    chance = start_chance(0, "each event")
    drawn = {random_words.choose_event(chance).split()[1] for _ in range(10_000)}
    expect("events with an example", {line.split()[1] for line in examples}, drawn)
    spelled = forecourt("spell", given="".join(f"{line}, token 0\n" for line in examples))
    told = forecourt("explain", given=spelled.out).out.decode().replace(", token 0", "")
    expect("the examples", told.splitlines(), examples)


@test_each
def sales_of_a_day():
    """The sales of a day and its draws add up to its report, and are the same as JSON."""
    expect("the sales of the paying day", read_table("paying_day"), f"{','.join(TITLES)}\n{PAID}")
    for day in DAYS:
        sales = list(csv.DictReader(read_table(day).splitlines()))
        draws = list(csv.DictReader(read_table(day, "--draws").splitlines()))
        expect(f"{day}: sums", sum_volumes(sales) + sum_volumes(draws), read_report(day))
        for rows, words in ((sales, ["--json"]), (draws, ["--json", "--draws"])):
            objects = [json.loads(line) for line in read_table(day, *words).splitlines()]
            told = [{k: "" if v is None else str(v) for k, v in x.items()} for x in objects]
            expect(f"{day}: {words}", told, rows)
    drawn = "shift,point,product,name,millilitres\n1,1,1,diesel,20000\n"
    expect("the draws of the fuelling day", read_table("fuelling_day", "--draws"), drawn)
    cut = (EXAMPLES / "paying_day.hex").read_text() + "01\n"
    end = forecourt("sales", FIVE_POINTS, given=cut)
    paid = f"{','.join(TITLES)}\n{PAID}".encode()
    expect_end("sales up to a fault", end, 1, paid, advised("fault 44"))
    end = forecourt("sales", FIVE_POINTS, given="", sink="/dev/full")
    expect_end("sales to an output that takes nothing", end, 1, b"", NOT_PRINTED)
    end = forecourt("sales", FIVE_POINTS, given=None, preexec_fn=close_input)
    expect_end("sales on a closed standard input", end, 1, b"", advised("fault 61"))
    end = forecourt("sales", "no_such_file", given="")
    expect_end("sales on no site", end, 1, b"", f"cannot read no_such_file: {NO_FILE}")
    for words in (["sales"], ["sales", FIVE_POINTS, "--csv"], ["spell", FIVE_POINTS]):
        expect_mistake(*words)


TURNED_SITE = """rows = 2
[[product]]
number = 2
name = "petrol"
price = 1799
[[product]]
number = 1
name = "diesel"
price = 1500
[[point]]
number = 1
nozzles = [{product = 1, reading = 0}]
"""
ZERO = "metered 0 running 0 payable 0 locked 0 cleared 0 adjusted 0"
TURNED_REPORT = f"""rows 2
clears 0 cents 0
product 2 petrol {ZERO}
product 1 diesel {ZERO}
shares 0 settled
"""


@test_each
def reports():
    """Reports where memory or a line ends them, and of products in another order."""
    reads = f"{FIRST}\n" + "01010201000300020123\n" * 200_000
    end = forecourt("report", KNOWN_SITE, given=reads, preexec_fn=limit_memory(LEAST_MEMORY))
    expect_end("a report under a memory limit", end, 4, b"", advised("fault 31"))
    # A line that is too long ends it: the rows until then are reported.
    text = "\n".join([*MESSAGES[:2], "#" + " " * LONGEST_LINE, MESSAGES[-1], ""])
    rows = FOLDER / "reports/rows_before_a_fault.out"
    end = forecourt("report", KNOWN_SITE, given=text)
    expect_end("a report until a line that is too long", end, 1, rows, advised("line 3: too long"))
    turned = HERE / "turned.toml"
    turned.write_text(TURNED_SITE)
    end = forecourt("report", turned, given=STORED)
    name = "a report of products that do not stand by number, on a full book"
    expect_end(name, end, 0, TURNED_REPORT.encode())


@test_each
def greatest_site():
    """Till 32 signs on, point 64 is closed, its dispenser reports that it is offline, and no
    node behind the last till's is a till's, nor one behind the last dispenser's a dispenser's."""
    asked = """01 01 02 20 00 41 00 04 01 01 31 00
01 01 02 20 00 03 00 02 01 60
01 01 03 40 00 61 00 04 01 60 61 00
01 01 02 21 00 41 00 04 01 01 31 00
01 01 03 41 00 61 00 04 01 60 61 00
"""
    replied = b"""0220010100e100080101010100030100
022001010023001e016010010211010012010013010072040000000073080000000000000000
0340010100e100080160010100030100
0221010100e100050101010133
0341010100e100050160010133
"""
    end = forecourt("replay", station.GREATEST_SITE, given=asked)
    expect_end("the last point, the last till and the last dispenser", end, 0, replied)


@test_each
def texts_of_a_site():
    """A journal and a chapter of a history name their site file: on another one they are refused,
    and nothing is printed; on their own they are as without. So is each further one behind them,
    of which a replay has printed the replies above it."""
    own, other = (
        hashlib.sha256(site.read_bytes()).hexdigest() for site in (KNOWN_SITE, FIVE_POINTS)
    )
    heads = {
        "journal": "# witsomar journal of site {}\n",
        "history": "# witsomar history 1 chapter 2\n\n# site {}\n# after " + "0" * 64 + "\n",
    }
    rows = STORED.read_text()
    for command in ("replay", "report", "sales", "meters"):
        plain = forecourt(command, KNOWN_SITE, given=rows)
        for text, head in heads.items():
            name = f"{command} of a {text}"
            end = forecourt(command, KNOWN_SITE, given=head.format(own) + rows)
            expect_end(f"{name} of this site", end, 0, plain.out)
            end = forecourt(command, KNOWN_SITE, given=head.format(other) + rows)
            said = f"{text} of another site\n{OWN_SITE}"
            refused = (1, b"", said)
            expect_end(f"{name} of another site", end, *refused)
            for kind, given in {
                "with CRLF": head.format(other).replace("\n", "\r\n") + rows,
                "in upper case": head.format(other.upper()) + rows,
                "behind a comment and empty lines": "# a day\n\n  \r\n" + head.format(other) + rows,
                "without a row": head.format(other),
                "without its line feed": head.split("{}")[0] + other,
            }.items():
                end = forecourt(command, KNOWN_SITE, given=given)
                expect_end(f"{name} of another site, {kind}", end, *refused)
            above = plain.out if command == "replay" else b""
            for kind, given in {
                "below a row": rows + head.format(other),
                "below a row, at its end": rows + head.split("{}")[0] + other,
                "below one of this site": head.format(own) + rows + head.format(other) + rows,
            }.items():
                end = forecourt(command, KNOWN_SITE, given=given)
                name_below = f"{name} of another site, {kind}"
                expect_end(name_below, end, 1, above, said)
            end = forecourt(command, KNOWN_SITE, given="#" * 255 + "\n" + head.format(other) + rows)
            expect_end(f"{name} of another site, below a long comment", end, *refused)
            for kind, given in {
                "with a digit too few": head.format(other[1:]) + rows,
                "behind a space": " " + head.format(other).replace("\n# ", "\n # ") + rows,
                "with other letters": head.format("x" * 64) + rows,
                "of its own, in upper case": head.format(own.upper()) + rows,
            }.items():
                end = forecourt(command, KNOWN_SITE, given=given)
                expect_end(f"{name} named {kind}", end, 0, plain.out)
        comment = f"# site {other}\n"
        end = forecourt(command, KNOWN_SITE, given=comment + rows)
        name = f"{command} of a history without its first line"
        expect_end(name, end, 1, b"", f"history of another site\n{OWN_SITE}")


def fold(path):
    """The lines of a file as they are spelled: hexadecimal without spaces, in lower case."""
    lines = path.read_text().splitlines()
    folded = (line if line[:1] in ("", "#") else line.replace(" ", "").lower() for line in lines)
    return "".join(f"{line}\n" for line in folded).encode()


@test_each
def examples():
    """As examples/README.md says."""
    end = forecourt("check", FIVE_POINTS)
    expect_end("examples: five points", end, 0, b"ok points 5 nozzles 10 products 2\n")
    end = forecourt("check", SIXTY_FOUR_POINTS)
    expect_end("examples: sixty-four points", end, 0, b"ok points 64 nozzles 512 products 8\n")
    for day in DAYS:
        asked, replied = EXAMPLES / f"{day}.hex", EXAMPLES / f"{day}.out"
        end = forecourt("replay", FIVE_POINTS, "--changes", given=asked)
        expect_end(f"examples: {day}", end, 0, replied)
        end = forecourt("explain", given=asked)
        words = EXAMPLES / f"{day}.words"
        told = [line for line in words.read_text().splitlines() if line and line[0] != "#"]
        expect_end(f"examples: {day}, explained", end, 0, "".join(f"{x}\n" for x in told).encode())
        expect_end(f"examples: {day}, spelled", forecourt("spell", given=words), 0, fold(asked))
        end = forecourt("explain", given=replied)
        expect_end(f"examples: the answers of {day}, explained", end, 0, EXAMPLES / f"{day}.told")
    end = forecourt("report", FIVE_POINTS, given=EXAMPLES / "paying_day.hex")
    expect_end("examples: the report of paying_day", end, 0, EXAMPLES / "paying_day.report")


@test_each
def first_screen():
    """The README's first day is the end of its words, with what the site answers to them."""
    words = EXAMPLES / "two_tills.words"
    spelled = forecourt("spell", given=words)
    answered = forecourt("replay", FIVE_POINTS, given=spelled.out)
    told = forecourt("explain", given=answered.out).out.decode().splitlines()
    block = (EXAMPLES.parent / "README.md").read_text().split("```")[1].strip().splitlines()
    asked = words.read_text().splitlines()[-len(block) :]
    pairs = [f"{left:<32} {right}" for left, right in zip(asked, told[-len(block) :])]
    expect("the README's first day", (pairs, len(pairs)), (block, 9))


@test_each
def changes():
    """A replay on the file of the known site is the one without words; with --changes the line
    of an accepted Open follows its reply: a notice to the dispenser of point 3."""
    opened, released = b"030301010080000401233c00\n", b"030301010080000401233e00\n"
    whole = b"".join([*REPLIES[:2], opened, *REPLIES[2:]])
    expect_end(
        "a replay on the file of the known site",
        forecourt("replay", KNOWN_SITE, given=STORED),
        out=ANSWERS,
    )
    end = forecourt("replay", KNOWN_SITE, "--changes", given=STORED)
    expect_end("a replay with changes", end, 0, whole)
    end = forecourt("replay", "--changes", KNOWN_SITE, given=STORED)
    expect_end("the flag before the file", end, 0, whole)
    case = FOLDER / "cases/release_of_an_open_point.hex"
    lines = case.with_suffix(".out").read_bytes().splitlines(keepends=True)
    end = forecourt("replay", KNOWN_SITE, "--changes", given=case)
    expect_end(
        "a release with changes", end, 0, b"".join([*lines[:2], opened, *lines[2:4], released])
    )


PUMP = (
    (station.LIFT, 0, "0301010100e1000e01210101000301027204000005dc"),
    (station.FLOW, 4_000, "0301010100e10012012101010003010373080000000000000fa0"),
    (station.HANG_UP, 10_000, "0301010100e1001601210101000301067308000000000000177074020001"),
)


def play_pump(port):
    """The dispenser of point 1: nozzle 1 is lifted, 10,000 ml flow, and it is hung up. Returns
    its replies."""
    replies = []
    with station.connect(port) as pump:
        for command, reading, wanted in PUMP:
            pump.sendall(station.report(1, 1, command, reading))
            replies.append(station.receive(pump, len(wanted) // 2).hex())
    return replies


@test_each
def a_till_of_the_examples():
    """The till of the examples, at a server; the dispenser of its point is played on a second
    connection, once the till has released the point."""
    words = ["serve", FIVE_POINTS, "--port", "0", "--workers", "2", "--sessions", "2"]
    how = {"stdout": subprocess.PIPE, "stderr": subprocess.PIPE, "text": True}
    with subprocess.Popen([PROGRAM, *words], **how) as server:
        listening = server.stdout.readline()
        port = listening.rpartition(":")[2].strip()
        with subprocess.Popen(
            [sys.executable, EXAMPLES / "till.py", port, "1", "1"], **how
        ) as till:
            released = till.stdout.readline()
            replies = play_pump(int(port))
            out, err = till.communicate(timeout=PATIENCE)
        wanted = (0, "point 1 is released\ncleared 10000 ml for 1500 cents\n", "")
        expect("examples: a till", (till.returncode, released + out, err), wanted)
        report, err = server.communicate(timeout=PATIENCE)
    expect(
        "examples: the dispenser that the till meets", replies, [wanted for _, _, wanted in PUMP]
    )
    expect("examples: where the server listens", listening, f"listening 127.0.0.1:{port}\n")
    rows = report.split()[1]  # how often the till looks at its point is its own affair
    wanted = station.write_report(rows, 2, 1, 1_500, diesel={"metered": 10_000, "cleared": 10_000})
    expect(
        "examples: the report of the day of the till",
        (server.returncode, report, err),
        (0, wanted, ""),
    )


FLOOD = (
    "01 01 02 01 00 41 00 04 01 01 31 00", "01 01 02 02 00 41 00 04 01 01 31 00",
    "01 01 02 01 00 42 00 04 01 21 3C 00", "01 01 02 01 00 43 00 04 01 21 3E 00",
    "01 01 03 01 00 61 00 11 01 21 62 00 70 01 01 71 08 00 00 00 00 00 00 00 00",
    "01 01 03 01 00 62 00 11 01 21 64 00 70 01 01 71 08 00 00 00 00 00 00 27 10",
    "01 01 02 01 00 44 00 07 04 21 21 00 01 80 00", "01 01 02 01 00 45 00 07 04 21 21 00 01 82 00",
    "01 01 02 01 00 46 00 07 04 21 21 00 01 82 00", "01 01 02 02 00 42 00 07 04 21 21 00 01 80 00",
)  # fmt: skip


@test_each
def a_flood():
    """Behind the sale of a day, which is cleared, it is cleared again 10,000 times. Each is
    refused, and the till keeps its one clear."""
    times = 10_000
    flood = "\n".join([*FLOOD, *["01 01 02 01 00 44 00 07 04 21 21 00 01 82 00"] * times, ""])
    end = forecourt(given=flood)
    lines = end.out.splitlines(keepends=True)
    expect("how many replies a flood has", len(lines), len(FLOOD) + times)
    refused = b"0201010100e40012042121000101011602080000000000000001\n"
    expect_end("a flood", end._replace(out=b"".join(lines[-times:])), 0, refused * times)
    wanted = station.write_report(
        len(FLOOD) + times, 0, 1, 1_500, diesel={"metered": 10_000, "cleared": 10_000}
    )
    expect_end(
        "the report of a flood", forecourt("report", KNOWN_SITE, given=flood), 0, wanted.encode()
    )


@test_each
def longest_book():
    """A million rows are made, of a SignOn and of reads; the next message has none."""
    text = "010102010041000401013100\n" + ("01010201000300020123" * 1000 + "\n") * 1000
    end = forecourt("replay", KNOWN_SITE, given=text)
    last = b"".join(end.out.splitlines(keepends=True)[-2:])
    wanted = b"""020101010023001e012310010211010012010013010072040000000073080000000000000000
0201010100e30005012301011e
"""
    expect_end("a message behind a million rows", end._replace(out=last), 0, wanted)
    end = forecourt("report", KNOWN_SITE, given=text)
    expect_end("the report of a million rows", end, 0, station.write_report(1_000_000, 0).encode())


@test_each
def memory_limit():
    """A line of messages whose answers need more memory than there is: want of memory is told,
    and what was written is a front of the answers."""
    text = "010102010041000401013100\n" + "01010201000300020123\n" * 200_000
    whole = forecourt(given=text)
    expect("many messages", (whole.status, whole.err), (0, ""))
    end = forecourt(given=text, preexec_fn=limit_memory(LEAST_MEMORY))
    expect_end("a memory limit", end, 4, whole.out[: len(end.out)], advised("fault 31"))
