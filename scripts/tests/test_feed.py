"""Rows as JSON: `forecourt replay FOLDER --json`. What is expected is in docs/PAGE.md: Rows as
JSON, and is worked out by hand from its tables."""

import json

from shared.checks import advised, expect, expect_end, without_folder
from shared.histories import time_line, write_chapters, write_history, write_rows
from shared.running import run
from shared.station import KNOWN_SITE
from tests.built import PROGRAM
from tests.suite import make_folder, test

HERE = make_folder()
MORNING, NOON = "2026-11-27T08:00:12.345Z", "2026-11-27T12:00:00.000Z"


def sale(number, shift, millilitres, cents, status):
    return {
        "cents": cents, "millilitres": millilitres, "number": number, "shift": shift,
        "status": status,
    }  # fmt: skip


# What is asked, the reply, the point that it names with its state after it, and the sale that it
# makes or changes. Diesel is 1,500 mills a litre.
FIRST_SHIFT = [
    ("t1 SignOn", "Done"),
    ("t1 Open 1", "Done", 1, "idle"),
    ("t1 Release 1", "Done", 1, "authorised"),
    ("d1 Lift 1 1@0", "Start{Unset, 1500}", 1, "started"),
    ("d1 HangUp 1 1@10000", "Sold{1, 10000}", 1, "idle", sale(1, 1, 10_000, 1_500, "payable")),
    ("t2 SignOn", "Done"),
    ("t2 Lock 1/1", "Locked", 1, "idle", sale(1, 1, 10_000, 1_500, "locked")),
    ("t1 Clear 1/1", "20 LockedByOther(2)", 1, "idle"),
    ("t2 Unlock 1/1", "Unlocked", 1, "idle", sale(1, 1, 10_000, 1_500, "payable")),
    ("t1 Lock 1/1", "Locked", 1, "idle", sale(1, 1, 10_000, 1_500, "locked")),
    ("t1 Release 1 volume 3000", "Done", 1, "authorised"),
    ("d1 Lift 1 1@10000", "Start{Volume(3000), 1500}", 1, "started"),
    ("d1 Flow 1 1@11000", "Flowed(1000)", 1, "fuelling"),
    ("t1 Suspend 1", "Done", 1, "suspended fuelling"),
    ("d1 HangUp 1 1@13000", "Sold{2, 2000}", 1, "idle", sale(2, 1, 3_000, 450, "payable")),
    ("t1 Open 9", "3 NoSuchPoint", 9, None),
    ("t1 Close 2", "10 WrongState(closed)", 2, "closed"),
    ("t1 CloseShift", "ShiftClosed(1)"),
]
SECOND_SHIFT = [
    ("t1 Clear 1/1/1", "Cleared(1500)", 1, "idle", sale(1, 1, 10_000, 1_500, "cleared")),
    ("t1 Clear 1/1/1", "22 AlreadyCleared(1)", 1, "idle"),
    ("t1 SetPrice 1 1600", "Done"),
    ("t2 Prepay 1 2000", "Done", 1, "authorised"),
    ("d1 Lift 1 1@13000", "Start{Money(2000), 1600}", 1, "started"),
    ("d1 HangUp 1 1@23000", "Sold{1, 10000}", 1, "idle", sale(1, 2, 10_000, 1_600, "locked")),
    ("d1 Lift 1 1@99", "17 MeterGap(23000)", 1, "idle"),
    ("t2 SignOff", "Done"),
    ("d1 Offline 1", "Done", 1, "inoperative"),
]


def line(number, time, words, reply, point=None, state=None, sold=None):
    """The line of a row: its members in the order of their names, without spaces."""
    actor, event = words.split(" ", 1)
    told = {"actor": actor, "at": time, "event": event, "reply": reply, "row": number}
    told |= {"point": point} if point else {}
    told |= {"state": state} if state else {}
    told |= {"sale": sold} if sold else {}
    return json.dumps(told, sort_keys=True, separators=(",", ":")) + "\n"


def lines():
    """The lines of the history."""
    morning = [line(n, MORNING, *row) for n, row in enumerate(FIRST_SHIFT)]
    noon = [line(n, NOON, *row) for n, row in enumerate(SECOND_SHIFT, len(FIRST_SHIFT))]
    return morning + noon


def requests(rows):
    """The lines of a chapter for what is asked in these rows."""
    words = "".join(f"{row[0]}\n" for row in rows)
    spelled = run(PROGRAM, "spell", given=words.encode()).out.decode().split()
    return write_rows(*map(bytes.fromhex, spelled))


def make_history(name):
    """A history of two chapters, a shift in each, with their times."""
    bodies = time_line(MORNING) + requests(FIRST_SHIFT), time_line(NOON) + requests(SECOND_SHIFT)
    return write_history(HERE / name, KNOWN_SITE, *write_chapters(KNOWN_SITE, *bodies))


def replay(folder, *words):
    return run(PROGRAM, "replay", folder, "--json", *map(str, words))


def joined(some):
    return "".join(some).encode()


@test
def each_row_is_told_as_json():
    """Who asked what, the reply, the number, the time; point and state where a point is named, the
    sale where one is made or changed."""
    example = (
        '{"actor":"d1","at":"2026-11-27T08:00:12.345Z","event":"HangUp 1 1@10000","point":1,'
        '"reply":"Sold{1, 10000}","row":4,"sale":{"cents":1500,"millilitres":10000,"number":1,'
        '"shift":1,"status":"payable"},"state":"idle"}\n'
    )
    expect("the line of a sale", lines()[4], example)
    expect_end("all rows", replay(make_history("all")), 0, joined(lines()))


@test
def rows_from_a_number_on():
    """Each number that there is, and the next one; one ahead of that is refused."""
    folder, told = make_history("from"), lines()
    for number in range(len(told) + 1):
        ended = replay(folder, "--from", number)
        expect_end(f"from {number}", ended, 0, joined(told[number:]))
    last = len(told)
    refused = f"row {last + 1} isn't there: row {last} is next"
    expect_end("ahead", replay(folder, "--from", last + 1), 1, b"", refused)
    greatest = 2**64 - 1
    refused = f"row {greatest} isn't there: row {last} is next"
    expect_end("far ahead", replay(folder, "--from", greatest), 1, b"", refused)


@test
def rows_of_a_shift():
    """Numbers count over all shifts."""
    folder, told, count = make_history("shift"), lines(), len(FIRST_SHIFT)
    expect_end("shift 1", replay(folder, "--shift", 1), 0, joined(told[:count]))
    expect_end("shift 2", replay(folder, "--shift", 2), 0, joined(told[count:]))
    both = replay(folder, "--shift", 2, "--from", count + 3)
    expect_end("both", both, 0, joined(told[count + 3 :]))


@test
def words_are_those_of_explain():
    """Event and reply are told in the words that `explain` prints."""
    folder = make_history("words")
    told = [json.loads(text) for text in replay(folder).out.decode().splitlines()]
    words = "".join(f"{row['actor']} {row['event']}: {row['reply']}\n" for row in told)
    expect_end("explained", run(PROGRAM, "explain", folder), 0, words.encode())


@test
def rows_without_a_time():
    """Where a history tells no time, `at` is null."""
    body = requests(FIRST_SHIFT)
    folder = write_history(HERE / "timeless", KNOWN_SITE, *write_chapters(KNOWN_SITE, body))
    told = [line(n, None, *row) for n, row in enumerate(FIRST_SHIFT)]
    expect_end("told", replay(folder), 0, joined(told))


@test
def replies_from_a_number_on():
    """`--from` without `--json`: the replies to the rows from that one on."""
    folder = make_history("replies")
    whole = run(PROGRAM, "replay", folder).out.splitlines(keepends=True)
    expect("a reply a row", len(whole), len(lines()))
    ended = run(PROGRAM, "replay", folder, "--from", "20")
    expect_end("from 20", ended, 0, b"".join(whole[20:]))


@test
def what_says_no_row():
    """Numbers as they are written otherwise, and words."""
    folder = make_history("mistakes")
    for word in ("", "one", "+1", "-1", "01", "1.0", " 1", str(2**64)):
        said = f"error: '--from {word}' says no row: give its number, as 0"
        expect_end(f"--from {word}", replay(folder, f"--from={word}"), 2, b"", said)


@test
def options_of_a_folder():
    """Neither option is for what standard input records."""
    for word in ("--json", "--from=0"):
        name = word.split("=")[0]
        said = without_folder(name)
        expect_end(word, run(PROGRAM, "replay", KNOWN_SITE, word), 2, b"", said)


@test
def a_history_with_a_fault():
    """Rows before a fault of the history are told."""
    bodies = time_line(MORNING) + requests(FIRST_SHIFT[:3]) + b"nothing\n"
    folder = write_history(HERE / "fault", KNOWN_SITE, *write_chapters(KNOWN_SITE, bodies))
    told = [line(n, MORNING, *row) for n, row in enumerate(FIRST_SHIFT[:3])]
    expect_end("told", replay(folder), 1, joined(told), advised("chapter 1 line 8", folder))
