"""The commands that print of a history's rows: `replay`, `explain`, `sales` and `report` of its
folder.

What they print of all rows is what the same command prints of the chapters on standard input, on
the folder's site file; that of some shifts is compared with what was worked in them."""

import csv
import json
import os
import shutil
import subprocess

from shared import random_words
from shared.checks import NO_FILE, NOT_PRINTED, advised, expect, no_history, without_folder
from shared.histories import (
    LOCK_FILE, SITE_FILE, chapter_path, is_read, list_chapters, read_chapters, retitle, seal_line,
    time_line, write_chapters, write_history, write_rows,
)  # fmt: skip
from shared.running import run
from shared.serving import start_day
from shared.station import (
    CLEAR, FIVE_POINTS, HANG_UP, KNOWN_SITE, LIFT, LOCK, OPEN, RELEASE, TEST_RELEASE, WRITE, ask,
    command_point, read_site, report, sign_on,
)  # fmt: skip
from tests.built import PROGRAM
from tests.months import address_named_sale
from tests.shifts_worked import CLOSE_IT, cents_of, work_at
from tests.suite import make_folder, start_chance, test

HERE = make_folder()
TIME_TITLES = ",sold at,cleared at"
PRINTS = (  # the commands, with their words
    ["replay"], ["replay", "--changes"], ["sales"], ["sales", "--json"], ["sales", "--draws"],
    ["sales", "--draws", "--json"], ["report"], ["report", "--human"], ["report", "--json"],
    ["meters"], ["meters", "--csv"], ["meters", "--gaps", "--json"],
)  # fmt: skip


def print_of(folder, word, *words, given=b""):
    """What a command that ends well prints of a folder, or of a site file and what is given."""
    end = run(PROGRAM, word, folder, *map(str, words), given=given)
    expect(f"{word} {words}", (end.status, end.err), (0, ""))
    return end.out


def with_unknown_times(word, words, told):
    """What a command prints of a folder without times, by what it prints of a text: a table of
    sales has two columns more."""
    lines = told.decode().splitlines()
    if word != "sales" or "--draws" in words:
        return told
    if "--json" in words:
        sales = [{**json.loads(line), "sold at": None, "cleared at": None} for line in lines]
        lines = [json.dumps(one, sort_keys=True, separators=(",", ":")) for one in sales]
    else:
        lines = [line + more for line, more in zip(lines, [TIME_TITLES] + [",,"] * len(lines))]
    return "".join(f"{line}\n" for line in lines).encode()


def expect_as_text(what, folder):
    """Each command prints of the folder, which has no times, what it prints of its chapters on
    standard input."""
    text = read_chapters(folder)
    for word, *words in PRINTS:
        told = print_of(folder / SITE_FILE, word, *words, given=text)
        wanted = with_unknown_times(word, words, told)
        expect(f"{what}: {word} {words}", print_of(folder, word, *words), wanted)


def explain_text(folder):
    """The rows of a folder in words, by what `explain` says of their requests and replies."""
    text = read_chapters(folder)
    requests = print_of_input("explain", text).splitlines()
    replies = print_of_input("explain", print_of(folder / SITE_FILE, "replay", given=text))
    asked = [line.removesuffix(", token 0") for line in requests]
    told = [line.split(": ", 1)[1] for line in replies.splitlines()]
    expect("as many replies", len(told), len(asked))
    return "".join(f"{one}: {other}\n" for one, other in zip(asked, told))


def print_of_input(word, given):
    end = run(PROGRAM, word, given=given)
    expect(f"{word}", (end.status, end.err), (0, ""))
    return end.out.decode()


def new_folder(name):
    """The name of a folder that isn't there."""
    shutil.rmtree(HERE / name, ignore_errors=True)
    return HERE / name


def start_station(folder):
    command = [PROGRAM, "station", KNOWN_SITE, "--port", 0, "--history", folder]
    return start_day([*map(str, command)], stdin=subprocess.PIPE)


def end(day):
    day.process.stdin.close()
    day.process.stdin = None
    return day.report()


# ---- all rows


def spell_rows(chance, count):
    """The lines of the rows that are kept of so many random requests."""
    words = ["t1 SignOn", "t1 Open 1"]
    while len(words) < count:
        words.append(random_words.choose_event(chance))
    spelled = run(PROGRAM, "spell", given="\n".join(words).encode() + b"\n")
    requests = [bytes.fromhex(line.decode()) for line in spelled.out.splitlines()]
    expect("each is spelled", (spelled.status, len(requests)), (0, count))
    return [write_rows(one) for one in requests if not is_read(one)]


def work_rows(chance, count):
    """The lines of so many sales and draws at points 1 and 2, some of which are cleared, with
    shifts that are closed between them."""
    rows, readings, numbers, unpaid = [sign_on(1)], {1: 0, 2: 0}, {1: 0, 2: 0}, {1: [], 2: []}
    shift = 1
    rows += [command_point(1, 0, point, OPEN) for point in readings]
    for _ in range(count):
        point = chance.choice((1, 2))
        is_test = chance.random() < 0.1
        release = TEST_RELEASE if is_test or len(unpaid[point]) == 2 else RELEASE
        rows.append(command_point(1, 0, point, release))
        rows.append(report(point, 0, LIFT, readings[point]))
        readings[point] += chance.randint(1, 50_000)
        rows.append(report(point, 0, HANG_UP, readings[point]))
        if release == RELEASE:
            numbers[point] += 1
            unpaid[point].append((shift, numbers[point]))
        if unpaid[point] and chance.random() < 0.8:
            named, number = unpaid[point].pop(0)
            address = address_named_sale(point, named, number)
            rows += [ask(1, WRITE, 0, address, (one, b"")) for one in (LOCK, CLEAR)]
        if chance.random() < 0.01 and shift < 900:
            rows.append(CLOSE_IT)
            shift, numbers = shift + 1, {1: 0, 2: 0}
    return [write_rows(one) for one in rows]


def cut_at_random(chance, lines, count):
    """These lines as the bodies of so many chapters."""
    cuts = sorted(chance.randrange(len(lines) + 1) for _ in range(count - 1))
    return [b"".join(lines[a:b]) for a, b in zip([0, *cuts], [*cuts, len(lines)])]


@test
def random_rows(seed):
    """Random rows, cut into chapters at random."""
    chance = start_chance(seed, "random rows")
    for count, lines in ((1, spell_rows(chance, 1_500)), (3, work_rows(chance, 300)),
                         (6, work_rows(chance, 500) + spell_rows(chance, 500))):  # fmt: skip
        bodies = cut_at_random(chance, lines, count)
        folder = write_history(HERE / "random", FIVE_POINTS, *write_chapters(FIVE_POINTS, *bodies))
        expect_as_text(f"{count} chapters", folder)
        words = explain_text(folder)
        expect("words", print_of(folder, "explain").decode(), words)
        with open(list_chapters(folder)[-1], "ab") as file:
            file.write(b"0101020101")
        expect("a torn line", print_of(folder, "explain").decode(), words)
        expect("a torn line's replies", len(print_of(folder, "replay").splitlines()), len(lines))


@test
def many_rows():
    """More rows than are in memory at once, and more than the site file allows a replay. Sales that
    were sold in rows which are forgotten stand as they are at the end."""
    chance = start_chance(0, "many rows")
    bodies = cut_at_random(chance, work_rows(chance, 30_000), 3)
    few = HERE / "few.toml"
    few.write_text("rows = 1024\n" + FIVE_POINTS.read_text())
    folder = write_history(HERE / "many", few, *write_chapters(few, *bodies))
    text = retitle(read_chapters(folder), FIVE_POINTS)
    for word, *words in PRINTS:
        wanted = with_unknown_times(word, words, print_of(FIVE_POINTS, word, *words, given=text))
        expect(f"{word} {words}", print_of(folder, word, *words), wanted)


@test
def no_rows():
    """A history without rows, and one without chapters."""
    for texts in ([], write_chapters(KNOWN_SITE, b""), write_chapters(KNOWN_SITE, b"", b"")):
        folder = write_history(HERE / "no_rows", KNOWN_SITE, *texts)
        expect_as_text(f"{len(texts)} chapters", folder)
        expect("no words", print_of(folder, "explain"), b"")


# ---- some shifts


@test
def rows_of_shifts():
    """What was worked in a shift is printed of it: its replies, its words, its sales with how they
    stand at the history's end, its draws, and the report of what it added. The station runs."""
    folder, sales, draws, told, reports = new_folder("shifts"), [], [], [], []
    with start_station(folder) as day, work_at(day) as work:
        for shift in range(1, 4):
            begin, added = len(work.told), 0
            if shift == 1:
                work.come()
            for number in range(1, 4):
                volume = 10_000 * shift + number
                work.fuel(volume)
                added += volume
                if number < 3:
                    work.collect(number)
                sales.append((shift, number, volume))
            if shift > 1:
                named = address_named_sale(1, shift - 1, 3)
                work.do(work.till, *(ask(1, WRITE, 0, named, (one, b"")) for one in (LOCK, CLEAR)))
            draws.append((shift, 2_000 + shift))
            draw(work, 2_000 + shift)
            cleared = [volume for at, number, volume in sales if (at, number) != (shift, 3)]
            reports.append((added + 2_000 + shift, 10_000 * shift + 3, sum(cleared), 2_000 + shift))
            work.close_shift()
            told.append(work.told[begin:])
        work.ask(work.till, read_site(1, 0))
        for first in range(1, 4):
            for last in range(first, 4):
                word = f"{first}..{last}" if last > first else f"{first}"
                expect_shifts(folder, word, range(first, last + 1), sales, draws, told, reports)
        end(day)


def draw(work, millilitres):
    """A test at point 1: so much diesel is drawn."""
    work.do(work.till, command_point(1, 0, 1, TEST_RELEASE))
    work.lift()
    work.reading += millilitres
    work.do(work.pump, report(1, 0, HANG_UP, work.reading))


def expect_shifts(folder, word, shifts, sales, draws, told, reports):
    """What each command prints of these shifts. Of the reports there is, for each shift, what was
    metered in it, what is payable at its end, what is cleared until then, and what was drawn."""
    rows = [row for shift in shifts for row in told[shift - 1]]
    replies = "".join(f"{reply.hex()}\n" for _, reply in rows)
    expect(f"{word}: replies", print_of(folder, "replay", "--shift", word).decode(), replies)
    begin = sum(len(one) for one in told[: shifts[0] - 1])
    words = explain_text(folder).splitlines()[begin : begin + len(rows)]
    got = print_of(folder, "explain", "--shift", word).decode().splitlines()
    expect(f"{word}: words", got, words)
    lines = list(csv.DictReader(print_of(folder, "sales", "--shift", word).decode().splitlines()))
    wanted = [
        (str(at), str(number), str(volume), "payable" if (at, number) == (3, 3) else "cleared")
        for at, number, volume in sales if at in shifts
    ]  # fmt: skip
    got = [(one["shift"], one["number"], one["millilitres"], one["status"]) for one in lines]
    expect(f"{word}: sales", got, wanted)
    lines = print_of(folder, "sales", "--draws", "--json", "--shift", word).splitlines()
    got = [(one["shift"], one["millilitres"]) for one in map(json.loads, lines)]
    expect(f"{word}: draws", got, [one for one in draws if one[0] in shifts])
    data = json.loads(print_of(folder, "report", "--json", "--shift", word))
    before = reports[shifts[0] - 2] if shifts[0] > 1 else (0, 0, 0, 0)
    product = data["products"][0]
    figures = {name: product[name] for name in ("metered", "payable", "cleared", "adjusted")}
    added = [reports[shift - 1] for shift in shifts]
    expect(f"{word}: figures", figures, {
        "metered": sum(one[0] for one in added), "payable": added[-1][1],
        "cleared": added[-1][2] - before[2], "adjusted": sum(one[3] for one in added),
    })  # fmt: skip
    expect(f"{word}: rows", data["rows"], len(rows))
    cleared = [
        (cents_of(volume), (at if number < 3 else at + 1) in shifts) for at, number, volume in sales
    ]
    wanted = [cents for cents, is_in in cleared if is_in]
    till = data["tills"][0]
    expect(f"{word}: till 1", (till["clears"], till["cents"]), (len(wanted), sum(wanted)))
    lines = print_of(folder, "report", "--shift", word).decode().splitlines()
    expect(f"{word}: the lines", lines[:2], [
        f"rows {len(rows)}", f"clears {len(wanted)} cents {sum(wanted)}"
    ])  # fmt: skip


@test
def whole_ranges():
    """All shifts are the whole history."""
    chance = start_chance(0, "ranges")
    lines = work_rows(chance, 400)
    bodies = cut_at_random(chance, lines, 3)
    folder = write_history(HERE / "ranges", KNOWN_SITE, *write_chapters(KNOWN_SITE, *bodies))
    last = 1 + b"".join(lines).count(write_rows(CLOSE_IT))
    for word, *words in [*PRINTS, ["explain"]]:
        whole = print_of(folder, word, *words)
        expect(f"{word} {words}", print_of(folder, word, *words, "--shift", f"1..{last}"), whole)


@test
def no_shifts():
    """Words that say no shifts, shifts that aren't there, and shifts of what is no history."""
    closes = write_rows(sign_on(1), CLOSE_IT, CLOSE_IT)
    folder = write_history(HERE / "closes", KNOWN_SITE, *write_chapters(KNOWN_SITE, closes))
    for command in ("replay", "explain", "sales", "report"):
        for word in ("0", "1000", "3..2", "..", "1..", "..2", "+1", "-1", "1..+2", "1...2", "", "x",
                     "1..2..3", "01x", " 1", "99999999999"):  # fmt: skip
            said = f"error: '--shift {word}' says no shifts: give one, as 3, or several, as 3..5\n"
            expect_end(command, folder, word, 2, said)
        for word in ("4", "1..4", "4..999"):
            last = word.split("..")[-1]
            expect_end(command, folder, word, 1, f"shift {last} isn't there: shift 3 is open\n")
        for word in ("3", "1..3", "2..2"):
            ended = run(PROGRAM, command, folder, "--shift", word)
            expect(f"{command} {word}", (ended.status, ended.err), (0, ""))
    for command in ("replay", "sales", "report"):
        said = without_folder("--shift") + "\n"
        expect_end(command, KNOWN_SITE, "1", 2, said)
    ended = run(PROGRAM, "explain", "--shift", "1")
    expect("explain alone", (ended.status, ended.out), (2, b""))
    ended = run(PROGRAM, "explain", "20", "--shift", "1")
    expect("explain 20", (ended.status, ended.out), (2, b""))


def expect_end(command, folder, shift, status, said):
    """Of rows that are printed before it is known that a shift isn't there nothing is judged."""
    ended = run(PROGRAM, command, folder, f"--shift={shift}")
    expect(f"{command} --shift {shift!r}", (ended.status, ended.err), (status, said))


# ---- times


class TimedHistory:
    """The bodies of chapters in which sales of point 1 are sold and cleared at these times."""

    def __init__(self):
        self.bodies, self.reading = [b""], 0
        self.add(sign_on(1), command_point(1, 0, 1, OPEN))

    def add(self, *requests):
        self.bodies[-1] += write_rows(*requests)

    def at(self, time):
        self.bodies[-1] += time_line(time)

    def sell(self):
        self.add(command_point(1, 0, 1, RELEASE), report(1, 0, LIFT, self.reading))
        self.reading += 1_000
        self.add(report(1, 0, HANG_UP, self.reading))

    def clear(self, shift, number):
        address = address_named_sale(1, shift, number)
        self.add(*(ask(1, WRITE, 0, address, (one, b"")) for one in (LOCK, CLEAR)))

    def draw(self):
        self.add(command_point(1, 0, 1, TEST_RELEASE), report(1, 0, LIFT, self.reading))
        self.reading += 500
        self.add(report(1, 0, HANG_UP, self.reading))

    def close_shift(self):
        self.add(CLOSE_IT)
        self.bodies.append(b"")

    def write(self, name):
        return write_history(HERE / name, KNOWN_SITE, *write_chapters(KNOWN_SITE, *self.bodies))


EIGHT, FIVE_PAST = "2026-11-27T08:00:00.000Z", "2026-11-27T08:05:00.250Z"
TWENTY_PAST, LAST_OF_DAY = "2026-11-27T08:20:00.000Z", "2026-11-27T23:59:59.999Z"
NEXT_DAY, LATER = "2026-11-28T00:00:00.000Z", "2026-11-29T12:34:56.789Z"
SALES_TIMES = {  # of each sale, by its shift and number, when it was sold and cleared
    (1, 1): (None, FIVE_PAST), (1, 2): (EIGHT, LAST_OF_DAY), (2, 1): (TWENTY_PAST, NEXT_DAY),
    (2, 2): (NEXT_DAY, None), (2, 3): (LATER, LATER),
}  # fmt: skip


def write_times():
    """A history with the sales of `SALES_TIMES`, and draws before the first time and at the last.
    A time that falls is none; the first rows of a chapter are at the last time of the one
    before."""
    made = TimedHistory()
    made.sell()
    made.draw()
    made.at(EIGHT)
    made.sell()
    made.at(FIVE_PAST)
    made.clear(1, 1)
    made.at(TWENTY_PAST)
    made.clear(1, 1)  # refused: it is cleared
    made.close_shift()
    made.sell()
    made.at(LAST_OF_DAY)
    made.clear(1, 2)
    made.at(NEXT_DAY)
    made.clear(2, 1)
    made.at(EIGHT)
    made.sell()
    made.at(LATER)
    made.sell()
    made.clear(2, 3)
    made.draw()
    return made.write("times")


def read_sales(folder, *words):
    """The sales that are printed, by their names, with their times; as CSV and as JSON the same."""
    lines = print_of(folder, "sales", *words).decode().splitlines()
    expect("the titles", lines[0].endswith(TIME_TITLES), True)
    sales = {
        (int(one["shift"]), int(one["number"])): (one["sold at"] or None, one["cleared at"] or None)
        for one in csv.DictReader(lines)
    }  # fmt: skip
    objects = list(map(json.loads, print_of(folder, "sales", "--json", *words).splitlines()))
    expect("as JSON", [(one["shift"], one["number"]) for one in objects], list(sales))
    times = [(one["sold at"], one["cleared at"]) for one in objects]
    expect("the times as JSON", times, list(sales.values()))
    return sales


@test
def times_of_sales():
    """When each sale was sold and cleared."""
    folder = write_times()
    expect("all", read_sales(folder), SALES_TIMES)
    for shift in (1, 2):
        wanted = {name: times for name, times in SALES_TIMES.items() if name[0] == shift}
        expect(f"shift {shift}", read_sales(folder, "--shift", shift), wanted)
    line, = [
        line for line in print_of(folder, "sales").decode().splitlines()
        if line.startswith("1,1,2,")
    ]
    expect("a line's end", line.endswith(f",cleared,1,2,{EIGHT},{LAST_OF_DAY}"), True)


@test
def sales_between():
    """Just those sales are printed whose clear lies between `--from` and `--to`, both included,
    whenever they were sold. One that isn't cleared is none of them."""
    folder = write_times()
    first, second, third, last = (1, 1), (1, 2), (2, 1), (2, 3)
    for words, wanted in (
        (["--from", FIVE_PAST], [first, second, third, last]),
        (["--from", "2026-11-27T08:05:00.251Z"], [second, third, last]),
        (["--to", FIVE_PAST], [first]),
        (["--to", "2026-11-27T08:05:00.249Z"], []),
        (["--from", FIVE_PAST, "--to", FIVE_PAST], [first]),
        (["--from", EIGHT, "--to", EIGHT], []),
        (["--from", TWENTY_PAST, "--to", LAST_OF_DAY], [second]),
        (["--from", LAST_OF_DAY, "--to", NEXT_DAY], [second, third]),
        (["--from", "2026-11-27"], [first, second, third, last]),
        (["--from", "2026-11-27", "--to", "2026-11-27"], [first, second]),
        (["--to", "2026-11-26"], []),
        (["--from", "2026-11-28"], [third, last]),
        (["--from", "2026-11-28", "--to", "2026-11-28"], [third]),
        (["--from", "2026-11-30"], []),
        (["--from", "2026-11-28", "--to", "2026-11-27"], []),
        (["--from", LATER], [last]),
        (["--from", "2026-11-29T12:34:56.790Z"], []),
        (["--from", "2026-11-27T09:05:00.25+01:00", "--to", "2026-11-27T03:05:00.250-05:00"],
         [first]),
        (["--from", "2026-11-27T09:05:00.251+01:00"], [second, third, last]),
        (["--from", "2026-11-27 08:05", "--to", "2026-11-27 08:06"], [first]),
        (["--from", "2026-11-27T08:05:01"], [second, third, last]),
        (["--from", "2026-11-28T00:00", "--to", "2026-11-28T00:00"], [third]),
        (["--from", "2026-11-28T01:00+01:00", "--to", "2026-11-28T00:00:00.000"], [third]),
        (["--to", LATER, "--shift", "2"], [third, last]),
        (["--from", "2026-11-28", "--shift", "1"], []),
    ):  # fmt: skip
        sales = read_sales(folder, *words)
        expect(f"{words}", sales, {name: SALES_TIMES[name] for name in wanted})
    for words, wanted in (
        ([], [1, 2]), (["--from", LATER], [2]), (["--to", LATER], [2]), (["--to", NEXT_DAY], []),
    ):  # fmt: skip
        lines = print_of(folder, "sales", "--draws", *words).decode().splitlines()
        expect(f"draws {words}", [int(line.split(",")[0]) for line in lines[1:]], wanted)


@test
def no_times():
    """Words that say no time."""
    folder = write_times()
    for option in ("--from", "--to"):
        for typed in ("", "x", "2026", "2026-11", "2026-13-01", "2026-11-31", "27.11.2026", "08:00",
                      "2026-11-27T", "2026-11-27T25:00", "2026-11-27T08:00+99:00",
                      "2026-11-27+01:00", "2026-11-27Z", "2026-11-27T08:00[Europe/Berlin]",
                      "2026-11-27T08:00 x", "12026-11-27"):  # fmt: skip
            ended = run(PROGRAM, "sales", folder, f"{option}={typed}")
            said = (
                f"error: '{option} {typed}' says no time: give a date, as 2026-11-27, or a date "
                "and a time, as 2026-11-27T08:00Z\n"
            )
            expect(f"{option} {typed!r}", (ended.status, ended.out, ended.err), (2, b"", said))


# ---- no histories


@test
def faulty_histories():
    """A history with a fault: what is printed before it, and the fault. `sales` and `report` print
    nothing then."""
    bodies = [write_rows(sign_on(1), CLOSE_IT), write_rows(CLOSE_IT), write_rows(CLOSE_IT)]
    texts = write_chapters(KNOWN_SITE, *bodies)
    lines = [text.splitlines(keepends=True) for text in texts]
    edited = b"".join([*lines[1][:3], write_rows(sign_on(2)), *lines[1][4:]])
    read = b"".join([*lines[1][:3], write_rows(read_site(1, 0)), *lines[1][3:]])
    good = write_history(HERE / "faulty", KNOWN_SITE, *texts)
    whole = {one: print_of(good, one) for one in ("replay", "explain", "sales", "report")}
    for what, given, fault, rows in (
        ("a line more", [texts[0], texts[1] + b"x\n"], "chapter 2 line 6", 3),
        ("another row", [texts[0], edited], "chapter 2 line 5", 3),
        ("a read", [texts[0], read], "chapter 2 line 4", 2),
        ("a wrong seal", [texts[0] + seal_line("0" * 64)], "chapter 1 line 7", 2),
        ("no seal", [b"".join(lines[0][:-1]), texts[1]],
         "chapter 2 doesn't go on from chapter 1", 2),
        ("another site", [texts[0].replace(b"# site ", b"# site 0")], "history of another site", 0),
    ):  # fmt: skip
        folder = write_history(HERE / "faulty", KNOWN_SITE, *given)
        for command in ("replay", "explain", "sales", "report"):
            ended = run(PROGRAM, command, folder)
            expect(f"{what}: {command}", (ended.status, ended.err), (1, f"{advised(fault, folder)}\n"))
            wanted = rows if command in ("replay", "explain") else 0
            lines = ended.out.splitlines()
            same = wanted - (what == "another row" and wanted > 0)  # rows that stay as they are
            got = lines[:same], len(lines)
            expect(f"{what}: {command}", got, (whole[command].splitlines()[:same], wanted))
    folder = write_history(HERE / "faulty", KNOWN_SITE, *texts)
    chapter_path(folder, 2).unlink()
    for command in ("replay", "explain", "sales", "report"):
        ended = run(PROGRAM, command, folder)
        wanted = (1, b"", advised("chapter 2 is missing", folder) + "\n")
        expect(f"a chapter is missing: {command}", (ended.status, ended.out, ended.err), wanted)


@test
def no_histories():
    """Folders that are no history's, and outputs that take nothing."""
    nothing = HERE / "nothing"
    nothing.mkdir()
    faulty = write_history(HERE / "no_site", KNOWN_SITE)
    (faulty / SITE_FILE).write_bytes(b"")
    bodies = [write_rows(sign_on(1), *[CLOSE_IT] * 300)]
    good = write_history(HERE / "good", KNOWN_SITE, *write_chapters(KNOWN_SITE, *bodies))
    for command in ("replay", "explain", "sales", "report"):
        for folder, fault in (
            (nothing, no_history(nothing, NO_FILE) + "\n"),
            (faulty, advised("site.toml: fault 72 product", faulty) + "\n"),
        ):
            ended = run(PROGRAM, command, folder)
            got = (ended.status, ended.out, ended.err)
            expect(f"{command} {folder.name}", got, (1, b"", fault))
        ended = run(PROGRAM, command, good, sink="/dev/full")
        expect(f"{command}: a full output", (ended.status, ended.err), (1, f"{NOT_PRINTED}\n"))
    ended = run(PROGRAM, "explain", HERE / "none")
    said = "is no number of a refusal or fault, and no folder that this user may enter"
    got = (ended.status, ended.out, ended.err)
    expect("explain of nothing", got, (2, b"", f"error: '{HERE / 'none'}' {said}\n"))
    before = {path.name: path.read_bytes() for path in good.iterdir()}
    for word, *words in [*PRINTS, ["explain"]]:
        print_of(good, word, *words)
    expect("nothing is changed", {path.name: path.read_bytes() for path in good.iterdir()}, before)
    expect("nothing is locked", (good / LOCK_FILE).exists(), False)


@test
def files_that_are_none():
    """A chapter or a site file that is a pipe, a device or a folder isn't read."""
    bodies = [write_rows(sign_on(1), CLOSE_IT)]
    texts = write_chapters(KNOWN_SITE, *bodies)
    for name in (SITE_FILE, "000001.journal"):
        for make in (os.mkfifo, os.mkdir, lambda path: os.symlink("/dev/zero", path)):
            folder = write_history(HERE / "none", KNOWN_SITE, *texts)
            (folder / name).unlink()
            make(folder / name)
            for command in ("replay", "explain", "sales", "report", "shifts", "next"):
                ended = run(PROGRAM, command, folder)
                got = (ended.status, ended.out, ended.err)
                said = f"cannot read {folder}/{name}: not a regular file\n"
                expect(f"{command} {name}", got, (1, b"", said))
