"""Seals, times and stories of histories: `verify`, `explain --times` and `story` of a folder.

The histories are written here, with seals that hashlib computes. Which fault a changed one has is
judged here by what docs/PROGRAM.md says of a chapter's text; a start has to refuse it with the same
fault."""

import re
import subprocess
import typing

from shared.checks import (
    NO_FILE, NOT_PRINTED, advised, expect, first_line, no_history, without_folder,
)  # fmt: skip
from shared.histories import (
    FIRST_LINES, LOCK_FILE, NO_SEAL, SITE_FILE, chapter_path, first_lines, seal_line, seal_of,
    write_history, write_rows,
)  # fmt: skip
from shared.running import run
from shared.serving import start_day, wait_until
from shared.station import KNOWN_SITE
from tests.built import PROGRAM
from tests.shifts_worked import work_at
from tests.suite import make_folder, start_chance, test

HERE = make_folder()
SEAL, SITE_LINE = b"# seal ", 2
NO_TIME = "-".ljust(24)
VERIFIED = r"chapters \d+ rows {rows} seals \d+ last [0-9a-f]{{64}} from \S+ to \S+"
HEXADECIMAL = re.compile(rb"([0-9A-Fa-f]{2}){8,}")


def spell(*words):
    """The requests that these words ask for, as the lines of their rows."""
    spelled = run(PROGRAM, "spell", given="".join(f"{one}\n" for one in words).encode())
    expect("spelled", (spelled.status, spelled.err), (0, ""))
    return [write_rows(bytes.fromhex(line.decode())) for line in spelled.out.splitlines()]


def make_time(second):
    return f"2026-11-27T{second // 3600:02d}:{second // 60 % 60:02d}:{second % 60:02d}.345Z"


class Place(typing.NamedTuple):
    """Where a seal stands."""

    seal: str
    chapter: int
    line: int


class Chapters:
    """The texts of a history's chapters, written line after line, and the places of its seals."""

    def __init__(self, site=KNOWN_SITE):
        self.site, self.texts, self.places = site, [], []
        self.seal, self.covered = NO_SEAL, b""
        self.begin()

    def begin(self):
        """The next chapter."""
        self.texts.append(b"")
        self.put(first_lines(self.site, len(self.texts), self.seal))

    def put(self, *lines):
        for one in lines:
            self.texts[-1] += one
            self.covered += one

    def tell(self, second):
        self.put(f"# at {make_time(second)}\n".encode())

    def end(self):
        """A seal."""
        self.seal, self.covered = seal_of(self.seal, self.covered), b""
        self.texts[-1] += seal_line(self.seal)
        line = self.texts[-1].count(b"\n")
        self.places.append(Place(self.seal, len(self.texts), line))

    def write(self, name="history"):
        return write_history(HERE / name, self.site, *self.texts)

    def summary(self, rows, first, last):
        """What `verify` prints of them."""
        chapters, seals = len(self.texts), len(self.places)
        counts = f"chapters {chapters} rows {rows} seals {seals}"
        return f"{counts} last {self.seal} from {first} to {last}\n"


# ---- which fault a text has


def find_faults(texts, rows, site=KNOWN_SITE):
    """The faults that may be named first in these chapters: one, or two where a line of a row was
    changed, since it may still be a row; then the next seal is wrong. None is no fault."""
    seal, covered, torn, faults = NO_SEAL, b"", b"", set()
    for number, text in enumerate(texts, 1):
        if covered or torn:
            return faults | {name_break(number)}
        begins = first_lines(site, number, seal).splitlines(keepends=True)
        for place in range(FIRST_LINES):
            if not text.startswith(b"".join(begins[: place + 1])):
                return faults | {name_first(number, place + 1)}
        covered = b"".join(begins)
        *lines, torn = text[len(covered) :].split(b"\n")
        for place, line in enumerate(lines, FIRST_LINES + 1):
            fault = f"chapter {number} line {place}"
            if line.startswith(SEAL):
                seal, covered = seal_of(seal, covered), b""
                if line + b"\n" != seal_line(seal):
                    return faults | {fault}
                continue
            if not line.startswith(b"#") and line + b"\n" not in rows:
                faults = faults | {fault}
                if not HEXADECIMAL.fullmatch(line):
                    return faults
            covered += line + b"\n"
    return faults | {None}


def name_break(number):
    return f"chapter {number} doesn't go on from chapter {number - 1}"


def name_first(number, line):
    """The fault of a chapter of which this is the first line that isn't as it should be."""
    if line == SITE_LINE:
        return "history of another site"
    is_break = line == FIRST_LINES and number > 1
    return name_break(number) if is_break else f"chapter {number} line {line}"


def verify(folder, *words):
    return run(PROGRAM, "verify", folder, *words)


def expect_fault(what, texts, rows, starts=True):
    """`verify` names the fault of these chapters, and so does a start. Returns it."""
    faults = find_faults(texts, rows)
    folder = write_history(HERE / "changed", KNOWN_SITE, *texts)
    ended = verify(folder)
    if ended.status == 0:
        expect(f"{what}: a fault", None in faults, True)
        return None
    fault = first_line(ended.err).removesuffix("\n")
    expect(f"{what}: {fault} of {faults}", (fault in faults, ended.out), (True, b""))
    said = [advised(fault, folder, chapter) + "\n" for chapter in range(1, len(texts) + 1)]
    expect(f"{what}: what to do: {ended.err}", ended.err in said, True)
    expect(f"{what}: the status", ended.status, 1)
    if starts:
        start = run(PROGRAM, "station", "--port", "0", "--history", folder)
        expect(f"{what}: a start", (start.status, start.err), (1, ended.err))
    return fault


def small_chapters():
    """Three small chapters, and the lines of their rows."""
    rows = spell("t1 SignOn", "t1 Open 1", "t1 Release 1", "t1 CloseShift", "t1 Terminate 1")
    chapters = Chapters()
    for number in range(3):
        if number:
            chapters.begin()
        chapters.tell(10 * number)
        chapters.put(rows[0] if number == 0 else rows[2], rows[1])
        chapters.end()
        chapters.tell(10 * number + 1)
        chapters.put(rows[4], rows[3])
        chapters.end()
    return chapters, rows


# ---- verify


@test
def whole_histories():
    """What `verify` prints of histories without a fault, and where it says that a seal stands."""
    chapters, _ = small_chapters()
    folder = chapters.write()
    summary = chapters.summary(12, make_time(0), make_time(21))
    ended = verify(folder)
    expect("three chapters", (ended.status, ended.out.decode(), ended.err), (0, summary, ""))
    for seal, chapter, line in chapters.places:
        for word in (seal, seal.upper()):
            ended = verify(folder, "--seal", word)
            wanted = f"{summary}seal {seal} is that of chapter {chapter} line {line}\n"
            expect("a seal", (ended.status, ended.out.decode(), ended.err), (0, wanted, ""))
    for seal in (NO_SEAL, "f" * 64, seal_of(chapters.seal, b"")):
        ended = verify(folder, "--seal", seal)
        wanted = f"{summary}seal {seal} isn't in the history\n"
        expect("no seal", (ended.status, ended.out.decode(), ended.err), (1, wanted, ""))
    for word in ("", "0", "0" * 63, "0" * 65, "g" * 64, "0x" + "0" * 62, " " + "0" * 63):
        ended = verify(folder, f"--seal={word}")
        said = f"error: '--seal {word}' says no seal: give 64 hexadecimal digits\n"
        expect(f"--seal {word!r}", (ended.status, ended.out, ended.err), (2, b"", said))
    expect("nothing is locked", (folder / LOCK_FILE).exists(), False)
    ended = run(PROGRAM, "verify", folder, sink="/dev/full")
    expect("a full output", (ended.status, ended.err), (1, f"{NOT_PRINTED}\n"))


@test
def few_rows():
    """Histories without chapters, without rows, without times, and without seals."""
    rows = spell("t1 SignOn", "t1 SignOff", "t1 SignOn")
    empty = write_history(HERE / "empty", KNOWN_SITE)
    said = f"chapters 0 rows 0 seals 0 last {NO_SEAL} from - to -\n"
    expect("no chapters", read_summary(empty), (said, ""))
    chapters = Chapters()
    expect("no rows", read_summary(chapters.write()), (chapters.summary(0, "-", "-"), ""))
    chapters.put(*rows)
    said = chapters.summary(3, "-", "-"), "rows after the last seal: 3\n"
    expect("no seals", read_summary(chapters.write()), said)
    chapters.end()
    expect("no times", read_summary(chapters.write()), (chapters.summary(3, "-", "-"), ""))
    chapters.tell(5)
    chapters.put(rows[1])
    said = chapters.summary(4, "-", make_time(5)), "rows after the last seal: 1\n"
    expect("a time behind", read_summary(chapters.write()), said)
    chapters.tell(6)
    chapters.end()
    said = chapters.summary(4, "-", make_time(5)), ""
    expect("a time of no row", read_summary(chapters.write()), said)
    chapters.begin()
    chapters.end()
    chapters.tell(4)
    chapters.put(rows[0])
    chapters.tell(7)
    chapters.put(b"# at noon\n", rows[1])
    said = chapters.summary(6, "-", make_time(7)), "rows after the last seal: 2\n"
    expect("a time that falls", read_summary(chapters.write()), said)


def read_summary(folder):
    ended = verify(folder)
    expect("verified", ended.status, 0)
    return ended.out.decode(), ended.err


@test
def times_never_fall():
    """A row behind a time that falls has the last time that didn't."""
    rows = spell("t1 SignOn", "t1 Open 1", "t1 Open 2")
    chapters = Chapters()
    for second, row in zip((50, 40, 60), rows):
        chapters.tell(second)
        chapters.put(row)
    chapters.end()
    folder = chapters.write()
    summary = chapters.summary(3, make_time(50), make_time(60))
    expect("summary", read_summary(folder), (summary, ""))
    lines = run(PROGRAM, "explain", folder, "--times").out.decode().splitlines()
    expect("times", [line[:24] for line in lines], [make_time(one) for one in (50, 50, 60)])


@test
def changed_octets():
    """Each octet of the second of three chapters changed, to its neighbour, to a letter, to a line
    feed, and left out: `verify` names the chapter and the line, and so does a start, which is tried
    with the neighbours."""
    chapters, rows = small_chapters()
    whole, count = chapters.texts[1], 0
    for place, octet in enumerate(whole):
        for new in (bytes([octet ^ 1]), b"x", b"\n", b""):
            if new == bytes([octet]):
                continue
            text = whole[:place] + new + whole[place + 1 :]
            what = f"octet {place} is {new}"
            texts = [chapters.texts[0], text, chapters.texts[2]]
            fault = expect_fault(what, texts, rows, starts=new == bytes([octet ^ 1]))
            expect(f"{what}: a fault", fault is None, False)
            count += 1
    return count


@test
def changed_lines():
    """Each line of each chapter left out, doubled, exchanged with the next one, and moved to the
    end of its chapter."""
    chapters, rows = small_chapters()
    noticed = 0
    for number, text in enumerate(chapters.texts):
        lines = text.splitlines(keepends=True)
        for place, line in enumerate(lines):
            before, behind = lines[:place], lines[place + 1 :]
            for what, new in (
                ("left out", [*before, *behind]), ("doubled", [*before, line, line, *behind]),
                ("exchanged", [*before, *behind[:1], line, *behind[1:]]),
                ("moved", [*before, *behind, line]),
            ):  # fmt: skip
                texts = [*chapters.texts]
                texts[number] = b"".join(new)
                if texts[number] == text:
                    continue
                what = f"chapter {number + 1} line {place + 1} is {what}"
                fault = expect_fault(what, texts, rows)
                # The last seal of all may be left out: no other one covers it.
                is_last = number == 2 and place == len(lines) - 1
                expect(f"{what}: a fault", fault is None, is_last and len(new) < len(lines))
                noticed += fault is not None
    return noticed


@test
def changed_chapters():
    """Two chapters exchanged, one left out, one twice, and one of another history."""
    chapters, rows = small_chapters()
    one, two, three = chapters.texts
    other = Chapters()
    other.put(*rows[:2])
    other.end()
    for what, texts, fault in (
        ("1 and 2", [two, one, three], "chapter 1 line 1"),
        ("2 and 3", [one, three, two], "chapter 2 line 1"),
        ("1 and 3", [three, two, one], "chapter 1 line 1"),
        ("without 2", [one, three], "chapter 2 line 1"),
        ("2 again", [one, two, two], "chapter 3 line 1"),
        ("another 1", [*other.texts, two, three], name_break(2)),
    ):
        expect(what, expect_fault(what, texts, rows), fault)
    folder = chapters.write()
    chapter_path(folder, 2).unlink()
    ended = verify(folder)
    said = advised("chapter 2 is missing", folder) + "\n"
    expect("a number is left out", (ended.status, ended.out, ended.err), (1, b"", said))
    folder = chapters.write()
    (folder / SITE_FILE).write_bytes(KNOWN_SITE.read_bytes() + b"\n")
    ended = verify(folder)
    said = advised("history of another site", folder) + "\n"
    expect("another site", (ended.status, ended.out, ended.err), (1, b"", said))
    (folder / SITE_FILE).unlink()
    ended = verify(folder)
    said = no_history(folder, NO_FILE) + "\n"
    expect("no site", (ended.status, ended.out, ended.err), (1, b"", said))


@test
def cut_tails():
    """A cut end: `verify` alone can't know, but with a seal that was noted before it does. A cut
    line is said, and how many rows no seal covers."""
    chapters, rows = small_chapters()
    last, noted = chapters.texts[2], chapters.seal
    lines = last.splitlines(keepends=True)
    for size in range(len(b"".join(lines[:FIRST_LINES])), len(last)):
        text = last[:size]
        folder = write_history(HERE / "cut", KNOWN_SITE, *chapters.texts[:2], text)
        *whole, torn = text.split(b"\n")
        seals = [one for one in chapters.places if one.chapter < 3 or one.line <= len(whole)]
        behind = whole[seals[-1].line :] if seals[-1].chapter == 3 else whole
        read = 8 + sum(line + b"\n" in rows for line in whole)
        uncovered = sum(line + b"\n" in rows for line in behind)
        ended = verify(folder, "--seal", noted)
        said = f"rows after the last seal: {uncovered}\n" if uncovered else ""
        said += f"octets of an unfinished last line: {len(torn)}\n" if torn else ""
        expect(f"{size} octets", (ended.status, ended.err), (1, said))
        first, second = ended.out.decode().splitlines()
        front = f"chapters 3 rows {read} seals {len(seals)} last {seals[-1].seal} from "
        expect(f"{size} octets: the summary", first[: len(front)], front)
        expect(f"{size} octets: the seal", second, f"seal {noted} isn't in the history")
        seal, chapter, line = seals[-1]
        told = verify(folder, "--seal", seal).out.decode().splitlines()[1]
        wanted = f"seal {seal} is that of chapter {chapter} line {line}"
        expect(f"{size} octets: an earlier seal", told, wanted)


@test
def running_station():
    """A station's folder while it runs, and after its end: a seal that was noted in its first shift
    stays there."""
    folder = HERE / "station"
    command = [PROGRAM, "station", KNOWN_SITE, "--port", 0, "--history", folder]
    with start_day([*map(str, command)], stdin=subprocess.PIPE) as day, work_at(day) as work:
        work.come()
        for number in range(1, 4):
            work.fuel(1_000 * number)
            work.collect(1)
            expect_verified(folder, len(work.told))
            work.close_shift()
            wait_until("a chapter's end", chapter_path(folder, number + 1).exists)
            noted = read_last_seal(chapter_path(folder, 1))
            expect_verified(folder, len(work.told), noted)
        day.process.stdin.close()
        day.process.stdin = None
        day.report()
    expect_verified(folder, len(work.told) + 1, noted)  # and the till's sign-off


def read_last_seal(path):
    """The seal that is the last line of a closed chapter."""
    lines = path.read_text().splitlines()
    return Place(lines[-1].removeprefix("# seal "), 1, len(lines))


def expect_verified(folder, rows, noted=None):
    """So many rows are verified in a folder of a station, which has a seal that was noted."""
    ended = verify(folder, *(["--seal", noted.seal] if noted else []))
    expect("a status", ended.status, 0)
    first, *others = ended.out.decode().splitlines()
    is_told = re.fullmatch(VERIFIED.format(rows=rows), first) is not None
    expect(f"{rows} rows: {first}", is_told, True)
    said = f"seal {noted.seal} is that of chapter 1 line {noted.line}" if noted else ""
    expect("the seal", others, [said] if noted else [])


# ---- times and stories

# A day: second, request and reply. The rows that stand in the story of sale 1/1/1 are marked.
DAY = (
    ("", None, "t1 SignOn", "Done"), ("", None, "t2 SignOn", "Done"),
    ("", 1, "t1 Open 1", "Done"), ("", 1, "t1 Open 2", "Done"),
    ("", 2, "t1 Release 1", "Done"), ("", 3, "t1 Terminate 1", "Stopped"),
    ("", 4, "d1 Lift 1 1@0", "Calling"), ("", 4, "d2 Lift 2 1@0", "Calling"),
    ("*", 5, "t1 Release 1 money 5000", "Done"), ("", 5, "t2 Release 2", "Done"),
    ("*", 6, "t2 Assign 1", "11 AssignedToOther(1)"),
    ("*", 6, "t1 Release 1", "10 WrongState(started)"),
    ("*", 7, "d1 Flow 1 1@4000", "Flowed(4000)"), ("", 7, "d2 Flow 2 1@4000", "Flowed(4000)"),
    ("*", 8, "t2 Lock 1/1", "6 NoSuchTransaction"), ("", 8, "t2 SignOff", "Done"),
    ("*", 9, "d1 HangUp 1 1@10000", "Sold{1, 6000}"),
    ("", 9, "d2 HangUp 2 1@10000", "Sold{1, 6000}"), ("", 10, "t2 SignOn", "Done"),
    ("*", 10, "t1 Clear 1/1", "21 NotLocked"), ("*", 11, "t2 Lock 1/1/1", "Locked"),
    ("", 11, "t2 Lock 2/1", "Locked"), ("", 12, "t1 Release 1", "Done"),
    ("*", 12, "t1 Lock 1/1", "20 LockedByOther(2)"), ("", 13, "t1 CloseShift", "ShiftClosed(1)"),
    ("", 13, "t2 Unlock 1/1", "6 NoSuchTransaction"), ("*", 14, "t2 Unlock 1/1/1", "Unlocked"),
    ("", 14, "d1 Lift 1 1@10000", "Start{Unset, 1500}"),
    ("", 15, "d1 HangUp 1 1@12000", "Sold{1, 2000}"),
    ("", 15, "t1 Lock 1/1", "Locked"), ("", 15, "t1 Clear 1/2/1", "Cleared(300)"),
    ("*", 16, "t1 Lock 1/1/1", "Locked"), ("*", 17, "t1 Clear 1/1/1", "Cleared(1500)"),
    ("", 18, "t2 Clear 2/1/1", "Cleared(1500)"),
    ("*", 19, "t2 Lock 1/1/1", "22 AlreadyCleared(1)"),
)  # fmt: skip


def day_chapters():
    """The day as two chapters, and its lines with their times."""
    chapters, told, lines = Chapters(), None, []
    spelled = spell(*(request for _, _, request, _ in DAY))
    for (mark, second, request, reply), line in zip(DAY, spelled):
        if second != told:
            chapters.tell(second)
            told = second
        chapters.put(line)
        time = NO_TIME if second is None else make_time(second)
        lines.append((mark, f"{time} {request}: {reply}"))
        if request == "t1 CloseShift":
            chapters.end()
            chapters.begin()
    chapters.end()
    return chapters, lines


def print_of(word, folder, *words):
    ended = run(PROGRAM, word, folder, *words)
    expect(f"{word} {words}", (ended.status, ended.err), (0, ""))
    return ended.out.decode()


@test
def times_of_rows():
    """`explain --times` of a day, of all of its rows and of a shift; it is for a folder alone."""
    chapters, lines = day_chapters()
    folder = chapters.write()
    texts = [f"{line}\n" for _, line in lines]
    expect("all rows", print_of("explain", folder, "--times"), "".join(texts))
    bare = [text[25:] for text in texts]
    expect("without times", print_of("explain", folder), "".join(bare))
    closed = next(place for place, text in enumerate(texts) if "CloseShift" in text)
    got = print_of("explain", folder, "--times", "--shift", "2")
    expect("shift 2", got, "".join(texts[closed + 1 :]))
    said = without_folder("--times") + "\n"
    for words in (["--times"], ["20", "--times"]):
        ended = run(PROGRAM, "explain", *words)
        expect(f"{words}", (ended.status, ended.out, ended.err), (2, b"", said))
    for word in ("from", "to"):
        ended = run(PROGRAM, "sales", KNOWN_SITE, f"--{word}", "2026-11-27")
        said = without_folder(f"--{word}") + "\n"
        expect(word, (ended.status, ended.out, ended.err), (2, b"", said))


@test
def story_of_a_sale():
    """The rows of one sale of a day, and of sales that weren't made."""
    chapters, lines = day_chapters()
    folder = chapters.write()
    wanted = "".join(f"{line}\n" for mark, line in lines if mark)
    for word in ("1/1/1", "01/001/0001"):
        expect(word, print_of("story", folder, word), wanted)
    got = print_of("story", folder, "1/2/1").splitlines()
    expect("1/2/1", [line[25:] for line in got], [
        "t1 Release 1: Done", "t1 Lock 1/1: 20 LockedByOther(2)",
        "t2 Unlock 1/1: 6 NoSuchTransaction", "t2 Unlock 1/1/1: Unlocked",
        "d1 Lift 1 1@10000: Start{Unset, 1500}", "d1 HangUp 1 1@12000: Sold{1, 2000}",
        "t1 Lock 1/1: Locked", "t1 Clear 1/2/1: Cleared(300)",
    ])  # fmt: skip
    for word in ("1/1/2", "2/2/1", "1/3/1", "64/999/9999"):
        ended = run(PROGRAM, "story", folder, word)
        said = f"no sale {word}: forecourt sales lists them all\n"
        expect(word, (ended.status, ended.out, ended.err), (1, b"", said))
    for word in ("", "1", "1/1", "1/1/1/1", "0/1/1", "65/1/1", "1/0/1", "1/1000/1", "1/1/0",
                 "1/1/10000", "+1/1/1", "1/+1/1", "1/1/+1", "-1/1/1", "1/1/x", "1//1", " 1/1/1",
                 "257/1/1"):  # fmt: skip
        ended = run(PROGRAM, "story", folder, "--", word)
        said = f"error: '{word}' says no sale: give its point, shift and number, as 3/2/17\n"
        expect(f"{word!r}", (ended.status, ended.out, ended.err), (2, b"", said))


@test
def story_before_a_fault():
    """Of a history with a fault nothing is printed but the fault, also of a sale ahead of it."""
    chapters = day_chapters()[0]
    folder = write_history(HERE / "faulty", KNOWN_SITE, *chapters.texts)
    with open(chapter_path(folder, 2), "ab") as file:
        file.write(b"x\n")
    line = chapters.texts[1].count(b"\n") + 1
    ended = run(PROGRAM, "story", folder, "1/1/1")
    got = ended.status, ended.out, ended.err
    said = advised(f"chapter 2 line {line}", folder) + "\n"
    expect("a line more", got, (1, b"", said))
    ended = run(PROGRAM, "story", folder, "1/9/1")
    got = ended.status, ended.out, ended.err
    expect("of no sale", got, (1, b"", said))


@test
def random_stories(seed):
    """Sales at two points, worked side by side in many shifts: each has just the rows that belong
    to it."""
    chance = start_chance(seed, "stories")
    chapters, work = Chapters(), Work(chance)
    work.run(600)
    second, spelled = 0, spell(*(request for request, _, _ in work.rows))
    lines = []
    for (request, reply, sales), line in zip(work.rows, spelled):
        if chance.random() < 0.3:
            second += chance.randint(1, 9)
            chapters.tell(second)
        elif not lines:
            chapters.tell(second)
        chapters.put(line)
        lines.append((f"{make_time(second)} {request}: {reply}\n", sales))
        if chance.random() < 0.05:
            chapters.end()
        if request == "t1 CloseShift" and chapters.covered:
            chapters.end()
            chapters.begin()
    folder = chapters.write("random")
    expect("all rows", print_of("explain", folder, "--times"), "".join(text for text, _ in lines))
    chosen = chance.sample(sorted(work.sold), 40)
    for sale in chosen:
        name = "/".join(map(str, sale))
        wanted = "".join(text for text, sales in lines if sale in sales)
        expect(name, print_of("story", folder, name), wanted)


class Work:
    """Rows of two tills and two points, each with its reply and the names of the sales to whose
    stories it belongs."""

    def __init__(self, chance):
        self.chance, self.rows, self.shift = chance, [], 1
        self.points = {1: [], 2: []}  # of each the rows of the fuelling under way
        self.readings, self.numbers = {1: 0, 2: 0}, {1: 0, 2: 0}
        self.unpaid, self.sold, self.cleared = {1: [], 2: []}, set(), []

    def add(self, request, reply, *sales):
        row = [request, reply, set(sales)]
        self.rows.append(row)
        return row

    def at(self, point, request, reply, *sales):
        """A row at a point, which belongs to the fuelling under way there."""
        row = self.add(request, reply, *sales)
        if self.points[point]:
            self.points[point].append(row)

    def run(self, count):
        for till in (1, 2):
            self.add(f"t{till} SignOn", "Done")
        for point in self.points:
            self.at(point, f"t1 Open {point}", "Done")
        while len(self.rows) < count:
            point = self.chance.choice((1, 2))
            choice = self.chance.random()
            if choice < 0.6:
                self.fuel(point)
            elif choice < 0.9:
                self.collect(point)
            elif choice < 0.93 and not any(self.points.values()):
                self.add("t1 CloseShift", f"ShiftClosed({self.shift})")
                self.shift, self.numbers = self.shift + 1, {1: 0, 2: 0}
            elif choice < 0.96 and self.cleared:
                self.name(self.chance.choice(self.cleared), "Lock", 2, "22 AlreadyCleared(1)")

    def fuel(self, point):
        """One step of a fuelling at the point."""
        if not self.points[point]:
            if len(self.unpaid[point]) == 2:
                return
            row = self.add(f"t1 Release {point}", "Done")
            self.points[point] = [row]
            last = self.readings[point]
            self.at(point, f"d{point} Lift {point} 1@{last}", "Start{Unset, 1500}")
        elif self.chance.random() < 0.3:
            self.at(point, f"t2 Assign {point}", "11 AssignedToOther(1)")
        elif self.chance.random() < 0.5:
            litres = self.chance.randint(1, 9)
            self.readings[point] += 1_000 * litres
            request = f"d{point} Flow {point} 1@{self.readings[point]}"
            self.at(point, request, f"Flowed({1_000 * litres})")
        else:
            self.readings[point] += 1_000
            self.numbers[point] += 1
            number = self.numbers[point]
            sale = point, self.shift, number
            request = f"d{point} HangUp {point} 1@{self.readings[point]}"
            self.at(point, request, f"Sold{{{number}, 1000}}")
            for row in self.points[point]:
                row[2].add(sale)
            self.points[point] = []
            self.unpaid[point].append(sale)
            self.sold.add(sale)

    def name(self, sale, event, till, reply):
        """A row that names the sale, with its shift, or without it where that one is open."""
        point, shift, number = sale
        is_short = shift == self.shift and self.chance.random() < 0.5
        name = f"{point}/{number}" if is_short else f"{point}/{shift}/{number}"
        self.at(point, f"t{till} {event} {name}", reply, sale)

    def collect(self, point):
        if not self.unpaid[point]:
            return
        sale = self.unpaid[point].pop(0)
        self.name(sale, "Lock", 1, "Locked")
        self.name(sale, "Lock", 2, "20 LockedByOther(1)")
        if self.chance.random() < 0.5:
            self.name(sale, "Unlock", 1, "Unlocked")
            self.unpaid[point].insert(0, sale)
            return
        self.cleared.append(sale)
        cents = self.clear_cents(sale)
        self.name(sale, "Clear", 1, f"Cleared({cents})")

    def clear_cents(self, sale):
        """What a sale costs: the litres of its rows at 1.50."""
        litres = 0
        for request, reply, sales in self.rows:
            if sale in sales and reply.startswith("Flowed("):
                litres += int(reply[7:-1]) // 1_000
            if sale in sales and reply.startswith("Sold{"):
                litres += 1
        return 150 * litres
