"""The history of `forecourt station`.

Histories that are made by hand are opened; their folders lie at places that can't be used, on a
full disk, and beside closed standard streams; chapters end; and a station of eight tills and eight
dispensers is killed again and again, and started on its history. What each peer was told is
compared with what a replay of the chapters answers. A test that the system doesn't allow says that
it is skipped."""

import contextlib
import fcntl
import hashlib
import os
import re
import resource
import shutil
import signal
import socket
import stat
import subprocess
import threading
import time

from shared.checks import (
    NO_FILE, NO_NEW_CHAPTER, NOT_MADE, OPEN_IT, Failed, Skipped, advised, another_site,
    chapter_unread, expect, first_line, unprinted, unstored, unwritten,
)  # fmt: skip
from shared.histories import (
    FIRST_LINES, LOCK_FILE, NO_SEAL, SITE_FILE, Told, chapter_path, check_chapters, count_rows,
    expect_looks, find_untold, first_lines, is_notice, is_read, is_sign_off, list_chapters,
    read_rows, retitle, seal_line, split_messages, time_line, whole_lines, without_marks,
    without_token, write_chapters, write_history, write_rows,
)  # fmt: skip
from shared.running import run, tell_deaf
from shared.serving import WAIT, Found, read_status, send_reset, start_day, wait_until
from shared.station import (
    ACKNOWLEDGE, CLEAR, CLOSE, CLOSE_SHIFT, DISPENSER, FLOW, HANG_UP, KNOWN_SITE, LIFT, LOCK,
    OPEN, RELEASE, RESULT, SITE, TILL, WRITE, address_point, command_point, command_sale, decode,
    encode, is_accepted, parse, read_point, read_product, read_sale, read_site, receive,
    receive_all, receive_message, report, sign_off, sign_on, write_report,
)  # fmt: skip
from tests.built import PROGRAM
from tests.months import (
    NAMED_SHIFT, SALES_OF_SHIFT, SHIFTS as MONTH_SHIFTS, ShiftTill, wait_for_chapter_end,
)  # fmt: skip
from tests.shifts_worked import CLOSE_IT, expect_replies, work_at
from tests.steady_peers import POINTS, Pump, Runs, Till, say
from tests.suite import make_folder, start_chance, test

HERE = make_folder()
FIRST = first_lines(KNOWN_SITE)
NOBODY = 65_534
DENIED = "Permission denied"  # the system's words
LINES = 150
AT_ONCE = 6  # stations
MANY = 200  # rows, and messages, until a disk is full
SITE_LINE = 2  # of a chapter
MOST_KILOBYTES = 16_384  # of a station that forgets rows
LISTENING = re.compile(rb"listening 127\.0\.0\.1:\d+\n")
# Till 2 releases point 1, which till 1 opened, and its dispenser sells ten litres.
DAY = [
    sign_on(1), sign_on(2), command_point(1, 0, 1, OPEN), command_point(2, 0, 1, RELEASE),
    report(1, 0, LIFT, 0), report(1, 0, FLOW, 4_000), report(1, 0, HANG_UP, 10_000),
    command_sale(2, 0, 1, 1, LOCK), command_sale(2, 0, 1, 1, CLEAR), sign_off(2),
]  # fmt: skip
DAY_TEXT = FIRST + write_rows(*DAY)
# A shift in which nothing was sold.
CLOSING = write_rows(sign_on(1), CLOSE_IT, sign_off(1))
OFF_1 = write_rows(sign_off(1))


def write_chapter(text, name="history", site=KNOWN_SITE):
    """Makes the folder of a history with one chapter, in place of what has its name; returns the
    chapter's file."""
    return chapter_path(write_history(HERE / name, site, text))


def read_plain(path):
    """The text of a history's only chapter without the lines of times and of seals, which are
    right."""
    text = path.read_bytes()
    check_chapters(KNOWN_SITE, [text])
    return without_marks(text)


def command(folder, *words, site=KNOWN_SITE):
    """A station of this site file, or None for the folder's own, with its history in this folder,
    or in that of this chapter."""
    folder = str(folder).removesuffix("/" + chapter_path("").name)
    sites = [] if site is None else [site]
    return [*map(str, [PROGRAM, "station", *sites, "--port", 0, "--history", folder, *words])]


def start_station(folder, *words, site=KNOWN_SITE, **how):
    return start_day(command(folder, *words, site=site), **{"stdin": subprocess.PIPE, **how})


def end(day, told=""):
    """The report of a day whose standard input is closed."""
    day.process.stdin.close()
    day.process.stdin = None
    return day.report(told)


def report_of(text, site=KNOWN_SITE):
    """The report of the chapters' texts, which are read as any day's."""
    made = run(PROGRAM, "report", site, given=text)
    expect("the report of the chapters", (made.status, made.err), (0, ""))
    return made.out


def say_found(rows, chapters=1):
    """What a start says of a history of so many chapters and rows."""
    return f"history chapters {chapters} rows {rows}\n".encode()


def expect_opened(what, text, whole, rows, signed_off=b"", site=KNOWN_SITE, reported=None):
    """A station opens this chapter: it says how many rows it had, its file is then the whole lines
    and the sign-offs of who was signed on, and its report that of them, or another one. Without a
    text there is no folder."""
    path = write_chapter(text or b"", site=site)
    if text is None:
        shutil.rmtree(path.parent)
    ended = run(*command(path, site=site))
    told = LISTENING.sub(b"listening\n", ended.out)
    after = path.read_bytes()
    expect(f"{what}: what was there", after[: len(whole)], whole)
    expect(f"{what}: the file", without_marks(after[len(whole) :]), signed_off)
    check_chapters(site, [after])
    said = b"history new\n" if text is None else say_found(rows)
    wanted = said + b"listening\n" + (reported or report_of(after, site))
    expect(what, (ended.status, ended.err, told), (0, "", wanted))
    expect_files(f"{what}: the files", path.parent, site, 1)


def expect_files(what, folder, site, chapters):
    """A history's folder has its site file, its lock and its chapters, and nothing more."""
    names = [chapter_path("", number + 1).name for number in range(chapters)]
    found = {path.name for path in folder.iterdir()}
    expect(what, found, {SITE_FILE, LOCK_FILE, *names})
    expect(f"{what}: its site file", (folder / SITE_FILE).read_bytes(), site.read_bytes())


def expect_refused(what, folder, fault, site=KNOWN_SITE, **how):
    """A station doesn't open this history, and says why."""
    ended = run(*command(folder, site=site), **how)
    got = (ended.status, ended.out, ended.err)
    expect(what, got, (1, b"", f"{fault}\n"))


def expect_advised(what, folder, fault, site=KNOWN_SITE, **named):
    """.. and what to do."""
    expect_refused(what, folder, advised(fault, folder, **named), site)


def tell_in_use(folder):
    """What a start says of a history in this folder that another program has."""
    return f"{advised('history in use', folder)}\n".encode()


def expect_line(what, text, number, site=KNOWN_SITE):
    """The line of this number is no chapter's: the file stays as it is."""
    path = write_chapter(text, site=site)
    fault = "history of another site" if number == SITE_LINE else f"chapter 1 line {number}"
    expect_advised(what, path.parent, fault, site)
    expect(f"{what}: the file", path.read_bytes(), text)


# ---- chapters made by hand


@test
def nothing_yet():
    """An empty file, one that isn't there, and one with the first lines alone are begun."""
    expect_opened("no file", None, FIRST, 0)
    expect_opened("an empty file", b"", FIRST, 0)
    expect_opened("the first lines", FIRST, FIRST, 0)


@test
def rows_are_made_again():
    """Whose till is still signed on is signed off, and that is stored: the next start finds
    it."""
    expect_opened("a day", DAY_TEXT, DAY_TEXT, len(DAY), OFF_1)
    after = DAY_TEXT + OFF_1
    expect_opened("its second start", after, after, len(DAY) + 1)
    sold = {"metered": 10_000, "cleared": 10_000}
    expect("report", report_of(after), write_report(11, 0, 1, 1_500, diesel=sold).encode())
    both = FIRST + write_rows(sign_on(32), sign_on(2), sign_on(1), sign_off(2))
    offs = write_rows(sign_off(1), sign_off(32))
    expect_opened("in the order of their numbers", both, both, 4, offs)


@test
def it_goes_on():
    """A station that was opened on a history answers as if it had never stopped; both days are one
    chapter."""
    path = write_chapter(DAY_TEXT)
    more = [sign_on(1), read_sale(1, 0, 1, 1), command_point(1, 0, 1, RELEASE), read_point(1, 0, 1)]
    with start_station(path) as day, day.connect() as till:
        expect("rows", day.rows, len(DAY))
        till.sendall(b"".join(more))
        got = b"".join(without_token(receive_message(till)) for _ in more)
        told = end(day)
        expect("no more is told", receive_all(till), b"")
    after, kept = read_plain(path), [one for one in more if not is_read(one)]
    expect("the chapter", after, DAY_TEXT + OFF_1 + write_rows(*kept) + OFF_1)
    all_rows = read_rows(PROGRAM, KNOWN_SITE, DAY_TEXT + OFF_1 + write_rows(*more))
    expect("the replies", got, b"".join(row.reply for row in all_rows[len(DAY) + 1 :]))
    expect("the report", told.encode(), report_of(after))


@test
def lines_are_rows():
    """What makes no row makes no line: a message that means no event, a stranger's, and what ends a
    session. Nor does a read, whose row isn't kept. A refusal is a row."""
    path = write_chapter(b"")
    stranger = encode((SITE, 1), (9, 9), 0, 0, address_point(1))
    empty = encode((SITE, 1), (TILL, 1), WRITE, 0, address_point(1))
    read, refused = read_point(1, 0, 1), command_point(1, 0, 1, OPEN)
    with start_station(path) as day:
        for sent in (stranger, empty, b"\xff" * 8, b"", read[:5], empty + read + refused + empty):
            day.ask(sent)
        told = end(day, None)
    expect("the chapter", read_plain(path), FIRST + write_rows(refused))
    expect("the report", told, write_report(1, 0))


@test
def ends_are_stored():
    """The sign-off at a session's end is stored at once, however it ends, while nothing else
    happens."""
    on, off = write_rows(sign_on(1)), write_rows(sign_off(1))
    for what, words, leave in (
        ("closed", (), lambda till: till.close()),
        ("reset", (), send_reset),
        ("half-closed", (), lambda till: till.shutdown(socket.SHUT_WR)),
        ("a fault", (), lambda till: till.sendall(b"\xff" * 8)),
        ("silent", ("--idle", "1"), lambda till: None),
    ):
        path = write_chapter(b"")
        with start_station(path, *words) as day:
            till = day.connect()
            till.sendall(sign_on(1))
            expect("a reply", len(receive_message(till)), 16)
            expect(f"{what}: signed on", read_plain(path), FIRST + on)
            leave(till)
            wait_until(f"{what}: its sign-off", lambda: read_plain(path) == FIRST + on + off)
            till.close()


@test
def unfinished_last_lines():
    """A last line without its line feed was never told of, whatever stands there: it is cut."""
    line = write_rows(command_point(1, 0, 1, OPEN))
    torn = [line[:length] for length in range(1, len(line))]
    torn += [b"\0" * 4_096, b"#", b" ", b"zz", b"\r", b"\xff", line[:-1] * 1_000]
    for last in torn:
        expect_opened(f"{last[:30]}", DAY_TEXT + last, DAY_TEXT, len(DAY), OFF_1)
        expect_opened(f"{last[:30]} alone", FIRST + last, FIRST, 0)


@test
def bad_lines():
    """What is no request of a till or a dispenser, at each place of a chapter; many are a line that
    is accepted there, spoiled a little."""
    line = write_rows(command_point(1, 0, 1, OPEN))[:-1]
    stranger = encode((SITE, 1), (9, 9), 0, 0, address_point(1))
    reply = parse("02 01 01 01 00 E2 00 08 01 21 01 01 00 03 01 00")
    bad = [
        b"", b" ", b"\r", b" #", b"# seal ", b"# seal " + b"0" * 64, b"zz", line[:-1], line[:-2],
        line + line, line + b"\r", b" " + line, line + b" ", line[:8] + b" " + line[8:],
        b"0x" + line,
        line + b"00", b"\0" + line, b"\xff", write_rows(stranger)[:-1], write_rows(reply)[:-1],
        b"00" * 40_000, line[:2] + b"+f" + line[4:], b"ff" * 8,
    ]  # fmt: skip
    lines = DAY_TEXT.splitlines(keepends=True)
    for place in (FIRST_LINES, FIRST_LINES + 4, len(lines)):
        text = b"".join([*lines[:place], line + b"\n", *lines[place:]])
        expect_opened(f"unspoiled at {place + 1}", text, text, len(DAY) + 1, OFF_1)
        for one in bad:
            text = b"".join([*lines[:place], one + b"\n", *lines[place:]])
            expect_line(f"{one[:30]} at {place + 1}", text, place + 1)
    expect_line("the first of two", DAY_TEXT + b"\n#\n", len(lines) + 1)
    expect_line("before an unfinished one", DAY_TEXT + b"\n" + line, len(lines) + 1)


def mutate(chance, octets):
    """The octets of a message with some octet changed, put in or left out, or as they are."""
    octets = bytearray(octets)
    for _ in range(chance.choice((0, 1, 1, 1, 2))):
        at, octet = chance.randrange(len(octets)), chance.choice((0, 1, 2, 3, 0x21, 0xFF))
        how = chance.randrange(4)
        if how == 0:
            octets.insert(at, octet)
        elif how == 1:
            del octets[at]
        else:
            octets[at] = octet if how == 2 else octets[at] ^ 1 << chance.randrange(8)
    return bytes(octets)


@test
def random_lines(seed):
    """A line is a chapter's just where a replay answers it by one reply of a row, and it is no
    read: requests of all kinds, and what random changes make of them."""
    chance, counts = start_chance(seed, "lines"), [0, 0]
    kinds = [*DAY, *map(parse, (
        "01 01 02 01 00 4B 00 07 04 21 21 00 01 81 00",
        "01 01 02 01 00 03 00 07 06 21 22 00 01 00 01",
        "01 01 02 01 00 41 00 08 01 82 90 04 00 00 07 07",
        "01 01 02 01 00 42 00 0A 01 21 44 00 51 04 00 00 07 D0",
        "01 01 02 01 00 42 00 0A 01 21 3E 00 50 04 00 00 07 D0",
        "01 01 02 01 00 42 00 11 01 21 46 00 70 01 01 71 08 00 00 00 00 00 00 00 05",
        "01 01 02 01 00 00 00 02 01 01", "01 01 02 01 00 41 00 04 01 01 33 00",
        "01 01 02 01 00 00 00 02 01 81", "01 01 03 01 00 60 00 04 01 21 61 00",
    ))]  # fmt: skip
    for _ in range(LINES):
        one = mutate(chance, chance.choice(kinds))
        line = one.hex().encode() + b"\n"
        answered = run(PROGRAM, "replay", KNOWN_SITE, given=line)
        replies = [bytes.fromhex(text.decode()) for text in answered.out.splitlines()]
        is_row = (
            answered.status == 0 and len(replies) == 1 and not is_number(replies[0])
            and not is_read(one)
        )  # fmt: skip
        counts[is_row] += 1
        if is_row:
            signed = [n for n in range(1, 33) if without_token(one) == without_token(sign_on(n))]
            offs = write_rows(*map(sign_off, signed))
            expect_opened(one.hex(), FIRST + line, FIRST + line, 1, offs)
        else:
            expect_line(one.hex(), FIRST + line, FIRST_LINES + 1)
    if min(counts) < LINES // 10:
        raise Failed(f"{counts[True]} rows, and {counts[False]} others")


def is_number(reply):
    """Whether a reply says that a message means no event."""
    message = decode(reply)[0]
    return message.kind == ACKNOWLEDGE and 50 <= message.items[RESULT][0] <= 58


@test
def other_first_lines():
    """First lines that are no first chapter's, or not all of them, and those of another site."""
    rows, (title, site, after) = write_rows(*DAY), FIRST.splitlines(keepends=True)
    for first in (
        b"", b"\n", b"#\n", b"# a comment\n", b"#" + FIRST, b"\xef\xbb\xbf" + FIRST, FIRST[1:],
        title[:-2] + b"2\n" + site + after, title[:-1] + b"\r\n" + site + after,
    ):  # fmt: skip
        expect_line(f"{first[:40]}", first + rows, 1)
    for last in (
        after[:-1] + b" \n", after[:-2] + b"\n", after[:-1] + b"0\n", after[:-1] + b"\r\n", b"",
        after[:-2] + b"1\n",
    ):  # fmt: skip
        expect_line(f"{last}", title + site + last + rows, 3)
    for text in (b"x", b"# witsomar histora", b"01", b"\0" * 10):
        expect_line(f"{text} without a line feed", text, 1)
    for length in range(1, len(FIRST)):
        path = write_chapter(FIRST[:length])
        whole = FIRST[:length].count(b"\n")
        faults = "chapter 1 line 1", "history of another site", "chapter 1 line 3"
        expect_advised(f"{length} octets", path.parent, faults[whole])
        expect(f"{length} octets stay", path.read_bytes(), FIRST[:length])
    for wrong in (site[:-1] + b" \n", site[:-2] + b"\n", site.upper(), b"\n", b""):
        expect_line(f"{wrong} names the site", title + wrong + after + rows, SITE_LINE)


@test
def seals_and_times():
    """A seal has to be the SHA-256 of the seal before it and of what stands between them; a time is
    a comment, and is sealed too. One digit of a seal, or one line of what it covers, is enough."""
    text, seal, covered = FIRST, b"0" * 64, FIRST
    for at, row in enumerate(DAY):
        line = b"# at 2026-11-27T08:00:%02d.000Z\n" % at + write_rows(row)
        text, covered = text + line, covered + line
        if at % 3 == 0 or at == len(DAY) - 1:
            seal = hashlib.sha256(seal + covered).hexdigest().encode()
            text, covered = text + b"# seal " + seal + b"\n", b""
    expect_opened("with seals and times", text, text, len(DAY), OFF_1)
    lines = text.splitlines(keepends=True)
    for place, line in enumerate(lines):
        if line.startswith(b"# seal "):
            for wrong in (
                line[:-2] + bytes([line[-2] ^ 1]) + b"\n", line[:-2] + b"\n", line[:-1] + b"0\n",
                line[:-1] + b" \n", line[:7] + line[7:].upper(), b"# seal " + b"0" * 64 + b"\n",
            ):  # fmt: skip
                if wrong != line:
                    bad = b"".join([*lines[:place], wrong, *lines[place + 1 :]])
                    expect_line(f"{wrong[:20]} for the seal in line {place + 1}", bad, place + 1)
    for place in range(FIRST_LINES, len(lines) - 1):
        left_out = b"".join([*lines[:place], *lines[place + 1 :]])
        after = next(n for n in range(place, len(lines)) if lines[n].startswith(b"# seal "))
        if after > place:
            expect_line(f"line {place + 1} left out", left_out, after)


@test
def other_spellings():
    """A line of capital digits is read as well, and one with another token: they stay so."""
    text = FIRST + write_rows(*DAY).upper()
    expect_opened("capitals", text, text, len(DAY), OFF_1)
    tokens = [one[:5] + bytes([one[5] | number]) + one[6:] for number, one in enumerate(DAY, 1)]
    text = FIRST + b"".join(one.hex().encode() + b"\n" for one in tokens)
    expect_opened("tokens", text, text, len(DAY), OFF_1)


@test
def long_histories():
    """A chapter of more rows than the site file allows in memory is read again, and goes on. To
    `report` the rows behind those that it allows are none."""
    site, limit = HERE / "few.toml", 1_024
    site.write_bytes(b"rows = %d\n" % limit + KNOWN_SITE.read_bytes())
    for count in (limit, limit + 1, 3_000):
        rows = write_rows(sign_on(1), *(
            command_point(1, 0, 1, (OPEN, CLOSE)[n % 2]) for n in range(count - 1)
        ))  # fmt: skip
        text = first_lines(site) + rows
        expect_opened(f"{count} rows", text, text, count, OFF_1, site, report_of(rows + OFF_1))
        expect("to a report", report_of(text, site), write_report(limit, 0).encode())
    path = HERE / "history"
    with start_station(path, site=site) as day, day.connect() as till:
        expect("rows", day.rows, 3_001)
        till.sendall(sign_on(1) + command_point(1, 0, 1, OPEN))
        # The point was opened last, and is idle (3): opening it is refused.
        wanted = parse(
            "02 01 01 01 00 E1 00 08 01 01 01 01 00 03 01 00"
            " 02 01 01 01 00 E0 00 0F 01 21 01 01 0A 02 08 00 00 00 00 00 00 00 03"
        )
        expect("what stands", receive(till, len(wanted)), wanted)
        expect("the report", end(day).splitlines()[0], "rows 3004")


@test
def reads_are_not_stored():
    """The four reads, and what refuses them, write nothing. That they aren't flushed is tested by
    test_faults.py."""
    path = write_chapter(b"")
    with start_station(path) as day, day.connect() as till:
        till.sendall(sign_on(1))
        expect("a reply", len(receive_message(till)), 16)
        before, changed = path.read_bytes(), path.stat().st_mtime_ns
        reads = [read_site(1, 0), read_point(1, 0, 1), read_product(1, 0, 1), read_sale(1, 0, 1, 1)]
        reads += [read_point(1, 0, 9), read_product(1, 0, 8)]
        for one in reads:
            till.sendall(one)
            receive_message(till)
        expect("the chapter", (path.read_bytes(), path.stat().st_mtime_ns), (before, changed))
        expect("the report", end(day).splitlines()[0], "rows 2")
    expect("the chapter", read_plain(path), without_marks(before) + OFF_1)
    for one in reads:
        expect_line("a read", FIRST + write_rows(sign_on(1), one), FIRST_LINES + 2)


@test
def five_million_reads():
    """A till that looks five million times is answered each time, never that the book is full. The
    chapter doesn't grow, and the rows in memory are forgotten."""
    path, piece = write_chapter(b""), b"".join(read_point(1, n % 32, 1) for n in range(3_200))
    with start_station(path) as day, day.connect() as till:
        till.sendall(sign_on(1))
        expect("a reply", len(receive_message(till)), 16)
        before = path.read_bytes()
        till.sendall(piece)
        wanted = receive(till, 3_200 * 38)
        expect("no other number", sorted({one[5] >> 5 for one in split_messages(wanted)}), [1])
        turns = 5_000_000 // 3_200
        sender = threading.Thread(target=lambda: [till.sendall(piece) for _ in range(turns)])
        sender.start()
        for turn in range(turns):
            expect(f"replies of turn {turn}", receive(till, len(wanted)) == wanted, True)
        sender.join()
        expect("the chapter", path.read_bytes(), before)
        memory = read_status(day, "VmHWM")
        expect(f"{memory} kB", memory < MOST_KILOBYTES, True)
        expect("the report", end(day).splitlines()[0], "rows 2")


# ---- files


@test
def in_use():
    """A second station on a history is refused while the first one lives, whatever name it gives to
    the folder; one that was killed leaves it free."""
    path = write_chapter(FIRST)
    folder = path.parent
    with start_station(path) as day, day.connect() as till:
        till.sendall(sign_on(1))
        expect("a reply", len(receive_message(till)), 16)
        before = path.read_bytes()
        link = HERE / "link"
        link.symlink_to(folder)
        for name in (folder, link, f"{folder}/", f"{folder}/../history"):
            expect_advised("in use", name, "history in use")
            expect_advised("in use, without a site file", name, "history in use", None)
        link.unlink()
        expect("the file", path.read_bytes(), before)
        expect_files("in use", folder, KNOWN_SITE, 1)
        (folder / LOCK_FILE).unlink()
        expect_advised("without the lock's file", folder, "history in use")
        expect("the file", path.read_bytes(), before)
        day.process.kill()
        day.process.wait(WAIT)
    with start_station(path) as day:
        expect("its rows", day.rows, 1)
        end(day)
    expect("the file", read_plain(path), FIRST + write_rows(sign_on(1), sign_off(1)))


@test
def starts_at_once():
    """Of some stations that are started at once on one history just one serves, and each other one
    is told that it is in use."""
    pipe = subprocess.PIPE
    for text in (None, DAY_TEXT):
        for _ in range(AT_ONCE):
            path = write_chapter(text or b"", "at_once")
            if text is None:
                shutil.rmtree(path.parent)
            with contextlib.ExitStack() as stack:
                all_ = [
                    stack.enter_context(
                        subprocess.Popen(command(path), stdin=pipe, stdout=pipe, stderr=pipe)
                    )
                    for _ in range(AT_ONCE)
                ]
                lines = sorted(one.stdout.readline() for one in all_)
                served = say_found(len(DAY)) if text else b"history new\n"
                expect("who serves", lines, [b""] * (AT_ONCE - 1) + [served])
                ends = []
                for one in all_:
                    _, err = one.communicate(timeout=WAIT)
                    ends.append((one.returncode, err))
            refused = [(1, tell_in_use(path.parent))] * (AT_ONCE - 1)
            expect("how they end", sorted(ends), [(0, b""), *refused])
            expect("the file", read_plain(path), text + OFF_1 if text else FIRST)
            expect_files("at once", path.parent, KNOWN_SITE, 1)


@test
def own_sites():
    """A history has its own site file, so a later start may leave it out. One that is named says
    the same site, however it is written; else the history is of another site."""
    path, told = write_chapter(DAY_TEXT), KNOWN_SITE.read_text()
    products, points = told.index("[[product]]"), told.index("[[point]]")
    folder, head = path.parent, told[:products]
    ended = run(*command(folder, site=None))
    expect("without a site file", (ended.status, ended.err), (0, ""))
    text = path.read_bytes()
    expect("its chapter", read_plain(path), DAY_TEXT + OFF_1)
    site = HERE / "named.toml"
    same = {
        "a comment": f"# {'x' * 100}\n{told}# the end\n",
        "spaces": told.replace(" = ", "   =\t").replace("\n", "  \n\n"),
        "line ends": told.replace("\n", "\r\n"),
        "the rows that it allows": f"rows = 1000000\n{told}",
        "points first": head + told[points:] + told[products:points],
        "other digits": told.replace("1500", "1_500"),
    }  # fmt: skip
    for what, one in same.items():
        site.write_text(one)
        ended = run(*command(folder, site=site))
        expect(what, (ended.status, ended.err), (0, ""))
        expect(f"{what}: the chapter", path.read_bytes(), text)
        expect_files(what, folder, KNOWN_SITE, 1)
    others = {
        "a price": told.replace("1500", "1501"), "a name": told.replace("diesel", "gasoil"),
        "no manager": told.replace("managers = [1]\n", ""),
        "another manager": told.replace("managers = [1]", "managers = [1, 2]"),
        "fewer rows": f"rows = 999999\n{told}", "a reading": told.replace("= 1000}", "= 1001}", 1),
        "a point less": told[: told.rindex("[[point]]")],
    }  # fmt: skip
    for what, one in others.items():
        site.write_text(one)
        expect("another text", one != told, True)
        expect_refused(what, folder, another_site(site, folder), site)
        expect(f"{what}: the chapter", path.read_bytes(), text)
        expect_files(what, folder, KNOWN_SITE, 1)
    site.write_text(others["a price"])
    empty = write_history(HERE / "no_chapter", KNOWN_SITE)
    expect_refused("without a chapter", empty, another_site(site, empty), site)
    ended = run(*command(empty, site=None))
    expect("a site file and no chapter", (ended.status, ended.err), (0, ""))
    expect("it is new", ended.out.startswith(b"history new\nlistening "), True)
    expect_files("a site file and no chapter", empty, KNOWN_SITE, 1)


@test
def faults_of_own_sites():
    """The folder's site file has a fault, or isn't there, or is none."""
    folder = write_history(HERE / "faulty", KNOWN_SITE, DAY_TEXT)
    own = folder / SITE_FILE
    for text, fault in (
        (b"", "fault 72 product"), (b"rows = 1023\n" + KNOWN_SITE.read_bytes(), "fault 74 rows"),
        (b"nothing\n", "fault 70 1"),
    ):  # fmt: skip
        own.write_bytes(text)
        checked = run(PROGRAM, "check", own)
        if "rows" not in fault:
            fault = first_line(checked.err).strip()
        for site in (None, KNOWN_SITE):
            expect_advised(f"{text[:20]}", folder, f"{SITE_FILE}: {fault}", site, rows=1023)
        expect("its site file stays", own.read_bytes(), text)
    own.unlink()
    for site in (None, KNOWN_SITE):
        lost = "the history has lost its site file: put it back from a backup"
        expect_refused("no site file, and a chapter", folder, f"cannot read {own}\n{lost}", site)
    expect("none is made", own.exists(), False)
    own.mkdir()
    for site in (None, KNOWN_SITE):
        why = f"cannot read {own}: not a regular file"
        expect_refused("a folder as site file", folder, why, site)
    expect("the chapter", chapter_path(folder).read_bytes(), DAY_TEXT)


@test
def no_folders():
    """Names at which no history can lie are refused at once."""
    fifo, dangling, ring = HERE / "fifo", HERE / "dangling", HERE / "ring"
    os.mkfifo(fifo)
    dangling.symlink_to(HERE / "nowhere")
    ring.symlink_to(ring)
    file = HERE / "file"
    file.write_bytes(FIRST)
    advice = "name a folder, or a place where one can be made"
    no_folder = f"Not a directory\n{advice}"
    ring_found = f"Too many levels of symbolic links\n{advice}"
    names = {
        file: no_folder, fifo: no_folder, dangling: f"{NO_FILE}\n{advice}", ring: ring_found,
        "/dev/full": no_folder, "/dev/null": no_folder, "": f"{NO_FILE}\n{NOT_MADE}",
        f"{file}/x": no_folder, f"{file}/": no_folder,
        HERE / "no/such": f"{NO_FILE}\n{NOT_MADE}", HERE / ("x" * 300): "File name too long",
    }  # fmt: skip
    for name, why in names.items():
        for site in (KNOWN_SITE, None):
            expect_refused(f"{name}", name, f"cannot read {name}: {why}", site, timeout=10)
    expect("nothing is made", sorted(p.name for p in HERE.iterdir() if p.name in
           ("nowhere", "no")), [])  # fmt: skip
    expect("the file stays", file.read_bytes(), FIRST)
    first = HERE / "first_without"
    advice = (
        "if this is the first start, give a site file: forecourt station FILE --history FOLDER ..,"
        " or put it there, as a file of the station's user; otherwise see that the folder's name is"
        " right, and that its disk is mounted"
    )
    expect_refused("a first start", first, f"cannot read {first / SITE_FILE}\n{advice}", None)
    expect("no chapter is made", list_chapters(first), [])
    ended = run(*command(first))
    expect("then with a site file", (ended.status, ended.err), (0, ""))
    expect_files("then with a site file", first, KNOWN_SITE, 1)
    advice = "something else has this name, or the same with .starting"
    for blocked in (f"{SITE_FILE}.starting", SITE_FILE):
        path = HERE / "blocked" / blocked
        path.parent.mkdir(exist_ok=True)
        path.symlink_to(HERE / "nowhere")
        why = f"fault 62\ncannot write {path.parent / SITE_FILE}: {advice}"
        expect_refused(f"a link as {blocked}", path.parent, why)
        path.unlink()
    link = HERE / "good"
    link.symlink_to(first)
    ended = run(*command(link))
    expect("a link to a folder", (ended.status, ended.err), (0, ""))


@test
def no_files():
    """What has a chapter's name, or the lock's, and is no file: it is refused at once."""
    folder = HERE / "no_files"
    for name, why in (
        (LOCK_FILE, f"cannot read {folder}: its lock is no regular file"),
        (chapter_path("", 1).name, chapter_unread(folder)),
        (chapter_path("", 2).name, f"cannot read {folder}: its last chapter is no regular file"),
    ):
        for what, make in (
            ("a folder", lambda path: path.mkdir()), ("a fifo", os.mkfifo),
            ("a dangling link", lambda path: path.symlink_to(HERE / "nowhere")),
            ("a ring", lambda path: path.symlink_to(path)),
        ):  # fmt: skip
            write_history(folder, KNOWN_SITE, *write_chapters(KNOWN_SITE, CLOSING, b""))
            (folder / name).unlink(missing_ok=True)
            make(folder / name)
            ended = run(*command(folder), timeout=10)
            got = (ended.status, ended.out, ended.err)
            expect(f"{what} as {name}", got, (1, b"", f"{why}\n"))
    expect("nothing is made", (HERE / "nowhere").exists(), False)


@test
def without_leave():
    """Who may not read and write the files, or make the folder, is refused; who may is served."""
    if os.geteuid() != 0:
        raise Skipped("not root")
    os.chmod(HERE, 0o755)
    how = {"user": NOBODY, "group": NOBODY, "extra_groups": []}
    try:
        ended = run(PROGRAM, "--version", **how)
        expect("nobody runs it", ended.status, 0)
    except OSError as why:
        raise Skipped(f"nobody can't run the program: {why}") from None
    theirs = HERE / "theirs"
    theirs.mkdir(mode=0o700)
    os.chown(theirs, NOBODY, NOBODY)
    for mode in (0o600, 0o644, 0o200, 0o622):
        path = write_chapter(DAY_TEXT, "kept")
        os.chown(path.parent, NOBODY, NOBODY)
        path.chmod(mode)
        why = f"cannot read {path.parent}: {DENIED}\n{OPEN_IT}"
        expect_refused(f"mode {mode:o}", path, why, **how)
        expect("the file", path.read_bytes(), DAY_TEXT)
    path = write_chapter(DAY_TEXT, "kept")
    path.parent.chmod(0o755)
    ended = run(*command(path), **how)
    got = (ended.status, ended.out, ended.err)
    expect("a folder of others", got, (1, b"", f"cannot read {path.parent}: {DENIED}\n{OPEN_IT}\n"))
    expect("the file", path.read_bytes(), DAY_TEXT)
    expect("no lock is made", (path.parent / LOCK_FILE).exists(), False)
    folder = HERE / "none_yet"
    why = f"cannot read {folder}: {DENIED}\n{NOT_MADE}"
    expect_refused("in a folder of others", folder, why, **how)
    expect("no folder is made", folder.exists(), False)
    folder = theirs / "history"
    ended = run(*command(folder), **how)
    text = read_plain(chapter_path(folder))
    expect("their own", (ended.status, ended.err, text), (0, "", FIRST))


def copy_of(path):
    """The file to which a start writes a chapter anew."""
    return path.with_name(path.name + ".starting")


@test
def what_a_start_puts_in_its_place():
    """A start puts a new file in the open chapter's place, with its owner and permissions; a folder
    and files that are made are their owner's alone. What an earlier start has left is removed."""
    path, owner = write_chapter(DAY_TEXT), NOBODY if os.geteuid() == 0 else os.geteuid()
    path.chmod(0o640)
    os.chown(path, owner, owner if os.geteuid() == 0 else -1)
    before = path.stat()
    copy_of(path).write_bytes(DAY_TEXT[:100])
    expect("its end", run(*command(path)).status, 0)
    after = path.stat()
    expect("the file", read_plain(path), DAY_TEXT + OFF_1)
    expect("another one", after.st_ino != before.st_ino, True)
    for what in ("st_mode", "st_uid", "st_gid"):
        expect(what, getattr(after, what), getattr(before, what))
    expect_files("nothing is left", path.parent, KNOWN_SITE, 1)
    made = HERE / "made"
    expect("its end", run(*command(made)).status, 0)
    expect("permissions of a new folder", stat.filemode(made.stat().st_mode), "drwx------")
    for one in made.iterdir():
        expect(f"permissions of {one.name}", stat.filemode(one.stat().st_mode), "-rw-------")
    expect_files("nothing is left", made, KNOWN_SITE, 1)


@test
def what_isnt_a_chapter():
    """Files in the folder whose names are no chapter's stay, and count for nothing."""
    path = write_chapter(DAY_TEXT)
    names = [
        "1.journal", "0000001.journal", "000000.journal", "000002.journal.old", "00002.journal",
        "00000x.journal", "000003.Journal", "notes", b"\xff.journal",
    ]  # fmt: skip
    for name in names:
        with open(os.path.join(os.fsencode(path.parent), os.fsencode(name)), "wb") as file:
            file.write(b"x")
    (path.parent / "000002").mkdir()
    ended = run(*command(path))
    expect("its end", (ended.status, ended.err), (0, ""))
    expect("what it found", ended.out.startswith(say_found(len(DAY))), True)
    expect("how many files", len(list(path.parent.iterdir())), len(names) + 4)
    expect("the chapter", read_plain(path), DAY_TEXT + OFF_1)


def write_told():
    """The folder of a history with a closed chapter and an open one."""
    texts = write_chapters(KNOWN_SITE, CLOSING, write_rows(*DAY))
    return write_history(HERE / "told", KNOWN_SITE, *texts)


def start_into(folder, path, stream):
    """A start on this history one of whose streams goes to this file of it: it ends with status 1,
    and changes no file. Returns what it told on the other stream."""
    files = [*list_chapters(folder), folder / SITE_FILE]
    before = [file.read_bytes() for file in files]
    streams = {"stdout": subprocess.PIPE, "stderr": subprocess.PIPE}
    with open(path, "ab") as file:
        ended = subprocess.run(
            command(folder), stdin=subprocess.DEVNULL, timeout=WAIT, check=False,
            **{**streams, stream: file},
        )  # fmt: skip
    expect(f"{stream} to {path.name}", ended.returncode, 1)
    after = [file.read_bytes() for file in files]
    for file, one, other in zip(files, after, before):
        expect(f"{stream} to {path.name}: {file.name}", one[-100:], other[-100:])
    return ended.stdout or b"", ended.stderr or b""


@test
def outputs_into_the_history():
    """A start whose standard error goes to a file of its history is refused, and tells nothing; one
    whose standard output goes there is refused. The history stays as it is."""
    folder = write_told()
    for path in (*list_chapters(folder), folder / SITE_FILE):
        expect("errors", start_into(folder, path, "stderr"), (b"", b""))
        expect("output", start_into(folder, path, "stdout"), (b"", tell_in_use(folder)))


@test
def outputs_into_a_history_in_use():
    """The same while a station runs on that history."""
    folder = write_told()
    with start_station(folder) as day:
        for path in (*list_chapters(folder), folder / SITE_FILE):
            expect("output", start_into(folder, path, "stdout"), (b"", tell_in_use(folder)))
            expect("errors", start_into(folder, path, "stderr"), (b"", b""))
        end(day, None)
    text = without_marks(read_texts(folder)[1])
    expect("the file", text.endswith(write_rows(*DAY) + OFF_1), True)


@test
def what_others_have_left():
    """A copy that another user's start has left is removed, too, where the folder lets that be."""
    if os.geteuid() != 0:
        raise Skipped("not root")
    os.chmod(HERE, 0o755)
    path = write_chapter(DAY_TEXT, "shared")
    for one in (path.parent, path, path.parent / SITE_FILE):
        os.chown(one, NOBODY, NOBODY)
    copy_of(path).write_bytes(DAY_TEXT[:100])
    copy_of(path).chmod(0o600)
    try:
        ended = run(*command(path), user=NOBODY, group=NOBODY, extra_groups=[])
    except OSError as why:
        raise Skipped(f"nobody can't run the program: {why}") from None
    expect("its end", (ended.status, ended.err), (0, ""))
    expect("the file", read_plain(path), DAY_TEXT + OFF_1)
    expect("nothing is left", copy_of(path).exists(), False)


@test
def no_place_for_a_copy():
    """What no start has left isn't removed: the history isn't opened, and stays as it is."""
    path = write_chapter(DAY_TEXT + b"01", "taken")
    copy = copy_of(path)

    def expect_unopened(what):
        ended = run(*command(path))
        expect(what, (ended.status, ended.out, ended.err), (1, b"", f"{unwritten(path.parent)}\n"))
        expect(f"{what}: the chapter", path.read_bytes(), DAY_TEXT + b"01")
        expect(f"{what}: it stays", os.path.lexists(copy), True)

    copy.mkdir()
    expect_unopened("a folder")
    copy.rmdir()
    copy.symlink_to(HERE / "nowhere")
    expect_unopened("a link")
    copy.unlink()
    os.mkfifo(copy)
    expect_unopened("a fifo")
    copy.unlink()
    copy.write_bytes(FIRST)
    with open(copy, "rb") as file:
        fcntl.flock(file, fcntl.LOCK_EX)
        expect_unopened("a file that somebody has locked")
    expect("its octets", copy.read_bytes(), FIRST)
    expect("its end", run(*command(path)).status, 0)
    expect("the chapter", read_plain(path), DAY_TEXT + OFF_1)


@test
def mistaken_words():
    """The folder is looked at after the command line, then the site file, then the chapters."""
    for words in (["--history"], ["--history", "a", "--history", "b"]):
        ended = run(PROGRAM, "station", KNOWN_SITE, "--port", "0", *words)
        expect(f"{words}", (ended.status, ended.out), (2, b""))
    ended = run(PROGRAM, "station", "--port", "0")
    wanted = (2, b"", "error: a station needs a site file or --history FOLDER\n")
    expect("neither", (ended.status, ended.out, ended.err), wanted)
    path = write_chapter(b"bad\n")
    folder = path.parent
    for port, site, wanted in (
        ("x", KNOWN_SITE, 2), ("0", "no_such_file", f"cannot read no_such_file: {NO_FILE}\n"),
        ("0", "/dev/null", "fault 72 product\n"), ("0", KNOWN_SITE, "chapter 1 line 1\n"),
    ):  # fmt: skip
        ended = run(PROGRAM, "station", site, "--port", port, "--history", folder)
        got = ended.status if wanted == 2 else (ended.status, first_line(ended.err))
        expect(f"{port} {site}", got, 2 if wanted == 2 else (1, wanted))
    expect("the file", path.read_bytes(), b"bad\n")
    with start_station(write_chapter(FIRST, "first")) as day:
        ended = run(PROGRAM, "station", KNOWN_SITE, "--port", str(day.port), "--history", folder)
        said = advised("chapter 1 line 1", folder) + "\n"
        expect("before listening", (ended.status, ended.err), (1, said))
        path = write_chapter(DAY_TEXT)
        ended = run(PROGRAM, "station", KNOWN_SITE, "--port", str(day.port), "--history", folder)
        expect("listening", ended[:3], (1, b"", tell_deaf(day.port)))
        expect("its file", read_plain(path), DAY_TEXT + OFF_1)


# ---- closed standard streams


def close_streams(*numbers):
    """Before a program starts: these of its standard streams are closed."""
    return lambda: [os.close(number) for number in numbers]


@test
def closed_streams():
    """Whatever is closed, the chapter has nothing but its lines; where it can't be told
    where it listens nobody is served."""
    for text, whole in ((b"", FIRST), (DAY_TEXT + b"01", DAY_TEXT + OFF_1)):
        for closed in ((1,), (2,), (1, 2), (0,), (0, 1), (0, 2), (0, 1, 2)):
            for words in ((), ("--detached",)):
                path = write_chapter(text)
                if words and 1 not in closed:
                    continue  # it serves until it is killed: see below
                ended = run(*command(path, *words), preexec_fn=close_streams(*closed))
                is_told = 1 not in closed
                got = (ended.status, ended.err, ended.out != b"")
                why = "" if is_told or 2 in closed else f"{unprinted(path.parent)}\n"
                expect(f"{closed} closed", got, (0 if is_told else 1, why, is_told))
                expect(f"{closed} closed: the file", read_plain(path), whole)


@test
def full_output():
    """A standard output that takes nothing ends the day; its rows are there at the next start."""
    path = write_chapter(DAY_TEXT)
    ended = run(*command(path), sink="/dev/full")
    expect("its end", (ended.status, ended.err), (1, f"{unprinted(path.parent)}\n"))
    text = path.read_bytes()
    expect("its file", read_plain(path), DAY_TEXT + OFF_1)
    expect_opened("the next start", text, text, len(DAY) + 1)


@test
def closed_error():
    """What is told of sessions on a standard error that is closed goes nowhere: not to the
    history, and not to a peer."""
    asked = [sign_on(1), command_point(1, 0, 1, OPEN)]
    for words in ((), ("--detached",)):
        for closed in ((2,), (0, 2)) if words else ((2,),):
            path = write_chapter(b"")
            with start_station(path, *words, preexec_fn=close_streams(*closed)) as day:
                with day.connect() as other, day.connect() as peer:
                    peer.sendall(b"".join(asked) + b"\xff" * 8)
                    told = receive_all(peer)
                    other.sendall(sign_on(2))
                    told += receive_message(other)
                    day.process.kill()
                    day.process.wait(WAIT)
                    told += receive_all(other)
            text = path.read_bytes()
            rows = [*asked, sign_off(1), sign_on(2)]
            wanted = FIRST + write_rows(*rows)
            expect(f"{closed} closed {words}: the file", without_marks(text), wanted)
            made = [row.reply for row in read_rows(PROGRAM, KNOWN_SITE, text)]
            fault = parse("FF FF 01 01 00 FF 00 05 01 01 01 01 28")
            told = decode(told)
            wanted = decode(b"".join([*made[:2], fault, made[3]]))
            expect("who was told what", [one._replace(token=0) for one in told],
                   [one._replace(token=0) for one in wanted])  # fmt: skip


# ---- a disk that takes no more


def receive_or_end(peer):
    """A message; nothing once the connection has ended, however it did."""
    try:
        return receive_message(peer)
    except ConnectionError:
        return b""


def fill(path, what, seed, **how):
    """A till closes and opens a point, and its dispenser listens, until the chapter takes no more:
    the day ends with fault 62 and without a report, and what both were told are rows that the
    chapter has."""
    chance = start_chance(seed, what)
    with start_station(path, **how) as day, day.connect() as till, day.connect() as pump:
        pump.sendall(say(1))
        came = {(DISPENSER, 1): receive_message(pump), (TILL, 1): b""}
        asked, told = [sign_on(1), command_point(1, 0, 1, OPEN)], b"first"
        while told:
            with contextlib.suppress(ConnectionError):
                till.sendall(b"".join(asked))
            for _ in asked:
                told = receive_or_end(till)
                came[(TILL, 1)] += told
            pairs = chance.choice((1, 2, 10, 30))
            asked = [command_point(1, 0, 1, one) for one in (CLOSE, OPEN) * pairs]
        came[(DISPENSER, 1)] += receive_all(pump)
        out, err = day.process.communicate(timeout=WAIT)
        fault = f"{unstored(path.parent)}\n".encode()
        expect(f"{what}: the end", (day.process.returncode, out, err), (1, b"", fault))
    text = whole_lines(path.read_bytes())
    rows = read_rows(PROGRAM, KNOWN_SITE, text)
    for node, octets in came.items():
        untold = find_untold(rows, node, octets)
        expect(f"{what}: {node} is told what isn't stored", untold, None)
    count = len(split_messages(b"".join(came.values())))
    if len(rows) < MANY or count < MANY:
        raise Failed(f"{what}: only {len(rows)} rows, and {count} messages were told")
    return text


def limit_file(octets):
    """Before a program starts: its files take at most so many octets each."""

    def limit():
        signal.signal(signal.SIGXFSZ, signal.SIG_IGN)
        resource.setrlimit(resource.RLIMIT_FSIZE, (octets, octets))

    return limit


@test
def a_file_that_takes_no_more(seed):
    """A file may take only so many octets, whatever line is torn there: that one is cut off again;
    a start that finds more room goes on behind the whole lines."""
    for most in (20_000, 20_001, 20_029, 65_536):
        path = write_chapter(b"")
        text = fill(path, f"a file of {most} octets", seed, preexec_fn=limit_file(most))
        expect("its octets: the stored rows alone", path.read_bytes(), text)
        expect("no more than it may take", len(text) <= most, True)
        rows = count_rows(text)
        offs = [sign_off(1)] if b"\n" + write_rows(sign_on(1)) in text else []
        expect_opened("with more room", path.read_bytes(), text, rows, write_rows(*offs))
    path = write_chapter(b"")
    ended = run(*command(path), preexec_fn=limit_file(len(FIRST) - 1))
    fault = f"{unwritten(path.parent)}\n"
    expect("no first line", (ended.status, ended.out, ended.err), (1, b"", fault))
    path = write_chapter(DAY_TEXT)
    ended = run(*command(path), preexec_fn=limit_file(len(DAY_TEXT)))
    expect("no sign-off", (ended.status, ended.out, ended.err), (1, b"", fault))
    expect("the rows stay", path.read_bytes(), DAY_TEXT)


@test
def a_full_disk(seed):
    """A small disk that is filled."""
    disk = HERE / "disk"
    disk.mkdir(exist_ok=True)
    options = ["-t", "tmpfs", "-o", "size=64k", "tmpfs", disk]
    if not shutil.which("mount") or run("mount", *options).status != 0:
        raise Skipped("mounting isn't allowed")
    try:
        path = chapter_path(disk / "history")
        text = fill(path, "a full disk", seed)
        kept = write_chapter(path.read_bytes(), "kept")
        again = run(*command(path))
        faults = (unwritten(path.parent), unstored(path.parent), unprinted(path.parent))
        ends = ((0, ""), *((1, f"{fault}\n") for fault in faults))
        expect("again", (again.status, again.err) in ends, True)
        expect("its rows stay", path.read_bytes().startswith(text), True)
        ended = run(*command(kept))
        expect("on another disk", (ended.status, ended.err), (0, ""))
        (disk / "more").write_bytes(b"")
        with open(disk / "more", "wb", buffering=0) as more, contextlib.suppress(OSError):
            while more.write(b"x" * 512):
                pass
        full = disk / "second"
        ended = run(*command(full))
        fault = f"fault 62\ncannot write {full / SITE_FILE}: No space left on device\n"
        expect("no octet is left", (ended.status, ended.out, ended.err), (1, b"", fault))
    finally:
        run("umount", disk)


# ---- chapters that end

SHIFTS = 5
MOST_ROWS = 1_000_000  # of a chapter
FIRST_WARNED, LAST_SHIFT, SHIFTS_SPENT = 990, 999, 24
RETRY_ROWS = 1_024  # after which a new chapter is tried again


def read_texts(folder):
    return [path.read_bytes() for path in list_chapters(folder)]


def read_body(text):
    """The lines of rows of a chapter."""
    lines = text.splitlines(keepends=True)
    return b"".join(line for line in lines if not line.startswith(b"#"))


def wait_for_chapter(folder, number):
    path = chapter_path(folder, number)
    wait_until(f"chapter {number}", path.exists)


def new_folder(name):
    """The name of a folder that isn't there."""
    shutil.rmtree(HERE / name, ignore_errors=True)
    return HERE / name


@test
def chapters_end_with_shifts():
    """Each shift that is closed ends a chapter: with the row of the close and a seal, which is the
    SHA-256 of the seal before it and of what it covers. The next one begins after that seal, and
    the closed ones never change again. All that was answered is what the chapters tell."""
    folder, closed = new_folder("shifts"), []
    with start_station(folder) as day, work_at(day) as work:
        expect("what it found", day.found, Found(0, 0))
        work.come()
        for shift in range(1, SHIFTS + 1):
            for number in range(1, 4):
                work.sell(number, 1_000 * shift + number)
            work.close_shift()
            wait_for_chapter(folder, shift + 1)
            texts = read_texts(folder)
            expect(f"shift {shift}: the closed chapters", texts[: shift - 1], closed)
            closed = texts[:shift]
        work.sell(1, 777)
        told = end(day)
    texts, bodies = read_texts(folder), work.bodies
    bodies[-1] += OFF_1
    expect("the chapters", [read_body(text) for text in texts], bodies)
    check_chapters(KNOWN_SITE, texts)
    text = b"".join(texts)
    rows = read_rows(PROGRAM, KNOWN_SITE, text)
    expect_replies("what was answered", rows, work)
    expect("the report", told.encode(), report_of(text))
    expect_files("after the day", folder, KNOWN_SITE, SHIFTS + 1)
    with start_station(folder, site=None) as day:
        expect("what it found", day.found, Found(SHIFTS + 1, len(rows)))
        expect("its report", end(day).encode(), report_of(text))
    expect("the chapters", read_texts(folder), texts)


@test
def rows_at_once_with_a_close():
    """Rows that come with the close of a shift in one send: they are above the seal, and the
    chapter ends after them."""
    folder = new_folder("rounds")
    more = [command_point(1, 0, 1, one) for one in (OPEN, CLOSE, OPEN)]
    with start_station(folder) as day, day.connect() as till:
        till.sendall(b"".join([sign_on(1), CLOSE_IT, *more]))
        for _ in range(len(more) + 2):
            expect("a reply", len(receive_message(till)) > 8, True)
        wait_for_chapter(folder, 2)
        end(day)
    texts = read_texts(folder)
    check_chapters(KNOWN_SITE, texts)
    kept = [line + b"\n" for text in texts for line in text.splitlines() if line[:1] != b"#"]
    wanted = write_rows(sign_on(1), CLOSE_IT, *more, sign_off(1))
    expect("the rows, in order", b"".join(kept), wanted)
    expect("where they are", write_rows(CLOSE_IT, *more) in texts[0], True)


@contextlib.contextmanager
def blocked(path):
    """The next chapter has no place, as the name of its copy is taken by a folder."""
    copy_of(path).mkdir()
    yield
    copy_of(path).rmdir()


def toggle(work, count):
    """So many rows: the manager closes and opens point 2."""
    for number in range(count):
        command_ = (OPEN, CLOSE)[number % 2]
        work.do(work.till, command_point(1, 0, 2, command_))


@test
def chapters_that_go_on():
    """Where no new chapter can be made the open one goes on: that is said once, and nothing is
    lost. It is tried again after 1,024 rows more."""
    folder = new_folder("long")
    with start_station(folder) as day, work_at(day) as work:
        second = chapter_path(folder, 2)
        with blocked(second):
            work.come()
            work.close_shift()
            toggle(work, RETRY_ROWS)
            work.sell(1, 1_234)
            work.close_shift()
            expect("one chapter", len(list_chapters(folder)), 1)
        refused = 3 + RETRY_ROWS
        toggle(work, 2 * ((refused + RETRY_ROWS - len(work.told) - 1) // 2))
        while len(work.told) < refused + RETRY_ROWS - 1:
            work.do(work.till, command_point(1, 0, 3, OPEN if len(work.told) % 2 else CLOSE))
        expect("one chapter still", len(list_chapters(folder)), 1)
        work.sell(1, 4_321)
        wait_for_chapter(folder, 2)
        told = end(day, NO_NEW_CHAPTER)
    texts = read_texts(folder)
    check_chapters(KNOWN_SITE, texts)
    expect("where it ended", count_rows(texts[0]), refused + RETRY_ROWS)
    text = b"".join(texts)
    rows = read_rows(PROGRAM, KNOWN_SITE, text)
    expect_replies("what was answered", rows, work)
    expect("rows", len(rows), len(work.told) + 1)
    expect("the report", told.encode(), report_of(text))
    with start_station(folder) as day:
        expect("what it found", day.found, Found(2, len(rows)))
        end(day)


@test
def what_hinders_a_chapter():
    """Whatever has the name of the next chapter, or of its copy, stays, and the open chapter goes
    on."""
    def take(path, make):
        make(path)
        return lambda: path.rmdir() if path.is_dir() and not path.is_symlink() else path.unlink()

    makes = {
        "a folder": lambda path: path.mkdir(), "a fifo": os.mkfifo,
        "a link": lambda path: path.symlink_to(HERE / "nowhere"),
    }  # fmt: skip
    for what, make in makes.items():
        for ending in ("", ".starting"):
            folder = new_folder("hindered")
            with start_station(folder) as day, work_at(day) as work:
                path = chapter_path(folder, 2)
                taken = path.with_name(path.name + ending)
                leave = take(taken, make)
                work.come()
                work.close_shift()
                work.sell(1, 2_000)
                end(day, NO_NEW_CHAPTER)
            expect(f"{what}{ending} stays", os.path.lexists(taken), True)
            leave()
            text = chapter_path(folder).read_bytes()
            expect_replies(f"{what}{ending}", read_rows(PROGRAM, KNOWN_SITE, text), work)
            check_chapters(KNOWN_SITE, [text])


@test
def no_leave_for_a_chapter():
    """A folder that takes no new file, of another user: the open chapter goes on."""
    if os.geteuid() != 0:
        raise Skipped("not root")
    os.chmod(HERE, 0o755)
    folder = write_history(HERE / "read_only", KNOWN_SITE)
    for one in (folder, folder / SITE_FILE):
        os.chown(one, NOBODY, NOBODY)
    how = {"user": NOBODY, "group": NOBODY, "extra_groups": []}
    with start_station(folder, **how) as day, work_at(day) as work:
        folder.chmod(0o500)
        work.come()
        work.close_shift()
        work.sell(1, 2_000)
        end(day, NO_NEW_CHAPTER)
    expect("one chapter", len(list_chapters(folder)), 1)
    text = chapter_path(folder).read_bytes()
    expect_replies("what was answered", read_rows(PROGRAM, KNOWN_SITE, text), work)
    folder.chmod(0o700)
    rows = count_rows(text)
    with start_station(folder, **how) as day:
        expect("what it found", day.found, Found(1, rows))
        with day.connect():
            wait_for_chapter(folder, 2)
        end(day)
    texts = read_texts(folder)
    check_chapters(KNOWN_SITE, texts)
    expect("its rows", texts[0].startswith(text), True)


@test
def a_chapter_that_is_over():
    """A start on a chapter in which a shift was closed ends it with its first round, whether it has
    a seal, or rows after one, or none. Nothing is said of it."""
    body = write_rows(sign_on(1), CLOSE_IT)
    sealed = write_chapters(KNOWN_SITE, body, b"")
    more = write_rows(command_point(1, 0, 1, OPEN))
    for what, text in {
        "no seal": FIRST + body, "a seal": sealed[0], "rows after the close": FIRST + body + more,
        "rows after a seal": sealed[0] + more, "a torn line": FIRST + body + more[:-1],
        "a torn seal": sealed[0][:-1],
    }.items():  # fmt: skip
        whole = whole_lines(text)
        folder = write_chapter(text, "over").parent
        with start_station(folder) as day, work_at(day) as work:
            expect(f"{what}: what it found", day.found, Found(1, count_rows(whole)))
            wait_for_chapter(folder, 2)
            work.do(work.till, sign_on(1), command_point(1, 0, 2, OPEN))
            told = end(day)
        texts = read_texts(folder)
        check_chapters(KNOWN_SITE, texts)
        expect(f"{what}: how many", len(texts), 2)
        expect(f"{what}: what was there", texts[0][: len(whole)], whole)
        expect(f"{what}: chapter 1", without_marks(texts[0]), without_marks(whole) + OFF_1)
        rows = write_rows(sign_on(1), command_point(1, 0, 2, OPEN)) + OFF_1
        expect(f"{what}: the rows of chapter 2", read_body(texts[1]), rows)
        expect(f"{what}: the report", told.encode(), report_of(b"".join(texts)))


@test
def a_million_rows():
    """A chapter ends with the round in which it has 1,000,000 rows, though no shift was closed."""
    pair = write_rows(command_point(1, 0, 1, OPEN), command_point(1, 0, 1, CLOSE))
    folder = write_chapter(FIRST + pair * (MOST_ROWS // 2 - 1), "million").parent
    with start_station(folder) as day, work_at(day) as work:
        expect("what it found", day.found, Found(1, MOST_ROWS - 2))
        work.do(work.till, sign_on(1))
        expect("one chapter", len(list_chapters(folder)), 1)
        toggle(work, 1)
        wait_for_chapter(folder, 2)
        work.do(work.till, *(command_point(1, 0, 2, one) for one in (CLOSE, OPEN)))
        told = end(day)
    texts = read_texts(folder)
    check_chapters(KNOWN_SITE, texts)
    expect("rows of each", [*map(count_rows, texts)], [MOST_ROWS, 3])
    expect("the report", told.splitlines()[0], f"rows {MOST_ROWS + 3}")
    chapter_path(folder).write_bytes(FIRST + pair * (MOST_ROWS // 2))
    chapter_path(folder, 2).unlink()
    with start_station(folder) as day, day.connect():
        expect("what it found", day.found, Found(1, MOST_ROWS))
        wait_for_chapter(folder, 2)
        end(day)


@test
def last_shifts():
    """From shift 990 on each new shift is said, as there are 999; the last one can't be closed, and
    all else goes on in it."""
    closes = FIRST + write_rows(sign_on(1)) + write_rows(CLOSE_IT) * (FIRST_WARNED - 2)
    folder = write_chapter(closes, "last").parent
    with start_station(folder) as day, work_at(day) as work:
        wait_for_chapter(folder, 2)
        work.come()
        for shift in range(FIRST_WARNED, LAST_SHIFT + 1):
            work.close_shift()
            wait_for_chapter(folder, shift - FIRST_WARNED + 3)
        refused, = work.ask(work.till, CLOSE_IT)
        expect("the last close", decode(refused)[0].items[RESULT][0], SHIFTS_SPENT)
        work.sell(1, 1_000)
        chapters = len(list_chapters(folder))
        shifts = range(FIRST_WARNED, LAST_SHIFT + 1)
        said = [f"shift {n} is open, of {LAST_SHIFT}: see forecourt next\n" for n in shifts]
        end(day, "".join(said))
    expect("no chapter more", len(list_chapters(folder)), chapters)
    check_chapters(KNOWN_SITE, read_texts(folder))
    expect("next", run(PROGRAM, "next", folder).status, 0)


@test
def wrong_chapters():
    """Chapters of which one is missing, or wrong, or isn't the next one: the fault names it, and
    the files stay as they are. `shifts` and `next` say the same."""
    bodies = [CLOSING, write_rows(*DAY, CLOSE_IT), write_rows(sign_on(1))]
    good = write_chapters(KNOWN_SITE, *bodies)
    second = good[1].splitlines(keepends=True)
    other = write_chapters(KNOWN_SITE, OFF_1 + CLOSING, bodies[1], b"")
    alien = HERE / "alien.toml"
    alien.write_bytes(KNOWN_SITE.read_bytes() + b"\n")
    late = FIRST_LINES + len(DAY) + 2  # the line of chapter 2's seal

    def with_second(*lines):
        return {1: good[0], 2: b"".join(lines), 3: good[2]}

    def with_line(number, line):
        return with_second(*second[: number - 1], line, *second[number:])

    gone = "chapter 3 doesn't go on from chapter 2"
    cases = {
        "chapter 1 is missing": [{2: good[1], 3: good[2]}, {3: good[2]}],
        "chapter 2 is missing": [{1: good[0], 3: good[2]}, {1: good[0], 999_999: good[2]}],
        "chapter 2 line 1": [
            with_line(1, good[0].splitlines(True)[0]), with_line(1, b"\n"), with_second(),
            with_second(second[0][:-1]), {1: good[0], 2: good[2], 3: good[1]},
        ],
        "chapter 1 line 1": [{1: good[1], 2: good[0], 3: good[2]}, {1: b"x", 2: good[1]}],
        "history of another site": [
            with_line(2, first_lines(alien).splitlines(True)[1]), with_line(2, b"# site\n"),
        ],
        "chapter 2 doesn't go on from chapter 1": [
            with_line(3, f"# after {NO_SEAL}\n".encode()), with_line(3, b"# after\n"),
            {1: other[0], 2: good[1], 3: good[2]}, {1: good[0][:-1], 2: good[1]},
            {1: FIRST + CLOSING, 2: good[1]}, {1: good[0] + OFF_1, 2: good[1]},
        ],
        gone: [
            with_second(*second[:-1]), with_second(*second, write_rows(sign_on(2))),
            with_second(*second, b"# \n"), with_second(*second, b"0"),
            with_second(*second[:-1], second[-1][:-1]), with_second(*second[:6]),
            with_second(*second, second[-1][:1]),
        ],
        "chapter 2 line 4": [with_line(4, b"\n"), with_line(4, write_rows(read_site(1, 0)))],
        f"chapter 2 line {late}": [
            with_line(late, seal_line(NO_SEAL)), with_line(6, second[5].upper()),
            with_line(late, second[-1][:7] + second[-1][7:].upper()),
            with_line(late, second[-1][:-2] + b"\n"), with_line(late, b"# seal \n"),
        ],
        f"chapter 2 line {late + 1}": [
            with_line(4, b"# at 2026-11-27T08:00:00.000Z\n" + second[3]),
            with_second(*second, second[-1]),
        ],
        "chapter 3 line 4": [{1: good[0], 2: good[1], 3: first_of(good[2]) + b"no row\n"}],
        "chapter 3 line 1": [{1: good[0], 2: good[1], 3: b""}],
    }  # fmt: skip
    count = 0
    for fault, all_ in cases.items():
        for number, texts in enumerate(all_, 1):
            folder = write_history(HERE / "wrong", KNOWN_SITE)
            for place, text in texts.items():
                chapter_path(folder, place).write_bytes(text)
            what = f"{fault}, case {number}"
            expect_advised(what, folder, fault, chapter=2)
            for word in ("shifts", "next"):
                ended = run(PROGRAM, word, folder)
                got = (ended.status, ended.out, ended.err)
                said = advised(fault, folder, chapter=2) + "\n"
                expect(f"{what}: {word}", got, (1, b"", said))
            after = {place: chapter_path(folder, place).read_bytes() for place in texts}
            expect(f"{what}: the files", after, texts)
            expect(f"{what}: no more", len(list_chapters(folder)), len(texts))
            count += 1
    folder = write_history(HERE / "wrong", KNOWN_SITE, *good)
    ended = run(*command(folder))
    expect("the good ones", (ended.status, ended.err), (0, ""))
    expect("their rows", ended.out.startswith(say_found(sum(map(count_rows, good)), 3)), True)
    return count


def first_of(text):
    """The first lines of a chapter's text."""
    return b"".join(text.splitlines(keepends=True)[:FIRST_LINES])


@test
def files_that_change():
    """Somebody cuts, replaces, moves, removes or links the open chapter's file while the station
    runs, or writes into it: that is noticed at the next flush, and nobody is told more."""
    aside = HERE / "aside"

    def replace(path):
        aside.write_bytes(path.read_bytes())
        aside.rename(path)

    def move(path):
        path.rename(aside)

    def move_and_link(path):
        path.rename(aside)
        path.symlink_to(aside)

    def append(path):
        with open(path, "ab") as file:
            file.write(write_rows(sign_on(9)))

    changes = {
        "cut": lambda path: os.truncate(path, path.stat().st_size - 1),
        "cut to nothing": lambda path: os.truncate(path, 0),
        "replaced": replace, "moved": move, "moved, and a link": move_and_link,
        "removed": lambda path: path.unlink(), "another name": lambda path: os.link(path, aside),
        "longer": append, "a folder moved": lambda path: path.parent.rename(HERE / "elsewhere"),
    }  # fmt: skip
    for chapter in (1, 2):
        for what, change in changes.items():
            aside.unlink(missing_ok=True)
            new_folder("elsewhere")
            folder = new_folder("changing")
            with start_station(folder) as day, day.connect() as till, day.connect() as other:
                till.sendall(sign_on(1))
                expect("a reply", len(receive_message(till)), 16)
                if chapter == 2:
                    till.sendall(CLOSE_IT)
                    receive_message(till)
                    wait_for_chapter(folder, 2)
                other.sendall(sign_on(2))
                expect("a reply", len(receive_message(other)), 16)
                change(chapter_path(folder, chapter))
                till.sendall(read_point(1, 0, 1))
                expect(f"{what}: a read", is_accepted(decode(receive_message(till))[0]), True)
                till.sendall(command_point(1, 0, 1, OPEN))
                expect(f"{what}: no reply", receive_or_end(till), b"")
                with contextlib.suppress(ConnectionError):
                    other.sendall(sign_off(2))
                expect(f"{what}: nor to another", receive_or_end(other), b"")
                out, err = day.process.communicate(timeout=WAIT)
                got = (day.process.returncode, out, err)
                expect(f"{what}: its end", got, (1, b"", f"{unstored(folder)}\n".encode()))


@test
def closed_files_that_change():
    """A closed chapter is only read at a start: the station that runs doesn't look at it."""
    folder = new_folder("closed")
    with start_station(folder) as day, work_at(day) as work:
        work.come()
        work.close_shift()
        wait_for_chapter(folder, 2)
        first = chapter_path(folder, 1)
        text = first.read_bytes()
        first.unlink()
        work.sell(1, 1_000)
        end(day)
    expect_advised("a chapter was removed", folder, "chapter 1 is missing")
    first.write_bytes(text)
    ended = run(*command(folder))
    expect("it is back", (ended.status, ended.err), (0, ""))


# ---- power cuts


def list_images(before, row, sealed, following, later):
    """The files that a cut of the power may leave while a chapter ends, write by write: the close's
    row, the seal, the next chapter's copy, its name, and its first row. Each is a dictionary of
    files, with the number of rows that were told by then."""
    rows = count_rows(before)
    for length in range(len(row) + 1):
        yield {1: before + row[:length]}, rows
    whole, seal = before + row, sealed[len(before + row) :]
    for length in range(len(seal) + 1):
        yield {1: whole + seal[:length]}, rows
    for length in range(len(following) + 1):
        yield {1: sealed, "copy": following[:length]}, rows
    yield {1: sealed, 2: following}, rows
    for length in range(len(later) + 1):
        yield {1: sealed, 2: following + later[:length]}, rows + count_rows(row)


@test
def power_cuts():
    """The power is cut at each octet that is written while a chapter ends: a start finds each row
    that was told, the chapters go on from each other, and the shift is closed just where its row
    is there."""
    body, row = write_rows(*DAY), time_line("2026-01-02T03:04:05.678Z") + write_rows(CLOSE_IT)
    sealed, following = write_chapters(KNOWN_SITE, body + row, b"")
    later = write_rows(command_point(1, 0, 2, OPEN))
    folder, count = HERE / "cut", 0
    for image, told in list_images(FIRST + body, row, sealed, following, later):
        write_history(folder, KNOWN_SITE)
        for name, text in image.items():
            is_copy = name == "copy"
            path = copy_of(chapter_path(folder, 2)) if is_copy else chapter_path(folder, name)
            path.write_bytes(text)
        texts = [whole_lines(text) for name, text in image.items() if name != "copy"]
        rows = sum(map(count_rows, texts))
        what = f"{' '.join(f'{name}: {len(text)}' for name, text in image.items())} octets"
        if rows < told:
            raise Failed(f"{what}: {rows} rows, {told} told")
        is_over = row in texts[0] and len(texts) == 1
        with start_station(folder) as day:
            expect(f"{what}: what it found", day.found, Found(len(texts), rows))
            if is_over:
                with day.connect():
                    wait_for_chapter(folder, 2)
            report_text = end(day)
        after = read_texts(folder)
        check_chapters(KNOWN_SITE, after)
        expect(f"{what}: chapters", len(after), len(texts) + is_over)
        for text, found in zip(texts, after):
            expect(f"{what}: a front of the chapter", found.startswith(text), True)
        expect(f"{what}: rows", sum(map(count_rows, after)), rows + 1)
        expect(f"{what}: the report", report_text.encode(), report_of(b"".join(after)))
        expect_files(f"{what}: the files", folder, KNOWN_SITE, len(after))
        count += 1
    return count


# ---- a station that is killed

KILLS = 120
CENTS = 0x75  # an item
PRICES = (1_500, 1_799)
CUTS = 40


def write_kill_sites():
    """A site whose book forgets its rows again and again: fewer than 385 of them are in memory when
    a peer is read from. And the same site with as many rows as a replay may make."""
    site, wide = HERE / "killed.toml", HERE / "replayed.toml"
    nozzles = "nozzles = [{product = 1, reading = 0}, {product = 2, reading = 1000}]"
    text = "managers = [1]\n" + "".join(
        f'[[product]]\nnumber = {number}\nname = "{name}"\nprice = {price}\n'
        for number, name, price in zip((1, 2), ("diesel", "petrol"), PRICES)
    )
    text += "".join(f"[[point]]\nnumber = {n}\n{nozzles}\n" for n in range(1, POINTS + 1))
    site.write_text(f"rows = 1024\n{text}")
    wide.write_text(text)
    return site, wide


def kill_start(path, site, chance):
    """Starts a station, and kills it before anybody asks it anything; how long it lived may be
    too short for it to read its history."""
    with subprocess.Popen(
        command(path, "--detached", site=site), stdin=subprocess.DEVNULL,
        stdout=subprocess.DEVNULL, stderr=subprocess.PIPE,
    ) as process:  # fmt: skip
        time.sleep(chance.random() * 0.1)
        process.kill()
        _, err = process.communicate(timeout=WAIT)
    expect("a start that is killed", err, b"")


def run_and_kill(path, site, runs, seed):
    """Runs the station until it is killed, KILLS times in all, and then for a whole day; returns
    how many rows it found at each start, and its last report."""
    chance, found, kills = start_chance(seed, "kills"), [], 0
    while True:
        if kills < KILLS and chance.random() < 0.2:
            kill_start(path, site, chance)
            kills += 1
        with start_station(path, site=site) as day:
            found.append(day.rows)
            runs.begin(day.port)
            is_last = kills >= KILLS
            time.sleep(2 if is_last else chance.choice((0.02, 0.1, 0.3, 0.6)) * chance.random())
            if runs.wrong:
                raise Failed("; ".join(runs.wrong[:3]))
            if is_last:
                runs.stop()
                yield day
                yield found, end(day)
                return
            runs.kill(day.process)
            out, err = day.process.communicate(timeout=WAIT)
            expect("a run that is killed", (out, err), (b"", b""))
            kills += 1


def expect_told(peers, rows, found):
    """Each peer's sessions, with all that came to it, are what the history's rows tell, run by
    run; and no row is of anybody else. What reads were answered is compared by `expect_looks`."""
    told, bounds = Told(rows), [*found, len(rows)]
    for peer in peers:
        for number, (begin, end_) in enumerate(zip(bounds, bounds[1:])):
            sessions = [one for run_, one in peer.sessions if run_ == number]
            why = told.explain(peer.node, sessions, begin, end_)
            if why:
                raise Failed(f"run {number}, rows {begin} to {end_}: {why}")
    expect("whose rows", {*told.own} <= {peer.node for peer in peers}, True)
    return told


def expect_each_litre_once(peers, rows, report_text):
    """No sale is cleared twice; who was told that it cleared one is who did; each litre is in one
    place, and all that the meters told is metered."""
    cleared = {}
    for row in rows:
        asked = decode(row.request)[0]
        if asked.kind == WRITE and CLEAR in asked.items and row.is_accepted:
            sale = name_sale(asked.address)
            if sale in cleared:
                raise Failed(f"sale {sale} is cleared by {cleared[sale]} and by {row.node}")
            cleared[sale] = row.node
    for till in peers[:POINTS]:
        for sale in till.told_cleared:
            expect(f"who cleared {sale}", cleared[sale], till.node)
    expect("clears", report_text.splitlines()[1].split()[1], str(len(cleared)))
    lines = [line.split() for line in report_text.splitlines() if line.startswith("product ")]
    for number, (line, begun) in enumerate(zip(lines, (0, 1_000)), 1):
        volumes = dict(zip(line[3::2], map(int, line[4::2])))
        parts = [volumes[name] for name in ("running", "payable", "locked", "cleared", "adjusted")]
        expect(f"the litres of product {number}", volumes["metered"], sum(parts))
        meters = sum(pump.meters[number] - begun for pump in peers[POINTS:])
        expect(f"what is metered of product {number}", volumes["metered"], meters)
    return len(cleared)


def name_sale(address):
    """The point, the shift and the number of a sale. Where its address doesn't name the shift, that
    is the first one: only tills that name it work in later ones."""
    point, shift = address[0] - 0x20, 1
    if address[1] == NAMED_SHIFT:
        shift, address = int(address[2:4].hex()), address[2:]
    return point, shift, int(address[2:].hex())


def expect_fronts(text, site, wide, seed):
    """A copy of the open chapter, cut at whatever octet, is opened with the rows of its whole
    lines."""
    chance, first = start_chance(seed, "cuts"), len(first_lines(site))
    begins = [at + 1 for at in range(first, min(len(text), 40_000)) if text[at : at + 1] == b"\n"]
    places = [chance.randrange(len(text)) for _ in range(CUTS // 2)]
    places += [chance.randrange(min(len(text), 20_000)) for _ in range(CUTS // 4)]
    places += [chance.choice(begins) + chance.choice((-1, 0, 1)) for _ in range(CUTS // 4)]
    for place in places:
        if 0 < place < first:
            continue  # `other_first_lines` looks at these.
        path = write_chapter(text[:place], "cut", site)
        kept = whole_lines(text[:place]) or first_lines(site)
        ended = run(*command(path, site=site))
        count = count_rows(kept)
        said = say_found(count)
        is_opened = ended.status == 0 and ended.err == "" and ended.out.startswith(said + b"list")
        if not is_opened:
            raise Failed(f"cut to {place} octets: {ended}")
        after = path.read_bytes()
        expect(f"cut to {place} octets: its front", after[: len(kept)], kept)
        rows = read_rows(PROGRAM, wide, retitle(after, wide))
        offs = [row for row in rows[count:] if not is_sign_off(row)]
        expect(f"cut to {place} octets: what else", offs, [])
        if not ended.out.endswith(report_of(retitle(after, wide), wide)):
            raise Failed(f"cut to {place} octets: the report is another one's")


@test
def killed_for_real(seed):
    """Eight tills and eight dispensers work at a station that is killed at any moment and started
    again, and that forgets its rows after each few hundred. Each reply that ever came is that of
    its row, or for a read what a replay answers there; each notice is of a row too, and all come in
    the rows' order; each row is what its peer sent; and the station's last report is that of its
    history."""
    (site, wide), runs = write_kill_sites(), Runs()
    path, begun = write_chapter(b"", "killed", site), time.monotonic()
    peers = [Till(runs, number, seed) for number in range(1, POINTS + 1)]
    peers += [Pump(runs, point, seed) for point in range(1, POINTS + 1)]
    for peer in peers:
        peer.start()
    try:
        days = run_and_kill(path, site, runs, seed)
        next(days)
        for peer in peers:
            peer.join(WAIT)
            expect(f"{peer.node} has stopped", peer.is_alive(), False)
        found, told = next(days)
    finally:
        runs.stop()
    if runs.wrong:
        raise Failed("; ".join(runs.wrong[:3]))
    for peer in peers:
        peer.take_rest()
        last = peer.sessions[-1][1]
        expect(f"{peer.node}: its last replies", len(last.replies), len(last.sent))
    took = time.monotonic() - begun
    text = path.read_bytes()
    expect("whole lines", whole_lines(text), text)
    expect("no copy is left", copy_of(path).exists(), False)
    rows = read_rows(PROGRAM, wide, retitle(text, wide))
    looks = expect_looks(PROGRAM, wide, expect_told(peers, rows, found))
    sales = expect_each_litre_once(peers, rows, told)
    expect("enough sales", sales > KILLS, True)
    expect("the report", told.encode(), report_of(retitle(text, wide), wide))
    came = [one for peer in peers for _, session in peer.sessions for one in session.came]
    notices = sum(map(is_notice, came))
    print(
        f"history: {KILLS} kills in {took:.0f} seconds, {len(rows)} rows, {len(came) - notices}"
        f" replies, {looks} of reads, {notices} notices, {sales} sales,"
        f" {sum(len(peer.sessions) for peer in peers)} sessions",
        flush=True,
    )  # fmt: skip
    expect_fronts(text, site, wide, seed)


# ---- a month

MONTH_PATIENCE = 1_200  # seconds
IS_WHOLE_MONTH = SALES_OF_SHIFT >= 300
LEAST_KILLS, LEAST_KILLS_OF_ENDS = (200, 10) if IS_WHOLE_MONTH else (10, 0)


def run_month(folder, site, runs, tills, seed):
    """Runs the station until its shifts are worked, and kills it often: at any moment, and in the
    middle of a chapter's end. Yields the last day while it runs, and then what was found at each
    start, the last report, how many kills there were, and how many while a chapter ended."""
    chance, found, kills, ends = start_chance(seed, "a month"), [], 0, 0
    deadline = time.monotonic() + MONTH_PATIENCE
    while True:
        with start_station(folder, site=site) as day:
            found.append(day.rows)
            runs.begin(day.port)
            seconds, is_ending = chance.random(), False
            if chance.random() < 0.5:
                is_ending = wait_for_chapter_end(folder, seconds)
            else:
                time.sleep(seconds / 2)
            if runs.wrong or time.monotonic() > deadline:
                raise Failed("; ".join(runs.wrong[:3]) or "the month has no end")
            if tills[0].shift > MONTH_SHIFTS:
                runs.stop()
                yield day
                yield found, end(day), kills, ends
                return
            runs.kill(day.process)
            out, err = day.process.communicate(timeout=WAIT)
            expect("a run that is killed", (out, err), (b"", b""))
            kills, ends = kills + 1, ends + is_ending


def expect_shifts(folder, rows):
    """The shifts of the history are as its rows say: of each how many sales were cleared, and for
    how much."""
    clears, cents = [0], [0]
    for row in rows:
        asked = decode(row.request)[0]
        if not row.is_accepted or asked.kind != WRITE:
            continue
        if CLEAR in asked.items:
            clears[-1] += 1
            cents[-1] += int.from_bytes(decode(row.reply)[0].items[CENTS], "big")
        elif CLOSE_SHIFT in asked.items:
            clears.append(0)
            cents.append(0)
    told = run(PROGRAM, "shifts", folder)
    expect("shifts", (told.status, told.err), (0, ""))
    lines = [line.split() for line in told.out.decode().splitlines()]
    got = [" ".join(words[:2] + words[6:10]) for words in lines]  # without the times
    wanted = [
        f"shift {number} clears {count} cents {sum_}"
        for number, (count, sum_) in enumerate(zip(clears, cents), 1)
    ]
    expect("the shifts", got, wanted)
    return len(clears)


@test
def a_month(seed):
    """A month of shifts: eight tills and eight dispensers work at a station that is killed at any
    moment and started again on its history, also while a chapter ends. Each reply is that of its
    row, as a replay of all chapters answers; no sale is collected twice; each litre is in one
    place, from the first reading to the last; the chapters go on from each other, one a shift.
    The environment says how large it is: SHIFTS (90) and SALES_OF_SHIFT (12)."""
    (site, wide), runs = write_kill_sites(), Runs()
    folder, begun = new_folder("month"), time.monotonic()
    tills = []
    tills += [ShiftTill(runs, number, seed, tills) for number in range(1, POINTS + 1)]
    peers = [*tills, *(Pump(runs, point, seed) for point in range(1, POINTS + 1))]
    for peer in peers:
        peer.start()
    try:
        days = run_month(folder, site, runs, tills, seed)
        next(days)
        for peer in peers:
            peer.join(WAIT)
            expect(f"{peer.node} has stopped", peer.is_alive(), False)
        found, told, kills, ends = next(days)
    finally:
        runs.stop()
    if runs.wrong:
        raise Failed("; ".join(runs.wrong[:3]))
    for peer in peers:
        peer.take_rest()
    took = time.monotonic() - begun
    texts = read_texts(folder)
    check_chapters(site, texts)
    expect_files("after the month", folder, site, len(texts))
    text = retitle(b"".join(texts), wide)
    rows = read_rows(PROGRAM, wide, text)
    looks = expect_looks(PROGRAM, wide, expect_told(peers, rows, found))
    sales = expect_each_litre_once(peers, rows, told)
    expect("the report", told.encode(), report_of(text, wide))
    expect("enough sales", sales >= MONTH_SHIFTS * SALES_OF_SHIFT, True)
    shifts = expect_shifts(folder, rows)
    expect("shifts", shifts, MONTH_SHIFTS + 1)
    expect("a chapter a shift", len(texts), shifts)
    expect("killed", kills >= LEAST_KILLS, True)
    expect("killed while a chapter ended", ends >= LEAST_KILLS_OF_ENDS, True)
    came = sum(len(session.came) for peer in peers for _, session in peer.sessions)
    print(
        f"history: a month of {shifts} shifts in {took:.0f} seconds, {kills} kills, {ends} while a"
        f" chapter ended, {len(rows)} rows, {came} messages, {looks} reads, {sales} sales",
        flush=True,
    )
