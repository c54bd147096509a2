"""Programs whose allocations and devices fail.

- each test of a module `out_of_memory`, with its Nth allocation failed, for N = 1, 2, .. until a
  run meets none;
- the program on each of its case files, and on the stored messages, in the same way: it ends with
  `fault 31` and status 4, and what it wrote is a front of what it writes else (or it did without,
  and all is as ever);
- the program with each read and each write failed in turn, with writes that are cut short, with an
  output that takes only so much, and with interrupted calls; the commands that read a history,
  with each read of its files failed;
- the program as a server of one session, with its allocations failed in turn: it ends with `fault
  31` and status 4, or settles all the same, and the peer gets a front of what it may get; with each
  of its writes failed, with writes that are cut short, and with interrupted calls, of its socket
  too; with each read and each write of its socket failed;
- the server, with each call that makes its listener failed: `fault 63`; with a connection that
  isn't accepted and a worker that isn't started: nobody is served, and the day is settled;
- the program as a station of a till and a dispenser, with its allocations failed in turn: it ends
  with `fault 31` and status 4, or at most one of the two sessions ends early; with each of its
  writes, its listener's calls, its connection and its thread failed, with each read and each write
  of its sockets failed, and with calls that are cut short or interrupted;
- the station with a history, with each write and each flush of its files failed, where what wasn't
  flushed is lost, also where the file system stops and doesn't say so; with writes that are cut
  short, and with files that aren't opened, locked, read or renamed: `fault 62` and no report, or
  `cannot read FOLDER`; the same while a chapter ends, where it may go on too; reads meet no failed
  write or flush; with the open chapter moved, or its copy replaced, by somebody else at each flush
  of a start; with allocations failed in turn, at the opening of a history with rows too, and where
  rows are forgotten; with each read and each write of its sockets failed. Nobody is told what isn't
  stored, and the next start reads all that was told;
- a demo, in the first way: it ends with `fault 31`, 63 or 64 and no report, or a worker ends its
  own work early and the report balances; with each call that makes a listener or a connection
  failed, over loopback: `fault 63` and no report; with each worker not started: `fault 64` and no
  report, but where another one serves its sessions;
- a crew of two, with each worker not started: its end says so, and the other works;
- the tables of rows at a site and at a desk, in the first way: a row whose reply was lost with a
  failed allocation says so, and every other row is as ever.

Nothing is built anew: a library that is loaded before the program (faults.c) makes the calls
fail. A test counts the runs that met their fault."""

import concurrent.futures
import contextlib
import functools
import json
import os
import pathlib
import re
import select
import socket
import subprocess
import tempfile
import threading
import time
import typing

from shared.checks import (
    NO_MEMORY, NO_NEW_CHAPTER, NO_THREAD, NOT_PRINTED, OPEN_IT, UNACCEPTED, UNCONNECTED, Failed,
    advised, chapter_unread, expect, unprinted, unstored, unwritten,
)  # fmt: skip
from shared.histories import (
    LOCK_FILE, SITE_FILE, check_chapters, find_untold, first_lines, is_read, list_chapters,
    read_chapters, read_rows, retitle, split_messages, whole_lines, without_marks, write_chapters,
    write_history, write_rows,
)  # fmt: skip
from shared.page_day import PageDay
from shared.running import CRATES, EXAMPLES, PATIENCE, compile_c, run, tell_deaf
from shared.serving import UNKEPT, Found, read_found
from shared.station import (
    ACKNOWLEDGE, ANSWER, CLOSE, CLOSE_SHIFT, DISPENSER, FIVE_POINTS, HANG_UP, KNOWN_SITE, LIFT,
    OPEN, RELEASE, SITES, TILL, ask_site, command_point, connect, decode, parse, read_point,
    read_product, read_sale, read_site, receive_all, receive_message, report, sign_off, sign_on,
)  # fmt: skip
from tests.built import PROGRAM, TABLES, find_tests_program, list_tests
from tests.suite import make_folder, test

FOLDER, SITE_TABLES = CRATES / "forecourt", CRATES / "site_tables"
STORED, NOTHING = FOLDER / "stdin", pathlib.Path(os.devnull)
MODULE = "out_of_memory"  # of the tests whose allocations fail
AT_ONCE = 32  # runs
MOST = 10_000  # runs in turn
# In the folder in which a program runs; faults.c names them too.
HISTORY, MOVED = "history", "moved"
COPY = "000001.journal.starting"
FAILED = "Input/output error"  # the system's words on a call that fails
NO_ROOM, NO_LOCK = "No space left on device", "No locks available"  # .. on a write, on a lock
# What a station says of its history as it starts: of a flush that fails of what it reads; of its
# folder, which it can't flush; of its site file or chapter, which it can't write; and of a file
# that isn't locked or opened.
NOT_WRITTEN = unwritten(HISTORY)
SITE_UNREAD = f"cannot read {HISTORY}/site.toml: {FAILED}\n{OPEN_IT}"
UNFLUSHED = chapter_unread(HISTORY), SITE_UNREAD
FOLDER_UNFLUSHED = f"fault 62\ncannot write {HISTORY}: {FAILED}"
SITE_UNWRITTEN = [
    f"fault 62\ncannot write {HISTORY}/site.toml: {why}" for why in (FAILED, NO_ROOM, NO_LOCK)
]
UNLOCKED, UNREAD = (f"cannot read {HISTORY}: {why}\n{OPEN_IT}" for why in (NO_LOCK, FAILED))
# .. by the call that fails.
STARTS = {
    "FAIL_JOURNAL_WRITE": [NOT_WRITTEN, SITE_UNWRITTEN[1]],
    "FAIL_SYNC": [NOT_WRITTEN, SITE_UNWRITTEN[0], FOLDER_UNFLUSHED, *UNFLUSHED],
    "STOP_AT_SYNC": [NOT_WRITTEN],
    "FAIL_RENAME": [NOT_WRITTEN, SITE_UNWRITTEN[0]],
    "FAIL_OPEN": [NOT_WRITTEN, SITE_UNWRITTEN[0], FOLDER_UNFLUSHED, *UNFLUSHED, UNREAD],
    "FAIL_LOCK": [NOT_WRITTEN, SITE_UNWRITTEN[2], UNLOCKED],
    "FAIL_ALLOCATION": [],
}
# .. and once it has started: where a row isn't stored, and where each is.
NOT_STORED, NOT_SEALED = unstored(HISTORY), unprinted(HISTORY)


class Place:
    """Where programs run with faults: a folder, and the library that is loaded before them."""

    def __init__(self, folder):
        folder.chmod(0o755)
        self.folder, self.compiling, self.compiled = folder, threading.Lock(), None

    @property
    def library(self):
        """The library, which is compiled for the first run."""
        with self.compiling:
            flags = ("-O1", "-shared", "-fPIC")
            self.compiled = self.compiled or compile_c(self.folder, "tests/faults.c", *flags)
        return self.compiled

    @contextlib.contextmanager
    def prepare(self, faults):
        """A folder to run in, with these faults: how to start a program there, and the file that
        is made when a call meets its fault."""
        with tempfile.TemporaryDirectory(dir=self.folder) as here:
            met = pathlib.Path(here) / "met"
            values = {name: str(value) for name, value in faults.items()}
            yield {"env": {"LD_PRELOAD": self.library, "MET": str(met), **values}, "cwd": here}, met

    def run(self, command, source, **faults):
        """The end of a run, and whether the fault was met."""
        with self.prepare(faults) as (how, met):
            return run(*command, given=source, **how), met.exists()

    def station(self, **faults):
        """A station of a till and the dispenser of point 1, whose day ends behind their requests:
        its status, its report, its text on standard error, what each got (None where it doesn't
        listen), and whether the fault was met."""
        with self.prepare(faults) as (how, met):
            return self.run_station([], how, met)[0]

    def stored(self, texts, asked=None, **faults):
        """The same of a station with a history of these chapters, or with a new one; and how the
        next start on it ended, which meets no fault. Its peers ask this, or as ever."""
        with self.prepare(faults) as (how, met):
            folder = pathlib.Path(how["cwd"]) / HISTORY
            if texts is not None:
                write_history(folder, KNOWN_SITE, *texts)
            end, found = self.run_station(["--history", HISTORY], how, met, asked or ask_station)
            left = read_texts(folder)
            words = ["station", KNOWN_SITE, "--port=0", "--history", HISTORY]
            again = run(PROGRAM, *words, given=NOTHING, cwd=how["cwd"])
            names = [path.name for path in folder.glob("*.starting")]
            return Stored(end, found, left, Again(again, read_texts(folder), names))

    def open_history(self, *texts, **faults):
        """A station that opens a history of these chapters, and whose day ends at once."""
        words = ["station", KNOWN_SITE, "--port=0", "--history", HISTORY]
        with self.prepare(faults) as (how, met):
            here = pathlib.Path(how["cwd"])
            folder = write_history(here / HISTORY, KNOWN_SITE, *texts)
            begun = [path.stat().st_ino for path in list_chapters(folder)]
            end = run(PROGRAM, *words, given=NOTHING, **how)
            out = re.sub(b"127.0.0.1:[0-9]+", b"PORT", end.out)
            site, lock = folder / SITE_FILE, folder / LOCK_FILE
            expect("its site file", site.read_bytes(), KNOWN_SITE.read_bytes())
            own = {*list_chapters(folder), site, lock, folder, met}
            beside = {
                path.name: path.read_bytes()
                for path in (*here.iterdir(), *folder.iterdir()) if path not in own
            }  # fmt: skip
            is_anew = begun != [path.stat().st_ino for path in list_chapters(folder)]
            end = end._replace(out=out)
            return Opening(end, read_texts(folder), met.exists(), is_anew, beside)

    def run_station(self, words, how, met, asked=None):
        """How the station ended, and what it said that it found of its history."""
        command, pipe = [PROGRAM, "station", KNOWN_SITE, "--port=0", *words], subprocess.PIPE
        with subprocess.Popen(
            command, stdin=pipe, stdout=pipe, stderr=pipe, bufsize=0, **how
        ) as program:  # fmt: skip
            line = program.stdout.readline().decode()
            found = read_found(line)
            line = program.stdout.readline().decode() if found else line
            port = int(line.rsplit(":", 1)[1]) if line else None
            got = (asked or ask_station)(port) if port else (None, None)
            out, err = program.communicate(timeout=PATIENCE)
        err = err.decode() if HISTORY in words else err.decode().replace(UNKEPT, "", 1)
        return Station(program.returncode, out.decode(), err, *got, met.exists()), found

    def serve(self, **faults):
        """A server of one session: its status, its report, its text on standard error, what its
        peer got (None where it doesn't listen), and whether the fault was met."""
        words = ["serve", KNOWN_SITE, "--port=0", "--workers=1", "--sessions=1"]
        with self.prepare(faults) as (how, met):
            with subprocess.Popen(
                [PROGRAM, *words], stdout=subprocess.PIPE, stderr=subprocess.PIPE, bufsize=0, **how
            ) as server:
                line = server.stdout.readline().decode()
                got = ask(int(line.rsplit(":", 1)[1])) if line else None
                out, err = server.communicate(timeout=PATIENCE)
            return server.returncode, out.decode(), err.decode(), got, met.exists()


PLACE = Place(make_folder())


class Station(typing.NamedTuple):
    """How a station ended, and what its till and its dispenser got."""

    status: int
    report: str
    err: str
    till: bytes
    pump: bytes
    met: bool


class Opening(typing.NamedTuple):
    """How a station that opened a history ended, what its chapters have then, whether the fault was
    met, whether another file has the name of a chapter, and what files there are beside it."""

    end: object
    texts: list
    met: bool
    is_anew: bool
    beside: dict

    @property
    def plain(self):
        """Its chapters without times and seals."""
        return [*map(without_marks, self.texts)]


class Again(typing.NamedTuple):
    """How the next start on a history ended, what its chapters have then, and which copies were
    left."""

    end: object
    texts: list
    copies: list


class Stored(typing.NamedTuple):
    """How a station with a history ended, what it said that it found there, what the chapters have
    then, and how the next start on it ended."""

    end: Station
    found: object
    texts: list
    again: Again

    @property
    def plain(self):
        """The chapters without times and seals."""
        return [*map(without_marks, self.texts)]


def read_texts(folder):
    return [path.read_bytes() for path in list_chapters(folder)]


def ask_station(port):
    """What a station on this port sends to a dispenser and to a till, which ask one after the
    other; where their sessions last, all of it."""
    pump = b""
    with connect(port) as peer:
        with contextlib.suppress(OSError):
            peer.sendall(ONLINE)
            pump = receive_message(peer)
        till = ask(port)
        with contextlib.suppress(OSError):
            peer.shutdown(socket.SHUT_WR)
            pump += receive_all(peer)
    return till, pump


def ask(port):
    """What a server on this port sends to a peer that asks."""
    got = b""
    with contextlib.suppress(OSError), connect(port) as peer:
        peer.sendall(ASKED)
        peer.shutdown(socket.SHUT_WR)
        got = receive_all(peer)
    return got


def count_in_turn(name, one):
    """Calls one(N) for N = 1, 2, .. until it meets nothing, several at a time; returns how many
    were met. What has no end fails."""
    with concurrent.futures.ThreadPoolExecutor(os.cpu_count()) as pool:
        for first in range(1, MOST, AT_ONCE):
            numbers = range(first, first + AT_ONCE)
            for n, is_met in zip(numbers, pool.map(one, numbers)):
                if not is_met:
                    return n - 1
    raise Failed(f"{name}: more than {MOST} of them")


def count_some_in_turn(name, one):
    """The same of what has to meet some."""
    count = count_in_turn(name, one)
    if count == 0:
        raise Failed(f"{name}: nothing failed")
    return count


def find_tests():
    """Each test of a module of failing allocations, with its program."""
    for folder in sorted(CRATES.iterdir()):
        if any((folder / "src").rglob(f"{MODULE}.rt")):
            program = find_tests_program(folder.name)
            names = [name for name in list_tests(program) if f"{MODULE}::" in name]
            if not names:
                raise Failed(f"{folder.name} has no test of failing allocations")
            yield from ((program, name) for name in names)


@test
def fail_allocations_of_tests():
    """Each test of a module `out_of_memory`, with each allocation failed."""
    runs, tests = 0, list(find_tests())
    for program, name in tests:

        def one(n):
            end, met = PLACE.run([program, name], NOTHING, FAIL_ALLOCATION=n)
            if end.status != 0 or "test result: ok" not in end.out.decode() + end.err:
                why = f"status {end.status}\n{end.out.decode()}{end.err}"
                raise Failed(f"{program.name}: {name} with allocation {n} failed: {why}")
            return met

        runs += count_some_in_turn(name, one)
    return runs


def list_cases(kind):
    """The case files of this kind; the stored messages are a replay's, too."""
    files = sorted((FOLDER / kind).glob("*.hex"))
    return [STORED, *files] if kind == "cases" else files


def list_days():
    """What reads a day in words, or tells one for people or for a back office. The paying day has
    sales, the fuelling day a draw."""
    for source in (EXAMPLES / "paying_day.words", EXAMPLES / "fuelling_day.words"):
        yield ["spell"], source
    for words in ([], ["--json"], ["--draws"], ["--draws", "--json"]):
        yield ["sales", FIVE_POINTS, *words], EXAMPLES / "paying_day.hex"
        yield ["sales", FIVE_POINTS, *words], EXAMPLES / "fuelling_day.hex"
    for words in ([], ["--csv"], ["--json"], ["--gaps"], ["--gaps", "--csv"]):
        yield ["meters", FIVE_POINTS, *words], EXAMPLES / "fuelling_day.hex"
    yield ["report", FIVE_POINTS, "--human"], EXAMPLES / "paying_day.hex"


def read_day(name):
    """The lines of a day's rows, without its reads."""
    lines = (EXAMPLES / name).read_text().splitlines()
    octets = bytes.fromhex("".join(line for line in lines if not line.startswith("#")))
    return write_rows(*(one for one in split_messages(octets) if not is_read(one)))


def make_history(name, *bodies):
    folder = write_history(
        make_folder() / name, FIVE_POINTS, *write_chapters(FIVE_POINTS, *bodies)
    )
    folder.parent.chmod(0o755)
    return folder


@functools.cache
def make_read_histories():
    """The folders of two histories, for the commands that read one: with a draw and sales, and more
    rows than are printed at once; and with nothing in the way of the next one."""
    more = write_rows(*[command_point(1, 0, 2, one) for one in (OPEN, CLOSE)] * 150)
    busy = make_history("busy", read_day("fuelling_day.hex") + more, read_day("paying_day.hex"))
    return busy, make_history("ended", read_day("paying_day.hex"), b"")


def list_readings():
    """The commands that read a history's folder."""
    busy, ended = make_read_histories()
    for word, *words in (
        ["replay"], ["replay", "--changes", "--shift", "1"], ["replay", "--json", "--from", "3"],
        ["explain"], ["sales"],
        ["sales", "--json"], ["sales", "--draws"], ["report"], ["report", "--human"],
        ["report", "--json", "--shift", "1"], ["shifts"], ["shifts", "--json"],
    ):  # fmt: skip
        yield [word, busy, *words], NOTHING
    for word, *words in (
        ["next"], ["verify"], ["verify", "--seal", "0" * 64], ["story", "1/1/1"],
        ["explain", "--times"], ["sales", "--from", "2026-01-01", "--to", "2026-12-31"],
        ["meters", "--shift", "1"], ["meters", "--json"],
    ):  # fmt: skip
        yield [word, ended, *words], NOTHING


def list_commands():
    """Words of the command line, and what comes on standard input."""
    for source in list_cases("cases"):
        yield [], source
    for site in ("c1", "points_64", "fault_71_of_21_octets", "fault_76_not_by_place"):
        yield ["check", SITES / f"{site}.toml"], NOTHING
    yield ["replay", KNOWN_SITE, "--changes"], STORED
    yield ["replay", SITES / "no_such_file.toml"], STORED
    for source in list_cases("explained"):
        yield ["explain"], source
    for source in list_cases("reports"):
        yield ["report", KNOWN_SITE], source
    yield from list_days()
    yield from list_readings()
    yield ["--version"], NOTHING


def name_command(words, source):
    return " ".join([*(os.path.basename(word) for word in words), "on", source.name])


def is_unexplained(words, end, whole):
    """A site file's fault was told, but not explained, or that a file can't be read, but not why,
    for want of memory for that."""
    told, _, _ = whole.err.partition("\n" if words[:1] == ["check"] else ": ")
    has_more = words[:1] == ["check"] or told.startswith("cannot read ")
    return has_more and end == whole._replace(err=told + "\n")


@test
def fail_allocations_of_program():
    """The program with words and inputs of all kinds."""
    runs, commands = 0, list(list_commands())
    for words, source in commands:
        name, command = name_command(words, source), [PROGRAM, *words]
        whole, _ = PLACE.run(command, source)

        def one(n):
            end, met = PLACE.run(command, source, FAIL_ALLOCATION=n)
            if not met and end != whole:
                raise Failed(f"{name}: not the same twice")
            is_ended = (end.status, end.err) == (4, NO_MEMORY)
            is_front = is_ended and whole.out.startswith(end.out)
            if met and end != whole and not is_front and not is_unexplained(words, end, whole):
                raise Failed(f"{name} with allocation {n} failed: {end}")
            return met

        runs += count_some_in_turn(name, one)
    return runs


class Command:
    """The program with words and an input, and how it ends without faults."""

    def __init__(self, words, source):
        self.command, self.source = [PROGRAM, *words], source
        self.name = name_command(words, source)
        self.whole, _ = PLACE.run(self.command, source)

    def run(self, **faults):
        return PLACE.run(self.command, self.source, **faults)

    def fail_calls(self, kind, fault, is_met=True):
        """Each call of this kind fails in turn: the program ends with this fault, and a front of
        its text."""

        def one(k):
            end, met = self.run(**{kind: k})
            is_front = (end.status, end.err.strip()) == (1, fault) and self.whole.out.startswith(
                end.out
            )
            if not (is_front if met else end == self.whole):
                raise Failed(f"{self.name}, {kind} {k}: {end}")
            return met

        return (count_some_in_turn if is_met else count_in_turn)(f"{self.name}, {kind}", one)

    def expect_same(self, is_met=True, **faults):
        """These faults change nothing."""
        end, met = self.run(**faults)
        if end != self.whole or is_met and not met:
            raise Failed(f"{self.name} isn't the same with {faults}, or met none of them")
        return met

    def limit_output(self, most):
        """An output of so many octets takes those, and then none."""
        end, met = self.run(TAKE_ALL=most)
        wanted = (1, self.whole.out[:most], NOT_PRINTED) if len(
            self.whole.out
        ) > most else self.whole
        if met != (len(self.whole.out) > most) or (*end[:2], end.err.strip()) != (
            *wanted[:2], wanted[2].strip()
        ):
            raise Failed(f"{self.name}, an output of {most} octets: {end}, met {met}")
        return met


@test
def fail_devices_of_program():
    """Reads of standard input, and writes."""
    runs, sources = 0, list_cases("cases")
    for source in sources:
        command = Command([], source)
        length = len(command.whole.out)
        runs += command.fail_calls("FAIL_READ", advised("fault 61"))
        runs += command.fail_calls("FAIL_WRITE", NOT_PRINTED, length > 0)
        for most in (1, 5, 33):
            runs += command.expect_same(length > 2 * most, SHORT_WRITE=most)
            runs += command.expect_same(SHORT_WRITE=most, INTERRUPT=1)
        runs += command.expect_same(INTERRUPT=1)
        runs += sum(map(command.limit_output, (0, 1, 33, 100)))
    return runs


@test
def fail_devices_of_files():
    """With words: reads of the site file, reads of standard input, and writes."""
    commands = [(["check", KNOWN_SITE], NOTHING, True, False)]
    commands += [(["replay", KNOWN_SITE, "--changes"], STORED, True, True)]
    commands += [(["explain"], source, False, True) for source in list_cases("explained")]
    commands += [(["report", KNOWN_SITE], source, True, True) for source in list_cases("reports")]
    commands += [(words, source, len(words) > 1, True) for words, source in list_days()]
    runs = 0
    for words, source, reads_file, reads_input in commands:
        command = Command(words, source)
        if reads_file:
            runs += command.fail_calls("FAIL_FILE_READ", f"cannot read {words[1]}: {FAILED}")
        if reads_input:
            runs += command.fail_calls("FAIL_READ", advised("fault 61"))
        runs += command.fail_calls("FAIL_WRITE", NOT_PRINTED, len(command.whole.out) > 0)
        runs += command.expect_same(INTERRUPT=1)
    return runs


@test
def fail_devices_of_readings():
    """The commands that read a history: reads of its files, and writes. What `replay` and `explain`
    print of the first chapter, before the second one can't be read, is a front of their text."""
    runs = 0
    for words, source in list_readings():
        command = Command(words, source)
        folder = words[1]
        files = [folder / "site.toml", *(folder / f"{n:06d}.journal" for n in (1, 2))]
        wanted = {f"cannot read {file}: {FAILED}" for file in files}

        def one(k):
            end, met = command.run(FAIL_FILE_READ=k)
            is_front = end.status == 1 and end.err.strip() in wanted
            is_front = is_front and command.whole.out.startswith(end.out)
            if not (is_front if met else end == command.whole):
                raise Failed(f"{command.name}, read {k}: {end}")
            return met

        runs += count_some_in_turn(command.name, one)
        if not command.whole.out:
            raise Failed(f"{command.name} prints nothing")
        runs += command.fail_calls("FAIL_WRITE", NOT_PRINTED)
        runs += command.expect_same(INTERRUPT=1)
        runs += command.expect_same(len(command.whole.out) > 100, SHORT_WRITE=100)
        runs += sum(map(command.limit_output, (0, 1, 100)))
    return runs


# A till signs on, and opens point 1. What it may get: all is well; the SignOn found no memory, so
# that the till isn't signed on; or the Open found none.
ASKED = sign_on(1) + command_point(1, 2, 1, OPEN)
SIGNED_ON = "02 01 01 01 00 E1 00 08 01 01 01 01 00 03 01 00"
OPENED = "02 01 01 01 00 E2 00 08 01 21 01 01 00 03 01 00"
REPLIES = [
    parse(SIGNED_ON, OPENED),
    parse("02 01 01 01 00 E1 00 05 01 01 01 01 1F", "02 01 01 01 00 E2 00 05 01 21 01 01 01"),
    parse(SIGNED_ON, "02 01 01 01 00 E2 00 05 01 21 01 01 1F"),
]
# The dispenser of point 1 says that it is online, which it is, and is told that the point is open.
ONLINE = parse("01 01 03 01 00 63 00 04 01 21 60 00")
REFUSED = parse("03 01 01 01 00 E3 00 0F 01 21 01 01 0A 02 08 00 00 00 00 00 00 00 02")
NO_ROW = parse("03 01 01 01 00 E3 00 05 01 21 01 01 1F")
TOLD = parse("03 01 01 01 00 80 00 04 01 21 3C 00")
PUMP_REPLIES = [REFUSED + TOLD, NO_ROW + TOLD, REFUSED, NO_ROW]
# Calls that make a listener.
LISTENING = ["FAIL_SOCKET", "FAIL_BIND", "FAIL_LISTEN", "FAIL_NAME"]
# Till 1 signs on, opens and is signed off.
WHOLE_DAY = re.compile("rows 3\n(.*\n)*shares 1 settled\n")
ZERO = "metered 0 running 0 payable 0 locked 0 cleared 0 adjusted 0"
PRODUCTS = f"product 1 diesel {ZERO}\nproduct 2 petrol {ZERO}\n"
ANY_DAY = re.compile(f"rows [0-3]\nclears 0 cents 0\n{PRODUCTS}shares [01] settled\n")


# Dispenser 1 says that it is online; till 1 signs on, opens and is signed off.
WHOLE_STATION = Station(
    0, f"rows 4\nclears 0 cents 0\n{PRODUCTS}shares 0 settled\n", "", REPLIES[0], REFUSED + TOLD,
    False,
)
WHO = "(t1|d1|a peer that said nothing)"
STATION_ENDS = re.compile(
    f"((session of {WHO}|a connection was closed): fault 31: out of memory\n)?"
)


@test
def fail_allocations_of_server():
    """A server of one session."""
    def one(n):
        status, report, err, got, met = PLACE.serve(FAIL_ALLOCATION=n)
        is_front = got is None or any(text.startswith(got) for text in REPLIES)
        if status == 0:
            is_well = err == "" and got is not None and ANY_DAY.fullmatch(report)
        else:
            is_well = status == 4 and err == NO_MEMORY and report == ""
        if not is_front or not is_well:
            end = f"status {status}, '{err}', '{report}', {got}"
            raise Failed(f"the server with allocation {n} failed: {end}")
        if not met and ((status, got) != (0, REPLIES[0]) or not WHOLE_DAY.fullmatch(report)):
            raise Failed("the server: not the same twice")
        return met

    return count_some_in_turn("the server", one)


@test
def fail_devices_of_server():
    """Its line and its report: each write failed in turn, writes that are cut short, interrupted
    calls."""
    whole = PLACE.serve()
    if whole[:1] + whole[2:] != (0, "", REPLIES[0], False) or not WHOLE_DAY.fullmatch(whole[1]):
        raise Failed(f"the server: {whole}")
    if PLACE.serve(FAIL_WRITE=1) != (1, "", f"{NOT_PRINTED}\n", None, True):
        raise Failed("the server: its line wasn't written, and it went on")
    if PLACE.serve(FAIL_WRITE=2) != (1, "", f"{NOT_PRINTED}\n", REPLIES[0], True):
        raise Failed("the server: its report wasn't written, and it didn't say so")
    changed = (
        {"SHORT_WRITE": 5}, {"INTERRUPT": 1}, {"SHORT_WRITE": 1, "INTERRUPT": 1}, {"SHORT_SEND": 5},
        {"SHORT_SEND": 1, "INTERRUPT": 1},
    )  # fmt: skip
    for faults in changed:
        if PLACE.serve(**faults) != (*whole[:4], True):
            raise Failed(f"the server isn't the same with {faults}, or met none of them")
    return 2 + len(changed)


@test
def fail_sockets_of_server():
    """A session whose socket fails ends, and its till is signed off: the first read, so that
    nothing is asked; the second one, behind both requests (the peer may read a front of the first
    reply alone, since its socket is reset); the first reply, behind the SignOn; the second one."""
    cases = (
        ({"FAIL_RECEIVE": 1}, 0, b""),
        ({"FAIL_RECEIVE": 2}, 3, REPLIES[0]),
        ({"FAIL_SEND": 1}, 2, b""),
        ({"FAIL_SEND": 2}, 3, parse(SIGNED_ON)),
    )
    for faults, rows, wanted in cases:
        status, report, err, got, met = PLACE.serve(**faults)
        is_told = wanted.startswith(got) if faults.get("FAIL_RECEIVE") == 2 else got == wanted
        is_well = (status, err, met) == (0, "", True) and is_told
        if not is_well or not report.startswith(f"rows {rows}\n"):
            raise Failed(
                f"the server with {faults}: status {status}, '{err}', '{report}', {got}, met {met}"
            )
    return len(cases)


@test
def fail_connections_of_server():
    """It can't listen; or the one session has no connection or worker, and the day is settled."""
    for kind in LISTENING:
        if PLACE.serve(**{kind: 1}) != (1, "", tell_deaf(0), None, True):
            raise Failed(f"the server with {kind}: it went on, or didn't say so")
    for kind, shares in (("FAIL_ACCEPT", 1), ("FAIL_THREAD", 0)):
        report = f"rows 0\nclears 0 cents 0\n{PRODUCTS}shares {shares} settled\n"
        got = PLACE.serve(**{kind: 1})
        if got != (0, report, "", b"", True):
            raise Failed(f"the server with {kind}: {got}")
    return len(LISTENING) + 2


def is_well_without_memory(got):
    """Whether a station of which one allocation failed ended as it may."""
    if got.status != 0:
        return (got.report, got.status, got.err) in (("", 4, NO_MEMORY), ("", 1, NO_THREAD))
    is_till_well = any(text.startswith(got.till) for text in REPLIES)
    is_pump_well = any(text.startswith(got.pump) for text in PUMP_REPLIES)
    are_whole = (got.till in REPLIES) + (got.pump in PUMP_REPLIES)
    is_well = is_till_well and is_pump_well and are_whole >= 1
    is_well = is_well and STATION_ENDS.fullmatch(got.err) and re.match("rows [1-4]\n", got.report)
    return is_well and (got.err != "" or are_whole == 2)


@test
def fail_allocations_of_station():
    """A station that finds no memory to begin with says so; a session that finds none ends, or
    one request has no row, and the other session and the day go on."""

    def one(n):
        got = PLACE.station(FAIL_ALLOCATION=n)
        if not got.met and got != WHOLE_STATION:
            raise Failed(f"the station: not the same twice: {got}")
        if not is_well_without_memory(got):
            raise Failed(f"the station with allocation {n} failed: {got}")
        return got.met

    return count_some_in_turn("the station", one)


@test
def fail_devices_of_station():
    """Its line and its report; its listener; its sockets; the thread that waits for standard
    input; and calls that are interrupted or cut short, which change nothing."""
    expect("nothing", PLACE.station(), WHOLE_STATION)
    nobody = {"report": "", "till": None, "pump": None, "met": True, "status": 1}
    expect("no line", PLACE.station(FAIL_WRITE=1),
                   WHOLE_STATION._replace(**nobody, err=f"{NOT_PRINTED}\n"))  # fmt: skip
    silent = WHOLE_STATION._replace(status=1, report="", err=f"{NOT_PRINTED}\n", met=True)
    expect("no report", PLACE.station(FAIL_WRITE=2), silent)
    for kind in LISTENING:
        expect(kind, PLACE.station(**{kind: 1}),
                       WHOLE_STATION._replace(**nobody, err=tell_deaf(0)))  # fmt: skip
    expect("no thread", PLACE.station(FAIL_THREAD=1),
                   WHOLE_STATION._replace(**nobody, err=NO_THREAD))  # fmt: skip
    expect("no connection", PLACE.station(FAIL_ACCEPT=1),
                   WHOLE_STATION._replace(err=UNACCEPTED, met=True))  # fmt: skip
    changed = (
        {"SHORT_WRITE": 5}, {"INTERRUPT": 1}, {"SHORT_WRITE": 1, "INTERRUPT": 1},
        {"SHORT_SEND": 5}, {"SHORT_SEND": 1, "INTERRUPT": 1},
    )  # fmt: skip
    for faults in changed:
        expect(faults, PLACE.station(**faults), WHOLE_STATION._replace(met=True))
    return 4 + len(LISTENING) + len(changed)


# Till 2 is signed on in a history whose last line is torn: it is signed off.
BEFORE = [sign_on(2), command_point(2, 0, 2, OPEN)]
STORED_LINES = first_lines(KNOWN_SITE) + write_rows(*BEFORE)
STORED_TEXT = STORED_LINES + b"0101020100"
DAY_OF_TWO = write_rows(ONLINE, sign_on(1), command_point(1, 0, 1, OPEN), sign_off(1))
NEW_TEXT = first_lines(KNOWN_SITE) + DAY_OF_TWO
LATER_TEXT = STORED_LINES + write_rows(sign_off(2)) + DAY_OF_TWO
LATER_STATION = WHOLE_STATION._replace(report=WHOLE_STATION.report.replace("rows 4", "rows 7"))
# What was there, how a whole day ends, what it found, and what is there then.
HISTORIES = (
    (None, WHOLE_STATION, Found(0, 0), NEW_TEXT),
    ([STORED_TEXT], LATER_STATION, Found(1, 2), LATER_TEXT),
)


def is_whole(got, whole, text):
    """Whether the day ended as a whole one, whatever it met, and left this chapter."""
    return got.end._replace(met=False) == whole and got.plain == [text]


def find_rows(texts):
    """The rows of chapters, the torn last line left out."""
    return read_rows(PROGRAM, KNOWN_SITE, b"".join(whole_lines(text) for text in texts))


def expect_told(what, rows, peers, begin):
    """What these peers were told is of the rows from this place on."""
    for node, came in peers:
        untold = find_untold(rows, node, came or b"", begin)
        if untold:
            raise Failed(f"{what}: {node} was told {untold.hex()}, which isn't stored")


def expect_next_start(what, got):
    """The next start finds the rows that are there, whole, and leaves no copy; returns them."""
    rows, again = find_rows(got.texts), got.again
    if again.end.status != 0 or again.end.err:
        raise Failed(f"{what}: the next start: {again.end}, {got}")
    found = read_found(again.end.out.decode().splitlines(keepends=True)[0])
    expect(f"{what}: the next start", found, Found(len(got.texts), len(rows)))
    check_chapters(KNOWN_SITE, again.texts)
    for before, after in zip(got.texts, again.texts):
        expect(f"{what}: the next start's rows", after.startswith(whole_lines(before)), True)
    return rows


def expect_stored(what, got, text):
    """No peer was told what the chapter doesn't have; that is a front of what a whole day's has, if
    not all memory was there for its rows; and it is opened again."""
    rows = expect_next_start(what, got)
    begin = len(BEFORE) + 1 if got.found and got.found.rows else 0
    expect_told(what, rows, (((TILL, 1), got.end.till), ((DISPENSER, 1), got.end.pump)), begin)
    if got.found and len(rows) < got.found.rows:
        raise Failed(f"{what}: {got.found}, and {len(rows)} rows are there: {got}")
    lines = without_marks(b"".join(map(whole_lines, got.texts)))
    if text and not text.startswith(lines):
        raise Failed(f"{what}: the chapter isn't a front of a day's: {got}")
    whole = b"".join(map(whole_lines, got.texts))
    report = run(PROGRAM, "report", KNOWN_SITE, given=whole).out.decode()
    if got.end.report not in ("", report) or got.end.status == 0 and got.end.report == "":
        raise Failed(f"{what}: the report isn't that of the history: {got}")


@test
def fail_histories_of_station():
    """The folder of a new history, its site file, its first lines, the copy at a start, the
    sign-off of who was signed on, and a day's rows: each write and each flush fails in turn, at a
    line's end and within it; at each fdatasync the file system stops, and doesn't say so."""
    runs = 0
    for texts, whole, found, text in HISTORIES:
        got = PLACE.stored(texts)
        expect("a history", (got.end, got.found, got.plain), (whole, found, [text]))
        for kind in ("FAIL_JOURNAL_WRITE", "FAIL_SYNC", "STOP_AT_SYNC", "FAIL_OPEN"):
            for short in ({}, {"SHORT_JOURNAL_WRITE": 7}):

                def one(k):
                    faults = {kind: k, **short}
                    got = PLACE.stored(texts, **faults)
                    expect_stored(f"the station with {faults}", got, text)
                    if is_whole(got, whole, text):
                        return False
                    end = (got.end.status, got.end.report, got.end.err, got.end.met)
                    # Where only the seal at the day's end isn't there, each row and the report are.
                    report = whole.report if got.plain == [text] else ""
                    ended = NOT_SEALED if report else NOT_STORED
                    says = [ended] if got.found else STARTS[kind]
                    wanted = [(1, report, f"{fault}\n", True) for fault in says]
                    expect(f"{faults}: {end}", end in wanted, True)
                    return True

                runs += count_some_in_turn(f"{kind} {short}", one)
        for faults in (
            {"SHORT_JOURNAL_WRITE": 1}, {"SHORT_JOURNAL_WRITE": 31}, {"INTERRUPT": 1},
            {"SHORT_JOURNAL_WRITE": 1, "INTERRUPT": 1, "SHORT_SEND": 1},
        ):  # fmt: skip
            got = PLACE.stored(texts, **faults)
            expect(faults, (got.end, got.plain), (whole._replace(met=True), [text]))
            runs += 1
    got = PLACE.stored(None, FAIL_SYNC=1)
    wanted = ([], 1, f"{FOLDER_UNFLUSHED}\n", None)
    end = (got.texts, got.end.status, got.end.err, got.end.till)
    expect("a folder that isn't synced, and no line yet", end, wanted)
    return runs + 1


FOLDER_COMMANDS = (
    ["verify"], ["shifts"], ["sales"], ["meters"], ["report"], ["replay"], ["explain"],
    ["story", "1/1/1"], ["next"],
)  # fmt: skip


def tell_of_folder(word, *more, texts, **faults):
    """How a command ends that reads a history of these chapters, and whether the fault was met."""
    with PLACE.prepare(faults) as (how, met):
        write_history(pathlib.Path(how["cwd"]) / HISTORY, KNOWN_SITE, *texts)
        return run(PROGRAM, word, HISTORY, *more, given=NOTHING, **how), met.exists()


@test
def flush_what_is_told_of_a_folder():
    """A command flushes the site file and each chapter before it tells anything of them: a backup
    that was brought back may have been flushed by nobody. Behind the last one it flushes the
    folder, since a start may have put a copy in that chapter's place. Where a flush fails it tells
    nothing of that file."""
    texts = write_chapters(KNOWN_SITE, write_rows(sign_on(1)), write_rows(sign_off(1)))
    for word, *more in FOLDER_COMMANDS:

        def tell(k, *chapters):
            return tell_of_folder(word, *more, texts=chapters, FAIL_SYNC=k)

        expect(f"{word}: four flushes", (tell(4, *texts)[1], tell(5, *texts)[1]), (True, False))
        first = tell(4, texts[0])[0].out if word in ("replay", "explain") else b""
        files = [f"{HISTORY}/{name}" for name in ("site.toml", "000001.journal", "000002.journal")]
        for k, name in enumerate([*files, HISTORY], start=1):
            end, is_met = tell(k, *texts)
            wanted = (1, first if k > 2 else b"", f"cannot read {name}: {FAILED}\n", True)
            expect(f"{word}, flush {k}", (end.status, end.out, end.err, is_met), wanted)
    return 5 * len(FOLDER_COMMANDS)


# Till 1, a manager, closes the shift; then till 2 opens a point.
CLOSED = sign_on(1) + ask_site(1, CLOSE_SHIFT, 0)
AFTER_CLOSE = sign_on(2) + command_point(2, 0, 2, OPEN)
OVER = write_rows(sign_on(1), ask_site(1, CLOSE_SHIFT, 0), sign_off(1))
# A new history; one whose open chapter is over, without a seal and with one; and one with a closed
# chapter and an open one.
ENDING = (
    None, [first_lines(KNOWN_SITE) + OVER], write_chapters(KNOWN_SITE, OVER, b"")[:1],
    write_chapters(KNOWN_SITE, OVER, write_rows(command_point(1, 0, 1, OPEN))),
)  # fmt: skip


def ask_for_end(port):
    """What a station sends to a till that closes the shift, and then to another one."""
    return talk(port, CLOSED), talk(port, AFTER_CLOSE)


def fail_chapter_end(texts, kind, k, short):
    """A station on these chapters whose shift is closed, with the Kth call of this kind failed:
    what was told is stored, the next start reads it, and the day goes on or ends so."""
    what = f"the end of a chapter of {texts and len(texts)} with {kind} {k} {short}"
    got = PLACE.stored(texts, ask_for_end, **{kind: k}, **short)
    rows = expect_next_start(what, got)
    begin = 0 if texts is None else len(find_rows(texts))
    told = ((TILL, 1), got.end.till), ((TILL, 2), got.end.pump)
    expect_told(what, rows, told, begin)
    end = (got.end.status, got.end.err)
    text = b"".join(map(whole_lines, got.texts))
    report = run(PROGRAM, "report", KNOWN_SITE, given=text).out.decode()
    if got.end.status == 0:
        expect(f"{what}: the report", got.end.report, report)
        is_well = got.end.err in ("", NO_NEW_CHAPTER) or kind == "FAIL_ALLOCATION"
    else:
        if got.end.report not in ("", report):
            raise Failed(f"{what}: the report isn't that of the history: {got}")
        ended = [NOT_SEALED] if got.end.report else [NOT_STORED, NOT_SEALED]
        faults = [f"{fault}\n" for fault in (ended if got.found else STARTS[kind])]
        said = got.end.err.removeprefix(NO_NEW_CHAPTER)
        is_well = end[0] == 1 and said in faults
        no_memory = (4, NO_MEMORY), (1, NO_THREAD)
        is_well = is_well or kind == "FAIL_ALLOCATION" and end in no_memory
    expect(f"{what}: {end}", is_well, True)
    expect(f"{what}: no copy is left", got.again.copies, [])
    if not got.end.met:
        expect(f"{what}: its end", end, (0, ""))
        chapters = 2 if texts is None or len(texts) == 1 and begin == 0 else None
        if chapters:
            expect(f"{what}: chapters", len(got.texts), chapters)
    return end != (0, "") if short else got.end.met  # a short write is met in each run


@test
def fail_chapter_ends():
    """A start, and the end of a chapter in which a shift was closed: each write, flush, rename, and
    each opening and lock of a file fails in turn. The station goes on, in the open chapter where
    there is no next one, or ends with `fault 62`; nothing that was told is lost."""
    runs = 0
    for texts in ENDING:
        for kind in ("FAIL_JOURNAL_WRITE", "FAIL_SYNC", "STOP_AT_SYNC", "FAIL_RENAME", "FAIL_OPEN",
                     "FAIL_LOCK"):  # fmt: skip
            for short in ({}, {"SHORT_JOURNAL_WRITE": 7}):

                def one(k):
                    return fail_chapter_end(texts, kind, k, short)

                if not short or kind == "FAIL_JOURNAL_WRITE":
                    runs += count_some_in_turn(f"{kind} {short}", one)
    return runs


@test
def fail_allocations_of_chapter_ends():
    """The same with each allocation failed: the day may also end with `fault 31`."""
    runs = 0
    for texts in (ENDING[0], ENDING[1]):
        runs += count_some_in_turn(
            "a chapter's end", lambda n: fail_chapter_end(texts, "FAIL_ALLOCATION", n, {})
        )
    return runs


READS = [read_site(1, 0), read_point(1, 0, 1), read_product(1, 0, 1), read_sale(1, 0, 1, 1)]


def look(port, met):
    """A till signs on, looks, and opens a point: what its looks were answered, whether the fault
    was met by then, and what the Open was answered; None where the sign-on has no answer."""
    told = []
    with connect(port) as till, contextlib.suppress(ConnectionError):
        till.sendall(sign_on(1))
        if receive_message(till) == b"":
            return None
        for one in READS:
            till.sendall(one)
            told.append(receive_message(till))
        is_met = met.exists()
        till.sendall(command_point(1, 0, 1, OPEN))
        return told, is_met, receive_all(till)
    return (told, met.exists(), b"") if told else None


def look_with(kind, k):
    """The same of a station with a new history whose Kth call of this kind fails, and how that
    station ended; None where the fault was met before the looks."""
    words = [PROGRAM, "station", KNOWN_SITE, "--port=0", "--history", HISTORY]
    pipe = subprocess.PIPE
    with PLACE.prepare({kind: k}) as (how, met), subprocess.Popen(
        words, stdin=pipe, stdout=pipe, stderr=pipe, bufsize=0, **how
    ) as program:  # fmt: skip
        line = program.stdout.readline().decode()
        line = program.stdout.readline().decode() if read_found(line) else ""
        found = look(int(line.rsplit(":", 1)[1]), met) if line else None
        _, err = program.communicate(timeout=PATIENCE)
        return found and (*found, (program.returncode, err, met.exists()))


@test
def reads_are_not_flushed():
    """The first write of a file, and the first flush, behind those of the sign-on fails. The four
    reads don't meet it, and are answered; an Open meets it, and ends the day."""
    for kind in ("FAIL_JOURNAL_WRITE", "FAIL_SYNC"):
        ends = (look_with(kind, k) for k in range(1, AT_ONCE))
        told, *rest = next(filter(None, ends))
        kinds = [decode(one)[0].kind for one in told if one]
        expect(f"{kind}: the reads", kinds, [ANSWER, ANSWER, ANSWER, ACKNOWLEDGE])
        expect(kind, rest, [False, b"", (1, f"{NOT_STORED}\n".encode(), True)])
    return 2


# What is told where a socket fails: nothing, or that a first message was cut off, of which the rate
# let only a part be read.
CUT_OFF = "", "session of a peer that said nothing: fault 44: the octets end inside a message\n"


@test
def fail_sockets_of_stored_station():
    """A session whose socket fails ends, its till is signed off, and that is stored: the other peer
    is told all that it may be, also what it was owed in the round in which that happened."""
    runs = 0
    for kind in ("FAIL_RECEIVE", "FAIL_SEND"):

        def one(k):
            got = PLACE.stored(None, **{kind: k})
            if not got.end.met:
                expect("nothing", (got.end, got.plain), (WHOLE_STATION, [NEW_TEXT]))
                return False
            what = f"the station with a history and {kind} {k}"
            expect_stored(what, got, None)
            are_whole = (got.end.till == REPLIES[0]) + (got.end.pump in PUMP_REPLIES)
            if got.end.status != 0 or got.end.err not in CUT_OFF or are_whole < 1:
                raise Failed(f"{what}: {got}")
            octets = b"".join(got.texts)
            signed = [octets.count(write_rows(one)) for one in (sign_on(1), sign_off(1))]
            expect(f"{what}: sign-ons and sign-offs", signed[0], signed[1])
            is_opened = write_rows(command_point(1, 0, 1, OPEN)) in octets
            if is_opened and got.end.till != REPLIES[0]:
                expect(f"{what}: the dispenser", got.end.pump, REFUSED + TOLD)
            return True

        runs += count_some_in_turn(kind, one)
    return runs


@test
def fail_openings_of_histories():
    """A history whose files aren't locked, or read, or whose copy isn't named, stays as it is."""
    runs = 0
    wanted = {
        "FAIL_LOCK": [UNLOCKED, NOT_WRITTEN],
        "FAIL_RENAME": [NOT_WRITTEN],
        "FAIL_FILE_READ": [f"cannot read {KNOWN_SITE}: {FAILED}", *UNFLUSHED],
    }
    closed = write_chapters(KNOWN_SITE, OVER, b"")[0]
    second = write_chapters(KNOWN_SITE, OVER, write_rows(*BEFORE))[1]
    for texts, after in (
        ([STORED_TEXT], [STORED_LINES + write_rows(sign_off(2))]),
        ([closed, second + b"01"], [closed, second + write_rows(sign_off(2))]),
    ):
        whole, after = PLACE.open_history(*texts), [*map(without_marks, after)]
        expect("a history", whole.plain, after)
        for kind, ends in wanted.items():
            said = []

            def one(k):
                got = PLACE.open_history(*texts, **{kind: k})
                expect(f"{kind} {k}: beside it", got.beside, {})
                if not got.met:
                    expect("nothing", (got.end, got.plain), (whole.end, after))
                    return False
                end = (got.end.status, got.end.out, got.texts, got.is_anew)
                expect(f"{kind} {k}", end, (1, b"", texts, False))
                said.append(got.end.err.strip())
                return True

            runs += count_some_in_turn(kind, one)
            expect(kind, sorted({*said}), sorted(ends))
    return runs


FLUSHES = (
    "the folder above", "the folder", "the site file", "the copy", "the folder", "the sign-off",
)  # fmt: skip
FLUSH_FAULTS = (
    FOLDER_UNFLUSHED, FOLDER_UNFLUSHED, SITE_UNREAD, NOT_WRITTEN, NOT_WRITTEN, NOT_WRITTEN,
)  # fmt: skip


@test
def fail_copies_of_chapters():
    """A start puts a copy in the place of its open chapter, which is on the disk before: of a file
    whose flush has failed, what the system shows may not be there. Each flush fails in turn: before
    that of the copy the chapter is the file that it was."""

    def one(k):
        end, texts, met, is_anew, beside = PLACE.open_history(STORED_TEXT, FAIL_SYNC=k)
        expect(f"flush {k}: beside it", beside, {})
        expect(f"flush {k}: put in place", is_anew, k > 1 + FLUSHES.index("the copy"))
        if not met:
            expect("so many flushes", k, len(FLUSHES) + 1)
            return False
        fault = FLUSH_FAULTS[k - 1]
        expect(f"flush {k}", (end.status, end.out, end.err), (1, b"", f"{fault}\n"))
        left = STORED_LINES if is_anew else STORED_TEXT
        expect(f"flush {k}: the lines", texts, [left])
        return True

    return count_some_in_turn("FAIL_SYNC", one)


@test
def move_chapters_at_starts():
    """The open chapter is moved at a flush of a start, and another file gets its name. Before it is
    opened that file is the chapter; then it stays, the chapter stays where it is, and the start is
    refused, or fails at the next flush."""
    gone_on = STORED_LINES + write_rows(sign_off(2))

    def one(k):
        end, texts, met, _, beside = PLACE.open_history(STORED_TEXT, MOVE_AT_SYNC=k)
        if not met:
            expect("so many flushes", k, len(FLUSHES) + 1)
            return False
        if k < 1 + FLUSHES.index("the copy"):
            expect(f"flush {k}", (end.status, end.err), (0, ""))
            left = [*map(without_marks, texts)]
            expect(f"flush {k}: what has its name", left, [first_lines(KNOWN_SITE)])
            expect(f"flush {k}: what was moved", beside, {MOVED: STORED_TEXT})
            return True
        fault = FLUSH_FAULTS[k - 1]
        expect(f"flush {k}", (end.status, end.out, end.err), (1, b"", f"{fault}\n"))
        expect(f"flush {k}: what has its name", texts, [b""])
        moved = STORED_TEXT if k == 1 + FLUSHES.index("the copy") else gone_on
        beside = {name: without_marks(text) for name, text in beside.items()}
        expect(f"flush {k}: what was moved", beside, {MOVED: without_marks(moved)})
        return True

    return count_some_in_turn("MOVE_AT_SYNC", one)


@test
def swap_copies_of_chapters():
    """Somebody puts another file in the place of a start's copy: that one doesn't become the
    chapter. One that is there before the copy is taken for what an earlier start has left."""
    gone_on = STORED_LINES + write_rows(sign_off(2))

    def one(k):
        end, texts, met, _, beside = PLACE.open_history(STORED_TEXT, SWAP_AT_SYNC=k)
        if not met:
            expect("so many flushes", k, len(FLUSHES) + 1)
            return False
        if k == 1 + FLUSHES.index("the copy"):
            got = (end.status, end.out, end.err, texts, beside)
            expect(f"flush {k}", got, (1, b"", f"{NOT_WRITTEN}\n", [STORED_TEXT], {COPY: b""}))
        else:
            left = {COPY: b""} if k > 1 + FLUSHES.index("the copy") else {}
            lines = [*map(without_marks, texts)]
            expect(f"flush {k}", (end.status, end.err, lines, beside), (0, "", [gone_on], left))
        return True

    return count_some_in_turn("SWAP_AT_SYNC", one)


@test
def fail_allocations_of_histories():
    """At the opening of a history with rows: `fault 31`, and what stands there is what stood there,
    without the torn line, or with the sign-off; or all is as ever."""
    whole = PLACE.open_history(STORED_TEXT)

    def one(n):
        got = PLACE.open_history(STORED_TEXT, FAIL_ALLOCATION=n)
        end, text = got.end, got.plain[0]
        expect(f"allocation {n}: beside it", got.beside, {})
        is_same = (end, got.plain) == (whole.end, whole.plain)
        if not got.met and not is_same:
            raise Failed("a history that is opened: not the same twice")
        is_ended = (end.status, end.err) in ((4, NO_MEMORY), (1, NO_THREAD))
        is_front = whole.end.out.startswith(end.out)
        is_front = is_front and text in (STORED_TEXT, STORED_LINES, whole.plain[0])
        if not is_same and not (is_ended and is_front):
            raise Failed(f"a history that is opened, allocation {n} failed: {end}, {text}")
        return got.met

    return count_some_in_turn("a history that is opened", one)


@test
def fail_allocations_of_stored_station():
    """A day with a history: as without one, but that it ends with `fault 31`, behind its report,
    where there was no memory for a row's line. Nobody is told what isn't stored."""

    def one(n):
        got = PLACE.stored(None, FAIL_ALLOCATION=n)
        if not got.end.met:
            expect("nothing", (got.end, got.plain), (WHOLE_STATION, [NEW_TEXT]))
        expect_stored(f"the station with a history, allocation {n}", got, None)
        is_ended = (got.end.status, got.end.err) == (4, NO_MEMORY)
        if not is_ended and not is_well_without_memory(got.end):
            raise Failed(f"the station with a history, allocation {n} failed: {got}")
        return got.end.met

    return count_some_in_turn("the station with a history", one)


# A sale is made; then a till's looks fill the rows in memory, so that those of the sale are
# forgotten before the till is read from again; then it makes rows more.
LOOK_TOKEN = 5
SALE_BEFORE = [
    sign_on(1) + command_point(1, 0, 1, OPEN) + command_point(1, 0, 1, RELEASE),
    ONLINE + report(1, 0, LIFT, 0) + report(1, 0, HANG_UP, 10_000),
]
LOOKS = sign_on(2) + read_site(2, LOOK_TOKEN) * 820 + command_point(2, 0, 2, OPEN) * 2
ANY_END = re.compile("((session of .*|a connection was closed): fault 31: out of memory\n)?")


def talk(port, asked):
    """What a peer is told that asks this, but what its looks are answered."""
    got = b""
    with contextlib.suppress(OSError), connect(port) as peer:
        peer.sendall(asked)
        peer.shutdown(socket.SHUT_WR)
        got = receive_all(peer)
    at, told = 0, b""
    while at < len(got):
        end = at + 8 + int.from_bytes(got[at + 6 : at + 8], "big")
        told += got[at:end] if got[at + 5] & 31 != LOOK_TOKEN else b""
        at = end
    return told


def list_unpaid(site, text):
    """The unpaid transactions of a history, as `sales` lists them."""
    sales = run(PROGRAM, "sales", site, "--json", given=text).out.decode().splitlines()
    members = ("shift", "point", "number", "product", "millilitres", "cents", "status")
    unpaid = [one for one in map(json.loads, sales) if one["status"] != "cleared"]
    return [{name: one[name] for name in members} for one in unpaid], members


def read_unpaid(page, members):
    """The unpaid transactions that the page tells; it is asked again where it found no memory, and
    tells none where the day has ended."""
    for _ in range(2):
        with contextlib.suppress(OSError, Failed):
            told = PageDay(PROGRAM, None, page).site()["transactions"]
            return [{name: one[name] for name in members} for one in told]
    return None


def forget_with(n, few, wide):
    """A station whose book forgets a sale, with the Nth allocation failed; whether it was met."""
    words = ["station", few, "--port=0", "--page=0", "--history", HISTORY]
    pipe = subprocess.PIPE
    with PLACE.prepare({"FAIL_ALLOCATION": n}) as (how, met), subprocess.Popen(
        [PROGRAM, *words], stdin=pipe, stdout=pipe, stderr=pipe, bufsize=0, **how
    ) as program:  # fmt: skip
        _, *lines = [program.stdout.readline().decode() for _ in range(3)]
        if not all(lines):
            _, err = program.communicate(timeout=PATIENCE)
            end = (program.returncode, err.decode())
            expect(f"{n}: {end}", end in ((4, NO_MEMORY), (1, NO_THREAD)), True)
            return True
        port, page = (int(line.rstrip("/\n").rsplit(":", 1)[1]) for line in lines)
        came = [talk(port, asked) for asked in (*SALE_BEFORE, LOOKS)]
        folder = pathlib.Path(how["cwd"]) / HISTORY
        text = retitle(read_chapters(folder), wide)
        unpaid, members = list_unpaid(wide, text)
        told = read_unpaid(page, members)
        out, err = program.communicate(timeout=PATIENCE)
        text = retitle(read_chapters(folder), wide)
        rows = read_rows(PROGRAM, wide, text)
        for node, octets in zip(((TILL, 1), (DISPENSER, 1), (TILL, 2)), came):
            expect(f"allocation {n}: what isn't stored", find_untold(rows, node, octets), None)
        if program.returncode != 4 or err != NO_MEMORY.encode():
            expect(f"allocation {n}: unpaid", told, unpaid)
            wanted = run(PROGRAM, "report", wide, given=text).out
            expect(f"allocation {n}", (program.returncode, out), (0, wanted))
            expect(f"allocation {n}: {err}", bool(ANY_END.fullmatch(err.decode())), True)
        if not met.exists():
            expect("a whole day: rows, unpaid", (len(rows), len(unpaid)), (11, 1))
        return met.exists()


@test
def fail_allocations_where_rows_are_forgotten():
    """A book forgets the rows of a sale, with each allocation failed in turn. Where one of the
    forgetting's own fails, nothing is forgotten yet: the sale is listed as unpaid just once, and
    the report is that of the history."""
    few, wide = PLACE.folder / "few.toml", PLACE.folder / "wide.toml"
    few.write_text(f"rows = 1024\n{KNOWN_SITE.read_text()}")
    wide.write_text(KNOWN_SITE.read_text())
    return count_some_in_turn("the forgetting station", lambda n: forget_with(n, few, wide))


@test
def block_a_send_of_station():
    """A reply that its connection doesn't take, and of which the system tells no more, is sent at
    the day's end, and its till is left."""
    pipe = subprocess.PIPE
    words = [PROGRAM, "station", KNOWN_SITE, "--port=0"]
    with PLACE.prepare({"BLOCK_SEND": 1}) as (how, met):
        with subprocess.Popen(
            words, stdin=pipe, stdout=pipe, stderr=pipe, bufsize=0, **how
        ) as program:
            port = int(program.stdout.readline().decode().rsplit(":", 1)[1])
            with connect(port) as till:
                till.sendall(sign_on(1))
                before = time.monotonic()
                while not met.exists() and time.monotonic() < before + PATIENCE:
                    time.sleep(0.01)
                is_silent = not select.select([till], [], [], 0.1)[0]
                # From here on the connection takes octets; nothing tells the station so.
                met.unlink()
                program.stdin.close()
                program.stdin = None
                got = receive_all(till)
            out, err = program.communicate(timeout=PATIENCE)
    expect("standard error", err.decode(), UNKEPT)
    if not is_silent or got != parse(SIGNED_ON) or not out.startswith(b"rows 2\n"):
        raise Failed(f"the station whose send would block: {is_silent}, {got}, {out}")
    return 1


@test
def fail_sockets_of_station():
    """A session whose socket fails ends, its till is signed off, and no other session ends."""
    runs = 0
    for kind in ("FAIL_RECEIVE", "FAIL_SEND"):

        def one(k):
            got = PLACE.station(**{kind: k})
            if not got.met:
                expect("nothing", got, WHOLE_STATION)
                return False
            are_whole = (got.till == REPLIES[0]) + (got.pump in PUMP_REPLIES)
            are_fronts = REPLIES[0].startswith(got.till) and WHOLE_STATION.pump.startswith(got.pump)
            if got.status != 0 or got.err not in CUT_OFF or are_whole < 1 or not are_fronts:
                raise Failed(f"the station with {kind} {k}: {got}")
            return True

        runs += count_some_in_turn(kind, one)
    return runs


def is_balanced(report):
    """Each product's metered volume is its other volumes."""
    products = [line.split() for line in report.splitlines() if line.startswith("product ")]
    return len(products) == 2 and all(int(p[4]) == sum(map(int, p[6::2])) for p in products)


DEMO = [PROGRAM, "demo", KNOWN_SITE, FOLDER / "demos/two_tills.demo"]
DEMO_REPORT = (FOLDER / "demos/two_tills.report").read_bytes()
NO_LISTENER, NO_WORKER = (1, b"", UNCONNECTED), (1, b"", NO_THREAD)


@test
def fail_allocations_of_demo():
    """A worker that finds no memory ends its own work alone, and the day is settled all the
    same."""
    runs = 0
    for words in ([], ["--loopback"]):

        def one(n):
            end, met = PLACE.run([*DEMO, *words], NOTHING, FAIL_ALLOCATION=n)
            is_settled = (end.status, end.err) == (0, "") and is_balanced(end.out.decode())
            is_ended = end in ((4, b"", NO_MEMORY), NO_LISTENER, NO_WORKER)
            if not (is_settled or is_ended) or not met and end.out != DEMO_REPORT:
                raise Failed(f"a demo {words} with allocation {n} failed: {end}")
            return met

        runs += count_some_in_turn("a demo", one)
    return runs


@test
def fail_connections_of_demo():
    """Two tills over loopback: a listener and two connections, each made and accepted."""
    calls = {**dict.fromkeys(LISTENING, 1), "FAIL_SOCKET": 3, "FAIL_CONNECT": 2, "FAIL_ACCEPT": 2}
    for kind, wanted in calls.items():

        def one(k):
            end, met = PLACE.run([*DEMO, "--loopback"], NOTHING, **{kind: k})
            if end != (NO_LISTENER if met else (0, DEMO_REPORT, "")):
                raise Failed(f"a demo over loopback, {kind} {k}: {end}")
            return met

        found = count_in_turn(kind, one)
        if found != wanted:
            raise Failed(f"a demo over loopback: {kind} was met {found} times, not {wanted}")
    return sum(calls.values())


@test
def fail_threads_of_demo():
    """Two sections have a worker each. Over loopback these are the tills' clients, and two
    workers more serve their sessions: one of them alone serves both."""
    alone = (0, DEMO_REPORT.replace(b"shares 3", b"shares 2"), "")
    loopback = ["--loopback"]
    cases = (
        ([], {"FAIL_THREAD": 1}, NO_WORKER), ([], {"FAIL_THREAD": 2}, NO_WORKER),
        ([], {"FAIL_THREADS": 1}, NO_WORKER),
        (loopback, {"FAIL_THREAD": 1}, NO_WORKER), (loopback, {"FAIL_THREAD": 2}, NO_WORKER),
        (loopback, {"FAIL_THREAD": 3}, alone), (loopback, {"FAIL_THREAD": 4}, alone),
        (loopback, {"FAIL_THREADS": 3}, NO_WORKER),
    )  # fmt: skip
    for words, faults, wanted in cases:
        end, met = PLACE.run([*DEMO, *words], NOTHING, **faults)
        if end != wanted or not met:
            raise Failed(f"a demo {words} with {faults}: {end}, met {met}")
    return len(cases)


@test
def fail_threads_of_crew():
    """A crew of two, each of whose workers isn't started."""
    tests = find_tests_program("counter_desk_tests")
    ends = "missing_worker::each_unstarted"
    (name,) = (name for name in list_tests(tests) if name.endswith(ends))
    for n in (1, 2):
        end, met = PLACE.run([tests, name], NOTHING, FAIL_THREAD=n)
        text = end.out.decode() + end.err
        if end.status != 0 or not met or "test result: ok" not in text:
            raise Failed(f"a crew whose worker {n} isn't started: status {end.status}\n{text}")
        unstarted = [line for line in text.splitlines() if "wasn't started" in line]
        if unstarted != [f"worker {n} wasn't started"]:
            raise Failed(f"a crew whose worker {n} isn't started says: {text}")
    return 2


def split_sites(text):
    """The table's sites: each a piece of the table of its own, from the words above it on."""
    pieces, above = [], []
    for line in text.splitlines(keepends=True):
        if line.startswith(("rows ", "book ")):
            pieces.append([])
        (pieces[-1] if pieces else above).append(line)
    return ["".join([*above, *pieces[0]]), *("".join(piece) for piece in pieces[1:])]


def are_rows(got, wanted):
    """All rows as wanted, but for those that a failed allocation lost: they stand together,
    before one that isn't."""
    lost = [place for place, row in enumerate(got) if row == b"lost"]
    rest = len(got) == len(wanted) and all(a in (b, b"lost") for a, b in zip(got, wanted))
    together = not lost or (lost == list(range(lost[0], lost[-1] + 1)) and got[lost[-1] + 1] != b"")
    return rest and together


def fail_allocations_of_site(command, name, source):
    whole, _ = PLACE.run(command, source)
    if whole.status != 0:
        raise Failed(f"{name}: {whole}")

    def one(n):
        end, met = PLACE.run(command, source, FAIL_ALLOCATION=n)
        if end.status == 0:
            rows = end.out.split(b"\n"), whole.out.split(b"\n")
            is_well = end == whole or end.err != "" and are_rows(*rows)
        else:
            is_well = end.status == 1 and "memory" in end.err and whole.out.startswith(end.out)
        if not is_well or not met and end != whole:
            raise Failed(f"{name} with allocation {n} failed: {end}")
        return met

    return count_some_in_turn(name, one)


@test
def fail_allocations_of_tables():
    """The sites of the tables, each for itself."""
    runs, count = 0, 0
    for word, table in (
        ("sites", SITE_TABLES / "stdin"), ("desk", SITE_TABLES / "tables/desk.txt")
    ):
        for number, text in enumerate(split_sites(table.read_text()), 1):
            source = pathlib.Path(PLACE.folder) / f"{word}{number}"
            source.write_text(text)
            runs += fail_allocations_of_site([TABLES, word], f"{word} {number}", source)
            count += 1
    return runs
