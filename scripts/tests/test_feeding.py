"""The feed of a running station. What is expected is in docs/PAGE.md: The feed. Rows are compared
with `replay FOLDER --json`, octet for octet."""

import contextlib
import functools
import json
import pathlib
import resource
import select
import signal
import subprocess
import sys
import threading
import time

from shared import feed_day
from shared.checks import Failed, expect
from shared.feed_crowd import Crowd
from shared.feed_day import FeedPeer, is_row
from shared.histories import time_line, write_chapters, write_history, write_rows
from shared.running import EXAMPLES, run
from shared.serving import read_status, wait_until
from shared.station import (
    CLOSE, CLOSE_SHIFT, FLOW, HANG_UP, KNOWN_SITE, LIFT, OPEN, RELEASE, ask_site, command_point,
    read_point, receive_message, report, sign_on,
)  # fmt: skip
from tests.built import PROGRAM
from tests.suite import make_folder, start_chance, test, test_beside

HERE = make_folder()
start_feed = functools.partial(feed_day.start_feed, PROGRAM)
LAST_ROWS = 16_384  # that a station can feed
FEEDS = 64  # at once
FIRST_LINE, ALIVE, TAKING = 10, 10, 60  # seconds
LATE = 3  # seconds that the station may be late with what it does by the clock
PAUSE = 0.05  # seconds that lie between two times at which new rows are sent
BUSY = 2  # seconds of a busy till
STOP = FIRST_LINE + 2  # seconds for which a station is stopped
FORGOTTEN, WORKED = 2_000, 16_000  # rows: more than a small book has, and the feed has room for
KILLS, RETURNS = 50, 1_000  # of a crowd
CROWD_ROWS, FLOOD_ROWS = 100, 5_500  # of each of four tills, between two kills
SLOW_ROWS = 12_000  # whose lines are more than a door's socket holds
SALE = ["t1 SignOn", "t1 Open 1", "t1 Release 1", "d1 Lift 1 1@0", "d1 HangUp 1 1@10000"]


def replay(folder, number=0):
    """The lines of the history's rows from this one on."""
    return run(PROGRAM, "replay", folder, "--json", "--from", str(number)).out.decode()


def small_site():
    """The known site with a book that forgets its rows again and again."""
    site = HERE / "small.toml"
    site.write_text("rows = 1024\n" + KNOWN_SITE.read_text())
    return site


def toggle(count):
    """So many requests of till 1, two by two: point 2 opens and closes."""
    pair = command_point(1, 1, 2, OPEN) + command_point(1, 2, 2, CLOSE)
    return pair * (count // 2)


def pour(day, count, till=1):
    """Till 1 makes so many rows, all asked for at once, beside reads, which aren't kept."""
    with day.day.connect() as peer:
        peer.sendall(sign_on(till))
        receive_message(peer)
        sent = read_point(1, 3, 2) + toggle(count)
        sender = threading.Thread(target=peer.sendall, args=(sent,))
        sender.start()
        for _ in range(count + 1):
            receive_message(peer)
        sender.join()


@test
def rows_from_a_number_on():
    """From 0, from the end, and from each row between; and what comes then comes to all. Reads
    aren't told."""
    folder = HERE / "numbers"
    with start_feed("--history", folder) as day:
        day.say(*SALE, "t1 ReadPoint 1")
        told = replay(folder).splitlines(keepends=True)
        expect("so many rows", len(told), len(SALE))
        with contextlib.ExitStack() as peers:
            feeds = [peers.enter_context(day.feed(f"from {n}")) for n in range(len(SALE) + 1)]
            feeds.append(peers.enter_context(day.feed("from end")))
            for number, feed in enumerate(feeds[:-1]):
                expect(f"from {number}", feed.lines(len(SALE) - number), told[number:])
            day.say("t1 Lock 1/1", "t1 ReadPoint 1", "t1 Clear 1/1")
            last = replay(folder, len(SALE)).splitlines(keepends=True)
            expect("two more", [json.loads(one)["row"] for one in last], [5, 6])
            for number, feed in enumerate(feeds):
                expect(f"what feed {number} is told then", feed.lines(2), last)


@test
def a_sale_is_told():
    """The line of a sale, but for its time."""
    with start_feed("--history", HERE / "sale") as day, day.feed("from end") as feed:
        day.say(*SALE)
        told = json.loads(feed.lines(5)[-1])
        sale = {"cents": 1500, "millilitres": 10000, "number": 1, "shift": 1, "status": "payable"}
        wanted = {
            "actor": "d1", "at": told["at"], "event": "HangUp 1 1@10000", "point": 1,
            "reply": "Sold{1, 10000}", "row": 4, "sale": sale, "state": "idle",
        }  # fmt: skip
        expect("the line", told, wanted)


@test
def without_a_history():
    """Rows have no time then. The report is that of the day."""
    with start_feed() as day, day.feed("from 0") as feed:
        day.say(*SALE)
        told = [json.loads(line) for line in feed.lines(5)]
        expect("times", [one["at"] for one in told], [None] * 5)
        expect("numbers", [one["row"] for one in told], [*range(5)])
        with day.feed("from 3") as late:
            expect("from 3", late.lines(2), [line_of(one) for one in told[3:]])


def line_of(told):
    return json.dumps(told, sort_keys=True, separators=(",", ":")) + "\n"


@test
def a_first_line_in_pieces():
    """Octet by octet; and with more behind it, which is passed over."""
    folder = HERE / "pieces"
    with start_feed("--history", folder) as day:
        day.say(*SALE)
        with FeedPeer(("127.0.0.1", day.port)) as feed:
            for octet in "from 3\nfrom 0\n":
                feed.send(octet)
                time.sleep(0.01)
            expect("from 3", "".join(feed.lines(2)), replay(folder, 3))
            day.say("t1 Close 2")
            expect("the next one", "".join(feed.lines(1)), replay(folder, 5))


@test
def a_peer_that_sends_no_more():
    """A peer that has shut its side down is fed on."""
    folder = HERE / "shut"
    with start_feed("--history", folder) as day, day.feed("from 0") as feed:
        feed.socket.shutdown(1)
        day.say(*SALE)
        expect("its rows", "".join(feed.lines(5)), replay(folder))


@test
def mistaken_first_lines():
    """Each is told why it is fed nothing, and its connection ends."""
    why = '{"fault":"a feed begins with a line: from N, or from end"}\n'
    with start_feed("--history", HERE / "mistakes") as day:
        words = ["", "from", "from ", "from x", "from -1", "from 01", "From 0", "from 0 ", "0",
                 " from 0", "from end ", "from 0\r", f"from {2**64}", "x" * 65,
                 "x" * 100_000]  # fmt: skip
        for word in words:
            with day.feed(word) as feed:
                expect(f"{word[:80]!r}", feed.rest(), [why])
        for number in (1, 7, 2**64 - 1):
            with day.feed(f"from {number}") as feed:
                ahead = f'{{"fault":"row {number} isn\'t there: row 0 is next"}}\n'
                expect(f"from {number}", feed.rest(), [ahead])


@test
def forgotten_rows():
    """A station feeds the last 16,384 rows; an earlier one is in a chapter that is named, and
    `replay --json --from` goes on from it."""
    folder = HERE / "forgotten"
    first, second = 1_000, 500
    with start_feed("--history", folder) as day:
        pour(day, first)
        day.tell(sign_on(1), ask_site(1, CLOSE_SHIFT))
        pour_rows = first + 4
        day.leave()
    with start_feed("--history", folder) as day:
        rows = len(replay(folder).splitlines())
        pour(day, second)
        day.tell(sign_on(1), ask_site(1, CLOSE_SHIFT))
        pour(day, LAST_ROWS)
        told = replay(folder).splitlines(keepends=True)
        begins = [read_first_row(folder, number, told) for number in (1, 2, 3)]
        expect("the first chapter's rows", begins[1] >= pour_rows - 1, True)
        oldest = len(told) - LAST_ROWS
        for number in (0, begins[1] - 1, begins[1], begins[2] - 1, begins[2], oldest - 1):
            chapter = sum(begin <= number for begin in begins)
            with day.feed(f"from {number}") as feed:
                fault = f'{{"fault":"row {number} is in chapter {chapter}"}}\n'
                expect(f"from {number}", feed.rest(), [fault])
        with day.feed(f"from {oldest}") as feed:
            expect("the last rows", feed.lines(LAST_ROWS) == told[oldest:], True)
        expect("rows of the first day", rows > first, True)


def read_first_row(folder, number, told):
    """The number of the first row of a chapter: so many rows are in those before it."""
    texts = [(folder / f"{n:06d}.journal").read_bytes() for n in range(1, number)]
    return sum(not x.startswith(b"#") for text in texts for x in text.splitlines())


@test
def rows_that_make_way():
    """Rows that are stored and forgotten while a peer is heard are told as the others, with their
    times; so are those of a long history, in pieces."""
    folder = HERE / "way"
    with start_feed("--history", folder, site=small_site()) as day, day.feed("from 0") as feed:
        for count in (6_000, 10, 4_000):
            pour(day, count)
        wait_until("all stored", lambda: len(replay(folder).splitlines()) >= 10_010)
        time.sleep(0.2)
        told = replay(folder)
        expect("all of them", "".join(feed.lines(len(told.splitlines()))) == told, True)
    with start_feed("--history", folder, site=small_site()) as day, day.feed("from 0") as feed:
        told = replay(folder)
        expect("once more", "".join(feed.lines(len(told.splitlines()))) == told, True)


@test
def times_of_a_history():
    """A start tells each row with the time that its chapter says, or none."""
    morning, noon = "2026-11-27T08:00:12.345Z", "2026-11-27T12:00:00.000Z"
    rows = [sign_on(1), command_point(1, 1, 1, OPEN), command_point(1, 1, 1, RELEASE)]
    lift, hang_up = (report(1, 1, kind, 1_000 * at) for at, kind in enumerate((LIFT, HANG_UP)))
    bodies = [
        write_rows(*rows) + time_line(morning) + write_rows(lift),
        write_rows(hang_up) + time_line(noon) + write_rows(ask_site(1, CLOSE_SHIFT)),
    ]
    folder = write_history(HERE / "times", KNOWN_SITE, *write_chapters(KNOWN_SITE, *bodies))
    with start_feed("--history", folder) as day, day.feed("from 0") as feed:
        told = replay(folder)
        expect("the rows", "".join(feed.lines(len(told.splitlines()))), told)
        times = [json.loads(line)["at"] for line in told.splitlines()]
        expect("their times", times[:6], [None] * 3 + [morning] * 2 + [noon])


@test
def new_rows_come_together():
    """A till makes row after row, each in a round of its own. A peer of the feed gets them in no
    more pieces than there are pauses of 50 milliseconds, and one piece more. What a busy machine
    delays may cut a few pieces in two."""
    with start_feed() as day, day.feed("from 0") as feed:
        day.say("t1 SignOn")
        is_over, texts = threading.Event(), []
        worker = threading.Thread(target=work_by_ones, args=(day, is_over))
        end_at = (began := time.monotonic()) + BUSY
        worker.start()
        while time.monotonic() < end_at:
            texts.append(feed.socket.recv(1_000_000))
        waited = time.monotonic() - began
        is_over.set()
        worker.join()
        rows, most = b"".join(texts).count(b"\n"), waited / PAUSE + 1
        expect(f"{rows} rows are many", rows > 3 * most, True)
        expect(f"{len(texts)} pieces in {waited:.2f} s", len(texts) <= 1.2 * most, True)
        expect(f"{len(texts)} pieces are some", len(texts) > most / 5, True)


def work_by_ones(day, is_over):
    """Till 1 opens and closes point 2, and waits for each reply. It rests between, so that the rows
    of a pause are far fewer than 64 KiB of lines, which would be two pieces."""
    while not is_over.is_set():
        day.tell(command_point(1, 1, 2, OPEN), command_point(1, 2, 2, CLOSE))
        time.sleep(0.001)


@test_beside
def peers_of_a_stopped_station():
    """A station is stopped for longer than a peer has for its first line. Of that one second
    counts: two peers that came before are served when it goes on, one whose first line has begun
    and one that has sent nothing; and one that sends nothing then either is closed some ten seconds
    later. Rows that a till asked for meanwhile come once to each."""
    folder = HERE / "stopped"
    with start_feed("--history", folder) as day, contextlib.ExitStack() as stack:
        old = stack.enter_context(day.feed("from 0"))
        day.say(*SALE)
        first = replay(folder)
        expect("before the stop", "".join(old.lines(5)), first)
        begun, silent, mute = (stack.enter_context(connect_feed(day)) for _ in range(3))
        begun.send("from")
        wait_until("they are there", lambda: count_links(day) == 4)
        till = stack.enter_context(day.day.connect())
        stop_for(day, STOP, lambda: till.sendall(sign_on(2) + command_point(2, 1, 2, OPEN)))
        went_on = time.monotonic()
        begun.send(" 0\n")
        silent.send("from 3\n")
        for _ in range(2):
            receive_message(till)
        wait_until("all stored", lambda: replay(folder).count("\n") == 7)
        told = replay(folder).splitlines(keepends=True)
        for name, feed, number in ("old", old, 5), ("begun", begun, 0), ("silent", silent, 3):
            expect(f"rows of {name}", feed.lines(7 - number), told[number:])
        expect("nothing is said", mute.rest(), [])
        waited = time.monotonic() - went_on
        expect(f"closed after {waited:.1f} s", -1 - LATE < waited - FIRST_LINE < LATE, True)
        day.say("t1 Lock 1/1")
        told = replay(folder, 7).splitlines(keepends=True)
        for name, feed in ("old", old), ("begun", begun), ("silent", silent):
            expect(f"one more of {name}", feed.lines(1), told)


def connect_feed(day):
    """A peer of the feed that has sent nothing."""
    return FeedPeer(("127.0.0.1", day.port))


def stop_for(day, seconds, call):
    """The station is stopped for so many seconds, and the call made meanwhile."""
    day.day.process.send_signal(signal.SIGSTOP)
    try:
        stat = pathlib.Path(f"/proc/{day.day.process.pid}/stat")
        wait_until("it is stopped", lambda: stat.read_text().rsplit(") ", 1)[1][0] == "T")
        call()
        time.sleep(seconds)
    finally:
        day.day.process.send_signal(signal.SIGCONT)


@test
def no_memory_for_a_row():
    """A station whose addresses are used up can't keep a row for the feed: it says that the feed
    has ended. Its peer has a front of the rows and is closed, and nobody listens there. A till goes
    on and loses no row; the next start has the feed again."""
    folder = HERE / "memory"
    ended = "the feed has ended: out of memory; the next start begins it again\n"
    with start_feed("--history", folder, site=small_site(), told=ended) as day:
        day.say("t1 SignOn")
        with day.feed("from 0") as feed:
            work_by_fifties(day, FORGOTTEN)
            got = feed.lines(1 + FORGOTTEN)
            most = 1024 * read_status(day.day, "VmSize")
            resource.prlimit(day.day.process.pid, resource.RLIMIT_AS, (most, most))
            work_by_fifties(day, WORKED)
            got += feed.rest()
        with contextlib.suppress(ConnectionRefusedError), connect_feed(day):
            raise Failed("somebody listens")
        told = replay(folder)
        expect("the till's rows", told.count("\n"), 1 + FORGOTTEN + WORKED)
        expect("a front", told.startswith("".join(got)), True)
        expect("and not all", len(got) < WORKED, True)
    with start_feed("--history", folder, site=small_site()) as day:
        with day.feed(f"from {1 + FORGOTTEN + WORKED}") as feed:
            day.say(*SALE)
            behind = replay(folder)[len(told) :].splitlines(keepends=True)
            expect("at the next start", feed.lines(len(behind)), behind)


def work_by_fifties(day, count):
    """Till 1, which is signed on, opens and closes point 2 so often, fifty times at once."""
    peer = day.peers[2, 1]
    for _ in range(count // 50):
        peer.sendall(toggle(50))
        for _ in range(50):
            receive_message(peer)


@test_beside
def alive():
    """Each ten seconds without a row a peer is told which one is next."""
    with start_feed("--history", HERE / "alive") as day, day.feed("from 0") as feed:
        day.say(*SALE)
        feed.lines(5)
        for _ in range(2):
            began = time.monotonic()
            expect("the line", feed.line(), '{"alive":5}\n')
            waited = time.monotonic() - began
            expect("after ten seconds", ALIVE - LATE < waited < ALIVE + LATE, True)


@test_beside
def a_peer_without_a_first_line():
    """It is closed after ten seconds, and so is one whose first line stays unfinished."""
    with start_feed("--history", HERE / "silent") as day:
        with FeedPeer(("127.0.0.1", day.port)) as one, FeedPeer(("127.0.0.1", day.port)) as other:
            other.send("from 0")
            began = time.monotonic()
            for feed in (one, other):
                expect("nothing is said", feed.rest(), [])
                waited = time.monotonic() - began
                expect("after ten seconds", FIRST_LINE - LATE < waited < FIRST_LINE + LATE, True)


@test_beside
def a_peer_that_takes_nothing():
    """Other peers and tills go on beside it; after 60 seconds it is closed, and what it took is a
    front of the rows."""
    folder, doors = HERE / "slow", HERE / "slow doors"
    (doors / "feed").mkdir(parents=True)
    no_doors = f"no doors in {doors}: each node may connect over TCP\n"
    with start_feed("--history", folder, "--doors", doors, told=no_doors) as day:
        with FeedPeer(doors / "feed/socket") as slow, day.feed("from 0") as feed:
            slow.send("from 0\n")
            pour(day, SLOW_ROWS)
            began = time.monotonic()
            told = replay(folder)
            lines = told.splitlines(keepends=True)
            expect("the other's rows", feed.lines(len(lines)), lines)
            hung_up = select.poll()
            hung_up.register(slow.socket, 0)
            closed = [(slow.socket.fileno(), select.POLLHUP)]
            expect("it is closed", hung_up.poll((TAKING + LATE) * 1_000), closed)
            waited = time.monotonic() - began
            expect("after a minute", TAKING - LATE < waited, True)
            got = slow.stream.read().decode()
            expect("a front, and not all", (told.startswith(got), got == told), (True, False))


def count_links(day):
    """How many peers the feed has, as the system's table says."""
    local, count = f"0100007F:{day.port:04X}", 0
    with open("/proc/net/tcp") as table:
        for line in table.readlines()[1:]:
            fields = line.split()
            count += fields[1] == local and fields[3] != "0A" and fields[9] != "0"
    return count


@test
def sixty_four_feeds():
    """The 65th is closed at once; once one has left, another may come."""
    folder = HERE / "many"
    with start_feed("--history", folder) as day, contextlib.ExitStack() as peers:
        feeds = [peers.enter_context(day.feed("from 0")) for _ in range(FEEDS)]
        day.say(*SALE)
        told = replay(folder)
        for number, feed in enumerate(feeds):
            expect(f"feed {number}", "".join(feed.lines(5)), told)
        with contextlib.suppress(ConnectionError):
            expect("the 65th", peers.enter_context(day.feed("from 0")).rest(), [])
        feeds[7].close()
        day.say("t1 Close 2")  # that can't be sent to it
        wait_until("it has left", lambda: count_links(day) == FEEDS - 1)
        expect("another one", "".join(peers.enter_context(day.feed("from 0")).lines(5)), told)


@test
def its_door():
    """A folder `feed` among the doors is the feed's door, with a port or without one. Its socket
    is removed at the end."""
    folder, doors = HERE / "door history", HERE / "doors"
    (doors / "feed").mkdir(parents=True)
    path = doors / "feed" / "socket"
    no_doors = f"no doors in {doors}: each node may connect over TCP\n"
    with start_feed("--history", folder, "--doors", doors, told=no_doors) as day:
        with FeedPeer(path) as feed, day.feed("from 0") as other:
            feed.send("from 0\n")
            day.say(*SALE)
            expect("at the door", "".join(feed.lines(5)), replay(folder))
            expect("on the port", "".join(other.lines(5)), replay(folder))
    expect("its socket", path.exists(), False)
    (doors / "till-01").mkdir()
    ended = run(PROGRAM, "station", KNOWN_SITE, "--doors", doors, given=b"")
    expect("without a port", (ended.status, b"feed" in ended.out), (0, False))


@test
def a_till_of_the_examples():
    """`till.py` hears of its sale by the feed, on a port or at its door: it clears that one, where
    another sale of the point was payable before."""
    doors = HERE / "till doors"
    (doors / "feed").mkdir(parents=True)
    no_doors = f"no doors in {doors}: each node may connect over TCP\n"
    with start_feed("--history", HERE / "till", "--doors", doors, told=no_doors) as day:
        day.tell(sign_on(2), command_point(2, 0, 1, OPEN), report(1, 0, LIFT, 0))
        day.tell(command_point(2, 0, 1, RELEASE), report(1, 0, FLOW, 1_000))
        day.tell(report(1, 0, HANG_UP, 3_000))
        for feed in (day.port, doors / "feed/socket"):
            words = [EXAMPLES / "dispenser.py", day.day.port, 1, 10_000]
            with subprocess.Popen([sys.executable, *map(str, words)], stdout=-1) as pump:
                words = [EXAMPLES / "till.py", day.day.port, 1, 1, feed]
                ended = run(sys.executable, *map(str, words))
                told = b"point 1 is released\ncleared 10000 ml for 1500 cents\n"
                expect("what the till says", (ended.status, ended.out), (0, told))
                pump.kill()


@test
def words_of_the_command_line():
    for word in ("-1", "65536", "x", "+1", ""):
        words = ["station", KNOWN_SITE, "--port", "0", f"--feed={word}"]
        ended = run(PROGRAM, *words)
        said = "error: --feed is a decimal number from 0 to 65535\n"
        expect(f"--feed {word}", (ended.status, ended.out, ended.err), (2, b"", said))
    with start_feed("--history", HERE / "taken") as day:
        words = ["--port", "0", "--feed", str(day.port)]
        ended = run(PROGRAM, "station", KNOWN_SITE, *words, given=b"")
        expect("a port in use", (ended.status, b"feed" in ended.out), (1, False))


def limit_file(octets):
    """Before a program starts: its files take at most so many octets each."""

    def limit():
        signal.signal(signal.SIGXFSZ, signal.SIG_IGN)
        resource.setrlimit(resource.RLIMIT_FSIZE, (octets, octets))

    return limit


@test
def nothing_that_isnt_stored():
    """Where the history takes no more, each row that a peer was fed is in it. The last ones may not
    be fed: new rows wait for others, and the day ends."""
    for most in (20_000, 20_013, 1_000_000):
        folder = HERE / f"full {most}"
        with start_feed("--history", folder, preexec_fn=limit_file(most)) as day:
            with day.feed("from 0") as feed:
                work_on(day, threading.Event())
                got = [line for line in feed.rest() if is_row(line)]
            day.day.process.wait(timeout=30)
        expect(f"{most}: fed is stored", replay(folder).startswith("".join(got)), True)
        expect(f"{most}: many rows were fed", most < 100_000 or len(got) > 1_000, True)


class Reader(threading.Thread):
    """A peer of the feed that comes back to each run of a station for the row behind the last whole
    line that it has."""

    def __init__(self):
        super().__init__(daemon=True)
        self.lines, self.port, self.is_over = [], None, False

    def run(self):
        while not self.is_over:
            with contextlib.suppress(OSError, TypeError):
                with FeedPeer(("127.0.0.1", self.port)) as feed:
                    feed.send(f"from {len(self.lines)}\n")
                    while is_whole(line := feed.line()):
                        self.lines += [line] if is_row(line) else []
            time.sleep(0.005)


def is_whole(line):
    return line.endswith("\n")


@test
def kills(seed):
    """A station is killed again and again while a till works: a peer that comes back has each row
    once, in order, as the history has it."""
    folder, chance, reader = HERE / f"kills {seed}", start_chance(seed, "feed kills"), Reader()
    reader.start()
    for number in range(25):
        with start_feed("--history", folder, site=small_site()) as day:
            reader.port = day.port
            is_over = threading.Event()
            worker = threading.Thread(target=work_on, args=(day, is_over))
            worker.start()
            time.sleep(0.3 * chance.random())
            day.day.process.kill()
            day.day.process.wait()
            is_over.set()
            worker.join()
    with start_feed("--history", folder, site=small_site()) as day:
        reader.port = day.port
        told = replay(folder)
        count = len(told.splitlines())
        wait_until("all rows", lambda: len(reader.lines) >= count)
        reader.is_over = True
    reader.join()
    expect("so many rows", count > 500, True)
    expect("each once, in order", "".join(reader.lines[:count]) == told, True)


def work_on(day, is_over):
    """Till 1 opens and closes point 2, a hundred times at once, until its session ends."""
    with contextlib.suppress(OSError):
        with day.day.connect() as peer:
            peer.sendall(sign_on(1))
            receive_message(peer)
            while not is_over.is_set():
                sent = toggle(100)
                peer.sendall(sent)
                for _ in range(100):
                    if not receive_message(peer):
                        return


def work_at(day, till, count):
    """A till opens and closes its point, fifty times at once, so often or until its session has
    ended."""
    pair = command_point(till, 1, till, OPEN) + command_point(till, 2, till, CLOSE)
    with contextlib.suppress(OSError), day.day.connect() as peer:
        peer.sendall(sign_on(till))
        receive_message(peer)
        for _ in range(count // 50):
            peer.sendall(pair * 25)
            if not all([receive_message(peer) for _ in range(50)]):
                return


def sell(day, number):
    """Point 1 sells ten litres, and the shift is closed; ahead of it stands what ends a sale that a
    kill has cut short. The session may end meanwhile."""
    begin, end = 10_000 * number, 10_000 * (number + 1)
    pay = "t1 Lock 1/1", "t1 Clear 1/1", "t1 CloseShift"
    with contextlib.suppress(OSError, IndexError):
        day.say(f"d1 HangUp 1 1@{begin}", SALE[0], "t1 Terminate 1", "t1 Close 1", *pay)
        day.say(f"t1 ReplaceMeter 1 1@{begin}", *SALE[1:3], f"d1 Lift 1 1@{begin}")
        day.say(f"d1 HangUp 1 1@{end}", *pay)


def start_work(day, number, count):
    """A sale, and four tills with so many rows each."""
    calls = [(sell, number), *((work_at, till, count) for till in (2, 3, 4, 5))]
    threads = [threading.Thread(target=call, args=(day, *words)) for call, *words in calls]
    for thread in threads:
        thread.start()
    return threads


def join(threads):
    for thread in threads:
        thread.join()


def kill_at_work(day, number, crowd, chance):
    """Tills work, and the station is killed meanwhile; in one run only once it has forgotten rows
    that slow peers haven't."""
    crowd.is_flooded = number == KILLS - 5
    work = start_work(day, number, FLOOD_ROWS if crowd.is_flooded else CROWD_ROWS)
    if crowd.is_flooded:
        join(work)
    time.sleep(chance.uniform(0, 0.6))
    day.day.process.kill()
    day.day.process.wait()
    crowd.is_flooded = False
    join(work)


@test
def a_crowd():
    """64 peers, half of them slow, over 50 kills of the station and 1,000 times that one leaves and
    comes back: each has each row once, in order, as the history has it. What is drawn at random are
    times, which the machine makes different in each run: one seed will do."""
    folder, doors, chance = HERE / "crowd", HERE / "crowd doors", start_chance(0, "feed crowd")
    (doors / "feed").mkdir(parents=True)
    start = functools.partial(start_feed, "--history", folder, "--doors", doors)
    with Crowd(PROGRAM, folder, doors / "feed/socket", chance) as crowd:
        for number in range(KILLS):
            with start() as day:
                crowd.port = day.port
                kill_at_work(day, number, crowd, chance)
        with start(told=f"no doors in {doors}: each node may connect over TCP\n") as day:
            crowd.port = day.port
            while crowd.count("returns") < RETURNS and not crowd.faults:
                join(start_work(day, KILLS, CROWD_ROWS))
            crowd.is_hurried, rows = True, len(replay(folder).splitlines())
            wait_until(f"{rows} rows at each peer", lambda: crowd.have(rows))
            crowd.is_over = True
    expect("what is wrong", crowd.faults, [])
    expect("each row once, in order", replay(folder).encode().startswith(crowd.octets), True)
    expect("some read the files", crowd.count("readings") > 0, True)
