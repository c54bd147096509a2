"""`forecourt station` over real sockets.

Tills and dispensers of many kinds connect to it, peers that mean no good among them. What each is
told is compared with octets that stand here, or with what a replay of the same requests answers;
each day's report, its lines on standard error and its exit status are looked at, and what the
program takes of processor and memory."""

import collections
import contextlib
import fcntl
import os
import pathlib
import pty
import re
import resource
import select
import signal
import socket
import statistics
import struct
import subprocess
import sys
import tempfile
import termios
import threading
import time

from shared.checks import (
    NO_FILE, NOT_PRINTED, UNACCEPTED, Failed, advised, expect, first_line,
)  # fmt: skip
from shared.histories import is_read
from shared.running import close_input, compile_c, run
from shared.serving import (
    LOOK, UNKEPT, WAIT, list_addresses, read_status, send_reset, send_until, start_day, wait_until,
)  # fmt: skip
from shared.station import (
    ASSIGN, CLEAR, CLOSE, DISPENSER, EXAMPLES, FIVE_POINTS, FLOW, HANG_UP, KNOWN_SITE, LIFT, LOCK,
    NOTICE, OPEN, OUTCOME, PREPAY, RELEASE, REPORT, RESUME, SITE, SUSPEND, TERMINATE, TEST_RELEASE,
    TILL, UNASSIGN, WRITE, address_point, command_point, command_sale, connect_at, decode, encode,
    parse, read_point, read_site, receive, receive_all, receive_message, report, sign_off, sign_on,
    write_lines, write_report, write_site,
)  # fmt: skip
from tests.built import PROGRAM
from tests.suite import make_folder, start_chance, test, test_beside

HERE = make_folder()
MOST_PEERS = 1_024
SIGNED_ON = {
    n: parse(f"02 {n:02X} 01 01 00 E1 00 08 01 01 01 01 00 03 01 00") for n in range(1, 33)
}
DONE = parse("02 01 01 01 00 E2 00 08 01 21 01 01 00 03 01 00")  # to till 1, of point 1
# What the dispenser of point 1 is told.
OPENED = parse("03 01 01 01 00 80 00 04 01 21 3C 00")
CLOSED = parse("03 01 01 01 00 80 00 04 01 21 3D 00")
RELEASED = parse("03 01 01 01 00 80 00 04 01 21 3E 00")
SUSPENDED = parse("03 01 01 01 00 80 00 04 01 21 40 00")
RESUMED = parse("03 01 01 01 00 80 00 04 01 21 41 00")
LIFTED = parse("03 01 01 01 00 E3 00 0E 01 21 01 01 00 03 01 02 72 04 00 00 05 DC")
FLOWED = parse("03 01 01 01 00 E3 00 12 01 21 01 01 00 03 01 03 73 08 00 00 00 00 00 00 0F A0")
SOLD = parse(
    "03 01 01 01 00 E3 00 16 01 21 01 01 00 03 01 06 73 08 00 00 00 00 00 00 17 70 74 02 00 01"
)
TERMINATED = parse("03 01 01 01 00 80 00 04 01 21 3F 00")
CLEARED = parse(
    "02 01 01 01 00 E4 00 0B 04 21 21 00 01 01 01 00 03 01 09"
    " 02 01 01 01 00 E5 00 15 04 21 21 00 01 01 01 00 03 01 0B 75 08 00 00 00 00 00 00 05 DC"
)
# Sale 1 of point 2, ten litres at 1,500, is locked and cleared by till 2.
CLEARED_BY_2 = parse(
    "02 02 01 01 00 E4 00 0B 04 22 21 00 01 01 01 00 03 01 09"
    " 02 02 01 01 00 E5 00 15 04 22 21 00 01 01 01 00 03 01 0B 75 08 00 00 00 00 00 00 05 DC"
)
LOOKS_OF_A_TILL = 4_000
FULL_KILOBYTES = 32_000  # of memory, with 1,024 peers that say nothing
FLOODED_KILOBYTES = 64_000  # .. and with floods that aren't read
STEPS = 150  # requests of each till and its dispensers
SOON = 10  # seconds, for a connection that is closed at once if all is well
URGENT = 200  # times that a till sends urgent data
IDLE = 10  # seconds of --idle, in which buffers are full on a busy machine, too
TAKING = 60  # seconds that a till has which takes nothing, without --idle
LEAVING = 30  # seconds more, for the sweep, and for a connection that closes
CLOSING = 5  # seconds that a peer has which doesn't hang up
FIRST_MESSAGE = 10  # seconds that a peer has for its first message
SLOW_OCTETS = 20_000  # that a slow till reads in a second
SLOW_FLUSH = 1_200  # milliseconds of a flush
USUAL_RATE = 1_000  # requests of a session in a second, where nothing is said of them
REQUEST = 10  # octets of the shortest request
QUIET_TICKS = 2  # hundredths of a second, of fifty
MOST_TIMES = 5  # as long as without the others, besides two milliseconds
SLOW = 0.02  # seconds: half of the replies come sooner, whatever else the station does


def start_station(*words, site=KNOWN_SITE, port=0, given=None, **how):
    place = [] if port is None else ["--port", port]
    command = [PROGRAM, "station", site, *place, *words]
    stdin = {"stdin": given if given is not None else -1}
    return start_day([*map(str, command)], **stdin, **how)


def replay(sent):
    """What a replay of these octets on the opening site answers."""
    return parse(run(PROGRAM, "replay", KNOWN_SITE, given=write_lines(sent)).out.decode())


def end(day, told=""):
    """The report of a day whose standard input is closed."""
    day.process.stdin.close()
    day.process.stdin = None
    return day.report(told)


def end_counted(day, counts):
    """The report of a day whose standard input is closed, and that told these lines on standard
    error, each of another text, so often each. Of one text ten lines at most are written in a
    second; then how many more came."""
    day.process.stdin.close()
    day.process.stdin = None
    out, err = day.process.communicate(timeout=WAIT)
    got, names = collections.Counter(), {line.split(": ", 1)[-1]: line for line in counts}
    for line in err.decode().splitlines(keepends=True):
        more = re.fullmatch(r"(\d+) more in a second: (.*\n)", line)
        got[names.get(more[2], more[2]) if more else line] += int(more[1]) if more else 1
    wanted = collections.Counter(counts) + collections.Counter(UNKEPT.splitlines(keepends=True))
    expect("status and lines", (day.process.returncode, got), (0, wanted))
    return out.decode()


def ask(peer, sent, wanted):
    """Sends octets, and looks at what is told to them."""
    peer.sendall(sent)
    expect("reply", receive(peer, len(wanted)), wanted)


def expect_quiet(peer):
    """Nothing is told to this peer, and it isn't closed."""
    time.sleep(2 * LOOK)
    expect("nothing told", bool(select.select([peer], [], [], 0)[0]), False)


def is_closed(peer):
    """Whether the station closes the connection soon, and says nothing before, however it ends."""
    peer.settimeout(SOON)
    try:
        return peer.recv(1) == b""
    except ConnectionError:
        return True
    except TimeoutError:
        return False


def expect_quiet_program(day):
    """The program takes next to no processor time while nobody asks for anything."""
    before = read_ticks(day)
    time.sleep(0.5)
    if read_ticks(day) - before > QUIET_TICKS:
        raise Failed(f"{read_ticks(day) - before} hundredths of a second in half a second")


def read_ticks(day):
    """The processor time of the process, in hundredths of a second."""
    fields = pathlib.Path(f"/proc/{day.process.pid}/stat").read_text().rsplit(")", 1)[1].split()
    return int(fields[11]) + int(fields[12])


def expect_fast(day, till=31):
    """Half of a hundred replies to a till come within a moment. Returns how long half took."""
    with day.connect() as peer:
        ask(peer, sign_on(till), SIGNED_ON[till])
        rounds = []
        for _ in range(100):
            begun = time.monotonic()
            peer.sendall(read_point(till, 1, 2))
            expect("octets of a reply", len(receive(peer, 38)), 38)
            rounds.append(time.monotonic() - begun)
        ask(peer, sign_off(till), SIGNED_ON[till])
    if statistics.median(rounds) > SLOW:
        raise Failed(f"half of the replies took {statistics.median(rounds):.4f} seconds or more")
    return statistics.median(rounds)


def expect_as_fast(day, before):
    """Replies come as fast as before, but for what the machine has to do besides."""
    now = expect_fast(day)
    if now > MOST_TIMES * before + SLOW / 10:
        raise Failed(f"half of the replies took {now:.6f} seconds, and {before:.6f} before")


ROWS_OF_FAST = 2


# ---- what tills and dispensers are told


def say(point, token=3):
    """A dispenser says that its point is online: that changes nothing, where it is already."""
    return encode((SITE, 1), (DISPENSER, point), REPORT, token, address_point(point), [(0x60, b"")])


def refuse(point, state):
    """What it is told: that its point is in this state."""
    return parse(f"03 {point:02X} 01 01 00 E3 00 0F 01 {0x20 + point:02X} 01 01 0A 02 08"
                 f" {state:016X}")  # fmt: skip


@test
def notices_of_a_release():
    """A till opens and releases a point whose dispenser listens, and sells: each change is told
    to that dispenser, and to no other, and each reply to who asked."""
    with start_station() as day, day.connect() as till, day.connect() as pump:
        with day.connect() as other:
            ask(till, sign_on(1), SIGNED_ON[1])
            ask(pump, say(1), refuse(1, 2))
            ask(other, say(2), refuse(2, 2))
            for command, told in ((OPEN, OPENED), (RELEASE, RELEASED)):
                ask(till, command_point(1, 2, 1, command), DONE)
                expect("a change", receive(pump, len(told)), told)
            ask(pump, report(1, 3, LIFT, 0), LIFTED)
            ask(pump, report(1, 3, FLOW, 4_000), FLOWED)
            for command, told in ((SUSPEND, SUSPENDED), (RESUME, RESUMED)):
                ask(till, command_point(1, 2, 1, command), DONE)
                expect("a change", receive(pump, len(told)), told)
            ask(pump, report(1, 3, HANG_UP, 10_000), SOLD)
            ask(till, command_sale(1, 4, 1, 1, LOCK) + command_sale(1, 5, 1, 1, CLEAR), CLEARED)
            expect_quiet(other)
            expect_quiet(pump)
        till.close()
        sold = {"metered": 10_000, "cleared": 10_000}
        expect("report", end(day), write_report(13, 0, 1, 1_500, diesel=sold))


@test
def dispensers_that_come_back():
    """They are told what stands at their point behind their first reply, and from then on what
    changes: each session of one dispenser."""
    standing = (
        (None, 2, b""),
        (OPEN, 3, OPENED),
        (RELEASE, 5, OPENED + RELEASED),
        (LIFT, 6, OPENED + RELEASED),
        (SUSPEND, 7, OPENED + RELEASED + SUSPENDED),
        (RESUME, 6, OPENED + RELEASED),
        (TERMINATE, 7, OPENED + RELEASED + TERMINATED),
        (HANG_UP, 3, OPENED),
        (CLOSE, 2, b""),
    )
    with start_station() as day, day.connect() as till:
        ask(till, sign_on(1), SIGNED_ON[1])
        for command, state, told in standing:
            if command in (LIFT, HANG_UP):
                with day.connect() as pump:
                    pump.sendall(report(1, 3, command, 0))
                    expect("octets of a reply", len(receive(pump, 20)), 20)
            elif command:
                till.sendall(command_point(1, 2, 1, command))
                expect("the reply's front", receive(till, 16)[:13], DONE[:13])
            with day.connect() as first, day.connect() as second:
                for pump in (first, second):
                    ask(pump, say(1), refuse(1, state) + told)
                    ask(pump, say(1), refuse(1, state))
        with day.connect() as first, day.connect() as second:
            for pump in (first, second):
                ask(pump, say(1), refuse(1, 2))
            for command, told in ((OPEN, OPENED), (CLOSE, CLOSED)):
                ask(till, command_point(1, 2, 1, command), DONE)
                for pump in (first, second):
                    expect("both are told", receive(pump, len(told)), told)
        end(day)


@test
def how_a_point_was_released():
    """What stands at a point tells its preset, its prepaid cents, or that it is tested."""
    releases = (
        (RELEASE, (0x50, 3_000), "0A 01 21 3E 00 50 04 00 00 0B B8"),
        (RELEASE, (0x51, 2_000), "0A 01 21 3E 00 51 04 00 00 07 D0"),
        (PREPAY, (0x51, 2_000), "0A 01 21 44 00 51 04 00 00 07 D0"),
        (TEST_RELEASE, None, "04 01 21 45 00"),
    )
    with start_station() as day, day.connect() as till:
        ask(till, sign_on(1), SIGNED_ON[1])
        ask(till, command_point(1, 2, 1, OPEN), DONE)
        for command, limit, told in releases:
            items = [(command, b"")] + ([(limit[0], limit[1].to_bytes(4, "big"))] if limit else [])
            ask(till, encode((SITE, 1), (TILL, 1), WRITE, 2, address_point(1), items), DONE)
            with day.connect() as pump:
                released = OPENED + parse(f"03 01 01 01 00 80 00 {told}")
                ask(pump, say(1), refuse(1, 5) + released)
            till.sendall(command_point(1, 2, 1, TERMINATE))
            expect("Terminate", receive_message(till)[:13], DONE[:13])
        end(day)


@test
def a_till_through_two_connections():
    """The second SignOn is refused, as in a replay; the end of that connection leaves nobody's
    till, and that of the first does."""
    sent = sign_on(1) + sign_on(1)
    wanted = replay(sent)
    with start_station() as day, day.connect() as first:
        ask(first, sign_on(1), SIGNED_ON[1])
        with day.connect() as second:
            ask(second, sign_on(1), wanted[len(SIGNED_ON[1]) :])
            port = second.getsockname()[1]
        day.wait_until_left(port)
        ask(first, command_point(1, 2, 1, OPEN), DONE)
        port = first.getsockname()[1]
        first.close()
        day.wait_until_left(port)
        with day.connect() as again:
            ask(again, sign_on(1), SIGNED_ON[1])
            expect("report", end(day), write_report(6, 0))


# ---- messages, however they are cut


@test
def octet_by_octet():
    """Each octet of a dispenser's and a till's messages is read before the next one is sent."""
    with start_station() as day, day.connect() as till, day.connect() as pump:
        for peer, sent, wanted in (
            (till, sign_on(1), SIGNED_ON[1]),
            (pump, say(1), refuse(1, 2)),
            (till, command_point(1, 2, 1, OPEN), DONE),
        ):
            for octet in sent:
                peer.sendall(bytes([octet]))
                day.wait_until_read(peer)
            expect("reply", receive(peer, len(wanted)), wanted)
        expect("the notice", receive(pump, len(OPENED)), OPENED)
        expect("report", end(day), write_report(4, 0))


@test
def a_million_octets():
    """As many as are taken at once: a SignOn, and reads of a point; then no more come."""
    sent = sign_on(1) + b"".join(read_point(1, n % 32, 3) for n in range(100_000))
    wanted = replay(sent)
    with start_station() as day:
        expect("replies", day.ask(sent), wanted)
        expect("report", end(day), write_report(2, 0))


@test
def faults():
    """What ends a session is told to its peer, and on standard error; other sessions go on."""
    told = "".join(f"session of {line}\n" for line in (
        "a peer that said nothing: fault 40: a faulty header or body",
        "t1: fault 44: the octets end inside a message",
        "t1: fault 57: another originator",
        "d1: fault 44: the octets end inside a message",
        "node 9 9: fault 44: the octets end inside a message",
    ))  # fmt: skip
    half, foreign = command_point(1, 2, 3, OPEN)[:7], parse("01 01 09 09 00 03 00 02 01 23")
    with start_station() as day, day.connect() as other:
        ask(other, sign_on(2), SIGNED_ON[2])
        expect("FF", day.ask(b"\xff" * 65_536), parse("FF FF 01 01 00 FF 00 05 01 01 01 01 28"))
        expect("half a message", day.ask(sign_on(1) + half), SIGNED_ON[1])
        changed = parse("02 02 01 01 00 E2 00 05 01 01 01 01 39")
        sent = sign_on(1) + sign_on(2, 2) + read_point(1, 3, 3)
        expect("another originator", day.ask(sent), SIGNED_ON[1] + changed)
        expect("a dispenser's half", day.ask(say(1) + say(1)[:3]), refuse(1, 2))
        expect("a stranger's half", day.ask(foreign + half)[10:], replay(foreign)[10:])
        for _ in range(3):
            day.connect().close()
        ask(other, sign_off(2), SIGNED_ON[2])
        expect("report", end(day, told), write_report(7, 0))


# ---- peers that mean no good


@test
def an_octet_now_and_then():
    """A hundred peers of whom an octet comes now and then. They are few octets, since a first
    message is to be whole within ten seconds."""
    with start_station() as day, contextlib.ExitStack() as stack:
        before = expect_fast(day)
        peers = [stack.enter_context(day.connect()) for _ in range(100)]
        for octet in sign_on(1)[:4]:
            for peer in peers:
                peer.sendall(bytes([octet]))
            time.sleep(0.1)
        expect_as_fast(day, before)
        for peer in peers:
            port = peer.getsockname()[1]
            peer.close()
            day.wait_until_left(port)
        half = "session of a peer that said nothing: fault 44: the octets end inside a message\n"
        expect("report", end_counted(day, {half: 100}), write_report(2 * ROWS_OF_FAST, 0))


@test
def many_lines_of_one_text():
    """Of a text ten lines are written in a second, and then how many more came."""
    half = "session of a peer that said nothing: fault 44: the octets end inside a message\n"
    with start_station() as day:
        for _ in range(300):
            with day.connect() as peer:
                peer.sendall(sign_on(1)[:7])
        time.sleep(2)
        told = os.read(day.process.stderr.fileno(), 65_536).decode()
        lines = told.splitlines(keepends=True).count(half)
        expect(f"{lines} lines of 300", 10 <= lines <= 30, True)
        expect("the last line", " more in a second: " in told.splitlines()[-1], True)
        got = lines + sum(map(int, re.findall(r"(\d+) more in a second: ", told)))
        expect("lines in all", got, 300)
        day.is_unkept = False  # that is read
        end(day)


@test
def nobody_reads_standard_error():
    """Where nobody reads standard error, and its pipe is full, the station goes on."""
    with start_station() as day:
        fcntl.fcntl(day.process.stderr, fcntl.F_SETPIPE_SZ, 4_096)
        for number in range(6_000):
            with day.connect() as peer:
                origin = bytes([9, number % 250])
                peer.sendall(b"\1\1" + origin + parse("00 03 00 02 01 23"))
                receive_message(peer)
                peer.sendall(b"\1")
        expect_fast(day)
        end(day, None)


@test
def floods_without_reading():
    """Peers that send without reading until the buffers are full: they aren't read from, others
    are answered, and the memory stays small. One that reads then has each of its replies."""
    with start_station() as day, contextlib.ExitStack() as stack:
        before = expect_fast(day)
        closing, senders = threading.Event(), []
        stack.callback(closing.set)
        for number in (1, 2):
            peer = stack.enter_context(day.connect())
            ask(peer, sign_on(number), SIGNED_ON[number])
            peer.setblocking(False)
            sender = threading.Thread(target=send_until, args=(peer, closing, number))
            sender.start()
            senders.append((peer, sender))
        try:
            for peer, _ in senders:
                day.wait_until_full(peer)
            expect_as_fast(day, before)
            if read_status(day, "VmHWM") > FLOODED_KILOBYTES:
                raise Failed(f"{read_status(day, 'VmHWM')} kB")
        finally:
            closing.set()
            for _, sender in senders:
                sender.join()
        last = senders[0][0]
        last.setblocking(True)
        last.shutdown(socket.SHUT_WR)
        got = receive_all(last)
        expect_tokens(got)
        whole = (len(got) > 65_536, len(got) % 38)
        expect("whole replies, more than a full outbox", whole, (True, 0))
        for peer, _ in senders[1:]:
            peer.close()
        day.process.stdin.close()
        day.process.stdin = None
        out, _ = day.process.communicate(timeout=WAIT)
        expect("status", day.process.returncode, 0)


@test
def a_dispenser_that_never_reads():
    """Its session ends once it is owed too much: the till isn't held up. It comes back, and is
    told what stands."""
    told = "session of d1: the peer doesn't read what it is sent\n"
    with start_station() as day, day.connect() as till:
        pump = socket.socket()
        pump.setsockopt(socket.SOL_SOCKET, socket.SO_RCVBUF, 4_096)
        pump.connect(("127.0.0.1", day.port))
        ask(pump, say(1), refuse(1, 2))
        ask(till, sign_on(1), SIGNED_ON[1])
        ask(till, command_point(1, 2, 1, OPEN) + command_point(1, 2, 1, RELEASE), DONE + DONE)
        with day.connect() as lifting:
            lifting.sendall(report(1, 3, LIFT, 0))
            expect("LIFTED", receive(lifting, len(LIFTED)), LIFTED)
        port = pump.getsockname()[1]
        both = 1_000 * (command_point(1, 2, 1, SUSPEND) + command_point(1, 2, 1, RESUME))
        rounds = 0
        while day.queues(port) is not None:
            ask(till, both, 2_000 * DONE)
            rounds += 1
        with day.connect() as again:
            ask(again, say(1), refuse(1, 6) + OPENED + RELEASED)
        pump.close()
        till.close()
        rows = int(end(day, told).split()[1])
        expect("rows", rows, 7 + 2_000 * rounds)


@test
def resets_in_mid_reply():
    """Peers that ask for many replies, read a part of one, and reset the connection: their tills
    are left, and sign on again."""
    with start_station() as day:
        for number in range(1, 6):
            peer = day.connect()
            peer.sendall(sign_on(number) + b"".join(read_point(number, 1, 3) for _ in range(5_000)))
            expect("the first octets", receive(peer, 20)[:16], SIGNED_ON[number])
            port = peer.getsockname()[1]
            send_reset(peer)
            day.wait_until_left(port)
            expect("the till again", day.ask(sign_on(number)), SIGNED_ON[number])
        expect_fast(day)
        end(day, None)  # where the last piece ends within a message, that is told


@test
def peers_above_the_most():
    """1,024 connections, one of a till, the others of peers that say nothing, or half a message.
    One more takes the place of the peer that has waited longest, and is served as fast as if
    nobody else were there. The till that has spoken stays."""
    with start_station() as day, contextlib.ExitStack() as stack:
        before = expect_fast(day)
        till = stack.enter_context(day.connect())
        ask(till, sign_on(1), SIGNED_ON[1])
        half = stack.enter_context(day.connect())
        half.sendall(sign_on(3)[:5])
        day.wait_until_read(half)
        time.sleep(1.5)
        peers = [stack.enter_context(day.connect()) for _ in range(MOST_PEERS - 2)]
        more = stack.enter_context(day.connect())
        ask(more, sign_on(2), SIGNED_ON[2])
        expect("the peer that waited longest", is_closed(half), True)
        expect_as_fast(day, before)
        left = select.poll()
        for peer in peers:
            left.register(peer, select.POLLIN)
        expect("peers that were left", len(left.poll(0)), 1)
        if read_status(day, "VmHWM") > FULL_KILOBYTES:
            raise Failed(f"{read_status(day, 'VmHWM')} kB")
        ask(till, sign_off(1), SIGNED_ON[1])
        expect("report", end(day), write_report(2 * ROWS_OF_FAST + 4, 0))


@test_beside
def peers_that_say_nothing():
    """A connection that brings no whole message for ten seconds is closed, and no line tells it.
    One that has brought one stays, silent or not."""
    with start_station() as day, day.connect() as till, day.connect() as silent:
        begun = time.monotonic()
        with day.connect() as half:
            half.sendall(sign_on(3)[:-1])
            ask(till, sign_on(1), SIGNED_ON[1])
            for peer in (silent, half):
                peer.settimeout(FIRST_MESSAGE + LEAVING)
                with contextlib.suppress(ConnectionError):
                    expect("closed", peer.recv(1), b"")
                took = time.monotonic() - begun
                is_in_time = FIRST_MESSAGE <= took < FIRST_MESSAGE + 3
                expect(f"closed after {took:.1f} seconds", is_in_time, True)
        time.sleep(2)
        expect_quiet_program(day)
        ask(till, sign_off(1), SIGNED_ON[1])
        expect("report", end(day), write_report(2, 0))


def read_told(day, wanted):
    """What the station writes to standard error, as many octets of it as are wanted: it may come
    in several pieces."""
    told = b""
    while len(told) < len(wanted.encode()):
        piece = os.read(day.process.stderr.fileno(), 4_096)
        if not piece:
            break
        told += piece
    return told.decode()


@test
def descriptors_spent():
    """Where each descriptor is that of a session that has spoken, it is told once that no more are
    accepted, those who are there are served, and who waits is served once those before it have
    gone. A shortage after that is told again."""
    few = lambda: resource.setrlimit(resource.RLIMIT_NOFILE, (20, 20))
    with start_station(preexec_fn=few) as day, contextlib.ExitStack() as stack:
        first = stack.enter_context(day.connect())
        ask(first, sign_on(1), SIGNED_ON[1])
        others = [speak(stack.enter_context(day.connect()), n) for n in range(30)]
        expect("told", read_told(day, UNKEPT + UNACCEPTED), UNKEPT + UNACCEPTED)
        day.is_unkept = False  # that is read
        time.sleep(1.5)
        expect_quiet_program(day)
        ask(first, read_point(1, 1, 2), replay(sign_on(1) + read_point(1, 1, 2))[16:])
        for peer in others[:-1]:
            peer.close()
        receive_message(others[-1])
        more = [speak(stack.enter_context(day.connect()), n) for n in range(30)]
        expect("told again", os.read(day.process.stderr.fileno(), 4_096).decode(), UNACCEPTED)
        for peer in more:
            peer.close()
        expect("report", end(day), write_report(2, 0))


@test
def the_last_descriptor():
    """Whose connection takes the last descriptor is served, and nobody leaves for it, not even a
    peer that has said nothing yet: where none is left, the system doesn't say whether one more
    waits."""
    times = 5
    with start_station() as day, day.connect() as first, day.connect() as silent:
        ask(first, sign_on(1), SIGNED_ON[1])
        # Each is accepted by the end of the round that answers the first request.
        ask(first, read_point(1, 1, 2), replay(sign_on(1) + read_point(1, 1, 2))[16:])
        process = day.process.pid
        files = sorted(map(int, os.listdir(f"/proc/{process}/fd")))
        expect("its descriptors", files, [*range(len(files))])
        resource.prlimit(process, resource.RLIMIT_NOFILE, (len(files) + 1, len(files) + 1))
        for _ in range(times):
            with day.connect() as second:
                ask(second, sign_on(2), SIGNED_ON[2])
                ask(second, sign_off(2), SIGNED_ON[2])
                port = second.getsockname()[1]
            day.wait_until_left(port)
        ask(silent, sign_on(3), SIGNED_ON[3])
        ask(first, sign_off(1), SIGNED_ON[1])
        expect_quiet_program(day)
        expect("report", end(day), write_report(4 + 2 * times, 0))


def speak(peer, number):
    """A connection that has sent a request of a till from 3 on, and has its answer if it comes at
    once."""
    peer.sendall(read_point(3 + number % 30, 1, 1))
    select.select([peer], [], [], SLOW)
    return peer


@test
def silent_peers():
    """With --idle a session of which nothing came for so long ends, and its till is left; one
    that speaks goes on."""
    told = (
        "session of t1: nothing came for 2 seconds\n"
        "session of a peer that said nothing: nothing came for 2 seconds\n"
    )
    wanted = replay(sign_on(2) + read_point(2, 1, 3))[16:]
    with start_station("--idle", "2") as day, day.connect() as first, day.connect() as second:
        ask(first, sign_on(1), SIGNED_ON[1])
        half = day.connect()
        half.sendall(sign_on(3)[:5])
        ask(second, sign_on(2), SIGNED_ON[2])
        ends = time.monotonic() + 4
        while time.monotonic() < ends:
            ask(second, read_point(2, 1, 3), wanted)
            time.sleep(0.1)
        for peer in (first, half):
            expect("a silent peer is closed", is_closed(peer), True)
        half.close()
        port = second.getsockname()[1]
        second.close()
        day.wait_until_left(port)
        with day.connect() as again:
            ask(again, sign_on(1), SIGNED_ON[1])
            expect("report", end(day, told), write_report(6, 0))


@test
def urgent_data():
    """Urgent data, at which a read ends short, stalls no session: the requests behind it are
    answered, too. It is none of the session's octets."""
    asked, wanted = read_point(1, 1, 3), replay(sign_on(1) + read_point(1, 1, 3))[16:]
    with start_station() as day, day.connect() as till:
        ask(till, sign_on(1), SIGNED_ON[1])
        for _ in range(URGENT):
            till.sendall(asked)
            till.send(b"!", socket.MSG_OOB)
            till.sendall(asked)
            expect("both are answered", receive(till, 2 * len(wanted)), 2 * wanted)
        port = till.getsockname()[1]
        till.close()
        day.wait_until_left(port)
        expect("report", end(day), write_report(2, 0))


@test
def a_till_that_takes_nothing():
    """A till whose output is full, since it takes nothing, is left after the seconds of --idle, and
    without it after sixty, here one that sends no more. Its till isn't signed on then."""
    for words, seconds in ((["--idle", str(IDLE)], IDLE), ([], TAKING)):
        told = f"session of t1: nothing was taken for {seconds} seconds\n"
        with start_station(*words) as day, day.connect() as deaf:
            ask(deaf, sign_on(1), SIGNED_ON[1])
            closing, port = threading.Event(), deaf.getsockname()[1]
            deaf.setblocking(False)
            begun = time.monotonic()
            sender = threading.Thread(target=send_until, args=(deaf, closing, 1))
            sender.start()
            try:
                day.wait_until_full(deaf)
            finally:
                closing.set()
                sender.join()
            full = time.monotonic()
            if not words:
                deaf.shutdown(socket.SHUT_WR)
            while day.queues(port) is not None and time.monotonic() < full + seconds + LEAVING:
                time.sleep(0.1)
            left = time.monotonic()
            is_in_time = left - begun >= seconds and left - full < seconds + LEAVING
            expect(f"left {left - full:.1f} seconds after it was full", is_in_time, True)
            with day.connect() as again:
                ask(again, sign_on(1), SIGNED_ON[1])
            end(day, told)


def send_until_full(day, peer, till=1):
    """Sends a till's reads of a point until the buffers are full. Returns how many octets were
    sent."""
    whole, sent, looks = b"".join(read_point(till, n % 32, 3) for n in range(6_000)), 0, 0
    peer.setblocking(False)
    while looks < 10:
        try:
            sent += peer.send(whole[sent % len(whole) :])
            looks = 0
        except BlockingIOError:
            time.sleep(0.05)
            looks += 1
    day.wait_until_full(peer)
    peer.setblocking(True)
    return sent


def count_replies(sent):
    """How many octets the replies to so many octets of a till's reads have."""
    return sent // len(read_point(1, 1, 3)) * 38


def take_waiting(peer):
    """Reads all that has come. Returns how much."""
    took = 0
    while select.select([peer], [], [], 0.2)[0] and (piece := peer.recv(65_536)):
        took += len(piece)
    return took


def take_slowly(peer, seconds):
    """Reads so many octets a second as a slow till does. Returns how many."""
    took, begun = 0, time.monotonic()
    while (passed := time.monotonic() - begun) < seconds:
        while took < passed * SLOW_OCTETS:
            took += len(peer.recv(1_000))
        time.sleep(0.01)
    return took


@test_beside
def a_till_that_reads_slowly():
    """A till that is megabytes behind and reads 20,000 octets a second isn't left after the seconds
    of --idle in which the system didn't say that its connection takes more. It gets each of its
    replies."""
    with start_station("--idle", "6") as day, socket.socket() as slow:
        slow.setsockopt(socket.SOL_SOCKET, socket.SO_RCVBUF, 16_384)
        slow.connect(("127.0.0.1", day.port))
        ask(slow, sign_on(1), SIGNED_ON[1])
        wanted = count_replies(send_until_full(day, slow))
        took = take_slowly(slow, 25)
        slow.shutdown(socket.SHUT_WR)
        got = took + len(receive_all(slow))
        expect("octets of replies", got // 38 * 38, wanted)
        end(day, None)  # it may have sent half of its last request


@test_beside
def a_stop_with_a_full_till():
    """A station is stopped for more than a minute while the output of a till is full, which takes
    all that has come meanwhile: its session goes on, and it gets each of its replies."""
    with start_station() as day, day.connect() as till:
        ask(till, sign_on(1), SIGNED_ON[1])
        wanted = count_replies(send_until_full(day, till))
        day.process.send_signal(signal.SIGSTOP)
        took = take_waiting(till)
        time.sleep(TAKING + 2)
        day.process.send_signal(signal.SIGCONT)
        till.shutdown(socket.SHUT_WR)
        took += len(receive_all(till))
        expect("octets of replies", took // 38 * 38, wanted)
        end(day, None)  # it may have sent half of its last request


@test_beside
def a_stop_with_a_till_that_has_ended():
    """A station is stopped for longer than it waits for a till whose octets have ended, and whose
    connection takes no reply until then: the reply is sent before the connection is closed."""
    with tempfile.TemporaryDirectory() as folder:
        met = pathlib.Path(folder) / "met"
        library = compile_c(make_folder(), "tests/faults.c", "-O1", "-shared", "-fPIC")
        blocks = {"LD_PRELOAD": str(library), "BLOCK_SEND": "1", "MET": str(met)}
        with start_station(env={**os.environ, **blocks}) as day, day.connect() as till:
            till.sendall(sign_on(1))
            till.shutdown(socket.SHUT_WR)
            wait_until("a send that would block", met.exists)
            time.sleep(0.3)  # until its session has ended
            day.process.send_signal(signal.SIGSTOP)
            time.sleep(CLOSING + 2)
            met.unlink()
            day.process.send_signal(signal.SIGCONT)
            expect("the reply", receive_all(till), SIGNED_ON[1])
            expect("report", end(day), write_report(2, 0))


@test_beside
def a_slow_disk():
    """With --idle, where each flush takes more than a second, and a till asks for something in each
    round: a peer that is silent is left. The till that speaks stays, though it is heard once in
    more than a second."""
    told = "session of t2: nothing came for 2 seconds\n"
    library = compile_c(make_folder(), "tests/faults.c", "-O1", "-shared", "-fPIC")
    slow = {**os.environ, "LD_PRELOAD": str(library), "SLOW_SYNC": str(SLOW_FLUSH)}
    words = "--idle", "2", "--history", make_folder() / "slow"
    with start_station(*words, env=slow) as day, day.connect() as till, day.connect() as silent:
        ask(till, sign_on(1), SIGNED_ON[1])
        ask(silent, sign_on(2), SIGNED_ON[2])
        rounds, port = 0, silent.getsockname()[1]
        while day.queues(port) is not None and rounds < 20:
            ask(till, command_point(1, 2, 1, (OPEN, CLOSE)[rounds % 2]), DONE)
            rounds += 1
        expect(f"left after {rounds} rounds", 2 <= rounds < 16, True)
        end(day, told)


def count_unread(peer):
    """How many octets have come that the peer hasn't read."""
    return struct.unpack("i", fcntl.ioctl(peer, termios.FIONREAD, b"\0" * 4))[0]


def change_until_behind(till, pump):
    """Changes a point until its dispenser, which never reads, is owed some 100,000 octets beside
    what its connection holds."""
    both, sent = command_point(1, 2, 1, SUSPEND) + command_point(1, 2, 1, RESUME), 0
    while sent - count_unread(pump) < 100_000:
        ask(till, 500 * both, 1_000 * DONE)
        sent += 1_000 * len(SUSPENDED)


def has_hung_up(peer):
    """Whether the station has closed the connection, whatever it has told before."""
    poll = select.poll()
    poll.register(peer, 0)
    return any(event & select.POLLHUP for _, event in poll.poll(0))


@test_beside
def a_dispenser_behind_while_nobody_speaks():
    """A dispenser that never reads, and is behind by notices alone, is left, though nobody speaks
    any more. It is one at a door, since the system gives such a connection no more room later."""
    told = f"session of d1: nothing was taken for {TAKING} seconds\n"
    doors = make_doors("dispenser-01")
    with start_station("--doors", doors) as day, day.connect() as till:
        with connect_at(doors / "dispenser-01") as pump:
            ask(pump, say(1), refuse(1, 2))
            ask(till, sign_on(1), SIGNED_ON[1])
            opened = command_point(1, 2, 1, OPEN) + command_point(1, 2, 1, RELEASE)
            ask(till, opened, DONE + DONE)
            with connect_at(doors / "dispenser-01") as lifting:
                ask(lifting, report(1, 3, LIFT, 0), LIFTED)
            change_until_behind(till, pump)
            begun = time.monotonic()
            while not has_hung_up(pump) and time.monotonic() < begun + TAKING + LEAVING:
                time.sleep(0.1)
            took = time.monotonic() - begun
            is_in_time = TAKING - 1 <= took < TAKING + LEAVING
            expect(f"left after {took:.1f} seconds", is_in_time, True)
            end(day, told)


def expect_at_rate(peer, sent, wanted, rate):
    """Octets that come at once are answered at this rate, but for a second's that are saved up.
    Each is answered."""
    begun = time.monotonic()
    peer.sendall(sent)
    expect("each reply", receive(peer, len(wanted)), wanted)
    took = time.monotonic() - begun
    least = len(sent) / (REQUEST * rate) - 1
    is_at_rate = least - 0.2 <= took <= least + 3
    expect(f"{took:.2f} seconds, not {least:.2f}", is_at_rate, True)


@test_beside
def a_rate():
    """With --rate 50 a session that sends 200 requests at once is heard at 50 times ten octets a
    second, and is answered each of them. It isn't silent meanwhile. Others are answered as if it
    weren't there, and the program rests."""
    asked = b"".join(read_point(1, n % 32, 3) for n in range(200))
    wanted = replay(sign_on(1) + asked)[16:]
    with start_station("--idle", "2", rate=50) as day, day.connect() as fast:
        ask(fast, sign_on(1), SIGNED_ON[1])
        time.sleep(0.2)
        watch = threading.Thread(target=look_at_rest, args=(day, looks := []))
        watch.start()
        expect_at_rate(fast, asked, wanted, 50)
        watch.join()
        expect("another session, and the processor", looks, ["fast", "quiet"])
        fast.sendall(2 * asked)
        fast.shutdown(socket.SHUT_WR)
        expect("those before its end", receive_all(fast), 2 * wanted)
        expect("report", end(day), write_report(2 + ROWS_OF_FAST, 0))


def look_at_rest(day, looks):
    """Notes whether another session is answered fast, and whether the program rests."""
    expect_few_fast(day)
    looks.append("fast")
    expect_quiet_program(day)
    looks.append("quiet")


def expect_few_fast(day):
    """Each of a few replies to another till comes within a moment, once so much may be heard."""
    with day.connect() as peer:
        ask(peer, sign_on(31), SIGNED_ON[31])
        time.sleep(0.5)
        for _ in range(10):
            begun = time.monotonic()
            peer.sendall(read_point(31, 1, 2))
            expect("octets of a reply", len(receive(peer, 38)), 38)
            expect("a moment", time.monotonic() - begun < 5 * SLOW, True)
        ask(peer, sign_off(31), SIGNED_ON[31])


@test_beside
def the_usual_rate():
    """Without --rate 1,000 times ten octets of a session are heard in a second. With --rate 0 as
    many as come."""
    asked = b"".join(read_point(1, n % 32, 3) for n in range(3_000))
    wanted = replay(sign_on(1) + asked)[16:]
    with start_station(rate=None) as day, day.connect() as peer:
        ask(peer, sign_on(1), SIGNED_ON[1])
        expect_at_rate(peer, asked, wanted, USUAL_RATE)
        end(day)
    with start_station(rate=0) as day, day.connect() as peer:
        ask(peer, sign_on(1), SIGNED_ON[1])
        begun = time.monotonic()
        ask(peer, 10 * asked, 10 * wanted)
        took = time.monotonic() - begun
        least = len(asked) / REQUEST / USUAL_RATE
        expect(f"{took:.2f} seconds, less than {least:.2f}", took < least, True)
        end(day)


@test
def a_stop_longer_than_idle():
    """A station that the system stops for longer than --idle, and then goes on: whoever has sent
    something meanwhile is heard, and isn't silent; who hasn't is."""
    told = "session of t2: nothing came for 2 seconds\n"
    with start_station("--idle", "2") as day, day.connect() as first, day.connect() as second:
        ask(first, sign_on(1), SIGNED_ON[1])
        ask(second, sign_on(2), SIGNED_ON[2])
        time.sleep(0.3)  # until it waits: a stop behind its round's store would be one of the disk
        day.process.send_signal(signal.SIGSTOP)
        first.sendall(read_point(1, 1, 3))
        time.sleep(3.2)
        day.process.send_signal(signal.SIGCONT)
        wanted = replay(sign_on(1) + read_point(1, 1, 3))[16:]
        expect("it is heard", receive(first, len(wanted)), wanted)
        expect("who was silent", is_closed(second), True)
        ask(first, read_point(1, 1, 3), wanted)
        expect("report", end(day, told), write_report(4, 0))


@test
def peers_that_do_not_hang_up():
    """Where a session has ended with a fault and its peer doesn't hang up, the connection is
    closed some seconds later; until then it costs no processor time. What the peer sent behind
    the fault doesn't keep it from the refusal."""
    refused = parse("FF FF 01 01 00 FF 00 05 01 01 01 01 28")
    told = "session of a peer that said nothing: fault 40: a faulty header or body\n"
    with start_station() as day, day.connect() as silent, day.connect() as long:
        silent.sendall(b"\xff" * 8)
        expect("the refusal", receive(silent, len(refused)), refused)
        sender = threading.Thread(target=long.sendall, args=(b"\xff" * 300_000,))
        sender.start()
        expect("the other's", receive(long, len(refused)), refused)
        sender.join()
        expect_quiet_program(day)
        expect("no more comes", is_closed(silent), True)
        long.close()
        ports = [silent.getsockname()[1]]
        day.wait_until_left(ports[0])
        expect_fast(day)
        expect("report", end(day, 2 * told), write_report(ROWS_OF_FAST, 0))


@test
def resets_in_mid_message():
    """A connection that fails within a message: that is told, and its till is left."""
    told = "session of t1: fault 44: the octets end inside a message\n"
    with start_station() as day:
        peer = day.connect()
        ask(peer, sign_on(1), SIGNED_ON[1])
        peer.sendall(command_point(1, 2, 1, OPEN)[:7])
        day.wait_until_read(peer)
        port = peer.getsockname()[1]
        send_reset(peer)
        day.wait_until_left(port)
        with day.connect() as again:
            ask(again, sign_on(1), SIGNED_ON[1])
            expect("report", end(day, told), write_report(4, 0))


@test
def idle_with_a_hundred():
    """A hundred peers that say nothing more cost no processor time."""
    with start_station() as day, contextlib.ExitStack() as stack:
        for number in range(100):
            peer = stack.enter_context(day.connect())
            peer.sendall(read_point(1 + number % 30, 1, 2))
            receive_message(peer)
        expect_fast(day)
        time.sleep(2)  # the sweep that finds that nobody is waited for
        expect_quiet_program(day)
        end(day)


# ---- doors

CHANGED = parse("02 02 01 01 00 E2 00 05 01 01 01 01 39")  # a reply to till 2: another originator


def make_doors(*names):
    """A folder of doors, one for each of these nodes."""
    doors = pathlib.Path(tempfile.mkdtemp(dir=HERE))
    for name in names:
        (doors / name).mkdir()
    return doors


# How a session ends whose first message may not come there, and a connection for which no place is.
BARRED = (
    "it may not speak there: a node that has a door uses it, any other the port, and nobody speaks"
    " as the house till"
)
NO_PLACE = "all places are taken; ss -tnp, at a door ss -xnp, lists who has them"


@test
def doors_without_a_port():
    """A till and a dispenser speak through their doors, with no port: each request is answered, and
    the dispenser is told of the point. The first message of another originator is answered 57,
    and that session ends."""
    doors = make_doors("till-01", "till-32", "dispenser-01", "dispenser-64")
    told = f"session of t2: {BARRED}\n"
    with start_station("--doors", doors, port=None) as day:
        with connect_at(doors / "till-01") as till, connect_at(doors / "dispenser-01") as pump:
            ask(pump, say(1), refuse(1, 2))
            ask(till, sign_on(1), SIGNED_ON[1])
            ask(till, command_point(1, 2, 1, OPEN), DONE)
            expect("a change", receive(pump, len(OPENED)), OPENED)
            with connect_at(doors / "till-01") as other:
                other.sendall(sign_on(2, 2))
                expect("another originator", receive_all(other), CHANGED)
            ask(till, sign_off(1), SIGNED_ON[1])
        expect("addresses", list_addresses(day.process), [])
        expect("report", end(day, told), write_report(4, 0))


@test
def doors_and_a_port():
    """A node that has a door speaks through it alone: its first message on the port is answered 57,
    and its session ends. Others speak on the port."""
    doors = make_doors("till-02")
    told = f"session of t2: {BARRED}\n"
    with start_station("--doors", doors) as day, day.connect() as other:
        expect("at the port", day.ask(sign_on(2, 2)), CHANGED)
        ask(other, sign_on(1), SIGNED_ON[1])
        with connect_at(doors / "till-02") as till:
            ask(till, sign_on(2), SIGNED_ON[2])
            ask(till, sign_off(2), SIGNED_ON[2])
        ask(other, sign_off(1), SIGNED_ON[1])
        expect("report", end(day, told), write_report(4, 0))


@test
def places_of_doors():
    """A door has four places, whatever happens on the port: with 1,024 connections there a till
    comes through its door. A fifth session of a door is closed, which a line says; where one of the
    four has left, another has its place."""
    doors = make_doors("till-01", "till-02")
    told = f"a connection was closed: {NO_PLACE}\n"
    with start_station("--doors", doors) as day, contextlib.ExitStack() as stack:
        for _ in range(MOST_PEERS):
            stack.enter_context(day.connect())
        tills = [stack.enter_context(connect_at(doors / "till-01")) for _ in range(4)]
        for till in tills:
            till.sendall(read_point(1, 1, 3))
            receive_message(till)
        with connect_at(doors / "till-01") as fifth:
            expect("the fifth is closed", is_closed(fifth), True)
        other = stack.enter_context(connect_at(doors / "till-02"))
        ask(other, sign_on(2), SIGNED_ON[2])
        tills[0].close()
        time.sleep(0.3)
        again = stack.enter_context(connect_at(doors / "till-01"))
        ask(again, sign_on(1), SIGNED_ON[1])
        end(day, told)


@test
def faults_of_doors():
    """A folder that is no node's, a socket at which somebody answers, what is no socket, and a
    folder that isn't there end the start. A socket that an earlier run left is replaced."""
    for name in ("kiosk", "till-1", "till-00", "till-33", "dispenser-65", "till-01x", "Till-01"):
        doors = make_doors("till-02", name)
        expect_no_start(doors, advised(f"door {name}: no node") + "\n")
    doors = make_doors("till-01")
    (doors / "a file").write_text("")
    with start_station("--doors", doors, port=None) as day:
        expect_no_start(doors, advised("door till-01: in use", doors) + "\n")
        day.process.kill()
    with start_station("--doors", doors, port=None) as day:
        with connect_at(doors / "till-01") as till:
            ask(till, sign_on(1), SIGNED_ON[1])
        end(day)
    doors = make_doors("dispenser-03")
    (doors / "dispenser-03" / "socket").write_text("kept")
    expect_no_start(doors, advised("door dispenser-03: cannot listen", doors) + "\n")
    expect("the file", (doors / "dispenser-03" / "socket").read_text(), "kept")
    advice = "give --doors a folder that this user may list"
    expect_no_start(HERE / "no doors", f"cannot read {HERE / 'no doors'}: {NO_FILE}\n{advice}\n")
    doors = make_doors()
    advice = "nobody could connect: make a folder for each node in it, or give --port"
    expect_no_start(doors, f"no doors in {doors}\n{advice}\n")
    doors, history = make_doors("feed"), HERE / "beside a feed's door"
    with start_station("--doors", doors, "--history", history, port=None) as day:
        end(day, f"no doors in {doors}: no till and no dispenser can connect\n")
    for words in ([], ["--page", "0"]):
        ended = run(PROGRAM, "station", KNOWN_SITE, *words, given=b"")
        needed = "error: a station needs --port N or --doors FOLDER\n"
        expect("no place", (ended.status, ended.out, ended.err), (2, b"", needed))


def expect_no_start(doors, why):
    ended = run(PROGRAM, "station", KNOWN_SITE, "--doors", doors, given=b"")
    expect(f"{doors}", (ended.status, ended.out, ended.err), (1, b"", why))


# ---- a whole station


class Order:
    """The requests of a day, in the order of their rows: what two requests that look at the same
    thing come to depends on their order, so one of them is over before the other is sent. All
    others run side by side."""

    def __init__(self, groups):
        self.groups = [threading.Lock() for _ in range(groups)]
        self.sent, self.own = [], threading.Lock()

    @contextlib.contextmanager
    def alone(self, *groups):
        with contextlib.ExitStack() as stack:
            for group in sorted({*groups}):
                stack.enter_context(self.groups[group])
            yield

    def note(self, sent):
        with self.own:
            self.sent.append(sent)


class Peer:
    """A till or a dispenser of a day: what it sends, and all that it is told."""

    def __init__(self, day, order, node):
        self.order, self.node, self.told = order, node, b""
        self.peer = day.connect()

    def ask(self, sent):
        """Sends a request, and waits until its reply is there: notices may come before it."""
        self.peer.sendall(sent)
        while True:
            told = receive_message(self.peer)
            self.told += told
            if told[5] >> 5 != NOTICE:
                self.order.note(sent)
                return

    def take_rest(self):
        """What it is told until the day has ended."""
        self.told += receive_all(self.peer)
        self.peer.close()


def choose_request(chance, till, p):
    """What a till asks of a point and its sales."""
    command = chance.choice((OPEN, OPEN, CLOSE, RELEASE, RELEASE, RELEASE, TERMINATE, SUSPEND,
                             RESUME, RESUME, ASSIGN, UNASSIGN, TEST_RELEASE))  # fmt: skip
    if chance.random() < 0.3:
        sale = chance.randint(1, 3)
        return command_sale(till, chance.randrange(32), p, sale, chance.choice((LOCK, CLEAR)))
    if chance.random() < 0.1:
        return read_point(till, chance.randrange(32), p)
    return command_point(till, chance.randrange(32), p, command)


def run_group(chance, order, till, pumps, tills, group):
    """A till and two dispensers, and now and then another group's point."""
    readings = dict.fromkeys(pumps, 0)
    for step in range(STEPS):
        p = chance.choice([*pumps])
        if chance.random() < 0.5:
            if chance.random() < 0.5:
                readings[p] += chance.randint(1, 5_000)
            command = chance.choice((LIFT, FLOW, HANG_UP))
            said = report(p, chance.randrange(32), command, readings[p])
            with order.alone(group):
                pumps[p].ask(said)
        elif chance.random() < 0.1:
            other = chance.randrange(len(tills))
            q = 1 + 2 * other + chance.randrange(2)
            with order.alone(group, other):
                till.ask(choose_request(chance, group + 1, q))
        else:
            with order.alone(group):
                till.ask(choose_request(chance, group + 1, p))


def split_by_node(octets):
    """What each node is told, of octets that are messages to all of them."""
    told = {}
    while octets:
        size = 8 + int.from_bytes(octets[6:8], "big")
        node = tuple(octets[:2])
        told[node] = told.get(node, b"") + octets[:size]
        octets = octets[size:]
    return told


@test
def thirty_two_tills_and_sixty_four_dispensers(seed):
    """All at once, each asking what it likes: what each is told, replies and notices, is what a
    replay of the requests in the order of their rows tells it, and the report is that of it."""
    site = HERE / "many.toml"
    site.write_text(write_site(64))
    order = Order(32)
    with start_station(site=site) as day:
        tills = [Peer(day, order, (TILL, n)) for n in range(1, 33)]
        pumps = {p: Peer(day, order, (DISPENSER, p)) for p in range(1, 65)}
        for p, pump in pumps.items():
            pump.ask(say(p))
        for n, till in enumerate(tills, 1):
            till.ask(sign_on(n))
        groups = [
            threading.Thread(target=run_group, args=(
                start_chance(seed, n), order, till, {p: pumps[p] for p in (2 * n + 1, 2 * n + 2)},
                tills, n))
            for n, till in enumerate(tills)
        ]  # fmt: skip
        for group in groups:
            group.start()
        for group in groups:
            group.join()
        got = end(day)
        for peer in (*tills, *pumps.values()):
            peer.take_rest()
    sent = b"".join(order.sent)
    lines = write_lines(sent)
    replayed = run(PROGRAM, "replay", site, "--changes", given=lines)
    told = split_by_node(parse(replayed.out.decode()))
    for peer in (*tills, *pumps.values()):
        expect(f"node {peer.node}", peer.told, told[peer.node])
    left = b"".join(sign_off(n) for n in range(1, 33))
    kept = write_lines(b"".join(one for one in order.sent if not is_read(one)) + left)
    expect("report", got, run(PROGRAM, "report", site, given=kept).out.decode())
    expect("requests", len(order.sent), 96 + 32 * STEPS)


@test
def examples():
    """The till and the dispenser of the examples, as their page says."""
    how = {"stdout": subprocess.PIPE, "stderr": subprocess.STDOUT, "text": True}
    with start_station(site=FIVE_POINTS) as day:
        words = (
            [EXAMPLES / "dispenser.py", day.port, 1, 10_000],
            [EXAMPLES / "till.py", day.port, 1, 1],
        )
        with contextlib.ExitStack() as stack:
            peers = [
                stack.enter_context(subprocess.Popen([sys.executable, *map(str, one)], **how))
                for one in words
            ]
            said = [peer.communicate(timeout=WAIT)[0] for peer in peers]
        lines = said[0].splitlines()
        expect("the dispenser", lines[-1], "10000 ml of nozzle 1; its meter stands at 10000")
        expect("its notices", lines[:-1], ["point 1 is open", "point 1 is released"])
        expect("the till", said[1], "point 1 is released\ncleared 10000 ml for 1500 cents\n")
        rows = end(day).split()[1]
        expect("rows", int(rows) >= 10, True)


# ---- how a day ends


@test
def control_d():
    """At a terminal Ctrl-D ends the day, and nothing else that is typed does."""
    ours, theirs = pty.openpty()
    with start_station(given=theirs) as day, day.connect() as till:
        said = "Ctrl-D ends the day\n" + UNKEPT
        expect("said", read_told(day, said), said)
        day.is_unkept = False  # that is read
        ask(till, sign_on(1), SIGNED_ON[1])
        os.write(ours, b"hello\n")
        ask(till, command_point(1, 2, 1, OPEN), DONE)
        os.write(ours, b"\x04")
        expect("report", day.report(), write_report(3, 0))
        expect("the till is told no more", receive_all(till), b"")
    os.close(ours)
    os.close(theirs)


@test
def other_ends():
    """A standard input that is closed, empty, or a file ends the day at once; with --detached
    none does, and a signal ends the program."""
    for how in ({"preexec_fn": close_input}, {"given": os.open("/dev/null", os.O_RDONLY)}):
        with start_station(**how) as day:
            expect("report", day.report(), write_report(0, 0))
    null = os.open("/dev/null", os.O_RDONLY)
    with start_station("--detached", given=null) as day, day.connect() as till:
        ask(till, sign_on(1), SIGNED_ON[1])
        time.sleep(0.2)
        ask(till, command_point(1, 2, 1, OPEN), DONE)
        day.process.send_signal(signal.SIGTERM)
        expect("status", day.process.wait(WAIT), -signal.SIGTERM)


@test
def what_is_owed_at_the_end():
    """The day ends beside a peer that doesn't read what it is owed: what it gets then are the
    first replies, in order."""
    with start_station() as day, day.connect() as till:
        ask(till, sign_on(1), SIGNED_ON[1])
        till.setblocking(False)
        closing = threading.Event()
        sender = threading.Thread(target=send_until, args=(till, closing))
        sender.start()
        try:
            day.wait_until_full(till)
        finally:
            closing.set()
            sender.join()
        till.setblocking(True)
        got = receive(till, 38 * 10_000)
        expect("report", end(day, None), write_report(2, 0))
        with contextlib.suppress(ConnectionError):
            got += receive_all(till)
        expect_tokens(got)


def expect_tokens(got):
    """Replies to what `send_until` sends, in order; the last one may be cut."""
    tokens = [got[at + 5] & 31 for at in range(0, len(got) - 37, 38)]
    expect("replies in order", tokens, [n % 6_000 % 32 for n in range(len(tokens))])


def write_limit(rows):
    """The known site, whose book may have so many rows in memory."""
    site = HERE / f"{rows}_rows.toml"
    lines = KNOWN_SITE.read_text().splitlines()
    rest = [line for line in lines if not line.startswith("rows")]
    site.write_text("\n".join([f"rows = {rows}", *rest, ""]))
    return site


@test
def too_few_rows():
    """A station's book has to have room for the rows of one read."""
    for rows in (1, 1_023):
        site = write_limit(rows)
        ended = run(PROGRAM, "station", site, "--port", "0", given=b"")
        got = (ended.status, ended.out, ended.err)
        fault = advised("fault 74 rows", rows=rows, file=site)
        expect(f"{rows} rows", got, (1, b"", f"{fault}\n"))


def sell(day, till, point):
    """Till 2 opens and releases a point, whose dispenser sells ten litres of diesel."""
    for command in (OPEN, RELEASE):
        ask(till, command_point(2, 0, point, command),
            parse(f"02 02 01 01 00 E0 00 08 01 {0x20 + point:02X} 01 01 00 03 01 00"))  # fmt: skip
    told = [report(point, 0, *how) for how in ((LIFT, 0), (FLOW, 4_000), (HANG_UP, 10_000))]
    came = [one for one in decode(day.ask(b"".join(told))) if one.kind != NOTICE]
    expect("Start, Flowed, Sold", [one.items[OUTCOME][0] for one in came], [2, 3, 6])


@test
def never_full():
    """Many times the rows that the site file allows, in full reads of several peers at once: no
    request is answered that the book is full, a dispenser is told each change, in order, and the
    report is that of all rows but those of reads, with sales that were made before. The tills
    read the site, by the shortest messages that make a row in memory: a read of 4,096 octets has
    410 of them."""
    site, turns = write_limit(1_024), 1_300
    asked = [command_point(1, n % 32, 1, (OPEN, CLOSE)[n % 2]) for n in range(2 * turns)]
    done = [DONE[:5] + bytes([0xE0 + n % 32]) + DONE[6:] for n in range(2 * turns)]
    with start_station(site=site) as day, day.connect() as pump, contextlib.ExitStack() as stack:
        ask(pump, say(1), refuse(1, 2))
        tills = {n: stack.enter_context(day.connect()) for n in range(2, 6)}
        for n, till in tills.items():
            ask(till, sign_on(n), SIGNED_ON[n])
        sell(day, tills[2], 2)
        sell(day, tills[2], 3)
        senders = [
            threading.Thread(target=till.sendall, args=(read_site(n, 0) * LOOKS_OF_A_TILL,))
            for n, till in tills.items()
        ]
        for sender in senders:
            sender.start()
        got = day.ask(sign_on(1) + b"".join(asked))
        expect("replies", got == SIGNED_ON[1] + b"".join(done), True)
        expect("notices", receive(pump, 2 * turns * len(OPENED)) == (OPENED + CLOSED) * turns, True)
        for n, till in tills.items():
            view = parse(f"02 {n:02X} 01 01 00 20 00 10 01 01 75 08 {0:016X} 76 02 00 01")
            expect(f"till {n}", receive(till, LOOKS_OF_A_TILL * len(view)), LOOKS_OF_A_TILL * view)
        for sender in senders:
            sender.join()
        ask(tills[2], command_sale(2, 4, 2, 1, LOCK) + command_sale(2, 5, 2, 1, CLEAR),
            CLEARED_BY_2)  # fmt: skip
        rows = 1 + 4 + 2 * 5 + 1 + 2 * turns + 1 + 2 + 4
        sold = {"metered": 20_000, "payable": 10_000, "cleared": 10_000}
        expect("report", end(day), write_report(rows, 0, 1, 1_500, diesel=sold))


@test
def closed_output():
    """Where it can't tell where it listens, it serves nobody."""
    ended = run(PROGRAM, "station", KNOWN_SITE, "--port", "0", given=b"", sink="/dev/full")
    expect("listening", (ended.status, ended.err), (1, f"{UNKEPT}{NOT_PRINTED}\n"))


# ---- the command line, and the order of faults


@test
def mistaken_words():
    wrong = [[]] + [["--port", port] for port in ("65536", "-1", "+80", "x", "", "0x50", "1e3")]
    wrong += [["--port=0", f"--idle={idle}"] for idle in ("0", "86401", "-1", "+1", "x", "", "1.5")]
    wrong += [["--port=0", f"--rate={rate}"] for rate in ("1000001", "-1", "+1", "x", "", "1.5")]
    wrong += [["--port=0", "--port=1"], ["--port=0", "--workers=1"], ["--port=0", "--detached=1"]]
    wrong += [["--port=9", "--page=9"], ["--port=9", "--feed=9"], ["--page=9", "--feed=9"]]
    for words in wrong:
        for site in (KNOWN_SITE, "no_such_file"):
            ended = run(PROGRAM, "station", site, *words, given=b"")
            got = (ended.status, ended.out, ended.err != "", "cannot read" in ended.err)
            expect(f"{words}", got, (2, b"", True, False))
    with socket.create_server(("127.0.0.1", 0)) as busy:
        port = str(busy.getsockname()[1])
        for site, why in (("no_such_file", f"cannot read no_such_file: {NO_FILE}\n"),
                          ("/dev/null", "fault 72 product\n"), (KNOWN_SITE, "fault 63\n")):
            ended = run(PROGRAM, "station", site, "--port", port, given=b"")
            got = (ended.status, ended.out, first_line(ended.err))
            expect(f"{site}", got, (1, b"", why))
