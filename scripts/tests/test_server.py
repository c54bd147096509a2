"""`forecourt serve` over real sockets, with peers of many kinds.

Each reply is compared with octets that stand here, or with what a replay of the same octets alone
answers; each day's report and exit status are looked at, and that it listens on 127.0.0.1 alone.
Where a peer waits for what the server does, it looks at the system's table of sockets."""

import contextlib
import os
import pathlib
import socket
import statistics
import threading
import time

from shared.checks import NO_FILE, NOT_PRINTED, Failed, expect, first_line
from shared.running import run, tell_deaf
from shared.serving import WAIT, list_addresses, send_reset, send_until, start_day
from shared.station import (
    ASSIGN, CLEAR, FLOW, HANG_UP, KNOWN_SITE, LIFT, LOCK, OPEN, RELEASE, TERMINATE, command_point,
    command_sale, parse, read_point, receive, receive_all, report, sign_off, sign_on,
    write_lines, write_report,
)  # fmt: skip
from tests.built import PROGRAM
from tests.suite import make_folder, test

HERE = make_folder()
SIGNED_ON_1 = parse("02 01 01 01 00 E1 00 08 01 01 01 01 00 03 01 00")
SIGNED_ON_2 = parse("02 02 01 01 00 E1 00 08 01 01 01 01 00 03 01 00")
SIGNED_ON_3 = parse("02 03 01 01 00 E1 00 08 01 01 01 01 00 03 01 00")


def replay(sent):
    """What a replay of these octets on the opening site answers, and its fault."""
    end = run(PROGRAM, "replay", KNOWN_SITE, given=write_lines(sent))
    return parse(end.out.decode()), end.err.strip()


# ---- the server


def serve(workers, sessions, site=KNOWN_SITE, port=0):
    words = ["serve", site, "--port", port, "--workers", workers, "--sessions", sessions]
    return start_day([PROGRAM, *map(str, words)])


# ---- what peers do


@test
def two_tills_sign_on():
    """Two workers and two sessions: each client sends a SignOn, reads the reply, and closes."""
    with serve(2, 2) as day:
        first, second = day.connect(), day.connect()
        for peer, number, wanted in ((first, 1, SIGNED_ON_1), (second, 2, SIGNED_ON_2)):
            peer.sendall(sign_on(number))
            expect(f"till {number}", receive(peer, len(wanted)), wanted)
        first.close()
        second.close()
        expect("report", day.report(), write_report(4, 2))


@test
def octet_by_octet():
    """SignOn, Open and ReadPoint of point 3: each octet is read before the next one is sent."""
    asked = (
        ("01 01 02 01 00 41 00 04 01 01 31 00", SIGNED_ON_1),
        (
            "01 01 02 01 00 42 00 04 01 23 3C 00",
            parse("02 01 01 01 00 E2 00 08 01 23 01 01 00 03 01 00"),
        ),
        ("01 01 02 01 00 03 00 02 01 23", parse(
            "02 01 01 01 00 23 00 1E 01 23 10 01 03 11 01 00 12 01 00 13 01 00"
            " 72 04 00 00 00 00 73 08 00 00 00 00 00 00 00 00")),
    )  # fmt: skip
    with serve(1, 1) as day:
        with day.connect() as peer:
            for text, wanted in asked:
                for octet in parse(text):
                    peer.sendall(bytes([octet]))
                    day.wait_until_read(peer)
                expect(text, receive(peer, len(wanted)), wanted)
            peer.shutdown(socket.SHUT_WR)
            expect("the end", receive_all(peer), b"")
        expect("report", day.report(), write_report(4, 1))


@test
def one_piece():
    """65,536 octets in one piece: a SignOn, seven Opens (six of them refused), and reads."""
    sent = sign_on(1) + b"".join(command_point(1, 2, 3, OPEN) for _ in range(7))
    reads = (65_536 - len(sent)) // 10
    sent += b"".join(read_point(1, n % 32, 3) for n in range(reads))
    expect("octets", len(sent), 65_536)
    wanted, fault = replay(sent)
    expect("the replay's fault", fault, "")
    with serve(1, 1) as day:
        expect("replies", day.ask(sent), wanted)
        expect("report", day.report(), write_report(8 + reads + 1, 1))


@test
def no_messages():
    """65,536 octets FF: the fault of the stream is told, and ends the session."""
    with serve(1, 1) as day:
        expect("reply", day.ask(b"\xff" * 65_536), parse("FF FF 01 01 00 FF 00 05 01 01 01 01 28"))
        expect("report", day.report(), write_report(0, 1))


@test
def half_a_message():
    """Half a message, and the peer goes: what came before is answered."""
    with serve(1, 1) as day:
        expect("reply", day.ask(sign_on(1) + command_point(1, 2, 3, OPEN)[:7]), SIGNED_ON_1)
        expect("report", day.report(), write_report(2, 1))


@test
def nothing():
    """Peers that send nothing and go; the sessions behind them are served."""
    with serve(2, 4) as day:
        for _ in range(3):
            day.connect().close()
        expect("reply", day.ask(sign_on(1)), SIGNED_ON_1)
        expect("report", day.report(), write_report(2, 2))


@test
def another_originator():
    """A till's connection on which another till speaks: it is told so, and the session ends."""
    refused = parse("02 02 01 01 00 E2 00 05 01 01 01 01 39")
    with serve(1, 1) as day:
        sent = sign_on(1) + sign_on(2, 2) + read_point(1, 3, 3)
        expect("replies", day.ask(sent), SIGNED_ON_1 + refused)
        expect("report", day.report(), write_report(2, 1))


@test
def faulty_requests():
    """Requests that mean no event are answered, and the session goes on: as a replay answers
    them."""
    sent = sign_on(1) + parse(
        "01 01 02 01 00 83 00 02 01 23 01 01 02 01 00 47 00 07 04 21 21 00 0A 80 00"
    )
    sent += command_point(1, 4, 9, OPEN) + sign_on(1, 5)
    wanted, _ = replay(sent)
    with serve(1, 1) as day:
        expect("replies", day.ask(sent), wanted)
        expect("report", day.report(), write_report(4, 1))


def expect_rows(text, least, most, shares):
    """A report of so many rows, on a day without fuel."""
    rows = int(text.split()[1])
    if not least <= rows <= most:
        raise Failed(f"{rows} rows")
    expect("report", text, write_report(rows, shares))


@test
def reset_in_mid_reply():
    """A peer that asks for many replies, reads a part of one, and resets the connection. Another
    till is served all the same; till 1 is left, and signs on again."""
    with serve(2, 3) as day:
        peer = day.connect()
        peer.sendall(sign_on(1) + b"".join(read_point(1, n % 32, 3) for n in range(1_000)))
        expect("the first octets", receive(peer, 20)[:16], SIGNED_ON_1)
        port = peer.getsockname()[1]
        send_reset(peer)
        expect("till 2", day.ask(sign_on(2)), SIGNED_ON_2)
        day.wait_until_left(port)
        expect("till 1 again", day.ask(sign_on(1)), SIGNED_ON_1)
        expect_rows(day.report(), 6, 1_006, 2)


@test
def never_reads():
    """A peer that sends without reading until the buffers are full. Another till is served
    meanwhile, and one more after it; it is left itself, and signs on again."""
    with serve(2, 4) as day:
        peer = day.connect()
        peer.sendall(sign_on(1))
        peer.setblocking(False)
        closing = threading.Event()
        sender = threading.Thread(target=send_until, args=(peer, closing))
        sender.start()
        try:
            day.wait_until_full(peer)
            expect("till 2", day.ask(sign_on(2)), SIGNED_ON_2)
        finally:
            port = peer.getsockname()[1]
            closing.set()
            sender.join()
            peer.close()
        expect("till 3", day.ask(sign_on(3)), SIGNED_ON_3)
        day.wait_until_left(port)
        expect("till 1 again", day.ask(sign_on(1)), SIGNED_ON_1)
        expect_rows(day.report(), 8, 10_000_000, 2)


@test
def side_by_side():
    """Five tills at a point each, all at once by four workers and again: each is answered as if
    it were alone."""
    def ask_all(number):
        sent = sign_on(number) + b"".join(
            command_point(number, 2, number, what) for what in (OPEN, ASSIGN, RELEASE)
        )
        sent += b"".join(read_point(number, n % 32, number) for n in range(500))
        return sent + command_point(number, 3, number, TERMINATE) + sign_off(number, 4)

    wanted = {number: replay(ask_all(number))[0] for number in range(1, 6)}
    with serve(4, 5) as day:
        got = {}
        ask = lambda number: got.update({number: day.ask(ask_all(number))})
        peers = [threading.Thread(target=ask, args=(number,)) for number in wanted]
        for peer in peers:
            peer.start()
        for peer in peers:
            peer.join()
        expect("replies", got, wanted)
        expect("report", day.report(), write_report(5 * 506, 4))


@test
def most_workers():
    """Sixteen workers: those that draw no session have a share, too."""
    with serve(16, 1) as day:
        expect("reply", day.ask(sign_on(1)), SIGNED_ON_1)
        expect("report", day.report(), write_report(2, 16))


@test
def most_sessions():
    """Ten thousand sessions: the last is served as the first, and the day ends behind it."""
    with serve(16, 10_000) as day:
        expect("the first reply", day.ask(sign_on(1)), SIGNED_ON_1)
        for _ in range(9_998):
            day.connect().close()
        expect("the last reply", day.ask(sign_on(2)), SIGNED_ON_2)
        expect("report", day.report(), write_report(4, 16))


@test
def greatest_port():
    """Port 65,535 is listened on; where another program has it, that is told."""
    try:
        socket.create_server(("127.0.0.1", 65_535)).close()
    except OSError:
        expect(
            "a busy port",
            run_to_end("serve", KNOWN_SITE, *options(port=65_535)),
            (1, "", tell_deaf(65_535)),
        )
        return
    with serve(1, 1, port=65_535) as day:
        expect("port", day.port, 65_535)
        expect("reply", day.ask(sign_on(1)), SIGNED_ON_1)
        expect("report", day.report(), write_report(2, 1))


@test
def a_sale():
    """A till and a dispenser on two connections: a fuelling of 10,000 ml of diesel is sold,
    locked and cleared."""
    with serve(2, 2) as day, day.connect() as one, day.connect() as pump:
        done = parse("02 01 01 01 00 E2 00 08 01 21 01 01 00 03 01 00")
        one.sendall(sign_on(1))
        expect("SignOn", receive(one, 16), SIGNED_ON_1)
        for command in (OPEN, RELEASE):
            one.sendall(command_point(1, 2, 1, command))
            expect("the point", receive(one, 16), done)
        reports = (
            (LIFT, 0, "03 01 01 01 00 E3 00 0E 01 21 01 01 00 03 01 02 72 04 00 00 05 DC"),
            (
                FLOW,
                4_000,
                "03 01 01 01 00 E3 00 12 01 21 01 01 00 03 01 03 73 08 00 00 00 00 00 00 0F A0",
            ),
            (
                HANG_UP,
                10_000,
                "03 01 01 01 00 E3 00 16 01 21 01 01 00 03 01 06"
                " 73 08 00 00 00 00 00 00 17 70 74 02 00 01",
            ),
        )  # fmt: skip
        for command, total, wanted in reports:
            pump.sendall(report(1, 3, command, total))
            expect(f"report {command:02X}", receive(pump, len(parse(wanted))), parse(wanted))
        one.sendall(command_sale(1, 4, 1, 1, LOCK) + command_sale(1, 5, 1, 1, CLEAR))
        wanted = parse(
            "02 01 01 01 00 E4 00 0B 04 21 21 00 01 01 01 00 03 01 09"
            " 02 01 01 01 00 E5 00 15 04 21 21 00 01 01 01 00 03 01 0B"
            " 75 08 00 00 00 00 00 00 05 DC"
        )
        expect("Lock and Clear", receive(one, len(wanted)), wanted)
        one.close()
        pump.close()
        sold = {"metered": 10_000, "cleared": 10_000}
        expect("report", day.report(), write_report(9, 2, 1, 1_500, diesel=sold))


@test
def a_full_book():
    """A book of three rows: the fourth request has none, and the tills are signed off all the
    same."""
    full = parse("02 01 01 01 00 E3 00 05 01 21 01 01 1E")
    text = KNOWN_SITE.read_text()
    site = HERE / "full.toml"
    rest = [line for line in text.splitlines() if not line.startswith("rows")]
    site.write_text("\n".join(["rows = 3", *rest, ""]))
    with serve(1, 1, site) as day:
        sent = sign_on(1) + command_point(1, 2, 1, OPEN) + command_point(1, 2, 2, OPEN)
        sent += command_point(1, 3, 1, RELEASE)
        opened = "02 01 01 01 00 E2 00 08 01 2{} 01 01 00 03 01 00"
        wanted = SIGNED_ON_1 + parse(opened.format(1)) + parse(opened.format(2)) + full
        expect("replies", day.ask(sent), wanted)
        expect("report", day.report(), write_report(4, 1))


@test
def nothing_held_back():
    """Two requests in one piece have two small replies. The second isn't held back until the
    first one is acknowledged, some 40 ms later: half of a hundred rounds take less."""
    with serve(1, 1) as day, day.connect() as peer:
        peer.sendall(sign_on(1))
        receive(peer, len(SIGNED_ON_1))
        rounds = []
        for _ in range(100):
            begun = time.monotonic()
            peer.sendall(read_point(1, 1, 3) + read_point(1, 2, 3))
            receive(peer, 2 * 38)
            rounds.append(time.monotonic() - begun)
        if statistics.median(rounds) > 0.02:
            raise Failed(f"a round took {statistics.median(rounds):.3f} seconds")
        peer.close()
        expect("report", day.report(), write_report(2 + 2 * len(rounds), 1))


@test
def loopback_alone():
    """It listens on 127.0.0.1, and has no other socket."""
    with serve(1, 1) as day:
        wanted = [(f"0100007F:{day.port:04X}", "0A")]
        expect("addresses", list_addresses(day.process), wanted)
        expect("reply", day.ask(sign_on(1)), SIGNED_ON_1)
        expect("report", day.report(), write_report(2, 1))


# ---- the command line, and the order of faults


def run_to_end(*words, **how):
    end = run(PROGRAM, *map(str, words), timeout=WAIT, **how)
    return end.status, end.out.decode(), end.err


def options(**changed):
    values = {"port": "0", "workers": "2", "sessions": "2", **changed}
    return [f"--{name}={value}" for name, value in values.items() if value is not None]


@test
def mistaken_words():
    wrong = [options(**{name: None}) for name in ("port", "workers", "sessions")]
    for port in ("65536", "-1", "+80", "x", "", "0x50", "1e3", " 80", "99999999999999999999"):
        wrong.append(options(port=port))
    for workers in ("0", "17", "+1", "two", "", "1.0", "18446744073709551617"):
        wrong.append(options(workers=workers))
    wrong += [options(sessions=value) for value in ("0", "10001", "-5", "many", "")]
    wrong += [[*options(), "--port", "1"], [*options(), "--changes"], [*options(), KNOWN_SITE]]
    for words in wrong:
        for site in (KNOWN_SITE, "no_such_file"):
            status, out, err = run_to_end("serve", site, *words)
            expect(f"{words}", (status, out, err != "", "cannot read" in err), (2, "", True, False))
    expect("no file", run_to_end("serve", *options())[:2], (2, ""))


@test
def faulty_files():
    """The site file's fault comes before the server's."""
    with socket.create_server(("127.0.0.1", 0)) as busy:
        port = str(busy.getsockname()[1])
        expect(
            "no file",
            run_to_end("serve", "no_such_file", *options(port=port)),
            (1, "", f"cannot read no_such_file: {NO_FILE}\n"),
        )
        status, out, err = run_to_end("serve", "/dev/null", *options(port=port))
        expect("an empty file", (status, out, first_line(err)), (1, "", "fault 72 product\n"))
        expect(
            "a busy port",
            run_to_end("serve", KNOWN_SITE, *options(port=port)),
            (1, "", tell_deaf(port)),
        )


@test
def closed_output():
    """Where it can't tell where it listens, it serves nobody."""
    end = run_to_end("serve", KNOWN_SITE, *options(), sink="/dev/full")
    expect("status and standard error", end, (1, "", f"{NOT_PRINTED}\n"))


def find_port():
    """A free port that the system gives to nobody who doesn't name it."""
    least = int(pathlib.Path("/proc/sys/net/ipv4/ip_local_port_range").read_text().split()[0])
    for port in range(least - 1 - os.getpid() % 1_000, 1_024, -1):
        with contextlib.suppress(OSError), socket.create_server(("127.0.0.1", port)):
            return port
    raise Failed("no free port")


@test
def a_named_port():
    """A free port, named with zeros before its number."""
    port = find_port()
    with serve(1, 1, port=f"000{port}") as day:
        expect("port", day.port, port)
        expect("reply", day.ask(sign_on(1)), SIGNED_ON_1)
        expect("report", day.report(), write_report(2, 1))
