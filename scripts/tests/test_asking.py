"""`forecourt ask`: a station that runs is asked in words, over TCP and at a door, and its replies
are printed in words. What is expected is in docs/PROGRAM.md: Requests in words, Asking by hand,
Ends of the program."""

import contextlib
import os
import socket
import subprocess
import threading
import time

from shared.checks import NOT_PRINTED, Skipped, advised, expect, expect_end
from shared.running import CLOSED_PIPE, close_input, run, run_unread
from shared.serving import start_day
from shared.station import KNOWN_SITE
from tests.built import PROGRAM
from tests.suite import make_folder, test, test_beside

HERE = make_folder()
LOOK = "see whether the request was done before you ask again"
NOBODY = (
    f"the station closed the connection before it replied: {LOOK}, and that this isn't the port of"
    " a page or a feed"
)
BARRED = (
    "the session has ended: give the lines of one till or dispenser alone, ask at its door if it"
    " has one, and not as the house till"
)
SILENT = f"no reply came within 30 seconds: {LOOK}"
NOBODY_ELSE = 65_534  # a user who has nothing
PATIENCE, LATE = 30, 3  # seconds that `ask` waits for a reply, and that it may be late


def start_station(*words):
    command = [PROGRAM, "station", KNOWN_SITE, *words]
    return start_day([*map(str, command)], rate=None, stdin=-1, umask=0)


def end(day, told=None):
    """The report of a day whose standard input is closed, and that told this on standard error, or
    with None whatever it told."""
    day.process.stdin.close()
    day.process.stdin = None
    return day.report(told)


def ask(lines, *words, **how):
    given = None if lines is None else lines.encode()
    return run(PROGRAM, "ask", *map(str, words), given=given, **how)


def told(*texts):
    return "".join(f"{text}\n" for text in texts).encode()


@test
def each_line_is_asked_and_its_reply_told():
    """Comments and empty lines ask nothing. A token may be named. A refusal doesn't end it."""
    with start_station("--port", 0) as day:
        lines = (
            "# the morning\n\nt1 SignOn\nt1 SetPrice 2 1799, token 9\nt1 Open 1\n"
            "t1 Open 64\nt1 ReadProduct 2\nt1 SignOff\n"
        )
        told_product = (
            "to t1, token 4: ProductIs{price 1799, metered 0, running 0, payable 0, locked 0, "
            "cleared 0, adjusted 0}"
        )
        wanted = told(
            "to t1, token 1: Done", "to t1, token 9: Done", "to t1, token 2: Done",
            "to t1, token 3: 3 NoSuchPoint", told_product, "to t1, token 5: Done",
        )  # fmt: skip
        expect_end("asked on a port", ask(lines, "--port", day.port), 0, wanted)
        report = end(day)
        expect("rows", report.splitlines()[0], "rows 5")


@test
def strict_ends_with_the_first_refusal():
    with start_station("--port", 0) as day:
        lines = "t1 SignOn\nt1 Open 64\nt1 Open 1\n"
        wanted = told("to t1, token 1: Done", "to t1, token 2: 3 NoSuchPoint")
        expect_end("strict", ask(lines, "--strict", "--port", day.port), 1, wanted)
        # What came behind it wasn't asked, and the session's end has signed the till off.
        again = told("to t1, token 1: Done", "to t1, token 2: Done", "to t1, token 3: Done")
        lines = "t1 SignOn\nt1 Open 1\nt1 SignOff\n"
        expect_end("asked again", ask(lines, "--strict", "--port", day.port), 0, again)
        end(day)


@test
def a_line_of_another_is_answered_57():
    with start_station("--port", 0) as day:
        wanted = told("to t1, token 1: Done", "to t2, token 2: 57 OriginatorChanged")
        for lines in ("t1 SignOn\nt2 SignOn\n", "t1 SignOn\nt2 SignOn\nt1 SignOff\n"):
            expect_end("another", ask(lines, "--port", day.port), 1, wanted, BARRED)
        end(day)


@test
def at_a_door():
    """The door is named by its folder or its socket. There only its own node is heard."""
    doors = HERE / "doors"
    for name in ("till-01", "dispenser-01"):
        (doors / name).mkdir(parents=True)
    with start_station("--doors", doors) as day:
        lines = "t1 SignOn\nt1 SignOff\n"
        wanted = told("to t1, token 1: Done", "to t1, token 2: Done")
        for path in (doors / "till-01", doors / "till-01" / "socket"):
            expect_end(f"at {path.name}", ask(lines, "--door", path, "--strict"), 0, wanted)
        wanted = told("to t1, token 1: 57 OriginatorChanged")
        asked = ask(lines, "--door", doors / "dispenser-01", "--strict")
        expect_end("at another's", asked, 1, wanted, BARRED)
        end(day)


@contextlib.contextmanager
def start_asking(port):
    """`ask` of a session that goes on: what sends it a line and returns the lines of its output up
    to the reply to that one, and its process."""
    command = [PROGRAM, "ask", "--port", str(port)]
    pipe = subprocess.PIPE
    with subprocess.Popen(command, stdin=pipe, stdout=pipe, stderr=pipe, bufsize=0) as asking:

        def ask_on(line, token):
            asking.stdin.write(f"{line}\n".encode())
            lines = []
            while not lines or f", token {token}: " not in lines[-1]:
                lines.append(asking.stdout.readline().decode().removesuffix("\n"))
                if not lines[-1]:
                    break
            return lines

        yield ask_on, asking
        asking.kill()


@test
def notices_come_between_replies():
    """A till changes the point of a dispenser that is asked for: notices that came since its last
    reply are told before the next one, in order. None is taken for a reply, and none is told of
    another point or of a request that was refused. A till is told none."""
    with start_station("--port", 0) as day, start_asking(day.port) as (ask_on, asking):
        lines = ["to d1, token 1: 10 WrongState(closed)"]
        expect("the first", ask_on("d1 Online 1", 1), lines)
        lines = "t1 SignOn\nt1 Open 1\nt1 Open 2\nt1 Open 1\nt1 Release 1 volume 3000\n"
        replies = ["Done", "Done", "Done", "10 WrongState(idle)", "Done"]
        wanted = told(*(f"to t1, token {n}: {reply}" for n, reply in enumerate(replies, 1)))
        expect_end("a till", ask(lines, "--port", day.port), 0, wanted)
        lines = ["to d1: Open 1", "to d1: Release 1 volume 3000"]
        lines.append("to d1, token 2: Start{Volume(3000), 1500}")
        expect("behind notices", ask_on("d1 Lift 1 1@0", 2), lines)
        expect("without one", ask_on("d1 Flow 1 1@1000", 3), ["to d1, token 3: Flowed(1000)"])
        lines = "t1 SignOn\nt1 Suspend 1\nt1 Resume 1\nt1 Terminate 1\nt1 SignOff\n"
        replies = ["Done", "Done", "Done", "Ending", "Done"]
        wanted = told(*(f"to t1, token {n}: {reply}" for n, reply in enumerate(replies, 1)))
        expect_end("the till again", ask(lines, "--port", day.port), 0, wanted)
        lines = ["to d1: Suspend 1", "to d1: Resume 1", "to d1: Terminate 1"]
        lines.append("to d1, token 4: Sold{1, 500}")
        expect("behind three", ask_on("d1 HangUp 1 1@1500", 4), lines)
        asking.stdin.close()
        asking.stdin = None
        out, err = asking.communicate(timeout=PATIENCE)
        expect("its end", (asking.returncode, out, err), (0, b"", b""))
        report = end(day)
        expect("rows", report.splitlines()[0], "rows 15")


@test
def strict_passes_over_notices():
    """A notice is no refusal."""
    with start_station("--port", 0) as day:
        lines = "t1 SignOn\nt1 Open 1\nt1 Release 1\n"
        expect("a till", ask(lines, "--port", day.port, "--strict").status, 0)
        lines = "d1 Lift 1 1@0\nd1 HangUp 1 1@0\n"
        wanted = told("to d1, token 1: Start{Unset, 1500}", "to d1: Open 1", "to d1: Release 1",
                      "to d1, token 2: NoSale")  # fmt: skip
        expect_end("strict", ask(lines, "--strict", "--port", day.port), 0, wanted)
        end(day)


@test_beside
def no_reply_comes():
    """Somebody listens, takes what is asked and never replies; or replies to the first of two
    requests alone: `ask` says so half a minute later."""
    reply = bytes.fromhex("02 01 01 01 00 E1 00 08 01 01 01 01 00 03 01 00")  # Done
    for answer, out in ((b"", b""), (reply, told("to t1, token 1: Done"))):
        with start_mute(answer) as port:
            began = time.monotonic()
            ended = ask("t1 SignOn\nt1 ReadSite\n", "--port", port)
            waited = time.monotonic() - began
        expect_end("what it says", ended, 1, out, SILENT)
        expect(f"after {waited:.1f} s", 0 <= waited - PATIENCE < LATE, True)


@contextlib.contextmanager
def start_mute(answer):
    """A server that answers what it is sent first so, and then nothing until it is hung up on."""
    with socket.create_server(("127.0.0.1", 0)) as server:

        def serve():
            with server.accept()[0] as peer:
                peer.recv(4_096)
                peer.sendall(answer)
                while peer.recv(4_096):
                    pass

        thread = threading.Thread(target=serve)
        thread.start()
        yield server.getsockname()[1]
        thread.join()


@test
def nobody_reads_what_it_says():
    """The reader of its output has closed the pipe, or its output or standard error is closed: a
    request is done, and the station is sent nothing else."""
    with start_station("--port", 0) as day:
        lines = b"t1 SignOn\nt1 Open 1\n"
        unread = run_unread(PROGRAM, "ask", "--port", str(day.port), given=lines)
        expect_end("nobody reads", unread, CLOSED_PIPE)
        no_output = ask("t1 SignOn\n", "--port", day.port, preexec_fn=lambda: os.close(1))
        expect_end("no output", no_output, 1, b"", NOT_PRINTED)
        lines = "t1 SignOn\nt1 Open\n"
        no_errors = ask(lines, "--port", day.port, preexec_fn=lambda: os.close(2))
        expect_end("no standard error", no_errors, 1, told("to t1, token 1: Done"))
        expect("SignOn, and SignOff as the session ends", end(day, "").splitlines()[0], "rows 6")


@test
def what_is_no_request():
    with start_station("--port", 0) as day:
        why = "line 2: word 3 is missing: a fuelling point, 1 to 64"
        end_of_it = ask("t1 SignOn\nt1 Open\nt1 Open 1\n", "--port", day.port)
        expect_end("a word is missing", end_of_it, 1, told("to t1, token 1: Done"), why)
        end_of_it = ask("#" + " " * 65_536, "--port", day.port)
        expect_end("too long", end_of_it, 1, b"", advised("line 1: too long"))
        end_of_it = ask(None, "--port", day.port, preexec_fn=close_input)
        expect_end("without standard input", end_of_it, 1, b"", advised("fault 61"))
        end(day)


@test
def where_no_station_is():
    with socket.create_server(("127.0.0.1", 0)) as server:
        free = server.getsockname()[1]
    why = f"nobody listens on port {free}: start the station, or name its port"
    expect_end("a free port", ask("t1 SignOn\n", "--port", free), 1, b"", why)
    path = HERE / "nobody"
    why = f"there is no {path}: name one door, as doors/till-01, of a station that runs"
    expect_end("no door", ask("t1 SignOn\n", "--door", path), 1, b"", why)
    path.write_text("no socket\n")
    why = f"nobody listens at {path}: start the station with this door"
    expect_end("a file", ask("t1 SignOn\n", "--door", path), 1, b"", why)
    path = HERE / ("x" * 200)
    why = (
        f"cannot connect to {path}: see that it is a door's socket, and that its path has at most"
        " 107 octets"
    )
    expect_end("a long path", ask("t1 SignOn\n", "--door", path), 1, b"", why)


@test
def a_door_of_another_user():
    """Who may not use a door is told so, and not that nobody listens."""
    doors = HERE / "closed doors"
    (doors / "till-01").mkdir(parents=True)
    HERE.chmod(0o755)
    path = doors / "till-01" / "socket"
    with start_station("--doors", doors) as day:
        (doors / "till-01").chmod(0o700)
        try:
            who = {"user": NOBODY_ELSE, "group": NOBODY_ELSE, "extra_groups": []}
            asked = ask("t1 SignOn\n", "--door", path, **who)
        except OSError as why:
            raise Skipped(f"nobody can't run the program: {why}") from None
        why = f"this user may not use {path}: ask as a user who may"
        expect_end("another user", asked, 1, b"", why)
        end(day)


@test
def wrong_options():
    path = HERE / "nobody"
    for words in ((), ("--port", 1, "--door", path)):
        why = "error: ask needs --port N or --door PATH, and not both"
        expect_end(f"{len(words) // 2} places", ask("", *words), 2, b"", why)
    for port in ("0", "65536", "+80", "-1", "x", ""):
        why = "error: --port is a decimal number from 1 to 65535"
        expect_end(f"port {port}", ask("", f"--port={port}"), 2, b"", why)


@contextlib.contextmanager
def start_fake(answer):
    """A server that answers what it is sent first so, and hangs up."""
    with socket.create_server(("127.0.0.1", 0)) as server:

        def serve():
            peer = server.accept()[0]
            with peer:
                peer.recv(4_096)
                peer.sendall(answer)

        thread = threading.Thread(target=serve)
        thread.start()
        yield server.getsockname()[1]
        thread.join()


@test
def what_is_no_station():
    with start_fake(b"HTTP/1.1 400 Bad Request\r\n\r\n") as port:
        why = "what answers is no station: name its own port, not its page's"
        expect_end("HTTP", ask("t1 SignOn\n", "--port", port), 1, b"", why)
    with start_fake(b"") as port:
        expect_end("nothing", ask("t1 SignOn\n", "--port", port), 1, b"", NOBODY)
