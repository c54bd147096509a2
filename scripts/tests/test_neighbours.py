"""Neighbours of a station over real sockets: who may speak as whom, how many are served and how
fast, whose till a session's end signs off, which releases end by themselves, and what becomes of
the point of a dispenser that is gone.

Doors are Unix sockets in folders of their own; two system users try to open each other's. Orders of
sign-ons, sign-offs and ends are generated and compared with a model of their own. Histories are
read back row by row."""

import contextlib
import itertools
import os
import resource
import select
import signal
import socket
import stat
import statistics
import subprocess
import sys
import threading
import time
import typing

from shared import floods
from shared.checks import UNACCEPTED, Failed, Skipped, advised, expect
from shared.histories import DETAIL, read_chapters, read_rows
from shared.running import PATIENCE, compile_c, run, tell_deaf
from shared.serving import WAIT, list_addresses, start_day, wait_until
from shared.station import (
    ACKNOWLEDGE, CLEAR, CLOSE_SHIFT, DISPENSER, EXAMPLES, FIVE_POINTS, FLOW, HANG_UP, KNOWN_SITE,
    LIFT, LOCK, NOTICE, OPEN, OUTCOME, RELEASE, REPORT, RESULT, SITE, SUSPEND, TERMINATE, TILL,
    WRITE, address_point, ask_site, command_point, command_sale, decode, encode, read_point,
    read_product, read_sale, read_site, receive_all, receive_message, report, sign_off, sign_on,
    write_site,
)  # fmt: skip
from tests.built import PROGRAM
from tests.suite import make_folder, start_chance, test, test_beside

HERE = make_folder()
ONLINE, OFFLINE, SET_PRICE = 0x60, 0x61, 0x90
STATE, PRICE, VOLUME, STATUS = 0x10, 0x72, 0x73, 0x78
INOPERATIVE, CLOSED, IDLE, CALLING, AUTHORISED, STARTED = 1, 2, 3, 4, 5, 6
SUSPENDED_STARTED, FUELLING, SUSPENDED_FUELLING = 7, 8, 9
NOT_SIGNED_ON, SIGNED_ON, WRONG_STATE, LOCKED_BY_OTHER, ANOTHER_NODE = 1, 2, 10, 20, 57
UNLOCK = 0x81
DONE, SOLD = 0, 6
PAYABLE = 2
MOST_PEERS, MOST_OF_A_NODE = 1_024, 4
SILENT_SECONDS = 10  # that a connection has for its first message
LATE = 3  # seconds that the station may be late with what it does by the clock
QUIET = 0.3  # seconds in which nothing comes, so that nothing will
SHORTEST = 10  # octets of a request


class Missing(Failed):
    """The peer is gone where it was to answer."""


def start_station(*words, site=KNOWN_SITE, port=0, **how):
    """A station on this port, or on none."""
    place = [] if port is None else ["--port", port]
    command = [PROGRAM, "station", site, *place, *words]
    return start_day([*map(str, command)], rate=None, stdin=-1, umask=0, **how)


def end(day, told=None):
    """The report of a day whose standard input is closed; with None, whatever it told."""
    day.process.stdin.close()
    day.process.stdin = None
    return day.report(told)


def count_rows(report_text):
    return int(report_text.split()[1])


def kill(day):
    """Ends a station at once, as a crash does."""
    day.process.send_signal(signal.SIGKILL)
    day.process.wait(WAIT)


# ---- what peers say and are told


def say(point, command=ONLINE, token=0):
    """A dispenser's report without a meter."""
    items = [(command, b"")]
    return encode((SITE, 1), (DISPENSER, point), REPORT, token, address_point(point), items)


def set_price(till, product, price, token=1):
    items = [(SET_PRICE, price.to_bytes(4, "big"))]
    return encode((SITE, 1), (TILL, till), WRITE, token, bytes([0x80 + product]), items)


def ask(peer, sent):
    """Sends a request, and returns its reply; notices may come before it."""
    peer.sendall(sent)
    while True:
        octets = receive_message(peer)
        if not octets:
            raise Missing(f"no reply to {sent.hex(' ')}")
        if octets[5] >> 5 != NOTICE:
            return decode(octets)[0]


def number(message):
    """The number of a reply: 0 of an accepted request."""
    return message.items[RESULT][0] if message.kind == ACKNOWLEDGE else 0


def detail(message):
    return int.from_bytes(message.items.get(DETAIL, b""), "big")


def expect_done(peer, *requests):
    for one in requests:
        expect(f"the reply to {one.hex(' ')}", number(ask(peer, one)), 0)


def expect_another_node(peer, sent):
    """The message is answered with 57 alone, to its own originator, and the session ends."""
    asked = decode(sent)[0]
    wanted = encode(
        asked.sender, (SITE, 1), ACKNOWLEDGE, asked.token, asked.address,
        [(RESULT, bytes([ANOTHER_NODE]))],
    )  # fmt: skip
    peer.sendall(sent)
    expect("another originator", receive_all(peer), wanted)


def is_closed(peer, seconds=PATIENCE):
    """Whether the station closes the connection within so many seconds, and says nothing."""
    peer.settimeout(seconds)
    try:
        return peer.recv(1) == b""
    except ConnectionError:
        return True
    except (TimeoutError, BlockingIOError):
        return False


def leave(peer):
    """A peer that says no more: its session is over once the station has closed it too."""
    peer.shutdown(socket.SHUT_WR)
    receive_all(peer)
    peer.close()


def state(till, number_of_till, point):
    """The state of a point, as a till reads it."""
    view = ask(till, read_point(number_of_till, 1, point))
    return int.from_bytes(view.items[STATE], "big")


def is_signed_on(peer, till):
    return number(ask(peer, read_site(till, 1))) == 0


def read_history(folder, site=KNOWN_SITE):
    """The rows of a station's folder."""
    return read_rows(PROGRAM, site, read_chapters(folder))


# ---- doors


class Doors:
    """A folder of doors, one subfolder for each of these nodes."""

    def __init__(self, name, *nodes):
        self.folder = HERE / name
        self.folder.mkdir()
        for node in nodes:
            (self.folder / node).mkdir()

    def path(self, node):
        return self.folder / node / "socket"

    def connect(self, node):
        peer = socket.socket(socket.AF_UNIX, socket.SOCK_STREAM)
        peer.settimeout(PATIENCE)
        peer.connect(str(self.path(node)))
        return peer

    def is_open(self, node):
        """Is the socket there, and listened at?"""
        try:
            self.connect(node).close()
        except OSError:
            return False
        return True


def expect_refused_start(what, words, wanted, port=0):
    """A start on these words ends with this text as its last lines, before it listens."""
    ended = run(PROGRAM, "station", KNOWN_SITE, "--port", *map(str, [port, *words]), given=b"")
    wanted = wanted.splitlines()
    told = ended.err.splitlines()[-len(wanted) :]
    got = (ended.status, b"listening" in ended.out, told)
    expect(what, got, (1, False, wanted))


@test
def nobody_poses():
    """While till 1 is signed on at its door, a program that never signed on sets a price and closes
    the shift as till 1 over TCP. It is answered 57 and its session ends; nothing is changed."""
    doors = Doors("poses", "till-01")
    with start_station("--doors", doors.folder) as day, doors.connect("till-01") as till:
        expect_done(till, sign_on(1))
        for sent in (set_price(1, 1, 1), ask_site(1, CLOSE_SHIFT), sign_on(1), read_site(1, 1)):
            with day.connect() as stranger:
                expect_another_node(stranger, sent)
        view = ask(till, read_product(1, 1, 1))
        expect("the price", int.from_bytes(view.items[PRICE], "big"), 1_500)
        till.close()
        expect("rows", count_rows(end(day)), 2)  # SignOn and SignOff


@test
def a_door_is_of_one_node():
    """What comes through a door is its node's: a message of another one, the first one too, is
    answered 57 and ends the session. A node without a door speaks over TCP."""
    doors = Doors("of_one", "till-01", "dispenser-02")
    with start_station("--doors", doors.folder) as day:
        for sent in (sign_on(2, 3), say(2, token=4), read_site(32, 5)):
            with doors.connect("till-01") as peer:
                expect_another_node(peer, sent)
            with doors.connect("till-01") as peer:
                expect_done(peer, sign_on(1))
                expect_another_node(peer, sent)
        with doors.connect("dispenser-02") as pump, day.connect() as till:
            expect("its point is online", detail(ask(pump, say(2))), CLOSED)
            expect_done(till, sign_on(2), command_point(2, 1, 2, OPEN))
            change = decode(receive_message(pump))[0]
            expect("the notice", (change.kind, OPEN in change.items), (NOTICE, True))
        end(day)


@test
def only_doors():
    """With doors the port may be left out: then there is no socket of TCP."""
    doors = Doors("only", "till-01")
    command = [PROGRAM, "station", KNOWN_SITE, "--doors", doors.folder]
    with subprocess.Popen([*map(str, command)], stdin=-1, stdout=-1, stderr=-1) as process:
        try:
            wait_until("the door is open", lambda: doors.is_open("till-01"))
            with doors.connect("till-01") as till:
                expect_done(till, sign_on(1))
            expect("addresses", list_addresses(process), [])
            out, _ = process.communicate(timeout=WAIT)
            report_text = out.decode().split("rows", 1)[1]
            expect("its end", (process.returncode, report_text.split()[0]), (0, "2"))
        finally:
            process.kill()


@test
def a_folder_without_doors():
    """A folder in which no node has a folder is said at the start: each node then speaks over
    TCP."""
    doors, folder = Doors("none"), HERE / "history beside no doors"
    with start_station("--doors", doors.folder, "--history", folder) as day, day.connect() as till:
        expect_done(till, sign_on(1))
        end(day, f"no doors in {doors.folder}: each node may connect over TCP\n")


@test
def sockets_of_earlier_runs():
    """A socket that a killed station left is replaced; one at which a station answers isn't, and
    that station goes on."""
    doors = Doors("earlier", "till-01")
    with start_station("--doors", doors.folder) as day:
        kill(day)
    expect("a socket is left", doors.path("till-01").is_socket(), True)
    with start_station("--doors", doors.folder) as day, doors.connect("till-01") as till:
        expect_done(till, sign_on(1))
        fault = advised("door till-01: in use", doors.folder)
        expect_refused_start("in use", ["--doors", doors.folder], fault)
        with doors.connect("till-01") as other:
            expect("it goes on", is_signed_on(other, 1), True)
        end(day)


@test
def starts_at_the_same_time():
    """Of eight stations that are started at once on one folder of doors, in which an earlier run
    left its sockets, one has them all, and the others say that they are in use."""
    nodes = ("till-01", "till-02", "dispenser-01")
    doors, command = Doors("at once", *nodes), [PROGRAM, "station", KNOWN_SITE, "--doors"]
    for _ in range(10):
        with start_station("--doors", doors.folder) as day:
            kill(day)
        with contextlib.ExitStack() as stack:
            words = [*map(str, command), str(doors.folder)]
            how = {"stdin": -1, "stdout": -1, "stderr": -1}
            days = [stack.enter_context(subprocess.Popen(words, **how)) for _ in range(8)]
            stack.callback(lambda days=days: [day.kill() for day in days])
            said = [day.stdout.readline() for day in days]
            serving = [day for day, line in zip(days, said) if line]
            expect("stations that serve", len(serving), 1)
            for node in nodes:
                with doors.connect(node) as peer:
                    peer.sendall(encode((SITE, 1), (9, 9), 0, 1, b"\x01"))
                    expect(f"{node} is served", len(receive_all(peer)) > 0, True)
            for day in days:
                if day not in serving:
                    _, err = day.communicate(timeout=WAIT)
                    fault = advised("door dispenser-01: in use", doors.folder)
                    wanted = (1, f"{fault}\n".encode())
                    expect("another one", (day.returncode, err.split(b"kept\n")[-1]), wanted)
            serving[0].kill()
            serving[0].wait()
    return 10


@test
def starts_that_fail_leave_no_socket():
    """A start that fails behind its doors, at a later door, at the port or at the page's, removes
    the sockets that it made; and so does a day at its end."""
    doors = Doors("leaves", "dispenser-01", "till-01")
    first, last = doors.path("dispenser-01"), doors.path("till-01")
    last.write_text("somebody's\n")
    words = ["--doors", doors.folder]
    fault = advised("door till-01: cannot listen", doors.folder)
    expect_refused_start("a later door", words, fault)
    expect("the first socket", first.exists(), False)
    expect("the file", last.read_text(), "somebody's\n")
    last.unlink()
    with socket.create_server(("127.0.0.1", 0)) as taken:
        port = taken.getsockname()[1]
        told = tell_deaf(port).splitlines()[-1]
        expect_refused_start("the page's port", [*words, "--page", port], told)
        expect("sockets", [first.exists(), last.exists()], [False, False])
        expect_refused_start("the port", words, told, port)
        expect("sockets", [first.exists(), last.exists()], [False, False])
    with start_station(*words) as day:
        expect("sockets", [first.is_socket(), last.is_socket()], [True, True])
        end(day)
    expect("at the day's end", [first.exists(), last.exists()], [False, False])
    return 4


@test
def wrong_doors():
    """A subfolder that is no node's ends the start; so does a door at which nothing can listen."""
    names = (
        "till-00", "till-33", "till-1", "till-001", "Till-01", "dispenser-00", "dispenser-65",
        "dispenser-1", "office",
    )  # fmt: skip
    for name in names:
        doors = Doors(f"wrong-{name}", "till-02", name)
        expect_refused_start(name, ["--doors", doors.folder], advised(f"door {name}: no node"))
    kinds = {
        "a file": lambda path: path.write_text("somebody's\n"),
        "a folder": lambda path: path.mkdir(),
        "a pipe": os.mkfifo,
        "a link": lambda path: path.symlink_to("elsewhere"),
    }
    for kind, make in kinds.items():
        doors = Doors(f"taken by {kind}", "dispenser-64")
        path = doors.path("dispenser-64")
        make(path)
        before = path.lstat()
        why = advised("door dispenser-64: cannot listen", doors.folder)
        expect_refused_start(kind, ["--doors", doors.folder], why)
        left = path.lstat()
        wanted = (before.st_ino, before.st_mode, before.st_size)
        expect(f"{kind} is left", (left.st_ino, left.st_mode, left.st_size), wanted)
    return len(names) + len(kinds)


@test
def modes_stay():
    """The station changes neither the modes of the folders nor whose they are, makes no folder, and
    its sockets can be used by whoever gets into their folder."""
    doors = Doors("modes", "till-01", "till-02", "dispenser-01")
    modes = {"till-01": 0o700, "till-02": 0o750, "dispenser-01": 0o2770}
    for number, (node, mode) in enumerate(modes.items(), 60_003):
        if os.geteuid() == 0:
            os.chown(doors.folder / node, number, number + 1_000)
        (doors.folder / node).chmod(mode)
    look = lambda path: (path.stat().st_mode, path.stat().st_uid, path.stat().st_gid)
    before = {node: look(doors.folder / node) for node in modes}
    with start_station("--doors", doors.folder) as day:
        for node, mode in modes.items():
            expect(node, look(doors.folder / node), before[node])
            expect(f"{node}: its mode", stat.S_IMODE(before[node][0]), mode)
            socket_mode = stat.S_IMODE(doors.path(node).stat().st_mode)
            expect(f"{node}: who may connect", socket_mode & 0o222, 0o222)
        expect("folders", {path.name for path in doors.folder.iterdir()}, {*modes})
        end(day)


def try_as(user, path):
    """What a process of this system user, which is in no group, comes to that connects to a door
    and signs on: the number of the reply, or the name of the error."""
    reading, writing = os.pipe()
    child = os.fork()
    if child == 0:
        said = "no end"
        try:
            os.setgroups([])
            os.setgid(user)
            os.setuid(user)
            with socket.socket(socket.AF_UNIX, socket.SOCK_STREAM) as peer:
                peer.settimeout(PATIENCE)
                peer.connect(str(path))
                said = str(number(ask(peer, sign_on(int(path.parent.name[-2:])))))
        except Exception as why:
            said = type(why).__name__
        finally:
            os.write(writing, said.encode())
            os._exit(0)
    os.close(writing)
    with open(reading) as told:
        said = told.read()
    os.waitpid(child, 0)
    return said


@test
def two_users():
    """Two system users, of whom each may speak as one till: a user's own door opens, and the
    other's doesn't. A folder of mode 0755 lets everybody in."""
    if os.geteuid() != 0:
        raise Skipped("only root can be two users")
    doors = Doors("users", "till-01", "till-02", "till-03")
    HERE.chmod(0o755)
    users = {"till-01": 60_001, "till-02": 60_002}
    for node, user in users.items():
        os.chown(doors.folder / node, user, user)
        (doors.folder / node).chmod(0o700)
    (doors.folder / "till-03").chmod(0o755)
    with start_station("--doors", doors.folder) as day:
        for node, owner in users.items():
            for user in users.values():
                wanted = "0" if user == owner else "PermissionError"
                expect(f"user {user} at {node}", try_as(user, doors.path(node)), wanted)
            expect("everybody", try_as(owner, doors.path("till-03")), "0")
        end(day)
    return 6


# ---- places


@test
def silent_peers_keep_nobody_out():
    """1,024 connections that say nothing, or half a message, and a dispenser that comes then: it
    takes the place of the one that has waited longest. Who has spoken keeps its place."""
    with start_station() as day, contextlib.ExitStack() as stack:
        till = stack.enter_context(day.connect())
        expect_done(till, sign_on(1))
        silent = [stack.enter_context(day.connect()) for _ in range(MOST_PEERS - 1)]
        silent[1].sendall(sign_on(2)[:7])
        pump = stack.enter_context(day.connect())
        expect("a dispenser is served", detail(ask(pump, say(1))), CLOSED)
        expect("the first one is closed", is_closed(silent[0]), True)
        other = stack.enter_context(day.connect())
        expect("another one, too", detail(ask(other, say(2))), CLOSED)
        expect("the half message, next", is_closed(silent[1]), True)
        expect("the last one stays", is_closed(silent[-1], QUIET), False)
        expect_done(till, command_point(1, 1, 1, OPEN))
        end(day)


@test_beside
def silent_peers_are_closed():
    """A connection without a whole message is closed after ten seconds, also one of which an octet
    comes now and then. Who has said something may be silent."""
    with start_station() as day, contextlib.ExitStack() as stack:
        silent, slow, pump = (stack.enter_context(day.connect()) for _ in range(3))
        begun = time.monotonic()
        expect("a dispenser", detail(ask(pump, say(1))), CLOSED)
        expect_closed_in_time({"silent": silent, "slow": slow}, begun, slow, sign_on(1)[:-1])
        expect("who has spoken", is_closed(pump, QUIET), False)
        expect("it is heard", detail(ask(pump, say(1))), CLOSED)
        end(day)


def expect_closed_in_time(peers, begun, slow=None, octets=b""):
    """Each of these peers is closed ten seconds after it came. To one of them an octet comes each
    second until then."""
    sent = 0
    for what, peer in peers.items():
        peer.setblocking(False)
    left = dict(peers)
    while left and time.monotonic() < begun + SILENT_SECONDS + LATE + 1:
        passed = time.monotonic() - begun
        if slow and sent < min(passed, len(octets)) and slow in left.values():
            slow.send(octets[sent : sent + 1])
            sent += 1
        for what, peer in [*left.items()]:
            if is_closed(peer, 0):
                expect(f"{what}: {passed:.1f} seconds", passed >= SILENT_SECONDS - 0.1, True)
                del left[what]
        time.sleep(0.05)
    expect("not closed", [*left], [])
    expect("octets of the slow one", sent >= min(len(octets), SILENT_SECONDS - 1), True)


@test_beside
def silent_peers_at_a_door():
    """The ten seconds hold at a door, too. Where its four places are taken, a newcomer takes the
    place of the one that has waited longest without a whole message. Who has spoken keeps its
    place, silent or not."""
    doors = Doors("silent", "till-01")
    with start_station("--doors", doors.folder) as day, contextlib.ExitStack() as stack:
        come = lambda: stack.enter_context(doors.connect("till-01"))
        first = come()
        expect_done(first, sign_on(1))
        silent = []
        for _ in range(MOST_OF_A_NODE - 1):
            silent.append(come())
            time.sleep(0.1)
        silent[0].sendall(sign_on(1)[:5])
        begun = time.monotonic()
        for n in range(2):
            expect("a newcomer", is_signed_on(come(), 1), True)
            expect(f"silent one {n} leaves", is_closed(silent[n]), True)
        expect("the last one stays", is_closed(silent[2], QUIET), False)
        expect_closed_in_time({"the last one": silent[2]}, begun)
        expect("a newcomer", is_signed_on(come(), 1), True)
        with doors.connect("till-01") as more:
            expect("a fifth one", is_closed(more), True)
        expect("who has spoken", is_signed_on(first, 1), True)
        end(day)


@test
def four_sessions_of_a_node():
    """A fifth session of a node is answered nothing and closed, its request makes no row, and that
    is said on standard error. Where one has ended there is room again."""
    with start_station() as day, contextlib.ExitStack() as stack:
        peers = [stack.enter_context(day.connect()) for _ in range(MOST_OF_A_NODE)]
        for peer in peers:
            expect("a session", number(ask(peer, read_site(3, 1))), NOT_SIGNED_ON)
        with day.connect() as more, day.connect() as other:
            more.sendall(sign_on(3))
            expect("a fifth one", receive_all(more), b"")
            expect("another till", number(ask(other, read_site(4, 1))), NOT_SIGNED_ON)
        leave(peers[0])
        with day.connect() as again:
            expect("again", number(ask(again, read_site(3, 1))), NOT_SIGNED_ON)
        day.process.stdin.close()
        day.process.stdin = None
        told, err = day.process.communicate(timeout=WAIT)
        expect("rows: its request made none", count_rows(told.decode()), 0)
        lines = [line for line in err.decode().splitlines() if "t3" in line]
        expect("said once", lines, ["session of t3: it has 4 sessions, as many as it may"])


@test
def doors_have_their_own_places():
    """1,024 connections of TCP, each of which has spoken, and a door: four sessions have places
    there, and a fifth one hasn't. No connection of TCP leaves for them."""
    doors = Doors("places", "till-01")
    nodes = [*list_nodes(first_till=2), *list_invented_nodes()]
    with start_station("--doors", doors.folder, "--rate", 0) as day:
        with contextlib.ExitStack() as stack:
            peers = speak_as(stack, day, nodes[: MOST_PEERS // MOST_OF_A_NODE])
            expect("places that are taken", len(peers), MOST_PEERS)
            for _ in range(MOST_OF_A_NODE):
                till = stack.enter_context(doors.connect("till-01"))
                expect("at the door", number(ask(till, read_site(1, 1))), NOT_SIGNED_ON)
            with doors.connect("till-01") as more:
                expect("a fifth one", is_closed(more), True)
            expect("those that left", count_closed(peers), 0)
            end(day, None)


def list_nodes(first_till=1):
    """The nodes that a site can have."""
    tills = [(TILL, number) for number in range(first_till, 33)]
    return tills + [(DISPENSER, number) for number in range(1, 65)]


def list_invented_nodes():
    """Nodes that no site has: beyond the tills and the dispensers, and of other subnets."""
    beyond = [(TILL, 0), (TILL, 33), (TILL, 255), (DISPENSER, 0), (DISPENSER, 65), (SITE, 1)]
    return beyond + [(9, number) for number in range(250)]


def speak_as(stack, day, nodes):
    """Four sessions of each of these nodes, each of which has got an answer."""
    peers = []
    for node in nodes:
        for _ in range(MOST_OF_A_NODE):
            peer = stack.enter_context(day.connect())
            peer.sendall(encode((SITE, 1), node, 0, 1, b"\x01"))
            expect(f"an answer to {node}", len(receive_message(peer)) > 0, True)
            peers.append(peer)
    return peers


def count_closed(peers):
    """How many of these peers the station has closed."""
    waiting = select.poll()
    for peer in peers:
        waiting.register(peer, select.POLLIN)
    return len(waiting.poll(0))


@test
def invented_nodes_hold_no_place():
    """1,024 sessions, all of which have spoken, most of them of nodes that no site has. A dispenser
    and a till come, and take the places of the two that came first of those; the sessions of nodes
    that a site can have keep theirs."""
    newcomers = (TILL, 1), (DISPENSER, 1)
    known = [node for node in list_nodes() if node not in newcomers][:40]
    nodes = [*known, *list_invented_nodes()]
    with start_station("--rate", 0) as day, contextlib.ExitStack() as stack:
        peers = speak_as(stack, day, nodes[: MOST_PEERS // MOST_OF_A_NODE])
        expect("places that are taken", len(peers), MOST_PEERS)
        pump, till = (stack.enter_context(day.connect()) for _ in range(2))
        expect("a dispenser", detail(ask(pump, say(1))), CLOSED)
        expect("a till", number(ask(till, read_site(1, 1))), NOT_SIGNED_ON)
        kept = len(known) * MOST_OF_A_NODE
        expect("of nodes of a site", count_closed(peers[:kept]), 0)
        expect("the first two others", count_closed(peers[kept : kept + 2]), 2)
        expect("the others", count_closed(peers[kept + 2 :]), 0)
        end(day, None)


@test
def invented_nodes_that_send_without_end():
    """1,024 sessions of nodes that no site has have spoken, and each sends more than is read of it.
    Sixteen that come at once and speak a moment later are all heard: others leave for them."""
    nodes = list_invented_nodes()
    with start_station() as day, contextlib.ExitStack() as stack:
        peers = speak_as(stack, day, nodes)
        expect("places that are taken", len(peers), MOST_PEERS)
        for at, peer in enumerate(peers):
            peer.setblocking(False)
            flood(peer, encode((SITE, 1), nodes[at // MOST_OF_A_NODE], 0, 1, b"\x01") * 4_000)
        newcomers = [stack.enter_context(day.connect()) for _ in range(16)]
        time.sleep(QUIET)
        for n, till in enumerate(newcomers, 1):
            expect(f"till {n}", number(ask(till, read_site(n, 1))), NOT_SIGNED_ON)
        end(day, None)


@test_beside
def few_descriptors():
    """With 64 descriptors silent connections take all that are left. A dispenser over TCP, and a
    till at a door, get through all the same, and that nothing can be accepted isn't said."""
    doors = Doors("few", "till-01")
    few = lambda: resource.setrlimit(resource.RLIMIT_NOFILE, (64, 64))
    with start_station("--doors", doors.folder, preexec_fn=few) as day:
        with contextlib.ExitStack() as stack:
            silent = [stack.enter_context(day.connect()) for _ in range(200)]
            for _ in range(2):
                pump, till = stack.enter_context(day.connect()), doors.connect("till-01")
                stack.enter_context(till)
                expect("a till at its door", number(ask(till, read_site(1, 1))), NOT_SIGNED_ON)
                expect("a dispenser", detail(ask(pump, say(1))), CLOSED)
                silent += [stack.enter_context(day.connect()) for _ in range(100)]
            expect_done(till, sign_on(1))
            expect("who has spoken", detail(ask(pump, say(1))), CLOSED)
            expect("most of them left", count_closed(silent) > len(silent) - 64, True)
        end(day)


@test_beside
def accepting_fails_at_doors_alone():
    """At a station with doors alone, where each descriptor is a session's that has spoken: that
    accepting fails is said once, however long, and a door is served once there is room again."""
    nodes = [f"till-{number:02}" for number in range(1, 9)]
    doors = Doors("spent", *nodes)
    few = lambda: resource.setrlimit(resource.RLIMIT_NOFILE, (32, 32))
    with start_station("--doors", doors.folder, port=None, preexec_fn=few) as day:
        with contextlib.ExitStack() as stack:
            peers = []
            for n in range(8 * MOST_OF_A_NODE):
                peer = stack.enter_context(doors.connect(nodes[n % 8]))
                peer.sendall(read_site(n % 8 + 1, 1))
                peers.append(peer)
            time.sleep(3.5)
            answered = [peer for peer in peers if select.select([peer], [], [], 0)[0]]
            expect("some are served", 8 < len(answered) < len(peers), True)
            for peer in answered[:8]:
                leave(peer)
            waiting = [peer for peer in peers if peer not in answered]
            served = lambda: select.select(waiting, [], [], 0)[0]
            wait_until("eight that waited served", lambda: len(served()) >= 8)
            for peer in served():
                expect("one", number(decode(receive_message(peer))[0]), NOT_SIGNED_ON)
        end(day, UNACCEPTED)


# ---- rates


def flood(peer, octets):
    """Sends all of it, as fast as it is taken, until the station closes."""
    with contextlib.suppress(OSError):
        peer.sendall(octets)


@test
def floods_are_slowed():
    """A connection that never signed on sends requests without end. It makes no more rows than
    octets are read of it, ten thousand a second; another till is answered meanwhile."""
    with start_station() as day, day.connect() as peer, day.connect() as till:
        begun = time.monotonic()
        thread = threading.Thread(target=flood, args=(peer, sign_off(9) * 100_000))
        thread.start()
        expect_done(till, sign_on(1))
        slowest = 0
        while time.monotonic() < begun + 2:
            before = time.monotonic()
            expect("a read", number(ask(till, read_point(1, 1, 1))), 0)
            slowest = max(slowest, time.monotonic() - before)
        took = time.monotonic() - begun
        rows = count_rows(end(day)) - 2
        peer.close()
        thread.join()
    most = 1_000 * (took + 0.5)
    expect(f"{rows} rows in {took:.2f} seconds", SHORTEST * 10 < rows <= most, True)
    expect(f"a read took {slowest:.3f} seconds", slowest < 1, True)


@test_beside
def slow_answers_are_the_same():
    """With --rate 100 a thousand octets are read in a second, from the first one on. All requests
    are answered as without, only later."""
    sent = sign_on(1) + read_point(1, 2, 3) * 300
    with start_station("--rate", 0) as day:
        with day.connect() as peer:
            begun = time.monotonic()
            thread = threading.Thread(target=flood, args=(peer, sent))
            thread.start()
            wanted = [receive_message(peer) for _ in range(301)]
            thread.join()
            expect("without a limit", time.monotonic() - begun < 1, True)
        end(day)
    with start_station("--rate", 100) as day:
        with day.connect() as peer:
            begun = time.monotonic()
            peer.sendall(sent)
            got, soon = [], 0
            while len(got) < 301:
                got.append(receive_message(peer))
                soon += time.monotonic() - begun < 0.5
            took = time.monotonic() - begun
        end(day)
    expect("the same", got, wanted)
    least = len(sent) / 1_000
    expect(f"{took:.2f} seconds", least - 0.2 <= took <= least + LATE, True)
    expect(f"{soon} in half a second", soon * SHORTEST <= 600, True)


@test_beside
def long_first_messages_at_a_low_rate():
    """With --rate 1 a first message of 150 octets takes fifteen seconds. It is heard all the same;
    one of which the rest doesn't come is closed after ten."""
    sent = encode((SITE, 1), (TILL, 1), 0, 1, b"\x01", [(0x50, bytes(130))])
    with start_station("--rate", 1) as day, day.connect() as peer, day.connect() as half:
        begun = time.monotonic()
        peer.sendall(sent)
        half.sendall(sent[:20])
        expect_closed_in_time({"half a message": half}, begun)
        peer.settimeout(len(sent) / SHORTEST + LATE)
        expect("an answer", len(receive_message(peer)) > 0, True)
        took = time.monotonic() - begun
        least = len(sent) / SHORTEST
        expect(f"{took:.1f} seconds", least - 0.5 <= took <= least + LATE, True)
        end(day, None)


@test_beside
def many_lines_hide_no_other():
    """Sessions of many nodes end with one fault. Of its text ten lines are written in a second,
    then how many more came; lines of other texts between them are written."""
    with start_station("--rate", 0) as day, contextlib.ExitStack() as stack:
        for n in range(3_000):
            with day.connect() as peer:
                peer.sendall(encode((SITE, 1), (9, n % 250), 0, 1, b"\x01") + b"\1")
                peer.shutdown(socket.SHUT_WR)
                receive_all(peer)
            if n % 1_000 == 500:
                with day.connect() as other:
                    other.sendall(sign_on(1) + sign_on(2))
                    receive_all(other)
        day.process.stdin.close()
        day.process.stdin = None
        _, err = day.process.communicate(timeout=WAIT)
    lines = err.decode().splitlines()
    half = "fault 44: the octets end inside a message"
    few = [line for line in lines if line.startswith("session of") and line.endswith(half)]
    more = [line.split(" more in a second: ") for line in lines if "more in" in line]
    others = lines.count("session of t1: fault 57: another originator")
    expect("the other text", others, 3)
    expect("texts that were too many", {text for _, text in more}, {half})
    expect("in all", len(few) + sum(int(count) for count, _ in more), 3_000)
    expect(f"{len(few)} lines, {len(more)} seconds", len(few) <= 10 * (len(more) + 1), True)


FLOOD_RUNS, FLOOD_SECONDS, MOST_TIMES = 3, 6, 3
BUSY = 20_000  # microseconds that a machine with other work may add; bench/flood measures without


@test
def a_flood_beside_a_day():
    """32 tills and 64 dispensers at work, and beside them 200 connections that send as fast as they
    can, 1,024 that say nothing and 1,000 connects a second. Dispensers come and go meanwhile, none
    is kept out, and each figure of the report is right. The work's replies take less than three
    times as long as without them, and what a busy machine may add: half of them and 99 of 100, by
    the medians of three runs each."""
    clients = compile_c(HERE, "bench/flood.c", "-O2", "-pthread")
    site, runs = floods.write_flooded_site(HERE), {False: [], True: []}
    for _ in range(FLOOD_RUNS):
        for is_flooded, got in runs.items():
            with start_station(site=site) as day:
                got.append(floods.work(clients, day, FLOOD_SECONDS, is_flooded))
                floods.expect_right(end(day), got[-1])
    for what in ("median", "most"):
        alone, flooded = (
            statistics.median(getattr(figures, what) for figures in runs[which])
            for which in (False, True)
        )
        times = f"{what}: {alone:.0f} and {flooded:.0f} microseconds"
        expect(times, flooded < MOST_TIMES * alone + BUSY, True)
    return 2 * FLOOD_RUNS


# ---- whose till it is


class TillModel:
    """Whether a till is signed on, and which of its sessions has signed it on last."""

    def __init__(self):
        self.is_on, self.owner = False, None

    def sign_on(self, session):
        """The number of the reply to a SignOn of this session."""
        if self.is_on:
            return SIGNED_ON
        self.is_on, self.owner = True, session
        return 0

    def sign_off(self):
        if not self.is_on:
            return NOT_SIGNED_ON
        self.is_on, self.owner = False, None
        return 0

    def end(self, session):
        """The session ends: it leaves the till only if it was the one that signed it on last."""
        if self.owner == session:
            self.is_on, self.owner = False, None


@test
def a_till_that_is_taken_over():
    """Till 1 is signed on by one session. Another one signs it off and on, opens a point, and works
    on. The end of the first one leaves the till signed on; the end of the second signs it off."""
    with start_station() as day, day.connect() as first, day.connect() as look:
        expect_done(first, sign_on(1))
        with day.connect() as second:
            expect_done(second, sign_off(1), sign_on(1), command_point(1, 1, 1, OPEN))
            expect_done(second, command_point(1, 1, 1, RELEASE))
            leave(first)
            expect("still signed on", is_signed_on(look, 1), True)
            expect_done(second, command_point(1, 1, 1, TERMINATE))
            leave(second)
        expect("signed off", is_signed_on(look, 1), False)
        end(day)


@test
def locks_of_a_till_that_is_taken_over():
    """Till 1 is taken over, and its second session locks a transaction. The end of the first
    session leaves it locked; another till can't clear it; the end of the second makes it
    payable."""
    with start_station() as day, day.connect() as first, day.connect() as other:
        with day.connect() as pump:
            expect_done(first, sign_on(1))
            expect_done(other, sign_on(2))
            ask(pump, say(1))
            bring(other, pump, 1, (OPEN, RELEASE, LIFT, FLOW))
            expect_done(pump, report(1, 1, HANG_UP, LITRES))
            expect_done(first, command_sale(1, 1, 1, 1, LOCK))
            with day.connect() as second:
                expect_done(second, sign_off(1))
                expect("till 1 left it", read_status(other, 2), PAYABLE)
                expect_done(second, sign_on(1), command_sale(1, 1, 1, 1, LOCK))
                leave(first)
                for command in (LOCK, UNLOCK, CLEAR):
                    refused = ask(other, command_sale(2, 1, 1, 1, command))
                    wanted = (LOCKED_BY_OTHER, 1)
                    expect("another till", (number(refused), detail(refused)), wanted)
                leave(second)
            expect("its holder has ended", read_status(other, 2), PAYABLE)
            expect_done(other, command_sale(2, 1, 1, 1, LOCK), command_sale(2, 1, 1, 1, CLEAR))
        end(day)


def read_status(peer, till):
    """The status of sale 1 of point 1."""
    return ask(peer, read_sale(till, 1, 1, 1)).items[STATUS][0]


def list_orders(most):
    """Each order of up to so many steps of two sessions of a till, in which both end: of a session
    nothing comes behind its end."""
    steps = [(who, what) for who in "AB" for what in ("on", "off", "end")]
    for length in range(2, most + 1):
        for order in itertools.product(steps, repeat=length):
            ends = [order.index((who, "end")) if (who, "end") in order else -1 for who in "AB"]
            last = [max(k for k, (one, _) in enumerate(order) if one == who) if who in
                    [one for one, _ in order] else -1 for who in "AB"]  # fmt: skip
            if -1 not in ends and ends == last:
                yield order


def draw_orders(chance, count, sessions="ABC", length=12):
    """Orders of more steps, of three sessions."""
    for _ in range(count):
        alive, order = [*sessions], []
        while alive:
            who = chance.choice(alive)
            what = chance.choice(("on", "on", "off", "off", "end" if len(order) > 4 else "on"))
            if len(order) >= length:
                what = "end"
            order.append((who, what))
            if what == "end":
                alive.remove(who)
        yield tuple(order)


def follow(day, look, till, order):
    """Takes these steps with new sessions of a till, and compares each reply, and whether the till
    is signed on behind each step, with the model."""
    model, steps = TillModel(), []
    with contextlib.ExitStack() as stack:
        peers = {}
        for who in sorted({who for who, _ in order}):
            peers[who] = stack.enter_context(day.connect())
            expect("a read", number(ask(peers[who], read_site(till, 1))), NOT_SIGNED_ON)
        for who, what in order:
            steps.append(f"{who} {what}")
            if what == "end":
                model.end(who)
                leave(peers[who])
            else:
                wanted = model.sign_on(who) if what == "on" else model.sign_off()
                sent = sign_on(till) if what == "on" else sign_off(till)
                expect(", ".join(steps), number(ask(peers[who], sent)), wanted)
            signed_on = is_signed_on(look, till)
            expect(f"{', '.join(steps)}: is signed on", signed_on, model.is_on)


@test
def take_overs_in_each_order():
    """Each order of up to five steps of two sessions."""
    count = 0
    with start_station("--rate", 0) as day, day.connect() as look:
        for order in list_orders(5):
            follow(day, look, 7, order)
            count += 1
        end(day)
    return count


@test
def take_overs_of_three(seed):
    """Three sessions of a till, in orders that are drawn."""
    chance, count = start_chance(seed, "take-overs"), 200
    with start_station("--rate", 0) as day, day.connect() as look:
        for order in draw_orders(chance, count):
            follow(day, look, 8, order)
        end(day)
    return count


# ---- the house till


def release_and_crash(folder, *words):
    """A station with a history, at which till 2 has opened and released point 1 and opened point 2,
    is killed."""
    with start_station("--history", folder, *words) as day, day.connect() as till:
        expect_done(till, sign_on(2), command_point(2, 1, 1, OPEN))
        expect_done(till, command_point(2, 1, 1, RELEASE), command_point(2, 1, 2, OPEN))
        kill(day)


def house_rows(till, point):
    """The requests of the house till that ends a release."""
    return [sign_on(till, 0), command_point(till, 0, point, TERMINATE), sign_off(till, 0)]


@test
def releases_end_at_a_start():
    """The station is killed with a release, and started again with a house till. Nobody signs on.
    The dispenser isn't told of the release, and a nozzle that is lifted only calls."""
    folder = HERE / "released"
    release_and_crash(folder)
    with start_station("--history", folder, "--house", 1) as day, day.connect() as pump:
        pump.sendall(say(1))
        expect("Online", detail(decode(receive_message(pump))[0]), IDLE)
        expect("what stands there", OPEN in decode(receive_message(pump))[0].items, True)
        lifted = ask(pump, report(1, 1, LIFT, 0))
        expect("a lift", lifted.items[OUTCOME], b"\1")  # Calling
        end(day)
    requests = [row.request for row in read_history(folder)]
    wanted = [sign_off(2, 0), *house_rows(1, 1), say(1), report(1, 0, LIFT, 0)]
    expect("rows", requests[4:], wanted)


@test
def without_a_house_till():
    """The same start without a house till: the release stands, as it always did."""
    folder = HERE / "standing"
    release_and_crash(folder)
    with start_station("--history", folder) as day, day.connect() as pump:
        expect("Online", detail(ask(pump, say(1))), AUTHORISED)
        end(day)


@test
def the_house_till_is_nobodys():
    """A session of the house till's node is answered 57 and ended, at its door too, and makes no
    row. Another till that isn't a manager's can't be the house till."""
    doors = Doors("house", "till-01")
    with start_station("--house", 1, "--doors", doors.folder) as day:
        for sent in (sign_on(1), read_site(1, 1), set_price(1, 1, 1)):
            for connect in (day.connect, lambda: doors.connect("till-01")):
                with connect() as peer:
                    expect_another_node(peer, sent)
        with day.connect() as till:
            expect_done(till, sign_on(2))
        expect("rows", count_rows(end(day)), 2)
    for till in (2, 32):
        why = advised(f"house {till}: no manager")
        expect_refused_start(f"till {till}", ["--house", till], why)
    for word in ("0", "33", "256", "-1", "+1", "one", ""):
        ended = run(PROGRAM, "station", KNOWN_SITE, "--port", "0", f"--house={word}")
        wanted = (2, b"", "error: --house is a decimal number from 1 to 32\n")
        expect(f"--house {word}", (ended.status, ended.out, ended.err), wanted)


@test_beside
def old_releases_end():
    """A release without a lift ends after --release-age seconds, and its dispenser is told; a
    fuelling that has started goes on, and a release that was made later stands."""
    folder = HERE / "old"
    words = ("--history", folder, "--house", 1, "--release-age", 10)
    with start_station(*words) as day, day.connect() as till, day.connect() as pump:
        ask(pump, say(2))
        expect_done(till, sign_on(2))
        for point in (1, 2):
            expect_done(till, command_point(2, 1, point, OPEN), command_point(2, 1, point, RELEASE))
        expect_done(pump, report(2, 1, LIFT, 0))
        time.sleep(6)
        expect_done(till, command_point(2, 1, 3, OPEN), command_point(2, 1, 3, RELEASE))
        expect("before", state(till, 2, 1), AUTHORISED)
        wait_until("the release ends", lambda: state(till, 2, 1) == IDLE)
        expect("started", state(till, 2, 2), STARTED)
        expect("later", state(till, 2, 3), AUTHORISED)
        end(day)
    requests = [row.request for row in read_history(folder)]
    begin = requests.index(sign_on(1, 0))
    expect("rows of the house till", requests[begin : begin + 3], house_rows(1, 1))
    expect("each once", requests.count(sign_on(1, 0)), 1)


@test_beside
def releases_made_anew():
    """A release that is ended and made anew just before --release-age stands for so long again."""
    with start_station("--house", 1, "--release-age", 10) as day, day.connect() as till:
        expect_done(till, sign_on(2), command_point(2, 1, 1, OPEN))
        expect_done(till, command_point(2, 1, 1, RELEASE))
        time.sleep(9)
        expect_done(till, command_point(2, 1, 1, TERMINATE), command_point(2, 1, 1, RELEASE))
        anew = time.monotonic()
        while time.monotonic() < anew + 9.5:
            expect("it stands", state(till, 2, 1), AUTHORISED)
            time.sleep(0.25)
        wait_until("it ends", lambda: state(till, 2, 1) == IDLE)
        took = time.monotonic() - anew
        expect(f"after {took:.1f} seconds", took <= 10 + LATE, True)
        end(day)


@test_beside
def releases_age_while_stopped():
    """A release grows old while the station is stopped, and ends as soon as it goes on. A dispenser
    that couldn't speak meanwhile isn't lost, and no session ends by that."""
    words = ("--house", 1, "--release-age", 10, "--lost", 5, "--idle", 5)
    with start_station(*words) as day, day.connect() as till, day.connect() as pump:
        ask(pump, say(1))
        expect_done(till, sign_on(2), command_point(2, 1, 1, OPEN))
        expect_done(till, command_point(2, 1, 1, RELEASE))
        leave(pump)
        day.process.send_signal(signal.SIGSTOP)
        time.sleep(11)
        day.process.send_signal(signal.SIGCONT)
        begun = time.monotonic()
        wait_until("it ends", lambda: state(till, 2, 1) == IDLE)
        took = time.monotonic() - begun
        expect(f"after {took:.1f} seconds", took < 2, True)
        with day.connect() as back:
            expect("the dispenser isn't lost", detail(ask(back, say(1))), IDLE)
        end(day)


# ---- dispensers that are gone


class Fuelling(typing.NamedTuple):
    """What brings a point to a state: a till's commands, and a dispenser's reports in between."""

    state: int
    steps: tuple
    outcome: int = DONE


LITRES = 3_000
FUELLINGS = (
    Fuelling(INOPERATIVE, (OFFLINE,), WRONG_STATE),
    Fuelling(CLOSED, ()),
    Fuelling(IDLE, (OPEN,)),
    Fuelling(CALLING, (OPEN, LIFT)),
    Fuelling(AUTHORISED, (OPEN, RELEASE)),
    Fuelling(STARTED, (OPEN, RELEASE, LIFT)),
    Fuelling(SUSPENDED_STARTED, (OPEN, RELEASE, LIFT, SUSPEND)),
    Fuelling(FUELLING, (OPEN, RELEASE, LIFT, FLOW), SOLD),
    Fuelling(SUSPENDED_FUELLING, (OPEN, RELEASE, LIFT, FLOW, SUSPEND), SOLD),
)


def bring(till, pump, point, steps):
    """Takes the steps of a fuelling at a point."""
    for step in steps:
        if step == OFFLINE:
            expect_done(pump, say(point, OFFLINE))
        elif step in (LIFT, FLOW):
            expect_done(pump, report(point, 1, step, LITRES if step == FLOW else 0))
        else:
            expect_done(till, command_point(2, 1, point, step))


def offline_rows(folder, site, point):
    """The rows in which a point's dispenser is said to be offline."""
    return [row for row in read_history(folder, site) if row.request == say(point, OFFLINE)]


def make_site(points):
    site = HERE / f"points_{points}.toml"
    site.write_text(write_site(points))
    return site


def expect_lost(point, fuelling, rows):
    """The last of these rows is the station's, and has the reply that its state calls for."""
    told = decode(rows[-1].reply)[0]
    if fuelling.outcome == WRONG_STATE:
        expect(f"point {point}", (number(told), detail(told)), (WRONG_STATE, INOPERATIVE))
        return
    outcome = told.items[OUTCOME][0] if number(told) == 0 else None
    expect(f"point {point}", outcome, fuelling.outcome)
    if outcome == SOLD:
        expect(f"point {point}: grown", int.from_bytes(told.items[VOLUME], "big"), 0)


@test
def dispensers_lost_in_each_state():
    """The dispensers of nine points end their sessions, each with its point in another state. Each
    point is then inoperative, what had flowed is sold, and a release is refused."""
    folder, site = HERE / "lost", make_site(len(FUELLINGS))
    words = ("--history", folder, "--lost", 1)
    with start_station(*words, site=site) as day, day.connect() as till:
        expect_done(till, sign_on(2))
        for point, fuelling in enumerate(FUELLINGS, 1):
            with day.connect() as pump:
                ask(pump, say(point))
                bring(till, pump, point, fuelling.steps)
                expect(f"point {point}", state(till, 2, point), fuelling.state)
                leave(pump)
        states = lambda: {state(till, 2, point) for point in range(1, len(FUELLINGS) + 1)}
        wait_until("all are lost", lambda: states() == {INOPERATIVE})
        time.sleep(LATE)  # the row of the one that was inoperative, and no second one
        for point, fuelling in enumerate(FUELLINGS, 1):
            refused = ask(till, command_point(2, 1, point, RELEASE))
            wanted = (WRONG_STATE, INOPERATIVE)
            expect("a release", (number(refused), detail(refused)), wanted)
            if fuelling.outcome == SOLD:
                sale = ask(till, read_sale(2, 1, point, 1))
                expect("its sale", sale.items[STATUS], bytes([PAYABLE]))
                volume = int.from_bytes(sale.items[VOLUME], "big")
                expect(f"point {point}: sold", volume, LITRES)
        end(day)
    for point, fuelling in enumerate(FUELLINGS, 1):
        rows = offline_rows(folder, site, point)
        own = fuelling.steps.count(OFFLINE)
        expect(f"point {point}: rows", len(rows), 1 + own)
        expect_lost(point, fuelling, rows)
    return len(FUELLINGS)


@test
def dispensers_that_never_came():
    """A point whose dispenser hasn't come so long after the start is inoperative; one that comes
    then says Online, and its point is closed."""
    folder, site = HERE / "never", make_site(3)
    with start_station("--history", folder, "--lost", 1, site=site) as day, day.connect() as pump:
        expect("in time", detail(ask(pump, say(2))), CLOSED)
        with day.connect() as till:
            expect_done(till, sign_on(2))
            wait_until("lost", lambda: state(till, 2, 1) == state(till, 2, 3) == INOPERATIVE)
            time.sleep(1 + LATE)
            expect("the one that came", state(till, 2, 2), CLOSED)
            with day.connect() as late:
                expect("Online", number(ask(late, say(3))), 0)
                expect("it is back", state(till, 2, 3), CLOSED)
                end(day)
    expect("rows", [len(offline_rows(folder, site, p)) for p in (1, 2, 3)], [1, 0, 1])


@test
def never_lost():
    """With --lost 0 no dispenser is said to be offline, however long it is gone, whether it came or
    not. With --lost 1 each is after so long."""
    site = make_site(2)
    folders = {seconds: HERE / f"kept_{seconds}" for seconds in (0, 1)}
    with contextlib.ExitStack() as stack:
        days = []
        for seconds, folder in folders.items():
            words = ("--history", folder, "--lost", seconds)
            days.append(stack.enter_context(start_station(*words, site=site)))
            with days[-1].connect() as pump:
                ask(pump, say(1))
                leave(pump)
        time.sleep(1 + 2 * LATE)
        for day in days:
            end(day)
    rows = {
        seconds: [len(offline_rows(folder, site, point)) for point in (1, 2)]
        for seconds, folder in folders.items()
    }
    expect("rows", rows, {0: [0, 0], 1: [1, 1]})


@test_beside
def dispensers_that_come_back_in_time():
    """Of a dispenser that is back just before --lost, and again, nothing is said; of one that is
    back just after it, Offline, and then it says Online. A second session keeps it, too."""
    folder, site = HERE / "back", make_site(3)
    with contextlib.ExitStack() as stack:
        day = stack.enter_context(start_station("--history", folder, "--lost", 3, site=site))
        pumps = {point: stack.enter_context(day.connect()) for point in (1, 2, 3)}
        twin, till = stack.enter_context(day.connect()), stack.enter_context(day.connect())
        expect_done(till, sign_on(2))
        for point, pump in pumps.items():
            expect("Online", detail(ask(pump, say(point))), CLOSED)
        ask(twin, say(3))
        for _ in range(2):
            leave(pumps[1])
            time.sleep(2.5)
            pumps[1] = stack.enter_context(day.connect())
            expect("back in time", detail(ask(pumps[1], say(1))), CLOSED)
        leave(pumps[2])
        leave(pumps[3])
        wait_until("lost", lambda: state(till, 2, 2) == INOPERATIVE)
        back = stack.enter_context(day.connect())
        expect("too late", number(ask(back, say(2))), 0)
        time.sleep(LATE + 1)
        states = [state(till, 2, point) for point in (1, 2, 3)]
        expect("all are there", states, [CLOSED] * 3)
        end(day)
    expect("rows", [len(offline_rows(folder, site, p)) for p in (1, 2, 3)], [0, 1, 0])


@test
def a_release_for_nobody():
    """A point whose dispenser is gone doesn't look well: Release is refused, and a fuelling whose
    dispenser has gone is sold, so that the point comes back."""
    with start_station("--lost", 1) as day, day.connect() as till:
        expect_done(till, sign_on(2))
        with day.connect() as pump:
            ask(pump, say(1))
            bring(till, pump, 1, (OPEN, RELEASE, LIFT, FLOW))
            expect_done(till, command_point(2, 1, 1, TERMINATE))
            expect("it is ending", state(till, 2, 1), SUSPENDED_FUELLING)
            leave(pump)
        wait_until("lost", lambda: state(till, 2, 1) == INOPERATIVE)
        refused = ask(till, command_point(2, 1, 1, RELEASE))
        expect("a release", (number(refused), detail(refused)), (WRONG_STATE, INOPERATIVE))
        sale = ask(till, read_sale(2, 1, 1, 1))
        sold = sale.items[STATUS], int.from_bytes(sale.items[VOLUME], "big")
        expect("its sale", sold, (bytes([PAYABLE]), LITRES))
        with day.connect() as pump:
            expect_done(pump, say(1))
            expect_done(till, command_point(2, 1, 1, OPEN), command_point(2, 1, 1, RELEASE))
            expect_done(pump, report(1, 1, LIFT, LITRES), report(1, 1, HANG_UP, LITRES))
        end(day)


# ---- the examples


def start_examples(stack, *commands):
    """Programs of the examples, each of these words."""
    how = {"stdout": -1, "stderr": subprocess.STDOUT, "text": True}
    return [
        stack.enter_context(subprocess.Popen([sys.executable, *map(str, words)], **how))
        for words in commands
    ]


def last_lines(peers):
    return [peer.communicate(timeout=WAIT)[0].splitlines()[-1] for peer in peers]


@test
def examples_through_doors():
    """The till and the dispenser of the examples come through doors, twice."""
    doors = Doors("examples", "till-01", "dispenser-01")
    with start_station("--doors", doors.folder, site=FIVE_POINTS) as day:
        pump = [EXAMPLES / "dispenser.py", "--door", doors.path("dispenser-01"), 1, 10_000]
        till = [EXAMPLES / "till.py", "--door", doors.path("till-01"), 1, 1]
        for drawn in (10_000, 20_000):
            wanted = [f"10000 ml of nozzle 1; its meter stands at {drawn}",
                      "cleared 10000 ml for 1500 cents"]  # fmt: skip
            with contextlib.ExitStack() as stack:
                expect("what they say", last_lines(start_examples(stack, pump, till)), wanted)
        end(day)


@test
def examples_say_what_is_wrong():
    """In words: a door that isn't there, at which nobody listens, that is another user's file, and
    a refusal; words that they don't know."""
    doors = Doors("wrong", "till-01")
    path = doors.path("till-01")
    with start_station() as day:
        unmanned = doors.folder / "unmanned"
        with socket.socket(socket.AF_UNIX, socket.SOCK_STREAM) as listener:
            listener.bind(str(unmanned))
        with day.connect() as other:
            expect_done(other, sign_on(1))
            told = "command 31 is refused: the till is signed on already, maybe by another"
            for words, wanted in (
                (("--door", path, 1, 1), f"the door {path} isn't there: the station isn't started"),
                (("--door", unmanned, 1, 1), f"nothing serves at the door {unmanned}"),
                ((day.port, 1, 1), told),
                (("--door", path), "run as often as there is something to sell."),
            ):
                got = run(sys.executable, EXAMPLES / "till.py", *map(str, words)).err
                expect(f"{words}", wanted in " ".join(got.split()), True)
        end(day)


@test
def examples_go_on_after_a_crash():
    """The station is killed in the middle of a fuelling and started again: the till and the
    dispenser of the examples connect again, and the sale is that of the whole fuelling."""
    folder = HERE / "crash"
    pump, till = [EXAMPLES / "dispenser.py"], [EXAMPLES / "till.py"]
    with contextlib.ExitStack() as stack:
        with start_station("--history", folder, site=FIVE_POINTS) as day:
            port = day.port
            pump += [port, 1, 40_000]
            till += [port, 1, 1]
            peers = start_examples(stack, pump, till)
            with day.connect() as look:
                expect_done(look, sign_on(2))
                wait_until("fuel flows", lambda: state(look, 2, 1) == FUELLING)
            kill(day)
        with start_station("--history", folder, site=FIVE_POINTS, port=port) as day:
            wanted = ["40000 ml of nozzle 1; its meter stands at 40000",
                      "cleared 40000 ml for 6000 cents"]  # fmt: skip
            expect("what they say", last_lines(peers), wanted)
            end(day)


@test
def a_dispenser_that_isnt_heard():
    """The dispenser of the examples goes on where its first connection ends before any reply."""
    with contextlib.ExitStack() as stack:
        with socket.create_server(("127.0.0.1", 0)) as early:
            port = early.getsockname()[1]
            pump = [EXAMPLES / "dispenser.py", port, 1, 10_000]
            peers = start_examples(stack, pump)
            early.accept()[0].close()
        with start_station(site=FIVE_POINTS, port=port) as day:
            peers += start_examples(stack, [EXAMPLES / "till.py", port, 1, 1])
            wanted = ["10000 ml of nozzle 1; its meter stands at 10000",
                      "cleared 10000 ml for 1500 cents"]  # fmt: skip
            expect("what they say", last_lines(peers), wanted)
            end(day)
