"""The page of `forecourt station`, and reports as JSON.

Over plain HTTP: what each path and method is answered, how many are served and for how long, and
peers that mean no good; what `site.json` tells beside the history and the commands that read it.
In a headless Chromium: what the page says of a day, step after step, and how it looks on screens
and on a telephone; some of it in Firefox, too. Without these browsers those tests are skipped."""

import base64
import collections
import concurrent.futures
import contextlib
import datetime
import decimal
import functools
import hashlib
import itertools
import json
import pathlib
import re
import select
import shutil
import signal
import socket
import statistics
import threading
import time

from shared import forecourts, page_day, page_pictures, random_figures, serving
from shared.browser import (
    SCREEN, SOON, TELEPHONE, WIDE, expect_words, find_browser, open_page, read_tile, start_browser,
)  # fmt: skip
from shared.checks import Failed, Skipped, advised, expect, unstored
from shared.firefox import find_firefox, start_firefox
from shared.histories import (
    NO_SEAL, count_rows, find_last_seal, read_chapters, retitle, time_line, write_chapters,
    write_history, write_rows,
)  # fmt: skip
from shared.page_day import connect, end_day, read_answer, write_request
from shared.running import EXAMPLES, SCRIPTS, compile_c, run, tell_deaf
from shared.serving import list_addresses, wait_until
from shared.station import (
    CLEAR, CLOSE, CLOSE_SHIFT, DISPENSER, FIVE_POINTS, FLOW, HANG_UP, KNOWN_SITE, LIFT, LOCK, MONEY,
    OPEN, PREPAY, RELEASE, REPORT, SITE, TEST_RELEASE, TILL, UNLOCK, WRITE, address_point, ask,
    ask_site, command_point, command_sale, decode, encode, is_accepted, read_point, receive_all,
    receive_message, report, sign_on, write_report,
)  # fmt: skip
from tests.built import PROGRAM
from tests.suite import make_folder, start_chance, test, test_beside

HERE = make_folder()
start_page = functools.partial(page_day.start_page, PROGRAM)
start_busy = functools.partial(page_day.start_busy, PROGRAM)
ASIDE = (844, 390)  # a telephone that lies
LOOKS = (SCRIPTS / "tests/page_looks.js").read_text()
SILENCE = 6  # seconds, within which it says that the station doesn't answer
PIPELINED = 10_000
MOST_PEERS = 64
ONLINE = 0x60  # what a dispenser says that is there
MOST_IN_BOOK = 1_024  # rows
# Seconds after which a silent peer is left: 10 to 12, and one for a machine that is busy.
LEFT_AFTER = (10, 13)
BUFFERED = 40  # seconds in which the system's buffers take answers, ten a second
SEALED_AFTER = 1.1  # seconds since the last seal, after which a row is sealed at once
MILLISECOND = datetime.timedelta(milliseconds=1)
READS = 2_000  # of a till, beside which the page is asked
SLOW = 0.02  # seconds: half of a till's replies come sooner
STATES = (
    "inoperative", "closed", "idle", "calling", "authorised", "started", "suspended started",
    "fuelling", "suspended fuelling",
)  # fmt: skip


def wait_for_end(peer):
    """Waits until the station ends the connection, whatever it says before."""
    peer.settimeout(serving.WAIT)
    with contextlib.suppress(ConnectionError):
        while peer.recv(65_536):
            pass


def without_time(body):
    """A site as JSON without the time when it was made."""
    return re.sub(rb'"at":"[^"]*"', b'', body)


def ask_on(peer):
    """Asks on a connection that stays for what isn't there; the status of the answer."""
    peer.sendall(write_request("/nothing"))
    return read_answer(peer)[0]


# ---- plain HTTP


@test
def each_path_and_method():
    with start_page() as page:
        status, fields, body = page.get("/")
        expect("the page", (status, fields["content-type"]), (200, "text/html; charset=utf-8"))
        expect("its HEAD", page.get("/", "HEAD"), (200, fields, b""))
        status, fields, body = page.get("/site.json")
        expect("the site", (status, fields["content-type"]), (200, "application/json"))
        expect("not kept", fields["cache-control"], "no-store")
        again = page.get("/site.json?x=1")[2]
        expect("with a query", without_time(again), without_time(body))
        for path in ("/nothing", "/site.json/", "/../site.json", "//"):
            expect(path, page.get(path)[0], 404)
        for method in ("GET", "HEAD"):
            answers = [page.get(path, method) for path in ("/seal", "/nothing")]
            expect("no seal without a history", answers[0], answers[1])
        for method in ("POST", "PUT", "DELETE", "OPTIONS", "PATCH", "CONNECT"):
            status, fields, body = page.get("/", method)
            expect(method, (status, fields["allow"], body), (405, "GET, HEAD", b""))
        with connect(page.port) as peer:
            peer.sendall(write_request("/", "POST", "Content-Length: 1024\r\n") + b"a" * 1_024)
            expect("the longest body", read_answer(peer)[0], 405)
        rows = page.site()["rows"]
        expect("no row is made", rows, 1)


@test
def asks_nothing_of_others():
    """The page's own script and style are those that its policy names, and nothing else may run;
    no address of elsewhere stands in it."""
    with start_page() as page:
        _, fields, body = page.get("/")
        policy = fields["content-security-policy"]
        for name in ("style", "script"):
            text = re.search(f"<{name}>(.*?)</{name}>".encode(), body, re.S).group(1)
            digest = base64.b64encode(hashlib.sha256(text).digest()).decode()
            expect(f"the {name}'s sum (src/policy.rt)", f"{name}-src 'sha256-{digest}'" in policy,
                   True)  # fmt: skip
        expect("nothing else", policy.startswith("default-src 'none'; "), True)
        expect("addresses", re.findall(rb"https?://|src=|@import|innerHTML|eval\(", body), [])


# The members of site.json, and of what is in it.
SITE_MEMBERS = ["at", "calling", "connections", "due cents", "gaps", "jumps", "name", "opened",
                "points", "products", "rows", "seal", "sessions", "shift", "shift products", "sold",
                "tills", "transactions", "unpaid cents"]  # fmt: skip
POINT = ["dispenser connected", "fuelling", "holder", "nozzle", "nozzles", "number", "product",
         "state", "state name"]  # fmt: skip
FUELLING = ["cents", "ending", "left cents", "millilitres", "mills", "prepaid", "preset cents",
            "preset millilitres", "test"]  # fmt: skip
PRODUCT = ["adjusted", "cleared", "locked", "metered", "mills", "name", "number", "payable",
           "running"]  # fmt: skip
TRANSACTION = ["back cents", "cents", "due cents", "millilitres", "mills", "number", "point",
               "prepaid", "product", "shift", "status", "till"]  # fmt: skip


@test
def members_of_the_site():
    """Each point, product and till is there. The text has no spaces between members, which stand
    in the order of their names."""
    with start_busy(forecourts.make_crowded_day()) as (page, _):
        text = page.get("/site.json")[2].decode()
        site = json.loads(text)
        again = json.dumps(site, sort_keys=True, separators=(",", ":"))
        expect("in order, without spaces", text, again)
        expect("members", list(site), SITE_MEMBERS)
        for name, members in (("points", POINT), ("products", PRODUCT),
                              ("shift products", ["cents", "cleared", "drawn", "number"]),
                              ("sessions", ["node", "quiet seconds", "since", "subnet"]),
                              ("tills", ["cents", "clears", "number", "signed on"]),
                              ("transactions", TRANSACTION)):  # fmt: skip
            expect(name, [one for one in site[name] if list(one) != members], [])
        cents = sum(sale["cents"] for sale in site["transactions"])
        expect("what is unpaid", (site["unpaid cents"], cents > 0), (cents, True))
        expect("points", [point["number"] for point in site["points"]], list(range(1, 65)))
        expect("tills", [till["number"] for till in site["tills"]], list(range(1, 33)))
        expect("connections", site["connections"], 96)
        expect("no seal without a history", site["seal"], None)
        expect("nor a time", site["opened"], None)
        for point in site["points"]:
            expect("fuelling", list(point["fuelling"]), FUELLING)
            expect("state", point["state name"], STATES[point["state"] - 1])
            has_started = point["state"] > forecourts.AUTHORISED
            expect("started", point["fuelling"]["cents"] is not None, has_started)
        for product in site["products"]:
            parts = ("running", "payable", "locked", "cleared", "adjusted")
            expect("parts", sum(product[part] for part in parts), product["metered"])


def come_online(peer, point):
    """The dispenser of a point says that it is there, and is answered."""
    peer.sendall(encode((SITE, 1), (DISPENSER, point), REPORT, 0, address_point(point),
                        [(ONLINE, b"")]))  # fmt: skip
    receive_message(peer)


def list_sessions(site):
    return sorted((one["subnet"], one["node"]) for one in site["sessions"])


def list_connected(site):
    """The points whose dispensers are connected."""
    return [point["number"] for point in site["points"] if point["dispenser connected"]]


@test
def who_is_connected():
    """Each session stands there from its first message until its connection ends: whose it is,
    since when, and how long ago something came. A point's dispenser is connected while it has
    one."""
    with start_page() as page:
        before = datetime.datetime.now(datetime.timezone.utc).isoformat(timespec="milliseconds")
        connect_peer = page.day.connect
        with connect_peer() as silent, connect_peer() as first, connect_peer() as second:
            wait_until("they are there", lambda: page.site()["connections"] == 4)
            expect("a till that has spoken", list_sessions(page.site()), [(TILL, 1)])
            expect("no dispenser", list_connected(page.site()), [])
            for pump in (first, second):
                come_online(pump, 2)
            come_online(silent, 65)  # no point has this number
            site = page.site()
            nodes = [(TILL, 1), *[(DISPENSER, 2)] * 2, (DISPENSER, 65)]
            expect("whose they are", list_sessions(site), nodes)
            expect("the dispenser of point 2", list_connected(site), [2])
            after = datetime.datetime.now(datetime.timezone.utc).isoformat(timespec="milliseconds")
            since = [one["since"] for one in site["sessions"] if one["node"] == 2]
            bounds = [before[:23] <= time[:23] <= after[:23] for time in since]
            expect("since when", (len(since), all(bounds)), (2, True))
            time.sleep(2.2)
            come_online(second, 2)
            quiet = sorted(one["quiet seconds"] for one in page.site()["sessions"]
                           if one["subnet"] == DISPENSER and one["node"] == 2)  # fmt: skip
            expect("how long nothing came", (quiet[0], quiet[1] in (2, 3)), (0, True))
            first.close()
            wait_until("one is gone", lambda: len(page.site()["sessions"]) == 3)
            expect("the other is there", list_connected(page.site()), [2])
            second.close()
            wait_until("both are gone", lambda: list_connected(page.site()) == [])


@test
def who_is_connected_at_a_door():
    """A session of a door has its node from its beginning."""
    doors = HERE / "doors"
    (doors / "dispenser-03").mkdir(parents=True)
    with start_page("--doors", str(doors), till=None) as page:
        with socket.socket(socket.AF_UNIX) as pump:
            pump.connect(str(doors / "dispenser-03" / "socket"))
            wait_until("it is there", lambda: list_connected(page.site()) == [3])
            expect("whose it is", list_sessions(page.site()), [(DISPENSER, 3)])
        wait_until("it is gone", lambda: list_connected(page.site()) == [])


@test
def request_cut_after_each_octet():
    """Octet by octet, and each front of a request alone: the day goes on."""
    with start_page() as page:
        wanted = page.get("/site.json")[2]
        sent = write_request("/site.json")
        with connect(page.port) as peer:
            for octet in sent:
                peer.sendall(bytes([octet]))
                time.sleep(serving.LOOK / 5)
            got = read_answer(peer)
            expect("status", got[0], 200)
            expect("rows", json.loads(got[2])["rows"], json.loads(wanted)["rows"])
        for end in range(len(sent)):
            with connect(page.port) as peer:
                peer.sendall(sent[:end])
        expect_undisturbed(page)


@test
def pipelined():
    """10,000 requests at once: as many answers, in order, however slowly they are read; and what
    is owed to a peer that reads nothing doesn't grow."""
    with start_page() as page:
        sent = write_request("/nothing") * PIPELINED
        with connect(page.port) as slow, connect(page.port) as peer:
            slow.setblocking(False)
            with contextlib.suppress(BlockingIOError):
                while True:
                    slow.send(write_request("/"))
            peer.setblocking(False)
            answers = b""
            while answers.count(b"404 Not Found") < PIPELINED:
                if sent:
                    with contextlib.suppress(BlockingIOError):
                        sent = sent[peer.send(sent) :]
                with contextlib.suppress(BlockingIOError):
                    answers += peer.recv(65_536)
            expect_undisturbed(page)
            kilobytes = read_kilobytes(page.day)
            if kilobytes > 32_000:
                raise Failed(f"{kilobytes} kilobytes of memory")


@test
def loopback_alone():
    """The station and its page listen on 127.0.0.1, and have no other socket."""
    with start_page(till=None) as page:
        wanted = [(f"0100007F:{port:04X}", "0A") for port in (page.day.port, page.port)]
        expect("addresses", sorted(list_addresses(page.day.process)), sorted(wanted))


def count_fields(count):
    """A request with so many fields, its Host among them."""
    return write_request("/", fields="".join(f"A{n}: 1\r\n" for n in range(count - 1)))


@test
def strange_requests():
    """What is no request is refused, and its connection closed."""
    long = "A: " + "a" * 70_000 + "\r\n"
    strange = (
        (write_request("/", host="a b"), 400),
        (write_request("/", host="\\"), 400),
        (b"GET / HTTP/1.1\r\n\r\n", 400),
        (b"\0\1\2\r\n\r\n", 400),
        (b"GET  / HTTP/9.9\r\n\r\n", 400),
        (write_request("/", fields=long), 431),
        (count_fields(65), 431),
        (write_request("/" + "a" * 70_000), 414),
        (write_request("/", "POST", "Content-Length: 1025\r\n"), 413),
        (write_request("/", "POST", "Transfer-Encoding: gzip, chunked\r\n"), 501),
    )
    with start_page() as page:
        for sent, status in strange:
            with connect(page.port) as peer:
                with contextlib.suppress(ConnectionError):
                    peer.sendall(sent)
                    expect(repr(sent[:60]), read_answer(peer)[0], status)
                    wait_for_end(peer)
        with connect(page.port) as peer:
            peer.sendall(count_fields(64))
            expect("64 fields", read_answer(peer)[0], 200)
        for host in ("example.org", "[::1]:80", "localhost", ""):
            with connect(page.port) as peer:
                peer.sendall(write_request("/nothing", host=host))
                expect(host, read_answer(peer)[0], 404)
        expect_undisturbed(page)


# ---- who is served, and for how long


@test
def sixty_four_connections():
    """As many are served at once; one more is closed at once, and once one has left another is
    served. None of them is a connection of the station, and none holds up a till."""
    with start_page() as page, contextlib.ExitStack() as stack:
        peers = [stack.enter_context(connect(page.port)) for _ in range(MOST_PEERS)]
        for peer in peers:
            expect("each is served", ask_on(peer), 404)
        with connect(page.port) as more:
            begun = time.monotonic()
            wait_for_end(more)
            if time.monotonic() - begun > SOON:
                raise Failed(f"one more is closed after {time.monotonic() - begun:.1f} seconds")
        expect_fast(page)
        peers[0].sendall(write_request("/site.json"))
        expect("connections", json.loads(read_answer(peers[0])[2])["connections"], 1)
        peers.pop().close()
        wait_until("another is served", lambda: is_served(page.port))
        expect("the others are, too", {ask_on(peer) for peer in peers}, {404})


def is_served(port):
    """Whether a new connection of the page is."""
    with connect(port) as peer, contextlib.suppress(Failed, ConnectionError):
        return ask_on(peer) == 404
    return False


def expect_fast(page):
    """Half of a hundred replies to the till come within a moment."""
    rounds = []
    for n in range(100):
        begun = time.monotonic()
        page.tell(read_point(1, n % 32, 1))
        rounds.append(time.monotonic() - begun)
    if statistics.median(rounds) > SLOW:
        raise Failed(f"half of the replies took {statistics.median(rounds):.4f} seconds or more")


@test_beside
def silent_peers():
    """Who says nothing, who says an octet each second, who is silent behind an answer and who takes
    no answer is left after ten to twelve seconds; who asks now and then stays. For who takes none
    the system takes answers, ten a second, until its buffers are full."""
    kinds = (say_nothing, say_an_octet_each_second, fall_silent, take_nothing)
    pool = concurrent.futures.ThreadPoolExecutor(len(kinds))
    with start_page() as page, pool, connect(page.port) as steady:
        ends = [pool.submit(wait_out, kind, page.port) for kind in kinds]
        while not all(end.done() for end in ends):
            expect("who asks now and then", ask_on(steady), 404)
            time.sleep(1)
        least, most = LEFT_AFTER
        for kind, end in zip(kinds, ends):
            since_it_came, since_it_is_silent = end.result()
            buffered = BUFFERED if kind is take_nothing else 0
            if since_it_came < least or since_it_is_silent > most + buffered:
                raise Failed(f"{kind.__name__}: left after {end.result()} seconds")


def wait_out(kind, port):
    """After how many seconds a peer of this kind is left: since it came, and since it fell silent,
    where that is later."""
    came = time.monotonic()
    with connect(port) as peer:
        silent = kind(peer) or came
        now = time.monotonic()
    return now - came, now - silent


def say_nothing(peer):
    wait_for_end(peer)


def say_an_octet_each_second(peer):
    for octet in write_request("/"):
        peer.sendall(bytes([octet]))
        if select.select([peer], [], [], 1)[0]:
            break
    wait_for_end(peer)


def fall_silent(peer):
    expect("an answer", ask_on(peer), 404)
    wait_for_end(peer)


def take_nothing(peer):
    ask_until_full(peer)
    silent = time.monotonic()
    wait_until("the connection closed", lambda: has_failed(peer))
    return silent


def ask_until_full(peer):
    """Asks until no octet is taken any more, and reads none."""
    peer.setblocking(False)
    looks = 0
    while looks < serving.LOOKS:
        try:
            peer.send(write_request("/") * 100)
            looks = 0
        except BlockingIOError:
            looks += 1
            time.sleep(serving.LOOK)


def has_failed(peer):
    """Whether the other end has closed the connection, though octets of it aren't read."""
    try:
        peer.send(b"G")
    except BlockingIOError:
        return bool(peer.getsockopt(socket.SOL_SOCKET, socket.SO_ERROR))
    except ConnectionError:
        return True
    return False


@test
def a_day_that_ends():
    """The day ends at once, though peers of the page are there: silent ones, one in the middle of
    a request, and one that takes nothing of what it asked for."""
    with start_page() as page, contextlib.ExitStack() as stack:
        peers = [stack.enter_context(connect(page.port)) for _ in range(4)]
        expect("an answer", ask_on(peers[1]), 404)
        peers[2].sendall(write_request("/")[:20])
        ask_until_full(peers[3])
        page.leave()
        begun = time.monotonic()
        rows = int(end_day(page.day).split()[1])
        expect("rows", rows, 2)
        if time.monotonic() - begun > SOON:
            raise Failed(f"the day ends after {time.monotonic() - begun:.1f} seconds")
        for peer in peers:
            peer.setblocking(True)
            wait_for_end(peer)


# ---- the site as JSON, beside the history and the commands


@test
def only_what_is_stored():
    """A till's request and one of the page are heard in one round. Where its row is stored the page
    tells of it; where the flush fails neither is answered, and the day ends."""
    library = compile_c(HERE, "tests/faults.c", "-O1", "-shared", "-fPIC")
    met = 0
    for sync in range(0, 16):
        folder = HERE / f"flush-{sync}"
        faults = {"LD_PRELOAD": library, "FAIL_SYNC": str(sync)}
        try:
            with start_page("--history", str(folder), till=None, env=faults) as page:
                answers = ask_in_one_round(page)
                if sync == 0:
                    expect("rows", answers, [1, 1])
                    continue
                expect("answers", answers, [0, None])
                _, told = page.day.process.communicate(timeout=serving.WAIT)
                fault = f"{unstored(folder)}\n".encode()
                expect("the end", (page.day.process.returncode, told), (1, fault))
                page.day.process.stdin = None
                expect("lines", count_rows(read_chapters(folder)), 0)
                met += 1
                break
        except Failed as why:
            if "the first line is ''" not in str(why):
                raise  # else it was a flush before it listens
    expect("flushes that failed", met, 1)


def ask_in_one_round(page):
    """A till signs on, and the page is asked for the site, while the station is stopped. Returns
    how many replies the till gets, and the rows that the page tells; None where it isn't
    answered."""
    with page.day.connect() as till, connect(page.port) as peer:
        expect("the page", ask_on(peer), 404)
        # Behind this both are silent: a wait that a stop interrupts may report others once more.
        wait_until("the till is there", lambda: page.site()["connections"] == 1)
        page.day.process.send_signal(signal.SIGSTOP)
        wait_until("the station stopped", lambda: read_state(page.day) == "T")
        till.sendall(sign_on(1))
        peer.sendall(write_request("/site.json"))
        page.day.process.send_signal(signal.SIGCONT)
        rows = None
        with contextlib.suppress(Failed, ConnectionError):
            rows = json.loads(read_answer(peer)[2])["rows"]
        till.shutdown(socket.SHUT_WR)
        return [len(decode(receive_all(till))), rows]


def read_state(day):
    """The state of the process, as the system names it."""
    text = pathlib.Path(f"/proc/{day.process.pid}/stat").read_text()
    return text.rsplit(")", 1)[1].split()[0]


@test
def rows_of_the_history():
    """While a till asks as fast as it is answered, no more rows are told than the history
    has lines."""
    folder, count = HERE / "stored", 10 * READS  # the page answers ten times a second
    words = ("--history", str(folder), "--lost", "0")  # also where it takes a minute
    with start_page(*words) as page, connect(page.port) as peer:
        asking = threading.Thread(
            target=lambda: page.tell(*(command_point(1, n % 32, 1, OPEN) for n in range(count)))
        )
        asking.start()
        told = 0
        while asking.is_alive():
            peer.sendall(write_request("/site.json"))
            rows = json.loads(read_answer(peer)[2])["rows"]
            lines = count_rows(read_chapters(folder))
            if rows > lines:
                raise Failed(f"{rows} rows are told, and {lines} are in the history")
            told += 1
        asking.join()
        expect("rows", page.site()["rows"], count + 1)
        expect("lines", count_rows(read_chapters(folder)), count + 1)
        if told < 10:
            raise Failed(f"the page was asked {told} times")


@test
def the_last_seal():
    """`/seal` is the last seal on the disk: of no row, of the first one, of a row more than a
    second later, of a closed shift, and after a start. `verify` finds each of these."""
    folder, seals = HERE / "sealed", []
    with start_page("--history", str(folder), till=None) as page:
        expect("of no row", read_seal(page, folder), NO_SEAL)
        page.tell(sign_on(1))
        read_seal(page, folder)
        for asked in (command_point(1, 0, 1, OPEN), ask_site(1, CLOSE_SHIFT, 0)):
            time.sleep(SEALED_AFTER)
            expect("accepted", is_accepted(page.tell(asked)), True)
            seals.append(read_seal(page, folder))
    with start_page("--history", str(folder), till=None) as page:
        seals.append(read_seal(page, folder))
    expect("they differ", len({NO_SEAL, *seals}), 4)
    for seal in seals:
        found = run(PROGRAM, "verify", folder, "--seal", seal)
        said = f"seal {seal} is that of chapter "
        expect("verify", (found.status, said in found.out.decode()), (0, True))


@test
def what_is_unpaid():
    """`/unpaid` lists the unpaid transactions as `site.json` does, of a point if it is asked for;
    another query is refused."""
    with start_page() as page:
        expect("none", read_json(page, "/unpaid"), [])
        for point, nozzle, reading in ((1, 1, 0), (2, 2, 1_000)):
            page.tell(command_point(1, 0, point, OPEN), report(point, 0, LIFT, reading, nozzle),
                      command_point(1, 0, point, RELEASE),
                      report(point, 0, FLOW, reading + 1_000, nozzle),
                      report(point, 0, HANG_UP, reading + 5_000, nozzle))  # fmt: skip
        sales = page.site()["transactions"]
        expect("their points", [sale["point"] for sale in sales], [1, 2])
        expect("all", read_json(page, "/unpaid"), sales)
        for point in (1, 2):
            wanted = [sale for sale in sales if sale["point"] == point]
            expect(f"of point {point}", read_json(page, f"/unpaid?point={point}"), wanted)
        expect("of one without any", read_json(page, "/unpaid?point=3"), [])
        expect("of none of this site", read_json(page, "/unpaid?point=64"), [])
        for query in ("point=0", "point=65", "point=01", "point=+1", "point=", "points=1", "x", ""):
            status, fields, body = page.get(f"/unpaid?{query}")
            expect(query, (status, body), (400, b"ask for /unpaid or /unpaid?point=P\n"))
        expect("its HEAD", page.get("/unpaid", "HEAD")[::2], (200, b""))


def read_json(page, path):
    """What is answered as JSON."""
    status, fields, body = page.get(path)
    expect(path, (status, fields["content-type"]), (200, "application/json"))
    expect("not kept", fields["cache-control"], "no-store")
    return json.loads(body)


def read_shifts(page, query=""):
    """The shifts that are answered, each a line."""
    status, fields, body = page.get(f"/shifts{query}")
    expect("the answer", (status, fields["content-type"]), (200, "application/x-ndjson"))
    return [json.loads(line) for line in body.decode().splitlines()]


@test
def shifts_from_a_number_on():
    """`/shifts` has the lines of `shifts --json`: from the shift on that is asked for, at most 64;
    another query is refused. Without a history no time is known."""
    folder = HERE / "many shifts"
    with start_page("--history", str(folder)) as page:
        page.tell(*[ask_site(1, CLOSE_SHIFT, 0)] * 69)
        told = run(PROGRAM, "shifts", folder, "--json").out.decode().splitlines()
        shifts = [json.loads(line) for line in told]
        expect("all", [shift["shift"] for shift in shifts], [*range(1, 71)])
        for first in (1, 2, 7, 8, 69, 70, 71, 999):
            wanted = shifts[first - 1 : first + 63]
            expect(f"from {first}", read_shifts(page, f"?from={first}"), wanted)
        expect("without a query", read_shifts(page), shifts[:64])
        for query in ("from=0", "from=1000", "from=01", "from=+1", "from=", "shift=1", "x", ""):
            status, _, body = page.get(f"/shifts?{query}")
            expect(query, (status, body), (400, b"ask for /shifts or /shifts?from=N\n"))
        expect("its HEAD", page.get("/shifts", "HEAD")[::2], (200, b""))
    with start_page() as page:
        page.tell(ask_site(1, CLOSE_SHIFT, 0))
        times = {(shift["opened"], shift["closed"]) for shift in read_shifts(page)}
        expect("no times", times, {(None, None)})


def expect_moments(page, folder, calling, sold):
    """These points call, and these sales are unpaid, each since the time of its row."""
    site = page.site()
    rows = run(PROGRAM, "replay", folder, "--json").out.decode().splitlines()
    times = {(row["event"], row["reply"].split("{")[0]): row["at"] for row in map(json.loads, rows)}
    wanted = [{"point": point, "since": times[f"Lift {point} 1@{reading}", "Calling"]}
              for point, reading in calling]  # fmt: skip
    expect("calling", site["calling"], wanted)
    wanted = [{"shift": shift, "point": point, "number": number,
               "at": times[f"HangUp {point} 1@{reading}", "Sold"]}
              for shift, point, number, reading in sold]  # fmt: skip
    expect("sold", site["sold"], wanted)
    names = [{name: sale[name] for name in ("shift", "point", "number")}
             for sale in site["transactions"]]  # fmt: skip
    expect("as the transactions", [{**name, "at": one["at"]} for name, one in
                                   zip(names, site["sold"])], site["sold"])  # fmt: skip


def list_sale(point, begin, end):
    return (command_point(1, 0, point, RELEASE), report(point, 0, LIFT, begin),
            report(point, 0, HANG_UP, end))  # fmt: skip


@test
def since_when_it_is_so():
    """`calling` and `sold` of `site.json`: since when points call, and unpaid sales were sold, also
    of an earlier shift and behind a start. What is cleared, or hung up, isn't there any more."""
    folder = HERE / "moments"
    with start_page("--history", str(folder)) as page:
        for point in (1, 2):
            page.tell(command_point(1, 0, point, OPEN))
        page.tell(*list_sale(1, 0, 5_000), *list_sale(2, 0, 6_000))
        page.tell(ask_site(1, CLOSE_SHIFT, 0), *list_sale(1, 5_000, 9_000))
        page.tell(report(2, 0, LIFT, 6_000))
        sold = [(1, 1, 1, 5_000), (1, 2, 1, 6_000), (2, 1, 1, 9_000)]
        expect_moments(page, folder, [(2, 6_000)], sold)
        page.say("t1 Lock 1/1/1", "t1 Clear 1/1/1")
        expect_moments(page, folder, [(2, 6_000)], sold[1:])
    with start_page("--history", str(folder)) as page:
        expect_moments(page, folder, [(2, 6_000)], sold[1:])
        page.tell(report(2, 0, HANG_UP, 6_000))
        page.tell(command_sale(1, 0, 1, 1, LOCK), command_sale(1, 0, 1, 1, CLEAR))
        expect_moments(page, folder, [], sold[1:2])
    with start_page() as page:
        page.tell(command_point(1, 0, 1, OPEN), *list_sale(1, 0, 5_000), report(1, 0, LIFT, 5_000))
        site = page.site()
        expect("no times", (site["calling"], site["sold"]),
               ([{"point": 1, "since": None}],
                [{"shift": 1, "point": 1, "number": 1, "at": None}]))  # fmt: skip


@test
def whether_rows_can_be_added():
    with start_page() as page:
        status, fields, body = page.get("/healthz")
        expect("well", (status, body), (200, b"ok\n"))
        expect("as text", fields["content-type"], "text/plain; charset=utf-8")


@test
def figures_for_programs():
    """`/metrics`: each family once, with the figures that `site.json` has; `promtool`, where it is
    installed, finds nothing wrong."""
    with start_page() as page:
        page.tell(command_point(1, 0, 1, OPEN), report(1, 0, LIFT, 0))
        page.tell(command_point(1, 0, 1, RELEASE), report(1, 0, FLOW, 1_000))
        page.tell(report(1, 0, HANG_UP, 10_000), command_point(1, 0, 2, OPEN))
        status, fields, body = page.get("/metrics")
        kind = "application/openmetrics-text; version=1.0.0; charset=utf-8"
        expect("the answer", (status, fields["content-type"]), (200, kind))
        found, site = read_samples(body.decode()), page.site()
        sale = site["transactions"][0]
        wanted = {
            "witsomar_rows": 7, "witsomar_kept_rows": 7,
            "witsomar_connections": 2,
            'witsomar_sessions{kind="till"}': 1, 'witsomar_sessions{kind="dispenser"}': 1,
            'witsomar_points{state="idle"}': 2, "witsomar_points_connected": 1,
            "witsomar_unpaid_transactions": 1, "witsomar_unpaid_cents": sale["cents"],
            "witsomar_shift": 1, "witsomar_shifts_left": 998,
            "witsomar_open_gaps": 0, 'witsomar_refused_rows{refusal="1"}': 0,
        }  # fmt: skip
        for name, value in wanted.items():
            expect(name, found.get(name), value)
        points = {name: n for name, n in found.items() if name.startswith("witsomar_points{")}
        expect("nine states", len(points), len(STATES))
        expect("each point once", sum(points.values()), len(site["points"]))
        if shutil.which("promtool"):
            checked = run("promtool", "check", "metrics", given=body)
            expect("promtool", (checked.status, checked.err), (0, ""))
        with connect(page.day.port) as other:
            other.sendall(report(1, 0, FLOW, 10_000))
            receive_message(other)
            found = read_samples(page.get("/metrics")[2].decode())
        names = ('witsomar_sessions{kind="dispenser"}', "witsomar_points_connected")
        expect("two sessions of one dispenser", [found[name] for name in names], [2, 1])


def read_samples(text):
    """The samples of a text of OpenMetrics, by their names and labels."""
    lines = text.splitlines()
    expect("its end", (lines[-1], text[-1]), ("# EOF", "\n"))
    pairs = [line.rsplit(" ", 1) for line in lines if not line.startswith("#")]
    expect("each once", len({name for name, _ in pairs}), len(pairs))
    return {name: float(value) if "e" in value else int(value) for name, value in pairs}


@test
def figures_of_the_station():
    """What `/metrics` has beside the book: the peers of the feed, the chapters, how old the last
    seal is, how long rows took to be stored, and the version that the program says."""
    version = run(PROGRAM, "--version").out.decode().split()[1]
    with start_page("--feed", "0", till=None) as page:
        found = read_samples(page.get("/metrics")[2].decode())
        expect("the version", found.get(f'witsomar_build_info{{version="{version}"}}'), 1)
        expect("no history", [name for name in found if "chapters" in name or "seal" in name], [])
        expect("nothing flushed", found["witsomar_flush_seconds_count"], 0)
        expect("nobody fed", found["witsomar_feeds"], 0)
        line = page.day.process.stdout.readline().decode()
        with socket.create_connection(("127.0.0.1", int(line.rsplit(":", 1)[1]))):
            wait_until("one is fed", lambda: read_figure(page, "witsomar_feeds") == 1)
        wait_until("it has left", lambda: read_figure(page, "witsomar_feeds") == 0)
    folder = HERE / "station_figures"
    with start_page("--history", str(folder)) as page:
        page.tell(command_point(1, 0, 1, OPEN))
        found = read_samples(page.get("/metrics")[2].decode())
        expect("one chapter", found["witsomar_chapters"], 1)
        expect("sealed just now", found["witsomar_seal_age_seconds"] < 60, True)
        count, taken = (found[f"witsomar_flush_seconds_{word}"] for word in ("count", "sum"))
        expect("rows were flushed", count >= 1, True)
        longest = found["witsomar_flush_seconds_max"]
        expect("the longest", 0 < longest <= taken <= count * longest, True)
        page.tell(ask_site(1, CLOSE_SHIFT))
        wait_until("the next chapter", lambda: read_figure(page, "witsomar_chapters") == 2)
        sealed = time.monotonic()
        time.sleep(2.2)
        age, most = read_figure(page, "witsomar_seal_age_seconds"), time.monotonic() - sealed + 1
        expect("its age", 2 <= age <= most, True)
        if shutil.which("promtool"):
            checked = run("promtool", "check", "metrics", given=page.get("/metrics")[2])
            expect("promtool", (checked.status, checked.err), (0, ""))


def read_figure(page, name):
    return read_samples(page.get("/metrics")[2].decode()).get(name)


@test
def when_the_shift_was_opened():
    """`opened` is the time of the open shift's first row, refused ones too: none before it, nor
    behind a closed shift; a start finds it again, also in a shift that began a chapter ago."""
    folder = HERE / "opened"
    with start_page("--history", str(folder), till=None) as page:
        expect("of no row", page.site()["opened"], None)
        page.tell(ask_site(1, CLOSE_SHIFT, 0))
        first = page.site()["opened"]
        expect("of a refused row", first, told_times(folder)[0])
        for asked in (sign_on(1), command_point(1, 0, 1, OPEN)):
            page.tell(asked)
            expect("of later rows", page.site()["opened"], first)
        expect("closed", is_accepted(page.tell(ask_site(1, CLOSE_SHIFT, 0))), True)
        expect("of a new shift", page.site()["opened"], None)
        page.tell(command_point(1, 0, 1, OPEN))
        second = page.site()["opened"]
        expect("of its first row", second, told_times(folder)[-1])
    with start_page("--history", str(folder), till=None) as page:
        expect("after a start", page.site()["opened"], second)
    lines = run(PROGRAM, "shifts", folder, "--json").out.decode().splitlines()
    expect("as shifts says", [json.loads(line)["opened"] for line in lines], [first, second])
    times = [f"2026-01-02T0{hour}:00:00.000Z" for hour in (1, 2)]
    bodies = [time_line(at) + write_rows(one) for at, one in zip(times, (sign_on(1), sign_on(2)))]
    write_history(folder, KNOWN_SITE, *write_chapters(KNOWN_SITE, *bodies))
    with start_page("--history", str(folder), till=None) as page:
        expect("in an earlier chapter", page.site()["opened"], times[0])


def told_times(folder):
    """The times that a history's chapters tell, in order."""
    lines = read_chapters(folder).decode().splitlines()
    return [line[5:] for line in lines if line.startswith("# at ")]


def read_seal(page, folder):
    """What `/seal` is answered: the last seal on the disk, as a line of text."""
    status, fields, body = page.get("/seal")
    expect("the seal", (status, fields["content-type"]), (200, "text/plain; charset=utf-8"))
    expect("not kept", fields["cache-control"], "no-store")
    expect("on the disk", body.decode(), find_last_seal(folder) + "\n")
    expect("its HEAD", page.get("/seal", "HEAD"), (200, fields, b""))
    expect("in site.json", page.site()["seal"] + "\n", body.decode())
    return body.decode().removesuffix("\n")


def name_sale(point, product, mills, cents, **more):
    """Transaction 1 of a point, as the site tells it."""
    wanted = {"shift": 1, "point": point, "number": 1, "product": product, "mills": mills,
              "cents": cents, "due cents": cents, "back cents": 0, "prepaid": None,
              "status": "payable", "till": None}  # fmt: skip
    return {**wanted, **more}


def fill_book(page):
    """Till 2 closes and opens point 3 until more rows were made than the site's book has in memory,
    and leaves. Returns how many rows that are."""
    asked = [command_point(2, 0, 3, (OPEN, CLOSE)[n % 2]) for n in range(4 * MOST_IN_BOOK)]
    came = decode(page.day.ask(sign_on(2) + b"".join(asked)))
    expect("all are accepted", [one for one in came if not is_accepted(one)], [])
    expect("replies", len(came), 1 + len(asked))
    return 1 + len(asked) + 1


@test
def sales_whose_rows_are_forgotten():
    """A book of 1,024 rows forgets the rows of two sales: both stay listed as they are, one can be
    cleared, and is listed no more. The report is that of the history, which has each row, and a
    start on that lists what was unpaid."""
    folder, site, wide = HERE / "forgotten", HERE / "few.toml", HERE / "wide.toml"
    site.write_text(f"rows = {MOST_IN_BOOK}\n{KNOWN_SITE.read_text()}")
    wide.write_text(KNOWN_SITE.read_text())
    first = name_sale(1, 1, 1_500, 1_500, millilitres=10_000)
    second = name_sale(2, 2, 1_799, 900, millilitres=5_000, status="locked", till=1)
    sold = {"diesel": {"metered": 10_000, "payable": 10_000},
            "petrol": {"metered": 5_000, "cleared": 5_000}}  # fmt: skip
    words = ("--history", str(folder))
    with start_page(*words, site=site) as page:
        page.tell(*(command_point(1, 0, p, x) for p in (1, 2) for x in (OPEN, RELEASE)))
        page.tell(report(1, 0, LIFT, 0), report(1, 0, HANG_UP, 10_000))
        page.tell(report(2, 0, LIFT, 1_000, 2), report(2, 0, HANG_UP, 6_000, 2))
        page.tell(command_sale(1, 0, 2, 1, LOCK))
        rows = 1 + 4 + 2 + 2 + 1 + fill_book(page)
        expect("both", page.site()["transactions"], [first, second])
        expect("accepted", is_accepted(page.tell(command_sale(1, 0, 2, 1, CLEAR))), True)
        expect("the first", page.site()["transactions"], [first])
        rows += 1 + fill_book(page)
        told = page.site()
        expect("again", (told["transactions"], told["rows"]), ([first], rows))
        cleared = [(x["number"], x["clears"], x["cents"]) for x in told["tills"] if x["clears"]]
        expect("who cleared", cleared, [(1, 1, 900)])
        page.leave()
        told = end_day(page.day)
    rows += 1  # the sign-off of till 1
    expect("the report", told, write_report(rows, 0, 1, 900, **sold))
    text = retitle(read_chapters(folder), wide)
    made = run(PROGRAM, "report", wide, given=text)
    expect("that of the history", (made.status, made.out.decode()), (0, told))
    with start_page(*words, site=site, till=None) as page:
        again = page.site()
        expect("at a start", (again["transactions"], again["rows"]), ([first], rows))


@test
def open_gaps():
    """`site.json` and `/metrics` tell readings that a meter refuses until one of the nozzle is
    accepted: also once the book has forgotten their rows, and after a start; as `meters --gaps`."""
    folder, site = HERE / "gaps", HERE / "gaps.toml"
    site.write_text(f"rows = {MOST_IN_BOOK}\n{KNOWN_SITE.read_text()}")
    words = ("--history", str(folder))
    with start_page(*words, site=site) as page:
        page.tell(command_point(1, 0, 1, OPEN), command_point(1, 0, 2, OPEN))
        expect("none", read_gaps(page), ([], 0, 0))
        page.tell(report(1, 0, LIFT, 30_000), report(1, 0, LIFT, 30_500), read_point(1, 0, 1))
        gap = {"point": 1, "nozzle": 1, "expected": 0, "reported": 30_500, "refusal": 17, "row": 3,
               "since": page.site()["gaps"][0]["since"]}  # fmt: skip
        expect("its time", gap["since"] in told_times(folder), True)
        expect("one", read_gaps(page), ([gap], 1, 2))
        page.tell(report(2, 0, LIFT, 1_000, 2))
        fill_book(page)
        expect("of another nozzle none is settled", read_gaps(page), ([gap], 1, 2))
    with start_page(*words, site=site, till=None) as page:
        expect("after a start", read_gaps(page), ([gap], 1, 2))
        table = run(PROGRAM, "meters", folder, "--gaps", "--json").out.decode().splitlines()
        [open_run] = map(json.loads, table)
        expect("as meters says", {name: open_run.get(name) for name in gap},
               {**gap, "since": None})  # fmt: skip
        expect("its time, too", open_run["at"], gap["since"])
        expect("accepted", is_accepted(page.tell(report(1, 0, LIFT, 0))), True)
        expect("settled", read_gaps(page), ([], 0, 2))
    with start_page(*words, site=site, till=None) as page:
        expect("after another start", read_gaps(page), ([], 0, 2))


@test
def jumps_of_meters():
    """`site.json` tells each nozzle whose meter was replaced, in the order of points and nozzles:
    how often, and how far its readings rose and fell thereby; no refused replacement counts. So
    too once the book has forgotten the rows, and after a start; the difference is that of
    `meters`."""
    folder, site = HERE / "jumps", HERE / "jumps.toml"
    site.write_text(f"rows = {MOST_IN_BOOK}\n{KNOWN_SITE.read_text()}")
    words = ("--history", str(folder))
    replaced = b"""t1 ReplaceMeter 2 1@300
t1 ReplaceMeter 1 2@45500
t1 ReplaceMeter 1 2@44000
t1 Open 1
t1 ReplaceMeter 1 2@99000
"""
    wanted = [
        {"point": 1, "nozzle": 2, "replaced": 2, "raised": 45_500 - 1_000, "lowered": 1_500},
        {"point": 2, "nozzle": 1, "replaced": 1, "raised": 300, "lowered": 0},
    ]
    with start_page(*words, site=site) as page:
        expect("none", page.site()["jumps"], [])
        lines = run(PROGRAM, "spell", given=replaced).out.decode().splitlines()
        told = [is_accepted(page.tell(bytes.fromhex(line))) for line in lines]
        expect("all but the last are accepted", told, [True, True, True, True, False])
        expect("two nozzles", page.site()["jumps"], wanted)
        fill_book(page)
        expect("once the rows are forgotten", page.site()["jumps"], wanted)
    with start_page(*words, site=site, till=None) as page:
        expect("after a start", page.site()["jumps"], wanted)
        table = run(PROGRAM, "meters", folder, "--json").out.decode().splitlines()
        jumps = [{name: x[name] for name in ("point", "nozzle", "replaced", "jumps")}
                 for x in map(json.loads, table) if x["replaced"]]  # fmt: skip
        expect("as meters says", jumps, [
            {"point": x["point"], "nozzle": x["nozzle"], "replaced": x["replaced"],
             "jumps": x["raised"] - x["lowered"]} for x in wanted
        ])  # fmt: skip


@test
def name_of_a_site():
    """`site.json` has the name that the station is given; without one it has none."""
    for name in ("Am Ring 5 \u00a7 \"Nord\"", "", None):
        words = () if name is None else ("--name", name)
        with start_page(*words) as page:
            expect(f"the name {name}", page.site()["name"], name)


@test
def dues_of_prepaid_sales():
    """Of each unpaid transaction `site.json` tells what is still due or goes back, what is due in
    all, and what is left of a prepaid fuelling; and the open shift's litres and money by
    product."""
    with start_page() as page:
        page.tell(command_point(1, 0, 1, OPEN), prepay(1, 3_000))
        page.tell(report(1, 0, LIFT, 0), report(1, 0, FLOW, 12_000))
        flows = page.site()["points"][0]["fuelling"]
        expect("left", (flows["cents"], flows["left cents"]), (1_800, 1_200))
        page.tell(report(1, 0, HANG_UP, 22_000))
        [sale] = page.site()["transactions"]
        expect("more than was prepaid", (sale["cents"], sale["due cents"], sale["back cents"]),
               (3_300, 300, 0))  # fmt: skip
        page.tell(prepay(1, 3_000), report(1, 0, LIFT, 22_000), report(1, 0, HANG_UP, 40_000))
        told = page.site()
        dues = [(x["cents"], x["due cents"], x["back cents"]) for x in told["transactions"]]
        expect("and less", dues, [(3_300, 300, 0), (2_700, 0, 300)])
        expect("in all", (told["due cents"], told["unpaid cents"]), (300, 6_000))
        figures = [(x["cleared"], x["cents"]) for x in told["shift products"]]
        expect("nothing cleared", figures, [(0, 0), (0, 0)])
        page.tell(command_sale(1, 0, 1, 1, CLEAR))
        told = page.site()
        figures = [
            (x["number"], x["cleared"], x["cents"], x["drawn"]) for x in told["shift products"]
        ]
        expect("cleared in the shift", figures, [(1, 22_000, 3_300, 0), (2, 0, 0, 0)])
        expect("nothing is due", (told["due cents"], told["unpaid cents"]), (0, 2_700))


def read_gaps(page):
    """The open gaps of `site.json`; how many `/metrics` has, and how many rows refused with 17."""
    found = read_samples(page.get("/metrics")[2].decode())
    refused = [found.get(f'witsomar_refused_rows{{refusal="{n}"}}') for n in range(1, 26)]
    expect("each refusal", None in refused, False)
    return page.site()["gaps"], found["witsomar_open_gaps"], refused[16]


@test
def nozzles_beside_the_meters():
    """Each point has its nozzles, whose readings are those with which `meters` ends; `at` is the
    time when the answer was made."""
    folder = HERE / "nozzles"
    with start_busy(forecourts.make_crowded_day(), "--history", str(folder)) as (page, _):
        begun = datetime.datetime.now(datetime.UTC)
        site = page.site()
        ended = datetime.datetime.now(datetime.UTC)
        lines = run(PROGRAM, "meters", str(folder), "--json").out.decode().splitlines()
        wanted = [(line["point"], line["nozzle"], line["product"], line["closing"])
                  for line in map(json.loads, lines)]  # fmt: skip
        told = [(point["number"], nozzle["number"], nozzle["product"], nozzle["reading"])
                for point in site["points"] for nozzle in point["nozzles"]]  # fmt: skip
        expect("readings", told, wanted)
        members = {tuple(one) for point in site["points"] for one in point["nozzles"]}
        expect("members", members, {("number", "product", "reading")})
        made = datetime.datetime.fromisoformat(site["at"])
        expect("at", begun - MILLISECOND <= made <= ended, True)
        expect("its form", make_stamp(made)[:19], site["at"][:19])


@test
def beside_the_commands():
    """What `site.json` tells of 64 points is what `sales` and `report` find in the history; the
    station's own report as JSON is that of its history."""
    folder = HERE / "crowded"
    words = ("--history", str(folder), "--json")
    with start_busy(forecourts.make_crowded_day(), *words) as (page, file):
        site = page.site()
        text = read_chapters(folder)
        sales = run(PROGRAM, "sales", file, "--json", given=text).out.decode().splitlines()
        members = set(site["transactions"][0]) - {"due cents", "back cents"}
        unpaid = [{name: sale[name] for name in members} for sale in map(json.loads, sales)
                  if sale["status"] != "cleared"]  # fmt: skip
        for sale in unpaid:
            left = sale["cents"] - (sale["prepaid"] or 0)
            sale["due cents"], sale["back cents"] = max(left, 0), max(-left, 0)
        expect("unpaid transactions", site["transactions"], unpaid)
        told = json.loads(run(PROGRAM, "report", file, "--json", given=text).out)
        lines = count_rows(read_chapters(folder))
        expect("rows", (site["rows"], lines), (told["rows"], told["rows"]))
        expect("products", site["products"], told["products"])
        tills = [{**till, "signed on": True} for till in told["tills"]]
        expect("tills", site["tills"], tills)
        page.leave()
        told = end_day(page.day).encode()
        expect_same_report(told, run(PROGRAM, "report", file, given=read_chapters(folder)).out)


@test
def reports_as_json():
    """A report as JSON has the figures of the text, at the end of each day of the examples, and
    where a day ends with a fault, which is told alike."""
    days = [path.read_bytes() for path in sorted(EXAMPLES.glob("*.hex"))]
    ends = (b"", b"01 01 02", b"0101 0202 00 0G", b"FF" * 12 + b"\n", b"zz\n0101020100410004010131")
    for given in [*days, b"", *(days[0] + end for end in ends)]:
        text = run(PROGRAM, "report", FIVE_POINTS, given=given)
        told = run(PROGRAM, "report", FIVE_POINTS, "--json", given=given)
        expect("status and fault", (told.status, told.err), (text.status, text.err))
        expect_same_report(told.out, text.out)
    torn = run(PROGRAM, "report", FIVE_POINTS, "--json", given=days[0] + b"01 01 02")
    expect("a torn line", (torn.status, torn.err), (1, f"{advised('fault 44')}\n"))


def expect_same_report(told, text):
    """The report as JSON, on one line and with its members in order, has the figures of the
    text."""
    value = json.loads(told)
    again = json.dumps(value, sort_keys=True, separators=(",", ":")) + "\n"
    expect("one line, in order", told.decode(), again)
    expect("members", list(value), ["products", "rows", "shares", "tills"])
    expect("tills", [till["number"] for till in value["tills"]], list(range(1, 33)))
    lines = [f"rows {value['rows']}"]
    clears, cents = (sum(till[what] for till in value["tills"]) for what in ("clears", "cents"))
    lines.append(f"clears {clears} cents {cents}")
    for one in value["products"]:
        parts = " ".join(f"{what} {one[what]}" for what in ("metered", "running", "payable",
                         "locked", "cleared", "adjusted"))  # fmt: skip
        lines.append(f"product {one['number']} {one['name']} {parts}")
    lines.append(f"shares {value['shares']} settled")
    expect("figures", "\n".join(lines), text.decode().removesuffix("\n"))


# ---- the command line


@test
def wrong_words():
    """A port of the page that is none, and one that is taken."""
    for word in ("x", "", "+80", "65536", "-1", "1.0"):
        end = run(PROGRAM, "station", "nowhere.toml", "--port=0", f"--page={word}")
        wanted = "error: --page is a decimal number from 0 to 65535\n"
        expect(f"--page={word}", end, (2, b"", wanted))
    for words, first in ((("--port=x", "--page=x"), "port"), (("--port=0", "--page=x"), "page")):
        end = run(PROGRAM, "station", "nowhere.toml", "--idle=x", *words)
        expect("the first one", (end.status, end.err.split()[1]), (2, f"--{first}"))
    folder = HERE / "taken"
    with start_page("--history", str(folder)) as page:
        for taken in (page.port, page.day.port):
            end = run(PROGRAM, "station", KNOWN_SITE, "--port=0", f"--page={taken}")
            expect("a taken port", end, (1, b"", tell_deaf(taken)))
        end = run(PROGRAM, "station", KNOWN_SITE, "--port", str(page.port), "--page=0")
        expect("the station's port is taken", end, (1, b"", tell_deaf(page.port)))


def expect_undisturbed(page):
    """The till is answered at once, and the page too."""
    begun = time.monotonic()
    page.tell(*(read_point(1, n % 32, 1) for n in range(100)))
    if time.monotonic() - begun > SOON:
        raise Failed(f"100 replies took {time.monotonic() - begun:.1f} seconds")
    expect("the page", page.get("/")[0], 200)


def read_kilobytes(day):
    text = pathlib.Path(f"/proc/{day.process.pid}/status").read_text()
    return int(re.search(r"VmRSS:\s+(\d+)", text).group(1))


# ---- in a browser


def needs(find, name):
    """A test that needs a browser of this name."""

    def mark(function):
        @functools.wraps(function)
        def call(*seeds):
            if not find():
                raise Skipped(f"there is no {name}")
            function(*seeds)

        return call

    return mark


in_browser, in_firefox = needs(find_browser, "Chromium"), needs(find_firefox, "Firefox")


HEAD = "[document.getElementById('state').textContent, document.title]"
TILES = "document.querySelector('#points section') !== null"


SALE_OF_SHIFT_1 = bytes.fromhex("21 22 0001 0001")  # the first of point 1 in it


def expect_head(browser, wanted):
    """The head and the title count what wants an act."""
    wait_until(wanted, lambda: browser.evaluate(HEAD)[0] == wanted)
    expect("title", browser.evaluate(HEAD), [wanted, wanted])


@test
@in_browser
def a_day_at_a_point():
    """A point calls, is released, fuels, sells, is locked and cleared; the page says each step
    within two seconds, and counts who calls and what is unpaid."""
    with start_page("--history", HERE / "a-day") as page, start_browser() as browser:
        expect_steps(page, browser)
        expect("complaints of the browser", browser.complaints, [])


@test
@in_firefox
def a_day_in_firefox():
    """The same steps in Firefox."""
    with start_page("--history", HERE / "a-day-in-firefox") as page, start_firefox() as browser:
        expect_steps(page, browser)


def expect_steps(page, browser):
    """The page says each step of a day at a point within two seconds."""
    released = encode((SITE, 1), (TILL, 1), WRITE, 4, address_point(1),
                      [(RELEASE, b""), (MONEY, (2_000).to_bytes(4, "big"))])  # fmt: skip
    browser.open(page.url, *SCREEN)
    wait_until("the page", lambda: browser.evaluate(TILES))
    expect_words(browser, 1, "1", "closed")
    page.tell(command_point(1, 2, 1, OPEN))
    expect_words(browser, 1, "idle")
    page.tell(report(1, 3, LIFT, 0))
    expect_words(browser, 1, "calling", "AGE", "1 diesel")
    expect_head(browser, "1 calling, 0 unpaid")
    page.tell(released)
    expect_words(browser, 1, "started", "for 20.00", "1 diesel", "held by till 1")
    page.tell(report(1, 3, FLOW, 4_000))
    expect_words(browser, 1, "fuelling", "4.00 l", "6.00")
    page.tell(report(1, 3, HANG_UP, 10_000))
    expect_words(browser, 1, "idle", "1/1", "10.00 l", "15.00", "diesel", "payable AGE")
    expect_head(browser, "0 calling, 1 unpaid 15.00")
    page.tell(command_sale(1, 5, 1, 1, LOCK))
    expect_words(browser, 1, "1/1", "till 1 is collecting")
    page.tell(ask_site(1, CLOSE_SHIFT, 7))
    expect_words(browser, 1, "1/1/1", "till 1 is collecting")
    till = "document.querySelector('#tills span').textContent"
    expect("the till", browser.evaluate(till), "till 1 on, 0 for 0.00")
    page.tell(ask(1, WRITE, 6, SALE_OF_SHIFT_1, (CLEAR, b"")))
    wait_until("cleared", lambda: "1/1/1" not in read_tile(browser, 1))
    expect_head(browser, "0 calling, 0 unpaid")
    expect("the till", browser.evaluate(till), "till 1 on, 1 for 15.00")


def prepay(point, cents, token=0):
    """Till 1 prepays a point."""
    return encode((SITE, 1), (TILL, 1), WRITE, token, address_point(point),
                  [(PREPAY, b""), (MONEY, cents.to_bytes(4, "big"))])  # fmt: skip


@test
@in_browser
def what_was_prepaid():
    """Of a prepaid sale the page says what was prepaid, and what is due of it or goes back, not
    what it costs; the head counts what is due alone. While it flows the page says what is left."""
    with start_page("--history", HERE / "prepaid") as page, start_browser() as browser:
        browser.open(page.url, *SCREEN)
        wait_until("the page", lambda: browser.evaluate(TILES))
        page.tell(*(command_point(1, 0, point, OPEN) for point in (1, 2, 3)))
        sold = ((1, 20_000, "nothing due"), (2, 22_000, "3.00 due"), (3, 18_000, "3.00 back"))
        for point, volume, left in sold:
            page.tell(prepay(point, 3_000))
            expect_words(browser, point, "authorised", "30.00 prepaid", "held by till 1")
            page.tell(report(point, 0, LIFT, 0), report(point, 0, FLOW, 8_000))
            expect_words(browser, point, "12.00", "30.00 prepaid, 18.00 left")
            page.tell(report(point, 0, HANG_UP, volume))
            expect_words(browser, point, "30.00 prepaid,", left, "till 1 is collecting")
        expect("it isn't said that it costs that", "30.00|" in read_tile(browser, 1), False)
        expect_head(browser, "0 calling, 1 unpaid 3.00, 2 prepaid")
        page.tell(*(command_sale(1, 0, point, 1, UNLOCK) for point in (1, 2, 3)))
        for point, words in ((1, "to clear AGE"), (2, "payable AGE"), (3, "to clear AGE")):
            expect_words(browser, point, words)
        grounds = browser.evaluate(
            "[...document.querySelectorAll('.due')].map(x => getComputedStyle(x).backgroundColor)"
        )
        expect("nothing due doesn't stand out", grounds[0], "rgba(0, 0, 0, 0)")
        expect("the others do", grounds[1:], [grounds[1]] * 2)
        expect("from it", grounds[0] == grounds[1], False)
        expect("complaints of the browser", browser.complaints, [])


@test
@in_browser
def a_test_at_a_point():
    """A test shows litres and `test`, no money."""
    with start_page() as page, start_browser() as browser:
        browser.open(page.url, *SCREEN)
        wait_until("the page", lambda: browser.evaluate(TILES))
        page.tell(command_point(1, 0, 1, OPEN), command_point(1, 0, 1, TEST_RELEASE))
        expect_words(browser, 1, "authorised", "test")
        page.tell(report(1, 0, LIFT, 0), report(1, 0, FLOW, 20_000))
        expect_words(browser, 1, "fuelling", "20.00 l", "test", "1 diesel")
        expect("money", re.findall(r"\d+\.\d\d(?! l)", read_tile(browser, 1)), [])


AGES = """['.s4 .age', '.by'].map(one => {
    const found = document.querySelector('#points').querySelector(one);
    return found ? found.textContent.replace('payable ', '') : '';
})"""


def count_seconds(text):
    """An age of less than an hour; none is less than any."""
    minutes, seconds = text.split(":") if text else (0, -1)
    return 60 * int(minutes) + int(seconds)


def expect_ages(browser, least):
    """Within two seconds point 1 says that it has called, and sold, for at least so many seconds;
    returns how many these are."""
    end = time.monotonic() + SOON
    while min(ages := [*map(count_seconds, browser.evaluate(AGES))]) < least:
        if time.monotonic() > end:
            raise Failed(f"it says {browser.evaluate(AGES)}, wanted {least} seconds or more")
        time.sleep(serving.LOOK)
    return ages


@test_beside
@in_browser
def how_long_it_calls():
    """How long a point has been calling, and how long ago a sale was made, is by the station's
    clock: a page that is loaded later says the same. A call that is over counts no more. Where the
    station doesn't tell a time it is as far as the page saw it. How it writes ages and litres."""
    with start_page("--history", HERE / "calling") as page, start_browser() as browser:
        begun = time.monotonic()
        page.tell(command_point(1, 0, 1, OPEN), command_point(1, 0, 1, RELEASE))
        page.tell(report(1, 0, LIFT, 0), report(1, 0, HANG_UP, 10_000))
        page.tell(report(1, 0, LIFT, 10_000))
        time.sleep(4.5)
        for _ in range(2):  # it is loaded again
            passed, opened = int(time.monotonic() - begun), time.monotonic()
            browser.open(page.url, *SCREEN)
            wait_until("the page", lambda: browser.evaluate(TILES))
            ages = expect_ages(browser, 4)
            expect(f"{ages}", passed <= max(ages) <= time.monotonic() - begun, True)
        expect("its last second", expect_ages(browser, max(ages) + 1)[0] > ages[0], True)
        for gone in ("{...last, calling: null, sold: null}", "{...last, at: null}",
                     "(({calling, sold, ...rest}) => rest)(last)"):  # fmt: skip
            ages = [*map(count_seconds, browser.evaluate(f"show({gone}), {AGES}"))]
            expect(f"{gone}: {ages}", 0 <= max(ages) <= time.monotonic() - opened, True)
        page.tell(report(1, 0, HANG_UP, 10_000))
        expect_words(browser, 1, "idle", "payable AGE")
        page.tell(report(1, 0, LIFT, 10_000))
        expect_words(browser, 1, "calling", "AGE")
        expect("it calls anew", count_seconds(browser.evaluate(AGES)[0]) <= SOON, True)
        length = "[0, 59999, 60000, 3599999, 3600000, 90000000].map(length)"
        expect("lengths", browser.evaluate(length),
               ["0:00", "0:59", "1:00", "59:59", "1 h 0 m", "25 h 0 m"])  # fmt: skip
        volumes = [4, 5, 17_054, 17_055, 17_065, 1_005, 999_999_999_999]
        said = browser.evaluate(f"{volumes}.map(litres)")
        expect("litres", said, [f"{round_litres(volume):.2f}" for volume in volumes])


@test
@in_browser
def figures_as_the_program_prints_them(seed):
    """The page's script writes litres and money as `report --human` and `next` print them, but for
    spaces between thousands: 100,000 figures of random days, of all lengths. Litres with two
    digits are those with three, half a hundredth rounded up."""
    chance = start_chance(seed, "figures")
    with concurrent.futures.ThreadPoolExecutor() as pool:
        made = [pool.submit(print_figures, n, random_figures.draw_site(chance), draw(chance))
                for n, draw in enumerate(DRAWN)]  # fmt: skip
        pairs = [one.result() for one in made]
    litres, money = (random_figures.join(kind) for kind in zip(*pairs))
    expect("figures", len(litres.values) + len(money.values) >= 100_000, True)
    with start_page(till=None) as page, start_browser() as browser:
        browser.open(page.url, *SCREEN)
        wait_until("the page", lambda: browser.evaluate(TILES))
        apart = [THOUSANDS.sub("\u00a0", text) for text in litres.texts]
        expect_written(browser, "exact", litres.values, apart)
        short = [str(decimal.Decimal(text).quantize(decimal.Decimal("0.01"), "ROUND_HALF_UP"))
                 for text in litres.texts]  # fmt: skip
        expect_written(browser, "litres", litres.values, short)
        expect_written(browser, "money", money.values, money.texts)
        apart = [THOUSANDS.sub("\u00a0", text) for text in money.texts]
        expect_written(browser, "cents => spaced(money(cents))", money.values, apart)


REPORTS, NEXTS = 920, 400  # days: 55 figures of each report, 128 of each `next`
DRAWN = [random_figures.draw_day] * REPORTS + [random_figures.draw_unpaid] * NEXTS
THOUSANDS = re.compile(r"(?<=\d)(?=(?:\d{3})+\.)")  # where they are parted


def print_figures(number, site, rows):
    """The figures of litres and of money that the program prints of a day for people."""
    folder = HERE / f"figures-{number}"
    folder.mkdir(exist_ok=True)
    file = folder / "site.toml"
    file.write_text(site)
    if number < REPORTS:
        return random_figures.print_report(PROGRAM, file, rows)
    none = random_figures.Figures([], [])
    return none, random_figures.print_obstacles(PROGRAM, file, rows, folder / "history")


def expect_written(browser, function, values, texts):
    """The page's function writes the values so."""
    said = browser.evaluate(f"{values}.map(value => ({function})(value))")
    wrong = [one for one in zip(values, said, texts) if one[1] != one[2]]
    expect(f"{function}: wrong", wrong[:3], [])


@test
@in_browser
def the_last_seal_on_the_page():
    """The second view says the last seal; without a history it says nothing of seals."""
    said = "document.getElementById('seal').innerText"
    for words in ([], ["--history", str(HERE / "sealed-page")]):
        with start_page(*words) as page, start_browser() as browser:
            browser.open(page.url + "#history", *SCREEN)
            rows = "document.getElementById('rows')?.innerText"
            wait_until("the rows", lambda: browser.evaluate(rows) == f"{page.site()['rows']} rows")
            wanted = f"last seal {page.site()['seal']}" if words else ""
            expect("the seal", browser.evaluate(said), wanted)
            expect("complaints of the browser", browser.complaints, [])


@test
@in_browser
def since_when_on_the_page():
    """The page says since when the shift is open, in the time of the day here, of another day with
    its date. Without a history it says nothing of it."""
    said = "['shift', 'since'].map(one => document.getElementById(one)?.textContent ?? '')"
    old = HERE / "since-page"
    times = ["2026-01-02T03:04:05.678Z", make_stamp(datetime.datetime.now(datetime.UTC))]
    for opened in (None, *times):
        words = []
        if opened:
            body = time_line(opened) + write_rows(sign_on(1))
            write_history(old, KNOWN_SITE, *write_chapters(KNOWN_SITE, body))
            words = ["--history", str(old)]
        with start_page(*words, till=None) as page, start_browser() as browser:
            browser.open(page.url, *SCREEN)
            wait_until("the shift", lambda: browser.evaluate(said)[0] != "")
            words = ["shift 1", "Shift 1"]
            if opened:
                since = f"since {tell_moment(opened)}"
                words = [f"shift 1 {since}", f"Shift 1, open {since}"]
            expect("the shift", browser.evaluate(said), words)
            expect("complaints of the browser", browser.complaints, [])


@test
@in_browser
def what_time_it_is():
    """The page has the station's time and day, in the time of the day here."""
    said = "['clock', 'date'].map(one => document.getElementById(one).textContent)"
    with start_page() as page, start_browser() as browser:
        browser.open(page.url, *SCREEN)
        wait_until("the page", lambda: browser.evaluate(TILES))
        before = datetime.datetime.now() - datetime.timedelta(seconds=SOON)
        clock, day = browser.evaluate(said)
        after = datetime.datetime.now()
        told = datetime.datetime.strptime(f"{day.replace(',', '')} {clock}", "%a %d %b %Y %H:%M:%S")
        if not before.replace(microsecond=0) <= told <= after:
            raise Failed(f"{day} {clock} isn't between {before} and {after}")


def make_stamp(time):
    return time.strftime("%Y-%m-%dT%H:%M:%S.000Z")


def tell_moment(stamp):
    """A time as the page tells it: of another day than today with its date."""
    moment = datetime.datetime.fromisoformat(stamp).astimezone()
    is_today = moment.date() == datetime.datetime.now().date()
    return moment.strftime("%H:%M" if is_today else "%Y-%m-%d %H:%M")


LOST_TILE = """[...document.querySelectorAll('#points section')].map(tile => {
    const struck = ['.state', '.limit', '.who'].map(one => tile.querySelector(one))
        .filter(one => one.getClientRects().length)
        .map(one => getComputedStyle(one).textDecorationLine);
    const grey = colour => Math.max(...colour) - Math.min(...colour);
    const numbers = text => text.match(/[\\d.]+/g).map(Number).slice(0, 3);
    const line = getComputedStyle(tile, '::before').backgroundImage;
    const texts = [...tile.querySelectorAll('h2,span,p')].filter(x => x.getClientRects().length);
    const colours = [getComputedStyle(tile).backgroundColor,
        ...texts.map(x => getComputedStyle(x).color)];
    const last = tile.querySelector('.last');
    return {struck: [...new Set(struck)],
        time: last.getClientRects().length ? last.textContent : '',
        hue: Math.max(...colours.map(numbers).map(grey)),
        line: line.startsWith('linear-gradient')};
})"""
MOST_HUE = 24  # of 255, between the channels of what is called grey


def expect_pictures(count):
    """The page of so many points is drawn into `out/pictures`, on each screen, light and dark: each
    is a PNG as large as its screen, and no two are alike."""
    found = set()
    for file, size in page_pictures.draw(PROGRAM, SCRIPTS.parent / "out/pictures", count):
        octets = file.read_bytes()
        expect(file.name, octets[:8], b"\x89PNG\r\n\x1a\n")
        drawn = tuple(int.from_bytes(octets[at : at + 4], "big") for at in (16, 20))
        expect(f"the size of {file.name}", drawn, size)
        found.add(octets)
    expect("pictures", len(found), 6)


@test_beside
@in_browser
def pictures_of_few_points():
    expect_pictures(5)


@test_beside
@in_browser
def pictures_of_twelve_points():
    expect_pictures(12)


@test_beside
@in_browser
def pictures_of_64_points():
    expect_pictures(64)


@test_beside
@in_browser
def a_silent_station():
    """Where no answer comes the page says since when, in the title too; its tiles are grey and
    struck through, with the time of the last answer. It goes on once there is an answer."""
    with start_page() as page, start_browser() as browser:
        browser.open(page.url, *SCREEN)
        page.tell(command_point(1, 0, 1, OPEN), report(1, 0, LIFT, 0))
        expect_words(browser, 1, "calling")
        live = browser.evaluate(LOST_TILE)
        expect("live", [x["line"] or x["time"] or x["struck"] != ["none"] for x in live],
               [False] * len(live))  # fmt: skip
        page.day.process.send_signal(signal.SIGSTOP)
        try:
            time.sleep(SILENCE)
            said, title = browser.evaluate(HEAD)
            if not re.fullmatch(r"no answer since \d\d:\d\d:\d\d", said):
                raise Failed(f"the page says '{said}'")
            expect("the title", title, said)
            last = said.removeprefix("no answer since ")
            for tile in browser.evaluate(LOST_TILE):
                expect("a tile", (tile["struck"], tile["time"], tile["line"]),
                       (["line-through"], last, True))  # fmt: skip
                expect("grey", tile["hue"] <= MOST_HUE, True)
            expect("it is heard", browser.evaluate(NEWS), said)
        finally:
            page.day.process.send_signal(signal.SIGCONT)
        time.sleep(SILENCE)
        expect_head(browser, "1 calling, 0 unpaid")
        expect("live again", browser.evaluate("document.body.className"), "")


SESSIONS = "[...document.querySelectorAll('#sessions tr')].map(line => line.innerText)"


@test_beside
@in_browser
def who_is_connected_on_the_page():
    """A tile says that its dispenser isn't connected, until it is; the second view has the
    sessions, how many connections there are, and each meter."""
    with start_page() as page, start_browser() as browser:
        browser.open(page.url, *SCREEN)
        expect_words(browser, 2, "closed", "no dispenser")
        with page.day.connect() as pump:
            come_online(pump, 2)
            wait_until("the tile says no more", lambda: "no dispenser" not in read_tile(browser, 2))
            expect_words(browser, 1, "no dispenser")
            browser.evaluate("document.getElementById('to-figures').click()")
            wait_until("two sessions", lambda: len(browser.evaluate(SESSIONS)) == 2)
            lines = [line.split("\t") for line in browser.evaluate(SESSIONS)]
            expect("whose", [line[0] for line in lines], ["till 1", "dispenser 2"])
            heard = [re.fullmatch(r"\d+ s ago", line[2]) is not None for line in lines]
            expect("when", heard, [True, True])
            count = browser.evaluate("document.getElementById('peers').innerText")
            expect("connections", count, "2 connections")
            meters = browser.evaluate("document.getElementById('meters').rows.length")
            nozzles = [nozzle for point in page.site()["points"] for nozzle in point["nozzles"]]
            expect("meters", meters, len(nozzles))
            browser.evaluate("document.getElementById('to-points').click()")
            wait_until("pumps again", lambda: browser.evaluate(SEEN) == ["points", "foot"])
        expect_words(browser, 2, "no dispenser")


@test_beside
@in_browser
def jumps_on_the_page():
    """The second view says of a nozzle how often its meter was replaced, and how far its readings
    jumped; and the litres and money of the open shift by product, with what tests drew."""
    with start_page("--name", "Am Ring") as page, start_browser() as browser:
        words = b"t1 ReplaceMeter 1 1@45500\nt1 ReplaceMeter 1 1@40500\nt1 ReplaceMeter 1 2@0\n"
        for line in run(PROGRAM, "spell", given=words).out.decode().splitlines():
            expect("accepted", is_accepted(page.tell(bytes.fromhex(line))), True)
        page.tell(command_point(1, 0, 2, OPEN), command_point(1, 0, 2, TEST_RELEASE))
        page.tell(report(2, 0, LIFT, 0), report(2, 0, HANG_UP, 5_000))
        browser.open(page.url + "#history", *SCREEN)
        lines = "[...document.querySelectorAll('#meters tr')].map(x => x.cells[3].innerText)"
        wait_until("two jumps", lambda: browser.evaluate(lines)[:2] == [
            "40.500\nreplaced 2 times,\n+40.500", "0.000\nreplaced once,\n-1.000"])  # fmt: skip
        expect("no others", [x for x in browser.evaluate(lines)[2:] if "replaced" in x], [])
        expect("whose", browser.evaluate("document.querySelector('h1').textContent"), "Am Ring")
        sold = "[...document.querySelectorAll('#sold td')].map(x => x.textContent)"
        expect("the shift", browser.evaluate(sold),
               ["1 diesel", "0.000\n5.000 in tests", "0.00", "2 petrol", "0.000", "0.00"]
        )  # fmt: skip


CLOSED = """[...document.querySelectorAll('#closed tbody')].map(shift =>
    [...shift.rows].map(line => [...line.cells].map(cell => cell.textContent)))"""
ASKED = """performance.getEntriesByType('resource').map(one => one.name)
    .filter(name => name.includes('/shifts')).map(name => name.split('/').pop())"""
MANY_SHIFTS = 70


def make_many_shifts():
    """A site and its day: so many closed shifts, in each of which a sale is cleared and another one
    stays unpaid, which the next shift clears."""
    site = forecourts.make_twelve_points()
    day, unpaid = forecourts.Day(site), None
    day.till(1, "SignOn")
    for point in site.points:
        day.till(1, "Open", point)
    for n in range(1, MANY_SHIFTS + 1):
        if unpaid:
            day.clear(1, unpaid)
        day.clear(1, day.sell(1 + n % 12, 1 + n % 3, 41_230 + 977 * n))
        point, _, number = day.sell(1 + (n + 5) % 12, 1, 1_230 + 40_007 * n).partition("/")
        unpaid = f"{point}/{n}/{number}"
        day.close_shift()
    return site, day


def write_closed(folder, site):
    """What the page is to have of each closed shift, the newest first: as `shifts` says, and what
    `sales` says of products."""
    lines = run(PROGRAM, "shifts", folder, "--json").out.decode().splitlines()
    sales = run(PROGRAM, "sales", folder, "--json").out.decode().splitlines()
    cents, names = collections.Counter(), {x["number"]: x["name"] for x in site["products"]}
    for sale in map(json.loads, sales):
        cents[sale["cleared in shift"], sale["product"]] += sale["cents"]
    shifts = [shift for shift in map(json.loads, lines) if not shift["open"]]
    return [
        [[str(shift["shift"]), tell_moment(shift["opened"]), tell_moment(shift["closed"]),
          str(shift["clears"]), space(shift["cents"] / 100, 2)],
         *([names[one["number"]], f"{space(one['cleared'] / 1_000, 3)}\u00a0l",
            space(cents[shift["shift"], one["number"]] / 100, 2)] for one in shift["products"])]
        for shift in reversed(shifts)
    ]  # fmt: skip


@test
@in_browser
def closed_shifts_on_the_page():
    """The second view has the closed shifts, the newest first: of 71 the last 63, and the others
    once they are asked for, by the keyboard too. They are asked for when the view is opened and
    when a shift is closed, and not each second."""
    folder = HERE / "closed"
    made, words = make_many_shifts(), ("--history", folder)
    with start_busy(made, *words) as (page, _), start_browser() as browser:
        browser.open(page.url, *WIDE)
        wait_until("the page", lambda: browser.evaluate(TILES))
        expect("not yet", browser.evaluate(ASKED), [])
        browser.evaluate("location.hash = 'history'")
        wanted = write_closed(folder, page.site())
        wait_until("63 shifts", lambda: len(browser.evaluate(CLOSED)) == 63)
        expect("the last ones", browser.evaluate(CLOSED), wanted[:63])
        found = read_roles(browser)
        for role, name in (("heading", "Closed shifts"), ("table", "Closed shifts"),
                           ("rowheader", "70"), ("button", "earlier shifts")):  # fmt: skip
            expect(f"{role} {name}", (role, name) in found, True)
        browser.evaluate("document.getElementById('to-figures').focus()")
        press(browser, "Tab", "Tab", "Enter")
        wait_until("all shifts", lambda: len(browser.evaluate(CLOSED)) == MANY_SHIFTS)
        expect("all", browser.evaluate(CLOSED), wanted)
        wait_until("it is told", lambda: browser.evaluate(NEWS) == "closed shifts from 1")
        expect("the button is gone", ("button", "earlier shifts") in read_roles(browser), False)
        focus = "document.activeElement.id"
        expect("where the focus is", browser.evaluate(focus), "closed-shifts")
        time.sleep(2.5)
        expect("asked for", browser.evaluate(ASKED), ["shifts?from=8", "shifts?from=1"])
        expect("closed", is_accepted(page.tell(ask_site(1, CLOSE_SHIFT, 0))), True)
        wait_until("one more", lambda: len(browser.evaluate(CLOSED)) == MANY_SHIFTS + 1)
        wanted = write_closed(folder, page.site())
        expect("all of them", browser.evaluate(CLOSED), wanted)
        for size in (SCREEN, TELEPHONE):
            browser.resize(*size)
            expect_legible(browser)
        browser.evaluate("location.hash = ''")
        wait_until("the first view", lambda: browser.evaluate(SEEN) == ["points", "foot"])
        browser.evaluate("location.hash = 'history'")
        wait_until("the last ones again", lambda: len(browser.evaluate(CLOSED)) == 63)
        expect("they are", browser.evaluate(CLOSED), wanted[:63])
        expect("asked for again", browser.evaluate(ASKED)[2:], ["shifts?from=9"] * 2)
        expect("complaints of the browser", browser.complaints, [])


@test_beside
@in_browser
def open_gaps_on_the_page():
    """A tile says of an open gap what its nozzle's meter reads, and what was reported last, until a
    reading is accepted."""
    with start_page() as page, start_browser() as browser:
        page.tell(command_point(1, 0, 1, OPEN), report(1, 0, LIFT, 30_500))
        browser.open(page.url, *SCREEN)
        expect_words(browser, 1, "nozzle 1: 0.00 l expected, 30.50 reported")
        page.tell(report(1, 0, LIFT, 40_000))
        expect_words(browser, 1, "nozzle 1: 0.00 l expected, 40.00 reported")
        page.tell(report(1, 0, LIFT, 0))
        wait_until("the gap is settled", lambda: "expected" not in read_tile(browser, 1))


SEEN = """Object.entries({points: '#points', figures: '#figures', foot: 'footer'})
    .filter(([name, one]) => document.querySelector(one).getClientRects().length)
    .map(([name]) => name)"""
NEWS = "document.getElementById('news').textContent"


@test
@in_browser
def heard_and_by_keyboard():
    """A screen reader finds each pump as a region with a heading, hears changes politely, and
    nothing else that changes; both views and the parts are opened by the keyboard alone."""
    with start_page() as page, start_browser() as browser:
        browser.open(page.url, *SCREEN)
        wait_until("the page", lambda: browser.evaluate(TILES))
        found = read_roles(browser)
        points = [f"Pump {point['number']}" for point in page.site()["points"]]
        expect("regions", [name for role, name in found if role == "region"], points)
        heads = [name for role, name in found if role == "heading"]
        names = [product["name"] for product in page.site()["products"]]
        expect("headings", heads, ["Forecourt", *points, *names])
        for role, name in (("main", "pumps"), ("navigation", "views"), ("group", "products"),
                           ("group", "tills"), ("link", "pumps"), ("link", "figures")):  # fmt: skip
            expect(f"{role} {name}", (role, name) in found, True)
        live = "[...document.querySelectorAll('[aria-live],[role=status]')].map(x => x.id)"
        expect("what is told", browser.evaluate(live), ["news"])
        how = "document.getElementById('news').getAttribute('aria-live')"
        expect("politely", browser.evaluate(how), "polite")
        expect("nothing at first", browser.evaluate(NEWS), "")
        page.tell(command_point(1, 0, 1, OPEN), report(1, 0, LIFT, 0))
        wait_until("the news", lambda: browser.evaluate(NEWS) == "Pump 1 calling")
        press(browser, "Tab", "Tab")
        expect("the link", browser.evaluate("document.activeElement.id"), "to-figures")
        press(browser, "Enter")
        wait_until("the second view", lambda: browser.evaluate(SEEN) == ["figures"])
        expect("of the address", browser.evaluate("location.hash"), "#history")
        current = "document.querySelector('[aria-current=page]').id"
        expect("which view", browser.evaluate(current), "to-figures")
        browser.evaluate("document.getElementById('to-points').focus()")
        press(browser, "Enter")
        wait_until("the first view", lambda: browser.evaluate(SEEN) == ["points", "foot"])
        press(browser, "Tab", "Tab", "Enter")
        wait_until("the parts", lambda: browser.evaluate("document.getElementById('more').open"))
        shown = browser.evaluate("document.getElementById('shares').getClientRects().length")
        expect("they are seen", shown > 0, True)
        expect("complaints of the browser", browser.complaints, [])


def read_roles(browser):
    """The roles and names of the accessibility tree, in the order of the page."""
    nodes = browser.call("Accessibility.getFullAXTree")["nodes"]
    return [(node["role"]["value"], node.get("name", {}).get("value", "")) for node in nodes
            if not node["ignored"]]  # fmt: skip


KEYS = {"Tab": (9, ""), "Enter": (13, "\r")}


def press(browser, *keys):
    for key in keys:
        code, text = KEYS[key]
        pressed = {"key": key, "code": key, "windowsVirtualKeyCode": code}
        browser.call("Input.dispatchKeyEvent", type="keyDown", text=text, **pressed)
        browser.call("Input.dispatchKeyEvent", type="keyUp", **pressed)


RECTANGLES = """[...document.querySelectorAll('#points section')].map(tile => {
    const box = tile.getBoundingClientRect();
    return [box.left, box.top, box.right, box.bottom];
})"""
LOST = "document.body.classList.add('lost')"


def overlap(a, b):
    return a[0] < b[2] and b[0] < a[2] and a[1] < b[3] and b[1] < a[3]


def expect_one_screen(browser, count, size):
    """So many tiles stand within the window, none over another, and nothing is scrolled."""
    boxes = browser.evaluate(RECTANGLES)
    expect("tiles", len(boxes), count)
    outside = [x for x in boxes if x[0] < 0 or x[1] < 0 or x[2] > size[0] or x[3] > size[1]]
    expect("outside of the window", outside, [])
    pairs = [(a, b) for n, a in enumerate(boxes) for b in boxes[n + 1 :] if overlap(a, b)]
    expect("overlaps", pairs, [])
    height = browser.evaluate("document.documentElement.scrollHeight")
    expect("no scrolling", height <= size[1], True)


def expect_column(browser, size):
    """The tiles stand one below another, as wide as the window, and nothing is scrolled
    sideways."""
    boxes = browser.evaluate(RECTANGLES)
    edge = boxes[0][0]
    expect("one column", {(x[0], x[2]) for x in boxes}, {(edge, size[0] - edge)})
    expect("to its edges", edge <= 6, True)
    width = browser.evaluate("document.documentElement.scrollWidth")
    expect("no scrolling sideways", width <= size[0], True)


CAPITALS = """(() => {
    const pen = document.createElement('canvas').getContext('2d');
    const measure = node => {
        const style = getComputedStyle(node);
        pen.font = style.fontWeight + ' 1000px ' + style.fontFamily;
        return pen.measureText('H').actualBoundingBoxAscent * parseFloat(style.fontSize) / 1000;
    };
    const seen = [...document.querySelectorAll('SELECTOR')]
        .filter(node => node.getClientRects().length && node.textContent);
    return Math.min(...seen.map(measure));
})()"""


def measure_capitals(browser, selector):
    """The height of the smallest capitals of these texts, in pixels."""
    return browser.evaluate(CAPITALS.replace("SELECTOR", selector))


def expect_legible(browser, may_end_early=frozenset()):
    """No text is cut off, and each is strong enough, where no answer comes, too. Of a text whose
    element has one of these classes an ellipsis may be the end, at points above PLAIN alone; where
    no answer comes, that of a state, which makes room for the time."""
    for prepared, more in (("", set()), (f"{LOST}, ", {"state"})):
        found = browser.evaluate(f"{prepared}{LOOKS}")
        expect("cut off", found["cut"], [])
        expect("faint", found["faint"], [])
        early = [x for x in found["short"] if x[0] not in {*may_end_early, *more}]
        expect("ends early", early, [])
        plain = [x for x in found["short"]
                 if 0 < x[1] <= forecourts.PLAIN and x[0] not in ("out", *more)]  # fmt: skip
        expect("ends early, though it isn't long", plain, [])


@test
@in_browser
def sixty_four_points():
    """64 points in every state, with as many unpaid transactions as they may have: on a screen all
    stand within the window; on a telephone one below another; whatever the window is no text is
    cut off or faint. What is out and a product's name end early first, and that shows."""
    made, words = forecourts.make_crowded_day(), ("--history", HERE / "sixty-four")
    with start_busy(made, *words) as (page, _), start_browser() as browser:
        expect("states", {x["state"] for x in page.site()["points"]}, set(range(1, 10)))
        for dark in (False, True):
            open_page(browser, page, SCREEN, dark, 64)
            expect_one_screen(browser, 64, SCREEN)
            expect_legible(browser, {"out", "product"})
            open_page(browser, page, TELEPHONE, dark, 64)
            expect_column(browser, TELEPHONE)
            expect_legible(browser)
        open_page(browser, page, WIDE, False, 64)
        expect_one_screen(browser, 64, WIDE)
        expect_legible(browser, {"out", "product"})
        expect("capitals", measure_capitals(browser, ".sum") >= 7, True)
        open_page(browser, page, ASIDE, False, 64)
        expect_legible(browser)
        expect_each_tile(browser, page)
        expect("complaints of the browser", browser.complaints, [])


@test
@in_browser
def twelve_points():
    """A busy day at twelve points: nothing ends early; on a large screen money, litres and states
    can be read from two metres."""
    made, words = forecourts.make_busy_day(), ("--history", HERE / "twelve")
    with start_busy(made, *words) as (page, _), start_browser() as browser:
        for size, dark in itertools.product((SCREEN, WIDE, ASIDE, TELEPHONE), (False, True)):
            open_page(browser, page, size, dark, 12)
            expect_legible(browser)
        open_page(browser, page, WIDE, False, 12)
        expect_one_screen(browser, 12, WIDE)
        expect_sizes(browser)
        open_page(browser, page, SCREEN, False, 12)
        expect_one_screen(browser, 12, SCREEN)
        expect_each_tile(browser, page)
        expect("complaints of the browser", browser.complaints, [])


SIZES = (("#points .flowed", 30), ("#points .sum", 30), (".state", 22), ("#products .flowed", 23),
         ("#products .taken", 23))  # fmt: skip


def expect_sizes(browser):
    """Capitals have at least so many pixels."""
    for selector, least in SIZES:
        high = measure_capitals(browser, selector)
        expect(f"{selector}: {high:.1f} pixels", high >= least, True)


@test
@in_browser
def fewer_points_with_long_figures():
    """Five and twelve points with the longest names and the greatest figures, and twenty with the
    most lines: nothing is cut off or faint, and nothing is scrolled on a screen. With five and
    twelve nothing ends early."""
    for numbers, may_end_early in ((range(60, 65), ()), (range(53, 65), ()),
                                   (range(17, 37), ("out", "product"))):  # fmt: skip
        made, last, count = forecourts.make_crowded_day(numbers=numbers), numbers[-1], len(numbers)
        words = ("--history", HERE / f"long-{count}")
        with start_busy(made, *words) as (page, _), start_browser() as browser:
            for size, dark in ((WIDE, False), (SCREEN, True), (TELEPHONE, False), (ASIDE, True)):
                open_page(browser, page, size, dark, last)
                if size in (WIDE, SCREEN):
                    expect_one_screen(browser, count, size)
                expect_legible(browser, may_end_early)
            expect_each_tile(browser, page)
            browser.evaluate("location.hash = 'history'")
            for size in (WIDE, SCREEN, TELEPHONE):
                browser.resize(*size)
                expect_legible(browser)
                count_wide = """[...document.querySelectorAll('#figures section')]
                    .filter(one => one.scrollWidth > one.clientWidth).length"""
                wide = browser.evaluate(count_wide)
                most = {WIDE: 0, SCREEN: 0, TELEPHONE: 1}[size]  # the parts
                expect("sections scrolled sideways", wide <= most, True)
            expect("complaints of the browser", browser.complaints, [])


@test
@in_firefox
def layouts_in_firefox():
    """Five, twelve and 64 points in Firefox, light and dark: on screens all tiles stand within the
    window, on a telephone one below another, and no text is cut off or faint. With twelve points on
    a large screen money, litres and states can be read from two metres."""
    days = (
        (forecourts.make_crowded_day(numbers=range(60, 65)), 5, 64, ()),
        (forecourts.make_busy_day(), 12, 12, ()),
        (forecourts.make_crowded_day(), 64, 64, ("out", "product")),
    )
    with contextlib.ExitStack() as stack:
        started = [start_busy(day[0], "--history", HERE / f"firefox-{day[1]}") for day in days]
        pages = [stack.enter_context(one)[0] for one in started]
        for dark in (False, True):
            with start_firefox(dark) as browser:
                for page, (_, count, last, may_end_early) in zip(pages, days):
                    expect_layouts(browser, page, count, last, may_end_early)
                    expect("dark", browser.evaluate(IS_DARK), dark)


IS_DARK = "matchMedia('(prefers-color-scheme: dark)').matches"


def expect_layouts(browser, page, count, last, may_end_early):
    """The page is laid out well in windows of all sizes."""
    for size in (TELEPHONE, WIDE, SCREEN):
        browser.open(page.url, *size)
        expect_words(browser, last, str(last))
        if size == TELEPHONE:
            expect_column(browser, size)
        else:
            expect_one_screen(browser, count, size)
        expect_legible(browser, () if size == TELEPHONE else may_end_early)
        if (count, size) == (12, WIDE):
            expect_sizes(browser)


def expect_each_tile(browser, page):
    """Each tile says what `site.json` has of its point, and the footer what it has of products and
    tills."""
    is_lost = "document.body.classList.contains('lost')"
    wait_until("an answer", lambda: not browser.evaluate(is_lost))
    site = page.site()
    for point in site["points"]:
        said = read_tile(browser, point["number"])
        expect(f"point {point['number']}", said, "|".join(write_tile(point, site)))
    texts = "[...document.querySelectorAll('{0}')].map(x => x.textContent)"
    prices = browser.evaluate(texts.format("#products .price"))
    expect("prices", prices, [f"{x['mills'] / 1_000:.3f}" for x in site["products"]])
    cleared = browser.evaluate(texts.format("#products .flowed"))
    wanted = [f"{space(round_litres(x['cleared']), 2)} l" for x in site["shift products"]]
    expect("cleared in the open shift", cleared, wanted)
    taken = browser.evaluate(texts.format("#products .taken"))
    wanted = [space(x["cents"] / 100, 2) for x in site["shift products"]]
    expect("money of the open shift", taken, wanted)
    parts = ("running", "payable", "locked", "cleared", "adjusted", "metered")
    for table in ("#shares", "#parts"):
        cells = browser.evaluate(texts.format(f"{table} td"))
        lines = [[f"{x['number']} {x['name']}", *(space(x[part] / 1_000, 3) for part in parts)]
                 for x in site["products"]]  # fmt: skip
        expect(table, cells, [cell for line in lines for cell in line])
    tills = browser.evaluate(texts.format("#tills span"))
    expect("tills", tills, [
        f"till {x['number']} {'on' if x['signed on'] else 'off'}, {x['clears']} for"
        f" {space(x['cents'] / 100, 2)}" for x in site["tills"] if x["signed on"] or x["clears"]
    ])  # fmt: skip


def round_litres(millilitres):
    """Litres with two digits; half a hundredth is rounded up."""
    return (millilitres + 5) // 10 / 100


def space(number, digits):
    """A number whose thousands are apart."""
    return f"{number:,.{digits}f}".replace(",", "\u00a0")


def name_of(sale):
    return sale["point"], sale["shift"], sale["number"]


def write_tile(point, site):
    """The words that a tile is to have."""
    names = {one["number"]: one["name"] for one in site["products"]}
    sales = [one for one in site["transactions"] if one["point"] == point["number"]]
    calling = {one["point"]: one["since"] for one in site["calling"]}
    sold = {name_of(one): one["at"] for one in site["sold"]}
    fuelling = point["fuelling"]
    flows, words = fuelling["cents"] is not None, [str(point["number"]), STATES[point["state"] - 1]]
    calls = point["state"] == forecourts.CALLING
    expect("calling", point["number"] in calling, calls)
    words += ["AGE"] if calls and calling[point["number"]] else []
    if flows:
        words.append(f"{round_litres(fuelling['millilitres']):.2f} l")
        words.append("test" if fuelling["test"] else f"{fuelling['cents'] / 100:.2f}")
    limit = write_limit(fuelling)
    marks = ["test"] if fuelling["test"] and not flows else []
    marks += ["ending"] if fuelling["ending"] else []
    marks += [f"{point['nozzle']} {names[point['product']]}"] if point["nozzle"] else []
    words += [limit] if limit and marks else []
    words += [", ".join(marks)] if marks else [limit] if limit else []
    words += [f"held by till {point['holder']}"] if point["holder"] else []
    for sale in sales:
        number = f"{sale['shift']}/" * (sale["shift"] != site["shift"]) + str(sale["number"])
        locked = sale["status"] == "locked"
        payable = "payable AGE" if sold[name_of(sale)] else "payable"
        words += [f"{sale['point']}/{number}", f"{round_litres(sale['millilitres']):.2f} l",
                  f"{sale['cents'] / 100:.2f}", names[sale["product"]],
                  f"till {sale['till']} is collecting" if locked else payable]  # fmt: skip
    return words


def write_limit(fuelling):
    """What a tile is to say of how much may flow."""
    if fuelling["prepaid"] is not None:
        words = f"{fuelling['prepaid'] / 100:.2f} prepaid"
        if fuelling["cents"] is None:
            return words
        left = fuelling["prepaid"] - fuelling["cents"]
        return f"{words}, {abs(left) / 100:.2f} {'over' if left < 0 else 'left'}"
    if fuelling["preset cents"] is not None:
        return f"for {fuelling['preset cents'] / 100:.2f}"
    if fuelling["preset millilitres"] is not None:
        return f"for {round_litres(fuelling['preset millilitres']):.2f} l"
    return ""
