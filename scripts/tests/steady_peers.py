"""Tills and dispensers that come back to a station that is killed. All that they send and all that
comes to them is kept."""

import contextlib
import threading
import time

from shared.checks import Failed, expect
from shared.histories import DETAIL, Session, is_notice, without_token
from shared.serving import WAIT
from shared.station import (
    CLEAR, CLOSE, DISPENSER, FLOW, HANG_UP, LIFT, LOCK, OPEN, PREPAY, RELEASE, REPORT, RESULT,
    RESUME, SITE, SUSPEND, TERMINATE, TILL, WRITE, address_point, ask, command_sale, connect,
    decode, encode, is_accepted, read_point, read_sale, receive_message, report, sign_off, sign_on,
)  # fmt: skip
from tests.suite import start_chance

POINTS = 8  # and as many tills
ONLINE = 0x60
CLEARED = b"\x0b"  # the outcome of a Clear


def say(point):
    return encode((SITE, 1), (DISPENSER, point), REPORT, 3, address_point(point), [(ONLINE, b"")])


class Ended(Exception):
    """A session has ended."""


class Runs:
    """The runs of a station on one history: which one listens where, and which were killed."""

    def __init__(self):
        self.change = threading.Condition()
        self.port, self.number, self.killed = None, -1, set()
        self.is_stopping, self.wrong = False, []

    def begin(self, port):
        with self.change:
            self.port, self.number = port, self.number + 1
            self.change.notify_all()

    def kill(self, process):
        with self.change:
            self.killed.add(self.number)
            self.port = None
        process.kill()

    def stop(self):
        with self.change:
            self.is_stopping = True
            self.change.notify_all()

    def wait(self):
        """The number and the port of the run that listens; None once peers are to stop."""
        with self.change:
            self.change.wait_for(lambda: self.port or self.is_stopping, WAIT)
            return None if self.is_stopping else (self.number, self.port)

    def complain(self, why):
        with self.change:
            self.wrong.append(why)


class Peer(threading.Thread):
    """A till or a dispenser that works at the station, comes back when that was killed, and goes on
    from what it was told last."""

    def __init__(self, runs, node, seed):
        super().__init__(daemon=True)
        self.runs, self.node = runs, node
        self.chance = start_chance(seed, f"history {node}")
        self.sessions = []  # with the number of their run
        self.session, self.peer = None, None

    def run(self):
        try:
            while found := self.runs.wait():
                self.work_at(*found)
        except Exception as why:  # a test that fails has to say so
            self.runs.complain(f"{self.node}: {type(why).__name__} {why}")

    def work_at(self, number, port):
        """A session at this run, until it ends, or the peer has had enough of it, or is to stop."""
        try:
            self.peer = connect(port)
        except OSError:
            if number not in self.runs.killed:
                raise
            return
        self.session = Session([], [])
        self.sessions.append((number, self.session))
        try:
            self.come()
            steps = self.chance.choice((20, 200, 2_000, 20_000))
            for _ in range(steps):
                if self.runs.is_stopping:
                    return
                self.step()
            self.leave()
        except (Ended, OSError) as why:
            if number not in self.runs.killed:
                self.runs.complain(f"{self.node}: run {number} ended a session: {why!r}")
        self.peer.close()
        self.peer = None

    def ask(self, *requests):
        """Sends requests at once, and returns the items of their replies."""
        for one in requests:
            self.session.sent.append(without_token(one))
        try:
            self.peer.sendall(b"".join(requests))
        except OSError:
            self.take_rest()
            raise Ended from None
        return [self.hear(one[5] & 31) for one in requests]

    def hear(self, token):
        """The next reply: notices may come before it."""
        while True:
            octets = self.take()
            if not is_notice(octets):
                message = decode(octets)[0]
                expect(f"{self.node}: the token", message.token, token)
                return message

    def take(self):
        """The next message. What is cut by the end isn't looked at."""
        try:
            octets = receive_message(self.peer)
        except ConnectionError:
            raise Ended from None
        if len(octets) < 8 or len(octets) < 8 + int.from_bytes(octets[6:8], "big"):
            raise Ended
        self.session.came.append(without_token(octets))
        return octets

    def take_rest(self):
        """What is still to come of a session that the peer hasn't closed."""
        with contextlib.suppress(Ended):
            while self.peer:
                self.take()

    def leave(self):
        pass


def refusal(message):
    """The number of a refusal; 0 of what was accepted."""
    return 0 if is_accepted(message) else message.items[RESULT][0]


class Till(Peer):
    """Opens, releases, reads, locks and clears, wherever there is something to do."""

    def __init__(self, runs, number, seed):
        super().__init__(runs, (TILL, number), seed)
        self.number = number
        self.cleared = dict.fromkeys(range(1, POINTS + 1), 0)  # so many sales, as far as it knows
        self.told_cleared = []  # the point, shift and number of each sale that it cleared, as told

    def token(self):
        return self.chance.randrange(32)

    def come(self):
        self.ask(sign_on(self.number, self.token()))

    def leave(self):
        if self.chance.random() < 0.5:
            self.ask(sign_off(self.number, self.token()))

    def step(self):
        p = self.chance.randint(1, POINTS)
        message, = self.ask(read_point(self.number, self.token(), p))
        if refusal(message) == 1:  # an earlier session's end has signed it off
            self.come()
            return
        self.command(p, message.items[0x10][0])
        if self.chance.random() < 0.7:
            self.sell(p)

    def command(self, p, state):
        chance = self.chance.random()
        commands = {2: [OPEN], 3: [RELEASE, RELEASE, PREPAY, CLOSE], 4: [RELEASE], 5: [TERMINATE],
                    6: [SUSPEND], 7: [RESUME], 8: [SUSPEND, TERMINATE], 9: [RESUME]}  # fmt: skip
        least = {2: 0, 3: 0.2, 4: 0, 5: 0.95, 6: 0.9, 7: 0.2, 8: 0.9, 9: 0.2}
        if state not in commands or chance < least[state]:
            return
        command, items = self.chance.choice(commands[state]), []
        if command == PREPAY or command == RELEASE and chance < 0.5:
            money = command == PREPAY or chance < 0.35
            items = [(0x51 if money else 0x50, self.chance.randint(500, 9_000).to_bytes(4, "big"))]
        self.ask(ask(self.number, WRITE, self.token(), address_point(p), (command, b""), *items))

    def sell(self, p):
        """Clears what it finds at this point: the first sales that it doesn't know as cleared."""
        for _ in range(3):
            sale = self.cleared[p] + 1
            message, = self.ask(read_sale(self.number, self.token(), p, sale))
            if refusal(message):
                return
            status = message.items[0x78][0]
            if status == 1:
                self.cleared[p] = sale
                continue
            lock = command_sale(self.number, self.token(), p, sale, LOCK)
            clear = command_sale(self.number, self.token(), p, sale, CLEAR)
            if self.chance.random() < 0.5:
                _, message = self.ask(lock, clear)
            else:
                self.ask(lock)
                message, = self.ask(clear)
            if refusal(message) == 0:
                expect("the outcome of a Clear", message.items[3], CLEARED)
                self.told_cleared.append((p, 1, sale))
            elif refusal(message) != 22:
                return
            self.cleared[p] = sale


class Pump(Peer):
    """Lifts, lets flow and hangs up; its meters go on, whatever the site was told of them."""

    def __init__(self, runs, point, seed):
        super().__init__(runs, (DISPENSER, point), seed)
        self.point = point
        self.meters = {1: 0, 2: 1_000}
        self.out, self.is_out = 1, False

    def come(self):
        """It says that it is online: what it is told is the state of its point."""
        message, = self.ask(say(self.point))
        if refusal(message) == 10:
            self.is_out = int.from_bytes(message.items[DETAIL], "big") in (4, 6, 7, 8, 9)

    def tell(self, command, growth=0):
        """A report of its nozzle. What it had sent before the site was killed may have come to its
        row or not: where its own reading isn't the site's, it takes that one."""
        reading = self.meters[self.out] + growth
        token = self.chance.randrange(32)
        message, = self.ask(report(self.point, token, command, reading, self.out))
        number = refusal(message)
        if number == 0:
            self.meters[self.out] = reading
        elif number in (17, 18):
            self.meters[self.out] = int.from_bytes(message.items[DETAIL], "big")
        elif number == 14:
            self.out = int.from_bytes(message.items[DETAIL], "big")
        elif number == 10:
            self.is_out = int.from_bytes(message.items[DETAIL], "big") in (4, 6, 7, 8, 9)
        else:
            raise Failed(f"refusal {number} of report {command:02X} at {reading}")
        return number == 0

    def step(self):
        chance = self.chance.random()
        if not self.is_out:
            if chance < 0.05:
                self.ask(say(self.point))
            if chance < 0.5:
                self.out = self.chance.choice((1, 1, 2))
            if self.tell(LIFT):
                self.is_out = True
            else:
                time.sleep(self.chance.random() / 200)
        elif chance < 0.7:
            self.tell(FLOW, self.chance.choice((0, 1, 250, 1_000, 2_500)))
        elif self.tell(HANG_UP, self.chance.choice((0, 0, 100))):
            self.is_out = False
            time.sleep(self.chance.random() / 200)
