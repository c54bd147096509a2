"""A manager and a dispenser that work shift after shift at a station, one request after the other:
which rows their history has, and which replies they got."""

import contextlib

from shared.checks import Failed, expect
from shared.histories import is_notice, is_read, without_token, write_rows
from shared.station import (
    CLEAR, CLOSE_SHIFT, FLOW, HANG_UP, LIFT, LOCK, OPEN, RELEASE, ask_site, command_point,
    command_sale, decode, is_accepted, receive_message, report, sign_on,
)  # fmt: skip

MANAGER, POINT = 1, 1
CLOSE_IT = ask_site(MANAGER, CLOSE_SHIFT, 0)
PRICE = 1_500  # mills of a litre of diesel


class Work:
    """The manager and the dispenser of point 1. `told` has the requests of kept rows with their
    replies, in order, with token 0."""

    def __init__(self, till, pump, reading=0):
        self.till, self.pump, self.reading, self.told = till, pump, reading, []

    def ask(self, peer, *requests):
        """Sends requests one after the other, and returns their replies, each as its octets."""
        replies = []
        for one in requests:
            peer.sendall(one)
            reply = receive_message(peer)
            while reply and is_notice(reply):
                reply = receive_message(peer)
            if not reply:
                raise Failed(f"no reply to {one.hex()}")
            replies.append(without_token(reply))
            if not is_read(one):
                self.told.append((without_token(one), replies[-1]))
        return replies

    def do(self, peer, *requests):
        """The same of requests that are all accepted."""
        for one, reply in zip(requests, self.ask(peer, *requests)):
            if not is_accepted(decode(reply)[0]):
                raise Failed(f"{one.hex()} is refused: {reply.hex()}")

    def come(self):
        self.do(self.till, sign_on(MANAGER), command_point(MANAGER, 0, POINT, OPEN))

    def release(self):
        self.do(self.till, command_point(MANAGER, 0, POINT, RELEASE))

    def lift(self):
        self.do(self.pump, report(POINT, 0, LIFT, self.reading))

    def fuel(self, millilitres):
        """A fuelling of so much diesel, which is then a sale."""
        self.release()
        self.lift()
        self.reading += millilitres
        flow = report(POINT, 0, FLOW, self.reading)
        self.do(self.pump, flow, report(POINT, 0, HANG_UP, self.reading))

    def collect(self, number):
        """This sale of the open shift is cleared."""
        lock, clear = (command_sale(MANAGER, 0, POINT, number, one) for one in (LOCK, CLEAR))
        self.do(self.till, lock, clear)

    def sell(self, number, millilitres):
        self.fuel(millilitres)
        self.collect(number)

    def close_shift(self):
        self.do(self.till, CLOSE_IT)

    @property
    def replies(self):
        return [reply for _, reply in self.told]

    @property
    def bodies(self):
        """The lines of the rows, split after each row that closes a shift."""
        found = [b""]
        for request, _ in self.told:
            found[-1] += write_rows(request)
            if request == CLOSE_IT:
                found.append(b"")
        return found


@contextlib.contextmanager
def work_at(day):
    """The manager and the dispenser at a station, until the block ends."""
    with day.connect() as till, day.connect() as pump:
        yield Work(till, pump)


def cents_of(millilitres, price=PRICE):
    """What so much costs: millilitres and mills of a litre make cents, rounded half up."""
    return (millilitres * price + 5_000) // 10_000


def expect_replies(what, rows, work, begin=0):
    """The rows from this place on are those of the work, and were answered as it was told."""
    expect(what, [(row.request, row.reply) for row in rows[begin : begin + len(work.told)]],
           work.told)  # fmt: skip
