#!/usr/bin/env python3
"""A till: examples/till.py PORT TILL POINT [FEED]
        examples/till.py --door PATH TILL POINT [FEED]

Signs on at a site, at this port of 127.0.0.1 or at this door, opens the fuelling point if it is
closed, releases it, waits until its fuelling is over, and locks, clears and reads the sale. With
FEED, the port of the station's feed or the socket of its door, it hears of the sale there; without
it, it looks at the point, and tries sale numbers. If the station is started again meanwhile, it
connects and signs on again, and goes on. It can be run as often as there is something to sell.
PROTOCOL.md has every identifier."""
import json
import sys
import time

from talk import RESULT, Gone, Talk, connect, explain, take_address

READ, WRITE, TILL = 0, 2, 2
SITE = bytes([1])
SIGN_ON, OPEN, RELEASE, LOCK, CLEAR = 0x31, 0x3C, 0x3E, 0x80, 0x82
STATE, VOLUME, CENTS, STATUS = 0x10, 0x73, 0x75, 0x78
INOPERATIVE, CLOSED, IDLE, CALLING = range(1, 5)
CLEARED, PAYABLE = 1, 2
OPEN_SHIFT = 0x21


class Till:
    def __init__(self, address, number):
        self.talk = Talk(address, [TILL, number])
        self.sign_on()

    def sign_on(self):
        """Signs on. If another connection has signed the till on, that one has to end first."""
        self.command(SITE, SIGN_ON)

    def ask(self, kind, address, *commands):
        """Sends a message, and returns the items of its reply: their octets by identifier. If the
        connection ends it comes again; the site may have heard the message, so a command isn't
        sent twice."""
        try:
            self.talk.send(kind, address, *((item, b"") for item in commands))
            return self.talk.read_message()[1]
        except Gone:
            self.talk.reconnect()
            self.sign_on()
            return self.ask(kind, address) if kind == READ else {}

    def read(self, address):
        """The numbers of a view by identifier; none where there is nothing at this address."""
        view = self.ask(READ, address)
        return {} if RESULT in view else {
            item: int.from_bytes(text, "big") for item, text in view.items()
        }  # fmt: skip

    def command(self, address, command):
        """Asks for something once. False if the connection ended before there was a reply."""
        told = self.ask(WRITE, address, command)
        if told and told[RESULT][0] != 0:
            sys.exit(f"command {command:02X} is refused: {explain(told)}")
        return bool(told)


def release(till, pump):
    """Opens the point if it is closed, and releases it. What was asked for while the connection
    ended is looked up."""
    while (state := till.read(pump).get(STATE)) in (CLOSED, IDLE, CALLING):
        if state == CLOSED:
            till.command(pump, OPEN)
        elif till.command(pump, RELEASE):
            return
    if state is None or state == INOPERATIVE:
        sys.exit("the point isn't there, or its dispenser isn't reached")


def hear_of_sale(feed, point):
    """The number of the next sale of the point that the feed tells; None if it ends before."""
    for line in feed:
        row = json.loads(line)
        if row.get("point") == point and row["reply"].startswith("Sold") and "sale" in row:
            return row["sale"]["number"]


def wait_for_sale(till, pump):
    """Looks at the point until its fuelling is over."""
    while till.read(pump).get(STATE) not in (INOPERATIVE, CLOSED, IDLE):
        time.sleep(0.05)


def address_sale(pump, number):
    """The address of a transaction of the open shift."""
    return pump + bytes([OPEN_SHIFT]) + bytes.fromhex(f"{number:04d}")


def find_sale(till, pump):
    """The address of the point's first payable transaction of the open shift."""
    for number in range(1, 10_000):
        sale = address_sale(pump, number)
        view = till.read(sale)
        if not view:
            sys.exit("the fuelling has ended without a sale")
        if view[STATUS] == PAYABLE:
            return sale


def clear(till, sale):
    """Locks and clears the sale. A sign-off unlocks it, so both are asked for again where the
    connection ended between the two."""
    while till.read(sale)[STATUS] != CLEARED:
        if till.command(sale, LOCK):
            till.command(sale, CLEAR)


def main(address, number, point, feed=None):
    till, pump, told = Till(address, number), bytes([0x20 + point]), None
    if feed:
        peer = connect(int(feed) if feed.isdecimal() else feed)
        peer.sendall(b"from end\n")
        told = peer.makefile("rb")
    release(till, pump)
    print(f"point {point} is released", flush=True)
    sold = told and hear_of_sale(told, point)
    if not sold:
        wait_for_sale(till, pump)
    sale = address_sale(pump, sold) if sold else find_sale(till, pump)
    clear(till, sale)
    view = till.read(sale)
    print(f"cleared {view[VOLUME]} ml for {view[CENTS]} cents")


if __name__ == "__main__":
    found = take_address(sys.argv[1:])
    numbers, feed = (found[1][:2], found[1][2:]) if found else ([], [])
    if len(numbers) != 2 or len(feed) > 1 or not all(word.isdecimal() for word in numbers):
        sys.exit(__doc__)
    main(found[0], *map(int, numbers), *feed)
