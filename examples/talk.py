"""What a till and a dispenser of these examples have in common: a connection to the site, which
comes again where it ended, and messages. PROTOCOL.md has every identifier."""

import os
import socket
import sys
import time

RESULT, DETAIL = 0x01, 0x02
NOTICE = 4
ANOTHER_NODE = 57
PATIENCE = 30  # seconds in which a connection that was closed has to come again, with a message
PAUSE = 0.5

# What a refusal means; `forecourt explain N` says it of each number.
WORDS = {
    1: "the till isn't signed on",
    2: "the till is signed on already, maybe by another connection",
    3: "the site has no such fuelling point",
    4: "the point has no such nozzle",
    7: "only a manager's till may do that",
    10: "the point can't do that in its state, which is {detail}",
    11: "till {detail} holds the point",
    13: "a dispenser speaks of its own point alone",
    15: "two sales of the point are unpaid",
    17: "the meter has to stand at {detail} millilitres",
    18: "the meter stood at {detail} millilitres already",
    20: "till {detail} has locked the sale",
    22: "till {detail} has cleared the sale",
    ANOTHER_NODE: "this connection may not speak for that node: use the node's door",
}


class Gone(Exception):
    """The site has closed the connection."""


def explain(items):
    """A refusal in words."""
    number = items[RESULT][0]
    detail = int.from_bytes(items.get(DETAIL, b""), "big")
    words = WORDS.get(number, f"see: forecourt explain {number}")
    return f"{words.format(detail=detail)} ({number})"


def take_address(words):
    """The words of a command, parted into where the site listens and the rest: a port of this
    machine, or `--door` and the path of a Unix socket or of its folder. None where neither is
    there."""
    if words[:1] == ["--door"]:
        return (words[1], words[2:]) if len(words) > 1 else None
    if words and words[0].isdecimal():
        return int(words[0]), words[1:]
    return None


def connect(address):
    """A connection to the site at this port of this machine, or at this door."""
    if isinstance(address, int):
        return socket.create_connection(("127.0.0.1", address))
    peer = socket.socket(socket.AF_UNIX, socket.SOCK_STREAM)
    peer.connect(os.path.join(address, "socket") if os.path.isdir(address) else address)
    return peer


def describe(address, why):
    """Why there is no connection, in words."""
    where = f"port {address}" if isinstance(address, int) else f"the door {address}"
    if isinstance(why, PermissionError):
        return f"this user may not use {where}"
    if isinstance(why, FileNotFoundError):
        return f"{where} isn't there: the station isn't started, or has no such door"
    if isinstance(why, ConnectionRefusedError):
        return f"nothing serves at {where}"
    return f"{where}: {why.strerror or why}"


class Talk:
    """A peer's connection to the site. `to` and `sender` are the two octets of a node."""

    def __init__(self, address, sender):
        self.address, self.sender, self.token = address, bytes(sender), 0
        self.closed = None  # when it was closed, since the last message
        try:
            self.use(connect(address))
        except OSError as why:
            sys.exit(describe(address, why))

    def use(self, site):
        self.site, self.stream = site, site.makefile("rb")

    def reconnect(self):
        """Connects again, where the station is started again within some time."""
        print("the site has closed the connection; trying again", flush=True)
        self.closed, why = self.closed or time.monotonic(), None
        while time.monotonic() < self.closed + PATIENCE:
            time.sleep(PAUSE)
            try:
                return self.use(connect(self.address))
            except OSError as error:
                why = error
        sys.exit(describe(self.address, why) if why else "the site closes each connection")

    def send(self, kind, address, *items):
        """Sends a message; an item is its identifier and its octets."""
        self.token = (self.token + 1) % 32
        body = bytes([len(address)]) + address + b"".join(
            bytes([item, len(text)]) + text for item, text in items
        )
        head = bytes([1, 1]) + self.sender + bytes([0, kind << 5 | self.token])
        try:
            self.site.sendall(head + len(body).to_bytes(2, "big") + body)
        except OSError:
            raise Gone from None

    def read_message(self):
        """The kind of the next message, and its items' octets by identifier."""
        try:
            head = self.stream.read(8)
            body = self.stream.read(int.from_bytes(head[6:], "big")) if len(head) == 8 else b""
        except OSError:
            raise Gone from None
        if not body or len(body) < int.from_bytes(head[6:], "big"):
            raise Gone
        self.closed = None
        rest, items = body[1 + body[0] :], {}
        while rest:
            items[rest[0]], rest = rest[2 : 2 + rest[1]], rest[2 + rest[1] :]
        if items.get(RESULT) == bytes([ANOTHER_NODE]):
            sys.exit(explain(items))
        return head[5] >> 5, items
