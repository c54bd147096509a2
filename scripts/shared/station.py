"""The messages of a station as octets, and its sites.
docs/PROTOCOL.md has every number that is named here."""

import contextlib
import socket
import typing

from shared.running import CRATES, EXAMPLES, PATIENCE

# Sites.
SITES = CRATES / "site_file/cases"
# Points 1 to 5 with diesel at 1,500 and petrol at 1,799; till 1 is a manager.
KNOWN_SITE = SITES / "c1.toml"
GREATEST_SITE = SITES / "points_64.toml"
FIVE_POINTS, SIXTY_FOUR_POINTS = EXAMPLES / "five_points.toml", EXAMPLES / "sixty_four_points.toml"
LONGEST_LINE = 65_536  # octets of a line of messages

# Who speaks.
SITE, TILL, DISPENSER = 1, 2, 3
# What is sent.
READ, ANSWER, WRITE, REPORT, NOTICE, ACKNOWLEDGE = 0, 1, 2, 3, 4, 7
# Addresses.
SITE_ADDRESS, OPEN_SHIFT = b"\x01", 0x21
# Commands.
SIGN_ON, SIGN_OFF, CLOSE_SHIFT = 0x31, 0x32, 0x33
OPEN, CLOSE, RELEASE, TERMINATE, SUSPEND, RESUME, ASSIGN, UNASSIGN = range(0x3C, 0x44)
PREPAY, TEST_RELEASE = 0x44, 0x45
LIFT, FLOW, HANG_UP = 0x62, 0x63, 0x64
LOCK, UNLOCK, CLEAR = 0x80, 0x81, 0x82
# Items.
RESULT, OUTCOME, MONEY, NOZZLE, READING = 0x01, 0x03, 0x51, 0x70, 0x71


class Message(typing.NamedTuple):
    """A message as it is read: who gets it and who sent it, as (subnet, node), and its items by
    identifier."""

    to: tuple
    sender: tuple
    kind: int
    token: int
    address: bytes
    items: dict


def encode(to, sender, kind, token, address, items=()):
    """The octets of a message; items are (identifier, content)."""
    body = bytes([len(address)]) + address + b"".join(
        bytes([name, len(text)]) + text for name, text in items
    )
    return bytes([*to, *sender, 0, kind << 5 | token]) + len(body).to_bytes(2, "big") + body


def decode(octets):
    """The messages that the octets are."""
    messages = []
    while octets:
        end = 8 + int.from_bytes(octets[6:8], "big")
        body, items = octets[8:end], {}
        rest = body[1 + body[0] :]
        while rest:
            items[rest[0]], rest = rest[2 : 2 + rest[1]], rest[2 + rest[1] :]
        kind, token = octets[5] >> 5, octets[5] & 31
        to, sender, address = tuple(octets[:2]), tuple(octets[2:4]), body[1 : 1 + body[0]]
        messages.append(Message(to, sender, kind, token, address, items))
        octets = octets[end:]
    return messages


def parse(*texts):
    """The octets of texts in hexadecimal."""
    return b"".join(map(bytes.fromhex, texts))


def write_lines(octets):
    """The octets as lines of hexadecimal that aren't too long."""
    return b"".join(
        octets[at : at + 10_000].hex().encode() + b"\n" for at in range(0, len(octets), 10_000)
    )


# ---- what is asked of the site


def address_point(point):
    return bytes([0x20 + point])


def address_sale(point, number):
    """A sale of the open shift."""
    return address_point(point) + bytes([OPEN_SHIFT]) + bytes.fromhex(f"{number:04d}")


def ask(till, kind, token, address, *items):
    """What a till asks of the site."""
    return encode((SITE, 1), (TILL, till), kind, token, address, items)


def ask_site(till, command, token=1):
    return ask(till, WRITE, token, SITE_ADDRESS, (command, b""))


def sign_on(till, token=1):
    return ask_site(till, SIGN_ON, token)


def sign_off(till, token=1):
    return ask_site(till, SIGN_OFF, token)


def command_point(till, token, point, command):
    return ask(till, WRITE, token, address_point(point), (command, b""))


def read_point(till, token, point):
    return ask(till, READ, token, address_point(point))


def read_site(till, token):
    return ask(till, READ, token, SITE_ADDRESS)


def read_product(till, token, product):
    return ask(till, READ, token, bytes([0x80 + product]))


def command_sale(till, token, point, number, command):
    return ask(till, WRITE, token, address_sale(point, number), (command, b""))


def read_sale(till, token, point, number):
    return ask(till, READ, token, address_sale(point, number))


def report(point, token, command, reading, nozzle=1):
    """What a dispenser reports of a nozzle of its point."""
    items = (command, b""), (NOZZLE, bytes([nozzle])), (READING, reading.to_bytes(8, "big"))
    return encode((SITE, 1), (DISPENSER, point), REPORT, token, address_point(point), items)


# ---- what the site replies


def is_accepted(message):
    """Whether a reply is that to an accepted request: an acknowledgement of 0, or an answer to a
    read."""
    return message.kind != ACKNOWLEDGE or message.items[RESULT] == b"\0"


def write_report(rows, shares, clears=0, cents=0, **products):
    """The report of a day at a site with diesel and petrol; of a product the volumes that aren't
    0."""
    lines = [f"rows {rows}", f"clears {clears} cents {cents}"]
    for number, name in enumerate(("diesel", "petrol"), 1):
        volumes = dict.fromkeys(
            ("metered", "running", "payable", "locked", "cleared", "adjusted"), 0
        )
        volumes.update(products.get(name, {}))
        lines.append(
            f"product {number} {name} " + " ".join(f"{what} {ml}" for what, ml in volumes.items())
        )
    return "\n".join([*lines, f"shares {shares} settled", ""])


def write_site(points):
    """A site file of so many points with a nozzle of diesel each."""
    text = '[[product]]\nnumber = 1\nname = "diesel"\nprice = 1500\n'
    nozzles = "nozzles = [{product = 1, reading = 0}]"
    return text + "".join(
        f"[[point]]\nnumber = {number}\n{nozzles}\n" for number in range(1, points + 1)
    )


# ---- over sockets


def connect(port):
    """A connection to a server here, on which nothing that is sent waits for more."""
    peer = socket.create_connection(("127.0.0.1", port), timeout=PATIENCE)
    peer.setsockopt(socket.IPPROTO_TCP, socket.TCP_NODELAY, 1)
    return peer


def connect_at(door):
    """A connection to a server at a door: at the socket in this folder."""
    peer = socket.socket(socket.AF_UNIX)
    peer.settimeout(PATIENCE)
    peer.connect(str(door / "socket"))
    return peer


def receive(peer, length):
    """So many octets, or as many as come before the connection ends."""
    octets = b""
    while len(octets) < length and (piece := peer.recv(length - len(octets))):
        octets += piece
    return octets


def receive_message(peer):
    """One message, or as much of it as comes before the connection ends."""
    head = receive(peer, 8)
    return head + receive(peer, int.from_bytes(head[6:8], "big"))


def receive_all(peer):
    """All octets until the connection ends."""
    octets = b""
    with contextlib.suppress(ConnectionResetError):
        while piece := peer.recv(65_536):
            octets += piece
    return octets
