"""A day of a station with a page, and requests of HTTP."""

import contextlib
import json
import pathlib
import re
import socket
import tempfile

from shared import serving
from shared.checks import Failed
from shared.peers_day import PeersDay
from shared.serving import start_day
from shared.station import KNOWN_SITE, receive, sign_on


class PageDay(PeersDay):
    """A station with a page, and its tills and dispensers."""

    def __init__(self, program, day, port):
        super().__init__(program, day)
        self.port, self.url = port, f"http://127.0.0.1:{port}/"

    def get(self, path, method="GET"):
        """The status, the fields and the body of an answer."""
        with connect(self.port) as peer:
            peer.sendall(write_request(path, method, "Connection: close\r\n"))
            return read_answer(peer, method)

    def site(self):
        return json.loads(self.get("/site.json")[2])


@contextlib.contextmanager
def start_page(program, *words, site=KNOWN_SITE, till=1, **how):
    """A day whose page listens, with this till, if it is one, signed on. At its end its report has
    to come, and nothing be told on standard error, unless it has ended before."""
    command = [program, "station", site, "--port", 0, "--page", 0, *words]
    with start_day([*map(str, command)], stdin=-1, **how) as day:
        line = day.process.stdout.readline().decode()
        found = re.fullmatch(r"page http://127\.0\.0\.1:(\d+)/\n", line)
        if not found:
            raise Failed(f"the line behind the first is '{line}'")
        page = PageDay(program, day, int(found.group(1)))
        if till:
            page.tell(sign_on(till))
        yield page
        page.leave()
        if day.process.stdin:
            end_day(day)


def end_day(day):
    """The report of a day whose standard input is closed."""
    day.process.stdin.close()
    day.process.stdin = None
    return day.report()


@contextlib.contextmanager
def start_busy(program, made, *words):
    """A page of a site whose day has been worked, without any other till, and the site's file.
    Both, the site and the day, are made (forecourts.py)."""
    site, day = made
    with tempfile.TemporaryDirectory() as folder:
        file = pathlib.Path(folder) / "site.toml"
        file.write_text(site.text())
        with start_page(program, *words, site=file, till=None) as page:
            page.work(day)
            yield page, file


def connect(port):
    return socket.create_connection(("127.0.0.1", port), timeout=serving.WAIT)


def write_request(path, method="GET", fields="", host="127.0.0.1"):
    return f"{method} {path} HTTP/1.1\r\nHost: {host}\r\n{fields}\r\n".encode()


def read_answer(peer, method="GET"):
    """One answer: its status, its fields by their names in lower case, and its body."""
    head = b""
    while not head.endswith(b"\r\n\r\n"):
        octet = peer.recv(1)
        if not octet:
            raise Failed(f"an answer ends in {head[-100:]!r}")
        head += octet
    first, *lines = head.decode().split("\r\n")[:-2]
    fields = {name.lower(): text.strip() for name, text in (x.split(":", 1) for x in lines)}
    length = 0 if method == "HEAD" else int(fields.get("content-length", 0))
    return int(first.split()[1]), fields, receive(peer, length)
