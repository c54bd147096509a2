"""A day of a station with a feed, and peers of it."""

import contextlib
import json
import re
import socket

from shared import serving
from shared.checks import Failed
from shared.peers_day import PeersDay
from shared.serving import start_day
from shared.station import KNOWN_SITE


class FeedDay(PeersDay):
    """A station with a feed on a port, and its tills and dispensers."""

    def __init__(self, program, day, port):
        super().__init__(program, day)
        self.port = port

    def feed(self, first):
        """A peer of the feed that has sent these words as its first line."""
        peer = FeedPeer(("127.0.0.1", self.port))
        peer.send(f"{first}\n")
        return peer


class FeedPeer:
    """A connection to a feed: of a port, or of a door's socket."""

    def __init__(self, address):
        family = socket.AF_INET if isinstance(address, tuple) else socket.AF_UNIX
        self.socket = socket.socket(family)
        self.socket.settimeout(serving.WAIT)
        self.socket.connect(address if family == socket.AF_INET else str(address))
        self.stream = self.socket.makefile("rb")

    def __enter__(self):
        return self

    def __exit__(self, *why):
        self.close()

    def close(self):
        self.stream.close()
        self.socket.close()

    def send(self, text):
        self.socket.sendall(text.encode())

    def line(self):
        """The next line; an empty one at the end."""
        return self.stream.readline().decode()

    def object(self):
        return json.loads(self.line())

    def lines(self, count):
        """So many lines that are rows'."""
        found = []
        while len(found) < count:
            line = self.line()
            if not line:
                raise Failed(f"the feed ends behind {len(found)} of {count} rows")
            found += [line] if is_row(line) else []
        return found

    def rest(self):
        """All lines up to the end."""
        return self.stream.read().decode().splitlines(keepends=True)


def is_row(line):
    """Whether a whole line of a feed is that of a row."""
    return line.startswith('{"actor":') and line.endswith("\n")


@contextlib.contextmanager
def start_feed(program, *words, site=KNOWN_SITE, told="", **how):
    """A day whose feed listens. At its end its report has to come, and only this be told on
    standard error, unless it has ended before."""
    command = [program, "station", site, "--port", 0, "--feed", 0, "--lost", 0, *words]
    with start_day([*map(str, command)], stdin=-1, **how) as day:
        line = day.process.stdout.readline().decode()
        found = re.fullmatch(r"feed 127\.0\.0\.1:(\d+)\n", line)
        if not found:
            raise Failed(f"the line behind the first is '{line}'")
        yield (feed := FeedDay(program, day, int(found.group(1))))
        feed.leave()
        if day.process.poll() is None:
            day.process.stdin.close()
            day.process.stdin = None
            day.report(told)
