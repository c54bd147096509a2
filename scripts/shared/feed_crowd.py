"""As many peers as a feed has places, at its port and at its door. They leave and come back all the
time, and half of them are slow; the station may be killed meanwhile as often as you like."""

import contextlib
import random
import socket
import threading
import time

from shared.checks import Failed
from shared.feed_day import FeedPeer
from shared.running import run
from shared.serving import send_reset

PLACES = 64
PIECE, SLOW_PIECE = 65_536, 8_192  # octets that a peer takes at once
SLOW_BUFFER = 8_192  # octets that wait for a slow peer of the port, about
SLOW_PAUSE = 0.05  # seconds ahead of each piece of a slow peer
STAYS = 0.2, 2.0  # seconds that a peer stays, at least and at most
PAUSE = 0.02  # seconds before it comes back
ROW, ALIVE = b'{"actor":', b'{"alive":'  # how lines begin
SHOWN = 300  # octets of what a peer was told wrongly


class Crowd:
    """The peers of a history's feed, and the lines of rows as they were told them."""

    def __init__(self, program, folder, door, chance):
        self.program, self.folder, self.door = program, folder, door
        self.port = 0  # of the feed, while there is one
        self.octets, self.lock, self.faults = bytearray(), threading.Lock(), []
        # Whether slow peers take nothing, no peer is slow, and all of them leave.
        self.is_flooded = self.is_hurried = self.is_over = False
        self.peers = [Peer(self, number, chance.random()) for number in range(PLACES)]

    def __enter__(self):
        for peer in self.peers:
            peer.start()
        return self

    def __exit__(self, *why):
        self.is_over = True
        for peer in self.peers:
            peer.join()

    def count(self, name):
        """A figure of all peers."""
        return sum(getattr(peer, name) for peer in self.peers)

    def have(self, rows):
        """Whether each peer has so many rows, or one was told what is wrong."""
        return bool(self.faults) or all(peer.rows >= rows for peer in self.peers)

    def take(self, place, lines):
        """Takes what a peer was told behind so many octets. Who is told of a row first says how it
        goes, and the others have to be told the same."""
        with self.lock:
            known = bytes(self.octets[place : place + len(lines)])
            if not lines.startswith(known):
                raise Failed(f"it is told {lines[:SHOWN]}, another one was {known[:SHOWN]}")
            self.octets += lines[len(known) :]


class Peer(threading.Thread):
    """A peer that comes back for the row behind the last whole line that it has: to the feed, or to
    the history's files where the feed hasn't that row any more."""

    def __init__(self, crowd, number, seed):
        super().__init__(daemon=True)
        self.crowd, self.number, self.chance = crowd, number, random.Random(seed)
        self.is_slow, self.is_at_door = number % 2 == 1, number % 4 > 1
        self.rows, self.place = 0, 0  # the whole lines that it has, and their octets
        # How often it left a feed that had told it a row, was left by one, and read the files.
        self.returns, self.cuts, self.readings = 0, 0, 0

    def run(self):
        try:
            while not self.crowd.is_over:
                with contextlib.suppress(OSError):
                    self.visit()
                time.sleep(PAUSE)
        except Exception as why:
            self.crowd.faults.append(f"peer {self.number} with {self.rows} rows: {why!r}")

    def visit(self):
        """One connection, until the station ends it or the peer has stayed long enough."""
        end, before, rest = time.monotonic() + self.chance.uniform(*STAYS), self.rows, b""
        address = self.crowd.door if self.is_at_door else ("127.0.0.1", self.crowd.port)
        with FeedPeer(address) as feed:
            if self.lags() and not self.is_at_door:
                feed.socket.setsockopt(socket.SOL_SOCKET, socket.SO_RCVBUF, SLOW_BUFFER)
            feed.send(f"from {self.rows}\n")
            while time.monotonic() < end and not self.crowd.is_over:
                if not (piece := self.take_piece(feed.socket)):
                    self.cuts += self.rows > before
                    return
                rest = self.take_lines(rest + piece)
            self.returns += self.rows > before
            if self.chance.random() < 0.5:
                send_reset(feed.socket)

    def lags(self):
        return self.is_slow and not self.crowd.is_hurried

    def take_piece(self, link):
        if not self.lags():
            return link.recv(PIECE)
        time.sleep(SLOW_PAUSE)
        while self.crowd.is_flooded:
            time.sleep(SLOW_PAUSE)
        return link.recv(SLOW_PIECE)

    def take_lines(self, octets):
        """Takes the rows of the whole lines among these octets, and returns the rest."""
        end, fault = octets.rfind(b"\n") + 1, b""
        lines, rest = octets[:end], octets[end:]
        if lines.count(ROW) != lines.count(b"\n"):
            told = lines.splitlines(keepends=True)
            lines = b"".join(line for line in told if line.startswith(ROW))
            fault = b"".join(line for line in told if not line.startswith((ROW, ALIVE)))
        self.take_rows(lines)
        if fault:
            self.read_files(fault)
        return rest

    def take_rows(self, lines):
        self.crowd.take(self.place, lines)
        self.place += len(lines)
        self.rows += lines.count(b"\n")

    def read_files(self, fault):
        """Reads the rows from the files, which is what the feed says when it doesn't have one."""
        if b'{"fault":"row %d is in chapter ' % self.rows not in fault:
            raise Failed(f"it is told {fault[:SHOWN]}")
        words = ["replay", self.crowd.folder, "--json", "--from", str(self.rows)]
        end = run(self.crowd.program, *words)
        if end.status != 0:
            raise Failed(f"status {end.status} of its replay: {end.err}{end.out[-SHOWN:]}")
        self.take_rows(end.out)
        self.readings += 1
