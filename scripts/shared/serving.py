"""A day of the program over real sockets, and what its peers do there."""

import contextlib
import fcntl
import os
import pathlib
import re
import select
import socket
import struct
import subprocess
import termios
import threading
import time
import typing

from shared.checks import Failed, expect
from shared.station import connect, read_point, receive_all

# What a station without a history says on standard error.
UNKEPT = "nothing is kept\nwithout --history FOLDER a crash or a power cut loses the day\n"
DOORS_LINE = "listening at doors\n"  # of a station that listens on no port
WAIT = 60  # seconds, for what comes at once if all is well
LOOK = 0.01  # seconds between two looks at what is waited for
LOOKS = 10  # at what stays the same, so that it will stay so


def wait_until(what, is_so):
    """Waits until it is so."""
    end = time.monotonic() + WAIT
    while not is_so():
        if time.monotonic() > end:
            raise Failed(f"not within {WAIT} seconds: {what}")
        time.sleep(LOOK)


def list_addresses(process):
    """The addresses of a process's sockets in the system's tables, each with its state."""
    own = set()
    for file in pathlib.Path(f"/proc/{process.pid}/fd").iterdir():
        with contextlib.suppress(FileNotFoundError):  # it was closed meanwhile
            own.add(os.readlink(file))
    bound = []
    for table in ("tcp", "tcp6", "udp", "udp6"):
        with contextlib.suppress(FileNotFoundError):
            lines = pathlib.Path(f"/proc/net/{table}").read_text().splitlines()
            rows = [line.split() for line in lines[1:]]
            bound += [(row[1], row[3]) for row in rows if f"socket:[{row[9]}]" in own]
    return bound


def read_status(day, name):
    """A figure of the process that the system tells: kilobytes."""
    for line in pathlib.Path(f"/proc/{day.process.pid}/status").read_text().splitlines():
        if line.startswith(name):
            return int(line.split()[1])
    raise Failed(f"no {name}")


# ---- the program


class Found(typing.NamedTuple):
    """What a start said of its history: how many chapters and rows it has; none if it is new."""

    chapters: int
    rows: int


class Day:
    """A program that serves; what it said of its history, if it is a station with one, or that it
    keeps nothing, if it is a station without one."""

    def __init__(self, process, port, found=None, is_unkept=False):
        self.process, self.port, self.found = process, port, found or Found(0, 0)
        self.is_unkept = is_unkept

    @property
    def rows(self):
        """How many rows the history had."""
        return self.found.rows

    def connect(self):
        return connect(self.port)

    def ask(self, sent):
        """Sends the octets, says that no more come, and returns all that comes back."""
        with self.connect() as peer:
            sender = threading.Thread(target=send_and_end, args=(peer, sent))
            sender.start()
            got = receive_all(peer)
            sender.join()
            return got

    def report(self, told=""):
        """The report, once the program has ended well, and told this on standard error; with
        None, whatever it told."""
        out, err = self.process.communicate(timeout=WAIT)
        told = err.decode() if told is None else UNKEPT * self.is_unkept + told
        expect("status and standard error", (self.process.returncode, err.decode()), (0, told))
        return out.decode()

    def queues(self, port):
        """How many octets the server hasn't sent to the peer at this port, and how many of it it
        hasn't read; None where it has no such socket."""
        here, there = (f"0100007F:{number:04X}" for number in (self.port, port))
        for line in pathlib.Path("/proc/net/tcp").read_text().splitlines()[1:]:
            _, local, remote, state, queues, *_, inode = line.split()[:10]
            if (local, remote) == (here, there) and inode != "0":
                return tuple(int(octets, 16) for octets in queues.split(":"))
        return None

    def wait_until_read(self, peer):
        """Waits until the server has the connection, and has read all that the peer sent."""
        port = peer.getsockname()[1]
        wait_until("all octets read", lambda: (self.queues(port) or (0, 1))[1] == 0)

    def wait_until_left(self, port):
        """Waits until the server has closed its connection to this port, which comes after its
        till was left."""
        wait_until("the connection closed", lambda: self.queues(port) is None)

    def wait_until_full(self, peer):
        """Waits until no octet goes either way: the server writes in vain, and reads no more."""
        port, looks = peer.getsockname()[1], []

        def look():
            unread = fcntl.ioctl(peer, termios.FIONREAD, b"\0" * 4)
            takes_more = bool(select.select([], [peer], [], 0)[1])
            looks.append((takes_more, unread, self.queues(port)))
            return not takes_more and looks[-LOOKS:] == [looks[-1]] * LOOKS

        wait_until("the buffers full", look)


def read_found(line):
    """What a start says that it found of its history; None where the line says something else."""
    found = re.fullmatch(r"history (?:new|chapters ([1-9]\d*) rows (\d+))\n", line)
    return found and Found(*(int(number or 0) for number in found.groups()))


@contextlib.contextmanager
def start_day(command, rate=0, **how):
    """A program that says where it listens, with a history what it found of it, and is gone after
    the block. A station hears as much of a session as comes; with None, as much as it does where
    nothing is said of that."""
    pipe, found = subprocess.PIPE, None
    if command[1] == "station" and rate is not None:
        command = [*command, "--rate", str(rate)]
    has_history = "--history" in command
    process = subprocess.Popen(command, stdout=pipe, stderr=pipe, bufsize=0, **how)
    try:
        line = process.stdout.readline().decode()
        if has_history:
            found = read_found(line)
            line = process.stdout.readline().decode() if found else line
        is_at_doors = line == DOORS_LINE
        if not is_at_doors and not re.fullmatch(r"listening 127\.0\.0\.1:\d+\n", line):
            raise Failed(
                f"the first line is '{line}', standard error '{process.stderr.read().decode()}'"
            )
        is_unkept = command[1] == "station" and not has_history
        port = None if is_at_doors else int(line.split(":")[1])
        yield Day(process, port, found, is_unkept)
    finally:
        if process.poll() is None:
            process.kill()
        process.communicate()


def send_and_end(peer, sent):
    with contextlib.suppress(OSError):
        peer.sendall(sent)
        peer.shutdown(socket.SHUT_WR)


def send_reset(peer):
    """Closes a connection so that its other end fails."""
    peer.setsockopt(socket.SOL_SOCKET, socket.SO_LINGER, struct.pack("ii", 1, 0))
    peer.close()


def send_until(peer, closing, till=1):
    """Sends a till's reads of a point, as many as are taken, until the connection is to be
    closed."""
    whole = b"".join(read_point(till, n % 32, 3) for n in range(6_000))
    rest = whole
    while not closing.is_set():
        if select.select([], [peer], [], LOOK)[1]:
            rest = rest[peer.send(rest) :] or whole
