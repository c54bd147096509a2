"""The servers that benchmarks measure: a program, an echo, or Redis where it is installed."""

import contextlib
import os
import pathlib
import re
import resource
import shutil
import subprocess

import scripts_path  # noqa: F401
from shared.running import PATIENCE, run, stop

ONE_PROCESSOR = "--one-processor"
REDIS = shutil.which("redis-server")
REDIS_PORT = 16_379
TICK = os.sysconf("SC_CLK_TCK")


def read_seconds(process):
    """The processor seconds that a process has taken."""
    text = pathlib.Path(f"/proc/{process.pid}/stat").read_text().rsplit(")", 1)[1].split()
    return (int(text[11]) + int(text[12])) / TICK


def set_up(words):
    """Before measuring: more priority, so that less comes between a request and its reply, and as
    many descriptors as may be. With the option there is one processor for this script and all that
    it starts, as with `taskset -c 0`; says so in what is added to a figure's name."""
    with contextlib.suppress(PermissionError):
        os.nice(-15)
    most = resource.getrlimit(resource.RLIMIT_NOFILE)[1]
    resource.setrlimit(resource.RLIMIT_NOFILE, (most, most))
    if ONE_PROCESSOR not in words:
        return ""
    os.sched_setaffinity(0, {min(os.sched_getaffinity(0))})
    return ", one processor"


def redis_command(folder, *words):
    """What starts Redis in a folder, which keeps nothing but what the words say."""
    return [REDIS, "--port", str(REDIS_PORT), "--save", "", "--dir", folder, *words]


class Server:
    """A server that runs: its kind of requests, and its port."""

    def __init__(self, kind, process, port):
        self.kind, self.process, self.port = kind, process, port

    def measure(self, clients, number, requests):
        """Rate, three times in microseconds, and the server's microseconds of processor time."""
        before = read_seconds(self.process)
        end = run(clients, self.kind, str(self.port), str(number), str(requests))
        if end.status != 0:
            stop(f"{self.kind}: {end.err.strip()}")
        spent = (read_seconds(self.process) - before) / requests * 1e6
        return [*map(float, end.out.split()), spent]

    def count(self):
        """The instructions of a server that runs under callgrind, once it has ended."""
        counted = self.process.communicate(timeout=PATIENCE)[1].decode()
        return int(re.search(r"Collected : (\d+)", counted).group(1))


@contextlib.contextmanager
def start(kind, command, errors=subprocess.DEVNULL, **how):
    process = subprocess.Popen(
        command, stdin=subprocess.PIPE, stdout=subprocess.PIPE, stderr=errors, bufsize=0, **how
    )
    try:
        if kind in ("ping", "sets"):
            while b"Ready to accept" not in process.stdout.readline():
                if process.poll() is not None:
                    stop("Redis doesn't start")
            yield Server(kind, process, REDIS_PORT)
        else:
            while b":" not in (line := process.stdout.readline()):
                if not line.startswith(b"history "):
                    stop(f"{kind} doesn't listen: {line}")
            yield Server(kind, process, int(line.rsplit(b":", 1)[1]))
    finally:
        process.kill()
        process.communicate(timeout=PATIENCE)
