"""A day of 32 tills and 64 dispensers at a station, alone or beside a flood (bench/flood.c), and
how long their replies took."""

import contextlib
import subprocess
import time
import typing

from shared.checks import expect
from shared.serving import WAIT
from shared.station import write_site

POINTS = 64
LITRES, CENTS = 2_000, 300  # of each sale: millilitres, and what they cost
BEFORE = 1  # second in which the flood begins before the work does
FLOOD = ("send", "silent")


class Figures(typing.NamedTuple):
    """Of the work: its requests, the microseconds that half and 99 of 100 replies took at most, its
    sales, how often a dispenser came anew, and the milliseconds which that took at most."""

    requests: int
    median: float
    most: float
    sales: int
    arrivals: int
    slowest: float

    def __str__(self):
        return (
            f"{self.requests} replies, half within {self.median:.0f} and 99 of 100 within "
            f"{self.most:.0f} microseconds, {self.sales} sales; a dispenser came anew "
            f"{self.arrivals} times, within {self.slowest:.0f} ms"
        )


def write_flooded_site(folder):
    site = folder / "flooded.toml"
    site.write_text("managers = [1]\n" + write_site(POINTS))
    return site


def work(clients, day, seconds, is_flooded):
    """The figures of so many seconds of work at a station, alone or beside a flood. Where the work
    fails, so does this: a reply wasn't the one that was wanted, or a connection ended."""
    words = lambda kind, more=0: [clients, kind, str(day.port), str(seconds + more)]
    silent = {"stdout": subprocess.DEVNULL}
    with contextlib.ExitStack() as stack:
        floods = [
            stack.enter_context(subprocess.Popen(words(kind, WAIT), **silent))
            for kind in FLOOD
            if is_flooded
        ]
        for flood in floods:
            stack.callback(flood.kill)
        time.sleep(BEFORE if is_flooded else 0)
        end = subprocess.run(words("work"), capture_output=True, text=True, timeout=WAIT + seconds)
        expect("the work's end", (end.returncode, end.stderr), (0, ""))
        expect("the flood lasts", [flood.poll() for flood in floods], [None] * len(floods))
    counts = end.stdout.split()
    return Figures(int(counts[0]), *map(float, counts[1:3]), *map(int, counts[3:5]),
                   float(counts[5]))  # fmt: skip


def expect_right(report, figures):
    """The report of the day says of just the sales of the work, each cleared."""
    lines = report.splitlines()
    volume = figures.sales * LITRES
    expect("clears", lines[1], f"clears {figures.sales} cents {figures.sales * CENTS}")
    expect("volumes", lines[2], f"product 1 diesel metered {volume} running 0 payable 0 locked 0 "
           f"cleared {volume} adjusted 0")  # fmt: skip
