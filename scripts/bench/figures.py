"""The figures of benchmarks, each beside its yardstick, and the one table of them."""

import json
import math
import os
import pathlib
import typing

import scripts_path  # noqa: F401
from shared.running import stop

FILE = "BENCH_FIGURES"  # names the file to which a script that `all` runs writes its figures
HEAD = ("figure", "got", "beside it", "ratio", "meant", "verdict")


def at_least(number):
    return ("at least", number)


def at_most(number):
    return ("at most", number)


class Figure(typing.NamedTuple):
    """What was got; None if it failed. The yardstick is a name and its figure, None if it isn't
    here. The limit is one of the ratio to the yardstick, or without one of the figure itself. A
    figure fails where it misses its limit by more than this part: a tenth where the limit is what
    is meant, nothing where it's what just passes."""

    name: str
    got: float | None
    yardstick: tuple | None = None
    limit: tuple | None = None
    slack: float = 0.1

    @property
    def ratio(self):
        """Of the figure to its yardstick; None if there is no such."""
        beside = self.yardstick and self.yardstick[1]
        return self.got / beside if beside and self.got is not None else None

    @property
    def missed(self):
        """The part by which the limit is missed, 0 if it isn't; None if the figure isn't judged."""
        judged = self.ratio if self.yardstick else self.got
        if self.limit is None or judged is None:
            return None
        word, number = self.limit
        return max(0, 1 - judged / number if word == "at least" else judged / number - 1)

    @property
    def fails(self):
        return self.got is None or (self.missed or 0) > self.slack

    @property
    def verdict(self):
        if self.got is None:
            return "failed"
        if self.missed is None:
            return "not judged"
        if not self.missed:
            return "ok"
        return f"missed by {math.ceil(self.missed * 100)} %" + ", fails" * self.fails

    def cells(self):
        """The figure as a line of the table."""
        name, beside = self.yardstick or ("", None)
        missing = f"{name} isn't here" if name else ""
        return (
            self.name,
            write_number(self.got),
            f"{name} {write_number(beside)}" if beside is not None else missing,
            write_number(self.ratio),
            f"{self.limit[0]} {self.limit[1]:,}" if self.limit else "",
            self.verdict,
        )


def write_count(number, what):
    """`1 client`, `1,000 clients`."""
    return f"{number:,} {what}{'s' * (number != 1)}"


def write_number(number):
    if number is None:
        return ""
    return f"{number:,.0f}" if number >= 100 else f"{number:.3f}"


def print_table(figures):
    rows = [HEAD, *(figure.cells() for figure in figures)]
    widths = [max(map(len, column)) for column in zip(*rows)]
    for row in rows:
        cells = zip(row, widths, ("<", ">", "<", ">", "<", "<"))
        print("  ".join(f"{cell:{side}{width}}" for cell, width, side in cells).rstrip())


def judge(figures):
    """Ends the script with status 1 if a figure fails."""
    if failed := sum(figure.fails for figure in figures):
        stop(f"{failed} of {len(figures)} figures fail")


def hand_on(figures):
    """Ends a script of this folder: its figures go to `all`, or if it runs by itself to a table
    that is judged."""
    if path := os.environ.get(FILE):
        pathlib.Path(path).write_text(json.dumps(figures))
    else:
        print_table(figures)
        judge(figures)


def read_handed(path):
    """What a script has handed on; nothing if it ended before that."""
    text = path.read_text() if path.exists() else "[]"
    return [Figure(*fields) for fields in json.loads(text)]
