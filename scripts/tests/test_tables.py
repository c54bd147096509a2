"""Tables of cases, run by the program site_tables.

It reads a table and prints it with what a site, a desk or a reader of scripts answers (its word:
sites, desk, scripts).

- the rows at a site: the table stdin gives stdout;
- the point table (tables/points.txt): each event in each state, with the state that it leads to,
  the answer, and all that the point keeps; where the table has no line it is refused, and the point
  stays as it was;
- the opening reading of each nozzle of the greatest site: each is lifted with it, and hung up;
- the same rows submitted at a desk, and a desk's own: tables/desk.txt gives tables/desk.out;
- the cases of scripts: tables/scripts.txt gives tables/scripts.out."""

import itertools
import re
import typing

from shared.checks import Failed, expect
from shared.running import CRATES, run
from tests.built import TABLES
from tests.suite import test_each

FOLDER = CRATES / "site_tables"
FILES = FOLDER / "tables"
ROW = re.compile(r"(\d+ )?[td]\d+ |leave ")  # a line that prints a row, or that a till had left
SITE = [
    "rows 100",
    "manager 1",
    "product 1 diesel 1500",
    "product 2 petrol 1799",
    "point 1 1@0 2@1000",
    "",
]
PRICE = 1799  # of what nozzle 2 delivers
# What a point forgets when it comes into state 1 or 3: all but its holder.
FORGOTTEN = {
    "out": "0",
    "ending": "0",
    "test": "0",
    "preset": "Unset",
    "price": "0",
    "volume": "0",
    "prepaid": "0",
}
POINTS, NOZZLES = 64, 8


def print_table(lines, word="sites"):
    """What the program prints for these lines."""
    end = run(TABLES, word, given=("\n".join(lines) + "\n").encode())
    if end.status != 0:
        raise Failed(f"{word}: status {end.status}, {end.err.strip()}")
    return end.out.decode().splitlines()


def read_lines(path):
    return path.read_text().splitlines()


def compare(name, found, wanted):
    """Each line that is found is the one that is wanted, and there are as many."""
    for number, (got, line) in enumerate(itertools.zip_longest(found, wanted), 1):
        expect(f"{name}, line {number}", got, line)


# ---- the point table


class Row(typing.NamedTuple):
    """What is asked, and the answer."""

    event: str
    answer: str


class Case(typing.NamedTuple):
    """An event at a point: the state and the kind of point, the rows that bring it there, what
    it keeps there, the event, and what it keeps afterwards."""

    state: int
    kind: str
    way: list
    before: dict
    row: Row
    after: dict

    def name(self):
        return f"{self.row.event} in state {self.state}, {self.kind}"


def read_sections(path):
    """The table's lines by section, as columns."""
    sections, lines = {}, []
    for text in read_lines(path):
        if text.startswith("["):
            lines = sections.setdefault(text.strip("[]"), [])
        elif text and not text.startswith("#"):
            lines.append([word.strip() for word in text.split("|")])
    return sections


def spread(states, kinds, line):
    """A line for each of its states and kinds of points."""
    return {(int(state), kind): line for state in states.split() for kind in kinds.split()}


def read_view(text):
    """What a point keeps, by name: `out 0, holder 0, ..`."""
    return dict(part.split(" ", 1) for part in text.split(", "))


def change_view(view, text):
    """What a point keeps behind a change: `-`, or `forgets`, a name with its value, a volume
    with its growth."""
    view = dict(view)
    for part in text.split(", ") if text != "-" else ():
        if part == "forgets":
            view.update(FORGOTTEN)
            continue
        name, value = part.split(" ", 1)
        view[name] = str(int(view[name]) + int(value)) if value.startswith("+") else value
    return view


class PointTable:
    """The table as its file has it."""

    def __init__(self, path):
        sections = read_sections(path)
        self.names = {int(state): name for state, name in sections["states"]}
        self.ways, self.keeps, self.events, self.refusals = [], {}, {}, {}
        for states, kinds, event, answer in sections["ways"]:
            self.ways.append((spread(states, kinds, None), Row(event, answer)))
        for states, kinds, view in sections["keeps"]:
            self.keeps.update(spread(states, kinds, read_view(view)))
        for event, kinds, states, answer, change in sections["events"]:
            states, to = states.split("->")
            for point in spread(states, kinds, None):
                assert (event, point) not in self.events, (event, point)
                self.events[event, point] = (int(to), answer, change)
        for state, kind, event, answer in sections["refusals"]:
            self.refusals[event, (int(state), kind)] = answer

    def show(self, state, view):
        """How the program shows a point."""
        return f"show 1: {self.names[state]}, " + ", ".join(
            f"{name} {value}" for name, value in view.items()
        )

    def make_case(self, event, point):
        state, kind = point
        way = [row for points, row in self.ways if point in points]
        before = self.keeps[point]
        to, answer, change = self.events.get(
            (event, point), (state, f"10 WrongState({self.names[state]})", "-")
        )
        answer = self.refusals.get((event, point), answer)
        after = change_view(before, change)
        return Case(
            state, kind, way, self.show(state, before), Row(event, answer), self.show(to, after)
        )

    def make_cases(self):
        """Each event of the table at each point, and what is refused for another cause."""
        events = dict.fromkeys(event for event, _ in [*self.events, *self.refusals])
        known = {event for event, _ in self.events}
        for event in events:
            for point in self.keeps:
                if event in known or (event, point) in self.refusals:
                    yield self.make_case(event, point)


def ask_case(case):
    """The lines that bring a point into its state, and make the event there."""
    way = ["# way", "t1 SignOn", *(row.event for row in case.way), ""]
    return [*SITE, *way, "# case", "show 1", case.row.event, "", "show 1", "sale 1/1", "# end", ""]


def describe_sale(answer, volume):
    """The sale that stands after an answer: only Sold makes one, of a paid fuelling, which its
    till has locked."""
    if not answer.startswith("Sold"):
        return "sale 1/1: none"
    cents = (volume * PRICE + 5000) // 10000
    figures = f"price {PRICE}, volume {volume}, cents {cents}, prepaid 2000"
    return f"sale 1/1: {figures}, locked, till 1, product 2"


def compare_case(case, rows, shown):
    """The rows of the way, the point there, the row, the point and the sale afterwards: what
    differs is printed."""
    before, row, after, sale = shown
    event, answer = row.split(": ", 1)  # a reading that is counted is printed as it is
    metered = int(re.search(r"volume (\d+)", case.before).group(1))
    grown = re.match(r"Sold\{1, (\d+)\}", case.row.answer)
    volume = metered + (int(grown.group(1)) if grown else 0)
    parts = {
        "way": (
            rows, [f"{row.event}: {row.answer}" for row in (Row("t1 SignOn", "Done"), *case.way)]
        ),
        "before": (before, case.before),
        "event": (event.startswith(case.row.event.split("+")[0]), True),
        "answer": (answer, case.row.answer),
        "after": (after, case.after),
        "sale": (sale, describe_sale(case.row.answer, volume)),
    }
    wrong = {name: pair for name, pair in parts.items() if pair[0] != pair[1]}
    got, wanted = ({name: pair[side] for name, pair in wrong.items()} for side in (0, 1))
    expect(case.name(), got, wanted)


@test_each
def point_table():
    """Each case of the point table."""
    cases = list(PointTable(FILES / "points.txt").make_cases())
    lines, found = None, []
    for line in print_table([line for case in cases for line in ask_case(case)]):
        if line == "# way":
            lines = []
        elif line == "# end":
            found.append(lines)
            lines = None
        elif lines is not None and line:
            lines.append(line)
    for case, lines in zip(cases, found, strict=True):
        middle = lines.index("# case")
        compare_case(case, lines[:middle], lines[middle + 1 :])


# ---- the other tables


@test_each
def nozzles_of_the_greatest_site():
    """The opening reading of each nozzle."""
    opening = {(p, n): p * 100 + n for p in range(1, POINTS + 1) for n in range(1, NOZZLES + 1)}
    site = ["rows 100", "product 1 diesel 1500"]
    for p in range(1, POINTS + 1):
        site.append(f"point {p} " + " ".join(f"1@{opening[p, n]}" for n in range(1, NOZZLES + 1)))
    rows = ["t1 SignOn: Done"] + [f"t1 Open {p}: Done" for p in range(1, POINTS + 1)]
    for (p, n), reading in opening.items():
        rows.append(f"d{p} Lift {p} {n}@{reading + 1}: 17 MeterGap({reading})")
        rows.append(f"d{p} Lift {p} {n}@{reading}: Calling")
        rows.append(f"d{p} HangUp {p} {n}@{reading}: HungUp")
    found = print_table([*site, "", *(row.split(": ")[0] for row in rows)])
    compare("nozzles of the greatest site", [line for line in found if line], rows)


@test_each
def rows_at_a_desk():
    """Every row of the sites' table, submitted at a desk."""
    wanted = [line for line in read_lines(FOLDER / "stdout") if ROW.match(line)]
    assert len(wanted) > 1_000
    compare("rows at a desk", print_table(read_lines(FOLDER / "stdin"), "desk"), wanted)


def try_table(name, word, asked, answered):
    compare(name, print_table(read_lines(asked), word), read_lines(answered))


@test_each
def rows_at_a_site():
    """The table stdin gives stdout."""
    try_table("rows at a site", "sites", FOLDER / "stdin", FOLDER / "stdout")


@test_each
def a_desks_table():
    """The table desk.txt gives desk.out."""
    try_table("a desk's table", "desk", FILES / "desk.txt", FILES / "desk.out")


@test_each
def cases_of_scripts():
    """The table scripts.txt gives scripts.out."""
    try_table("cases of scripts", "scripts", FILES / "scripts.txt", FILES / "scripts.out")
