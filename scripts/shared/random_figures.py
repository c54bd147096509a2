"""Days at random whose figures have all lengths, and what the program prints of them for people."""

import itertools
import json
import re
import typing

from shared.histories import first_lines, write_history
from shared.running import run
from shared.station import (
    CLEAR, FLOW, HANG_UP, LIFT, LOCK, OPEN, RELEASE, TEST_RELEASE, command_point, command_sale,
    report, sign_on,
)  # fmt: skip

PRODUCTS, POINTS = 8, 64
PARTS = ("running", "payable", "locked", "cleared", "adjusted")
COLUMNS = ("metered", *PARTS)
LONGEST = 6  # digits of the millilitres that one report tells


class Figures(typing.NamedTuple):
    """Figures, and as which texts the program prints them, in the same order."""

    values: list
    texts: list


def join(many):
    """Many figures as one."""
    chain = itertools.chain.from_iterable
    return Figures(list(chain(one.values for one in many)), list(chain(one.texts for one in many)))


def draw_site(chance):
    """A site file of eight products, at prices of all lengths, and of all points, whose nozzles
    begin at 0."""
    lines = ["managers = [1]"]
    for number in range(1, PRODUCTS + 1):
        price = min(99_999, int(10 ** chance.uniform(0, 5)))
        lines += ["[[product]]", f"number = {number}", f'name = "p{number}"', f"price = {price}"]
    for number in range(1, POINTS + 1):
        product = 1 + number % PRODUCTS
        lines += ["[[point]]", f"number = {number}",
                  f"nozzles = [{{product = {product}, reading = 0}}]"]  # fmt: skip
    return "\n".join(lines) + "\n"


def draw_fuelling(chance, point, reading, release, ends):
    """The requests of a fuelling that begins at this reading of the meter, and the reading at its
    end."""
    rows = [command_point(1, 0, point, release), report(point, 0, LIFT, reading)]
    for _ in range(chance.randint(1, 3)):
        reading += int(10 ** chance.uniform(0, LONGEST))
        rows.append(report(point, 0, FLOW, reading))
    return [*rows, report(point, 0, HANG_UP, reading)] if ends else rows, reading


def draw_day(chance):
    """The requests of a day in which each product has litres in each part."""
    rows = [sign_on(1)]
    for place, part in enumerate(PARTS):
        for point in range(1 + place * PRODUCTS, 1 + (place + 1) * PRODUCTS):
            release = TEST_RELEASE if part == "adjusted" else RELEASE
            asked, _ = draw_fuelling(chance, point, 0, release, part != "running")
            rows += [command_point(1, 0, point, OPEN), *asked]
            rows += [command_sale(1, 0, point, 1, LOCK)] if part in ("locked", "cleared") else []
            rows += [command_sale(1, 0, point, 1, CLEAR)] if part == "cleared" else []
    return rows


def draw_unpaid(chance):
    """The requests of a day in which each point has two unpaid sales."""
    rows = [sign_on(1)]
    for point in range(1, POINTS + 1):
        first, reading = draw_fuelling(chance, point, 0, RELEASE, True)
        second, _ = draw_fuelling(chance, point, reading, RELEASE, True)
        rows += [command_point(1, 0, point, OPEN), *first, *second]
    return rows


def write_text(rows):
    return b"".join(row.hex().encode() + b"\n" for row in rows)


def print_report(program, site, rows):
    """The figures of `report` with and without `--human`: litres, those of all products too, and
    money."""
    text = write_text(rows)
    told = json.loads(run(program, "report", site, "--json", given=text).out)
    printed = run(program, "report", site, "--human", given=text).out.decode()
    volumes = [[one[column] for column in COLUMNS] for one in told["products"]]
    volumes.append([sum(column) for column in zip(*volumes)])
    texts = [line.split()[-len(COLUMNS) :] for line in printed.splitlines()[4:]]
    litres = Figures(sum(volumes, []), sum(texts, []))
    cents = sum(till["cents"] for till in told["tills"])
    return litres, Figures([cents], [printed.splitlines()[1].split()[-1]])


def print_obstacles(program, site, rows, folder):
    """What `next` prints of each unpaid sale for people, and the cents that `sales` has of it."""
    write_history(folder, site, first_lines(site) + write_text(rows))
    lines = run(program, "sales", folder, "--json").out.decode().splitlines()
    cents = {(one["point"], one["number"]): one["cents"] for one in map(json.loads, lines)}
    printed = run(program, "next", folder).err
    found = re.findall(r"^point (\d+): sale (\d+) of shift 1 is unpaid: (.*)$", printed, re.M)
    return Figures([cents[int(point), int(number)] for point, number, _ in found],
                   [text for *_, text in found])  # fmt: skip
