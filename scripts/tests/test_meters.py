"""`meters`: what is counted at each nozzle, and the gaps, which a report for people tells too.

A day that is worked by hand, as a text and as a history of three shifts; and random days against a
count in Python of what their replies say. METERS_DAYS in the environment says how many."""

import csv
import io
import json
import os
import re
import typing

from shared.checks import advised, expect, without_folder
from shared.histories import first_lines, time_line, write_history, write_rows
from shared.running import EXAMPLES, run
from tests.built import PROGRAM
from tests.suite import make_folder, start_chance, test

HERE = make_folder()
SITE = EXAMPLES / "five_points.toml"
DAYS = int(os.environ.get("METERS_DAYS", 1000))
GROWTH = 1_000_000  # millilitres that one report may tell

# Point 1 sells ten litres and tests five. In an outage its pump sells thirty litres that nobody
# meters, so its next readings are refused until a manager notes another meter. Point 2 is still
# fuelling, and its last two readings are refused.
DAY = """
t1 SignOn
t1 Open 1
t1 Open 2
t1 Release 1
d1 Lift 1 1@0
d1 Flow 1 1@4000
d1 HangUp 1 1@10000
t1 TestRelease 1
d1 Lift 1 1@10000
d1 HangUp 1 1@15000
d1 Lift 1 1@45000
d1 Lift 1 1@45500
t1 Close 1
t1 ReplaceMeter 1 1@45500
t1 ReplaceMeter 1 2@400
t1 Open 1
t1 Release 1
d1 Lift 1 1@45500
d1 HangUp 1 1@47500
t1 Release 2
d2 Lift 2 1@0
d2 Flow 2 1@3000
d2 Flow 2 1@2000
d2 Flow 2 1@1003001
""".strip().splitlines()  # fmt: skip
TITLES = (
    "point,nozzle,product,name,opening,closing,metered,sold,drawn,running,replaced,jumps,refused,"
    "highest refused"
)
STILL = [
    "2,2,2,petrol,1000,1000,0,0,0,0,0,0,0,", "3,1,1,diesel,0,0,0,0,0,0,0,0,0,",
    "3,2,2,petrol,1000,1000,0,0,0,0,0,0,0,", "4,1,1,diesel,0,0,0,0,0,0,0,0,0,",
    "4,2,2,petrol,1000,1000,0,0,0,0,0,0,0,", "5,1,1,diesel,0,0,0,0,0,0,0,0,0,",
    "5,2,2,petrol,1000,1000,0,0,0,0,0,0,0,",
]  # fmt: skip
NOZZLES = [
    TITLES,
    "1,1,1,diesel,0,47500,17000,12000,5000,0,1,30500,2,45500",
    "1,2,2,petrol,1000,400,0,0,0,0,1,-600,0,",
    "2,1,1,diesel,0,3000,3000,0,0,3000,0,0,2,1003001",
    *STILL,
]
GAP_TITLES = (
    "gap,row,last row,at,point,nozzle,till,refusal,expected,reported,difference,settled by row"
)
GAPS = [
    GAP_TITLES,
    "replaced,13,,,1,1,1,,15000,45500,30500,",
    "replaced,14,,,1,2,1,,1000,400,-600,",
    "refused,10,11,,1,1,,17,15000,45500,30500,13",
    "refused,22,23,,2,1,,19,3000,1003001,1000001,open",
]


def spell(words):
    """Requests in words, as messages in hexadecimal, one a line."""
    ended = run(PROGRAM, "spell", given="\n".join(words).encode())
    expect("spelled", (ended.status, ended.err), (0, ""))
    return ended.out


def count(given, *words):
    """What `meters` prints on the known site."""
    ended = run(PROGRAM, "meters", SITE, *words, given=given)
    expect("meters", (ended.status, ended.err), (0, ""))
    return ended.out.decode()


def count_folder(folder, *words):
    ended = run(PROGRAM, "meters", folder, *words)
    expect("meters of a history", (ended.status, ended.err), (0, ""))
    return ended.out.decode()


def report_gaps(place, *words, given=None):
    """What `report --human` says of gaps, behind its table of products."""
    ended = run(PROGRAM, "report", place, "--human", *words, given=given)
    expect("a report for people", (ended.status, ended.err), (0, ""))
    head, total, gaps = ended.out.decode().partition("\ntotal")
    expect("its table", (head.splitlines()[0].endswith(" rows"), total), (True, "\ntotal"))
    return gaps.split("\n", 1)[1]


def tell_gaps(lines):
    """The same of the lines of a table of gaps."""
    told = []
    for line in read_rows("\n".join(lines)):
        if line["gap"] == "refused" and line["settled by row"] != "open":
            continue
        first, second, more = (
            f"{'-' if int(line[key]) < 0 else ''}{abs(int(line[key])) // 1000}"
            f".{abs(int(line[key])) % 1000:03}"
            for key in ("expected", "reported", "difference")
        )
        product = {"1": "1 diesel", "2": "2 petrol"}[line["nozzle"]]
        where = f"point {line['point']} nozzle {line['nozzle']}, {product}"
        if line["gap"] == "replaced":
            told.append(f"meter replaced: {where}: the old one read {first}, the new one began at"
                        f" {second}, difference {more} litres\n")  # fmt: skip
        else:
            told.append(f"open gap: {where}: {first} expected, {second} reported, difference"
                        f" {more} litres\n")  # fmt: skip
    return "\n" + "".join(told) if told else ""


def read_rows(text):
    """The lines of a table of comma-separated values, each by its titles."""
    return list(csv.DictReader(io.StringIO(text)))


def number_if(text):
    return int(text) if text else None


# ---- a day worked by hand


@test
def worked_day():
    """The nozzles and the gaps of the day, as comma-separated values."""
    given = spell(DAY)
    expect("nozzles", count(given, "--csv").splitlines(), NOZZLES)
    expect("gaps", count(given, "--gaps", "--csv").splitlines(), GAPS)


@test
def worked_day_as_json():
    """The same as JSON: null for what isn't there. CSV comes before it."""
    given = spell(DAY)
    objects = [json.loads(line) for line in count(given, "--json").splitlines()]
    wanted = [
        {
            key: value if key == "name" else number_if(value)
            for key, value in line.items()
        }
        for line in read_rows("\n".join(NOZZLES))
    ]  # fmt: skip
    expect("nozzles", objects, wanted)
    expect("the first one as it is spelled", count(given, "--json").splitlines()[0],
        '{"closing":47500,"drawn":5000,"highest refused":45500,"jumps":30500,"metered":17000,'
        '"name":"diesel","nozzle":1,"opening":0,"point":1,"product":1,"refused":2,"replaced":1,'
        '"running":0,"sold":12000}')  # fmt: skip
    expect("gaps", count(given, "--gaps", "--json").splitlines(), [
        '{"at":null,"difference":30500,"gap":"replaced","new":45500,"nozzle":1,"old":15000,'
        '"point":1,"row":13,"till":1}',
        '{"at":null,"difference":-600,"gap":"replaced","new":400,"nozzle":2,"old":1000,"point":1,'
        '"row":14,"till":1}',
        '{"at":null,"difference":30500,"expected":15000,"gap":"refused","last row":11,"nozzle":1,'
        '"point":1,"refusal":17,"reported":45500,"row":10,"settled by row":13}',
        '{"at":null,"difference":1000001,"expected":3000,"gap":"refused","last row":23,"nozzle":1,'
        '"point":2,"refusal":19,"reported":1003001,"row":22,"settled by row":null}',
    ])  # fmt: skip
    expect("both", count(given, "--json", "--csv"), count(given, "--csv"))


@test
def worked_day_for_people():
    """The same for people: litres, each column as wide as its longest word."""
    given = spell(DAY)
    lines = count(given).splitlines()
    expect("the first lines", lines[:4], [
        "point  nozzle  product    name  opening  closing  metered    sold  drawn  running"
        "  replaced   jumps  refused   highest",
        "    1       1        1  diesel    0.000   47.500   17.000  12.000  5.000    0.000"
        "         1  30.500        2    45.500",
        "    1       2        2  petrol    1.000    0.400    0.000   0.000  0.000    0.000"
        "         1  -0.600        0         -",
        "    2       1        1  diesel    0.000    3.000    3.000   0.000  0.000    3.000"
        "         0   0.000        2  1003.001",
    ])  # fmt: skip
    expect("lines of one length", {len(line) for line in lines}, {len(lines[0])})
    expect("gaps", count(given, "--gaps").splitlines(), [
        "row 13 point 1 nozzle 1: till 1 replaced the meter, 15.000 to 45.500, 30.500",
        "row 14 point 1 nozzle 2: till 1 replaced the meter, 1.000 to 0.400, -0.600",
        "row 10 point 1 nozzle 1: refused 17 up to row 11, 15.000 to 45.500, 30.500,"
        " settled by row 13",
        "row 22 point 2 nozzle 1: refused 19 up to row 23, 3.000 to 1003.001, 1000.001, open",
    ])  # fmt: skip


@test
def worked_day_reported():
    """A report for people tells each replaced meter and each open gap behind its table."""
    given = spell(DAY)
    expect("gaps", report_gaps(SITE, given=given),
        "\nmeter replaced: point 1 nozzle 1, 1 diesel: the old one read 15.000, the new one began"
        " at 45.500, difference 30.500 litres\n"
        "meter replaced: point 1 nozzle 2, 2 petrol: the old one read 1.000, the new one began at"
        " 0.400, difference -0.600 litres\n"
        "open gap: point 2 nozzle 1, 1 diesel: 3.000 expected, 1003.001 reported, difference"
        " 1000.001 litres\n")  # fmt: skip
    expect("as in the table", report_gaps(SITE, given=given), tell_gaps(GAPS))
    expect("none", report_gaps(SITE, given=spell(DAY[:10])), "")


@test
def no_rows():
    """Without rows each nozzle stands at its opening, and there is no gap."""
    expect("nozzles", count(b"", "--csv").splitlines(), [
        TITLES, "1,1,1,diesel,0,0,0,0,0,0,0,0,0,", "1,2,2,petrol,1000,1000,0,0,0,0,0,0,0,",
        "2,1,1,diesel,0,0,0,0,0,0,0,0,0,", *STILL,
    ])  # fmt: skip
    expect("gaps", count(b"", "--gaps"), "")


@test
def faults():
    """A text's fault comes after its table; a shift is for a history; another site's text has no
    table."""
    given = spell(DAY)
    ended = run(PROGRAM, "meters", SITE, "--csv", given=given + b"zz\n")
    expect("the table", ended.out.decode().splitlines(), NOZZLES)
    expect("the fault", (ended.status, ended.err), (1, advised("line 25: not hexadecimal") + "\n"))
    ended = run(PROGRAM, "meters", SITE, "--shift", "1", given=given)
    expect("a shift of a text", (ended.status, ended.out), (2, b""))
    expect("why", ended.err, without_folder("--shift") + "\n")
    first = f"# witsomar journal of site {'12' * 32}\n".encode()
    ended = run(PROGRAM, "meters", SITE, given=first + given)
    expect("another site", (ended.status, ended.out), (1, b""))
    why = "journal of another site\ngive the site file on which its rows were made\n"
    expect("that it is another's", ended.err, why)


# ---- a history


def history_of(name, *shifts):
    """A history whose shifts have these requests in words: each ends with its CloseShift, but for
    the last one. The rows of a shift have a time of their own."""
    text = first_lines(SITE)
    for number, words in enumerate(shifts, 1):
        is_closed = number < len(shifts)
        requests = spell([*words, "t1 CloseShift"] if is_closed else words).split()
        text += time_line(f"2026-11-27T0{number}:00:00.000Z")
        text += write_rows(*(bytes.fromhex(one.decode()) for one in requests))
    return write_history(HERE / name, SITE, text)


@test
def worked_history():
    """The day as three shifts. A shift begins at the readings of its first row; what is in a
    fuelling then is sold in the shift in which it ends. Rows are counted over the whole history."""
    last = [*DAY[22:], "d2 HangUp 2 1@3500"]
    folder = history_of("worked", DAY[:15], DAY[15:22], last)
    expect("all shifts", count_folder(folder, "--csv").splitlines(), [
        *NOZZLES[:3], "2,1,1,diesel,0,3500,3500,3500,0,0,0,0,2,1003001", *STILL,
    ])  # fmt: skip
    expect("shift 1", count_folder(folder, "--csv", "--shift", "1").splitlines()[:4], [
        TITLES, "1,1,1,diesel,0,45500,15000,10000,5000,0,1,30500,2,45500",
        "1,2,2,petrol,1000,400,0,0,0,0,1,-600,0,", "2,1,1,diesel,0,0,0,0,0,0,0,0,0,",
    ])  # fmt: skip
    expect("shift 2", count_folder(folder, "--csv", "--shift", "2").splitlines()[:4], [
        TITLES, "1,1,1,diesel,45500,47500,2000,2000,0,0,0,0,0,",
        "1,2,2,petrol,400,400,0,0,0,0,0,0,0,", "2,1,1,diesel,0,3000,3000,0,0,3000,0,0,0,",
    ])  # fmt: skip
    expect("shift 3", count_folder(folder, "--csv", "--shift", "3").splitlines()[:4], [
        TITLES, "1,1,1,diesel,47500,47500,0,0,0,0,0,0,0,",
        "1,2,2,petrol,400,400,0,0,0,0,0,0,0,",
        "2,1,1,diesel,3000,3500,500,3500,0,0,0,0,2,1003001",
    ])  # fmt: skip
    expect("shifts 2 and 3", count_folder(folder, "--csv", "--shift", "2..3").splitlines()[1],
        "1,1,1,diesel,45500,47500,2000,2000,0,0,0,0,0,")  # fmt: skip
    replaced = "replaced,13,,2026-11-27T01:00:00.000Z,1,1,1,,15000,45500,30500,"
    petrol = "replaced,14,,2026-11-27T01:00:00.000Z,1,2,1,,1000,400,-600,"
    settled = "refused,10,11,2026-11-27T01:00:00.000Z,1,1,,17,15000,45500,30500,13"
    ended = "refused,24,25,2026-11-27T03:00:00.000Z,2,1,,19,3000,1003001,1000001,26"
    gaps = count_folder(folder, "--gaps", "--csv").splitlines()
    expect("gaps", gaps, [GAP_TITLES, replaced, petrol, settled, ended])
    gaps = count_folder(folder, "--gaps", "--csv", "--shift", "1").splitlines()
    expect("gaps of shift 1", gaps, [GAP_TITLES, replaced, petrol, settled])
    gaps = count_folder(folder, "--gaps", "--csv", "--shift", "2").splitlines()
    expect("gaps of shift 2", gaps, [GAP_TITLES])
    gaps = count_folder(folder, "--gaps", "--csv", "--shift", "3").splitlines()
    expect("gaps of shift 3", gaps, [GAP_TITLES, ended])
    for shifts in ("1", "2", "3", "1..2", "2..3", "1..3"):
        lines = count_folder(folder, "--gaps", "--csv", "--shift", shifts).splitlines()
        expect(f"report of {shifts}", report_gaps(folder, "--shift", shifts), tell_gaps(lines))
    expect("report", report_gaps(folder), tell_gaps([GAP_TITLES, replaced, petrol, settled, ended]))
    folder = history_of("open", DAY[:12], DAY[12:15], DAY[15:])
    for shifts, found in (("1", GAPS[3:4]), ("2", GAPS[1:3]), ("3", GAPS[4:])):
        lines = [GAP_TITLES, *found]
        if shifts == "1":
            lines[1] = lines[1].removesuffix("13") + "open"
        told = report_gaps(folder, "--shift", shifts)
        expect(f"an open gap of {shifts}", told, tell_gaps(lines))
    expect("and of all", report_gaps(folder), tell_gaps(GAPS))
    folder = HERE / "worked"
    ended = run(PROGRAM, "meters", folder, "--shift", "4")
    expect("a shift to come", (ended.status, ended.out), (1, b""))
    expect("why", ended.err, "shift 4 isn't there: shift 3 is open\n")


# ---- random days


class Nozzle:
    """What is counted at a nozzle, by the replies to its rows."""

    def __init__(self, product, reading):
        self.product, self.opening, self.reading = product, reading, reading
        self.metered = self.sold = self.drawn = self.running = 0
        self.replaced = self.jumps = self.refused = 0
        self.highest, self.run = None, None

    def line(self, point, number):
        name = {1: "diesel", 2: "petrol"}[self.product]
        figures = (
            self.opening, self.reading, self.metered, self.sold, self.drawn, self.running,
            self.replaced, self.jumps, self.refused,
        )  # fmt: skip
        highest = "" if self.highest is None else self.highest
        return ",".join(map(str, (point, number, self.product, name, *figures, highest)))


class Run(typing.NamedTuple):
    """Refused readings of a nozzle, one after another."""

    first: int
    last: int
    point: int
    nozzle: int
    refusal: int
    expected: int
    reported: int

    def line(self, settled):
        return (
            f"refused,{self.first},{self.last},,{self.point},{self.nozzle},,{self.refusal},"
            f"{self.expected},{self.reported},{self.reported - self.expected},{settled}"
        )


METER = re.compile(r"(Lift|Flow|HangUp|ReplaceMeter) (\d+) (\d+)@(\d+)")
REPLY = re.compile(r"to \w+, token \d+: (?:(\d+) )?(\w+)")


class Counted:
    """Counts the rows of a day, each by its words and the reply to it."""

    def __init__(self):
        self.nozzles = {
            (p, n): Nozzle(n, reading) for p in range(1, 6) for n, reading in ((1, 0), (2, 1000))
        }
        self.out = {}  # the nozzle that is out at a point
        self.replaced, self.settled, self.open = [], [], []

    def read(self, row, words, reply):
        refusal, answer = REPLY.match(reply).groups()
        if told := METER.fullmatch(words.split(" ", 1)[1]):
            kind, *numbers = told.groups()
            self.read_meter(row, words, kind, *map(int, numbers), refusal, answer)
        elif not refusal and answer in ("Sold", "Drawn"):
            # An Offline ends a fuelling, which reads no meter.
            self.end(int(words.split()[2]), answer)

    def read_meter(self, row, words, kind, p, n, reading, refusal, answer):
        x = self.nozzles.get((p, n))
        if refusal in ("17", "18", "19"):
            x.refused += 1
            x.highest = max(x.highest or 0, reading)
            first = x.run.first if x.run else row
            run = Run(first, row, p, n, int(refusal), x.reading, reading)
            if x.run:
                self.open[self.open.index(x.run)] = run
            else:
                self.open.append(run)
            x.run = run
        if refusal:
            return
        if x.run:
            self.settled.append(x.run.line(row))
            self.open.remove(x.run)
            x.run = None
        if kind == "ReplaceMeter":
            till = words[1 : words.index(" ")]
            self.replaced.append(
                f"replaced,{row},,,{p},{n},{till},,{x.reading},{reading},{reading - x.reading},"
            )
            x.replaced += 1
            x.jumps += reading - x.reading
        else:
            x.metered += reading - x.reading
            x.running += reading - x.reading
        x.reading = reading
        if kind == "Lift":
            self.out[p] = n
        if answer in ("Sold", "Drawn"):
            self.end(p, answer)

    def end(self, p, answer):
        x = self.nozzles[p, self.out.pop(p)]
        if answer == "Sold":
            x.sold += x.running
        else:
            x.drawn += x.running
        x.running = 0


class RandomDay:
    """Requests of tills 1 and 2 and of the dispensers of points 1 and 2, of which most are
    accepted: it knows, about, what each meter reads."""

    def __init__(self, chance):
        self.chance = chance
        self.readings = {(p, n): (0, 1000)[n - 1] for p in (1, 2) for n in (1, 2)}
        self.words = ["t1 SignOn", "t2 SignOn", "t1 Open 1", "t1 Open 2"]
        for _ in range(chance.randint(5, 60)):
            self.add(chance.choice((1, 2)), chance.choice((1, 1, 2)))

    def add(self, p, n):
        kinds = "sell sell sell test release lift flow hang replace offline terminate clear close"
        kind = self.chance.choice(kinds.split())
        if kind in ("sell", "test"):
            self.words.append(f"t1 {'Release' if kind == 'sell' else 'TestRelease'} {p}")
            self.report("Lift", p, n, 0)
            self.report("Flow", p, n, self.chance.choice((0, 500, GROWTH, GROWTH + 1)))
            self.report("HangUp", p, n, self.chance.choice((0, 0, 700, 2000)))
        elif kind == "release":
            self.words.append(f"t1 Release {p}")
            self.report("Lift", p, n, 0)
        elif kind == "lift":
            self.report("Lift", p, n, self.chance.choice((0, 0, 30_000, -1)))
        elif kind == "flow":
            self.report("Flow", p, n, self.chance.choice((1, 500, GROWTH, GROWTH + 1, -1)))
        elif kind == "hang":
            self.report("HangUp", p, n, self.chance.choice((0, 800, -1)))
        elif kind == "replace":
            self.words.append(f"t1 Close {p}")
            reading = max(0, self.readings[p, n] + self.chance.choice((0, 30_000, -400)))
            self.words.append(f"t{self.chance.choice((1, 1, 1, 2))} ReplaceMeter {p} {n}@{reading}")
            self.readings[p, n] = reading
            self.words.append(f"t1 Open {p}")
        else:
            self.words += {
                "offline": [f"d{p} Offline {p}", f"d{p} Online {p}", f"t1 Open {p}"],
                "terminate": [f"t1 Terminate {p}"],
                "clear": [f"t1 {word} {p}/{k}" for k in range(1, 9) for word in ("Lock", "Clear")],
                "close": ["t1 CloseShift"],
            }[kind]

    def report(self, kind, p, n, growth):
        reading = max(0, self.readings[p, n] + growth)
        self.words.append(f"d{p} {kind} {p} {n}@{reading}")
        if kind != "Lift" and 0 <= growth <= GROWTH:
            self.readings[p, n] = reading


def read_replies(given):
    replayed = run(PROGRAM, "replay", SITE, given=given)
    told = run(PROGRAM, "explain", given=replayed.out)
    expect("replies", (replayed.status, told.status), (0, 0))
    return told.out.decode().splitlines()


@test
def random_days(seed):
    """What `meters` prints of random days is what their replies say, row by row."""
    chance = start_chance(seed, "meters")
    counts = dict.fromkeys("sold drawn replaced settled open running".split(), 0)
    for number in range(DAYS):
        day = RandomDay(chance)
        given = spell(day.words)
        counted = Counted()
        for row, (words, reply) in enumerate(zip(day.words, read_replies(given), strict=True)):
            counted.read(row, words, reply)
        lines = [x.line(*name) for name, x in counted.nozzles.items()]
        expect(f"day {number}: nozzles", count(given, "--csv").splitlines(), [TITLES, *lines])
        gaps = [*counted.replaced, *counted.settled, *(run.line("open") for run in counted.open)]
        shown = count(given, "--gaps", "--csv").splitlines()
        expect(f"day {number}: gaps", shown, [GAP_TITLES, *gaps])
        told = report_gaps(SITE, given=given)
        expect(f"day {number}: the report", told, tell_gaps([GAP_TITLES, *gaps]))
        for x in counted.nozzles.values():
            expect(f"day {number}: readings", x.reading - x.opening, x.metered + x.jumps)
            expect(f"day {number}: volumes", x.metered, x.sold + x.drawn + x.running)
            for figure in ("sold", "drawn", "replaced", "running"):
                counts[figure] += getattr(x, figure) > 0
        counts["settled"] += len(counted.settled)
        counts["open"] += len(counted.open)
    expect("kinds that never came", [key for key, times in counts.items() if not times], [])
