"""The commands that read a station's history: `shifts` and `next`.

Their figures are compared with sums over what was sold, and a second history is opened with the
site file that `next` prints."""

import json
import shutil
import subprocess
import tomllib

from shared.checks import NO_FILE, NOT_PRINTED, advised, expect, no_history
from shared.histories import (
    LOCK_FILE, SITE_FILE, list_chapters, time_line, whole_lines, write_chapters, write_history,
    write_rows,
)  # fmt: skip
from shared.running import run
from shared.serving import start_day
from shared.station import (
    CLEAR, FLOW, HANG_UP, KNOWN_SITE, LIFT, LOCK, OPEN, RELEASE, SUSPEND, TERMINATE, TEST_RELEASE,
    WRITE, ask, command_point, command_sale, read_site, report, sign_off, sign_on,
)  # fmt: skip
from tests.built import PROGRAM
from tests.shifts_worked import CLOSE_IT, Work, cents_of, work_at
from tests.suite import make_folder, test

HERE = make_folder()
PRODUCTS = (1, 2)
PETROL_PRICE = 1_799  # mills of a litre
PRICE_ITEM_OF = 0x90  # sets a price


def new_folder(name):
    """The name of a folder that isn't there."""
    shutil.rmtree(HERE / name, ignore_errors=True)
    return HERE / name


def start_station(folder, site=KNOWN_SITE, *words):
    command = [PROGRAM, "station", site, "--port", 0, "--history", folder, *words]
    return start_day([*map(str, command)], stdin=subprocess.PIPE)


def end(day):
    day.process.stdin.close()
    day.process.stdin = None
    return day.report()


def run_on(word, folder, *words):
    """The output of a command that reads a history, which ends well."""
    ended = run(PROGRAM, word, folder, *words)
    expect(f"{word}", (ended.status, ended.err), (0, ""))
    return ended.out.decode()


class Figures:
    """The figures of a shift: of each till how many sales it cleared and for how much, and of each
    product the millilitres that were cleared, their cents, and the millilitres drawn."""

    def __init__(self):
        self.tills = {}
        self.cleared, self.cents, self.drawn = (dict.fromkeys(PRODUCTS, 0) for _ in range(3))

    def add(self, till, product, millilitres, cents):
        clears, sum_ = self.tills.get(till, (0, 0))
        self.tills[till] = clears + 1, sum_ + cents
        self.cleared[product] += millilitres
        self.cents[product] += cents

    @property
    def sums(self):
        return tuple(map(sum, zip(*self.tills.values()))) if self.tills else (0, 0)

    def line(self, number, times):
        clears, cents = self.sums
        opened, closed = (time or "-" for time in times)
        products = "".join(
            f" product {q} cleared {self.cleared[q]} drawn {self.drawn[q]}" for q in PRODUCTS
        )
        return (
            f"shift {number} opened {opened} closed {closed} clears {clears} cents {cents}"
            f"{products}\n"
        )

    def data(self, number, is_open, times):
        clears, cents = self.sums
        opened, closed = times
        return {
            "shift": number, "open": is_open, "opened": opened, "closed": closed,
            "clears": clears, "cents": cents,
            "products": [
                {"number": q, "cleared": self.cleared[q], "cents": self.cents[q],
                 "drawn": self.drawn[q]} for q in PRODUCTS
            ],
            "tills": [
                {"number": till, "clears": count, "cents": sum_}
                for till, (count, sum_) in sorted(self.tills.items())
            ],
        }  # fmt: skip


def find_times(folder):
    """Of each shift the time of its first row, and that of the CloseShift of till 1, by the lines
    of the chapters. A time never falls."""
    time, times, is_new = None, [(None, None)], True
    for path in list_chapters(folder):
        for line in whole_lines(path.read_bytes()).splitlines(keepends=True):
            if line.startswith(b"# at "):
                time = max(time or "", line[5:-1].decode())
            if line.startswith(b"#"):
                continue
            if is_new:
                times[-1] = (time, None)
            is_new = line == write_rows(CLOSE_IT)
            if is_new:
                times[-1] = (times[-1][0], time)
                times.append((None, None))
    return times


def expect_shifts(what, folder, figures, times=None):
    """`shifts` prints these figures and times, as text and as JSON."""
    times = times or find_times(folder)
    expect(f"{what}: shifts", len(times), len(figures))
    shifts = list(enumerate(zip(figures, times), 1))
    lines = [one.line(number, at) for number, (one, at) in shifts]
    expect(f"{what}: text", run_on("shifts", folder), "".join(lines))
    told = run_on("shifts", folder, "--json")
    wanted = [one.data(number, number == len(figures), at) for number, (one, at) in shifts]
    expect(f"{what}: JSON", [json.loads(line) for line in told.splitlines()], wanted)
    compact = [json.dumps(one, sort_keys=True, separators=(",", ":")) for one in wanted]
    expect(f"{what}: the lines of JSON", told.splitlines(), compact)


def draw(work, millilitres):
    """A test at point 1: so much diesel is drawn."""
    work.do(work.till, command_point(1, 0, 1, TEST_RELEASE))
    work.lift()
    work.reading += millilitres
    work.do(work.pump, report(1, 0, HANG_UP, work.reading))


def collect_by(work, till, number):
    """Another till signs on, clears this sale of point 1 in the open shift, and signs off."""
    sale = [command_sale(till, 0, 1, number, one) for one in (LOCK, CLEAR)]
    return [sign_on(till), *sale, sign_off(till)]


@test
def shifts_of_a_history():
    """What was cleared and drawn in each shift, as text and as JSON: while the station runs, after
    its day, and after a start."""
    folder, figures = new_folder("shifts"), [Figures()]
    with start_station(folder) as day, work_at(day) as work, day.connect() as other:
        work.come()
        for shift in range(1, 5):
            for number in range(1, shift + 1):
                volume = 1_000 * shift + 137 * number
                if number % 2:
                    work.sell(number, volume)
                    till = 1
                else:
                    work.fuel(volume)
                    work.do(other, *collect_by(work, 2, number))
                    till = 2
                figures[-1].add(till, 1, volume, cents_of(volume))
            draw(work, 2_000 + shift)
            figures[-1].drawn[1] += 2_000 + shift
            expect_shifts(f"within shift {shift}", folder, figures)
            work.close_shift()
            figures.append(Figures())
            # The reply to a read comes in a later round than the close's.
            work.ask(work.till, read_site(1, 0))
            expect_shifts(f"after shift {shift}", folder, figures)
        work.fuel(5_000)
        expect_shifts("a sale that isn't collected", folder, figures)
        end(day)
    before = {path.name: path.read_bytes() for path in folder.iterdir()}
    expect_shifts("after the day", folder, figures)
    after = {path.name: path.read_bytes() for path in folder.iterdir()}
    expect("nothing is changed", after, before)
    with start_station(folder) as day:
        expect_shifts("while another day runs", folder, figures)
        end(day)
    (folder / LOCK_FILE).unlink()
    expect_shifts("without the lock's file", folder, figures)


@test
def yesterdays_sales():
    """A sale that is collected in a later shift counts there, at the price at which it was sold."""
    folder = new_folder("yesterday")
    with start_station(folder) as day, work_at(day) as work:
        work.come()
        work.fuel(3_333)
        work.close_shift()
        price = (2_000).to_bytes(4, "big")
        named = bytes.fromhex("21 22 0001 0001")
        work.do(work.till, ask(1, WRITE, 0, b"\x81", (PRICE_ITEM_OF, price)))
        work.do(work.till, *(ask(1, WRITE, 0, named, (one, b"")) for one in (LOCK, CLEAR)))
        work.sell(1, 1_000)
        end(day)
    first, second = Figures(), Figures()
    second.add(1, 1, 3_333, cents_of(3_333))
    second.add(1, 1, 1_000, cents_of(1_000, 2_000))
    expect_shifts("two shifts", folder, [first, second])


def fuel_petrol(work, pump, begin, end):
    """A fuelling of petrol at point 2, from one reading to another, which is then a sale."""
    work.do(work.till, command_point(1, 0, 2, RELEASE))
    steps = (LIFT, begin), (FLOW, end), (HANG_UP, end)
    work.do(pump, *(report(2, 0, step, reading, nozzle=2) for step, reading in steps))


@test
def money_by_product():
    """The cents of a product in a shift are those of its sales that were cleared in it: of two
    products whose prices differ, by two tills, a sale of yesterday, and one that isn't cleared."""
    folder, first, second = new_folder("money"), Figures(), Figures()
    with (
        start_station(folder) as day, work_at(day) as work, day.connect() as other,
        day.connect() as pump,
    ):  # fmt: skip
        work.come()
        work.do(work.till, command_point(1, 0, 2, OPEN))
        work.sell(1, 7_777)
        first.add(1, 1, 7_777, cents_of(7_777))
        fuel_petrol(work, pump, 1_000, 4_321)
        work.do(work.till, *(command_sale(1, 0, 2, 1, one) for one in (LOCK, CLEAR)))
        first.add(1, 2, 3_321, cents_of(3_321, PETROL_PRICE))
        fuel_petrol(work, pump, 4_321, 5_000)
        work.fuel(2_222)
        work.do(other, *collect_by(work, 2, 2))
        first.add(2, 1, 2_222, cents_of(2_222))
        expect_shifts("two products", folder, [first])
        work.close_shift()
        named = bytes.fromhex("22 22 0001 0002")
        work.do(work.till, *(ask(1, WRITE, 0, named, (one, b"")) for one in (LOCK, CLEAR)))
        second.add(1, 2, 679, cents_of(679, PETROL_PRICE))
        fuel_petrol(work, pump, 5_000, 9_000)
        expect_shifts("a sale of yesterday", folder, [first, second])
        end(day)
    expect_shifts("after the day", folder, [first, second])


@test
def times_of_shifts():
    """When each shift was opened and closed: the times of its first row and of its accepted
    CloseShift."""
    early, later, last = (f"2026-11-27T0{hour}:00:00.001Z" for hour in (6, 7, 8))
    come, close = write_rows(sign_on(1)), write_rows(CLOSE_IT)
    refused = write_rows(command_point(1, 0, 9, OPEN), sign_on(1))
    for what, bodies, times in (
        ("no times", [come + close, close], [(None, None)] * 3),
        ("a time", [time_line(early) + come + close, close],
         [(early, early), (early, early), (None, None)]),
        ("a time within", [come + time_line(early) + close, time_line(later) + close],
         [(None, early), (later, later), (None, None)]),
        ("an open shift", [time_line(early) + come + time_line(later) + close,
                           time_line(last) + refused + time_line(later) + refused],
         [(early, later), (last, None)]),
        ("a close that is refused", [close + time_line(early) + come + time_line(later) + close],
         [(None, later), (None, None)]),
        ("one chapter", [time_line(early) + come + close + time_line(later) + close
                         + time_line(last) + refused],
         [(early, early), (later, later), (last, None)]),
    ):  # fmt: skip
        texts = write_chapters(KNOWN_SITE, *bodies)
        folder = write_history(HERE / "times", KNOWN_SITE, *texts)
        expect_shifts(what, folder, [Figures() for _ in times], times)


@test
def empty_histories():
    """A folder without chapters is an empty history: one shift, and the opening site goes on. A
    torn last line is left out."""
    folder = write_history(HERE / "empty", KNOWN_SITE)
    expect_shifts("no chapter", folder, [Figures()])
    expect("its next site", tomllib.loads(run_on("next", folder)), read_whole(KNOWN_SITE))
    body = write_rows(sign_on(1), CLOSE_IT)
    whole = write_chapters(KNOWN_SITE, body, write_rows(CLOSE_IT))
    folder = write_history(HERE / "torn", KNOWN_SITE, whole[0], whole[1][:-1])
    expect_shifts("a torn last line", folder, [Figures(), Figures()])


@test
def no_histories():
    """What is no history's folder."""
    file = HERE / "file"
    file.write_bytes(b"x")
    nothing = HERE / "nothing"
    nothing.mkdir()
    faulty = write_history(HERE / "faulty", KNOWN_SITE)
    (faulty / SITE_FILE).write_bytes(b"")
    for word in ("shifts", "next"):
        for folder, fault in (
            (HERE / "none", no_history(HERE / "none", NO_FILE) + "\n"),
            (file, no_history(file, "Not a directory") + "\n"),
            (nothing, no_history(nothing, NO_FILE) + "\n"),
            (faulty, advised("site.toml: fault 72 product", faulty) + "\n"),
        ):
            ended = run(PROGRAM, word, folder)
            got = (ended.status, ended.out, ended.err)
            expect(f"{word} {folder.name}", got, (1, b"", fault))
        for words in ([], [file, file], ["--no-such", file]):
            ended = run(PROGRAM, word, *words)
            expect(f"{word} {words}", (ended.status, ended.out), (2, b""))
        ended = run(PROGRAM, word, write_history(HERE / "good", KNOWN_SITE), sink="/dev/full")
        expect(f"{word}: a full output", (ended.status, ended.err), (1, f"{NOT_PRINTED}\n"))


# ---- the next history


def read_whole(site):
    """A site file's configuration, with what it leaves out."""
    read = tomllib.loads(site.read_text() if hasattr(site, "read_text") else site)
    return {"rows": 1_000_000, "managers": [], **read}


def expect_obstacles(what, folder, *lines):
    """`next` prints these obstacles alone, or a site file if there are none."""
    ended = run(PROGRAM, "next", folder)
    wanted = (1, b"", "".join(f"{line}\n" for line in lines))
    if lines:
        expect(what, (ended.status, ended.out, ended.err), wanted)
    else:
        expect(what, (ended.status, ended.err, ended.out != b""), (0, "", True))


@test
def obstacles_of_next():
    """Each thing that hinders a history's end, as it comes and goes."""
    folder = new_folder("obstacles")
    under_way = "point 1: a fuelling is under way"
    with start_station(folder) as day, work_at(day) as work:
        expect_obstacles("at the opening", folder)
        work.come()
        expect_obstacles("a point that is open", folder)
        work.release()
        expect_obstacles("a release", folder, "point 1 is released")
        work.lift()
        expect_obstacles("a start", folder, under_way)
        work.do(work.pump, report(1, 0, FLOW, 4_000))
        expect_obstacles("a fuelling", folder, under_way)
        work.do(work.till, command_point(1, 0, 1, SUSPEND))
        expect_obstacles("a fuelling that is suspended", folder, under_way)
        work.do(work.till, command_point(1, 0, 1, TERMINATE))
        expect_obstacles("a fuelling that is ended", folder, under_way)
        work.reading = 8_000
        work.do(work.pump, report(1, 0, HANG_UP, work.reading))
        unpaid = "point 1: sale 1 of shift 1 is unpaid: 12.00"
        expect_obstacles("a sale", folder, unpaid)
        work.close_shift()
        work.ask(work.till, read_site(1, 0))
        expect_obstacles("a closed shift", folder, unpaid)
        work.fuel(10_001)
        second = "point 1: sale 1 of shift 2 is unpaid: 15.00"
        expect_obstacles("another one", folder, unpaid, second)
        work.do(work.till, command_point(1, 0, 3, OPEN), command_point(1, 0, 3, RELEASE))
        expect_obstacles("and a release", folder, unpaid, second, "point 3 is released")
        work.do(work.till, command_sale(1, 0, 1, 1, LOCK))
        expect_obstacles("a lock", folder, unpaid, second, "point 3 is released")
        work.do(work.till, command_sale(1, 0, 1, 1, CLEAR))
        expect_obstacles("a clear", folder, unpaid, "point 3 is released")
        named = bytes.fromhex("21 22 0001 0001")
        work.do(work.till, *(ask(1, WRITE, 0, named, (one, b"")) for one in (LOCK, CLEAR)))
        expect_obstacles("all is paid", folder, "point 3 is released")
        work.do(work.till, command_point(1, 0, 3, TERMINATE))
        expect_obstacles("and nothing released", folder)
        end(day)
    expect_obstacles("after the day", folder)


@test
def next_openings():
    """The site file that `next` prints says the same site with the last readings and prices; a
    second history goes on from there, and a third one from that."""
    site, config, reading = KNOWN_SITE, read_whole(KNOWN_SITE), 0
    for turn in range(3):
        folder = new_folder(f"chain{turn}")
        with start_station(folder, site) as day, day.connect() as till, day.connect() as pump:
            work = Work(till, pump, reading)
            work.come()
            price = config["product"][0]["price"]
            work.fuel(1_234 + turn)
            work.collect(1)
            mills = price + 111
            work.do(till, ask(1, WRITE, 0, b"\x81", (PRICE_ITEM_OF, mills.to_bytes(4, "big"))))
            work.close_shift()
            work.sell(1, 5_000)
            reading = work.reading
            figures = [Figures(), Figures()]
            figures[0].add(1, 1, 1_234 + turn, cents_of(1_234 + turn, price))
            figures[1].add(1, 1, 5_000, cents_of(5_000, mills))
            end(day)
        expect_shifts(f"history {turn}", folder, figures)
        config["product"][0]["price"] = mills
        config["point"][0]["nozzles"][0]["reading"] = reading
        text = run_on("next", folder)
        expect(f"history {turn}: the next site", tomllib.loads(text), config)
        expect(f"history {turn}: printed again", run_on("next", folder), text)
        site = HERE / f"next{turn}.toml"
        site.write_text(text)
        checked = run(PROGRAM, "check", site)
        expect(f"history {turn}: the next site is checked", checked.status, 0)
        again = write_history(HERE / "again", site)
        expect("of an empty history: the same text", run_on("next", again), text)
