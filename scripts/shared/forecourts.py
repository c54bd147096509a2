"""Busy forecourts, for the tests of the page and its pictures: their site files, and their days in
the words that `spell` reads."""

import collections

TILLS = 32
# States of a fuelling point.
OFFLINE, CLOSED, IDLE, CALLING, AUTHORISED, STARTED, HELD_BACK, FUELLING, SUSPENDED = range(1, 10)
MOST = 1_000_000  # millilitres that one report may tell
GREATEST = 99_999_999  # of a preset
HIGH = 999_900_000_000  # of a reading, which has as many digits as one may have


class Site:
    """A site: its products, by their names and prices, and its points, each by the products and
    readings of its nozzles. Till 1 is a manager."""

    def __init__(self, products, points):
        self.products, self.points = products, points

    def text(self):
        """Its site file."""
        lines = ["managers = [1]"]
        for number, (name, price) in enumerate(self.products, 1):
            lines += ["[[product]]", f"number = {number}", f'name = "{name}"', f"price = {price}"]
        for number, nozzles in self.points.items():
            each = ", ".join(f"{{product = {p}, reading = {at}}}" for p, at in nozzles)
            lines += ["[[point]]", f"number = {number}", f"nozzles = [{each}]"]
        return "\n".join(lines) + "\n"


class Day:
    """What tills and dispensers say, line by line. It knows the readings of the nozzles, and how
    many sales each point has had in the open shift."""

    def __init__(self, site):
        self.site, self.lines = site, []
        self.readings = {
            (point, n): at
            for point, nozzles in site.points.items()
            for n, (_, at) in enumerate(nozzles, 1)
        }
        self.sales = collections.Counter()

    def till(self, till, *words):
        self.lines.append(" ".join(map(str, (f"t{till}", *words))))

    def pump(self, point, event, nozzle=None, millilitres=0):
        """A report of a point's dispenser, of a nozzle whose meter has grown by so much."""
        words = [f"d{point}", event, str(point)]
        if nozzle:
            self.readings[point, nozzle] += millilitres
            words.append(f"{nozzle}@{self.readings[point, nozzle]}")
        self.lines.append(" ".join(words))

    def flow(self, point, nozzle, millilitres):
        """So much flows, in as many reports as it takes."""
        while millilitres > 0:
            self.pump(point, "Flow", nozzle, min(millilitres, MOST))
            millilitres -= min(millilitres, MOST)

    def sell(self, point, nozzle, millilitres, till=1):
        """A sale, which stays payable; returns its name."""
        self.till(till, "Release", point)
        self.pump(point, "Lift", nozzle)
        self.flow(point, nozzle, millilitres)
        self.pump(point, "HangUp", nozzle)
        self.sales[point] += 1
        return f"{point}/{self.sales[point]}"

    def clear(self, till, sale):
        self.till(till, "Lock", sale)
        self.till(till, "Clear", sale)

    def close_shift(self):
        self.till(1, "CloseShift")
        self.sales.clear()

    def text(self):
        return "\n".join(self.lines) + "\n"


# ---- a day at twelve points


FUELS = (1, 2, 3)  # diesel and two petrols
LORRIES = (1, 4, 5)  # diesel, and what else a lorry takes
SOLD = (41_230, 38_910, 52_480, 12_000, 27_640, 63_170, 33_050, 18_990, 44_720, 20_010)


def make_twelve_points():
    """A station with two lanes for lorries."""
    products = (
        ("diesel", 1_689), ("petrol-95", 1_759), ("petrol-98", 1_899), ("hvo-100", 1_999),
        ("adblue", 999),
    )  # fmt: skip
    points = {
        point: [(p, 4_100_000 + 731_920 * point + 17_330 * p) for p in nozzles]
        for point in range(1, 13)
        for nozzles in [LORRIES if point in (9, 10) else FUELS]
    }
    return Site(products, points)


def make_busy_day():
    """A shift that is over, with one sale unpaid, and the middle of the next one. Returns the site
    and the day."""
    site = make_twelve_points()
    day = Day(site)
    for till in (1, 2, 3):
        day.till(till, "SignOn")
    for point in site.points:
        day.till(1, "Open", point)
    sell_for_a_while(day, 48)
    day.till(1, "TestRelease", 11)
    day.pump(11, "Lift", 1)
    day.pump(11, "HangUp", 1, 20_000)
    day.sell(8, 2, 30_410, 2)
    day.close_shift()
    sell_for_a_while(day, 36)
    leave_in_the_middle(day)
    return site, day


def sell_for_a_while(day, count):
    """So many sales, at each point in turn, cleared by the tills in turn."""
    for n in range(count):
        point, till, volume = 1 + n % 12, 1 + n % 3, SOLD[n % 10] + 113 * n
        if point in (9, 10):
            nozzle = 1 + n // 12 % 3
            volume *= 7 if nozzle == 1 else 1
        else:
            nozzle = 1 + 7 * n % 3
        day.clear(till, day.sell(point, nozzle, volume, till))


def leave_in_the_middle(day):
    """What stands at the points when the picture is taken."""
    day.till(2, "Prepay", 1, 5_000)
    day.pump(1, "Lift", 1)
    day.flow(1, 1, 14_370)
    day.till(2, "Lock", day.sell(2, 2, 31_270, 2))
    day.sell(2, 1, 48_060)
    day.sell(3, 1, 22_450)
    day.pump(3, "Lift", 3)
    day.till(1, "Release", 4)
    day.pump(4, "Lift", 2)
    day.flow(4, 2, 27_910)
    day.till(3, "Release", 5, "money", 3_000)
    day.till(3, "Lock", day.sell(6, 3, 40_120, 3))
    day.till(1, "Release", 6)
    day.pump(6, "Lift", 1)
    day.flow(6, 1, 8_050)
    day.till(1, "Terminate", 6)
    day.till(1, "Close", 7)
    day.till(1, "Release", 9)
    day.pump(9, "Lift", 1)
    day.flow(9, 1, 312_400)
    day.sell(10, 1, 412_780, 3)
    day.till(2, "Release", 11, "volume", 20_000)
    day.pump(11, "Lift", 2)
    day.pump(12, "Offline")


# ---- 64 points, with all that may stand at them


LONG_NAMES = (
    "diesel", "petrol-95", "petrol-98", "petrol-e10", "hvo-100-renewable-xl",
    "adblue-urea-solution", "heating-oil-extra-lt", "lpg-autogas-propan-b",
)  # fmt: skip
KINDS = (
    ("Release", "volume", GREATEST), ("Release", "money", GREATEST), ("Prepay", GREATEST),
    ("TestRelease",), ("Release",), ("Prepay", 5_000),
)  # fmt: skip
PLAIN = 32  # the points up to this one have figures as they come; the others the greatest


def make_crowded_day(first=1, numbers=range(1, 65)):
    """These points, from `first` on in all nine states, with each kind of release, with as many
    unpaid transactions as they may have, locked and not, by each till. Returns the site and the
    day."""
    prices = (1_789, 1_859, 1_999, 1_819, 99_999, 99_999, 99_999, 99_999)
    nozzles = {True: (1, 2, 3, 4), False: (5, 6, 7, 8)}
    points = {p: [(n, 0 if p <= PLAIN else HIGH) for n in nozzles[p <= PLAIN]] for p in numbers}
    site = Site(tuple(zip(LONG_NAMES, prices)), points)
    day = Day(site)
    for till in range(1, TILLS + 1):
        day.till(till, "SignOn")
    for point in numbers:
        if point >= first:
            crowd_point(day, point, 1 + (point - 1) % 9, KINDS[(point - 1) // 9 % len(KINDS)])
    return site, day


def make_unpaid_day():
    """64 points: the first one closed, the others idle with two unpaid transactions each. Returns
    the site and the day."""
    products = (("diesel", 1_689), ("petrol-95", 1_759))
    site = Site(products, {point: [(1, 0), (2, 0)] for point in range(1, 65)})
    day = Day(site)
    day.till(1, "SignOn")
    for point in range(2, 65):
        day.till(1, "Open", point)
        for nozzle in (1, 2):
            day.sell(point, nozzle, 20_000 + 130 * point)
    return site, day


def crowd_point(day, point, state, kind):
    """The point comes into this state, its fuelling released so, and has the transactions that it
    may have."""
    is_plain, is_test = point <= PLAIN, kind[0] == "TestRelease"
    volume = 61_380 + 1_320 * point if is_plain else 5_000_000
    till = 1 if is_test else 1 + 7 * point % TILLS
    nozzle, other = 1 + point % 4, 1 + (point + 1) % 4
    day.till(till, "Open", point)
    day.clear(1 + point % TILLS, day.sell(point, other, 20_000 + 130 * point, till))
    sale = day.sell(point, nozzle, volume, till)
    if point % 3 == 0:
        day.till(1 + 5 * point % TILLS, "Lock", sale)
    if state <= CALLING or is_test:
        sale = day.sell(point, other, volume // 2, till)
        if point % 2 == 0:
            day.till(1 + 11 * point % TILLS, "Lock", sale)
    if state == OFFLINE:
        day.pump(point, "Offline")
    elif state == CLOSED:
        day.till(till, "Close", point)
    elif state == IDLE:
        day.till(till, "Assign", point)
    elif state == CALLING:
        day.till(till, "Assign", point)
        day.pump(point, "Lift", nozzle)
    else:
        day.till(till, kind[0], point, *kind[1:])
    if state > AUTHORISED:
        day.pump(point, "Lift", nozzle)
    if state in (FUELLING, SUSPENDED):
        day.flow(point, nozzle, 12_340 + 110 * point if is_plain else 3 * MOST)
    if state in (HELD_BACK, SUSPENDED):
        day.till(till, "Terminate" if point % 2 else "Suspend", point)
