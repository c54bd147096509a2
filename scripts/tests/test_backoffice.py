"""The back office of the examples: each sale of a history once, over kills of the back office and
of the program that it reads from."""

import json
import os
import random
import signal
import sqlite3
import subprocess
import sys
import time

from shared.checks import expect
from shared.feed_day import start_feed
from shared.histories import write_chapters, write_history, write_rows
from shared.running import EXAMPLES, run
from shared.serving import wait_until
from shared.station import KNOWN_SITE
from tests.built import PROGRAM
from tests.suite import make_folder, start_chance, test

HERE = make_folder()
BACK_OFFICE = EXAMPLES / "backoffice.py"
SHIFTS = 4
SOLD = 100  # in a shift
KILLS = 15  # while a shift was added last


def list_shift(shift):
    """A shift at point 1 in words: each sale is cleared after the next one was made, the last one
    in the next shift. Diesel is 1,500 mills a litre."""
    lines = ["t1 SignOn", "t1 Open 1"] if shift == 1 else [f"t1 Lock 1/{shift - 1}/{SOLD}"]
    lines += [f"t1 Clear 1/{shift - 1}/{SOLD}"] if shift > 1 else []
    for number in range(1, SOLD + 1):
        meter = 1_000 * ((shift - 1) * SOLD + number)
        lines += ["t1 Release 1", f"d1 Lift 1 1@{meter - 1_000}", f"d1 HangUp 1 1@{meter}"]
        if number > 1:
            lines += [f"t1 Lock 1/{number - 1}", f"t1 Clear 1/{number - 1}"]
    return "\n".join([*lines, "t1 CloseShift"]) + "\n"


def spell(words):
    spelled = run(PROGRAM, "spell", given=words.encode())
    expect("spelled", spelled.status, 0)
    return [bytes.fromhex(line) for line in spelled.out.decode().split()]


def start_office(folder, store):
    command = [sys.executable, BACK_OFFICE, folder, store, PROGRAM]
    return subprocess.Popen([*map(str, command)], stderr=subprocess.DEVNULL, start_new_session=True)


def read_sales(store):
    """The sales that are kept, by name: millilitres, cents, status."""
    with sqlite3.connect(store) as opened:
        rows = opened.execute("select shift, point, number, millilitres, cents, status from sales")
        return {row[:3]: row[3:] for row in rows}


@test
def its_usage():
    """Words that it doesn't know: it says how it is used."""
    for words in ([], ["4003"], ["4003", "SALES.db", "forecourt", "more"]):
        end = run(sys.executable, BACK_OFFICE, *words)
        expect(f"{words}", (end.status, end.err.startswith("A back office: ")), (1, True))


@test
def each_sale_once(seed):
    """The back office, and what it reads from, are killed again and again while a history grows: in
    the end each sale is kept as the history has it, and its place is the next row."""
    chance = random.Random(f"{seed} backoffice")
    folder, store = HERE / f"history-{seed}", HERE / f"sales-{seed}.db"
    told, done = [], 0
    for shift in range(1, SHIFTS + 1):
        told += spell(list_shift(shift))
        write_history(folder, KNOWN_SITE, *write_chapters(KNOWN_SITE, write_rows(*told)))
        for _ in range(KILLS):
            office = start_office(folder, store)
            time.sleep(chance.random() * 0.12)
            if office.poll() is None:
                os.killpg(office.pid, signal.SIGKILL)
            office.wait()
            kept = read_sales_if(store)
            expect("none is lost", len(kept) >= done, True)
            done = len(kept)
    expect("it ends well", start_office(folder, store).wait(), 0)
    expect("so it does again", start_office(folder, store).wait(), 0)
    wanted = list_sales(folder)
    expect("how many", len(wanted), SHIFTS * SOLD)
    expect("each sale", read_sales(store), wanted)
    expect("the first", wanted[1, 1, 1], (1_000, 150, "cleared"))
    expect("the last", wanted[SHIFTS, 1, SOLD], (1_000, 150, "payable"))


@test
def each_sale_once_by_the_feed(seed):
    """The same of one that reads the feed, while a till sells, and the station is killed too."""
    chance = start_chance(seed, "backoffice feed")
    folder, store = HERE / f"fed-{seed}", HERE / f"fed-{seed}.db"
    offices, sold = [], 0
    for _ in range(KILLS):
        with start_feed(PROGRAM, "--history", folder) as day:
            office = start_office(day.port, store)
            sold = sell_on(day, sold, chance.randint(1, 8))
            time.sleep(chance.random() * 0.12)
            if chance.random() < 0.5:
                os.killpg(office.pid, signal.SIGKILL)
                office.wait()
                office = start_office(day.port, store)
                time.sleep(chance.random() * 0.3)
            day.day.process.kill()
            day.day.process.wait()
            os.killpg(office.pid, signal.SIGKILL)
            office.wait()
    with start_feed(PROGRAM, "--history", folder) as day:
        office = start_office(day.port, store)
        wait_until("all sales", lambda: len(read_sales_if(store)) == sold)
        wanted = list_sales(folder)
        wait_until("each sale", lambda: read_sales_if(store) == wanted)
        expect("how many", len(wanted), sold)
        os.killpg(office.pid, signal.SIGKILL)
        office.wait()
    expect("its folder has no more", start_office(folder, store).wait(), 0)
    expect("each sale", read_sales(store), wanted)


def sell_on(day, sold, count):
    """Point 1 makes so many sales more, each of which is cleared."""
    day.say("t1 SignOn", *(["t1 Open 1"] if sold == 0 else []))
    for number in range(sold + 1, sold + count + 1):
        day.say("t1 Release 1", f"d1 Lift 1 1@{1_000 * number - 1_000}")
        day.say(f"d1 HangUp 1 1@{1_000 * number}", f"t1 Lock 1/{number}", f"t1 Clear 1/{number}")
    return sold + count


def list_sales(folder):
    """The sales of a history, as `forecourt sales` tells them."""
    wanted = {}
    for sale in map(json.loads, run(PROGRAM, "sales", folder, "--json").out.splitlines()):
        name = (sale["shift"], sale["point"], sale["number"])
        wanted[name] = (sale["millilitres"], sale["cents"], sale["status"])
    return wanted


def read_sales_if(store):
    """The sales that are kept; none where the tables aren't made yet."""
    try:
        return read_sales(store)
    except sqlite3.OperationalError:
        return {}
