"""The times and the seals that `forecourt station` writes.

Each time of a chapter is parsed by Python and by `date`, and each seal is computed by hashlib. A
clock of the tests' own jumps while a day runs (clock.c)."""

import datetime
import itertools
import os
import subprocess
import threading
import time

from shared.checks import expect
from shared.histories import check_chapters, chapter_path, list_chapters, write_rows
from shared.running import compile_c, run
from shared.serving import start_day
from shared.station import CLOSE, KNOWN_SITE, OPEN, command_point, receive_message, sign_on
from tests.built import PROGRAM
from tests.shifts_worked import work_at
from tests.suite import make_folder, start_chance, test

HERE = make_folder()
AT, SEAL = b"# at ", b"# seal "
MOST_ROWS = 256  # between two seals
HOUR = 3_600
SHIFTS = 150
CLOCK_IS_BEHIND = "the clock is behind the history: rows have its last time until it is ahead\n"
UTC = datetime.timezone.utc


def start_station(folder, **how):
    command = [PROGRAM, "station", KNOWN_SITE, "--port", "0", "--history", folder]
    return start_day([*map(str, command)], stdin=subprocess.PIPE, **how)


def end(day):
    """The end of a day whose standard input is closed: what it said on standard error."""
    day.process.stdin.close()
    day.process.stdin = None
    said = day.process.stderr.read().decode()
    day.process.stdout.read()
    expect("its end", day.process.wait(), 0)
    return said


def read_texts(folder):
    return [path.read_bytes() for path in list_chapters(folder)]


def read_time(line):
    """The time of a line `# at ..`, which has just the form of one."""
    text = line[len(AT) :].decode().rstrip("\n")
    found = datetime.datetime.strptime(text, "%Y-%m-%dT%H:%M:%S.%fZ").replace(tzinfo=UTC)
    expect("the form of a time", text, found.strftime("%Y-%m-%dT%H:%M:%S.") + text[-4:-1] + "Z")
    return found


def check_times(texts):
    """The times rise, ahead of rows, and no row has none above it; no more than 256 rows stand
    between two seals. Returns the times."""
    times, rows, before = [], 0, b""
    for line in b"".join(texts).splitlines(keepends=True):
        if before.startswith(AT):
            expect("what stands behind a time", line.startswith(b"#"), False)
        if line.startswith(AT):
            times.append(read_time(line))
        elif line.startswith(SEAL):
            rows = 0
        elif not line.startswith(b"#"):
            rows += 1
            expect("rows without a time", len(times) > 0, True)
            expect("rows between two seals", rows <= MOST_ROWS, True)
        before = line
    expect("times rise", all(a < b for a, b in itertools.pairwise(times)), True)
    return times


def now():
    return datetime.datetime.now(UTC)


@test
def random_days(seed):
    """Shifts with any number of sales, with pauses, in three days: each seal is that which
    hashlib computes; times lie between the first day's beginning and the last one's end, and
    `date` parses each as Python does. The last line is a seal."""
    chance, folder, reading = start_chance(seed, "days"), HERE / f"days{seed}", 0
    begun = now() - datetime.timedelta(milliseconds=1)
    for _ in range(3):
        with start_station(folder) as day, work_at(day) as work:
            work.reading = reading
            work.do(work.till, sign_on(1))
            if reading == 0:
                work.do(work.till, command_point(1, 0, 1, OPEN))
            for _ in range(chance.randint(1, 4)):
                for number in range(1, chance.randint(1, 30)):
                    work.sell(number, chance.randint(1, 90_000))
                    if chance.randint(1, 10) == 1:
                        time.sleep(chance.random())
                work.close_shift()
            reading = work.reading
            expect("what it says", end(day), "")
    texts = read_texts(folder)
    seals = check_chapters(KNOWN_SITE, texts)
    expect("the last line", texts[-1].splitlines()[-1].startswith(SEAL), True)
    expect("some seals", seals.count >= len(texts), True)
    times = check_times(texts)
    expect("within the days", begun <= times[0] and times[-1] <= now(), True)
    told = [line[len(AT) :].decode() for text in texts for line in text.splitlines()
            if line.startswith(AT)]  # fmt: skip
    words = "".join(f"{one}\n" for one in told).encode()
    parsed = run("date", "-u", "-f", "-", "+%s.%3N", given=words).out.decode().split()
    expect("parsed by date", [*map(float, parsed)], [one.timestamp() for one in times])


@test
def many_rows_at_once():
    """However many rows come at once, no more than 256 stand between two seals, and there are far
    fewer times than rows."""
    folder, count = HERE / "many", 1_500
    asked = [command_point(1, 0, 1, (OPEN, CLOSE)[n % 2]) for n in range(count)]
    with start_station(folder) as day, day.connect() as till:
        till.sendall(b"".join([sign_on(1), *asked]))
        for _ in range(count + 1):
            expect("a reply", len(receive_message(till)) > 8, True)
        end(day)
    texts = read_texts(folder)
    check_chapters(KNOWN_SITE, texts)
    expect("few times", len(check_times(texts)) < count // 10, True)


@test
def seals_of_a_quiet_station():
    """A row that comes more than a second after the last seal is sealed with its round; rows of one
    second needn't be. At the day's end nothing is left without a seal."""
    folder = HERE / "quiet"
    with start_station(folder) as day, work_at(day) as work:
        work.come()
        path = chapter_path(folder)
        first = path.read_bytes().count(SEAL)
        expect("the first round is sealed", first >= 1, True)
        time.sleep(1.2)
        work.do(work.till, command_point(1, 0, 2, OPEN))
        text = path.read_bytes()
        expect("the round is sealed", text.splitlines()[-1].startswith(SEAL), True)
        expect("one seal more", text.count(SEAL), first + 1)
        work.do(work.till, command_point(1, 0, 2, CLOSE))
        end(day)
    texts = read_texts(folder)
    check_chapters(KNOWN_SITE, texts)
    expect("the last line", texts[-1].splitlines()[-1].startswith(SEAL), True)


@test
def a_clock_that_jumps():
    """The clock jumps an hour to and fro while a day runs: times never fall, and rows have the last
    one until the clock is ahead of it. That it is behind is said once, in each run. Seals don't
    wait for it: a row that comes a second after the last one is sealed while times stand still."""
    folder, file = HERE / "jumps", HERE / "offset"
    library = compile_c(HERE, "tests/clock.c", "-O1", "-shared", "-fPIC")
    env = {**os.environ, "LD_PRELOAD": str(library), "CLOCK_FILE": str(file)}
    jumps = (0, HOUR, 0, -HOUR, HOUR // 2, 2 * HOUR, HOUR, 3 * HOUR)
    latest, wanted = None, 0
    for run_number in range(2):
        with start_station(folder, env=env) as day, work_at(day) as work:
            if run_number == 0:
                work.come()
            else:
                work.do(work.till, sign_on(1))
            for place, offset in enumerate(jumps):
                file.write_text(str(offset + run_number * HOUR // 4))
                time.sleep(0.005)
                before = check_times(read_texts(folder))
                work.do(work.till, command_point(1, 0, 2, (OPEN, CLOSE)[place % 2]))
                after = check_times(read_texts(folder))
                told = now() + datetime.timedelta(seconds=offset + run_number * HOUR // 4)
                is_ahead = latest is None or told > latest
                expect(f"run {run_number}, jump {offset}: a time more", len(after) > len(before),
                       is_ahead)  # fmt: skip
                if is_ahead:
                    latest = after[-1]
                    behind = (told - latest).total_seconds()
                    expect(f"jump {offset}: the clock's time", 0 <= behind < 1, True)
                wanted += is_ahead
            file.write_text(str(-HOUR))
            time.sleep(1.1)
            before = read_texts(folder)
            work.do(work.till, command_point(1, 0, 2, OPEN))
            after = read_texts(folder)
            expect("no time more", check_times(after), check_times(before))
            expect("the row is sealed", after[-1].splitlines()[-1].startswith(SEAL), True)
            work.do(work.till, command_point(1, 0, 2, CLOSE))
            expect("what it says", end(day), CLOCK_IS_BEHIND)
    texts = read_texts(folder)
    check_chapters(KNOWN_SITE, texts)
    expect("some times", wanted > 4, True)


@test
def reads_beside_a_station():
    """While shifts are closed, one after the other, the history is right for whoever reads it."""
    folder, reads, is_over = HERE / "beside", [], threading.Event()

    def read():
        while not is_over.is_set():
            reads.append(run(PROGRAM, "verify", folder))

    with start_station(folder) as day, work_at(day) as work:
        work.do(work.till, sign_on(1))
        readers = [threading.Thread(target=read) for _ in range(2)]
        for one in readers:
            one.start()
        for _ in range(SHIFTS):
            work.close_shift()
        is_over.set()
        for one in readers:
            one.join()
        end(day)
    expect("some reads", len(reads) > 10, True)
    expect("each is right", {(one.status, one.out.split()[0]) for one in reads}, {(0, b"chapters")})
