"""How tests are named, chosen, run and counted. A suite is a file test_NAME.py beside this one; its
tests are the functions that one of these decorators marks.

A test that takes a seed draws its chance from it (`start_chance`). It runs with seed 0, which draws
what the gate has always drawn, and with a fresh one."""

import concurrent.futures
import inspect
import pathlib
import random
import tempfile
import time
import traceback
import typing

from shared.checks import Counts, Failed, Skipped, count_each

SUITES_FOLDER = pathlib.Path(__file__).resolve().parent
ORDER = (  # as they run
    "layers documents program server station history times shifts meters rows seals versions page"
    " package demos tables faults"
).split()
TESTS, FOLDERS = [], []
GREATEST_SEED = 10**9


class Test(typing.NamedTuple):
    """A test; whether it runs beside the others, and whether its checks count one by one."""

    call: typing.Callable
    is_beside: bool = False
    is_each: bool = False

    @property
    def name(self):
        return self.call.__name__

    @property
    def takes_seed(self):
        return bool(inspect.signature(self.call).parameters)


def test(function):
    """A test that ends at its first check that fails. It counts once, or, where it returns a
    number, as often as that says."""
    TESTS.append(Test(function))
    return function


def test_beside(function):
    """The same of a test that waits for most of its time: it runs beside the others."""
    TESTS.append(Test(function, is_beside=True))
    return function


def test_each(function):
    """A test whose checks are independent of each other: each counts, and where one fails the next
    ones are made all the same."""
    TESTS.append(Test(function, is_each=True))
    return function


def start_chance(seed, name):
    """A source of random choices; `name` parts it from the others of a test."""
    return random.Random(name if seed == 0 else f"{name} {seed}")


def draw_seed():
    return random.SystemRandom().randint(1, GREATEST_SEED)


def make_folder():
    """A folder of a suite's own, which is removed when the run ends."""
    FOLDERS.append(tempfile.TemporaryDirectory())
    return pathlib.Path(FOLDERS[-1].name)


def choose_tests(module, word):
    """The tests of a suite's module whose names contain this word."""
    return [one for one in TESTS if one.call.__module__ == module.__name__ and word in one.name]


def summarise(thing):
    """The first sentence of what stands above a suite or a test, in one line."""
    text = " ".join((inspect.getdoc(thing) or "").split("\n\n")[0].split())
    return text.split(". ")[0].rstrip(".:")


class Suite:
    """The chosen tests of a suite, which run with these seeds. `words` are those that a command
    has to repeat after its name, so that it tests the same programs."""

    def __init__(self, name, tests, seeds, words=""):
        self.name, self.tests, self.seeds, self.words = name, tests, seeds, words
        self.passed, self.failed = 0, 0

    def run(self):
        """Runs them, and prints what failed and how many checks passed; whether all did."""
        runs = [(one, seed) for one in self.tests for seed in self.list_seeds(one)]
        beside = [pair for pair in runs if pair[0].is_beside]
        with concurrent.futures.ThreadPoolExecutor(len(beside) or 1) as pool:
            ends = [pool.submit(self.run_one, *pair) for pair in beside]
            for pair in runs:
                if not pair[0].is_beside:
                    self.count(self.run_one(*pair))
            for end in ends:
                self.count(end.result())
        print(f"{self.name}: {self.passed} passed, {self.failed} failed", flush=True)
        return self.failed == 0

    def list_seeds(self, one):
        return self.seeds if one.takes_seed else [None]

    def count(self, counts):
        self.passed += counts.passed
        self.failed += counts.failed

    def run_one(self, one, seed):
        """Runs a test with this seed, if it takes one; returns its counts. Where it fails, the
        command is told that repeats it."""
        counts = Counts(lambda why: print(f"{self.name} test '{one.name}': {why}", flush=True))
        begun = time.monotonic()
        try:
            self.call(one, () if seed is None else (seed,), counts)
        except Skipped as why:
            print(f"{self.name} test '{one.name}': SKIPPED: {why}", flush=True)
        except Failed as why:
            counts.fail(why)
        except Exception as why:
            counts.fail(f"{type(why).__name__} {why}\n{describe_place(why)}")
        if counts.failed:
            took = time.monotonic() - begun
            print(f"  after {took:.1f} seconds; again: {self.repeat(one, seed)}", flush=True)
        return counts

    def call(self, one, seeds, counts):
        if one.is_each:
            with count_each(counts):
                one.call(*seeds)
        else:
            count = one.call(*seeds)
            counts.passed += 1 if count is None else count
            if count is not None:
                print(f"{self.name} test '{one.name}': {count} runs passed", flush=True)

    def repeat(self, one, seed):
        """The command that runs this test alone again."""
        seeded = "" if seed is None else f" --seed {seed}"
        return f"scripts/test {self.name} -k {one.name}{seeded}{self.words}"


def describe_place(why):
    """Where an error that isn't a check's came from: its innermost lines of the scripts."""
    return "".join(traceback.format_tb(why.__traceback__)[-3:]).rstrip()


def find_suites():
    """The names of the suites, as they are run."""
    found = {path.stem.removeprefix("test_") for path in SUITES_FOLDER.glob("test_*.py")}
    return [*(name for name in ORDER if name in found), *sorted(found - {*ORDER})]

