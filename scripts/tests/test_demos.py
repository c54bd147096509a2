"""Demos: the reports that they print, and what ends them early.

- each script of crates/forecourt/demos and of examples with a report beside it: 20 runs over memory
  and 20 over loopback, each of which prints that report;
- two simulators that wait for each other, and are started together (faults.c): each run has the
  rows of some order, and one has those that only sections side by side can have;
- what ends a demo early, and what doesn't."""

import os

from shared.checks import NO_FILE, NOT_PRINTED, advised, expect, expect_end, first_line
from shared.running import CRATES, EXAMPLES, compile_c, run
from shared.station import FIVE_POINTS
from tests.built import PROGRAM
from tests.suite import make_folder, test_each

HERE = make_folder()
DEMOS = CRATES / "forecourt/demos"
RUNS = 20
SIGN_ON = "010102010041000401013100\n"


def run_demo(*words, **how):
    return run(PROGRAM, "demo", *words, **how)


def write(text, name="script"):
    path = HERE / name
    path.write_text(text)
    return path


def pick_lines(end, first=1, last=0):
    """The status, and some of the report's first and last lines."""
    lines = end.out.decode().splitlines()
    return end.status, lines[:first], lines[len(lines) - last :]


@test_each
def reports():
    """Each run of a script prints its report."""
    for script in sorted([*DEMOS.glob("*.demo"), *EXAMPLES.glob("*.demo")]):
        report = script.with_suffix(".report")
        if not report.exists():
            continue
        for words in ([], ["--loopback"]):
            for _ in range(RUNS):
                end = run_demo(FIVE_POINTS, script, *words)
                expect_end(" ".join([script.name, *words]), end, 0, report)


@test_each
def side_by_side():
    """One dispenser lifts, waits for the idle point and lifts again; the other waits for the
    calling one and hangs up. Sections one after the other make 4 or 5 rows; 6 are made only side
    by side."""
    script, found = DEMOS / "nozzle_in_and_out.demo", set()
    preload = {
        "LD_PRELOAD": compile_c(HERE, "tests/faults.c", "-O1", "-shared", "-fPIC"),
        "START_TOGETHER": "2",
    }
    for _ in range(RUNS):
        end = run_demo(FIVE_POINTS, script, env={**os.environ, **preload})
        status, rows, last = pick_lines(end, 1, 1)
        expect(script.name, (status, last, end.err), (0, ["shares 3 settled"], ""))
        expect("rows of two sections", rows in (["rows 4"], ["rows 5"], ["rows 6"]), True)
        found.update(rows)
    expect("a run with 6 rows", "rows 6" in found, True)


@test_each
def faulty_files():
    """A script or a site file that isn't there, or is none."""
    none = HERE / "none"
    said = f"cannot read {none}: {NO_FILE}"
    expect_end("no script", run_demo(FIVE_POINTS, none), 1, b"", said)
    expect_end("no site", run_demo(none, HERE / "neither"), 1, b"", said)
    end = run_demo(write("till\n", "site"), write("x\n"))
    end = end._replace(err=first_line(end.err))
    expect_end("the site first", end, 1, b"", "fault 70")
    expect("no words for a script", run_demo(FIVE_POINTS).status, 2)
    for name, before, text, line in (
        ("an empty script", "", "", 0),
        ("no section", "", SIGN_ON, 1),
        ("a faulty line", SIGN_ON + "till\n", "lift 1\n", 3),
        ("point 65", "", "dispenser 65 1\n", 1),
    ):
        said = advised(f"script line {line}", text=text)
        expect_end(name, run_demo(FIVE_POINTS, write(before + text)), 1, b"", said)
    octets = HERE / "octets"
    for line in (b"\xff", b"till 1\x1b[2J"):
        octets.write_bytes(line + b"\n")
        said = advised("script line 1", text="")
        expect_end(f"{line} isn't shown", run_demo(FIVE_POINTS, octets), 1, b"", said)


@test_each
def ends():
    """What ends a demo early, and what doesn't."""
    # A dispenser that waits in vain ends its own work alone: no row, and a share all the same.
    end = run_demo(FIVE_POINTS, write(SIGN_ON + "dispenser 1 3\nwait 4\nlift 1\n"))
    expect("polls spent", pick_lines(end, 1, 1), (0, ["rows 2"], ["shares 2 settled"]))
    # A message of another originator ends its session; the till is left. One that is no request is
    # refused, and its session goes on. A full book ends the setup and the simulator, and not the
    # demo: the till is signed off beyond it.
    other = "till\n" + SIGN_ON + "010102020041000401013100\n010102010042000401213C00\n"
    answer = "till\n" + SIGN_ON + "010102010021000401013100\n010102010042000401213C00\n"
    full = SIGN_ON + "010102010042000401213C00\n010102010043000401223C00\ndispenser 1 1\noffline\n"
    small = write("rows = 2\n" + FIVE_POINTS.read_text(), "small")
    for words in ([], ["--loopback"]):
        end = run_demo(FIVE_POINTS, write(other), *words)
        expect("another originator", pick_lines(end), (0, ["rows 2"], []))
        end = run_demo(FIVE_POINTS, write(answer), *words)
        expect("a message that is no request", pick_lines(end), (0, ["rows 3"], []))
        end = run_demo(small, write(full), *words)
        expect("a full book", pick_lines(end, 1, 1), (0, ["rows 3"], ["shares 2 settled"]))
    end = run_demo(FIVE_POINTS, write(SIGN_ON + "till\n"), sink="/dev/full")
    expect_end("an output that takes nothing", end, 1, b"", NOT_PRINTED)
    # With loopback and no till there is nobody to serve.
    end = run_demo(FIVE_POINTS, write("dispenser 1 1\noffline\n"), "--loopback")
    expect("no till over loopback", pick_lines(end), (0, ["rows 1"], []))
