"""Histories that earlier versions have written: `versions/V` has that of the day of
`examples/paying_day.words`, of two chapters with times and seals. Each is read, and goes on."""

import pathlib
import re
import shutil

from shared.checks import expect, expect_end
from shared.histories import SITE_FILE, list_chapters, read_chapters
from shared.running import EXAMPLES, run
from tests.built import PROGRAM
from tests.suite import make_folder, test

HERE = make_folder()
VERSIONS = sorted((pathlib.Path(__file__).parent / "versions").iterdir())
DAY = EXAMPLES / "paying_day.words"


def copy(version):
    """A copy of a version's history, which may be changed."""
    folder = HERE / version.name
    shutil.rmtree(folder, ignore_errors=True)
    shutil.copytree(version, folder)
    return folder


def read_requests():
    """The requests of the day that are stored: all but reads, without their tokens. At the day's
    end each till that is still signed on is signed off."""
    lines = DAY.read_text().splitlines()
    asked = (line.partition(",")[0] for line in lines if line and not line.startswith("#"))
    kept = [line for line in asked if not line.split()[1].startswith("Read")]
    signed_on = dict.fromkeys(line.split()[0] for line in kept if line.endswith(" SignOn"))
    for line in kept:
        if line.endswith(" SignOff"):
            del signed_on[line.split()[0]]
    return [*kept, *(f"{till} SignOff" for till in signed_on)]


@test
def each_version_is_there():
    """The version that runs has its history here, and so has each earlier one."""
    current = run(PROGRAM, "--version").out.decode().split()[1]
    expect("versions", current in [version.name for version in VERSIONS], True)


@test
def each_history_is_verified():
    """`verify` finds nothing wrong, and the last seal that the chapters have."""
    for version in VERSIONS:
        seal = re.findall(r"^# seal (\w+)$", read_chapters(version).decode(), re.M)[-1]
        verified = run(PROGRAM, "verify", copy(version))
        expect(f"{version.name}: verify", (verified.status, verified.err), (0, ""))
        counts = f"chapters 2 rows {len(read_requests())} "
        expect(f"{version.name}: counts", verified.out.decode().startswith(counts), True)
        expect(f"{version.name}: last seal", f" last {seal} " in verified.out.decode(), True)


@test
def each_history_tells_its_day():
    """The rows are the day's requests but for reads, and the report is the day's, which counts
    those."""
    figures = (EXAMPLES / "paying_day.report").read_text().partition("\n")[2]
    for version in VERSIONS:
        folder = copy(version)
        wanted = f"rows {len(read_requests())}\n{figures}"
        expect_end(f"{version.name}: report", run(PROGRAM, "report", folder), 0, wanted.encode())
        told = run(PROGRAM, "explain", folder).out.decode().splitlines()
        rows = [line.partition(":")[0] for line in told if not line.startswith(("#", " "))]
        expect(f"{version.name}: rows", rows, read_requests())


@test
def each_history_goes_on():
    """A station starts on it with the site file that it has, and appends to it alone."""
    for version in VERSIONS:
        folder = copy(version)
        started = run(PROGRAM, "station", "--port", "0", "--history", folder)
        found = f"history chapters 2 rows {len(read_requests())}\n".encode()
        expect(f"{version.name}: start", (started.status, started.out.startswith(found)), (0, True))
        for path in list_chapters(version):
            longer = (folder / path.name).read_bytes()
            expect(f"{version.name}: {path.name}", longer.startswith(path.read_bytes()), True)
        expect("site file", (folder / SITE_FILE).read_bytes(), (version / SITE_FILE).read_bytes())
        expect(f"{version.name}: verify", run(PROGRAM, "verify", folder).status, 0)
