"""The built programs that are tested. scripts/test says which they are before it imports a suite,
since suites take these names as they are then."""

from shared.checks import Failed
from shared.running import CRATES, run

# Where `rt ci` and `make build` leave the proved ones.
PROGRAM = CRATES / "forecourt/out/forecourt"
TABLES = CRATES / "site_tables/out/site_tables"
FOLDER = None  # of scripts/build-unproved, if the programs are from there


def choose(program, tables, folder):
    """Tests these programs: each as it is named, else of the folder, if one is named."""
    global PROGRAM, TABLES, FOLDER
    if folder:
        FOLDER, PROGRAM, TABLES = folder, folder / "forecourt", folder / "site_tables"
    PROGRAM, TABLES = program or PROGRAM, tables or TABLES


def find_tests_program(crate):
    """The program of a crate's tests."""
    name = f"{crate}_tests"
    program = FOLDER / name if FOLDER else CRATES / crate / "out" / name
    if not program.exists():
        raise Failed(f"{program} isn't built")
    return program


def list_tests(program):
    """The names of the tests of a program of tests."""
    lines = [line.rsplit(": ", 1) for line in run(program, "--list").out.decode().splitlines()]
    return [line[0] for line in lines if line[-1] == "test"]
