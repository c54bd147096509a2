"""Runs programs under test, and the tools and compilers that tests and benches need."""

import contextlib
import os
import pathlib
import re
import resource
import signal
import subprocess
import sys
import typing

from shared.checks import UNCONNECTED

SCRIPTS = pathlib.Path(__file__).resolve().parent.parent
TOP = SCRIPTS.parent
CRATES, EXAMPLES = TOP / "crates", TOP / "examples"
PATIENCE = 120  # seconds, for what comes at once if all is well


class End(typing.NamedTuple):
    """How a run ended: its exit status, its standard output and its standard error."""

    status: int
    out: bytes
    err: str


def limit_memory(octets):
    """Before a program starts: it gets at most so many octets of addresses."""
    return lambda: resource.setrlimit(resource.RLIMIT_AS, (octets, octets))


def close_input():
    """Before a program starts: its standard input is closed."""
    os.close(0)


# The status of a program that SIGPIPE ends.
CLOSED_PIPE = 128 + signal.SIGPIPE


def run(*command, given=b"", sink=None, **how):
    """Runs a command on octets or on a file; its standard output goes to the file `sink` where
    there is one, by its name or descriptor."""
    command = [os.fspath(word) if isinstance(word, os.PathLike) else word for word in command]
    how = {"timeout": PATIENCE, "stderr": subprocess.PIPE, **how}
    with contextlib.ExitStack() as files:
        if isinstance(given, os.PathLike):
            how["stdin"] = files.enter_context(open(given, "rb"))
        else:
            how["input"] = given
        how["stdout"] = files.enter_context(open(sink, "wb")) if sink else subprocess.PIPE
        end = subprocess.run(command, **how)
    return End(end.returncode, end.stdout or b"", end.stderr.decode(errors="replace"))


def run_unread(*command, given=b""):
    """Runs a command of whose output the reader has closed the pipe."""
    gone, output = os.pipe()
    os.close(gone)
    return run(*command, given=given, sink=output)


def measure(*command, given=os.devnull, sink=os.devnull):
    """Runs a command from file to file, which has to end well; returns processor seconds and
    peak kilobytes. Those are never fewer than this script itself has had at most until then: the
    system counts what a process had before it became another program."""
    with open(given, "rb") as source, open(sink, "wb") as taken:
        child = subprocess.Popen(list(map(str, command)), stdin=source, stdout=taken)
        _, status, usage = os.wait4(child.pid, 0)
        child.returncode = os.waitstatus_to_exitcode(status)
    if child.returncode != 0:
        stop(f"{command[0]} ended with status {child.returncode}")
    return usage.ru_utime + usage.ru_stime, usage.ru_maxrss


def tell_deaf(port):
    """What a program says that can't listen on a port, or with 0 on a free one."""
    if port == 0:
        return UNCONNECTED
    why = (
        "another program has it (see ss -ltnp), this user may not, or too few files may be open"
        " (ulimit -n)"
    )
    return f"fault 63\ncannot listen on port {port}: {why}\n"


def stop(why):
    """Ends the script, and says why."""
    script = pathlib.Path(sys.argv[0]).resolve()
    sys.exit(f"{script.relative_to(TOP) if script.is_relative_to(TOP) else script.name}: {why}")


def write_messages(path, count, form="one", day="doors", points=5):
    """Writes a file of scripts/tools/messages, where it isn't there yet."""
    if not os.path.exists(path):
        with open(path, "wb") as sink:
            words = [sys.executable, SCRIPTS / "tools/messages", str(count), form, day, str(points)]
            subprocess.run(words, stdout=sink, check=True)
    return path


def compile_c(folder, source, *flags):
    """Compiles a C source of this folder of scripts into a folder: `tests/faults.c`."""
    result = os.path.join(folder, pathlib.Path(source).stem)
    subprocess.run(["cc", *flags, "-o", result, SCRIPTS / source], check=True)
    return result


def count_lanes():
    """How many checks run side by side, each on one processor: as many as there are processors,
    and as find 4 GB of memory. A check that is split over several processors costs nearly half
    more of their time."""
    available = re.search(r"^MemAvailable: +(\d+)", pathlib.Path("/proc/meminfo").read_text(), re.M)
    return max(1, min(os.cpu_count(), int(available.group(1)) // 4_000_000))
