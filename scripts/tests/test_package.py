"""The Debian package, as `make package` makes it: what is in it, that it is installed into a root
of its own, runs from there, and leaves nothing behind when it is removed but the histories.
Without `dpkg-deb` these tests are skipped; `lintian`, `systemd-analyze` and the shells are asked
where they are installed."""

import contextlib
import functools
import gzip
import hashlib
import os
import re
import shutil
import signal
import subprocess
import sys
import urllib.request

from shared import manuals
from shared.checks import Skipped, expect, unstored
from shared.running import EXAMPLES, SCRIPTS, TOP, run
from shared.serving import WAIT
from tests.built import PROGRAM
from tests.suite import make_folder, test

HERE = make_folder()
LEAST_SAFE = 2.5  # of systemd-analyze: 0 is the safest
KEPT_BY_DPKG = re.compile(r"var/lib/dpkg/|etc/(passwd|group|shadow|gshadow|\.pwd\.lock)")
STATION = "station --history history --doors doors --port 0 --page 0".split()
DOCUMENTS = "usr/share/doc/forecourt"
SITE = f"{DOCUMENTS}/examples/five_points.toml"
LINK = re.compile(r"\]\(([^()\s#]+)(?:#[^()\s]*)?\)")


def need(program):
    if not shutil.which(program):
        raise Skipped(f"there is no {program}")


def make_package(folder):
    """The package, made into a folder."""
    need("dpkg-deb")
    words = [sys.executable, SCRIPTS / "package", "--program", PROGRAM, "--into", folder]
    made = run(*words)
    expect("scripts/package", (made.status, made.err), (0, ""))
    return made.out.decode().strip()


@functools.cache
def the_package():
    return make_package(HERE / "packages")


@functools.cache
def unpacked():
    """A folder with what is in the package."""
    folder = HERE / "unpacked"
    subprocess.run(["dpkg-deb", "-x", the_package(), folder], check=True)
    return folder


def make_root(name):
    """A root without a package."""
    root = HERE / name
    for folder in ("etc", "var/lib/dpkg/info", "var/lib/dpkg/updates", "var/lib/dpkg/triggers"):
        (root / folder).mkdir(parents=True)
    (root / "var/lib/dpkg/status").touch()
    return root


def ask_dpkg(root, *words):
    if os.geteuid() != 0:
        raise Skipped("only root installs a package")
    end = run("dpkg", f"--root={root}", "--force-script-chrootless", "--force-depends", *words)
    expect(f"dpkg {words[0]}", end.status, 0)
    expect("folders that aren't removed", "not empty" in end.err, False)
    return end


def files_of(root):
    """The files of a root, but for those that dpkg and the users' tools keep."""
    paths = (str(path.relative_to(root)) for path in root.rglob("*") if not path.is_dir())
    return sorted(path for path in paths if not KEPT_BY_DPKG.match(path))


def wanted_files():
    """The files that are to be installed: those of the issue, and the examples."""
    commands = ["", *manuals.read_help(PROGRAM, "").commands]
    pages = [f"forecourt-{name}" if name else "forecourt" for name in commands if name != "help"]
    return {
        "usr/bin/forecourt",
        "usr/lib/forecourt/run-station",
        "usr/lib/systemd/system/forecourt@.service",
        "usr/lib/sysusers.d/forecourt.conf",
        "usr/lib/tmpfiles.d/forecourt.conf",
        "usr/share/bash-completion/completions/forecourt",
        "usr/share/zsh/vendor-completions/_forecourt",
        "usr/share/fish/vendor_completions.d/forecourt.fish",
        "usr/share/forecourt/build",
        f"{DOCUMENTS}/copyright",
        f"{DOCUMENTS}/README.Debian",
        f"{DOCUMENTS}/OPERATING.md.gz",
        f"{DOCUMENTS}/examples/till.py",
        SITE,
        *(f"usr/share/man/man1/{page}.1.gz" for page in pages),
    }


@test
def the_same_sources_make_the_same_package():
    """Made twice, it is the same, octet for octet."""
    first, second = the_package(), make_package(HERE / "again")
    with open(first, "rb") as one, open(second, "rb") as other:
        expect("the second package", one.read() == other.read(), True)


@test
def it_is_installed_and_removed():
    """Installed into a root of its own, each file is in its place, the user of stations is there,
    and the program runs. Removed, nothing is left but a history, not even what Python left beside
    the examples, or `systemctl enable` and `systemctl edit` of a unit, and a line says so."""
    root = make_root("root")
    ask_dpkg(root, "-i", the_package())
    expect("missing files", wanted_files() - set(files_of(root)), set())
    expect("user", "\nforecourt:" in "\n" + (root / "etc/passwd").read_text(), True)
    stations = root / "var/lib/forecourt"
    expect("mode of the stations' folder", oct(stations.stat().st_mode & 0o777), "0o711")
    checked = run(root / "usr/bin/forecourt", "check", root / SITE)
    expect("check", (checked.status, checked.out), (0, b"ok points 5 nozzles 10 products 2\n"))
    (stations / "north/history").mkdir(parents=True)
    (stations / "north/history/chapter-000001").write_text("a history\n")
    compiled = root / DOCUMENTS / "examples/__pycache__/talk.pyc"
    compiled.parent.mkdir()
    compiled.touch()
    units = root / "etc/systemd/system"
    enabled = units / "multi-user.target.wants/forecourt@north.service"
    edited = units / "forecourt@north.service.d/override.conf"
    for path in (enabled, edited):
        path.parent.mkdir(parents=True)
    enabled.symlink_to("/usr/lib/systemd/system/forecourt@.service")
    edited.write_text("[Unit]\nRequiresMountsFor=/var/lib/forecourt\n")
    purged = ask_dpkg(root, "-P", "forecourt").out.decode()
    expect("left", files_of(root), ["var/lib/forecourt/north/history/chapter-000001"])
    expect("the unit of a station", [enabled.is_symlink(), edited.parent.exists()], [False, False])
    expect("the examples' folder", compiled.parent.parent.exists(), False)
    told = [line for line in purged.splitlines() if "/var/lib/forecourt" in line]
    expect("what stays", len(told), 1)


@test
def nothing_is_left_without_a_history():
    """A package that is installed and purged, without a station, leaves no folder."""
    root = make_root("empty")
    ask_dpkg(root, "-i", the_package())
    ask_dpkg(root, "-P", "forecourt")
    expect("left", files_of(root), [])
    expect("folder", (root / "var/lib/forecourt").exists(), False)


@test
def links_of_the_documents():
    """Each link of a document leads to a file of the package."""
    folder = unpacked() / DOCUMENTS
    texts = {path: gzip.decompress(path.read_bytes()).decode() for path in folder.glob("*.md.gz")}
    texts[folder / "examples/README.md"] = (folder / "examples/README.md").read_text()
    links = [(path, link) for path in texts for link in LINK.findall(texts[path])]
    own = [(path, link) for path, link in links if not link.startswith("http")]
    expect("there are many", len(own) > 50, True)
    lost = [f"{path.name}: {link}" for path, link in own if not (path.parent / link).exists()]
    expect("those that lead nowhere", lost, [])


@test
def the_version_says_of_what_it_was_made():
    """An installed program names its SHA-256, the commit and the kit, as the package's record says;
    another program beside the same record names its own SHA-256 alone."""
    need("unshare")
    root = unpacked()
    program = root / "usr/bin/forecourt"
    record = (root / "usr/share/forecourt/build").read_text()
    digest = hashlib.sha256(program.read_bytes()).hexdigest()
    commit, kit = (run(*words, cwd=TOP).out.decode().strip()
                   for words in (("git", "rev-parse", "HEAD"), ("rt", "--version")))  # fmt: skip
    expect("the record", record, f"sha256 {digest}\ncommit {commit}\nkit {kit}\n")
    other = HERE / "another_program"
    other.write_bytes(program.read_bytes() + b"\0")
    other.chmod(0o755)
    own = hashlib.sha256(other.read_bytes()).hexdigest()
    mount = f"mount --bind {root}/usr/share /usr/share && exec "
    for what, path, wanted in (
        ("installed", program, record),
        ("another one", other, f"sha256 {own}\n"),
    ):
        told = run("unshare", "--mount", "sh", "-c", f"{mount}{path} --version")
        if told.status != 0 and not told.out:
            raise Skipped(f"no mounts here: {told.err.strip()}")
        expect(what, told.out.decode().split("\n", 1)[1], wanted)


@test
def lintian_finds_no_error():
    need("lintian")
    looked = run("lintian", "--allow-root", the_package())
    errors = [line for line in looked.out.decode().splitlines() if line.startswith("E:")]
    expect("errors", (errors, looked.status), ([], 0))


@test
def the_unit_is_safe():
    """`systemd-analyze` finds nothing wrong with the unit, and calls it safe."""
    need("systemd-analyze")
    unit = (unpacked() / "usr/lib/systemd/system/forecourt@.service").read_text()
    path = HERE / "forecourt@.service"
    for program in ("usr/bin/forecourt", "usr/lib/forecourt/run-station"):
        unit = unit.replace(f"/{program}", str(unpacked() / program))
    path.write_text(unit)
    verified = run("systemd-analyze", "verify", "--man=no", path)
    expect("verify", (verified.status, verified.err), (0, ""))
    looked = run("systemd-analyze", "security", "--offline=true", "--no-pager", path)
    level = re.search(r"exposure level for \S+: ([0-9.]+)", looked.out.decode())
    expect("exposure", float(level[1]) <= LEAST_SAFE, True)


def calls_of(group):
    """The calls of a group as the unit names it, as `@chown`, and of the groups in it."""
    shown = run("systemd-analyze", "syscall-filter", group).out.decode().splitlines()[1:]
    names = {line.strip() for line in shown if not line.strip().startswith("#")}
    found = {name for name in names if name and not name.startswith("@")}
    for inner in names - found - {""}:
        found |= calls_of(inner)
    return found


def allowed_calls(unit):
    """The calls that the unit's filter lets through: each line adds to them, or takes away."""
    allowed = set()
    for minus, groups in re.findall(r"^SystemCallFilter=(~?)(.*)$", unit, re.M):
        calls = set().union(*(calls_of(group) for group in groups.split()))
        allowed = allowed - calls if minus else allowed | calls
    return allowed


def heed_interrupts():
    """Before a shell starts: it can't trap a signal that is ignored as it begins, as SIGINT is in
    the background."""
    signal.signal(signal.SIGINT, signal.SIG_DFL)


@contextlib.contextmanager
def run_station(folder, *words):
    """A station, started as the unit does, that was asked at a door and by HTTP. It has to be
    asked to end, and prints its report then. Words stand before the command."""
    command = [*words, unpacked() / "usr/lib/forecourt/run-station", PROGRAM, *STATION]
    how = {"cwd": folder, "stdout": subprocess.PIPE, "preexec_fn": heed_interrupts}
    with subprocess.Popen(command, **how) as station:
        page = next(line for line in station.stdout if line.startswith(b"page "))
        with urllib.request.urlopen(page.decode().split()[1] + "healthz") as answer:
            expect("healthz", answer.read(), b"ok\n")
        door = folder / "doors/till-01/socket"
        asked = run(PROGRAM, "ask", "--door", door, given=b"t1 SignOn\n")
        expect("ask", (asked.status, asked.err), (0, ""))
        yield station
        report = station.stdout.read().decode()
    expect("station", (station.returncode, report[:5]), (0, "rows "))


def make_site(name):
    folder = HERE / name
    (folder / "history").mkdir(parents=True)
    (folder / "doors/till-01").mkdir(parents=True)
    shutil.copy(EXAMPLES / "five_points.toml", folder / "history/site.toml")
    return folder


@test
def a_signal_as_the_station_starts():
    """Asked to end before the station reads its input, what the unit runs ends it all the same."""
    runner = unpacked() / "usr/lib/forecourt/run-station"
    for word in ("TERM", "INT"):
        command = [runner, "sh", "-c", f"kill -{word} $PPID; cat; echo ended"]
        end = run(*command, preexec_fn=heed_interrupts)
        expect(word, (end.status, end.out, end.err), (0, b"ended\n", ""))


@test
def a_stopped_unit_ends_its_day():
    """Asked to end by SIGTERM or SIGINT, what the unit runs ends as at the end of standard input:
    the till that is signed on is signed off in the history, and the report is printed."""
    folder = make_site("stopped")
    for number, asked in enumerate((signal.SIGTERM, signal.SIGINT), 1):
        with run_station(folder) as station:
            station.send_signal(asked)
        rows = run(PROGRAM, "explain", folder / "history").out.decode()
        expect("signed off", rows.count("SignOff"), number)


@test
def a_station_that_cannot_start_says_so():
    """What the unit runs ends with the station's own status, and leaves nothing behind."""
    folder = HERE / "no_site"
    (folder / "tmp").mkdir(parents=True)
    command = [unpacked() / "usr/lib/forecourt/run-station", PROGRAM, *STATION]
    ended = run("env", f"TMPDIR={folder / 'tmp'}", *command, cwd=folder)
    alone = run(PROGRAM, *STATION, cwd=folder)
    expect("ended", (ended.status, ended.err), (alone.status, alone.err))
    expect("left", list((folder / "tmp").iterdir()), [])


@test
def a_full_file_is_a_fault():
    """At a limit of a file's size what the unit runs ends with `fault 62`, and not by a signal."""
    folder = make_site("full")
    run_it = unpacked() / "usr/lib/forecourt/run-station"
    command = ["sh", "-c", 'ulimit -f 8; exec "$@"', "sh", run_it, PROGRAM, *STATION]
    with subprocess.Popen(command, cwd=folder, stdout=-1, stderr=-1) as station:
        next(line for line in station.stdout if line.startswith(b"page "))
        door = folder / "doors/till-01/socket"
        for _ in range(100):
            if station.poll() is not None:
                break
            run(PROGRAM, "ask", "--door", door, given=b"t1 SignOn\nt1 SignOff\n" * 20)
        fault = f"{unstored('history')}\n".encode()
        expect("the end", (station.wait(WAIT), station.stderr.read()), (1, fault))


def trace_start(folder):
    """The calls of the system that a station makes which answers a till at its door, and the page,
    and of the shell that runs it."""
    trace = folder / "trace"
    with run_station(folder, "strace", "-f", "-qq", "-o", trace):
        os.kill(int(trace.read_text().split()[0]), signal.SIGTERM)
    return set(re.findall(r"^\d+ +(\w+)\(", trace.read_text(), re.M))


@test
def the_unit_lets_the_station_call():
    """A station that begins a history, goes on with it, and answers a till and the page makes no
    call of the system that the unit's filter refuses."""
    need("systemd-analyze")
    need("strace")
    folder = make_site("station")
    made = trace_start(folder) | trace_start(folder)
    unit = (unpacked() / "usr/lib/systemd/system/forecourt@.service").read_text()
    expect("refused calls", made - allowed_calls(unit) - {"execve"}, set())


@test
def shells_read_the_completions():
    """Each shell that is installed reads its completions, and they name each command."""
    names = manuals.read_help(PROGRAM, "").commands
    for shell, path in {
        "bash": "usr/share/bash-completion/completions/forecourt",
        "zsh": "usr/share/zsh/vendor-completions/_forecourt",
        "fish": "usr/share/fish/vendor_completions.d/forecourt.fish",
    }.items():
        text = (unpacked() / path).read_text()
        expect(f"{shell}: missing", [name for name in names if name not in text], [])
        if shutil.which(shell):
            read = run(shell, "-n", unpacked() / path)
            expect(shell, (read.status, read.err), (0, ""))


@test
def bash_completes():
    """bash completes a command, an option of it, and a command that help is asked of."""
    script = unpacked() / "usr/share/bash-completion/completions/forecourt"
    typed = {("sta",): "station", ("station", "--doo"): "--doors", ("help", "sto"): "story"}
    for words, wanted in typed.items():
        line = " ".join(f"'{word}'" for word in ("forecourt", *words))
        asked = f"""source '{script}'; COMP_WORDS=({line}); COMP_CWORD={len(words)}
            _forecourt 2> /dev/null; echo "${{COMPREPLY[@]}}" """
        expect(" ".join(words), run("bash", "-c", asked).out.decode().strip(), wanted)


@test
def each_option_is_in_its_page():
    """The page of a command names each of its options."""
    for one in manuals.read_helps(PROGRAM):
        path = unpacked() / f"usr/share/man/man1/{manuals.page_name(one)}.1.gz"
        page = run("gzip", "-dc", path).out.decode().replace("\\-", "-")
        options = [name for option in one.options for name in option.names]
        expect(path.name, [name for name in options if name not in page], [])
