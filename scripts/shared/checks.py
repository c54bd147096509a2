"""Checks. One that fails ends its test, unless the test's checks are independent of each other:
then each is counted, and the next one is made all the same."""

import contextlib
import os
import re
import threading

SHOWN = 300  # characters of a text that isn't as wanted
NO_FILE = "No such file or directory"  # the system's words
# Fault 62, where standard output takes no more, and below it what to do.
NOT_PRINTED = (
    "fault 62\nstandard output can't be written: see whether it is closed, a disk is full, or the"
    " program that reads it has ended"
)
# Below the name of a folder or of its site file, where a station can't open or lock a file there.
OPEN_IT = (
    "see that this user owns the history's folder and each file in it, that more files may be open"
    " (ulimit -n), and that the disk may be written"
)
# What a station says once that can't accept a connection.
UNACCEPTED = (
    "cannot accept: Too many open files (os error 24); it is tried again each second; let more"
    " files be open (ulimit -n, LimitNOFILE)\n"
)
# What a station says once that can't begin its next chapter.
NO_NEW_CHAPTER = (
    "no new chapter can be made: the open one goes on; see that its disk has room, that this user"
    " may write to its folder, and that nothing there has the next chapter's name\n"
)
# What a day says that can't wait for connections, or make one, and that can't start a thread.
UNCONNECTED = (
    "fault 63\n"
    "cannot wait for connections, or make one: raise the limit of open files (ulimit -n)\n"
)
NO_THREAD = (
    "fault 64\ncannot start a thread: raise the limit of address space (ulimit -v), or of processes"
    " (ulimit -u)\n"
)
# Below the name of a folder that a station can't make.
NOT_MADE = (
    "see that the folder above it exists, that this user may enter it, and, if the folder is new,"
    " may write there"
)
ADVICE = {
    r"chapter (?P<number>\d+) is missing":
        "put {folder}/{number:0>6}.journal back from a backup, or take the later ones out if they"
        " don't belong there",
    r"chapter (?P<number>\d+) line 1":
        "{folder}/{number:0>6}.journal is empty, or begins as no chapter {number} does: put the"
        " right file back from a backup (if it is the last one, see 'chapter N line 1' in"
        " OPERATING.md)",
    r"chapter (?P<number>\d+) line (?P<line>\d+)":
        "line {line} of {folder}/{number:0>6}.journal is torn or was edited, or, if it is a seal, a"
        " line above it: see 'A chapter with a bad line' in OPERATING.md",
    r"chapter (?P<number>\d+) doesn't go on from chapter (?P<before>\d+)":
        "{folder}/{before:0>6}.journal doesn't end with the seal that"
        " {folder}/{number:0>6}.journal names: put back from a backup the one that was cut or"
        " changed, and take none out whose rows count",
    r"history of another site":
        "{folder}/{chapter:0>6}.journal names another site file than {folder}/site.toml: put back"
        " from a backup the one that was changed, or take out the chapter of another station",
    r"history in use":
        "stop the station that has {folder} (fuser -v {folder}/lock shows who has it locked), and"
        " print into none of its files",
    r"site\.toml: fault 74 rows":
        "rows in {folder}/site.toml is {rows}, and at least 1024 for a station: if one has run on"
        " this file, put it back from a backup, otherwise raise it",
    r"site\.toml: fault .*":
        "forecourt check {folder}/site.toml shows where: if a station has run on this file, put it"
        " back from a backup, otherwise correct it",
    r"fault 74 rows":
        "rows is {rows}, and at least 1024 for a station: raise it in {file}, or leave it out",
    r"fault 31":
        "memory ran out: allow 200 MB of address space or more (ulimit -v), or end programs that"
        " need much",
    r"fault 4[0-3]":
        "what comes next is no message (forecourt explain, with this number, says why): correct it,"
        " or the length of the one before it, since nothing from there on counts",
    r"fault 44":
        "the input ends inside a message: add what is missing of it, or correct its length",
    r"line \d+: not hexadecimal":
        "a line has pairs of hexadecimal digits: correct it, or have requests in words spelled by"
        " forecourt spell",
    r"line \d+: too long": "a line has at most 65,536 octets: cut it in two",
    r"fault 61":
        "standard input can't be read: see that it is open and no folder, and whether its disk"
        " fails",
    r"script line \d+":
        "{text}no such line may stand there, or it is the last one, and there is no section: see 'Demo"
        " scripts' in PROGRAM.md",
    r"house \d+: no manager":
        "name a till that nobody uses, and that the site file has among its managers",
    r"door .*: no node": "rename the folder, as till-01, dispenser-01 or feed, or take it out",
    r"door .*: in use": "stop the station that has the doors in {folder}",
    r"door (?P<name>.*): cannot listen":
        "{folder}/{name}/socket is no socket: take it out",
}  # fmt: skip


class Failed(Exception):
    """What failed, in words."""


class Skipped(Exception):
    """Why a test can't be made here."""


class Running(threading.local):
    """The test of independent checks that runs on this thread, if one does."""

    counts = None


RUNNING = Running()


class Counts:
    """How many checks of a test passed, and how many failed. Each failure is told as it comes."""

    def __init__(self, tell):
        self.passed, self.failed, self.tell = 0, 0, tell

    def fail(self, why):
        self.failed += 1
        self.tell(why)


@contextlib.contextmanager
def count_each(counts):
    """In the block the checks of this thread are independent, and counted here."""
    RUNNING.counts = counts
    try:
        yield
    finally:
        RUNNING.counts = None


def expect(what, got, wanted):
    """A check: what was got is what is wanted."""
    expect_parts(what, {"": got}, {"": wanted})


def expect_end(what, end, status=0, out=b"", err=""):
    """A run ended with this status, these octets on standard output, or those of a file, and, but
    for a line feed, this text on standard error."""
    out = out.read_bytes() if isinstance(out, os.PathLike) else out
    got = {"status ": end.status, "output ": end.out, "error ": end.err.removesuffix("\n")}
    expect_parts(what, got, {"status ": status, "output ": out, "error ": err})


def advised(fault, folder=None, chapter=1, **named):
    """A fault, and below it what to do: of the history, or of the doors, in this folder as a
    station and those who read it say it, of the chapter that names another site, and of what else
    is named."""
    named |= {"folder": folder, "chapter": str(chapter)}
    for pattern, advice in ADVICE.items():
        if found := re.fullmatch(pattern, fault):
            return f"{fault}\n{advice.format(**named, **found.groupdict())}"
    raise Failed(f"no advice for {fault}")


# What a program says that has no memory left.
NO_MEMORY = advised("fault 31") + "\n"


def without_folder(option):
    """What a command says of an option that only the folder of a history takes."""
    advice = "see that there is one, and that this user may enter it"
    return f"error: '{option}' needs the folder of a history: {advice}"


def no_history(folder, why):
    """What a command says of a folder without a site file, for which the system says why."""
    advice = f"see that {folder} is the folder of a history, and that its disk is mounted"
    return f"cannot read {folder}/site.toml: {why}\n{advice}"


def unwritten(folder):
    """Fault 62 of a start that can't write the last chapter in this folder, and what to do."""
    advice = (
        "can't be written: see whether the disk is full or fails, that this user may write to the"
        " folder, and that nothing in it but a file is called *.starting"
    )
    return f"fault 62\nthe last chapter in {folder} {advice}"


def chapter_unread(folder):
    """A start can't read or flush a chapter in this folder, and what to do."""
    return (
        f"cannot read {folder}\na chapter can't be read or flushed: see that each is a file that"
        f" this user may read (forecourt verify {folder} names one that isn't), and whether the"
        " disk fails"
    )


def unstored(folder):
    """Fault 62 of a station that can't write its history in this folder, and what to do."""
    advice = (
        "can't be written: see whether its disk is full or fails, or one of its files was changed,"
        " and start again; no peer was told what isn't stored"
    )
    return f"fault 62\nthe history in {folder} {advice}"


def unprinted(folder):
    """Fault 62 of a station whose history in this folder has each row, and what to do."""
    advice = (
        "can't be written: see whether a disk is full or fails, or the program that reads the"
        f" output has ended; forecourt report {folder} prints the report"
    )
    return f"fault 62\neach row is stored, but a seal in {folder}, or standard output, {advice}"


def another_site(given, folder):
    """A site file that is given describes another site than the one of the history in a folder."""
    return (
        f"history of another site\n{given} describes another site than {folder}/site.toml: leave"
        " it out, or give the file with which the history began"
    )


def first_line(text):
    """The first line of a text, with its line feed: of a site file's fault its number and key."""
    return text[: text.find("\n") + 1]


def expect_parts(what, got, wanted):
    """One check of some parts: those that differ are told."""
    wrong = [
        f"{name}{shorten(got[name])}, wanted {shorten(wanted[name])}"
        for name in got
        if got[name] != wanted[name]
    ]
    if wrong:
        fail(f"{what}: {'; '.join(wrong)}")
    elif RUNNING.counts:
        RUNNING.counts.passed += 1


def fail(why):
    """A check has failed."""
    if not RUNNING.counts:
        raise Failed(why)
    RUNNING.counts.fail(why)


def shorten(value):
    """A value as it is printed: octets in hexadecimal where they aren't text, and not all of a
    long one."""
    if isinstance(value, bytes):
        value = value.decode() if value.isascii() and b"\0" not in value else value.hex(" ")
    text = repr(value)
    return text[:SHOWN] + ".." if len(text) > SHOWN else text
