#!/usr/bin/env python3
"""A back office: keeps the sales of a station in SQLite, each once.
    examples/backoffice.py FEED SALES.db, or FOLDER SALES.db [FORECOURT]

FEED is the port of a station's feed, or the socket of its door: it is fed until it is stopped.
FOLDER is a history, which `forecourt replay FOLDER --json` reads up to its end. What rows say of
sales and the number of the next row are written in one transaction. So whatever is killed, no sale
is lost, and none is kept twice. Both may take turns. Each history has a SALES.db of its own."""
import json, os, socket, sqlite3, subprocess, sys, time  # noqa: E401

TABLES = """
    create table if not exists place (next integer not null);
    insert into place select 0 where not exists (select * from place);
    create table if not exists sales (shift integer, point integer, number integer,
        millilitres integer, cents integer, status text, sold_at text, cleared_at text,
        primary key (shift, point, number));"""
KEEP = """
    insert into sales values (:shift, :point, :number, :millilitres, :cents, :status, :at, null)
    on conflict do update set status = :status,
        cleared_at = iif(:status = 'cleared', :at, cleared_at)"""


def keep(store, stream):
    """Keeps what the whole lines of a stream say, some thousand octets in a transaction."""
    rest = b""
    while piece := stream.read1(65_536):
        *lines, rest = (rest + piece).split(b"\n")
        store.execute("begin immediate")
        for row in map(json.loads, lines):
            if "fault" in row:
                sys.exit(f"{row['fault']}: read the history's folder first")
            if "sale" in row:
                store.execute(KEEP, {**row["sale"], "point": row["point"], "at": row["at"]})
            if "row" in row:
                store.execute("update place set next = ?", (row["row"] + 1,))
        store.execute("commit")


def main(source, path, forecourt="forecourt"):
    store = sqlite3.connect(path, isolation_level=None)
    store.executescript(TABLES)
    place = lambda: str(store.execute("select next from place").fetchone()[0])  # noqa: E731
    if os.path.isdir(source):
        words = [forecourt, "replay", source, "--json", "--from", place()]
        with subprocess.Popen(words, stdout=subprocess.PIPE) as program:
            sys.exit(keep(store, program.stdout) or program.wait())
    here = ("127.0.0.1", int(source)) if source.isdecimal() else source
    while True:
        try:
            with socket.socket(socket.AF_UNIX if here == source else socket.AF_INET) as feed:
                feed.connect(here)
                feed.sendall(b"from %s\n" % place().encode())
                keep(store, feed.makefile("rb"))
        except OSError as why:
            print(f"no feed: {why}; trying again", file=sys.stderr)
        time.sleep(1)


main(*sys.argv[1:]) if len(sys.argv) in (3, 4) else sys.exit(__doc__)
