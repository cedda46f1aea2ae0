#!/usr/bin/env python3
"""What the package takes in Python, beside SQLite with its journal ahead of it (WAL) and synced at each commit. Times are those on the clock, and
those on the processor in brackets, in milliseconds.

usage: PYTHONPATH=python/src python/bench/packages.py
"""

from __future__ import annotations

import gzip
import os
import sqlite3
import subprocess
import sys
import tempfile
import time
from collections.abc import Callable

import realm_sync
from realm_sync import Client, Counter, Database, Server, table

COUNT = 10_000


@table("notes")
class Note:
    id: int
    text: str
    done: bool
    read: Counter


def timed(what: str, times: int, work: Callable[[], object]) -> None:
    began, used = time.perf_counter(), time.process_time()
    work()
    clock, processor = (1000 * it / times for it in (time.perf_counter() - began, time.process_time() - used))
    digits = 4 if times > 1 else 1
    print(f"{what:66} {clock:9.{digits}f} ms ({processor:.{digits}f})")


def add(db: Database, first: int, count: int) -> None:
    for number in range(first, first + count):
        with db.write() as tx:
            tx.create(Note, id=number, text=f"note {number}", done=number % 3 == 0)


def sqlite(path: str) -> sqlite3.Connection:
    found = sqlite3.connect(path, isolation_level=None)
    found.executescript("PRAGMA journal_mode=WAL; PRAGMA synchronous=FULL")
    found.execute("CREATE TABLE notes (id INTEGER PRIMARY KEY, text TEXT, done INTEGER, read INTEGER)")
    return found


def add_sqlite(db: sqlite3.Connection, first: int, count: int) -> None:
    for number in range(first, first + count):
        db.execute("INSERT INTO notes VALUES (?, ?, ?, 0)", (number, f"note {number}", number % 3 == 0))


def commits(folder: str) -> None:
    with Database(None, [Note]) as db:
        timed("a commit of an object, in memory", 5000, lambda: add(db, 0, 5000))
    with Database(f"{folder}/db", [Note]) as db:
        timed("a commit onto a file, on the disk when it ends", 300, lambda: add(db, 0, 300))
    with Database(f"{folder}/sealed", [Note], key=bytes(32)) as db:
        timed("the same, encrypted", 300, lambda: add(db, 0, 300))
    beside = sqlite(f"{folder}/sqlite")
    timed("beside: a commit of SQLite", 300, lambda: add_sqlite(beside, 0, 300))
    beside.close()


def queries() -> None:
    with Database(None, [Note]) as db:
        for part in range(0, COUNT, 1000):
            db.run(lambda tx: [tx.create(Note, id=it, text=f"note {it}", done=it % 3 == 0) for it in range(part, part + 1000)])
        timed("where and sort of 10,000 objects, anew", 1, lambda: db[Note].where(done=False).sort("text").all())
        db[Note].where(done=False).sort("text").observe(lambda rows: None)

        def change() -> None:
            for number in range(500):
                with db.write() as tx:
                    tx.update(Note, number * 7, text=f"changed {number}")

        timed("a commit beside a live query of 6,666 of them, in memory", 500, change)
    beside = sqlite(":memory:")
    beside.execute("BEGIN")
    add_sqlite(beside, 0, COUNT)
    beside.execute("COMMIT")

    def select() -> None:
        beside.execute("SELECT * FROM notes WHERE NOT done ORDER BY text").fetchall()

    def change_sqlite() -> None:
        for number in range(20):
            beside.execute("UPDATE notes SET text = ? WHERE id = ?", (f"changed {number}", number * 7))
            select()

    timed("beside: SELECT of the same, of SQLite", 1, select)
    timed("beside: an UPDATE and the SELECT again, of SQLite in memory", 20, change_sqlite)
    beside.close()


def opening(folder: str, count: int) -> None:
    path = f"{folder}/opened{count}"
    with Client() as made:
        made.born("00000000-0000-4000-8000-000000000001")
        with made.transaction() as edits:
            edits.add_table("notes", "Int")
            for name, kind in (("text", "Text"), ("done", "Bool"), ("read", "Int")):
                edits.add_column("notes", name, kind)
        for number in range(count):
            with made.transaction() as edits:
                edits.create("notes", number)
                edits.update("notes", number, "text", f"note {number}")
        with open(path, "wb") as it:
            it.write(made._engine.data())
    beside = sqlite(f"{path}.sqlite")
    beside.execute("BEGIN")
    add_sqlite(beside, 0, count)
    beside.execute("COMMIT")
    beside.close()
    # Each in a process of its own, for its memory.
    for kind, file in (("database", path), ("sqlite", f"{path}.sqlite")):
        subprocess.run([sys.executable, __file__, kind, file, str(count)], check=True)


def most_memory() -> int:
    """Of this process, in MB. (What getrusage says begins with that of the process that started this one.)"""
    with open("/proc/self/status", encoding="ascii") as status:
        return next(int(it.split()[1]) // 1024 for it in status if it.startswith("VmHWM"))


def open_one(kind: str, path: str, count: int) -> None:
    """Opens a file, and has all of its objects."""
    before, found = most_memory(), list[Note]()
    if kind == "sqlite":

        def select() -> None:
            rows = sqlite3.connect(path).execute("SELECT * FROM notes")
            found.extend(Note(id=id_, text=text, done=bool(done), read=Counter(read)) for id_, text, done, read in rows)

        timed(f"beside: opening SQLite's file, and {count:,} rows as objects", 1, select)
    else:
        timed(f"opening {count:,} own transactions, all unsent", 1, lambda: found.extend(Database(path, [Note])[Note]))
    print(f"{'  the memory of the process, more than before':66} {most_memory() - before:9} MB")


def first_sync(folder: str) -> None:
    with Server() as server, Client() as one, Client(f"{folder}/first") as other:
        for place, it in enumerate((one, other)):
            it.born(f"00000000-0000-4000-8000-00000000000{place}")
        one.commit([{"op": "AddTable", "table": "notes", "key": "Int"}])
        for number in range(4000):
            one.commit([{"op": "CreateObject", "table": "notes", "key": number}])
        timed("sending 4,000 transactions, and taking them back", 1, lambda: one.sync(server.take))
        timed("a new device's first sync of 4,000 entries, onto a file", 1, lambda: other.sync(server.take))


def sizes() -> None:
    """The shared libraries, as they are on the disk."""
    here = os.path.join(os.path.dirname(realm_sync.__file__), "librealm_sync.so")
    mapped = {line.split()[-1] for line in open("/proc/self/maps", encoding="ascii") if "libsqlite3" in line}
    for name, path in (("the shared library", here), *(("beside: SQLite's", it) for it in mapped)):
        with open(path, "rb") as it:
            data = it.read()
        print(f"{name:66} {len(data):9} bytes, {len(gzip.compress(data))} by gzip")


def main() -> None:
    sizes()
    with tempfile.TemporaryDirectory(dir=os.environ.get("FOLDER")) as folder:
        commits(folder)
        queries()
        first_sync(folder)
        opening(folder, 10_000)
        opening(folder, 100_000)


if len(sys.argv) == 4:
    open_one(sys.argv[1], sys.argv[2], int(sys.argv[3]))
else:
    main()
