"""Histories in one SQLite file: the tables of PostgreSQL, but for the workers. One process; one transaction for all that waits."""

import asyncio
import contextlib
import fcntl
import os
import queue
import sqlite3
import threading
import typing
from collections.abc import Callable

from . import Absent, Claims, Device, Elsewhere, Fenced, Lease, OnLapse, Stored, StoreDown

SCHEMA = """
PRAGMA journal_mode = WAL;
PRAGMA synchronous = FULL;
CREATE TABLE IF NOT EXISTS history (id INTEGER PRIMARY KEY, name TEXT NOT NULL UNIQUE, epoch INTEGER NOT NULL DEFAULT 0,
    generation INTEGER NOT NULL DEFAULT 1, volume INTEGER NOT NULL DEFAULT 0, length INTEGER NOT NULL DEFAULT 0);
CREATE TABLE IF NOT EXISTS journal (history INTEGER NOT NULL, volume INTEGER NOT NULL, place INTEGER NOT NULL, bytes BLOB NOT NULL,
    PRIMARY KEY (history, volume, place)) WITHOUT ROWID;
CREATE TABLE IF NOT EXISTS device (history INTEGER NOT NULL, uuid BLOB NOT NULL, owner TEXT NOT NULL, generation INTEGER NOT NULL,
    PRIMARY KEY (history, uuid)) WITHOUT ROWID;
"""
ACQUIRE = "UPDATE history SET epoch = epoch + 1 WHERE name = ? RETURNING id, epoch, volume, length, generation"
APPEND = "UPDATE history SET length = length + ? WHERE id = ? AND epoch = ? AND length = ?"
REPLACE = "UPDATE history SET volume = volume + 1, length = ? WHERE id = ? AND epoch = ? AND length = ?"
JOIN_ROWS = 256  # a history that has more rows is joined to one when it is read

Answer = typing.TypeVar("Answer")
Job = Callable[[sqlite3.Connection], typing.Any]


class Sqlite:
    id: object = None

    def __init__(self, path: str):
        self.path, self.jobs = path, queue.Queue[tuple[Job, asyncio.Future[typing.Any]] | None]()
        self.thread = threading.Thread(target=self._work, name="sqlite", daemon=True)

    def on_lapse(self, told: OnLapse) -> None:
        """One process: nothing lapses."""

    async def start(self, address: str) -> None:
        os.makedirs(os.path.dirname(self.path) or ".", mode=0o700, exist_ok=True)
        self.lock = os.open(self.path + ".lock", os.O_RDWR | os.O_CREAT | os.O_CLOEXEC, 0o600)
        try:
            fcntl.flock(self.lock, fcntl.LOCK_EX | fcntl.LOCK_NB)
        except OSError:
            os.close(self.lock)
            raise Elsewhere(None, None) from None
        self.loop = asyncio.get_running_loop()
        try:
            self.link = await asyncio.to_thread(self._connected)
        except (sqlite3.Error, OSError) as error:
            os.close(self.lock)
            raise StoreDown(f"{self.path}: {error}") from error
        self.thread.start()

    def _connected(self) -> sqlite3.Connection:
        os.close(os.open(self.path, os.O_RDWR | os.O_CREAT | os.O_CLOEXEC, 0o600))  # nobody else reads it, nor what SQLite puts beside it
        link = sqlite3.connect(self.path, isolation_level=None, check_same_thread=False)
        link.executescript(SCHEMA)
        return link

    async def stop(self) -> None:
        if self.thread.ident is not None:
            self.jobs.put(None)
            await asyncio.to_thread(self.thread.join)
            os.close(self.lock)

    async def ready(self) -> bool:
        return self.thread.is_alive()

    async def names(self) -> list[str]:
        return await self._do(lambda link: [it for it, in link.execute("SELECT name FROM history ORDER BY name")])

    async def acquire(self, name: str, create: bool, suspect: object = None) -> Lease:
        def job(link: sqlite3.Connection) -> Lease:
            if create:
                link.execute("INSERT INTO history (name) VALUES (?) ON CONFLICT DO NOTHING", (name,))
            row = link.execute(ACQUIRE, (name,)).fetchone()
            if not row:
                raise Absent(name)
            return Lease(name, *row)

        return await self._do(job)

    async def read(self, lease: Lease) -> Stored:
        def job(link: sqlite3.Connection) -> Stored:
            row = link.execute("SELECT volume, length, generation FROM history WHERE id = ? AND epoch = ?", (lease.id, lease.epoch)).fetchone()
            if not row:
                raise Fenced(lease.name)
            lease.volume, lease.length, lease.generation = row
            key = (lease.id, lease.volume)
            rows = link.execute("SELECT bytes FROM journal WHERE history = ? AND volume = ? ORDER BY place", key).fetchall()
            journal = b"".join(it for it, in rows)
            if len(journal) != lease.length:
                raise StoreDown(f"{lease.name}: {len(journal)} bytes of {lease.length}")
            if len(rows) > JOIN_ROWS:
                link.execute("DELETE FROM journal WHERE history = ? AND volume = ?", key)
                link.execute("INSERT INTO journal VALUES (?, ?, 0, ?)", (*key, journal))
            devices = link.execute("SELECT uuid, owner, generation FROM device WHERE history = ?", (lease.id,))
            return Stored(journal + b"\0" if journal else b"", {uuid: Device(user, number) for uuid, user, number in devices})

        return await self._do(job)

    async def append(self, lease: Lease, gate: int, tail: bytes, claims: Claims) -> None:
        body = tail[:-1]

        def job(link: sqlite3.Connection) -> None:
            if tail and gate != lease.length:
                raise StoreDown(f"{lease.name}: a gate at {gate}, and {lease.length} bytes")
            self._changed(link, lease, APPEND, len(body), lease.id, lease.epoch, lease.length)
            if body:
                link.execute("INSERT INTO journal VALUES (?, ?, ?, ?)", (lease.id, lease.volume, lease.length, body))
            link.executemany("INSERT OR IGNORE INTO device VALUES (?, ?, ?, ?)", [(lease.id, uuid, user, lease.generation) for uuid, user in claims])

        await self._do(job)
        lease.length += len(body)

    async def check(self, lease: Lease) -> None:
        """One process has the file."""

    async def replace(self, lease: Lease, journal: bytes) -> None:
        body = journal[:-1]

        def job(link: sqlite3.Connection) -> None:
            self._changed(link, lease, REPLACE, len(body), lease.id, lease.epoch, lease.length)
            link.execute("DELETE FROM journal WHERE history = ?", (lease.id,))
            link.execute("INSERT INTO journal VALUES (?, ?, 0, ?)", (lease.id, lease.volume + 1, body))

        await self._do(job)
        lease.volume, lease.length = lease.volume + 1, len(body)

    async def raise_generation(self, lease: Lease) -> None:
        sql = "UPDATE history SET generation = generation + 1 WHERE id = ? AND epoch = ?"
        await self._do(lambda link: self._changed(link, lease, sql, lease.id, lease.epoch))
        lease.generation += 1

    async def release(self, lease: Lease) -> None:
        """Nobody else may have it."""

    async def remove(self, lease: Lease) -> None:
        def job(link: sqlite3.Connection) -> None:
            sql = "DELETE FROM history WHERE id = ? AND epoch = ? AND length = ?"
            self._changed(link, lease, sql, lease.id, lease.epoch, lease.length)
            link.execute("DELETE FROM journal WHERE history = ?", (lease.id,))
            link.execute("DELETE FROM device WHERE history = ?", (lease.id,))

        await self._do(job)

    @staticmethod
    def _changed(link: sqlite3.Connection, lease: Lease, sql: str, *given: object) -> None:
        """The fence: what another owner changed isn't changed by this one."""
        if link.execute(sql, given).rowcount != 1:
            raise Fenced(lease.name)

    async def _do(self, job: Callable[[sqlite3.Connection], Answer]) -> Answer:
        future: asyncio.Future[Answer] = self.loop.create_future()
        self.jobs.put((job, future))
        try:
            return await future
        except sqlite3.Error as error:
            raise StoreDown(str(error)) from error

    def _work(self) -> None:
        """Does all jobs that wait in one transaction, and tells their answers behind its commit."""
        link, is_ended = self.link, False
        while not is_ended:
            jobs = [self.jobs.get()]
            while not self.jobs.empty():
                jobs.append(self.jobs.get())
            is_ended = None in jobs
            told = self._transaction(link, [it for it in jobs if it])
            if told:
                self.loop.call_soon_threadsafe(self._tell, told)
        link.close()

    @staticmethod
    def _transaction(link: sqlite3.Connection, jobs: list[tuple[Job, asyncio.Future[typing.Any]]]) -> list[tuple[typing.Any, ...]]:
        told: list[tuple[typing.Any, ...]] = []
        try:
            link.execute("BEGIN IMMEDIATE")
            for job, future in jobs:
                try:
                    told.append((future, job(link), None))
                except (Absent, Fenced, StoreDown) as error:  # each is raised before anything of its job is changed
                    told.append((future, None, error))
            link.execute("COMMIT")
        except Exception as error:  # whatever it is: a thread that ends would hold up all histories for good
            with contextlib.suppress(sqlite3.Error):
                if link.in_transaction:
                    link.execute("ROLLBACK")
            told = [(future, None, error) for _, future in jobs]
        return told

    @staticmethod
    def _tell(told: list[tuple[typing.Any, ...]]) -> None:
        for future, answer, error in told:
            if future.done():
                continue
            if error:
                future.set_exception(error)
            else:
                future.set_result(answer)
