"""Histories in PostgreSQL. Each worker has a lease that it renews; a history's epoch rises whenever a worker takes it, and each append is
one statement that compares epoch and length: so a worker that lost a history can't append to it, whatever it believes."""

import asyncio
import contextlib
import importlib.resources
import logging
import time
import typing
import uuid as uuids
from collections.abc import AsyncIterator

import asyncpg

from . import Absent, Claims, Device, Elsewhere, Fenced, Lease, OnLapse, Stored, StoreDown
from .writers import LOST, Writer, connected

log = logging.getLogger("realm_service")
SCHEMA_LOCK = 7291  # two workers that start at once make the tables one after the other
MOST_LINKS = 8  # connections for all but appends and the lease

ACQUIRE = """
WITH gone AS (DELETE FROM worker WHERE id = $3)
UPDATE history SET owner = $1, epoch = epoch + 1 WHERE name = $2 AND (owner IS NULL OR owner = $1 OR owner = $3
    OR NOT EXISTS (SELECT FROM worker w WHERE w.id = history.owner AND w.until > clock_timestamp()))
RETURNING id, epoch, volume, length, generation
"""
OWNER = "SELECT owner, address FROM history LEFT JOIN worker w ON w.id = owner WHERE name = $1"
RENEW = """
UPDATE worker SET until = clock_timestamp() + $2 * interval '1 s' WHERE id = $1 AND until > clock_timestamp() RETURNING id
"""
BEGIN = """
INSERT INTO worker VALUES ($1, $2, clock_timestamp() + $3 * interval '1 s') ON CONFLICT (id) DO UPDATE SET until = EXCLUDED.until
"""
JOIN_ROWS = """
WITH mine AS (SELECT id FROM history WHERE id = $1 AND epoch = $2 AND volume = $3 FOR NO KEY UPDATE),
old AS (DELETE FROM journal j USING mine WHERE j.history = mine.id AND j.volume = $3 AND j.place < $4 RETURNING j.place, j.bytes)
INSERT INTO journal SELECT $1, $3, 0, string_agg(bytes, '' ORDER BY place) FROM old HAVING count(*) > 0
"""
REPLACE = """
WITH mine AS (UPDATE history SET volume = volume + 1, length = octet_length($4::bytea)
    WHERE id = $1 AND epoch = $2 AND length = $3 RETURNING id, volume),
gone AS (DELETE FROM journal j USING mine WHERE j.history = mine.id AND j.volume < mine.volume)
INSERT INTO journal SELECT id, volume, 0, $4 FROM mine RETURNING volume
"""
RAISE = "UPDATE history SET generation = generation + 1 WHERE id = $1 AND epoch = $2 RETURNING generation"
REMOVE = "DELETE FROM history WHERE id = $1 AND epoch = $2 AND length = $3 RETURNING id"


class _Links:
    """So many connections at most. The driver's own pool keeps to the first host that answered, also after another one has taken its place."""

    def __init__(self, dsn: str, most: int):
        self.dsn, self.room = dsn, asyncio.Semaphore(most)
        self.free: list[asyncpg.Connection] = []

    @contextlib.asynccontextmanager
    async def one(self) -> AsyncIterator[asyncpg.Connection]:
        async with self.room:
            link = self.free.pop() if self.free else None
            if link is None or link.is_closed():
                link = await connected(self.dsn)
            try:
                yield link
            except BaseException:
                link.terminate()
                raise
            self.free.append(link)

    def end(self) -> None:
        for link in self.free:
            link.terminate()


class Postgres:
    def __init__(self, dsn: str, seconds: float = 3.0, writers: int = 2, join_rows: int = 256):
        self.dsn, self.seconds, self.join_rows = dsn, seconds, join_rows
        self.id: object = uuids.uuid4()
        self.valid_until = 0.0  # by this machine's monotonic clock: up to then nobody else takes what is ours
        self.address, self.lapses, self.told_lapses = "", 0, 0
        self.told: OnLapse = lambda _: None
        self.writers = [Writer(dsn) for _ in range(writers)]
        self.tasks: list[asyncio.Task[None]] = []
        self.links = _Links(dsn, MOST_LINKS)
        self.own = _Links(dsn, 1)  # of the lease, which waits for no caller

    def on_lapse(self, told: OnLapse) -> None:
        self.told = told

    async def start(self, address: str) -> None:
        self.address = address
        try:
            async with self.own.one() as link:
                await self._prepare(link)
        except (asyncpg.PostgresError, *LOST, ValueError) as error:  # such as a name of a database that there isn't
            raise StoreDown(f"PostgreSQL: {type(error).__name__}: {error}") from error
        await self.renew()
        self.tasks = [asyncio.create_task(it) for it in (self._renew_always(), *(writer.run() for writer in self.writers))]

    async def _prepare(self, link: asyncpg.Connection) -> None:
        schema = importlib.resources.files(__package__).joinpath("schema.sql").read_text(encoding="utf-8")
        await link.execute("SELECT pg_advisory_lock($1)", SCHEMA_LOCK)
        try:
            if await link.fetchval("SELECT to_regclass('device')") is None:  # (a user that may make no tables can serve those that are there)
                await link.execute(schema)
        finally:
            await link.execute("SELECT pg_advisory_unlock($1)", SCHEMA_LOCK)
        if self.address:  # who listened there before is gone: this process has it now
            await link.execute("DELETE FROM worker WHERE address = $1", self.address)
        for setting in ("fsync", "synchronous_commit"):
            if await link.fetchval(f"SHOW {setting}") == "off":
                log.warning("PostgreSQL has %s off: what it confirmed may be lost", setting)

    async def stop(self) -> None:
        for task in self.tasks:
            task.cancel()
        with contextlib.suppress(StoreDown):
            await self._run_own("execute", "DELETE FROM worker WHERE id = $1", self.id, seconds=5)
        self.links.end()
        self.own.end()

    async def ready(self) -> bool:
        return time.monotonic() < self.valid_until

    async def names(self) -> list[str]:
        return [row["name"] for row in await self._run("fetch", "SELECT name FROM history ORDER BY name COLLATE \"C\"")]

    async def renew(self) -> None:
        """The lease of all that is ours. Where it had ended, or another worker had declared this one dead, each history is looked at."""
        asked = time.monotonic()
        if not await self._run_own("fetchval", RENEW, self.id, self.seconds, seconds=self.seconds):
            await self._run_own("execute", BEGIN, self.id, self.address, self.seconds, seconds=self.seconds)
            self.lapses += 1
        lapses = self.lapses
        if self.told_lapses != lapses:  # also one that couldn't be told when it was seen
            rows = await self._run_own("fetch", "SELECT id, epoch FROM history WHERE owner = $1", self.id)
            self.told({(row["id"], row["epoch"]) for row in rows})
            self.told_lapses = lapses
        self.valid_until = asked + self.seconds

    async def _renew_always(self) -> None:
        while True:
            await asyncio.sleep(self.seconds / 3)
            try:
                await self.renew()
            except StoreDown as error:
                log.warning("the lease isn't renewed: %s", error)

    async def _run(self, how: str, *given: object, seconds: float = 10) -> typing.Any:
        return await self._run_by(self.links, how, *given, seconds=seconds)

    async def _run_own(self, how: str, *given: object, seconds: float = 10) -> typing.Any:
        return await self._run_by(self.own, how, *given, seconds=seconds)

    @staticmethod
    async def _run_by(links: _Links, how: str, *given: object, seconds: float) -> typing.Any:
        try:
            async with links.one() as link:
                return await getattr(link, how)(*given, timeout=seconds)
        except (asyncpg.PostgresError, *LOST) as error:
            raise StoreDown(f"{type(error).__name__}: {error}") from error

    async def acquire(self, name: str, create: bool, suspect: object = None) -> Lease:
        while True:
            row = await self._run("fetchrow", ACQUIRE, self.id, name, suspect)
            if row:
                lease = Lease(name, *row)
                lease.lapses = self.lapses
                return lease
            row = await self._run("fetchrow", OWNER, name)
            if row and row["address"] is not None:
                raise Elsewhere(row["address"], row["owner"])
            if not row and not create:
                raise Absent(name)
            if not row:
                await self._run("execute", "INSERT INTO history (name) VALUES ($1) ON CONFLICT DO NOTHING", name)

    async def read(self, lease: Lease) -> Stored:
        try:
            async with self.links.one() as link, link.transaction(isolation="repeatable_read", readonly=True):
                row = await link.fetchrow("SELECT epoch, volume, length, generation FROM history WHERE id = $1", lease.id)
                if not row or row["epoch"] != lease.epoch:
                    raise Fenced(lease.name)
                lease.volume, lease.length, lease.generation = row["volume"], row["length"], row["generation"]
                sql = "SELECT bytes FROM journal WHERE history = $1 AND volume = $2 ORDER BY place"
                rows = await link.fetch(sql, lease.id, lease.volume, timeout=60)
                devices = await link.fetch("SELECT uuid, owner, generation FROM device WHERE history = $1", lease.id)
        except (asyncpg.PostgresError, *LOST) as error:
            raise StoreDown(f"{type(error).__name__}: {error}") from error
        journal = b"".join(row["bytes"] for row in rows)
        if len(journal) != lease.length:
            raise StoreDown(f"{lease.name}: {len(journal)} bytes of {lease.length}")
        if len(rows) > self.join_rows:
            with contextlib.suppress(StoreDown):
                await self._run("execute", JOIN_ROWS, lease.id, lease.epoch, lease.volume, lease.length, seconds=60)
        known = {row["uuid"].bytes: Device(row["owner"], row["generation"]) for row in devices}
        return Stored(journal + b"\0" if journal else b"", known)

    async def append(self, lease: Lease, gate: int, tail: bytes, claims: Claims) -> None:
        if tail and gate != lease.length:
            raise StoreDown(f"{lease.name}: a gate at {gate}, and {lease.length} bytes")
        body = tail[:-1]
        if body or claims:
            await self.writers[lease.id % len(self.writers)].append(lease, body, claims)
            lease.length += len(body)

    async def check(self, lease: Lease) -> None:
        """At once while this worker's lease lasts, else the database says."""
        lapses = self.lapses
        if time.monotonic() >= self.valid_until or lease.lapses != lapses:
            if await self._run("fetchval", "SELECT epoch FROM history WHERE id = $1", lease.id) != lease.epoch:
                raise Fenced(lease.name)
            lease.lapses = lapses

    async def release(self, lease: Lease) -> None:
        with contextlib.suppress(StoreDown):
            await self._run("execute", "UPDATE history SET owner = NULL WHERE id = $1 AND epoch = $2", lease.id, lease.epoch)

    async def replace(self, lease: Lease, journal: bytes) -> None:
        if await self._run("fetchval", REPLACE, lease.id, lease.epoch, lease.length, journal[:-1], seconds=60) is None:
            raise Fenced(lease.name)
        lease.volume, lease.length = lease.volume + 1, len(journal) - 1

    async def raise_generation(self, lease: Lease) -> None:
        if await self._run("fetchval", RAISE, lease.id, lease.epoch) is None:
            raise Fenced(lease.name)
        lease.generation += 1

    async def remove(self, lease: Lease) -> None:
        if await self._run("fetchval", REMOVE, lease.id, lease.epoch, lease.length, seconds=60) is None:
            raise Fenced(lease.name)
