"""Appends to PostgreSQL: what several histories append is one statement, which is one transaction."""

import asyncio
import logging
import typing
import uuid as uuids

import asyncpg

from . import Claims, Fenced, Lease, StoreDown

log = logging.getLogger("realm_service")

# What may be sent again, over another connection.
LOST = (asyncpg.PostgresConnectionError, asyncpg.ReadOnlySQLTransactionError, asyncpg.InterfaceError, asyncpg.InternalClientError,
        asyncpg.CannotConnectNowError, asyncpg.AdminShutdownError, asyncpg.DeadlockDetectedError, OSError, asyncio.TimeoutError)
# The driver's first question about types of a connection takes 1.4 seconds where the database compiles it.
SETTINGS = {"jit": "off", "application_name": "realm_service"}

APPEND = """
WITH given AS (SELECT * FROM unnest($1::bigint[], $2::bigint[], $3::bigint[], $4::bytea[]) AS g(id, epoch, place, bytes)),
mine AS (UPDATE history h SET length = g.place + octet_length(g.bytes) FROM given g
    WHERE h.id = g.id AND h.epoch = g.epoch AND h.length = g.place RETURNING h.id, h.epoch, h.volume, g.place, g.bytes),
claimed AS (INSERT INTO device (history, uuid, owner, generation) SELECT c.id, c.uuid, c.owner, c.generation
    FROM unnest($5::bigint[], $6::uuid[], $7::text[], $8::integer[]) AS c(id, uuid, owner, generation) JOIN mine USING (id) ON CONFLICT DO NOTHING),
stored AS (INSERT INTO journal SELECT id, volume, place, bytes FROM mine WHERE octet_length(bytes) > 0)
SELECT id, epoch FROM mine
"""
STANDS = "SELECT id, epoch, length FROM history WHERE id = ANY($1)"


async def connected(dsn: str) -> asyncpg.Connection:
    return await asyncpg.connect(dsn, timeout=3, command_timeout=30, server_settings=SETTINGS)


class _Append(typing.NamedTuple):
    lease: Lease
    body: bytes
    claims: Claims
    done: "asyncio.Future[None]"

    def end(self, error: Exception | None = None) -> None:
        if self.done.done():
            return
        if error is None:
            self.done.set_result(None)
        else:
            self.done.set_exception(error)


class Writer:
    """While a statement is under way the next appends gather. A statement that the connection cut is sent again: it compares lengths, so it
    never appends twice."""

    def __init__(self, dsn: str):
        self.dsn, self.waiting, self.came = dsn, list[_Append](), asyncio.Event()
        self.link: asyncpg.Connection | None = None

    async def append(self, lease: Lease, body: bytes, claims: Claims) -> None:
        given = _Append(lease, body, claims, asyncio.get_running_loop().create_future())
        self.waiting.append(given)
        self.came.set()
        await given.done

    async def run(self) -> None:
        try:
            while True:
                await self.came.wait()
                self.came.clear()
                batch, self.waiting = self.waiting, []
                while not await self._tried(batch):
                    await asyncio.sleep(0.1)
        finally:
            self._drop()

    def _drop(self) -> None:
        link, self.link = self.link, None
        if link is not None:
            link.terminate()

    async def _tried(self, batch: list[_Append]) -> bool:
        """Sends a batch, and tells its ends. False where it may have been cut, and is to be sent again."""
        try:
            if self.link is None:
                self.link = await connected(self.dsn)
            stored = await self._store(self.link, batch)
        except (asyncpg.PostgresError, *LOST) as error:
            if isinstance(error, LOST) and not isinstance(error, ValueError):
                self._drop()
                return False
            for given in batch:  # such as a full disk: nothing was stored
                given.end(StoreDown(str(error)))
            return True
        except Exception:  # whatever the driver raises: a writer that ends would hold up its histories for good
            log.exception("a writer failed")
            self._drop()
            return False
        for given, is_stored in zip(batch, stored):
            given.end(None if is_stored else Fenced(given.lease.name))
        return True

    @staticmethod
    async def _store(link: asyncpg.Connection, batch: list[_Append]) -> list[bool]:
        """Which of them are stored; the others are fenced."""
        leases = [it.lease for it in batch]
        claims = [(it.lease.id, uuids.UUID(bytes=uuid), user, it.lease.generation) for it in batch for uuid, user in it.claims]
        columns = ([it.id for it in leases], [it.epoch for it in leases], [it.length for it in leases], [it.body for it in batch])
        rows = await link.fetch(APPEND, *columns, *([it[part] for it in claims] for part in range(4)))
        done = {(row["id"], row["epoch"]) for row in rows}
        if len(done) < len(batch):  # fenced, or stored by a statement of which we never heard
            missing = [it.id for it in leases if (it.id, it.epoch) not in done]
            stands = {(row["id"], row["epoch"], row["length"]) for row in await link.fetch(STANDS, missing)}
            done |= {(it.lease.id, it.lease.epoch) for it in batch if (it.lease.id, it.lease.epoch, it.lease.length + len(it.body)) in stands}
        return [(it.id, it.epoch) in done for it in leases]
