"""The same for asyncio: what waits for the disk or the network is awaited, in a thread; objects are read at once.

    async with open_database("notes.realm", [Note], url, token=token) as db:
        key = await db.write(lambda tx: tx.create(Note, text="buy milk"))
        async for notes in db.watch(db[Note].where(text="buy milk")):
            draw(notes)
"""

from __future__ import annotations

import asyncio
import contextlib
import os
from collections.abc import AsyncIterator, Callable, Sequence
from typing import Any, Literal, TypeVar

from .database import Database
from .query import Query, Table
from .recovery import Recovery
from .sync import SyncOptions, SyncState
from .transaction import Transaction
from .transports import TokenSource, Transport

T = TypeVar("T")
R = TypeVar("R")


class AsyncDatabase:
    """A database of one event loop. `db` is the one that it is over."""

    def __init__(self, db: Database) -> None:
        self.db = db

    def __getitem__(self, type_: type[T]) -> Table[T]:
        return self.db[type_]

    async def write(self, work: Callable[[Transaction], R]) -> R:
        """Does a function's edits as one transaction, and answers what it answers, once it is on the disk. The function runs in a thread."""
        return await asyncio.to_thread(lambda: self.db.run(work))

    async def synced(self, timeout: float | None = None) -> bool:
        """Waits until all that was committed is in the history, and all that the history had is here; False after `timeout` seconds."""
        return await asyncio.to_thread(self.db.synced, timeout)

    async def recover(self) -> Recovery:
        """Lets a new client take this one's place, where sync needs attention."""
        return await asyncio.to_thread(self.db.recover)

    async def shrink(self) -> None:
        """Puts a file without what this device needs no more in the place of its own."""
        await asyncio.to_thread(self.db.shrink)

    def watch(self, query: Query[T]) -> AsyncIterator[Sequence[T]]:
        """The result of a query, and each later one; a consumer that is slow misses those between."""
        return _latest(query.observe)

    def states(self) -> AsyncIterator[SyncState]:
        """The state of sync, and each later one."""
        return _latest(self.db.observe_sync)


async def _latest(observe: Callable[[Callable[[Any], None]], Callable[[], None]]) -> AsyncIterator[Any]:
    loop, arrived = asyncio.get_running_loop(), asyncio.Event()
    latest: list[Any] = []

    def put(value: Any) -> None:
        latest[:] = [value]
        arrived.set()

    def from_any_thread(value: Any) -> None:
        # (a loop that was closed has nobody who waits)
        with contextlib.suppress(RuntimeError):
            loop.call_soon_threadsafe(put, value)

    stop = observe(from_any_thread)
    try:
        while True:
            await arrived.wait()
            arrived.clear()
            yield latest[0]
    finally:
        stop()


@contextlib.asynccontextmanager
async def open_database(
    path: str | os.PathLike[str] | None, types: Sequence[type[Any]], sync: str | Transport | None = None, *, token: TokenSource = "",
    key: bytes | None = None, options: SyncOptions = SyncOptions(), on_problem: Literal["recover", "ask"] | None = None,
) -> AsyncIterator[AsyncDatabase]:  # fmt: skip
    """Opens a database, as `Database` does, and closes it at the end of the `async with`."""
    db = await asyncio.to_thread(lambda: Database(path, types, sync, token=token, key=key, options=options, on_problem=on_problem))
    try:
        yield AsyncDatabase(db)
    finally:
        await asyncio.to_thread(db.close)
