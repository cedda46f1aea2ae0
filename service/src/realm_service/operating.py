"""Commands of an operator: tokens, the generation of a restored history, and moving a history to another store."""

import asyncio
import contextlib
import time
import typing
from collections.abc import AsyncIterator

from .config import BadConfig, Config
from .node import STANDING, Damaged, Node, NodeFailed, length_of
from .server import store_of, tokens_of
from .stores import Absent, Elsewhere, Fenced, Lease, Store, Stored, StoreDown
from .stores.files import journal_end
from .tokens import LEVELS


class Unable(Exception):
    """What an operator asked can't be done: the text says why."""


@contextlib.asynccontextmanager
async def _started(config: Config) -> AsyncIterator[Store]:
    store = store_of(config)
    try:
        await store.start("")
    except Elsewhere:
        raise Unable("the service runs: stop it first") from None
    try:
        yield store
    except Elsewhere as error:
        raise Unable(f"the service runs and has the history: stop it first ({error})") from error
    except (StoreDown, Fenced) as error:
        raise Unable(str(error)) from error
    finally:
        await store.stop()


async def _taken(store: Store, name: str, create: bool, seconds: float) -> Lease:
    """Waits for the lease of a worker that is gone, which a backup may have brought back too."""
    ends = time.monotonic() + seconds + 1
    while True:
        try:
            return await store.acquire(name, create)
        except Absent:
            raise Unable(f"there is no history {name}") from None
        except Elsewhere:
            if time.monotonic() > ends:
                raise
            await asyncio.sleep(0.2)


@contextlib.asynccontextmanager
async def _held(store: Store, config: Config, name: str, create: bool = False) -> AsyncIterator[Lease]:
    lease = await _taken(store, name, create, config.store.lease_seconds)
    try:
        yield lease
    finally:
        await store.release(lease)


async def raise_generation(config: Config, names: list[str], is_all: bool) -> None:
    """Says of histories that they were restored: devices that began before are refused from now on."""
    async with _started(config) as store:
        for name in await store.names() if is_all else names:
            async with _held(store, config, name) as lease:
                await store.raise_generation(lease)
                print(f"{name}: generation {lease.generation}")


async def move(config: Config, target: Config, names: list[str]) -> None:
    """Moves histories to another store: each is copied, opened there, and then removed here."""
    async with _started(config) as here, _started(target) as there:
        for name in names:
            if name in await there.names():
                raise Unable(f"{name} is there already")
            async with _held(here, config, name) as lease:
                journal, devices = await here.read(lease)
                whole = journal[: journal_end(journal)] + b"\0" if journal else b""
                if _look_at(name, journal) != _look_at(name, whole):  # (whatever follows the closed gate means nothing)
                    raise Unable(f"{name}: its journal doesn't end where it seems to")
                async with _held(there, target, name, create=True) as copy:
                    await _moved(here, there, lease, copy, Stored(whole, devices))
            print(f"{name}: moved, {copy.length} bytes")


async def _moved(here: Store, there: Store, lease: Lease, copy: Lease, stored: Stored) -> None:
    try:
        await _copied(there, copy, stored, lease.generation)
    except (Fenced, StoreDown):
        with contextlib.suppress(Fenced, StoreDown):
            await there.remove(copy)
        raise
    try:
        await here.remove(lease)
    except Fenced:
        await there.remove(copy)
        raise Unable(f"{lease.name} was changed meanwhile: nothing was moved") from None
    except StoreDown as error:
        raise Unable(f"{lease.name} is at both places, or was moved: the old store didn't answer when it was to be removed there ({error})") from error


async def _copied(there: Store, copy: Lease, stored: Stored, last: int) -> None:
    """The devices of each generation, and then the journal."""
    for generation in range(1, last + 1):
        claims = [(uuid, it.user) for uuid, it in stored.devices.items() if it.generation == generation]
        await there.append(copy, 0, stored.journal if generation == last else b"", claims)
        if generation < last:
            await there.raise_generation(copy)


def _look_at(name: str, journal: bytes) -> int:
    """Opens the journal, and lets it go. How many entries it has; Unable where it is damaged."""
    node = Node()
    try:
        node.open(journal)
        return length_of(node.ask_all([STANDING])[0])
    except (Damaged, NodeFailed) as error:
        raise Unable(f"{name}: {error}") from error
    finally:
        node.close()


def token(config: Config, user: str, grants: list[str], seconds: float, device: str | None) -> str:
    """A token by the configuration's secret."""
    realm: dict[str, typing.Any] = {}
    for it in grants:
        pattern, _, level = it.rpartition("=")
        level, _, tables = level.partition(":")
        if not pattern or level not in LEVELS:
            raise Unable(f"{it}: a grant is PATTERN=LEVEL or PATTERN=LEVEL:TABLE,TABLE with one of the levels {', '.join(LEVELS)}")
        realm[pattern] = {"level": level, "tables": tables.split(",")} if tables else level
    tokens = tokens_of(config)
    if tokens.secret is None:
        raise BadConfig("tokens come from whoever has the private keys of jwks_file")
    try:
        return tokens.made(user, realm, seconds, device)
    except ValueError as error:
        raise Unable(str(error)) from error
