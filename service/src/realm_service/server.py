"""The service from its start to its end."""

import asyncio
import logging
import os
import signal
import typing

from . import config as configs
from .config import BadConfig, Config
from .doors import Doors
from .histories import Histories
from .library import share_memory
from .node import library
from .stores import Elsewhere, Store
from .stores.files import Files
from .stores.sqlite import Sqlite
from .tokens import Tokens

log = logging.getLogger("realm_service")
STOP_SECONDS = 20.0
DAYS = 30  # of the token that is printed
LOOPBACK = ("127.", "localhost:", "[::1]:")


def store_of(config: Config) -> Store:
    given = config.store
    if given.kind == "sqlite":
        return Sqlite(given.path)
    if given.kind == "files":
        return Files(given.folder)
    try:
        from .stores.postgres import Postgres
    except ImportError as error:
        raise BadConfig(f"[store] kind postgres takes asyncpg (Debian: apt-get install python3-asyncpg): {error}") from error
    return Postgres(given.dsn, given.lease_seconds, given.writers)


def tokens_of(config: Config) -> Tokens:
    given = config.tokens
    if not given.jwks_file:
        return Tokens(secret=configs.secret(config), audience=given.audience, issuer=given.issuer)
    try:
        with open(given.jwks_file, encoding="utf-8") as file:
            return Tokens(jwks=file.read(), audience=given.audience, issuer=given.issuer)
    except (OSError, ValueError, KeyError) as error:
        raise BadConfig(f"{given.jwks_file}: {error}") from error


async def run(config: Config, is_default: bool = False) -> None:
    """Serves until a signal ends it."""
    library()
    share_memory()
    tokens, store = tokens_of(config), store_of(config)
    host, _, port = config.service.listen.rpartition(":")
    address = config.service.address or f"http://{host}:{port}"
    histories = Histories(store, config.histories, config.limits.message_seconds)
    doors = Doors(histories, tokens, address, config)
    ended = asyncio.Event()
    for number in (signal.SIGTERM, signal.SIGINT):
        asyncio.get_running_loop().add_signal_handler(number, ended.set)
    await doors.start(host.strip("[]"), int(port))  # first the port, then the lease: so nobody else has this address
    try:
        await store.start(address)
    except Elsewhere as error:
        raise BadConfig("another process serves these histories") from error
    doors.visits.is_open = True
    sweeper = asyncio.create_task(histories.sweep())
    _say(config, address, tokens if is_default else None)
    await ended.wait()
    log.info("stops")
    await doors.stop()
    sweeper.cancel()
    is_late = False
    try:
        await asyncio.wait_for(histories.stop(), STOP_SECONDS)
    except asyncio.TimeoutError:
        is_late = True
    await store.stop()
    await doors.stopped()
    if is_late:  # a node can't be stopped, and a store may not answer: nobody was told a reply, and a lease gives the histories back
        log.warning("ends while a history is at work")
        logging.shutdown()
        os._exit(0)


def _say(config: Config, address: str, tokens: Tokens | None) -> None:
    where = typing.cast(str, {"files": config.store.folder, "sqlite": config.store.path}.get(config.store.kind, "PostgreSQL"))
    log.info("serves histories of %s at %s", where, address)
    if tokens is not None:
        alone = " on this machine alone" if config.service.listen.startswith(LOOPBACK) else ""
        print(f"Histories in the folder {where}, at {address}{alone}. A token of the user `me` for all of them, for {DAYS} days:")
        print(tokens.made("me", {"*": "rule"}, DAYS * 86400), flush=True)
