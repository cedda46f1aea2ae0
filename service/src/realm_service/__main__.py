"""The command: docs/SERVICE.md, "Start" and "Operation"."""

import argparse
import asyncio
import contextlib
import logging
import sys

from aiohttp.http_exceptions import HttpProcessingError

from . import config as configs
from . import operating
from .config import BadConfig, Config
from .library import NoLibrary
from .operating import Unable
from .server import run
from .stores import StoreDown

WORDS = """Serves histories of realm_sync over WebSocket and HTTP. Without any words: histories of the folder realm_histories, on
127.0.0.1:8480, with a token that is printed. docs/SERVICE.md says more."""


def _words() -> argparse.ArgumentParser:
    common = argparse.ArgumentParser(add_help=False, argument_default=argparse.SUPPRESS)  # a command's doesn't undo the one before it
    common.add_argument("--config", metavar="FILE", help="a TOML file")
    common.add_argument("--folder", help="of histories, in place of the configuration's")
    words = argparse.ArgumentParser(prog="realm_service", description=WORDS, parents=[common])
    words.add_argument("--listen", metavar="HOST:PORT", help="in place of the configuration's")
    commands = words.add_subparsers(dest="command", metavar="COMMAND")
    token = commands.add_parser("token", parents=[common], help="prints a token", description="Prints a token by the configuration's secret.")
    token.add_argument("user")
    token.add_argument("grants", nargs="+", metavar="PATTERN=LEVEL[:TABLE,TABLE]", help="read, write or rule")
    token.add_argument("--seconds", type=float, default=86400, help="how long it holds (a day)")
    token.add_argument("--device", metavar="UUID", help="of one device alone")
    raised = commands.add_parser("raise-generation", parents=[common], help="says that histories were restored")
    raised.add_argument("names", nargs="*", metavar="NAME")
    raised.add_argument("--all", action="store_true", help="all of the store")
    moved = commands.add_parser("move", parents=[common], help="moves histories to another store")
    moved.add_argument("names", nargs="+", metavar="NAME")
    moved.add_argument("--to", required=True, metavar="FILE", help="the configuration of the other store")
    return words


def _config(given: argparse.Namespace) -> Config:
    config = configs.read(getattr(given, "config", None))
    config.service.listen = given.listen or config.service.listen
    config.store.folder = getattr(given, "folder", config.store.folder)
    return configs.checked(config)


def _do(given: argparse.Namespace) -> None:
    config = _config(given)
    if given.command is None:
        with contextlib.suppress(ImportError):
            import uvloop

            uvloop.install()
        asyncio.run(run(config, not hasattr(given, "config")))
    elif given.command == "token":
        print(operating.token(config, given.user, given.grants, given.seconds, given.device))
    elif given.command == "raise-generation":
        asyncio.run(operating.raise_generation(config, given.names, given.all))
    else:
        asyncio.run(operating.move(config, configs.read(given.to), given.names))


def _begin_log() -> None:
    """What callers do is no fault of the service, and what they send isn't told: it may be a token."""
    logging.basicConfig(level=logging.INFO, format="%(asctime)s %(levelname)s %(message)s")
    logging.getLogger("aiohttp.websocket").setLevel(logging.ERROR)  # below that it tells subprotocols
    for name in ("aiohttp.server", "asyncio"):
        logging.getLogger(name).addFilter(_is_of_the_service)


def _is_of_the_service(record: logging.LogRecord) -> bool:
    """Not of a request that is none, or of a connection that a caller ended."""
    return not (record.exc_info and isinstance(record.exc_info[1], (HttpProcessingError, ConnectionError)))


def main() -> None:
    _begin_log()
    try:
        _do(_words().parse_args())
    except (BadConfig, NoLibrary, StoreDown, Unable, OSError) as error:
        sys.exit(f"realm_service: {error}")


if __name__ == "__main__":
    main()
