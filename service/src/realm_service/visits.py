"""A request to a history: whose it is, what it may do there, and where the history is."""

import asyncio
import dataclasses
import re
import time

from aiohttp import web

from . import metrics
from .devices import Caller, Forbidden, Outdated
from .history import History, Listener
from .limits import Limits
from .owners import HOP, Owners
from .refusals import Refused
from .stores import Elsewhere, StoreDown
from .tokens import BadToken, Tokens

NAME = re.compile(r"[A-Za-z0-9_][A-Za-z0-9_.-]{0,127}")


def token_of(request: web.Request) -> str:
    """The token of a header, or of a socket's subprotocol, since a page can't set headers of a socket."""
    given = request.headers.get("Authorization", "")
    if given.startswith("Bearer "):
        return given[7:]
    for offered in request.headers.get("Sec-WebSocket-Protocol", "").split(","):
        if offered.strip().startswith("bearer."):
            return offered.strip()[7:]
    raise BadToken("no token")


def address_of(request: web.Request) -> tuple[str, int | None]:
    """The history's name, and the generation in which the caller's file began where it says one: NAME or NAME@GENERATION."""
    name, at, generation = request.match_info["history"].partition("@")
    if not NAME.fullmatch(name):
        raise Refused(404, "no such name: a history's has at most 128 letters, digits, dots, dashes and underscores")
    if at and not (generation.isdecimal() and generation.isascii()):
        raise Refused(404, "no such generation: behind @ stands a number")
    return name, int(generation) if at else None


@dataclasses.dataclass
class Visit:
    """A request that was let in: where the history is this worker's, `history`, and else `owner`, who has it."""

    name: str
    token: str
    caller: Caller
    until: float
    history: History | None
    owner: Elsewhere | None


class Visits:
    def __init__(self, tokens: Tokens, owners: Owners, limits: Limits):
        self.tokens, self.owners, self.limits = tokens, owners, limits
        self.is_open = False

    def caller(self, token: str, name: str) -> tuple[Caller, float]:
        """Who asks, and until when the token lasts."""
        caller, until = self.tokens.caller(token, name)
        if caller is None:
            raise Forbidden("the token isn't for this history")
        return caller, until

    def admitted(self, request: web.Request) -> tuple[str, str, Caller, float]:
        """The name, the token, and whose it is."""
        (name, _), token = address_of(request), token_of(request)
        return (name, token, *self.caller(token, name))

    async def visit(self, request: web.Request, is_device: bool = False, makes: bool = False) -> Visit:
        """Finds the history, which a device `makes` whose user may write. One that says no generation is taken for one of the first; its
        messages count for the rate, and each request of the others."""
        name, token, caller, until = self.admitted(request)
        if not self.is_open:
            raise StoreDown("the worker starts or stops")
        if not is_device:
            await self.limits.admit(caller.user, 0)
        try:
            async with asyncio.timeout(self.limits.config.message_seconds):
                found = await self.owners.find(name, caller.writes and (is_device or makes), HOP in request.headers)
        except asyncio.TimeoutError:
            raise StoreDown("nobody says in time who has the history") from None
        if isinstance(found, Elsewhere):
            return Visit(name, token, caller, until, None, found)
        _, given = address_of(request)
        if given is None and is_device:
            given = 1
        if given is not None and given != found.lease.generation:
            raise Outdated(given, found.lease.generation)
        return Visit(name, token, caller, until, found, None)

    async def answer(self, history: History, caller: Caller, message: bytes, listener: Listener | None = None) -> bytes:
        """The reply to a message, within the caller's rate."""
        await self.limits.admit(caller.user, len(message))
        began = time.perf_counter()
        reply = await history.ask(caller, message, listener)
        metrics.REPLYING.observe(time.perf_counter() - began)
        return reply
