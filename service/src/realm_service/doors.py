"""The doors over HTTP, and the server that holds them all: docs/SERVICE.md, "Doors"."""

import asyncio
import contextlib
import functools
import json
import logging
import math
import typing
from collections.abc import Awaitable, Callable

import prometheus_client
from aiohttp import web

from .config import Config
from .devices import Forbidden
from .entries import Entries
from .heads import BadMessage
from .histories import Histories
from .history import History
from .limits import Guarded, Guards, Limits, in_time
from .node import ABSENT, DONE, DUMP, OBJECT
from .openapi import PAGE, described
from .owners import LONGEST_WAIT, WORKER, Owners
from .refusals import GENERATION, Refused, response_of
from .sockets import Sockets
from .stores import Fenced
from .tokens import Tokens
from .visits import Visit, Visits

log = logging.getLogger("realm_service")
NO_LOG: dict[str, typing.Any] = {"access_log": None}
Handler = Callable[["Doors", web.Request], Awaitable[web.StreamResponse]]
Answer = Callable[[Visit, History], Awaitable[web.StreamResponse]]


def _answered(handler: Handler) -> Handler:
    """Whatever a handler raises is a refusal."""

    @functools.wraps(handler)
    async def answer(self: "Doors", request: web.Request) -> web.StreamResponse:
        try:
            answered = await handler(self, request)
        except (web.HTTPException, asyncio.CancelledError):
            raise
        except Exception as error:
            answered = response_of(error)
        with contextlib.suppress(ConnectionError):
            async with in_time(request, self.config.limits.message_seconds):
                await answered.prepare(request)
                await answered.write_eof()
        return answered

    return answer


def _number(request: web.Request, name: str, default: float) -> float:
    try:
        given = float(request.query.get(name, default))
    except ValueError:
        given = math.nan
    if not math.isfinite(given):
        raise Refused(400, f"{name} is a number")
    return given


class Doors:
    def __init__(self, histories: Histories, tokens: Tokens, address: str, config: Config):
        self.histories, self.config = histories, config
        self.limits, self.guards = Limits(config.limits), Guards(config.limits)
        self.owners = Owners(histories, address, self.limits, config.service.create)
        self.visits = Visits(tokens, self.owners, self.limits)
        self.sockets, self.entries = Sockets(self.visits), Entries(self.visits)
        self.server: asyncio.AbstractServer | None = None
        self.runner: web.AppRunner | None = None

    # ---- start and stop

    def _app(self) -> web.Application:
        app = web.Application(client_max_size=self.config.limits.message_bytes)
        get, post, one = app.router.add_get, app.router.add_post, "/v1/histories/{history}"
        get("/", self.page)
        get("/openapi.json", self.openapi)
        get("/healthz", self.healthz)
        get("/readyz", self.readyz)
        get("/metrics", self.metrics)
        get(one, self.sockets.handle)
        post(one, functools.partial(Doors.post, self))
        get(one + "/news", functools.partial(Doors.news, self))
        get(one + "/objects", functools.partial(Doors.objects, self))
        get(one + "/entries", functools.partial(Doors.stream, self))
        post(one + "/trim", functools.partial(Doors.trim, self))
        return app

    async def start(self, host: str, port: int) -> None:
        self.runner = web.AppRunner(self._app(), access_log=None, handler_cancellation=False)
        await self.runner.setup()
        self.server = await asyncio.get_running_loop().create_server(self._connection, host, port, backlog=1024)
        await self.owners.start()
        self.sweeper = asyncio.create_task(self._sweep())

    def _connection(self) -> Guarded:
        assert self.runner is not None and self.runner.server is not None
        # (a body is taken as it comes: unpacked it may be a thousand times as large)
        made = Guarded(self.runner.server, loop=asyncio.get_running_loop(), keepalive_timeout=75, auto_decompress=False, **NO_LOG)
        made.guards = self.guards
        return made

    async def _sweep(self) -> None:
        while True:
            await asyncio.sleep(1)
            try:
                self.guards.sweep()
                self.limits.sweep()
            except Exception:  # a sweeper that ends would cut nobody any more
                log.exception("a sweep failed")

    async def stop(self) -> None:
        """Nothing new is taken, and what is under way is answered."""
        self.visits.is_open = False
        if self.server is not None:
            self.server.close()
        self.entries.close()
        await self.sockets.close()
        for _ in range(100):
            if not self.limits.in_flight:
                break
            await asyncio.sleep(0.05)

    async def stopped(self) -> None:
        self.sweeper.cancel()
        await self.owners.stop()
        if self.runner is not None:
            await self.runner.cleanup()

    # ---- for operators

    async def page(self, _: web.Request) -> web.Response:
        return web.Response(text=PAGE, content_type="text/html")

    async def openapi(self, _: web.Request) -> web.Response:
        return web.json_response(described())

    async def healthz(self, _: web.Request) -> web.Response:
        return web.Response(text="ok\n", headers={WORKER: str(self.histories.store.id or "")})

    async def readyz(self, _: web.Request) -> web.Response:
        is_ready = self.visits.is_open and await self.histories.store.ready()
        return web.Response(text="ready\n" if is_ready else "not ready\n", status=200 if is_ready else 503)

    async def metrics(self, _: web.Request) -> web.Response:
        return web.Response(body=prometheus_client.generate_latest(), headers={"Content-Type": prometheus_client.CONTENT_TYPE_LATEST})

    # ---- a history

    @_answered
    async def post(self, request: web.Request) -> web.StreamResponse:
        """A message and its reply."""
        self.visits.admitted(request)
        most, size = self.config.limits.message_bytes, request.content_length
        with self.limits.flight(most if size is None else min(size, most)):
            message = await self._body(request)

            async def answer(visit: Visit, history: History) -> web.StreamResponse:
                reply = await self.visits.answer(history, visit.caller, message)
                return web.Response(body=reply, headers={GENERATION: str(history.lease.generation)})

            return await self._at_owner(request, answer, message)

    async def _at_owner(self, request: web.Request, answer: Answer, message: bytes | None = None, makes: bool = False) -> web.StreamResponse:
        """What this worker answers where it has the history, and else what the owner does: to a `message` of a device, or another request."""
        for is_last in (False, True):
            visit = await self.visits.visit(request, message is not None, makes)
            try:
                if visit.history is not None:
                    return await answer(visit, visit.history)
                if message is not None:
                    await self.limits.admit(visit.caller.user, len(message))
                return await self.owners.pass_on(visit, request, message)
            except Fenced:
                if is_last or not self.visits.is_open:
                    raise  # else nothing of it was stored: whoever has the history now answers
        raise AssertionError

    async def _body(self, request: web.Request) -> bytes:
        try:
            return await asyncio.wait_for(request.read(), self.config.limits.message_seconds)
        except web.HTTPRequestEntityTooLarge:
            raise Refused(413, "a message has at most message_bytes of the configuration") from None

    @_answered
    async def news(self, request: web.Request) -> web.StreamResponse:
        """Waits until the history has more than `after` entries."""
        after, wait = _number(request, "after", 0), min(_number(request, "wait", 25), LONGEST_WAIT)

        async def answer(_: Visit, history: History) -> web.StreamResponse:
            if await history.known_length() <= after and not await _has_grown(history, wait):
                return web.Response(status=204)
            return web.json_response({"news": history.length})

        return await self._at_owner(request, answer, makes=True)  # (a device may ask before its first message comes)

    @_answered
    async def objects(self, request: web.Request) -> web.StreamResponse:
        """All objects, those of a table, or the one of a `table` and `key` (JSON), as the history has them now."""
        return await self._at_owner(request, functools.partial(self._objects, request))

    async def _objects(self, request: web.Request, visit: Visit, history: History) -> web.StreamResponse:
        table, key, seen = request.query.get("table"), request.query.get("key"), visit.caller.tables
        if key is not None and table is not None and seen is not None and table not in seen:
            raise Forbidden("the token isn't for this table")
        asked = DUMP if key is None else OBJECT + _named(table, key)
        status, told = await history.read(asked)
        if status == ABSENT:
            raise Refused(404, "there is no such object")
        if status != DONE:
            raise BadMessage("table is a name, and key a key in JSON")
        if key is None and (table is not None or seen is not None):
            told = await self.histories.work_aside(_lines_of, told, table, seen)
        return web.Response(body=told, content_type="application/x-ndjson")

    @_answered
    async def stream(self, request: web.Request) -> web.StreamResponse:
        """Entries from a version on."""
        return await self._at_owner(request, functools.partial(self.entries.tell, request))

    @_answered
    async def trim(self, request: web.Request) -> web.StreamResponse:
        """Gives up what all devices have settled."""
        if not self.visits.admitted(request)[2].rules:
            raise Forbidden("the token may not trim: it takes one with `rule`")

        async def answer(_: Visit, history: History) -> web.StreamResponse:
            before, after = await history.trim()
            return web.json_response({"before": before, "after": after})

        return await self._at_owner(request, answer)


async def _has_grown(history: History, wait: float) -> bool:
    """Whether the history grows, or moves, within so many seconds."""
    grown: asyncio.Future[int | None] = asyncio.get_running_loop().create_future()

    def listener(length: int | None) -> None:
        if not grown.done():
            grown.set_result(length)

    try:
        with history.listening(listener):
            if await asyncio.wait_for(grown, wait) is None:
                raise Fenced(history.name)
            return True
    except asyncio.TimeoutError:
        return False


def _named(table: str | None, key: str) -> bytes:
    try:
        return json.dumps({"table": table, "key": json.loads(key)}).encode()
    except (ValueError, RecursionError):
        raise Refused(400, "key is a key in JSON") from None


def _lines_of(dump: bytes, table: str | None, seen: frozenset[str] | None) -> bytes:
    """The lines of a table, or of the tables that may be seen; those of the schema stay."""

    def is_kept(line: dict[str, typing.Any]) -> bool:
        return table in (None, line["table"]) and (seen is None or "cells" not in line or line["table"] in seen)

    return b"".join(line + b"\n" for line in dump.splitlines() if is_kept(json.loads(line)))
