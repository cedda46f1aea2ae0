"""The way to the worker that owns a history: this one, which takes it where nobody has it, or another one that answers."""

from __future__ import annotations

import asyncio
import contextlib
import dataclasses
import time
import typing
from collections.abc import Awaitable, Callable

import aiohttp
from aiohttp import WSMsgType, web

from . import metrics
from .devices import Caller
from .histories import Histories
from .history import History
from .limits import Limits, in_time
from .refusals import GENERATION, RESTART, Refused
from .stores import Elsewhere, Fenced, StoreDown

if typing.TYPE_CHECKING:
    from .visits import Visit

HOP, WORKER = "Realm-Hop", "Realm-Worker"
PASSED = ("Content-Type", "Retry-After", "WWW-Authenticate", GENERATION)
HANDSHAKE_SECONDS, HEARTBEAT = 5.0, 20.0
UNSAID = (1000, 1006)  # of a socket that ended without a word of the owner's: it died
LONGEST_WAIT = 60.0  # seconds that a question for news may wait
LATE_SECONDS = 1.0  # after which an answer is late, and this worker tries to take the history where the owner says nothing
HEARD_SECONDS = 0.5  # how long it counts that a worker answered, or didn't

Told = typing.TypeVar("Told")


class Owners:
    def __init__(self, histories: Histories, address: str, limits: Limits, create: bool):
        self.histories, self.address, self.limits, self.create = histories, address, limits, create
        self.heard: dict[object, tuple[float, asyncio.Future[bool | None]]] = {}  # of each owner: when it was asked, and what came
        self.session: aiohttp.ClientSession | None = None

    async def start(self) -> None:
        self.session = aiohttp.ClientSession(connector=aiohttp.TCPConnector(limit=0))  # each socket that is passed on holds one

    async def stop(self) -> None:
        if self.session is not None:
            await self.session.close()

    async def find(self, name: str, makes: bool, is_passed_on: bool) -> History | Elsewhere:
        """The history, or who has it. It is made where there is none, if the caller `makes` one."""
        suspect = None
        for _ in range(3):
            try:
                return await self.histories.get(name, self.create and makes, suspect)
            except Elsewhere as elsewhere:
                if is_passed_on or not elsewhere.address:
                    raise
                if elsewhere.address != self.address and await self._hear(elsewhere) is not False:
                    return elsewhere
                suspect = elsewhere.owner  # nobody listens there: taken at once, and its fence sees to the rest
        raise StoreDown("no owner")

    async def _hear(self, owner: Elsewhere) -> bool | None:
        """Whether that worker listens there: False where nobody does, or another one, and None where none answers in time: its lease tells then."""
        now = time.monotonic()
        asked, hearing = self.heard.get(owner.owner, (0.0, None))
        if hearing is None or (hearing.done() and now - asked > HEARD_SECONDS):
            hearing = asyncio.ensure_future(self._asked(owner))
            self.heard = {it: (then, told) for it, (then, told) in self.heard.items() if now - then <= HEARD_SECONDS or not told.done()}
            self.heard[owner.owner] = now, hearing
        return await asyncio.shield(hearing)

    async def _asked(self, owner: Elsewhere) -> bool | None:
        assert self.session is not None
        try:
            async with self.session.get(f"{owner.address}/healthz", timeout=aiohttp.ClientTimeout(total=1)) as told:
                return told.headers.get(WORKER) == str(owner.owner)  # another one: it was started again
        except aiohttp.ClientConnectorError:
            return False
        except (aiohttp.ClientError, asyncio.TimeoutError):
            return None

    @staticmethod
    def _headers(request: web.Request, token: str) -> dict[str, str]:
        kept = {name: request.headers[name] for name in ("Accept", "Last-Event-ID") if name in request.headers}
        return {"Authorization": "Bearer " + token, HOP: "1", **kept}

    async def pass_on(self, visit: Visit, request: web.Request, body: bytes | None = None) -> web.StreamResponse:
        """What the owner answers. Fenced where this worker is to look again who that is."""
        metrics.RELAYED.inc()
        assert self.session is not None and visit.owner is not None
        seconds = self.limits.config.message_seconds
        limit = aiohttp.ClientTimeout(total=None if body is None else seconds + HANDSHAKE_SECONDS, connect=1, sock_read=seconds + LONGEST_WAIT)
        url, headers = f"{visit.owner.address}{request.path_qs}", self._headers(request, visit.token)
        asking = self.session.request(request.method, url, data=body, headers=headers, timeout=limit)
        async with await self._unless_taken(visit, asking) as answer:
            kept = {name: answer.headers[name] for name in PASSED if name in answer.headers}
            if answer.content_length is None:
                return await self._streamed(request, answer, kept)
            try:
                return web.Response(status=answer.status, body=await answer.read(), headers=kept)
            except (aiohttp.ClientError, asyncio.TimeoutError) as error:
                raise StoreDown(f"the owner's answer is cut: {error}") from error

    async def _unless_taken(self, visit: Visit, asking: Awaitable[Told]) -> Told:
        """What the owner says. Fenced where it is gone, or says nothing and this worker has taken the history meanwhile: what was asked may be
        asked again."""
        assert visit.owner is not None
        told, taken = asyncio.ensure_future(asking), asyncio.ensure_future(self._taken(visit))
        try:
            await asyncio.wait((told, taken), return_when=asyncio.FIRST_COMPLETED)
            if told.done():
                return told.result()
            raise Fenced(visit.name)
        except asyncio.TimeoutError as error:
            raise StoreDown("the owner doesn't answer in time") from error
        except aiohttp.ClientConnectionError as error:
            self.heard.pop(visit.owner.owner, None)
            raise Fenced(visit.name) from error
        finally:
            told.cancel()
            taken.cancel()
            await asyncio.gather(told, taken, return_exceptions=True)

    async def _taken(self, visit: Visit, is_late: Callable[[], bool] = lambda: True) -> None:
        """Ends when this worker has taken the history, for which it tries while the owner is late and says nothing."""
        assert visit.owner is not None
        while True:
            await asyncio.sleep(LATE_SECONDS)
            if is_late() and await self._hear(visit.owner) is not True:
                with contextlib.suppress(StoreDown):
                    if isinstance(await self.find(visit.name, False, False), History):
                        return

    async def _streamed(self, request: web.Request, answer: aiohttp.ClientResponse, headers: dict[str, str]) -> web.StreamResponse:
        stream = web.StreamResponse(status=answer.status, headers=headers)
        await stream.prepare(request)
        try:
            async for part in answer.content.iter_any():
                async with in_time(request, self.limits.config.message_seconds):
                    await stream.write(part)
            await stream.write_eof()
        except (aiohttp.ClientError, OSError, asyncio.TimeoutError):
            if request.transport is not None:
                request.transport.abort()  # so that the client sees that there is more
        return stream

    async def connected(self, visit: Visit, request: web.Request) -> aiohttp.ClientWebSocketResponse:
        """A socket to the owner; raises its refusal. Fenced where this worker is to look again who that is."""
        metrics.RELAYED.inc()
        assert self.session is not None and visit.owner is not None
        url = f"{visit.owner.address}{request.path_qs}".replace("http", "ws", 1)
        most, headers = self.limits.config.message_bytes, self._headers(request, visit.token)
        try:
            async with asyncio.timeout(HANDSHAKE_SECONDS):
                return await self._unless_taken(visit, self.session.ws_connect(url, headers=headers, max_msg_size=most, heartbeat=HEARTBEAT))
        except aiohttp.WSServerHandshakeError as error:
            generation = int(error.headers.get(GENERATION, 0)) if error.headers else 0
            raise Refused(error.status, "the owner refuses", generation=generation) from error
        except (aiohttp.ClientError, asyncio.TimeoutError) as error:
            raise StoreDown(f"the owner doesn't answer: {error}") from error

    async def relay(self, socket: web.WebSocketResponse, other: aiohttp.ClientWebSocketResponse, visit: Visit) -> None:
        """Between a client and the owner, until one of them ends, or this worker has the history since the owner hangs."""
        open_ = _Relayed(socket, other)
        ends = self._from_client(open_, visit.caller), self._from_owner(open_), self._taken(visit, open_.is_late)
        tasks = [asyncio.create_task(it) for it in ends]
        try:
            done, _ = await asyncio.wait(tasks, return_when=asyncio.FIRST_COMPLETED)
            for it in done:
                error = it.exception()
                if isinstance(error, Refused):
                    raise error
            if not socket.closed:
                code = other.close_code
                await socket.close(code=RESTART if code is None or code in UNSAID else code)
        finally:
            for task in tasks:
                task.cancel()
            await asyncio.gather(*tasks, return_exceptions=True)
            await other.close()

    async def _from_client(self, open_: "_Relayed", caller: Caller) -> None:
        async for message in open_.socket:
            if message.type == WSMsgType.BINARY:
                await self.limits.admit(caller.user, len(message.data))
                open_.waits_since = open_.waits_since or time.monotonic()
                await open_.other.send_bytes(message.data)
            elif message.type == WSMsgType.TEXT:
                await self.limits.admit(caller.user, len(message.data))
                await open_.other.send_str(message.data)

    @staticmethod
    async def _from_owner(open_: "_Relayed") -> None:
        async for message in open_.other:
            if message.type == WSMsgType.BINARY:
                open_.waits_since = None
                await open_.socket.send_bytes(message.data)
            elif message.type == WSMsgType.TEXT:
                await open_.socket.send_str(message.data)


@dataclasses.dataclass
class _Relayed:
    """A client's socket and the one to the owner; and since when a reply is awaited."""

    socket: web.WebSocketResponse
    other: aiohttp.ClientWebSocketResponse
    waits_since: float | None = None

    def is_late(self) -> bool:
        return self.waits_since is not None and time.monotonic() - self.waits_since > LATE_SECONDS
