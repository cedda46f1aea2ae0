"""WebSockets. Binary frames are messages and replies, one at a time: the next one is read when the reply is sent. Text frames are
{"news": LENGTH} to the client, and {"token": TOKEN} from it."""

import asyncio
import json
import time
import typing

import aiohttp
from aiohttp import WSMsgType, web

from . import metrics
from .devices import Caller, Forbidden
from .heads import BadMessage
from .history import History
from .limits import in_time
from .refusals import RESTART, Refused, refusal_of, response_of
from .stores import Fenced
from .tokens import BadToken
from .visits import Visit, Visits

HEARTBEAT = 20.0  # seconds
LONGEST_TIMER = 86400.0  # seconds
SOON = 1 << 15  # bytes that a socket takes without a wait


class News:
    """Tells a client once that the history has grown, until it sends a message."""

    def __init__(self, socket: web.WebSocketResponse):
        self.socket, self.is_told = socket, False
        self.sending: set[asyncio.Task[None]] = set()

    def __call__(self, length: int | None) -> None:
        if length is not None and self.is_told:
            return
        self.is_told = True
        task = asyncio.ensure_future(self._tell(length))
        self.sending.add(task)
        task.add_done_callback(self.sending.discard)

    async def _tell(self, length: int | None) -> None:
        try:
            if length is None:
                await self.socket.close(code=RESTART, message=b"moved")
            else:
                await self.socket.send_str(f'{{"news":{length}}}')
        except (ConnectionError, RuntimeError):
            pass  # it is gone, and whoever reads from it hears so


class _End:
    """Closes a socket when its token ends."""

    def __init__(self, socket: web.WebSocketResponse, visit: Visit):
        self.socket, self.visit = socket, visit
        self.closing: asyncio.Future[bool] | None = None
        self.timer = self._timer()

    def renew(self) -> None:
        """A newer token came."""
        self.timer.cancel()
        self.timer = self._timer()

    def _timer(self) -> asyncio.TimerHandle:
        left = min(self.visit.until - time.time(), LONGEST_TIMER)
        return asyncio.get_running_loop().call_later(max(0.0, left), self._ended)

    def _ended(self) -> None:
        if self.visit.until > time.time():
            self.timer = self._timer()
        else:
            self.closing = asyncio.ensure_future(self.socket.close(code=4401, message=b"the token has expired"))


class Sockets:
    def __init__(self, visits: Visits):
        self.visits, self.limits = visits, visits.limits
        self.open: set[web.WebSocketResponse] = set()
        self.answering: set[web.WebSocketResponse] = set()  # of these, the ones that wait for a reply

    async def handle(self, request: web.Request) -> web.StreamResponse:
        try:
            if not web.WebSocketResponse(protocols=("realm",)).can_prepare(request).ok:
                raise Refused(400, "a GET here opens a WebSocket, and this one doesn't ask for it: a message by itself is a POST")
            visit = await self.visits.visit(request, is_device=True)
            with self.limits.socket(visit.caller.user):
                try:
                    other = await self._other(visit, request)
                except Fenced:
                    visit = await self.visits.visit(request, is_device=True)
                    other = await self._other(visit, request)
                return await self._opened(request, visit, other)
        except ConnectionError as error:  # the caller is gone before the socket is open: no fault of the service
            return response_of(Refused(503, str(error)))
        except Exception as error:
            return response_of(error)

    async def _other(self, visit: Visit, request: web.Request) -> aiohttp.ClientWebSocketResponse | None:
        """The socket to the owner, where that isn't this worker."""
        return None if visit.history else await self.visits.owners.connected(visit, request)

    async def _opened(self, request: web.Request, visit: Visit, other: aiohttp.ClientWebSocketResponse | None) -> web.StreamResponse:
        most = self.limits.config.message_bytes
        socket = web.WebSocketResponse(max_msg_size=most, heartbeat=HEARTBEAT, timeout=2, compress=False, protocols=("realm",))
        try:
            if request.transport is None:
                raise ConnectionResetError("the caller is gone")
            await socket.prepare(request)
        except Exception:
            if other is not None:
                await other.close()
            raise
        self.open.add(socket)
        try:
            if other is not None:
                await self.visits.owners.relay(socket, other, visit)
            else:
                await self._serve(request, socket, visit)
        except Exception as error:
            refusal = refusal_of(error)
            metrics.REFUSED.labels(str(refusal.code)).inc()
            await socket.close(code=refusal.code, message=str(refusal).encode()[:100])
        finally:
            self.open.discard(socket)
        return socket

    async def _serve(self, request: web.Request, socket: web.WebSocketResponse, visit: Visit) -> None:
        history = typing.cast(History, visit.history)
        news, end = News(socket), _End(socket, visit)
        try:
            with history.listening(news):
                while await self._served(request, socket, visit, history, news):
                    end.renew()
        except ConnectionError:
            return
        finally:
            self.answering.discard(socket)
            end.timer.cancel()

    async def _served(self, request: web.Request, socket: web.WebSocketResponse, visit: Visit, history: History, news: News) -> bool:
        """Answers messages. True where a newer token came, and False where the caller has closed the socket."""
        while True:
            message = await socket.receive()
            if visit.until <= time.time():
                raise BadToken("the token has expired")
            if message.type == WSMsgType.BINARY:
                news.is_told = False
                if history.gone:
                    raise Fenced(visit.name)
                self.answering.add(socket)
                with self.limits.flight(len(message.data)):
                    await self._send(request, socket, await self.visits.answer(history, visit.caller, message.data, news))
                self.answering.discard(socket)
                if not self.visits.is_open:
                    raise Refused(503, "the worker stops", RESTART)
            elif message.type == WSMsgType.TEXT:
                await self.limits.admit(visit.caller.user, len(message.data))
                visit.caller, visit.until = self._renewed(message.data, visit)
                return True
            elif history.gone or not self.visits.is_open:
                raise Refused(503, "the worker stops, or has the history no more", RESTART)
            else:
                return False

    async def _send(self, request: web.Request, socket: web.WebSocketResponse, reply: bytes) -> None:
        if request.transport is not None and request.transport.get_write_buffer_size() + len(reply) < SOON:
            await socket.send_bytes(reply)  # (which waits for nobody)
        else:
            async with in_time(request, self.limits.config.message_seconds):
                await socket.send_bytes(reply)

    def _renewed(self, text: str, visit: Visit) -> tuple[Caller, float]:
        try:
            token = json.loads(text)["token"]
        except (ValueError, KeyError, TypeError, RecursionError):
            raise BadMessage("a text frame is {\"token\": TOKEN}") from None
        renewed, until = self.visits.caller(str(token), visit.name)
        if (renewed.user, renewed.device) != (visit.caller.user, visit.caller.device):
            raise Forbidden("the token is another one's")
        return renewed, until

    async def close(self) -> None:
        """Each socket is told to come back elsewhere, once its message is answered: where one is under way, by whoever answers it."""
        closing = [it.close(code=RESTART, message=b"restart") for it in self.open - self.answering]
        await asyncio.gather(*closing, return_exceptions=True)
