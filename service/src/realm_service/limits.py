"""What callers may take: rates of a user, sockets, bytes under way, and the time in which a request or a message must be whole."""

import asyncio
import collections
import contextlib
import logging
import time
import typing
from collections.abc import AsyncIterator, Iterator

from aiohttp import web
from aiohttp.http_websocket import WSParserState
from aiohttp.web_protocol import RequestHandler

from . import metrics
from .config import LimitsConfig
from .history import Busy
from .refusals import Refused

log = logging.getLogger("realm_service")
PATIENCE = 5.0  # seconds that a message waits for its user's rate before it is refused
REQUESTS_AHEAD = 100  # on one connection, that came before the one is answered that came first
CONNECTIONS_EACH = 2  # connections of any kind, for each socket that may be open


class Bucket:
    """So many units a second, and so many at once."""

    def __init__(self, rate: float, most: float):
        self.rate, self.most, self.left, self.at = rate, most, most, time.monotonic()

    def take(self, units: float) -> float:
        """Takes units, and answers how many seconds to wait."""
        now = time.monotonic()
        self.left = min(self.most, self.left + (now - self.at) * self.rate) - units
        self.at = now
        return max(0.0, -self.left / self.rate)


class Limits:
    def __init__(self, config: LimitsConfig):
        self.config = config
        self.sockets: collections.Counter[str] = collections.Counter()  # by user
        self.open_sockets = 0
        self.buckets: dict[str, tuple[Bucket, Bucket]] = {}  # of messages and of bytes, by user
        self.in_flight = 0
        metrics.CONNECTIONS.set_function(lambda: self.open_sockets)
        metrics.IN_FLIGHT.set_function(lambda: self.in_flight)

    @contextlib.contextmanager
    def socket(self, user: str) -> Iterator[None]:
        """A socket of a user as long as it is open."""
        if self.open_sockets >= self.config.connections or self.sockets[user] >= self.config.user_connections:
            raise Refused(429, "too many connections")
        self.sockets[user] += 1
        self.open_sockets += 1
        try:
            yield
        finally:
            self.open_sockets -= 1
            self.sockets[user] -= 1
            if not self.sockets[user]:
                del self.sockets[user]

    async def admit(self, user: str, size: int) -> None:
        """Waits for the user's rate; refuses who is far above it."""
        if user not in self.buckets:
            rate, bytes_rate = self.config.requests_per_second, self.config.bytes_per_second
            self.buckets[user] = Bucket(rate, 2 * rate), Bucket(bytes_rate, 2 * bytes_rate + self.config.message_bytes)
        messages, many_bytes = self.buckets[user]
        wait = max(messages.take(1), many_bytes.take(size))
        if wait > PATIENCE:
            raise Refused(429, "too many messages")
        if wait > 0:
            await asyncio.sleep(wait)

    @contextlib.contextmanager
    def flight(self, size: int) -> Iterator[None]:
        """The room for a message until it is answered."""
        if self.in_flight + size > self.config.in_flight_bytes:
            raise Busy("too many bytes under way")
        self.in_flight += size
        try:
            yield
        finally:
            self.in_flight -= size

    def sweep(self) -> None:
        """Forgets the rates of users that are silent."""
        before = time.monotonic() - 60
        for user in [user for user, (bucket, _) in self.buckets.items() if bucket.at < before]:
            del self.buckets[user]


class Guarded(RequestHandler):
    """A connection that knows since when a request or a message of it is cut, and how much it holds. aiohttp 3.8 has no limit for either, so
    this looks into its private state; where a later one has another, nothing is cut, and a proxy in front does it."""

    guards: "Guards"
    began: float | None = None

    def connection_made(self, transport: asyncio.BaseTransport) -> None:
        super().connection_made(transport)
        self.began = time.monotonic()
        if not self.guards.admit(self) and self.transport is not None:
            self.transport.abort()

    def connection_lost(self, exc: BaseException | None) -> None:
        super().connection_lost(exc)
        self.guards.guarded.discard(self)

    def data_received(self, data: bytes) -> None:
        super().data_received(data)
        try:
            is_cut = self._is_cut()
            if len(self._messages) > REQUESTS_AHEAD:
                self._answer_one()
        except AttributeError:
            is_cut = False
        self.began = (self.began or time.monotonic()) if is_cut else None

    def _answer_one(self) -> None:
        """Answers the first request that waits, and closes the connection."""
        first = self._messages.popleft()
        self._messages.clear()
        self._messages.append(first)
        self.pause_reading()
        self.close()

    def _is_cut(self) -> bool:
        parser: typing.Any = self._payload_parser
        if parser is not None:  # a socket: a frame, or a message in several of them
            return parser._state != WSParserState.READ_HEADER or bool(parser._partial) or bool(parser._tail)
        return not self._upgrade and self._current_request is None and not self._messages

    def held(self) -> int:
        """Bytes of a socket's messages that aren't whole, or wait to be read, and of answers that aren't sent."""
        if self.transport is None:
            return 0
        unsent: int = self.transport.get_write_buffer_size()
        parser: typing.Any = self._payload_parser
        come: int = 0
        with contextlib.suppress(AttributeError):
            if parser is not None:
                come = len(parser._frame_payload) + len(parser._partial) + len(parser._tail) + parser.queue._size
        return unsent + come


class Guards:
    """All connections. Those are cut that drip, and the greatest where all together hold too much."""

    def __init__(self, config: LimitsConfig):
        self.config, self.guarded = config, set[Guarded]()

    def admit(self, it: Guarded) -> bool:
        """Whether one more may be open."""
        if len(self.guarded) >= CONNECTIONS_EACH * self.config.connections:
            return False
        self.guarded.add(it)
        return True

    def sweep(self) -> None:
        now = time.monotonic()
        for it in list(self.guarded):
            if it.began is None and it.transport is not None and it.transport.is_closing():
                it.began = now  # it isn't closed before its last answer is taken
            elif it.began is not None and it.began < now - self.config.message_seconds:
                self._cut(it)
        held = {it: it.held() for it in self.guarded}
        over = sum(held.values()) - self.config.in_flight_bytes
        for it in sorted(held, key=held.__getitem__, reverse=True) if over > 0 else ():
            if over <= 0:
                break
            over -= held[it]
            self._cut(it)

    def _cut(self, it: Guarded) -> None:
        self.guarded.discard(it)
        if it.transport is not None:
            metrics.SLOW.inc()
            it.transport.abort()


@contextlib.asynccontextmanager
async def in_time(request: web.Request, seconds: float) -> AsyncIterator[None]:
    """For what is sent: who doesn't take it for so long is cut."""
    try:
        async with asyncio.timeout(seconds):
            yield
    except asyncio.TimeoutError:
        metrics.SLOW.inc()
        if request.transport is not None:
            request.transport.abort()
        raise ConnectionResetError("the other side doesn't take what is sent") from None
