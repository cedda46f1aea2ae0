"""The devices' side of the tests: a client of the library kept in step with a history of a service over one WebSocket, with nothing hidden.
Applications use the package `realm_sync`, which does this by itself."""

import asyncio
import contextlib
import json
import random
import types
import typing
from collections.abc import AsyncIterator

import aiohttp

from realm_service.heads import ASK, ASK2, ASK_TABLES
from realm_service.refusals import GENERATION, TOO_BIG

HEARTBEAT = 20.0  # seconds
LARGEST = 1 << 26  # bytes of a reply
QUESTIONS = (ASK, ASK2, ASK_TABLES)
FINAL = (400, 401, 403, 404, 410, 413)  # statuses after which trying again is of no use
LOST = (aiohttp.ClientError, OSError, asyncio.TimeoutError, RuntimeError)


class Turned(Exception):
    """The service refuses this device for good: `status` as of HTTP, and in words."""

    def __init__(self, status: int, words: str = ""):
        super().__init__(f"refused: {status} {words}")
        self.status = status


def ended(client: "Client", message: bytes, before: int) -> bool:
    """Whether a client that stood at `before` is in step by the reply to its message: that was a question which brought nothing, and nothing is
    unsent. A long history comes in parts, and a client may ask before it uploads."""
    standing = client.standing()
    return message[0] in QUESTIONS and standing.cursor == before and not standing.unsent


class Client(typing.Protocol):
    """What a Link needs of the library's client."""

    def next_message(self) -> bytes: ...
    def take(self, message: bytes) -> int: ...
    def changed(self) -> typing.Iterable[typing.Any]: ...
    def standing(self) -> typing.Any: ...


class Link:
    """One client and one history. `patience` is how many seconds a reply may take."""

    longest_pause = 30.0  # seconds between two attempts to connect

    def __init__(self, client: Client, base: str, history: str, token: str, generation: int = 1, patience: float = 30):
        self.client, self.base, self.history, self.token = client, base, history, token
        self.generation, self.patience = generation, patience
        self.session: aiohttp.ClientSession | None = None
        self.socket: aiohttp.ClientWebSocketResponse | None = None
        self.news = asyncio.Event()
        self.pause = 0.1

    async def __aenter__(self) -> "Link":
        self.session = aiohttp.ClientSession()
        return self

    async def __aexit__(self, *_: type[BaseException] | BaseException | types.TracebackType | None) -> None:
        assert self.session is not None
        if self.socket is not None:
            await self.socket.close()
        await self.session.close()

    def changed(self) -> None:
        """The client has committed something."""
        self.news.set()

    async def renew(self, token: str) -> None:
        """A token in place of one that expires."""
        self.token = token
        if self.socket is not None and not self.socket.closed:
            await self.socket.send_str(json.dumps({"token": token}))

    async def sync(self) -> list[typing.Any]:
        """Until the server has all of the client's changes and the client had all of the server's: the places that may have changed."""
        places: list[typing.Any] = []
        while True:
            self.news.clear()
            try:
                while not await self._exchange(places):
                    pass
                self.pause = 0.1
                return places
            except LOST:
                await self._drop()
                await asyncio.sleep(self.pause * random.uniform(0.5, 1.5))
                self.pause = min(self.longest_pause, self.pause * 2)

    async def live(self) -> AsyncIterator[list[typing.Any]]:
        """The places that may have changed, whenever there is news."""
        while True:
            if not self.news.is_set():
                waits = [asyncio.ensure_future(self.news.wait()), asyncio.ensure_future(self._hear())]
                await asyncio.wait(waits, return_when=asyncio.FIRST_COMPLETED)
                for it in waits:
                    it.cancel()
                await asyncio.gather(*waits, return_exceptions=True)  # one may receive at a time
            yield await self.sync()

    async def _exchange(self, places: list[typing.Any]) -> bool:
        """One message and its reply. True where that was the last one."""
        message = self.client.next_message()
        before = self.client.standing().cursor
        self.client.take(await self.send(message))
        places += self.client.changed()
        return ended(self.client, message, before)

    async def send(self, message: bytes) -> bytes:
        """The reply to a message; raises Turned, or one of LOST."""
        socket = await self._connected()
        await socket.send_bytes(message)
        while (reply := await self._receive(socket, self.patience)) is None:
            pass
        return reply

    async def _connected(self) -> aiohttp.ClientWebSocketResponse:
        assert self.session is not None
        while self.socket is None or self.socket.closed:
            url = f"{self.base}/v1/histories/{self.history}@{self.generation}"
            try:
                headers = {"Authorization": "Bearer " + self.token}
                self.socket = await self.session.ws_connect(url, headers=headers, max_msg_size=LARGEST, heartbeat=HEARTBEAT)
            except aiohttp.WSServerHandshakeError as error:
                self._turned(error)
        return self.socket

    def _turned(self, error: aiohttp.WSServerHandshakeError) -> None:
        """A new file begins in the generation that the history has."""
        told = error.headers.get(GENERATION) if error.headers else None
        if error.status == 410 and told and self.client.standing().ident == 0 and int(told) != self.generation:
            self.generation = int(told)
        elif error.status in FINAL:
            raise Turned(error.status, error.message) from error
        else:
            raise ConnectionError(str(error)) from error

    async def _receive(self, socket: aiohttp.ClientWebSocketResponse, seconds: float | None) -> bytes | None:
        """A reply, or None where it was news."""
        got = await socket.receive(timeout=seconds)
        if got.type == aiohttp.WSMsgType.TEXT:
            self.news.set()
            return None
        if got.type == aiohttp.WSMsgType.BINARY:
            return typing.cast(bytes, got.data)
        code = socket.close_code or 0
        if code - 4000 in FINAL or code == TOO_BIG:
            raise Turned(413 if code == TOO_BIG else code - 4000, str(got.extra or ""))
        raise ConnectionError("closed")

    async def _drop(self) -> None:
        socket, self.socket = self.socket, None
        if socket is not None:
            await asyncio.wait([asyncio.ensure_future(socket.close())], timeout=1)

    async def _hear(self) -> None:
        """Until there is news, or the connection is lost."""
        with contextlib.suppress(*LOST):
            while not self.news.is_set() and self.socket is not None:
                await self._receive(self.socket, None)
        self.news.set()
