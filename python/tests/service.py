"""A server of one history over HTTP and WebSocket, as the service of this repository answers: for the tests of the transports."""

from __future__ import annotations

import asyncio
import json
import threading
from typing import Any

from aiohttp import WSMsgType, web
from realm_sync import Server


class Service:
    """Runs in a thread of its own, at a free port of this machine. `tokens` are those that it takes; `is_silent` keeps replies back, and
    `asked` counts them."""

    def __init__(self) -> None:
        self.server, self.tokens, self.is_silent, self.posts, self.asked = Server(), {"good"}, False, 0, 0
        self.renewed: list[str] = []
        self.generation = 1
        self._sockets: set[web.WebSocketResponse] = set()
        self._grown = asyncio.Event()
        self._loop = asyncio.new_event_loop()
        self._ready = threading.Event()
        self.port = 0
        self._thread = threading.Thread(target=self._run, daemon=True)
        self._thread.start()
        self._ready.wait(10)

    @property
    def http(self) -> str:
        return f"http://127.0.0.1:{self.port}/v1/histories/test"

    @property
    def ws(self) -> str:
        return f"ws://127.0.0.1:{self.port}/v1/histories/test"

    def _run(self) -> None:
        asyncio.set_event_loop(self._loop)
        app = web.Application(client_max_size=1 << 26)
        app.router.add_post("/v1/histories/{name}", self._post)
        app.router.add_get("/v1/histories/{name}", self._socket)
        app.router.add_get("/v1/histories/{name}/news", self._news)
        runner = web.AppRunner(app)
        self._loop.run_until_complete(runner.setup())
        site = web.TCPSite(runner, "127.0.0.1", 0, shutdown_timeout=0.1)
        self._loop.run_until_complete(site.start())
        self.port = runner.addresses[0][1]
        self._ready.set()
        self._loop.run_forever()
        self._loop.run_until_complete(runner.cleanup())
        self._loop.close()

    def close(self) -> None:
        self._loop.call_soon_threadsafe(self._loop.stop)
        self._thread.join(10)
        self.server.close()

    def drop(self, code: int = 1012) -> None:
        """Ends all connections."""
        for it in list(self._sockets):
            asyncio.run_coroutine_threadsafe(it.close(code=code), self._loop).result(10)

    def _check(self, request: web.Request, unnamed: int = 1) -> None:
        """A device that names no generation is of the first, and who asks for news without one is of any."""
        if request.headers.get("Authorization", "").removeprefix("Bearer ") not in self.tokens:
            raise web.HTTPUnauthorized
        if int(request.match_info["name"].partition("@")[2] or unnamed) != self.generation:
            raise web.HTTPGone(headers={"Realm-Generation": str(self.generation)})

    async def _take(self, message: bytes) -> bytes:
        before = self.server.standing().cursor
        reply = self.server.take(message)
        length = self.server.standing().cursor
        if length > before:
            self._grown.set()
            self._grown = asyncio.Event()
            for it in list(self._sockets):
                asyncio.ensure_future(it.send_str(json.dumps({"news": length})))
        return reply

    async def _post(self, request: web.Request) -> web.Response:
        self._check(request)
        self.posts += 1
        return web.Response(body=await self._take(await request.read()))

    async def _news(self, request: web.Request) -> web.Response:
        self._check(request, self.generation)
        after, wait = int(request.query["after"]), min(1.0, float(request.query["wait"]))
        if self.server.standing().cursor <= after:
            try:
                await asyncio.wait_for(self._grown.wait(), wait)
            except asyncio.TimeoutError:
                return web.Response(status=204)
        return web.json_response({"news": self.server.standing().cursor})

    async def _socket(self, request: web.Request) -> Any:
        self._check(request)
        socket = web.WebSocketResponse(max_msg_size=1 << 26, protocols=("realm",))
        await socket.prepare(request)
        self._sockets.add(socket)
        async for message in socket:
            if message.type == WSMsgType.TEXT:
                self.renewed.append(json.loads(message.data)["token"])
            elif message.type == WSMsgType.BINARY and self.is_silent:
                self.asked += 1
            elif message.type == WSMsgType.BINARY:
                await socket.send_bytes(await self._take(message.data))
        self._sockets.discard(socket)
        return socket
