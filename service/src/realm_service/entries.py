"""Entries of a history from a version on, for search indexes and reports: lines of JSON, or server-sent events, which may be resumed."""

import asyncio
import contextlib
import json
import logging
import re
import time
import typing
import uuid
from collections.abc import Iterator

from aiohttp import web

from .heads import Entry
from .history import AHEAD, GIVEN_UP, PAGE_BYTES, History, NoEntries, Page
from .limits import in_time
from .node import NodeFailed
from .refusals import GENERATION, Refused
from .stores import Fenced, StoreDown
from .visits import Visit, Visits

log = logging.getLogger("realm_service")

KEEP_ALIVE = 15.0  # seconds after which a stream of events says that it lives
FIRST_COUNT, MOST_COUNT = 4, 4096  # entries that are asked at once
VERSION = re.compile(r"[0-9]{1,10}")
EVENTS, LINES = "text/event-stream", "application/x-ndjson"


def _line(entry: Entry, device: bytes | None) -> str:
    told = {"version": entry.version, "ident": entry.ident, "device": str(uuid.UUID(bytes=device)) if device else None,
            "number": entry.number, "ms": entry.ms, "changeset": entry.changeset.hex()}
    return json.dumps(told, separators=(",", ":"))


def _first(request: web.Request) -> int:
    """The version from which on entries are asked; a stream that is resumed says the last one that it has."""
    last = request.headers.get("Last-Event-ID", "")
    is_resumed = VERSION.fullmatch(last) is not None
    given = last if is_resumed else request.query.get("from", "0")
    if not VERSION.fullmatch(given) or int(given) + is_resumed >= 1 << 32:
        raise Refused(400, "from is a version")
    return int(given) + is_resumed


class _Lines:
    """A page as lines, and how many entries are asked next: by their sizes so far, since one may have megabytes."""

    def __init__(self, page: Page, count: int):
        self.lines = [(it.version, _line(it, page.uuids.get(it.ident))) for it in page.entries]
        size = sum(len(it.changeset) for it in page.entries)
        self.next_count = max(1, min(2 * count, MOST_COUNT, len(page.entries) * PAGE_BYTES // max(1, size)))

    def body(self, is_events: bool) -> bytes:
        if is_events:
            return "".join(f"id: {version}\ndata: {line}\n\n" for version, line in self.lines).encode()
        return "".join(line + "\n" for _, line in self.lines).encode()


def _refused(refusal: NoEntries) -> Refused:
    if refusal.code == GIVEN_UP:
        return Refused(410, "the history before that was trimmed: begin with its objects, and with entries from its length on")
    if refusal.code == AHEAD:
        return Refused(410, "the history is shorter: it was restored, or it is another one; begin anew")
    return Refused(500, f"the server refuses with code {refusal.code}")


class _Stream:
    """An answer in parts: lines, or events."""

    def __init__(self, request: web.Request, generation: int, seconds: float):
        self.request, self.seconds = request, seconds
        self.is_events = EVENTS in request.headers.get("Accept", "")
        kind = EVENTS if self.is_events else LINES
        self.response = web.StreamResponse(headers={GENERATION: str(generation), "Content-Type": kind, "Cache-Control": "no-store"})

    async def write(self, data: bytes) -> None:
        async with in_time(self.request, self.seconds):
            await self.response.write(data)

    async def keep_alive(self) -> None:
        await self.write(b":\n\n" if self.is_events else b"\n")


class Entries:
    def __init__(self, visits: Visits):
        self.visits = visits
        self.following: set[asyncio.Event] = set()
        self.is_closing = False

    def close(self) -> None:
        """All streams end."""
        self.is_closing = True
        for event in self.following:
            event.set()

    async def tell(self, request: web.Request, visit: Visit, history: History) -> web.StreamResponse:
        version = _first(request)
        stream = _Stream(request, history.lease.generation, self.visits.limits.config.message_seconds)
        is_followed = request.query.get("follow", "1" if stream.is_events else "0") == "1"
        page = await self._page(history, version, FIRST_COUNT, visit)
        await stream.response.prepare(request)
        try:
            await self._told(stream, visit, page, version, is_followed)
            await stream.response.write_eof()
        except (Fenced, StoreDown, Refused, NodeFailed, OSError, asyncio.TimeoutError) as error:
            log.info("%s: a stream of entries is cut: %s", visit.name, error)
            if request.transport is not None:
                request.transport.abort()  # so that the client sees that there is more
        return stream.response

    async def _told(self, stream: _Stream, visit: Visit, page: _Lines, version: int, is_followed: bool) -> None:
        history = typing.cast(History, visit.history)
        with self._grown(history) as grown:
            while True:
                grown.clear()
                while page.lines:
                    await stream.write(page.body(stream.is_events))
                    version = page.lines[-1][0] + 1
                    page = await self._page(history, version, page.next_count, visit)
                if not is_followed or not await self._waited(grown, visit, stream):
                    return
                page = await self._page(history, version, page.next_count, visit)

    async def _page(self, history: History, version: int, count: int, visit: Visit) -> _Lines:
        await self.visits.limits.admit(visit.caller.user, 0)
        try:
            return _Lines(await history.entries(version, count, visit.caller.tables), count)
        except NoEntries as refusal:
            raise _refused(refusal) from refusal

    async def _waited(self, grown: asyncio.Event, visit: Visit, stream: _Stream) -> bool:
        """Waits until there may be more. False where the stream is to end: the client comes back, and goes on from where it is."""
        while not grown.is_set():
            left = visit.until - time.time()
            if left <= 0 or self.is_closing:
                return False
            try:
                await asyncio.wait_for(grown.wait(), min(KEEP_ALIVE, left))
            except asyncio.TimeoutError:
                await stream.keep_alive()
        return not self.is_closing and visit.history is not None and not visit.history.gone

    @contextlib.contextmanager
    def _grown(self, history: History) -> Iterator[asyncio.Event]:
        grown = asyncio.Event()

        def listener(_: int | None) -> None:
            grown.set()

        with history.listening(listener):
            self.following.add(grown)
            try:
                yield grown
            finally:
                self.following.discard(grown)
