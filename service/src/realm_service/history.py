"""A history in memory: it takes its messages in batches, one batch at a time, and tells no reply before all that it rests on is stored."""

from __future__ import annotations

import asyncio
import collections
import contextlib
import dataclasses
import logging
import time
import typing
from collections.abc import Callable, Iterator

from . import metrics
from .devices import Caller, Devices, Forbidden, Outdated, TooMuch
from .heads import BIND, IDENT, NAMES, REFUSED, UPLOAD, BadMessage, Entry, Head, borne, entries, first_bytes, look, look_at_asked, question
from .node import (
    ABSENT,
    BAD_REQUEST,
    CLIENTS,
    DONE,
    ENTRIES,
    STANDING,
    TAKE,
    TRIMMED,
    Damaged,
    Node,
    NodeFailed,
    Reply,
    Written,
    length_of,
    uuids_of,
)
from .stores import Fenced, Lease, StoreDown
from .weights import LIGHT_MESSAGE, Sizes

if typing.TYPE_CHECKING:
    from .histories import Histories

log = logging.getLogger("realm_service")
GIVEN_UP, AHEAD = 71, 63  # codes of a refusal
BATCH_MESSAGES, BATCH_BYTES = 256, 16 << 20
PAGE_BYTES = 1 << 20  # of changesets, after which a page of entries ends
DECLINED = (Forbidden, BadMessage, Outdated, TooMuch)
Listener = Callable[[int | None], None]  # told the length when it has grown, and None when the history is another worker's


class Busy(Exception):
    """Too much waits: try again later."""


class NoEntries(Exception):
    """There are no entries from that version on: GIVEN_UP, AHEAD, or another code of the server's refusal."""

    def __init__(self, code: int):
        super().__init__(f"code {code}")
        self.code = code


class Page(typing.NamedTuple):
    """Some entries, and which uuid each ident is."""

    entries: list[Entry]
    uuids: dict[int, bytes]


@dataclasses.dataclass(eq=False)
class _Work:
    """What waits: a caller's message, or with no caller a request that changes nothing. No request is a trim."""

    request: bytes | None
    future: asyncio.Future[typing.Any]
    caller: Caller | None = None
    listener: Listener | None = None
    head: Head | None = None
    uuids: dict[int, bytes] = dataclasses.field(default_factory=dict)  # by ident, as they are when it is answered
    began: float = dataclasses.field(default_factory=time.monotonic)

    def fail(self, error: BaseException) -> None:
        if not self.future.done():
            self.future.set_exception(error)


class History:
    """One history that this worker owns. Its node is opened at the first message, and let go when it is idle."""

    def __init__(self, histories: Histories, lease: Lease):
        self.histories, self.lease, self.name = histories, lease, lease.name
        self.node: Node | None = None
        self.devices: Devices | None = None
        self.runner: asyncio.Task[None] | None = None
        self.length: int | None = None  # entries; None until the node was open once
        self.sizes = Sizes(0, 0)
        self.waiting: collections.deque[_Work] = collections.deque()
        self.batch: list[_Work] = []  # what is at work
        self.listeners: set[Listener] = set()
        self.used = time.monotonic()
        self.gone = False

    async def ask(self, caller: Caller, message: bytes, listener: Listener | None = None) -> bytes:
        """The reply to a caller's message."""
        is_small = len(message) <= LIGHT_MESSAGE
        head = look_at_asked(message) if is_small else await self.histories.work_aside(look_at_asked, message)
        reply: bytes = await self._put(_Work(message, self._future(), caller, listener, head))
        return reply

    async def read(self, request: bytes) -> Reply:
        """What the node answers to a request that changes nothing."""
        reply: Reply = await self._put(_Work(request, self._future()))
        return reply

    async def entries(self, version: int, count: int, tables: frozenset[str] | None) -> Page:
        """Entries from a version on; none where the history ends there. They are `count` at most, and end with the one that brings them above
        PAGE_BYTES. With `tables` what these get of each, and as many as a Download has."""
        length = await self.known_length()
        if version > length:
            raise NoEntries(AHEAD)
        if version == length:
            return Page([], {})
        if tables is not None:
            return await self._entries_of(version, tables)
        work = _Work(ENTRIES + version.to_bytes(4, "little") + count.to_bytes(4, "little"), self._future())
        status, told = await self._put(work)
        if status == ABSENT:
            raise NoEntries(GIVEN_UP)
        return Page(first_bytes(PAGE_BYTES, entries(version, told)), work.uuids)

    async def _entries_of(self, version: int, tables: frozenset[str]) -> Page:
        """By a question under the first ident, which settles nothing, so that the server keeps nothing of it."""
        work = _Work(TAKE + question(1, version, tables), self._future())
        status, told = await self._put(work)
        if status == BAD_REQUEST:
            raise Forbidden("entries are told of 1 to 64 tables, whose names have 1 to 63 bytes, and the token is for others")
        if status != DONE:
            raise NodeFailed(f"entries: {status}")
        head = await self.histories.work_aside(look, told)
        if head.tag == REFUSED:
            raise NoEntries(head.second)
        return Page(list(entries(head.first, await self.histories.work_aside(borne, told))), work.uuids)

    @contextlib.contextmanager
    def listening(self, listener: Listener) -> Iterator[None]:
        """Tells it all news from here on. Raises Fenced where the history isn't this worker's any more, since nobody would tell it then."""
        if self.gone:
            raise Fenced(self.name)
        self.listeners.add(listener)
        try:
            yield
        finally:
            self.listeners.discard(listener)

    async def known_length(self) -> int:
        if self.length is None:
            await self.read(STANDING)
        assert self.length is not None
        return self.length

    async def trim(self) -> tuple[int, int]:
        """Gives up the history that all devices have settled: the bytes of the journal before and after."""
        sizes: tuple[int, int] = await self._put(_Work(None, self._future()))
        return sizes

    @staticmethod
    def _future() -> asyncio.Future[typing.Any]:
        return asyncio.get_running_loop().create_future()

    async def _put(self, work: _Work) -> typing.Any:
        if self.gone:
            raise Fenced(self.name)
        if len(self.waiting) >= self.histories.most_waiting:
            raise Busy(self.name)
        self.waiting.append(work)
        if self.runner is None:
            self.runner = asyncio.create_task(self._run())
        return await work.future

    # ---- batches

    async def _run(self) -> None:
        try:
            while self.waiting:
                self.batch = self._next_batch()
                try:
                    await self._answer(self.batch)
                except BaseException as error:  # whatever it is, the node may be ahead of what is stored
                    self._fail(self.batch, error)
                    if not isinstance(error, Exception):
                        raise
        finally:
            self.runner, self.batch = None, []
            self.used = time.monotonic()
            if self.gone:
                self.let_go()

    def _next_batch(self) -> list[_Work]:
        """A trim goes alone."""
        batch: list[_Work] = []
        size = 0
        while self.waiting and len(batch) < BATCH_MESSAGES and size < BATCH_BYTES:
            if batch and None in (self.waiting[0].request, batch[0].request):
                break
            batch.append(self.waiting.popleft())
            size += len(batch[-1].request or b"")
        return [it for it in batch if not it.future.done()]

    def _fail(self, batch: list[_Work], error: BaseException) -> None:
        self.let_go()
        if isinstance(error, Fenced):
            metrics.FENCED.inc()
            self.histories.forget(self)
        else:
            metrics.FAILED.labels(type(error).__name__).inc()
            if not isinstance(error, (StoreDown, NodeFailed)):
                log.error("%s: a batch failed", self.name, exc_info=error)
        for work in batch:
            work.fail(error if isinstance(error, (Fenced, Damaged)) else StoreDown(str(error)))

    async def _answer(self, batch: list[_Work]) -> None:
        if not batch:
            return
        if batch[0].request is None:
            sizes = await self._trim()
            if not batch[0].future.done():
                batch[0].future.set_result(sizes)
            return
        if self.node is None:
            await self._open()
        claims: dict[bytes, str] = {}
        admitted = [work for work in batch if self._admit(work, claims)]
        if not admitted:
            return
        requests = [work.request or b"" if work.caller is None else TAKE + (work.request or b"") for work in admitted]
        began = time.perf_counter()
        if all(self._is_light(work) for work in admitted):
            replies, written, length = self._turns(requests)
        else:
            replies, written, length = await self.histories.work(self._turns, requests)
        metrics.TURNS.observe(time.perf_counter() - began)
        await self._store(written, list(claims.items()), length)
        self._reply(admitted, replies)

    def _admit(self, work: _Work, claims: dict[bytes, str]) -> bool:
        """Whether the node gets it. A refusal is told at once."""
        if work.caller is None or work.head is None:
            return True
        assert self.devices is not None
        try:
            uuid = self.devices.admit(work.caller, work.head)
            self._is_bearable(work.head)
        except DECLINED as error:
            metrics.DECLINED.labels(type(error).__name__).inc()
            work.fail(error)
            return False
        if uuid is not None:
            claims[uuid] = work.caller.user
            self.devices.bound(uuid, work.caller.user)
        return True

    def _is_bearable(self, given: Head) -> None:
        """A call into the node can't be stopped, so a message that would be at work too long isn't begun."""
        behind = max(0, (self.length or 0) - given.version)
        most = self.histories.most_pairs
        if given.tag == UPLOAD and given.count * behind > most:
            raise TooMuch(f"{given.count} changes meet {behind} entries, and at most {most} pairs are merged at once: send less")

    def _is_light(self, work: _Work) -> bool:
        return work.head is not None and self.sizes.is_light(work.head, len(work.request or b""))

    def _turns(self, requests: list[bytes]) -> tuple[list[Reply], Written, int]:
        """The replies, what is to be stored before they are told, and the length of the history then."""
        assert self.node is not None
        *replies, standing = self.node.ask_all([*requests, STANDING])
        return replies, self.node.written(), length_of(standing)

    async def _store(self, written: Written, claims: list[tuple[bytes, str]], length: int) -> None:
        """Stores what the node wrote; then, and not before, replies may be told."""
        assert self.node is not None
        if not written.tail and not claims:
            await self.histories.store.check(self.lease)
            return
        began = time.perf_counter()
        await self.histories.store.append(self.lease, written.gate, written.tail, claims)
        metrics.STORING.observe(time.perf_counter() - began)
        metrics.STORED_BYTES.inc(len(written.tail))
        self.node.emptied()
        self.sizes.grew(length, len(written.tail))
        self.histories.grew(self)

    def _reply(self, admitted: list[_Work], replies: list[Reply]) -> None:
        uploaders: set[Listener | None] = set()
        for work, (status, told) in zip(admitted, replies):
            tag = work.head.tag if work.head else None
            if tag == BIND and status == DONE:
                self._named(told)
            if tag == UPLOAD:
                uploaders.add(work.listener)
            metrics.ANSWERED[NAMES[tag] if tag else "read"].inc()
            if work.future.done():
                continue
            if tag is None:
                work.uuids = self.devices.uuids if self.devices else {}
                work.future.set_result(Reply(status, told))
            elif status == DONE:
                work.future.set_result(told)
            else:
                work.fail(BadMessage("no message") if status == BAD_REQUEST else NodeFailed(str(status)))
        if uploaders:
            self._tell_news(self.sizes.length, uploaders)

    def _named(self, told: bytes) -> None:
        """The node gave a uuid its ident, where it says so."""
        head = look(told)
        if head.tag == IDENT and self.devices is not None:
            self.devices.uuids[head.ident] = head.uuid

    def _tell_news(self, length: int, but: set[Listener | None]) -> None:
        known, self.length = self.length, length
        if known is not None and length > known:
            metrics.ENTRIES.inc(length - known)
            for listener in list(self.listeners - but):
                listener(length)

    def tell_moved(self) -> None:
        """Whoever listens is to come back."""
        for listener in set(self.listeners):
            listener(None)

    # ---- the node

    async def _open(self) -> None:
        with metrics.OPENING.time():
            journal, devices = await self.histories.store.read(self.lease)
            self.histories.make_room(len(journal))
            self.node = Node()
            self.sizes = Sizes(0, len(journal))
            self.histories.opened(self)
            try:
                self.devices = Devices(devices, self.lease.generation, self.histories.most_devices)
                await self.histories.work_aside(self.node.open, journal)
                await self._store(self.node.written(), [], 0)
                length, self.devices.uuids = await self.histories.work_aside(self._learn)
                self.sizes = Sizes(length, self.sizes.size)
                self._tell_news(length, set())  # of an append that failed, and was stored all the same
            except BaseException:
                self.let_go()
                raise
        metrics.OPENED.inc()

    def _learn(self) -> tuple[int, dict[int, bytes]]:
        """How long the history is, and which uuid each ident is."""
        assert self.node is not None
        clients, standing = self.node.ask_all([CLIENTS, STANDING])
        return length_of(standing), uuids_of(clients)

    async def _trim(self) -> tuple[int, int]:
        """Puts the shorter journal that the node tells in the place of the stored one. No message is at work meanwhile, and the node has just what
        is stored; if somebody else appended all the same, the store refuses. The node is opened again from what is left."""
        if self.node is None:
            await self._open()
        left = await self.histories.work(self._shorter)
        before = self.lease.length + 1  # the closed gate is a byte
        if len(left) >= before:
            return before, before
        await self.histories.store.replace(self.lease, left)
        self.let_go()
        return before, len(left)

    def _shorter(self) -> bytes:
        """The journal without the history that no client needs."""
        assert self.node is not None
        status, told = self.node.ask_all([TRIMMED])[0]
        if status != DONE:
            raise NodeFailed(f"trim: {status}")
        return told

    def let_go(self) -> None:
        """Lets the node go; what it was asked is stored, or void."""
        node, self.node, self.devices = self.node, None, None
        if node is not None:
            self.histories.closed(self)
            node.close()

    def give_up(self, before: float) -> None:
        """Tells those that it took too long whose work began before that. What is at work goes on all the same."""
        for work in (*self.batch, *self.waiting):
            if work.began < before:
                work.fail(TimeoutError())

    def is_idle(self) -> bool:
        return self.runner is None and not self.waiting

    async def close(self) -> None:
        """Finishes what waits, and gives the history back."""
        self.gone = True
        while self.runner is not None:
            await asyncio.wait([self.runner])
        self.tell_moved()
        self.let_go()
        with contextlib.suppress(StoreDown):
            await self.histories.store.release(self.lease)
