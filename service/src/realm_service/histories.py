"""The histories of this worker: which are open, which are let go for room, and who has the others."""

import asyncio
import collections
import concurrent.futures
import logging
import time
import typing
from collections.abc import Callable

from . import metrics
from .config import HistoriesConfig
from .history import History
from .library import give_back
from .stores import Absent, Fenced, Store

log = logging.getLogger("realm_service")
# What a node takes by its journal, as docs/SERVICE.md measures it: some for itself, and so many bytes for each byte.
NODE_BYTES, NODE_FACTOR = 40 << 10, 20
OPENERS = 4  # threads

Answer = typing.TypeVar("Answer")


def weight(journal_bytes: int) -> int:
    return NODE_BYTES + NODE_FACTOR * journal_bytes


def _looked_at(task: asyncio.Task[History]) -> None:
    """Nobody may wait for it any more, and then its failure isn't of interest."""
    if not task.cancelled():
        task.exception()


class Histories:
    def __init__(self, store: Store, config: HistoriesConfig, message_seconds: float):
        self.store, self.message_seconds = store, message_seconds
        self.idle_seconds, self.most_bytes = config.idle_seconds, config.open_bytes
        self.most_waiting, self.most_devices, self.most_pairs = config.waiting, config.user_devices, config.merge_pairs
        self.owned: dict[str, History] = {}
        self.coming: dict[str, tuple[asyncio.Task[History], bool]] = {}  # and whether it makes the history
        self.nodes: collections.OrderedDict[History, int] = collections.OrderedDict()  # the weights, the least recently used first
        self.held = 0
        self.let_go = 0  # nodes since memory was last given back
        self.pool = concurrent.futures.ThreadPoolExecutor(config.threads, "node")
        self.openers = concurrent.futures.ThreadPoolExecutor(OPENERS, "open")  # so that long messages hold up no opening
        store.on_lapse(self.lapsed)
        metrics.OWNED.set_function(lambda: len(self.owned))
        metrics.OPEN.set_function(lambda: len(self.nodes))
        metrics.HELD.set_function(lambda: self.held)

    async def work(self, function: Callable[..., Answer], *given: typing.Any) -> Answer:
        """Does it in one of the threads for messages."""
        return await asyncio.get_running_loop().run_in_executor(self.pool, function, *given)

    async def work_aside(self, function: Callable[..., Answer], *given: typing.Any) -> Answer:
        """Does it in one of the threads for all else."""
        return await asyncio.get_running_loop().run_in_executor(self.openers, function, *given)

    # ---- memory

    def make_room(self, journal_bytes: int) -> None:
        """Lets nodes go that are idle, the least recently used first, until one more of that size has room."""
        over = self.held + weight(journal_bytes) - self.most_bytes
        for history in list(self.nodes) if over > 0 else ():
            if over <= 0:
                break
            if history.is_idle():
                over -= self.nodes[history]
                self._close_node(history)

    def opened(self, history: History) -> None:
        self.nodes[history] = 0
        self.grew(history)

    def grew(self, history: History) -> None:
        now = weight(history.sizes.size)
        self.held += now - self.nodes[history]
        self.nodes[history] = now
        self.nodes.move_to_end(history)

    def closed(self, history: History) -> None:
        self.held -= self.nodes.pop(history, 0)
        self.let_go += 1

    def _close_node(self, history: History) -> None:
        history.let_go()
        metrics.CLOSED.inc()

    # ---- who has a history

    async def get(self, name: str, create: bool = False, suspect: object = None) -> History:
        """The history, which this worker takes where nobody has it; else Elsewhere."""
        while True:
            history = self.owned.get(name)
            if history is not None and not history.gone:
                return history
            if name not in self.coming:
                self.coming[name] = asyncio.create_task(self._take(name, create, suspect)), create
                self.coming[name][0].add_done_callback(_looked_at)
            task, makes = self.coming[name]
            try:
                return await asyncio.shield(task)
            except Absent:
                if makes or not create:  # else somebody who may only read asked at the same time
                    raise

    async def _take(self, name: str, create: bool, suspect: object) -> History:
        try:
            old = self.owned.get(name)
            if old is not None:
                await old.close()
            lease = await self.store.acquire(name, create, suspect)
            history = self.owned[name] = History(self, lease)
            metrics.TAKEN.inc()
            return history
        finally:
            del self.coming[name]  # here, so that nobody finds one that has ended

    def lapsed(self, ours: set[tuple[int, int]]) -> None:
        """This worker's lease had ended: what others took meanwhile is forgotten, and who listens there is told to come back."""
        for history in list(self.owned.values()):
            if (history.lease.id, history.lease.epoch) not in ours and not history.gone:
                metrics.FENCED.inc()
                self.forget(history)

    def forget(self, history: History) -> None:
        """It isn't ours any more."""
        history.gone = True
        if self.owned.get(history.name) is history:
            del self.owned[history.name]
        if history.is_idle():
            history.let_go()
        for work in history.waiting:
            work.fail(Fenced(history.name))
        history.waiting.clear()
        history.tell_moved()

    # ---- idle ones

    async def sweep(self) -> None:
        """Gives up messages that take too long, lets idle nodes go, gives idle histories back to whoever wants them, and memory to the
        system."""
        while True:
            await asyncio.sleep(min(1.0, self.idle_seconds / 4))
            try:
                await self._sweep_once(time.monotonic() - self.idle_seconds)
            except Exception:  # a sweeper that ends would keep all nodes for good
                log.exception("a sweep failed")

    async def _sweep_once(self, since: float) -> None:
        for history in [it for it in self.owned.values() if not it.is_idle()]:
            history.give_up(time.monotonic() - self.message_seconds)
        for history in [it for it in self.nodes if it.used < since and it.is_idle()]:
            self._close_node(history)
        for history in list(self.owned.values()):
            if history.used < since and history.is_idle() and not history.listeners:
                await history.close()
                if self.owned.get(history.name) is history:
                    del self.owned[history.name]
        if self.let_go:
            self.let_go = 0
            await self.work_aside(give_back)

    async def stop(self) -> None:
        await asyncio.gather(*(it.close() for it in list(self.owned.values())), return_exceptions=True)
        self.pool.shutdown()
        self.openers.shutdown()
