"""The background loop of sync: what there is to say is said, what came is taken, and the state is told."""

from __future__ import annotations

import dataclasses
import random
import threading
import time
from collections.abc import Callable
from typing import Literal, Protocol

from .errors import Closed, Endless, Error, NeedsAttention, Outdated, Reason, Refused, StorageFailed, Unauthorized, error_of, words_of_code
from .problems import BY_CODE, Problem
from .transports import Transport

Status = Literal["off", "connecting", "offline", "syncing", "up to date", "recovering", "needs attention"]
# So many messages in a row may leave a client as it was.
_MOST_IDLE = 16


@dataclasses.dataclass(frozen=True)
class SyncState:
    """What an application shows: `text` says more, `unsent` how many transactions the history doesn't have yet as far as this device knows,
    `retry_at` when it is tried again (time.time()), `problem` why sync is recovering or needs attention."""

    status: Status
    text: str = ""
    unsent: int = 0
    retry_at: float = 0.0
    problem: Problem | None = None


@dataclasses.dataclass(frozen=True)
class SyncOptions:
    """Times in seconds. `poll` is how often a server is asked that doesn't tell by itself that there is something new. After `most_messages` without
    the end of the history a round ends with `Endless`."""

    poll: float = 10
    retry_from: float = 0.5
    retry_most: float = 60
    most_messages: int = 100_000


class Syncable(Protocol):
    """What the loop asks of the client."""

    def next(self) -> bytes: ...

    def take(self, message: bytes) -> bool:
        """Answers whether the message says that nothing is behind the client's cursor."""

    def upgrade(self) -> None: ...

    def unsent(self) -> int: ...

    def progress(self) -> tuple[int, ...]:
        """It changes with each step forward."""


def problem_of(why: Refused, is_repeated: bool) -> Problem | Literal["again", "upgrade"]:
    """What a client's refusal of a reply asks for: docs/EMBEDDING.md, "What each answer asks for". `again` is a question for the history, which is
    what a client sends next after any refusal."""
    first, second, third = why.details
    match why.reason:
        case Reason.NOT_MINE:
            return "again"
        case Reason.OLD_ENTRY:
            return "upgrade"
        case Reason.MISMATCH:
            text = f"the history and the unsent change {second} can't be merged: {words_of_code(third)}"
            return Problem("schema", text, True, why.conflict)
        case Reason.FORKED:
            return Problem("restored", f"the history has a change {first} of this device that its file doesn't have", True)
        case Reason.IDENT_DIFFERS:
            return Problem("other server", "the server knows this device by another number", True)
        case Reason.WAS_REFUSED:
            if second == 67:
                return "upgrade"
            cause, can = BY_CODE.get(second, ("damaged", True))
            # The reply to the question that comes next says which column.
            if cause == "schema" and not is_repeated:
                return "again"
            return Problem(cause, f"the server refused change {first}: {words_of_code(second)}", can)
        case _:
            return Problem("damaged", str(why), True) if is_repeated else "again"


def void(_: object) -> None:
    """Drops an answer."""


class SyncLoop:
    """A thread that syncs until it is stopped."""

    def __init__(
        self, node: Syncable, transport: Transport, options: SyncOptions, tell: Callable[[SyncState], None], on_problem: Callable[[Problem], bool]
    ) -> None:
        self._node, self._transport, self._options, self._tell, self._on_problem = node, transport, options, tell, on_problem
        self._wake = threading.Condition()
        self._asked, self._done, self._fails, self._commits = 1, 0, 0, 0
        # The last problem that was told, and how many were.
        self._problem, self._problems = Problem("damaged", "", False), 0
        self._stopped = self._is_repeated = self._must_upgrade = False
        self._held: Problem | None = None
        self.state = SyncState("connecting")
        self._poll = options.poll
        self._thread = threading.Thread(target=self._run, name="realm_sync", daemon=True)

    def start(self) -> None:
        if self._transport.watch(lambda: void(self.poke())):
            self._poll = 300.0
        self._thread.start()

    def poke(self) -> int:
        """There may be something to do: answers the number of the round that does it."""
        with self._wake:
            self._asked += 1
            self._wake.notify_all()
            return self._asked

    def committed(self) -> None:
        """Something was committed: it is sent at once, but where the loop waits before it tries again."""
        if self.state.status in ("up to date", "syncing", "connecting"):
            self.poke()
        with self._wake:
            self._commits += 1
            self._wake.notify_all()

    def resume(self) -> None:
        """Goes on after a problem that was settled."""
        with self._wake:
            self._held, self._is_repeated, self._fails = None, False, 0
        self.poke()

    def synced(self, timeout: float | None = None) -> bool:
        """Waits until all that was committed is in the history, and all that the history had is here; False after `timeout` seconds. Raises
        where sync needs attention."""
        if threading.current_thread() is self._thread:
            raise Error("this is a callback of sync, which waits for it: call synced() in another thread")
        want = self.poke()
        with self._wake:
            seen = self._problems
            self._wake.wait_for(lambda: self._done >= want or self._stopped or self._held or self._problems > seen, timeout)
            if self._done >= want:
                return True
            if self._held or self._problems > seen:
                raise error_of(self._held or self._problem)
            if self._stopped:
                raise Closed("sync was stopped")
            return False

    def stop(self) -> None:
        with self._wake:
            self._stopped = True
            self._wake.notify_all()
        self._transport.close()
        if threading.current_thread() is not self._thread and self._thread.is_alive():
            self._thread.join(10)

    def _set(self, state: SyncState) -> None:
        self.state = state
        if not self._stopped:
            self._tell(state)

    def _run(self) -> None:
        while not self._stopped:
            with self._wake:
                want = self._asked
            try:
                self._round()
                if self._stopped:
                    return
                self._fails, self._is_repeated = 0, False
                self._set(SyncState("up to date"))
                with self._wake:
                    self._done = want
                    self._wake.notify_all()
                self._sleep(self._poll, want)
            except Exception as why:
                if self._stopped:
                    return
                self._failed(why, want)

    def _failed(self, why: Exception, want: int) -> None:
        if isinstance(why, Unauthorized):
            return self._stop_for(Problem("unauthorized", str(why), False))
        if isinstance(why, Outdated):
            return self._stop_for(Problem("other server", str(why), True, generation=why.generation))
        if isinstance(why, NeedsAttention):
            return self._stop_for(why.problem)
        if isinstance(why, Refused):
            what, was_repeated = problem_of(why, self._is_repeated), self._is_repeated
            self._is_repeated = True
            if isinstance(what, Problem):
                return self._stop_for(what)
            self._must_upgrade = what == "upgrade"
            if not was_repeated:
                return None  # at once, and with pauses where it comes to the same again
        self._fails += 1
        options = self._options
        wait = min(options.retry_most, options.retry_from * 2 ** min(self._fails - 1, 30)) * random.uniform(0.75, 1.25)
        if isinstance(why, StorageFailed):
            self._tell_attention(Problem("storage", str(why), False))
        else:
            self._set(SyncState("offline", str(why), self._unsent(), retry_at=time.time() + wait))
        return self._sleep(wait, want)

    def _stop_for(self, problem: Problem) -> None:
        if self._on_problem(problem):
            self._is_repeated = False
            return
        if self._stopped:
            return
        with self._wake:
            self._held = problem
        self._tell_attention(problem, self._unsent())
        with self._wake:
            self._wake.wait_for(lambda: self._stopped or self._held is None)

    def _tell_attention(self, problem: Problem, unsent: int = 0) -> None:
        self._set(SyncState("needs attention", problem.text, unsent, problem=problem))
        with self._wake:
            self._problem, self._problems = problem, self._problems + 1
            self._wake.notify_all()

    def _unsent(self) -> int:
        try:
            return self._node.unsent()
        except Error:  # the file couldn't be opened again, or was closed
            return 0

    def _sleep(self, seconds: float, want: int) -> None:
        """While it is offline it tells how many transactions wait, as they are committed."""
        end, commits = time.monotonic() + seconds, self._commits
        while True:
            with self._wake:
                self._wake.wait_for(lambda: self._stopped or self._asked > want or self._commits != commits, end - time.monotonic())
                if self._stopped or self._asked > want or self._commits == commits:
                    return
                commits = self._commits
            if self.state.status == "offline":
                self._set(dataclasses.replace(self.state, unsent=self._unsent()))

    def _round(self) -> None:
        """Sends and takes until a reply says that the end of the history is reached and nothing is unsent."""
        if self._must_upgrade:
            self._node.upgrade()
            self._must_upgrade = False
        before: tuple[int, ...] = ()
        count = idle = 0
        is_done = False
        while not is_done and not self._stopped:
            message = self._node.next()
            now = self._node.progress()
            idle, before = (idle + 1 if now == before else 0), now
            if count == self._options.most_messages or idle == _MOST_IDLE:
                raise Endless(f"sync didn't reach the end of the history in {count} messages")
            unsent = self._node.unsent()
            if unsent or self.state.status != "up to date":
                self._set(SyncState("syncing", unsent=unsent))
            is_end = self._node.take(self._transport.exchange(message))
            is_done = is_end and not self._node.unsent()
            count += 1
