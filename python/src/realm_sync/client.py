"""A database's client: its engine over the database's files, opened again after a failure, and replaced by a new one in a recovery."""

from __future__ import annotations

import dataclasses
import json
from collections.abc import Callable, Iterator
from typing import Any

from .door import Standing, to_json
from .engine import Engine
from .errors import BadRequest, NotShrunk, OtherProcess, Refused, StorageFailed
from .lost import LostEdits, LostForm
from .problems import Problem
from .recovery import Recovery, Takeover, born
from .storage import Files, Write
from .talk import Talk

CLIENT, HEIR, REASON, GENERATION = "client", "heir", "reason", "generation"


@dataclasses.dataclass(frozen=True)
class Taken:
    """What a message came to: what may have changed, what of this device's edits isn't seen any more, the client's refusal, and whether nothing is
    behind the cursor."""

    places: list[dict[str, Any]]
    lost: list[LostForm]
    refused: Refused | None
    is_end: bool


class DatabaseClient:
    """One call at a time: the database's lock is held."""

    def __init__(self, files: Files) -> None:
        self._files = files
        if files.has(HEIR) and not files.has(CLIENT):
            files.replace(CLIENT, HEIR)  # it was cut off between the two names
        self._opened: Engine | None = Engine(files.open(CLIENT))
        self._talk = Talk(self._opened)
        try:
            born(self._opened)
        except BaseException:
            self._opened.close()
            raise

    @property
    def _engine(self) -> Engine:
        if self._opened is None:
            raise StorageFailed("the storage failed, and the file can't be opened again")
        return self._opened

    @property
    def is_open(self) -> bool:
        return self._opened is not None

    def mended(self) -> bool:
        """Opens the file where that failed after a failure of the disk: whether all is to be read anew."""
        if self.is_open:
            return False
        self._open_again()
        return True

    def dump(self) -> str:
        return self._engine.dump()

    def object(self, table: str, key: str) -> str | None:
        return self._engine.object(table, key)

    def standing(self) -> Standing:
        return self._engine.standing()

    def next(self) -> bytes:
        return self._talk.next()

    def progress(self) -> tuple[int, ...]:
        return self._talk.progress()

    def upgrade(self) -> None:
        self._engine.line('{"upgrade":2}')

    def _places(self) -> list[dict[str, Any]]:
        return [json.loads(line) for line in self._engine.ask(b"C").decode().split("\n")[:-1]]

    def commit(self, edits: list[dict[str, Any]], ms: int) -> list[dict[str, Any]] | None:
        """Commits a transaction, and answers what may have changed: None where that is all, since the file had to be opened again."""
        last = self._engine.standing().last
        try:
            self._engine.line(to_json({"ms": ms, "edits": edits}))
            return self._places()
        except (Refused, BadRequest, OtherProcess):
            raise
        except Exception as why:
            self._open_again()
            if self._engine.standing().last > last:
                return None  # it had reached the disk all the same
            raise why if isinstance(why, StorageFailed) else StorageFailed(f"{why}; the file was opened again") from why

    def take(self, message: bytes) -> Taken:
        """Takes a message of the server."""
        try:
            watched = LostEdits(self._engine, message)
            refused, _, is_end = self._talk.take(message)
            # A Download that is refused at an entry has been taken up to it.
            places, lost = self._places(), watched.found()
            self._engine.settle()
            return Taken(places, lost, refused, is_end)
        except (BadRequest, OtherProcess):
            raise
        except Exception as why:
            self._open_again()
            raise why if isinstance(why, StorageFailed) else StorageFailed(f"{why}; the file was opened again") from why

    def shrink(self) -> None:
        """Goes on over a file without what the client needs no more."""
        if self._files.has(HEIR):
            raise NotShrunk("a new client takes over: its file is a short one")
        try:
            self._engine.shrink()
        except (NotShrunk, OtherProcess):
            raise
        except Exception as why:
            self._open_again()
            raise why if isinstance(why, StorageFailed) else StorageFailed(f"{why}; the file was opened again") from why
        self._talk = Talk(self._engine)

    def _open_again(self) -> None:
        """After a failure: what was answered is in the file. Where that can't be opened now, it is tried again at the next call."""
        engine, self._opened = self._opened, None
        if engine:
            engine.close()
        try:
            self._opened = Engine(self._files.open(CLIENT))
        except OSError as why:
            raise StorageFailed(f"the storage failed, and the file can't be opened again: {why.strerror}") from why
        self._talk = Talk(self._opened)

    # ---- recovery

    def pending_reason(self) -> Problem | None:
        """Why a new client had begun to take over, where it was cut off."""
        if not self._files.has(HEIR):
            return None
        return Problem(**self._note(REASON))

    def _keep(self, name: str, note: Any) -> None:
        """Keeps something small beside the client's file: all of it, or what was there before."""
        new = f"{name}.new"
        self._files.remove(new)  # that of a try that was cut off
        storage = self._files.open(new)
        try:
            storage.apply([Write(0, to_json(note).encode()), None])
        finally:
            storage.close()
        self._files.replace(name, new)

    def _note(self, name: str) -> Any:
        storage = self._files.open(name)
        try:
            return json.loads(storage.read())
        finally:
            storage.close()

    @property
    def generation(self) -> int:
        """In which generation of the server's history this client's file began."""
        return int(self._note(GENERATION)) if self._files.has(GENERATION) else 1

    def agree_on(self, generation: int) -> None:
        self._keep(GENERATION, generation)

    def takeover(self, exchange: Callable[[bytes], bytes], problem: Problem) -> Replacement:
        """A new client that takes this one's place."""
        pending = self.pending_reason()
        if pending and "other server" in (pending.cause, problem.cause):
            self.discard_heir()  # one of another server is never gone on with
        # Written down before the new client has a file: where it is cut off, it goes on for the same reason.
        if not self._files.has(HEIR):
            reason = {"cause": problem.cause, "text": problem.text, "is_recoverable": True, "generation": problem.generation}
            self._keep(REASON, reason)
        return Replacement(self, Engine(self._files.open(HEIR)), exchange, problem)

    def discard_heir(self) -> None:
        """What a new client saved before it took the place is in no history: it may be begun anew."""
        self._files.remove(HEIR)
        self._files.remove(REASON)

    def _kept_name(self) -> str:
        return next(name for name in _kept_names() if not self._files.has(name))

    def replaced(self, heir: Engine, problem: Problem) -> None:
        """The new client is the database's from now on. Where the old one may have what no history has, its file is kept beside."""
        if problem.generation:
            self.agree_on(problem.generation)
        if problem.cause in ("other server", "damaged"):
            self._files.replace(self._kept_name(), CLIENT)
        self._files.replace(CLIENT, HEIR)
        self._files.remove(REASON)
        self._engine.close()
        self._opened, self._talk = heir, Talk(heir)

    @property
    def engine(self) -> Engine:
        return self._engine

    def close(self) -> None:
        if self._opened:
            self._opened.close()


def _kept_names() -> Iterator[str]:
    number = 1
    while True:
        yield f"kept-{number}"
        number += 1


class Replacement:
    """A takeover under way: `join` asks the server, and needs no lock; `replace` needs it."""

    def __init__(self, client: DatabaseClient, heir: Engine, exchange: Callable[[bytes], bytes], problem: Problem) -> None:
        self._client, self._heir, self._problem, self._is_done = client, heir, problem, False
        self._takeover = Takeover(heir, exchange, problem)

    def join(self) -> bool:
        """False where the new client has to be begun anew."""
        return self._takeover.join(self._client.standing())

    def replace(self) -> Recovery:
        recovery = self._takeover.inherit(self._client.engine)
        self._client.replaced(self._heir, self._problem)
        self._is_done = True
        return recovery

    def close(self) -> None:
        if not self._is_done:
            self._heir.close()
