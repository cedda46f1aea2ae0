"""A database: objects to read at once, transactions, live queries and sync."""

from __future__ import annotations

import collections
import contextlib
import dataclasses
import datetime
import json
import logging
import os
import threading
import time
from collections.abc import Callable, Iterable, Iterator, Sequence
from types import TracebackType
from typing import Any, Literal, TypeVar

from .client import DatabaseClient
from .door import to_json
from .errors import BrokenEdit, Closed, Endless, Error, NeedsAttention, Outdated, Reason, Refused, SchemaConflict, StorageFailed, Unauthorized
from .lost import LostForm
from .problems import Problem
from .query import Callback, Live, Query, RowChange, Rows, Stop, Table
from .recovery import Recovery
from .schema import SchemaError, form_of, read_element, read_key
from .sealed import SealedFiles
from .storage import Files, MemoryFiles, PathFiles
from .sync import SyncLoop, SyncOptions, SyncState
from .transaction import Transaction
from .transports import TokenSource, Transport, transport_of

T = TypeVar("T")
R = TypeVar("R")
_log = logging.getLogger("realm_sync")


@dataclasses.dataclass(frozen=True)
class LostEdit:
    """An edit of this device that isn't seen any more, since a change of another device that it hadn't seen came.

    It is told of edits that this device hadn't got back from the history: where its own change came into the history first, and the other
    one's then won, the device that lost isn't told. It may also be that somebody who had seen this edit wrote over it later, before this
    device knew that it was in the history.

    `column` is None where the whole object is gone; `mine` is what this device had written, a value or an element; `before` is the object as
    this device had it, `object` what is there now."""

    table: str
    key: Any
    column: str | None
    why: Literal["overwritten", "erased"]
    at: datetime.datetime
    mine: Any
    before: Any
    object: Any | None


class Database:
    """Objects of these classes, in a file; without a path in memory. Any thread may use it, but none across a fork.

    With a key of 32 bytes the file is encrypted (docs/STORAGE.md says what that protects). `sync` is the address of a history, or a transport."""

    def __init__(
        self, path: str | os.PathLike[str] | None, types: Sequence[type[Any]], sync: str | Transport | None = None, *, token: TokenSource = "",
        key: bytes | None = None, options: SyncOptions = SyncOptions(), on_problem: Literal["recover", "ask"] | None = None,
    ) -> None:  # fmt: skip
        forms = [form_of(it) for it in types]
        self._key_kinds = {it.name: it.key_kind for it in forms}
        _check_links(self._key_kinds, forms)
        self._rows = {it.name: Rows(it) for it in forms}
        self._lock = threading.RLock()
        self._events: collections.deque[Callable[[], None]] = collections.deque()
        self._telling = threading.Lock()
        self._is_closed = False
        self._conflict: SchemaConflict | None = None
        self._greatest = self._number = 0
        self._writer: int | None = None  # the thread that has a transaction open
        self._sync_listeners: list[Callable[[SyncState], None]] = []
        self._lost_listeners: list[Callable[[Sequence[LostEdit]], None]] = []
        self._recovery_listeners: list[Callable[[Recovery], None]] = []
        self._loop: SyncLoop | None = None
        self._transport: Transport | None = None
        self._on_problem, self._has_recovered = on_problem, False
        self._recovering, self._recoveries = threading.RLock(), 0
        self._client = DatabaseClient(_files_at(path, key))
        try:
            self._apply_schema()
        except BaseException:
            self._client.close()
            raise
        if sync is not None:
            self.start_sync(sync, token=token, options=options)

    # ---- objects

    def _apply_schema(self) -> None:
        """Reads all objects, and adds what the classes declare and the data lack: other devices that add the same agree with it."""
        self._refresh()
        if self._conflict:
            raise self._conflict

    def _refresh(self) -> None:
        lacking = self._load()
        if lacking and not self._conflict:
            self._client.commit(lacking, self._now())
            self._load()

    def _load(self) -> list[dict[str, Any]]:
        """Reads all objects anew, queues what changed, and answers the edits that bring what the classes declare and the data lack."""
        have: dict[str, set[str]] = {}
        objects: list[tuple[Rows, dict[str, Any]]] = []
        self._conflict = None
        for line in map(json.loads, self._client.dump().split("\n")[:-1]):
            rows = self._rows.get(line["table"])
            if rows and "cells" in line:
                objects.append((rows, line))
            elif rows:
                self._meet(rows, line, have)
        lacking = _lacking(self._rows, have)
        if self._conflict is None and not lacking:
            self._put_all(objects)
        return lacking

    def _put_all(self, lines: list[tuple[Rows, dict[str, Any]]]) -> None:
        found: dict[str, dict[Any, Any]] = {name: dict.fromkeys(it.by_key) for name, it in self._rows.items()}
        for rows, line in lines:
            found[rows.form.name][read_key(line["key"])] = rows.read(line)
        for name, objects in found.items():
            self._put(name, objects)

    def _meet(self, rows: Rows, line: dict[str, Any], have: dict[str, set[str]]) -> None:
        """A line of a table or a column beside what is declared."""
        name = line["table"]
        if "column" not in line:
            have[name] = set()
            if line["key"] != rows.form.key_kind:
                self._conflict = SchemaConflict(name, None, f"keys of {rows.form.key_kind}", f"keys of {line['key']}")
            return
        have[name].add(line["column"])
        column = rows.form.columns.get(line["column"])
        words = f"{line['kind']}{' nullable' if line['nullable'] else ''} {line['shape']}" + (f" of {line['target']}" if "target" in line else "")
        if column and column.words() != words:
            self._conflict = SchemaConflict(name, column.name, column.words(), words)

    def __getitem__(self, type_: type[T]) -> Table[T]:
        name = form_of(type_).name
        if name not in self._rows:
            raise SchemaError(f"{type_.__name__} is no class of this database")
        return Table(self._rows[name], self._begin)

    def _begin(self, query: Query[Any], callback: Callback) -> Live:
        """A live query, from the objects as they are now."""
        with self._lock:
            return Live(query, callback, self._number)

    def _put(self, table: str, objects: dict[Any, Any]) -> None:
        """Takes objects over as they are now, and queues what is to be told of them."""
        rows, changes = self._rows[table], []
        for key, after in objects.items():
            before = rows.by_key.get(key)
            if before == after:
                continue
            if after is None:
                del rows.by_key[key]
            else:
                rows.by_key[key] = after
            changes.append(RowChange(table, key, before, after))
        if changes:
            self._number += 1
            number = self._number
            self._events.append(lambda: _tell_lives(rows.lives, number, changes))

    def _changed(self, places: Iterable[dict[str, Any]]) -> None:
        """Reads what may have changed."""
        names: dict[tuple[str, str], Any] = {}
        for place in places:
            if "key" not in place:
                self._load()
                return
            if place["table"] in self._rows:
                names[place["table"], to_json(place["key"])] = place["key"]
        found: dict[str, dict[Any, Any]] = {}
        for (table, text), key in names.items():
            line = self._client.object(to_json(table), text)
            found.setdefault(table, {})[read_key(key)] = self._rows[table].read(json.loads(line)) if line is not None else None
        for table, objects in found.items():
            self._put(table, objects)

    def _tell(self) -> None:
        """Tells what is queued, one after the other. Where somebody is telling already, also further up in this thread, that one goes on with it."""
        while self._events and self._telling.acquire(blocking=False):
            try:
                while self._events:
                    _called(self._events.popleft())
            finally:
                self._telling.release()

    # ---- transactions

    def _now(self) -> int:
        """The clock in ms; one that is set back loses no own conflict."""
        self._greatest = max(self._greatest, time.time_ns() // 1_000_000)
        return self._greatest

    @contextlib.contextmanager
    def write(self) -> Iterator[Transaction]:
        """A transaction: all of its edits stand, on the disk, once the `with` ends, or none where it raises. Others wait meanwhile."""
        if self._writer == threading.get_ident():
            raise Error("this thread has a transaction already: its edits go there, or behind it")
        try:
            with self._lock:
                self._mend()
                if self._conflict:
                    raise self._conflict
                transaction = Transaction(lambda name: self._rows[name].by_key, self._key_kinds)
                self._writer = threading.get_ident()
                try:
                    yield transaction
                finally:
                    self._writer = None
                    transaction.end()
                if transaction.edits:
                    self._commit(transaction.edits)
        finally:
            self._tell()
        if self._loop and transaction.edits:
            self._loop.committed()

    def _mend(self) -> None:
        """Opens the file where the disk failed, also when it was to be opened again."""
        if self._is_closed:
            raise Closed("the database was closed")
        if self._client.mended():
            self._load()

    def run(self, work: Callable[[Transaction], R]) -> R:
        """The same as a function of a transaction: answers what that answers."""
        with self.write() as transaction:
            return work(transaction)

    def _commit(self, edits: list[dict[str, Any]]) -> None:
        try:
            places = self._client.commit(edits, self._now())
        except Refused as why:
            if why.reason != Reason.BREAK:
                raise
            place, code, _ = why.details
            raise BrokenEdit(place, code, to_json(edits[place])) from None
        except StorageFailed:
            if self._client.is_open:  # again
                self._load()
            raise
        if places is None:
            self._load()
        else:
            self._changed(places)

    def shrink(self) -> None:
        """Puts a file without what this device needs no more in the place of its own, and goes on over it: it is opened as quickly as its objects and
        unsent transactions are read. What the history has isn't in it: where the server is put back to before that, it is nowhere. A stop leaves the
        one or the other, whole. `NotShrunk` where none could be put there, as after a takeover until the database is opened again: all is as before
        then."""
        if self._writer == threading.get_ident():
            raise Error("the file is shrunk outside of a transaction: call shrink() behind it")
        with self._lock:
            self._mend()
            try:
                self._client.shrink()
            except StorageFailed:
                if self._client.is_open:  # again
                    self._load()
                raise
            finally:
                self._tell()

    # ---- sync

    def start_sync(self, sync: str | Transport, *, token: TokenSource = "", options: SyncOptions = SyncOptions()) -> None:
        """Syncs with this server from now on: the address of a history (`wss://host/v1/histories/NAME`, or `https:`), or a transport."""
        self.stop_sync()
        self._transport = transport_of(sync, token) if isinstance(sync, str) else sync
        with self._lock:
            self._transport.generation = self._client.generation
            reason = self._client.pending_reason()
        self._loop = SyncLoop(_Syncing(self), self._transport, options, self._tell_sync, self._recovered)
        self._loop.start()
        # A takeover that was cut off goes on, but at another server, which this one may not be any more.
        if reason and reason.cause != "other server":
            threading.Thread(target=self._go_on, args=(reason,), name="realm_sync recovery", daemon=True).start()

    def _go_on(self, reason: Problem) -> None:
        """A takeover that was cut off, unless sync came to it first: where it doesn't come to its end now, sync says why."""
        try:
            with self._recovering:
                with self._lock:
                    is_pending = self._client.pending_reason() is not None
                if is_pending:
                    self.recover(reason)
        except Exception:
            _log.info("a takeover that was cut off waits", exc_info=True)

    def stop_sync(self) -> None:
        loop, self._loop = self._loop, None
        if loop:
            loop.stop()
            self._tell_sync(SyncState("off"))

    def _tell_sync(self, state: SyncState) -> None:
        if state.status == "up to date":
            self._has_recovered = False
        self._events.append(lambda: _tell_each(self._sync_listeners, state))
        self._tell()

    @property
    def sync_state(self) -> SyncState:
        return self._loop.state if self._loop else SyncState("off")

    def observe_sync(self, callback: Callable[[SyncState], None]) -> Stop:
        """Calls back now and with each later state."""
        callback(self.sync_state)
        return _listen(self._sync_listeners, callback)

    def synced(self, timeout: float | None = None) -> bool:
        """Waits until all that was committed is in the history, and all that the history had is here; False after `timeout` seconds. Raises
        where sync needs attention (`NeedsAttention`, `SchemaConflict`). It is called outside of a transaction and of callbacks of sync."""
        loop = self._loop
        if not loop:
            raise Error("this database has no sync")
        if self._writer == threading.get_ident():
            raise Error("sync waits for this thread's transaction: call synced() behind it")
        return loop.synced(timeout)

    def renew_token(self, token: str) -> None:
        """A token in place of one that ends soon, or that the server refused."""
        if self._transport and self._loop:
            self._transport.renew(token)
            self._loop.resume()

    @property
    def unsent(self) -> int:
        """How many transactions the history doesn't have yet, as far as this device knows."""
        with self._lock:
            return self._client.standing().unsent

    def _take(self, message: bytes) -> bool:
        with self._lock:
            try:
                taken = self._client.take(message)
            except StorageFailed:
                if self._client.is_open:
                    self._load()
                raise
            self._changed(taken.places)
            lost = [it for form in taken.lost for it in self._lost(form)]
        if lost:
            self._events.append(lambda: _tell_each(self._lost_listeners, lost))
        self._tell()
        if taken.refused:
            raise taken.refused
        return taken.is_end

    def _lost(self, form: LostForm) -> list[LostEdit]:
        """None where the table or the column isn't one of the declared classes."""
        rows = self._rows.get(form.table)
        column = rows.form.columns.get(form.column) if rows and form.column is not None else None
        if rows is None or (column is None and form.column is not None):
            return []
        key = read_key(form.key)
        at = datetime.datetime.fromtimestamp(form.ms / 1000, datetime.timezone.utc)
        mine = read_element(column, form.mine) if column else None
        before = rows.read({"key": form.key, "cells": form.before})
        return [LostEdit(form.table, key, form.column, form.why, at, mine, before, rows.by_key.get(key))]

    def on_lost(self, callback: Callable[[Sequence[LostEdit]], None]) -> Stop:
        """Calls back with edits of this device that aren't seen any more after changes of other devices came."""
        return _listen(self._lost_listeners, callback)

    # ---- recovery

    def _recovered(self, problem: Problem) -> bool:
        """Whether a new client took over for this problem: by itself, with pauses where the network fails."""
        told = problem.generation
        if told and told != self._client.generation and self._transport and self._client.standing().ident == 0:
            self._client.agree_on(told)  # a new client begins in the generation that the history has
            self._transport.generation = told
            return True
        is_asked = problem.is_recoverable if self._on_problem == "recover" else problem.recovers_by_itself
        if not is_asked or self._on_problem == "ask" or self._has_recovered:
            return False
        pause, before = 0.5, self._recoveries
        while self._loop and not self._is_closed:
            try:
                with self._recovering:
                    if self._recoveries == before:
                        self.recover(problem)
                return True
            except (Refused, StorageFailed, NeedsAttention, Outdated, Unauthorized, Closed, Endless):
                return False
            except Exception:  # the network: tried again
                time.sleep(pause)
                pause = min(60, pause * 2)
        return False

    def recover(self, problem: Problem | None = None) -> Recovery:
        """Lets a new client take this one's place, with what is unsent: where sync needs attention, and the problem is recoverable; else it raises
        `NeedsAttention`. Until it has all, this one goes on; where it is cut off, it is begun again with the same new client."""
        if not self._transport or not self._loop:
            raise Error("this database has no sync")
        problem = problem or self.sync_state.problem or Problem("damaged", "asked for", True)
        if not problem.is_recoverable:
            raise NeedsAttention(problem)
        with self._lock:
            standing = self._client.standing()
        # The core hands over the unsent changes of a client with an ident alone: a new one would begin without them.
        if standing.ident == 0 and standing.unsent:
            raise NeedsAttention(Problem(problem.cause, f"{problem.text}; this client has no ident yet", False))
        with self._recovering:
            self._tell_sync(SyncState("recovering", problem.text, problem=problem))
            try:
                recovery = self._take_over(self._transport, problem)
            except BaseException:
                self._tell_sync(self.sync_state)
                raise
        self._events.append(lambda: _tell_each(self._recovery_listeners, recovery))
        self._tell()
        if self._loop:
            self._loop.resume()
        return recovery

    def _take_over(self, transport: Transport, problem: Problem) -> Recovery:
        with self._lock:
            takeover = self._client.takeover(transport.exchange, problem)
        try:
            transport.generation = problem.generation or transport.generation
            if takeover.join():
                with self._lock:
                    recovery = takeover.replace()
                    self._has_recovered = True
                    self._recoveries += 1
                    self._refresh()
                    return recovery
        except BaseException as why:
            takeover.close()
            with self._lock:
                if isinstance(why, Refused):
                    self._client.discard_heir()
                transport.generation = self._client.generation
            raise
        takeover.close()
        with self._lock:
            self._client.discard_heir()
        return self._take_over(transport, problem)

    def on_recovered(self, callback: Callable[[Recovery], None]) -> Stop:
        """Calls back with what a new client saved of what the old one had unsent, and what was lost."""
        return _listen(self._recovery_listeners, callback)

    # ---- the end

    def close(self) -> None:
        self.stop_sync()
        with self._lock:
            self._is_closed = True
            self._client.close()

    def __enter__(self) -> Database:
        return self

    def __exit__(self, kind: type[BaseException] | None, why: BaseException | None, trace: TracebackType | None) -> None:
        self.close()


def _files_at(path: str | os.PathLike[str] | None, key: bytes | None) -> Files:
    plain: Files = MemoryFiles()
    if path is not None:
        plain = PathFiles(path)
    return plain if key is None else SealedFiles(plain, key)


class _Syncing:
    """What the loop asks of a database."""

    def __init__(self, db: Database) -> None:
        self._db = db

    def next(self) -> bytes:
        with self._db._lock:
            self._db._mend()
            return self._db._client.next()

    def take(self, message: bytes) -> bool:
        return self._db._take(message)

    def upgrade(self) -> None:
        with self._db._lock:
            self._db._client.upgrade()

    def unsent(self) -> int:
        return self._db.unsent

    def progress(self) -> tuple[int, ...]:
        with self._db._lock:
            return self._db._client.progress()


def _tell_lives(lives: list[Live], number: int, changes: list[RowChange]) -> None:
    for live in list(lives):
        _called(live.tell, number, changes)


def _tell_each(listeners: list[Callable[[Any], None]], what: Any) -> None:
    for listener in list(listeners):
        _called(listener, what)


def _called(listener: Callable[..., None], *what: Any) -> None:
    """A callback of the application that raises stops neither the others nor sync: it is logged."""
    try:
        listener(*what)
    except Exception:
        _log.exception("a callback raised")


def _listen(listeners: list[Any], callback: Any) -> Stop:
    listeners.append(callback)
    return lambda: listeners.remove(callback) if callback in listeners else None


def _check_links(key_kinds: dict[str, str], forms: Iterable[Any]) -> None:
    for form in forms:
        for column in form.columns.values():
            if column.target is not None and column.target not in key_kinds:
                raise SchemaError(f"{form.name}.{column.name} links to {column.target}, which is no table here")


def _lacking(tables: dict[str, Rows], have: dict[str, set[str]]) -> list[dict[str, Any]]:
    """The edits that bring what is declared and isn't there: tables first, since a link's target has to be there."""
    new: list[dict[str, Any]] = [{"op": "AddTable", "table": name, "key": it.form.key_kind} for name, it in tables.items() if name not in have]
    for name, it in tables.items():
        for column in it.form.columns.values():
            if column.name not in have.get(name, ()):
                new.append({"op": "AddColumn", "table": name, "column": column.name, **column.definition()})
    return new


__all__ = ["Database", "LostEdit"]
