"""Nodes by themselves: a client and a server of the merge core, with edits and objects as JSON (docs/FORMATS.md). `Database` is over them; they
are for servers, tests, and programs that want no schema in code.

    with Client() as phone, Server() as server:
        phone.born(uuid.uuid4())
        with phone.transaction() as edits:
            edits.add_table("notes", "Int")
            edits.add_column("notes", "text", "Text")
            edits.create("notes", 1)
            edits.update("notes", 1, "text", "buy milk")
        phone.sync(server.take)
        for note in phone.objects("notes"):
            print(note["key"], note["cells"]["text"])

Over a file a node keeps what it answered; without one it lives in memory. A node has a lock, so any thread may call it, and a call waits for the
one before it. After a StorageFailed it is closed, and its file opened again.
"""

from __future__ import annotations

import json
import os
import threading
import time
import uuid as uuids
from collections.abc import Callable, Iterable, Iterator
from types import TracebackType
from typing import Any, TypeVar

from .checks import as_written, checked, is_key, is_name
from .door import Standing, number_of, to_json
from .engine import CLIENT, SERVER, Engine
from .errors import BadRequest, BrokenEdit, Closed, Endless, Reason, Refused
from .storage import FileImage, FileStorage
from .talk import Talk

Json = Any
Line = dict[str, Any]
N = TypeVar("N", bound="_Node")
_MOST_MESSAGES = 100_000


def _from_front(place: int, length: int) -> int:
    return place + length if isinstance(place, int) and place < 0 else place


class Edits:
    """The edits of one transaction, one call each: docs/FORMATS.md, "Edits". A list's place may count from its end, as in Python, and its length is
    filled in. Made by `Client.transaction`, or by itself for edits that are committed later. What is no edit is told at once (`BadEdit`).
    Committed, it has its number, and `places`, what it may have changed, as `Client.changed` tells it."""

    def __init__(self, client: Client | None = None, ms: int | None = None) -> None:
        self.edits: list[Line] = []
        self.places: list[Line] = []
        self.ms, self.number = ms, 0
        self._client = client
        self._lengths: dict[tuple[str, str, str], int] = {}
        self._erased: set[tuple[str, str]] = set()

    def add_table(self, table: str, key: str) -> None:
        self._edit("AddTable", table=table, key=key)

    def add_column(self, table: str, column: str, kind: str, shape: str = "One", nullable: bool = False, **target: str) -> None:
        """`target="TABLE"` of a column of links."""
        self._edit("AddColumn", table=table, column=column, kind=kind, nullable=nullable, shape=shape, **target)

    def create(self, table: str, key: Json) -> None:
        self._edit("CreateObject", table=table, key=key)

    def erase(self, table: str, key: Json) -> None:
        self._edit("EraseObject", table=table, key=key)
        self._erased.add((table, to_json(key)))
        self._lengths = {cell: length for cell, length in self._lengths.items() if cell[:2] not in self._erased}

    def update(self, table: str, key: Json, column: str, value: Json) -> None:
        self._edit("Update", table=table, key=key, column=column, value=value)

    def add(self, table: str, key: Json, column: str, amount: int) -> None:
        self._edit("AddInteger", table=table, key=key, column=column, amount=amount)

    def insert(self, table: str, key: Json, column: str, place: int, value: Json) -> None:
        """Into a list, before the element at that place."""
        prior = self._length(table, key, column)
        self._edit("ListInsert", table=table, key=key, column=column, place=_from_front(place, prior), prior=prior, value=value)
        self._lengths[table, to_json(key), column] = prior + 1

    def append(self, table: str, key: Json, column: str, value: Json) -> None:
        """To a list, behind its last element."""
        prior = self._length(table, key, column)
        self._edit("ListInsert", table=table, key=key, column=column, place=prior, prior=prior, value=value)
        self._lengths[table, to_json(key), column] = prior + 1

    def replace(self, table: str, key: Json, column: str, place: int, value: Json) -> None:
        """The element of a list at that place."""
        prior = self._length(table, key, column)
        self._edit("ListUpdate", table=table, key=key, column=column, place=_from_front(place, prior), prior=prior, value=value)

    def remove(self, table: str, key: Json, column: str, place: int) -> None:
        """The element of a list at that place."""
        prior = self._length(table, key, column)
        self._edit("ListErase", table=table, key=key, column=column, place=_from_front(place, prior), prior=prior)
        self._lengths[table, to_json(key), column] = prior - 1

    def include(self, table: str, key: Json, column: str, value: Json) -> None:
        """Into a set."""
        self._edit("SetInsert", table=table, key=key, column=column, value=value)

    def exclude(self, table: str, key: Json, column: str, value: Json) -> None:
        """From a set."""
        self._edit("SetErase", table=table, key=key, column=column, value=value)

    def put(self, table: str, key: Json, column: str, at: str, value: Json) -> None:
        """Into a dictionary."""
        self._edit("DictUpdate", table=table, key=key, column=column, at=at, value=value)

    def drop(self, table: str, key: Json, column: str, at: str) -> None:
        """From a dictionary."""
        self._edit("DictErase", table=table, key=key, column=column, at=at)

    def clear(self, table: str, key: Json, column: str) -> None:
        """A list, a set or a dictionary."""
        self._edit("Clear", table=table, key=key, column=column)
        self._lengths[table, to_json(key), column] = 0

    def _edit(self, op: str, **fields: Json) -> None:
        if "value" in fields:
            fields["value"] = as_written(fields["value"])
        self.edits.append(checked({"op": op, **fields}, len(self.edits)))

    def _length(self, table: str, key: Json, column: str) -> int:
        """How long that list is by now."""
        if not (is_name(table) and is_key(key) and is_name(column)):
            return 0  # the edit is refused for it
        cell = (table, to_json(key), column)
        if cell not in self._lengths:
            found = self._client.object(table, key) if self._client and cell[:2] not in self._erased else None
            self._lengths[cell] = len(found["cells"].get(column) or ()) if found else 0
        return self._lengths[cell]

    def __enter__(self) -> Edits:
        return self

    def __exit__(self, kind: type[BaseException] | None, why: BaseException | None, trace: TracebackType | None) -> None:
        if kind is None and self._client:
            self.number, self.places = self._client.commit_changed(self.edits, self.ms)


def _storage_at(path: str | os.PathLike[str] | None) -> FileImage | FileStorage:
    if path is None:
        return FileImage()
    return FileStorage(os.fspath(path))


class _Node:
    """A node that is open until it is closed."""

    def __init__(self, path: str | os.PathLike[str] | None, kind: bytes) -> None:
        self._lock = threading.RLock()
        self._open: Engine | None = Engine(_storage_at(path), kind)

    @property
    def _engine(self) -> Engine:
        if self._open is None:
            raise Closed("the node is closed")
        return self._open

    def __enter__(self: N) -> N:
        return self

    def __exit__(self, kind: type[BaseException] | None, why: BaseException | None, trace: TracebackType | None) -> None:
        self.close()

    def close(self) -> None:
        """Lets the node go. What it answered is on the disk."""
        with self._lock:
            engine, self._open = self._open, None
            if engine:
                engine.close()

    def shrink(self) -> None:
        """Puts a file without what the node needs no more in the place of its own, and goes on over it: of a server one without the history that no
        client needs, of a client one with its unsent transactions and its objects. A stop leaves the one or the other, whole, and nothing that
        was answered is lost. `NotShrunk` where no such file could be put there: all is as before."""
        with self._lock:
            self._engine.shrink()

    def page(self, table: str, behind: Json = None, count: int = 1000) -> list[Line]:
        """So many objects of a table, in the order of their keys, from the first behind a key on; without one, from the first of all."""
        return self._page(b"J", table, behind, count)

    def page_of_keys(self, table: str, behind: Json = None, count: int = 1000) -> list[Json]:
        """The same of their keys alone."""
        return [line["key"] for line in self._page(b"Y", table, behind, count)]

    def _page(self, verb: bytes, table: str, behind: Json, count: int) -> list[Line]:
        name = {"table": table} if behind is None else {"table": table, "key": behind}
        with self._lock:
            text = self._engine.ask(verb, count.to_bytes(4, "little") + to_json(name).encode()).decode()
        return [json.loads(line) for line in text.split("\n")[:-1]]

    def lines(self) -> Iterator[Line]:
        """All tables, columns and objects as they are now, one after the other: docs/FORMATS.md, "Report and dump"."""
        with self._lock:
            text = self._engine.dump()
        return (json.loads(line) for line in text.split("\n")[:-1])

    def objects(self, table: str | None = None) -> Iterator[Line]:
        """The objects as they are now, each with its table, key and cells, in order."""
        return (line for line in self.lines() if "cells" in line and table in (None, line["table"]))

    def object(self, table: str, key: Json) -> Line | None:
        """The object of that key, with its table, key and cells, or None where there is none."""
        with self._lock:
            line = self._engine.object(to_json(table), to_json(key))
        found: Line | None = json.loads(line) if line is not None else None
        return found

    def standing(self) -> Standing:
        """Where the node stands."""
        with self._lock:
            return self._engine.standing()


class Client(_Node):
    """A client, over a file or in memory."""

    def __init__(self, path: str | os.PathLike[str] | None = None) -> None:
        super().__init__(path, CLIENT)
        self._talk = Talk(self._engine)

    def _line(self, line: Json) -> int:
        with self._lock:
            return self._engine.line(to_json(line))

    def born(self, uuid: uuids.UUID | str) -> None:
        """Gives a new client its uuid, once, and brings its file to form 2."""
        self._line({"uuid": str(uuids.UUID(str(uuid)))})
        self._line({"upgrade": 2})

    def subscribe(self, tables: Iterable[str]) -> None:
        """From now on the client is of these tables alone."""
        self._line({"tables": sorted(set(tables), key=str.encode)})

    def commit(self, edits: list[Line], ms: int | None = None) -> int:
        """Commits a transaction, a list of edits, and answers its number. `ms` is its time since the epoch, else the clock's."""
        return self.commit_changed([checked(edit, number) for number, edit in enumerate(edits)], ms)[0]

    def commit_changed(self, edits: list[Line], ms: int | None = None) -> tuple[int, list[Line]]:
        """The same of edits that were checked, and what they may have changed: at one go, so that no other thread's call comes between."""
        line: Line = {"ms": time.time_ns() // 1_000_000 if ms is None else ms, "edits": edits}
        with self._lock:
            number = self._handed(line)
            self._engine.settle()
            return number, self.changed()

    def commit_all(self, transactions: Iterable[list[Line]], ms: int | None = None) -> list[int]:
        """Commits transactions, one after the other, and brings them to the disk together, by two writes and two syncs, however many they are: a crash
        leaves all of them or none. Answers their numbers. Where one is refused, those before it are committed, and `standing` tells the
        number of the last; what is no edit is told before anything is done."""
        lists = [[checked(edit, number) for number, edit in enumerate(edits)] for edits in transactions]
        at = time.time_ns() // 1_000_000 if ms is None else ms
        with self._lock:
            try:
                return [self._handed({"ms": at, "edits": edits}) for edits in lists]
            finally:
                self._engine.settle()

    def _handed(self, line: Line) -> int:
        """Does what a node line says, without its strokes, and answers its number."""
        try:
            return number_of(self._engine.ask(b"L", to_json(line).encode()))
        except Refused as why:
            if why.reason != Reason.BREAK:
                raise
            place, code, _ = why.details
            raise BrokenEdit(place, code, to_json(line["edits"][place])) from None

    def changed(self) -> list[Line]:
        """What the last commit or take may have changed, for a screen to draw anew: a dict for each place, with its "table" and, as the place has
        them, its "key" and its "column"; of a list "front" and "back", how many first and last elements are as they were (docs/FORMATS.md,
        "Places", and `kept_ends`). Where several threads use the client, another's call may come between: `take_changed`, `sync` and a
        transaction's `places` tell those of their own."""
        with self._lock:
            text = self._engine.ask(b"C").decode()
        return [json.loads(line) for line in text.split("\n")[:-1]]

    def transaction(self, ms: int | None = None) -> Edits:
        """A transaction that is committed at the end of a `with`, unless an exception leaves it. It has its number afterwards."""
        return Edits(self, ms)

    def next_message(self) -> bytes:
        """The message to send next: Bind, then a question for the history until all of it was taken, then what the server may lack."""
        with self._lock:
            return self._talk.next()

    def take(self, message: bytes) -> int:
        """Takes a message, and answers the cursor."""
        return self._take(message)[0]

    def take_changed(self, message: bytes) -> tuple[int, list[Line]]:
        """Takes a message, and answers the cursor and what may have changed."""
        cursor, _, places = self._take(message)
        return cursor, places

    def _take(self, message: bytes) -> tuple[int, bool, list[Line]]:
        """The cursor, whether nothing is behind it, and what may have changed: at one go, so that no other thread's call comes between."""
        with self._lock:
            refused, cursor, is_end = self._talk.take(message)
            places = self.changed()
            self._engine.settle()
        if refused:
            raise refused
        return cursor, is_end, places

    def retire(self, ident: int) -> bytes:
        """The message that gives the client of that ident up."""
        with self._lock:
            return self._engine.ask(b"G", ident.to_bytes(4, "little"))

    def upload(self, after: int) -> bytes:
        """The message with the unsent changes above that number."""
        with self._lock:
            return self._engine.ask(b"U", after.to_bytes(4, "little"))

    def sync(self, send: Callable[[bytes], bytes]) -> list[Line]:
        """Sends what the server lacks and takes what the client lacks, up to the end of the history, and answers the places that may have changed.
        `send` hands a message over, and answers the reply. Where it fails, all of this may be done again."""
        places: list[Line] = []
        for _ in range(_MOST_MESSAGES):
            _, is_end, more = self._take(send(self.next_message()))
            places += more
            if is_end and not self.standing().unsent:
                return places
        raise Endless(f"sync didn't reach the end of the history in {_MOST_MESSAGES} messages")


def kept_ends(places: Iterable[Line], table: str, key: Json, column: str) -> tuple[int, int] | None:
    """How many elements at the beginning and at the end of that list are as they were, by places that `changed` or `sync` told; None where all of it
    is. A screen keeps those rows: `rows[front:len(rows) - back] = elements[front:len(elements) - back]`."""
    ends: tuple[int, int] | None = None
    for place in places:
        if place["table"] == table and place.get("key", key) == key and place.get("column", column) == column:
            front, back = place.get("front", 0), place.get("back", 0)
            ends = (front, back) if ends is None else (min(ends[0], front), min(ends[1], back))
    return ends


class Server(_Node):
    """A server, over a file or in memory. Who sends may send is its caller's part (docs/EMBEDDING.md, "Over a network")."""

    def __init__(self, path: str | os.PathLike[str] | None = None) -> None:
        super().__init__(path, SERVER)

    def take(self, message: bytes) -> bytes:
        """Takes a message, and answers its reply."""
        with self._lock:
            reply = self._engine.ask(b"T", message)
            self._engine.settle()
        return reply


__all__ = ["BadRequest", "Client", "Edits", "Server", "kept_ends", "number_of"]
