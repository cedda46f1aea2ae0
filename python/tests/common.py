"""Classes, transports and drawn edits for the tests."""

from __future__ import annotations

import random
import threading
import time
from collections.abc import Callable, Mapping
from datetime import datetime, timedelta, timezone
from typing import Annotated
from uuid import UUID, uuid4

from realm_sync import CallTransport, Counter, Database, Server, StorageFull, SyncOptions, Transaction, link, table
from realm_sync.storage import FileImage, Stroke

FAST = SyncOptions(poll=0.05, retry_from=0.01, retry_most=0.05)


@table("lists")
class List:
    id: UUID
    name: str


@table("items")
class Item:
    id: UUID
    title: str
    done: bool
    quantity: Counter
    price: int | None
    blob: bytes
    when: datetime
    tags: frozenset[str]
    steps: tuple[str, ...]
    prices: Mapping[str, int]
    shelf: Annotated[UUID | None, link("lists")]
    friends: tuple[Annotated[UUID, link("lists")], ...]
    seen: frozenset[datetime]


@table("days")
class Day:
    day: int
    note: str


TYPES = [List, Item, Day]


class Net:
    """A server in this process, and transports to it that can be cut, lose replies, or be answered by the test."""

    def __init__(self) -> None:
        self.server, self.sent = Server(), bytearray()
        self.is_down, self.lose_each, self.count = False, 0, 0
        self.answer: Callable[[bytes], bytes | None] = lambda message: None
        self._lock = threading.Lock()

    def exchange(self, message: bytes) -> bytes:
        if self.is_down:
            raise OSError("down")
        with self._lock:
            self.sent.append(message[0])
            reply = self.answer(message) or self.server.take(message)
            self.count += 1
            if self.lose_each and self.count % self.lose_each == 0:
                raise OSError("lost")
            return reply

    def transport(self) -> CallTransport:
        return CallTransport(self.exchange)

    def database(self, path: str | None = None, types: list[type] | None = None, **more: object) -> Database:
        return Database(path, types or TYPES, self.transport(), options=FAST, **more)  # type: ignore[arg-type]


class FailingImage(FileImage):
    """A file in memory of which one stroke fails: the one of that number from now."""

    fail_at = 0

    def apply(self, strokes: list[Stroke]) -> None:  # type: ignore[override]
        for it in strokes:
            self.fail_at -= 1
            if self.fail_at == 0:
                raise StorageFull("the test fails this stroke")
            super().apply([it])


def until(test: Callable[[], bool], seconds: float = 30) -> None:
    end = time.monotonic() + seconds
    while not test():
        if time.monotonic() > end:
            raise AssertionError("it never came true")
        time.sleep(0.005)


def keys(draw: random.Random, count: int) -> list[UUID]:
    return [UUID(int=draw.getrandbits(128), version=4) for _ in range(count)]


def edit(tx: Transaction, draw: random.Random, some: list[UUID]) -> None:
    """A random edit that acts, on a column of any kind."""
    key = draw.choice(some)
    if tx.get(Item, key) is None:
        tx.create(Item, id=key, title="new")
    elif draw.randrange(2):
        _edit_value(tx, draw, key, some)
    else:
        _edit_many(tx, draw, key, some)


def _spelled(draw: random.Random, some: list[UUID]) -> UUID | str:
    """A key, which may be spelled otherwise than it is read."""
    key = draw.choice(some)
    return key if draw.randrange(2) else str(key).upper()


def _moment(draw: random.Random) -> datetime:
    return datetime.fromtimestamp(draw.randrange(-(10**9), 10**9) + draw.randrange(10**6) / 10**6, timezone(timedelta(hours=draw.randrange(-3, 4))))


def _edit_value(tx: Transaction, draw: random.Random, key: UUID, some: list[UUID]) -> None:
    match draw.randrange(7):
        case 0:
            tx.update(Item, key, title=f"w{draw.randrange(6)}", done=draw.choice([True, False]), price=draw.choice([None, 5]))
        case 1:
            tx.update(Item, key, blob=draw.randbytes(3), when=_moment(draw))
        case 2:
            tx.update(Item, key, shelf=draw.choice([None, _spelled(draw, some)]))
        case 3:
            tx.add(Item, key, "quantity", draw.choice([3, -4, 2**62]))
        case 4:
            tx.add(Item, key, "price", draw.randrange(-4, 5))
        case 5 if draw.randrange(3) == 0:
            tx.erase(Item, key)
        case _:
            tx.update(Item, key, quantity=draw.randrange(9))


def _edit_many(tx: Transaction, draw: random.Random, key: UUID, some: list[UUID]) -> None:
    word = f"w{draw.randrange(6)}"
    steps, tags, prices, friends, seen = (tx.at(Item, key, it) for it in ("steps", "tags", "prices", "friends", "seen"))
    match draw.randrange(12):
        case 0:
            tags.add(word)
        case 1:
            tags.discard(word)
        case 2:
            steps.insert(draw.randrange(len(steps) + 1), word)
        case 3:
            steps.append(word)
        case 4 if len(steps):
            del steps[draw.randrange(len(steps))]
        case 5 if len(steps):
            steps[draw.randrange(len(steps))] = word
        case 6:
            prices[word] = draw.randrange(50)
        case 7 if len(steps):
            steps.move(draw.randrange(len(steps)), draw.randrange(len(steps)))
        case 8 if draw.randrange(4) == 0:
            draw.choice([steps, tags, prices, friends, seen]).clear()
        case 9:
            friends.append(_spelled(draw, some))
        case 10:
            seen.add(_moment(draw))
        case _:
            del prices[word]


__all__ = ["FAST", "TYPES", "Day", "FailingImage", "Item", "List", "Net", "edit", "keys", "until", "uuid4"]
