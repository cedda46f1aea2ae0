"""Queries over the objects in memory, and live ones: what changed is put into the result at its place, and the rest stays as it is."""

from __future__ import annotations

import bisect
import threading
from collections.abc import Callable, Iterable, Iterator, Sequence
from typing import Any, Generic, NamedTuple, TypeVar

from .schema import Key, TableForm, plain_key, read_cell, read_key

T = TypeVar("T")
Stop = Callable[[], None]
Callback = Callable[[Sequence[Any]], None]
Row = Any


class RowChange(NamedTuple):
    """What changed of one object: None where it wasn't there, or isn't any more."""

    table: str
    key: Any
    before: Row | None
    after: Row | None


class _Back:
    """A value in the order from the greatest to the least."""

    __slots__ = ("value",)

    def __init__(self, value: Any) -> None:
        self.value = value

    def __lt__(self, other: _Back) -> bool:
        return bool(other.value < self.value)

    def __eq__(self, other: object) -> bool:
        return isinstance(other, _Back) and bool(self.value == other.value)


def _rank(value: Any) -> tuple[int, Any]:
    return (0, 0) if value is None else (1, value)


class Rows:
    """The objects of a table as this process has them, and who listens to their changes."""

    def __init__(self, form: TableForm) -> None:
        self.form = form
        self.by_key: dict[Any, Row] = {}
        self.lives: list[Live] = []

    def read(self, line: dict[str, Any]) -> Row:
        """The object of a line of the core."""
        cells = line["cells"]
        values = {it.name: read_cell(it, cells[it.name]) for it in self.form.columns.values() if it.name in cells}
        return self.form.type(**{self.form.key: read_key(line["key"])}, **values)


class Query(Generic[T]):
    """Objects of a table that pass tests, in an order: run anew where it is read, kept up to date where it is observed."""

    def __init__(
        self, rows: Rows, begin: Callable[[Query[Any], Callback], Live], tests: tuple[Callable[[T], bool], ...] = (), orders: tuple[str, ...] = (),
        most: int | None = None,
    ) -> None:  # fmt: skip
        self.rows, self._begin, self._tests, self._orders, self.most = rows, begin, tests, orders, most

    def where(self, *tests: Callable[[T], bool], **equal: Any) -> Query[T]:
        """By tests, and by values that columns have."""
        form = self.rows.form
        self._check(equal)
        if form.key in equal:
            equal[form.key] = plain_key(form, equal[form.key])

        def equals(row: T) -> bool:
            return all(getattr(row, name) == value for name, value in equal.items())

        return Query(self.rows, self._begin, self._tests + tests + ((equals,) if equal else ()), self._orders, self.most)

    def sort(self, *columns: str) -> Query[T]:
        """By columns; `-name` the other way round. Objects that are equal in them stand by their keys."""
        self._check(it.removeprefix("-") for it in columns)
        return Query(self.rows, self._begin, self._tests, self._orders + columns, self.most)

    def _check(self, names: Iterable[str]) -> None:
        unknown = set(names) - {self.rows.form.key, *self.rows.form.columns}
        if unknown:
            raise TypeError(f"{self.rows.form.name} has no column {', '.join(sorted(unknown))}")

    def limit(self, most: int) -> Query[T]:
        """The first so many, in the order of `sort`."""
        if most < 0:
            raise ValueError(f"a limit is 0 or more, and {most} isn't")
        return Query(self.rows, self._begin, self._tests, self._orders, most)

    def matches(self, row: T | None) -> bool:
        return row is not None and all(test(row) for test in self._tests)

    def order(self, row: T) -> tuple[Any, ...]:
        """What objects are sorted by."""
        parts: list[Any] = []
        for column in self._orders:
            value = _rank(getattr(row, column.removeprefix("-")))
            parts.append(_Back(value) if column.startswith("-") else value)
        return (*parts, _rank(getattr(row, self.rows.form.key)))

    def all(self) -> list[T]:
        """The objects as they are now."""
        return sorted(filter(self.matches, list(self.rows.by_key.values())), key=self.order)[: self.most]

    def __iter__(self) -> Iterator[T]:
        return iter(self.all())

    def first(self) -> T | None:
        return next(iter(self.limit(1).all()), None)

    def count(self) -> int:
        return len(self.all())

    def observe(self, callback: Callable[[Sequence[T]], None]) -> Stop:
        """Calls back now, and after each change of the result: in the thread that wrote, or that of sync, one change after the other."""
        live = self._begin(self, callback)
        try:
            live.tell_first()
        except BaseException:
            live.stop()
            raise
        return live.stop


class Live:
    """The result of a query that is kept up to date. `since` is the number of the last change that it has from the beginning."""

    def __init__(self, query: Query[Any], callback: Callback, since: int) -> None:
        self._query, self._callback, self._since = query, callback, since
        self._is_told = threading.Event()
        self._find()
        query.rows.lives.append(self)

    def _find(self) -> None:
        query = self._query
        self._all = sorted(filter(query.matches, list(query.rows.by_key.values())), key=query.order)
        self._orders = [query.order(it) for it in self._all]
        # By which order each object of the result stands in it: a test that asks the clock may say otherwise of it by now.
        self._placed = {order[-1]: order for order in self._orders}
        self._is_stale = False  # whether a test raised, so that all is found anew

    def stop(self) -> None:
        if self in self._query.rows.lives:
            self._query.rows.lives.remove(self)

    def tell_first(self) -> None:
        """Tells the result as it was at the beginning. Later ones wait for it."""
        try:
            self._callback(self._all[: self._query.most])
        finally:
            self._is_told.set()

    def tell(self, number: int, changes: list[RowChange]) -> None:
        """Takes changes of objects into account, and tells the result where it changed."""
        if number > self._since:
            self._is_told.wait()
            if self._take(changes) and self in self._query.rows.lives:
                self._callback(self._all[: self._query.most])

    def _take(self, changes: list[RowChange]) -> bool:
        if self._is_stale:
            self._find()
            return True
        self._is_stale = True
        before = [order for it in changes if (order := self._placed.pop(_rank(it.key), None))]
        after = [(self._query.order(it.after), it.after) for it in changes if self._query.matches(it.after)]
        for order in before:
            place = bisect.bisect_left(self._orders, order)
            del self._all[place], self._orders[place]
        for order, row in after:
            place = bisect.bisect_left(self._orders, order)
            self._all.insert(place, row)
            self._orders.insert(place, order)
            self._placed[order[-1]] = order
        self._is_stale = False
        return bool(before or after)


class Table(Query[T]):
    """A table's objects by key, and queries over them."""

    def get(self, key: Key) -> T | None:
        """The object of that key; of a table of UUIDs a text of one will do."""
        found: T | None = self.rows.by_key.get(plain_key(self.rows.form, key))
        return found

    def __contains__(self, key: Key) -> bool:
        return self.get(key) is not None

    def __len__(self) -> int:
        return len(self.rows.by_key)
