"""One transaction: typed verbs that become edits, and its own reads."""

from __future__ import annotations

import dataclasses
import types
import uuid
from collections.abc import Callable, Iterable, Iterator, Mapping
from typing import Any, TypeVar

from .errors import Closed, ColumnName, InvalidValue
from .schema import EPOCH, Column, Key, TableForm, form_of, key_json, plain_key, read_element, value_json, whole_text

T = TypeVar("T")
_ZERO: dict[str, Any] = {"Int": 0, "Bool": False, "Text": "", "Bytes": b"", "Time": EPOCH, "Uuid": uuid.UUID(int=0)}


class Transaction:
    """What `Database.write` gives. Nothing is done until its `with` ends; an exception there leaves everything as it was."""

    def __init__(self, rows: Callable[[str], Mapping[Any, Any]], key_kinds: Mapping[str, str]) -> None:
        self.edits: list[dict[str, Any]] = []
        self._rows, self._key_kinds = rows, key_kinds
        self._changed: dict[str, dict[Any, Any]] = {}
        self._is_open = True

    def get(self, type_: type[T], key: Key) -> T | None:
        """The object as it is by now, with this transaction's own edits."""
        form = form_of(type_)
        key, changed = plain_key(form, key), self._changed.get(form.name, {})
        found: T | None = changed[key] if key in changed else self._rows(form.name).get(key)
        return found

    def all(self, type_: type[T]) -> Iterator[T]:
        form = form_of(type_)
        changed = self._changed.get(form.name, {})
        yield from (row for key, row in self._rows(form.name).items() if key not in changed)
        yield from (row for row in changed.values() if row is not None)

    def create(self, type_: type[T], **values: Any) -> Any:
        """Makes an object, and answers its key: a UUID is drawn where none is given. Where it is there already, the given columns are set."""
        form = form_of(type_)
        key = values.pop(form.key, None)
        if key is None and form.key_kind == "Uuid":
            key = uuid.uuid4()
        if key is None:
            raise InvalidValue(f"{form.name}: create needs {form.key}", form.key_name)
        self._edit("CreateObject", form, key)
        key = plain_key(form, key)
        if self.get(type_, key) is None:
            self._put(form, key, form.type(**{form.key: key}, **{it.name: _default(it) for it in form.columns.values()}))
        for name, value in values.items():
            self._fill(form, key, self._column(form, name), value)
        return key

    def _fill(self, form: TableForm, key: Key, column: Column, value: Any) -> None:
        at = Collection(self, form, key, column)
        # A text is one value, and not its characters.
        if column.shape != "One" and (isinstance(value, (str, bytes)) or not isinstance(value, Mapping if column.shape == "Dict" else Iterable)):
            raise InvalidValue(f"{column.where}: {value!r:.80} is no {column.shape.lower()} of values", column.where)
        match column.shape:
            case "One":
                self._assign(form, key, column, value)
            case "List":
                at.extend(value)
            case "Set":
                for it in value:
                    at.add(it)
            case _:
                for name, it in value.items():
                    at[name] = it

    def update(self, type_: type[T], key: Key, **values: Any) -> None:
        """Sets columns of one value."""
        form = form_of(type_)
        for name, value in values.items():
            column = self._column(form, name)
            if column.shape != "One":
                raise InvalidValue(f"{column.where} is a {column.shape.lower()}: change it by at()", column.where)
            self._assign(form, key, column, value)

    def add(self, type_: type[T], key: Key, column: str, amount: int) -> None:
        """Adds to a number: additions of devices that were apart all count."""
        form = form_of(type_)
        it = self._column(form, column)
        self._edit("AddInteger", form, key, column=column, amount=value_json(dataclasses.replace(it, nullable=False), self._key_kinds, amount))
        row = self.get(type_, key)
        before = getattr(row, column) if row is not None else None
        if before is not None:
            total = (before + amount + 2**63) % 2**64 - 2**63
            self._put(form, key, dataclasses.replace(row, **{column: total}))

    def erase(self, type_: type[T], key: Key) -> None:
        form = form_of(type_)
        self._edit("EraseObject", form, key)
        self._put(form, key, None)

    def at(self, type_: type[T], key: Key, column: str) -> Collection:
        """A list, a set or a dictionary of an object."""
        form = form_of(type_)
        return Collection(self, form, key, self._column(form, column))

    def _column(self, form: TableForm, name: str) -> Column:
        if name not in form.columns:
            raise InvalidValue(f"{form.name} has no column {name}", ColumnName(form.name, name))
        return form.columns[name]

    def end(self) -> None:
        """From now on its verbs raise."""
        self._is_open = False

    def _edit(self, op: str, form: TableForm, key: Key, **more: Any) -> None:
        if not self._is_open:
            raise Closed("the transaction has ended: its verbs are called inside its `with`")
        self.edits.append({"op": op, "table": form.name, "key": key_json(form.key_name, form.key_kind, key), **more})

    def _put(self, form: TableForm, key: Key, row: Any) -> None:
        self._changed.setdefault(form.name, {})[plain_key(form, key)] = row

    def _assign(self, form: TableForm, key: Key, column: Column, value: Any) -> None:
        written = value_json(column, self._key_kinds, value)
        self._edit("Update", form, key, column=column.name, value=written)
        row = self.get(form.type, key)
        if row is not None:
            self._put(form, key, dataclasses.replace(row, **{column.name: read_element(column, written)}))


def _default(column: Column) -> Any:
    match column.shape:
        case "List":
            return ()
        case "Set":
            return frozenset()
        case "Dict":
            return types.MappingProxyType({})
        case _:
            return None if column.nullable else _ZERO[column.kind]


def _dict_key(column: Column, at: Any) -> str:
    if not isinstance(at, str) or len(whole_text(column.where, at).encode()) > 255:
        raise InvalidValue(f"{column.where}: a key of a dictionary is a text of at most 255 bytes", column.where)
    return at


class Collection:
    """The verbs on a list, a set or a dictionary."""

    def __init__(self, transaction: Transaction, form: TableForm, key: Key, column: Column) -> None:
        self._transaction, self._form, self._key, self._column = transaction, form, key, column

    def _now(self) -> Any:
        row = self._transaction.get(self._form.type, self._key)
        return getattr(row, self._column.name) if row is not None else _default(self._column)

    def _to(self, now: Any) -> None:
        row = self._transaction.get(self._form.type, self._key)
        if row is not None:
            self._transaction._put(self._form, self._key, dataclasses.replace(row, **{self._column.name: now}))

    def _edit(self, op: str, **more: Any) -> None:
        self._transaction._edit(op, self._form, self._key, column=self._column.name, **more)

    def _written(self, value: Any) -> tuple[Any, Any]:
        """An element as the edit has it, and as it is read back."""
        written = value_json(self._column, self._transaction._key_kinds, value)
        return written, read_element(self._column, written)

    def __len__(self) -> int:
        return len(self._now())

    def insert(self, place: int, value: Any) -> None:
        """Into a list, before the element at that place."""
        now = self._now()
        place = max(0, place + len(now)) if place < 0 else place
        written, element = self._written(value)
        self._edit("ListInsert", place=place, prior=len(now), value=written)
        self._to((*now[:place], element, *now[place:]))

    def append(self, value: Any) -> None:
        self.insert(len(self._now()), value)

    def extend(self, values: Iterable[Any]) -> None:
        for it in values:
            self.append(it)

    def move(self, place: int, to: int) -> None:
        """An erasure and an insertion: the merge core has no move, so two devices that move one element leave it twice."""
        now = self._now()
        place, to = range(len(now))[place], range(len(now))[to]
        del self[place]
        self.insert(to, now[place])

    def __setitem__(self, at: Any, value: Any) -> None:
        now = self._now()
        written, element = self._written(value)
        if self._column.shape == "Dict":
            self._edit("DictUpdate", at=_dict_key(self._column, at), value=written)
            return self._to(types.MappingProxyType({**now, at: element}))
        at = range(len(now))[at]
        self._edit("ListUpdate", place=at, prior=len(now), value=written)
        self._to((*now[:at], element, *now[at + 1 :]))

    def __delitem__(self, at: Any) -> None:
        now = self._now()
        if self._column.shape == "Dict":
            self._edit("DictErase", at=_dict_key(self._column, at))
            return self._to(types.MappingProxyType({it: value for it, value in now.items() if it != at}))
        at = range(len(now))[at]
        self._edit("ListErase", place=at, prior=len(now))
        self._to((*now[:at], *now[at + 1 :]))

    def add(self, value: Any) -> None:
        """Into a set."""
        written, element = self._written(value)
        self._edit("SetInsert", value=written)
        self._to(self._now() | {element})

    def discard(self, value: Any) -> None:
        """From a set."""
        written, element = self._written(value)
        self._edit("SetErase", value=written)
        self._to(self._now() - {element})

    def clear(self) -> None:
        self._edit("Clear")
        self._to(_default(self._column))
