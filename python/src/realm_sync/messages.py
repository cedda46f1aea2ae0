"""What this package reads of what the core tells of messages, and of files and changesets: docs/FORMATS.md, "Messages for a host", "The journal" and
"Changesets". It reads no message by itself, and makes no message and no changeset."""

from __future__ import annotations

import struct
import uuid
from collections.abc import Iterator
from typing import Any, NamedTuple

BIND, IDENT, UPLOAD, ASK, DOWNLOAD, REFUSED, STORED, ASK2, RETIRE, RETIRED, ASK_TABLES = range(1, 12)
QUESTIONS = (ASK, ASK2, ASK_TABLES)

_KEYS = ("Int", "Text", "Uuid")
_KINDS = ("", "Int", "Bool", "Text", "Bytes", "Time", "Uuid", "Link")
_SHAPES = ("One", "List", "Set", "Dict")
_OPS = (
    "", "AddTable", "AddColumn", "CreateObject", "EraseObject", "Update", "AddInteger", "ListUpdate", "ListInsert", "ListErase", "SetInsert",
    "SetErase", "DictUpdate", "Clear",
)  # fmt: skip
Edit = dict[str, Any]


class Head(NamedTuple):
    """What a message is about: what it hasn't got is 0."""

    tag: int
    ident: int
    by: int
    length: int
    first: int
    second: int
    third: int


class Borne(NamedTuple):
    """A change that an Upload bears, of which `first` is the number and `second` the base, or an entry of a Download, of which they are the origin
    and the number."""

    first: int
    second: int
    ms: int
    body: bytes


def head_in(told: bytes) -> Head:
    """A head as the core tells it."""
    return Head(told[0], *struct.unpack_from("<6I", told, 17))


def borne_in(told: bytes) -> Iterator[Borne]:
    """What the core tells that a message bears."""
    at = 0
    while at < len(told):
        first, second, ms, length = struct.unpack_from("<IIQI", told, at)
        at += 20 + length
        yield Borne(first, second, ms, told[at - length : at])


class Change(NamedTuple):
    """An unsent change of a client, as it was made."""

    number: int
    ms: int
    body: bytes


class Entry(NamedTuple):
    """An entry of the history."""

    version: int
    origin: int
    number: int
    ms: int
    body: bytes


class _Bytes:
    """Reads fields one after the other."""

    def __init__(self, data: bytes) -> None:
        self.data, self.at = data, 0

    def byte(self) -> int:
        self.at += 1
        return self.data[self.at - 1]

    def number(self) -> int:
        value = shift = 0
        while True:
            group = self.byte()
            value |= (group & 127) << shift
            shift += 7
            if group < 128:
                return value

    def signed(self) -> int:
        value = self.number()
        return -(value >> 1) - 1 if value & 1 else value >> 1

    def run(self, length: int) -> bytes:
        if length > len(self.data) - self.at:
            raise IndexError("the bytes end early")
        self.at += length
        return self.data[self.at - length : self.at]

    def text(self) -> str:
        return self.run(self.number()).decode()

    def uuid(self) -> dict[str, str]:
        return {"uuid": str(uuid.UUID(bytes=self.run(16)))}


def history_of(ident: int, journal: bytes) -> list[Change]:
    """The changes of that ident in the history, in order: the file has all entries that its client took."""
    found: list[Change] = []
    at = 8
    while journal[at : at + 1] == b"\1":
        length = int.from_bytes(journal[at + 1 : at + 5], "big")
        it = _Bytes(journal[at + 5 : at + 5 + length])
        if length and it.byte() == 4 and it.number() == ident:
            found.append(Change(it.number(), it.number(), it.data[it.at :]))
        at += 5 + length
    return found


def edits_of(body: bytes) -> list[Edit]:
    """The edits of a changeset, as docs/FORMATS.md, "Edits", has them."""
    it = _Bytes(body)
    it.byte()
    names = [it.text() for _ in range(it.number())]
    return [_edit(it, names) for _ in range(it.number())]


def _edit(it: _Bytes, names: list[str]) -> Edit:
    op = it.byte()
    edit: Edit = {"op": _OPS[op], "table": names[it.number()]}
    if op == 1:
        return {**edit, "key": _KEYS[it.byte()]}
    if op == 2:
        edit |= {"column": names[it.number()], "kind": _KINDS[it.byte()], "nullable": it.byte() == 1, "shape": _SHAPES[it.byte()]}
        return {**edit, "target": names[it.number()]} if edit["kind"] == "Link" else edit
    edit["key"] = _key(it, names)
    if op > 4:
        edit["column"] = names[it.number()]
        edit |= _rest(op, it, names)
    return edit


def _rest(op: int, it: _Bytes, names: list[str]) -> Edit:
    """What an edit of a cell has behind the cell."""
    if op == 6:
        return {"amount": it.signed()}
    if op in (7, 8, 9):
        place: Edit = {"place": it.number(), "prior": it.number()}
        return place if op == 9 else {**place, "value": _value(it, names)}
    if op == 12:
        at = names[it.number()]
        return {"at": at, "value": _value(it, names)} if it.byte() == 1 else {"op": "DictErase", "at": at}
    return {} if op == 13 else {"value": _value(it, names)}


def _key(it: _Bytes, names: list[str]) -> Any:
    match it.byte():
        case 0:
            return it.signed()
        case 1:
            return names[it.number()]
        case _:
            return it.uuid()


def _value(it: _Bytes, names: list[str]) -> Any:
    match it.byte():
        case 0:
            return None
        case 1:
            return it.signed()
        case 2:
            return it.byte() == 1
        case 3:
            return it.text()
        case 4:
            return {"bytes": it.run(it.number()).hex()}
        case 5:
            return {"secs": it.signed(), "nanos": it.signed()}
        case 6:
            return it.uuid()
        case _:
            return {"link": names[it.number()], "key": _key(it, names)}


def definitions_in(edits: list[Edit]) -> Iterator[Edit]:
    """The edits that make tables and columns."""
    return (it for it in edits if it["op"] in ("AddTable", "AddColumn"))
