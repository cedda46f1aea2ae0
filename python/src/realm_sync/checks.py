"""What an edit may be, as JSON: docs/FORMATS.md, "Edits". What is none is told by its place, its field and what was expected, before anything is
done."""

from __future__ import annotations

import uuid as uuids
from collections.abc import Callable, Mapping
from typing import Any, NamedTuple

from .errors import BadRequest


class BadEdit(BadRequest):
    """An edit that is none; nothing changed. `edit` is its place among those of the transaction, `field` the field, `expected` what should stand
    there."""

    def __init__(self, edit: int, op: str, field: str, found: object, expected: str) -> None:
        super().__init__(f"edit {edit} ({op}), {field}: {found!r:.80}; expected {expected}")
        self.edit, self.field, self.expected = edit, field, expected


class Check(NamedTuple):
    """Whether a field holds what it should, and that in words."""

    holds: Callable[[Any], bool]
    expected: str


def _is_int(value: object, least: int = -(1 << 63), most: int = (1 << 63) - 1) -> bool:
    return type(value) is int and least <= value <= most


def _is_text(value: object, most: int = 1 << 26) -> bool:
    try:
        return isinstance(value, str) and len(value.encode()) <= most
    except UnicodeEncodeError:  # half of a surrogate
        return False


def _is_uuid(value: object) -> bool:
    try:
        return isinstance(value, str) and bool(uuids.UUID(value))
    except ValueError:
        return False


def _is_hex(value: object) -> bool:
    return isinstance(value, str) and len(value) % 2 == 0 and set(value) <= set("0123456789abcdefABCDEF")


def is_name(value: object) -> bool:
    return _is_text(value, 63) and value != ""


def is_key(value: object) -> bool:
    return _is_int(value) or _is_text(value, 255) or (isinstance(value, dict) and set(value) == {"uuid"} and _is_uuid(value["uuid"]))


def _is_value(value: object) -> bool:
    if not isinstance(value, dict):
        return value is None or isinstance(value, bool) or _is_int(value) or _is_text(value)
    fields = set(value)
    if fields == {"secs", "nanos"}:
        secs, nanos = value["secs"], value["nanos"]
        return _is_int(secs) and _is_int(nanos, -999_999_999, 999_999_999) and not (secs > 0 > nanos or secs < 0 < nanos)
    if fields == {"link", "key"}:
        return is_name(value["link"]) and is_key(value["key"])
    return (fields == {"bytes"} and _is_hex(value["bytes"])) or (fields == {"uuid"} and _is_uuid(value["uuid"]))


def _one_of(*words: str) -> Check:
    return Check(lambda value: isinstance(value, str) and value in words, "one of " + ", ".join(words))


_NAME = Check(is_name, "a name of 1 to 63 bytes")
_KEY = Check(is_key, 'a key: an integer of 64 bits, a text of at most 255 bytes, or {"uuid": ..}')
_VALUE = Check(
    _is_value,
    'a value: None, a flag, an integer of 64 bits, a text, {"bytes": HEX}, {"secs": .., "nanos": ..}, {"uuid": ..} or {"link": TABLE, "key": KEY}',
)
_AT = Check(lambda value: _is_text(value, 255), "a text of at most 255 bytes")
_AMOUNT = Check(_is_int, "an integer of 64 bits")
_COUNT = Check(lambda value: _is_int(value, 0, (1 << 32) - 1), "a number from 0 to 4,294,967,295")
_FLAG = Check(lambda value: isinstance(value, bool), "True or False")

_CELL = {"table": _NAME, "key": _KEY, "column": _NAME}
_LIST = {**_CELL, "place": _COUNT, "prior": _COUNT}
_COLUMN = {
    "table": _NAME,
    "column": _NAME,
    "kind": _one_of("Int", "Bool", "Text", "Bytes", "Time", "Uuid", "Link"),
    "nullable": _FLAG,
    "shape": _one_of("One", "List", "Set", "Dict"),
}
_FIELDS: Mapping[str, Mapping[str, Check]] = {
    "AddTable": {"table": _NAME, "key": _one_of("Int", "Text", "Uuid")},
    "AddColumn": _COLUMN,
    "CreateObject": {"table": _NAME, "key": _KEY},
    "EraseObject": {"table": _NAME, "key": _KEY},
    "Update": {**_CELL, "value": _VALUE},
    "AddInteger": {**_CELL, "amount": _AMOUNT},
    "ListInsert": {**_LIST, "value": _VALUE},
    "ListUpdate": {**_LIST, "value": _VALUE},
    "ListErase": _LIST,
    "SetInsert": {**_CELL, "value": _VALUE},
    "SetErase": {**_CELL, "value": _VALUE},
    "DictUpdate": {**_CELL, "at": _AT, "value": _VALUE},
    "DictErase": {**_CELL, "at": _AT},
    "Clear": _CELL,
}


def as_written(value: Any) -> Any:
    """A link as an object's line has it, as an edit has it: without `resolved`."""
    if isinstance(value, dict) and set(value) == {"link", "key", "resolved"}:
        return {"link": value["link"], "key": value["key"]}
    return value


def checked(edit: Any, number: int) -> Any:
    """The edit, or the `BadEdit` that says where it is none."""
    op = edit.get("op") if isinstance(edit, dict) else None
    if not isinstance(op, str) or op not in _FIELDS:
        raise BadEdit(number, "unknown", "op", op if isinstance(edit, dict) else edit, "one of " + ", ".join(_FIELDS))
    fields = {**_COLUMN, "target": _NAME} if op == "AddColumn" and edit.get("kind") == "Link" else _FIELDS[op]
    for field in edit:
        if field not in fields and field != "op":
            raise BadEdit(number, op, str(field), edit[field], "no such field here, but " + ", ".join(fields))
    for field, check in fields.items():
        if field not in edit:
            raise BadEdit(number, op, field, None, f"{check.expected}, and there is none")
        if not check.holds(edit[field]):
            raise BadEdit(number, op, field, edit[field], check.expected)
    if "place" in edit and edit["place"] > edit["prior"] - (op != "ListInsert"):
        raise BadEdit(number, op, "place", edit["place"], f"a place in a list of {edit['prior']}")
    return edit
