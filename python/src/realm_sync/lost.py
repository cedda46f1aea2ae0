"""What a message took from the changes of this device that weren't in the history yet, as far as it can be seen from outside: by comparing what
the core says of an object before the message and after it. Nothing is merged here."""

from __future__ import annotations

import json
from collections.abc import Iterable
from typing import Any, Literal, NamedTuple

from .door import to_json
from .engine import Engine
from .messages import Edit, edits_of


Cells = dict[str, Any]


class LostForm(NamedTuple):
    """An edit of this device that isn't seen any more, in the core's JSON. `column` is None where the whole object is gone; `mine` is what this
    device had written: a value, an element, or the value at a key of a dictionary; `before` are the object's cells as this device had them."""

    table: str
    key: Any
    column: str | None
    ms: int
    why: Literal["overwritten", "erased"]
    mine: Any
    before: Cells


def is_same(one: Any, other: Any) -> bool:
    """Whether two values of the core are one. A link's `resolved` isn't of the value."""
    if isinstance(one, dict) and isinstance(other, dict):
        names = (one.keys() | other.keys()) - {"resolved"}
        return all(is_same(one.get(name), other.get(name)) for name in names)
    return type(one) is type(other) and bool(one == other)


def _count(cell: list[Any], value: Any) -> int:
    return sum(is_same(it, value) for it in cell)


def _is_lost(edit: Edit, before: Any, after: Any, others: list[Edit]) -> bool:
    """Whether an edit was seen in its cell before, and isn't after. `others` are what other devices did to the cell."""
    value, at = edit.get("value"), edit.get("at")
    match edit["op"]:
        case "Update":
            # A number to which others added has changed too, and nothing is lost.
            is_set = any(it["op"] in ("Update", "CreateObject") for it in others)
            return is_set and is_same(before, value) and not is_same(after, value)
        case "ListInsert" | "ListUpdate":
            return _count(after, value) < _count(before, value)
        case "SetInsert":
            return _count(before, value) > 0 and _count(after, value) == 0
        case "SetErase":
            return _count(before, value) == 0 and _count(after, value) > 0
        case "DictUpdate":
            return at in before and is_same(before[at], value) and not (at in after and is_same(after[at], value))
        case "DictErase":
            return at not in before and at in after
        case _:
            return False


def _spot(edit: Edit) -> tuple[str, str]:
    """Where an edit acts: the last one of a place is the one that was seen."""
    if edit["op"] in ("SetInsert", "SetErase", "ListInsert", "ListUpdate"):
        return edit["column"], to_json(edit["value"])
    return edit["column"], str(edit.get("at"))


def _by_object(edits: Iterable[tuple[Edit, int]]) -> dict[str, list[tuple[Edit, int]]]:
    found: dict[str, list[tuple[Edit, int]]] = {}
    for edit, ms in edits:
        if edit["op"] not in ("AddTable", "AddColumn"):
            found.setdefault(to_json([edit["table"], edit["key"]]), []).append((edit, ms))
    return found


def _edits_of_others(engine: Engine, message: bytes, ident: int) -> dict[str, list[tuple[Edit, int]]]:
    """What others did to objects in the entries of a Download; nothing where one's bytes are no changeset, which the core then refuses."""
    entries = [it for it in engine.entries_of(message) if it.origin != ident]
    try:
        return _by_object((edit, it.ms) for it in entries for edit in edits_of(it.body))
    except (IndexError, UnicodeDecodeError):
        return {}


class LostEdits:
    """Looks at a Download before it is taken, and at the objects that it and this client's unsent changes both touch."""

    def __init__(self, engine: Engine, message: bytes) -> None:
        self._engine = engine
        self._seen: list[tuple[list[tuple[Edit, int]], list[Edit], Cells]] = []
        standing = engine.standing()
        others = _edits_of_others(engine, message, standing.ident) if standing.unsent else {}
        if not others:
            return
        mine = _by_object((edit, it.ms) for it in engine.unsent() for edit in edits_of(it.body))
        for name in [it for it in mine if it in others]:
            before = self._cells(mine[name][0][0])
            if before is not None:
                self._seen.append((mine[name], [edit for edit, _ in others[name]], before))

    def _cells(self, edit: Edit) -> Cells | None:
        line = self._engine.object(to_json(edit["table"]), to_json(edit["key"]))
        return json.loads(line)["cells"] if line is not None else None

    def found(self) -> list[LostForm]:
        """What is lost now that the message was taken."""
        return [it for mine, others, before in self._seen for it in self._of_object(mine, others, before)]

    def _of_object(self, mine: list[tuple[Edit, int]], others: list[Edit], before: Cells) -> list[LostForm]:
        last, ms = mine[-1]
        after = self._cells(last)
        if after is None:
            is_own = any(edit["op"] == "EraseObject" for edit, _ in mine)
            return [] if is_own else [LostForm(last["table"], last["key"], None, ms, "erased", None, before)]
        spots = {_spot(edit): (edit, ms) for edit, ms in mine if "column" in edit}
        lost = []
        for (column, _), (edit, ms) in spots.items():
            touched = [it for it in others if it.get("column", column) == column]
            if column in before and column in after and _is_lost(edit, before[column], after[column], touched):
                lost.append(LostForm(edit["table"], edit["key"], column, ms, "overwritten", edit.get("value"), before))
        return lost
