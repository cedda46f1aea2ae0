"""What may come in place of an answer. Each error says what to do."""

from __future__ import annotations

import enum
import json
from collections.abc import Mapping
from typing import Any, NamedTuple

from .problems import Conflict, Problem


class Reason(enum.IntEnum):
    """Why a client refuses: docs/FORMATS.md, "Refusals by number", says more of each."""

    NOT_BORN = 1
    ALREADY_BORN = 2
    NOT_NAMED = 3
    TOO_LARGE = 4
    NUMBERS_FULL = 5
    OLD_FORM = 6
    NOT_SUBSCRIBED = 7
    BREAK = 8
    NOT_MINE = 9
    IDENT_DIFFERS = 10
    GAP = 11
    BAD_BODY = 12
    OLD_ENTRY = 13
    MISMATCH = 14
    FORKED = 15
    NOT_APPLICABLE = 16
    WAS_REFUSED = 17
    SUBSCRIBED = 18
    TOO_LATE = 19
    SKIPS = 20
    BAD_CHANGE = 21


CODES: Mapping[int, str] = {
    1: "the tables differ",
    2: "the columns differ",
    3: "the sizes differ",
    4: "a size is out of range",
    10: "the table exists",
    11: "no such table",
    12: "the column exists",
    13: "a link column must be nullable if and only if it is single",
    14: "no such column",
    20: "the column has another shape",
    21: "the value doesn't fit the column",
    23: "the list has another length",
    30: "no such object",
    31: "the key is of another kind than the table's",
    60: "the ident wasn't given by this server",
    61: "not the client's next number: the server's file was restored, or it is another server",
    62: "a base before the last one: the file was copied or restored",
    63: "ahead of the server's history: its file was restored, or it is another server",
    64: "the history is full",
    65: "all idents are given",
    67: "the history needs form 2",
    68: "the ident is retired",
    69: "an ident can't retire itself",
    70: "the ident was retired for another one",
    71: "the server gave up the history that the client needs",
}


def words_of_code(code: int) -> str:
    """A code of docs/FORMATS.md, "Outcome lines", in words."""
    return CODES.get(code, "no changeset" if 40 <= code <= 53 else f"code {code}")


class Error(Exception):
    """What a database or a node may answer in place of what it was asked for."""

    def __reduce__(self) -> tuple[Any, ...]:
        """So that it goes to another process whole, though its class takes other words than its text."""
        return _made_again, (type(self), self.args, self.__dict__)


def _made_again(type_: type[Error], args: tuple[Any, ...], fields: dict[str, Any]) -> Error:
    error = type_.__new__(type_)
    error.args = args
    error.__dict__.update(fields)
    return error


class Refused(Error):
    """The client refuses, and is as before. `reason` says why, `details` are the numbers that say more of it."""

    def __init__(self, reason: Reason, details: tuple[int, int, int] = (0, 0, 0)) -> None:
        super().__init__(_words(reason, details))
        self.reason = reason
        self.details = details
        # Of a MISMATCH: which definition differs, where it is known.
        self.conflict: Conflict | None = None


class BrokenEdit(Refused):
    """An edit of a transaction doesn't act on the objects; nothing of the transaction was done. `place` is the edit's in the transaction, `code` says
    why (docs/FORMATS.md, "Outcome lines"), `edit` is it as JSON; `column` is None where it is of a whole object."""

    def __init__(self, place: int, code: int, edit: str) -> None:
        super().__init__(Reason.BREAK, (place, code, 0))
        self.place, self.code, self.edit = place, code, edit
        fields = json.loads(edit)
        self.table: str = fields["table"]
        self.column: str | None = fields.get("column")
        self.args = (f"{self.args[0]}: {edit}",)


def _words(reason: Reason, details: tuple[int, int, int]) -> str:
    first, second, third = details
    match reason:
        case Reason.BREAK:
            return f"edit {first} doesn't act: {words_of_code(second)}"
        case Reason.WAS_REFUSED:
            return f"the server refused change {first}: {words_of_code(second)}"
        case Reason.MISMATCH:
            return f"entry {first} of the history and the unsent change {second} can't be merged: {words_of_code(third)}"
        case Reason.TOO_LARGE:
            return "a transaction has at most 65,536 edits and 4,194,304 bytes: write it in parts"
        case Reason.NOT_SUBSCRIBED:
            return f"edit {first} is about a table that this client didn't name"
        case Reason.ALREADY_BORN:
            return "the client has its uuid already"
        case Reason.NOT_BORN:
            return "the client has no uuid yet: born() gives it one"
        case _:
            return f"refused: {reason.name} {first} {second} {third}"


class ColumnName(NamedTuple):
    """A column, or a key, of a table."""

    table: str
    column: str

    def __str__(self) -> str:
        return f"{self.table}.{self.column}"


class InvalidValue(Error, TypeError, ValueError):
    """A value that can't stand in its column, a key that is none: told while a transaction is written, before anything is done."""

    def __init__(self, message: str, at: ColumnName) -> None:
        super().__init__(message)
        self.table, self.column = at


class SchemaConflict(Error):
    """A class declares a table or a column otherwise than the data have it."""

    def __init__(self, table: str, column: str | None, declared: str, found: str) -> None:
        name = table if column is None else f"{table}.{column}"
        super().__init__(f"{name} is declared as {declared}, and is {found} in the data. A definition never changes: give the changed one a new name")
        self.table, self.column, self.declared, self.found = table, column, declared, found


class StorageFailed(Error):
    """The storage failed. What was answered before stands; the file was opened again."""


class StorageFull(StorageFailed):
    """The storage is full. Nothing of the transaction stands; with room made it can be written again."""


class NotShrunk(Error):
    """No file without what the node needs no more could be put in the place of its own; both are as before."""


class Busy(Error):
    """Another process, or another place in this one, has the file open."""


class BadFile(Error):
    """The file is another one's, or damaged; it is as it was. `place` is from which byte on."""

    def __init__(self, place: int) -> None:
        super().__init__(f"the file is no journal of such a node, from byte {place} on")
        self.place = place


class WrongKey(Error):
    """The file is encrypted, and the key isn't the one that it was written with, or none was given. It is as it was."""


class Unauthorized(Error):
    """The server refuses this device or its token."""


class Outdated(Error):
    """The server's history was restored, and is of another generation than this client says; which one, where the server told it."""

    def __init__(self, generation: int | None) -> None:
        super().__init__(f"the history was restored on the server{f' and is of generation {generation}' if generation else ''}")
        self.generation = generation


class NeedsAttention(Error):
    """Sync stopped for this, and goes on once it is settled: `problem` says why."""

    def __init__(self, problem: Problem) -> None:
        super().__init__(f"sync needs attention: {problem.text}")
        self.problem = problem


class Endless(Error):
    """Sync didn't come to the end of the history in so many messages. It is tried again later."""


class OutOfMemory(Error):
    """The merge core is out of memory."""


class Closed(Error):
    """The database or the node was closed."""


class OtherProcess(Closed):
    """The file was opened before this process was forked, and is the other one's: open it in the process that uses it."""


class BadRequest(Error, ValueError):
    """No such line, message or request; nothing changed."""


def error_of(problem: Problem) -> Error:
    """The error of a problem: of schemas that differ one that names the column."""
    found = problem.conflict
    return SchemaConflict(found.table, found.column, found.declared, found.found) if found else NeedsAttention(problem)
