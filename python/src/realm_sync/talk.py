"""What a client says next, and what it answers to a message. Which message there is to send is the core's to say; when changes may be sent is
decided here."""

from __future__ import annotations

import json
from typing import NamedTuple

from .door import REFUSED, expect_done, number_of, refusal_of
from .engine import Engine
from .errors import Reason, Refused
from .messages import DOWNLOAD, STORED, Edit, definitions_in, edits_of
from .problems import Conflict


class Taken(NamedTuple):
    """What a message came to: the client's refusal, the cursor, and whether the message says that nothing is behind the cursor."""

    refused: Refused | None
    cursor: int
    is_end: bool


class Talk:
    """One client's part of the exchange with a server."""

    def __init__(self, engine: Engine) -> None:
        self._engine = engine
        # Whether the client had all of the history since its file was opened and since the last refusal. Until then it only asks: a file that
        # was copied, or restored from a backup, learns of it before a change of it is sent under a number that the history has already.
        self._is_current = False
        self._stored = 0

    def next(self) -> bytes:
        """The message to send next."""
        return self._engine.ask(b"N") if self._is_current else self.question()

    def question(self) -> bytes:
        """Bind, or the question for the history: what a client says that sends no change."""
        return self._engine.ask(b"A" if self._engine.standing().ident else b"N")

    def progress(self) -> tuple[int, ...]:
        """It changes with each step forward."""
        return (*self._engine.standing(), self._stored)

    def take(self, message: bytes) -> Taken:
        """Hands a message to the client, whose strokes then wait."""
        before, head = self._engine.standing(), self._engine.head(message)
        stored = head.first if head and head.tag == STORED and head.ident == before.ident else 0
        if stored > before.last:
            self._is_current = False
            return Taken(Refused(Reason.FORKED, (before.last + 1, 0, 0)), before.cursor, False)
        reply = self._engine.reply(b"T", message)
        if reply.status == REFUSED:
            self._is_current = False
            return Taken(self._explained(refusal_of(reply), message), before.cursor, False)
        cursor = number_of(expect_done(reply))
        self._stored = stored or self._stored
        is_end = head is not None and (head.tag, head.length, head.ident, head.first) == (DOWNLOAD, 0, before.ident, before.cursor)
        self._is_current |= is_end
        return Taken(None, cursor, is_end)

    def _explained(self, refused: Refused, message: bytes) -> Refused:
        """A refusal for schemas that differ says which definition it is."""
        if refused.reason == Reason.MISMATCH:
            version, number, _ = refused.details
            refused.conflict = _conflict(self._engine, message, version, number)
        return refused


def column_words(kind: str, nullable: bool, shape: str, target: str | None) -> str:
    """A column as errors say it."""
    return f"{kind}{' nullable' if nullable else ''} {shape}{f' of {target}' if target else ''}"


def _words(edit: Edit) -> str:
    if edit["op"] == "AddTable":
        return f"keys of {edit['key']}"
    return column_words(edit["kind"], edit["nullable"], edit["shape"], edit.get("target"))


def _conflict(engine: Engine, message: bytes, version: int, number: int) -> Conflict | None:
    """The first definition that the unsent change and the entry at that version of a Download give in two ways."""
    theirs = [it for entry in engine.entries_of(message) if entry.version == version for it in definitions_in(edits_of(entry.body))]
    for change in engine.unsent():
        for mine in definitions_in(edits_of(change.body) if change.number == number else []):
            for other in theirs:
                is_same = all(other.get(name) == mine.get(name) for name in ("op", "table", "column"))
                if is_same and _words(other) != _words(mine):
                    return Conflict(mine["table"], mine.get("column"), _words(mine), _words(other))
    return None


def definitions_of(dump: str) -> list[Edit]:
    """The edits that make the tables and columns of a dump, tables first."""
    lines: list[Edit] = [json.loads(it) for it in dump.splitlines() if it and not it.startswith('{"cells"')]
    edits: list[Edit] = [{"op": "AddColumn" if "column" in it else "AddTable", **it} for it in lines]
    return sorted(edits, key=lambda it: str(it["op"]), reverse=True)
