"""A new client takes a refused one's place, and saves what that had unsent: docs/FORMATS.md, "Recovering what an old client had unsent"."""

from __future__ import annotations

import dataclasses
import struct
import uuid
from collections.abc import Callable
from typing import Any

from .door import REFUSED, Standing, expect_done, refusal_of, to_json
from .engine import Engine
from .errors import NeedsAttention, Reason, Refused, words_of_code
from .messages import REFUSED as REFUSED_MESSAGE
from .messages import RETIRED, Change, Edit, edits_of, history_of
from .problems import Problem
from .talk import Talk, definitions_of


@dataclasses.dataclass(frozen=True)
class Dropped:
    """An edit that the new client couldn't keep, and why."""

    number: int
    ms: int
    edit: dict[str, Any]
    why: str


@dataclasses.dataclass(frozen=True)
class Recovery:
    """What became of the changes that a client had unsent when a new one took its place: how many were in the history already, how many the
    new client has now, and what of these couldn't be kept."""

    problem: Problem
    integrated: int
    saved: int
    dropped: tuple[Dropped, ...]


def born(engine: Engine) -> None:
    """Gives a new client its uuid, and brings its file to form 2, unless both was done."""
    try:
        engine.line(to_json({"uuid": str(uuid.uuid4())}))
    except Refused as why:
        if why.reason != Reason.ALREADY_BORN:
            raise
    # Also where it was killed between the two.
    engine.line('{"upgrade":2}')


def _is_saved_as(change: Change, other: Change) -> bool:
    """Whether a change that another new client saved is this one: of the same time, and each of its edits, in order, is one of this. Places in
    lists may be others by then, and what couldn't be kept isn't there."""
    if change.ms != other.ms:
        return False
    mine, theirs = ([{**edit, "place": 0, "prior": 0} for edit in edits_of(it.body)] for it in (change, other))
    rest = iter(mine)
    return all(edit in rest for edit in theirs)


class Takeover:
    """The steps of a new client, the heir, that takes an old one's place."""

    def __init__(self, heir: Engine, exchange: Callable[[bytes], bytes], problem: Problem) -> None:
        self._heir, self._exchange, self._problem = heir, exchange, problem
        self._talk = Talk(heir)
        # The old client's changes in the history: their times, by their numbers.
        self._own: dict[int, int] = {}
        # What another new client saved that had taken the old one's place before: that of a copy of this file.
        self._saved_by_other: list[Change] = []

    def join(self, old: Standing) -> bool:
        """The heir takes the history, retires the old client, and takes what that had sent before. False where it has to be begun anew."""
        born(self._heir)
        self._take_all()
        # At another server the old ident may be somebody else's: it is left alone, and nothing of the old client is in that history. One that was
        # restored is the same as it was once: what it has of the old client isn't saved again, and its service takes no more of it.
        is_other, other = self._problem.cause == "other server", 0
        if is_other and not self._problem.generation:
            return True
        if not is_other:
            other = self._retire(old.ident)
            self._take_all()
        journal = self._heir.data()
        self._own = {it.number: it.ms for it in history_of(old.ident, journal)}
        self._saved_by_other = history_of(other, journal) if other else []
        # What a try that was cut off has saved already, the other one may have sent since.
        return not other or self._heir.standing().last == 0

    def _take_all(self) -> None:
        """It sends no change: one that it saved in a try that was cut off is in no history before it has taken the old client's place."""
        is_end = False
        while not is_end:
            refused, _, is_end = self._talk.take(self._exchange(self._talk.question()))
            self._heir.settle()
            if refused:
                raise refused

    def _retire(self, ident: int) -> int:
        """From then on the server takes no change under the old ident. Answers the ident for which it was retired before, else 0."""
        if ident == 0:
            return 0
        head = self._heir.head(self._exchange(self._heir.ask(b"G", ident.to_bytes(4, "little"))))
        code, place = (head.second, head.third) if head and head.tag == REFUSED_MESSAGE else (0, 0)
        if code == 70:
            return place
        is_retired = head is not None and (head.tag, head.ident) == (RETIRED, ident)
        # Codes 60 and 69: not an ident of this server, or the heir's own; there is nothing to retire.
        if not is_retired and code not in (60, 69):
            raise NeedsAttention(Problem("retired", f"the server refuses to give the old client up: code {code}", False))
        return 0

    def inherit(self, old: Engine) -> Recovery:
        """The heir takes what the old client has unsent, in order. A change is in the history where it belongs to the longest beginning of the
        unsent ones whose numbers and times stand there under the old ident. The number alone doesn't say it: a file that was restored from a
        backup gives numbers anew."""
        dropped: list[Dropped] = []
        integrated = saved = before = 0
        if self._problem.cause == "other server":
            self._define(definitions_of(old.dump()))
            before = self._heir.standing().last
        is_beginning, by_other, ident = True, list(self._saved_by_other), old.standing().ident
        for change in old.unsent():
            is_beginning = is_beginning and self._own.get(change.number) == change.ms
            if is_beginning or (by_other and _is_saved_as(change, by_other[0])):
                integrated += 1
                by_other = by_other if is_beginning else by_other[1:]
                continue
            by_other = []  # from here on the copies were apart
            saved += 1
            dropped += self._save(ident, change, before + saved)
        self._heir.settle()
        return Recovery(self._problem, integrated, saved, tuple(dropped))

    def _save(self, ident: int, change: Change, place: int) -> list[Dropped]:
        """The heir takes a change of the old client as its transaction of that number, unless a try that was cut off did. Answers the edits that it
        couldn't keep."""
        # For the core the changes of an old client begin behind those that are in the history: they are counted from the first one that isn't.
        head = struct.pack("<IIIIIQ", ident, self._heir.standing().ident, 0, place, 0, change.ms)
        answer = self._heir.ask(b"K", head + change.body)
        edits = edits_of(change.body) if len(answer) > 5 else []
        return [Dropped(change.number, change.ms, edits[at], words_of_code(code)) for at, code in struct.iter_unpack("<II", answer[5:])]

    def _define(self, edits: list[Edit]) -> None:
        """Adds tables and columns, but those that the history has otherwise."""
        while edits:
            reply = self._heir.reply(b"L", to_json({"ms": 0, "edits": edits}).encode())
            if reply.status != REFUSED:
                expect_done(reply)
                return
            refused = refusal_of(reply)
            if refused.reason != Reason.BREAK:
                raise refused
            del edits[refused.details[0]]
