"""A node over its storage: each answer is told once what it rests on is on the disk."""

from __future__ import annotations

from collections.abc import Iterator, Sequence

from .door import DONE, Door, Reply, Standing, expect_done, number_of, standing_of
from .errors import NotShrunk, StorageFailed, WrongKey
from .messages import DOWNLOAD, Change, Entry, Head, borne_in, head_in
from .sealed import is_sealed
from .storage import Storage, Stroke, Write

CLIENT, SERVER = b"c", b"s"


class Engine:
    """A client or a server that is open. One call at a time."""

    def __init__(self, storage: Storage, kind: bytes = CLIENT) -> None:
        self._storage, self._kind, self._door, self._failed = storage, kind, Door(), False
        try:
            data = storage.read()
            if is_sealed(data):
                raise WrongKey("the file is encrypted: open it with its key")
            expect_done(self._door.turn(kind, data))
            self.settle()
        except BaseException:
            self.close()
            raise

    def reply(self, verb: bytes, body: bytes = b"") -> Reply:
        """A request, without its strokes."""
        if self._failed:
            raise StorageFailed("the storage failed before")
        return self._door.turn(verb, body)

    def ask(self, verb: bytes, body: bytes = b"") -> bytes:
        """A request that must be done, without its strokes."""
        return expect_done(self.reply(verb, body))

    def settle(self) -> None:
        """Does what the node asked of its disk. Where that fails the engine is of no use any more: its file is opened anew."""
        if self._failed:
            raise StorageFailed("the storage failed before")
        strokes = gathered(strokes_of(self._door.outbox()))
        if not strokes:
            return
        try:
            self._storage.apply(strokes)
        except BaseException:
            self._failed = True
            raise
        self._door.done()

    def line(self, text: str) -> int:
        """Does what a node line says, and answers its number."""
        number = number_of(self.ask(b"L", text.encode()))
        self.settle()
        return number

    def head(self, message: bytes) -> Head | None:
        """What a message is about; None where its bytes are none."""
        reply = self.reply(b"H", message)
        return head_in(reply.data) if reply.status == DONE else None

    def entries_of(self, message: bytes) -> list[Entry]:
        """The entries of a Download; none of any other message."""
        head = self.head(message)
        if head is None or head.tag != DOWNLOAD:
            return []
        borne = borne_in(self.ask(b"P", message))
        return [Entry(version, it.first, it.second, it.ms, it.body) for version, it in enumerate(borne, head.first)]

    def unsent(self) -> Iterator[Change]:
        """The unsent changes of a client, as they were made. One without an ident tells none: the core makes no Upload of it."""
        after = 0
        while self.standing().ident:
            changes = [Change(it.first, it.ms, it.body) for it in borne_in(self.ask(b"P", self.ask(b"U", after.to_bytes(4, "little"))))]
            if not changes:
                return
            yield from changes
            after = changes[-1].number

    def dump(self) -> str:
        return self.ask(b"D").decode()

    def standing(self) -> Standing:
        return standing_of(self.ask(b"I"))

    def object(self, table: str, key: str) -> str | None:
        """The line of an object, by its table and key as JSON; None where there is none."""
        status, data = reply = self.reply(b"O", f'{{"table":{table},"key":{key}}}'.encode())
        if status == DONE:
            return data.decode()
        try:
            expect_done(reply)
        except KeyError:
            pass
        return None

    def shrink(self) -> None:
        """Goes on over a file without what the node needs no more, once it stands in the place of its own. After `NotShrunk` all is as before; where
        anything else fails the engine is of no use any more."""
        self.settle()
        data = self.ask(b"F")
        try:
            self._storage.rewrite(data, ".shrunk" if self._kind == CLIENT else ".trimmed")
            expect_done(self._door.turn(self._kind, data))
        except NotShrunk:
            raise
        except BaseException:
            self._failed = True
            raise
        self.settle()

    def data(self) -> bytes:
        """The bytes of the file."""
        return self._storage.read()

    def close(self) -> None:
        self._door.close()
        self._storage.close()


def strokes_of(outbox: bytes) -> list[Stroke]:
    """The strokes of an outbox: docs/FORMATS.md, "The outbox"."""
    strokes: list[Stroke] = []
    at = 0
    while at < len(outbox):
        if outbox[at : at + 1] == b"S":
            strokes.append(None)
            at += 1
            continue
        place, count = (int.from_bytes(outbox[it : it + 8], "little") for it in (at + 1, at + 9))
        strokes.append(Write(place, outbox[at + 17 : at + 17 + count]))
        at += 17 + count
    return strokes


def gathered(strokes: Sequence[Stroke]) -> Sequence[Stroke]:
    """Records that were added one after the other, as one write behind the closed gate and one that opens it: the records of a message, as
    docs/FORMATS.md, "The journal", has them. They leave the same bytes, and after a crash all of the records or none. Strokes of any other
    form stay as they are."""
    if len(strokes) < 8 or len(strokes) % 4:
        return strokes
    records: list[bytes] = []
    first = gate = -1
    for at in range(0, len(strokes), 4):
        record, one, opening, other = strokes[at : at + 4]
        if record is None or opening is None or one is not None or other is not None:
            return strokes
        if opening.data != b"\1" or record.place != opening.place + 1 or record.data[-1:] != b"\0":
            return strokes
        if first >= 0 and opening.place != gate:
            return strokes
        first = opening.place if first < 0 else first
        gate = record.place + len(record.data) - 1
        records.append(record.data)
    together = b"".join(it[:-1] + b"\1" for it in records[:-1]) + records[-1]
    return [Write(first + 1, together), None, Write(first, b"\1"), None]
