"""What messages are about, and what they bear, as the library tells it: docs/FORMATS.md, "Messages for a host"."""

import ctypes
import dataclasses
import struct
import threading
import typing
from collections.abc import Iterator

from .node import BORNE, DONE, HEAD, Node, Reply

BIND, IDENT, UPLOAD, ASK, DOWNLOAD, REFUSED, STORED, ASK2, RETIRE, ASK_TABLES = 1, 2, 3, 4, 5, 6, 7, 8, 9, 11
NAMES = {BIND: "bind", UPLOAD: "upload", ASK: "ask", ASK2: "ask", ASK_TABLES: "ask", RETIRE: "retire"}  # what clients say
PLACES, EACH = struct.Struct("<B16s7I"), struct.Struct("<IIQI")
ROOM = 1 + PLACES.size + 1 + 64 * 64  # of a head: its status, and at most 64 tables of 63 bytes, each behind its length
NO_TABLES = frozenset[str]()


class BadMessage(Exception):
    """No message, or one for clients."""


@dataclasses.dataclass(slots=True)
class Head:
    """What a message is about. What it hasn't got is 0."""

    tables: frozenset[str]
    tag: int
    uuid: bytes
    ident: int
    by: int
    count: int
    first: int
    second: int
    third: int
    fourth: int

    @property
    def speaker(self) -> int:
        """The ident under which a client says it."""
        return self.by if self.tag == RETIRE else self.ident

    @property
    def version(self) -> int:
        """From which version on a client's message meets the history. Of an Upload's changes the lowest base counts, since the server skips
        those that it has: a first one of these may have any base."""
        return self.fourth if self.tag == UPLOAD else self.first


class Entry(typing.NamedTuple):
    """An entry of a history: its version, counted from 0; the ident of the client that made it, and that client's number of it; its time in
    milliseconds since the epoch; and the bytes of its changeset."""

    version: int
    ident: int
    number: int
    ms: int
    changeset: bytes


class _Looking(threading.local):
    """A thread's node, in which nothing stands, and the room for a head."""

    def __init__(self) -> None:
        self.node, self.room = Node(), ctypes.create_string_buffer(ROOM)


_looking = _Looking()


def _answered(reply: Reply) -> bytes:
    if reply.status != DONE:
        raise BadMessage("no message")
    return reply.told


def look(message: bytes) -> Head:
    """What a message is about; raises BadMessage."""
    told = _answered(_looking.node.ask_into(_looking.room, HEAD + message))
    return Head(_tables(told) if len(told) > PLACES.size else NO_TABLES, *PLACES.unpack_from(told))


def look_at_asked(message: bytes) -> Head:
    """What a client's message is about; raises BadMessage."""
    head = look(message)
    if head.tag not in NAMES:
        raise BadMessage("no message for a server")
    return head


def _tables(told: bytes) -> frozenset[str]:
    """Those behind the places of a head: how many, and each as its length and so many bytes. Both numbers are small, and have one byte."""
    names, place = list[str](), PLACES.size + 1
    while place < len(told):
        end = place + 1 + told[place]
        names.append(told[place + 1 : end].decode())
        place = end
    return frozenset(names)


def borne(message: bytes) -> bytes:
    """The changes or entries of a message; raises BadMessage."""
    return _answered(_looking.node.ask_all([BORNE + message])[0])


def entries(version: int, told: bytes) -> Iterator[Entry]:
    """The entries from a version on, as a Download bears them, or the node tells them."""
    place = 0
    while place < len(told):
        ident, number, ms, size = EACH.unpack_from(told, place)
        place += EACH.size + size
        yield Entry(version, ident, number, ms, told[place - size : place])
        version += 1


def first_bytes(size: int, found: Iterator[Entry]) -> list[Entry]:
    """The first of these entries, up to the one that brings their changesets above that size."""
    taken = list[Entry]()
    for entry in found:
        taken.append(entry)
        size -= len(entry.changeset)
        if size < 0:
            break
    return taken


def spelled(number: int) -> bytes:
    """A number as in a message."""
    parts = bytearray()
    while number > 127:
        parts.append(number & 127 | 128)
        number >>= 7
    return bytes([*parts, number])


def question(ident: int, version: int, tables: frozenset[str]) -> bytes:
    """An AskTables for what these tables get of the entries from a version on. It settles nothing, so the server keeps nothing of it."""
    names = b"".join(spelled(len(it)) + it for it in sorted(name.encode() for name in tables))
    return bytes([ASK_TABLES]) + b"".join(map(spelled, (ident, version, 0, 2, len(tables)))) + names
