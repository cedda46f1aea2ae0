"""The C door of the merge core: docs/FORMATS.md, "Requests of a host". One call at a time on each door."""

from __future__ import annotations

import ctypes
import json
import os
from typing import NamedTuple

from .errors import BadFile, BadRequest, Closed, OutOfMemory, Reason, Refused

# The core's JSON.
to_json = json.JSONEncoder(ensure_ascii=False, separators=(",", ":")).encode

DONE, REFUSED, BAD_REQUEST, ABSENT, CLOSED, BAD_FILE, NO_MEMORY = 0, 1, 2, 3, 5, 6, 7
_FIRST_ROOM = 1 << 16


def _load() -> ctypes.CDLL:
    beside = os.path.join(os.path.dirname(os.path.abspath(__file__)), "librealm_sync.so")
    path = os.environ.get("REALM_SYNC_LIBRARY", beside)
    if not os.path.exists(path):
        raise ImportError(f"no {path}: python/build.sh builds it into the package, or REALM_SYNC_LIBRARY names it")
    library = ctypes.CDLL(path)
    library.realm_node_new.argtypes, library.realm_node_new.restype = [ctypes.POINTER(ctypes.c_void_p)], ctypes.c_bool
    library.realm_node_free.argtypes, library.realm_node_free.restype = [ctypes.c_void_p], None
    library.realm_node_turn.argtypes = [ctypes.c_void_p, ctypes.c_char_p, ctypes.c_size_t, ctypes.c_void_p, ctypes.c_size_t]
    library.realm_node_turn.restype = ctypes.c_size_t
    return library


_library = _load()


class Standing(NamedTuple):
    """Where a client stands. Of a server the cursor is the length of its history, and the others are 0."""

    ident: int
    cursor: int
    last: int
    unsent: int


class Reply(NamedTuple):
    status: int
    data: bytes


class Door:
    """A place in which a client or a server may stand."""

    def __init__(self) -> None:
        at = ctypes.c_void_p()
        if not _library.realm_node_new(ctypes.byref(at)):
            raise OutOfMemory("no memory for a node")
        self._at: int | None = at.value
        self._room = ctypes.create_string_buffer(_FIRST_ROOM)

    def _told(self, request: bytes) -> int:
        """Hands a request over, and answers how long the reply is."""
        told: int = _library.realm_node_turn(self._at, request, len(request), ctypes.addressof(self._room), len(self._room))
        return told

    def turn(self, verb: bytes, body: bytes = b"") -> Reply:
        """A request. Its answer is told once its strokes are done, which is the caller's part."""
        if self._at is None:
            return Reply(CLOSED, b"")
        told = self._told(verb + body)
        if told > len(self._room):
            self._room = ctypes.create_string_buffer(2 * told)
            told = self._told(b"R")
        data = ctypes.string_at(self._room, told)
        return Reply(data[0], data[1:]) if data else Reply(CLOSED, b"")

    def outbox(self) -> bytes:
        """What the node asks of its disk: docs/FORMATS.md, "The outbox"."""
        if self._at is None:
            return b""
        told = self._told(b"W")
        if told > len(self._room):
            self._room = ctypes.create_string_buffer(2 * told)
            told = self._told(b"W")
        return ctypes.string_at(self._room, told)

    def done(self) -> None:
        """Says that all that stands in the outbox is done."""
        if self._at is not None:
            self._told(b"V")

    def close(self) -> None:
        at, self._at = self._at, None
        if at is not None:
            _library.realm_node_free(at)


def number_of(data: bytes) -> int:
    """The number of an answer: of a transaction, or a cursor."""
    return int.from_bytes(data[:4], "little") if len(data) == 4 else 0


def standing_of(data: bytes) -> Standing:
    return Standing(*(int.from_bytes(data[at : at + 4], "little") for at in range(0, 16, 4)))


def refusal_of(reply: Reply) -> Refused:
    """The refusal that a reply says."""
    first, second, third = (int.from_bytes(reply.data[at : at + 4], "little") for at in (1, 5, 9))
    return Refused(Reason(reply.data[0]), (first, second, third))


def expect_done(reply: Reply) -> bytes:
    """The answer, or the error that its status says."""
    status, data = reply
    if status == DONE:
        return data
    if status == REFUSED:
        raise refusal_of(reply)
    if status == BAD_REQUEST:
        raise BadRequest("no such line, message or request: nothing changed")
    if status == BAD_FILE:
        raise BadFile(int.from_bytes(data[:8], "little"))
    if status == NO_MEMORY:
        raise OutOfMemory("the merge core is out of memory")
    if status == ABSENT:
        raise KeyError("no such object")
    raise Closed("the node is closed: open its file again")
