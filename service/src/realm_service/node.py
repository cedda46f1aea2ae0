"""A server node of the C library: requests in, replies and what is to be stored out. docs/FORMATS.md, "Requests of a host"."""

import ctypes
import functools
import threading
import typing
from collections.abc import Sequence

from .library import Buffer, Library

DONE, BAD_REQUEST, ABSENT, CLOSED, BAD_FILE, NO_MEMORY = 0, 2, 3, 5, 6, 7
KEPT_ROOM = 1 << 18  # bytes of a buffer that is kept
OPEN_SERVER, TAKE, STANDING, EMPTIED, DUMP, OBJECT = b"s", b"T", b"I", b"V", b"D", b"O"
ENTRIES, CLIENTS, HEAD, BORNE, TRIMMED = b"E", b"Q", b"H", b"P", b"F"


class NodeFailed(Exception):
    """The node can't be used any further: it is opened again from what is stored."""


class Damaged(Exception):
    """The journal isn't one of a server."""


class Reply(typing.NamedTuple):
    status: int
    told: bytes


class Written(typing.NamedTuple):
    """The place of the closed gate, and what the journal has from there on by what was asked since `emptied`: b"" where nothing was."""

    gate: int
    tail: bytes


@functools.cache
def library() -> Library:
    return Library()


class _Scratch(threading.local):
    """The buffers of a thread's calls: what they hold is copied out at once."""

    def __init__(self) -> None:
        self.replies, self.outbox, self.tail = Buffer(), Buffer(), Buffer()

    def give_back(self) -> None:
        """A large one isn't kept."""
        for buffer in (self.replies, self.outbox, self.tail):
            if buffer.room > KEPT_ROOM:
                library().free_buffer(ctypes.byref(buffer))


_scratch = _Scratch()


class Node:
    """One node. One thread calls it at a time."""

    def __init__(self) -> None:
        self._library = library()
        self._at: ctypes.c_void_p | None = ctypes.c_void_p()
        self._is_emptied = False  # which the node is told with the next requests
        if not self._library.new(ctypes.byref(self._at)):
            raise NodeFailed("no memory")

    def close(self) -> None:
        at, self._at = self._at, None
        if at:
            self._library.free(at)

    def open(self, journal: bytes) -> None:
        """Opens the server of a journal; b"" for a new one."""
        status, told = self.ask_all([OPEN_SERVER + journal])[0]
        if status == BAD_FILE:
            raise Damaged(f"no journal of a server, from byte {int.from_bytes(told, 'little')} on")
        if status != DONE:
            raise NodeFailed(f"open: {status}")

    def ask_all(self, requests: Sequence[bytes]) -> list[Reply]:
        """Hands requests over, one after the other."""
        first, self._is_emptied = int(self._is_emptied), False
        given = [EMPTIED, *requests] if first else requests
        packed = b"".join([part for request in given for part in (len(request).to_bytes(4, "little"), request)])
        replies = _scratch.replies
        answered = self._library.turns(self._library.turn, self._at, packed, len(packed), ctypes.byref(replies))
        told = replies.content()
        _scratch.give_back()
        if answered < len(given):
            raise NodeFailed("the node closed, or memory ran out")
        return _unpacked(told)[first:]

    def ask_into(self, room: ctypes.Array[ctypes.c_char], request: bytes) -> Reply:
        """Hands one request over whose reply has room there: by a single call, for what is asked of each message."""
        size = self._library.one_turn(self._at, request, len(request), room, len(room))
        told = ctypes.string_at(room, min(size, len(room)))
        if size > len(room) or not told or told[0] in (CLOSED, NO_MEMORY):
            raise NodeFailed("the node closed, memory ran out, or the reply has no room")
        return Reply(told[0], told[1:])

    def written(self) -> Written:
        gate = ctypes.c_uint64()
        outbox, tail = _scratch.outbox, _scratch.tail
        is_known = self._library.gather(self._library.turn, self._at, ctypes.byref(outbox), ctypes.byref(tail), ctypes.byref(gate))
        written = Written(gate.value, tail.content())
        _scratch.give_back()
        if not is_known:
            raise NodeFailed("no appends, or no memory")
        return written

    def emptied(self) -> None:
        """All that was written is stored. Until then `written` tells it again."""
        self._is_emptied = True


def length_of(standing: Reply) -> int:
    """How many entries the history has, by the reply to STANDING."""
    return int.from_bytes(standing.told[4:8], "little")


def uuids_of(clients: Reply) -> dict[int, bytes]:
    """Which uuid each ident is, by the reply to CLIENTS: behind the floor 28 bytes for each, from ident 1 on, of which the first 16 are it."""
    return {1 + at // 28: clients.told[4 + at : 20 + at] for at in range(0, len(clients.told) - 4, 28)}


def _unpacked(told: bytes) -> list[Reply]:
    replies, place = [], 0
    while place < len(told):
        end = place + 4 + int.from_bytes(told[place : place + 4], "little")
        replies.append(Reply(told[place + 4], told[place + 5 : end]))
        place = end
    return replies
