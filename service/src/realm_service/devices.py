"""Who says a message, and whether they may: docs/EMBEDDING.md, "Over a network"."""

import dataclasses

from .heads import ASK_TABLES, BIND, RETIRE, UPLOAD, Head
from .stores import Device


class Forbidden(Exception):
    """The message isn't this caller's to send."""


class Outdated(Exception):
    """The history was restored since: who holds to an older generation begins anew."""

    def __init__(self, theirs: int, ours: int):
        super().__init__(f"the device is of generation {theirs}, the history was restored and is of generation {ours}: begin a new file")
        self.ours = ours


class TooMuch(Exception):
    """A message that would be at work too long."""


@dataclasses.dataclass(frozen=True)
class Caller:
    """A user, and what it may do with one history. `device` is the one uuid that its token names, or None for all of its own; `tables` are
    those that it may see, or None for all."""

    user: str
    writes: bool
    rules: bool = False  # may retire any device, and trim
    device: bytes | None = None
    tables: frozenset[str] | None = None


class Devices:
    """The devices of a history: whose each uuid is, and which uuid each ident is."""

    def __init__(self, known: dict[bytes, Device], generation: int, most: int):
        self.known, self.generation = dict(known), generation
        self.most = most  # of one user: each ident costs the server memory
        self.uuids: dict[int, bytes] = {}  # by ident, as the node says

    def bound(self, uuid: bytes, user: str) -> None:
        self.known[uuid] = Device(user, self.generation)

    def admit(self, caller: Caller, head: Head) -> bytes | None:
        """Lets a message through, or raises. Answers the uuid that becomes this user's by it, else None."""
        if head.tag == BIND:
            return self._bind(caller, head.uuid)
        self._own(caller, self.uuids.get(head.speaker), "the ident is another one's")
        if head.tag in (UPLOAD, RETIRE) and not caller.writes:
            raise Forbidden("the user may only read")
        if head.tag == RETIRE and not caller.rules:
            retired = self.known.get(self.uuids.get(head.ident, b""))
            if retired is None or retired.user != caller.user:
                raise Forbidden("the device to retire is another one's")
        if caller.tables is not None and head.tag not in (UPLOAD, RETIRE):
            if head.tag != ASK_TABLES or not head.tables <= caller.tables:
                raise Forbidden("the token is for some tables alone: subscribe to " + ", ".join(sorted(caller.tables)))
        return None

    def _bind(self, caller: Caller, uuid: bytes) -> bytes | None:
        if uuid in self.known or caller.device not in (None, uuid):
            self._own(caller, uuid, "the device is another one's")
            return None
        if sum(it.user == caller.user for it in self.known.values()) >= self.most:
            raise Forbidden(f"the user has {self.most} devices, and no more are allowed")
        return uuid

    def _own(self, caller: Caller, uuid: bytes | None, why: str) -> None:
        device = self.known.get(uuid) if uuid is not None else None
        if device is None or device.user != caller.user or caller.device not in (None, uuid):
            raise Forbidden(why)
        if device.generation != self.generation:
            raise Outdated(device.generation, self.generation)
