"""What a store of histories answers. `files.Files`, `sqlite.Sqlite` and `postgres.Postgres` are three."""

import dataclasses
import typing
from collections.abc import Callable, Sequence


class Elsewhere(Exception):
    """Another owner holds the history: `address` is where it listens, or None where only one process may use the store."""

    def __init__(self, address: str | None, owner: object):
        super().__init__(f"another worker has it: {address}" if address else "another process has it")
        self.address, self.owner = address, owner


class Fenced(Exception):
    """The history has another owner since: what wasn't stored of it is void."""


class Absent(Exception):
    """There is no such history."""


class StoreDown(Exception):
    """The store can't be reached, or refused a write: what was to be stored may be there or not."""


@dataclasses.dataclass
class Lease:
    """This owner's right to append to a history. `length` is the place of the closed gate, where the next append begins: the bytes of
    the journal without the closed gate at their end. `volume` rises whenever the journal is replaced by a shorter one, `generation`
    whenever an operator says that the history was restored."""

    name: str
    id: int = 0
    epoch: int = 0
    volume: int = 0
    length: int = 0
    generation: int = 1
    lapses: int = 0
    file: int = -1


class Device(typing.NamedTuple):
    """Whose a uuid is, and in which generation it was bound."""

    user: str
    generation: int


class Stored(typing.NamedTuple):
    """The bytes of a history's journal, as a node opens them, and its devices by their uuids."""

    journal: bytes
    devices: dict[bytes, Device]


Claims = Sequence[tuple[bytes, str]]  # uuids and the users that bind them first
OnLapse = Callable[[set[tuple[int, int]]], None]  # told the ids and epochs that are still this owner's


class Store(typing.Protocol):
    """One owner's way to its histories. Each call but `start` and `stop` may raise StoreDown; each that has a lease may raise Fenced,
    and has then changed nothing."""

    id: object  # tells this owner from another one that listens at its address

    def on_lapse(self, told: OnLapse) -> None:
        """Tells from now on, whenever this owner's lease had ended, what is still its own."""

    async def start(self, address: str) -> None: ...

    async def stop(self) -> None: ...

    async def ready(self) -> bool:
        """Whether it takes work now."""

    async def names(self) -> list[str]:
        """All histories, in order."""

    async def acquire(self, name: str, create: bool, suspect: object = None) -> Lease:
        """Takes a history that nobody holds, or that `suspect` holds; raises Elsewhere or Absent. With `create` it is made where it isn't
        there."""

    async def read(self, lease: Lease) -> Stored:
        """What is stored of it. Brings the lease up to date."""

    async def append(self, lease: Lease, gate: int, tail: bytes, claims: Claims) -> None:
        """Stores all of this or nothing: what the journal has from the closed gate on, and the users of new devices."""

    async def check(self, lease: Lease) -> None:
        """Raises Fenced where another owner may have appended."""

    async def replace(self, lease: Lease, journal: bytes) -> None:
        """Puts a shorter journal, which ends with its closed gate, in place of the old one: all of it or nothing, and only if nothing was
        appended since the lease was brought up to date."""

    async def raise_generation(self, lease: Lease) -> None:
        """Says that the history was restored: the lease has the new generation."""

    async def release(self, lease: Lease) -> None:
        """Gives the history back, so that anyone may take it at once."""

    async def remove(self, lease: Lease) -> None:
        """Removes the history, if nothing was appended since it was read."""
