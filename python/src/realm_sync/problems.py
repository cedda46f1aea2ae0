"""Why sync stops, and what the application or its user can do."""

from __future__ import annotations

import dataclasses
from typing import Literal

# - "schema": the application's tables or columns differ from those of the history.
# - "retired": another client has taken this one's place.
# - "restored": this device's file was copied, or restored from a backup.
# - "trimmed": the server gave up the part of the history that this client needs next.
# - "other server": the server has another history than the one this client knows, or an older state of it.
# - "full": a limit of the history or of a transaction.
# - "damaged": a reply that can't be taken, twice.
# - "unauthorized": the server refuses this device or its token.
# - "storage": this device's disk is full, or failed. Sync tries again by itself.
Cause = Literal["schema", "retired", "restored", "trimmed", "other server", "full", "damaged", "unauthorized", "storage"]


@dataclasses.dataclass(frozen=True)
class Conflict:
    """A table or a column that is defined in two ways: of a table `column` is None."""

    table: str
    column: str | None
    declared: str
    found: str


@dataclasses.dataclass(frozen=True)
class Problem:
    """Why sync stopped."""

    cause: Cause
    text: str
    # Whether a new client can take over, with what is unsent here: `Database.recover`.
    is_recoverable: bool
    # Of a "schema": which definition differs, where it is known.
    conflict: Conflict | None = None
    # Of an "other server": the generation of its history, where it told one.
    generation: int | None = None

    @property
    def recovers_by_itself(self) -> bool:
        """Whether a new client takes over without being asked. What is to be done with another server's history, or with an application
        that declares another schema, nobody can know here."""
        return self.is_recoverable and self.cause in ("retired", "restored", "damaged")


BY_CODE: dict[int, tuple[Cause, bool]] = {
    1: ("schema", True),
    2: ("schema", True),
    4: ("full", False),
    60: ("other server", True),
    61: ("restored", True),
    62: ("restored", True),
    63: ("other server", True),
    64: ("full", False),
    65: ("full", False),
    68: ("retired", True),
    70: ("retired", True),
    71: ("trimmed", False),  # a new client would need it too
}
