"""An offline-first object database.

    @table("notes")
    class Note:
        id: UUID
        text: str
        read: Counter

    with Database("notes.realm", [Note], "https://example.org/v1/histories/notes", token=token) as db:
        with db.write() as tx:
            key = tx.create(Note, text="buy milk")
        with db.write() as tx:
            tx.add(Note, key, "read", 1)
        stop = db[Note].where(text="buy milk").observe(lambda notes: print(len(notes)))
        db.synced(timeout=10)
"""

from .checks import BadEdit
from .database import Database, LostEdit
from .door import Standing
from .errors import (
    BadFile, BadRequest, BrokenEdit, Busy, Closed, Endless, Error, InvalidValue, NeedsAttention, NotShrunk, OtherProcess, OutOfMemory, Outdated, Reason,
    Refused, SchemaConflict, StorageFailed, StorageFull, Unauthorized, WrongKey,
)  # fmt: skip
from .node import Client, Edits, Server, kept_ends
from .problems import Conflict, Problem
from .query import Query, RowChange, Table
from .recovery import Dropped, Recovery
from .schema import Counter, SchemaError, link, table
from .storage import delete_database
from .sync import SyncOptions, SyncState
from .transaction import Transaction
from .transports import CallTransport, HttpTransport, TokenSource, Transport, WebSocketTransport

__all__ = [
    "BadEdit", "BadFile", "BadRequest", "BrokenEdit", "Busy", "CallTransport", "Client", "Closed", "Conflict", "Counter", "Database", "Dropped",
    "Edits", "Endless", "Error", "HttpTransport", "InvalidValue", "LostEdit", "NeedsAttention", "NotShrunk", "OtherProcess", "OutOfMemory", "Outdated",
    "Problem", "Query", "Reason", "Recovery", "Refused", "RowChange", "SchemaConflict", "SchemaError", "Server", "Standing",
    "StorageFailed", "StorageFull", "SyncOptions", "SyncState", "Table", "TokenSource", "Transaction", "Transport", "Unauthorized",
    "WebSocketTransport", "WrongKey", "delete_database", "kept_ends", "link", "table",
]  # fmt: skip
