#!/usr/bin/env python3
"""A device over a file: adds a note for each further word, syncs with the service, and prints all notes.

usage: service/example.py FILE [NOTE..]
       service/example.py FILE --follow        prints the notes whenever they change

REALM_TOKEN is the token that ./realm_service prints, REALM_URL the service (http://127.0.0.1:8480), REALM_HISTORY the history (notes). It
stands on the Python package, and takes the C library that ./realm_service built, unless REALM_SYNC_LIBRARY names another one."""

import os
import signal
import sys
from collections.abc import Sequence
from uuid import UUID

TOP = os.path.dirname(os.path.dirname(os.path.abspath(__file__)))
BUILT = os.path.join(TOP, "out", "librealm_sync.so")
sys.path.insert(0, os.path.join(TOP, "python", "src"))
if os.path.exists(BUILT):
    os.environ.setdefault("REALM_SYNC_LIBRARY", BUILT)

from realm_sync import Database, table  # noqa: E402


@table("notes")
class Note:
    """What all devices share."""

    id: UUID
    text: str


def show(notes: Sequence[Note]) -> None:
    for note in notes:
        print(note.text, flush=True)


def main(path: str, notes: list[str]) -> None:
    url, history = os.environ.get("REALM_URL", "http://127.0.0.1:8480"), os.environ.get("REALM_HISTORY", "notes")
    with Database(path, [Note], f"{url}/v1/histories/{history}", token=os.environ["REALM_TOKEN"]) as db:
        ordered = db[Note].sort("text")
        if notes == ["--follow"]:
            ordered.observe(show)  # at once, and after each change
            signal.pause()
        for text in notes:
            with db.write() as tx:
                tx.create(Note, text=text)
        db.synced()
        show(ordered.all())


if __name__ == "__main__":
    if len(sys.argv) < 2 or "REALM_TOKEN" not in os.environ:
        sys.exit(__doc__)
    main(sys.argv[1], sys.argv[2:])
