"""sealed.py write|read FILE: an encrypted database, or one that the package for JavaScript encrypted."""

import sys

from realm_sync import Database, table


@table("notes")
class Note:
    id: int
    text: str


what, path = sys.argv[1:]
with Database(path, [Note], key=bytes(range(32))) as db:
    for number in (1, 2, 3) if what == "write" else ():
        with db.write() as tx:
            tx.create(Note, id=number, text=f"note {number}")
    assert [it.text for it in db[Note]] == ["note 1", "note 2", "note 3"]
if what == "read":
    print("what JavaScript encrypted, Python reads")
