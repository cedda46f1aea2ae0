"""restored.py FILE URL: a device whose history was restored on the server keeps what it has unsent, in the new generation."""

import os
import sys

from realm_sync import Database, NeedsAttention, table


@table("names")
class Name:
    name: str


path, url = sys.argv[1:]
with Database(path, [Name]) as db:
    with db.write() as tx:
        tx.create(Name, name="unsent")
    db.start_sync(url, token=os.environ["REALM_TOKEN"])
    try:
        db.synced(30)
        sys.exit("the restored history was taken for the one before")
    except NeedsAttention as why:
        assert why.problem.cause == "other server" and why.problem.generation == 2, why
    recovery = db.recover()
    assert (recovery.saved, recovery.dropped) == (1, ()), recovery
    assert db.synced(30)
    print(*(it.name for it in db[Name].sort("name")))
