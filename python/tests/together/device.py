"""device.py FILE URL NAME: adds its name, and waits until both names and the sum of both counters are there."""

import os
import sys
import threading

from realm_sync import Counter, Database, table


@table("names")
class Name:
    name: str


@table("sums")
class Sum:
    name: str
    count: Counter
    last: str


path, url, name = sys.argv[1:]
with Database(path, [Name, Sum], url, token=os.environ["REALM_TOKEN"]) as db:
    done = threading.Event()

    def look(_: object) -> None:
        found = db[Sum].get("all")
        if len(db[Name]) == 2 and found and found.count == 42:
            done.set()

    with db.write() as tx:
        tx.create(Name, name=name)
        tx.create(Sum, name="all")
        tx.add(Sum, "all", "count", 21)
    db[Name].observe(look)
    db[Sum].observe(look)
    if not done.wait(60):
        sys.exit("the other device never came")
    db.synced(10)
    print(*(it.name for it in db[Name].sort("name")))
