#!/usr/bin/env python3
"""A shopping list in the terminal: it works offline, and agrees with every other device of the household.

usage: shopping.py FILE [URL]     URL is that of a history, wss://HOST/v1/histories/NAME, and REALM_TOKEN a token for it
"""

import os
import sys
from collections.abc import Sequence
from datetime import datetime, timezone
from uuid import UUID

from realm_sync import Counter, Database, Error, LostEdit, Transaction, table

HELP = "add TITLE | done N | more N | less N | tag N WORD | rename N TITLE | drop N | clear | list | recover | quit"


@table("items")
class Item:
    id: UUID
    title: str
    done: bool
    quantity: Counter
    tags: frozenset[str]
    created: datetime


def draw(items: Sequence[Item]) -> None:
    for place, it in enumerate(items, 1):
        print(f"{place:3} [{'x' if it.done else ' '}] {it.quantity} {it.title}", *(f"#{tag}" for tag in sorted(it.tags)), flush=True)


def edit(tx: Transaction, items: Sequence[Item], verb: str, words: list[str]) -> None:
    """One command of the user as the edits of a transaction."""
    if verb == "add":
        tx.create(Item, title=" ".join(words), quantity=1, created=datetime.now(timezone.utc))
        return
    for item in [it for it in items if it.done] if verb == "clear" else [items[int(words[0]) - 1]]:
        match verb:
            case "done":
                tx.update(Item, item.id, done=not item.done)
            case "more" | "less":
                tx.add(Item, item.id, "quantity", 1 if verb == "more" else -1)
            case "tag":
                tx.at(Item, item.id, "tags").add(words[1])
            case "rename":
                tx.update(Item, item.id, title=" ".join(words[1:]))
            case _:
                tx.erase(Item, item.id)


def tell_lost(lost: Sequence[LostEdit]) -> None:
    for it in lost:
        print(f"(your {it.column or 'item'} {it.mine or ''} isn't there any more: another device changed it)", flush=True)


def main(path: str, url: str | None = None) -> None:
    with Database(path, [Item], url, token=os.environ.get("REALM_TOKEN", "")) as db:
        (items := db[Item].sort("done", "created")).observe(draw)
        db.on_lost(tell_lost)
        db.on_recovered(lambda it: print(f"(set up anew: {it.saved} unsent changes were kept, {len(it.dropped)} edits weren't)"))
        db.observe_sync(lambda state: print(f"({state.status}: {state.text})") if state.text else None)
        for line in sys.stdin:
            verb, *words = line.split() or ["list"]
            try:
                if verb == "quit":
                    break
                if verb == "recover":
                    db.recover()
                elif verb in HELP.split() and verb != "list":
                    with db.write() as tx:
                        edit(tx, items.all(), verb, words)
                else:
                    draw(items.all()) if verb == "list" else print(HELP)
            except (Error, IndexError, ValueError) as why:
                print(f"({why})")


if __name__ == "__main__":
    sys.exit(__doc__) if len(sys.argv) not in (2, 3) else main(*sys.argv[1:])
