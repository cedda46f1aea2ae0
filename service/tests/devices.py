"""Devices for the tests: a client of the library, linked to a service, that works on notes as an application would."""

import uuid

import support  # noqa: F401  (where the packages are)
from realm_sync import Client

from link import Link


def new_client(path=None):
    """A client with its uuid, and the table that all make alike."""
    client = Client(path)
    client.uuid = uuid.uuid4()
    client.born(client.uuid)
    with client.transaction() as edits:
        edits.add_table("notes", "Text")
        edits.add_column("notes", "text", "Text")
        edits.add_column("notes", "count", "Int")
        edits.add_column("notes", "lines", "Text", shape="List")
        edits.create("notes", "all")
    return client


class Device:
    """A client and its link: in an `async with`."""

    def __init__(self, base, history, user="ann", level="write", generation=1, client=None, patience=10, token=None):
        self.client = client or new_client()
        self.link = Link(self.client, base, history, token or support.token(user, {history: level}), generation, patience)
        self.made = 0

    async def __aenter__(self):
        await self.link.__aenter__()
        return self

    async def __aexit__(self, *ends):
        await self.link.__aexit__(*ends)

    def note(self, key, text):
        with self.client.transaction() as edits:
            edits.create("notes", key)
            edits.update("notes", key, "text", text)
            edits.add("notes", "all", "count", 1)
        self.made += 1

    async def sync(self):
        await self.link.sync()
        return self

    def texts(self):
        return {it["key"]: it["cells"]["text"] for it in self.client.objects("notes")}

    def count(self):
        return self.client.object("notes", "all")["cells"]["count"]

    def dump(self):
        return list(self.client.lines())
