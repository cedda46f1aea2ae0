#!/usr/bin/python3
"""One message that is at work for long, beside small ones, at a worker that it starts itself.

usage: heavy.py [--store files|sqlite|postgres] [--changes N]

Two clients insert into one list at drawn places, N times each, without knowing of each other. While the second one's Upload is merged,
questions go to another history, and to the same one. Then the same Upload meets a limit of [histories] merge_pairs."""

import argparse
import asyncio
import random
import sys
import time
import uuid

import aiohttp
from link import ended
from support import Service, authorized, stores  # (which says where the packages are)

from realm_sync import Client  # noqa: E402


def made(drawn, changes, table):
    client = Client()
    client.born(uuid.uuid4())
    if table:
        with client.transaction() as edits:
            edits.add_table("t", "Int")
            edits.add_column("t", "list", "Text", shape="List")
            edits.add_column("t", "text", "Text")
            edits.create("t", 1)
    client.drawn, client.changes = drawn, changes
    return client


def insert(client, name):
    for length in range(client.changes):
        place = client.drawn.randrange(length + 1)
        client.commit([{"op": "ListInsert", "table": "t", "key": 1, "column": "list", "place": place, "prior": length, "value": name},
                       {"op": "Update", "table": "t", "key": 1, "column": "text", "value": name}])


class Heavy:
    def __init__(self, given, pairs):
        self.given = given
        limits = {"requests_per_second": 1e9, "message_seconds": 300.0}
        self.service = Service(stores(given.store), limits=limits, histories={"merge_pairs": pairs}).start().ready()
        self.headers = authorized("ann", {"*": "write"})
        self.longest = 0.0  # seconds of one message

    async def post(self, history, message):
        began = time.monotonic()
        async with self.session.post(f"{self.service.base}/v1/histories/{history}", data=message, headers=self.headers) as answer:
            reply = await answer.read()
            self.longest = max(self.longest, time.monotonic() - began)
            return answer.status, reply

    async def sync(self, client, history):
        is_ended = False
        while not is_ended:
            message, before = client.next_message(), client.standing().cursor
            status, reply = await self.post(history, message)
            if status != 200:
                return status, reply
            await asyncio.to_thread(client.take, reply)  # (which merges too, and would hold up the questions below)
            is_ended = ended(client, message, before)
        return 200, b""

    async def questions(self, history, client, ended):
        """How long questions take until the end."""
        message, took = client.next_message(), []
        while not ended.is_set():
            began = time.monotonic()
            await self.post(history, message)
            took.append(time.monotonic() - began)
            await asyncio.sleep(0.005)
        return took

    async def run(self):
        drawn = random.Random(1)
        async with aiohttp.ClientSession() as self.session:
            first, second, other = (made(drawn, self.given.changes, it) for it in (True, False, True))
            for client, history in ((first, "heavy"), (second, "heavy"), (other, "small")):
                await self.sync(client, history)
            for client, name in ((first, "a"), (second, "b")):
                insert(client, name)
            await self.sync(first, "heavy")
            before = await self.beside(other, asyncio.sleep(2))
            during = await self.beside(other, self.sync(second, "heavy"))
            for what, (seconds, took, ended) in (("before", before), ("meanwhile", during)):
                took.sort()
                shown = [f"{1e3 * took[int(part * (len(took) - 1))]:.1f}" for part in (0.5, 0.99, 1)]
                print(f"{what}, {seconds:.1f} s: {len(took)} questions to another history, p50 {shown[0]} p99 {shown[1]} max {shown[2]} ms")
            each = 1e6 * self.longest / self.given.changes**2
            taken = f"taken in {self.longest:.1f} s, {each:.1f} us for each change and entry that it meets"
            print(f"the Upload of {self.given.changes} insertions that meet {self.given.changes}: {ended or taken}")
        self.service.stop()

    async def beside(self, other, action):
        ended, began = asyncio.Event(), time.monotonic()
        asking = asyncio.create_task(self.questions("small", other, ended))
        result = await action
        ended.set()
        return time.monotonic() - began, await asking, None if result in (None, (200, b"")) else f"refused, {result[0]} {result[1].decode().strip()}"


def main():
    words = argparse.ArgumentParser(description=__doc__, formatter_class=argparse.RawDescriptionHelpFormatter)
    words.add_argument("--store", default="files")
    words.add_argument("--changes", type=int, default=3000)
    given = words.parse_args()
    for pairs in (1 << 40, given.changes * given.changes // 2):
        asyncio.run(Heavy(given, pairs).run())


if __name__ == "__main__":
    sys.exit(main())
