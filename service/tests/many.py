#!/usr/bin/python3
"""What many histories cost one worker, which it starts itself.

usage: many.py [--store files|sqlite|postgres] [--histories N] [--entries N] [--open-bytes N] [--most MEGABYTES]

Fills the histories, then asks for them in a drawn order, each opened on demand, and at last opens a socket to each. Status 1 where the
worker's resident memory was ever above --most."""

import argparse
import asyncio
import random
import sys
import time
import uuid

import aiohttp
from link import ended
from support import Service, authorized, stores  # (which says where the packages are)

from realm_sync import Client  # noqa: E402

TOGETHER = 20


class Many:
    def __init__(self, given):
        self.given = given
        limits = {"requests_per_second": 1e9, "user_connections": 100_000}
        histories = {"idle_seconds": 60.0, "open_bytes": given.open_bytes, "threads": 4}
        self.service = Service(stores(given.store), limits=limits, histories=histories).start().ready()
        self.headers = authorized("ann", {"*": "write"})
        self.most = self.service.memory()

    def url(self, number):
        return f"{self.service.base}/v1/histories/many-{number}"

    async def post(self, number, message):
        async with self.session.post(self.url(number), data=message, headers=self.headers) as answer:
            if answer.status != 200:
                raise RuntimeError(f"{answer.status} {await answer.text()}")
            return await answer.read()

    async def fill(self, number):
        """A history with so many entries, and a question for the end of it."""
        with Client() as client:
            client.born(uuid.uuid4())
            with client.transaction() as edits:
                edits.add_table("notes", "Int")
                edits.add_column("notes", "text", "Text")
            for key in range(self.given.entries - 1):
                with client.transaction() as edits:
                    edits.create("notes", key)
                    edits.update("notes", key, "text", f"note {key} of history {number}, with some words more")
            is_ended = False
            while not is_ended:
                message, before = client.next_message(), client.standing().cursor
                client.take(await self.post(number, message))
                is_ended = ended(client, message, before)
            return message

    async def all(self, what, action, numbers):
        """An action for each history, some at once; tells the time and the memory."""
        began, answers, numbers = time.monotonic(), [], list(numbers)
        for at in range(0, len(numbers), TOGETHER):
            answers += await asyncio.gather(*(action(it) for it in numbers[at : at + TOGETHER]))
            self.most = max(self.most, self.service.memory())
        seconds = time.monotonic() - began
        print(f"{what}: {seconds:.1f} s, {1e3 * seconds / len(numbers):.1f} ms each; {self.service.memory():.0f} MB now, {self.most:.0f} MB at most",
              flush=True)
        return answers

    async def run(self):
        count = self.given.histories
        print(f"the worker by itself: {self.most:.0f} MB", flush=True)
        async with aiohttp.ClientSession(connector=aiohttp.TCPConnector(limit=0)) as self.session:
            questions = await self.all(f"{count} histories filled with {self.given.entries} entries", self.fill, range(count))
            drawn = random.Random(1)
            for turn in range(2):
                opened = self.service.metric("realm_histories_opened_total")
                order = drawn.sample(range(count), count)
                await self.all("each asked for, in a drawn order", lambda it: self.post(it, questions[it]), order)
                print(f"    opened on demand: {self.service.metric('realm_histories_opened_total') - opened:.0f}")
            sockets = await self.all("a socket to each", lambda it: self.session.ws_connect(self.url(it), headers=self.headers), range(count))
            for it in sockets:
                await it.close()
        self.service.stop()
        return self.most <= self.given.most


def words():
    it = argparse.ArgumentParser(description=__doc__, formatter_class=argparse.RawDescriptionHelpFormatter)
    it.add_argument("--store", default="files")
    it.add_argument("--histories", type=int, default=1000)
    it.add_argument("--entries", type=int, default=200)
    it.add_argument("--open-bytes", type=int, default=32 << 20)
    it.add_argument("--most", type=float, default=100)
    return it


if __name__ == "__main__":
    sys.exit(0 if asyncio.run(Many(words().parse_args()).run()) else 1)
