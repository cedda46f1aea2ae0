#!/usr/bin/python3
"""Clients that work, lose their connections, settle, and compare: load for a service at one or several URLs.

usage: load.py BASE[,BASE..] [--clients N] [--histories N] [--seconds S | --until-eof] [--commits N] [--think S] [--processes N]
               [--patience S] [--secret FILE] [--light]

With --light the clients only speak (light.py), and of the end the counter and the entries are checked. Each client commits (an addition to one counter of all, a text of its own, an element of one list of all), syncs, thinks, and begins again.
In the end each history is checked: every client has all transactions that anybody made, nothing unsent and the exact counter; all dumps are
equal, and equal to the server's; and its entries have each client's numbers once and in order. Prints what was seen; status 1 where it
isn't so."""

import argparse
import asyncio
import collections
import contextlib
import dataclasses
import hashlib
import json
import logging
import multiprocessing
import random
import signal
import sys
import time

import aiohttp
import support
from devices import Device
from link import LOST, Link


KINDS = {1: "bind", 3: "upload", 4: "ask", 8: "ask"}
GAP = 0.25  # seconds without a reply in a history, from which on they are told


@dataclasses.dataclass
class Seen:
    """What the clients of one process saw."""

    replies: dict = dataclasses.field(default_factory=lambda: collections.defaultdict(list))
    gaps: list = dataclasses.field(default_factory=list)
    counts: collections.Counter = dataclasses.field(default_factory=collections.Counter)
    last: dict = dataclasses.field(default_factory=dict)

    def replied(self, history, tag, seconds):
        now = time.monotonic()
        gap = now - self.last.get(history, now)
        self.last[history] = now
        self.replies[KINDS.get(tag, "other")].append(seconds)
        if gap > GAP:
            self.gaps.append(gap)


class MeasuredLink(Link):
    """A link that connects to any of the bases, tries again soon, and tells what it saw."""

    longest_pause = 0.3

    def __init__(self, seen, bases, *given):
        super().__init__(*given)
        self.seen, self.bases = seen, bases

    async def _connected(self):
        if self.socket is None or self.socket.closed:
            self.base = random.choice(self.bases)
        try:
            return await asyncio.wait_for(super()._connected(), self.patience)
        except LOST:
            self.seen.counts["not connected"] += 1
            raise

    async def send(self, message):
        began = time.monotonic()
        try:
            reply = await super().send(message)
        except LOST:
            code = self.socket.close_code if self.socket is not None else None
            self.seen.counts[f"closed {code}" if code else "lost"] += 1
            raise
        self.seen.replied(self.history, message[0], time.monotonic() - began)
        return reply


class Process:
    """The clients of one process, that a parent tells when to begin and to end."""

    def __init__(self, given, numbers, pipe):
        self.given, self.numbers, self.pipe = given, numbers, pipe
        self.seen = Seen()

    async def run(self):
        devices = [self.device(number) for number in self.numbers]
        for it in devices:
            await it.__aenter__()
        await self.all(devices, lambda it: it.sync())
        self.seen = Seen()
        for it in devices:
            it.link.seen = self.seen
        await self.told()
        began, ended = time.monotonic(), asyncio.ensure_future(self.told())
        await self.all(devices, lambda it: self.work(it, ended), len(devices))
        seconds = time.monotonic() - began
        for _ in range(2):
            await self.settle(devices)
            await self.told()
        seen = (dict(self.seen.replies), self.seen.gaps, dict(self.seen.counts), seconds)
        self.pipe.send((seen, [self.result(it) for it in devices]))
        for it in devices:
            await it.__aexit__(None, None, None)

    async def settle(self, devices):
        await self.all(devices, lambda it: it.sync())

    async def think(self):
        if self.given.think:
            await asyncio.sleep(random.uniform(0.5, 1.5) * self.given.think)

    async def told(self):
        """Tells the parent that this process is ready, and waits for its word."""
        self.pipe.send(None)
        await asyncio.to_thread(self.pipe.recv)

    @staticmethod
    async def all(devices, action, most=50):
        """An action of every device, so many at once."""
        gate = asyncio.Semaphore(most)

        async def one(device):
            async with gate:
                await action(device)

        await asyncio.gather(*(one(it) for it in devices))

    def device(self, number):
        history = f"{self.given.prefix}-{number % self.given.histories}"
        made = Device(self.given.bases[0], history, f"user-{number}", token=self.token(number, history))
        made.number = number
        made.link = MeasuredLink(self.seen, self.given.bases, made.client, self.given.bases[0], history, made.link.token, 1, self.given.patience)
        with made.client.transaction() as edits:
            edits.create("notes", f"of {number}")
        return made

    def token(self, number, history):
        return support.Tokens(self.given.secret).made(f"user-{number}", {history: "write"}, 86400)

    async def work(self, device, ended):
        turn = 0
        while not ended.done():
            await self.think()
            for _ in range(self.given.commits):
                turn += 1
                with device.client.transaction() as edits:
                    edits.add("notes", "all", "count", 1)
                    edits.update("notes", f"of {device.number}", "text", f"turn {turn}")
                    if turn % 3 == 0:
                        edits.append("notes", "all", "lines", f"{device.number}/{turn}")
                device.made += 1
            await device.sync()

    @staticmethod
    def result(device):
        standing = device.client.standing()
        return {"history": device.link.history, "made": device.made, "setup": standing.last - device.made, "count": device.count(),
                "cursor": standing.cursor, "unsent": standing.unsent, "ident": standing.ident, "last": standing.last,
                "dump": digest(device.dump())}


def digest(lines):
    return hashlib.sha256(json.dumps(lines, sort_keys=True).encode()).hexdigest()


def child(given, numbers, pipe):
    signal.signal(signal.SIGTERM, signal.SIG_DFL)
    logging.getLogger("asyncio").setLevel(logging.CRITICAL)  # (it tells each ping that finds its connection closed)
    with contextlib.suppress(ImportError):
        import uvloop

        uvloop.install()
    if given.light:
        from light import LightProcess as kind
    else:
        kind = Process
    asyncio.run(kind(given, numbers, pipe).run())


class Load:
    """All processes."""

    def __init__(self, given):
        self.given = given
        context = multiprocessing.get_context("spawn")
        self.pipes, self.children = [], []
        for part in range(given.processes):
            # the clients of a history are together, so that its gaps are those of all of them
            key = (lambda n: n % given.histories) if given.histories >= given.processes else (lambda n: n)
            numbers = [it for it in range(given.clients) if key(it) % given.processes == part]
            ours, theirs = context.Pipe()
            made = context.Process(target=child, args=(given, numbers, theirs), daemon=True)  # ends where this one is told to
            made.start()
            theirs.close()
            self.pipes.append(ours)
            self.children.append(made)

    def wait(self):
        """Until every process is ready. Raises EOFError where one ended."""
        return [pipe.recv() for pipe in self.pipes]

    def tell(self):
        for pipe in self.pipes:
            pipe.send(None)

    def run(self):
        """What was seen, and each client's end."""
        self.wait()
        self.tell()
        self.wait()
        print("begun", flush=True)
        if self.given.until_eof:
            sys.stdin.read()
        else:
            time.sleep(self.given.seconds)
        self.tell()
        for _ in range(2):
            self.wait()
            self.tell()
        parts = self.wait()
        for it in self.children:
            it.join()
        return [it[0] for it in parts], [result for it in parts for result in it[1]]


def faults_of(history, results, dump, entries):
    """What isn't as it should be in one history."""
    made, length = sum(it["made"] for it in results), sum(it["last"] for it in results)
    bad = []
    counted = [it["cells"]["count"] for it in dump if it.get("key") == "all"]
    if counted != [made]:
        bad.append(f"the server's counter is {counted} in place of {made}")
    if any(it["dump"] not in (None, digest(dump)) for it in results):
        bad.append("dumps differ")
    for what, want in (("cursor", length), ("unsent", 0), ("count", made)):
        if any(it[what] not in (None, want) for it in results):
            bad.append(f"{what} {sorted({it[what] for it in results})} in place of {want}")
    by_ident = collections.defaultdict(list)
    for it in entries:
        by_ident[it["ident"]].append(it["number"])
    if dict(by_ident) != {it["ident"]: list(range(1, it["last"] + 1)) for it in results}:
        bad.append("the entries aren't each client's numbers, once and in order")
    return [f"{history}: {it}" for it in bad]


async def compared(given, results):
    by_history = collections.defaultdict(list)
    for it in results:
        by_history[it["history"]].append(it)
    bad = []
    async with aiohttp.ClientSession() as session:
        for history, its in by_history.items():
            headers = {"Authorization": "Bearer " + support.Tokens(given.secret).made("reader", {history: "read"}, 600)}
            told = []
            for path in ("objects", "entries"):
                async with session.get(f"{given.bases[-1]}/v1/histories/{history}/{path}", headers=headers) as answer:
                    text = await answer.text()
                    told.append([json.loads(line) for line in text.splitlines()] if answer.status == 200 else [])
            bad += faults_of(history, its, *told)
    return bad


def spread(seconds):
    ordered = sorted(seconds)
    at = [1e3 * ordered[int(part * (len(ordered) - 1))] for part in (0.5, 0.9, 0.99, 1)]
    return f"{len(ordered)} p50 {at[0]:.1f} p90 {at[1]:.1f} p99 {at[2]:.1f} max {at[3]:.1f} ms"


def tell(given, seen, results, bad):
    seconds = max(it[3] for it in seen)
    replies, counts = collections.defaultdict(list), collections.Counter()
    for it in seen:
        counts.update(it[2])
        for kind, values in it[0].items():
            replies[kind] += values
    gaps = sorted(gap for it in seen for gap in it[1])
    messages, changes = sum(map(len, replies.values())), sum(it["made"] for it in results)
    print(f"{given.clients} clients, {given.histories} histories, {seconds:.1f} s: {messages / seconds:.0f} messages/s, {changes / seconds:.0f} changes/s")
    for kind, values in sorted(replies.items()):
        print(f"    {kind}: {spread(values)}")
    if gaps:
        print(f"    {len(gaps)} times no reply in a history for more than {GAP} s: p50 {gaps[len(gaps) // 2]:.2f}, max {gaps[-1]:.2f} s")
    print(f"    {changes} changes; {', '.join(f'{kind} {count}' for kind, count in sorted(counts.items())) or 'no connection lost'}")
    if bad:
        print(f"    BAD: {len(bad)} faults", *bad[:10], sep="\n        ")
    elif given.light:
        print("    the server has all: counters exact, entries once and in order", flush=True)
    else:
        print("    all agree: dumps equal to the server's, counters exact, entries once and in order, nothing unsent", flush=True)


def words():
    it = argparse.ArgumentParser(description=__doc__, formatter_class=argparse.RawDescriptionHelpFormatter)
    it.add_argument("bases", type=lambda text: text.split(","))
    it.add_argument("--clients", type=int, default=60)
    it.add_argument("--histories", type=int, default=12)
    it.add_argument("--seconds", type=float, default=10)
    it.add_argument("--until-eof", action="store_true", help="work until standard input ends")
    it.add_argument("--commits", type=int, default=1)
    it.add_argument("--think", type=float, default=0.1)
    it.add_argument("--processes", type=int, default=2)
    it.add_argument("--patience", type=float, default=10)
    it.add_argument("--secret")
    it.add_argument("--light", action="store_true", help="clients that only speak")
    return it


def main():
    given = words().parse_args()
    given.prefix = f"load-{random.randrange(1 << 32):x}"
    if given.secret:
        with open(given.secret, encoding="utf-8") as file:
            given.secret = file.read().strip()
    else:
        given.secret = support.SECRET
    seen, results = Load(given).run()
    bad = asyncio.run(compared(given, results))
    tell(given, seen, results, bad)
    sys.exit(1 if bad else 0)


if __name__ == "__main__":
    main()
