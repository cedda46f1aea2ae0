#!/usr/bin/python3
"""How many messages a second workers answer that it starts itself, what of the processor that takes, and the same by a bare loop.

usage: bench.py [STORE:WORKERS ..] [--clients N] [--histories N] [--seconds S] [--commits N] [--processes N] [--think S] [--light] [--profile]

STORE:WORKERS is files:1, sqlite:1, postgres:1, postgres:2 and so on. bare:1 hands the messages of one client to a node without a service
and a store, one after the other, as each change of a client sends them: an Upload and two questions. echo:1 is a server over the same
library of sockets that sends back what it gets, and nothing else. --profile tells what part of the workers' own time each library took: it
makes them slower, and Python's part greater than it is."""

import argparse
import asyncio
import collections
import os
import pstats
import subprocess
import sys
import time
import uuid

import aiohttp
from aiohttp import web
from devices import new_client
from link import ended
from support import Service, free_port, processor, stores

from realm_service.node import TAKE, Node

HERE = os.path.dirname(os.path.abspath(__file__))
LIMITS = {"requests_per_second": 1e9, "user_connections": 100_000}


def bare(seconds):
    """What the library takes for such messages, the outbox gathered behind each."""
    node, client = Node(), new_client()
    node.open(b"")
    messages = spent = 0
    began = time.monotonic()
    while time.monotonic() - began < seconds:
        with client.transaction() as edits:
            edits.add("notes", "all", "count", 1)
            edits.update("notes", "all", "text", str(uuid.uuid4()))
        is_new = True
        while is_new:
            message, before = client.next_message(), client.standing().cursor
            at = time.thread_time()
            status, reply = node.ask_all([TAKE + message])[0]
            node.written()
            node.emptied()
            spent += time.thread_time() - at
            assert status == 0
            client.take(reply)
            messages += 1
            is_new = not ended(client, message, before)
    print(f"bare: {1e6 * spent / messages:.0f} us of processor a message", flush=True)
    node.close()


async def echo(request):
    socket = web.WebSocketResponse(compress=False)
    await socket.prepare(request)
    async for message in socket:
        await socket.send_bytes(message.data)
    return socket


def echo_server(port):
    import uvloop

    uvloop.install()
    app = web.Application()
    app.router.add_get("/", echo)
    web.run_app(app, host="127.0.0.1", port=int(port), print=None, access_log=None)


async def echoed(url, seconds, clients):
    """How many messages came back."""
    count, ends = 0, time.monotonic() + seconds

    async def ask(session):
        nonlocal count
        async with session.ws_connect(url) as socket:
            while time.monotonic() < ends:
                await socket.send_bytes(b"a message of some forty bytes, as of a question")
                await socket.receive()
                count += 1

    async with aiohttp.ClientSession(connector=aiohttp.TCPConnector(limit=0)) as session:
        await asyncio.gather(*(ask(session) for _ in range(clients)))
    return count


def echoing(seconds, clients):
    port = free_port()
    process = subprocess.Popen([sys.executable, os.path.abspath(__file__), "--echo-server", str(port)])
    try:
        time.sleep(2)
        before = processor(process.pid)
        count = asyncio.run(echoed(f"http://127.0.0.1:{port}/", seconds, clients))
        print(f"echo: {1e6 * (processor(process.pid) - before) / count:.0f} us of processor a message", flush=True)
    finally:
        process.kill()
        process.wait()


PARTS = (("realm_service/node.py", "the node and the way to it"), ("realm_service/stores", "the store"), ("asyncpg", "asyncpg"), ("uvloop", "uvloop"),
         ("prometheus", "metrics"), ("aiohttp", "aiohttp"), ("realm_service/heads.py", "heads of messages"),
         ("realm_service/limits.py", "limits"), ("realm_service/history.py", "batches"), ("realm_service", "the rest of the service"))


def part_of(file, function):
    return next((part for name, part in PARTS if name in file + function), "Python's library")


def parts_of(paths):
    """What part of the loops' processor time each part took; what is built in counts for its caller."""
    taken = collections.Counter()
    for path in paths:
        for (file, _, function), (_, _, own, _, callers) in pstats.Stats(path).stats.items():
            if file == "~" and "uvloop" not in function:
                for (caller, _, called), (_, _, for_it, _) in callers.items():
                    taken[part_of(caller, called)] += for_it
            else:
                taken[part_of(file, function)] += own
    whole = sum(taken.values())
    return ", ".join(f"{part} {100 * own / whole:.0f} %" for part, own in taken.most_common())


def served(store, count, words, is_profiled):
    given = stores(store)
    workers = [Service(given, limits=LIMITS, histories={"idle_seconds": 30.0}) for _ in range(count)]
    for it in workers:
        it.start(*[(os.path.join(HERE, "profiled.py"), it.profile)] if is_profiled else ())
    for it in workers:
        it.ready()
    before = [processor(it.process.pid) for it in workers]
    bases = ",".join(it.base for it in workers)
    done = subprocess.run([sys.executable, os.path.join(HERE, "load.py"), bases, *words], stdout=subprocess.PIPE, text=True, check=False)
    spent = sum(processor(it.process.pid) - then for it, then in zip(workers, before))

    def metric(name):
        return sum(it.metric(name) for it in workers)

    messages = metric("realm_messages_total")
    print(f"{store}:{count}: " + done.stdout.removeprefix("begun\n").rstrip())
    print(f"    {1e6 * spent / messages:.0f} us of processor a message; {messages:.0f} messages in"
          f" {metric('realm_turns_seconds_count'):.0f} batches, {metric('realm_store_seconds_count'):.0f} appends of"
          f" {1e3 * metric('realm_store_seconds_sum') / metric('realm_store_seconds_count'):.1f} ms, {metric('realm_relayed_total'):.0f} sockets passed on")
    for it in workers:
        it.stop()
    if is_profiled:
        print("    " + parts_of(it.profile for it in workers), flush=True)
    return done.returncode


def main():
    words = argparse.ArgumentParser(description=__doc__, formatter_class=argparse.RawDescriptionHelpFormatter)
    words.add_argument("stores", nargs="*", default=["bare:1", "echo:1", "files:1", "sqlite:1", "postgres:1", "postgres:2"])
    words.add_argument("--echo-server", help=argparse.SUPPRESS)
    words.add_argument("--light", action="store_true", help="clients that only speak: light.py")
    words.add_argument("--profile", action="store_true")
    for name, value in (("clients", 200), ("histories", 100), ("seconds", 10), ("commits", 1), ("processes", 2), ("think", 0)):
        words.add_argument(f"--{name}", default=str(value))
    given = words.parse_args()
    if given.echo_server:
        return echo_server(given.echo_server)
    passed = [word for name in ("clients", "histories", "seconds", "commits", "processes", "think") for word in (f"--{name}", getattr(given, name))]
    passed += ["--light"] if given.light else []
    failed = 0
    for it in given.stores:
        store, _, count = it.partition(":")
        if store == "bare":
            bare(float(given.seconds))
        elif store == "echo":
            echoing(float(given.seconds), int(given.clients))
        else:
            failed |= served(store, int(count or 1), passed, given.profile)
    return failed


if __name__ == "__main__":
    sys.exit(main())
