#!/usr/bin/env python3
"""Measures what a server's file takes to open, and in memory, by its clients and its entries.

One client makes ENTRIES transactions, each a new object and its number, and the server takes them. Then so many others get an ident, and ask
nothing, so that the server keeps a list of all entries for each of them. It prints the seconds of an opening (`serve` without an input, the
least of three), the most memory, and the bytes of memory an entry and client, since the row before of as many entries.

usage: bench/scaling.py [--save MACHINE] [CLIENTS:ENTRIES ..]        (1, 100 and 1,000 clients of 100,000 entries, where they are left out)

1,000 clients of 100,000 entries take some 4 GB.
"""
import os
import subprocess
import sys
import tempfile
import uuid

from openings import make, run, timed
from replay import BUILD
from results import keeper

PAIRS = ["1:100000", "100:100000", "1000:100000"]


def bind_frame(folder):
    """The frame with which a client asks for its ident, and the uuid in it."""
    path = os.path.join(folder, "bind")
    own = uuid.UUID(int=1 << 64)
    run("edit", path, given=b'{"uuid":"%s"}\n' % str(own).encode())
    return run("send", path), own.bytes


def main():
    keep = keeper(sys.argv)
    subprocess.run(BUILD, stdin=subprocess.DEVNULL, stdout=subprocess.DEVNULL, check=True)
    print("clients  entries  seconds       MB  bytes an entry and client")
    before = {}
    for pair in sys.argv[1:] or PAIRS:
        clients, entries = map(int, pair.split(":"))
        with tempfile.TemporaryDirectory() as folder:
            server, _ = make(folder, entries)
            frame, own = bind_frame(folder)
            run("serve", server, given=b"".join(frame.replace(own, uuid.UUID(int=(1 << 64) + it).bytes) for it in range(2, clients)))
            seconds, peak = timed("serve", server)
        each = ""
        if entries in before:
            fewer, less = before[entries]
            each = f"{(peak - less) / (clients - fewer) / entries:.1f}"
        before[entries] = clients, peak
        print(f"{clients:7d} {entries:8d} {seconds:8.3f} {peak / 1e6:8.1f}  {each:>25}", flush=True)
        keep(f"opening server, {clients} clients", entries, seconds, "s")
        keep(f"opening server, {clients} clients", entries, peak / 1e6, "MB")


if __name__ == "__main__":
    main()
