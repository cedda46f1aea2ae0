#!/usr/bin/env python3
"""Times the opening of files, and the files that begin with a state.

For each number of entries: a client makes as many transactions, each a new object and its number; a server takes them, and another client
takes the history. Then it times the opening of the server's file (`serve` without an input), of that client's (`take` without one),
`start` of a client from the server's file, without the opening in it, and the opening of that client's file. It prints seconds, the growth
exponent since the number before (1 where the time grows with the number of entries), the most memory and the bytes of the file. Each
time is the least of three.

usage: bench/openings.py [--save MACHINE] [COUNT ..]          (1,000, 10,000 and 100,000 where they are left out)
"""
import json
import math
import os
import subprocess
import sys
import tempfile
import time

from replay import BUILD, PROGRAM
from results import keeper

COUNTS = [1_000, 10_000, 100_000]
MOST = 4_096  # changes of one upload
UUID = "00000000-0000-4000-8000-00000000000%d"


def run(*words, given=b""):
    """What the command writes."""
    done = subprocess.run([PROGRAM, *words], input=given, stdout=subprocess.PIPE)
    assert done.returncode == 0, (words, done.returncode)
    return done.stdout


def timed(*words):
    """The least seconds of three runs without an input, and the most memory in bytes, which `time` tells."""
    runs = []
    for _ in range(3):
        with tempfile.NamedTemporaryFile() as told:
            start = time.perf_counter()
            subprocess.run(["/usr/bin/time", "-q", "-f", "%M", "-o", told.name, PROGRAM, *words], stdin=subprocess.DEVNULL,
                           stdout=subprocess.DEVNULL, check=True)
            runs.append((time.perf_counter() - start, 1024 * int(told.read())))
    return min(seconds for seconds, _ in runs), max(peak for _, peak in runs)


def line(value):
    return json.dumps(value, separators=(",", ":")).encode() + b"\n"


def edit(op, **fields):
    return {"op": op, "table": "t", **fields}


def born(path, server, number):
    """A client with an ident."""
    run("edit", path, given=line({"uuid": UUID % number}))
    run("take", path, given=run("serve", server, given=run("send", path)))


def transaction(number):
    if number == 0:
        edits = [edit("AddTable", key="Int"), edit("AddColumn", column="n", kind="Int", nullable=False, shape="One")]
    else:
        edits = [edit("CreateObject", key=number), edit("Update", key=number, column="n", value=number)]
    return line({"ms": number + 1, "edits": edits})


def catch_up(path, server):
    """Takes the history to its end."""
    before = None
    while before != (before := run("take", path, given=run("serve", server, given=run("ask", path)))):
        pass


def make(folder, count):
    """The files of a server and of a client that has taken as many entries."""
    writer, server, reader = (os.path.join(folder, name) for name in ("writer", "server", "reader"))
    born(writer, server, 1)
    for start in range(0, count, MOST):
        run("edit", writer, given=b"".join(map(transaction, range(start, min(start + MOST, count)))))
        run("take", writer, given=run("serve", server, given=run("send", writer)))
        catch_up(writer, server)
    born(reader, server, 2)
    catch_up(reader, server)
    return server, reader


def measured(folder, count):
    """For each row its name, the seconds, the memory and the file."""
    server, reader = make(folder, count)
    started = os.path.join(folder, "started")
    opening = timed("serve", server)
    start = timed("start", server, UUID % 3)
    with open(started, "wb") as out:
        out.write(run("start", server, UUID % 3))
    yield "server", *opening, server
    yield "client", *timed("take", reader), reader
    yield "start", max(start[0] - opening[0], 1e-4), start[1], started
    yield "started", *timed("take", started), started


def main():
    keep = keeper(sys.argv)
    counts = [int(word) for word in sys.argv[1:]] or COUNTS
    subprocess.run(BUILD, stdin=subprocess.DEVNULL, stdout=subprocess.DEVNULL, check=True)
    print("file     entries  seconds  exponent       MB  bytes of the file")
    before = {}
    for count in counts:
        with tempfile.TemporaryDirectory() as folder:
            for name, seconds, peak, path in measured(folder, count):
                exponent = ""
                if name in before:
                    exponent = f"{math.log(seconds / before[name][1]) / math.log(count / before[name][0]):.2f}"
                before[name] = count, seconds
                print(f"{name:7s} {count:8d}  {seconds:7.3f}  {exponent:>8}  {peak / 1e6:7.1f}  {os.path.getsize(path):17d}", flush=True)
                keep(f"opening {name}", count, seconds, "s")
                keep(f"opening {name}", count, peak / 1e6, "MB")


if __name__ == "__main__":
    main()
