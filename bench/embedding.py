#!/usr/bin/env python3
"""Times what an application calls: commits, reads and rounds of the sync, from C (bench/embedding.c) and from Python
(python/src/realm_sync).

Prints microseconds a call: the median of 20,000 calls that are timed one by one, and the ninth decile. The clock's own time, some 0.02
microseconds, is in it. The edits and the object's name are made anew for each call, and that is timed too.

Over a file also one Upload of 4,001 changes to a server, and the Download of them to a client, both over files of their own.

usage: bench/embedding.py [--save MACHINE] [FILE]        (with a FILE, over new files of that name and 500 commits in place of memory)
"""
import os
import statistics
import subprocess
import sys
import tempfile
import time

from results import keeper

TOP = os.path.dirname(os.path.dirname(os.path.abspath(__file__)))
RUNS, OBJECTS = 20_000, 1_000
TITLES = {
    "commit-one": "a commit of one edit",
    "commit-four": "a commit of four edits",
    "object": "one object is read back",
    "standing": "where the client stands",
    "sync": "a round of the sync with nothing new",
}
AIMS = {"commit-one": (5, 15), "object": (2, 5)}  # from C and from Python, on an idle machine


def build(folder):
    """Builds the library, and the program over it."""
    linked = subprocess.run([os.path.join(TOP, "examples", "c", "library.sh"), folder], stdout=subprocess.PIPE, text=True, check=True).stdout.split()
    program = os.path.join(folder, "embedding")
    include = "-I" + os.path.join(TOP, "include")
    subprocess.run(["cc", "-std=c11", "-O2", include, os.path.join(TOP, "bench", "embedding.c"), *linked, "-o", program], check=True)
    os.environ["REALM_SYNC_LIBRARY"] = os.path.join(folder, "librealm_sync.so")
    return program


def from_c(program, file):
    """Microseconds of each call: the median and the ninth decile."""
    rows = [line.split() for line in subprocess.run([program, *file], stdout=subprocess.PIPE, text=True, check=True).stdout.splitlines()]
    return {row[0]: (int(row[1]) / 1e3, int(row[2]) / (1e3 if len(row) == 4 else 1)) for row in rows}


def timed(call, runs):
    times = []
    for turn in range(runs):
        start = time.perf_counter_ns()
        call(turn)
        times.append(time.perf_counter_ns() - start)
    times.sort()
    return statistics.median(times) / 1e3, times[len(times) * 9 // 10] / 1e3


def from_python(file):
    """The same calls by the module."""
    sys.path.insert(0, os.path.join(TOP, "python", "src"))
    from realm_sync import Client, Server

    with Client(*file) as client, Server() as server:
        client.born("00000000-0000-4000-8000-000000000001")
        with client.transaction() as edits:
            edits.add_table("notes", "Int")
            edits.add_column("notes", "text", "Text")
            edits.add_column("notes", "read", "Int")
            edits.add_column("notes", "tags", "Text", shape="Set")

        def commit_four(turn):
            with client.transaction() as edits:
                edits.create("notes", turn)
                edits.update("notes", turn, "text", "buy oat milk")
                edits.add("notes", turn, "read", 1)
                edits.include("notes", turn, "tags", "shop")

        def commit_one(turn):
            with client.transaction() as edits:
                edits.update("notes", turn % OBJECTS, "text", f"buy {turn}")

        measured = {
            "commit-four": timed(commit_four, OBJECTS if file else RUNS),
            "commit-one": timed(commit_one, 500 if file else RUNS),
            "object": timed(lambda turn: client.object("notes", turn * 7 % OBJECTS), RUNS),
            "standing": timed(lambda _: client.standing(), RUNS),
        }
        client.sync(server.take)
        measured["sync"] = timed(lambda _: client.sync(server.take), RUNS)
        return measured


def main():
    keep = keeper(sys.argv)
    file = sys.argv[1:2]
    with tempfile.TemporaryDirectory() as folder:
        load = os.getloadavg()[0]
        c = from_c(build(folder), [file[0] + ".c"] if file else [])
        python = from_python([file[0] + ".python"] if file else [])
    print(f"{'microseconds, median and ninth decile':>40}  {'from C':>15}  {'from Python':>15}  {'aims':>6}")
    for name, title in TITLES.items():
        aims = " ".join(map(str, AIMS.get(name, ())))
        print(f"{title:>40}  {c[name][0]:7.2f} {c[name][1]:7.2f}  {python[name][0]:7.2f} {python[name][1]:7.2f}  {aims if not file else '':>6}")
        for language, (median, decile) in {"C": c[name], "Python": python[name]}.items():
            if not file:
                keep(f"embedding {title}", f"{language}, median", median, "us")
                keep(f"embedding {title}", f"{language}, ninth decile", decile, "us")
    for name, title in (("upload", "an Upload of 4,001 changes"), ("download", "a Download of 4,001 entries")):
        if name in c:
            print(f"{title:>40}  {c[name][0] / 1e3:.1f} milliseconds, {c[name][1]:.0f} syncs")
    print(f"load at the start: {load:.1f} on {os.cpu_count()} processors")


if __name__ == "__main__":
    main()
