#!/usr/bin/env python3
"""Times `replay` on one client that makes N transactions, for growing N, and tells where the time goes.

Each transaction creates an object of four columns and updates one of its cells. Prints seconds, transactions a second,
the growth exponent between two sizes (1 where the time grows with the number of transactions), the peak of memory and
the bytes for each transaction; and then, of the largest size, the seconds of each stage:

  read   the lines are read and told, but name a client that isn't there
  apply  they are committed, and a last line that is none ends the run before the report
  print  the report

With --perf it also groups the samples of `perf record` by the library in which each was taken.

usage: bench/replay.py [--perf] [--save MACHINE] [N ..]
"""
import collections
import json
import math
import os
import subprocess
import sys
import tempfile
import time

from results import keeper

TOP = os.path.dirname(os.path.dirname(os.path.abspath(__file__)))
PROGRAM = os.environ.get("REALM_SYNC", os.path.join(TOP, "crates", "realm_sync", "out", "realm_sync"))
# builds the program before the first measurement, where it isn't another one
BUILD = ["true"] if "REALM_SYNC" in os.environ else [os.path.join(TOP, "realm_sync"), "replay"]
SIZES = [10_000, 20_000, 40_000]
COLUMNS = [("n", "Int", False, "One"), ("s", "Text", True, "One"), ("l", "Text", False, "List"), ("u", "Int", False, "Set")]


def edit(op, **fields):
    return {"op": op, "table": "t", **fields}


def transactions(count):
    yield [edit("AddTable", key="Int")] + [
        edit("AddColumn", column=name, kind=kind, nullable=nullable, shape=shape) for name, kind, nullable, shape in COLUMNS
    ]
    for i in range(count):
        yield [edit("CreateObject", key=i), edit("Update", key=i, column="n", value=i)]


def lines(count, client="A"):
    """The event lines in which that client makes the transactions. Client A is there."""
    yield {"event": "client", "name": "A", "uuid": "00000000-0000-4000-8000-000000000001"}
    for ms, edits in enumerate(transactions(count)):
        yield {"event": "edit", "client": client, "ms": ms, "edits": edits}


def text(events):
    return "".join(json.dumps(event, separators=(",", ":")) + "\n" for event in events).encode()


class Run:
    """One run: its seconds, its peak of memory in bytes, its exit number, the lines that it wrote, and whether one tells a refusal."""

    def __init__(self, words):
        # `time` tells the peak: a child of Python would begin with Python's own
        with tempfile.NamedTemporaryFile() as told:
            start = time.perf_counter()
            done = subprocess.run(["/usr/bin/time", "-q", "-f", "%M", "-o", told.name, PROGRAM, "replay"], input=words,
                                  stdout=subprocess.PIPE, stderr=subprocess.DEVNULL)
            self.seconds = time.perf_counter() - start
            self.peak = int(told.read()) * 1024
        self.status = done.returncode
        self.lines = done.stdout.count(b"\n")
        self.refused = b" refused " in done.stdout


def best(words, status, count):
    """The fastest of three runs that end with that exit number and write so many lines."""
    runs = [Run(words) for _ in range(3)]
    assert all(run.status == status and run.lines == count for run in runs), [(run.status, run.lines) for run in runs]
    return min(runs, key=lambda run: run.seconds)


def replayed(count):
    # outcomes: the client and N + 1 transactions; report: server, client, a table with its columns, N objects
    return best(text(lines(count)), 0, count + 2 + count + 3 + len(COLUMNS))


def stages(count, whole):
    # the client and N + 1 refusals; report: server and client
    read = best(text(lines(count, "B")), 0, count + 2 + 2).seconds
    # the client and N + 1 transactions, and no report; status 2 is input that is no form
    applied = best(text(lines(count)) + b"{}\n", 2, count + 2).seconds
    for stage, seconds in ("read", read), ("apply", applied - read), ("print", whole - applied):
        print(f"{stage:6s} {seconds:7.3f} s  {100 * seconds / whole:4.0f} %")


def sampled(count):
    with tempfile.TemporaryDirectory() as folder:
        data, given = os.path.join(folder, "perf.data"), os.path.join(folder, "lines")
        with open(given, "wb") as out:
            out.write(text(lines(count)))
        with open(given, "rb") as source:
            subprocess.run(["perf", "record", "-q", "-o", data, PROGRAM, "replay"], stdin=source, stdout=subprocess.DEVNULL,
                           stderr=subprocess.DEVNULL, check=True)
        told = subprocess.run(["perf", "report", "-i", data, "--stdio", "-F", "overhead,dso,sym", "-t", "\t"],
                              stdout=subprocess.PIPE, stderr=subprocess.DEVNULL, text=True, check=True).stdout
    shares = collections.Counter()
    for line in told.splitlines():
        parts = line.split("\t")
        if line.startswith("#") or len(parts) < 3:
            continue
        symbol = parts[2].split("] ", 1)[-1].strip()
        shares[symbol.split("::")[0] if "::" in symbol else parts[1].strip()] += float(parts[0].strip().rstrip("%"))
    for library, share in shares.most_common(16):
        print(f"{library:20s} {share:5.1f} %")


def main():
    keep = keeper(sys.argv)
    words = sys.argv[1:]
    with_perf = "--perf" in words
    sizes = [int(word) for word in words if word != "--perf"] or SIZES
    subprocess.run(BUILD, stdin=subprocess.DEVNULL, stdout=subprocess.DEVNULL, check=True)
    print("transactions  seconds  transactions/second  exponent  peak MB  bytes/transaction")
    before = None
    for count in sizes:
        run = replayed(count)
        exponent = memory = ""
        if before is not None:
            exponent = f"{math.log(run.seconds / before[1].seconds) / math.log(count / before[0]):.2f}"
            memory = f"{(run.peak - before[1].peak) / (count - before[0]):.0f}"
        print(f"{count:12d}  {run.seconds:7.3f}  {count / run.seconds:19.0f}  {exponent:>8}  {run.peak / 1e6:7.1f}  {memory:>17}")
        keep("replay of one client", count, run.seconds, "s")
        before = (count, run)
    count, run = before
    print(f"\nof {count} transactions, {run.seconds:.3f} s:")
    stages(count, run.seconds)
    if with_perf:
        print()
        sampled(count)


if __name__ == "__main__":
    main()
