#!/usr/bin/env python3
"""Times what an instruction costs in a client's store, by `replay`: as many of one kind as are told, on a store that is filled first.

For each work and size: seconds, nanoseconds an instruction, and the growth exponent in the number of objects (1 where an instruction
costs the same whatever their number). One client that never meets the server commits the instructions, 1,000 a transaction; a last line
that is none ends the run before the report. What reading the lines and filling the store took is taken away: the same lines are run
without the work, and both once more for a client that isn't there. Each run is the least of three.

  create          N new objects
  update, add     a new number, an addition, in a cell of each of N objects
  set, dict       8 N insertions, into the set or dictionary of each of N objects
  end, front, random   10,000 insertions into a list of N elements, at its end, its front, at drawn places
  one-set, one-dict    N insertions into one set, one dictionary

usage: bench/store.py [--sizes N,..] [--save MACHINE] [WORK ..]          (all, and 12,500 to 100,000, where they are left out)
"""
import argparse
import math
import random
import subprocess
import sys

from replay import BUILD, Run, text
from results import keeper

COLUMNS = [("n", "Int", "One"), ("l", "Int", "List"), ("s", "Int", "Set"), ("d", "Int", "Dict")]
SIZES = [12_500, 25_000, 50_000, 100_000]
TOGETHER = 1_000
EACH = 8
INSERTIONS = 10_000


def edit(op, **fields):
    return {"op": op, "table": "t", **fields}


def schema():
    yield edit("AddTable", key="Int")
    for name, kind, shape in COLUMNS:
        yield edit("AddColumn", column=name, kind=kind, nullable=False, shape=shape)


def objects(count):
    return (edit("CreateObject", key=key) for key in range(count))


def on_each(count, op, column, **fields):
    return (edit(op, key=key, column=column, **fields) for key in range(count))


def members(count, each, op, column, at=None):
    for number in range(each):
        for key in range(count):
            value = (number * count + key) * 2_654_435_761 % 2**31
            where = {"at": str(value)} if at else {}
            yield edit(op, key=key, column=column, value=value, **where)


def insertions(count, prior, place_of):
    for number in range(count):
        length = prior + number
        yield edit("ListInsert", key=0, column="l", place=place_of(length), prior=length, value=number)


def filled_list(count):
    yield from objects(1)
    yield from insertions(count, 0, lambda length: length)


def drawn_place():
    draw = random.Random(1)
    return lambda length: draw.randrange(length + 1)


# of each work: what fills the store, what is timed, and how many instructions that is
WORKS = {
    "create": lambda n: (objects(0), objects(n), n),
    "update": lambda n: (objects(n), on_each(n, "Update", "n", value=5), n),
    "add": lambda n: (objects(n), on_each(n, "AddInteger", "n", amount=5), n),
    "set": lambda n: (objects(n), members(n, EACH, "SetInsert", "s"), EACH * n),
    "dict": lambda n: (objects(n), members(n, EACH, "DictUpdate", "d", at=True), EACH * n),
    "end": lambda n: (filled_list(n), insertions(INSERTIONS, n, lambda length: length), INSERTIONS),
    "front": lambda n: (filled_list(n), insertions(INSERTIONS, n, lambda length: 0), INSERTIONS),
    "random": lambda n: (filled_list(n), insertions(INSERTIONS, n, drawn_place()), INSERTIONS),
    "one-set": lambda n: (objects(1), members(1, n, "SetInsert", "s"), n),
    "one-dict": lambda n: (objects(1), members(1, n, "DictUpdate", "d", at=True), n),
}


def lines(instructions, client):
    """The lines in which that client makes these instructions. Client A is there, and its file is of form 2."""
    yield {"event": "client", "name": "A", "uuid": "00000000-0000-4000-8000-000000000001"}
    yield {"event": "upgrade", "client": "A"}
    together = []
    for ms, instruction in enumerate(instructions):
        together.append(instruction)
        if len(together) == TOGETHER:
            yield {"event": "edit", "client": client, "ms": ms, "edits": together}
            together = []
    if together:
        yield {"event": "edit", "client": client, "ms": 2**31, "edits": together}


def seconds(instructions, client):
    """Of the fastest of three runs, which end with status 2 at a line that is none."""
    given = text(lines(instructions, client)) + b"{}\n"
    runs = [Run(given) for _ in range(3)]
    assert all(run.status == 2 for run in runs), [run.status for run in runs]
    assert client != "A" or not any(run.refused for run in runs)
    return min(run.seconds for run in runs)


def committed(instructions):
    """The seconds that committing takes, without those of reading."""
    return seconds(instructions, "A") - seconds(instructions, "B")


def measured(work, size):
    before, after, count = WORKS[work](size)
    before, after = [*schema(), *before], [*after]
    # the last transaction of what fills the store may be short, so the work begins one of its own
    spare = -len(before) % TOGETHER
    before += [edit("CreateObject", key=-1 - number) for number in range(spare)]
    return max(committed(before + after) - committed(before), 1e-9), count


def main():
    keep = keeper(sys.argv)
    parser = argparse.ArgumentParser(usage=__doc__.split("usage: ")[1].split("  ")[0])
    parser.add_argument("--sizes", type=lambda words: [int(word) for word in words.split(",")], default=SIZES)
    parser.add_argument("works", nargs="*", metavar="WORK")
    options = parser.parse_args()
    works = options.works or list(WORKS)
    if not all(work in WORKS for work in works):
        raise SystemExit(__doc__.strip())
    subprocess.run(BUILD, stdin=subprocess.DEVNULL, stdout=subprocess.DEVNULL, check=True)
    print("work           N  seconds  nanoseconds  exponent")
    for work in works:
        before = None
        for size in options.sizes:
            took, count = measured(work, size)
            each = 1e9 * took / count
            exponent = "" if before is None else f"{1 + math.log(each / before[0]) / math.log(size / before[1]):.2f}"
            print(f"{work:8s} {size:7d}  {took:7.3f}  {each:11.0f}  {exponent:>8}", flush=True)
            keep(f"store {work}", size, each, "ns")
            before = each, size


if __name__ == "__main__":
    main()
