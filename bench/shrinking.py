#!/usr/bin/env python3
"""Short files of clients: that they change nothing, and what they save.

drawn: draws exchanges of three clients and a server over files, and runs each twice, in one of them with `shrink --replace` of clients at
drawn moments. Every answer, every exit status and every file that `shrink` and `show` tell of in the end has to be the same.

table: a client has as many entries, so many for each object that lives. The file, the processor seconds to open it (the least of three) and
the most memory, before and after `shrink --replace`.

usage: bench/shrinking.py drawn [EXCHANGES [FIRST SEED]]        (1,000 and 1)
       bench/shrinking.py table [ENTRIES]                       (100,000)
"""
import json
import os
import random
import subprocess
import sys
import tempfile

from openings import MOST, UUID, born, catch_up, line, run
from replay import BUILD, PROGRAM
from results import keeper

# a folder in memory, where there is one: a sync costs nothing there
MEMORY = "/dev/shm" if os.path.isdir("/dev/shm") else None
CLIENTS = [1, 2, 3]
STEPS = 30
SCHEMA = [
    {"op": "AddTable", "table": "t", "key": "Int"},
    {"op": "AddColumn", "table": "t", "column": "n", "kind": "Int", "nullable": False, "shape": "One"},
    {"op": "AddColumn", "table": "t", "column": "s", "kind": "Text", "nullable": False, "shape": "One"},
    {"op": "AddColumn", "table": "t", "column": "l", "kind": "Text", "nullable": False, "shape": "List"},
    {"op": "AddColumn", "table": "t", "column": "m", "kind": "Int", "nullable": False, "shape": "Set"},
]


class Pair:
    """An exchange over two folders: the same commands in both, and short files in the second alone."""

    def __init__(self, folder, seed):
        self.folders = [os.path.join(folder, name) for name in ("whole", "short")]
        for it in self.folders:
            os.mkdir(it)
        self.draw = random.Random(seed)
        self.seed = seed

    def told(self, where, name, *words, given=b""):
        path = os.path.join(self.folders[where], name)
        done = subprocess.run([PROGRAM, words[0], path, *words[1:]], input=given, stdout=subprocess.PIPE)
        return done.returncode, done.stdout

    def run(self, name, *words, given=b""):
        """What a command answers in both folders, which is the same."""
        whole, short = (self.told(where, name, *words, given=given) for where in (0, 1))
        assert whole == short, (self.seed, name, words, given, whole, short)
        return whole[1]

    def shrink(self, name):
        path = os.path.join(self.folders[1], name)
        done = subprocess.run([PROGRAM, "shrink", "--replace", path], stdout=subprocess.PIPE)
        assert done.returncode == 0 and done.stdout == b"", (self.seed, name, done)

    def objects(self, name):
        return [json.loads(row) for row in self.run(name, "show").decode().splitlines()[1:] if '"cells"' in row]

    def edits(self, name):
        """A transaction of one to four edits of what the client has."""
        draw, objects = self.draw, self.objects(name)
        if not objects or draw.random() < 0.2:
            return [{"op": "CreateObject", "table": "t", "key": draw.randrange(4)}]
        it = draw.choice(objects)
        of = {"table": "t", "key": it["key"]}
        length, edits = len(it["cells"].get("l", [])), []
        for _ in range(draw.randrange(1, 5)):
            kind = draw.randrange(7)
            if kind == 0:
                edits.append({"op": "AddInteger", **of, "column": "n", "amount": draw.randrange(-3, 4)})
            elif kind == 1:
                edits.append({"op": "Update", **of, "column": "s", "value": draw.choice("abc")})
            elif kind == 2:
                edits.append({"op": draw.choice(["SetInsert", "SetErase"]), **of, "column": "m", "value": draw.randrange(3)})
            elif kind == 3 and length:
                edits.append({"op": "ListErase", **of, "column": "l", "place": draw.randrange(length), "prior": length})
                length -= 1
            elif kind == 4 and length:
                edits.append({"op": "ListUpdate", **of, "column": "l", "place": draw.randrange(length), "prior": length, "value": draw.choice("xyz")})
            elif kind == 5 and draw.random() < 0.2:
                return [*edits, {"op": "EraseObject", **of}]
            else:
                edits.append({"op": "ListInsert", **of, "column": "l", "place": draw.randrange(length + 1), "prior": length, "value": draw.choice("xyz")})
                length += 1
        return edits

    def step(self, ms):
        draw = self.draw
        name = f"client{draw.choice(CLIENTS)}"
        kind = draw.random()
        if kind < 0.45:
            self.run(name, "edit", given=line({"ms": ms + draw.randrange(-5, 5), "edits": self.edits(name)}))
        elif kind < 0.65:
            self.run(name, "take", given=self.run("server", "serve", given=self.run(name, "send")))
        elif kind < 0.85:
            self.run(name, "take", given=self.run("server", "serve", given=self.run(name, "ask")))
        else:
            self.shrink(name)

    def whole(self):
        for number in CLIENTS:
            name = f"client{number}"
            self.run(name, "edit", given=line({"uuid": UUID % number}))
            if self.draw.random() < 0.3:
                self.shrink(name)
            self.run(name, "take", given=self.run("server", "serve", given=self.run(name, "send")))
        self.run("client1", "edit", given=line({"ms": 1, "edits": SCHEMA}))
        for step in range(STEPS):
            self.step(10 * (step + 1))
        for _ in range(2):
            for number in CLIENTS:
                self.run(f"client{number}", "take", given=self.run("server", "serve", given=self.run(f"client{number}", "send")))
                self.run(f"client{number}", "take", given=self.run("server", "serve", given=self.run(f"client{number}", "ask")))
        for number in CLIENTS:
            self.run(f"client{number}", "show")
            self.run(f"client{number}", "shrink")
            self.run(f"client{number}", "rescue", "0")
        self.run("server", "show")


def drawn(count, first):
    for seed in range(first, first + count):
        with tempfile.TemporaryDirectory(dir=MEMORY) as folder:
            Pair(folder, seed).whole()
    print(f"{count} drawn exchanges with short files answer as without them")


def transaction(number, each):
    """The first entry makes the table, each other one adds to an object, which has so many of them."""
    if number == 0:
        return line({"ms": 1, "edits": SCHEMA})
    edits = [] if (number - 1) % each else [{"op": "CreateObject", "table": "t", "key": number // each}]
    edits.append({"op": "AddInteger", "table": "t", "key": (number - 1) // each, "column": "n", "amount": 1})
    if not (number - 1) % each:
        edits[0]["key"] = (number - 1) // each
    return line({"ms": number + 1, "edits": edits})


def opened(path):
    """The least processor seconds of three openings, and the most memory in bytes."""
    runs = []
    for _ in range(3):
        with tempfile.NamedTemporaryFile() as told:
            subprocess.run(["/usr/bin/time", "-q", "-f", "%U %S %M", "-o", told.name, PROGRAM, "take", path], stdin=subprocess.DEVNULL,
                           stdout=subprocess.DEVNULL, check=True)
            user, system, peak = told.read().split()
        runs.append((float(user) + float(system), 1024 * int(peak)))
    return min(seconds for seconds, _ in runs), max(peak for _, peak in runs)


def table(count, keep):
    print("entries an object  KB whole  short    s whole  short   MB whole  short")
    for each in (1, 2, 10, 100):
        with tempfile.TemporaryDirectory() as folder:
            client, server = os.path.join(folder, "client"), os.path.join(folder, "server")
            born(client, server, 1)
            for start in range(0, count, MOST):
                run("edit", client, given=b"".join(transaction(n, each) for n in range(start, min(start + MOST, count))))
                run("take", client, given=run("serve", server, given=run("send", client)))
                catch_up(client, server)
            rows = [(os.path.getsize(client), *opened(client))]
            run("shrink", "--replace", client)
            rows.append((os.path.getsize(client), *opened(client)))
            (b0, s0, m0), (b1, s1, m1) = rows
            print(f"{each:17d} {b0 / 1e3:9,.0f} {b1 / 1e3:6,.0f} {s0:10.3f} {s1:6.3f} {m0 / 1e6:10.1f} {m1 / 1e6:6.1f}", flush=True)
            for unit, values in {"KB": (b0 / 1e3, b1 / 1e3), "s": (s0, s1), "MB": (m0 / 1e6, m1 / 1e6)}.items():
                keep("short file", each, values[0], unit)
                keep("short file", each, values[1], f"{unit}, short")


def main():
    keep = keeper(sys.argv)
    words = sys.argv[1:]
    if not words or words[0] not in ("drawn", "table"):
        sys.exit(__doc__)
    subprocess.run(BUILD, stdin=subprocess.DEVNULL, stdout=subprocess.DEVNULL, check=True)
    numbers = [int(word) for word in words[1:]]
    if words[0] == "drawn":
        drawn(*(numbers + [1_000, 1][len(numbers):]))
    else:
        table(numbers[0] if numbers else 100_000, keep)


if __name__ == "__main__":
    main()
