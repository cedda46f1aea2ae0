#!/usr/bin/env python3
"""Times the commands over files: commits per second of `edit`, and changes per second of `serve` and `take`.

usage: bench/files.py [--changes N] [--times T] [--folder FOLDER] [--program PATH] [--save MACHINE]

A client makes N transactions of one addition each (1,000 where it is left out, 4,096 at most), a server takes them in one
upload, and another client takes them in one download. What a message or a line adds is durable before it is answered: two
writes and two syncs of the file for each message, or for the lines that one read gave. The same run is timed over files in
FOLDER (beside this script where it is left out), and over files in memory (/dev/shm), where a sync costs nothing: the
difference is what the syncs cost. The line `bare` makes two writes and two syncs for each change, without the program. Each
run is made T times (3 where it is left out), and the shortest time counts, less that of the same command without an input.
Where `strace` is there it counts the syncs of each command, those of opening the file among them.
"""
import argparse
import os
import shutil
import subprocess
import sys
import tempfile
import time

from results import keeper

TOP = os.path.dirname(os.path.dirname(os.path.abspath(__file__)))

# What each command's row is called in docs/BENCHES.md.
ROWS = {
    "edit": "edit, one line a change",
    "serve": "serve, one upload",
    "take": "take, one download",
    "bare": "two writes and two syncs a change, without the program",
}
BUILT = os.path.join(TOP, "crates", "realm_sync", "out", "realm_sync")
MEMORY = "/dev/shm"

BIRTH = b'{"uuid":"00000000-0000-4000-8000-000000000001"}\n'
SCHEMA = (
    b'{"ms":1,"edits":[{"op":"AddTable","table":"t","key":"Int"},{"op":"AddColumn","table":"t","column":"n",'
    b'"kind":"Int","nullable":false,"shape":"One"},{"op":"CreateObject","table":"t","key":1}]}\n'
)
ADDITION = b'{"ms":%d,"edits":[{"op":"AddInteger","table":"t","key":1,"column":"n","amount":1}]}\n'


def run(options, command, path, given=b""):
    """What the command writes, and its seconds."""
    start = time.perf_counter()
    done = subprocess.run([options.program, command, path], input=given, stdout=subprocess.PIPE)
    seconds = time.perf_counter() - start
    assert done.returncode == 0, (command, done.returncode)
    return done.stdout, seconds


def new_nodes(options, folder):
    """A client with an ident and an object, and its server."""
    client, server = os.path.join(folder, "client"), os.path.join(folder, "server")
    for path in client, server:
        if os.path.exists(path):
            os.remove(path)
    run(options, "edit", client, BIRTH + SCHEMA)
    bind, _ = run(options, "send", client)
    ident, _ = run(options, "serve", server, bind)
    run(options, "take", client, ident)
    return client, server


def counted(options, folder, command, path, given):
    """How many syncs of files the command asks for, over a copy of the file."""
    if shutil.which("strace") is None:
        return None
    copy, log = os.path.join(folder, "copy"), os.path.join(folder, "log")
    shutil.copyfile(path, copy)
    traced = ["strace", "-f", "-qq", "-e", "trace=fsync,fdatasync", "-o", log, options.program, command, copy]
    done = subprocess.run(traced, input=given, stdout=subprocess.PIPE)
    assert done.returncode == 0, (command, done.returncode)
    with open(log) as lines:
        count = sum("sync(" in line for line in lines)
    os.remove(copy)
    os.remove(log)
    return count


def new_reader(options, folder, server):
    """Another client with an ident, that has taken nothing."""
    path = os.path.join(folder, "reader")
    if os.path.exists(path):
        os.remove(path)
    run(options, "edit", path, BIRTH.replace(b"1\"", b"2\""))
    bind, _ = run(options, "send", path)
    ident, _ = run(options, "serve", server, bind)
    run(options, "take", path, ident)
    return path


def one_round(options, folder, count_syncs):
    """The seconds of each command with its input and without, the size of the server's file, and the syncs of each command."""
    client, server = new_nodes(options, folder)
    reader = new_reader(options, folder, server)
    lines = b"".join(ADDITION % (10 + place) for place in range(options.changes - 1))
    seconds, syncs = {}, {}

    def timed(command, path, given):
        if count_syncs:
            syncs[command] = counted(options, folder, command, path, given)
        _, opening = run(options, command, path)
        told, whole = run(options, command, path, given)
        seconds[command] = whole, opening
        return told

    told = timed("edit", client, lines)
    assert told.count(b" made ") == options.changes - 1
    upload, _ = run(options, "send", client)
    reply = timed("serve", server, upload)
    assert len(reply) > 4 and reply[4] == 7, reply
    shown, _ = run(options, "show", server)
    assert shown.startswith(b"server %d\n" % options.changes)
    ask, _ = run(options, "ask", reader)
    download, _ = run(options, "serve", server, ask)
    taken = timed("take", reader, download)
    assert taken == b"1 took %d\n" % options.changes, taken
    return seconds, os.path.getsize(server), syncs


def bare(options, folder, size):
    """As many records of that length, each by two writes and two syncs."""
    path = os.path.join(folder, "bare")
    record = b"\0" * max(size // options.changes, 1)
    start = time.perf_counter()
    with open(path, "wb", buffering=0) as file:
        for _ in range(options.changes):
            file.write(record)
            os.fsync(file.fileno())
            os.pwrite(file.fileno(), b"\1", 0)
            os.fsync(file.fileno())
    seconds = time.perf_counter() - start
    os.remove(path)
    return seconds


def measured(options, where, count_syncs):
    """The shortest seconds of each command and of the bare writes, and the number of syncs."""
    with tempfile.TemporaryDirectory(dir=where) as folder:
        rounds = [one_round(options, folder, count_syncs and place == 0) for place in range(options.times)]
        without = min(bare(options, folder, rounds[0][1]) for _ in range(options.times))
    seconds = {}
    for name in ("edit", "serve", "take"):
        whole, opening = (min(each[0][name][place] for each in rounds) for place in (0, 1))
        seconds[name] = max(whole - opening, 1e-4)
    seconds["bare"] = without
    return seconds, rounds[0][2]


def main():
    keep = keeper(sys.argv)
    parser = argparse.ArgumentParser(usage=__doc__.split("\n")[2][7:])
    parser.add_argument("--changes", type=int, default=1000)
    parser.add_argument("--times", type=int, default=3)
    parser.add_argument("--folder", default=os.path.dirname(os.path.abspath(__file__)))
    parser.add_argument("--program", default=None)
    options = parser.parse_args()
    if not 2 <= options.changes <= 4096:
        sys.exit(__doc__.strip())
    if options.program is None:
        # the script beside README.md builds the program where it is missing or old
        subprocess.run([os.path.join(TOP, "realm_sync"), "gen", "1", "0"], stdout=subprocess.DEVNULL, check=True)
        options.program = BUILT
    (on_disk, syncs), (in_memory, _) = measured(options, options.folder, True), measured(options, MEMORY, False)
    syncs["bare"] = 2 * options.changes
    print(f"{options.changes} changes, the first of them the table")
    print("         on the disk               in memory                 the syncs")
    print("         a second  us each         a second  us each         us each   number")
    for name in ("edit", "serve", "take", "bare"):
        count = options.changes - 1 if name == "edit" else options.changes
        disk, memory = on_disk[name], in_memory[name]
        each = [1e6 * seconds / count for seconds in (disk, memory)]
        number = "-" if syncs[name] is None else syncs[name]
        print(
            f"{name:>6}  {count / disk:9.0f}  {each[0]:7.0f}  {count / memory:15.0f}  {each[1]:7.1f}"
            f"  {each[0] - each[1]:14.0f}  {number:>7}"
        )
        keep(f"files {ROWS[name]}", options.changes, count / disk, "a second on a disk")
        keep(f"files {ROWS[name]}", options.changes, count / memory, "a second in memory")


if __name__ == "__main__":
    main()
