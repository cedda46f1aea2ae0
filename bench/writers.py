#!/usr/bin/env python3
"""Starts several `edit` at once over one client's file, and several `serve` over one server's, again and again, with readers
beside them. One at a time holds a file; the others end with 9 and have done nothing. Looks whether each transaction that
was answered is in the file, and whether the file is a journal still. It shows what is tested, and nothing is proved by it.

usage: bench/writers.py [PROGRAM] [ROUNDS]        (./realm_sync and 200 where they are left out)
"""
import os
import subprocess
import sys
import tempfile

PROGRAM = os.path.abspath(sys.argv[1] if len(sys.argv) > 1 else "./realm_sync")
ROUNDS = int(sys.argv[2]) if len(sys.argv) > 2 else 200
WRITERS = 3
BUSY = 9

SCHEMA = (
    '{"ms":1,"edits":[{"op":"AddTable","table":"t","key":"Int"},{"op":"AddColumn","table":"t","column":"n",'
    '"kind":"Int","nullable":false,"shape":"One"},{"op":"CreateObject","table":"t","key":1}]}\n'
)
ADDITION = '{"ms":2,"edits":[{"op":"AddInteger","table":"t","key":1,"column":"n","amount":1}]}\n'


def start(command, path, given):
    """Starts a command, and gives it its whole input at once, so that it runs beside the others."""
    running = subprocess.Popen([PROGRAM, command, path], stdin=subprocess.PIPE, stdout=subprocess.PIPE, stderr=subprocess.DEVNULL)
    try:
        running.stdin.write(given)
        running.stdin.close()
    except BrokenPipeError:
        pass
    return running


def ended(running):
    """What a command wrote, and its exit number."""
    written = running.stdout.read()
    return written, running.wait()


def whole(command, path, given=b""):
    return subprocess.run([PROGRAM, command, path], input=given, stdout=subprocess.PIPE, check=True).stdout


def unsent(path):
    return int(whole("show", path).split(b"\n")[0].split()[3])


def round_of_edits(path, number):
    """Each writer has other lengths. Gives how many transactions were answered, and how many writers were turned away."""
    lines = [ADDITION.encode() * (1 + (number + it) % 7) for it in range(WRITERS)]
    writers = [start("edit", path, it) for it in lines]
    reader = start("show", path, b"")
    answered = busy = 0
    for running, given in zip(writers, lines):
        written, exit_ = ended(running)
        assert exit_ in (0, BUSY), f"an edit ended with {exit_}"
        assert exit_ == 0 or not written, "an edit that was turned away wrote something"
        assert exit_ == BUSY or written.count(b"made") == given.count(b"\n"), "an edit that was done left a line out"
        answered += written.count(b"made")
        busy += exit_ == BUSY
    assert ended(reader)[1] == 0, "a reader found the file bad"
    return answered, busy


def bind(path, number):
    """The Bind of a new client."""
    whole("edit", path, b'{"uuid":"00000000-0000-4000-8000-%012d"}\n' % number)
    return whole("send", path)


def round_of_serves(folder, number):
    """New clients come to one server at once. Gives the idents that were answered, and how many were turned away."""
    server = f"{folder}/server"
    clients = [f"{folder}/client_{number}_{it}" for it in range(WRITERS)]
    serving = [start("serve", server, bind(it, number * WRITERS + at)) for at, it in enumerate(clients)]
    idents, busy = [], 0
    for running in serving:
        written, exit_ = ended(running)
        assert exit_ in (0, BUSY), f"a serve ended with {exit_}"
        if exit_ == 0:
            idents.append(written[-1])
        busy += exit_ == BUSY
    for it in clients:
        os.remove(it)
    return idents, busy


def main():
    with tempfile.TemporaryDirectory() as folder:
        path = f"{folder}/phone"
        whole("edit", path, b'{"uuid":"00000000-0000-4000-8000-000000000001"}\n' + SCHEMA.encode())
        answered, turned_away = 1, 0
        for number in range(ROUNDS):
            more, busy = round_of_edits(path, number)
            answered += more
            turned_away += busy
            assert unsent(path) == answered, f"round {number}: {answered} were answered, {unsent(path)} are there"
        idents, away = [], 0
        for number in range(min(ROUNDS, 40)):
            more, busy = round_of_serves(folder, number)
            idents += more
            away += busy
        assert len(set(idents)) == len(idents), "one ident was given twice"
        print(f"{ROUNDS} rounds of {WRITERS} edits at once: {answered} transactions answered, all there; {turned_away} edits turned away")
        print(f"{len(idents)} idents given by serves at once, no two alike; {away} serves turned away")


main()
