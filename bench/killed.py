#!/usr/bin/env python3
"""Kills `edit`, `serve`, `take` and `show` over real files, the first three between answers, starts them again, and looks
whether anything that was answered is missing. It shows what is tested, and nothing is proved by it.

usage: bench/killed.py [PROGRAM] [ROUNDS]        (./realm_sync and 20 where they are left out)
"""
import os
import random
import struct
import subprocess
import sys
import tempfile
import time

PROGRAM = os.path.abspath(sys.argv[1] if len(sys.argv) > 1 else "./realm_sync")
ROUNDS = int(sys.argv[2]) if len(sys.argv) > 2 else 20

SCHEMA = (
    '{"ms":1,"edits":[{"op":"AddTable","table":"t","key":"Int"},{"op":"AddColumn","table":"t","column":"n",'
    '"kind":"Int","nullable":false,"shape":"One"},{"op":"CreateObject","table":"t","key":1}]}\n'
)
ADDITION = '{"ms":2,"edits":[{"op":"AddInteger","table":"t","key":1,"column":"n","amount":1}]}\n'


def start(command, path):
    return subprocess.Popen([PROGRAM, command, path], stdin=subprocess.PIPE, stdout=subprocess.PIPE)


def whole(command, path, given=b""):
    done = subprocess.run([PROGRAM, command, path], input=given, stdout=subprocess.PIPE, check=True)
    return done.stdout


def shown(path):
    """The words of the first line, and the number in the object's cell."""
    lines = whole("show", path).decode().splitlines()
    cells = [line for line in lines if line.startswith('{"cells"')]
    return lines[0].split(), int(cells[0].split('"n":')[1].split("}")[0]) if cells else 0


def killed_edits(path, generator):
    """Feeds additions line by line, kills the command after some answers, and gives how many were answered."""
    command, answered = start("edit", path), 0
    for _ in range(generator.randrange(1, 8)):
        command.stdin.write(ADDITION.encode())
        command.stdin.flush()
        if b"made" in command.stdout.readline():
            answered += 1
    if generator.random() < 0.5:
        command.stdin.write(ADDITION.encode())
        command.stdin.flush()
    command.kill()
    command.wait()
    return answered


def kill_show(path, generator):
    """Kills `show` soon after its start."""
    command = start("show", path)
    time.sleep(generator.random() / 100)
    command.kill()
    command.wait()


def frames(data):
    at, found = 0, []
    while at < len(data):
        (size,) = struct.unpack(">I", data[at : at + 4])
        found.append(data[at : at + 4 + size])
        at += 4 + size
    return found


def killed_answers(name, path, given, generator):
    """Feeds frames one by one, kills the command after some answers, and gives what it answered."""
    command, answers = start(name, path), []
    for frame in given[: generator.randrange(1, len(given) + 1)]:
        command.stdin.write(frame)
        command.stdin.flush()
        if name == "take":
            answers.append(command.stdout.readline())
        else:
            head = command.stdout.read(4)
            answers.append(head + command.stdout.read(struct.unpack(">I", head)[0]))
    command.kill()
    command.wait()
    return answers


def main():
    generator = random.Random(1)
    with tempfile.TemporaryDirectory() as folder:
        client, server = f"{folder}/client", f"{folder}/server"
        whole("edit", client, b'{"uuid":"00000000-0000-4000-8000-000000000001"}\n' + SCHEMA.encode())
        whole("take", client, whole("serve", server, whole("send", client)))
        answered = 0
        for _ in range(ROUNDS):
            answered += killed_edits(client, generator)
            kill_show(client, generator)
            _, number = shown(client)
            assert number >= answered, f"{answered} additions were answered, and {number} stand"
            answered = number
            # the same upload and question, more than once
            given = frames(whole("send", client)) * 2 + frames(whole("ask", client))
            replies = killed_answers("serve", server, given, generator)
            kill_show(server, generator)
            _, stored = shown(server)
            killed_answers("take", client, replies, generator)
            _, number = shown(client)
            assert number == answered, f"a client that took replies has {number} in place of {answered}"
            assert stored <= answered, f"the server has {stored} of {answered}"
        for _ in range(2):
            whole("take", client, whole("serve", server, whole("send", client)))
            whole("take", client, whole("serve", server, whole("ask", client)))
        words, number = shown(client)
        _, stored = shown(server)
        assert words[-1] == "0" and number == answered and stored == answered, (words, number, stored, answered)
        print(f"{ROUNDS} rounds, {answered} additions: nothing that was answered is missing, and both agree")


main()
