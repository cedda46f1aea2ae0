#!/usr/bin/env python3
"""Drawn lives of files: phones that are put back, copied and moved, servers that are put back and trimmed, and clients that take over.

It runs the commands with a life (docs/formats/lives.md) over files, draws what happens to them, and loses, repeats and delays frames. After
each turn it reads all files by itself, and stops where one of these doesn't hold:

- each acknowledged transaction stands in a server's history, or in a client's file that is there;
- no history has a transaction twice, or one without those that its file had made or saved before it.

In the end each device takes over from its old files. Then each transaction stands in the history of its server, and each client has that
server's objects.

usage: bench/lives.py [SEEDS [FIRST SEED [TURNS [DEVICES]]]]        (10, 1, 60 and 4)
"""
import os
import random
import shutil
import subprocess
import sys
import tempfile

from replay import BUILD, PROGRAM

# a folder in memory, where there is one: a sync costs nothing there
MEMORY = "/dev/shm" if os.path.isdir("/dev/shm") else None
SCHEMA = '{"op":"AddTable","table":"t","key":"Int"},{"op":"AddColumn","table":"t","column":"n","kind":"Int","nullable":true,"shape":"One"},'
# what a client is told where a new one has to take over from it
HELD_UP = ("Diverged", "FileForked", "WasRefused 0 60", "WasRefused 0 71", "WasRefused 0 72", "WasRefused 0 73", "WasRefused 0 74")
ROUNDS = 8


def varint(data, at):
    value, shift = 0, 0
    while True:
        byte = data[at]
        value |= (byte & 0x7F) << shift
        at, shift = at + 1, shift + 7
        if byte < 0x80:
            return value, at


def pieces(path):
    """The records and notes of a journal, in their order (docs/FORMATS.md, "The journal")."""
    with open(path, "rb") as file:
        data = file.read()
    assert data[:8] == b"RSYNCJ01", path
    at, found = 8, []
    while data[at] == 1:
        size = int.from_bytes(data[at + 1 : at + 5], "big")
        found.append(data[at + 5 : at + 5 + size])
        at += 5 + size
    return found


def token_at(data, at):
    number, end = varint(data, at + 16)
    return (data[at : at + 16], number), end


class ClientFile:
    """What a client's file says: its transactions by token, each with the number at which it stands, and what is unsent."""

    def __init__(self, path):
        self.tokens, self.uuid, self.birth, self.cursor = [], None, None, 0
        life = saved = None
        for piece in pieces(path):
            tag = piece[0]
            if tag == 3:
                number, _ = varint(piece, 1)
                self.tokens.append(saved or (life, number))
            elif tag == 1:
                self.uuid = piece[1:17]
            elif tag == 4:
                self.cursor += 1
            elif tag == 12:
                self.cursor, _ = varint(piece, 1)
            elif tag == 18:
                life = piece[1:17]
            elif tag == 19:
                self.birth = piece[1:17]
            saved = token_at(piece, 1)[0] if tag == 21 else None


class ServerFile:
    """What a server's file says: the tokens of its entries in their order, and up to which number it has those of each life."""

    def __init__(self, path):
        self.tokens, self.reached, self.birth, self.floor = [], {}, None, 0
        uuids, lives, saved = [], {}, None
        for piece in pieces(path):
            tag = piece[0]
            if tag == 5:
                uuids.append(piece[1:17])
            elif tag == 6:
                ident, at = varint(piece, 1)
                number, _ = varint(piece, at)
                self.entry(saved or (lives.get(ident, uuids[ident - 1]), number))
            elif tag == 12:
                self.floor, _ = varint(piece, 1)
            elif tag == 18 and self.birth is None:
                self.birth = piece[1:17]
            elif tag == 23:
                ident, at = varint(piece, 1)
                lives[ident] = piece[at : at + 16]
            elif tag == 25:
                life, number = token_at(piece, 1)[0]
                self.reached[life] = max(number, self.reached.get(life, 0))
            if tag != 7:
                saved = token_at(piece, 1)[0] if tag == 24 else None

    def entry(self, token):
        self.tokens.append(token)
        assert not self.has(token), f"a transaction stands twice: {token[0].hex()} {token[1]}"
        self.reached[token[0]] = token[1]

    def has(self, token):
        return token[1] <= self.reached.get(token[0], 0)


class Device:
    def __init__(self, name, server):
        self.name, self.server, self.files, self.late = name, server, 1, []
        self.old = []

    def file(self):
        return f"{self.name}.{self.files}"


class World:
    def __init__(self, folder, seed, devices):
        self.folder, self.draw, self.next_key = folder, random.Random(seed), 1
        self.servers = ["S", "T"]
        self.devices = [Device(f"d{number}", self.servers[number % 2 if number > 2 else 0]) for number in range(devices)]
        # each transaction that was acknowledged, and what stood before it in its file
        self.made, self.before, self.backups, self.requests = {}, {}, {}, []
        self.told = {}
        for device in self.devices:
            self.begin(device)

    # ---- commands

    def path(self, name):
        return os.path.join(self.folder, name)

    def life(self):
        return "%032x" % self.draw.getrandbits(128)

    def run(self, *words, given=b"", statuses=(0,)):
        ran = subprocess.run([PROGRAM, *words], input=given, capture_output=True, cwd=self.folder)
        assert ran.returncode in statuses, (words, ran.returncode, ran.stderr)
        return ran.stdout

    def begin(self, device):
        """A new client's file, which begins with the server's objects where that has given up its first entries."""
        uuid = "%s-%s-4%s-8%s-%s" % tuple(self.draw.randbytes(size).hex()[cut:] for size, cut in ((4, 0), (2, 0), (2, 1), (2, 1), (6, 0)))
        if os.path.exists(self.path(device.server)) and ServerFile(self.path(device.server)).floor:
            with open(self.path(device.file()), "wb") as file:
                file.write(self.run("start", device.server, uuid))
        else:
            self.run("edit", device.file(), self.life(), given=('{"uuid":"%s"}\n' % uuid).encode())

    def edit(self, device):
        if not os.path.exists(self.path(device.file())):
            return
        count, lines = self.draw.randint(1, 3), []
        for _ in range(count):
            lines.append('{"ms":%d,"edits":[%s{"op":"CreateObject","table":"t","key":%d}]}\n' % (self.next_key, SCHEMA if self.draw.random() < 0.5 else "", self.next_key))
            self.next_key += 1
        before = ClientFile(self.path(device.file())).tokens
        said = self.run("edit", device.file(), self.life(), given="".join(lines).encode()).decode()
        after = ClientFile(self.path(device.file())).tokens
        # a line may be refused, as where the table isn't there
        assert said.count(" made ") == len(after) - len(before), (said, len(before), len(after))
        for place in range(len(before), len(after)):
            self.made[after[place]] = device.server
            self.before[after[place]] = after[:place]

    def serve(self, server, frames):
        """The server's replies to frames; None where nothing came through."""
        chance = self.draw.random()
        if chance < 0.1:
            return None
        self.requests.append((server, frames))
        replies = self.run("serve", server, self.life(), given=frames)
        if chance < 0.2:
            replies += self.run("serve", server, self.life(), given=frames)
        return None if self.draw.random() < 0.1 else replies

    def take(self, device, replies):
        if replies is None:
            return ""
        if self.draw.random() < 0.1:
            device.late.append(replies)
            return ""
        return self.run("take", device.file(), self.life(), given=replies).decode()

    def exchange(self, device, sure=False):
        """What the device is told where it is held up, and whether it is at the history's end with nothing unsent."""
        told = ""
        for word in ("ask", "send", "ask"):
            frames = self.run(word, device.file(), self.life(), statuses=(0,))
            if not frames:
                continue
            if sure:
                told += self.run("take", device.file(), self.life(), given=self.run("serve", device.server, self.life(), given=frames)).decode()
            else:
                told += self.take(device, self.serve(device.server, frames))
        for why in HELD_UP:
            if why in told:
                return why
        if "OtherHistory" in told:
            return "OtherHistory"
        return None

    # ---- what happens to files

    def back_up(self, name):
        copy = f"backup.{len(self.backups)}"
        if os.path.exists(self.path(name)):
            shutil.copy(self.path(name), self.path(copy))
            self.backups[copy] = name

    def put_back_client(self, device):
        mine = [copy for copy, name in self.backups.items() if name == device.file()]
        if not mine:
            return
        # the newer file is kept aside, so that nothing is lost by the user's own hand
        kept = f"{device.name}.kept{len(device.old)}"
        shutil.copy(self.path(device.file()), self.path(kept))
        device.old.append(kept)
        shutil.copy(self.path(self.draw.choice(mine)), self.path(device.file()))

    def put_back_server(self, server):
        mine = [copy for copy, name in self.backups.items() if name == server]
        if mine:
            shutil.copy(self.path(self.draw.choice(mine)), self.path(server))

    def copy(self, device):
        twin = Device(f"d{len(self.devices)}", device.server)
        shutil.copy(self.path(device.file()), self.path(twin.file()))
        twin.old = [*device.old]
        self.devices.append(twin)

    def trim(self, server):
        if os.path.exists(self.path(server)):
            self.run("trim", "--replace", server)

    def move(self, device):
        """The app is pointed at the other server, is told, and goes back."""
        home = device.server
        device.server = next(it for it in self.servers if it != home)
        self.exchange(device)
        device.server = home

    def late(self, device):
        if device.late:
            self.run("take", device.file(), self.life(), given=device.late.pop(self.draw.randrange(len(device.late))))

    def repeat(self):
        if self.requests:
            server, frames = self.draw.choice(self.requests)
            self.run("serve", server, self.life(), given=frames)

    # ---- a client that takes over

    def take_over(self, device):
        """A new client of the device joins, and saves what its old files made and the history hasn't."""
        device.old.append(device.file())
        device.files += 1
        device.late = []
        self.begin(device)
        for _ in range(2):
            if self.exchange(device, sure=True):
                return
        for old in device.old:
            if not ClientFile(self.path(old)).tokens:
                continue
            claim = self.run("claim", device.file(), old, self.life())
            answer = self.run("serve", device.server, self.life(), given=claim)
            said = self.run("recover", device.file(), old, self.life(), given=answer).decode()
            assert "refused" not in said, said
            self.exchange(device, sure=True)
        for token in ClientFile(self.path(device.file())).tokens:
            self.before.setdefault(token, [])

    # ---- what has to hold

    def check(self):
        files = {name: ClientFile(self.path(name)) for device in self.devices for name in [device.file(), *device.old] if os.path.exists(self.path(name))}
        servers = {name: ServerFile(self.path(name)) for name in self.servers if os.path.exists(self.path(name))}
        there = {token for file in files.values() for token in file.tokens}
        for token in self.made:
            assert token in there or any(server.has(token) for server in servers.values()), f"lost: {token[0].hex()} {token[1]}"
        for server in servers.values():
            for token in self.made:
                if server.has(token):
                    for one in self.before[token]:
                        assert server.has(one), f"{token[0].hex()} {token[1]} stands without {one[0].hex()} {one[1]}"

    def turn(self):
        device, server = self.draw.choice(self.devices), self.draw.choice(self.servers)
        chance = self.draw.random()
        if chance < 0.30:
            self.edit(device)
        elif chance < 0.62:
            self.meet(device)
        elif chance < 0.72:
            self.back_up(self.draw.choice([device.file(), server]))
        elif chance < 0.78:
            self.put_back_client(device)
        elif chance < 0.82:
            self.put_back_server(server)
        elif chance < 0.86 and len(self.devices) < 8:
            self.copy(device)
        elif chance < 0.90:
            self.trim(server)
        elif chance < 0.93:
            self.move(device)
        elif chance < 0.97:
            self.late(device)
        else:
            self.repeat()

    def meet(self, device, sure=False):
        why = self.exchange(device, sure)
        if why:
            self.told[why] = self.told.get(why, 0) + 1
            self.take_over(device)
        return why

    def show(self, name):
        return [line for line in self.run("show", name).decode().splitlines() if line.startswith("{")]

    def settle(self):
        """Everybody meets until nobody is told anything, and then all have everything."""
        for _ in range(ROUNDS):
            told = [self.meet(device, sure=True) for device in self.devices]
            told += [self.meet(device, sure=True) for device in self.devices]
            if not any(told):
                break
        else:
            raise AssertionError("no end of taking over")
        # what a server lost that was put back stands in old files alone, from which each device takes over once more
        for device in self.devices:
            self.take_over(device)
        for _ in range(2):
            for device in self.devices:
                why = self.exchange(device, sure=True)
                assert why is None, why
        self.check()
        for server in self.servers:
            mine = [device for device in self.devices if device.server == server]
            if not mine:
                continue
            history, objects = ServerFile(self.path(server)), self.show(server)
            for device in mine:
                assert self.show(device.file()) == objects, (device.name, server)
                for name in device.old:
                    for token in ClientFile(self.path(name)).tokens:
                        assert history.has(token), f"not taken over: {name} {token[0].hex()} {token[1]}"


def one(seed, turns, devices):
    with tempfile.TemporaryDirectory(dir=MEMORY) as folder:
        world = World(folder, seed, devices)
        for turn in range(turns):
            try:
                world.turn()
                world.check()
            except AssertionError as why:
                raise AssertionError(f"seed {seed}, turn {turn}: {why}") from why
        try:
            world.settle()
        except AssertionError as why:
            raise AssertionError(f"seed {seed}, at the end: {why}") from why
        return world


def main():
    count, first, turns, devices = [int(word) for word in sys.argv[1:]] + [10, 1, 60, 4][len(sys.argv) - 1 :]
    subprocess.run(BUILD, stdin=subprocess.DEVNULL, stdout=subprocess.DEVNULL, check=True)
    made, told = 0, {}
    for seed in range(first, first + count):
        world = one(seed, turns, devices)
        made += len(world.made)
        for why, times in world.told.items():
            told[why] = told.get(why, 0) + times
        print(f"seed {seed}: {len(world.made)} transactions, {len(world.devices)} devices, {sum(world.told.values())} times told", flush=True)
    print(f"{count} seeds of {turns} turns: {made} transactions, none lost; told: " + ", ".join(f"{why} {times}" for why, times in sorted(told.items())))


if __name__ == "__main__":
    main()
