#!/usr/bin/python3
"""What hostile callers get of a service: of one that it starts itself, or of one at a URL.

usage: attacks.py [--store files|sqlite|postgres]
       attacks.py BASE [--owner BASE] [--pid PID] [--secret FILE]

Over PostgreSQL it starts two workers, and all of it goes through the one that doesn't own the history. A service at a URL has the limits
LIMITS below, and HS256 tokens by the secret (that of support.py). With --owner another worker owns the history first. With --pid the memory
of that process is looked at."""

import argparse
import asyncio
import base64
import collections
import gzip
import json
import os
import random
import socket
import sys
import time
import urllib.parse
import uuid

import aiohttp
import jwt
import support

LIMITS = {"message_bytes": 1 << 20, "message_seconds": 3.0, "requests_per_second": 500.0, "user_connections": 100}
HELD = LIMITS["message_seconds"]
WAIT = 14.0  # after which a slow caller is taken for one that wasn't cut
BINARY, CLOSED = aiohttp.WSMsgType.BINARY, (aiohttp.WSMsgType.CLOSE, aiohttp.WSMsgType.CLOSED, aiohttp.WSMsgType.CLOSING)
GARBAGE = {"nothing": b"", "an unknown tag": b"\x63abc", "an Ident": b"\2" + b"u" * 16 + b"\1", "a cut Bind": b"\1abc", "a long Bind": b"\1" + b"u" * 17,
           "a cut Upload": b"\3", "an Upload with rubbish": b"\3\1\1\1\1", "a number without end": b"\4" + b"\xff" * 20, "a Download": b"\5\1\0\0",
           "a Stored": b"\7\1\1", "a cut Retire": b"\x09\1", "tables without a name": b"\x0b\1\0\0\2\1", "tables that are no text": b"\x0b\1\0\0\2\1\1\xff"}


class Attacks:
    def __init__(self, base, secret=support.SECRET, owner=None, pid=None):
        self.base, self.secret, self.owner, self.pid = base, secret, owner, pid
        self.at = urllib.parse.urlsplit(base)
        self.history = "attacked-" + uuid.uuid4().hex[:8]
        self.ann, self.bob = self.token("ann"), self.token("bob")
        self.checks, self.bad = 0, []
        self.seen = set()  # which door answered with which status

    # ---- tools

    def token(self, user, level="write", seconds=600, history=None, **more):
        claims = {"sub": user, "exp": time.time() + seconds, "realm": {history or self.history: level}, **more}
        return jwt.encode(claims, self.secret, "HS256")

    def check(self, what, got, want):
        fits = got in want if isinstance(want, (set, range)) else got == want
        self.checks += 1
        print(f"{'ok  ' if fits else 'BAD '} {what}: {got}", flush=True)
        if not fits:
            self.bad.append(what)

    def url(self, history=None):
        return f"{self.base}/v1/histories/{history or self.history}"

    async def post(self, message, token, history=None):
        headers = {"Authorization": "Bearer " + token} if token else {}
        async with self.session.post(self.url(history), data=message, headers=headers) as answer:
            return answer.status, await answer.read()

    async def status(self, message, token, history=None):
        return (await self.post(message, token, history))[0]

    async def get(self, path, token, **headers):
        headers |= {"Authorization": "Bearer " + token} if token else {}
        async with self.session.get(self.url() + path, headers=headers) as answer:
            await answer.read()
            return answer.status

    async def socket(self, token):
        return await self.session.ws_connect(self.url(), headers={"Authorization": "Bearer " + token})

    async def closed(self, token, message, as_text=False):
        """The code with which a socket is closed after that message."""
        try:
            opened = await self.socket(token)
        except aiohttp.WSServerHandshakeError as error:
            return error.status
        await (opened.send_str(message) if as_text else opened.send_bytes(message))
        got = await opened.receive(timeout=WAIT)
        code = opened.close_code if got.type in CLOSED else got.type.name
        await opened.close()
        return code

    def memory(self):
        if self.pid is None:
            return 0.0
        with open(f"/proc/{self.pid}/statm", encoding="ascii") as file:
            return int(file.read().split()[1]) * os.sysconf("SC_PAGE_SIZE") / 1e6

    # ---- in turn

    async def run(self):
        """All of it. True where each is as it should be."""
        noting = aiohttp.TraceConfig()
        noting.on_request_end.append(self.note)
        async with aiohttp.ClientSession(connector=aiohttp.TCPConnector(limit=0), trace_configs=[noting]) as self.session:
            if self.owner:
                headers = {"Authorization": "Bearer " + self.ann}
                async with self.session.get(f"{self.owner}/v1/histories/{self.history}/news?wait=0", headers=headers) as answer:
                    self.check("another worker owns it", answer.status, 204)
            await self.whose()
            await self.garbage()
            await self.tokens()
            await self.open_sockets()
            await self.other_doors()
            await self.sizes()
            await self.slow()
            await self.many_sockets()
            await self.flood()
            await self.described()
        print(f"{self.checks} checks, {len(self.bad)} bad", *self.bad, sep="\n    ")
        return not self.bad

    async def note(self, _session, _context, ended):
        """Of a history's doors, and of others."""
        first, found, behind = ended.url.raw_path.partition("/v1/histories/")
        at, name, rest = self.base in str(ended.url), *behind.partition("/")[::2]
        if at and not first and found and name:
            path = found + "{history}" + ("/" + rest if rest else "")
        elif at and not found:
            path = first
        else:
            return
        self.seen.add((ended.method.lower(), path, str(ended.response.status)))

    async def described(self):
        """Each answer that came is one that the page of the doors names."""
        async with self.session.get(self.base + "/openapi.json") as answer:
            paths = (await answer.json())["paths"]
        known = {(method, path, status) for path, methods in paths.items() for method, it in methods.items() for status in it["responses"]}
        self.check(f"the page of the doors names each of {len(self.seen)} kinds of answers", sorted(self.seen - known), [])

    async def whose(self):
        """Idents and uuids of others."""
        self.uuids = [uuid.uuid4().bytes for _ in range(3)]
        for what, token, number in (("ann binds", self.ann, 0), ("bob binds", self.bob, 1), ("ann binds a second device", self.ann, 2)):
            status, reply = await self.post(b"\1" + self.uuids[number], token)
            self.check(what, (status, reply[:1], reply[17:]), (200, b"\2", bytes([number + 1])))
        self.check("bob binds ann's uuid", await self.status(b"\1" + self.uuids[0], self.bob), 403)
        for tag, rest in ((3, b"\0"), (4, b"\0\0"), (8, b"\0\0"), (11, b"\0\0\1\1\1q")):
            self.check(f"bob under ann's ident, tag {tag}", await self.status(bytes([tag]) + b"\1" + rest, self.bob), 403)
        self.check("bob retires ann's device for his", await self.status(b"\x09\1\2", self.bob), 403)
        self.check("bob retires his for ann's", await self.status(b"\x09\2\1", self.bob), 403)
        self.check("an ident that nobody has", await self.status(b"\4\x63\0\0", self.bob), 403)
        self.check("ident 0", await self.status(b"\4\0\0\0", self.bob), 400)
        self.check("ann's ident spelled long by bob", await self.status(b"\4\x81\0\0\0", self.bob), 400)
        self.check("ann's ident spelled long by ann", await self.status(b"\4\x81\0\0\0", self.ann), 400)
        self.check("ident 2^32 + 1, as if it were 1", await self.status(b"\4\x81\x80\x80\x80\x10\0\0", self.ann), 400)
        reader = self.token("ron", "read")
        self.check("a reader binds", await self.status(b"\1" + uuid.uuid4().bytes, reader), 200)
        self.check("a reader asks", await self.status(b"\4\4\0\0", reader), 200)
        self.check("a reader uploads", await self.status(b"\3\4\0", reader), 403)
        self.check("a reader retires his own", await self.status(b"\x09\4\4", reader), 403)
        one = self.token("ann", device=str(uuid.UUID(bytes=self.uuids[0])))
        self.check("one device's token binds another", await self.status(b"\1" + uuid.uuid4().bytes, one), 403)
        self.check("one device's token for the user's other", await self.status(b"\4\3\0\0", one), 403)
        self.check("one device's token for itself", await self.status(b"\4\1\0\0", one), 200)
        some = self.token("tim", {"level": "write", "tables": ["notes"]})
        self.check("a token of some tables binds", await self.status(b"\1" + uuid.uuid4().bytes, some), 200)
        for what, message, want in (("for all tables", b"\4\5\0\0", 403), ("for all of form 2", b"\x08\5\0\0", 403),
                                    ("for another table", b"\x0b\5\0\0\2\1\1q", 403), ("for its own", b"\x0b\5\0\0\2\1\5notes", 200)):
            self.check(f"a token of some tables asks {what}", await self.status(message, some), want)

    async def garbage(self):
        for what, message in GARBAGE.items():
            self.check(f"{what} by POST", await self.status(message, self.ann), 400)
            self.check(f"{what} by socket", await self.closed(self.ann, message), 4400)
        drawn, statuses = random.Random(7), collections.Counter()
        for _ in range(600):
            statuses[await self.status(drawn.randbytes(drawn.randrange(1, 60)), self.ann)] += 1
        self.check("600 drawn messages", set(statuses) <= {400, 403}, True)
        self.check("it serves as before", await self.status(b"\4\1\0\0", self.ann), 200)

    async def tokens(self):
        ask, claims = b"\4\1\0\0", {"sub": "ann", "realm": {self.history: "write"}}
        none = jwt.encode({**claims, "exp": time.time() + 60}, None, "none")
        lasting = jwt.encode(claims, self.secret, "HS256")
        for what, token in (("no token", None), ("a token that has expired", self.token("ann", seconds=-1)), ("without a signature", none),
                            ("without an end", lasting), ("no token at all", "abc"), ("an empty one", " "),
                            ("a head without end", base64.urlsafe_b64encode(b"[" * 4000).decode() + ".e30.e30"),
                            ("of another secret", jwt.encode({**claims, "exp": time.time() + 60}, "y" * 40, "HS256"))):
            self.check(what, await self.status(ask, token), 401)
        cut = self.ann.rpartition(".")[0]
        self.check("a signature that is cut", await self.status(ask, cut + "."), 401)
        self.check("another history", await self.status(ask, self.ann, self.history + "x"), 403)
        everything = self.token("ann", "rule", history="*")
        self.check("a path for a name", await self.status(ask, everything, "..%2f..%2fetc%2fpasswd"), 404)
        self.check("a name that begins with a dot", await self.status(ask, everything, ".secret"), 404)
        self.check("a name of 129 letters", await self.status(ask, everything, "n" * 129), 404)
        self.check("a reader makes no history", await self.status(ask, self.token("ron", "read", history="*"), "new" + self.history), 404)
        self.check("its own generation", await self.status(ask, self.ann, self.history + "@1"), 200)
        self.check("a generation to come", await self.status(ask, self.ann, self.history + "@2"), 410)
        for given in ("@x", "@", "@-1", "@1@1", "@\u0661"):
            self.check(f"a generation {given}", await self.status(ask, self.ann, self.history + given), 404)

    async def open_sockets(self):
        """Tokens that end, or are renewed, while a socket is open."""
        opened = await self.socket(self.token("ann", seconds=2))
        await opened.send_bytes(b"\4\1\0\0")
        await opened.receive()
        began = time.monotonic()
        await opened.receive(timeout=WAIT)
        self.check("a token ends on an open socket", (opened.close_code, round(time.monotonic() - began) in (1, 2, 3)), (4401, True))
        opened = await self.socket(self.token("ann", seconds=2))
        await opened.send_str(json.dumps({"token": self.ann}))
        await asyncio.sleep(2.5)
        await opened.send_bytes(b"\4\1\0\0")
        self.check("a token that was renewed", (await opened.receive(timeout=WAIT)).type, BINARY)
        await opened.close()
        self.check("renewed by bob's token", await self.closed(self.ann, json.dumps({"token": self.bob}), True), 4403)
        self.check("renewed by none", await self.closed(self.ann, "[]", True), 4400)
        self.check("renewed by brackets", await self.closed(self.ann, "[" * 100_000, True), 4400)

    async def other_doors(self):
        reader, other = self.token("ron", "read"), self.token("ann", history="other")
        for path in ("/objects", "/entries", "/news?after=0&wait=0"):
            self.check(f"{path} without a token", await self.get(path, None), 401)
            self.check(f"{path} with another history's token", await self.get(path, other), 403)
            self.check(f"{path} by a reader", await self.get(path, reader), {200, 204})
        for path in ("/objects?key={", "/entries?from=-1", "/entries?from=99999999999", "/news?after=x", "/objects?table=q&key=1e9999",
                     "/objects?table=q&key=" + "[" * 4000, "/news?after=0&wait=nan", "/news?after=-inf", "/entries?from=\u00b2", "/entries?from=\u0661"):
            self.check(path[:40], await self.get(path, reader), {400, 404})
        for last in ("\u00b2", "4294967295", "9" * 4000):
            self.check(f"events behind {last[:12]}", await self.get("/entries", reader, **{"Last-Event-ID": last}), {200, 400})
        self.check("a GET that is no WebSocket's", await self.get("", reader), 400)
        self.check("a WebSocket without a key", await self.get("", reader, Upgrade="websocket", Connection="Upgrade"), 400)
        async with self.session.post(self.url() + "/trim", headers={"Authorization": "Bearer " + self.ann}) as answer:
            self.check("a writer trims", answer.status, 403)

    async def sizes(self):
        big = b"\3\1" + b"\0" * (3 << 20)
        try:
            got = await self.status(big, self.ann)
        except aiohttp.ClientError as error:
            got = type(error).__name__
        self.check("3 MiB by POST", got, {413, "ClientOSError", "ServerDisconnectedError"})
        try:
            got = await self.closed(self.ann, big)
        except (ConnectionError, aiohttp.ClientError) as error:  # closed before all of it was sent
            got = type(error).__name__
        began = time.monotonic()
        counted = self.status(b"\3\1\xff\xff\xff\x07" + b"\1\0\0\0" * (250 << 10), self.ann)
        statuses = await asyncio.gather(counted, *(self.status(b"\4\2\0\0", self.bob) for _ in range(3)))
        self.check("an Upload of a quarter of a million changes", (statuses, time.monotonic() - began < 2), ([400, 200, 200, 200], True))
        self.check("3 MiB by socket", got, {1009, 1006, 4413, "ConnectionResetError", "ClientConnectionResetError"})
        before = self.memory()
        for what, token in (("", self.ann), (" without a token", None)):
            self.check("a body that swells" + what, await self._swollen(token), {400, 401, 413})
        self.check("and takes no memory", self.memory() - before < 20, True)
        before = self.memory()
        self.check("requests that don't wait for answers are cut", await asyncio.to_thread(self._ahead), True)
        self.check("and take no memory", self.memory() - before < 20, True)
        before = self.memory()
        self.check("a frame of 2^40 bytes is cut", await asyncio.to_thread(self._huge), True)
        self.check("and takes no memory", self.memory() - before < 20, True)

    async def _swollen(self, token):
        """A body that is short as it is sent, and of 128 MiB when it is unpacked."""
        headers = {"Content-Encoding": "gzip", **({"Authorization": "Bearer " + token} if token else {})}
        async with self.session.post(self.url(), data=gzip.compress(b"\0" * (1 << 27), 1), headers=headers) as answer:
            await answer.read()
            return answer.status

    def _raw(self, request):
        made = socket.create_connection((self.at.hostname, self.at.port))
        made.settimeout(0.2)
        made.sendall(request)
        return made

    def _upgraded(self):
        lines = [f"GET {urllib.parse.urlsplit(self.url()).path} HTTP/1.1", "Host: x", "Upgrade: websocket", "Connection: Upgrade",
                 "Sec-WebSocket-Key: AAAAAAAAAAAAAAAAAAAAAA==", "Sec-WebSocket-Version: 13", f"Authorization: Bearer {self.ann}", "", ""]
        made = self._raw("\r\n".join(lines).encode())
        made.settimeout(5)
        made.recv(1000)
        made.settimeout(0.2)
        return made

    def _ahead(self):
        """Requests without end, none of whose answers is read. True where they are cut."""
        made = self._raw(b"")
        made.settimeout(5)
        try:
            for _ in range(1000):
                made.sendall(b"GET / HTTP/1.1\r\nHost: x\r\n\r\n" * 1000)
        except OSError as error:
            return not isinstance(error, TimeoutError)
        return False

    def _huge(self):
        made = self._upgraded()
        made.settimeout(5)
        try:
            made.sendall(b"\x82\xff" + (1 << 40).to_bytes(8, "big") + b"\0\0\0\0")
            for _ in range(1024):
                made.sendall(b"\0" * 65536)
        except OSError:
            return True
        return False

    @staticmethod
    def _drip(made, drip):
        """Sends a little again and again, and answers after how long the other side has ended it."""
        began = time.monotonic()
        while time.monotonic() - began < WAIT:
            try:
                made.sendall(drip(time.monotonic() - began))
                time.sleep(0.2)
                if made.recv(10) == b"":
                    break
            except TimeoutError:
                continue
            except OSError:
                break
        made.close()
        return time.monotonic() - began

    async def slow(self):
        """Requests and messages that never become whole."""
        path = urllib.parse.urlsplit(self.url()).path
        frame = self._upgraded()
        frame.sendall(b"\x82\xfe\x10\x00\0\0\0\0")
        begun = [False]

        def fragment(_):
            first, begun[0] = not begun[0], True
            return (b"\x02" if first else b"\x00") + b"\x81\0\0\0\0x"

        body = f"POST {path} HTTP/1.1\r\nHost: x\r\nContent-Length: 1000\r\nAuthorization: Bearer {self.ann}\r\n\r\n".encode()
        kinds = {
            "headers": (self._raw(f"GET {path} HTTP/1.1\r\n".encode()), lambda _: b"X-A: b\r\n"), "a frame": (frame, lambda _: b"\0"),
            "a body": (self._raw(body), lambda _: b"\0"), "half a request, and silence": (self._raw(b"GET / HT"), lambda _: b""),
            "fragments": (self._upgraded(), fragment),
        }
        took = await asyncio.gather(*(asyncio.to_thread(self._drip, *it) for it in kinds.values()))
        for what, seconds in zip(kinds, took):
            self.check(f"{what} that drips is cut after about {HELD:.0f} s", int(seconds), range(2, 9))

    async def many_sockets(self):
        opened, refused = [], 0
        for _ in range(130):
            try:
                opened.append(await self.socket(self.bob))
            except aiohttp.WSServerHandshakeError as error:
                refused += error.status == 429
        self.check("of 130 sockets of a user those refused", refused, 30)
        for it in opened:
            await it.close()

    async def flood(self):
        """Messages without end whose replies nobody reads."""
        opened, before, sent = await self.socket(self.bob), self.memory(), 0
        began = time.monotonic()
        try:
            while time.monotonic() - began < 3:
                await asyncio.wait_for(opened.send_bytes(b"\4\2\0\0"), 1)
                sent += 1
        except (asyncio.TimeoutError, OSError, RuntimeError):
            pass
        began = time.monotonic()
        self.check(f"another user during a flood of {sent} messages", await self.status(b"\4\1\0\0", self.ann), 200)
        self.check("and soon", time.monotonic() - began < 2, True)
        self.check("memory of the flood", self.memory() - before < 60, True)
        opened._response.close()


def attacked(store):
    """Attacks workers of its own. True where each answer is as it should be, and none of the workers failed."""
    given = support.stores(store)
    workers = [support.Service(given, limits=LIMITS).start().ready() for _ in range(2 if store == "postgres" else 1)]
    owner = workers[1].base if len(workers) > 1 else None
    is_well = asyncio.run(Attacks(workers[0].base, owner=owner, pid=workers[0].process.pid).run())
    for it in workers:
        is_well = it.stop() == 0 and "Traceback" not in it.said() and is_well
    return is_well


def main():
    words = argparse.ArgumentParser(description=__doc__, formatter_class=argparse.RawDescriptionHelpFormatter)
    words.add_argument("base", nargs="?")
    words.add_argument("--store", choices=("files", "sqlite", "postgres"), default="files")
    words.add_argument("--owner")
    words.add_argument("--pid", type=int)
    words.add_argument("--secret")
    given = words.parse_args()
    if given.base is None:
        sys.exit(0 if attacked(given.store) else 1)
    secret = support.SECRET
    if given.secret:
        with open(given.secret, encoding="utf-8") as file:
            secret = file.read().strip()
    sys.exit(0 if asyncio.run(Attacks(given.base, secret, given.owner, given.pid).run()) else 1)


if __name__ == "__main__":
    main()
