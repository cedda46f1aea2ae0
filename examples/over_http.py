#!/usr/bin/env python3
"""Clients that sync with a server over HTTP: the sync loop of docs/EMBEDDING.md, and a front that authenticates.

The front knows each device by a token, and lets through only messages with that device's own uuid and ident. It hands them to
`./realm_sync serve`, one request after the other, and sends the replies back. A device takes `send` and `ask` to it until it is
up to date. Without arguments both run here: a phone and a laptop sync, and a third device tries the phone's ident.

usage: examples/over_http.py
       examples/over_http.py serve FILE PORT       (the devices are those below)
       examples/over_http.py sync FILE URL TOKEN
"""
import http.server
import os
import subprocess
import sys
import tempfile
import threading
import time
import urllib.error
import urllib.request

PROGRAM = os.path.join(os.path.dirname(os.path.dirname(os.path.abspath(__file__))), "realm_sync")
DEVICES = {"phone-token": 1, "laptop-token": 2, "thief-token": 3}
BIND, IDENT, UPLOAD, ASK, ASK2, ASK_TABLES = 1, 2, 3, 4, 8, 11


def uuid_of(device):
    return bytes.fromhex("00000000000040008000") + device.to_bytes(6, "big")


def run(command, file, given=b""):
    return subprocess.run([PROGRAM, command, file], input=given, stdout=subprocess.PIPE, check=True).stdout


def frame(message):
    return len(message).to_bytes(4, "big") + message


def messages(frames):
    """The messages of the frames; what is cut is left out."""
    found = []
    while len(frames) >= 4:
        length = int.from_bytes(frames[:4], "big")
        found.append(frames[4 : 4 + length])
        frames = frames[4 + length :]
    return found


def number(data):
    """The number at the front: groups of seven bits, the lowest first."""
    value = shift = 0
    for byte in data:
        value |= (byte & 127) << shift
        shift += 7
        if byte < 128:
            break
    return value


class Front(http.server.BaseHTTPRequestHandler):
    """Takes the frames of one device, looks whose they are, and hands them to the server's file."""

    file, idents = None, {}

    def ident(self, uuid):
        """The ident that the server gives to a device: a Bind that is repeated gets the same one."""
        if uuid not in self.idents:
            reply = messages(run("serve", self.file, frame(bytes([BIND]) + uuid)))[0]
            self.idents[uuid] = number(reply[17:])
        return self.idents[uuid]

    def is_own(self, message, uuid):
        """Whether a message says of itself that it is this device's."""
        if message[:1] == bytes([BIND]):
            return message[1:] == uuid
        return message[:1] in (bytes([it]) for it in (UPLOAD, ASK, ASK2, ASK_TABLES)) and number(message[1:]) == self.ident(uuid)

    def do_POST(self):
        device = DEVICES.get(self.headers.get("Authorization", "").removeprefix("Bearer "))
        given = self.rfile.read(int(self.headers.get("Content-Length", 0)))
        if device is None or not all(self.is_own(it, uuid_of(device)) for it in messages(given)):
            self.send_error(403)
            return
        reply = run("serve", self.file, given)
        self.send_response(200)
        self.send_header("Content-Length", str(len(reply)))
        self.end_headers()
        self.wfile.write(reply)

    def log_message(self, *_):
        pass


def post(url, token, frames):
    """Sends frames, again where the network failed: a repeated message does no harm."""
    request = urllib.request.Request(url, frames, {"Authorization": f"Bearer {token}"})
    for wait in (0.1, 0.5, 2, None):
        try:
            with urllib.request.urlopen(request, timeout=10) as reply:
                return reply.read()
        except urllib.error.HTTPError:
            raise
        except OSError:
            if wait is None:
                raise
            time.sleep(wait)


def standing(file):
    """Ident, cursor and unsent changesets of a client."""
    return [int(it) for it in run("show", file).split(b"\n", 1)[0].split()[1:]]


def sync(file, url, token):
    """Asks until nothing new comes, so that a file which was restored from a backup is told before it sends; then uploads and asks until nothing is
    unsent and nothing new comes. Tells what was refused."""
    for calls in (["ask"], ["send", "ask"]):
        before = None
        while before != standing(file) or (before[2] and "send" in calls):
            before = standing(file)
            for call in calls:
                frames = run(call, file)
                said = run("take", file, post(url, token, frames)).decode() if frames else ""
                if " refused " in said:
                    return f"stops: {said.split(' ', 1)[1].strip()}"
    return f"is up to date with {before[1]} entries"


def serve(file, port):
    Front.file = file
    return http.server.HTTPServer(("127.0.0.1", port), Front)


def demonstrate(folder):
    """A phone and a laptop that change one note, and a third device that sends a question under the phone's ident."""
    server = serve(os.path.join(folder, "server"), 0)
    threading.Thread(target=server.serve_forever, daemon=True).start()
    url = f"http://127.0.0.1:{server.server_port}"
    phone, laptop = os.path.join(folder, "phone"), os.path.join(folder, "laptop")
    table = b'{"op":"AddTable","table":"t","key":"Int"},{"op":"AddColumn","table":"t","column":"n","kind":"Int","nullable":false,"shape":"One"}'
    run("edit", phone, b'{"uuid":"00000000-0000-4000-8000-000000000001"}\n{"ms":1,"edits":[' + table + b',{"op":"CreateObject","table":"t","key":1}]}')
    run("edit", laptop, b'{"uuid":"00000000-0000-4000-8000-000000000002"}')
    print("phone", sync(phone, url, "phone-token"))
    print("laptop", sync(laptop, url, "laptop-token"))
    for file, amount in ((phone, b"2"), (laptop, b"3")):
        run("edit", file, b'{"ms":9,"edits":[{"op":"AddInteger","table":"t","key":1,"column":"n","amount":' + amount + b"}]}")
    for name, file in (("phone", phone), ("laptop", laptop), ("phone", phone)):
        print(name, sync(file, url, f"{name}-token"))
    try:
        post(url, "thief-token", run("ask", phone))
    except urllib.error.HTTPError as error:
        print("a question under the phone's ident:", error.code)
    one, other = (run("show", it).split(b"\n", 1)[1] for it in (phone, laptop))
    print(one.splitlines()[-1].decode())
    print("phone and laptop are", "equal" if one == other else "not equal")
    server.shutdown()


def main():
    words = sys.argv[1:]
    if len(words) == 3 and words[0] == "serve":
        serve(words[1], int(words[2])).serve_forever()
    elif len(words) == 4 and words[0] == "sync":
        print(sync(*words[1:]))
    elif not words:
        with tempfile.TemporaryDirectory() as folder:
            demonstrate(folder)
    else:
        sys.exit(__doc__)


if __name__ == "__main__":
    main()
