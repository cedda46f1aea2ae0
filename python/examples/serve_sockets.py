#!/usr/bin/env python3
"""A server on a port of this machine, and eight clients that sync with it at once, each a process with a file of its own.

Each client works in rounds: it commits while it is offline, connects, syncs, and goes offline again. The server has a thread for each
connection, and its node answers one message at a time. Now and then the server drops a connection before it has replied, as networks
do, and the client begins the sync again. In the end all have the same objects, and a counter shows that each transaction counts once.
Nobody is authenticated here: examples/over_http.py shows the front that does it.

usage: serve_sockets.py
       serve_sockets.py client FILE NUMBER PORT ROUNDS
"""

import json
import os
import signal
import socket
import socketserver
import subprocess
import sys
import tempfile
import threading

from realm_sync import BadRequest, Client, Server

CLIENTS, ROUNDS, COMMITS = 8, 5, 20
DROP_EACH = 41  # of so many replies one is lost
LONGEST = 67_108_864  # bytes of a frame
SECONDS = 60  # nothing here may take longer


def frame(message):
    """A message on the wire: its length, the highest byte first, and the message."""
    return len(message).to_bytes(4, "big") + message


def read_frame(file):
    """The next message, or None at the end."""
    head = file.read(4)
    length = int.from_bytes(head, "big")
    if len(head) < 4 or length > LONGEST:
        return None
    message = file.read(length)
    return message if len(message) == length else None


# ---- the server


class Connection(socketserver.StreamRequestHandler):
    """Answers each message of one client, in a thread of its own."""

    timeout = SECONDS

    def handle(self):
        while (message := read_frame(self.rfile)) is not None:
            try:
                reply = self.server.node.take(message)  # holds the node's lock: one thread at a time
            except BadRequest:
                return  # no message: the peer isn't one of ours
            if self.server.is_dropped():
                return
            self.wfile.write(frame(reply))


class Listener(socketserver.ThreadingTCPServer):
    """Listens on a free port of this machine alone."""

    request_queue_size = CLIENTS

    def __init__(self, node):
        super().__init__(("127.0.0.1", 0), Connection)
        self.node = node
        self.replies = self.dropped = 0
        self.count_lock = threading.Lock()

    def is_dropped(self):
        with self.count_lock:
            self.replies += 1
            dropped = self.replies % DROP_EACH == 0
            self.dropped += dropped
            return dropped


# ---- a client


class Link:
    """A connection to the server while it lasts: `send` is what Client.sync asks for."""

    def __init__(self, port):
        self.socket = socket.create_connection(("127.0.0.1", port), timeout=SECONDS)
        self.file = self.socket.makefile("rwb")

    def send(self, message):
        self.file.write(frame(message))
        self.file.flush()
        reply = read_frame(self.file)
        if reply is None:
            raise ConnectionError("the server closed the connection")
        return reply

    def close(self):
        self.socket.close()


def sync(client, port):
    """Syncs, and begins again where the connection is lost: repeating a message never counts twice."""
    while True:
        link = Link(port)
        try:
            return client.sync(link.send)
        except ConnectionError:
            continue
        finally:
            link.close()


def work(client, number, round_):
    """What a user does offline: a note of one's own, a counter and a list that all share."""
    for turn in range(COMMITS):
        with client.transaction() as edits:
            if turn == 0:
                edits.create("notes", f"{number}/{round_}")
                edits.update("notes", f"{number}/{round_}", "text", f"round {round_} of client {number}")
            edits.add("notes", "all", "count", 1)
            if turn % 5 == 0:
                edits.append("notes", "all", "lines", f"{number}/{round_}/{turn}")


def new_client(client, number):
    """Every client makes the tables that it needs: made alike by several, they are there once."""
    client.born(f"00000000-0000-4000-8000-{number:012d}")
    with client.transaction() as edits:
        edits.add_table("notes", "Text")
        edits.add_column("notes", "text", "Text")
        edits.add_column("notes", "count", "Int")
        edits.add_column("notes", "lines", "Text", shape="List")
        edits.create("notes", "all")


def run_client(path, number, port, rounds):
    """The rounds of one client, and its objects at the end."""
    with Client(path) as client:
        if client.standing().last == 0:
            new_client(client, number)
        for round_ in range(rounds):
            work(client, number, round_)
            sync(client, port)
        sync(client, port)
        for line in client.lines():
            print(json.dumps(line, ensure_ascii=False))


# ---- all of them


def run_clients(folder, port, rounds):
    """Runs all clients at once, and answers what each has printed."""
    running = [
        subprocess.Popen(
            [sys.executable, os.path.abspath(__file__), "client", os.path.join(folder, f"client{number}"), str(number), str(port), str(rounds)],
            stdout=subprocess.PIPE,
            text=True,
        )
        for number in range(1, CLIENTS + 1)
    ]
    printed = [client.communicate()[0] for client in running]
    if any(client.returncode != 0 for client in running):
        sys.exit("a client failed")
    return printed


def main():
    with tempfile.TemporaryDirectory() as folder, Server(os.path.join(folder, "server")) as node, Listener(node) as listener:
        threading.Thread(target=listener.serve_forever, daemon=True).start()
        port = listener.server_address[1]
        run_clients(folder, port, ROUNDS)
        printed = run_clients(folder, port, 0)  # once more, when nobody writes any more
        listener.shutdown()
        have = [[json.loads(line) for line in text.splitlines()] for text in printed]
        counted = node.object("notes", "all")["cells"]
        want = CLIENTS * ROUNDS * COMMITS
        print(f"history: {node.standing().cursor} changes of {CLIENTS} clients")
        print(f"counter: {counted['count']} of {want}, list: {len(set(counted['lines']))} of {want // 5}")
        print("replies lost:", "some" if listener.dropped else "none")
        print("all equal:", all(objects == list(node.lines()) for objects in have))


if __name__ == "__main__":
    signal.alarm(2 * SECONDS)
    if sys.argv[1:2] == ["client"]:
        run_client(sys.argv[2], int(sys.argv[3]), int(sys.argv[4]), int(sys.argv[5]))
    else:
        main()
