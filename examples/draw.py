#!/usr/bin/env python3
"""Draws an exchange as an SVG: a lane for each client and one for the server, time from top to bottom.

In a lane stands what its node did: what it committed; which entries came into the history, and what of each instruction was
shifted or dropped there; which entries it took, and what that changed in its objects; what was refused. Arrows are messages that
were delivered. The script runs `./realm_sync replay` on the first lines of the exchange, one more each time, and draws what changed.

usage: examples/draw.py [--skip LINES] [--title TEXT] < events.jsonl > picture.svg

    examples/conflict.py --events A 'l = ["x","y"]' 'ListInsert l 1 "a"' 'ListErase l 1' | examples/draw.py --skip 20 > picture.svg

The input has the lines that `replay` reads. The first LINES are run and not drawn.
"""
import argparse
import html
import json
import os
import subprocess
import sys
import textwrap

PROGRAM = os.path.join(os.path.dirname(os.path.dirname(os.path.abspath(__file__))), "realm_sync")
OPS = ["", "AddTable", "AddColumn", "CreateObject", "EraseObject", "Update", "AddInteger", "ListUpdate", "ListInsert", "ListErase",
       "SetInsert", "SetErase", "DictUpdate", "Clear"]
KINDS = ["", "Int", "Bool", "Text", "Bytes", "Time", "Uuid", "Link"]
MISMATCHES = {"1": "TablesDiffer", "2": "ColumnsDiffer", "3": "SizesDiffer", "4": "Range"}

# Colours of boxes: the edge and the ground.
MADE, MERGED, TAKEN, REFUSED = ("#2f6f4f", "#e6f3ec"), ("#3b4f8f", "#e8ecf8"), ("#6b6b6b", "#f2f2f2"), ("#a33030", "#fbe9e9")
LANE, GAP, LINE, WIDE = 310, 40, 17, 37


class Bytes:
    """Reads the bytes of a changeset (docs/FORMATS.md, "Changesets")."""

    def __init__(self, data):
        self.data, self.at = data, 0

    def byte(self):
        self.at += 1
        return self.data[self.at - 1]

    def number(self):
        value = shift = 0
        while True:
            byte = self.byte()
            value |= (byte & 127) << shift
            shift += 7
            if byte < 128:
                return value

    def signed(self):
        value = self.number()
        return value // 2 if value % 2 == 0 else -(value + 1) // 2

    def run(self, length):
        self.at += length
        return self.data[self.at - length : self.at]

    def text(self):
        return self.run(self.number()).decode()

    def changes(self):
        self.byte()
        self.strings = [self.text() for _ in range(self.number())]
        return [self.change() for _ in range(self.number())]

    def name(self):
        return self.strings[self.number()]

    def key(self):
        return [self.signed, self.name, lambda: self.run(16).hex()][self.byte()]()

    def value(self):
        tag = self.byte()
        reads = [lambda: None, self.signed, lambda: bool(self.byte()), self.text, lambda: self.run(self.number()).hex(),
                 lambda: [self.signed(), self.signed()], lambda: self.run(16).hex(), lambda: [self.name(), self.key()]]
        return reads[tag]()

    def change(self):
        op = OPS[self.byte()]
        change = {"op": op, "table": self.name()}
        if op == "AddTable":
            self.byte()
        elif op == "AddColumn":
            change["column"] = self.name()
            kind, _, _ = self.byte(), self.byte(), self.byte()
            change["kind"] = KINDS[kind]
            if kind == 7:
                self.name()
        else:
            change["key"] = self.key()
            if op not in ("CreateObject", "EraseObject"):
                self.rest(op, change)
        return change

    def rest(self, op, change):
        change["column"] = self.name()
        if op.startswith("List"):
            change["place"], _ = self.number(), self.number()
        if op == "AddInteger":
            change["amount"] = self.signed()
        elif op == "DictUpdate":
            change["at"] = self.name()
            if self.byte():
                change["value"] = self.value()
            else:
                change["op"] = "DictErase"
        elif op not in ("ListErase", "Clear"):
            change["value"] = self.value()


def told(change):
    """A change in words: `ListInsert l 1 "a"`."""
    words = [change["op"]]
    if "column" not in change:
        words.append(str(change.get("key", change["table"])))
    elif change["op"] == "AddColumn":
        words.append(f"{change['column']} {change['kind']}")
    else:
        words.append(change["column"] if change["key"] == 1 else f"{change['column']} of {change['key']}")
    for field in ("place", "at", "amount"):
        if field in change:
            words.append(str(change[field]))
    if "value" in change:
        words.append(json.dumps(change["value"], ensure_ascii=False, separators=(",", ":")))
    return " ".join(words)


def alike(one, other):
    return all(one.get(it) == other.get(it) for it in ("op", "table", "key", "column", "at"))


def before_and_after(made, carried):
    """Each instruction as it was made, beside what is left of it or None: the alignment that changes least."""
    costs = {}
    for i in range(len(made), -1, -1):
        for j in range(len(carried), -1, -1):
            ways = [(0, None)] if i == len(made) and j == len(carried) else []
            if i < len(made):
                ways.append((2 + costs[i + 1, j][0], "drop"))
            if i < len(made) and j < len(carried) and alike(made[i], carried[j]):
                ways.append(((told(made[i]) != told(carried[j])) + costs[i + 1, j + 1][0], "keep"))
            costs[i, j] = min(ways, key=lambda it: it[0]) if ways else (10**6, None)
    found, i, j = [], 0, 0
    while i < len(made):
        kept = costs[i, j][1] == "keep"
        found.append((made[i], carried[j] if kept else None))
        i, j = i + 1, j + kept
    return found


def replay(lines):
    """The outcomes of these events, the history, and the cells of each node."""
    text = "".join(lines).encode()
    printed = subprocess.run([PROGRAM, "replay"], input=text, stdout=subprocess.PIPE, check=True).stdout.decode().splitlines()
    outcomes = [it.split(" ", 1)[1] for it in printed[: len(lines)]]
    history, cells, name = [], {}, None
    for line in printed[len(lines) :]:
        words = line.split()
        if words[0] == "entry":
            history.append((int(words[2]), int(words[3]), Bytes(bytes.fromhex(words[5])).changes()))
        elif words[0] in ("server", "client"):
            name = "server" if words[0] == "server" else json.loads(words[1])
            cells[name] = {}
        else:
            found = json.loads(line)
            for column, value in found.get("cells", {}).items():
                at = column if found["key"] == 1 else f"{column} of {found['key']}"
                cells[name][at] = json.dumps(value, ensure_ascii=False, separators=(",", ":"))
            if "cells" in found:
                cells[name][f"object {found['key']}"] = "there"
    return outcomes, history, cells


def differences(before, after):
    """What changed in the cells of a node, in words."""
    found = []
    for at in [*before, *[it for it in after if it not in before]]:
        one, other = before.get(at), after.get(at)
        if at.startswith("object ") and one != other:
            found.append(f"{at} {'is there' if other else 'is gone'}")
        elif one is not None and other is not None and one != other:
            found.append(f"{at}: {one} \u2192 {other}")
    return found


class Drawing:
    """The boxes and arrows of an exchange, row by row."""

    def __init__(self, events):
        self.events = events
        self.clients = [it["name"] for it in events if it["event"] == "client"]
        self.lanes = [self.clients[0], "server", *self.clients[1:]]
        self.made, self.messages, self.shapes, self.y = {}, {}, [], 64
        self.history, self.cells, self.cursors = [], {}, {}

    def step(self, event, outcome, history, cells, is_drawn):
        words = outcome.split()
        draws = getattr(self, event["event"], None)
        if draws:
            rows = draws(event, words, history, cells)
            if is_drawn:
                for row in rows:
                    row()
        elif is_drawn and event["event"] in ("restart", "stop", "upgrade"):
            self.box(event.get("node", event.get("client")), TAKEN, [f"{event['event']}: {outcome}"])
        self.history, self.cells = history, cells

    def edit(self, event, words, history, cells):
        client = event["client"]
        if words[0] != "made":
            return [lambda: self.box(client, REFUSED, [f"commit at {event['ms']} ms: {' '.join(words)}"])]
        number = int(words[1])
        self.made[self.clients.index(client) + 1, number] = event["edits"]
        lines = [f"commits {number}, at {event['ms']} ms", *(f"  {told(it)}" for it in event["edits"])]
        lines += [f"  {it}" for it in differences(self.cells.get(client, {}), cells[client])]
        return [lambda: self.box(client, MADE, lines)]

    def sends(self, event, words):
        if words[0] == "message":
            self.messages[int(words[1])] = (event["client"], event["event"].capitalize())
        return []

    def bind(self, event, words, history, cells):
        return self.sends(event, words)

    def upload(self, event, words, history, cells):
        return self.sends(event, words)

    def ask(self, event, words, history, cells):
        return self.sends(event, words)

    def deliver(self, event, words, history, cells):
        sender, what, span = (*self.messages.get(event["message"], (None, "?")), range(0))[:3]
        to = event["to"]
        if sender is None:
            return []
        arrow = lambda: self.arrow(sender if to == "server" else "server", to, what)
        if to == "server":
            return [arrow, *self.replied(sender, words, history)]
        return [arrow, *self.took(to, words, span, cells)]

    def replied(self, sender, words, history):
        if words[0] != "reply":
            return [lambda: self.box("server", TAKEN, [" ".join(words)])]
        kind = words[2]
        label, span = kind.capitalize(), range(0)
        if kind == "stored":
            label = f"Stored {words[4]}"
        elif kind == "download":
            span = range(int(words[4]), int(words[4]) + int(words[5]))
            label = f"Download of {len(span)}"
        self.messages[int(words[1])] = (sender, label, span)
        rows = []
        for version in range(len(self.history), len(history)):
            rows.append(lambda v=version: self.box("server", MERGED, self.entry(v, history[v])))
        if kind == "refused":
            why = MISMATCHES.get(words[5], f"code {words[5]}")
            rows.append(lambda: self.box("server", REFUSED, [f"refuses {sender}'s changeset {words[4]}", f"  {why}"]))
        return rows

    def entry(self, version, entry):
        origin, number, carried = entry
        lines = [f"entry {version}: {self.clients[origin - 1]}'s changeset {number}"]
        for made, left in before_and_after(self.made.get((origin, number), carried), carried):
            if left is None:
                lines.append(f"  {told(made)}  dropped")
            elif told(made) != told(left):
                lines.append(f"  {told(made)}  \u2192  {told(left)}")
            else:
                lines.append(f"  {told(made)}")
        return lines

    def took(self, client, words, span, cells):
        if words[0] == "refused":
            text = " ".join(words)
            if words[1] == "Mismatch":
                text = f"stops before entry {words[2]}: it and its own changeset {words[3]} can't be merged"
            elif words[1] == "WasRefused":
                text = f"changeset {words[2]} was refused"
            return [lambda: self.box(client, REFUSED, [text])]
        lines = [" ".join(words)]
        if words[0] == "took":
            number = self.clients.index(client) + 1
            begin, self.cursors[client] = self.cursors.get(client, 0), int(words[1])
            taken = [it for it in span if it >= begin]
            if not taken:
                return []
            names = [f"{it} (its own)" if self.history[it][0] == number else str(it) for it in taken]
            lines = [f"takes {'entry' if len(names) == 1 else 'entries'} {', '.join(names)}"]
        lines += [f"  {it}" for it in differences(self.cells.get(client, {}), cells[client])]
        return [lambda: self.box(client, TAKEN, lines)]

    def place(self, lane):
        return 20 + self.lanes.index(lane) * (LANE + GAP)

    def box(self, lane, colours, lines):
        lines = [part for it in lines for part in textwrap.wrap(it, WIDE, subsequent_indent="      ", drop_whitespace=False) or [""]]
        x, height = self.place(lane), LINE * len(lines) + 14
        self.shapes.append(f'<rect x="{x}" y="{self.y}" width="{LANE}" height="{height}" rx="5" fill="{colours[1]}" stroke="{colours[0]}"/>')
        for number, line in enumerate(lines):
            style = ' font-weight="600"' if number == 0 else ""
            if line.rstrip().endswith("dropped"):
                style = ' fill="#a33030"'
            self.shapes.append(self.text(x + 10, self.y + 20 + LINE * number, line, style))
        self.y += height + 10

    def arrow(self, sender, to, label):
        begin, end = self.place(sender) + LANE / 2, self.place(to) + LANE / 2
        back, y = -9 if begin < end else 9, self.y + 18
        self.shapes.append(f'<path d="M{begin} {y} H{end}" stroke="#444" fill="none"/>')
        self.shapes.append(f'<path d="M{end} {y} l{back} -4 v8 z" fill="#444"/>')
        middle = (begin + end) / 2
        self.shapes.append(f'<text x="{middle}" y="{y - 5}" text-anchor="middle" font-size="12" fill="#444">{html.escape(label)}</text>')
        self.y += 30

    def text(self, x, y, line, style=""):
        return f'<text x="{x}" y="{y}" xml:space="preserve"{style}>{html.escape(line)}</text>'

    def svg(self, title):
        width = 40 + len(self.lanes) * LANE + (len(self.lanes) - 1) * GAP
        head = [f'<svg xmlns="http://www.w3.org/2000/svg" width="{width}" height="{self.y + 10}" viewBox="0 0 {width} {self.y + 10}"'
                ' font-family="ui-monospace, Menlo, Consolas, monospace" font-size="13">',
                f"<title>{html.escape(title)}</title>", f'<rect width="{width}" height="{self.y + 10}" fill="#ffffff"/>']
        for lane in self.lanes:
            x = self.place(lane)
            name = "server" if lane == "server" else f"client {lane}"
            head.append(f'<path d="M{x + LANE / 2} 48 V{self.y}" stroke="#cccccc" stroke-dasharray="3 4"/>')
            head.append(f'<text x="{x + LANE / 2}" y="34" text-anchor="middle" font-size="16" font-weight="700">{html.escape(name)}</text>')
        return "\n".join([*head, *self.shapes, "</svg>"])


def main():
    words = argparse.ArgumentParser(description=__doc__, formatter_class=argparse.RawDescriptionHelpFormatter)
    words.add_argument("--skip", type=int, default=0, metavar="LINES")
    words.add_argument("--title", default="An exchange of clients with a server")
    given = words.parse_args()
    lines = [line.rstrip("\n") + "\n" for line in sys.stdin if line.strip()]
    drawing = Drawing([json.loads(it) for it in lines])
    for count, event in enumerate(drawing.events, 1):
        outcomes, history, cells = replay(lines[:count])
        drawing.step(event, outcomes[-1], history, cells, count > given.skip)
    print(drawing.svg(given.title))


if __name__ == "__main__":
    main()
