#!/usr/bin/env python3
"""Shows what becomes of two changes that are made apart.

Two clients have the object 1 of a table t, with the columns n (a number), m (a number or null), s (a text), l (a list of texts),
u (a set of numbers) and d (a dictionary of numbers). A makes its changes at 10 milliseconds, B at 20, so B's are the later.
Then both sync, once with A's upload first and once with B's. The script prints what all three nodes have afterwards, or who is
refused, and fails where they differ.

usage: examples/conflict.py BEFORE A B
       examples/conflict.py FILE                     a row BEFORE | A | B in each line
       examples/conflict.py --events A|B BEFORE A B  prints the lines for replay, in which that client uploads first

    examples/conflict.py 'l = ["x","y"]' 'ListInsert l 1 "a"' 'ListErase l 1'
    examples/conflict.py examples/conflicts/lists.txt

BEFORE has cells and objects, as `n = 0; object 2`; A and B have changes. `;` stands between them.

Changes: Update C V, AddInteger C N, ListInsert C PLACE V, ListUpdate C PLACE V, ListErase C PLACE, SetInsert C V, SetErase C V,
DictUpdate C KEY V, DictErase C KEY, Clear C, CreateObject [KEY], EraseObject [KEY], AddTable T KIND, AddColumn C KIND.
V is JSON. The program is ./realm_sync.
"""
import json
import os
import subprocess
import sys

PROGRAM = os.path.join(os.path.dirname(os.path.dirname(os.path.abspath(__file__))), "realm_sync")
KINDS = {"1": "TablesDiffer", "2": "ColumnsDiffer", "3": "SizesDiffer", "4": "Range"}
SCHEMA = [{"op": "AddTable", "table": "t", "key": "Int"}] + [
    {"op": "AddColumn", "table": "t", "column": name, "kind": kind, "nullable": nullable, "shape": shape}
    for name, kind, nullable, shape in (
        ("n", "Int", False, "One"),
        ("m", "Int", True, "One"),
        ("s", "Text", False, "One"),
        ("l", "Text", False, "List"),
        ("u", "Int", False, "Set"),
        ("d", "Int", False, "Dict"),
    )
]


class Edits:
    """Reads changes, and keeps how long each list is, which a change of a list has to say."""

    def __init__(self, lengths):
        self.lengths = dict(lengths)

    def read(self, text):
        return [self.edit(it.strip()) for it in text.split(";") if it.strip()]

    def given(self, text):
        """The changes that make the cells: `l = ["x","y"]`, `object 2`."""
        found = []
        for part in filter(None, map(str.strip, text.split(";"))):
            name, _, value = map(str.strip, part.partition("="))
            if name.startswith("object "):
                found.append(f"CreateObject {name.split()[1]}")
            elif name in ("n", "m", "s"):
                found.append(f"Update {name} {value}")
            elif name == "d":
                found += [f"DictUpdate d {key} {json.dumps(it)}" for key, it in json.loads(value).items()]
            elif name == "u":
                found += [f"SetInsert u {json.dumps(it)}" for it in json.loads(value)]
            else:
                found += [f"ListInsert {name} {place} {json.dumps(it)}" for place, it in enumerate(json.loads(value))]
        return self.read(";".join(found))

    def edit(self, text):
        has_place = text.startswith(("List", "Dict"))
        op, *rest = text.split(None, 3 if has_place else 2)
        if op == "AddTable":
            return {"op": op, "table": rest[0], "key": rest[1]}
        if op == "AddColumn":
            return {"op": op, "table": "t", "column": rest[0], "kind": rest[1], "nullable": False, "shape": "One"}
        if op in ("CreateObject", "EraseObject"):
            return {"op": op, "table": "t", "key": json.loads(rest[0]) if rest else 1}
        edit = {"op": op, "table": "t", "key": 1, "column": rest[0]}
        if op.startswith("List"):
            edit.update(self.spot(op, rest[0], int(rest[1])))
        elif op.startswith("Dict"):
            edit["at"] = rest[1]
        elif op == "AddInteger":
            edit["amount"] = int(rest[1])
        elif op == "Clear":
            self.lengths[rest[0]] = 0
        if op in ("ListInsert", "ListUpdate", "DictUpdate"):
            edit["value"] = json.loads(rest[2])
        elif op in ("Update", "SetInsert", "SetErase"):
            edit["value"] = json.loads(rest[1])
        return edit

    def spot(self, op, column, place):
        prior = self.lengths.get(column, 0)
        self.lengths[column] = prior + {"ListInsert": 1, "ListErase": -1}.get(op, 0)
        return {"place": place, "prior": prior}


class Exchange:
    """The lines of an exchange: messages are numbered as replay counts them."""

    def __init__(self):
        self.lines, self.messages = [], 0

    def event(self, kind, **fields):
        self.lines.append({"event": kind, **fields})

    def round_trip(self, name, client):
        self.event(name, client=client)
        self.event("deliver", message=self.messages + 1, to="server")
        self.event("deliver", message=self.messages + 2, to=client)
        self.messages += 2

    def join(self, client, number):
        self.event("client", name=client, uuid=f"00000000-0000-4000-8000-{number:012d}")
        self.round_trip("bind", client)
        self.event("upgrade", client=client)

    def text(self):
        return "".join(json.dumps(it, separators=(",", ":")) + "\n" for it in self.lines)


def exchange(before, sides, first):
    """Both clients have what is before. Each makes its changes, and they upload one after the other; then all take all."""
    made = Exchange()
    made.join("A", 1)
    made.join("B", 2)
    edits = Edits({})
    start = [*SCHEMA, {"op": "CreateObject", "table": "t", "key": 1}, *edits.given(before)]
    made.event("edit", client="A", ms=1, edits=start)
    made.round_trip("upload", "A")
    made.round_trip("ask", "A")
    made.round_trip("ask", "B")
    for client, ms in (("A", 10), ("B", 20)):
        made.event("edit", client=client, ms=ms, edits=Edits(edits.lengths).read(sides[client]))
    for call in ("upload", "ask"):
        for client in (first, "B" if first == "A" else "A"):
            made.round_trip(call, client)
    return made


def replay(text):
    done = subprocess.run([PROGRAM, "replay"], input=text.encode(), stdout=subprocess.PIPE, check=True)
    return done.stdout.decode().splitlines()


def dumps(lines):
    """The dump of each node of a report, by its name."""
    found, name = {}, None
    for line in lines:
        words = line.split()
        if words[0] in ("server", "client"):
            name = words[0] if words[0] == "server" else json.loads(words[1])
            found[name] = []
        elif line.startswith("{"):
            found[name].append(json.loads(line))
    return found


def told(dump, edits):
    """What a dump has of all that the edits name."""
    said = []
    for edit in edits:
        op = edit["op"]
        if op == "AddTable":
            keys = [it["key"] for it in dump if it.get("table") == edit["table"] and "cells" not in it and "column" not in it]
            said += [f"table {edit['table']} of {it} keys" for it in keys] or [f"no table {edit['table']}"]
        elif op == "AddColumn":
            kinds = [it["kind"] for it in dump if it.get("column") == edit["column"]]
            said += [f"column {edit['column']} of {it}" for it in kinds] or [f"no column {edit['column']}"]
        else:
            cells = [it["cells"] for it in dump if "cells" in it and it["key"] == edit["key"]]
            name = f"object {edit['key']}"
            if not cells:
                said.append(f"no {name}")
            elif "column" in edit:
                said.append(f"{edit['column']} = {json.dumps(cells[0][edit['column']], separators=(',', ':'))}")
            else:
                said.append(name)
    return ", ".join(dict.fromkeys(said))


def result(before, sides, first):
    """What all nodes have after the exchange, or who was refused."""
    made = exchange(before, sides, first)
    lines = replay(made.text())
    refused = [it.split()[3:] for it in lines if " reply " in it and " refused " in it]
    if refused:
        _, ident, _, code, _ = refused[0]
        return f"the server refuses the second upload, of client {'AB'[int(ident) - 1]}: {KINDS.get(code, code)}"
    found = dumps(lines)
    if not found["A"] == found["B"] == found["server"]:
        sys.exit("the nodes differ")
    edits = Edits({}).read(sides["A"]) + Edits({}).read(sides["B"])
    return told(found["server"], edits)


def row(before, side_a, side_b):
    """What all nodes have in the end, whoever uploads first."""
    sides = {"A": side_a, "B": side_b}
    one, two = (result(before, sides, it) for it in "AB")
    if one != two and "refuses" not in one:
        sys.exit(f"it depends on who uploads first: {one}; {two}")
    return [before or "-", side_a, side_b, one]


def show(rows):
    """The rows, each column as wide as its widest cell."""
    rows = [["before", "A, at 10 ms", "B, at 20 ms", "afterwards"], *rows]
    widths = [max(map(len, column)) for column in zip(*rows)]
    for cells in rows:
        print("  ".join(cell.ljust(width) for cell, width in zip(cells, widths)).rstrip())


def main():
    words = sys.argv[1:]
    if len(words) == 5 and words[0] == "--events" and words[1] in ("A", "B"):
        print(exchange(words[2], {"A": words[3], "B": words[4]}, words[1]).text(), end="")
    elif len(words) == 3:
        show([row(*words)])
    elif len(words) == 1:
        with open(words[0], encoding="utf-8") as it:
            rows = [[cell.strip() for cell in line.split("|")] for line in it if line.strip()]
        show([row(*cells) for cells in rows])
    else:
        sys.exit(__doc__)


if __name__ == "__main__":
    main()
