#!/usr/bin/env python3
"""Measures what the gate takes: the processor seconds of each crate's proof, of its tests and of its wrong bodies.

`rt ci` prints no times, so this script starts a command and looks, four times a second, at the processes below it. Each
`rattle` process names its crate. It proves the crate; or, with --test, its tests; or, in a folder of its own, a wrong body.
Linking, and the runs of tests and programs, are counted as runs. The whole is what the system counted, exactly; what the
script didn't see of it (the last moment of each process) is told. So are the longest chain of proofs, of which each waits for the one
before it, and that of the program: they bound the time on the clock.

usage: bench/gate.py [--save FILE] [--log FILE] [--into DOCUMENT [--marks NAME]] -- COMMAND WORD ..
       bench/gate.py --read FILE [--into DOCUMENT [--marks NAME]]

    bench/gate.py --save gate.json --log gate.log -- rt ci --anew
    bench/gate.py --read gate.json --into docs/ARCHITECTURE.md  # between the lines <!-- gate --> and <!-- end of gate -->
    bench/gate.py -- ./realm_sync gen 1 0                       # what a first run takes, where nothing is built
"""
import argparse
import collections
import json
import os
import re
import subprocess
import sys
import threading
import time

TOP = os.path.dirname(os.path.dirname(os.path.abspath(__file__)))
TICKS = os.sysconf("SC_CLK_TCK")
PAGE = os.sysconf("SC_PAGE_SIZE")
EACH = 0.25
KINDS = {"proof": "Proof", "tests": "Tests", "edits": "Wrong bodies", "runs": "Runs"}
PROGRAM = "realm_sync"


def read(path):
    """The bytes of a file, or none where its process has ended."""
    try:
        with open(path, "rb") as it:
            return it.read()
    except OSError:
        return b""


def link(path):
    try:
        return os.readlink(path)
    except OSError:
        return ""


class Process:
    """A process below the command: its parent, whose it is, and the seconds and the memory that were seen last."""

    def __init__(self, parent):
        self.parent, self.owner, self.seconds, self.bytes = parent, None, 0.0, 0

    def look(self, number):
        """Finds whose the process is, by its words and its folder. One that execs another program is looked at again."""
        words = read(f"/proc/{number}/cmdline").decode(errors="replace").split("\0")
        folder = link(f"/proc/{number}/cwd")
        self.owner = owner_of(words, folder)


def owner_of(words, folder):
    """The crate and the kind of what a process with these words does in this folder, or None."""
    run = next((re.search(r"/rt-run-[^/]*/bin/(\w+)", it) for it in words if "/rt-run-" in it), None)
    if run:
        return run[1].removesuffix("_tests"), "runs"
    crate = re.search(r"/crates/(\w+)$", folder)
    if words and words[0].endswith("/rattle-link") and crate:
        return crate[1], "runs"
    if not (words and words[0].endswith("/rattle") and "--crate-name" in words[:-1]):
        return None
    name = words[words.index("--crate-name") + 1]
    if "/rt-edit-" in folder:
        return name, "edits"
    if "--crate-checked" in words:
        return name, "runs"
    return name, "tests" if "--test" in words else "proof"


class Watch:
    """What was seen of all processes below one, until it ends."""

    def __init__(self, root):
        self.root, self.seen, self.most = root, {}, 0

    def look(self):
        parents, now = {}, {}
        for name in os.listdir("/proc"):
            if not name.isdigit():
                continue
            fields = read(f"/proc/{name}/stat").rpartition(b") ")[2].split()
            if len(fields) > 21:
                parents[int(name)] = int(fields[1])
                now[int(name)] = fields
        below = [it for it in now.items() if self.is_below(it[0], parents)]
        self.most = max(self.most, sum(int(fields[21]) for _, fields in below) * PAGE)
        for number, fields in below:
            self.take(number, fields)

    def is_below(self, number, parents):
        while number in parents:
            if number == self.root:
                return True
            number = parents[number]
        return False

    def take(self, number, fields):
        key = number, int(fields[19])
        if key not in self.seen:
            parent = next((it for it in reversed(self.seen) if it[0] == int(fields[1])), None)
            self.seen[key] = Process(parent)
        process = self.seen[key]
        if process.owner is None:
            process.look(number)
        process.seconds = (int(fields[11]) + int(fields[12])) / TICKS
        process.bytes = max(process.bytes, int(fields[21]) * PAGE)

    def owner(self, process):
        """Whose a process is: its own, or that of the nearest one above it that has an owner."""
        while process.owner is None and process.parent is not None:
            process = self.seen[process.parent]
        return process.owner

    def sums(self):
        """For each crate its seconds by kind and the most memory of one of its processes; and the seconds of all others."""
        crates, others = {}, 0.0
        for process in self.seen.values():
            owner = self.owner(process)
            if owner is None:
                others += process.seconds
                continue
            found = crates.setdefault(owner[0], dict.fromkeys([*KINDS, "bytes"], 0))
            found[owner[1]] += process.seconds
            found["bytes"] = max(found["bytes"], process.bytes)
        return crates, others


def measure(words, log):
    """Runs a command, and gives what was measured of it."""
    began = time.time()
    out = open(log, "wb") if log else None
    child = subprocess.Popen(words, stdout=out, stderr=subprocess.STDOUT if out else None)
    watch, ended = Watch(child.pid), threading.Event()

    def look():
        while not ended.wait(EACH):
            watch.look()

    looker = threading.Thread(target=look)
    looker.start()
    _, status, usage = os.wait4(child.pid, 0)
    child.returncode = os.waitstatus_to_exitcode(status)
    ended.set()
    looker.join()
    crates, others = watch.sums()
    seen = others + sum(it[kind] for it in crates.values() for kind in KINDS)
    return {
        "command": " ".join(words),
        "status": child.returncode,
        "date": time.strftime("%Y-%m-%d", time.gmtime(began)),
        "processors": len(os.sched_getaffinity(0)),
        "machine": model(),
        "clock": time.time() - began,
        "whole": usage.ru_utime + usage.ru_stime,
        "seen": seen,
        "others": others,
        "most": watch.most,
        "crates": crates,
    }


def model():
    found = re.search(r"^model name\s*:\s*(.*)$", read("/proc/cpuinfo").decode(errors="replace"), re.M)
    return found[1] if found else "unknown"


def listed():
    """What each crate of crates.txt stands on, as the file has it, in its order."""
    lines = read(os.path.join(TOP, "crates.txt")).decode().splitlines()
    parts = [it.partition(":") for it in lines if ":" in it and not it.startswith("#")]
    return {head.split()[0]: names.split() for head, _, names in parts}


def chains(below, seconds):
    """For each crate the chain of crates below it, with itself at the end, whose proofs take longest one after the other."""
    found = {}

    def chain(name):
        if name not in found:
            ways = [chain(it) for it in below[name] if it in below]
            found[name] = [*max(ways, key=lambda way: sum(map(seconds, way)), default=[]), name]
        return found[name]

    for name in below:
        chain(name)
    return found


def told(measured):
    """Lines that tell the longest chain of all, and that of the program: no number of processors makes these proofs shorter."""
    below = listed()
    seconds = lambda name: measured["crates"].get(name, {}).get("proof", 0)
    found = chains(below, seconds)
    length = lambda way: sum(map(seconds, way))
    ways = {"of all": max(found.values(), key=length, default=[]), "of the program": found.get(PROGRAM, [])}
    for what, way in ways.items():
        steps = ", ".join(f"`{name}` {seconds(name):.0f}" for name in way)
        yield f"The longest chain {what}: {minutes(length(way))} minutes of proofs, one after the other: {steps}."


def table(measured):
    """The table in Markdown, with the sums in its last row, a line that says what was measured, and the chains."""
    crates = measured["crates"]
    places = {name: place for place, name in enumerate(listed())}
    names = sorted(crates, key=lambda it: (places.get(it, len(places)), it))
    lines = [f"| Crate | {' | '.join(KINDS.values())} | Together | Most memory, GB |", f"|{'---|' * (len(KINDS) + 3)}"]
    sums = collections.Counter()
    for name in names:
        row = [crates[name][kind] for kind in KINDS]
        sums.update(dict(zip(KINDS, row)))
        lines.append(line(f"`{name}`", row, crates[name]["bytes"]))
    most = max((it["bytes"] for it in crates.values()), default=0)
    lines.append(line("all", [sums[kind] for kind in KINDS], most))
    unseen = max(measured["whole"] - measured["seen"], 0)
    lines += [
        "",
        f"Processor seconds of `{measured['command']}`, {measured['date']}, on {measured['processors']} processors"
        f" ({measured['machine']}): {minutes(measured['whole'])} minutes of processor time in {minutes(measured['clock'])}"
        f" minutes on the clock, and at most {measured.get('most', 0) / 1e9:.1f} GB of memory at once. Beside the rows, `rt` itself took {measured['others']:.0f} seconds, and {unseen:.0f} weren't seen.",
    ]
    for text in told(measured):
        lines += ["", text]
    if measured["status"]:
        lines.append(f"The command ended with status {measured['status']}.")
    return "\n".join(lines)


def line(name, row, most):
    cells = [f"{it:.0f}" if it >= 0.5 else "" for it in [*row, sum(row)]]
    return f"| {name} | {' | '.join(cells)} | {most / 1e9:.1f} |"


def minutes(seconds):
    return f"{seconds / 60:.0f}" if seconds >= 600 else f"{seconds / 60:.1f}"


def put(text, path, name):
    """Puts the table between the two marks of that name in a document."""
    marks = f"<!-- {name} -->\n", f"<!-- end of {name} -->"
    with open(path, encoding="utf-8") as it:
        whole = it.read()
    before, begin, rest = whole.partition(marks[0])
    _, end, after = rest.partition(marks[1])
    if not (begin and end):
        sys.exit(f"{path} has no lines {marks[0].strip()} and {marks[1]}")
    with open(path, "w", encoding="utf-8") as it:
        it.write(f"{before}{begin}{text}\n{end}{after}")


def main():
    words = argparse.ArgumentParser(description=__doc__, formatter_class=argparse.RawDescriptionHelpFormatter)
    words.add_argument("--save", metavar="FILE", help="keeps what was measured")
    words.add_argument("--log", metavar="FILE", help="takes what the command prints")
    words.add_argument("--read", metavar="FILE", help="prints the table of what was kept, and runs nothing")
    words.add_argument("--into", metavar="DOCUMENT", help="puts the table between the marks of a document")
    words.add_argument("--marks", metavar="NAME", default="gate", help="the name in these marks, gate where it is left out")
    words.add_argument("command", nargs="*", metavar="COMMAND", help="for example rt ci --anew")
    given = words.parse_args()
    if bool(given.read) == bool(given.command):
        words.error("either --read FILE, or -- and a command")
    if given.read:
        with open(given.read, encoding="utf-8") as it:
            measured = json.load(it)
    else:
        measured = measure(given.command, given.log)
    if given.save:
        with open(given.save, "w", encoding="utf-8") as it:
            json.dump(measured, it, indent=1)
    print(table(measured))
    if given.into:
        put(table(measured), given.into, given.marks)
    sys.exit(measured["status"])


if __name__ == "__main__":
    main()
