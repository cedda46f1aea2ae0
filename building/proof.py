"""Proves and builds by the way of the gate: `rt ci` on a copy of the crates that are needed, without their wrong bodies.

Crates are proved side by side, each over the statements of those below. A kit that keeps on
the machine what a run passed takes it for `rt ci` too, and what `rt ci` passed is taken here.
"""
import contextlib
import os
import re
import shutil
import subprocess
import tempfile
import time

from .crates import LIBRARY, PROGRAM, TOP, Crates, keeping, put, say, stop, toolkit

TOLD = re.compile(r"^rt: (\w+) (?:proved$|is kept)")
TIMES = re.compile(r"^\| `(\w+)` \| (\d+) ")
# Processor seconds of a crate that the table of check times doesn't have.
UNKNOWN = 30
KEEPS_MODULE_TOO = """#!/bin/sh
for word in "$@"; do
    case $word in *.bc) cp "$word" '{saved}' ;; esac
done
exec '{real}' "$@"
"""


def check_times():
    """Processor seconds of each crate's proof, as docs/ARCHITECTURE.md has them."""
    with open(f"{TOP}/docs/ARCHITECTURE.md", encoding="utf-8") as lines:
        return {found[1]: int(found[2]) for found in map(TIMES.match, lines) if found}


class Progress:
    """Tells how many crates are done, and about how long the others take: by the table, and by how fast this machine was so far."""

    def __init__(self, crates, names):
        self.crates, self.names, self.began = crates, names, time.monotonic()
        table = check_times()
        self.times = {it: table.get(it, UNKNOWN) for it in names}
        self.done, self.proved = set(), 0

    def minutes_left(self):
        """What is left at once side by side, or its longest chain where that is longer, at the speed of what was proved here so far."""
        chain = {}
        for name in self.names:
            own = 0 if name in self.done else self.times[name]
            chain[name] = own + max((chain[it] for it in self.crates.uses[name] if it in chain), default=0)
        left = sum(self.times[it] for it in self.names if it not in self.done)
        side_by_side = os.cpu_count() or 1
        slower = max(1.0, (time.monotonic() - self.began) * side_by_side / self.proved) if self.proved > 300 else 1.3
        return max(left / side_by_side, max(chain.values(), default=0)) * min(slower, 3) / 60

    def take(self, line):
        found = TOLD.match(line)
        if not found or found[1] in self.done or found[1] not in self.times:
            return
        self.done.add(found[1])
        if line.rstrip().endswith("proved"):
            self.proved += self.times[found[1]]
            say(f"{len(self.done)} of {len(self.names)} crates, about {self.minutes_left():.0f} minutes left")


def copy(names, crates, room):
    """The sources of these crates, without what was built and without their wrong bodies, and their lines of crates.txt."""
    for name in names:
        at = f"{TOP}/crates/{name}"
        shutil.copytree(at, f"{room}/crates/{name}", ignore=lambda folder, _, at=at: {"out", "must-fail"} if folder == at else set())
    shutil.copyfile(f"{TOP}/HANDLES", f"{room}/HANDLES")
    with open(f"{room}/crates.txt", "w", encoding="utf-8") as out:
        out.writelines(f"{crates.lines[it]}\n" for it in names)


@contextlib.contextmanager
def proved(names, log):
    """A folder in which these crates and all below them are proved and built."""
    toolkit()
    crates = Crates()
    needed = crates.below(*names)
    os.makedirs(os.path.dirname(log), exist_ok=True)
    with tempfile.TemporaryDirectory(prefix="realm_sync-proof-") as room:
        copy(needed, crates, room)
        progress = Progress(crates, needed)
        say(f"proving {len(needed)} crates as the gate does, about {progress.minutes_left():.0f} minutes where none is kept yet ({log})")
        words = {"cwd": room, "stdin": subprocess.DEVNULL, "stdout": subprocess.PIPE, "stderr": subprocess.STDOUT, "text": True, "errors": "replace"}
        with open(log, "w", encoding="utf-8") as out, subprocess.Popen(["rt", "ci"], **words) as ran:
            last = []
            for line in ran.stdout:
                out.write(line)
                progress.take(line)
                last = [*last[-20:], line]
        if ran.returncode:
            stop(f"not proved:\n{''.join(last)}")
        yield room


def build_program(out):
    """The program, proved."""
    with proved([PROGRAM], f"{TOP}/out/proof.log") as room:
        put(f"{room}/crates/{PROGRAM}/out/{PROGRAM}", out)


def build_words(kit, crates, room, name, main, to):
    """The toolchain's words that prove a crate over the libraries of a proved folder, and compile it for the plainest x86-64."""
    rlib = lambda it: f"{room}/crates/{it}/out/rlib/{it}.rlib"
    words = [f"{kit}/bin/rattle", "build", "--crate-name", name, main]
    for it in dict.fromkeys(["std", *crates.uses[name]]):
        words += ["--extern", f"{it}={rlib(it) if it in crates.uses else f'{kit}/rlibs/{it}.rlib'}"]
    for folder in [f"{kit}/rlibs", *(os.path.dirname(rlib(it)) for it in crates.below(name) if it != name)]:
        words += ["-L", f"dependency={folder}"]
    words += ["--antt-project", f"{kit}/rattle/logic/antt-project.json", "--logic-built", f"{kit}/logic_built"]
    return [*words, "--cpu", "x86-64", "--backend", "llvm", "--links", f"{name}=", "-o", to]


def compiled(name, main, kind, saved, log):
    """Compiles a crate over its proved libraries with a clang that keeps the module: the archive or object file, and the last line of its proof."""
    kit, crates = toolkit(), Crates()
    with proved([name], log) as room:
        toolchain = keeping(f"{room}/toolchain", kit, "clang", KEEPS_MODULE_TOO, f"{room}/module.bc")
        words = [*build_words(kit, crates, room, name, main, f"{room}/made"), *kind, "--toolchain", toolchain]
        how = {"cwd": f"{room}/crates/{name}", "stdin": subprocess.DEVNULL, "stdout": subprocess.PIPE, "stderr": subprocess.STDOUT, "text": True}
        ran = subprocess.run(words, **how)
        verdict = next((it for it in reversed(ran.stdout.splitlines()) if it.startswith("logic=proved ")), None)
        if ran.returncode or not verdict:
            stop(f"{name} was not built:\n{ran.stdout[-2000:]}")
        for part, out in saved.items():
            put(f"{room}/{part}", out)
    return verdict


def program_module(out):
    """The LLVM module of the program, over proved libraries."""
    return compiled(PROGRAM, "src/main.rt", [], {"module.bc": out}, f"{TOP}/out/proof.log")


def build_library(archive, module):
    """The C library's archive, proved, and its LLVM module."""
    saved = {"made": archive, "module.bc": module}
    return compiled(LIBRARY, "src/lib.rt", ["--crate-type", "staticlib"], saved, f"{TOP}/out/proof_of_library.log")
