#!/usr/bin/env python3
"""Kills a program at each call of the system while it puts a client's short file in place of its file, and opens the file again.

Behind each kill the file has to be the old one or the new one, byte for byte, and its client the same. It takes strace (Debian:
`apt-get install strace`), and what examples/c/library.sh takes. What the system keeps when the machine itself stops isn't tried here.

usage: examples/c/killed_shrinks.py
"""
import collections
import os
import re
import subprocess
import tempfile

TOP = os.path.dirname(os.path.dirname(os.path.dirname(os.path.abspath(__file__))))
CALL = re.compile(r"^(\w+)\(", re.M)


def read(path):
    with open(path, "rb") as it:
        return it.read()


def calls_of(begin_anew, program, file):
    """Each call of the system that the program makes, by its name and how many of that name there were, from its start on."""
    begin_anew()
    seen = collections.Counter()
    with tempfile.NamedTemporaryFile("r") as trace:
        subprocess.run(["strace", "-o", trace.name, program, file], check=True)
        for name in CALL.findall(trace.read()):
            seen[name] += 1
            # (strace itself begins the program, and nothing is behind its end)
            if name not in ("execve", "exit_group"):
                yield name, seen[name]


def main():
    with tempfile.TemporaryDirectory() as folder:
        program, made, file = (os.path.join(folder, name) for name in ("shrink", "made", "phone"))
        library = subprocess.run([os.path.join(TOP, "examples/c/library.sh"), folder], check=True, stdout=subprocess.PIPE, text=True).stdout.split()
        source = os.path.join(TOP, "examples/c/shrink.c")
        subprocess.run(["cc", "-std=c11", "-Wall", "-Wextra", "-Wpedantic", "-Werror", "-I", os.path.join(TOP, "include"), source, *library, "-o", program], check=True)

        def run(*words):
            return subprocess.run([program, *words], check=True, stdout=subprocess.PIPE).stdout

        def begin_anew():
            for name in os.listdir(folder):
                if name.startswith("phone"):
                    os.remove(os.path.join(folder, name))
            with open(file, "wb") as it:
                it.write(old)

        run("make", made)
        old, objects = read(made), run("show", made)
        begin_anew()
        run(file)
        new = read(file)
        assert len(new) < len(old) and run("show", file) == objects
        found = {"old": 0, "new": 0}
        calls = list(calls_of(begin_anew, program, file))
        for name, count in calls:
            begin_anew()
            kill = f"inject={name}:signal=SIGKILL:when={count}"
            killed = subprocess.run(["strace", "-o", os.devnull, "-e", f"trace={name}", "-e", kill, program, file], stderr=subprocess.DEVNULL)
            assert killed.returncode != 0, f"{name} {count} didn't come"
            left = read(file)
            which = "old" if left == old else "new" if left == new else None
            assert which, f"a kill at {name} {count} leaves a file that is neither"
            assert run("show", file) == objects, f"behind a kill at {name} {count} the client is another one"
            found[which] += 1
            # what is left beside doesn't keep the next one from its work
            run(file)
            assert read(file) == new and not os.path.exists(file + ".shrunk")
        print(f"killed at each of {len(calls)} calls of the system: the file was the old one {found['old']} times, and the new one {found['new']} times")


if __name__ == "__main__":
    main()
