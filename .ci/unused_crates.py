#!/usr/bin/env python3
"""Lists what crates.txt says that a crate stands on and the crate names nowhere: not in src/, specs/ or proofs/.

What those stand on in turn the toolchain finds by itself, so it needs no name there. With --write it takes them out of crates.txt.
The status is 1 where there is any.

usage: .ci/unused_crates.py [--write]
"""
import os
import re
import sys

TOP = os.path.dirname(os.path.dirname(os.path.abspath(__file__)))
LIST = os.path.join(TOP, "crates.txt")


def text_of(crate):
    """All that stands in a crate's sources, definitions and proofs."""
    text = []
    for part in ("src", "specs", "proofs"):
        for folder, _, files in os.walk(os.path.join(TOP, "crates", crate, part)):
            for name in files:
                if name.endswith((".rt", ".antt")):
                    with open(os.path.join(folder, name), encoding="utf-8") as it:
                        text.append(it.read())
    return "\n".join(text)


def split(line):
    """A line's crate, what stands before the colon, and what it lists; or None for a line that names no crate."""
    head, colon, listed = line.partition(":")
    if not colon or line.startswith("#"):
        return None
    return head.split()[0], head, listed.split()


def unused(crate, listed):
    text = text_of(crate)
    return [name for name in listed if not re.search(rf"\b{name}\b", text)]


def main():
    if sys.argv[1:] not in ([], ["--write"]):
        sys.exit(__doc__.strip())
    with open(LIST, encoding="utf-8") as it:
        lines = it.read().split("\n")
    found = 0
    for place, line in enumerate(lines):
        parts = split(line)
        if parts is None:
            continue
        crate, head, listed = parts
        spare = unused(crate, listed)
        found += len(spare)
        if spare:
            print(f"{crate}: {' '.join(spare)}")
            kept = [name for name in listed if name not in spare]
            lines[place] = f"{head}:{''.join(' ' + name for name in kept)}"
    if sys.argv[1:]:
        with open(LIST, "w", encoding="utf-8") as it:
            it.write("\n".join(lines))
    sys.exit(1 if found and not sys.argv[1:] else 0)


if __name__ == "__main__":
    main()
