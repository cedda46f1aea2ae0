#!/usr/bin/env python3
"""about.py [--trial]: writes web/build.json, from which the page says what it runs. VERDICT is the last line of the check."""
import hashlib
import json
import os
import subprocess
import sys

WEB = os.path.abspath(f"{__file__}/../..")


def said(*words):
    return subprocess.run(words, cwd=WEB, check=True, capture_output=True, text=True).stdout.strip()


with open(f"{WEB}/realm_sync.wasm", "rb") as it:
    module = it.read()
is_changed = bool(said("git", "status", "--porcelain", "--", "../crates", "../crates.txt"))
about = {
    # That of the program's sources: a later one changes the page alone.
    "commit": said("git", "log", "-1", "--format=%H", "--", "../crates", "../crates.txt") + (" with changes" if is_changed else ""),
    "toolchain": said("rt", "version"),
    "verdict": os.environ["VERDICT"],
    "proved": "--trial" not in sys.argv,
    "bytes": len(module),
    "sha256": hashlib.sha256(module).hexdigest(),
}
with open(f"{WEB}/build.json", "w", encoding="utf-8") as it:
    json.dump(about, it, indent=2)
    it.write("\n")
print("\n".join(f"{key}: {value}" for key, value in about.items()))
