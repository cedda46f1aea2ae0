"""The crates of this repository, as crates.txt names them, and the folder of the toolchain."""
import os
import re
import shutil
import subprocess
import sys

TOP = os.path.dirname(os.path.dirname(os.path.abspath(__file__)))
PROGRAM, LIBRARY = "realm_sync", "sync_host_c"
ROW = re.compile(r"(\w+)( +staticlib)?:(.*)")


def stop(why):
    sys.exit(f"build: {why}")


def say(what):
    print(f"build: {what}", file=sys.stderr, flush=True)


def toolkit():
    """The folder of the toolchain."""
    if not shutil.which("rt"):
        stop("this takes rt, the command of the Rattle toolchain, and there is none on the PATH")
    page = subprocess.run(["rt", "doc"], check=True, capture_output=True, text=True).stdout
    return os.path.dirname(page.strip())


def put(made, out):
    """Puts a file in its place at once, so that nobody ever reads a part of it."""
    os.makedirs(os.path.dirname(out), exist_ok=True)
    shutil.copyfile(made, f"{out}.new")
    shutil.copymode(made, f"{out}.new")
    os.replace(f"{out}.new", out)


def keeping(room, kit, tool, script, saved):
    """A toolchain's folder in which one tool is this script."""
    real = f"{kit}/toolchain/bin"
    os.makedirs(f"{room}/bin")
    os.symlink(f"{kit}/toolchain/lib", f"{room}/lib")
    for name in os.listdir(real):
        if name != tool:
            os.symlink(f"{real}/{name}", f"{room}/bin/{name}")
    with open(f"{room}/bin/{tool}", "w", encoding="utf-8") as it:
        it.write(script.format(real=f"{real}/{tool}", saved=saved))
    os.chmod(f"{room}/bin/{tool}", 0o755)
    return room


class Crates:
    """What each crate names, and the line of crates.txt that says so."""

    def __init__(self):
        self.lines, self.uses = {}, {}
        with open(f"{TOP}/crates.txt", encoding="utf-8") as lines:
            for line in lines:
                found = ROW.fullmatch(line.split("#")[0].strip())
                if found:
                    self.lines[found[1]], self.uses[found[1]] = found[0], found[3].split()

    def below(self, *names):
        """These crates, and the repository's libraries that they stand on, each after those that it uses."""
        found = []

        def walk(name):
            if name in self.uses and name not in found:
                for it in self.uses[name]:
                    walk(it)
                found.append(name)

        for name in names:
            walk(name)
        return found

    def of_kit(self, names):
        """The toolchain's libraries that these crates name."""
        return list(dict.fromkeys(it for name in names for it in self.uses[name] if it not in self.uses))


def changed(names):
    """When the sources of these crates were changed last."""
    found = [f"{TOP}/crates.txt"]
    for name in names:
        for part in ("src", "specs", "proofs"):
            found += [f"{at}/{it}" for at, _, files in os.walk(f"{TOP}/crates/{name}/{part}") for it in files]
    return max(map(os.path.getmtime, found))


def is_current(product, names):
    """Whether a product is there, and none of these crates was changed since."""
    return os.path.exists(product) and os.path.getmtime(product) >= changed(names)
