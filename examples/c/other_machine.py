#!/usr/bin/env python3
"""Compiles the C library's LLVM module for another machine: one with 64 bits, the lowest byte first.

The module is what the toolchain made for x86-64 (`./build library.bc`). As for WebAssembly (wasm/retarget.py) it is taken as text, what the
library's calls never reach is dropped, and its target is changed; it stops at whatever it doesn't know. The allocator that it is linked
with, examples/c/heap.c, is compiled in the same way, so that both pass values alike.

usage: examples/c/other_machine.py MODULE.bc TARGET OUT.o        (and OUT.o.heap.o)
       TARGET is clang's: aarch64-linux-gnu, riscv64-linux-gnu, aarch64-linux-android21, arm64-apple-ios13, arm64-apple-macos11,
       x86_64-w64-windows-gnu
"""
import os
import re
import subprocess
import sys
import tempfile

HERE = os.path.dirname(os.path.abspath(__file__))
TOP = os.path.dirname(os.path.dirname(os.path.dirname(os.path.abspath(__file__))))
sys.dont_write_bytecode = True
sys.path.insert(0, f"{TOP}/wasm")
from retarget import DOOR, FENCE, reachable, refusals, run, stop, toolchain  # noqa: E402

NAMED = r'^target {} = "(.*)"$'


def target_of(clang, target):
    """The layout and the full name of a target, as clang writes them."""
    words = [clang, f"--target={target}", "-S", "-emit-llvm", "-x", "c", "/dev/null", "-o", "-"]
    text = subprocess.run(words, check=True, capture_output=True, text=True).stdout
    return [re.search(NAMED.format(it), text, re.M)[1] for it in ("datalayout", "triple")]


def retargeted(text, layout, triple):
    """The module's text for that machine, without the attributes of x86."""
    for name, value in (("datalayout", layout), ("triple", triple)):
        text = re.sub(NAMED.format(name), f'target {name} = "{value}"', text, count=1, flags=re.M)
    return re.sub(r' "(?:probe-stack|stack-probe-size|target-cpu|target-features|tune-cpu)"="[^"]*"', "", text)


def library_text(clang, module, room):
    """The library's module as text, without what its calls never reach."""
    run(clang, "-x", "ir", module, "-S", "-emit-llvm", "-Xclang", "-disable-llvm-passes", "-o", f"{room}/module.ll")
    with open(f"{room}/module.ll", encoding="utf-8") as it:
        text = reachable(it.read(), DOOR)
    # (what orders memory around an atomic operation stays: these machines have threads)
    if found := refusals(FENCE.sub("", text), DOOR):
        stop("; ".join(found))
    return text


def heap_text(clang, room):
    run(clang, "--target=x86_64-linux-gnu", "-O1", "-fno-builtin", "-S", "-emit-llvm", f"{HERE}/heap.c", "-o", f"{room}/heap.ll")
    with open(f"{room}/heap.ll", encoding="utf-8") as it:
        return it.read()


def main():
    if len(sys.argv) != 4:
        sys.exit(__doc__)
    module, target, out = sys.argv[1:]
    clang = f"{toolchain()}/clang"
    layout, triple = target_of(clang, target)
    if not layout.startswith("e-") or re.search(r"-p:(?!64)", layout):
        stop(f"{target} isn't a machine of 64 bits with the lowest byte first: {layout}")
    position = [] if "windows" in triple else ["-fPIC"]
    with tempfile.TemporaryDirectory(prefix="other-machine-") as room:
        for text, made in ((heap_text(clang, room), f"{out}.heap.o"), (library_text(clang, module, room), out)):
            with open(f"{room}/other.ll", "w", encoding="utf-8") as it:
                it.write(retargeted(text, layout, triple))
            run(clang, f"--target={target}", "-O2", *position, "-ffunction-sections", "-c", "-x", "ir", f"{room}/other.ll", "-o", made)
    print(f"{out}: {os.path.getsize(out)} bytes for {triple}")


main()
