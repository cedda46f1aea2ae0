#!/usr/bin/env python3
"""retarget.py [--door] MODULE.bc OUT.wasm: compiles an LLVM module that the toolchain made for x86-64 to WebAssembly.

The module is that of the program, or with `--door` that of the C library (`sync_host_c`). It is taken as text, what its roots never
reach is dropped, its target is changed from x86-64 to wasm64 (both are 64-bit little endian, with the same sizes and alignments), and it
is compiled and linked with `heap.c`, `wide.c`, and `program.c` or `door.c`. binaryen then lowers the 64-bit memory to a 32-bit one, so
that any browser runs it. It stops at whatever it doesn't know: a foreign function, an intrinsic of x86, inline assembly, an indirect
call.
"""
import argparse
import dataclasses
import os
import re
import subprocess
import sys
import tempfile

HERE = os.path.dirname(os.path.abspath(__file__))

# What the page's host supplies (web/src/library.js). Of the calls on files it stops at those that the program never makes.
HOST = "read write rattle_arg rattle_env rattle_env_at rattle_errno rattle_set_errno".split()
FILES = "open close ftruncate fchmod fsync fdatasync flock statx lseek".split()
# What `heap.c` defines.
HEAP = "rattle_alloc rattle_realloc rattle_dealloc".split()


@dataclasses.dataclass(frozen=True)
class Kind:
    """A kind of module: the functions that are called from outside, those that it may call, and with what it is linked."""

    roots: frozenset[str]
    imports: tuple[str, ...]
    defined: tuple[str, ...]
    sources: tuple[str, ...]
    exports: tuple[str, ...]

    @property
    def known(self):
        return {*self.imports, *self.defined}


PROGRAM = Kind(
    roots=frozenset(["main"]),
    imports=(*HOST, *FILES),
    defined=(*HEAP, "__sysv_signal"),
    sources=("heap", "wide", "program"),
    exports=("program_main",),
)
DOOR = Kind(
    roots=frozenset(["realm_node_new", "realm_node_free", "realm_node_turn"]),
    imports=(),
    defined=tuple(HEAP),
    sources=("heap", "wide", "door"),
    exports=("door_new", "door_free", "door_room", "door_let", "door_turn"),
)

LAYOUT = "e-m:e-p:64:64-p10:8:8-p20:8:8-i64:64-i128:128-n32:64-S128-ni:1:10:20"
TARGET = "--target=wasm64-unknown-unknown -mcpu=lime1".split()
# Those with which the toolchain's own build compiles a module for wasm64.
PASSES = """-mllvm -expand-div-rem-bits=64 -mllvm -expand-fp-convert-bits=64 -mllvm -trap-unreachable
    -mllvm -disable-machine-licm -mllvm -disable-postra-machine-licm -mllvm -sink-common-insts=false
    -ffunction-sections -fdata-sections --no-default-config""".split()
STACK = 1 << 20
NAME = r'@(?:"((?:[^"\\]|\\.)*)"|([\w.$-]+))'
CALL = r'^ +(?:%(?:"[^"\n]*"|[\w.$-]+) = )?(?:(?:tail|musttail|notail) )?(?:call|invoke|callbr) '
ASSEMBLY = r'\basm (?:sideeffect |alignstack |inteldialect |unwind )*"'
# Assembly of no instruction, which keeps the compiler from moving reads and writes over an atomic operation. The module has one thread,
# and is compiled without atomics: such an operation is a plain one there, and nothing else sees in which order memory is written.
FENCE = re.compile(r'^ +call void asm sideeffect "", "~\{memory\}"\(\)[^\n]*\n', flags=re.M)
FUNCTION = re.compile(rf"^define [^@\n]*{NAME}\([^\n]*\n(?:[^}}\n][^\n]*\n|\n)*}}\n", flags=re.M)
DECLARED = re.compile(rf"^declare [^@\n]*{NAME}\(.*\n", flags=re.M)
# What is refused wherever it stands. A call is indirect where the line has no name of a function with arguments behind it.
FORMS = {
    "foreign variable": r"^@\S+ = external\b",
    "number of 80 bits": r"\bx86_fp80\b",
    "inline assembly": rf"{ASSEMBLY}|^module asm ",
    "indirect call": rf"{CALL}(?!.*(?:{NAME}\(|{ASSEMBLY}))",
}


def stop(why):
    sys.exit(f"retarget: {why}")


def run(*words):
    subprocess.run(words, check=True)


def toolchain():
    """The folder of the toolchain's clang and linker."""
    rt = subprocess.run(["rt", "doc"], check=True, capture_output=True, text=True).stdout
    return os.path.join(os.path.dirname(rt.strip()), "toolchain", "bin")


def name_of(found):
    """The name that a match of `NAME` found as its first one."""
    return found[1] or found[2]


def named(text):
    """All names of functions and variables that a text has."""
    return {quoted or plain for quoted, plain in re.findall(NAME, text)}


def reachable(text, kind):
    """The module without the functions that neither its roots nor a variable reaches, and without their declarations: the toolchain
    puts what starts threads into each module with an atomic operation."""
    bodies = {name_of(it): it[0] for it in FUNCTION.finditer(text)}
    found, new = set(), set(kind.roots) | named(FUNCTION.sub("", DECLARED.sub("", text)))
    while new:
        found |= new
        new = set().union(*(named(bodies[it]) for it in new if it in bodies)) - found
    kept = FUNCTION.sub(lambda it: it[0] if name_of(it) in found else "", text)
    return DECLARED.sub(lambda it: it[0] if name_of(it) in found else "", kept)


def declared(text):
    """The names that the module declares and doesn't define."""
    return {name_of(it) for it in DECLARED.finditer(text)}


def line_at(text, place):
    """The line of the text at a place, or its front."""
    start = text.rfind("\n", 0, place) + 1
    return text[start : start + 200].split("\n")[0].strip()


def refusals(text, kind):
    """What the module has for which this script can't answer."""
    names = declared(text)
    intrinsics = {it for it in names if it.startswith("llvm.")}
    found = [f"unknown foreign function: {it}" for it in sorted(names - intrinsics - kind.known)]
    found += [f"intrinsic of x86: {it}" for it in sorted(intrinsics) if it.startswith("llvm.x86.")]
    for what, form in FORMS.items():
        place = re.search(form, text, flags=re.M)
        found += [f"{what}: {line_at(text, place.start())}"] if place else []
    defined = {name_of(it) for it in FUNCTION.finditer(text)}
    return [*found, *(f"no {it}" for it in sorted(kind.roots - defined))]


def for_wasm(text):
    """The module's text for wasm64: its target, no attributes of x86, `main` as `program_main`, short names for the assembler."""
    text = re.sub(r"^target datalayout = .*$", f'target datalayout = "{LAYOUT}"', text, count=1, flags=re.M)
    text = re.sub(r"^target triple = .*$", 'target triple = "wasm64-unknown-unknown"', text, count=1, flags=re.M)
    text = re.sub(r' "(?:probe-stack|stack-probe-size|target-cpu|target-features|tune-cpu)"="[^"]*"', "", text)
    text = re.sub(r"@main\(", "@program_main(", text)
    short = {}
    return re.sub(r'@"((?:[^"\\]|\\.)*)"', lambda it: "@" + short.setdefault(it[1], f"f{len(short)}"), text)


def text_of(clang, module, kind, room):
    """The module as text, without what its roots never reach."""
    run(clang, "-x", "ir", module, "-S", "-emit-llvm", "-Xclang", "-disable-llvm-passes", "-o", f"{room}/module.ll")
    with open(f"{room}/module.ll", encoding="utf-8") as it:
        text = reachable(FENCE.sub("", it.read()), kind)
    if refusals(text, kind):
        stop("; ".join(refusals(text, kind)))
    functions = len(re.findall(r"^define ", text, flags=re.M))
    print(f"retarget: {functions} functions; foreign: {', '.join(sorted(declared(text) & kind.known))}")
    return text


def compile_module(clang, module, kind, room):
    """Compiles the module to an object file for wasm64, by way of its text."""
    text = text_of(clang, module, kind, room)
    with open(f"{room}/wasm.ll", "w", encoding="utf-8") as it:
        it.write(for_wasm(text))
    run(clang, *TARGET, *PASSES, "-O3", "-x", "ir", f"{room}/wasm.ll", "-S", "-o", f"{room}/wasm.s")
    with open(f"{room}/wasm.s", encoding="utf-8") as it:
        if re.search(r"^\s*call_indirect\b", it.read(), flags=re.M):
            stop("indirect call in the compiled module")
    run(clang, *TARGET, "--no-default-config", "-c", f"{room}/wasm.s", "-o", f"{room}/module.o")
    return f"{room}/module.o"


def compile_c(clang, room, name):
    """Compiles a C file of this folder to an object file for wasm64."""
    flags = "-std=c17 -O2 -fwrapv -ffreestanding -fno-builtin -nostdinc -Wall -Wextra -Werror".split()
    run(clang, *TARGET, *PASSES, *flags, "-c", f"{HERE}/{name}.c", "-o", f"{room}/{name}.o")
    return f"{room}/{name}.o"


def link(bin_, objects, kind, room):
    """Links the objects to a module with a memory of 64 bits."""
    imports = f"{room}/imports"
    with open(imports, "w", encoding="utf-8") as it:
        it.write("".join(f"{name}\n" for name in kind.imports))
    run(f"{bin_}/ld.lld", "-flavor", "wasm", "-mwasm64", "--no-entry", "--stack-first", "-z", f"stack-size={STACK}",
        *[f"--export={it}" for it in kind.exports], f"--allow-undefined-file={imports}", "--gc-sections", "--strip-debug", "--threads=1",
        "-o", f"{room}/linked.wasm", *objects)
    with open(f"{room}/linked.wasm", "rb") as it:
        linked = it.read()
    with open(f"{room}/wide.wasm", "wb") as it:
        it.write(without_table(linked))
    return f"{room}/wide.wasm"


def number_at(wasm, at):
    """A number of a module, and where it ends."""
    value = shift = 0
    while True:
        byte = wasm[at]
        value, shift, at = value | (byte & 127) << shift, shift + 7, at + 1
        if byte < 128:
            return value, at


def without_table(wasm):
    """The module without its table and what fills it (sections 4 and 9): nothing calls by it, since an indirect call is refused above, and
    binaryen 108 reads no table of a module with a 64-bit memory."""
    kept, at = wasm[:8], 8
    while at < len(wasm):
        begin = at
        length, body = number_at(wasm, at + 1)
        at = body + length
        if wasm[begin] not in (4, 9):
            kept += wasm[begin:at]
    return kept


def lower(wide, out, room):
    """Lowers the memory to one of 32 bits, and optimizes the module."""
    features = "memory64 bulk-memory sign-ext nontrapping-float-to-int mutable-globals multivalue".split()
    run("wasm-opt", *[f"--enable-{it}" for it in features], "--memory64-lowering", wide, "-o", f"{room}/narrow.wasm")
    run("wasm-opt", *[f"--enable-{it}" for it in features[1:]], "-O2", f"{room}/narrow.wasm", "-o", out)


def main():
    words = argparse.ArgumentParser(prog="retarget.py")
    words.add_argument("--door", action="store_true", help="the module is that of the C library")
    words.add_argument("module", metavar="MODULE.bc")
    words.add_argument("out", metavar="OUT.wasm")
    given = words.parse_args()
    kind = DOOR if given.door else PROGRAM
    bin_ = toolchain()
    with tempfile.TemporaryDirectory(prefix="retarget-") as room:
        objects = [compile_c(f"{bin_}/clang", room, it) for it in kind.sources]
        objects.append(compile_module(f"{bin_}/clang", given.module, kind, room))
        lower(link(bin_, objects, kind, room), given.out, room)
    print(f"retarget: {given.out}: {os.path.getsize(given.out)} bytes")


if __name__ == "__main__":
    main()
