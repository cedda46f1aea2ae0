#!/usr/bin/env python3
"""Fuzzes the C library: arbitrary requests and messages over a live server and two clients (examples/c/fuzz.c), by libFuzzer.

Processes share a corpus: one with AddressSanitizer and UndefinedBehaviorSanitizer over the header, and faster ones without, one where no
other number is asked for. Each makes its share of the executions. A crash, an input that takes 100 seconds, a process of more than 1 GB, an allocation of more than
256 MB at once, or a leak ends it with status 1; the input lies in the folder then. The corpus stays, and the next run begins with it. The
last lines tell how many executions there were, and how many of the archive's basic blocks were visited.

It takes clang with libFuzzer (Debian: clang, libclang-rt-14-dev), binutils, and what examples/c/library.sh takes.

usage: bench/fuzz.py [--runs N] [--minutes M] [--plain P] [--folder FOLDER] [--nice N]
"""
import argparse
import bisect
import os
import re
import subprocess
import sys

TOP = os.path.dirname(os.path.dirname(os.path.abspath(__file__)))
LIMITS = ["-max_len=1024", "-timeout=100", "-rss_limit_mb=1024", "-malloc_limit_mb=256", "-len_control=20"]

WORDS = """uuid upgrade ms edits op table key column kind nullable shape target value amount place prior at tables bytes secs nanos link
AddTable AddColumn CreateObject EraseObject Update AddInteger ListInsert ListUpdate ListErase SetInsert SetErase DictUpdate DictErase
Clear Int Bool Text Bytes Time Uuid Link One List Set Dict true false null""".split()

# Requests, each to be put behind a step's byte and its length: docs/FORMATS.md.
LINES = [
    b'{"tables":["t"]}',
    b'{"ms":5,"edits":[{"op":"AddTable","table":"u","key":"Uuid"},{"op":"CreateObject","table":"u","key":{"uuid":"00000000-0000-4000-8000-000000000009"}}]}',
    b'{"ms":6,"edits":[{"op":"AddColumn","table":"t","column":"x","kind":"Time","nullable":true,"shape":"List"},'
    b'{"op":"ListInsert","table":"t","key":1,"column":"x","place":0,"prior":0,"value":{"secs":-1,"nanos":-5}}]}',
    b'{"ms":7,"edits":[{"op":"AddColumn","table":"t","column":"b","kind":"Bytes","nullable":true,"shape":"One"},'
    b'{"op":"Update","table":"t","key":1,"column":"b","value":{"bytes":"00ff"}}]}',
    b'{"ms":8,"edits":[{"op":"AddColumn","table":"t","column":"f","kind":"Bool","nullable":false,"shape":"Set"},'
    b'{"op":"SetInsert","table":"t","key":1,"column":"f","value":true}]}',
]
MESSAGES = [
    bytes.fromhex("04010000"),
    bytes.fromhex("08010101"),
    bytes.fromhex("0b0200000101" "0174"),
    bytes.fromhex("090201"),
    bytes.fromhex("0a020100"),
    bytes.fromhex("0601020b00"),
    bytes.fromhex("070101"),
    bytes.fromhex("050100" "01" "020100" "03" "010000"),
    bytes.fromhex("0301" "01" "020101" "09" "010101740103000004"),
    bytes.fromhex("0502" "01" "01" "030100" "12" "0203017401640161010c0000020102010106"),
]
JOURNAL = b"RSYNCJ01\x01\0\0\0\x11\x01" + bytes.fromhex("00000000000040008000000000000001") + b"\x01\0\0\0\x02\x07\x02\0"
OBJECT = b'{"table":"t","key":1}'


def step(kind, node, rest=b""):
    """A step of examples/c/fuzz.c; node 0 is the server."""
    return bytes([kind * 3 + node]) + rest


def run_of(data):
    return (bytes([len(data)]) if len(data) < 255 else bytes([255, len(data) & 255, len(data) >> 8])) + data


def seeds():
    """Edits of each kind by both clients, rounds, messages as they are and changed, and the requests above."""
    rounds = step(1, 1) + step(1, 2) + step(1, 1)
    edits = [bytes([edit, 4, where]) for edit in range(21) for where in (0, 9)]
    yield b"".join(step(0, 1, bytes([0]) + edit) for edit in edits[:10]) + rounds
    yield from (step(0, 1, bytes([4]) + a) + step(0, 2, bytes([8]) + b) + rounds for a in edits for b in edits[::3])
    yield from (step(2, node, bytes([how]) + b"\x01\x02" * 3) + rounds for node in (1, 2) for how in range(0, 256, 7))
    yield from (step(0, 1, b"\0" + edit) + step(2, 1, b"\x40\x0f\x05\x13\x01") + rounds + step(8, 1, b"\1\x03\x07") for edit in edits)
    yield from (step(4, node, run_of(it)) + rounds for node in range(3) for it in MESSAGES)
    yield from (step(5, node, run_of(it)) + rounds for node in (1, 2) for it in LINES)
    yield step(6, 1, run_of(OBJECT)) + step(7, 0) + step(11, 2) + step(3, 0, b"\3") + step(3, 2, b"\4")
    yield from (step(9, node, run_of(it) + b"\5") for node in range(3) for it in (b"N", b"B", b"U\0\0\0\0", b"A", b"G\2\0\0\0", b"D", b"I", b"O" + OBJECT, b"x"))
    yield step(10, 2, run_of(JOURNAL)) + step(2, 2, b"\0") + step(9, 0, run_of(b"c" + JOURNAL) + b"\5")


def blocks_of(program, archive):
    """Where the basic blocks of the archive's functions begin in a program: a function's first instruction, what a jump leads to, and what
    stands behind a conditional jump."""
    names = {line.split()[-1] for line in text_of("nm", "--defined-only", archive).splitlines() if re.search(r" [Tt] ", line)}
    own, found, after_jump, places = False, set(), False, []
    for line in subprocess.Popen(["objdump", "-d", "--no-show-raw-insn", program], stdout=subprocess.PIPE, text=True).stdout:
        if head := re.match(r"([0-9a-f]+) <(.+)>:", line):
            own, after_jump = head[2] in names, False
            found |= {int(head[1], 16)} if own else set()
        elif own and (instruction := re.match(r" +([0-9a-f]+):\t(\w+) *([0-9a-f]*)", line)):
            place = int(instruction[1], 16)
            places.append(place)
            found |= {place} if after_jump else set()
            is_jump = instruction[2].startswith("j")
            after_jump = is_jump and instruction[2] != "jmp"
            found |= {int(instruction[3], 16)} if is_jump and instruction[3] else set()
    places.sort()
    return sorted(it for it in found if (at := bisect.bisect_left(places, it)) < len(places) and places[at] == it)


def text_of(*words):
    return subprocess.run(words, stdout=subprocess.PIPE, stderr=subprocess.PIPE, text=True, check=True).stdout


def build(folder):
    """Builds the program with sanitizers and without, and lists the blocks of each."""
    linked = text_of(os.path.join(TOP, "examples", "c", "library.sh"), folder).split()
    source = os.path.join(TOP, "examples", "c", "fuzz.c")
    words = ["-g", "-fno-pie", "-no-pie", "-Wall", "-Wextra", "-Werror", "-I" + os.path.join(TOP, "include"), source, *linked]
    programs = {
        os.path.join(folder, "sanitized"): ["-O1", "-fsanitize=fuzzer,address,undefined", "-fno-sanitize-recover=all"],
        os.path.join(folder, "plain"): ["-O2", "-fsanitize=fuzzer"],
    }
    for program, how in programs.items():
        subprocess.run(["clang", *how, *words, "-o", program], check=True)
        with open(program + ".blocks", "w") as file:
            file.writelines(f"{it:x}\n" for it in blocks_of(program, linked[0]))
    return list(programs)


def write_inputs(folder):
    """The first corpus, and a dictionary of words."""
    corpus = os.path.join(folder, "corpus")
    os.makedirs(corpus, exist_ok=True)
    for number, seed in enumerate(seeds()):
        with open(os.path.join(corpus, f"seed{number}"), "wb") as file:
            file.write(bytes([number & 1 | 2]) + seed)
    with open(os.path.join(folder, "words"), "w") as file:
        file.writelines(f'"{word}"\n' for word in WORDS)
    return corpus


def start(program, corpus, options, runs, name=""):
    """One fuzzing process, which writes into its log."""
    log = open(program + name + ".log", "w")
    words = [f"-dict={options.folder}/words", f"-artifact_prefix={options.folder}/", f"-runs={runs}", f"-max_total_time={options.minutes * 60}"]
    return subprocess.Popen(
        ["nice", "-n", str(options.nice), program, corpus, *LIMITS, *words, "-print_final_stats=1", "-reload=10"],
        stdout=log,
        stderr=log,
        env={**os.environ, "FUZZ_BLOCKS": program + ".blocks", "ASAN_OPTIONS": "quarantine_size_mb=16"},
    )


def told(program, name=""):
    with open(program + name + ".log", errors="replace") as file:
        return file.read()


def number_in(log, words):
    found = re.findall(words + r" *(\d+)", log)
    return int(found[-1]) if found else 0


def main():
    parser = argparse.ArgumentParser()
    parser.add_argument("--runs", type=int, default=10_000_000)
    parser.add_argument("--minutes", type=int, default=0, help="ends it after so long, whatever has been run")
    parser.add_argument("--plain", type=int, default=1, help="how many processes run without sanitizers, beside the one with them")
    parser.add_argument("--folder", type=os.path.abspath, default=os.path.join(TOP, "build", "fuzz"))
    parser.add_argument("--nice", type=int, default=15)
    options = parser.parse_args()
    os.makedirs(options.folder, exist_ok=True)
    sanitized, plain = build(options.folder)
    corpus = write_inputs(options.folder)
    # The sanitizers take most of a process's time, so theirs makes half as many executions as another one.
    share = options.runs // (2 * options.plain + 1)
    processes = [(sanitized, "", share), *((plain, f".{number}", 2 * share + 1) for number in range(options.plain))]
    running = [start(program, corpus, options, runs, name) for program, name, runs in processes]
    statuses = [it.wait() for it in running]
    # Once more over the whole corpus, for the blocks that it visits.
    statuses.append(start(plain, corpus, options, 0, ".last").wait())
    logs = [told(program, name) for program, name, _ in processes]
    last = told(plain, ".last")
    for status, log in zip(statuses, [*logs, last]):
        print(log[-3000:] if status else "", end="")
    counts = [number_in(it, "number_of_executed_units:") for it in logs]
    print(f"executions: {sum(counts):,}, of which {counts[0]:,} with sanitizers")
    print("seconds:", *(number_in(it, r"Done \d+ runs in") for it in logs))
    print("most memory, MB:", *(number_in(it, "peak_rss_mb:") for it in logs))
    print("inputs kept:", len(os.listdir(corpus)))
    print(re.findall(r"blocks: .*", last)[-1])
    print("crashes, hangs and leaks:", "none" if not any(statuses) else "see above")
    sys.exit(1 if any(statuses) else 0)


if __name__ == "__main__":
    main()
