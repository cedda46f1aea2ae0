"""Appends what a bench measured to bench/results.csv, of which the documents show rows: docs/BENCHES.md.

A script calls `keeper(sys.argv)` first: it takes `--save MACHINE` out of its words, and answers a function of a workload, a size, a value and a
unit. That appends a row where the words were there, and else does nothing."""
import csv
import datetime
import os
import subprocess

TOP = os.path.dirname(os.path.dirname(os.path.abspath(__file__)))
FILE = os.path.join(TOP, "bench", "results.csv")


def keeper(words):
    if "--save" not in words:
        return lambda workload, size, value, unit: None
    at = words.index("--save")
    if at + 1 == len(words):
        raise SystemExit("--save takes a few words on the machine: idle, or busy")
    _, machine = words[at : at + 2]
    del words[at : at + 2]
    commit = subprocess.run(["git", "rev-parse", "--short=8", "HEAD"], cwd=TOP, stdout=subprocess.PIPE, text=True).stdout.strip()

    def keep(workload, size, value, unit):
        shown = f"{value:.0f}" if value >= 100 else f"{value:.3g}"
        with open(FILE, "a", encoding="utf-8", newline="") as out:
            csv.writer(out, lineterminator="\n").writerow([datetime.date.today().isoformat(), commit, machine, workload, size, shown, unit])

    return keep
