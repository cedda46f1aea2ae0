#!/usr/bin/env python3
"""Checks README.md, docs/ and the crates' READMEs, and what the sources say of them.

- Each relative link leads to a file, and each `#part` of a link to a heading.
- Each `docs/X.md, "Section"` in a source or a script names a heading of that document, or of a page of the folder `docs/x`, and each path of a
  crate in backquotes is there.
- Each crate of crates.txt is named in docs/CRATES.md, and each file that a crate's README names is there.
- Each block of commands is run, and what it prints is compared with the block of text behind it:

      ```sh                    is run by sh, in a folder that has all of the repository; the blocks of one document share it
      ```text                  what it must print; a line `...` stands for any lines

  A block `sh by-hand` isn't run: it takes too long, or needs what isn't here. They are counted. Any other block `sh` without a
  text is an error.
- docs/CRATES.md is what .ci/crates.py makes of the crates' READMEs.
- No sentence has more than 40 words, no cell of a table more than 300 characters, and no page more than 800 lines.
- Each figure that a page shows of a measurement is that of bench/results.csv, by its last row of the workload, the size and the unit:

      <!-- result WORKLOAD; SIZE; UNIT -->VALUE          one figure
      <!-- results PREFIX; UNIT -->                      the table below: a row is a workload, `PREFIX ROW`, and a column a size
      <!-- results PREFIX; SIZE; columns -->             the same, but a column is a unit
      <!-- results WORKLOAD; rows; columns -->           a row is a size, and a column a unit

  A column `exponent from SIZE` is worked out from that size and the last one.
- The number in VERSION is that of the C header and of the packages.
- Where a page of docs/guarantees says how long definitions are, behind the name of their folder (`CRATE/specs`), it is as long: `FILE` LINES, and
  the sum in the last cell of a row.
- The table of docs/HEADLINE.md has the crates and the lines that bench/definitions.py counts for the headline.
- Each block ```rust FILE has only lines of that file, in their order, but for lines `// ..`. So has each other block with a path behind its
  kind; the packages' tests run those programs, and compare what they print.

usage: .ci/docs.py [--quiet] [--links] [--program FILE]

The program is crates/realm_sync/out/realm_sync, where `rt ci` and ./realm_sync leave it. Without one no command is run, which
is an error, unless --links asks for everything else alone. --quiet tells errors alone.
"""
import argparse
import csv
import math
import os
import re
import signal
import subprocess
import sys
import tempfile

sys.dont_write_bytecode = True
import crates as crates_page  # noqa: E402

TOP = os.path.dirname(os.path.dirname(os.path.abspath(__file__)))
BUILT = os.path.join(TOP, "crates", "realm_sync", "out", "realm_sync")
SECONDS = 120

MOST_WORDS, MOST_CHARACTERS, MOST_LINES = 40, 300, 800

FENCE = re.compile(r"^```(.*)$")
HEADING = re.compile(r"^#{1,6} +(.*?) *$")
LINK = re.compile(r"\]\(([^()\s]+)\)")
CITED = re.compile(r'docs/([A-Z_]+\.md)(?:,? "([^"]+)")?')
CRATE_PATH = re.compile(r"`(?:crates/)?([a-z_0-9]+/(?:src|specs|proofs|must-fail|data)(?:/[\w./]*)?)`")
CRATE_FILE = re.compile(r"`(?:(src|specs|proofs)/)?(\w+\.(rt|antt))`")
INDENTED = re.compile(r"^    (?:\./realm_sync|rt |bench/|examples/|\.ci/)")

problems = []


def problem(path, line, why):
    problems.append(f"{os.path.relpath(path, TOP)}:{line}: {why}")


def read(path):
    with open(path, encoding="utf-8") as it:
        return it.read()


def documents():
    """README.md, docs/*.md and the pages of its folders, and the READMEs of other folders and of crates."""
    found = [os.path.join(TOP, "README.md")]
    for folder in ("docs", "docs/formats", "docs/guarantees", "bench", "examples", "examples/shopping", "js", "python", "service", "wasm", "web"):
        at = os.path.join(TOP, folder)
        found += sorted(os.path.join(at, it) for it in os.listdir(at) if it.endswith(".md")) if os.path.isdir(at) else []
    for name in sorted(os.listdir(os.path.join(TOP, "crates"))):
        path = os.path.join(TOP, "crates", name, "README.md")
        found += [path] if os.path.isfile(path) else []
    return found


def sources():
    """All texts that may speak of a document."""
    for at, folders, files in os.walk(TOP):
        folders[:] = sorted(it for it in folders if it not in (".git", "out", "dist", "node_modules", "__pycache__"))
        for name in sorted(files):
            if name.endswith((".rt", ".antt", ".py", ".sh", ".ts", ".mjs", ".edit", ".txt")) or name in ("realm_sync", "run"):
                path = os.path.join(at, name)
                if path != os.path.abspath(__file__):
                    yield path


class Block:
    """A fenced block: its words, its lines, and where it begins."""

    def __init__(self, words, line):
        self.words, self.line, self.lines = words, line, []


def parsed(path):
    """The prose of a document as (line, text), and its blocks in order."""
    prose, blocks, block = [], [], None
    for number, text in enumerate(read(path).splitlines(), 1):
        fence = FENCE.match(text)
        if fence and block is None:
            block = Block(fence[1].split(), number)
        elif fence and not fence[1]:
            blocks.append(block)
            block = None
        elif block is not None:
            block.lines.append(text)
        else:
            prose.append((number, text))
    if block is not None:
        problem(path, block.line, "a block without an end")
    return prose, blocks


def anchor(heading):
    """The part of a link by which a heading is reached."""
    plain = re.sub(r"[^\w\- ]", "", heading.lower())
    return plain.replace(" ", "-")


def headings(path):
    prose, _ = parsed(path)
    return [HEADING.match(text)[1] for _, text in prose if HEADING.match(text)]


def sections(path):
    """The headings of a document, and of the pages in the folder of its name."""
    folder = path.removesuffix(".md").lower()
    pages = sorted(os.path.join(folder, it) for it in os.listdir(folder)) if os.path.isdir(folder) else []
    return [it.replace("`", "") for page in [path, *pages] for it in headings(page)]


def check_crates():
    """Each crate has its row in docs/CRATES.md, which is made of their READMEs."""
    path, page = os.path.join(TOP, "docs", "CRATES.md"), crates_page.page()
    rows = read(path)
    if rows != page:
        problem(path, 1, "it isn't what .ci/crates.py makes of the crates' READMEs")
    for number, line in enumerate(read(os.path.join(TOP, "crates.txt")).splitlines(), 1):
        name = line.split(":")[0].split()
        if ":" in line and not line.startswith("#") and f"`{name[0]}`" not in rows:
            problem(os.path.join(TOP, "crates.txt"), number, f"docs/CRATES.md doesn't name {name[0]}")


def check_links(path, prose):
    for line, text in prose:
        for target in LINK.findall(re.sub(r"`[^`]*`", "", text)):
            if re.match(r"[a-z]+:", target):
                continue
            name, _, part = target.partition("#")
            file = os.path.normpath(os.path.join(os.path.dirname(path), name)) if name else path
            if not os.path.exists(file):
                problem(path, line, f"the link {target} leads nowhere")
            elif part and part not in map(anchor, headings(file)):
                problem(path, line, f"the link {target} names no heading")


def paragraphs(prose):
    """The paragraphs, items of lists and cells of tables in a document's prose: the line of each, whether it is a cell, and its text."""
    found, at = [], None
    for line, text in prose:
        text = text.strip()
        item = re.match(r"(?:[-*>]|\d+\.) +(.*)", text)
        if text.startswith("|"):
            found += [[line, True, it.strip()] for it in re.split(r"(?<!\\)\|", text.strip("|"))]
        elif item or (text and not text.startswith(("#", "<!--")) and at is None):
            at = [line, False, item[1] if item else text]
            found.append(at)
            continue
        elif text and not text.startswith(("#", "<!--")) and at is not None:
            at[2] += " " + text
            continue
        at = None
    return found


def check_plain(path, prose):
    """Sentences, cells and pages that are too long."""
    if prose and prose[-1][0] > MOST_LINES:
        problem(path, MOST_LINES, f"a page has at most {MOST_LINES} lines")
    for line, is_cell, text in paragraphs(prose):
        if is_cell and len(text) > MOST_CHARACTERS:
            problem(path, line, f"a cell of {len(text)} characters; at most {MOST_CHARACTERS}: {text[:50]}..")
        for sentence in re.split(r"(?<=[.?!])[)*\"]*\s+", re.sub(r"\]\([^()]*\)|<!--.*?-->", "]", text)):
            words = sum(bool(re.search(r"\w", it)) for it in sentence.split())
            if words > MOST_WORDS:
                problem(path, line, f"a sentence of {words} words; at most {MOST_WORDS}: {sentence[:50]}..")


def check_paths(path, prose):
    for line, text in prose:
        for found in CRATE_PATH.findall(text):
            at = os.path.join(TOP, "crates", found)
            if not any(map(os.path.exists, (at, f"{at}.antt", f"{at}.rt"))):
                problem(path, line, f"{found} isn't there")
        if INDENTED.match(text):
            problem(path, line, "commands stand in a block ```sh, so that they are run")


def check_files(path):
    """The files that the README of a crate names: one without its folder is in `src` or `specs`, by its kind."""
    crate = os.path.dirname(path)
    for line, text in enumerate(read(path).splitlines(), 1):
        for folder, name, kind in CRATE_FILE.findall(text):
            if not os.path.isfile(os.path.join(crate, folder or {"rt": "src", "antt": "specs"}[kind], name)):
                problem(path, line, f"{name} isn't there")


def check_cited(path):
    """The documents and sections that a source cites. A citation may go over two lines of a comment."""
    whole = read(path)
    text = re.sub(r"\n\s*(?://[/!]?|--|#)? ?", " ", whole)
    lines = [whole[: it.start()].count("\n") + 1 for it in re.finditer(r"docs/[A-Z_]+\.md", whole)]
    for line, found in zip(lines, CITED.finditer(text)):
        file = os.path.join(TOP, "docs", found[1])
        if not os.path.isfile(file):
            problem(path, line, f"docs/{found[1]} isn't there")
        elif found[2] and found[2] not in sections(file):
            problem(path, line, f'docs/{found[1]} has no section "{found[2]}"')


def check_quoted(path, block):
    """The lines of a block of code stand in the file that it names."""
    file = os.path.join(TOP, block.words[1])
    if not os.path.isfile(file):
        problem(path, block.line, f"{block.words[1]} isn't there")
        return
    rest = iter([it.strip() for it in read(file).splitlines()])
    for number, text in enumerate(block.lines, block.line + 1):
        wanted = text.strip()
        if wanted and not wanted.startswith("// ..") and wanted not in rest:
            problem(path, number, f"this line isn't in {block.words[1]}, or not behind the line above")
            return


def agrees(wanted, printed):
    """Whether the lines that were printed are the wanted ones, where `...` stands for any lines."""
    if "..." not in wanted:
        return wanted == printed
    at = wanted.index("...")
    if wanted[:at] != printed[:at]:
        return False
    rest = wanted[at + 1 :]
    return any(agrees(rest, printed[begin:]) for begin in range(at, len(printed) + 1))


def run(path, block, wanted, folder, program):
    """Runs a block in the folder and compares what it prints."""
    how = {"cwd": folder, "stdin": subprocess.DEVNULL, "stdout": subprocess.PIPE, "stderr": subprocess.STDOUT}
    text = "\n".join(block.lines)
    done = subprocess.Popen(["sh", "-c", text], env={**os.environ, "REALM_SYNC": program}, start_new_session=True, **how)
    try:
        out, _ = done.communicate(timeout=SECONDS)
    except subprocess.TimeoutExpired:
        # (with all that it started, which may hold the pipe)
        os.killpg(done.pid, signal.SIGKILL)
        done.communicate()
        problem(path, block.line, f"these commands had not ended after {SECONDS} seconds")
        return
    printed = out.decode(errors="replace").splitlines()
    if not agrees(wanted, printed):
        problem(path, block.line, "\n    ".join(["these commands print something else:", *printed]))
    elif done.returncode:
        problem(path, block.line, f"these commands end with status {done.returncode}")


def check_commands(path, blocks, program):
    """Runs the blocks of a document, and gives how many were run and how many are for the reader's hand."""
    ran = by_hand = 0
    with tempfile.TemporaryDirectory(prefix="docs-") as folder:
        for name in os.listdir(TOP):
            os.symlink(os.path.join(TOP, name), os.path.join(folder, name))
        for block, following in zip(blocks, [*blocks[1:], None]):
            if block.words[:1] != ["sh"]:
                continue
            if "by-hand" in block.words:
                by_hand += 1
            elif following is None or following.words != ["text"]:
                problem(path, block.line, "a block ```sh has a block ```text behind it, or is `sh by-hand`")
            elif program:
                run(path, block, following.lines, folder, program)
                ran += 1
    return ran, by_hand


def figure(text):
    """A figure as it is compared: a number, or a text where it is more than one."""
    plain = re.sub(r"(?<=\d),(?=\d{3})", "", text.strip())
    return float(plain) if re.fullmatch(r"[\d.]+", plain) else plain


def results():
    """The last value of each workload, size and unit."""
    with open(os.path.join(TOP, "bench", "results.csv"), encoding="utf-8", newline="") as it:
        return {(row["workload"], row["size"], row["unit"]): figure(row["value"]) for row in csv.DictReader(it)}


def cells_of(text):
    return [re.sub(r"<!--.*?-->|[`*]", "", it).strip() for it in re.split(r"(?<!\\)\|", text.strip().strip("|"))]


def shown(prose):
    """The figures that a document's markers claim: the line of each, its workload, size and unit, and the figure."""
    marks = re.compile(r"<!-- result ([^;]+); ([^;]+); ([^;]+) -->([\d.,]*\d)")
    for line, text in prose:
        yield from ((line, it[1], it[2], it[3], it[4]) for it in marks.finditer(text))
    lines = dict(prose)
    for line, text in prose:
        mark = re.fullmatch(r"<!-- results ([^;]+);(?: ([^;]+);)? ([^;]+) -->", text)
        if not mark:
            continue
        prefix, size, unit = mark.groups()
        head, at = cells_of(lines[line + 1]), line + 3
        while lines.get(at, "").startswith("|"):
            row = cells_of(lines[at])
            for name, value in zip(head[1:], row[1:]):
                plain = re.sub(r"(?<=\d),(?=\d{3})", "", name)
                if value and size == "rows":
                    yield at, prefix, re.sub(r"(?<=\d),(?=\d{3})", "", row[0]), plain, value
                elif value and size:
                    yield at, f"{prefix} {row[0]}", size, plain, value
                elif value and not name.startswith("exponent"):
                    yield at, f"{prefix} {row[0]}", plain, unit, value
            at += 1


def check_exponents(path, prose):
    """The exponents of tables with results: from the size that the column names to the last one."""
    lines = dict(prose)
    for line in (line for line, text in prose if text.startswith("<!-- results ") and "| exponent from" in lines[line + 1]):
        head = [it.replace(",", "") for it in cells_of(lines[line + 1])]
        first, last = head.index(head[-1].split()[-1]), len(head) - 2
        at = line + 3
        while lines.get(at, "").startswith("|"):
            row = cells_of(lines[at])
            worked_out = math.log(float(row[last]) / float(row[first])) / math.log(int(head[last]) / int(head[first]))
            if abs(float(row[-1]) - worked_out) > 0.011:
                problem(path, at, f"the exponent is {worked_out:.2f}")
            at += 1


def check_results(path, prose):
    known = results()
    marks = re.compile(r"<!-- result [^;]+; [^;]+; [^;]+ -->[\d.,]*\d|<!-- results [^;]+;(?: [^;]+;)? [^;]+ -->$")
    for line, text in prose:
        if text.count("<!-- result") != len(marks.findall(text)):
            problem(path, line, "a marker of a result that can't be read, or has no figure behind it")
    for line, workload, size, unit, value in shown(prose):
        if known.get((workload, size, unit)) != figure(value):
            problem(path, line, f"{value} isn't the value of `{workload}; {size}; {unit}` in bench/results.csv: {known.get((workload, size, unit))}")


def check_lengths(path, prose):
    """The lengths of files of definitions that a page tells, and their sums in rows of tables."""
    folder = None
    for line, text in prose:
        told = []
        for at, within, name, count in re.findall(r"`(\w+/specs)`|`(?:(\w+/specs)/)?([A-Z]\w*)` (\d+)\b", text):
            folder = at or folder
            if name and (within or folder):
                file = os.path.join(TOP, "crates", within or folder, f"{name}.antt")
                told.append(read(file).count("\n") if os.path.isfile(file) else 0)
                if told[-1] != int(count):
                    problem(path, line, f"{name} of {within or folder} has {told[-1]} lines")
        if told and text.startswith("|") and figure(cells_of(text)[-1]) != sum(told):
            problem(path, line, f"these files have {sum(told)} lines together")


def check_headline():
    """The definitions on which the headline rests, crate by crate, are as many lines as docs/HEADLINE.md says."""
    path = os.path.join(TOP, "docs", "HEADLINE.md")
    script = os.path.join(TOP, "bench", "definitions.py")
    told = subprocess.run([sys.executable, script, "--crates", "sync_top::run:headline"], stdout=subprocess.PIPE, text=True, check=True).stdout
    counted = {name: int(count) for count, name in re.findall(r"(\d+) (\w+)(?: of definitions)?$", told, re.M)}
    counted = {"all": counted.pop("lines", None), **counted}
    said = {}
    for number, line in enumerate(read(path).splitlines(), 1):
        row = re.match(r"\| (?:`(\w+)`|(all)) \| ([\d,]+) \|", line)
        if row:
            name, count = row[1] or row[2], int(row[3].replace(",", ""))
            said[name] = count
            if counted.get(name) != count:
                problem(path, number, f"{name} has {counted.get(name)} lines of definitions by bench/definitions.py")
    for name in counted.keys() - said.keys():
        problem(path, 1, f"the table has no row for {name}, with {counted[name]} lines")


def check_version():
    """One number for all that is installed."""
    number = read(os.path.join(TOP, "VERSION")).strip()
    for name, line in {
        "include/realm_sync.h": f'#define REALM_SYNC_VERSION "{number}"',
        "python/pyproject.toml": f'version = "{number}"',
        "service/pyproject.toml": f'version = "{number}"',
        "js/package.json": f'"version": "{number}"',
        "docs/CHANGES.md": f"## {number}",
    }.items():
        path = os.path.join(TOP, name)
        if line not in read(path):
            problem(path, 1, f"it hasn't the number of VERSION, {number}")


def check_examples():
    """Each exchange of examples/, and what it prints, is a case that the gate runs, byte for byte."""
    cases = os.path.join(TOP, "crates", "trials", "data")
    for name in sorted(os.listdir(os.path.join(TOP, "examples"))):
        if name.endswith((".jsonl", ".out")):
            path, case = os.path.join(TOP, "examples", name), os.path.join(cases, name)
            if not os.path.isfile(case) or read(path) != read(case):
                problem(path, 1, f"crates/trials/data/{name} isn't the same, so the gate doesn't run this example")


def main():
    words = argparse.ArgumentParser(description=__doc__, formatter_class=argparse.RawDescriptionHelpFormatter)
    words.add_argument("--quiet", action="store_true")
    words.add_argument("--links", action="store_true")
    words.add_argument("--program", metavar="FILE", default=BUILT)
    given = words.parse_args()
    program = os.path.abspath(given.program)
    if given.links:
        program = None
    elif not os.access(program, os.X_OK):
        problems.append(f"no command was run: there is no program {program}; ./realm_sync replay </dev/null builds it")
        program = None
    ran = by_hand = 0
    for path in documents():
        prose, blocks = parsed(path)
        check_links(path, prose)
        check_paths(path, prose)
        check_results(path, prose)
        check_exponents(path, prose)
        check_plain(path, prose)
        if os.path.dirname(path) == os.path.join(TOP, "docs", "guarantees"):
            check_lengths(path, prose)
        if os.path.dirname(os.path.dirname(path)) == os.path.join(TOP, "crates"):
            check_files(path)
        for block in blocks:
            if len(block.words) == 2 and (block.words[0] == "rust" or "/" in block.words[1]):
                check_quoted(path, block)
        one, two = check_commands(path, blocks, program)
        ran, by_hand = ran + one, by_hand + two
    check_examples()
    check_headline()
    check_version()
    for path in [*sources(), *documents()]:
        check_cited(path)
    check_crates()
    for it in problems:
        print(f".ci/docs.py: {it}")
    if not given.quiet:
        said = "no commands were run" if program is None else f"{ran} blocks of commands were run"
        print(f"documents: {said}, {by_hand} are for the reader's hand; {len(problems)} problems")
    return 1 if problems else 0


if __name__ == "__main__":
    sys.exit(main())
