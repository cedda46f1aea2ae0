#!/usr/bin/env python3
"""Counts the definitions that one must trust to believe contracts: those that these mention, directly or through others.

From each ROOT it follows names through the `ghost use` of its clauses, the traits that bound it, and `crates/*/specs`. A definition that
is reached counts whole, by its lines without comments, blank lines and imports; so does the head of a module around it. Prints those
that are reached by crate and file, and the sum. Rust's own types, the standard library and lemmas aren't counted.

usage: bench/definitions.py [--names | --crates] [--beside OTHER] [--since REVISION] ROOT ..
       bench/definitions.py --own
A ROOT is CRATE::NAME, of a function, a trait or a type that implements one; CRATE::NAME:CLAUSE,CLAUSE for these clauses alone;
CRATE.specs.FILE.NAME, of a definition; or a list in this script, `older` or `requests`. --beside leaves out what OTHER, a root or a
list, reaches. --since leaves out lines that a definition of that name had in a revision of git. --names prints the definitions too, --crates
the sums of the crates alone.
--own counts instead the files that define client reset, subscriptions by tables and trimmed history, each whole.
"""
import argparse
import collections
import glob
import os
import re
import subprocess

TOP = os.path.dirname(os.path.dirname(os.path.abspath(__file__)))

ROOTS = {
    # what was promised before: the headline, the laws of exchanges and of merging, the calls of nodes, bytes, and the commands
    # `edit`, `take`, `serve`, `send`, `ask` and `show`
    "older": """
        sync_top::run:words,untouched,replay,world,headline,headline_after_faults,generated,generates,generated_headline
        sync_top::run:caught_up,equal,refused,complete,complete_generate
        sync_model::worlds_hold sync_model::servers_answer_by_parts sync_model::lists_stay_small sync_model::files_read_back
        sync_model::nodes_write_what_opens:born,commit,upgrade,taken,served,complete
        sync_model::nodes_stay_within_limits:worlds,clients,binds,uploads,asks,commits,takes,servers,entries,replies
        sync_theory::lists_agree sync_theory::one_crossing sync_theory::prefixes_rebase_alike sync_theory::changesets_agree
        sync_theory::worlds_converge sync_theory::reciprocal_lists_settle
        sync_client::open sync_client::born sync_client::commit sync_client::upgrade sync_client::take sync_client::bind
        sync_client::upload sync_client::ask sync_server::open sync_server::take
        sync_codec::encode sync_codec::decode sync_messages::message_of sync_records::record_of sync_journal::append
        sync_node.specs.Commands.AnswersItems sync_node.specs.Commands.TellsText sync_node.specs.Runs.runs
        sync_node.specs.Steps.edit_step sync_node.specs.Steps.take_step sync_node.specs.Steps.serve_step
        sync_node.specs.Opening.client_file sync_node.specs.Opening.server_file sync_node.specs.Opening.node_file
        sync_node.specs.Items.lines_of sync_node.specs.Items.frames_of
        """.split(),
    # what is promised of client reset, subscriptions by tables and trimmed history
    "requests": """
        sync_top::run:saves,trims,own sync_exchange::Instrs
        sync_model::retired_counts_are_final sync_model::breaks_are_listed sync_model::heirs_save_once
        sync_model::trimmed_servers_answer_alike sync_model::server_files_give_what_is_kept sync_model::later_worlds_hold
        sync_model::started_clients_have_the_objects snapshot_law::every_state_is_built snapshot_law::nothing_is_built_of_nothing
        sync_model::worlds_hold sync_model::nodes_write_what_opens sync_model::nodes_stay_within_limits
        sync_theory::restricted_lists_cross_alike sync_exchange::restricted_changes_cross_alike
        sync_exchange::adapted_instructions_fit sync_exchange::parts_are_lawful
        sync_subset::lists_act_on_parts sync_subset::parts_stay_states sync_subset::instructions_stay_apart
        sync_subset::new sync_subset::admits sync_subset::restrict sync_subset::names
        sync_client::subscribe sync_client::upload_from sync_heir::heir sync_reset::saved sync_snapshot::build sync_snapshot::grown
        sync_trim::trimmed sync_trim::started sync_trim::trimmed_file sync_trim::started_file
        sync_node.specs.FileCommands.MakesFile sync_node.specs.Sending.text_of sync_node.specs.Runs.noting_runs
        """.split(),
}

# the files that define these three
OWN = """
    sync_theory/Restricting sync_exchange/Adapting sync_subset/Tables snapshot_law/Build sync_model/Snapshots sync_model/Cuts
    sync_model/Resets sync_model/Recovery sync_model/Fronts sync_model/Trims sync_model/Trimmed sync_model/Starts sync_model/Later
    """.split()

WORD = re.compile(r"[^\s(){}\[\],;:\"|&]+")
START = re.compile(r"(?P<kinds>(?:(?:abbrev|unfoldable|opaque|pub|private|record|data) +)*)(?P<name>[^\s:]+)")
IMPORT = re.compile(r"(?:ghost )?use Rattle\.([\w.]+?)(?:\.\{(.*)\}| as (\S+))?;?$")


def code_of(text):
    """Lines without comments and without blank ones."""
    lines = (re.sub(r"(^|\s)(--|//).*", "", line).rstrip() for line in text.split("\n"))
    return [line for line in lines if line]


def indent_of(line):
    return len(line) - len(line.lstrip())


def imports_of(lines):
    """Of each imported name the path of its module and its name there, or none for the module itself."""
    names = {}
    for found in filter(None, (IMPORT.match(line.strip()) for line in lines)):
        path, listed, alias = found.groups()
        if listed is None:
            names[alias or path.split(".")[-1]] = (path, None)
            continue
        for item in listed.split(","):
            own, _, other = item.strip().partition(" as ")
            names[(other or own).strip("◌")] = (path, own.strip("◌"))
    return names


def bound_in(text):
    """What the binders of a text bind: `(x y : A)`, `λ x y.`, `let x`."""
    groups = re.findall(r"[({]([^(){}:]+) : |λ ([^.]+)\.\s|let (\S+)", text)
    return {word for group in groups for found in group for word in WORD.findall(found)}


class Definition:
    """Its file, its kinds, its name, its lines and the heads of the modules around it."""

    def __init__(self, file, kinds, name, heads):
        self.file, self.kinds, self.name, self.heads, self.lines = file, kinds, name, heads, []

    def is_type(self):
        return bool({"data", "record"} & self.kinds)

    def is_lemma(self):
        return "/Lemmas/" in self.file.path and not self.is_type() and "abbrev" not in self.kinds

    def clauses(self):
        """Its signature, equations, fields and constructors, each in one line."""
        found, base = [], indent_of(self.lines[0]) + (2 if self.is_type() else 0)
        for line in self.lines:
            if found and indent_of(line) > base:
                found[-1] += " " + line.strip()
            else:
                found.append(line.strip())
        return found

    def mentions(self):
        """The words of it and of the heads around it that nothing of it binds."""
        heads = [head for _, head in self.heads]
        shared = set().union(*map(bound_in, heads + self.lines[:1] if self.is_type() else heads))
        for clause in heads + self.clauses():
            bound = shared | bound_in(clause)
            if clause.startswith(self.name + " ") and " = " in clause:
                left, _, clause = clause.partition(" = ")
                patterns = WORD.findall(left)
                bound |= {word for word in patterns if word[0].islower()}
                clause += " " + " ".join(set(patterns) - bound)
            elif clause not in heads and clause != self.lines[0].strip():
                clause = re.sub(r"^(pub )?\S+ : ", "", clause)
            words = WORD.findall(re.sub(r"([{;] +)\w+ = ", r"\1", clause))
            yield from (word for word in words if word.split(".")[0] not in bound)


class Spec:
    """A file of definitions, and which of them makes a constructor."""

    def __init__(self, path, text):
        self.path, self.named = path, {}
        lines = code_of(text)
        self.imports = imports_of(lines)
        heads, current = [], None
        for number, line in enumerate(line for line in lines if not line.startswith("use ")):
            heads = [(place, head) for place, head in heads if indent_of(head) < indent_of(line)]
            if line.lstrip().startswith("module _"):
                heads.append((number, line))
                continue
            current = self.next(current, line, heads)
            if current and not line.lstrip().startswith("unfolding "):
                current.lines.append(line)

    def next(self, current, line, heads):
        """The definition to which a line belongs."""
        kinds, name = START.match(line.strip()).group("kinds", "name")
        begins = (kinds or line.lstrip().startswith(name + " : ")) and (current is None or name != current.name)
        if begins and indent_of(line) == 2 * len(heads):
            current = self.named[name.strip("◌")] = Definition(self, set(kinds.split()), name, heads)
        elif current and "data" in current.kinds and " : " in line and indent_of(line) == indent_of(current.lines[0]) + 2:
            self.named.setdefault(name, current)
        return current


class Specs:
    """All files of definitions, and what a word means in one."""

    def __init__(self, texts):
        self.files = {path: Spec(path, text) for path, text in texts}

    def meant(self, word, imports, named):
        """The definition that a word names, or none."""
        first, *more = word.strip(".").split(".")
        if first in named:
            return named[first]
        path, name = imports.get(first, ("", None))
        name = name or (more or [""])[0]
        parts = path.split(".")
        for end in range(len(parts), 0, -1):
            file = self.files.get("crates/" + "/".join(parts[:end]) + ".antt")
            if file:
                return file.named.get((parts[end:] + [name])[0])
        return None

    def reached(self, texts):
        """All definitions that the words of these texts reach, each text with its imports."""
        waiting = [self.meant(word, imports, {}) for imports, text in texts for word in WORD.findall(text)]
        seen = {}
        while waiting:
            found = waiting.pop()
            if found and found not in seen and not found.is_lemma():
                seen[found] = None
                waiting += [self.meant(word, found.file.imports, found.file.named) for word in found.mentions()]
        return list(seen)


def sources():
    for path in sorted(glob.glob(os.path.join(TOP, "crates", "*", "src", "**", "*.rt"), recursive=True)):
        with open(path) as file:
            yield path.split(os.sep)[len(TOP.split(os.sep)) + 1], file.read()


def texts_of(name, clauses, text):
    """Of the functions of a name their clauses, or those named, and traits and implementations of it; with the traits that bound them."""
    lines = code_of(text)
    imports = imports_of(lines)
    start = re.compile(rf" *(?:pub (?:fn|trait) {name}\b|impl.* for {name} )")
    for place, line in enumerate(lines):
        if not start.match(line):
            continue
        ends = ("{", "{}") if " fn " in line else ("}",)
        body = []
        for line in lines[place:]:
            if line.strip() in ends and indent_of(line) == indent_of(lines[place]):
                break
            body.append(line)
        signature, *parts = re.split(r"\n *(?=(?:requires|ensures)\b)", "\n".join(body))
        kept = [part for part in parts if not clauses or part.split()[1] in clauses]
        bounds = re.findall(r"\b[A-Z]\w*: ([A-Z]\w*)", signature.split("(")[0])
        yield imports, "\n".join(kept if " fn " in body[0] else body), bounds


def root_texts(root, all_sources):
    """The texts from which a root's names are followed, each with its imports."""
    if "::" not in root:
        path, _, name = root.rpartition(".")
        return [({name: (path, name)}, name)]
    crate, name, clauses = re.fullmatch(r"(\w+)::(\w+):?(.*)", root).groups()
    clauses = clauses.split(",") if clauses else []
    found = [one for where, text in all_sources if where == crate for one in texts_of(name, clauses, text)]
    assert found, f"no {name} in {crate}"
    for bound in {bound for _, _, bounds in found for bound in bounds}:
        found += [one for _, text in all_sources if f"trait {bound}" in text for one in texts_of(bound, [], text)]
    return [(imports, text) for imports, text, _ in found]


def current_specs():
    paths = glob.glob(os.path.join(TOP, "crates", "*", "specs", "**", "*.antt"), recursive=True)
    return Specs((os.path.relpath(path, TOP), open(path).read()) for path in sorted(paths))


def lines_before(revision):
    """The lines that each name's definitions had in a revision, and those of all heads of modules under `module`."""

    def git(*words):
        return subprocess.run(["git", *words], cwd=TOP, stdout=subprocess.PIPE, text=True, check=True).stdout

    before = collections.defaultdict(set)
    for path in git("ls-tree", "-r", "--name-only", revision).split("\n"):
        if "/specs/" in path and path.endswith(".antt"):
            for definition in Spec(path, git("show", f"{revision}:{path}")).named.values():
                before[definition.name].update(line.strip() for line in definition.lines)
                before["module"].update(head.strip() for _, head in definition.heads)
    return before


def count_of(name):
    """How many lines of code a file of definitions has, imports left out."""
    crate, file = name.split("/")
    with open(os.path.join(TOP, "crates", crate, "specs", file + ".antt")) as it:
        return sum(not line.lstrip().startswith(("use ", "ghost use ")) for line in code_of(it.read()))


def print_own():
    counts = {name: count_of(name) for name in OWN}
    for name, count in counts.items():
        print(f"{count:5} {name}")
    print(f"{sum(counts.values()):5} lines of definitions")


def main():
    words = argparse.ArgumentParser(usage=__doc__.split("usage: ")[1])
    words.add_argument("--names", action="store_true")
    words.add_argument("--crates", action="store_true")
    words.add_argument("--beside")
    words.add_argument("--since")
    words.add_argument("--own", action="store_true")
    words.add_argument("roots", nargs="*")
    asked = words.parse_args()
    if asked.own or not asked.roots:
        return print_own() if asked.own else words.error("no ROOT")
    specs, all_sources = current_specs(), list(sources())

    def reached(names):
        roots = [root for name in names for root in ROOTS.get(name, [name])]
        return specs.reached([text for root in roots for text in root_texts(root, all_sources)])

    before = lines_before(asked.since) if asked.since else collections.defaultdict(set)
    others = set(reached([asked.beside])) if asked.beside else set()
    counts, heads = collections.defaultdict(dict), collections.defaultdict(set)
    for definition in reached(asked.roots):
        if definition not in others:
            path = definition.file.path
            counts[path][definition.name] = sum(line.strip() not in before[definition.name] for line in definition.lines)
            heads[path].update(head for head in definition.heads if head[1].strip() not in before["module"])
    sums = {path: sum(counts[path].values()) + len(heads[path]) for path in sorted(counts)}
    if asked.crates:
        crates = collections.Counter()
        for path, count in sums.items():
            crates[path.split("/")[1]] += count
        sums, counts = {f"crates/{crate}": count for crate, count in crates.items()}, collections.defaultdict(dict)
    for path in filter(sums.get, sums):
        names = [f"{name}:{count}" for name, count in counts[path].items() if asked.names and count]
        print(f"{sums[path]:5} {path.removeprefix('crates/')}", *names)
    print(f"{sum(sums.values()):5} lines of definitions")


if __name__ == "__main__":
    main()
