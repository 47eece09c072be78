#!/usr/bin/env python3
"""Counts the places of docs/DESIGN-PASS.md in crates/*/src and the proofs beside them.

usage: tools/places.py [--each] [COMMIT]      at the top of the repository; without a commit the files as they lie

A line of the answer has the point, what is counted, how many there are and in how many files. `--each` lists them. Lines that are comments do not count.
It reads text: what it cannot tell from text (whether two functions are twins, whether an enum has the shape of an Option) is judged by a reader, from its list.
"""
import collections
import re
import subprocess
import sys

PARAMETERS = re.compile(r'(?m)^ *(?:pub(?:\([a-z]+\))? )?(?:extern "C" )?fn (\w+)(?:<[^(]*>)?\((.*?)\)(?: ->|\n|\s*\{)', re.S)
# point, what is counted, the line that is a place of it
LINES = [
    ("1", "enums", r"^\s*(pub(\([a-z]+\))? )?enum "),
    ("1", "an outcome or a flag beside a value, in a struct", r"^\s+(pub )?(outcome: (Outcome|Result<\(\), Refusal>)|(ok|on|known|already|found): bool),"),
    ("1", "a number written for a variant", r"::\w+(\([^)]*\))? => \d+,"),
    ("1", "constants that are a number", r"^\s*pub const [A-Z_]+: u(8|32|64) = \d+;"),
    ("3", "while loops", r"^\s*while "),
    ("3", "a name moved by one", r"^\s*\w+ (\+=|-=) 1;"),
    ("3", "for loops", r"^\s*for "),
    ("4", "a field copied under its own name", r"^\s*(\w+): [a-z_]+\.\1,$"),
    ("4", "own `least`", r"\bleast\("),
    ("6", "an array in a struct", r"^\s+(pub )?\w+: \[\w+; [\w:]+\],"),
    ("6", "a count or length beside", r"^\s*(pub )?(count|len|used|governed): u(size|32),"),
    ("7", "function pointers, dyn, closures", r"\bfn\(|\bdyn |\bimpl Fn|: Fn\w*\(|\|\w+\| "),
]


def listed(commit, what):
    """The paths of the tree that match."""
    command = ["git", "ls-files"] if commit is None else ["git", "ls-tree", "-r", "--name-only", commit]
    return sorted(p for p in subprocess.check_output(command, text=True).splitlines() if re.fullmatch(what, p))


def text(commit, path):
    if commit is None:
        with open(path, encoding="utf-8") as file:
            return file.read()
    return subprocess.check_output(["git", "show", f"{commit}:{path}"], text=True)


def code(source):
    """The lines of a source with their numbers, comments left empty."""
    return [(n, "" if line.lstrip().startswith("//") else line) for n, line in enumerate(source.split("\n"), 1)]


def tell(point, what, hits, each, unit="files"):
    print(f"{point} {what}: {len(hits)} in {len({hit[0] for hit in hits})} {unit}")
    if each:
        for hit in hits:
            print("   ", *hit)


def groups(functions):
    """The runs of three or more parameters that three or more functions have, longest first."""
    where = collections.defaultdict(list)
    for path, name, parameters in functions:
        for size in range(3, len(parameters) + 1):
            for start in range(len(parameters) - size + 1):
                where[tuple(parameters[start : start + size])].append(f"{path.split('/')[1]}::{name}")
    often = {run: names for run, names in where.items() if len(names) >= 3}

    def within(run, longer):
        return any(longer[i : i + len(run)] == run for i in range(len(longer) - len(run) + 1))

    return {run: names for run, names in often.items() if not any(len(o) > len(run) and len(often[o]) == len(names) and within(run, o) for o in often)}


def main():
    each = "--each" in sys.argv
    commit = next((word for word in sys.argv[1:] if not word.startswith("--")), None)
    sources = {path: code(text(commit, path)) for path in listed(commit, r"crates/\w+/src/.*\.rt")}
    for point, what, place in LINES:
        tell(point, what, [(path, n, line.strip()[:110]) for path, lines in sources.items() for n, line in lines if re.search(place, line)], each)
    functions, facts = [], collections.defaultdict(list)
    for path, lines in sources.items():
        for found in PARAMETERS.finditer("\n".join(line for _, line in lines)):
            split = re.split(r",(?![^<\[(]*[>\])])", found[2])
            functions.append((path, found[1], [re.sub(r"'a |\bmut ", "", " ".join(p.split())) for p in split if p.strip()]))
        for n, line in lines:
            required = re.match(r"\s*requires (?:\w+ )?\{ (.*) \}$", line)
            for fact in re.split(r" × ", required[1]) if required else []:
                facts[fact.strip("() ")].append(f"{path}:{n}")
    pairs = [(p, n, f"{a}, {b}") for p, n, ps in functions for a, b in zip(ps, ps[1:]) if "&[" in a and re.fullmatch(r"(n|m|h|count|top): usize", b)]
    tell("6", "a slice with a count behind it, as parameters", pairs, each)
    together = groups([f for f in functions if not f[0].startswith("crates/portal")])
    tell("5", "groups of three or more parameters in three or more functions", [(", ".join(run), *sorted(set(names))) for run, names in together.items()], each, "groups")
    tell("5", "facts in the requires of three or more functions", [(fact, len(places)) for fact, places in facts.items() if len(places) >= 3], each, "facts")
    print("functions:", len(functions))
    proofs = listed(commit, r"crates/\w+/proofs/.*\.antt")
    for name in ("Proof", "Invariants", "Answers"):
        of = [p for p in proofs if p.endswith(f"/{name}.antt") and p.count("/") > 3]
        print(f"8 {name}.antt: {len(of)} files, {sum(text(commit, p).count(chr(10)) for p in of)} lines")
    print(f"8 all of proofs/: {len(proofs)} files, {sum(text(commit, p).count(chr(10)) for p in proofs)} lines")


main()
