#!/usr/bin/env python3
"""Spells the repository's own names in snake case, after port.py.

usage: tools/snake_names.py [--dry]      at the top of the repository, once

A name that a file of specs/ or proofs/ declares, and that has an inner capital or a dash, is spelled with underscores everywhere: in proof files, in
clauses and ghost imports, and in comments and papers where it stands in backticks. Names of the kit's libraries, names that the check makes for a
function's goals, strings and Rust's own names stay. Two names that would fall together, and a name that would fall on another that stands, are kept apart
by APART, or else the script stops. The names go to docs/PORT-NAMES.tsv, old and new.
"""
import os
import re
import subprocess
import sys

WORD = re.compile(r"[^\W\d][\w'-]*")
DECLARED = re.compile(r"^( *)(?:(?:abbrev|unfoldable|instance|pub|let) )*([^\W\d_][\w'-]*)(?: \{[^}]*\})? :(?!=)", re.M)
INNER = re.compile(r"(?<=[a-z0-9])([A-Z])")
# Where the plain spelling is taken by another of the same file: old name -> new name. A lemma that would have its function's name ends in _lem; that is
# also done for each lemma with a dash whose spelling a definition takes.
APART = {
    "first_signed": "first_signed_lem",
    "place_found": "place_found_lem",
    "told_at": "told_at_lem",
    "up-from": "up_from_lem",
}
# Two definitions of the same register, in files that never meet.
ALIKE = {"case-r", "caseR"}


def spelled(name):
    if name in APART:
        return APART[name]
    parts = []
    for part in name.split("-"):
        if part[:1].isupper():
            parts.append(part)
        else:
            parts.append(INNER.sub(lambda m: "_" + m.group(1).lower(), part))
    return "_".join(parts)


def files():
    for top, dirs, names in os.walk("crates"):
        dirs[:] = sorted(d for d in dirs if d != "out")
        for name in sorted(names):
            yield os.path.join(top, name)


def is_proof_of_function(path):
    return path.endswith("/Proof.antt")


def uncommented(text):
    return re.sub(r"--.*", "", text)


def foreign(text, crates):
    """The names that a file imports from a library that is not the repository's."""
    found = set()
    for module, names in re.findall(r"^(?:pub )?(?:ghost )?use ([^\s{;]+)\.\{([^}]*)\}", text, flags=re.M):
        parts = module.split(".")
        if parts[0] == "Rattle" and parts[1] in crates and not re.search(r"\.proofs\.[a-z+]", module):
            continue
        found |= {word.strip().split(" as ")[0] for word in names.split(",")}
    return found


def collect(crates):
    declared = {}
    for path in files():
        if path.endswith(".antt"):
            text = uncommented(open(path, encoding="utf-8").read())
            for _, name in DECLARED.findall(text):
                if not name[0].isupper() and spelled(name) != name:
                    declared.setdefault(name, set()).add(path)
            if not is_proof_of_function(path):
                for name in re.findall(r"\blet ([^\W\d_][\w'-]*)(?= )", text):
                    if not name[0].isupper() and spelled(name) != name:
                        declared.setdefault(name, set()).add(path)
    return declared


def turned(text, names, kept):
    """The code with its names turned; a projection, an import and a bare name alike."""
    def one(m):
        word = m.group(0)
        if word in kept or word not in names:
            return word
        before = m.string[max(0, m.start() - 6):m.start()]
        if before.endswith("tie.") or before.endswith("goal.") or before.endswith("code."):
            return word
        return names[word]
    return WORD.sub(one, text)


def ticked(text, names):
    def inside(m):
        return "`" + WORD.sub(lambda w: names.get(w.group(0), w.group(0)), m.group(1)) + "`"
    return re.sub(r"`([^`\n]*)`", inside, text)


def proof_file(text, names, kept):
    out = []
    for line in text.split("\n"):
        code, dash, remark = line.partition("--") if not re.search(r'"[^"]*--', line) else (line, "", "")
        out.append(turned(code, names, kept) + dash + ticked(remark, names))
    return "\n".join(out)


CLAUSE = re.compile(r"^(\s*)(requires|ensures|ghost|#!?\[tactic|record|where)\b")


def source_file(text, names, kept):
    """Only ghost imports, clauses and ghost members are antt; what else stands in a .rt file is Rust."""
    out, depth, inside = [], 0, False
    for line in text.split("\n"):
        stripped = line.strip()
        if stripped.startswith("//"):
            out.append(ticked(line, names))
            continue
        if inside or CLAUSE.match(line):
            out.append(turned(line, names, kept))
            depth += line.count("{") - line.count("}")
            inside = depth > 0
            if not inside:
                depth = 0
        else:
            out.append(line)
    return "\n".join(out)


def bare(path, word):
    """Whether the word stands in the file otherwise than as a projection or a part of a path, as Rust's own names do."""
    return re.search(rf"(?<![\w'.+-]){re.escape(word)}(?![\w'.-])", uncommented(open(path, encoding="utf-8").read()))


def main(words):
    dry = "--dry" in words
    crates = {line.split(":")[0].split()[0] for line in open("crates.txt") if line.strip() and not line.startswith("#")}
    declared = collect(crates)
    names = {name: spelled(name) for name in declared} | APART
    definitions = {new for old, new in names.items() if "-" not in old and old not in APART}
    for old in names:
        if "-" in old and old not in APART and old not in ALIKE and names[old] in definitions:
            names[old] += "_lem"
    # what stands already, file by file
    stands = {}
    for path in files():
        if path.endswith(".antt"):
            text = uncommented(open(path, encoding="utf-8").read())
            for word in set(WORD.findall(text)):
                stands.setdefault(word, set()).add(path)
    bad = 0
    back = {}
    for old, new in sorted(names.items()):
        back.setdefault(new, []).append(old)
    for new, olds in sorted(back.items()):
        if len(olds) > 1 and set(olds) != ALIKE:
            print("fall together:", olds, "->", new)
            for old in olds:
                print("    ", old, sorted(declared[old])[:3])
            bad += 1
    for old, new in sorted(names.items()):
        both = {path for path in stands.get(old, set()) & stands.get(new, set()) if bare(path, new) and new not in names}
        if both:
            print("stands beside:", old, "->", new, sorted(both)[:3])
            bad += 1
    # a parameter that hides a word of its clauses
    for path in files():
        if not path.endswith(".rt"):
            continue
        text = open(path, encoding="utf-8").read()
        for m in re.finditer(r"\bfn (\w+)[^(]*\(([^)]*)\)[^{;]*?((?:\n\s*(?:requires|ensures)[^\n]*)+)", text):
            taken = set(re.findall(r"(\w+):", m.group(2)))
            for word in WORD.findall(m.group(3)):
                if word in names and names[word] in taken:
                    print("hidden by a parameter:", path, m.group(1), word, "->", names[word])
                    bad += 1
                if word in names and names[word] in ("result",):
                    print("result:", path, word)
    print(len(names), "names;", bad, "to keep apart")
    if bad and not dry:
        sys.exit("nothing was changed")
    if dry:
        return
    for path in files():
        if not path.endswith((".antt", ".rt", ".edit")):
            continue
        text = open(path, encoding="utf-8").read()
        kept = foreign(text, crates)
        if path.endswith(".antt"):
            new = proof_file(text, names, kept)
        elif path.endswith(".rt"):
            new = source_file(text, names, kept)
        else:
            continue
        if new != text:
            open(path, "w", encoding="utf-8").write(new)
    with open("docs/PORT-NAMES.tsv", "w", encoding="utf-8") as out:
        for old, new in sorted(names.items()):
            out.write(f"{old}\t{new}\n")


if __name__ == "__main__":
    main(sys.argv[1:])
