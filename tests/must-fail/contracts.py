"""Writes docs/CONTRACTS.md to standard output: up to and with the line that begins with BELOW it is kept as it stands, what comes behind it is made
of the crates, in the order of crates.txt: the contract of each public call of src/lib.rt and of the modules that it hands on (of calls that an
earlier crate has with the same contract, only how many they are), the comment of each theorem of proofs/Theorems*.antt, and the first line of each
must-fail edit. It fails for a public call that asks something of its caller or has no contract, unless the kept part names it as `crate::call`, for
a theorem without comment and for an edit without first line.
"""
import glob
import os
import re
import sys
import textwrap

PAGE = "docs/CONTRACTS.md"
BELOW = "Below: written by `tests/must-fail/run --contracts`"
WIDTH = 100
CALL = re.compile(r'^( *)pub (?:extern "C" )?fn (\w+)(?:<[^>]*>)?\((.*?)(?:^\1| )\{$', re.M | re.S)
WITHIN = re.compile(r"^impl (\w+) \{(.*?)^\}", re.M | re.S)
THEOREM = re.compile(r"((?:^ *--[^\n]*\n)*)^ *pub ([^\s:]+) :", re.M)
faults = []
told = {}


def read(path):
    with open(path, encoding="utf-8") as file:
        return file.read()


def comment(text, mark):
    """The words of comment lines."""
    return " ".join(line.strip().removeprefix(mark).strip() for line in text.splitlines()).strip()


def above(text, at, mark):
    """The comment that stands above a place of a text; attributes may stand between."""
    lines, found = text[:at].splitlines(), []
    while lines and lines[-1].strip().startswith((mark, "#[")):
        line = lines.pop()
        if line.strip().startswith(mark):
            found.insert(0, line)
    return comment("\n".join(found), mark)


def entry(text, depth=0):
    indent = "  " * depth
    return textwrap.fill(text, WIDTH, initial_indent=indent + "- ", subsequent_indent=indent + "  ", break_long_words=False, break_on_hyphens=False)


def paragraph(text):
    return textwrap.fill(text, WIDTH, break_long_words=False, break_on_hyphens=False)


def parameters(text):
    return ", ".join(re.findall(r"self|\b\w+(?=: )", text))


def stated(text):
    """The parts of a contract, as they stand in the code: the name of each, and what it says."""
    for name, says in re.findall(r"^\s*ensures ?(\w*) \{ (.*) \}$", text, re.M):
        yield f"`ensures{' ' + name if name else ''} {says}`"


def sources(crate):
    """The text of the crate's public face with no names, for all of them, and that of each module whose calls it hands on, with their names."""
    face = read(f"crates/{crate}/src/lib.rt")
    yield face, None
    for module in re.findall(r"^mod (\w+);$", face, re.M):
        handed = re.findall(rf"^pub use {module}::(\w+);$", face, re.M)
        if handed:
            yield read(f"crates/{crate}/src/{module}.rt"), handed


def calls(crate, kept):
    again = {}
    for text, handed in sources(crate):
        yield from calls_of(crate, kept, text, handed, again)
    for other, count in again.items():
        yield entry(f"{count} calls of `{other}`, each with the contract that it has there.")


def calls_of(crate, kept, text, handed, again):
    spans = [(found.start(), found.end(), found.group(1)) for found in WITHIN.finditer(text)]
    for found in CALL.finditer(text):
        _, name, rest = found.groups()
        if handed is not None and name not in handed:
            continue
        taken = re.split(r"^\s*(?:requires|ensures) ", rest, maxsplit=1, flags=re.M)[0]
        owner = next((owner + "::" for start, end, owner in spans if start < found.start() < end), "")
        said, parts = above(text, found.start(), "//"), list(stated(rest))
        if re.search(r"^\s*requires ", rest, re.M) and f"`{crate}::{name}`" not in kept:
            faults.append(f"{crate}::{name} asks something of its caller, and {PAGE} does not name it as an exception")
        if not parts and f"`{crate}::{name}`" not in kept:
            faults.append(f"{crate}::{name} has no contract, and {PAGE} does not name it as an exception")
        key = (owner, name, " ".join(rest.split()))
        if parts and told.setdefault(key, crate) != crate:
            again[told[key]] = again.get(told[key], 0) + 1
            continue
        yield entry(f"`{owner}{name}({parameters(taken)})`: {said}")
        for part in parts or ["no contract: see the exceptions"]:
            yield entry(part, 1)


def theorems(crate):
    for path in sorted(glob.glob(f"crates/{crate}/proofs/Theorems*.antt")):
        for words, name in THEOREM.findall(read(path)):
            if not words:
                faults.append(f"{path}: {name} has no comment that says it")
            number, _, said = comment(words, "--").partition(" ")
            yield entry(f"{number} `{name}`: {said}")


def edits(crate):
    for path in sorted(glob.glob(f"crates/{crate}/must-fail/*.edit")):
        first = read(path).splitlines()[0]
        if not re.match(r"# .", first):
            faults.append(f"{path}: no line says which wrong answer it tries")
        yield entry(f"`{crate}/{os.path.basename(path).removesuffix('.edit')}`: {first.removeprefix('# ')}")


def section(crate, kept):
    head = re.match(r"(?://[^\n]*\n)*", read(f"crates/{crate}/src/lib.rt")).group()
    yield f"## `{crate}`\n"
    yield paragraph(comment(head, "//")) + "\n"
    for title, rows in (("Calls", list(calls(crate, kept))), ("Theorems", list(theorems(crate))), ("Wrong answers, each refused", list(edits(crate)))):
        if rows:
            yield f"**{title}**\n"
            yield "\n".join(rows) + "\n"


def page():
    kept, below, _ = read(PAGE).partition("\n" + BELOW)
    if not below:
        faults.append(f"{PAGE} has no line that begins with {BELOW}")
    yield kept + below + ", from the crates' `src`, `Theorems` and edits.\n"
    for crate in re.findall(r"^(\w+)(?: \w+)*:", read("crates.txt"), re.M):
        if os.path.exists(f"crates/{crate}/src/lib.rt"):
            yield from section(crate, kept)


os.chdir(os.path.join(os.path.dirname(os.path.abspath(__file__)), "../.."))
written = "\n".join(page()).rstrip("\n") + "\n"
for fault in faults:
    print(fault, file=sys.stderr)
if faults:
    sys.exit(1)
sys.stdout.write(written)
