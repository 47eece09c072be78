"""Whether LLVM itself finds what native/translate.py says of the parameters of the inner functions.

    attributes.py CLANG MODULE    of the module as it is compiled
    attributes.py CLANG           of two functions made for it: one as it is said, one that writes what it says it only reads

In a copy of the module what is said is taken out, and the compiler infers it anew. Of each parameter of which it is said, it must find `readonly` and
`captures(none)`. `noalias` then follows: what a parameter leads to is only read, it is the caller's own copy or lent, and the header has the place of an
answer apart from it. Prints what is not so, and ends with 1 where something is.
"""
import re
import subprocess
import sys
from pathlib import Path

INNER = re.compile(r"^define hidden void @(guvrendik_inner_\w+)\((.*)\) .*\{$", flags=re.M)
SAID = re.compile(r"ptr noalias readonly captures\(none\) align \d dereferenceable\(\d+\) noundef")
WORDS = ("readonly", "captures(none)")

TRIED = """define hidden void @guvrendik_inner_reads(ptr noalias noundef %a0, ptr noalias readonly captures(none) align 8 dereferenceable(8) noundef %a1) {
  %read = load i64, ptr %a1
  store i64 %read, ptr %a0
  ret void
}
define hidden void @guvrendik_inner_writes(ptr noalias noundef %a0, ptr noalias readonly captures(none) align 8 dereferenceable(8) noundef %a1) {
  store i64 1, ptr %a1
  ret void
}
define hidden void @guvrendik_inner_keeps(ptr noalias noundef %a0, ptr noalias readonly captures(none) align 8 dereferenceable(8) noundef %a1) {
  store ptr %a1, ptr %a0
  ret void
}
"""


def parameters(module):
    """The parameters of each inner function, as they are written."""
    return {name: re.split(r", (?=ptr |i\d+ )", inside) for name, inside in INNER.findall(module)}


def inferred(clang, module):
    """The module without what is said, as the compiler leaves it."""
    bare = INNER.sub(lambda line: SAID.sub("ptr noundef", line.group(0)).replace("ptr noalias noundef", "ptr noundef"), module)
    words = [clang, "--target=aarch64-unknown-linux-gnu", "-Wno-override-module", "-O1", "-S", "-emit-llvm", "-x", "ir", "-", "-o", "-"]
    return subprocess.run(words, input=bare, capture_output=True, text=True, check=True).stdout


def faults(clang, module):
    said, found = parameters(module), parameters(inferred(clang, module))
    if not said or said.keys() != found.keys():
        yield f"the inner functions differ: {sorted(said.keys() ^ found.keys()) or 'there is none'}"
        return
    for name, words in said.items():
        for place, (ours, theirs) in enumerate(zip(words, found[name], strict=True)):
            missing = [word for word in WORDS if word in ours and word not in theirs.split()]
            if missing:
                yield f"{name}: of parameter {place} LLVM does not find {' and '.join(missing)}"


def main(clang, module=None):
    found = list(faults(clang, Path(module).read_text() if module else TRIED))
    print("\n".join(found))
    sys.exit(1 if found else 0)


main(*sys.argv[1:])
