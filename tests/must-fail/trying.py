"""trying.py EDIT: puts a must-fail edit into a copy of its crate and prints all that the check says there, over the libraries that `rt ci` left in the
crates' out/. What an edit leaves as it was is checked once for all edits of a crate, and kept in target/must-fail."""
import os
import re
import shutil
import subprocess
import sys
import tempfile


def edited(edit, crate):
    """The texts that the edit makes of the crate's files, by their paths."""
    texts, path, old = {}, "", ""
    with open(edit, encoding="utf-8") as file:
        lines = file.read().split("\n")
    for line in lines:
        if line.startswith("file: "):
            path = os.path.join(crate, line.removeprefix("file: ").strip())
        elif line.startswith("old: "):
            old = line.removeprefix("old: ")
        elif line.startswith("new:"):
            if path not in texts:
                with open(path, encoding="utf-8") as file:
                    texts[path] = file.read()
            if texts[path].count(old) != 1:
                sys.exit(f"{edit}: '{old}' stands {texts[path].count(old)} times in {path}")
            texts[path] = texts[path].replace(old, line.removeprefix("new:").removeprefix(" "))
    return texts


def uses():
    """crates.txt: what each crate stands on."""
    with open("crates.txt", encoding="utf-8") as file:
        return {name.split()[0]: rest.split() for name, rest in re.findall(r"^([^#:]+):(.*)$", file.read(), re.M)}


def below(crates, name):
    """The crates that a crate stands on, directly or not."""
    found = []
    for use in crates[name]:
        if use in crates:
            found += [one for one in [*below(crates, use), use] if one not in found]
    return found


def words(name):
    """What `rattle check` is told of a library, but for where it keeps its work."""
    crates, kit = uses(), os.path.dirname(os.path.dirname(os.path.realpath(shutil.which("rt"))))
    made = {use: os.path.abspath(f"crates/{use}/out/rlib") for use in below(crates, name)}
    given = [f"{kit}/bin/rattle", "check", "--crate-name", name, "src/lib.rt"]
    for use in ["std", *crates[name]]:
        given += ["--extern", f"{use}={made.get(use, f'{kit}/rlibs')}/{use}.rlib"]
    for folder in [*made.values(), f"{kit}/rlibs"]:
        given += ["-L", f"dependency={folder}"]
    return [*given, "--antt-project", f"{kit}/rattle/logic/antt-project.json", "--logic-built", f"{kit}/logic_built"]


def main(edit):
    crate = os.path.dirname(os.path.dirname(edit))
    name = os.path.basename(crate)
    kept = os.path.abspath(f"target/must-fail/kept/{name}")
    os.makedirs(kept, exist_ok=True)
    with tempfile.TemporaryDirectory(prefix="must-fail-") as room:
        for part in ("src", "specs", "proofs"):
            if os.path.isdir(f"{crate}/{part}"):
                shutil.copytree(f"{crate}/{part}", f"{room}/{part}")
        for path, text in edited(edit, crate).items():
            with open(os.path.join(room, os.path.relpath(path, crate)), "w", encoding="utf-8") as file:
                file.write(text)
        ran = subprocess.run([*words(name), "--jobs", "2", "--incremental", kept], cwd=room, stdout=subprocess.PIPE, stderr=subprocess.STDOUT, text=True, check=False)
        print(ran.stdout, end="")
    return 0


sys.exit(main(sys.argv[1]))
