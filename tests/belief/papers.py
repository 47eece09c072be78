"""The papers, held to what they speak of.

docs/RULES.md names a definition, a theorem or a case, in backticks, as `crate/File: name` (`soundness_rules/Sound: drawn_from`), several with commas
between, and a file alone as `crate/File`; files of theorems and cases stand in proofs/, the others in specs/ (laws in either). The word crate itself
stands for any. A rule is its words and below them one line of four parts, `definition · theorem · case · run`, with `–` for none; it has a
definition, a run, and a theorem or a case. What runs it is a folder below tests/cases, as `cases/name`, the beginning of a line that tests/calls
prints, in quotes, or what else stands in backticks.

A name in backticks in README.md, docs/RULES.md, docs/DECISIONS.md, docs/AUDIT.md and docs/CONTRACTS.md is that of something: a definition or what one
imports, a word of the code, of the header or of the texts, a crate or one of its edits, `crate::call`, `Type::member`, or a file.

The words of a refusal, and of a kind of violation, are those of crates/words, in docs/RULES.md, docs/PORTAL.md and include/guvrendik.h.

Papers are wrapped at 100 columns, tables and indented lines aside.
"""
import functools
import os
import re

RULES, DECISIONS, AUDIT, README = "docs/RULES.md", "docs/DECISIONS.md", "docs/AUDIT.md", "README.md"
PORTAL, CONTRACTS, HEADER, WORDS = "docs/PORTAL.md", "docs/CONTRACTS.md", "include/guvrendik.h", "crates/words/specs/Words.antt"
WIDTH = 100
NONE = "–"
NAMED = re.compile(r"`([a-z_]+)/([A-Z]\w*)(?:: ([^`]+))?`")
RULE = re.compile(r"^(\d+)\. \*\*.*(?:\n +.*)*", re.M)
DEFINED = re.compile(r"^ *(?:(?:abbrev|unfoldable|pub) )*([^\s:(){}]+) :", re.M)
MADE = re.compile(r"^(?:pub )?(?:record|data) (\S+)", re.M)
IMPORTED = re.compile(r"^(?:ghost )?use [^\s{}]+\.\{([^}]*)\}", re.M)
SIGNS = {"module", "record", "data", "let", "now", "old", "new", "result", "abbrev", "unfoldable", "suc", "Unit", "search"}
APART = {".git", "target", "__pycache__"}


def file_of(tree, crate, name):
    folder = "proofs" if name.startswith(("Theorems", "Cases")) else "specs"
    return tree.files.get((crate, folder, name)) or tree.hidden(crate, folder, name) or tree.files.get((crate, "proofs", name))


def rules(belief):
    tree, text = belief.tree, belief.tree.read(RULES)
    belief.holds(text, f"{RULES} is not there")
    named = set()
    for crate, name, rest in NAMED.findall(text):
        if crate == "crate":
            continue
        file = file_of(tree, crate, name)
        belief.holds(file, f"{RULES} names `{crate}/{name}`, and there is no such file")
        named.add(file)
        for part in filter(None, (p.strip() for p in rest.split(","))):
            belief.holds(not file or part in file.owner, f"{RULES} names `{crate}/{name}: {part}`, which does not stand there")
    for file in tree.spec_files() if text else []:
        if file.mark == "Believed":
            belief.holds(file in named, f"{RULES} leaves out {file.label()}, which is believed")
    numbered = text.partition("\n## 1.")[2].partition("\n## 9.")[0]
    found = [(int(rule.group(1)), rule.group()) for rule in RULE.finditer(numbered)]
    belief.holds([number for number, _ in found] == list(range(1, len(found) + 1)), f"{RULES}: its rules are not numbered in one run")
    for number, rule in found:
        parts_of(belief, number, rule)
    runs(belief, " ".join(numbered.split()))


def parts_of(belief, number, rule):
    """The four parts below a rule's words."""
    _, *below = re.split(r"\n +- ", rule)
    parts = " ".join(below[0].split()).split(" · ") if len(below) == 1 else []
    belief.holds(len(parts) == 4, f"{RULES}, rule {number}: its words, and one line `definition · theorem · case · run`, are not what it has")
    if len(parts) != 4:
        return
    definition, theorem, case, run = parts
    for title, part, begins in (("definition", definition, ""), ("theorem", theorem, "Theorems"), ("case", case, "Cases")):
        files = [name for _, name, _ in NAMED.findall(part)]
        right = all(n.startswith(begins) if begins else not n.startswith(("Theorems", "Cases")) for n in files)
        belief.holds(right and (files or part == NONE), f"{RULES}, rule {number}: {part} is no {title}")
    belief.holds(definition != NONE and run != NONE, f"{RULES}, rule {number} has no definition, or nothing runs it")
    belief.holds(theorem != NONE or case != NONE, f"{RULES}, rule {number} has neither theorem nor case")


def runs(belief, text):
    printed = belief.whole("tests/calls/expected").splitlines()
    for line in re.findall(r'"([^"]+)"', text):
        belief.holds(any(p.startswith(line) for p in printed), f'{RULES} names the line "{line}", which tests/calls does not print')
    for case in re.findall(r"`cases/(\w+)`", text):
        belief.holds(belief.there(f"tests/cases/{case}"), f"{RULES} names the case {case}, which is not there")


# ---- names

def known(belief):
    """Every name that something has, and what of it stands in which crate."""
    tree, names, code = belief.tree, set(SIGNS) | set(belief.tree.crates), {}
    for crate in tree.crates:
        for folder in ("specs", "proofs"):
            for path, text in tree.read_all(f"crates/{crate}/{folder}", ".antt").items():
                names |= set(DEFINED.findall(text)) | set(MADE.findall(text)) | {os.path.basename(path).removesuffix(".antt")}
                names |= {n.strip().split(" as ")[-1] for part in IMPORTED.findall(text) for n in part.split(",")}
                names |= {word for said in re.findall(r'"([^"\n]*)"', text) for word in re.findall(r"\w+", said)} if folder == "specs" else set()
        text = "\n".join(re.sub(r"//.*", "", t) for t in tree.sources[crate].values())
        code[crate] = set(re.findall(r"\w+", text))
        names |= code[crate]
        names |= {os.path.basename(edit).removesuffix(".edit") for edit in tree.read_all(f"crates/{crate}/must-fail", ".edit")}
    names |= set(re.findall(r"\w+", re.sub(r"/\*.*?\*/", "", belief.whole(HEADER), flags=re.S)))
    return names | {name.strip("◌") for name in names} | files_of(belief.repository), code


@functools.lru_cache(maxsize=None)
def files_of(root):
    """The names of the repository's files and folders."""
    found = set()
    for _, folders, files in os.walk(root):
        folders[:] = [folder for folder in folders if folder not in APART]
        found |= set(folders) | set(files)
    return found


def names(belief):
    """Names in backticks are those of something."""
    all_names, code = known(belief)
    for paper in (RULES, DECISIONS, AUDIT, README, CONTRACTS):
        text = re.sub(r"^```.*?^```", "", belief.tree.read(paper), flags=re.M | re.S)
        for said in sorted({" ".join(s.split()) for s in re.findall(r"`([^`]+)`", text)}):
            belief.holds(names_something(belief, said, all_names, code), f"{paper} names `{said}`, which stands nowhere")


def names_something(belief, said, all_names, code):
    parts = said.split("::")
    if re.fullmatch(r"\w+(::\w+)+", said):
        inside = code.get(parts[0]) if parts[0] in code else all_names
        return inside is not None and all(part in inside for part in parts[1:]) and parts[0] in all_names
    said = re.sub(r"\([\w, ]*\)$", "", said)
    if re.fullmatch(r"[A-Za-z][\w'-]*", said) and not re.fullmatch(r"[a-zA-Z]|NAME", said):
        return said in all_names
    if re.match(r"\.?/?(crates|docs|tests|examples|include|bench|packaging|delivered)/", said) and not re.search(r"NAME|/(crate|C)/| ", said):
        return belief.there(said.removeprefix("./")) or belief.there("crates/" + said.replace("/", "/must-fail/", 1) + ".edit")
    return True


# ---- one wording

def table_of(text, name):
    """The words of a table of crates/words, by number; none where a number has none."""
    body = re.search(rf"^{name} =\n(.*?)\n\n", text, re.M | re.S)
    entries = re.findall(r'(?:^    (?:∷ )?)(?:bytes "([^"]*)"|unknown\w+)$', body.group(1), re.M) if body else []
    return {str(number): words for number, words in enumerate(entries) if words and number}


def wording(belief):
    """The words of a refusal and of a kind of violation are said once, and repeated as they are."""
    words = belief.tree.read(WORDS)
    refusals, violations = table_of(words, "refusal_texts"), table_of(words, "violation_texts")
    portal, header = belief.tree.read(PORTAL), belief.whole(HEADER)
    said = {row[0]: row[1:] for row in re.findall(r"^#define (GUVRENDIK_\w+) (\d+) +/\* (.*?) \*/", re.sub(r"\n +\* ", " ", header), re.M)}
    for paper, text, table in ((RULES, belief.tree.read(RULES).partition("\n## 3.")[2].partition("\n## 4.")[0], refusals),
                               (PORTAL, portal.partition("| refusal |")[2].partition("| violation |")[0], refusals),
                               (PORTAL, portal.partition("| violation |")[2], violations)):
        rows = {cells[0]: cells for cells in ([c.strip() for c in row.strip("| ").split(" | ")] for row in re.findall(r"^\| \d+ .*", text, re.M))}
        belief.holds(set(rows) == set(table), f"{paper} has other numbers than crates/words: {sorted(set(rows) ^ set(table))}")
        for number, cells in sorted(rows.items()):
            right = table.get(number)
            belief.holds(right in cells, f"{paper} has other words than crates/words for {number}: {' | '.join(cells[1:])}")
            for name in re.findall(r"GUVRENDIK_\w+", " ".join(cells)):
                found = said.get(name, ("", ""))
                belief.holds(found[0] == number and found[1].split(". Value: ")[0] == right,
                             f"{HEADER} has other words than crates/words for {name}: {' '.join(found)}")


# ---- the form of the papers

def width(belief):
    for paper in (RULES, AUDIT, DECISIONS, PORTAL, README, CONTRACTS):
        for number, line in enumerate(belief.tree.read(paper).splitlines(), 1):
            belief.holds(len(line) <= WIDTH or line.startswith(("|", "    ")), f"{paper}:{number}: wider than {WIDTH} columns")


def check(belief):
    rules(belief)
    names(belief)
    wording(belief)
    width(belief)
