"""The text that an auditor believes: which definitions the exported calls and the theorems rest on, and that they stand apart.

A file of specs/ (Lib.antt aside) says on its first line what it is, and then what it holds:
    -- Believed: ..   definitions that a contract or a theorem rests on, in the rule book's words, and nothing else
    -- Working: ..    definitions shaped for the code; its head names, in backticks, the law that leads back to a believed one, or what a contract ties
                      it to
    -- Laws: ..       what is proved of either, for other crates; such a file may stand in proofs/ too, and is held to the same

Roots are the `ensures` of the exported calls (crates/portal_c/src; those of crates/portal/src, which they hand on to, say the same) and of the public calls that the printing programs print (crates/verdict_printing/src and
crates/plan_verdict_text/src), `History`, `Authority` and `Traced`, and the statements of the files proofs/Theorems*.antt. From them the closure is taken by name and import: a
name in the type or the body of a definition leads to what it names. `specs.declared` is written by rattle from the structs and enums of src/:
these are listed as types of the code. Modules outside crates/ (`Rattle.std`, `lib`, `mathlib`, `Prim`, `native`, `borrow`) are the language's own, and end it.

A definition is a lemma where its type, behind its arguments, speaks of values: an equation, an order, ⊥, ⊎, ↔, a pair with such a part, or a type that
takes values (`Place l c`, a record with values for parameters). A type that takes nothing but types (`Bool`, `List ℕ`, `Read Register`, `Type 0`)
is that of a definition.

A public name of specs/ stands once there, and what stands in specs/ has a user: another definition of its file, or a file that imports and names it.

The papers are held to all this by papers.py; reading.py prints what a demand rests on.

The lines that are counted are those of definitions, without comments, blank lines and `use`. The bar is for what the base's exported calls, `History`
and `Authority` rest on; what the other theorems' statements add, and what only T-04's JSON, T-01's plan texts, T-10's proposals, T-13's book, T-06's table, the register lent, the words for numbers and the version do,
are counted apart.
"""
import functools
import os
import re

import papers

BAR = 1230
THEOREM_LINES = 100
MARKS = ("Believed", "Working", "Laws")
APART = re.compile(r"json|steps|plan_text|plan_verdict_text|words|refusal_text|violation_text|right_name|flag_name|version$|propos|attach|fetch|fingerprints|cover_table|table_showing|why|who|reason|fault|_lent$|register_bytes")
REPOSITORY = os.path.dirname(os.path.dirname(os.path.dirname(os.path.abspath(__file__))))
EXPORTED, LINKED, PRINTED = "portal_c", "portal", ("verdict_printing", "plan_verdict_text")
DEMANDS = (("history", "History", "History"), ("gate_rules", "Authority", "Authority"), ("gate_rules", "Authority", "Traced"))
MODULE = re.compile(r"Rattle\.(?!std\.)(\w+)\.(specs|proofs)\.(.+)$")
USE = re.compile(r"^(?:ghost )?use ([^\s{}]+?)(?:\.\{([^}]*)\})?(?: as (\S+?))?;?$")
START = re.compile(r"^((?:(?:abbrev|unfoldable|pub) )*)([^\s:(){}]+) :(?:\s|$)")
TYPE = re.compile(r"^((?:pub )?)(record|data) (\S+)")
TOKEN = re.compile(r'"[^"]*"|[(){};,]|λ|[^\s(){};,"]+')
SAYS = {"≡", "≤", "<", "⊥", "⊎", "↔", "¬", "≥", ">"}
OPENS, CLOSES, ENDS = ("(", "{"), (")", "}"), (":", "(", ")", "{", "}", ",", ";", "=")
PROVES = {"rw", "omega", "cases", "search", "cc", "simp", "absurd", "refl", "ap", "sym", "∙", "where", "elim"}


def uncommented(line):
    return re.sub(r"(^|\s)--(\s.*)?$", "", line).rstrip()


def tokens(text):
    return TOKEN.findall(text)


class Block:
    """The head of a block `module _ .. where`, whose parameters its definitions have."""

    def __init__(self, indent):
        self.indent, self.text, self.rows = indent, "", set()

    def add(self, number, bare):
        self.text += bare + " "
        self.rows.add(number)


class Item:
    """A definition: its name, whether it is public, its type, its clauses; of a record or data the fields or constructors."""

    def __init__(self, file, name, kind, pub, number, blocks):
        self.file, self.name, self.kind, self.pub, self.first, self.blocks = file, name, kind, pub, number, blocks
        self.head, self.parts, self.rows = [], [], {number}
        self.unfolds = False

    def label(self):
        return f"{self.file.label()}: {self.name}"


class File:
    def __init__(self, crate, folder, name, text):
        self.crate, self.folder, self.name, self.text = crate, folder, name, text
        self.items, self.names, self.aliases, self.modules = [], {}, {}, set()
        self.owner, self.rows = {}, len(text.splitlines())
        first = text.split("\n", 1)[0]
        self.mark = next((mark for mark in MARKS if re.match(f"-- {mark}: .", first)), None)
        self.about = first.split(": ", 1)[-1] if self.mark else first.removeprefix("-- ")
        self.header = re.match(r"(?:--.*\n)*", text).group()
        self.read()

    def label(self):
        return f"{self.crate}/{self.name}" + ("" if self.folder == "specs" or self.mark == "Laws" else f" (in {self.folder}/)")

    def path(self):
        return f"crates/{self.crate}/{self.folder}/{self.name}.antt"

    def read(self):
        item, blocks, head = None, [], None
        for number, line in enumerate(self.text.splitlines(), 1):
            line = uncommented(line)
            bare, indent = line.strip(), len(line) - len(line.lstrip())
            if not bare:
                continue
            if indent == 0 and bare.startswith("use "):
                self.use(bare)
                continue
            if not head and bare[0] not in CLOSES and bare != "where":
                while blocks and indent <= blocks[-1].indent:
                    blocks.pop()
            level = blocks[-1].indent + 2 if blocks else 0
            if head or indent == level and bare.startswith("module "):
                head, item = head or Block(indent), None
                head.add(number, bare)
                if bare.endswith("where"):
                    blocks.append(head)
                    head = None
            elif indent == level and (TYPE.match(bare) or START.match(bare)):
                item = self.begin(number, bare, blocks)
            elif item:
                item.rows.add(number)
                self.within(item, indent - level, bare)

    def begin(self, number, bare, blocks):
        """A definition's first line."""
        kind = TYPE.match(bare)
        pub, name = (kind.group(1), kind.group(3)) if kind else START.match(bare).groups()
        item = Item(self, name, kind.group(2) if kind else "definition", "pub" in pub, number, blocks[:])
        item.head = [bare]
        self.items.append(item)
        self.owner.setdefault(name, []).append(item)
        return item

    def within(self, item, depth, bare):
        """One more line of an item: of its type, or of a clause, field or constructor."""
        if depth == 0 and bare.startswith("unfolding "):
            item.unfolds = True
        elif depth == 0 and bare[0] not in "})":
            item.parts.append([bare])
        elif item.kind != "definition" and depth == 2:
            item.parts.append([bare])
            if item.kind == "data":
                self.owner.setdefault(bare.split(" ")[0], []).append(item)
        elif item.parts:
            item.parts[-1].append(bare)
        else:
            item.head.append(bare)

    def use(self, line):
        module, names, alias = USE.match(line).groups()
        self.modules.add(module)
        if alias:
            self.aliases[alias] = module
        for name in filter(None, (n.strip() for n in (names or "").split(","))):
            there, _, here = name.partition(" as ")
            self.names[here or there] = (module, there)


@functools.lru_cache(maxsize=None)
def parsed(crate, folder, name, text):
    return File(crate, folder, name, text)


def closes(words, at):
    """Where the bracket that opens at a place closes."""
    depth = 0
    for i in range(at, len(words)):
        depth += (words[i] in OPENS) - (words[i] in CLOSES)
        if depth == 0:
            return i
    return len(words) - 1


def binder(words, at):
    """The names that `(x y : T)` at a place binds, none where it is no binder."""
    end = at + 1
    while end < len(words) and words[end] not in ENDS and not words[end].startswith("."):
        end += 1
    return words[at + 1:end] if words[end:end + 1] == [":"] else []


def parameters(words):
    """The names that the binders at the front of words bind."""
    names, at = [], 0
    while at < len(words) and words[at] in OPENS:
        names += binder(words, at)
        at = closes(words, at) + 1
    return names


def abstraction(words, at):
    """The names of a λ, the words of their types, and where its body begins."""
    names, types = [], []
    while at < len(words):
        if words[at] in OPENS:
            end, bound = closes(words, at), binder(words, at)
            names, types, at = names + bound, types + words[at + 2 + len(bound):end], end
        elif words[at] != ".":
            names.append(words[at].removesuffix("."))
        if words[at].endswith("."):
            break
        at += 1
    return names, types, at + 1


def references(words, bound=()):
    """The words that are not bound where they stand: λ, binders `(x : T)` and `let` bind to the end of what encloses them."""
    found, scopes, binders, lets, at = set(), [list(bound)], [], [], 0
    while at < len(words):
        word, scope = words[at], scopes[-1]
        at += 1
        if word in OPENS:
            names = binder(words, at - 1)
            binders.append((names, len(lets)))
            scopes.append(list(scope))
            at += len(names)
        elif word in CLOSES:
            names, depth = binders.pop()
            scopes.pop()
            scopes[-1].extend(names)
            del lets[depth:]
        elif word in (",", ";"):
            scopes[-1] = list(scopes[-2] if len(scopes) > 1 else bound)
        elif word == "λ":
            names, types, at = abstraction(words, at)
            found |= references(types, scope)
            scope.extend(names)
        elif word == "let":
            lets.append(words[at])
            at += 1
        elif word == "in" and lets:
            scope.append(lets.pop())
        elif word[0] not in '."' and word.partition(".")[0] not in scope and not (words[at:at + 1] == ["="] and words[at - 2] in ("{", ";")):
            found.add(word)
    return found


class Tree:
    """The files of a repository that bear on what is believed."""

    def __init__(self, root):
        self.root = root
        self.files, self.importers = {}, {}
        listed = re.findall(r"^(\w+)(?: \w+)*:", self.read("crates.txt"), re.M)
        present = sorted(os.listdir(os.path.join(root, "crates")))
        self.crates = [c for c in listed if c in present] + [c for c in present if c not in listed]
        self.sources = {c: self.read_all(f"crates/{c}/src", ".rt") for c in self.crates}
        for crate in self.crates:
            for folder in ("specs", "proofs"):
                for path, text in self.read_all(f"crates/{crate}/{folder}", ".antt").items():
                    name = path[:-len(".antt")]
                    if "/" not in name and name != "Lib" and (folder == "specs" or name.startswith("Theorems") or text.startswith("-- Laws: ")):
                        self.files[crate, folder, name] = parsed(crate, folder, name, text)
                    self.note_imports(crate, folder if "/" not in name else "proofs", name, text)
            for path, text in self.sources[crate].items():
                self.note_imports(crate, "src", path, text)
        self.types = {(c, t): body for c in self.crates for t, body in self.declared(c)}

    def read(self, path):
        try:
            with open(os.path.join(self.root, path), encoding="utf-8") as file:
                return file.read()
        except FileNotFoundError:
            return ""

    def read_all(self, folder, ending):
        found = {}
        for here, _, names in os.walk(os.path.join(self.root, folder)):
            for name in sorted(names):
                if name.endswith(ending):
                    path = os.path.relpath(os.path.join(here, name), os.path.join(self.root, folder))
                    found[path] = self.read(os.path.join(folder, path))
        return found

    def note_imports(self, crate, folder, name, text):
        for line in text.splitlines():
            used = USE.match(line) if "use " in line else None
            module = MODULE.match(used.group(1)) if used else None
            if module:
                self.importers.setdefault(module.groups(), set()).add((crate, folder, name))

    def used(self):
        """What of specs/ some file imports and names, as (crate, file, name)."""
        found = set()
        for crate in self.crates:
            texts = [t for folder in ("specs", "proofs") for t in self.read_all(f"crates/{crate}/{folder}", ".antt").values()]
            for text in texts + list(self.sources[crate].values()):
                lines = [line.strip() for line in text.splitlines()]
                uses = [USE.match(line) for line in lines if line.startswith(("use ", "ghost use "))]
                words = {w.rstrip(".") for line in lines if not line.startswith(("use ", "ghost use ", "--", "//")) for w in TOKEN.findall(line)}
                bases = {w.partition(".")[0] for w in words}
                for module, names, alias in (u.groups() for u in uses if u and MODULE.match(u.group(1))):
                    own, folder, file = MODULE.match(module).groups()
                    for name in filter(None, (n.strip() for n in (names or "").split(","))):
                        there, _, here = name.partition(" as ")
                        if (here or there).strip("◌") in bases:
                            found.add((own, file, there))
                    found |= {(own, file, w.split(".")[1]) for w in words if alias and w.startswith(alias + ".")}
        return found

    def declared(self, crate):
        for text in self.sources[crate].values():
            for found in re.finditer(r"^pub (?:struct|enum) (\w+) \{(.*?)^\}", re.sub(r"//.*", "", text), re.M | re.S):
                yield found.group(1), set(re.findall(r"\b[A-Z]\w*", found.group(2)))

    # ---- what a name leads to

    def at(self, module, name):
        """What a name of a module is: ("item", item), ("type", (crate, type)), or None where the language's own modules have it."""
        own = MODULE.match(module)
        if not own:
            return None
        crate, folder, rest = own.groups()
        if rest.startswith("declared."):
            return ("type", (crate, rest.split(".")[1]))
        file = self.files.get((crate, folder, rest)) or self.hidden(crate, folder, rest)
        items = file.owner.get(name) if file else None
        return ("item", items[-1]) if items else ("lost", f"{crate}/{rest}: {name}")

    def hidden(self, crate, folder, name):
        """A file of proofs/ that is no file of theorems: only looked into where a statement names something of it."""
        text = self.read(f"crates/{crate}/{folder}/{name}.antt")
        return parsed(crate, folder, name, text) if text else None

    def resolve(self, file, word, line):
        alias, _, name = word.partition(".")
        if name and alias in file.aliases:
            return self.at(file.aliases[alias], name.partition(".")[0])
        for name in (alias, f"◌{alias}◌"):
            if name in file.owner:
                earlier = [i for i in file.owner[name] if i.first <= line]
                return ("item", (earlier or file.owner[name])[-1])
            if name in file.names:
                return self.at(*file.names[name])
        return None

    def words_of(self, item, stated_only=False):
        """The unbound words of an item: of its type, and of its clauses unless only what it states is asked."""
        bound, found = [], set()
        for block in item.blocks:
            words = tokens(block.text)[2:-1]
            found |= references(words, bound)
            bound += parameters(words)
        head = tokens(" ".join(item.head))
        if item.kind == "definition":
            found |= references(head[head.index(":") + 1:], bound)
        else:
            after = head[head.index(item.name) + 1:]
            found |= references(after, bound) - {"where"}
            bound = bound + parameters(after)
        for part in [] if stated_only and item.kind == "definition" else item.parts:
            words = tokens(" ".join(part))
            if item.kind == "definition":
                found |= self.clause_words(item, words, bound)
            else:
                name = words[1] if words[0] == "pub" else words[0]
                found |= references(words[words.index(":") + 1:], bound)
                bound = bound + [name] if item.kind == "record" else bound
        return found

    def clause_words(self, item, words, bound):
        depth, cut = 0, len(words)
        for at, word in enumerate(words):
            depth += (word in OPENS) - (word in CLOSES)
            if word == "=" and depth == 0:
                cut = at
                break
        left, right = words[:cut], words[cut + 1:]
        variables, built = [], set()
        for word in left:
            if word in OPENS + CLOSES or word == item.name:
                continue
            known = self.resolve(item.file, word, item.first)
            constructs = known and (known[0] == "type" or known[0] == "item" and known[1].kind == "data")
            (built.add if constructs else variables.append)(word)
        local = [w for w, after in zip(right, right[1:]) if after == ":"] if "where" in right else []
        return built | references(right, bound + variables + local)

    def leads_to(self, item):
        proves = self.is_lemma(item)
        for word in sorted(self.words_of(item, stated_only=proves)):
            known = self.resolve(item.file, word, item.first)
            if known and known != ("item", item):
                yield known

    # ---- lemmas

    def is_lemma(self, item):
        if item.kind != "definition":
            return False
        head = tokens(" ".join(item.head))
        return self.says(item, head[head.index(":") + 1:])

    def says(self, item, words):
        """Whether a type, behind its arguments, speaks of values."""
        depth, start = 0, 0
        for at, word in enumerate(words):
            depth += (word in OPENS) - (word in CLOSES)
            if depth == 0 and word in ("→", "in"):
                start = at + 1
        result = words[start:]
        while len(result) > 1 and result[0] == "(" and closes(result, 0) == len(result) - 1:
            return self.says(item, result[1:-1])
        level, parts = 0, [[]]
        for word in result:
            level += (word in OPENS) - (word in CLOSES)
            if level == 0 and word.strip("◌") in SAYS:
                return True
            if level == 0 and word == "×":
                parts.append([])
            else:
                parts[-1].append(word)
        if len(parts) > 1:
            return any(self.says(item, part) for part in parts if not parameters(part))
        known = self.resolve(item.file, result[0], item.first) if result else None
        return bool(known and known[0] == "item" and self.takes_values(known[1]))

    def takes_values(self, item):
        """Whether a type takes values, not types alone."""
        head = tokens(" ".join(item.head))
        after = head[head.index(item.name) + 1:]
        groups, at = [], 0
        while at < len(after):
            if after[at] in OPENS:
                end = closes(after, at)
                groups.append(after[at + 1:end])
                at = end
            elif after[at] == "→" and after[at - 1] not in CLOSES:
                groups.append([":", after[at - 1]])
            at += 1
        kinds = [group[group.index(":") + 1:] if ":" in group else group for group in groups]
        header = any(kind[:1] != ["Type"] for kind in kinds)
        return header and (item.kind != "definition" or "Type" in head)

    # ---- the closure

    def closure(self, roots):
        """All that the roots lead to: items in the order found, types of the code, and names that stand nowhere."""
        items, types, lost, queue = {}, {}, {}, list(roots)
        while queue:
            (kind, what), via = queue.pop()
            kept = {"item": items, "type": types, "lost": lost}[kind]
            if what in kept:
                continue
            kept[what] = via
            if kind == "item":
                queue += [(known, what.label()) for known in self.leads_to(what)]
            elif kind == "type":
                queue += [(("type", self.home(what[0], t)), f"{what[0]}::{what[1]}") for t in sorted(self.types.get(what, ())) if self.home(what[0], t)]
        return items, types, lost

    def home(self, crate, name):
        """The crate of a type that a crate's sources name."""
        if (crate, name) in self.types:
            return crate, name
        for text in self.sources[crate].values():
            found = re.search(rf"^use (\w+)::(?:{name};|\{{[^}}]*\b{name}\b)", text, re.M)
            if found and (found.group(1), name) in self.types:
                return found.group(1), name
        return None

    def call_roots(self, crate):
        """What the contracts of a crate's public calls name, call by call; a call that asks something of its caller is not for all."""
        for text in self.sources.get(crate, {}).values():
            bare = re.sub(r"//.*", "", text)
            file = parsed(crate, "src", "lib", "\n".join(l.removeprefix("ghost ").rstrip(";") for l in text.splitlines() if l.startswith("ghost use ")))
            for found in re.finditer(r'^pub (?:extern "C" )?fn (\w+)\((.*?)^\{', bare, re.M | re.S):
                name, rest = found.groups()
                if "requires" in rest:
                    continue
                stated = re.findall(r"^\s*ensures ?\w* \{ (.*) \}$", rest, re.M)
                bound = ["result"] + re.findall(r"(\w+):", rest.split("ensures")[0])
                words = set().union(*(references(tokens(s), bound) for s in stated)) if stated else set()
                known = [self.resolve(file, word, 0) for word in sorted(words)]
                known += [("type", self.home(crate, t)) for t in re.findall(r"\b[A-Z]\w*", rest.split("ensures")[0]) if self.home(crate, t)]
                yield name, [(k, f"{crate}::{name}") for k in known if k]

    def contracts(self, crate):
        """The name of each public call of a crate, with what it takes, answers and promises."""
        for text in self.sources.get(crate, {}).values():
            for found in re.finditer(r'^pub (?:extern "C" )?fn (\w+)(.*?)^\{', re.sub(r"//.*", "", text), re.M | re.S):
                yield found.group(1), " ".join(found.group(2).split())

    def theorem_roots(self, file):
        for item in file.items:
            for word in sorted(self.words_of(item, stated_only=True)):
                known = self.resolve(file, word, item.first)
                if known and not (known[0] == "item" and known[1].file is file):
                    yield known, item.label()

    def reading_order(self, files):
        """Files, each behind those that it imports: the crates in their order, and the files of one in that of its Lib.antt."""
        done = []

        def place(file):
            names = re.findall(r"^pub mod (\w+)", self.read(f"crates/{file.crate}/{file.folder}/Lib.antt"), re.M)
            return names.index(file.name) if file.name in names else len(names)

        def visit(file):
            if file in done:
                return
            own = [MODULE.match(module) for module in sorted(file.modules)]
            before = [self.files.get(found.groups()) for found in own if found]
            for other in sorted((f for f in before if f in files and f is not file and f.crate == file.crate), key=place):
                visit(other)
            done.append(file)

        for crate in self.crates:
            for file in sorted((f for f in files if f.crate == crate), key=lambda f: (f.folder == "proofs", place(f))):
                visit(file)
        return done

    def theorem_files(self):
        return [f for (c, folder, n), f in self.files.items() if folder == "proofs" and f.mark != "Laws"]

    def spec_files(self):
        """The files of specs/, and the laws in proofs/."""
        return [f for (c, folder, n), f in self.files.items() if folder == "specs" or f.mark == "Laws"]


def lines_of(items):
    """How many lines definitions take, with the head of each block that they stand in."""
    rows = set()
    for item in items:
        rows |= {(item.file, row) for row in item.rows}
        rows |= {(item.file, row) for block in item.blocks for row in block.rows}
    return len(rows)


class Belief:
    """What is believed in a tree, and what is wrong with it."""

    def __init__(self, root):
        self.tree, self.repository = Tree(root), REPOSITORY
        tree = self.tree
        self.faults, self.checks = [], 0
        calls = [(name, roots) for crate in (EXPORTED, *PRINTED) for name, roots in tree.call_roots(crate)]
        self.calls = [name for name, _ in calls]
        said, linked = (dict(tree.contracts(crate)) for crate in (EXPORTED, LINKED))
        for name in sorted(set(said) | set(linked)):
            self.holds(said.get(name) == linked.get(name), f"{EXPORTED}::{name} does not promise what {LINKED}::{name} does")
        for name, roots in calls:
            self.holds(any(kind == "item" for (kind, _), _ in roots), f"{name} has no contract that names a definition")
        base = [r for name, roots in calls if not APART.search(name) for r in roots]
        apart = [r for name, roots in calls if APART.search(name) for r in roots]
        for crate, file, name in DEMANDS:
            known = tree.files.get((crate, "specs", file))
            items = known.owner.get(name) if known else None
            self.holds(items, f"{crate}/{file}: {name} stands nowhere, and is what a demand says")
            base += [(("item", item), name) for item in items or []]
        stated = []
        for file in tree.theorem_files():
            (apart if APART.search(file.crate) else stated).extend(tree.theorem_roots(file))
        self.base, base_types, _ = tree.closure(base)
        self.stated, stated_types, _ = tree.closure(base + stated)
        self.reached, self.types, lost = tree.closure(base + stated + apart)
        for what, via in sorted(lost.items()):
            self.faults.append(f"{via} names {what}, which stands nowhere")
        self.check_marks()
        self.check_names()
        self.check_used()
        self.check_reached()
        self.check_believed()
        self.check_needed()
        self.check_theorems()
        papers.check(self)
        lines = lines_of(self.base)
        self.holds(lines <= BAR, f"{lines} lines are believed for the base, and at most {BAR} may be")

    def holds(self, fact, fault):
        self.checks += 1
        if not fact:
            self.faults.append(fault)

    def check_marks(self):
        for file in self.tree.spec_files():
            self.holds(file.mark, f"{file.path()}: its first line is none of " + ", ".join(f"`-- {m}:`" for m in MARKS))
            if file.mark == "Working":
                laws = re.findall(r"`([^`\s]+)`", file.header)
                self.holds(any(self.stands(law) for law in laws), f"{file.path()}: a working file, whose head names no law that leads back to a believed definition")

    def stands(self, law):
        """Whether a name is that of a definition of some file."""
        if not hasattr(self, "known"):
            texts = (t for c in self.tree.crates for folder in ("specs", "proofs") for t in self.tree.read_all(f"crates/{c}/{folder}", ".antt").values())
            self.known = {name for text in texts for name in re.findall(r"^ *(?:(?:abbrev|unfoldable|pub) )*([^\s:(){}]+) :", text, re.M)}
        return law in self.known

    def check_names(self):
        """A public name of specs/ stands once there: anything else of that name would be taken for it."""
        named = {}
        for file in self.tree.spec_files():
            for item in file.items:
                named.setdefault(item.name, []).append(item)
        for name, items in sorted(named.items()):
            if any(item.pub for item in items):
                self.holds(len(items) == 1, f"{name} stands more than once in specs/: {', '.join(item.file.label() for item in items)}")

    def check_used(self):
        """What stands in specs/ has a user: another definition of its file, or a file that imports it."""
        used = self.tree.used()
        for file in self.tree.spec_files():
            rows = [{w.partition(".")[0] for w in TOKEN.findall(uncommented(line))} for line in file.text.splitlines()]
            for item in file.items:
                word = item.name.strip("◌")
                own = any(word in words for number, words in enumerate(rows, 1) if number not in item.rows)
                self.holds(own or (file.crate, file.name, item.name) in used, f"{item.label()} has no user")

    def check_reached(self):
        for item, via in sorted(self.reached.items(), key=lambda pair: pair[0].label()):
            self.holds(item.file.mark == "Believed" and item.file.folder == "specs",
                       f"{item.label()} is believed (by {via}), and stands in a file that is {item.file.mark.lower() if item.file.mark else 'not marked'}")

    def check_believed(self):
        for file in self.tree.spec_files():
            for item in file.items if file.mark == "Believed" else []:
                lemma = self.tree.is_lemma(item)
                self.holds(not lemma, f"{item.label()} is a lemma, and stands in a believed file")
                self.holds(lemma or item in self.reached, f"{item.label()} stands in a believed file, and nothing reaches it")

    def check_needed(self):
        """A file of specs/ that is not believed is there for other crates, or for contracts, or for such a file."""
        tree, needed = self.tree, set()
        keys = {(f.crate, f.folder, f.name) for f in tree.spec_files()}
        while True:
            more = {k for k in keys - needed
                    if any(c != k[0] or folder == "src" or (c, folder, n) in needed for c, folder, n in tree.importers.get(k, ()))}
            if not more:
                break
            needed |= more
        for file in tree.spec_files():
            if file.mark != "Believed":
                self.holds((file.crate, file.folder, file.name) in needed, f"{file.path()}: no other crate and no contract imports it, so its place is proofs/, without a mark")

    def check_theorems(self):
        for file in self.tree.theorem_files():
            self.holds(file.rows <= THEOREM_LINES, f"{file.path()}: {file.rows} lines, and at most {THEOREM_LINES} may be")
            for item in file.items:
                self.holds(self.cites(item), f"{file.path()}: {item.name} is no theorem that cites: one clause, one expression, no proof of its own")

    def cites(self, item):
        if not item.pub or item.kind != "definition" or item.unfolds or len(item.parts) != 1:
            return False
        left, _, right = " ".join(item.parts[0]).partition(" = ")
        return not set("(){}[]") & set(left) and not PROVES & set(tokens(right))

    def whole(self, path):
        """A file of the tree, or where a copy of it has none, of the repository."""
        if os.path.exists(os.path.join(self.tree.root, path)):
            return self.tree.read(path)
        with open(os.path.join(REPOSITORY, path), encoding="utf-8") as file:
            return file.read()

    def there(self, path):
        return os.path.exists(os.path.join(REPOSITORY, path))

    # ---- what is printed

    def group(self, item):
        return "" if item in self.base else "theorems" if item in self.stated else "T-04"

    def counts(self):
        for title, items in (
                ("the base: exported calls, History and Authority", [i for i in self.reached if self.group(i) == ""]),
                ("the statements of the other theorems, besides", [i for i in self.reached if self.group(i) == "theorems"]),
                ("T-04's JSON, and the words for numbers, besides", [i for i in self.reached if self.group(i) == "T-04"]),
                ("all", list(self.reached))):
            yield f"{title}: {len(items)} definitions, {lines_of(items)} lines, {len({i.file for i in items})} files"

    def listing(self):
        files = self.tree.reading_order({item.file for item in self.reached})
        for crate in self.tree.crates:
            types = sorted(t for c, t in self.types if c == crate)
            if types:
                yield f"{crate}: types of the code: {', '.join(types)}"
            for file in (f for f in files if f.crate == crate):
                yield f"{file.label()}: {file.about}"
                for item in file.items:
                    if item in self.reached:
                        note = self.group(item)
                        yield f"    {item.name}" + (f"  ({note})" if note else "")
