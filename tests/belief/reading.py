"""A demand as one text: the definitions that it rests on, each below what it names, and at the end what is stated.

A demand is a list of statements: contracts of exported calls, theorems, each by its name. A call's name is a demand of its own. What is printed are
definitions and the structs and enums of the code that they speak of, with their comments; no imports and no laws.
"""
import re
import textwrap

from closure import APART, EXPORTED, lines_of

BASE = "base"
DEMANDS = {
    "1": (("refusals", "Theorems", ("number_same", "first_decides")),
          ("history", "Theorems", ("refused_register", "refused_removed")),
          ("register_writing", "Theorems", ("text_unwritten", "register_unwritten")),
          ("json_writing", "Theorems", ("json_unwritten",)),
          ("answers", "Theorems", ("accepted_alone", "permitted_alone", "agreed_alone", "outcome_zero_clash", "decision_zero_clash"))),
    "2": (BASE,
          ("text_rules", "Theorems", ("register_accepted", "accepted_register", "register_read_written", "register_written_read", "register_one_text",
                                      "text_one_register"))),
    "3": (("history", "Theorems", ("history",)),),
}


STATED = {"3": (("history", "History", "History"),)}


def shown(text, rows):
    """Some rows of a text with the comments above and within them; a blank line where rows were left out."""
    lines, keep = text.splitlines(), set(rows)
    for row in sorted(rows):
        above = row - 1
        while above > 0 and lines[above - 1].lstrip().startswith("--"):
            keep.add(above)
            above -= 1
    last = None
    for row in sorted(keep):
        if last is not None and row != last + 1:
            yield ""
        yield lines[row - 1]
        last = row


def rows_of(items):
    rows = set()
    for item in items:
        rows |= item.rows
        for block in item.blocks:
            rows |= block.rows
    return rows


def statement(item):
    """What a theorem says: its comment and its type, without the clause that cites the proof."""
    lines, rows = item.file.text.splitlines(), []
    for row in sorted(item.rows):
        if row != item.first and lines[row - 1].strip().startswith((item.name + " ", "unfolding ")):
            break
        rows.append(row)
    heads = [row for block in item.blocks for row in block.rows]
    return list(shown(item.file.text, heads + rows))


def contract(tree, crate, call):
    """What a call says: its head and its contract."""
    for text in tree.sources[crate].values():
        found = re.search(rf'^pub (?:extern "C" )?fn {call}\b.*?^\{{', text, re.M | re.S)
        if found:
            return found.group().removesuffix("{").rstrip().splitlines()
    return []


def declared(tree, crate, name):
    """A struct or enum of the code, with the comment above it."""
    for text in tree.sources[crate].values():
        found = re.search(rf"^((?://[^\n]*\n)*)(?:#\[[^\n]*\n)*(pub (?:struct|enum) {name} \{{[^}}]*^\}})", text, re.M)
        if found:
            return (found.group(1) + found.group(2)).splitlines()
    return []


def equations(lines):
    """A contract as a page has it: the call with the names that it takes, and what it says, a line each."""
    head, says = "".join(lines).partition("ensures")[0], [re.fullmatch(r"\s*ensures ?\w* \{ (.*) \}", line) for line in lines]
    name, taken = re.search(r"fn (\w+)\((.*)\)", head).groups()
    yield name + "(" + ", ".join(re.findall(r"\b(\w+): ", taken)) + ")"
    for found in filter(None, says):
        yield "    " + found.group(1)


class Reading:
    """What a demand states and what it rests on."""

    def __init__(self, belief, what):
        self.tree, self.what = belief.tree, what
        self.stated, self.told, roots = [], [], []
        calls = dict(self.tree.call_roots(EXPORTED))
        parts = DEMANDS.get(what) or ((what,) if what in calls else ("guvrendik_" + what,))
        for part in parts:
            if isinstance(part, str):
                names = [n for n in calls if not APART.search(n)] if part == BASE else [part]
                for name in names:
                    if name not in calls:
                        raise KeyError(f"{what} is none of 1, 2, 3 and no exported call: {', '.join(calls)}")
                    self.stated.append((f"{EXPORTED}: {name}", contract(self.tree, EXPORTED, name)))
                    self.told += equations(self.stated[-1][1])
                    roots += calls[name]
            else:
                crate, file, names = part
                for name in names:
                    item = self.tree.files[crate, "proofs", file].owner[name][0]
                    self.stated.append((f"{crate}/{file}: {name}", statement(item)))
                    self.told += ["", f"-- {crate}/{file}:"] + self.stated[-1][1]
                    roots += self.of_theorem(item)
        self.items, self.types, _ = self.tree.closure(roots)

    def of_theorem(self, item):
        for word in sorted(self.tree.words_of(item, stated_only=True)):
            known = self.tree.resolve(item.file, word, item.first)
            if known and not (known[0] == "item" and known[1].file is item.file):
                yield known, item.label()

    def files(self):
        return self.tree.reading_order({item.file for item in self.items})

    def of(self, file):
        return [item for item in file.items if item in self.items]

    def counts(self):
        return f"{len(self.items)} definitions, {lines_of(self.items)} lines, {len(self.files())} files"

    def rests(self):
        """The files that it rests on in reading order, with the lines of each."""
        return f"{self.counts()}: " + ", ".join(f"`{file.label()}` {lines_of(self.of(file))}" for file in self.files()) + "."

    def text(self):
        title = f"demand {self.what}" if self.what in DEMANDS else self.what
        yield f"-- {title}: {self.counts()}. What is stated stands at the end."
        files = self.files()
        for crate in self.tree.crates:
            types = sorted(t for c, t in self.types if c == crate)
            if types:
                yield f"\n-- ==== {crate}/src: types of the code"
                for name in types:
                    yield ""
                    yield from declared(self.tree, crate, name)
            for file in (f for f in files if f.crate == crate):
                yield f"\n-- ==== {file.label()}"
                yield from file.header.replace(f"-- {file.mark}: ", "-- ", 1).splitlines()
                yield ""
                yield from shown(file.text, rows_of(self.of(file)))
        yield f"\n-- ==== what {title} states"
        for label, lines in self.stated:
            yield f"\n-- {label}"
            yield from lines


# ---- docs/AUDIT.md

WIDTH = 100
PART = re.compile(r"(<!-- demand (\d): (states|rests on) -->\n).*?(<!-- end -->)", re.S)


def filled(text, indent, more):
    return textwrap.wrap(text, WIDTH, initial_indent=indent, subsequent_indent=more, break_long_words=False, break_on_hyphens=False)


def pieces(line):
    """A line of a type, cut before each arrow and each × that stands in no bracket."""
    depth, found = 0, [""]
    for word in re.split(r"(?= )", line):
        if depth == 0 and word in (" →", " ×"):
            found.append("")
        found[-1] += word
        depth += word.count("(") + word.count("{") - word.count(")") - word.count("}")
    return found


def wrapped(lines):
    """Lines of a statement at the width of a page: comments as one paragraph, types cut at their arrows."""
    said = []
    for line in lines + [""]:
        indent = re.match(" *", line).group()
        if line.startswith(indent + "-- "):
            said.append(line)
            continue
        if said:
            more = re.match(" *", said[0]).group() + "-- "
            yield from filled(" ".join(l.strip().removeprefix("-- ") for l in said), more, more)
            said = []
        row = ""
        for piece in pieces(line) if len(line) > WIDTH else [line]:
            if row and len(row) + len(piece) > WIDTH:
                yield from filled(row.strip(), row[:len(row) - len(row.lstrip())], indent + "      ")
                row, piece = indent + "    ", piece.lstrip()
            row += piece
        yield from filled(row.strip(), row[:len(row) - len(row.lstrip())], indent + "      ") or [""]


def states(belief, number):
    """What a demand states, in a fence: records of which a theorem speaks stand in full."""
    told = list(Reading(belief, number).told)
    for crate, file, name in STATED.get(number, ()):
        item = belief.tree.files[crate, "specs", file].owner[name][0]
        told += [""] + list(shown(item.file.text, item.rows))
    return "```\n" + "\n".join(wrapped(told)).strip("\n") + "\n```\n"


def audit(belief, page):
    """The page with its parts as the sources give them."""
    def part(found):
        begins, number, kind, ends = found.groups()
        if kind == "states":
            return begins + states(belief, number) + ends
        return begins + textwrap.fill(Reading(belief, number).rests(), WIDTH, break_long_words=False, break_on_hyphens=False) + "\n" + ends
    return PART.sub(part, page)
