"""Every folder of tests/cases and examples: the verdict byte for byte, the status, and of `explain` the first word, the number, and a line for each
violation."""
import glob
import os
import re

from asking import ask, read

LEAST = 398
# What stands behind the place, by refusal: a record of the register, an actor; else what was due there.
WHERE = {"1,": ", place ", "3,": "is not in the register"}


def due_of(lines):
    """The first word of `explain`, and the status, that follow from the customer's lines."""
    first, rest = lines[0].partition("=")[2], lines[1:]
    if first == "judged":
        permitted = rest.count("verdict=permitted") == int(rest[0].partition("=")[2])
        return ("permitted", 0) if permitted else ("refused", 1)
    return first, {"permitted": 0, "refused": 1, "stopped": 2}[first]


def violation_lines(page):
    """The lines of a page that tell a violation, by kind and value, as the customer's lines have them."""
    found = []
    for line in page:
        words = line.strip().split()
        if words[0] == "flag":
            found.append((1, int(words[1].rstrip(","))))
        elif words[0] == "actor" and line.endswith(", machine without owner"):
            found.append((2, int(words[1].rstrip(","))))
        elif words[0] == "governed":
            found.append((3, int(words[2].rstrip(","))))
        elif words[0] == "use" and not line.endswith(": permitted"):
            found.append((int(line.rpartition("): " if "): " in line else ": ")[2].split(",")[0]), int(words[1].rstrip(","))))
    return found


def folder(count, place):
    expected = read(f"{place}/expected").decode()
    lines = expected.splitlines()
    plan = lines[0].startswith("plan=")
    word, status = due_of(lines)
    count.same((status, expected), ask("plan" if plan else "verdict", place)[:2], f"{place}: verdict")
    if plan and not os.path.exists(f"{place}/plan.txt"):
        return
    found, page, _ = ask("explain", place)
    page = page.splitlines()
    count.same((status, word), (found, page[0].partition(":")[0]), f"{place}: explain")
    if word == "stopped":
        count.same(lines[1].partition("=")[2], page[0].split()[1].rstrip(","), f"{place}: the number")
        said = WHERE.get(page[0].split()[1], "expected|no such file|Expecting|Extra data|JSON")
        count.holds(len(page) == 2 and re.match(rf"(register|action|plan|clock)\.(txt|json)(, line \d+)?: .*({said})", page[1]), f"{place}: where\n  {page}")
    elif not plan:
        pairs = list(zip(lines[2::2], lines[3::2]))
        due = [(int(kind.partition("=")[2]), int(at.partition("=")[2])) for kind, at in pairs]
        count.same(due, violation_lines(page[1:]), f"{place}: a line for each violation")
    else:
        counts = [int(line.partition("=")[2]) for line in lines if line.startswith("violations=")]
        count.same(sum(counts), len(violation_lines(page[1:])), f"{place}: a line for each violation")
        heads = [line for line in page if line.startswith("action ")]
        count.same(len(lines[2:]) - len(counts) - lines.count("verdict=permitted"), len(heads), f"{place}: a line for each action not permitted")
    count.same((found, lines), (lambda s, o, e: (s, o.splitlines()))(*ask("explain", "--visitor", place)), f"{place}: for a visitor")


def check(count):
    places = sorted(os.path.dirname(path) for path in glob.glob("tests/cases/*/expected") + glob.glob("examples/*/expected"))
    places = [place for place in places if place != "examples/c"]
    count.holds(len(places) >= LEAST, f"{len(places)} folders, and at least {LEAST} are due")
    for place in places:
        folder(count, place)
