"""Each cell of tests/cases/damages, one line of a text times one damage: `explain` names the file and the line, and the key that it expects there is
that of the undamaged line. Where a damage moves what is due, the table below says the line and the key."""
import os
import re
import subprocess
import tempfile

from asking import ask, read

END = "the end of the file"
LEAST = 871
# A count that is one less than its entries: the last entry stands where the list's end is due. One more: what follows the list stands where an entry
# is due. By list: the key behind it, the key of an entry, how many lines behind the count the last entry begins and the list ends.
LISTS = {
    ("register", "actors"): ("resources", "actor", 4, 7), ("register", "resources"): ("claims", "resource", 1, 5),
    ("register", "claims"): (END, "claim", 9, 17), ("action", "uses"): ("governs", "use", 1, 3), ("action", "governs"): (END, "govern", 1, 1),
    ("plan", "plan"): (END, "step", 10, 20), ("plan", "uses"): ("governs", "use", 1, 3), ("plan", "governs"): ("step", "govern", 1, 2),
    ("plan", "sub_plan"): (END, "step", 1, 9),
}
# Damages of one line alone that fail at another line, or want another key: the line and the key.
ONLY = {
    "register_version_2": (22, "left"), "register_2_version_1": (25, "expiry"), "register_weight_left_behind_it": (30, "expiry"),
    "register_claims_0_with_entries": (15, END), "action_govern_another_behind_the_announced": (9, END),
    "plan_step_plan_for_action": (3, "plan"), "plan_step_action_for_plan": (12, "now"),
}


def damaged(path, number, edit):
    """The text with that line edited, as tests/cases/run does it."""
    edit = re.sub(r"\{(.)\*(\d+)\}", lambda many: many[1] * int(many[2]), edit)
    cut = edit.endswith("cut")
    script = f"{number}{{{edit[:-3] + 'q' if cut else edit}}}"
    text = subprocess.run(["sed", "-f", "-", path], input=script.encode(), stdout=subprocess.PIPE, check=True, env={"LC_ALL": "C", "PATH": os.environ["PATH"]}).stdout
    return text[:-1] if cut else text


class Table:
    """The rows of the table, as cells: text, line, name, damage, number printed, edit, line that fails."""

    def __init__(self):
        self.files, self.cells = {}, []
        lines, each, value, none, fails = [], [], {}, set(), {}
        for row in read("tests/cases/damages").decode().splitlines():
            kind, *c = [part.strip() for part in row.split("|")] if re.match("[a-z]", row) else [""]
            if kind == "text":
                self.files[c[0], c[1]] = f"{c[3]}/{c[2]}"
            elif kind == "line":
                lines.append((c[0], c[1], int(c[2]), c[3], c[4] if len(c) > 4 else ""))
            elif kind == "each":
                each.append(c)
            elif kind == "none":
                none |= {(*c[:3], name) for name in c[3].split()}
            elif kind in ("cell", "fails"):
                (value if kind == "cell" else fails).update({(*c[:3], pair.split("=", 1)[0]): pair.split("=", 1)[1] for pair in c[3].split()})
            elif kind == "only":
                matrix = "plans" if c[0] == "plan" else "lines"
                self.cells.append(((matrix, c[0]), int(c[1]), c[2], c[3], int(c[4]), c[5], int(c[7]) if len(c) > 7 else None))
        for matrix, damage, printed, edit, _ in each:
            for text_matrix, text, number, name, own in lines:
                at = (matrix, damage, text, name)
                if matrix == text_matrix and at not in none:
                    script = edit.replace("@", value.get(at, own))
                    self.cells.append(((matrix, text), number, name, damage, int(printed), script, int(fails[at]) if at in fails else None))


def due(text, number, name, damage, lines):
    """The line that fails and the key that is due there."""
    if f"{text}_{name}_{damage}" in ONLY:
        return ONLY[f"{text}_{name}_{damage}"]
    if damage in ("one_less_than_entries", "one_more_than_entries"):
        behind, entry, last, end = LISTS[text, name]
        return (number + last, behind) if "less" in damage else (number + end, entry)
    # The next line is due where one is doubled, where the text ends behind it, and where a path runs on: `scope=site/aclaims=2` is one.
    line = number + (damage in ("line_doubled", "cut_after_it") or (damage, name) == ("no_line_feed", "scope") or damage.endswith("behind_it"))
    return line, lines[line - 1].partition("=")[0] if line <= len(lines) else END


def check(count):
    table = Table()
    count.holds(len(table.cells) >= LEAST, f"{len(table.cells)} cells, and at least {LEAST} are due")
    with tempfile.TemporaryDirectory() as room:
        for (matrix, text), number, name, damage, printed, edit, fails in table.cells:
            path, what = table.files[matrix, text], f"damages: {text} {name} {damage}"
            for part in ("register.txt", "action.txt", "plan.txt"):
                beside = os.path.join(os.path.dirname(path), part)
                if os.path.exists(os.path.join(room, part)):
                    os.unlink(os.path.join(room, part))
                if os.path.exists(beside):
                    raw = damaged(path, number, edit) if beside == path else read(beside)
                    with open(os.path.join(room, part), "wb") as file:
                        file.write(raw)
            status, page, _ = ask("explain", room)
            head, *where = page.splitlines()
            count.same((2, f"stopped: {printed}", 1), (status, head.split(",")[0], len(where)), what)
            lines = read(path).decode().splitlines()
            if printed == 1:
                # Claim 2 has line 34, its `left`; what is wrong with a smaller one is claim 3 below it.
                record = {"of_the_parent": (2, 27), "of_the_child": (3, 36)}[damage]
                count.holds(where[0].startswith(f"register.txt, line {record[1]}: claim {record[0]}, place {record[0] - 1}: 15, "), f"{what}\n  {where[0]}")
                continue
            line, key = due(text, number, name, damage, lines)
            count.holds(fails in (None, line), f"{what}: line {fails} in the table, and {line} here")
            found = re.match(r"(\S+), line (\d+): expected (the end of the file|\w+)(?:= with .*)?, found ", where[0])
            count.same((os.path.basename(path), line, key), found and (found[1], int(found[2]), found[3]), f"{what}\n  {where[0]}")
