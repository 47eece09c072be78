"""Prints what is believed and whether it stands where it should; then tries copies with a fault each, which must be found.

    --list         the names that are believed, in reading order
    --demand N ..  the text of what a demand rests on, 1, 2 or 3, or an exported call by its name
    --audit        writes the parts of docs/AUDIT.md that are made of the sources
"""
import os
import re
import shutil
import signal
import sys
import tempfile

import reading
from closure import Belief, File
from papers import AUDIT, DECISIONS, PORTAL, RULES

# ---- that it can fail

def move(source, target, name):
    """Moves a definition from one file of specs/ to another, which the first then imports it from."""
    def edit(root):
        crate = source.split("/")[1]
        with open(os.path.join(root, source), encoding="utf-8") as file:
            text = file.read()
        here = File(crate, "specs", "", text)
        folder = target.split("/")[2]
        lines, rows = text.splitlines(keepends=True), sorted(here.owner[name][-1].rows)
        cut = "".join(lines[row - 1] for row in rows)
        module = os.path.basename(target).removesuffix(".antt")
        with open(os.path.join(root, source), "w", encoding="utf-8") as file:
            file.write(text.replace(cut, "").replace("\nuse ", f"\nuse Rattle.{crate}.{folder}.{module}.{{{name}}}\nuse ", 1))
        append(target, "\n" + cut)(root)
    return edit


def append(path, text):
    def edit(root):
        os.makedirs(os.path.join(root, os.path.dirname(path)), exist_ok=True)
        with open(os.path.join(root, path), "a", encoding="utf-8") as file:
            file.write(text)
    return edit


def replace(path, old, new):
    def edit(root):
        with open(os.path.join(root, path), encoding="utf-8") as file:
            text = file.read()
        with open(os.path.join(root, path), "w", encoding="utf-8") as file:
            file.write(text.replace(old, new))
    return edit


BROKEN_CRATE = "soundness_rules"
LAWS = next((path for path in (f"crates/{BROKEN_CRATE}/{folder}/Laws.antt" for folder in ("specs", "proofs")) if os.path.exists(path)), "")
BROKEN = (
    ("a believed definition moved to a file of laws", move("crates/soundness_rules/specs/Sound.antt", LAWS, "drawn_from"),
     "drawn_from", "soundness_rules/Laws: drawn_from is believed .* stands in a file that is laws"),
    ("a lemma put into a believed file",
     append("crates/soundness_rules/specs/Sound.antt", "\npub sound_once : (r : Register) → sound r ≡ sound r\nsound_once r = refl\n"),
     "sound_once", "soundness_rules/Sound: sound_once is a lemma"),
    ("a definition that nothing reaches put into a believed file",
     append("crates/soundness_rules/specs/Sound.antt", "\npub unsound : Register → Bool\nunsound r = not (sound r)\n"),
     "unsound", "soundness_rules/Sound: unsound stands in a believed file, and nothing reaches it"),
    ("a law that nothing uses", append(LAWS, "\npub sound_twice : (r : Register) → sound r ≡ sound r\nsound_twice r = refl\n"),
     "sound_twice", "soundness_rules/Laws: sound_twice has no user"),
    ("a name that stands twice", append(LAWS, "\ndrawn_from : ℕ\ndrawn_from = 0\n"),
     "drawn_from", "drawn_from stands more than once in specs/: soundness_rules/"),
    ("a rule that names what does not stand", append(RULES, "\n`soundness_rules/Sound: soundly`\n"),
     "soundly", "names `soundness_rules/Sound: soundly`, which does not stand there"),
    ("a rule with neither theorem nor case", replace(RULES, "`verdict_printing/Cases: json_printed_stopped`", "–"),
     "rule 46", "rule 46 has neither theorem nor case"),
    ("a decision that names what is gone", append(DECISIONS, "\n`withdrawing::withdrawal`\n"),
     "withdrawing::withdrawal", "names `withdrawing::withdrawal`, which stands nowhere"),
    ("a refusal in other words", replace(PORTAL, "| register not sound |", "| register is not sound |"),
     "register is not sound", "has other words than crates/words for 1"),
    ("a theorem proved by cases", append("crates/soundness_rules/proofs/Theorems.antt", "\npub both : (b : Bool) → b ≡ b\nboth true = refl\nboth false = refl\n"),
     "both", "soundness_rules/proofs/Theorems.antt: both is no theorem that cites"),
)


def copy(whole, root):
    """A copy of what is read here: the crate that is broken and the docs, with the other crates as they stand."""
    shutil.copy(os.path.join(whole, "crates.txt"), root)
    shutil.copytree(os.path.join(whole, "docs"), os.path.join(root, "docs"))
    os.mkdir(os.path.join(root, "crates"))
    for crate in os.listdir(os.path.join(whole, "crates")):
        there, here = os.path.join(whole, "crates", crate), os.path.join(root, "crates", crate)
        (shutil.copytree if crate == BROKEN_CRATE else os.symlink)(there, here)


def refuses(whole):
    """Tries the broken copies: each must have the fault that it was made with, and none that speaks of something else."""
    passed, failed = 0, []
    for title, damage, name, expected in BROKEN:
        with tempfile.TemporaryDirectory() as root:
            copy(os.path.abspath(whole.tree.root), root)
            damage(root)
            fresh = [fault for fault in Belief(root).faults if fault not in whole.faults]
        right = [fault for fault in fresh if re.search(expected, fault)]
        if right and all(name in fault for fault in fresh):
            passed += 1
            print(f"refused: {title}: {right[0]}")
        else:
            failed.append(f"{title}: not refused for that: {fresh}")
    return passed, failed


def demand(whole, names):
    """Prints the text of the demands, or of the calls, of these names, for as long as it is read."""
    signal.signal(signal.SIGPIPE, signal.SIG_DFL)
    try:
        for name in names or [""]:
            print("\n".join(reading.Reading(whole, name).text()))
    except KeyError as unknown:
        print(unknown.args[0])
        return 1
    return 0


def main(arguments):
    whole = Belief(".")
    if arguments == ["--list"]:
        print("\n".join(whole.listing()))
        return 0
    if arguments[:1] == ["--demand"]:
        return demand(whole, arguments[1:])
    page = whole.tree.read(AUDIT)
    if arguments == ["--audit"]:
        with open(AUDIT, "w", encoding="utf-8") as file:
            file.write(reading.audit(whole, page))
        return 0
    whole.holds(len(reading.PART.findall(page)) == 2 * len(reading.DEMANDS), f"{AUDIT} leaves out what a demand states or rests on")
    whole.holds(reading.audit(whole, page) == page, f"{AUDIT} is not what the sources say: tests/belief/run --audit")
    print(f"{len(whole.calls)} calls: {', '.join(whole.calls)}")
    for line in whole.counts():
        print(line)
    passed, failed = refuses(whole)
    passed += whole.checks - len(whole.faults)
    for fault in whole.faults + failed:
        print(f"FAILED {fault}")
    print(f"{passed} passed, {len(whole.faults) + len(failed)} failed")
    return 1 if whole.faults or failed else 0


sys.exit(main(sys.argv[1:]))
