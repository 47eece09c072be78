"""The papers' lines that a reader will copy: those of docs/PORTAL.md for ctypes and for the package run as they stand, and the manual page names
every word, option, verdict and status."""
import os
import re
import subprocess
import sys

from asking import read
from guvrendik import CASE_R, Action, Register, Right, Use, command, native

# What stands before the lines for ctypes: the two buffers that they name.
BEFORE = """import ctypes, sys
register = ctypes.create_string_buffer(bytes.fromhex("{}"), 16160)
action = ctypes.create_string_buffer(bytes.fromhex("{}"), 320)
"""


def lines_from(text, first):
    """The indented lines of a paper from one that begins so on."""
    found = re.search(rf"^    {re.escape(first)}.*\n(?:    .*\n)*", text, re.M)
    return re.sub(r"^    ", "", found[0], flags=re.M) if found else ""


def portal(count):
    """As a reader would have it: a program of its own, with the library where the system finds it."""
    source = lines_from(read("docs/PORTAL.md").decode(), "library = ctypes.CDLL")
    count.same(4, len(source.splitlines()), "docs/PORTAL.md: the lines for ctypes")
    found = {**os.environ, "LD_LIBRARY_PATH": os.path.dirname(os.path.abspath(native._load()._name))}
    for right, due in ((Right.READ, "True"), (Right.WRITE, "False")):
        before = BEFORE.format(bytes(Register.from_text(CASE_R)._struct).hex(), bytes(Action(2, 1999, (Use(10, right),)).struct()).hex())
        ran = subprocess.run([sys.executable, "-"], input=(before + source + "print(permitted)").encode(), env=found, stdout=subprocess.PIPE, stderr=subprocess.STDOUT)
        count.same((0, due), (ran.returncode, ran.stdout.decode().strip()), f"docs/PORTAL.md: {right.name} by its lines for ctypes")


def package(count):
    given = {"text": CASE_R, "visitor": 2, "now": 1999}
    exec(compile(lines_from(read("docs/PORTAL.md").decode(), "import guvrendik"), "docs/PORTAL.md", "exec"), given)
    count.same((True, 3), (given["permitted"], len(given["changed"].claims)), "docs/PORTAL.md: the lines for the package")


def manual(count):
    page = read("packaging/guvrendik.1.in").decode()
    for word in command.WORDS:
        count.holds(re.search(rf"^\.BR? \"?{word}\b", page, re.M), f"guvrendik(1) has the word {word}")
    for option in sorted({option for one in command.parser()._subparsers._group_actions[0].choices.values() for a in one._actions for option in a.option_strings}):
        count.holds(option.replace("-", r"\-") in page, f"guvrendik(1) has {option}")
    for verdict in command.STATUS:
        count.holds(re.search(rf"^\.BR? .*\b{verdict}\b", page, re.M), f"guvrendik(1) has the verdict {verdict}")
    for status in ("0", "1", "2", "3", "126", "127"):
        count.holds(re.search(rf"^\.TP\n\.B {status}$", page, re.M), f"guvrendik(1) has status {status}")


def check(count):
    for part in (portal, package, manual):
        part(count)
