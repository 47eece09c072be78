"""Numbers: each name has the header's number, each struct its size, each range and each limit of the one table is the header's; the doctests; 10,000
random calls with numbers from -1 to 2^64, none of which crashes or wraps; a thread with little stack; what a call costs."""
import ctypes
import doctest
import inspect
import random
import re
import threading
import time

import guvrendik
from asking import read
from guvrendik import (CASE_R, Action, Actor, Because, Book, Claim, Decision, Flag, JsonAction, Kind, OutOfRange, Refusal, Refused, Register, Resource, Right,
                       Use, Violation, forms, native, register, store, values)

SEED, CALLS = 39, 10_000
SPECIAL = [-1, 0, 1, 2, 10, 64, 65, 1000, 1001, 65535, 65536, 65537, 131071, 131072, 2 ** 32 - 1, 2 ** 32, 2 ** 32 + 1, 2 ** 32 + 2, 2 ** 32 + 10, 2 ** 63, 2 ** 64 - 1, 2 ** 64]


def header():
    return dict(re.findall(r"^(?:#define|   ) GUVRENDIK_(\w+)(?: =)? (\d+)", read("include/guvrendik.h").decode(), re.M))


def names(count):
    said = header()
    for family, kind in (("REFUSAL", Refusal), ("VIOLATION", Violation), ("DECISION", Decision), ("ACTOR", Kind), ("CAN", Right), ("SETS", Flag), ("REASON", Because)):
        due = {name.partition("_")[2]: int(number) for name, number in said.items() if name.startswith(family + "_")}
        if due or family != "REASON":
            count.same(due, {name: member.value for name, member in kind.__members__.items()}, f"the names of {family}_")
    for right in Right.__members__.values():
        count.same(str(right.number), said["RIGHT_" + right.name], f"the number of {right.name}")
    sizes = {name[5:].lower(): int(number) for name, number in said.items() if name.startswith("SIZE_")}
    count.same(set(), set(sizes) - set(native.STRUCTS), "structs of the header that the package has not")
    for name in sizes:
        count.same(sizes[name], ctypes.sizeof(native.STRUCTS[name]), f"the size of {name}")
    for name in ("TEXT_REGISTER", "TEXT_VERDICT", "TEXT_PLAN_VERDICT", "TEXT_JSON", "TEXT_WORDS"):
        count.same(int(said[name]), native.NUMBERS[name], name)
    table = {f"{form}.{key.name}": key for form, keys in forms.FORMS.items() for key in keys}
    most = {"register.actors": "LIMIT_ACTORS", "register.resources": "LIMIT_RESOURCES", "register.claims": "LIMIT_CLAIMS", "resource.scope": "LIMIT_PATH",
            "claim.claim": "MAX_ID", "claim.rights": "MAX_RIGHTS", "claim.weight": "MAX_WEIGHT", "claim.left": "MAX_LEFT", "claim.expiry": "MAX_MOMENT",
            "action.now": "MAX_MOMENT", "action.flags": "MAX_FLAGS", "action.uses": "LIMIT_USES", "action.governs": "LIMIT_GOVERNS", "plan.plan": "LIMIT_STEPS"}
    for key, name in most.items():
        count.same(int(said[name]), table[key].most, f"the most of {key}")
    count.same(int(said["LIMIT_RIGHTS"]) - 1, table["use.right"].most, "the most of use.right")
    hungriest = max(int(n.replace(",", "")) for n in re.findall(r"Stack: ([\d,]+) bytes", read("include/guvrendik.h").decode()))
    count.holds(hungriest + 4000 <= native.STACK, f"a call needs {hungriest} bytes of stack, and {native.STACK} are asked for")


def doctests(count):
    """Each public name has a docstring, and is in an example that runs: what it is given, or what it answers."""
    known = {name: getattr(guvrendik, name) for name in guvrendik.__all__}
    examples = ""
    for module in (guvrendik, forms, values, register, store):
        ran = doctest.testmod(module, extraglobs=known)
        count.holds(ran.attempted > 0 and not ran.failed, f"doctests of {module.__name__}: {ran}")
        examples += "".join(example.source + example.want for found in doctest.DocTestFinder().find(module, extraglobs=known) for example in found.examples)
    for name, thing in known.items():
        parts = [part for part in vars(thing) if not part.startswith("_")] if thing is Register else []
        for said, one in [(name, thing)] * callable(thing) + [(f".{part}", getattr(thing, part)) for part in parts]:
            count.holds(inspect.getdoc(one), f"{name} {said} has no docstring")
            count.holds(re.search(rf"{re.escape(said)}\b", examples), f"{name} {said} is in no example that runs")


def randomly(count):
    """Each number that a call takes is its own or refused: what comes back in the register is what was given."""
    chance, case_r = random.Random(SEED), Register.from_text(CASE_R)
    ended = {"answered": 0, "refused": 0, "out of range": 0}

    def n():
        return chance.choice(SPECIAL) if chance.random() < 0.7 else chance.randrange(-1, 2 ** chance.choice((4, 16, 17, 32, 33, 64)) + 1)

    def grants():
        given = (n(), n(), n(), n(), n())
        claim = Claim(*given, Right.READ, chance.choice((n(), 600)), 0, n())
        return claim in case_r.grant(claim, n()).claims or case_r.version == 1 and case_r.grant(claim, 5).claims[-1][:7] == claim[:7]

    def builds():
        claim = Claim(n(), n(), n(), n(), n(), Right.READ, n(), n(), n())
        made = Register.of([Actor(n(), Kind.HUMAN, n())], [Resource(n(), n(), "site/a")], [claim], chance.choice((1, 2)))
        return made.claims[0] == claim

    def gates():
        action = Action(n(), n(), (Use(n(), Right.READ),), governs=(n(),))
        return Action.of(action.struct()) == action and case_r.gate(action) is not None
    kinds = [grants, builds, gates, lambda: case_r.revoke(n(), n()), lambda: case_r.clear_resource(n(), n()), lambda: case_r.clear_expired(n(), n()),
             lambda: case_r.may(n(), Use(n(), Right.READ), n()) in (True, False), lambda: case_r.propose(n(), Use(n(), Right.READ), n(), [n()]) or True,
             lambda: case_r.who(Use(n(), Right.READ), n()) is not None, lambda: case_r.why_use(n(), Use(n(), Right.READ), n()),
             lambda: case_r.attach(Book(((n(), bytes(32)),)), n(), n(), n(), bytes(32)), lambda: case_r.fetch(Book(), n(), n(), n()),
             lambda: JsonAction(Action(n(), n(), (Use(n(), Right.READ),)), "a", Right.READ).text()]
    wrapped = 0
    for _ in range(CALLS):
        try:
            wrapped += not chance.choice(kinds)()
            ended["answered"] += 1
        except Refused:
            ended["refused"] += 1
        except OutOfRange:
            ended["out of range"] += 1
    count.same(0, wrapped, f"random calls with a number that wrapped, seed {SEED}")
    count.holds(min(ended.values()) > 100, f"random calls: {ended}")
    error = count.raises(OutOfRange, lambda: case_r.grant(Claim(3, 0, 2 ** 32 + 1, 2, 10, Right.WRITE), 5), "grantor 2^32 + 1")
    count.same("grantor 4294967297 is not in 1 to 65535", str(error), "what is said of it")
    for sum_of in (Right, Flag):
        for number in (-1, -2 ** 64, 2 ** 17, 2 ** 32 + 1, 2 ** 64):
            count.raises(ValueError, lambda: sum_of(number), f"{sum_of.__name__} of {number}")
    count.raises(ValueError, lambda: case_r.grant(Claim(3, 0, 1, 2, 10, -1), 5), "rights -1")
    count.raises(ValueError, lambda: case_r.gate(Action(2, 5, flags=-1)), "flags -1")
    count.raises(AttributeError, lambda: case_r.gate(Action(2, 5, (Use(10, 1),))), "a number, where a right is due: it might be a part or a number")
    count.raises(OutOfRange, lambda: case_r.gate(Action(2, 5, (Use(10, Right(3)),))), "two rights in one use")
    count.raises(TypeError, lambda: case_r.revoke(1.0, 2), "a number that is not whole")
    count.same((Right(131071) & ~Right.READ).value, 131070, "all rights but one")


def immutable(count):
    case_r = Register.from_text(CASE_R)
    for thing, name in ((case_r, "_struct"), (case_r, "version"), (Book(), "entries"), (case_r.claims[0], "weight")):
        count.raises(AttributeError, lambda: setattr(thing, name, 1), f"{name} of {thing!r} is set")
    changed = case_r.grant(Claim(3, 0, 1, 2, 10, Right.WRITE), 5)
    count.same((CASE_R, 3), (case_r.text(), len(changed.claims)), "a grant leaves the register as it was")
    count.same((True, 1), (case_r == Register.from_text(CASE_R), len({case_r, Register.from_text(CASE_R)})), "== and hash by text")
    count.holds(case_r != changed and case_r != CASE_R, "registers of two texts are two")
    for decision in Decision:
        count.same(decision is Decision.PERMITTED, bool(decision), f"{decision.name} as a truth")


class TooSmall:
    """The system gives no thread so small a stack."""


def in_thread(size, work):
    """What the work answers or raises in a thread with a stack of that size."""
    found = []

    def run():
        try:
            found.append(work())
        except BaseException as error:
            found.append(error)
    try:
        before = threading.stack_size(size)
    except ValueError:
        return TooSmall()
    thread = threading.Thread(target=run)
    thread.start()
    thread.join()
    threading.stack_size(before)
    return found[0]


def stacks(count):
    case_r = Register.from_text(CASE_R)
    use = Use(10, Right.WRITE)

    def asks():
        return case_r.check_proposal(2, use, 1999, [1], case_r.propose(2, use, 1999, [1]))
    # The least that a system gives is 16 KB or, on AArch64, 128 KB.
    for kilobytes in (32, 64):
        count.holds(isinstance(in_thread(kilobytes * 1024, asks), (MemoryError, TooSmall)), f"a thread of {kilobytes} KB")
    for kilobytes in (128, 256, 1024):
        count.same(True, in_thread(kilobytes * 1024, asks), f"a thread of {kilobytes} KB")

    # Deeper and deeper in one of 256 KB, through a function of C's: at some depth there is too little left.
    def deep(levels):
        return asks() if levels == 0 else next(map(deep, [levels - 1]))
    found = True
    for levels in range(0, 400, 5):
        if found is True:
            found = in_thread(256 * 1024, lambda: deep(levels))
    count.holds(isinstance(found, MemoryError), f"deep in a thread: {found!r}")
    count.holds("stack" in str(found), f"what is said of it: {found}")


def times(count):
    """A gate's own time, beside the library's: the least of many, in processor time."""
    case_r, action = Register.from_text(CASE_R), Action(2, 1999, (Use(10, Right.READ), Use(10, Right.WRITE)))
    struct, place = action.struct(), native.STRUCTS["verdict"]()
    function = native.function("gate")[0] if case_r.gate(action) is not None else None

    def least(work):
        found = []
        for _ in range(20):
            begun = time.process_time_ns()
            for _ in range(200):
                work()
            found.append((time.process_time_ns() - begun) / 200_000)
        return min(found)
    beside = least(lambda: case_r.gate(action)) - least(lambda: function(place, case_r._struct, struct))
    print(f"a gate takes {beside:.1f} microseconds beside the library's own time")
    count.holds(beside <= 60, f"a gate takes {beside:.1f} microseconds beside the library's own time, and 60 at most are due")


def check(count):
    for part in (names, doctests, immutable, stacks, randomly, times):
        part(count)
