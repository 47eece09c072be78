"""Every line of tests/calls that the package can say. The C program of tests/calls is built once more, with each twin noting what it was given and
what it answered; it must print tests/calls/expected. Each noted call is then said through the package, which must answer the same, or is passed over
for one of the named reasons: the package has no such call; a number is outside its field's range, which the package must refuse and the library must
have refused; the buffer was too short, where the package gives room enough always."""
import collections
import ctypes
import functools
import glob
import os
import re
import subprocess
import tempfile

from asking import read
from guvrendik import (Action, Actor, Because, Book, Claim, Decision, Flag, JsonAction, Kind, OutOfRange, Reason, Refused, Register, Resource, Right, Use,
                       explain, json_action, native, why_unread)
from guvrendik.values import Refusal, Violation, words

RIGHTS = list(Right)

# The calls that name a number, each tried by tests/calls with 70,000 numbers.
NAMING = ("refusal_text", "violation_text", "flag_name")
NO_CALL, NO_ROOM, OUT_OF_RANGE = "no such call of the package", "a buffer too short", "a number out of range"
HEAD = """#include <stdint.h>
#include <stdio.h>
#include <stdlib.h>
static FILE *notes;
static void note(const char *name) { if (notes == NULL) notes = fopen(getenv("NOTES"), "wb"); fprintf(notes, "%s\\n", name); }
static void part(const void *bytes, size_t length) {
    uint64_t n = length;
    fwrite(&n, 8, 1, notes);
    if (length != 0) fwrite(bytes, 1, length, notes);
}
"""


def wrapper(name, parameters):
    """The twin that notes what it was given and answered: what has a length, at its length."""
    taken, noted = [], []
    for (kind, pointer, what), (_, _, behind) in zip(parameters, [*parameters[1:], ("", "", "")]):
        taken.append(f"{'void *' if pointer else kind + ' '}{what}")
        size = ctypes.sizeof(native.STRUCTS[kind])
        if pointer:
            noted.append(f"part({what}, {f'{behind} * {size}' if behind.endswith('_len') else size});")
        elif not what.endswith("_len"):
            noted.append(f"part(&{what}, {size});")
    real, given = f"__real_guvrendik_{name}_at", ", ".join(what for _, _, what in parameters)
    body = f"{real}({given}); note(\"{name}\"); {' '.join(noted)}"
    return f"void {real}({', '.join(taken)});\nvoid __wrap_guvrendik_{name}_at({', '.join(taken)}) {{ {body} }}\n"


def recorded(count, room):
    """The calls that tests/calls makes: name, answer, and what each takes, by kind and name."""
    folder = os.path.dirname(os.environ.get("GUVRENDIK_LIBRARY") or f"delivered/{native.MACHINE}/libguvrendik.so.3")
    sources = "".join(read(path).decode() for path in glob.glob("tests/calls/*.[ch]"))
    calls = {name: taken for name, taken in native.CALLS.items() if f"({name}" in sources}
    with open(f"{room}/notes.c", "w") as file:
        file.write(HEAD + "".join(wrapper(name, taken) for name, taken in calls.items()))
    wraps = [f"-Wl,--wrap=guvrendik_{name}_at" for name in calls]
    subprocess.run(["gcc", "-std=c11", "-O0", "-w", "-Iinclude", "-o", f"{room}/calls", *sorted(glob.glob("tests/calls/*.c")), f"{room}/notes.c", *wraps,
                    f"{folder}/libguvrendik.a"], check=True)
    printed = subprocess.run([f"{room}/calls"], env={"NOTES": f"{room}/notes"}, stdout=subprocess.PIPE, check=True).stdout.decode("latin-1").splitlines()
    for line, due in zip(printed, read("tests/calls/expected").decode("latin-1").splitlines()):
        count.same(due, line, "tests/calls, as noted")
    raw, at = read(f"{room}/notes"), 0
    while at < len(raw):
        end = raw.index(b"\n", at)
        name, values, at = raw[at:end].decode(), [], end + 1
        taken = [one for one in native.CALLS[name] if not one[2].endswith("_len")]
        for kind, pointer, _ in taken:
            length = int.from_bytes(raw[at:at + 8], "little")
            part, at = raw[at + 8:at + 8 + length], at + 8 + length
            is_struct = pointer and kind != "uint8_t" and length == ctypes.sizeof(native.STRUCTS[kind])
            values.append(native.STRUCTS[kind].from_buffer_copy(part) if is_struct else part if pointer else int.from_bytes(part, "little"))
        yield name, values[0], list(zip(taken[1:], values[1:]))


# ---- the ranges, as the header says them: each number that a call is given, its least and its most

ID, MOMENT = native.NUMBERS["MAX_ID"], native.NUMBERS["MAX_MOMENT"]
TAKEN = {"moment": (0, MOMENT), **{name: (0, ID) for name in ("actor", "resource", "claim", "revoker", "caller")}}
OF_CALL = {"refusal_text": (1, 33), "violation_text": (1, 5), "flag_name": (0, 2 ** 32 - 1), "write_json": (0, 16)}


def of_list(number, most, entries, numbers):
    yield number, 0, most
    for entry in entries[:min(number, most)]:
        yield from numbers(entry)


def of_claim(c, version):
    yield from ((c.id, 1, ID), (c.parent, 0, ID), (c.grantor, 1, ID), (c.holder, 1, ID), (c.resource, 1, ID), (c.rights, 1, 131071), (c.weight, 0, 1000),
                (c.expiry, 0, MOMENT), (c.left if version != 1 else 0, 0, 16))


def of_resource(o):
    yield from ((o.id, 1, ID), (o.is_public, 0, 1), (o.keeper, 1, ID))
    yield from of_list(o.len, 64, o.path, lambda byte: [(byte, 0x21, 0x7E)])


def of_register(r):
    yield r.version, 1, 2
    yield from of_list(r.actors.count, 64, r.actors.list, lambda a: [(a.id, 1, ID), (a.kind, 1, 2), (a.owner, 0, ID)])
    yield from of_list(r.resources.count, 64, r.resources.list, of_resource)
    yield from of_list(r.claims.count, 256, r.claims.list, lambda c: of_claim(c, r.version))


def of_use(u):
    yield from ((u.resource, 0, ID), (u.right, 0, 16))


def of_action(a):
    yield from ((a.actor, 0, ID), (a.flags, 0, 1023), (a.now, 0, MOMENT))
    yield from of_list(a.used, 32, a.uses, of_use)
    yield from of_list(a.governed, 8, a.governs, lambda entry: [(entry, 0, ID)])


def all_in_range(name, given):
    version = next((value.version for (kind, _, _), value in given if kind == "register"), 2)
    numbers = {"register": of_register, "claim": lambda c: of_claim(c, version), "usage": of_use, "action": of_action, "fingerprint": lambda f: [],
               "plan": lambda p: of_list(p.count, 16, p.actions, of_action), "signers": lambda s: [(s.count, 0, 8)], "book": lambda b: [(b.count, 0, 64)],
               "proposal": lambda p: [(p.kind, 1, 2), *(of_claim(p.claim, 2) if p.kind == 2 else ())]}
    for (kind, pointer, what), value in given:
        found = numbers[kind](value) if pointer and kind != "uint8_t" else [] if pointer else [(value, *(TAKEN.get(what) or OF_CALL[name]))]
        if not all(least <= number <= most for number, least, most in found):
            return False
    return True


# ---- structs as the package's values

def listed(entries, number, most):
    if number > most:
        raise OutOfRange("a count")
    return entries[:number]


def text_of(raw):
    return bytes(raw).decode("ascii", "surrogateescape")


def claim(c, version=2):
    # In version 1 a claim's left is not asked, and any number.
    return Claim(c.id, c.parent, c.grantor, c.holder, c.resource, Right(c.rights), c.weight, c.left if version != 1 else 0, c.expiry)


def register(r):
    actors = [Actor(a.id, Kind(a.kind), a.owner) for a in listed(r.actors.list, r.actors.count, 64)]
    resources = [Resource(o.id, o.keeper, text_of(listed(o.path, o.len, 64)), o.is_public) for o in listed(r.resources.list, r.resources.count, 64)]
    return Register.of(actors, resources, [claim(c, r.version) for c in listed(r.claims.list, r.claims.count, 256)], r.version)


def right(number):
    if number >= len(RIGHTS):
        raise OutOfRange("a right")
    return RIGHTS[number]


def use(u):
    return Use(u.resource, right(u.right))


def action(a):
    uses, governs = [use(u) for u in listed(a.uses, a.used, 32)], listed(a.governs, a.governed, 8)
    return Action(a.actor, a.now, tuple(uses), Flag(a.flags), tuple(governs))


def book(b):
    return Book(tuple((entry.resource, bytes(entry.fingerprint.bytes)) for entry in listed(b.entries, b.count, 64)))


def signers(s):
    return list(listed(s.list, s.count, 8))


# ---- the calls: what the package says, and what the answer says

def refused(call, *given):
    """What a call answers, or its refusal's number, the line too."""
    try:
        return call(*given)
    except Refused as error:
        return int(error.number), error.line


def refusal(answer):
    return answer.refusal, getattr(answer, "line", 0)


def changed(call, answer, *given):
    return refused(lambda: call(*given).text()), Register(answer.state).text() if answer.accepted else refusal(answer)


def said_verdict(verdict, answer, used):
    due = Decision(answer.decision), answer.refusal, tuple((v.kind, v.value) for v in answer.violations[:answer.count]), tuple(answer.hops[:used])
    return (verdict.decision, int(verdict.refusal or 0), verdict.violations, verdict.hops), due


def said_plan(verdict, answer):
    due = answer.refusal, getattr(answer, "line", 0), answer.position, tuple((j.decision, j.violations) for j in answer.list[:answer.count])
    return (int(verdict.refusal or 0), verdict.line, verdict.position, verdict.judgements), due


def fault(f):
    return None if f.sound else (f.why, ("register", "actors", "resources", "claims")[f.list], f.id, f.place, f.line)


def reason(r):
    return Reason(Because(r.kind), tuple(r.chain[:r.count]), r.keeper, r.ended)


def lines(form, *texts):
    sources = [explain.Source("", text) for text in texts]
    return explain.Case(sources[0], sources[-1], form, sources[1]).lines().encode()


SAYS = {
    "sound": lambda a, r: (register(r).why_unsound() is None, a.sound == 1),
    "grant": lambda a, r, c, now: changed(lambda: register(r).grant(claim(c, r.version), now), a),
    "revoke": lambda a, r, *given: changed(lambda: register(r).revoke(*given), a),
    "clear_resource": lambda a, r, *given: changed(lambda: register(r).clear_resource(*given), a),
    "clear_expired": lambda a, r, *given: changed(lambda: register(r).clear_expired(*given), a),
    "gate": lambda a, r, x: said_verdict(register(r).gate(action(x)), a, x.used),
    "judge_plan": lambda a, r, p: said_plan(register(r).plan([action(x) for x in listed(p.actions, p.count, 16)]), a),
    "judge_plan_text": lambda a, r, text: said_plan(register(r).plan_text(text), a),
    "propose": lambda a, r, actor, u, now, s: (refused(lambda: register(r).propose(actor, use(u), now, signers(s))),
                                               refusal(a) if not a.accepted else Claim.of(a.proposal.claim) if a.proposal.kind == 2 else None),
    "check_proposal": lambda a, r, actor, u, now, s, p: (
        refused(lambda: register(r).check_proposal(actor, use(u), now, signers(s), proposal(p))), (a.refusal, 0) if a.refusal else a.answer == 1),
    "attach": lambda a, b, r, *given: (refused(lambda: register(r).attach(book(b), *given[:3], bytes(given[3].bytes))), book(a.book) if a.accepted else refusal(a)),
    "fetch": lambda a, b, r, *given: (refused(lambda: register(r).fetch(book(b), *given)), bytes(a.fingerprint.bytes) if a.accepted else refusal(a)),
    "read_register": lambda a, text: changed(lambda: Register.from_text(text), a),
    "write_register": lambda a, r, buffer: (refused(lambda: register(r).text().encode()), buffer[:a.length] if a.accepted else refusal(a)),
    "read_action": lambda a, text: (refused(Action.from_text, text), action(a.action) if a.accepted else refusal(a)),
    "read_json": lambda a, text, now: (refused(json_action, text, now),
                                       JsonAction(action(a.action), text_of(a.id[:a.id_len]), RIGHTS[a.kind]) if a.accepted else refusal(a)),
    "write_json": lambda a, x, name, kind, buffer: (refused(lambda: JsonAction(action(x), text_of(name), right(kind)).text().encode()),
                                                    buffer[:a.length] if a.accepted else refusal(a)),
    "refusal_text": lambda a, number, buffer: (Refusal(number).words, buffer[:a.length].decode()),
    "violation_text": lambda a, number, buffer: (Violation(number).words, buffer[:a.length].decode()),
    "flag_name": lambda a, number, buffer: (words("flag_name", number), buffer[:a.length].decode()),
    "verdict_text": lambda a, register, asked, buffer: (lines("action", register, asked), buffer[:a.length]),
    "plan_verdict_text": lambda a, register, asked, buffer: (lines("plan", register, asked), buffer[:a.length]),
    "json_verdict_text": lambda a, register, clock, asked, buffer: (lines("json", register, clock, asked), buffer[:a.length]),
    "cover_table": lambda a, r, *given: (refused(lambda: bytes(explain.cover_table(register(r), *given))), bytes(a) if a.accepted else refusal(a)),
    "why_unsound": lambda a, r: (register(r).why_unsound(), fault(a)),
    "why_unread": lambda a, text: (why_unread(text), fault(a)),
    "who": lambda a, r, u, now: (refused(lambda: register(r).who(use(u), now)), tuple(a.ids[:a.count]) if a.accepted else refusal(a)),
    "why_use": lambda a, r, actor, u, now: (refused(lambda: tuple(register(r).why_use(actor, use(u), now))),
                                            (reason(a.actor), a.owner, reason(a.owners)) if a.accepted else refusal(a)),
}


def proposal(p):
    if p.kind not in (1, 2):
        raise OutOfRange("a kind")
    return claim(p.claim) if p.kind == 2 else None


def reason_of(name, answer, given):
    """Why a noted call is passed over, or nothing."""
    if name not in package_calls():
        return NO_CALL
    if native.CALLS[name][0][0] == "written" and answer.refusal == native.NUMBERS["REFUSAL_BUFFER"]:
        return NO_ROOM
    return None if all_in_range(name, given) else OUT_OF_RANGE


@functools.lru_cache(maxsize=None)
def package_calls():
    """The calls that the package's sources make. That a register is sound it says by why_unsound."""
    sources = b"".join(read(path) for path in glob.glob("python/guvrendik/*.py")).decode()
    return {*re.findall(r'\b(?:ask|words|call)\("(\w+)"', sources), *explain.LINES.values(), "sound"}


def refuses(answer):
    """Whether an answer of the library says no."""
    return not any(getattr(answer, field, 0) == 1 for field in ("accepted", "sound", "answer", "decision"))


def refused_by_both(name, answer, values):
    """Whether the package raises on a number out of range, and the library says no, where it does not name a number."""
    try:
        SAYS[name](answer, *values)
    except ValueError:
        return name in NAMING or refuses(answer)
    return False


def check(count):
    said, passed_over, noted, wrong = collections.Counter(), collections.Counter(), 0, collections.defaultdict(list)
    count.same(package_calls(), set(SAYS), "the calls of the package are those that are said here")
    with tempfile.TemporaryDirectory() as room:
        for name, answer, given in recorded(count, room):
            noted += 1
            reason, values = reason_of(name, answer, given), [value for _, value in given]
            if reason is None:
                said[name] += 1
                found, due = SAYS[name](answer, *values)
                if name in NAMING:
                    wrong[name] += [values[0]] * (found != due)
                else:
                    count.same(due, found, f"{name}, by the package")
            else:
                passed_over[reason] += 1
                wrong[name] += [values] * (reason == OUT_OF_RANGE and not refused_by_both(name, answer, values))
    print("calls said:", ", ".join(f"{name} {said[name]}" for name in sorted(said)))
    print("passed over:", ", ".join(f"{number} for {reason}" for reason, number in sorted(passed_over.items())))
    for name in sorted(wrong):
        count.same([], wrong[name][:3], f"{name} of these, by the package: another answer, or out of range and not refused")
    count.same(noted, sum(said.values()) + sum(passed_over.values()), "each noted call is said or passed over for a named reason")
    count.holds(set(passed_over) <= {NO_CALL, NO_ROOM, OUT_OF_RANGE}, f"passed over: {passed_over}")
