"""What goes into a call and what comes out: numbers with names, and records that do not change.

>>> Right.READ | Right.DELEGATE == Right(17), Right.named("read,write").names(), Right.WRITE.number
(True, 'READ WRITE', 1)
>>> Flag(64).name, Refusal(14).words, Violation(4).words, Kind(2).name, Because(1).name
('COERCES', "weight above the parent's", 'use that the actor does not cover', 'MACHINE', 'RELIES')
>>> human, report, claim = Actor(1, Kind.HUMAN), Resource(10, 1, "site/a"), Claim(1, 0, 1, 1, 10, Right.READ)
>>> Register.of([human], [report], [claim]).may(1, Use(10, Right.READ), 1999)
True
>>> Action.from_text("now=5\\nactor=1\\nflags=0\\nuses=0\\ngoverns=0\\n") == Action(1, 5, uses=(), flags=Flag(0))
True
>>> sent = JsonAction(Action(2, 1999, (Use(10, Right.READ),)), "a-1", Right.READ)
>>> json_action(sent.text(), 1999) == sent
True
>>> [bool(decision) for decision in Decision], bool(Verdict(Decision.STOPPED, Refusal.ABSENT))
([True, False, False, False], False)
>>> bool(PlanVerdict(None, (Judgement(Decision.PERMITTED), Judgement(Decision.REFUSED, 1))))
False
>>> why_unread("register=1\\n")
Fault(why=<Refusal.FORM: 19>, list='register', id=0, place=0, line=2)
"""
from __future__ import annotations

import enum
from typing import Any, List, NamedTuple, Optional, Tuple, Union

from . import native
from .forms import FORMS, ID, PATH, OutOfRange, in_range

Text = Union[str, bytes]
# The customer's case R, to try calls on: human 1, its machine 2, report 10; claim 2 lets 2 read until 2000.
CASE_R = "\n".join("""register=1 actors=2 actor=1 kind=human owner=0 actor=2 kind=machine owner=1
    resources=1 resource=10 public=0 keeper=1 scope=site/a
    claims=2 claim=1 parent=0 grantor=1 holder=1 resource=10 rights=19 weight=1000 expiry=0
    claim=2 parent=1 grantor=1 holder=2 resource=10 rights=1 weight=600 expiry=2000""".split()) + "\n"


class Sum(enum.Flag):
    """Parts of a sum, which is never below 0: enum itself would take -1 for all of them."""

    @classmethod
    def _missing_(cls, value: Any) -> Any:
        if not isinstance(value, int) or value < 0:
            raise OutOfRange(f"{value!r} is no sum of parts of {cls.__name__}")
        return super()._missing_(value)


class Right(Sum):
    """The seventeen rights, as parts of a claim's rights."""
    READ, WRITE, EXECUTE, DELETE, DELEGATE = 1, 2, 4, 8, 16
    NETWORK_EGRESS, NETWORK_INGRESS, FILE_SYSTEM, PROCESS_SPAWN, MEMORY_WRITE = 32, 64, 128, 256, 512
    CREDENTIAL_READ, CREDENTIAL_WRITE, AUDIT_READ, AUDIT_WRITE = 1024, 2048, 4096, 8192
    POLICY_READ, REGISTRY_MODIFY, POLICY_MODIFY = 16384, 32768, 65536

    @classmethod
    def named(cls, names: str) -> Right:
        """The rights of names with commas between, in upper or lower case."""
        found, known = {name.strip().upper() for name in names.split(",")}, cls.__members__
        if not found <= set(known):
            raise ValueError(f"{' '.join(sorted(found - set(known)))!r} is no right; there are {' '.join(known)}")
        return cls(sum(cls[name].value for name in found))

    @property
    def number(self) -> int:
        """The number of one right, for a use."""
        if self.value & (self.value - 1) or not self.value:
            raise OutOfRange(f"one right is asked for, and not {self.names() or 'none'}")
        return int(self.value.bit_length() - 1)

    def names(self) -> str:
        """The names of the rights, blanks between."""
        return " ".join(name for name, right in Right.__members__.items() if right in self)


class Flag(Sum):
    """The ten flags, as parts of an action's flags."""
    INCREASES_SOVEREIGNTY, RESISTS_CORRECTION, BYPASSES_VERIFIER, WEAKENS_VERIFIER = 1, 2, 4, 8
    DISABLES_CORRIGIBILITY, COALITION_DOMINION, COERCES, DECEIVES = 16, 32, 64, 128
    SELF_MODIFICATION, COALITION_REDUCES_FREEDOM = 256, 512


class Refusal(enum.IntEnum):
    """The numbers that a call refuses with."""
    UNSOUND, RANGE, ABSENT, STANDS, FULL, NOT_KEEPER, OWNERLESS, NOT_BY_MACHINE, NO_PARENT, NOT_HELD = range(1, 11)
    NOT_LIVE, NO_DELEGATE, RIGHT_LACKING, WEIGHT_ABOVE, TOO_MANY_HOPS, CIRCLE, NO_CLAIM, NO_GRANTOR = range(11, 19)
    FORM, COUNT, BUFFER, TOO_DEEP, TOO_MANY_ACTIONS, JSON_FORM, JSON_LACKS, NO_PROPOSAL = range(19, 27)
    NOT_PERMITTED, NO_ENTRY, BOOK_FULL, BAD_BOOK, DOUBLED, BAD_OWNER, BAD_KEEPER = range(27, 34)

    words = property(lambda self: words("refusal_text", self), doc="What the number says, in the library's words.")


class Violation(enum.IntEnum):
    """The kinds of violation."""
    FLAG, MACHINE_OWNERLESS, MACHINE_GOVERNS, NOT_COVERED, OWNER_NOT_COVERED = range(1, 6)

    words = property(lambda self: words("violation_text", self), doc="What the kind says, in the library's words.")


class Decision(enum.IntEnum):
    """A decision, true only where it permits."""
    PERMITTED, REFUSED, STOPPED, CANCELLED = range(1, 5)

    def __bool__(self) -> bool:
        return self is Decision.PERMITTED


class Kind(enum.IntEnum):
    """Kinds of actor."""
    HUMAN, MACHINE = 1, 2


class Because(enum.IntEnum):
    """Kinds of reason: not asked; a claim relied on; public READ; a claim not live, or lacking the right; none held."""
    UNASKED, RELIES, PUBLIC, NOT_LIVE, LACKS, UNHELD = range(6)


class Refused(Exception):
    """A call was refused: `number` says why, in `words`; `line` is the failing line of a text, from 1, or 0."""

    def __init__(self, number: int, line: int = 0) -> None:
        self.number, self.line, self.words = Refusal(number), line, Refusal(number).words
        super().__init__(f"{number}, {self.words}")


def ask(name: str, *given: Any) -> Any:
    """The answer of a call that accepts."""
    answer = native.call(name, *given)
    if answer.refusal or not getattr(answer, "accepted", 1):
        raise Refused(answer.refusal, getattr(answer, "line", 0))
    return answer


def words(name: str, *given: Any) -> str:
    """The text that a call writes."""
    return str(ask(name, *given).text, "ascii")


def in_form(form: str, *values: Any) -> List[int]:
    """The numbers of a record, each in the range that its line has in a text."""
    return [in_range(key.name, value, key.least, key.most) for key, value in zip(FORMS[form], values)]


class Actor(NamedTuple):
    """An actor of a register; `owner` is 0 for none."""
    id: int
    kind: Kind
    owner: int = 0

    def struct(self) -> Any:
        return native.struct("actor", *in_form("actor", *self))


class Resource(NamedTuple):
    """A report."""
    id: int
    keeper: int
    path: str
    public: bool = False

    def struct(self) -> Any:
        path = native.raw(self.path)
        if len(path) > 64 or not all(0x21 <= byte <= 0x7E for byte in path):
            raise OutOfRange(f"path {self.path!r} is not {PATH}")
        numbers = in_form("resource", self.id, self.public, self.keeper, len(path))
        return native.struct("resource", *numbers, path)


class Claim(NamedTuple):
    """A claim; `parent` is 0 for a root, `expiry` 0 for never. `left` is asked in version 2 alone."""
    id: int
    parent: int
    grantor: int
    holder: int
    resource: int
    rights: Right
    weight: int = 1000
    left: int = 0
    expiry: int = 0

    def struct(self) -> Any:
        return native.struct("claim", *in_form("claim", *self[:5], Right(self.rights).value, *self[6:]))

    @classmethod
    def of(cls, struct: Any) -> Claim:
        return cls(*(getattr(struct, name) for name in cls._fields))._replace(rights=Right(struct.rights))


class Use(NamedTuple):
    """One right on one report, which need not stand."""
    resource: int
    right: Right

    def struct(self) -> Any:
        return native.struct("usage", in_range("resource", self.resource, 0, ID), self.right.number)


class Action(NamedTuple):
    """What an actor wants to do at a moment."""
    actor: int
    now: int
    uses: Tuple[Use, ...] = ()
    flags: Flag = Flag(0)
    governs: Tuple[int, ...] = ()

    @classmethod
    def from_text(cls, text: Text) -> Action:
        """The action of a text. Raises Refused with 19 or 20 and the line."""
        return cls.of(ask("read_action", text).action)

    @classmethod
    def of(cls, a: Any) -> Action:
        uses = tuple(Use(use.resource, Right(1 << use.right)) for use in a.uses[:a.used])
        return cls(a.actor, a.now, uses, Flag(a.flags), tuple(a.governs[:a.governed]))

    def struct(self) -> Any:
        now, actor, flags = in_form("action", self.now, self.actor, Flag(self.flags).value)
        governs = [number for entry in self.governs for number in in_form("govern", entry)]
        return native.struct("action", actor, flags, now, [use.struct() for use in self.uses], governs)


class JsonAction(NamedTuple):
    """The portal builder's JSON action: what is asked, its id, and the right that it names."""
    action: Action
    id: str
    kind: Right

    def text(self) -> str:
        """The JSON text. Raises Refused with 25 where it has no place for a right or a governed entry."""
        return words("write_json", self.action.struct(), self.id, Right(self.kind).number)


def json_action(text: Text, now: int) -> JsonAction:
    """Reads a JSON action at a moment. Raises Refused with 24."""
    answer = ask("read_json", text, now)
    return JsonAction(Action.of(answer.action), str(bytes(answer.id[:answer.id_len]), "ascii"), Right(1 << answer.kind))


class Violated(NamedTuple):
    """A violation: its kind, and the flag's number, the actor's, or the position of the entry or use."""
    kind: Violation
    value: int


class Verdict(NamedTuple):
    """The gate's answer, true only where it permits. A stopped one has a refusal; `hops` has a number for each use."""
    decision: Decision
    refusal: Optional[Refusal] = None
    violations: Tuple[Violated, ...] = ()
    hops: Tuple[int, ...] = ()

    def __bool__(self) -> bool:
        return bool(self.decision)


class Judgement(NamedTuple):
    """The verdict on one action of a plan, true only where it permits."""
    decision: Decision
    violations: int = 0

    def __bool__(self) -> bool:
        return bool(self.decision)


class PlanVerdict(NamedTuple):
    """The verdicts on a plan, true only where all permit. A stopped one has a refusal, and a line or a position."""
    refusal: Optional[Refusal]
    judgements: Tuple[Judgement, ...] = ()
    line: int = 0
    position: int = 0

    def __bool__(self) -> bool:
        return self.refusal is None and all(self.judgements)


class Fault(NamedTuple):
    """What makes a register not sound: the rule, the list, the record's id and place; or the line that is not read."""
    why: Refusal
    list: str
    id: int
    place: int
    line: int

    @classmethod
    def of(cls, f: Any) -> Optional[Fault]:
        name = ("register", "actors", "resources", "claims")[f.list]
        return None if f.sound == 1 else cls(Refusal(f.why), name, f.id, f.place, f.line)


def why_unread(text: Text) -> Optional[Fault]:
    """The first fault of a register's text, or None where it is read."""
    return Fault.of(native.call("why_unread", text))


class Reason(NamedTuple):
    """Why one actor may or may not do a use: the claims from the one told to its root, the keeper, which ended."""
    because: Because
    chain: Tuple[int, ...] = ()
    keeper: int = 0
    ended: int = 0

    @classmethod
    def of(cls, r: Any) -> Reason:
        return cls(Because(r.kind), tuple(r.chain[:r.count]), r.keeper, r.ended)


class UseReason(NamedTuple):
    """The reason of an actor for a use and, of a machine with an owner, that number and his; else 0 and UNASKED."""
    actor: Reason
    owner: int = 0
    owners: Reason = Reason(Because.UNASKED)
