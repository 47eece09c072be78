"""The register and the book, with the calls on them. Each asks the library and hands on its answer."""
from __future__ import annotations

from typing import Any, Dict, NamedTuple, Optional, Sequence, Tuple

from . import native
from .forms import OutOfRange, in_range
from .values import (Action, Actor, Claim, Decision, Fault, Judgement, Kind, PlanVerdict, Reason, Refusal, Resource,
                     Text, Use, UseReason, Verdict, Violated, Violation, ask, in_form, words)


def _fingerprint(raw: bytes) -> Any:
    if len(raw) != 32:
        raise OutOfRange(f"a fingerprint has 32 bytes, and not {len(raw)}")
    return native.struct("fingerprint", bytes(raw))


def _signers(ids: Sequence[int]) -> Any:
    return native.struct("signers", [in_range("signer", signer, 0, 2**32 - 1) for signer in ids])


def _judged(answer: Any) -> PlanVerdict:
    if answer.accepted != 1:
        return PlanVerdict(Refusal(answer.refusal), (), getattr(answer, "line", 0), answer.position)
    return PlanVerdict(None, tuple(Judgement(Decision(j.decision), j.violations) for j in answer.list[:answer.count]))


class Book(NamedTuple):
    """A fingerprint book: the 32 bytes attached last to each report's number. It does not change."""
    entries: Tuple[Tuple[int, bytes], ...] = ()

    def struct(self) -> Any:
        entries = [(in_range("resource", resource, 0, 2**32 - 1), _fingerprint(raw)) for resource, raw in self.entries]
        return native.struct("book", [native.struct("entry", *entry) for entry in entries])


class Register:
    """A register. It does not change: a change answers a new one. Two are the same where their texts are.

    >>> register, read, write = Register.from_text(CASE_R), Use(10, Right.READ), Use(10, Right.WRITE)
    >>> register == Register.of(register.actors, register.resources, register.claims, register.version)
    True
    >>> register.text() == CASE_R, register.why_unsound()
    (True, None)
    >>> wider = register.grant(Claim(3, 0, 1, 2, 10, Right.WRITE), 1999)
    >>> wider.revoke(1, 3) == register, wider.clear_resource(1, 10).claims, len(wider.clear_expired(1, 2000).claims)
    (True, (), 2)
    >>> register.gate(Action(2, 1999, (read, write))).violations
    (Violated(kind=<Violation.NOT_COVERED: 4>, value=1),)
    >>> register.may(2, read, 1999), register.who(read, 2000)
    (True, (1,))
    >>> register.why_use(1, read, 1999) == UseReason(Reason(Because.RELIES, chain=(1,), keeper=1))
    True
    >>> bool(register.plan([Action(1, 5), Action(1, 5, flags=Flag.COERCES)])), register.plan_text("plan=0\\n")
    (False, PlanVerdict(refusal=None, judgements=(), line=0, position=0))
    >>> proposal = register.propose(2, write, 1999, signers=[1])
    >>> proposal.rights.name, register.check_proposal(2, write, 1999, [1], proposal)
    ('WRITE', True)
    >>> register.fetch(register.attach(Book(), 1, 10, 5, bytes(range(32))), 2, 10, 5).hex()[:8]
    '00010203'
    """

    __slots__ = ("_struct",)
    _struct: Any

    def __init__(self, struct: Any) -> None:
        object.__setattr__(self, "_struct", struct)

    def __setattr__(self, name: str, value: Any) -> None:
        raise AttributeError("a register does not change")

    @classmethod
    def from_text(cls, text: Text) -> Register:
        """The register of a text. Raises Refused with 19 or 20 and the line, or with 1: why_unread tells the record."""
        return cls(ask("read_register", text).state)

    @classmethod
    def of(cls, actors: Sequence[Actor] = (), resources: Sequence[Resource] = (), claims: Sequence[Claim] = (),
           version: int = 1) -> Register:
        """The register of these records, sound or not: why_unsound tells."""
        given: Dict[str, Sequence[Any]] = {"actors": actors, "resources": resources, "claims": claims}
        lists = [native.struct(name, [record.struct() for record in records]) for name, records in given.items()]
        return cls(native.struct("register", *lists, *in_form("register", version)))

    # ---- what stands in it
    def text(self) -> str:
        """Its one text. Raises Refused with 1 where it is not sound."""
        return words("write_register", self._struct)

    def _same(self) -> Any:
        """What it is compared by: its text; where it is not sound, and so has none, its records."""
        text = native.call("write_register", self._struct).text
        return text or (self.version, self.actors, self.resources, self.claims)

    def __eq__(self, other: object) -> bool:
        return isinstance(other, Register) and bool(self._same() == other._same())

    def __hash__(self) -> int:
        return hash(self._same())

    @property
    def version(self) -> int:
        """1 or 2."""
        return int(self._struct.version)

    @property
    def actors(self) -> Tuple[Actor, ...]:
        """The actors, in order."""
        held = self._struct.actors
        return tuple(Actor(a.id, Kind(a.kind), a.owner) for a in held.list[:held.count])

    @property
    def resources(self) -> Tuple[Resource, ...]:
        """The reports, in order."""
        held = self._struct.resources
        return tuple(Resource(r.id, r.keeper, str(bytes(r.path[:r.len]), "ascii"), r.is_public == 1)
                     for r in held.list[:held.count])

    @property
    def claims(self) -> Tuple[Claim, ...]:
        """The claims, in order."""
        held = self._struct.claims
        return tuple(Claim.of(claim) for claim in held.list[:held.count])

    def why_unsound(self) -> Optional[Fault]:
        """The first fault, or None where it is sound."""
        return Fault.of(native.call("why_unsound", self._struct))

    # ---- changes: a new register, or Refused
    def grant(self, claim: Claim, moment: int) -> Register:
        """The register with the claim."""
        return Register(ask("grant", self._struct, claim.struct(), moment).state)

    def revoke(self, revoker: int, claim: int) -> Register:
        """The register without the claim and all that is drawn from it."""
        return Register(ask("revoke", self._struct, revoker, claim).state)

    def clear_resource(self, caller: int, resource: int) -> Register:
        """The register without the claims on a report."""
        return Register(ask("clear_resource", self._struct, caller, resource).state)

    def clear_expired(self, caller: int, moment: int) -> Register:
        """The register without the claims that have run out, and all that is drawn from them."""
        return Register(ask("clear_expired", self._struct, caller, moment).state)

    # ---- verdicts: values, never exceptions
    def gate(self, action: Action) -> Verdict:
        """The verdict on an action."""
        v = native.call("gate", self._struct, action.struct())
        violations = tuple(Violated(Violation(one.kind), one.value) for one in v.violations[:v.count])
        refusal = Refusal(v.refusal) if v.refusal else None
        return Verdict(Decision(v.decision), refusal, violations, tuple(v.hops[:len(action.uses)]))

    def may(self, actor: int, use: Use, moment: int) -> bool:
        """Whether the gate permits one use."""
        return bool(self.gate(Action(actor, moment, (use,))))

    def plan(self, actions: Sequence[Action]) -> PlanVerdict:
        """The verdicts on up to 16 actions: each after the first with a flag set is cancelled."""
        plan = native.struct("plan", [action.struct() for action in actions])
        return _judged(native.call("judge_plan", self._struct, plan))

    def plan_text(self, text: Text) -> PlanVerdict:
        """The verdicts on a plan's text, whose steps are actions or plans."""
        return _judged(native.call("judge_plan_text", self._struct, text))

    # ---- for those who keep the register
    def who(self, use: Use, moment: int) -> Tuple[int, ...]:
        """Who may do the use then, in register order."""
        answer = ask("who", self._struct, use.struct(), moment)
        return tuple(answer.ids[:answer.count])

    def why_use(self, actor: int, use: Use, moment: int) -> UseReason:
        """Why an actor may or may not do a use."""
        answer = ask("why_use", self._struct, actor, use.struct(), moment)
        return UseReason(Reason.of(answer.actor), answer.owner, Reason.of(answer.owners))

    def propose(self, actor: int, use: Use, moment: int, signers: Sequence[int]) -> Optional[Claim]:
        """The one grant by a signer that would let the actor do the use; None where it may. Refused with 26 if none."""
        found = ask("propose", self._struct, actor, use.struct(), moment, _signers(signers)).proposal
        return Claim.of(found.claim) if found.kind == 2 else None

    def check_proposal(self, actor: int, use: Use, moment: int, signers: Sequence[int],
                       proposal: Optional[Claim]) -> bool:
        """Whether a proposal, whoever made it, would let the actor do the use. None proposes no grant."""
        made = native.struct("proposal", 1) if proposal is None else native.struct("proposal", 2, proposal.struct())
        given = actor, use.struct(), moment, _signers(signers), made
        return bool(ask("check_proposal", self._struct, *given).answer == 1)

    def attach(self, book: Book, actor: int, resource: int, moment: int, fingerprint: bytes) -> Book:
        """The book with a fingerprint attached to a report's number, where the actor may write the report."""
        given = book.struct(), self._struct, actor, resource, moment, _fingerprint(fingerprint)
        new = ask("attach", *given).book
        return Book(tuple((entry.resource, bytes(entry.fingerprint.bytes)) for entry in new.entries[:new.count]))

    def fetch(self, book: Book, actor: int, resource: int, moment: int) -> bytes:
        """The fingerprint that was attached last, where the actor may read the report."""
        return bytes(ask("fetch", book.struct(), self._struct, actor, resource, moment).fingerprint.bytes)
