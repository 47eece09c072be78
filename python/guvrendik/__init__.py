"""Guvrendik, a proved authority gate: who may do what to a report. This package asks the library and decides nothing.

>>> register = Register.from_text(CASE_R)
>>> bool(register.gate(Action(2, 1999, (Use(10, Right.READ),))))
True
>>> register.grant(Claim(3, 1, grantor=2, holder=1, resource=10, rights=Right.READ), 1999)
Traceback (most recent call last):
guvrendik.values.Refused: 10, parent not held by the grantor, or on another resource

More examples: help(guvrendik.values) and help(guvrendik.Register). A portal must serialise changes and give moment,
actor and flags itself: docs/PORTAL.md. Reasons and `who` are for those who keep the register, not for a visitor.
"""
from .forms import OutOfRange
from .register import Book, Register
from .values import (CASE_R, Action, Actor, Because, Claim, Decision, Fault, Flag, JsonAction, Judgement, Kind,
                     PlanVerdict, Reason, Refusal, Refused, Resource, Right, Use, UseReason, Verdict, Violated,
                     Violation, json_action, why_unread)

__all__ = ["Action", "Actor", "Because", "Book", "CASE_R", "Claim", "Decision", "Fault", "Flag", "JsonAction",
           "Judgement", "Kind", "OutOfRange", "PlanVerdict", "Reason", "Refusal", "Refused", "Register", "Resource",
           "Right", "Use", "UseReason", "Verdict", "Violated", "Violation", "json_action", "why_unread"]
