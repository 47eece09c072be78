"""What is wrong and where, or why it is permitted, as facts and as the lines that say them. The verdict is the
library's: its texts are read again, by the library, to find what the verdict's number speaks of."""
from __future__ import annotations

import os
from typing import Any, Dict, List, NamedTuple, Optional, Set

from .forms import FORMS, Source, shown
from .register import Register
from .values import (Action, Actor, Decision, Fault, Flag, Kind, Refusal, Refused, Right, Violation, ask, json_action,
                     why_unread, words)

Facts = Dict[str, Any]
PUBLIC, NOTHING, REMARKS = 256, 257, ("", "live", "weightless", "expired", "source-dead")  # of a cover table
LINES = {"action": "verdict_text", "plan": "plan_verdict_text", "json": "json_verdict_text"}  # the call for each form
SAYS = {
    "relies": "{claims} <- keeper {keeper}, {hops}", "public": "public READ", "lacks": "claim {chain[0]} lacks {right}",
    "not_live": "claim {chain[0]} is not live: claim {ended} {how}", "unheld": "no claim held contains it",
}


def broken(source: Source, fault: Fault) -> str:
    """The record of a register that breaks a rule, or the line that is not of the form."""
    if fault.line:
        return source.failing("register", fault.line, fault.why)
    record = fault.list[:-1]
    line = source.line_of("register", FORMS[record][0], fault.place)
    rule = f"{int(fault.why)}, {fault.why.words}"
    return f"{source.name}, line {line}: {record} {fault.id}, place {fault.place}: {rule}"


class Case(NamedTuple):
    """What is judged: a register's text and an action's, a plan's or, with a clock, a JSON action's."""
    register: Source
    asked: Source
    form: str
    clock: Source

    def lines(self) -> str:
        """The customer's lines."""
        clock = [self.clock.text] * (self.form == "json")
        return words(LINES[self.form], self.register.text, *clock, self.asked.text)

    def action(self) -> Action:
        """The action; a clock's text is one line of an action's, and is read as an action of that line alone."""
        if self.form == "action":
            return Action.from_text(self.asked.text)
        clock = Action.from_text(self.clock.text + b"actor=1\nflags=0\nuses=0\ngoverns=0\n")
        return json_action(self.asked.text, clock.now).action

    def cause(self) -> str:
        """What stopped it, in the order in which the library reads."""
        fault = why_unread(self.register.text)
        if fault:
            return broken(self.register, fault)
        if self.form == "plan":
            judged = Register.from_text(self.register.text).plan_text(self.asked.text)
            if judged.line:
                return self.asked.failing("plan", judged.line, judged.refusal or 0)
            line = self.asked.line_of("plan", FORMS["action"][1], judged.position)
            where, action = f", line {line}: action {judged.position}", actions_of(self.asked.text)[judged.position]
        else:
            try:
                where, action = ", line 2" * (self.form == "action"), self.action()
            except Refused as refused:
                if self.form == "action":
                    return self.asked.failing("action", refused.line, refused.number)
                if refused.line:
                    return self.clock.failing("clock", min(refused.line, 2), refused.number)
                return f"{self.asked.name}: {self.asked.trouble or json_words(self.asked.text)}"
        return f"{self.asked.name}{where}: actor {action.actor} is not in the register"

    def facts(self) -> Facts:
        """The facts of the case. The first word and number are those of the library's lines."""
        said = dict(line.split("=") for line in reversed(self.lines().split()))
        if "refusal" in said:
            return stopped(int(said["refusal"]), self.cause())
        register = Register.from_text(self.register.text)
        return planned(register, self.asked.text) if self.form == "plan" else acted(register, self.action())


def json_words(text: bytes) -> str:
    """What a person finds first in a JSON action that is refused."""
    import json
    try:
        json.loads(text)
    except (ValueError, RecursionError) as error:
        return str(error)
    return "it is JSON, and a key, a value or the number of uses is not as guvrendik.h says"


def stopped(refusal: int, where: str) -> Facts:
    return {"verdict": "stopped", "refusal": int(refusal), "words": Refusal(refusal).words, "where": where}


def actions_of(text: bytes) -> List[Action]:
    """The actions of a plan's text that was read: each stands behind its step, up to the next one."""
    return [Action.from_text(part.partition(b"step=")[0]) for part in text.split(b"step=action\n")[1:]]


def acted(register: Register, action: Action) -> Facts:
    """The facts of an action that the gate judges, with the reasons of each use."""
    verdict, claims = register.gate(action), {claim.id: claim for claim in register.claims}
    actor = next(actor for actor in register.actors if actor.id == action.actor)
    facts: Facts = {"verdict": verdict.decision.name.lower(), "actor": actor.id, "kind": actor.kind.name.lower(),
                    "owner": actor.owner, "now": action.now, "violations": [], "uses": []}
    for kind, value in verdict.violations:
        of: Any = action.governs[value] if kind is Violation.MACHINE_GOVERNS else None
        of = words("flag_name", value) if kind is Violation.FLAG else of
        facts["violations"].append({"kind": int(kind), "value": value, "words": kind.words, "of": of})
    broken = {value: int(kind) for kind, value in reversed(verdict.violations) if kind >= Violation.NOT_COVERED}
    for position, use in enumerate(action.uses):
        found = register.why_use(action.actor, use, action.now)
        reasons = []
        for who, number, reason in (("actor", actor.id, found.actor), ("owner", found.owner, found.owners)):
            ended = claims.get(reason.ended)
            how = "" if ended is None else f"ran out at {ended.expiry}" if ended.weight else "has weight 0"
            because = reason.because.name.lower()
            reasons.append({"who": who, "id": number, **reason._asdict(), "because": because, "how": how})
        reasons = [reason for reason in reasons if reason["because"] != "unasked"]
        # A report that nothing held contains is told as one that does not stand: without its path.
        held = any(reason["because"] != "unheld" for reason in reasons)
        path = next((report.path for report in register.resources if report.id == use.resource and held), None)
        facts["uses"].append({"use": position, "right": use.right.names(), "resource": use.resource,
                              "violation": broken.get(position, 0), "path": path, "reasons": reasons})
    return facts


def planned(register: Register, text: bytes) -> Facts:
    """The facts of a plan's text: those of each action that is not cancelled are the gate's."""
    judged, actions = register.plan_text(text).judgements, actions_of(text)
    flagged = next((position for position, action in enumerate(actions) if action.flags != Flag(0)), None)
    told: List[Facts] = []
    for judgement, action in zip(judged, actions):
        cancelled = {"verdict": "cancelled", "flagged": flagged}
        facts = cancelled if judgement.decision is Decision.CANCELLED else acted(register, action)
        told.append({"action": len(told), **facts})
    return {"verdict": "permitted" if all(judged) else "refused", "actions": told}


def many(number: int, noun: str) -> str:
    return f"{number} {noun}{'' if number == 1 else 's'}"


class Names(Dict[int, str]):
    """The names file, lines `id name`, and the lines that say facts: a name is shown beside its number, and no more."""

    @classmethod
    def read(cls, path: Optional[str]) -> Names:
        names = cls()
        with open(path or os.devnull, encoding="utf-8", errors="replace") as file:
            for number, line in enumerate(map(str.strip, file), 1):
                first, _, name = line.partition(" ")
                if line and not (first.isascii() and first.isdigit() and name):
                    found = shown(line.encode())
                    raise ValueError(f"{path}, line {number}: expected a number, a blank and a name, found {found}")
                if line:
                    names[int(first)] = "".join(letter if letter.isprintable() else "?" for letter in name)
        return names

    def of(self, number: int) -> str:
        return f"{number} ({self[number]})" if number in self else str(number)

    def actor(self, actor: Actor) -> str:
        owner = f" of owner {self.of(actor.owner)}" if actor.owner else " without owner"
        return f"{actor.kind.name.lower()} {self.of(actor.id)}{'' if actor.kind is Kind.HUMAN else owner}"

    def action(self, facts: Facts) -> List[str]:
        """What is said of an action behind its verdict: kinds 1 to 3, then its uses."""
        who = self.actor(Actor(facts["actor"], Kind[facts["kind"].upper()], facts["owner"]))
        lines = [f"{many(len(facts['violations']), 'violation')}; {who}, at {facts['now']}"]
        for kind, value, said, of in (violation.values() for violation in facts["violations"]):
            lines += [f"flag {value}, {of}"] * (kind == Violation.FLAG)
            lines += [f"actor {self.of(value)}, {said}"] * (kind == Violation.MACHINE_OWNERLESS)
            lines += [f"governed entry {value}, of {self.of(of)}: {said}"] * (kind == Violation.MACHINE_GOVERNS)
        for use in facts["uses"]:
            path = "" if use["path"] is None else f" ({use['path']})"
            said = f"{use['violation']}, {Violation(use['violation']).words}" if use["violation"] else "permitted"
            lines.append(f"use {use['use']}, {use['right']} of {use['resource']}{path}: {said}")
            for reason in use["reasons"]:
                claims, keeper = [f"claim {claim}" for claim in reason["chain"]], self.of(reason["keeper"])
                told = {"claims": " <- ".join(claims), "hops": many(len(claims) - 1, "hop"), "right": use["right"]}
                said = SAYS[reason["because"]].format(**{**reason, **told, "keeper": keeper})
                lines.append(f"  {reason['who']} {self.of(reason['id'])}: {said}")
        return lines

    def page(self, facts: Facts) -> List[str]:
        """The lines of `explain`."""
        if "refusal" in facts:
            return [f"{facts['verdict']}: {facts['refusal']}, {facts['words']}", *filter(None, [facts.get("where")])]
        if "actions" not in facts:
            first, *lines = self.action(facts)
            return [f"{facts['verdict']}: {first}", *lines]
        verdicts = [action["verdict"] for action in facts["actions"]]
        counts = ", ".join(f"{verdicts.count(word)} {word}" for word in ("permitted", "refused", "cancelled"))
        lines = [f"{facts['verdict']}: {many(len(verdicts), 'action')}, {counts}"]
        for number, action in enumerate(facts["actions"]):
            if action["verdict"] == "cancelled":
                lines.append(f"action {number}: cancelled, action {action['flagged']} has a flag set")
            elif action["verdict"] == "refused":
                first, *rest = self.action(action)
                lines += [f"action {number}: refused, {first}", *("  " + line for line in rest)]
        return lines


def cover_table(register: Register, actor: int, now: int) -> Any:
    return ask("cover_table", register._struct, actor, now)


def not_live(register: Register, ids: Set[int], now: int) -> List[str]:
    """A line for each of these claims that is not live, with the library's remark on it."""
    places = {place: claim for place, claim in enumerate(register.claims) if claim.id in ids}
    told = {c.id: REMARKS[cover_table(register, c.holder, now).states[place]] for place, c in places.items()}
    return [f"claim {number} is not live at {now}: {remark}" for number, remark in told.items() if remark != "live"]


def table_lines(register: Register, action: Action) -> List[str]:
    """The table that one would fill in, from the library's numbers, and each use looked up in it."""
    table, claims = cover_table(register, action.actor, action.now), register.claims
    actor = next(actor for actor in register.actors if actor.id == action.actor)
    paths, places = {o.id: o.path for o in register.resources}, {o.id: k for k, o in enumerate(register.resources)}

    def speaks(cells: Any, resource: int, right: int) -> str:
        cell = cells[places[resource] * len(Right) + right] if resource in places else NOTHING
        said = {NOTHING: "", PUBLIC: "public"}
        return said[cell] if cell in said else f"claim={claims[cell].id} hops={table.hops[cell]}"
    lines = [f"actor={actor.id} kind={actor.kind.name.lower()} owner={actor.owner} now={action.now}"]
    for c, hops, state in zip(claims, table.hops, table.states):
        lines.append(f"claim={c.id} parent={c.parent} holder={c.holder} path={paths[c.resource]} weight={c.weight} "
                     f"expiry={c.expiry} hops={hops} {REMARKS[state]} {c.rights.names()}")
    for resource, path in paths.items():
        lines.append(f"resource={resource} path={path}")
        for who, cells in (("actor", table.own), ("owner", table.owners)):
            said = [speaks(cells, resource, right) for right in range(len(Right))]
            for cell in dict.fromkeys(filter(None, said)):
                rights = " ".join(right.names() for right, one in zip(Right, said) if one == cell)
                lines.append(f"  {who} {cell} {rights}")
    for k, use in enumerate(action.uses):
        own, owners = (speaks(cells, use.resource, use.right.number) for cells in (table.own, table.owners))
        asked = f" owner-{owners.split()[0]}" if owners else " owner-nothing violation=5" if table.owner else ""
        covered = own + asked if own else "nothing violation=4"
        lines.append(f"use={k} resource={use.resource} {use.right.names()} {covered}")
    return lines
