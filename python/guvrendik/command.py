"""The command: each word asks the library and shows what it answers."""
from __future__ import annotations

import argparse
import os
import sys
import time
from typing import Any, Callable, Dict, List, NoReturn, Optional, Tuple

from . import store
from .explain import Case, Facts, Names, acted, broken, not_live, stopped, table_lines
from .forms import Source
from .register import Register
from .values import Action, Claim, Refusal, Refused, Right, Use, why_unread

STATUS = dict(permitted=0, sound=0, stored=0, accepted=0, unchanged=0, proposed=0, answered=0, refused=1, unsound=1,
              stopped=2, changed=3)
WRONG, TROUBLE = 126, 127
HEAD = """Asks the proved library about a register, and shows what it answers. Texts are files; \
- is standard input, but not for --names,
and not for a register that is to be changed. Status: 0 permitted, sound, stored, answered; \
1 refused, or check of a register not sound;
2 stopped, as is every other word by a register not sound; \
3 changed meanwhile, nothing stored; 126 a wrong call; 127 trouble."""
Answer = Tuple[Facts, List[str], List[str]]  # facts, lines for standard output, lines for standard error


class Stop(Exception):
    """A register that could not be read: its facts."""


class Parser(argparse.ArgumentParser):
    """One that ends a wrong call with the status of one."""

    def error(self, message: str) -> NoReturn:
        print(f"{self.prog}: {message}; --help says how to call it", file=sys.stderr)
        raise SystemExit(WRONG)


def moment(said: str) -> int:
    """Seconds, or an ISO date, of Greenwich where it names no zone."""
    if said.isascii() and said.isdigit():
        return int(said)
    from datetime import datetime, timezone
    try:
        read = datetime.fromisoformat(said[:-1] + "+00:00" if said[-1:] in "Zz" else said)
    except ValueError:
        raise ValueError(f"{said!r} is neither seconds nor an ISO date such as 2026-05-01T12:00") from None
    return int((read if read.tzinfo else read.replace(tzinfo=timezone.utc)).timestamp())


def readable(path: str, of_folder: str = "") -> Source:
    """A file that can be read; of a folder, the one of that name."""
    source = Source.read(os.path.join(path, of_folder) if of_folder and os.path.isdir(path) else path)
    if source.trouble:
        raise OSError(None, source.trouble, source.name)
    return source


def register_of(source: Source) -> Register:
    fault = why_unread(source.text)
    if fault:
        raise Stop(stopped(fault.why if fault.line else 1, broken(source, fault)))
    return Register.from_text(source.text)


class Word:
    """What was asked, and a method to each word, which answers facts and lines. Its first line is its help."""

    def __init__(self, asked: Any) -> None:
        self.asked, self.names = asked, Names.read(asked.names)

    def case(self, form: str = "") -> Case:
        """The texts of a folder, as ./run takes them, or of two files."""
        first, second = self.asked.place, self.asked.action
        if second is None:
            if not os.path.isdir(first):
                raise ValueError(f"{first} is no folder; {self.asked.word} takes a folder, or a register and an action")
            kinds = {"action.txt": "action", "plan.txt": "plan", "action.json": "json"}
            beside = [name for name in kinds if os.path.lexists(os.path.join(first, name))]
            name = "plan.txt" if form == "plan" else (beside or ["action.txt"])[0]
            if len(beside) > 1:
                others = " and ".join(other for other in beside if other != name)
                print(f"guvrendik: {name} is taken; {others} beside it not", file=sys.stderr)
            texts = [Source.read(os.path.join(first, part), part) for part in ("register.txt", name, "clock.txt")]
            return Case(texts[0], texts[1], kinds[name], texts[2])
        if first == second == "-":
            raise ValueError("one of the two can be standard input, and not both")
        register, action = Source.read(first), Source.read(second)
        is_json = second.endswith(".json") or action.text.lstrip()[:1] == b"{"
        form = form or ("json" if is_json else "plan" if action.text.startswith(b"plan=") else "action")
        return Case(register, action, form, Source("--now", b"now=%d\n" % self.asked.now))

    def verdict(self, form: str = "") -> Answer:
        """Prints the verdict on a folder's texts, or on a register and an action, a plan or a JSON action."""
        case = self.case(form)
        facts = case.facts()
        page = self.names.page(facts)
        said = [line for line in page if not line.startswith("  ") and not line.endswith(": permitted")]
        for action in [facts, *facts.get("actions", [])]:
            action.pop("uses", None)
        return facts, case.lines().splitlines(), said if facts["verdict"] != "permitted" else []

    def explain(self) -> Answer:
        """Says what is wrong and where, or why it is permitted. For those who keep the register; a visitor is told
        --visitor."""
        if self.asked.visitor:
            facts, printed, _ = self.verdict()
            return {key: facts[key] for key in ("verdict", "refusal", "violations") if key in facts}, printed, []
        facts = self.case().facts()
        return facts, self.names.page(facts), []

    def check(self) -> Answer:
        """Says whether a register is sound, or which record breaks which rule."""
        source = readable(self.asked.place, "register.txt")
        fault, mended = why_unread(source.text), source.mended().text
        if fault and fault.line:
            mends = mended != source.text and why_unread(mended) is None
            facts = stopped(fault.why, broken(source, fault))
            remark = f"guvrendik fmt {source.name} prints it with line ends of LF alone, and is then sound"
            return facts, self.names.page(facts), [remark] * mends
        if fault:
            facts = {**stopped(Refusal.UNSOUND, broken(source, fault)), "verdict": "unsound", "rule": int(fault.why),
                     "list": fault.list, "id": fault.id, "place": fault.place}
            return facts, [f"not sound: {fault.list[:-1]} {fault.id}", facts["where"]], []
        read = Register.from_text(source.text)
        counts = {name: len(getattr(read, name)) for name in ("actors", "resources", "claims")}
        counts = {"version": read.version, **counts}
        said = ", ".join(f"{name} {number}" for name, number in counts.items())
        return {"verdict": "sound", **counts}, [f"sound: {said}"], []

    def fmt(self) -> Answer:
        """Prints a register's one text, without byte order mark and other line ends; status 1 where the file
        differs."""
        source = readable(self.asked.place, "register.txt")
        text = register_of(source.mended()).text()
        differs = text.encode("ascii") != source.text
        facts = {"verdict": "refused" if differs else "sound", "text": text}
        return facts, text.splitlines(), [f"{source.name} differs from its text"] * differs

    def who(self) -> Answer:
        """Lists who may do a use now. For those who keep the register."""
        register = register_of(readable(self.asked.register))
        found = register.who(Use(self.asked.report, self.asked.right), self.asked.now)
        actors = [actor for actor in register.actors if actor.id in found]
        told = [{**actor._asdict(), "kind": actor.kind.name.lower()} for actor in actors]
        facts = {"verdict": "answered", "who": list(found), "actors": told}
        return facts, [self.names.actor(actor) for actor in actors], ["nobody"] * (not found)

    def may(self) -> Answer:
        """Says whether an actor may do one use now, and why."""
        register = register_of(readable(self.asked.register))
        action = Action(self.asked.actor, self.asked.now, (Use(self.asked.report, self.asked.right),))
        refusal = register.gate(action).refusal
        where = f"actor {self.asked.actor} is not in the register"
        facts = stopped(refusal, where) if refusal else acted(register, action)
        return facts, self.names.page(facts), []

    def grant(self) -> Answer:
        """Grants rights, by name with commas between: READ,WRITE."""
        asked = self.asked

        def by(register: Register) -> Register:
            free = set(range(1, len(register.claims) + 2)) - {claim.id for claim in register.claims}
            given = {**vars(asked), "resource": asked.report, "id": min(free) if asked.id is None else asked.id}
            return register.grant(Claim(*(given[name] for name in Claim._fields)), asked.now)
        return self.changed(by)

    def revoke(self) -> Answer:
        """Revokes a claim and every claim drawn from it."""
        return self.changed(lambda register: register.revoke(self.asked.revoker, self.asked.claim))

    def clear(self) -> Answer:
        """Takes away every claim on a report, by its keeper."""
        return self.changed(lambda register: register.clear_resource(self.asked.caller, self.asked.report))

    def expire(self) -> Answer:
        """Takes away every claim that has run out, and all that is drawn from it, by a human."""
        return self.changed(lambda register: register.clear_expired(self.asked.caller, self.asked.now))

    def plan(self) -> Answer:
        """Prints the verdicts on a plan's text."""
        return self.verdict("plan")

    def table(self) -> Answer:
        """Prints the table of what the actor and its owner cover, as one fills it in by hand, and the verdict."""
        case = self.case()
        if case.form == "plan":
            raise ValueError("a table is of one action, and not of a plan")
        facts, printed = case.facts(), case.lines().splitlines()
        if facts["verdict"] == "stopped":
            return facts, printed, self.names.page(facts)
        lines = table_lines(Register.from_text(case.register.text), case.action())
        return {"verdict": facts["verdict"], "table": lines}, lines + printed, []

    def suggest(self) -> Answer:
        """Proposes the one grant, by a signer who is willing, that would let an actor do a use."""
        asked, of = self.asked, self.names.of

        def proposed(register: Register) -> Optional[Claim]:
            return register.propose(asked.actor, Use(asked.report, asked.right), asked.now, asked.signer)

        def granted(register: Register) -> Register:
            claim = proposed(register)
            return register if claim is None else register.grant(claim, asked.now)
        if asked.grant:
            return self.changed(granted, "the use is permitted already, and nothing is stored")
        claim = proposed(register_of(readable(asked.register)))
        if claim is None:
            return {"verdict": "permitted", "claim": None}, ["permitted: no grant is missing"], []
        told = {**claim._asdict(), "rights": claim.rights.names()}
        drawn = f"claim {claim.parent}" if claim.parent else "no claim: a root"
        line = (f"grant: claim {claim.id}, {told['rights']} of {claim.resource} by {of(claim.grantor)} "
                f"to {of(claim.holder)}, from {drawn}, weight {claim.weight}")
        return {"verdict": "proposed", "claim": told}, [line, "nothing is stored; --grant stores it"], []

    def changed(self, by: Callable[[Register], Register],
                same: str = "there is no claim to take away, and nothing is stored") -> Answer:
        """Changes the register's file, or with --dry-run shows how it would differ."""
        asked, path = self.asked, self.asked.register
        expected = None if asked.if_text is None else readable(asked.if_text).text

        def text_by(old: bytes) -> bytes:
            return by(register_of(Source(path, old))).text().encode("ascii")
        try:
            old, new = store.change(path, text_by, expected, asked.dry_run)
        except store.ChangedMeanwhile:
            return {"verdict": "changed"}, ["changed meanwhile: the stored text is another one; nothing is stored"], []
        except OSError as error:
            raise OSError(error.errno, error.strerror, path) from None
        word = "unchanged" if old == new else "accepted" if asked.dry_run else "stored"
        before, after = ({claim.id for claim in Register.from_text(text).claims} for text in (old, new))
        remarks = not_live(Register.from_text(new), after - before, asked.now)
        if asked.dry_run:
            from difflib import unified_diff
            texts = old.decode().splitlines(), new.decode().splitlines()
            lines = list(unified_diff(*texts, path, "changed", lineterm=""))
            facts = {"verdict": word, "stored": False, "difference": lines}
            return facts, lines, remarks + [f"{word}: {same}"] * (old == new)
        told = {"granted": sorted(after - before), "withdrawn": sorted(before - after)}
        parts = ", ".join(f"{done} {' '.join(map(str, ids))}" for done, ids in told.items() if ids)
        return {"verdict": word, "stored": old != new, **told}, [f"{word}: {parts or same}"], remarks


# The words and what stands behind each, and the options of each.
JUDGES, FILES = "--json --names --now", "--json --names --now --register"
CHANGES = FILES + " --dry-run --if-text"
WORDS = {
    "verdict": ("PLACE [ACTION]", JUDGES), "explain": ("PLACE [ACTION]", JUDGES + " --visitor"),
    "check": ("PLACE", JUDGES), "fmt": ("PLACE", JUDGES), "who": ("REPORT RIGHT", FILES),
    "may": ("ACTOR RIGHT REPORT", FILES),
    "grant": ("GRANTOR HOLDER RIGHTS REPORT", CHANGES + " --parent --id --weight --left --expiry"),
    "revoke": ("REVOKER CLAIM", CHANGES), "clear": ("CALLER REPORT", CHANGES), "expire": ("CALLER", CHANGES),
    "plan": ("PLACE [ACTION]", JUDGES), "table": ("PLACE [ACTION]", JUDGES),
    "suggest": ("ACTOR RIGHT REPORT", CHANGES + " --signer --grant"),
}
HELP = {
    "PLACE": "a folder, or a register's file", "RIGHT": "by its name, such as READ",
    "[ACTION]": "with a register: the file of an action, a plan or a JSON action",
    "RIGHTS": "by their names, commas between",
}
# What follows an option, what it is by default, and its help. What nothing follows is a yes; [] may stand many times.
OPTIONS: Dict[str, Tuple[str, Any, str]] = {
    "--json": ("", False, "print the same as JSON"),
    "--names": ("FILE", None, "lines `id name`: shown beside an actor's number, but not in JSON; "
                              "no part of any judgement"),
    "--now": ("MOMENT", None, "seconds or an ISO date; the clock by default"),
    "--register": ("FILE", "register.txt", "the register's file; register.txt by default"),
    "--dry-run": ("", False, "show the difference and store nothing"),
    "--if-text": ("FILE", None, "store only where the stored text is still that of FILE; else status 3"),
    "--visitor": ("", False, "the verdict alone"),
    "--signer": ("NUMBER", [], "one who is willing to sign; up to 8 times"),
    "--grant": ("", False, "make the proposed grant"),
    "--parent": ("NUMBER", 0, "the claim it is drawn from; 0 for a root, and by default"),
    "--id": ("NUMBER", None, "its number; the least free one by default"),
    "--weight": ("NUMBER", 1000, "0 to 1000, which it is by default"),
    "--left": ("NUMBER", 0, "in version 2: how many more hands it may pass through, 0 to 16"),
    "--expiry": ("MOMENT", "0", "seconds or an ISO date; 0 for never, and by default"),
}
READ_BY: Dict[str, Any] = {"right": Right.named, "rights": Right.named, "now": moment, "expiry": moment}


def parser() -> Parser:
    top = Parser(prog="guvrendik", description=HEAD, formatter_class=argparse.RawDescriptionHelpFormatter)
    words = top.add_subparsers(metavar="WORD", dest="word", required=True, parser_class=Parser)
    for word, (places, options) in WORDS.items():
        says = " ".join((getattr(Word, word).__doc__ or word).split())
        one = words.add_parser(word, help=says, description=f"{says}\n\n{HEAD}", formatter_class=top.formatter_class)
        for place in places.split():
            told: Dict[str, Any] = {"help": HELP[place]} if place in HELP else {"type": int}
            told.update({"nargs": "?"} if place == "[ACTION]" else {})
            one.add_argument(place.strip("[]").lower(), metavar=place.strip("[]"), **told)
        for option in options.split():
            follows, default, says = OPTIONS[option]
            told = {"metavar": follows, "type": int if follows == "NUMBER" else str} if follows else {}
            action = "append" if default == [] else "store" if follows else "store_true"
            names = ["-r"] * (option == "--register") + [option]
            one.add_argument(*names, action=action, default=default, help=says, **told)
    return top


def say(asked: Any, facts: Facts, lines: List[str], remarks: List[str]) -> int:
    if asked.json:
        import json
        lines = [json.dumps(facts)]
    for stream, said in ((sys.stderr, remarks), (sys.stdout, lines)):
        stream.write("".join(line + "\n" for line in said))
        stream.flush()
    return STATUS[facts["verdict"]]


def main(arguments: Optional[List[str]] = None) -> int:
    """Runs the command, and answers its status."""
    asked = parser().parse_args(arguments)
    try:
        asked.now = asked.now or str(int(time.time()))
        for name in READ_BY.keys() & vars(asked).keys():
            setattr(asked, name, READ_BY[name](getattr(asked, name)))
        try:
            return say(asked, *getattr(Word(asked), asked.word)())
        except Stop as stop:
            return say(asked, stop.args[0], [], Names().page(stop.args[0]))
        except Refused as refused:
            unsigned = refused.number is Refusal.NO_PROPOSAL and not asked.signer
            hint = ["no signer is named: --signer NUMBER names one who is willing"] * unsigned
            facts = {"verdict": "refused", "refusal": int(refused.number), "words": refused.words}
            return say(asked, facts, [f"refused: {refused}"], hint)
    except OSError as error:
        said, status = f"{error.filename or 'standard output'}: {(error.strerror or str(error)).lower()}", TROUBLE
    except (ValueError, MemoryError, ImportError) as error:
        said, status = str(error), WRONG if isinstance(error, ValueError) else TROUBLE
    print(f"guvrendik: {said}", file=sys.stderr)
    return status


def run() -> None:
    """Runs the command and ends with its status at once: what could not be printed has been told."""
    sys.stderr = sys.stderr or open(os.devnull, "w")
    if sys.stdout is None:
        print("guvrendik: standard output: closed", file=sys.stderr)
        os._exit(TROUBLE)
    os._exit(main())
