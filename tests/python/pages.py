"""Pages of `explain`, written by hand from the rules: each is a register, an action or a plan, and every line that must be printed. A text is written
here with blanks for line feeds."""
from asking import ask, folder
from guvrendik import CASE_R

CASE = " ".join(CASE_R.split())
ASKED = "now=1999 actor=2 flags=0 uses=2 use=10 right=0 use=10 right=1 governs=0"
HEAD = "refused: 1 violation; machine 2 of owner 1, at 1999"
# Humans 1 and 3, machines 2 of 1 and 4 of nobody. 1 keeps all: 10 site, 11 site/a/b, 12 open to all, 13 other.
# Claim 1 site to 1; 2 site from 1 to 2 until 1500; 3 site/a/b to 2, READ alone; 4 site/a/b to 3 of weight 0; 5 from 4 to 4; 6 a path of 2's own.
WIDE = ("register=1 actors=4 actor=1 kind=human owner=0 actor=2 kind=machine owner=1 actor=3 kind=human owner=0 actor=4 kind=machine owner=0 "
        "resources=4 resource=10 public=0 keeper=1 scope=site resource=11 public=0 keeper=1 scope=site/a/b resource=12 public=1 keeper=3 scope=open "
        "resource=13 public=0 keeper=3 scope=other claims=6 "
        "claim=1 parent=0 grantor=1 holder=1 resource=10 rights=17 weight=1000 expiry=0 "
        "claim=2 parent=1 grantor=1 holder=2 resource=10 rights=1 weight=1000 expiry=1500 "
        "claim=3 parent=0 grantor=1 holder=2 resource=11 rights=1 weight=5 expiry=0 "
        "claim=4 parent=0 grantor=1 holder=3 resource=11 rights=17 weight=0 expiry=0 "
        "claim=5 parent=4 grantor=3 holder=4 resource=11 rights=1 weight=0 expiry=0 "
        "claim=6 parent=0 grantor=3 holder=2 resource=13 rights=2 weight=1 expiry=0")

PAGES = {
    "case R": (CASE, ASKED, 1, [
        HEAD,
        "use 0, READ of 10 (site/a): permitted", "  actor 2: claim 2 <- claim 1 <- keeper 1, 1 hop", "  owner 1: claim 1 <- keeper 1, 0 hops",
        "use 1, WRITE of 10 (site/a): 4, use that the actor does not cover", "  actor 2: claim 2 lacks WRITE", "  owner 1: claim 1 <- keeper 1, 0 hops"]),
    "its use 0 at 2000": (CASE, "now=2000 actor=2 flags=0 uses=1 use=10 right=0 governs=0", 1, [
        "refused: 1 violation; machine 2 of owner 1, at 2000",
        "use 0, READ of 10 (site/a): 4, use that the actor does not cover", "  actor 2: claim 2 is not live: claim 2 ran out at 2000",
        "  owner 1: claim 1 <- keeper 1, 0 hops"]),
    "permitted": (CASE, "now=1999 actor=2 flags=0 uses=1 use=10 right=0 governs=0", 0, [
        "permitted: 0 violations; machine 2 of owner 1, at 1999",
        "use 0, READ of 10 (site/a): permitted", "  actor 2: claim 2 <- claim 1 <- keeper 1, 1 hop", "  owner 1: claim 1 <- keeper 1, 0 hops"]),
    "an unsound register": (CASE.replace("weight=1000", "weight=599"), ASKED, 2, [
        "stopped: 1, register not sound", "register.txt, line 23: claim 2, place 1: 14, weight above the parent's"]),
    "a line not of the form": (CASE.replace("owner=1", "owner=x"), ASKED, 2, [
        "stopped: 19, text not of the form", "register.txt, line 8: expected owner= with 0 to 65535, found owner=x"]),
    "a count": (CASE.replace("actors=2", "actors=65"), ASKED, 2, [
        "stopped: 20, a count line above its limit", "register.txt, line 2: expected actors= with 0 to 64, found actors=65"]),
    "a plan whose second action has flag 6": (CASE, "plan=3 step=action now=5 actor=1 flags=0 uses=0 governs=0 step=plan plan=1 step=action now=5 actor=1 "
                                              "flags=64 uses=0 governs=0 step=action now=5 actor=1 flags=0 uses=0 governs=0", 1, [
        "refused: 3 actions, 1 permitted, 1 refused, 1 cancelled",
        "action 1: refused, 1 violation; human 1, at 5", "  flag 6, coerces", "action 2: cancelled, action 1 has a flag set"]),
    "a report that nothing held contains, and one that does not stand": (WIDE, "now=5 actor=3 flags=0 uses=4 use=12 right=0 use=12 right=1 use=10 right=0 use=99 right=0 "
                                                                         "governs=0", 1, [
        "refused: 3 violations; human 3, at 5",
        "use 0, READ of 12 (open): permitted", "  actor 3: public READ",
        "use 1, WRITE of 12: 4, use that the actor does not cover", "  actor 3: no claim held contains it",
        "use 2, READ of 10: 4, use that the actor does not cover", "  actor 3: no claim held contains it",
        "use 3, READ of 99: 4, use that the actor does not cover", "  actor 3: no claim held contains it"]),
    "kinds 1 to 3 first": (WIDE, "now=5 actor=4 flags=129 uses=1 use=11 right=0 governs=2 govern=1 govern=0", 1, [
        "refused: 6 violations; machine 4 without owner, at 5",
        "flag 0, increases_machine_sovereignty", "flag 7, deceives", "actor 4, machine without owner",
        "governed entry 0, of 1: machine that governs", "governed entry 1, of 0: machine that governs",
        "use 0, READ of 11 (site/a/b): 4, use that the actor does not cover", "  actor 4: claim 5 is not live: claim 5 has weight 0"]),
    "nearest claims, an owner who lacks it, one that ran out above": (WIDE, "now=1500 actor=2 flags=0 uses=3 use=11 right=0 use=10 right=0 use=13 right=1 governs=0", 1, [
        "refused: 2 violations; machine 2 of owner 1, at 1500",
        "use 0, READ of 11 (site/a/b): permitted", "  actor 2: claim 3 <- keeper 1, 0 hops", "  owner 1: claim 1 <- keeper 1, 0 hops",
        "use 1, READ of 10 (site): 4, use that the actor does not cover", "  actor 2: claim 2 is not live: claim 2 ran out at 1500",
        "  owner 1: claim 1 <- keeper 1, 0 hops",
        "use 2, WRITE of 13 (other): 5, use that the machine's owner does not cover", "  actor 2: claim 6 <- keeper 3, 0 hops", "  owner 1: no claim held contains it"]),
    "a source that ran out": (CASE.replace("weight=1000 expiry=0", "weight=1000 expiry=1500"), "now=1999 actor=2 flags=0 uses=1 use=10 right=0 governs=0", 1, [
        HEAD, "use 0, READ of 10 (site/a): 4, use that the actor does not cover", "  actor 2: claim 2 is not live: claim 1 ran out at 1500",
        "  owner 1: claim 1 is not live: claim 1 ran out at 1500"]),
    "an actor who is not there": (CASE, "now=5 actor=7 flags=0 uses=0 governs=0", 2, [
        "stopped: 3, grantor, holder, resource, revoker, caller or acting actor not in the register", "action.txt, line 2: actor 7 is not in the register"]),
    "a plan that ends early": (CASE, "plan=1 step=action now=5", 2, [
        "stopped: 19, text not of the form", "plan.txt, line 4: expected actor= with 0 to 65535, found the end of the file"]),
    "a plan too deep": (CASE, "plan=1 " + 7 * "step=plan plan=1 " + "step=plan plan=0", 2, [
        "stopped: 22, plan deeper than 8 levels", "plan.txt, line 16: expected step=action, as 8 plans are open, found step=plan"]),
    "an owner who is a machine": (CASE.replace("kind=human", "kind=machine"), ASKED, 2, [
        "stopped: 1, register not sound", "register.txt, line 6: actor 2, place 1: 32, owner of a human, or owner who is no human of the register"]),
}
ENDS = {
    "CR LF": (lambda text: text.replace(b"\n", b"\r\n"), "line 1: expected register= with 1 or 2, found register=1?; the line ends in CR LF: save the file with "
              "line ends of LF alone"),
    "CR alone": (lambda text: text.replace(b"\n", b"\r"), "line 1: expected register= with 1 or 2, found register=1?actors=2?actor=1?kind=human?owner=0?actor=2?kind=mach; "
                 "the lines end in CR: save the file with line ends of LF alone"),
    "a byte order mark": (lambda text: b"\xef\xbb\xbf" + text, "line 1: expected register= with 1 or 2, found ???register=1; the file begins with a byte order mark: "
                          "save it as plain text, without one"),
    "the last line feed": (lambda text: text[:-1], "line 30: expected expiry= with 0 to 4294967295, found expiry=2000; no line feed ends it"),
    "more behind the end": (lambda text: text + b"claim=3\n", "line 31: expected the end of the file, found claim=3"),
    "zeros before a number": (lambda text: text.replace(b"owner=1", b"owner=01"), "line 8: expected owner= with 0 to 65535, found owner=01; a number is written "
                              "without zeros before it"),
    "two zeros": (lambda text: text.replace(b"owner=1", b"owner=00"), "line 8: expected owner= with 0 to 65535, found owner=00; a number is written without zeros "
                  "before it"),
    "zeros at another key": (lambda text: text.replace(b"owner=1", b"kind=01"), "line 8: expected owner= with 0 to 65535, found kind=01"),
    "a kind in zeros": (lambda text: text.replace(b"kind=machine", b"kind=01"), "line 7: expected kind= with human or machine, found kind=01"),
    "an empty line": (lambda text: text.replace(b"owner=0\n", b"\nowner=0\n"), "line 5: expected owner= with 0 to 65535, found an empty line"),
}


def lines(text):
    return text.replace(" ", "\n") + "\n"


def check(count):
    for name, (register, asked, status, page) in PAGES.items():
        with folder(register=lines(register), **{"plan" if asked.startswith("plan=") else "action": lines(asked)}) as room:
            count.same((status, page, ""), (lambda s, o, e: (s, o.splitlines(), e))(*ask("explain", room)), f"page: {name}")
    for name, (damage, said) in ENDS.items():
        with folder(register=damage(CASE_R.encode()), action=lines(ASKED)) as room:
            count.same((2, f"stopped: 19, text not of the form\nregister.txt, {said}\n", ""), ask("explain", room), f"page: {name}")
    with folder(action=lines(ASKED)) as room:
        count.same((2, "stopped: 19, text not of the form\nregister.txt: no such file or directory\n", ""), ask("explain", room), "page: no register")
    with folder(register=CASE_R, action=lines(ASKED), names="1 Ana\n2 the press\n") as room:
        page = ask("explain", room, "--names", f"{room}/names.txt")[1].splitlines()
        count.same(["refused: 1 violation; machine 2 (the press) of owner 1 (Ana), at 1999", "  actor 2 (the press): claim 2 <- claim 1 <- keeper 1 (Ana), 1 hop"],
                   [page[0], page[2]], "page: with names")
