"""The command's words: what each prints, its status and its help; standard input, JSON, dates; what is a wrong call and what is trouble; how fast it
starts. And as a new user does it: three broken registers mended by `explain` alone, a reader let in by `suggest`."""
import json
import os
import re
import resource
import subprocess
import sys
import tempfile

from asking import ask, folder, read
from guvrendik import CASE_R, command

WORDS = "verdict explain check fmt who may grant revoke clear expire plan table suggest".split()
CASE = "examples/case-r"
FILES = (f"{CASE}/register.txt", f"{CASE}/action.txt")
TABLE = """actor=2 kind=machine owner=1 now=1999
claim=1 parent=0 holder=1 path=site/a weight=1000 expiry=0 hops=0 live READ WRITE DELEGATE
claim=2 parent=1 holder=2 path=site/a weight=600 expiry=2000 hops=1 live READ
resource=10 path=site/a
  actor claim=2 hops=1 READ
  owner claim=1 hops=0 READ WRITE DELEGATE
use=0 resource=10 READ claim=2 hops=1 owner-claim=1
use=1 resource=10 WRITE nothing violation=4
"""


def helps(count):
    count.holds(ask("--help")[0] == 0 and all(word in ask("--help")[1] for word in WORDS), "--help names each word")
    count.same(WORDS, list(command.WORDS), "the words")
    for word in WORDS:
        status, out, err = ask(word, "--help")
        for said in ("- is standard input, but not for --names,\nand not for a register that is to be changed", "1 refused, or check of a register not sound",
                     "2 stopped, as is every other word by a register not sound"):
            count.holds(said in out, f"{word} --help says: {said}")
        count.holds(status == 0 and not err and out.startswith(f"usage: guvrendik {word} ") and len(out.splitlines()) <= 50, f"{word} --help is one page")


def with_input(text, *words):
    before = os.dup(0)
    with tempfile.TemporaryFile() as file:
        file.write(text)
        file.seek(0)
        os.dup2(file.fileno(), 0)
        try:
            return ask(*words)
        finally:
            os.dup2(before, 0)
            os.close(before)


def texts(count):
    printed = read(f"{CASE}/expected").decode()
    said = "refused: 1 violation; machine 2 of owner 1, at 1999\nuse 1, WRITE of 10 (site/a): 4, use that the actor does not cover\n"
    count.same((1, printed, said), ask("verdict", CASE), "verdict of a folder")
    count.same((1, printed, said), ask("verdict", *FILES), "verdict of two files")
    count.same((1, printed, said), with_input(read(FILES[0]), "verdict", "-", FILES[1]), "a register from standard input")
    count.same((1, printed, said), with_input(read(FILES[1]), "verdict", FILES[0], "-"), "an action from standard input")
    count.same((1, read("examples/plan/expected").decode()), ask("plan", "examples/plan/register.txt", "examples/plan/plan.txt")[:2], "plan of two files")
    count.same((1, read("examples/plan/expected").decode()), ask("verdict", "examples/plan/register.txt", "examples/plan/plan.txt")[:2], "which verdict takes too")
    given = ("verdict", "examples/json/register.txt", "examples/json/action.json", "--now")
    for now in ("1999", "1970-01-01T00:33:19", "1970-01-01T00:33:19Z", "1970-01-01T01:33:19+01:00"):
        count.same((1, read("examples/json/expected").decode()), ask(*given, now)[:2], f"a JSON action at {now}")
    for text, said in (("{", "Expecting property name"), ("{}", "it is JSON, and a key"), ('{"a":' * 10000, "maximum recursion")):
        status, out, _ = with_input(text.encode(), "explain", "examples/json/register.txt", "-")
        count.holds(status == 2 and out.splitlines()[1].startswith(f"standard input: {said}"), f"a JSON action that is refused\n{out}")
    with folder(register=CASE_R, action=read(FILES[1]), plan=read("examples/plan/plan.txt")) as room:
        count.same("guvrendik: action.txt is taken; plan.txt beside it not", ask("verdict", room)[2].splitlines()[0], "two texts beside each other")
    count.same((1, TABLE + printed, ""), ask("table", CASE), "table")


def one_use(count):
    here = ("-r", FILES[0], "--now")
    count.same((0, "human 1\nmachine 2 of owner 1\n", ""), ask("who", 10, "READ", *here, 1999), "who at 1999")
    count.same((0, "human 1\n", ""), ask("who", 10, "read", *here, 2000), "who at 2000")
    count.same((0, "", "nobody\n"), ask("who", 10, "DELETE", *here, 5), "who, of nobody")
    count.same((0, "", "nobody\n"), ask("who", 99, "READ", *here, 5), "who, of a report that does not stand")
    count.same((0, 1, 2), tuple(ask("may", actor, "READ", 10, *here, 2000)[0] for actor in (1, 2, 3)), "may: permitted, refused, stopped")
    count.same("stopped: 3, grantor, holder, resource, revoker, caller or acting actor not in the register\nactor 3 is not in the register\n",
               ask("may", 3, "READ", 10, *here, 5)[1], "may of an actor who is not there")
    count.same((1, "refused: 26, no single grant by one of the signers would permit the use\n", ""), ask("suggest", 2, "WRITE", 10, *here, 5, "--signer", 2), "a signer who cannot")
    count.same((1, "refused: 26, no single grant by one of the signers would permit the use\n", "no signer is named: --signer NUMBER names one who is willing\n"),
               ask("suggest", 2, "WRITE", 10, *here, 5), "no signer")
    count.same((1, "refused: 3, grantor, holder, resource, revoker, caller or acting actor not in the register\n", ""), ask("suggest", 3, "WRITE", 10, *here, 5),
               "an actor who is not there, which no signer would mend")
    count.same((0, "permitted: no grant is missing\n", ""), ask("suggest", 2, "READ", 10, *here, 5), "none is missing")


def as_json(count):
    for words in (("verdict", CASE), ("explain", CASE), ("explain", "examples/stopped"), ("explain", "examples/plan"), ("check", FILES[0]), ("table", CASE),
                  ("may", 2, "READ", 10, "-r", FILES[0], "--now", 5), ("who", 10, "READ", "-r", FILES[0], "--now", 5), ("fmt", FILES[0]),
                  ("suggest", 2, "WRITE", 10, "-r", FILES[0], "--now", 5, "--signer", 1), ("grant", 1, 2, "WRITE", 10, "-r", FILES[0], "--dry-run")):
        plain, (status, out, _) = ask(*words), ask(*words, "--json")
        facts = json.loads(out)
        count.same((plain[0], 1), (status, len(out.splitlines())), f"{words} as JSON")
        count.holds(facts["verdict"] in command.STATUS and command.STATUS[facts["verdict"]] == status, f"{words} as JSON: {facts['verdict']}")
    words_as_json(count)
    use = json.loads(ask("explain", CASE, "--json")[1])["uses"][1]
    count.same((1, "WRITE", 10, 4, "site/a", ["lacks", "relies"], [2, 1]), (use["use"], use["right"], use["resource"], use["violation"], use["path"],
               [r["because"] for r in use["reasons"]], use["reasons"][0]["chain"]), "a use as JSON")
    count.same((1, "claims", 2, 1, 14), (lambda f: (f["refusal"], f["list"], f["id"], f["place"], f["rule"]))(
        json.loads(with_input(CASE_R.replace("weight=1000", "weight=5").encode(), "check", "-", "--json")[1])), "a fault as JSON")


def words_as_json(count):
    """The verdict says what was done: permitted, stored and sound are said of nothing else."""
    def told(*words):
        status, out, _ = ask(*words, "--json")
        return status, json.loads(out)
    with folder(register=CASE_R, seen=CASE_R + "\n", names="1 Ana\n2 the press\n") as room:
        here = ("-r", f"{room}/register.txt", "--now", 5)
        status, facts = told("suggest", 2, "WRITE", 10, "--signer", 1, *here)
        count.same((0, "proposed", 3, "WRITE"), (status, facts["verdict"], facts["claim"]["id"], facts["claim"]["rights"]), "a suggestion as JSON")
        count.same((0, {"verdict": "permitted", "claim": None}), told("suggest", 2, "READ", 10, *here), "one that is not needed, as JSON")
        who = {"verdict": "answered", "who": [1, 2], "actors": [{"id": 1, "kind": "human", "owner": 0}, {"id": 2, "kind": "machine", "owner": 1}]}
        count.same((0, who), told("who", 10, "READ", *here), "who as JSON")
        count.same((0, who), told("who", 10, "READ", *here, "--names", f"{room}/names.txt"), "names are not shown in JSON")
        count.same((0, {"verdict": "answered", "who": [], "actors": []}), told("who", 77, "WRITE", *here), "who of a report that does not stand, as JSON")
        for words in (("grant", 1, 2, "WRITE", 10), ("revoke", 1, 2), ("clear", 1, 10), ("suggest", 2, "WRITE", 10, "--signer", 1, "--grant")):
            status, facts = told(*words, *here, "--dry-run")
            count.same((0, "accepted", False, True), (status, facts["verdict"], facts["stored"], facts["difference"] != []), f"{words[0]} --dry-run as JSON")
            count.same((3, {"verdict": "changed"}), told(*words, *here, "--if-text", f"{room}/seen.txt"), f"{words[0]} --if-text as JSON")
        for words in (("expire", 1), ("suggest", 1, "WRITE", 10, "--grant")):
            count.same((0, {"verdict": "unchanged", "stored": False, "difference": []}), told(*words, *here, "--dry-run"), f"{words[0]} without effect, --dry-run")
            count.same((0, {"verdict": "unchanged", "stored": False, "granted": [], "withdrawn": []}), told(*words, *here), f"{words[0]} without effect")
        count.same(CASE_R, read(f"{room}/register.txt").decode(), "nothing of these is stored")
        count.same((0, {"verdict": "stored", "stored": True, "granted": [3], "withdrawn": []}), told("grant", 1, 2, "WRITE", 10, *here), "a grant as JSON")


def without_effect(count):
    """What a person would take for done: it is said on which ground it is not."""
    with folder(register=CASE_R) as room:
        here, permitted = ("-r", f"{room}/register.txt", "--now"), "unchanged: the use is permitted already, and nothing is stored\n"
        count.same((0, permitted, ""), ask("suggest", 1, "WRITE", 10, "--grant", *here, 5), "a grant that is not needed")
        count.same((0, "", permitted), ask("suggest", 1, "WRITE", 10, "--grant", "--dry-run", *here, 5), "nor is a difference of it")
        count.same((0, "unchanged: there is no claim to take away, and nothing is stored\n", ""), ask("expire", 1, *here, 1999), "nothing has run out")
        count.same(CASE_R, read(f"{room}/register.txt").decode(), "nothing of these is stored")
        grant = ("grant", 1, 2, "WRITE", 10, "--expiry")
        count.same((0, "stored: granted 3\n", "claim 3 is not live at 1000: expired\n"), ask(*grant, 1000, *here, 1000), "a claim that has run out")
        count.same((0, "stored: granted 4\n", ""), ask(*grant, 1000, *here, 999), "one that has not")
        status, out, err = ask(*grant, 0, "--weight", 0, "--dry-run", *here, 1000)
        count.same((0, True, "claim 5 is not live at 1000: weightless\n"), (status, "+claim=5" in out.splitlines(), err), "one of weight 0, in a dry run")


def checked(count):
    count.same(ask("check", FILES[0]), ask("check", CASE), "check of a folder")
    count.same(ask("fmt", FILES[0]), ask("fmt", CASE), "fmt of a folder")
    with folder(action=read(FILES[1])) as room:
        for word in ("check", "fmt"):
            count.same((127, "", f"guvrendik: {room}/register.txt: no such file or directory\n"), ask(word, room), f"{word} of a folder without a register")
    count.same((0, "sound: version 1, actors 2, resources 1, claims 2\n", ""), ask("check", FILES[0]), "a sound register")
    unsound = CASE_R.replace("weight=1000", "weight=5").encode()
    count.same((1, "not sound: claim 2\nstandard input, line 23: claim 2, place 1: 14, weight above the parent's\n", ""), with_input(unsound, "check", "-"), "one that is not")
    count.same(2, with_input(b"register=1\n", "check", "-")[0], "one that is not of the form")
    for damaged in (CASE_R.replace("\n", "\r\n"), CASE_R.replace("\n", "\r"), "\ufeff" + CASE_R, CASE_R[:-1]):
        status, _, err = with_input(damaged.encode(), "check", "-")
        count.holds(status == 2 and "guvrendik fmt" in err, f"check says that fmt mends it: {damaged[:12]!r}")
        count.same((1, CASE_R), with_input(damaged.encode(), "fmt", "-")[:2], f"fmt mends it: {damaged[:12]!r}")
    count.same((0, CASE_R, ""), with_input(CASE_R.encode(), "fmt", "-"), "the text of a register is its own")


def wrong(count):
    calls = [(), ("judge",), ("verdict",), ("verdict", "a", "b", "c"), ("verdict", "/none"), ("verdict", FILES[0]), ("verdict", "-", "-"), ("who", 10, "LOOK"), ("who", "ten", "READ"),
             ("may", 2 ** 32 + 2, "READ", 10, "-r", FILES[0]), ("may", 2, "READ,WRITE", 10, "-r", FILES[0]), ("may", 2, "READ", 10, "--now", "yesterday", "-r", FILES[0]),
             ("may", 2, "READ", 10, "--now", 2 ** 32, "-r", FILES[0]), ("who", 10, "READ", "--frobnicate"), ("table", "examples/plan")]
    for words in calls:
        status, out, err = ask(*words)
        count.holds((status, out, len(err.splitlines())) == (126, "", 1), f"a wrong call, {words}: {status} {out!r} {err!r}")
    count.same("guvrendik: actor 4294967298 is not in 0 to 65535\n", ask(*calls[9])[2], "what is said of a number out of range")
    for word, place in (("explain", FILES[0]), ("verdict", "/none"), ("plan", FILES[0]), ("table", "-")):
        count.same((126, "", f"guvrendik: {place} is no folder; {word} takes a folder, or a register and an action\n"), ask(word, place), f"{word} of one file")
    for words in (("grant", 1, 2, "WRITE", 10, "-r", "-"), ("who", 10, "READ", "-r", FILES[0], "--names", "-")):
        count.same((127, "", "guvrendik: -: no such file or directory\n"), with_input(CASE_R.encode(), *words), f"what standard input is not for, {words}")
    for words in (("who", 10, "READ", "-r", "/none"), ("fmt", "/none"), ("explain", CASE, "--names", "/none")):
        status, out, err = ask(*words)
        count.same((127, "", "guvrendik: /none: no such file or directory\n"), (status, out, err), f"trouble, {words}")
    with folder(names="1 Ana\ntwo Bo\n") as room:
        count.same(126, ask("explain", CASE, "--names", f"{room}/names.txt")[0], "a names file of another form")


def processes(count):
    """What only a process of its own shows: the streams, and the time to start."""
    def run(*words, **given):
        return subprocess.run(["./guvrendik", *words], stderr=subprocess.PIPE, **given)
    with open("/dev/full", "wb") as full:
        count.same(127, run("verdict", CASE, stdout=full).returncode, "a verdict that cannot be printed")
    for streams, status, said in ((">&-", 127, b"guvrendik: standard output: closed\n"), (">&- 2>&-", 127, b""), ("2>&- >/dev/null", 1, b"")):
        closed = subprocess.run(["bash", "-c", f"./guvrendik verdict {CASE} {streams}"], stdout=subprocess.PIPE, stderr=subprocess.PIPE)
        count.same((status, b"", said), (closed.returncode, closed.stdout, closed.stderr), f"with {streams}")
    unread = subprocess.run(["bash", "-c", "./guvrendik check - <&-"], stdout=subprocess.PIPE, stderr=subprocess.PIPE)
    count.same((127, b"", b"guvrendik: standard input: bad file descriptor\n"), (unread.returncode, unread.stdout, unread.stderr), "without a standard input")
    wrong_call = subprocess.run(["bash", "-c", "./guvrendik judge 2>&-"], stdout=subprocess.PIPE)
    count.same((126, b""), (wrong_call.returncode, wrong_call.stdout), "a wrong call without a standard error prints nothing")
    ran = run("verdict", CASE, stdout=subprocess.PIPE)
    count.same((1, read(f"{CASE}/expected")), (ran.returncode, ran.stdout), "the verdict")
    module = subprocess.run([sys.executable, "-m", "guvrendik", "verdict", CASE], env={**os.environ, "PYTHONPATH": "python"}, stdout=subprocess.PIPE, stderr=subprocess.DEVNULL)
    count.same((1, read(f"{CASE}/expected")), (module.returncode, module.stdout), "python3 -m guvrendik")
    lost = run("check", FILES[0], stdout=subprocess.PIPE, env={**os.environ, "GUVRENDIK_LIBRARY": "/none"})
    count.holds(lost.returncode == 127 and b"/none" in lost.stderr and b"Traceback" not in lost.stderr, f"no library: {lost.stderr}")
    small = subprocess.run(["bash", "-c", f"ulimit -s 80 && exec ./guvrendik check {FILES[0]}"], stdout=subprocess.PIPE, stderr=subprocess.PIPE)
    count.holds(small.returncode == 127 and b"bytes of stack" in small.stderr, f"with a small stack: {small.returncode} {small.stderr}")
    taken = []
    for _ in range(7):
        before = resource.getrusage(resource.RUSAGE_CHILDREN)
        run("verdict", CASE, stdout=subprocess.DEVNULL)
        after = resource.getrusage(resource.RUSAGE_CHILDREN)
        taken.append(1000 * (after.ru_utime + after.ru_stime - before.ru_utime - before.ru_stime))
    print(f"the command takes {min(taken):.0f} ms of processor time from its start to its end")
    count.holds(min(taken) <= 150, f"the command takes {min(taken):.0f} ms, and 150 at most are due")


# ---- as a new user

def mend(room):
    """Does what `explain` says and nothing else: the key and range that are due at a line, the rule that a record breaks."""
    page = ask("explain", room)[1].splitlines()
    path = f"{room}/register.txt"
    lines = read(path).split(b"\n")
    due = re.match(r"register.txt, line (\d+): expected (\w+)= with (\d+) to (\d+), found (.*)", page[1])
    told = re.match(r"register.txt, line (\d+): claim (\d+), place \d+: (\d+), ", page[1])
    if page[1].endswith("save the file with line ends of LF alone"):
        lines = [line.rstrip(b"\r") for line in lines]
    elif due:
        lines[int(due[1]) - 1] = f"{due[2]}={due[3]}".encode()
    elif told and told[3] == "14":
        weight = next(k for k in range(int(told[1]), len(lines)) if lines[k].startswith(b"weight="))
        lines[weight] = b"weight=0"
    with open(path, "wb") as file:
        file.write(b"\n".join(lines))


def technician(count):
    broken = {"line ends": CASE_R.replace("\n", "\r\n"), "an expiry of letters": CASE_R.replace("expiry=2000", "expiry=soon"), "a weight": CASE_R.replace("weight=600", "weight=1000").replace("weight=1000", "weight=600", 1)}
    for name, text in broken.items():
        with folder(register=text, action=read(FILES[1])) as room:
            count.same(2, ask("explain", room)[0], f"broken: {name}")
            mend(room)
            count.holds(ask("check", f"{room}/register.txt")[0] == 0, f"mended by what explain says: {name}")


def keeper(count):
    with folder(register=CASE_R) as room:
        here = ("-r", f"{room}/register.txt", "--now", 5)
        count.same((0, "human 1\n"), ask("who", 10, "WRITE", *here)[:2], "before")
        line = "grant: claim 3, WRITE of 10 by 1 to 2, from no claim: a root, weight 1000\nnothing is stored; --grant stores it\n"
        count.same((0, line, ""), ask("suggest", 2, "WRITE", 10, "--signer", 1, *here), "what is suggested")
        count.same(CASE_R, read(f"{room}/register.txt").decode(), "which stores nothing")
        count.same((0, "stored: granted 3\n", ""), ask("suggest", 2, "WRITE", 10, "--signer", 1, "--grant", *here), "and is granted")
        count.same((0, "human 1\nmachine 2 of owner 1\n"), ask("who", 10, "WRITE", *here)[:2], "behind it")
        count.same((0, "unchanged: the use is permitted already, and nothing is stored\n", ""), ask("suggest", 2, "WRITE", 10, "--signer", 1, "--grant", *here), "a second time")


def check(count):
    for part in (helps, texts, one_use, as_json, without_effect, checked, wrong, processes, technician, keeper):
        part(count)
