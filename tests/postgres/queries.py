"""What the functions answer: the folders of tests/cases, every refusal, the numbers, a policy, times, and the papers."""
import glob
import os
import re

from servers import literal

MOST = 65536  # bytes of a file that the programs read
LEAST_FOLDERS = 388

ACTION = "step=action\nnow=0\nactor=1\nflags=0\nuses=0\ngoverns=0\n"

# Human 1 keeps report 10, human 3 report 11; machine 2 is 1's, machine 4 nobody's. 3 holds 10 from 1 and lets machine 2 read it until 2000. 1 reads by a
# claim of his own, which may not be passed on.
BODY = """register=2
actors=4
actor=1
kind=human
owner=0
actor=2
kind=machine
owner=1
actor=3
kind=human
owner=0
actor=4
kind=machine
owner=0
resources=2
resource=10
public=0
keeper=1
scope=site/a
resource=11
public=0
keeper=3
scope=site/b
claims=3
claim=1
parent=0
grantor=1
holder=3
resource=10
rights=17
weight=800
left=3
expiry=0
claim=2
parent=1
grantor=3
holder=2
resource=10
rights=17
weight=600
left=2
expiry=2000
claim=3
parent=0
grantor=1
holder=1
resource=10
rights=1
weight=1000
left=5
expiry=0
"""


def read(path):
    if not os.path.exists(path):
        return b""
    with open(path, "rb") as file:
        return file.read(MOST)


def call(name, *values):
    return f"guvrendik.{name}({', '.join(map(literal, values))})"


def plain(texts):
    """The texts as text, where the server can hold them as that."""
    try:
        decoded = [text.decode("utf-8") for text in texts]
    except UnicodeDecodeError:
        return None
    return None if any("\0" in text for text in decoded) else decoded


def cases(checks, server):
    """Every folder of tests/cases, as bytes and, where it can be, as text; in one script, a line of hexadecimals to each answer."""
    names, dues, script = [], [], []
    for folder in sorted(glob.glob("tests/cases/*/")):
        due = read(folder + "expected")
        if due.startswith(b"plan="):
            name, files = "plan_verdict", ("register.txt", "plan.txt")
        elif os.path.exists(folder + "action.json") and not os.path.exists(folder + "action.txt"):
            name, files = "verdict", ("register.txt", "clock.txt", "action.json")
        else:
            name, files = "verdict", ("register.txt", "action.txt")
        texts = [read(folder + file) for file in files]
        for values in filter(None, (texts, plain(texts))):
            names.append(folder)
            dues.append(due.hex())
            script.append(f"SELECT encode(convert_to({call(name, *values)}, 'UTF8'), 'hex');")
    told, said = server.run("\n".join(script) + "\n")
    checks.same("tests/cases: no error", "", said)
    for folder, due, got in zip(names, dues, told.splitlines()):
        checks.same(folder, due, got)
    checks.holds("tests/cases: every folder is asked", len(told.splitlines()) == len(names) and len(set(names)) >= LEAST_FOLDERS, str(len(names)))


def granted(**fields):
    """A grant that is accepted, but for the fields: 3 lets machine 2 read once more, at 1000."""
    claim = dict(body=BODY, id=9, parent=1, grantor=3, holder=2, resource=10, rights=1, weight=800, left=2, expiry=0, moment=1000)
    return call("grant", *(claim | fields).values())


def refused_calls():
    full = read("examples/full-register/register.txt").decode()
    actor, resource = (re.search(rf"^{key}=(\d+)$", full, re.M).group(1) for key in ("actor", "resource"))
    far = 2 ** 40
    return [
        (1, call("demand_sound", BODY.replace("keeper=3", "keeper=2"))),
        (2, granted(id=65536)), (2, granted(id=-1)), (2, granted(id=far + 9)), (2, granted(moment=2 ** 32)), (2, granted(moment=-1)),
        (2, granted(expiry=-1)), (2, granted(weight=1001)), (2, granted(left=17)), (2, granted(rights=0)),
        (2, call("may", BODY, far + 1, 10, 0, 0)), (2, call("may", BODY, 1, far + 10, 0, 0)), (2, call("may", BODY, 1, 10, 17, 0)),
        (2, call("gate", BODY, 1, [[10, 0]] * 33, 0)), (2, call("gate", BODY, 1, [], 0, 0, [1] * 9)), (2, call("gate", BODY, 1, [], 0, 1024)),
        (2, call("propose", BODY, 1, 11, 0, 0, [1] * 9)), (2, call("clear_expired", BODY, 1, -1)), (2, call("who", BODY, 10, 17, 0)),
        (3, granted(grantor=5)), (3, call("may", BODY, 5, 10, 0, 0)), (3, call("revoke", BODY, far + 1, 1)), (3, call("why", BODY, 5, 10, 0, 0)),
        (3, call("plan", BODY, "plan=1\n" + ACTION.replace("actor=1", "actor=5"))),
        (4, granted(id=1)), (5, granted(body=full, id=65535, parent=0, grantor=actor, holder=actor, resource=resource)),
        (6, granted(parent=0)), (7, granted(grantor=4)), (8, granted(parent=2, grantor=2, holder=1, rights=8192)), (9, granted(parent=7)),
        (10, granted(grantor=1)), (11, granted(parent=2, grantor=2, holder=4, moment=2000)), (12, granted(parent=3, grantor=1)),
        (13, granted(rights=3)), (14, granted(weight=801)), (15, granted(left=3)), (16, granted(holder=1)), (17, call("revoke", BODY, 1, far + 1)),
        (18, call("revoke", BODY, 2, 1)), (18, call("clear_resource", BODY, 3, 10)), (18, call("clear_expired", BODY, 2, 0)),
        (19, call("demand_sound", BODY.replace("register=2", "register=3"))), (20, call("demand_sound", BODY.replace("actors=4", "actors=65"))),
        (22, call("plan", BODY, "plan=1\nstep=plan\n" * 8)), (23, call("plan", BODY, "plan=2\nstep=plan\nplan=64\n" + 65 * ACTION)),
        (26, call("propose", BODY, 4, 11, 0, 0, [3])),
    ]


def refusals(checks, server):
    """Every refusal that a function can tell: its SQLSTATE, and the library's words as docs/PORTAL.md has them."""
    words = dict(re.findall(r"^\| (\d+) \| `GUVRENDIK_REFUSAL_\w+` \| (.*) \|$", section("The numbers"), re.M))
    for number, asked in refused_calls():
        told, said = server.run(f"SELECT {asked};\n")
        checks.holds(f"{asked[:40]}.. is refused with {number}", told == "" and said.startswith(f"ERROR:  GV{number:03}: {words[str(number)]}\n"), told + said)
    for asked, due in ((call("gate", BODY, 1, [10, 0], 0), "uses: an array of another form\nHINT:  Rows of resource and right are due: {{10,0},{10,1}}\n"),
                       (call("propose", BODY, 1, 11, 0, 0, [[3, 3]]), "signers: an array of another form\nHINT:  A list is due: {1,3}\n")):
        told, said = server.run(f"SELECT {asked};\n")
        checks.holds(f"..{asked[-30:]}: the form is told", told == "" and said.startswith("ERROR:  2202E: " + due), said)
    checks.same("the grant without a fault is accepted", "t", server.ask(f"SELECT {granted()} IS NOT NULL"))


def answers(checks, server):
    """What each function answers of the register above, worked out by hand."""
    of = f"SELECT * FROM {{}}"
    for asked, due in (
        (call("gate", BODY, 2, [[10, 0]], 1999), "permitted|||"),
        (call("gate", BODY, 2, [[10, 4], [11, 1]], 1999, 5, [7]),
         "refused|1|0|flag set\nrefused|1|2|flag set\nrefused|3|0|machine that governs\n"
         "refused|5|0|use that the machine's owner does not cover\nrefused|4|1|use that the actor does not cover"),
        (call("may", BODY, 2, 10, 0, 1999), "t"), (call("may", BODY, 2, 10, 0, 2000), "f"), (call("may", BODY, 4, 10, 0, 0), "f"),
        (call("who", BODY, 10, 0, 1999), "1\n2\n3"), (call("who", BODY, 10, 0, 2000), "1\n3"), (call("who", BODY, 11, 0, 0), ""),
        (call("why", BODY, 2, 10, 0, 1999), "actor|2|relies|{2,1}|1|0\nowner|1|relies|{3}|1|0"),
        (call("why", BODY, 2, 10, 0, 2000), "actor|2|not_live|{2,1}|1|2\nowner|1|relies|{3}|1|0"),
        (call("why", BODY, 1, 10, 1, 0), "actor|1|lacks|{3}|1|0"), (call("why", BODY, 3, 11, 0, 0), "actor|3|unheld|{}|0|0"),
        (call("plan", BODY, "plan=2\n" + ACTION.replace("flags=0", "flags=1") + ACTION), "0|refused|1\n1|cancelled|0"),
        (call("propose", BODY, 2, 10, 0, 2000, [3]), "grant|4|1|3|2|10|1|800|0|0"), (call("propose", BODY, 2, 10, 0, 0, [3]), "none|||||||||"),
        (call("revoke", BODY, 3, 2), None), (call("clear_expired", BODY, 3, 1999), None),
        ("guvrendik.may(NULL, 2, 10, 0, 0)", ""), ("guvrendik.gate(NULL, 2, '{}', 0)", ""), ("guvrendik.grant(NULL, 9, 1, 3, 2, 10, 1, 1, 0, 0, 0)", ""),
    ):
        got = server.ask(of.format(asked))
        if due is None:
            due = BODY.rstrip("\n") if "clear_expired" in asked else without(2).rstrip("\n")
            got = got.rstrip("\n")
        checks.same(asked[:30] + ".." + asked[-40:], due, got)
    checks.same("in one query each row has its own register", "t\nf\nt", server.ask(
        f"SELECT guvrendik.may(b, 2, 10, 0, 1999) FROM unnest(ARRAY[{literal(BODY)}, {literal(BODY.replace('expiry=2000', 'expiry=1000'))}, {literal(BODY)}]) b"))
    checks.same("immutable and safe in parallel", "", server.ask(
        "SELECT p.proname FROM pg_proc p JOIN pg_depend d ON d.objid = p.oid JOIN pg_extension e ON e.oid = d.refobjid AND d.deptype = 'e'"
        " WHERE e.extname = 'guvrendik' AND (p.provolatile, p.proparallel) <> ('i', 's')"))


def without(claim):
    """The register above without a claim of its list."""
    return re.sub(rf"claim={claim}\n(.*\n){{8}}", "", BODY).replace("claims=3", "claims=2")


def texts(checks, server):
    """What is said of a text that is not stored: the line, the record, the line feed that an editor dropped."""
    for body, due in (
        (BODY[:-1], ("GV019", "DETAIL:  Line 51: expiry=0\n", "HINT:  The last line of the text has no line feed at its end")),
        (BODY.replace("kind=human", "kind=robot", 1), ("GV019", "DETAIL:  Line 4: kind=robot\n")),
        (BODY[:-len("expiry=0\n")], ("GV019", "DETAIL:  Line 51: the text ends before it.\n")),
        (BODY.replace("\n", "\r\n"), ("GV019", "DETAIL:  Line 1: register=2", "HINT:  The line has a carriage return")),
        ("\ufeff" + BODY, ("GV019", "DETAIL:  Line 1: \ufeffregister=2\n", "HINT:  The text begins with a byte order mark")),
        (BODY.replace("weight=600", "weight=801"), ("GV001", "DETAIL:  claims, place 1, id 2: weight above the parent's.\n")),
        (BODY.replace("claims=3", "claims=257"), ("GV020", "DETAIL:  Line 24: claims=257\n")),
        ("", ("GV019", "DETAIL:  Line 1: the text ends before it.\n")),
    ):
        told, said = server.run(f"INSERT INTO guvrendik.registers VALUES ('text', {literal(body)});\n")
        checks.holds(f"{due[0]} {due[1].strip()}", told == "" and all(part in said for part in due) and ("HINT" in said) == (len(due) == 3), said)
    checks.same("none of them is stored", "0", server.ask("SELECT count(*) FROM guvrendik.registers WHERE client = 'text'"))


def section(title):
    """A section of docs/PORTAL.md."""
    with open("docs/PORTAL.md", encoding="utf-8") as paper:
        return paper.read().partition(f"\n## {title}\n")[2].partition("\n## ")[0]


def policy(checks, server):
    """Row level security by may, as docs/PORTAL.md has it: 64 reports on a full register, the register read once."""
    full = read("examples/full-register/register.txt").decode()
    numbers = re.findall(r"^resource=(\d+)\npublic", full, re.M)
    by_gate = re.search(r"^    ALTER TABLE reports .*?;\n    CREATE POLICY by_gate .*?;$", section("The store"), re.M | re.S).group()
    told, said = server.run(f"""
        INSERT INTO guvrendik.registers VALUES ('full', {literal(full)});
        CREATE ROLE visitor;
        CREATE TABLE reports (client text, id bigint);
        ALTER TABLE reports OWNER TO visitor;
        INSERT INTO reports SELECT 'full', unnest({literal([int(n) for n in numbers])}::bigint[]);
        GRANT USAGE ON SCHEMA guvrendik TO visitor;
        GRANT EXECUTE ON FUNCTION guvrendik.stored TO visitor;
        {by_gate}
    """)
    checks.same("the policy is taken", "", told + said)
    seen, due = set(), set()
    for actor in re.findall(r"^actor=(\d+)$", full, re.M)[:8]:
        who = f"SET ROLE visitor; SET portal.client = 'full'; SET portal.actor = '{actor}'; SET portal.moment = '5'; "
        seen |= {(actor, n) for n in server.ask(who + "SELECT id FROM reports").split()}
        due |= {(actor, n) for n in server.ask(
            f"SELECT id FROM unnest({literal([int(n) for n in numbers])}::bigint[]) id WHERE {actor} IN (SELECT guvrendik.who({literal(full)}, id, 0, 5))").split()}
    checks.holds("a visitor sees what the library says, and not all", seen == due and 0 < len(seen) < 8 * len(numbers) and len(numbers) == 64, f"{seen ^ due}")
    times = [float(re.search(r"Execution Time: ([\d.]+)", server.ask(who + "EXPLAIN ANALYZE SELECT id FROM reports")).group(1)) for _ in range(20)]
    print(f"64 reports on a full register by a policy: {min(times):.2f} ms")
    checks.holds("64 reports within 5 ms", min(times) <= 5, str(times))


def timing(checks, server):
    """may on a full register's text, against reading and the gate of the library in the same process."""
    full = read("examples/full-register/register.txt").decode()
    actor, resource = re.search(r"^holder=(\d+)\nresource=(\d+)", full, re.M).groups()
    keeper = re.search(rf"^resource={resource}\npublic=\d\nkeeper=(\d+)", full, re.M).group(1)
    server.ask("CREATE FUNCTION times(text, bigint, bigint) RETURNS text AS 'timing' LANGUAGE C STRICT")
    who = server.ask(f"SELECT actor FROM {call('who', full, int(resource), 0, 0)} LIMIT 1") or actor or keeper
    library, may = map(float, server.ask(f"SELECT times({literal(full)}, {who}, {resource})").split())
    print(f"a full register: read and gate {library:.1f} µs, may {may:.1f} µs")
    checks.holds("may within 2 times read and gate", may <= 2 * library, f"{may} against {library}")


def papers(checks, server):
    """The example, and what docs/PORTAL.md prints: each command's answer stands behind `--` on its line or on those below it."""
    with open("examples/postgres/lost_update.expected", encoding="ascii") as file:
        due = file.read()
    told, said = server.run("", "-f", "examples/postgres/lost_update.sql")
    checks.same("examples/postgres/lost_update.sql", due, told + said)
    script = "\n".join(re.findall(r"^    (?!make)(.*)", section("The store").partition("From here on")[0], re.M)) + "\n"
    answers = re.findall(r"-- gives (.*)$", script, re.M)
    told, said = server.run(script)
    checks.same("docs/PORTAL.md: what its commands answer", answers, told.splitlines())
    checks.holds("docs/PORTAL.md: and no error", len(answers) >= 5 and said == "", said)
