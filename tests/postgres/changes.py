"""Changes that are stored: guarded, made by many at once, kept through a kill, dumped and restored."""
import random
import re
import threading
import time

import queries
from servers import literal

CONNECTIONS, EACH, CLIENTS = 8, 250, 4
KILLS, STREAMS, SENT = 10, 4, 8000


def guards(checks, server):
    """The audit and the table: what is refused, and what an UPDATE alone leaves."""
    server.ask(f"INSERT INTO guvrendik.registers VALUES ('guard', {literal(queries.BODY)})")
    nine = "22023: grant has 9 numbers: id, parent, grantor, holder, resource, rights, weight, left, expiry"
    for statement, due in (
        (f"INSERT INTO guvrendik.registers VALUES ('ahead', {literal(queries.BODY)}, 77)", "23000: client 'ahead', revision 77: the audit tells another change"),
        ("UPDATE guvrendik.audit SET who = 'nobody' WHERE client = 'guard'", "42501"), ("DELETE FROM guvrendik.audit", "42501"),
        ("TRUNCATE guvrendik.audit", "42501"), ("DELETE FROM guvrendik.registers WHERE client = 'guard'", "42501"),
        ("UPDATE guvrendik.registers SET client = 'other' WHERE client = 'guard'", "42501"),
        ("SELECT guvrendik.change('nobody', 'revoke', '{1, 1}', 0)", "P0002: no client is called 'nobody'"),
        ("SELECT guvrendik.change('guard', 'revoke', '{1}', 0)", "22023: revoke has 2 numbers: revoker, claim"),
        ("SELECT guvrendik.change('guard', 'revoke', '[0:1]={3,2}', 0)", "22023: revoke has 2 numbers: revoker, claim"),
        ("SELECT guvrendik.change('guard', 'clear_expired', '{}', 0)", "22023: clear_expired has 1 numbers: caller"),
        ("SELECT guvrendik.change('guard', 'grant', '{9, 1, 3, 2, 10, 1, 1, 0}', 0)", nine),
        ("SELECT guvrendik.change('guard', 'grant', '{9, 1, 3, 2, 10, 1, 1, 0, 0, 0}', 0)", nine),
        ("SELECT guvrendik.change('guard', 'strike', '{1, 1}', 0)", "22023: no change is called strike"),
        ("SELECT guvrendik.change('guard', 'revoke', '{1, NULL}', 0)", "22004: NULL is no call, no number and no moment of a change"),
        ("SELECT guvrendik.change('guard', 'grant', '{9, 1, 3, 2, 10, 1, 1, 0, 0}', NULL)", "22004: NULL is no call, no number and no moment of a change"),
        ("SELECT guvrendik.change('guard', 'revoke', '{2, 1}', 0)", "GV018"), ("UPDATE guvrendik.registers SET body = NULL WHERE client = 'guard'", "23502"),
        ("SET ROLE visitor; SELECT guvrendik.change('guard', 'revoke', '{1, 1}', 0)", "42501"),
        ("SET ROLE visitor; INSERT INTO guvrendik.audit VALUES ('guard', 0, 1, 'revoke', '{1, 1}', 0, NULL, 'desk')", "42501"),
        ("SET ROLE visitor; CREATE TEMP TABLE own (LIKE guvrendik.audit); CREATE TRIGGER forged AFTER INSERT ON own FOR EACH ROW"
         " EXECUTE FUNCTION guvrendik.keep_audit()", "42501"),
        ("UPDATE guvrendik.registers SET body = replace(body, 'keeper=3', 'keeper=2') WHERE client = 'guard'", "GV001"),
    ):
        told, said = server.run(statement + ";\n")
        checks.holds(f"{statement} is refused with {due}", told == "" and re.match(rf"ERROR:  {re.escape(due)}(: |\n)", said), told + said)
    checks.same("nothing of it is stored", "0|t", server.ask(
        f"SELECT revision, body = {literal(queries.BODY)} FROM guvrendik.registers WHERE client = 'guard'"))
    server.ask("UPDATE guvrendik.registers SET body = guvrendik.revoke(body, 3, 2) WHERE client = 'guard'")
    server.ask("SELECT guvrendik.change('guard', 'clear_resource', '{1, 10}', 3, 'desk')")
    checks.same("the audit", "||0|begin||||t|postgres\n|0|1|store||||t|postgres\n|1|2|clear_resource|{1,10}|3||f|desk".replace("||t", "|t").replace("||f", "|f"),
                server.ask("SELECT '', before, after, call, numbers, moment, body IS NOT NULL, who FROM guvrendik.audit WHERE client = 'guard' ORDER BY after"))
    checks.same("a role without a right on the tables changes by guvrendik.change", "3", server.ask(
        "GRANT EXECUTE ON FUNCTION guvrendik.change TO visitor; SET ROLE visitor; SELECT guvrendik.change('guard', 'clear_expired', '{1}', 3)"))
    checks.same("its word, and who was logged in", "clear_resource|desk|postgres\nclear_expired|postgres|postgres", server.ask(
        "SELECT call, who, session FROM guvrendik.audit WHERE client = 'guard' AND after > 1 ORDER BY after"))
    consistent(checks, server, "guard")
    forged(checks, server)
    told, said = server.run("", "-f", "postgres/store.sql")
    checks.holds("store.sql stops at its first error", told == "" and said.count("ERROR:  ") == 1, said)


def forged(checks, server):
    """An audit row that tells another change than the one that is stored: the change is refused, and never stored without a row of its own."""
    ahead = "BEGIN; INSERT INTO guvrendik.audit VALUES ('guard', {}, {}, 'clear_expired', '{{1}}', 5, NULL, 'desk');\n"
    alone = f"UPDATE guvrendik.registers SET body = {literal(queries.BODY)} WHERE client = 'guard';\n"
    for before, statement, due in ((3, alone, "23000"), (4, alone, "23000"), (3, "SELECT guvrendik.change('guard', 'clear_expired', '{1}', 6);\n", "23505")):
        told, said = server.run(ahead.format(before, before + 1) + statement)
        checks.holds(f"a row of {before + 1}: {statement[:20]} is refused with {due}", told == "" and said.startswith(f"ERROR:  {due}: "), told + said)


def strict(checks, server):
    """In a stricter isolation a change of a row that another has changed meanwhile is refused with 40001, and not computed on the old one."""
    server.ask(f"INSERT INTO guvrendik.registers VALUES ('strict', {literal(queries.BODY)})")
    other = f"dblink_exec('host={server.room} port={server.port} user=postgres dbname=postgres', {{}})"
    for way in ("SELECT guvrendik.change('strict', 'grant', '{9, 1, 3, 2, 10, 1, 1, 0, 0}', 0)",
                "UPDATE guvrendik.registers SET body = guvrendik.grant(body, 9, 1, 3, 2, 10, 1, 1, 0, 0, 0) WHERE client = 'strict'"):
        for level in ("REPEATABLE READ", "SERIALIZABLE"):
            told, said = server.run(f"BEGIN ISOLATION LEVEL {level}; SELECT count(*) FROM guvrendik.registers WHERE client = 'strict';\nSELECT "
                                    + other.format(literal("UPDATE guvrendik.registers SET body = body WHERE client = 'strict'")) + f";\n{way};\n")
            checks.holds(f"{level}: {way[:30]}", told == "1\nUPDATE 1\n" and said.startswith("ERROR:  40001: "), told + said)
    consistent(checks, server, "strict")


def consistent(checks, server, *clients):
    """The history theorem, run: the accepted calls of the audit, made again, end in the stored text; and there is one to each revision."""
    for client in clients:
        checks.same(f"{client}: replayed, numbered", "t|t", server.ask(
            f"SELECT guvrendik.replayed('{client}') = r.body, (SELECT array_agg(a.after ORDER BY a.after) = array_agg(n ORDER BY n) FROM guvrendik.audit a"
            f" FULL JOIN generate_series(0, r.revision) n ON n = a.after WHERE a.client IS NULL OR a.client = '{client}')"
            f" FROM guvrendik.registers r WHERE client = '{client}'"))


def some_change(random_):
    """A change of the register of queries.BODY, at its own moment: some are accepted, some refused."""
    moment, identity = random_.randrange(3000), random_.randrange(4, 60)
    kind = random_.choices(("grant", "revoke", "clear_expired", "clear_resource"), (60, 30, 8, 2))[0]
    parent, grantor, holder = random_.choice(((0, 1, 3), (0, 1, 2), (1, 3, 2), (1, 3, 4), (0, 3, 1), (identity - 1, 3, 2)))
    resource = 11 if (parent, grantor) == (0, 3) else 10
    numbers = {"grant": [identity, parent, grantor, holder, resource, random_.choice((1, 17)), random_.randrange(801), random_.randrange(6),
                         random_.choice((0, moment + 500))],
               "revoke": [random_.choice((1, 3)), identity], "clear_expired": [1], "clear_resource": [3, 11]}[kind]
    return kind, numbers, moment


def statement(client, kind, numbers, moment, alone):
    """The change by guvrendik.change, or by an UPDATE alone; both answer the revision."""
    if not alone:
        return f"SELECT guvrendik.change('{client}', '{kind}', {literal(numbers)}, {moment});"
    moments = {"grant": [moment], "clear_expired": [moment]}.get(kind, [])
    words = ", ".join(map(str, numbers + moments))
    return f"UPDATE guvrendik.registers SET body = guvrendik.{kind}(body, {words}) WHERE client = '{client}' RETURNING revision;"


def at_once(checks, server):
    """2,000 changes from eight connections at once, on four registers; one in eight by an UPDATE alone."""
    clients = [f"once{n}" for n in range(CLIENTS)]
    for client in clients:
        server.ask(f"INSERT INTO guvrendik.registers VALUES ('{client}', {literal(queries.BODY)})")
    scripts = []
    for connection in range(CONNECTIONS):
        random_ = random.Random(connection)
        scripts.append("\n".join(statement(random_.choice(clients), *some_change(random_), random_.randrange(8) == 0) for _ in range(EACH)) + "\n")
    answers = [None] * CONNECTIONS

    def work(connection):
        answers[connection] = server.run(scripts[connection])

    threads = [threading.Thread(target=work, args=(connection,)) for connection in range(CONNECTIONS)]
    begun = time.monotonic()
    for thread in threads:
        thread.start()
    for thread in threads:
        thread.join()
    took = time.monotonic() - begun
    told = sum(len(out.split()) for out, _ in answers)
    refused = [state for _, said in answers for state in re.findall(r"^(?:psql:\S* )?ERROR:  (\w+):", said, re.M)]
    print(f"{CONNECTIONS * EACH} changes from {CONNECTIONS} connections in {took:.1f} s: {told} stored, {len(refused)} refused ({', '.join(sorted(set(refused)))})")
    checks.same("each is told stored or refused", CONNECTIONS * EACH, told + len(refused))
    checks.holds("a refusal is the library's", all(state.startswith("GV0") for state in refused) and len(set(refused)) >= 4, str(set(refused)))
    checks.same("what is told stored is in the audit", str(told), server.ask("SELECT count(*) FROM guvrendik.audit WHERE client LIKE 'once%' AND after > 0"))
    counts = dict(line.split("|") for line in server.ask("SELECT call, count(*) FROM guvrendik.audit WHERE client LIKE 'once%' GROUP BY call").splitlines())
    checks.holds("every call is among them", all(int(counts.get(call, 0)) >= 5 for call in ("grant", "revoke", "clear_expired", "clear_resource", "store")), str(counts))
    consistent(checks, server, *clients)


def stream(count):
    """The changes of one connection, whose order the audit must show: claim 9 is granted and revoked, in turns."""
    return [("grant", [9, 1, 3, 2, 10, 1, 1 + n % 800, 2, 0], n) if n % 2 == 0 else ("revoke", [3, 9], n) for n in range(count)]


def killed(checks, server):
    """SIGKILL of the server in the middle, ten times. A connection sends its changes one after the other: those that stand are the first ones that it sent, none
    that was told is missing, and at most the one whose answer the kill took stands untold."""
    random_ = random.Random(40)
    told, cut = [0] * STREAMS, 0
    clients = [f"kill{n}" for n in range(STREAMS)]
    for client in clients:
        server.ask(f"INSERT INTO guvrendik.registers VALUES ('{client}', {literal(queries.BODY)})")
    changes = stream(100_000)
    stood = [0] * STREAMS
    for _ in range(KILLS):
        scripts = ["\n".join(statement(client, *change, False) for change in changes[begin:begin + SENT]) + "\n" for client, begin in zip(clients, stood)]
        answers = cut_off(server, scripts, random_.uniform(0.1, 0.4))
        server.start()
        for place, (client, (out, said)) in enumerate(zip(clients, answers)):
            before = stood[place]
            told[place] = max([before, *map(int, out.split())])
            stood[place] = int(server.ask(f"SELECT revision FROM guvrendik.registers WHERE client = '{client}'"))
            checks.holds(f"{client}: told {told[place]}, stands {stood[place]}", told[place] <= stood[place] <= told[place] + 1 and out.split() == [
                str(n) for n in range(before + 1, told[place] + 1)], said[:300])
            cut += told[place] - before < SENT
    checks.holds("the kills came in the middle", cut == KILLS * STREAMS and sum(told) > 10 * KILLS, f"{cut} {told}")
    for client, last in zip(clients, stood):
        rows = server.ask(f"SELECT call, numbers, moment FROM guvrendik.audit WHERE client = '{client}' AND after > 0 ORDER BY after").splitlines()
        checks.same(f"{client}: what stands is what was sent, in its order", [f"{call}|{{{','.join(map(str, n))}}}|{m}" for call, n, m in changes[:last]], rows)
    consistent(checks, server, *clients)
    print(f"{KILLS} kills: {sum(told)} changes told stored, all there; {sum(stood) - sum(told)} stand whose last answer was cut off")


def cut_off(server, scripts, after):
    """The scripts at once, each by a connection; the server is killed so many seconds after the first change is stored."""
    answers = [None] * len(scripts)

    def work(place):
        answers[place] = server.run(scripts[place])

    count = "SELECT sum(revision) FROM guvrendik.registers WHERE client LIKE 'kill%'"
    before = server.ask(count)
    threads = [threading.Thread(target=work, args=(place,)) for place in range(len(scripts))]
    for thread in threads:
        thread.start()
    until = time.monotonic() + 60
    while server.ask(count) == before and time.monotonic() < until:
        time.sleep(0.01)
    time.sleep(after)
    server.kill()
    for thread in threads:
        thread.join()
    return answers


def restored(checks, server):
    """pg_dump, and restore into another database: the same texts, the same audit, the same refusals."""
    rows = ("SELECT md5(string_agg(client || body || revision, ';' ORDER BY client)), count(*) FROM guvrendik.registers",
            "SELECT md5(string_agg(a::text, ';' ORDER BY client, after)), count(*) FROM guvrendik.audit a")
    server.ask("DROP POLICY by_gate ON reports; CREATE DATABASE copy")
    server.ordinary("pg_dump", "-h", server.room, "-p", server.port, "-U", "postgres", "-f", server.room + "/dump.sql", "postgres")
    told, said = server.run("", "-v", "ON_ERROR_STOP=1", "-f", server.room + "/dump.sql", database="copy")
    checks.same("the dump is restored", "", said)
    for query in rows:
        checks.same("the same rows", server.ask(query), server.ask(query, database="copy"))
    told, said = server.run("UPDATE guvrendik.audit SET who = 'nobody';\n", database="copy")
    checks.holds("the copy's audit stays", said.startswith("ERROR:  42501: "), said)
    checks.same("the copy takes a change", "4", server.ask("SELECT guvrendik.change('guard', 'clear_resource', '{3, 11}', 0)", database="copy"))
    data_alone(checks, server, rows)


def data_alone(checks, server, rows):
    """pg_dump of the data alone, into a database where store.sql ran: the same rows and revisions, and changes go on from there. A register that is not where its
    audit ends is not taken."""
    server.ask("CREATE DATABASE data")
    checks.same("store.sql in another database", "", "".join(server.run("", "-f", "postgres/store.sql", database="data")))
    server.ordinary("pg_dump", "-h", server.room, "-p", server.port, "-U", "postgres", "--data-only", "-n", "guvrendik", "-f", server.room + "/data.sql", "postgres")
    with open(server.room + "/data.sql", encoding="utf-8") as file:
        audit, registers = re.findall(r"^COPY guvrendik\.\w+ .*?^\\\.\n", file.read(), re.M | re.S)
    for script in (audit + registers.replace("\t3\n", "\t2\n"), audit + registers.replace("public=0", "public=1"), registers + audit):
        told, said = server.run("BEGIN;\n" + script, database="data")
        checks.holds("another revision, another text, another order: refused", said.startswith("ERROR:  23000: "), said[:500])
    told, said = server.run("", "-v", "ON_ERROR_STOP=1", "-f", server.room + "/data.sql", database="data")
    checks.same("the data are restored", "", said)
    for query in rows:
        checks.same("the same rows", server.ask(query), server.ask(query, database="data"))
    checks.same("an UPDATE alone has its audit row", "4|store", server.ask(
        "UPDATE guvrendik.registers SET body = body WHERE client = 'guard'; SELECT after, call FROM guvrendik.audit WHERE client = 'guard' AND after > 3", database="data"))
    checks.same("and a change its own", "5", server.ask("SELECT guvrendik.change('guard', 'clear_resource', '{3, 11}', 0)", database="data"))
    checks.same("the audit ends in the text", "t", server.ask("SELECT guvrendik.replayed('guard') = body FROM guvrendik.registers WHERE client = 'guard'", database="data"))
