"""Past one machine: a second server that follows the first. A revocation holds there when it has arrived."""
import time

import queries
from servers import literal


def wait(server, query):
    for _ in range(600):
        if server.ask(query) == "t":
            return True
        time.sleep(0.05)
    return False


def follow(checks, primary, replica):
    replica.make_replica_of(primary)
    replica.start()
    may = "SELECT guvrendik.may(body, 2, 10, 0, 1000) FROM guvrendik.registers WHERE client = 'two'"
    primary.ask(f"INSERT INTO guvrendik.registers VALUES ('two', {literal(queries.BODY)})")
    there = "SELECT count(*) = 1 FROM guvrendik.registers WHERE client = 'two' AND revision = "
    checks.holds("the register arrives", wait(replica, there + "0"))
    checks.same("machine 2 may read, by both", "t t", f"{primary.ask(may)} {replica.ask(may)}")
    told, said = replica.run("SELECT guvrendik.change('two', 'revoke', '{3, 2}', 0);\n")
    checks.holds("a replica takes no change", told == "" and said.startswith("ERROR:  25006: "), told + said)
    replica.ask("SELECT pg_wal_replay_pause()")
    checks.holds("the replica lags", wait(replica, "SELECT pg_get_wal_replay_pause_state() = 'paused'"))
    primary.ask("SELECT guvrendik.change('two', 'revoke', '{3, 2}', 0)")
    checks.same("revoked on the primary, and not yet there", "f t", f"{primary.ask(may)} {replica.ask(may)}")
    replica.ask("SELECT pg_wal_replay_resume()")
    checks.holds("the revocation arrives", wait(replica, there + "1"))
    checks.same("revoked on both", "f f", f"{primary.ask(may)} {replica.ask(may)}")
    checks.same("the same text on both", primary.ask("SELECT guvrendik.stored('two')"), replica.ask("SELECT guvrendik.stored('two')"))
    print("replica: a revocation holds there when it has arrived: the gate answers t before, f after")
