"""The tests of postgres/, in servers of their own: python3 main.py ROOM PROGRAMS [--rate]. ROOM has the tree that the servers run from."""
import sys

import changes
import queries
import rate
import replicas
from servers import Server


class Checks:
    def __init__(self):
        self.passed = self.failed = 0

    def holds(self, name, true, said=""):
        self.passed += bool(true)
        self.failed += not true
        if not true:
            print(f"FAILED {name}\n{said}".rstrip())

    def same(self, name, due, got):
        self.holds(name, due == got, f"expected {due!r}\nanswered {got!r}")


def attempt(checks, part, *servers):
    """One part; a query that is refused where it must not be ends it, and is a failure."""
    try:
        part(checks, *servers)
    except AssertionError as refused:
        checks.holds(part.__name__, False, str(refused))


def main(room, programs, option=None):
    checks, server, replica = Checks(), Server(room, programs, "primary", 5501), Server(room, programs, "replica", 5502)
    try:
        server.make()
        server.start()
        checks.same("postgres/store.sql is taken", "", "".join(server.run("", "-v", "ON_ERROR_STOP=1", "-f", "postgres/store.sql")))
        if option == "--rate":
            rate.measure(server)
        else:
            for part in (queries.cases, queries.refusals, queries.answers, queries.texts, queries.policy, queries.timing, queries.papers,
                         changes.guards, changes.strict, changes.at_once, changes.killed, changes.restored):
                attempt(checks, part, server)
            attempt(checks, replicas.follow, server, replica)
    finally:
        replica.stop()
        server.stop()
    print(f"{checks.passed} passed, {checks.failed} failed")
    return checks.failed != 0


if __name__ == "__main__":
    sys.exit(main(*sys.argv[1:]))
