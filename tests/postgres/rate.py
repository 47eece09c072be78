"""How many changes a second are stored by eight connections, each on its own row, and how often the disk syncs."""
import os
import re
import subprocess
import tempfile
import time

import queries
from servers import literal

SECONDS = 5
SCRIPT = """SELECT guvrendik.change('rate' || :client_id, 'grant', ARRAY[9, 1, 3, 2, 10, 1, 600, 0, 0], 1500);
SELECT guvrendik.change('rate' || :client_id, 'revoke', ARRAY[3, 9], 1500);
"""


def syncs(room):
    """Writes of a page and syncs, so many a second, by one process."""
    count, begun = 0, time.monotonic()
    with tempfile.NamedTemporaryFile(dir=room) as file:
        while time.monotonic() - begun < 1:
            os.pwrite(file.fileno(), bytes(8192), 0)
            os.fdatasync(file.fileno())
            count += 1
    return count


def bench(server):
    with tempfile.NamedTemporaryFile("w", suffix=".sql") as script:
        script.write(SCRIPT)
        script.flush()
        said = subprocess.run([os.path.join(server.programs, "pgbench"), "-n", "-c", "8", "-j", "2", "-T", str(SECONDS), "-M", "prepared", "-h", server.room, "-p",
                               server.port, "-U", "postgres", "-f", script.name, "postgres"], check=True, capture_output=True, text=True).stdout
    return 2 * float(re.search(r"tps = ([\d.]+)", said).group(1))


def measure(server):
    server.ask(f"INSERT INTO guvrendik.registers SELECT 'rate' || n, {literal(queries.BODY)} FROM generate_series(0, 7) n")
    print(f"the disk syncs {syncs(server.room)} times a second")
    for mode in ("on", "off"):
        server.ask(f"ALTER SYSTEM SET synchronous_commit = {mode}")
        server.ask("SELECT pg_reload_conf()")
        print(f"synchronous_commit = {mode}: {bench(server):.0f} changes a second by eight connections")
