"""Servers of PostgreSQL in a folder of their own, run as an ordinary user, with their sockets there."""
import os
import signal
import subprocess
import time

# postgres refuses to be run by root.
ORDINARY = ["setpriv", "--reuid=postgres", "--regid=postgres", "--clear-groups"] if os.geteuid() == 0 else []


def literal(value):
    """A value as SQL writes it: text, bytes, a number, or a list of numbers or of lists."""
    if isinstance(value, bytes):
        return "'\\x" + value.hex() + "'::bytea"
    if isinstance(value, str):
        return "E'" + value.replace("\\", "\\\\").replace("'", "''").replace("\n", "\\n") + "'"
    if isinstance(value, (list, tuple)):
        return "'" + str(value).translate(str.maketrans("[]()", "{}{}", " ")).replace(",}", "}") + "'"
    return str(value)


class Server:
    def __init__(self, room, programs, name, port):
        self.programs, self.room, self.port = programs, room, str(port)
        self.data, self.log = os.path.join(room, name), os.path.join(room, name + ".log")
        self.process = None

    def ordinary(self, program, *words):
        subprocess.run([*ORDINARY, os.path.join(self.programs, program), *words], check=True, cwd=self.room, stdout=subprocess.DEVNULL)

    def make(self):
        self.ordinary("initdb", "-D", self.data, "-U", "postgres", "-A", "trust", "-E", "UTF8", "--locale=C.UTF-8", "--no-sync")
        self.settle("listen_addresses = ''", f"unix_socket_directories = '{self.room}'", f"port = {self.port}", "max_wal_senders = 4", "recovery_init_sync_method = syncfs")

    def make_replica_of(self, primary):
        self.ordinary("pg_basebackup", "-D", self.data, "-h", self.room, "-p", primary.port, "-U", "postgres", "-R", "-c", "fast", "--no-sync")
        self.settle(f"port = {self.port}")

    def settle(self, *lines):
        with open(os.path.join(self.data, "postgresql.conf"), "a", encoding="ascii") as settings:
            settings.write("\n".join(lines) + "\n")

    def start(self):
        """The server is a child of this process, so that it is gone when it has been waited for."""
        with open(self.log, "a", encoding="ascii") as log:
            self.process = subprocess.Popen([*ORDINARY, os.path.join(self.programs, "postgres"), "-D", self.data], cwd=self.room, stdout=log, stderr=log)
        ready = [os.path.join(self.programs, "pg_isready"), "-q", "-h", self.room, "-p", self.port]
        for _ in range(1200):
            if subprocess.run(ready, check=False).returncode == 0:
                return
            if self.process.poll() is not None:
                break
            time.sleep(0.05)
        with open(self.log, encoding="utf-8") as log:
            raise AssertionError(f"the server does not start:\n{log.read()[-2000:]}")

    def stop(self):
        if self.process and self.process.poll() is None:
            self.process.send_signal(signal.SIGQUIT)
            self.process.wait()

    def kill(self):
        """SIGKILL to the server and to every process of it, at once."""
        self.process.send_signal(signal.SIGSTOP)
        family = [pid for pid in processes() if parent_of(pid) == self.process.pid]
        self.process.kill()
        for pid in family:
            os.kill(pid, signal.SIGKILL)
        self.process.wait()
        while any(alive(pid) for pid in family):
            time.sleep(0.01)

    def client(self, *words, database="postgres", **more):
        """psql, bare rows, no settings of a user's; what it reads is its standard input."""
        command = [os.path.join(self.programs, "psql"), "-XqAt", "-h", self.room, "-p", self.port, "-U", "postgres", "-d", database, *words]
        return subprocess.Popen(command, stdin=subprocess.PIPE, stdout=subprocess.PIPE, stderr=subprocess.PIPE, text=True, **more)

    def run(self, script, *words, database="postgres"):
        """What a script prints, and what it says of errors: a line to each, with the SQLSTATE."""
        told, said = self.client("-v", "VERBOSITY=verbose", *words, database=database).communicate(script)
        return told, said

    def ask(self, query, database="postgres"):
        """The answer of a query that is not refused."""
        told, said = self.run(query + ";\n", database=database)
        if said:
            raise AssertionError(said)
        return told.removesuffix("\n")


def processes():
    return [int(name) for name in os.listdir("/proc") if name.isdigit()]


def status(pid):
    """A process's state and its parent; none where it is gone."""
    try:
        with open(f"/proc/{pid}/stat", encoding="ascii", errors="replace") as file:
            return file.read().rpartition(")")[2].split()[:2]
    except OSError:
        return ["X", "0"]


def parent_of(pid):
    return int(status(pid)[1])


def alive(pid):
    return status(pid)[0] not in ("X", "Z")
