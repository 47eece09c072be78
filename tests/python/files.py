"""A register's file: two commands at once, each step killed, a full disk, a file or folder that may not be written, a text that changed meanwhile."""
import os
import resource
import signal
import stat
import subprocess
import sys
import tempfile

from asking import ask, folder, read
from guvrendik import CASE_R, Claim, Register, Right, store

OLD = Register.from_text(CASE_R)
NEW = OLD.grant(Claim(3, 0, 1, 2, 10, Right.WRITE), 5)
GRANT = ("grant", "1", "2", "WRITE", "10", "--now", "5")


def texts():
    return CASE_R.encode(), NEW.text().encode()


def left_behind(room):
    return sorted(os.listdir(room))


def in_child(work):
    """Works in a process of its own: its status, or less than 0 for the signal that ended it."""
    child = os.fork()
    if child == 0:
        try:
            os._exit(work())
        except BaseException:
            os._exit(99)
    status = os.waitpid(child, 0)[1]
    return -os.WTERMSIG(status) if os.WIFSIGNALED(status) else os.WEXITSTATUS(status)


def killed_at(line, path):
    """Stores, and is killed where the given line of the store is about to run."""
    seen = [0]

    def trace(frame, event, _):
        if frame.f_code.co_filename != store.__file__:
            return None
        if event == "line":
            seen[0] += 1
            if seen[0] == line:
                os.kill(os.getpid(), signal.SIGKILL)
        return trace
    sys.settrace(trace)
    store.change(path, lambda old: NEW.text().encode())
    return 0


def each_step(count):
    old, new = texts()
    found, line, status = [], 1, None
    while status != 0:
        with folder(register=CASE_R) as room:
            path = f"{room}/register.txt"
            status = in_child(lambda: killed_at(line, path))
            count.holds(status in (0, -signal.SIGKILL), f"killed at step {line}: status {status}")
            count.holds(read(path) in (old, new), f"killed at step {line}: half a text")
            found.append(read(path) == new)
            # What is left behind is in nobody's way, and no lock is held.
            count.same((0, new if read(path) == old else None), (ask(*GRANT, "-r", path)[0], read(path) if not found[-1] else None), f"behind step {line}")
            count.same(["register.txt"], left_behind(room), f"behind step {line}: what is left")
        line += 1
    count.holds(line > 20 and found[0] is False and found[-1] is True and found == sorted(found), f"steps: {found}")


def at_once(count):
    """Commands at once, each granting one claim: none is lost."""
    with folder(register=CASE_R) as room:
        path = f"{room}/register.txt"
        words = [sys.executable, "guvrendik", "grant", "1", "2", "WRITE", "10", "--now", "5", "-r", path]
        running = [subprocess.Popen(words, stdout=subprocess.DEVNULL) for _ in range(6)]
        count.same([0] * 6, [one.wait() for one in running], "six commands at once")
        count.same([1, 2, 3, 4, 5, 6, 7, 8], [claim.id for claim in Register.from_text(read(path)).claims], "each claim stands")
    with folder(register=CASE_R) as room:
        path = f"{room}/register.txt"

        def grants(number):
            for k in range(20):
                if ask("grant", 1, 2, "WRITE", 10, "--now", 5, "--id", 100 * number + k, "-r", path)[0] != 0:
                    return 1
            return 0
        children = []
        for number in (1, 2):
            child = os.fork()
            if child == 0:
                os._exit(grants(number))
            children.append(child)
        count.same([0, 0], [os.waitpid(child, 0)[1] for child in children], "two of twenty grants each")
        count.same(42, len(Register.from_text(read(path)).claims), "all forty stand")


def full(count):
    """No room for the new text: the old one stays, and nothing lies beside it."""
    def limited(path):
        resource.setrlimit(resource.RLIMIT_FSIZE, (100, 100))
        signal.signal(signal.SIGXFSZ, signal.SIG_IGN)
        return ask(*GRANT, "-r", path)[0]
    with folder(register=CASE_R) as room:
        count.same(127, in_child(lambda: limited(f"{room}/register.txt")), "a file that may not grow")
        count.same((CASE_R.encode(), ["register.txt"]), (read(f"{room}/register.txt"), left_behind(room)), "a file that may not grow")
    with tempfile.TemporaryDirectory() as room:
        if os.geteuid() != 0 or subprocess.run(["mount", "-t", "tmpfs", "-o", "size=8k", "none", room], stderr=subprocess.DEVNULL).returncode:
            print("no small disk can be mounted here: a file that may not grow stands for it")
            return
        try:
            with open(f"{room}/register.txt", "w") as file:
                file.write(CASE_R)
            with open(f"{room}/filler", "wb") as file:
                file.write(b"x" * 4096)
            status, out, err = ask(*GRANT, "-r", f"{room}/register.txt")
            count.same((127, ""), (status, out), "a full disk")
            count.same(f"guvrendik: {room}/register.txt: no space left on device\n", err, "what is said of it")
            count.same((CASE_R.encode(), ["filler", "register.txt"]), (read(f"{room}/register.txt"), left_behind(room)), "a full disk")
        finally:
            subprocess.run(["umount", room], check=True)


def as_nobody(work):
    def run():
        if os.geteuid() == 0:
            os.setgroups([])
            os.setgid(65534)
            os.setuid(65534)
        return work()
    return in_child(run)


def unwritable(count):
    with folder(register=CASE_R) as room:
        path = f"{room}/register.txt"
        os.chmod(room, 0o777)
        os.chmod(path, 0o444)
        count.same(127, as_nobody(lambda: ask(*GRANT, "-r", path)[0]), "a register that may not be written")
        count.same(0, as_nobody(lambda: ask(*GRANT, "--dry-run", "-r", path)[0]), "which a dry run does not")
        os.chmod(path, 0o666)
        os.chmod(room, 0o555)
        count.same(127, as_nobody(lambda: ask(*GRANT, "-r", path)[0]), "a folder that may not be written")
        os.chmod(room, 0o755)
        count.same((CASE_R.encode(), ["register.txt"]), (read(path), left_behind(room)), "both are as they were")
    with folder() as room:
        status, out, err = ask(*GRANT, "-r", f"{room}/register.txt")
        count.same((127, "", f"guvrendik: {room}/register.txt: no such file or directory\n"), (status, out, err), "no register")


def kept(count):
    """Mode and link stay; the text is the one asked for."""
    old, new = texts()
    with folder(register=CASE_R) as room:
        path = f"{room}/register.txt"
        os.chmod(path, 0o640)
        os.symlink("register.txt", f"{room}/link")
        count.same((0, "stored: granted 3\n", ""), ask(*GRANT, "-r", f"{room}/link"), "a grant by a link")
        count.same((0o640, True, new), (stat.S_IMODE(os.stat(path).st_mode), os.path.islink(f"{room}/link"), read(path)), "mode, link and text")
        count.same((0, "stored: withdrawn 3\n", ""), ask("revoke", 1, 3, "-r", path), "a revocation")
        count.same(old, read(path), "the old text")
        status, out, _ = ask(*GRANT, "--dry-run", "-r", path)
        count.holds(status == 0 and "+claims=3" in out.splitlines() and "-claims=2" in out.splitlines(), f"a dry run\n{out}")
        count.same(old, read(path), "which stores nothing")
        with open(f"{room}/seen", "wb") as file:
            file.write(old)
        count.same(0, ask(*GRANT, "--if-text", f"{room}/seen", "-r", path)[0], "the text is still that one")
        count.same((3, "changed meanwhile: the stored text is another one; nothing is stored\n", ""), ask(*GRANT, "--if-text", f"{room}/seen", "-r", path),
                   "it is another one")
        count.same(new, read(path), "nothing is stored")
        count.same((1, "refused: 17, claim to revoke does not stand\n", ""), ask("revoke", 1, 9, "-r", path), "a change that is refused")
        count.same((0, "stored: withdrawn 2\n", ""), ask("expire", 1, "--now", "2000", "-r", path), "what has run out")
        count.same((0, "stored: withdrawn 1 3\n", ""), ask("clear", 1, 10, "-r", path), "a report cleared")
        count.same(["link", "register.txt", "seen"], left_behind(room), "nothing lies beside it")
    with folder(register=CASE_R[:-1]) as room:
        status, out, err = ask(*GRANT, "-r", f"{room}/register.txt")
        count.same((2, ""), (status, out), "a register that is not read")
        count.holds(err.startswith("stopped: 19, text not of the form\n"), f"what is said of it: {err}")


def check(count):
    for part in (kept, each_step, at_once, full, unwritable):
        part(count)
