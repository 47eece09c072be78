"""The command in this process: its status and what it prints on both streams."""
import contextlib
import io
import os
import tempfile

from guvrendik import command


def ask(*words):
    out, err = io.StringIO(), io.StringIO()
    with contextlib.redirect_stdout(out), contextlib.redirect_stderr(err):
        try:
            status = command.main([str(word) for word in words])
        except SystemExit as end:
            status = end.code
    return status, out.getvalue(), err.getvalue()


@contextlib.contextmanager
def folder(**texts):
    """A folder with these texts: register=.. is register.txt."""
    with tempfile.TemporaryDirectory() as room:
        for name, text in texts.items():
            with open(os.path.join(room, name + ".txt"), "wb") as file:
                file.write(text if isinstance(text, bytes) else text.encode())
        yield room


def read(path):
    with open(path, "rb") as file:
        return file.read()
