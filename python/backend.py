"""The build backend, so that `pip install ./python` fetches nothing: a wheel is the package with the machine's delivered library and the header in it.
The clone around this folder must be there. The same sources give the same bytes."""
import base64
import hashlib
import os
import re
import zipfile

HERE = os.path.dirname(os.path.abspath(__file__))
TREE = os.path.dirname(HERE)
PACKAGE = "guvrendik"
TAGS = {"x86-64": "linux_x86_64", "aarch64": "linux_aarch64"}


def read(*parts):
    with open(os.path.join(*parts), "rb") as file:
        return file.read()


def version():
    header = read(TREE, "include", "guvrendik.h").decode("ascii")
    return ".".join(re.search(rf"^#define GUVRENDIK_VERSION_{part} (\d+)", header, re.M)[1] for part in ("MAJOR", "MINOR", "PATCH"))


def files(machine):
    """What is in the wheel for a machine, by its name there."""
    info = f"{PACKAGE}-{version()}.dist-info"
    found = {f"{PACKAGE}/{name}": read(HERE, PACKAGE, name) for name in sorted(os.listdir(os.path.join(HERE, PACKAGE))) if name.endswith((".py", ".typed"))}
    library = f"libguvrendik.so.{version().partition('.')[0]}"
    found[f"{PACKAGE}/{library}"] = read(TREE, "delivered", machine, library)
    found[f"{PACKAGE}/guvrendik.h"] = read(TREE, "include", "guvrendik.h")
    found[f"{info}/METADATA"] = (f"Metadata-Version: 2.1\nName: {PACKAGE}\nVersion: {version()}\nSummary: A proved authority gate: who may do what to a report\n"
                                 "Requires-Python: >=3.9\n").encode()
    found[f"{info}/WHEEL"] = f"Wheel-Version: 1.0\nGenerator: {PACKAGE}\nRoot-Is-Purelib: false\nTag: py3-none-{TAGS[machine]}\n".encode()
    found[f"{info}/entry_points.txt"] = f"[console_scripts]\n{PACKAGE} = {PACKAGE}.command:run\n".encode()
    return info, found


def wheel(machine, folder):
    """Writes the wheel for a machine, and answers its name."""
    info, found = files(machine)
    sums = [f"{name},sha256={base64.urlsafe_b64encode(hashlib.sha256(text).digest()).rstrip(b'=').decode()},{len(text)}" for name, text in found.items()]
    found[f"{info}/RECORD"] = "\n".join(sums + [f"{info}/RECORD,,", ""]).encode()
    name = f"{PACKAGE}-{version()}-py3-none-{TAGS[machine]}.whl"
    with zipfile.ZipFile(os.path.join(folder, name), "w", zipfile.ZIP_DEFLATED) as archive:
        for place, text in found.items():
            entry = zipfile.ZipInfo(place, (1980, 1, 1, 0, 0, 0))
            entry.external_attr, entry.compress_type = 0o644 << 16, zipfile.ZIP_DEFLATED
            archive.writestr(entry, text)
    return name


def build_wheel(wheel_directory, config_settings=None, metadata_directory=None):
    """Called by pip: the wheel for this machine."""
    machine = os.uname().machine.replace("x86_64", "x86-64").replace("arm64", "aarch64")
    if machine not in TAGS or not os.path.isdir(os.path.join(TREE, "delivered", machine)):
        raise SystemExit(f"nothing is delivered for {os.uname().machine} in {TREE}: pip must be given ./python of a whole clone")
    return wheel(machine, wheel_directory)


def build_sdist(sdist_directory, config_settings=None):
    """Called by pip for an archive of sources, which this package has none of: it is made of a clone."""
    raise SystemExit("no archive of sources is made: take the clone, or a wheel by ./python/wheels")
