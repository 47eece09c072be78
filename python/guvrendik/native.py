"""The C face: structs and calls as guvrendik.h has them, and the library. Private; nothing is judged here."""
from __future__ import annotations

import ctypes
import functools
import os
import re
import threading
from typing import Any, Dict, List, Tuple

from .forms import ID, MOMENT, in_range

HERE = os.path.dirname(os.path.abspath(__file__))
TREE = os.path.dirname(os.path.dirname(HERE))
MACHINE = os.uname().machine.replace("x86_64", "x86-64").replace("arm64", "aarch64")  # as delivered/ names it
STACK = 87_000  # what the hungriest call needs, and what ctypes needs around it
# The most of a number that a call takes, by the header's name for it; one of another name has 32 bits.
MOST = {"moment": MOMENT, **dict.fromkeys(("actor", "resource", "claim", "revoker", "caller"), ID)}
NUMBERS: Dict[str, int] = {}
STRUCTS: Dict[str, Any] = {f"uint{bits}_t": getattr(ctypes, f"c_uint{bits}") for bits in (8, 32, 64)}
STRUCTS["size_t"] = ctypes.c_size_t
CALLS: Dict[str, List[Tuple[str, str, str]]] = {}  # of each parameter its type, * of a pointer, and its name


def _first(what: str, *places: str) -> str:
    """The first of these places that is there."""
    for place in filter(os.path.exists, places):
        return place
    where = f"{os.uname().sysname} on {os.uname().machine}: {' and '.join(places)}"
    raise ImportError(f"no Guvrendik {what} for {where} not there")


def _read_header() -> None:
    """Takes numbers, structs and calls from the header, without its prefix. Each struct has the size that it says."""
    place = _first("header", os.path.join(HERE, "guvrendik.h"), os.path.join(TREE, "include", "guvrendik.h"))
    with open(place, encoding="ascii") as file:
        header = re.sub(r"/\*.*?\*/|guvrendik_|GUVRENDIK_", "", file.read(), flags=re.S)
    NUMBERS.update((name, int(number)) for name, number in re.findall(r"^#define (\w+) (\d+)", header, re.M))
    for name, body in re.findall(r"^typedef struct (\w+) \{(.*?)^\}", header, re.M | re.S):
        fields = [(field, STRUCTS[kind] * NUMBERS[limit] if limit else STRUCTS[kind])
                  for kind, field, limit in re.findall(r"(\w+) (\w+)(?:\[(\w+)\])?;", body)]
        STRUCTS[name] = type(name, (ctypes.Structure,), {"_fields_": fields})
        if ctypes.sizeof(STRUCTS[name]) != NUMBERS["SIZE_" + name.upper()]:
            raise ImportError(f"{place} has another size of {name}")
    for name, taken in re.findall(r"^void (\w+)_at\((.*?)\);", header, re.M | re.S):
        CALLS[name] = re.findall(r"(\w+) (\*?)(\w+)(?:,|$)", taken)


_read_header()


@functools.lru_cache(maxsize=None)
def _load() -> Any:
    """The library that GUVRENDIK_LIBRARY names; else that of the package; else the delivered one of the clone."""
    named, name = os.environ.get("GUVRENDIK_LIBRARY"), "libguvrendik.so.3"
    places = [named] if named else [os.path.join(HERE, name), os.path.join(TREE, "delivered", MACHINE, name)]
    return ctypes.CDLL(_first("library", *places))


class _Stack(threading.local):
    """The stack of this thread: where it begins and ends, and room for where it is now."""

    def __init__(self) -> None:
        attributes, low, size = ctypes.create_string_buffer(256), ctypes.c_void_p(), ctypes.c_size_t()
        _libc.pthread_self.restype = ctypes.c_void_p
        if _libc.pthread_getattr_np(ctypes.c_void_p(_libc.pthread_self()), attributes):
            raise MemoryError("the stack of this thread is not known")
        _libc.pthread_attr_getstack(attributes, ctypes.byref(low), ctypes.byref(size))
        _libc.pthread_attr_destroy(attributes)
        self.low, self.high = low.value or 0, (low.value or 0) + size.value
        self.context = ctypes.create_string_buffer(8192)
        self.pointer = ctypes.c_uint64.from_buffer(self.context, {"x86-64": 160, "aarch64": 432}[MACHINE])

    def hold(self) -> None:
        """What a call needs is left. Else MemoryError, where the call would end the process."""
        _libc.getcontext(self.context)
        at = self.pointer.value
        if not self.low + STACK <= at <= self.high:
            left = f"this thread has {max(0, at - self.low)} left"
            raise MemoryError(f"a call needs {STACK} bytes of stack, and {left}: threading.stack_size")


_libc = ctypes.CDLL(None)
_stack = _Stack()


def raw(text: Any) -> bytes:
    """The bytes of a text."""
    return text.encode("utf-8", "surrogateescape") if isinstance(text, str) else bytes(text)


def struct(name: str, *values: Any) -> Any:
    """The struct of this name from what its fields hold; a list fills an array and the count behind it."""
    held: List[Any] = []
    for value in values:
        field, kind = STRUCTS[name]._fields_[len(held)]
        if isinstance(value, list):
            count = in_range(f"{name if field == 'list' else field}, how many:", len(value), 0, kind._length_)
            held += [kind(*value), count]
        else:
            held.append(kind(*value) if isinstance(value, bytes) else value)
    return STRUCTS[name](*held)


@functools.lru_cache(maxsize=None)
def function(name: str) -> Tuple[Any, Any, List[Tuple[str, str, str]]]:
    """The twin of a call, the struct that it answers, and what it takes beside lengths."""
    twin = getattr(_load(), f"guvrendik_{name}_at", None)
    if twin is None:
        raise ImportError(f"the library that is loaded has no guvrendik_{name}: it is an older one")
    pointers: Dict[str, Any] = {kind: ctypes.POINTER(STRUCTS[kind]) for kind, _, _ in CALLS[name]}
    pointers["uint8_t"] = ctypes.c_char_p
    twin.restype, twin.argtypes = None, [(pointers if pointer else STRUCTS)[kind] for kind, pointer, _ in CALLS[name]]
    (answer, _, _), *takes = [taken for taken in CALLS[name] if not taken[2].endswith("_len")]
    return twin, STRUCTS[answer], takes


def call(name: str, *given: Any) -> Any:
    """The answer of a call, with the text that it writes, if any. A text is given without its length; a number is in
    its range before the call, as ctypes would cut it to the bits of its field."""
    twin, answers, takes = function(name)
    _stack.hold()
    passed: List[Any] = [answers()]
    for (kind, pointer, what), value in zip(takes, given):
        if kind == "uint8_t":
            passed += [raw(value), len(raw(value))]
        else:
            passed.append(value if pointer else in_range(what, value, 0, MOST.get(what, 2**32 - 1)))
    room = NUMBERS["TEXT_REGISTER"] if takes[-1][2] == "buffer" else 0  # no text is longer
    buffer = ctypes.create_string_buffer(room)
    twin(*passed, *([buffer, room] if room else []))
    if room:
        passed[0].text = ctypes.string_at(buffer, passed[0].length)
    return passed[0]
