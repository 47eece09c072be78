"""The texts: their keys and ranges, in one table, and what was due at a line that fails. Which one fails is the
library's word; the lines before it, which were read, tell the key that was due there."""
from __future__ import annotations

import operator
from typing import Any, Iterator, NamedTuple

MOST_READ, SHOWN = 65536, 64  # bytes of a file that the programs read, and of a line that is shown
MARKS = {b"\xef\xbb\xbf": "utf-8", b"\xff\xfe": "utf-16-le", b"\xfe\xff": "utf-16-be"}
PATH = "a path of 0 to 64 bytes, each 0x21 to 0x7E"
ID, MOMENT = 65535, 2**32 - 1


class Key(NamedTuple):
    """What a line may be: its key, its numbers from least to most, its values in words, the form of what it counts."""
    name: str
    least: int = 0
    most: int = 0
    words: str = ""
    counts: str = ""


# The one table: the lines of each form. An action may name actor and resource 0; a record of a register may not.
FORMS = {
    "register": (Key("register", 1, 2, "1 or 2"), Key("actors", 0, 64, counts="actor"),
                 Key("resources", 0, 64, counts="resource"), Key("claims", 0, 256, counts="claim")),
    "actor": (Key("actor", 1, ID), Key("kind", 1, 2, "human or machine"), Key("owner", 0, ID)),
    "resource": (Key("resource", 1, ID), Key("public", 0, 1), Key("keeper", 1, ID), Key("scope", 0, 64, PATH)),
    "claim": (Key("claim", 1, ID), Key("parent", 0, ID), Key("grantor", 1, ID), Key("holder", 1, ID),
              Key("resource", 1, ID), Key("rights", 1, 131071), Key("weight", 0, 1000), Key("left", 0, 16),
              Key("expiry", 0, MOMENT)),
    "plan": (Key("plan", 0, 64, counts="step"),), "step": (Key("step", words="action or plan"),),
    "action": (Key("now", 0, MOMENT), Key("actor", 0, ID), Key("flags", 0, 1023), Key("uses", 0, 32, counts="use"),
               Key("governs", 0, 8, counts="govern")),
    "use": (Key("use", 0, ID), Key("right", 0, 16)), "govern": (Key("govern", 0, ID),),
    "clock": (Key("now", 0, MOMENT),),
}


class OutOfRange(ValueError):
    """A number outside its field's range, raised before any call: ctypes alone would cut 2^32 + 1 down to 1.

    >>> Register.from_text(CASE_R).may(2 ** 32 + 2, Use(10, Right.READ), 1999)
    Traceback (most recent call last):
    guvrendik.forms.OutOfRange: actor 4294967298 is not in 0 to 65535
    """


def in_range(what: str, number: Any, least: int, most: int) -> int:
    """The number, where it is a whole one in its range."""
    whole = operator.index(number)
    if not least <= whole <= most:
        raise OutOfRange(f"{what} {whole} is not in {least} to {most}")
    return whole


def shown(line: bytes) -> str:
    """A line as a terminal can show it."""
    return "".join(chr(byte) if 0x20 <= byte <= 0x7E else "?" for byte in line[:SHOWN])


def keys(form: str, lines: Iterator[bytes], version: bytes = b"") -> Iterator[Key]:
    """The key that is due at each line of a text; of one that is not read, up to the line that fails."""
    for key in FORMS[form]:
        if key.name == "left" and version == b"1":
            continue
        yield key
        value = next(lines).partition(b"=")[2]
        version = value if key.name == "register" else version
        if key.name == "step":
            yield from keys(value.decode("ascii"), lines)
        for _ in range(int(value) if key.counts else 0):
            yield from keys(key.counts, lines, version)


class Source(NamedTuple):
    """A text as a program reads it: its name, what stands in it, why nothing could be read, whether more follows."""
    name: str
    text: bytes
    trouble: str = ""
    longer: bool = False

    @classmethod
    def read(cls, path: str, name: str = "") -> Source:
        """The text of a file, or of standard input."""
        shown_as = "standard input" if path == "-" else name or path
        try:
            with open(0 if path == "-" else path, "rb", closefd=path != "-") as file:
                raw = file.read(MOST_READ + 1)
        except OSError as error:
            return cls(shown_as, b"", (error.strerror or "cannot be read").lower())
        return cls(shown_as, raw[:MOST_READ], longer=len(raw) > MOST_READ)

    def mended(self) -> Source:
        """The text without a byte order mark, with line ends of LF alone, the last line's too."""
        text = self.text
        for mark, encoding in MARKS.items():
            text = text[len(mark):].decode(encoding, "replace").encode("utf-8") if text.startswith(mark) else text
        text = text.replace(b"\r\n", b"\n").replace(b"\r", b"\n")
        return self._replace(text=text if text.endswith(b"\n") or not text else text + b"\n")

    def line_of(self, form: str, key: Key, place: int) -> int:
        """The line of a text that was read where this key stands, the first at place 0."""
        due = enumerate(keys(form, iter(self.text.split(b"\n"))), 1)
        return [line for line, one in due if one is key][place]

    def failing(self, form: str, line: int, refusal: int) -> str:
        """What was due at a line that the library refuses, what stands there, and what a person sees badly."""
        if self.trouble:
            return f"{self.name}: {self.trouble}"
        lines = self.text.split(b"\n")
        this, last = lines[line - 1], line == len(lines)
        found = shown(this) or ("the end of the file" if last else "an empty line")
        key = next((key for at, key in enumerate(keys(form, iter(lines)), 1) if at == line), None)
        due = f"{key.name}= with {key.words or f'{key.least} to {key.most}'}" if key else "the end of the file"
        due = {22: "step=action, as 8 plans are open", 23: "step=plan, as 64 actions are there"}.get(refusal, due)
        name = f"{key.name}=0".encode() if key and not key.words else b"\n"
        marked = line == 1 and self.text.startswith(tuple(MARKS))
        remarks = {
            "the file begins with a byte order mark: save it as plain text, without one": marked,
            "the file is longer than 65,536 bytes, and the rest is not read": last and self.longer,
            "the line ends in CR LF: save the file with line ends of LF alone": this.endswith(b"\r") and not last,
            "the lines end in CR: save the file with line ends of LF alone": b"\r" in this,
            "no line feed ends it": last and this,
            "a number is written without zeros before it": this.startswith(name) and this[len(name):].isdigit(),
        }
        remark = next((f"; {said}" for said, holds in remarks.items() if holds), "")
        return f"{self.name}, line {line}: expected {due}, found {found}{remark}"
