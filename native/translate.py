"""What the module of the proved library needs to be compiled for a processor that the kit does not compile for.

    translate.py HEADER MODULE FOLDER

Inside the module, LLVM's text for x86-64, each exported call is a function that knows no processor: a slice goes as a pointer and a length, a struct by
pointer, the place of the answer first, but a struct of one or two numbers as those. The exported function by value around it is all that knows x86-64.
Written are

    FOLDER/module.ll  the module without x86-64's names, and around each call's function an inner one, exported, whose structs all go by pointer,
                      the place of the answer first, and a slice as a pointer to a pointer and a length. Of its parameters it says what C
                      guarantees of a struct that passes by value: nobody else writes it, and it is whole
    FOLDER/values.c   the calls by value of the header, in C over the inner functions
    FOLDER/places.c   for a processor of 32 bits: the calls by pointer, with 32 bits to a length

Each call of the header must be in the module with the parameters that its declaration gives it, and no other may be there. No instruction of a function
is changed: a module that has an address as a number, or one within a type that is loaded, stored or laid out, is refused, since that lies elsewhere where an
address has four bytes.
"""
import re
import sys
from pathlib import Path

INNER = "guvrendik_inner_"
CRATE = "portal_c"
WIDTHS = {"uint32_t": "i32", "uint64_t": "i64"}
ALIGNED = {"uint8_t": 1, "uint32_t": 4, "uint64_t": 8, "size_t": 8}
BITS = {1: "i8", 4: "i32", 8: "i64"}
ALIGN = {"i8": 1, "i32": 4, "i64": 8, "ptr": 8}
HEAD = "/* Written by native/translate.py. */\n"
# An address as a number; and a type with an address in it, where something lies, but for a slice's, whose length lies behind eight bytes in either case.
NUMBER = r"\b(?:ptrtoaddr|ptrtoint|inttoptr)\b"
LIES = r"^(?:  (?:%\S+ = )?(?:load|store|alloca|getelementptr)|@.* (?:global|constant)) .*$"
SLICE = "{ ptr, i64 }"
WITHIN = r"(?<!load )(?<!alloca )\bptr(?=\s*[,}\]>])"


def declared(header):
    """The calls by value of the header: name, type of the answer, parameters as (kind, type, name, name of the length)."""
    text = re.sub(r"/\*.*?\*/", "", header, flags=re.S)
    for answer, name, inside in re.findall(r"^(guvrendik_\w+) guvrendik_(\w+)\(([^)]*)\);", text, flags=re.M):
        words = [" ".join(word.split()) for word in inside.split(",") if word.strip() != "void"]
        parameters = []
        while words:
            kind, variable = re.fullmatch(r"(.*?)(\w+)", words.pop(0)).groups()
            kind = kind.strip()
            if kind.endswith("*"):
                length = re.fullmatch(r"size_t (\w+_len)", words.pop(0))
                if length is None:
                    sys.exit(f"guvrendik_{name}: {variable} has no length behind it")
                parameters.append(("slice", kind, variable, length.group(1)))
            else:
                parameters.append(("number" if kind in WIDTHS else "struct", kind, variable, None))
        yield name, answer, parameters


def size(header, kind):
    return int(re.search(rf"^#define GUVRENDIK_SIZE_{kind.removeprefix('guvrendik_').upper()} (\d+)$", header, flags=re.M).group(1))


def fields(header, kind):
    """Those of a struct: type, and what stands behind it."""
    inside = re.search(rf"^typedef struct \w* ?\{{([^}}]*)\}} {kind};", re.sub(r"/\*.*?\*/", "", header, flags=re.S), flags=re.M).group(1)
    return re.findall(r"^ +(\w+) ([^;]*);", inside, flags=re.M)


def alignment(header, kind):
    """That of the widest field of a struct."""
    return max(ALIGNED.get(field) or alignment(header, field) for field, _ in fields(header, kind))


def numbers(header, kind):
    """The numbers that a struct holds, each with its place and LLVM's type for it, or None where it has an array or another struct."""
    found, at = [], 0
    for field, name in fields(header, kind):
        if field not in ALIGNED or "[" in name:
            return None
        at += -at % ALIGNED[field]
        found.append((at, BITS[ALIGNED[field]]))
        at += ALIGNED[field]
    return found


def attributes(header, kind, of):
    """What is said of a parameter of an inner function; the pointer to a slice's pointer and length is 16 bytes. LLVM finds the first two by itself
    (tests/delivery/attributes.py), and values.c holds the others."""
    if kind == "number":
        return WIDTHS[of]
    align, bytes_there = (8, 16) if kind == "slice" else (alignment(header, of), size(header, of))
    return f"ptr noalias readonly captures(none) align {align} dereferenceable({bytes_there})"


def around(header, call, line, said):
    """The inner function around a call's, which begins with the line, and has the attributes that are said."""
    name, answer, parameters = call
    gives, takes = re.fullmatch(rf'define internal (.*) @"{CRATE}::guvrendik_{name}"\((.*)\)', line).groups()
    takes = [word.split()[0] for word in takes.split(", ") if word]
    head, body, given = ["ptr noalias noundef %a0"], [], []
    differ = f"the module's {name} does not take or give what the header says"

    def value(place, at, of):
        body.append(f"  %at{len(body)} = getelementptr i8, ptr %a{place}, i64 {at}")
        body.append(f"  %value{len(body)} = load {of}, ptr %at{len(body) - 1}, align {ALIGN[of]}")
        given.append((of, f"%value{len(body) - 1}"))

    if gives == "void":
        given.append(("ptr", "%a0"))
    for place, (kind, of, _, _) in enumerate(parameters, 1):
        head.append(f"{attributes(header, kind, of)} noundef %a{place}")
        inside = numbers(header, of) if kind == "struct" else None
        if kind == "slice":
            value(place, 0, "ptr")
            value(place, 8, "i64")
        elif kind == "number":
            given.append((WIDTHS[of], f"%a{place}"))
        elif inside and [bits for _, bits in inside] == takes[len(given) : len(given) + len(inside)]:
            for at, bits in inside:
                value(place, at, bits)
        else:
            given.append(("ptr", f"%a{place}"))
    if [of for of, _ in given] != takes:
        sys.exit(differ)
    call = f'call {gives.removeprefix("noundef ")} @"{CRATE}::guvrendik_{name}"({", ".join(" ".join(word) for word in given)})'
    if gives == "void":
        body.append(f"  {call}")
    else:
        inside = numbers(header, answer)
        of = ", ".join(bits for _, bits in inside or [])
        if gives.removeprefix("noundef ") not in (of, f"{{ {of} }}"):
            sys.exit(differ)
        body.append(f"  %answer = {call}")
        for number, (at, bits) in enumerate(inside):
            one = "%answer"
            if len(inside) > 1:
                one = f"%part{number}"
                body.append(f"  {one} = extractvalue {{ {of} }} %answer, {number}")
            body.append(f"  %to{number} = getelementptr i8, ptr %a0, i64 {at}")
            body.append(f"  store {bits} {one}, ptr %to{number}, align {ALIGN[bits]}")
    return "\n".join([f"define hidden void @{INNER}{name}({', '.join(head)}) {said} {{", *body, "  ret void", "}", ""])


def elsewhere(text):
    """The lines of the module that are another thing where an address has four bytes."""
    laid = [line for line in re.findall(LIES, text, flags=re.M) if re.search(WITHIN, line.replace(SLICE, ""))]
    return re.findall(rf"^.*{NUMBER}.*$", text, flags=re.M) + laid


def module(header, calls, text):
    found = re.findall(rf'^(define internal [^\n]* @"{CRATE}::guvrendik_(\w+)"\([^\n]*\)) (#\d+) \{{$', text, flags=re.M)
    lines = {name: (line, said) for line, name, said in found}
    if lines.keys() != {name for name, _, _ in calls}:
        sys.exit(f"header and module differ in {sorted(lines.keys() ^ {name for name, _, _ in calls})}")
    other = elsewhere(text)
    if other:
        sys.exit(f"not the same with addresses of four bytes: {other[0][:100]}")
    text = re.sub(r"^target (datalayout|triple).*\n", "", text, flags=re.M)
    text = re.sub(r'"(target-cpu|target-features|tune-cpu)"="[^"]*"', "", text)
    text = re.sub(r"^define (.*?)@guvrendik_", r"define internal \1@by_value_", text, flags=re.M)
    return text + "".join("\n" + around(header, call, *lines[call[0]]) for call in calls)


def inner(name, parameters):
    types = ["void *"] + [of if kind == "number" else "const void *" for kind, of, _, _ in parameters]
    return f"extern void {INNER}{name}({', '.join(types)});"


def written(calls, head, function, struct, bytes_type, length_type, struct_type):
    """The calls in C: what is before them; the line that begins one; how a struct is handed on; the types of what they take."""
    lines = [HEAD + head]
    for name, answer, parameters in calls:
        taken, given = [], []
        for kind, of, variable, length in parameters:
            if kind == "slice":
                taken += [bytes_type(of) + variable, f"{length_type} {length}"]
                given.append(f"SLICE({variable}, {length})")
            elif kind == "number":
                taken.append(f"{of} {variable}")
                given.append(variable)
            else:
                taken.append(struct_type(of) + variable)
                given.append(struct + variable)
        lines += [inner(name, parameters), *function(name, answer, taken, "".join(", " + word for word in given))]
    return "\n".join(lines) + "\n"


def values(header, calls):
    head = """#include "guvrendik.h"
typedef struct { const void *at; size_t length; } slice;
/* A slice of nothing has a pointer that is not NULL, aligned as a struct is. */
#define SLICE(at, length) (&(slice){(length) > 0 ? (const void *)(at) : (const void *)8, (length)})"""
    for of in sorted({of for _, _, parameters in calls for kind, of, _, _ in parameters if kind == "struct"}):
        head += f'\n_Static_assert(sizeof({of}) == {size(header, of)} && _Alignof({of}) == {alignment(header, of)}, "{of}");'

    def function(name, answer, taken, given):
        yield f"{answer} guvrendik_{name}({', '.join(taken) or 'void'}) {{"
        yield f"    {answer} answer;\n    {INNER}{name}(&answer{given});\n    return answer;\n}}"

    return written(calls, head, function, "&", lambda of: of, "size_t", lambda of: of + " ")


def places(calls):
    head = """#include <stdint.h>
/* Of 8 bytes each: the pointer has the lower four of its own. */
typedef struct { const void *at; uint32_t none; uint64_t length; } slice;
#define SLICE(at, length) (&(slice){(length) > 0 ? (const void *)(at) : (const void *)8, 0, (length)})"""

    def function(name, answer, taken, given):
        yield f'__attribute__((export_name("guvrendik_{name}_at")))'
        yield f"void guvrendik_{name}_at({', '.join(['void *answer', *taken])}) {{\n    {INNER}{name}(answer{given});\n}}"

    return written(calls, head, function, "", lambda of: "const void *", "uint32_t", lambda of: "const void *")


def main(header, text, folder):
    header, text, folder = Path(header).read_text(), Path(text).read_text(), Path(folder)
    calls = list(declared(header))
    (folder / "module.ll").write_text(module(header, calls, text))
    (folder / "values.c").write_text(values(header, calls))
    (folder / "places.c").write_text(places(calls))


main(*sys.argv[1:])
