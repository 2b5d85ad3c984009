#!/usr/bin/env python3
"""The header for C and the source say the same: agree.py [--layout | --texts FILE]

    agree.py                every exported function and every struct of the source against include/lohitunga.h, field by
                            field; what is lent by pointer has no padding; the header's constants against
                            docs/REFUSALS.md and CHANGELOG.md; the calls that take bytes against lent.c
    agree.py --layout       prints the static assertions of layout.c: sizes and places of fields by #[repr(C)]'s rules
    agree.py --texts FILE   FILE has a line `number text` for each text of lohitunga_text: the words of docs/REFUSALS.md
"""
import re
import sys
from pathlib import Path

TOP = Path(__file__).resolve().parent.parent.parent.parent
HERE = Path(__file__).resolve().parent
WIDTHS = {"u8": 1, "u16": 2, "u32": 4, "u64": 8, "usize": 8, "i16": 2, "i32": 4}
IN_C = {"u8": "uint8_t", "u16": "uint16_t", "u32": "uint32_t", "u64": "uint64_t", "usize": "size_t", "i16": "int16_t",
        "i32": "int32_t"}


def read(name):
    return (TOP / name).read_text(encoding="utf-8")


def crates():
    """The crates of which the library is made: the Makefile's list."""
    return re.search(r"^CRATES = (.*)$", read("Makefile"), re.M).group(1).split()


def snake(name):
    return "lohitunga_" + re.sub(r"(?<!^)([A-Z])", r"_\1", name).lower()


def in_c(kind):
    """The C type of a field, a number or a result, and how many there are in an array."""
    if m := re.fullmatch(r"\[(\w+); (\d+)\]", kind):
        return IN_C[m.group(1)], int(m.group(2))
    return IN_C.get(kind) or snake(kind), None


def lent(kind):
    """The C types of an argument: a slice is lent as a pointer and a length."""
    if m := re.fullmatch(r"&(mut )?\[(\w+)\]", kind):
        return [("" if m.group(1) else "const ") + IN_C[m.group(2)] + " *", "size_t"]
    if m := re.fullmatch(r"&(mut )?(\w+)", kind):
        return [("" if m.group(1) else "const ") + snake(m.group(2)) + " *"]
    return [in_c(kind)[0]]


def source():
    """name -> fields (name, kind) in order, and name -> (kinds of arguments, kind of the result), as the source has them"""
    structs, functions = {}, {}
    for path in (p for crate in crates() for p in sorted((TOP / "crates" / crate / "src").rglob("*.rt"))):
        text = re.sub(r"//.*", "", path.read_text(encoding="utf-8"))
        for name, body in re.findall(r"#\[repr\(C\)\]\s*(?:#\[derive\(.*?\)\]\s*)?pub struct (\w+) \{(.*?\n)\}", text, re.S):
            structs[snake(name)] = re.findall(r"pub (\w+): (.*?),\n", body)
            assert len(structs[snake(name)]) == body.count(":"), f"a field of {name} is not understood"
        exported = r"#\[unsafe\(no_mangle\)\]\s*pub extern \"C\" fn (\w+)\((.*?)\) -> (\w+)\s"
        for name, words, result in re.findall(exported, text, re.S):
            kinds = re.findall(r"\w+:\s*(&?(?:mut )?(?:\[.*?\]|\w+))", words)
            functions[name] = (kinds, result)
    return structs, functions


def declared():
    """The same out of the header, in C's types."""
    text = re.sub(r"/\*.*?\*/", "", read("include/lohitunga.h"), flags=re.S)
    structs, functions = {}, {}
    for tag, body, name in re.findall(r"typedef struct (\w+) \{(.*?)\} (\w+);", text, re.S):
        assert tag == name, f"struct {tag} is called {name}"
        fields = re.findall(r"^\s*(\w+) (\w+)(?:\[(\d+)\])?;\s*$", body, re.M)
        assert len(fields) == body.count(";"), f"a field of {name} is not understood"
        structs[name] = [(field, kind, int(n) if n else None) for kind, field, n in fields]
    text = re.sub(r"typedef struct.*?\} \w+;", "", text, flags=re.S)
    for result, name, words in re.findall(r"^(\w+) (\w+)\((.*?)\);", text, re.M | re.S):
        words = [] if words == "void" else re.split(r",\s*", words)
        functions[name] = ([re.fullmatch(r"(.*?)\w+", w.strip(), re.S).group(1).rstrip(" ") for w in words], result)
    return structs, functions


def differences():
    structs, functions = source()
    c_structs, c_functions = declared()
    for name in sorted(structs.keys() | c_structs.keys()):
        ours = [(field, *in_c(kind)) for field, kind in structs.get(name, [])]
        if ours != c_structs.get(name):
            yield f"{name}: the source has {ours}, the header {c_structs.get(name)}"
    for name in sorted(functions.keys() | c_functions.keys()):
        kinds, result = functions.get(name, ([], None))
        ours = ([t for kind in kinds for t in lent(kind)], result and in_c(result)[0])
        if ours != c_functions.get(name):
            yield f"{name}: the source has {ours}, the header {c_functions.get(name)}"
    with_bytes = {name for name, (kinds, _) in functions.items() if any("[u8]" in kind for kind in kinds)}
    tried = set(re.findall(r"(lohitunga_\w+)\([^;]*\bNULL, 0", (HERE / "lent.c").read_text(encoding="utf-8")))
    for name in sorted(with_bytes - tried):
        yield f"{name} takes bytes, and lent.c lends it no null pointer"


def refusals():
    """number -> what it means, as docs/REFUSALS.md has it"""
    return {int(n): text for n, text in re.findall(r"^\| (\d+) \| (.*?) \| .*\|$", read("docs/REFUSALS.md"), re.M)}


def constants():
    header = read("include/lohitunga.h")
    numbers = sorted(int(n) for n in re.findall(r"^#define LOHITUNGA_REFUSED_\w+ (\d+)$", header, re.M))
    if numbers != sorted(refusals()):
        yield f"the header names the refusals {numbers}, docs/REFUSALS.md {sorted(refusals())}"
    version = re.search(r'^#define LOHITUNGA_VERSION "(.*)"$', header, re.M).group(1)
    newest = re.search(r"^## ([\d.]+)", read("CHANGELOG.md"), re.M).group(1)
    if version != newest:
        yield f"the header is of version {version}, CHANGELOG.md of {newest}"


def aligned(at, width):
    return -(-at // width) * width


def measure(structs, kind):
    """Size and alignment."""
    if m := re.fullmatch(r"\[(\w+); (\d+)\]", kind):
        return WIDTHS[m.group(1)] * int(m.group(2)), WIDTHS[m.group(1)]
    if kind in WIDTHS:
        return WIDTHS[kind], WIDTHS[kind]
    at, widest = 0, 1
    for _, of in structs[snake(kind)]:
        size, width = measure(structs, of)
        at, widest = aligned(at, width) + size, max(widest, width)
    return aligned(at, widest), widest


def padded():
    """What is lent by pointer is kept by the caller, who may compare it byte for byte."""
    structs, functions = source()
    lent_kinds = (re.fullmatch(r"&(?:mut )?(\w+)", kind) for words, _ in functions.values() for kind in words)
    kinds = {m.group(1) for m in lent_kinds if m}
    for kind in sorted(kinds):
        size, of_fields = measure(structs, kind)[0], sum(measure(structs, of)[0] for _, of in structs[snake(kind)])
        if size != of_fields:
            yield f"{snake(kind)} is lent, and has {size - of_fields} bytes of padding"


def layout():
    structs, _ = source()
    interface = re.search(r"^#define LOHITUNGA_INTERFACE (\d+)$", read("include/lohitunga.h"), re.M).group(1)
    yield f"IS(LOHITUNGA_INTERFACE, {interface});"
    for name in sorted(structs):
        at, widest = 0, 1
        places = []
        for field, kind in structs[name]:
            size, width = measure(structs, kind)
            at, widest = aligned(at, width), max(widest, width)
            places.append(f"FIELD({name}, {field}, {at}, {size});")
            at += size
        yield f"IS(sizeof({name}), {aligned(at, widest)});"
        yield from places


def texts(path):
    given = dict(line.split(" ", 1) for line in Path(path).read_text(encoding="utf-8").splitlines())
    given = {int(n): text for n, text in given.items()}
    return [f"lohitunga_text({n}) is {given.get(n)!r}, docs/REFUSALS.md has {refusals().get(n)!r}"
            for n in sorted(given.keys() | refusals().keys()) if given.get(n) != refusals().get(n)]


def main():
    if sys.argv[1:] == ["--layout"]:
        print("\n".join(layout()))
        return
    bad = texts(sys.argv[2]) if sys.argv[1:2] == ["--texts"] else [*differences(), *padded(), *constants()]
    if bad:
        sys.exit("header: " + "\nheader: ".join(bad))
    if not sys.argv[1:]:
        structs, functions = source()
        print(f"header: {len(structs)} structs and {len(functions)} functions are those of the source")


if __name__ == "__main__":
    main()
