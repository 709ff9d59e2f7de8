#!/usr/bin/env python3
"""Says where c/firuvaik.h and the exports of the crate firuvaik_c differ: a line for each place, and then the status 1.

Each export is declared with the C types of its parameters in their order, each struct has the C types of its fields, each flag has
its number, each status that has a text has a name, and nothing else is declared.
"""
import pathlib
import re
import sys

ROOT = pathlib.Path(__file__).resolve().parent.parent
NUMBERS = {"i64": "long", "u64": "unsigned long", "u32": "unsigned int", "usize": "size_t"}


def c_name(struct):
    """EventHeader is firuvaik_event_header."""
    return "firuvaik_" + re.sub(r"(?<!^)(?=[A-Z])", "_", struct).lower()


def c_types(name, kind):
    """The C types of what Rattle has at a parameter or a field."""
    kind = re.sub(r"'\w+\s*|<>", "", kind).replace("<_>", "").strip()
    kind = re.sub(r"<'_>|<\s*>", "", kind)
    if kind == "Global":
        return []
    if kind in NUMBERS:
        return [NUMBERS[kind]]
    if match := re.fullmatch(r"&(mut )?\[u8; \d+\]", kind):
        return ["char *" if match[1] else "const char *"]
    if kind == "&mut [u8]":
        return ["char *", "size_t"]
    if kind == "&[u8]":
        return ["const char *", "size_t"]
    if match := re.fullmatch(r"&(mut )?\[(\w+)\]", kind):
        return [("" if match[1] else "const ") + f"{c_name(match[2])} *", "size_t"]
    if match := re.fullmatch(r"&(mut )?(\w+)", kind):
        return [("" if match[1] else "const ") + f"{c_name(match[2])} *"]
    return [c_name(kind)]


def rattle_items():
    """The exports and the structs that C sees, as {name: types}."""
    exports, structs, flags = {}, {}, {}
    for path in sorted((ROOT / "crates/firuvaik_c/src").glob("*.rt")):
        source = path.read_text()
        for name, parameters in re.findall(r'extern "C" fn (\w+)\((.*?)\) -> Answer', source, re.S):
            pairs = re.findall(r"(\w+): ([^,]+(?:; \d+\])?),?", parameters)
            exports[name] = [kind for pair in pairs for kind in c_types(*pair)]
        for name, body in re.findall(r"#\[repr\(C\)\]\n(?:#\[[^\n]*\]\n)*pub struct (\w+)(?:<'a>)? \{\n(.*?)\n\}", source, re.S):
            fields = re.findall(r"pub (\w+): (.*),", body)
            structs[c_name(name)] = [kind for field in fields for kind in c_types(*field)]
        for name, number in re.findall(r"pub\(crate\) const (\w+): u32 = (\d+);", source):
            flags[name] = number
    return exports, structs, flags


def declared_type(text):
    """The type of a declaration of C, without its name, an unsigned char as a char."""
    text = re.sub(r"\bunsigned char\b", "char", text.strip())
    return re.sub(r"\s*\b\w+$", "", text).replace("* ", "*").strip() if not text.endswith("*") else text


def flat(types):
    """A text is a pointer and a length wherever it stands."""
    for kind in types:
        yield from ["const char *", "size_t"] if kind == "firuvaik_text" else [kind]


def header_items():
    source = re.sub(r"/\*.*?\*/", "", (ROOT / "c/firuvaik.h").read_text(), flags=re.S)
    exports = {
        name: list(flat(declared_type(part) for part in parameters.split(",")))
        for name, parameters in re.findall(r"firuvaik_answer (\w+)\((.*?)\);", source, re.S)
    }
    structs = {
        name: list(flat(declared_type(part) for part in body.split(";") if part.strip()))
        for name, body in re.findall(r"typedef struct (\w+) \{(.*?)\} \1;", source, re.S)
    }
    flags = dict(re.findall(r"#define FIRUVAIK_(\w+) (\d+)u", source))
    return exports, structs, flags


def statuses():
    """The numbers of the statuses that have a text, and of those that have a name."""
    source = (ROOT / "crates/firuvaik_c/src/status.rt").read_text()
    header = (ROOT / "c/firuvaik.h").read_text().split("/* The statuses.", 1)[1].split("\n\n", 1)[0]
    return set(re.findall(r'^        (\d+) => "', source, re.M)), set(re.findall(r"#define FIRUVAIK_\w+ (\d+)u", header))


def faults():
    here, there = rattle_items(), header_items()
    texts, names = statuses()
    for number in sorted(texts ^ names, key=int):
        yield f"status {number}: it has only a {'text' if number in texts else 'name'}"
    for kind, mine, other in zip(("call", "struct"), here, there):
        for name in sorted({*mine, *other}):
            if mine.get(name) != other.get(name):
                yield f"{kind} {name}: the crate has {mine.get(name)}, the header {other.get(name)}"
    for name, number in here[2].items():
        if there[2].get(name) != number:
            yield f"flag {name}: the crate has {number}, the header {there[2].get(name)}"


if __name__ == "__main__":
    found = list(faults())
    print("\n".join(found), end="\n" if found else "")
    sys.exit(1 if found else 0)
