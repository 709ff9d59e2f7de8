#!/usr/bin/env python3
"""Makes docs/CALLS.md, the public calls of each library, from the sources: `checks/calls.py --write`. Without that word it says
whether the page is as it would be made now, and ends with the status 1 where it isn't.

A call is a line: its type, its name, its parameters and its answer as the source has them, without contract, bounds and paths, and
the first sentence of its doc comment. A type has its own line above its calls."""
import re
import sys

from definitions import BLOCK, EXPORT, FUNCTION, ROOT, exported_names, is_public, signature, without_parameters

PAGE = ROOT / "docs/CALLS.md"
HEAD = """# Calls

The public types and calls of each library: what it hands out, with the first sentence that the source says of it. What a call promises stands at it, as clauses, and [CLAIMS.md](CLAIMS.md) has it in words; [CALLING.md](CALLING.md) shows which call is for what. This page is made from the sources by `checks/calls.py --write`.
"""
TYPE = re.compile(r"pub (struct|enum|trait|type|const) (\w+)")
# What a signature has for the prover, or for the compiler alone.
UNSAID = re.compile(r"#\[[^\]]*\]\s*|\bunsafe |\bpub |\bextern \"C\" |(?:crate|std|core|alloc|self)::(?:\w+::)*")


def libraries():
    """The libraries of the product, in the order of crates.txt."""
    for line in (ROOT / "crates.txt").read_text().splitlines():
        name = line.split(":")[0].split()[0]
        if not name.startswith("tool_") and (ROOT / f"crates/{name}/src/lib.rt").is_file():
            yield name


def first_sentence(lines, number):
    """The first sentence of the doc comment above a line."""
    above = []
    while number > 0 and re.match(r"\s*(///|#\[)", lines[number - 1]):
        number -= 1
        above.insert(0, lines[number].strip())
    said = []
    for line in above:
        if line.startswith("///"):
            text = line.removeprefix("///").strip()
            if not text or text.startswith(("#", "```")):
                break
            said.append(text)
    text = re.sub(r"\[(`[^`]*`)\](?:\([^)]*\))?", r"\1", " ".join(said))
    found = re.match(r".*?[.:](?= |$)", text)
    return (found.group(0) if found else text).rstrip(".:")


def call_text(lines, number):
    """A function's parameters and answer on one line."""
    text = re.sub(r"\n\s*//.*", "", signature(lines, number))
    text = re.split(r"\n\s*(?:ensures|requires|ghost|where)\b|\s*\{\s*\}?\s*$|;\s*$", text)[0]
    text = UNSAID.sub("", " ".join(text.split()))
    text = re.sub(r"^fn |const fn ", "", re.sub(r",? \)", ")", re.sub(r"\( ", "(", text)))
    # The type parameters of the call itself say nothing without their bounds.
    return re.sub(r"^(\w+)<(?:[^<>]|<[^<>]*>)*>\(", r"\1(", text)


def items(file, exported):
    """The public types and calls of a file, as (owner or None, text, sentence)."""
    lines = file.read_text().splitlines()
    owner = kind = None
    for number, line in enumerate(lines):
        block = BLOCK.match(line)
        if block:
            kind, words = block.group(1), without_parameters(block.group(2))
            owner = None if " for " in words else next(iter(re.findall(r"[A-Za-z_]\w*", words)), None)
        elif line == "}":
            owner = kind = None
        named = TYPE.match(line)
        if named and named.group(2) in exported:
            yield named.group(2), None, first_sentence(lines, number)
        function = FUNCTION.match(line)
        if function and is_public(function, owner, kind, exported):
            yield owner if function.group(1) else None, call_text(lines, number), first_sentence(lines, number)


def page_of(crate):
    """The section of a crate."""
    folder, exported = ROOT / "crates" / crate / "src", exported_names(crate)
    types, calls = {}, {}
    for file in sorted(folder.glob("**/*.rt")):
        for owner, text, sentence in items(file, exported):
            if owner and not text:
                types[owner] = sentence
            else:
                calls.setdefault(owner, []).append((text, sentence))
    text = (folder / "lib.rt").read_text()
    said = re.match(r"//! (.*?)(?:\n//!\n|\n(?!//!))", text, re.S).group(1).replace("\n//! ", " ")
    yield f"\n## {crate}\n\n{said}\n\n"
    for name in sorted({*types, *filter(None, calls)}):
        yield f"- **`{name}`**{': ' + types[name] if types.get(name) else ''}\n"
        for call, sentence in calls.get(name, []):
            yield f"  - `{call}`{': ' + sentence if sentence else ''}\n"
    for call, sentence in sorted(calls.get(None, [])):
        yield f"- `{call}`{': ' + sentence if sentence else ''}\n"


def main():
    made = HEAD + "".join(text for crate in libraries() for text in page_of(crate))
    if sys.argv[1:] == ["--write"]:
        PAGE.write_text(made)
    elif not PAGE.is_file() or PAGE.read_text() != made:
        print("docs/CALLS.md isn't what checks/calls.py --write makes of the sources")
        sys.exit(1)


main()
