"""Reads the definitions of `crates/*/specs`, their meanings, and which of them the public contracts cite."""
import pathlib
import re

ROOT = pathlib.Path(__file__).resolve().parent.parent
# The crates that run cases, time the work or show calls: nothing rests on their contracts.
TOOLS = {"tool_bench", "tool_case_lines", "tool_check_cases", "tool_client_cases", "tool_frame_cases", "tool_signing_cases", "tool_stream_cases", "tool_uses"}
HEAD = re.compile(r" *(?:(?:abbrev|unfoldable) pub|pub (?:record|data)) (\S+)")
CONSTRUCTOR = re.compile(r"  (?:pub )?(\w+) : ")
IMPORT = re.compile(r"ghost use Rattle\.(\w+)\.specs\.(\w+)\.\{([^}]*)\};")
EXPORT = re.compile(r"^pub use crate::([\w:]+)(?:::\{([^}]*)\})?;", re.M)
FUNCTION = re.compile(r"( *)(pub )?(?:unsafe |const )*fn (\w+)")
BLOCK = re.compile(r"(?:pub )?(impl|trait)\b(.*)")
CLAUSE = re.compile(r"\b(?:ensures|requires)\b")
NAME = re.compile(r"[A-Za-z_]\w*")


def comment_above(lines, number):
    """The comment directly above a line, in one text: the definition's own. A heading and the file's first line
    aren't."""
    found = []
    while number > 1 and re.match(r" *-- (?!#)", lines[number - 1]):
        number -= 1
        found.insert(0, lines[number].strip().removeprefix("-- "))
    return " ".join(found)


def meanings():
    """Each public definition and constructor as (crate, file, name), in the order of the files, with its own comment."""
    found = {}
    for file in sorted(ROOT.glob("crates/*/specs/*.antt")):
        crate, subject, inside = file.parts[-3], file.stem, False
        lines = file.read_text().splitlines()
        for number, line in enumerate(lines):
            head = HEAD.match(line)
            part = inside and CONSTRUCTOR.match(line)
            if head or part:
                found[crate, subject, (head or part).group(1)] = comment_above(lines, number)
            inside = line.startswith("pub data ") or inside and line.startswith(" ")
    return found


def exported_names(crate):
    """The names that a crate's `lib.rt` hands out, its public modules, and the names of these."""
    source = ROOT / "crates" / crate / "src"
    names, waiting, seen = set(), [(source / "lib.rt", source)], set()
    while waiting:
        file, folder = waiting.pop()
        if file in seen or not file.is_file():
            continue
        seen.add(file)
        text = file.read_text()
        for path, listed in EXPORT.findall(text):
            names.update(NAME.findall(listed) if listed else [path.rsplit("::", 1)[-1]])
        names.update(re.findall(r"^pub (?:fn|struct|enum|trait) (\w+)", text, re.M))
        for module in re.findall(r"^pub mod (\w+);", text, re.M):
            names.add(module)
            waiting += [(folder / f"{module}.rt", folder / module), (folder / module / "mod.rt", folder / module)]
    return names


def signature(lines, number):
    """A function's lines up to its body."""
    for end in range(number, len(lines)):
        if re.match(r" *\{", lines[end]) or lines[end].rstrip().endswith((";", "{", "{}")):
            return "\n".join(lines[number : end + 1])
    return ""


def is_public(function, owner, kind, exported):
    """Whether a function is one that its crate hands out, or a call on a type or of a trait that it hands out."""
    indent, public, name = function.groups()
    return owner in exported and bool(public or kind == "trait") if indent else bool(public) and name in exported


def without_parameters(text):
    """The text without what is between angle brackets, up to three deep."""
    for _ in range(3):
        text = re.sub(r"<[^<>]*>", "", text)
    return text


def public_functions(file, exported):
    """The public functions of a file, each with its lines up to its body. Those of `impl Trait for Type` are the trait's own."""
    lines = file.read_text().splitlines()
    owner = kind = None
    for number, line in enumerate(lines):
        block = BLOCK.match(line)
        if block:
            kind, words = block.group(1), without_parameters(block.group(2))
            owner = None if " for " in words else next(iter(NAME.findall(words)), None)
        elif line == "}":
            owner = kind = None
        function = FUNCTION.match(line)
        if function and is_public(function, owner, kind, exported):
            yield function.group(3), signature(lines, number)


def public_clauses(file, exported):
    """The clauses of the public functions of a file."""
    for _, text in public_functions(file, exported):
        clauses = CLAUSE.search(text)
        if clauses:
            yield text[clauses.start() :]


def library_files():
    """Each source of the libraries and the programs but the tools', with the names that its crate hands out."""
    for folder in sorted((ROOT / "crates").iterdir()):
        if folder.name not in TOOLS:
            exported = exported_names(folder.name)
            for file in sorted(folder.glob("src/**/*.rt")):
                yield file, exported


def conditional_names():
    """The public functions that have a condition."""
    return {name for file, exported in library_files() for name, text in public_functions(file, exported) if re.search(r"\brequires\b", text)}


def cited_names():
    """The definitions, as (crate, file, name), that clauses of public functions of the libraries and the program cite."""
    found = set()
    for file, exported in library_files():
        here = {}
        for crate, subject, names in IMPORT.findall(file.read_text()):
            for name in filter(None, (text.strip() for text in names.split(","))):
                here[name.rsplit(" as ", 1)[-1]] = (crate, subject, name.split(" as ")[0])
        for clauses in public_clauses(file, exported):
            found |= {here[name] for name in NAME.findall(clauses) if name in here}
    return found
