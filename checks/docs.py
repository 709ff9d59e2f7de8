#!/usr/bin/env python3
"""Says where a page and the sources differ: a line for each place, and then the status 1.

docs/CALLING.md: each function that it shows, by the names that it imports, is so in crates/tool_uses/src.
crates/*/specs: each definition that clauses of public functions, or docs/CLAIMS.md, cite has a comment of its own, directly above
it, which no other definition has.
README.md: each file, and each name beside it, of the table of claims is in the crate's src.
README.md: its example is the source that it names, without the comments of its items.
The pages that speak of this repository alone: each word that is a name by its form is in the sources.
Every page: each link with its heading, and each path that begins with a folder of the repository, leads to something.
docs/CALLING.md: "Conditions" lists each public function that has a condition, and no other.
docs/CLAIMS.md: each name in round brackets is that of a clause, a definition or a part of one, or a function.
docs/FROM_THE_SDK.md: each name beside a crate here is one that this crate hands out.
docs/RULES.md: each definition, function, wrong body and case is where the page says.
The pages together have fewer than MOST_WORDS words, as `wc -w` counts them.
"""
import collections
import pathlib
import re
import sys

from definitions import ROOT, cited_names, conditional_names, exported_names, meanings

PAGES = [*ROOT.glob("*.md"), *ROOT.glob("docs/*"), *ROOT.glob("bench/*.md")]
# So many can be read in two hours; a man page is read by who uses its program, and the lists of calls and of rules are looked up.
MOST_WORDS = 25_000
LOOKED_UP = [ROOT / "docs/CALLS.md", ROOT / "docs/RULES.md"]
# What a copy shares with what it was made of: the same sentence holds for each.
COPIES = re.compile(r"IsSame\w+|Is\w+Copy|IsCopied")
# The pages whose names are this repository's; the others tell of the SDK for Rust, or of keys and variables that nothing reads.
OWN_PAGES = ["README.md", "CONTRIBUTING.md", "docs/ARCHITECTURE.md", "docs/CALLING.md", "docs/CLAIMS.md", "docs/DECISIONS.md"]
# Names of the toolchain's that docs/DECISIONS.md has, and that nothing here uses.
OF_THE_KIT = {"LendsIfOk", "RestsIfErr"}


# A line that imports: a crate, and its names in brackets or the one without.
IMPORT = re.compile(r"^use ([\w:]+)::(?:{([^}]*)}|(\w+));\n", re.M)


def imports(text):
    """The names that a text imports, each with its crate."""
    return {(crate, name) for crate, names, alone in IMPORT.findall(text) for name in re.findall(r"\w+", names) or [alone]}


def shown_functions(page):
    """The functions in the blocks of code of a page, one text each, with the names that its block imports."""
    for block in re.findall(r"```rust\n(.*?)```", page, re.S):
        for function in re.split(r"(?<=\n}\n)\n", IMPORT.sub("", block).lstrip("\n")):
            yield function, imports(block)


def calling_faults():
    sources = [path.read_text() for path in (ROOT / "crates/tool_uses/src").glob("*.rt")]
    for function, names in shown_functions((ROOT / "docs/CALLING.md").read_text()):
        if not any(function in source and names <= imports(source) for source in sources):
            yield f"docs/CALLING.md: crates/tool_uses has no such function by these names: {function.splitlines()[0]}"
        if not names or not all(re.search(rf"\b{name}\b", function) for _, name in names):
            yield f"docs/CALLING.md: doesn't import what it shows: {function.splitlines()[0]}"


def condition_faults():
    """Where the list of conditions lacks a public function that has one, or has another."""
    section = (ROOT / "docs/CALLING.md").read_text().split("\n## Conditions\n")[1].split("\n## ")[0]
    # Outside of brackets each name there is that of a function, but for `SegBuf`.
    listed = {text.rsplit("::", 1)[-1] for text in re.findall(r"`([\w:]+)`", re.sub(r"\([^)]*\)", "", section))} - {"SegBuf"}
    names = conditional_names()
    for name in sorted(names - listed):
        yield f"docs/CALLING.md: Conditions lacks {name}"
    for name in sorted(listed - names):
        yield f"docs/CALLING.md: Conditions has {name}, which has none"


def rows_of(page, title):
    """The rows of a page's tables, without their heads."""
    return [row for row in page.splitlines() if row.startswith("| ") and not row.startswith(f"| {title} |")]


def cited_meanings():
    """The meaning of each definition that is cited, as {(file, name): meaning}."""
    claimed = set(re.findall(r"`(\w*[A-Z_]\w*)`", (ROOT / "docs/CLAIMS.md").read_text()))
    cited = cited_names()
    for place, meaning in meanings().items():
        crate, subject, name = place
        if (place in cited or name in claimed):
            yield (f"crates/{crate}/specs/{subject}.antt", name), meaning


def meaning_faults():
    """Where a definition has no comment of its own: none at all, or another one's."""
    sharing = collections.defaultdict(list)
    for (file, name), meaning in cited_meanings():
        if not meaning:
            yield f"{file}: {name}, which is cited, has no comment of its own"
        elif not COPIES.fullmatch(name):
            sharing[meaning].append(f"{name} of {file}")
    for meaning, places in sharing.items():
        if len(places) > 1:
            yield f"one comment is that of several names: {', '.join(places)}: {meaning}"


def cited_places(cell):
    """Each name of a cell of the map with the file or the crate that was named before it, as (place, name)."""
    place = None
    for text, colon in re.findall(r"`([^`]+)`(:?)", cell):
        if colon:
            place = text
        else:
            yield place, text


def map_faults():
    """Where the map of rules cites what isn't there: a definition, a function, a wrong body or a case."""
    table = (ROOT / "docs/RULES.md").read_text()
    known = {(f"{crate}/specs/{subject}.antt", name) for crate, subject, name in meanings()}
    for row in rows_of(table, "rule"):
        cells = row.strip("| ").split(" | ")
        if len(cells) != 5:
            yield f"docs/RULES.md: a row of the map has {len(cells)} columns and not 5: {cells[0]}"
            continue
        rule, definitions, code, wrong_bodies, cases = cells
        stands = [
            (definitions, lambda file, name: (file, name) in known),
            (code, lambda file, name: file_has(file, rf"\bfn {re.escape(name)}\b")),
            (wrong_bodies, lambda crate, name: (ROOT / f"crates/{crate}/must-fail/{name}.edit").is_file()),
            (cases, has_case),
        ]
        for cell, is_there in stands:
            places = list(cited_places(cell))
            if not places and (cell is not wrong_bodies or cell != "none"):
                yield f"docs/RULES.md: {rule}: a column cites nothing: {cell}"
            for place, name in places:
                if not place or not is_there(place, name):
                    yield f"docs/RULES.md: {rule}: {place} has no {name}"


def has_case(file, text):
    """Whether a case holds a text: a line with tabs, or one of a program's stored input."""
    tabs = r"(?=.*\t)" if file.startswith("tool_") else ""
    return file_has(file, rf"(?m)^{tabs}.*{re.escape(text)}")


def claim_faults():
    """Where the page of claims cites a name that isn't there."""
    sources = "\n".join(path.read_text() for path in (ROOT / "crates").glob("*/src/**/*.rt"))
    specs = "\n".join(path.read_text() for path in (ROOT / "crates").glob("*/specs/*.antt"))
    known = {name for _, _, name in meanings()} | set(re.findall(r"(?m)^ +pub (\w+) :", specs))
    known |= set(re.findall(r"\b(?:ensures|requires|ghost|fn) (\w+)", sources)) | set(re.findall(r"(?m)^ +(\w+)[,({]", sources))
    for listed in re.findall(r"\(((?:(?:, | and |; )?`[\w:]+`)+)\)", (ROOT / "docs/CLAIMS.md").read_text()):
        for name in re.findall(r"(\w+)`", listed):
            if name not in known | {"requires"}:
                yield f"docs/CLAIMS.md: there is no clause, definition or function {name}"


def name_faults():
    """Where a page has a word that is a name by its form, with an underscore or a capital behind a small letter, and that no
    source and no file's name has."""
    folders = [ROOT / folder for folder in (".ci", "checks", "campaigns", "bench")]
    folders += [path for path in (ROOT / "crates").glob("*/*") if path.name != "out"]
    known = set(OF_THE_KIT) | {folder.parent.name for folder in folders}
    for path in [*folders, *(path for folder in folders for path in folder.rglob("*"))]:
        known |= set(re.findall(r"\w+", path.name))
        if path.is_file():
            known |= set(re.findall(r"\w+", path.read_text(errors="replace")))
    for page in OWN_PAGES:
        for code in re.findall(r"`([^`\n]+)`", (ROOT / page).read_text().replace("```", "")):
            for name in re.findall(r"(?<![\w])[A-Za-z]\w*", code):
                if re.search(r"_|[a-z][A-Z]", name) and name not in known:
                    yield f"{page}: nothing is called {name}"


def sdk_faults():
    """Where the page on the SDK tells of a crate here a name that it doesn't hand out."""
    page = (ROOT / "docs/FROM_THE_SDK.md").read_text()
    crates = {folder.name for folder in (ROOT / "crates").iterdir()}
    for crate, names in re.findall(r"`(\w+)::\{([^}`]*)\}`", page):
        if crate in crates:
            for name in sorted(set(names.split(", ")) - exported_names(crate)):
                yield f"docs/FROM_THE_SDK.md: {crate} hands out no {name}"


def readme_faults():
    """Where the table of claims cites a file or a name that the crate's sources don't have."""
    for row in rows_of((ROOT / "README.md").read_text(), "crate"):
        crates, _, cited = row.strip("| ").split(" | ")
        folders = [ROOT / "crates" / crate / "src" for crate in re.findall(r"`(\w+)`", crates)]
        files = {path.name: path.read_text() for folder in folders for path in folder.glob("**/*.rt")}
        for name in re.findall(r"`([\w.]+)`", cited):
            if name not in files and not any(re.search(rf"\b{re.escape(name)}\b", text) for text in files.values()):
                yield f"README.md: {crates} has no {name}"


def example_faults():
    """Where the example of README.md isn't the source that it names, without the comments of its items."""
    page = (ROOT / "README.md").read_text()
    file, shown = re.search(r"`(crates/tool_uses/src/\w+\.rt)`, which the gate proves and runs:\n\n((?: {4}.*\n|\n)+)", page).groups()
    source = [line for line in (ROOT / file).read_text().split("\n") if not line.startswith("//")]
    if "\n".join(source).strip() != re.sub(r"^ {4}", "", shown, flags=re.M).strip():
        yield f"README.md: its example isn't {file}"


def headings(page):
    """The anchors of a page's headings."""
    for heading in re.findall(r"(?m)^#+ (.*)$", page.read_text()):
        yield re.sub(r"[^\w -]", "", heading.lower()).replace(" ", "-")


def path_faults():
    """Where a page names a path that leads nowhere."""
    for page in PAGES:
        text = page.read_text()
        for link, heading in re.findall(r"\]\(([^)#:]*)(?:#([^)]*))?\)", text):
            target = page.parent / link if link else page
            if not target.exists() or heading and heading not in headings(target):
                yield f"{page.relative_to(ROOT)}: the link {link}#{heading} leads nowhere"
        for path in re.findall(r"`((?:crates|docs|checks|bench|completions)/[\w./]+\w)`", text):
            if not (ROOT / path).exists() and not path.startswith("crates/NAME") and "/out/" not in path:
                yield f"{page.relative_to(ROOT)}: there is no {path}"
        for crate, names in re.findall(r"`(\w+)/specs/\{?([\w,]+)\}?\.antt`", text):
            for name in names.split(","):
                if not (ROOT / f"crates/{crate}/specs/{name}.antt").is_file():
                    yield f"{page.relative_to(ROOT)}: there is no {crate}/specs/{name}.antt"


def length_faults():
    """Where the pages are too long to be read."""
    words = sum(len(page.read_text().split()) for page in PAGES if page.suffix == ".md" and page not in LOOKED_UP)
    if words >= MOST_WORDS:
        yield f"the pages have {words} words, and may have fewer than {MOST_WORDS}"


def file_has(file, pattern):
    """Whether a file below crates/ is there and holds a text of this pattern."""
    path = ROOT / "crates" / file
    return path.is_file() and bool(re.search(pattern, path.read_text()))


faults = [
    *calling_faults(),
    *condition_faults(),
    *meaning_faults(),
    *map_faults(),
    *claim_faults(),
    *name_faults(),
    *sdk_faults(),
    *readme_faults(),
    *example_faults(),
    *path_faults(),
    *length_faults(),
]
print(*faults, sep="\n", end="\n" if faults else "")
sys.exit(1 if faults else 0)
