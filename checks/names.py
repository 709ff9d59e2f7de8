#!/usr/bin/env python3
"""Says where one name means two definitions in specs/, or two public items of src/: a line for each name, and then the status 1.

Two definitions of one name pass where their texts are the same, as a sign's number in crates that share no other. Two items pass where
neither crate is below the other, so that no file meets both, and where TWICE says why. Tools aren't looked at for items.
"""
import collections
import pathlib
import re
import sys

# Items of one name that stand twice, and why.
TWICE = {
    "Header": "the SDK has one in its signing and one in its messages",
    "SigningParams": "the SDK has one for each way of signing",
    "Settings": "a record of the C header, and what programs sign with",
}
ROOT = pathlib.Path(__file__).resolve().parent.parent
HEAD = re.compile(r"^(\s*)(?:(?:unfoldable|abbrev|record|data)\s+(?:pub\s+)?|pub\s+(?:unfoldable|abbrev|record|data)\s+)([A-Za-z_]\w*)")
ITEM = re.compile(r"^pub (?:struct|enum|trait|type|const|static) ([A-Za-z_]\w*)")


def definitions(file):
    """Each definition of a file: its name, the line where it begins, and its text up to the next empty line."""
    lines = file.read_text().splitlines()
    for number, line in enumerate(lines, 1):
        head = HEAD.match(line)
        if head:
            rest = "\n".join(lines[number - 1 :]).split("\n\n", 1)[0]
            yield head.group(2), number, rest


def crates_below():
    """The crates below each crate."""
    below = {}
    for line in (ROOT / "crates.txt").read_text().splitlines():
        crate, _, named = line.partition(":")
        below[crate.split()[0]] = set(named.split())
    for crate in below:
        left = list(below[crate])
        while left:
            found = below.get(left.pop(), set()) - below[crate]
            below[crate] |= found
            left += found
    return below


def items():
    """The public items of each name: a crate and a place for each."""
    places = collections.defaultdict(list)
    for file in sorted(ROOT.glob("crates/*/src/**/*.rt")):
        place = file.relative_to(ROOT)
        if not place.parts[1].startswith("tool_"):
            for number, line in enumerate(file.read_text().splitlines(), 1):
                if item := ITEM.match(line):
                    places[item.group(1)].append((place.parts[1], f"{place}:{number}"))
    return places


def item_faults():
    below = crates_below()
    for name, found in sorted(items().items()):
        crates = [crate for crate, _ in found]
        meet = any(a == b or a in below[b] or b in below[a] for i, a in enumerate(crates) for b in crates[i + 1 :])
        if meet != (name in TWICE):
            yield f"{name} is {len(found)} public items: " + ", ".join(place for _, place in found)
    for name in sorted(TWICE.keys() - items().keys()):
        yield f"{name} is no public item"


def faults():
    places = collections.defaultdict(list)
    for file in sorted(ROOT.glob("crates/*/specs/**/*.antt")):
        if "declared" not in file.parts:
            for name, number, text in definitions(file):
                places[name].append((f"{file.relative_to(ROOT)}:{number}", text))
    for name, found in sorted(places.items()):
        if len({text for _, text in found}) > 1:
            yield f"{name} has {len(found)} meanings: " + ", ".join(place for place, _ in found)


found = [*faults(), *item_faults()]
print(*found, sep="\n", end="\n" if found else "")
sys.exit(1 if found else 0)
