#!/usr/bin/env python3
"""Says which lemmas of proofs/ nothing uses, and which are stated twice: a line for each, and then the status 1.

Two lemmas of one statement, up to the names of what they are of, pass where neither crate is below the other: there is no lower crate
that both could take them from but one that has no need of them.
"""
import collections
import pathlib
import re
import sys

ROOT = pathlib.Path(__file__).resolve().parent.parent
HEAD = re.compile(r"^( {0,2})(?:abbrev )?(?:pub )?(?:abbrev )?(?:record )?([^\s:=(.]+) (?:: |[({])")
BOUND = re.compile(r"[({]((?:[^\s(){}:]+ )+): ")
WORD = re.compile(r"[^\s(){},;λ=\[\]|:`\"]+")
# What begins a line and isn't a name, and the files whose names are the prover's own.
OTHERS = {"abbrev", "absurd", "ap", "elim", "in", "inl", "inr", "let", "module", "omega", "pub", "record", "rw", "subst", "sym", "use", "where"}
GIVEN = {"Answers.antt", "Invariants.antt", "Lib.antt"}
# A statement of fewer characters says too little to be looked for.
SHORTEST = 26


def below():
    """The crates below each crate, itself among them."""
    found = {}
    for line in (ROOT / "crates.txt").read_text().splitlines():
        crate, _, named = line.partition(":")
        found[crate.split()[0]] = {crate.split()[0], *named.split()}
    while any(more := {crate: {deep for it in found[crate] for deep in found.get(it, ())} - found[crate] for crate in found}.values()):
        for crate, others in zip([*found], [*more]):
            found[crate] |= others
    return found


def statement(lines, number):
    """What the lemma that begins on a line states, with the names of what it is of by their order."""
    text = lines[number].split(" : ", 1)[-1]
    for line in lines[number + 1 :]:
        if not line.startswith("    "):
            break
        text += " " + line.strip()
    text, order = re.sub(r"\s+", " ", text), {}
    for name in (name for it in BOUND.finditer(text) for name in it[1].split()):
        order.setdefault(name, f"v{len(order)}")
    return re.sub(r"[^\s(){}.,;λ=\[\]|]+", lambda it: order.get(it[0], it[0]), text)


def texts():
    for file in sorted(ROOT.glob("crates/*/*/**/*")):
        if file.suffix in (".antt", ".rt", ".edit"):
            yield file, file.read_text()


def words(text):
    return collections.Counter(part for word in WORD.findall(text) for part in word.split("."))


def faults():
    every, own, stated, crates = collections.Counter(), {}, collections.defaultdict(list), below()
    for file, text in texts():
        own[file] = words(text)
        every.update(own[file])
    for file, text in texts():
        place, lines = file.relative_to(ROOT), text.splitlines()
        if place.parts[2] != "proofs" or file.name in GIVEN:
            continue
        for number, line in enumerate(lines):
            head = HEAD.match(line)
            if not head or head[2] in OTHERS:
                continue
            indent, name = head[1], head[2]
            begins = re.compile(re.escape(indent) + r"(?:abbrev )?(?:pub )?(?:abbrev )?(?:record )?" + re.escape(name) + r"(?= |$)")
            if own[file][name] <= sum(1 for it in lines if begins.match(it)) and every[name] == own[file][name]:
                yield f"{place}:{number + 1}: nothing uses {name}"
            if not indent and line.startswith((f"{name} : ", f"pub {name} : ")):
                told = statement(lines, number)
                if len(told) >= SHORTEST and not told.startswith("goal."):
                    stated[told].append((place.parts[1], f"{place}:{number + 1}"))
    for found in stated.values():
        meet = [(a, b) for at, a in enumerate(found) for b in found[at + 1 :] if a[0] in crates[b[0]] or b[0] in crates[a[0]]]
        for (_, one), (_, other) in meet:
            yield f"{one} and {other} state the same"


if __name__ == "__main__":
    found = sorted(set(faults()))
    print(*found, sep="\n", end="\n" if found else "")
    sys.exit(1 if found else 0)
