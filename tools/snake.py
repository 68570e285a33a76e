#!/usr/bin/env python3
"""Spells the repository's own definitions and lemmas as today's Rattle does: words in snake case, types and modules in camel case.

usage: python3 tools/snake.py          at the top of the repository, once, after the kit's port.py
       python3 tools/snake.py --list   prints 'OLD NEW' for each name, and writes nothing

A name is one that a file of specs/ or proofs/ declares, binds by `let` or brings in by `as`, and that has a dash or a capital within.
A file that imports the same word from a library keeps it, and so do names that Rattle makes: goals, the records of a function's steps,
and what stands behind `c.` in an answer. Functions of src/, exported names, strings, inputs and outputs are not touched.
A lemma whose name would become that of a definition ends in `_lem`.
"""
import collections
import os
import re
import sys

WORD = re.compile(r"[^\W\d][\w'\u2032]*(?:-[\w'\u2032]+)*")
NAME = r"([^\W\d][\w'\u2032]*(?:-[\w'\u2032]+)*)"
DECLARED = re.compile(r"^\s*(?:(?:abbrev|unfoldable|pattern|pub|axiom)\s+)*" + NAME + r"\s*(?:\{[^}]*\}\s*)?:\s")
LET = re.compile(r"\blet\s+" + NAME + r"\s*(?::|=)")
BOUND = re.compile(r"[({]((?:" + NAME[1:-1] + r"\s+)*" + NAME[1:-1] + r")\s+:\s")
ALIAS = re.compile(r"\bas\s+" + NAME)
IMPORT = re.compile(r"^\s*(?:pub\s+)?(?:ghost\s+)?use\s+([^\s{]+?)\.?\{([^}]*)\}", re.M)
# Lemmas whose names would fall together with those of the definitions that they are about, and a definition that is there as long as
# they have the old name: a second run finds nothing to do.
LEMMAS = {
    "all_digits": ("all_digits_lem", "allDigits"),
    "entry-at": ("entry_at_lem", "entry-at"),
    "is-reset": ("is_reset_lem", "isReset"),
    "line-if": ("line_if_lem", "lineIf"),
    "read_told": ("read_told_lem", "readTold"),
    "segment-told": ("segment_told_lem", "segmentTold"),
    "to-go": ("to_go_lem", "toGo"),
    "write-told": ("write_told_lem", "writeTold"),
}
MADE = re.compile(r"(?:\b(?:c|w|tie|goal|lts|args|requires|ensures|before|after)\.)$")


def snake(name):
    """Spells a name in snake case: `lowBits` and `low-bits` become `low_bits`, and a prime an apostrophe."""
    name = name.replace("\u2032", "'").replace("-", "_")
    return re.sub(r"(?<=[a-z0-9])([A-Z])", lambda m: "_" + m[1].lower(), name)


def is_odd(name):
    return name[0].islower() and (("-" in name) or "\u2032" in name or bool(re.search(r"[a-z0-9][A-Z]", name)))


def files(root, endings):
    for at, folders, names in os.walk(os.path.join(root, "crates")):
        folders[:] = sorted(f for f in folders if f not in ("out", "must-fail"))
        for name in sorted(names):
            if name.endswith(endings):
                yield os.path.join(at, name)


def read(path):
    with open(path, encoding="utf-8") as it:
        return it.read()


def imports(text, own):
    """The words that a file imports from the kit's libraries."""
    found = set()
    for path, words in IMPORT.findall(text):
        parts = path.split(".")
        if not (parts[0] == "Rattle" and len(parts) > 1 and parts[1] in own):
            for word in words.split(","):
                found.add(word.split(" as ")[0].strip())
    return found


def declared(root):
    found = collections.defaultdict(set)
    for path in files(root, (".antt",)):
        is_lemmas = os.path.basename(os.path.dirname(path)) in ("proofs", "specs")
        if not is_lemmas and os.path.basename(path) in ("Proof.antt", "Answers.antt", "Invariants.antt"):
            text = read(path)
            for name in ALIAS.findall(text):
                found[name].add(path)
            continue
        text = "\n".join(re.sub(r"(^|\s)--.*", "", line) for line in read(path).split("\n"))
        for line in text.split("\n"):
            names = DECLARED.findall(line) + LET.findall(line) + ALIAS.findall(line)
            for many in BOUND.findall(line):
                names += many.split()
            for name in names:
                found[name].add(path)
    return found


def main(argv):
    root = os.getcwd()
    own = set(os.listdir(os.path.join(root, "crates")))
    names = declared(root)
    turned = {name: snake(name) for name in names if is_odd(name)}
    lemmas = {old: new for old, (new, definition) in LEMMAS.items() if definition in names}
    turned |= lemmas
    clash = collections.defaultdict(list)
    for name in names:
        clash[turned.get(name, name)].append(name)
    together = {new: old for new, old in clash.items() if len(old) > 1}
    if "--list" in argv:
        for old, new in sorted(turned.items()):
            print(old, new)
        for new, old in sorted(together.items()):
            print("together:", new, *(f"{o} ({', '.join(sorted({os.path.relpath(p, root) for p in names[o]}))})" for o in old))
        return 0
    for path in files(root, (".antt", ".rt")):
        text = read(path)
        kept = imports(text, own)
        is_source = path.endswith(".rt")

        def turn(match):
            word = match[0]
            new = turned.get(word)
            if new is None or word in kept or (is_source and ("-" in word or word in lemmas)):
                return word
            if MADE.search(text[max(0, match.start() - 12) : match.start()]):
                return word
            return new

        done = WORD.sub(turn, text)
        if done != text:
            with open(path, "w", encoding="utf-8") as it:
                it.write(done)
    return 0


if __name__ == "__main__":
    raise SystemExit(main(sys.argv[1:]))
