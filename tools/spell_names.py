#!/usr/bin/env python3
"""Brings the repository's own definitions and lemmas to the spelling of today's Rattle: words in snake case.

usage: python3 tools/spell_names.py [--show]     at the top of the repository, once, after the kit's port.py

A name is turned where a file of specs/ or proofs/ declares it (a definition, a lemma, a field, a constructor, a local helper), where it begins with a small letter and holds a
capital in the middle of a word: `fixAll` is `fix_all`, `rising-placeAll` is `rising-place_all`. Names with a capital first (types, facts, gate kinds, sample circuits) stay.
A new name that stands in the repository already is refused, so that no two names fall together, unless it is a function's of src/: a definition may bear the name of the function
that it is the answer of, since clauses cannot call functions.
"""

import glob
import os
import re
import sys

DECLARED = re.compile(r"^\s*(?:(?:abbrev|unfoldable|pub)\s+)*([^\s:(){};,.=]+(?: [^\s:(){};,.=]+)*)\s+:\s")
HEADED = re.compile(r"^\s*(?:(?:abbrev|unfoldable|pub)\s+)*(?:record|data|ruleset)\s+([^\s:(){}]+)")
EDGE = r"[^\s(){}\[\];,.:&|<>\"`@⌜⌝λ]"
TOKEN = re.compile(EDGE + "+")
FUNCTION = re.compile(r"\bfn ([a-z_0-9]+)")
# the library's own word stands in a lemma's name
WORDS = {"getD": "get_or"}
# where the plain spelling is a lemma's already
APART = {
    "filledRow": "filled_of_row",
    "logsAt": "logged_at",
}
# names that an import or a parameter gives; and a definition whose name is a tactic's today
GIVEN = {
    "first_of": "first_such",
    "first_of-end": "first_such-end",
    "first_of-step": "first_such-step",
    "firstOf-end": "first_such-end",
    "firstOf-step": "first_such-step",
    "majorityOf": "majority_of",
    "parityOf": "parity_of",
    "badFrom": "bad_from",
    "entriesSmall": "entries_small",
    "fixedTo": "fixed_to",
    "gG": "g_in",
    "inputCount": "input_count",
    "inputStarts": "input_starts",
    "isFalse": "is_false",
    "oldFrom": "old_from",
    "oldRole": "old_role",
    "recordsOf": "records_of",
    "takeNames": "take_names",
    "visitEach": "visit_each",
    "visitStep": "visit_step",
}
# fields of records, and a test, that may bear the name of a field, a parameter or a local of src/; and a definition whose name a private lemma of another crate has
ALIKE = {"hasLinear", "inOrder", "inputBits", "listBits", "operandsOf", "usesNid"}


def texts(ending):
    return sorted(p for p in glob.glob("crates/*/**/*" + ending, recursive=True) if "/out/" not in p)


def read(path):
    with open(path, encoding="utf-8") as f:
        return f.read()


def snake(word):
    if word in WORDS:
        return WORDS[word]
    if not re.match(r"[a-z]", word) or not re.search(r"[a-z0-9][A-Z]", word):
        return word
    return re.sub(r"(?<=[a-z0-9])([A-Z])", lambda m: "_" + m.group(1).lower(), word)


def spelled(name):
    if name in APART:
        return APART[name]
    return "".join(snake(part) for part in re.split(r"([-→])", name))


def declared():
    names = set()
    for path in texts(".antt"):
        for line in read(path).split("\n"):
            bare = line.strip()
            if bare.startswith(("--", "let ", "use ", "module ", "(")):
                continue
            m = HEADED.match(line) or DECLARED.match(line)
            if m:
                names.update(m.group(1).split())
    return names


def turned(text, names):
    return TOKEN.sub(lambda m: names.get(m.group(0), m.group(0)), text)


def main():
    names = {n: spelled(n) for n in declared() - set(GIVEN) if spelled(n) != n}
    files = texts(".antt") + texts(".rt") + texts(".edit")
    standing = {t for path in files for t in TOKEN.findall(read(path))}
    functions = {f for path in texts(".rt") for f in FUNCTION.findall(read(path))}
    spoken = {t for path in texts(".antt") if "/specs/" in path for t in TOKEN.findall(read(path))}
    clashes = sorted(n for n, new in names.items() if n not in ALIKE and new in (spoken | (standing - functions)))
    twice = sorted(n for n in names if list(names.values()).count(names[n]) > 1)
    for n in clashes:
        print(f"stands already: {n} -> {names[n]}", file=sys.stderr)
    for n in twice:
        print(f"falls together: {n} -> {names[n]}", file=sys.stderr)
    if clashes or twice:
        return 1
    if "--show" in sys.argv[1:]:
        for n in sorted(names):
            print(n, names[n])
        return 0
    names.update(GIVEN)
    changed = 0
    for path in files:
        old = read(path)
        new = turned(old, names)
        if new != old:
            changed += 1
            with open(path, "w", encoding="utf-8") as f:
                f.write(new)
    print(f"{len(names)} names turned in {changed} files")
    return 0


if __name__ == "__main__":
    os.chdir(os.path.join(os.path.dirname(os.path.realpath(__file__)), ".."))
    sys.exit(main())
