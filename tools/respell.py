#!/usr/bin/env python3
"""Brings the definitions and lemmas of specs/ and proofs/ to one spelling: words in snake case, types in camel case.

usage: tools/respell.py [--dry]      at the top of the repository

It renames what the .antt files of crates/ declare (definitions, lemmas, constructors, fields), there, in the clauses of the
.rt files and in the pages of docs/, and then what a file alone calls so (imports by another name, parameters in proofs).
Functions of src/, strings and files keep their names. Where a name would fall together
with another, a lemma gets `_lem` behind it and a definition `the_` before it; if that doesn't part them, the run stops.
"""
import os
import re
import sys

WORD = r"[A-Za-z][A-Za-z0-9_'′-]*"
TOP = re.compile(rf"^(?:abbrev |unfoldable |opaque )?(?:pub )?(?:data |record )?({WORD})(?= [:({{])")
MEMBER = re.compile(rf"^\s+(?:abbrev |unfoldable )?(?:pub )?(?:data |record )?({WORD}) :(?= )")
TOKEN = re.compile(rf'"(?:[^"\\]|\\.)*"|{WORD}')


def files(ends, under="crates"):
    for folder, dirs, names in os.walk(under):
        dirs[:] = sorted(d for d in dirs if d != "out")
        for name in sorted(names):
            if name.endswith(ends):
                yield os.path.join(folder, name)


CAMEL = re.compile(r"[a-z][a-z0-9]*[A-Z]\w*$")
# where the rule below would make no word
CHOSEN = {"goesOn": "is_going_on"}


def spelled(name):
    if name in CHOSEN:
        return CHOSEN[name]
    if name[0].isupper():
        if "-" not in name:
            return name
        return "".join(p[:1].upper() + p[1:] for p in name.split("-"))
    name = re.sub(r"(?<=[a-z0-9])([A-Z])", lambda m: "_" + m[1].lower(), name)
    return name.replace("-", "_")


def declared(path):
    with open(path, encoding="utf-8") as f:
        for line in f:
            if line.lstrip().startswith(("--", "use ")):
                continue
            for form in (TOP, MEMBER):
                if m := form.match(line):
                    yield m[1]


def is_ours(path):
    parts = path.split(os.sep)
    return parts[2] == "specs" or (parts[2] == "proofs" and parts[-1] not in ("Answers.antt", "Invariants.antt", "Proof.antt", "Choices.antt"))


def main():
    names, seen = set(), set()
    for path in files(".antt"):
        if is_ours(path):
            names |= set(declared(path))
    seen |= names
    # what the library gives, by name, and what parameters and locals of the code are called: those would hide ours
    for path in files((".antt", ".rt")):
        with open(path, encoding="utf-8") as f:
            text = f.read()
        for given in re.findall(r"use Rattle\.std\.[^{;]*\{([^}]*)\}", text):
            seen |= {re.split(r" as ", g.strip())[-1] for g in given.split(",")}
        if path.endswith(".rt"):
            seen |= set(re.findall(r"\b([a-z_][a-z0-9_]*): ", text)) | set(re.findall(r"\blet (?:mut )?([a-z_][a-z0-9_]*)", text))
    turn, made, bad = {}, {}, 0
    # definitions first: they keep the plain name
    for old in sorted((n for n in names if spelled(n) != n), key=lambda n: ("-" in n, n)):
        new = spelled(old)
        if new in seen or new in made:
            why = f"with {made[new]}" if new in made else "stands already"
            new = ("The" + new) if new[0].isupper() else (new + "_lem") if "-" in old else ("the_" + new)
            print(f"falls together: {old} -> {new} ({why})")
            if new in seen or new in made:
                print(f"  and {new} too")
                bad += 1
        turn[old] = new
        made[new] = old
    print(f"{len(turn)} names")
    if "--dry" in sys.argv:
        for old, new in sorted(turn.items()):
            print(f"  {old} -> {new}")
        return 1 if bad else 0
    if bad:
        return 1
    for path in list(files((".antt", ".rt"))) + list(files((".md",), "docs")):
        with open(path, encoding="utf-8") as f:
            text = f.read()
        new = TOKEN.sub(lambda m: turn.get(m[0], m[0]), text)
        if not path.endswith(".md"):
            own = {t: spelled(t) for t in TOKEN.findall(new) if CAMEL.match(t)}
            new = TOKEN.sub(lambda m: own.get(m[0], m[0]), new)
        if new != text:
            with open(path, "w", encoding="utf-8") as f:
                f.write(new)
    return 0


if __name__ == "__main__":
    raise SystemExit(main())
