#!/usr/bin/env python3
"""Spells the repository's own definitions and lemmas as the library does: words in snake case, types in camel case.

usage: python3 tools/respell.py     at the top of the repository, once, after the toolchain's own port

It gathers the names with a hyphen that specs/ and proofs/ declare (definitions, lemmas, fields, local lemmas, aliases of
imports), and spells each with underscores, or in camel case where it begins with a capital. Names of the library keep
their spelling, and so do goals of proof files, which the checker names. Names that would fall together are printed, and
then nothing is written.
"""

import os
import re
import sys

WORD = r"[A-Za-z][A-Za-z0-9_']*(?:-[A-Za-z0-9_']+)+"
DECLARED = re.compile(r"^\s*(?:(?:pub|abbrev|unfoldable|record|data)\s+)*(" + WORD + r")\s*(?:[({].*)?:\s", re.M)
ALIAS = re.compile(r"\bas (" + WORD + r")")
TOKEN = re.compile(r"(?<![A-Za-z0-9_'-])(" + WORD + r")(?![A-Za-z0-9_'-])")
# Two aliases that the toolchain's port gave capitals.
GARBLED = {"Value-line": "value_line", "Store-Line": "store_line"}
GOALS = ("Answers.antt", "Invariants.antt", "Proof.antt")


def files():
    for folder, folders, names in os.walk("crates"):
        folders[:] = sorted(f for f in folders if f != "out")
        for name in sorted(names):
            if name.endswith((".antt", ".rt")):
                yield os.path.join(folder, name)


def respelled(name):
    if name in GARBLED:
        return GARBLED[name]
    if name[0].isupper():
        return "".join(part[0].upper() + part[1:] for part in name.split("-"))
    return name.replace("-", "_")


def own_names(texts):
    own = set()
    for path, text in texts.items():
        if os.path.basename(path) not in GOALS and path.endswith(".antt"):
            own.update(DECLARED.findall(text))
        own.update(ALIAS.findall(text))
    return own


def main():
    texts = {path: open(path, encoding="utf-8").read() for path in files()}
    own = own_names(texts)
    spelled = {}
    clashes = []
    declared = set()
    for text in texts.values():
        declared.update(re.findall(r"^\s*(?:(?:pub|abbrev|unfoldable|record|data)\s+)*([A-Za-z][\w']*)\s*(?:[({].*)?:\s", text, re.M))
    for name in sorted(own):
        new = respelled(name)
        if new in spelled.values() or new in declared:
            clashes.append(f"{name} would fall together with {new}")
        spelled[name] = new
    if clashes:
        print("\n".join(clashes))
        return 1
    changed = 0
    for path, text in texts.items():
        new = TOKEN.sub(lambda m: spelled.get(m.group(1), m.group(1)), text)
        if new != text:
            open(path, "w", encoding="utf-8").write(new)
            changed += 1
    print(f"{len(spelled)} names in {changed} files")
    print("\n".join(f"{old} -> {new}" for old, new in spelled.items()))
    return 0


sys.exit(main())
