#!/usr/bin/env python3
"""Respells this repository's own definitions and lemmas in snake case.

usage: python3 tools/respell.py          at the top of the repository, once, after the kit's port.py

A name that a file of specs/ or a lemma file of proofs/ defines, and that has a dash, gets an underscore for
each dash between two words; so does a name under which a file imports another. Names that begin with a capital,
names of the standard library and names that the prover makes keep their spelling, and so do comments and strings.
Planted bugs follow.
"""
import os
import re

TOKEN = re.compile(r"[^\s(){}\[\];,.:|\"«»]+")
DEFINED = re.compile(r"^\s*(?:(?:abbrev|unfoldable|pub|ghost) )*([^\s(){}\[\];,.:]*-[^\s(){}\[\];,.:]*) :", re.M)
ALIAS = re.compile(r"\w+ as ([a-z][\w']*-[\w'-]*)")
IMPORT = re.compile(r"^(?:ghost )?use Rattle\.(\w+)\.[^{;]*\{([^}]*)\}", re.M)
ANSWERS = ("Answers.antt", "Invariants.antt", "Proof.antt")


def files(*endings):
    for folder, folders, names in os.walk("crates"):
        folders[:] = sorted(f for f in folders if f != "out")
        for name in sorted(names):
            if name.endswith(endings):
                yield os.path.join(folder, name)


def read(path):
    with open(path, encoding="utf-8") as file:
        return file.read()


def snake(name):
    return re.sub(r"(?<=\w)-(?=\w)", "_", name)


def renamed():
    """The old and the new name of each definition, none of them a name of the standard library."""
    library, defined, whole = set(), set(), set()
    for path in files(".antt", ".rt"):
        text = read(path)
        for crate, items in IMPORT.findall(text):
            if crate == "std":
                library |= {item.strip().split(" as ")[0] for item in items.split(",")}
        if path.endswith(".antt") and not path.endswith(ANSWERS):
            defined |= {name for name in DEFINED.findall(text) if name[0].islower()}
            whole |= set(re.findall(r"^\s*(?:(?:abbrev|unfoldable|pub) )*([^\s(){}\[\];,.:-]+) :", text, re.M))
    for name in sorted(defined):
        if snake(name) in whole:
            print("falls together:", name, snake(name))
    return {name: snake(name) for name in defined - library}


def respelled(text, names, comment):
    """The text with each whole word of names replaced, but for comments and strings."""
    lines = []
    for line in text.split("\n"):
        code, mark, rest = line.partition(comment)
        parts = code.split('"')
        parts[::2] = [TOKEN.sub(lambda m: names.get(m.group(), m.group()), part) for part in parts[::2]]
        lines.append('"'.join(parts) + mark + rest)
    return "\n".join(lines)


def main():
    names = renamed()
    for path in files(".antt", ".rt", ".edit"):
        text = read(path)
        here = names | {alias: snake(alias) for alias in ALIAS.findall(text)}
        new = respelled(text, here, "//" if path.endswith(".rt") else "-- ")
        if new != text:
            with open(path, "w", encoding="utf-8") as file:
                file.write(new)
    print(len(names), "names respelled")


if __name__ == "__main__":
    main()
