#!/usr/bin/env python3
"""Spells the repository's own definitions and lemmas as today's Rattle does: words in snake case, a dash only between the names of two functions.

usage: respell.py [--list]      at the top of the repository, once, behind port.py

A name is the repository's own where a file of specs/ or proofs/ declares it. Functions of src/, exported names, strings, types, modules and the
variants of enums keep theirs. --list prints each name with the new one, and writes nothing.
"""
import collections
import glob
import os
import re
import subprocess
import sys

WORD = r"[^\s(){}.;,@\"«»\[\]\\`]+"
HEAD = r"(?:abbrev |unfoldable |pub |data |record |infix\S* )*"
DECLARED = re.compile(r"^\s*" + HEAD + r"(" + WORD + r")(?: \([^)]*\)| \{[^}]*\})* ?:(?: |$)(.*)")
# What goals are called, in proofs that walk the code: these go when the proofs get today's form.
GOAL = re.compile(r"\btie\.|: \{M : Type 1\}")
# Functions of the library that a dash joins to one of the repository's.
LIBRARY = set("length take drop set append map filter reverse sum count get_or min max".split())
# Lemmas and variables that have the spelling that a definition gets: they take '_lem', where no dot stands before them.
CEDES = set(
    "entry_length fields_read first_key free_in in_bounds length_from no_copy no_record not_found plain_at plain_size ran_out too_long with_entries".split()
)


def files(*parts):
    for part in parts:
        for path in sorted(glob.glob(f"crates/*/{part}", recursive=True)):
            if "/out/" not in path:
                yield path


def read(path):
    with open(path, encoding="utf-8") as f:
        return f.read()


def own_names():
    """Each name that specs/ or proofs/ declares, with the files that do, and those that specs/ declares."""
    names, in_specs = collections.defaultdict(set), set()
    for path in files("specs/**/*.antt", "proofs/**/*.antt"):
        for line in read(path).split("\n"):
            m = DECLARED.match(line)
            if not m or line.lstrip().startswith(("--", "use ")):
                continue
            if path.endswith("Proof.antt") and GOAL.search(m[2]):
                continue
            names[m[1]].add(path)
            if "/specs/" in path:
                in_specs.add(m[1])
    return names, in_specs


def snake(word):
    word = re.sub(r"([a-z0-9])([A-Z])", lambda m: m[1] + "_" + m[2].lower(), word)
    return word


def respelled(name, functions):
    if not re.match(r"^[a-z]", name):
        return name
    parts = [snake(p) for p in name.split("-")]
    if len(parts) > 1 and all(p in functions for p in parts):
        return "-".join(parts)
    if any(not re.match(r"^[\w'₀-₉]+$", p) for p in parts):
        return "-".join(parts)
    return "_".join(parts)


def table():
    names, in_specs = own_names()
    functions = {snake(n) for n in in_specs if re.match(r"^[a-z]\w*$", n)} | LIBRARY
    out = {n: respelled(n, functions) for n in names}
    # A lemma that would have the name of a definition.
    taken = {b for a, b in out.items() if "-" not in a}
    out = {a: b + "_lem" if "-" in a and b in taken else b for a, b in out.items()}
    return {a: b for a, b in out.items() if a != b}


TOKEN = re.compile(r"\"(?:[^\"\\]|\\.)*\"|" + WORD)


def turned(text, names, cedes=()):
    def one(m):
        it = m[0]
        if it in cedes and (m.start() == 0 or text[m.start() - 1] != ".") and text[m.end() : m.end() + 1] != "(":
            return it + "_lem"
        return names.get(it, it)

    return TOKEN.sub(one, text)


def main():
    names = table()
    if "--list" in sys.argv:
        for a, b in sorted(names.items()):
            print(a, b)
        return
    for path in files("src/**/*.rt", "specs/**/*.antt", "proofs/**/*.antt", "must-fail/*.edit"):
        old = read(path)
        new = turned(old, names, CEDES if path.endswith(".antt") else ())
        if new != old:
            with open(path, "w", encoding="utf-8") as f:
                f.write(new)
    for path in ["README.md", *sorted(glob.glob("docs/*.md"))]:
        old = read(path)
        new = re.sub(r"`[^`\n]+`", lambda m: turned(m[0], names), old)
        if new != old:
            with open(path, "w", encoding="utf-8") as f:
                f.write(new)
    for crate in sorted(glob.glob("crates/*/src")):
        subprocess.run(["rt", "fmt"], cwd=os.path.dirname(crate), stdout=subprocess.DEVNULL, check=False)


main()
