#!/usr/bin/env python3
"""Spells this repository's own definitions and lemmas as today's Rattle does.

usage: python3 tools/respell.py    at the top of the repository, once, after port.py

A type or a fact goes to camel case (Path-law: PathLaw), every other name to snake case (greatest-le: greatest_le).
Names of functions in src/, of the library, and names that Rattle makes (loop-k-preserved, c.arc-to) keep their spelling,
as do lines of comment; a string, or a comment behind code, would be respelled too, and none here holds such a name.
Must-fail edits are left alone: none needed a change.
"""
import collections
import os
import re
import sys

TOKEN = re.compile(r"[^\s(){}\[\],;.:«»⌜⌝\"`λ|@]+")
DECLARED = re.compile(r"^\s*(?:(?:pub|abbrev|unfoldable|data|record)\s+)*([A-Za-z_][^\s(){}\[\],;.:]*)\s*(?:\(.*\)\s*|\{.*\}\s*)*:(?!=)")
LIBRARY = re.compile(r"use (?:Rattle\.std|mathlib|Prim|lib|native|borrow)\S*\.\{(.*)\}")
LEMMAS = re.compile(r"/(specs|proofs)/[A-Z][^/]*\.antt$")
# a fact whose new name a case of an enum has
APART = {"Late-pin": "IsLatePin"}


def files():
    for folder, inside, names in os.walk("crates"):
        inside[:] = sorted(d for d in inside if d != "out")
        for name in sorted(names):
            if name.endswith((".antt", ".rt")):
                yield os.path.join(folder, name)


def is_comment(line):
    return line.strip().startswith(("--", "//"))


def is_own(name):
    return "-" in name and re.match(r"[A-Za-z_]", name)


def declared(line):
    """The names that a line declares, by a signature, a let, a parameter or a λ."""
    m = DECLARED.match(line)
    if m and not re.search(r":\s*(?:need|goal|goals)\." + re.escape(m.group(1)) + r"\b", line):
        yield m.group(1)
    for m in re.finditer(r"\blet\s+([A-Za-z_][^\s:=(]*)", line):
        yield m.group(1)
    for m in re.finditer(r"[({]([^(){}:]*)\s:", line):
        yield from m.group(1).split()
    for m in re.finditer(r"λ\s*([^.]*)\.", line):
        yield from m.group(1).split()


def own_names(texts):
    """Every name with a dash that stands in a file of specs/ or proofs/ and is neither the library's nor made by Rattle."""
    found = set()
    for path, lines in texts.items():
        if not path.endswith(".antt"):
            continue
        library = set()
        for line in lines:
            m = LIBRARY.match(line)
            if m:
                library |= {x.strip().split(" as ")[0] for x in m.group(1).split(",")}
        for line in lines:
            if is_comment(line):
                continue
            found |= {n for n in declared(line) if is_own(n)}
            if LEMMAS.search(path):
                found |= {t for t in TOKEN.findall(line) if is_own(t) and t not in library}
    return found


def spelled(name):
    if name in APART:
        return APART[name]
    first, *rest = name.split("-")
    return first + "".join(r[:1].upper() + r[1:] for r in rest) if name[0].isupper() else "_".join([first, *rest])


def main():
    texts = {p: open(p, encoding="utf-8").read().split("\n") for p in files()}
    names = {n: spelled(n) for n in own_names(texts)}
    if not names:
        sys.exit("nothing to respell")
    together = [n for n, k in collections.Counter(names.values()).items() if k > 1]
    if together:
        sys.exit(f"names that fall together: {together}")
    # after c. and w. in an answer stands a name that Rattle made
    part = re.compile(r"(?<![^\s(){}\[\],;.:«»⌜⌝\"`λ|@])(?<!\bc\.)(?<!\bw\.)(" + "|".join(sorted(map(re.escape, names), key=len, reverse=True)) + r")(?![^\s(){}\[\],;.:«»⌜⌝\"`λ|@])")
    for path, lines in texts.items():
        new = [x if is_comment(x) else part.sub(lambda m: names[m.group(1)], x) for x in lines]
        if new != lines:
            with open(path, "w", encoding="utf-8") as f:
                f.write("\n".join(new))
    print(f"respelled {len(names)} names")


main()
