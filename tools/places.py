#!/usr/bin/env python3
"""Lists the places in crates/*/src at a commit that docs/DESIGN-PASS.md counts.

usage: python3 tools/places.py COMMIT [POINT]
"""

import re
import subprocess
import sys

# For each point the kinds of places that can be told by a line.
LINES = {
    1: {
        "a number and a place, or a flag, as a bare pair": r"\(u16, usize\)|usize, bool\)",
        "a number that stands for none": r"\[1024u16;|= 4096;$|== 1024|holder >= links|while link > 0|as u16 \+ 1;",
        "a row of numbers for yes and no": r"(marks|shares): &mut \[u",
    },
    4: {
        "bytes by division": r"% 256\)|/ 256\)|\+ 256 \*",
        "a fault turned into numbers": r"fn told\(self\)",
        "a fault turned into a message": r"Err\(_\) => Err\(anyhow",
        "a value or a choice spelled out": r"const NO_WIRE|fn number\(|\{ 1 \} else \{ 0 \}| as u(32|64)\b.*;$",
    },
    6: {
        "a parameter or field that is an array's length or a place in it": r"\b(tail|end|starts|count|wires): usize",
        "rows that lie side by side": r"(depths|holders|flows|gains|costs|hops|first|next): &(mut |'a )?\[u",
        "a list of fixed room": r"\[[A-Za-z_0-9():]+; (4096|8192|32768)\]",
    },
    7: {
        "a match on a kind": r"match (self|way|rule|k % 3) \{",
    },
}


def sources(commit):
    names = subprocess.check_output(["git", "ls-tree", "-r", "--name-only", commit, "crates"], text=True)
    for name in names.split("\n"):
        if "/src/" in name and name.endswith(".rt"):
            text = subprocess.check_output(["git", "show", f"{commit}:{name}"], text=True)
            yield name, re.sub(r"^\s*//.*$", "", text, flags=re.M)


def functions(text):
    """The name, the parameters and the clauses of each function."""
    head = r"^ *(?:pub(?:\(crate\))? )?(?:const )?fn (\w+)(?:<[^(]*>)?\(([^{]*?)\)(?: -> [^\n{]*)?\n?((?:[^\n]*(?:requires|ensures)[^\n]*\n)*)"
    for m in re.finditer(head, text, re.M):
        names = re.findall(r"(?:^|[\s,(&])(self|\w+(?=: ))", m.group(2))
        yield m.group(1), names, m.group(3)


def loops(text):
    """The loops that count by hand: over numbers that index a list, or with a counter that is raised."""
    lines = text.split("\n")
    for i, line in enumerate(lines):
        head = re.match(r"( *)(?:'\w+: )?(?:for (\w+) in (?:\(?[0-9a-z_]+\.\.)|while )", line)
        if not head:
            continue
        body = []
        for other in lines[i + 1:]:
            if other.startswith(head.group(1) + "}"):
                break
            body.append(other)
        body = "\n".join(body)
        name = head.group(2)
        if name and re.search(rf"\[{name}( as usize)?\]", body):
            yield i + 1, line.strip()
        elif not name and "let Some" not in line:
            yield i + 1, line.strip()
        elif not name and re.search(r"\+= 1;", body):
            yield i + 1, line.strip()


def bodies(text):
    """Each function's name and its body, with names and numbers replaced by their order of appearance."""
    for m in re.finditer(r"^( *)(?:pub(?:\(crate\))? )?(?:const )?fn (\w+)[^{}]*(?:(?:requires|ensures)[^\n]*\n)*\1?\{\n(.*?)^\1\}", text, re.M | re.S):
        order = {}
        body = re.sub(r"[A-Za-z_]\w*|\d[\d_]*", lambda t: order.setdefault(t.group(0), f"x{len(order)}"), m.group(3))
        body = re.sub(r"\s+|,(?=\s*\))", "", body)
        if len(body) >= 40:
            yield m.group(2), body


def twins(files):
    seen = {}
    for n, t in files:
        for f, body in bodies(t):
            seen.setdefault(body, []).append(f"{n}: {f}")
    return [" ~ ".join(v) for v in seen.values() if len(v) > 1]


def names(files):
    seen = {}
    for n, t in files:
        for f, _, _ in functions(t):
            seen.setdefault(f, set()).add(n)
    return [f"{f}: {', '.join(sorted(v))}" for f, v in sorted(seen.items()) if len(v) > 1 and f != "main"]


def proofs(commit):
    lines = {}
    for name in subprocess.check_output(["git", "ls-tree", "-r", "--name-only", commit, "crates"], text=True).split("\n"):
        if "/proofs/" in name and name.endswith(".antt"):
            text = subprocess.check_output(["git", "show", f"{commit}:{name}"], text=True)
            kind = name.split("/")[-1] if name.endswith(("Answers.antt", "Invariants.antt")) else "lemmas"
            files, count = lines.get(kind, (0, 0))
            lines[kind] = (files + 1, count + text.count("\n"))
    return [f"{kind}: {files} files, {count} lines" for kind, (files, count) in sorted(lines.items())]


def show(kind, hits):
    print(f"  {kind}: {len(hits)}")
    for hit in hits:
        print(f"    {hit}")


def main():
    commit = sys.argv[1]
    points = [int(sys.argv[2])] if len(sys.argv) > 2 else [1, 2, 3, 4, 5, 6, 7, 8]
    files = list(sources(commit))
    for point in points:
        print(f"point {point}")
        for kind, pattern in LINES.get(point, {}).items():
            show(kind, [f"{n}:{i + 1}: {l.strip()[:90]}" for n, t in files for i, l in enumerate(t.split("\n")) if re.search(pattern, l)])
        if point == 2:
            show("bodies that are alike but for names and numbers", twins(files))
            show("a function's name in several files", names(files))
        if point == 8:
            show("kinds of proof files", proofs(commit))
        if point == 3:
            show("a loop that counts by hand", [f"{n}:{i}: {l}" for n, t in files for i, l in loops(t)])
        if point == 5:
            show("five parameters or more", [f"{n}: {f} ({len(p)})" for n, t in files for f, p, _ in functions(t) if len(p) >= 5])
            facts = {}
            for n, t in files:
                for f, _, clauses in functions(t):
                    for fact in re.findall(r"(?:requires|ensures)[^{]*\{ (.*) \}", clauses):
                        fact = re.sub(r"\.(old|now|new)\b", "", fact)
                        facts.setdefault((n.split("/")[1], fact), set()).add((n, f))
            show("a fact in the clauses of three functions or more", [f"{c}: {fact[:80]} ({len(fs)})" for (c, fact), fs in sorted(facts.items()) if len(fs) >= 3])


main()
