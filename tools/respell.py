#!/usr/bin/env python3
"""Respells the repository's own definitions and lemmas after port.py: words in snake case (`cellRead` is `cell_read`, `cut-anywhere` is `cut_anywhere`).

usage: python3 tools/respell.py [FOLDER]     once, at the top of a tree that port.py has turned; a second run finds nothing.

Names are read from the declarations of specs/ and proofs/ (those that stand in a Proof.antt alone are left: they go with it). A dash stays where it joins
two operations of the library or the repository (KEEP). Where two names fall together the definition has the plain one and the lemma `_lem` (LEM).
Functions, constants, fields, strings and exported names of src/ are no such names and stay; names behind a dot stay, unless a definition has them.
"""

import os
import re
import sys

SIG = re.compile(r"^( *)((?:(?:abbrev|opaque|unfoldable|pub|instance)\s+)*)(?:(record|data|ruleset)\s+)?([^\s:(){},.=|λ;]+)((?:\s+[({][^=]*?)?)\s*:(?:\s|$)(.*)")
BARE = re.compile(r"^( *)((?:(?:abbrev|opaque|unfoldable|pub|instance)\s+)+)([^\s:(){},.=|λ;]+)\s*$")
NO = ("use", "mod", "open", "module", "infixl", "infixr", "infix", "let", "λ", "where", "unfolding")
# old spelling -> new, where the rule does not decide
KEEP = {
    "flatMap-append": "flat_map-append",
    "getD-first": "get_or-first",
    "getD-turns": "get_or-turns",
    "xor-append": "xor_from-append",
    "xor-end": "xor_from-end",
    "length-turns": "length-turns",
    "length-bytes": "length-bytes",
    "drop-replicate": "drop-replicate",
    "drop-sets": "drop-sets",
    "take-sets": "take-sets",
    "mapped-gives": "mapped-gives",
    "mapped-refuses": "mapped-refuses",
    "events-append": "events-append",
    "outputs-append": "outputs-append",
    "lines-append": "lines-append",
    "cells-append": "cells-append",
    "points-append": "points-append",
    "scans-append": "scans-append",
    "scans-map": "scans-map",
    "points-map": "points-map",
    "quiet-append": "quiet-append",
    "allRead": "is_all_read",
}
LEM = "at-stop cell-read count_fits goes_on going_on health-read held_back held_by number_behind rest-fed row-of row-reads sample-read turn-line".split()


def files(root, ends):
    for top in ("crates", "docs"):
        for folder, dirs, names in os.walk(os.path.join(root, top)):
            dirs[:] = sorted(d for d in dirs if d not in ("out", ".git"))
            for f in sorted(names):
                if f.endswith(ends):
                    yield os.path.join(folder, f)


def declared(root):
    """The names that stand in files of specs/ and in files of laws, Proof.antt aside, and the names behind `as`."""
    found = set()
    for p in files(root, ".antt"):
        if p.endswith("/Proof.antt") or not re.search(r"/(specs|proofs)/", p):
            continue
        with open(p, encoding="utf-8") as f:
            text = f.read()
        lines = [re.sub(r"\s*-- .*|^--.*", "", l) for l in text.split("\n")]
        for i, l in enumerate(lines):
            m = SIG.match(l)
            if m and m[4] not in NO and not m[4].startswith("--"):
                found.add(m[4])
            elif (m := BARE.match(l)) and i + 1 < len(lines) and lines[i + 1].strip().startswith((":", "(", "{")):
                found.add(m[3])
    for p in files(root, (".antt", ".rt")):
        with open(p, encoding="utf-8") as f:
            for u in re.findall(r"(?ms)^\s*(?:ghost |pub )*use [^\n;]*?(?:\{[^}]*\}|$)", f.read()):
                found.update(re.findall(r"\bas ([a-z][\w-]*)", u))
    return found


def snake(n):
    return re.sub(r"([a-z0-9])([A-Z])", lambda m: m[1] + "_" + m[2].lower(), n).replace("-", "_")


def table(root):
    new = {}
    for n in declared(root):
        if n in KEEP.values():
            continue
        if n in KEEP:
            new[n] = KEEP[n]
        elif n in LEM:
            if n != snake(n):
                new[n] = snake(n) + "_lem"
        elif re.match(r"[a-z][\w-]*$", n) and ("-" in n or re.search("[A-Z]", n)):
            new[n] = snake(n)
    for n in LEM:
        if n in new.values():
            new[n] = snake(n) + "_lem"
    new = {a: b for a, b in new.items() if a != b}
    back = {}
    for a, b in new.items():
        back.setdefault(b, []).append(a)
    clash = {b: a for b, a in back.items() if len(a) > 1}
    if clash:
        sys.exit(f"respell: names fall together: {clash}")
    return new


TOKEN = re.compile(r"[^\s(){}\[\],;.\"`|:]+|.", re.S)


def respell(text, new, code):
    """Each whole word of the table; behind a dot only those with a capital, since a dash there is mostly Rattle's own; in code only those with a capital."""
    out, before = [], ""
    for t in TOKEN.findall(text):
        plain = t in new and not (before == "." and not re.search("[A-Z]", t)) and not (code and not re.search("[A-Z]", t))
        out.append(new[t] if plain else t)
        before = t
    return "".join(out)


def elsewhere(root, new):
    """For pages and edits, which port.py does not turn: also the names that it turned in specs/ and proofs/."""
    there = declared(root) | set(new.values())

    def one(t):
        if t in new:
            return new[t]
        s = snake(t) if re.match(r"[a-z][\w-]*$", t) and ("-" in t or re.search("[A-Z]", t)) else t
        return s if s in there else t

    return one


def main(root):
    new = table(root)
    other = elsewhere(root, new)
    changed = 0
    for p in files(root, (".antt", ".rt", ".edit", ".md")):
        with open(p, encoding="utf-8") as f:
            was = f.read()
        if p.endswith(".md"):
            now = re.sub(r"`[^`\n]+`", lambda m: "".join(map(other, TOKEN.findall(m[0]))), was)
        elif p.endswith(".edit"):
            now = "".join(map(other, TOKEN.findall(was)))
        else:
            now = respell(was, new, p.endswith(".rt"))
        if now != was:
            changed += 1
            with open(p, "w", encoding="utf-8") as f:
                f.write(now)
    print(f"respell: {len(new)} names, {changed} files")


if __name__ == "__main__":
    main(sys.argv[1] if len(sys.argv) > 1 else ".")
