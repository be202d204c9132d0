#!/usr/bin/env python3
"""Brings the definitions and lemmas of this repository to one spelling: words in snake case.

usage: tools/snake_names.py      at the top of the repository, once, after the kit's port.py

- A word that specs/ or proofs/ define in mixed case (`termsOf`, `all-crossAll`) becomes snake case (`terms_of`, `all-cross_all`), in crates/ and edits/.
- The same words, and those that port.py turned already, in the pages.
- `firstOf` would become `first_of`, a tactic's name: it becomes `first_number`.
- A file specs/Contracts.antt becomes specs/Clauses.antt, since Rattle makes a module `specs.contracts` itself.
- The must-fail edits follow in spelling: tight projections, operators with a dotted circle, the library's words.

It stops where two names would fall together in one module. A name of src/, of C, a string and an input stay.
"""

import os
import re
import subprocess
import sys

SPECIAL = {"firstOf": "first_number"}
WORD = re.compile(r"(?<![A-Za-z0-9_'\\])[a-z][a-z0-9]*(?:[A-Z][a-z0-9]*)+(?![A-Za-z0-9_'])")
# mixed case in pages that is no name of a definition
PLAIN = {"xNN", "nDeepest", "xbfOPENQASM", "nOPENQASM", "fPIC", "isT"}
DEFINES = re.compile(r"^(\s*)(?:(?:abbrev|unfoldable|pub) )*(?:record |data |ruleset )?([^\s:(){}]+)(?: [({][^\n]*?[)}])* : ", re.M)


def snake(word):
    return SPECIAL.get(word) or re.sub(r"(?<=[a-z0-9])([A-Z])", lambda m: "_" + m.group(1).lower(), word)


def files(top, ends):
    for folder, dirs, names in os.walk(top):
        dirs[:] = sorted(d for d in dirs if d not in ("out", "target", ".git"))
        for n in sorted(names):
            if n.endswith(ends):
                yield os.path.join(folder, n)


def read(p):
    with open(p, encoding="utf-8") as f:
        return f.read()


def write(p, t):
    if read(p) != t:
        with open(p, "w", encoding="utf-8") as f:
            f.write(t)


def defined():
    """The words in mixed case that a line of specs/ or proofs/ defines, and where."""
    found = {}
    for p in files("crates", ".antt"):
        for m in DEFINES.finditer(read(p)):
            for w in WORD.findall(m.group(2)):
                found.setdefault(w, set()).add(p)
    return found


def together(words):
    """Modules in which a new name is already there as a definition of its own."""
    bad = []
    for p in files("crates", ".antt"):
        t = read(p)
        names = {m.group(2) for m in DEFINES.finditer(t) if not m.group(1)}
        bad += [(p, w) for w in words if re.search(rf"(?<![\w'-]){w}(?![\w'-])", t) and snake(w) in names]
    return bad


def turn_words(t, words):
    return WORD.sub(lambda m: snake(m.group(0)) if m.group(0) in words else m.group(0), t)


def turn_edit(t):
    """The spelling of an edit's clauses and definitions; its code stays."""
    t = re.sub(r"(?<=[\w')]) \.(\d|[a-z])", r".\1", t)
    t = re.sub(r"Rattle·(\w+)\.", r"Rattle.\1.", t)
    return t.replace("get_d", "get_or").replace("getD", "get_or").replace("⌜ ", "").replace(" ⌝", "")


def main():
    words = set(defined()) | {"isNone", "natOf", "rowOf"}
    bad = together(words)
    if bad:
        print("\n".join(f"{p}: {w} and {snake(w)} fall together" for p, w in bad))
        return 1
    for p in files("crates", (".antt", ".rt")):
        write(p, turn_words(read(p), words).replace("specs.Contracts", "specs.Clauses").replace("Contracts.right", "Clauses.right").replace(" as Contracts", " as Clauses"))
    for p in list(files("crates", "Lib.antt")):
        if p.endswith("specs/Lib.antt"):
            write(p, re.sub(r"^pub mod Contracts$", "pub mod Clauses", read(p), flags=re.M))
    for p in list(files("crates", "Contracts.antt")):
        if p.endswith("specs/Contracts.antt"):
            subprocess.run(["git", "mv", p, p.replace("Contracts", "Clauses")], check=True)
    for p in list(files("crates", ".edit")) + list(files("edits", ".edit")):
        write(p, turn_edit(WORD.sub(lambda m: snake(m.group(0)), read(p))).replace("specs/Contracts", "specs/Clauses"))
    for p in ["README.md", *files("docs", ".md")]:
        t = read(p)
        t = WORD.sub(lambda m: m.group(0) if m.group(0) in PLAIN else snake(m.group(0)), t)
        write(p, t.replace("get_d", "get_or").replace("specs/Contracts", "specs/Clauses").replace("specs.Contracts", "specs.Clauses"))
    print(f"{len(words)} words turned")
    return 0


if __name__ == "__main__":
    sys.exit(main())
