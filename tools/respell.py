#!/usr/bin/env python3
"""Turns the repository's own names in specs/, proofs/ and clauses to snake case, and its types to camel case.

    tools/respell.py [ROOT]   rewrites the files under ROOT/crates in place; run once, after the kit's port/port.py

Own names are those that a file of specs/ or a file directly under proofs/ declares. A name with a dash becomes one with an underscore; one that begins with a
capital and is not of capitals alone is a type, and its parts are joined. A lower-case name of a type (TYPES) gets a capital. What a file imports from outside the
repository keeps its spelling in that file, as do functions of src/, strings, and the names of goals in a function's proof.
Names that would fall together stop it, before anything is written.
"""

import re
import sys
from collections import defaultdict
from pathlib import Path

ROOT = Path(sys.argv[1]) if len(sys.argv) > 1 else Path(__file__).resolve().parent.parent
WORD = r"[^\s(){}.;,@\"«»◌]+"
SIGNATURE = re.compile(rf"^\s*(?:(?:abbrev|unfoldable|pub|data|record)\s+)*((?:{WORD}\s+)*{WORD})\s+:\s")
TYPES = {
    "leaves": "Leaves",
    "leaves_all": "LeavesAll",
    "leaves-over": "LeavesOver",
    "leaves-one": "LeavesOne",
    "becomes": "Becomes",
    "becomes-over": "BecomesOver",
    "becomes-one": "BecomesOne",
    "feeds": "Feeds",
    "with-told": "WithTold",
}
DASHED = re.compile(r"(?<![\w'-])[A-Za-z][\w']*(?:-[\w']+)+(?![\w'-])")


def respelled(name):
    if name in TYPES:
        return TYPES[name]
    if name[0].isupper() and not re.fullmatch(r"[A-Z0-9_'-]+", name):
        return "".join(part[:1].upper() + part[1:] for part in re.split("[-_]", name)) if "-" in name else name
    return name.replace("-", "_")


def foreign(text):
    """The names that a file imports from outside the repository."""
    names = set()
    for path, listed in re.findall(r"\buse ([\w.·]+)\.\{([^}]*)\}", text):
        if not path.startswith("Rattle.") or path.split(".")[1] in ("std", "core", "io", "libc", "check"):
            names |= {n.strip() for n in listed.split(",")}
    return names


def code_and_comments(line, mark):
    """A line as its code and its comment."""
    quoted = False
    for at, c in enumerate(line):
        if c == '"' and (at == 0 or line[at - 1] != "\\"):
            quoted = not quoted
        elif not quoted and line.startswith(mark, at) and (mark == "//" or at == 0 or line[at - 1].isspace()):
            return line[:at], line[at:]
    return line, ""


def outside_strings(code, turn):
    return "".join(part if i % 2 else turn(part) for i, part in enumerate(re.split(r'("(?:[^"\\]|\\.)*")', code)))


def turned(text, table, mark, every):
    """The text with the names of the table respelled; with `every` each dashed word of the code."""
    keep = foreign(text)
    seen = set()

    def word(m):
        name = m[0]
        if name in keep or not (every or name in table):
            return name
        seen.add(name)
        return respelled(name)

    types = [t for t in TYPES if "-" not in t and t != respelled(t) and re.search(rf"(?:\{{|, ){t}(?:,|\}})|^abbrev pub {t} :", text, re.M)]

    def code(part):
        part = DASHED.sub(word, part)
        if mark == "--" or re.search("ghost use|ensures|requires", part):
            for t in types:
                part = re.sub(rf"(?<![\w'.-]){t}(?![\w'-])", TYPES[t], part)
        return part

    lines = [code_and_comments(line, mark) for line in text.split("\n")]
    lines = [(outside_strings(a, code), b) for a, b in lines]

    def said(m):
        return respelled(m[0]) if m[0] in seen else m[0]

    return "\n".join(a + (DASHED.sub(said, b) if b else "") for a, b in lines)


def declared(files):
    names = defaultdict(set)
    for path in files:
        for line in path.read_text().splitlines():
            if line.lstrip().startswith("--") or line.startswith("use "):
                continue
            m = SIGNATURE.match(line)
            if m:
                for name in m[1].split():
                    names[name].add(str(path))
    return names


def main():
    antt = sorted(p for p in ROOT.glob("crates/*/**/*.antt") if "/out/" not in str(p))
    lemmas = [p for p in antt if "/specs/" in str(p) or p.parent.name == "proofs"]
    proofs = [p for p in antt if p not in set(lemmas)]
    names = declared(lemmas)
    table = {n for n in names if "-" in n or n in TYPES}
    by = defaultdict(set)
    for n in names:
        by[respelled(n)].add(n)
    clash = {k: v for k, v in by.items() if len(v) > 1}
    if clash:
        sys.exit(f"names fall together: {clash}")
    for path in lemmas:
        path.write_text(turned(path.read_text(), table, "--", True))
    for path in proofs:
        path.write_text(turned(path.read_text(), table, "--", False))
    for path in sorted(ROOT.glob("crates/*/src/**/*.rt")):
        path.write_text(turned(path.read_text(), table, "//", False))
    print(f"{len(table)} names, {len(lemmas)} files of definitions and lemmas, {len(proofs)} proofs")


main()
