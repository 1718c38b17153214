#!/usr/bin/env python3
"""Moves theorems and lemmas from a crate's specs/ to its proofs/, where a wrong definition is refused by them without counting as a text that cannot be read.

    tools/theorems.py whole CRATE FILE..   specs/FILE.antt goes to proofs/FILE.antt as it is; FILE may be a folder, as Laws
    tools/theorems.py split CRATE FILE..   the definitions of specs/FILE.antt (abbrev, unfoldable, record, data) stay, all `pub`, and its
                                           theorems go to proofs/FILE.antt

Statements keep their text. Every import of the repository follows.
"""

import re
import sys
from pathlib import Path

ROOT = Path(__file__).resolve().parent.parent
CRATES = ROOT / "crates"
DECL = re.compile(r"^((?:(?:abbrev|unfoldable|pub|data|record|mutual|ruleset)\s+)*)([^\s(){}.;,:]+(?:\s+[^\s(){}.;,:({]+)*)(?:\s+[({].*)?\s+:\s")
USE = re.compile(r"^use (Rattle\.[\w.+]+)\.\{([^}]*)\}$")


def sources():
    return [p for pattern in ("*/specs/**/*.antt", "*/proofs/**/*.antt", "*/src/**/*.rt") for p in CRATES.glob(pattern) if "/out/" not in str(p)]


def listed(folder, module, there):
    """Adds or drops the line of a module in a folder's list of modules; `a/b` stands in a.antt."""
    *above, name = module.split("/")
    lib = folder / ("/".join(above) + ".antt" if above else "Lib.antt")
    lines = lib.read_text().splitlines() if lib.is_file() else []
    lines = [x for x in lines if x != f"pub mod {name}"] + ([f"pub mod {name}"] if there else [])
    lib.parent.mkdir(parents=True, exist_ok=True)
    if lines:
        lib.write_text("\n".join(sorted(lines)) + "\n")
    elif lib.is_file():
        lib.unlink()


def whole(crate, module):
    folder = CRATES / crate
    old, new = folder / "specs" / module, folder / "proofs" / module
    new.parent.mkdir(parents=True, exist_ok=True)
    for ending in ("", ".antt"):
        source = Path(str(old) + ending)
        if source.exists():
            source.rename(Path(str(new) + ending))
    listed(folder / "specs", module, False)
    listed(folder / "proofs", module, True)
    dotted = module.replace("/", ".")
    paths = [(f"Rattle.{crate}.specs.{dotted}", f"Rattle.{crate}.proofs.{dotted}")]
    colons = dotted.replace(".", "::")
    for path in sources():
        text = path.read_text()
        new_text = re.sub(rf"Rattle\.{crate}\.specs\.{re.escape(dotted)}(?![\w])", paths[0][1], text)
        new_text = re.sub(rf"(?<![\w:]){crate}::specs::{colons}(?!\w)", f"{crate}::proofs::{colons}", new_text)
        if path.is_relative_to(folder):
            new_text = re.sub(rf"(?<![\w:])crate::specs::{colons}(?!\w)", f"crate::proofs::{colons}", new_text)
        if new_text != text:
            path.write_text(new_text)


def pieces(text):
    """The head of a file (comments and imports) and its items, each with the comments before it."""
    lines = text.split("\n")
    last = max((i for i, x in enumerate(lines) if x.startswith("use ")), default=-1)
    head, rest = lines[: last + 1], lines[last + 1 :]
    items, item, started = [], [], False
    for line in rest:
        begins = bool(line) and not line[0].isspace() and not line.startswith("--")
        comment = line.startswith("--")
        if (comment or begins and DECL.match(line) or line.startswith("module ")) and started:
            if not (begins and not DECL.match(line)):
                items.append(item)
                item, started = [], False
        item.append(line)
        if begins:
            started = True
    items.append(item)
    return head, ["\n".join(x).strip("\n") for x in items if "\n".join(x).strip()]


def is_definition(item):
    for line in item.split("\n"):
        if line.startswith("--") or not line:
            continue
        return bool(re.match(r"(?:pub )?(?:abbrev|unfoldable|data|record|mutual|ruleset|infix)", line))
    return None


def names(item):
    found = set()
    record = re.search(r"^(?:pub )?record ", item, re.M)
    for line in item.split("\n"):
        if record and line.startswith(" "):
            continue
        m = DECL.match(line.strip()) if not line.startswith("--") else None
        if m and m[2]:
            found |= set(m[2].split())
        m = re.match(r"\s*(?:pub )?(?:data|record) (\S+)", line)
        if m:
            found.add(m[1])
    return found


def word(name, text):
    return re.search(rf"(?<![\w'.-]){re.escape(name)}(?![\w'-])", text)


def uses(head, text):
    """The imports of a head that a text needs."""
    kept = []
    for line in head:
        m = re.match(r"use ([\w.+]+)\.\{([^}]*)\}$", line)
        if m:
            items = [x.strip() for x in m[2].split(",")]
            items = [x for x in items if used(x.split(" as ")[-1].strip("«» "), text)]
            if items:
                kept.append(f"use {m[1]}.{{{', '.join(items)}}}")
        elif m := re.match(r"use \S+ as (\S+)$", line):
            if re.search(rf"(?<![\w'.-]){re.escape(m[1])}\.", text):
                kept.append(line)
        elif line.startswith("use "):
            kept.append(line)
    return kept


def used(name, text):
    if "◌" in name:
        parts = [p for p in name.split("◌") if p]
        return all(p in text for p in parts)
    return word(name, text)


def split(crate, module):
    folder = CRATES / crate
    path = folder / "specs" / f"{module}.antt"
    head, items = pieces(path.read_text())
    stay = [x for x in items if is_definition(x) is not False]
    go = [x for x in items if is_definition(x) is False]
    comments = [x for x in head if x.startswith("--")]
    stay_text, go_text = "\n\n".join(stay), "\n\n".join(go)
    defined = set().union(*map(names, stay)) if stay else set()
    moved = set().union(*map(names, go)) if go else set()
    here = f"Rattle.{crate}.specs.{module.replace('/', '.')}"
    there = f"Rattle.{crate}.proofs.{module.replace('/', '.')}"
    needed = sorted(n for n in defined if word(n, go_text))
    (folder / "proofs" / f"{module}.antt").parent.mkdir(parents=True, exist_ok=True)
    (folder / "proofs" / f"{module}.antt").write_text(
        "\n".join(comments + uses(head, go_text) + ([f"use {here}.{{{', '.join(needed)}}}"] if needed else [])) + "\n\n" + go_text + "\n"
    )
    for name in sorted(defined):
        stay_text = re.sub(rf"^(abbrev|unfoldable) {re.escape(name)} ", rf"\1 pub {name} ", stay_text, flags=re.M)
        stay_text = re.sub(rf"^(data|record) {re.escape(name)} ", rf"pub \1 {name} ", stay_text, flags=re.M)
    path.write_text("\n".join(comments + uses(head, stay_text)) + "\n\n" + stay_text + "\n")
    listed(folder / "proofs", module, True)
    for p in sources():
        if p in (path, folder / "proofs" / f"{module}.antt"):
            continue
        out = []
        for line in p.read_text().split("\n"):
            bare = line.removeprefix("ghost ").removesuffix(";")
            ghost, end = ("ghost ", ";") if line.startswith("ghost ") else ("", "")
            m = USE.match(bare)
            if m and m[1] == here:
                items = [x.strip() for x in m[2].split(",")]
                a = [x for x in items if x.split(" as ")[0] not in moved]
                b = [x for x in items if x.split(" as ")[0] in moved]
                if a:
                    out.append(f"{ghost}use {here}.{{{', '.join(a)}}}{end}")
                if b:
                    out.append(f"{ghost}use {there}.{{{', '.join(b)}}}{end}")
                continue
            m = re.match(rf"use {re.escape(here)} as (\S+)$", bare)
            if m:
                rest = p.read_text()
                mine = [n for n in moved if re.search(rf"(?<![\w'.-]){re.escape(m[1])}\.{re.escape(n)}(?![\w'-])", rest)]
                if mine:
                    print(f"look: {p.relative_to(ROOT)}: {m[1]} names {', '.join(mine)}")
            out.append(line)
        new = "\n".join(out)
        if new != p.read_text():
            p.write_text(new)


def main():
    how, crate, *modules = sys.argv[1:]
    for module in modules:
        {"whole": whole, "split": split}[how](crate, module)


main()
