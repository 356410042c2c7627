#!/usr/bin/env python3
"""Brings the repository's own definitions and lemmas to snake case.

usage: tools/respell.py [--dry]        at the top of the repository, after the kit's port.py, once

Every name that specs/ and proofs/ define in camel case becomes snake case, and so does every local name and field there. In the name of a
lemma a dash stays where it stands between two names, and becomes `_` beside a plain word. Functions of src/, types, modules, inputs and outputs
keep their names. It stops, and writes nothing, where two names of a file would fall together. It reads the text of a file whole: what it turns in
the strings of src/, as `\\xC3`, has to be turned back by hand.
"""

import os
import re
import sys

# Words that stand as names in lemmas of the kit's library.
LIBRARY = """append length take drop nil cons le lt eq ne zero suc one add sub mul max min map all any filter join and or not cond set
replicate reverse get_or some none true false refl zip sum concat fold mod div pow index foldr foldl""".split()
# Lemmas in snake case whose name a definition takes.
TAKEN = ["reach_of", "row_from", "second_word", "step_count", "turn_at", "joined_bytes", "no_row"]
TOKEN = re.compile(r"[A-Za-z0-9_'ℕℓκ₀-₉𝓤⊎◌+∷≤<≡-]+")
DEFINED = re.compile(r"^\s*((?:abbrev |unfoldable |pub |data |record |ruleset )*)([^\s:{(]+)(?:\s*\{[^}]*\})*(?:\s*\([^)]*\))*\s*:\s")
CAMEL = re.compile(r"^[a-z][a-z0-9]*[A-Z]")


def snake(part):
    if not CAMEL.match(part):
        return part
    return re.sub(r"(?<=[a-z0-9])([A-Z])", lambda m: "_" + m.group(1).lower(), re.sub(r"([A-Z])(?=[A-Z])", lambda m: m.group(1).lower(), part)).lower()


def files(top):
    for folder, dirs, names in os.walk(os.path.join(top, "crates")):
        dirs[:] = sorted(d for d in dirs if d not in ("out", "data"))
        for name in sorted(names):
            if name.endswith((".antt", ".rt", ".edit")):
                yield os.path.join(folder, name)


def pages(top):
    yield os.path.join(top, "README.md")
    for name in sorted(os.listdir(os.path.join(top, "docs"))):
        if name.endswith(".md") and not name.startswith("PORT"):
            yield os.path.join(top, "docs", name)


def walked(path):
    return os.path.basename(path) == "Proof.antt"


def read(path):
    with open(path, encoding="utf-8") as f:
        return f.read()


def defined(top):
    """The names that specs/ and the files of lemmas define, and those of them that specs/ defines."""
    names, specs = set(), set()
    for path in files(top):
        if not path.endswith(".antt") or walked(path):
            continue
        for line in read(path).split("\n"):
            m = DEFINED.match(line)
            if m and m.group(2) not in ("use", "let", "in"):
                names.add(m.group(2))
                if "/specs/" in path:
                    specs.add(m.group(2))
    return names, specs


def functions(top):
    found = set()
    for path in files(top):
        if path.endswith(".rt"):
            found |= set(re.findall(r"\bfn (\w+)", read(path)))
    return found


def borrowed(top):
    """What the files import from elsewhere: those names are not the repository's."""
    found = set()
    for path in files(top):
        for module, names in re.findall(r"use ([A-Za-z_.]+)\.\{([^}]*)\}", read(path)):
            if not re.match(r"Rattle\.(?!std\b)", module):
                found |= {n.strip().split(" as ")[0] for n in names.split(",")}
    return found


def respelled(name, known):
    if "-" not in name.strip("-"):
        return snake(name)
    parts = [snake(p) for p in name.split("-")]
    out = parts[0]
    for left, right in zip(parts, parts[1:]):
        out += ("-" if left in known and right in known else "_") + right
    return out


def tabled(names, specs, known, foreign):
    """What each name becomes. A lemma that would have a definition's name gets `_lem`."""
    table = {n: respelled(n, known) for n in names if n not in foreign}
    table |= {n: n + "_lem" for n in TAKEN}
    plain = {to for n, to in table.items() if "-" not in n}
    for n, to in table.items():
        if "-" in n and "-" not in to and to in plain:
            table[n] = to + "_lem"
    return {n: to for n, to in table.items() if n != to}


def turn(text, table, foreign, walk):
    def put(m):
        token = m.group(0)
        start = m.start()
        dotted = start > 0 and text[start - 1] == "."
        if token in foreign:
            return token
        if token in table and not (dotted and ("-" in token or token in TAKEN)):
            return table[token]
        if walk and "-" in token:
            return token
        if CAMEL.match(token) and "-" not in token:
            return snake(token)
        return token

    return TOKEN.sub(put, text)


def main():
    top = os.getcwd()
    names, specs = defined(top)
    foreign = borrowed(top)
    code = functions(top)
    known = {snake(n) for n in specs if "-" not in n} | code | set(LIBRARY)
    table = tabled(names, specs, known, foreign)
    clashes, written = [], {}
    for path in files(top):
        text = read(path)
        lemmas = path.endswith(".antt")
        new = turn(text, table if lemmas else {n: to for n, to in table.items() if n not in TAKEN}, foreign, walked(path))
        if new == text:
            continue
        tokens = {}
        for a, b in zip(TOKEN.finditer(text), TOKEN.finditer(new)):
            tokens.setdefault(b.group(0), set()).add(a.group(0))
        for to, came in sorted(tokens.items()):
            # A definition may have the name of the function that it is about, and a record's field that of a parameter.
            if len(came) > 1 and not path.endswith((".rt", "Proof.antt")):
                clashes.append(f"{os.path.relpath(path, top)}: {', '.join(sorted(came))} would all be {to}")
        written[path] = new
    for path in pages(top):
        text = read(path)
        new = re.sub(r"`[^`\n]+`", lambda m: turn(m.group(0), table, foreign, True), text)
        if new != text:
            written[path] = new
    if clashes:
        print("\n".join("clash: " + line for line in clashes))
        return 1
    if "--dry" in sys.argv:
        for n, to in sorted(table.items()):
            print(n, to)
        return 0
    for path, new in written.items():
        with open(path, "w", encoding="utf-8") as f:
            f.write(new)
    print(f"{len(table)} names, {len(written)} files")
    return 0


sys.exit(main())
