#!/usr/bin/env python3
"""Brings this repository's own names in contracts and proofs to one spelling: words in snake case, a prime as an apostrophe.

usage: tools/spell.py [--report]     at the top of the repository, once, after the toolchain's port.py

A definition, a lemma or a record's field that this repository declares in specs/ or proofs/ is respelled wherever it stands, in edits too: `byteEntered`
becomes `byte_entered`, and the lemma `bytes-step` becomes `bytes_step`. A lemma that would then have a definition's name gets `_lem`. What the library
declares, what the toolchain makes of the code (steps and goals), functions of src/, exported names and strings stay as they are.
--report writes nothing and lists each new name, and where it meets another.
"""

import collections
import glob
import os
import re
import sys

STOP = r"\s(){}:;,.\[\]"
TOKEN = re.compile(f"[^{STOP}]+")
NAME = f"[^{STOP}]+"
DECLARED = re.compile(rf"^(\s*)(?:(?:abbrev|unfoldable|pub|axiom)\s+)*({NAME})\s*:\s")
RECORD = re.compile(rf"^(\s*)pub (?:record|data)\s+({NAME})")
USE = re.compile(r"^\s*(?:(?:unfoldable|pub|ghost)\s+)*use\s+([^\s;{]+?)(?:\.\{([^}]*)\})?;?\s*(?:as\s+\S+)?$")
OURS = re.compile(r"^Rattle\.(\w+)\.(specs|proofs)\b")
# What the toolchain declares of the code: not ours to respell.
# A definition that would have the name of a field of src/.
FIELDS = {"trackBytes": "bytes_of_track"}
MADE = re.compile(r"^Rattle\.\w+\.(specs\.(declared|contracts)|proofs(\.[^.]+)+\.(Statement|Tie|Lts|Code|Given|Goals))\b")


def files(*ends):
    return sorted(
        f for e in ends for f in glob.glob(f"crates/*/**/*{e}", recursive=True)
        if "/out/" not in f
    )


def code(line):
    """The line without its comment."""
    at = re.search(r"(^|\s)--(\s|$)", line)
    return line if at is None else line[: at.start()]


def read(path):
    with open(path, encoding="utf-8") as f:
        return f.read()


def respelled(name):
    name = FIELDS.get(name, name).replace("\u2032", "'")
    if not name[:1].islower():
        return name
    name = re.sub(r"(?<=[a-z0-9])([A-Z])", lambda m: "_" + m.group(1).lower(), name)
    return re.sub(r"(?<=[a-z0-9_'])-(?=[a-z0-9])", "_", name)


def declared(path):
    """The names that a file of specs/ or proofs/ declares, without the answers to the toolchain's goals."""
    with open(path, encoding="utf-8") as f:
        for line in f:
            text = code(line)
            found = DECLARED.match(text)
            if found and not re.search(r":\s+(tie|goal)\.", text):
                yield found.group(2)
            found = RECORD.match(text)
            if found:
                yield found.group(2)


def defined():
    """The names that proofs/ declares with a body that unfolds."""
    found = (re.match(r"\s*(?:abbrev|unfoldable)\s+(?:pub\s+)?(\S+)", l) for p in files(".antt") for l in read(p).split("\n"))
    return {it.group(1) for it in found if it}


def foreign(text):
    """The names that a text brings in from elsewhere."""
    names = set()
    for line in text.split("\n"):
        found = USE.match(code(line))
        if found and (not OURS.match(found.group(1)) or MADE.match(found.group(1))):
            for it in (found.group(2) or "").split(","):
                names.add(it.split(" as ")[-1].strip())
    return names


def main():
    report = "--report" in sys.argv
    here = collections.defaultdict(set)
    for path in files(".antt"):
        for name in declared(path):
            here[name].add(path)
    table = {}
    definitions = {n for n in here if any("/specs/" in p for p in here[n])} | defined()
    words = {p: set(TOKEN.findall(read(p))) for p in files(".antt", ".rt", ".edit")}
    turned = collections.defaultdict(list)
    for name in here:
        turned[respelled(name)].append(name)
    for new, names in sorted(turned.items()):
        # a definition before a lemma, and what stands already before what is turned
        names.sort(key=lambda n: (n not in definitions, n != new, n))
        met = [n for i, n in enumerate(names) if i and any({names[0], n} <= it for it in words.values())]
        for name in names:
            if name in met:
                print(f"meets: {name} is {new}_lem: {sorted(here[name])} {sorted(here[names[0]])}")
                if new + "_lem" in turned or len(met) > 1:
                    sys.exit(f"spell: names fall together at {new}")
                table[name] = new + "_lem"
            elif name != new:
                table[name] = new
    if report:
        for name, new in table.items():
            print(f"{name} -> {new}")
    count = 0
    for path in files(".antt", ".rt", ".edit"):
        text = read(path)
        theirs = foreign(text)
        if not path.endswith(".antt"):
            # of src/ only what no name of the code can be
            theirs |= {n for n in table if re.fullmatch(r"[a-z0-9_]+", n)}
        out = []
        for line in text.split("\n"):
            out.append(TOKEN.sub(lambda m: turn(m, table, theirs), line))
        new = "\n".join(out)
        if report:
            old = set(TOKEN.findall(text))
            for name in sorted(old & set(table)):
                if table[name] in old and name not in theirs:
                    print(f"beside: {path}: {name} comes to {table[name]}, which stands there")
        elif new != text:
            with open(path, "w", encoding="utf-8") as f:
                f.write(new)
            count += 1
    print(f"spell: {len(table)} names, {count} files")


def turn(found, table, theirs):
    name = found.group(0)
    if name in theirs:
        return name
    return table.get(name, name)


if __name__ == "__main__":
    main()
