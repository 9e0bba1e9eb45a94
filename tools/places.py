#!/usr/bin/env python3
"""places: lists the places in crates/*/src that docs/DESIGN-PASS.md counts, by its points 1 to 8.

usage: tools/places.py [POINT] [FOLDER]: the places of one point, or all; of the repository in FOLDER, or of this one. The last line of each point is its
count. It goes by text: what is left after a pass is read, and stands in the page with its reason.
"""
import glob
import os
import re
import sys
from collections import Counter, defaultdict

NONE = r"Passed|Nothing|Ends|Wrong|Unmet|Refused\(\w+\)"


def sources(root):
    for path in sorted(glob.glob(os.path.join(root, "crates/*/src/**/*.rt"), recursive=True)):
        with open(path, encoding="utf-8") as file:
            yield os.path.relpath(path, os.path.join(root, "crates")), file.read()


def functions(text):
    """each function with the line on which it begins: its head up to the body, and the body"""
    for found in re.finditer(r"^( *)(?:pub(?:\(\w+\))? )?(?:const )?fn (\w+)", text, re.M):
        end = re.compile(r"^" + found.group(1) + r"\}", re.M).search(text, found.end())
        whole = text[found.start(): end.end() if end else found.end()]
        opened = re.search(r"^" + found.group(1) + r"\{\n|\{\n", whole, re.M)
        head, body = (whole[: opened.start()], whole[opened.start():]) if opened else (whole, "")
        yield text[: found.start()].count("\n") + 1, found.group(2), head, body


def matches(root, pattern):
    for path, text in sources(root):
        for number, line in enumerate(text.splitlines(), 1):
            if re.search(pattern, line) and not line.lstrip().startswith("//"):
                yield f"{path}:{number}: {line.strip()}"


def point1(root):
    for path, text in sources(root):
        for found in re.finditer(r"^(?:pub(?:\(\w+\))? )?enum (\w+)(?:<[^>]*>)? \{\n(.*?)^\}", text, re.M | re.S):
            if re.search(r"^    (?:" + NONE + r"),$", found.group(2), re.M):
                yield f"{path}: enum {found.group(1)}"
        for number, name, head, body in functions(text):
            if re.search(r"-> (?:cells::|marks::)?Mark\b", head) and "Mark::Index" in body and "const" not in head:
                yield f"{path}:{number}: {name} answers Mark::Index for none" if re.search(r"(return|=>) Mark::Index", body) else f"{path}:{number}: {name} answers Mark"
    yield from matches(root, r"^ +pub (verdict|broken|found|ok)\b:|^pub const NO_")
    for path, text in sources(root):
        for number, line in enumerate(text.splitlines(), 1):
            if re.match(r" *// .*(; 0 (where|of|is)|\b0 where|or zeros|0 is none)", line):
                yield f"{path}:{number}: {line.strip()}"


def point2(root):
    shapes = defaultdict(list)
    for path, text in sources(root):
        for number, name, head, body in functions(text):
            shape = re.sub(r"\b0x\w+|\b\d+\w*|\b[A-Z]\w*", "#", re.sub(r"//.*", "", body))
            shape = re.sub(r"\b[a-z_]\w*\b", "a", re.sub(r"\s+", " ", shape))
            if len(shape) > 60:
                shapes[shape].append(f"{path}:{number}: {name}")
    for group in shapes.values():
        if len(group) > 1:
            yield " = ".join(group)
    yield from matches(root, r"(fm|mfm)\w*\(Mode::(Fm|Mfm)|fn \w*_(fm|mfm)\(|fn (fm|mfm)_\w+\(")


def point3(root):
    yield from matches(root, r"^ *(while|loop)\b")


def point4(root):
    for path, text in sources(root):
        for number, name, head, body in functions(text):
            arms = re.findall(r"=> ([^,{]+),$", body, re.M)
            if len(arms) > 1 and all(arm in ("true", "false") for arm in arms):
                yield f"{path}:{number}: {name} compares by a match"
            elif len(arms) > 1 and all(re.fullmatch(r"0x\w+|\d+|\w+_number\(\w+\)|u8::from\(\w+\)|\w+::\w+_number\(\w+\)", arm) for arm in arms):
                yield f"{path}:{number}: {name} converts by a match"
    for line in matches(root, r"16777216|4294967296|\bstd::num::wrapping_"):
        if not re.search(r": (requires|ensures)\b", line):
            yield line


def clauses(head):
    for found in re.finditer(r"requires(?: \w+)? \{ (.*?) \}$", head, re.M | re.S):
        for fact in re.split(r" × ", found.group(1)):
            yield fact.strip().strip("()")


def point5(root):
    facts, together = Counter(), Counter()
    for path, text in sources(root):
        for number, name, head, body in functions(text):
            for fact in set(clauses(head)):
                facts[re.sub(r"\.(now|old|entry)\b", "", fact)] += 1
            names = re.findall(r"(\w+): ", head.split("->")[0])
            for i in range(len(names) - 2):
                together[", ".join(names[i: i + 3])] += 1
    for fact, count in facts.most_common():
        if count > 2:
            yield f"{count} contracts: {fact}"
    for names, count in together.most_common():
        if count > 2:
            yield f"{count} functions: {names}"


def point6(root):
    yield from matches(root, r"\[(?:\w|::)+; \w+\],?$|: \[\w+; ")
    yield from matches(root, r"&(mut )?\w+\[(0\.\.|\w*\.\.)\w+\]")


def point7(root):
    yield from matches(root, r"\bmatch (step|stage|made|phase|state)\b|\bfn\(|\bdyn\b")


def point8(root):
    for path in sorted(glob.glob(os.path.join(root, "crates/*/proofs/**/Answers.antt"), recursive=True)):
        with open(path, encoding="utf-8") as file:
            bodies = re.findall(r"^pub (\S+) : goal\.\S+\n(?:unfolding.*\n)?\1 (?:\w+ )?c =\s*(.*?)(?=^pub |^--|\Z)", file.read(), re.M | re.S)
        seen = Counter(re.sub(r"\s+", " ", body).strip() for _, body in bodies)
        for body, count in seen.items():
            if count > 2:
                yield f"{os.path.relpath(path, os.path.join(root, 'crates'))}: {count} answers: {body[:80]}"


def main():
    here = os.path.dirname(os.path.dirname(os.path.abspath(__file__)))
    words = sys.argv[1:]
    points = [words.pop(0)] if words and words[0].isdigit() else list("12345678")
    root = words[0] if words else here
    for point in points:
        found = list(globals()["point" + point](root))
        print(*found, f"point {point}: {len(found)}", sep="\n")


if __name__ == "__main__":
    main()
