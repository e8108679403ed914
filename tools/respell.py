#!/usr/bin/env python3
"""Respells this repository's own antt names to today's forms: snake_case for definitions, lemmas, fields and local
names that were written with dashes or in camelCase. Run once, at the top, after the kit's port.py.

A name is taken if a file of specs/ or proofs/ declares it. Names that Rattle makes (goals, steps, their fields) and
names of the library are left, as are strings and the Rust names of src/. Two names that would fall together, or fall on a
name that is there already, stop the script."""
import glob, re, sys

TOKEN = re.compile(r"[^\s(){}\[\];,.«»]+")
DECLARED = re.compile(r"^\s*(?:(?:pub|abbrev|unfoldable|let)\s+)*([^\s(){}\[\];,.:=|]+(?:\s+[^\s(){}\[\];,.:=|]+)*)\s+:\s")
LET = re.compile(r"\blet\s+([^\s(){}\[\];,.:=|]+)\s+[:=]\s")
GOAL = re.compile(r":\s+goal\.")


def snake(name):
    name = re.sub(r"(?<=[a-z0-9])([A-Z])", lambda m: "_" + m.group(1).lower(), name) if name[0].islower() else name
    return name.replace("-", "_")


def main():
    antt = sorted(glob.glob("crates/*/specs/**/*.antt", recursive=True) + glob.glob("crates/*/proofs/**/*.antt", recursive=True))
    rt = sorted(glob.glob("crates/*/src/**/*.rt", recursive=True))
    taken, goals, seen = set(), set(), set()
    for path in antt:
        for line in open(path):
            line = line.split("--")[0] if line.lstrip().startswith("--") else line
            seen.update(TOKEN.findall(line))
            m = DECLARED.match(line)
            if m:
                names = [n for n in m.group(1).split() if n not in ("pub", "abbrev", "unfoldable", "let", "record", "data", "module")]
                (goals if GOAL.search(line) else taken).update(names)
            taken.update(LET.findall(line))
    names = {n: snake(n) for n in taken if re.match(r"^[a-z][A-Za-z0-9_'-]*$", n) and snake(n) != n}
    names = {n: s for n, s in names.items() if n not in goals}
    clash = {n: s for n, s in names.items() if s in seen}
    double = {s for s in names.values() if list(names.values()).count(s) > 1}
    if "--list" in sys.argv:
        for n in sorted(names):
            print(n, names[n], "FALLS TOGETHER" if n in clash or names[n] in double else "")
        return
    if clash or double:
        sys.exit(f"names fall together: {clash} {double}")
    for path in antt + rt:
        text = open(path).read()
        out = []
        for line in text.split("\n"):
            # in Rust only imports and clauses have antt names
            if path.endswith(".rt") and not re.match(r"\s*(ghost\b|requires\b|ensures\b)", line):
                out.append(line)
                continue
            # w has the facts of a branch, under names that Rattle makes, as w.low-is
            out.append(TOKEN.sub(lambda m: m.group(0) if line[: m.start()].endswith("w.") else names.get(m.group(0), m.group(0)), line))
        new = "\n".join(out)
        if new != text:
            open(path, "w").write(new)


main()
