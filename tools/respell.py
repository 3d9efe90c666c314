#!/usr/bin/env python3
"""Brings the names of this repository's own definitions and lemmas to one spelling: words in snake case, facts and types in camel case.

usage: tools/respell.py [--list]    at the top of the checkout; --list shows the names and writes nothing

A name is turned wherever it stands in specs/ and proofs/, and in the clauses of src/. Left alone: functions, types, fields and constants of src/,
names of the library, the names that the checker makes (goals, invariants, measures), strings and comments.
"""
import os
import re
import sys

NAME = re.compile(r"(?<![\w'-])[A-Za-z][\w']*(?:-[\w']+)*(?![\w'-])")
SIGNED = re.compile(r"\s*(?:(?:abbrev|unfoldable|pub|record|data)\s+)*([A-Za-z][\w'-]*)(?:\s+[({].*?[)}])*\s*:(?!:)\s*(.*)")
HEADED = re.compile(r"\s*(?:pub\s+)?(?:record|data)\s+(?:pub\s+)?([A-Za-z][\w'-]*)")
IMPORT = re.compile(r"use\s+(Rattle\.std|Rattle\.core|mathlib|Prim|lib|borrow|logic)\b[^;]*?\.\{([^}]*)\}")
CLAUSE = re.compile(r"\s*(?:pub\s+)?(?:ghost|requires|ensures)\b")


def files(ending):
    for folder, dirs, names in os.walk("crates"):
        dirs[:] = sorted(d for d in dirs if d not in ("out", "target"))
        for name in sorted(names):
            if name.endswith(ending):
                yield os.path.join(folder, name)


def text_of(path):
    with open(path, encoding="utf-8") as f:
        return f.read()


def own_and_taken():
    """The names that this repository defines, and those of the library or of the checker."""
    own, taken = {}, set()
    for path in files(".antt"):
        text = text_of(path)
        for _, names in IMPORT.findall(text):
            taken.update(n.split(" as ")[0].strip() for n in names.split(","))
        for line in text.split("\n"):
            if line.lstrip().startswith("--"):
                continue
            m = SIGNED.match(line)
            if m and re.match(r"goal\.", m.group(2)):
                taken.add(m.group(1))
            elif m:
                own.setdefault(m.group(1), set()).add(path)
            m = HEADED.match(line)
            if m:
                own.setdefault(m.group(1), set()).add(path)
    return own, taken


def spelled(name):
    if name[0].isupper():
        return "".join(p[0].upper() + p[1:] for p in name.split("-"))
    return re.sub(r"(?<=[a-z0-9])([A-Z])", lambda m: "_" + m.group(1).lower(), name.replace("-", "_"))


def turned(path, names):
    """The text of a file with the names turned, comments and strings left as they are."""
    def put(m):
        return names.get(m.group(0), m.group(0))

    lines = text_of(path).split("\n")
    clause = path.endswith(".antt")
    depth = 0
    for i, line in enumerate(lines):
        mark = "--" if path.endswith(".antt") else "//"
        if line.lstrip().startswith(mark):
            continue
        if path.endswith(".antt") or depth or CLAUSE.match(line):
            lines[i] = NAME.sub(put, line)
            if not clause:
                depth = max(0, depth + line.count("{") - line.count("}"))
    return "\n".join(lines)


def main():
    own, taken = own_and_taken()
    names = {n: spelled(n) for n in own if n not in taken and spelled(n) != n and ("-" in n or n[0].islower())}
    back = {}
    for n in sorted(names):
        back.setdefault(names[n], []).append(n)
    for new, olds in sorted(back.items()):
        also = sorted(p for o in olds for p in own[o]) if len(olds) > 1 else []
        if len(olds) > 1 or new in own:
            print(f"falls together: {', '.join(olds)} -> {new} {also} {sorted(own.get(new, []))}")
    print(f"{len(names)} names")
    if "--list" in sys.argv:
        for n in sorted(names):
            print(n, names[n])
        return
    for ending in (".antt", ".rt"):
        for path in files(ending):
            new = turned(path, names)
            if new != text_of(path):
                with open(path, "w", encoding="utf-8") as f:
                    f.write(new)


main()
