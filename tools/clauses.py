#!/usr/bin/env python3
"""Writes the impossible cases that a check asks for: `write the clause ..` in a lemma by cases, behind the lemma's last clause.

usage: tools/clauses.py OUTPUT, in the crate's folder, OUTPUT being what `rt check` printed
"""
import re
import sys

done = set()
for m in re.finditer(r"(?m)^(\./\S+?):(\d+):\d+: error: `(\S+)`: write the clause `(.*)`$", open(sys.argv[1], encoding="utf-8").read()):
    path, row, name, clause = m[1], int(m[2]), m[3], m[4]
    if (path, clause) in done:
        continue
    done.add((path, clause))
    lines = open(path, encoding="utf-8").read().split("\n")
    at = [i for i, l in enumerate(lines) if re.match(rf" *{re.escape(name)} ", l) and not re.match(rf" *{re.escape(name)} :", l)]
    # the one that the message points at, or the nearest
    starts = [i for i in at if i >= row - 1] or at
    if not starts:
        print("left:", path, row, clause)
        continue
    # the last clause of that lemma, with its later lines
    i = starts[0]
    indent = len(lines[i]) - len(lines[i].lstrip())
    last = i
    j = i + 1
    while j < len(lines):
        l = lines[j]
        if l.strip() and len(l) - len(l.lstrip()) <= indent:
            if re.match(rf"{' ' * indent}{re.escape(name)} ", l):
                last = j
            elif not l.lstrip().startswith("--"):
                break
        j += 1
    j = last + 1
    while j < len(lines) and lines[j].strip() and len(lines[j]) - len(lines[j].lstrip()) > indent:
        j += 1
    lines.insert(j, " " * indent + clause)
    open(path, "w", encoding="utf-8").write("\n".join(lines))
    print("wrote", path, clause)
