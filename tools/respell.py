#!/usr/bin/env python3
"""Spells the names that specs/ and proofs/ declare as today's Rattle does: words in snake case, joined by underscores.

usage: tools/respell.py [--check | --list] [TOP]

TOP is the repository's top, by default the folder above this one. A name that begins with a small letter and has a capital or a dash is
turned, and where a page cites it between backticks. Types, modules, names of src/ and what Rattle makes of them stay. Where two names would fall together, a lemma gets `_lem`
behind it, as the style of names asks of one that has its function's name. --check writes nothing, and lists what falls together; --list writes nothing, and lists each crate's names, old and new.
Run once, behind /opt/rattle/port/port.py; a second run finds nothing.
"""

import collections
import os
import re
import subprocess
import sys

sys.dont_write_bytecode = True
sys.path.insert(0, "/opt/rattle/port/notes/2026-11-18-names-are-in-snake-case")
import snake

NAME = r'[^\s(){}.;,@"«»:=]+'
DECLARED = re.compile(
    rf"^ *((?:(?:pub|abbrev|unfoldable|data|record) )*)((?:{NAME} )+)(?:[({{][^\n]*[)}}] )?:(?= |$)", re.M
)
USE = re.compile(r"\buse ([^\s;{]+)(\{[^;]*?\}(?=;|[ \t]*$))?(?: as ([^\s;]+))?", re.M)
MADE = re.compile(r"/proofs/(.*/)?(Proof|Answers|Invariants)\.antt$")
HEADS = "goal,tie,c,w,l,g"


def snaked(name):
    words = re.sub(r"(?<=[a-z0-9'])[A-Z]", lambda m: "_" + m[0].lower(), name)
    return words.replace("-", "_")


def blank(text):
    return snake.QUIET.sub(lambda m: re.sub(r"[^\n]", " ", m[0]), text)


def texts(top):
    for folder, folders, files in os.walk(os.path.join(top, "crates")):
        folders[:] = sorted(f for f in folders if f != "out")
        for f in sorted(files):
            if f.endswith((".antt", ".rt")):
                yield os.path.join(folder, f)


def is_own(path, crates):
    steps = path.strip(".").split(".")
    return steps[0] == "Rattle" and len(steps) > 1 and steps[1] in crates or steps[0] == "package"


def bare(text):
    """The words that stand behind no dot."""
    return set(re.findall(r'(?<![^\s(){};,@«»])[^\s(){}.;,@"«»]+', text))


def main(args):
    check = "--check" in args
    listing = "--list" in args
    args = [a for a in args if a not in ("--check", "--list")]
    here = os.path.dirname(os.path.dirname(os.path.realpath(__file__)))
    top = os.path.realpath(args[0]) if args else here
    crates = set(os.listdir(os.path.join(top, "crates")))
    read = {}
    for where in texts(top):
        with open(where, encoding="utf-8") as f:
            read[where] = f.read()
    lemmas, others, kinds = set(), set(), collections.defaultdict(set)
    for where, text in read.items():
        if not where.endswith(".antt"):
            continue
        for m in DECLARED.finditer(blank(text)):
            for n in m[2].split():
                kinds[n].add(where)
                is_lemma = "/proofs/" in where and not re.search("abbrev|unfoldable|record|data", m[1])
                (lemmas if is_lemma else others).add(n)
        for n in re.findall(r" as ([a-z]\w*-[\w-]+)", blank(text)):
            kinds[n].add(where)
            others.add(n)
    rust = set()
    for where, text in read.items():
        if where.endswith(".rt"):
            rust |= set(re.findall(r"\b(?:fn|const|static|struct|enum|mod|type) (\w+)", text))
    turned = {n: snaked(n) for n in kinds if re.match("[a-z]", n) and snaked(n) != n}
    # Where names fall together, the function has the plain name.
    classes = collections.defaultdict(set)
    for n in kinds:
        classes[turned.get(n, n)].add(n)
    table = dict(turned)
    for new, olds in sorted(classes.items()):
        if len(olds) < 2:
            continue
        rank = lambda n: (n in lemmas and n not in others, "-" in n, n == new and n not in rust, n)
        first, *rest = sorted(olds, key=rank)
        for n in rest:
            table[n] = new + "_lem"
    # A lemma that would have the name of a library's function.
    for where, text in read.items():
        if where.endswith(".antt"):
            for path, items, alias in USE.findall(blank(text)):
                if not is_own(path, crates):
                    theirs = set(re.findall(r'[^\s(){}.;,@"«»]+', items)) - set(table)
                    for n in kinds:
                        if where in kinds[n] and n in lemmas and table.get(n, n) in theirs and n not in theirs:
                            table[n] = table[n] + "_lem"
    taken = collections.Counter(table.get(n, n) for n in kinds)
    twice = [n for n, k in taken.items() if k > 1]
    # What a file brings in from a library stays there.
    kept = {}
    for where, text in read.items():
        code = blank(text) if where.endswith(".antt") else re.sub(r"//[^\n]*", " ", text)
        theirs = set()
        for path, items, alias in USE.findall(code):
            if not is_own(path, crates):
                theirs |= set(re.findall(r'[^\s(){}.;,@"«»]+', items)) or {path.split(".")[-1]}
        mine = {n for n in table if where in kinds.get(n, ())}
        kept[where] = (theirs - mine) & set(table)
    plain = {n for n in table if "_lem" in table[n] and n == table[n][:-4]}
    clashes = []
    for where, text in read.items():
        code = blank(text) if where.endswith(".antt") else re.sub(r"//[^\n]*", " ", text)
        here_table = {a: b for a, b in table.items() if a not in kept[where]}
        words = set(re.findall(r'[^\s(){}.;,@"«»]+', code))
        if where.endswith(".antt"):
            lone = bare(code)
            for a in words & set(here_table):
                b = here_table[a]
                rivals = [x for x in words if x != a and here_table.get(x) == b]
                if rivals or (b in lone and here_table.get(b, b) == b):
                    clashes.append((where, a, b, rivals))
        else:
            named = set(re.findall(r"(?:[(,]|\bmut)\s*(\w+)\s*:", code)) | set(re.findall(r"\blet (?:mut )?(\w+)", code))
            for a in words & set(here_table):
                if here_table[a] in named:
                    clashes.append((where, a, here_table[a], "parameter"))
    if listing:
        of = lambda where: os.path.relpath(where, os.path.join(top, "crates")).split("/")[0]
        for crate, old in sorted({(of(where), n) for n in table for where in kinds[n]}):
            print(crate, old, table[old])
        return 0
    for it in clashes:
        print("clash:", *it)
    for n in twice:
        print("twice:", n, [a for a in kinds if table.get(a, a) == n])
    print(len(table), "names", len(plain), "plain ones get _lem", len(clashes), "clashes")
    if check:
        return 1 if clashes else 0
    changed = 0
    for where, text in read.items():
        names = {a: b for a, b in table.items() if a not in kept[where]}
        turner = snake.Turner(names, "file", set(), [])
        turner.code, turner.after_dot, turner.macros, turner.only_after_dot = False, set(), [], set()
        turner.kept = set()
        if MADE.search(where):
            turner.behind = re.compile(
                r'(?<![^\s(){};,@"«»])(?:%s)[0-9₀-₉′\']*\.(%s)(?:\.%s)*'
                % ("|".join(HEADS.split(",")), r'[^\s(){}.;,@"«»]+', r'[^\s(){}.;,@"«»]+')
            )
        # A name that is spelled like one of src/ turns only where it stands behind no dot.
        turner.after_dot = plain & rust
        new = turner.antt(text, where) if where.endswith(".antt") else turner.rt(text, where)
        if len(new) != len(text):
            new, _ = snake.realigned(text, new)
        if new != text:
            changed += 1
            with open(where, "w", encoding="utf-8") as f:
                f.write(new)
    # The pages cite definitions and laws between backticks.
    cited = {a: b for a, b in table.items() if a not in plain}
    for folder, folders, files in os.walk(top):
        folders[:] = [f for f in folders if f not in (".git", "crates", "target", "unlanded", "out")]
        for f in files:
            if f.endswith(".md"):
                where = os.path.join(folder, f)
                with open(where, encoding="utf-8") as it:
                    text = it.read()
                turner = snake.Turner(cited, "none", set(), [])
                turner.after_dot, turner.only_after_dot = set(), set()
                new = turner.md(text, where)
                if new != text:
                    changed += 1
                    with open(where, "w", encoding="utf-8") as it:
                        it.write(new)
    print(changed, "files")
    for crate in sorted(crates):
        if os.path.isdir(os.path.join(top, "crates", crate, "src")):
            subprocess.run(["rt", "fmt"], cwd=os.path.join(top, "crates", crate), stdout=subprocess.DEVNULL, stderr=subprocess.STDOUT)
    return 0


if __name__ == "__main__":
    raise SystemExit(main(sys.argv[1:]))
