#!/usr/bin/env python3
"""twins_merge.py ROOT [--table FILE] [--do N,N,.. | --do all]: laws proved in two or more files (issue 45, point 2).

Without --do it only classifies and, with --table, writes the Markdown table. --do applies the mechanical groups (`merge`): the copies go,
the kept law becomes `pub`, files that used a copy import it, crates.txt lists the kept law's crate. Nothing is checked by the prover.

  merge   every place is at the margin, words mean the same in all files, one copy lies in a crate that all the others may use
  home    as merge, but no copy lies low enough: `lowest room` says where the law has to be written first
  nested  a copy stands in a `where` or a module whose parameters it does not use: by hand
  params  the statement speaks of a module's parameters: by hand, and often not worth it
  field   one of them is a record's field: no twin
  differ  the words come from different modules: look
"""
import collections, os, re, sys

ROOT = sys.argv[1]
TABLE = sys.argv[sys.argv.index("--table") + 1] if "--table" in sys.argv else None
DO = sys.argv[sys.argv.index("--do") + 1] if "--do" in sys.argv else None
CR = os.path.join(ROOT, "crates")
deps, order = {}, []
for line in open(os.path.join(ROOT, "crates.txt"), encoding="utf-8"):
    if ":" in line and not line.startswith("#"):
        a, b = line.split(":", 1)
        deps[a.strip()] = b.split()
        order.append(a.strip())
below = {}
for c in order:
    below[c] = set(deps[c]).union(*[below.get(d, set()) for d in deps[c]]) if deps[c] else set()
texts = {}
for folder, _, files in os.walk(CR):
    for f in files:
        if f.endswith((".antt", ".rt")):
            p = os.path.relpath(os.path.join(folder, f), CR)
            texts[p] = open(os.path.join(CR, p), encoding="utf-8").read()
NAME = r"[\w'′·-]"
USE = re.compile(r"(?m)^( *)((?:ghost |unfoldable |pub )*use) ([^\s{;]+?)\.\{([^}]*)\}")


def key(path):
    m = re.match(r"Rattle·([a-z0-9_]+)(?:·specs|·proofs)?\.(.*)$", path)
    return m[1] + "/" + m[2].replace(".", "/") if m else path


PASSED = {}  # (module, name) -> where a page passes it on from
for p, t in texts.items():
    for m in USE.finditer(t):
        if "pub" in m[2]:
            for n in m[4].split(","):
                PASSED[(p[:-5], n.strip())] = key(m[3])


def source(mod, n):
    seen = set()
    while (mod, n) in PASSED and mod not in seen:
        seen.add(mod)
        mod = PASSED[(mod, n)]
    return mod


def imports(p):
    got = {}
    for m in USE.finditer(texts[p]):
        for n in m[4].split(","):
            n = n.strip()
            a, _, b = n.partition(" as ")
            got[b or a] = source(key(m[3]), a)
    for m in re.finditer(r"(?m)^ *use (\S+) as ([\w-]+)", texts[p]):
        got[m[2]] = key(m[1])
    return got


found = collections.defaultdict(list)
for p in texts:
    if "/proofs/" not in p or not p.endswith(".antt") or p.endswith("/Proof.antt"):
        continue
    lines = texts[p].split("\n")
    for i, line in enumerate(lines):
        m = re.match(r"\s*(pub )?([a-z][\w'-]*) :(.*)$", line)
        if not m or " = " in line.split(" : ")[0]:
            continue
        ind = len(line) - len(line.lstrip())
        text, j = m[3], i + 1
        while j < len(lines) and lines[j].strip() and len(lines[j]) - len(lines[j].lstrip()) > ind + 1 \
                and not re.match(r"\s*(unfolding|%s )" % re.escape(m[2]), lines[j]):
            text += " " + lines[j].strip()
            j += 1
        k = j
        while k < len(lines) and lines[k].strip() and (len(lines[k]) - len(lines[k].lstrip()) > ind
                or re.match(r"\s*(unfolding |%s(?!%s))" % (re.escape(m[2]), NAME), lines[k])):
            k += 1
        tokens = re.findall(r"[A-Za-zα-ω_][\w·'-]*|\S", text)
        bound = {v for g in re.findall(r"[({]([^():{}]+?) :", text) for v in g.split()}
        names = {}
        stmt = " ".join("v%d" % names.setdefault(t, len(names)) if t in bound else t for t in tokens)
        if len(tokens) > 9:
            parent = next((l.strip() for l in reversed(lines[:i]) if l.strip() and not l.strip().startswith("--")
                           and len(l) - len(l.lstrip()) < ind), "")
            plain = re.sub(r"([a-z][\w-]*)\.[A-Z]\w*", r"\1", re.sub(r"\{A = ", "{", text))
            bound |= {v for g in re.findall(r"λ ([^.(]+)\.", text) for v in g.split()} | {v for v in re.findall(r"λ \((\w+) :", text)}
            free = {t for t in re.findall(r"(?<!\.)[A-Za-zα-ω_][\w·'-]*", plain) if re.match(r"[A-Za-zα-ω]", t) and t not in bound and t not in ("λ", "Type", "let", "in")}
            found[stmt].append(dict(p=p, line=i, end=k, name=m[2], pub=bool(m[1]), ind=ind, parent=parent, text=text.strip(), free=free))
groups = sorted(((s, v) for s, v in found.items() if len({x["p"] for x in v}) > 1), key=lambda g: (-len(g[1]), g[0]))
crate = lambda x: x["p"].split("/")[0]


def classify(places):
    if any(re.match(r"(pub )?record ", x["parent"]) for x in places):
        return "field", None, None
    means, kind = [imports(x["p"]) for x in places], "merge"
    words, local = set(), False
    for w in places[0]["free"]:
        src = {m.get(w) for m in means}
        top = re.compile(r"(?m)^(?:(?:pub|abbrev|unfoldable) )*(?:record |data )?%s(?!%s)" % (re.escape(w), NAME))
        if src == {None}:
            if all(top.search(texts[x["p"]]) for x in places):
                kind = "differ"  # each file has a word of its own
            elif not re.match(r"ℕ|Type", w):
                local = True
        elif len(src) > 1:
            kind = "differ"
        else:
            words.add(src.pop())
    if local:
        return "params", None, None
    rooms = {s.split("/")[0] for s in words if s.split("/")[0] in below}
    room = next((c for c in order if c in rooms and rooms - {c} <= below[c]), None) or next(
        (c for c in order if rooms <= below[c] | {c}), "wire")
    if kind == "differ":
        return kind, None, room
    ok = [x for x in places if x["ind"] == 0 and all(crate(x) == crate(y) or crate(x) in below[crate(y)] for y in places)]
    keep = min(ok, key=lambda x: (order.index(crate(x)), not x["pub"], x["p"])) if ok else None
    if keep and any(x["ind"] for x in places):
        return "nested", keep, room
    if not keep:
        return ("nested" if any(x["ind"] for x in places) else "home"), None, room
    return "merge", keep, room


def module_path(p, seen_from):
    c, rest = p.split("/", 1)
    rest = rest[:-5].replace("/", ".")
    return "Rattle·%s%s.%s" % (c, "·proofs" if seen_from.split("/")[0] == c else "", rest)


def cycle(a, b):
    """whether file a already imports, in its own crate, a file that comes to b (b would import a)"""
    todo, seen = [a], set()
    while todo:
        p = todo.pop()
        if p == b:
            return True
        if p in seen or p not in texts:
            continue
        seen.add(p)
        for m in USE.finditer(texts[p]):
            k = key(m[3])
            todo.append(k + ".antt")
    return False


rows = []
for n, (stmt, places) in enumerate(groups, 1):
    kind, keep, room = classify(places)
    note = ""
    if kind == "merge":
        for x in places:
            if x is keep:
                continue
            t = texts[x["p"]]
            if len(re.findall(r"(?m)^ *(?:pub )?%s :" % re.escape(x["name"]), t)) > 1:
                note += " %s means more in %s;" % (x["name"], x["p"])
            if x["name"] != keep["name"] and re.search(r"(?<!%s)%s(?!%s)" % (NAME, re.escape(keep["name"]), NAME), t):
                note += " %s stands already in %s;" % (keep["name"], x["p"])
            if cycle(keep["p"], x["p"]):
                note += " %s would import in a circle;" % x["p"]
        if note:
            kind = "hand"
    longest = max(x["end"] - x["line"] for x in places)
    saved = sum(x["end"] - x["line"] + 1 for x in places if x is not keep)
    worth = "no" if kind in ("field",) or (kind == "params" and longest <= 3) or (longest <= 2 and len(places) == 2) or (
        kind == "nested" and len(places) == 2 and longest <= 3) else "yes"
    rows.append((n, kind, worth, room, keep, places, saved, note, stmt))


def apply(row):
    n, kind, worth, room, keep, places, saved, note, stmt = row
    kp = keep["p"]
    if not keep["pub"]:
        texts[kp] = re.sub(r"(?m)^%s :" % re.escape(keep["name"]), "pub %s :" % keep["name"], texts[kp], count=1)
    for x in places:
        if x is keep or x["p"] == kp:
            continue
        lines = texts[x["p"]].split("\n")
        start = next(i for i, l in enumerate(lines) if re.match(r"(pub )?%s :" % re.escape(x["name"]), l))
        end = start + x["end"] - x["line"]
        first = start
        while first and lines[first - 1].startswith("-- ") and not (first > 1 and lines[first - 2].startswith("use ")):
            first -= 1  # its comment goes with it
        gone = lines[first:end]
        del lines[first:end]
        while first < len(lines) and first and not lines[first].strip() and not lines[first - 1].strip():
            del lines[first]
        t = "\n".join(lines)
        t = re.sub(r"(?<!%s)(?<!\.)%s(?!%s)" % (NAME, re.escape(x["name"]), NAME), keep["name"], t)
        t = unused(t, "\n".join(gone))
        texts[x["p"]] = add_import(t, module_path(kp, x["p"]), keep["name"])
        need(crate(x), kp)
        listed(kp, x["p"])
        if x["pub"]:  # those who import the copy import the kept law
            for q in list(texts):
                for m in list(USE.finditer(texts[q])):
                    names = [y.strip() for y in m[4].split(",")]
                    if key(m[3]) + ".antt" == x["p"] and x["name"] in names:
                        names.remove(x["name"])
                        old = m[0]
                        new = "%s%s %s.{%s}" % (m[1], m[2], m[3], ", ".join(names)) if names else ""
                        tq = texts[q].replace(old + "\n", new + "\n" if new else "", 1)
                        tq = re.sub(r"(?<!%s)(?<!\.)%s(?!%s)" % (NAME, re.escape(x["name"]), NAME), keep["name"], tq)
                        texts[q] = add_import(tq, module_path(kp, q), keep["name"])
                        need(q.split("/")[0], kp)
                        listed(kp, q)
        print("%d: %s of %s is %s of %s now; gone:\n    %s" % (n, x["name"], x["p"], keep["name"], kp, "\n    ".join(gone)))


def unused(t, gone):
    """plain names that only the law that went used are no longer imported"""
    words = set(re.findall(r"(?<![\w'·-])[A-Za-z][\w'·-]*", gone))
    code = re.sub(r"(?m)^ *(?:pub |unfoldable )*use .*$|--.*$", "", t)

    def one(m):
        names = [y.strip() for y in m[4].split(",")]
        kept = [y for y in names if "pub" in m[2] or y not in words or re.search(r"(?<!%s)%s(?!%s)" % (NAME, re.escape(y), NAME), code)]
        return m[0] if kept == names else "%s%s %s.{%s}" % (m[1], m[2], m[3], ", ".join(kept)) if kept else "\0"

    return re.sub(r"\0\n?", "", USE.sub(one, t))


def listed(kp, user):
    """a page that another crate imports stands in its crate's Lib"""
    c, rest = kp.split("/", 1)
    lib, mod = c + "/proofs/Lib.antt", rest[len("proofs/") : -5]
    if user.split("/")[0] != c and not re.search(r"(?m)^pub mod %s$" % mod, texts[lib]):
        texts[lib] = texts[lib].rstrip("\n") + "\npub mod %s\n" % mod
        print("listed in %s: %s" % (lib, mod))


def add_import(t, path, name):
    if not re.search(r"(?<!%s)%s(?!%s)" % (NAME, re.escape(name), NAME), re.sub(r"(?m)^ *(?:pub |unfoldable |ghost )*use .*$|--.*$", "", t)):
        return t  # the file only had the law for others
    m = re.search(r"(?m)^use %s\.\{([^}]*)\}" % re.escape(path), t)
    if m:
        return t if name in [y.strip() for y in m[1].split(",")] else t[: m.end() - 1] + ", " + name + t[m.end() - 1 :]
    last = [u for u in re.finditer(r"(?m)^use \S.*$", t)]
    at = last[-1].end() if last else 0
    return t[:at] + "\nuse %s.{%s}" % (path, name) + t[at:]


NEED = collections.defaultdict(set)


def need(c, kp):
    k = kp.split("/")[0]
    if k != c and k not in deps[c]:
        NEED[c].add(k)


if TABLE:
    with open(TABLE, "w", encoding="utf-8") as f:
        f.write("# Twin laws (issue 45, point 2)\n\nMade by `tools/twins_merge.py ROOT --table 45-twins.md`; the kinds are explained at its head. "
                "`keep` is the copy that stays (+ where it has to be made `pub`), `lowest room` the lowest crate that has the statement's words.\n"
                "`worth` is `no` for record fields and for one-liners whose import costs as much. `(p)` is a public copy, `(n)` a nested one, "
                "behind it the lines of statement and proof.\n\n")
        by = collections.Counter(r[1] for r in rows)
        f.write("Groups: %d. %s. Worth doing: %d.\n\n" % (len(rows), ", ".join("%s %d" % kv for kv in by.most_common()), sum(r[2] == "yes" for r in rows)))
        f.write("| n | kind | worth | lowest room | keep | places | lines saved | statement | note |\n|---|---|---|---|---|---|---|---|---|\n")
        for n, kind, worth, room, keep, places, saved, note, stmt in rows:
            f.write("| %d | %s | %s | %s | %s | %s | %d | %s | %s |\n" % (
                n, kind, worth, room or "", "%s `%s`%s" % (keep["p"], keep["name"], "" if keep["pub"] else " +") if keep else "",
                "; ".join("%s:%d `%s`%s%s %d" % (x["p"], x["line"] + 1, x["name"], "(p)" if x["pub"] else "", "(n)" if x["ind"] else "", x["end"] - x["line"]) for x in places),
                saved, "``" + re.sub(r"\s+", " ", places[0]["text"]).replace("|", "\\|")[:140] + "``", note.strip()))
if DO:
    chosen = {r[0] for r in rows if r[1] == "merge" and (r[2] == "yes" or DO != "all")} if DO == "all" else {int(x) for x in DO.split(",")}
    original = dict(texts)
    for r in rows:
        if r[0] in chosen:
            if r[1] != "merge":
                print("%d is %s: by hand" % (r[0], r[1]))
                continue
            apply(r)
    for p in texts:
        if texts[p] != original[p]:
            open(os.path.join(CR, p), "w", encoding="utf-8").write(texts[p])
    t = open(os.path.join(ROOT, "crates.txt"), encoding="utf-8").read()
    for c, ks in NEED.items():
        t = re.sub(r"(?m)^(%s:.*)$" % c, lambda m: m[1] + " " + " ".join(sorted(ks)), t)
        print("crates.txt: %s also uses %s" % (c, " ".join(sorted(ks))))
    open(os.path.join(ROOT, "crates.txt"), "w", encoding="utf-8").write(t)
print(collections.Counter((r[1], r[2]) for r in rows), "lines saved by merge:", sum(r[6] for r in rows if r[1] == "merge"))
