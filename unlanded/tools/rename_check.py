#!/usr/bin/env python3
"""rename_check.py ROOT: what a rename could have broken and can be seen without the prover. Compare its output before and after (by count).

Looks at: `use` of .rt (crate, module, item), crates.txt against folders, modules of Lib.antt and lib.rt against files, functions' proof folders
and their `-spec`, imports of .antt against files and words, must-fail edits against the line that they edit, modules called as a crate.
"""
import os, re, sys
R = sys.argv[1]; C = os.path.join(R, "crates"); bad = []
read = lambda p: open(p, encoding="utf-8").read()
crates = set(os.listdir(C))
listed = {l.split(":")[0].strip(): set(l.split(":")[1].split()) for l in read(os.path.join(R, "crates.txt")).split("\n") if ":" in l and not l.startswith("#")}
for c in crates ^ set(listed): bad.append("crates.txt and crates/ differ: " + c)
for c, ds in listed.items():
    for d in ds - set(listed): bad.append("crates.txt: %s uses %s" % (c, d))
rt, an = {}, {}
for f, _, fs in os.walk(C):
    for n in fs:
        p = os.path.relpath(os.path.join(f, n), C)
        if n.endswith(".rt"): rt[p] = read(os.path.join(f, n))
        if n.endswith(".antt"): an[p] = read(os.path.join(f, n))
        if n.endswith(".edit"):
            t = read(os.path.join(f, n)); m = re.search(r"(?m)^file: (\S+)", t); o = re.search(r"(?ms)^old: (.*?)^new:", t)
            target = os.path.join(C, p.split("/")[0], m[1]) if m else ""
            if not os.path.exists(target): bad.append("edit without file: " + p)
            elif o and o[1].rstrip("\n").strip() not in read(target) and o[1].split("\n")[0].strip() not in read(target): bad.append("edit without line: " + p)
for p, t in rt.items():
    c, name = p.split("/")[0], p.split("/")[-1][:-3]
    if name in crates and name != "lib": bad.append("module called as a crate: " + p)
    for m in re.finditer(r"(?m)^(?:pub )?(?:pub\(crate\) )?mod (\w+);", t):
        if "%s/src/%s.rt" % (c, m[1]) not in rt: bad.append("%s: mod %s has no file" % (p, m[1]))
    mods = {}
    for m in re.finditer(r"(?m)^use ([\w:]+)(?: as (\w+))?;", t):
        w = m[1].split("::"); k = c if w[0] == "crate" else w[0]
        if k not in crates:
            if "%s/src/%s.rt" % (c, k) not in rt: bad.append("%s: %s" % (p, m[0]))
            continue
        if k != c and k not in listed.get(c, ()): bad.append("%s: %s, not in crates.txt" % (p, m[0]))
        src = "%s/src/lib.rt" % k
        if len(w) > 1 and "%s/src/%s.rt" % (k, w[1]) in rt:
            src = "%s/src/%s.rt" % (k, w[1]); w = w[1:]
        if len(w) > 1 and not re.search(r"\b(enum|struct|fn|const|mod|use) (\w+::)*%s\b" % w[-1], rt.get(src, "")): bad.append("%s: %s" % (p, m[0]))
        mods[m[2] or m[1].split("::")[-1]] = src
    for m in re.finditer(r"(?<![\w:.])([a-z_0-9]+)::([a-z_0-9]+)(?=\()", re.sub(r"//.*", "", t)):
        if m[1] in mods and not re.search(r"\bfn %s\b" % m[2], rt.get(mods[m[1]], "")): bad.append("%s: %s" % (p, m[0]))
        if m[1] not in mods and m[1] not in crates and "%s/src/%s.rt" % (c, m[1]) not in rt and m[1] not in ("u8", "u32", "u64", "usize"): bad.append("%s: unknown %s" % (p, m[0]))
    for m in re.finditer(r"\bfn (\w+)", re.sub(r"//.*", "", t)):
        base = "%s/proofs/%s%s/Proof.antt" % (c, "" if name == "lib" else name + "/", m[1])
        if base not in an: bad.append("no proof " + base)
        elif not re.search(r"(?m)^pub %s-spec :" % m[1].replace("_", "-"), an[base]): bad.append("no -spec in " + base)
for p, t in an.items():
    c = p.split("/")[0]
    if p.endswith("/Lib.antt"):
        for m in re.finditer(r"(?m)^pub mod (\w+)", t):
            if not os.path.exists(os.path.join(C, os.path.dirname(p), m[1] + ".antt")): bad.append("%s: pub mod %s" % (p, m[1]))
    if p.endswith("/Proof.antt"):
        b = "Rattle·%s·proofs.%s." % (c, os.path.dirname(p).split("/", 1)[1].replace("/", "."))
        for m in re.finditer(r"Rattle·\S+?\.(?:Statement|Tie)\b", t):
            if not m[0].startswith(b): bad.append("%s: %s" % (p, m[0]))
words = {p: set(re.findall(r"[^\s(){},;.]+", t)) for p, t in an.items()}
for p, t in list(an.items()) + list(rt.items()):
    for m in re.finditer(r"use Rattle·([a-z0-9_]+)(·specs|·proofs)?\.([^\s{;]+?)(?:\.\{([^}]*)\}|(?=[\s;]))", t):
        k, path = m[1], m[3].rstrip(".")
        if k not in crates: bad.append("%s: %s" % (p, m[0][:80])); continue
        d = re.match(r"specs\.declared\.(.*)$", path)
        if d:
            w = [x for x in d[1].split(".") if x != "the-variants"]
            src = "%s/src/%s.rt" % (k, w[0] if len(w) > 1 else "lib")
            if not re.search(r"\b(enum|struct) %s\b" % w[-1], rt.get(src, "")): bad.append("%s: %s" % (p, m[0][:100]))
            elif "the-variants" in path:
                for n in (m[4] or "").split(","):
                    if n.strip() and not re.search(r"\b%s\b" % re.escape(n.split(" as ")[0].strip()), rt[src]): bad.append("%s: case %s" % (p, n))
            continue
        f = "%s/%s.antt" % (k, path.replace(".", "/"))
        if re.search(r"(Statement|Tie)$", path): continue
        if f not in an: bad.append("%s: %s" % (p, m[0][:100])); continue
        for n in (m[4] or "").split(","):
            n = n.split(" as ")[0].strip()
            if n and n not in words[f]: bad.append("%s: %s of %s" % (p, n, f))
for b in sorted(set(bad)): print(b)
print(len(set(bad)), "complaints")
