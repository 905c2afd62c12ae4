#!/usr/bin/env python3
"""split.py ROOT A B above|below --src m,.. --specs S,.. --laws L,.. --edits e,.. --declared T,.. : modules of crate A to a new crate B."""
import re, sys, pathlib, argparse
p = argparse.ArgumentParser()
p.add_argument("root"); p.add_argument("a"); p.add_argument("b"); p.add_argument("where")
for k in ("src", "specs", "laws", "edits", "declared"): p.add_argument("--" + k, default="")
p.add_argument("--about-src", default=""); p.add_argument("--about-specs", default="")
o = p.parse_args()
R = pathlib.Path(o.root); A, B = o.a, o.b
ls = lambda s: [x for x in s.split(",") if x]
src, specs, laws, edits, declared = map(ls, (o.src, o.specs, o.laws, o.edits, o.declared))
ca, cb = R / "crates" / A, R / "crates" / B
for d in ("src", "specs", "proofs"): (cb / d).mkdir(parents=True, exist_ok=True)
def mv(x, y):
    y.parent.mkdir(parents=True, exist_ok=True); x.rename(y)
for m in src:
    mv(ca / f"src/{m}.rt", cb / f"src/{m}.rt")
    if (ca / f"proofs/{m}").exists(): mv(ca / f"proofs/{m}", cb / f"proofs/{m}")
for m in specs: mv(ca / f"specs/{m.replace('.', '/')}.antt", cb / f"specs/{m.replace('.', '/')}.antt")
for m in laws: mv(ca / f"proofs/{m}.antt", cb / f"proofs/{m}.antt")
for e in edits: mv(ca / f"must-fail/{e}.edit", cb / f"must-fail/{e}.edit")
if (ca / "must-fail").exists() and not list((ca / "must-fail").iterdir()): (ca / "must-fail").rmdir()
def libs(kind, ext, names, decl):
    f = ca / kind / f"Lib.antt" if ext == "antt" else ca / kind / "lib.rt"
    text = f.read_text(); kept = []
    for line in text.split("\n"):
        m = re.match(r"\s*(?:pub )?mod (\w+);?$", line)
        if m and m[1] in names: continue
        kept.append(line)
    f.write_text("\n".join(kept))
libs("src", "rt", src, ""); libs("specs", "antt", [s for s in specs if "." not in s], ""); libs("proofs", "antt", laws, "")
inner = [s.split(".")[1] for s in specs if "." in s]
if inner:
    f = ca / "specs/inner.antt"
    f.write_text("".join(l + "\n" for l in f.read_text().split("\n") if l and not (re.match(r"pub mod (\w+)$", l) and l.split()[-1] in inner)))
    (cb / "specs/inner.antt").write_text("".join(f"pub mod {m}\n" for m in inner))
types = ""
for d in declared:
    f = ca / "src/lib.rt"; x = f.read_text()
    m = re.search(rf"(?ms)\n((?://[^\n]*\n)*pub (?:enum|struct) {d} \{{.*?^\}}\n?)", x)
    types += "\n" + m[1]; f.write_text(x.replace(m[0], ""))
g = cb / "src/lib.rt"
if not g.exists(): g.write_text((f"// {o.about_src}\n" if o.about_src else "") + "".join(f"pub mod {m};\n" for m in src) + types)
g = cb / "specs/Lib.antt"
if not g.exists(): g.write_text((f"-- {o.about_specs}\n" if o.about_specs else "") + "".join(f"pub mod {m}\n" for m in specs if "." not in m) + ("pub mod inner\n" if inner else ""))
g = cb / "proofs/Lib.antt"
if not g.exists(): g.write_text("".join(f"pub mod {m}\n" for m in laws))
home = {("specs", s): B for s in specs} | {("proofs", s): B for s in laws + src} | {("specs", "declared." + d): B for d in declared}
bad = []
def fix(path):
    t = path.read_text(); c = path.relative_to(R / "crates").parts[0] if "crates" in path.parts else None
    def sub(m):
        d0, kind, mod = m[1], m[3], m[4]
        if d0 not in (A, B): return m[0]
        d = home.get((kind, mod), A) if d0 == A else B
        if c == B and d == A and o.where == "below": bad.append(f"{path}: {m[0]}")
        return (f"Rattle·{d}·{kind}.{kind}.{mod}" if c == d else f"Rattle·{d}.{kind}.{mod}")
    n = re.sub(r"Rattle·(\w+?)(·specs|·proofs)?\.(specs|proofs)\.((?:declared|inner)\.\w+|\w+)", sub, t)
    if path.suffix == ".rt":
        for m in src + declared:
            if c == A: n = re.sub(rf"\bcrate::{m}\b", f"{B}::{m}", n)
            elif c == B: pass
            else: n = re.sub(rf"\b{A}::{m}\b", f"{B}::{m}", n)
        if c == B:
            n = re.sub(r"\bcrate::(\w+)\b", lambda m: m[0] if m[1] in src + declared else f"{A}::{m[1]}", n)
            if o.where == "below" and re.search(rf"\b{A}::", n): bad.append(f"{path}: uses {A}::")
    if n != t: path.write_text(n)
for path in (R / "crates").glob("**/*"):
    if path.suffix in (".antt", ".rt") and path.is_file(): fix(path)
# names in documents
for path in [*R.glob("docs/**/*.md"), R / "README.md", *R.glob("include/*.h"), *R.glob("tests/**/*.md")]:
    t = n = path.read_text()
    for m in src + declared: n = re.sub(rf"\b{A}::{m}\b", f"{B}::{m}", n)
    for m in specs: n = n.replace(f"{A}/specs/{m.replace('.', '/')}.antt", f"{B}/specs/{m.replace('.', '/')}.antt")
    for m in laws: n = n.replace(f"{A}/proofs/{m}.antt", f"{B}/proofs/{m}.antt").replace(f"{A}/{m}:", f"{B}/{m}:")
    if n != t: path.write_text(n)
# crates.txt
lines = (R / "crates.txt").read_text().split("\n"); out = []
def cites(c, x):
    for path in (R / "crates" / c).glob("**/*"):
        if path.suffix in (".antt", ".rt") and path.is_file():
            t = path.read_text()
            if re.search(rf"Rattle·{x}[.·]", t) or (path.suffix == ".rt" and re.search(rf"\b{x}::", t)): return True
    return False
for line in lines:
    m = re.match(r"(\w+):\s*(.*)$", line)
    if not m: out.append(line); continue
    name, deps = m[1], m[2].split()
    if name == A:
        new = [d for d in deps if cites(B, d)]
        if o.where == "below":
            out.append(f"{B}: {' '.join(new)}"); out.append(f"{A}: {' '.join(deps + [B])}")
        else:
            out.append(line); out.append(f"{B}: {' '.join(new + ([A] if cites(B, A) else []))}")
    else:
        if cites(name, B) and B not in deps:
            if A in deps:
                i = deps.index(A); deps.insert(i if o.where == "below" else i + 1, B)
            else: deps.append(B)
        out.append(f"{name}: {' '.join(deps)}" if deps else line)
(R / "crates.txt").write_text("\n".join(out))
print("\n".join(bad) or "ok")
