#!/usr/bin/env python3
"""splitmod.py ROOT CRATE specs|proofs M M2 'head comment of M2' names..: top-level definitions of module M moved to a new module M2 of the same crate;
every import of them in the repository follows; imports that are no longer used in M and M2 go. Order in Lib: M2 before M."""
import re, sys, pathlib
R = pathlib.Path(sys.argv[1]); C, K, M, M2, head = sys.argv[2:7]; names = set(sys.argv[7:])
base = R / "crates" / C / K
fm, f2 = base / (M.replace(".", "/") + ".antt"), base / (M2.replace(".", "/") + ".antt")
lines = fm.read_text().split("\n")
i = 0
while lines[i].startswith("--"): i += 1
top = lines[:i]
imports = []
while i < len(lines) and (lines[i].startswith("use ") or lines[i].startswith("unfoldable pub use") or lines[i].startswith("  ") and imports):
    imports.append(lines[i]); i += 1
body = lines[i:]
# blocks: split at blank lines, join those that begin indented or follow a comment-only block
paras, cur = [], []
for l in body + [""]:
    if l == "":
        if cur: paras.append(cur); cur = []
    else: cur.append(l)
blocks, pend = [], []
for p in paras:
    if all(x.startswith("--") for x in p): pend.append(p); continue
    if p[0].startswith(" ") and blocks and not pend: blocks[-1][1].append(p); continue
    blocks.append((pend, [p])); pend = []
def defined(b):
    out = set()
    for p in b[1]:
        for l in p:
            m = re.match(r"(?:(?:pub|abbrev|unfoldable) )*(?:record |data |ruleset )?([^\s(){}:]+)(?: :| \(| \{| =|$)", l)
            if m and not l.startswith(" ") and not l.startswith("--"): out.add(m[1])
            if b[1][0][0].startswith("module"):
                m = re.match(r"  (?:(?:pub|abbrev|unfoldable) )*([^\s(){}:]+)(?: :| \(| \{|$)", l)
                if m: out.add(m[1])
    return out
a, b = [], []
moved = set()
for bl in blocks:
    if defined(bl) & names: b.append(bl); moved |= defined(bl)
    else: a.append(bl)
missing = names - moved
if missing: print("not found:", missing)
def text(bs): return "\n\n".join("\n\n".join("\n".join(x) for x in (pend + ps)) for pend, ps in bs) + "\n"
ta, tb = text(a), text(b)
def prune(imps, t):
    out = []
    for l in imps:
        m = re.match(r"((?:unfoldable pub )?use )(\S+?)\.\{(.*)\}$", l)
        if not m:
            mm = re.match(r"use \S+ as (\S+)$", l)
            if mm and not re.search(rf"(?<![\w·-]){re.escape(mm[1])}\.", t): continue
            out.append(l); continue
        keep = []
        for n in m[3].split(", "):
            parts = [x for x in n.split("_") if x] or [n]
            code = "\n".join(x for x in t.split("\n") if not x.strip().startswith("--"))
            if all(re.search(rf"(?<![\w·'.-]){re.escape(x)}(?![\w·'-])" if re.match(r"\w", x) else re.escape(x), code) for x in parts): keep.append(n)
        if keep: out.append(f"{m[1]}{m[2]}.{{{', '.join(keep)}}}")
    return out
crossa = sorted(n for n in moved if re.search(rf"(?<![\w·'-]){re.escape(n)}(?![\w·'-])", ta))
ia, ib = prune(imports, ta), prune(imports, tb)
if crossa: ia.append(f"use Rattle·{C}·{K}.{K}.{M2}.{{{', '.join(crossa)}}}")
crossb = sorted(n for bl in a for n in defined(bl) if re.search(rf"(?<![\w·'-]){re.escape(n)}(?![\w·'-])", tb))
if crossb: print("M2 needs of M:", crossb)
fm.write_text("\n".join(top + ia) + "\n\n" + ta)
f2.parent.mkdir(parents=True, exist_ok=True)
f2.write_text(f"-- {head}\n" + "\n".join(ib) + "\n\n" + tb)
lib = base / "Lib.antt" if "." not in M else base / (M.split(".")[0] + ".antt")
t = lib.read_text(); short, short2 = M.split(".")[-1], M2.split(".")[-1]
lib.write_text(re.sub(rf"(?m)^pub mod {short}$", f"pub mod {short2}\npub mod {short}", t))
for path in (R / "crates").glob("**/*"):
    if path.suffix not in (".antt", ".rt") or not path.is_file() or path in (fm, f2): continue
    t = path.read_text()
    def sub(m):
        pre, mod, lst, end = m[1], m[2], m[3].split(", "), m[4]
        x, y = [n for n in lst if n not in moved], [n for n in lst if n in moved]
        out = []
        if y: out.append(f"{pre}{mod}.{K}.{M2}.{{{', '.join(y)}}}{end}")
        if x: out.append(f"{pre}{mod}.{K}.{M}.{{{', '.join(x)}}}{end}")
        return "\n".join(out)
    n = re.sub(rf"(?m)^((?:ghost |unfoldable pub |pub )*use )(Rattle·{C}(?:·{K})?)\.{K}\.{re.escape(M)}\.\{{([^}}]*)\}}(;?)$", sub, t)
    if n != t: path.write_text(n)
for path in [*R.glob("docs/**/*.md"), R / "README.md"]:
    t = path.read_text()
    for m in re.finditer(rf"{C}/{K}/{M.replace('.', '/')}\.antt: ([^`]*)`", t):
        if set(re.split(r",\s*", m[1])) & moved: print(f"{path}: {m[0]}")
