#!/usr/bin/env python3
"""crates_table.py ROOT GATELOG: regenerates the table of docs/CRATES.md"""
import re,sys,pathlib
R=pathlib.Path(sys.argv[1]); log=open(sys.argv[2],encoding='utf-8',errors='replace').read() if len(sys.argv)>2 else ""
fn={};sec={}
cur=None
for l in log.split("\n"):
    m=re.match(r"logic=proved functions=(\d+)",l)
    if m: cur=int(m[1])
    m=re.match(r"rt: (\w+) proved \((\d+) s\)",l)
    if m and m[1] not in sec: fn[m[1]]=cur; sec[m[1]]=int(m[2])
def lines(d,ext,com):
    n=0
    for p in sorted((R/d).glob("**/*"+ext)):
        for l in p.read_text().split("\n"):
            s=l.strip()
            if s and not s.startswith(com): n+=1
    return n
def imports(d):
    return sum(1 for p in (R/d).glob("**/*.antt") for l in p.read_text().split("\n") if re.match(r"\s*(use |pub use |unfoldable pub use |pub mod |mod )",l))
rows=[];tot=[0]*6;imp=0
names=[l.split(":")[0] for l in (R/"crates.txt").read_text().split("\n") if re.match(r"\w+:",l)]
old=(R/"docs/CRATES.md").read_text()
def oldcell(c,i):
    m=re.search(rf"(?m)^\| `{c}` \|(.*)\|$",old)
    return m[1].split("|")[i].strip() if m else ""
for c in names:
    d=f"crates/{c}"
    pub=sum(len(re.findall(r'(?m)^\s*pub (?:extern "C" )?fn ',p.read_text())) for p in (R/d/"src").glob("**/*.rt"))
    code=lines(d+"/src",".rt","//"); de=lines(d+"/specs",".antt","--"); pr=lines(d+"/proofs",".antt","--")
    ed=len(list((R/d/"must-fail").glob("*.edit"))) if (R/d/"must-fail").exists() else 0
    f=fn.get(c,oldcell(c,0)); s=sec.get(c,oldcell(c,5))
    if (R/d/"src/main.rt").exists(): pub=pub
    rows.append(f"| `{c}` | {f} | {pub} | {code} | {de} | {pr} | {s} | {ed} |")
    for i,v in enumerate((int(f or 0),pub,code,de,pr,ed)): tot[i]+=v
    imp+=imports(d+"/specs")
rows.append(f"| all | {tot[0]} | {tot[1]} | {tot[2]} | {tot[3]} | {tot[4]} |  | {tot[5]} |")
i=old.index("|---|---|---|---|---|---|---|---|\n")+len("|---|---|---|---|---|---|---|---|\n")
j=old.index("\n\n",i)
(R/"docs/CRATES.md").write_text(old[:i]+"\n".join(rows)+old[j:])
print("definitions",tot[3],"without imports",tot[3]-imp,"imports",imp,"proofs",tot[4],"edits",tot[5],"functions",tot[0])
