#!/usr/bin/env python3
"""wmerge.py BASE OURS THEIRS OUT: three-way merge by words. Prints conflicts; where both add at one place both are taken."""
import re,sys,subprocess,tempfile,os
b,o,t,out=sys.argv[1:5]
def tok(p):
    s=open(p,encoding='utf-8').read() if os.path.exists(p) else ''
    return re.findall(r"\n|[^\S\n]+|[\w·:/.'-]+|.",s)
def enc(x): return x.replace("\\","\\\\").replace("\n","\\n").replace("\r","\\r")
def dec(x): return x.replace("\\n","\n").replace("\\\\","\\")
fs=[]
for p in (o,b,t):
    f=tempfile.NamedTemporaryFile('w',delete=False,encoding='utf-8'); f.write("".join(enc(x)+"\n" for x in tok(p))); f.close(); fs.append(f.name)
r=subprocess.run(["git","merge-file","-p","--diff3",*fs],capture_output=True,text=True)
L=r.stdout.split("\n")[:-1]; res=[]; i=0; n=0
while i<len(L):
    if L[i].startswith("<<<<<<< "):
        a=[];m=[];c=[];i+=1
        while not L[i].startswith("||||||| "): a.append(L[i]);i+=1
        i+=1
        while L[i]!="=======": m.append(L[i]);i+=1
        i+=1
        while not L[i].startswith(">>>>>>> "): c.append(L[i]);i+=1
        A="".join(map(dec,a));M="".join(map(dec,m));C="".join(map(dec,c))
        n+=1
        if not M.strip(): res.append(A+C); kind="both added"
        elif A.strip()==C.strip(): res.append(A); kind="same"
        else: res.append("<<<OURS "+A+"|||"+M+"==="+C+">>>"); kind="CONFLICT"
        print(f"{os.path.basename(out)}: {kind}: {A[:160]!r} | {M[:80]!r} | {C[:160]!r}")
    else: res.append(dec(L[i]))
    i+=1
open(out,'w',encoding='utf-8').write("".join(res))
for f in fs: os.unlink(f)
