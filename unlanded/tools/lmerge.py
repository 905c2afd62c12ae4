#!/usr/bin/env python3
"""lmerge.py BASE OURS THEIRS OUT: three-way merge by lines; a conflict of lines is merged by words, line by line where the counts agree."""
import sys,subprocess,tempfile,os
b,o,t,out=sys.argv[1:5]
r=subprocess.run(["git","merge-file","-p","--diff3",o,b,t],capture_output=True,text=True)
L=r.stdout.split("\n"); res=[]; i=0
def words(A,M,C):
    fs=[]
    for x in (M,A,C):
        f=tempfile.NamedTemporaryFile('w',delete=False); f.write(x); f.close(); fs.append(f.name)
    g=tempfile.mktemp(); p=subprocess.run(["python3","/work/wmerge.py",*fs,g],capture_output=True,text=True)
    if p.stdout: print(p.stdout[:700])
    return open(g).read()
while i<len(L):
    if L[i].startswith("<<<<<<< "):
        a=[];m=[];c=[];i+=1
        while not L[i].startswith("||||||| "): a.append(L[i]);i+=1
        i+=1
        while L[i]!="=======": m.append(L[i]);i+=1
        i+=1
        while not L[i].startswith(">>>>>>> "): c.append(L[i]);i+=1
        if not m: res+=a+c
        elif len(a)==len(m)==len(c):
            for x,y,z in zip(a,m,c): res.append(words(x,y,z))
        else: res.append(words("\n".join(a),"\n".join(m),"\n".join(c)))
    else: res.append(L[i])
    i+=1
open(out,'w').write("\n".join(res))
