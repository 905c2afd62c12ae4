#!/usr/bin/env python3
"""profile.py CLONE CRATE: seconds of processor time that each proof file takes, by touching it and running rt dev."""
import os,sys,subprocess,resource,glob
clone,crate=sys.argv[1:3]
os.chdir(clone)
env=dict(os.environ,RATTLE_DEV_DIR=clone+'/target/dev',RT_JOBS='1')
def run():
    a=resource.getrusage(resource.RUSAGE_CHILDREN)
    p=subprocess.run(['nice','-n',os.environ.get('NICE','4'),'rt','dev',crate],env=env,stdout=subprocess.PIPE,stderr=subprocess.STDOUT,text=True)
    b=resource.getrusage(resource.RUSAGE_CHILDREN)
    return b.ru_utime-a.ru_utime+b.ru_stime-a.ru_stime,p.returncode,p.stdout[-200:]
t,rc,out=run(); print('first',round(t,1),rc,out if rc else '',flush=True)
t,rc,out=run(); base=t; print('base',round(t,1),rc,flush=True)
res=[]
files=sorted(glob.glob(f'crates/{crate}/proofs/**/*.antt',recursive=True))
for f in files:
    if f.endswith('Lib.antt'): continue
    s=open(f).read()
    # change a comment at the end: only this module and what cites it
    open(f,'w').write(s.rstrip('\n')+'\n-- touched\n')
    t,rc,out=run()
    open(f,'w').write(s)
    res.append((t-base,f,rc)); print(round(t-base,1),f.replace(f'crates/{crate}/proofs/',''),rc,flush=True)
run()
print('---'); 
for t,f,rc in sorted(res,reverse=True)[:15]: print(round(t,1),f)
