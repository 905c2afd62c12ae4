#!/usr/bin/env python3
"""tryedit.py CRATE NAME: apply the edit in this tree, rt dev, show the first errors, revert."""
import sys,subprocess,os
c,n=sys.argv[1:3]
f=None;old=None;saved={}
for l in open(f'crates/{c}/must-fail/{n}.edit').read().split('\n'):
    if l.startswith('file: '): f=f'crates/{c}/'+l[6:]
    elif l.startswith('old: '): old=l[5:]
    elif l.startswith('new:'):
        new=l[5:]
        s=open(f).read(); saved.setdefault(f,s)
        assert s.count(old)==1,(s.count(old),old)
        open(f,'w').write(s.replace(old,new))
env=dict(os.environ,RATTLE_DEV_DIR=os.getcwd()+'/target/dev',RT_JOBS='1')
try:
    p=subprocess.run(['nice','-n','-2','rt','dev',c],env=env,capture_output=True,text=True)
    out=[l for l in (p.stdout+p.stderr).split('\n') if 'unchanged' not in l]
    err=[l for l in out if 'error' in l or 'logic=' in l]
    print(c,n,p.returncode); print('\n'.join(x[:400] for x in err[:4]))
finally:
    for f,s in saved.items(): open(f,'w').write(s)
