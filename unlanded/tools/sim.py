import re,sys
sys.path.insert(0,'/work')
root='/work/base'; log='/work/gate1.log'
sec={};edits=[]
order=[]
for l in open(log,errors='replace'):
    m=re.match(r'rt: (\w+) proved \((\d+) s\)',l)
    if m: sec[m.group(1)]=int(m.group(2)); order.append(m.group(1))
    m=re.match(r'rt: must-fail (\S+): refused.*?(\d+) s\)',l)
    if m: edits.append((m.group(1),int(m.group(2))))
deps={}
for line in open(root+'/crates.txt'):
    if line.startswith('#') or ':' not in line: continue
    c,l=line.split(':',1); deps[c.strip()]=l.split()
lev={}
def L(c):
    if c not in lev: lev[c]=1+max([L(d) for d in deps.get(c,[])],default=-1)
    return lev[c]
def share(ts,cores=2):
    # processor sharing finishing time
    ts=sorted(ts); t=0;done=0;n=len(ts);prev=0
    for i,x in enumerate(ts):
        k=n-i
        t+=(x-prev)*max(k,cores)/cores if k>=cores else (x-prev)
        prev=x
    return t
def cpu_of(batch):
    # invert: given wall times under sharing, get CPU times
    b=sorted(batch,key=lambda p:p[1]); n=len(b); prev=0;c=0;out={}
    for i,(nm,w) in enumerate(b):
        k=n-i; rate=min(1,2/k)
        c+=(w-prev)*rate; prev=w; out[nm]=c
    return out
cpu={}
def batches(items,B):
    for i in range(0,len(items),B): yield items[i:i+B]
levels={}
for c in order: levels.setdefault(L(c),[]).append(c)
for k in sorted(levels):
    for b in batches([(c,sec[c]) for c in levels[k]],4): cpu.update(cpu_of(b))
for b in batches(edits,4): cpu.update(cpu_of(b))
tc=sum(cpu[c] for c in order); te=sum(cpu[e] for e,_ in edits)
print('cpu crates',tc,'edits',te, len(edits))
for B in (4,6,8,10,12,16,60):
    a=sum(share([cpu[c] for c in b]) for k in levels for b in batches(levels[k],B))
    e=sum(share([cpu[c] for c,_ in b]) for b in batches(edits,B))
    print(B,round(a),round(e),round((a+e)/60,1))
