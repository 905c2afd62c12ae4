import re,sys,os
root,log=sys.argv[1:3]; prune=len(sys.argv)>3
sec={}
for l in open(log,errors='replace'):
    m=re.match(r'rt: (\w+) proved \((\d+) s\)',l)
    if m: sec[m.group(1)]=int(m.group(2))
deps={}
for line in open(root+'/crates.txt'):
    if line.startswith('#') or ':' not in line: continue
    c,l=line.split(':',1); c=c.strip(); l=l.split()
    if prune:
        cited=set()
        for folder,_,files in os.walk(f'{root}/crates/{c}'):
            for n in files:
                if n.endswith(('.rt','.antt')):
                    t=open(os.path.join(folder,n)).read()
                    cited|=set(re.findall(r"Rattle·([a-z0-9_]+)",t))
                    if n.endswith('.rt'): cited|=set(re.findall(r"\b([a-z0-9_]+)::",t))|set(re.findall(r"^\s*use ([a-z0-9_]+)",t,re.M))
        l=[x for x in l if x in cited]
    deps[c]=l
for line in open(root+'/crates.txt'):
    line=line.strip()
    if line and not line.startswith('#') and ':' not in line: deps[line]=[]
lev={}
def L(c):
    if c not in lev: lev[c]=1+max([L(d) for d in deps.get(c,[])],default=-1)
    return lev[c]
cp={}
def C(c):
    if c not in cp: cp[c]=sec.get(c,0)+max([C(d) for d in deps.get(c,[])],default=0)
    return cp[c]
for c in deps: L(c);C(c)
by={}
for c in deps: by.setdefault(lev[c],[]).append((sec.get(c,0),c))
tot=0
for k in sorted(by):
    x=sorted(by[k],reverse=True); s=sum(a for a,_ in x); print(k,s,x[:7]); 
print('crates',len(deps),'sum',sum(sec.values()),'critical',max(cp.values()))
# walk down
c=max(cp,key=cp.get)
path=[]
while True:
    path.append((c,sec.get(c,0)))
    ds=deps.get(c,[])
    if not ds: break
    c=max(ds,key=lambda d:cp.get(d,0))
print(path[::-1])
