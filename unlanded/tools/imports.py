import re,os,sys,glob
root=sys.argv[1]; crates=sys.argv[2:]
defs={}
def where(c,path):
    p=path.split('.')
    return os.path.join(root,'crates',c,*p)+'.antt'
allfiles=glob.glob(root+'/crates/*/**/*.antt',recursive=True)
def find(name):
    out=[]
    for f in allfiles:
        if re.search(r'^(?:unfoldable |pub |abstract )*'+re.escape(name)+r'\s*:',open(f).read(),re.M): out.append(f)
    return out
for c in crates:
    for f in glob.glob(f'{root}/crates/{c}/**/*.antt',recursive=True):
        for m in re.finditer(r'^\s*(?:pub )?use Rattle·([a-z0-9_]+)\.([A-Za-z0-9_.]+)\.\{([^}]*)\}',open(f).read(),re.M):
            cr,path,names=m.groups()
            if 'declared' in path: 
                continue
            w=where(cr,path)
            if not os.path.exists(w):
                w2=None
                print(f, 'no file', cr, path, names); continue
            t=open(w).read()
            for n in names.split(','):
                n=n.strip()
                if n and n not in t: print(f,'not in',cr,path,n)
