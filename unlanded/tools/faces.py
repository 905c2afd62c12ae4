#!/usr/bin/env python3
"""faces.py ROOT [--write] [--only CRATE,..] [--faces CRATE,..] [--modules] [--words [--low CRATE]] [--braces] [--no-proofs] [--operators no] [--members no] [--lists] [--spread]

Faces: low crates pass on, from specs/Face.antt and proofs/Face.antt, what the crates above cite; import lines above become one line a
face; then crates.txt loses what its crates do not cite. Without --write nothing is changed: counts are printed.

  --write        write files (run in a clone that has no other change)
  --only A,B     rewrite the import lines of these crates alone (a trial); faces pass on only what they need
  --faces A,B    which crates have a face (default: FACES below)
  --modules      a face passes on pages, not names (`pub use Rattle·wire.specs.Bytes`); above it is `use Rattle·F.specs.Face.{Bytes.part, ..}`
  --words        `wire` (or the crate of --low, for a trial) passes on the logic's everyday names from specs/Words.antt (modules that 20 files or more cite); one line above it
  --braces       afterwards join lines of one library: `use mathlib.Core.{Path._≡_, List.List}` (primer 4.8: `use M.{a, b as c, N.d}`)
  --no-proofs    no proofs/Face.antt: laws stay on lines of their own
  --operators no names with an underscore stay on lines of their own
  --members no   constructors and fields stay on lines of their own
  --lists        only take uncited names out of crates.txt
  --spread       print how import lines are spread, and end

Left alone: `as` imports of modules, generated modules (`declared`, `the-variants`, functions' own), lines of a crate's own pages, use
lines in .rt files, a line that a must-fail edit quotes, names that two modules share (the module that is cited most passes its on; the
other's stay), names that are not found declared `pub` in their file, pages that already have a `pub use` (store's Face).
"""
import collections, glob, os, re, sys

FACES = ["wire", "record", "bodies", "page_check", "correct", "page_laws", "read_back", "sheet_moves", "correction_samples"]
PAGE = "Face"          # store has a Face of its own already: there the page is called as STORE says
OTHER = {"store": "Above"}
WIDTH_FACE, WIDTH_USE = 300, 300

args = sys.argv[1:]
def flag(name):
    if name in args:
        args.remove(name)
        return True
    return False
def value(name, default):
    if name in args:
        i = args.index(name)
        v = args[i + 1]
        del args[i:i + 2]
        return v
    return default
write, lists_only, spread, no_proofs = flag("--write"), flag("--lists"), flag("--spread"), flag("--no-proofs")
modules, braces, words_page = flag("--modules"), flag("--braces"), flag("--words")
only = value("--only", None)
only = set(only.split(",")) if only else None
faces = value("--faces", ",".join(FACES)).split(",")
operators = value("--operators", "yes") != "no"
members = value("--members", "yes") != "no"
low = value("--low", "wire")
root = args[0] if args else "."

def read(path):
    with open(path, encoding="utf-8") as f:
        return f.read()

# crates.txt
lines = read(os.path.join(root, "crates.txt")).split("\n")
listed, order = {}, []
for l in lines:
    if l.startswith("#") or ":" not in l:
        continue
    c, rest = l.split(":", 1)
    listed[c] = rest.split()
    order.append(c)
def closure(c, seen=None):
    seen = set() if seen is None else seen
    for d in listed.get(c, []):
        if d not in seen:
            seen.add(d)
            closure(d, seen)
    return seen
LISTED = {c: list(v) for c, v in listed.items()}
KEEP = {"io", "os", "libc"}      # the toolchain's own, which a program lists
texts = {}
for c in order:
    for p in sorted(glob.glob(os.path.join(root, "crates", c, "**", "*"), recursive=True)):
        if p.endswith((".antt", ".rt")) and "/must-fail/" not in p:
            texts[p] = read(p)
def crate_of(p):
    return os.path.relpath(p, os.path.join(root, "crates")).split(os.sep)[0]
def all_cited(ts):
    """crate -> crates that it cites, as `uncited` finds them"""
    out = {c: set() for c in order}
    for p, t in ts.items():
        have = out[crate_of(p)]
        have |= set(re.findall(r"Rattle·([a-z0-9_]+)", t))
        if p.endswith(".rt"):
            have |= set(re.findall(r"\b([a-z0-9_]+)::", t)) | set(re.findall(r"^\s*use ([a-z0-9_]+)", t, re.M))
    return out
# what is not cited goes first, so that no face keeps alive a crate that nothing needs
first_cited = all_cited(texts)
for c in order:
    listed[c] = [d for d in listed[c] if d in first_cited[c] or d in KEEP]
below = {c: closure(c) for c in order}
# faces from the top down: by how much is below, then by crates.txt
rank = {c: (len(below[c]), order.index(c)) for c in order}
faces = sorted([f for f in faces if f in below], key=lambda f: rank[f])

edits = {c: "\n".join(read(p) for p in glob.glob(os.path.join(root, "crates", c, "must-fail", "*"))) for c in order}
IMPORT = re.compile(r"^\s*(?:ghost |unfoldable |pub )*use ")
def count(ts, ext=(".antt", ".rt")):
    return sum(1 for p, t in ts.items() if p.endswith(ext) for l in t.split("\n") if IMPORT.match(l))

USE = re.compile(r"^use Rattle·([a-z0-9_]+)\.(specs|proofs)\.([A-Za-z0-9_.]+)\.\{(.*)\}\s*$")
def names_of(text):
    out = []
    for n in text.split(", "):
        a = n.strip().split(" as ")
        out.append((a[0], a[1] if len(a) > 1 else None))
    return out

# what a page declares: name -> 'open' (unfoldable), 'shut', 'member' (constructor, field)
declared = {}
def page(crate, kind, path):
    key = (crate, kind, path)
    if key in declared:
        return declared[key]
    p = os.path.join(root, "crates", crate, kind, *path.split(".")) + ".antt"
    found = None
    if p in texts and not re.search(r"^(unfoldable )?pub use ", texts[p], re.M):
        found, inside, priv = {}, None, None
        for l in texts[p].split("\n"):
            m = re.match(r"^(\s*)((?:unfoldable |abbrev |pub )*)(data|record|ruleset) ([^\s({:]+)", l)
            if m:
                if "pub" in m.group(2):
                    found[m.group(4)] = "shut"
                inside = (len(m.group(1)), "pub" in m.group(2))
                continue
            if inside and l.strip() and len(l) - len(l.lstrip()) <= inside[0]:
                inside = None
            m = re.match(r"^\s*((?:unfoldable |abbrev |pub )*)((?:[^\s:(){}]+ )*[^\s:(){}]+) ?:(?:\s|$)", l)
            if not m or l.lstrip().startswith("--"):
                continue
            for n in m.group(2).split():
                if inside:
                    if inside[1]:
                        found.setdefault(n, "member")
                elif "pub" in m.group(1).split():
                    found.setdefault(n, "open" if "unfoldable" in m.group(1).split() else "shut")
    declared[key] = found
    return found

# every eligible import
Imp = collections.namedtuple("Imp", "file line crate origin kind path names")
imps, why = [], collections.Counter()
for p, t in texts.items():
    if not p.endswith(".antt"):
        continue
    c = crate_of(p)
    for i, l in enumerate(t.split("\n")):
        m = USE.match(l)
        if not m:
            continue
        o, kind, path, names = m.groups()
        if o == c or o not in below:
            why["own or unknown crate"] += 1
        elif page(o, kind, path) is None:
            why["generated module, or a page that passes on"] += 1
        elif no_proofs and kind == "proofs":
            why["laws (--no-proofs)"] += 1
        elif l in edits[c]:
            why["quoted by a must-fail edit"] += 1
        else:
            imps.append(Imp(p, i, c, o, kind, path, names_of(names)))

if spread:
    total = count(texts)
    print("import lines: %d, in .rt %d" % (total, count(texts, (".rt",))))
    heads = collections.Counter()
    for p, t in texts.items():
        for l in t.split("\n"):
            if IMPORT.match(l) and p.endswith(".antt"):
                h = re.sub(r"^\s*(?:unfoldable |pub )*use ", "", l)
                m = re.match(r"Rattle·([a-z0-9_]+)(·?)", h)
                if m:
                    own = m.group(2) == "·"
                    kind = "function's or declared" if re.search(r"\.declared\.|\.(?:specs|proofs)\.(?:[a-z0-9_]+\.)*[a-z0-9_]+\.[A-Z][a-z]+$|\.(?:specs|proofs)\.[a-z]", re.split(r"\.\{| as ", h)[0]) and ".inner." not in h else "page"
                    heads["Rattle, own crate, " + kind if own else "Rattle, lower crate, " + kind] += 1
                else:
                    heads[".".join(h.split(".")[:2])] += 1
    for h, n in heads.most_common(20):
        print("%6d  %s" % (n, h))
    for title, key in (("per lower crate", lambda i: i.origin), ("per page", lambda i: "%s.%s.%s" % (i.origin, i.kind, i.path)),
                       ("per crate that imports", lambda i: i.crate), ("per pair", lambda i: i.crate + " <- " + i.origin)):
        print("\n" + title + " (lines that a face can take)")
        for k, n in collections.Counter(map(key, imps)).most_common(25):
            print("%6d  %s" % (n, k))
    sys.exit()

# names that two pages share: the page that is cited most passes its on
cites = collections.defaultdict(collections.Counter)
for i in imps:
    for n, _ in i.names:
        cites[(i.kind, n)][(i.origin, i.path)] += 1
winner = {k: sorted(v.items(), key=lambda x: (-x[1], order.index(x[0][0]), x[0][1]))[0][0] for k, v in cites.items()}
shared = {k: v for k, v in cites.items() if len(v) > 1}
pages = collections.defaultdict(collections.Counter)
for i in imps:
    pages[(i.kind, i.path.split(".")[-1])][(i.origin, i.path)] += 1
def label(kind, origin, path):
    """a page's name on a face: its own, or with its crate's where another page of that name is cited more"""
    last = path.split(".")[-1]
    if pages[(kind, last)].most_common(1)[0][0] == (origin, path):
        return last
    return last + "Of" + "".join(w.capitalize() for w in origin.split("_")) + ("".join(path.split(".")[:-1]).capitalize())
def passes(kind, origin, path, n):
    d = page(origin, kind, path)
    if n not in d:
        why["names not found declared"] += 1
        return False
    if not modules and winner[(kind, n)] != (origin, path):
        why["names that two pages share"] += 1
        return False
    if not operators and "_" in n:
        why["operators"] += 1
        return False
    if not members and d[n] == "member":
        why["members"] += 1
        return False
    return True

# from the top down: what a crate cites, what its own face passes on, and which faces below give it
needs = {c: collections.defaultdict(dict) for c in faces}   # face -> kind -> name -> (origin, path)
def cover(c, wanted):
    """wanted: Counter of (kind, origin) by places; the face that gives each, by greedy cover; a face is below c and has the origin."""
    left, chosen = dict(wanted), {}
    cand = [f for f in faces if f in below[c]]
    while left and cand:
        def gain(f):
            return sum(n for (k, o), n in left.items() if o == f or o in below[f])
        best = max(cand, key=lambda f: (gain(f), -rank[f][0], -rank[f][1]))
        if gain(best) == 0:
            break
        for ko in [ko for ko in left if ko[1] == best or ko[1] in below[best]]:
            chosen[ko] = best
            del left[ko]
        cand.remove(best)
    return chosen

def page_name(f):
    return OTHER.get(f, PAGE)
def use_lines(head, names, width):
    out, row = [], []
    for n in names:
        if row and len(head) + 4 + len(", ".join(row + [n])) > width:
            out.append("%s.{%s}" % (head, ", ".join(row)))
            row = []
        row.append(n)
    if row:
        out.append("%s.{%s}" % (head, ", ".join(row)))
    return out

new = dict(texts)
by_crate = collections.defaultdict(list)
for i in imps:
    by_crate[i.crate].append(i)
own_faces = {}
if not lists_only:
    for c in sorted(order, key=lambda c: rank[c], reverse=True):
        mine = by_crate[c] if only is None or c in only else []
        wanted = collections.Counter()
        for i in mine:
            wanted[(i.kind, i.origin)] += 1
        if c in needs:
            for kind in needs[c]:
                for n, (o, path) in needs[c][kind].items():
                    if o != c:
                        wanted[(kind, o)] += 1
        chosen = cover(c, wanted)
        files = collections.defaultdict(list)
        for i in mine:
            files[i.file].append(i)
        for p, here in files.items():
            rows = new[p].split("\n")
            got = collections.OrderedDict()        # (face, kind) -> names
            first, stay = {}, {}
            for i in sorted(here, key=lambda i: i.line):
                f = chosen.get((i.kind, i.origin))
                kept = []
                for n, a in i.names:
                    if f and passes(i.kind, i.origin, i.path, n):
                        got.setdefault((f, i.kind), []).append((n, a, i))
                    else:
                        kept.append(n + (" as " + a if a else ""))
                stay[i.line] = kept
            # a face that takes only one line of this file and one name of it saves nothing, but keeps the list short: still taken
            for (f, kind), ns in got.items():
                first.setdefault(min(i.line for _, _, i in ns), []).append((f, kind))
                for n, a, i in ns:
                    needs[f][kind][label(i.kind, i.origin, i.path) if modules else n] = (i.origin, i.path)
            out = []
            for k, l in enumerate(rows):
                for f, kind in first.get(k, []):
                    words = [(label(i.kind, i.origin, i.path) + "." if modules else "") + n + (" as " + a if a else "")
                             for n, a, i in got[(f, kind)]]
                    out += use_lines("use Rattle·%s.%s.%s" % (f, kind, page_name(f)), list(dict.fromkeys(words)), WIDTH_USE)
                if k in stay:
                    if stay[k]:
                        out.append(l[:l.rindex(".{")] + ".{" + ", ".join(stay[k]) + "}")
                else:
                    out.append(l)
            new[p] = "\n".join(out)
        if c in needs:
            for kind in ("specs", "proofs"):
                if not needs[c].get(kind):
                    continue
                groups = collections.OrderedDict()
                for n, (o, path) in sorted(needs[c][kind].items(), key=lambda x: (order.index(x[1][0]), x[1][1], x[0])):
                    d = "shut" if modules else page(o, kind, path)[n]
                    mark = "unfoldable pub use " if d == "open" else "pub use "
                    if o == c:
                        head = "Rattle·%s·%s.%s.%s" % (c, kind, kind, path)
                    else:
                        f = chosen.get((kind, o))
                        if f:
                            head = "Rattle·%s.%s.%s" % (f, kind, page_name(f))
                            needs[f][kind][n] = (o, path)
                        else:
                            head = "Rattle·%s.%s.%s" % (o, kind, path)
                    # own pages keep a line each; what comes from a lower face is packed
                    packed = o != c and chosen.get((kind, o)) and not modules
                    groups.setdefault(("", "", head, mark) if packed else (o, path, head, mark), []).append(n)
                what = "words" if kind == "specs" else "laws"
                if modules:
                    heads = []
                    for (o, path, head, mark), ns in groups.items():
                        own = path.split(".")[-1]
                        lower = o != c and chosen.get((kind, o))
                        for n in ns:
                            heads.append(mark + head + "." + n if lower else mark + head + (" as " + n if n != own else ""))
                text = ["-- What crates above cite of the %s here and below, from one page. Passed on; nothing is defined here." % what]
                if modules:
                    text += heads
                else:
                    for (o, path, head, mark), ns in groups.items():
                        text += use_lines(mark + head, ns, WIDTH_FACE)
                where = os.path.join(root, "crates", c, kind, page_name(c) + ".antt")
                if where in texts:
                    sys.exit("%s is there already: give another page's name in OTHER" % where)
                new[where] = "\n".join(text) + "\n"
                own_faces[(c, kind)] = len(needs[c][kind])
                lib = os.path.join(root, "crates", c, kind, "Lib.antt")
                if lib not in new:
                    print("no %s: the page's `pub mod` line is missing" % lib)
                else:
                    new[lib] = new[lib].rstrip("\n") + "\npub mod %s\n" % page_name(c)

# --words: the logic's everyday names from one page of the lowest crate
LOGIC = re.compile(r"^use ((?:Prim|mathlib|native|lib|borrow)\.[A-Za-z0-9_.]+)\.\{(.*)\}\s*$")
if words_page:
    everyday, cited_by = collections.defaultdict(collections.Counter), collections.Counter()
    opened = set()
    for p, t in new.items():
        for m in re.finditer(r"^\s*unfolding (.*)$|\bunfold ([^\n]*?) in\b", t, re.M):
            opened |= set((m.group(1) or m.group(2)).split())
        for l in t.split("\n"):
            m = LOGIC.match(l) if p.endswith(".antt") else None
            if m:
                cited_by[m.group(1)] += 1
                for n, _ in names_of(m.group(2)):
                    everyday[n][m.group(1)] += 1
    chief = {n: v.most_common(1)[0][0] for n, v in everyday.items()}
    taken = collections.defaultdict(set)
    for p in list(new):
        c = crate_of(p)
        if not p.endswith(".antt") or low not in below[c] or (only is not None and c not in only) or p not in texts:
            continue
        rows, got, put, at = new[p].split("\n"), [], [], None
        for k, l in enumerate(rows):
            m = LOGIC.match(l)
            if not m or cited_by[m.group(1)] < 20 or "syntax " in l or l in edits[c]:
                put.append(l)
                continue
            rest = []
            for n, a in names_of(m.group(2)):
                word = n + (" as " + a if a else "")
                if chief[n] == m.group(1):
                    got.append(word)
                    taken[m.group(1)].add(n)
                    at = len(put) if at is None else at
                else:
                    rest.append(word)
            if rest:
                put.append("use %s.{%s}" % (m.group(1), ", ".join(rest)))
        if got:
            put[at:at] = use_lines("use Rattle·%s.specs.Words" % low, list(dict.fromkeys(got)), WIDTH_USE)
            new[p] = "\n".join(put)
    if os.path.join(root, "crates", low, "specs", "Words.antt") in texts:
        sys.exit("%s has specs/Words.antt already" % low)
    text = ["-- The logic's everyday names, from one page. Passed on; nothing is defined here."]
    for mod in sorted(taken):
        for mark, ns in (("unfoldable pub use ", sorted(taken[mod] & opened)), ("pub use ", sorted(taken[mod] - opened))):
            text += use_lines(mark + mod, ns, WIDTH_FACE)
    new[os.path.join(root, "crates", low, "specs", "Words.antt")] = "\n".join(text) + "\n"
    lib = os.path.join(root, "crates", low, "specs", "Lib.antt")
    new[lib] = new[lib].rstrip("\n") + "\npub mod Words\n"

# --braces: lines of one library are joined under the longest path that they share
if braces:
    for p in list(new):
        if not p.endswith(".antt") or (only is not None and crate_of(p) not in only):
            continue
        rows = new[p].split("\n")
        libs = collections.OrderedDict()
        for k, l in enumerate(rows):
            m = re.match(r"^use ([^\s{]+)\.\{(.*)\}\s*$", l)
            if m and l not in edits[crate_of(p)] and "syntax " not in l:
                libs.setdefault(m.group(1).split(".")[0], []).append((k, m.group(1).split("."), m.group(2).split(", ")))
        drop, put = set(), {}
        for lib, group in libs.items():
            if len(group) < 2:
                continue
            n = 0
            while all(len(path) > n and path[n] == group[0][1][n] for _, path, _ in group):
                n += 1
            words = [".".join(path[n:] + [w]) for _, path, ws in group for w in ws]
            joined = use_lines("use " + ".".join(group[0][1][:n]), words, WIDTH_USE)
            if len(joined) < len(group):
                drop |= {k for k, _, _ in group}
                put[group[0][0]] = joined
        out = []
        for k, l in enumerate(rows):
            out += put.get(k, [])
            if k not in drop:
                out.append(l)
        new[p] = "\n".join(out)

# crates.txt: what is cited, as `uncited` finds it
now = all_cited(new)
short = {}
for c in order:
    if only is not None and c not in only and c not in {f for f, _ in own_faces}:
        short[c] = LISTED[c]
        continue
    row = [d for d in LISTED[c] if d in now[c] or d in KEEP]
    row += [f for f in sorted(now[c], key=lambda f: order.index(f) if f in order else -1)
            if (f in faces or words_page and f == low) and f in below[c] and f not in row and f != c]
    short[c] = row
def closure_new(c, seen=None):
    seen = set() if seen is None else seen
    for d in short.get(c, []):
        if d not in seen:
            seen.add(d)
            closure_new(d, seen)
    return seen
unreached = {c: sorted(d for d in LISTED[c] if d not in closure_new(c)) for c in order}
unreached = {c: v for c, v in unreached.items() if v}
out_lines = []
for l in lines:
    c = l.split(":", 1)[0]
    out_lines.append(("%s: %s" % (c, " ".join(short[c]))).rstrip() if not l.startswith("#") and ":" in l and c in short else l)

# what was written, read again: each name on a face leads down to the page that declares it, open where it was open; lists suffice
def on_face(f, kind, depth=0, memo={}):
    if (f, kind) in memo:
        return memo[(f, kind)]
    got = {}
    for l in new.get(os.path.join(root, "crates", f, kind, page_name(f) + ".antt"), "").split("\n"):
        m = re.match(r"^(unfoldable )?pub use Rattle·([a-z0-9_]+)(?:·(?:specs|proofs))?\.(specs|proofs)\.([A-Za-z0-9_.]+)\.\{(.*)\}$", l)
        if m:
            for n in m.group(5).split(", "):
                if n in got:
                    print("CHECK: %s twice on the face of %s %s" % (n, f, kind))
                if m.group(4) == page_name(m.group(2)) and m.group(2) in faces and m.group(2) != f:
                    end = on_face(m.group(2), kind).get(n)
                else:
                    end = (m.group(2), m.group(4), page(m.group(2), kind, m.group(4)).get(n))
                if end is None:
                    print("CHECK: %s on the face of %s leads nowhere" % (n, f))
                elif (end[2] == "open") != bool(m.group(1)):
                    print("CHECK: %s on the face of %s, open and shut differ" % (n, f))
                got[n] = end
    memo[(f, kind)] = got
    return got
if not modules and not braces and not lists_only:
    seen = collections.defaultdict(dict)
    for i in imps:
        for n, a in i.names:
            seen[i.file][a or n] = (i.origin, i.path, i.kind)
    for p, want in seen.items():
        have = {}
        for l in new[p].split("\n"):
            m = USE.match(l)
            if m:
                for n, a in names_of(m.group(4)):
                    f, kind, path = m.group(1), m.group(2), m.group(3)
                    end = on_face(f, kind).get(n) if f in faces and path == page_name(f) and (f, kind) in own_faces else (f, path)
                    have[a or n] = (end[0], end[1], kind) if end else None
        for n, w in want.items():
            if have.get(n) != w:
                print("CHECK: %s: %s was %s, is %s" % (p, n, w, have.get(n)))
# in every mode: each file brings in the same names as before, each once
def leaves(text):
    return sorted((a or n.split(".")[-1]) for m in re.finditer(r"^use [^\s{]+\.\{(.*)\}\s*$", text, re.M) for n, a in names_of(m.group(1)))
for p, t in texts.items():
    if p.endswith(".antt") and new[p] != t and leaves(t) != leaves(new[p]):
        print("CHECK: %s brings in other names: %s" % (p, sorted(set(leaves(t)) ^ set(leaves(new[p])))))
for c in order:
    for d in now[c]:
        if d in below[c] and d in LISTED[c] + faces and d not in short[c]:
            print("CHECK: %s cites %s and does not list it" % (c, d))
    for d in short[c]:
        if d in order and order.index(d) > order.index(c) and d not in LISTED[c]:
            print("CHECK: %s lists %s, which stands behind it" % (c, d))

before, after = count(texts), count(new)
print("import lines   before %d   after %d   (%.0f %%)" % (before, after, 100.0 * after / before))
print("  in .antt     before %d   after %d" % (count(texts, (".antt",)), count(new, (".antt",))))
print("  on faces     %d lines on %d pages" % (sum(1 for p in new if p not in texts for l in new[p].split("\n") if "pub use" in l), len(own_faces)))
print("names in crates.txt   before %d   after %d" % (sum(map(len, LISTED.values())), sum(map(len, short.values()))))
print("lines above 15 names  before %d   after %d: %s" % (sum(len(v) > 15 for v in LISTED.values()), sum(len(v) > 15 for v in short.values()),
      " ".join("%s %d" % (c, len(v)) for c, v in short.items() if len(v) > 15)))
for (c, kind), n in own_faces.items():
    print("  face %-16s %-7s %4d names" % (c, kind, n))
outside = collections.defaultdict(set)
logic = 0
for p, t in new.items():
    if p.endswith(".antt"):
        for k, l in enumerate(t.split("\n")):
            m = re.match(r"^use ([A-Za-z0-9_]+)\.", l)
            if m and not m.group(1).startswith("Rattle") and l.rstrip().endswith("}"):
                logic += 1
                outside[p].add(k)
print("lines of the logic's libraries after: %d in %d files (what a page of everyday words could still take: %d)" % (logic, len(outside), logic - len(outside)))
print("left alone (lines or names): " + ", ".join("%s %d" % x for x in why.most_common()))
print("names that two pages share: %d" % len(shared))
for c, v in unreached.items():
    print("no longer reached from %s, direct or through others: %s" % (c, " ".join(v)))
if write:
    for p, t in new.items():
        if t != texts.get(p):
            with open(p, "w", encoding="utf-8") as f:
                f.write(t)
    with open(os.path.join(root, "crates.txt"), "w", encoding="utf-8") as f:
        f.write("\n".join(out_lines))
    print("written")
