#!/usr/bin/env python3
"""rename.py ROOT [--dry] [--only WORD]: one name, one idea (issue 45, point 4). Applies TABLE to a clone; prints what is left for the hand.

A name is resolved by imports: a file means crate C's definition where it defines it or imports it from the module that does (or from one
that passes it on by `pub use`). Fields (` .name`, `{ name =`, `; name =`) are never touched. Afterwards every import is looked up again:
imports that resolved before and do not any more are printed as BROKEN (there have to be none).

Kinds of a row:  (kind, crate, where, old, new, reason)
  def     definition or law of crate/where (`specs/X`, `proofs/X`, without .antt)
  local   a definition that only its own file uses
  type    a struct or enum of crate's src/where.rt ('' is lib.rt)
  ctor    a case of the enum `where` (as the crate declares it: `Wanted`)
  fn      a function of src/where.rt; with its proof's folder, `-spec` and the `.call` in its callers' proofs
  mod     a module src/old.rt; with the folder of its proofs and `declared.old.`
  file    an .antt file crate/where/old.antt
  crate   a crate
Rows are applied in this order: def, local, ctor, type, fn, mod, file, crate; so every row names things by their OLD crates, modules and files,
except that ctor rows name the old type and `type` rows the old module.
"""
import collections, os, re, subprocess, sys

TABLE = [
    # --- `stores`, the crate of byte stores, beside `store`, the reader
    ("crate", "stores", "", "stores", "byte_writes", "one letter from `store`; it is the byte writes of a call and where they stop"),
    ("file", "stores", "specs", "Stores", "ByteStores", "called as the crate was"),
    ("def", "kept_open", "specs/KeptOpen", "Stores", "CanStore", "what has to be given for a tile to be stored; no byte store"),
    # --- `alone`: locality
    ("crate", "alone", "", "alone", "locality", "a record's rules depend on its own bytes and a few fields of the header"),
    ("file", "alone", "specs", "Alone", "LocalRules", "called as the crate was"),
    ("def", "alone", "specs/Alone", "Alone", "RulesLocal", "the statement: rules are local to the record; `Held.Alone` is another idea"),
    ("def", "alone", "specs/Alone", "TileAlone", "TileLocal", "as RulesLocal"),
    ("def", "alone", "specs/Alone", "MetadataAlone", "MetadataLocal", "as RulesLocal"),
    ("def", "alone", "specs/Alone", "alone", "behindFront", "a record's rule asked directly behind a front"),
    ("def", "alone", "specs/Alone", "AllAlone", "AllBehindFront", "as behindFront"),
    # --- `pieces`: of a page (stays, its crate gets a name of its own), of a record, of a rectangle
    ("crate", "pieces", "", "pieces", "page_pieces", "no module is called as a crate; a page as its pieces, each a record's bytes"),
    ("mod", "written_records", "", "pieces", "record_parts", "head, section, checksum: the parts of one record; was called as a crate"),
    ("file", "written_records", "specs", "Pieces", "RecordParts", "as its module"),
    ("file", "written_records", "proofs", "PieceLaws", "PartLaws", "as its module"),
    ("file", "written_records", "proofs", "PieceWriting", "PartWriting", "as its module"),
    ("mod", "store", "", "pieces", "clips", "what of a rectangle lies in one tile: a clip; was called as a crate"),
    ("mod", "rectangles", "", "pieces", "clips", "as store::clips"),
    ("mod", "deeds", "", "pieces", "clips", "as store::clips"),
    ("file", "store", "specs", "Pieces", "Clips", "as its module"),
    ("file", "store", "proofs", "PieceLaws", "ClipLaws", "as its module"),
    ("file", "rectangles", "specs", "Pieces", "Clips", "as its module"),
    ("file", "rectangles", "proofs", "PieceLaws", "ClipLaws", "as its module"),
    ("file", "deeds", "proofs", "PieceLaws", "ClipLaws", "as its module"),
    ("type", "store", "pieces", "Piece", "Clip", "`Piece` is left to the pieces of a page (alone/specs/Edited)"),
    ("def", "store", "specs/Pieces", "pieceIn", "clipIn", "as Clip"),
    ("def", "store", "specs/Pieces", "firstPiece", "firstClip", "as Clip"),
    ("def", "store", "specs/Pieces", "nextPiece", "nextClip", "as Clip"),
    ("def", "store", "specs/Pieces", "AtPiece", "AtClip", "as Clip"),
    ("fn", "store", "pieces", "piece_in", "clip_in", "as Clip"),
    ("fn", "store", "pieces", "first_piece", "first_clip", "as Clip"),
    ("fn", "store", "pieces", "next_piece", "next_clip", "as Clip"),
    ("fn", "rectangles", "pieces", "fill_piece", "fill_clip", "as Clip"),
    ("fn", "deeds", "pieces", "tally_piece", "tally_clip", "as Clip"),
    # --- `written`: answer's stays (what a buffer holds behind a call)
    ("def", "listing", "specs/Listing", "written", "tilesWritten", "a number: of tile records"),
    ("def", "comparisons", "specs/Comparisons", "written", "entriesListed", "the entries that the list buffer takes"),
    ("def", "rectangles", "specs/Rectangles", "written", "cellsGivenOut", "the kinds or bits of the rectangle's cells"),
    ("def", "score_sheets", "specs/Sheet", "Written", "SheetReadsBack", "a sheet that is made says its scores"),
    ("def", "score_sheets", "proofs/WholeLaws", "written", "sheet-reads-back", "as SheetReadsBack"),
    ("def", "gvrs_c", "proofs/DescriptionLaws", "Written", "ReportedUpTo", "the first k numbers stand in `out`"),
    ("def", "utf8", "proofs/Encodings", "Written", "EncodedAs", "a row of RFC 3629's table"),
    # --- `Holds`: wire's stays (a list of tests holds)
    ("def", "corrected", "specs/Sequence", "Holds", "StateInvariant", "the invariant of a sequence of calls"),
    ("def", "cells", "specs/Many", "Holds", "HeldMeans", "what is held gives the meaning of each cell"),
    ("def", "closed_pages", "proofs/FreeListLaws", "Holds", "ExtentFits", "a start and a length fit their bytes"),
    ("local", "store", "proofs/content_part/Proof", "Holds", "IsTrue", "lib.Dec's T under another name"),
    ("local", "store", "proofs/read/Proof", "Holds", "IsTrue", "lib.Dec's T under another name"),
    # --- `Sound`: page_check's stays (a page that is sound but for what opening changes)
    ("def", "deeds", "specs/Sound", "Sound", "JudgedRight", "grade, fills and lowest score are those of the cells"),
    ("file", "deeds", "specs", "Sound", "JudgedRight", "as its definition"),
    ("file", "comparisons", "specs", "Sound", "Agreement", "what two answers on two pages agree in"),
    # --- `Counted`
    ("def", "page_compare", "specs/Counting", "Counted", "RowCounts", "the counts of the rows up to a column"),
    ("def", "fronts", "specs/Writing", "Counted", "FrontSummed", "beside Summed and MethodsSummed"),
    ("def", "wire", "proofs/CountLaws", "Counted", "CountedBelow", "a loop's count of the numbers below n"),
    ("def", "wire", "specs/Compare", "Counted", "PairsCounted", "Req 04's sentence on the pairs read"),
    # --- `Told`
    ("def", "huffman", "proofs/NodeLaws", "Told", "TreeRead", "what a read tree is"),
    ("def", "record", "specs/Record", "Told", "HeadIs", "type and length of the record at a position"),
    ("def", "rectangles", "specs/Pieces", "Told", "AreaFilled", "kinds and bits of an area in their places"),
    ("local", "effects", "proofs/FreeingEffects", "Told", "SameChoice", "two predicates choose the same records"),
    ("local", "cells", "proofs/ManyLaws", "Told", "HeldSays", "what is held says what the record says"),
    ("local", "exact_checks", "proofs/RefusedLaws", "Told", "ReasonStands", "a refusal's reason"),
    ("file", "page_samples", "specs", "Told", "SampleAnswers", "samples of what is answered"),
    ("file", "page_samples", "proofs", "Told", "SampleAnswers", "samples of what is answered"),
    # --- `Found`: record's stays
    ("type", "m32", "", "Found", "Decoded", "a number decoded from its code, or none"),
    # --- `Next`
    ("type", "huffman", "", "Next", "NextSymbol", "the next symbol and the bit behind its code"),
    ("def", "m32", "specs/M32", "Next", "SourceByte", "a byte of a source and the position behind it"),
    ("def", "plans", "proofs/KeptLaws", "Next", "NextKept", "the next record that is kept"),
    # --- `Answered`
    ("def", "replay", "specs/ByHand", "Answered", "CallDone", "a call that is not refused"),
    ("def", "unpack", "specs/Steps", "Answered", "CellUnpacked", "a cell of an unpacked content, and the rest in place"),
    ("def", "store", "specs/Pieces", "Answered", "ClipAnswered", "the cells of a clip mean what they mean"),
    ("file", "correction_samples", "specs", "Answered", "CallAnswers", "samples of calls' answers"),
    ("file", "correction_samples", "proofs", "AnsweredLaws", "CallAnswerLaws", "as its page"),
    # --- `Laid`: answer's stays
    ("def", "huffman", "specs/Nodes", "Laid", "TreeStands", "a tree stands in the nodes"),
    # --- `storedAt`
    ("def", "cells", "specs/TileCells", "storedAt", "storedCell", "a cell from its stored bytes"),
    ("def", "correct", "specs/Storing", "storedAt", "newTileAt", "where the new tile record goes"),
    # --- `freeRecord`: pieces' stays (its bytes)
    ("def", "check_lists", "specs/Rearranged", "freeRecord", "freeExtent", "start and size: an extent"),
    ("def", "check_lists", "specs/Rearranged", "freeRecords", "freeExtents", "as freeExtent"),
    # --- `contentIn`: one meaning today (cells). `heldIn`: cells' stays
    ("def", "page_laws", "specs/TileMap", "heldIn", "tileContents", "the contents of the first tile record with an index"),
    # --- `roomFor`
    ("def", "pieces", "specs/Edits", "roomFor", "takenLength", "the length of the free record that takes n bytes"),
    ("def", "rectangles", "specs/Rectangles", "roomFor", "buffersFit", "whether both buffers can take the cells"),
    # --- residuals (G 5.1.1)
    ("def", "predict", "specs/Predict", "leftFrom", "residualsFrom", "G 5.1.1: residuals"),
    ("def", "predict", "specs/Predict", "leftOf", "residualsOf", "G 5.1.1: residuals"),
    ("def", "predict", "specs/Predict", "leftRows", "residualRows", "G 5.1.1: residuals"),
    ("local", "huffman", "proofs/NodeLaws", "leftOf", "leavesLeft", "how many leaves may still come"),
    # --- which records are freed
    ("ctor", "edit_walks", "Wanted", "Unwanted", "Directories", "opening frees the file-space directory and a tile directory that is not full"),
    ("type", "edit_walks", "", "Wanted", "ToFree", "which records are freed"),
    ("fn", "edit_walks", "freeing", "is_wanted", "is_freed", "whether a record is freed"),
    ("fn", "edit_walks", "freeing", "is_unwanted", "is_freed_directory", "a directory that opening frees"),
    ("def", "edit_walks", "specs/Walks", "wantedBy", "freedBy", "whether a record is freed"),
    ("def", "correct", "specs/Opening", "unwanted", "freedByOpening", "what opening frees"),
]
ORDER = ["def", "local", "ctor", "type", "fn", "mod", "file", "crate"]
W = r"[\w'′·-]"  # what a name is made of

args = [a for a in sys.argv[1:] if not a.startswith("--")]
ROOT, DRY = args[0], "--dry" in sys.argv
ONLY = sys.argv[sys.argv.index("--only") + 1] if "--only" in sys.argv else None
if ONLY:
    args = [a for a in args if a != ONLY] or args
    ROOT = args[0]
texts, moves, notes, counts = {}, [], [], collections.Counter()


def load():
    for top in ("crates", "docs"):
        for folder, _, files in os.walk(os.path.join(ROOT, top)):
            for f in files:
                if f.endswith((".rt", ".antt", ".edit", ".md")):
                    p = os.path.relpath(os.path.join(folder, f), ROOT)
                    texts[p] = open(os.path.join(ROOT, p), encoding="utf-8").read()
    for p in ("crates.txt", "README.md"):
        texts[p] = open(os.path.join(ROOT, p), encoding="utf-8").read()


USE = re.compile(r"((?:ghost |unfoldable |pub )*use) (Rattle·[^\s{;]+?)(?:\.\{([^}]*)\}| as ([\w-]+)|(?=[\s;]|$))")


def key(path):
    """`Rattle·C·specs.specs.A.B` and `Rattle·C.specs.A.B` -> (C, 'specs/A/B')"""
    m = re.match(r"Rattle·([a-z0-9_]+)(?:·specs|·proofs)?\.(.*)$", path)
    return (m[1], m[2].replace(".", "/")) if m else None


def where(p):
    m = re.match(r"crates/([^/]+)/(.*)\.antt$", p)
    return (m[1], m[2]) if m else None


def uses(text):
    for m in USE.finditer(text):
        k = key(m[2])
        if k:
            yield m, k, [x.strip() for x in m[3].split(",")] if m[3] else [], m[4]


def providers(home, old):
    have, grown = {home}, True
    while grown:
        grown = False
        for p, t in texts.items():
            w = where(p)
            if w and w not in have and "pub use" in t and old in t:
                for m, k, names, _ in uses(t):
                    if "pub" in m[1] and k in have and old in names:
                        have.add(w)
                        grown = True
    return have


def token(old):
    return re.compile(r"(?<!%s)(?<!\.)%s(?!%s)" % (W, re.escape(old), W))


PLAIN = re.compile(r"[a-z]+$")


def swap_code(text, old, new, path):
    """every token of a stretch of antt that is no field; of its comments, what stands in backticks or is no plain word"""
    out = []
    for line in text.split("\n"):
        code, sep, comment = line.partition("--") if re.search(r"(^|\s)--(\s|$)", line) else (line, "", "")

        def one(m):
            before, behind = code[: m.start()], code[m.end() :]
            if re.search(r"(?:\{|;)\s*$", before) and re.match(r" = ", behind) and "record" in code:
                notes.append("field? %s: %s" % (path, line.strip()[:110]))
                return m[0]
            if re.match(r"\s+pub $", before) and re.match(r" :", behind) or (re.match(r"\s+$", before) and re.match(r" :", behind)):
                notes.append("shadow? %s: %s" % (path, line.strip()[:110]))
            counts[old] += 1
            return new

        code = token(old).sub(one, code)
        if comment:
            comment = re.sub(r"`%s(?=[`.])" % re.escape(old), "`" + new, comment)
            if not PLAIN.match(old) and not re.match(r"[A-Z][a-z]+$", old):
                comment = token(old).sub(new, comment)
        out.append(code + sep + comment)
    return "\n".join(out)


def swap_ghost(text, old, new, path):
    """in .rt: the ghost imports and what stands between ⌜ and ⌝, or in a loop's invariant"""
    text = re.sub(r"(?m)^\s*(?:pub )?ghost use [^;]*;", lambda m: swap_code(m[0], old, new, path), text)
    return re.sub(r"⌜[^⌝]*⌝", lambda m: swap_code(m[0], old, new, path), text)


def swap(p, old, new):
    texts[p] = swap_ghost(texts[p], old, new, p) if p.endswith(".rt") else swap_code(texts[p], old, new, p)


def bound(p, have, old):
    """whether the file means the name so, and the aliases by which it may"""
    direct, alias = where(p) in have, []
    for m, k, names, a in uses(texts[p]):
        if k in have:
            direct = direct or old in names
            if a:
                alias.append(a)
            for n in names:
                if n.startswith(old + " as "):
                    texts[p] = texts[p].replace(m[0], m[0].replace(n, NEW + n[len(old) :]))
    return direct, alias


def rename_def(crate, place, old, new):
    global NEW
    NEW = new
    home = (crate, place)
    if "crates/%s/%s.antt" % home not in texts:
        return notes.append("NO FILE crates/%s/%s.antt" % home)
    if not re.search(r"(?m)^\s*(?:(?:pub|abbrev|unfoldable) )*(?:record |data )?%s(?= :|\s|$)" % re.escape(old), texts["crates/%s/%s.antt" % home]):
        return notes.append("NO DEFINITION %s in crates/%s/%s.antt" % (old, *home))
    have = providers(home, old)
    for p in list(texts):
        if not p.endswith((".antt", ".rt")) or old not in texts[p]:
            continue
        direct, alias = bound(p, have, old)
        for a in alias:
            texts[p] = re.sub(r"(?<!%s)%s\.%s(?!%s)" % (W, re.escape(a), re.escape(old), W), "%s.%s" % (a, new), texts[p])
        if direct:
            if token(new).search(texts[p]):
                notes.append("CLASH %s stands already in %s" % (new, p))
            swap(p, old, new)
    edits(crate, old, new)
    docs(crate, place.split("/")[-1], old, new, home)


def edits(crate, old, new):
    """must-fail edits of the crate, and of crates that import it, cite lines of the files: the same swap by the file they name"""
    for p in list(texts):
        if p.endswith(".edit") and old in texts[p] and token(old).search(texts[p]):
            m = re.search(r"(?m)^file: (\S+)", texts[p])
            target = m and os.path.normpath(os.path.join(os.path.dirname(os.path.dirname(p)), m[1]))
            if target in texts and token(new).search(texts[target]):
                body = []
                for line in texts[p].split("\n"):
                    body.append(swap_code(line, old, new, p) if re.match(r"(old|new):|\s", line) else line)
                texts[p] = "\n".join(body)


def fields_of(home, old):
    t = ORIGINAL.get("crates/%s/%s.antt" % home, "")
    m = re.search(r"(?m)^( *)(?:pub )?(?:record|data) %s\b.*\n((?:\1 +.*\n|\n)*)" % re.escape(old), t)
    return set(re.findall(r"(?m)^\s+(?:pub )?([\w'-]+) :", m[2])) if m else set()


def meanings(old):
    return [p for p, t in ORIGINAL.items() if p.endswith((".antt", ".rt")) and re.search(
        r"(?m)^(?:(?:pub|abbrev|unfoldable|pub\(crate\)) )*(?:record |data |enum |struct |fn )?%s(?= :|[ ({]|$)" % re.escape(old), t)]


def docs(crate, stem, old, new, home=None):
    fields, many = fields_of(home, old) if home else set(), len(set(meanings(old))) > 1
    for p in list(texts):
        if not p.endswith(".md") or old not in texts[p]:
            continue

        def one(m):
            name = m[1]
            q = re.match(r"(?:(\w+)::)?%s((?:\.[\w-]+)?)$" % re.escape(old), name)
            if not q:
                return m[0]
            if q[1] in (crate, stem) or not q[1] and (q[2][1:] in fields or not many):
                counts["docs"] += 1
                return "`%s%s%s`" % (q[1] + "::" if q[1] else "", new, q[2])
            if not q[1]:
                notes.append("by hand? %s: %s (or %s of %s)" % (p, m[0], new, crate))
            return m[0]

        texts[p] = re.sub(r"(?<!`)`([^`\n]+)`(?!`)", one, texts[p])


def rename_type(crate, module, old, new, case=None):
    global NEW
    NEW = new
    path = "specs/declared/" + (module + "/" if module else "") + (case or old)
    if case:
        path += "/the-variants"
    have = {(crate, path)}
    dotted = path.replace("/", ".")
    own = "crates/%s/src/%s.rt" % (crate, module or "lib")
    for p in list(texts):
        if not p.endswith((".antt", ".rt")) or old not in texts[p]:
            continue
        direct, alias = bound(p, have, old)
        for a in alias:
            texts[p] = re.sub(r"(?<!%s)%s\.%s(?!%s)" % (W, a, old, W), "%s.%s" % (a, new), texts[p])
        if direct:
            if token(new).search(texts[p]):
                notes.append("CLASH %s stands already in %s" % (new, p))
            swap(p, old, new)
        elif p.startswith("crates/%s/" % crate) and p.endswith(".rt") and p == own:
            swap(p, old, new)
        if not case:
            texts[p] = re.sub(r"(Rattle·%s(?:·specs)?\.%s)%s(?=[.\s;]|$)" % (crate, re.escape(dotted[: -len(old)]), old), r"\1" + new, texts[p])
        if p.endswith(".rt"):
            t = texts[p]
            if case:
                if p == own or re.search(r"use (?:%s|crate)(?:::\w+)*::%s;" % (crate, case), t) and (p.startswith("crates/%s/" % crate) or "use %s::" % crate in t):
                    t = re.sub(r"\b%s(::|\.)%s\b" % (case, old), r"%s\1%s" % (case, new), t)
                    if p == own:
                        t = re.sub(r"(?m)^(    )%s(?=[,({ ])" % old, r"\1" + new, t)
            else:
                full = "::".join([crate] + ([module] if module else []) + [old])
                inner = "::".join(["crate"] + ([module] if module else []) + [old])
                mine = p == own or "use %s;" % full in t or (p.startswith("crates/%s/" % crate) and "use %s;" % inner in t)
                if mine:
                    t = "\n".join(l if re.match(r"\s*(//|ghost )", l) else re.sub(r"(?<![\w.·])%s\b" % old, new, l) for l in t.split("\n"))
                else:
                    t = t.replace(full, full[: -len(old)] + new)
            texts[p] = t
    edits(crate, old, new)
    docs(crate, module or "lib", old, new)
    if case:
        for p in texts:
            if p.endswith(".md"):
                texts[p] = re.sub(r"`((?:%s::)?%s)(\.|::)%s`" % (crate, case, old), r"`\1\2%s`" % new, texts[p])


def rename_fn(crate, module, old, new):
    ko, kn = old.replace("_", "-"), new.replace("_", "-")
    base = "crates/%s/proofs/%s" % (crate, module + "/" if module else "")
    own = "crates/%s/src/%s.rt" % (crate, module or "lib")
    if not re.search(r"\bfn %s\b" % old, texts.get(own, "")):
        return notes.append("NO FUNCTION %s in %s" % (old, own))
    callers = set()
    for p in list(texts):
        t = texts[p]
        if old not in t and old.replace("_", "-") not in t:
            continue
        if p.endswith(".rt"):
            if p == own:
                new_t = re.sub(r"(?<![\w.:])%s(?=\()" % old, new, t)
            else:
                alias = module
                m = re.search(r"use (?:%s|crate)::%s as (\w+);" % (crate, module), t)
                alias = m[1] if m else alias
                there = re.search(r"use (?:%s)::%s\b" % (crate + ("|crate" if p.startswith("crates/%s/" % crate) else ""), module), t)
                new_t = re.sub(r"\b%s::%s(?=\()" % (alias, old), "%s::%s" % (alias, new), t) if there else t
                new_t = re.sub(r"\b%s::%s::%s(?=\()" % (crate, module, old), "%s::%s::%s" % (crate, module, new), new_t)
            if new_t != t:
                callers.add(p.split("/")[1])
                texts[p] = new_t
        if p.startswith(base + old + "/"):
            t = re.sub(r"(?<!%s)%s-spec(?!%s)" % (W, ko, W), kn + "-spec", t)
            texts[p] = t
            moves.append((base + old, base + new))
        texts[p] = re.sub(r"(Rattle·%s·proofs\.proofs\.%s)%s(?=\.)" % (crate, module + "." if module else "", old), r"\1" + new, texts[p])
        texts[p] = re.sub(r"\b%s::%s::%s\b" % (crate, module, old), "%s::%s::%s" % (crate, module, new), texts[p])
    for p in list(texts):  # a call of it in a proof's context
        if p.endswith("Proof.antt") and p.split("/")[1] in callers or p.endswith(".antt") and p.startswith("crates/%s/proofs" % crate):
            texts[p] = re.sub(r"(?<=\s\.)%s(?=\d*(?!%s))" % (ko, W), kn, texts[p])
    edits(crate, old, new)
    docs(crate, module, old, new)


def rename_mod(crate, old, new):
    moves.append(("crates/%s/src/%s.rt" % (crate, old), "crates/%s/src/%s.rt" % (crate, new)))
    moves.append(("crates/%s/proofs/%s" % (crate, old), "crates/%s/proofs/%s" % (crate, new)))
    for p in list(texts):
        t = texts[p]
        if old not in t and old.replace("_", "-") not in t:
            continue
        mine = p.startswith("crates/%s/" % crate)
        if p.endswith((".rt", ".antt")):
            t = re.sub(r"(Rattle·%s(?:·specs)?\.specs\.declared\.)%s(?=\.)" % (crate, old), r"\1" + new, t)
            t = re.sub(r"(Rattle·%s·proofs\.proofs\.)%s(?=\.)" % (crate, old), r"\1" + new, t)
            t = re.sub(r"\b%s::%s\b" % (crate, old), "%s::%s" % (crate, new), t)
        if p.endswith(".rt"):
            if p == "crates/%s/src/lib.rt" % crate:
                t = re.sub(r"(?m)^((?:pub )?(?:pub\(crate\) )?mod )%s;" % old, r"\1%s;" % new, t)
                t = re.sub(r"(?m)^(use )%s::" % old, r"\1%s::" % new, t)
            t = re.sub(r"\bcrate::%s\b" % old, "crate::" + new, t) if mine else t
            other = re.search(r"use (?!%s|crate)\w+::%s;" % (crate, old), texts[p])
            if (re.search(r"use %s::%s;" % (crate, new), t) or mine and (re.search(r"use crate::%s;" % new, t) or p.endswith("src/lib.rt"))) and not other:
                t = re.sub(r"(?<![\w:])%s::" % old, new + "::", t)
            elif other and re.search(r"use %s::%s;" % (crate, new), t):
                notes.append("TWO MODULES %s in %s" % (old, p))
        if p.endswith(".edit") and mine:
            t = re.sub(r"(?m)^(file: src/)%s\.rt" % old, r"\1%s.rt" % new, t)
        if p.endswith(".md"):
            t = re.sub(r"crates/%s/src/%s\b" % (crate, old), "crates/%s/src/%s" % (crate, new), t)
            t = re.sub(r"\b%s::%s\b" % (crate, old), "%s::%s" % (crate, new), t)
        texts[p] = t


def rename_file(crate, kind, old, new):
    if "crates/%s/%s/%s.antt" % (crate, kind, old) not in texts:
        return notes.append("NO FILE crates/%s/%s/%s.antt" % (crate, kind, old))
    moves.append(("crates/%s/%s/%s.antt" % (crate, kind, old), "crates/%s/%s/%s.antt" % (crate, kind, new)))
    for p in list(texts):
        t = texts[p]
        if old not in t and old.replace("_", "-") not in t:
            continue
        t = re.sub(r"(Rattle·%s(?:·%s)?\.%s\.)%s(?=[.\s;]|$)" % (crate, kind, kind, old), r"\1" + new, t, flags=re.M)
        if p == "crates/%s/%s/Lib.antt" % (crate, kind):
            t = re.sub(r"(?m)^(pub mod )%s$" % old, r"\1" + new, t)
        if p.endswith(".edit") and p.startswith("crates/%s/" % crate):
            t = re.sub(r"(?m)^(file: %s/)%s\.antt" % (kind, old), r"\1%s.antt" % new, t)
        t = re.sub(r"(crates/)?%s/%s/%s(?=\.antt|`)" % (crate, kind, old), lambda m: (m[1] or "") + "%s/%s/%s" % (crate, kind, new), t)
        texts[p] = t


def rename_crate(old, new):
    moves.append(("crates/" + old, "crates/" + new))
    for p in list(texts):
        t = texts[p]
        if old not in t and old.replace("_", "-") not in t:
            continue
        if p == "crates.txt":
            t = "\n".join(l if l.startswith("#") else re.sub(r"(?<!\w)%s(?!\w)" % old, new, l) for l in t.split("\n"))
        if p.endswith((".rt", ".antt")):
            t = re.sub(r"Rattle·%s(?=[·.])" % old, "Rattle·" + new, t)
            t = re.sub(r"`%s::" % old, "`%s::" % new, t)
        if p.endswith(".rt"):
            if re.search(r"(?m)^use %s(;|::)" % old, t):
                t = re.sub(r"(?m)^use %s(?=;|::)" % old, "use " + new, t)
                t = re.sub(r"(?<![\w:])%s::" % old, new + "::", t)
        if p.endswith(".edit") and re.search(r"(?m)^file: src/", t):
            t = re.sub(r"(?m)(?<![\w:])%s::" % old, new + "::", t)
        if p.endswith(".md"):
            t = re.sub(r"crates/%s(?=[/`])" % old, "crates/" + new, t)
            t = re.sub(r"`%s(?=::|`|/(?:specs|proofs|src)\b)" % old, "`" + new, t)
        texts[p] = t


def unresolved():
    """imports whose module stands in the clone and does not have the name"""
    bad = set()
    files = {where(p): t for p, t in texts.items() if where(p)}
    words = {w: set(re.findall(r"[^\s(){},;.]+", t)) for w, t in files.items()}
    for p, t in texts.items():
        if not p.endswith((".antt", ".rt")):
            continue
        for m, k, names, _ in uses(t):
            body = files.get(LOOK.get(k, k))
            if body is None:
                if "declared" not in k[1] and not re.search(r"(Statement|Tie)$", k[1]):
                    bad.add((p, k, "no module"))
                continue
            for n in names:
                n = n.split(" as ")[0].strip()
                if n and n not in words[LOOK.get(k, k)]:
                    bad.add((p, k, n))
    return bad


LOOK = {}
load()
ORIGINAL = dict(texts)
before = {(p, n) for p, k, n in unresolved()}
for kind in ORDER:
    for row in TABLE:
        if row[0] != kind or ONLY and ONLY not in row[3]:
            continue
        _, crate, place, old, new, _ = row
        if kind == "def":
            rename_def(crate, place, old, new)
        elif kind == "local":
            p = "crates/%s/%s.antt" % (crate, place)
            swap(p, old, new) if p in texts else notes.append("NO FILE " + p)
        elif kind == "ctor":
            rename_type(crate, "", old, new, case=place)
        elif kind == "type":
            rename_type(crate, place, old, new)
        elif kind == "fn":
            rename_fn(crate, place, old, new)
        elif kind == "mod":
            rename_mod(crate, old, new)
        elif kind == "file":
            rename_file(crate, place, old, new)
        elif kind == "crate":
            rename_crate(old, new)
# where each module stands now, for the look-up
for kind, crate, place, old, new, _ in TABLE:
    if ONLY and ONLY not in old:
        continue
    if kind == "file":
        LOOK[(crate, place + "/" + new)] = (crate, place + "/" + old)
for kind, crate, place, old, new, _ in TABLE:
    if kind == "crate" and not (ONLY and ONLY not in old):
        for k, v in list(LOOK.items()):
            if k[0] == old:
                LOOK[(new, k[1])] = v
        for p in ORIGINAL:
            w = where(p)
            if w and w[0] == old:
                LOOK.setdefault((new, w[1]), w)
# old names in backticks that nothing bears any more: comments and documents for the hand
for kind, crate, place, old, new, _ in TABLE:
    if ONLY and ONLY not in old or kind in ("file", "mod", "crate", "local"):
        continue
    if any(o == old and n != new for _, _, _, o, n, _ in TABLE) or len(set(meanings(old))) > 1:
        continue
    for p, t in texts.items():
        for m in re.finditer(r"`(?:\w+::)?%s(?:\.[\w-]+)?`|\b\w+/\w+\.antt: [^`]*\b%s\b" % (re.escape(old), re.escape(old)), t):
            notes.append("LEFT %s: %s is %s now" % (p, m[0][:80], new))
broken = sorted((p, k, n) for p, k, n in unresolved() if (p, n) not in before)
changed = [p for p in texts if texts[p] != ORIGINAL[p]]
if not DRY:
    for p in changed:
        open(os.path.join(ROOT, p), "w", encoding="utf-8").write(texts[p])
    done = set()
    for a, b in moves:  # functions and modules inside crates first, crates last: the order of the rows' kinds
        # a function's folder lies under its module's, which is moved after it
        if (a, b) in done or not os.path.exists(os.path.join(ROOT, a)):
            continue
        done.add((a, b))
        if subprocess.call(["git", "-C", ROOT, "mv", a, b]):
            os.rename(os.path.join(ROOT, a), os.path.join(ROOT, b))
for n in sorted(set(notes)):
    print(n)
for b in broken:
    print("BROKEN", *b)
print("%d files change, %d moves, %d broken imports, %d notes" % (len(changed), len(set(moves)), len(broken), len(set(notes))))
print("tokens:", dict(counts))
