#!/usr/bin/env python3
"""Turns the proofs of functions from one long `Proof.antt` to `Invariants.antt` and `Answers.antt`.

usage: tools/answers.py NAMES CRATE [FUNCTION..]

NAMES is the names.json that `rt check --generated DIR --old-names` writes for the crate, CRATE its folder. A `Proof.antt` is an application
`tie.close (tie.spec A B ..)` with an argument for each invariant, measure and goal, in their order. An argument that only says
`search rules` goes, unless the proof unfolds a definition; the others become answers under the goal's name of today, clause by clause
where there are several. What cannot be turned stays, with a line that says why. Proves nothing: rt check decides.
"""

import json
import os
import re
import sys

WORD = re.compile(r'[^\s(){}\[\].;,@"«»\\]+')
BEFORE = re.compile(r"(?:\.before)+(?![\w'-])")


def blocks(text):
    """The declarations and comments at column 0, each with its later lines."""
    out, cur = [], []
    for line in text.split("\n"):
        if line and not line[0].isspace():
            opener = re.match(r"(abbrev |unfoldable |pub )*(\S+) :( |$)", line) or line.startswith(("use ", "--", "record ", "data ", "pub record ", "pub data ", "module "))
            if opener and cur:
                out.append("\n".join(cur).rstrip())
                cur = []
        cur.append(line)
    if cur:
        out.append("\n".join(cur).rstrip())
    return [b for b in out if b.strip()]


def matching(text, at):
    """The index behind the bracket that closes the one at `at`."""
    depth, i = 0, at
    while i < len(text):
        if text[i] == '"':
            i = text.index('"', i + 1)
        elif text[i] in "([{":
            depth += 1
        elif text[i] in ")]}":
            depth -= 1
            if not depth:
                return i + 1
        i += 1
    raise ValueError("no bracket")


def top_level(text):
    """The arguments of an application, each a bracketed text or a word."""
    out, i = [], 0
    while i < len(text):
        if text[i].isspace():
            i += 1
        elif text[i] in "([{":
            j = matching(text, i)
            # a projection behind the bracket belongs to it
            while j < len(text) and text[j] == ".":
                j = re.compile(r"\.[^\s(){}\[\],;.]+").match(text, j).end()
            out.append(text[i:j])
            i = j
        else:
            j = i
            while j < len(text) and not text[j].isspace() and text[j] not in "([{":
                j += 1
            out.append(text[i:j])
            i = j
    return out


def parts_of(text):
    """The parts of a tuple in brackets, or None."""
    text = text.strip()
    if not text.startswith("(") or matching(text, 0) != len(text):
        return None
    inside, out, depth, start = text[1:-1], [], 0, 0
    i = 0
    while i < len(inside):
        ch = inside[i]
        if ch in "([{":
            i = matching(inside, i)
            continue
        if ch == ",":
            out.append(inside[start:i])
            start = i + 1
        i += 1
    out.append(inside[start:])
    if not out[-1].strip():
        out.pop()
    # a let or a lambda swallows the commas behind it only inside brackets
    if len(out) > 1 and re.match(r"\s*(let|λ|rw|simp|elim|omega|search|grind)\b", out[0]) and re.match(r"\s*let\b", out[0]):
        return None
    return [it.strip() for it in out] if len(out) > 1 else None


def flat(text, n):
    """n parts of a nested tuple, or None."""
    parts = parts_of(text)
    while parts and len(parts) < n:
        more = parts_of(parts[-1])
        if not more:
            return None
        parts = parts[:-1] + more
    if parts and len(parts) > n:
        parts = parts[: n - 1] + ["(" + ", ".join(parts[n - 1 :]) + ")"]
    return parts if parts and len(parts) == n else None


def inlined(term):
    """The term with `let x = (c.f.ensures.a, c.f.ensures.b) in` gone, and its parts where `x.0` or `x.1` stood."""
    pos = 0
    while True:
        m = re.compile(r"(?<![\w'-])let ([\w'₀-₉]+) = (?=\(c\.)").search(term, pos)
        if not m:
            return term
        pos = m.end()
        end = matching(term, pos)
        close = re.compile(r"\s+in(?=\s)\s*").match(term, end)
        if not close or not re.fullmatch(r"[\w\s.,()'₀-₉-]+", term[pos:end]) or re.search(r"[^\s,]\s+[^\s]", re.sub(r",\s+", ",", term[pos:end])):
            continue
        whole, rest = term[pos:end], term[close.end() :]

        def part(u, whole=whole):
            t, path = whole, u[1] or ""
            while path:
                ps = parts_of(t)
                if not ps or len(ps) != 2:
                    break
                t, path = ps[int(path[1])], path[2:]
            return t + path

        term = term[: m.start()] + re.sub(rf"(?<![\w.'-]){re.escape(m[1])}((?:\.[01])*)(?![\w'-])", part, rest)
        pos = m.start()


def fitted(args, goals):
    """The arguments that fit the goals in their order, without those that only search, or None."""
    if len(args) == len(goals) and not args:
        return []
    if len(args) < len(goals):
        return None
    kept = re.match(r"\(λ \S+ κs\.", args[0])
    if goals and bool(kept) == ("-requires" in goals[0]):
        rest = fitted(args[1:], goals[1:])
        if rest is not None:
            return [args[0]] + rest
    if re.fullmatch(r"\(λ \S+\. (search rules|refl)\)", args[0]):
        return fitted(args[1:], goals)
    return None


def dashed(name):
    return name.replace("_", "-")


def labels_of(top):
    """Of each function of src/, by its path: the names of its requires and of its ensures."""
    out = {}
    for folder, _, files in os.walk(os.path.join(top, "crates")):
        if "/src" not in folder:
            continue
        for f in files:
            if not f.endswith(".rt"):
                continue
            where = os.path.relpath(os.path.join(folder, f), os.path.join(top, "crates"))
            crate, _, *mods = where[:-3].split("/")
            path = [crate] + [m for m in mods if m not in ("lib", "main", "mod")]
            owner, now = None, None
            with open(os.path.join(folder, f), encoding="utf-8") as it:
                for line in it:
                    if m := re.match(r"impl(?:<[^>]*>)? (?:\w+ for )?(\w+)", line):
                        owner = m[1]
                    elif line.startswith("}"):
                        owner = None
                    if m := re.match(r"\s*(?:pub(?:\([^)]*\))? )?(?:unsafe )?(?:extern \"C\" )?fn (\w+)", line):
                        now = (([], []))
                        out["::".join(path + ([owner] if owner else []) + [m[1]])] = now
                    elif (m := re.match(r"\s+(requires|ensures)\*? (?:(\w+) )?\{", line)) and now:
                        now[m[1] == "ensures"].append(m[2])
    return out


def projected(head, labels, rest):
    """`head` is a record of clauses; `rest` a path of positions of a nested pair, as .1.0, then what follows."""
    n = len(labels)
    if n == 1:
        return f"{head}.{labels[0]}{rest}" if labels[0] else head + rest
    left, path = list(labels), rest
    while len(left) > 1:
        if path.startswith(".0"):
            return f"{head}.{left[0]}{path[2:]}"
        if path.startswith(".1"):
            left, path = left[1:], path[2:]
        else:
            break
    if len(left) == 1:
        return f"{head}.{left[0]}{path}"
    if path:
        return head + rest
    text = f"{head}.{left[-1]}"
    for it in reversed(left[:-1]):
        text = f"({head}.{it}, {text})"
    return text


def fields_of(top):
    """The names of the fields of the repository's records in specs/ and proofs/."""
    out = set()
    for folder, _, files in os.walk(os.path.join(top, "crates")):
        for f in files:
            if f.endswith(".antt"):
                with open(os.path.join(folder, f), encoding="utf-8") as it:
                    out |= set(re.findall(r"(?:^\s+(?:pub )?|[{;]\s*)([a-z][\w-]*) : ", it.read(), re.M))
    return out


class Function:
    labels = {}
    records = set()

    def __init__(self, crate, path, names, said):
        self.crate, self.path, self.names, self.said = crate, path, names, said
        self.file = os.path.join(crate, "proofs", *path.split("."), "Proof.antt")
        self.name = os.path.basename(os.path.realpath(crate))
        steps = {}
        for _, _, (old, new), callee, _ in names["places"]:
            if old:
                steps[old] = steps[dashed(old)] = new
                # what the respelling made of a step that was called as a lemma or a predicate
                steps.setdefault(old + "_lem", new)
                if old.startswith("is_"):
                    steps.setdefault("is_Is" + "".join(w.capitalize() for w in old[3:].split("_")), new)
                steps.setdefault(dashed(old)[:1].upper() + dashed(old)[1:], new)
        for (old, new), _ in names["loops"]:
            steps[old] = steps[dashed(old)] = new
        self.steps = steps
        self.params = names.get("params", {})
        self.callee = {new: callee for _, _, (old, new), callee, _ in names["places"] if callee}
        # of a callee in the library, the names of its clauses
        self.fields = {
            place[2][1]: it["fields"]
            for place, it in zip(names["places"], names.get("clauses") or [])
            if place[3] and it and it.get("fields") and place[3] not in self.labels
        }
        self.typed = {}
        for row in names["typed"]:
            for var, step in row:
                self.typed[step] = self.typed[dashed(step)] = var
        self.goals = names["needs"]
        # what a pattern binds: old step and path, then today's step and field
        self.arms = {}
        for arm in names["arms"]:
            if arm:
                for field, step, path in arm[2]:
                    if path:
                        for s in (step, dashed(step)):
                            self.arms.setdefault((s, ".".join(path)), f"{arm[0]}.{field}")

    def fail(self, why):
        self.said.append(f"{self.file}: {why}")
        return False

    def renamed(self, term):
        """The term with the steps of today, and no path of `before`."""
        term = BEFORE.sub("", term)
        tops = "|".join(sorted(map(re.escape, self.steps), key=len, reverse=True))

        def one(m):
            head, step, rest = m[1], m[2], m[3] or ""
            if rest.startswith(".given"):
                path = rest[1:].split(".")
                for k in range(len(path), 0, -1):
                    found = self.arms.get((step, ".".join(path[:k])))
                    if found:
                        return f"{head}.{found}" + "".join("." + it for it in path[k:])
                if step in self.typed and rest == ".given":
                    return f"{head}.type_inv.{self.typed[step]}"
                if re.search(r"(known|told)", step) or any(s == step for s, _ in self.arms):
                    return "(search rules)"
            if step in self.typed and rest == ".given":
                return f"{head}.type_inv.{self.typed[step]}"
            return f"{head}.{self.steps.get(step, step)}{rest}"

        # heads: c, w and what is bound to them
        term = re.sub(r"(?<![\w.'-])([a-z][\w₀-₉']*)\.([^\s(){}\[\],;.]+)(\.given(?![\w-])(?:\.[01])*)?", lambda m: one(m) if m[2] in self.steps or m[2] in self.typed else m[0], term)
        # a test of `!x` is of the whole now
        term = re.sub(r"(?<![\w.'-])([a-z][\w₀-₉']*\.if-not-[^\s(){}\[\],;.]+\.(true|false))(?![\w'-])", lambda m: f"(not_from_{'false' if m[2] == 'true' else 'true'} _ {m[1]})", term)
        # what a call leaves in an argument goes by the argument's name
        for step, callee in self.callee.items():
            ps = self.params.get(callee)
            if ps:

                def named(m, ps=ps):
                    i = m[2].count(".1")
                    return f"{m[1]}.{ps[i]}" if i < len(ps) else m[0]

                term = re.sub(rf"(?<![\w.'-])([a-z][\w₀-₉']*\.{re.escape(step)}\.(?:auto|new))((?:\.1)*\.0)(?![\w.'-])", named, term)
        # fields of the repository's records that were respelled as steps are
        term = re.sub(
            r"(?<=[\w')])\.([a-z]\w*(?:-[a-z]\w*)+)(?![\w'-])",
            lambda m: "." + m[1].replace("-", "_") if m[1] not in self.records and m[1].replace("-", "_") in self.records and m[1] not in self.steps.values() else m[0],
            term,
        )
        # a name for a record of clauses: the record has other fields now, so the path itself
        for m in reversed(list(re.finditer(r"let (\w+) = ([a-z][\w₀-₉']*(?:\.[^\s(){}\[\],;.]+)*\.(?:requires|ensures)(?:\.[01])*) in\s+", term))):
            rest = re.sub(rf"(?<![\w.'-]){re.escape(m[1])}(?![\w'-])", lambda _, path=m[2]: path, term[m.end() :])
            term = term[: m.start()] + rest
        # clauses go by name
        for step, callee in self.callee.items():
            labels = self.labels.get(callee, ((), self.fields.get(step, ())))[1]
            if labels and (len(labels) > 1 or labels[0]):
                term = re.sub(
                    rf"(?<![\w.'-])([a-z][\w₀-₉']*\.{re.escape(step)}\.ensures)((?:\.[01])*)(?![\w'-])(?!\.[01](?!\w))",
                    lambda m, labels=labels: m[0] if not m[2] and m.string.startswith(".", m.end()) else projected(m[1], labels, m[2]),
                    term,
                )
        # no record, in a chain's step
        term = re.sub(r"(?<![\w.'-])(c\.in_default[\w-]*)\.keys\d*", r"(tag_other _ \1.not-Record)", term)
        labels = self.labels.get(f"{self.name}::" + self.path.replace(".", "::"), ((), ()))[0]
        if labels and (len(labels) > 1 or labels[0]):
            term = re.sub(r"(?<![\w.'-])(c\.requires)((?:\.[01])*)(?![\w'-])(?!\.[01](?!\w))", lambda m: m[0] if not m[2] and m.string.startswith(".", m.end()) else projected(m[1], labels, m[2]), term)
        return term

    def turn(self):
        with open(self.file, encoding="utf-8") as f:
            text = f.read()
        if "Tie as tie" not in text:
            return self.fail("no tie")
        every = blocks(text)
        comments = [b for b in every if b.startswith("--")]
        uses = [u for b in every for u in b.split("\n") if u.startswith("use ") and ".Statement" not in u and ".Tie as tie" not in u]
        decls = [b for b in every if not b.startswith(("--", "use "))]
        spec = decls[-1]
        head = re.match(r"pub \S+_spec : [^\n]*\n((?:unfolding[^\n]*\n)?)\S+_spec =\s*tie\.close\s*\(tie\.spec\b", spec)
        if not head:
            return self.fail("no tie.close (tie.spec")
        unfolding = head[1].strip()
        start = spec.index("(tie.spec")
        end = matching(spec, start)
        args = top_level(spec[start + len("(tie.spec") : end - 1])
        loops = self.names["loops"]
        local = {}
        for b in decls[:-1]:
            m = re.match(r"(?:abbrev |unfoldable |pub )*(\S+) : (tie\.\S+)", b)
            if m:
                local[m[1]] = b
        want = 2 * len(loops) + len(self.goals)
        if len(args) > want:
            # the goal of a byte literal is gone: an argument that only searches, and takes no κs
            args = args[: 2 * len(loops)] + (fitted(args[2 * len(loops) :], [goal for _, goal in self.goals]) or args[2 * len(loops) :])
        if len(args) != want:
            return self.fail(f"{len(args)} arguments, and {len(loops)} loops with {len(self.goals)} goals")
        out_inv, out_ans = [], []
        # invariants and measures
        for k, ((_, loop), variables) in enumerate(loops):
            changed = self.names["changed"][k]
            for kind, arg in (("invariant", args[2 * k]), ("decreases", args[2 * k + 1])):
                block = local.get(arg)
                if not block:
                    return self.fail(f"{kind} is no definition: {arg[:60]}")
                m = re.search(rf"(?m)^{re.escape(arg)} ([^=\n]*)= ?", block)
                if not m:
                    return self.fail(f"{kind}: no clause")
                params, body = m[1].split(), block[m.end() :]
                fields = [("initial." if c else "") + v for v, c in zip(variables, changed)] + [v for v, c in zip(variables, changed) if c]
                if len(params) != len(fields):
                    return self.fail(f"{kind}: {len(params)} parameters, {len(fields)} variables: {params} {fields}")
                lv = "l" if not re.search(r"(?<![\w.'-])l(?![\w'-])", body) else "lv"
                table = {p: f"{lv}.{f}" for p, f in zip(params, fields) if p != "_"}
                # what a binder of the body is called stays
                for bound in re.findall(r"λ ([^.]*)\.", body) + re.findall(r"\(((?:[\w'₀-₉]+ )+):", body):
                    for w in re.findall(r"[\w'₀-₉]+", bound):
                        if w in table:
                            self.said.append(f"{self.file}: look: {kind} binds {w}")
                            table.pop(w)
                put = lambda w: table.get(w[0], w[0])
                body = re.sub(r'(?<![^\s(){}\[\];,])[^\s(){}\[\].;,@"«»]+', put, body)
                unf = re.search(r"(?m)^unfolding[^\n]*\n", block)
                out_inv.append(f"abbrev pub {kind}-{loop} : goal.{kind}-{loop}\n{unf[0] if unf else ''}{kind}-{loop} {lv} = {body}")
        helper = [b for b in decls[:-1] if not re.match(r"(?:abbrev |unfoldable |pub )*(\S+) : (tie\.\S+)", b)]
        for (old, goal), arg in zip(self.goals, args[2 * len(loops) :]):
            extra = unfolding
            if arg in local:
                block = local[arg]
                unf = re.search(r"(?m)^unfolding([^\n]*)\n", block)
                extra = ("unfolding" + unf[1]) if unf else ""
                m = re.search(rf"(?m)^{re.escape(arg)} ([^=\n]*)= ?", block)
                if not m:
                    return self.fail(f"{arg}: no clause")
                binders, body = m[1].split(), block[m.end() :]
            else:
                inner = arg[1:-1].strip() if arg.startswith("(") and matching(arg, 0) == len(arg) else arg
                m = re.match(r"λ ([^.]*)\.\s*", inner)
                if m:
                    binders, body = m[1].split(), inner[m.end() :]
                else:
                    binders, body = ["c"], f"{arg} c"
            where = ""
            w = re.search(r"\n\s*where\n", body)
            if w:
                body, where = body[: w.start()], body[w.start() :]
            ks = binders[1:]
            c = binders[0] if binders else "c"
            if c == "_":
                c = "c"
            body = inlined(self.renamed(body.strip()))
            more = " ".join(k for k in ks if k != "κs")
            c = f"{c} {more}".strip()
            for k in ks:
                if k == "κs":
                    body = re.sub(rf"(?<![\w.'-]){re.escape(k)}(?![\w'-])", f"{binders[0]}.lifetimes", body)
            trivial = lambda t: re.sub(r"\s+", " ", t.strip("() ")) in ("search rules", "search rules ", "omega arith")
            labels = self.names["asked"].get(old)
            if trivial(body) and (not extra or not goal.startswith("returns")):
                continue
            put_extra = f"\n{extra}" if extra else ""
            if labels and not where:
                parts = flat(body, len(labels))
                if parts:
                    for label, part in zip(labels, parts):
                        if trivial(part) and not extra:
                            continue
                        out_ans.append(f"pub {goal}-clause-{label} : goal.{goal}-clause-{label}{put_extra}\n{goal}-clause-{label} {c} = {part}")
                    continue
                if trivial(body):
                    out_ans.append(f"pub {goal} : goal.{goal}{put_extra}\n{goal} {c} = {body}")
                    continue
                if re.match(r"(search|omega|grind|cc)\b", body):
                    # one tactic, asked for each
                    for label in labels:
                        out_ans.append(f"pub {goal}-clause-{label} : goal.{goal}-clause-{label}{put_extra}\n{goal}-clause-{label} {c} = {body}")
                    continue
                # one term for all the clauses
                proj = lambda i, n: ".1" * i + (".0" if i < n - 1 else "")
                n = len(labels)
                fields = "; ".join(f"{label} = all_of{proj(i, n)}" for i, label in enumerate(labels))
                m = re.match(r"((?:let .*? in\s+)*)(.*)\Z", body, re.S)
                lets, last = "", body
                pos = 0
                # keep leading lets outside
                while True:
                    mm = re.compile(r"let\s").match(body, pos)
                    if not mm:
                        break
                    depth, i, found = 0, pos + 3, None
                    while i < len(body):
                        if body[i] in "([{":
                            i = matching(body, i)
                            continue
                        if re.compile(r"(?<=\s)let\s").match(body, i):
                            depth += 1
                        if re.compile(r"(?<=\s)in(?=\s)").match(body, i):
                            if depth == 0:
                                found = i + 2
                                break
                            depth -= 1
                        i += 1
                    if not found:
                        break
                    pos = found
                    while pos < len(body) and body[pos].isspace():
                        pos += 1
                lets, last = body[:pos], body[pos:]
                parts = flat(last, n)
                if parts:
                    inner = "; ".join(f"{label} = {part}" for label, part in zip(labels, parts))
                    out_ans.append(f"pub {goal} : goal.{goal}{put_extra}\n{goal} {c} = {lets}record {{ {inner} }}")
                else:
                    out_ans.append(f"pub {goal} : goal.{goal}{put_extra}\n{goal} {c} = {lets}let all_of = {last} in record {{ {fields} }}")
                continue
            out_ans.append(f"pub {goal} : goal.{goal}{put_extra}\n{goal} {c} = {body}{where}")
        folder = os.path.dirname(self.file)
        said = "\n".join(comments)
        module = f"Rattle.{self.name}.proofs.{self.path}"
        used = lambda items, body: any(re.search(rf"(?<![\w'-]){re.escape(i.split(' as ')[-1].strip('◌ '))}", body) or "◌" in i for i in items)

        def imports(body):
            out = []
            nots = [it for it in ("not_from_true", "not_from_false") if f"({it} _" in body]
            if nots:
                out.append(f"use Rattle.std.proofs.lemmas.Bool.{{{', '.join(nots)}}}")
            if "(tag_other _" in body:
                out.append("use Rattle.record.proofs.TallyLaws.{tag_other}")
            for u in uses:
                m = re.match(r"use (\S+?)\.\{(.*)\}$", u)
                if not m:
                    out.append(u)
                    continue
                items = [i.strip() for i in m[2].split(",")]
                keep = []
                for i in items:
                    name = i.split(" as ")[-1].strip()
                    sym = name.replace("◌", "").strip()
                    if "◌" in name:
                        ok = all(s in body for s in re.split("◌", name) if s)
                    else:
                        ok = re.search(rf"(?<![\w'-]){re.escape(name)}(?![\w'-])", body) is not None
                    if ok:
                        keep.append(i)
                if keep:
                    out.append(f"use {m[1]}.{{{', '.join(keep)}}}")
            return "\n".join(out)

        helpers_inv = []
        if out_inv:
            body = "\n\n".join(out_inv)
            need = [h for h in helper if (lambda n: n and re.search(rf"(?<![\w.'-]){re.escape(n[1])}(?![\w'-])", body))(re.match(r"(?:abbrev |unfoldable |pub )*(\S+) :", h))]
            helpers_inv = need
            body = "\n\n".join(need + out_inv)
            with open(os.path.join(folder, "Invariants.antt"), "w", encoding="utf-8") as f:
                f.write(f"{said}\n{imports(body)}\nuse {module}.Given as goal\n\n{body}\n")
        if out_ans or [h for h in helper if h not in helpers_inv]:
            rest = [h for h in helper if h not in helpers_inv]
            body = "\n\n".join(rest + out_ans)
            with open(os.path.join(folder, "Answers.antt"), "w", encoding="utf-8") as f:
                f.write(f"{said}\n{imports(body)}\nuse {module}.Goals as goal\n\n{body}\n")
        os.remove(self.file)
        if not os.listdir(folder):
            os.rmdir(folder)
        return True


def main(argv):
    with open(argv[0], encoding="utf-8") as f:
        names = json.load(f)
    said, n, ok = [], 0, 0
    Function.labels = labels_of(os.path.join(argv[1], "../.."))
    Function.records = fields_of(os.path.join(argv[1], "../.."))
    for module, of in names.items():
        m = re.match(r"Rattle-\w+-proofs\.(.*)\.Lts$", module)
        if not m or argv[2:] and m[1] not in argv[2:]:
            continue
        f = Function(argv[1], m[1], of, said)
        if os.path.exists(f.file):
            n += 1
            try:
                ok += f.turn()
            except (ValueError, AttributeError, IndexError, KeyError) as e:
                f.fail(f"{type(e).__name__}: {e}")
    print(f"{ok} of {n} turned")
    print("\n".join(said))


if __name__ == "__main__":
    main(sys.argv[1:])
