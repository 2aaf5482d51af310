#!/usr/bin/env python3
"""Turns proofs by hand, Proof.antt over `Tie`, into Invariants.antt and Answers.antt.

usage: python3 tools/turn_proofs.py NAMES CRATE [FUNCTION..]

NAMES is a folder in which NAMES/CRATE/names.json stands, as `rt check --generated NAMES/CRATE --old-names` writes it.
What it cannot turn it prints as `left:`; the files are written all the same, and the check says what is wrong with them.
"""

import json
import os
import re
import sys

TOK = re.compile(r"[^\s()\[\]{},;]+")


def norm(s):
    return s.replace("-", "_")


class Function:
    def __init__(self, x):
        self.x = x
        self.places = x["places"]
        self.new = x["places_by_name"]
        # within an arm's own steps the place behind them serves
        self.index = {}
        for i, p in enumerate(self.places):
            m = re.match(r"(In-.*)-\d+$", self.new[i])
            self.index[norm(p[0])] = self.new.index(m.group(1)) if m and m.group(1) in self.new else i
        raw = {norm(p[0]): i for i, p in enumerate(self.places)}
        self.parent = [raw.get(norm(p[1])) if p[1] else None for p in self.places]

    def ancestors(self, i):
        while i is not None:
            yield i
            i = self.parent[i]

    def distance(self, i, j):
        for n, k in enumerate(self.ancestors(i)):
            if k == j:
                return n
        return None

    def step(self, i, old):
        """The new name of the nearest step of that old name, from the place i."""
        old = norm(old)
        for k in self.ancestors(i) if i is not None else []:
            if norm(self.places[k][2][0]) == old:
                return self.places[k][2][1]
        found = {p[2][1] for p in self.places if norm(p[2][0]) == old}
        if len(found) == 1:
            return found.pop()
        return None

    def step_place(self, i, old):
        old = norm(old)
        for k in self.ancestors(i) if i is not None else []:
            if norm(self.places[k][2][0]) == old:
                return k
        for k, p in enumerate(self.places):
            if norm(p[2][0]) == old:
                return k
        return None

    def arm(self, i, old, path):
        """The arm's field for what was `old.path` of a `match`, with how much of the path it takes."""
        order = list(self.ancestors(i)) if i is not None else []
        order += [k for k in range(len(self.places)) if k not in order]
        best = None
        for k in order:
            if not self.x["arms"][k]:
                continue
            name, _, fields = self.x["arms"][k]
            for new, step, was in fields:
                if norm(step) == norm(old) and was and path[: len(was)] == was:
                    if best is None or len(was) > best[1]:
                        best = (f"{name}.{new}", len(was))
            if best:
                return best
        return best


def decls(text):
    """Top-level declarations, each with the comments before it."""
    out, head = [], []
    cur = None
    for line in text.split("\n"):
        if line.startswith("--") or not line.strip():
            if cur is not None and not line.strip():
                cur.append(line)
                continue
            if line.startswith("--"):
                if cur is not None:
                    out.append(cur)
                    cur = None
                head.append(line)
            continue
        if line[0] not in " \t)":
            word = re.sub(r"^(?:abbrev |unfoldable |pub )+", "", line).split()[0]
            if cur is not None and (line.startswith("unfolding") or word == cur_name):
                cur.append(line)
                continue
            if cur is not None:
                out.append(cur)
            cur, cur_name = head + [line], word
            head = []
        else:
            cur.append(line)
    if cur is not None:
        out.append(cur)
    return ["\n".join(d).rstrip() for d in out]


def name_of(decl):
    for line in decl.split("\n"):
        if line.startswith("--"):
            continue
        return re.sub(r"^(?:abbrev |unfoldable |pub )+", "", line).split()[0]


def balanced(text):
    """The arguments of an application, split at the top level."""
    args, depth, cur = [], 0, ""
    for ch in text:
        if ch in "([{":
            depth += 1
        if ch in ")]}":
            depth -= 1
        if depth == 0 and ch.isspace():
            if cur.strip():
                args.append(cur.strip())
            cur = ""
        else:
            cur += ch
    if cur.strip():
        args.append(cur.strip())
    return args


def split_top(text, sep=","):
    parts, depth, cur = [], 0, ""
    for ch in text:
        if ch in "([{":
            depth += 1
        if ch in ")]}":
            depth -= 1
        if ch == sep and depth == 0:
            parts.append(cur)
            cur = ""
        else:
            cur += ch
    parts.append(cur)
    return [p.strip() for p in parts if p.strip()]


class Turner:
    def __init__(self, crate, path, fn, text, own_requires):
        self.crate, self.path, self.fn, self.left = crate, path, fn, []
        self.own_requires = own_requires
        lines = text.split("\n")
        self.uses = [l for l in lines if l.startswith("use ")]
        self.decls = decls("\n".join(l for l in lines if not l.startswith("use ")))
        self.imported = set()

    def say(self, what):
        self.left.append(what)

    # ---- places of helpers
    def place_type(self, text):
        m = re.search(r"tie\.([A-Z][^\s()]*)", text)
        if not m:
            return None
        return self.fn.index.get(norm(m.group(1)))

    def helpers(self):
        self.maps, self.params = set(), {}
        for d in self.decls:
            name = name_of(d)
            body = "\n".join(l for l in d.split("\n") if not l.startswith("--"))
            sig = re.sub(r"^(?:abbrev |unfoldable |pub )*", "", body)
            m = re.match(re.escape(name) + r" : (.*?)(?=\n(?:unfolding|" + re.escape(name) + r" )|\Z)", sig, re.S)
            if not m:
                continue
            ty = m.group(1)
            if re.match(r"tie\.(Need-|invariant-|decreases-)", ty):
                continue
            both = re.match(r"tie\.([A-Z]\S*)((?: invariant-\S+| decreases-\S+)*) → tie\.([A-Z]\S*)((?: invariant-\S+| decreases-\S+)*)\s*$", ty.strip())
            if both:
                self.maps.add(name)
                continue
            one = re.match(r"tie\.([A-Z]\S*)((?: invariant-\S+| decreases-\S+)*) →", ty.strip())
            if one:
                p = self.fn.index.get(norm(one.group(1)))
                if p is None:
                    self.say(f"{name}: no place {one.group(1)}")
                self.params[name] = {0: p}
                continue
            # binders
            at, pos = {}, 0
            for b in re.finditer(r"\(([^():]+) : ([^()]*(?:\([^()]*\)[^()]*)*)\)", ty):
                names = b.group(1).split()
                t = re.match(r"tie\.([A-Z]\S*)", b.group(2))
                for n in names:
                    if t:
                        p = self.fn.index.get(norm(t.group(1)))
                        if p is None:
                            self.say(f"{name}: no place {t.group(1)}")
                        at[pos] = p
                    pos += 1
            if at:
                self.params[name] = at

    # ---- expressions
    def field_path(self, place, parts):
        """The new path for old field parts, from a record at the place."""
        if not parts:
            return []
        parts = [{"type-inv": "type_inv", "well-formed": "well_formed"}.get(p, p) for p in parts]
        if parts[0] == "pre":
            parts[0] = "requires"
        first = parts[0]
        if first == "requires" and len(parts) > 1 and self.own_requires and parts[1] in ("0", "1"):
            names, k, p = self.own_requires, 0, parts[1:]
            if len(names) > 1:
                while p and p[0] == "1" and k < len(names) - 2:
                    k += 1
                    p = p[1:]
                if p and p[0] == "1" and k == len(names) - 2:
                    return ["requires", names[-1]] + p[1:]
                if p and p[0] == "0":
                    return ["requires", names[k]] + p[1:]
        if first in ("args", "requires", "ranges", "well_formed", "type_inv"):
            return parts
        if len(parts) > 1 and parts[1] == "given":
            got = self.fn.arm(place, first, parts[1:])
            if got:
                return [*got[0].split("."), *parts[1 + got[1] :]]
        got = self.fn.step(place, first)
        if got is None:
            self.say(f"no step {first}")
            return parts
        k = self.fn.step_place(place, first)
        rest = parts[1:]
        if k is not None and rest[:1] in (["new"], ["auto"], ["kept"]) and self.places_callee(k):
            rest = [rest[0], *self.new_of(self.places_callee(k), rest[1:])]
        clauses = self.fn.x["clauses"][k] if k is not None and k < len(self.fn.x["clauses"]) else None
        if rest and rest[0] == "ensures" and clauses and len(clauses["fields"]) > 1:
            rest = ["ensures"] + self.clause(clauses["fields"], rest[1:])
        return [got, *rest]

    def places_callee(self, k):
        return self.fn.places[k][3]

    def new_of(self, callee, path):
        """`.1.1.0` of what a call left of its arguments is the third argument."""
        crate, *_, name = callee.split("::")
        owner = callee.split("::")[-2]
        for folder, _, files in os.walk(f"crates/{crate}/src"):
            for f in files:
                text = open(os.path.join(folder, f), encoding="utf-8").read()
                m = re.search(rf"fn {re.escape(name)}\(([^{{]*?)\)(?:\s*->|\s*\n|\s*\{{)", text, re.S)
                if not m:
                    continue
                names = []
                for one in split_top(m.group(1)):
                    if ":" not in one:
                        names.append("self")
                        continue
                    n, ty = one.split(":", 1)
                    names.append(n.replace("mut ", "").strip())
                k, p = 0, list(path)
                while p and p[0] == "1" and k < len(names):
                    k += 1
                    p = p[1:]
                if p and p[0] == "0" and k < len(names):
                    return [names[k], *p[1:]]
        return path

    def clause(self, fields, path):
        k, p = 0, list(path)
        while p and p[0] == "1" and k < len(fields) - 2:
            k += 1
            p = p[1:]
        if p and p[0] == "1" and k == len(fields) - 2:
            return [fields[-1]] + p[1:]
        if p and p[0] == "0":
            return [fields[k]] + p[1:]
        return path

    def expression(self, text, env, owner=None):
        """Turns a body in which env gives record variables their places."""
        # place maps are the identity now, since a record has the fields of all places before it
        changed = True
        while changed:
            before = text
            for v in list(env):
                ev = re.escape(v)
                text = re.sub(rf"(?<![\w.'-]){ev}(?:\.before)+(?=[.\s)\],;]|$)", v, text)
                for mname in self.maps:
                    text = re.sub(rf"(?<![\w.'-]){re.escape(mname)}\s+{ev}(?=[\s)\],;]|$)", v, text)
                text = re.sub(rf"\(\s*{ev}\s*\)((?:\.before)*)(?=[.\s)\],;]|$)", v, text)
                m = re.search(rf"let\s+([\w'-]+)\s*=\s*{ev}\s+in\s*", text)
                if m and m.group(1) != v:
                    name = m.group(1)
                    tail = re.sub(rf"(?<![\w.'-]){re.escape(name)}(?=[.\s)\],;]|$)", v, text[m.end() :])
                    text = text[: m.start()] + tail
                elif m:
                    text = text[: m.start()] + text[m.end() :]
            changed = text != before

        # fields
        def token(m):
            tok = m.group(0)
            parts = tok.split(".")
            if parts[0] in env and len(parts) > 1:
                return ".".join([parts[0], *self.field_path(env[parts[0]], parts[1:])])
            return tok

        text = TOK.sub(token, text)
        # a test of `!f(..)` says now what f answered
        text = re.sub(r"(?<![\w'-])not-(?:true|false) _ ([\w.'-]+\.(?:true|false))", r"\1", text)
        # lets of a call's clauses
        for m in list(re.finditer(r"let\s+([\w'-]+)\s*=\s*([\w.'-]+)\s+in", text)):
            name, path = m.group(1), m.group(2).split(".")
            if path[0] in env and len(path) >= 2:
                step = path[1]
                k = next((i for i, p in enumerate(self.fn.places) if p[2][1] == step), None)
                callee = self.fn.places[k][3] if k is not None else None
                if callee and len(path) == 2:

                    def renew(mm, callee=callee):
                        p = mm.group(0).split(".")
                        if p[0] == name and len(p) > 2 and p[1] == "new":
                            return ".".join([name, "new", *self.new_of(callee, p[2:])])
                        return mm.group(0)

                    text = text[: m.end()] + TOK.sub(renew, text[m.end() :])
                cl = self.fn.x["clauses"][k] if k is not None and k < len(self.fn.x["clauses"]) else None
                if cl and len(cl["fields"]) > 1:

                    def sub(mm, cl=cl, whole=len(path) == 3 and path[2] == "ensures"):
                        p = mm.group(0).split(".")
                        if p[0] != name:
                            return mm.group(0)
                        if whole:
                            return ".".join([name, *self.clause(cl["fields"], p[1:])])
                        if len(path) == 2 and len(p) > 2 and p[1] == "ensures":
                            return ".".join([name, "ensures", *self.clause(cl["fields"], p[2:])])
                        return mm.group(0)

                    text = text[: m.end()] + TOK.sub(sub, text[m.end() :])
        # helper calls
        for h, at in self.params.items():
            for pos, p in at.items():
                args = r"((?:\s+(?:[^\s()]+|\([^()]*\))){%d})" % pos

                def call(m, p=p):
                    v = m.group(2)
                    if v not in env or p is None or env[v] is None:
                        return m.group(0)
                    n = self.fn.distance(env[v], p)
                    if n is None:
                        self.say(f"{h} {v}: {self.fn.new[env[v]]} is not behind {self.fn.new[p]}")
                        return m.group(0)
                    if n == 0:
                        return m.group(0)
                    at = owner or self.fn.new[env[v]]
                    self.imported.add(self.fn.new[p])
                    if owner is None:
                        self.imported.add(at)
                    return m.group(0)[: m.start(2) - m.start(0)] + f"(goal.at.{at} {v}).{self.fn.new[p]}"

                text = re.sub(rf"(?<![\w.'-]){re.escape(h)}{args}\s+([\w']+)(?=[\s)\],;]|$)", call, text)
        return text

    def types(self, text):
        """tie.PLACE inv dec to goal.PLACE"""

        def one(m):
            i = self.fn.index.get(norm(m.group(1)))
            if i is None:
                self.say(f"no place {m.group(1)}")
                return m.group(1)
            self.imported.add(self.fn.new[i])
            return self.fn.new[i]

        text = re.sub(r"tie\.([A-Z][^\s()]*)((?: invariant-[^\s()]+| decreases-[^\s()]+)*)", one, text)
        return text

    def as_record(self, body, fields):
        """The tuple at the end of the body as a record of the clauses' names."""
        body = body.rstrip()
        if not body.endswith(")"):
            self.say("returns: no tuple at its end")
            return body
        depth = 0
        for i in range(len(body) - 1, -1, -1):
            if body[i] == ")":
                depth += 1
            if body[i] == "(":
                depth -= 1
                if depth == 0:
                    break
        values, inner = [], body[i + 1 : -1]
        while len(values) < len(fields) - 1:
            parts = split_top(inner)
            if len(parts) < 2:
                break
            values.append(parts[0])
            rest = parts[1:]
            if len(rest) == 1 and len(values) < len(fields) - 1:
                r = rest[0].strip()
                inner = r[1:-1] if r.startswith("(") and r.endswith(")") else r
                if not r.startswith("("):
                    break
            elif len(values) == len(fields) - 1:
                values.append(", ".join(rest) if len(rest) == 1 else "(" + ", ".join(rest) + ")")
                break
            else:
                inner = ", ".join(rest)
        if len(values) != len(fields):
            self.say(f"returns: {len(values)} values for {len(fields)} clauses")
            return body
        return body[:i] + "record {\n" + "\n".join(f"      {f} = {v};" for f, v in zip(fields, values)) + "\n    }"

    def turn(self):
        x = self.fn.x
        self.helpers()
        spec = next((d for d in self.decls if "tie.spec" in d and "tie.close" in d), None)
        if spec is None:
            self.say("no tie.spec")
            return None, None
        m = re.search(r"tie\.close\s*(?:\(\s*tie\.spec\b(.*)\)\s*|tie\.spec\s*)$", spec.split("=", 1)[1].strip(), re.S)
        args = balanced(m.group(1) or "") if m else []
        nl = 2 * len(x["loops"])
        loops, args = args[:nl], args[nl:]
        if len(args) != len(x["needs"]):
            args = [a for a in args if not a.startswith("slice-aggregate")]
        needs = x["needs"]
        by_decl = {}
        if len(args) == len(needs):
            for a, (old, new) in zip(args, needs):
                by_decl.setdefault(a, []).append((old, new))
        else:
            self.say(f"{len(args)} arguments for {len(needs)} needs: {[n[0] for n in needs]}")
        at = {new: self.fn.new.index(p[1]) if p[1] in self.fn.new else self.fn.index.get(norm(p[0])) for (old, new), p in zip(needs, x["asked_at"])}

        def by_type(need):
            """by the old name in a signature"""
            n = norm(need)
            for old, new in needs:
                o = norm(old)
                if n == o or n.endswith("_" + o) or n == "overflow_" + o or n == "nonzero_" + o:
                    return new
            for old, new in needs:
                if norm(new) == n:
                    return new
            return None

        invariants, answers, done = [], [], set()
        inv_helpers = set()
        others = {}
        for d in self.decls:
            if d is spec:
                continue
            others[name_of(d)] = d
        # loops
        loop_names = [l[0][1] for l in x["loops"]]
        used_by_inv = ""
        for d in list(others.values()):
            mm = re.search(r": tie\.(invariant|decreases)-(\S+)", d)
            if mm:
                which = mm.group(1)
                li = next((i for i, l in enumerate(x["loops"]) if norm(l[0][0]) == norm(mm.group(2))), None)
                if li is None:
                    self.say(f"no loop {mm.group(2)}")
                    li = 0
                new = x["loops"][li][0][1]
                params = x["loops"][li][1]
                ch = x["changed"][li]
                targets = [("l.initial." + p) if c else "l." + p for p, c in zip(params, ch)] + ["l." + p for p, c in zip(params, ch) if c]
                nm = name_of(d)
                body = next(b for b in re.split(rf"(?m)^{re.escape(nm)} (?!:)", d)[1:])
                head, rhs = body.split("=", 1)
                given = head.split()
                if len(given) != len(targets):
                    self.say(f"{nm}: {given} for {targets}")
                sub = {}
                for g, t in zip(given, targets):
                    sub[g] = t

                def repl(m):
                    p = m.group(0).split(".")
                    if p[0] in sub:
                        return ".".join([sub[p[0]], *p[1:]])
                    return m.group(0)

                rhs = TOK.sub(repl, rhs)
                unf = re.search(r"(?m)^unfolding .*$", d)
                comments = "\n".join(l for l in d.split("\n") if l.startswith("--"))
                kind = f"{which}-{new}"
                invariants.append((comments + "\n" if comments else "") + f"abbrev pub {kind} : goal.{kind}\n" + (unf.group(0) + "\n" if unf else "") + f"{kind} l ={rhs}")
                used_by_inv += rhs
                done.add(nm)
        # helpers that invariants use
        more = True
        while more:
            more = False
            for n, d in others.items():
                if n not in done and n not in inv_helpers and re.search(rf"(?<![\w.'-]){re.escape(n)}(?![\w'-])", used_by_inv):
                    inv_helpers.add(n)
                    used_by_inv += d
                    more = True
        inv_decls = []
        for n in others:
            if n in inv_helpers:
                d = others[n]
                if "tie." in d:
                    self.say(f"the invariant's helper {n} speaks of places")
                first = next(i for i, l in enumerate(d.split("\n")) if not l.startswith("--"))
                ls = d.split("\n")
                l = ls[first]
                if "pub" not in l.split(":")[0]:
                    l = re.sub(r"^(abbrev |unfoldable )?", lambda m: (m.group(1) or "") + "pub ", l)
                ls[first] = l
                inv_decls.append("\n".join(ls))
        # answers and helpers
        for n, d in others.items():
            if n in done or n in inv_helpers or n in self.maps:
                continue
            comments = "\n".join(l for l in d.split("\n") if l.startswith("--"))
            code = "\n".join(l for l in d.split("\n") if not l.startswith("--"))
            mm = re.match(rf"(?:pub )?{re.escape(n)} : tie\.Need-(\S+)", code)
            if mm:
                new = by_decl[n][0][1] if n in by_decl else by_type(mm.group(1))
                if new is None and mm.group(1).startswith("slice-aggregate"):
                    continue
                if new is None:
                    self.say(f"no need {mm.group(1)} for {n}")
                    new = mm.group(1)
                unf = re.search(r"(?m)^unfolding .*$", code)
                bodies = re.split(rf"(?m)^{re.escape(n)}(?= )", code)[2:] if code.startswith("pub ") is False else re.split(rf"(?m)^{re.escape(n)}(?= )", code)[1:]
                bodies = [b for b in bodies if not b.lstrip().startswith(":")]
                outs = []
                skip = False
                for b in bodies:
                    head, rhs = b.split("=", 1)
                    params = head.split()
                    if params and len(params) > 1 and params[1] == "κs":
                        params.pop(1)
                    rhs = " " + rhs.strip()
                    if rhs.strip() == "search rules" and not unf:
                        skip = True
                        continue
                    rhs = self.expression(rhs, {params[0]: at.get(new)} if params else {}, new)
                    if rhs.strip() == "search rules" and not unf:
                        skip = True
                        continue
                    key = n if n in [k for k in x["asked"]] else next((o for o, w in needs if w == new), None)
                    fields = x["asked"].get(key) or x["asked"].get(new)
                    if fields and len(fields) > 1:
                        rhs = self.as_record(rhs, fields)
                    sep = "\n    " if "\n" in rhs.strip() or len(rhs) > 150 else " "
                    outs.append(f"{new} {' '.join(params)} ={sep}{rhs.strip()}")
                if outs:
                    for one in [new] + [w for o, w in by_decl.get(n, [])[1:]]:
                        answers.append((comments + "\n" if comments else "") + f"pub {one} : goal.{one}\n" + (unf.group(0) + "\n" if unf else "") + "\n".join(re.sub(rf"^{re.escape(new)} ", one + " ", o) for o in outs))
                elif not skip:
                    self.say(f"nothing of {n}")
                continue
            # a helper
            env_sig, env_body = {}, {}
            at_params = self.params.get(n, {})
            sig = re.match(rf"((?:abbrev |unfoldable |pub )*{re.escape(n)} : )(.*?)(?=\n(?:unfolding|{re.escape(n)} )|\Z)", code, re.S)
            if sig and at_params:
                ty = sig.group(2)
                for b in re.finditer(r"\(([^():]+) : tie\.([A-Z][^\s()]*)[^()]*\)", ty):
                    for v in b.group(1).split():
                        env_sig[v] = self.fn.index.get(norm(b.group(2)))
                rest = code[sig.end() :]
                ty = self.types(self.expression(ty, env_sig))
                clauses = re.split(rf"(?m)^{re.escape(n)}(?= )", rest)
                pieces = [clauses[0]]
                for c in clauses[1:]:
                    head, rhs = c.split("=", 1)
                    ps = head.split()
                    env = {ps[i]: p for i, p in at_params.items() if i < len(ps)}
                    pieces.append(n + head + "=" + self.expression(rhs, env))
                answers.append((comments + "\n" if comments else "") + sig.group(1) + ty + "".join(pieces))
            else:
                if "tie." in code:
                    self.say(f"{n} speaks of places in a way of its own")
                    code = self.types(code)
                answers.append((comments + "\n" if comments else "") + code)
        # lambdas in tie.spec
        for a, pairs in by_decl.items():
            if not a.startswith("("):
                continue
            mm = re.match(r"\(λ\s+([^.]*)\.\s*(.*)\)$", a, re.S)
            if not mm:
                self.say(f"argument {a[:60]}")
                continue
            params, rhs = mm.group(1).split(), mm.group(2).strip()
            if rhs == "search rules":
                continue
            if len(params) > 1 and params[1] == "κs":
                params.pop(1)
            for old, new in pairs:
                b = self.expression(" " + rhs, {params[0]: at.get(new)}, new).strip()
                if b in ("search rules", "search needs"):
                    continue
                fields = x["asked"].get(old)
                if fields and len(fields) > 1:
                    b = self.as_record(b, fields)
                answers.append(f"pub {new} : goal.{new}\n{new} {' '.join(params)} = {b}")
        fpath = self.path.replace("/", ".")
        uses = [u for u in self.uses if not re.search(rf"\.{re.escape(fpath.split('.')[-1])}\.(Statement|Tie)\b", u)]
        inv_text = ans_text = None
        if invariants:
            inv_text = "\n".join(uses + [f"use Rattle.{self.crate}.proofs.{fpath}.Given as goal"]) + "\n\n" + "\n\n".join(inv_decls + invariants) + "\n"
        if answers:
            more = [f"use Rattle.{self.crate}.proofs.{fpath}.Invariants.{{{', '.join(sorted(inv_helpers))}}}"] if inv_helpers else []
            goals = [f"use Rattle.{self.crate}.proofs.{fpath}.Goals as goal"]
            if self.imported:
                goals.append(f"use Rattle.{self.crate}.proofs.{fpath}.Goals.{{{', '.join(sorted(self.imported))}}}")
            ans_text = "\n".join(uses + more + goals) + "\n\n" + "\n\n".join(answers) + "\n"
        return inv_text, ans_text


def prune(text):
    """Drops imports that nothing uses."""
    if text is None:
        return None
    lines = text.split("\n")
    body = "\n".join(l for l in lines if not l.startswith("use "))
    words = set(TOK.findall(body))
    plain = set()
    for w in words:
        plain.add(w)
        plain.add(w.split(".")[0])
    out = []
    for l in lines:
        m = re.match(r"use ([^{]*)\.\{(.*)\}$", l)
        if m:
            keep = []
            for n in split_top(m.group(2)):
                shown = n.split(" as ")[-1].strip()
                parts = [p for p in shown.split("◌") if p]
                if shown in plain or (shown == "[]" and "[]" in body) or ("◌" in shown and all(any(p in w for w in words) for p in parts)):
                    keep.append(n)
            if keep:
                out.append(f"use {m.group(1)}.{{{', '.join(keep)}}}")
            continue
        out.append(l)
    return "\n".join(out)


def requires_of(crate, fname):
    for folder, _, files in os.walk(f"crates/{crate}/src"):
        for f in files:
            t = open(os.path.join(folder, f), encoding="utf-8").read()
            m = re.search(rf"fn {re.escape(fname)}\b(.*?)\n\{{", t, re.S)
            if m:
                return re.findall(r"requires ([a-z_]+) \{", m.group(1))
    return []


def main(names, crate, only):
    with open(f"{names}/{crate}/names.json", encoding="utf-8") as f:
        every = json.load(f)
    base = f"crates/{crate}/proofs"
    for folder, _, files in sorted(os.walk(base)):
        if "Proof.antt" not in files:
            continue
        path = os.path.relpath(folder, base)
        if only and path not in only and path.split("/")[-1] not in only:
            continue
        key = f"Rattle-{crate}-proofs.{path.replace('/', '.')}.Lts"
        if key not in every:
            print(f"left: {crate}: {path}: no names")
            continue
        with open(f"{folder}/Proof.antt", encoding="utf-8") as f:
            text = f.read()
        t = Turner(crate, path, Function(every[key]), text, requires_of(crate, path.split("/")[-1]))
        try:
            inv, ans = t.turn()
        except Exception as e:
            print(f"left: {crate}: {path}: {type(e).__name__} {e}")
            if "--trace" in sys.argv:
                raise
            continue
        for l in t.left:
            print(f"left: {crate}: {path}: {l}")
        if inv is None and ans is None and any("no tie.spec" in l for l in t.left):
            continue
        os.remove(f"{folder}/Proof.antt")
        for name, content in (("Invariants", prune(inv)), ("Answers", prune(ans))):
            if content:
                with open(f"{folder}/{name}.antt", "w", encoding="utf-8") as f:
                    f.write(content)


if __name__ == "__main__":
    words = [a for a in sys.argv[1:] if not a.startswith("--")]
    main(words[0], words[1], words[2:])
