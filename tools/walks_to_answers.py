#!/usr/bin/env python3
"""Turns the walks of an older Rattle, proofs/F/Proof.antt, into Invariants.antt and Answers.antt, as far as text alone can.

usage: walks_to_answers.py CRATE NAMES OLD

NAMES is the names.json that `rt check --generated DIR --old-names` wrote for the crate; the walks move to the folder OLD. What is left by
hand: an `elim` over a branch, and a helper lemma that is called with another record than its own. `rt check` decides.
"""
import json
import os
import re
import shutil
import sys

TOK = r"[^\s(){}.;,@\"«»\[\]]+"
norm = lambda s: s.replace("_", "-")


def read(p):
    with open(p, encoding="utf-8") as f:
        return f.read()


def clauses_of(crate, deps):
    """By function path: its parameters, and the names of its requires and ensures, in order."""
    out = {}
    for c in deps:
        base = f"crates/{c}/src"
        if not os.path.isdir(base):
            continue
        for f in sorted(os.listdir(base)):
            if not f.endswith(".rt"):
                continue
            mod = "" if f in ("lib.rt", "main.rt") else f[:-3] + "::"
            text = re.sub(r"//[^\n]*", "", read(f"{base}/{f}"))
            impls = [(m.start(), m[1] + "::") for m in re.finditer(r"(?m)^impl(?:<[^>]*>)? (\w+)", text)] + [(m.start(), "") for m in re.finditer(r"(?m)^\}", text)]
            for m in re.finditer(r"\bfn (\w+)(?:<[^>]*>)?\(", text):
                depth, i = 1, m.end()
                while depth:
                    depth += {"(": 1, ")": -1}.get(text[i], 0)
                    i += 1
                inner = text[m.end() : i - 1]
                params = [q.split(":")[0].replace("mut ", "").strip().lstrip("&") for q in re.split(r",(?![^\[]*\])", inner) if q.strip()]
                end = re.search(r"(?m)(?<=\{)\n|^\s*\{\n", text[i:])
                head = text[i : i + (end.start() if end else 0)]
                req = [x or "" for x in re.findall(r"requires\s+(\w+)?\s*\{", head)]
                ens = [x or "" for x in re.findall(r"ensures\s+(\w+)?\s*\{", head)]
                impl = max([x for x in impls if x[0] < m.start()], default=(0, ""))[1]
                out[f"{c}::{mod}{impl}{m[1]}"] = (params, req, ens)
                out.setdefault(f"{c}::{mod}{m[1]}", (params, req, ens))
    return out


def positional(chain, names):
    """'.1.1.0.x' by the names of n clauses: the name, and what is left of the chain."""
    n = len(names)
    if n < 2:
        return chain
    parts, k = chain.split(".")[1:], 0
    while k < len(parts) and parts[k] == "1" and k < n - 1:
        k += 1
    rest = parts[k:]
    if k < n - 1:
        if not rest or rest[0] != "0":
            return chain
        rest = rest[1:]
    return "." + names[k] + "".join("." + r for r in rest)


def without_aliases(body):
    """`let s = c in` goes: s is c."""
    while m := re.search(r"(?m)^ *let (\w+) = c in *\n|let (\w+) = c in ", body):
        name, rest = m[1] or m[2], body[m.end() :]
        body = body[: m.start()] + re.sub(rf"(?<![\w'.-]){name}(?![\w'-])", "c", rest)
    return body


def split_pair(t):
    """The two parts of '(a, b)', or None."""
    t = t.strip()
    if not t.startswith("("):
        return None
    depth, comma = 0, None
    for i, ch in enumerate(t):
        depth += {"(": 1, "{": 1, "[": 1, ")": -1, "}": -1, "]": -1}.get(ch, 0)
        if ch == "," and depth == 1 and comma is None:
            comma = i
        if depth == 0:
            if i != len(t) - 1 or comma is None:
                return None
            return t[1:comma].strip(), t[comma + 1 : i].strip().rstrip(",").strip()
    return None


def as_record(body, names):
    """A body whose end is nested pairs, as a record of the clauses' names."""
    if len(names) < 2 or not all(names):
        return body
    at = max(body.rfind(" in\n"), body.rfind(" in ("))
    start = at + 3 if at >= 0 else body.index("=") + 1
    while start > 0:
        tail = body[start:]
        parts, rest = [], tail.strip()
        for _ in names[1:]:
            two = split_pair(rest)
            if not two:
                break
            parts.append(two[0])
            rest = two[1]
        if len(parts) == len(names) - 1:
            parts.append(rest)
            fields = " ".join(f"{n} = {v};" for n, v in zip(names, parts))
            return body[:start] + "\n    record { " + fields + " }"
        nxt = max(body.rfind(" in\n", 0, start - 3), body.rfind(" in (", 0, start - 3))
        if nxt < 0:
            first = body.index("=") + 1
            if start == first:
                return body
            start = first
        else:
            start = nxt + 3
    return body


def main():
    crate, names, old = sys.argv[1:]
    data = json.loads(read(names))
    listed = {l.split(":")[0].split()[0]: l.split(":")[1].split() for l in read("crates.txt").split("\n") if ":" in l}
    known = clauses_of(crate, [crate, *listed[crate]])
    left = []
    for base, dirs, files in os.walk(f"crates/{crate}/proofs"):
        if "Proof.antt" not in files or "+" in base:
            continue
        path = os.path.relpath(base, f"crates/{crate}/proofs")
        key = f"Rattle-{crate}-proofs.{path.replace('/', '.')}.Lts"
        if key not in data:
            left.append(f"{path}: no names")
            continue
        of, text = data[key], read(f"{base}/Proof.antt")
        me = f"{crate}::{path.replace('/', '::')}"
        mine = known.get(me, ([], [], []))
        goals = {}
        for o, n in of["needs"]:
            goals.setdefault(norm(o), n)
        places, steps, callee = {}, {}, {}
        for (o, parent, (so, sn), call, *_), new in zip(of["places"], of["places_by_name"]):
            places[norm(o)] = new
            if so:
                steps.setdefault(norm(so), sn)
            if call:
                callee[sn] = call
        header, uses, blocks = [], [], []
        lines = text.split("\n")
        i = 0
        while i < len(lines) and lines[i].startswith("--"):
            header.append(lines[i])
            i += 1
        chunk = []
        for l in lines[i:]:
            if re.match(r"(pub )?use ", l) or (uses and not blocks and not chunk and l.startswith(" ") and uses[-1].count("{") > uses[-1].count("}")):
                if l.startswith(" "):
                    uses[-1] += "\n" + l
                else:
                    uses.append(l)
            elif l.strip():
                chunk.append(l)
            elif chunk:
                blocks.append(chunk)
                chunk = []
        if chunk:
            blocks.append(chunk)
        uses = [u for u in uses if f".proofs.{path.replace('/', '.')}." not in u and "borrow.Author.Needs" not in u]
        merged = []
        for b in blocks:  # a comment alone goes with what follows
            if merged and all(x.startswith("--") for x in merged[-1]):
                merged[-1] = merged[-1] + b
            else:
                merged.append(b)
        aliases, lemmas, invariants, answers = set(), {}, [], []

        def flat(t):
            t = re.sub(r"(?:\.before)+(?![\w'-])", "", t)
            # words that port.py may leave in their old spelling
            for o, n in (("pre", "requires"), ("inv", "invariant"), ("taken", "true")):
                t = re.sub(rf"\.{o}(?![\w'-])", "." + n, t)
            t = re.sub(r"((?:\.if|-)[\w-]*?(?:test|\d)?)\.left(?![\w'-])", lambda m: m[1] + (".false" if re.search(r"test$|if\d*$", m[1]) else ".left"), t)
            for _ in range(6):
                for a in aliases:
                    t = re.sub(rf"\({re.escape(a)} ({TOK})\)", r"\1", t)
                    t = re.sub(rf"(?<![\w'.-]){re.escape(a)} ({TOK})", r"\1", t)
            t = without_aliases(t)
            # a step stands first behind the record
            t = re.sub(rf"(?<![\w'.-])({TOK}|\))\.({TOK})", lambda m: f"{m[1]}.{steps.get(norm(m[2]), m[2])}", t)
            while m := re.search(r"(?m)^ *let (\w+) = (c\.requires) in *\n|let (\w+) = (c\.requires) in ", t):
                rest = t[m.end() :]
                t = t[: m.start()] + re.sub(rf"(?<![\w'.-]){m[1] or m[3]}(?![\w'-])", "c.requires", rest)
            t = re.sub(r"\.requires((?:\.[01])+)", lambda m: ".requires" + positional(m[1], mine[1]), t)
            for s, call in callee.items():
                q, (p, r, e) = re.escape(s), known.get(call, ([], [], []))
                t = re.sub(rf"\.{q}\.ensures((?:\.[01])+)", lambda m: f".{s}.ensures" + positional(m[1], e), t)
                for it in ("new", "auto", "kept"):
                    t = re.sub(rf"\.{q}\.{it}((?:\.[01])+)", lambda m: f".{s}.{'auto' if it == 'kept' else it}" + positional(m[1], p + ["tt"]), t)
            return t

        for b in merged:
            note = [x for x in b if x.startswith("--")]
            b = [x for x in b if not x.startswith("--")]
            m = re.match(rf"(?:(?:abbrev|pub|unfoldable) )*({TOK}) : (.*)$", b[0]) if b else None
            if not m:
                left.append(f"{path}: {' / '.join(b)[:100]}")
                continue
            name, kind = m[1], m[2]
            if "statement M" in kind:
                continue
            loops = {norm(o): (n, vs) for (o, n), vs in of["loops"]}
            if k := re.match(r"tie\.(invariant|decreases)-(\S+)$", kind):
                word = k[1]
                if norm(k[2]) not in loops:
                    left.append(f"{path}: no loop {k[2]}")
                    continue
                new, variables = loops[norm(k[2])]
                at = [norm(o) for (o, n), vs in of["loops"]].index(norm(k[2]))
                changed = of["changed"][at]
                body = "\n".join(b[1:])
                h = re.match(rf"(?s){re.escape(name)}((?:\s+{TOK})*)\s+=\s*(.*)$", body)
                if not h:
                    left.append(f"{path}: {name} has several clauses")
                    continue
                args, rhs = h[1].split(), h[2]
                terms = [f"l.{v}" if not c else f"l.initial.{v}" for v, c in zip(variables, changed)] + [f"l.{v}" for v, c in zip(variables, changed) if c]
                if len(args) != len(terms):
                    left.append(f"{path}: {name}: {args} against {terms}")
                table = dict(zip(args, terms))
                rhs = re.sub(rf"(?<![\w'.-])({TOK})", lambda m: table.get(m[1], m[1]), rhs)
                invariants.append((note, f"abbrev pub {word}-{new} : goal.{word}-{new}", f"{word}-{new} l = {rhs}"))
            elif k := re.match(r"tie\.Need-(\S+)", kind):
                o = norm(k[1])
                o2 = re.sub(r"^(overflow|nonzero)-", "", o)
                new = goals.get(o) or goals.get(o2)
                if not new:
                    left.append(f"{path}: no goal for {k[1]}")
                    new = f"UNKNOWN-{k[1]}"
                body = "\n".join(b[1:]).replace(" κs =", " =")
                answers.append((note, name, new, body))
            elif re.match(r"tie\.\S+( \S+)* → tie\.", kind) or (m[0].startswith("abbrev") and re.match(r"[A-Z]\w* → [A-Z]\w*$|[A-Z]\w* → tie|tie\.\S+( \S+)* → [A-Z]\w*$", kind)):
                aliases.add(name)
            else:
                lemmas[name] = (note, m[0], "\n".join(b))
        out_lemmas = []
        used_places = []
        for name, (note, sig, body) in lemmas.items():
            def place(m):
                new = places.get(norm(m[1]), m[1])
                used_places.append(new)
                return new

            body = re.sub(rf"tie\.({TOK})((?: invariant-\S+)? ?(?:decreases-{TOK})?)", place, body)
            out_lemmas.append("\n".join(note + [without_aliases(flat(body))]))
        out_answers = []
        for note, name, new, body in answers:
            body = flat(body)
            body = re.sub(rf"(?m)^{re.escape(name)}(?= )", new, body)
            for l in lemmas:
                pl = re.search(rf"\(c : tie\.({TOK})", lemmas[l][2])
                if pl:
                    p = places.get(norm(pl[1]), pl[1])
                    body = re.sub(rf"(?<![\w'.-]){re.escape(l)} ({TOK})", lambda m: f"{l} (goal.at.{new} {m[1]}).{p}", body)
            body = without_aliases(body)
            if "-requires" in new:
                called = next((c for c in callee.values() if c.split("::")[-1] == new.split("-")[0]), None)
                body = as_record(body, known.get(called, ([], [], []))[1])
            elif new.startswith("returns"):
                body = as_record(body, mine[2])
            short = re.sub(r"\s+", " ", body)
            if re.fullmatch(rf"{re.escape(new)} c = search (rules|needs|\(rules\))", short):
                continue
            out_answers.append("\n".join(note + [f"pub {new} : goal.{new}", body]))
        where = f"Rattle.{crate}.proofs.{path.replace('/', '.')}"
        to = f"{old}/{crate}/{path}"
        os.makedirs(to, exist_ok=True)
        shutil.move(f"{base}/Proof.antt", f"{to}/Proof.antt")
        if invariants:
            with open(f"{base}/Invariants.antt", "w", encoding="utf-8") as f:
                f.write("\n".join(header + uses + [f"use {where}.Given as goal", ""]) + "\n" + "\n\n".join("\n".join([*n, s, d]) for n, s, d in invariants) + "\n")
        if out_answers:
            extra = [f"use {where}.Goals.{{{', '.join(dict.fromkeys(used_places))}}}"] if used_places else []
            with open(f"{base}/Answers.antt", "w", encoding="utf-8") as f:
                f.write("\n".join((header if not invariants else []) + uses + [f"use {where}.Goals as goal"] + extra + [""]) + "\n" + "\n\n".join(out_lemmas + out_answers) + "\n")
    print("\n".join(f"left: {crate}/{l}" for l in left))
    print(f"{crate}: {len(left)} left")


main()
