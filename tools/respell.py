#!/usr/bin/env python3
"""Respells this repository's own definitions and lemmas as today's Rattle spells names: words in snake case, types and modules in
camel case, a dash only where it joins two names, a prime as an apostrophe. Run once, at the top, right behind port.py.

usage: python3 tools/respell.py [--list]     --list prints the table, old and new, and writes nothing

A name is respelled where a file of specs/ or proofs/ declares it: a definition, a lemma, a constructor, or a field of a record. What the
generated modules name (goals, steps, invariants) is no name of ours and stays, as do functions of src/, strings and library names.
It stops, before it writes, where two names fall together or where a new name is one that a file brings in from a library.
"""
import collections
import os
import re
import sys

TOKEN = re.compile(r"--[^\n]*|\"(?:[^\"\\\n]|\\.)*\"|[^\s(){}.;,@\"«»\[\]]+")
DECLARED = re.compile(r"^( *)(?:(?:pub|abbrev|unfoldable|opaque|mutual) +)*([^\s(){}.;,@\":]+) +:(?: |$)")
RECORD = re.compile(r"^ *(?:pub +)?record ")
USE = re.compile(r"(?ms)^ *(?:pub |ghost )*use ([^\s{;]+?)\.?(?:\{([^}]*)\}| as (\S+))?;?$")
# words that name an operator or a constructor, and so may stand at a dash
OPERATORS = set("add mul sub div mod pow suc zero cons nil append map take drop set length min max true false and or not if some none".split())
# Lemmas that would fall together with a definition get `_lem` behind the definition's name.
LEMMAS = "with-pairs is-letter rest_from from_row label_is index-cell first-in too_short letter_at refused_as has-child hands-down is-scalar first_found saved-for passed_on nodes-laid narrow_at seconds-in entry_in"
BY_HAND = {"getD-up": "get_or_up"} | {it: it.replace("-", "_") + "_lem" for it in LEMMAS.split()}
# An alias that would hide a definition, in one file.
ALIASES = {"crates/text/proofs/reader/row_of/Proof.antt": ("row_at", "row_at_contract")}


def files(*ends):
    for base, dirs, names in os.walk("crates"):
        dirs[:] = sorted(d for d in dirs if d != "out")
        for name in sorted(names):
            if name.endswith(ends):
                yield os.path.join(base, name)


def read(path):
    with open(path, encoding="utf-8") as f:
        return f.read()


def is_walk(path):
    """Whether a file belongs to one function's proof: there most names are those of goals."""
    parts = path.split(os.sep)
    return "proofs" in parts and len(parts) - parts.index("proofs") > 2


def code_of(text):
    return re.sub(r"--[^\n]*", "", text)


def declared():
    """Our names, and our fields; a name that a function's own proof declares at a goal is not among them."""
    names, fields = {}, {}
    for path in files(".antt"):
        text, in_record, depth = code_of(read(path)), False, 0
        for line in text.split("\n"):
            if RECORD.match(line):
                in_record, depth = True, len(line) - len(line.lstrip())
                continue
            if in_record and line.strip() and len(line) - len(line.lstrip()) <= depth:
                in_record = False
            m = DECLARED.match(line)
            if not m:
                continue
            if in_record:
                fields.setdefault(m[2], path)
            elif not (is_walk(path) and re.search(r": *(?:\{M : Type 1\} → statement|tie\.|\S+\.(?:Need|invariant|decreases)-|goal\.|goals\.)", line)):
                names.setdefault(m[2], path)
    return names, fields


def brought(text):
    """The names that a file brings in, but for those from our own crates."""
    own = tuple(f"Rattle.{c}." for c in sorted(os.listdir("crates")))
    found = set()
    for m in USE.finditer(code_of(text)):
        if m[1].startswith(own):
            continue
        for it in (m[2] or "").split(","):
            it = it.strip().split(" as ")[-1].strip()
            if it:
                found.add(it)
        if m[3]:
            found.add(m[3])
    return found


def snake(word):
    if not word or not word[0].islower():
        return word
    word = re.sub(r"([a-z0-9])([A-Z])(?=[a-z])", r"\1_\2", word)
    word = re.sub(r"([a-z0-9])([A-Z])", r"\1_\2", word)
    return re.sub(r"(?<=_)[A-Z]+|(?<![A-Za-z])[A-Z]+(?=_)", lambda m: m[0].lower(), word) if "_" in word else word


def respelled(name, known):
    if name in BY_HAND:
        return BY_HAND[name]
    if name.startswith("+"):
        return name
    parts = [snake(p) for p in name.replace("′", "'").split("-")]
    out = parts[0]
    for i in range(1, len(parts)):
        left, right = "-".join(name.split("-")[:i]), "-".join(name.split("-")[i:])
        first = name.split("-")[i]
        joins = left in known and (right in known or first in known)
        out += ("-" if joins else "_") + parts[i]
    return out


def table():
    names, fields = declared()
    texts = {p: read(p) for p in files(".antt", ".rt")}
    from_libraries = {p: brought(t) for p, t in texts.items()}
    everywhere = set().union(*from_libraries.values())
    plain = {n for n in names if "-" not in n}
    known = plain | {n for n in everywhere if "-" not in n and "◌" not in n} | OPERATORS
    turned = {}
    for n in sorted(names):
        new = respelled(n, known)
        if new != n:
            turned[n] = new
    turned_fields = {}
    for n in sorted(fields):
        new = respelled(n, set())
        if new != n:
            turned_fields[n] = new
    bad = []
    by_new = collections.defaultdict(set)
    for n in names:
        by_new[turned.get(n, n)].add(n)
    for new, olds in by_new.items():
        if len(olds) > 1:
            bad.append(f"{sorted(olds)} fall together as {new}")
    for path, text in texts.items():
        here = set(TOKEN.findall(re.sub(r"\.[^\s(){}.;,@]+", "", code_of(text))))
        for old, new in turned.items():
            if old in here and (new in from_libraries[path] or (new in here and new not in names and path.endswith(".antt"))):
                bad.append(f"{path}: {old} would be {new}, which the file has already")
            if old in from_libraries[path] and not names.get(old) == path:
                bad.append(f"{path}: {old} is also a library's name there")
    return turned, turned_fields, names, bad


def turn(text, turned, fields, stays):
    out, at = [], 0
    for m in TOKEN.finditer(text):
        word = m[0]
        out.append(text[at : m.start()])
        at = m.end()
        dotted = text[m.start() - 1 : m.start()] == "." and m.start() > 1 and not text[m.start() - 2].isspace()
        if word.startswith("--"):
            word = re.sub(r"`[^`\n]*`", lambda s: re.sub(r"[\w'′-]+", lambda w: turned.get(w[0], w[0]), s[0]), word)
        elif word[0] == '"':
            pass
        elif dotted:
            word = fields.get(word, word)
        elif word in fields and re.match(r"\s*(?::|=)", text[m.end() :]):
            word = fields[word]
        elif word in turned and word not in stays:
            word = turned[word]
        else:
            word = word.replace("′", "'")
        out.append(word)
    out.append(text[at:])
    return "".join(out)


def goals_of(path, text):
    """The names of goals that a function's proof declares: they stay."""
    if not is_walk(path):
        return set()
    return set(re.findall(r"(?m)^ *(?:(?:pub|abbrev) +)*([^\s(){}.;,@\":]+) +: +(?:tie|goals?|[\w-]+)\.(?:Need|invariant|decreases)", text))


def turn_rust(text, turned, fields):
    """In source text only clauses, ghost items and `ghost use` are antt; of these our names in lower camel case are no names of Rust's."""
    return turn(text, {o: n for o, n in turned.items() if re.search(r"[a-z0-9][A-Z]", o)}, {}, set())


def main():
    if "--list" not in sys.argv:
        for path, (old, new) in ALIASES.items():
            text = read(path)
            with open(path, "w", encoding="utf-8") as f:
                f.write(re.sub(rf"(?<= as ){old}$|(?<=[\s(]){old}(?=\.\w)", new, text, flags=re.M))
    turned, fields, names, bad = table()
    if "--list" in sys.argv:
        for old, new in sorted(turned.items()):
            print(f"{old}\t{new}")
        for old, new in sorted(fields.items()):
            print(f".{old}\t.{new}")
    if bad:
        print("\n".join(bad), file=sys.stderr)
    if "--list" in sys.argv:
        return 0
    if bad:
        return 1
    count = 0
    edits = [os.path.join(b, f) for top in ("crates", "tests/wrong_answers") for b, d, fs in os.walk(top) if "/out" not in b for f in fs if f.endswith(".edit")]
    for path in list(files(".antt", ".rt")) + sorted(edits):
        text = read(path)
        if path.endswith(".antt"):
            new = turn(text, turned, fields, goals_of(path, text))
        elif path.endswith(".rt"):
            new = turn_rust(text, turned, fields)
        else:
            to = re.search(r"(?m)^file: (\S+)", text)
            new = turn_rust(text, turned, fields) if to and to[1].endswith(".rt") else turn(text, turned, fields, set())
        if new != text:
            with open(path, "w", encoding="utf-8") as f:
                f.write(new)
            count += 1
    print(f"respelled {len(turned)} names and {len(fields)} fields in {count} files")
    return 0


if __name__ == "__main__":
    raise SystemExit(main())
