#!/usr/bin/env python3
"""Tries every wrong answer: each must be refused at a fact, and not because the proof file no longer fits.

    tests/try_wrong_answers.py [--logs FOLDER] [--write] [CRATE...]
    tests/try_wrong_answers.py [--logs FOLDER] CRATE/EDIT...

The wrong answers are the edits in crates/CRATE/must-fail and in tests/wrong_answers/CRATE. In a copy of the repository in a temporary
folder all of a crate's stand in its must-fail/, and `rt must-fail` tries each by itself: the prover has to refuse it. An edit that it
refuses only because a proof file names what the edit took away does not fit.

One line for each edit: crate, function, edit, and what is refused. Then, loudly, the edits that are not refused or do not fit, and
the public functions that have less than two: a function is told by its file and its name, and a method that calls a function of its
name in another file has two of its own. --logs keeps what the prover said. --write puts the crates' tables into
docs/WRONG_ANSWERS.md. The exit is 0 where each edit is refused at a fact and each public function has two.
"""

import os
import re
import shutil
import subprocess
import sys
import tempfile

ROOT = os.path.dirname(os.path.dirname(os.path.abspath(__file__)))
TABLE = os.path.join(ROOT, "docs", "WRONG_ANSWERS.md")
HEADING = "## The table"
FUNCTION = re.compile(r"^(\s*)(?:(pub )(extern \"C\" )?)?fn (\w+)")
CONTRACT = re.compile(r"≡|ensures|requires")
CALL = re.compile(r"(?<![\w:])(?:self\.|\w+\.|(\w+)::)?(\w+)\(")
# what `rt must-fail` says of an edit, and where in that stands what the prover refused
TOLD = re.compile(r"^rt: must-fail (\w+)/(\S+)\.edit: (.*)$")
REFUSED = re.compile(r"^refused, as it must be(?:: (.*))?$")
AT_FACT = re.compile(r"error: `([^`]+)`|\(`([^`]+)`\)")
PROOF = re.compile(r"proofs/(?:(\w+)/(?:\w+/)*)?(\+?\w+)/(?:Answers|Invariants)\.antt")
AT_LINE = re.compile(r"src/(\S+?):(\d+):")


class Edit:
    """One wrong answer: what it changes, where, and what the prover said of it."""

    def __init__(self, crate, path):
        self.crate = crate
        self.path = path
        self.name = os.path.basename(path)[: -len(".edit")]
        self.gated = "must-fail" in path
        self.comment = ""
        self.file = ""
        self.pairs = []
        old = ""
        for line in open(path, encoding="utf-8").read().split("\n"):
            if line.startswith("# "):
                self.comment = line[2:]
            elif line.startswith("file: "):
                self.file = line[6:]
            elif line.startswith("old: "):
                old = line[5:]
            elif line.startswith("new:"):
                self.pairs.append((self.file, old, line[5:]))
        self.places = []
        self.functions = []
        self.verdict = ""


class Source:
    """The functions of a crate, by file and name: which are public, which line is in which, which calls which."""

    def __init__(self, crate):
        self.public = []
        self.bodies = {}
        folder = self.folder = os.path.join(ROOT, "crates", crate, "src")
        lib = open(os.path.join(folder, "lib.rt"), encoding="utf-8").read()
        self.open = {"lib.rt"} | {f"{name}.rt" for name in re.findall(r"^pub mod (\w+);", lib, re.M)}
        for file in sorted(os.listdir(folder), key=lambda file: (file != "lib.rt", file)):
            self.read(folder, file)

    def read(self, folder, file):
        """The functions of a file. Public are those of lib.rt and of its public modules, and those that have a C name."""
        function, end = None, ""
        for line in open(os.path.join(folder, file), encoding="utf-8").read().split("\n"):
            found = FUNCTION.match(line)
            if found:
                function, end = (f"src/{file}", found.group(4)), found.group(1) + "}"
                self.bodies.setdefault(function, "")
                if found.group(3) or (found.group(2) and file in self.open):
                    self.public.append(function)
            if function:
                self.bodies[function] += line + "\n"
            if line == end:
                function = None

    def named(self, name):
        """The functions of a name, one for each file that has one."""
        return [function for function in self.bodies if function[1] == name]

    def function_of(self, file, old):
        """The function in which a text of a file stands, None where it stands outside of all."""
        return next((function for function, body in self.bodies.items() if function[0] == file and old in body), None)

    def at_line(self, file, number):
        """The function that a line of a file begins, or stands in."""
        text = open(os.path.join(self.folder, os.path.basename(file)), encoding="utf-8").read().split("\n")
        before = [FUNCTION.match(line) for line in text[:number]]
        found = [(file, one.group(4)) for one in before if one]
        return found[-1:]

    def called_by(self, caller):
        """The functions that one calls: of several that have the name the one of the module that is named, or of its own file."""
        for module, name in CALL.findall(self.bodies[caller]):
            file = {"": caller[0], "super": "src/lib.rt"}.get(module, f"src/{module}.rt")
            yield from [(file, name)] if (file, name) in self.bodies else self.named(name)

    def public_for(self, function):
        """The public functions that answer through a function: itself, or those that call it."""
        seen, todo, found = set(), [function], []
        while todo:
            one = todo.pop(0)
            if one in seen:
                continue
            seen.add(one)
            if one in self.public:
                found.append(one)
            else:
                todo += [caller for caller in self.bodies if one in self.called_by(caller) and caller != one]
        return found


def edits_of(crate):
    """The edits of a crate, those of the gate first."""
    found = []
    for folder in (f"crates/{crate}/must-fail", f"tests/wrong_answers/{crate}"):
        path = os.path.join(ROOT, folder)
        for name in sorted(os.listdir(path)) if os.path.isdir(path) else []:
            if name.endswith(".edit"):
                found.append(Edit(crate, os.path.join(path, name)))
    return found


def place(edit, source):
    """Finds the functions that an edit changes (none where it changes something else), and those whose answer it is."""
    found = [None if CONTRACT.search(old + new) else source.function_of(file, old) for file, old, new in edit.pairs]
    edit.places = sorted(set(found)) if all(found) else []
    named = source.named(edit.name.split(".")[0])
    if named:
        # of several that have the name the one of a file that is edited
        edit.functions = ([one for one in named if one[0] in {file for file, _, _ in edit.pairs}] or named)[:1]
    else:
        edit.functions = sorted({public for one in edit.places for public in source.public_for(one)})


def verdict_of(told):
    """What became of an edit, by what `rt must-fail` says of it."""
    refused = REFUSED.match(told)
    if refused:
        fact = AT_FACT.search(refused.group(1) or "")
        return f"`{fact.group(1) or fact.group(2)}`" if fact else "refused"
    if told.startswith("refused, as it must be (only because"):
        return "DOES NOT FIT: a proof file names what it took away"
    return told[:150] if told.startswith("NOT REFUSED") else f"DOES NOT FIT: {told[:150]}"


def refused_in(told, source):
    """The function whose proof the prover refused: by its folder, in that of a cycle of calls by the goal's first word, or by its line."""
    part, line, fact = PROOF.search(told), AT_LINE.search(told), AT_FACT.search(told)
    if part and part.group(2).startswith("+") and fact:
        return [one for one in source.bodies if (fact.group(1) or "").startswith(one[1] + "-")]
    if part:
        named = source.named(part.group(2))
        return [one for one in named if one[0] == f"src/{part.group(1) or 'lib'}.rt"] or named[:1]
    if line:
        return source.at_line(f"src/{line.group(1)}", int(line.group(2)))
    return []


def told_of(crate, edits, log):
    """What `rt must-fail` says of each edit of a crate, by name, and its whole output; in a copy these are all the edits of the crate."""
    with tempfile.TemporaryDirectory() as top:
        copy = os.path.join(top, "repo")
        shutil.copytree(ROOT, copy, ignore=shutil.ignore_patterns(".git", "out", "target"), symlinks=True)
        folder = os.path.join(copy, "crates", crate, "must-fail")
        shutil.rmtree(folder, ignore_errors=True)
        os.makedirs(folder)
        for edit in edits:
            shutil.copy(edit.path, folder)
        ran = subprocess.run(["rt", "must-fail", crate], cwd=copy, capture_output=True, text=True)
    text = ran.stdout + ran.stderr
    if log:
        open(log, "w", encoding="utf-8").write(text)
    found = (TOLD.match(line) for line in text.split("\n"))
    return {one.group(2): one.group(3) for one in found if one and one.group(1) == crate}, text


def try_crate(crate, only, logs):
    """Tries the edits of a crate, or only some; gives them with their verdicts, and the public functions that have less than two."""
    source = Source(crate)
    edits = [edit for edit in edits_of(crate) if not only or edit.name in only]
    for edit in edits:
        place(edit, source)
    told, text = told_of(crate, edits, os.path.join(logs, crate) if logs else "")
    if edits and not told:
        sys.exit(f"{crate} is not proved as it stands:\n{text[-2000:]}")
    for edit in edits:
        edit.verdict = verdict_of(told[edit.name]) if edit.name in told else "DOES NOT FIT: it was not tried"
        if not edit.functions:
            refused = refused_in(told.get(edit.name, ""), source)
            edit.functions = sorted({public for name in refused for public in source.public_for(name)}) or refused
        print(f"{crate} | {', '.join(name for _, name in edit.functions)} | {edit.name} | {edit.verdict}", flush=True)
    few = [function for function in source.public if sum(function in edit.functions for edit in edits) < 2]
    return edits, [] if only else few


def section(crate, edits):
    """The table of a crate: its public functions in their order, each with its wrong answers."""
    lines = [f"### {crate}", "", "| function | wrong answer | refused at |", "|---|---|---|"]
    order = Source(crate).public
    for edit in sorted(edits, key=lambda edit: [order.index(function) for function in edit.functions if function in order]):
        names = ", ".join(f"`{name}`" for _, name in edit.functions)
        lines.append(f"| {names} | {edit.comment}{' (gate)' if edit.gated else ''} | {edit.verdict} |")
    return "\n".join(lines) + "\n"


def write_table(tried):
    """Puts the tables of the crates that were tried into docs/WRONG_ANSWERS.md, behind its heading."""
    head, _, tail = open(TABLE, encoding="utf-8").read().partition(HEADING)
    sections = {part.split("\n")[0]: "### " + part.rstrip() + "\n" for part in tail.split("### ")[1:]}
    sections.update({crate: section(crate, edits) for crate, edits in tried.items()})
    lead = head + HEADING + tail.partition("### ")[0].rstrip() + "\n"
    parts = [lead] + [sections[crate] for crate in libraries() if crate in sections]
    open(TABLE, "w", encoding="utf-8").write("\n".join(parts))


def libraries():
    """The crates that have public functions, lowest first."""
    found = []
    for line in open(os.path.join(ROOT, "crates.txt"), encoding="utf-8"):
        crate = line.partition(":")[0].partition(" ")[0].strip()
        path = os.path.join(ROOT, "crates", crate, "src", "lib.rt")
        if os.path.isfile(path) and re.search(r"^ *pub (?:extern \"C\" )?fn", open(path, encoding="utf-8").read(), re.M):
            found.append(crate)
    return found


def main():
    """Tries the crates that are named, or all."""
    words = sys.argv[1:]
    logs = ""
    if "--logs" in words:
        at = words.index("--logs")
        logs = os.path.abspath(words[at + 1])
        os.makedirs(logs, exist_ok=True)
        del words[at : at + 2]
    asked = {}
    for word in [word for word in words if word != "--write"] or libraries():
        crate, _, name = word.partition("/")
        asked.setdefault(crate, []).extend([name] if name else [])
    tried, wrong = {}, []
    for crate, only in asked.items():
        tried[crate], few = try_crate(crate, only, logs)
        wrong += [f"{crate}/{e.name}: {e.verdict}" for e in tried[crate] if re.match("NOT REFUSED|DOES NOT FIT", e.verdict)]
        wrong += [f"{crate}::{name} ({file}): LESS THAN TWO WRONG ANSWERS" for file, name in few]
    for line in wrong:
        print(line)
    if "--write" in words and not any(asked.values()):
        write_table(tried)
    print(f"{sum(len(edits) for edits in tried.values())} wrong answers tried, {len(wrong)} complaints")
    return 1 if wrong else 0


if __name__ == "__main__":
    sys.exit(main())
