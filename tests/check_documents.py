#!/usr/bin/env python3
"""Sees that whatever the documents and the comments name is there, and that every edit fits its file.

    python3 tests/check_documents.py               says what is missing, as file:line, and ends with 1 where something is
    python3 tests/check_documents.py --self-test   makes wrong documents, comments and edits in a copy, and sees each reported

It reads README.md, docs/, the comments of code, proofs, tests and scripts, and the edits (crates/CRATE/must-fail and
tests/wrong_answers/CRATE). A name is what stands in backquotes; a path that begins with a folder of the repository is one in plain
text too. The form of a name says what has to be there:

    a/b   b.ext     a file or a folder: from the repository on, or from the folder of the document, of its crate, of the crate that
                    begins its row of a table, or of all crates; .antt may be left out. CRATE, NAME and FUNCTION stand for any.
                    What begins with ../shared is outside, and looked for only where that folder is; an out/ or a target/ is built
    crate/edit      an edit of a crate
    a::b   a::b::c  what src/ of the crate a defines: functions, types, methods, variants, constants; those of a module under its name
    A.b             a field of the record A, a method of the class A
    rt x            a command of rt
    name            what the repository defines: definitions, theorems, constructors, fields and answered goals of antt; functions,
                    parameters, clauses, types, variants, fields and constants of Rattle; names of C, Rust, Python and shell; crates,
                    modules, edits, scripts; and what a module uses of the library, that is of no crate here. To be mentioned is not
                    enough. A comment may name besides what stands in the code of its file or in src/ of its crate: variables.
                    one-* is any name that begins so
    Rattle.a.specs.M   Rattle.a.proofs.M
                    a module of the crate a; or Goals and Given, which rattle writes for each function
    name (Module)   defined in a module of that name, or in a record of that name. (crate: Module): in that crate's. (`path`), or
                    in `path`: in that file or folder. Several names with commas between them are all meant
    FILE, 'part'    a document, and a heading in it that begins with these words

What has spaces, brackets or signs in it is a snippet: looked for are the paths in it, what has ::, and the words that only a name can
be (that have a hyphen, a _ or a capital inside, or are called). One letter, a number, a token like L3 is no name: 01's records and
its tokens. Words that are no names stand in PLAIN, with the reason. Of a table that begins with 'file' the first column names
modules. In the table of docs/WRONG_ANSWERS.md the first column names functions of the crate and the second has the comments of its
edits; the last is what the prover printed, and is not looked at.

A document may name what is no longer there: `name` (gone), or several names with commas between them and (gone) behind the last.
docs/PORT.md tells what other kits called things, and docs/DESIGN-PASS.md what things were called before it; neither is read.

Of an edit each `old:` stands exactly once in the file of its crate that `file:` names, as the pairs before it leave that file. What
stands before the dot in the name of one of tests/wrong_answers is a function of the crate.
"""

import ast
import fnmatch
import io
import os
import re
import shutil
import sys
import tempfile
import tokenize

PLAIN = {
    "words of the languages": "abbrev break elim ensures fn let match mutual pub requires return unfoldable u8 u32 u64 usize size_t sret",
    "what proves, and ways of proving": "antt rattle rt cc omega search simp",
    "other programs, and a type of one": "cargo gcc git nm valgrind graphql-core Int",
    "what the commands print, and read": "ok no yes refused",
}
EXEMPT = {word for words in PLAIN.values() for word in words.split()}
COMMANDS = "check verdict lib run test try fmt tidy plant expand seed lemma names new all ci must-fail selftest doc version".split()
FOLDERS = "docs crates tests rust scripts examples include .ci".split()
ENDINGS = tuple(".md .antt .rt .rs .c .h .py .sh .awk .txt .edit .toml .a".split())
BUILT = ("out", "target")
SKIPPED = (".git", "__pycache__", *BUILT)
OF_OTHER_KITS = ("docs/PORT.md", "docs/DESIGN-PASS.md")

# ---- the forms of names

SPAN = re.compile(r"`([^`]+)`")
NAME = re.compile(r"[^\W\d_][\w′'-]*\*?|_\w+")
NO_NAME = re.compile(r"[A-Za-z]|[A-Z]\d+|#n|[\d.,^-]+")
PATH = re.compile(r"(?:\.{1,2}/)*[\w.+*-]+(?:/[\w.+*-]+)*/?")
ANY = re.compile(r"\b(?:CRATE|NAME|FUNCTION)\b")
INSIDE = re.compile(
    r"\w+(?:::\w+)+|(?:\.{1,3}/)?[\w.+-]+(?:/[\w.+*-]+)+/?|(?<![\w-])(?:[^\W\d][\w-]*(?=\()|[A-Za-z][a-z0-9]*[A-Z_-][\w-]*\w)"
)
FREE_PATH = re.compile(r"(?<![\w/.-])(?:\./)?(?:%s)/[\w.+*/-]*\w" % "|".join(map(re.escape, FOLDERS)))
RUN = r"`[^`]+`(?:(?:, | and | or )`[^`]+`)*"
GONE = re.compile(r"(%s) \(gone\)" % RUN)
PLACED = re.compile(r"(%s) \((?:([a-z_]+): )?([A-Z]\w*(?:, [A-Z]\w*)*|src/\w+\.rt|(?:specs|proofs)/\w+)\)" % RUN)
IN_FILE = re.compile(r"(%s) (?:\(|in )`(crates/[^`]+)`" % RUN)
OF_CRATE = re.compile(r"\(([a-z_]+): ([A-Z]\w*|src/\w+\.rt|(?:specs|proofs)/\w+)\)")
IN_ANTT = re.compile(r"\bRattle\.(\w+)\.((?:specs|proofs)\.[\w.+]*\w)")
MADE = re.compile(r"\.(?:Given|Goals)$")
PART = re.compile(r"((?:docs/)?\w+\.md)`?, '([^']+)'")

# ---- the forms of definitions, by the ending of a file ('' for a command)

SIGNED = r"^ *(?:(?:pub|abbrev|unfoldable|opaque) +)*([^\s(){}:;,.λ]+) +:(?=\s)"
CLAUSE = r"^ *(?:requires|ensures) (\w+) \{"
FUNCTION = r"^ *(?:pub(?:\(\w+\))? )?(?:const |unsafe |extern \"C\" )*fn (\w+)"
ITEM = r"^ *(?:pub(?:\(\w+\))? )?(?:struct|enum|trait|type|const|static|mod) (\w+)"
CONSTANT = r"\b([A-Z][A-Z0-9]*_[A-Z0-9_]+)\b"
OF_C = [r"^[a-z][\w *]*?\b(\w+)\(", r"^#define (\w+)", r"^(?:typedef )?(?:enum|struct) (\w+)", r"^ +(?:const )?\w+ \**(\w+)[;,]", CONSTANT]
OF_SHELL = [r"^ *(?:function )?(\w+) ?\(", r"^ *(?:local |export |readonly )?(\w+)=", CONSTANT]
DEFINES = {
    ".antt": [SIGNED, r"^ *(?:pub +)?(?:record|data|ruleset) +([^\s(){}:;,.]+)"],
    ".rt": [FUNCTION, ITEM, CLAUSE, r"\b([a-z]\w*): "],
    ".rs": [FUNCTION, ITEM, CONSTANT],
    ".c": OF_C,
    ".h": OF_C,
    ".py": [r"^ *def (\w+)", r"^ *class (\w+)", r"^([A-Z_]+) =", r"self\.(\w+) =", CONSTANT],
    ".sh": OF_SHELL,
    ".awk": OF_SHELL,
    "": OF_SHELL,
}
OF_TYPE = r"^( *)(?:pub(?:\(\w+\))? )?(?:struct|enum|trait|impl(?:<[^>]*>)?(?: [\w:<>', ]+ for)?) (\w+)"
OWNERS = {".antt": r"^( *)(?:pub +)?(?:record|data) +([^\s(){}:;,.]+)", ".rt": OF_TYPE, ".rs": OF_TYPE, ".py": r"^( *)class (\w+)"}
IN_TYPE = [FUNCTION, r"^ +(?:pub(?:\(\w+\))? )?(\w+):", r"^ +([A-Z]\w*)(?= *[,({=]|$)"]
MEMBERS = {".antt": [SIGNED], ".rt": IN_TYPE, ".rs": IN_TYPE, ".py": [r"^ *def (\w+)"]}
USED = re.compile(r"^ *(?:ghost |pub )*use ([\w.+-]+)\.\{([^}]*)\}", re.M)
OF_RATTLE = re.compile(r"Rattle\.(\w+)\.")


# ---- files: what is comment in them, and what is code


def files_of(root):
    """The files of a repository, named from its folder on."""
    found = []
    for path, folders, names in os.walk(root):
        folders[:] = sorted(folder for folder in folders if folder not in SKIPPED)
        found += [os.path.relpath(os.path.join(path, name), root) for name in sorted(names)]
    return found


def ending_of(path):
    """The ending of a file that is read, '' for a command; None for a file that is not read."""
    ending = os.path.splitext(path)[1]
    if ending:
        return ending if ending in DEFINES or ending in (".md", ".edit") else None
    return "" if path in (".ci/run", "answer", "judge") else None


def parted(path, text):
    """The comments of a file, as line numbers and lines, and its code. All of a document is comment."""
    ending = ending_of(path)
    if ending == ".md":
        return list(document_lines(text)), ""
    if ending == ".edit":
        return [(number, line[2:]) for number, line in enumerate(text.split("\n"), 1) if line.startswith("# ")], ""
    if ending == ".py":
        return split_python(text)
    if ending == ".antt":
        return split_by(text, re.compile(r'"(?:\\.|[^"\\\n])*"|(?<!\S)--(?!\S).*'), "--")
    if ending in (".rt", ".rs", ".c", ".h"):
        return split_by(text, re.compile(r'"(?:\\.|[^"\\])*"|\'(?:\\.|[^\'\\\n])\'|//[^\n]*|/\*.*?\*/', re.S), "/")
    return split_by(text, re.compile(r"'[^'\n]*'|\"(?:\\.|[^\"\\\n])*\"|(?<!\S)#.*"), "#")


def document_lines(text):
    """The lines of a document, without those of fenced code."""
    fenced = False
    for number, line in enumerate(text.split("\n"), 1):
        if line.lstrip().startswith("```"):
            fenced = not fenced
        elif not fenced:
            yield number, line


def split_by(text, pattern, start):
    """Comments and code, where a pattern finds strings and comments, and what begins with `start` is a comment."""
    comments, code, end = [], [], 0
    for match in pattern.finditer(text):
        if match.group().startswith(start):
            comments += enumerate(match.group().split("\n"), text.count("\n", 0, match.start()) + 1)
            code.append(text[end : match.start()])
            end = match.end()
    return comments, "".join(code) + text[end:]


def split_python(text):
    """The comments and the docstrings of a Python file, and the rest."""
    lines, found = text.split("\n"), []
    for token in tokenize.generate_tokens(io.StringIO(text).readline):
        if token.type == tokenize.COMMENT:
            found.append((token.start[0], token.string))
            lines[token.start[0] - 1] = lines[token.start[0] - 1][: token.start[1]]
    for node in ast.walk(ast.parse(text)):
        if isinstance(node, (ast.Module, ast.ClassDef, ast.FunctionDef)) and ast.get_docstring(node, False):
            first, last = node.body[0].lineno, node.body[0].end_lineno
            found += enumerate(lines[first - 1 : last], first)
            lines[first - 1 : last] = [""] * (last + 1 - first)
    return sorted(found), "\n".join(lines)


# ---- what is defined


# Functions that have another name now, or went into another: their edits keep the names that they had.
NOW_NAMED = {("form", "or_count"): "worse", ("query", "entry_cell"): "cell"}


def now_named(crate, function):
    """The name that a function has now, after which its edits were named."""
    return NOW_NAMED.get((crate, function), function)


class Names:
    """What a repository defines, and the comments of its files."""

    def __init__(self, root):
        self.root = root
        self.there = set()  # files and folders
        self.files, self.texts, self.comments, self.code = [], {}, {}, {}
        self.defined = {}  # a name: the files that define it
        self.members = {}  # a record, a type, a class: its members
        self.sources = {}  # a crate: what its src/ defines; in a module, module::name
        self.edits = {}  # crate/edit: its file
        self.said = {}  # a file: the words of its code
        self.crates = os.listdir(os.path.join(root, "crates"))
        for path in files_of(root):
            self.add(path)

    def add(self, path):
        """Puts down a file, and what it defines."""
        parts = path.split("/")
        self.files += [] if path in self.there else [path]
        self.there |= {"/".join(parts[:n]) for n in range(1, len(parts) + 1)}
        if parts[0] == "crates":
            self.sources.setdefault(parts[1], set())
            self.define("/".join(parts[:2]), parts[1:3])
        if parts[0] == "rust":
            self.define("/".join(parts[:2]), parts[1:2])
        if ending_of(path) is not None:
            self.texts[path] = open(os.path.join(self.root, path), encoding="utf-8").read()
            self.comments[path], self.code[path] = parted(path, self.texts[path])
            self.read(path, ending_of(path))

    def define(self, path, names):
        """Puts names down as defined by a file."""
        for name in names:
            self.defined.setdefault(name, set()).add(path)

    def read(self, path, ending):
        """Puts down what a file that is read defines."""
        parts, code = path.split("/"), self.code[path]
        stem = os.path.splitext(parts[-1])[0]
        self.define(path, [stem])
        if ending == ".edit":
            self.edits[f"{parts[1] if parts[0] == 'crates' else parts[2]}/{stem}"] = path
        for pattern in DEFINES.get(ending, []):
            self.define(path, re.findall(pattern, code, re.M))
        for module, names in USED.findall(code):
            of = OF_RATTLE.match(module + ".")
            if not of or of.group(1) not in self.crates:
                self.define("the library", re.findall(r"[^\s,]+", names))
        members = members_in(code, ending)
        for owner, member in members:
            self.members.setdefault(owner, set()).add(member)
        self.define(path, [member for _, member in members])
        if parts[0] == "crates" and ending == ".rt":
            module = "" if stem in ("lib", "main") else stem + "::"
            names = [name for pattern in (FUNCTION, ITEM) for name in re.findall(pattern.replace("^ *", "^"), code, re.M)]
            names += [f"{owner}::{member}" for owner, member in members]
            self.sources[parts[1]] |= {module + name for name in names} | ({stem} if module else set())

    def words(self, path):
        """What a comment in a file may name besides: the words of its code, of its crate's src/, and of the file that it edits."""
        parts = path.split("/")
        crate = parts[1] if parts[0] == "crates" else parts[2] if path.endswith(".edit") else ""
        near = [path] + [other for other in self.code if crate and other.startswith(f"crates/{crate}/src/")]
        near += [f"crates/{crate}/{file}" for file in re.findall(r"^file: (.*)", self.texts[path], re.M) if path.endswith(".edit")]
        for other in near:
            if other not in self.said:
                self.said[other] = set(re.findall(r"[^\W\d][\w′'-]*", self.code.get(other, "")))
        return set().union(*(self.said[other] for other in near))

    def has(self, name):
        """Whether a name is defined, or, where it has a star, one that is like it."""
        return bool(fnmatch.filter(self.defined, name)) if "*" in name else name in self.defined

    def has_path(self, path, bases):
        """Whether a file or a folder is there, from one of some folders on; a file's bare name, anywhere."""
        pattern = ANY.sub("*", path.rstrip("/").removeprefix(".../"))
        wholes = [os.path.normpath(os.path.join(base, pattern)) for base in bases]
        for one in wholes + [whole + ".antt" for whole in wholes]:
            if fnmatch.filter(self.there, one) if "*" in one else one in self.there:
                return True
        return "/" not in path and any(file.endswith("/" + path) for file in self.files)

    def has_function(self, crate, function):
        """Whether a crate has a function of this name, in whatever module or type."""
        return any(function in name.split("::") for name in self.sources.get(crate, ()))

    def modules(self, crate, *names):
        """The files that names of modules, or of records, mean: in one crate, or in any."""
        within = f"crates/{crate}/" if crate else "crates/"
        ends = tuple(f"/{name}.antt" for name in names) + tuple(f"/{name}" for name in names if name.endswith(".rt"))
        owners = {path for name in names if name in self.members for path in self.defined.get(name, ())}
        return [path for path in self.files if path.startswith(within) and (path.endswith(ends) or path in owners)]


def members_in(code, ending):
    """The members of records, types and classes, as pairs of owner and member: what is defined one step inside of the owner."""
    if ending not in OWNERS:
        return []
    owner, indent, inner, found = "", 0, 0, []
    for line in code.split("\n"):
        depth = len(line) - len(line.lstrip())
        start = re.match(OWNERS[ending], line)
        if start:
            owner, indent, inner = start.group(2), depth, 0
        elif owner and line.strip() and depth <= indent:
            owner = ""
        elif owner and line.strip():
            inner = inner or depth
            if depth == inner:
                found += [(owner, name) for pattern in MEMBERS[ending] for name in re.findall(pattern, line)]
    return found


# ---- what is missing


class Finder:
    """Goes through the documents, comments and edits, and keeps what is missing, as file, line and words."""

    def __init__(self, names):
        self.names = names
        self.found = set()
        self.count = 0
        self.where = ("", 0)

    def run(self):
        """All findings, in order."""
        for path, lines in self.names.comments.items():
            if path in OF_OTHER_KITS:
                continue
            for number, line in lines:
                self.where = (path, number)
                self.line(path, line)
            if path.endswith(".md"):
                self.tables(path, lines)
        for name, path in self.names.edits.items():
            self.edit(name, path)
        return sorted(self.found)

    def report(self, words):
        """Puts down a finding at the line that is looked at."""
        self.found.add((*self.where, words))

    def line(self, path, line):
        """One line of a document or a comment."""
        document = path.endswith(".md")
        row = re.match(r"\| `(\w+)` \|", line) if document else None
        crate = row.group(1) if row and row.group(1) in self.names.sources else ""
        gone = {span for run in GONE.findall(line) for span in SPAN.findall(run)} if document else set()
        if path == "docs/WRONG_ANSWERS.md" and line.startswith("| ") and line.count(" | ") == 2:
            line = line.rpartition(" | ")[0]
        for span in SPAN.findall(line):
            if span not in gone:
                self.span(span.strip().replace("\\|", "|"), crate)
        for free in FREE_PATH.findall(SPAN.sub("``", line)):
            self.path(free, crate)
        for of, module in OF_CRATE.findall(line):
            if of in self.names.sources and not self.names.modules(of, module):
                self.report(f"({of}: {module}): crates/{of} has no such module")
        for of, module in IN_ANTT.findall(line):
            file = MADE.sub("", module).replace(".", "/")
            if of in self.names.crates and not self.names.has_path(file, [f"crates/{of}"]):
                self.report(f"Rattle.{of}.{module}: no such module")
        for other, part in PART.findall(line):
            text = self.names.texts.get(other) or self.names.texts.get(f"docs/{other}", "")
            if not any(head.startswith(part) for head in re.findall(r"^#+ (.*)", text, re.M)):
                self.report(f"{other}, '{part}': no such heading")
        if document:
            self.placed(line, gone)

    def span(self, span, crate):
        """What stands in backquotes."""
        self.count += 1
        command = re.match(r"rt (\S+)", span)
        if command and command.group(1) not in COMMANDS:
            self.report(f"`{span}`: rt has no such command")
        bare = span.lstrip(".").rstrip(":")
        if NO_NAME.fullmatch(span) or span.startswith("#["):
            return
        if re.fullmatch(r"\w+(::\w+)+", span):
            self.source(span)
        elif re.fullmatch(r"[A-Z]\w*\.[\w-]+", span) and not span.endswith(ENDINGS):
            self.member(span)
        elif PATH.fullmatch(span) and ("/" in span or span.endswith(ENDINGS)):
            self.path(span, crate)
        elif NAME.fullmatch(bare):
            self.name(bare)
        else:
            for word in INSIDE.findall(span):
                if "::" in word:
                    self.source(word)
                elif "/" in word:
                    self.path(word, crate)
                elif not word.isupper():
                    self.name(word)

    def name(self, name):
        """A name is defined, or stands in the code near the comment."""
        path = self.where[0]
        near = () if path.endswith(".md") or name in EXEMPT else self.names.words(path)
        if name not in EXEMPT and not self.names.has(ANY.sub("*", name)) and name not in near:
            if self.where[0] != "docs/WRONG_ANSWERS.md" or name not in {old for _, old in NOW_NAMED}:
                self.report(f"`{name}`: nothing of this name is defined")

    def member(self, span):
        """A.b: b is a member of the record or the class A."""
        owner, _, member = span.partition(".")
        if member not in self.names.members.get(owner, ()):
            self.report(f"`{span}`: {owner} has no such member")

    def source(self, span):
        """a::b: b is in src/ of the crate a, or a member of the type a."""
        first, _, rest = span.partition("::")
        if not ANY.search(span) and rest not in self.names.sources.get(first, set()) | self.names.members.get(first, set()):
            self.report(f"`{span}`: {f'crates/{first}/src' if first in self.names.sources else first} has no such thing")

    def path(self, span, crate):
        """A path is a file or a folder, or crate/edit an edit."""
        outside = os.path.dirname(self.names.root)
        if span.startswith("../shared"):
            if os.path.isdir(os.path.join(outside, "shared")) and not os.path.exists(os.path.join(outside, span[3:])):
                self.report(f"`{span}`: no such file")
        elif not set(BUILT).intersection(span.split("/")) and span not in self.names.edits:
            parts = self.where[0].split("/")[:-1]
            bases = ["/".join(parts[:n]) for n in range(len(parts) + 1)] + ["crates"] + ([f"crates/{crate}"] if crate else [])
            if not self.names.has_path(span, bases):
                self.report(f"`{span}`: no such file, folder or edit")

    def placed(self, line, gone):
        """The names before (Module), or before a file in which they are said to be, are defined there."""
        runs = [(run, self.names.modules(crate, *places.split(", ")), places) for run, crate, places in PLACED.findall(line)]
        runs += [(run, [file for file in self.names.files if file.startswith(place)], place) for run, place in IN_FILE.findall(line)]
        for run, files, place in runs:
            if not files:
                self.report(f"({place}): no such module or record")
            for name in SPAN.findall(run) if files else []:
                where = self.names.defined.get(name, set())
                known = NAME.fullmatch(name) and (where or name in EXEMPT) and name not in self.names.sources
                if known and name not in gone and not where.intersection(files):
                    self.report(f"`{name}` is not defined in ({place}), but in {', '.join(sorted(where)[:3]) or 'no file'}")

    def tables(self, path, lines):
        """The tables of a document that begin with 'file' name modules; those of the wrong answers, functions and comments of edits."""
        first, crate, comments = "", "", {}
        for name, file in self.names.edits.items():
            comments.setdefault(name.split("/")[0], set()).update(line for _, line in self.names.comments[file])
        for number, line in lines:
            self.where = (path, number)
            crate = line[4:].strip() if line.startswith("### ") else crate
            cells = [cell.strip() for cell in re.split(r"(?<!\\)\|", line)[1:-1]]
            if not cells or cells[0].startswith("---"):
                first = first if cells else ""
            elif not first:
                first = cells[0]
            elif first == "file":
                of, _, modules = cells[0].rpartition(": ")
                for module in modules.split(", "):
                    if not self.names.modules(of, module):
                        self.report(f"{cells[0]}: no such module")
            elif path == "docs/WRONG_ANSWERS.md" and crate in self.names.sources:
                for function in SPAN.findall(cells[0]):
                    if not self.names.has_function(crate, now_named(crate, function)):
                        self.report(f"`{function}`: crates/{crate}/src has no such function")
                if cells[1].removesuffix(" (gate)") not in comments.get(crate, ()):
                    self.report(f"no edit of {crate} has this comment: {cells[1]}")

    def edit(self, name, path):
        """Each old part of an edit stands exactly once in its file, as the pairs before it leave it; a function gives it its name."""
        crate, _, label = name.partition("/")
        function = label.split(".")[0]
        self.where = (path, 1)
        if path.startswith("tests/") and not self.names.has_function(crate, now_named(crate, function)):
            self.report(f"crates/{crate}/src has no function {function}, after which the edit is named")
        texts, file, old, pairs = {}, "", "", 0
        for number, line in enumerate(self.names.texts[path].split("\n"), 1):
            self.where = (path, number)
            if line.startswith("file: "):
                file, old = f"crates/{crate}/{line[6:]}", ""
                texts.setdefault(file, self.names.texts.get(file, ""))
                if file not in self.names.texts:
                    self.report(f"file: {line[6:]}: crates/{crate} has no such file")
            elif line.startswith("old: "):
                old = line[5:]
                if file in self.names.texts and texts[file].count(old) != 1:
                    self.report(f"stands {texts[file].count(old)} times in {file}, and not once: {old.strip()}")
            elif line.startswith("new:") and file and old:
                texts[file] = texts[file].replace(old, line[5:], 1)
                pairs, old = pairs + 1, ""
        if not pairs:
            self.report("has no pair of old: and new:")


# ---- that it can fail


def wrong_lines(names):
    """Lines for the ends of files, and whether they must be reported."""
    crate, edit = min(names.sources), min(names.edits)
    laws = [(name, file) for name, files in names.defined.items() for file in files if re.fullmatch(r"[a-z]+[_-][a-z_-]+", name)]
    theorem, file = min(law for law in laws if re.fullmatch(r"crates/\w+/proofs/\w+\.antt", law[1]))
    law = "Rattle." + file[len("crates/") : -len(".antt")].replace("/", ".")
    function = "::".join(min((one, name) for one, found in names.sources.items() for name in found if "::" not in name))
    wrong = ["`docs/no_such.md`", "`no_such.md`", "docs/no_such.md", f"`{crate}/no_such_edit`", f"`{crate}::no_such_function`"]
    wrong += ["`no_such_definition`", "`noSuchName`", "`no-such-theorem`", "`no-such-*`", "`f no_such_thing`", "`Names.no_such_method`"]
    wrong += ["`rt no-such-command`", f"`Rattle.{crate}.specs.NoSuchModule`"]
    wrong += [f"`{theorem}` (NoSuchModule)", f"`{theorem}` (`crates/{crate}/src`)", f"({crate}: NoSuchModule)"]
    wrong += ["docs/DECISIONS.md, 'No such part'"]
    right = ["`README.md`", "docs/DECISIONS.md", f"`{edit}`", f"`{function}`", f"`{theorem}`", f"`{theorem}` (`{file}`)", "`Names.words`"]
    right += ["`noSuchName`, `no_such` (gone)", "`rt ci`", f"`{law}`", "docs/DECISIONS.md, 'Shape'", "`E 0 1 2 0`", "`{`", "`M`", "`L3`", "`ensures`"]
    yield from (("docs/wrong.md", line, True) for line in wrong)
    yield from (("docs/wrong.md", line, False) for line in right)
    for ending, form in {".antt": "-- %s", ".rt": "// %s", ".rs": "/// %s", ".c": "/* %s */", ".h": "/* %s */"}.items():
        yield from in_comments(names, ending, form)
    for ending in (".py", ".sh", ".awk", ""):
        yield from in_comments(names, ending, "# %s")


def in_comments(names, ending, form):
    """Comments for a file with an ending."""
    file = min(path for path in names.texts if ending_of(path) == ending)
    return [(file, form % "`no_such_definition`", True), (file, form % "docs/no_such.md", True), (file, form % "`README.md`", False)]


def wrong_edits(names):
    """Edits, and which of their lines must be reported."""
    crate = min(path.split("/")[1] for path in names.texts if path.endswith("/src/lib.rt") and "fn " in names.code[path])
    function = min(name for name in names.sources[crate] if "::" not in name)
    text = names.texts[f"crates/{crate}/src/lib.rt"]
    once = next(line for line in text.split("\n") if line and text.count(line) == 1)
    yield f"crates/{crate}/must-fail/right.edit", f"# right\nfile: src/lib.rt\nold: {once}\nnew: x\n", 0
    yield f"crates/{crate}/must-fail/twice.edit", "# it stands twice\nfile: src/lib.rt\nold: e\nnew: x\n", 3
    yield f"crates/{crate}/must-fail/nowhere.edit", "# it is not there\nfile: src/lib.rt\nold: no such line\nnew: x\n", 3
    yield f"crates/{crate}/must-fail/again.edit", f"# it is edited already\nfile: src/lib.rt\nold: {once}\nnew: x\nold: {once}\nnew: y\n", 5
    yield f"crates/{crate}/must-fail/no_file.edit", f"# no such file\nfile: src/no_such.rt\nold: {once}\nnew: x\n", 2
    yield f"crates/{crate}/must-fail/comment.edit", f"# `no_such_definition`\nfile: src/lib.rt\nold: {once}\nnew: x\n", 1
    yield f"tests/wrong_answers/{crate}/{function}.nowhere.edit", "# it is not there\nfile: src/lib.rt\nold: no such line\nnew: x\n", 3
    yield f"tests/wrong_answers/{crate}/no_such_function.right.edit", f"# no such function\nfile: src/lib.rt\nold: {once}\nnew: x\n", 1


def put(names, file, text):
    """Writes a file of a repository, and reads it."""
    path = os.path.join(names.root, file)
    os.makedirs(os.path.dirname(path), exist_ok=True)
    open(path, "w", encoding="utf-8").write(text)
    names.add(file)


def self_test(root):
    """Makes what is wrong in a copy, and says what is not reported, and what is reported though it is right."""
    with tempfile.TemporaryDirectory() as top:
        copy = os.path.join(top, "copy")
        shutil.copytree(root, copy, ignore=shutil.ignore_patterns(*SKIPPED, "vectors", "stdin", "stdout"))
        names, expected = Names(copy), []
        for file, line, wrong in list(wrong_lines(names)):
            lines = names.texts[file].rstrip("\n").split("\n") if file in names.texts else []
            put(names, file, "\n".join(lines + [line]) + "\n")
            expected.append((file, len(lines) + 1, wrong, line))
        for file, text, number in list(wrong_edits(names)):
            put(names, file, text)
            expected += [(file, at, at == number, line) for at, line in enumerate(text.split("\n"), 1)]
        found = {(file, line) for file, line, _ in Finder(names).run()}
    bad = [one for one in expected if (one[:2] in found) != one[2]]
    for file, line, wrong, words in bad:
        print(f"{file}:{line}: {'NOT REPORTED' if wrong else 'REPORTED, AND RIGHT'}: {words}")
    print(f"check_documents: {sum(one[2] for one in expected)} wrong lines in a copy, {len(bad)} of them and of the right ones misjudged")
    return 1 if bad else 0


def main():
    """Checks the repository, or that this script can fail."""
    root = os.path.dirname(os.path.dirname(os.path.abspath(__file__)))
    if sys.argv[1:] == ["--self-test"]:
        return self_test(root)
    if sys.argv[1:]:
        sys.exit(__doc__)
    finder = Finder(Names(root))
    found = finder.run()
    for path, line, words in found:
        print(f"{path}:{line}: {words}")
    print(f"check_documents: {finder.count} names and {len(finder.names.edits)} edits, {len(found)} findings")
    return 1 if found else 0


if __name__ == "__main__":
    sys.exit(main())
