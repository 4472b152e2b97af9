"""The rules of 01 once more, in Python, so that the library's outcomes can be compared with something that was not made from it.

It is written from 01 (and the readings of docs/DECISIONS.md) and shares nothing with the crates. Checks, evaluation and sizing
are written the plain way, with lists, dictionaries, recursion and whole numbers of any size:

- `first_offence` gives the number and the place of the first check that is offended;
- `Evaluation.response` is Definition 6 by direct recursion;
- `Evaluation.length` is the length of that response by the same recursion, and `Evaluation.met` are the pairs of entry and node
  that it evaluates, without multiplicities;
- `Evaluation.visits` and `Evaluation.tally` are 01's multiplicities; `outcome` asserts that both ways agree.

`size` and `answer` give number, place, size and visits of the calls that size and answer, and `answer` the buffer afterwards.

    python3 tests/reference.py VECTORS      compares it with each folder of vectors (schema.txt, graph.txt, query.txt, expected.txt)
"""
import os
import re
import sys

LARGEST_TEXT = 65535
LARGEST_ROOM = 16384
LARGEST_SIZE = 1000000
NEEDED = (14728, 15880, 14344, 8200, 3072, 3592, 8192)  # the lengths of the seven work areas (docs/AREAS.md)

LABEL = 1000000000
OPEN_BRACE, CLOSE_BRACE, OPEN_BRACKET, CLOSE_BRACKET, NULL = range(2000000001, 2000000006)


# ---- the text form


class Row:
    """A line: its letter and its numbers. `broken` where it breaks the text form."""

    def __init__(self, line, forms):
        fields = line.split(b"\t")
        self.letter = fields[0].decode("latin-1")
        sound = all(re.fullmatch(rb"0|[1-9][0-9]{0,8}", f) for f in fields[1:])
        self.numbers = [int(f) for f in fields[1:]] if sound else []
        self.broken = not (self.letter in forms and sound and forms[self.letter](self.numbers))

    def pairs(self):
        """The argument pairs of an edge, a property or a queried field: their count is the fourth number of each."""
        n = self.numbers[3]
        return tuple((self.numbers[4 + 2 * i], self.numbers[5 + 2 * i]) for i in range(n))

    def values(self):
        """The values of a property."""
        return self.numbers[4 + 2 * self.numbers[3]:]


def plain(count):
    """A record of `count` numbers."""
    return lambda numbers: len(numbers) == count


def has_pairs(numbers):
    """Whether the fourth number is a count of at most four pairs, which follow it with rising argument numbers."""
    if len(numbers) < 4 or numbers[3] > 4 or len(numbers) < 4 + 2 * numbers[3]:
        return False
    arguments = numbers[4:4 + 2 * numbers[3]:2]
    return all(x < y for x, y in zip(arguments, arguments[1:]))


def labelled(numbers):
    """Three numbers, a count and its pairs, and nothing else."""
    return has_pairs(numbers) and len(numbers) == 4 + 2 * numbers[3]


def field_record(numbers):
    return len(numbers) == 2 and numbers[1] <= 1


def property_record(numbers):
    if not has_pairs(numbers) or numbers[2] > 1:
        return False
    return numbers[2] == 1 or len(numbers) == 4 + 2 * numbers[3] + 1


SCHEMA_FORMS = {
    "S": plain(2), "O": plain(0), "I": plain(0), "U": plain(0), "F": field_record, "A": plain(1),
    "H": plain(2), "G": plain(2), "M": plain(2), "Q": plain(1),
}
GRAPH_FORMS = {"N": plain(1), "E": labelled, "P": property_record}
QUERY_FORMS = {"F": labelled, "T": plain(2)}


def read(text, forms):
    """The rows of a text, and the place where it breaks the text form (None where it does not)."""
    if len(text) > LARGEST_TEXT:
        return [], 0
    parts = text.split(b"\n")
    rows = [Row(line, forms) for line in parts[:-1]]
    place = first_line(rows, lambda i: rows[i].broken)
    if place is None and parts[-1] != b"":
        place = len(parts)
    return rows, place


def first_line(rows, offends):
    """The first line that offends, counted from 1, or None."""
    return next((i + 1 for i in range(len(rows)) if offends(i)), None)


# ---- the schema: checks 11 to 16


class Schema:
    """What a schema's rows state. Types, fields and arguments are numbered in the order of their rows."""

    def __init__(self, rows):
        self.rows = rows
        self.types = [r for r in rows if r.letter in "SOIU"]
        self.fields = [r.numbers for r in rows if r.letter == "F"]
        self.arguments = [r.numbers[0] for r in rows if r.letter == "A"]
        self.has = self.pairs_of("H")
        self.takes = self.pairs_of("G")
        self.members = self.pairs_of("M")
        self.queries = [r.numbers[0] for r in rows if r.letter == "Q"]

    def pairs_of(self, letter):
        return {tuple(r.numbers) for r in self.rows if r.letter == letter}

    def kind(self, t):
        """The letter of a type, or None where it is not declared."""
        return self.types[t].letter if t < len(self.types) else None

    def in_range(self, t, value):
        low, high = self.types[t].numbers
        return low <= value <= high

    def compatible(self, o, t):
        return o == t or (t, o) in self.members

    def field_kind(self, f):
        return self.kind(self.fields[f][0])

    def is_list(self, f):
        return self.fields[f][1] == 1


def passes_maximum(rows, amounts, maxima):
    """The first line at which any count passes its maximum. `amounts(row)` are the counts that the row adds to, with how much."""
    held = dict.fromkeys(maxima, 0)
    for i, row in enumerate(rows):
        for name, amount in amounts(row):
            held[name] += amount
        if any(held[name] > maxima[name] for name in maxima):
            return i + 1
    return None


SCHEMA_MAXIMA = {"types": 64, "F": 128, "A": 64, "H": 1024, "G": 1024, "M": 1024}


def check_11(s):
    return passes_maximum(
        s.rows,
        lambda r: [] if r.letter == "Q" else [("types" if r.letter in "SOIU" else r.letter, 1)],
        SCHEMA_MAXIMA,
    )


def check_12(s):
    def offends(i):
        letter, numbers = s.rows[i].letter, s.rows[i].numbers
        if letter == "S":
            return numbers[0] > numbers[1]
        if letter == "F":
            return s.kind(numbers[0]) is None
        if letter == "A":
            return s.kind(numbers[0]) != "S"
        if letter == "H":
            return s.kind(numbers[0]) not in ("O", "I") or numbers[1] >= len(s.fields)
        if letter == "G":
            return numbers[0] >= len(s.fields) or numbers[1] >= len(s.arguments)
        if letter == "M":
            return s.kind(numbers[0]) not in ("U", "I") or s.kind(numbers[1]) != "O"
        if letter == "Q":
            return s.kind(numbers[0]) != "O"
        return False

    return first_line(s.rows, offends)


def check_13(s):
    records = [(r.letter, *r.numbers) for r in s.rows]
    return first_line(s.rows, lambda i: s.rows[i].letter in "HGM" and records[i] in records[:i])


def check_14(s):
    def offends(i):
        if s.rows[i].letter != "M":
            return False
        t, o = s.rows[i].numbers
        return s.kind(t) == "I" and any(owner == t and (o, f) not in s.has for owner, f in s.has)

    return first_line(s.rows, offends)


def check_15(s):
    def offends(i):
        number = sum(r.letter in "SOIU" for r in s.rows[:i])
        return s.rows[i].letter == "U" and all(t != number for t, _ in s.members)

    return first_line(s.rows, offends)


def check_16(s):
    return None if len(s.queries) == 1 else 0


# ---- the graph: checks 21 to 27


class Graph:
    """What a graph's rows state. A label is a field with its pairs."""

    def __init__(self, rows):
        self.rows = rows
        self.nodes = [r.numbers[0] for r in rows if r.letter == "N"]
        self.edges = {}
        self.properties = {}
        for r in rows:
            if r.letter == "E":
                self.edges.setdefault((r.numbers[0], (r.numbers[1], r.pairs())), []).append(r.numbers[2])
            if r.letter == "P":
                self.properties.setdefault((r.numbers[0], (r.numbers[1], r.pairs())), r.values())

    def targets(self, node, label):
        """The targets of a node's edges with a label, in the order of the graph."""
        return self.edges.get((node, label), [])

    def values(self, node, label):
        """The values of a node's property with a label, or None where there is none."""
        return self.properties.get((node, label))


GRAPH_MAXIMA = {"N": 512, "E": 1024, "P": 1024, "values": 8192}


def check_21(g):
    def amounts(r):
        return [(r.letter, 1)] + ([("values", len(r.values()))] if r.letter == "P" else [])

    return passes_maximum(g.rows, amounts, GRAPH_MAXIMA)


def check_22(s, g):
    def offends(i):
        letter, numbers = g.rows[i].letter, g.rows[i].numbers
        if letter == "N":
            return s.kind(numbers[0]) != "O"
        declared = numbers[0] < len(g.nodes) and numbers[1] < len(s.fields)
        if letter == "E" and numbers[2] >= len(g.nodes):
            declared = False
        return not declared or any(a >= len(s.arguments) for a, _ in g.rows[i].pairs())

    return first_line(g.rows, offends)


def check_23(s, g):
    def offends(i):
        if g.rows[i].letter == "N":
            return False
        node, f = g.rows[i].numbers[:2]
        if (g.nodes[node], f) not in s.has:
            return True
        return any((f, a) not in s.takes or not s.in_range(s.arguments[a], x) for a, x in g.rows[i].pairs())

    return first_line(g.rows, offends)


def check_24(s, g):
    def offends(i):
        letter, numbers = g.rows[i].letter, g.rows[i].numbers
        if letter == "N":
            return False
        t = s.fields[numbers[1]][0]
        if letter == "E":
            return s.kind(t) == "S" or not s.compatible(g.nodes[numbers[2]], t)
        if s.kind(t) != "S" or s.fields[numbers[1]][1] != numbers[2]:
            return True
        return any(not s.in_range(t, x) for x in g.rows[i].values())

    return first_line(g.rows, offends)


def check_25(s, g):
    def offends(i):
        if g.rows[i].letter != "E":
            return False
        start, f, to = g.rows[i].numbers[:3]
        if s.is_list(f):
            return False
        return any(r.letter == "E" and r.numbers[:2] == [start, f] and r.numbers[2] != to for r in g.rows[:i])

    return first_line(g.rows, offends)


def check_26(g):
    seen = set()

    def offends(i):
        row = g.rows[i]
        if row.letter == "N":
            return False
        identity = (row.letter, row.numbers[0], row.numbers[1], row.pairs(), row.numbers[2] if row.letter == "E" else None)
        if identity in seen:
            return True
        seen.add(identity)
        return False

    return first_line(g.rows, offends)


def check_27(s, g):
    return None if g.nodes.count(s.queries[0]) == 1 else 0


# ---- the query: checks 31 to 34


class Query:
    """The entries of a query, and which are whose children."""

    def __init__(self, rows):
        self.rows = rows
        self.depths = [r.numbers[0] for r in rows]

    def span(self, i):
        """The lines between entry i and the next line no deeper than it, or the end."""
        end = i + 1
        while end < len(self.rows) and self.depths[end] > self.depths[i]:
            end += 1
        return range(i + 1, end)

    def children(self, i):
        return [k for k in self.span(i) if self.depths[k] == self.depths[i] + 1]

    def top(self):
        return [k for k in range(len(self.rows)) if self.depths[k] == 0]

    def is_field(self, i):
        return self.rows[i].letter == "F"

    def label(self, i):
        return (self.rows[i].numbers[2], self.rows[i].pairs())


def check_31(q):
    return first_line(q.rows, lambda i: i >= 256 or q.depths[i] > 15)


def check_32(q):
    if not q.rows:
        return 0

    def offends(i):
        if q.depths[i] > (q.depths[i - 1] + 1 if i > 0 else 0):
            return True
        return not q.is_field(i) and not q.children(i)

    return first_line(q.rows, offends)


def check_33(s, q):
    def offends(i):
        numbers = q.rows[i].numbers
        if not q.is_field(i):
            return numbers[1] >= len(s.types)
        if numbers[1] > 255 or numbers[2] >= len(s.fields):
            return True
        return any(a >= len(s.arguments) for a, _ in q.rows[i].pairs())

    return first_line(q.rows, offends)


def check_34(s, q):
    contexts = {i: s.queries[0] for i in q.top()}

    def offends(i):
        if not q.is_field(i):
            handed = q.rows[i].numbers[1]
            broken = s.kind(handed) == "S"
        else:
            f, pairs = q.label(i)
            handed = s.fields[f][0]
            is_scalar = s.kind(handed) == "S"
            broken = s.kind(contexts[i]) not in ("O", "I") or (contexts[i], f) not in s.has
            broken = broken or any((f, a) not in s.takes for a, _ in pairs)
            broken = broken or is_scalar == bool(q.children(i))
        contexts.update(dict.fromkeys(q.children(i), handed))
        return broken

    return first_line(q.rows, offends)


# ---- all checks, in ascending order


def first_offence(schema, graph, query):
    """Number and place of the first check that is offended, with the three things read; number 0 where none is."""
    rows, place = read(schema, SCHEMA_FORMS)
    if place is not None:
        return 10, place, None
    s = Schema(rows)
    for number, check in ((11, check_11), (12, check_12), (13, check_13), (14, check_14), (15, check_15), (16, check_16)):
        place = check(s)
        if place is not None:
            return number, place, None
    rows, place = read(graph, GRAPH_FORMS)
    if place is not None:
        return 20, place, None
    g = Graph(rows)
    for number, check in (
        (21, lambda: check_21(g)), (22, lambda: check_22(s, g)), (23, lambda: check_23(s, g)), (24, lambda: check_24(s, g)),
        (25, lambda: check_25(s, g)), (26, lambda: check_26(g)), (27, lambda: check_27(s, g)),
    ):
        place = check()
        if place is not None:
            return number, place, None
    rows, place = read(query, QUERY_FORMS)
    if place is not None:
        return 30, place, None
    q = Query(rows)
    for number, check in (
        (31, lambda: check_31(q)), (32, lambda: check_32(q)), (33, lambda: check_33(s, q)), (34, lambda: check_34(s, q)),
    ):
        place = check()
        if place is not None:
            return number, place, None
    return 0, 0, Evaluation(s, g, q)


# ---- Definition 6, the size, the visits


class Evaluation:
    """Evaluating an accepted query over an accepted graph."""

    def __init__(self, s, g, q):
        self.s, self.g, self.q = s, g, q
        self.root = g.nodes.index(s.queries[0])
        self.kids = [q.children(i) for i in range(len(q.rows))]

    def targets(self, i, u):
        """The targets that field i has from node u."""
        return self.g.targets(u, self.q.label(i))

    def holds(self, i, u):
        """Whether type condition i holds at node u."""
        return self.s.compatible(self.g.nodes[u], self.q.rows[i].numbers[1])

    def shape(self, i):
        """What entry i is: a type condition, a scalar field, an object field that is a list, or one that is not."""
        if not self.q.is_field(i):
            return "condition"
        f = self.q.rows[i].numbers[2]
        if self.s.field_kind(f) == "S":
            return "scalar"
        return "list" if self.s.is_list(f) else "single"

    def scalar(self, i, u):
        """The tokens behind the label of scalar field i at node u."""
        values = self.g.values(u, self.q.label(i))
        if values is None:
            return [NULL]
        return [OPEN_BRACKET, *values, CLOSE_BRACKET] if self.s.is_list(self.q.rows[i].numbers[2]) else list(values)

    def response(self, entries, u):
        """Definition 6: the tokens of several entries from node u."""
        return [token for i in entries for token in self.entry(i, u)]

    def entry(self, i, u):
        shape = self.shape(i)
        if shape == "condition":
            return self.response(self.kids[i], u) if self.holds(i, u) else []
        label = LABEL + self.q.rows[i].numbers[1]
        if shape == "scalar":
            return [label, *self.scalar(i, u)]
        inner = [[OPEN_BRACE, *self.response(self.kids[i], v), CLOSE_BRACE] for v in self.targets(i, u)]
        if shape == "list":
            return [label, OPEN_BRACKET, *(token for one in inner for token in one), CLOSE_BRACKET]
        return [label, *inner[0]] if inner else [label, NULL]

    def length(self):
        """The response's length, by the recursion of `response`; each pair of entry and node is counted once and kept."""
        kept = {}

        def several(entries, u):
            return sum(one(i, u) for i in entries)

        def one(i, u):
            if (i, u) not in kept:
                shape = self.shape(i)
                if shape == "condition":
                    kept[i, u] = several(self.kids[i], u) if self.holds(i, u) else 0
                elif shape == "scalar":
                    kept[i, u] = 1 + len(self.scalar(i, u))
                else:
                    inner = sum(2 + several(self.kids[i], v) for v in self.targets(i, u))
                    kept[i, u] = 3 + inner if shape == "list" else 1 + (inner if self.targets(i, u) else 1)
            return kept[i, u]

        return several(self.q.top(), self.root)

    def onward(self, i, u):
        """The nodes at which the evaluation of entry i at node u goes on with the entry's children."""
        shape = self.shape(i)
        if shape == "condition":
            return [u] if self.holds(i, u) else []
        return [] if shape == "scalar" else self.targets(i, u)

    def met(self):
        """The pairs of entry and node that the evaluation evaluates."""
        pairs = set()

        def meet(i, u):
            if (i, u) in pairs:
                return
            pairs.add((i, u))
            for v in self.onward(i, u):
                for k in self.kids[i]:
                    meet(k, v)

        for i in self.q.top():
            meet(i, self.root)
        return pairs

    def visits(self):
        """01's visits: the multiplicity of each pair of entry and node where it is at least 1."""
        rows = {i: {self.root: 1} for i in self.q.top()}
        for i in range(len(self.q.rows)):
            handed = {}
            for u, times in rows[i].items():
                shape = self.shape(i)
                if shape == "condition" and self.holds(i, u):
                    handed[u] = times
                elif shape in ("list", "single"):
                    for v in self.targets(i, u):
                        handed[v] = handed.get(v, 0) + times
            for k in self.kids[i]:
                rows[k] = handed
        return {(i, u): times for i in rows for u, times in rows[i].items()}

    def own_tokens(self, i, u):
        shape = self.shape(i)
        if shape == "condition":
            return 0
        if shape == "scalar":
            values = self.g.values(u, self.q.label(i))
            return 2 if values is None or not self.s.is_list(self.q.rows[i].numbers[2]) else 3 + len(values)
        targets = len(self.targets(i, u))
        return 3 + 2 * targets if shape == "list" else 3 if targets else 2

    def tally(self):
        return sum(times * self.own_tokens(i, u) for (i, u), times in self.visits().items())

    def outcome(self):
        """The size as it is shown, and the number of visits, by both ways."""
        visits = self.visits()
        assert set(visits) == self.met()
        assert self.tally() == self.length()
        return min(self.length(), LARGEST_SIZE + 1), len(visits)


# ---- sizing and answering


def size(schema, graph, query, areas=NEEDED):
    """Number, place, size and visits of the sizing call. `areas`: the lengths of the six work areas."""
    if any(length < needed for length, needed in zip(areas, NEEDED)):
        return 2, 0, 0, 0
    number, place, evaluation = first_offence(schema, graph, query)
    if number != 0:
        return number, place, 0, 0
    return (0, 0, *evaluation.outcome())


def answer(schema, graph, query, room, buffer, areas=NEEDED):
    """The same of the answering call, and the buffer afterwards."""
    if room > LARGEST_ROOM:
        return (1, 0, 0, 0), buffer
    told = size(schema, graph, query, areas)
    if told[0] != 0:
        return told, buffer
    if told[2] > min(room, len(buffer)):
        return (50, 0, told[2], told[3]), buffer
    evaluation = first_offence(schema, graph, query)[2]
    response = evaluation.response(evaluation.q.top(), evaluation.root)
    assert len(response) == told[2]
    return told, response + buffer[len(response):]


# ---- the program `answer`, for the vectors

MARKS = {OPEN_BRACE: "{", CLOSE_BRACE: "}", OPEN_BRACKET: "[", CLOSE_BRACKET: "]", NULL: "N"}


def token_line(token):
    if token in MARKS:
        return MARKS[token]
    return "L\t%d" % (token - LABEL) if token >= LABEL else "V\t%d" % token


def printed(schema, graph, query):
    """What the program `answer` writes for three texts."""
    outcome, buffer = answer(schema, graph, query, LARGEST_ROOM, [0] * LARGEST_ROOM)
    if outcome[0] != 0:
        return "no\t%d\t%d\t%d\t%d\n" % outcome
    head = "ok\t%d\t%d" % outcome[2:]
    return "".join(line + "\n" for line in [head, *map(token_line, buffer[:outcome[2]])])


def texts_of(folder):
    """The three texts of a folder."""
    def text(name):
        with open(os.path.join(folder, name + ".txt"), "rb") as file:
            return file.read()

    return text("schema"), text("graph"), text("query")


def main(vectors):
    differing = []
    folders = sorted(d for d in os.listdir(vectors) if os.path.isdir(os.path.join(vectors, d)))
    for folder in folders:
        with open(os.path.join(vectors, folder, "expected.txt")) as file:
            expected = file.read()
        if printed(*texts_of(os.path.join(vectors, folder))) != expected:
            differing.append(folder)
    print("%d vectors, %d differ %s" % (len(folders), len(differing), " ".join(differing)))
    return 1 if differing else 0


if __name__ == "__main__":
    if len(sys.argv) != 2:
        sys.exit(__doc__)
    sys.exit(main(sys.argv[1]))
