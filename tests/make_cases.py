"""Writes the cases that the program `cases` runs (crates/cases/stdin), and what 01's rules ask of each (crates/cases/stdout).

    python3 tests/make_cases.py             writes both files
    python3 tests/make_cases.py --list      writes none, and lists the cases with their numbers and outcomes

What is expected comes from tests/reference.py alone, and where 01 itself states an outcome, that is asserted too (`told`), as are
the numbers and places of tests/hand_cases.py, which were worked out by hand. Judgements are those of tests/judging.py: worked out by
hand, and the same as by enumeration wherever that can be made. The head of crates/cases/src/main.rt has the form of both files. The vectors of tests/vectors are run with the rest; each of their
folders has three texts, and what the program `answer` writes for them.
"""
import os
import sys

import hand_cases
import judging
import reference
from reference import NEEDED

HERE = os.path.dirname(os.path.abspath(__file__))
REPOSITORY = os.path.dirname(HERE)
SIZE, ANSWER, JUDGE = 0, 1, 2
FILLING = 987654321
WHOLE = 16384  # the largest room


class Case:
    """One call: its texts and all that it is lent. `told` is number, place, size and visits where 01 states them."""

    def __init__(self, name, texts, call=ANSWER, room=WHOLE, filling=FILLING, areas=NEEDED, buffer=WHOLE, told=None):
        self.name, self.texts, self.call, self.room = name, texts, call, room
        self.filling, self.areas, self.buffer, self.told = filling, areas, buffer, told

    def framed(self):
        """The case as the program reads it."""
        numbers = (self.call, self.room, self.filling, *self.areas, self.buffer)
        parts = [b"\t".join(b"%010d" % n for n in numbers) + b"\n"]
        for text in self.texts:
            parts += [b"%010d\n" % len(text), text]
        return b"".join(parts)

    def expected(self):
        """What the call returns, and the buffer after it."""
        buffer = [self.filling] * self.buffer
        if self.call == SIZE:
            outcome = reference.size(*self.texts, self.areas)
        else:
            outcome, buffer = reference.answer(*self.texts, self.room, buffer, self.areas)
        assert self.told is None or tuple(self.told) == outcome, (self.name, self.told, outcome)
        return outcome, buffer

    def line(self, number):
        """The line that the program writes: no number of any area is left, whatever the outcome."""
        outcome, buffer = self.expected()
        return "\t".join(str(n) for n in (number, *outcome, *(0 for _ in NEEDED), digest(buffer))) + "\n"


class Judgement:
    """One call that judges: its two sequences, and what is right."""

    def __init__(self, name, full, shortened, told):
        self.name, self.full, self.shortened, self.told = name, judging.tokens(full), judging.tokens(shortened), told

    def framed(self):
        """The case as the program reads it."""
        numbers = (JUDGE, len(self.full), *self.full, len(self.shortened), *self.shortened)
        return b" ".join(b"%010d" % n for n in numbers) + b"\n"

    def line(self, number):
        """The line that the program writes: 1 for yes or 0; the refusal's number; place, size and visits 0."""
        found = judging.judge(self.full, self.shortened)
        assert found is None or found == self.told, (self.name, self.told, found)
        refusal = self.told if self.told in (71, 72) else 0
        return "\t".join(str(n) for n in (number, int(self.told == "yes"), refusal, 0, 0, 0)) + "\n"


def digest(buffer):
    total = 0
    for number in buffer:
        total = total % 4294967291 * 1000003 + number + 1
    return total


def text(short):
    """A text as 01 shows one: spaces for tabs, '/' for line ends."""
    return "".join(line.strip().replace(" ", "\t") + "\n" for line in short.split("/") if line.strip()).encode()


def lines(*records):
    """A text of records that are rows of numbers behind a letter."""
    return "".join("\t".join(str(field) for field in record) + "\n" for record in records).encode()


# ---- the vectors


def vectors():
    folder = os.path.join(HERE, "vectors")
    for name in sorted(os.listdir(folder)):
        texts = reference.texts_of(os.path.join(folder, name))
        case = Case("vector " + name, texts)
        yield case
        if case.expected()[0][0] in (0, 50):
            yield Case("vector " + name + " sized", texts, call=SIZE)


# ---- 01's sample and its changes

SAMPLE = reference.texts_of(os.path.join(REPOSITORY, "crates", "answer", "data"))


def without(whole, *numbers):
    """A text without some of its lines, counted from 1."""
    return b"".join(line for i, line in enumerate(whole.splitlines(True), 1) if i not in numbers)


def only(whole, *numbers):
    """Some lines of a text, counted from 1, in the order given."""
    held = whole.splitlines(True)
    return b"".join(held[i - 1] for i in numbers)


def samples():
    schema, graph, query = SAMPLE
    yield Case("P1", SAMPLE, told=(0, 0, 18, 9))
    yield Case("P1 sized", SAMPLE, call=SIZE, told=(0, 0, 18, 9))
    yield Case("P2", SAMPLE, room=18, told=(0, 0, 18, 9))
    yield Case("P3", SAMPLE, room=17, told=(50, 0, 18, 9))
    yield Case("P4", (schema, graph, text("T 0 4/F 1 1 1 0")), room=0, told=(0, 0, 0, 1))
    yield Case("P5", (schema, graph, only(query, 1)), told=(34, 1, 0, 0))
    yield Case("P6", (schema, graph, text("F 0 1 1 0")), told=(34, 1, 0, 0))
    yield Case("P7", (schema, graph, b""), told=(32, 0, 0, 0))
    yield Case("P8", (schema, graph, only(query, 1, 2, 2)), told=(0, 0, 15, 5))
    yield Case("P9", (schema, without(graph, 4, 5), only(query, 1, 2)), told=(0, 0, 3, 1))
    yield Case("P10", (schema, without(graph, 7), query), told=(0, 0, 15, 9))
    yield Case("P11", (schema, only(graph, 1, 2, 3, 4, 5, 6) + text("P 1 2 1 0") + only(graph, 8), query), told=(0, 0, 16, 9))
    yield Case("P12", (schema, only(graph, 1, 2, 3, 4, 5, 4, 6, 7, 8), query), told=(26, 6, 0, 0))
    yield Case("P12, a last line added", (schema, graph + text("P 2 2 1 0 5"), query), told=(23, 9, 0, 0))
    yield Case("no texts", (b"", b"", b""), told=(16, 0, 0, 0))


def rooms():
    """Refusals 1 and 50: the room given, and the buffer's length."""
    for room, number in ((0, 50), (17, 50), (18, 0), (19, 0), (WHOLE, 0)):
        yield Case("room %d" % room, SAMPLE, room=room, told=(number, 0, 18, 9))
    for room in (WHOLE + 1, 999999999):
        yield Case("room %d" % room, SAMPLE, room=room, told=(1, 0, 0, 0))
    yield Case("room and texts at fault", (b"X", b"X", b"X"), room=WHOLE + 1, told=(1, 0, 0, 0))
    yield Case("room and an area at fault", SAMPLE, room=WHOLE + 1, areas=(0,) * len(NEEDED), told=(1, 0, 0, 0))
    yield Case("sizing asks no room", SAMPLE, call=SIZE, room=WHOLE + 1, buffer=0, told=(0, 0, 18, 9))
    for buffer, number in ((0, 50), (17, 50), (18, 0), (19, 0), (WHOLE + 1, 0)):
        yield Case("buffer of %d" % buffer, SAMPLE, buffer=buffer, told=(number, 0, 18, 9))
    yield Case("room 17, a longer buffer", SAMPLE, room=17, buffer=18, told=(50, 0, 18, 9))
    nothing = (SAMPLE[0], SAMPLE[1], text("T 0 4/F 1 1 1 0"))
    yield Case("no token, no buffer", nothing, buffer=0, told=(0, 0, 0, 1))


def areas():
    """Refusal 2: each area one number too short; and each one longer than needed. They hold other numbers before the call."""
    for i in range(len(NEEDED)):
        for call in (SIZE, ANSWER):
            for more, told in ((-1, (2, 0, 0, 0)), (1, (0, 0, 18, 9))):
                lent = tuple(n + (more if k == i else 0) for k, n in enumerate(NEEDED))
                yield Case("area %d, %+d, call %d" % (i, more, call), SAMPLE, call=call, areas=lent, told=told)
    yield Case("no areas", SAMPLE, areas=(0,) * len(NEEDED), told=(2, 0, 0, 0))
    yield Case("areas and texts at fault", (b"X", b"X", b"X"), areas=(0,) * len(NEEDED), told=(2, 0, 0, 0))
    longer = tuple(n + 1 for n in NEEDED)
    for filling in (0, 1, 4, 70, 999999999):
        yield Case("longer areas full of %d" % filling, SAMPLE, areas=longer, buffer=40, filling=filling, told=(0, 0, 18, 9))
        refused = (SAMPLE[0], SAMPLE[1], b"")
        yield Case("refused, full of %d" % filling, refused, areas=longer, buffer=40, filling=filling, told=(32, 0, 0, 0))


# ---- the doubling, after Proposition 1 of 000

PEOPLE = (
    text("S 0 999/O/O/F 2 0/F 2 1/F 0 0/H 1 0/H 2 1/H 2 2/Q 1"),
    text("N 1/N 2/N 2/N 2/E 0 0 1 0/E 1 1 2 0/E 1 1 3 0/E 2 1 1 0/E 3 1 1 0/P 1 2 0 0 7"),
)


def phi(n):
    """The query φ_n: `query`, then `knows` twice for each step, then `name`."""
    knows = [("F", d, 1, 1, 0) for d in range(1, 2 * n - 1)]
    return lines(("F", 0, 0, 0, 0), *knows, ("F", 2 * n - 1, 2, 2, 0))


def doubling():
    for n in range(1, 9):
        told = (0, 0, 19 * 2 ** (n - 1) - 14, 3 * n - 1)
        for call in (SIZE, ANSWER):
            yield Case("doubling %d, call %d" % (n, call), (*PEOPLE, phi(n)), call=call, told=told)
    yield Case("doubling 8, room 2417", (*PEOPLE, phi(8)), room=2417, told=(50, 0, 2418, 23))
    yield Case("doubling 8, room 2418", (*PEOPLE, phi(8)), room=2418, told=(0, 0, 2418, 23))
    yield Case("doubling 9", (*PEOPLE, phi(9)), told=(31, 17, 0, 0))


# ---- graphs in which all are joined to all


def eleven(nested):
    """A root and ten further nodes, each of the eleven joined to all ten; nested list fields over an absent scalar."""
    schema = text("S 0 999/O/O/F 2 1/F 0 0/H 1 0/H 2 0/H 2 1/Q 1")
    edges = [("E", u, 0, v, 0) for u in range(11) for v in range(1, 11)]
    graph = lines(("N", 1), *[("N", 2)] * 10, *edges)
    query = lines(*[("F", d, 0, 0, 0) for d in range(nested)], ("F", nested, 1, 1, 0))
    return schema, graph, query


# A root of type 1 and 31 nodes of type 2, all joined to all by list field 0, of the union of both. Field 1 is an absent scalar
# (2 tokens), field 2 a list that the root has empty (3 tokens). Interface 4 has fields 0 and 1.
CLIQUE = (
    text("S 0 999/O/O/U/I/F 4 1/F 0 0/F 0 1/H 1 0/H 1 1/H 1 2/H 2 0/H 2 1/H 4 0/H 4 1/M 3 1/M 3 2/M 4 1/M 4 2/Q 1"),
    lines(("N", 1), *[("N", 2)] * 31, *[("E", u, 0, v, 0) for u in range(32) for v in range(32)], ("P", 0, 2, 1, 0)),
)


def nested_clique(depth):
    """List fields to a depth, and an absent scalar under the last: its multiplicity at a node is 32^(depth - 1)."""
    return lines(*[("F", d, 0, 0, 0) for d in range(depth)], ("F", depth, 1, 1, 0))


def levels(size):
    """Absent scalars for each depth, with a list field at each depth but the last, whose tokens add up to `size`. A list field has
    3 tokens and 2 for each of its 32 targets, and at each of these the response of the next depth. None where there are none."""
    if size % 2 == 0:
        return [size // 2] if 0 < size // 2 <= 66 else None
    for scalars in range(32):
        inner = size - 67 - 2 * scalars
        if inner >= 64 and inner % 32 == 0:
            deeper = levels(inner // 32)
            if deeper is not None:
                return [scalars, *deeper]
    return None


def query_of_size(size):
    """A query over the clique whose response has exactly this many tokens."""
    odd = size % 2 == 1
    counts = levels(size if odd else size - 3)
    entries = [] if odd else [("F", 0, 2, 2, 0)]
    for depth, scalars in enumerate(counts):
        entries += [("F", depth, 1, 1, 0)] * scalars
        if depth + 1 < len(counts):
            entries.append(("F", depth, 0, 0, 0))
    return lines(*entries)


def large():
    for nested, told in ((5, (0, 0, 455553, 51)), (6, (0, 0, 1000001, 61))):
        yield Case("eleven, %d nested, sized" % nested, eleven(nested), call=SIZE, told=told)
        yield Case("eleven, %d nested" % nested, eleven(nested), told=(50, *told[1:]))
    for depth in (13, 14, 15):
        told = (0, 0, 1000001, 1 + 32 * depth)
        yield Case("multiplicity 2^%d, sized" % (5 * depth - 5), (*CLIQUE, nested_clique(depth)), call=SIZE, told=told)
    yield Case("multiplicity 2^70", (*CLIQUE, nested_clique(15)), told=(50, 0, 1000001, 481))
    for size in (16384, 16385):
        yield Case("size %d" % size, (*CLIQUE, query_of_size(size)))
    for size in (999999, 1000000, 1000001, 1000002, 2**32 - 1, 2**32 + 1, 2**32 + 18, 2**64 - 1, 2**64 + 1, 2**64 + 18):
        texts = (*CLIQUE, query_of_size(size))
        evaluation = reference.first_offence(*texts)[2]
        assert evaluation.length() == size
        yield Case("size %d, sized" % size, texts, call=SIZE)


# ---- texts at the maxima


def longest():
    """A graph of exactly 65,535 bytes, and one of 65,536: values of nine digits, and a last one that fills up."""
    schema, query = text("S 0 999999999/O/F 0 1/H 1 0/Q 1"), text("F 0 255 0 0")
    for length, told in ((65535, (0, 0, 6556, 1)), (65536, (20, 0, 0, 0))):
        graph = b"N\t1\nP\t0\t0\t1\t0" + b"".join(b"\t%d" % (100000000 + 7 * i) for i in range(6551))
        rest = length - len(graph) - 1
        graph += b"\t%d\t%d\n" % (10 ** 4 - 1, 10 ** (rest - 6) - 1)
        assert len(graph) == length
        yield Case("graph of %d bytes" % length, (schema, graph, query), told=told)
    for name, texts, number in (
        ("schema", (b"\n" * 65536, b"", b""), 10),
        ("query", (SAMPLE[0], SAMPLE[1], b"\n" * 65536), 30),
    ):
        yield Case("%s of 65536 bytes" % name, texts, told=(number, 0, 0, 0))


PAIRS = (4, 0, 1, 1, 2, 2, 3, 63, 4)  # a count, and that many pairs of argument and value


def full_schema():
    """A schema at its maxima: type 0 a scalar, 1 to 32 objects, 33 to 62 unions and 63 an interface, all of all objects (992 `M`:
    beside a scalar there is no room for more); of 128 fields objects and interface have the first 31 and the first 16 take all
    arguments. Field 0 is a list of the interface, 1 a list of scalars."""
    types = [("S", 0, 9), *[("O",)] * 32, *[("U",)] * 30, ("I",)]
    fields = [("F", 63, 1), ("F", 0, 1), *[("F", 0, 0)] * 126]
    has = [("H", t, f) for t in (*range(1, 33), 63) for f in range(31)] + [("H", 1, 31)]
    takes = [("G", f, a) for f in range(16) for a in range(64)]
    members = [("M", t, o) for t in range(33, 64) for o in range(1, 33)]
    assert (len(types), len(fields), len(has), len(takes), len(members)) == (64, 128, 1024, 1024, 992)
    return lines(*types, *fields, *[("A", 0)] * 64, *has, *takes, *members, ("Q", 1))


def full_graph():
    """A graph at its maxima: 512 nodes, two edges from each (so that all nodes are met after nine steps), two properties of eight
    values for each, all labels with four pairs but half of the properties."""
    nodes = [("N", 1), *[("N", 2 + i % 31) for i in range(511)]]
    edges = [("E", u, 0, (2 * u + k) % 512, *PAIRS) for u in range(512) for k in (0, 1)]
    bare = [("P", u, 1, 1, 0, *[u % 10] * 8) for u in range(512)]
    paired = [("P", u, 1, 1, 1, 0, 1, *[k for k in range(8)]) for u in range(512)]
    return lines(*bare, *paired, *edges, *nodes)


def worst():
    """The longest work: queries of 256 entries over texts at the maxima."""
    schema, graph = full_schema(), full_graph()
    assert len(graph) <= 65535
    chain = [("F", d, 0, 0, *PAIRS) for d in range(15)]
    leaves = [("F", 15, d % 256, 1, 0) for d in range(241)]
    yield Case("worst, sized", (schema, graph, lines(*chain, *leaves)), call=SIZE)
    conditions = [("T", d, 63) for d in range(9, 14)]
    never = [("T", 14, 1), ("F", 15, 1, 1, 0)]
    yield Case("worst, few tokens", (schema, graph, lines(*chain[:9], *(conditions + never) * 35)))


# ---- the members of types, of which each half of a mask has its first and its last

ENDS = (0, 31, 32, 63)  # the object types at both ends of both halves
SCALAR, ALL, BOTH_LAST, BOTH_FIRST, FACE, ROOT = 1, 2, 3, 4, 5, 6


def ends_schema():
    """64 types: objects but for a scalar, three unions and an interface. The union ALL and the interface have the object types ENDS, one
    union the first of each half, one the last. The root's list field 0 is of the union ALL; field 1 is a scalar of ENDS and the interface."""
    abstract = {SCALAR: ("S", 0, 999), ALL: ("U",), BOTH_LAST: ("U",), BOTH_FIRST: ("U",), FACE: ("I",)}
    types = [abstract.get(t, ("O",)) for t in range(64)]
    has = [("H", ROOT, 0), *[("H", t, 1) for t in (*ENDS, FACE)]]
    members = [("M", t, o) for t in (ALL, FACE) for o in ENDS]
    members += [("M", BOTH_FIRST, 0), ("M", BOTH_FIRST, 32), ("M", BOTH_LAST, 31), ("M", BOTH_LAST, 63)]
    return lines(*types, ("F", ALL, 1), ("F", SCALAR, 0), *has, *members, ("Q", ROOT))


def ends_graph(*others):
    """The root and a node of each of ENDS, at which field 0 leads; then a node of each other type, at which it leads too."""
    targets = (*ENDS, *others)
    edges = [("E", 0, 0, u, 0) for u in range(1, len(targets) + 1)]
    values = [("P", u, 1, 0, 0, 100 + u) for u in range(1, 5)]
    return lines(("N", ROOT), *[("N", t) for t in targets], *values, *edges)


def ends_query(*conditions):
    """Field 0, and in it for each condition the interface's scalar."""
    inner = [entry for t in conditions for entry in (("T", 1, t), ("T", 2, FACE), ("F", 3, t, 1, 0))]
    return lines(("F", 0, 0, 0, 0), *inner)


def own_types(scalars, graph_of=None):
    """64 types: scalars first, the others objects, each with a field of its own that the first object type has and, where there is a
    scalar, a scalar field. A node of each, and an edge to it by its field; `graph_of` tells at which node each edge ends."""
    objects = range(scalars, 64)
    schema = [*[("S", 0, 999)] * scalars, *[("O",) for _ in objects], *[("F", t, 0) for t in objects], *[("F", 0, 0)] * scalars]
    schema += [("H", scalars, f) for f in range(len(objects))] + [("H", t, 63) for t in objects] * scalars + [("Q", scalars)]
    ends = graph_of or list(range(len(objects)))
    graph = [("N", t) for t in objects] + [("E", 0, f, u, 0) for f, u in enumerate(ends)]
    query = [entry for f, t in enumerate(objects) for entry in (("F", 0, f, f, 0), ("T", 1, t), ("F", 2, f, 63, 0))]
    return lines(*schema), lines(*graph), lines(*query)


def members():
    schema = ends_schema()
    for call in (SIZE, ANSWER):
        # at each of four nodes its own type and the interface hold, and two of the unions: four scalars of 2 tokens; met are 8
        # conditions, 4 conditions inside them, and 4 fields
        texts = (schema, ends_graph(), ends_query(*ENDS, FACE, ALL, BOTH_FIRST, BOTH_LAST))
        yield Case("members at both ends, call %d" % call, texts, call=call, told=(0, 0, 3 + 4 * (2 + 4 * 2), 1 + 4 * (8 + 4 + 4)))
        # an object type that none of the four nodes is of
        for t in (ROOT, 30, 33, 62):
            texts = (schema, ends_graph(), ends_query(t))
            yield Case("no member %d, call %d" % (t, call), texts, call=call, told=(0, 0, 3 + 4 * 2, 1 + 4))
    for t in (7, 30, 33, 62):
        texts = (schema, ends_graph(t), ends_query(ALL))
        yield Case("edge to a node of type %d" % t, texts, told=(24, 6 + 4 + 5, 0, 0))
    # 64 object types: there is no scalar, so that no query is answered; the graph is judged before it
    texts = own_types(0)
    yield Case("64 object types", (texts[0], texts[1], b""), told=(32, 0, 0, 0))
    for end in (0, 31, 32, 62):
        graph_of = [63 if f == end else f for f in range(64)]
        yield Case("64 object types, edge %d astray" % end, (texts[0], own_types(0, graph_of)[1], b""), told=(24, 64 + end + 1, 0, 0))
    # 63 and a scalar, which is absent everywhere: each field has 3 tokens and 2 for the scalar
    yield Case("63 object types", own_types(1), told=(0, 0, 63 * 5, 63 * 3))


# ---- refusals that neither the vectors nor 01's samples have


def maxima():
    """21: more nodes, edges, properties or values than the maxima; the text at the maximum is refused for another reason."""
    schema, query = SAMPLE[0], SAMPLE[2]
    for name, record, most, after in (
        ("nodes", ("N", 1), 512, (27, 0)), ("edges", ("E", 0, 0, 0, 0), 1024, (22, 1)),
        ("properties", ("P", 0, 1, 0, 0, 5), 1024, (22, 1)),
    ):
        yield Case("%d %s" % (most + 1, name), (schema, lines(*[record] * (most + 1)), query), told=(21, most + 1, 0, 0))
        yield Case("%d %s" % (most, name), (schema, lines(*[record] * most), query), told=(*after, 0, 0))
    full = ("P", 1, 2, 1, 0, *[5] * 8192)
    yield Case("8193 values", (schema, lines(("N", 1), full + (5,)), query), told=(21, 2, 0, 0))
    yield Case("8192 values", (schema, lines(("N", 1), ("N", 2), full), query), told=(0, 0, 3, 1))


# ---- number and place worked out by hand


def by_hand():
    for i, (number, place, texts) in enumerate(hand_cases.CASES, 1):
        case = Case("by hand %d" % i, texts, call=SIZE)
        assert case.expected()[0][:2] == (number, place), (case.name, number, place, case.expected()[0])
        yield case


def judged():
    """The judgements that were worked out by hand."""
    for full, shortened, told in judging.WORKED_OUT + judging.LARGE:
        yield Judgement("judged %s: %s to %s" % (told, full[:40], shortened[:40]), full, shortened, told)


GROUPS = (vectors, samples, rooms, areas, doubling, large, longest, worst, members, maxima, by_hand, judged)


def main(only_list):
    cases = [case for group in GROUPS for case in group()]
    written = [case.line(i) for i, case in enumerate(cases, 1)]
    if only_list:
        for case, line in zip(cases, written):
            print(line.rstrip("\n"), case.name, sep="\t")
        return
    folder = os.path.join(REPOSITORY, "crates", "cases")
    with open(os.path.join(folder, "stdin"), "wb") as file:
        file.write(b"%010d\n" % len(cases) + b"".join(case.framed() for case in cases))
    with open(os.path.join(folder, "stdout"), "w") as file:
        file.write("".join(written))
    print("%d cases" % len(cases))


if __name__ == "__main__":
    if sys.argv[1:] not in ([], ["--list"]):
        sys.exit(__doc__)
    main(sys.argv[1:] == ["--list"])
