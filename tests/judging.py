"""Judging shortened responses: what 02 (xi) asks, by making all that can be made of the full one, and cases worked out by hand.

A sequence is written in words: `L3` is label 3, `N` null, a number a value, brackets themselves, and `#n` the number n itself, whatever
it stands for. Each case says what is right, and why where that is not plain: `yes`, `no`, 71 or 72.
"""
from itertools import product

LABELS = 1_000_000_000
MARKS = {"{": 2_000_000_001, "}": 2_000_000_002, "[": 2_000_000_003, "]": 2_000_000_004, "N": 2_000_000_005}
MOST_TOKENS = 16_384
MOST_OPEN = 16
MOST_RESULTS = 100_000  # enumerated; where there would be more, what is right is told by hand alone


def tokens(words):
    """The numbers that words stand for."""
    return [number(word) for word in words.split()]


def number(word):
    if word in MARKS:
        return MARKS[word]
    if word[0] == "L":
        return LABELS + int(word[1:])
    return int(word.lstrip("#"))


class NoResponse(Exception):
    """The sequence is not a response by Definition 5."""


class Reader:
    """Reads a sequence into fields: pairs of a label and a content, which is ("is", tokens), ("object", fields) or ("list", objects)."""

    def __init__(self, sequence):
        self.rest = list(reversed(sequence))
        self.open = 0

    def next(self):
        if not self.rest:
            raise NoResponse
        return self.rest.pop()

    def sees(self, mark):
        return bool(self.rest) and self.rest[-1] == MARKS[mark]

    def wants(self, mark):
        if self.next() != MARKS[mark]:
            raise NoResponse

    def fields(self):
        found = []
        while self.rest and LABELS <= self.rest[-1] <= LABELS + 255:
            found.append((self.next(), self.content()))
        return found

    def content(self):
        if self.sees("{"):
            return "object", self.braced()
        if self.sees("["):
            return self.bracketed()
        one = self.next()
        if one >= LABELS and one != MARKS["N"]:
            raise NoResponse
        return "is", (one,)

    def braced(self):
        self.wants("{")
        self.open += 1
        if self.open > MOST_OPEN:
            raise NoResponse
        found = self.fields()
        self.wants("}")
        self.open -= 1
        return found

    def bracketed(self):
        self.wants("[")
        if self.rest and self.rest[-1] < LABELS:
            values = [MARKS["["]]
            while self.rest and self.rest[-1] < LABELS:
                values.append(self.next())
            self.wants("]")
            return "is", (*values, MARKS["]"])
        objects = []
        while self.sees("{"):
            objects.append(self.braced())
        self.wants("]")
        return "list", objects


def read(sequence):
    """The fields of a sequence; raises NoResponse."""
    reader = Reader(sequence)
    fields = reader.fields()
    if reader.rest or len(sequence) > MOST_TOKENS:
        raise NoResponse
    return fields


def is_response(sequence):
    try:
        read(sequence)
    except NoResponse:
        return False
    return True


def ways(fields):
    """In how many ways it can be chosen what is kept."""
    count = 1
    for _, (kind, inside) in fields:
        of_content = 1
        if kind == "object":
            of_content = ways(inside)
        if kind == "list":
            for one in inside:
                of_content *= 1 + ways(one)
        count *= 1 + of_content
    return count


def kept(fields):
    """All that fields can become."""
    choices = [[()] + [(label, *content) for content in contents(one)] for label, one in fields]
    return {sum(choice, ()) for choice in product(*choices)}


def contents(content):
    """All that a content can become where its field is kept."""
    kind, inside = content
    if kind == "is":
        return {inside}
    if kind == "object":
        return {(MARKS["{"], *one, MARKS["}"]) for one in kept(inside)}
    choices = [[()] + [(MARKS["{"], *made, MARKS["}"]) for made in kept(one)] for one in inside]
    return {(MARKS["["], *sum(choice, ()), MARKS["]"]) for choice in product(*choices)}


def judge(full, shortened):
    """`yes`, `no`, 71 or 72; None where all that can be made of the full sequence would be too much."""
    if not is_response(full):
        return 71
    if not is_response(shortened):
        return 72
    fields = read(full)
    if ways(fields) > MOST_RESULTS:
        return None
    return "yes" if tuple(shortened) in kept(fields) else "no"


SAMPLE = "L0 [ { L9 17 L2 [ 5 6 ] } { L9 18 L3 N } ]"  # 01's sample answer

# full, shortened, what is right
WORKED_OUT = [
    # whole fields and whole objects of a list
    (SAMPLE, SAMPLE, "yes"),
    (SAMPLE, "", "yes"),
    (SAMPLE, "L0 [ ]", "yes"),
    (SAMPLE, "L0 [ { } { } ]", "yes"),
    (SAMPLE, "L0 [ { } { } { } ]", "no"),  # two objects do not become three
    (SAMPLE, "L0 [ { L9 18 } ]", "yes"),
    (SAMPLE, "L0 [ { L9 17 } { L3 N } ]", "yes"),
    (SAMPLE, "L0 [ { L2 [ 5 6 ] } ]", "yes"),
    (SAMPLE, "L0 [ { L3 N } ]", "yes"),
    (SAMPLE, "L0 { L9 17 }", "no"),  # a list stays a list
    (SAMPLE, "L9 17", "no"),  # a field does not leave its object
    # order is kept
    (SAMPLE, "L0 [ { L9 18 } { L9 17 } ]", "no"),
    (SAMPLE, "L0 [ { L2 [ 5 6 ] L9 17 } { L9 18 } ]", "no"),
    ("L1 5 L2 6", "L2 6 L1 5", "no"),
    ("L1 5 L2 6 L1 5", "L2 6 L1 5", "yes"),  # the first field is struck out
    # values, null and lists of values are never altered
    ("L0 5", "L0 6", "no"),
    ("L0 5", "L0 N", "no"),
    ("L0 N", "L0 5", "no"),
    ("L0 N", "L0 { }", "no"),
    ("L0 N", "L0 [ ]", "no"),
    ("L0 N", "L0 N", "yes"),
    ("L0 [ 5 6 ]", "L0 [ 5 6 ]", "yes"),
    ("L0 [ 5 6 ]", "L0 [ 5 ]", "no"),
    ("L0 [ 5 6 ]", "L0 [ 6 ]", "no"),
    ("L0 [ 5 6 ]", "L0 [ 6 5 ]", "no"),
    ("L0 [ 5 6 ]", "L0 [ 5 6 6 ]", "no"),
    ("L0 [ 5 6 ]", "L0 5", "no"),
    ("L0 5", "L0 [ 5 ]", "no"),
    ("L0 [ 5 6 ] L0 [ 5 ]", "L0 [ 5 ]", "yes"),  # the second list
    # `[ ]` is a list without values, or one without objects
    ("L0 [ { } ]", "L0 [ ]", "yes"),
    ("L0 [ ]", "L0 [ ]", "yes"),
    ("L0 [ 5 ]", "L0 [ ]", "no"),
    ("L0 [ ]", "L0 [ 5 ]", "no"),
    ("L0 [ ]", "L0 [ { } ]", "no"),
    ("L0 [ { } ]", "L0 [ { } ]", "yes"),
    ("L0 [ 5 ] L0 [ { } ]", "L0 [ ]", "yes"),  # from the second
    # only objects of a list are struck out
    ("L0 { L1 5 }", "L0 { }", "yes"),
    ("L0 { L1 5 }", "", "yes"),
    ("L0 { L1 5 }", "L0 N", "no"),
    ("L0 { L1 5 }", "L0 [ ]", "no"),
    ("L0 { L1 5 }", "L1 5", "no"),
    ("L0 { }", "L0 { }", "yes"),
    ("L0 { }", "L0 { L1 5 }", "no"),
    ("L0 { L1 5 }", "L0 [ { L1 5 } ]", "no"),
    # one label several times: the first that will do
    ("L0 { L1 5 } L0 { L1 5 L2 6 }", "L0 { L2 6 }", "yes"),
    ("L0 { L1 5 } L0 { L1 5 L2 6 }", "L0 { } L0 { L2 6 }", "yes"),
    ("L0 { L1 5 } L0 { L1 5 L2 6 }", "L0 { L2 6 } L0 { }", "no"),
    ("L0 5 L0 6 L0 7", "L0 6", "yes"),
    ("L0 5 L0 6 L0 7", "L0 5 L0 7", "yes"),
    ("L0 5 L0 6 L0 7", "L0 7 L0 6", "no"),
    ("L0 5 L0 5", "L0 5 L0 5", "yes"),
    ("L0 5", "L0 5 L0 5", "no"),
    ("L0 [ { L1 1 } { L1 2 } { L1 1 L2 3 } ]", "L0 [ { L2 3 } ]", "yes"),
    ("L0 [ { L1 1 } { L1 2 } { L1 1 L2 3 } ]", "L0 [ { L1 1 } { L1 1 } ]", "yes"),
    ("L0 [ { L1 1 } { L1 2 } { L1 1 L2 3 } ]", "L0 [ { L1 2 } { L1 2 } ]", "no"),
    # nested
    ("L0 { L1 { L2 { L3 5 } } L1 6 }", "L0 { L1 6 }", "yes"),
    ("L0 { L1 { L2 { L3 5 } } L1 6 }", "L0 { L1 { } L1 6 }", "yes"),
    ("L0 { L1 { L2 { L3 5 } } L1 6 }", "L0 { L1 { L3 5 } }", "no"),
    ("L0 [ { L1 [ { L2 1 } { L2 2 } ] } { L1 [ { L2 3 } ] } ]", "L0 [ { L1 [ { L2 2 } ] } { L1 [ ] } ]", "yes"),
    ("L0 [ { L1 [ { L2 1 } { L2 2 } ] } { L1 [ { L2 3 } ] } ]", "L0 [ { L1 [ { L2 3 } { L2 2 } ] } ]", "no"),
    ("L0 [ { L1 [ { L2 1 } { L2 2 } ] } { L1 [ { L2 3 } ] } ]", "L0 [ { L1 [ { L2 2 } { L2 3 } ] } ]", "no"),  # of two lists
    # empty sequences
    ("", "", "yes"),
    ("", "L0 5", "no"),
    # what is no response: 71
    ("5", "", 71),
    ("L0", "", 71),
    ("L0 5 6", "", 71),
    ("L0 L1 5", "", 71),
    ("L0 { L1 5", "", 71),
    ("L0 { L1 5 ] }", "", 71),
    ("L0 { } }", "", 71),
    ("}", "", 71),
    ("{ L0 5 }", "", 71),  # the fields at the top have no braces
    ("[ ]", "", 71),
    ("L0 ]", "", 71),
    ("L0 [ 5", "", 71),
    ("L0 [ N ]", "", 71),
    ("L0 [ [ ] ]", "", 71),
    ("L0 [ 5 { } ]", "", 71),
    ("L0 [ { } 5 ]", "", 71),
    ("L0 [ L1 5 ]", "", 71),
    ("L0 [ } ]", "", 71),
    ("L0 { 5 }", "", 71),
    ("L0 { N }", "", 71),
    ("L0 { { } }", "", 71),
    ("L0 { [ ] }", "", 71),
    ("N", "", 71),
    # the bounds of values, labels and marks
    ("L0 0", "L0 0", "yes"),
    ("L0 999999999", "L0 999999999", "yes"),
    ("L255 5", "L255 5", "yes"),
    ("L256 5", "", 71),
    ("L0 #1000000256", "", 71),
    ("#999999999 5", "", 71),  # a value where a label should stand
    ("L0 #2000000000", "", 71),
    ("L0 #2000000006", "", 71),
    ("L0 #4294967295", "", 71),
    ("L0 [ #2000000006 ]", "", 71),
    ("L0 #1999999999", "", 71),
    # the same of the second: 72, and 71 first
    ("", "L0", 72),
    ("", "L256 5", 72),
    (SAMPLE, "L0 [ { L9 17", 72),
    (SAMPLE, "5", 72),
    (SAMPLE, "L0 [ 5 { } ]", 72),
    ("5", "6", 71),
    ("L0", "L0", 71),
]


def nested(depth, inside=""):
    """So many objects, one in the other."""
    return " ".join(["L0 {"] * depth + [inside] + ["}"] * depth)


def rows_nested(depth, inside=""):
    """The same, each of a list."""
    return " ".join(["L0 [ {"] * depth + [inside] + ["} ]"] * depth)


def pairs_of(count):
    """So many fields of two tokens."""
    return " ".join("L%d %d" % (n % 256, n) for n in range(count))


def values(count):
    return "L0 [ " + " ".join(["7"] * count) + " ]"


# What is right is told; 16 `{` may be open and 17 may not, and 16,384 tokens are a response and 16,385 are not.
LARGE = [
    (nested(16), nested(16), "yes"),
    (nested(16), nested(3), "yes"),
    (nested(17), "", 71),
    ("", nested(17), 72),
    (nested(16, "L1 5"), nested(16, "L1 5"), "yes"),
    (nested(16, "L1 { }"), "", 71),
    (nested(15) + " " + nested(16), nested(16), "yes"),
    (rows_nested(16), rows_nested(16), "yes"),
    (rows_nested(16), rows_nested(15), "yes"),
    (rows_nested(16, "L1 [ 5 ]"), rows_nested(16, "L1 [ 5 ]"), "yes"),  # 33 brackets are open
    (rows_nested(16, "L1 [ ]"), rows_nested(16, "L1 [ ]"), "yes"),
    (rows_nested(16, "L1 [ 5 ]"), rows_nested(16, "L1 [ 6 ]"), "no"),
    (rows_nested(17), "", 71),
    (rows_nested(16, "L1 [ { } ]"), "", 71),
    (pairs_of(8192), pairs_of(8192), "yes"),
    (pairs_of(8192), "L255 8191", "yes"),  # the last of 16,384 tokens
    (pairs_of(8193), "", 71),
    ("", pairs_of(8193), 72),
    (values(16381), values(16381), "yes"),
    (values(16382), "", 71),
    ("", values(16382), 72),
    (" ".join(["L0 5"] * 8192), " ".join(["L0 5"] * 8191), "yes"),
]
