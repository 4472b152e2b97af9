"""Cases worked out by hand from 01 (and the readings of docs/DECISIONS.md) before any program ran: number and place that the
checks of the three texts give, at least one for each refusal number and for each way in which a text breaks its form. The sample,
and the cases marked P, stand in 01 with their answers. tests/make_cases.py holds tests/reference.py to them, and the program
`cases` runs them with the rest.

A case is number, place, and the three texts. `schema` has an empty graph and query. `graph` and `query` stand over one schema that
has each kind of thing: types 0 a scalar of 0 to 999, 1 to 3 objects, 4 an interface (of 2 and 3), 5 a union (of 3); fields 0 a list
of 4, 1 a scalar, 2 a list of scalars, 3 a 2, 4 a 5; arguments 0 and 1. Type 1, the query type, has all five fields; 2, 3 and 4 have
field 1. Fields 0 and 3 take argument 0, field 1 both. `query` has a graph of one node.
"""

SCHEMA = (
    b"S\t0\t999\nO\nO\nO\nI\nU\nF\t4\t1\nF\t0\t0\nF\t0\t1\nF\t2\t0\nF\t5\t0\nA\t0\nA\t0\nH\t1\t0\nH\t1\t1\n"
    b"H\t1\t2\nH\t1\t3\nH\t1\t4\nH\t2\t1\nH\t3\t1\nH\t4\t1\nG\t0\t0\nG\t1\t0\nG\t1\t1\nG\t3\t0\nM\t4\t2\n"
    b"M\t4\t3\nM\t5\t3\nQ\t1\n"
)

SAMPLE = tuple(
    text.replace(b" ", b"\t").replace(b"/", b"\n")
    for text in (
        b"S 0 999/O/O/O/I/F 4 1/F 0 0/F 0 1/F 0 0/H 1 0/H 2 1/H 2 2/H 3 1/H 3 3/H 4 1/M 4 2/M 4 3/Q 1/",
        b"N 1/N 2/N 3/E 0 0 1 0/E 0 0 2 0/P 1 1 0 0 17/P 1 2 1 0 5 6/P 2 1 0 0 18/",
        b"F 0 0 0 0/F 1 9 1 0/T 1 2/F 2 2 2 0/T 1 3/F 2 3 3 0/",
    )
)


def texts(number, place, schema, graph, query):
    return number, place, (schema, graph, query)


def schema(number, place, text):
    return texts(number, place, text, b"", b"")


def graph(number, place, text):
    return texts(number, place, SCHEMA, text, b"")


def query(number, place, text):
    return texts(number, place, SCHEMA, b"N\t1\n", text)


CASES = [

    # 01's sample: accepted. Then changes of its graph and its query that 01 lists.
    texts(0, 0, SAMPLE[0], SAMPLE[1], SAMPLE[2]),  # P1, the sample
    texts(0, 0, SAMPLE[0], SAMPLE[1], b"T\t0\t4\nF\t1\t1\t1\t0\n"),  # P4
    texts(34, 1, SAMPLE[0], SAMPLE[1], b"F\t0\t0\t0\t0\n"),  # P5
    texts(34, 1, SAMPLE[0], SAMPLE[1], b"F\t0\t1\t1\t0\n"),  # P6
    texts(32, 0, SAMPLE[0], SAMPLE[1], b""),  # P7
    texts(
        26, 6,
        SAMPLE[0],
        b"N\t1\nN\t2\nN\t3\nE\t0\t0\t1\t0\nE\t0\t0\t2\t0\nE\t0\t0\t1\t0\nP\t1\t1\t0\t0\t17\nP\t1\t2\t1\t0\t5\t6\nP\t2\t1\t0\t0\t18\n",
        SAMPLE[2],
    ),  # P12, line 4 repeated as line 6
    texts(
        23, 9,
        SAMPLE[0],
        b"N\t1\nN\t2\nN\t3\nE\t0\t0\t1\t0\nE\t0\t0\t2\t0\nP\t1\t1\t0\t0\t17\nP\t1\t2\t1\t0\t5\t6\nP\t2\t1\t0\t0\t18\nP\t2\t2\t1\t0\t5\n",
        SAMPLE[2],
    ),  # an added last line

    # The order of the texts: the schema's checks, then the graph's, then the query's.
    texts(10, 1, b"X\n", b"X\n", b"X\n"),  # all three break their form
    texts(16, 0, b"O\n", b"X\n", b"X\n"),  # 16 comes before 20
    texts(20, 1, b"O\nQ\t0\n", b"X\n", b"X\n"),  # 20 comes before 30
    texts(27, 0, b"O\nQ\t0\n", b"", b"X\n"),  # 27 comes before 30
    texts(30, 1, b"O\nQ\t0\n", b"N\t0\n", b"X\n"),  # the query alone breaks its form

    # The length of a text is tested before its lines: 65,536 newlines are too long, at place 0; one fewer break the form at
    # line 1.
    schema(10, 0, b"\n" * 65536),
    schema(10, 1, b"\n" * 65535),
    graph(20, 0, b"\n" * 65536),
    graph(20, 1, b"\n" * 65535),
    query(30, 0, b"\n" * 65536),
    query(30, 1, b"\n" * 65535),

    # Refusal 10, lines and letters.
    schema(10, 1, b"\n"),  # an empty line
    schema(10, 2, b"O\n\nQ\t0\n"),  # an empty line between two others
    schema(10, 3, b"O\nQ\t0\n\n"),  # two newlines at the end make an empty line
    schema(10, 2, b"O\nQ\t0"),  # a last line without newline
    schema(10, 2, b"O\nX\nQ\t0"),  # an earlier broken line comes first
    schema(10, 1, b"X\n"),  # a letter that no text uses
    schema(10, 2, b"O\nN\t0\n"),  # a letter of the graph
    schema(10, 2, b"O\nT\t0\t0\n"),  # a letter of the query
    schema(10, 1, b"o\n"),  # a lower case letter
    schema(10, 1, b"OO\n"),  # two letters
    schema(10, 1, b"0\n"),  # a number where the letter stands
    schema(10, 1, b"\tO\n"),  # a tab before the letter
    schema(10, 1, b"O\t\n"),  # a tab at the end
    schema(10, 1, b" O\n"),  # a space before the letter
    schema(10, 1, b"O \n"),  # a space at the end
    schema(10, 1, b"S 0 9\n"),  # spaces for tabs
    schema(10, 1, b"S\t0\t 9\n"),  # a space before a number
    schema(10, 1, b"S\t0\t9 \n"),  # a space after a number
    schema(10, 1, b"O\r\n"),  # a carriage return
    schema(10, 1, b"O\x00\n"),  # a byte 0 after the letter
    schema(10, 1, b"\x00\n"),  # a byte 0 alone
    schema(10, 2, b"O\n\x00"),  # a byte 0 after the last newline
    schema(10, 1, b"S\t0\t\x00\n"),  # a byte 0 for a number
    schema(10, 1, b"\xff\n"),  # a byte 255

    # Refusal 10, the number of fields: one missing and one extra for every letter.
    schema(10, 1, b"S\t0\n"),  # S, one missing
    schema(10, 1, b"S\t0\t9\t9\n"),  # S, one extra
    schema(10, 1, b"S\n"),  # S, both missing
    schema(10, 1, b"O\t0\n"),  # O, one extra
    schema(10, 1, b"I\t0\n"),  # I, one extra
    schema(10, 1, b"U\t0\n"),  # U, one extra
    schema(10, 1, b"F\t0\n"),  # F, one missing
    schema(10, 1, b"F\t0\t0\t0\n"),  # F, one extra
    schema(10, 1, b"A\n"),  # A, one missing
    schema(10, 1, b"A\t0\t0\n"),  # A, one extra
    schema(10, 1, b"H\t0\n"),  # H, one missing
    schema(10, 1, b"H\t0\t0\t0\n"),  # H, one extra
    schema(10, 1, b"G\t0\n"),  # G, one missing
    schema(10, 1, b"G\t0\t0\t0\n"),  # G, one extra
    schema(10, 1, b"M\t0\n"),  # M, one missing
    schema(10, 1, b"M\t0\t0\t0\n"),  # M, one extra
    schema(10, 1, b"Q\n"),  # Q, one missing
    schema(10, 1, b"Q\t0\t0\n"),  # Q, one extra
    schema(10, 1, b"S\t\t0\t9\n"),  # two tabs before a number
    schema(10, 1, b"S\t0\t\t9\n"),  # two tabs between numbers
    schema(10, 1, b"S\t\t9\n"),  # two tabs, and an empty field for the first number
    schema(10, 1, b"S\t0\t\n"),  # an empty field for the last number
    schema(10, 1, b"S\t0\t9\t\n"),  # a tab after the last number

    # Refusal 10, numbers; the lines that are sound in form go on to 16, as there is no Q, or to 12.
    schema(10, 1, b"S\t00\t9\n"),  # a needless zero before 0
    schema(10, 1, b"S\t0\t09\n"),  # a needless zero before 9
    schema(16, 0, b"S\t0\t0\n"),  # 0 itself has no needless zero
    schema(16, 0, b"S\t0\t10\n"),  # a zero at the end is needed
    schema(16, 0, b"S\t0\t999999999\n"),  # the largest number
    schema(10, 1, b"S\t0\t1000000000\n"),  # one above the largest number
    schema(10, 1, b"S\t0\t0000000001\n"),  # too many digits, of a small number
    schema(10, 1, b"S\t0\t4294967296\n"),  # 2^32
    schema(10, 1, b"S\t0\t4294967305\n"),  # 2^32 + 9
    schema(10, 1, b"S\t0\t18446744073709551625\n"),  # 2^64 + 9
    schema(10, 1, b"S\t0\t-1\n"),  # a minus sign
    schema(10, 1, b"S\t0\t+1\n"),  # a plus sign
    schema(10, 1, b"S\t0\t1a\n"),  # a letter in a number
    schema(10, 1, b"S\t0\t1.5\n"),  # a point in a number
    schema(10, 1, b"S\t0\t1/2\n"),  # the byte below the digits
    schema(10, 1, b"S\t0\t1:\n"),  # the byte above the digits
    schema(10, 1, b"F\t0\t2\n"),  # a list mark that is not 0 or 1
    schema(12, 1, b"F\t0\t1\n"),  # list mark 1, of a type that is not declared
    schema(10, 3, b"Q\t7\nO\nX\n"),  # form is tested over the whole text before 12

    # Refusal 12. References may point forward.
    schema(12, 1, b"S\t5\t4\n"),  # low above high
    schema(16, 0, b"S\t4\t4\n"),  # low equal to high is fine
    schema(12, 1, b"F\t0\t0\n"),  # F of no type
    schema(12, 2, b"S\t0\t1\nF\t1\t0\n"),  # F of the type after the last
    schema(12, 1, b"A\t0\n"),  # A of no type
    schema(12, 2, b"O\nA\t0\n"),  # A of an object
    schema(12, 2, b"I\nA\t0\n"),  # A of an interface
    schema(12, 2, b"U\nA\t0\n"),  # A of a union
    schema(12, 2, b"O\nH\t0\t0\n"),  # H with no field
    schema(12, 3, b"S\t0\t1\nF\t0\t0\nH\t1\t0\n"),  # H on no type
    schema(12, 3, b"S\t0\t1\nF\t0\t0\nH\t0\t0\n"),  # H on a scalar
    schema(12, 4, b"U\nS\t0\t1\nF\t1\t0\nH\t0\t0\n"),  # H on a union
    schema(12, 3, b"S\t0\t1\nF\t0\t0\nG\t0\t0\n"),  # G with no argument
    schema(12, 3, b"S\t0\t1\nA\t0\nG\t0\t0\n"),  # G on no field
    schema(12, 1, b"M\t0\t0\n"),  # M of no type
    schema(12, 2, b"U\nM\t0\t1\n"),  # M with no type
    schema(12, 3, b"O\nO\nM\t0\t1\n"),  # M of an object
    schema(12, 3, b"S\t0\t1\nO\nM\t0\t1\n"),  # M of a scalar
    schema(12, 3, b"U\nS\t0\t1\nM\t0\t1\n"),  # M with a scalar
    schema(12, 3, b"U\nI\nM\t0\t1\n"),  # M with an interface
    schema(12, 3, b"I\nU\nM\t0\t1\n"),  # M with a union
    schema(12, 1, b"Q\t0\n"),  # Q of no type
    schema(12, 2, b"I\nQ\t0\n"),  # Q of an interface
    schema(12, 2, b"U\nQ\t0\n"),  # Q of a union
    schema(12, 2, b"S\t0\t1\nQ\t0\n"),  # Q of a scalar
    schema(12, 3, b"O\nQ\t0\nQ\t1\n"),  # a second Q is tested too
    schema(27, 0, b"Q\t0\nO\n"),  # Q points forward: accepted, and the graph is empty
    schema(12, 3, b"H\t0\t0\nH\t0\t0\nQ\t7\nO\nS\t0\t1\nF\t1\t0\n"),  # 12 over the whole text before 13

    # Refusals 13 to 16.
    schema(13, 5, b"S\t0\t1\nO\nF\t0\t0\nH\t1\t0\nH\t1\t0\n"),  # the same H twice
    schema(13, 5, b"S\t0\t1\nA\t0\nF\t0\t0\nG\t0\t0\nG\t0\t0\n"),  # the same G twice
    schema(13, 4, b"U\nO\nM\t0\t1\nM\t0\t1\n"),  # the same M twice
    schema(13, 4, b"U\nO\nM\t0\t1\nM\t0\t1\nM\t0\t1\n"),  # the same M three times: the second line
    schema(27, 0, b"O\nS\t0\t1\nA\t1\nF\t1\t0\nH\t0\t0\nG\t0\t0\nQ\t0\n"),  # an H and a G of equal numbers are two records
    schema(14, 6, b"I\nO\nS\t0\t1\nF\t2\t0\nH\t0\t0\nM\t0\t1\n"),  # an interface's field that the object lacks
    schema(14, 1, b"M\t0\t1\nI\nO\nS\t0\t1\nF\t2\t0\nH\t0\t0\n"),  # the M line, though it stands before the H
    schema(14, 9, b"I\nO\nS\t0\t1\nF\t2\t0\nF\t2\t0\nH\t0\t0\nH\t0\t1\nH\t1\t0\nM\t0\t1\n"),  # one field of two is missing
    schema(27, 0, b"I\nO\nS\t0\t1\nF\t2\t0\nH\t0\t0\nH\t1\t0\nM\t0\t1\nQ\t1\n"),  # the object has the field
    schema(14, 7, b"U\nI\nO\nS\t0\t1\nF\t3\t0\nH\t1\t0\nM\t1\t2\n"),  # 14 comes before 15
    schema(15, 2, b"O\nU\nQ\t0\n"),  # a union with no object
    schema(15, 3, b"O\nU\nU\nM\t1\t0\nQ\t0\n"),  # the second union has none
    schema(15, 2, b"O\nU\n"),  # 15 comes before 16
    schema(27, 0, b"O\nI\nQ\t0\n"),  # an interface with no object is fine
    schema(16, 0, b""),  # an empty text
    schema(16, 0, b"O\n"),  # no Q
    schema(16, 0, b"O\nQ\t0\nQ\t0\n"),  # two equal Q: 16, and not 13
    schema(16, 0, b"O\nO\nQ\t0\nQ\t1\n"),  # two unequal Q

    # Refusal 20, lines, letters and numbers.
    graph(20, 1, b"\n"),  # an empty line
    graph(20, 2, b"N\t1\n\nN\t1\n"),  # an empty line between two others
    graph(20, 1, b"N\t1"),  # a last line without newline
    graph(20, 1, b"X\n"),  # a letter that no text uses
    graph(20, 1, b"O\n"),  # a letter of the schema
    graph(20, 1, b"T\t0\t1\n"),  # a letter of the query
    graph(20, 1, b"n\t1\n"),  # a lower case letter
    graph(20, 1, b"NN\t1\n"),  # two letters
    graph(20, 1, b"\tN\t1\n"),  # a tab before the letter
    graph(20, 1, b"N 1\n"),  # a space for a tab
    graph(20, 1, b"N\t1 \n"),  # a space at the end
    graph(20, 1, b"N\t1\x00\n"),  # a byte 0
    graph(20, 1, b"N\t1\r\n"),  # a carriage return
    graph(20, 1, b"N\t\t1\n"),  # two tabs
    graph(20, 1, b"N\t1\t\n"),  # a tab at the end
    graph(20, 1, b"N\t01\n"),  # a needless zero
    graph(20, 1, b"N\t1000000000\n"),  # a number that is too large
    graph(22, 1, b"N\t999999999\n"),  # the largest number is sound in form
    graph(20, 1, b"P\t0\t1\t0\t0\t1000000000\n"),  # a value that is too large
    graph(20, 1, b"P\t0\t2\t1\t0\t5\t06\n"),  # a needless zero in the last value
    graph(20, 1, b"P\t0\t2\t1\t0\t5\t6\t\n"),  # a tab after the last value
    graph(20, 1, b"P\t0\t2\t1\t0\t5\t\t6\n"),  # an empty value

    # Refusal 20, the number of fields, list marks and arguments. The base schema has one scalar of 0 to 999.
    graph(20, 1, b"N\n"),  # N, one missing
    graph(20, 1, b"N\t1\t1\n"),  # N, one extra
    graph(20, 1, b"E\t0\t0\t1\n"),  # E without n
    graph(20, 1, b"E\t0\t0\n"),  # E without target
    graph(20, 1, b"E\t0\t0\t1\t0\t5\n"),  # E, n 0 and one number after it
    graph(20, 1, b"E\t0\t0\t1\t0\t0\t5\n"),  # E, n 0 and a pair after it
    graph(20, 1, b"E\t0\t0\t1\t1\n"),  # E, n 1 and no pair
    graph(20, 1, b"E\t0\t0\t1\t1\t0\n"),  # E, n 1 and half a pair
    graph(20, 1, b"E\t0\t0\t1\t1\t0\t5\t6\n"),  # E, n 1 and one number too many
    graph(20, 1, b"E\t0\t0\t1\t2\t0\t5\n"),  # E, n 2 and one pair
    graph(20, 1, b"E\t0\t0\t1\t5\t0\t1\t1\t1\t2\t1\t3\t1\t4\t1\n"),  # E, n 5 with five pairs
    graph(22, 1, b"E\t0\t0\t1\t4\t0\t1\t1\t1\t2\t1\t3\t1\n"),  # E, n 4 is sound in form
    graph(20, 1, b"E\t0\t0\t1\t2\t0\t5\t0\t6\n"),  # E, equal argument numbers
    graph(20, 1, b"E\t0\t0\t1\t2\t1\t5\t0\t6\n"),  # E, argument numbers that fall
    graph(20, 1, b"E\t0\t0\t1\t3\t0\t5\t2\t6\t1\t7\n"),  # E, the third argument number is too low
    graph(20, 1, b"P\t0\t1\t0\n"),  # P without n
    graph(20, 1, b"P\t0\t1\t2\t0\t5\n"),  # P, a list mark that is not 0 or 1
    graph(20, 1, b"P\t0\t1\t0\t0\n"),  # P, list 0 and no value
    graph(20, 1, b"P\t0\t1\t0\t0\t5\t6\n"),  # P, list 0 and two values
    graph(20, 1, b"P\t0\t1\t0\t1\t0\t5\n"),  # P, list 0 with a pair and no value
    graph(20, 1, b"P\t0\t1\t0\t1\t0\t5\t6\t7\n"),  # P, list 0 with a pair and two values
    graph(20, 1, b"P\t0\t2\t1\t1\t0\n"),  # P, list 1 and half a pair
    graph(20, 1, b"P\t0\t2\t1\t2\t0\t5\t1\n"),  # P, list 1, n 2 and a pair and a half
    graph(20, 1, b"P\t0\t2\t1\t5\t0\t1\t1\t1\t2\t1\t3\t1\t4\t1\n"),  # P, n 5 with five pairs
    graph(20, 1, b"P\t0\t2\t1\t2\t1\t5\t0\t6\n"),  # P, argument numbers that fall
    graph(20, 1, b"P\t0\t2\t1\t2\t1\t5\t1\t5\n"),  # P, equal argument numbers
    graph(32, 0, b"N\t1\nP\t0\t2\t1\t0\n"),  # P, list 1 and no value: accepted, and the query is empty
    graph(20, 2, b"N\t9\nE\t0\t0\n"),  # form is tested over the whole text before 22

    # Refusal 22. References may point forward.
    graph(22, 1, b"N\t6\n"),  # N of the type after the last
    graph(22, 1, b"N\t0\n"),  # N of a scalar
    graph(22, 1, b"N\t4\n"),  # N of an interface
    graph(22, 1, b"N\t5\n"),  # N of a union
    graph(22, 2, b"N\t1\nE\t1\t0\t0\t0\n"),  # E from no node
    graph(22, 2, b"N\t1\nE\t0\t5\t0\t0\n"),  # E with no field
    graph(22, 2, b"N\t1\nE\t0\t0\t1\t0\n"),  # E to no node
    graph(22, 3, b"N\t1\nN\t2\nE\t0\t0\t1\t1\t2\t5\n"),  # E with an argument that is not declared
    graph(22, 2, b"N\t1\nP\t1\t1\t0\t0\t5\n"),  # P of no node
    graph(22, 2, b"N\t1\nP\t0\t5\t0\t0\t5\n"),  # P with no field
    graph(22, 2, b"N\t1\nP\t0\t1\t0\t1\t2\t5\t5\n"),  # P with an argument that is not declared
    graph(22, 2, b"N\t1\nP\t0\t1\t0\t2\t0\t5\t2\t5\t5\n"),  # P, the second argument is not declared
    graph(32, 0, b"E\t0\t3\t1\t0\nN\t1\nN\t2\n"),  # an edge points forward: accepted, and the query is empty
    graph(22, 3, b"N\t1\nE\t0\t1\t0\t0\nN\t9\n"),  # 22 over the whole text before 24

    # Refusal 23.
    graph(23, 3, b"N\t1\nN\t2\nE\t1\t0\t0\t0\n"),  # E, a field that the node's type lacks
    graph(23, 3, b"N\t1\nN\t2\nE\t0\t0\t1\t1\t1\t5\n"),  # E, an argument that the field does not take
    graph(23, 3, b"N\t1\nN\t2\nE\t0\t0\t1\t1\t0\t1000\n"),  # E, an argument value above its range
    graph(32, 0, b"N\t1\nN\t2\nE\t0\t0\t1\t1\t0\t999\n"),  # E, the highest argument value
    graph(23, 3, b"N\t1\nN\t2\nP\t1\t2\t1\t0\n"),  # P, a field that the node's type lacks
    graph(23, 2, b"N\t1\nP\t0\t2\t1\t1\t0\t5\n"),  # P, an argument that the field does not take
    graph(23, 2, b"N\t1\nP\t0\t1\t0\t1\t0\t1000\t5\n"),  # P, an argument value above its range
    graph(23, 2, b"N\t1\nP\t0\t1\t0\t2\t0\t5\t1\t1000\t5\n"),  # P, the second argument value above its range
    graph(23, 3, b"N\t1\nE\t0\t0\t0\t0\nP\t0\t2\t1\t1\t0\t5\n"),  # 23 over the whole text before 24

    # Refusal 24.
    graph(24, 3, b"N\t1\nN\t2\nE\t0\t1\t1\t0\n"),  # E, the field's type is scalar
    graph(24, 3, b"N\t1\nN\t3\nE\t0\t3\t1\t0\n"),  # E, the target is of another object type
    graph(24, 2, b"N\t1\nE\t0\t0\t0\t0\n"),  # E, the target is not of the interface
    graph(24, 3, b"N\t1\nN\t2\nE\t0\t4\t1\t0\n"),  # E, the target is not of the union
    graph(32, 0, b"N\t1\nN\t3\nE\t0\t4\t1\t0\n"),  # E, the target is of the union
    graph(24, 2, b"N\t1\nP\t0\t0\t1\t0\n"),  # P, the field's type is not scalar
    graph(24, 2, b"N\t1\nP\t0\t1\t1\t0\t5\n"),  # P, list mark 1 for a field that is no list
    graph(24, 2, b"N\t1\nP\t0\t2\t0\t0\t5\n"),  # P, list mark 0 for a list field
    graph(24, 2, b"N\t1\nP\t0\t1\t0\t0\t1000\n"),  # P, a value above its range
    graph(32, 0, b"N\t1\nP\t0\t1\t0\t0\t999\n"),  # P, the highest value
    graph(24, 2, b"N\t1\nP\t0\t2\t1\t0\t5\t6\t1000\n"),  # P, the last value above its range
    graph(24, 6, b"N\t1\nN\t2\nN\t2\nE\t0\t3\t1\t0\nE\t0\t3\t2\t0\nP\t0\t1\t0\t0\t1000\n"),  # 24 over the whole text before 25

    # Refusals 25 to 27.
    graph(25, 5, b"N\t1\nN\t2\nN\t2\nE\t0\t3\t1\t0\nE\t0\t3\t2\t0\n"),  # two targets of a field that is no list
    graph(25, 5, b"N\t1\nN\t2\nN\t2\nE\t0\t3\t1\t0\nE\t0\t3\t2\t1\t0\t5\n"),  # the same under two labels
    graph(32, 0, b"N\t1\nN\t2\nE\t0\t3\t1\t0\nE\t0\t3\t1\t1\t0\t5\n"),  # one target under two labels is fine
    graph(32, 0, b"N\t1\nN\t2\nN\t2\nE\t0\t0\t1\t0\nE\t0\t0\t2\t0\n"),  # two targets of a list field are fine
    graph(25, 6, b"N\t1\nN\t2\nN\t2\nE\t0\t3\t1\t0\nE\t0\t3\t1\t0\nE\t0\t3\t2\t0\n"),  # 25 over the whole text before 26
    graph(26, 4, b"N\t1\nN\t2\nE\t0\t0\t1\t0\nE\t0\t0\t1\t0\n"),  # an equal edge
    graph(26, 4, b"N\t1\nN\t2\nE\t0\t0\t1\t1\t0\t5\nE\t0\t0\t1\t1\t0\t5\n"),  # an equal edge with a pair
    graph(32, 0, b"N\t1\nN\t2\nE\t0\t0\t1\t0\nE\t0\t0\t1\t1\t0\t5\n"),  # a label with more pairs is another label
    graph(32, 0, b"N\t1\nN\t2\nE\t0\t0\t1\t1\t0\t5\nE\t0\t0\t1\t0\n"),  # a label with fewer pairs is another label
    graph(32, 0, b"N\t1\nN\t2\nE\t0\t0\t1\t1\t0\t5\nE\t0\t0\t1\t1\t0\t6\n"),  # a label with another value is another label
    graph(26, 3, b"N\t1\nP\t0\t1\t0\t0\t5\nP\t0\t1\t0\t0\t6\n"),  # a property of equal label, with another value
    graph(26, 3, b"N\t1\nP\t0\t1\t0\t1\t0\t5\t6\nP\t0\t1\t0\t1\t0\t5\t7\n"),  # the same with a pair
    graph(32, 0, b"N\t1\nP\t0\t1\t0\t1\t0\t5\t6\nP\t0\t1\t0\t2\t0\t5\t1\t6\t6\n"),  # a property of another label
    graph(26, 3, b"N\t2\nP\t0\t1\t0\t0\t5\nP\t0\t1\t0\t0\t5\n"),  # 26 comes before 27
    graph(27, 0, b""),  # an empty text
    graph(27, 0, b"N\t2\n"),  # no node of the query type
    graph(27, 0, b"N\t1\nN\t1\n"),  # two nodes of the query type

    # Refusal 30.
    query(30, 1, b"\n"),  # an empty line
    query(30, 2, b"F\t0\t1\t1\t0\n\n"),  # an empty line at the end
    query(30, 1, b"F\t0\t1\t1\t0"),  # a last line without newline
    query(30, 1, b"X\n"),  # a letter that no text uses
    query(30, 1, b"S\t0\t1\n"),  # a letter of the schema
    query(30, 1, b"N\t1\n"),  # a letter of the graph
    query(30, 1, b"f\t0\t1\t1\t0\n"),  # a lower case letter
    query(30, 1, b"FF\t0\t1\t1\t0\n"),  # two letters
    query(30, 1, b"F 0 1 1 0\n"),  # spaces for tabs
    query(30, 1, b"F\t0\t1\t1\t0 \n"),  # a space at the end
    query(30, 1, b"F\t0\t1\t1\t0\x00\n"),  # a byte 0
    query(30, 1, b"F\t0\t1\t1\t0\r\n"),  # a carriage return
    query(30, 1, b"F\t0\t\t1\t1\t0\n"),  # two tabs
    query(30, 1, b"F\t0\t1\t1\t0\t\n"),  # a tab at the end
    query(30, 1, b"F\t00\t1\t1\t0\n"),  # a needless zero
    query(30, 1, b"F\t0\t1\t1000000000\t0\n"),  # a number that is too large
    query(30, 1, b"F\t0\t1\t1\n"),  # F without n
    query(30, 1, b"F\t0\t1\t1\t0\t5\n"),  # F, n 0 and one number after it
    query(30, 1, b"F\t0\t1\t1\t1\t0\n"),  # F, n 1 and half a pair
    query(30, 1, b"F\t0\t1\t1\t1\t0\t5\t6\n"),  # F, n 1 and one number too many
    query(30, 1, b"F\t0\t1\t1\t5\t0\t1\t1\t1\t2\t1\t3\t1\t4\t1\n"),  # F, n 5 with five pairs
    query(30, 1, b"F\t0\t1\t1\t2\t0\t5\t0\t6\n"),  # F, equal argument numbers
    query(30, 1, b"F\t0\t1\t1\t2\t1\t5\t0\t6\n"),  # F, argument numbers that fall
    query(30, 1, b"T\t0\n"),  # T, one missing
    query(30, 1, b"T\t0\t1\t0\n"),  # T, one extra
    query(30, 2, b"F\t16\t1\t1\t0\nT\t0\n"),  # form is tested over the whole text before 31

    # Refusals 31 to 33; 31 for more than 256 entries stands below.
    query(31, 1, b"F\t16\t1\t1\t0\n"),  # depth 16
    query(32, 1, b"F\t15\t1\t1\t0\n"),  # depth 15 is within the maximum
    query(31, 2, b"T\t0\t9\nF\t17\t1\t1\t0\n"),  # 31 over the whole text before 32
    query(32, 0, b""),  # an empty text (P7)
    query(32, 1, b"F\t1\t1\t1\t0\n"),  # the first depth is not 0
    query(32, 2, b"F\t0\t0\t0\t0\nF\t2\t1\t1\t0\n"),  # a step of two
    query(32, 1, b"T\t0\t1\n"),  # a type condition without child, at the end
    query(32, 1, b"T\t0\t1\nF\t0\t1\t1\t0\n"),  # a type condition without child, before another entry
    query(32, 1, b"T\t0\t1\nF\t2\t1\t1\t0\n"),  # a line two deeper is no child
    query(32, 2, b"F\t0\t0\t0\t0\nT\t1\t2\nF\t1\t1\t1\t0\n"),  # a type condition without child, further down
    query(32, 2, b"F\t0\t9\t9\t0\nT\t0\t1\n"),  # 32 over the whole text before 33
    query(33, 1, b"F\t0\t5\t5\t0\n"),  # the field after the last
    query(33, 1, b"F\t0\t1\t1\t1\t2\t5\n"),  # the argument after the last
    query(33, 1, b"T\t0\t6\nF\t1\t1\t1\t0\n"),  # the type after the last
    query(33, 1, b"F\t0\t256\t1\t0\n"),  # a label above 255
    query(0, 0, b"F\t0\t255\t1\t0\n"),  # label 255
    query(33, 2, b"F\t0\t0\t0\t0\nF\t0\t9\t9\t0\n"),  # 33 over the whole text before 34

    # Refusal 34 and what is accepted.
    query(34, 1, b"F\t0\t0\t0\t0\n"),  # an object field without child (P5)
    query(34, 1, b"F\t0\t1\t1\t0\nF\t1\t1\t1\t0\n"),  # a scalar field with a child
    query(34, 2, b"F\t0\t3\t3\t0\nF\t1\t2\t2\t0\n"),  # a field that the object lacks
    query(34, 2, b"F\t0\t0\t0\t0\nF\t1\t2\t2\t0\n"),  # a field that the interface lacks
    query(34, 2, b"F\t0\t4\t4\t0\nF\t1\t1\t1\t0\n"),  # a field where the context is a union
    query(34, 2, b"T\t0\t2\nF\t1\t2\t2\t0\n"),  # a field that the condition's type lacks
    query(34, 1, b"F\t0\t2\t2\t1\t0\t5\n"),  # an argument that the field does not take
    query(34, 1, b"F\t0\t0\t0\t1\t1\t5\nF\t1\t1\t1\t0\n"),  # an argument of another field
    query(34, 1, b"T\t0\t0\nF\t1\t1\t1\t0\n"),  # a type condition on a scalar
    query(0, 0, b"F\t0\t1\t1\t0\nF\t0\t2\t2\t0\n"),  # two scalar fields
    query(0, 0, b"F\t0\t1\t1\t2\t0\t5\t1\t1000\n"),  # argument values have no range in a query
    query(0, 0, b"F\t0\t0\t0\t0\nF\t1\t1\t1\t0\n"),  # a field of the interface
    query(0, 0, b"F\t0\t4\t4\t0\nT\t1\t3\nF\t2\t1\t1\t0\n"),  # a type condition below a union
    query(0, 0, b"T\t0\t2\nF\t1\t1\t1\t0\n"),  # a condition need not overlap the context
    query(0, 0, b"T\t0\t5\nT\t1\t4\nF\t2\t1\t1\t0\n"),  # a condition below a condition on a union

    # Refusal 11, and the text one line shorter, which goes on to a later check.
    schema(11, 65, b"O\nI\nU\nO\nI\nU\nO\nI\nU\nO\nI\nU\nO\nI\nU\nO\nI\nU\nO\nI\nU\nO\nI\nU\nO\nI\nU\nO\nI\nU\nO\nI\nU\nO\nI\nU\nO\nI\nU\nO\nI\nU\nO\nI\nU\nO\nI\nU\nO\nI\nU\nO\nI\nU\nO\nI\nU\nO\nI\nU\nO\nI\nU\nO\nI\n"),  # 65 types, of O, I and U in turn
    schema(15, 3, b"O\nI\nU\nO\nI\nU\nO\nI\nU\nO\nI\nU\nO\nI\nU\nO\nI\nU\nO\nI\nU\nO\nI\nU\nO\nI\nU\nO\nI\nU\nO\nI\nU\nO\nI\nU\nO\nI\nU\nO\nI\nU\nO\nI\nU\nO\nI\nU\nO\nI\nU\nO\nI\nU\nO\nI\nU\nO\nI\nU\nO\nI\nU\nO\n"),  # 64 types: the first union has no object
    schema(11, 129, b"F\t0\t0\n" * 129),  # 129 F
    schema(12, 1, b"F\t0\t0\n" * 128),  # 128 F
    schema(11, 65, b"A\t0\n" * 65),  # 65 A
    schema(12, 1, b"A\t0\n" * 64),  # 64 A
    schema(11, 1025, b"H\t0\t0\n" * 1025),  # 1,025 H
    schema(12, 1, b"H\t0\t0\n" * 1024),  # 1,024 H
    schema(11, 1025, b"G\t0\t0\n" * 1025),  # 1,025 G
    schema(12, 1, b"G\t0\t0\n" * 1024),  # 1,024 G
    schema(11, 1025, b"M\t0\t0\n" * 1025),  # 1,025 M
    schema(12, 1, b"M\t0\t0\n" * 1024),  # 1,024 M

    # Refusal 21, and the text one line or value shorter, which goes on.
    graph(21, 513, b"N\t1\n" * 513),  # 513 nodes
    graph(27, 0, b"N\t1\n" * 512),  # 512 nodes, all of the query type
    graph(21, 1025, b"E\t0\t0\t0\t0\n" * 1025),  # 1,025 edges
    graph(22, 1, b"E\t0\t0\t0\t0\n" * 1024),  # 1,024 edges, and no node
    graph(21, 1025, b"P\t0\t0\t1\t0\n" * 1025),  # 1,025 properties
    graph(22, 1, b"P\t0\t0\t1\t0\n" * 1024),  # 1,024 properties, and no node
    graph(21, 1, b"P\t0\t2\t1\t0" + b"\t5" * 8193 + b"\n"),  # 8,193 values in one line
    graph(22, 1, b"P\t0\t2\t1\t0" + b"\t5" * 8192 + b"\n"),  # 8,192 values in one line
    graph(21, 2, b"P\t0\t2\t1\t0" + b"\t5" * 8192 + b"\n" + b"P\t0\t1\t0\t0\t5\n"),  # 8,192 values, and one in the next line

    # Refusal 31 for entries, and the text one line shorter, which is accepted.
    query(31, 257, b"F\t0\t1\t1\t0\n" * 257),  # 257 entries
    query(0, 0, b"F\t0\t1\t1\t0\n" * 256),  # 256 entries

    # A graph of 65,535 bytes, the most that a text may have, is accepted.
    texts(
        0, 0,
        b"S\t0\t999999999\nO\nF\t0\t1\nH\t1\t0\nQ\t1\n",
        b"N\t1\n" + b"P\t0\t0\t1\t0" + b"\t123456789" * 6551 + b"\t1234\t12345\n",
        b"F\t0\t0\t0\t0\n",
    ),
]
