"""graphql-core 3 on the benchmark's inputs: python3 graphql_core.py FOLDER...

For each folder with schema.txt, graph.txt and query.txt one line: the tokens of the response, the seconds of executing the parsed
query over a graph that is held already, and the seconds of all that a call of the library does: reading the three texts,
building the schema, validating the query and executing it. 'missing' where python3 has no graphql-core 3.
"""
import gc
import sys
import time

try:
    import graphql
    from graphql import (
        GraphQLArgument, GraphQLField, GraphQLInt, GraphQLInterfaceType, GraphQLList, GraphQLObjectType, GraphQLSchema,
        GraphQLUnionType, execute, parse, validate)
    if not graphql.version.startswith('3.'):
        raise ImportError
except ImportError:
    print('missing')
    sys.exit(0)


class Node:
    """A node: its type's name, and by field and pairs its targets and its properties."""
    __slots__ = ('type_name', 'targets', 'properties')

    def __init__(self, type_name):
        self.type_name, self.targets, self.properties = type_name, {}, {}


def records(text):
    for line in text.splitlines():
        letter, *numbers = line.split('\t')
        yield letter, [int(number) for number in numbers]


def pairs(numbers):
    """The pairs behind a count, and what follows them."""
    end = 1 + 2 * numbers[0]
    return tuple(zip(numbers[1:end:2], numbers[2:end:2])), numbers[end:]


def resolver(field, scalar, is_list):
    """What graphql-core calls for a field at a node."""
    def label(arguments):
        return field, tuple(sorted((int(name[1:]), value) for name, value in arguments.items()))

    if scalar:
        return lambda node, info, **arguments: node.properties.get(label(arguments))
    if is_list:
        return lambda node, info, **arguments: node.targets.get(label(arguments), [])
    return lambda node, info, **arguments: next(iter(node.targets.get(label(arguments), [])), None)


def build_schema(text):
    """The schema, and the number of its query type. Every scalar is an Int."""
    kinds, fields, query_type = [], [], 0
    has, takes, members = {}, {}, {}
    for letter, numbers in records(text):
        if letter in 'SOIU':
            kinds.append(letter)
        elif letter == 'F':
            fields.append(numbers)
        elif letter in 'HGM':
            {'H': has, 'G': takes, 'M': members}[letter].setdefault(numbers[0], []).append(numbers[1])
        elif letter == 'Q':
            query_type = numbers[0]
    types = {}

    def field_of(number):
        of, is_list = fields[number]
        inner = types[of]
        arguments = {f'a{a}': GraphQLArgument(GraphQLInt) for a in takes.get(number, [])}
        return GraphQLField(GraphQLList(inner) if is_list else inner, arguments, resolver(number, kinds[of] == 'S', is_list))

    def fields_of(number):
        return lambda: {f'f{field}': field_of(field) for field in has.get(number, [])}

    def interfaces_of(number):
        return lambda: [types[i] for i, kind in enumerate(kinds) if kind == 'I' and number in members.get(i, [])]

    def type_of(node, info, abstract):
        return node.type_name

    for number, kind in enumerate(kinds):
        name = f't{number}'
        if kind == 'S':
            types[number] = GraphQLInt
        elif kind == 'O':
            types[number] = GraphQLObjectType(name, fields_of(number), interfaces_of(number))
        elif kind == 'I':
            types[number] = GraphQLInterfaceType(name, fields_of(number), resolve_type=type_of)
        else:
            objects = members.get(number, [])
            types[number] = GraphQLUnionType(name, lambda objects=objects: [types[o] for o in objects], resolve_type=type_of)
    declared = [of for number, of in types.items() if kinds[number] != 'S']
    return GraphQLSchema(types[query_type], types=declared, assume_valid=True), query_type


def load_graph(text, query_type):
    """The node of the query type, with all that it leads to."""
    all_records = list(records(text))
    nodes = [Node(f't{numbers[0]}') for letter, numbers in all_records if letter == 'N']
    for letter, numbers in all_records:
        if letter == 'E':
            label, _ = pairs(numbers[3:])
            nodes[numbers[0]].targets.setdefault((numbers[1], label), []).append(nodes[numbers[2]])
        elif letter == 'P':
            label, values = pairs(numbers[3:])
            nodes[numbers[0]].properties[numbers[1], label] = values if numbers[2] else values[0]
    return next(node for node in nodes if node.type_name == f't{query_type}')


def write_query(text):
    """The query as GraphQL writes it."""
    out, depth = ['{'], 0
    for letter, numbers in records(text):
        if out[-1] != '{':
            out.extend('}' * (depth - numbers[0]))
        if numbers[0] > depth:
            out.append('{')
        depth = numbers[0]
        if letter == 'T':
            out.append(f'... on t{numbers[1]}')
        else:
            label, _ = pairs(numbers[3:])
            arguments = ', '.join(f'a{argument}: {value}' for argument, value in label)
            out.append(f'l{numbers[1]}: f{numbers[2]}' + (f'({arguments})' if label else ''))
    out.extend('}' * (depth + 1))
    return ' '.join(out)


def tokens(value):
    """How many tokens a response takes; of the outermost object only what stands inside."""
    if isinstance(value, dict):
        return 2 + sum(1 + tokens(inner) for inner in value.values())
    if isinstance(value, list):
        return 2 + sum(tokens(inner) for inner in value)
    return 1


def run(schema, document, root):
    result = execute(schema, document, root)
    if result.errors:
        raise result.errors[0]
    return result.data


def whole(texts):
    schema, query_type = build_schema(texts[0])
    root = load_graph(texts[1], query_type)
    document = parse(write_query(texts[2]))
    errors = validate(schema, document)
    if errors:
        raise errors[0]
    return run(schema, document, root)


def seconds(call):
    """The best of at least three calls and at least one second."""
    best, spent, calls = float('inf'), 0.0, 0
    while calls < 3 or spent < 1.0:
        gc.collect()
        start = time.perf_counter()
        call()
        took = time.perf_counter() - start
        best, spent, calls = min(best, took), spent + took, calls + 1
    return best


def main():
    for folder in sys.argv[1:]:
        texts = [open(f'{folder}/{name}.txt').read() for name in ('schema', 'graph', 'query')]
        schema, query_type = build_schema(texts[0])
        root = load_graph(texts[1], query_type)
        document = parse(write_query(texts[2]))
        size = tokens(run(schema, document, root)) - 2
        print(size, seconds(lambda: run(schema, document, root)), seconds(lambda: whole(texts)), flush=True)


main()
