//! The inputs. No two entries of one selection show the same label, so that graphql-core, which merges equal ones, gives the
//! same response.

use std::fmt::Write;

pub struct Input {
    pub name: String,
    pub schema: String,
    pub graph: String,
    pub query: String,
}

impl Input {
    fn new(name: &str, schema: String, graph: String, query: String) -> Input {
        Input { name: name.into(), schema, graph, query }
    }
}

/// All inputs of the first table.
pub fn all() -> Vec<Input> {
    vec![
        sample(),
        doubling(),
        widest_answer(),
        maxima(),
        worst_sizing("worst sizing", 17, 512, 1_024),
        conditions(),
        refused_graph(),
        refused_query(),
    ]
}

/// A text as 01 shows it, spaces for tabs and `/` for line ends.
fn shown(text: &str) -> String {
    format!("{}\n", text.replace(' ', "\t").replace('/', "\n"))
}

fn sample() -> Input {
    Input::new(
        "sample",
        shown("S 0 999/O/O/O/I/F 4 1/F 0 0/F 0 1/F 0 0/H 1 0/H 2 1/H 2 2/H 3 1/H 3 3/H 4 1/M 4 2/M 4 3/Q 1"),
        shown("N 1/N 2/N 3/E 0 0 1 0/E 0 0 2 0/P 1 1 0 0 17/P 1 2 1 0 5 6/P 2 1 0 0 18"),
        shown("F 0 0 0 0/F 1 9 1 0/T 1 2/F 2 2 2 0/T 1 3/F 2 3 3 0"),
    )
}

/// Proposition 1's query for n = 8: 2,418 tokens.
fn doubling() -> Input {
    let mut query = shown("F 0 0 0 0");
    for depth in 1..15 {
        line(&mut query, &[depth, 1, 1, 0], 'F');
    }
    line(&mut query, &[15, 2, 2, 0], 'F');
    Input::new(
        "doubling, n = 8",
        shown("S 0 9/O/O/F 1 0/F 1 1/F 0 0/H 2 0/H 1 1/H 1 2/Q 2"),
        shown("N 2/N 1/N 1/N 1/E 0 0 1 0/E 1 1 2 0/E 1 1 3 0/E 2 1 1 0/E 3 1 1 0/P 1 2 0 0 5"),
        query,
    )
}

/// Exactly 16,384 tokens: 3 + 2 x 511 for a list to all nodes, 511 x 30 for fifteen scalars at each, 29 for a list of 26 values.
fn widest_answer() -> Input {
    let mut schema = shown("S 0 999999999/O/O/F 2 1/F 0 1");
    let mut graph = shown("N 1");
    let mut query = shown("F 0 0 0 0");
    for field in 2..17 {
        line(&mut schema, &[0, 0], 'F');
        line(&mut schema, &[2, field], 'H');
        line(&mut query, &[1, field, field, 0], 'F');
    }
    schema += &shown("H 1 0/H 1 1/Q 1");
    query += &shown("F 0 1 1 0");
    for node in 1..512 {
        line(&mut graph, &[2], 'N');
        line(&mut graph, &[0, 0, node, 0], 'E');
        line(&mut graph, &[node, 2, 0, 0, node], 'P');
        line(&mut graph, &[node, 16, 0, 0, 1_000 * node], 'P');
    }
    let values: Vec<usize> = (0..26).collect();
    line(&mut graph, &[&[0, 1, 1, 0], &values[..]].concat(), 'P');
    Input::new("widest answer", schema, graph, query)
}

/// All at their maxima: 64 types, 128 fields, 64 arguments, 1,024 `H` and `G`; of `M` the 992 that a schema with a scalar can
/// have; 512 nodes, 1,024 edges, 1,024 properties, 8,192 values; 256 entries to depth 15, labels to 255.
fn maxima() -> Input {
    Input::new("all maxima", maxima_schema(), maxima_graph(), maxima_query())
}

/// Type 0 is the scalar, 1 to 32 are objects, 33 to 36 interfaces, 37 to 63 unions.
fn maxima_schema() -> String {
    let mut schema = shown("S 0 9");
    schema += &"O\n".repeat(32);
    schema += &"I\n".repeat(4);
    schema += &"U\n".repeat(27);
    schema += &shown("F 0 0/F 0 1/F 33 1/F 34 0");
    schema += &"F\t0\t0\n".repeat(124);
    schema += &"A\t0\n".repeat(64);
    for (owner, fields) in (1..33).map(|object| (object, 31)).chain((33..37).map(|interface| (interface, 8))) {
        (0..fields).for_each(|field| line(&mut schema, &[owner, field], 'H'));
    }
    for field in 0..128 {
        (0..8).for_each(|argument| line(&mut schema, &[field, 8 * (field % 8) + argument], 'G'));
    }
    for owner in 33..64 {
        (1..33).for_each(|object| line(&mut schema, &[owner, object], 'M'));
    }
    schema + "Q\t1\n"
}

/// A ring by field 3, which is no list; by field 2, a list, 32 targets for each of the first 16 nodes; two properties a node.
fn maxima_graph() -> String {
    let mut graph = String::new();
    for node in 0..512 {
        line(&mut graph, &[if node == 0 { 1 } else { 2 + node % 31 }], 'N');
    }
    for node in 0..512 {
        line(&mut graph, &[node, 3, (node + 1) % 512, 1, 24, 5], 'E');
        line(&mut graph, &[node / 32, 2, (node + 1) % 512, 1, 17, 6], 'E');
    }
    for node in 0..512 {
        line(&mut graph, &[node, 0, 0, 0, node % 10], 'P');
        let values = (0..15).map(|value| (node + value) % 10);
        line(&mut graph, &[node, 1, 1, 1, 9, 7].into_iter().chain(values).collect::<Vec<_>>(), 'P');
    }
    graph
}

/// Fifteen nested steps along the ring; beside each of them, from depth 1 on, lists and scalars.
fn maxima_query() -> String {
    let mut query = String::new();
    for depth in 0..15 {
        if depth > 0 {
            for list in 0..2 {
                line(&mut query, &[depth, 10 + list, 2, 1, 17, 6], 'F');
                line(&mut query, &[depth + 1, 0, 0, 0], 'F');
            }
            maxima_scalars(&mut query, depth, 12);
        }
        line(&mut query, &[depth, 3, 3, 1, 24, 5], 'F');
    }
    maxima_scalars(&mut query, 15, 17);
    query
}

/// So many scalars at a depth, two of three with their list of values.
fn maxima_scalars(query: &mut String, depth: usize, count: usize) {
    for scalar in 0..count {
        let numbers: &[usize] = if scalar % 3 == 0 { &[0, 0] } else { &[1, 1, 9, 7] };
        line(query, &[&[depth, 255 - scalar], numbers].concat(), 'F');
    }
}

/// A list to all nodes, a ring among them and further edges; under the list so many chains, each of fourteen nested lists over
/// a scalar, every one of them visited at every node. 17 chains are 256 entries.
pub fn worst_sizing(name: &str, chains: usize, nodes: usize, edges: usize) -> Input {
    let mut graph = shown("N 1");
    let others = nodes - 1;
    for node in 1..nodes {
        line(&mut graph, &[2], 'N');
        line(&mut graph, &[node, 1, 0, 0, 7], 'P');
        line(&mut graph, &[node, 2, 0, 0, 8], 'P');
    }
    for edge in 0..edges {
        let (from, step) = (1 + edge % others, edge / others);
        let target = 1 + (from - 1 + step) % others;
        line(&mut graph, &[if step == 0 { 0 } else { from }, 0, target, 0], 'E');
    }
    let mut query = shown("F 0 0 0 0");
    for chain in 0..chains {
        (1..15).for_each(|depth| line(&mut query, &[depth, if depth == 1 { chain } else { 0 }, 0, 0], 'F'));
        line(&mut query, &[15, 2, 2, 0], 'F');
    }
    Input::new(name, shown("S 0 9/O/O/F 2 1/F 0 0/F 0 0/H 1 0/H 2 0/H 2 1/H 2 2/Q 1"), graph, query)
}

/// Type conditions at 511 nodes of 31 object types: a list to all of them and under it 85 times a union of all object types, in it one
/// object type, in that a scalar.
fn conditions() -> Input {
    let mut graph = shown("N 1");
    let mut query = shown("F 0 0 2 0");
    for node in 1..512 {
        line(&mut graph, &[2 + node % 31], 'N');
        line(&mut graph, &[0, 2, node, 0], 'E');
        line(&mut graph, &[node, 0, 0, 0, node % 10], 'P');
    }
    for condition in 0..85 {
        line(&mut query, &[1, 37 + condition % 27], 'T');
        line(&mut query, &[2, 2 + condition % 31], 'T');
        line(&mut query, &[3, condition, 0, 0], 'F');
    }
    Input::new("type conditions", maxima_schema(), graph, query)
}

/// The maxima, with a property for the second time in the graph's last line: 26.
fn refused_graph() -> Input {
    let mut input = maxima();
    let first = input.graph.lines().find(|line| line.starts_with('P')).unwrap_or("").to_string();
    let end = input.graph.trim_end().rfind('\n').map_or(0, |at| at + 1);
    input.graph.replace_range(end.., &format!("{first}\n"));
    input.name = "graph refused in its last line (26)".into();
    input
}

/// The maxima, with a field outside its context in the query's last line: 34.
fn refused_query() -> Input {
    let mut input = maxima();
    let end = input.query.trim_end().rfind('\n').map_or(0, |at| at + 1);
    input.query.replace_range(end.., "F\t15\t255\t127\t0\n");
    input.name = "query refused in its last line (34)".into();
    input
}

/// Adds a line: a letter and numbers.
fn line(text: &mut String, numbers: &[usize], letter: char) {
    text.push(letter);
    for number in numbers {
        write!(text, "\t{number}").expect("a string takes all");
    }
    text.push('\n');
}
