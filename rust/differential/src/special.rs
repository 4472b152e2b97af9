//! Cases that chance would not find: cliques whose multiplicities pass 64 bits, sizes at chosen numbers, texts of chosen lengths.

use crate::random::Random;

/// The lines of schema, graph and query.
pub type Lines = [Vec<String>; 3];

const LONGEST_TEXT: usize = 65_535;

/// The lines of a text as 01 shows it, spaces for tabs and `/` for line ends.
fn shown(text: &str) -> Vec<String> {
    text.split('/').map(|line| line.replace(' ', "\t")).collect()
}

/// Up to 32 nodes, the query node among them, each joined to each by a list; nested lists over scalars.
pub fn clique(random: &mut Random) -> Lines {
    let schema =
        shown("S 0 9/O/O/I/F 3 1/F 0 0/F 0 1/H 1 0/H 1 1/H 1 2/H 2 0/H 2 1/H 2 2/H 3 0/H 3 1/H 3 2/M 3 1/M 3 2/Q 1");
    let nodes = if random.chance(400) { random.pick(&[2, 4, 8, 16, 32]) } else { random.between(1, 32) };
    let missing = random.pick(&[0, 0, 0, 50, 300]);
    let mut graph: Vec<String> = (0..nodes).map(|node| format!("N\t{}", if node == 0 { 1 } else { 2 })).collect();
    for from in 0..nodes {
        for to in 0..nodes {
            if !random.chance(missing) {
                graph.push(format!("E\t{from}\t0\t{to}\t0"));
            }
        }
        if random.chance(500) {
            graph.push(format!("P\t{from}\t2\t1\t0\t{}", random.below(10)));
        }
    }
    let depth = random.between(1, 15);
    let mut query = Vec::new();
    for level in 0..depth {
        extra_scalars(random, level, &mut query);
        query.push(format!("F\t{level}\t0\t0\t0"));
    }
    query.push(format!("F\t{depth}\t1\t{}\t0", random.between(1, 2)));
    extra_scalars(random, depth, &mut query);
    [schema, graph, query]
}

/// Sometimes a scalar, and a type condition with one, at this depth.
fn extra_scalars(random: &mut Random, depth: usize, query: &mut Vec<String>) {
    if random.chance(200) {
        query.push(format!("F\t{depth}\t7\t{}\t0", random.between(1, 2)));
    }
    if depth < 15 && random.chance(100) {
        query.push(format!("T\t{depth}\t{}", random.between(1, 3)));
        query.push(format!("F\t{}\t7\t1\t0", depth + 1));
    }
}

/// Many entries at many nodes: a list from the query node to all others, and below it scalars, and lists that lead on.
pub fn broad(random: &mut Random) -> Lines {
    let schema = shown("S 0 9/O/O/O/U/F 4 1/F 0 0/F 0 1/H 1 0/H 2 0/H 2 1/H 2 2/H 3 1/M 4 2/M 4 3/Q 1");
    let nodes = random.pick(&[64, 200, 511, 512]);
    let types: Vec<usize> = (1..nodes).map(|node| if node == 1 { 2 } else { random.pick(&[2, 2, 3]) }).collect();
    let leading: Vec<usize> = (1..nodes).filter(|node| types[node - 1] == 2).collect();
    let mut graph = vec!["N\t1".to_string()];
    graph.extend(types.iter().map(|of| format!("N\t{of}")));
    graph.extend((1..nodes).map(|node| format!("E\t0\t0\t{node}\t0")));
    for edge in 0..1_025 - nodes {
        let to = 1 + (7 * edge + edge / leading.len()) % (nodes - 1);
        graph.push(format!("E\t{}\t0\t{to}\t0", leading[edge % leading.len()]));
    }
    graph.extend((1..nodes).map(|node| format!("P\t{node}\t1\t0\t0\t{}", node % 10)));
    [schema, graph, broad_query(random)]
}

fn broad_query(random: &mut Random) -> Vec<String> {
    let entries = random.pick(&[10, 60, 255, 256]);
    let mut query = shown("F 0 0 0 0/T 1 2");
    while query.len() + 5 <= entries {
        query.extend(shown(random.pick(&["F 2 1 1 0", "F 2 5 2 0", "F 2 0 0 0/T 3 3/F 4 1 1 0"])));
    }
    while query.len() + 2 < entries {
        query.push("F\t2\t1\t1\t0".into());
    }
    query.extend(shown("T 1 3/F 2 1 1 0"));
    query
}

/// A size at a limit, made of two list properties of the query node, one asked for many times: 1,000,000 and the largest room.
pub fn exact_size(random: &mut Random) -> Lines {
    let size = random.pick(&[999_999, 1_000_000, 1_000_001, 1_000_002, 16_383, 16_384, 16_385]);
    let copies = random.between(if size > 20_000 { 160 } else { 3 }, 250);
    let many = (size - 600) / copies - 3;
    let few = size - copies * (3 + many) - 3;
    let schema = shown("S 0 9/O/F 0 1/F 0 1/H 1 0/H 1 1/Q 1");
    let values =
        |random: &mut Random, count: usize| -> String { (0..count).map(|_| format!("\t{}", random.below(10))).collect() };
    let graph = vec![
        "N\t1".into(),
        format!("P\t0\t0\t1\t0{}", values(random, many)),
        format!("P\t0\t1\t1\t0{}", values(random, few)),
    ];
    let mut query = vec!["F\t0\t0\t0\t0".to_string(); copies];
    query.insert(random.below(copies + 1), "F\t0\t1\t1\t0".into());
    [schema, graph, query]
}

/// A size a little above a power of two, or a multiple of one, where a sum of 32 or 64 bits would come out small.
pub fn wrapping_size(random: &mut Random) -> Lines {
    loop {
        let power: u128 = random.pick(&[1 << 32, 1 << 33, 3 << 32, 1 << 63, 1 << 64, 1 << 65, 5 << 64]);
        let target = power + random.below(2_000) as u128;
        let nodes = random.between(2, 31);
        if let Some(query) = query_of_size(target, nodes as u128) {
            return wrapping_texts(nodes, query);
        }
    }
}

/// A root and so many nodes of another type, each joined to all but the root; no list has a value.
fn wrapping_texts(nodes: usize, query: Vec<String>) -> Lines {
    let schema = shown("S 0 9/O/O/F 2 1/F 0 0/F 0 1/H 1 0/H 1 1/H 1 2/H 2 0/H 2 1/H 2 2/Q 1");
    let mut graph = vec!["N\t1".to_string()];
    graph.extend(vec!["N\t2".to_string(); nodes]);
    for from in 0..=nodes {
        graph.extend((1..=nodes).map(|to| format!("E\t{from}\t0\t{to}\t0")));
        graph.push(format!("P\t{from}\t2\t1\t0"));
    }
    [schema, graph, query]
}

/// Nested lists over so many nodes each, with as many scalars at each depth as give exactly this size; where there is such a
/// query. At depth i everything counts nodes to the power i: the target is written in that base, its digits made of twos
/// (a scalar without a value) and threes (a list without values).
fn query_of_size(target: u128, nodes: u128) -> Option<Vec<String>> {
    let mut rest = target;
    let mut query = Vec::new();
    for depth in 0..15 {
        rest = rest.checked_sub(3 + 2 * nodes)?;
        let mut digit = rest % nodes;
        if digit == 1 {
            digit += nodes;
        }
        rest = rest.checked_sub(digit)? / nodes;
        add_tokens(depth, digit as usize, &mut query);
        query.push(format!("F\t{depth}\t0\t0\t0"));
        if (2..150).contains(&rest) {
            add_tokens(depth + 1, rest as usize, &mut query);
            return (query.len() <= 256).then_some(query);
        }
    }
    None
}

/// Scalars at this depth that take so many tokens: none, or two and more.
fn add_tokens(depth: usize, tokens: usize, query: &mut Vec<String>) {
    if tokens == 0 {
        return;
    }
    let lists = tokens % 2;
    query.extend(vec![format!("F\t{depth}\t2\t2\t0"); lists]);
    query.extend(vec![format!("F\t{depth}\t1\t1\t0"); (tokens - 3 * lists) / 2]);
}

/// A graph text of exactly the longest length, or a byte more, with one property of thousands of values.
pub fn long_graph(random: &mut Random) -> Lines {
    let schema = shown("S 0 999999999/O/O/F 0 1/F 2 1/H 1 0/H 2 0/H 1 1/Q 1");
    let mut graph = shown("N 1/N 2/E 0 1 1 0/P 1 0 1 0 3");
    let length: usize = graph.iter().map(|line| line.len() + 1).sum();
    let head = "P\t0\t0\t1\t0";
    let mut left = LONGEST_TEXT + random.pick(&[0, 0, 0, 1]) - length - head.len() - 1;
    let mut values = String::new();
    while left > 0 {
        let digits = match left {
            21.. => random.pick(&[9, 9, 9, 8]),
            11.. => 1,
            _ => left - 1,
        };
        values.push_str(&format!("\t{}", &"987654321"[..digits]));
        left -= 1 + digits;
    }
    graph.insert(random.between(2, graph.len()), format!("{head}{values}"));
    [schema, graph, shown("F 0 0 0 0/F 0 1 1 0/F 1 1 0 0")]
}

/// Something at its maximum, or one below or above it, in three texts that are sound. What is added stands at the end, so that no
/// number changes. A relation, an edge or a property that is added repeats one: the maximum is tested before that.
pub fn at_maximum(random: &mut Random, lines: &mut Lines) {
    let over = random.below(3);
    let [schema, graph, query] = lines;
    match random.below(14) {
        0 => pad(schema, &["S", "O", "I", "U"], "O", 63 + over),
        1 => pad(schema, &["F"], "F", 127 + over),
        2 => pad(schema, &["A"], "A", 63 + over),
        3 => pad(schema, &["H"], "H", 1_023 + over),
        4 => pad(schema, &["G"], "G", 1_023 + over),
        5 => pad(schema, &["M"], "M", 1_023 + over),
        6..=7 => pad(graph, &["N"], "N", 511 + over),
        8 => pad(graph, &["E"], "E", 1_023 + over),
        9 => pad(graph, &["P"], "P", 1_023 + over),
        10 => pad_values(graph, 8_191 + over),
        11 => query.extend(vec!["F\t0\t0\t0\t0".to_string(); (255 + over).saturating_sub(query.len())]),
        12 => nest(schema, query, 14 + over),
        _ => query.push(format!("F\t0\t{}\t0\t0", 254 + over)),
    }
}

fn letter(line: &str) -> &str {
    line.split('\t').next().unwrap_or("")
}

/// Adds copies of the last line with a letter until so many lines have one of these letters.
fn pad(lines: &mut Vec<String>, counted: &[&str], added: &str, wanted: usize) {
    let Some(copied) = lines.iter().rev().find(|line| letter(line) == added).cloned() else { return };
    let count = lines.iter().filter(|line| counted.contains(&letter(line))).count();
    lines.extend(vec![copied; wanted.saturating_sub(count)]);
}

/// Adds values to a list property that has some, until there are so many values in all.
fn pad_values(lines: &mut [String], wanted: usize) {
    let count: usize = lines.iter().map(|line| values(line).len()).sum();
    let list = |line: &String| line.split('\t').nth(3) == Some("1") && !values(line).is_empty();
    if let Some(line) = lines.iter_mut().find(|line| list(line)) {
        let repeated = format!("\t{}", values(line)[0]);
        line.push_str(&repeated.repeat(wanted.saturating_sub(count)));
    }
}

/// The values of a property's line; none of another.
fn values(line: &str) -> Vec<&str> {
    if letter(line) != "P" {
        return Vec::new();
    }
    let fields: Vec<&str> = line.split('\t').collect();
    let pairs: usize = fields[4].parse().unwrap_or(0);
    fields[5 + 2 * pairs..].to_vec()
}

/// Adds type conditions on the query type, one in the other, over a scalar at this depth.
fn nest(schema: &[String], query: &mut Vec<String>, depth: usize) {
    let query_type = schema.iter().find(|line| letter(line) == "Q").map_or("0", |line| &line[2..]);
    query.extend((0..depth).map(|level| format!("T\t{level}\t{query_type}")));
    query.push(format!("F\t{depth}\t0\t0\t0"));
}

/// One of the texts filled up with lines to the longest length, or a byte more.
pub fn long_text(random: &mut Random, lines: &mut Lines) {
    let text = random.below(3);
    let (short, long) = random.pick(
        &[
            [("Q\t1", "Q\t10"), ("O", "A\t0"), ("H\t1\t1", "H\t1\t10")],
            [("N\t1", "N\t10"), ("E\t0\t0\t0\t0", "E\t0\t0\t0\t10"), ("P\t0\t0\t1\t0", "P\t0\t0\t1\t0\t7")],
            [("T\t0\t1", "T\t0\t10"), ("F\t0\t1\t1\t0", "F\t0\t1\t10\t0"), ("T\t1\t1", "F\t1\t1\t1\t0")],
        ][text],
    );
    let wanted = LONGEST_TEXT + random.pick(&[0, 1]);
    let mut length: usize = lines[text].iter().map(|line| line.len() + 1).sum();
    while length < wanted {
        let line = if (wanted - length).is_multiple_of(short.len() + 1) { short } else { long };
        length += line.len() + 1;
        lines[text].push(line.into());
    }
}

/// Bytes that are no text at all, or a text of random lines.
pub fn garbage(random: &mut Random) -> Vec<u8> {
    let alphabet: &[u8] = random.pick(&[&b"SOFHQNEPT\t\t\n\n0123"[..], &b"\n\t0"[..], &b"\0\x01\x7f\x80\xff\n"[..]]);
    let length = random.pick(&[0, 1, 2, 5, 40, 400]);
    (0..length).map(|_| random.pick(alphabet)).collect()
}
