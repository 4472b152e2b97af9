//! The sample of 01 and its changes, one at a time: P1 to P12, the doubling, the eleven nodes, rooms, buffers and areas.

use independent::{answer, size, Outcome, NEEDED_LENGTHS};

const SCHEMA: &str = "S 0 999/O/O/O/I/F 4 1/F 0 0/F 0 1/F 0 0/H 1 0/H 2 1/H 2 2/H 3 1/H 3 3/H 4 1/M 4 2/M 4 3/Q 1";
const GRAPH: &str = "N 1/N 2/N 3/E 0 0 1 0/E 0 0 2 0/P 1 1 0 0 17/P 1 2 1 0 5 6/P 2 1 0 0 18";
const QUERY: &str = "F 0 0 0 0/F 1 9 1 0/T 1 2/F 2 2 2 0/T 1 3/F 2 3 3 0";

/// A text as 01 shows it, spaces for tabs and `/` for line ends.
fn text(shown: &str) -> Vec<u8> {
    if shown.is_empty() {
        return Vec::new();
    }
    format!("{}\n", shown.replace(' ', "\t").replace('/', "\n")).into_bytes()
}

fn sized(schema: &str, graph: &str, query: &str) -> Outcome {
    size(&text(schema), &text(graph), &text(query), NEEDED_LENGTHS)
}

fn answered(graph: &str, query: &str, room: u32, length: usize) -> (Outcome, Vec<u32>) {
    answer(&text(SCHEMA), &text(graph), &text(query), NEEDED_LENGTHS, room, &vec![7; length])
}

fn ok(size: u32, visits: u32) -> Outcome {
    Outcome { number: 0, place: 0, size, visits }
}

fn no(number: u32, place: u32) -> Outcome {
    Outcome { number, place, size: 0, visits: 0 }
}

/// The text without this line, counted from 1.
fn without(shown: &str, line: usize) -> String {
    let kept = shown.split('/').enumerate().filter(|(index, _)| index + 1 != line).map(|(_, line)| line);
    kept.collect::<Vec<_>>().join("/")
}

#[test]
fn the_sample_and_its_response() {
    assert_eq!(sized(SCHEMA, GRAPH, QUERY), ok(18, 9));
    let (outcome, buffer) = answered(GRAPH, QUERY, 18, 20);
    assert_eq!(outcome, ok(18, 9));
    let (label, object, end, list, list_end, null) =
        (1_000_000_000, 2_000_000_001, 2_000_000_002, 2_000_000_003, 2_000_000_004, 2_000_000_005);
    let first = [label, list, object, label + 9, 17, label + 2, list, 5, 6, list_end, end];
    let second = [object, label + 9, 18, label + 3, null, end, list_end];
    assert_eq!(buffer, [&first[..], &second, &[7, 7]].concat());
}

#[test]
fn rooms_buffers_and_areas() {
    let too_long = Outcome { number: 50, place: 0, size: 18, visits: 9 };
    for (room, length) in [(17, 18), (18, 17), (0, 0), (16_384, 17)] {
        assert_eq!(answered(GRAPH, QUERY, room, length), (too_long, vec![7; length]));
    }
    assert_eq!(answered(GRAPH, QUERY, 16_385, 5), (no(1, 0), vec![7; 5]));
    for area in 0..NEEDED_LENGTHS.len() {
        let mut lengths = NEEDED_LENGTHS;
        lengths[area] -= 1;
        assert_eq!(size(b"", b"", b"", lengths), no(2, 0));
    }
    assert_eq!(answered(GRAPH, "T 0 4/F 1 1 1 0", 0, 0), (ok(0, 1), vec![]));
}

#[test]
fn changes_of_the_query() {
    let head = "F 0 0 0 0";
    assert_eq!(sized(SCHEMA, GRAPH, head), no(34, 1));
    assert_eq!(sized(SCHEMA, GRAPH, "F 0 1 1 0"), no(34, 1));
    assert_eq!(sized(SCHEMA, GRAPH, ""), no(32, 0));
    assert_eq!(sized(SCHEMA, GRAPH, &format!("{head}/F 1 9 1 0/F 1 9 1 0")), ok(15, 5));
    assert_eq!(sized(SCHEMA, GRAPH, "T 0 2/F 2 2 2 0"), no(32, 1));
    assert_eq!(sized(SCHEMA, GRAPH, "T 0 2/F 2 2 2 0/F 1 2 2 0"), no(32, 2));
    assert_eq!(sized(SCHEMA, GRAPH, "T 0 0/F 1 2 2 0"), no(34, 1));
}

#[test]
fn changes_of_the_graph() {
    let no_edges = without(&without(GRAPH, 5), 4);
    assert_eq!(sized(SCHEMA, &no_edges, "F 0 0 0 0/F 1 9 1 0"), ok(3, 1));
    assert_eq!(sized(SCHEMA, &without(GRAPH, 7), QUERY), ok(15, 9));
    assert_eq!(sized(SCHEMA, &GRAPH.replace("P 1 2 1 0 5 6", "P 1 2 1 0"), QUERY), ok(16, 9));
    let repeated = GRAPH.replace("E 0 0 2 0", "E 0 0 2 0/E 0 0 1 0");
    assert_eq!(sized(SCHEMA, &repeated, QUERY), no(26, 6));
    assert_eq!(sized(SCHEMA, &format!("{GRAPH}/P 2 2 1 0 5"), QUERY), no(23, 9));
}

#[test]
fn empty_texts() {
    assert_eq!(sized("", "", ""), no(16, 0));
    assert_eq!(sized(SCHEMA, "", ""), no(27, 0));
    assert_eq!(sized(SCHEMA, GRAPH, ""), no(32, 0));
}

/// Proposition 1's query: `query` over n - 1 times two nested `knows`, over `name`.
fn doubling_query(n: u32) -> String {
    let knows = (1..2 * n - 1).map(|depth| format!("F {depth} 1 1 0"));
    let lines = std::iter::once("F 0 0 0 0".to_string()).chain(knows);
    lines.chain([format!("F {} 2 2 0", 2 * n - 1)]).collect::<Vec<_>>().join("/")
}

#[test]
fn doubling() {
    let schema = "S 0 9/O/O/F 1 0/F 1 1/F 0 0/H 2 0/H 1 1/H 1 2/Q 2";
    let graph = "N 2/N 1/N 1/N 1/E 0 0 1 0/E 1 1 2 0/E 1 1 3 0/E 2 1 1 0/E 3 1 1 0/P 1 2 0 0 5";
    for n in 1..=8 {
        let visits = 2 + 3 * (n - 1);
        assert_eq!(sized(schema, graph, &doubling_query(n)), ok(19 * (1 << (n - 1)) - 14, visits), "n = {n}");
    }
    assert_eq!(sized(schema, graph, &doubling_query(9)), no(31, 17));
}

#[test]
fn eleven_nodes_joined_to_ten() {
    let schema = "S 0 9/O/O/F 2 1/F 0 0/H 1 0/H 2 0/H 2 1/Q 1";
    let nodes = std::iter::once("N 1".to_string()).chain((0..10).map(|_| "N 2".into()));
    let edges = (0..11).flat_map(|from| (1..11).map(move |to| format!("E {from} 0 {to} 0")));
    let graph = nodes.chain(edges).collect::<Vec<_>>().join("/");
    for (fields, outcome) in [(5, ok(455_553, 51)), (6, ok(1_000_001, 61))] {
        let lists = (0..fields).map(|depth| format!("F {depth} 0 0 0"));
        let query = lists.chain([format!("F {fields} 1 1 0")]).collect::<Vec<_>>().join("/");
        assert_eq!(sized(schema, &graph, &query), outcome);
    }
}
