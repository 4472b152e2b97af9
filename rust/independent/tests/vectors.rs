//! All vectors of tests/vectors: what the program `answer` writes for three texts, room 16,384.

use std::fmt::Write;
use std::path::{Path, PathBuf};

use independent::{answer, Outcome, LARGEST_ROOM, NEEDED_LENGTHS};

/// A file as the program reads it: up to 65,536 bytes, and nothing where it cannot be opened.
fn read(path: PathBuf) -> Vec<u8> {
    let mut text = std::fs::read(path).unwrap_or_default();
    text.truncate(65_536);
    text
}

/// What the program writes.
fn report(outcome: Outcome, tokens: &[u32]) -> String {
    let Outcome { number, place, size, visits } = outcome;
    if number != 0 {
        return format!("no\t{number}\t{place}\t{size}\t{visits}\n");
    }
    let mut written = format!("ok\t{size}\t{visits}\n");
    for token in &tokens[..size as usize] {
        writeln!(written, "{}", line(*token)).unwrap();
    }
    written
}

fn line(token: u32) -> String {
    match token {
        2_000_000_001 => "{".into(),
        2_000_000_002 => "}".into(),
        2_000_000_003 => "[".into(),
        2_000_000_004 => "]".into(),
        2_000_000_005 => "N".into(),
        1_000_000_000.. => format!("L\t{}", token - 1_000_000_000),
        _ => format!("V\t{token}"),
    }
}

fn written_for(folder: &Path) -> String {
    let [schema, graph, query] = ["schema.txt", "graph.txt", "query.txt"].map(|name| read(folder.join(name)));
    let buffer = vec![77; LARGEST_ROOM as usize];
    let (outcome, after) = answer(&schema, &graph, &query, NEEDED_LENGTHS, LARGEST_ROOM, &buffer);
    let written = if outcome.number == 0 { outcome.size as usize } else { 0 };
    assert_eq!(after[written..], buffer[written..], "{}: the rest of the buffer has changed", folder.display());
    report(outcome, &after)
}

#[test]
fn every_vector_is_answered_as_expected() {
    let vectors = Path::new(env!("CARGO_MANIFEST_DIR")).join("../../tests/vectors");
    let mut tried = 0;
    for folder in std::fs::read_dir(&vectors).expect("tests/vectors is missing") {
        let folder = folder.unwrap().path();
        if !folder.is_dir() {
            continue;
        }
        let expected = std::fs::read_to_string(folder.join("expected.txt")).unwrap();
        assert_eq!(written_for(&folder), expected, "{}", folder.display());
        tried += 1;
    }
    assert!(tried >= 164, "only {tried} vectors");
    println!("{tried} vectors");
}
