//! Prints what the program `answer` prints, for the schema.txt, graph.txt and query.txt of the folder given (the current one
//! where none is).

use std::fs::File;
use std::io::{self, BufWriter, Read, Write};
use std::path::{Path, PathBuf};

use sodgravel::{tokens, Areas, Texts, LARGEST_ROOM, LONGEST_TEXT};

/// Up to one byte more than the longest text; nothing where the file cannot be opened.
fn read(folder: &Path, name: &str) -> io::Result<Vec<u8>> {
    let mut text = Vec::new();
    if let Ok(file) = File::open(folder.join(name)) {
        file.take(LONGEST_TEXT as u64 + 1).read_to_end(&mut text)?;
    }
    Ok(text)
}

fn main() -> io::Result<()> {
    let folder = std::env::args_os().nth(1).map_or(PathBuf::from("."), PathBuf::from);
    let schema = read(&folder, "schema.txt")?;
    let graph = read(&folder, "graph.txt")?;
    let query = read(&folder, "query.txt")?;
    let texts = Texts { schema: &schema, graph: &graph, query: &query };
    let mut response = vec![0; LARGEST_ROOM as usize];
    let outcome = Areas::new().answer(texts, LARGEST_ROOM, &mut response);

    let mut out = BufWriter::new(io::stdout().lock());
    writeln!(out, "{outcome}")?;
    if outcome.is_accepted() {
        for token in tokens(&response[..outcome.size() as usize]) {
            writeln!(out, "{token}")?;
        }
    }
    out.flush()
}
