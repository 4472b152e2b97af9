//! graphql-core's column: a Python program that is run once, over the same texts.

use std::io;
use std::path::{Path, PathBuf};
use std::process::Command;

use crate::inputs::Input;

/// What graphql-core did with one input.
#[derive(Clone, Copy)]
pub struct Measured {
    pub tokens: u32,
    pub execute: f64,
    pub whole: f64,
}

/// The figures for these inputs; nothing where python3 has no graphql-core 3, and the reason where it cannot be run.
pub fn measure(inputs: &[&Input]) -> Result<Vec<Measured>, String> {
    let folder = std::env::temp_dir().join(format!("sodgravel-benchmark-{}", std::process::id()));
    let folders: io::Result<Vec<PathBuf>> =
        inputs.iter().enumerate().map(|(index, input)| write(&folder.join(index.to_string()), input)).collect();
    let program = Path::new(env!("CARGO_MANIFEST_DIR")).join("graphql_core.py");
    let output = folders.and_then(|folders| Command::new("python3").arg(program).args(folders).output());
    // The folder is in the system's temporary folder: what is left there does no harm.
    let _ = std::fs::remove_dir_all(&folder);
    let output = output.map_err(|error| format!("python3 cannot be run: {error}"))?;
    if !output.status.success() {
        return Err(format!("graphql_core.py failed: {}", String::from_utf8_lossy(&output.stderr)));
    }
    let text = String::from_utf8_lossy(&output.stdout).into_owned();
    if text.trim() == "missing" {
        return Err("python3 has no graphql-core 3".into());
    }
    text.lines().map(|line| read(line).ok_or(format!("graphql_core.py said: {line}"))).collect()
}

fn write(folder: &Path, input: &Input) -> io::Result<PathBuf> {
    std::fs::create_dir_all(folder)?;
    std::fs::write(folder.join("schema.txt"), &input.schema)?;
    std::fs::write(folder.join("graph.txt"), &input.graph)?;
    std::fs::write(folder.join("query.txt"), &input.query)?;
    Ok(folder.to_path_buf())
}

fn read(line: &str) -> Option<Measured> {
    let words: Vec<&str> = line.split(' ').collect();
    let [tokens, execute, whole] = words[..] else { return None };
    Some(Measured { tokens: tokens.parse().ok()?, execute: execute.parse().ok()?, whole: whole.parse().ok()? })
}
