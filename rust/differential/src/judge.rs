//! One pair of sequences through both, compared in all that the call returns and leaves; and what came up in a run.

use std::collections::BTreeMap;
use std::fmt;

use independent::{Outcome, Reply};

use crate::pair::{self, Pair};

/// What can be said of a pair.
const SAID: [&str; 4] = ["yes", "no", "71", "72"];

/// What both said of a pair, and by how many calls to the library; or what they disagree on.
pub fn run(pair: &Pair) -> Result<(Reply, usize), String> {
    let expected = independent::judge(&pair.full, &pair.shortened);
    let (full, shortened) = (pair.full.clone(), pair.shortened.clone());
    compare(pair, expected, &full, &shortened)?;
    let mut calls = 1;
    let parted = full.len().saturating_sub(shortened.len());
    if full.starts_with(&shortened) {
        compare(pair, expected, &full, &full[..shortened.len()])?;
        calls += 1;
    }
    if full.ends_with(&shortened) {
        compare(pair, expected, &full, &full[parted..])?;
        calls += 1;
    }
    Ok((expected, calls))
}

/// One call on two slices that hold the pair's sequences. They may overlap.
fn compare(pair: &Pair, expected: Reply, full: &[u32], shortened: &[u32]) -> Result<(), String> {
    let reply = sodgravel::judge(full, shortened);
    let outcome = Outcome { number: reply.number(), place: reply.place(), size: 0, visits: reply.visits() };
    let given = Reply { yes: reply.is_yes(), outcome };
    if given != expected {
        return Err(format!("independent {expected:?}, library {given:?}"));
    }
    if full != pair.full || shortened != pair.shortened {
        return Err("a sequence has changed".into());
    }
    Ok(())
}

#[derive(Default)]
pub struct Report {
    pub pairs: usize,
    calls: usize,
    said: [usize; 4],
    kinds: BTreeMap<&'static str, [usize; 4]>,
    longest: usize,
}

impl Report {
    pub fn add(&mut self, pair: &Pair, reply: Reply, calls: usize) {
        let column = match (reply.yes, reply.outcome.number) {
            (true, _) => 0,
            (false, 0) => 1,
            (false, 71) => 2,
            (false, _) => 3,
        };
        self.pairs += 1;
        self.calls += calls;
        self.said[column] += 1;
        self.kinds.entry(pair.kind).or_default()[column] += 1;
        if reply.outcome.number == 0 {
            self.longest = self.longest.max(pair.full.len()).max(pair.shortened.len());
        }
    }

    /// What can be said and never was, and the kinds of pairs that did not come up.
    pub fn missing(&self) -> Vec<String> {
        let unsaid = SAID.into_iter().zip(self.said).filter(|(_, count)| *count == 0).map(|(said, _)| said);
        unsaid.chain(pair::kinds().filter(|kind| !self.kinds.contains_key(kind))).map(String::from).collect()
    }
}

impl fmt::Display for Report {
    fn fmt(&self, to: &mut fmt::Formatter) -> fmt::Result {
        let counts = |counts: [usize; 4]| {
            let counts = SAID.iter().zip(counts).map(|(said, count)| format!("{said}:{count}"));
            counts.collect::<Vec<_>>().join(" ")
        };
        writeln!(to, "{} pairs: {}", self.pairs, counts(self.said))?;
        for (kind, said) in &self.kinds {
            writeln!(to, "  {kind}: {}", counts(*said))?;
        }
        write!(to, "{} calls to judge; longest sequence judged {}", self.calls, self.longest)
    }
}
