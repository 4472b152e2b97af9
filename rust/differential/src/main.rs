//! The differential test: seeded random calls through the independent implementation and the library. First cases of three texts,
//! for sizing and answering; then pairs of token sequences, for judging.
//!
//!     differential                     20,000 cases from seed 1, after those of seeds.txt, and 40,000 pairs, after those of
//!                                      pair_seeds.txt
//!     differential --cases N --pairs M --seed S
//!                                      a longer or another run
//!     differential --only SEED         the case of one seed, printed whole
//!     differential --only-pair SEED    the pair of one seed, printed whole
//!     differential --trace             says each seed before its case or pair runs, for a library that ends the program
//!
//! A disagreement prints the case or the pair and its seed, and ends the run with status 1. So does a run of 20,000 cases or more
//! in which a number that can be given did not come up, and one of 40,000 pairs or more in which yes, no, 71, 72 or a kind of
//! pairs did not.

mod case;
mod changes;
mod compare;
mod counts;
mod damage;
mod extremes;
mod graph;
mod judge;
mod lent;
mod pair;
mod query;
mod random;
mod report;
mod response;
mod schema;
mod special;
mod token_damage;
mod twins;

use std::panic::{catch_unwind, AssertUnwindSafe};
use std::process::ExitCode;
use std::time::Instant;

use case::Case;
use pair::Pair;
use random::Random;
use report::Report;

const DEFAULT_CASES: u64 = 20_000;
const DEFAULT_PAIRS: u64 = 40_000;

/// Seeds of cases and of pairs that once found something, a line each; what follows a `#` says what.
const KEPT_SEEDS: &str = include_str!("../seeds.txt");
const KEPT_PAIR_SEEDS: &str = include_str!("../pair_seeds.txt");

const USAGE: &str = "differential [--cases N] [--pairs M] [--seed S] [--only SEED] [--only-pair SEED] [--trace]";

struct Arguments {
    cases: u64,
    pairs: u64,
    seed: u64,
    only: Option<Only>,
    trace: bool,
}

/// The one case or pair that is asked for, by its seed.
#[derive(Clone, Copy, PartialEq)]
enum Only {
    Case(u64),
    Pair(u64),
}

fn arguments() -> Result<Arguments, String> {
    let mut arguments = Arguments { cases: DEFAULT_CASES, pairs: DEFAULT_PAIRS, seed: 1, only: None, trace: false };
    let mut words = std::env::args().skip(1);
    while let Some(word) = words.next() {
        if word == "--trace" {
            arguments.trace = true;
            continue;
        }
        let number = words.next().and_then(|number| number.parse().ok()).ok_or(format!("{word} wants a number"))?;
        match word.as_str() {
            "--cases" => arguments.cases = number,
            "--pairs" => arguments.pairs = number,
            "--seed" => arguments.seed = number,
            "--only" => arguments.only = Some(Only::Case(number)),
            "--only-pair" => arguments.only = Some(Only::Pair(number)),
            _ => return Err(format!("usage: {USAGE}, not {word}")),
        }
    }
    Ok(arguments)
}

impl Arguments {
    /// The seeds of the cases.
    fn case_seeds(&self) -> Vec<u64> {
        match self.only {
            None => self.seeds(KEPT_SEEDS, self.cases),
            Some(Only::Case(seed)) => vec![seed],
            Some(Only::Pair(_)) => Vec::new(),
        }
    }

    /// The seeds of the pairs.
    fn pair_seeds(&self) -> Vec<u64> {
        match self.only {
            None => self.seeds(KEPT_PAIR_SEEDS, self.pairs),
            Some(Only::Pair(seed)) => vec![seed],
            Some(Only::Case(_)) => Vec::new(),
        }
    }

    /// The kept seeds, and so many from the run's own.
    fn seeds(&self, kept: &str, count: u64) -> Vec<u64> {
        let kept = kept.lines().map(|line| line.split('#').next().unwrap_or("").trim()).filter(|seed| !seed.is_empty());
        let kept = kept.map(|seed| seed.parse().expect("a file of seeds has numbers only"));
        let mut from_run = Random::new(self.seed);
        kept.chain((0..count).map(|_| from_run.next())).collect()
    }

    fn say(&self, seed: u64) {
        if self.trace {
            eprintln!("seed {seed}");
        }
    }
}

/// What a run comes to; what is said of a failed assertion, otherwise.
fn caught<T>(run: impl FnOnce() -> Result<T, String>) -> Result<T, String> {
    catch_unwind(AssertUnwindSafe(run)).unwrap_or_else(|_| Err("an assertion failed (see above)".into()))
}

/// Runs the cases, and says what came up. What did not though it should have; or the first disagreement.
fn run_cases(arguments: &Arguments) -> Result<Vec<String>, String> {
    let mut report = Report::default();
    for seed in arguments.case_seeds() {
        arguments.say(seed);
        let case = Case::from_seed(seed);
        if arguments.only.is_some() {
            println!("{case}");
        }
        let outcomes = caught(|| compare::run(&case)).map_err(|said| {
            let again = format!("after {} cases without one; again: differential --only {seed}", report.cases);
            format!("DISAGREEMENT\n{case}\n{said}\n{again}")
        })?;
        report.add(&case, &outcomes);
    }
    if report.cases > 0 {
        println!("{report}");
    }
    let missing = report.missing().into_iter().map(|number| number.to_string());
    Ok(missing.filter(|_| arguments.only.is_none() && arguments.cases >= DEFAULT_CASES).collect())
}

/// Runs the pairs in the same way.
fn run_pairs(arguments: &Arguments) -> Result<Vec<String>, String> {
    let mut report = judge::Report::default();
    for seed in arguments.pair_seeds() {
        arguments.say(seed);
        let pair = Pair::from_seed(seed);
        if arguments.only.is_some() {
            println!("{pair}");
        }
        let (reply, calls) = caught(|| judge::run(&pair)).map_err(|said| {
            let again = format!("after {} pairs without one; again: differential --only-pair {seed}", report.pairs);
            format!("DISAGREEMENT\n{pair}\n{said}\n{again}")
        })?;
        report.add(&pair, reply, calls);
    }
    if report.pairs > 0 {
        println!("{report}");
    }
    let missing = report.missing().into_iter();
    Ok(missing.filter(|_| arguments.only.is_none() && arguments.pairs >= DEFAULT_PAIRS).collect())
}

/// Both parts of the run; what ends it, otherwise.
fn run(arguments: &Arguments) -> Result<(), String> {
    let start = Instant::now();
    let missing = [run_cases(arguments)?, run_pairs(arguments)?].concat();
    println!("seed {}, {:.1} s, no disagreement", arguments.seed, start.elapsed().as_secs_f64());
    if missing.is_empty() {
        return Ok(());
    }
    Err(format!("these did not come up: {missing:?}"))
}

fn main() -> ExitCode {
    let arguments = match arguments() {
        Ok(arguments) => arguments,
        Err(usage) => {
            eprintln!("{usage}");
            return ExitCode::from(2);
        }
    };
    match run(&arguments) {
        Ok(()) => ExitCode::SUCCESS,
        Err(said) => {
            println!("{said}");
            ExitCode::FAILURE
        }
    }
}
