//! The benchmark: one command, one run, no arguments.
//!
//!     cargo run --release --offline -p benchmark
//!
//! It writes tables in Markdown: time per call, tokens a second and ratios for the library, the independent implementation and
//! graphql-core on the same inputs; then how the library's sizing grows with entries, nodes and edges. It is no test: nothing
//! fails for being slow. With `--once NAME` it makes calls to the library on one input for some seconds, for a profiler.

mod inputs;
mod measure;
mod python;

use inputs::{worst_sizing, Input};
use measure::{cost, Cost};
use python::Measured;

/// How often all is measured, some time apart: a machine that is slow for seconds does not decide a figure.
const PASSES: usize = 4;

fn main() {
    let words: Vec<String> = std::env::args().skip(1).collect();
    if let [flag, name] = &words[..] {
        assert_eq!(flag, "--once", "usage: benchmark [--once NAME]");
        return profile(name);
    }
    let inputs = inputs::all();
    let mut costs: Vec<Cost> = inputs.iter().map(cost).collect();
    for _ in 1..PASSES {
        costs.iter_mut().zip(&inputs).for_each(|(known, input)| known.lower_to(&cost(input)));
    }
    let accepted: Vec<&Input> =
        inputs.iter().zip(&costs).filter(|(_, cost)| cost.sized.number == 0).map(|(input, _)| input).collect();
    let others = python::measure(&accepted);
    print_inputs(&inputs, &costs);
    print_times(&inputs, &costs, others);
    print_growth();
}

/// Calls on one input for some seconds.
fn profile(name: &str) {
    let input = inputs::all().into_iter().find(|input| input.name == name).unwrap_or_else(|| panic!("no input {name}"));
    println!("{} a sizing", time(measure::library_size(&input)));
}

/// What the inputs are, and what came out.
fn print_inputs(inputs: &[Input], costs: &[Cost]) {
    println!("| input | bytes of schema, graph, query | sizing | answering |\n|---|---|---|---|");
    for (input, cost) in inputs.iter().zip(costs) {
        let bytes = format!("{}, {}, {}", input.schema.len(), input.graph.len(), input.query.len());
        println!("| {} | {bytes} | {} | {} |", input.name, outcome(&cost.sized), outcome(&cost.answered));
    }
    println!();
}

fn outcome(outcome: &independent::Outcome) -> String {
    match outcome.number {
        0 => format!("{} tokens, {} visits", outcome.size, outcome.visits),
        number => format!("refused, {number} at {}", outcome.place),
    }
}

fn print_times(inputs: &[Input], costs: &[Cost], others: Result<Vec<Measured>, String>) {
    let said = others.as_ref().err().cloned();
    let mut others = others.unwrap_or_default().into_iter();
    println!(
        "| input | call | library | independent | ratio | graphql-core, executing | ratio | graphql-core, whole | ratio |"
    );
    println!("|---|---|---|---|---|---|---|---|---|");
    for (input, cost) in inputs.iter().zip(costs) {
        let other = if cost.sized.number == 0 { others.next() } else { None };
        if let Some(other) = other {
            assert_eq!(other.tokens, cost.sized.size, "{}: graphql-core's response has another size", input.name);
        }
        let name = &input.name;
        println!("{} - | - | - | - |", ours(name, "size", cost.library_size, cost.independent_size));
        let row = ours(name, "answer", cost.library_answer, cost.independent_answer);
        match other {
            Some(other) => println!("{row} {}", theirs(other, cost.library_answer)),
            None => println!("{row} - | - | - | - |"),
        }
    }
    println!();
    if let Some(said) = said {
        println!("graphql-core's columns are empty: {said}.\n");
    }
    print_rates(inputs, costs);
}

fn ours(name: &str, call: &str, library: f64, independent: f64) -> String {
    format!("| {name} | {call} | {} | {} | {} |", time(library), time(independent), ratio(independent, library))
}

fn theirs(other: Measured, library: f64) -> String {
    let (execute, whole) = (other.execute, other.whole);
    format!("{} | {} | {} | {} |", time(execute), ratio(execute, library), time(whole), ratio(whole, library))
}

/// Tokens a second, where there is an answer.
fn print_rates(inputs: &[Input], costs: &[Cost]) {
    println!("| answer | tokens | library, tokens a second | independent, tokens a second |\n|---|---|---|---|");
    for (input, cost) in inputs.iter().zip(costs).filter(|(_, cost)| cost.answered.number == 0) {
        let tokens = cost.answered.size as f64;
        let rates = [cost.library_answer, cost.independent_answer].map(|seconds| rate(tokens / seconds));
        println!("| {} | {tokens} | {} | {} |", input.name, rates[0], rates[1]);
    }
    println!();
}

/// The sizing when entries, nodes and edges are doubled, one at a time.
fn print_growth() {
    println!("| doubled | entries | nodes | edges | library, size | times the one before | independent, size | times the one before |");
    println!("|---|---|---|---|---|---|---|---|");
    let entries = [2, 4, 8, 16].map(|chains| (chains, 512, 1_024));
    let nodes = [64, 128, 256, 512].map(|nodes| (17, nodes, 1_024));
    let edges = [128, 256, 512, 1_024].map(|edges| (17, 64, edges));
    for (what, steps) in [("entries", entries), ("nodes", nodes), ("edges", edges)] {
        let inputs = steps.map(|(chains, nodes, edges)| worst_sizing(what, chains, nodes, edges));
        let mut times = [[f64::INFINITY; 2]; 4];
        for _ in 0..PASSES {
            for (known, input) in times.iter_mut().zip(&inputs) {
                *known = [known[0].min(measure::library_size(input)), known[1].min(measure::independent_size(input))];
            }
        }
        let mut before: Option<[f64; 2]> = None;
        for ((chains, nodes, edges), now) in steps.into_iter().zip(times) {
            let factor = |which: usize| before.map_or("".into(), |before| ratio(now[which], before[which]));
            let counts = format!("{} | {nodes} | {edges}", 1 + 15 * chains);
            println!("| {what} | {counts} | {} | {} | {} | {} |", time(now[0]), factor(0), time(now[1]), factor(1));
            before = Some(now);
        }
    }
}

fn time(seconds: f64) -> String {
    match seconds {
        0.1.. => format!("{seconds:.2} s"),
        1e-4.. => format!("{:.2} ms", seconds * 1e3),
        _ => format!("{:.1} µs", seconds * 1e6),
    }
}

fn ratio(one: f64, other: f64) -> String {
    let ratio = one / other;
    if ratio >= 100.0 {
        return format!("{ratio:.0}");
    }
    format!("{ratio:.2}")
}

fn rate(tokens_a_second: f64) -> String {
    format!("{:.2} million", tokens_a_second / 1e6)
}
