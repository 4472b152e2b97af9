//! What came up in a run.

use std::collections::BTreeMap;
use std::fmt;

use independent::Outcome;

use crate::case::Case;
use crate::compare::Call;

/// The numbers that can be given. 40 cannot.
const NUMBERS: [u32; 24] = [0, 1, 2, 10, 11, 12, 13, 14, 15, 16, 20, 21, 22, 23, 24, 25, 26, 27, 30, 31, 32, 33, 34, 50];

#[derive(Default)]
pub struct Report {
    pub cases: usize,
    calls: usize,
    numbers: BTreeMap<u32, usize>,
    kinds: BTreeMap<&'static str, [usize; 4]>,
    beyond: usize,
    most_visits: u32,
    longest_response: u32,
}

impl Report {
    pub fn add(&mut self, case: &Case, outcomes: &[(Call, Outcome)]) {
        self.cases += 1;
        self.calls += outcomes.len();
        for (call, outcome) in outcomes {
            *self.numbers.entry(outcome.number).or_default() += 1;
            self.beyond += (outcome.size > 1_000_000) as usize;
            self.most_visits = self.most_visits.max(outcome.visits);
            if outcome.number == 0 && matches!(call, Call::Answer { .. }) {
                self.longest_response = self.longest_response.max(outcome.size);
            }
        }
        let kind = self.kinds.entry(case.kind).or_default();
        let column = 2 * case.damaged as usize;
        kind[column] += 1;
        kind[column + 1] += (outcomes[0].1.number == 0) as usize;
    }

    /// The numbers that can be given and did not come up.
    pub fn missing(&self) -> Vec<u32> {
        NUMBERS.into_iter().filter(|number| !self.numbers.contains_key(number)).collect()
    }
}

impl fmt::Display for Report {
    fn fmt(&self, to: &mut fmt::Formatter) -> fmt::Result {
        writeln!(to, "{} cases, {} calls", self.cases, self.calls)?;
        for (kind, [whole, accepted, damaged, still_accepted]) in &self.kinds {
            writeln!(to, "  {kind}: {whole} whole, {accepted} accepted; {damaged} damaged, {still_accepted} accepted")?;
        }
        writeln!(
            to,
            "sizes above 1,000,000 in {} calls; most visits {}; longest response {}",
            self.beyond, self.most_visits, self.longest_response
        )?;
        write!(to, "how often each number came up:")?;
        for (number, count) in &self.numbers {
            write!(to, " {number}:{count}")?;
        }
        Ok(())
    }
}
