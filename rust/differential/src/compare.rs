//! One case through both, compared in all that a call returns and leaves.

use independent::{Outcome, LARGEST_ROOM};
use sodgravel::{LentAreas, Texts};

use crate::case::Case;
use crate::lent::Lent;
use crate::random::Random;

/// What a call is asked for.
#[derive(Clone, Copy, Debug)]
pub enum Call {
    Size,
    Answer { room: u32, length: usize },
}

/// The calls of a case with the outcomes that both gave; or what they disagree on.
pub fn run(case: &Case) -> Result<Vec<(Call, Outcome)>, String> {
    let mut random = Random::new(!case.seed);
    let sized = compare(case, Call::Size, &mut random)?;
    let mut outcomes = vec![(Call::Size, sized)];
    for around in [false, true] {
        let call = random_answer(&mut random, sized.size, around);
        outcomes.push((call, compare(case, call, &mut random)?));
    }
    Ok(outcomes)
}

/// A room and a buffer's length: anything, or around the size.
fn random_answer(random: &mut Random, size: u32, around: bool) -> Call {
    let largest = LARGEST_ROOM;
    let room = match (around, random.below(40)) {
        (_, 0) => random.pick(&[largest + 1, largest + 2, 1_000_000, u32::MAX]),
        (true, _) => random.pick(&[size.saturating_sub(1), size, size, size + 1]).min(largest),
        (false, 1..25) => largest,
        (false, 25..30) => random.below(200) as u32,
        (false, _) => random.below(16_385) as u32,
    };
    let fitting = room.min(largest) as usize;
    let needed = size.min(largest) as usize;
    let length = match random.below(10) {
        0..5 => fitting,
        5 => fitting.saturating_sub(1),
        6 => fitting + random.pick(&[1, 2, 1_000]),
        7 => needed,
        8 => needed.saturating_sub(1),
        _ => random.pick(&[0, needed + 1, LARGEST_ROOM as usize, 20_000]),
    };
    Call::Answer { room, length }
}

/// One call to both.
fn compare(case: &Case, call: Call, random: &mut Random) -> Result<Outcome, String> {
    let mut areas = [0, 1, 2, 3, 4, 5].map(|area| Lent::<u32>::filled(random, case.lengths[area], case.margin));
    let mut rows = Lent::<u64>::filled(random, case.lengths[6], case.margin);
    let length = if let Call::Answer { length, .. } = call { length } else { 0 };
    let mut buffer = Lent::<u32>::filled(random, length, case.margin);
    let (expected, response) = independently(case, call, buffer.inside());
    let given = by_library(case, call, &mut areas, &mut rows, &mut buffer);

    let same = |what: &str, right: bool| if right { Ok(()) } else { Err(format!("{call:?}: {what}")) };
    same(&format!("independent {expected:?}, library {given:?}"), given == expected)?;
    same(&first_difference(&response, buffer.inside()), response == buffer.inside())?;
    for (index, area) in areas.iter().enumerate() {
        same(&format!("area {index} is not all zeros"), area.is_zeroed())?;
        same(&format!("something beside area {index} has changed"), area.margins_kept())?;
    }
    same("the rows are not all zeros", rows.is_zeroed())?;
    same("something beside the rows has changed", rows.margins_kept())?;
    same("something beside the buffer has changed", buffer.margins_kept())?;
    Ok(expected)
}

fn independently(case: &Case, call: Call, buffer: &[u32]) -> (Outcome, Vec<u32>) {
    let [schema, graph, query] = &case.texts;
    match call {
        Call::Size => (independent::size(schema, graph, query, case.lengths), buffer.to_vec()),
        Call::Answer { room, .. } => independent::answer(schema, graph, query, case.lengths, room, buffer),
    }
}

fn by_library(case: &Case, call: Call, areas: &mut [Lent<u32>; 6], rows: &mut Lent<u64>, buffer: &mut Lent<u32>) -> Outcome {
    let [schema, graph, query] = &case.texts;
    let texts = Texts { schema, graph, query };
    let [a, g, p, v, x, q] = areas.each_mut().map(Lent::inside_mut);
    let lent = LentAreas { schema: a, nodes: g, properties: p, values: v, index: x, query: q, rows: rows.inside_mut() };
    let outcome = match call {
        Call::Size => sodgravel::size(texts, lent),
        Call::Answer { room, .. } => sodgravel::answer(texts, lent, room, buffer.inside_mut()),
    };
    Outcome { number: outcome.number(), place: outcome.place(), size: outcome.size(), visits: outcome.visits() }
}

/// Where two buffers differ, and what stands there.
fn first_difference(expected: &[u32], given: &[u32]) -> String {
    let place = expected.iter().zip(given).position(|(one, other)| one != other).unwrap_or(0);
    let shown = |numbers: &[u32]| numbers[place..].iter().take(8).copied().collect::<Vec<_>>();
    format!("buffers differ from {place} on: independent {:?}, library {:?}", shown(expected), shown(given))
}
