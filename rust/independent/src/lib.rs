//! The rules of 01, written from 01 and its readings and from nothing else, so that the proved library can be held against
//! them. Parsed structs and hash maps in place of work areas; Definition 6 by direct recursion; multiplicities as exact
//! numbers of any size; every size and every list of visits computed in two ways that have to agree. And the judging of shortened
//! responses, from the request (xi) and its readings, in two ways too.

mod big;
mod evaluate;
mod graph;
mod measure;
mod outcome;
mod query;
mod response;
mod schema;
mod shorten;
mod text;

pub use big::Big;
pub use outcome::{Outcome, Refusal};
pub use shorten::{judge, Reply};

use graph::Graph;
use measure::Measure;
use query::Query;
use schema::Schema;

/// How long each work area has to be, in its own numbers: schema, nodes and edges, properties, values, index,
/// query, rows.
/// From docs/AREAS.md; the independent implementation needs no areas, it only judges their lengths.
pub const NEEDED_LENGTHS: [usize; 7] = [14_728, 15_880, 14_344, 8_200, 3_072, 3_592, 8_192];

/// The largest room that can be given.
pub const LARGEST_ROOM: u32 = 16_384;

/// Whether sizes and visits are computed a second time, by the other definition, and compared.
#[derive(Clone, Copy, PartialEq)]
pub enum Care {
    /// Both ways, with assertions. What the differential test uses.
    Twice,
    /// The multiplicities only. What the benchmark uses.
    Once,
}

/// Three texts that passed every check up to 34.
struct Accepted {
    schema: Schema,
    graph: Graph,
    query: Query,
}

/// The call that sizes a query.
pub fn size(schema: &[u8], graph: &[u8], query: &[u8], area_lengths: [usize; 7]) -> Outcome {
    size_with(Care::Twice, schema, graph, query, area_lengths)
}

/// The call that answers a query: the outcome, and the response buffer afterwards.
pub fn answer(
    schema: &[u8],
    graph: &[u8],
    query: &[u8],
    area_lengths: [usize; 7],
    room: u32,
    buffer: &[u32],
) -> (Outcome, Vec<u32>) {
    let mut after = buffer.to_vec();
    let outcome = answer_with(Care::Twice, schema, graph, query, area_lengths, room, &mut after);
    (outcome, after)
}

/// `size`, with the care to take.
pub fn size_with(care: Care, schema: &[u8], graph: &[u8], query: &[u8], area_lengths: [usize; 7]) -> Outcome {
    let measured = check(schema, graph, query, area_lengths).map(|accepted| accepted.measure(care));
    match measured {
        Ok(measure) => Outcome::accepted(measure.shown_size(), measure.visits),
        Err(refusal) => Outcome::refused(refusal),
    }
}

/// `answer`, with the care to take, into the buffer itself.
pub fn answer_with(
    care: Care,
    schema: &[u8],
    graph: &[u8],
    query: &[u8],
    area_lengths: [usize; 7],
    room: u32,
    buffer: &mut [u32],
) -> Outcome {
    if room > LARGEST_ROOM {
        return Outcome::refused(Refusal { number: 1, place: 0 });
    }
    match check(schema, graph, query, area_lengths) {
        Ok(accepted) => accepted.respond(care, room, buffer),
        Err(refusal) => Outcome::refused(refusal),
    }
}

/// Checks 2 to 34, in ascending order.
fn check(schema: &[u8], graph: &[u8], query: &[u8], area_lengths: [usize; 7]) -> Result<Accepted, Refusal> {
    let short = |(length, needed): (&usize, &usize)| length < needed;
    if area_lengths.iter().zip(&NEEDED_LENGTHS).any(short) {
        return Err(Refusal { number: 2, place: 0 });
    }
    let schema = Schema::read(schema)?;
    let graph = Graph::read(&schema, graph)?;
    let query = Query::read(&schema, query)?;
    Ok(Accepted { schema, graph, query })
}

impl Accepted {
    fn measure(&self, care: Care) -> Measure {
        let measure = measure::by_multiplicities(&self.schema, &self.graph, &self.query);
        if care == Care::Twice {
            measure::assert_met(&self.schema, &self.graph, &self.query, &measure);
        }
        measure
    }

    /// Writes the response where it fits, and refuses with 50 where it does not.
    fn respond(&self, care: Care, room: u32, buffer: &mut [u32]) -> Outcome {
        let measure = self.measure(care);
        let room = buffer.len().min(room as usize);
        if measure.size > Big::from(room as u64) {
            return Outcome { number: 50, place: 0, size: measure.shown_size(), visits: measure.visits };
        }
        let response = evaluate::response(&self.schema, &self.graph, &self.query);
        assert_eq!(Big::from(response.len() as u64), measure.size, "the size is not the response's length");
        buffer[..response.len()].copy_from_slice(&response);
        Outcome::accepted(measure.shown_size(), measure.visits)
    }
}
