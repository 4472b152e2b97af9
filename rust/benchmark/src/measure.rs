//! Times of single calls.

use std::hint::black_box;
use std::time::Instant;

use independent::{answer_with, size_with, Care, Outcome, LARGEST_ROOM, NEEDED_LENGTHS};
use sodgravel::{Areas, Texts};

use crate::inputs::Input;

/// What one input costs: seconds for a call of each kind, and the outcomes, which both implementations share.
pub struct Cost {
    pub sized: Outcome,
    pub answered: Outcome,
    pub library_size: f64,
    pub library_answer: f64,
    pub independent_size: f64,
    pub independent_answer: f64,
}

impl Cost {
    /// Takes the lower of each two times.
    pub fn lower_to(&mut self, other: &Cost) {
        self.library_size = self.library_size.min(other.library_size);
        self.library_answer = self.library_answer.min(other.library_answer);
        self.independent_size = self.independent_size.min(other.independent_size);
        self.independent_answer = self.independent_answer.min(other.independent_answer);
    }
}

/// Seconds of one call: the best of eight rounds, each of as many calls as take a twentieth of a second at least.
fn seconds(mut call: impl FnMut()) -> f64 {
    let mut calls = 1;
    let mut round = |calls: u32| {
        let start = Instant::now();
        (0..calls).for_each(|_| call());
        start.elapsed().as_secs_f64()
    };
    while calls < 1 << 20 && round(calls) < 0.05 {
        calls *= 2;
    }
    let best = (0..8).map(|_| round(calls)).fold(f64::INFINITY, f64::min);
    best / calls as f64
}

/// The times of both implementations, and the check that they agree.
pub fn cost(input: &Input) -> Cost {
    let texts = Texts { schema: input.schema.as_bytes(), graph: input.graph.as_bytes(), query: input.query.as_bytes() };
    let mut areas = Areas::new();
    let mut response = vec![0; LARGEST_ROOM as usize];
    let sized = plain(areas.size(texts));
    let answered = plain(areas.answer(texts, LARGEST_ROOM, &mut response));

    let (schema, graph, query) = (texts.schema, texts.graph, texts.query);
    let mut other = vec![0; LARGEST_ROOM as usize];
    assert_eq!(size_with(Care::Once, schema, graph, query, NEEDED_LENGTHS), sized, "{}", input.name);
    let independently = answer_with(Care::Once, schema, graph, query, NEEDED_LENGTHS, LARGEST_ROOM, &mut other);
    assert_eq!(independently, answered, "{}", input.name);
    assert_eq!(other, response, "{}", input.name);

    Cost {
        sized,
        answered,
        library_size: library_size(input),
        library_answer: seconds(|| {
            black_box(areas.answer(black_box(texts), LARGEST_ROOM, &mut response));
        }),
        independent_size: seconds(|| {
            black_box(size_with(Care::Once, black_box(schema), graph, query, NEEDED_LENGTHS));
        }),
        independent_answer: seconds(|| {
            let room = LARGEST_ROOM;
            black_box(answer_with(Care::Once, black_box(schema), graph, query, NEEDED_LENGTHS, room, &mut other));
        }),
    }
}

/// Seconds of one sizing by the library.
pub fn library_size(input: &Input) -> f64 {
    let texts = Texts { schema: input.schema.as_bytes(), graph: input.graph.as_bytes(), query: input.query.as_bytes() };
    let mut areas = Areas::new();
    seconds(|| {
        black_box(areas.size(black_box(texts)));
    })
}

/// Seconds of one sizing by the independent implementation.
pub fn independent_size(input: &Input) -> f64 {
    let (schema, graph, query) = (input.schema.as_bytes(), input.graph.as_bytes(), input.query.as_bytes());
    seconds(|| {
        black_box(size_with(Care::Once, black_box(schema), graph, query, NEEDED_LENGTHS));
    })
}

fn plain(outcome: sodgravel::Outcome) -> Outcome {
    Outcome { number: outcome.number(), place: outcome.place(), size: outcome.size(), visits: outcome.visits() }
}
