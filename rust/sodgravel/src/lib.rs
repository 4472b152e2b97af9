//! A safe wrapper over the proved static library: three calls, typed outcomes and replies, and the response as tokens.
//!
//! ```no_run
//! use sodgravel::{tokens, Areas, Texts, LARGEST_ROOM};
//!
//! let (schema, graph, query) = (b"..", b"..", b"..");
//! let texts = Texts { schema, graph, query };
//! let mut areas = Areas::new();
//! let mut response = vec![0; LARGEST_ROOM as usize];
//! let outcome = areas.answer(texts, LARGEST_ROOM, &mut response);
//! if outcome.is_accepted() {
//!     tokens(&response[..outcome.size() as usize]).for_each(|token| println!("{token}"));
//! }
//! ```
//!
//! Whether a response is another one shortened, `judge` says:
//!
//! ```
//! use sodgravel::judge;
//! use sodgravel::numbers::{CLOSE_OBJECT, LABELS, OPEN_OBJECT};
//!
//! let full = [LABELS, OPEN_OBJECT, LABELS + 1, 5, CLOSE_OBJECT];
//! let shortened = [LABELS, OPEN_OBJECT, CLOSE_OBJECT];
//! assert!(judge(&full, &shortened).is_yes());
//! ```
//!
//! The library promises, for any texts, areas, room and buffer: every call returns; a refused call changes nothing in the
//! response buffer, and an accepted answer its first `size` numbers only; every area holds zeros afterwards. And for any two
//! sequences: `judge` says yes exactly when the second can be made from the first by striking out whole fields or whole objects
//! of a list. Nothing proves that the declarations here are those of the library: tests/declarations.rs holds them to
//! include/sodgravel.h.

mod areas;
mod outcome;
pub mod raw;
mod reply;
mod token;

pub use areas::{Areas, LentAreas, NEEDED_LENGTHS};
pub use outcome::{Outcome, Refusal};
pub use reply::Reply;
pub use token::{numbers, tokens, Token, Tokens};

/// The longest text, in bytes. A longer one is refused.
pub const LONGEST_TEXT: usize = 65_535;

/// The largest room. A larger one is refused.
pub const LARGEST_ROOM: u32 = 16_384;

/// Sizes are exact up to this one.
pub const LARGEST_SIZE: u32 = 1_000_000;

/// The size shown for all that are larger.
pub const SIZE_BEYOND: u32 = 1_000_001;

/// The most tokens of a sequence that is judged. A longer one is refused.
pub const MOST_TOKENS: usize = 16_384;

/// The most `{` that are open at once in a sequence that is judged. One with more is refused.
pub const MOST_OPEN: u32 = 16;

/// The three texts of a call.
#[derive(Clone, Copy, Debug)]
pub struct Texts<'a> {
    pub schema: &'a [u8],
    pub graph: &'a [u8],
    pub query: &'a [u8],
}

/// Sizes a query in lent areas.
pub fn size(texts: Texts, areas: LentAreas) -> Outcome {
    // SAFETY: each pointer comes with the length of its own slice. The areas are exclusive references, so that none overlaps
    // another or a text.
    let outcome = unsafe {
        raw::sodgravel_size(
            texts.schema.as_ptr(),
            texts.schema.len(),
            texts.graph.as_ptr(),
            texts.graph.len(),
            texts.query.as_ptr(),
            texts.query.len(),
            areas.schema.as_mut_ptr(),
            areas.schema.len(),
            areas.nodes.as_mut_ptr(),
            areas.nodes.len(),
            areas.properties.as_mut_ptr(),
            areas.properties.len(),
            areas.values.as_mut_ptr(),
            areas.values.len(),
            areas.index.as_mut_ptr(),
            areas.index.len(),
            areas.query.as_mut_ptr(),
            areas.query.len(),
            areas.rows.as_mut_ptr(),
            areas.rows.len(),
        )
    };
    Outcome::from(outcome)
}

/// Answers a query in lent areas, into a response buffer.
pub fn answer(texts: Texts, areas: LentAreas, room: u32, response: &mut [u32]) -> Outcome {
    // SAFETY: as in `size`; the response buffer is an exclusive reference too.
    let outcome = unsafe {
        raw::sodgravel_answer(
            texts.schema.as_ptr(),
            texts.schema.len(),
            texts.graph.as_ptr(),
            texts.graph.len(),
            texts.query.as_ptr(),
            texts.query.len(),
            areas.schema.as_mut_ptr(),
            areas.schema.len(),
            areas.nodes.as_mut_ptr(),
            areas.nodes.len(),
            areas.properties.as_mut_ptr(),
            areas.properties.len(),
            areas.values.as_mut_ptr(),
            areas.values.len(),
            areas.index.as_mut_ptr(),
            areas.index.len(),
            areas.query.as_mut_ptr(),
            areas.query.len(),
            areas.rows.as_mut_ptr(),
            areas.rows.len(),
            room,
            response.as_mut_ptr(),
            response.len(),
        )
    };
    Outcome::from(outcome)
}

/// Judges a shortened response: whether it can be made from the full one by striking out whole fields or whole objects of a list.
pub fn judge(full: &[u32], shortened: &[u32]) -> Reply {
    // SAFETY: each pointer comes with the length of its own slice. Both slices are only read, and may overlap.
    let reply = unsafe { raw::sodgravel_judge(full.as_ptr(), full.len(), shortened.as_ptr(), shortened.len()) };
    Reply::from(reply)
}
