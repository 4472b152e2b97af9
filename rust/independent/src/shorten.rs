//! Whether a response is another one shortened: by making all that can be made of the full one, where it is small, and by a table
//! over pairs of places, for any size.

use std::collections::HashSet;

use crate::outcome::{Outcome, Refusal};
use crate::response::{read, write, Content, Field, Fields};

/// All that can be made of a response is made where there are at most so many ways to choose what is kept.
const MOST_WAYS: usize = 300;

/// Yes or no, and the outcome: number 0, or a refusal.
#[derive(Clone, Copy, Debug, PartialEq, Eq)]
pub struct Reply {
    pub yes: bool,
    pub outcome: Outcome,
}

/// The call that judges a shortened response. Where both ways can be gone they have to agree.
pub fn judge(full: &[u32], shortened: &[u32]) -> Reply {
    let refused = |number| Reply { yes: false, outcome: Outcome::refused(Refusal { number, place: 0 }) };
    let Some(from) = read(full) else { return refused(71) };
    let Some(to) = read(shortened) else { return refused(72) };
    let yes = by_table(&from, &to);
    if let Some(found) = by_enumeration(&from, shortened) {
        assert_eq!(yes, found, "the table does not say what enumeration says");
    }
    Reply { yes, outcome: Outcome::accepted(0, 0) }
}

/// Whether fields can be shortened to others: a table for them, and one for each two objects or lists that meet in it.
fn by_table(full: &[Field], shortened: &[Field]) -> bool {
    table(full, shortened, |one, other| one.label == other.label && becomes(&one.content, &other.content))
}

/// Whether one content can be shortened to another, its field being kept.
fn becomes(full: &Content, shortened: &Content) -> bool {
    match (full, shortened) {
        (Content::Object(one), Content::Object(other)) => by_table(one, other),
        (Content::Objects(some), Content::Objects(others)) => table(some, others, |one, other| by_table(one, other)),
        _ => full == shortened,
    }
}

/// The table over the fields of two objects, or over the objects of two lists: for all pairs of places, whether what stands from
/// the one on in `full` can be shortened to what stands from the other on in `shortened`. To nothing it always can. Else the first
/// in `full` is struck out, or it is kept as the first in `shortened`. The places at the end come first, and `can` holds the row
/// of one place in `full`. Two things meet in one table alone, so that there are no more steps than pairs of things.
fn table<T>(full: &[T], shortened: &[T], kept_as: impl Fn(&T, &T) -> bool) -> bool {
    let mut can = vec![false; shortened.len()];
    can.push(true);
    for one in full.iter().rev() {
        for (place, other) in shortened.iter().enumerate() {
            can[place] = can[place] || (can[place + 1] && kept_as(one, other));
        }
    }
    can[0]
}

/// Whether a sequence is among all that can be made of a response; nothing where that would be too many.
fn by_enumeration(full: &Fields, shortened: &[u32]) -> Option<bool> {
    (ways(full) <= MOST_WAYS).then(|| all_shortened(full).contains(shortened))
}

/// In how many ways it can be chosen what is kept of these fields. Several may come out the same.
fn ways(fields: &Fields) -> usize {
    let of_content = |content: &Content| match content {
        Content::Object(fields) => ways(fields),
        Content::Objects(objects) => product(objects.iter().map(|object| 1 + ways(object))),
        _ => 1,
    };
    product(fields.iter().map(|field| 1 + of_content(&field.content)))
}

/// A product, exact up to the most ways.
fn product(factors: impl Iterator<Item = usize>) -> usize {
    factors.fold(1, |product, factor| (product * factor).min(MOST_WAYS + 1))
}

/// All that can be made by striking out one field or one object of a list, any number of times: breadth first, each once.
fn all_shortened(full: &Fields) -> HashSet<Vec<u32>> {
    let mut known = HashSet::from([write(full)]);
    let mut latest = vec![full.clone()];
    while !latest.is_empty() {
        let next = latest.iter().flat_map(struck_once);
        latest = next.filter(|fields| known.insert(write(fields))).collect();
    }
    known
}

/// What becomes of these fields when one of them, or one thing somewhere in one of them, is struck out.
fn struck_once(fields: &Fields) -> Vec<Fields> {
    let mut results = Vec::new();
    for (index, field) in fields.iter().enumerate() {
        results.push(without(fields, index));
        for content in content_struck_once(&field.content) {
            let mut changed = fields.clone();
            changed[index].content = content;
            results.push(changed);
        }
    }
    results
}

fn content_struck_once(content: &Content) -> Vec<Content> {
    match content {
        Content::Object(fields) => struck_once(fields).into_iter().map(Content::Object).collect(),
        Content::Objects(objects) => objects_struck_once(objects).into_iter().map(Content::Objects).collect(),
        Content::Value(_) | Content::Null | Content::Values(_) => Vec::new(),
    }
}

/// The same for the objects of a list.
fn objects_struck_once(objects: &[Fields]) -> Vec<Vec<Fields>> {
    let mut results = Vec::new();
    for (index, object) in objects.iter().enumerate() {
        results.push(without(objects, index));
        for fields in struck_once(object) {
            let mut changed = objects.to_vec();
            changed[index] = fields;
            results.push(changed);
        }
    }
    results
}

/// All but one.
fn without<T: Clone>(items: &[T], index: usize) -> Vec<T> {
    [&items[..index], &items[index + 1..]].concat()
}

#[cfg(test)]
mod tests {
    use super::{all_shortened, by_table};
    use crate::response::{read, write, Fields};

    /// Two labels, a value, and the marks: enough for every shape.
    const ALPHABET: [u32; 8] =
        [1_000_000_000, 1_000_000_001, 5, 2_000_000_001, 2_000_000_002, 2_000_000_003, 2_000_000_004, 2_000_000_005];

    /// All sequences over the alphabet that have so many tokens and are responses.
    fn responses(length: u32) -> Vec<Fields> {
        let count = ALPHABET.len();
        let digits = |number: usize| (0..length).map(move |place| ALPHABET[number / count.pow(place) % count]);
        (0..count.pow(length)).filter_map(|number| read(&digits(number).collect::<Vec<u32>>())).collect()
    }

    /// The counts are worked out by hand, by the lengths of the fields. A field of 2 tokens is one of 4, of 3 tokens one of 4, of
    /// 4 tokens one of 2, of 5 tokens one of 12 (2 labels; an object with a field of 2 tokens, two values, a list of one `{ }`),
    /// of 6 tokens one of 10 (2 labels; an object with a field of 3 tokens, three values).
    #[test]
    fn as_many_small_responses_are_read_as_there_are() {
        let counts: Vec<usize> = (0..=6).map(|length| responses(length).len()).collect();
        assert_eq!(counts, [1, 0, 4, 4, 16 + 2, 2 * 16 + 12, 64 + 16 + 2 * 8 + 10]);
    }

    #[test]
    fn what_is_read_is_written_the_same() {
        for fields in (0..=6).flat_map(responses) {
            assert_eq!(read(&write(&fields)), Some(fields));
        }
    }

    #[test]
    fn both_ways_agree_on_all_pairs_of_small_responses() {
        let small: Vec<Fields> = (0..=7).flat_map(responses).collect();
        for full in &small {
            let made = all_shortened(full);
            for shortened in &small {
                assert_eq!(by_table(full, shortened), made.contains(&write(shortened)), "{full:?} to {shortened:?}");
            }
        }
    }

    /// Whatever can be made of nested ones, too, and nothing else that can be made of others like them.
    #[test]
    fn both_ways_agree_on_nested_responses() {
        let object = |inside: &[u32]| [&[2_000_000_001], inside, &[2_000_000_002]].concat();
        let list = |inside: &[u32]| [&[1_000_000_000, 2_000_000_003], inside, &[2_000_000_004]].concat();
        let (five, six) = ([1_000_000_001, 5], [1_000_000_001, 6]);
        let both = [five, six].concat();
        let wholes = [
            list(&[object(&five), object(&both), object(&six)].concat()),
            list(&[object(&list(&[object(&both), object(&five)].concat())), object(&list(&object(&six)))].concat()),
            [list(&object(&[six, five].concat())), list(&object(&both)), list(&[])].concat(),
            [vec![1_000_000_000], object(&[both.clone(), list(&object(&five)), list(&[5, 6]), list(&[])].concat())].concat(),
        ];
        let made: Vec<_> = wholes.iter().map(|whole| all_shortened(&read(whole).unwrap())).collect();
        for (whole, own) in wholes.iter().zip(&made) {
            for shortened in made.iter().flatten() {
                let agreed = by_table(&read(whole).unwrap(), &read(shortened).unwrap()) == own.contains(shortened);
                assert!(agreed, "{whole:?} to {shortened:?}");
            }
        }
    }
}
