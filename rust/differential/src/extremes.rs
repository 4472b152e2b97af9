//! Responses at, below and above the most tokens and the most open objects.

use crate::pair::Sequences;
use crate::random::Random;
use crate::response::{strike, struck, tokens, Content, Field, Fields, Shape};
use crate::token_damage;

const MOST_TOKENS: usize = 16_384;

/// A pair of which at least the full is as long as a response can be, or nearly so, or longer.
pub fn longest(random: &mut Random) -> Sequences {
    let full = long(random);
    let mut left = full.clone();
    match random.below(8) {
        0 => {}
        1..4 => strike(random, 1, &mut left),
        4 => strike(random, 500, &mut left),
        5 => left.push(Field { label: 0, content: Content::Null }),
        6 => left = Shape::small(random).response(random),
        _ => left = long(random),
    }
    let mut sequences = [tokens(&full), tokens(&left)];
    if random.chance(150) {
        let which = random.below(2);
        token_damage::at_the_end(random, &mut sequences[which]);
    }
    let [full, shortened] = sequences;
    if random.chance(200) {
        return (shortened, full);
    }
    (full, shortened)
}

/// A response of a chosen number of tokens.
fn long(random: &mut Random) -> Fields {
    let most = MOST_TOKENS;
    let wanted = random.pick(&[most - 1, most, most, most, most, most + 1, most + 2, 20_000, 40_000]);
    let values = random.pick(&[1, 2, 1_000_000]);
    match random.below(5) {
        0 => filled(random, Fields::new(), wanted, values),
        1 => list_of_values(random, wanted, values),
        2 => list_of_objects(random, wanted, values),
        3 => {
            let some = Shape::middling(random).response(random);
            filled(random, some, wanted, values)
        }
        _ => {
            let mut fields = list_of_values(random, wanted / 2, values);
            fields.extend(list_of_objects(random, wanted / 4, values));
            filled(random, fields, wanted, values)
        }
    }
}

fn some_field(random: &mut Random, values: usize) -> Field {
    Field { label: random.below(2) as u32, content: Content::Value(random.below(values) as u32) }
}

/// Fields of two tokens behind these, until there are so many; one of three, `[ ]`, where two do not come out even.
fn filled(random: &mut Random, mut fields: Fields, wanted: usize, values: usize) -> Fields {
    let mut left = wanted.saturating_sub(tokens(&fields).len());
    if left % 2 == 1 && left > 2 {
        fields.push(Field { label: 0, content: Content::Values(Vec::new()) });
        left -= 3;
    }
    fields.extend((0..left / 2).map(|_| some_field(random, values)));
    fields
}

/// One field, a list of as many values as fill up the tokens.
fn list_of_values(random: &mut Random, wanted: usize, values: usize) -> Fields {
    let values = (3..wanted).map(|_| random.below(values) as u32).collect();
    vec![Field { label: 0, content: Content::Values(values) }]
}

/// One field, a list of objects of two tokens or of four, the first of five where they do not come out even.
fn list_of_objects(random: &mut Random, wanted: usize, values: usize) -> Fields {
    let mut left = wanted - 3;
    let mut objects = Vec::new();
    if left % 2 == 1 {
        objects.push(vec![Field { label: 0, content: Content::Values(Vec::new()) }]);
        left -= 5;
    }
    let with_field = random.pick(&[0, 500, 1_000]);
    while left > 0 {
        let object = if left >= 4 && random.chance(with_field) { vec![some_field(random, values)] } else { Vec::new() };
        left -= 2 + 2 * object.len();
        objects.push(object);
    }
    vec![Field { label: 0, content: Content::Objects(objects) }]
}

/// A pair of which at least the full is as deep as a response can be, or nearly so, or deeper.
pub fn deepest(random: &mut Random) -> Sequences {
    let full = deep(random);
    let shortened = match random.below(6) {
        0 => full.clone(),
        1 => struck(random, &full),
        2..4 => {
            let mut left = full.clone();
            strike(random, 30, &mut left);
            left
        }
        4 => vec![wrapped(random, 500, full.clone())],
        _ => deep(random),
    };
    if random.chance(200) {
        return (tokens(&shortened), tokens(&full));
    }
    (tokens(&full), tokens(&shortened))
}

/// A response with so many objects one in the other; sometimes with another one behind it.
fn deep(random: &mut Random) -> Fields {
    let depth = random.pick(&[14, 15, 15, 16, 16, 16, 16, 17, 17, 18, 40]);
    let mut fields = nested(random, depth);
    if random.chance(300) {
        let depth = random.pick(&[1, 15, 16, 16, 17]);
        fields.extend(nested(random, depth));
    }
    fields
}

/// So many objects one in the other: none of them in a list, all, or some.
fn nested(random: &mut Random, depth: usize) -> Fields {
    let listed = random.pick(&[0, 500, 1_000]);
    let crowded = random.pick(&[0, 0, 100, 400]);
    let mut fields = Fields::new();
    for _ in 0..depth {
        fields = vec![wrapped(random, listed, fields)];
        if random.chance(crowded) {
            fields.insert(random.below(2), some_field(random, 2));
        }
    }
    fields
}

/// A field with an object in which these fields stand, or with a list of it, so many times in a thousand.
fn wrapped(random: &mut Random, listed: usize, fields: Fields) -> Field {
    let content = match (random.chance(listed), random.below(3)) {
        (false, _) => Content::Object(fields),
        (true, 0) => Content::Objects(vec![Vec::new(), fields]),
        (true, 1) => Content::Objects(vec![fields, Vec::new()]),
        (true, _) => Content::Objects(vec![fields]),
    };
    Field { label: random.below(2) as u32, content }
}
