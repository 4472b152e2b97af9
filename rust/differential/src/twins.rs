//! Pairs in which the first that looks right is wrong, and shows it late: behind all that stands in it, however deep that is.

use crate::changes;
use crate::pair::Sequences;
use crate::random::Random;
use crate::response::{struck, tokens, Content, Field, Fields};

/// A full response is not made longer by a further twin from here on.
const LONG: usize = 3_000;

/// A response and what it can be shortened to, made side by side from the innermost object outwards.
struct Both {
    full: Fields,
    shortened: Fields,
}

/// A pair of up to 16 objects, one in the other, some with a twin before them; the shortened sometimes struck out or changed.
pub fn twins(random: &mut Random) -> Sequences {
    let depth = random.pick(&[1, 2, 3, 5, 8, 15, 16, 16, 16, 16]);
    let listed = random.pick(&[0, 500, 1_000, 1_000]);
    let twinned = random.pick(&[100, 250, 500]);
    let mut both = Both { full: Fields::new(), shortened: Fields::new() };
    for _ in 0..depth {
        let twin = random.chance(twinned) && tokens(&both.full).len() < LONG;
        both = match (random.chance(listed), twin) {
            (false, false) => both.map(|fields| vec![object(with_tail(fields, 1))]),
            (true, false) => both.map(|fields| vec![list(vec![with_tail(fields, 1)])]),
            (false, true) => both.twin_objects(random),
            (true, true) => both.twin_in_list(random),
        };
    }
    match random.below(10) {
        0..2 => both.shortened = struck(random, &both.shortened),
        2 => drop(changes::value_changed(random, &mut both.shortened)),
        3 => drop(changes::field_moved(random, &mut both.shortened)),
        _ => {}
    }
    (tokens(&both.full), tokens(&both.shortened))
}

fn object(inside: Fields) -> Field {
    Field { label: 0, content: Content::Object(inside) }
}

fn list(objects: Vec<Fields>) -> Field {
    Field { label: 0, content: Content::Objects(objects) }
}

/// These fields, and one with a value behind them.
fn with_tail(fields: &Fields, value: u32) -> Fields {
    let mut fields = fields.clone();
    fields.push(Field { label: 1, content: Content::Value(value) });
    fields
}

impl Both {
    fn map(&self, wrap: impl Fn(&Fields) -> Fields) -> Both {
        Both { full: wrap(&self.full), shortened: wrap(&self.shortened) }
    }

    /// What the full has before the right one: the same with another tail, or with none.
    fn twin(&self, random: &mut Random) -> Fields {
        if random.chance(500) {
            return self.full.clone();
        }
        with_tail(&self.full, 0)
    }

    /// Two fields with an object each.
    fn twin_objects(&self, random: &mut Random) -> Both {
        let full = vec![object(self.twin(random)), object(with_tail(&self.full, 1))];
        Both { full, shortened: vec![object(with_tail(&self.shortened, 1))] }
    }

    /// Two objects of one list, or two lists of which the first is an object short.
    fn twin_in_list(&self, random: &mut Random) -> Both {
        let (whole, left) = (with_tail(&self.full, 1), with_tail(&self.shortened, 1));
        if random.chance(500) {
            let full = vec![list(vec![self.twin(random), whole])];
            return Both { full, shortened: vec![list(vec![left])] };
        }
        let full = vec![list(vec![whole.clone()]), list(vec![whole, Fields::new()])];
        Both { full, shortened: vec![list(vec![left, Fields::new()])] }
    }
}
