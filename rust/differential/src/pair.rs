//! A pair of sequences to judge, all from one seed.

use std::fmt;

use sodgravel::Token;

use crate::changes::{self, Change};
use crate::extremes;
use crate::random::Random;
use crate::response::{struck, tokens, Fields, Shape};
use crate::token_damage::{self, Damage};
use crate::twins;

/// The full and the shortened.
pub type Sequences = (Vec<u32>, Vec<u32>);

pub struct Pair {
    pub seed: u64,
    pub kind: &'static str,
    pub full: Vec<u32>,
    pub shortened: Vec<u32>,
}

/// How a pair comes about.
#[derive(Clone, Copy)]
enum Way {
    Made(fn(&mut Random) -> Sequences),
    /// Struck out, and then changed.
    Changed(Change),
    /// Struck out, and then damaged.
    Damaged(Damage),
}

/// The kinds of pairs, and of each how often it comes up beside the others.
const KINDS: [(&str, usize, Way); 34] = [
    ("nothing", 10, Way::Made(nothing)),
    ("equal", 10, Way::Made(equal)),
    ("a part", 20, Way::Made(part)),
    ("struck out, tiny", 150, Way::Made(|random| struck_out(random, Shape::tiny))),
    ("struck out, small", 100, Way::Made(|random| struck_out(random, Shape::small))),
    ("struck out, middling", 25, Way::Made(|random| struck_out(random, Shape::middling))),
    ("unrelated", 150, Way::Made(unrelated)),
    ("value changed", 25, Way::Changed(changes::value_changed)),
    ("values altered", 30, Way::Changed(changes::values_altered)),
    ("field moved", 30, Way::Changed(changes::field_moved)),
    ("null exchanged", 30, Way::Changed(changes::null_exchanged)),
    ("objects exchanged", 20, Way::Changed(changes::objects_exchanged)),
    ("objects joined", 20, Way::Changed(changes::objects_joined)),
    ("object parted", 20, Way::Changed(changes::object_parted)),
    ("object too many", 20, Way::Changed(changes::object_too_many)),
    ("brackets exchanged", 30, Way::Changed(changes::brackets_exchanged)),
    ("value listed", 20, Way::Changed(changes::value_listed)),
    ("label changed", 25, Way::Changed(changes::label_changed)),
    ("field too many", 30, Way::Changed(changes::field_too_many)),
    ("fields lifted", 20, Way::Changed(changes::fields_lifted)),
    ("bracket moved", 20, Way::Changed(changes::bracket_moved)),
    ("token lost", 25, Way::Damaged(token_damage::lost)),
    ("token doubled", 25, Way::Damaged(token_damage::doubled)),
    ("token replaced", 25, Way::Damaged(token_damage::replaced)),
    ("token added", 25, Way::Damaged(token_damage::added)),
    ("tokens exchanged", 25, Way::Damaged(token_damage::exchanged)),
    ("tokens cut", 20, Way::Damaged(token_damage::cut)),
    ("list mixed", 20, Way::Damaged(token_damage::list_mixed)),
    ("no token", 20, Way::Damaged(token_damage::no_token)),
    ("end of a range", 20, Way::Damaged(token_damage::end_of_a_range)),
    ("garbage", 10, Way::Damaged(token_damage::garbage)),
    ("longest", 10, Way::Made(extremes::longest)),
    ("deepest", 40, Way::Made(extremes::deepest)),
    ("twins", 50, Way::Made(twins::twins)),
];

/// The names of all kinds.
pub fn kinds() -> impl Iterator<Item = &'static str> {
    KINDS.into_iter().map(|(name, ..)| name)
}

impl Pair {
    pub fn from_seed(seed: u64) -> Pair {
        let mut random = Random::new(seed);
        let (kind, way) = random_kind(&mut random);
        let (full, shortened) = match way {
            Way::Made(make) => make(&mut random),
            Way::Changed(change) => changed(&mut random, change),
            Way::Damaged(damage) => damaged(&mut random, damage),
        };
        Pair { seed, kind, full, shortened }
    }
}

fn random_kind(random: &mut Random) -> (&'static str, Way) {
    let mut left = random.below(KINDS.iter().map(|(_, share, _)| share).sum());
    for (name, share, way) in KINDS {
        if left < share {
            return (name, way);
        }
        left -= share;
    }
    unreachable!("the number is below the sum of the shares")
}

/// Both sequences empty, or one of them.
fn nothing(random: &mut Random) -> Sequences {
    let some = tokens(&Shape::tiny(random).response(random));
    match random.below(3) {
        0 => (Vec::new(), Vec::new()),
        1 => (some, Vec::new()),
        _ => (Vec::new(), some),
    }
}

fn equal(random: &mut Random) -> Sequences {
    let full = tokens(&Shape::small(random).response(random));
    (full.clone(), full)
}

/// The head or the end of the full, cut between two fields or anywhere.
fn part(random: &mut Random) -> Sequences {
    let fields = Shape::small(random).response(random);
    let full = tokens(&fields);
    let between = tokens(&fields[..random.below(fields.len() + 1)].to_vec()).len();
    let cut = if random.chance(750) { between } else { random.below(full.len() + 1) };
    let shortened = if random.chance(500) { full[..cut].to_vec() } else { full[cut..].to_vec() };
    (full, shortened)
}

fn struck_out(random: &mut Random, shape: fn(&mut Random) -> Shape) -> Sequences {
    let full = shape(random).response(random);
    let left = struck(random, &full);
    (tokens(&full), tokens(&left))
}

/// Two responses that were made of the same labels and values, without knowing of each other. The full is most often the larger.
fn unrelated(random: &mut Random) -> Sequences {
    let shape = Shape::tiny(random);
    let full = shape.response(random);
    let other = Shape { things: random.between(1, shape.things.min(4)), ..shape };
    (tokens(&full), tokens(&other.response(random)))
}

/// Struck out, and then something is changed that may not be changed: in the shortened, or in the full.
fn changed(random: &mut Random, change: Change) -> Sequences {
    loop {
        let mut full = some_response(random);
        let mut left = struck(random, &full);
        let which = if random.chance(750) { &mut left } else { &mut full };
        if change(random, which) {
            return (tokens(&full), tokens(&left));
        }
    }
}

fn some_response(random: &mut Random) -> Fields {
    let shape = match random.below(20) {
        0 => Shape::middling(random),
        1..8 => Shape::small(random),
        _ => Shape::tiny(random),
    };
    shape.response(random)
}

/// Struck out, and then the full is damaged, or the shortened, or both.
fn damaged(random: &mut Random, damage: Damage) -> Sequences {
    let full = some_response(random);
    let left = struck(random, &full);
    let (mut full, mut shortened) = (tokens(&full), tokens(&left));
    let which = random.below(5);
    if which < 3 {
        damage(random, &mut full);
    }
    if which >= 2 {
        damage(random, &mut shortened);
    }
    (full, shortened)
}

/// The pair as it can be read: each token as the program `answer` writes it, but in one line.
impl fmt::Display for Pair {
    fn fmt(&self, to: &mut fmt::Formatter) -> fmt::Result {
        writeln!(to, "seed {} ({})", self.seed, self.kind)?;
        for (name, sequence) in [("full", &self.full), ("shortened", &self.shortened)] {
            writeln!(to, "--- {name}, {} tokens", sequence.len())?;
            let words: Vec<String> = sequence.iter().map(|number| shown(*number)).collect();
            writeln!(to, "{}", words.join(" "))?;
        }
        write!(to, "---")
    }
}

fn shown(number: u32) -> String {
    match Token::from_number(number) {
        Some(Token::Value(value)) => format!("{value}"),
        Some(Token::Label(label)) => format!("L{label}"),
        Some(mark) => format!("{mark}"),
        None => format!("?{number}"),
    }
}
