//! Damage to the tokens of a response, so that most often it is one no longer.

use sodgravel::numbers::{CLOSE_LIST, CLOSE_OBJECT, LABELS, NULL, OPEN_LIST, OPEN_OBJECT};

use crate::random::Random;

pub type Damage = fn(&mut Random, &mut Vec<u32>);

const MARKS: [u32; 5] = [OPEN_OBJECT, CLOSE_OBJECT, OPEN_LIST, CLOSE_LIST, NULL];

/// Numbers that are no tokens, most of them next to one.
const OTHERS: [u32; 9] =
    [LABELS + 256, LABELS + 257, 1_500_000_000, OPEN_OBJECT - 2, OPEN_OBJECT - 1, NULL + 1, NULL + 2, 1 << 31, u32::MAX];

/// The ends of the ranges, all of them tokens.
const ENDS: [u32; 5] = [0, LABELS - 1, LABELS, LABELS + 255, NULL];

fn some_token(random: &mut Random) -> u32 {
    match random.below(8) {
        0 => random.below(3) as u32,
        1..3 => LABELS + random.below(3) as u32,
        _ => random.pick(&MARKS),
    }
}

/// A place where a token stands; a token is put there where there is none.
fn some_place(random: &mut Random, tokens: &mut Vec<u32>) -> usize {
    if tokens.is_empty() {
        tokens.push(some_token(random));
    }
    match random.below(10) {
        0 => 0,
        1 => tokens.len() - 1,
        _ => random.below(tokens.len()),
    }
}

pub fn lost(random: &mut Random, tokens: &mut Vec<u32>) {
    let place = some_place(random, tokens);
    tokens.remove(place);
}

pub fn doubled(random: &mut Random, tokens: &mut Vec<u32>) {
    let place = some_place(random, tokens);
    tokens.insert(place, tokens[place]);
}

pub fn replaced(random: &mut Random, tokens: &mut Vec<u32>) {
    let place = some_place(random, tokens);
    tokens[place] = some_token(random);
}

pub fn added(random: &mut Random, tokens: &mut Vec<u32>) {
    let place = random.below(tokens.len() + 1);
    tokens.insert(place, some_token(random));
}

/// Two tokens next to each other, or anywhere.
pub fn exchanged(random: &mut Random, tokens: &mut Vec<u32>) {
    let place = some_place(random, tokens);
    let other = if random.chance(700) { (place + 1) % tokens.len() } else { random.below(tokens.len()) };
    tokens.swap(place, other);
}

/// The tokens up to a place, or from it on.
pub fn cut(random: &mut Random, tokens: &mut Vec<u32>) {
    let place = some_place(random, tokens);
    if random.chance(500) {
        tokens.truncate(place);
    } else {
        tokens.drain(..place);
    }
}

pub fn no_token(random: &mut Random, tokens: &mut Vec<u32>) {
    let place = some_place(random, tokens);
    tokens[place] = random.pick(&OTHERS);
}

pub fn end_of_a_range(random: &mut Random, tokens: &mut Vec<u32>) {
    let place = some_place(random, tokens);
    tokens[place] = random.pick(&ENDS);
}

/// Something more at the head or at the end of a list, where it may stand or not.
pub fn list_mixed(random: &mut Random, tokens: &mut Vec<u32>) {
    if !tokens.contains(&OPEN_LIST) {
        tokens.extend([LABELS, OPEN_LIST, CLOSE_LIST]);
    }
    let head = |place: &usize| *place > 0 && tokens[*place - 1] == OPEN_LIST;
    let ends: Vec<usize> = (0..tokens.len()).filter(|place| head(place) || tokens[*place] == CLOSE_LIST).collect();
    let place = random.pick(&ends);
    let pieces = [&[0][..], &[NULL], &[OPEN_OBJECT, CLOSE_OBJECT], &[OPEN_LIST, CLOSE_LIST], &[LABELS, 0]];
    tokens.splice(place..place, random.pick(&pieces).iter().copied());
}

/// Some tokens in any order.
pub fn garbage(random: &mut Random, tokens: &mut Vec<u32>) {
    let count = random.below(9);
    *tokens = (0..count).map(|_| some_token(random)).collect();
}

/// The last token lost, or another.
pub fn at_the_end(random: &mut Random, tokens: &mut Vec<u32>) {
    tokens.pop();
    if random.chance(500) {
        tokens.push(some_token(random));
    }
}
