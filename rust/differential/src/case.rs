//! A case: three texts, the lengths of the areas, and what is asked, all from one seed.

use std::fmt;

use independent::NEEDED_LENGTHS;

use crate::damage::{damage_bytes, damage_lines, repeat_line};
use crate::graph::Graph;
use crate::random::Random;
use crate::schema::{Counts, Schema};
use crate::special::{self, Lines};
use crate::{counts, query};

pub struct Case {
    pub seed: u64,
    pub kind: &'static str,
    pub damaged: bool,
    pub texts: [Vec<u8>; 3],
    pub lengths: [usize; 7],
    /// Numbers on each side of every area and of the buffer, which no call may change. None where the allocation itself is the
    /// limit, so that valgrind sees a step beyond it.
    pub margin: usize,
}

impl Case {
    pub fn from_seed(seed: u64) -> Case {
        let mut random = Random::new(seed);
        let (kind, mut lines) = random_lines(&mut random);
        let mut damaged = random.chance(500);
        if damaged {
            damage(&mut random, &mut lines);
        }
        let mut texts = lines.map(|lines| lines.iter().flat_map(|line| format!("{line}\n").into_bytes()).collect());
        if random.chance(60) {
            damaged = true;
            let text = random.below(3);
            damage_bytes(&mut random, &mut texts[text]);
        }
        if random.chance(15) {
            damaged = true;
            let text = random.below(3);
            texts[text] = special::garbage(&mut random);
        }
        let lengths = random_lengths(&mut random);
        Case { seed, kind, damaged, texts, lengths, margin: random.pick(&[0, 0, 5]) }
    }
}

/// The lines of three texts, most of them sound.
fn random_lines(random: &mut Random) -> (&'static str, Lines) {
    match random.below(1_000) {
        0..550 => ("small", sound(random, counts::small)),
        550..620 => {
            let mut lines = sound(random, counts::small);
            special::at_maximum(random, &mut lines);
            ("at a maximum", lines)
        }
        620..800 => ("middling", sound(random, counts::middling)),
        800..870 => ("near", sound(random, counts::near)),
        870..873 => ("maxima", sound(random, |_| counts::maxima())),
        873..930 => ("clique", special::clique(random)),
        930..955 => ("exact size", special::exact_size(random)),
        955..985 => ("wrapping size", special::wrapping_size(random)),
        985..988 => ("long graph", special::long_graph(random)),
        988..990 => ("broad", special::broad(random)),
        _ => {
            let mut lines = sound(random, counts::small);
            special::long_text(random, &mut lines);
            ("long text", lines)
        }
    }
}

/// A schema, a graph that conforms to it and a query that is valid for it.
fn sound(random: &mut Random, counts: impl Fn(&mut Random) -> Counts) -> Lines {
    let counts = counts(random);
    let mixed = random.chance(500);
    let schema = Schema::random(random, &counts);
    let graph = Graph::random(random, &schema, &counts);
    let query = query::random_lines(random, &schema, &graph, &counts);
    [schema.lines(random, mixed), graph.lines(random, &schema, mixed), query]
}

/// One to five kinds of damage, most often one.
fn damage(random: &mut Random, lines: &mut Lines) {
    let times = random.pick(&[1, 1, 1, 1, 1, 1, 2, 2, 3, 5]);
    for _ in 0..times {
        let text = random.pick(&[0, 0, 0, 1, 1, 1, 1, 2, 2, 2]);
        if random.chance(25) {
            repeat_line(random, &mut lines[text]);
        } else {
            damage_lines(random, &mut lines[text]);
        }
    }
}

/// Lengths of the areas: as needed, or longer, or one of them too short.
fn random_lengths(random: &mut Random) -> [usize; 7] {
    let mut lengths = NEEDED_LENGTHS;
    let area = random.below(7);
    match random.below(100) {
        0..3 => lengths[area] -= 1,
        3 => lengths[area] = random.below(lengths[area]),
        4 => lengths[area] = 0,
        5..10 => lengths[area] += random.pick(&[1, 2, 100, 9_000]),
        10..14 => lengths = lengths.map(|length| length + random.below(50)),
        _ => {}
    }
    lengths
}

/// The case as it can be read: each text with its tabs and other bytes escaped, a line each.
impl fmt::Display for Case {
    fn fmt(&self, to: &mut fmt::Formatter) -> fmt::Result {
        writeln!(to, "seed {} ({}{})", self.seed, self.kind, if self.damaged { ", damaged" } else { "" })?;
        writeln!(to, "lengths of the areas {:?}, margin {}", self.lengths, self.margin)?;
        for (name, text) in ["schema", "graph", "query"].iter().zip(&self.texts) {
            writeln!(to, "--- {name}, {} bytes", text.len())?;
            for line in text.split_inclusive(|byte| *byte == b'\n') {
                writeln!(to, "{}", line.escape_ascii())?;
            }
        }
        write!(to, "---")
    }
}
