//! How large the things of a case are: small, middling, near single maxima, at all maxima.

use crate::random::Random;
use crate::schema::Counts;

const LARGEST_VALUE: usize = 999_999_999;

pub fn small(random: &mut Random) -> Counts {
    let objects = random.between(1, 4);
    let fields = random.between(2, 10);
    Counts {
        scalars: random.between(1, 3),
        objects,
        interfaces: random.between(0, 2),
        unions: random.between(0, 2),
        fields,
        arguments: random.between(0, 4),
        has: random.between(2, 2 + objects * fields),
        takes: random.between(0, 12),
        members: random.between(0, 8),
        nodes: random.between(1, 10),
        edges: random.between(0, 30),
        properties: random.between(0, 20),
        values: random.between(0, 40),
        entries: random.between(1, 20),
        depth: random.between(1, 8),
        pairs: 4,
        largest: LARGEST_VALUE,
    }
}

pub fn middling(random: &mut Random) -> Counts {
    Counts {
        scalars: random.between(1, 8),
        objects: random.between(2, 16),
        interfaces: random.between(0, 6),
        unions: random.between(0, 6),
        fields: random.between(4, 60),
        arguments: random.between(0, 20),
        has: random.between(20, 400),
        takes: random.between(0, 200),
        members: random.between(0, 80),
        nodes: random.between(2, 80),
        edges: random.between(10, 250),
        properties: random.between(0, 150),
        values: random.between(0, 500),
        entries: random.between(5, 100),
        depth: random.between(2, 15),
        pairs: 4,
        largest: LARGEST_VALUE,
    }
}

/// Small, with one to three things at their maxima.
pub fn near(random: &mut Random) -> Counts {
    let mut counts = small(random);
    for _ in 0..random.between(1, 3) {
        raise(random.below(11), &mut counts);
    }
    counts
}

/// One thing at its maximum, with what it needs beside it.
fn raise(what: usize, counts: &mut Counts) {
    let others = counts.scalars + counts.interfaces + counts.unions;
    match what {
        0 => counts.objects = 64 - others,
        1 => counts.fields = 128,
        2 => counts.arguments = 64,
        3 => (counts.objects, counts.fields, counts.has) = (20, 128, 1_024),
        4 => (counts.fields, counts.arguments, counts.takes) = (128, 64, 1_024),
        5 => (counts.scalars, counts.objects, counts.interfaces, counts.unions, counts.members) = (1, 32, 4, 27, 992),
        6 => counts.nodes = 512,
        7 => (counts.nodes, counts.edges) = (counts.nodes.max(60), 1_024),
        8 => (counts.nodes, counts.properties, counts.has) = (512, 1_024, counts.has.max(20)),
        9 => (counts.properties, counts.values) = (counts.properties.max(20), 8_192),
        _ => (counts.entries, counts.depth) = (256, 15),
    }
    if counts.values > 1_000 || counts.edges + counts.properties > 1_000 {
        (counts.pairs, counts.largest) = (1, 99);
    }
}

/// Everything at its maximum. Of the `M` records 992 are the most that a schema with a scalar can have without a repeat.
pub fn maxima() -> Counts {
    Counts {
        scalars: 1,
        objects: 32,
        interfaces: 4,
        unions: 27,
        fields: 128,
        arguments: 64,
        has: 1_024,
        takes: 1_024,
        members: 992,
        nodes: 512,
        edges: 1_024,
        properties: 1_024,
        values: 8_192,
        entries: 256,
        depth: 15,
        pairs: 1,
        largest: 9,
    }
}
