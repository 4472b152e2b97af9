//! Random schemas that pass every check.

use std::collections::BTreeSet;

use crate::random::Random;

#[derive(Clone, Copy, PartialEq, Eq, Debug)]
pub enum Kind {
    Scalar { low: usize, high: usize },
    Object,
    Interface,
    Union,
}

/// The pairs of argument number and value of a label.
pub type Pairs = Vec<(usize, usize)>;

/// How many of each thing a case has. A schema has one scalar and one object at least.
#[derive(Clone, Copy, Debug)]
pub struct Counts {
    pub scalars: usize,
    pub objects: usize,
    pub interfaces: usize,
    pub unions: usize,
    pub fields: usize,
    pub arguments: usize,
    pub has: usize,
    pub takes: usize,
    pub members: usize,
    pub nodes: usize,
    pub edges: usize,
    pub properties: usize,
    pub values: usize,
    pub entries: usize,
    pub depth: usize,
    /// The most pairs of a label, and the largest value of a scalar: both make lines long.
    pub pairs: usize,
    pub largest: usize,
}

/// A schema, and for each field some labels with arguments in their ranges: graphs and queries take theirs from these, so that
/// they meet.
pub struct Schema {
    pub kinds: Vec<Kind>,
    pub fields: Vec<(usize, bool)>,
    pub arguments: Vec<usize>,
    pub has: BTreeSet<(usize, usize)>,
    pub takes: BTreeSet<(usize, usize)>,
    pub members: BTreeSet<(usize, usize)>,
    pub query_type: usize,
    pub labels: Vec<Vec<Pairs>>,
}

impl Schema {
    pub fn random(random: &mut Random, counts: &Counts) -> Schema {
        let kinds = random_kinds(random, counts);
        let objects = positions(&kinds, |kind| kind == Kind::Object);
        let mut schema = Schema {
            query_type: random.pick(&objects),
            kinds,
            fields: Vec::new(),
            arguments: Vec::new(),
            has: BTreeSet::new(),
            takes: BTreeSet::new(),
            members: BTreeSet::new(),
            labels: Vec::new(),
        };
        schema.add_fields(random, counts);
        schema.add_members(random, counts);
        schema.add_has(random, counts);
        schema.add_takes(random, counts);
        schema.labels = (0..counts.fields).map(|field| schema.random_labels(random, field, counts.pairs)).collect();
        schema
    }

    pub fn types(&self, wanted: impl Fn(Kind) -> bool) -> Vec<usize> {
        positions(&self.kinds, wanted)
    }

    pub fn is_scalar(&self, of: usize) -> bool {
        matches!(self.kinds[of], Kind::Scalar { .. })
    }

    pub fn compatible(&self, object: usize, with: usize) -> bool {
        object == with || self.members.contains(&(with, object))
    }

    pub fn fields_of(&self, owner: usize) -> Vec<usize> {
        self.has.range((owner, 0)..(owner + 1, 0)).map(|(_, field)| *field).collect()
    }

    /// A value of a scalar, often at an end of its range.
    pub fn value(&self, random: &mut Random, of: usize) -> usize {
        let Kind::Scalar { low, high } = self.kinds[of] else { return 0 };
        match random.below(4) {
            0 => low,
            1 => high,
            _ => random.between(low, high.min(low + 20)),
        }
    }

    /// The first field is a scalar's, the second an object's; the rest are anything.
    fn add_fields(&mut self, random: &mut Random, counts: &Counts) {
        let scalars = self.types(|kind| matches!(kind, Kind::Scalar { .. }));
        let others = self.types(|kind| !matches!(kind, Kind::Scalar { .. }));
        for field in 0..counts.fields {
            let scalar = field == 0 || field != 1 && random.chance(400);
            let of = random.pick(if scalar { &scalars } else { &others });
            self.fields.push((of, random.chance(550)));
        }
        self.arguments = (0..counts.arguments).map(|_| random.pick(&scalars)).collect();
    }

    /// Every union gets an object; more are added up to the count.
    fn add_members(&mut self, random: &mut Random, counts: &Counts) {
        let objects = self.types(|kind| kind == Kind::Object);
        let unions = self.types(|kind| kind == Kind::Union);
        let owners = self.types(|kind| matches!(kind, Kind::Union | Kind::Interface));
        for union in unions {
            self.members.insert((union, random.pick(&objects)));
        }
        if owners.is_empty() {
            return;
        }
        let most = counts.members.min(owners.len() * objects.len());
        let mut all: Vec<(usize, usize)> =
            owners.iter().flat_map(|owner| objects.iter().map(move |object| (*owner, *object))).collect();
        random.shuffle(&mut all);
        for pair in all {
            if self.members.len() < most {
                self.members.insert(pair);
            }
        }
    }

    /// Fields of objects and interfaces, an interface's with those of its objects; no more than the count, as far as possible.
    fn add_has(&mut self, random: &mut Random, counts: &Counts) {
        let query_type = self.query_type;
        self.give(query_type, 0, counts.has);
        if counts.fields > 1 {
            self.give(query_type, 1, counts.has);
        }
        let owners = self.types(|kind| matches!(kind, Kind::Object | Kind::Interface));
        for _ in 0..4 * counts.has {
            if self.has.len() >= counts.has {
                break;
            }
            let (owner, field) = (random.pick(&owners), random.below(counts.fields));
            self.give(owner, field, counts.has);
        }
    }

    /// Gives a type a field, and an interface's objects too, unless that makes too many.
    fn give(&mut self, owner: usize, field: usize, most: usize) {
        let mut wanted = vec![(owner, field)];
        if self.kinds[owner] == Kind::Interface {
            wanted.extend(self.members.range((owner, 0)..(owner + 1, 0)).map(|(_, object)| (*object, field)));
        }
        wanted.retain(|pair| !self.has.contains(pair));
        if self.has.len() + wanted.len() <= most {
            self.has.extend(wanted);
        }
    }

    fn add_takes(&mut self, random: &mut Random, counts: &Counts) {
        if counts.arguments == 0 {
            return;
        }
        for _ in 0..3 * counts.takes {
            if self.takes.len() >= counts.takes {
                break;
            }
            self.takes.insert((random.below(counts.fields), random.below(counts.arguments)));
        }
    }

    /// The bare label, a full one, and those that agree with it as far as they go.
    fn random_labels(&self, random: &mut Random, field: usize, most: usize) -> Vec<Pairs> {
        let mut arguments: Vec<usize> =
            self.takes.range((field, 0)..(field + 1, 0)).map(|(_, argument)| *argument).collect();
        random.shuffle(&mut arguments);
        arguments.truncate(random.between(0, most));
        arguments.sort_unstable();
        let full: Pairs =
            arguments.iter().map(|argument| (*argument, self.value(random, self.arguments[*argument]))).collect();
        let mut labels: Vec<Pairs> = (0..=full.len()).map(|length| full[..length].to_vec()).collect();
        if let Some((argument, value)) = full.first() {
            labels.push(vec![(*argument, self.value(random, self.arguments[*argument]))]);
            labels.push(full[1..].to_vec());
            labels.push(vec![(*argument, *value)]);
        }
        labels
    }

    /// The text's lines; where asked, in another order that keeps all numbers.
    pub fn lines(&self, random: &mut Random, mixed: bool) -> Vec<String> {
        let types = self.kinds.iter().map(|kind| match kind {
            Kind::Scalar { low, high } => format!("S\t{low}\t{high}"),
            Kind::Object => "O".into(),
            Kind::Interface => "I".into(),
            Kind::Union => "U".into(),
        });
        let fields = self.fields.iter().map(|(of, list)| format!("F\t{of}\t{}", *list as u8));
        let arguments = self.arguments.iter().map(|of| format!("A\t{of}"));
        let mut relations: Vec<String> = self.has.iter().map(|(owner, field)| format!("H\t{owner}\t{field}")).collect();
        relations.extend(self.takes.iter().map(|(field, argument)| format!("G\t{field}\t{argument}")));
        relations.extend(self.members.iter().map(|(owner, object)| format!("M\t{owner}\t{object}")));
        relations.push(format!("Q\t{}", self.query_type));
        if mixed {
            random.shuffle(&mut relations);
        }
        let parts = vec![types.collect(), fields.collect(), arguments.collect(), relations];
        if mixed {
            return interleave(random, parts);
        }
        parts.concat()
    }
}

/// The numbers of the types that are wanted.
fn positions(kinds: &[Kind], wanted: impl Fn(Kind) -> bool) -> Vec<usize> {
    (0..kinds.len()).filter(|of| wanted(kinds[*of])).collect()
}

fn random_kinds(random: &mut Random, counts: &Counts) -> Vec<Kind> {
    let mut kinds: Vec<Kind> = (0..counts.scalars).map(|_| random_scalar(random, counts.largest)).collect();
    kinds.extend(vec![Kind::Object; counts.objects]);
    kinds.extend(vec![Kind::Interface; counts.interfaces]);
    kinds.extend(vec![Kind::Union; counts.unions]);
    random.shuffle(&mut kinds);
    kinds
}

fn random_scalar(random: &mut Random, largest: usize) -> Kind {
    let low = match random.below(4) {
        0 => random.between(0, 1_000.min(largest)),
        1 => random.between(0, largest),
        _ => 0,
    };
    let high = match random.below(4) {
        0 => low,
        1 => largest,
        _ => (low + random.between(0, 9)).min(largest),
    };
    Kind::Scalar { low, high }
}

/// One list of lines from several, each in its own order.
pub fn interleave(random: &mut Random, parts: Vec<Vec<String>>) -> Vec<String> {
    let mut order: Vec<usize> = parts.iter().enumerate().flat_map(|(part, lines)| vec![part; lines.len()]).collect();
    random.shuffle(&mut order);
    let mut parts: Vec<_> = parts.into_iter().map(Vec::into_iter).collect();
    order.into_iter().filter_map(|part| parts[part].next()).collect()
}

/// A count and its pairs, as a line has them.
pub fn pairs_text(pairs: &Pairs) -> String {
    let mut text = pairs.len().to_string();
    for (argument, value) in pairs {
        text.push_str(&format!("\t{argument}\t{value}"));
    }
    text
}
