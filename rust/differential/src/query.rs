//! Random queries that are valid by construction, and that mostly follow the graph.

use crate::graph::Graph;
use crate::random::Random;
use crate::schema::{pairs_text, Counts, Kind, Pairs, Schema};

const DEEPEST: usize = 15;
const MOST_ENTRIES: usize = 256;

/// How many entries may be wanted to complete a query that is full.
const COMPLETION: usize = 16;

/// The lines of a query. Near the most that a query may have it is filled up with scalars of the query type, often to exactly
/// that.
pub fn random_lines(random: &mut Random, schema: &Schema, graph: &Graph, counts: &Counts) -> Vec<String> {
    let large = counts.entries > MOST_ENTRIES - COMPLETION;
    let entries = if large { MOST_ENTRIES - COMPLETION } else { counts.entries };
    let mut lines = followed_lines(random, schema, graph, entries, counts.depth);
    if large {
        let wanted = random.pick(&[MOST_ENTRIES, MOST_ENTRIES, MOST_ENTRIES - 1, MOST_ENTRIES + 1]);
        while lines.len() < wanted {
            lines.push(format!("F\t0\t{}\t0\t0", random.below(256)));
        }
    }
    lines
}

/// Selections at the query node, until there are about so many entries.
fn followed_lines(random: &mut Random, schema: &Schema, graph: &Graph, entries: usize, depth: usize) -> Vec<String> {
    let heights = heights(schema);
    let mut maker = Maker { random, schema, graph, heights, depth, entries, lines: Vec::new() };
    while maker.lines.is_empty() || maker.lines.len() < maker.entries && maker.random.chance(900) {
        let before = maker.lines.len();
        maker.selection(schema.query_type, 0, &[graph.root]);
        if maker.lines.len() == before {
            break;
        }
    }
    maker.lines
}

/// For each type, how many levels a valid selection in its context takes at least; a large number where there is none.
fn heights(schema: &Schema) -> Vec<usize> {
    let mut heights = vec![99; schema.kinds.len()];
    for _ in 0..schema.kinds.len() + 1 {
        let condition = 1 + heights.iter().copied().min().unwrap_or(99);
        for of in 0..heights.len() {
            if schema.is_scalar(of) {
                continue;
            }
            let fields = schema.fields_of(of).into_iter().map(|field| field_height(schema, &heights, field));
            heights[of] = fields.min().unwrap_or(99).min(condition).min(heights[of]);
        }
    }
    heights
}

/// How many levels a field with its selection takes at least.
fn field_height(schema: &Schema, heights: &[usize], field: usize) -> usize {
    let of = schema.fields[field].0;
    if schema.is_scalar(of) {
        return 1;
    }
    1 + heights[of]
}

/// What an entry may be.
#[derive(Clone)]
enum Choice {
    Field(usize, Pairs),
    OnType(usize),
}

struct Maker<'a> {
    random: &'a mut Random,
    schema: &'a Schema,
    graph: &'a Graph,
    heights: Vec<usize>,
    depth: usize,
    entries: usize,
    lines: Vec<String>,
}

impl Maker<'_> {
    /// Some entries in a context, evaluated at these nodes.
    fn selection(&mut self, context: usize, depth: usize, nodes: &[usize]) {
        let count = self.random.pick(&[1, 1, 2, 2, 3, 5]);
        for index in 0..count {
            if index > 0 && self.lines.len() >= self.entries {
                return;
            }
            self.entry(context, depth, nodes);
        }
    }

    fn entry(&mut self, context: usize, depth: usize, nodes: &[usize]) {
        let Some(choice) = self.choose(context, depth, nodes) else { return };
        match choice {
            Choice::OnType(of) => {
                self.lines.push(format!("T\t{depth}\t{of}"));
                let graph = self.graph;
                let schema = self.schema;
                let kept = nodes.iter().copied().filter(|node| schema.compatible(graph.types[*node], of));
                self.selection(of, depth + 1, &kept.collect::<Vec<_>>());
            }
            Choice::Field(field, pairs) => {
                let label = if self.random.chance(700) { field } else { self.random.below(256) };
                self.lines.push(format!("F\t{depth}\t{label}\t{field}\t{}", pairs_text(&pairs)));
                let of = self.schema.fields[field].0;
                if !self.schema.is_scalar(of) {
                    let targets = self.graph.onward(nodes, field, &pairs);
                    self.selection(of, depth + 1, &targets);
                }
            }
        }
    }

    /// An entry that can still be completed: a field that leads on, any field, or a type condition.
    fn choose(&mut self, context: usize, depth: usize, nodes: &[usize]) -> Option<Choice> {
        let full = self.lines.len() >= self.entries || depth >= self.depth;
        if !full && self.random.chance(600) {
            if let Some(choice) = self.leading(context, depth, nodes) {
                return Some(choice);
            }
        }
        let mut choices: Vec<(usize, Choice)> = self.fields(context);
        if choices.is_empty() || self.random.chance(250) {
            choices.extend(self.conditions(nodes));
        }
        choices.retain(|(height, _)| depth + height <= DEEPEST + 1);
        if choices.is_empty() {
            choices = (0..self.heights.len()).map(|of| (1 + self.heights[of], Choice::OnType(of))).collect();
            choices.retain(|(height, _)| depth + height <= DEEPEST + 1);
        }
        if full {
            let least = choices.iter().map(|(height, _)| *height).min()?;
            choices.retain(|(height, _)| *height == least);
        }
        if choices.is_empty() {
            return None;
        }
        Some(choices[self.random.below(choices.len())].1.clone())
    }

    /// A field with a label that some edge from one of the nodes has.
    fn leading(&mut self, context: usize, depth: usize, nodes: &[usize]) -> Option<Choice> {
        if nodes.is_empty() {
            return None;
        }
        let node = self.random.pick(nodes);
        let mut labels = self.graph.leading(node);
        labels.retain(|(field, _)| {
            self.schema.has.contains(&(context, *field))
                && depth + field_height(self.schema, &self.heights, *field) <= DEEPEST + 1
        });
        if labels.is_empty() {
            return None;
        }
        let (field, pairs) = self.random.pick(&labels);
        Some(Choice::Field(field, pairs.clone()))
    }

    /// The context's fields, each with a label: one that graphs use, or one with a value that nothing has.
    fn fields(&mut self, context: usize) -> Vec<(usize, Choice)> {
        if self.schema.kinds[context] == Kind::Union {
            return Vec::new();
        }
        let mut choices = Vec::new();
        for field in self.schema.fields_of(context) {
            let labels = &self.schema.labels[field];
            let mut pairs = labels[self.random.below(labels.len())].clone();
            if self.random.chance(30) {
                if let Some(pair) = pairs.last_mut() {
                    pair.1 = self.random.pick(&[0, 999_999_999, pair.1 + 1]).min(999_999_999);
                }
            }
            choices.push((field_height(self.schema, &self.heights, field), Choice::Field(field, pairs)));
        }
        choices
    }

    /// Type conditions: on a type that some node has or is compatible with, and on any.
    fn conditions(&mut self, nodes: &[usize]) -> Vec<(usize, Choice)> {
        let types = self.schema.types(|kind| !matches!(kind, Kind::Scalar { .. }));
        let met = |of: &usize| nodes.iter().any(|node| self.schema.compatible(self.graph.types[*node], *of));
        let mut wanted: Vec<usize> = types.iter().copied().filter(met).collect();
        wanted.push(self.random.pick(&types));
        wanted.into_iter().map(|of| (1 + self.heights[of], Choice::OnType(of))).collect()
    }
}
