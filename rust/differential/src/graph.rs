//! Random graphs that conform to a schema.

use std::collections::{BTreeMap, BTreeSet};

use crate::random::Random;
use crate::schema::{interleave, pairs_text, Counts, Kind, Pairs, Schema};

pub struct Graph {
    pub types: Vec<usize>,
    pub root: usize,
    edges: Vec<Edge>,
    properties: Vec<Property>,
}

struct Edge {
    from: usize,
    field: usize,
    to: usize,
    pairs: Pairs,
}

struct Property {
    node: usize,
    field: usize,
    pairs: Pairs,
    values: Vec<usize>,
}

impl Graph {
    pub fn random(random: &mut Random, schema: &Schema, counts: &Counts) -> Graph {
        let types = random_types(random, schema, counts.nodes);
        let root = types.iter().position(|of| *of == schema.query_type).expect("there is a node of the query type");
        let mut graph = Graph { types, root, edges: Vec::new(), properties: Vec::new() };
        graph.add_edges(random, schema, counts.edges);
        graph.add_properties(random, schema, counts.properties);
        graph.add_values(random, schema, counts.values);
        graph
    }

    /// The targets of some nodes for a label.
    pub fn onward(&self, nodes: &[usize], field: usize, pairs: &Pairs) -> Vec<usize> {
        let leads = |edge: &&Edge| edge.field == field && edge.pairs == *pairs && nodes.contains(&edge.from);
        let targets: BTreeSet<usize> = self.edges.iter().filter(leads).map(|edge| edge.to).collect();
        targets.into_iter().collect()
    }

    /// The labels that lead on from a node.
    pub fn leading(&self, node: usize) -> Vec<(usize, &Pairs)> {
        self.edges.iter().filter(|edge| edge.from == node).map(|edge| (edge.field, &edge.pairs)).collect()
    }

    /// Edges up to the count, as far as the schema allows: no repeats, and one target for a field that is no list.
    fn add_edges(&mut self, random: &mut Random, schema: &Schema, count: usize) {
        let mut seen = BTreeSet::new();
        let mut single: BTreeMap<(usize, usize), usize> = BTreeMap::new();
        for attempt in 0..6 * count {
            if self.edges.len() >= count {
                break;
            }
            let from = if attempt % 8 == 0 { self.root } else { random.below(self.types.len()) };
            let Some(field) = self.random_field(random, schema, from, false) else { continue };
            let pairs = schema.labels[field][random.below(schema.labels[field].len())].clone();
            let (of, list) = schema.fields[field];
            let Some(mut to) = self.random_target(random, schema, of) else { continue };
            if !list {
                to = *single.entry((from, field)).or_insert(to);
            }
            if seen.insert((from, field, to, pairs.clone())) {
                self.edges.push(Edge { from, field, to, pairs });
            }
        }
    }

    /// A field of the node's type, of a scalar or not.
    fn random_field(&self, random: &mut Random, schema: &Schema, node: usize, scalar: bool) -> Option<usize> {
        let mut fields = schema.fields_of(self.types[node]);
        fields.retain(|field| schema.is_scalar(schema.fields[*field].0) == scalar);
        (!fields.is_empty()).then(|| random.pick(&fields))
    }

    /// A node whose type is compatible, if a few attempts find one.
    fn random_target(&self, random: &mut Random, schema: &Schema, of: usize) -> Option<usize> {
        let attempts = (0..12).map(|_| random.below(self.types.len()));
        attempts.into_iter().find(|node| schema.compatible(self.types[*node], of))
    }

    fn add_properties(&mut self, random: &mut Random, schema: &Schema, count: usize) {
        let mut seen = BTreeSet::new();
        for _ in 0..4 * count {
            if self.properties.len() >= count {
                break;
            }
            let node = random.below(self.types.len());
            let Some(field) = self.random_field(random, schema, node, true) else { continue };
            let pairs = schema.labels[field][random.below(schema.labels[field].len())].clone();
            if seen.insert((node, field, pairs.clone())) {
                let (of, list) = schema.fields[field];
                let values = if list { vec![] } else { vec![schema.value(random, of)] };
                self.properties.push(Property { node, field, pairs, values });
            }
        }
    }

    /// Values for the list properties, up to the count of all values.
    fn add_values(&mut self, random: &mut Random, schema: &Schema, count: usize) {
        let is_list = |property: &Property| schema.fields[property.field].1;
        let lists: Vec<usize> = (0..self.properties.len()).filter(|at| is_list(&self.properties[*at])).collect();
        let singles = self.properties.len() - lists.len();
        if lists.is_empty() {
            return;
        }
        for _ in singles..count {
            let at = random.pick(&lists);
            let of = schema.fields[self.properties[at].field].0;
            let value = schema.value(random, of);
            self.properties[at].values.push(value);
        }
    }

    /// The text's lines; where asked, in another order that keeps all numbers.
    pub fn lines(&self, random: &mut Random, schema: &Schema, mixed: bool) -> Vec<String> {
        let nodes = self.types.iter().map(|of| format!("N\t{of}"));
        let edges = self
            .edges
            .iter()
            .map(|edge| format!("E\t{}\t{}\t{}\t{}", edge.from, edge.field, edge.to, pairs_text(&edge.pairs)));
        let properties = self.properties.iter().map(|property| {
            let list = schema.fields[property.field].1 as u8;
            let values: String = property.values.iter().map(|value| format!("\t{value}")).collect();
            format!("P\t{}\t{}\t{list}\t{}{values}", property.node, property.field, pairs_text(&property.pairs))
        });
        let parts = vec![nodes.collect(), edges.collect(), properties.collect()];
        if mixed {
            return interleave(random, parts);
        }
        parts.concat()
    }
}

/// One node of the query type, the others of other object types, where there are any.
fn random_types(random: &mut Random, schema: &Schema, count: usize) -> Vec<usize> {
    let mut others = schema.types(|kind| kind == Kind::Object);
    others.retain(|of| *of != schema.query_type);
    if others.is_empty() {
        return vec![schema.query_type];
    }
    let mut types: Vec<usize> = (1..count).map(|_| random.pick(&others)).collect();
    types.insert(random.below(types.len() + 1), schema.query_type);
    types
}
