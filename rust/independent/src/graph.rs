//! The graph: its records, checks 20 to 27, and for each node the targets and the properties by label.

use std::collections::{HashMap, HashSet};

use crate::outcome::{refuse_first, refuse_whole, Refusal};
use crate::schema::{ArgumentNo, FieldNo, Schema, TypeNo};
use crate::text::{read_text, Numbers, Pairs, Record};

const MOST_NODES: usize = 512;
const MOST_EDGES: usize = 1_024;
const MOST_PROPERTIES: usize = 1_024;
const MOST_VALUES: usize = 8_192;

#[derive(Clone, Copy, Debug, PartialEq, Eq, Hash, PartialOrd, Ord)]
pub struct NodeNo(pub u32);

/// A field with all its pairs: two labels are equal when both are.
#[derive(Clone, Debug, PartialEq, Eq, Hash)]
pub struct Label {
    pub field: FieldNo,
    pub pairs: Pairs,
}

impl Label {
    pub fn arguments(&self) -> impl Iterator<Item = ArgumentNo> + '_ {
        self.pairs.iter().map(|(argument, _)| ArgumentNo(*argument))
    }

    /// Whether the field or an argument is not declared.
    pub fn undeclared(&self, schema: &Schema) -> bool {
        schema.field(self.field).is_none() || self.arguments().any(|argument| schema.argument(argument).is_none())
    }

    /// Whether each argument is one that the field takes.
    pub fn takes_arguments(&self, schema: &Schema) -> bool {
        self.arguments().all(|argument| schema.takes(self.field, argument))
    }

    /// Whether each argument's value is in the range of its scalar.
    fn values_in_range(&self, schema: &Schema) -> bool {
        let fits = |(argument, value): &(u32, u32)| {
            schema.argument(ArgumentNo(*argument)).is_some_and(|of| schema.in_range(of, *value))
        };
        self.pairs.iter().all(fits)
    }
}

#[derive(Debug)]
enum GraphRecord {
    Node(TypeNo),
    Edge { from: NodeNo, label: Label, to: NodeNo },
    Property { node: NodeNo, label: Label, list: bool, values: Vec<u32> },
}

impl Record for GraphRecord {
    fn read(letter: u8, numbers: &mut Numbers) -> Option<GraphRecord> {
        match letter {
            b'N' => numbers.take().map(|of| GraphRecord::Node(TypeNo(of))),
            b'E' => read_edge(numbers),
            b'P' => read_property(numbers),
            _ => None,
        }
    }
}

fn read_edge(numbers: &mut Numbers) -> Option<GraphRecord> {
    let from = NodeNo(numbers.take()?);
    let field = FieldNo(numbers.take()?);
    let to = NodeNo(numbers.take()?);
    let pairs = numbers.take_pairs()?;
    Some(GraphRecord::Edge { from, label: Label { field, pairs }, to })
}

fn read_property(numbers: &mut Numbers) -> Option<GraphRecord> {
    let node = NodeNo(numbers.take()?);
    let field = FieldNo(numbers.take()?);
    let list = numbers.take_mark()?;
    let pairs = numbers.take_pairs()?;
    let values = numbers.take_rest()?;
    if !list && values.len() != 1 {
        return None;
    }
    Some(GraphRecord::Property { node, label: Label { field, pairs }, list, values })
}

/// A property's value row.
#[derive(Debug, PartialEq)]
pub enum Property {
    One(u32),
    List(Vec<u32>),
}

/// A node with all that starts from it, by label; targets in graph order.
pub struct Node {
    pub of: TypeNo,
    targets: HashMap<Label, Vec<NodeNo>>,
    properties: HashMap<Label, Property>,
}

/// An accepted graph.
pub struct Graph {
    pub root: NodeNo,
    nodes: Vec<Node>,
}

impl Graph {
    /// Checks 20 to 27.
    pub fn read(schema: &Schema, text: &[u8]) -> Result<Graph, Refusal> {
        let records = read_text(text).map_err(|place| Refusal { number: 20, place })?;
        check_maxima(&records)?;
        let types = node_types(&records);
        refuse_first(22, &records, |record| undeclared(schema, &types, record))?;
        refuse_first(23, &records, |record| misplaced(schema, &types, record))?;
        refuse_first(24, &records, |record| mistyped(schema, &types, record))?;
        check_single_targets(schema, &records)?;
        check_repeats(&records)?;
        let mut roots = (0..).map(NodeNo).zip(&types).filter(|(_, of)| **of == schema.query_type);
        let (first, second) = (roots.next(), roots.next());
        refuse_whole(27, first.is_none() || second.is_some())?;
        let (root, _) = first.expect("27 has passed");
        Ok(Graph { root, nodes: gather(types, records) })
    }

    pub fn node(&self, node: NodeNo) -> &Node {
        &self.nodes[node.0 as usize]
    }
}

impl Node {
    pub fn targets(&self, label: &Label) -> &[NodeNo] {
        self.targets.get(label).map_or(&[], Vec::as_slice)
    }

    pub fn property(&self, label: &Label) -> Option<&Property> {
        self.properties.get(label)
    }
}

/// The types of the nodes as their records give them.
fn node_types(records: &[GraphRecord]) -> Vec<TypeNo> {
    let type_of = |record: &GraphRecord| match record {
        GraphRecord::Node(of) => Some(*of),
        _ => None,
    };
    records.iter().filter_map(type_of).collect()
}

/// The nodes with their targets and properties, from records that passed all checks.
fn gather(types: Vec<TypeNo>, records: Vec<GraphRecord>) -> Vec<Node> {
    let bare = |of| Node { of, targets: HashMap::new(), properties: HashMap::new() };
    let mut nodes: Vec<Node> = types.into_iter().map(bare).collect();
    for record in records {
        match record {
            GraphRecord::Node(_) => {}
            GraphRecord::Edge { from, label, to } => {
                nodes[from.0 as usize].targets.entry(label).or_default().push(to);
            }
            GraphRecord::Property { node, label, list, values } => {
                let property = if list { Property::List(values) } else { Property::One(values[0]) };
                nodes[node.0 as usize].properties.insert(label, property);
            }
        }
    }
    nodes
}

/// Check 21: the first record that passes a maximum.
fn check_maxima(records: &[GraphRecord]) -> Result<(), Refusal> {
    let (mut nodes, mut edges, mut properties, mut all_values) = (0, 0, 0, 0);
    refuse_first(21, records, |record| match record {
        GraphRecord::Node(_) => {
            nodes += 1;
            nodes > MOST_NODES
        }
        GraphRecord::Edge { .. } => {
            edges += 1;
            edges > MOST_EDGES
        }
        GraphRecord::Property { values, .. } => {
            properties += 1;
            all_values += values.len();
            properties > MOST_PROPERTIES || all_values > MOST_VALUES
        }
    })
}

/// Check 22 of one record.
fn undeclared(schema: &Schema, types: &[TypeNo], record: &GraphRecord) -> bool {
    let missing = |node: &NodeNo| node.0 as usize >= types.len();
    match record {
        GraphRecord::Node(of) => schema.kind(*of) != Some(crate::schema::Kind::Object),
        GraphRecord::Edge { from, label, to } => missing(from) || missing(to) || label.undeclared(schema),
        GraphRecord::Property { node, label, .. } => missing(node) || label.undeclared(schema),
    }
}

/// Check 23 of one record.
fn misplaced(schema: &Schema, types: &[TypeNo], record: &GraphRecord) -> bool {
    let (node, label) = match record {
        GraphRecord::Node(_) => return false,
        GraphRecord::Edge { from, label, .. } => (from, label),
        GraphRecord::Property { node, label, .. } => (node, label),
    };
    let owned = schema.has(types[node.0 as usize], label.field);
    !(owned && label.takes_arguments(schema) && label.values_in_range(schema))
}

/// Check 24 of one record.
fn mistyped(schema: &Schema, types: &[TypeNo], record: &GraphRecord) -> bool {
    match record {
        GraphRecord::Node(_) => false,
        GraphRecord::Edge { label, to, .. } => {
            let of = schema.field_type(label.field).of;
            schema.is_scalar(of) || !schema.compatible(types[to.0 as usize], of)
        }
        GraphRecord::Property { label, list, values, .. } => {
            let field = schema.field_type(label.field);
            let in_range = values.iter().all(|value| schema.in_range(field.of, *value));
            !schema.is_scalar(field.of) || field.list != *list || !in_range
        }
    }
}

/// Check 25: a field that is no list has one target from a node, whatever the arguments.
fn check_single_targets(schema: &Schema, records: &[GraphRecord]) -> Result<(), Refusal> {
    let mut single: HashMap<(NodeNo, FieldNo), NodeNo> = HashMap::new();
    refuse_first(25, records, |record| {
        let GraphRecord::Edge { from, label, to } = record else { return false };
        if schema.field_type(label.field).list {
            return false;
        }
        single.entry((*from, label.field)).or_insert(*to) != to
    })
}

/// Check 26: an edge with equal node, label and target, or a property with equal node and label.
fn check_repeats(records: &[GraphRecord]) -> Result<(), Refusal> {
    let mut edges = HashSet::new();
    let mut properties = HashSet::new();
    refuse_first(26, records, |record| match record {
        GraphRecord::Node(_) => false,
        GraphRecord::Edge { from, label, to } => !edges.insert((*from, label.clone(), *to)),
        GraphRecord::Property { node, label, .. } => !properties.insert((*node, label.clone())),
    })
}
