//! Definition 6, by direct recursion.

use crate::graph::{Graph, Label, NodeNo, Property};
use crate::query::{Entry, Query, Selects};
use crate::schema::Schema;

const LABEL: u32 = 1_000_000_000;
const OPEN_OBJECT: u32 = 2_000_000_001;
const CLOSE_OBJECT: u32 = 2_000_000_002;
const OPEN_LIST: u32 = 2_000_000_003;
const CLOSE_LIST: u32 = 2_000_000_004;
const NULL: u32 = 2_000_000_005;

/// The response's tokens. Only for responses that are known to be short.
pub fn response(schema: &Schema, graph: &Graph, query: &Query) -> Vec<u32> {
    let mut writer = Writer { schema, graph, tokens: Vec::new() };
    writer.selection(&query.top, graph.root);
    writer.tokens
}

struct Writer<'a> {
    schema: &'a Schema,
    graph: &'a Graph,
    tokens: Vec<u32>,
}

impl Writer<'_> {
    fn selection(&mut self, entries: &[Entry], node: NodeNo) {
        for entry in entries {
            self.entry(entry, node);
        }
    }

    fn entry(&mut self, entry: &Entry, node: NodeNo) {
        match &entry.selects {
            Selects::OnType(of) => {
                if self.schema.compatible(self.graph.node(node).of, *of) {
                    self.selection(&entry.children, node);
                }
            }
            Selects::Field { shown, label } => {
                self.tokens.push(LABEL + shown);
                let field = self.schema.field_type(label.field);
                if self.schema.is_scalar(field.of) {
                    self.property(label, node);
                } else if field.list {
                    self.objects(entry, label, node);
                } else {
                    self.object_or_null(entry, label, node);
                }
            }
        }
    }

    fn property(&mut self, label: &Label, node: NodeNo) {
        match self.graph.node(node).property(label) {
            None => self.tokens.push(NULL),
            Some(Property::One(value)) => self.tokens.push(*value),
            Some(Property::List(values)) => {
                self.tokens.push(OPEN_LIST);
                self.tokens.extend(values);
                self.tokens.push(CLOSE_LIST);
            }
        }
    }

    fn objects(&mut self, entry: &Entry, label: &Label, node: NodeNo) {
        let graph = self.graph;
        self.tokens.push(OPEN_LIST);
        for target in graph.node(node).targets(label) {
            self.object(entry, *target);
        }
        self.tokens.push(CLOSE_LIST);
    }

    fn object_or_null(&mut self, entry: &Entry, label: &Label, node: NodeNo) {
        match self.graph.node(node).targets(label) {
            [] => self.tokens.push(NULL),
            [target] => self.object(entry, *target),
            _ => panic!("40: two targets under one label"),
        }
    }

    fn object(&mut self, entry: &Entry, target: NodeNo) {
        self.tokens.push(OPEN_OBJECT);
        self.selection(&entry.children, target);
        self.tokens.push(CLOSE_OBJECT);
    }
}
