//! Size and visits, in two ways: by multiplicities with a tally, as 01 has them; and by the recursion of Definition 6, with
//! the length of each entry at each node worked out once. The two have to agree.

use std::collections::{BTreeMap, BTreeSet, HashMap};

use crate::big::Big;
use crate::graph::{Graph, NodeNo, Property};
use crate::query::{Entry, Query, Selects};
use crate::schema::Schema;

/// A size above this is shown as one more than this.
const LARGEST_SIZE: u32 = 1_000_000;

/// The exact size of a response, and the visits with how many they are.
pub struct Measure {
    pub size: Big,
    pub visits: u32,
    visited: Vec<Pair>,
}

/// An entry's number and a node.
type Pair = (u32, NodeNo);

/// The multiplicities of one entry, by node; those that are 0 are left out.
type Multiplicities = BTreeMap<NodeNo, Big>;

impl Measure {
    pub fn shown_size(&self) -> u32 {
        self.size.capped(LARGEST_SIZE)
    }
}

/// The texts' content, as both ways look at it.
#[derive(Clone, Copy)]
struct World<'a> {
    schema: &'a Schema,
    graph: &'a Graph,
}

impl<'a> World<'a> {
    /// Where an entry's children are evaluated when the entry is evaluated at a node; a node for each time.
    fn onward(self, entry: &Entry, node: NodeNo) -> Onward<'a> {
        match &entry.selects {
            Selects::OnType(of) if self.schema.compatible(self.graph.node(node).of, *of) => Onward::Here(node),
            Selects::OnType(_) => Onward::At(&[]),
            Selects::Field { label, .. } => Onward::At(self.graph.node(node).targets(label)),
        }
    }

    /// How many tokens an entry itself adds at a node, its children's left out.
    fn own_tokens(self, entry: &Entry, node: NodeNo) -> u32 {
        let Selects::Field { label, .. } = &entry.selects else { return 0 };
        let field = self.schema.field_type(label.field);
        if self.schema.is_scalar(field.of) {
            return match self.graph.node(node).property(label) {
                Some(Property::List(values)) => 3 + values.len() as u32,
                Some(Property::One(_)) | None => 2,
            };
        }
        let targets = self.graph.node(node).targets(label).len() as u32;
        match (field.list, targets) {
            (true, _) => 3 + 2 * targets,
            (false, 0) => 2,
            (false, _) => 3,
        }
    }
}

/// The nodes at which an entry's children are evaluated.
enum Onward<'a> {
    Here(NodeNo),
    At(&'a [NodeNo]),
}

impl Onward<'_> {
    fn nodes(&self) -> &[NodeNo] {
        match self {
            Onward::Here(node) => std::slice::from_ref(node),
            Onward::At(nodes) => nodes,
        }
    }
}

/// The measure by multiplicities: entry by entry, each with its row of nodes.
pub fn by_multiplicities(schema: &Schema, graph: &Graph, query: &Query) -> Measure {
    let mut measure = Measure { size: Big::default(), visits: 0, visited: Vec::new() };
    let world = World { schema, graph };
    let top = Multiplicities::from([(graph.root, Big::from(1))]);
    tally(world, &query.top, &top, &mut measure);
    measure.visits = measure.visited.len() as u32;
    measure
}

/// Adds the visits of these entries, which all have the same multiplicities, and of all below them.
fn tally(world: World, entries: &[Entry], multiplicities: &Multiplicities, measure: &mut Measure) {
    for entry in entries {
        let mut below = Multiplicities::new();
        for (node, multiplicity) in multiplicities {
            measure.visited.push((entry.number, *node));
            measure.size.add(&multiplicity.times(world.own_tokens(entry, *node)));
            for target in world.onward(entry, *node).nodes() {
                below.entry(*target).or_default().add(multiplicity);
            }
        }
        tally(world, &entry.children, &below, measure);
    }
}

/// Asserts that Definition 6 meets exactly the visits of the measure, and that the response's length is its size.
pub fn assert_met(schema: &Schema, graph: &Graph, query: &Query, measure: &Measure) {
    let mut meeting = Meeting { world: World { schema, graph }, lengths: HashMap::new() };
    let length = meeting.selection(&query.top, graph.root);
    assert_eq!(length, measure.size, "the sum of the tally is not the length of the response");
    let met: BTreeSet<Pair> = meeting.lengths.into_keys().collect();
    let visited: BTreeSet<Pair> = measure.visited.iter().copied().collect();
    assert_eq!(visited.len(), measure.visited.len(), "a visit is listed twice");
    assert_eq!(met, visited, "the visits are not the pairs met");
}

/// The recursion of Definition 6, for lengths in place of tokens. A pair that has been met keeps its length.
struct Meeting<'a> {
    world: World<'a>,
    lengths: HashMap<Pair, Big>,
}

impl Meeting<'_> {
    fn selection(&mut self, entries: &[Entry], node: NodeNo) -> Big {
        let mut length = Big::default();
        for entry in entries {
            length.add(&self.entry(entry, node));
        }
        length
    }

    fn entry(&mut self, entry: &Entry, node: NodeNo) -> Big {
        if let Some(length) = self.lengths.get(&(entry.number, node)) {
            return length.clone();
        }
        let length = self.first_length(entry, node);
        self.lengths.insert((entry.number, node), length.clone());
        length
    }

    /// The length of an entry at a node, token by token as Definition 6 writes them.
    fn first_length(&mut self, entry: &Entry, node: NodeNo) -> Big {
        let World { schema, graph } = self.world;
        let at = graph.node(node);
        match &entry.selects {
            Selects::OnType(of) if schema.compatible(at.of, *of) => self.selection(&entry.children, node),
            Selects::OnType(_) => Big::default(),
            Selects::Field { label, .. } if schema.is_scalar(schema.field_type(label.field).of) => {
                let label_token = 1;
                match at.property(label) {
                    None | Some(Property::One(_)) => Big::from(label_token + 1),
                    Some(Property::List(values)) => Big::from(label_token + 2 + values.len() as u64),
                }
            }
            Selects::Field { label, .. } if schema.field_type(label.field).list => {
                let label_and_brackets = 3;
                self.objects(entry, at.targets(label), label_and_brackets)
            }
            Selects::Field { label, .. } => match at.targets(label) {
                [] => Big::from(2),
                targets => self.objects(entry, &targets[..1], 1),
            },
        }
    }

    /// The length of the objects at these targets, with so many tokens around them.
    fn objects(&mut self, entry: &Entry, targets: &[NodeNo], around: u64) -> Big {
        let mut length = Big::from(around);
        for target in targets {
            length.add(&Big::from(2));
            length.add(&self.selection(&entry.children, *target));
        }
        length
    }
}
