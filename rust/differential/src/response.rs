//! Responses as trees: random ones, what is left when parts are struck out, and their tokens.

use sodgravel::numbers::{CLOSE_LIST, CLOSE_OBJECT, LABELS, NULL, OPEN_LIST, OPEN_OBJECT};

use crate::random::Random;

pub const LARGEST_VALUE: u32 = 999_999_999;

pub type Fields = Vec<Field>;

#[derive(Clone)]
pub struct Field {
    pub label: u32,
    pub content: Content,
}

#[derive(Clone)]
pub enum Content {
    Value(u32),
    Null,
    Values(Vec<u32>),
    Object(Fields),
    Objects(Vec<Fields>),
}

/// How large a response is, and how much alike its fields are: with one label and one value almost everything can be taken for
/// something else.
#[derive(Clone, Copy)]
pub struct Shape {
    pub labels: usize,
    pub values: usize,
    /// The most fields and objects of lists, in all.
    pub things: usize,
    /// The most objects, one in the other.
    pub depth: usize,
}

impl Shape {
    /// Few things, all much alike.
    pub fn tiny(random: &mut Random) -> Shape {
        let (labels, values) = random.pick(&[(1, 1), (1, 2), (2, 1), (2, 2), (3, 2)]);
        Shape { labels, values, things: random.between(1, 9), depth: random.between(1, 4) }
    }

    pub fn small(random: &mut Random) -> Shape {
        let (labels, values) = (random.pick(&[1, 2, 3, 256]), random.pick(&[1, 2, 5, 1_000_000_000]));
        Shape { labels, values, things: random.between(4, 30), depth: random.between(1, 16) }
    }

    pub fn middling(random: &mut Random) -> Shape {
        let (labels, values) = (random.pick(&[1, 2, 5, 256]), random.pick(&[1, 2, 10, 1_000_000_000]));
        Shape { labels, values, things: random.between(50, 800), depth: random.between(2, 16) }
    }

    pub fn response(self, random: &mut Random) -> Fields {
        let mut maker = Maker { random, shape: self, left: self.things };
        let mut fields = Fields::new();
        while maker.left > 0 {
            fields.push(maker.field(0));
        }
        fields
    }
}

struct Maker<'a> {
    random: &'a mut Random,
    shape: Shape,
    left: usize,
}

impl Maker<'_> {
    fn field(&mut self, depth: usize) -> Field {
        self.left = self.left.saturating_sub(1);
        let label = self.random.below(self.shape.labels) as u32;
        let kinds = if depth < self.shape.depth { 10 } else { 5 };
        let content = match self.random.below(kinds) {
            0..3 => Content::Value(self.value()),
            3 => Content::Null,
            4 => self.some_values(),
            5..7 => Content::Object(self.object(depth + 1)),
            _ => self.objects(depth + 1),
        };
        Field { label, content }
    }

    fn value(&mut self) -> u32 {
        if self.shape.values > 10 && self.random.chance(100) {
            return self.random.pick(&[0, LARGEST_VALUE]);
        }
        self.random.below(self.shape.values) as u32
    }

    fn some_values(&mut self) -> Content {
        let count = self.random.pick(&[0, 1, 1, 2, 3, 6]);
        Content::Values((0..count).map(|_| self.value()).collect())
    }

    fn object(&mut self, depth: usize) -> Fields {
        let wanted = self.random.pick(&[0, 1, 1, 2, 2, 3, 5]).min(self.left);
        (0..wanted).map(|_| self.field(depth)).collect()
    }

    fn objects(&mut self, depth: usize) -> Content {
        let wanted = self.random.pick(&[0, 1, 2, 2, 3, 5]).min(self.left);
        self.left -= wanted;
        Content::Objects((0..wanted).map(|_| self.object(depth)).collect())
    }
}

/// Strikes out fields and objects of lists, at all depths, so many in a thousand.
pub fn strike(random: &mut Random, in_thousand: usize, fields: &mut Fields) {
    fields.retain(|_| !random.chance(in_thousand));
    for field in fields {
        match &mut field.content {
            Content::Object(inside) => strike(random, in_thousand, inside),
            Content::Objects(objects) => {
                objects.retain(|_| !random.chance(in_thousand));
                objects.iter_mut().for_each(|object| strike(random, in_thousand, object));
            }
            Content::Value(_) | Content::Null | Content::Values(_) => {}
        }
    }
}

/// The response with some of it struck out: hardly anything, some, or most.
pub fn struck(random: &mut Random, fields: &Fields) -> Fields {
    let mut left = fields.clone();
    let in_thousand = random.pick(&[20, 100, 250, 500, 700]);
    strike(random, in_thousand, &mut left);
    left
}

pub fn tokens(fields: &Fields) -> Vec<u32> {
    let mut tokens = Vec::new();
    write(fields, &mut tokens);
    tokens
}

fn write(fields: &Fields, to: &mut Vec<u32>) {
    for field in fields {
        to.push(LABELS + field.label);
        match &field.content {
            Content::Value(value) => to.push(*value),
            Content::Null => to.push(NULL),
            Content::Object(inside) => write_object(inside, to),
            Content::Values(values) => {
                to.push(OPEN_LIST);
                to.extend(values);
                to.push(CLOSE_LIST);
            }
            Content::Objects(objects) => {
                to.push(OPEN_LIST);
                objects.iter().for_each(|object| write_object(object, to));
                to.push(CLOSE_LIST);
            }
        }
    }
}

fn write_object(fields: &Fields, to: &mut Vec<u32>) {
    to.push(OPEN_OBJECT);
    write(fields, to);
    to.push(CLOSE_OBJECT);
}
