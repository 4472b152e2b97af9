//! Changes of a response that are more than striking out. Each is made somewhere in it, where it can be made at all.

use crate::random::Random;
use crate::response::{Content, Field, Fields, LARGEST_VALUE};

/// Says whether it could be made.
pub type Change = fn(&mut Random, &mut Fields) -> bool;

/// A field: the objects that lead to it, each by its field and its number in the list, and its number in the innermost.
struct Place {
    path: Vec<(usize, usize)>,
    index: usize,
}

impl Place {
    /// The fields among which this one stands.
    fn siblings<'a>(&self, fields: &'a mut Fields) -> &'a mut Fields {
        let mut here = fields;
        for (field, object) in &self.path {
            here = match &mut here[*field].content {
                Content::Object(inside) => inside,
                Content::Objects(objects) => &mut objects[*object],
                _ => unreachable!("a path leads through objects"),
            };
        }
        here
    }

    fn content<'a>(&self, fields: &'a mut Fields) -> &'a mut Content {
        &mut self.siblings(fields)[self.index].content
    }
}

/// All fields, at all depths, that are wanted.
fn places(fields: &Fields, path: &[(usize, usize)], wanted: &dyn Fn(&Field) -> bool, found: &mut Vec<Place>) {
    for (index, field) in fields.iter().enumerate() {
        if wanted(field) {
            found.push(Place { path: path.to_vec(), index });
        }
        let inside = match &field.content {
            Content::Object(inside) => std::slice::from_ref(inside),
            Content::Objects(objects) => objects.as_slice(),
            _ => &[],
        };
        for (number, object) in inside.iter().enumerate() {
            places(object, &[path, &[(index, number)]].concat(), wanted, found);
        }
    }
}

/// One of the fields that are wanted.
fn some_place(random: &mut Random, fields: &Fields, wanted: impl Fn(&Field) -> bool) -> Option<Place> {
    let mut found = Vec::new();
    places(fields, &[], &wanted, &mut found);
    (!found.is_empty()).then(|| found.swap_remove(random.below(found.len())))
}

/// Another value, most often one that differs in one bit.
fn other_value(random: &mut Random, value: u32) -> u32 {
    let other_bit = value ^ 1 << random.below(30);
    let other = random.pick(&[0, 1, value + 1, other_bit, other_bit, other_bit, LARGEST_VALUE]).min(LARGEST_VALUE);
    if other == value {
        (value + 1) % LARGEST_VALUE
    } else {
        other
    }
}

pub fn value_changed(random: &mut Random, fields: &mut Fields) -> bool {
    let Some(place) = some_place(random, fields, |field| matches!(field.content, Content::Value(_))) else { return false };
    if let Content::Value(value) = place.content(fields) {
        *value = other_value(random, *value);
    }
    true
}

/// A list of values cut, emptied, made longer, turned round, or with another value in it.
pub fn values_altered(random: &mut Random, fields: &mut Fields) -> bool {
    let some = |field: &Field| matches!(&field.content, Content::Values(values) if !values.is_empty());
    let Some(place) = some_place(random, fields, some) else { return false };
    if let Content::Values(values) = place.content(fields) {
        let at = random.below(values.len());
        match random.below(6) {
            0 => drop(values.remove(at)),
            1 => drop(values.pop()),
            2 => values.clear(),
            3 => values.insert(at, values[at]),
            4 => values.reverse(),
            _ => values[at] = other_value(random, values[at]),
        }
    }
    true
}

pub fn field_moved(random: &mut Random, fields: &mut Fields) -> bool {
    let Some(place) = some_place(random, fields, |_| true) else { return false };
    let siblings = place.siblings(fields);
    let field = siblings.remove(place.index);
    siblings.insert(random.below(siblings.len() + 1), field);
    siblings.len() > 1
}

/// Null for anything else, or anything else for null.
pub fn null_exchanged(random: &mut Random, fields: &mut Fields) -> bool {
    let Some(place) = some_place(random, fields, |_| true) else { return false };
    let content = place.content(fields);
    *content = match (&*content, random.below(3)) {
        (Content::Null, 0) => Content::Object(Vec::new()),
        (Content::Null, 1) => Content::Objects(Vec::new()),
        (Content::Null, _) => Content::Value(0),
        _ => Content::Null,
    };
    true
}

pub fn objects_exchanged(random: &mut Random, fields: &mut Fields) -> bool {
    let Some(place) = some_list(random, fields, 2) else { return false };
    if let Content::Objects(objects) = place.content(fields) {
        let at = random.between(1, objects.len() - 1);
        objects.swap(at - 1, at);
    }
    true
}

/// The fields of two objects in one.
pub fn objects_joined(random: &mut Random, fields: &mut Fields) -> bool {
    let Some(place) = some_list(random, fields, 2) else { return false };
    if let Content::Objects(objects) = place.content(fields) {
        let at = random.between(1, objects.len() - 1);
        let joined = objects.remove(at);
        objects[at - 1].extend(joined);
    }
    true
}

/// The fields of one object in two.
pub fn object_parted(random: &mut Random, fields: &mut Fields) -> bool {
    let Some(place) = some_list(random, fields, 1) else { return false };
    if let Content::Objects(objects) = place.content(fields) {
        let at = random.below(objects.len());
        let cut = random.below(objects[at].len() + 1);
        let parted = objects[at].split_off(cut);
        objects.insert(at + 1, parted);
    }
    true
}

/// An object of a list a second time, or an empty one more.
pub fn object_too_many(random: &mut Random, fields: &mut Fields) -> bool {
    let Some(place) = some_list(random, fields, 0) else { return false };
    if let Content::Objects(objects) = place.content(fields) {
        let at = random.below(objects.len() + 1);
        let added = if at < objects.len() && random.chance(500) { objects[at].clone() } else { Vec::new() };
        objects.insert(at, added);
    }
    true
}

/// A field with a list of at least so many objects.
fn some_list(random: &mut Random, fields: &Fields, least: usize) -> Option<Place> {
    some_place(random, fields, |field| matches!(&field.content, Content::Objects(objects) if objects.len() >= least))
}

/// An object for a list of it, a list for its first object; `{ }` for `[ ]`, `[ ]` for `{ }`.
pub fn brackets_exchanged(random: &mut Random, fields: &mut Fields) -> bool {
    let bracketed = |field: &Field| matches!(field.content, Content::Object(_) | Content::Objects(_));
    let Some(place) = some_place(random, fields, bracketed) else { return false };
    let content = place.content(fields);
    *content = match std::mem::replace(content, Content::Null) {
        Content::Object(inside) if inside.is_empty() && random.chance(500) => Content::Objects(Vec::new()),
        Content::Object(inside) => Content::Objects(vec![inside]),
        Content::Objects(objects) => Content::Object(objects.into_iter().next().unwrap_or_default()),
        other => other,
    };
    true
}

/// A value for a list of it, or a list of one value for the value.
pub fn value_listed(random: &mut Random, fields: &mut Fields) -> bool {
    let single = |field: &Field| match &field.content {
        Content::Value(_) => true,
        Content::Values(values) => values.len() == 1,
        _ => false,
    };
    let Some(place) = some_place(random, fields, single) else { return false };
    let content = place.content(fields);
    *content = match &*content {
        Content::Value(value) => Content::Values(vec![*value]),
        Content::Values(values) => Content::Value(values[0]),
        other => other.clone(),
    };
    true
}

pub fn label_changed(random: &mut Random, fields: &mut Fields) -> bool {
    let Some(place) = some_place(random, fields, |_| true) else { return false };
    let field = &mut place.siblings(fields)[place.index];
    let other_bit = field.label ^ 1 << random.below(8);
    field.label = random.pick(&[other_bit, other_bit, (field.label + 1) % 256, (field.label + 255) % 256]);
    true
}

/// A field a second time, next to itself or elsewhere, or one more of a single value.
pub fn field_too_many(random: &mut Random, fields: &mut Fields) -> bool {
    let Some(place) = some_place(random, fields, |_| true) else { return false };
    let siblings = place.siblings(fields);
    let mut added = siblings[place.index].clone();
    if random.chance(300) {
        added.content = Content::Value(0);
    }
    let at = if random.chance(500) { place.index } else { random.below(siblings.len() + 1) };
    siblings.insert(at, added);
    true
}

/// The fields of an object in its own place.
pub fn fields_lifted(random: &mut Random, fields: &mut Fields) -> bool {
    let filled = |field: &Field| match &field.content {
        Content::Object(inside) => !inside.is_empty(),
        Content::Objects(objects) => objects.iter().any(|object| !object.is_empty()),
        _ => false,
    };
    let Some(place) = some_place(random, fields, filled) else { return false };
    let siblings = place.siblings(fields);
    let lifted = match siblings.remove(place.index).content {
        Content::Object(inside) => inside,
        Content::Objects(objects) => objects.concat(),
        _ => Vec::new(),
    };
    siblings.splice(place.index..place.index, lifted);
    true
}

/// A field as the last one of the object before it, or the last one of an object behind that object.
pub fn bracket_moved(random: &mut Random, fields: &mut Fields) -> bool {
    let object = |field: &Field| matches!(field.content, Content::Object(_));
    let Some(place) = some_place(random, fields, object) else { return false };
    let siblings = place.siblings(fields);
    let taken = (place.index + 1 < siblings.len() && random.chance(500)).then(|| siblings.remove(place.index + 1));
    let Content::Object(inside) = &mut siblings[place.index].content else { return false };
    if let Some(field) = taken {
        inside.push(field);
        return true;
    }
    let Some(field) = inside.pop() else { return false };
    siblings.insert(place.index + 1, field);
    true
}
