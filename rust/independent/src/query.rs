//! The query: its records, checks 30 to 34, and its entries as a tree.

use crate::graph::Label;
use crate::outcome::{refuse_first, refuse_whole, Refusal};
use crate::schema::{FieldNo, Kind, Schema, TypeNo};
use crate::text::{read_text, Numbers, Record};

const MOST_ENTRIES: usize = 256;
const DEEPEST: u32 = 15;
const LARGEST_LABEL: u32 = 255;

/// What an entry selects.
#[derive(Clone, Debug)]
pub enum Selects {
    /// A field, and the label that the response shows for it.
    Field { shown: u32, label: Label },
    /// A type condition.
    OnType(TypeNo),
}

#[derive(Clone, Debug)]
struct QueryRecord {
    depth: u32,
    selects: Selects,
}

impl Record for QueryRecord {
    fn read(letter: u8, numbers: &mut Numbers) -> Option<QueryRecord> {
        let depth = numbers.take()?;
        let selects = match letter {
            b'F' => {
                let shown = numbers.take()?;
                let field = FieldNo(numbers.take()?);
                Selects::Field { shown, label: Label { field, pairs: numbers.take_pairs()? } }
            }
            b'T' => Selects::OnType(TypeNo(numbers.take()?)),
            _ => return None,
        };
        Some(QueryRecord { depth, selects })
    }
}

/// An entry with its children. Its number is its line's, counted from 0.
pub struct Entry {
    pub number: u32,
    pub selects: Selects,
    pub children: Vec<Entry>,
}

/// An accepted query: its top entries.
pub struct Query {
    pub top: Vec<Entry>,
}

impl Query {
    /// Checks 30 to 34.
    pub fn read(schema: &Schema, text: &[u8]) -> Result<Query, Refusal> {
        let records = read_text(text).map_err(|place| Refusal { number: 30, place })?;
        check_maxima(&records)?;
        check_steps(&records)?;
        refuse_first(33, &records, |record| undeclared(schema, record))?;
        let tops = (0..records.len()).filter(|index| records[*index].depth == 0);
        let top: Vec<Entry> = tops.map(|index| tree(&records, index)).collect();
        check_selection(schema, schema.query_type, &top)?;
        Ok(Query { top })
    }
}

/// The lines exactly one deeper that stand between this one and the next that is no deeper.
fn children(records: &[QueryRecord], index: usize) -> Vec<usize> {
    let depth = records[index].depth;
    let span = (index + 1..records.len()).take_while(|line| records[*line].depth > depth);
    span.filter(|line| records[*line].depth == depth + 1).collect()
}

fn tree(records: &[QueryRecord], index: usize) -> Entry {
    let below = children(records, index).into_iter().map(|child| tree(records, child));
    Entry { number: index as u32, selects: records[index].selects.clone(), children: below.collect() }
}

/// Check 31.
fn check_maxima(records: &[QueryRecord]) -> Result<(), Refusal> {
    let mut entries = 0;
    refuse_first(31, records, |record| {
        entries += 1;
        entries > MOST_ENTRIES || record.depth > DEEPEST
    })
}

/// Check 32.
fn check_steps(records: &[QueryRecord]) -> Result<(), Refusal> {
    refuse_whole(32, records.is_empty())?;
    let mut index = 0;
    refuse_first(32, records, |record| {
        let deepest = if index == 0 { 0 } else { records[index - 1].depth + 1 };
        let childless = matches!(record.selects, Selects::OnType(_)) && children(records, index).is_empty();
        index += 1;
        record.depth > deepest || childless
    })
}

/// Check 33 of one record.
fn undeclared(schema: &Schema, record: &QueryRecord) -> bool {
    match &record.selects {
        Selects::Field { shown, label } => *shown > LARGEST_LABEL || label.undeclared(schema),
        Selects::OnType(of) => schema.kind(*of).is_none(),
    }
}

/// Check 34, entry by entry in the order of the lines.
fn check_selection(schema: &Schema, context: TypeNo, entries: &[Entry]) -> Result<(), Refusal> {
    for entry in entries {
        let below = valid(schema, context, entry).ok_or(Refusal { number: 34, place: entry.number + 1 })?;
        check_selection(schema, below, &entry.children)?;
    }
    Ok(())
}

/// The context of an entry's children where the entry itself is valid.
fn valid(schema: &Schema, context: TypeNo, entry: &Entry) -> Option<TypeNo> {
    match &entry.selects {
        Selects::OnType(of) => (!schema.is_scalar(*of)).then_some(*of),
        Selects::Field { label, .. } => {
            let of = schema.field_type(label.field).of;
            let open = matches!(schema.kind(context), Some(Kind::Object | Kind::Interface));
            let known = schema.has(context, label.field) && label.takes_arguments(schema);
            let nested = schema.is_scalar(of) == entry.children.is_empty();
            (open && known && nested).then_some(of)
        }
    }
}
