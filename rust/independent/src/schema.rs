//! The schema: its records, checks 10 to 16, and what the other texts ask of it.

use std::collections::{HashMap, HashSet};

use crate::outcome::{refuse_first, refuse_whole, Refusal};
use crate::text::{read_text, Numbers, Record};

const MOST_TYPES: usize = 64;
const MOST_FIELDS: usize = 128;
const MOST_ARGUMENTS: usize = 64;
const MOST_RELATIONS: usize = 1_024;

/// A type's number, a field's and an argument's: three kinds that are never mixed.
#[derive(Clone, Copy, Debug, PartialEq, Eq, Hash)]
pub struct TypeNo(pub u32);
#[derive(Clone, Copy, Debug, PartialEq, Eq, Hash)]
pub struct FieldNo(pub u32);
#[derive(Clone, Copy, Debug, PartialEq, Eq, Hash)]
pub struct ArgumentNo(pub u32);

#[derive(Clone, Copy, Debug, PartialEq, Eq)]
pub enum Kind {
    Scalar { low: u32, high: u32 },
    Object,
    Interface,
    Union,
}

/// A field's type, and whether it is a list.
#[derive(Clone, Copy, Debug, PartialEq, Eq)]
pub struct FieldType {
    pub of: TypeNo,
    pub list: bool,
}

#[derive(Clone, Copy, Debug, PartialEq, Eq)]
enum SchemaRecord {
    Type(Kind),
    Field(FieldType),
    Argument(TypeNo),
    Relation(Relation),
    QueryType(TypeNo),
}

/// The three records that say what belongs to what.
#[derive(Clone, Copy, Debug, PartialEq, Eq, Hash)]
enum Relation {
    Has(TypeNo, FieldNo),
    Takes(FieldNo, ArgumentNo),
    Member(TypeNo, TypeNo),
}

impl Record for SchemaRecord {
    fn read(letter: u8, numbers: &mut Numbers) -> Option<SchemaRecord> {
        use Relation::{Has, Member, Takes};
        Some(match letter {
            b'S' => SchemaRecord::Type(Kind::Scalar { low: numbers.take()?, high: numbers.take()? }),
            b'O' => SchemaRecord::Type(Kind::Object),
            b'I' => SchemaRecord::Type(Kind::Interface),
            b'U' => SchemaRecord::Type(Kind::Union),
            b'F' => SchemaRecord::Field(FieldType { of: TypeNo(numbers.take()?), list: numbers.take_mark()? }),
            b'A' => SchemaRecord::Argument(TypeNo(numbers.take()?)),
            b'H' => SchemaRecord::Relation(Has(TypeNo(numbers.take()?), FieldNo(numbers.take()?))),
            b'G' => SchemaRecord::Relation(Takes(FieldNo(numbers.take()?), ArgumentNo(numbers.take()?))),
            b'M' => SchemaRecord::Relation(Member(TypeNo(numbers.take()?), TypeNo(numbers.take()?))),
            b'Q' => SchemaRecord::QueryType(TypeNo(numbers.take()?)),
            _ => return None,
        })
    }
}

/// An accepted schema.
pub struct Schema {
    pub query_type: TypeNo,
    kinds: Vec<Kind>,
    fields: Vec<FieldType>,
    arguments: Vec<TypeNo>,
    fields_of: HashMap<TypeNo, HashSet<FieldNo>>,
    arguments_of: HashMap<FieldNo, HashSet<ArgumentNo>>,
    objects_of: HashMap<TypeNo, HashSet<TypeNo>>,
}

impl Schema {
    /// Checks 10 to 16.
    pub fn read(text: &[u8]) -> Result<Schema, Refusal> {
        let records = read_text(text).map_err(|place| Refusal { number: 10, place })?;
        check_maxima(&records)?;
        let schema = Schema::gather(&records);
        refuse_first(12, &records, |record| schema.misdeclared(record))?;
        check_repeats(&records)?;
        refuse_first(14, &records, |record| schema.breaks_interface(record))?;
        schema.check_unions(&records)?;
        let query_types = records.iter().filter(|record| matches!(record, SchemaRecord::QueryType(_))).count();
        refuse_whole(16, query_types != 1)?;
        Ok(schema)
    }

    /// All records in their tables, sound or not.
    fn gather(records: &[SchemaRecord]) -> Schema {
        let mut schema = Schema {
            query_type: TypeNo(0),
            kinds: Vec::new(),
            fields: Vec::new(),
            arguments: Vec::new(),
            fields_of: HashMap::new(),
            arguments_of: HashMap::new(),
            objects_of: HashMap::new(),
        };
        for record in records {
            match *record {
                SchemaRecord::Type(kind) => schema.kinds.push(kind),
                SchemaRecord::Field(field) => schema.fields.push(field),
                SchemaRecord::Argument(of) => schema.arguments.push(of),
                SchemaRecord::Relation(relation) => schema.relate(relation),
                SchemaRecord::QueryType(of) => schema.query_type = of,
            }
        }
        schema
    }

    fn relate(&mut self, relation: Relation) {
        match relation {
            Relation::Has(owner, field) => {
                self.fields_of.entry(owner).or_default().insert(field);
            }
            Relation::Takes(field, argument) => {
                self.arguments_of.entry(field).or_default().insert(argument);
            }
            Relation::Member(of, object) => {
                self.objects_of.entry(of).or_default().insert(object);
            }
        }
    }

    /// The kind of a type; nothing where its number is not declared. The same for fields and arguments below.
    pub fn kind(&self, of: TypeNo) -> Option<Kind> {
        self.kinds.get(of.0 as usize).copied()
    }

    pub fn field(&self, field: FieldNo) -> Option<FieldType> {
        self.fields.get(field.0 as usize).copied()
    }

    pub fn argument(&self, argument: ArgumentNo) -> Option<TypeNo> {
        self.arguments.get(argument.0 as usize).copied()
    }

    pub fn has(&self, owner: TypeNo, field: FieldNo) -> bool {
        self.fields_of.get(&owner).is_some_and(|fields| fields.contains(&field))
    }

    pub fn takes(&self, field: FieldNo, argument: ArgumentNo) -> bool {
        self.arguments_of.get(&field).is_some_and(|arguments| arguments.contains(&argument))
    }

    /// Whether an object type is compatible with a type.
    pub fn compatible(&self, object: TypeNo, with: TypeNo) -> bool {
        object == with || self.objects_of.get(&with).is_some_and(|objects| objects.contains(&object))
    }

    /// Whether a type is a scalar with this value in its range.
    pub fn in_range(&self, of: TypeNo, value: u32) -> bool {
        matches!(self.kind(of), Some(Kind::Scalar { low, high }) if low <= value && value <= high)
    }

    /// The type of a field that is known to be declared.
    pub fn field_type(&self, field: FieldNo) -> FieldType {
        self.fields[field.0 as usize]
    }

    pub fn is_scalar(&self, of: TypeNo) -> bool {
        matches!(self.kind(of), Some(Kind::Scalar { .. }))
    }

    /// Check 12 of one record.
    fn misdeclared(&self, record: &SchemaRecord) -> bool {
        match *record {
            SchemaRecord::Type(Kind::Scalar { low, high }) => low > high,
            SchemaRecord::Type(_) => false,
            SchemaRecord::Field(field) => self.kind(field.of).is_none(),
            SchemaRecord::Argument(of) => !self.is_scalar(of),
            SchemaRecord::Relation(relation) => self.misrelated(relation),
            SchemaRecord::QueryType(of) => self.kind(of) != Some(Kind::Object),
        }
    }

    fn misrelated(&self, relation: Relation) -> bool {
        match relation {
            Relation::Has(owner, field) => {
                !matches!(self.kind(owner), Some(Kind::Object | Kind::Interface)) || self.field(field).is_none()
            }
            Relation::Takes(field, argument) => self.field(field).is_none() || self.argument(argument).is_none(),
            Relation::Member(of, object) => {
                !matches!(self.kind(of), Some(Kind::Union | Kind::Interface)) || self.kind(object) != Some(Kind::Object)
            }
        }
    }

    /// Check 14 of one record: an `M` of an interface, one of whose fields the object does not have.
    fn breaks_interface(&self, record: &SchemaRecord) -> bool {
        let SchemaRecord::Relation(Relation::Member(of, object)) = *record else { return false };
        if self.kind(of) != Some(Kind::Interface) {
            return false;
        }
        let fields = self.fields_of.get(&of);
        fields.is_some_and(|fields| fields.iter().any(|field| !self.has(object, *field)))
    }

    /// Check 15: every union has an object type.
    fn check_unions(&self, records: &[SchemaRecord]) -> Result<(), Refusal> {
        let mut types = 0;
        refuse_first(15, records, |record| {
            let SchemaRecord::Type(kind) = record else { return false };
            let of = TypeNo(types);
            types += 1;
            *kind == Kind::Union && !self.objects_of.contains_key(&of)
        })
    }
}

/// Check 11: the first record that passes its maximum. `Q` has none.
fn check_maxima(records: &[SchemaRecord]) -> Result<(), Refusal> {
    let mut counts: HashMap<&str, usize> = HashMap::new();
    refuse_first(11, records, |record| {
        let (what, most) = match record {
            SchemaRecord::Type(_) => ("types", MOST_TYPES),
            SchemaRecord::Field(_) => ("fields", MOST_FIELDS),
            SchemaRecord::Argument(_) => ("arguments", MOST_ARGUMENTS),
            SchemaRecord::Relation(Relation::Has(..)) => ("has", MOST_RELATIONS),
            SchemaRecord::Relation(Relation::Takes(..)) => ("takes", MOST_RELATIONS),
            SchemaRecord::Relation(Relation::Member(..)) => ("members", MOST_RELATIONS),
            SchemaRecord::QueryType(_) => return false,
        };
        let count = counts.entry(what).or_default();
        *count += 1;
        *count > most
    })
}

/// Check 13: the second of two equal relations.
fn check_repeats(records: &[SchemaRecord]) -> Result<(), Refusal> {
    let mut seen = HashSet::new();
    refuse_first(13, records, |record| match record {
        SchemaRecord::Relation(relation) => !seen.insert(*relation),
        _ => false,
    })
}
