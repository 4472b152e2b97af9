//! What sizing and answering return, typed, and the refusals of all calls.

use std::fmt;

use crate::raw::RawOutcome;

/// Accepted, or refused by number and place. The place is a line counted from 1, or 0.
#[derive(Clone, Copy, Debug, PartialEq, Eq)]
pub enum Outcome {
    Accepted {
        size: u32,
        visits: u32,
    },
    /// Size and visits are 0, except where the size exceeds the room.
    Refused {
        refusal: Refusal,
        place: u32,
        size: u32,
        visits: u32,
    },
}

/// The refusals, with their numbers: those of 01, and the two of judging.
#[repr(u32)]
#[derive(Clone, Copy, Debug, PartialEq, Eq, Hash, PartialOrd, Ord)]
pub enum Refusal {
    /// The room given is above 16,384.
    RoomTooLarge = 1,
    /// A work area is too short.
    AreaTooShort = 2,
    /// The schema breaks the text form, or is too long (place 0).
    SchemaForm = 10,
    /// The schema passes a maximum.
    SchemaMaximum = 11,
    /// A number that is not declared, a type of the wrong kind, or low above high.
    SchemaReference = 12,
    /// The same `H`, `G` or `M` record a second time.
    SchemaRepeated = 13,
    /// An object lacks a field of its interface.
    SchemaInterface = 14,
    /// A union has no object type.
    SchemaUnion = 15,
    /// Not exactly one query type.
    SchemaQueryType = 16,
    /// The graph breaks the text form, or is too long (place 0).
    GraphForm = 20,
    /// The graph passes a maximum.
    GraphMaximum = 21,
    /// A number that is not declared, or a node that is not of an object type.
    GraphReference = 22,
    /// A field that the node's type does not have, or an argument that the field does not take or whose value is out of range.
    GraphField = 23,
    /// An edge or a property that the field's type does not allow.
    GraphType = 24,
    /// A second target of a field that is no list.
    GraphSecondTarget = 25,
    /// An equal edge, or a property with equal node and label, stands earlier.
    GraphRepeated = 26,
    /// Not exactly one node of the query type.
    GraphQueryNode = 27,
    /// The query breaks the text form, or is too long (place 0).
    QueryForm = 30,
    /// More than 256 entries, or a depth above 15.
    QueryMaximum = 31,
    /// No entries (place 0), a wrong step in depth, or a type condition without child.
    QueryNesting = 32,
    /// A number that is not declared, or a label above 255.
    QueryReference = 33,
    /// Not valid by Definition 4.
    QueryNotValid = 34,
    /// A field that is no list meets two targets. Never given.
    TwoTargets = 40,
    /// The size exceeds the room; size and visits are given.
    SizeAboveRoom = 50,
    /// In judging, the first sequence is no response, has more than 16,384 tokens, or more than 16 `{` open at once.
    FullNoResponse = 71,
    /// In judging, the same of the second sequence.
    ShortenedNoResponse = 72,
}

impl Refusal {
    pub const ALL: [Refusal; 26] = [
        Refusal::RoomTooLarge,
        Refusal::AreaTooShort,
        Refusal::SchemaForm,
        Refusal::SchemaMaximum,
        Refusal::SchemaReference,
        Refusal::SchemaRepeated,
        Refusal::SchemaInterface,
        Refusal::SchemaUnion,
        Refusal::SchemaQueryType,
        Refusal::GraphForm,
        Refusal::GraphMaximum,
        Refusal::GraphReference,
        Refusal::GraphField,
        Refusal::GraphType,
        Refusal::GraphSecondTarget,
        Refusal::GraphRepeated,
        Refusal::GraphQueryNode,
        Refusal::QueryForm,
        Refusal::QueryMaximum,
        Refusal::QueryNesting,
        Refusal::QueryReference,
        Refusal::QueryNotValid,
        Refusal::TwoTargets,
        Refusal::SizeAboveRoom,
        Refusal::FullNoResponse,
        Refusal::ShortenedNoResponse,
    ];

    pub fn number(self) -> u32 {
        self as u32
    }

    pub fn from_number(number: u32) -> Option<Refusal> {
        Refusal::ALL.into_iter().find(|refusal| refusal.number() == number)
    }
}

impl Outcome {
    pub fn is_accepted(self) -> bool {
        matches!(self, Outcome::Accepted { .. })
    }

    /// 0 where accepted, else the refusal's number.
    pub fn number(self) -> u32 {
        match self {
            Outcome::Accepted { .. } => 0,
            Outcome::Refused { refusal, .. } => refusal.number(),
        }
    }

    pub fn place(self) -> u32 {
        match self {
            Outcome::Accepted { .. } => 0,
            Outcome::Refused { place, .. } => place,
        }
    }

    /// The response's length, 1,000,001 where it is above 1,000,000.
    pub fn size(self) -> u32 {
        match self {
            Outcome::Accepted { size, .. } | Outcome::Refused { size, .. } => size,
        }
    }

    /// How many pairs of entry and node the response meets.
    pub fn visits(self) -> u32 {
        match self {
            Outcome::Accepted { visits, .. } | Outcome::Refused { visits, .. } => visits,
        }
    }
}

impl From<RawOutcome> for Outcome {
    /// Panics on a number that no refusal has, or a place with number 0: the archive is then of another version.
    fn from(raw: RawOutcome) -> Outcome {
        let RawOutcome { number, place, size, visits } = raw;
        if number == 0 {
            assert_eq!(place, 0, "an accepted call has no place");
            return Outcome::Accepted { size, visits };
        }
        let refusal = Refusal::from_number(number).unwrap_or_else(|| panic!("no refusal has the number {number}"));
        Outcome::Refused { refusal, place, size, visits }
    }
}

/// The line that the program `answer` begins with.
impl fmt::Display for Outcome {
    fn fmt(&self, to: &mut fmt::Formatter) -> fmt::Result {
        match self {
            Outcome::Accepted { size, visits } => write!(to, "ok\t{size}\t{visits}"),
            Outcome::Refused { refusal, place, size, visits } => {
                write!(to, "no\t{}\t{place}\t{size}\t{visits}", refusal.number())
            }
        }
    }
}
