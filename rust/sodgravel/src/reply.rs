//! What a call returns that says yes or no, typed.

use std::fmt;

use crate::outcome::{Outcome, Refusal};
use crate::raw::RawReply;

/// Yes, no, or refused by number and place.
#[derive(Clone, Copy, Debug, PartialEq, Eq)]
pub enum Reply {
    /// The visits are those that the call tallied; judging tallies none.
    Yes {
        visits: u32,
    },
    No {
        visits: u32,
    },
    Refused {
        refusal: Refusal,
        place: u32,
    },
}

impl Reply {
    pub fn is_yes(self) -> bool {
        matches!(self, Reply::Yes { .. })
    }

    pub fn is_no(self) -> bool {
        matches!(self, Reply::No { .. })
    }

    /// 0 for yes and for no, else the refusal's number.
    pub fn number(self) -> u32 {
        match self {
            Reply::Yes { .. } | Reply::No { .. } => 0,
            Reply::Refused { refusal, .. } => refusal.number(),
        }
    }

    pub fn place(self) -> u32 {
        match self {
            Reply::Yes { .. } | Reply::No { .. } => 0,
            Reply::Refused { place, .. } => place,
        }
    }

    /// How many visits were tallied; 0 in a refusal.
    pub fn visits(self) -> u32 {
        match self {
            Reply::Yes { visits } | Reply::No { visits } => visits,
            Reply::Refused { .. } => 0,
        }
    }
}

impl From<RawReply> for Reply {
    /// Panics on a yes that is neither 0 nor 1, a yes or visits in a refusal, a size, or an outcome that `Outcome` panics on: the
    /// archive is then of another version.
    fn from(raw: RawReply) -> Reply {
        let RawReply { yes, outcome } = raw;
        assert_eq!(outcome.size, 0, "a reply has no size");
        match (yes, Outcome::from(outcome)) {
            (1, Outcome::Accepted { visits, .. }) => Reply::Yes { visits },
            (0, Outcome::Accepted { visits, .. }) => Reply::No { visits },
            (0, Outcome::Refused { refusal, place, visits: 0, .. }) => Reply::Refused { refusal, place },
            _ => panic!("no call replies with {raw:?}"),
        }
    }
}

/// One line: the word, and what comes with it.
impl fmt::Display for Reply {
    fn fmt(&self, to: &mut fmt::Formatter) -> fmt::Result {
        match self {
            Reply::Yes { visits } => write!(to, "yes\t{visits}"),
            Reply::No { visits } => write!(to, "no\t{visits}"),
            Reply::Refused { refusal, place } => write!(to, "refused\t{}\t{place}", refusal.number()),
        }
    }
}
