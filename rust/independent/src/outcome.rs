//! What sizing and answering return, and refusals.

/// Number, place, size, visits, as 01 has them.
#[derive(Clone, Copy, Debug, PartialEq, Eq)]
pub struct Outcome {
    pub number: u32,
    pub place: u32,
    pub size: u32,
    pub visits: u32,
}

/// A refusal that carries no size: its number and its place.
#[derive(Clone, Copy, Debug, PartialEq, Eq)]
pub struct Refusal {
    pub number: u32,
    pub place: u32,
}

impl Outcome {
    pub fn accepted(size: u32, visits: u32) -> Outcome {
        Outcome { number: 0, place: 0, size, visits }
    }

    pub fn refused(refusal: Refusal) -> Outcome {
        Outcome { number: refusal.number, place: refusal.place, size: 0, visits: 0 }
    }
}

/// Refuses with this number at the first record that offends; the records are the lines, counted from 1.
pub fn refuse_first<R>(number: u32, records: &[R], offends: impl FnMut(&R) -> bool) -> Result<(), Refusal> {
    match records.iter().position(offends) {
        Some(index) => Err(Refusal { number, place: index as u32 + 1 }),
        None => Ok(()),
    }
}

/// Refuses with this number at place 0 where something of the whole text is wrong.
pub fn refuse_whole(number: u32, wrong: bool) -> Result<(), Refusal> {
    if wrong {
        return Err(Refusal { number, place: 0 });
    }
    Ok(())
}
