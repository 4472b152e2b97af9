//! The work areas.

use crate::{answer, size, Outcome, Texts};

/// How long each area has to be, in its own numbers: schema, nodes and edges, properties, values, index, query,
/// rows.
pub const NEEDED_LENGTHS: [usize; 7] = [14_728, 15_880, 14_344, 8_200, 3_072, 3_592, 8_192];

/// Areas of the needed lengths, to be used for any number of calls. What they hold makes no difference to a call, and after
/// every call they hold zeros.
pub struct Areas {
    schema: Vec<u32>,
    nodes: Vec<u32>,
    properties: Vec<u32>,
    values: Vec<u32>,
    index: Vec<u32>,
    query: Vec<u32>,
    rows: Vec<u64>,
}

/// Areas that somebody else holds, of any lengths. One that is too short is refused with 2.
pub struct LentAreas<'a> {
    pub schema: &'a mut [u32],
    pub nodes: &'a mut [u32],
    pub properties: &'a mut [u32],
    pub values: &'a mut [u32],
    pub index: &'a mut [u32],
    pub query: &'a mut [u32],
    pub rows: &'a mut [u64],
}

impl Default for Areas {
    fn default() -> Areas {
        Areas::new()
    }
}

impl Areas {
    pub fn new() -> Areas {
        let [schema, nodes, properties, values, index, query, rows] = NEEDED_LENGTHS;
        Areas {
            schema: vec![0; schema],
            nodes: vec![0; nodes],
            properties: vec![0; properties],
            values: vec![0; values],
            index: vec![0; index],
            query: vec![0; query],
            rows: vec![0; rows],
        }
    }

    pub fn lend(&mut self) -> LentAreas<'_> {
        LentAreas {
            schema: &mut self.schema,
            nodes: &mut self.nodes,
            properties: &mut self.properties,
            values: &mut self.values,
            index: &mut self.index,
            query: &mut self.query,
            rows: &mut self.rows,
        }
    }

    /// Sizes a query: how long its response is, and how many visits it makes.
    pub fn size(&mut self, texts: Texts) -> Outcome {
        size(texts, self.lend())
    }

    /// Answers a query: writes the response at the head of the buffer where it fits the room and the buffer.
    pub fn answer(&mut self, texts: Texts, room: u32, response: &mut [u32]) -> Outcome {
        answer(texts, self.lend(), room, response)
    }
}
