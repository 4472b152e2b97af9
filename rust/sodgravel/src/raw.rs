//! The library's functions as C has them. A slice is a pointer and a length, counted in its elements.

/// What sizing and answering return, by value.
#[repr(C)]
#[derive(Clone, Copy, Debug, PartialEq, Eq)]
pub struct RawOutcome {
    pub number: u32,
    pub place: u32,
    pub size: u32,
    pub visits: u32,
}

/// What a call returns that says yes or no, by value.
#[repr(C)]
#[derive(Clone, Copy, Debug, PartialEq, Eq)]
pub struct RawReply {
    pub yes: u32,
    pub outcome: RawOutcome,
}

extern "C" {
    pub fn sodgravel_size(
        schema: *const u8,
        schema_length: usize,
        graph: *const u8,
        graph_length: usize,
        query: *const u8,
        query_length: usize,
        schema_area: *mut u32,
        schema_area_length: usize,
        nodes_area: *mut u32,
        nodes_area_length: usize,
        properties_area: *mut u32,
        properties_area_length: usize,
        values_area: *mut u32,
        values_area_length: usize,
        index_area: *mut u32,
        index_area_length: usize,
        query_area: *mut u32,
        query_area_length: usize,
        rows_area: *mut u64,
        rows_area_length: usize,
    ) -> RawOutcome;

    pub fn sodgravel_answer(
        schema: *const u8,
        schema_length: usize,
        graph: *const u8,
        graph_length: usize,
        query: *const u8,
        query_length: usize,
        schema_area: *mut u32,
        schema_area_length: usize,
        nodes_area: *mut u32,
        nodes_area_length: usize,
        properties_area: *mut u32,
        properties_area_length: usize,
        values_area: *mut u32,
        values_area_length: usize,
        index_area: *mut u32,
        index_area_length: usize,
        query_area: *mut u32,
        query_area_length: usize,
        rows_area: *mut u64,
        rows_area_length: usize,
        room: u32,
        response: *mut u32,
        response_length: usize,
    ) -> RawOutcome;

    pub fn sodgravel_judge(full: *const u32, full_length: usize, shortened: *const u32, shortened_length: usize)
        -> RawReply;
}
