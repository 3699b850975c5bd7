use crate::{raw, Result};

/// The starts of segments, sorted. 0 is always one.
#[derive(Clone, Debug)]
pub struct ProgramSegments {
    // how many there are, then the starts
    table: [u16; 64],
}

impl Default for ProgramSegments {
    fn default() -> Self {
        Self::new()
    }
}

impl ProgramSegments {
    pub fn new() -> Self {
        ProgramSegments { table: [0; 64] }
    }

    /// Refused 12 where the start is there already (0 again is free), 17 where 64 are.
    pub fn add(&mut self, addr: u16) -> Result<()> {
        raw::add_segment(&mut self.table, addr)
    }

    /// The first and the last address of the segment that holds the address.
    pub fn segment_containing_address(&self, addr: u16) -> (u16, u16) {
        // The table has its first cell and the answer has its two, so nothing is refused.
        raw::segment_of(&self.table, addr).map_or((0, 0xFFFF), |[left, right]| (left, right))
    }
}
