//! How many instructions capstone reads in a run.
extern "C" {
    fn capstone_count(bytes: *const u8, size: usize, address: u64) -> usize;
}

pub fn count(bytes: &[u8], address: u16) -> usize {
    unsafe { capstone_count(bytes.as_ptr(), bytes.len(), address as u64) }
}
