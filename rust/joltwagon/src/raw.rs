//! The exported functions (include/joltwagon.h), each behind a safe call. A Rust slice is what they ask for: its pointer is valid, aligned and not
//! null, its length is true, and a `&mut` slice overlaps no other. Everything else they check themselves.
use crate::{Refused, Result};

/// The cells of each layout (docs/ROWS.md).
pub const RECORD: usize = 21;
pub const PRESENT: usize = 6;
pub const KEPT: usize = 18;
pub const BUILT: usize = 25;
pub const EXPLAINED: usize = 32;
pub const READ: usize = 9;
pub const STATEMENT: usize = 20;

/// The number of an unknown page, where known ones are 0 to 255. Any other is refused 1.
pub const PAGE_UNKNOWN: u16 = 256;

/// The kind of the statement SETDP, whose number, 0 to 255, stands where others have their node.
pub const SETDP: u16 = 7;

mod c {
    extern "C" {
        pub fn jw_make(record: *const u16, record_len: usize, answer: *mut u16, answer_len: usize) -> u8;
        pub fn jw_assemble(record: *const u16, record_len: usize, address: u16, answer: *mut u16, answer_len: usize) -> u8;
        pub fn jw_why(record: *const u16, record_len: usize, address: u16, answer: *mut u16, answer_len: usize) -> u32;
        pub fn jw_build(kept: *const u16, kept_len: usize, present: *const u16, present_len: usize, address: u16, answer: *mut u16, answer_len: usize) -> u8;
        pub fn jw_lay(list: *const u16, list_len: usize, address: u16, out: *mut u8, out_len: usize, answer: *mut u16, answer_len: usize) -> u8;
        pub fn jw_decode(bytes: *const u8, bytes_len: usize, address: u16, page: u16, answer: *mut u16, answer_len: usize) -> u8;
        pub fn jw_next(bytes: *const u8, bytes_len: usize, address: u16, page: u16, at: usize, answer: *mut u16, answer_len: usize) -> u8;
        pub fn jw_count(bytes: *const u8, bytes_len: usize, address: u16, page: u16, answer: *mut u16, answer_len: usize) -> u8;
        pub fn jw_node(nodes: *const u16, nodes_len: usize, labels: *const u16, labels_len: usize, node: u16, location: u16, answer: *mut u16, answer_len: usize) -> u8;
        pub fn jw_label(nodes: *const u16, nodes_len: usize, labels: *const u16, labels_len: usize, label: u16, answer: *mut u16, answer_len: usize) -> u8;
        pub fn jw_move_labels(labels: *mut u16, labels_len: usize, left: u16, right: u16, by: u16);
        pub fn jw_add_segment(segments: *mut u16, segments_len: usize, start: u16) -> u8;
        pub fn jw_segment_of(segments: *const u16, segments_len: usize, address: u16, answer: *mut u16, answer_len: usize) -> u8;
        pub fn jw_text_size(objects: *const u16, objects_len: usize, values: *const u16, values_len: usize, answer: *mut u16, answer_len: usize) -> u8;
        pub fn jw_write_text(objects: *const u16, objects_len: usize, values: *const u16, values_len: usize, out: *mut u8, out_len: usize, answer: *mut u16, answer_len: usize) -> u8;
        pub fn jw_read_text(text: *const u8, text_len: usize, bytes: *mut u8, bytes_len: usize, runs: *mut u16, runs_len: usize, answer: *mut u16, answer_len: usize) -> u8;
        pub fn jw_hex(list: *const u16, list_len: usize, items: *const u16, items_len: usize, nodes: *const u16, nodes_len: usize, labels: *mut u16, labels_len: usize, objects: *mut u16, objects_len: usize, values: *mut u16, values_len: usize, out: *mut u8, out_len: usize, answer: *mut u16, answer_len: usize) -> u32;
        pub fn jw_settle(list: *const u16, list_len: usize, items: *const u16, items_len: usize, nodes: *const u16, nodes_len: usize, labels: *mut u16, labels_len: usize) -> u32;
    }
}

/// What a call's number says.
fn accepted(number: u8) -> Result<()> {
    match number {
        0 => Ok(()),
        number => Err(Refused(number)),
    }
}

/// A call that answers in `N` cells.
fn asked<const N: usize>(call: impl FnOnce(&mut [u16]) -> Result<()>) -> Result<[u16; N]> {
    let mut answer = [0; N];
    call(&mut answer)?;
    Ok(answer)
}

/// A size: four cells, the lowest first. What it counts is in memory, so it fits.
fn size(cells: &[u16]) -> usize {
    cells.iter().rev().fold(0, |n, &cell| n << 16 | cell as usize)
}

pub fn make(record: &[u16]) -> Result<[u16; KEPT]> {
    asked(|answer| accepted(unsafe { c::jw_make(record.as_ptr(), record.len(), answer.as_mut_ptr(), answer.len()) }))
}

/// Into the front of a slice of the caller's, which saves a copy where there are many; so do the other functions of such names.
pub fn assemble_into(record: &[u16], address: u16, answer: &mut [u16]) -> Result<()> {
    accepted(unsafe { c::jw_assemble(record.as_ptr(), record.len(), address, answer.as_mut_ptr(), answer.len()) })
}

pub fn assemble(record: &[u16], address: u16) -> Result<[u16; BUILT]> {
    asked(|answer| assemble_into(record, address, answer))
}

pub fn why_into(record: &[u16], address: u16, answer: &mut [u16]) -> (u16, Result<()>) {
    returned(unsafe { c::jw_why(record.as_ptr(), record.len(), address, answer.as_mut_ptr(), answer.len()) })
}

/// The number of the field that a refusal is about, 0 for none, and the fresh build with its reason.
pub fn why(record: &[u16], address: u16) -> (u16, Result<[u16; EXPLAINED]>) {
    let mut answer = [0; EXPLAINED];
    let (field, accepted) = why_into(record, address, &mut answer);
    (field, accepted.map(|()| answer))
}

pub fn build_into(kept: &[u16], present: &[u16], address: u16, answer: &mut [u16]) -> Result<()> {
    accepted(unsafe { c::jw_build(kept.as_ptr(), kept.len(), present.as_ptr(), present.len(), address, answer.as_mut_ptr(), answer.len()) })
}

pub fn build(kept: &[u16], present: &[u16], address: u16) -> Result<[u16; BUILT]> {
    asked(|answer| build_into(kept, present, address, answer))
}

/// How many bytes now stand at the front of `out`.
pub fn lay(list: &[u16], address: u16, out: &mut [u8]) -> Result<usize> {
    let cells = asked::<4>(|answer| accepted(unsafe { c::jw_lay(list.as_ptr(), list.len(), address, out.as_mut_ptr(), out.len(), answer.as_mut_ptr(), answer.len()) }))?;
    Ok(size(&cells))
}

pub fn decode(bytes: &[u8], address: u16, page: u16) -> Result<[u16; READ]> {
    asked(|answer| accepted(unsafe { c::jw_decode(bytes.as_ptr(), bytes.len(), address, page, answer.as_mut_ptr(), answer.len()) }))
}

pub fn next_into(bytes: &[u8], address: u16, page: u16, at: usize, answer: &mut [u16]) -> Result<()> {
    accepted(unsafe { c::jw_next(bytes.as_ptr(), bytes.len(), address, page, at, answer.as_mut_ptr(), answer.len()) })
}

pub fn next(bytes: &[u8], address: u16, page: u16, at: usize) -> Result<[u16; READ]> {
    asked(|answer| next_into(bytes, address, page, at, answer))
}

pub fn count(bytes: &[u8], address: u16, page: u16) -> Result<usize> {
    asked::<4>(|answer| accepted(unsafe { c::jw_count(bytes.as_ptr(), bytes.len(), address, page, answer.as_mut_ptr(), answer.len()) })).map(|cells| size(&cells))
}

pub fn node_into(nodes: &[u16], labels: &[u16], node: u16, location: u16, answer: &mut [u16]) -> Result<()> {
    accepted(unsafe { c::jw_node(nodes.as_ptr(), nodes.len(), labels.as_ptr(), labels.len(), node, location, answer.as_mut_ptr(), answer.len()) })
}

pub fn node(nodes: &[u16], labels: &[u16], node: u16, location: u16) -> Result<[u16; 4]> {
    asked(|answer| node_into(nodes, labels, node, location, answer))
}

pub fn label(nodes: &[u16], labels: &[u16], label: u16) -> Result<[u16; 2]> {
    asked(|answer| accepted(unsafe { c::jw_label(nodes.as_ptr(), nodes.len(), labels.as_ptr(), labels.len(), label, answer.as_mut_ptr(), answer.len()) }))
}

pub fn move_labels(labels: &mut [u16], left: u16, right: u16, by: u16) {
    unsafe { c::jw_move_labels(labels.as_mut_ptr(), labels.len(), left, right, by) }
}

pub fn add_segment(segments: &mut [u16], start: u16) -> Result<()> {
    accepted(unsafe { c::jw_add_segment(segments.as_mut_ptr(), segments.len(), start) })
}

pub fn segment_of(segments: &[u16], address: u16) -> Result<[u16; 2]> {
    asked(|answer| accepted(unsafe { c::jw_segment_of(segments.as_ptr(), segments.len(), address, answer.as_mut_ptr(), answer.len()) }))
}

pub fn text_size(objects: &[u16], values: &[u16]) -> Result<usize> {
    asked::<4>(|answer| accepted(unsafe { c::jw_text_size(objects.as_ptr(), objects.len(), values.as_ptr(), values.len(), answer.as_mut_ptr(), answer.len()) })).map(|cells| size(&cells))
}

/// The length of the text that now stands at the front of `out`.
pub fn write_text(objects: &[u16], values: &[u16], out: &mut [u8]) -> Result<usize> {
    let cells = asked::<4>(|answer| {
        accepted(unsafe { c::jw_write_text(objects.as_ptr(), objects.len(), values.as_ptr(), values.len(), out.as_mut_ptr(), out.len(), answer.as_mut_ptr(), answer.len()) })
    })?;
    Ok(size(&cells))
}

/// How many bytes and how many runs now stand at the fronts of the two.
pub fn read_text(text: &[u8], bytes: &mut [u8], runs: &mut [u16]) -> Result<(usize, usize)> {
    let cells = asked::<8>(|answer| {
        accepted(unsafe { c::jw_read_text(text.as_ptr(), text.len(), bytes.as_mut_ptr(), bytes.len(), runs.as_mut_ptr(), runs.len(), answer.as_mut_ptr(), answer.len()) })
    })?;
    Ok((size(&cells[..4]), size(&cells[4..])))
}

/// What stands beside the refusal, in the high 16 bits (the passes made, or the refusal's field), and the refusal if there is one, in the low 16.
fn returned(number: u32) -> (u16, Result<()>) {
    ((number >> 16) as u16, accepted(number as u8))
}

/// The number of passes made, beside a refusal too, and whether the label table now has the addresses.
pub fn settle(list: &[u16], items: &[u16], nodes: &[u16], labels: &mut [u16]) -> (u16, Result<()>) {
    returned(unsafe {
        c::jw_settle(list.as_ptr(), list.len(), items.as_ptr(), items.len(), nodes.as_ptr(), nodes.len(), labels.as_mut_ptr(), labels.len())
    })
}

/// What `hex` stores beside the addresses of the labels.
pub struct Room<'a> {
    pub objects: &'a mut [u16],
    pub values: &'a mut [u16],
    pub out: &'a mut [u8],
}

/// The number of passes made, beside a refusal too, and the length of the text that now stands at the front of `out`.
pub fn hex(list: &[u16], items: &[u16], nodes: &[u16], labels: &mut [u16], room: Room) -> (u16, Result<usize>) {
    let mut answer = [0; 4];
    let (passes, accepted) = returned(unsafe {
        c::jw_hex(
            list.as_ptr(),
            list.len(),
            items.as_ptr(),
            items.len(),
            nodes.as_ptr(),
            nodes.len(),
            labels.as_mut_ptr(),
            labels.len(),
            room.objects.as_mut_ptr(),
            room.objects.len(),
            room.values.as_mut_ptr(),
            room.values.len(),
            room.out.as_mut_ptr(),
            room.out.len(),
            answer.as_mut_ptr(),
            answer.len(),
        )
    });
    (passes, accepted.map(|()| size(&answer)))
}
