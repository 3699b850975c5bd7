//! This project's library, through the functions that it exports (include/joltwagon.h; rows as in docs/ROWS.md).
use crate::inputs::{Answer, Build, Operand};
use crate::original::Object;
use crate::rules::Kept;

extern "C" {
    fn jw_assemble(row: *const u16, cells: usize, address: u16, answer: *mut u16, room: usize) -> u8;
    fn jw_build(kept: *const u16, cells: usize, present: *const u16, given: usize, address: u16, answer: *mut u16, room: usize) -> u8;
    fn jw_write_text(
        objects: *const u16,
        rows: usize,
        values: *const u16,
        cells: usize,
        out: *mut u8,
        room: usize,
        answer: *mut u16,
        size: usize,
    ) -> u8;
    fn jw_move_labels(labels: *mut u16, cells: usize, left: u16, right: u16, by: u16);
    fn jw_add_segment(segments: *mut u16, cells: usize, start: u16) -> u8;
    fn jw_segment_of(segments: *const u16, cells: usize, address: u16, answer: *mut u16, room: usize) -> u8;
}

/// A kept instruction is a row that the caller does not look into, but for its last three cells: form, trial mark, widening.
pub type Row = [u16; 18];

/// An unknown page as a number of a row.
const PAGE_UNKNOWN: u16 = 256;

/// The page, and the values where there are any. 02 e: "Known 0 answers as clean did, unknown as dirty did, and equality with the Rust is claimed for
/// those two."
fn present_of(b: &Build) -> [u16; 6] {
    let page = if b.dirty { PAGE_UNKNOWN } else { 0 };
    match b.values {
        Some((u, s)) => [page, 1, u.number, u.width as u16, s.number, s.width as u16],
        None => [page, 0, 0, 0, 0, 0],
    }
}

/// "A refusal leaves everything that was lent as it was": the answer too, and the caller goes on with the row that it has, if any.
const UNTOUCHED: [u16; 25] = [0xAAAA; 25];

fn built(refusal: u8, answer: &[u16; 25], kept: Option<Row>) -> (Option<Row>, Answer) {
    if refusal != 0 {
        assert_eq!(answer, &UNTOUCHED);
        return (kept, Answer::Refused(refusal));
    }
    let row: Row = answer[7..].try_into().unwrap();
    let bytes = answer[1..=answer[0] as usize].iter().map(|&b| b as u8).collect();
    (Some(row), Answer::Built { form: row[15] as u8, dirties: answer[6] == 1, bytes })
}

pub fn fresh(o: &Operand, b: &Build) -> (Option<Row>, Answer) {
    let mut row = [0; 21];
    let numbers = [o.operation as u16, o.mode as u16, o.indirect as u16, o.forced as u16, o.step as u16, o.widening as u16, o.registers.len() as u16];
    row[..7].copy_from_slice(&numbers);
    o.registers.iter().take(8).enumerate().for_each(|(i, &r)| row[7 + i] = r as u16);
    row[15..].copy_from_slice(&present_of(b));
    let mut answer = UNTOUCHED;
    let refusal = unsafe { jw_assemble(row.as_ptr(), row.len(), b.address, answer.as_mut_ptr(), answer.len()) };
    built(refusal, &answer, None)
}

pub fn again(kept: Row, b: &Build) -> (Option<Row>, Answer) {
    let present = present_of(b);
    let mut answer = UNTOUCHED;
    let refusal = unsafe { jw_build(kept.as_ptr(), kept.len(), present.as_ptr(), present.len(), b.address, answer.as_mut_ptr(), answer.len()) };
    built(refusal, &answer, Some(kept))
}

pub fn state(row: Row) -> Kept {
    Kept { form: row[15] as u8, trial: row[16] == 1, widened: row[17] == 1 }
}

/// The text, or the refusal; a buffer one byte too short must be refused 9 and left as it was.
pub fn text(objects: &[Object]) -> Result<String, u8> {
    let mut rows = vec![];
    let mut values = vec![];
    for object in objects {
        let all = object.values.as_deref().unwrap_or(&[]);
        rows.extend([object.values.is_some() as u16, object.address, all.len() as u16]);
        values.extend(all.iter().flat_map(|v| [v.number, v.width as u16]));
    }
    let write = |out: &mut [u8]| {
        let mut answer = [0; 4];
        let refusal = unsafe {
            jw_write_text(rows.as_ptr(), rows.len(), values.as_ptr(), values.len(), out.as_mut_ptr(), out.len(), answer.as_mut_ptr(), answer.len())
        };
        if refusal == 0 {
            Ok(answer[0] as usize + answer[1] as usize * 65536)
        } else {
            Err(refusal)
        }
    };
    let mut out = vec![0; 65536];
    let length = write(&mut out)?;
    let mut short = vec![0xAA; length - 1];
    assert_eq!(write(&mut short), Err(9));
    assert!(short.iter().all(|&b| b == 0xAA));
    out.truncate(length);
    Ok(String::from_utf8(out).unwrap())
}

pub fn move_labels(labels: &mut [u16], left: u16, right: u16, by: u16) {
    unsafe { jw_move_labels(labels.as_mut_ptr(), labels.len(), left, right, by) }
}

pub fn add_segment(segments: &mut [u16], start: u16) -> u8 {
    unsafe { jw_add_segment(segments.as_mut_ptr(), segments.len(), start) }
}

pub fn segment_of(segments: &[u16], address: u16) -> (u16, u16) {
    let mut answer = [0; 2];
    assert_eq!(unsafe { jw_segment_of(segments.as_ptr(), segments.len(), address, answer.as_mut_ptr(), answer.len()) }, 0);
    (answer[0], answer[1])
}
