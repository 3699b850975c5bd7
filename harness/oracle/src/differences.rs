//! Which listed difference a build meets, told from what is asked and from the rules, never from what the two sides answer; and what the difference
//! says that the Rust answers.
use crate::inputs::*;
use crate::rows::Rows;
use crate::rules::{self, Kept};

pub const NAMES: [&str; 20] =
    ["none", "D1", "D2", "D3", "D4", "D5", "D6", "D7", "D8", "D9", "D10", "E1", "E2", "E3", "E4", "E5", "E6", "E7", "E8", "E19"];

/// EXIT is no operation of document 01: it is asked for under a number that none has (E5).
pub const EXIT: u8 = 255;

/// The place of a difference's name.
pub fn place(name: &str) -> usize {
    NAMES.iter().position(|&n| n == name).unwrap()
}

/// What the Rust answers where a difference is met.
#[derive(Clone, PartialEq, Eq, Debug)]
pub enum Other {
    Refuses,
    Accepts,
    Bytes(Vec<u8>),
}

#[derive(Debug)]
pub struct Met {
    pub name: &'static str,
    pub rust: Other,
}

fn met(name: &'static str, rust: Other) -> Option<Met> {
    Some(Met { name, rust })
}

/// `kept` is what the rules keep before this build, nothing where the record was refused; `builds` are those that the Rust was asked, this one the last;
/// `answer` is the rules' answer; `checked` tells that sums past 65535 panic.
pub fn of(rows: &Rows, o: &Operand, kept: Option<Kept>, builds: &[Build], answer: &Answer, checked: bool) -> Option<Met> {
    let (b, before) = builds.split_last()?;
    if o.operation == EXIT {
        return met("E5", if o.mode == mode::INHERENT && b.values.is_none() { Other::Bytes(vec![0x11, 0x11]) } else { Other::Refuses });
    }
    let name = rows.name(o.operation)?;
    if o.mode == mode::INC_DEC && o.step == 0 {
        return met("E6", Other::Refuses);
    }
    if o.mode == mode::IMMEDIATE && rows.has(o.operation, form::REGISTER) {
        return register_immediate(rows, o, b);
    }
    let kept = kept?;
    match kept.form {
        form::RELATIVE => sums(checked && past_branch(rows, o, kept, b, answer)),
        form::INDEXED => indexed(rows, o, b, answer, checked),
        form::REGISTER => listed(rows, o, name, answer),
        form::DIRECT | form::EXTENDED => forgotten(rows, o, before, b),
        _ => None,
    }
}

/// D10: "A kept instruction made far, then built near, then far again is refused 7, because 01 follows the Rust, which forgets that nobody forced
/// Direct." Its mark `trying_direct` goes with the first far build and never comes back. It is a private field, so it is not compared after far and
/// near, where it differs already.
fn forgotten(rows: &Rows, o: &Operand, before: &[Build], b: &Build) -> Option<Met> {
    let far = |b: &Build| b.values.is_some_and(|(u, _)| b.dirty || u.number > 255);
    let (last, earlier) = before.split_last()?;
    let unforced = o.mode == mode::EXTENDED && !o.forced && !o.indirect && rows.has(o.operation, form::EXTENDED);
    if unforced && earlier.iter().any(far) && !far(last) && far(b) {
        met("D10", Other::Refuses)
    } else {
        None
    }
}

/// D8: "an immediate byte may stand for a register list".
fn register_immediate(rows: &Rows, o: &Operand, b: &Build) -> Option<Met> {
    let code = rows.row(o.operation, form::REGISTER).unwrap().code;
    match b.values {
        Some((u, _)) if u.number < 256 => met("D8", Other::Bytes(vec![code, u.number as u8])),
        _ => met("D8", Other::Refuses),
    }
}

/// D5: "sums past 65535 ... can panic".
fn sums(past: bool) -> Option<Met> {
    if past {
        met("D5", Other::Refuses)
    } else {
        None
    }
}

/// The Rust sums the branch's address and its size, of the short form first.
fn past_branch(rows: &Rows, o: &Operand, kept: Kept, b: &Build, answer: &Answer) -> bool {
    let size = match answer {
        Answer::Built { bytes, .. } => bytes.len(),
        Answer::Refused(_) if kept.widened => rows.number_size(o.operation, form::RELATIVE) + 1,
        Answer::Refused(_) => 2,
    };
    b.values.is_some() && b.address as usize + size > 65535
}

fn indexed(rows: &Rows, o: &Operand, b: &Build, answer: &Answer, checked: bool) -> Option<Met> {
    let on_pc = o.registers.last() == Some(&register::PC);
    let indexing = |r: Option<&u8>| r.is_some_and(|r| (register::X..=register::S).contains(r));
    // D5: "wrong register counts can panic".
    let miscounted = match o.mode {
        mode::REGISTER => o.registers.len() < 2,
        mode::EXTENDED => false,
        _ => o.registers.len() != 1,
    };
    if miscounted {
        return met("D5", Other::Refuses);
    }
    match o.mode {
        // D4: "steps or accumulators on PC, or PCRelative on another register, are accepted".
        mode::REGISTER if o.registers.len() == 2 && o.registers[0] <= register::D && on_pc => met("D4", Other::Accepts),
        mode::INC_DEC if on_pc && !(o.indirect && matches!(o.step, 1 | 3)) => met("D4", Other::Accepts),
        mode::PC_RELATIVE if indexing(o.registers.first()) && b.values.is_some() => met("D4", Other::Accepts),
        mode::OFFSET if indexing(o.registers.first()) => offset(o, b, answer),
        mode::PC_RELATIVE if on_pc && b.values.is_some() => relative(rows, o, b, answer, checked),
        mode::EXTENDED => address(b, answer),
        _ => None,
    }
}

/// D2: "indirect 1..15 gets five bits". D1: "one- and two-byte offsets on X, Y, U, S get 80/81".
fn offset(o: &Operand, b: &Build, answer: &Answer) -> Option<Met> {
    let Answer::Built { bytes, .. } = answer else { return None };
    let (_, signed) = b.values?;
    let mut bytes = bytes.clone();
    let at = if matches!(bytes[0], 0x10 | 0x11) { 2 } else { 1 };
    if o.indirect && (1..=15).contains(&signed.number) {
        bytes.truncate(at + 1);
        bytes[at] = bytes[at] & 0x70 | signed.number as u8;
        return met("D2", Other::Bytes(bytes));
    }
    if bytes.len() == at + 1 {
        return None;
    }
    bytes[at] &= !0x08;
    met("D1", Other::Bytes(bytes))
}

/// D9: "an indirect or PCR address is the signed evaluation with a zero high byte". D3: "PCRelative 128..255 gets one byte".
fn relative(rows: &Rows, o: &Operand, b: &Build, answer: &Answer, checked: bool) -> Option<Met> {
    let (unsigned, signed) = b.values?;
    let row = rows.row(o.operation, form::INDEXED).unwrap();
    let before = if row.page == 0 { 2 } else { 3 };
    let after = b.address.wrapping_add(before);
    let code = if row.page == 0 { vec![row.code] } else { vec![row.page, row.code] };
    let near = signed.number.wrapping_sub(after.wrapping_add(1));
    let indirect = if o.indirect { 0x10 } else { 0 };
    let operand = if near < 256 { vec![0x8C | indirect, near as u8] } else { rules::relative(signed.number, after, indirect) };
    let summed = b.address as usize + before as usize + operand.len() - 1;
    if checked && summed > 65535 {
        return met("D5", Other::Refuses);
    }
    let bytes = [code, operand].concat();
    if unsigned.number != signed.number {
        return met("D9", Other::Bytes(bytes));
    }
    if (128..256).contains(&near) && !answer.is_refused() {
        met("D3", Other::Bytes(bytes))
    } else {
        None
    }
}

fn address(b: &Build, answer: &Answer) -> Option<Met> {
    let (unsigned, signed) = b.values?;
    let Answer::Built { bytes, .. } = answer else { return None };
    if unsigned.number == signed.number {
        return None;
    }
    let at = bytes.len() - 2;
    met("D9", Other::Bytes([&bytes[..at], &signed.number.to_be_bytes()].concat()))
}

/// E1 to E4: the Rust refuses a register exchanged with itself, one pushed twice, and D; and takes a list of nothing.
fn listed(rows: &Rows, o: &Operand, name: &str, answer: &Answer) -> Option<Met> {
    let list = &o.registers;
    if matches!(name, "EXG" | "TFR") {
        return if list.len() == 2 && list[0] == list[1] { met("E1", Other::Refuses) } else { None };
    }
    if list.is_empty() {
        return met("E4", Other::Bytes(vec![rows.row(o.operation, form::REGISTER).unwrap().code, 0]));
    }
    if answer.is_refused() {
        return None;
    }
    if list.contains(&register::D) {
        return met("E3", Other::Refuses);
    }
    let repeated = (1..list.len()).any(|i| list[..i].contains(&list[i]));
    if repeated {
        met("E2", Other::Refuses)
    } else {
        None
    }
}
