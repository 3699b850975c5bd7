//! Document 01's rules of one build, with those that document 02 changed, in this harness's own words. It shares nothing with the library and nothing
//! with the Rust.
use crate::inputs::*;
use crate::rows::{Row, Rows};

/// What a kept instruction keeps.
#[derive(Clone, Copy, PartialEq, Eq, Debug)]
pub struct Kept {
    pub form: u8,
    pub trial: bool,
    pub widened: bool,
}

/// "equal modulo 256 or 65536 as the narrower width says"
fn lawful((u, s): (Value, Value)) -> bool {
    let fits = |v: Value| v.width == 16 || (v.width == 8 && v.number < 256);
    fits(u) && fits(s) && if u.width == 16 && s.width == 16 { u.number == s.number } else { u.number % 256 == s.number % 256 }
}

/// Not "the two values disagree or exceed their width".
pub fn agree(b: &Build) -> bool {
    b.values.is_none_or(lawful)
}

fn known(rows: &Rows, o: &Operand) -> bool {
    rows.name(o.operation).is_some()
        && o.mode <= mode::INHERENT
        && o.registers.len() <= 8
        && o.registers.iter().all(|&r| r <= register::DP)
        && o.step <= 4
        && (o.mode != mode::INC_DEC || o.step > 0)
}

/// "clean, unforced and below 256"
fn near(o: &Operand, b: &Build) -> bool {
    !b.dirty && !o.forced && b.values.is_some_and(|(u, _)| u.number < 256)
}

/// 1, then the form that the mode asks for, then 2.
pub fn make(rows: &Rows, o: &Operand, b: &Build) -> Result<Kept, u8> {
    if !known(rows, o) || !agree(b) {
        return Err(1);
    }
    let has = |f| rows.has(o.operation, f);
    let form = match o.mode {
        mode::REGISTER if has(form::REGISTER) => form::REGISTER,
        mode::EXTENDED if o.indirect => form::INDEXED,
        mode::EXTENDED if !has(form::EXTENDED) && has(form::RELATIVE) => form::RELATIVE,
        mode::EXTENDED if near(o, b) => form::DIRECT,
        mode::EXTENDED => form::EXTENDED,
        mode::DIRECT => form::DIRECT,
        mode::IMMEDIATE => form::IMMEDIATE,
        mode::INHERENT => form::INHERENT,
        _ => form::INDEXED,
    };
    if !has(form) {
        return Err(2);
    }
    Ok(Kept { form, trial: o.mode == mode::EXTENDED && form == form::DIRECT, widened: false })
}

/// One build. A refusal leaves what is kept as it was.
pub fn build(rows: &Rows, o: &Operand, kept: Kept, b: &Build) -> (Kept, Answer) {
    match settle(rows, o, kept, b) {
        Ok((now, bytes)) => (now, Answer::Built { form: now.form, dirties: dirties(rows, o), bytes }),
        Err(refusal) => (kept, Answer::Refused(refusal)),
    }
}

fn with_code(row: Row, operand: &[u8]) -> Vec<u8> {
    let mut bytes = if row.page == 0 { vec![row.code] } else { vec![row.page, row.code] };
    bytes.extend_from_slice(operand);
    bytes
}

fn two(n: u16) -> [u8; 2] {
    n.to_be_bytes()
}

/// "within -128..127", of a distance modulo 65536
fn in_a_byte(distance: u16) -> bool {
    (-128..=127).contains(&(distance as i16))
}

fn settle(rows: &Rows, o: &Operand, kept: Kept, b: &Build) -> Result<(Kept, Vec<u8>), u8> {
    if !agree(b) {
        return Err(1);
    }
    let needs = matches!(o.mode, mode::EXTENDED | mode::DIRECT | mode::IMMEDIATE | mode::PC_RELATIVE);
    if needs && b.values.is_none() {
        return Err(3);
    }
    let unsigned = b.values.map_or(Value { number: 0, width: 8 }, |(u, _)| u);
    let row = |f| rows.row(o.operation, f).unwrap();
    let now = |bytes| Ok((kept, bytes));
    match kept.form {
        form::INHERENT if b.values.is_some() => Err(6),
        form::INHERENT => now(with_code(row(form::INHERENT), &[])),
        form::IMMEDIATE => {
            let wide = rows.number_size(o.operation, form::IMMEDIATE) == 2;
            if !wide && unsigned.number > 255 {
                return Err(6);
            }
            let number = two(unsigned.number);
            now(with_code(row(form::IMMEDIATE), if wide { &number } else { &number[1..] }))
        }
        form::DIRECT | form::EXTENDED => address(rows, o, kept, b, unsigned),
        form::RELATIVE => branch(rows, o, kept, b.address, unsigned.number),
        form::INDEXED => now(with_code(row(form::INDEXED), &indexed(o, b, row(form::INDEXED))?)),
        _ => now(with_code(row(form::REGISTER), &[listed(rows, o)?])),
    }
}

/// The address in one byte or in two.
fn address(rows: &Rows, o: &Operand, kept: Kept, b: &Build, u: Value) -> Result<(Kept, Vec<u8>), u8> {
    let now = if o.mode == mode::DIRECT { directly(o, kept, b, u)? } else { anew(o, kept, b) };
    let number = two(u.number);
    let operand = if now.form == form::DIRECT { &number[1..] } else { &number[..] };
    Ok((now, with_code(rows.row(o.operation, now.form).unwrap(), operand)))
}

/// In mode Direct, by 01: "At each build: clean, unforced, below 256, Extended or Direct: becomes Direct. Else, Direct with page dirty or value above
/// 255: on trial it becomes Extended and the mark goes; otherwise refusal 7." "Forced Direct with a 16-bit-wide value is refused 6."
fn directly(o: &Operand, kept: Kept, b: &Build, u: Value) -> Result<Kept, u8> {
    let direct = Kept { form: form::DIRECT, ..kept };
    if near(o, b) {
        return Ok(direct);
    }
    if kept.form == form::EXTENDED {
        return Ok(kept);
    }
    if b.dirty || u.number > 255 {
        return if kept.trial { Ok(Kept { form: form::EXTENDED, trial: false, ..kept }) } else { Err(7) };
    }
    if o.forced && u.width == 16 {
        return Err(6);
    }
    Ok(direct)
}

/// In mode Extended, by 02 n: "in any sequence of builds, after each accepted one, mode and bytes are those of a fresh one with the same values and
/// page", and "7 only where the parser mode is Direct". So 01's rule of a fresh one is asked each time: "clean, unforced and below 256 is Direct, on
/// trial". A near build after a far one sets the mark again.
fn anew(o: &Operand, kept: Kept, b: &Build) -> Kept {
    let form = if near(o, b) { form::DIRECT } else { form::EXTENDED };
    Kept { form, trial: form == form::DIRECT, ..kept }
}

/// "Short branch outside -128..127 becomes the long branch if allowed."
fn branch(rows: &Rows, o: &Operand, kept: Kept, at: u16, target: u16) -> Result<(Kept, Vec<u8>), u8> {
    let distance = |row: Row, size: u16| target.wrapping_sub(at.wrapping_add(if row.page == 0 { 1 } else { 2 } + size));
    let long = |operation, kept| {
        let row = rows.row(operation, form::RELATIVE).unwrap();
        Ok((kept, with_code(row, &two(distance(row, 2)))))
    };
    if rows.number_size(o.operation, form::RELATIVE) == 2 {
        return long(o.operation, kept);
    }
    let row = rows.row(o.operation, form::RELATIVE).unwrap();
    let near = distance(row, 1);
    if !kept.widened && in_a_byte(near) {
        return Ok((kept, with_code(row, &[near as u8])));
    }
    if !kept.widened && !o.widening {
        return Err(8);
    }
    long(rows.long(o.operation), Kept { widened: true, ..kept })
}

/// "Register bits: X 00, Y 20, U 40, S 60."
fn register_bits(r: u8) -> Result<u8, u8> {
    match r {
        register::X => Ok(0x00),
        register::Y => Ok(0x20),
        register::U => Ok(0x40),
        register::S => Ok(0x60),
        _ => Err(4),
    }
}

/// The postbyte and what follows it.
fn indexed(o: &Operand, b: &Build, row: Row) -> Result<Vec<u8>, u8> {
    let indirect = if o.indirect { 0x10 } else { 0 };
    let single = matches!(o.step, 1 | 3);
    if o.mode == mode::INC_DEC && single && o.indirect {
        return Err(5);
    }
    let count = if o.mode == mode::REGISTER { 2 } else { 1 };
    if o.mode != mode::EXTENDED && o.registers.len() != count {
        return Err(4);
    }
    match o.mode {
        mode::REGISTER => {
            let postbyte = match o.registers[0] {
                register::A => 0x86,
                register::B => 0x85,
                register::D => 0x8B,
                _ => return Err(4),
            };
            Ok(vec![postbyte | register_bits(o.registers[1])? | indirect])
        }
        mode::OFFSET => {
            let signed = b.values.map_or(Value { number: 0, width: 8 }, |(_, s)| s);
            offset(o.registers[0], o.indirect, signed)
        }
        mode::PC_RELATIVE => {
            if o.registers[0] != register::PC {
                return Err(4);
            }
            let before = if row.page == 0 { 2 } else { 3 };
            Ok(relative(b.values.unwrap().0.number, b.address.wrapping_add(before), indirect))
        }
        mode::INC_DEC => Ok(vec![(0x7F + o.step) | register_bits(o.registers[0])? | indirect]),
        _ => {
            let address = two(b.values.unwrap().0.number);
            Ok(vec![0x9F, address[0], address[1]])
        }
    }
}

/// "zero gives 84 plus register. Not indirect and -16..15: bit 7 clear, five bits. Otherwise 88 and one byte for an 8-bit value, 89 and two bytes
/// for a 16-bit one." "Offset from PC: 8C or 8D by width, zero included."
fn offset(r: u8, indirect: bool, v: Value) -> Result<Vec<u8>, u8> {
    let more = if indirect { 0x10 } else { 0 };
    let number = two(v.number);
    let tail = if v.width == 8 { &number[1..] } else { &number[..] };
    let wide = (v.width == 16) as u8;
    if r == register::PC {
        return Ok([&[0x8C | wide | more], tail].concat());
    }
    let bits = register_bits(r)? | more;
    let n = if v.width == 8 { v.number as u8 as i8 as i16 } else { v.number as i16 };
    if n == 0 {
        return Ok(vec![0x84 | bits]);
    }
    if !indirect && (-16..=15).contains(&n) {
        return Ok(vec![bits | (n as u8 & 31)]);
    }
    Ok([&[0x88 | wide | bits], tail].concat())
}

/// "distance from the end of the one-byte form; within -128..127 it is 8C, else 8D with the distance from the end of the two-byte form."
/// `after` is the address behind the postbyte.
pub fn relative(target: u16, after: u16, indirect: u8) -> Vec<u8> {
    let near = target.wrapping_sub(after.wrapping_add(1));
    if in_a_byte(near) {
        return vec![0x8C | indirect, near as u8];
    }
    let far = two(target.wrapping_sub(after.wrapping_add(2)));
    vec![0x8D | indirect, far[0], far[1]]
}

/// The push byte, or the transfer byte.
fn listed(rows: &Rows, o: &Operand) -> Result<u8, u8> {
    let name = rows.name(o.operation).unwrap();
    if matches!(name, "EXG" | "TFR") {
        let code = |r| [8, 9, 0, 1, 2, 3, 4, 5, 10, 11][r as usize];
        if o.registers.len() != 2 {
            return Err(4);
        }
        let (from, to) = (code(o.registers[0]), code(o.registers[1]));
        return if (from < 8) == (to < 8) { Ok(from << 4 | to) } else { Err(4) };
    }
    let own = if name.ends_with('S') { register::S } else { register::U };
    if o.registers.is_empty() || o.registers.contains(&own) {
        return Err(4);
    }
    Ok(o.registers.iter().fold(0, |byte, &r| byte | [2, 4, 6, 0x10, 0x20, 0x40, 0x40, 0x80, 1, 8][r as usize]))
}

/// "DP is dirtied by TFR to DP, and by EXG, PULS, PULU naming DP."
fn dirties(rows: &Rows, o: &Operand) -> bool {
    match rows.name(o.operation).unwrap() {
        "TFR" => o.registers.get(1) == Some(&register::DP),
        "EXG" | "PULS" | "PULU" => o.registers.contains(&register::DP),
        _ => false,
    }
}
