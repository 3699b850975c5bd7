//! The builds that are asked: those of the fixed list, and any by chance.
use crate::inputs::*;
use crate::rows::Rows;

/// Numbers from a fixed seed, the same each time.
pub struct Chance(u64);

impl Chance {
    pub fn new(seed: u64) -> Chance {
        Chance(seed)
    }

    pub fn next(&mut self) -> u64 {
        self.0 = self.0.wrapping_mul(6364136223846793005).wrapping_add(1442695040888963407);
        let x = self.0;
        ((x >> 33) ^ (x >> 12)) & 0x7FFF_FFFF
    }

    pub fn below(&mut self, n: usize) -> usize {
        self.next() as usize % n
    }

    pub fn of<T: Copy>(&mut self, all: &[T]) -> T {
        all[self.below(all.len())]
    }

    pub fn one_in(&mut self, n: usize) -> bool {
        self.below(n) == 0
    }
}

pub type Pair = Option<(Value, Value)>;

fn value(number: u16, width: u8) -> Value {
    Value { number: if width == 8 { number % 256 } else { number }, width }
}

/// The two evaluations of a number that reached no address: each in 8 bits where it fits.
pub fn plain(n: u16) -> Pair {
    let unsigned = value(n, if n < 256 { 8 } else { 16 });
    let signed = value(n, if (-128..=127).contains(&(n as i16)) { 8 } else { 16 });
    Some((unsigned, signed))
}

/// The two evaluations of an address: 16 bits wide.
pub fn wide(n: u16) -> Pair {
    Some((value(n, 16), value(n, 16)))
}

/// A pair that only 1's rule allows: equal modulo 256, the unsigned one narrow or the signed one.
pub fn odd(n: u16, unsigned_narrow: bool) -> Pair {
    Some(if unsigned_narrow { (value(n, 8), value(n, 16)) } else { (value(n, 16), value(n, 8)) })
}

fn both_narrow(n: u16) -> Pair {
    Some((value(n, 8), value(n, 8)))
}

/// A pair that 1 forbids: "the two values disagree".
fn disagreeing(values: Pair) -> Pair {
    let (u, s) = values.or(plain(0)).unwrap();
    Some((u, value(s.number.wrapping_add(1), s.width)))
}

/// A pair that 1 forbids: they "exceed their width".
fn exceeding(values: Pair) -> Pair {
    let (u, s) = values.or(plain(0)).unwrap();
    Some((Value { number: u.number | 0x0100, width: 8 }, s))
}

/// All pairs that a number stands in.
fn pairs(n: u16) -> Vec<Pair> {
    let mut all: Vec<Pair> = vec![];
    for pair in [plain(n), wide(n), odd(n, true), odd(n, false), both_narrow(n)] {
        if !all.contains(&pair) {
            all.push(pair);
        }
    }
    all
}

pub fn operand(operation: u8, mode_: u8, registers: &[u8]) -> Operand {
    Operand { operation, mode: mode_, indirect: false, forced: false, widening: true, step: 0, registers: registers.to_vec() }
}

pub fn build(address: u16, dirty: bool, values: Pair) -> Build {
    Build { address, dirty, values }
}

pub fn one(o: &Operand, b: Build) -> Sequence {
    Sequence { operand: o.clone(), builds: vec![b] }
}

/// The operand that a parser would make for a mode, with what the row takes.
fn usual(rows: &Rows, operation: u8, mode_: u8) -> Operand {
    let registers: &[u8] = match mode_ {
        mode::REGISTER if rows.has(operation, form::REGISTER) => &[register::A, register::B],
        mode::REGISTER => &[register::A, register::X],
        mode::OFFSET => &[register::X],
        mode::INC_DEC => &[register::Y],
        mode::PC_RELATIVE => &[register::PC],
        _ => &[],
    };
    let mut o = operand(operation, mode_, registers);
    o.step = if mode_ == mode::INC_DEC { 2 } else { 0 };
    o
}

const OFFSETS: [u16; 26] =
    [0, 1, 5, 14, 15, 16, 17, 127, 128, 129, 240, 255, 256, 257, 32767, 32768, 65280, 65407, 65408, 65409, 65519, 65520, 65521, 65534, 65535, 4660];

/// Addresses where nothing, a part or all of an instruction's end is past 65535.
const PLACES: [u16; 8] = [0x0000, 0x0100, 0x7FFE, 0xFF80, 0xFFFB, 0xFFFC, 0xFFFD, 0xFFFF];

const DISTANCES: [i32; 16] = [-32768, -300, -130, -129, -128, -127, -1, 0, 1, 126, 127, 128, 129, 255, 256, 32767];

pub fn numbers(rows: &Rows, names: &[&str]) -> Vec<u8> {
    names.iter().map(|n| rows.number(n)).collect()
}

/// Every operation in every mode, with and without a value.
fn every_row(rows: &Rows, out: &mut Vec<Sequence>) {
    for operation in rows.operations() {
        for mode_ in 0..8 {
            let o = usual(rows, operation, mode_);
            for values in [None, plain(0x12), plain(0x1234), wide(0x34)] {
                out.push(one(&o, build(0x0100, false, values)));
            }
            if matches!(mode_, mode::EXTENDED | mode::DIRECT) {
                out.push(one(&o, build(0x0100, true, plain(0x12))));
                out.push(one(&Operand { forced: true, ..o.clone() }, build(0x0100, false, plain(0x12))));
            }
        }
    }
}

/// Constant offsets around each boundary, in each pair of widths, on every register.
fn offsets(rows: &Rows, out: &mut Vec<Sequence>) {
    for r in 0..10 {
        for indirect in [false, true] {
            let o = Operand { indirect, ..operand(rows.number("LDA"), mode::OFFSET, &[r]) };
            out.push(one(&o, build(0, false, None)));
            for n in OFFSETS {
                let all = if r == register::Y || r == register::PC { pairs(n) } else { vec![plain(n), wide(n)] };
                out.extend(all.into_iter().map(|values| one(&o, build(0, false, values))));
            }
        }
    }
    for operation in numbers(rows, &["LEAX", "CMPS", "STY"]) {
        let o = operand(operation, mode::OFFSET, &[register::U]);
        out.extend(OFFSETS.iter().map(|&n| one(&o, build(0, false, plain(n)))));
    }
}

/// PCRelative targets and extended indirect addresses.
fn targets(rows: &Rows, out: &mut Vec<Sequence>) {
    for (name, length) in [("LDA", 3), ("CMPS", 4)] {
        for indirect in [false, true] {
            let o = Operand { indirect, ..operand(rows.number(name), mode::PC_RELATIVE, &[register::PC]) };
            for at in PLACES {
                for distance in DISTANCES {
                    let target = (at as i32 + length + distance) as u16;
                    out.push(one(&o, build(at, false, wide(target))));
                }
                for n in [0x0000, 0x0010, 0x00F0, 0xFFF0, 0x12F0] {
                    let all = [plain(n), odd(n, true), odd(n, false)];
                    out.extend(all.into_iter().map(|values| one(&o, build(at, false, values))));
                }
            }
        }
    }
    for name in ["JMP", "CMPD", "STA"] {
        let o = Operand { indirect: true, ..operand(rows.number(name), mode::EXTENDED, &[]) };
        for n in [0, 5, 0x7F, 0x80, 0xFF, 0x0100, 0x8000, 0xFF7F, 0xFF80, 0xFFFF] {
            out.extend(pairs(n).into_iter().map(|values| one(&o, build(0x0100, false, values))));
        }
    }
}

/// Every branch, near and far, widening allowed and not; kept ones too.
fn branches(rows: &Rows, out: &mut Vec<Sequence>) {
    for operation in rows.operations().into_iter().filter(|&n| rows.has(n, form::RELATIVE)) {
        for widening in [true, false] {
            let o = Operand { widening, ..operand(operation, mode::EXTENDED, &[]) };
            for distance in [-32768, -129, -128, 0, 127, 128] {
                out.push(one(&o, build(0x0100, false, wide((0x0102 + distance) as u16))));
            }
        }
    }
    for operation in numbers(rows, &["BRA", "BSR", "LBRA", "LBEQ"]) {
        for widening in [true, false] {
            let o = Operand { widening, ..operand(operation, mode::EXTENDED, &[]) };
            for at in PLACES {
                for distance in DISTANCES {
                    out.push(one(&o, build(at, false, wide((at as i32 + 2 + distance) as u16))));
                }
                out.push(one(&o, build(at, false, plain(0x0005))));
            }
            kept_of(&o, 3, &[wide(0x0110), wide(0x0300)], out);
        }
    }
}

/// All sequences of so many builds of one kept instruction, with each choice of values, clean and dirty.
pub fn kept_of(o: &Operand, count: u32, values: &[Pair], out: &mut Vec<Sequence>) {
    let choices: Vec<Build> = values.iter().flat_map(|&v| [build(0x0100, false, v), build(0x0102, true, v)]).collect();
    let n = choices.len();
    for code in 0..n.pow(count) {
        let builds = (0..count).rev().map(|place| choices[code / n.pow(place) % n]).collect();
        out.push(Sequence { operand: o.clone(), builds });
    }
}

/// Addresses in one byte and in two: clean and dirty, forced and not, kept through three builds.
fn addresses(rows: &Rows, out: &mut Vec<Sequence>) {
    for operation in numbers(rows, &["LDA", "STX", "CMPY"]) {
        for mode_ in [mode::EXTENDED, mode::DIRECT] {
            for forced in [false, true] {
                let o = Operand { forced, ..operand(operation, mode_, &[]) };
                for n in [0, 1, 0xFE, 0xFF, 0x0100, 0x0101, 0x12FF, 0xFFFF] {
                    for values in pairs(n) {
                        out.push(one(&o, build(0, false, values)));
                        out.push(one(&o, build(0, true, values)));
                    }
                }
                kept_of(&o, 3, &[plain(0x34), wide(0x1234)], out);
            }
        }
        let o = Operand { forced: true, ..operand(operation, mode::DIRECT, &[]) };
        kept_of(&o, 3, &[plain(0x34), wide(0x34)], out);
    }
}

/// Builds at one place of a clean page.
fn kept(o: &Operand, values: &[Pair]) -> Sequence {
    Sequence { operand: o.clone(), builds: values.iter().map(|&v| build(0x0100, false, v)).collect() }
}

/// "A kept instruction made far, then built near, then far again", and on (D10).
fn far_again(rows: &Rows, out: &mut Vec<Sequence>) {
    let (near, far) = (plain(0x10), plain(0x1000));
    for operation in numbers(rows, &["LDA", "STX", "CMPY", "JMP"]) {
        let o = operand(operation, mode::EXTENDED, &[]);
        out.push(kept(&o, &[near, far, near, far, near, near, far]));
        out.push(kept(&o, &[far, near, far]));
    }
}

/// Other values, most of them refused, between builds with an operand's own: a refusal leaves what is kept as it was.
fn between(rows: &Rows, out: &mut Vec<Sequence>) {
    let of = |name, mode_| usual(rows, rows.number(name), mode_);
    let (near, far, ahead) = (plain(0x10), plain(0x1000), wide(0x0110));
    let own = [
        (of("LDA", mode::EXTENDED), near),
        (of("LDA", mode::EXTENDED), far),
        (Operand { forced: true, ..of("LDA", mode::EXTENDED) }, far),
        (Operand { indirect: true, ..of("JMP", mode::EXTENDED) }, far),
        (of("LDA", mode::DIRECT), near),
        (Operand { forced: true, ..of("LDA", mode::DIRECT) }, near),
        (of("LDA", mode::IMMEDIATE), near),
        (of("LDX", mode::IMMEDIATE), far),
        (of("NOP", mode::INHERENT), None),
        (of("LDA", mode::OFFSET), near),
        (of("LDA", mode::PC_RELATIVE), far),
        (of("LDA", mode::INC_DEC), None),
        (of("LDA", mode::REGISTER), None),
        (of("PULS", mode::REGISTER), None),
        (of("BRA", mode::EXTENDED), ahead),
        (of("BRA", mode::EXTENDED), far),
        (Operand { widening: false, ..of("BRA", mode::EXTENDED) }, ahead),
    ];
    for (o, values) in own {
        for other in [None, near, far, wide(0x10), ahead, disagreeing(values), exceeding(values)] {
            out.push(kept(&o, &[values, other, values, other, values]));
        }
    }
}

fn immediates(rows: &Rows, out: &mut Vec<Sequence>) {
    for operation in numbers(rows, &["LDA", "ANDCC", "CWAI", "LDX", "SUBD", "CMPU", "LDY", "PSHS", "TFR"]) {
        let o = operand(operation, mode::IMMEDIATE, &[]);
        for n in [0, 0x7F, 0x80, 0xFF, 0x0100, 0x1234, 0x7FFF, 0x8000, 0xFF80, 0xFFFF] {
            out.extend(pairs(n).into_iter().map(|values| one(&o, build(0, false, values))));
        }
    }
}

/// Lists of registers: every pair, single, repeated, own stack pointers, none, all, nine, unknown ones.
fn registers(rows: &Rows, out: &mut Vec<Sequence>) {
    let plain_build = build(0x0100, false, None);
    for operation in numbers(rows, &["EXG", "TFR", "PSHS", "PULU", "LDA"]) {
        for first in 0..10 {
            for second in 0..10 {
                out.push(one(&operand(operation, mode::REGISTER, &[first, second]), plain_build));
            }
        }
    }
    let lists: [&[u8]; 10] =
        [&[], &[0], &[7], &[6], &[5], &[8, 0, 1, 9, 3, 4, 7], &[8, 0, 1, 9, 3, 4, 5, 7], &[8, 0, 1, 9, 3, 4, 6, 7], &[0; 8], &[0; 9]];
    for operation in numbers(rows, &["EXG", "TFR", "PSHS", "PULS", "PSHU", "PULU", "LDA", "NOP"]) {
        for list in lists {
            out.push(one(&operand(operation, mode::REGISTER, list), plain_build));
        }
        for list in [&[0u8, 1, 3][..], &[2, 0], &[9, 9], &[3, 4, 3], &[10], &[3, 255]] {
            out.push(one(&operand(operation, mode::REGISTER, list), plain_build));
        }
        for r in 0..10 {
            out.push(one(&operand(operation, mode::REGISTER, &[r]), plain_build));
        }
    }
}

/// Accumulators, steps and wrong counts on indexed rows.
fn indexed(rows: &Rows, out: &mut Vec<Sequence>) {
    let plain_build = build(0x0100, false, None);
    for operation in numbers(rows, &["LDA", "LDY"]) {
        for accumulator in 0..4 {
            for r in 0..10 {
                let o = Operand { indirect: true, ..operand(operation, mode::REGISTER, &[accumulator, r]) };
                out.push(one(&o, plain_build));
            }
        }
        for step in 0..6 {
            for r in 0..10 {
                for indirect in [false, true] {
                    let o = Operand { indirect, step, ..operand(operation, mode::INC_DEC, &[r]) };
                    out.push(one(&o, plain_build));
                }
            }
        }
        for mode_ in [mode::OFFSET, mode::INC_DEC, mode::PC_RELATIVE] {
            for list in [&[][..], &[3, 3], &[3, 4, 5], &[7, 7], &[0], &[3], &[5]] {
                let o = Operand { step: 1, ..operand(operation, mode_, list) };
                out.extend([None, wide(0x0150)].map(|values| one(&o, build(0x0100, false, values))));
            }
        }
    }
}

/// Operations that no number of docs/ROWS.md has; EXIT is asked for under one of them (E5).
fn unknown(rows: &Rows, out: &mut Vec<Sequence>) {
    for operation in (0..=255).filter(|&n| rows.name(n).is_none()) {
        out.push(one(&operand(operation, mode::INHERENT, &[]), build(0, false, None)));
    }
}

/// Any operand and values, near boundaries more often than not.
pub fn random(rows: &Rows, operations: &[u8], chance: &mut Chance) -> Sequence {
    let operation = chance.of(operations);
    let fitting: Vec<u8> = (0..8).filter(|&m| fits(rows, operation, m)).collect();
    let mode_ = if chance.one_in(8) || fitting.is_empty() { chance.below(8) as u8 } else { chance.of(&fitting) };
    let mut o = usual(rows, operation, mode_);
    if chance.one_in(3) || rows.has(operation, form::REGISTER) && !chance.one_in(4) {
        let count = chance.of(&[0, 1, 1, 2, 2, 2, 3, 4, 8]);
        o.registers = (0..count).map(|_| chance.below(10) as u8).collect();
    } else if matches!(mode_, mode::OFFSET | mode::INC_DEC | mode::REGISTER) && !rows.has(operation, form::REGISTER) {
        *o.registers.last_mut().unwrap() = chance.of(&[3, 4, 5, 6, 3, 4, 5, 6, 7]);
        o.registers[0] = if mode_ == mode::REGISTER { chance.below(3) as u8 } else { o.registers[0] };
    }
    o.step = if mode_ == mode::INC_DEC { chance.of(&[1, 2, 3, 4, 2, 4, 0]) } else { chance.of(&[0, 0, 0, 1]) };
    o.indirect = chance.one_in(3);
    o.forced = chance.one_in(4);
    o.widening = !chance.one_in(3);
    let none = match mode_ {
        mode::REGISTER | mode::INC_DEC | mode::INHERENT => !chance.one_in(8),
        _ => chance.one_in(16),
    };
    Sequence { operand: o, builds: any_builds(chance, none) }
}

/// One to six builds, all with a value or none with one, but for one of another kind between them now and then.
fn any_builds(chance: &mut Chance, none: bool) -> Vec<Build> {
    let count = chance.of(&[1, 1, 1, 1, 2, 2, 2, 3, 3, 4, 5, 6]);
    let at = if chance.one_in(4) { chance.of(&PLACES) } else { chance.below(65536) as u16 };
    let builds = (0..count).map(|_| build(at.wrapping_add(chance.below(4) as u16), chance.one_in(3), if none { None } else { any_pair(chance, at) }));
    let mut builds: Vec<Build> = builds.collect();
    if count > 2 && chance.one_in(3) {
        builds[1 + chance.below(count - 2)].values = other_pair(chance, at, none);
    }
    builds
}

/// What the Rust cannot be asked of an instruction that it keeps: a value where it had none, none where it had one, or a pair that 1 forbids.
fn other_pair(chance: &mut Chance, at: u16, none: bool) -> Pair {
    let values = any_pair(chance, at);
    match chance.below(4) {
        0 => disagreeing(values),
        1 => exceeding(values),
        _ if none => values,
        _ => None,
    }
}

pub fn fits(rows: &Rows, operation: u8, mode_: u8) -> bool {
    let has = |f| rows.has(operation, f);
    match mode_ {
        mode::REGISTER => has(form::REGISTER) || has(form::INDEXED),
        mode::EXTENDED => has(form::EXTENDED) || has(form::RELATIVE),
        mode::DIRECT => has(form::DIRECT),
        mode::IMMEDIATE => has(form::IMMEDIATE),
        mode::INHERENT => has(form::INHERENT),
        _ => has(form::INDEXED),
    }
}

fn any_pair(chance: &mut Chance, at: u16) -> Pair {
    let n = match chance.below(5) {
        0 => chance.of(&OFFSETS),
        1 => at.wrapping_add(3).wrapping_add(chance.of(&DISTANCES) as u16).wrapping_add(chance.below(3) as u16),
        2 => chance.below(300) as u16,
        _ => chance.below(65536) as u16,
    };
    match chance.below(6) {
        0 | 1 => plain(n),
        2 | 3 => wide(n),
        4 => odd(n, chance.one_in(2)),
        _ => both_narrow(n),
    }
}

/// The sequences of the fixed list, which has at least so many builds.
pub fn fixed(rows: &Rows, least: usize) -> Vec<Sequence> {
    let mut out = Vec::new();
    every_row(rows, &mut out);
    offsets(rows, &mut out);
    targets(rows, &mut out);
    branches(rows, &mut out);
    addresses(rows, &mut out);
    far_again(rows, &mut out);
    between(rows, &mut out);
    immediates(rows, &mut out);
    registers(rows, &mut out);
    indexed(rows, &mut out);
    unknown(rows, &mut out);
    let operations = rows.operations();
    let mut chance = Chance::new(6809);
    let mut builds: usize = out.iter().map(|s| s.builds.len()).sum();
    while builds < least {
        let sequence = random(rows, &operations, &mut chance);
        builds += sequence.builds.len();
        out.push(sequence);
    }
    out
}
