//! The builds that are asked at scale beside those by chance.
use crate::inputs::*;
use crate::questions::*;
use crate::rows::Rows;

/// Everything around each boundary: all 65,536 offsets, targets, addresses, places and immediates on chosen rows, all lists of up to four registers, and
/// all sequences of three builds near and far, clean and dirty, and of five on chosen rows.
pub fn all(rows: &Rows, each: &mut dyn FnMut(&Sequence)) {
    fixed(rows, 0).iter().for_each(&mut *each);
    all_offsets(rows, each);
    all_targets(rows, each);
    all_addresses(rows, each);
    all_lists(rows, each);
    all_kept(rows, each);
    all_kept_on(rows, each);
}

fn all_offsets(rows: &Rows, each: &mut dyn FnMut(&Sequence)) {
    for r in [register::X, register::S, register::PC] {
        for indirect in [false, true] {
            let o = Operand { indirect, ..operand(rows.number("LDA"), mode::OFFSET, &[r]) };
            for n in 0..=65535 {
                each(&one(&o, build(0, false, plain(n))));
                each(&one(&o, build(0, false, wide(n))));
            }
        }
    }
}

fn all_targets(rows: &Rows, each: &mut dyn FnMut(&Sequence)) {
    for name in ["LDA", "CMPS"] {
        for indirect in [false, true] {
            let o = Operand { indirect, ..operand(rows.number(name), mode::PC_RELATIVE, &[register::PC]) };
            for n in 0..=65535 {
                each(&one(&o, build(0x1234, false, wide(n))));
                each(&one(&o, build(0x00F0, false, plain(n))));
                each(&one(&o, build(n, false, wide(0x8000))));
            }
        }
    }
    for (name, widening) in [("BRA", true), ("BNE", false), ("LBRA", true), ("LBLE", true)] {
        let o = Operand { widening, ..operand(rows.number(name), mode::EXTENDED, &[]) };
        for n in 0..=65535 {
            each(&one(&o, build(0x1234, false, wide(n))));
            each(&one(&o, build(n, false, wide(0x8000))));
        }
    }
    let o = Operand { indirect: true, ..operand(rows.number("JMP"), mode::EXTENDED, &[]) };
    for n in 0..=65535 {
        each(&one(&o, build(0, false, plain(n))));
        each(&one(&o, build(0, false, odd(n, false))));
    }
}

fn all_addresses(rows: &Rows, each: &mut dyn FnMut(&Sequence)) {
    for mode_ in [mode::EXTENDED, mode::DIRECT] {
        for forced in [false, true] {
            let o = Operand { forced, ..operand(rows.number("LDA"), mode_, &[]) };
            for n in 0..=65535 {
                for dirty in [false, true] {
                    each(&one(&o, build(0, dirty, wide(n))));
                }
                each(&one(&o, build(0, false, plain(n))));
            }
        }
    }
    for name in ["LDA", "LDX", "CMPU"] {
        let o = operand(rows.number(name), mode::IMMEDIATE, &[]);
        for n in 0..=65535 {
            each(&one(&o, build(0, false, plain(n))));
            each(&one(&o, build(0, false, wide(n))));
        }
    }
}

fn all_lists(rows: &Rows, each: &mut dyn FnMut(&Sequence)) {
    let plain_build = build(0x0100, false, None);
    for operation in numbers(rows, &["EXG", "TFR", "PSHS", "PULS", "PSHU", "PULU", "LDA"]) {
        for code in 0..10_000u32 {
            let list = [code / 1000, code / 100 % 10, code / 10 % 10, code % 10].map(|r| r as u8);
            for length in 1..=4 {
                // Each shorter list once, where the digits left out are 0.
                if list[length..].iter().all(|&r| r == 0) {
                    each(&one(&operand(operation, mode::REGISTER, &list[..length]), plain_build));
                }
            }
        }
    }
}

fn all_kept(rows: &Rows, each: &mut dyn FnMut(&Sequence)) {
    let mut sequences = vec![];
    for operation in rows.operations() {
        for mode_ in [mode::EXTENDED, mode::DIRECT] {
            if fits(rows, operation, mode_) {
                for forced in [false, true] {
                    let o = Operand { forced, ..operand(operation, mode_, &[]) };
                    kept_of(&o, 3, &[plain(0x34), wide(0x0034), wide(0x0110), wide(0x1234)], &mut sequences);
                }
                sequences.iter().for_each(&mut *each);
                sequences.clear();
            }
        }
    }
}

/// Sequences of five, in which what an earlier build has spoiled shows.
fn all_kept_on(rows: &Rows, each: &mut dyn FnMut(&Sequence)) {
    let mut sequences = vec![];
    for operation in numbers(rows, &["LDA", "STX", "CMPY", "JMP"]) {
        for mode_ in [mode::EXTENDED, mode::DIRECT] {
            for forced in [false, true] {
                let o = Operand { forced, ..operand(operation, mode_, &[]) };
                kept_of(&o, 5, &[plain(0x34), wide(0x1234)], &mut sequences);
            }
        }
    }
    for widening in [false, true] {
        let o = Operand { widening, ..operand(rows.number("BRA"), mode::EXTENDED, &[]) };
        kept_of(&o, 5, &[wide(0x0110), wide(0x0300)], &mut sequences);
    }
    sequences.iter().for_each(each);
}
