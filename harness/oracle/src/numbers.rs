//! The numbers of docs/ROWS.md, and what the Rust has for them.
use coco::instructions::AddressingMode;
use coco::parse::IncDecType;
use coco::u8u16;

pub mod mode {
    pub const REGISTER: u8 = 0;
    pub const OFFSET: u8 = 1;
    pub const PC_RELATIVE: u8 = 2;
    pub const INC_DEC: u8 = 3;
    pub const EXTENDED: u8 = 4;
    pub const DIRECT: u8 = 5;
    pub const IMMEDIATE: u8 = 6;
    pub const INHERENT: u8 = 7;
}

pub mod register {
    pub const A: u8 = 0;
    pub const B: u8 = 1;
    pub const D: u8 = 2;
    pub const X: u8 = 3;
    pub const Y: u8 = 4;
    pub const U: u8 = 5;
    pub const S: u8 = 6;
    pub const PC: u8 = 7;
    // Named by the benchmarks alone.
    #[allow(dead_code)]
    pub const CC: u8 = 8;
    pub const DP: u8 = 9;
    pub const NAMES: [&str; 10] = ["A", "B", "D", "X", "Y", "U", "S", "PC", "CC", "DP"];
}

pub fn mode_of(number: u8) -> AddressingMode {
    match number {
        mode::REGISTER => AddressingMode::Register,
        mode::OFFSET => AddressingMode::Offset,
        mode::PC_RELATIVE => AddressingMode::PCRelative,
        mode::INC_DEC => AddressingMode::IncDec,
        mode::EXTENDED => AddressingMode::Extended,
        mode::DIRECT => AddressingMode::Direct,
        mode::IMMEDIATE => AddressingMode::Immediate,
        _ => AddressingMode::Inherent,
    }
}

pub fn step_of(number: u8) -> Option<IncDecType> {
    match number {
        1 => Some(IncDecType::Inc),
        2 => Some(IncDecType::IncInc),
        3 => Some(IncDecType::Dec),
        4 => Some(IncDecType::DecDec),
        _ => None,
    }
}

pub fn value_of(number: u16, width: u8) -> u8u16 {
    if width == 8 {
        u8u16::u8(number as u8)
    } else {
        u8u16::u16(number)
    }
}
