//! The records that both sides build, each accepted by both: a plain mix of a firmware's instructions, and the longest push list.
use crate::numbers::mode::*;
use crate::numbers::register::*;
use crate::numbers::{mode_of, step_of, value_of};
use coco::instructions::{self, Descriptor};
use coco::parse::{OperandDescriptor, Token, TokenType, ValueNode};
use joltwagon::Operation;

/// Name, mode, indirect, step, registers, and a number with its width (0 for none).
pub type Line = (&'static str, u8, bool, u8, &'static [u8], u16, u8);

const MIX: [Line; 24] = [
    ("LDA", IMMEDIATE, false, 0, &[], 0x05, 8),
    ("LDX", IMMEDIATE, false, 0, &[], 0x1234, 16),
    ("LDA", EXTENDED, false, 0, &[], 0x20, 8),
    ("STA", EXTENDED, false, 0, &[], 0x4000, 16),
    ("LDB", OFFSET, false, 0, &[X], 5, 8),
    ("STD", OFFSET, false, 0, &[Y], 0, 8),
    ("LDD", OFFSET, false, 0, &[U], 100, 8),
    ("LEAX", OFFSET, false, 0, &[S], 0x0300, 16),
    ("LDA", INC_DEC, false, 1, &[X], 0, 0),
    ("STB", INC_DEC, false, 2, &[Y], 0, 0),
    ("LDX", INC_DEC, true, 2, &[U], 0, 0),
    ("ADDD", EXTENDED, true, 0, &[], 0xC000, 16),
    ("LDA", REGISTER, false, 0, &[B, X], 0, 0),
    ("LEAY", PC_RELATIVE, false, 0, &[PC], 0x0140, 16),
    ("PSHS", REGISTER, false, 0, &[A, B, X], 0, 0),
    ("PULS", REGISTER, false, 0, &[A, B, X, PC], 0, 0),
    ("TFR", REGISTER, false, 0, &[X, Y], 0, 0),
    ("BNE", EXTENDED, false, 0, &[], 0x0110, 16),
    ("LBSR", EXTENDED, false, 0, &[], 0x2000, 16),
    ("JSR", EXTENDED, false, 0, &[], 0xC100, 16),
    ("CMPX", IMMEDIATE, false, 0, &[], 0x1000, 16),
    ("CLRA", INHERENT, false, 0, &[], 0, 0),
    ("INC", EXTENDED, false, 0, &[], 0x0123, 16),
    ("RTS", INHERENT, false, 0, &[], 0, 0),
];

/// Where every instruction is built.
pub const ADDRESS: u16 = 0x0100;

pub const HOW_MANY: usize = 960;

pub fn mix() -> Vec<Line> {
    MIX.iter().cycle().take(HOW_MANY).copied().collect()
}

/// The longest push list there is, as often.
pub fn pushes() -> Vec<Line> {
    vec![("PSHS", REGISTER, false, 0, &[CC, A, B, DP, X, Y, U, PC], 0, 0); HOW_MANY]
}

/// Rows of document 01's records (docs/ROWS.md), and for each the node of its value in a table of nodes, if it has one.
pub struct Ours {
    pub rows: Vec<[u16; 21]>,
    pub nodes: Vec<u16>,
    pub node: Vec<Option<u16>>,
}

pub fn ours(lines: &[Line]) -> Ours {
    let mut made = Ours { rows: Vec::new(), nodes: Vec::new(), node: Vec::new() };
    for &(name, mode, indirect, step, registers, number, width) in lines {
        let mut row = [0; 21];
        row[..7].copy_from_slice(&[Operation::named(name).unwrap().0, mode as u16, indirect as u16, 0, step as u16, 1, registers.len() as u16]);
        row[7..].iter_mut().zip(registers).for_each(|(cell, &r)| *cell = r as u16);
        made.node.push((width != 0).then_some((made.nodes.len() / 3) as u16));
        if width != 0 {
            row[16..].copy_from_slice(&[1, number, width as u16, number, width as u16]);
            made.nodes.extend([0, number, 0]);
        }
        made.rows.push(row);
    }
    made
}

pub fn theirs(lines: &[Line]) -> Vec<(&'static Descriptor, OperandDescriptor)> {
    instructions::init();
    let make = |&(name, mode, indirect, step, registers, number, width): &Line| {
        let mut od = OperandDescriptor::new();
        od.mode = mode_of(mode);
        od.indirect = indirect;
        od.incdec = step_of(step);
        od.regs = (!registers.is_empty()).then(|| registers.iter().map(|&r| NAMES[r as usize].to_string()).collect());
        let value = value_of(number, width);
        od.value = (width != 0).then(|| ValueNode::new(Token::new(TokenType::Number, number.to_string(), Some(value)), false, None, None));
        (instructions::name_to_descriptor(name).unwrap(), od)
    };
    lines.iter().map(make).collect()
}
