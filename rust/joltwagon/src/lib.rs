//! Joltwagon for Rust: safe calls of the proved back end of a 6809 assembler, under the names of the tool whose `obj.rs` and `program.rs` it takes the
//! place of. The tool keeps its parser; what it parsed becomes an [`OperandDescriptor`] and nodes of [`ProgramLabels`].
//!
//! Nothing here panics, and nothing is decided here: every answer is the library's, whose contracts are proved (docs/PROMISES.md). What it refuses is a
//! [`Refused`] with document 01's number.
mod instruction;
mod labels;
mod operations;
mod page;
pub mod raw;
mod segments;
mod text;
mod why;

pub use instruction::{decode, run, Decoded, Instruction, Kind, Mode, OperandDescriptor, Register, Step};
pub use labels::{Node, NodeId, ProgramLabels, Value};
pub use operations::Operation;
pub use page::Page;
pub use segments::ProgramSegments;
pub use text::{read_hex, write_hex, BinaryObject, Run};
pub use why::{why, why_row, Field, Reason, Why, WhyNot};

/// A refusal: document 01's number, 1 to 18.
#[derive(Clone, Copy, PartialEq, Eq, Debug)]
pub struct Refused(pub u8);

pub type Result<T> = std::result::Result<T, Refused>;

/// 10: label undefined, defined twice, or above 511.
const BAD_LABEL: Refused = Refused(10);

impl Refused {
    /// What the number stands for.
    pub fn reason(self) -> &'static str {
        match self.0 {
            1 => "operation or field number unknown, over 8 registers, a step missing, or the values disagree or exceed their width",
            2 => "the operation has no such mode",
            3 => "required value missing",
            4 => "register not allowed here, wrong count, or own stack pointer pushed",
            5 => "single step made indirect",
            6 => "the value's width does not fit",
            7 => "Direct not allowed",
            8 => "branch too far, widening off",
            9 => "lent buffer too short",
            10 => "label undefined, defined twice, or above 511",
            11 => "expression deeper than 32, or node number unknown",
            12 => "segment start repeated",
            13 => "64 passes and not settled",
            14 => "opcode or postbyte undefined, or a direct opcode under an unknown page",
            15 => "bytes end inside an instruction",
            16 => "text breaks Intel's rules",
            17 => "too many statements, nodes, segments or values",
            18 => "a byte beyond 65535",
            _ => "no refusal of this library",
        }
    }
}

impl std::fmt::Display for Refused {
    fn fmt(&self, f: &mut std::fmt::Formatter) -> std::fmt::Result {
        write!(f, "refused {}: {}", self.0, self.reason())
    }
}

impl std::error::Error for Refused {}
