//! What is asked: an operand, and one or more builds of the instruction made of it. Numbers are those of docs/ROWS.md.
pub use crate::numbers::{mode, register};

#[derive(Clone, Copy, PartialEq, Eq, Debug)]
pub struct Value {
    pub number: u16,
    pub width: u8,
}

/// What no build changes.
#[derive(Clone, Debug)]
pub struct Operand {
    pub operation: u8,
    pub mode: u8,
    pub indirect: bool,
    pub forced: bool,
    pub widening: bool,
    pub step: u8,
    pub registers: Vec<u8>,
}

/// One build: the unsigned and the signed evaluation, where there is a value.
#[derive(Clone, Copy, Debug)]
pub struct Build {
    pub address: u16,
    /// The Rust's flag: a clean page is 02's page 0, a dirty one is unknown.
    pub dirty: bool,
    pub values: Option<(Value, Value)>,
}

/// A fresh build, then builds of the kept instruction.
#[derive(Clone, Debug)]
pub struct Sequence {
    pub operand: Operand,
    pub builds: Vec<Build>,
}

/// What a build answers: a refusal, or the run-time form, whether the page is dirtied, and the bytes.
#[derive(Clone, PartialEq, Eq, Debug)]
pub enum Answer {
    Refused(u8),
    Built { form: u8, dirties: bool, bytes: Vec<u8> },
}

impl Answer {
    pub fn is_refused(&self) -> bool {
        matches!(self, Answer::Refused(_))
    }
}

pub mod form {
    pub const INHERENT: u8 = 0;
    pub const IMMEDIATE: u8 = 1;
    pub const DIRECT: u8 = 2;
    pub const INDEXED: u8 = 3;
    pub const EXTENDED: u8 = 4;
    pub const RELATIVE: u8 = 5;
    pub const REGISTER: u8 = 6;
}
