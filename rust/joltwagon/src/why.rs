use crate::instruction::{built, mode, present, record, register};
use crate::{raw, Mode, OperandDescriptor, Operation, Page, ProgramLabels, Refused, Register};
use std::fmt;

/// What a fresh build gives, and why. It prints as its reason, in words.
#[derive(Clone, PartialEq, Eq, Debug)]
pub struct Why {
    pub bytes: Vec<u8>,
    pub reason: Reason,
    /// Whether the instruction leaves the page unknown, as [`Instruction::changes_dp`](crate::Instruction::changes_dp) says.
    pub changes_dp: bool,
}

/// Why an instruction is as long as it is.
#[derive(Clone, Copy, PartialEq, Eq, Debug)]
pub enum Reason {
    /// Nothing was to be chosen: the operand has one form.
    Plain { mode: Mode, indirect: bool },
    /// An address in mode Extended, on an operation that has the extended form: which facts hold. With none of them it is direct, otherwise extended.
    Address {
        /// Forced to extended.
        forced: bool,
        /// The page is unknown.
        unknown: bool,
        /// The page is known, and not the address's high byte.
        elsewhere: bool,
    },
    /// A branch.
    Branch {
        /// From the end of the branch as it was written: of a short one that was made long, from the end of the short one, which decided.
        distance: i16,
        /// Whether the distance lies in -128..127.
        near: bool,
        /// Whether it was written as a long branch. Otherwise it is short if it is near, and was made long if not.
        long: bool,
    },
    /// An operand in mode PCRelative.
    PCRelative {
        /// From the end of the form with one byte of distance, which is the form if it is near.
        distance: i16,
        /// Whether the distance lies in -128..127.
        near: bool,
        indirect: bool,
    },
    /// A constant offset from a register.
    Offset {
        offset: i16,
        /// 0 for no offset at all, 5 for one in the postbyte, 8 for one byte and 16 for two.
        bits: u8,
        register: Register,
        indirect: bool,
    },
}

/// The field of a record that a refusal is about, in the order of the record's row. It prints as its name.
#[derive(Clone, Copy, PartialEq, Eq, Debug)]
pub enum Field {
    Operation = 1,
    Mode,
    Indirect,
    Forced,
    Step,
    Widening,
    Registers,
    Page,
    Values,
}

const FIELDS: [Field; 9] = [
    Field::Operation,
    Field::Mode,
    Field::Indirect,
    Field::Forced,
    Field::Step,
    Field::Widening,
    Field::Registers,
    Field::Page,
    Field::Values,
];

/// Why an operand was not built: the refusal, and the field that it is about. There is none where no whole record was there to be asked about: an expression
/// refused 10 or 11, or a row of fewer than 21 numbers. It prints in words.
#[derive(Clone, Copy, PartialEq, Eq, Debug)]
pub struct WhyNot {
    pub refused: Refused,
    pub field: Option<Field>,
}

impl From<Refused> for WhyNot {
    fn from(refused: Refused) -> WhyNot {
        WhyNot { refused, field: None }
    }
}

impl From<WhyNot> for Refused {
    fn from(why_not: WhyNot) -> Refused {
        why_not.refused
    }
}

/// Why a fresh instruction is as long as it is. It takes what [`Instruction::try_new`](crate::Instruction::try_new) takes, and refuses what it and the first
/// build refuse, in the same order.
///
/// ```
/// use joltwagon::*;
///
/// let mut labels = ProgramLabels::new();
/// let cell = labels.node(Node::Constant(0x34));
/// let cell = OperandDescriptor { value: Some(cell), ..OperandDescriptor::new(Mode::Extended) };
/// let lda = Operation::named("LDA").unwrap();
///
/// let told = why(lda, &cell, 0x100, &labels, Page::Unknown, true)?;
/// assert_eq!(told.bytes, [0xB6, 0x00, 0x34]);
/// assert_eq!(told.to_string(), "extended: the page is unknown");
///
/// let direct = OperandDescriptor { mode: Mode::Direct, force_mode: true, ..cell };
/// let told = why(lda, &direct, 0x100, &labels, Page::Known(0x20), true).unwrap_err();
/// assert_eq!((told.refused, told.field), (Refused(7), Some(Field::Values)));
/// assert_eq!(told.to_string(), "refused 7: the page is not the address's high byte");
/// # Ok::<(), WhyNot>(())
/// ```
pub fn why(id: Operation, od: &OperandDescriptor, addr: u16, labels: &ProgramLabels, page: impl Into<Page>, widening: bool) -> Result<Why, WhyNot> {
    let mut row = record(id, od, widening);
    // An operand that is refused 1 or 2 is refused so whatever its expression is.
    if raw::make(&row).is_ok() {
        row[15..].copy_from_slice(&present(od.value, addr, labels, page.into())?);
    }
    why_row(&row, addr)
}

/// The same of a record's row as it is, the 21 numbers of docs/ROWS.md, whatever stands in it.
pub fn why_row(row: &[u16], addr: u16) -> Result<Why, WhyNot> {
    let (field, answer) = raw::why(row, addr);
    match answer {
        Ok(answer) => Ok(told(answer)),
        Err(refused) => Err(WhyNot { refused, field: FIELDS.into_iter().find(|&known| known as u16 == field) }),
    }
}

fn told(answer: [u16; raw::EXPLAINED]) -> Why {
    let (bytes, changes_dp) = built(&answer);
    let kept = &answer[7..raw::BUILT];
    let (indirect, widened) = (kept[2] == 1, kept[17] == 1);
    let [.., kind, forced, unknown, elsewhere, number, near, bits] = answer;
    let (distance, near) = (number as i16, near == 1);
    let reason = match kind {
        1 => Reason::Address { forced: forced == 1, unknown: unknown == 1, elsewhere: elsewhere == 1 },
        // A short branch has two bytes.
        2 => Reason::Branch { distance, near, long: !widened && bytes.len() > 2 },
        3 => Reason::PCRelative { distance, near, indirect },
        4 => Reason::Offset { offset: number as i16, bits: bits as u8, register: register(kept[7]), indirect },
        _ => Reason::Plain { mode: mode(kept[1]), indirect },
    };
    Why { bytes, reason, changes_dp }
}

impl fmt::Display for Why {
    fn fmt(&self, f: &mut fmt::Formatter) -> fmt::Result {
        self.reason.fmt(f)
    }
}

const ELSEWHERE: &str = "the page is not the address's high byte";

/// A distance, and whether it is in reach of one byte.
fn reach(distance: i16, near: bool) -> String {
    let side = if distance < 0 { "behind" } else { "ahead" };
    let range = if near { "in" } else { "out of" };
    format!("{} {side}, {range} -128..127", distance.unsigned_abs())
}

impl fmt::Display for Reason {
    fn fmt(&self, f: &mut fmt::Formatter) -> fmt::Result {
        let indirectly = |indirect| if indirect { ", indirect" } else { "" };
        match *self {
            Reason::Plain { mode, indirect } => {
                let mode = match mode {
                    Mode::Register => "registers",
                    Mode::Offset => "offset",
                    Mode::PCRelative => "PC relative",
                    Mode::IncDec => "step",
                    Mode::Extended => "extended",
                    Mode::Direct => "direct",
                    Mode::Immediate => "immediate",
                    Mode::Inherent => "inherent",
                };
                write!(f, "{mode}{}: as written", indirectly(indirect))
            }
            Reason::Address { forced: false, unknown: false, elsewhere: false } => f.write_str("direct: the page is the address's high byte"),
            Reason::Address { forced, unknown, elsewhere } => {
                let facts = [(forced, "forced"), (unknown, "the page is unknown"), (elsewhere, ELSEWHERE)];
                let named: Vec<&str> = facts.into_iter().filter(|(holds, _)| *holds).map(|(_, words)| words).collect();
                write!(f, "extended: {}", named.join(", "))
            }
            Reason::Branch { distance, near, long } => {
                let size = match (long, near) {
                    (true, _) => "long as written",
                    (false, true) => "short",
                    (false, false) => "made long",
                };
                write!(f, "branch: {}, {size}", reach(distance, near))
            }
            Reason::PCRelative { distance, near, indirect } => {
                let size = if near { "one byte" } else { "two bytes" };
                write!(f, "PC relative{}: {}, {size}", indirectly(indirect), reach(distance, near))
            }
            Reason::Offset { bits: 0, indirect, .. } => write!(f, "offset 0{}: no offset byte", indirectly(indirect)),
            Reason::Offset { offset, bits: 5, .. } => write!(f, "offset {offset}: in -16..15, five bits in the postbyte"),
            // On PC the width alone decides.
            Reason::Offset { offset, bits, register, indirect } => {
                let (on, not_five) = match (register, indirect) {
                    (Register::PC, _) => (" on PC", ""),
                    (_, true) => ("", "no five-bit form, "),
                    (_, false) => ("", "out of -16..15, "),
                };
                let size = match (register, bits) {
                    (Register::PC, 8) => "8 bits wide, one byte",
                    (_, 8) => "one byte",
                    _ => "16 bits wide, two bytes",
                };
                write!(f, "offset {offset}{on}{}: {not_five}{size}", indirectly(indirect))
            }
        }
    }
}

impl fmt::Display for Field {
    fn fmt(&self, f: &mut fmt::Formatter) -> fmt::Result {
        f.write_str(match self {
            Field::Operation => "operation",
            Field::Mode => "mode",
            Field::Indirect => "indirect",
            Field::Forced => "forced",
            Field::Step => "step",
            Field::Widening => "widening",
            Field::Registers => "registers",
            Field::Page => "page",
            Field::Values => "values",
        })
    }
}

impl WhyNot {
    /// What the refusal says of its field.
    pub fn reason(self) -> &'static str {
        match (self.refused.0, self.field) {
            (1, None) => "the record has fewer than 21 numbers",
            (1, Some(Field::Operation)) => "the operation is unknown",
            (1, Some(Field::Mode)) => "the mode is unknown",
            (1, Some(Field::Indirect)) => "indirect is neither 0 nor 1",
            (1, Some(Field::Forced)) => "forced is neither 0 nor 1",
            (1, Some(Field::Step)) => "the step is unknown or missing",
            (1, Some(Field::Widening)) => "widening is neither 0 nor 1",
            (1, Some(Field::Registers)) => "a register is unknown, or there are over 8",
            (1, Some(Field::Page)) => "the page is neither 0 to 255 nor unknown",
            (1, Some(Field::Values)) => "the values disagree or exceed their width, or a width or their flag is unknown",
            (2, _) => "the operation has no such mode",
            (3, _) => "the value is missing",
            (4, _) => "a register is not allowed here, their count is wrong, or the own stack pointer is pushed",
            (5, _) => "a single step cannot be indirect",
            (6, _) => "the value is too wide, or the form takes none",
            (7, Some(Field::Page)) => "the page is unknown",
            (7, _) => ELSEWHERE,
            (8, _) => "the branch is too far, and widening is off",
            _ => self.refused.reason(),
        }
    }
}

impl fmt::Display for WhyNot {
    fn fmt(&self, f: &mut fmt::Formatter) -> fmt::Result {
        write!(f, "refused {}: {}", self.refused.0, self.reason())
    }
}

impl std::error::Error for WhyNot {}
