use crate::{raw, NodeId, Operation, Page, ProgramLabels, Result};

/// The parser's addressing modes.
#[derive(Clone, Copy, PartialEq, Eq, Debug)]
pub enum Mode {
    Register,
    Offset,
    PCRelative,
    IncDec,
    Extended,
    Direct,
    Immediate,
    Inherent,
}

const MODES: [Mode; 8] =
    [Mode::Register, Mode::Offset, Mode::PCRelative, Mode::IncDec, Mode::Extended, Mode::Direct, Mode::Immediate, Mode::Inherent];

#[derive(Clone, Copy, PartialEq, Eq, Debug)]
pub enum Register {
    A,
    B,
    D,
    X,
    Y,
    U,
    S,
    PC,
    CC,
    DP,
}

const REGISTERS: [Register; 10] =
    [Register::A, Register::B, Register::D, Register::X, Register::Y, Register::U, Register::S, Register::PC, Register::CC, Register::DP];

/// The library hands out no other numbers.
pub(crate) fn mode(number: u16) -> Mode {
    MODES[number as usize % MODES.len()]
}

pub(crate) fn register(number: u16) -> Register {
    REGISTERS[number as usize % REGISTERS.len()]
}

/// `,R+`, `,R++`, `,-R` and `,--R`.
#[derive(Clone, Copy, PartialEq, Eq, Debug)]
pub enum Step {
    Inc = 1,
    IncInc,
    Dec,
    DecDec,
}

const STEPS: [Step; 4] = [Step::Inc, Step::IncInc, Step::Dec, Step::DecDec];

/// An operand as the parser saw it.
#[derive(Clone, PartialEq, Eq, Debug)]
pub struct OperandDescriptor {
    pub mode: Mode,
    pub indirect: bool,
    pub force_mode: bool,
    pub regs: Vec<Register>,
    pub incdec: Option<Step>,
    pub value: Option<NodeId>,
}

impl OperandDescriptor {
    pub fn new(mode: Mode) -> Self {
        OperandDescriptor { mode, indirect: false, force_mode: false, regs: Vec::new(), incdec: None, value: None }
    }
}

/// The page and the values of one build.
pub(crate) fn present(value: Option<NodeId>, addr: u16, labels: &ProgramLabels, page: Page) -> Result<[u16; raw::PRESENT]> {
    match value {
        None => Ok([page.number(), 0, 0, 0, 0, 0]),
        Some(node) => {
            let (u, s) = labels.eval(node, addr)?;
            Ok([page.number(), 1, u.number, u.width as u16, s.number, s.width as u16])
        }
    }
}

/// A record whose page is 0 and that has no values.
pub(crate) fn record(id: Operation, od: &OperandDescriptor, widening: bool) -> [u16; raw::RECORD] {
    let mut row = [0; raw::RECORD];
    let step = od.incdec.map_or(0, |step| step as u16);
    row[..7].copy_from_slice(&[
        id.0,
        od.mode as u16,
        od.indirect as u16,
        od.force_mode as u16,
        step,
        widening as u16,
        od.regs.len().min(0xFFFF) as u16,
    ]);
    for (cell, register) in row[7..15].iter_mut().zip(&od.regs) {
        *cell = *register as u16;
    }
    row
}

/// The bytes of a build, and whether it leaves the page unknown.
pub(crate) fn built(cells: &[u16]) -> (Vec<u8>, bool) {
    (cells[1..=cells[0] as usize].iter().map(|&byte| byte as u8).collect(), cells[6] == 1)
}

/// An instruction that is built again in each pass. It remembers whether its short branch was made long; otherwise each build that is accepted gives the bytes of a fresh
/// one, whatever was built or refused before it.
#[derive(Clone, PartialEq, Eq, Debug)]
pub struct Instruction {
    value: Option<NodeId>,
    kept: [u16; raw::KEPT],
    bytes: Vec<u8>,
    changes_dp: bool,
}

impl Instruction {
    /// Makes an instruction. `widening` allows a short branch to become its long one. In document 01's order: 1 and 2 of the operand, then 11 and 10 of its
    /// expression, then 1 of the values. The page is a [`Page`], or the old tool's `dp_dirty`.
    pub fn try_new(id: Operation, od: &OperandDescriptor, addr: u16, labels: &ProgramLabels, page: impl Into<Page>, widening: bool) -> Result<Instruction> {
        let mut row = record(id, od, widening);
        raw::make(&row)?;
        row[15..].copy_from_slice(&present(od.value, addr, labels, page.into())?);
        let kept = raw::make(&row)?;
        Ok(Instruction { value: od.value, kept, bytes: Vec::new(), changes_dp: false })
    }

    /// Builds the instruction at an address. The page is a [`Page`], or the old tool's `dp_dirty`. A refusal leaves the instruction as it was.
    pub fn build(&mut self, addr: u16, labels: &ProgramLabels, page: impl Into<Page>) -> Result<&[u8]> {
        let answer = raw::build(&self.kept, &present(self.value, addr, labels, page.into())?, addr)?;
        (self.bytes, self.changes_dp) = built(&answer);
        self.kept.copy_from_slice(&answer[7..]);
        Ok(&self.bytes)
    }

    /// Whether this instruction, as last built, leaves the page unknown, whatever it was. Otherwise the page stays as it was; with the old tool's flag,
    /// `dp_dirty |= instruction.changes_dp()`.
    pub fn changes_dp(&self) -> bool {
        self.changes_dp
    }

    /// How many bytes the last build gave.
    pub fn current_size(&self) -> usize {
        self.bytes.len()
    }
}

/// What an operand means, and only what its form uses.
#[derive(Clone, PartialEq, Eq, Debug)]
pub enum Kind {
    Inherent,
    Immediate(u16),
    Memory(u16),
    Branch(u16),
    Push(Vec<Register>),
    Pair(Register, Register),
    Offset { register: Register, indirect: bool, offset: u16 },
    Counter { indirect: bool, target: u16 },
    Accumulator { register: Register, accumulator: Register, indirect: bool },
    Step { register: Register, step: Step, indirect: bool },
    Address(u16),
}

/// An instruction that was read.
#[derive(Clone, PartialEq, Eq, Debug)]
pub struct Decoded {
    pub length: usize,
    pub operation: Operation,
    pub kind: Kind,
}

fn read(cells: [u16; raw::READ]) -> Decoded {
    let [length, operation, kind, indirect, step, set, first, second, number] = cells;
    let indirect = indirect == 1;
    let kind = match kind {
        2 => Kind::Immediate(number),
        3 => Kind::Memory(number),
        4 => Kind::Branch(number),
        5 => Kind::Push(REGISTERS.into_iter().filter(|&r| set >> r as u16 & 1 == 1).collect()),
        6 => Kind::Pair(register(first), register(second)),
        7 => Kind::Offset { register: register(first), indirect, offset: number },
        8 => Kind::Counter { indirect, target: number },
        9 => Kind::Accumulator { register: register(first), accumulator: register(second), indirect },
        10 => Kind::Step { register: register(first), step: STEPS[step.wrapping_sub(1) as usize % STEPS.len()], indirect },
        11 => Kind::Address(number),
        _ => Kind::Inherent,
    };
    Decoded { length: length as usize, operation: Operation(operation), kind }
}

/// The instruction at the front of bytes that stand from an address on. A direct code is read as the address in the page; under an unknown one it is
/// refused 14.
pub fn decode(bytes: &[u8], address: u16, page: Page) -> Result<Decoded> {
    raw::decode(bytes, address, page.number()).map(read)
}

/// The instructions of a run, one after the other; the first that is refused is the last. All are read under one page, whatever they do to DP.
pub fn run(bytes: &[u8], address: u16, page: Page) -> impl Iterator<Item = Result<Decoded>> + '_ {
    let mut at = 0;
    std::iter::from_fn(move || {
        if at >= bytes.len() {
            return None;
        }
        let next = raw::next(bytes, address, page.number(), at).map(read);
        at = next.as_ref().map_or(bytes.len(), |decoded| at + decoded.length);
        Some(next)
    })
}
