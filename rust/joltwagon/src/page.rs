use crate::raw;

/// What is known of the register DP: nothing, or the high byte of the addresses that a direct code reaches.
///
/// A pass begins at page 0. The directive SETDP makes the page known, an instruction that [changes DP](crate::Instruction::changes_dp) makes it unknown:
///
/// ```
/// use joltwagon::*;
///
/// let mut labels = ProgramLabels::new();
/// let rack = labels.node(Node::Constant(0x2005));
/// let rack = OperandDescriptor { value: Some(rack), ..OperandDescriptor::new(Mode::Extended) };
/// let to_dp = OperandDescriptor { regs: vec![Register::A, Register::DP], ..OperandDescriptor::new(Mode::Register) };
///
/// let mut page = Page::Known(0x20); // SETDP $20
/// let mut bytes = Vec::new();
/// // LDA $2005, TFR A,DP, LDA $2005
/// for (name, operand) in [("LDA", &rack), ("TFR", &to_dp), ("LDA", &rack)] {
///     let operation = Operation::named(name).unwrap();
///     let addr = bytes.len() as u16;
///     let mut instruction = Instruction::try_new(operation, operand, addr, &labels, page, true)?;
///     bytes.extend_from_slice(instruction.build(addr, &labels, page)?);
///     if instruction.changes_dp() {
///         page = Page::Unknown;
///     }
/// }
/// assert_eq!(bytes, [0x96, 0x05, 0x1F, 0x8B, 0xB6, 0x20, 0x05]);
///
/// // The same bytes mean the same addresses only under the same page.
/// assert_eq!(decode(&bytes, 0, Page::Known(0x20))?.kind, Kind::Memory(0x2005));
/// assert_eq!(decode(&bytes, 0, Page::Known(0))?.kind, Kind::Memory(0x0005));
/// assert_eq!(decode(&bytes, 0, Page::Unknown), Err(Refused(14)));
/// # Ok::<(), Refused>(())
/// ```
///
/// Where the library makes the passes ([`raw::settle`], [`raw::hex`]), SETDP is a statement of kind [`raw::SETDP`].
#[derive(Clone, Copy, PartialEq, Eq, Debug)]
pub enum Page {
    Unknown,
    Known(u8),
}

impl Page {
    /// The page as a number of a row.
    pub fn number(self) -> u16 {
        match self {
            Page::Unknown => raw::PAGE_UNKNOWN,
            Page::Known(high) => high.into(),
        }
    }
}

/// The old tool's `dp_dirty`, so that its calls stand: a clean page is page 0, a dirty one is unknown.
impl From<bool> for Page {
    fn from(dp_dirty: bool) -> Page {
        if dp_dirty {
            Page::Unknown
        } else {
            Page::Known(0)
        }
    }
}
