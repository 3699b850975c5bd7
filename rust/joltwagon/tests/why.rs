//! Why an instruction is as long as it is, in words: the cases of document 02, request a, its boundaries, and rows of any numbers.
use joltwagon::*;

const PAGE_0: Page = Page::Known(0);
const PAGE_20: Page = Page::Known(0x20);

fn named(name: &str) -> Operation {
    Operation::named(name).unwrap()
}

fn operand(mode: Mode, regs: &[Register]) -> OperandDescriptor {
    OperandDescriptor { regs: regs.to_vec(), ..OperandDescriptor::new(mode) }
}

fn indirect(od: OperandDescriptor) -> OperandDescriptor {
    OperandDescriptor { indirect: true, ..od }
}

fn forced(od: OperandDescriptor) -> OperandDescriptor {
    OperandDescriptor { force_mode: true, ..od }
}

fn stepped(step: Step, register: Register) -> OperandDescriptor {
    OperandDescriptor { incdec: Some(step), ..operand(Mode::IncDec, &[register]) }
}

/// The operand with a constant, asked at 0100 with widening on.
fn asked(name: &str, mut od: OperandDescriptor, constant: impl Into<Option<u16>>, page: Page) -> std::result::Result<Why, WhyNot> {
    let mut labels = ProgramLabels::new();
    od.value = constant.into().map(|number| labels.node(Node::Constant(number)));
    let answer = why(named(name), &od, 0x100, &labels, page, true);
    // A kept instruction's first build says the same.
    let fresh = Instruction::try_new(named(name), &od, 0x100, &labels, page, true);
    let fresh = fresh.and_then(|mut fresh| {
        let bytes = fresh.build(0x100, &labels, page)?.to_vec();
        Ok((bytes, fresh.changes_dp()))
    });
    assert_eq!(answer.clone().map(|why| (why.bytes, why.changes_dp)).map_err(|not| not.refused), fresh);
    answer
}

/// The bytes and the words of an accepted one.
#[track_caller]
fn said(answer: std::result::Result<Why, WhyNot>, bytes: &[u8], words: &str) {
    let answer = answer.unwrap();
    assert_eq!((&answer.bytes[..], &answer.to_string()[..]), (bytes, words));
    assert_eq!(answer.reason.to_string(), words);
}

#[track_caller]
fn refused(answer: std::result::Result<Why, WhyNot>, number: u8, field: impl Into<Option<Field>>, words: &str) {
    let why_not = answer.unwrap_err();
    assert_eq!((why_not.refused, why_not.field), (Refused(number), field.into()));
    assert_eq!(why_not.to_string(), format!("refused {number}: {words}"));
}

#[test]
fn an_address() {
    let address = || operand(Mode::Extended, &[]);
    let lda = |od, number, page| asked("LDA", od, number, page);
    said(lda(address(), 0x34, Page::Unknown), &[0xB6, 0x00, 0x34], "extended: the page is unknown");
    said(lda(address(), 0x34, PAGE_0), &[0x96, 0x34], "direct: the page is the address's high byte");
    said(lda(address(), 0x2034, PAGE_20), &[0x96, 0x34], "direct: the page is the address's high byte");
    said(lda(address(), 0x2034, PAGE_0), &[0xB6, 0x20, 0x34], "extended: the page is not the address's high byte");
    said(lda(address(), 0x34, PAGE_20), &[0xB6, 0x00, 0x34], "extended: the page is not the address's high byte");
    said(lda(address(), 0x2034, Page::Unknown), &[0xB6, 0x20, 0x34], "extended: the page is unknown");
    said(lda(forced(address()), 0x34, PAGE_0), &[0xB6, 0x00, 0x34], "extended: forced");
    said(lda(forced(address()), 0x34, Page::Unknown), &[0xB6, 0x00, 0x34], "extended: forced, the page is unknown");
    said(lda(forced(address()), 0x2034, PAGE_0), &[0xB6, 0x20, 0x34], "extended: forced, the page is not the address's high byte");
    assert_eq!(lda(forced(address()), 0x34, PAGE_0).unwrap().reason, Reason::Address { forced: true, unknown: false, elsewhere: false });
}

#[test]
fn a_branch() {
    let branch = |name, target| asked(name, operand(Mode::Extended, &[]), target, PAGE_0);
    said(branch("BRA", 0x0184), &[0x16, 0x00, 0x81], "branch: 130 ahead, out of -128..127, made long");
    said(branch("BRA", 0x0181), &[0x20, 0x7F], "branch: 127 ahead, in -128..127, short");
    said(branch("BRA", 0x0182), &[0x16, 0x00, 0x7F], "branch: 128 ahead, out of -128..127, made long");
    said(branch("BRA", 0x0082), &[0x20, 0x80], "branch: 128 behind, in -128..127, short");
    said(branch("BRA", 0x0081), &[0x16, 0xFF, 0x7E], "branch: 129 behind, out of -128..127, made long");
    said(branch("BEQ", 0x0181), &[0x27, 0x7F], "branch: 127 ahead, in -128..127, short");
    said(branch("BEQ", 0x0182), &[0x10, 0x27, 0x00, 0x7E], "branch: 128 ahead, out of -128..127, made long");
    said(branch("BSR", 0x0102), &[0x8D, 0x00], "branch: 0 ahead, in -128..127, short");
    said(branch("BHS", 0x8102), &[0x10, 0x24, 0x7F, 0xFE], "branch: 32768 behind, out of -128..127, made long");
    said(branch("BLO", 0x8101), &[0x10, 0x25, 0x7F, 0xFD], "branch: 32767 ahead, out of -128..127, made long");
    said(branch("LBRA", 0x0108), &[0x16, 0x00, 0x05], "branch: 5 ahead, in -128..127, long as written");
    said(branch("LBSR", 0x0100), &[0x17, 0xFF, 0xFD], "branch: 3 behind, in -128..127, long as written");
    said(branch("LBEQ", 0x0184), &[0x10, 0x27, 0x00, 0x80], "branch: 128 ahead, out of -128..127, long as written");
    said(branch("LBLO", 0x0183), &[0x10, 0x25, 0x00, 0x7F], "branch: 127 ahead, in -128..127, long as written");
    assert_eq!(branch("BRA", 0x0184).unwrap().reason, Reason::Branch { distance: 130, near: false, long: false });
    assert_eq!(branch("LBRA", 0x00F0).unwrap().reason, Reason::Branch { distance: -19, near: true, long: true });
}

#[test]
fn a_target_from_pc() {
    let target = || operand(Mode::PCRelative, &[Register::PC]);
    said(asked("LDA", target(), 0x0182, PAGE_0), &[0xA6, 0x8C, 0x7F], "PC relative: 127 ahead, in -128..127, one byte");
    said(asked("LDA", target(), 0x0183, PAGE_0), &[0xA6, 0x8D, 0x00, 0x7F], "PC relative: 128 ahead, out of -128..127, two bytes");
    said(asked("LDA", target(), 0x0083, PAGE_0), &[0xA6, 0x8C, 0x80], "PC relative: 128 behind, in -128..127, one byte");
    said(asked("LDA", target(), 0x0082, PAGE_0), &[0xA6, 0x8D, 0xFF, 0x7E], "PC relative: 129 behind, out of -128..127, two bytes");
    said(asked("LDY", indirect(target()), 0x0183, PAGE_0), &[0x10, 0xAE, 0x9C, 0x7F], "PC relative, indirect: 127 ahead, in -128..127, one byte");
    said(asked("LDY", indirect(target()), 0x0184, PAGE_0), &[0x10, 0xAE, 0x9D, 0x00, 0x7F], "PC relative, indirect: 128 ahead, out of -128..127, two bytes");
    let reason = Reason::PCRelative { distance: -129, near: false, indirect: false };
    assert_eq!(asked("LDA", target(), 0x0082, PAGE_0).unwrap().reason, reason);
}

#[test]
fn an_offset() {
    let on = |register| operand(Mode::Offset, &[register]);
    let lda = |od, number: Option<u16>| asked("LDA", od, number, PAGE_0);
    use Register::*;
    said(lda(indirect(on(X)), Some(5)), &[0xA6, 0x98, 0x05], "offset 5, indirect: no five-bit form, one byte");
    said(lda(on(X), None), &[0xA6, 0x84], "offset 0: no offset byte");
    said(lda(on(X), Some(0)), &[0xA6, 0x84], "offset 0: no offset byte");
    said(lda(indirect(on(X)), None), &[0xA6, 0x94], "offset 0, indirect: no offset byte");
    said(lda(on(Y), Some(15)), &[0xA6, 0x2F], "offset 15: in -16..15, five bits in the postbyte");
    said(lda(on(U), Some(0xFFF0)), &[0xA6, 0x50], "offset -16: in -16..15, five bits in the postbyte");
    said(lda(on(Y), Some(16)), &[0xA6, 0xA8, 0x10], "offset 16: out of -16..15, one byte");
    said(lda(on(U), Some(0xFFEF)), &[0xA6, 0xC8, 0xEF], "offset -17: out of -16..15, one byte");
    said(lda(on(S), Some(128)), &[0xA6, 0xE9, 0x00, 0x80], "offset 128: out of -16..15, 16 bits wide, two bytes");
    said(lda(indirect(on(S)), Some(0xFF7F)), &[0xA6, 0xF9, 0xFF, 0x7F], "offset -129, indirect: no five-bit form, 16 bits wide, two bytes");
    said(lda(on(PC), None), &[0xA6, 0x8C, 0x00], "offset 0 on PC: 8 bits wide, one byte");
    said(lda(on(PC), Some(0xFFFF)), &[0xA6, 0x8C, 0xFF], "offset -1 on PC: 8 bits wide, one byte");
    said(lda(on(PC), Some(128)), &[0xA6, 0x8D, 0x00, 0x80], "offset 128 on PC: 16 bits wide, two bytes");
    said(lda(indirect(on(PC)), Some(127)), &[0xA6, 0x9C, 0x7F], "offset 127 on PC, indirect: 8 bits wide, one byte");
    let reason = Reason::Offset { offset: -17, bits: 8, register: U, indirect: false };
    assert_eq!(lda(on(U), Some(0xFFEF)).unwrap().reason, reason);
}

/// A label's address is 16 bits wide, whatever its number: it is never one byte, and five bits if it is low enough.
#[test]
fn an_offset_goes_by_its_width() {
    let mut labels = ProgramLabels::new();
    labels.new_definition("near", 100, None).unwrap();
    labels.new_definition("nearer", 10, None).unwrap();
    let mut asked = |name, regs: &[Register], indirect| {
        let od = OperandDescriptor { value: Some(labels.node(Node::Label(name))), indirect, ..operand(Mode::Offset, regs) };
        why(named("LDA"), &od, 0, &labels, PAGE_0, true)
    };
    said(asked("near", &[Register::X], false), &[0xA6, 0x89, 0x00, 0x64], "offset 100: out of -16..15, 16 bits wide, two bytes");
    said(asked("nearer", &[Register::X], false), &[0xA6, 0x0A], "offset 10: in -16..15, five bits in the postbyte");
    said(asked("nearer", &[Register::X], true), &[0xA6, 0x99, 0x00, 0x0A], "offset 10, indirect: no five-bit form, 16 bits wide, two bytes");
    said(asked("nearer", &[Register::PC], false), &[0xA6, 0x8D, 0x00, 0x0A], "offset 10 on PC: 16 bits wide, two bytes");
}

#[test]
fn nothing_to_choose() {
    use Register::*;
    said(asked("NOP", operand(Mode::Inherent, &[]), None, PAGE_0), &[0x12], "inherent: as written");
    said(asked("LDX", operand(Mode::Immediate, &[]), 5, PAGE_0), &[0x8E, 0x00, 0x05], "immediate: as written");
    said(asked("LDA", forced(operand(Mode::Direct, &[])), 0x34, PAGE_0), &[0x96, 0x34], "direct: as written");
    said(asked("LDA", operand(Mode::Register, &[A, X]), None, PAGE_0), &[0xA6, 0x86], "registers: as written");
    said(asked("LDA", stepped(Step::Inc, X), None, PAGE_0), &[0xA6, 0x80], "step: as written");
    said(asked("LDA", indirect(stepped(Step::DecDec, Y)), None, PAGE_0), &[0xA6, 0xB3], "step, indirect: as written");
    said(asked("LDA", indirect(operand(Mode::Extended, &[])), 0x34, PAGE_0), &[0xA6, 0x9F, 0x00, 0x34], "extended, indirect: as written");
    let pulls = asked("PULS", operand(Mode::Register, &[DP, PC]), None, PAGE_0);
    assert!(pulls.as_ref().unwrap().changes_dp);
    said(pulls, &[0x35, 0x88], "registers: as written");
}

#[test]
fn each_refusal_has_its_field() {
    use Register::*;
    let address = || operand(Mode::Extended, &[]);
    let direct = || forced(operand(Mode::Direct, &[]));
    let registers = "a register is not allowed here, their count is wrong, or the own stack pointer is pushed";
    let too_wide = "the value is too wide, or the form takes none";
    let elsewhere = "the page is not the address's high byte";
    let lda = |od, number: Option<u16>, page| asked("LDA", od, number, page);
    refused(asked("STA", operand(Mode::Immediate, &[]), 5, PAGE_0), 2, Field::Mode, "the operation has no such mode");
    refused(lda(address(), None, PAGE_0), 3, Field::Values, "the value is missing");
    refused(lda(operand(Mode::Offset, &[]), Some(5), PAGE_0), 4, Field::Registers, registers);
    refused(asked("PSHS", operand(Mode::Register, &[A, S]), None, PAGE_0), 4, Field::Registers, registers);
    refused(lda(indirect(stepped(Step::Inc, X)), None, PAGE_0), 5, Field::Indirect, "a single step cannot be indirect");
    refused(lda(operand(Mode::Immediate, &[]), Some(0xFFFF), PAGE_0), 6, Field::Values, too_wide);
    refused(asked("NOP", operand(Mode::Inherent, &[]), 5, PAGE_0), 6, Field::Values, too_wide);
    refused(lda(direct(), Some(0x34), Page::Unknown), 7, Field::Page, "the page is unknown");
    refused(lda(direct(), Some(0x34), PAGE_20), 7, Field::Values, elsewhere);
    refused(lda(direct(), Some(0x2034), PAGE_0), 7, Field::Values, elsewhere);
    let mut labels = ProgramLabels::new();
    let far = OperandDescriptor { value: Some(labels.node(Node::Constant(0x0182))), ..address() };
    let near = OperandDescriptor { value: Some(labels.node(Node::Constant(0x0181))), ..address() };
    refused(why(named("BRA"), &far, 0x100, &labels, PAGE_0, false), 8, Field::Widening, "the branch is too far, and widening is off");
    said(why(named("BRA"), &near, 0x100, &labels, PAGE_0, false), &[0x20, 0x7F], "branch: 127 ahead, in -128..127, short");
    // Of an operand as the crate has it 1 is its operation's, its step's or its registers'.
    refused(why(Operation(200), &near, 0, &labels, PAGE_0, true), 1, Field::Operation, "the operation is unknown");
    refused(asked("LDA", operand(Mode::IncDec, &[X]), None, PAGE_0), 1, Field::Step, "the step is unknown or missing");
    refused(asked("PSHS", operand(Mode::Register, &[A; 9]), None, PAGE_0), 1, Field::Registers, "a register is unknown, or there are over 8");
}

/// 1 and 2 of the operand come before what its expression is refused, and that before all else; it is about no field of a record.
#[test]
fn an_expression_is_refused_between() {
    let mut labels = ProgramLabels::new();
    let circle = labels.node(Node::Label("circle"));
    labels.new_definition("circle", 0, Some(circle)).unwrap();
    let mut asked = |name, mode, label| {
        let od = OperandDescriptor { value: Some(labels.node(Node::Label(label))), ..operand(mode, &[]) };
        why(named(name), &od, 0, &labels, Page::Unknown, true)
    };
    refused(asked("STA", Mode::Immediate, "circle"), 2, Field::Mode, "the operation has no such mode");
    refused(asked("LDA", Mode::Immediate, "circle"), 11, None, "expression deeper than 32, or node number unknown");
    refused(asked("LDA", Mode::Direct, "nowhere"), 10, None, "label undefined, defined twice, or above 511");
    refused(asked("LDA", Mode::IncDec, "nowhere"), 1, Field::Step, "the step is unknown or missing");
}

/// The record of LDA $34 in mode Extended.
const LDA: [u16; raw::RECORD] = [54, 4, 0, 0, 0, 0, 0, 0, 0, 0, 0, 0, 0, 0, 0, 0, 1, 0x34, 8, 0x34, 8];

type Changes<'a> = &'a [(usize, u16)];

/// The same with other numbers in some places.
fn with(changes: Changes) -> [u16; raw::RECORD] {
    let mut row = LDA;
    changes.iter().for_each(|&(place, number)| row[place] = number);
    row
}

#[test]
fn a_row_refused_1_has_its_first_wrong_field() {
    let values = "the values disagree or exceed their width, or a width or their flag is unknown";
    let wrong: [(Changes, Field, &str); 18] = [
        (&[(0, 1)], Field::Operation, "the operation is unknown"),
        (&[(0, 0x136)], Field::Operation, "the operation is unknown"),
        (&[(1, 8)], Field::Mode, "the mode is unknown"),
        (&[(2, 2)], Field::Indirect, "indirect is neither 0 nor 1"),
        (&[(3, 0xFFFF)], Field::Forced, "forced is neither 0 nor 1"),
        (&[(4, 5)], Field::Step, "the step is unknown or missing"),
        (&[(1, 3)], Field::Step, "the step is unknown or missing"),
        (&[(5, 256)], Field::Widening, "widening is neither 0 nor 1"),
        (&[(6, 9)], Field::Registers, "a register is unknown, or there are over 8"),
        (&[(6, 1), (7, 10)], Field::Registers, "a register is unknown, or there are over 8"),
        (&[(6, 8), (14, 0x100)], Field::Registers, "a register is unknown, or there are over 8"),
        (&[(15, 257)], Field::Page, "the page is neither 0 to 255 nor unknown"),
        (&[(16, 2)], Field::Values, values),
        (&[(18, 9)], Field::Values, values),
        (&[(20, 0)], Field::Values, values),
        (&[(17, 0x134)], Field::Values, values),
        (&[(19, 0x35)], Field::Values, values),
        (&[(17, 0x134), (18, 16), (20, 16)], Field::Values, values),
    ];
    for (changes, field, words) in wrong {
        refused(why_row(&with(changes), 0), 1, field, words);
        // Whatever is wrong behind it does not count.
        let mut row = with(changes);
        let ends = [0, 1, 2, 3, 4, 5, 6, 15, 16, 21];
        row[ends[field as usize]..].fill(0xFFFF);
        refused(why_row(&row, 0), 1, field, words);
    }
    // A register past the count is not looked at.
    said(why_row(&with(&[(6, 1), (8, 0xFFFF)]), 0), &[0x96, 0x34], "direct: the page is the address's high byte");
    refused(why_row(&LDA[..20], 0), 1, None, "the record has fewer than 21 numbers");
    refused(why_row(&[], 0), 1, None, "the record has fewer than 21 numbers");
    said(why_row(&[&LDA[..], &[0xFFFF]].concat(), 0), &[0x96, 0x34], "direct: the page is the address's high byte");
}

#[test]
fn a_refusal_leaves_the_answer() {
    let mut answer = [0x5555; 40];
    assert_eq!(raw::why_into(&with(&[(15, 257)]), 0, &mut answer), (8, Err(Refused(1))));
    assert_eq!(raw::why_into(&LDA[..20], 0, &mut answer), (0, Err(Refused(1))));
    assert_eq!(raw::why_into(&LDA, 0, &mut answer[..31]), (0, Err(Refused(9))));
    // Every other refusal comes before the 9.
    assert_eq!(raw::why_into(&with(&[(1, 7)]), 0, &mut answer[..31]), (2, Err(Refused(2))));
    assert_eq!(answer, [0x5555; 40]);
    assert_eq!(raw::why_into(&LDA, 0, &mut answer), (0, Ok(())));
    assert_eq!(answer[..7], [2, 0x96, 0x34, 0, 0, 0, 0]);
    assert_eq!(answer[25..32], [1, 0, 0, 0, 0, 0, 0]);
    assert_eq!(answer[32..], [0x5555; 8]);
    assert_eq!(raw::why(&LDA, 0).1.unwrap(), answer[..32]);
}

#[test]
fn fields_by_name() {
    use Field::*;
    let names = [Operation, Mode, Indirect, Forced, Step, Widening, Registers, Page, Values].map(|field| field.to_string());
    assert_eq!(names, ["operation", "mode", "indirect", "forced", "step", "widening", "registers", "page", "values"]);
}

/// What the words say of the bytes is so. Nothing here chooses a form: it is read off the bytes that jw_assemble gives.
#[track_caller]
fn fits(row: &[u16], address: u16) -> bool {
    let answer = why_row(row, address);
    let fresh = raw::assemble(row, address);
    let fresh = match (&answer, fresh) {
        (Ok(_), Ok(fresh)) => fresh,
        (Err(why_not), Err(refused)) => {
            assert_eq!(why_not.refused, refused, "{row:?}");
            assert!(why_not.field.is_some(), "{row:?}");
            assert!((1..=8).contains(&refused.0), "{row:?}");
            return false;
        }
        _ => panic!("{row:?} at {address:04X}: {answer:?}, but {fresh:?}"),
    };
    assert_eq!(raw::why(row, address).1.unwrap()[..raw::BUILT], fresh, "{row:?}");
    let Why { bytes, reason, changes_dp } = answer.unwrap();
    let given: Vec<u8> = fresh[1..=fresh[0] as usize].iter().map(|&byte| byte as u8).collect();
    assert_eq!((&bytes, changes_dp), (&given, fresh[6] == 1), "{row:?}");
    let code = if matches!(bytes[0], 0x10 | 0x11) { 2 } else { 1 };
    let (extended, direct) = (fresh[22] == 4, fresh[22] == 2);
    let end = |length: usize| address.wrapping_add(length as u16);
    let words = reason.to_string();
    let ends = |end| assert!(words.ends_with(end), "{words}: {row:?}");
    match reason {
        Reason::Address { forced, unknown, elsewhere } => {
            assert_eq!((extended, direct), (forced || unknown || elsewhere, !(forced || unknown || elsewhere)), "{row:?}");
            assert!(!(unknown && elsewhere), "{row:?}");
            assert!(words.starts_with(if extended { "extended: " } else { "direct: " }), "{words}: {row:?}");
        }
        Reason::Branch { distance, near, long } => {
            assert_eq!(near, (-128..=127).contains(&distance));
            let (written, made) = if long { (bytes.len(), false) } else { (2, bytes.len() > 2) };
            assert_eq!(row[17], end(written).wrapping_add(distance as u16), "{row:?}");
            assert_eq!((made, near || long), (fresh[24] == 1, !made), "{row:?}");
            ends(if long { "long as written" } else if made { "made long" } else { "short" });
        }
        Reason::PCRelative { distance, near, .. } => {
            assert_eq!(near, (-128..=127).contains(&distance));
            assert_eq!(row[17], end(code + 2).wrapping_add(distance as u16), "{row:?}");
            assert_eq!((bytes[code] & 0xF, bytes.len() - code), if near { (0xC, 2) } else { (0xD, 3) }, "{row:?}");
            ends(if near { ", one byte" } else { ", two bytes" });
        }
        Reason::Offset { offset, bits, .. } => {
            let emitted = match (bits, &bytes[code..]) {
                (0, [_]) => 0,
                (5, &[postbyte]) => (postbyte << 3) as i8 as i16 >> 3,
                (8, &[_, low]) => low as i8 as i16,
                (16, &[_, high, low]) => i16::from_be_bytes([high, low]),
                _ => panic!("{reason:?}: {bytes:02X?}"),
            };
            assert_eq!(offset, emitted, "{row:?}");
            assert_eq!(bytes[code] & 0x80 == 0, bits == 5, "{row:?}");
            ends(match bits {
                0 => ": no offset byte",
                5 => ", five bits in the postbyte",
                8 => "one byte",
                _ => "16 bits wide, two bytes",
            });
        }
        Reason::Plain { mode, indirect } => {
            assert_eq!((mode as u16, indirect as u16), (row[1], row[2]), "{row:?}");
            assert!(mode != Mode::Extended || indirect, "{row:?}");
            ends(": as written");
        }
    }
    true
}

/// Numbers that look random, the same each time.
struct Numbers(u64);

impl Numbers {
    fn below(&mut self, bound: u64) -> u64 {
        self.0 = self.0.wrapping_mul(6364136223846793005).wrapping_add(1442695040888963407);
        (self.0 >> 33) % bound
    }

    /// Mostly small, sometimes any.
    fn cell(&mut self, bound: u64) -> u16 {
        if self.below(40) == 0 {
            self.below(65536) as u16
        } else {
            self.below(bound) as u16
        }
    }
}

/// Rows of any numbers, most of them near to what a record has: every kind of reason and every refusal comes up.
#[test]
fn rows_of_any_numbers() {
    let mut numbers = Numbers(2);
    let mut kinds = [0; 5];
    let mut refusals = [0; 9];
    for _ in 0..100_000 {
        let mut row = [0; raw::RECORD];
        let bounds = [153, 8, 2, 2, 5, 2, 3, 10, 10, 10, 10, 10, 10, 10, 10, 257, 2];
        for (cell, bound) in row.iter_mut().zip(bounds) {
            *cell = numbers.cell(bound);
        }
        row[6] = row[6].min(10);
        match numbers.below(8) {
            0..=3 => row[1] = 4,
            4 => (row[1], row[6], row[7]) = (1, 1, 3 + numbers.below(5) as u16),
            5 => (row[1], row[6], row[7]) = (2, 1, 7),
            _ => {}
        }
        let address = numbers.below(65536) as u16;
        // A constant near the address, a small one, one on the page, or any.
        let constant = match numbers.below(4) {
            0 => address.wrapping_add(numbers.below(300) as u16).wrapping_sub(150),
            1 => (numbers.below(300) as u16).wrapping_sub(150),
            2 => row[15] << 8 | numbers.below(256) as u16,
            _ => numbers.below(65536) as u16,
        };
        let signed = constant as i16;
        let unsigned_width = if constant < 256 { 8 } else { 16 };
        let low = (-128..=127).contains(&signed) && numbers.below(3) > 0;
        let (number, width) = if low { (constant & 0xFF, 8) } else { (constant, 16) };
        row[17..].copy_from_slice(&[constant, unsigned_width, number, width]);
        if fits(&row, address) {
            kinds[raw::why(&row, address).1.unwrap()[25] as usize] += 1;
        } else {
            refusals[raw::assemble(&row, address).unwrap_err().0 as usize] += 1;
        }
    }
    assert!(kinds.iter().all(|&n| n > 1_000), "{kinds:?}");
    assert!(refusals[1..].iter().all(|&n| n > 100), "{refusals:?}");
    // And wholly any.
    for _ in 0..50_000 {
        let row: Vec<u16> = (0..raw::RECORD).map(|_| numbers.below(65536) as u16).collect();
        fits(&row, numbers.below(65536) as u16);
    }
}

/// Every operation in every mode, plain and indirect, forced and not, on a few values and pages.
#[test]
fn every_operation_in_every_mode() {
    let mut accepted = 0;
    for operation in 0..=153 {
        for mode in 0..=8 {
            for (value, width) in [(0, 8), (5, 8), (0x7F, 16), (0x80, 16), (0x2005, 16), (0xFFF0, 16)] {
                for (page, flags, registers) in [(0, 0, [3, 0]), (0x20, 1, [7, 3]), (256, 2, [0, 3]), (0, 3, [2, 3]), (0, 4, [3, 4])] {
                    let mut row = with(&[(0, operation), (1, mode), (2, flags & 1), (3, flags >> 1 & 1), (4, 2), (5, flags >> 2), (6, 1 + flags / 2 % 2), (15, page)]);
                    row[7..9].copy_from_slice(&registers);
                    row[17..].copy_from_slice(&[value, width, value, width]);
                    accepted += fits(&row, 0x2000) as u32;
                }
            }
        }
    }
    assert!(accepted > 5_000, "{accepted}");
}

/// Every target of a branch and of a PCRelative operand, and every address of three pages.
#[test]
fn every_number_of_sixteen_bits() {
    for number in 0..=0xFFFF {
        let number16 = [(17, number), (18, 16), (19, number), (20, 16)];
        for page in [0, 0x20, 256] {
            assert!(fits(&with(&[&number16[..], &[(15, page)]].concat()), 0));
        }
        for operation in [80, 87, 113, 96, 103] {
            assert!(fits(&with(&[&number16[..], &[(0, operation), (5, 1)]].concat()), 0xFFC0));
        }
        assert!(fits(&with(&[&number16[..], &[(0, 116), (1, 2), (6, 1), (7, 7)]].concat()), 0x8000));
        assert!(fits(&with(&[&number16[..], &[(1, 1), (6, 1), (7, 5)]].concat()), 0));
    }
}
