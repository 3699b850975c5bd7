//! What the old tool does with `obj.rs` and `program.rs`, done with this crate. Expected bytes and texts are document 01's, or follow from its rules.
use joltwagon::*;
use std::collections::BTreeSet;

fn operand(mode: Mode, value: Option<NodeId>) -> OperandDescriptor {
    OperandDescriptor { value, ..OperandDescriptor::new(mode) }
}

fn named(name: &str) -> Operation {
    Operation::named(name).unwrap()
}

fn built(name: &str, od: &OperandDescriptor, addr: u16, labels: &ProgramLabels) -> Result<Vec<u8>> {
    let mut instruction = Instruction::try_new(named(name), od, addr, labels, false, true)?;
    instruction.build(addr, labels, false).map(<[u8]>::to_vec)
}

/// The record of an operation on an index register, with no offset.
fn offset_row(operation: u16, register: u16) -> [u16; raw::RECORD] {
    let mut row = [0; raw::RECORD];
    row[..8].copy_from_slice(&[operation, 1, 0, 0, 0, 0, 1, register]);
    row
}

#[test]
fn document_cases() {
    let mut labels = ProgramLabels::new();
    let mut offset = |register, number| {
        let value = Some(labels.node(Node::Constant(number)));
        OperandDescriptor { regs: vec![register], ..operand(Mode::Offset, value) }
    };
    let cases = [
        (offset(Register::X, 0), vec![0xA6, 0x84]),
        (offset(Register::Y, 15), vec![0xA6, 0x2F]),
        (offset(Register::Y, 16), vec![0xA6, 0xA8, 0x10]),
        (offset(Register::U, 0xFFF0), vec![0xA6, 0x50]),
        (offset(Register::U, 0xFFEF), vec![0xA6, 0xC8, 0xEF]),
        (offset(Register::S, 128), vec![0xA6, 0xE9, 0x00, 0x80]),
    ];
    for (od, bytes) in cases {
        assert_eq!(built("LDA", &od, 0, &labels), Ok(bytes));
    }
    let rows: Vec<u16> = [(54, 3), (54, 5)].iter().flat_map(|&(lda, register)| offset_row(lda, register)).collect();
    let mut out = [0; 4];
    assert_eq!(raw::lay(&rows, 0, &mut out), Ok(4));
    assert_eq!(out, [0xA6, 0x84, 0xA6, 0xC4]);
    assert_eq!(raw::lay(&rows, 0xFFFD, &mut out), Err(Refused(18)));
    assert_eq!(raw::lay(&rows, 0, &mut out[..3]), Err(Refused(9)));
    let step = OperandDescriptor { regs: vec![Register::X], incdec: Some(Step::Inc), indirect: true, ..operand(Mode::IncDec, None) };
    assert_eq!(built("LDA", &step, 0, &labels), Err(Refused(5)));
}

#[test]
fn a_branch_is_widened_and_stays_so() {
    let mut labels = ProgramLabels::new();
    let od = operand(Mode::Extended, Some(labels.node(Node::Label("there"))));
    labels.new_definition("there", 0x181, None).unwrap();
    let mut bra = Instruction::try_new(named("BRA"), &od, 0x100, &labels, false, true).unwrap();
    assert_eq!(bra.build(0x100, &labels, false), Ok(&[0x20, 0x7F][..]));
    assert_eq!(labels.set_address("there", 0x182), Ok(0x181));
    assert_eq!(bra.build(0x100, &labels, false), Ok(&[0x16, 0x00, 0x7F][..]));
    assert_eq!(labels.set_address("there", 0x181), Ok(0x182));
    assert_eq!(bra.build(0x100, &labels, false), Ok(&[0x16, 0x00, 0x7E][..]));
    assert_eq!(bra.current_size(), 3);
    let mut short = Instruction::try_new(named("BRA"), &od, 0x200, &labels, false, false).unwrap();
    assert_eq!(short.build(0x200, &labels, false), Err(Refused(8)));
}

#[test]
fn an_address_is_chosen_anew_at_each_build() {
    let mut labels = ProgramLabels::new();
    let there = Some(labels.node(Node::Label("there")));
    labels.new_definition("there", 0x1000, None).unwrap();
    let (near, far) = (&[0x96, 0x10][..], &[0xB6, 0x10, 0x00][..]);
    let mut lda = Instruction::try_new(named("LDA"), &operand(Mode::Extended, there), 0, &labels, false, true).unwrap();
    let mut direct = Instruction::try_new(named("LDA"), &operand(Mode::Direct, there), 0, &labels, false, true).unwrap();
    assert_eq!(lda.build(0, &labels, false), Ok(far));
    assert_eq!(direct.build(0, &labels, false), Err(Refused(7)));
    assert_eq!(labels.set_address("there", 0x10), Ok(0x1000));
    assert_eq!(lda.build(0, &labels, false), Ok(near));
    assert_eq!(direct.build(0, &labels, false), Ok(near));
    assert_eq!(labels.set_address("there", 0x1000), Ok(0x10));
    // The old tool refuses this third build (D10).
    assert_eq!(lda.build(0, &labels, false), Ok(far));
    assert_eq!(direct.build(0, &labels, false), Err(Refused(7)));
}

#[test]
fn a_dirty_page_stays_dirty() {
    let mut labels = ProgramLabels::new();
    let low = operand(Mode::Extended, Some(labels.node(Node::Constant(0x20))));
    let to_dp = OperandDescriptor { regs: vec![Register::A, Register::DP], ..operand(Mode::Register, None) };
    let mut dp_dirty = false;
    let mut bytes = Vec::new();
    for (name, od) in [("LDA", &low), ("TFR", &to_dp), ("LDA", &low), ("LDA", &low)] {
        let mut instruction = Instruction::try_new(named(name), od, 0, &labels, dp_dirty, true).unwrap();
        bytes.extend_from_slice(instruction.build(0, &labels, dp_dirty).unwrap());
        assert_eq!(instruction.changes_dp(), name == "TFR");
        dp_dirty |= instruction.changes_dp();
    }
    assert_eq!(bytes, [0x96, 0x20, 0x1F, 0x8B, 0xB6, 0x00, 0x20, 0xB6, 0x00, 0x20]);
}

#[test]
fn refusals_in_order() {
    let mut labels = ProgramLabels::new();
    let circle = labels.node(Node::Label("circle"));
    labels.new_definition("circle", 0, Some(circle)).unwrap();
    assert_eq!(labels.new_definition("circle", 1, None), Err(Refused(10)));
    assert_eq!(built("STA", &operand(Mode::Immediate, Some(circle)), 0, &labels), Err(Refused(2)));
    assert_eq!(built("LDA", &operand(Mode::Immediate, Some(circle)), 0, &labels), Err(Refused(11)));
    assert_eq!(built("LDA", &operand(Mode::Immediate, None), 0, &labels), Err(Refused(3)));
    let unknown = labels.node(Node::Label("nowhere"));
    assert_eq!(built("LDA", &operand(Mode::Immediate, Some(unknown)), 0, &labels), Err(Refused(10)));
    assert_eq!(labels.get_value("nowhere"), Err(Refused(10)));
    assert_eq!(Refused(5).to_string(), "refused 5: single step made indirect");
}

#[test]
fn labels_and_segments() {
    let mut labels = ProgramLabels::new();
    let minus_one = labels.node(Node::Constant(0xFFFF));
    labels.new_definition("minus", 0, Some(minus_one)).unwrap();
    assert_eq!(labels.get_value("minus"), Ok(Value { number: 0xFF, width: 8 }));
    labels.new_definition("start", 0x1000, None).unwrap();
    labels.new_definition("end", 0x2000, None).unwrap();
    labels.adjust_label_addresses((0x1000, 0x1FFF), -1);
    assert_eq!(labels.get_value("start"), Ok(Value { number: 0x0FFF, width: 16 }));
    assert_eq!(labels.get_value("end"), Ok(Value { number: 0x2000, width: 16 }));
    let here = labels.node(Node::Location);
    let start = labels.node(Node::Label("start"));
    let far = labels.node(Node::Difference(here, start));
    let wide = Value { number: 0xF001, width: 16 };
    assert_eq!(labels.eval(far, 0), Ok((wide, wide)));

    let mut segments = ProgramSegments::new();
    assert_eq!(segments.segment_containing_address(0x1234), (0, 0xFFFF));
    segments.add(0x4000).unwrap();
    segments.add(0x1000).unwrap();
    segments.add(0).unwrap();
    assert_eq!(segments.add(0x4000), Err(Refused(12)));
    assert_eq!(segments.segment_containing_address(0x1234), (0x1000, 0x3FFF));
}

#[test]
fn text_there_and_back() {
    let code = BinaryObject { addr: 0x100, data: Some(vec![0xA6, 0x84, 0x39]) };
    let space = BinaryObject { addr: 0x103, data: None };
    let more = BinaryObject { addr: 0x200, data: Some((0..40).collect()) };
    assert_eq!(write_hex(&[code.clone()]).unwrap(), ":03010000A6843999\n:00000001FF\n");
    let text = write_hex(&[code, space, more]).unwrap();
    let runs = read_hex(text.as_bytes()).unwrap();
    assert_eq!(runs, [Run { addr: 0x100, bytes: vec![0xA6, 0x84, 0x39] }, Run { addr: 0x200, bytes: (0..40).collect() }]);
    let meant: Vec<_> = run(&runs[0].bytes, runs[0].addr, Page::Known(0)).collect::<Result<_>>().unwrap();
    let offset = Kind::Offset { register: Register::X, indirect: false, offset: 0 };
    assert_eq!(meant[0], Decoded { length: 2, operation: named("LDA"), kind: offset });
    assert_eq!(meant[1], Decoded { length: 1, operation: named("RTS"), kind: Kind::Inherent });
    assert_eq!(raw::count(&runs[0].bytes, 0x100, 0), Ok(2));
    assert_eq!(decode(&[0x34, 0x86], 0, Page::Known(0)), Ok(Decoded { length: 2, operation: named("PSHS"), kind: Kind::Push(vec![Register::A, Register::B, Register::PC]) }));
    assert_eq!(write_hex(&[]).unwrap(), ":00000001FF\n");
    assert_eq!(read_hex(b":00000001FF").unwrap(), []);
    assert_eq!(read_hex(b"nothing"), Err(Refused(16)));
    let all = BinaryObject { addr: 0, data: Some(vec![0; 65536]) };
    assert_eq!(read_hex(write_hex(&[all]).unwrap().as_bytes()).unwrap()[0].bytes.len(), 65536);
    let beyond = BinaryObject { addr: 1, data: Some(vec![0; 65536]) };
    assert_eq!(write_hex(&[beyond]).err(), Some(Refused(18)));
}

/// An image as another assembler writes it: its PC postbytes carry register bits. They are read as if they had none, and built again without.
#[test]
fn old_cartridge() {
    let runs = read_hex(include_bytes!("../../../examples/old_cartridge.hex")).unwrap();
    assert_eq!(runs.iter().map(|run| run.addr).collect::<Vec<_>>(), [0xC000, 0xC200]);
    let mut open = BTreeSet::new();
    let mut at = 0;
    for decoded in run(&runs[0].bytes, runs[0].addr, Page::Known(0)) {
        let Decoded { length, operation, kind } = decoded.unwrap();
        let (addr, bytes) = (runs[0].addr + at as u16, &runs[0].bytes[at..at + length]);
        at += length;
        let Kind::Counter { indirect, target } = kind else { continue };
        let mut labels = ProgramLabels::new();
        let there = Some(labels.node(Node::Constant(target)));
        let od = OperandDescriptor { regs: vec![Register::PC], indirect, ..operand(Mode::PCRelative, there) };
        let mut again = Instruction::try_new(operation, &od, addr, &labels, false, true).unwrap();
        let again = again.build(addr, &labels, false).unwrap();
        assert_eq!(again.len(), length);
        for (&old, &new) in bytes.iter().zip(again).filter(|(old, new)| old != new) {
            assert_eq!(old & !0x60, new);
            open.insert(old);
        }
    }
    assert_eq!(open, BTreeSet::from([0xAC, 0xAD, 0xBC, 0xBD, 0xCC, 0xCD, 0xDC, 0xDD, 0xEC, 0xED, 0xFC, 0xFD]));
}

#[test]
fn passes() {
    // there NOP; BRA there
    let row = |kind, label, node, operand: &[u16]| {
        let mut row = [0; 20];
        row[..3].copy_from_slice(&[kind, label, node]);
        row[5..5 + operand.len()].copy_from_slice(operand);
        row
    };
    let nop = row(1, 0, 0xFFFF, &[named("NOP").0, 7]);
    let bra = row(1, 0xFFFF, 0, &[named("BRA").0, 4]);
    let nodes = [1, 0, 0];
    let mut labels = [0, 0x55, 0];
    assert_eq!(raw::settle(&[bra, nop].concat(), &[], &nodes, &mut labels), (2, Ok(())));
    assert_eq!(labels, [1, 2, 0]);
    let (mut objects, mut values, mut out) = ([0; 6], [0; 6], [0; 64]);
    let room = raw::Room { objects: &mut objects, values: &mut values, out: &mut out };
    assert_eq!(raw::hex(&[bra, nop].concat(), &[], &nodes, &mut labels, room), (2, Ok(30)));
    assert_eq!(&out[..30], b":03000000200012CB\n:00000001FF\n");
    let room = raw::Room { objects: &mut objects, values: &mut values, out: &mut out[..29] };
    assert_eq!(raw::hex(&[bra, nop].concat(), &[], &nodes, &mut labels, room), (2, Err(Refused(9))));
    assert_eq!(raw::settle(&bra, &[], &nodes, &mut labels), (2, Err(Refused(10))));
    assert_eq!(labels, [1, 2, 0]);
}
