//! The page of direct addresses and SETDP, by the cases of document 02, request e, and by what follows from its rules.
use joltwagon::*;

const PAGE_20: Page = Page::Known(0x20);
const PAGE_0: Page = Page::Known(0);
const NONE: u16 = 0xFFFF;

fn number(name: &str) -> u16 {
    Operation::named(name).unwrap().0
}

/// The record of LDA with an address of so many bits.
fn lda(mode: Mode, forced: bool, address: u16, width: u16, page: u16) -> [u16; raw::RECORD] {
    let mut row = [0; raw::RECORD];
    row[..4].copy_from_slice(&[number("LDA"), mode as u16, 0, forced as u16]);
    row[15..].copy_from_slice(&[page, 1, address, width, address, width]);
    row
}

fn built(row: &[u16], address: u16) -> Result<Vec<u8>> {
    let answer = raw::assemble(row, address)?;
    Ok(answer[1..=answer[0] as usize].iter().map(|&byte| byte as u8).collect())
}

#[test]
fn an_address_is_direct_on_its_page() {
    use Page::Unknown;
    let (plain, direct, forced) = ((Mode::Extended, false), (Mode::Direct, true), (Mode::Extended, true));
    let (near, far) = (Ok(vec![0x96, 0x05]), Ok(vec![0xB6, 0x20, 0x05]));
    let (seven, six) = (Err(Refused(7)), Err(Refused(6)));
    let cases = [
        (plain, 0x2005, 16, PAGE_20, near.clone()),
        (plain, 0x2005, 16, PAGE_0, far.clone()),
        (plain, 0x2005, 16, Unknown, far.clone()),
        (plain, 0x0005, 8, PAGE_20, Ok(vec![0xB6, 0x00, 0x05])),
        (plain, 0x0005, 8, PAGE_0, near.clone()),
        (plain, 0x0005, 8, Unknown, Ok(vec![0xB6, 0x00, 0x05])),
        (plain, 0xFF05, 16, Page::Known(0xFF), near.clone()),
        (forced, 0x2005, 16, PAGE_20, far),
        (direct, 0x2005, 16, PAGE_20, near.clone()),
        (direct, 0x2005, 16, PAGE_0, seven.clone()),
        (direct, 0x2005, 16, Unknown, seven.clone()),
        (direct, 0x0005, 8, PAGE_20, seven.clone()),
        (direct, 0x0005, 8, PAGE_0, near),
        (direct, 0x0005, 8, Unknown, seven.clone()),
        (direct, 0x0005, 16, PAGE_20, seven.clone()),
        (direct, 0x0005, 16, PAGE_0, six),
        (direct, 0x0005, 16, Unknown, seven),
    ];
    for ((mode, forced), address, width, page, expected) in cases {
        let got = built(&lda(mode, forced, address, width, page.number()), 0);
        assert_eq!(got, expected, "{mode:?} forced {forced} {address:04X} of {width} bits under {page:?}");
    }
}

#[test]
fn a_kept_instruction_takes_the_page_anew() {
    let mut labels = ProgramLabels::new();
    let rack = Some(labels.node(Node::Constant(0x2005)));
    let od = OperandDescriptor { value: rack, ..OperandDescriptor::new(Mode::Extended) };
    let (near, far) = (&[0x96, 0x05][..], &[0xB6, 0x20, 0x05][..]);
    let mut lda = Instruction::try_new(Operation::named("LDA").unwrap(), &od, 0, &labels, PAGE_20, true).unwrap();
    for (page, bytes) in [(PAGE_20, near), (Page::Unknown, far), (PAGE_20, near), (PAGE_0, far), (Page::Known(0x21), far), (PAGE_20, near)] {
        assert_eq!(lda.build(0, &labels, page), Ok(bytes), "{page:?}");
        assert!(!lda.changes_dp());
    }
}

#[test]
fn clean_is_page_0_and_dirty_is_unknown() {
    assert_eq!(Page::from(false), PAGE_0);
    assert_eq!(Page::from(true), Page::Unknown);
    assert_eq!([PAGE_0.number(), Page::Known(255).number(), Page::Unknown.number()], [0, 255, 256]);
}

#[test]
fn a_direct_code_is_read_in_the_page() {
    let memory = |address| Ok(Decoded { length: 2, operation: Operation::named("LDA").unwrap(), kind: Kind::Memory(address) });
    let (whole, cut) = (&[0x96, 0x05][..], &[0x96][..]);
    assert_eq!(decode(whole, 0, PAGE_0), memory(0x0005));
    assert_eq!(decode(whole, 0, PAGE_20), memory(0x2005));
    assert_eq!(decode(whole, 0, Page::Known(0xFF)), memory(0xFF05));
    assert_eq!(decode(whole, 0, Page::Unknown), Err(Refused(14)));
    assert_eq!(decode(cut, 0, Page::Unknown), Err(Refused(14)));
    assert_eq!(decode(cut, 0, PAGE_0), Err(Refused(15)));
    assert_eq!(decode(&[0x10, 0x9E], 0, Page::Unknown), Err(Refused(14)));
    assert_eq!(decode(&[0xB6, 0x20, 0x05], 0, Page::Unknown).unwrap().kind, Kind::Memory(0x2005));
    // NOP, TFR A,DP, LDA: one page serves the whole run.
    let bytes = [0x12, 0x1F, 0x8B, 0x96, 0x05];
    let kinds = |page| run(&bytes, 0, page).map(|decoded| decoded.map(|d| d.kind)).collect::<Vec<_>>();
    let pair = Ok(Kind::Pair(Register::A, Register::DP));
    assert_eq!(kinds(PAGE_20), [Ok(Kind::Inherent), pair.clone(), Ok(Kind::Memory(0x2005))]);
    assert_eq!(kinds(Page::Unknown), [Ok(Kind::Inherent), pair, Err(Refused(14))]);
    assert_eq!(raw::count(&bytes, 0, 0x20), Ok(3));
    assert_eq!(raw::count(&bytes, 0, raw::PAGE_UNKNOWN), Err(Refused(14)));
}

#[test]
fn a_number_that_is_no_page_is_1() {
    let unknown = Refused(1);
    let good = lda(Mode::Extended, false, 5, 8, 0);
    let kept = raw::make(&good).unwrap();
    for page in [257, NONE] {
        let row = lda(Mode::Extended, false, 5, 8, page);
        assert_eq!(raw::make(&row), Err(unknown));
        assert_eq!(raw::assemble(&row, 0), Err(unknown));
        assert_eq!(raw::build(&kept, &row[15..], 0), Err(unknown));
        let mut out = [0x55; 8];
        assert_eq!(raw::lay(&[good, row].concat(), 0, &mut out), Err(unknown));
        assert_eq!(out, [0x55; 8]);
        // At FFFF the second byte lies beyond, which is 18 under any page.
        for address in [0, 0xFFFF] {
            assert_eq!(raw::decode(&[0x96, 0x05], address, page), Err(unknown));
            assert_eq!(raw::next(&[0x96, 0x05], address, page, 0), Err(unknown));
            assert_eq!(raw::count(&[0x96, 0x05], address, page), Err(unknown));
        }
    }
    assert_eq!(raw::decode(&[0x96, 0x05], 0xFFFF, raw::PAGE_UNKNOWN), Err(Refused(18)));
}

type Statement = [u16; raw::STATEMENT];

/// A statement by its kind, its label and its node, which of SETDP is the page.
fn statement(kind: u16, label: u16, node: u16, operand: &[u16]) -> Statement {
    let mut row = [0; raw::STATEMENT];
    row[..3].copy_from_slice(&[kind, label, node]);
    row[5..5 + operand.len()].copy_from_slice(operand);
    row
}

fn setdp(label: u16, page: u16) -> Statement {
    statement(raw::SETDP, label, page, &[])
}

fn instruction(name: &str, node: u16) -> Statement {
    statement(1, NONE, node, &[number(name), Mode::Extended as u16, 0, 0, 0, 1])
}

/// The passes, and the runs of the text. There is room for four objects: SETDP has none.
fn assembled(list: &[Statement], nodes: &[u16]) -> (u16, Result<Vec<Run>>) {
    let (mut objects, mut values, mut out) = ([0; 12], [0; 60], [0; 200]);
    let room = raw::Room { objects: &mut objects, values: &mut values, out: &mut out };
    let (passes, length) = raw::hex(&list.concat(), &[], nodes, &mut [], room);
    (passes, length.and_then(|length| read_hex(&out[..length])))
}

#[test]
fn setdp_sets_the_page_for_the_rest_of_a_pass() {
    // SETDP $20; LDA $2005; TFR A,DP; LDA $2005; SETDP 0; LDA 5
    let nodes = [0, 0x2005, 0, 0, 5, 0];
    let to_dp = [number("TFR"), Mode::Register as u16, 0, 0, 0, 0, 2, Register::A as u16, Register::DP as u16];
    let tfr = statement(1, NONE, NONE, &to_dp);
    let list = [setdp(NONE, 0x20), instruction("LDA", 0), tfr, instruction("LDA", 0), setdp(NONE, 0), instruction("LDA", 1)];
    let bytes = vec![0x96, 0x05, 0x1F, 0x8B, 0xB6, 0x20, 0x05, 0x96, 0x05];
    assert_eq!(assembled(&list, &nodes), (2, Ok(vec![Run { addr: 0, bytes }])));
    // LDA 5; TFR A,DP; LDA 5; SETDP $20: the second pass begins at page 0 again, and the page that TFR leaves is not 0 either.
    let list = [instruction("LDA", 1), tfr, instruction("LDA", 1), setdp(NONE, 0x20)];
    let bytes = vec![0x96, 0x05, 0x1F, 0x8B, 0xB6, 0x00, 0x05];
    assert_eq!(assembled(&list, &nodes), (2, Ok(vec![Run { addr: 0, bytes }])));
}

/// SETDP $20, which bears label 0, then a SETDP with this number and label, and a branch that reaches its target as long as LDA $2005 is Direct: with
/// another page in force it is made long, which takes a third pass.
fn second_setdp(label: u16, page: u16) -> (u16, Result<()>) {
    let nodes = [1, 1, 0, 0, 0x2005, 0, 0, 125, 0];
    let (gap, target) = (statement(2, NONE, 2, &[]), statement(0, 1, NONE, &[]));
    let list = [setdp(0, 0x20), setdp(label, page), instruction("BRA", 0), instruction("LDA", 1), gap, target];
    let mut labels = [0, 0x55, 0, 0, 0x55, 0];
    let answer = raw::settle(&list.concat(), &[], &nodes, &mut labels);
    if answer.1.is_err() {
        assert_eq!(labels, [0, 0x55, 0, 0, 0x55, 0]);
    }
    answer
}

#[test]
fn a_refused_setdp_sets_nothing() {
    let (unknown, bad_label) = (Err(Refused(1)), Err(Refused(10)));
    assert_eq!(second_setdp(NONE, 0x20), (2, Ok(())));
    assert_eq!(second_setdp(NONE, 5), (3, Ok(())));
    assert_eq!(second_setdp(NONE, 255), (3, Ok(())));
    assert_eq!(second_setdp(NONE, 256), (2, unknown));
    assert_eq!(second_setdp(NONE, NONE), (2, unknown));
    assert_eq!(second_setdp(0, 256), (2, unknown));
    assert_eq!(second_setdp(0, 5), (2, bad_label));
}
