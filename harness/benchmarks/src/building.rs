//! Building instructions: this library against the Rust's `try_new` and `build`.
use crate::records::{self, Line, Ours, ADDRESS};
use coco::instructions::Descriptor;
use coco::obj::{Instruction, ObjectProducer};
use coco::parse::{LabelResolver, OperandDescriptor};
use coco::u8u16;
use joltwagon::raw;

struct NoLabels;

impl LabelResolver for NoLabels {
    fn resolve(&self, _: &str) -> Option<u8u16> {
        None
    }
}

/// Evaluates a record's node into the cells of its two values, as the Rust's build does.
fn evaluate(nodes: &[u16], node: Option<u16>, values: &mut [u16]) {
    if let Some(node) = node {
        raw::node_into(nodes, &[], node, ADDRESS, values).unwrap();
    }
}

fn assemble(row: &[u16], answer: &mut [u16]) -> usize {
    raw::assemble_into(row, ADDRESS, answer).unwrap();
    answer[0] as usize
}

/// Every record, evaluated and built fresh; how many bytes that gives.
pub fn fresh(o: &mut Ours) -> usize {
    let mut answer = [0; raw::BUILT];
    let mut length = 0;
    for (row, node) in o.rows.iter_mut().zip(&o.node) {
        evaluate(&o.nodes, *node, &mut row[17..]);
        length += assemble(row, &mut answer);
    }
    length
}

/// Every record, whose values are given, built fresh.
pub fn given(o: &Ours) -> usize {
    let mut answer = [0; raw::BUILT];
    o.rows.iter().map(|row| assemble(row, &mut answer)).sum()
}

/// A kept instruction: two answers of a build, the last of which has its row, and what the next build takes anew.
pub struct Kept {
    answers: [[u16; raw::BUILT]; 2],
    present: [u16; raw::PRESENT],
    last: usize,
}

pub fn made(o: &Ours) -> Vec<Kept> {
    let keep = |row: &[u16; 21]| {
        let mut answers = [[0; raw::BUILT]; 2];
        answers[0][7..].copy_from_slice(&raw::make(row).unwrap());
        Kept { answers, present: row[15..].try_into().unwrap(), last: 0 }
    };
    o.rows.iter().map(keep).collect()
}

/// Every kept instruction, evaluated and built again.
pub fn again(o: &Ours, kept: &mut [Kept]) -> usize {
    let mut length = 0;
    for (k, node) in kept.iter_mut().zip(&o.node) {
        evaluate(&o.nodes, *node, &mut k.present[2..]);
        let (first, second) = k.answers.split_at_mut(1);
        let (old, new) = if k.last == 0 { (&first[0], &mut second[0]) } else { (&second[0], &mut first[0]) };
        raw::build_into(&old[7..], &k.present, ADDRESS, new).unwrap();
        length += new[0] as usize;
        k.last = 1 - k.last;
    }
    length
}

type Theirs = Vec<(&'static Descriptor, OperandDescriptor)>;

/// The Rust takes its operands by value; its instructions are added to those kept, so that none is dropped here.
pub fn rust_fresh(operands: Theirs, kept: &mut Vec<Instruction>) -> usize {
    let mut length = 0;
    for (id, od) in operands {
        let mut i = Instruction::try_new(id, od, ADDRESS, &NoLabels, false).unwrap();
        length += i.build(ADDRESS, &NoLabels, false).unwrap().size as usize;
        kept.push(i);
    }
    length
}

pub fn rust_again(kept: &mut [Instruction]) -> usize {
    kept.iter_mut().map(|i| i.build(ADDRESS, &NoLabels, false).unwrap().size as usize).sum()
}

/// The bytes of every record, one after the other.
pub fn image(o: &Ours) -> Vec<u8> {
    let bytes = |row: &[u16; 21]| {
        let answer = raw::assemble(row, ADDRESS).unwrap();
        answer[1..=answer[0] as usize].iter().map(|&b| b as u8).collect::<Vec<u8>>()
    };
    o.rows.iter().flat_map(bytes).collect()
}

/// Both sides build as many bytes.
pub fn agree(lines: &[Line]) {
    let mut o = records::ours(lines);
    let mut kept = Vec::new();
    let theirs = rust_fresh(records::theirs(lines), &mut kept);
    assert_eq!(fresh(&mut o), theirs);
    assert_eq!(given(&o), theirs);
    assert_eq!(again(&o, &mut made(&o)), theirs);
    assert_eq!(rust_again(&mut kept), theirs);
}
