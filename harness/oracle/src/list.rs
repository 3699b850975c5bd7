//! Writes the fixed list that the program `replay` replays.
use crate::ask::hex;
use crate::differences::{place, NAMES};
use crate::inputs::*;
use crate::judged::{self, Theirs};
use crate::original::Original;
use crate::questions;
use crate::rows::Rows;
use crate::tables;
use std::fmt::Write;

const LEAST_BUILDS: usize = 26_000;

fn operand_line(o: &Operand) -> String {
    let flags = o.indirect as u8 | (o.forced as u8) << 1 | (o.widening as u8) << 2;
    let registers: String = o.registers.iter().map(|r| format!("{:X}", r.min(&15))).collect();
    format!(">{:02X}{:X}{flags:X}{:X}{registers}", o.operation, o.mode, o.step)
}

fn answer_of(a: &Answer) -> String {
    match a {
        Answer::Refused(0) => "-".to_string(),
        Answer::Refused(n) => format!("-{n:X}"),
        Answer::Built { form, dirties, bytes } => format!("{:X}{}", form * 2 + *dirties as u8, hex(bytes)),
    }
}

fn build_line(kept: bool, b: &Build, expected: &Answer) -> String {
    let (u, s) = b.values.unwrap_or((Value { number: 0, width: 8 }, Value { number: 0, width: 8 }));
    let flags = b.dirty as u8 | (b.values.is_some() as u8) << 1 | ((u.width == 16) as u8) << 2 | ((s.width == 16) as u8) << 3;
    let kind = if kept { 'k' } else { 'f' };
    format!("{kind}{:04X}{flags:X}{:04X}{:04X}{}", b.address, u.number, s.number, answer_of(expected))
}

fn builds(rows: &Rows, rust: &Original, counts: &mut [u64]) -> String {
    let mut out = String::new();
    let mut last = String::new();
    let (mut kept, mut alone) = (0, 0);
    for sequence in questions::fixed(rows, LEAST_BUILDS) {
        let line = operand_line(&sequence.operand);
        if line != last {
            writeln!(out, "{line}").unwrap();
            last = line;
        }
        for (i, j) in judged::sequence(rows, rust, &sequence).into_iter().enumerate() {
            kept += (i > 0) as u32;
            match j.theirs {
                Some(theirs) => rust_line(&theirs, counts, &mut out),
                None => alone += 1,
            }
            writeln!(out, "{}", build_line(i > 0, &j.build, &j.expected)).unwrap();
        }
    }
    eprintln!("builds of a kept instruction: {kept}; after a refusal, or with values that the Rust cannot have there: {alone}");
    out
}

/// What the Rust answers, where it differs by a number of the list.
fn rust_line(theirs: &Theirs, counts: &mut [u64], out: &mut String) {
    assert_eq!(theirs.fault, None);
    counts[theirs.met.as_ref().map_or(0, |m| place(m.name))] += 1;
    if let Some(m) = &theirs.met {
        writeln!(out, "r{} {}", m.name, answer_of(&theirs.answer)).unwrap();
    }
}

pub fn write(folder: &str) {
    let rows = Rows::read();
    let rust = Original::new(&rows);
    let mut counts = vec![0; NAMES.len()];
    let own = std::env::temp_dir().join(format!("oracle-{}", std::process::id()));
    std::fs::create_dir_all(&own).unwrap();
    let files = [
        ("builds", builds(&rows, &rust, &mut counts)),
        ("texts", tables::texts(&own, &mut counts)),
        ("labels", tables::labels()),
        ("segments", tables::segments(&mut counts)),
        ("evaluations", tables::evaluations(&rows)),
    ];
    std::fs::remove_dir_all(own).unwrap();
    for (name, text) in files {
        eprintln!("{name}: {} bytes, {} lines", text.len(), text.lines().count());
        std::fs::write(format!("{folder}/{name}"), text).unwrap();
    }
    for (name, n) in NAMES.iter().zip(&counts) {
        eprintln!("{name}: {n}");
    }
}
