//! The fixed list's object lists, label moves, segments and evaluations, with the rules of document 01 for each.
use crate::ask::{hex, Coco};
use crate::differences::place;
use crate::inputs::{form, register, Value};
use crate::original::{text_of, Object};
use crate::questions::Chance;
use crate::rows::Rows;
use std::fmt::Write;
use std::path::Path;

/// The records of a list: "a record is closed the moment it has 32 bytes. An object with data, even none of length, not at the next address starts a
/// new record." Addresses go on past 65535 here, so that a byte beyond can be told.
fn records_of(objects: &[Object]) -> Vec<(usize, Vec<u8>)> {
    let mut records: Vec<(usize, Vec<u8>)> = vec![];
    let mut next = None;
    for object in objects {
        let Some(values) = &object.values else { continue };
        let mut at = object.address as usize;
        let mut starts = next != Some(at);
        for v in values {
            let bytes = v.number.to_be_bytes();
            for &b in if v.width == 8 { &bytes[1..] } else { &bytes[..] } {
                if starts || records.last().is_none_or(|(_, r)| r.len() == 32) {
                    records.push((at, vec![]));
                    starts = false;
                }
                records.last_mut().unwrap().1.push(b);
                at += 1;
            }
        }
        if starts {
            records.push((at, vec![]));
        }
        next = Some(at);
    }
    records.retain(|(_, bytes)| !bytes.is_empty());
    records
}

/// Intel's line of a record.
fn line_of(kind: u8, address: usize, bytes: &[u8]) -> String {
    let mut all = vec![bytes.len() as u8, (address >> 8) as u8, address as u8, kind];
    all.extend_from_slice(bytes);
    let check = all.iter().fold(0u8, |sum, &b| sum.wrapping_add(b)).wrapping_neg();
    all.push(check);
    format!(":{}\n", hex(&all))
}

/// What document 01 says of a list: its text, or the difference by which the Rust writes on where a byte lies beyond 65535.
pub fn text_by_rule(objects: &[Object]) -> Result<String, &'static str> {
    let beyond = |o: &Object| o.address as usize + o.values.iter().flatten().map(|v| v.width as usize / 8).sum::<usize>() > 65536;
    let records = records_of(objects);
    if objects.iter().any(beyond) {
        let crosses = |(at, bytes): &(usize, Vec<u8>)| *at < 65536 && at + bytes.len() > 65536;
        return Err(if records.iter().any(crosses) { "D7" } else { "E8" });
    }
    let lines = records.iter().map(|(at, bytes)| line_of(0, *at, bytes)).collect::<String>();
    Ok(lines + &line_of(1, 0, &[]))
}

fn any_value(chance: &mut Chance) -> Value {
    let width = chance.of(&[8, 8, 16]);
    Value { number: chance.below(if width == 8 { 256 } else { 65536 }) as u16, width }
}

fn narrow(count: usize) -> Vec<Value> {
    (0..count).map(|i| Value { number: i as u16 % 256, width: 8 }).collect()
}

fn data(address: u16, values: Vec<Value>) -> Object {
    Object { address, values: Some(values) }
}

pub fn any_objects(chance: &mut Chance, most: usize) -> Vec<Object> {
    let mut next = chance.below(65536);
    let count = chance.below(5);
    let mut objects = vec![];
    for _ in 0..count {
        let address = match chance.below(8) {
            0 => chance.below(65536),
            1 => 65536 - 1 - chance.below(40),
            2 => chance.below(3),
            _ => next,
        } as u16;
        let values = if chance.one_in(6) {
            None
        } else {
            let n = chance.below(most);
            Some((0..n).map(|_| any_value(chance)).collect::<Vec<_>>())
        };
        next = (address as usize + values.iter().flatten().map(|v| v.width as usize / 8).sum::<usize>()) % 65536;
        objects.push(Object { address, values });
    }
    objects
}

/// Lists around each boundary of a record and of the last address, then lists by chance.
fn lists(count: usize) -> Vec<Vec<Object>> {
    let word = Value { number: 0x1234, width: 16 };
    let mut lists = vec![vec![], vec![Object { address: 5, values: None }], vec![data(0, vec![])]];
    for n in [1, 31, 32, 33, 63, 64, 65] {
        lists.push(vec![data(0x0100, narrow(n))]);
        lists.push(vec![data(0x0100, [narrow(n), vec![word, word]].concat())]);
        lists.push(vec![data(0x0100, narrow(n)), data(0x0100 + n as u16, narrow(2))]);
        lists.push(vec![data(0x0100, narrow(n)), data(0x0101 + n as u16, narrow(2))]);
        lists.push(vec![data(0x0100, narrow(n)), data(0x0200, vec![]), data(0x0100 + n as u16, narrow(2))]);
        lists.push(vec![data(0x0100, narrow(n)), data(0x0100 + n as u16, vec![]), data(0x0100 + n as u16, narrow(2))]);
        lists.push(vec![data(0x0100, narrow(n)), Object { address: 0x0200, values: None }, data(0x0100 + n as u16, narrow(2))]);
        for at in [65536 - n, 65535 - n, 65537 - n] {
            lists.push(vec![data(at as u16, narrow(n)), data(0, narrow(3))]);
            lists.push(vec![data(at as u16, [narrow(n - 1), vec![word]].concat())]);
        }
    }
    lists.push(vec![data(0xFFFF, vec![word])]);
    lists.push(vec![data(0xFFE0, narrow(33))]);
    let mut chance = Chance::new(1);
    while lists.len() < count {
        let most = chance.of(&[3, 6, 6, 12, 24]);
        lists.push(any_objects(&mut chance, most));
    }
    lists
}

pub fn texts(folder: &Path, counts: &mut [u64]) -> String {
    let mut out = String::new();
    for objects in lists(1100) {
        for object in &objects {
            writeln!(out, "{}{:04X}", if object.values.is_some() { 'o' } else { 'n' }, object.address).unwrap();
            for v in object.values.iter().flatten() {
                writeln!(out, "{:0width$X}", v.number, width = v.width as usize / 4).unwrap();
            }
        }
        let rust = text_of(&objects, folder);
        match text_by_rule(&objects) {
            Ok(text) => {
                assert_eq!(rust.to_uppercase(), text, "{objects:?}");
                writeln!(out, "=").unwrap();
                counts[place("E7")] += 1;
            }
            Err(name) => {
                writeln!(out, "r{name}\n=12").unwrap();
                counts[place(name)] += 1;
            }
        }
        writeln!(out, "{rust}.").unwrap();
    }
    out
}

/// "Moving labels: each address within the range, both ends counted, is moved once, modulo 65536."
pub fn moved(left: u16, right: u16, by: u16, address: u16) -> u16 {
    if left <= address && address <= right {
        address.wrapping_add(by)
    } else {
        address
    }
}

/// A move of four labels: LEFT RIGHT BY, then a state and an address for each, then their addresses after it.
pub fn labels() -> String {
    let mut chance = Chance::new(2);
    let mut out = String::new();
    for _ in 0..600 {
        let edge = |chance: &mut Chance| {
            if chance.one_in(3) {
                chance.of(&[0, 1, 0x00FF, 0x0100, 0x7FFF, 0x8000, 0xFFFE, 0xFFFF])
            } else {
                chance.below(65536) as u16
            }
        };
        let (left, right, by) = (edge(&mut chance), edge(&mut chance), edge(&mut chance));
        let mut coco = Coco::new();
        let mut before = String::new();
        let mut after = String::new();
        let mut addresses = vec![];
        for name in ["A", "B", "C", "E"] {
            let address = match chance.below(5) {
                0 => left,
                1 => right,
                2 => left.wrapping_sub(1),
                3 => right.wrapping_add(1),
                _ => edge(&mut chance),
            };
            // A label by expression whose node is the location shows its own address.
            let by_node = chance.one_in(3);
            coco.ask(&format!("def {name} {address:04X}{}", if by_node { " *" } else { "" }));
            write!(before, "{}{address:04X}", if by_node { 2 } else { 1 }).unwrap();
            addresses.push((name, address));
        }
        coco.ask(&format!("move {left:04X} {right:04X} {by:04X}"));
        for (name, address) in addresses {
            let answer = coco.ask(&format!("get {name}"));
            assert_eq!(answer, format!("{:04X}", moved(left, right, by, address)));
            after += &answer;
        }
        writeln!(out, "{left:04X}{right:04X}{by:04X}{before}{after}").unwrap();
    }
    out
}

/// Segments, a call a line: `n` begins anew, `aSTART` and a refusal adds, `qADDRESS` and both ends asks.
pub fn segments(counts: &mut [u64]) -> String {
    let mut chance = Chance::new(3);
    let mut out = String::new();
    for round in 0..40 {
        let mut coco = Coco::new();
        let mut starts = vec![0u16];
        writeln!(out, "n").unwrap();
        let adds = if round % 10 == 9 { 70 } else { chance.below(30) };
        for _ in 0..adds {
            let again = chance.of(&starts);
            let start = match chance.below(6) {
                0 if adds < 70 => again,
                1 if adds < 70 => chance.of(&[0, 1, 2, 0xFFFE, 0xFFFF]),
                _ => chance.below(65536) as u16,
            };
            let answer = coco.ask(&format!("add {start:04X}"));
            let repeated = starts.contains(&start);
            assert_eq!(answer == "error", repeated && start != 0);
            if repeated {
                writeln!(out, "a{start:04X}{}", if start == 0 { "00" } else { "0C" }).unwrap();
            } else if starts.len() == 64 {
                // E19: the Rust takes a 65th segment.
                writeln!(out, "rE19\na{start:04X}11").unwrap();
                counts[place("E19")] += 1;
                break;
            } else {
                writeln!(out, "a{start:04X}00").unwrap();
                starts.push(start);
            }
            let near = chance.of(&starts);
            for address in [near, near.wrapping_sub(1), chance.below(65536) as u16] {
                let left = *starts.iter().filter(|&&s| s <= address).max().unwrap();
                let right = starts.iter().filter(|&&s| s > address).min().map_or(65535, |s| s - 1);
                let answer = coco.ask(&format!("of {address:04X}"));
                assert_eq!(answer, format!("{left:04X} {right:04X}"));
                writeln!(out, "q{address:04X}{left:04X}{right:04X}").unwrap();
            }
        }
    }
    out
}

const BY_HAND: &str = include_str!("../../by-hand");

/// The parts of a column, `repeat N TEXT` written out.
fn parts(column: &str) -> Vec<String> {
    let mut all = vec![];
    for part in column.split(';').map(str::trim).filter(|p| !p.is_empty()) {
        match part.strip_prefix("repeat ").map(|p| p.split_once(' ').unwrap()) {
            Some((n, text)) => {
                all.extend((0..n.parse().unwrap()).map(|i: u32| text.replace("@+1", &(i + 1).to_string()).replace('@', &i.to_string())))
            }
            None => all.push(part.to_string()),
        }
    }
    all
}

/// A row of the tables: KIND or STATE, then two numbers.
fn row_line(part: &str) -> String {
    let words: Vec<&str> = part.split(' ').collect();
    let numbers: String = words[1..].iter().map(|w| format!("{:04X}", w.parse::<u16>().unwrap())).collect();
    format!("{}{numbers}", words[0])
}

/// A number and its width, as number in four digits and 0 for 8 bits or 1 for 16.
fn value_text(text: &str) -> String {
    let (number, width) = text.split_once('/').unwrap();
    format!("{:0>4}{}", number, if width == "8" { 0 } else { 1 })
}

fn question_line(rows: &Rows, part: &str) -> String {
    let (asked, answer) = part.split_once(": ").unwrap();
    let words: Vec<&str> = asked.split(' ').collect();
    let refusal = answer.parse::<u8>().ok().filter(|_| answer.len() < 3);
    if words[0] == "node" {
        let question = format!("?{:04X}{}", words[1].parse::<u16>().unwrap(), words[3]);
        return match refusal {
            Some(n) => format!("{question}-{n:X}"),
            None => question + &answer.split(' ').map(value_text).collect::<String>(),
        };
    }
    let named = |n: &str| register::NAMES.iter().position(|&r| r == n).unwrap();
    let registers = if words[3] == "-" { String::new() } else { format!("{:X}", named(words[3])) };
    let operand = format!(">{:02X}{}00{registers}", rows.number(words[1]), words[2]);
    // The form and a clean page, as in a line of a build.
    let form_ = if words[2] == "6" { form::IMMEDIATE } else { form::INDEXED };
    format!("{operand}\ne{}", refusal.map_or(format!("{}{answer}", form_ * 2), |n| format!("-{n:X}")))
}

/// The Rust's value is the unsigned one, its width told by its digits; an error is any refusal.
fn is_alike(theirs: &str, question: &str) -> bool {
    let answer = question.split_once(": ").unwrap().1;
    match answer.split_once('/') {
        Some((number, _)) => theirs == number,
        None => theirs == "error",
    }
}

/// The list by hand, after the Rust's answers have been seen again.
pub fn evaluations(rows: &Rows) -> String {
    let mut out = String::new();
    for line in BY_HAND.lines().filter(|l| !l.starts_with('#')) {
        let columns: Vec<&str> = line.split(" | ").collect();
        if !columns[1].starts_with('(') {
            let mut coco = Coco::new();
            let answer = parts(columns[1]).iter().map(|command| coco.ask(command)).last().unwrap();
            assert_eq!(answer, columns[2], "{line}");
        }
        writeln!(out, "z").unwrap();
        parts(columns[3]).iter().for_each(|part| writeln!(out, "{}", row_line(part)).unwrap());
        if columns[0] == "-" {
            assert!(is_alike(columns[2], columns[4]), "{line}");
            writeln!(out, "{}", question_line(rows, columns[4])).unwrap();
            continue;
        }
        for part in parts(columns[4]) {
            writeln!(out, "r{} {}\n{}", columns[0], columns[2], question_line(rows, &part)).unwrap();
        }
    }
    out
}
