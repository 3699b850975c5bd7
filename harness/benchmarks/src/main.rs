//! This library against the Rust, capstone, srec_cat and objcopy, in one run and on the same data. `benchmarks` prints tables; `benchmarks alone` those
//! in which no other program runs; `benchmarks WORK N` does one piece of work N times, for a counter of instructions.
mod building;
mod capstone;
mod clock;
// Not all of the numbers are in the mix.
#[allow(dead_code)]
#[path = "../../oracle/src/numbers.rs"]
mod numbers;
mod records;
mod settling;
mod texts;

use clock::{prepared, race, rival};
use joltwagon::raw;
use std::cell::RefCell;
use std::hint::black_box;

/// What is decoded, read and written: the bytes of all records, over and over.
const LONGEST: usize = 65_504;

/// The records were built on page 0 and are read under it.
const PAGE: u16 = 0;

struct Data {
    lines: Vec<records::Line>,
    ours: records::Ours,
    image: Vec<u8>,
    tables: texts::Tables,
    text: Vec<u8>,
}

fn data(lines: Vec<records::Line>, size: usize) -> Data {
    let ours = records::ours(&lines);
    let once = building::image(&ours);
    // Whole instructions only, so that every decoder reads to the end.
    let mut image: Vec<u8> = Vec::new();
    'full: loop {
        let mut at = 0;
        while at < once.len() {
            let length = raw::decode(&once[at..], 0, PAGE).unwrap()[0] as usize;
            if image.len() + length > size {
                break 'full;
            }
            image.extend(&once[at..at + length]);
            at += length;
        }
    }
    let tables = texts::tables(&image);
    let mut text = vec![0; 4 * size + 64];
    let length = texts::write(&tables, &mut text);
    text.truncate(length);
    Data { lines, ours, image, tables, text }
}

fn run_length(bytes: &[u8]) -> usize {
    let (mut at, mut count) = (0, 0);
    let mut answer = [0; raw::READ];
    while at < bytes.len() {
        raw::next_into(bytes, 0, PAGE, at, &mut answer).unwrap();
        at += answer[0] as usize;
        count += 1;
    }
    count
}

fn table(title: &str, unit: &str, per: usize, times: &[(String, f64)]) {
    println!("\n{title}\n\n| | ns a {unit} | ratio |\n|---|---|---|");
    let first = times[0].1;
    for (name, seconds) in times {
        println!("| {name} | {:.1} | {:.2} |", seconds * 1e9 / per as f64, seconds / first);
    }
}

fn compare_builds(what: &str, d: &Data) {
    let n = records::HOW_MANY;
    let mut ours = records::ours(&d.lines);
    let mut kept = building::made(&d.ours);
    let mut rust_kept = Vec::new();
    building::rust_fresh(records::theirs(&d.lines), &mut rust_kept);
    // The Rust's operands are made, and its instructions dropped, outside the time.
    let operands = RefCell::new(Vec::new());
    let built = RefCell::new(Vec::new());
    let ahead = |times: u32| {
        built.borrow_mut().clear();
        built.borrow_mut().reserve(n * times as usize);
        *operands.borrow_mut() = (0..times).map(|_| records::theirs(&d.lines)).collect();
    };
    let times = race(vec![
        rival("this library: jw_node and jw_assemble", || { black_box(building::fresh(&mut ours)); }),
        rival("this library: jw_assemble, values given", || { black_box(building::given(&d.ours)); }),
        prepared("the Rust: try_new and build", ahead, || {
            let operands = operands.borrow_mut().pop().unwrap();
            black_box(building::rust_fresh(operands, &mut built.borrow_mut()));
        }),
    ]);
    table(&format!("Fresh builds{what}"), "instruction", n, &times);
    let times = race(vec![
        rival("this library: jw_node and jw_build", || { black_box(building::again(&d.ours, &mut kept)); }),
        rival("the Rust: build", || { black_box(building::rust_again(&mut rust_kept)); }),
    ]);
    table(&format!("Kept builds{what}"), "instruction", n, &times);
}

fn compare_decoding(what: &str, d: &Data) {
    let n = run_length(&d.image);
    assert_eq!(raw::count(&d.image, 0, PAGE), Ok(n));
    assert_eq!(capstone::count(&d.image, 0), n, "capstone reads another number of instructions");
    let times = race(vec![
        rival("this library: jw_next, every meaning", || { black_box(run_length(&d.image)); }),
        rival("this library: jw_count", || { black_box(raw::count(&d.image, 0, PAGE).unwrap()); }),
        rival("capstone: cs_disasm_iter, no details", || { black_box(capstone::count(&d.image, 0)); }),
    ]);
    table(&format!("Decoding{what}, {n} instructions"), "instruction", n, &times);
}

fn compare_texts(d: &Data) {
    let size = d.image.len();
    let (mut out, mut theirs) = (vec![0; d.text.len()], Vec::new());
    let times = race(vec![
        rival("this library: jw_write_text", || { black_box(texts::write(&d.tables, &mut out)); }),
        rival("the Rust: its records to memory", || { black_box(texts::rust_write(&d.image, &mut theirs)); }),
    ]);
    assert_eq!(theirs.to_ascii_uppercase(), d.text);
    table(&format!("Writing text, {size} bytes"), "byte", size, &times);
    let (mut bytes, mut runs) = (vec![0; size], vec![0; 2]);
    let text = std::str::from_utf8(&d.text).unwrap();
    let times = race(vec![
        rival("this library: jw_read_text", || { black_box(texts::read(&d.text, &mut bytes, &mut runs)); }),
        rival("the Rust: from_str_iter", || { black_box(texts::rust_read(text)); }),
    ]);
    assert_eq!(bytes, d.image);
    table(&format!("Reading text, {size} bytes"), "byte", size, &times);
}

/// A program's time on the whole text, less its time on one byte: what it costs beyond its start.
fn compare_programs(d: &Data) {
    let folder = texts::folder(&d.text, &d.image);
    let (mut out, mut bytes, mut runs) = (vec![0; d.text.len()], vec![0; d.image.len()], vec![0; 2]);
    let run = |words: &'static [&'static str]| { let folder = folder.clone(); move || texts::program(words, &folder) };
    let times = race(vec![
        rival("jw_read_text", || { black_box(texts::read(&d.text, &mut bytes, &mut runs)); }),
        rival("jw_write_text", || { black_box(texts::write(&d.tables, &mut out)); }),
        rival("objcopy -I ihex -O binary", run(&["objcopy", "-I", "ihex", "-O", "binary", "full.hex", "out"])),
        rival("", run(&["objcopy", "-I", "ihex", "-O", "binary", "none.hex", "out"])),
        rival("srec_cat, text to bytes", run(&["srec_cat", "full.hex", "-intel", "-o", "out", "-binary"])),
        rival("", run(&["srec_cat", "none.hex", "-intel", "-o", "out", "-binary"])),
        rival("srec_cat, bytes to text", run(&["srec_cat", "full.bin", "-binary", "-o", "out", "-intel"])),
        rival("", run(&["srec_cat", "none.bin", "-binary", "-o", "out", "-intel"])),
    ]);
    std::fs::remove_dir_all(&folder).unwrap();
    let (reads, writes) = (times[0].1, times[1].1);
    println!("\nPrograms on {} bytes\n\n| | ms | ms beyond its start | times this library, beyond its start |\n|---|---|---|---|", d.image.len());
    println!("| {} | {:.3} | {:.3} | |\n| {} | {:.3} | {:.3} | |", times[0].0, reads * 1e3, reads * 1e3, times[1].0, writes * 1e3, writes * 1e3);
    for pair in times[2..].chunks(2) {
        let beyond = (pair[0].1 - pair[1].1).max(0.0);
        let own = if pair[0].0.ends_with("to text") { writes } else { reads };
        println!("| {} | {:.3} | {:.3} | {:.1} |", pair[0].0, pair[0].1 * 1e3, beyond * 1e3, beyond / own);
    }
}

/// Four times the work in about four times the time.
fn growth() {
    println!("\nGrowth\n\n| bytes | decoding, ns a byte | writing | reading |\n|---|---|---|---|");
    for size in [LONGEST / 16, LONGEST / 4, LONGEST] {
        let d = data(records::mix(), size);
        let n = d.image.len();
        let (mut out, mut bytes, mut runs) = (vec![0; d.text.len()], vec![0; n], vec![0; 2]);
        let times = race(vec![
            rival("", || { black_box(raw::count(&d.image, 0, PAGE).unwrap()); }),
            rival("", || { black_box(texts::write(&d.tables, &mut out)); }),
            rival("", || { black_box(texts::read(&d.text, &mut bytes, &mut runs)); }),
        ]);
        let per: Vec<String> = times.iter().map(|(_, s)| format!("{:.2}", s * 1e9 / n as f64)).collect();
        println!("| {n} | {} |", per.join(" | "));
    }
}

/// Passes over programs of growing length.
fn passes() {
    println!("\nPasses\n\n| statements | passes | ns a statement and pass |\n|---|---|---|");
    for n in [64, 256, 1024] {
        let mut program = settling::program(n);
        let made = settling::settle(&mut program);
        let times = race(vec![rival("", || { black_box(settling::settle(&mut program)); })]);
        println!("| {n} | {made} | {:.0} |", times[0].1 * 1e9 / (n * made) as f64);
    }
}

/// One piece of work, so often; `push-WORK` does it with the longest push list. The Rust's fresh builds count the making of their operands, which `operands`
/// counts alone.
fn repeat(work: &str, times: usize) {
    let (lines, work) = match work.strip_prefix("push-") {
        Some(work) => (records::pushes(), work),
        None => (records::mix(), work),
    };
    let mut d = data(lines, LONGEST / 16);
    let (mut out, mut bytes, mut runs) = (vec![0; d.text.len()], vec![0; d.image.len()], vec![0; 2]);
    let mut kept = building::made(&d.ours);
    let mut program = settling::program(records::HOW_MANY);
    let mut theirs = Vec::new();
    let mut instructions = Vec::with_capacity(records::HOW_MANY * (times + 1));
    building::rust_fresh(records::theirs(&d.lines), &mut instructions);
    for _ in 0..times {
        black_box(match work {
            "fresh" => building::fresh(&mut d.ours),
            "given" => building::given(&d.ours),
            "again" => building::again(&d.ours, &mut kept),
            "operands" => std::mem::ManuallyDrop::new(records::theirs(&d.lines)).len(),
            "rust-fresh" => building::rust_fresh(records::theirs(&d.lines), &mut instructions),
            "rust-again" => building::rust_again(&mut instructions),
            "decode" => run_length(&d.image),
            "count" => raw::count(&d.image, 0, PAGE).unwrap(),
            "capstone" => capstone::count(&d.image, 0),
            "write" => texts::write(&d.tables, &mut out),
            "rust-write" => texts::rust_write(&d.image, &mut theirs),
            "read" => texts::read(&d.text, &mut bytes, &mut runs),
            "settle" => settling::settle(&mut program),
            _ => panic!("no such work: {work}"),
        });
    }
    // What is left need not be dropped.
    std::mem::forget(instructions);
    println!("{} {} {}", records::HOW_MANY, run_length(&d.image), d.image.len());
}

fn main() {
    let words: Vec<String> = std::env::args().skip(1).collect();
    if let [work, times] = &words[..] {
        return repeat(work, times.parse().expect("a number"));
    }
    let d = data(records::mix(), LONGEST);
    let pushes = data(records::pushes(), LONGEST);
    building::agree(&d.lines);
    building::agree(&pushes.lines);
    compare_builds("", &d);
    compare_decoding("", &d);
    compare_builds(", PSHS of eight registers", &pushes);
    compare_decoding(", PSHS of eight registers", &pushes);
    compare_texts(&d);
    if words != ["alone"] {
        compare_programs(&d);
    }
    growth();
    passes();
}
