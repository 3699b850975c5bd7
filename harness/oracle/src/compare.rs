//! The comparison at scale: the Rust, this library and the rules on the same questions, in one run.
use crate::ask::Coco;
use crate::differences::{place, NAMES};
use crate::exhaustive;
use crate::inputs::{Answer, Build, Operand, Sequence};
use crate::judged::{self, alike, Judged, CHECKED};
use crate::library::{self, Row};
use crate::original::{text_of, Original};
use crate::questions::{self, Chance};
use crate::rows::Rows;
use crate::tables;

const RANDOM: usize = 3_500_000;
const LISTS: usize = 20_000;
const ROUNDS: usize = 2_000;

/// How many answers were alike, refused by both, apart by a difference, asked of the library alone (by refusal), and left over.
struct Tally {
    sequences: u64,
    builds: u64,
    alike: u64,
    refused: u64,
    apart: Vec<u64>,
    met: Vec<u64>,
    alone: [u64; 9],
    left: u64,
}

/// The counts that are not 0, each with its name.
fn listed<N: std::fmt::Display>(names: impl IntoIterator<Item = N>, counts: &[u64]) -> String {
    let all: Vec<String> = names.into_iter().zip(counts).filter(|(_, &n)| n > 0).map(|(name, n)| format!("{name} {n}")).collect();
    all.join(", ")
}

impl Tally {
    fn new() -> Tally {
        let none = vec![0; NAMES.len()];
        Tally { sequences: 0, builds: 0, alike: 0, refused: 0, apart: none.clone(), met: none, alone: [0; 9], left: 0 }
    }

    fn leave(&mut self, what: String) {
        self.left += 1;
        if self.left <= 20 {
            println!("LEFT OVER: {what}");
        }
    }

    /// A build that is as it should be.
    fn count(&mut self, j: &Judged) {
        let Some(theirs) = &j.theirs else {
            let refusal = if let Answer::Refused(n) = j.expected { n } else { 0 };
            self.alone[refusal as usize] += 1;
            return;
        };
        match &theirs.met {
            Some(m) if alike(&theirs.answer, &j.expected) => self.met[place(m.name)] += 1,
            Some(m) => self.apart[place(m.name)] += 1,
            None if j.expected.is_refused() => self.refused += 1,
            None => self.alike += 1,
        }
    }

    fn print(&self, what: &str) {
        let kept = self.builds - self.sequences;
        println!("{what}: {} sequences, {} builds, {kept} of them of a kept instruction", self.sequences, self.builds);
        println!("  {} equal, {} refused by both", self.alike, self.refused);
        println!("  the Rust differs: {}", listed(NAMES, &self.apart));
        println!("  a difference is met, and the two answer alike: {}", listed(NAMES, &self.met));
        let alone: u64 = self.alone.iter().sum();
        println!("  {alone} builds after a refusal, or with values that the Rust cannot have there: as the rules say");
        println!("    {} accepted; refused: {}", self.alone[0], listed(1..9, &self.alone[1..]));
        println!("  left over: {}", self.left);
    }
}

/// 02 n: "in any sequence of builds, after each accepted one, mode and bytes are those of a fresh one with the same values and page. A widened branch
/// still stays long." A refusal is that of a fresh one too.
fn as_fresh(o: &Operand, b: &Build, row: Row, ours: &Answer) -> bool {
    let (fresh, answer) = library::fresh(o, b);
    library::state(row).widened || answer == *ours && (ours.is_refused() || fresh == Some(row))
}

/// What is wrong with a build: the library does not say what the rules say, or of a kept instruction not what it says of a fresh one, or nothing
/// explains the Rust.
fn fault(s: &Sequence, i: usize, j: &Judged, row: Option<Row>, ours: &Answer) -> Option<String> {
    let (o, builds) = (&s.operand, &s.builds[..=i]);
    if *ours != j.expected || row.map(library::state) != j.kept {
        return Some(format!("{o:?} {builds:?}: the library {ours:?} {row:?}, the rules {:?} {:?}", j.expected, j.kept));
    }
    if i > 0 && !as_fresh(o, &j.build, row?, ours) {
        return Some(format!("{o:?} {builds:?}: the library {ours:?} {row:?}, but of a fresh one {:?}", library::fresh(o, &j.build)));
    }
    j.theirs.as_ref()?.fault.clone()
}

fn sequence(rows: &Rows, rust: &Original, s: &Sequence, tally: &mut Tally) {
    tally.sequences += 1;
    let mut row = None;
    for (i, j) in judged::sequence(rows, rust, s).iter().enumerate() {
        let (next, ours) = match row {
            None => library::fresh(&s.operand, &j.build),
            Some(kept) => library::again(kept, &j.build),
        };
        row = next;
        tally.builds += 1;
        match fault(s, i, j, row, &ours) {
            Some(what) => tally.leave(what),
            None => tally.count(j),
        }
    }
}

fn texts() {
    let folder = std::env::temp_dir().join(format!("oracle-{}", std::process::id()));
    std::fs::create_dir_all(&folder).unwrap();
    let mut chance = Chance::new(10);
    let mut counts = vec![0; NAMES.len()];
    for _ in 0..LISTS {
        let most = chance.of(&[3, 12, 40, 90]);
        let objects = tables::any_objects(&mut chance, most);
        let theirs = text_of(&objects, &folder);
        let ours = library::text(&objects);
        match tables::text_by_rule(&objects) {
            Ok(text) => {
                assert_eq!(ours, Ok(text), "{objects:?}");
                assert_eq!(theirs.to_uppercase(), ours.unwrap(), "{objects:?}");
                counts[place("E7")] += 1;
            }
            Err(name) => {
                assert_eq!(ours, Err(18), "{objects:?}");
                counts[place(name)] += 1;
            }
        }
    }
    std::fs::remove_dir_all(folder).unwrap();
    let named = |name| counts[place(name)];
    println!(
        "object lists: {LISTS}: {} equal but for case (E7), 18 here: D7 {}, E8 {}; a buffer one byte short is 9 and untouched",
        named("E7"),
        named("D7"),
        named("E8")
    );
}

fn labels() {
    let mut chance = Chance::new(11);
    let mut moved = 0;
    for _ in 0..ROUNDS {
        let mut coco = Coco::new();
        let mut table = vec![];
        let count = 1 + chance.below(12);
        for i in 0..count {
            let address = chance.below(65536) as u16;
            coco.ask(&format!("def L{i} {address:04X}"));
            table.extend([1, address, 0]);
        }
        let (left, right, by) = (chance.below(65536) as u16, chance.below(65536) as u16, chance.below(65536) as u16);
        coco.ask(&format!("move {left:04X} {right:04X} {by:04X}"));
        library::move_labels(&mut table, left, right, by);
        for i in 0..count {
            assert_eq!(coco.ask(&format!("get L{i}")), format!("{:04X}", table[3 * i + 1]));
            moved += 1;
        }
    }
    println!("label moves: {ROUNDS}, {moved} addresses: alike");
}

fn segments() {
    let mut chance = Chance::new(12);
    let (mut added, mut asked, mut beyond) = (0, 0, 0);
    for _ in 0..ROUNDS {
        let mut coco = Coco::new();
        let mut table = [0; 70];
        let adds = chance.below(80);
        for _ in 0..adds {
            let start = if chance.one_in(5) { chance.below(20) as u16 } else { chance.below(65536) as u16 };
            let refused = coco.ask(&format!("add {start:04X}")) == "error";
            match library::add_segment(&mut table, start) {
                0 => assert!(!refused),
                12 => assert!(refused),
                // E19: the Rust takes a 65th segment.
                17 => {
                    assert!(!refused && table[0] == 63);
                    beyond += 1;
                    break;
                }
                other => panic!("{other}"),
            }
            added += 1;
            let address = if chance.one_in(3) { start.wrapping_sub(1) } else { chance.below(65536) as u16 };
            let (left, right) = library::segment_of(&table, address);
            assert_eq!(coco.ask(&format!("of {address:04X}")), format!("{left:04X} {right:04X}"));
            asked += 1;
        }
    }
    println!("segments: {added} adds and {asked} questions alike; E19 {beyond}");
}

pub fn run() {
    println!("the Rust with sums past 65535 {}", if CHECKED { "a panic" } else { "wrapping" });
    let rows = Rows::read();
    let rust = Original::new(&rows);
    let mut whole = Tally::new();
    exhaustive::all(&rows, &mut |s| sequence(&rows, &rust, s, &mut whole));
    whole.print("exhaustive");
    let operations = rows.operations();
    let mut chance = Chance::new(20240730);
    let mut random = Tally::new();
    for _ in 0..RANDOM {
        sequence(&rows, &rust, &questions::random(&rows, &operations, &mut chance), &mut random);
    }
    random.print("random");
    texts();
    labels();
    segments();
    if whole.left + random.left > 0 {
        std::process::exit(1);
    }
}
