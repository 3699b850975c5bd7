//! One sequence asked of the Rust and of the rules, and the Rust's answers held to the rules and to the listed differences.
use crate::differences::{self, Met, Other};
use crate::inputs::*;
use crate::original::Original;
use crate::rows::Rows;
use crate::rules::{self, Kept};

/// Sums past 65535 panic where the Rust is built as by a plain `cargo build`, and wrap where it is built for release.
pub const CHECKED: bool = cfg!(debug_assertions);

/// What the Rust answers to a build.
pub struct Theirs {
    pub answer: Answer,
    pub met: Option<Met>,
    /// What no difference explains.
    pub fault: Option<String>,
}

pub struct Judged {
    pub build: Build,
    pub expected: Answer,
    /// What the rules keep after it.
    pub kept: Option<Kept>,
    /// Nothing where the Rust is not asked.
    pub theirs: Option<Theirs>,
}

pub fn alike(theirs: &Answer, expected: &Answer) -> bool {
    theirs == expected || (theirs.is_refused() && expected.is_refused())
}

/// The Rust answers what the difference says.
fn as_said(theirs: &Answer, said: &Other) -> bool {
    match (theirs, said) {
        (Answer::Refused(_), Other::Refuses) => true,
        (Answer::Built { .. }, Other::Accepts) => true,
        (Answer::Built { bytes, .. }, Other::Bytes(all)) => bytes == all,
        _ => false,
    }
}

/// How many builds the Rust can be asked: its node has a value in each of them or in none, and never a pair that 1 forbids.
fn askable(builds: &[Build]) -> usize {
    let given = builds[0].values.is_some();
    builds.iter().take_while(|b| b.values.is_some() == given && rules::agree(b)).count()
}

/// What the rules keep before a build, what after it, and their answer. Nothing is kept of a refused first build.
fn ruled(rows: &Rows, o: &Operand, kept: Option<Kept>, b: &Build) -> (Option<Kept>, Option<Kept>, Answer) {
    match kept.map_or_else(|| rules::make(rows, o, b), Ok) {
        Err(refusal) => (None, None, Answer::Refused(refusal)),
        Ok(before) => {
            let (after, answer) = rules::build(rows, o, before, b);
            let after = if kept.is_none() && answer.is_refused() { None } else { Some(after) };
            (Some(before), after, answer)
        }
    }
}

/// The Rust's answer to the last of the builds, held to what the rules answer and to the difference that is met.
fn held(o: &Operand, builds: &[Build], answer: Answer, expected: &Answer, met: Option<Met>) -> Theirs {
    let explained = match &met {
        None => alike(&answer, expected),
        Some(m) => as_said(&answer, &m.rust),
    };
    let fault = if explained { None } else { Some(format!("{o:?} {builds:?}: the Rust {answer:?}, the rules {expected:?}, {met:?}")) };
    Theirs { answer, met, fault }
}

/// The builds of a sequence. A refused first one ends it. After any other refusal the rules go on with what is kept, and the Rust, which has no rule
/// for that, is asked no further.
pub fn sequence(rows: &Rows, rust: &Original, s: &Sequence) -> Vec<Judged> {
    let o = &s.operand;
    let mut asked = askable(&s.builds);
    let mut answers = rust.sequence(o, &s.builds[..asked]).into_iter();
    let mut kept = None;
    let mut all = vec![];
    for (i, &build) in s.builds.iter().enumerate() {
        let (before, after, expected) = ruled(rows, o, kept, &build);
        let builds = &s.builds[..=i];
        let theirs = (i < asked).then(|| {
            let answer = answers.next().expect("an answer to each build up to a refusal");
            held(o, builds, answer, &expected, differences::of(rows, o, before, builds, &expected, CHECKED))
        });
        if expected.is_refused() || theirs.as_ref().is_some_and(|t| t.answer.is_refused()) {
            asked = 0;
        }
        all.push(Judged { build, expected, kept: after, theirs });
        kept = after;
        if kept.is_none() {
            break;
        }
    }
    all
}
