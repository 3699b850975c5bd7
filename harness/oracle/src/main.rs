//! Asks the Rust, unchanged, and holds its answers to document 01's rules.
// The comparison at scale alone uses the rest.
#![cfg_attr(not(library), allow(dead_code))]
mod ask;
#[cfg(library)]
mod compare;
mod differences;
#[cfg(library)]
mod exhaustive;
mod inputs;
mod judged;
#[cfg(library)]
mod library;
mod list;
mod numbers;
mod original;
mod questions;
mod rows;
mod rules;
mod tables;

fn main() {
    original::quiet();
    let words: Vec<String> = std::env::args().collect();
    let words: Vec<&str> = words.iter().map(String::as_str).collect();
    match words[1..] {
        ["list", folder] => list::write(folder),
        #[cfg(library)]
        ["compare"] => compare::run(),
        ["ask"] => answer_lines(),
        _ => println!("oracle list FOLDER | oracle ask <COMMANDS | oracle compare"),
    }
}

fn answer_lines() {
    let mut coco = ask::Coco::new();
    for line in std::io::stdin().lines() {
        println!("{}", coco.ask(&line.unwrap()));
    }
}
