//! Prints ratios of times, all measured in one run, and needs of scratch, as Markdown. `README.md` says what it can be told.
//!
//! Every call gets exactly the scratch that it needs and an output with room for any report. A call reads and checks its bytes each time,
//! and clears its scratch at the end, as it promises to do; nothing else is cleared between calls.

mod bucket;
mod measure;
mod plain;
mod questions;
mod section;
mod sqlite;
mod tables;

use measure::Clock;
use section::Section;
use std::time::Duration;
use std::{env, process};
use tables::{closed, growth, kinds, needs, nested, unnesting};

/// What the program is told, but for the names of tables.
pub struct Told {
    clock: Clock,
    sqlite: bool,
}

/// Measures and fills in a table.
type Make = fn(&Told) -> Section;

/// The tables by their names, in the order in which they are printed.
const TABLES: [(&str, Make); 6] = [
    ("nested", nested),
    ("unnesting", unnesting),
    ("needs", needs),
    ("kinds", kinds),
    ("closed", closed),
    ("growth", growth),
];

fn main() {
    let words: Vec<String> = env::args().skip(1).collect();
    let known = TABLES.map(|(name, _)| name).join(", ") + ", quick, times";
    if let Some(word) = words.iter().find(|word| !known.split(", ").any(|own| own == *word)) {
        eprintln!("{word}: not one of {known}");
        process::exit(2);
    }
    let has = |word: &str| words.iter().any(|own| own == word);
    let least = Duration::from_millis(if has("quick") { 50 } else { 200 });
    let told = Told { clock: Clock { least }, sqlite: !has("quick") };
    let all = !TABLES.iter().any(|(name, _)| has(name));
    for (_, make) in TABLES.iter().filter(|(name, _)| all || has(name)) {
        let section = make(&told);
        if has("times") {
            print!("{}", section.times());
        } else {
            println!("{}", section.markdown());
        }
    }
}
