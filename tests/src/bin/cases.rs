//! Writes the cases for the reading program, and the answers it has to give.
//!
//! Usage: cases CASEFILE EXPECTED. For each case the file has two 32-bit lengths, low byte first,
//! then the set's bytes and the plan's; the other file has one line for each case.

use second::cases::{cases, Case};
use std::collections::{BTreeMap, BTreeSet};
use std::{env, fs, process};

fn main() {
    let names: Vec<String> = env::args().skip(1).collect();
    let [case_file, expected_file] = &names[..] else {
        eprintln!("usage: cases CASEFILE EXPECTED");
        process::exit(2);
    };
    let cases = cases();
    let mut bytes = Vec::new();
    let mut lines = String::new();
    for case in &cases {
        bytes.extend((case.set.len() as u32).to_le_bytes());
        bytes.extend((case.plan.len() as u32).to_le_bytes());
        bytes.extend(&case.set);
        bytes.extend(&case.plan);
        lines += &(case.answer() + "\n");
    }
    for (name, content) in [(case_file, &bytes[..]), (expected_file, lines.as_bytes())] {
        if let Err(error) = fs::write(name, content) {
            eprintln!("{name}: {error}");
            process::exit(1);
        }
    }
    print_counts(&cases, bytes.len());
}

/// Prints how many cases there are by answer, and by how many routes each refusal is reached.
fn print_counts(cases: &[Case], size: usize) {
    let mut counts: BTreeMap<u8, (usize, BTreeSet<String>)> = BTreeMap::new();
    for case in cases {
        let answer = case.answer();
        let number = answer.strip_prefix("refused ").map_or(0, |number| number.parse().expect("a number"));
        let entry = counts.entry(number).or_default();
        entry.0 += 1;
        if case.routes.len() == 1 {
            entry.1.insert(case.routes[0].clone());
        }
    }
    println!("cases {}, bytes {size}", cases.len());
    println!("with two faults {}", cases.iter().filter(|case| case.routes.len() == 2).count());
    for (number, (count, routes)) in counts {
        if number == 0 {
            println!("accepted {count}");
        } else {
            println!("refused {number}: {count}, routes {}", routes.len());
        }
    }
}
