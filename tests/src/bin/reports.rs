//! Writes the cases for the reporting program, and the answers it has to give.
//!
//! Usage: reports CASEFILE EXPECTED. The case file is as that of `cases`. A line of the other file is the refusal, or the counts
//! and the cells of the report, each as its code plus 2^63.

use second::calls::report;
use second::cases::{cases, Case};
use second::edges::edges;
use second::generate::accepted;
use second::random::Random;
use std::{env, fs, process};

/// The rooms that the program has.
const OUTPUT: usize = 4096;
const SCRATCH: usize = 16384;

/// How many random accepted inputs there are.
const RANDOM: usize = 580;

fn main() {
    let names: Vec<String> = env::args().skip(1).collect();
    let [case_file, expected_file] = &names[..] else {
        eprintln!("usage: reports CASEFILE EXPECTED");
        process::exit(2);
    };
    let mut bytes = Vec::new();
    let mut lines = String::new();
    let mut counts = [0usize; 17];
    for (set, plan) in inputs() {
        bytes.extend((set.len() as u32).to_le_bytes());
        bytes.extend((plan.len() as u32).to_le_bytes());
        bytes.extend(&set);
        bytes.extend(&plan);
        let (number, line) = answer(&set, &plan);
        counts[number as usize] += 1;
        lines += &(line + "\n");
    }
    for (name, content) in [(case_file, &bytes[..]), (expected_file, lines.as_bytes())] {
        if let Err(error) = fs::write(name, content) {
            eprintln!("{name}: {error}");
            process::exit(1);
        }
    }
    println!("cases {}, reports {}", counts.iter().sum::<usize>(), counts[0]);
    for (number, count) in counts.iter().enumerate().skip(1).filter(|(_, count)| **count > 0) {
        println!("refused {number}: {count}");
    }
}

/// The edges, random accepted inputs, and a few that are turned back.
fn inputs() -> Vec<(Vec<u8>, Vec<u8>)> {
    let mut random = Random::new(2);
    let mut all: Vec<(Vec<u8>, Vec<u8>)> =
        edges().iter().map(|(_, input)| (input.set_bytes(), input.plan_bytes())).collect();
    let with_random = all.len() + RANDOM;
    while all.len() < with_random {
        let input = accepted(&mut random);
        let (set, plan) = (input.set_bytes(), input.plan_bytes());
        if set.len() <= 4000 {
            all.push((set, plan));
        }
    }
    let refused = |case: &Case| case.answer().starts_with("refused");
    all.extend(cases().into_iter().filter(refused).step_by(9).map(|case| (case.set, case.plan)));
    all
}

/// The number, and the line that the program prints.
fn answer(set: &[u8], plan: &[u8]) -> (u8, String) {
    match report(set, plan, OUTPUT, SCRATCH) {
        Err(number) => (number, format!("refused {number}")),
        Ok(report) => {
            let words = report.codes.iter().map(|&code| i128::from(code) + (1 << 63));
            let cells: String = words.map(|word| format!(" {word}")).collect();
            (0, format!("rows {} columns {}{cells}", report.rows, report.columns))
        }
    }
}
