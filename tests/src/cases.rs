//! The cases that the reading program is held against: what is in them, and the answers.

use crate::build::*;
use crate::calls::read;
use crate::check::need;
use crate::damage::{damaged, faults, set_pairs, Fault};
use crate::edges::edges;
use crate::generate::{accepted, Input};
use crate::nodes::write_plan;
use crate::plan::Plan;
use crate::random::Random;
use crate::tables::{write_set, Table};
use crate::version::{Version, VERSION_1, VERSION_2};
use crate::wide::narrowed;

/// One set and plan.
pub struct Case {
    /// The routes by which it is refused, if it is.
    pub routes: Vec<String>,
    /// The number that the routes lead to by the order of refusals, where that is known.
    pub expected: Option<u8>,
    pub set: Vec<u8>,
    pub plan: Vec<u8>,
}

impl Case {
    /// The answer of the reading program, one line.
    pub fn answer(&self) -> String {
        match read(&self.set, &self.plan) {
            Ok((tables, tree)) => {
                format!("tables {} nodes {} need {}", tables.len(), tree.size(), need(&tree, &tables))
            }
            Err(number) => format!("refused {number}"),
        }
    }
}

/// All cases, always the same: edges, random accepted inputs, each fault alone, faults two by two.
pub fn cases() -> Vec<Case> {
    let mut random = Random::new(1);
    let mut all = Vec::new();
    for (_, input) in edges() {
        all.push(accepted_case(&input));
    }
    for _ in 0..140 {
        all.push(accepted_case(&small(&mut random)));
    }
    let faults = faults();
    for fault in &faults {
        for _ in 0..2 {
            all.push(fault_case(&mut random, fault));
        }
    }
    for one in 1..=14 {
        for other in one + 1..=14 {
            all.push(pair_case(&mut random, &faults, one, other));
        }
    }
    for (name, number, set) in set_pairs() {
        let plan = if random.chance(50) { write_plan(&Plan::Unit) } else { vec![] };
        all.push(Case { routes: vec![name.to_string(), "of two".to_string()], expected: Some(number), set, plan });
    }
    all
}

/// A case that is accepted.
fn accepted_case(input: &Input) -> Case {
    Case { routes: vec![], expected: None, set: write_set(&input.tables), plan: write_plan(&input.plan) }
}

/// A random accepted input that takes few bytes.
fn small(random: &mut Random) -> Input {
    loop {
        let input = accepted(random);
        if input.plan.size() <= 24 && input.set_bytes().len() <= 1_200 {
            return input;
        }
    }
}

/// A case with one fault in a random accepted input that it suits.
pub fn fault_case(random: &mut Random, fault: &Fault) -> Case {
    loop {
        if let Some(case) = damaged_once(random, &[fault]) {
            return case;
        }
    }
}

/// The same with one random input; none if the faults do not suit it.
pub fn damaged_once(random: &mut Random, faults: &[&Fault]) -> Option<Case> {
    damaged_once_in(VERSION_2, random, faults)
}

/// The same in a version. Of version 1 there are only inputs whose numbers it has.
pub fn damaged_once_in(version: Version, random: &mut Random, faults: &[&Fault]) -> Option<Case> {
    let input = small(random);
    let input = if version == VERSION_1 { narrowed(input) } else { input };
    let (set, plan) = damaged(version, &input, faults, random)?;
    let routes = faults.iter().map(|fault| format!("{} {}", fault.number, fault.name)).collect();
    Some(Case { routes, expected: deciding(faults), set, plan })
}

/// A case with one fault of each number.
fn pair_case(random: &mut Random, faults: &[Fault], one: u8, other: u8) -> Case {
    let of =
        |number: u8| -> Vec<&Fault> { faults.iter().filter(|fault| fault.number == number && !fault.alone).collect() };
    // Some two faults suit no input together, so they are picked anew each time.
    loop {
        let first = random.pick(&of(one));
        let second = random.pick(&of(other));
        if let Some(case) = damaged_once(random, &[first, second]) {
            return case;
        }
    }
}

/// The number that decides, if the faults are not both in the set: there it goes by tables.
fn deciding(faults: &[&Fault]) -> Option<u8> {
    let in_set = faults.iter().filter(|fault| fault.number <= 5).count();
    if in_set > 1 {
        return None;
    }
    faults.iter().min_by_key(|fault| fault.rank).map(|fault| fault.number)
}

/// An input that is refused for each of 1 to 14, short enough to be read: the number, the set and the plan.
pub fn one_of_each_refusal() -> Vec<(u8, Vec<u8>, Vec<u8>)> {
    let unit = write_plan(&Plan::Unit);
    let wide = cross(cross(scan(0, 0), scan(0, 16)), scan(0, 32));
    let of = |number, tables: Vec<Table>, plan: Plan| (number, write_set(&tables), write_plan(&plan));
    vec![
        (1, b"TB".to_vec(), unit.clone()),
        (2, b"TBX\x02\x00\x01\x00\x00".to_vec(), unit.clone()),
        (3, b"TBL\x02\x00\x11\x00\x00".to_vec(), unit.clone()),
        of(4, vec![one_column(&[9_000_000_000_000_001])], Plan::Unit),
        of(5, vec![sized(1, 1); 9], Plan::Unit),
        (6, vec![], unit[..5].to_vec()),
        (7, vec![], b"RPT\x01\x00\x01".to_vec()),
        (8, vec![], b"RPT\x02\x00\x00".to_vec()),
        (9, vec![], [&b"RPT\x02\x00\x01\x0f"[..], &[0; 31]].concat()),
        (10, vec![], [&b"RPT\x02\x00\x01\x02"[..], &[0; 31]].concat()),
        of(11, vec![], scan(0, 0)),
        of(12, vec![sized(4, 1)], project(&[3, 3], scan(0, 0))),
        of(13, vec![sized(16, 1)], wide),
        of(14, vec![sized(1, 65), sized(1, 64)], cross(scan(0, 0), scan(1, 1))),
    ]
}
