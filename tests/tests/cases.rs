//! The case file: each fault alone gives its number, two faults the one that comes first.

use second::cases::{cases, damaged_once, fault_case, Case};
use second::damage::faults;
use second::random::Random;
use std::collections::{BTreeMap, BTreeSet};

/// Checks that a case is refused with the number that its faults lead to.
fn is_refused_as_expected(case: &Case) {
    let answer = case.answer();
    match case.expected {
        Some(number) => assert_eq!(answer, format!("refused {number}"), "{:?}", case.routes),
        None if case.routes.is_empty() => assert!(answer.starts_with("tables"), "{answer}"),
        None => assert!(answer.starts_with("refused"), "{:?}", case.routes),
    }
}

#[test]
fn the_case_file_has_what_it_needs() {
    let cases = cases();
    let mut routes: BTreeMap<String, BTreeSet<String>> = BTreeMap::new();
    for case in &cases {
        is_refused_as_expected(case);
        if case.routes.len() == 1 {
            routes.entry(case.answer()).or_default().insert(case.routes[0].clone());
        }
    }
    let size: usize = cases.iter().map(|case| 8 + case.set.len() + case.plan.len()).sum();
    assert!(cases.len() >= 400 && size < 1_000_000, "{} cases, {size} bytes", cases.len());
    assert!(cases.iter().filter(|case| case.routes.len() == 2).count() >= 60);
    assert!(cases.iter().filter(|case| case.routes.is_empty()).count() >= 80);
    for number in 1..=14 {
        assert!(routes[&format!("refused {number}")].len() >= 5, "{number}");
    }
}

#[test]
fn one_fault_gives_its_number() {
    let mut random = Random::new(3);
    for fault in &faults() {
        for _ in 0..8 {
            is_refused_as_expected(&fault_case(&mut random, fault));
        }
    }
}

#[test]
fn of_two_faults_the_first_in_order_decides() {
    let mut random = Random::new(4);
    let all = faults();
    let pairable: Vec<_> = all.iter().filter(|fault| !fault.alone).collect();
    let mut tried = 0;
    for _ in 0..4_000 {
        let pair = [random.pick(&pairable), random.pick(&pairable)];
        if pair[0].number == pair[1].number {
            continue;
        }
        if let Some(case) = damaged_once(&mut random, &pair) {
            is_refused_as_expected(&case);
            tried += 1;
        }
    }
    println!("two faults at once {tried}");
    assert!(tried > 1_000);
}
