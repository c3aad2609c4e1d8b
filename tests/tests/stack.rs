//! The stack that the archive's calls take for the deepest plans, and the one that the listing program needs. It prints the figures.
#![cfg(all(archive, target_os = "linux"))]

use second::archive::{check_steps_in, prize_in, report_in, stay_note_in, unnest_in};
use second::build::*;
use second::check::{check_tree, columns};
use second::generate::Input;
use second::held::{hold_check_steps, hold_prizes, hold_rooms, hold_unnest, Counts, Due};
use second::listings::Run;
use second::nodes::LARGEST_PLAN;
use second::plan::Comparison::{Equal, Less};
use second::plan::{Aggregate, Plan, ALWAYS};
use second::random::Random;
use second::stack::Stack;
use second::tables::Table;
use std::path::Path;
use std::process::Command;
use std::{env, fs, process};

/// The most stack, in KiB, that a call may take for any plan.
const LIMIT: usize = 512;

/// The most bytes that one more node on the way down may add. An array of 16 bits for each of 4,096 rows would be 8,192: it must not stand in
/// a frame of the recursion, where it would be there 64 times.
const NODE_LIMIT: usize = 4096;

/// The most stack, in KiB, that the listing program may need. Most systems give 8,192.
const PROGRAM_LIMIT: usize = 6144;

/// A stack of 32 MiB has room for some hundred KiB in each frame of 64.
const STACK: usize = 32 << 20;

/// The tables that the deepest plans are over: 0 and 1 of the given height with two columns, all keys of the first different, 2 with one
/// column and one row, and 3 with one column.
fn tables(height: usize) -> Vec<Table> {
    let rows = |factor: usize| (0..height).map(|row| vec![(row * factor % 1009) as i64, (row % 7) as i64]).collect();
    let keys: Vec<i64> = (0..height as i64).collect();
    vec![Table { columns: 2, rows: rows(5) }, Table { columns: 2, rows: rows(11) }, one_column(&[3]), one_column(&keys)]
}

/// A kind of node with one child.
#[derive(Clone, Copy, Debug)]
enum One {
    Select,
    Project,
    Distinct,
    Sort,
    Group,
}

const ONES: [One; 5] = [One::Select, One::Project, One::Distinct, One::Sort, One::Group];

/// A kind of node with two.
#[derive(Clone, Copy, Debug)]
enum Two {
    Semi,
    Anti,
    Pair,
    Cross,
    Some,
    Every,
    Fold,
    Each,
}

const TWOS: [Two; 8] = [Two::Semi, Two::Anti, Two::Pair, Two::Cross, Two::Some, Two::Every, Two::Fold, Two::Each];
const NESTED: [Two; 4] = [Two::Some, Two::Every, Two::Fold, Two::Each];

/// So many nodes with one child over table 0, of these kinds in turn; its key, and the other column.
fn chain(kinds: &[One], length: u8) -> (Plan, u8) {
    let (mut plan, mut key, mut other) = (scan(0, 0), 0, 1);
    for place in 0..length {
        plan = match kinds[usize::from(place) % kinds.len()] {
            One::Select => select(number_test(key, Less, 2_000), plan),
            One::Project => project(&[other, key], plan),
            One::Distinct => distinct(&[key, other], plan),
            One::Sort => sort(place % 2 == 0, &[key], plan),
            One::Group => {
                let value = 2 + 2 * place;
                let grouped = group(Aggregate::Sum(other), value + 1, keys(value, Equal, key), plan);
                (key, other) = (value, value + 1);
                grouped
            }
        };
    }
    (plan, key)
}

/// A node over two plans, each with its key. An id from 100 on is new.
fn over(kind: Two, id: u8, (left, left_key): (Plan, u8), (right, right_key): (Plan, u8)) -> Plan {
    let test = columns_test(left_key, Less, right_key).not_turned();
    let sum = Aggregate::Sum(right_key);
    match kind {
        Two::Semi => semi(left_key, right_key, ALWAYS, left, right),
        Two::Anti => anti(left_key, right_key, test.not_turned(), left, right),
        Two::Pair => pair(sum, 100 + id, keys(left_key, Equal, right_key), left, right),
        Two::Cross => cross(left, right),
        Two::Some => some(test, left, right),
        Two::Every => every(test.not_turned(), left, right),
        Two::Fold => fold(sum, 100 + id, test, left, right),
        Two::Each => each(left, right),
    }
}

/// So many nodes with two children, each the first child of the one above it.
fn first_children(kinds: &[Two], depth: u8) -> Plan {
    (0..depth).fold(scan(3, 0), |plan, place| {
        let (kind, id) = (kinds[usize::from(place) % kinds.len()], 1 + place);
        let table = if matches!(kind, Two::Cross | Two::Each) { 2 } else { 3 };
        over(kind, id, (plan, 0), (scan(table, id), id))
    })
}

/// So many nodes with two children, each the second child of the one above it, over a Sort of a Semi. Where the top one is nested the test of
/// that Semi can name its left row, so that all inner plans are run for this.
fn second_children(kinds: &[Two], depth: u8, naming: bool) -> Plan {
    let test = if naming { columns_test(depth, Less, 201) } else { ALWAYS };
    let lowest = sort(true, &[200], semi(200, 201, test, scan(3, 200), scan(3, 201)));
    let mut below = (lowest, 200);
    for id in 1..=depth {
        // The kinds are in turn from the top.
        let kind = kinds[usize::from(depth - id) % kinds.len()];
        let table = if matches!(kind, Two::Semi | Two::Anti | Two::Pair) { 3 } else { 2 };
        below = (over(kind, id, (scan(table, id), id), below), id);
    }
    below.0
}

/// Plans that can be made less deep: a name, the plan by its depth, and the largest depth.
type Family = (String, Box<dyn Fn(u8) -> Plan>, u8);

/// The deepest plans.
fn families() -> Vec<Family> {
    let mut all: Vec<Family> = Vec::new();
    for kind in ONES {
        all.push((format!("{kind:?}"), Box::new(move |depth| chain(&[kind], depth).0), 63));
    }
    all.push(("nodes of one child".into(), Box::new(|depth| chain(&ONES, depth).0), 63));
    for kind in TWOS {
        let first = move |depth| first_children(&[kind], depth);
        let second = move |depth| second_children(&[kind], depth, false);
        all.push((format!("{kind:?} in first children"), Box::new(first), 31));
        all.push((format!("{kind:?} in second children"), Box::new(second), 30));
    }
    for kind in NESTED {
        let naming = move |depth| second_children(&[kind], depth, true);
        all.push((format!("{kind:?} in second children, the first row named"), Box::new(naming), 30));
    }
    all.push(("all kinds in second children".into(), Box::new(|depth| second_children(&TWOS, depth, false)), 30));
    let nested_first = [NESTED, [Two::Semi, Two::Anti, Two::Pair, Two::Cross]].concat();
    let naming = move |depth| second_children(&nested_first, depth, true);
    all.push(("all kinds in second children, the first row named".into(), Box::new(naming), 30));
    // Unnesting and stay notes take the rows of e and f by themselves: U3, U6 and U8 over the deepest trees.
    all.push(("nodes below a Semi".into(), Box::new(below_semi), 60));
    all.push(("nodes below a Pair".into(), Box::new(below_pair), 60));
    all.push(("nodes below an Each".into(), Box::new(|depth| each(scan(2, 200), chain(&ONES, depth).0)), 61));
    all
}

/// A Semi whose e is a Distinct over a chain.
fn below_semi(depth: u8) -> Plan {
    let (rows, key) = chain(&ONES, depth);
    semi(key, 200, ALWAYS, distinct(&[key], rows), scan(0, 200))
}

/// A Pair whose f is a chain.
fn below_pair(depth: u8) -> Plan {
    let (rows, key) = chain(&ONES, depth);
    pair(Aggregate::Count, 250, keys(200, Equal, key), distinct(&[200], scan(0, 200)), rows)
}

/// The bytes of stack that the five calls take for a plan. The checking call gets the list and the plan that the unnesting call gives.
fn taken(stack: &mut Stack, input: &Input) -> [usize; 5] {
    assert_eq!(check_tree(&input.plan, &input.tables), Ok(()));
    let (set, plan) = (input.set_bytes(), input.plan_bytes());
    // More than any of the plans here needs, and any that they are unnested into.
    let mut scratch = vec![0; 1 << 20];
    let (mut out, mut out_plan, mut out_steps) = (vec![0; 1 << 17], vec![0; LARGEST_PLAN], vec![0; 384]);
    let mut words = [0; 5];
    let report = stack.taken_by(&mut || words[0] = report_in(&set, &plan, &mut out, &mut scratch));
    let unnest = stack.taken_by(&mut || words[1] = unnest_in(&set, &plan, &mut out_plan, &mut out_steps, &mut scratch));
    let note = stack.taken_by(&mut || words[2] = stay_note_in(&set, &plan, 0, &mut scratch));
    let (steps, theirs) = (&out_steps[..2 * (words[1] >> 8 & 0xffff) as usize], &out_plan[..(words[1] >> 24) as usize]);
    let check = stack.taken_by(&mut || words[3] = check_steps_in(&set, &plan, steps, theirs, &mut scratch));
    let mut prizes = || words[4] = prize_in(&set, &plan, 99_999_999, &[500; 20], &mut out, &mut scratch);
    let prize = stack.taken_by(&mut prizes);
    // A plan of one column is refused 18 by the prize call.
    let few = columns(&input.plan, &input.tables).len() < 2;
    assert_eq!(words.map(|word| word & 0xff), [0, 0, 0, 0, if few { 18 } else { 0 }]);
    [report, unnest, note, check, prize]
}

/// The KiB of stack of the five calls and the bytes of a node, as text.
fn figures([report, unnest, note, check, prize]: [usize; 5], by_node: usize) -> String {
    format!("report {report} KiB, {by_node} bytes a node; ")
        + &format!("unnest {unnest}, stay note {note}, check steps {check}, prizes {prize} KiB")
}

#[test]
fn the_deepest_plans_take_little_stack() {
    let mut stack = Stack::new(STACK);
    let (mut most, mut most_by_node) = ([0; 5], 0);
    for (name, plan, deepest) in families() {
        let mut at = |height, depth| taken(&mut stack, &Input { tables: tables(height), plan: plan(depth) });
        let (few, many, less_deep) = (at(64, deepest), at(1000, deepest), at(64, deepest / 2));
        let by_node = few[0].saturating_sub(less_deep[0]) / usize::from(deepest - deepest / 2);
        let largest = [0, 1, 2, 3, 4].map(|call| few[call].max(many[call]).div_ceil(1024));
        println!("stack of {deepest} deep {name}: {}", figures(largest, by_node));
        most.iter_mut().zip(largest).for_each(|(most, taken)| *most = taken.max(*most));
        most_by_node = by_node.max(most_by_node);
    }
    println!("most stack: {}", figures(most, most_by_node));
    assert!(most.iter().all(|&taken| taken <= LIMIT), "{most:?}");
    assert!(most_by_node <= NODE_LIMIT, "{most_by_node}");
}

#[test]
fn the_deepest_plans_are_answered_as_by_the_second_evaluator() {
    let mut random = Random::new(18);
    let mut counts = Counts::default();
    for (name, plan, deepest) in families() {
        let input = Input { tables: tables(40), plan: plan(deepest) };
        assert!((62..=64).contains(&input.plan.size()), "{name}: {} nodes", input.plan.size());
        let (set, plan) = (input.set_bytes(), input.plan_bytes());
        let due = Ok(Due::of(&input.plan, &input.tables));
        hold_rooms(&mut random, &set, &plan, &due, &mut counts)
            .and_then(|()| hold_unnest(&mut random, &set, &plan, &mut counts))
            .and_then(|()| hold_check_steps(&mut random, &set, &plan, &mut counts))
            .and_then(|()| hold_prizes(&mut random, &set, &plan, &due, &mut counts))
            .unwrap_or_else(|difference| panic!("{name}: {difference}"));
    }
    println!("deepest plans: reports {}, steps {:?}", counts.reports[0], &counts.rules[1..]);
    print!("deepest plans: {}", counts.elsewhere_lines());
    print!("deepest plans: {}", counts.prize_lines());
}

/// Whether the listing program prints a run's text in its folder with so many KiB of stack.
fn prints(folder: &Path, run: &Run, kib: usize) -> bool {
    let program = Path::new(env!("CARGO_MANIFEST_DIR")).join("../crates/listing/out/listing");
    let command = format!("ulimit -c 0; ulimit -s {kib}; exec \"$0\"");
    // Variables take stack too.
    let mut shell = Command::new("sh");
    let output = shell.arg("-c").arg(command).arg(program).env_clear().current_dir(folder).output().expect("a shell");
    output.status.success() && output.stdout == run.text().into_bytes()
}

#[test]
fn the_listing_program_has_stack_for_the_deepest_plans() {
    let folder = env::temp_dir().join(format!("listing-stack-{}", process::id()));
    fs::create_dir_all(&folder).expect("a folder");
    for (name, plan) in [("Selects", chain(&[One::Select], 63).0), ("nodes below a Semi", below_semi(60))] {
        let input = Input { tables: tables(1000), plan };
        let run = Run { name: "stack", set: Some(input.set_bytes()), plan: Some(input.plan_bytes()) };
        for (file, bytes) in run.files() {
            fs::write(folder.join(file), bytes).expect("a file");
        }
        let (mut short, mut enough) = (64, 2 * PROGRAM_LIMIT);
        assert!(prints(&folder, &run, enough), "{name}");
        while enough - short > 8 {
            let middle = (short + enough) / 2;
            *if prints(&folder, &run, middle) { &mut enough } else { &mut short } = middle;
        }
        println!("stack of the listing program for {name}: {enough} KiB");
        assert!(enough <= PROGRAM_LIMIT, "{enough}");
    }
    fs::remove_dir_all(&folder).expect("no folder");
}
