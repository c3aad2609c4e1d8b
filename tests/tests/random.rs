//! Checks over random accepted plans that catch mistakes in reading the paper: unnesting keeps
//! the report, the steps stay within the weight, and no rule is left that fits.

use second::between::Met;
use second::calls::{read, report_of, unnest_tree};
use second::check::{bound, columns, need, need_before, passes_rows_on};
use second::downward::{decided_by_equal_rows, sorts_with_equal_rows};
use second::generate::{accepted, common_beginning, downward, in_place, steps, totals, unequal, with_between, Input};
use second::nodes::write_plan;
use second::plan::Comparison::NotEqual;
use second::plan::{Form, Plan, Test};
use second::random::Random;
use second::rules::{first_fit, fit, sequences, stay_position, try_step, weight};
use second::tables::Table;

/// How many random plans are tried.
const PLANS: u64 = 10_000;

/// Whether a node compares by ≠: by its keys, in its test, or in that of a Select that is its last child.
fn is_unequal(node: &Plan) -> bool {
    let unequal = |test: &Test| matches!(test.form, Form::Columns(NotEqual, ..) | Form::Number(NotEqual, ..));
    matches!(node, Plan::Pair { keys, .. } if keys.comparison == NotEqual)
        || node.test().is_some_and(unequal)
        || matches!(node.children().last(), Some(Plan::Select { test, .. }) if unequal(test))
}

#[test]
fn unnesting_keeps_the_report() {
    let mut fitted = [0usize; 9];
    let mut unequal_steps = [0usize; 9];
    let mut kinds = [0usize; 15];
    let mut longest = 0;
    for seed in 0..PLANS + 2000 {
        let mut random = Random::new(seed);
        // After the plans of every sort, sums over blanks, comparisons with blanks, downward lists, Projects in between and nodes that pass
        // rows on in turn.
        let input = match seed.checked_sub(PLANS).map(|further| further % 5) {
            None => accepted(&mut random),
            Some(0) => totals(&mut random),
            Some(1) => unequal(&mut random),
            Some(2) => downward(&mut random),
            Some(3) => with_between(&mut random),
            Some(_) => in_place(&mut random),
        };
        let (tables, tree) = read(&input.set_bytes(), &input.plan_bytes()).expect("an accepted plan");
        assert_eq!((&tables, &tree), (&input.tables, &input.plan));
        tree.nodes().iter().for_each(|node| kinds[usize::from(node.kind())] += 1);
        let (steps, passed) = unnest_tree(&tree, &tables);
        let last = &passed[passed.len() - 1];
        for (&(rule, place), before) in steps.iter().zip(&passed) {
            fitted[usize::from(rule)] += 1;
            unequal_steps[usize::from(rule)] += usize::from(before.at(usize::from(place)).is_some_and(is_unequal));
        }
        longest = longest.max(steps.len());
        assert_eq!(columns(&tree, &tables), columns(last, &tables), "seed {seed}");
        assert_eq!(report_of(&tree, &tables), report_of(last, &tables), "seed {seed}");
        assert!(steps.len() + weight(last) <= weight(&tree), "seed {seed}");
        assert!(first_fit(last, &tables).is_none());
        assert!(passed.iter().all(|plan| need(plan, &tables) <= need_before(plan, &tables)), "seed {seed}");
        assert!(read(&input.set_bytes(), &write_plan(last)).is_ok());
    }
    println!("nodes by kind {kinds:?}");
    println!("steps by rule {:?}, longest list {longest}", &fitted[1..]);
    println!("steps by rule at nodes that compare by ≠ {:?}", &unequal_steps[1..]);
    assert!(fitted[1..].iter().all(|&count| count > 200), "{fitted:?}");
    assert!(unequal_steps[1..8].iter().all(|&count| count > 50), "{unequal_steps:?}");
}

#[test]
fn any_list_of_steps_keeps_the_report() {
    let mut changed = [0usize; 9];
    let mut stayed = 0;
    for seed in 0..5_000 {
        let mut random = Random::new(1_000_000 + seed);
        let input = if seed < 4_000 { accepted(&mut random) } else { with_between(&mut random) };
        let tables = &input.tables;
        let list = steps(&mut random, &input);
        let mut plan = input.plan.clone();
        for &(rule, place) in &list {
            let after = try_step(&plan, rule, usize::from(place), tables);
            if after == plan {
                stayed += 1;
            } else {
                changed[usize::from(rule)] += 1;
                assert!(weight(&after) < weight(&plan), "seed {seed}");
            }
            plan = after;
        }
        assert_eq!(columns(&input.plan, tables), columns(&plan, tables), "seed {seed}");
        assert_eq!(report_of(&input.plan, tables), report_of(&plan, tables), "seed {seed}");
    }
    println!("tried steps that fitted by rule {:?}, that did not {stayed}", &changed[1..]);
    assert!(changed[1..].iter().all(|&count| count > 50), "{changed:?}");
}

#[test]
fn a_stay_note_stands_only_where_no_rule_fits() {
    let (mut notes, mut ended) = ([0usize; 2], 0usize);
    for seed in 0..4_800 {
        let mut random = Random::new(2_000_000 + seed);
        let input = match seed {
            0..4_000 => accepted(&mut random),
            4_000..4_400 => common_beginning(&mut random),
            _ => downward(&mut random),
        };
        for place in 0..input.plan.size() + 2 {
            let Some(position) = stay_position(&input.plan, place, &input.tables) else {
                continue;
            };
            assert!(fit(&input.plan, place, &input.tables).is_none());
            // Equal before the position; at it they differ, or one has a value and the other has none.
            let (values, keys) = sequences(&input.plan, place, &input.tables).expect("the sequences of a note");
            assert_eq!(values[..position], keys[..position], "seed {seed}");
            assert_ne!(values.get(position), keys.get(position), "seed {seed}");
            notes[usize::from(position > 0)] += 1;
            ended += usize::from(position == values.len().min(keys.len()));
        }
    }
    println!("stay notes with position 0 and with a later one {notes:?}, where just one sequence has ended {ended}");
    assert!(notes.iter().all(|&count| count > 100) && ended > 100, "{notes:?}, {ended}");
}

#[test]
fn k3_the_order_of_equal_rows_decides_reports_steps_and_notes() {
    let mut sorts = 0;
    let mut counts = [0usize; 3];
    for seed in 0..1_000 {
        let Input { tables, plan } = downward(&mut Random::new(3_000_000 + seed));
        sorts += sorts_with_equal_rows(&plan, &tables);
        let decided = decided_by_equal_rows(&plan, &tables);
        counts.iter_mut().zip(decided).for_each(|(count, decided)| *count += usize::from(decided));
    }
    println!("downward Sorts with equal rows {sorts}; reports, steps and notes that their order decides {counts:?}");
    assert!(sorts > 700 && counts.iter().all(|&count| count > 100), "{sorts}, {counts:?}");
}

#[test]
fn k12_the_need_is_at_most_the_one_before() {
    let (mut smaller, mut both_sides) = ([0usize; 2], [0usize; 2]);
    for seed in 0..4_000 {
        let mut random = Random::new(5_000_000 + seed);
        let kind = usize::from(seed >= 2_000);
        let Input { tables, plan } = if kind == 0 { accepted(&mut random) } else { in_place(&mut random) };
        let (now, before) = (need(&plan, &tables), need_before(&plan, &tables));
        assert!(now <= before, "seed {seed}");
        // Each node that passes rows on saves all rows of its bound but one.
        let nodes = plan.nodes();
        let saved = |node: &&Plan| bound(node, &tables).saturating_sub(1) * columns(node, &tables).len() as u64;
        let all_saved: u64 = nodes.iter().filter(|node| passes_rows_on(node)).map(saved).sum();
        assert_eq!(before - now, all_saved, "seed {seed}");
        smaller[kind] += usize::from(now < before);
        let passes_several = |child: &&Plan| passes_rows_on(child) && bound(child, &tables) > 1;
        let both = |node: &&&Plan| node.children().len() == 2 && node.children().iter().all(passes_several);
        both_sides[kind] += nodes.iter().filter(both).count();
    }
    println!("needs below those before K12 {smaller:?} of 2,000 each; nodes over two that pass several rows on {both_sides:?}");
    assert!(smaller.iter().all(|&count| count > 1_000), "{smaller:?}");
    assert!(both_sides[0] > 50 && both_sides[1] > 500, "{both_sides:?}");
}

/// So many plans that the steps of one input lead to are enough.
const ENOUGH: usize = 500;

/// The plans that steps lead to from this one, in whatever order they are taken, itself first. It looks no further where there are enough.
fn in_every_order(plan: &Plan, tables: &[Table]) -> Vec<Plan> {
    let mut all = vec![plan.clone()];
    let mut looked_at = 0;
    while looked_at < all.len() && all.len() < ENOUGH {
        let from = all[looked_at].clone();
        for (_, after) in (0..from.size()).filter_map(|place| fit(&from, place, tables)) {
            if !all.contains(&after) {
                all.push(after);
            }
        }
        looked_at += 1;
    }
    all
}

#[test]
fn k1_every_order_of_steps_keeps_the_report() {
    let mut met = Met::default();
    let (mut plans, mut orders, mut cut_short) = (0, 0, 0);
    for seed in 0..2_000 {
        let Input { tables, plan } = with_between(&mut Random::new(4_000_000 + seed));
        met.count(&plan, &tables);
        let (ids, report) = (columns(&plan, &tables), report_of(&plan, &tables));
        let all = in_every_order(&plan, &tables);
        for after in &all {
            assert_eq!(columns(after, &tables), ids, "seed {seed}");
            assert_eq!(report_of(after, &tables), report, "seed {seed}");
        }
        plans += all.len();
        cut_short += usize::from(all.len() >= ENOUGH);
        // More plans than one order passes through.
        orders += usize::from(all.len() > unnest_tree(&plan, &tables).1.len());
    }
    print!("{}", met.lines());
    print!("plans that steps lead to in every order {plans}; ");
    println!("inputs with more than one order {orders}, with more plans than were looked at {cut_short}");
    assert!(met.between.iter().all(|&count| count > 100), "{met:?}");
    assert!(met.through.iter().flatten().all(|&count| count > 50) && met.first > 300, "{met:?}");
    assert!(orders > 300 && cut_short < 20, "{orders}, {cut_short}");
}
