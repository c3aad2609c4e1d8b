//! The converter of request K13, against its readings: what it takes, what it refuses and in which order, and that it keeps reports.

use second::build::*;
use second::calls::{read_in, report, report_in, report_of, ROOMY};
use second::cases::damaged_once_in;
use second::cells::{BLANK, LARGEST, OFF_SCALE};
use second::convert::{convert, convert_word, Converted, Way};
use second::damage::{faults, Fault};
use second::edges::club;
use second::generate::{accepted, downward, in_place, totals, unequal, with_between, Input};
use second::large::large;
use second::nodes::write_plan_in;
use second::plan::Comparison::{Equal, Less};
use second::plan::{Aggregate, Form, Plan, Test, ALWAYS};
use second::random::Random;
use second::tables::{write_set_in, Table};
use second::version::{Version, VERSION_1, VERSION_2};
use second::wide::{narrowed, wide_totals};

/// The largest number of version 1.
const OLD: i64 = VERSION_1.largest;

/// The bytes of an input in a version.
fn bytes_in(version: &Version, input: &Input) -> (Vec<u8>, Vec<u8>) {
    (write_set_in(version, &input.tables), write_plan_in(version, &input.plan))
}

/// The converter with room for all.
fn converted(way: Way, (set, plan): &(Vec<u8>, Vec<u8>)) -> Result<Converted, u8> {
    convert(way, set, plan, ROOMY, ROOMY)
}

/// What either way gives of an input that both versions have.
fn pair_of((set, plan): (Vec<u8>, Vec<u8>)) -> Converted {
    Converted { set, plan }
}

/// A random accepted input of every sort, with numbers beyond version 1's range in most.
fn drawn(random: &mut Random) -> Input {
    match random.below(10) {
        0..=2 => accepted(random),
        3..=5 => totals(random),
        6 => unequal(random),
        7 => downward(random),
        8 => in_place(random),
        _ => with_between(random),
    }
}

// ---- bytes

#[test]
fn the_sample_club_goes_up_and_down() {
    let club = club();
    let (old, new) = (bytes_in(&VERSION_1, &club), bytes_in(&VERSION_2, &club));
    assert_eq!((old.0.len(), old.1.len(), new.0.len(), new.1.len()), (64, 126, 112, 166));
    assert_eq!(converted(Way::Up, &old), Ok(pair_of(new.clone())));
    assert_eq!(converted(Way::Down, &new), Ok(pair_of(old.clone())));
    // Each way takes its own version alone.
    assert_eq!(converted(Way::Up, &new), Err(2));
    assert_eq!(converted(Way::Down, &old), Err(2));
    assert_eq!(converted(Way::Up, &(old.0, new.1.clone())), Err(7));
    assert_eq!(converted(Way::Down, &(vec![], write_plan_in(&VERSION_1, &Plan::Unit))), Err(7));
    assert_eq!(converted(Way::Up, &(vec![], write_plan_in(&VERSION_1, &Plan::Unit))).map(|pair| pair.set), Ok(vec![]));
    assert_eq!(report(&new.0, &new.1, ROOMY, ROOMY).map(|report| report.codes), Ok(vec![7, 4]));
}

#[test]
fn random_pairs_go_up_and_come_back() {
    for seed in 0..2_000 {
        let input = narrowed(drawn(&mut Random::new(7_000_000 + seed)));
        let old = bytes_in(&VERSION_1, &input);
        let new = converted(Way::Up, &old).expect("a pair of version 2");
        assert_eq!(read_in(&VERSION_2, &new.set, &new.plan), Ok((input.tables, input.plan)), "seed {seed}");
        assert_eq!(converted(Way::Down, &(new.set, new.plan)), Ok(pair_of(old)), "seed {seed}");
    }
}

#[test]
fn the_largest_pairs_go_up_and_come_back() {
    let selects = (0..63).fold(scan(7, 0), |plan, _| select(number_test(0, Less, OLD), plan));
    let input = Input { tables: vec![sized(16, 1000); 8], plan: selects };
    let (old, new) = (bytes_in(&VERSION_1, &input), bytes_in(&VERSION_2, &input));
    assert_eq!((new.0.len(), new.1.len()), (1_024_064, 2_054));
    assert_eq!(converted(Way::Up, &old), Ok(pair_of(new.clone())));
    assert_eq!(converted(Way::Down, &new), Ok(pair_of(old)));
}

// ---- refusals

/// Whether every number of an input lies within version 1's range, looked at one by one.
fn all_fit(input: &Input) -> bool {
    let fits = |number: i64| (-2_000_000_000..=2_000_000_000).contains(&number);
    let cell_fits = |cell: &i64| *cell == i64::MIN || *cell == i64::MAX || fits(*cell);
    let test_fits = |node: &Plan| match node.test() {
        Some(Test { form: Form::Number(_, _, number), .. }) => fits(*number),
        _ => true,
    };
    input.tables.iter().all(|table| table.rows.iter().flatten().all(cell_fits))
        && input.plan.nodes().into_iter().all(test_fits)
}

#[test]
fn down_is_refused_exactly_where_a_number_does_not_fit() {
    let mut counts = [0; 2];
    for seed in 0..4_000 {
        let mut random = Random::new(8_000_000 + seed);
        let input = drawn(&mut random);
        let input = if random.chance(30) { narrowed(input) } else { input };
        let fit = all_fit(&input);
        let expected = if fit { Ok(pair_of(bytes_in(&VERSION_1, &input))) } else { Err(25) };
        assert_eq!(converted(Way::Down, &bytes_in(&VERSION_2, &input)), expected, "seed {seed}");
        counts[usize::from(fit)] += 1;
    }
    println!("taken down: refused 25 {}, given {}", counts[0], counts[1]);
    assert!(counts.iter().all(|&count| count > 1_000), "{counts:?}");
}

/// An input of two tables, of which the second is never scanned, with a cell in each and a number in a test.
fn with_numbers(scanned: i64, unscanned: i64, number: i64) -> Input {
    let tables = vec![one_column(&[1, scanned]), Table { columns: 2, rows: vec![vec![BLANK, 3], vec![unscanned, 4]] }];
    Input { tables, plan: select(ALWAYS, select(number_test(0, Equal, number), scan(0, 0))) }
}

#[test]
fn down_looks_at_every_number() {
    let down = |input: &Input| converted(Way::Down, &bytes_in(&VERSION_2, input)).err();
    for fitting in [OLD, -OLD, 0, BLANK, OFF_SCALE] {
        assert_eq!(down(&with_numbers(fitting, 0, 0)), None);
        assert_eq!(down(&with_numbers(0, fitting, 0)), None);
    }
    for fitting in [OLD, -OLD] {
        assert_eq!(down(&with_numbers(0, 0, fitting)), None);
    }
    // 2,147,483,647 and -2,147,483,648 are plain numbers in version 2, and not off scale and blank. The others are alike with 0 or with the
    // codes of version 1 in their lower 32 bits.
    let beyond =
        [OLD + 1, -OLD - 1, 2_147_483_647, -2_147_483_648, 1 << 32, -(1 << 32), (1 << 33) - 1, LARGEST, -LARGEST];
    for number in beyond {
        assert_eq!(down(&with_numbers(number, 0, 0)), Some(25), "{number}");
        assert_eq!(down(&with_numbers(0, number, 0)), Some(25), "{number}");
        assert_eq!(down(&with_numbers(0, 0, number)), Some(25), "{number}");
    }
}

/// Bytes with faults that suit inputs of a version, one, and two of different numbers at once, with the number that decides where it is known.
fn damaged_pairs(version: Version, seed: u64, count: usize) -> Vec<(Vec<u8>, Vec<u8>, Option<u8>)> {
    let (all, mut random) = (faults(), Random::new(seed));
    let pairable: Vec<&Fault> = all.iter().filter(|fault| !fault.alone).collect();
    let one = all.iter().map(|fault| vec![fault]);
    let mut two: Vec<Vec<&Fault>> = (0..count).map(|_| vec![random.pick(&pairable), random.pick(&pairable)]).collect();
    two.retain(|faults| faults[0].number != faults[1].number);
    let mut tried = |faults: Vec<&Fault>| (0..30).find_map(|_| damaged_once_in(version, &mut random, &faults));
    one.chain(two).filter_map(&mut tried).map(|case| (case.set, case.plan, case.expected)).collect()
}

#[test]
fn refusals_are_those_of_the_version_that_is_taken() {
    for way in [Way::Up, Way::Down] {
        let (from, _) = way.versions();
        let (mut counts, mut decided) = ([0; 26], 0);
        for (set, plan, expected) in damaged_pairs(from, 9, 1_500) {
            let number = converted(way, &(set.clone(), plan.clone())).expect_err("a fault");
            assert_eq!(Err(number), read_in(&from, &set, &plan).map(|_| ()), "{way:?}");
            assert!(expected.is_none_or(|expected| expected == number), "{way:?}: {number} and not {expected:?}");
            decided += usize::from(expected.is_some());
            counts[usize::from(number)] += 1;
        }
        println!("{way:?}: refused {:?}, in an order that is known {decided}", &counts[1..15]);
        assert!(counts[1..15].iter().all(|&count| count >= 5), "{counts:?}");
    }
}

#[test]
fn refusals_come_in_their_order() {
    let beyond = with_numbers(OLD + 1, 0, 0);
    let (set, plan) = bytes_in(&VERSION_2, &beyond);
    // 14 before 25, 25 before 15; and of two faults that of the set.
    let tall = Input { tables: vec![sized(1, 65), one_column(&[LARGEST; 64])], plan: cross(scan(0, 0), scan(1, 1)) };
    assert_eq!(converted(Way::Down, &bytes_in(&VERSION_2, &tall)), Err(14));
    assert_eq!(convert(Way::Down, &set, &plan, 0, 0), Err(25));
    assert_eq!(convert(Way::Down, b"TB", &plan[..5], 0, 0), Err(1));
    assert_eq!(convert(Way::Up, b"TB", &plan, 0, 0), Err(1));
    assert_eq!(convert(Way::Down, &set, &plan[..5], 0, 0), Err(6));
    // Either room short.
    for way in [Way::Up, Way::Down] {
        let (from, to) = way.versions();
        let ((set, plan), due) = (bytes_in(&from, &club()), pair_of(bytes_in(&to, &club())));
        let (set_room, plan_room) = (due.set.len(), due.plan.len());
        assert_eq!(convert(way, &set, &plan, set_room, plan_room), Ok(due.clone()));
        assert_eq!(convert(way, &set, &plan, set_room - 1, plan_room), Err(15));
        assert_eq!(convert(way, &set, &plan, set_room, plan_room - 1), Err(15));
        assert_eq!(convert(way, &set, &plan, 0, ROOMY), Err(15));
        assert_eq!(convert(way, &set, &plan, ROOMY, 0), Err(15));
        assert_eq!(convert_word(Ok(&due)), ((plan_room as u64) << 8) + ((set_room as u64) << 24));
    }
    assert_eq!(convert_word(Err(25)), 25);
}

// ---- reports

#[test]
fn the_report_of_a_converted_pair_is_the_converted_report() {
    let (mut kept, mut left_range, mut changed) = (0, 0, 0);
    for seed in 0..6_000 {
        let mut random = Random::new(9_000_000 + seed);
        let input = match random.below(50) {
            0 => large(&mut random, 50_000),
            1 => wide_totals(&mut random),
            _ => drawn(&mut random),
        };
        let Input { tables, plan } = narrowed(input);
        let (old, left) = report_in(VERSION_1, &plan, &tables);
        let new = converted(Way::Up, &bytes_in(&VERSION_1, &Input { tables, plan })).expect("a pair of version 2");
        let converted_report = report(&new.set, &new.plan, ROOMY, ROOMY).expect("a report");
        if left.range == 0 {
            assert_eq!(converted_report, old, "seed {seed}");
            kept += 1;
        } else {
            left_range += 1;
            changed += usize::from(converted_report != old);
        }
    }
    println!("reports kept {kept}; with a sum that left the old range {left_range}, of which other reports {changed}");
    assert!(kept > 3_000 && left_range > 300 && changed > 200, "{kept}, {left_range}, {changed}");
}

#[test]
fn off_scale_in_a_table_is_no_hindrance_and_a_sum_that_leaves_is() {
    let sum = |cells: &[i64]| {
        let tables = vec![one_column(cells)];
        let plan = fold(Aggregate::Sum(0), 9, ALWAYS, Plan::Unit, scan(0, 0));
        let (old, left) = report_in(VERSION_1, &plan, &tables);
        (old.codes[0], left.range, report_of(&plan, &tables).codes[0])
    };
    assert_eq!(sum(&[OFF_SCALE, OLD, 1]), (OFF_SCALE, 0, OFF_SCALE));
    assert_eq!(sum(&[OLD, BLANK, 1]), (BLANK, 0, BLANK));
    assert_eq!(sum(&[OLD - 1, 1]), (OLD, 0, OLD));
    assert_eq!(sum(&[OLD, 1]), (OFF_SCALE, 1, OLD + 1));
    assert_eq!(sum(&[-OLD, -1]), (OFF_SCALE, 1, -OLD - 1));
    assert_eq!(sum(&[OLD; 1000]), (OFF_SCALE, 1, 1000 * OLD));
}
