//! Request K13: cells of 64 bits, against this evaluator. Its sums are exact beyond 64 bits, its order and its keys look at all bits.

use second::build::*;
use second::calls::{read, report_of};
use second::cells::{is_number, BLANK, LARGEST, OFF_SCALE};
use second::keys::{alike_above, alike_below, AROUND_POWERS};
use second::nodes::{write_plan, HEADER, LARGEST_PLAN, NODE};
use second::plan::Comparison::{AtLeast, AtMost, Equal, Greater, Less, NotEqual};
use second::plan::{Aggregate, Comparison, Plan, ALWAYS};
use second::random::Random;
use second::tables::{write_set, Table};
use second::wide::{crossed, summed_near_all, sums_of_all, Summed};

/// The number by which a set and a plan are refused.
fn refusal(set: &[u8], plan: &[u8]) -> Option<u8> {
    read(set, plan).err()
}

/// The rows of an accepted plan.
fn rows(tables: &[Table], plan: &Plan) -> Vec<Vec<i64>> {
    assert_eq!(refusal(&write_set(tables), &write_plan(plan)), None);
    let report = report_of(plan, tables);
    report.codes.chunks(report.columns).map(|row| row.to_vec()).collect()
}

/// The cell that an exact total is.
fn cell_of(total: i128) -> i64 {
    i64::try_from(total).ok().filter(|&number| is_number(number)).unwrap_or(OFF_SCALE)
}

// ---- bytes

#[test]
fn a_table_has_cells_of_eight_bytes() {
    let set = write_set(&[table(&[&[1, -2], &[BLANK, OFF_SCALE], &[LARGEST, 0x0102_0304]])]);
    let expected: [&[u8]; 7] = [
        b"TBL\x02\x00\x02\x03\x00",
        &[1, 0, 0, 0, 0, 0, 0, 0],
        &[254, 255, 255, 255, 255, 255, 255, 255],
        &[0, 0, 0, 0, 0, 0, 0, 128],
        &[255, 255, 255, 255, 255, 255, 255, 127],
        &[0, 128, 250, 202, 115, 249, 31, 0],
        &[4, 3, 2, 1, 0, 0, 0, 0],
    ];
    assert_eq!(set, expected.concat());
    assert_eq!(refusal(&set, &write_plan(&scan(0, 0))), None);
    assert_eq!(refusal(&set[..set.len() - 1], &write_plan(&scan(0, 0))), Some(1));
}

#[test]
fn a_node_has_32_bytes_with_the_number_in_20_to_27() {
    let plan = select(number_test(7, AtLeast, -0x0102_0304_0506), scan(0, 7));
    let bytes = write_plan(&plan);
    assert_eq!(bytes.len(), HEADER + 2 * NODE);
    assert_eq!(bytes[..HEADER], *b"RPT\x02\x00\x02");
    assert_eq!(bytes[HEADER + 16..HEADER + NODE], [2, 5, 0, 7, 250, 250, 251, 252, 253, 254, 255, 255, 0, 0, 0, 0]);
    let by_columns = write_plan(&select(columns_test(7, Less, 8), scan(0, 7)));
    assert_eq!(by_columns[HEADER + 16..HEADER + NODE], [1, 2, 0, 7, 8, 0, 0, 0, 0, 0, 0, 0, 0, 0, 0, 0]);
    let set = write_set(&[sized(2, 1)]);
    for plan in [&bytes, &by_columns] {
        assert_eq!(refusal(&set, plan), None);
        for place in 28..32 {
            for node in [0, 1] {
                let mut faulty = plan.clone();
                faulty[HEADER + node * NODE + place] = 1;
                assert_eq!(refusal(&set, &faulty), Some(9), "byte {place} of node {node}");
            }
        }
    }
    // A right column stands in byte 20 alone.
    for place in 21..28 {
        let mut faulty = by_columns.clone();
        faulty[HEADER + place] = 1;
        assert_eq!(refusal(&set, &faulty), Some(9), "byte {place}");
    }
}

#[test]
fn the_largest_plan_and_the_largest_set() {
    let mut plan = scan(7, 0);
    while plan.size() < 64 {
        plan = select(ALWAYS, plan);
    }
    let (set, plan) = (write_set(&vec![sized(16, 1000); 8]), write_plan(&plan));
    assert_eq!((set.len(), plan.len(), LARGEST_PLAN), (1_024_064, 2_054, 2_054));
    assert_eq!(refusal(&set, &plan), None);
}

#[test]
fn codes_at_the_ends_and_past_them() {
    let unit = write_plan(&Plan::Unit);
    let of_cell = |code: i64| refusal(&write_set(&[one_column(&[code])]), &unit);
    for code in [LARGEST, -LARGEST, BLANK, OFF_SCALE, 0, -1].into_iter().chain(AROUND_POWERS) {
        assert_eq!(of_cell(code), None, "{code}");
    }
    for code in [LARGEST + 1, -LARGEST - 1, OFF_SCALE - 1, BLANK + 1, 1 << 53, 1 << 62, OFF_SCALE - (1 << 32)] {
        assert_eq!(of_cell(code), Some(4), "{code}");
    }
    // Version 1's codes of blank and off scale are numbers like all others.
    let old = [one_column(&[-2_147_483_648, 2_147_483_647, 2_147_483_648])];
    assert_eq!(rows(&old, &fold(Aggregate::Sum(0), 9, ALWAYS, Plan::Unit, scan(0, 0))), [[2_147_483_647]]);
    assert_eq!(
        rows(&old, &select(number_test(0, Less, 2_147_483_648), scan(0, 0))),
        [[-2_147_483_648], [2_147_483_647]]
    );
}

#[test]
fn numbers_of_tests_at_the_ends_and_of_all_bytes() {
    let all_bytes = 0x1e_dcba_9876_5432;
    let cells = [LARGEST, LARGEST - 1, all_bytes, all_bytes - (1 << 32), all_bytes - 1, -all_bytes, -LARGEST, BLANK];
    let tables = [one_column(&cells)];
    let passing = |comparison: Comparison, number: i64| -> Vec<i64> {
        rows(&tables, &select(number_test(0, comparison, number), scan(0, 0))).concat()
    };
    assert_eq!(passing(Equal, LARGEST), [LARGEST]);
    assert_eq!(passing(Less, LARGEST), cells[1..7]);
    assert_eq!(passing(AtMost, -LARGEST), [-LARGEST]);
    assert_eq!(passing(Less, -LARGEST), [0; 0]);
    assert_eq!(passing(Equal, all_bytes), [all_bytes]);
    assert_eq!(passing(AtLeast, all_bytes), cells[..3]);
    assert_eq!(passing(Greater, all_bytes - 1), cells[..3]);
    assert_eq!(passing(Equal, -all_bytes), [-all_bytes]);
    // Alike in the lower 32 bits, and not equal.
    assert_eq!(passing(NotEqual, all_bytes - (2 << 32)), cells);
    let set = write_set(&tables);
    for number in [LARGEST + 1, -LARGEST - 1, BLANK, OFF_SCALE, 1 << 53] {
        assert_eq!(refusal(&set, &write_plan(&select(number_test(0, Equal, number), scan(0, 0)))), Some(9));
    }
}

// ---- sums

#[test]
fn as_many_of_the_largest_as_of_the_least_give_0() {
    // 64 rows of each, by a Cross with 32: 2,048 times the largest and 2,048 times the least number.
    let cells: Vec<i64> = (0..128).map(|row| if row < 64 { LARGEST } else { -LARGEST }).collect();
    let keyed = Table { columns: 2, rows: cells.iter().map(|&cell| vec![cell.signum(), cell]).collect() };
    let tables = [keyed, one_column(&[7; 32])];
    for plan in sums_of_all() {
        assert_eq!(rows(&tables, &plan).last().expect("a row").last(), Some(&0));
    }
    // Half of them alone are off scale; 2,048 * 9 * 10^15 is 2^64 less 14,744,073,709,551,616.
    let by_sign = group(Aggregate::Sum(11), 30, keys(31, Equal, 10), crossed());
    assert_eq!(rows(&tables, &by_sign), [[1, OFF_SCALE], [-1, OFF_SCALE]]);
}

#[test]
fn many_of_the_largest_or_of_the_least_are_off_scale() {
    // Rows of table 0, and times that a Cross has each. 1,024 of the largest number fit into 64 bits, 1,025 do not; of 2,049 and of 2,050 the
    // total kept in 64 bits is in the range.
    let sizes = [(256, 4), (41, 25), (512, 4), (683, 3), (410, 5), (293, 7), (512, 8)];
    let mut back = Vec::new();
    for (height, times) in sizes {
        for number in [LARGEST, -LARGEST] {
            let tables = [Table { columns: 2, rows: vec![vec![0, number]; height] }, one_column(&vec![7; times])];
            for plan in sums_of_all() {
                assert_eq!(rows(&tables, &plan)[0].last(), Some(&OFF_SCALE), "{height} x {times} times {number}");
            }
            if is_number(number.wrapping_mul((height * times) as i64)) {
                back.push(height * times);
            }
        }
    }
    assert_eq!(back, [2049, 2049, 2050, 2050]);
}

#[test]
fn a_total_that_comes_back_into_the_range_in_64_bits_is_off_scale() {
    let mut back = 0;
    for Summed { tables, total } in summed_near_all(&mut Random::new(1)) {
        let expected = cell_of(total);
        back += usize::from(expected == OFF_SCALE && is_number(total as i64));
        for plan in sums_of_all() {
            assert_eq!(rows(&tables, &plan)[0].last(), Some(&expected), "{total}");
        }
    }
    println!("totals that come back into the range in 64 bits {back}");
    assert!(back >= 20, "{back}");
}

#[test]
fn totals_at_the_ends_of_the_range_and_one_past() {
    let of_two = |one: i64, other: i64| [table(&[&[0, one], &[0, other]]), one_column(&[7])];
    for (one, other, expected) in [
        (LARGEST - 1, 1, LARGEST),
        (LARGEST, 1, OFF_SCALE),
        (LARGEST, 0, LARGEST),
        (1 - LARGEST, -1, -LARGEST),
        (-LARGEST, -1, OFF_SCALE),
        (LARGEST, -LARGEST, 0),
        (LARGEST, LARGEST, OFF_SCALE),
        (LARGEST, BLANK, BLANK),
        (LARGEST, OFF_SCALE, OFF_SCALE),
    ] {
        for plan in sums_of_all() {
            assert_eq!(rows(&of_two(one, other), &plan)[0].last(), Some(&expected), "{one} and {other}");
        }
    }
}

// ---- order and keys

#[test]
fn sorts_look_at_all_bits() {
    let mut random = Random::new(2);
    for height in [2, 3, 31, 32, 33, 64, 300] {
        let beyond: Vec<i64> = (0..height as i64).map(|row| (1 << 51) + 3 * row - 40).collect();
        for mut cells in
            [alike_below(&mut random, height), alike_above(&mut random, height), beyond, AROUND_POWERS.to_vec()]
        {
            cells.extend([BLANK, OFF_SCALE, -(1 << 51), BLANK]);
            let mut shuffled = cells.clone();
            (1..shuffled.len()).for_each(|place| shuffled.swap(place, random.below(place + 1)));
            let sorted = |down| rows(&[one_column(&shuffled)], &sort(down, &[0], scan(0, 0))).concat();
            cells.sort_unstable();
            assert_eq!(sorted(false), cells);
            cells.reverse();
            assert_eq!(sorted(true), cells);
        }
    }
}

#[test]
fn keys_look_at_all_bits() {
    let mut random = Random::new(3);
    // The left keys are every second one of those on the right, which are alike in their lower 32 bits.
    for height in [2, 40, 600] {
        let right = alike_below(&mut random, 2 * height);
        let left: Vec<i64> = right.iter().step_by(2).copied().collect();
        let keyed = |keys: &[i64]| {
            let row = |(row, &key): (usize, &i64)| vec![key, row as i64];
            Table { columns: 2, rows: keys.iter().enumerate().map(row).collect() }
        };
        let tables = [keyed(&left), keyed(&right[..height])];
        let matched: Vec<Vec<i64>> = tables[0].rows[..height.div_ceil(2)].to_vec();
        assert_eq!(rows(&tables, &semi(0, 10, ALWAYS, scan(0, 0), scan(1, 10))), matched);
        assert_eq!(rows(&tables, &anti(0, 10, ALWAYS, scan(0, 0), scan(1, 10))), tables[0].rows[matched.len()..]);
        let counted = rows(&tables, &pair(Aggregate::Sum(11), 20, keys(0, Equal, 10), scan(0, 0), scan(1, 10)));
        assert!(counted
            .iter()
            .enumerate()
            .all(|(row, cells)| { cells[2] == if row < matched.len() { 2 * row as i64 } else { 0 } }));
        assert_eq!(rows(&tables, &distinct(&[0], scan(0, 0))).concat(), left);
        let groups = rows(&tables, &group(Aggregate::Count, 20, keys(21, Equal, 0), scan(0, 0)));
        assert_eq!(groups, left.iter().map(|&key| vec![key, 1]).collect::<Vec<_>>());
    }
}
