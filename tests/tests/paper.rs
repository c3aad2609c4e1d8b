//! Paper 01's examples, the readings that were settled, and paper 02's change requests, against this evaluator.

use second::build::*;
use second::calls::*;
use second::cells::{BLANK, LARGEST, OFF_SCALE};
use second::check::{columns, need, need_before, need_parts};
use second::edges::{club, club_with_project, edges, every_kind};
use second::generate::Input;
use second::listings::{large_runs, SCRATCH};
use second::nodes::{write_plan, HEADER, NODE};
use second::plan::Comparison::{AtLeast, AtMost, Equal, Greater, Less, NotEqual};
use second::plan::{Aggregate, Comparison, Plan, Test, ALWAYS, COMPARISONS};
use second::rules::{fit, free_id, stay_position, try_step, weight};
use second::tables::{write_set, Table};
use std::slice;

/// The report's rows, of an accepted plan.
fn rows(tables: &[Table], plan: &Plan) -> Vec<Vec<i64>> {
    let answer = report(&write_set(tables), &write_plan(plan), ROOMY, ROOMY).expect("a report");
    match answer.columns {
        0 => vec![vec![]; answer.rows],
        width => answer.codes.chunks(width).map(|row| row.to_vec()).collect(),
    }
}

/// The number by which a plan is refused.
fn refusal(tables: &[Table], plan: &Plan) -> Option<u8> {
    read(&write_set(tables), &write_plan(plan)).err()
}

/// The aggregate of one column of codes.
fn aggregate(codes: &[i64], aggregate: Aggregate) -> i64 {
    rows(&[one_column(codes)], &fold(aggregate, 9, ALWAYS, Plan::Unit, scan(0, 0)))[0][0]
}

/// The rule that fits at place 0.
fn rule(tables: &[Table], plan: &Plan) -> Option<u8> {
    assert_eq!(refusal(tables, plan), None);
    fit(plan, 0, tables).map(|(rule, _)| rule)
}

#[test]
fn m1_and_m2_cross_at_the_bound() {
    let product = cross(scan(0, 0), scan(1, 1));
    assert_eq!(refusal(&[sized(1, 64), sized(1, 64)], &product), None);
    assert_eq!(refusal(&[sized(1, 65), sized(1, 64)], &product), Some(14));
    assert_eq!(rows(&[sized(1, 64), sized(1, 64)], &product).len(), 4096);
}

#[test]
fn m3_and_m4_sums_at_the_range() {
    assert_eq!(LARGEST, 9_000_000_000_000_000);
    assert_eq!(aggregate(&[8_999_999_999_999_999, 1], Aggregate::Sum(0)), LARGEST);
    assert_eq!(aggregate(&[LARGEST, 1], Aggregate::Sum(0)), OFF_SCALE);
    assert_eq!(aggregate(&[-LARGEST, -1], Aggregate::Sum(0)), OFF_SCALE);
    // The exact total counts, not a running one; many cells stay exact.
    assert_eq!(aggregate(&[LARGEST, LARGEST, -LARGEST, 5, -6], Aggregate::Sum(0)), LARGEST - 1);
    assert_eq!(aggregate(&[LARGEST; 1000], Aggregate::Sum(0)), OFF_SCALE);
}

#[test]
fn m5_every_over_no_inner_rows() {
    let tables = [one_column(&[5, BLANK]), one_column(&[])];
    assert_eq!(rows(&tables, &every(NEVER, scan(0, 0), scan(1, 1))), [[5], [BLANK]]);
    assert_eq!(rows(&tables, &some(ALWAYS, scan(0, 0), scan(1, 1))), Vec::<Vec<i64>>::new());
}

#[test]
fn m6_blank_is_not_over_30() {
    let over = number_test(0, Greater, 30);
    let tables = [one_column(&[BLANK, 31, OFF_SCALE, 30])];
    assert_eq!(rows(&tables, &select(over, scan(0, 0))), [[31]]);
    assert_eq!(rows(&tables, &select(over.not_turned(), scan(0, 0))), [[BLANK], [OFF_SCALE], [30]]);
}

#[test]
fn m7_each_with_an_empty_inner_plan() {
    let tables = [one_column(&[5]), table(&[&[1, 2]]), Table { columns: 2, rows: vec![] }];
    let empty = each(scan(0, 0), scan(2, 1));
    assert_eq!(rows(&tables, &empty), [[5, BLANK, BLANK]]);
    assert_eq!(rule(&tables, &empty), None);
    let full = each(scan(0, 0), scan(1, 1));
    assert_eq!(rule(&tables, &full), Some(8));
    assert_eq!(rule(&tables, &each(scan(0, 0), select(NEVER, scan(1, 1)))), None);
    let open = each(scan(0, 0), select(number_test(0, Equal, 5), scan(1, 1)));
    assert_eq!(rule(&tables, &open), None);
}

#[test]
fn m8_the_listing() {
    let club = club();
    let text = "steps 3\nU2 0\nU7 0\nU4 0\nrows 2 columns 1\n7\n4\n";
    assert_eq!(listing(&club.set_bytes(), &club.plan_bytes(), ROOMY), text);
    let left = unnest(&club.set_bytes(), &club.plan_bytes(), ROOMY, ROOMY, ROOMY).expect("steps");
    let test = number_test(2, Greater, 30).not_turned();
    let counted = with_test(group(Aggregate::Count, 3, keys(0, Equal, 1), scan(1, 1)), test);
    let expected = project(&[0], select(number_test(3, Equal, 0), counted));
    assert_eq!(left.plan, write_plan(&expected));
}

#[test]
fn m9_another_order_of_cards() {
    let mut club = club();
    club.tables[1].rows = vec![vec![9, BLANK], vec![7, 36], vec![4, 31], vec![7, 33]];
    let (set, plan) = (club.set_bytes(), club.plan_bytes());
    assert_eq!(listing(&set, &plan, ROOMY), "steps 2\nU2 0\nU7 0\nrows 2 columns 1\n7\n4\n");
    assert_eq!(stay_note(&set, &plan, 0, ROOMY), Ok(None));
    let left = unnest(&set, &plan, ROOMY, ROOMY, ROOMY).expect("steps").plan;
    assert_eq!(stay_note(&set, &left, 0, ROOMY), Ok(Some(0)));
    assert_eq!(stay_note(&set, &left, 1, ROOMY), Ok(None));
    assert_eq!(stay_note(&set, &left, 200, ROOMY), Ok(None));
}

#[test]
fn the_table_of_refusals() {
    let unit = write_plan(&Plan::Unit);
    let number = |set: &[u8], plan: &[u8]| read(set, plan).err();
    assert_eq!(number(b"TB", &unit), Some(1));
    assert_eq!(number(b"TBX\x02\x00\x01\x00\x00", &unit), Some(2));
    assert_eq!(number(b"TBL\x02\x00\x11\x00\x00", &unit), Some(3));
    assert_eq!(number(&write_set(&[one_column(&[9_000_000_000_000_001])]), &unit), Some(4));
    assert_eq!(number(&write_set(&vec![sized(1, 1); 9]), &unit), Some(5));
    assert_eq!(number(&write_set(&vec![sized(1, 1); 8]), &unit), None);
    assert_eq!(number(b"", &unit[..5]), Some(6));
    assert_eq!(number(b"", b"RPT\x01\x00\x01"), Some(7));
    assert_eq!(number(b"", b"RPT\x02\x00\x00"), Some(8));
    assert_eq!(number(b"", b"RPT\x02\x00\x01"), Some(6));
    assert_eq!(number(b"", &[&b"RPT\x02\x00\x01\x0f"[..], &[0; 31]].concat()), Some(9));
    assert_eq!(number(b"", &[&b"RPT\x02\x00\x01\x02"[..], &[0; 31]].concat()), Some(10));
    assert_eq!(refusal(&[], &scan(0, 0)), Some(11));
    assert_eq!(refusal(&[sized(4, 1)], &project(&[3, 3], scan(0, 0))), Some(12));
    let wide = cross(cross(scan(0, 0), scan(0, 16)), scan(1, 32));
    assert_eq!(refusal(&[sized(16, 1), sized(1, 1)], &wide), Some(13));
    let (set, plan) = (write_set(&[sized(2, 1)]), write_plan(&scan(0, 0)));
    assert_eq!(report(&set, &plan, 1, ROOMY), Err(15));
    assert_eq!(report(&set, &plan, 1, 0), Err(16));
    assert_eq!(report(&set, &plan, 2, 4097), Err(16));
    assert_eq!(report(&set, &plan, 2, 4098).map(|report| report.codes), Ok(vec![0, 3]));
}

/// The table of two faults in docs/DEFINITION.md.
#[test]
fn of_two_faults_the_first_in_order_decides() {
    let unit = write_plan(&Plan::Unit);
    let number = |set: &[u8], plan: &[u8]| read(set, plan).err();
    let selects = select(ALWAYS, select(ALWAYS, select(ALWAYS, select(ALWAYS, Plan::Unit))));
    let mut childless = write_plan(&selects)[..HEADER + 4 * NODE].to_vec();
    childless[5] = 4;
    assert_eq!(number(b"", &childless), Some(10));
    childless[HEADER + 3 * NODE + 7] = 1;
    assert_eq!(number(b"", &childless), Some(9));
    let mut other_version = write_set(&[one_column(&[LARGEST + 1]), sized(1, 1)]);
    other_version[16 + 3] = 1;
    assert_eq!(number(&other_version, &unit), Some(4));
    assert_eq!(number(b"TBL", &unit[..5]), Some(1));
    assert_eq!(number(b"", b"RPT\x02\x00\x00\x00"), Some(8));
    let unseen = select(ALWAYS, select(number_test(9, Equal, 1), scan(5, 0)));
    assert_eq!(refusal(&[sized(1, 1)], &unseen), Some(11));
    let wide = cross(cross(scan(0, 0), scan(0, 16)), scan(1, 32));
    let tall = cross(scan(2, 40), scan(3, 41));
    let tables = [sized(16, 1), sized(1, 1), sized(1, 1000), sized(1, 5)];
    assert_eq!(refusal(&tables, &tall), Some(14));
    assert_eq!(refusal(&tables, &semi(0, 40, ALWAYS, wide, tall)), Some(13));
    assert_eq!(report(&write_set(&[sized(2, 1)]), &write_plan(&scan(0, 0)), 0, 0), Err(16));
}

#[test]
fn need_counts_every_node() {
    let tables = [sized(2, 3), sized(3, 5)];
    let plan = project(&[0], each(scan(0, 0), select(ALWAYS, scan(1, 2))));
    // Project 1, Each 75, Scan 6, Select 3, Scan 15.
    assert_eq!(need(&plan, &tables), 4096 + 1 + 75 + 6 + 3 + 15);
    assert_eq!(need(&Plan::Unit, &[]), 4096);
}

#[test]
fn aggregates() {
    let off = Aggregate::Greatest(0);
    assert_eq!(aggregate(&[BLANK, 3, -4], Aggregate::Count), 3);
    assert_eq!(aggregate(&[5, 3, -4], Aggregate::Sum(0)), 4);
    assert_eq!(aggregate(&[BLANK, 3, -4], Aggregate::Sum(0)), BLANK);
    assert_eq!(aggregate(&[BLANK], Aggregate::Sum(0)), BLANK);
    assert_eq!(aggregate(&[], Aggregate::Sum(0)), 0);
    assert_eq!(aggregate(&[BLANK], Aggregate::Least(0)), BLANK);
    assert_eq!(aggregate(&[], off), BLANK);
    assert_eq!(aggregate(&[BLANK, 3, -4], Aggregate::Least(0)), -4);
    assert_eq!(aggregate(&[BLANK, 3, -4], off), 3);
    // An off-scale cell wins, also where there is no number.
    for kind in [Aggregate::Sum(0), Aggregate::Least(0), off] {
        assert_eq!(aggregate(&[BLANK, OFF_SCALE], kind), OFF_SCALE);
        assert_eq!(aggregate(&[OFF_SCALE, -7], kind), OFF_SCALE);
    }
}

#[test]
fn group_never_matches_blank_with_blank() {
    let tables = [table(&[&[7, 1], &[BLANK, 2], &[7, 4], &[BLANK, 8], &[OFF_SCALE, 16]])];
    let sums = group(Aggregate::Sum(1), 9, keys(8, Equal, 0), scan(0, 0));
    assert_eq!(rows(&tables, &sums), [[7, 5], [BLANK, 0], [OFF_SCALE, 0]]);
    assert_eq!(columns(&sums, &tables), [8, 9]);
    // The value stands left of the comparison: over the rows whose key is smaller.
    let tables = [table(&[&[3, 1], &[2, 2], &[3, 4]])];
    let smaller = group(Aggregate::Sum(1), 9, keys(8, Greater, 0), scan(0, 0));
    assert_eq!(rows(&tables, &smaller), [[3, 2], [2, 0]]);
}

#[test]
fn sort_is_by_code_stable_upward_and_its_mirror_downward() {
    let tables = [table(&[&[1, 10], &[BLANK, 11], &[1, 12], &[OFF_SCALE, 13], &[-5, 14]])];
    let order =
        |down| -> Vec<i64> { rows(&tables, &sort(down, &[0], scan(0, 0))).into_iter().map(|row| row[1]).collect() };
    assert_eq!(order(false), [11, 14, 10, 12, 13]);
    assert_eq!(order(true), [13, 12, 10, 14, 11]);
}

#[test]
fn distinct_cuts_then_keeps_first_occurrences() {
    let tables = [table(&[&[1, BLANK], &[2, 5], &[3, BLANK], &[2, 5]])];
    assert_eq!(rows(&tables, &distinct(&[1], scan(0, 0))), [[BLANK], [5]]);
    assert_eq!(rows(&tables, &distinct(&[1, 0], scan(0, 0))), [[BLANK, 1], [5, 2], [BLANK, 3]]);
}

#[test]
fn unit_gives_one_row_of_no_columns() {
    let answer = report(b"", &write_plan(&Plan::Unit), 0, 4096).expect("a report");
    assert_eq!((answer.rows, answer.columns, answer.codes.len()), (1, 0, 0));
    assert_eq!(listing(b"", &write_plan(&Plan::Unit), ROOMY), "steps 0\nrows 1 columns 0\n\n");
}

#[test]
fn semi_and_anti_share_their_keys() {
    let tables = [one_column(&[1, BLANK, 2, 1]), table(&[&[1, 5], &[BLANK, 6], &[2, BLANK]])];
    let test = number_test(2, Less, 10);
    assert_eq!(rows(&tables, &semi(0, 1, test, scan(0, 0), scan(1, 1))), [[1], [1]]);
    assert_eq!(rows(&tables, &anti(0, 1, test, scan(0, 0), scan(1, 1))), [[BLANK], [2]]);
    assert_eq!(rows(&tables, &anti(0, 1, NEVER, scan(0, 0), scan(1, 1))).len(), 4);
}

/// Some over a Select that compares two columns.
fn quantified(test: Test) -> Plan {
    some(number_test(2, Greater, 30), distinct(&[0], scan(0, 0)), select(test, scan(1, 1)))
}

#[test]
fn u1_takes_either_way_round_but_no_not_mark() {
    let tables = club().tables;
    assert_eq!(rule(&tables, &quantified(columns_test(0, Equal, 1))), Some(1));
    assert_eq!(rule(&tables, &quantified(columns_test(1, Equal, 0))), Some(1));
    assert_eq!(rule(&tables, &quantified(columns_test(1, Equal, 0).not_turned())), None);
    assert_eq!(rule(&tables, &quantified(columns_test(0, AtMost, 1))), None);
    assert_eq!(rule(&tables, &quantified(columns_test(1, Equal, 2))), None);
    assert_eq!(rule(&tables, &quantified(columns_test(0, Equal, 0))), None);
    assert_eq!(rule(&tables, &quantified(number_test(1, Equal, 7))), None);
    let naming =
        some(ALWAYS, scan(0, 0), select(columns_test(0, Equal, 1), select(number_test(0, Less, 9), scan(1, 1))));
    assert_eq!(rule(&tables, &naming), None);
}

#[test]
fn u1_lets_the_inner_plan_name_rows_further_out() {
    let tables = club().tables;
    let inner = select(columns_test(0, Equal, 1), select(number_test(9, Less, 8), scan(1, 1)));
    let plan = some(ALWAYS, scan(0, 9), some(ALWAYS, scan(0, 0), inner));
    assert_eq!(refusal(&tables, &plan), None);
    assert_eq!(fit(&plan, 0, &tables), None);
    assert_eq!(fit(&plan, 2, &tables).map(|(rule, _)| rule), Some(1));
}

#[test]
fn u5_turns_the_comparison() {
    let tables = club().tables;
    for (written, kept) in
        [(Less, Greater), (AtMost, AtLeast), (Greater, Less), (AtLeast, AtMost), (Equal, Equal), (NotEqual, NotEqual)]
    {
        let inner = select(columns_test(1, written, 0), scan(1, 1));
        let plan = fold(Aggregate::Sum(2), 5, ALWAYS, scan(0, 0), inner);
        let expected = pair(Aggregate::Sum(2), 5, keys(0, kept, 1), scan(0, 0), scan(1, 1));
        assert_eq!(fit(&plan, 0, &tables), Some((5, expected.clone())));
        assert_eq!(rows(&tables, &plan), rows(&tables, &expected));
    }
}

#[test]
fn u7_moves_tests_that_name_only_f() {
    let tables = club().tables;
    let with = |test| semi(0, 1, test, scan(0, 0), scan(1, 1));
    assert_eq!(rule(&tables, &with(number_test(2, Less, 3))), Some(7));
    assert_eq!(rule(&tables, &with(NEVER)), Some(7));
    assert_eq!(rule(&tables, &with(columns_test(0, Less, 2))), None);
    assert_eq!(rule(&tables, &with(ALWAYS)), None);
    let after = semi(0, 1, ALWAYS, scan(0, 0), select(NEVER, scan(1, 1)));
    assert_eq!(try_step(&with(NEVER), 7, 0, &tables), after);
    // With 64 nodes there is no room for the Select.
    let mut full = with(NEVER);
    while full.size() < 64 {
        full = select(ALWAYS, full);
    }
    assert_eq!(refusal(&tables, &full), None);
    assert!((0..64).all(|place| fit(&full, place, &tables).is_none()));
    let Plan::Select { child, .. } = full else { panic!("a Select") };
    assert_eq!(fit(&child, 60, &tables).map(|(rule, _)| rule), Some(7));
}

#[test]
fn u3_takes_off_one_select_and_compares_codes() {
    let tables = [one_column(&[7, BLANK, 7]), table(&[&[7, 1], &[BLANK, 2], &[BLANK, 3]]), one_column(&[])];
    let of = |right| semi(0, 1, ALWAYS, distinct(&[0], scan(0, 0)), right);
    let plain = of(scan(1, 1));
    assert_eq!(rule(&tables, &plain), Some(3));
    assert_eq!(rows(&tables, &try_step(&plain, 3, 0, &tables)), [[7]]);
    assert_eq!(rule(&tables, &of(select(NEVER, scan(1, 1)))), Some(3));
    // A second Select stays, and changes the sequence.
    assert_eq!(rule(&tables, &of(select(ALWAYS, select(NEVER, scan(1, 1))))), None);
    assert_eq!(stay_position(&of(select(ALWAYS, select(NEVER, scan(1, 1)))), 0, &tables), Some(0));
    // Two empty sequences are equal.
    let empty = semi(0, 1, ALWAYS, distinct(&[0], scan(2, 0)), scan(2, 1));
    assert_eq!(rule(&tables, &empty), Some(3));
    // A test of the Select that names a row outside: f is not closed.
    let outside = some(ALWAYS, scan(1, 10), of(select(number_test(10, Equal, 7), scan(1, 1))));
    assert_eq!(refusal(&tables, &outside), None);
    assert_eq!(fit(&outside, 2, &tables), None);
    assert_eq!(stay_position(&outside, 2, &tables), None);
}

#[test]
fn u3_takes_the_smallest_id_of_the_plan_before() {
    let tables = [table(&[&[7, 1]])];
    let plan = semi(4, 2, ALWAYS, distinct(&[4], scan(0, 3)), scan(0, 1));
    assert_eq!(free_id(&plan, &tables), Some(0));
    let plan = semi(0, 2, ALWAYS, distinct(&[0], scan(0, 0)), scan(0, 2));
    // Ids 0 to 3 are introduced, 1 only in e, which goes away: c is 4 nevertheless.
    let counted = group(Aggregate::Count, 4, keys(0, Equal, 2), scan(0, 2));
    let expected = project(&[0], select(number_test(4, Greater, 0), counted));
    assert_eq!(fit(&plan, 0, &tables), Some((3, expected)));
}

#[test]
fn u6_takes_off_no_select() {
    let tables = club().tables;
    let left = || distinct(&[0], scan(0, 0));
    let plan = pair(Aggregate::Sum(2), 5, keys(0, Less, 1), left(), scan(1, 1));
    let expected = group(Aggregate::Sum(2), 5, keys(0, Less, 1), scan(1, 1));
    assert_eq!(fit(&plan, 0, &tables), Some((6, expected)));
    let never = pair(Aggregate::Sum(2), 5, keys(0, Less, 1), left(), select(NEVER, scan(1, 1)));
    assert_eq!(rule(&tables, &never), None);
    assert_eq!(stay_position(&never, 0, &tables), Some(0));
    let shorter = select(number_test(1, Greater, 4), scan(1, 1));
    let shorter = pair(Aggregate::Sum(2), 5, keys(0, Less, 1), left(), shorter);
    assert_eq!(stay_position(&shorter, 0, &tables), Some(2));
    let naming = with_test(plan.clone(), columns_test(0, Less, 2));
    assert_eq!(rule(&tables, &naming), None);
    assert_eq!(stay_position(&naming, 0, &tables), None);
    assert_eq!(rule(&tables, &with_test(plan, NEVER)), Some(6));
}

#[test]
fn a_bound_that_grows_over_the_limit_keeps_a_rule_from_fitting() {
    let keyed = |height: usize| one_column(&(0..height).map(|row| (row % 4) as i64).collect::<Vec<_>>());
    let semi = semi(0, 1, ALWAYS, distinct(&[0], scan(0, 0)), scan(1, 1));
    let plan = cross(semi, scan(2, 2));
    let other = sized(1, 64);
    assert_eq!(fit(&plan, 1, &[keyed(4), keyed(64), other.clone()]).map(|(rule, _)| rule), Some(3));
    assert_eq!(fit(&plan, 1, &[keyed(4), keyed(65), other.clone()]), None);
    // No stay note either where the plan after would be refused.
    assert_eq!(stay_position(&plan, 1, &[keyed(3), keyed(65), other.clone()]), None);
    assert_eq!(stay_position(&plan, 1, &[keyed(3), keyed(64), other]), Some(3));
}

/// A Fold, a Pair and a Group over the cards of table 0: each player, and the aggregate of the scores on cards that count and with whose
/// player this one compares so.
fn by_player(aggregate: Aggregate, comparison: Comparison) -> [Plan; 3] {
    let counts = number_test(11, Equal, 1);
    let players = || distinct(&[0], scan(0, 0));
    let inner = select(columns_test(0, comparison, 10), scan(0, 10));
    [
        fold(aggregate, 20, counts, players(), inner),
        with_test(pair(aggregate, 20, keys(0, comparison, 10), players(), scan(0, 10)), counts),
        with_test(group(aggregate, 20, keys(0, comparison, 10), scan(0, 10)), counts),
    ]
}

/// Checks that the Fold, the Pair and the Group give these rows of a player and an aggregate.
fn all_three_give(cards: &Table, aggregate: Aggregate, comparison: Comparison, expected: &[[i64; 2]]) {
    for plan in by_player(aggregate, comparison) {
        assert_eq!(rows(&[cards.clone()], &plan), expected, "{plan:?}");
    }
}

#[test]
fn k2_a_blank_that_passes_makes_the_sum_blank() {
    // First, between and last; alone and twice; none.
    let scores: [(i64, &[i64]); 6] =
        [(7, &[BLANK, 36]), (9, &[40, BLANK, 2]), (4, &[31, BLANK]), (5, &[BLANK]), (6, &[BLANK; 2]), (8, &[20, -50])];
    let cards = cards(&scores, &[]);
    let totals = [[7, BLANK], [9, BLANK], [4, BLANK], [5, BLANK], [6, BLANK], [8, -30]];
    all_three_give(&cards, Aggregate::Sum(12), Equal, &totals);
    let counts = [[7, 2], [9, 3], [4, 2], [5, 1], [6, 2], [8, 2]];
    all_three_give(&cards, Aggregate::Count, Equal, &counts);
    let least = [[7, 36], [9, 2], [4, 31], [5, BLANK], [6, BLANK], [8, -50]];
    all_three_give(&cards, Aggregate::Least(12), Equal, &least);
    let greatest = [[7, 36], [9, 40], [4, 31], [5, BLANK], [6, BLANK], [8, 20]];
    all_three_give(&cards, Aggregate::Greatest(12), Equal, &greatest);
}

#[test]
fn k2_a_blank_that_fails_the_test_counts_nowhere() {
    // A = with a blank side fails too. Where no row passes the sum is 0.
    let cards = table(&[&[7, 0, BLANK], &[7, 1, 36], &[9, BLANK, BLANK], &[7, 1, 4], &[4, 1, BLANK], &[7, 2, BLANK]]);
    all_three_give(&cards, Aggregate::Sum(12), Equal, &[[7, 40], [9, 0], [4, BLANK]]);
    all_three_give(&cards, Aggregate::Count, Equal, &[[7, 2], [9, 0], [4, 1]]);
    all_three_give(&cards, Aggregate::Least(12), Equal, &[[7, 4], [9, BLANK], [4, BLANK]]);
    all_three_give(&cards, Aggregate::Greatest(12), Equal, &[[7, 36], [9, BLANK], [4, BLANK]]);
}

#[test]
fn k2_a_blank_whose_key_is_not_met_counts_nowhere() {
    // By = a blank or off-scale key is met by no value, its own row's included.
    let cards = table(&[&[BLANK, 1, BLANK], &[7, 1, 3], &[OFF_SCALE, 1, BLANK], &[BLANK, 1, 5], &[9, 1, BLANK]]);
    let expected = [[BLANK, 0], [7, 3], [OFF_SCALE, 0], [9, BLANK]];
    all_three_give(&cards, Aggregate::Sum(12), Equal, &expected);
    // Each value over the smaller keys, over the others, and over those from itself on.
    let cards = table(&[&[3, 1, 10], &[2, 1, BLANK], &[1, 1, 5], &[3, 1, 4]]);
    all_three_give(&cards, Aggregate::Sum(12), Greater, &[[3, BLANK], [2, 5], [1, 0]]);
    all_three_give(&cards, Aggregate::Sum(12), NotEqual, &[[3, BLANK], [2, 19], [1, BLANK]]);
    all_three_give(&cards, Aggregate::Sum(12), AtMost, &[[3, 14], [2, BLANK], [1, BLANK]]);
}

#[test]
fn k2_off_scale_wins_over_a_blank_in_both_orders() {
    let scores: [(i64, &[i64]); 5] = [
        (1, &[OFF_SCALE, BLANK]),
        (2, &[BLANK, OFF_SCALE]),
        (3, &[BLANK, 5, OFF_SCALE, BLANK]),
        (4, &[BLANK]),
        (5, &[OFF_SCALE]),
    ];
    // Off scale on a card that does not count, and a blank on one.
    let cards = cards(&scores, &[(4, OFF_SCALE), (5, BLANK)]);
    let expected = [[1, OFF_SCALE], [2, OFF_SCALE], [3, OFF_SCALE], [4, BLANK], [5, OFF_SCALE]];
    for aggregate in [Aggregate::Sum(12), Aggregate::Least(12), Aggregate::Greatest(12)] {
        all_three_give(&cards, aggregate, Equal, &expected);
    }
    all_three_give(&cards, Aggregate::Count, Equal, &[[1, 2], [2, 2], [3, 4], [4, 1], [5, 1]]);
}

#[test]
fn k2_a_blank_is_decided_before_the_range_of_the_total() {
    let scores: [(i64, &[i64]); 5] = [
        (1, &[LARGEST, 1, BLANK]),
        (2, &[-1, BLANK, -LARGEST]),
        // With no blank that counts the range decides, by the exact total.
        (3, &[LARGEST, 1]),
        (4, &[-LARGEST, -1]),
        (5, &[LARGEST, 1, -1]),
    ];
    let cards = cards(&scores, &[(3, BLANK)]);
    let totals = [[1, BLANK], [2, BLANK], [3, OFF_SCALE], [4, OFF_SCALE], [5, LARGEST]];
    all_three_give(&cards, Aggregate::Sum(12), Equal, &totals);
    let least = [[1, 1], [2, -LARGEST], [3, 1], [4, -LARGEST], [5, -1]];
    all_three_give(&cards, Aggregate::Least(12), Equal, &least);
    let greatest = [[1, LARGEST], [2, -1], [3, LARGEST], [4, -1], [5, LARGEST]];
    all_three_give(&cards, Aggregate::Greatest(12), Equal, &greatest);
    // 999 of the largest number, and a blank before or behind them.
    let tall = [LARGEST; 999];
    assert_eq!(aggregate(&[&tall[..], &[BLANK]].concat(), Aggregate::Sum(0)), BLANK);
    assert_eq!(aggregate(&[&[BLANK], &tall[..]].concat(), Aggregate::Sum(0)), BLANK);
}

#[test]
fn k2_no_rows_at_all_give_0() {
    let tables = [one_column(&[7, BLANK]), Table { columns: 3, rows: vec![] }];
    let sum = Aggregate::Sum(12);
    assert_eq!(rows(&tables, &fold(sum, 20, ALWAYS, scan(0, 0), scan(1, 10))), [[7, 0], [BLANK, 0]]);
    assert_eq!(rows(&tables, &pair(sum, 20, keys(0, Equal, 10), scan(0, 0), scan(1, 10))), [[7, 0], [BLANK, 0]]);
    all_three_give(&tables[1], sum, Equal, &[]);
    // Rows that all fail.
    let cards = table(&[&[7, 0, BLANK], &[9, 0, OFF_SCALE], &[7, 0, 5]]);
    all_three_give(&cards, sum, Equal, &[[7, 0], [9, 0]]);
}

#[test]
fn k2_sums_over_the_blanks_of_an_each() {
    let tables = [one_column(&[7, 9, 4]), table(&[&[7, 36], &[4, OFF_SCALE], &[7, 2]])];
    let cards_of = |player| select(columns_test(player, Equal, 1), scan(1, 1));
    let eaches = || each(scan(0, 0), cards_of(0));
    assert_eq!(rows(&tables, &eaches()), [[7, 7, 36], [7, 7, 2], [9, BLANK, BLANK], [4, 4, OFF_SCALE]]);
    let grouped = group(Aggregate::Sum(2), 9, keys(8, Equal, 0), eaches());
    assert_eq!(rows(&tables, &grouped), [[7, 38], [9, BLANK], [4, OFF_SCALE]]);
    let paired = pair(Aggregate::Sum(2), 9, keys(8, Equal, 0), scan(0, 8), eaches());
    assert_eq!(rows(&tables, &paired), [[7, 38], [9, BLANK], [4, OFF_SCALE]]);
    // The player's own id is never blank; the card's is.
    assert_eq!(rows(&tables, &fold(Aggregate::Sum(0), 9, ALWAYS, Plan::Unit, eaches())), [[27]]);
    assert_eq!(rows(&tables, &fold(Aggregate::Sum(1), 9, ALWAYS, Plan::Unit, eaches())), [[BLANK]]);
    let below_40 = fold(Aggregate::Sum(2), 9, number_test(2, Less, 40), Plan::Unit, eaches());
    assert_eq!(rows(&tables, &below_40), [[38]]);
    // A player without cards: no row gives 0, the row of an Each gives blank.
    let bare = fold(Aggregate::Sum(2), 9, ALWAYS, scan(0, 8), cards_of(8));
    assert_eq!(rows(&tables, &bare), [[7, 38], [9, 0], [4, OFF_SCALE]]);
    let inside = fold(Aggregate::Sum(2), 9, ALWAYS, scan(0, 8), each(Plan::Unit, cards_of(8)));
    assert_eq!(rows(&tables, &inside), [[7, 38], [9, BLANK], [4, OFF_SCALE]]);
}

#[test]
fn k2_sums_over_sums() {
    // Clubs with their players, and cards.
    let clubs = table(&[&[1, 7], &[1, 9], &[2, 4], &[2, 5], &[3, 6]]);
    let cards = table(&[&[7, 36], &[9, BLANK], &[4, LARGEST], &[4, 1], &[5, BLANK], &[6, 3], &[6, 4]]);
    let tables = [clubs, cards];
    let paired = || pair(Aggregate::Sum(11), 20, keys(1, Equal, 10), scan(0, 0), scan(1, 10));
    let of_players = [[1, 7, 36], [1, 9, BLANK], [2, 4, OFF_SCALE], [2, 5, BLANK], [3, 6, 7]];
    assert_eq!(rows(&tables, &paired()), of_players);
    let of_clubs = group(Aggregate::Sum(20), 30, keys(31, Equal, 0), paired());
    assert_eq!(rows(&tables, &of_clubs), [[1, BLANK], [2, OFF_SCALE], [3, 7]]);
    let of_all = |test, sums: &Plan| rows(&tables, &fold(Aggregate::Sum(20), 40, test, Plan::Unit, sums.clone()));
    assert_eq!(of_all(ALWAYS, &paired()), [[OFF_SCALE]]);
    assert_eq!(of_all(number_test(0, NotEqual, 2), &paired()), [[BLANK]]);
    assert_eq!(of_all(number_test(20, Less, 100), &paired()), [[43]]);
    // A Group over a Group: for each player the total of that player and of all with a larger number, or a smaller one.
    let grouped = group(Aggregate::Sum(11), 20, keys(21, Equal, 10), scan(1, 10));
    assert_eq!(rows(&tables, &grouped), [[7, 36], [9, BLANK], [4, OFF_SCALE], [5, BLANK], [6, 7]]);
    let larger = group(Aggregate::Sum(20), 40, keys(41, AtMost, 21), grouped.clone());
    assert_eq!(rows(&tables, &larger), [[7, BLANK], [9, BLANK], [4, OFF_SCALE], [5, BLANK], [6, BLANK]]);
    let over_5 = select(number_test(21, Greater, 5), grouped);
    let smaller = group(Aggregate::Sum(20), 40, keys(41, AtLeast, 21), over_5);
    assert_eq!(rows(&tables, &smaller), [[7, 43], [9, BLANK], [6, 7]]);
}

#[test]
fn k2_a_blank_sum_is_a_blank_cell_above() {
    let cards = table(&[&[7, 1, 36], &[9, 1, BLANK], &[4, 1, -3], &[5, 1, 1], &[5, 1, BLANK], &[6, 1, OFF_SCALE]]);
    let below_0 = number_test(20, Less, 0);
    for plan in by_player(Aggregate::Sum(12), Equal) {
        let above = |plan: &Plan| rows(&[cards.clone()], plan);
        assert_eq!(above(&plan), [[7, 36], [9, BLANK], [4, -3], [5, BLANK], [6, OFF_SCALE]]);
        assert_eq!(above(&select(below_0, plan.clone())), [[4, -3]]);
        let not_below_0 = [[7, 36], [9, BLANK], [5, BLANK], [6, OFF_SCALE]];
        assert_eq!(above(&select(below_0.not_turned(), plan.clone())), not_below_0);
        let upward = [[9, BLANK], [5, BLANK], [4, -3], [7, 36], [6, OFF_SCALE]];
        assert_eq!(above(&sort(false, &[20], plan.clone())), upward);
        assert_eq!(above(&distinct(&[20], plan)), [[36], [BLANK], [-3], [OFF_SCALE]]);
    }
}

#[test]
fn k2_unnesting_keeps_a_blank_sum() {
    let tables = [table(&[&[7, 1, 36], &[9, 1, BLANK], &[7, 1, BLANK], &[4, 0, BLANK], &[4, 1, 31]])];
    let [folded, paired, grouped] = by_player(Aggregate::Sum(12), Equal);
    let totals = [[7, BLANK], [9, BLANK], [4, 31]];
    // U5 makes the Pair of the Fold, and U6 the Group of the Pair.
    assert_eq!(try_step(&folded, 5, 0, &tables), paired);
    assert_eq!(fit(&paired, 0, &tables), Some((6, grouped.clone())));
    let left = unnest(&write_set(&tables), &write_plan(&folded), ROOMY, ROOMY, ROOMY).expect("steps");
    assert_eq!(left.steps, [(5, 0), (6, 0)]);
    assert_eq!(left.plan, write_plan(&grouped));
    for plan in [folded, paired, grouped] {
        assert_eq!(rows(&tables, &plan), totals);
    }
}

/// Tables of one column with these many rows.
fn of_heights(heights: &[usize]) -> Vec<Table> {
    heights.iter().map(|&height| sized(1, height)).collect()
}

#[test]
fn k5_a_bound_is_judged_by_the_exact_product() {
    let two = [cross(scan(0, 0), scan(1, 1)), each(scan(0, 0), scan(1, 1))];
    let three = [
        cross(cross(scan(0, 0), scan(1, 1)), scan(2, 2)),
        cross(scan(0, 0), cross(scan(1, 1), scan(2, 2))),
        each(cross(scan(0, 0), scan(1, 1)), scan(2, 2)),
        each(scan(0, 0), cross(scan(1, 1), scan(2, 2))),
    ];
    // 4,096, and 17 x 241 = 4,097; then 65,536, 65,792 and 1,000,000, which are 0, 256 and 16,960 in 16 bits.
    for plan in &two {
        assert_eq!(refusal(&of_heights(&[64, 64]), plan), None);
        for heights in [[17, 241], [256, 256], [257, 256], [1000, 1000]] {
            assert_eq!(refusal(&of_heights(&heights), plan), Some(14), "{heights:?}");
        }
    }
    for plan in &three {
        assert_eq!(refusal(&of_heights(&[16, 16, 16]), plan), None);
        assert_eq!(refusal(&of_heights(&[64, 64, 16]), plan), Some(14));
        assert_eq!(refusal(&of_heights(&[16, 64, 64]), plan), Some(14));
    }
}

#[test]
fn k5_a_factor_of_0_hides_no_bound_below_it() {
    let (product, inner) = (cross(scan(0, 0), scan(1, 1)), each(scan(0, 0), scan(1, 1)));
    assert_eq!(rows(&of_heights(&[0, 1000]), &product).len(), 0);
    assert_eq!(rows(&of_heights(&[1000, 0]), &product).len(), 0);
    assert_eq!(rows(&of_heights(&[0, 1000]), &inner).len(), 0);
    // An Each counts an inner bound of 0 as 1.
    assert_eq!(rows(&of_heights(&[1000, 0]), &inner).len(), 1000);
    let over_none = each(cross(scan(0, 0), scan(1, 1)), scan(2, 2));
    assert_eq!(rows(&of_heights(&[64, 64, 0]), &over_none).len(), 4096);
    assert_eq!(refusal(&of_heights(&[65, 64, 0]), &over_none), Some(14));
    let tables = of_heights(&[0, 65, 64]);
    let tall = || cross(scan(1, 1), scan(2, 2));
    for plan in [cross(scan(0, 0), tall()), cross(tall(), scan(0, 0)), each(scan(0, 0), tall())] {
        assert_eq!(refusal(&tables, &plan), Some(14));
    }
}

#[test]
fn k5_12_and_13_in_the_whole_plan_come_before_14() {
    let tables = [sized(1, 256), sized(16, 1)];
    let tall = || cross(scan(0, 0), scan(0, 1));
    let wide = cross(cross(scan(1, 10), scan(1, 30)), scan(0, 2));
    assert_eq!(refusal(&tables, &some(ALWAYS, tall(), Plan::Unit)), Some(14));
    assert_eq!(refusal(&tables, &some(ALWAYS, tall(), wide.clone())), Some(13));
    let unseen = select(number_test(99, Equal, 1), wide);
    assert_eq!(refusal(&tables, &some(ALWAYS, tall(), unseen)), Some(12));
}

/// The note for a Semi, an Anti and a Pair, the same for all three, where e's cells and the right keys are these.
fn note(cells: &[i64], right_keys: &[i64]) -> Option<usize> {
    let tables = [one_column(cells), one_column(right_keys)];
    note_of(&tables, (&distinct(&[0], scan(0, 0)), 0), (&scan(1, 1), 1))
}

/// The note for a Semi, an Anti and a Pair of e, a closed Distinct of its key, and a closed f with its key. Without a note their rules
/// fit: nothing but the sequences can keep them from it.
fn note_of(tables: &[Table], (e, left_key): (&Plan, u8), (f, right_key): (&Plan, u8)) -> Option<usize> {
    let semi = semi(left_key, right_key, ALWAYS, e.clone(), f.clone());
    let anti = anti(left_key, right_key, ALWAYS, e.clone(), f.clone());
    let pair = pair(Aggregate::Count, 5, keys(left_key, NotEqual, right_key), e.clone(), f.clone());
    let notes = [(3, semi), (4, anti), (6, pair)].map(|(number, plan)| {
        let note = stay_note(&write_set(tables), &write_plan(&plan), 0, ROOMY).expect("an accepted plan");
        assert_eq!(rule(tables, &plan), note.is_none().then_some(number));
        note
    });
    assert!(notes.iter().all(|note| *note == notes[0]), "{notes:?}");
    notes[0]
}

#[test]
fn k8_a_note_gives_the_smallest_position() {
    // They differ at 0 alone and from 0 on; later, at one position and at several, with equal values in between.
    assert_eq!(note(&[7], &[9]), Some(0));
    assert_eq!(note(&[7, 9], &[9, 7]), Some(0));
    assert_eq!(note(&[7, 9, 4], &[7, 9, 5]), Some(2));
    assert_eq!(note(&[7, 9, 4, 5], &[7, 9, 5, 4]), Some(2));
    assert_eq!(note(&[1, 2, 3, 4, 5], &[1, 8, 3, 9, 5]), Some(1));
    // Just one has ended: the first, the second, one of no values at all.
    assert_eq!(note(&[7, 9], &[7, 9, 4, 5]), Some(2));
    assert_eq!(note(&[7, 9, 4, 5], &[7, 9]), Some(2));
    assert_eq!(note(&[], &[7, 9]), Some(0));
    assert_eq!(note(&[7, 9], &[]), Some(0));
    // They differ before one ends.
    assert_eq!(note(&[7, 9, 4], &[7, 5]), Some(1));
    assert_eq!(note(&[7, 5], &[7, 9, 4]), Some(1));
    // Positions count values, not rows.
    assert_eq!(note(&[7, 7, 9, 7, 4], &[7, 9, 9, 5]), Some(2));
    assert_eq!(note(&[7, 7, 9], &[7, 9, 9, 7]), None);
    assert_eq!(note(&[], &[]), None);
    // The last position of the tallest tables.
    let tall: Vec<i64> = (0..1000).collect();
    assert_eq!(note(&tall, &tall[..999]), Some(999));
    assert_eq!(note(&[&tall[..999], &[-1]].concat(), &tall), Some(999));
}

#[test]
fn k8_codes_decide_where_the_sequences_differ() {
    // A blank is no difference from a blank, nor off scale from off scale.
    assert_eq!(note(&[BLANK, OFF_SCALE, 7], &[BLANK, OFF_SCALE, 7]), None);
    assert_eq!(note(&[BLANK, OFF_SCALE, 7], &[BLANK, OFF_SCALE, 9]), Some(2));
    // A blank differs from off scale and from a number, and so does off scale.
    assert_eq!(note(&[7, BLANK], &[7, OFF_SCALE]), Some(1));
    assert_eq!(note(&[7, OFF_SCALE], &[7, BLANK]), Some(1));
    assert_eq!(note(&[7, BLANK, 4], &[7, 0, 4]), Some(1));
    assert_eq!(note(&[7, 0, 4], &[7, BLANK, 4]), Some(1));
    assert_eq!(note(&[OFF_SCALE], &[LARGEST]), Some(0));
    assert_eq!(note(&[LARGEST], &[OFF_SCALE]), Some(0));
    // A blank is a value, not an end.
    assert_eq!(note(&[7, BLANK], &[7]), Some(1));
    assert_eq!(note(&[7], &[7, BLANK]), Some(1));
}

#[test]
fn k9_the_whole_table_of_comparisons() {
    // Two sides, and which of the six comparisons hold of them.
    let sides: [(i64, i64, &[Comparison]); 11] = [
        (3, 4, &[NotEqual, Less, AtMost]),
        (4, 4, &[Equal, AtMost, AtLeast]),
        (4, 3, &[NotEqual, Greater, AtLeast]),
        (4, BLANK, &[NotEqual]),
        (BLANK, 4, &[NotEqual]),
        (BLANK, BLANK, &[]),
        (4, OFF_SCALE, &[]),
        (OFF_SCALE, 4, &[]),
        (BLANK, OFF_SCALE, &[]),
        (OFF_SCALE, BLANK, &[]),
        (OFF_SCALE, OFF_SCALE, &[]),
    ];
    let check = |left, right, holding: &[Comparison]| {
        for comparison in COMPARISONS {
            let expected = holding.contains(&comparison);
            assert_eq!(comparison.holds(left, right), expected, "{left} {comparison:?} {right}");
            assert_eq!(comparison.turned().holds(right, left), expected, "{right} turned {comparison:?} {left}");
        }
    };
    for (left, right, holding) in sides {
        check(left, right, holding);
    }
    // A blank beside the numbers at the ends of the range and around 0.
    for number in [-LARGEST, -1, 0, 1, LARGEST] {
        check(BLANK, number, &[NotEqual]);
        check(OFF_SCALE, number, &[]);
    }
}

#[test]
fn k9_handicap_not_10_includes_members_without_a_handicap() {
    let members = [10, 12, BLANK, OFF_SCALE, 10];
    let kept = |test| rows(&[one_column(&members)], &select(test, scan(0, 0))).concat();
    let (is_10, not_10) = (number_test(0, Equal, 10), number_test(0, NotEqual, 10));
    assert_eq!(kept(not_10), [12, BLANK]);
    assert_eq!(kept(not_10.not_turned()), [10, OFF_SCALE, 10]);
    // = and ≠ are no complements of each other: off scale is neither.
    assert_eq!(kept(is_10), [10, 10]);
    assert_eq!(kept(is_10.not_turned()), [12, BLANK, OFF_SCALE]);
    for number in [-LARGEST, 0, LARGEST] {
        assert_eq!(kept(number_test(0, NotEqual, number)), [10, 12, BLANK, 10]);
    }
}

#[test]
fn k9_two_columns_that_are_not_equal() {
    let same = table(&[&[7, 7], &[BLANK, BLANK], &[OFF_SCALE, OFF_SCALE]]);
    let beside_off_scale = table(&[&[OFF_SCALE, 7], &[7, OFF_SCALE], &[BLANK, OFF_SCALE], &[OFF_SCALE, BLANK]]);
    let different = table(&[&[7, 9], &[BLANK, 7], &[7, BLANK]]);
    let kept = |table: &Table, test| rows(&[table.clone()], &select(test, scan(0, 0)));
    for test in [columns_test(0, NotEqual, 1), columns_test(1, NotEqual, 0)] {
        assert_eq!(kept(&different, test), different.rows);
        assert_eq!(kept(&different, test.not_turned()).len(), 0);
        for table in [&same, &beside_off_scale] {
            assert_eq!(kept(table, test).len(), 0);
            assert_eq!(kept(table, test.not_turned()), table.rows);
        }
    }
    // A column with itself.
    let itself = columns_test(0, NotEqual, 0);
    assert_eq!(kept(&different, itself).len(), 0);
    assert_eq!(kept(&different, itself.not_turned()), different.rows);
}

/// Checks that unnesting takes these rules, each at place 0, and that all plans on the way give these rows.
fn unnests_by<const WIDTH: usize>(tables: &[Table], plan: &Plan, rules: &[u8], expected: &[[i64; WIDTH]]) {
    let (steps, passed) = unnest_tree(plan, tables);
    assert_eq!(steps, rules.iter().map(|&rule| (rule, 0)).collect::<Vec<_>>());
    for plan in passed {
        assert_eq!(rows(tables, &plan), expected, "{plan:?}");
    }
}

#[test]
fn k9_some_and_every_with_a_number() {
    let scores: [(i64, &[i64]); 6] =
        [(7, &[36, BLANK]), (9, &[10, BLANK]), (4, &[BLANK]), (5, &[10]), (6, &[OFF_SCALE, 12]), (8, &[OFF_SCALE])];
    let tables = [cards(&scores, &[])];
    let players = || distinct(&[0], scan(0, 0));
    let cards_of = || select(columns_test(0, Equal, 10), scan(0, 10));
    let (is_10, not_10) = (number_test(12, Equal, 10), number_test(12, NotEqual, 10));
    let of_all = |test| every(test, players(), cards_of());
    let of_one = |test| some(test, players(), cards_of());
    // A blank card passes, an off-scale one does not; not-marked it is the other way round.
    unnests_by(&tables, &of_all(not_10), &[2, 7, 4], &[[7], [4]]);
    unnests_by(&tables, &of_all(not_10.not_turned()), &[2, 7, 4], &[[5], [8]]);
    unnests_by(&tables, &of_one(not_10), &[1, 7, 3], &[[7], [9], [4], [6]]);
    unnests_by(&tables, &of_one(not_10.not_turned()), &[1, 7, 3], &[[9], [5], [6], [8]]);
    // Off scale is neither equal nor not equal, so U2 turns the not-mark and leaves the comparison as it is; U7 moves the test so.
    unnests_by(&tables, &of_all(is_10), &[2, 7, 4], &[[5]]);
    unnests_by(&tables, &of_all(is_10.not_turned()), &[2, 7, 4], &[[7], [4], [6], [8]]);
    for test in [not_10, not_10.not_turned(), is_10] {
        let without = anti(0, 10, test.not_turned(), players(), scan(0, 10));
        assert_eq!(fit(&of_all(test), 0, &tables), Some((2, without.clone())));
        let moved = anti(0, 10, ALWAYS, players(), select(test.not_turned(), scan(0, 10)));
        assert_eq!(fit(&without, 0, &tables), Some((7, moved)));
    }
}

#[test]
fn k9_some_and_every_with_a_column_of_the_left_row() {
    // Members with their handicaps, and their cards.
    let members = table(&[&[1, 10], &[2, BLANK], &[3, BLANK], &[4, OFF_SCALE], &[5, 10]]);
    let scores: [(i64, &[i64]); 5] =
        [(1, &[12, BLANK]), (2, &[10, 12]), (3, &[BLANK, 10]), (4, &[10, BLANK]), (5, &[OFF_SCALE, BLANK])];
    let tables = [members, cards(&scores, &[])];
    let cards_of = || select(columns_test(0, Equal, 10), scan(1, 10));
    for test in [columns_test(1, NotEqual, 12), columns_test(12, NotEqual, 1)] {
        let of_all = |test| every(test, scan(0, 0), cards_of());
        unnests_by(&tables, &of_all(test), &[2], &[[1, 10], [2, BLANK]]);
        unnests_by(&tables, &of_all(test.not_turned()), &[2], &[[4, OFF_SCALE]]);
        let of_one = |test| some(test, scan(0, 0), cards_of());
        unnests_by(&tables, &of_one(test), &[1], &[[1, 10], [2, BLANK], [3, BLANK], [5, 10]]);
        unnests_by(&tables, &of_one(test.not_turned()), &[1], &[[3, BLANK], [4, OFF_SCALE], [5, 10]]);
    }
}

/// Checks count, sum and least that the Fold, the Pair and the Group give each player, over the player's cards that pass a test.
fn all_three_give_under(cards: &Table, test: Test, expected: &[[i64; 4]]) {
    let aggregates = [Aggregate::Count, Aggregate::Sum(12), Aggregate::Least(12)];
    for (place, aggregate) in aggregates.into_iter().enumerate() {
        let of_players: Vec<[i64; 2]> = expected.iter().map(|row| [row[0], row[1 + place]]).collect();
        for plan in by_player(aggregate, Equal) {
            assert_eq!(rows(&[cards.clone()], &with_test(plan, test)), of_players, "{aggregate:?}, {test:?}");
        }
    }
}

#[test]
fn k9_aggregates_of_the_rows_that_pass() {
    // A player, a handicap and a score.
    let cards = table(&[
        &[7, 10, 1],
        &[7, BLANK, 2],
        &[7, 12, 4],
        &[9, BLANK, 5],
        &[9, OFF_SCALE, 3],
        &[4, OFF_SCALE, 9],
        &[4, 10, 8],
        &[5, BLANK, BLANK],
        &[5, 11, 6],
        &[6, 3, BLANK],
        &[6, 4, 4],
    ]);
    let not_10 = number_test(11, NotEqual, 10);
    let passing = [[7, 2, 6, 2], [9, 1, 5, 5], [4, 0, 0, BLANK], [5, 2, BLANK, 6], [6, 2, BLANK, 4]];
    all_three_give_under(&cards, not_10, &passing);
    let others = [[7, 1, 1, 1], [9, 1, 3, 3], [4, 2, 17, 8], [5, 0, 0, BLANK], [6, 0, 0, BLANK]];
    all_three_give_under(&cards, not_10.not_turned(), &others);
    // The handicap with the score.
    let two_columns = columns_test(11, NotEqual, 12);
    let passing = [[7, 3, 7, 1], [9, 1, 5, 5], [4, 1, 8, 8], [5, 1, 6, 6], [6, 1, BLANK, BLANK]];
    all_three_give_under(&cards, two_columns, &passing);
    let others = [[7, 0, 0, BLANK], [9, 1, 3, 3], [4, 1, 9, 9], [5, 1, BLANK, BLANK], [6, 1, 4, 4]];
    all_three_give_under(&cards, two_columns.not_turned(), &others);
    // The score itself: a blank one passes, and makes the sum blank.
    let not_8 = number_test(12, NotEqual, 8);
    let passing = [[7, 3, 7, 1], [9, 2, 8, 3], [4, 1, 9, 9], [5, 2, BLANK, 6], [6, 2, BLANK, 4]];
    all_three_give_under(&cards, not_8, &passing);
}

/// Cards of players, some of them without a number, and one card that does not count.
fn cards_of_anybody() -> Table {
    table(&[&[7, 1, 1], &[BLANK, 1, 2], &[9, 1, 4], &[OFF_SCALE, 1, 8], &[BLANK, 1, 16], &[7, 1, 32], &[BLANK, 0, 64]])
}

#[test]
fn k9_keys_that_are_not_equal() {
    let cards = cards_of_anybody();
    // A blank value meets the numbers, a number meets the blanks and the other numbers, off scale meets nothing. U5 makes the Pair of the
    // Fold, and U6 the Group of the Pair, with a blank among the keys.
    let [folded, ..] = by_player(Aggregate::Sum(12), NotEqual);
    unnests_by(&[cards.clone()], &folded, &[5, 6], &[[7, 22], [BLANK, 37], [9, 51], [OFF_SCALE, 0]]);
    all_three_give(&cards, Aggregate::Count, NotEqual, &[[7, 3], [BLANK, 3], [9, 4], [OFF_SCALE, 0]]);
    all_three_give(&cards, Aggregate::Least(12), NotEqual, &[[7, 2], [BLANK, 1], [9, 1], [OFF_SCALE, BLANK]]);
    all_three_give(&cards, Aggregate::Greatest(12), NotEqual, &[[7, 16], [BLANK, 32], [9, 32], [OFF_SCALE, BLANK]]);
    // Right keys that are all blank, all off scale, all one number.
    let left = one_column(&[BLANK, 7, OFF_SCALE, 9]);
    for (key, counts) in [(BLANK, [0, 2, 0, 2]), (OFF_SCALE, [0; 4]), (7, [2, 0, 0, 2])] {
        let tables = [left.clone(), one_column(&[key; 2])];
        let paired = pair(Aggregate::Count, 9, keys(0, NotEqual, 1), scan(0, 0), scan(1, 1));
        assert_eq!(rows(&tables, &project(&[9], paired)).concat(), counts);
    }
}

#[test]
fn k9_keys_that_are_compared_otherwise_meet_no_blank() {
    let cards = cards_of_anybody();
    for (comparison, of_7, of_9) in [(Equal, 2, 1), (Less, 1, 0), (AtMost, 3, 1), (Greater, 0, 2), (AtLeast, 2, 3)] {
        let counts = [[7, of_7], [BLANK, 0], [9, of_9], [OFF_SCALE, 0]];
        all_three_give(&cards, Aggregate::Count, comparison, &counts);
    }
    let tables = [one_column(&[BLANK, 7, OFF_SCALE, 5]), cards];
    assert_eq!(rows(&tables, &semi(0, 10, ALWAYS, scan(0, 0), scan(1, 10))), [[7]]);
    assert_eq!(rows(&tables, &anti(0, 10, ALWAYS, scan(0, 0), scan(1, 10))), [[BLANK], [OFF_SCALE], [5]]);
}

#[test]
fn k9_u5_takes_not_equal_either_way_round() {
    let cards = table(&[&[7, 1], &[BLANK, 2], &[9, 4], &[OFF_SCALE, 8], &[BLANK, 16]]);
    let tables = [one_column(&[7, BLANK, OFF_SCALE, BLANK, 9]), cards];
    let folded = |test| fold(Aggregate::Sum(2), 5, ALWAYS, scan(0, 0), select(test, scan(1, 1)));
    let paired = pair(Aggregate::Sum(2), 5, keys(0, NotEqual, 1), scan(0, 0), scan(1, 1));
    for test in [columns_test(0, NotEqual, 1), columns_test(1, NotEqual, 0)] {
        assert_eq!(fit(&folded(test), 0, &tables), Some((5, paired.clone())));
        unnests_by(&tables, &folded(test), &[5], &[[7, 22], [BLANK, 5], [OFF_SCALE, 0], [BLANK, 5], [9, 19]]);
        // A not-marked ≠ is no comparison, so no rule takes it: blank meets blank there, and off scale meets all.
        let others = [[7, 9], [BLANK, 26], [OFF_SCALE, 31], [BLANK, 26], [9, 12]];
        unnests_by(&tables, &folded(test.not_turned()), &[], &others);
    }
}

#[test]
fn k9_blanks_that_a_plan_makes() {
    let tables = [one_column(&[7, 9]), table(&[&[7, 36], &[7, 30]])];
    let cards_of = || select(columns_test(0, Equal, 1), scan(1, 1));
    // Player 9 has no card.
    let eaches = |test| rows(&tables, &select(test, each(scan(0, 0), cards_of())));
    assert_eq!(eaches(number_test(2, NotEqual, 36)), [[7, 7, 30], [9, BLANK, BLANK]]);
    assert_eq!(eaches(columns_test(0, NotEqual, 1)), [[9, BLANK, BLANK]]);
    assert_eq!(eaches(columns_test(1, NotEqual, 2)), [[7, 7, 36], [7, 7, 30]]);
    let least = |test| rows(&tables, &select(test, fold(Aggregate::Least(2), 5, ALWAYS, scan(0, 0), cards_of())));
    assert_eq!(least(number_test(5, NotEqual, 30)), [[9, BLANK]]);
    assert_eq!(least(number_test(5, NotEqual, 30).not_turned()), [[7, 30]]);
}

/// A table of these rows, each with its number, from 1, in a last column.
fn numbered(rows: &[&[i64]]) -> Table {
    let rows: Vec<Vec<i64>> = rows.iter().zip(1..).map(|(row, number)| [row, &[number][..]].concat()).collect();
    Table { columns: rows.first().map_or(1, |row| row.len()), rows }
}

/// The rows' numbers, in the order in which a plan over a numbered table gives them.
fn order(table: &Table, plan: &Plan) -> Vec<i64> {
    rows(slice::from_ref(table), plan).iter().map(|row| row[row.len() - 1]).collect()
}

/// Checks the order in which a Sort by this list gives the rows of a numbered table, upward and downward.
fn sorts_by(table: &Table, list: &[u8], upward: &[i64], downward: &[i64]) {
    assert_eq!(order(table, &sort(false, list, scan(0, 0))), upward, "upward by {list:?}");
    assert_eq!(order(table, &sort(true, list, scan(0, 0))), downward, "downward by {list:?}");
}

#[test]
fn k3_rows_equal_in_all_listed_columns_come_in_reverse_downward() {
    let scores = numbered(&[&[36], &[31], &[36], &[40], &[31], &[36]]);
    // Kept as they came, the scores 36 and 31 would be 1, 3, 6 and 2, 5 downward too.
    sorts_by(&scores, &[0], &[2, 5, 1, 3, 6, 4], &[4, 6, 3, 1, 5, 2]);
    // The columns beside the listed one, here up, down and in no order, decide nothing.
    let scores = numbered(&[&[7, 1, 9, 4], &[7, 2, 8, 9], &[5, 3, 7, 2], &[7, 4, 6, 5], &[5, 5, 5, 3]]);
    sorts_by(&scores, &[0], &[3, 5, 1, 2, 4], &[4, 2, 1, 5, 3]);
}

#[test]
fn k3_rows_equal_in_one_of_two_listed_columns_come_by_the_other() {
    // No two rows are equal in both.
    let different = numbered(&[&[1, 7], &[2, 5], &[1, 5], &[2, 7]]);
    sorts_by(&different, &[0, 1], &[3, 1, 2, 4], &[4, 2, 1, 3]);
    sorts_by(&different, &[1, 0], &[3, 2, 1, 4], &[4, 1, 2, 3]);
    // By one of them there are equal rows: kept as they came they would be 2, 4, 1, 3 and 1, 4, 2, 3 downward.
    sorts_by(&different, &[0], &[1, 3, 2, 4], &[4, 2, 3, 1]);
    sorts_by(&different, &[1], &[2, 3, 1, 4], &[4, 1, 3, 2]);
}

/// Rows 1 and 5 are equal in both columns, and so are 2 and 4.
fn equal_in_two_columns() -> Table {
    numbered(&[&[1, 5], &[2, 5], &[1, 7], &[2, 5], &[1, 5], &[2, 7]])
}

#[test]
fn k3_all_listed_columns_are_downward() {
    // With the last listed column alone downward, [0, 1] would give 3, then 1 and 5, 6, then 2 and 4; with the first alone downward, 2
    // and 4, 6, 1 and 5, then 3.
    sorts_by(&equal_in_two_columns(), &[0, 1], &[1, 5, 3, 2, 4, 6], &[6, 4, 2, 3, 5, 1]);
    sorts_by(&equal_in_two_columns(), &[1, 0], &[1, 5, 2, 4, 3, 6], &[6, 3, 4, 2, 5, 1]);
    // Rows 2 and 4 are equal in all three, and so are 3 and 7. With the last alone downward, [0, 1, 2] would give 1, 6, 2 and 4, then 3
    // and 7, 5; with the first alone downward, 5, 3 and 7, 1, 2 and 4, 6.
    let three = numbered(&[&[1, 1, 1], &[1, 2, 1], &[2, 1, 2], &[1, 2, 1], &[2, 1, 1], &[1, 2, 2], &[2, 1, 2]]);
    sorts_by(&three, &[0, 1, 2], &[1, 2, 4, 6, 5, 3, 7], &[7, 3, 5, 6, 4, 2, 1]);
    sorts_by(&three, &[2, 0, 1], &[1, 2, 4, 5, 6, 3, 7], &[7, 3, 6, 5, 4, 2, 1]);
    sorts_by(&three, &[1, 2, 0], &[1, 5, 3, 7, 2, 4, 6], &[6, 4, 2, 7, 3, 5, 1]);
}

#[test]
fn k3_blanks_and_off_scale_in_listed_columns() {
    // By code a blank comes before every number, and off scale behind: upward blanks stand first, downward last.
    let cells = numbered(&[
        &[7, BLANK],
        &[BLANK, 3],
        &[OFF_SCALE, 3],
        &[BLANK, BLANK],
        &[7, OFF_SCALE],
        &[-LARGEST, 3],
        &[BLANK, 3],
        &[OFF_SCALE, 3],
        &[LARGEST, 3],
    ]);
    sorts_by(&cells, &[0], &[2, 4, 7, 6, 1, 5, 9, 3, 8], &[8, 3, 9, 5, 1, 6, 7, 4, 2]);
    sorts_by(&cells, &[1], &[1, 4, 2, 3, 6, 7, 8, 9, 5], &[5, 9, 8, 7, 6, 3, 2, 4, 1]);
    sorts_by(&cells, &[0, 1], &[4, 2, 7, 6, 1, 5, 9, 3, 8], &[8, 3, 9, 5, 1, 6, 7, 2, 4]);
    sorts_by(&cells, &[1, 0], &[4, 1, 2, 7, 6, 9, 3, 8, 5], &[5, 8, 3, 9, 6, 7, 2, 1, 4]);
}

#[test]
fn k3_sorts_over_sorts() {
    let up = |column: u8, child| sort(false, &[column], child);
    let down = |column: u8, child| sort(true, &[column], child);
    let given = || scan(0, 0);
    let order_of = |plan: Plan| order(&equal_in_two_columns(), &plan);
    assert_eq!(order_of(down(0, given())), [6, 4, 2, 5, 3, 1]);
    assert_eq!(order_of(down(1, given())), [6, 3, 5, 4, 2, 1]);
    // Downward twice by the same list: equal rows come as they came.
    assert_eq!(order_of(down(0, down(0, given()))), [2, 4, 6, 1, 3, 5]);
    assert_eq!(order_of(down(0, down(0, down(0, given())))), [6, 4, 2, 5, 3, 1]);
    // Downward twice by different lists is not downward by both: that is 6, 3, 4, 2, 5, 1 by [1, 0], and 6, 4, 2, 3, 5, 1 by [0, 1].
    assert_eq!(order_of(down(1, down(0, given()))), [3, 6, 1, 5, 2, 4]);
    assert_eq!(order_of(down(0, down(1, given()))), [2, 4, 6, 1, 5, 3]);
    // Upward over downward, and downward over upward.
    assert_eq!(order_of(up(0, down(0, given()))), [5, 3, 1, 6, 4, 2]);
    assert_eq!(order_of(up(1, down(0, given()))), [4, 2, 5, 1, 6, 3]);
    assert_eq!(order_of(down(0, up(0, given()))), [6, 4, 2, 5, 3, 1]);
    assert_eq!(order_of(down(1, up(0, given()))), [6, 3, 4, 2, 5, 1]);
}

#[test]
fn k3_any_number_of_rows() {
    sorts_by(&Table { columns: 2, rows: vec![] }, &[0], &[], &[]);
    for height in [1, 2, 3, 4, 5, 999, 1000] {
        let equal = numbered(&vec![&[7][..]; height]);
        let forward: Vec<i64> = (1..=height as i64).collect();
        let backward: Vec<i64> = (1..=height as i64).rev().collect();
        sorts_by(&equal, &[0], &forward, &backward);
        // By the number itself no rows are equal.
        sorts_by(&equal, &[1], &forward, &backward);
        sorts_by(&equal, &[0, 1], &forward, &backward);
    }
    // An odd and an even number of equal rows, in an even and an odd number of rows.
    sorts_by(&numbered(&[&[2], &[1], &[2], &[2]]), &[0], &[2, 1, 3, 4], &[4, 3, 1, 2]);
    sorts_by(&numbered(&[&[1], &[2], &[1], &[2], &[3]]), &[0], &[1, 3, 2, 4, 5], &[5, 4, 2, 3, 1]);
}

#[test]
fn k3_a_list_of_all_columns_leaves_only_identical_rows_equal() {
    let tables = [table(&[&[2, 1], &[1, 5], &[2, 1], &[1, 4], &[1, 5]])];
    let sorted = |down, list: &[u8]| rows(&tables, &sort(down, list, scan(0, 0)));
    assert_eq!(sorted(false, &[0, 1]), [[1, 4], [1, 5], [1, 5], [2, 1], [2, 1]]);
    assert_eq!(sorted(true, &[0, 1]), [[2, 1], [2, 1], [1, 5], [1, 5], [1, 4]]);
    assert_eq!(sorted(false, &[1, 0]), [[2, 1], [2, 1], [1, 4], [1, 5], [1, 5]]);
    assert_eq!(sorted(true, &[1, 0]), [[1, 5], [1, 5], [1, 4], [2, 1], [2, 1]]);
}

/// All lists of one or more of these ids, none twice.
fn all_lists(ids: &[u8]) -> Vec<Vec<u8>> {
    let longer = |list: &Vec<u8>| -> Vec<Vec<u8>> {
        ids.iter().filter(|id| !list.contains(id)).map(|&id| [&list[..], &[id]].concat()).collect()
    };
    let mut all = Vec::new();
    let mut longest = vec![vec![]];
    for _ in ids {
        longest = longest.iter().flat_map(longer).collect();
        all.extend(longest.clone());
    }
    all
}

#[test]
fn k3_the_mirror_holds_for_every_list_of_columns() {
    let cells = numbered(&[
        &[1, BLANK, 5],
        &[1, 3, 5],
        &[OFF_SCALE, BLANK, 4],
        &[1, BLANK, 5],
        &[BLANK, 3, 4],
        &[OFF_SCALE, 3, 5],
        &[BLANK, 3, 5],
        &[1, BLANK, 4],
        &[OFF_SCALE, BLANK, 4],
    ]);
    let lists = all_lists(&[0, 1, 2, 3]);
    assert_eq!(lists.len(), 4 + 12 + 24 + 24);
    for list in lists {
        let sorted = |down| rows(slice::from_ref(&cells), &sort(down, &list, scan(0, 0)));
        let (upward, downward) = (sorted(false), sorted(true));
        assert!(downward.iter().eq(upward.iter().rev()), "{list:?}");
        // Each row before the next one: by the listed cells, and where all are equal by its number.
        let place = |row: &Vec<i64>| -> Vec<i64> { list.iter().chain(&[3]).map(|&id| row[usize::from(id)]).collect() };
        assert!(upward.windows(2).all(|two| place(&two[0]) < place(&two[1])), "upward by {list:?}");
        assert!(downward.windows(2).all(|two| place(&two[0]) > place(&two[1])), "downward by {list:?}");
        assert_eq!(downward.len(), 9);
    }
}

/// Scores and their players. Downward by score the rows are 1, 6, 4, 2, 7, 5, 3, and the players come first in the order 5, 9, 4, 7. With equal
/// scores kept as they came the rows would be 1, 2, 4, 6, 3, 5, 7, and the players 5, 7, 4, 9.
fn scores_and_players() -> Table {
    numbered(&[&[40, 5], &[36, 7], &[31, 9], &[36, 4], &[31, 7], &[36, 9], &[31, 9]])
}

#[test]
fn k3_rows_above_a_downward_sort() {
    let tables = [scores_and_players(), one_column(&[7, 9])];
    let list = || sort(true, &[10], scan(0, 10));
    let players = [[5], [9], [4], [7], [9], [7], [9]];
    assert_eq!(rows(&tables, &project(&[11], list())), players);
    // First occurrences: of players, of scores, and of both.
    assert_eq!(rows(&tables, &distinct(&[11], list())), [[5], [9], [4], [7]]);
    assert_eq!(rows(&tables, &distinct(&[10], list())), [[40], [36], [31]]);
    let both = [[5, 40], [9, 36], [4, 36], [7, 36], [9, 31], [7, 31]];
    assert_eq!(rows(&tables, &distinct(&[11, 10], list())), both);
    let sums = group(Aggregate::Sum(10), 20, keys(21, Equal, 11), list());
    assert_eq!(rows(&tables, &sums), [[5, 40], [9, 98], [4, 36], [7, 67]]);
    // By score a Group is as it was.
    let counts = group(Aggregate::Count, 20, keys(21, Equal, 10), list());
    assert_eq!(rows(&tables, &counts), [[40, 1], [36, 3], [31, 3]]);
    // Over the Sort twice, which keeps equal rows as they came.
    let kept = || sort(true, &[10], list());
    assert_eq!(rows(&tables, &distinct(&[11], kept())), [[5], [7], [4], [9]]);
    let sums = group(Aggregate::Sum(10), 20, keys(21, Equal, 11), kept());
    assert_eq!(rows(&tables, &sums), [[5, 40], [7, 67], [4, 36], [9, 98]]);
    // In an inner plan, below and above the Select that names the left row.
    let own = columns_test(0, Equal, 11);
    for inner in [select(own, list()), sort(true, &[10], select(own, scan(0, 10)))] {
        let cards = [[7, 36, 7, 2], [7, 31, 7, 5], [9, 36, 9, 6], [9, 31, 9, 7], [9, 31, 9, 3]];
        assert_eq!(rows(&tables, &each(scan(1, 0), inner)), cards);
    }
}

/// Scores and players; then the players as they come first in the downward list, and as they would with equal scores kept as they came.
fn with_players_in_sequence() -> [Table; 3] {
    [scores_and_players(), one_column(&[5, 9, 4, 5, 7]), one_column(&[5, 7, 4, 4, 9])]
}

#[test]
fn k3_sequences_over_a_downward_sort() {
    let tables = with_players_in_sequence();
    let list = sort(true, &[10], scan(0, 10));
    let of_list = distinct(&[11], list.clone());
    let of_table = |table| distinct(&[0], scan(table, 0));
    // The list as f, then in e: U3, U4 and U6 fit with table 1, where they did not, and not with table 2, where they did. The sequences
    // 5, 9, 4, 7 and 5, 7, 4, 9 differ at 1 and 3.
    assert_eq!(note_of(&tables, (&of_table(1), 0), (&list, 11)), None);
    assert_eq!(note_of(&tables, (&of_table(2), 0), (&list, 11)), Some(1));
    assert_eq!(note_of(&tables, (&of_list, 11), (&scan(1, 0), 0)), None);
    assert_eq!(note_of(&tables, (&of_list, 11), (&scan(2, 0), 0)), Some(1));
    // Over the Sort twice, which keeps equal rows as they came, it is the other way round.
    let kept = sort(true, &[10], list.clone());
    let of_kept = distinct(&[11], kept.clone());
    assert_eq!(note_of(&tables, (&of_table(1), 0), (&kept, 11)), Some(1));
    assert_eq!(note_of(&tables, (&of_table(2), 0), (&kept, 11)), None);
    assert_eq!(note_of(&tables, (&of_kept, 11), (&scan(1, 0), 0)), Some(1));
    assert_eq!(note_of(&tables, (&of_kept, 11), (&scan(2, 0), 0)), None);
}

#[test]
fn k3_sequences_of_two_lists() {
    let tables = [scores_and_players(), numbered(&[&[36, 7], &[36, 9], &[36, 4], &[36, 7]])];
    let list = |table, down, first| sort(down, &[first], scan(table, first));
    let note = |table, e_down, f_down| {
        let e = distinct(&[11], list(table, e_down, 10));
        note_of(&tables, (&e, 11), (&list(table, f_down, 20), 21))
    };
    // Two lists of one direction have one sequence.
    for table in [0, 1] {
        assert_eq!(note(table, true, true), None);
        assert_eq!(note(table, false, false), None);
    }
    // Downward 5, 9, 4, 7, and upward 9, 7, 4, 5.
    assert_eq!(note(0, true, false), Some(0));
    assert_eq!(note(0, false, true), Some(0));
    // All scores equal: downward 7, 4, 9, and upward 7, 9, 4. With equal rows kept as they came the two directions were one.
    assert_eq!(note(1, true, false), Some(1));
    assert_eq!(note(1, false, true), Some(1));
    // By the listed column itself equal rows decide nothing: downward 40, 36, 31 either way.
    let (once, twice) = (list(0, true, 10), sort(true, &[20], list(0, true, 20)));
    assert_eq!(note_of(&tables, (&distinct(&[10], once), 10), (&twice, 20)), None);
}

#[test]
fn k3_notes_over_a_downward_sort_give_the_smallest_position() {
    let list = sort(true, &[10], scan(0, 10));
    let kept = sort(true, &[10], list.clone());
    let note = |players: &[i64], f: &Plan| {
        let tables = [scores_and_players(), one_column(players)];
        note_of(&tables, (&distinct(&[0], scan(1, 0)), 0), (f, 11))
    };
    // Players, and the positions beside 5, 9, 4, 7 of the list and beside 5, 7, 4, 9 of equal rows as they came.
    let notes: [(&[i64], usize, usize); 6] = [
        (&[5, 9, 4], 3, 1),
        (&[5, 9, 7, 4], 2, 1),
        (&[5, 7, 9, 4], 1, 2),
        (&[9, 5, 4, 7], 0, 0),
        (&[5, 9, 4, 7, 8], 4, 1),
        (&[5, 7, 4, BLANK], 1, 3),
    ];
    for (players, position, with_kept) in notes {
        assert_eq!(note(players, &list), Some(position), "{players:?}");
        assert_eq!(note(players, &kept), Some(with_kept), "{players:?}");
    }
}

#[test]
fn k3_u3_makes_a_group_of_the_downward_sort() {
    let tables = with_players_in_sequence();
    let list = || sort(true, &[10], scan(0, 10));
    let with = |table, right| semi(0, 11, ALWAYS, distinct(&[0], scan(table, 0)), right);
    let below_36 = number_test(10, Less, 36);
    let counted = with_test(group(Aggregate::Count, 1, keys(0, Equal, 11), list()), below_36);
    let expected = project(&[0], select(number_test(1, Greater, 0), counted));
    assert_eq!(fit(&with(1, select(below_36, list())), 0, &tables), Some((3, expected.clone())));
    assert_eq!(rows(&tables, &expected), [[9], [7]]);
    assert_eq!(fit(&with(2, select(below_36, list())), 0, &tables), None);
    // A Select below the Sort stays there: the scores below 36 alone have the players 9, 7.
    let few = sort(true, &[10], select(below_36, scan(0, 10)));
    assert_eq!(fit(&with(1, few.clone()), 0, &tables), None);
    assert_eq!(stay_position(&with(1, few), 0, &tables), Some(0));
}

/// Checks the steps and the rows as `unnests_by` does, and the note for place 0 of the plan that is left.
fn stays_after<const WIDTH: usize>(
    tables: &[Table],
    plan: &Plan,
    rules: &[u8],
    expected: &[[i64; WIDTH]],
    position: Option<usize>,
) {
    unnests_by(tables, plan, rules, expected);
    let left = unnest(&write_set(tables), &write_plan(plan), ROOMY, ROOMY, ROOMY).expect("steps").plan;
    assert_eq!(stay_note(&write_set(tables), &left, 0, ROOMY), Ok(position));
}

#[test]
fn k3_steps_over_a_downward_sort() {
    let tables = with_players_in_sequence();
    let inner = || select(columns_test(0, Equal, 11), sort(true, &[10], scan(0, 10)));
    let players = |table| distinct(&[0], scan(table, 0));
    let (below_36, over_31) = (number_test(10, Less, 36), number_test(10, Greater, 31));
    let of_one = |table| some(below_36, players(table), inner());
    let of_all = |table| every(over_31, players(table), inner());
    let sums = |table| fold(Aggregate::Sum(10), 20, ALWAYS, players(table), inner());
    // The last step of the first three was not taken with equal rows kept as they came; that of the last three is no longer taken.
    stays_after(&tables, &of_one(1), &[1, 7, 3], &[[9], [7]], None);
    stays_after(&tables, &of_all(1), &[2, 7, 4], &[[5], [4]], None);
    stays_after(&tables, &sums(1), &[5, 6], &[[5, 40], [9, 98], [4, 36], [7, 67]], None);
    stays_after(&tables, &of_one(2), &[1, 7], &[[7], [9]], Some(1));
    stays_after(&tables, &of_all(2), &[2, 7], &[[5], [4]], Some(1));
    stays_after(&tables, &sums(2), &[5], &[[5, 40], [7, 67], [4, 36], [9, 98]], Some(1));
}

#[test]
fn k3_steps_of_a_distinct_over_a_downward_sort() {
    let tables = with_players_in_sequence();
    let players = || distinct(&[11], sort(true, &[10], scan(0, 10)));
    let inner = |table| select(columns_test(11, Equal, 0), scan(table, 0));
    let over_4 = number_test(0, Greater, 4);
    // Here too the last step comes with table 1, where it did not, and goes with table 2. The players stay in the order of e.
    let of_one = |table| some(over_4, players(), inner(table));
    stays_after(&tables, &of_one(1), &[1, 7, 3], &[[5], [9], [7]], None);
    stays_after(&tables, &of_one(2), &[1, 7], &[[5], [9], [7]], Some(1));
    let of_all = |table| every(over_4, players(), inner(table));
    stays_after(&tables, &of_all(1), &[2, 7, 4], &[[5], [9], [7]], None);
    stays_after(&tables, &of_all(2), &[2, 7], &[[5], [9], [7]], Some(1));
    let counts = |table| fold(Aggregate::Count, 20, ALWAYS, players(), inner(table));
    stays_after(&tables, &counts(1), &[5, 6], &[[5, 2], [9, 1], [4, 1], [7, 1]], None);
    stays_after(&tables, &counts(2), &[5], &[[5, 1], [9, 1], [4, 2], [7, 1]], Some(1));
}

/// The sample club's tables, with the number of the card in a third column of table 1.
fn club_with_numbers() -> [Table; 2] {
    [one_column(&[7, 9, 7, 4]), numbered(&[&[7, 36], &[9, BLANK], &[4, 31], &[7, 33]])]
}

/// The players of the sample club.
fn players() -> Plan {
    distinct(&[0], scan(0, 0))
}

/// A Some, an Every and a Fold of the players with this inner plan, which gives column 2.
fn nested_over(inner: Plan) -> [Plan; 3] {
    let over_32 = number_test(2, Greater, 32);
    [
        some(over_32, players(), inner.clone()),
        every(over_32, players(), inner.clone()),
        fold(Aggregate::Sum(2), 9, over_32, players(), inner),
    ]
}

/// What U1, U2 and U5 make of the three where they link column 0 by = with column 1 of g.
fn unnested_over(g: &Plan) -> [Plan; 3] {
    let over_32 = number_test(2, Greater, 32);
    let paired = pair(Aggregate::Sum(2), 9, keys(0, Equal, 1), players(), g.clone());
    [
        semi(0, 1, over_32, players(), g.clone()),
        anti(0, 1, over_32.not_turned(), players(), g.clone()),
        with_test(paired, over_32),
    ]
}

/// Checks that U1, U2 and U5 fit, each at place 0, and leave g without what stood above it, and the rows as they were.
fn all_three_fit(tables: &[Table], inner: &Plan, g: &Plan) {
    for ((plan, after), number) in nested_over(inner.clone()).iter().zip(unnested_over(g)).zip([1, 2, 5]) {
        assert_eq!(rule(tables, plan), Some(number), "{inner:?}");
        assert_eq!(fit(plan, 0, tables), Some((number, after.clone())), "{inner:?}");
        assert_eq!(rows(tables, plan), rows(tables, &after), "{inner:?}");
    }
}

/// Checks that no rule fits anywhere in the three.
fn none_of_three_fits(tables: &[Table], inner: &Plan) {
    for plan in nested_over(inner.clone()) {
        assert_eq!(refusal(tables, &plan), None, "{inner:?}");
        assert_eq!(unnest_tree(&plan, tables).0, [], "{inner:?}");
    }
}

#[test]
fn k1_the_sample_club_with_a_project_between() {
    let Input { tables, plan } = club();
    let inner = || select(columns_test(0, Equal, 1), scan(1, 1));
    let with = |test, list: &[u8]| every(test, players(), project(list, inner()));
    let (steps, passed) = unnest_tree(&plan, &tables);
    for list in [&[2][..], &[1, 2], &[2, 1]] {
        let given = with(number_test(2, Greater, 30), list);
        let (own_steps, own_passed) = unnest_tree(&given, &tables);
        // From the first step on the plans are those of the sample club.
        assert_eq!((&own_steps, &own_passed[1..]), (&steps, &passed[1..]), "{list:?}");
        assert_eq!(weight(&given), weight(&plan));
        unnests_by(&tables, &given, &[2, 7, 4], &[[7], [4]]);
        let text = "steps 3\nU2 0\nU7 0\nU4 0\nrows 2 columns 1\n7\n4\n";
        assert_eq!(listing(&write_set(&tables), &write_plan(&given), ROOMY), text);
    }
    assert_eq!(club_with_project().plan, with(number_test(2, Greater, 30), &[2]));
    // A Project of the key alone: then the test cannot name column 2.
    let of_key = number_test(1, Greater, 5);
    let (_, passed) = unnest_tree(&every(of_key, players(), inner()), &tables);
    unnests_by(&tables, &with(of_key, &[1]), &[2, 7, 4], &[[7], [9]]);
    assert_eq!(unnest_tree(&with(of_key, &[1]), &tables).1[1..], passed[1..]);
    assert_eq!(refusal(&tables, &with(number_test(2, Greater, 30), &[1])), Some(12));
    // The cards in another order: U4 does not fit, and the note is that of the sample club.
    let moved = [tables[0].clone(), table(&[&[9, BLANK], &[7, 36], &[4, 31], &[7, 33]])];
    stays_after(&moved, &with(number_test(2, Greater, 30), &[2]), &[2, 7], &[[7], [4]], Some(0));
}

#[test]
fn k1_some_every_and_fold_fit_whatever_the_project_lists() {
    let tables = club_with_numbers();
    for test in [columns_test(0, Equal, 1), columns_test(1, Equal, 0)] {
        // Without the key; with it; with all columns of g in order, so that the Project cuts nothing off.
        for list in [&[2][..], &[2, 3], &[1, 2], &[3, 2, 1], &[1, 2, 3]] {
            all_three_fit(&tables, &project(list, select(test, scan(1, 1))), &scan(1, 1));
        }
    }
    let inner = || project(&[2], select(columns_test(0, Equal, 1), scan(1, 1)));
    let [of_one, of_all, sums] = nested_over(inner());
    unnests_by(&tables, &of_one, &[1, 7, 3], &[[7]]);
    unnests_by(&tables, &of_all, &[2, 7, 4], &[[7]]);
    unnests_by(&tables, &sums, &[5, 6], &[[7, 69], [9, 0], [4, 0]]);
    // The plain always test, and a test of e's column alone or with one of f.
    for test in [ALWAYS, NEVER, number_test(0, Less, 9), columns_test(0, Less, 2)] {
        assert_eq!(rule(&tables, &some(test, players(), inner())), Some(1));
        let after = anti(0, 1, test.not_turned(), players(), scan(1, 1));
        assert_eq!(fit(&every(test, players(), inner()), 0, &tables), Some((2, after)));
        assert_eq!(rule(&tables, &fold(Aggregate::Count, 9, test, players(), inner())), Some(5));
    }
}

#[test]
fn k1_blank_and_off_scale_keys_under_a_project() {
    let cards = table(&[&[BLANK, 1], &[7, BLANK], &[OFF_SCALE, 4], &[7, 8], &[BLANK, 16]]);
    let tables = [one_column(&[7, BLANK, OFF_SCALE, 9]), cards];
    for list in [&[2][..], &[1, 2]] {
        let inner = |test| project(list, select(test, scan(1, 1)));
        let sums = |test| fold(Aggregate::Sum(2), 9, ALWAYS, scan(0, 0), inner(test));
        let by_key = [[7, BLANK], [BLANK, 0], [OFF_SCALE, 0], [9, 0]];
        unnests_by(&tables, &sums(columns_test(0, Equal, 1)), &[5], &by_key);
        let by_others = [[7, 17], [BLANK, BLANK], [OFF_SCALE, 0], [9, BLANK]];
        unnests_by(&tables, &sums(columns_test(1, NotEqual, 0)), &[5], &by_others);
        let over_0 = number_test(2, Greater, 0);
        let of_all = every(over_0, scan(0, 0), inner(columns_test(0, Equal, 1)));
        unnests_by(&tables, &of_all, &[2, 7], &[[BLANK], [OFF_SCALE], [9]]);
    }
}

#[test]
fn k1_u5_turns_the_comparison_under_a_project() {
    let tables = club().tables;
    for (written, turned) in
        [(Less, Greater), (AtMost, AtLeast), (Greater, Less), (AtLeast, AtMost), (Equal, Equal), (NotEqual, NotEqual)]
    {
        for list in [&[2][..], &[1, 2]] {
            for (test, kept) in [(columns_test(0, written, 1), written), (columns_test(1, written, 0), turned)] {
                let plan = fold(Aggregate::Sum(2), 5, ALWAYS, scan(0, 0), project(list, select(test, scan(1, 1))));
                let expected = pair(Aggregate::Sum(2), 5, keys(0, kept, 1), scan(0, 0), scan(1, 1));
                assert_eq!(fit(&plan, 0, &tables), Some((5, expected.clone())), "{test:?}, {list:?}");
                assert_eq!(rows(&tables, &plan), rows(&tables, &expected), "{test:?}, {list:?}");
            }
        }
    }
}

#[test]
fn k1_only_one_project_may_stand_between() {
    let tables = club_with_numbers();
    let linked = || select(columns_test(0, Equal, 1), scan(1, 1));
    all_three_fit(&tables, &linked(), &scan(1, 1));
    for inner in [
        project(&[2], project(&[2], linked())),
        project(&[2], project(&[1, 2], linked())),
        project(&[1, 2], project(&[2, 1], linked())),
        project(&[2], project(&[2, 3], project(&[1, 2, 3], linked()))),
        distinct(&[2], linked()),
        distinct(&[1, 2, 3], linked()),
        sort(false, &[2], linked()),
        sort(true, &[2], linked()),
        // Beside a Project, above it or below.
        project(&[2], distinct(&[1, 2], linked())),
        distinct(&[2], project(&[1, 2], linked())),
        project(&[2], sort(false, &[1], linked())),
        sort(true, &[2], project(&[2], linked())),
        // A Select above the Project, or between it and the linked one.
        select(ALWAYS, project(&[2], linked())),
        project(&[2], select(ALWAYS, linked())),
        // No Select at all.
        project(&[2], scan(1, 1)),
        project(&[2], cross(linked(), Plan::Unit)),
    ] {
        none_of_three_fits(&tables, &inner);
    }
}

#[test]
fn k1_the_select_below_the_project_is_the_one_of_paper_01() {
    let tables = [table(&[&[7, 5], &[9, 6]]), numbered(&[&[7, 36], &[9, BLANK], &[4, 31], &[7, 33]])];
    let over_32 = number_test(2, Greater, 32);
    let plans = |inner: &Plan| {
        [
            some(over_32, scan(0, 10), inner.clone()),
            every(over_32, scan(0, 10), inner.clone()),
            fold(Aggregate::Sum(2), 9, over_32, scan(0, 10), inner.clone()),
        ]
    };
    let rules = |test, g: Plan| plans(&project(&[2], select(test, g))).map(|plan| rule(&tables, &plan));
    let linked = columns_test(10, Equal, 1);
    assert_eq!(rules(linked, scan(1, 1)), [Some(1), Some(2), Some(5)]);
    for test in [
        linked.not_turned(),
        columns_test(1, Less, 10).not_turned(),
        number_test(1, Equal, 7),
        number_test(10, Equal, 7),
        ALWAYS,
        NEVER,
        // Both columns are g's, or e's.
        columns_test(1, Equal, 2),
        columns_test(1, Equal, 1),
        columns_test(10, Equal, 11),
        columns_test(10, Equal, 10),
    ] {
        assert_eq!(rules(test, scan(1, 1)), [None; 3], "{test:?}");
    }
    // Every comparison does for U5, and = alone for U1 and U2.
    for comparison in [NotEqual, Less, AtMost, Greater, AtLeast] {
        assert_eq!(rules(columns_test(10, comparison, 1), scan(1, 1)), [None, None, Some(5)], "{comparison:?}");
        assert_eq!(rules(columns_test(1, comparison, 10), scan(1, 1)), [None, None, Some(5)], "{comparison:?}");
    }
    // g names a column of e: the compared one, or another.
    for id in [10, 11] {
        assert_eq!(rules(linked, select(number_test(id, Less, 9), scan(1, 1))), [None; 3]);
        assert_eq!(
            rules(linked, select(ALWAYS, sort(false, &[1], select(columns_test(id, Less, 2), scan(1, 1))))),
            [None; 3]
        );
    }
    // A Project cannot list e's column.
    let of_left_row = project(&[2, 10], select(linked, scan(1, 1)));
    assert!(plans(&of_left_row).iter().all(|plan| refusal(&tables, plan) == Some(12)));
}

#[test]
fn k1_projects_below_the_select_stay() {
    let tables = club_with_numbers();
    let linked = |g| select(columns_test(0, Equal, 1), g);
    // A Select over a Project is no Project over a Select: g is the Project, and it stays.
    let cut = || project(&[1, 2], scan(1, 1));
    all_three_fit(&tables, &linked(cut()), &cut());
    all_three_fit(&tables, &linked(project(&[2, 1], cut())), &project(&[2, 1], cut()));
    // With a Project above too, the upper one goes and the lower one stays.
    all_three_fit(&tables, &project(&[2], linked(cut())), &cut());
    all_three_fit(&tables, &project(&[2, 1], linked(cut())), &cut());
    // So do the other nodes of g.
    for g in [
        distinct(&[1, 2], scan(1, 1)),
        sort(true, &[2], scan(1, 1)),
        select(number_test(3, Less, 4), scan(1, 1)),
        select(columns_test(1, Less, 2), scan(1, 1)),
        project(&[2, 1], select(number_test(3, Less, 4), scan(1, 1))),
    ] {
        all_three_fit(&tables, &project(&[2], linked(g.clone())), &g);
    }
}

#[test]
fn k1_u3_and_u4_take_no_select_off_below_a_project() {
    let tables = [one_column(&[7, 9, 4]), table(&[&[7, 36], &[9, BLANK], &[4, 31], &[7, 33]]), one_column(&[7, 4])];
    let over_30 = number_test(2, Greater, 30);
    let cut = || project(&[1], select(over_30, scan(1, 1)));
    let e = |table| distinct(&[0], scan(table, 0));
    // The right keys are those of the Project's rows, 7 and 4, not those of the table below.
    assert_eq!(note_of(&tables, (&e(0), 0), (&cut(), 1)), Some(1));
    assert_eq!(note_of(&tables, (&e(2), 0), (&cut(), 1)), None);
    // Without the Project U3 and U4 take the Select off, and U6 does not.
    let with = |table, right| semi(0, 1, ALWAYS, e(table), right);
    assert_eq!(rule(&tables, &with(0, select(over_30, scan(1, 1)))), Some(3));
    assert_eq!(rule(&tables, &with(2, select(over_30, scan(1, 1)))), None);
    // The Group is one of the Project, under the plain always test.
    for (plan, number, comparison) in [(with(2, cut()), 3, Greater), (anti(0, 1, ALWAYS, e(2), cut()), 4, Equal)] {
        let counted = group(Aggregate::Count, 3, keys(0, Equal, 1), cut());
        let after = project(&[0], select(number_test(3, comparison, 0), counted));
        assert_eq!(fit(&plan, 0, &tables), Some((number, after)));
    }
}

#[test]
fn k1_u6_u7_and_u8_keep_a_project() {
    let tables = [one_column(&[7, 4]), table(&[&[7, 36], &[9, BLANK], &[4, 31], &[7, 33]])];
    let over_30 = number_test(2, Greater, 30);
    let cut = || project(&[2, 1], select(over_30, scan(1, 1)));
    let paired = |right| pair(Aggregate::Sum(2), 9, keys(0, Less, 1), players(), right);
    let grouped = group(Aggregate::Sum(2), 9, keys(0, Less, 1), cut());
    assert_eq!(fit(&paired(cut()), 0, &tables), Some((6, grouped)));
    assert_eq!(stay_position(&paired(project(&[1, 2], scan(1, 1))), 0, &tables), Some(1));
    // U7 puts its Select above the Project.
    let under_34 = number_test(2, Less, 34);
    let moved = |right| semi(0, 1, ALWAYS, players(), select(under_34, right));
    assert_eq!(fit(&semi(0, 1, under_34, players(), cut()), 0, &tables), Some((7, moved(cut()))));
    let moved = anti(0, 1, ALWAYS, players(), select(under_34, cut()));
    assert_eq!(fit(&anti(0, 1, under_34, players(), cut()), 0, &tables), Some((7, moved)));
    // A test of a column that the Project cut off is not in view.
    assert_eq!(refusal(&tables, &semi(0, 1, under_34, players(), project(&[1], scan(1, 1)))), Some(12));
    // U8 leaves the Project in the Cross; an Each over a linked Select fits with a Project as little as without.
    assert_eq!(fit(&each(scan(0, 0), cut()), 0, &tables), Some((8, cross(scan(0, 0), cut()))));
    let linked = || select(columns_test(0, Equal, 1), scan(1, 1));
    for inner in [linked(), project(&[2], linked()), project(&[1, 2], linked())] {
        assert_eq!(rule(&tables, &each(scan(0, 0), inner)), None);
    }
    // Neither does a Semi, an Anti or a Pair with a linked Select below a Project in f, nested in the row that it names.
    let inner = || project(&[1], linked());
    for plan in [
        semi(5, 1, ALWAYS, distinct(&[5], scan(0, 5)), inner()),
        anti(5, 1, ALWAYS, distinct(&[5], scan(0, 5)), inner()),
        pair(Aggregate::Count, 9, keys(5, Equal, 1), distinct(&[5], scan(0, 5)), inner()),
    ] {
        let nested = each(scan(0, 0), plan);
        assert_eq!(refusal(&tables, &nested), None);
        assert_eq!(unnest_tree(&nested, &tables).0, []);
    }
}

#[test]
fn k1_a_stay_note_needs_no_look_below_a_project() {
    let Input { tables, plan } = club_with_project();
    for place in 0..plan.size() + 2 {
        assert_eq!(stay_note(&write_set(&tables), &write_plan(&plan), place, ROOMY), Ok(None));
    }
}

#[test]
fn k1_an_outer_place_fits_first() {
    let tables = club().tables;
    // An Each that fits inside g.
    let g = |inner| each(scan(1, 1), inner);
    let plan = some(ALWAYS, scan(0, 0), project(&[2], select(columns_test(0, Equal, 1), g(scan(0, 5)))));
    let (steps, passed) = unnest_tree(&plan, &tables);
    // Before the request there was one step, U8 at 4.
    assert_eq!(steps, [(1, 0), (8, 2)]);
    assert_eq!(passed[1], semi(0, 1, ALWAYS, scan(0, 0), g(scan(0, 5))));
    let last = semi(0, 1, ALWAYS, scan(0, 0), cross(scan(1, 1), scan(0, 5)));
    assert_eq!(passed[2], last);
    // The other order, and a step for a place where the node no longer is.
    let (set, bytes) = (write_set(&tables), write_plan(&plan));
    assert_eq!(try_steps(&set, &bytes, &[(8, 4), (1, 0)]), Ok(write_plan(&last)));
    assert_eq!(try_steps(&set, &bytes, &[(1, 0), (8, 4)]), Ok(write_plan(&passed[1])));
    // The place is the nested node's, not that of its Project or of its Select.
    for place in [1, 2, 3] {
        assert_eq!(fit(&plan, place, &tables), None);
        assert_eq!(try_steps(&set, &bytes, &[(1, place as u8)]), Ok(bytes.clone()));
    }
    // Below other nodes, with the places counted through.
    let below = select(ALWAYS, cross(scan(0, 9), plan));
    assert_eq!(unnest_tree(&below, &tables).0, [(1, 3), (8, 5)]);
}

#[test]
fn k1_two_deep_with_a_project_each() {
    let tables = club().tables;
    let over_30 = number_test(21, Greater, 30);
    let inmost = project(&[21], select(columns_test(10, Equal, 20), scan(1, 20)));
    let inner = some(over_30, scan(1, 10), inmost);
    let plan =
        every(number_test(11, Greater, 32), players(), project(&[11], select(columns_test(10, Equal, 0), inner)));
    let last = |right| anti(0, 10, ALWAYS, players(), select(number_test(11, Greater, 32).not_turned(), right));
    let moved = semi(10, 20, ALWAYS, scan(1, 10), select(over_30, scan(1, 20)));
    let (steps, passed) = unnest_tree(&plan, &tables);
    assert_eq!(steps, [(2, 0), (7, 0), (1, 4), (7, 4)]);
    assert_eq!(passed[4], last(moved));
    for passed in &passed {
        assert_eq!(rows(&tables, passed), [[7], [9]]);
    }
    // The inner one first: the last plan is the same.
    let (set, bytes) = (write_set(&tables), write_plan(&plan));
    for steps in [[(1, 5), (7, 5), (2, 0), (7, 0)], [(1, 5), (2, 0), (7, 3), (7, 0)], [(2, 0), (1, 3), (7, 0), (7, 4)]]
    {
        assert_eq!(try_steps(&set, &bytes, &steps), Ok(write_plan(&passed[4])), "{steps:?}");
    }
    assert_eq!(weight(&plan), 6);
    assert_eq!(weight(&passed[4]), 2);
}

#[test]
fn k1_columns_further_out() {
    let tables =
        [one_column(&[7, 9, 7, 4]), table(&[&[7, 36], &[9, BLANK], &[4, 31], &[7, 33]]), one_column(&[30, 34])];
    let g = || select(columns_test(9, Less, 2), scan(1, 1));
    let linked = |own| select(columns_test(own, Equal, 1), g());
    // The test and g name the row outside, and so may a Some, an Every and a Fold in between.
    let test = columns_test(9, NotEqual, 2);
    for list in [&[2][..], &[1, 2]] {
        let inner = |own| project(list, linked(own));
        for (plan, rule, after) in [
            (some(test, scan(0, 0), inner(0)), 1, semi(0, 1, test, scan(0, 0), g())),
            (every(test, scan(0, 0), inner(0)), 2, anti(0, 1, test.not_turned(), scan(0, 0), g())),
            (
                fold(Aggregate::Sum(2), 8, test, scan(0, 0), inner(0)),
                5,
                with_test(pair(Aggregate::Sum(2), 8, keys(0, Equal, 1), scan(0, 0), g()), test),
            ),
        ] {
            let outer = each(scan(2, 9), plan);
            assert_eq!(refusal(&tables, &outer), None);
            assert_eq!(fit(&outer, 2, &tables), Some((rule, each(scan(2, 9), after.clone()))));
            assert_eq!(rows(&tables, &outer), rows(&tables, &each(scan(2, 9), after)));
            assert_eq!(unnest_tree(&outer, &tables).0, [(rule, 2)]);
        }
        // The compared column is of the row outside and not of e.
        let outer = each(scan(2, 9), some(ALWAYS, scan(0, 0), inner(9)));
        assert_eq!(refusal(&tables, &outer), None);
        assert_eq!(unnest_tree(&outer, &tables).0, []);
        // There the row outside is e, and g names it.
        let outer = some(
            ALWAYS,
            scan(2, 9),
            project(&[0], select(columns_test(9, Equal, 0), some(test, scan(0, 0), inner(0)))),
        );
        assert_eq!(refusal(&tables, &outer), None);
        assert_eq!(unnest_tree(&outer, &tables).0, [(1, 4)]);
    }
}

#[test]
fn k1_needs_of_the_plans_passed_through() {
    // Five columns in g, one of them listed.
    let tables = [one_column(&[1, 2]), Table { columns: 5, rows: [1, 2, 1, 2].map(|key| vec![key; 5]).to_vec() }];
    let inner = |list: &[u8]| project(list, select(columns_test(0, Equal, 1), scan(1, 1)));
    let plan = some(number_test(3, Less, 3), players(), inner(&[3]));
    let needs = |plan: &Plan, tables: &[Table]| -> Vec<u64> {
        unnest_tree(plan, tables).1.iter().map(|plan| need(plan, tables) - 4096).collect()
    };
    // Some 1, Distinct 2, Scan 2, Project 1, Select 5, Scan 20; Semi 1 for the Some, without the Project and the Select; a Select of
    // all five columns, 5, where the Project had one; Project 1, Select 2, Group 8, Scan 20.
    assert_eq!(needs(&plan, &tables), [31, 25, 30, 31]);
    assert_eq!(columns(plan.at(3).expect("the Project"), &tables), [3]);
    let after = fit(&plan, 0, &tables).expect("U1").1;
    assert_eq!(columns(after.at(3).expect("g"), &tables), [1, 2, 3, 4, 5]);
    // One column in g, and one left row: the last plan has the largest need, where before the request no rule fitted.
    let tables = [one_column(&[1]), one_column(&[1; 4])];
    let plan = some(number_test(1, Less, 3), players(), inner(&[1]));
    assert_eq!(needs(&plan, &tables), [9, 7, 8, 15]);
    let (set, bytes) = (write_set(&tables), write_plan(&plan));
    assert_eq!(report(&set, &bytes, 1, 4096 + 9).map(|report| report.codes), Ok(vec![1]));
    assert_eq!(unnest(&set, &bytes, ROOMY, ROOMY, 4096 + 9), Err(16));
    assert_eq!(unnest(&set, &bytes, ROOMY, ROOMY, 4096 + 14), Err(16));
    assert_eq!(unnest(&set, &bytes, 0, 0, 4096 + 15), Err(15));
    let left = unnest(&set, &bytes, HEADER + 4 * NODE, 6, 4096 + 15).expect("steps");
    assert_eq!(left.steps, [(1, 0), (7, 0), (3, 0)]);
}

#[test]
fn k1_a_plan_of_64_nodes_has_room() {
    let Input { tables, plan } = club_with_project();
    let mut full = plan;
    while full.size() < 64 {
        full = select(ALWAYS, full);
    }
    let (steps, passed) = unnest_tree(&full, &tables);
    assert_eq!(steps, [(2, 58), (7, 58), (4, 58)]);
    assert_eq!(passed.iter().map(Plan::size).collect::<Vec<_>>(), [64, 62, 63, 62]);
}

/// What each node counts in the need of an accepted plan, in pre-order. The 4,096 come once, behind them.
fn counted(tables: &[Table], plan: &Plan) -> Vec<u64> {
    assert_eq!(refusal(tables, plan), None);
    let mut parts = need_parts(plan, tables);
    assert_eq!(parts.pop(), Some(4096));
    assert_eq!(parts.len(), plan.size());
    assert_eq!(need(plan, tables), 4096 + parts.iter().sum::<u64>());
    parts
}

#[test]
fn k12_each_of_the_six_kinds_counts_one_row() {
    let tables = [sized(3, 5), sized(2, 4)];
    let (left, right) = (|| scan(0, 0), || scan(1, 10));
    // One row of three columns beside the Scan's five, whatever the test lets pass.
    for test in [ALWAYS, NEVER, number_test(0, Equal, 3)] {
        assert_eq!(counted(&tables, &select(test, left())), [3, 15]);
        for plan in [
            semi(0, 10, test, left(), right()),
            anti(0, 10, test, left(), right()),
            some(test, left(), right()),
            every(test, left(), right()),
        ] {
            assert_eq!(counted(&tables, &plan), [3, 15, 8], "{plan:?}");
            assert_eq!(need_before(&plan, &tables), 4096 + 15 + 15 + 8, "{plan:?}");
        }
    }
    assert_eq!(counted(&tables, &project(&[2, 0], left())), [2, 15]);
    assert_eq!(need_before(&project(&[2, 0], left()), &tables), 4096 + 10 + 15);
    // Over a bound of 1 it is as before.
    let one = [sized(3, 1), sized(2, 4)];
    assert_eq!(counted(&one, &select(ALWAYS, left())), [3, 3]);
    assert_eq!(need_before(&select(ALWAYS, left()), &one), need(&select(ALWAYS, left()), &one));
}

#[test]
fn k12_none_where_the_bound_is_0() {
    let tables = [sized(3, 0), sized(2, 4), sized(3, 5)];
    assert_eq!(counted(&tables, &select(ALWAYS, scan(0, 0))), [0, 0]);
    assert_eq!(counted(&tables, &project(&[1], scan(0, 0))), [0, 0]);
    let of = |left: &dyn Fn() -> Plan, key, right: &dyn Fn() -> Plan, right_key| {
        [
            semi(key, right_key, ALWAYS, left(), right()),
            anti(key, right_key, ALWAYS, left(), right()),
            some(ALWAYS, left(), right()),
            every(ALWAYS, left(), right()),
        ]
    };
    let (none, four, five) = (|| scan(0, 0), || scan(1, 10), || scan(2, 20));
    // The left rows decide. With an empty right table there is one row.
    for plan in of(&none, 0, &four, 10) {
        assert_eq!(counted(&tables, &plan), [0, 0, 8], "{plan:?}");
    }
    for plan in of(&five, 20, &none, 0) {
        assert_eq!(counted(&tables, &plan), [3, 15, 0], "{plan:?}");
    }
    // A bound of 0 by a Cross; an Each has none, as it counts an empty inner plan as 1.
    assert_eq!(counted(&tables, &select(ALWAYS, cross(four(), none()))), [0, 0, 8, 0]);
    assert_eq!(counted(&tables, &project(&[1], cross(none(), four()))), [0, 0, 0, 8]);
    assert_eq!(counted(&tables, &select(ALWAYS, each(four(), none()))), [5, 20, 8, 0]);
    assert_eq!(counted(&tables, &each(four(), select(ALWAYS, none()))), [20, 8, 0, 0]);
    // A Select that lets nothing pass has its child's bound.
    assert_eq!(counted(&tables, &project(&[10], select(NEVER, four()))), [1, 2, 8]);
}

#[test]
fn k12_the_other_kinds_count_bound_times_columns() {
    let tables = [sized(3, 5), sized(2, 4)];
    let (left, right) = (|| scan(0, 0), || scan(1, 10));
    let by_key = keys(0, Equal, 10);
    for (plan, expected) in [
        (Plan::Unit, vec![0]),
        (left(), vec![15]),
        (distinct(&[1], left()), vec![5, 15]),
        (distinct(&[2, 0], left()), vec![10, 15]),
        (sort(true, &[1], left()), vec![15, 15]),
        (group(Aggregate::Count, 8, keys(9, Equal, 1), left()), vec![10, 15]),
        (fold(Aggregate::Count, 9, ALWAYS, left(), right()), vec![20, 15, 8]),
        (pair(Aggregate::Count, 9, by_key, left(), right()), vec![20, 15, 8]),
        (cross(left(), right()), vec![100, 15, 8]),
        (each(left(), right()), vec![100, 15, 8]),
    ] {
        assert_eq!(counted(&tables, &plan), expected, "{plan:?}");
        assert_eq!(need(&plan, &tables), need_before(&plan, &tables), "{plan:?}");
    }
    // The bound of a Select is its child's still: it is the Select's own count that is one row.
    let few = || select(number_test(0, Equal, 3), left());
    for (plan, expected) in [
        (distinct(&[1], few()), vec![5, 3, 15]),
        (sort(false, &[1], few()), vec![15, 3, 15]),
        (group(Aggregate::Count, 8, keys(9, Equal, 1), few()), vec![10, 3, 15]),
        (fold(Aggregate::Count, 9, ALWAYS, few(), right()), vec![20, 3, 15, 8]),
        (pair(Aggregate::Count, 9, by_key, few(), right()), vec![20, 3, 15, 8]),
        (cross(few(), right()), vec![100, 3, 15, 8]),
        (cross(right(), few()), vec![100, 8, 3, 15]),
        (each(few(), right()), vec![100, 3, 15, 8]),
        (each(right(), few()), vec![100, 8, 3, 15]),
    ] {
        assert_eq!(counted(&tables, &plan), expected, "{plan:?}");
    }
    let tall = [sized(1, 65), sized(1, 64)];
    assert_eq!(refusal(&tall, &cross(select(NEVER, left()), select(NEVER, right()))), Some(14));
    assert_eq!(refusal(&tall, &each(project(&[0], left()), right())), Some(14));
}

#[test]
fn k12_a_project_counts_its_own_columns() {
    let tables = [sized(16, 4)];
    let wide = || scan(0, 0);
    for (plan, expected) in [
        (project(&[3], wide()), vec![1, 64]),
        (project(&[15, 3, 0, 1, 2, 5, 4], wide()), vec![7, 64]),
        (project(&[0], project(&[1, 0], wide())), vec![1, 2, 64]),
        (select(ALWAYS, project(&[5], wide())), vec![1, 1, 64]),
        (project(&[5, 6], select(ALWAYS, wide())), vec![2, 16, 64]),
        // A Distinct of as many columns counts four rows of them.
        (distinct(&[5, 6], select(ALWAYS, wide())), vec![8, 16, 64]),
    ] {
        assert_eq!(counted(&tables, &plan), expected, "{plan:?}");
    }
}

#[test]
fn k12_rows_of_no_columns_count_0() {
    let tables = [sized(3, 5)];
    assert_eq!(counted(&tables, &select(ALWAYS, Plan::Unit)), [0, 0]);
    assert_eq!(counted(&tables, &some(ALWAYS, Plan::Unit, scan(0, 0))), [0, 0, 15]);
    assert_eq!(counted(&tables, &every(ALWAYS, cross(Plan::Unit, Plan::Unit), scan(0, 0))), [0, 0, 0, 0, 15]);
    // A Fold over one of them has a column.
    assert_eq!(
        counted(&tables, &fold(Aggregate::Count, 9, ALWAYS, select(ALWAYS, Plan::Unit), Plan::Unit)),
        [1, 0, 0, 0]
    );
    let answer = report(b"", &write_plan(&select(ALWAYS, Plan::Unit)), 0, 4096).expect("a report");
    assert_eq!((answer.rows, answer.columns), (1, 0));
    assert_eq!(report(b"", &write_plan(&select(ALWAYS, Plan::Unit)), 0, 4095), Err(16));
}

#[test]
fn k12_chains_and_both_sides() {
    let tables = [sized(4, 6), sized(2, 3)];
    let chain = anti(0, 10, ALWAYS, semi(1, 20, ALWAYS, select(ALWAYS, scan(0, 0)), scan(1, 20)), scan(1, 10));
    let chain = select(number_test(1, Less, 4), project(&[1, 0], chain));
    // Select, Project, Anti, Semi, Select, and the Scans of 6 x 4, 3 x 2 and 3 x 2.
    assert_eq!(counted(&tables, &chain), [2, 2, 4, 4, 4, 24, 6, 6]);
    assert_eq!(need_before(&chain, &tables), 4096 + 12 + 12 + 24 + 24 + 24 + 24 + 6 + 6);
    // A Distinct in between counts its six rows; what is above it counts one again.
    let broken = project(&[0], distinct(&[1, 0], select(ALWAYS, scan(0, 0))));
    assert_eq!(counted(&tables, &broken), [1, 12, 4, 24]);
    let right = select(ALWAYS, project(&[11], scan(1, 10)));
    let both = semi(0, 11, ALWAYS, project(&[3, 0], select(ALWAYS, scan(0, 0))), right);
    assert_eq!(counted(&tables, &both), [2, 2, 4, 24, 1, 1, 6]);
}

#[test]
fn k12_an_inner_plan_counts_once() {
    let tables = [sized(2, 5), sized(3, 4)];
    let inner = select(ALWAYS, project(&[10, 11], select(columns_test(0, Equal, 10), scan(1, 10))));
    // It is run for each of five left rows.
    let plan = every(number_test(11, Less, 3), scan(0, 0), inner);
    assert_eq!(counted(&tables, &plan), [2, 10, 2, 2, 3, 12]);
    let innermost = every(ALWAYS, scan(1, 30), select(columns_test(0, Equal, 40), scan(0, 40)));
    let inner = some(ALWAYS, select(ALWAYS, scan(1, 10)), innermost);
    let plan = fold(Aggregate::Count, 9, ALWAYS, select(ALWAYS, scan(0, 0)), inner);
    // Fold 5 x 3, Select, Scan; Some, Select, Scan; Every, Scan, Select, Scan.
    assert_eq!(counted(&tables, &plan), [15, 2, 10, 3, 3, 12, 3, 12, 2, 10]);
}

#[test]
fn k12_4096_comes_once() {
    let mut plan = Plan::Unit;
    while plan.size() < 64 {
        plan = select(ALWAYS, plan);
    }
    assert_eq!(need(&plan, &[]), 4096);
    assert_eq!(need_parts(&plan, &[]).len(), 65);
}

#[test]
fn k12_needs_of_the_sample_club() {
    let Input { tables, plan } = club();
    let (_, passed) = unnest_tree(&plan, &tables);
    let parts: Vec<Vec<u64>> = passed.iter().map(|plan| counted(&tables, plan)).collect();
    // Every, Distinct, Scan, Select, Scan; Anti for the Every, without the Select; with one again; Project, Select, Group, Scan.
    assert_eq!(parts, [vec![1, 4, 4, 2, 8], vec![1, 4, 4, 8], vec![1, 4, 4, 2, 8], vec![1, 2, 8, 8]]);
    let needs =
        |count: fn(&Plan, &[Table]) -> u64| -> Vec<u64> { passed.iter().map(|plan| count(plan, &tables)).collect() };
    assert_eq!(needs(need), [4115, 4113, 4115, 4115]);
    assert_eq!(needs(need_before), [4124, 4116, 4124, 4124]);
    let with_project = club_with_project().plan;
    assert_eq!(counted(&tables, &with_project), [1, 4, 4, 1, 2, 8]);
    assert_eq!(need_before(&with_project, &tables), 4128);
}

#[test]
fn k12_where_16_no_longer_comes_the_next_test_decides() {
    let club = club();
    let (set, plan) = (club.set_bytes(), club.plan_bytes());
    let codes = |out, scratch| report(&set, &plan, out, scratch).map(|report| report.codes);
    // The report has two cells. The need is 4,115 cells, and was 4,124.
    for out in [0, 1, 2, 100] {
        assert_eq!(codes(out, 4114), Err(16));
    }
    for scratch in [4115, 4119, 4123, 4124] {
        assert_eq!(codes(1, scratch), Err(15));
        assert_eq!(codes(2, scratch), Ok(vec![7, 4]));
    }
    // The last plan has four nodes, and there are three steps.
    let left = unnest(&set, &plan, ROOMY, ROOMY, ROOMY).expect("steps");
    assert_eq!(left.plan.len(), HEADER + 4 * NODE);
    assert_eq!(unnest(&set, &plan, ROOMY, ROOMY, 4114), Err(16));
    for scratch in [4115, 4123, 4124] {
        assert_eq!(unnest(&set, &plan, HEADER + 4 * NODE - 1, 6, scratch), Err(15));
        assert_eq!(unnest(&set, &plan, HEADER + 4 * NODE, 5, scratch), Err(15));
        assert_eq!(unnest(&set, &plan, HEADER + 4 * NODE, 6, scratch), Ok(left.clone()));
    }
    // Earlier numbers come as before, and 16 before 15.
    assert_eq!(report(&set, &plan[..5], 0, 0), Err(6));
    assert_eq!(report(b"", &plan, 0, 0), Err(11));
    assert_eq!(codes(0, 0), Err(16));
}

#[test]
fn k12_a_stay_note_has_the_same_need() {
    let mut club = club();
    club.tables[1].rows = vec![vec![9, BLANK], vec![7, 36], vec![4, 31], vec![7, 33]];
    let set = club.set_bytes();
    let left = unnest(&set, &club.plan_bytes(), ROOMY, ROOMY, ROOMY).expect("steps").plan;
    // Anti 1, Distinct 4, Scan 4, Select 2, Scan 8, where Anti had 4 and Select 8.
    assert_eq!(need_of(&set, &left), Ok(4115));
    assert_eq!(stay_note(&set, &left, 0, 4114), Err(16));
    for scratch in [4115, 4123, 4124] {
        assert_eq!(stay_note(&set, &left, 0, scratch), Ok(Some(0)));
        assert_eq!(stay_note(&set, &left, 1, scratch), Ok(None));
        assert_eq!(stay_note(&set, &left, 64, scratch), Ok(None));
    }
    assert_eq!(stay_note(&set, &left, 64, 4114), Err(16));
    // The note asks for the need of its own plan alone: from the Semi of 29 cells unnesting goes through a plan of 34.
    let tables = [one_column(&[1, 2, 3, 4]), Table { columns: 5, rows: (1..5).map(|key| vec![key; 5]).collect() }];
    let plan = semi(0, 1, number_test(2, Less, 3), players(), scan(1, 1));
    let (set, bytes) = (write_set(&tables), write_plan(&plan));
    assert_eq!(unnest_need(&set, &bytes), Ok(4096 + 34));
    assert_eq!(stay_note(&set, &bytes, 0, 4096 + 28), Err(16));
    assert_eq!(stay_note(&set, &bytes, 0, 4096 + 29), Ok(None));
}

#[test]
fn k12_the_largest_needs() {
    let chain = |child: Plan, over: &dyn Fn(Plan) -> Plan| {
        let mut plan = child;
        while plan.size() < 64 {
            plan = over(plan);
        }
        plan
    };
    let selects = |child| chain(child, &|plan| select(ALWAYS, plan));
    let sorts = |child| chain(child, &|plan| sort(false, &[0], plan));
    // The largest Scan: 63 Selects counted 16,000 cells each and count 16; 63 Sorts count what they counted.
    let tables = [sized(16, 1000)];
    let needs = |plan: &Plan, tables: &[Table]| {
        assert_eq!((plan.size(), refusal(tables, plan)), (64, None));
        (need_before(plan, tables), need(plan, tables))
    };
    assert_eq!(needs(&selects(scan(0, 0)), &tables), (1_028_096, 21_104));
    assert_eq!(needs(&sorts(scan(0, 0)), &tables), (1_028_096, 1_028_096));
    // The largest rows that there may be, 512 x 8 of 32 columns, counted by 62 of 64 nodes: the largest need of all plans.
    let tables = [sized(16, 512), sized(16, 8)];
    let product = || cross(scan(0, 0), scan(1, 16));
    assert_eq!(needs(&selects(product()), &tables), (8_138_880, 145_440));
    assert_eq!(needs(&sorts(product()), &tables), (8_138_880, 8_138_880));
}

#[test]
fn k12_rules_fit_and_stay_over_chains() {
    let named = edges();
    let edge = |name: &str| &named.iter().find(|(own, _)| own == name).expect("an edge").1;
    let rules = |name: &str| -> Vec<u8> {
        let Input { tables, plan } = edge(name);
        unnest_tree(plan, tables).0.into_iter().map(|(rule, _)| rule).collect()
    };
    assert_eq!(rules("U3 over chains"), [3]);
    assert_eq!(rules("U4 over chains"), [7, 4]);
    assert_eq!(rules("U6 over chains"), [6]);
    assert_eq!(rules("U8 over chains"), [8]);
    assert_eq!(rules("U1 to U3 over chains"), [1, 7, 3]);
    assert_eq!(rules("U2 to U4 over chains"), [2, 7, 4]);
    assert_eq!(rules("U5 and U6 over chains"), [5, 6]);
    for name in ["a Semi that stays over chains", "an Anti that stays over chains", "a Pair that stays over chains"] {
        let Input { tables, plan } = edge(name);
        // The values are 1, 3, 5 and 4.
        assert_eq!(stay_position(plan, 0, tables), Some(2), "{name}");
    }
}

/// How many nodes of one sort a plan of at most 64 may have over another plan, for the listing program to have the scratch for it.
fn most_over(tables: &[Table], child: Plan, over: fn(Plan) -> Plan, count: fn(&Plan, &[Table]) -> u64) -> usize {
    let mut plan = child;
    let below = plan.size();
    loop {
        let longer = over(plan.clone());
        if longer.size() > 64 || count(&longer, tables) > SCRATCH as u64 {
            return plan.size() - below;
        }
        plan = longer;
    }
}

#[test]
fn k12_plans_that_the_listing_program_has_scratch_for() {
    // The largest table, and the largest report: 4,096 rows of 32 columns.
    let (table, wide) = ([sized(16, 1000)], [sized(16, 64)]);
    let product = || cross(scan(0, 0), scan(0, 16));
    let selects: fn(Plan) -> Plan = |plan| select(ALWAYS, plan);
    let sorts: fn(Plan) -> Plan = |plan| sort(false, &[0], plan);
    assert_eq!(SCRATCH, 262_144);
    assert_eq!(most_over(&table, scan(0, 0), selects, need_before), 15);
    assert_eq!(most_over(&table, scan(0, 0), selects, need), 63);
    assert_eq!(most_over(&wide, product(), selects, need_before), 0);
    assert_eq!(most_over(&wide, product(), selects, need), 61);
    for count in [need_before, need] {
        assert_eq!(most_over(&table, scan(0, 0), sorts, count), 15);
        assert_eq!(most_over(&wide, product(), sorts, count), 0);
    }
    // 15 and 16 Selects before; 63 and 61 now; the largest report alone, with a Select before, and with a Sort.
    let chain = |count: usize, plan: Plan| (0..count).fold(plan, |plan, _| selects(plan));
    assert_eq!(need_before(&chain(15, scan(0, 0)), &table), 260_096);
    assert_eq!(need_before(&chain(16, scan(0, 0)), &table), 276_096);
    assert_eq!(need(&chain(63, scan(0, 0)), &table), 21_104);
    assert_eq!(need(&chain(61, product()), &wide), 139_168);
    assert_eq!(need(&product(), &wide), 137_216);
    assert_eq!(need_before(&selects(product()), &wide), 268_288);
    assert_eq!(need(&sorts(product()), &wide), 268_288);
    let text = |name: &str| large_runs().iter().find(|run| run.name == name).expect("a run").text();
    assert_eq!(text("scratch below the need"), "refused 16\n");
    // 9 of 64 left rows have a 3 in column 0. The rows without a 6 in the first five columns are number 2 and 5 of every seven.
    assert!(text("a Select over the largest report").starts_with("steps 0\nrows 3520 columns 32\n"));
    assert!(text("63 Selects over the largest table").starts_with("steps 0\nrows 286 columns 16\n2 5 1 4 0 "));
}

#[test]
fn no_free_id_no_fit_and_no_note() {
    for seed in 0..40 {
        let input = second::generate::all_ids_taken(&mut second::random::Random::new(seed));
        let place = input.plan.size() - 4 - 2 * 14;
        assert!(matches!(input.plan.at(place), Some(Plan::Semi { .. } | Plan::Anti { .. })));
        match free_id(&input.plan, &input.tables) {
            None => {
                assert_eq!(fit(&input.plan, place, &input.tables), None);
                assert_eq!(stay_position(&input.plan, place, &input.tables), None);
            }
            Some(id) => assert_eq!(id, 255),
        }
    }
}

#[test]
fn rooms_of_the_unnesting_call() {
    let club = club();
    let (set, plan) = (club.set_bytes(), club.plan_bytes());
    let most = unnest_need(&set, &plan).expect("a need") as usize;
    let left = unnest(&set, &plan, ROOMY, ROOMY, ROOMY).expect("steps");
    assert_eq!(unnest(&set, &plan, left.plan.len(), 6, most), Ok(left.clone()));
    assert_eq!(unnest(&set, &plan, left.plan.len() - 1, 6, most), Err(15));
    assert_eq!(unnest(&set, &plan, left.plan.len(), 5, most), Err(15));
    assert_eq!(unnest(&set, &plan, 0, 0, most - 1), Err(16));
    assert_eq!(unnest_word(Ok(&left)), (3 << 8) + ((left.plan.len() as u64) << 24));
    assert_eq!(unnest_word(Err(16)), 16);
}

#[test]
fn the_largest_need_may_be_that_of_a_plan_in_between() {
    let tables = [one_column(&[1, 2, 3, 4]), Table { columns: 5, rows: (1..5).map(|key| vec![key; 5]).collect() }];
    let plan = semi(0, 1, number_test(2, Less, 3), distinct(&[0], scan(0, 0)), scan(1, 1));
    let (steps, passed) = unnest_tree(&plan, &tables);
    assert_eq!(steps, [(7, 0), (3, 0)]);
    let needs: Vec<u64> = passed.iter().map(|plan| need(plan, &tables) - 4096).collect();
    // Semi 1, Distinct 4, Scan 4, Scan 20; a Select of 5 more; Project 1, Select 2, Group 8, Scan 20.
    assert_eq!(needs, [29, 34, 31]);
    let (set, plan) = (write_set(&tables), write_plan(&plan));
    assert_eq!(unnest(&set, &plan, 0, 0, 4096 + 33), Err(16));
    assert_eq!(unnest(&set, &plan, 0, 0, 4096 + 34), Err(15));
}

#[test]
fn trying_steps() {
    let club = club();
    let (set, plan) = (club.set_bytes(), club.plan_bytes());
    let left = unnest(&set, &plan, ROOMY, ROOMY, ROOMY).expect("steps");
    assert_eq!(try_steps(&set, &plan, &left.steps), Ok(left.plan.clone()));
    let other = [(0, 0), (9, 0), (1, 0), (2, 60), (2, 255), (2, 1), (4, 0)];
    assert_eq!(try_steps(&set, &plan, &other), Ok(plan.clone()));
    let mixed = [(2, 0), (2, 0), (4, 0), (7, 0), (8, 0), (4, 0), (4, 0)];
    assert_eq!(try_steps(&set, &plan, &mixed), Ok(left.plan));
}

#[test]
fn weights() {
    assert_eq!(weight(&club().plan), 3);
    // Pair 1, Group 0, Semi 2, Anti 2, Fold 2, Some 3, Every 3, Each 1.
    assert_eq!(weight(&every_kind()), 14);
    assert_eq!(weight(&semi(0, 1, ALWAYS, scan(0, 0), scan(0, 1))), 1);
}

#[test]
fn edges_are_accepted_and_keep_their_reports() {
    for (name, Input { tables, plan }) in edges() {
        assert_eq!(refusal(&tables, &plan), None, "{name}");
        let (_, passed) = unnest_tree(&plan, &tables);
        let last = &passed[passed.len() - 1];
        assert_eq!(report_of(&plan, &tables), report_of(last, &tables), "{name}");
    }
}

#[test]
fn words_for_c() {
    let answer = report(&club().set_bytes(), &club().plan_bytes(), ROOMY, ROOMY).expect("a report");
    assert_eq!(report_word(Ok(&answer)), (1 << 8) + (2 << 16));
    assert_eq!(report_word(Err(12)), 12);
    assert_eq!(stay_note_word(&Ok(Some(0))), 1 << 8);
    assert_eq!(stay_note_word(&Ok(Some(5))), (1 << 8) + (5 << 16));
    assert_eq!(stay_note_word(&Ok(None)), 0);
    assert_eq!(stay_note_word(&Err(16)), 16);
}
