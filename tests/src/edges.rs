//! Accepted inputs at the edges of what is accepted, each under a name.

use crate::build::*;
use crate::cells::{BLANK, LARGEST, OFF_SCALE};
use crate::generate::Input;
use crate::in_place;
use crate::keys::{in_bucket_of, rows_in_one_bucket, AROUND_POWERS};
use crate::plan::Comparison::{AtLeast, AtMost, Equal, Greater, Less, NotEqual};
use crate::plan::{Aggregate, Plan, Test, ALWAYS, COMPARISONS};
use crate::random::Random;
use crate::tables::Table;

/// The paper's listing: tables, and the plan of Every over Distinct and Select.
pub fn club() -> Input {
    let players = one_column(&[7, 9, 7, 4]);
    let cards = table(&[&[7, 36], &[9, BLANK], &[4, 31], &[7, 33]]);
    Input { tables: vec![players, cards], plan: every_card_over_30(cards_of_player()) }
}

/// The paper's listing with a Project of column 2 between the Every and its Select.
pub fn club_with_project() -> Input {
    Input { plan: every_card_over_30(project(&[2], cards_of_player())), ..club() }
}

/// The Every of the paper's listing with this inner plan.
fn every_card_over_30(inner: Plan) -> Plan {
    every(number_test(2, Greater, 30), distinct(&[0], scan(0, 0)), inner)
}

/// The inner plan of the paper's listing.
fn cards_of_player() -> Plan {
    select(columns_test(0, Equal, 1), scan(1, 1))
}

/// Cells of each sort: numbers at the ends of the range and around 0, blank, off scale.
const ENDS: [i64; 6] = [-LARGEST, LARGEST, BLANK, OFF_SCALE, 0, -1];

/// Numbers that are alike in their lower 32 bits; version 1's codes of blank and off scale, which are plain numbers now; and one of 52 bits.
const WIDE: [i64; 6] = [5 - (1 << 32), 5 + (1 << 32), -2_147_483_648, 2_147_483_647, 5, 5 + (1 << 51)];

/// All edges.
pub fn edges() -> Vec<(String, Input)> {
    let named = limits().into_iter().map(|(name, input)| (name.to_string(), input));
    let wide = [comparisons_by_tests(&WIDE), comparisons_by_keys(&WIDE)].concat();
    let wide = wide.into_iter().map(|(name, input)| (format!("{name}, of 64 bits"), input));
    named.chain(wide).chain(in_place::edges()).collect()
}

/// The edges but those of the kinds that pass rows on without a region.
fn limits() -> Vec<(&'static str, Input)> {
    let mut all = Vec::new();
    let mut add = |name, tables: Vec<Table>, plan| all.push((name, Input { tables, plan }));
    let two = || vec![sized(2, 3), sized(3, 2)];

    add("no table, Unit", vec![], Plan::Unit);
    add("Unit beside tables never scanned", two(), Plan::Unit);
    add("8 tables", (0..8).map(|number| sized(1 + number, number)).collect(), scan(7, 0));
    add("16 columns", vec![sized(16, 2)], scan(0, 100));
    add("no rows", vec![sized(5, 0)], scan(0, 0));
    add("1,000 rows", vec![sized(1, 1000)], scan(0, 0));
    add("cells at the ends of the range", vec![one_column(&ENDS)], scan(0, 0));
    add("cells around powers of two", vec![one_column(&AROUND_POWERS)], scan(0, 0));
    add("Cross 64 x 64", vec![sized(1, 64)], cross(scan(0, 0), scan(0, 1)));
    add("Each 64 x 64", vec![sized(1, 64)], each(scan(0, 0), scan(0, 1)));
    add("Cross 1,000 x 4", vec![sized(1, 1000), sized(2, 4)], cross(scan(0, 0), scan(1, 1)));
    let three = cross(cross(scan(0, 0), scan(0, 1)), scan(0, 2));
    add("Cross 16 x 16 x 16", vec![sized(1, 16)], three);
    add("Cross 1,000 x 0", vec![sized(1, 1000), sized(2, 0)], cross(scan(0, 0), scan(1, 1)));
    add("Cross 0 x 1,000", vec![sized(1, 0), sized(2, 1000)], cross(scan(0, 0), scan(1, 1)));
    let limit = || cross(scan(0, 0), scan(0, 1));
    add("Cross 64 x 64 x 1", vec![sized(1, 64)], cross(limit(), Plan::Unit));
    add("Cross 1 x (64 x 64)", vec![sized(1, 64)], cross(Plan::Unit, limit()));
    add("Cross 0 x (64 x 64)", vec![sized(1, 64), sized(2, 0)], cross(scan(1, 2), limit()));
    add("Each of 9 with an empty inner plan", vec![sized(1, 9), sized(2, 0)], each(scan(0, 0), scan(1, 1)));
    add("Each of 64 x 64 with an empty inner plan", vec![sized(1, 64), sized(2, 0)], each(limit(), scan(1, 2)));
    add("Each of none with 5", vec![sized(1, 0), sized(2, 5)], each(scan(0, 0), scan(1, 1)));
    add("Each of none with 64 x 64", vec![sized(1, 64), sized(2, 0)], each(scan(1, 2), limit()));
    add("32 columns", vec![sized(16, 2)], cross(scan(0, 0), scan(0, 16)));
    add("32 columns of 64 x 64 rows", vec![sized(16, 64)], cross(scan(0, 0), scan(0, 16)));
    let fold_32 = fold(Aggregate::Count, 255, ALWAYS, cross(scan(0, 0), scan(1, 16)), Plan::Unit);
    add("32 columns by a Fold", vec![sized(16, 2), sized(15, 1)], fold_32);
    let each_32 = each(scan(0, 0), scan(0, 200));
    add("32 columns by an Each", vec![sized(16, 2)], each_32);
    let semi_wide = semi(0, 32, ALWAYS, cross(scan(0, 0), scan(0, 16)), cross(scan(0, 32), scan(0, 48)));
    add("32 columns on both sides of a Semi", vec![sized(16, 1)], semi_wide);
    let mut tall = scan(0, 0);
    while tall.size() < 64 {
        tall = select(ALWAYS, tall);
    }
    add("64 nodes", vec![sized(2, 2)], tall);
    let units = (0..31).fold(Plan::Unit, |plan, _| cross(Plan::Unit, plan));
    add("63 nodes of Cross and Unit", vec![], units);
    add("ids up to 255", vec![sized(16, 1)], scan(0, 240));
    add("id 255 alone", vec![sized(1, 1)], scan(0, 255));
    add("a test of a column with itself", two(), select(columns_test(3, Equal, 3), scan(0, 3)));
    add("a list of 7", vec![sized(7, 2)], sort(true, &[6, 0, 5, 1, 4, 2, 3], scan(0, 0)));
    add("a Distinct of 7", vec![sized(9, 2)], distinct(&[8, 0, 5, 1, 4, 2, 3], scan(0, 0)));
    add("a test with the largest number", two(), select(number_test(1, AtMost, LARGEST), scan(0, 0)));
    add("a test with the least number", two(), select(number_test(0, AtLeast, -LARGEST), scan(0, 0)));
    let all_bytes = [0x1e_dcba_9876_5432, -0x1e_dcba_9876_5432].map(|number| number_test(0, NotEqual, number));
    add("a test with a number of all its bytes", two(), select(all_bytes[0], scan(0, 0)));
    add("a test with a negative number of all its bytes", two(), select(all_bytes[1], scan(0, 0)));
    add("a test that never passes", two(), select(NEVER, scan(0, 0)));
    let not = columns_test(0, Less, 1).not_turned();
    add("a not-mark with columns", two(), select(not, scan(0, 0)));
    let far = some(ALWAYS, scan(0, 0), each(scan(1, 10), select(columns_test(0, Equal, 20), scan(0, 20))));
    add("a name two rows out", two(), far);
    let beside = some(ALWAYS, scan(0, 0), cross(scan(1, 10), select(number_test(1, NotEqual, 2), scan(0, 20))));
    add("a Cross inside that names the row outside", two(), beside);
    let cut_outer = some(ALWAYS, scan(0, 0), select(columns_test(1, Less, 22), project(&[22], scan(1, 20))));
    add("a Select above a Project names an outer row", two(), cut_outer);
    let same_test = some(columns_test(0, Equal, 1), scan(0, 0), scan(0, 10));
    add("a test of two columns of e", two(), same_test);
    add("one table scanned three times", two(), cross(scan(0, 0), cross(scan(0, 9), scan(0, 5))));
    let cut_off = cross(project(&[0], scan(0, 0)), scan(1, 2));
    add("a Project that cuts off an id", two(), cut_off);
    let value = group(Aggregate::Sum(1), 7, keys(9, NotEqual, 0), scan(0, 0));
    add("ids of a Group named above it", two(), select(columns_test(7, Greater, 9), sort(false, &[9, 7], value)));
    add("every kind", vec![sized(2, 4), sized(3, 3)], every_kind());
    let club = club();
    add("the listing", club.tables, club.plan);
    all.extend(aggregates());
    all.extend(comparisons_by_tests(&ENDS));
    all.extend(comparisons_by_keys(&ENDS));
    all.extend(totals_beyond_64_bits());
    all.extend(comparisons_of_cards());
    all.extend(lists_with_equal_rows());
    all.extend(sequences_with_equal_rows());
    all.extend(projects_between());
    all.extend(projects_between_and_more());
    all.extend(no_fit_through_a_project());
    all.extend(projects_of_other_rules());
    all.extend(keys_of_many_rows());
    all.extend(inner_plans_of_many_rows());
    all
}

/// Cards with blanks at every place where they decide an aggregate or must not.
fn cards_with_blanks() -> Table {
    let counted: [(i64, &[i64]); 13] = [
        // Blanks first, between and last; none; alone; and no player at all.
        (1, &[5, BLANK, 7]),
        (2, &[BLANK, 8]),
        (3, &[6, BLANK]),
        (4, &[30, 6]),
        (5, &[BLANK]),
        (BLANK, &[BLANK]),
        // Off scale in both orders.
        (7, &[BLANK, OFF_SCALE]),
        (8, &[OFF_SCALE, BLANK]),
        // Totals that leave the range at both ends, with a blank and without one.
        (9, &[LARGEST, 1, BLANK]),
        (10, &[-1, BLANK, -LARGEST]),
        (11, &[LARGEST, 1]),
        (12, &[-4]),
        (13, &[2, -9, 3]),
    ];
    // Cards that do not count, one of them its player's only card.
    cards(&counted, &[(4, BLANK), (6, BLANK), (11, BLANK), (12, OFF_SCALE)])
}

/// Aggregates of the cards that count, by player, and sums over an Each and over sums.
fn aggregates() -> Vec<(&'static str, Input)> {
    let counts = number_test(11, Equal, 1);
    let players = || distinct(&[0], scan(0, 0));
    let folded = |aggregate| fold(aggregate, 20, counts, players(), select(columns_test(10, Equal, 0), scan(0, 10)));
    let paired = |aggregate| with_test(pair(aggregate, 20, keys(0, Equal, 10), players(), scan(0, 10)), counts);
    let grouped = |aggregate| with_test(group(aggregate, 20, keys(21, Equal, 10), scan(0, 10)), counts);
    let sum = Aggregate::Sum(12);
    // Players 20 and 21 have no card, so the Each gives blanks for them.
    let cards_of_each = each(scan(1, 30), select(columns_test(30, Equal, 10), scan(0, 10)));
    let over_each = group(sum, 20, keys(21, Equal, 30), cards_of_each);
    let over_sums = |key, sums| group(Aggregate::Sum(20), 40, keys(41, AtLeast, key), sums);
    let numbers = select(number_test(20, Less, LARGEST), paired(sum));
    let no_numbers = select(number_test(20, Less, LARGEST).not_turned(), folded(sum));
    [
        ("sums over blanks by a Fold", folded(sum)),
        ("sums over blanks by a Pair", paired(sum)),
        ("sums over blanks by a Group", grouped(sum)),
        ("the least over blanks", folded(Aggregate::Least(12))),
        ("the greatest over blanks", paired(Aggregate::Greatest(12))),
        ("sums over the blanks of an Each", over_each),
        ("sums over sums", over_sums(21, grouped(sum))),
        ("sums over sums that are numbers", over_sums(0, numbers)),
        ("sums that are no numbers, sorted", sort(false, &[20], no_numbers)),
    ]
    .map(|(name, plan)| (name, Input { tables: vec![cards_with_blanks(), one_column(&[20, 13, 21, 12, 20])], plan }))
    .to_vec()
}

/// Sums over a Cross whose totals leave 64 bits: that of all rows, and those of all rows but a fifth of them.
fn totals_beyond_64_bits() -> Vec<(&'static str, Input)> {
    // 2^62 is the sum of 512 times 9 * 10^15 and of this.
    let rest = (1 << 62) - 512 * LARGEST;
    let cell = |row: usize| if row < 512 { LARGEST } else { rest };
    let up = Table { columns: 2, rows: (0..513).map(|row| vec![row as i64 % 2, cell(row)]).collect() };
    let down = Table { columns: 2, rows: up.rows.iter().map(|row| vec![row[0], -row[1]]).collect() };
    let keyed = |count: i64| one_column(&(0..count).collect::<Vec<_>>());
    let crossed = || cross(scan(0, 10), scan(1, 20));
    let sum = Aggregate::Sum(11);
    [
        // 2^64 is 0 in 64 bits, and 2^63 the least number of 64.
        ("a total of 2^64", vec![up.clone(), keyed(4)], fold(sum, 30, ALWAYS, Plan::Unit, crossed())),
        ("a total of -2^64", vec![down.clone(), keyed(4)], fold(sum, 30, ALWAYS, Plan::Unit, crossed())),
        ("a total of 2^63", vec![up.clone(), keyed(2)], fold(sum, 30, ALWAYS, Plan::Unit, crossed())),
        ("a total of -2^63", vec![down.clone(), keyed(2)], fold(sum, 30, ALWAYS, Plan::Unit, crossed())),
        (
            "totals beyond 64 bits by a Pair",
            vec![up, keyed(5)],
            pair(sum, 30, keys(0, NotEqual, 20), scan(1, 0), crossed()),
        ),
        ("totals beyond 64 bits by a Group", vec![down, keyed(5)], group(sum, 30, keys(31, NotEqual, 20), crossed())),
    ]
    .map(|(name, tables, plan)| (name, Input { tables, plan }))
    .to_vec()
}

/// A plan's rows, each with 1 or 0 for each test: whether the row passes it.
fn outcomes(tests: &[Test], plan: Plan) -> Plan {
    let with_outcome = |plan, (new, test): (u8, &Test)| fold(Aggregate::Count, new, *test, plan, Plan::Unit);
    (10..).zip(tests).fold(plan, with_outcome)
}

/// Tests that compare cells of every sort, with three of them that are numbers and two by two.
fn comparisons_by_tests(cells: &[i64; 6]) -> Vec<(&'static str, Input)> {
    let every_two = cells.iter().flat_map(|&left| cells.map(|right| vec![left, right])).collect();
    let tables = vec![one_column(cells), Table { columns: 2, rows: every_two }];
    let with_number = |place: usize| COMPARISONS.map(|comparison| number_test(0, comparison, cells[place]));
    let not_marked = with_number(4).map(|test| test.not_turned());
    let numbers = [with_number(4), not_marked, with_number(0), with_number(1)].concat();
    let columns = COMPARISONS.map(|comparison| columns_test(0, comparison, 1));
    let both_marks = [columns, columns.map(|test| test.not_turned())].concat();
    let unequal = columns_test(0, NotEqual, 1);
    [
        ("all comparisons of a column with a number", outcomes(&numbers, scan(0, 0))),
        ("all comparisons of two columns", outcomes(&both_marks, scan(1, 0))),
        ("two columns that are not equal", select(unequal, scan(1, 0))),
        ("a not-marked test of columns that are not equal", select(unequal.not_turned(), scan(1, 0))),
    ]
    .map(|(name, plan)| (name, Input { tables: tables.clone(), plan }))
    .to_vec()
}

/// Keys of every sort, compared. Each right row has a power of 2, so that a sum tells which right rows a value meets.
fn comparisons_by_keys(cells: &[i64; 6]) -> Vec<(&'static str, Input)> {
    let powers = cells.iter().zip(0..).map(|(&cell, place)| vec![cell, 1 << place]).collect();
    let tables = vec![one_column(cells), Table { columns: 2, rows: powers }];
    let sum = |id: u8| Aggregate::Sum(id + 1);
    let with_pair = |left, (comparison, id)| pair(sum(id), id + 2, keys(0, comparison, id), left, scan(1, id));
    let paired = COMPARISONS.into_iter().zip((10..).step_by(10)).fold(scan(0, 0), with_pair);
    let grouped = |comparison, id| group(sum(id), id + 2, keys(id + 3, comparison, id), scan(1, id));
    let folded = |left, test, id| fold(sum(id), id + 2, ALWAYS, left, select(test, scan(1, id)));
    let e_left = folded(distinct(&[0], scan(0, 0)), columns_test(0, NotEqual, 10), 10);
    let e_right = folded(e_left, columns_test(20, NotEqual, 0), 20);
    let not_marked = folded(e_right, columns_test(0, NotEqual, 30).not_turned(), 30);
    [
        ("all comparisons of keys by Pairs", paired),
        ("≠ and < of keys by Groups", cross(grouped(NotEqual, 10), grouped(Less, 20))),
        ("Folds over a Select of ≠, with e's column left, right, and under a not-mark", not_marked),
    ]
    .map(|(name, plan)| (name, Input { tables: tables.clone(), plan }))
    .to_vec()
}

/// Some and Every with a ≠ over cards that are blank or off scale, alone and beside a number that passes or does not.
fn comparisons_of_cards() -> Vec<(&'static str, Input)> {
    let scores: [(i64, &[i64]); 7] = [
        (1, &[36, BLANK]),
        (2, &[10, BLANK]),
        (3, &[BLANK]),
        (4, &[10]),
        (5, &[OFF_SCALE, 12]),
        (6, &[OFF_SCALE]),
        (7, &[12]),
    ];
    let not_10 = number_test(12, NotEqual, 10);
    let players = || distinct(&[0], scan(0, 0));
    let cards_of = || select(columns_test(0, Equal, 10), scan(0, 10));
    [
        ("Every with ≠ over blanks", every(not_10, players(), cards_of())),
        ("Some with a not-marked ≠ over blanks", some(not_10.not_turned(), players(), cards_of())),
    ]
    .map(|(name, plan)| (name, Input { tables: vec![cards(&scores, &[])], plan }))
    .to_vec()
}

/// Scores, their players, and the rows' numbers. Rows are equal in the score alone, in the player alone, in both and in neither, with
/// blanks and off scale among them, and players of one score come neither up nor down.
fn scores_and_players() -> Table {
    table(&[
        &[36, 9, 1],
        &[BLANK, 4, 2],
        &[36, 7, 3],
        &[OFF_SCALE, 9, 4],
        &[36, 9, 5],
        &[BLANK, OFF_SCALE, 6],
        &[OFF_SCALE, 9, 7],
        &[31, BLANK, 8],
        &[36, 5, 9],
        &[OFF_SCALE, 9, 10],
    ])
}

/// Sorts both ways, over an even number of rows, an odd one, one and none, and downward over downward.
fn lists_with_equal_rows() -> Vec<(&'static str, Input)> {
    let even = scores_and_players();
    let odd = Table { columns: 3, rows: even.rows[..9].to_vec() };
    let by_score = |down, child| sort(down, &[0], child);
    let by_both = |down| sort(down, &[1, 0], scan(1, 0));
    let one = select(number_test(2, Equal, 3), scan(0, 0));
    let none = sort(true, &[11], select(NEVER, scan(0, 10)));
    [
        ("a downward list with equal scores", by_score(true, scan(0, 0))),
        ("an upward list with equal scores", by_score(false, scan(0, 0))),
        ("a downward list by player and score", by_both(true)),
        ("an upward list by player and score", by_both(false)),
        ("a downward list of a downward list by the same column", by_score(true, by_score(true, scan(0, 0)))),
        ("a downward list of a downward list by another column", by_score(true, sort(true, &[1], scan(0, 0)))),
        ("downward lists of one row and of none", each(by_score(true, one), none)),
        ("a Group over a downward list", group(Aggregate::Sum(2), 20, keys(21, Equal, 1), by_score(true, scan(0, 0)))),
    ]
    .map(|(name, plan)| (name, Input { tables: vec![even.clone(), odd.clone()], plan }))
    .to_vec()
}

/// Players of a downward list by score beside those of another table: in the order of the list, so that U3, U4 and U6 fit; and as they
/// would be with equal scores kept as they came, so that no rule fits and the sequences differ first at position 1.
fn sequences_with_equal_rows() -> Vec<(&'static str, Input)> {
    let in_reverse = one_column(&[9, 5, 7, BLANK, OFF_SCALE, 4]);
    let as_they_came = one_column(&[9, 7, 5, BLANK, 4, OFF_SCALE]);
    let list = || sort(true, &[10], scan(0, 10));
    let players = |table| distinct(&[0], scan(table, 0));
    let counted = |table| pair(Aggregate::Count, 20, keys(0, Equal, 11), players(table), list());
    [
        ("a Semi of the players in a downward list", semi(11, 0, ALWAYS, distinct(&[11], list()), scan(1, 0))),
        ("a Semi of the players as they came", semi(11, 0, ALWAYS, distinct(&[11], list()), scan(2, 0))),
        ("an Anti with a downward list", anti(0, 11, number_test(10, Less, 40), players(1), list())),
        ("a Pair with a downward list", counted(1)),
        ("a Pair of the players as they came", counted(2)),
    ]
    .map(|(name, plan)| {
        (name, Input { tables: vec![scores_and_players(), in_reverse.clone(), as_they_came.clone()], plan })
    })
    .to_vec()
}

/// Tables for plans with something between a nested step and its Select: players; cards with their numbers; the players with a card over
/// 30, in the order of these cards; and a wide table with a row for each player.
fn players_and_cards() -> Vec<Table> {
    let cards = table(&[&[7, 36, 1], &[9, BLANK, 2], &[4, 31, 3], &[7, 33, 4], &[BLANK, 40, 5], &[4, OFF_SCALE, 6]]);
    let wide = [7, 9, 4].map(|player| (0..16).map(|column| player + column).collect()).to_vec();
    vec![one_column(&[7, 9, 7, 4, BLANK]), cards, one_column(&[7, 4, 7, BLANK]), Table { columns: 16, rows: wide }]
}

/// Edges over these tables.
fn of_players_and_cards<const COUNT: usize>(plans: [(&'static str, Plan); COUNT]) -> Vec<(&'static str, Input)> {
    plans.map(|(name, plan)| (name, Input { tables: players_and_cards(), plan })).to_vec()
}

/// The players, each once: column 0.
fn each_player() -> Plan {
    distinct(&[0], scan(0, 0))
}

/// A Select by this test of the cards: a player under 1, a score under 2, a number under 3.
fn cards_by(test: Test) -> Plan {
    select(test, scan(1, 1))
}

/// Some with a card over 32.
fn one_over_32(inner: Plan) -> Plan {
    some(number_test(2, Greater, 32), each_player(), inner)
}

/// Every with cards over 32 alone.
fn all_over_32(inner: Plan) -> Plan {
    every(number_test(2, Greater, 32), each_player(), inner)
}

/// A Fold of the sum of the scores under 50.
fn sum_under_50(inner: Plan) -> Plan {
    fold(Aggregate::Sum(2), 9, number_test(2, Less, 50), each_player(), inner)
}

/// One Project between a nested step and its Select: U1, U2 and U5 fit, whether or not it lists the key.
fn projects_between() -> Vec<(&'static str, Input)> {
    let same = || cards_by(columns_test(0, Equal, 1));
    let same_turned = || cards_by(columns_test(1, Equal, 0));
    let sum = |list: &[u8], test| sum_under_50(project(list, cards_by(test)));
    let wide = select(columns_test(0, Equal, 10), scan(3, 10));
    let listed = project(&[11, 25, 12, 24, 13, 23, 14], wide);
    let mut all = of_players_and_cards([
        ("Some over a Project with the key", one_over_32(project(&[1, 2], same()))),
        ("Some over a Project without the key, e's column right", one_over_32(project(&[3, 2], same_turned()))),
        ("Every over a Project with the key, e's column right", all_over_32(project(&[3, 2, 1], same_turned()))),
        ("Every over a Project without the key", all_over_32(project(&[2], same()))),
        ("a Fold by = over a Project with the key", sum(&[2, 1], columns_test(0, Equal, 1))),
        ("a Fold by < over a Project with the key", sum(&[1, 2], columns_test(0, Less, 1))),
        ("a Fold by < over a Project with the key, e's column right", sum(&[1, 2], columns_test(1, Less, 0))),
        ("a Fold by ≥ over a Project without the key", sum(&[2], columns_test(0, AtLeast, 1))),
        ("a Fold by ≥ over a Project without the key, e's column right", sum(&[2], columns_test(1, AtLeast, 0))),
        ("a Fold by ≠ over a Project without the key", sum(&[2, 3], columns_test(1, NotEqual, 0))),
        ("Some over a Project of seven columns out of 16", some(number_test(25, Less, 24), each_player(), listed)),
    ]);
    all.push(("the listing with a Project between", club_with_project()));
    all
}

/// One Project between a nested step and its Select, in plans with more above it or below that decides steps too.
fn projects_between_and_more() -> Vec<(&'static str, Input)> {
    let same = |g| select(columns_test(0, Equal, 1), g);
    let outer = some(ALWAYS, scan(0, 0), project(&[2], same(each(scan(1, 1), scan(2, 5)))));
    let inmost = project(&[21], select(columns_test(10, Equal, 20), scan(1, 20)));
    let inner = select(columns_test(10, Equal, 0), some(number_test(21, Greater, 32), scan(1, 10), inmost));
    let two_deep = every(number_test(11, Greater, 32), each_player(), project(&[11], inner));
    let outside = same(select(columns_test(9, Less, 2), scan(1, 1)));
    let further_out = each(scan(2, 9), some(columns_test(9, NotEqual, 3), scan(0, 0), project(&[3], outside)));
    let mut full = all_over_32(project(&[2], same(scan(1, 1))));
    while full.size() < 64 {
        full = select(ALWAYS, full);
    }
    of_players_and_cards([
        ("a Project over a Select over a Project", one_over_32(project(&[2], same(project(&[2, 1], scan(1, 1)))))),
        (
            "a Project over a Select over a Select",
            all_over_32(project(&[2], same(select(number_test(3, Less, 6), scan(1, 1))))),
        ),
        ("a Some over a Project, and an Each inside that fits", outer),
        ("Projects between two deep", two_deep),
        ("a Project between, and columns further out", further_out),
        ("64 nodes with a Project between", full),
    ])
}

/// Something else than one Project between a nested step and its Select, or another Select below the Project: no rule fits.
fn no_fit_through_a_project() -> Vec<(&'static str, Input)> {
    let same = || cards_by(columns_test(0, Equal, 1));
    let below = |test| project(&[1, 2], cards_by(test));
    let naming = select(columns_test(0, Equal, 1), cards_by(number_test(0, Less, 9)));
    let further_out = each(scan(2, 8), one_over_32(below(columns_test(8, Equal, 1))));
    of_players_and_cards([
        ("Some over two Projects", one_over_32(project(&[2], project(&[2, 1], same())))),
        ("a Fold over two Projects", sum_under_50(project(&[1, 2], project(&[2, 1], same())))),
        ("Some over a Distinct", one_over_32(distinct(&[1, 2], same()))),
        ("a Fold over a Distinct", sum_under_50(distinct(&[2], same()))),
        ("Some over a Group", some(ALWAYS, each_player(), group(Aggregate::Count, 8, keys(9, Equal, 1), same()))),
        ("Every over an upward Sort", all_over_32(sort(false, &[2], same()))),
        ("a Fold over a downward Sort", sum_under_50(sort(true, &[2, 1], same()))),
        ("Every over a Project over a Sort", all_over_32(project(&[2], sort(false, &[2], same())))),
        ("Some over a Project over a Distinct", one_over_32(project(&[2], distinct(&[2, 1], same())))),
        ("Some over a Project over a Select above the linked one", one_over_32(project(&[2], select(ALWAYS, same())))),
        ("Some over a Project of a Scan", one_over_32(project(&[2, 1], scan(1, 1)))),
        ("Every over a not-marked Select below a Project", all_over_32(below(columns_test(0, Equal, 1).not_turned()))),
        ("a Fold over a not-marked Select below a Project", sum_under_50(below(columns_test(1, Less, 0).not_turned()))),
        ("Some over a Select of a number below a Project", one_over_32(below(number_test(1, Equal, 7)))),
        ("Every over a Select of two columns of g below a Project", all_over_32(below(columns_test(3, Equal, 1)))),
        ("Some by < over a Project", one_over_32(below(columns_test(0, Less, 1)))),
        ("Every by ≠ over a Project", all_over_32(below(columns_test(1, NotEqual, 0)))),
        ("a Fold over a Project, and g names a column of e", sum_under_50(project(&[2], naming))),
        ("Some over a Project, linked to a row further out", further_out),
    ])
}

/// Projects below the nodes of the rules that do not look through one.
fn projects_of_other_rules() -> Vec<(&'static str, Input)> {
    let over_30 = number_test(2, Greater, 30);
    // The players 7, 4 and blank, and off scale is not over 30.
    let cut = || project(&[2, 1], cards_by(over_30));
    let of_table = |table| distinct(&[0], scan(table, 0));
    let linked = project(&[2], cards_by(columns_test(0, Equal, 1)));
    of_players_and_cards([
        ("a Semi with a Select below a Project, all players", semi(0, 1, ALWAYS, of_table(0), cut())),
        ("a Semi with a Select below a Project, players over 30", semi(0, 1, ALWAYS, of_table(2), cut())),
        ("an Anti with a Select below a Project, all players", anti(0, 1, ALWAYS, of_table(0), cut())),
        ("an Anti with a Select below a Project, players over 30", anti(0, 1, ALWAYS, of_table(2), cut())),
        ("a Semi with a test of a Project", semi(0, 1, number_test(2, Less, 35), scan(0, 0), cut())),
        ("a Pair with a Select below a Project", pair(Aggregate::Least(2), 9, keys(0, AtMost, 1), of_table(2), cut())),
        ("an Each with a Project", each(scan(0, 0), cut())),
        ("an Each with a linked Select below a Project", each(scan(0, 0), linked)),
    ])
}

/// Tables of 34 rows, of 40 and of 3: a key, a cell and the row's number. Keys are equal, blank, off scale, at the ends of the range, and
/// different ones in the bucket of blank.
fn tables_of_many_rows() -> Vec<Table> {
    let in_one_bucket = in_bucket_of(&mut Random::new(40), BLANK, 4);
    let keys = [&in_one_bucket[..], &[BLANK, 7, OFF_SCALE, 7, LARGEST, -LARGEST, 8]].concat();
    let keyed = |height: usize, step: usize| {
        let cell = |row: usize| [5, -3, BLANK, 12, 5, 0, 4][row % 7];
        let row = |row: usize| vec![keys[(row * step + row / 11) % keys.len()], cell(row), row as i64];
        Table { columns: 3, rows: (0..height).map(row).collect() }
    };
    vec![keyed(34, 3), keyed(40, 5), keyed(3, 1)]
}

/// A table of 36 rows that are different in both of two columns, or equal in both, all in one bucket, and of a third column.
fn rows_of_one_bucket() -> Table {
    let shared = rows_in_one_bucket(&mut Random::new(41), 6);
    let row = |row: usize| [&shared[(5 * row + row / 7) % 6][..], &[row as i64 % 2]].concat();
    Table { columns: 3, rows: (0..36).map(row).collect() }
}

/// Edges over these tables.
fn of_many_rows<const COUNT: usize>(plans: [(&'static str, Plan); COUNT]) -> Vec<(&'static str, Input)> {
    plans.map(|(name, plan)| (name, Input { tables: tables_of_many_rows(), plan })).to_vec()
}

/// Keys that are looked up in more than 32 rows, and Sorts of as many.
fn keys_of_many_rows() -> Vec<(&'static str, Input)> {
    let (left, right) = (|| scan(0, 0), || scan(1, 10));
    let later = columns_test(2, Less, 12);
    let paired = |aggregate| pair(aggregate, 20, keys(0, Equal, 10), left(), right());
    let grouped = |aggregate| group(aggregate, 20, keys(21, Equal, 10), right());
    let mut all = of_many_rows([
        ("a Semi with 40 rows", semi(0, 10, number_test(11, Less, 5), left(), right())),
        ("an Anti with 40 rows", anti(0, 10, later, left(), right())),
        ("an Anti with 40 rows of few keys", anti(1, 11, ALWAYS, left(), right())),
        ("a Pair with 40 rows", with_test(paired(Aggregate::Sum(11)), later)),
        ("the least of 40 rows by a Pair", paired(Aggregate::Least(11))),
        ("a Group of 40 rows", with_test(grouped(Aggregate::Sum(12)), number_test(11, NotEqual, 5))),
        ("the greatest of 40 rows by a Group", grouped(Aggregate::Greatest(11))),
        ("a Group of 40 rows by ≠", group(Aggregate::Count, 20, keys(21, NotEqual, 10), right())),
        ("a Distinct of 40 rows", distinct(&[11, 10], right())),
        ("a downward Sort of 34 rows", sort(true, &[0], left())),
        ("an upward Sort of 40 rows by two columns", sort(false, &[11, 10], right())),
        ("a downward Sort of 33 rows", sort(true, &[1], select(number_test(2, Less, 33), left()))),
    ]);
    let listed = [&[0, 1][..], &[1, 2, 0]].map(|list| distinct(list, scan(0, 0)));
    let names = ["a Distinct of rows in one bucket", "a Distinct of rows in one bucket by three columns"];
    let shared = |plan| Input { tables: vec![rows_of_one_bucket()], plan };
    all.extend(names.into_iter().zip(listed.map(shared)));
    all
}

/// Inner plans over as many rows, which name the left row or do not.
fn inner_plans_of_many_rows() -> Vec<(&'static str, Input)> {
    let few = |first| project(&[first, first + 1], scan(2, first));
    let matched = |test| semi(10, 0, test, scan(1, 10), scan(0, 0));
    let of_matched = |test| group(Aggregate::Count, 20, keys(21, Equal, 11), matched(test));
    let further_out = fold(Aggregate::Sum(12), 60, ALWAYS, few(40), matched(columns_test(51, Less, 1)));
    let deep = every(columns_test(41, Less, 21), few(40), of_matched(columns_test(51, Less, 11)));
    of_many_rows([
        ("Some over a closed inner plan", some(columns_test(51, Less, 11), few(50), matched(ALWAYS))),
        ("Every over a closed inner plan without rows", every(NEVER, few(50), matched(NEVER))),
        (
            "a Fold over a closed inner plan",
            fold(Aggregate::Sum(12), 60, columns_test(51, Less, 11), few(50), matched(ALWAYS)),
        ),
        ("an Each with a closed inner plan", each(few(50), of_matched(ALWAYS))),
        ("an Each with a closed inner plan without rows", each(few(50), matched(NEVER))),
        (
            "Some over an inner plan whose Semi names the left row",
            some(ALWAYS, few(50), matched(columns_test(51, Equal, 11))),
        ),
        ("an Each with a Fold that names the row further out alone", each(few(50), further_out)),
        (
            "a Fold over an inner plan that names the left row in its own inner plan",
            fold(Aggregate::Count, 61, ALWAYS, few(50), deep),
        ),
    ])
}

/// A plan with all fifteen kinds.
pub fn every_kind() -> Plan {
    let pairs = pair(Aggregate::Greatest(12), 13, keys(0, AtMost, 10), scan(0, 0), scan(1, 10));
    let groups = group(Aggregate::Least(21), 22, keys(23, AtLeast, 20), scan(0, 20));
    let semis = semi(0, 23, number_test(22, Less, 5), pairs, groups);
    let antis = anti(1, 31, columns_test(30, NotEqual, 0), semis, distinct(&[31, 30], scan(0, 30)));
    let folds = fold(Aggregate::Sum(41), 43, ALWAYS, antis, select(columns_test(1, Equal, 40), scan(1, 40)));
    let somes = some(number_test(50, Greater, 0), folds, scan(0, 50));
    let everys = every(number_test(60, AtMost, 6), somes, project(&[60], scan(0, 60)));
    let eaches = each(everys, select(columns_test(70, Equal, 13), scan(0, 70)));
    sort(true, &[43, 0], cross(Plan::Unit, eaches))
}
