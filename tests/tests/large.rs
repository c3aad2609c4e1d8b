//! The library's archive, held against the second evaluator on inputs with many rows. It prints what was met.
#![cfg(archive)]

use second::build::*;
use second::cells::{BLANK, LARGEST, OFF_SCALE};
use second::check::{check_tree, columns};
use second::evaluate::first_occurrences;
use second::generate::Input;
use second::held::{hold_check_steps, hold_prizes, hold_rooms, hold_stay_notes, hold_unnest, Counts, Due};
use second::keys::{
    alike_above, alike_below, anywhere, arrange, folded_alike, in_bucket_of, rows_in_one_bucket, Order, AROUND_POWERS,
    ORDERS,
};
use second::large::{large, work, Met};
use second::plan::Comparison::{Equal, Greater, Less, NotEqual};
use second::plan::{Aggregate, Comparison, Plan, Test, ALWAYS, COMPARISONS};
use second::random::Random;
use second::tables::{write_set, Table};
use second::wide::{summed_near_all, sums_of_all, wide_totals, Summed};

/// How many random inputs are tried, and how many rows, or pairs of rows, the second evaluator may look at for one of them.
const INPUTS: u64 = 4_000;
const WORK: u64 = 3_000_000;

/// The four aggregates, over a column.
fn aggregates(id: u8) -> [Aggregate; 4] {
    [Aggregate::Count, Aggregate::Sum(id), Aggregate::Least(id), Aggregate::Greatest(id)]
}

/// What holds the reports of plans against the second evaluator, with what it met.
struct Holder {
    random: Random,
    counts: Counts,
    met: Met,
    reports: usize,
}

impl Holder {
    fn new(seed: u64) -> Holder {
        Holder { random: Random::new(seed), counts: Counts::default(), met: Met::default(), reports: 0 }
    }

    /// Holds the reports of plans over the same tables.
    fn hold(&mut self, name: &str, tables: &[Table], plans: Vec<Plan>) {
        let set = write_set(tables);
        for plan in plans {
            let input = Input { tables: tables.to_vec(), plan };
            assert_eq!(check_tree(&input.plan, tables), Ok(()), "{name}, {:?}", input.plan);
            let due = Due::of(&input.plan, tables);
            self.met.count(&input.plan, tables);
            self.reports += 1;
            let held = hold_rooms(&mut self.random, &set, &input.plan_bytes(), &Ok(due), &mut self.counts);
            held.unwrap_or_else(|difference| panic!("{name}, {:?}: {difference}", input.plan));
        }
    }
}

#[test]
fn random_plans_over_many_rows_are_reported_as_by_the_second_evaluator() {
    let mut met = Met::default();
    let mut counts = Counts::default();
    let (mut rows, mut unnested) = (0, 0);
    for seed in 20_000_000..20_000_000 + INPUTS {
        let mut random = Random::new(seed);
        let input = large(&mut random, WORK);
        let (set, plan) = (input.set_bytes(), input.plan_bytes());
        met.count(&input.plan, &input.tables);
        let due = Due::of(&input.plan, &input.tables);
        rows += due.report.rows;
        let due = Ok(due);
        let mut held = hold_rooms(&mut random, &set, &plan, &due, &mut counts);
        if work(&input.plan, &input.tables) < WORK / 10 && random.chance(30) {
            unnested += 1;
            held = held
                .and_then(|()| hold_unnest(&mut random, &set, &plan, &mut counts))
                .and_then(|()| hold_stay_notes(&mut random, &set, &plan, &mut counts))
                .and_then(|()| hold_check_steps(&mut random, &set, &plan, &mut counts));
        }
        if random.chance(10) {
            held = held.and_then(|()| hold_prizes(&mut random, &set, &plan, &due, &mut counts));
        }
        held.unwrap_or_else(|difference| panic!("seed {seed}: {difference}"));
    }
    println!("random plans over many rows {INPUTS}, rows reported {rows}, plans unnested too {unnested}");
    print!("{}", met.lines());
    println!("steps of those {:?}, notes {:?}", &counts.rules[1..], counts.notes);
    print!("random plans over many rows: {}", counts.prize_lines());
    let many: Vec<usize> = met.looked_up.iter().map(|sizes| sizes[2]).collect();
    assert!(many.iter().chain(&met.keys).chain(&met.sorts).chain(&met.inner).all(|&count| count >= 50), "{met:?}");
}

/// Right sides around 32 rows, and left sides.
const RIGHT: [usize; 9] = [0, 1, 2, 31, 32, 33, 34, 64, 100];
const LEFT: [usize; 5] = [0, 1, 2, 33, 70];

/// Keys of every sort, each under its name; tables take them in turn.
fn sorts_of_keys(random: &mut Random) -> Vec<(&'static str, Vec<i64>)> {
    let one_bucket = in_bucket_of(random, 5, 50);
    // Numbers in the buckets of blank and of off scale, beside these.
    let [of_blank, of_off_scale] = [BLANK, OFF_SCALE].map(|cell| [in_bucket_of(random, cell, 4), vec![cell]].concat());
    vec![
        ("all equal", vec![-3]),
        ("two", vec![4, -4]),
        ("two in one bucket", one_bucket[..2].to_vec()),
        ("all in one bucket", one_bucket),
        ("all different", (0..1000).collect()),
        ("blank alone", vec![BLANK]),
        ("off scale alone", vec![OFF_SCALE]),
        ("blank and off scale", vec![BLANK, OFF_SCALE]),
        ("blank, off scale and their buckets", [of_blank, of_off_scale].concat()),
        ("the ends", vec![LARGEST, -LARGEST, LARGEST - 1, 1 - LARGEST, BLANK, OFF_SCALE]),
        ("few with a blank", vec![1, 2, BLANK, 3, 1]),
        ("alike in the lower half", alike_below(random, 1000)),
        ("two alike in the lower half", alike_below(random, 2)),
        ("alike in the upper half", alike_above(random, 1000)),
        ("of one sum of their halves", folded_alike(random, 5, 50)),
        ("around powers of two", [&AROUND_POWERS[..], &[BLANK, OFF_SCALE]].concat()),
    ]
}

/// A table of a key out of some, a cell of all sorts, a key of another step, and the row's number.
fn keyed(keys: &[i64], height: usize, first: usize) -> Table {
    let cells = [3, BLANK, -8, 0, LARGEST, 5, 5, OFF_SCALE, 1, -1, 2];
    let row = |row: usize| {
        let place = first + row;
        // Off scale is rare among the cells, so that most aggregates are numbers.
        let cell = if place % 61 == 7 { OFF_SCALE } else { cells[place % 7] };
        vec![keys[place % keys.len()], cell, keys[(7 * place + 3) % keys.len()], row as i64]
    };
    Table { columns: 4, rows: (0..height).map(row).collect() }
}

/// Every kind that compares keys over table 0, whose columns are 60 to 63, and table 1, with 126 to 129.
fn comparing() -> Vec<Plan> {
    let (left, right) = (|| scan(0, 60), || scan(1, 126));
    let tests = [
        ALWAYS,
        columns_test(61, Less, 127),
        columns_test(62, Equal, 128),
        columns_test(129, NotEqual, 63).not_turned(),
        number_test(129, Greater, 20),
        number_test(63, Less, 30),
    ];
    let mut all = Vec::new();
    for test in tests {
        all.push(semi(60, 126, test, left(), right()));
        all.push(anti(60, 126, test, left(), right()));
    }
    for (aggregate, test) in aggregates(127).into_iter().zip(tests) {
        all.push(with_test(pair(aggregate, 255, keys(60, Equal, 126), left(), right()), test));
        let test = number_test(129, Less, 90);
        all.push(with_test(group(aggregate, 255, keys(254, Equal, 126), right()), test));
    }
    for comparison in COMPARISONS {
        all.push(pair(Aggregate::Sum(129), 255, keys(60, comparison, 126), left(), right()));
        all.push(group(Aggregate::Sum(129), 255, keys(254, comparison, 126), right()));
    }
    for list in [&[126][..], &[128, 126], &[126, 127], &[127, 128, 126], &[129, 126]] {
        all.push(distinct(list, right()));
        all.push(sort(true, list, right()));
        all.push(sort(false, list, right()));
    }
    all
}

#[test]
fn keys_of_every_sort_are_compared_on_sides_of_every_size() {
    let mut holder = Holder::new(12);
    let sorts = sorts_of_keys(&mut holder.random);
    for (name, keys) in &sorts {
        for (left, right) in LEFT.iter().flat_map(|&left| RIGHT.map(|right| (left, right))) {
            // Not all of the left keys stand on the right too.
            let tables = [keyed(keys, left, 3), keyed(&keys[keys.len() / 4..], right, 0)];
            holder.hold(&format!("{name}, {left} and {right} rows"), &tables, comparing());
        }
    }
    print!("keys of {} sorts on up to 100 rows, reports {}\n{}", sorts.len(), holder.reports, holder.met.key_lines());
}

#[test]
fn keys_of_every_sort_are_compared_on_a_thousand_rows() {
    let mut holder = Holder::new(13);
    for (name, keys) in sorts_of_keys(&mut holder.random) {
        for (left, right) in [(1000, 999), (33, 1000), (1000, 32)] {
            let tables = [keyed(&keys, left, 3), keyed(&keys[keys.len() / 4..], right, 0)];
            holder.hold(&format!("{name}, {left} and {right} rows"), &tables, comparing());
        }
    }
    // Rows that are different in both of two columns, or equal in both, all in one bucket.
    for (count, height) in [(2, 33), (20, 64), (40, 1000), (500, 1000)] {
        let shared = rows_in_one_bucket(&mut holder.random, count);
        let row = |row: usize| [&shared[row * 7 % count][..], &[row as i64]].concat();
        let table = Table { columns: 3, rows: (0..height).map(row).collect() };
        let lists: [&[u8]; 4] = [&[0, 1], &[1, 0], &[1], &[1, 2, 0]];
        let name = format!("{count} rows in one bucket, {height} times");
        holder.hold(&name, &[table], lists.map(|list| distinct(list, scan(0, 0))).to_vec());
    }
    print!("keys on up to 1,000 rows, reports {}\n{}", holder.reports, holder.met.key_lines());
}

/// Every kind that compares keys over a Cross of tables 1 and 2, with a key under 10 and under 12, and table 0, with one under 0.
fn over_a_cross() -> Vec<Plan> {
    let (few, crossed) = (|| scan(0, 0), || cross(scan(1, 10), scan(2, 12)));
    let mut all = vec![
        semi(0, 12, ALWAYS, few(), crossed()),
        anti(0, 10, columns_test(13, Less, 1), few(), crossed()),
        semi(10, 0, columns_test(13, Less, 1), crossed(), few()),
        anti(12, 0, ALWAYS, crossed(), few()),
        group(Aggregate::Sum(13), 20, keys(21, Equal, 10), crossed()),
        group(Aggregate::Count, 20, keys(21, Equal, 12), crossed()),
        // The sum of all cells, half of them at one end of the range and half at the other.
        fold(Aggregate::Sum(13), 20, ALWAYS, few(), crossed()),
    ];
    all.extend(aggregates(13).map(|aggregate| pair(aggregate, 20, keys(0, Equal, 10), few(), crossed())));
    for list in [&[10][..], &[12], &[12, 10], &[13, 11]] {
        all.push(distinct(list, crossed()));
        all.extend([true, false].map(|down| sort(down, list, crossed())));
    }
    all
}

#[test]
fn keys_are_compared_on_crosses_of_4096_rows() {
    let mut holder = Holder::new(14);
    let shared = in_bucket_of(&mut holder.random, BLANK, 64);
    let different: Vec<i64> = (0..65).collect();
    let alike = alike_below(&mut holder.random, 64);
    let sorts_of_keys = [
        ("all different", &different[..]),
        ("two", &[1, 2]),
        ("one bucket", &shared),
        ("blank", &[BLANK]),
        ("alike in the lower half", &alike),
    ];
    for (name, keys) in sorts_of_keys {
        let table = |height: usize, first: usize| {
            let row = |row: usize| vec![keys[(row + first) % keys.len()], [LARGEST, -LARGEST][row % 2]];
            Table { columns: 2, rows: (0..height).map(row).collect() }
        };
        for [left, right] in [[64, 64], [63, 65]] {
            let tables = [table(40, 9), table(left, 0), table(right, 5)];
            holder.hold(&format!("{name}, {left} x {right} rows"), &tables, over_a_cross());
        }
    }
    print!("Crosses of 4,095 and 4,096 rows, reports {}\n{}", holder.reports, holder.met.key_lines());
}

/// A table of eight columns to be sorted: the row's number; the keys in an order, twice, with one of three numbers between; a number that falls
/// every five rows; and three that are equal in all rows.
fn to_sort(random: &mut Random, keys: &[i64], height: usize, order: Order) -> Table {
    let mut column: Vec<i64> = (0..height).map(|row| keys[row % keys.len()]).collect();
    arrange(random, &mut column, order);
    let row = |(row, key): (i64, i64)| vec![row, key, row % 3, key, -(row / 5), 9, 9, 9];
    Table { columns: 8, rows: (0..).zip(column).map(row).collect() }
}

#[test]
fn sorts_of_every_size_and_order() {
    let mut holder = Holder::new(15);
    let sorts_of_keys = sorts_of_keys(&mut holder.random);
    let lists: [&[u8]; 4] = [&[11], &[12, 11], &[13, 14], &[15, 16, 17, 11, 12, 13, 14]];
    for height in (0..=66).chain([127, 128, 129, 255, 256, 257, 511, 512, 513, 767, 999, 1000]) {
        for order in ORDERS {
            let (name, keys) = holder.random.pick(&sorts_of_keys);
            let table = to_sort(&mut holder.random, &keys, height, order);
            let both = lists.iter().flat_map(|list| [false, true].map(|down| sort(down, list, scan(0, 10))));
            // A Sort over a Sort, whose order among equal rows it keeps or turns; and rows that are equal but for the last listed column.
            let over = [false, true].map(|down| sort(down, &[12], sort(true, &[11], scan(0, 10))));
            let plans = both.chain(over).chain([distinct(lists[3], scan(0, 10))]).collect();
            holder.hold(&format!("{height} rows, {name}, {order:?}"), &[table], plans);
        }
    }
    print!("Sorts of 79 sizes in {} orders, reports {}, {}", ORDERS.len(), holder.reports, holder.met.sort_line());
}

/// So many numbers of each sort that a Sort may take for others: those that differ in one half of their bits alone, or that lie around
/// -2^51 and 2^51 or beyond, or anywhere; with blank and off scale among them.
fn wide_numbers(random: &mut Random, height: usize) -> Vec<(&'static str, Vec<i64>)> {
    let around = |middle: i64| (0..height as i64).map(|number| middle + 5 * number - 40).collect::<Vec<i64>>();
    let beyond = |random: &mut Random| random.pick(&[-1, 1]) * ((1 << 51) + random.below(1 << 52) as i64);
    let mut all = vec![
        ("alike in the lower half", alike_below(random, height)),
        ("alike in the upper half", alike_above(random, height)),
        ("around 2^51", around(1 << 51)),
        ("around -2^51", around(-(1 << 51))),
        ("beyond 2^51", (0..height).map(|_| beyond(random)).collect()),
        ("anywhere", (0..height).map(|_| anywhere(random)).collect()),
        ("around powers of two", (0..height).map(|_| random.pick(&AROUND_POWERS)).collect()),
    ];
    for (_, cells) in &mut all {
        for cell in [BLANK, OFF_SCALE] {
            if random.chance(50) {
                cells[random.below(height)] = cell;
            }
        }
    }
    all
}

#[test]
fn k13_sorts_of_wide_numbers_of_every_size() {
    let mut holder = Holder::new(19);
    for height in 2..=300 {
        for (name, keys) in wide_numbers(&mut holder.random, height) {
            let order = holder.random.pick(&ORDERS);
            let table = to_sort(&mut holder.random, &keys, height, order);
            // By the key alone, and by it after a column of three numbers.
            let plans = [&[11][..], &[12, 11]].map(|list| sort(holder.random.chance(50), list, scan(0, 10)));
            holder.hold(&format!("{height} rows, {name}, {order:?}"), &[table], plans.to_vec());
        }
    }
    print!("Sorts of wide numbers, of 2 to 300 rows, reports {}, {}", holder.reports, holder.met.sort_line());
}

#[test]
fn k13_sums_are_exact_beyond_64_bits() {
    let mut holder = Holder::new(20);
    for Summed { tables, total } in summed_near_all(&mut holder.random) {
        holder.hold(&format!("a total of {total}"), &tables, sums_of_all().to_vec());
    }
    // As many of the largest as of the least number, 4,096 in all; and all rows but one or two of one sign.
    for others in [0, 1, 2, 31, 32] {
        let cell = |row: usize| if row < others { -LARGEST } else { LARGEST };
        for sign in [1, -1] {
            let rows = (0..64).map(|row| vec![row as i64 % 2, sign * cell(row)]).collect();
            let tables = [Table { columns: 2, rows }, one_column(&[7; 64])];
            holder.hold(&format!("64 times {others} of 64"), &tables, sums_of_all().to_vec());
        }
    }
    for _ in 0..300 {
        let Input { tables, plan } = wide_totals(&mut holder.random);
        holder.hold("drawn", &tables, vec![plan]);
    }
    print!("sums beyond 64 bits, reports {}, {}", holder.reports, holder.counts.left_line());
    assert!(holder.counts.left.iter().all(|&count| count > 100), "{:?}", holder.counts.left);
}

/// A table of 16 columns whose cells tell their places, but for a third of them, which are small keys.
fn wide(height: usize) -> Table {
    let cell = |row: usize, column: usize| match (row + column) % 3 {
        0 => (row * column % 5) as i64,
        _ => (100 * column + row) as i64,
    };
    let rows = (0..height).map(|row| (0..16).map(|column| cell(row, column)).collect()).collect();
    Table { columns: 16, rows }
}

#[test]
fn keys_at_every_place_of_wide_rows() {
    let mut holder = Holder::new(16);
    let tables = [wide(8), wide(9), wide(5)];
    let left = || cross(scan(0, 0), scan(1, 16));
    let right = || cross(scan(0, 100), scan(2, 116));
    for place in 0..32u8 {
        let (own, other, further) = (place, 131 - (7 * place) % 32, 100 + (5 * place + 3) % 32);
        let test = columns_test(31 - place, NotEqual, further);
        let plans = vec![
            semi(own, other, test, left(), right()),
            anti(own, other, test.not_turned(), left(), right()),
            pair(Aggregate::Sum(further), 250, keys(own, Equal, other), project(&[own], left()), right()),
            group(Aggregate::Least(further), 250, keys(251, Equal, other), right()),
            distinct(&first_occurrences(&[other, further, 100 + place]), right()),
            sort(place % 2 == 0, &first_occurrences(&[other, further]), right()),
        ];
        holder.hold(&format!("place {place}"), &tables, plans);
    }
    println!("keys at every place of rows of 32 columns, reports {}", holder.reports);
}

/// Plans over table 1, whose columns are 190 and 191, with a test that is given one of their columns somewhere.
fn tested_inside(test: &dyn Fn(u8) -> Test) -> Vec<Plan> {
    let (rows, more, few) = (|| scan(1, 190), || scan(2, 200), || scan(3, 210));
    let tested = || select(test(190), rows());
    let of_more = select(test(200), semi(200, 210, ALWAYS, more(), few()));
    vec![
        tested(),
        project(&[191, 190], tested()),
        sort(true, &[190], tested()),
        distinct(&[190, 191], tested()),
        with_test(group(Aggregate::Sum(191), 195, keys(196, Equal, 190), rows()), test(191)),
        semi(190, 200, test(191), rows(), more()),
        anti(190, 200, test(200), rows(), more()),
        semi(190, 200, ALWAYS, rows(), of_more),
        with_test(pair(Aggregate::Greatest(201), 195, keys(190, Equal, 200), rows(), more()), test(201)),
        some(test(210), rows(), few()),
        every(test(190), rows(), few()),
        fold(Aggregate::Count, 195, test(210), rows(), few()),
        each(tested(), few()),
        cross(few(), tested()),
    ]
}

/// A nested node of each kind. The aggregate is of the inner plan's first column.
fn nestings(test: Test, new: u8, left: &Plan, inner: &Plan, tables: &[Table]) -> Vec<Plan> {
    let first = columns(inner, tables)[0];
    vec![
        some(test, left.clone(), inner.clone()),
        every(test, left.clone(), inner.clone()),
        fold(Aggregate::Sum(first), new, test, left.clone(), inner.clone()),
        each(left.clone(), inner.clone()),
    ]
}

/// Inner plans whose tests compare with a column from outside, if one is given, by = and by <; else with a number.
fn inner_plans(named: Option<u8>) -> Vec<Plan> {
    match named {
        None => tested_inside(&|own| number_test(own, Less, 3)),
        Some(named) => {
            let by = |comparison: Comparison| tested_inside(&move |own| columns_test(own, comparison, named));
            [by(Equal), by(Less)].concat()
        }
    }
}

#[test]
fn inner_plans_name_the_left_row_or_not() {
    let mut holder = Holder::new(17);
    for (left_rows, inner_rows) in [(0, 36), (1, 36), (12, 36), (2, 0), (12, 0)] {
        let keys = [2, 0, BLANK, 1, 5, OFF_SCALE, 3];
        let table = |height: usize, first: usize| {
            let row = |row: usize| vec![keys[(first + row) % 7], keys[(first + 3 * row) % 5]];
            Table { columns: 2, rows: (0..height).map(row).collect() }
        };
        let tables = [table(left_rows, 0), table(inner_rows, 1), table(35, 4), table(3, 3)];
        let name = format!("{left_rows} left rows, {inner_rows} inner rows");
        // The left row has the columns 63 and 64, the one between, if there is one, 127 and 128.
        let (left, between) = (scan(0, 63), scan(3, 127));
        for (named, inner) in [None, Some(63), Some(64)]
            .iter()
            .flat_map(|&named| inner_plans(named).into_iter().map(move |inner| (named, inner)))
        {
            let own = columns_test(64, NotEqual, columns(&inner, &tables)[0]);
            holder.hold(&name, &tables, nestings(ALWAYS, 250, &left, &inner, &tables));
            holder.hold(&name, &tables, nestings(own, 250, &left, &inner, &tables));
            if named.is_none() {
                holder.hold(&name, &tables, nestings(ALWAYS, 250, &Plan::Unit, &inner, &tables));
            }
        }
        for inner in [None, Some(64), Some(127)].into_iter().flat_map(inner_plans) {
            for middle in nestings(number_test(127, Less, 3), 251, &between, &inner, &tables) {
                holder.hold(&name, &tables, nestings(ALWAYS, 250, &left, &middle, &tables));
            }
        }
    }
    print!("one and two nestings, reports {}, {}", holder.reports, holder.met.inner_line());
}
