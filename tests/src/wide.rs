//! Inputs for request K13: totals that leave 64 bits and may come back into the range there, and inputs of version 1.

use crate::build::*;
use crate::cells::{BLANK, LARGEST, OFF_SCALE};
use crate::generate::Input;
use crate::plan::Comparison::{Equal, NotEqual};
use crate::plan::{Aggregate, Form, Plan, ALWAYS};
use crate::random::Random;
use crate::tables::Table;
use crate::version::VERSION_1;

/// So many numbers with this exact total. It lies within what so many numbers can give.
fn summing_to(random: &mut Random, height: usize, total: i128) -> Vec<i64> {
    let mut numbers = Vec::new();
    let mut rest = total;
    for left in (0..height as i128).rev() {
        // What the numbers after this one cannot give, this one must.
        let most = left * i128::from(LARGEST);
        let least_here = (rest - most).max(-i128::from(LARGEST));
        let most_here = (rest + most).min(i128::from(LARGEST));
        assert!(least_here <= most_here, "a total that so many numbers can give");
        let number = match random.below(4) {
            0 => least_here,
            1 => most_here,
            _ => least_here + (random.bits() as i128).rem_euclid(most_here - least_here + 1),
        };
        numbers.push(number as i64);
        rest -= number;
    }
    assert_eq!(rest, 0, "no rest");
    let middle = random.below(height.max(1));
    numbers.rotate_left(middle);
    numbers
}

/// The numbers that a total may be near: those where it comes back into the range of 64 bits, those where it leaves them, and the ends.
const LANDMARKS: [i128; 9] = [
    0,
    LARGEST as i128,
    -(LARGEST as i128),
    1 << 63,
    -(1 << 63),
    (1 << 63) + (1 << 62),
    -(1 << 63) - (1 << 62),
    1 << 64,
    -(1 << 64),
];

/// Rows of a Cross, in table 0 of a key and a cell and table 1 of few rows, with the exact total of their cells, which stand under the id 11.
pub struct Summed {
    pub tables: Vec<Table>,
    pub total: i128,
}

/// Rows, up to 4,096, of a Cross with a table of `times` rows. Their total is `times` times `more` above the landmark, or above the multiple of
/// `times` just below it.
fn summed_near(random: &mut Random, landmark: i128, more: i128, times: usize) -> Summed {
    let once = landmark.div_euclid(times as i128) + more;
    // Half as many rows again as the total needs, where there is room for them.
    let needed = once.unsigned_abs().div_ceil(LARGEST as u128) as usize;
    let height = (needed + random.between(1, needed / 2 + 20)).min(1000).min(4096 / times);
    let cells = summing_to(random, height, once);
    let row = |(row, &cell): (usize, &i64)| vec![row as i64 % 3, cell];
    let table = Table { columns: 2, rows: cells.iter().enumerate().map(row).collect() };
    Summed { tables: vec![table, one_column(&vec![7; times])], total: once * times as i128 }
}

/// Rows whose totals are near each landmark, on both sides of it and at it.
pub fn summed_near_all(random: &mut Random) -> Vec<Summed> {
    let more = [-LARGEST, -LARGEST / 4, -1_000_003, -2, -1, 0, 1, 2, 999_999_999_999, LARGEST / 4, LARGEST];
    let mut all = Vec::new();
    for (landmark, times) in LANDMARKS.iter().flat_map(|&landmark| [2, 3, 4].map(|times| (landmark, times))) {
        // Twice 1,000 of the largest do not reach 2^64.
        if times > 2 || landmark.unsigned_abs() < 1 << 64 {
            all.extend(more.map(|more| summed_near(random, landmark, i128::from(more), times)));
        }
    }
    all
}

/// The Cross of the two tables: a key under 10, a cell under 11, and 7 under 20.
pub fn crossed() -> Plan {
    cross(scan(0, 10), scan(1, 20))
}

/// A plan of each kind that has an aggregate, with the sum of all cells in the last column of its only row.
pub fn sums_of_all() -> [Plan; 3] {
    let sum = Aggregate::Sum(11);
    let seven = || distinct(&[40], scan(1, 40));
    [
        fold(sum, 30, ALWAYS, Plan::Unit, crossed()),
        pair(sum, 30, keys(40, Equal, 20), seven(), crossed()),
        group(sum, 30, keys(31, Equal, 20), crossed()),
    ]
}

/// A random accepted input with sums over a Cross whose totals are near a landmark; now and then with a blank or an off-scale cell among them.
pub fn wide_totals(random: &mut Random) -> Input {
    let times = random.pick(&[2, 3, 4]);
    let reach = LARGEST as usize / times;
    let more = (random.below(2 * reach + 1) as i128 - reach as i128) / random.pick(&[1, 1, 1_000_000, 1 << 50]);
    let landmark = match random.below(2) {
        // Twice 1,000 of the largest do not reach 2^64.
        0 if times > 2 => random.pick(&[1 << 64, -(1 << 64)]),
        _ => random.pick(&LANDMARKS[..7]),
    };
    let Summed { mut tables, .. } = summed_near(random, landmark, more, times);
    if random.chance(10) {
        let place = random.below(tables[0].rows.len());
        tables[0].rows[place][1] = random.pick(&[BLANK, OFF_SCALE]);
    }
    let sum =
        if random.chance(80) { Aggregate::Sum(11) } else { random.pick(&[Aggregate::Least(11), Aggregate::Count]) };
    let by_key = random.pick(&[Equal, NotEqual]);
    let three = || distinct(&[41], project(&[41], scan(0, 41)));
    let plan = match random.below(8) {
        0 => pair(sum, 30, keys(41, by_key, 10), three(), crossed()),
        1 => group(sum, 30, keys(31, by_key, 10), crossed()),
        2 => fold(sum, 30, columns_test(41, by_key, 10), three(), crossed()),
        _ => random.pick(&sums_of_all()),
    };
    Input { tables, plan }
}

/// An input with each number brought into version 1's range: one at an end of version 2's is as far from the end of version 1's.
pub fn narrowed(mut input: Input) -> Input {
    input.tables.iter_mut().flat_map(|table| table.rows.iter_mut().flatten()).for_each(|cell| *cell = narrow(*cell));
    for place in 0..input.plan.size() {
        let node = input.plan.at_mut(place).expect("a place of the plan");
        let Some(mut test) = node.test().copied() else { continue };
        if let Form::Number(_, _, number) = &mut test.form {
            *number = narrow(*number);
        }
        let narrow_node = with_test(std::mem::replace(node, Plan::Unit), test);
        *node = narrow_node;
    }
    input
}

/// A cell brought into version 1's range.
fn narrow(cell: i64) -> i64 {
    match cell {
        BLANK | OFF_SCALE => cell,
        number if VERSION_1.has_number(number) => number,
        number => number.signum() * (VERSION_1.largest - (LARGEST - number.abs()) % 1_000_000),
    }
}

#[cfg(test)]
mod tests {
    use super::*;

    #[test]
    fn numbers_have_the_total_that_is_asked_for() {
        let mut random = Random::new(1);
        for (height, total) in [(1, 5), (2, -7), (1000, 1000 * i128::from(LARGEST)), (1000, 0), (700, -(1 << 62))] {
            let numbers = summing_to(&mut random, height, total);
            assert_eq!((numbers.len(), numbers.iter().copied().map(i128::from).sum()), (height, total));
            assert!(numbers.iter().all(|number| number.abs() <= LARGEST));
        }
    }
}
