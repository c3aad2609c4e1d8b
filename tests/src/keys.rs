//! Keys for tables of many rows: all equal, few, many, all different, blank, off scale, at the ends of the range, alike in one half of their
//! bits, and different ones that share a bucket of a hash.
//!
//! The hash is the one that the library looks keys up by. Should it take another, these are keys like all others.

use crate::cells::{is_number, BLANK, LARGEST, OFF_SCALE};
use crate::random::Random;

/// What the folded word is multiplied by; the bucket is in the upper 12 bits of the product.
const FACTOR: u32 = 2_654_435_761;

/// What undoes that: the product of the two is 1.
const INVERSE: u32 = inverse();

/// The inverse of the factor among 32-bit numbers. Each round doubles the bits that are right, from three on.
const fn inverse() -> u32 {
    let mut inverse = FACTOR;
    let mut round = 0;
    while round < 4 {
        inverse = inverse.wrapping_mul(2u32.wrapping_sub(FACTOR.wrapping_mul(inverse)));
        round += 1;
    }
    inverse
}

/// A cell's word: its code plus 2^63.
fn word(code: i64) -> u64 {
    (code as u64).wrapping_add(1 << 63)
}

/// The code of a word.
fn code_of(word: u64) -> i64 {
    word.wrapping_sub(1 << 63) as i64
}

/// A cell's word folded to 32 bits: the sum of its halves.
pub fn folded(cell: i64) -> u32 {
    let word = word(cell);
    (word as u32).wrapping_add((word >> 32) as u32)
}

/// The bucket, out of 4,096, of a key or of a row of cells.
pub fn bucket(cells: &[i64]) -> u32 {
    let hash = cells.iter().fold(0u32, |hash, &cell| hash.wrapping_mul(FACTOR).wrapping_add(folded(cell)));
    hash.wrapping_mul(FACTOR) >> 20
}

/// How many upper halves the numbers have on either side of 0.
const UPPER_HALVES: usize = (LARGEST >> 32) as usize;

/// A number, anywhere in the range or of few digits, whose word is folded to this; now and then there is none.
fn folded_to(random: &mut Random, fold: u32) -> Option<i64> {
    let around = if random.chance(70) { UPPER_HALVES } else { 1 };
    let upper = ((1u64 << 31) - around as u64) + random.below(2 * around) as u64;
    let lower = fold.wrapping_sub(upper as u32);
    Some(code_of(upper << 32 | u64::from(lower))).filter(|&number| is_number(number))
}

/// So many different numbers in the bucket of a cell.
pub fn in_bucket_of(random: &mut Random, cell: i64, count: usize) -> Vec<i64> {
    let first = bucket(&[cell]) << 20;
    let mut numbers = Vec::new();
    while numbers.len() < count {
        let fold = (first + random.below(1 << 20) as u32).wrapping_mul(INVERSE);
        numbers.extend(folded_to(random, fold).filter(|number| !numbers.contains(number)));
    }
    numbers
}

/// So many different numbers whose words are folded to that of a number: the upper half goes up by one where the lower one goes down.
pub fn folded_alike(random: &mut Random, number: i64, count: usize) -> Vec<i64> {
    let fold = folded(number);
    let mut numbers = vec![number];
    while numbers.len() < count {
        numbers.extend(folded_to(random, fold).filter(|other| !numbers.contains(other)));
    }
    numbers
}

/// So many rows of two numbers, different in both and all in one bucket.
pub fn rows_in_one_bucket(random: &mut Random, count: usize) -> Vec<[i64; 2]> {
    let hash = random.bits() as u32;
    let mut rows: Vec<[i64; 2]> = Vec::new();
    while rows.len() < count {
        let first = if random.chance(50) { random.below(1_000_000) as i64 } else { anywhere(random) };
        let second = folded_to(random, hash.wrapping_sub(folded(first).wrapping_mul(FACTOR)));
        rows.extend(second.filter(|_| rows.iter().all(|row| row[0] != first)).map(|second| [first, second]));
    }
    rows
}

/// A number anywhere in the range.
pub fn anywhere(random: &mut Random) -> i64 {
    random.below(2 * LARGEST as usize + 1) as i64 - LARGEST
}

/// The numbers at both ends of the range, and around 0.
const ENDS: [i64; 9] = [-LARGEST, 1 - LARGEST, 2 - LARGEST, -1, 0, 1, LARGEST - 2, LARGEST - 1, LARGEST];

/// Numbers around powers of two, which so many bits hold just so or just not; version 1's ends and codes among them.
pub const AROUND_POWERS: [i64; 22] = [
    -(1 << 52) - 1,
    -(1 << 52),
    -(1 << 51) - 1,
    -(1 << 51),
    1 - (1 << 51),
    -(1 << 32),
    -2_147_483_649,
    -2_147_483_648,
    -2_000_000_001,
    -2_000_000_000,
    2_000_000_000,
    2_000_000_001,
    2_147_483_647,
    2_147_483_648,
    (1 << 32) - 1,
    1 << 32,
    (1 << 32) + 1,
    (1 << 51) - 1,
    1 << 51,
    (1 << 51) + 1,
    1 << 52,
    (1 << 52) + 1,
];

/// So many numbers that are alike in their lower 32 bits and different in the upper ones, up from the least of them.
pub fn alike_below(random: &mut Random, count: usize) -> Vec<i64> {
    let lower = random.below(1 << 32) as i64;
    let first = random.below(2 * UPPER_HALVES - count) as i64 - UPPER_HALVES as i64;
    (first..first + count as i64).map(|upper| (upper << 32) + lower).collect()
}

/// So many different numbers that are alike in their upper 32 bits.
pub fn alike_above(random: &mut Random, count: usize) -> Vec<i64> {
    let upper = random.below(2 * UPPER_HALVES) as i64 - UPPER_HALVES as i64;
    let step = (1 << 32) / count as i64;
    (0..count as i64).map(|number| (upper << 32) + step * number + random.below(step as usize) as i64).collect()
}

/// Numbers that an input's keys are drawn from.
pub fn pool(random: &mut Random) -> Vec<i64> {
    match random.below(13) {
        0 => vec![anywhere(random)],
        1 => vec![random.below(5) as i64, 5],
        2 => (0..random.between(3, 9) as i64).collect(),
        3 => (0..random.between(20, 60) as i64).collect(),
        4 => (0..1_200).map(|number| 3 * number - 700).collect(),
        // In one bucket, now and then in that of blank or of off scale.
        5 => {
            let of = random.pick(&[BLANK, OFF_SCALE, 0, 1, 2]);
            let count = random.between(2, 40);
            in_bucket_of(random, of, count)
        }
        6 => (0..random.between(3, 30)).flat_map(|_| some_in_one_bucket(random)).collect(),
        7 => ENDS.to_vec(),
        8 => AROUND_POWERS.to_vec(),
        9 => {
            let count = random.between(2, 400);
            alike_below(random, count)
        }
        10 => {
            let count = random.between(2, 400);
            alike_above(random, count)
        }
        11 => {
            let (number, count) = (anywhere(random), random.between(2, 40));
            folded_alike(random, number, count)
        }
        _ => (0..random.between(50, 900)).map(|_| anywhere(random)).collect(),
    }
}

/// A few numbers in one bucket, wherever that is.
fn some_in_one_bucket(random: &mut Random) -> Vec<i64> {
    let (of, count) = (anywhere(random), random.between(2, 5));
    in_bucket_of(random, of, count)
}

/// The order of a column's cells.
#[derive(Clone, Copy, Debug, PartialEq, Eq)]
pub enum Order {
    /// As they were drawn.
    Drawn,
    /// Up, by code.
    Up,
    /// Down, by code.
    Down,
    /// Up but for a few that have changed places.
    NearlyUp,
    /// Up in the first half, down in the second.
    UpAndDown,
}

/// All orders.
pub const ORDERS: [Order; 5] = [Order::Drawn, Order::Up, Order::Down, Order::NearlyUp, Order::UpAndDown];

/// Brings cells into an order.
pub fn arrange(random: &mut Random, cells: &mut [i64], order: Order) {
    if order != Order::Drawn {
        cells.sort_unstable();
    }
    let half = cells.len() / 2;
    match order {
        Order::Drawn | Order::Up => {}
        Order::Down => cells.reverse(),
        Order::NearlyUp if cells.is_empty() => {}
        Order::NearlyUp => {
            for _ in 0..random.between(1, 5) {
                cells.swap(random.below(cells.len()), random.below(cells.len()));
            }
        }
        Order::UpAndDown => cells[half..].reverse(),
    }
}

/// A column of keys out of a pool: drawn one by one, or one after another, which is all different where the pool is large enough; some, none or
/// all of them blank or off scale; in one of the orders.
pub fn column(random: &mut Random, pool: &[i64], height: usize) -> Vec<i64> {
    let first = random.below(pool.len());
    let in_turn = random.chance(40);
    let [blanks, off_scales] = [0; 2].map(|_| random.pick(&[0, 0, 0, 1, 5, 30, 100]));
    let mut cell = |place: usize| match random.below(100) {
        number if number < blanks => BLANK,
        number if number + off_scales >= 100 => OFF_SCALE,
        _ if in_turn => pool[(first + place) % pool.len()],
        _ => random.pick(pool),
    };
    let mut cells: Vec<i64> = (0..height).map(&mut cell).collect();
    let order = if random.chance(50) { Order::Drawn } else { random.pick(&ORDERS) };
    arrange(random, &mut cells, order);
    cells
}

#[cfg(test)]
mod tests {
    use super::*;

    #[test]
    fn keys_and_rows_share_buckets() {
        let mut random = Random::new(1);
        assert_eq!(FACTOR.wrapping_mul(INVERSE), 1);
        // Blank has the word 0; the halves of off scale's word are -1 each.
        assert_eq!(bucket(&[BLANK]), 0);
        assert_eq!((folded(OFF_SCALE), folded(0), folded(-1)), (u32::MAX - 1, 1 << 31, (1 << 31) - 2));
        for cell in [BLANK, OFF_SCALE, 0, -7, LARGEST] {
            let numbers = in_bucket_of(&mut random, cell, 30);
            assert!(numbers.iter().all(|&number| bucket(&[number]) == bucket(&[cell])));
        }
        for number in [0, -7, LARGEST] {
            let numbers = folded_alike(&mut random, number, 30);
            assert!(numbers.iter().all(|&other| is_number(other) && folded(other) == folded(number)));
        }
        let rows = rows_in_one_bucket(&mut random, 30);
        assert!(rows.iter().all(|row| bucket(row) == bucket(&rows[0])));
    }

    #[test]
    fn keys_are_alike_in_one_half() {
        let mut random = Random::new(2);
        let all_different = |mut values: Vec<i64>| {
            values.sort_unstable();
            values.windows(2).all(|two| two[0] != two[1]) && values.iter().all(|&value| is_number(value))
        };
        for count in [2, 40, 1200] {
            let (below, above) = (alike_below(&mut random, count), alike_above(&mut random, count));
            assert!(below.iter().all(|&number| number as u32 == below[0] as u32));
            assert!(above.iter().all(|&number| number >> 32 == above[0] >> 32));
            assert!(all_different(below) && all_different(above));
        }
        assert!(all_different(AROUND_POWERS.to_vec()));
    }
}
