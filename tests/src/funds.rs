//! Inputs made for the prize fund table (request K4): funds, right ones and wrong ones of many sorts; reports of players and scores with ties and
//! with scores that are no numbers; and what was met of them.

use crate::build::*;
use crate::calls::Report;
use crate::cells::{is_number, BLANK, LARGEST, OFF_SCALE};
use crate::check::check_tree;
use crate::generate::{code, Input};
use crate::large::work;
use crate::plan::Comparison::{Equal, Less};
use crate::plan::{Aggregate, Plan, ALWAYS};
use crate::prizes::{placed, pools, refusals, Fund, Placed, LARGEST_PURSE, MOST_SHARES, WHOLE};
use crate::random::Random;
use crate::tables::Table;

// ---- funds

/// What is wrong with a fund, if anything.
#[derive(Clone, Copy, Debug, PartialEq, Eq)]
pub enum FundSort {
    Right,
    /// A purse one penny too large; the largest of 64 bits; and one that would be right in 32 bits.
    PurseOver,
    PurseLargest,
    PurseRightIn32Bits,
    /// No shares; one too many; and so many that they would be a right number in 8 or 16 bits. All but the first sum to the whole.
    NoShares,
    OneShareMore,
    ManyShares,
    /// Shares that sum to one less than the whole, one more, and to anything.
    SumOneLess,
    SumOneMore,
    SumElsewhere,
    /// Shares that would sum to the whole in 16 bits and in 32 bits.
    SumRightIn16Bits,
    SumRightIn32Bits,
    /// A wrong purse beside wrong shares.
    Both,
}

pub const FUND_SORTS: [FundSort; 13] = [
    FundSort::Right,
    FundSort::PurseOver,
    FundSort::PurseLargest,
    FundSort::PurseRightIn32Bits,
    FundSort::NoShares,
    FundSort::OneShareMore,
    FundSort::ManyShares,
    FundSort::SumOneLess,
    FundSort::SumOneMore,
    FundSort::SumElsewhere,
    FundSort::SumRightIn16Bits,
    FundSort::SumRightIn32Bits,
    FundSort::Both,
];

/// Purses at the ends of the range, small ones, primes, and one penny beside round ones.
pub const PURSES: [u64; 20] = [
    0,
    1,
    2,
    3,
    7,
    19,
    20,
    21,
    99,
    100,
    101,
    997,
    1_001,
    9_999,
    10_000,
    10_007,
    65_537,
    99_999_989,
    LARGEST_PURSE - 1,
    LARGEST_PURSE,
];

/// A purse in its range.
pub fn purse(random: &mut Random) -> u64 {
    match random.below(4) {
        0 => random.pick(&PURSES),
        1 => random.below(60) as u64,
        2 => random.below(10_000) as u64,
        _ => random.below(LARGEST_PURSE as usize + 1) as u64,
    }
}

/// A number of shares that is allowed.
fn share_count(random: &mut Random) -> usize {
    match random.below(4) {
        0 => random.pick(&[1, 2, 3, MOST_SHARES]),
        1 => random.between(1, 8),
        _ => random.between(1, MOST_SHARES),
    }
}

/// So many shares that sum to the whole: the parts into which cuts divide it. Cuts that fall together make shares of 0.
pub fn shares(random: &mut Random, count: usize) -> Vec<u32> {
    let whole = WHOLE as usize;
    let few = [0, 1, 2_500, 3_333, 5_000, whole - 1, whole];
    let style = random.below(4);
    let mut cuts: Vec<usize> = (1..count)
        .map(|number| match style {
            0 => random.pick(&few),
            1 => number * whole / count,
            _ => random.below(whole + 1),
        })
        .collect();
    cuts.extend([0, whole]);
    cuts.sort_unstable();
    let mut shares: Vec<u32> = cuts.windows(2).map(|ends| (ends[1] - ends[0]) as u32).collect();
    if random.chance(60) {
        shares.sort_unstable_by_key(|&share| std::cmp::Reverse(share));
    }
    shares
}

/// A random fund of a sort.
pub fn fund(random: &mut Random, sort: FundSort) -> Fund {
    let purse = match sort {
        FundSort::PurseOver => LARGEST_PURSE + 1,
        FundSort::PurseLargest => u64::MAX,
        FundSort::PurseRightIn32Bits => purse(random) + (random.between(1, 9) as u64) * (1 << 32),
        FundSort::Both => random.pick(&[LARGEST_PURSE + 1, u64::MAX, 1 << 32, 1 << 63]),
        _ => purse(random),
    };
    let count = share_count(random);
    let shares = match sort {
        FundSort::NoShares => vec![],
        FundSort::OneShareMore => shares(random, MOST_SHARES + 1),
        FundSort::ManyShares => {
            let more = random.pick(&[1 << 8, 1 << 8, 1 << 8, 1 << 16]);
            shares(random, count + more)
        }
        FundSort::SumOneLess => changed_sum(random, count, -1),
        FundSort::SumOneMore => changed_sum(random, count, 1),
        FundSort::SumElsewhere | FundSort::Both => wrong_shares(random, count),
        FundSort::SumRightIn16Bits => wrapped(random, count, 1 << 16),
        FundSort::SumRightIn32Bits => wrapped(random, count.max(2), 1 << 32),
        _ => shares(random, count),
    };
    Fund { purse, shares }
}

/// Shares that sum to the whole, with one of them changed by so much.
fn changed_sum(random: &mut Random, count: usize, by: i64) -> Vec<u32> {
    let mut shares = shares(random, count);
    let large_enough: Vec<usize> = (0..count).filter(|&place| i64::from(shares[place]) + by >= 0).collect();
    let place = random.pick(&large_enough);
    shares[place] = (i64::from(shares[place]) + by) as u32;
    shares
}

/// Shares that do not sum to the whole: all of 0, all of a whole, or any.
fn wrong_shares(random: &mut Random, count: usize) -> Vec<u32> {
    let shares: Vec<u32> = match random.below(4) {
        0 => vec![0; count],
        1 => vec![WHOLE as u32; count.max(2)],
        2 => (0..count).map(|_| random.below(WHOLE as usize) as u32).collect(),
        _ => (0..count).map(|_| random.bits() as u32).collect(),
    };
    let sum: u64 = shares.iter().map(|&share| u64::from(share)).sum();
    if sum == WHOLE {
        return vec![0; count];
    }
    shares
}

/// Shares that sum to the whole and once or more a limit more, so that they are right where the sum is kept below the limit. A limit of 32 bits
/// takes at least two shares.
fn wrapped(random: &mut Random, count: usize, limit: u64) -> Vec<u32> {
    let most = if limit > u64::from(u32::MAX) { count as u64 - 1 } else { 3 * count as u64 };
    let mut rest = WHOLE + limit * (1 + random.bits() % most);
    let mut shares = Vec::new();
    for left in (0..count as u64).rev() {
        // What those left cannot take up has to be taken now.
        let (least, largest) = (rest.saturating_sub(left * u64::from(u32::MAX)), rest.min(u64::from(u32::MAX)));
        let share = if left == 0 { rest } else { least + random.bits() % (largest - least + 1) };
        shares.push(share as u32);
        rest -= share;
    }
    shares
}

// ---- reports of players and scores

/// How the scores of a table come.
#[derive(Clone, Copy, Debug, PartialEq, Eq)]
enum Scores {
    /// Runs of equal numbers, with blank and off-scale scores between them and inside.
    Runs,
    /// Few numbers in any order; the same with blank and off scale.
    Few,
    FewWithBlanks,
    /// All equal, all blank, all off scale, and blank and off scale alone.
    Equal,
    Blank,
    OffScale,
    NoNumbers,
    /// All different.
    Different,
    /// Numbers that are alike in their lower 32 bits; and at the ends of the range and around 0.
    Alike,
    Ends,
}

const SCORES: [Scores; 14] = [
    Scores::Runs,
    Scores::Runs,
    Scores::Runs,
    Scores::Runs,
    Scores::Few,
    Scores::FewWithBlanks,
    Scores::FewWithBlanks,
    Scores::Equal,
    Scores::Blank,
    Scores::OffScale,
    Scores::NoNumbers,
    Scores::Different,
    Scores::Alike,
    Scores::Ends,
];

/// So many scores.
fn scores(random: &mut Random, height: usize) -> Vec<i64> {
    let from: Vec<i64> = match random.pick(&SCORES) {
        Scores::Runs => return runs(random, height),
        Scores::Different => return (0..height as i64).map(|row| row - 3).collect(),
        Scores::Few => vec![70, 71, 72],
        Scores::FewWithBlanks => vec![70, 70, 71, BLANK, OFF_SCALE],
        Scores::Equal => vec![random.pick(&[71, 0, -5])],
        Scores::Blank => vec![BLANK],
        Scores::OffScale => vec![OFF_SCALE],
        Scores::NoNumbers => vec![BLANK, OFF_SCALE],
        Scores::Alike => vec![7, 7 + (1 << 32), 7 - (1 << 32), 7 + (1 << 51)],
        Scores::Ends => vec![-LARGEST, 1 - LARGEST, LARGEST - 1, LARGEST, 0, -1, BLANK, OFF_SCALE],
    };
    (0..height).map(|_| random.pick(&from)).collect()
}

/// Runs of equal scores. Where one ends there may be a blank or off-scale score or two, and then the same number again.
fn runs(random: &mut Random, height: usize) -> Vec<i64> {
    let mut score = random.below(200) as i64 - 80;
    let mut cells = Vec::new();
    while cells.len() < height {
        let most = random.pick(&[1, 2, 3, 8, 30]);
        let length = random.between(1, most);
        cells.extend(vec![score; length]);
        if random.chance(35) {
            let gap = random.pick(&[BLANK, OFF_SCALE]);
            cells.extend(vec![gap; random.pick(&[1, 1, 2])]);
        }
        score += random.pick(&[0, 1, 1, 2]);
    }
    cells.truncate(height);
    cells
}

/// A table of so many rows with a player and a score in the two given columns, and any cells in the others.
fn players_and_scores(random: &mut Random, columns: usize, height: usize, [player, score]: [usize; 2]) -> Table {
    let scores = scores(random, height);
    let numbered = random.chance(60);
    let mut rows = Vec::new();
    for (number, &of_row) in scores.iter().enumerate() {
        let mut row: Vec<i64> = (0..columns).map(|_| code(random)).collect();
        row[score] = of_row;
        if numbered {
            row[player] = 1 + number as i64;
        }
        rows.push(row);
    }
    Table { columns, rows }
}

/// Two different columns out of so many.
fn two_columns(random: &mut Random, columns: usize) -> [usize; 2] {
    let one = random.below(columns);
    [one, (one + random.between(1, columns - 1)) % columns]
}

/// A list of a player's and a score's column, and of some of the others.
fn list_with(random: &mut Random, columns: usize, [player, score]: [usize; 2], first: u8) -> Vec<u8> {
    let others = (0..columns).filter(|&column| column != player && column != score);
    let kept: Vec<usize> = others.filter(|_| random.chance(40)).collect();
    [player, score].iter().chain(kept.iter().take(5)).map(|&column| first + column as u8).collect()
}

/// A number of rows: mostly up to 24, now and then more than the most shares.
fn height(random: &mut Random) -> usize {
    match random.below(20) {
        0 => 0,
        1 => 1,
        2..=14 => random.between(2, 24),
        _ => random.between(15, 40),
    }
}

/// A random accepted input whose report has players and scores, or now and then fewer than two columns.
pub fn prize_day(random: &mut Random) -> Input {
    loop {
        let input = drawn(random);
        if work(&input.plan, &input.tables) < 40_000 && check_tree(&input.plan, &input.tables).is_ok() {
            return input;
        }
    }
}

/// A random input, which may be refused for its columns or bounds.
fn drawn(random: &mut Random) -> Input {
    let columns = if random.chance(30) { 2 } else { random.between(2, 16) };
    let height = height(random);
    let first = random.below(100) as u8;
    let two = if random.chance(50) { [0, 1] } else { two_columns(random, columns) };
    let other = sized(random.between(1, 16), random.between(0, 6));
    let tables = vec![players_and_scores(random, columns, height, two), other];
    let listed = list_with(random, columns, two, first);
    let plan = match random.below(14) {
        0 => scan(0, first),
        1..=3 => project(&listed, scan(0, first)),
        4..=8 => over_rows(random, scan(0, first), &listed),
        9 => crossed(random, first),
        10 => {
            let rows = crossed(random, first);
            over_rows(random, rows, &listed)
        }
        11 => totals(random, first, &listed),
        _ => one_column_or_none(random, first, &listed),
    };
    Input { tables, plan }
}

/// A Cross of the table of players and scores and the other one, either way round.
fn crossed(random: &mut Random, first: u8) -> Plan {
    let (players, other) = (scan(0, first), scan(1, 200));
    if random.chance(70) {
        cross(players, other)
    } else {
        cross(other, players)
    }
}

/// A list of a player and a score from rows in one of several ways: in either order of scores, without some rows, without repeats.
fn over_rows(random: &mut Random, rows: Plan, listed: &[u8]) -> Plan {
    let (player, score) = (listed[0], listed[1]);
    let by = if random.chance(50) { vec![score] } else { vec![score, player] };
    match random.below(6) {
        0 => sort(false, &by, project(listed, rows)),
        1 => sort(true, &by, project(listed, rows)),
        2 => project(listed, sort(random.chance(50), &by, rows)),
        3 => project(listed, select(number_test(score, Less, 72), rows)),
        // Blank and off-scale scores stay.
        4 => sort(false, &by, project(listed, select(number_test(score, Less, 70).not_turned(), rows))),
        _ => distinct(listed, rows),
    }
}

/// Players with the totals of their scores, by a Group, a Fold or a Pair, in any order.
fn totals(random: &mut Random, first: u8, listed: &[u8]) -> Plan {
    let (player, score) = (listed[0], listed[1]);
    let aggregate =
        random.pick(&[Aggregate::Sum(score), Aggregate::Count, Aggregate::Least(score), Aggregate::Greatest(score)]);
    let (rows, key, total) = (scan(0, first), 130 + player - first, 251);
    let left = distinct(&[key], scan(0, 130));
    let plan = match random.below(3) {
        0 => group(aggregate, total, keys(250, Equal, player), rows),
        1 => fold(aggregate, total, columns_test(key, Equal, player), left, rows),
        _ => pair(aggregate, total, keys(key, Equal, player), left, rows),
    };
    match random.below(3) {
        0 => plan,
        way => sort(way == 1, &[total], plan),
    }
}

/// A plan of one column or none, with rows or without.
fn one_column_or_none(random: &mut Random, first: u8, listed: &[u8]) -> Plan {
    match random.below(5) {
        0 => Plan::Unit,
        1 => cross(Plan::Unit, Plan::Unit),
        2 => select(NEVER, project(&listed[..1], scan(0, first))),
        3 => semi(listed[1], 200, ALWAYS, project(&listed[1..2], scan(0, first)), scan(1, 200)),
        _ => project(&listed[..1], scan(0, first)),
    }
}

/// A random accepted input with many rows: of a table of up to 1,000, or of a Cross of up to 4,096, of up to 32 columns.
pub fn many_rows(random: &mut Random) -> Input {
    let by_cross = [(64, 64), (1000, 4), (4, 1000), (512, 8), (1, 1000), (65, 63), (16, 256)];
    let (height, times) = if random.chance(40) { (random.between(41, 1000), 1) } else { random.pick(&by_cross) };
    let columns = random.pick(&[2, 2, 2, 3, 4, 16]);
    let other = sized(if columns == 16 { 16 } else { 1 }, times);
    let tables = vec![players_and_scores(random, columns, height, [0, 1]), other];
    // Where the players come first each row stands so many times in turn; where they come second the whole table does.
    let plan = match random.below(4) {
        _ if times == 1 => scan(0, 0),
        0 => project(&[0, 1], cross(scan(1, 200), scan(0, 0))),
        1 => sort(random.chance(50), &[1], cross(scan(0, 0), scan(1, 200))),
        _ => cross(scan(0, 0), scan(1, 200)),
    };
    Input { tables, plan }
}

// ---- what was met

/// How often each sort of pool, club line and refusal was met.
#[derive(Clone, Default, Debug)]
pub struct Met {
    /// Pools of two rows or more; those of them with rows at places with a share and past the last one; those with odd pence.
    pub ties: usize,
    pub across: usize,
    pub odd_pence: usize,
    /// Tables with blank or off-scale scores between equal ones.
    pub inside: usize,
    /// Tables where the pence left over reach a share of 0; a place past the last row.
    pub left_over: [usize; 2],
    /// Tables whose club line is not 0: by blank and off-scale scores, by places past the last row.
    pub club_lines: [usize; 2],
    /// Tables with blank or off-scale players.
    pub players: usize,
    /// Tables of no rows, up to as many as there are shares, of more, and of 1,000 or more.
    pub rows: [usize; 4],
    /// Refused 17: for the purse, the number of shares, their sum; for a sum that is right in 16 bits, in 32.
    pub refused_17: [usize; 5],
    /// Refused for a number where the next would be another: 16 before 17, 18 and 15; 17 before 18 and 15; 18 before 15.
    pub before: [usize; 6],
}

/// The two numbers of each count in `Met::before`.
const ORDER: [[u8; 2]; 6] = [[16, 17], [16, 18], [16, 15], [17, 18], [17, 15], [18, 15]];

impl Met {
    /// Counts a call with an accepted plan, whose report and need are given.
    pub fn count(&mut self, report: &Report, need: u64, fund: &Fund, out_cells: usize, scratch_cells: usize) {
        let numbers = refusals(report, need, fund, out_cells, scratch_cells);
        if numbers.is_empty() {
            self.count_table(report, fund);
        }
        if numbers.first() == Some(&17) {
            self.count_17(fund);
        }
        for (count, order) in self.before.iter_mut().zip(ORDER) {
            *count += usize::from(numbers.len() >= 2 && numbers[..2] == order);
        }
    }

    /// Counts what a table that is given has.
    fn count_table(&mut self, report: &Report, fund: &Fund) {
        let rows = placed(report, fund);
        let shares = fund.shares.len();
        self.count_pools(&rows, shares);
        self.inside += usize::from(has_gap_inside(&rows));
        let reached = fund.left_over();
        self.left_over[0] += usize::from(fund.shares[..reached].contains(&0));
        self.left_over[1] += usize::from(reached > rows.len());
        let no_number = |row: &&Placed| !is_number(row.score);
        self.club_lines[0] += usize::from(rows.iter().filter(no_number).any(|row| row.pence > 0));
        self.club_lines[1] += usize::from(fund.places().iter().skip(rows.len()).any(|&pence| pence > 0));
        self.players += usize::from(rows.iter().any(|row| !is_number(row.player)));
        let size = match rows.len() {
            0 => 0,
            length if length <= shares => 1,
            1..=999 => 2,
            _ => 3,
        };
        self.rows[size] += 1;
    }

    /// Counts the pools of rows, where there are so many shares.
    fn count_pools(&mut self, rows: &[Placed], shares: usize) {
        let mut start = 0;
        for pool in pools(rows) {
            let end = start + pool.len();
            if pool.len() >= 2 {
                let pence: u64 = pool.iter().map(|row| row.pence).sum();
                self.ties += 1;
                self.across += usize::from(start < shares && end > shares);
                self.odd_pence += usize::from(pence % pool.len() as u64 > 0);
            }
            start = end;
        }
    }

    /// Counts why a fund is refused.
    fn count_17(&mut self, fund: &Fund) {
        let sum: u64 = fund.shares.iter().map(|&share| u64::from(share)).sum();
        let wrong_sum = sum != WHOLE && !fund.shares.is_empty();
        let met = [
            fund.purse > LARGEST_PURSE,
            !(1..=MOST_SHARES).contains(&fund.shares.len()),
            wrong_sum,
            wrong_sum && sum % (1 << 16) == WHOLE,
            wrong_sum && sum % (1 << 32) == WHOLE,
        ];
        self.refused_17.iter_mut().zip(met).for_each(|(count, met)| *count += usize::from(met));
    }

    /// The counts as lines of text.
    pub fn lines(&self) -> String {
        self.table_lines() + &self.refusal_line()
    }

    /// The counts of tables that are given, as two lines of text.
    pub fn table_lines(&self) -> String {
        let [to_zero, past] = self.left_over;
        let [no_numbers, unpaid] = self.club_lines;
        let [none, few, more, many] = self.rows;
        format!("prize pools {}, across the last share {}, with odd pence {}; ", self.ties, self.across, self.odd_pence)
            + &format!("tables with a blank or off-scale score inside a tie {}, ", self.inside)
            + &format!("with such a player {}; ", self.players)
            + &format!("club lines not 0 by scores {no_numbers}, by places past the last row {unpaid}\n")
            + &format!("tables whose pence left over reach a share of 0 {to_zero}, a place past the last row {past}; ")
            + &format!(
                "tables of no rows {none}, up to the last share {few}, past it {more}, of 1,000 or more {many}\n"
            )
    }

    /// The counts of refused funds and of two faults at once, as a line of text.
    pub fn refusal_line(&self) -> String {
        let [purse, count, sum, in_16, in_32] = self.refused_17;
        let of_two = |([one, other], met): (&[u8; 2], usize)| format!("{one} before {other} {met}");
        let order: Vec<String> = ORDER.iter().zip(self.before).map(of_two).collect();
        format!("17 for the purse {purse}, the number of shares {count}, their sum {sum}, ")
            + &format!("one that is right in 16 bits {in_16}, in 32 {in_32}; {}\n", order.join(", "))
    }
}

/// Whether blank or off-scale scores stand between equal numbers, with nothing else.
fn has_gap_inside(rows: &[Placed]) -> bool {
    let numbers: Vec<(usize, i64)> =
        rows.iter().map(|row| row.score).enumerate().filter(|row| is_number(row.1)).collect();
    numbers.windows(2).any(|two| two[1].0 > two[0].0 + 1 && two[0].1 == two[1].1)
}
