//! The prize fund table (request K4): how many pence of a purse each row of a report is paid, and how many are the club's.

use crate::calls::{read, report_of, Report};
use crate::cells::is_number;
use crate::check::need;

/// The largest purse, in pence.
pub const LARGEST_PURSE: u64 = 100_000_000;
/// The most places that have a share.
pub const MOST_SHARES: usize = 20;
/// The whole purse in hundredths of a per cent.
pub const WHOLE: u64 = 10_000;

/// A purse in pence, and the share of it that each place gets, in hundredths of a per cent.
#[derive(Clone, Debug, PartialEq, Eq)]
pub struct Fund {
    pub purse: u64,
    pub shares: Vec<u32>,
}

impl Fund {
    /// Whether the purse is in its range, so many shares are allowed, and they sum to the whole. Otherwise the fund is refused 17.
    pub fn is_right(&self) -> bool {
        let sum: u64 = self.shares.iter().map(|&share| u64::from(share)).sum();
        self.purse <= LARGEST_PURSE && (1..=MOST_SHARES).contains(&self.shares.len()) && sum == WHOLE
    }

    /// The pence of each place that has a share, in a fund that is right: its share of the purse rounded down, and then the pence left over, one
    /// each from the first place on.
    pub fn places(&self) -> Vec<u64> {
        let mut places = self.rounded_down();
        let left_over = self.left_over();
        // Rounding down takes less than a penny from each place.
        assert!(left_over < places.len(), "{left_over} pence left over");
        places[..left_over].iter_mut().for_each(|pence| *pence += 1);
        places
    }

    /// Each place's share of the purse, rounded down.
    fn rounded_down(&self) -> Vec<u64> {
        self.shares.iter().map(|&share| self.purse * u64::from(share) / WHOLE).collect()
    }

    /// The pence that are left over when each place has its share rounded down.
    pub fn left_over(&self) -> usize {
        (self.purse - self.rounded_down().iter().sum::<u64>()) as usize
    }
}

/// A row of a report that stands in the prize fund table.
#[derive(Clone, Copy, Debug, PartialEq, Eq)]
pub struct Placed {
    pub player: i64,
    pub score: i64,
    /// The pence of its place: of the first place for the first row, and so on. Rows past the last share have 0.
    pub pence: u64,
}

impl Placed {
    /// Whether it pools its pence with the row after it: their scores are equal numbers.
    fn pools_with(&self, next: &Placed) -> bool {
        is_number(self.score) && self.score == next.score
    }
}

/// The rows of a report of at least two columns, each with the pence of its place.
pub fn placed(report: &Report, fund: &Fund) -> Vec<Placed> {
    let pence = fund.places().into_iter().chain(std::iter::repeat(0));
    let rows = report.codes.chunks(report.columns);
    rows.zip(pence).map(|(row, pence)| Placed { player: row[0], score: row[1], pence }).collect()
}

/// The pools of rows: the longest runs of adjacent rows whose scores are equal numbers. Any other row is alone.
pub fn pools(rows: &[Placed]) -> impl Iterator<Item = &[Placed]> {
    rows.chunk_by(Placed::pools_with)
}

/// The prize fund table: each row's player and pence, in the report's order, and the club line.
#[derive(Clone, Debug, PartialEq, Eq)]
pub struct Prizes {
    pub rows: Vec<(i64, u64)>,
    pub club_line: u64,
}

impl Prizes {
    /// The prize fund table of a report of at least two columns, in a fund that is right.
    pub fn of(report: &Report, fund: &Fund) -> Prizes {
        // Places past the last row are not paid.
        let past_last_row = fund.places().iter().skip(report.rows).sum();
        let mut prizes = Prizes { rows: Vec::new(), club_line: past_last_row };
        for pool in pools(&placed(report, fund)) {
            let pence: u64 = pool.iter().map(|row| row.pence).sum();
            if is_number(pool[0].score) {
                let payments = split(pence, pool.len());
                prizes.rows.extend(pool.iter().map(|row| row.player).zip(payments));
            } else {
                prizes.rows.push((pool[0].player, 0));
                prizes.club_line += pence;
            }
        }
        prizes
    }

    /// The cells that the call writes, two for each row.
    pub fn cells(&self) -> Vec<i64> {
        self.rows.iter().flat_map(|&(player, pence)| [player, pence as i64]).collect()
    }

    /// All pence that are paid.
    pub fn paid(&self) -> u64 {
        self.rows.iter().map(|(_, pence)| pence).sum()
    }
}

/// Pence split evenly among so many rows, the odd ones to the first rows.
fn split(pence: u64, rows: usize) -> Vec<u64> {
    let (each, odd) = (pence / rows as u64, pence % rows as u64);
    (0..rows as u64).map(|row| if row < odd { each + 1 } else { each }).collect()
}

/// The numbers for which the call with an accepted plan is refused, in the order in which they are tested. The report and the need are the plan's.
pub fn refusals(report: &Report, need: u64, fund: &Fund, out_cells: usize, scratch_cells: usize) -> Vec<u8> {
    let tested = [
        (16, (scratch_cells as u64) < need),
        (17, !fund.is_right()),
        (18, report.columns < 2),
        (15, out_cells < 2 * report.rows),
    ];
    tested.into_iter().filter(|(_, refused)| *refused).map(|(number, _)| number).collect()
}

/// What the call answers with an accepted plan, whose report and need are given.
pub fn prizes_within(
    report: &Report,
    need: u64,
    fund: &Fund,
    out_cells: usize,
    scratch_cells: usize,
) -> Result<Prizes, u8> {
    match refusals(report, need, fund, out_cells, scratch_cells).first() {
        Some(&number) => Err(number),
        None => Ok(Prizes::of(report, fund)),
    }
}

/// The prize call: refusals 1 to 14, 16, 17, 18, 15, or the prize fund table.
pub fn prize(set: &[u8], plan: &[u8], fund: &Fund, out_cells: usize, scratch_cells: usize) -> Result<Prizes, u8> {
    let (tables, tree) = read(set, plan)?;
    prizes_within(&report_of(&tree, &tables), need(&tree, &tables), fund, out_cells, scratch_cells)
}

/// What C gets from the prize call.
pub fn prize_word(answer: &Result<Prizes, u8>) -> u64 {
    match answer {
        Ok(prizes) => ((prizes.rows.len() as u64) << 8) + (prizes.club_line << 24),
        Err(number) => u64::from(*number),
    }
}
