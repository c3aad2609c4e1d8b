//! Sums and counts: Fold, Pair and Group.

use super::check::{holds_number, place, Check, Filter, Side};
use super::hash::Keys;
use super::matching::Inner;
use super::{Prepared, Rows, Run, View};
use second::cells::{is_number, BLANK, OFF_SCALE};
use second::plan::{Aggregate, Comparison, Keys as KeyIds, Plan, Test};

/// A sum on its way. 4,096 numbers can leave 64 bits.
#[derive(Clone, Copy, Default)]
struct Sum {
    sum: i128,
    blank: bool,
    off_scale: bool,
}

impl Sum {
    #[inline]
    fn add(&mut self, cell: i64) {
        match cell {
            BLANK => self.blank = true,
            OFF_SCALE => self.off_scale = true,
            number => self.sum += i128::from(number),
        }
    }

    /// An off-scale cell wins, then a blank one, then a sum outside of the range.
    #[inline]
    fn cell(self) -> i64 {
        match i64::try_from(self.sum) {
            _ if self.off_scale => OFF_SCALE,
            _ if self.blank => BLANK,
            Ok(sum) if is_number(sum) => sum,
            _ => OFF_SCALE,
        }
    }
}

/// What an aggregate adds up: the cell at a place, or 1 for each row where it is a count.
#[derive(Clone, Copy)]
enum Summed {
    Ones,
    Place(usize),
}

fn summed(aggregate: Aggregate, ids: &[u8]) -> Summed {
    match aggregate {
        Aggregate::Count => Summed::Ones,
        Aggregate::Sum(id) => Summed::Place(place(id, ids)),
        _ => unimplemented!("an aggregate that is not compared"),
    }
}

impl Summed {
    #[inline]
    fn cell(self, row: &[i64]) -> i64 {
        match self {
            Summed::Ones => 1,
            Summed::Place(place) => row[place],
        }
    }
}

/// The aggregate over the rows that pass two tests.
fn total(rows: &Rows, one: Filter, other: Filter, summed: Summed) -> i64 {
    let mut sum = Sum::default();
    one.for_each(rows, |row| {
        if other.passes(row) {
            sum.add(summed.cell(row));
        }
    });
    sum.cell()
}

pub fn fold<'t>(aggregate: Aggregate, test: &Test, left: Prepared<'t>, inner: &Plan, view: &View<'t, '_>) -> Run<'t> {
    let inner = Inner::of(inner, &left.ids, view);
    let summed = summed(aggregate, &inner.plan.ids);
    let test = Check::of(test, view.outer, &left.ids, &inner.plan.ids);
    Box::new(move |outer| {
        let lefts = (left.run)(outer);
        let mut cells = Vec::with_capacity(lefts.cells.len() + lefts.count());
        inner.for_each(&lefts, outer, |row, inner_rows| {
            let test = test.given(outer, row);
            cells.extend_from_slice(row);
            cells.push(total(inner_rows, test, Filter::Fixed(true), summed));
        });
        Rows::new(cells, lefts.width + 1)
    })
}

/// With = and a test of the right row alone by a hash table, else by a loop.
pub fn pair<'t>(
    aggregate: Aggregate,
    keys: KeyIds,
    test: &Test,
    left: Prepared<'t>,
    right: Prepared<'t>,
    view: &View<'t, '_>,
) -> Run<'t> {
    let test = Check::of(test, view.outer, &left.ids, &right.ids);
    let summed = summed(aggregate, &right.ids);
    let (own, other) = (place(keys.left, &left.ids), place(keys.right, &right.ids));
    let by_hash = keys.comparison == Comparison::Equal && !test.names_left();
    let keys = Check { comparison: keys.comparison, left: Side::Left(own), right: Side::Own(other), not: false };
    Box::new(move |outer| {
        let (lefts, rights) = ((left.run)(outer), (right.run)(outer));
        if by_hash {
            let sums = Sums::of(&rights, other, test.given(outer, &[]), summed);
            return lefts.with_cell(|row| sums.cell(row[own]));
        }
        lefts.with_cell(|row| {
            let (keys, test) = (keys.given(outer, row), test.given(outer, row));
            total(&rights, keys, test, summed)
        })
    })
}

/// The keys in the order of their first rows, and the aggregate over the rows of each.
struct Sums {
    keys: Keys,
    cells: Vec<i64>,
}

impl Sums {
    /// A row with a blank or off-scale key, or that does not pass, has a key but adds nothing to its sum.
    fn of(rows: &Rows, key: usize, test: Filter, summed: Summed) -> Sums {
        let mut keys = Keys::new(rows.count());
        let mut sums: Vec<Sum> = Vec::with_capacity(rows.count());
        for row in rows.iter() {
            let number = keys.number(row[key]);
            if number == sums.len() {
                sums.push(Sum::default());
            }
            if holds_number(row[key]) && test.passes(row) {
                sums[number].add(summed.cell(row));
            }
        }
        Sums { keys, cells: sums.into_iter().map(Sum::cell).collect() }
    }

    /// The aggregate for a key, 0 where there is no such key.
    #[inline]
    fn cell(&self, key: i64) -> i64 {
        self.keys.find(key).map_or(0, |number| self.cells[number])
    }
}

/// With = by a hash table; else the different keys by one, and the rows of each by a loop.
pub fn group<'t>(aggregate: Aggregate, keys: KeyIds, test: &Test, child: Prepared<'t>, view: &View<'t, '_>) -> Run<'t> {
    let test = Check::of(test, view.outer, &[], &child.ids);
    let summed = summed(aggregate, &child.ids);
    let (comparison, key) = (keys.comparison, place(keys.right, &child.ids));
    Box::new(move |outer| {
        let (given, test) = ((child.run)(outer), test.given(outer, &[]));
        let mut cells = Vec::with_capacity(2 * given.count());
        if comparison == Comparison::Equal {
            let sums = Sums::of(&given, key, test, summed);
            for (&value, &cell) in sums.keys.keys.iter().zip(&sums.cells) {
                cells.extend([value, cell]);
            }
            return Rows::new(cells, 2);
        }
        let mut values = Keys::new(given.count());
        for row in given.iter() {
            values.number(row[key]);
        }
        for value in values.keys {
            let keys = Check { comparison, left: Side::Code(value), right: Side::Own(key), not: false }.given(&[], &[]);
            cells.extend([value, total(&given, keys, test, summed)]);
        }
        Rows::new(cells, 2)
    })
}
