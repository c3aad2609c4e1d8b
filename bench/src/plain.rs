//! A plain evaluator, as one would write it in Rust to be quick: the limit that the library is held against.
//!
//! Rows are flat, one after another in one buffer. Tables are so before the clock starts, and a plan is prepared before it too, with the
//! place of each column found, as SQLite prepares a statement. Equal keys are found by a hash table, Sort sorts row numbers, and nothing is
//! allocated for each row.
//!
//! Left out is what is not compared: Unit, Each, the least and the greatest, and a Semi or Anti whose test names the left row.

mod check;
mod hash;
mod matching;
mod over_child;
mod sums;

use matching::{matched, quantified};
use over_child::{distinct, project, select, sort};
use second::check::columns;
use second::plan::Plan;
use second::tables::Table;
use std::borrow::Cow;
use sums::{fold, group, pair};

/// Rows one after another, each so wide.
pub struct Rows<'t> {
    pub cells: Cow<'t, [i64]>,
    width: usize,
}

impl<'t> Rows<'t> {
    fn new(cells: Vec<i64>, width: usize) -> Rows<'t> {
        Rows { cells: Cow::Owned(cells), width }
    }

    fn iter(&self) -> impl Iterator<Item = &[i64]> {
        self.cells.chunks_exact(self.width)
    }

    fn count(&self) -> usize {
        self.cells.len() / self.width
    }

    /// The rows that are wanted.
    fn kept(&self, wanted: impl Fn(&[i64]) -> bool) -> Rows<'t> {
        let mut cells = Vec::with_capacity(self.cells.len());
        for row in self.iter().filter(|row| wanted(row)) {
            cells.extend_from_slice(row);
        }
        Rows::new(cells, self.width)
    }

    /// Each row with one cell more.
    fn with_cell(&self, cell: impl Fn(&[i64]) -> i64) -> Rows<'t> {
        let mut cells = Vec::with_capacity(self.cells.len() + self.count());
        for row in self.iter() {
            cells.extend_from_slice(row);
            cells.push(cell(row));
        }
        Rows::new(cells, self.width + 1)
    }
}

/// The cells of tables, a buffer for each.
pub fn flat(tables: &[Table]) -> Vec<Vec<i64>> {
    tables.iter().map(|table| table.rows.concat()).collect()
}

/// Gives rows within outer rows, whose cells stand one after another.
type Run<'t> = Box<dyn Fn(&[i64]) -> Rows<'t> + 't>;

/// A plan made ready: the ids of its columns, and what gives its rows.
pub struct Prepared<'t> {
    ids: Vec<u8>,
    run: Run<'t>,
}

impl<'t> Prepared<'t> {
    /// The rows of a whole plan.
    pub fn rows(&self) -> Rows<'t> {
        (self.run)(&[])
    }
}

/// Where a plan stands: over tables, and within rows of these columns.
struct View<'t, 'v> {
    tables: &'t [Table],
    flat: &'t [Vec<i64>],
    outer: &'v [u8],
}

/// Makes a whole plan ready. The cells are those of the tables.
pub fn prepare<'t>(plan: &Plan, tables: &'t [Table], flat: &'t [Vec<i64>]) -> Prepared<'t> {
    prepared(plan, &View { tables, flat, outer: &[] })
}

fn prepared<'t>(plan: &Plan, view: &View<'t, '_>) -> Prepared<'t> {
    let ready = |child: &Plan| prepared(child, view);
    let run = match plan {
        Plan::Scan { table, .. } => scan(usize::from(*table), view),
        Plan::Cross { left, right } => cross(ready(left), ready(right)),
        Plan::Select { test, child } => select(test, ready(child), view),
        Plan::Project { list, child } => project(list, ready(child)),
        Plan::Distinct { list, child } => distinct(list, ready(child)),
        Plan::Sort { down, list, child } => sort(*down, list, ready(child)),
        Plan::Semi { left_key, right_key, test, left, right } => {
            matched((*left_key, *right_key), test, true, ready(left), ready(right), view)
        }
        Plan::Anti { left_key, right_key, test, left, right } => {
            matched((*left_key, *right_key), test, false, ready(left), ready(right), view)
        }
        Plan::Some { test, left, inner } => quantified(test, true, ready(left), inner, view),
        Plan::Every { test, left, inner } => quantified(&test.not_turned(), false, ready(left), inner, view),
        Plan::Fold { aggregate, test, left, inner, .. } => fold(*aggregate, test, ready(left), inner, view),
        Plan::Pair { aggregate, keys, test, left, right, .. } => {
            pair(*aggregate, *keys, test, ready(left), ready(right), view)
        }
        Plan::Group { aggregate, keys, test, child, .. } => group(*aggregate, *keys, test, ready(child), view),
        Plan::Unit | Plan::Each { .. } => unimplemented!("a kind that is not compared"),
    };
    Prepared { ids: columns(plan, view.tables), run }
}

fn scan<'t>(table: usize, view: &View<'t, '_>) -> Run<'t> {
    let (width, cells) = (view.tables[table].columns, &view.flat[table]);
    Box::new(move |_| Rows { cells: Cow::Borrowed(cells), width })
}

fn cross<'t>(left: Prepared<'t>, right: Prepared<'t>) -> Run<'t> {
    Box::new(move |outer| {
        let (lefts, rights) = ((left.run)(outer), (right.run)(outer));
        let width = lefts.width + rights.width;
        let mut cells = Vec::with_capacity(lefts.count() * rights.count() * width);
        for row in lefts.iter() {
            for more in rights.iter() {
                cells.extend_from_slice(row);
                cells.extend_from_slice(more);
            }
        }
        Rows::new(cells, width)
    })
}
