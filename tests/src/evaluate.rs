//! The rows that an accepted plan gives.

use crate::cells::{BLANK, OFF_SCALE};
use crate::check::columns;
use crate::plan::{Aggregate, Comparison, Form, Plan, Test};
use crate::tables::Table;
use crate::version::{Version, VERSION_2};
use std::cell::Cell;

/// A row in view, with its columns' ids, and the rows further out.
pub struct Scope<'a> {
    pub ids: &'a [u8],
    pub row: &'a [i64],
    pub outer: Option<&'a Scope<'a>>,
}

impl Scope<'_> {
    /// The cell that an id names. Accepted plans name only what is in view.
    fn cell(&self, id: u8) -> i64 {
        match self.ids.iter().position(|&own| own == id) {
            Some(place) => self.row[place],
            None => self.outer.expect("an id in view").cell(id),
        }
    }
}

/// Whether a test passes.
fn passes(test: &Test, scope: &Scope) -> bool {
    let outcome = match test.form {
        Form::Always => true,
        Form::Columns(comparison, left, right) => comparison.holds(scope.cell(left), scope.cell(right)),
        Form::Number(comparison, left, number) => comparison.holds(scope.cell(left), number),
    };
    outcome != test.not
}

/// Where an id stands among columns.
fn place_of(id: u8, ids: &[u8]) -> usize {
    ids.iter().position(|&own| own == id).expect("a column of the child")
}

/// The rows with only the listed columns, in list order.
fn cut(rows: &[Vec<i64>], ids: &[u8], list: &[u8]) -> Vec<Vec<i64>> {
    let places: Vec<usize> = list.iter().map(|&id| place_of(id, ids)).collect();
    rows.iter().map(|row| places.iter().map(|&place| row[place]).collect()).collect()
}

/// Each value's first occurrence, in sequence.
pub fn first_occurrences<T: PartialEq + Clone>(values: &[T]) -> Vec<T> {
    let mut seen: Vec<T> = Vec::new();
    for value in values {
        if !seen.contains(value) {
            seen.push(value.clone());
        }
    }
    seen
}

/// Sums whose exact total left a range, at any node.
#[derive(Clone, Copy, Debug, Default, PartialEq, Eq)]
pub struct Left {
    /// Those that left the range of numbers, and are off scale.
    pub range: usize,
    /// Those of them that left 64 bits.
    pub bits: usize,
    /// Those of these whose total, kept in 64 bits, would be back in the range.
    pub back: usize,
}

/// What gives the rows of plans over tables of a version. The versions differ in the range of sums alone.
pub struct Evaluator<'a> {
    version: Version,
    tables: &'a [Table],
    left: Cell<Left>,
}

/// A plan's rows over the tables, in version 2, nested in the rows of `outer`.
pub fn rows(plan: &Plan, tables: &[Table], outer: Option<&Scope>) -> Vec<Vec<i64>> {
    Evaluator::new(VERSION_2, tables).rows(plan, outer)
}

impl<'a> Evaluator<'a> {
    /// One over these tables, whose cells are all of the version.
    pub fn new(version: Version, tables: &'a [Table]) -> Evaluator<'a> {
        Evaluator { version, tables, left: Cell::new(Left::default()) }
    }

    /// The sums so far that left a range.
    pub fn left(&self) -> Left {
        self.left.get()
    }

    /// The aggregate of rows that were already found to pass.
    fn aggregate_of(&self, aggregate: Aggregate, rows: &[&Vec<i64>], ids: &[u8]) -> i64 {
        let Some(column) = aggregate.column() else {
            return rows.len() as i64;
        };
        let place = place_of(column, ids);
        let cells: Vec<i64> = rows.iter().map(|row| row[place]).collect();
        if cells.contains(&OFF_SCALE) {
            return OFF_SCALE;
        }
        let numbers = cells.iter().copied().filter(|&cell| cell != BLANK);
        match aggregate {
            Aggregate::Least(_) => numbers.min().unwrap_or(BLANK),
            Aggregate::Greatest(_) => numbers.max().unwrap_or(BLANK),
            // A blank is decided before the range of the total.
            _ if cells.contains(&BLANK) => BLANK,
            _ => self.total(numbers),
        }
    }

    /// The exact total of numbers; off scale if it leaves the range. The total of 4,096 numbers can leave 64 bits.
    fn total(&self, numbers: impl Iterator<Item = i64>) -> i64 {
        let exact: i128 = numbers.map(i128::from).sum();
        match i64::try_from(exact) {
            Ok(total) if self.version.has_number(total) => total,
            _ => {
                self.count_left(exact);
                OFF_SCALE
            }
        }
    }

    /// Counts a total that left the range.
    fn count_left(&self, exact: i128) {
        let mut left = self.left.get();
        left.range += 1;
        if i64::try_from(exact).is_err() {
            left.bits += 1;
            left.back += usize::from(self.version.has_number(exact as i64));
        }
        self.left.set(left);
    }

    /// A plan's rows, nested in the rows of `outer`.
    pub fn rows(&self, plan: &Plan, outer: Option<&Scope>) -> Vec<Vec<i64>> {
        let tables = self.tables;
        match plan {
            Plan::Unit => vec![vec![]],
            Plan::Scan { table, .. } => tables[usize::from(*table)].rows.clone(),
            Plan::Select { child, .. }
            | Plan::Project { child, .. }
            | Plan::Distinct { child, .. }
            | Plan::Group { child, .. }
            | Plan::Sort { child, .. } => {
                self.over_child(plan, self.rows(child, outer), &columns(child, tables), outer)
            }
            Plan::Cross { left, right }
            | Plan::Semi { left, right, .. }
            | Plan::Anti { left, right, .. }
            | Plan::Pair { left, right, .. } => {
                let left_ids = columns(left, tables);
                let right_ids = columns(right, tables);
                let right_rows = self.rows(right, outer);
                let mut all = Vec::new();
                for row in self.rows(left, outer) {
                    let scope = Scope { ids: &left_ids, row: &row, outer };
                    all.extend(self.for_left_row(plan, &scope, &right_rows, &right_ids));
                }
                all
            }
            Plan::Some { left, inner, .. }
            | Plan::Every { left, inner, .. }
            | Plan::Fold { left, inner, .. }
            | Plan::Each { left, inner } => {
                let left_ids = columns(left, tables);
                let inner_ids = columns(inner, tables);
                let mut all = Vec::new();
                for row in self.rows(left, outer) {
                    let scope = Scope { ids: &left_ids, row: &row, outer };
                    let inner_rows = self.rows(inner, Some(&scope));
                    all.extend(self.for_left_row(plan, &scope, &inner_rows, &inner_ids));
                }
                all
            }
        }
    }

    /// The rows of a node with one child, from the child's rows.
    fn over_child(&self, plan: &Plan, given: Vec<Vec<i64>>, ids: &[u8], outer: Option<&Scope>) -> Vec<Vec<i64>> {
        match plan {
            Plan::Select { test, .. } => {
                given.into_iter().filter(|row| passes(test, &Scope { ids, row, outer })).collect()
            }
            Plan::Project { list, .. } => cut(&given, ids, list),
            Plan::Distinct { list, .. } => first_occurrences(&cut(&given, ids, list)),
            Plan::Sort { down, list, .. } => sorted(given, ids, list, *down),
            Plan::Group { aggregate, keys, test, .. } => {
                let key = place_of(keys.right, ids);
                let values: Vec<i64> = given.iter().map(|row| row[key]).collect();
                let group = |value: i64| {
                    let members: Vec<&Vec<i64>> = given
                        .iter()
                        .filter(|row| keys.comparison.holds(value, row[key]))
                        .filter(|row| passes(test, &Scope { ids, row, outer }))
                        .collect();
                    vec![value, self.aggregate_of(*aggregate, &members, ids)]
                };
                first_occurrences(&values).into_iter().map(group).collect()
            }
            _ => unreachable!("a kind with one child"),
        }
    }

    /// The rows that a node with two children gives for one left row, from its second child's rows.
    fn for_left_row(&self, plan: &Plan, left: &Scope, second: &[Vec<i64>], ids: &[u8]) -> Vec<Vec<i64>> {
        let passing = |row: &Vec<i64>, test: &Test| passes(test, &Scope { ids, row, outer: Some(left) });
        let same_key = |row: &Vec<i64>, left_key: u8, right_key: u8| {
            Comparison::Equal.holds(own_cell(left, left_key), row[place_of(right_key, ids)])
        };
        let with = |more: &[i64]| [left.row, more].concat();
        let kept_if = |keep: bool| if keep { vec![left.row.to_vec()] } else { vec![] };
        match plan {
            Plan::Cross { .. } => second.iter().map(|row| with(row)).collect(),
            Plan::Each { .. } if second.is_empty() => vec![with(&vec![BLANK; ids.len()])],
            Plan::Each { .. } => second.iter().map(|row| with(row)).collect(),
            Plan::Semi { left_key, right_key, test, .. } => {
                kept_if(second.iter().any(|row| same_key(row, *left_key, *right_key) && passing(row, test)))
            }
            Plan::Anti { left_key, right_key, test, .. } => {
                kept_if(!second.iter().any(|row| same_key(row, *left_key, *right_key) && passing(row, test)))
            }
            Plan::Some { test, .. } => kept_if(second.iter().any(|row| passing(row, test))),
            Plan::Every { test, .. } => kept_if(second.iter().all(|row| passing(row, test))),
            Plan::Fold { aggregate, test, .. } => {
                let members: Vec<&Vec<i64>> = second.iter().filter(|row| passing(row, test)).collect();
                vec![with(&[self.aggregate_of(*aggregate, &members, ids)])]
            }
            Plan::Pair { aggregate, keys, test, .. } => {
                let value = own_cell(left, keys.left);
                let key = place_of(keys.right, ids);
                let members: Vec<&Vec<i64>> =
                    second.iter().filter(|row| keys.comparison.holds(value, row[key]) && passing(row, test)).collect();
                vec![with(&[self.aggregate_of(*aggregate, &members, ids)])]
            }
            _ => unreachable!("a kind with two children"),
        }
    }
}

/// The cells that a closed plan gives in one of its columns.
pub fn column_cells(plan: &Plan, id: u8, tables: &[Table]) -> Vec<i64> {
    let place = place_of(id, &columns(plan, tables));
    rows(plan, tables, None).into_iter().map(|row| row[place]).collect()
}

/// Sorts by code, the first listed column first. Upward, rows that are equal in all listed columns stay as they came; downward
/// is that list read backwards, so there they come in reverse.
fn sorted(mut given: Vec<Vec<i64>>, ids: &[u8], list: &[u8], down: bool) -> Vec<Vec<i64>> {
    let places: Vec<usize> = list.iter().map(|&id| place_of(id, ids)).collect();
    given.sort_by_key(|row| -> Vec<i64> { places.iter().map(|&place| row[place]).collect() });
    if down {
        given.reverse();
    }
    given
}

/// A cell of the row itself, not of rows further out: left keys never name those.
fn own_cell(scope: &Scope, id: u8) -> i64 {
    scope.row[place_of(id, scope.ids)]
}
