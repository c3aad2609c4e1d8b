//! Short ways to write tables and plans down in full.

use crate::plan::{Aggregate, Comparison, Form, Keys, Plan, Test, ALWAYS};
use crate::tables::Table;

/// A table of these rows; with no rows it has one column.
pub fn table(rows: &[&[i64]]) -> Table {
    let columns = rows.first().map_or(1, |row| row.len());
    Table { columns, rows: rows.iter().map(|row| row.to_vec()).collect() }
}

/// A table of one column.
pub fn one_column(codes: &[i64]) -> Table {
    Table { columns: 1, rows: codes.iter().map(|&code| vec![code]).collect() }
}

/// A table of a size, with small numbers in it.
pub fn sized(columns: usize, height: usize) -> Table {
    let cell = |row: usize, column: usize| ((row + 3 * column) % 7) as i64;
    let rows = (0..height).map(|row| (0..columns).map(|column| cell(row, column)).collect()).collect();
    Table { columns, rows }
}

/// Cards: a player, 1 if the card counts or else 0, and a score. Those that count come first, round by round.
pub fn cards(counted: &[(i64, &[i64])], not_counted: &[(i64, i64)]) -> Table {
    let longest = counted.iter().map(|(_, scores)| scores.len()).max().unwrap_or(0);
    let mut rows = Vec::new();
    for round in 0..longest {
        for (player, scores) in counted {
            rows.extend(scores.get(round).map(|&score| vec![*player, 1, score]));
        }
    }
    rows.extend(not_counted.iter().map(|&(player, score)| vec![player, 0, score]));
    Table { columns: 3, rows }
}

/// A test of a column with a column.
pub fn columns_test(left: u8, comparison: Comparison, right: u8) -> Test {
    Test { form: Form::Columns(comparison, left, right), not: false }
}

/// A test of a column with a number.
pub fn number_test(left: u8, comparison: Comparison, number: i64) -> Test {
    Test { form: Form::Number(comparison, left, number), not: false }
}

/// A test that never passes.
pub const NEVER: Test = Test { form: Form::Always, not: true };

pub fn scan(table: u8, first: u8) -> Plan {
    Plan::Scan { table, first }
}

pub fn select(test: Test, child: Plan) -> Plan {
    Plan::Select { test, child: Box::new(child) }
}

pub fn project(list: &[u8], child: Plan) -> Plan {
    Plan::Project { list: list.to_vec(), child: Box::new(child) }
}

pub fn distinct(list: &[u8], child: Plan) -> Plan {
    Plan::Distinct { list: list.to_vec(), child: Box::new(child) }
}

pub fn sort(down: bool, list: &[u8], child: Plan) -> Plan {
    Plan::Sort { down, list: list.to_vec(), child: Box::new(child) }
}

pub fn cross(left: Plan, right: Plan) -> Plan {
    Plan::Cross { left: Box::new(left), right: Box::new(right) }
}

pub fn each(left: Plan, inner: Plan) -> Plan {
    Plan::Each { left: Box::new(left), inner: Box::new(inner) }
}

/// A Semi of left key = right key with a test.
pub fn semi(left_key: u8, right_key: u8, test: Test, left: Plan, right: Plan) -> Plan {
    Plan::Semi { left_key, right_key, test, left: Box::new(left), right: Box::new(right) }
}

/// An Anti of left key = right key with a test.
pub fn anti(left_key: u8, right_key: u8, test: Test, left: Plan, right: Plan) -> Plan {
    Plan::Anti { left_key, right_key, test, left: Box::new(left), right: Box::new(right) }
}

pub fn some(test: Test, left: Plan, inner: Plan) -> Plan {
    Plan::Some { test, left: Box::new(left), inner: Box::new(inner) }
}

pub fn every(test: Test, left: Plan, inner: Plan) -> Plan {
    Plan::Every { test, left: Box::new(left), inner: Box::new(inner) }
}

/// A Fold of an aggregate under a new id, with a test.
pub fn fold(aggregate: Aggregate, new: u8, test: Test, left: Plan, inner: Plan) -> Plan {
    Plan::Fold { aggregate, new, test, left: Box::new(left), inner: Box::new(inner) }
}

/// The keys of a Pair or Group.
pub fn keys(left: u8, comparison: Comparison, right: u8) -> Keys {
    Keys { left, comparison, right }
}

/// A Pair with a plain always test.
pub fn pair(aggregate: Aggregate, new: u8, keys: Keys, left: Plan, right: Plan) -> Plan {
    Plan::Pair { aggregate, new, keys, test: ALWAYS, left: Box::new(left), right: Box::new(right) }
}

/// A Group with a plain always test.
pub fn group(aggregate: Aggregate, new: u8, keys: Keys, child: Plan) -> Plan {
    Plan::Group { aggregate, new, keys, test: ALWAYS, child: Box::new(child) }
}

/// The same Semi, Anti, Pair or Group (or other kind with a test) under another test.
pub fn with_test(mut plan: Plan, new_test: Test) -> Plan {
    match &mut plan {
        Plan::Select { test, .. }
        | Plan::Semi { test, .. }
        | Plan::Anti { test, .. }
        | Plan::Some { test, .. }
        | Plan::Every { test, .. }
        | Plan::Fold { test, .. }
        | Plan::Pair { test, .. }
        | Plan::Group { test, .. } => *test = new_test,
        _ => {}
    }
    plan
}
