//! The converter of request K13: a set and a plan of version 1 taken up to version 2, and of version 2 taken back down.

use crate::calls::read_in;
use crate::nodes::write_plan_in;
use crate::plan::{Form, Plan};
use crate::tables::{write_set_in, Table};
use crate::version::{Version, VERSION_1, VERSION_2};

/// A set and a plan in the other version.
#[derive(Clone, Debug, PartialEq, Eq)]
pub struct Converted {
    pub set: Vec<u8>,
    pub plan: Vec<u8>,
}

/// Which way a pair is taken.
#[derive(Clone, Copy, Debug, PartialEq, Eq)]
pub enum Way {
    Up,
    Down,
}

impl Way {
    /// The version that is taken, and the one that is given.
    pub fn versions(self) -> (Version, Version) {
        match self {
            Way::Up => (VERSION_1, VERSION_2),
            Way::Down => (VERSION_2, VERSION_1),
        }
    }
}

impl Converted {
    /// The pair within these rooms, or 15 where either is short.
    pub fn within(&self, out_set_bytes: usize, out_plan_bytes: usize) -> Result<&Converted, u8> {
        match (self.set.len(), self.plan.len()) {
            (set, plan) if out_set_bytes < set || out_plan_bytes < plan => Err(15),
            _ => Ok(self),
        }
    }
}

/// The converter's call: refusals 1 to 14 of the version that it takes, the set before the plan; then 25, where a number does not fit the
/// version that it gives, which can only be on the way down; then 15, where either room is short; or the pair.
pub fn convert(
    way: Way,
    set: &[u8],
    plan: &[u8],
    out_set_bytes: usize,
    out_plan_bytes: usize,
) -> Result<Converted, u8> {
    converted(way, set, plan)?.within(out_set_bytes, out_plan_bytes).cloned()
}

/// The pair in the other version, without any limit of room.
pub fn converted(way: Way, set: &[u8], plan: &[u8]) -> Result<Converted, u8> {
    let (from, to) = way.versions();
    let (tables, tree) = read_in(&from, set, plan)?;
    if !fits(&to, &tables, &tree) {
        return Err(25);
    }
    Ok(Converted { set: write_set_in(&to, &tables), plan: write_plan_in(&to, &tree) })
}

/// Whether every number fits a version: those in cells of all tables, scanned or not, and those of tests. Blank and off scale always do.
pub fn fits(version: &Version, tables: &[Table], tree: &Plan) -> bool {
    let cells = tables.iter().flat_map(|table| table.rows.iter().flatten());
    let tests = tree.nodes().into_iter().filter_map(Plan::test);
    let numbers = tests.filter_map(|test| match test.form {
        Form::Number(_, _, number) => Some(number),
        _ => None,
    });
    cells.copied().all(|cell| version.has_cell(cell)) && numbers.into_iter().all(|number| version.has_number(number))
}

/// What C gets from either call.
pub fn convert_word(answer: Result<&Converted, u8>) -> u64 {
    match answer {
        Ok(converted) => ((converted.plan.len() as u64) << 8) + ((converted.set.len() as u64) << 24),
        Err(number) => u64::from(number),
    }
}
