//! The calls of the library, and what they answer. A refusal is its number, in `Err`.
//!
//! Rooms are counted as the library counts them: output cells, plan bytes, step bytes, scratch cells.

use crate::cells::{BLANK, OFF_SCALE};
use crate::check::{columns, need, read_plan};
use crate::evaluate::{Evaluator, Left};
use crate::nodes::write_plan;
use crate::plan::Plan;
use crate::rules::{first_fit, fit, stay_position, try_step};
use crate::tables::{read_set, Table};
use crate::version::{Version, VERSION_2};

/// Enough room for any call.
pub const ROOMY: usize = usize::MAX;

/// A report: its counts, and its codes row by row.
#[derive(Clone, Debug, PartialEq, Eq)]
pub struct Report {
    pub rows: usize,
    pub columns: usize,
    pub codes: Vec<i64>,
}

/// A plan left by unnesting, with its steps (rule, place before the step).
#[derive(Clone, Debug, PartialEq, Eq)]
pub struct Unnested {
    pub steps: Vec<(u8, u8)>,
    pub plan: Vec<u8>,
}

/// Reads a set and a plan of version 2: refusals 1 to 14, or the tables and the tree.
pub fn read(set: &[u8], plan: &[u8]) -> Result<(Vec<Table>, Plan), u8> {
    read_in(&VERSION_2, set, plan)
}

/// Reads a set and a plan of a version, the set before the plan.
pub fn read_in(version: &Version, set: &[u8], plan: &[u8]) -> Result<(Vec<Table>, Plan), u8> {
    let tables = read_set(version, set)?;
    let tree = read_plan(version, plan, &tables)?;
    Ok((tables, tree))
}

impl Report {
    /// The report within these rooms, of a plan with this need: 16 is tested before 15.
    pub fn within(&self, need: u64, out_cells: usize, scratch_cells: usize) -> Result<&Report, u8> {
        match self.codes.len() {
            _ if (scratch_cells as u64) < need => Err(16),
            cells if out_cells < cells => Err(15),
            _ => Ok(self),
        }
    }
}

impl Unnested {
    /// The steps and the plan left within these rooms, where this is the largest need of the plans passed through: 16 is tested before 15.
    pub fn within(
        &self,
        need: u64,
        out_plan_bytes: usize,
        out_step_bytes: usize,
        scratch_cells: usize,
    ) -> Result<&Unnested, u8> {
        match (self.plan.len(), 2 * self.steps.len()) {
            _ if (scratch_cells as u64) < need => Err(16),
            (plan, steps) if out_plan_bytes < plan || out_step_bytes < steps => Err(15),
            _ => Ok(self),
        }
    }
}

/// The report of a tree over its tables, in version 2, without any limit of room.
pub fn report_of(tree: &Plan, tables: &[Table]) -> Report {
    report_in(VERSION_2, tree, tables).0
}

/// The report in a version, its cells as they are held in memory; and the sums that left a range.
pub fn report_in(version: Version, tree: &Plan, tables: &[Table]) -> (Report, Left) {
    let evaluator = Evaluator::new(version, tables);
    let rows = evaluator.rows(tree, None);
    let report = Report { rows: rows.len(), columns: columns(tree, tables).len(), codes: rows.concat() };
    (report, evaluator.left())
}

/// The reporting call: refusals 1 to 14, then 16, then 15, or the report.
pub fn report(set: &[u8], plan: &[u8], out_cells: usize, scratch_cells: usize) -> Result<Report, u8> {
    let (tables, tree) = read(set, plan)?;
    report_of(&tree, &tables).within(need(&tree, &tables), out_cells, scratch_cells).cloned()
}

/// The ids, in order, of a report's columns.
pub fn report_columns(set: &[u8], plan: &[u8]) -> Result<Vec<u8>, u8> {
    let (tables, tree) = read(set, plan)?;
    Ok(columns(&tree, &tables))
}

/// The need in cells of an accepted plan.
pub fn need_of(set: &[u8], plan: &[u8]) -> Result<u64, u8> {
    let (tables, tree) = read(set, plan)?;
    Ok(need(&tree, &tables))
}

/// The steps from a tree to one where no rule fits: steps, every plan passed through (the given
/// and the last included).
pub fn unnest_tree(tree: &Plan, tables: &[Table]) -> (Vec<(u8, u8)>, Vec<Plan>) {
    let mut steps = Vec::new();
    let mut passed = vec![tree.clone()];
    while let Some((place, rule, after)) = first_fit(&passed[passed.len() - 1], tables) {
        steps.push((rule, place as u8));
        passed.push(after);
    }
    (steps, passed)
}

/// The steps and the plan left of an unnesting that passed through these plans.
pub fn unnested_of(steps: Vec<(u8, u8)>, passed: &[Plan]) -> Unnested {
    Unnested { steps, plan: write_plan(&passed[passed.len() - 1]) }
}

/// The largest need of plans, of which there is at least one.
pub fn largest_need(plans: &[Plan], tables: &[Table]) -> u64 {
    plans.iter().map(|plan| need(plan, tables)).max().expect("a plan")
}

/// The largest need of the plans that unnesting passes through.
pub fn unnest_need(set: &[u8], plan: &[u8]) -> Result<u64, u8> {
    let (tables, tree) = read(set, plan)?;
    let (_, passed) = unnest_tree(&tree, &tables);
    Ok(largest_need(&passed, &tables))
}

/// The unnesting call: refusals 1 to 14, then 16 (the largest need of any plan passed through),
/// then 15 (the last plan or its steps do not fit), or the plan left and its steps.
pub fn unnest(
    set: &[u8],
    plan: &[u8],
    out_plan_bytes: usize,
    out_step_bytes: usize,
    scratch_cells: usize,
) -> Result<Unnested, u8> {
    let (tables, tree) = read(set, plan)?;
    let (steps, passed) = unnest_tree(&tree, &tables);
    let need = largest_need(&passed, &tables);
    unnested_of(steps, &passed).within(need, out_plan_bytes, out_step_bytes, scratch_cells).cloned()
}

/// The stay note call: refusals 1 to 14 and 16, or the position that the note for this place gives
/// (`None`: no note is due).
pub fn stay_note(set: &[u8], plan: &[u8], place: usize, scratch_cells: usize) -> Result<Option<usize>, u8> {
    let (tables, tree) = read(set, plan)?;
    if (scratch_cells as u64) < need(&tree, &tables) {
        return Err(16);
    }
    Ok(stay_position(&tree, place, &tables))
}

/// The plan left after a list of steps (rule, place) is tried, each on the plan the one before left.
pub fn try_steps(set: &[u8], plan: &[u8], steps: &[(u8, u8)]) -> Result<Vec<u8>, u8> {
    let (tables, mut tree) = read(set, plan)?;
    for &(rule, place) in steps {
        tree = try_step(&tree, rule, usize::from(place), &tables);
    }
    Ok(write_plan(&tree))
}

/// The steps of a list, whose bytes are a rule and a place in turn: 20 where the length is odd or a rule is not one of 1 to 8.
pub fn read_steps(bytes: &[u8]) -> Result<Vec<(u8, u8)>, u8> {
    let steps = whole_steps(bytes);
    if bytes.len() != 2 * steps.len() || steps.iter().any(|(rule, _)| !(1..=8).contains(rule)) {
        return Err(20);
    }
    Ok(steps)
}

/// The whole steps of a list's bytes, whatever their rules. A byte left over at the end is none.
pub fn whole_steps(bytes: &[u8]) -> Vec<(u8, u8)> {
    bytes.chunks_exact(2).map(|step| (step[0], step[1])).collect()
}

/// The bytes of a list of steps.
pub fn write_steps(steps: &[(u8, u8)]) -> Vec<u8> {
    steps.iter().flat_map(|&(rule, place)| [rule, place]).collect()
}

/// Where a list of steps leads, up to the first one that does not fit.
#[derive(Clone, Debug, PartialEq, Eq)]
pub struct Followed {
    /// The plans reached, the given one first. The last is the one at which a step does not fit, or the one that the whole list leaves.
    pub reached: Vec<Plan>,
    /// Whether every step fits.
    pub all_fit: bool,
}

impl Followed {
    /// The last plan reached.
    pub fn last(&self) -> &Plan {
        &self.reached[self.reached.len() - 1]
    }

    /// Whether the list and a plan made elsewhere are accepted with this scratch, where this is the largest need of the plans reached: 16
    /// is tested before 21.
    pub fn judged(&self, need: u64, theirs: &[u8], scratch_cells: usize) -> Result<(), u8> {
        if (scratch_cells as u64) < need {
            return Err(16);
        }
        if !self.all_fit || write_plan(self.last()) != theirs {
            return Err(21);
        }
        Ok(())
    }
}

/// Follows a list of steps from a tree. Each has to fit where it says, on the plan that the one before it left.
pub fn follow(tree: &Plan, steps: &[(u8, u8)], tables: &[Table]) -> Followed {
    let mut reached = vec![tree.clone()];
    for &(rule, place) in steps {
        match fit(&reached[reached.len() - 1], usize::from(place), tables) {
            Some((fitting, after)) if fitting == rule => reached.push(after),
            _ => return Followed { reached, all_fit: false },
        }
    }
    Followed { reached, all_fit: true }
}

/// The checking call (request K7): refusals 1 to 14 of the set and the first plan, then 20 of the whole list, then 16 (the largest need of the
/// plans reached), then 21. The plan made elsewhere is only compared, byte for byte.
pub fn check_steps(set: &[u8], plan: &[u8], steps: &[u8], theirs: &[u8], scratch_cells: usize) -> Result<(), u8> {
    let (tables, tree) = read(set, plan)?;
    let followed = follow(&tree, &read_steps(steps)?, &tables);
    followed.judged(largest_need(&followed.reached, &tables), theirs, scratch_cells)
}

/// The least scratch with which the checking call does not give 16, for an accepted plan and a list that is not refused 20.
pub fn check_steps_need(set: &[u8], plan: &[u8], steps: &[u8]) -> Result<u64, u8> {
    let (tables, tree) = read(set, plan)?;
    Ok(largest_need(&follow(&tree, &read_steps(steps)?, &tables).reached, &tables))
}

/// What C gets from the reporting call.
pub fn report_word(answer: Result<&Report, u8>) -> u64 {
    match answer {
        Ok(report) => ((report.columns as u64) << 8) + ((report.rows as u64) << 16),
        Err(number) => u64::from(number),
    }
}

/// What C gets from the unnesting call.
pub fn unnest_word(answer: Result<&Unnested, u8>) -> u64 {
    match answer {
        Ok(unnested) => ((unnested.steps.len() as u64) << 8) + ((unnested.plan.len() as u64) << 24),
        Err(number) => u64::from(number),
    }
}

/// What C gets from the stay note call.
pub fn stay_note_word(answer: &Result<Option<usize>, u8>) -> u64 {
    match answer {
        Ok(Some(position)) => (1 << 8) + ((*position as u64) << 16),
        Ok(None) => 0,
        Err(number) => u64::from(*number),
    }
}

/// What C gets from the checking call: the refusal alone.
pub fn check_steps_word(answer: Result<(), u8>) -> u64 {
    u64::from(answer.err().unwrap_or(0))
}

/// The text of the listing program, given the scratch cells it has. Its other room is taken to suffice.
pub fn listing(set: &[u8], plan: &[u8], scratch_cells: usize) -> String {
    let unnested = match unnest(set, plan, ROOMY, ROOMY, scratch_cells) {
        Ok(unnested) => unnested,
        Err(number) => return format!("refused {number}\n"),
    };
    let report = match report(set, &unnested.plan, ROOMY, scratch_cells) {
        Ok(report) => report,
        Err(number) => return format!("refused {number}\n"),
    };
    let mut text = format!("steps {}\n", unnested.steps.len());
    for (rule, place) in &unnested.steps {
        text += &format!("U{rule} {place}\n");
    }
    text += &format!("rows {} columns {}\n", report.rows, report.columns);
    for row in 0..report.rows {
        let cells = &report.codes[row * report.columns..(row + 1) * report.columns];
        text += &(cells.iter().map(|&code| cell_text(code)).collect::<Vec<_>>().join(" ") + "\n");
    }
    text
}

/// A cell as the listing prints it.
pub fn cell_text(code: i64) -> String {
    match code {
        BLANK => "-".to_string(),
        OFF_SCALE => "+".to_string(),
        number => number.to_string(),
    }
}
