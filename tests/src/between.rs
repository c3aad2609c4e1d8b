//! What stands between a Some, an Every or a Fold and the Select that links its inner plan to its left rows, and how often unnesting went
//! through it.

use crate::calls::unnest_tree;
use crate::check::columns;
use crate::plan::{Form, Plan, Test};
use crate::tables::Table;

/// What may stand there in place of nothing. The key is the column of the Select's child that the Select compares.
#[derive(Clone, Copy, Debug, PartialEq, Eq)]
pub enum Between {
    ProjectWithKey,
    ProjectWithoutKey,
    TwoProjects,
    Distinct,
    Sort,
}

/// The left rows and the inner plan of a Some, an Every or a Fold.
fn left_and_inner(node: &Plan) -> Option<(&Plan, &Plan)> {
    match node {
        Plan::Some { left, inner, .. } | Plan::Every { left, inner, .. } | Plan::Fold { left, inner, .. } => {
            Some((left, inner))
        }
        _ => None,
    }
}

/// The key of a Select that compares a column of e with one of its child, by whatever comparison, not-marked or not.
fn key_of(select: &Plan, e: &Plan, tables: &[Table]) -> Option<u8> {
    let Plan::Select { test: Test { form: Form::Columns(_, one, other), .. }, child } = select else {
        return None;
    };
    let (left, right) = (columns(e, tables), columns(child, tables));
    [(one, other), (other, one)]
        .into_iter()
        .find(|(own, key)| left.contains(own) && right.contains(key))
        .map(|(_, key)| *key)
}

/// The key of a Some, an Every or a Fold whose inner plan is a Select that links it, with nothing in between.
pub fn linked_key(node: &Plan, tables: &[Table]) -> Option<u8> {
    let (left, inner) = left_and_inner(node)?;
    key_of(inner, left, tables)
}

/// What stands between a node and the Select that links its inner plan.
pub fn between(node: &Plan, tables: &[Table]) -> Option<Between> {
    let (left, inner) = left_and_inner(node)?;
    let key = |select: &Plan| key_of(select, left, tables);
    match inner {
        Plan::Project { list, child } => match child.as_ref() {
            Plan::Project { child, .. } => key(child).map(|_| Between::TwoProjects),
            _ if list.contains(&key(child)?) => Some(Between::ProjectWithKey),
            _ => Some(Between::ProjectWithoutKey),
        },
        Plan::Distinct { child, .. } => key(child).map(|_| Between::Distinct),
        Plan::Sort { child, .. } => key(child).map(|_| Between::Sort),
        _ => None,
    }
}

/// How often each was met in the plans given, and how often U1, U2 and U5 fitted through a Project.
#[derive(Clone, Default, Debug)]
pub struct Met {
    /// Nodes by what stands below them, in the order in which it is named above.
    pub between: [usize; 5],
    /// Steps of U1, U2 and U5 through a Project that lists the key, and through one that does not.
    pub through: [[usize; 2]; 3],
    /// Plans whose first step is such a step. Before request K1 they had another first step, or none.
    pub first: usize,
}

impl Met {
    /// Counts what an accepted plan and its unnesting have of these.
    pub fn count(&mut self, plan: &Plan, tables: &[Table]) {
        let met: Vec<Between> = plan.nodes().into_iter().filter_map(|node| between(node, tables)).collect();
        met.iter().for_each(|&between| self.between[between as usize] += 1);
        // No step puts a node between, so without one in the plan given there is none on the way.
        if !met.is_empty() {
            self.count_steps(plan, tables);
        }
    }

    /// Counts the steps through a Project.
    fn count_steps(&mut self, plan: &Plan, tables: &[Table]) {
        let (steps, passed) = unnest_tree(plan, tables);
        for (number, ((rule, place), before)) in steps.into_iter().zip(&passed).enumerate() {
            let Some(widened) = [1, 2, 5].iter().position(|&widened| widened == rule) else { continue };
            let lists_key = match before.at(usize::from(place)).and_then(|node| between(node, tables)) {
                Some(Between::ProjectWithKey) => true,
                Some(Between::ProjectWithoutKey) => false,
                _ => continue,
            };
            self.through[widened][usize::from(!lists_key)] += 1;
            self.first += usize::from(number == 0);
        }
    }

    /// The counts as lines of text.
    pub fn lines(&self) -> String {
        let [with_key, without_key, two, distinct, sort] = self.between;
        let of_rule = |(rule, [with_key, without_key]): (u8, [usize; 2])| {
            format!("U{rule} with its key {with_key}, without it {without_key}")
        };
        let rules: Vec<String> = [1, 2, 5].into_iter().zip(self.through).map(of_rule).collect();
        format!("between a nested step and its Select: a Project with the key {with_key}, without it {without_key}, ")
            + &format!("two Projects {two}, a Distinct {distinct}, a Sort {sort}\n")
            + &format!("steps through a Project: {}; as the first step {}\n", rules.join("; "), self.first)
    }
}
