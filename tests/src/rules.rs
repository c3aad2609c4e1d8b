//! The eight unnestings, weights, and the position that a stay note gives.

use crate::check::{columns, introduced, read_plan};
use crate::evaluate::{column_cells, first_occurrences, rows};
use crate::nodes::write_plan;
use crate::plan::{Aggregate, Comparison, Form, Keys, Plan, Test, ALWAYS};
use crate::tables::Table;
use crate::version::VERSION_2;

/// What a rule would make of a node whose shape is right for it.
struct Proposal {
    rule: u8,
    /// The subtree that would stand in the node's place.
    becomes: Plan,
    /// For U3, U4 and U6: e's values and the first occurrences of the right keys.
    sequences: Option<(Vec<i64>, Vec<i64>)>,
}

/// The rule that fits at a place, and the whole plan after it.
pub fn fit(plan: &Plan, place: usize, tables: &[Table]) -> Option<(u8, Plan)> {
    let proposal = propose(plan, place, tables)?;
    if let Some((left, right)) = &proposal.sequences {
        if left != right {
            return None;
        }
    }
    let after = accepted_after(plan, place, proposal.becomes, tables)?;
    Some((proposal.rule, after))
}

/// Every step that fits (rule, place), by place.
pub fn fitting_steps(plan: &Plan, tables: &[Table]) -> Vec<(u8, u8)> {
    (0..plan.size()).filter_map(|place| fit(plan, place, tables).map(|(rule, _)| (rule, place as u8))).collect()
}

/// The smallest place where a rule fits, the rule, and the plan after it.
pub fn first_fit(plan: &Plan, tables: &[Table]) -> Option<(usize, u8, Plan)> {
    (0..plan.size()).find_map(|place| fit(plan, place, tables).map(|(rule, after)| (place, rule, after)))
}

/// The plan after one step is tried: where its rule does not fit, the plan as it is.
pub fn try_step(plan: &Plan, rule: u8, place: usize, tables: &[Table]) -> Plan {
    match fit(plan, place, tables) {
        Some((fitting, after)) if fitting == rule => after,
        _ => plan.clone(),
    }
}

/// The sequences that U3, U4 or U6 compares at this place, if the node's shape is right for it: e's values and the first
/// occurrences of the right keys.
pub fn sequences(plan: &Plan, place: usize, tables: &[Table]) -> Option<(Vec<i64>, Vec<i64>)> {
    propose(plan, place, tables)?.sequences
}

/// The position that the stay note for this place gives; none where no note is due. It is the smallest one at which the
/// sequences differ, by code, or just one has ended: the length of their common beginning.
pub fn stay_position(plan: &Plan, place: usize, tables: &[Table]) -> Option<usize> {
    let proposal = propose(plan, place, tables)?;
    let (left, right) = proposal.sequences?;
    if left == right {
        return None;
    }
    accepted_after(plan, place, proposal.becomes, tables)?;
    Some(left.iter().zip(&right).take_while(|(one, other)| one == other).count())
}

/// The whole plan after a rule, if it passes refusals 8 to 14.
fn accepted_after(plan: &Plan, place: usize, becomes: Plan, tables: &[Table]) -> Option<Plan> {
    let after = plan.replaced(place, becomes);
    // The bytes are read anew, so that the check is the reader's own.
    read_plan(&VERSION_2, &write_plan(&after), tables).ok()
}

/// What a rule would make of the node at a place, if all but the sequences of U3, U4 and U6 and
/// the check of the plan after is right.
fn propose(plan: &Plan, place: usize, tables: &[Table]) -> Option<Proposal> {
    match plan.at(place)? {
        Plan::Some { test, left, inner } => {
            let (keys, right) = keyed_inner(left, inner, tables)?;
            (keys.comparison == Comparison::Equal).then(|| Proposal {
                rule: 1,
                becomes: Plan::Semi {
                    left_key: keys.left,
                    right_key: keys.right,
                    test: *test,
                    left: left.clone(),
                    right,
                },
                sequences: None,
            })
        }
        Plan::Every { test, left, inner } => {
            let (keys, right) = keyed_inner(left, inner, tables)?;
            (keys.comparison == Comparison::Equal).then(|| Proposal {
                rule: 2,
                becomes: Plan::Anti {
                    left_key: keys.left,
                    right_key: keys.right,
                    test: test.not_turned(),
                    left: left.clone(),
                    right,
                },
                sequences: None,
            })
        }
        Plan::Fold { aggregate, new, test, left, inner } => {
            let (keys, right) = keyed_inner(left, inner, tables)?;
            let becomes = Plan::Pair { aggregate: *aggregate, new: *new, keys, test: *test, left: left.clone(), right };
            Some(Proposal { rule: 5, becomes, sequences: None })
        }
        Plan::Semi { left_key, right_key, test, left, right } if *test == ALWAYS => {
            let passing = Comparison::Greater;
            counted(plan, 3, passing, *left_key, *right_key, left, right, tables)
        }
        Plan::Anti { left_key, right_key, test, left, right } if *test == ALWAYS => {
            let passing = Comparison::Equal;
            counted(plan, 4, passing, *left_key, *right_key, left, right, tables)
        }
        Plan::Semi { left_key, right_key, test, left, right } => {
            let right = tested_right(test, right, tables)?;
            let becomes =
                Plan::Semi { left_key: *left_key, right_key: *right_key, test: ALWAYS, left: left.clone(), right };
            Some(Proposal { rule: 7, becomes, sequences: None })
        }
        Plan::Anti { left_key, right_key, test, left, right } => {
            let right = tested_right(test, right, tables)?;
            let becomes =
                Plan::Anti { left_key: *left_key, right_key: *right_key, test: ALWAYS, left: left.clone(), right };
            Some(Proposal { rule: 7, becomes, sequences: None })
        }
        Plan::Pair { aggregate, new, keys, test, left, right } => {
            let apart = is_distinct_of(left, keys.left)
                && is_closed(left, tables)
                && is_closed(right, tables)
                && names_only(test, right, tables);
            apart.then(|| Proposal {
                rule: 6,
                becomes: Plan::Group {
                    aggregate: *aggregate,
                    new: *new,
                    keys: *keys,
                    test: *test,
                    child: right.clone(),
                },
                sequences: Some(key_sequences(left, right, keys.right, tables)),
            })
        }
        Plan::Each { left, inner } => {
            let fits = is_closed(inner, tables) && !rows(inner, tables, None).is_empty();
            fits.then(|| Proposal {
                rule: 8,
                becomes: Plan::Cross { left: left.clone(), right: inner.clone() },
                sequences: None,
            })
        }
        _ => None,
    }
}

/// The condition that U1, U2 and U5 share: the inner plan is a Select, or one Project over a
/// Select, and the Select, without a not-mark, compares a column of e with one of its child g,
/// and g names no column of e. Gives the keys, e's column on the left, and g. The Project is
/// dropped, so it does not matter what it lists.
fn keyed_inner(left: &Plan, inner: &Plan, tables: &[Table]) -> Option<(Keys, Box<Plan>)> {
    let select = below_one_project(inner);
    let Plan::Select { test: Test { form: Form::Columns(comparison, one, other), not: false }, child } = select else {
        return None;
    };
    let left_ids = columns(left, tables);
    let child_ids = columns(child, tables);
    if names(child).iter().any(|id| left_ids.contains(id)) {
        return None;
    }
    if left_ids.contains(one) && child_ids.contains(other) {
        Some((Keys { left: *one, comparison: *comparison, right: *other }, child.clone()))
    } else if left_ids.contains(other) && child_ids.contains(one) {
        Some((Keys { left: *other, comparison: comparison.turned(), right: *one }, child.clone()))
    } else {
        None
    }
}

/// What stands below a Project, if the plan is one; else the plan itself.
fn below_one_project(plan: &Plan) -> &Plan {
    match plan {
        Plan::Project { child, .. } => child,
        _ => plan,
    }
}

/// U3 and U4: Project of the left key over Select of c compared with 0 over Group of h.
#[allow(clippy::too_many_arguments)]
fn counted(
    plan: &Plan,
    rule: u8,
    passing: Comparison,
    left_key: u8,
    right_key: u8,
    left: &Plan,
    right: &Plan,
    tables: &[Table],
) -> Option<Proposal> {
    if !is_distinct_of(left, left_key) || !is_closed(left, tables) || !is_closed(right, tables) {
        return None;
    }
    let (test, h) = match right {
        Plan::Select { test, child } => (*test, child.as_ref()),
        _ => (ALWAYS, right),
    };
    let c = free_id(plan, tables)?;
    let group = Plan::Group {
        aggregate: Aggregate::Count,
        new: c,
        keys: Keys { left: left_key, comparison: Comparison::Equal, right: right_key },
        test,
        child: Box::new(h.clone()),
    };
    let kept = Plan::Select { test: Test { form: Form::Number(passing, c, 0), not: false }, child: Box::new(group) };
    Some(Proposal {
        rule,
        becomes: Plan::Project { list: vec![left_key], child: Box::new(kept) },
        sequences: Some(key_sequences(left, h, right_key, tables)),
    })
}

/// U7: f under a new Select of the test, if the test names only f's columns. A test that names
/// no column at all does.
fn tested_right(test: &Test, right: &Plan, tables: &[Table]) -> Option<Box<Plan>> {
    let select = || Plan::Select { test: *test, child: Box::new(right.clone()) };
    names_only(test, right, tables).then(|| Box::new(select()))
}

/// Whether a plan is a Distinct of this column alone.
fn is_distinct_of(plan: &Plan, key: u8) -> bool {
    matches!(plan, Plan::Distinct { list, .. } if *list == [key])
}

/// Whether a test names only columns that the plan gives.
fn names_only(test: &Test, plan: &Plan, tables: &[Table]) -> bool {
    let ids = columns(plan, tables);
    test.names().iter().all(|id| ids.contains(id))
}

/// The ids that the tests in a plan name. Keys, lists and aggregates name columns of children
/// only, so no name from outside can stand there.
fn names(plan: &Plan) -> Vec<u8> {
    plan.nodes().into_iter().filter_map(Plan::test).flat_map(|test| test.names()).collect()
}

/// The columns from outside itself that a part of an accepted plan names. An id is introduced
/// once in the whole plan, so what is introduced inside is named as such.
pub fn names_from_outside(plan: &Plan, tables: &[Table]) -> Vec<u8> {
    let own = introduced(plan, tables);
    names(plan).into_iter().filter(|&id| !own.contains(&usize::from(id))).collect()
}

/// Whether a part of an accepted plan names no column from outside itself.
pub fn is_closed(plan: &Plan, tables: &[Table]) -> bool {
    names_from_outside(plan, tables).is_empty()
}

/// The values of e, which has one column, and the first occurrences of a column of h. Both are closed.
fn key_sequences(e: &Plan, h: &Plan, key: u8, tables: &[Table]) -> (Vec<i64>, Vec<i64>) {
    let values = rows(e, tables, None).into_iter().map(|row| row[0]).collect();
    (values, first_occurrences(&column_cells(h, key, tables)))
}

/// The smallest id introduced nowhere in the plan.
pub fn free_id(plan: &Plan, tables: &[Table]) -> Option<u8> {
    let taken = introduced(plan, tables);
    (0..=255).find(|&id| !taken.contains(&usize::from(id)))
}

/// A plan's weight.
pub fn weight(plan: &Plan) -> usize {
    let own = |node: &Plan| match node {
        Plan::Some { .. } | Plan::Every { .. } => 3,
        Plan::Fold { .. } => 2,
        Plan::Each { .. } | Plan::Pair { .. } => 1,
        Plan::Semi { test, .. } | Plan::Anti { test, .. } if *test == ALWAYS => 1,
        Plan::Semi { .. } | Plan::Anti { .. } => 2,
        _ => 0,
    };
    plan.nodes().into_iter().map(own).sum()
}
