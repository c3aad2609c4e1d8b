//! What a tree must be over its tables: refusals 11 to 14; columns, row bounds and need.

use crate::nodes::read_tree;
use crate::plan::Plan;
use crate::tables::Table;
use crate::version::Version;

/// Reads a plan of a version over tables already read: refusals 6 to 14.
pub fn read_plan(version: &Version, bytes: &[u8], tables: &[Table]) -> Result<Plan, u8> {
    let plan = read_tree(version, bytes)?;
    check_tree(&plan, tables)?;
    Ok(plan)
}

/// Refusals 11 to 14 of a tree, each over the whole plan before the next.
pub fn check_tree(plan: &Plan, tables: &[Table]) -> Result<(), u8> {
    let nodes = plan.nodes();
    let missing = |node: &&Plan| match node {
        Plan::Scan { table, .. } => usize::from(*table) >= tables.len(),
        _ => false,
    };
    if nodes.iter().any(missing) {
        return Err(11);
    }
    if !introduced_once(plan, tables) || !names_in_view(plan, tables, &[]) {
        return Err(12);
    }
    if nodes.iter().any(|node| columns(node, tables).len() > 32) {
        return Err(13);
    }
    if nodes.iter().any(|node| bound(node, tables) > 4096) {
        return Err(14);
    }
    Ok(())
}

/// The columns of a table; a table that isn't there has none.
fn width(tables: &[Table], table: u8) -> usize {
    tables.get(usize::from(table)).map_or(0, |table| table.columns)
}

/// The ids that one node introduces. A Scan's may lie above 255 in a plan not yet checked.
fn introduced_by(node: &Plan, tables: &[Table]) -> Vec<usize> {
    match node {
        Plan::Scan { table, first } => {
            let first = usize::from(*first);
            (first..first + width(tables, *table)).collect()
        }
        Plan::Fold { new, .. } | Plan::Pair { new, .. } => vec![usize::from(*new)],
        Plan::Group { new, keys, .. } => vec![usize::from(keys.left), usize::from(*new)],
        _ => vec![],
    }
}

/// All ids introduced in a plan, in pre-order.
pub fn introduced(plan: &Plan, tables: &[Table]) -> Vec<usize> {
    plan.nodes().into_iter().flat_map(|node| introduced_by(node, tables)).collect()
}

/// Whether every id introduced is at most 255 and introduced once.
fn introduced_once(plan: &Plan, tables: &[Table]) -> bool {
    let mut ids = introduced(plan, tables);
    let count = ids.len();
    ids.sort_unstable();
    ids.dedup();
    ids.len() == count && ids.last().is_none_or(|&id| id <= 255)
}

/// Whether a list has no id twice.
fn all_different(list: &[u8]) -> bool {
    (1..list.len()).all(|place| !list[..place].contains(&list[place]))
}

/// Whether every name in the plan is in view, and no list has an id twice. `outer` holds the
/// columns of the rows that the plan is nested in.
fn names_in_view(plan: &Plan, tables: &[Table], outer: &[u8]) -> bool {
    let children = plan.children();
    let given: Vec<Vec<u8>> = children.iter().map(|child| columns(child, tables)).collect();
    let test_is_in_view = plan.test().is_none_or(|test| {
        test.names().iter().all(|id| outer.contains(id) || given.iter().any(|columns| columns.contains(id)))
    });
    let own_names_are_in_view = match plan {
        Plan::Unit | Plan::Scan { .. } | Plan::Select { .. } | Plan::Cross { .. } => true,
        Plan::Some { .. } | Plan::Every { .. } | Plan::Each { .. } => true,
        Plan::Project { list, .. } | Plan::Distinct { list, .. } | Plan::Sort { list, .. } => {
            all_different(list) && list.iter().all(|id| given[0].contains(id))
        }
        Plan::Semi { left_key, right_key, .. } | Plan::Anti { left_key, right_key, .. } => {
            given[0].contains(left_key) && given[1].contains(right_key)
        }
        Plan::Fold { aggregate, .. } => aggregate.column().is_none_or(|id| given[1].contains(&id)),
        Plan::Pair { aggregate, keys, .. } => {
            given[0].contains(&keys.left)
                && given[1].contains(&keys.right)
                && aggregate.column().is_none_or(|id| given[1].contains(&id))
        }
        Plan::Group { aggregate, keys, .. } => {
            given[0].contains(&keys.right) && aggregate.column().is_none_or(|id| given[0].contains(&id))
        }
    };
    let inner_view = [outer, given.first().map_or(&[][..], |columns| columns)].concat();
    test_is_in_view
        && own_names_are_in_view
        && children.iter().enumerate().all(|(number, child)| {
            let nested = number == 1 && plan.is_nested();
            names_in_view(child, tables, if nested { &inner_view } else { outer })
        })
}

/// The ids, in order, that a plan gives. (Ids above 255, refused elsewhere, are left out.)
pub fn columns(plan: &Plan, tables: &[Table]) -> Vec<u8> {
    match plan {
        Plan::Unit => vec![],
        Plan::Scan { .. } => introduced_by(plan, tables).into_iter().filter_map(|id| u8::try_from(id).ok()).collect(),
        Plan::Select { child, .. } | Plan::Sort { child, .. } => columns(child, tables),
        Plan::Project { list, .. } | Plan::Distinct { list, .. } => list.clone(),
        Plan::Semi { left, .. } | Plan::Anti { left, .. } | Plan::Some { left, .. } | Plan::Every { left, .. } => {
            columns(left, tables)
        }
        Plan::Cross { left, right: second } | Plan::Each { left, inner: second } => {
            [columns(left, tables), columns(second, tables)].concat()
        }
        Plan::Fold { new, left, .. } | Plan::Pair { new, left, .. } => {
            let mut all = columns(left, tables);
            all.push(*new);
            all
        }
        Plan::Group { new, keys, .. } => vec![keys.left, *new],
    }
}

/// The row bound. Products of plans not yet checked stop at the largest 64-bit number.
pub fn bound(plan: &Plan, tables: &[Table]) -> u64 {
    match plan {
        Plan::Unit => 1,
        Plan::Scan { table, .. } => tables.get(usize::from(*table)).map_or(0, |table| table.rows.len() as u64),
        Plan::Cross { left, right } => bound(left, tables).saturating_mul(bound(right, tables)),
        Plan::Each { left, inner } => bound(left, tables).saturating_mul(bound(inner, tables).max(1)),
        _ => bound(plan.children()[0], tables),
    }
}

/// Whether a node is of a kind that passes rows on without a region (request K12). In the need these kinds count one row.
pub fn passes_rows_on(node: &Plan) -> bool {
    match node {
        Plan::Select { .. } | Plan::Project { .. } => true,
        Plan::Semi { .. } | Plan::Anti { .. } | Plan::Some { .. } | Plan::Every { .. } => true,
        Plan::Unit | Plan::Scan { .. } | Plan::Distinct { .. } | Plan::Cross { .. } | Plan::Fold { .. } => false,
        Plan::Each { .. } | Plan::Pair { .. } | Plan::Group { .. } | Plan::Sort { .. } => false,
    }
}

/// The rows that a node counts in the need: its bound, or one row where it passes rows on and its bound is not 0.
fn counted_rows(node: &Plan, tables: &[Table]) -> u64 {
    let bound = bound(node, tables);
    if passes_rows_on(node) {
        bound.min(1)
    } else {
        bound
    }
}

/// The parts that the need of an accepted plan is the sum of, in cells: one for each node, in pre-order, and 4,096 besides.
pub fn need_parts(plan: &Plan, tables: &[Table]) -> Vec<u64> {
    let cells = |node: &Plan| counted_rows(node, tables) * columns(node, tables).len() as u64;
    plan.nodes().into_iter().map(cells).chain([4096]).collect()
}

/// The need in cells of a plan that is accepted.
pub fn need(plan: &Plan, tables: &[Table]) -> u64 {
    need_parts(plan, tables).iter().sum()
}

/// The need as it was counted before request K12, with bound × columns for every node. It serves the comparison with that count only.
pub fn need_before(plan: &Plan, tables: &[Table]) -> u64 {
    let cells = |node: &Plan| bound(node, tables) * columns(node, tables).len() as u64;
    4096 + plan.nodes().into_iter().map(cells).sum::<u64>()
}
