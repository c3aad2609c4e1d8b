//! Downward Sorts over equal rows, that is rows which are equal in all listed columns, and what the order of these decides.

use crate::build::{distinct, sort};
use crate::calls::{report_of, unnest_tree};
use crate::plan::Plan;
use crate::rules::{is_closed, stay_position};
use crate::tables::Table;

/// The plan with each downward Sort put over itself. The upper one brings equal rows back into the order in which they came, so the
/// plan gives what it gave before request K3, when a downward Sort kept that order.
pub fn keeping_equal_rows(plan: &Plan) -> Plan {
    let mut keeping = plan.clone();
    for child in keeping.children_mut() {
        *child = keeping_equal_rows(child);
    }
    match plan {
        Plan::Sort { down: true, list, .. } => sort(true, list, keeping),
        _ => keeping,
    }
}

/// How many downward Sorts of an accepted plan have equal rows. Those over a plan that names rows further out are not looked at.
pub fn sorts_with_equal_rows(plan: &Plan, tables: &[Table]) -> usize {
    let has_equal_rows = |node: &&Plan| match node {
        Plan::Sort { down: true, list, child } if is_closed(child, tables) => {
            report_of(&distinct(list, child.as_ref().clone()), tables).rows < report_of(child, tables).rows
        }
        _ => false,
    };
    plan.nodes().into_iter().filter(has_equal_rows).count()
}

/// Whether the order of equal rows decides the report of an accepted plan, the rules of its steps, and the note for its first node.
pub fn decided_by_equal_rows(plan: &Plan, tables: &[Table]) -> [bool; 3] {
    let keeping = keeping_equal_rows(plan);
    let rules = |plan: &Plan| -> Vec<u8> { unnest_tree(plan, tables).0.into_iter().map(|(rule, _)| rule).collect() };
    // In a plan near 64 nodes the Sorts that were put in could keep a rule from fitting.
    let has_room = keeping.size() <= 48;
    [
        report_of(plan, tables) != report_of(&keeping, tables),
        has_room && rules(plan) != rules(&keeping),
        has_room && stay_position(plan, 0, tables) != stay_position(&keeping, 0, tables),
    ]
}
