//! Semi, Anti, Some and Every, and the inner plans of nested kinds.

use super::check::{holds_number, place, Check};
use super::hash::Keys;
use super::{prepared, Prepared, Rows, Run, View};
use second::check::columns;
use second::plan::{Comparison, Form, Plan, Test};

/// Left rows that have, or have no, right row with the same key that passes: the keys of the right rows that pass are put into a hash table.
pub fn matched<'t>(
    keys: (u8, u8),
    test: &Test,
    wanted: bool,
    left: Prepared<'t>,
    right: Prepared<'t>,
    view: &View<'t, '_>,
) -> Run<'t> {
    let test = Check::of(test, view.outer, &left.ids, &right.ids);
    assert!(!test.names_left(), "a test of the right row alone");
    let (own, other) = (place(keys.0, &left.ids), place(keys.1, &right.ids));
    Box::new(move |outer| {
        let rights = (right.run)(outer);
        let mut keys = Keys::new(rights.count());
        test.given(outer, &[]).for_each(&rights, |row| {
            if holds_number(row[other]) {
                keys.put(row[other]);
            }
        });
        (left.run)(outer).kept(|row| keys.find(row[own]).is_some() == wanted)
    })
}

/// Left rows for which some, or no, inner row passes. Where the inner plan is a Select of equality it is done as a Semi or Anti.
pub fn quantified<'t>(test: &Test, wanted: bool, left: Prepared<'t>, inner: &Plan, view: &View<'t, '_>) -> Run<'t> {
    if let Some((keys, right)) = equality(inner, &left.ids, view) {
        return matched(keys, test, wanted, left, prepared(right, view), view);
    }
    let inner = Inner::of(inner, &left.ids, view);
    let test = Check::of(test, view.outer, &left.ids, &inner.plan.ids);
    Box::new(move |outer| {
        let lefts = (left.run)(outer);
        let mut cells = Vec::with_capacity(lefts.cells.len());
        inner.for_each(&lefts, outer, |row, inner_rows| {
            if test.given(outer, row).any(inner_rows) == wanted {
                cells.extend_from_slice(row);
            }
        });
        Rows::new(cells, lefts.width)
    })
}

/// The keys, left and right, and the child of a Select of equality between a left row and its child, which names no left column.
fn equality<'p>(inner: &'p Plan, left: &[u8], view: &View) -> Option<((u8, u8), &'p Plan)> {
    match inner {
        Plan::Select { test: Test { form: Form::Columns(Comparison::Equal, own, other), not: false }, child }
            if left.contains(own) && columns(child, view.tables).contains(other) && !names_any(child, left) =>
        {
            Some(((*own, *other), child))
        }
        _ => None,
    }
}

/// Whether a plan names any of these columns from outside: only tests can.
fn names_any(plan: &Plan, ids: &[u8]) -> bool {
    let named = |node: &&Plan| node.test().is_some_and(|test| test.names().iter().any(|id| ids.contains(id)));
    plan.nodes().iter().any(named)
}

/// An inner plan, and whether it names columns of the left row.
pub struct Inner<'t> {
    pub plan: Prepared<'t>,
    names_left: bool,
}

impl<'t> Inner<'t> {
    pub fn of(plan: &Plan, left: &[u8], view: &View<'t, '_>) -> Inner<'t> {
        let outer = [view.outer, left].concat();
        Inner { plan: prepared(plan, &View { outer: &outer, ..*view }), names_left: names_any(plan, left) }
    }

    /// Gives each left row and its inner rows on. They are made once where they are the same for all left rows.
    pub fn for_each(&self, lefts: &Rows, outer: &[i64], mut give: impl FnMut(&[i64], &Rows)) {
        let mut view = outer.to_vec();
        view.resize(outer.len() + lefts.width, 0);
        if !self.names_left {
            let inner_rows = (self.plan.run)(&view);
            lefts.iter().for_each(|row| give(row, &inner_rows));
            return;
        }
        for row in lefts.iter() {
            view[outer.len()..].copy_from_slice(row);
            give(row, &(self.plan.run)(&view));
        }
    }
}
