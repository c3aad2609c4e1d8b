//! The kinds over one child but Group.

use super::check::{place, Check};
use super::hash::{hash, Chains};
use super::{Prepared, Rows, Run, View};
use second::plan::Test;
use std::cmp::Ordering;

/// The places of a list of ids.
fn places(list: &[u8], ids: &[u8]) -> Vec<usize> {
    list.iter().map(|&id| place(id, ids)).collect()
}

pub fn select<'t>(test: &Test, child: Prepared<'t>, view: &View<'t, '_>) -> Run<'t> {
    let test = Check::of(test, view.outer, &[], &child.ids);
    Box::new(move |outer| {
        let given = (child.run)(outer);
        let mut cells = Vec::with_capacity(given.cells.len());
        test.given(outer, &[]).for_each(&given, |row| cells.extend_from_slice(row));
        Rows::new(cells, given.width)
    })
}

pub fn project<'t>(list: &[u8], child: Prepared<'t>) -> Run<'t> {
    let places = places(list, &child.ids);
    Box::new(move |outer| {
        let given = (child.run)(outer);
        let mut cells = Vec::with_capacity(given.count() * places.len());
        for row in given.iter() {
            cells.extend(places.iter().map(|&place| row[place]));
        }
        Rows::new(cells, places.len())
    })
}

/// Each row is cut to the end of the rows kept so far, and taken away again where one of those is the same.
pub fn distinct<'t>(list: &[u8], child: Prepared<'t>) -> Run<'t> {
    let places = places(list, &child.ids);
    Box::new(move |outer| {
        let given = (child.run)(outer);
        let width = places.len();
        let mut cells: Vec<i64> = Vec::with_capacity(given.count() * width);
        let mut chains = Chains::new(given.count());
        for row in given.iter() {
            let end = cells.len();
            cells.extend(places.iter().map(|&place| row[place]));
            let (kept, new) = cells.split_at(end);
            let hash = hash(new);
            if chains.find(hash, |number| kept[number * width..][..width] == *new).is_some() {
                cells.truncate(end);
            } else {
                chains.put(hash);
            }
        }
        Rows::new(cells, width)
    })
}

/// Row numbers are sorted, and then each row is copied once. Downward is the list read backwards.
pub fn sort<'t>(down: bool, list: &[u8], child: Prepared<'t>) -> Run<'t> {
    let places = places(list, &child.ids);
    Box::new(move |outer| {
        let given = (child.run)(outer);
        let (cells, width) = (&given.cells[..], given.width);
        let mut numbers: Vec<u32> = (0..given.count() as u32).collect();
        numbers.sort_by(|&one, &other| order(cells, one as usize * width, other as usize * width, &places));
        if down {
            numbers.reverse();
        }
        let mut sorted = Vec::with_capacity(cells.len());
        for start in numbers.iter().map(|&number| number as usize * width) {
            sorted.extend_from_slice(&cells[start..start + width]);
        }
        Rows::new(sorted, width)
    })
}

/// The order, by the cells at some places, of the rows that start at one cell and at another.
fn order(cells: &[i64], one: usize, other: usize, places: &[usize]) -> Ordering {
    for &place in places {
        let (left, right) = (cells[one + place], cells[other + place]);
        if left != right {
            return left.cmp(&right);
        }
    }
    Ordering::Equal
}
