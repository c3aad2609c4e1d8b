//! Tests and keys with the places of their columns found.

use super::Rows;
use second::cells::{BLANK, LARGEST, OFF_SCALE};
use second::plan::{Comparison, Form, Test};

/// What a side of a test looks at: a number, or a place in the outer rows, in the left row or in the row itself.
#[derive(Clone, Copy)]
pub enum Side {
    Code(i64),
    Outer(usize),
    Left(usize),
    Own(usize),
}

/// A test of a row beside a left row, within outer rows.
#[derive(Clone, Copy)]
pub struct Check {
    pub comparison: Comparison,
    pub left: Side,
    pub right: Side,
    pub not: bool,
}

/// Where an id stands.
pub fn place(id: u8, ids: &[u8]) -> usize {
    ids.iter().position(|&own| own == id).expect("a column in view")
}

/// Whether a cell holds a number.
#[inline]
pub fn holds_number(cell: i64) -> bool {
    cell != BLANK && cell != OFF_SCALE
}

impl Check {
    /// A test over columns of these ids. Always is a number that equals itself.
    pub fn of(test: &Test, outer: &[u8], left: &[u8], own: &[u8]) -> Check {
        let side = |id: u8| {
            let found = |ids: &[u8]| ids.iter().position(|&other| other == id);
            match (found(own), found(left)) {
                (Some(place), _) => Side::Own(place),
                (_, Some(place)) => Side::Left(place),
                _ => Side::Outer(place(id, outer)),
            }
        };
        let (comparison, left, right) = match test.form {
            Form::Always => (Comparison::Equal, Side::Code(0), Side::Code(0)),
            Form::Columns(comparison, left, right) => (comparison, side(left), side(right)),
            Form::Number(comparison, left, number) => (comparison, side(left), Side::Code(number)),
        };
        Check { comparison, left, right, not: test.not }
    }

    /// Whether it looks at the left row.
    pub fn names_left(&self) -> bool {
        matches!(self.left, Side::Left(_)) || matches!(self.right, Side::Left(_))
    }

    /// What it asks of a row within these outer rows and beside this left row. A test of the row alone is within no rows and beside none.
    pub fn given(&self, outer: &[i64], left: &[i64]) -> Filter {
        let put = |side| match side {
            Side::Outer(place) => Side::Code(outer[place]),
            Side::Left(place) => Side::Code(left[place]),
            side => side,
        };
        match (put(self.left), put(self.right)) {
            (Side::Code(one), Side::Code(other)) => Filter::Fixed(self.comparison.holds(one, other) != self.not),
            (left, right) => Check { left, right, ..*self }.filter(),
        }
    }

    /// A test of the row alone: a range where a cell is compared with a number by anything but ≠.
    fn filter(self) -> Filter {
        let (place, comparison, code) = match (self.left, self.right) {
            (Side::Own(place), Side::Code(code)) => (place, self.comparison, code),
            (Side::Code(code), Side::Own(place)) => (place, self.comparison.turned(), code),
            _ => return Filter::Other(self),
        };
        let (least, greatest) = match comparison {
            Comparison::NotEqual => return Filter::Other(self),
            _ if !holds_number(code) => return Filter::Fixed(self.not),
            Comparison::Equal => (code, code),
            Comparison::Less => (-LARGEST, code - 1),
            Comparison::AtMost => (-LARGEST, code),
            Comparison::Greater => (code + 1, LARGEST),
            Comparison::AtLeast => (code, LARGEST),
        };
        if greatest < least {
            return Filter::Fixed(self.not);
        }
        Filter::Cell(place, Range { least, more: (greatest as u64).wrapping_sub(least as u64), not: self.not })
    }

    /// Whether a row passes a test of the row alone.
    #[inline]
    fn passes(&self, row: &[i64]) -> bool {
        let cell = |side| match side {
            Side::Code(code) => code,
            Side::Own(place) => row[place],
            Side::Outer(_) | Side::Left(_) => unreachable!("a cell of the row alone"),
        };
        self.comparison.holds(cell(self.left), cell(self.right)) != self.not
    }
}

/// What is asked of a row: nothing, a cell in a range, or another test of the row alone.
#[derive(Clone, Copy)]
pub enum Filter {
    Fixed(bool),
    Cell(usize, Range),
    Other(Check),
}

impl Filter {
    #[inline]
    pub fn passes(self, row: &[i64]) -> bool {
        match self {
            Filter::Fixed(outcome) => outcome,
            Filter::Cell(place, range) => range.contains(row[place]),
            Filter::Other(check) => check.passes(row),
        }
    }

    /// Gives on the rows that pass, with a loop for each form.
    pub fn for_each(self, rows: &Rows, give: impl FnMut(&[i64])) {
        match self {
            Filter::Fixed(false) => {}
            Filter::Fixed(true) => rows.iter().for_each(give),
            Filter::Cell(place, range) => rows.iter().filter(|row| range.contains(row[place])).for_each(give),
            Filter::Other(check) => rows.iter().filter(|row| check.passes(row)).for_each(give),
        }
    }

    /// Whether any row passes, with a loop for each form.
    pub fn any(self, rows: &Rows) -> bool {
        match self {
            Filter::Fixed(outcome) => outcome && rows.count() > 0,
            Filter::Cell(place, range) => rows.iter().any(|row| range.contains(row[place])),
            Filter::Other(check) => rows.iter().any(|row| check.passes(row)),
        }
    }
}

/// Codes from a least one on, so many and one, or all others where it is turned round.
#[derive(Clone, Copy)]
pub struct Range {
    least: i64,
    more: u64,
    not: bool,
}

impl Range {
    #[inline]
    pub fn contains(self, code: i64) -> bool {
        (code.wrapping_sub(self.least) as u64 <= self.more) != self.not
    }
}
