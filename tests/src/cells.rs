//! Cells: numbers, blank, off scale, each held as the signed 64-bit code that it has in version 2.

use crate::version::VERSION_2;

/// A blank cell.
pub const BLANK: i64 = i64::MIN;
/// An off-scale cell.
pub const OFF_SCALE: i64 = i64::MAX;
/// The largest number that a cell of version 2 may hold; the least is its negative.
pub const LARGEST: i64 = VERSION_2.largest;

/// Whether a cell is a number of version 2's range.
pub fn is_number(cell: i64) -> bool {
    VERSION_2.has_number(cell)
}
