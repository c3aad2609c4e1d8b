//! The two versions of tables and plans, and what differs between them (request K13). All else is written once, over a version.
//!
//! The library takes version 2; version 1 is what its converter takes up and gives back. In memory a cell is the same in both: [`BLANK`],
//! [`OFF_SCALE`] or a number. It is widened when it is read and narrowed when it is written.

use crate::cells::{BLANK, OFF_SCALE};

/// What differs between the versions.
#[derive(Clone, Copy, Debug, PartialEq, Eq)]
pub struct Version {
    /// The number that stands in the header of a table and of a plan.
    pub number: u16,
    /// The bytes of a cell, and of a test's number.
    pub cell: usize,
    /// The bytes of a node.
    pub node: usize,
    /// The largest number; the least is its negative.
    pub largest: i64,
    /// The code of a blank cell.
    pub blank: i64,
    /// The code of an off-scale cell.
    pub off_scale: i64,
}

/// Paper 01's version, with codes of 32 bits.
pub const VERSION_1: Version = Version {
    number: 1,
    cell: 4,
    node: 24,
    largest: 2_000_000_000,
    blank: i32::MIN as i64,
    off_scale: i32::MAX as i64,
};

/// The version of request K13, with codes of 64 bits.
pub const VERSION_2: Version =
    Version { number: 2, cell: 8, node: 32, largest: 9_000_000_000_000_000, blank: i64::MIN, off_scale: i64::MAX };

impl Version {
    /// Whether a cell is a number of this version's range.
    pub const fn has_number(&self, cell: i64) -> bool {
        -self.largest <= cell && cell <= self.largest
    }

    /// Whether a cell can stand in a table of this version: blank and off scale always can.
    pub fn has_cell(&self, cell: i64) -> bool {
        cell == BLANK || cell == OFF_SCALE || self.has_number(cell)
    }

    /// The cell with this code; none where the code is no cell's.
    pub fn cell_of(&self, code: i64) -> Option<i64> {
        match code {
            _ if code == self.blank => Some(BLANK),
            _ if code == self.off_scale => Some(OFF_SCALE),
            _ => Some(code).filter(|&number| self.has_number(number)),
        }
    }

    /// The code of a cell. It checks nothing, so that faulty codes can be written too.
    pub fn code_of(&self, cell: i64) -> i64 {
        match cell {
            BLANK => self.blank,
            OFF_SCALE => self.off_scale,
            code => code,
        }
    }

    /// The code in the bytes of a cell or of a test's number, low byte first.
    pub fn read_code(&self, bytes: &[u8]) -> i64 {
        let negative = bytes[self.cell - 1] >= 128;
        let mut all = [if negative { 255 } else { 0 }; 8];
        all[..self.cell].copy_from_slice(&bytes[..self.cell]);
        i64::from_le_bytes(all)
    }

    /// The bytes of a code, low byte first. What does not fit is cut off.
    pub fn write_code(&self, code: i64) -> Vec<u8> {
        code.to_le_bytes()[..self.cell].to_vec()
    }

    /// The letters and the version number that a table or a plan begins with.
    pub fn mark(&self, letters: &[u8; 3]) -> Vec<u8> {
        [&letters[..], &self.number.to_le_bytes()].concat()
    }

    /// Whether bytes begin with these letters and this version's number.
    pub fn is_mark(&self, letters: &[u8; 3], bytes: &[u8]) -> bool {
        bytes.starts_with(&self.mark(letters))
    }
}

#[cfg(test)]
mod tests {
    use super::*;

    #[test]
    fn codes_are_read_as_they_are_written() {
        for version in [VERSION_1, VERSION_2] {
            for code in [0, 1, -1, 255, -256, version.largest, -version.largest, version.blank, version.off_scale] {
                assert_eq!(version.read_code(&version.write_code(code)), code);
            }
            for cell in [0, -1, version.largest, -version.largest, BLANK, OFF_SCALE] {
                assert_eq!(version.cell_of(version.code_of(cell)), Some(cell));
            }
            for code in [version.largest + 1, -version.largest - 1, version.off_scale - 1, version.blank + 1] {
                assert_eq!(version.cell_of(code), None);
            }
        }
        // The old codes of blank and of off scale are plain numbers now, and the new ones do not fit into 32 bits.
        assert_eq!(VERSION_2.cell_of(VERSION_1.blank), Some(-2_147_483_648));
        assert_eq!(VERSION_2.cell_of(VERSION_1.off_scale), Some(2_147_483_647));
        assert_eq!(VERSION_1.cell_of(VERSION_2.blank), None);
    }
}
