//! Keys and rows that the library's hash puts into one bucket: the worst that its chains can meet.

use second::keys::bucket;
use second::random::Random;
use second::version::VERSION_1;
use std::collections::HashSet;

/// A number of the range that version 1 had, so that times can be compared with those of before.
fn number(random: &mut Random) -> i64 {
    loop {
        let code = i64::from(random.bits() as i32);
        if VERSION_1.has_number(code) {
            return code;
        }
    }
}

/// So many different keys of one bucket, found by trying.
pub fn keys(random: &mut Random, count: usize) -> Vec<i64> {
    let (mut keys, mut known) = (Vec::new(), HashSet::new());
    while keys.len() < count {
        let key = number(random);
        if bucket(&[key]) == 0 && known.insert(key) {
            keys.push(key);
        }
    }
    keys
}

/// So many rows of two cells of one bucket, with different first cells.
pub fn rows(random: &mut Random, count: usize) -> Vec<Vec<i64>> {
    let (mut rows, mut known) = (Vec::new(), HashSet::new());
    while rows.len() < count {
        let row = vec![number(random), number(random)];
        if bucket(&row) == 0 && known.insert(row[0]) {
            rows.push(row);
        }
    }
    rows
}
