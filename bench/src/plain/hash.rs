//! A hash table: numbers in chains, by a multiplicative hash.

/// An odd multiplier other than the library's, so that keys which fall into one bucket there are spread here.
const MULTIPLIER: u64 = 0xf135_7aea_2e62_a9c5;

/// The hash of cells. Its upper bits are the mixed ones.
#[inline]
pub fn hash(cells: &[i64]) -> u64 {
    cells.iter().fold(0, |hash: u64, &cell| (hash.rotate_left(5) ^ cell as u64).wrapping_mul(MULTIPLIER))
}

/// The numbers 0, 1, 2 and so on, in chains of those that fall together. A link is 0 at a chain's end, or else a number and 1.
pub struct Chains {
    heads: Vec<u32>,
    next: Vec<u32>,
    shift: u32,
}

impl Chains {
    /// No numbers yet, with room for so many, and twice as many heads.
    pub fn new(most: usize) -> Chains {
        let count = (2 * most).next_power_of_two().max(2);
        Chains { heads: vec![0; count], next: Vec::with_capacity(most), shift: 64 - count.trailing_zeros() }
    }

    /// Puts the next number under a hash.
    #[inline]
    pub fn put(&mut self, hash: u64) {
        let head = &mut self.heads[(hash >> self.shift) as usize];
        self.next.push(*head);
        *head = self.next.len() as u32;
    }

    /// A number under a hash that is the same.
    #[inline]
    pub fn find(&self, hash: u64, same: impl Fn(usize) -> bool) -> Option<usize> {
        let mut link = self.heads[(hash >> self.shift) as usize];
        while link != 0 {
            let number = link as usize - 1;
            if same(number) {
                return Some(number);
            }
            link = self.next[number];
        }
        None
    }
}

/// Keys, numbered in the order in which they came.
pub struct Keys {
    chains: Chains,
    pub keys: Vec<i64>,
}

impl Keys {
    /// Room for so many keys.
    pub fn new(most: usize) -> Keys {
        Keys { chains: Chains::new(most), keys: Vec::with_capacity(most) }
    }

    /// Puts a key in, again where it is in already.
    #[inline]
    pub fn put(&mut self, key: i64) {
        self.chains.put(hash(&[key]));
        self.keys.push(key);
    }

    /// The number of a key that is in.
    #[inline]
    pub fn find(&self, key: i64) -> Option<usize> {
        self.chains.find(hash(&[key]), |number| self.keys[number] == key)
    }

    /// The number of a key, which is put in where it is new.
    #[inline]
    pub fn number(&mut self, key: i64) -> usize {
        self.find(key).unwrap_or_else(|| {
            self.put(key);
            self.keys.len() - 1
        })
    }
}
