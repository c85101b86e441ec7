//! Random packets for the register.

use super::varied::{Varied, MOST_OPTIONS};
use crate::register::lengths;
use crate::words::Parts;

const LISTED_ELECTIVE: [u16; 7] = [4, 6, 8, 12, 14, 20, 60];
const LISTED_CRITICAL: [u16; 11] = [1, 3, 5, 7, 11, 15, 17, 23, 27, 35, 39];
const UNLISTED_ELECTIVE: [u16; 6] = [0, 2, 10, 28, 258, 65534];
const UNLISTED_CRITICAL: [u16; 4] = [9, 13, 29, 65535];
const REPEATABLE: [u16; 6] = [1, 4, 8, 11, 15, 20];

impl Varied {
    /// A packet whose records are kept and passed over, and in which one now and then is refused: were there many such,
    /// nothing after them would be judged.
    pub fn registered(&mut self) -> Parts {
        let mut parts = self.parts();
        parts.options.clear();
        for _ in 0..=self.random.below(4) {
            let records = self.records_of_one_number();
            parts.options.extend(records);
        }
        if self.random.one_in(20) {
            let more = self.random.below(MOST_OPTIONS - parts.options.len());
            let one = |_| (self.random.of(&[4, 8, 11, 28]), self.random.bytes(1));
            parts.options.extend((0..more).map(one).collect::<Vec<_>>());
        }
        parts.options.sort_by_key(|&(number, _)| number);
        if self.random.one_in(6) {
            self.spoil(&mut parts);
        }
        parts
    }

    fn records_of_one_number(&mut self) -> Vec<(u16, Vec<u8>)> {
        let (number, times) = match self.random.below(24) {
            0..=12 => (self.random.of(&LISTED_ELECTIVE), 1 + self.random.below(4)),
            13..=15 => (self.random.of(&UNLISTED_ELECTIVE), 1 + self.random.below(3)),
            16 => (self.random.of(&UNLISTED_CRITICAL), 1),
            17 => (self.random.of(&LISTED_CRITICAL), 1 + self.random.below(3)),
            18 | 19 => (self.random.of(&REPEATABLE), 1 + self.random.below(4)),
            _ => (self.random.of(&LISTED_CRITICAL), 1),
        };
        let careful = number % 2 == 1 && !self.random.one_in(5);
        (0..times).map(|_| (number, self.value_beside(number, careful))).collect()
    }

    /// A value whose length is beside the shortest or the longest of its number; a careful one is within them.
    fn value_beside(&mut self, number: u16, careful: bool) -> Vec<u8> {
        let lengths = lengths(number).unwrap_or(0..=9);
        let mut length = self.random.near(&[*lengths.start(), *lengths.end()]);
        if careful {
            length = length.clamp(*lengths.start(), *lengths.end());
        }
        self.random.bytes(length)
    }
}
