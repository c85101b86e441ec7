//! Images with units that are held, and plans of the rest: good ones, damaged ones, and all small ones.

use super::varied::Varied;
use crate::plans::{chosen, listed, made, value, LARGEST_EXPONENT};
use crate::words::{hex, MOST_VALUES};

/// Sizes beside which a unit, a block of the largest size or the image ends.
const SIZES: [usize; 9] = [1, 16, 32, 80, 1024, 1040, 2048, 4096, 5000];
const LARGEST: usize = 1_048_576;

impl Varied {
    /// A plan that is asked for, or one to check.
    pub fn plan(&mut self) -> String {
        let size = match self.random.below(40) {
            0 => self.random.of(&[0, LARGEST, LARGEST + 1, u32::MAX as usize]),
            1..=19 => self.random.near(&SIZES),
            20..=29 => 1 + self.random.below(200),
            _ => 1 + self.random.below(3000),
        };
        let mut units = size.div_ceil(16);
        if self.random.one_in(15) {
            units = self.random.near(&[units]);
        }
        if units > 400 {
            return self.large_plan(size, units);
        }
        let held = self.held(units);
        self.plan_of(size as u64, &held, &hex(&held))
    }

    /// The word of a list with nothing held is short, however large the image is.
    fn large_plan(&mut self, size: usize, units: usize) -> String {
        let held = vec![0; units.min(65_537)];
        self.plan_of(size as u64, &held, &format!("zeros:{}", held.len()))
    }

    /// An image near the largest, with a list of held units that is written out.
    pub fn long_plan(&mut self) -> String {
        let size = self.random.near(&[LARGEST, LARGEST - 16]);
        let held = self.held(size.div_ceil(16));
        let room = self.random.of(&[0, 1_000, 32_767, 32_768, MOST_VALUES]);
        format!("plan {room} {size} {}", hex(&held))
    }

    /// Runs of units that are held or missing; or any, or all of them alike.
    fn held(&mut self, units: usize) -> Vec<u8> {
        let kind = self.random.below(12);
        let longest = self.random.of(&[1, 3, 20, 100, 200]);
        let mut held = Vec::new();
        while held.len() < units {
            let byte = match kind {
                0 => 0,
                1 => 1,
                _ if self.random.one_in(2) => 0,
                _ => self.random.of(&[1, 1, 1, 2, 0x80, 0xff]),
            };
            let run = 1 + self.random.below(longest);
            held.extend(vec![byte; run.min(units - held.len())]);
        }
        held
    }

    fn plan_of(&mut self, size: u64, held: &[u8], held_word: &str) -> String {
        let ours = made(size, held).unwrap_or_default();
        if self.random.one_in(3) {
            let room = match self.random.below(4) {
                0 | 1 => self.random.near(&[ours.len()]) as u64,
                2 => self.random.below(8) as u64,
                _ => MOST_VALUES,
            };
            return format!("plan {room} {size} {held_word}");
        }
        let mut plan = ours;
        if self.random.one_in(2) {
            plan = chosen(size, held, |exponents| self.random.of(exponents)).unwrap_or_default();
        }
        if !self.random.one_in(3) {
            self.damage(&mut plan, size);
        }
        format!("plan-check {size} {held_word} {}", listed(&plan))
    }

    /// One thing in a plan that is other than it was, in most cases a fault.
    fn damage(&mut self, plan: &mut Vec<u64>, size: u64) {
        let at = self.random.below(plan.len() + 1);
        if at == plan.len() || self.random.one_in(4) {
            let unit = self.random.below(size as usize / 16 + 2) as u64;
            let exponent = self.random.below(4) as u32;
            plan.insert(at, value(unit, exponent, size));
            return;
        }
        match self.random.below(8) {
            0 => plan[at] ^= 8,
            1 => plan[at] = plan[at] ^ (plan[at] & 7) | self.random.below(8) as u64,
            2 => plan[at] = (plan[at] + 16).saturating_sub(32 * self.random.below(2) as u64),
            3 => plan[at] += self.random.of(&[1 << 23, 1 << 24, 1 << 31]),
            4 => drop(plan.remove(at)),
            5 => plan.insert(at, plan[at]),
            6 => plan.swap(0, at),
            _ => self.halve(plan, at, size),
        }
    }

    /// A block in two halves, of which the second need not exist: no fault, where both have the right more.
    fn halve(&mut self, plan: &mut Vec<u64>, at: usize, size: u64) {
        let exponent = plan[at] as u32 & 7;
        if exponent == 0 || exponent > LARGEST_EXPONENT {
            return;
        }
        let (start, half) = ((plan[at] >> 4) << exponent, 1 << (exponent - 1));
        plan[at] = value(start, exponent - 1, size);
        if (start + half) * 16 < size || self.random.one_in(4) {
            plan.insert(at + 1, value(start + half, exponent - 1, size));
        }
    }
}

/// Every list of held units of small images: with every plan of up to two blocks of a few, and with the plan that is asked
/// for. Then every size up to two blocks of the largest size, with nothing held.
pub fn small(put: &mut dyn FnMut(String)) {
    for units in 1..=6 {
        for size in [16 * units - 15, 16 * units] {
            for bits in 0..1 << units {
                let held: Vec<u8> = (0..units).map(|unit| (bits >> unit & 1) as u8).collect();
                let held = hex(&held);
                for room in [0, 1, 2, 3, MOST_VALUES] {
                    put(format!("plan {room} {size} {held}"));
                }
                // one size is enough for the many plans of the larger images
                if units <= 4 || size % 16 == 1 {
                    small_plans(units, size, &mut |plan| put(format!("plan-check {size} {held} {}", listed(plan))));
                }
            }
        }
    }
    for size in 0..=2_064_u64 {
        put(format!("plan 3 {size} zeros:{}", size.div_ceil(16)));
        put(format!("plan-check {size} zeros:{} {}", size.div_ceil(16), value(0, LARGEST_EXPONENT, size)));
    }
}

/// Plans of up to two blocks that start in an image or just past its end, with either more where the image has at most four
/// units, and a value that is no strict one.
fn small_plans(units: u64, size: u64, take: &mut dyn FnMut(&[u64])) {
    let mut values = vec![7];
    for exponent in [0, 1, 2, LARGEST_EXPONENT] {
        for number in 0..=units >> exponent {
            let right = value(number << exponent, exponent, size);
            values.push(right);
            if units <= 4 {
                values.push(right ^ 8);
            }
        }
    }
    take(&[]);
    for &first in &values {
        take(&[first]);
        values.iter().for_each(|&second| take(&[first, second]));
    }
}
