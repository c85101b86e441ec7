//! Plans of the rest of an image, made and checked: docs/RULES.md, Image plans.

use crate::strict_answers::{demand, Judged};
use crate::words::{or_none, Words, MOST_VALUES};

/// The sizes of an image, and how many bytes are held or missing together.
const LARGEST_IMAGE: u64 = 1_048_576;
const UNIT: u64 = 16;
/// RFC 7959 2.2: 2 to the power of SZX units of 16 bytes, and SZX 7 is reserved.
pub const LARGEST_EXPONENT: u32 = 6;

/// `plan ROOM SIZE HELD`: 22, then 12 where the plan has more values than there is room for.
pub fn answer_plan(words: &mut Words) -> Option<Judged<String>> {
    let (room, size) = (words.number(MOST_VALUES)?, words.number(u32::MAX.into())?);
    let plan = made(size, &words.bytes()?);
    Some(plan.and_then(|plan| {
        demand(plan.len() as u64 <= room, 12)?;
        Ok(format!("plan {} {}", plan.len(), listed(&plan)))
    }))
}

/// `plan-check SIZE HELD VALUES`
pub fn answer_check(words: &mut Words) -> Option<Judged<String>> {
    let (size, held) = (words.number(u32::MAX.into())?, words.bytes()?);
    let plan = words.numbers(MOST_VALUES, u32::MAX.into())?;
    Some(check(size, &held, &plan).map(|()| "accepted".into()))
}

/// Which units of an image are missing, the last of which may be a part of one.
fn missing(size: u64, held: &[u8]) -> Judged<Vec<bool>> {
    demand((1..=LARGEST_IMAGE).contains(&size) && held.len() as u64 == size.div_ceil(UNIT), 22)?;
    Ok(held.iter().map(|&byte| byte == 0).collect())
}

/// A strict block value, its place counted in units.
struct Block {
    start: u64,
    units: u64,
    more: bool,
}

impl Block {
    /// RFC 7959 2.2: NUM of 20 bits counts blocks of the size, then M, then SZX.
    fn of(value: u64) -> Judged<Block> {
        let exponent = value as u32 & 7;
        demand(value < 1 << 24 && exponent <= LARGEST_EXPONENT, 22)?;
        let units = 1 << exponent;
        Ok(Block { start: (value >> 4) * units, units, more: value & 8 != 0 })
    }
}

/// Whether bytes of the image come after a block.
fn is_more(start: u64, units: u64, size: u64) -> bool {
    (start + units) * UNIT < size
}

/// 22 where a plan isn't accepted: starts rise, each inside the image; more is false for the blocks that reach its end and
/// for no others; and as many blocks cover a unit as have to, one if it is missing and none if it is held.
fn check(size: u64, held: &[u8], plan: &[u64]) -> Judged<()> {
    let missing = missing(size, held)?;
    let blocks: Vec<Block> = plan.iter().map(|&value| Block::of(value)).collect::<Judged<_>>()?;
    demand(blocks.windows(2).all(|pair| pair[0].start < pair[1].start), 22)?;
    demand(blocks.iter().all(|block| block.start * UNIT < size), 22)?;
    demand(blocks.iter().all(|block| block.more == is_more(block.start, block.units, size)), 22)?;
    let mut times = vec![0; missing.len()];
    for block in &blocks {
        let existing = block.start..(block.start + block.units).min(times.len() as u64);
        existing.for_each(|unit| times[unit as usize] += 1);
    }
    demand(times.iter().zip(&missing).all(|(&times, &missing)| times == u32::from(missing)), 22)
}

/// Our own plan: at each missing unit that no block before covers, the largest that fits.
pub fn made(size: u64, held: &[u8]) -> Judged<Vec<u64>> {
    chosen(size, held, |exponents| exponents[exponents.len() - 1])
}

/// A plan in which each block has one of the exponents that fit: aligned, and over no unit that is held.
pub fn chosen(size: u64, held: &[u8], mut choose: impl FnMut(&[u32]) -> u32) -> Judged<Vec<u64>> {
    let missing = missing(size, held)?;
    let mut plan = Vec::new();
    let mut unit = 0;
    while unit < missing.len() {
        if !missing[unit] {
            unit += 1;
            continue;
        }
        let fits = |exponent: &u32| {
            let units = 1 << exponent;
            unit % units == 0 && missing[unit..].iter().take(units).all(|&missing| missing)
        };
        let exponents: Vec<u32> = (0..=LARGEST_EXPONENT).filter(fits).collect();
        let exponent = choose(&exponents);
        plan.push(value(unit as u64, exponent, size));
        unit += 1 << exponent;
    }
    Ok(plan)
}

/// The value of the block of an image that starts at a unit.
pub fn value(unit: u64, exponent: u32, size: u64) -> u64 {
    (unit >> exponent) << 4 | u64::from(is_more(unit, 1 << exponent, size)) << 3 | u64::from(exponent)
}

/// The word of some values.
pub fn listed(plan: &[u64]) -> String {
    let words: Vec<String> = plan.iter().map(u64::to_string).collect();
    or_none(&words.join(","))
}
