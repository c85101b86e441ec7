//! Uints and the zero bytes that they are padded with. "Rules" is docs/RULES.md; a section is one of RFC 7252.

use crate::strict_answers::{demand, Judged};

/// What a value is read as (Rules, Uints and text): so many zero bytes and then the shortest form of the number.
pub struct Uint {
    pub number: u64,
    pub zeros: usize,
}

/// Rules, Uints and text: 13 is about the length alone. No width is over 8.
pub fn read(width: u64, value: &[u8]) -> Judged<Uint> {
    demand(value.len() as u64 <= width.min(8), 13)?;
    let number = value.iter().fold(0, |number, &byte| number << 8 | u64::from(byte));
    Ok(Uint { number, zeros: value.len() - shortest(number).len() })
}

/// 3.2: high byte first, and no leading zero bytes.
pub fn shortest(number: u64) -> Vec<u8> {
    number.to_be_bytes().into_iter().skip_while(|&byte| byte == 0).collect()
}

/// The words of an answer.
pub fn shown(width: u64, value: &[u8]) -> Judged<String> {
    let Uint { number, zeros } = read(width, value)?;
    Ok(format!("number {number} zeros {zeros}"))
}
