//! The register of option numbers: which records of a packet are kept, passed over or refused. "Rules" is
//! docs/RULES.md; a section is one of RFC 7252 unless another is named.

use crate::raw::{Raw, Record};
use crate::strict_answers::Judged;
use crate::words::or_none;
use std::ops::RangeInclusive;

/// 5.10, with RFC 7641 2 for Observe and RFC 7959 2.1 for Block2 and Block1: how long the value of a listed number may be.
pub fn lengths(number: u16) -> Option<RangeInclusive<usize>> {
    Some(match number {
        1 => 0..=8,                  // If-Match
        4 => 1..=8,                  // ETag
        3 | 39 => 1..=255,           // Uri-Host, Proxy-Scheme
        5 => 0..=0,                  // If-None-Match
        6 | 23 | 27 => 0..=3,        // Observe, Block2, Block1
        7 | 12 | 17 => 0..=2,        // Uri-Port, Content-Format, Accept
        8 | 11 | 15 | 20 => 0..=255, // Location-Path, Uri-Path, Uri-Query, Location-Query
        14 | 60 => 0..=4,            // Max-Age, Size1
        35 => 1..=1034,              // Proxy-Uri
        _ => return None,
    })
}

/// 5.10: the numbers that may occur more than once.
fn is_repeatable(number: u16) -> bool {
    matches!(number, 1 | 4 | 8 | 11 | 15 | 20)
}

/// Rules, Register: 10, then 11; then 16 with the index of the first critical record that isn't recognised. Any other record
/// that isn't is passed over (5.4.1).
pub fn check(packet: &Raw) -> Judged<String> {
    packet.judge()?;
    let mut kept = Vec::new();
    for (index, record) in packet.counted().iter().enumerate() {
        let recognised = is_recognised(&packet.counted()[..=index], &kept);
        if !recognised && properties(record.number)[0] {
            return Ok(format!("refused 16 {index}"));
        }
        kept.push(recognised);
    }
    let letters: String = kept.iter().map(|&kept| if kept { 'k' } else { 'p' }).collect();
    Ok(format!("passes {}", or_none(&letters)))
}

/// Of the last of some records: a bad length (5.4.3) and a surplus occurrence (5.4.5) are as good as a number that isn't
/// listed. Rules, Register: a record that was passed over is no occurrence.
fn is_recognised(records: &[Record], kept_before: &[bool]) -> bool {
    let Some((last, before)) = records.split_last() else {
        return false;
    };
    let surplus = before.iter().zip(kept_before).any(|(earlier, &kept)| kept && earlier.number == last.number);
    let good_length = lengths(last.number).is_some_and(|lengths| lengths.contains(&(last.range.length as usize)));
    good_length && (is_repeatable(last.number) || !surplus)
}

/// 5.4.6: critical, unsafe, no cache key.
pub fn properties(number: u16) -> [bool; 3] {
    [number & 1 != 0, number & 2 != 0, number & 0x1e == 0x1c]
}
