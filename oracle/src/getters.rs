//! What the getters say of a raw packet. They refuse nothing. "Rules" is docs/RULES.md.

use crate::raw::Raw;
use crate::uints;
use crate::words::{hex, or_none, yes, Words};
use coap_lite::ContentFormat;

const OBSERVE: u16 = 6;
const CONTENT_FORMAT: u16 = 12;

/// `get-raw NUMBERS RAW`
pub fn answer(words: &mut Words) -> Option<String> {
    let numbers = words.numbers(u64::MAX, 65535)?;
    let raw = Raw::of(words)?;
    let asked: Vec<String> = numbers.iter().map(|&number| asked(&raw, number as u16)).collect();
    let (format, observe, asked) = (format(&raw), observe(&raw), or_none(&asked.join(",")));
    Some(format!("{} format {format} observe {observe} asked {asked}", raw.meaning().shown()))
}

/// The values of a number, in the order of the records.
fn values(raw: &Raw, number: u16) -> Vec<&[u8]> {
    raw.counted().iter().filter(|record| record.number == number).map(|record| raw.part(record.range)).collect()
}

/// Presence, count and the first value.
fn asked(raw: &Raw, number: u16) -> String {
    let values = values(raw, number);
    let first = values.first().map_or("-".into(), |value| hex(value));
    format!("{number}:{}:{}:{first}", yes(!values.is_empty()), values.len())
}

/// Rules, Edits: the first decides; one that is absent, over-long or not listed reads as none. Rules, Uints and text: the
/// count of zeros stands beside one that isn't listed too.
fn format(raw: &Raw) -> String {
    let Some(Ok(uint)) = values(raw, CONTENT_FORMAT).first().map(|value| uints::read(2, value)) else {
        return "none zeros 0".into();
    };
    let listed = ContentFormat::try_from(uint.number as usize).is_ok();
    let number = if listed { uint.number.to_string() } else { "none".into() };
    format!("{number} zeros {}", uint.zeros)
}

/// The first decides: none, 13, which has no count, or the number.
fn observe(raw: &Raw) -> String {
    match values(raw, OBSERVE).first().map(|value| uints::read(4, value)) {
        None => "none zeros 0".into(),
        Some(Err(refusal)) => format!("refused {refusal}"),
        Some(Ok(uint)) => format!("{} zeros {}", uint.number, uint.zeros),
    }
}
