//! Edits of raw packets, by docs/RULES.md, Edits, in the order of docs/REFUSALS.md: 10 where a store is lent, 11, 6, 12.

use crate::raw::{filled, range, Home, Range, Raw, Record, LONGEST_TOKEN, MOST_OPTIONS};
use crate::strict_answers::{demand, Judged, MOST_BYTES};
use crate::uints;
use crate::words::{number, Words};

const OBSERVE: u16 = 6;
const CONTENT_FORMAT: u16 = 12;

/// `edit-raw RAW ; STEP ; STEP`: the first step that is refused, or is none, decides, whatever comes after it.
pub fn answer(words: &mut Words) -> Option<String> {
    let mut raw = Raw::of(words)?;
    while words.end().is_none() {
        if words.word()? != b";" {
            return None;
        }
        if let Err(refusal) = step(&mut raw, words)? {
            return Some(format!("refused {refusal} {}", raw.shown()));
        }
    }
    Some(format!("raw {}", raw.shown()))
}

/// A step that is refused leaves packet and stores.
fn step(raw: &mut Raw, words: &mut Words) -> Option<Judged<()>> {
    let done = match words.word()? {
        b"add" => {
            let (number, range) = (words.option_number()?, range(words.word()?)?);
            add(raw, number, range)
        }
        b"set" => {
            let (number, ranges) = (words.option_number()?, ranges(words.word()?)?);
            set(raw, number, &ranges)
        }
        b"clear" => set(raw, words.option_number()?, &[]),
        b"clear-all" => clear_all(raw),
        b"token" => token(raw, range(words.word()?)?),
        b"payload" => payload(raw, range(words.word()?)?),
        b"content-format" => {
            let (format, start) = (words.number(65535)?, words.number(u32::MAX.into())?);
            content_format(raw, format, start)
        }
        b"observe" => {
            let (value, start) = (words.number(u32::MAX.into())?, words.number(u32::MAX.into())?);
            observe(raw, value, start)
        }
        header => {
            set_header(raw, header, words)?;
            Ok(())
        }
    };
    Some(done)
}

/// `RANGE,RANGE,..`, or `none`.
fn ranges(word: &[u8]) -> Option<Vec<Range>> {
    if word == b"none" {
        return Some(Vec::new());
    }
    word.split(|&byte| byte == b',').map(range).collect()
}

/// Setting a part of the header is no edit. A version keeps its low two bits.
fn set_header(raw: &mut Raw, name: &[u8], words: &mut Words) -> Option<()> {
    match name {
        b"version" => raw.version = words.byte()? & 3,
        b"type" => raw.kind = words.kind()?,
        b"class" => raw.class = words.class()?,
        b"id" => raw.id = number(words.word()?, 65535)? as u16,
        _ => return None,
    }
    Some(())
}

/// After an edit, the records past the count are empty.
fn put(raw: &mut Raw, records: &[Record]) {
    raw.records = filled(records).expect("at most 128 were let in");
    raw.count = records.len() as u64;
}

/// The records with more of a number, which stand after the last of the same or a lower number; 6 where that is over 128.
fn with(mut records: Vec<Record>, number: u16, ranges: &[Range]) -> Judged<Vec<Record>> {
    demand(records.len() + ranges.len() <= MOST_OPTIONS, 6)?;
    let at = records.iter().take_while(|record| record.number <= number).count();
    records.splice(at..at, ranges.iter().map(|&range| Record { number, range }));
    Ok(records)
}

/// The records but those of a number.
fn without(records: &[Record], number: u16) -> Vec<Record> {
    records.iter().copied().filter(|record| record.number != number).collect()
}

fn add(raw: &mut Raw, number: u16, range: Range) -> Judged<()> {
    let records = with(raw.in_order()?.to_vec(), number, &[range])?;
    put(raw, &records);
    Ok(())
}

fn set(raw: &mut Raw, number: u16, ranges: &[Range]) -> Judged<()> {
    let records = with(without(raw.in_order()?, number), number, ranges)?;
    put(raw, &records);
    Ok(())
}

fn clear_all(raw: &mut Raw) -> Judged<()> {
    raw.in_order()?;
    put(raw, &[]);
    Ok(())
}

/// 11 for a token over 15 bytes too.
fn token(raw: &mut Raw, range: Range) -> Judged<()> {
    let records = raw.in_order()?.to_vec();
    demand(range.length <= LONGEST_TOKEN, 11)?;
    raw.token = range;
    put(raw, &records);
    Ok(())
}

fn payload(raw: &mut Raw, range: Range) -> Judged<()> {
    let records = raw.in_order()?.to_vec();
    raw.payload = range;
    put(raw, &records);
    Ok(())
}

/// A content format is added.
fn content_format(raw: &mut Raw, format: u64, start: u64) -> Judged<()> {
    demand_edits(raw)?;
    let records = raw.in_order()?.to_vec();
    put_uint(raw, records, CONTENT_FORMAT, format, start)
}

/// Setting Observe clears first.
fn observe(raw: &mut Raw, value: u64, start: u64) -> Judged<()> {
    demand_edits(raw)?;
    let records = without(raw.in_order()?, OBSERVE);
    put_uint(raw, records, OBSERVE, value, start)
}

/// The setters are lent the edit store alone, and 10 is about it.
fn demand_edits(raw: &Raw) -> Judged<()> {
    demand(raw.stores[Home::Edits as usize].len() <= MOST_BYTES, 10)
}

/// The shortest uint, in the edit store from a start on; 12 where the start is past the end or too little room is after it.
fn put_uint(raw: &mut Raw, records: Vec<Record>, number: u16, value: u64, start: u64) -> Judged<()> {
    let bytes = uints::shortest(value);
    let range = Range { home: Home::Edits, start, length: bytes.len() as u64 };
    let records = with(records, number, &[range])?;
    let edits = &mut raw.stores[Home::Edits as usize];
    edits.get_mut(start as usize..start as usize + bytes.len()).ok_or(12)?.copy_from_slice(&bytes);
    put(raw, &records);
    Ok(())
}
