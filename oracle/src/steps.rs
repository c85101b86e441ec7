//! A datagram read step by step: docs/RULES.md, Reading step by step. The steps are written apart from the reading of a whole
//! datagram, and held to it: in plain mode to coap-lite's, in strict mode to that of the rules.

use crate::plain_answers;
use crate::raw::{record_words, Home, Range, Record, MOST_OPTIONS};
use crate::strict_answers::{self, demand, Judged, MOST_BYTES};
use crate::words::{kind_number, Parts, Words};

/// The answer where the steps aren't the reading of the whole.
const AT_ODDS: &str = "at odds";

/// What was passed before the steps ended, where the last of them began, and what it said: the payload, or a refusal.
struct Walk {
    options: Vec<Record>,
    at: usize,
    end: Judged<Range>,
}

/// `steps HEX`, `steps-strict HEX`
pub fn answer(strict: bool, words: &mut Words) -> Option<Judged<String>> {
    let datagram = words.bytes()?;
    let answer = start(strict, &datagram).map(|token| {
        let walk = walk(strict, &datagram, token);
        (walk.agrees(strict, &datagram, token), shown(&datagram, token, &walk))
    });
    Some(match answer {
        Ok((true, shown)) => Ok(shown),
        Err(refusal) if refusal == 10 || read(strict, &datagram).err() == Some(refusal) => Err(refusal),
        _ => Ok(AT_ODDS.into()),
    })
}

/// Rules, Reading, up to the options: 10, 1, strict 7, 2, strict 8. The token stands between the header and the first step.
fn start(strict: bool, datagram: &[u8]) -> Judged<Range> {
    demand(datagram.len() <= MOST_BYTES, 10)?;
    demand(datagram.len() >= 4, 1)?;
    let (version, token_length, code) = (datagram[0] >> 6, usize::from(datagram[0] & 0xf), datagram[1]);
    demand(!strict || version == 1, 7)?;
    demand(token_length <= 8 && 4 + token_length <= datagram.len(), 2)?;
    demand(!strict || code != 0 || datagram.len() == 4, 8)?;
    Ok(range(4, token_length))
}

fn walk(strict: bool, datagram: &[u8], token: Range) -> Walk {
    let (mut options, mut at) = (Vec::new(), after(token));
    let end = loop {
        if matches!(datagram.get(at), None | Some(0xff)) {
            break payload(strict, datagram, at);
        }
        match option(strict, datagram, at, &options) {
            Ok(record) => {
                at = after(record.range);
                options.push(record);
            }
            Err(refusal) => break Err(refusal),
        }
    };
    Walk { options, at, end }
}

/// Rules, Reading: in strict mode 9 for a marker that ends the datagram. The payload stands after the marker, or is empty at
/// the datagram's end.
fn payload(strict: bool, datagram: &[u8], at: usize) -> Judged<Range> {
    let start = datagram.len().min(at + 1);
    demand(!strict || start == at || start < datagram.len(), 9)?;
    Ok(range(start, datagram.len() - start))
}

/// Rules, Reading, an option: the delta's extension 4, the delta 3, the length's extension 4, the longest value 4, the sum 3,
/// the value's end 4, and last 6.
fn option(strict: bool, datagram: &[u8], at: usize, passed: &[Record]) -> Judged<Record> {
    let (high, low) = (datagram[at] >> 4, datagram[at] & 0xf);
    let (delta, behind) = extended(datagram, high, at + 1)?;
    demand(high < 15 && delta <= 65_535, 3)?;
    let (length, start) = extended(datagram, low, behind)?;
    demand(low < 15, 4)?;
    demand(strict || length <= 65_535, 4)?;
    let number = passed.last().map_or(0, |record| usize::from(record.number)) + delta;
    demand(number <= 65_535, 3)?;
    demand(start + length <= datagram.len(), 4)?;
    demand(passed.len() < MOST_OPTIONS, 6)?;
    Ok(Record { number: number as u16, range: range(start, length) })
}

/// The number that a nibble and its extension stand for, and where the extension ends; 4 where it is cut off.
fn extended(datagram: &[u8], nibble: u8, at: usize) -> Judged<(usize, usize)> {
    let (base, count) = match nibble {
        13 => (13, 1),
        14 => (269, 2),
        _ => (usize::from(nibble), 0),
    };
    let extension = datagram.get(at..at + count).ok_or(4)?;
    Ok((extension.iter().fold(0, |number, &byte| number * 256 + usize::from(byte)) + base, at + count))
}

fn range(start: usize, length: usize) -> Range {
    Range { home: Home::Datagram, start: start as u64, length: length as u64 }
}

fn after(range: Range) -> usize {
    (range.start + range.length) as usize
}

/// Version, type, code and id.
fn header(datagram: &[u8]) -> (u8, u8, u8, u16) {
    (datagram[0] >> 6, datagram[0] >> 4 & 3, datagram[1], u16::from_be_bytes([datagram[2], datagram[3]]))
}

fn shown(datagram: &[u8], token: Range, walk: &Walk) -> String {
    let (version, kind, code, id) = header(datagram);
    let end = match walk.end {
        Ok(payload) => format!("payload {}", payload.word()),
        Err(refusal) => format!("refused {refusal}"),
    };
    format!("steps {version} {kind} {code} {id} {} {} {end}", token.word(), record_words(&walk.options))
}

// ---- the reading of a whole datagram

/// coap-lite's in plain mode, that of the rules in strict mode.
fn read(strict: bool, datagram: &[u8]) -> Judged<Parts> {
    if strict {
        strict_answers::read(datagram)
    } else {
        plain_answers::read_datagram(datagram)
    }
}

impl Walk {
    /// Whether the reading of the datagram ends as the steps do; and, where they end with a refusal, whether what stands before
    /// it is read as what they passed. coap-lite stores a 129th option and goes on.
    fn agrees(&self, strict: bool, datagram: &[u8], token: Range) -> bool {
        let whole = read(strict, datagram);
        match self.end {
            Ok(payload) => whole.is_ok_and(|parts| self.is_that_of(&parts, datagram, token, payload)),
            Err(refusal) => {
                let stored = refusal == 6 && !strict;
                let before = read(strict, &datagram[..self.at]);
                (stored || whole.err() == Some(refusal))
                    && before.is_ok_and(|parts| self.is_that_of(&parts, datagram, token, range(self.at, 0)))
            }
        }
    }

    fn is_that_of(&self, parts: &Parts, datagram: &[u8], token: Range, payload: Range) -> bool {
        let part = |range: Range| &datagram[range.start as usize..after(range)];
        let head = (parts.version, kind_number(parts.kind), u8::from(parts.class), parts.id);
        let passed = self.options.iter().map(|record| (record.number, part(record.range)));
        let read = parts.options.iter().map(|(number, value)| (*number, &value[..]));
        let contents = part(token) == parts.token && passed.eq(read) && part(payload) == parts.payload;
        head == header(datagram) && contents
    }
}
