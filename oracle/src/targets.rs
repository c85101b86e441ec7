//! The path and query of a coap URI as text, from records and into a new packet: docs/RULES.md, Paths and
//! queries. A section is one of RFC 7252 unless another is named.

use crate::raw::{record_words, Home, Range, Raw, Record, MOST_OPTIONS};
use crate::strict_answers::{demand, written, Judged, MOST_BYTES};
use crate::words::{hex, Words, MOST_ROOM};

const URI_PATH: u16 = 11;
const URI_QUERY: u16 = 15;
/// 5.10: the longest value of either.
const LONGEST: usize = 255;

// ---- records to text

/// `target-write ROOM RAW`: 10, 11 (any in Writing), 12.
pub fn answer_write(words: &mut Words) -> Option<Judged<String>> {
    let room = words.number(MOST_ROOM)?;
    let raw = Raw::of(words)?;
    Some(raw.judge().and_then(|()| written(&text(&raw), room)))
}

/// 6.5, steps 6 to 8: a `/` before each segment, or alone where there is none; then a `?` before the first part of the query and
/// an `&` before each other.
pub fn text(raw: &Raw) -> Vec<u8> {
    let coded = |number: u16, literal: fn(u8) -> bool| {
        let records = raw.counted().iter().filter(move |record| record.number == number);
        records.map(|record| percent_coded(raw.part(record.range), literal)).collect::<Vec<_>>()
    };
    let (segments, parts) = (coded(URI_PATH, is_in_segment), coded(URI_QUERY, is_in_query));
    let path = [b"/", &segments.join(&b'/')[..]].concat();
    match parts.is_empty() {
        true => path,
        false => [&path[..], b"?", &parts.join(&b'&')].concat(),
    }
}

/// 6.5: each byte that isn't literal is `%` and two upper-case digits.
fn percent_coded(value: &[u8], literal: fn(u8) -> bool) -> Vec<u8> {
    let coded = |&byte: &u8| if literal(byte) { vec![byte] } else { format!("%{byte:02X}").into_bytes() };
    value.iter().flat_map(coded).collect()
}

/// RFC 3986 3.3: pchar, a percent code apart: unreserved, sub-delims, `:` and `@`.
fn is_in_segment(byte: u8) -> bool {
    byte.is_ascii_alphanumeric() || b"-._~".contains(&byte) || b"!$&'()*+,;=".contains(&byte) || b":@".contains(&byte)
}

/// RFC 3986 3.4: pchar, `/` and `?`; but `&` stands between parts.
fn is_in_query(byte: u8) -> bool {
    byte != b'&' && (is_in_segment(byte) || b"/?".contains(&byte))
}

// ---- text to packet

/// The refusal of a text, 16 with the index of the record that the part would become.
enum Refused {
    Number(u8),
    At(usize),
}

impl From<u8> for Refused {
    fn from(refusal: u8) -> Self {
        Refused::Number(refusal)
    }
}

/// `target-read ROOM START HEX`
pub fn answer_read(words: &mut Words) -> Option<String> {
    let (room, start) = (words.number(MOST_ROOM)?, words.number(u32::MAX.into())?);
    Some(match read(&words.bytes()?, room, start) {
        Ok(options) => shown(&options, start),
        Err(Refused::Number(refusal)) => format!("refused {refusal} kept"),
        Err(Refused::At(index)) => format!("refused 16 {index} kept"),
    })
}

/// 10 of the store; 15 for a path that doesn't start with `/`; part by part 15, then 16; then 6; then 12 of the store after the
/// start.
fn read(text: &[u8], room: u64, start: u64) -> Result<Vec<(u16, Vec<u8>)>, Refused> {
    demand(room <= MOST_BYTES as u64, 10)?;
    let mut options = Vec::new();
    for (number, part) in parts(text)? {
        let literal = if number == URI_PATH { is_in_segment } else { is_in_query };
        let value = decoded(part, literal)?;
        let dots = number == URI_PATH && (value == b"." || value == b"..");
        if value.len() > LONGEST || dots {
            return Err(Refused::At(options.len()));
        }
        options.push((number, value));
    }
    demand(options.len() <= MOST_OPTIONS, 6)?;
    let bytes: usize = options.iter().map(|(_, value)| value.len()).sum();
    demand(start + bytes as u64 <= room, 12)?;
    Ok(options)
}

/// 6.4, steps 8 and 9, before anything is decoded: the first `?` ends the path, `/` splits it, `&` the query. A path of no byte
/// or of a lone `/` has no segment, and a `?` with nothing after it no part.
fn parts(text: &[u8]) -> Judged<Vec<(u16, &[u8])>> {
    let mut halves = text.splitn(2, |&byte| byte == b'?');
    let (path, query) = (halves.next().unwrap_or(b""), halves.next().unwrap_or(b""));
    demand(path.is_empty() || path[0] == b'/', 15)?;
    let segments = path.get(1..).filter(|rest| !rest.is_empty());
    let segments = segments.into_iter().flat_map(|rest| rest.split(|&byte| byte == b'/'));
    let query = Some(query).filter(|query| !query.is_empty());
    let query = query.into_iter().flat_map(|query| query.split(|&byte| byte == b'&'));
    Ok(segments.map(|part| (URI_PATH, part)).chain(query.map(|part| (URI_QUERY, part))).collect())
}

/// 15 for a bad percent code, a character that isn't allowed, or a value that isn't UTF-8. Either hex case is taken.
fn decoded(part: &[u8], literal: fn(u8) -> bool) -> Judged<Vec<u8>> {
    let mut value = Vec::new();
    let mut rest = part;
    while let Some((&byte, behind)) = rest.split_first() {
        rest = behind;
        if byte == b'%' {
            let (digits, behind) = rest.split_at_checked(2).ok_or(15)?;
            value.push(16 * digit(digits[0])? + digit(digits[1])?);
            rest = behind;
        } else {
            demand(literal(byte), 15)?;
            value.push(byte);
        }
    }
    demand(std::str::from_utf8(&value).is_ok(), 15)?;
    Ok(value)
}

fn digit(byte: u8) -> Judged<u8> {
    char::from(byte).to_digit(16).map(|digit| digit as u8).ok_or(15)
}

/// The records of the new packet, whose values stand end to end in the edit store from the start on; and those bytes.
fn shown(options: &[(u16, Vec<u8>)], start: u64) -> String {
    let mut end = start;
    let mut records = Vec::new();
    for (number, value) in options {
        let range = Range { home: Home::Edits, start: end, length: value.len() as u64 };
        end += range.length;
        records.push(Record { number: *number, range });
    }
    let bytes: Vec<u8> = options.iter().flat_map(|(_, value)| value.clone()).collect();
    format!("target {} {} kept", record_words(&records), hex(&bytes))
}
