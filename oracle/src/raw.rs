//! Packets whose ranges are in two stores, made as a request says: nothing holds a range to its store. "Rules"
//! is docs/RULES.md.

use crate::strict_answers::{demand, Judged, MOST_BYTES};
use crate::words::{bytes, class_word, hex, kind_number, number, or_none, Parts, Words};
use coap_lite::{MessageClass, MessageType};

/// Rules, Packets: the most options.
pub const MOST_OPTIONS: usize = 128;
/// RFC 7252 3.1: an extension of two bytes is at most 65535 and stands for 269 more.
pub const LONGEST_VALUE: u64 = 65_535 + 269;
/// RFC 7252 3: the length of a token is a nibble.
pub const LONGEST_TOKEN: u64 = 15;

/// The store that holds the bytes of a range.
#[derive(Clone, Copy, PartialEq)]
pub enum Home {
    Datagram,
    Edits,
}

#[derive(Clone, Copy, PartialEq)]
pub struct Range {
    pub home: Home,
    pub start: u64,
    pub length: u64,
}

#[derive(Clone, Copy, PartialEq)]
pub struct Record {
    pub number: u16,
    pub range: Range,
}

/// The empty range, and the empty record, name the datagram.
pub const NOWHERE: Range = Range { home: Home::Datagram, start: 0, length: 0 };
pub const EMPTY: Record = Record { number: 0, range: NOWHERE };

/// A packet and its stores, the datagram and the edit store.
#[derive(Clone)]
pub struct Raw {
    pub version: u8,
    pub kind: MessageType,
    pub class: MessageClass,
    pub id: u16,
    pub stores: [Vec<u8>; 2],
    pub token: Range,
    pub records: [Record; MOST_OPTIONS],
    pub count: u64,
    pub payload: Range,
}

// ---- words

impl Raw {
    /// RAW: `VERSION TYPE CLASS ID DATAGRAM EDITS TOKEN RECORDS COUNT PAYLOAD`
    pub fn of(words: &mut Words) -> Option<Raw> {
        Some(Raw {
            version: words.byte()?,
            kind: words.kind()?,
            class: words.class()?,
            id: words.number(65535)? as u16,
            stores: [words.bytes()?, words.bytes()?],
            token: range(words.word()?)?,
            records: filled(&records(words.word()?)?)?,
            count: words.number(u64::MAX)?,
            payload: range(words.word()?)?,
        })
    }

    /// PACKET: each store has the values whose home it is, one after the other, and no byte more. The records past the 128th
    /// have no place, and are counted.
    pub fn named(words: &mut Words) -> Option<Raw> {
        let (parts, homes) = words.homed_parts()?;
        let mut homes = homes.into_iter();
        let mut stores = [Vec::new(), Vec::new()];
        let mut put = |value: &[u8]| {
            let home = homes.next().expect("each value has a home");
            let store: &mut Vec<u8> = &mut stores[home as usize];
            store.extend(value);
            Range { home, start: (store.len() - value.len()) as u64, length: value.len() as u64 }
        };
        let token = put(&parts.token);
        let records: Vec<Record> =
            parts.options.iter().map(|(number, value)| Record { number: *number, range: put(value) }).collect();
        let payload = put(&parts.payload);
        Some(Raw {
            version: parts.version,
            kind: parts.kind,
            class: parts.class,
            id: parts.id,
            stores,
            token,
            records: filled(&records[..records.len().min(MOST_OPTIONS)])?,
            count: records.len() as u64,
            payload,
        })
    }

    /// The words of a request and of an answer. The records go up to the last that isn't empty, past the count too.
    pub fn shown(&self) -> String {
        let (version, kind, class) = (self.version, kind_number(self.kind), class_word(self.class));
        let [datagram, edits] = self.stores.each_ref().map(|store| store_word(store));
        let last = self.records.iter().rposition(|&record| record != EMPTY).map_or(0, |last| last + 1);
        let (token, records, payload) = (self.token.word(), record_words(&self.records[..last]), self.payload.word());
        format!("{version} {kind} {class} {} {datagram} {edits} {token} {records} {} {payload}", self.id, self.count)
    }
}

/// A store of one byte or more, all 0, is told by their count.
fn store_word(store: &[u8]) -> String {
    if !store.is_empty() && store.iter().all(|&byte| byte == 0) {
        return format!("zeros:{}", store.len());
    }
    hex(store)
}

impl Range {
    pub fn word(&self) -> String {
        let home = if self.home == Home::Edits { "e:" } else { "" };
        format!("{home}{}+{}", self.start, self.length)
    }
}

pub fn record_words(records: &[Record]) -> String {
    let words: Vec<String> =
        records.iter().map(|record| format!("{}@{}", record.number, record.range.word())).collect();
    or_none(&words.join(","))
}

/// What a word says, and where: `e:` is the edit store, and the datagram has no mark.
fn homed(word: &[u8]) -> (Home, &[u8]) {
    word.strip_prefix(b"e:").map_or((Home::Datagram, word), |rest| (Home::Edits, rest))
}

/// HEX in the datagram, or `e:HEX` in the edit store.
pub fn homed_bytes(word: &[u8]) -> Option<(Home, Vec<u8>)> {
    let (home, word) = homed(word);
    Some((home, bytes(word)?))
}

/// `START+LENGTH` in the datagram, or `e:START+LENGTH` in the edit store.
pub fn range(word: &[u8]) -> Option<Range> {
    let (home, word) = homed(word);
    let (start, length) = halves(word, b'+')?;
    Some(Range { home, start: number(start, u32::MAX.into())?, length: number(length, u32::MAX.into())? })
}

/// `NUMBER@RANGE` with commas between, or `-`.
fn records(word: &[u8]) -> Option<Vec<Record>> {
    if word == b"-" {
        return Some(Vec::new());
    }
    let record = |word| {
        let (left, right) = halves(word, b'@')?;
        Some(Record { number: number(left, 65535)? as u16, range: range(right)? })
    };
    word.split(|&byte| byte == b',').map(record).collect()
}

fn halves(word: &[u8], at: u8) -> Option<(&[u8], &[u8])> {
    let at = word.iter().position(|&byte| byte == at)?;
    Some((&word[..at], &word[at + 1..]))
}

/// The array with these records first, if they are at most 128, and then empty ones.
pub fn filled(records: &[Record]) -> Option<[Record; MOST_OPTIONS]> {
    let mut array = [EMPTY; MOST_OPTIONS];
    array.get_mut(..records.len())?.copy_from_slice(records);
    Some(array)
}

// ---- rules

impl Raw {
    /// The part of its home that a range names, if it is inside: start + length, as whole numbers, is at most the home's length.
    fn inside(&self, range: Range) -> Option<&[u8]> {
        self.stores[range.home as usize].get(range.start as usize..(range.start + range.length) as usize)
    }

    /// Rules, Packets: a range outside its home gives an empty part.
    pub fn part(&self, range: Range) -> &[u8] {
        self.inside(range).unwrap_or_default()
    }

    /// Rules, Packets: getters read a count over 128 as 128.
    pub fn counted(&self) -> &[Record] {
        &self.records[..self.count.min(MOST_OPTIONS as u64) as usize]
    }

    /// Rules, Packets: what a packet means, as the getters tell it.
    pub fn meaning(&self) -> Parts {
        Parts {
            version: self.version,
            kind: self.kind,
            class: self.class,
            id: self.id,
            token: self.part(self.token).to_vec(),
            options: self.counted().iter().map(|record| (record.number, self.part(record.range).to_vec())).collect(),
            payload: self.part(self.payload).to_vec(),
        }
    }

    /// The ranges of a packet in the order in which they are written.
    pub fn ranges(&self) -> Vec<Range> {
        let values = self.counted().iter().map(|record| record.range);
        [self.token].into_iter().chain(values).chain([self.payload]).collect()
    }

    /// Rules, Edits: 11 where there are over 128 records, or numbers fall. Otherwise, the records.
    pub fn in_order(&self) -> Judged<&[Record]> {
        demand(self.count <= MOST_OPTIONS as u64, 11)?;
        let records = self.counted();
        demand(records.windows(2).all(|pair| pair[0].number <= pair[1].number), 11)?;
        Ok(records)
    }

    /// Rules, Writing: 10, of either store; then the causes of 11, a range outside its own home among them.
    pub fn judge(&self) -> Judged<()> {
        demand(self.stores.iter().all(|store| store.len() <= MOST_BYTES), 10)?;
        demand(self.version <= 3 && self.token.length <= LONGEST_TOKEN, 11)?;
        let records = self.in_order()?;
        demand(records.iter().all(|record| record.range.length <= LONGEST_VALUE), 11)?;
        demand(self.ranges().iter().all(|&range| self.inside(range).is_some()), 11)
    }
}
