//! Random raw packets: ranges in two stores, most of them inside their own, the others beside its end or the other's.

use super::varied::{Varied, MOST_OPTIONS};
use crate::raw::{filled, Home, Range, Raw, Record, EMPTY, NOWHERE};
use crate::words::{class_word, kind, Parts, MOST_ROOM, STORE};

/// Numbers such as the getters and the register know.
const NUMBERS: [u16; 10] = [0, 4, 5, 6, 7, 11, 12, 15, 60, 65535];

impl Varied {
    /// Writing, which is asked in both forms, the register, the getters or some edits.
    pub fn ranged(&mut self) -> String {
        let raw = self.raw();
        match self.random.below(8) {
            0..=2 => format!("write-raw {} {}", self.raw_bounds(&raw), raw.shown()),
            3 | 4 => format!("register-raw {}", raw.shown()),
            5 => format!("get-raw {} {}", self.random.of(&["-", "6,12", "11", "11,0,65535"]), raw.shown()),
            _ => self.raw_edits(&raw),
        }
    }

    /// A packet with both stores, and sometimes with a fault or two.
    pub fn raw(&mut self) -> Raw {
        let version = self.random.below(12);
        let stores = [self.store(), self.store()];
        let mut raw = Raw {
            version: if version < 4 { version as u8 } else { 1 },
            kind: kind(self.random.below(4) as u8).expect("one of four"),
            class: self.class(),
            id: self.random.wide(16) as u16,
            stores,
            token: NOWHERE,
            records: [EMPTY; MOST_OPTIONS],
            count: 0,
            payload: NOWHERE,
        };
        raw.token = self.range_inside(&raw);
        raw.token.length = raw.token.length.min(self.random.of(&[4, 8, 8, 15]));
        let records = self.records(&raw);
        raw.records = filled(&records).expect("at most 128");
        raw.count = records.len() as u64;
        raw.payload = self.range_inside(&raw);
        for _ in 0..self.random.below(4).saturating_sub(1) {
            self.spoil_raw(&mut raw);
        }
        raw
    }

    /// A few bytes; now and then as many zeros as a store holds, or as an edit or a message of the default size needs.
    fn store(&mut self) -> Vec<u8> {
        match self.random.below(60) {
            0 => vec![0; self.random.near(&[STORE])],
            1 | 2 => vec![0; self.random.near(&[16, 1_148, 2_000])],
            _ => self.random.up_to(20),
        }
    }

    fn home(&mut self) -> Home {
        self.random.of(&[Home::Datagram, Home::Edits])
    }

    fn range_inside(&mut self, raw: &Raw) -> Range {
        let home = self.home();
        let end = raw.stores[home as usize].len();
        let start = if self.random.one_in(4) { end } else { self.random.below(end + 1) };
        let most = if self.random.one_in(3) { end - start } else { (end - start).min(4) };
        Range { home, start: start as u64, length: self.random.below(most + 1) as u64 }
    }

    /// A range that the end of either store decides, or one whose sum is over 32 bits.
    fn range_beside(&mut self, raw: &Raw) -> Range {
        let ends = [raw.stores[0].len(), raw.stores[1].len()];
        let (home, start) = (self.home(), self.random.near(&ends) as u64);
        match self.random.below(8) {
            0 => Range { home, start: u32::MAX.into(), length: self.random.below(3) as u64 },
            1 => Range { home, start: u32::MAX.into(), length: u64::from(u32::MAX) - self.random.below(2) as u64 },
            2 | 3 => Range { home, start: 0, length: start },
            _ => Range { home, start, length: self.random.below(2) as u64 },
        }
    }

    fn records(&mut self, raw: &Raw) -> Vec<Record> {
        let count = match self.random.below(60) {
            0 => 126 + self.random.below(3),
            1..=4 => self.random.below(20),
            _ => self.random.below(5),
        };
        let one = |_| Record { number: self.random.of(&NUMBERS), range: self.range_inside(raw) };
        let mut records: Vec<Record> = (0..count).map(one).collect();
        records.sort_by_key(|record| record.number);
        records
    }

    fn spoil_raw(&mut self, raw: &mut Raw) {
        let last = raw.counted().len().saturating_sub(1);
        let at = self.random.below(last + 1);
        match self.random.below(12) {
            0 => raw.version = self.random.near(&[3, 253]) as u8,
            1 => raw.token.length = self.random.near(&[8, 15]) as u64,
            2 => raw.token = self.range_beside(raw),
            3 => raw.payload = self.range_beside(raw),
            4 => raw.payload.length = self.random.near(&[1_148, 1_276]) as u64,
            5 => raw.count = self.random.near(&[last + 1, MOST_OPTIONS]) as u64,
            6 => raw.count = self.random.of(&[0, 129, u64::MAX]),
            7 => raw.records[at].number = self.random.of(&NUMBERS),
            8 => raw.records[at].range.length = self.random.near(&[9, 65_804]) as u64,
            _ => raw.records[at].range = self.range_beside(raw),
        }
    }

    /// A limit and a room beside what the packet takes; one whose token can't be written takes a shorter one.
    fn raw_bounds(&mut self, raw: &Raw) -> String {
        let mut parts = raw.meaning();
        parts.token.truncate(15);
        if parts.store() > 2 * STORE {
            return format!("none {MOST_ROOM}");
        }
        self.bounds(&parts)
    }

    /// A packet to be compacted, with a second buffer and most often an edit store beside what its live bytes take.
    pub fn compacted(&mut self) -> String {
        let mut raw = self.raw();
        let sum = raw.ranges().iter().map(|&range| raw.part(range).len()).sum::<usize>().min(2 * STORE);
        let edits = &mut raw.stores[Home::Edits as usize];
        if !self.random.one_in(3) {
            let length = self.random.near(&[sum]).max(edits.len());
            edits.resize(length, 0xee);
        }
        let room = match self.random.below(4) {
            0 | 1 => self.random.near(&[sum]) as u64,
            2 => self.random.below(8) as u64,
            _ => MOST_ROOM,
        };
        format!("compact {} {}", room.min(MOST_ROOM), raw.shown())
    }

    fn raw_edits(&mut self, raw: &Raw) -> String {
        let mut line = format!("edit-raw {}", raw.shown());
        for _ in 0..=self.random.below(5) {
            line.push_str(" ; ");
            line.push_str(&self.raw_step(raw));
        }
        line
    }

    fn raw_step(&mut self, raw: &Raw) -> String {
        let number = self.random.of(&NUMBERS);
        let range = if self.random.one_in(4) { self.range_beside(raw) } else { self.range_inside(raw) }.word();
        let start = self.random.near(&[0, 4, raw.stores[1].len(), raw.stores[0].len()]);
        match self.random.below(16) {
            0..=3 => format!("add {number} {range}"),
            4 => format!("set {number} none"),
            5 => format!("set {number} {range},{}", self.range_inside(raw).word()),
            6 => format!("set {number} {}{range}", format!("{range},").repeat(self.random.near(&[125, 128]) - 1)),
            7 => format!("clear {number}"),
            8 => self.random.of(&["clear-all", "version 6", "type 1", "id 515"]).into(),
            9 => format!("class {}", class_word(self.class())),
            10 => format!("token {range}"),
            11 => format!("payload {range}"),
            12 | 13 => format!("content-format {} {start}", self.random.wide(16)),
            _ => format!("observe {} {start}", self.random.wide(32)),
        }
    }

    /// The words of a packet, each of its values in either store.
    pub fn homed(&mut self, parts: &Parts) -> String {
        parts.asked_at(&mut || self.home())
    }
}

/// Every token and payload of ranges beside the ends of two stores of up to two bytes: written, and compacted in each room.
pub fn small(put: &mut dyn FnMut(String)) {
    const STORES: [&str; 3] = ["-", "61", "6263"];
    let places = (0..3).flat_map(|start| (0..3).map(move |length| format!("{start}+{length}")));
    let ranges: Vec<String> = places.flat_map(|place| [place.clone(), format!("e:{place}")]).collect();
    for datagram in STORES {
        for edits in STORES {
            for (token, payload) in ranges.iter().flat_map(|token| ranges.iter().map(move |payload| (token, payload))) {
                let raw = format!("1 0 Request.Get 1 {datagram} {edits} {token} - 0 {payload}");
                put(format!("write-raw none 8 {raw}"));
                (1..=3).for_each(|room| put(format!("compact {room} {raw}")));
            }
        }
    }
}
