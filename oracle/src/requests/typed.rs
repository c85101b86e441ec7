//! Packets whose path and query are told as text, and texts to be read: good ones, faulty ones, and all short ones.

use super::short::strings_over;
use super::varied::{Varied, MOST_OPTIONS};
use crate::raw::Raw;
use crate::targets::text;
use crate::words::{hex, MOST_ROOM, STORE};

const URI_PATH: u16 = 11;
const URI_QUERY: u16 = 15;
/// Bytes that are literal, coded or split by.
const TELLING: &[u8] = b"/?&%. a~:=+\x00\x7f\xc3\xa9\xff";
/// Pieces of a part, each with the count of bytes that it is read as; the last six are faulty.
const PIECES: [(&str, usize); 28] = [
    ("a", 1),
    ("Z9", 2),
    ("-._~", 4),
    ("!$'()*+,;=:@", 12),
    ("2e", 2),
    (".", 1),
    ("..", 2),
    ("%2e", 1),
    ("%2E", 1),
    ("%2f", 1),
    ("%26", 1),
    ("%3F", 1),
    ("%25", 1),
    ("%61", 1),
    ("%00", 1),
    ("%7f", 1),
    ("%c3%A9", 2),
    ("%E2%82%ac", 3),
    ("%f4%8F%bf%BF", 4),
    ("+", 1),
    ("=1", 2),
    ("%20", 1),
    ("%", 1),
    ("%4", 1),
    ("%g1", 1),
    ("%ff", 1),
    ("#", 1),
    ("é", 2),
];
const FAULTY: usize = 6;

impl Varied {
    pub fn target(&mut self) -> String {
        match self.random.below(5) {
            0 | 1 => self.target_write(),
            2 => self.target_back(),
            _ => self.target_read(),
        }
    }

    /// A packet most of whose records are of a path and a query, with values of any bytes.
    fn typed(&mut self) -> Raw {
        let mut raw = self.raw();
        for store in raw.stores.iter_mut().filter(|store| store.len() < 100) {
            store
                .iter_mut()
                .for_each(|byte| *byte = if self.random.one_in(4) { *byte } else { self.random.of(TELLING) });
        }
        let count = raw.counted().len();
        for record in &mut raw.records[..count] {
            record.number = match record.number {
                5..=11 => URI_PATH,
                12..=60 => URI_QUERY,
                other => other,
            };
        }
        raw
    }

    fn target_write(&mut self) -> String {
        let raw = self.typed();
        let length = if raw.judge().is_ok() { text(&raw).len() } else { 1 };
        let room = match self.random.below(3) {
            0 => self.random.near(&[length]) as u64,
            _ => MOST_ROOM,
        };
        format!("target-write {} {}", room.min(MOST_ROOM), raw.shown())
    }

    /// The text of a packet, read.
    fn target_back(&mut self) -> String {
        let raw = self.typed();
        if raw.judge().is_err() {
            return self.target_read();
        }
        let text = text(&raw);
        if text.len() > 2_000 {
            return self.target_read();
        }
        self.read_of(&text, text.len())
    }

    fn target_read(&mut self) -> String {
        let (segments, parts) = match self.random.below(60) {
            0 => (self.random.near(&[MOST_OPTIONS]), self.random.below(2)),
            1 => (MOST_OPTIONS - 2, self.random.below(4)),
            _ => (self.random.of(&[0, 1, 1, 2, 2, 3]), self.random.of(&[0, 0, 1, 1, 2, 3])),
        };
        let many = segments + parts > 10;
        let (mut text, mut length) = (String::new(), 0);
        for index in 0..segments + parts {
            let before = if index < segments { "/" } else { "&" };
            text.push_str(if index == segments { "?" } else { before });
            let (part, bytes) = self.part(many);
            text.push_str(&part);
            length += bytes;
        }
        let mut text = text.into_bytes();
        if self.random.one_in(12) {
            let at = self.random.below(text.len() + 1);
            text.insert(at, self.random.of(TELLING));
        }
        if self.random.one_in(40) {
            text = text.split_off(1.min(text.len()));
        }
        self.read_of(&text, length)
    }

    /// A part, and how many bytes it is read as: some pieces, a long run of one, or a single one.
    fn part(&mut self, among_many: bool) -> (String, usize) {
        let faulty = self.random.one_in(if among_many { 1_000 } else { 12 });
        let most = PIECES.len() - if faulty { 0 } else { FAULTY };
        if !among_many && self.random.one_in(15) {
            let (piece, bytes) = self.random.of(&PIECES[..most]);
            let times = self.random.near(&[255 / bytes]);
            return (piece.repeat(times), bytes * times);
        }
        let count = if among_many { 1 } else { self.random.of(&[0, 1, 1, 2, 3, 4]) };
        let pieces: Vec<(&str, usize)> = (0..count).map(|_| self.random.of(&PIECES[..most])).collect();
        let most_dots = |(piece, _): &(&str, usize)| !among_many || !piece.contains('.') && !piece.contains("%2");
        let pieces = pieces.into_iter().filter(most_dots);
        pieces.fold((String::new(), 0), |(text, sum), (piece, bytes)| (text + piece, sum + bytes))
    }

    fn read_of(&mut self, text: &[u8], length: usize) -> String {
        let start = if self.random.one_in(2) { 0 } else { self.random.below(20) };
        let room = match self.random.below(8) {
            0 | 1 => self.random.near(&[start + length]),
            2 => self.random.near(&[start]),
            3 if self.random.one_in(8) => self.random.near(&[STORE]),
            _ => start + length + self.random.below(20),
        };
        let start = if self.random.one_in(30) { self.random.wide(32) } else { start as u64 };
        format!("target-read {room} {start} {}", hex(text))
    }
}

/// Every byte as a value, as a character and as a percent code; texts of a few characters; and a text in each room.
pub fn small(put: &mut dyn FnMut(String)) {
    let mut read = |text: &[u8]| put(format!("target-read 16 0 {}", hex(text)));
    strings_over(b"/?&%.a2ef#[+:", 3, &mut read);
    strings_over(b"/?&%.a2ef#[+:", 3, &mut |rest| read(&[b"/", rest].concat()));
    strings_over(b"/?&%.a2ef#[+:", 3, &mut |rest| read(&[b"?", rest].concat()));
    strings_over(b"/%.2e", 6, &mut |rest| read(&[b"/", rest].concat()));
    strings_over(b"/?&a", 5, &mut |rest| read(&[b"/", rest].concat()));
    for byte in 0..=255 {
        for before in ["/", "?", "/a", "?a&"] {
            read(&[before.as_bytes(), &[byte]].concat());
            read(format!("{before}%{byte:02x}").as_bytes());
            read(format!("{before}%{byte:02X}%a9").as_bytes());
            read(&[before.as_bytes(), b"%4", &[byte]].concat());
            read(&[before.as_bytes(), b"%", &[byte], b"1"].concat());
        }
    }
    for byte in 0..=255 {
        let store = hex(&[byte, 0x61]);
        for records in ["11@0+1 1", "15@0+2 1", "11@e:0+1,11@0+2,15@e:1+1,15@0+1 4"] {
            put(format!("target-write 71000 1 0 Request.Get 1 {store} {store} 0+0 {records} 0+0"));
        }
    }
    for (start, room) in (0..12).flat_map(|start| (0..12).map(move |room| (start, room))) {
        put(format!("target-read {room} {start} {}", hex(b"/ab/%c3%A9?x=1&y")));
        put(format!("target-write {} 1 0 Request.Get 1 - 612062 0+0 11@e:0+3,15@e:{start}+1 2 0+0", room));
    }
}
