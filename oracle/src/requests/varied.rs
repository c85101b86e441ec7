//! Random requests, most of them beside a boundary.

use super::random::Random;
use crate::words::{hex, kind, named_classes, Parts, DEFAULT_LIMIT, MOST_ROOM, STORE};
use coap_lite::{ContentFormat, MessageClass};

/// How many options a packet has at most.
pub const MOST_OPTIONS: usize = 128;
/// Lengths and differences of numbers beside which the form of an option changes.
const FORMS: [usize; 5] = [12, 13, 14, 268, 269];

const LONG_EVERY: usize = 2_500;
const LONG_MOST: usize = 200;

/// A source of requests.
pub struct Varied {
    pub random: Random,
    /// The content formats that coap-lite lists.
    pub formats: Vec<usize>,
    made: usize,
}

impl Varied {
    pub fn new(random: Random) -> Self {
        let listed = |number: &usize| ContentFormat::try_from(*number).is_ok();
        Varied { random, formats: (0..=65535).filter(listed).collect(), made: 0 }
    }

    /// A plain request; the last of each 2,500 is tens of thousands of bytes long, as far as 200 of them go.
    pub fn plain(&mut self) -> String {
        self.made += 1;
        if self.made % LONG_EVERY == 0 && self.made / LONG_EVERY <= LONG_MOST {
            return self.long();
        }
        match self.random.below(108) {
            0..=32 => self.read(),
            33..=58 => self.write(),
            59..=78 => self.edit(),
            79..=83 => self.uint(),
            84..=88 => self.text(),
            89..=92 => self.code(),
            93..=97 => self.block(),
            98 => self.header(),
            99 => self.no_request(),
            100..=103 => self.steps(),
            _ => self.build(),
        }
    }

    fn long(&mut self) -> String {
        match self.random.below(6) {
            0 => self.long_value_read(),
            1 => self.long_payload_read(),
            2 => self.long_write(),
            3 => self.long_steps(),
            4 => self.long_build(),
            _ => self.long_edit(),
        }
    }

    /// A request to be asked in its strict form, or one that has no plain form. Some are past what coap-lite takes.
    pub fn strict(&mut self) -> String {
        const LONG: usize = LONG_EVERY / 5;
        if self.made % LONG == 1 && self.made / LONG < LONG_MOST {
            return self.long_strict();
        }
        match self.random.below(63) {
            0..=4 => {
                let parts = self.registered();
                format!("register {}", self.homed(&parts))
            }
            5..=8 => self.write_strict(),
            9 => self.full_read(),
            10 | 11 => self.last_number_read(),
            12 | 13 => self.to_uint(),
            14..=17 => self.plan(),
            18..=22 => self.frame(),
            23..=29 => self.ranged(),
            30..=32 => self.compacted(),
            33..=35 => self.freeze(),
            36..=38 => self.thaw(),
            39 | 40 => self.convert(),
            41..=47 => self.target(),
            48..=51 => self.replay(),
            52 | 53 => self.hear(),
            54 | 55 => self.steps(),
            56..=58 => self.build(),
            _ => self.block_strict(),
        }
    }

    // ---- packets

    pub fn parts(&mut self) -> Parts {
        let options = match self.random.below(40) {
            0 => self.random.near(&[MOST_OPTIONS - 2]),
            1..=4 => self.random.below(20),
            _ => self.random.below(6),
        };
        self.parts_of(options)
    }

    pub fn parts_of(&mut self, options: usize) -> Parts {
        let version = if self.random.one_in(8) { self.random.below(4) as u8 } else { 1 };
        let token = match self.random.below(12) {
            0 => self.random.near(&[8]),
            1 => 9 + self.random.below(7),
            _ => self.random.below(9),
        };
        let payload = match self.random.below(30) {
            0 => self.random.near(&[256, 269, DEFAULT_LIMIT]),
            1..=15 => 0,
            _ => self.random.below(20),
        };
        Parts {
            version,
            kind: kind(self.random.below(4) as u8).expect("one of four"),
            class: self.class(),
            id: self.random.wide(16) as u16,
            token: self.random.bytes(token),
            options: self.options(options),
            payload: self.random.bytes(payload),
        }
    }

    pub fn class(&mut self) -> MessageClass {
        match self.random.below(8) {
            0 => MessageClass::Reserved(self.random.byte()),
            1 => self.random.of(&[MessageClass::Reserved(0), MessageClass::Empty]),
            2 => MessageClass::Empty,
            _ => named_classes()[self.random.below(named_classes().len())].1,
        }
    }

    fn options(&mut self, count: usize) -> Vec<(u16, Vec<u8>)> {
        let mut number = 0;
        let mut options = Vec::new();
        for _ in 0..count {
            let delta = match self.random.below(20) {
                0..=2 => self.random.near(&FORMS),
                3 => self.random.wide(16) as usize,
                4 => self.random.near(&[65535 - 12, 65535 - number]),
                _ => self.random.below(4),
            };
            number = (number + delta).min(65535);
            options.push((number as u16, self.value(count)));
        }
        options
    }

    /// A value, shorter where it is one of many.
    pub fn value(&mut self, among: usize) -> Vec<u8> {
        let length = match self.random.below(16 + 8 * among) {
            0..=3 => self.random.near(&FORMS),
            4 => self.random.near(&[255, 512, 1034, DEFAULT_LIMIT - 5]),
            _ => self.random.below(6),
        };
        self.random.bytes(length)
    }

    /// Brings one thing in a packet beside the most that a writer takes.
    pub fn spoil(&mut self, parts: &mut Parts) {
        match self.random.below(4) {
            0 => parts.version = self.random.near(&[3, 253]) as u8,
            1 => {
                let length = self.random.near(&[8, 15]);
                parts.token = self.random.bytes(length);
            }
            2 => {
                let count = self.random.near(&[MOST_OPTIONS]);
                parts.options = self.options(count);
            }
            _ => {
                let at = self.random.below(parts.options.len() + 1);
                let beside = parts.options.get(at).map_or(0, |&(number, _)| number.into());
                let number = self.random.near(&[beside]).min(65535) as u16;
                parts.options.insert(at, (number, self.value(6)));
            }
        }
    }

    // ---- reading

    pub fn read(&mut self) -> String {
        loop {
            let datagram = match self.random.below(20) {
                0 if self.random.one_in(3) => return self.crowded_read(),
                0 | 1 => self.random.up_to(24),
                2..=9 => self.stream(),
                10..=13 => self.datagram(),
                _ => self.damaged(),
            };
            if options_at_most(&datagram) <= MOST_OPTIONS {
                return format!("read {}", hex(&datagram));
            }
        }
    }

    /// As many options as a packet holds, and then what can't become one more.
    pub fn crowded_read(&mut self) -> String {
        const TAILS: [&str; 12] = ["", "ff", "ff61", "0f", "1f", "f0", "d0", "e0fe", "01", "0d", "0d00", "effef3"];
        let mut parts = self.parts_of(MOST_OPTIONS);
        parts.token.truncate(8);
        parts.payload.clear();
        let datagram = parts.datagram();
        format!("read {}{}", hex(&datagram), self.random.of(&TAILS))
    }

    pub fn full_read(&mut self) -> String {
        format!("read {}", hex(&self.full_datagram()))
    }

    /// As many options as a packet holds, or up to two fewer or more.
    pub fn full_datagram(&mut self) -> Vec<u8> {
        let count = self.random.near(&[MOST_OPTIONS]);
        let mut parts = self.parts_of(count);
        parts.token.truncate(8);
        parts.datagram()
    }

    /// Any option after one whose number is beside the largest.
    pub fn last_number_read(&mut self) -> String {
        let mut parts = self.parts();
        parts.token.truncate(8);
        parts.payload.clear();
        parts.options.push((65535 - self.random.below(15) as u16, self.value(6)));
        let mut datagram = parts.datagram();
        self.option(&mut datagram);
        format!("read {}", hex(&datagram))
    }

    /// A datagram as coap-lite writes it. A token of more than 8 bytes makes it one that can't be read.
    fn datagram(&mut self) -> Vec<u8> {
        self.parts().datagram()
    }

    pub fn damaged(&mut self) -> Vec<u8> {
        const TELLING: [u8; 12] = [0x00, 0x01, 0x0d, 0x0e, 0x0f, 0x1f, 0xd0, 0xdd, 0xe0, 0xee, 0xf0, 0xff];
        let mut bytes = self.datagram();
        for _ in 0..=self.random.below(3) {
            let at = self.random.below(bytes.len().min(40) + 1);
            match self.random.below(6) {
                0 => bytes.truncate(at),
                1 => bytes.insert(at.min(bytes.len()), self.random.of(&TELLING)),
                2 => bytes.push(self.random.of(&TELLING)),
                _ if at >= bytes.len() => (),
                3 => drop(bytes.remove(at)),
                4 => bytes[at] = self.random.of(&TELLING),
                _ => bytes[at] = self.random.byte(),
            }
        }
        bytes
    }

    /// A datagram byte by byte: options with any nibbles and extensions.
    pub fn stream(&mut self) -> Vec<u8> {
        let token = self.random.below(9);
        let mut bytes = vec![0x40 + token as u8, self.random.byte()];
        bytes.extend(self.random.bytes(2 + token));
        for _ in 0..self.random.below(6) {
            self.option(&mut bytes);
        }
        match self.random.below(4) {
            0 => bytes.push(0xff),
            1 => {
                bytes.push(0xff);
                bytes.extend(self.random.up_to(6));
            }
            2 => drop(bytes.pop()),
            _ => (),
        }
        bytes
    }

    fn option(&mut self, bytes: &mut Vec<u8>) {
        let (delta, delta_extension, _) = self.nibble();
        let (length, length_extension, value) = self.nibble();
        bytes.push(delta * 16 + length);
        bytes.extend(delta_extension);
        bytes.extend(length_extension);
        let value = if self.random.one_in(12) { value.saturating_sub(1) } else { value };
        bytes.extend(self.random.bytes(value.min(300)));
    }

    /// A nibble, its extension, and the number that they stand for.
    fn nibble(&mut self) -> (u8, Vec<u8>, usize) {
        match self.random.below(24) {
            0..=3 => {
                let more =
                    if self.random.one_in(3) { self.random.of(&[0, 1, 254, 255]) } else { self.random.below(20) };
                (13, vec![more as u8], 13 + more)
            }
            4..=7 => {
                let more = match self.random.below(3) {
                    0 => self.random.near(&[0xfef2, 0xfef3, 0xff00]),
                    1 => self.random.near(&[2, 0xff, 0x100, 0x8000]),
                    _ => self.random.wide(16) as usize,
                };
                (14, (more as u16).to_be_bytes().to_vec(), 269 + more)
            }
            8 => (15, Vec::new(), 0),
            _ => {
                let small = self.random.below(13);
                (small as u8, Vec::new(), small)
            }
        }
    }

    // ---- writing

    fn write(&mut self) -> String {
        let mut parts = self.parts();
        if self.random.one_in(10) {
            self.stretch(&mut parts);
        }
        self.write_of(&parts)
    }

    /// Gives a packet the payload that brings it beside the default limit, or beside coap-lite's own.
    fn stretch(&mut self, parts: &mut Parts) {
        parts.payload.clear();
        let size = counted(parts);
        let aim = self.random.near(&[DEFAULT_LIMIT, DEFAULT_LIMIT, 1280]);
        parts.payload = self.random.bytes(aim.saturating_sub(size + 1));
    }

    fn write_of(&mut self, parts: &Parts) -> String {
        format!("write {} {}", self.bounds(parts), parts.asked())
    }

    /// A packet with a fault or two, most often.
    fn write_strict(&mut self) -> String {
        let mut parts = self.parts();
        let bounds = self.bounds(&parts);
        for _ in 0..self.random.below(3) {
            self.spoil(&mut parts);
        }
        format!("write {bounds} {}", self.homed(&parts))
    }

    /// A limit and a room, some of them beside what a packet takes.
    pub fn bounds(&mut self, parts: &Parts) -> String {
        let limit = match self.random.below(8) {
            0..=2 => "default".into(),
            3 | 4 => "none".into(),
            5 | 6 => self.random.near(&[counted(parts)]).to_string(),
            _ => self.random.of(&[0, 3, 4, 5, 1151, 1152, 1153, 1280, 1281, u64::MAX]).to_string(),
        };
        let room = match self.random.below(8) {
            0 | 1 => self.random.near(&[length(parts)]) as u64,
            2 => self.random.below(8) as u64,
            _ => MOST_ROOM,
        };
        format!("{limit} {room}")
    }

    // ---- uints, text, header, blocks

    fn uint(&mut self) -> String {
        let width = self.random.of(&[1, 2, 4, 8]);
        if self.random.one_in(2) {
            return format!("uint-read {width} {}", hex(&self.padded(width + 2)));
        }
        let most = u64::MAX >> (64 - 8 * width);
        let number = match self.random.below(3) {
            0 => (1u64 << (8 * self.random.below(width))) - self.random.below(2) as u64,
            1 => most - self.random.below(2) as u64,
            _ => self.random.wide(8 * width),
        };
        let room = if self.random.one_in(3) { self.random.below(9) } else { 8 };
        format!("uint-write {width} {room} {number}")
    }

    /// A uint of a width that need be none, most often padded.
    fn to_uint(&mut self) -> String {
        let width = self.random.below(11);
        let length = self.random.near(&[width]);
        format!("to-uint {width} {}", hex(&self.padded(length)))
    }

    /// Up to so many bytes, with zeros in front half of the time, and perhaps one zero byte elsewhere.
    pub fn padded(&mut self, most: usize) -> Vec<u8> {
        let mut value = self.random.up_to(most);
        if self.random.one_in(2) {
            let zeros = self.random.below(value.len() + 1);
            value[..zeros].fill(0);
        }
        if !value.is_empty() && self.random.one_in(4) {
            let at = self.random.below(value.len());
            value[at] = 0;
        }
        value
    }

    fn text(&mut self) -> String {
        const EDGES: [char; 12] = [
            '\0',
            'a',
            '\u{7f}',
            '\u{80}',
            '\u{7ff}',
            '\u{800}',
            '\u{d7ff}',
            '\u{e000}',
            '\u{ffff}',
            '\u{10000}',
            '\u{fffff}',
            '\u{10ffff}',
        ];
        let count = self.random.below(12);
        let text: String = (0..count).map(|_| self.random.of(&EDGES)).collect();
        if self.random.one_in(3) {
            return format!("text-write {} {}", self.random.near(&[text.len()]), hex(text.as_bytes()));
        }
        let mut bytes = text.into_bytes();
        if self.random.one_in(2) && !bytes.is_empty() {
            let at = self.random.below(bytes.len());
            match self.random.below(3) {
                0 => bytes.truncate(at),
                1 => drop(bytes.remove(at)),
                _ => bytes[at] = self.random.byte(),
            }
        }
        format!("text-read {}", hex(&bytes))
    }

    fn code(&mut self) -> String {
        let (class, detail) = (self.digits(7), self.digits(31));
        let mut text = format!("{class}.{detail}");
        if self.random.one_in(6) {
            let at = self.random.below(text.len() + 1);
            text.insert(at, self.random.of(&['.', '+', '-', ' ', '0', 'a', '\0', 'é', '٣']));
        }
        format!("code-read {}", hex(text.as_bytes()))
    }

    fn digits(&mut self, most: usize) -> String {
        let sign = if self.random.one_in(6) { "+" } else { "" };
        let zeros = "0".repeat(if self.random.one_in(4) { self.random.below(30) } else { 0 });
        let number = match self.random.below(8) {
            0 => self.random.near(&[most, 256]) as u64,
            1 => (1 << self.random.of(&[8, 16, 32, 63])) + self.random.below(most) as u64,
            _ => self.random.below(most + 1) as u64,
        };
        format!("{sign}{zeros}{number}")
    }

    fn block(&mut self) -> String {
        let number = match self.random.below(3) {
            0 => self.random.near(&[2, 4095, 65535, 1_048_575]) as u64,
            _ => self.random.wide(17),
        };
        let more = self.random.below(2);
        match self.random.below(4) {
            0 => {
                let power = 1 << self.random.below(14);
                format!("block-new {number} {more} {}", self.random.near(&[power]))
            }
            1 => format!("block-new {} {more} {}", self.random.wide(64), self.random.wide(64)),
            2 => format!("block-read {}", hex(&self.padded(5))),
            _ => {
                let (room, exponent) = (self.random.below(4), self.random.below(9));
                format!("block-write {room} {} {more} {exponent}", number.min(65535))
            }
        }
    }

    /// Blocks with numbers and sizes beside the largest, and values of up to four bytes.
    fn block_strict(&mut self) -> String {
        let number = match self.random.below(4) {
            0 => self.random.wide(32) as usize,
            _ => self.random.near(&[2, 4095, 65535, 1_048_575]),
        };
        let more = self.random.below(2);
        match self.random.below(3) {
            0 => {
                let size = 8 << self.random.below(9);
                format!("block-new {number} {more} {}", self.random.of(&[size - 1, size, size, size, size + 1]))
            }
            1 => format!("block-read {}", hex(&self.padded(4))),
            _ => format!("block-write {} {number} {more} {}", self.random.below(5), self.random.below(9)),
        }
    }

    fn header(&mut self) -> String {
        format!("header-read {}", hex(&self.random.up_to(6)))
    }

    /// A request that a small fault makes none.
    fn no_request(&mut self) -> String {
        let line = match self.random.below(5) {
            0 => format!("read {}", hex(&self.datagram())),
            1 => self.write(),
            2 => self.steps(),
            3 => self.build(),
            _ => self.block(),
        };
        match self.random.below(6) {
            0 => line.replacen(' ', "  ", 1),
            1 => line + " -",
            2 => line + " ",
            3 => line + "0g",
            4 => line.rsplit_once(' ').expect("a request has words").0.into(),
            _ => format!("x{line}"),
        }
    }

    // ---- long requests

    pub fn long_value_read(&mut self) -> String {
        let mut bytes = vec![0x40, 0x01, 0x00, 0x01, self.random.of(&[0x0e, 0x1e, 0xde])];
        if bytes[4] == 0xde {
            bytes.push(self.random.byte());
        }
        let more = self.random.near(&[65266, 65266, 65535 - 2]);
        bytes.extend((more as u16).to_be_bytes());
        let value = self.random.near(&[more + 269]);
        bytes.extend(self.random.bytes(value));
        format!("read {}", hex(&bytes))
    }

    pub fn long_payload_read(&mut self) -> String {
        let mut parts = self.parts();
        parts.token.truncate(8);
        parts.class = MessageClass::from(self.random.byte());
        parts.payload.clear();
        let bytes = length(&parts);
        let aim = STORE - self.random.below(3);
        parts.payload = self.random.bytes(aim - bytes - 1);
        format!("read {}", hex(&parts.datagram()))
    }

    fn long_write(&mut self) -> String {
        let options = self.random.below(4);
        let mut parts = self.parts_of(options);
        let room = STORE - parts.store();
        let long = match self.random.below(3) {
            0 => self.random.near(&[65535, 65802]),
            1 => 65804,
            _ => room - self.random.below(3),
        };
        let bytes = self.random.bytes(long.min(room));
        match parts.options.last() {
            Some(&(number, _)) if long < 65805 => parts.options.push((number, bytes)),
            _ => parts.payload.extend(bytes),
        }
        self.write_of(&parts)
    }

    /// A datagram, a store, a value, an image or a frame beside the longest, or a long trace.
    fn long_strict(&mut self) -> String {
        let mut parts = self.parts();
        let aim = self.random.near(&[STORE]);
        match self.random.below(9) {
            0 => return self.long_plan(),
            1 | 2 => return self.long_frame(),
            3 => return self.long_replay(),
            _ => (),
        }
        if self.random.one_in(3) {
            let mut datagram = parts.datagram();
            datagram.push(0xff);
            datagram.resize(aim, 0x61);
            return format!("read {}", hex(&datagram));
        }
        if self.random.one_in(3) {
            self.spoil(&mut parts);
        }
        if self.random.one_in(2) {
            let length = self.random.near(&[65804]);
            parts.options.push((65535, self.random.bytes(length)));
        }
        if self.random.one_in(2) {
            let missing = aim.saturating_sub(parts.store());
            parts.payload.extend(self.random.bytes(missing));
        }
        if self.random.one_in(2) {
            return format!("{} {}", self.random.of(&["register", "write none 71000"]), parts.asked());
        }
        format!("{} {}", self.random.of(&["register", "write none 71000"]), self.homed(&parts))
    }
}

/// How many bytes coap-lite writes.
pub fn length(parts: &Parts) -> usize {
    parts.datagram().len()
}

/// The size that is held against the limit: it has a payload that class `Empty` drops.
fn counted(parts: &Parts) -> usize {
    match parts.class {
        MessageClass::Empty => length(parts) + parts.payload.len(),
        _ => length(parts),
    }
}

/// A number that no reader's count of options exceeds: it takes every byte for what it may be at most, and goes on
/// where a reader would refuse.
fn options_at_most(datagram: &[u8]) -> usize {
    let Some(first) = datagram.first() else {
        return 0;
    };
    let byte = |at: usize| usize::from(datagram.get(at).copied().unwrap_or(0));
    let mut at = 4 + usize::from(first % 16);
    let mut count = 0;
    while at < datagram.len() && datagram[at] != 0xff {
        let (delta, length) = (datagram[at] / 16, datagram[at] % 16);
        at += match delta {
            13 => 2,
            14 => 3,
            _ => 1,
        };
        at += match length {
            13 => 1 + 13 + byte(at),
            14 => 2 + 269 + byte(at) * 256 + byte(at + 1),
            short => usize::from(short),
        };
        count += 1;
    }
    count
}
