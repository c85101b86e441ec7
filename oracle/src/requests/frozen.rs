//! Messages to be frozen, and streams to be thawed or converted: good ones, damaged ones, and all small ones.

use super::short::strings_over;
use super::varied::Varied;
use crate::freezing::{frozen, Form};
use crate::words::{hex, MOST_ROOM, MOST_VALUES};

/// Sizes of a message beside which the count of its chunks changes, or it is too long; few are so long.
pub const SIZES: [usize; 6] = [4, 30, 60, 63, 65, 128];
const LONG_SIZES: [usize; 4] = [1_152, 1_216, 1_260, 1_280];

/// Bytes that are kinds, counts, or neither.
const TELLING: [u8; 16] =
    [0x00, 0x01, 0x02, 0x03, 0x04, 0x08, 0x1d, 0x1e, 0x1f, 0x40, 0x80, 0x81, 0x84, 0xbf, 0xc0, 0xff];

/// The word of a form, and the form.
pub const FORMS: [(&str, Form); 2] = [("old", Form::Old), ("new", Form::New)];

impl Varied {
    pub fn freeze(&mut self) -> String {
        let mut parts = self.parts();
        parts.token.truncate(8);
        if !self.random.one_in(8) {
            parts.version = 1;
        }
        if self.random.one_in(3) {
            parts.payload.clear();
            let sizes = if self.random.one_in(4) { &LONG_SIZES[..] } else { &SIZES };
            let missing = self.random.near(sizes).saturating_sub(parts.datagram().len() + 1);
            parts.payload = self.random.bytes(missing);
        }
        let (word, form) = self.random.of(&FORMS);
        let length = frozen(form, &[0; 18], &parts.datagram()).len();
        if self.random.one_in(6) {
            self.spoil(&mut parts);
        }
        let (room, start) = self.stream_room(length);
        let peer = hex(&self.random.bytes(18));
        format!("freeze {word} {room} {start} {peer} {}", self.homed(&parts))
    }

    /// A stream and a start in it: as much as so many bytes take, about as much, or more than there is.
    fn stream_room(&mut self, length: usize) -> (u64, u64) {
        let start = if self.random.one_in(2) { 0 } else { self.random.below(60) };
        let room = match self.random.below(4) {
            0 => self.random.near(&[start + length]),
            1 => self.random.near(&[start]),
            _ => start + length + self.random.below(60),
        };
        let start = if self.random.one_in(20) { self.random.wide(64) } else { start as u64 };
        ((room as u64).min(MOST_ROOM), start)
    }

    pub fn thaw(&mut self) -> String {
        let datagrams = self.datagrams();
        let (places, room) = self.thaw_rooms(&datagrams);
        let (word, form) = self.random.of(&FORMS);
        format!("thaw {word} {places} {room} {}", hex(&self.stream_of(form, &datagrams)))
    }

    pub fn convert(&mut self) -> String {
        let datagrams = self.datagrams();
        let (word, form) = self.random.of(&FORMS);
        let stream = self.stream_of(form, &datagrams);
        let other = if form == Form::Old { Form::New } else { Form::Old };
        let converted = datagrams.iter().map(|datagram| frozen(other, &[0; 18], datagram).len()).sum();
        let room = if self.random.one_in(3) { self.random.near(&[converted]) as u64 } else { MOST_ROOM };
        format!("convert {word} {room} {}", hex(&stream))
    }

    /// A stream of a form, now and then with a message of the other, and damaged half of the time.
    fn stream_of(&mut self, form: Form, datagrams: &[Vec<u8>]) -> Vec<u8> {
        let mut stream = Vec::new();
        for datagram in datagrams {
            let peer = self.random.bytes(18);
            let form = if self.random.one_in(20) { self.random.of(&FORMS).1 } else { form };
            stream.extend(frozen(form, &peer, datagram));
        }
        if self.random.one_in(2) {
            stream = self.damaged_stream(&stream);
        }
        stream
    }

    /// The datagrams of some messages, most of them good.
    fn datagrams(&mut self) -> Vec<Vec<u8>> {
        let count = self.random.of(&[0, 1, 1, 1, 2, 2, 3, 5]);
        let one = |_| match self.random.below(24) {
            0 => self.stream(),
            1 => self.damaged(),
            2 => self.sized(&LONG_SIZES),
            3..=6 => self.sized(&SIZES),
            7 => self.random.up_to(6),
            _ => self.well_formed(),
        };
        (0..count).map(one).collect()
    }

    /// A good datagram of a size beside one of some.
    pub fn sized(&mut self, sizes: &[usize]) -> Vec<u8> {
        let mut datagram = vec![0x40, 0x01, self.random.byte(), self.random.byte(), 0xff];
        let size = self.random.near(sizes);
        datagram.resize(size, 0x61);
        datagram
    }

    fn thaw_rooms(&mut self, datagrams: &[Vec<u8>]) -> (u64, u64) {
        let bytes = datagrams.iter().map(Vec::len).sum();
        let (mut places, mut room) = (MOST_VALUES, MOST_ROOM);
        if self.random.one_in(3) {
            places = self.random.near(&[3 * datagrams.len()]) as u64;
        }
        if self.random.one_in(3) {
            room = self.random.near(&[bytes]) as u64;
        }
        (places, room)
    }

    /// A stream or a trace with a record too few, too many, changed or out of place, or with its end cut off.
    pub fn damaged_stream(&mut self, stream: &[u8]) -> Vec<u8> {
        let mut records = split(stream);
        records.push(vec![self.random.of(&TELLING)]);
        let at = self.random.below(records.len());
        let other = self.random.below(records.len());
        match self.random.below(8) {
            0 => drop(records.remove(at)),
            1 => records.insert(other, records[at].clone()),
            2 => records.swap(at, other),
            3 => records[at].truncate(1),
            4 => records[at][0] = self.random.of(&TELLING),
            5 => {
                let (place, byte) = (self.random.below(records[at].len()), self.random.of(&TELLING));
                records[at][place] = byte;
            }
            6 => drop(records[at].pop()),
            _ => (),
        }
        // what was pushed behind the last record is a fault of its own
        if !self.random.one_in(12) {
            records.pop();
        }
        records.concat()
    }
}

/// The records of a good stream or trace.
fn split(stream: &[u8]) -> Vec<Vec<u8>> {
    let mut records = Vec::new();
    let mut rest = stream;
    while let Some(kind) = rest.first() {
        let length = match kind {
            1 => 19,
            2 => 32,
            4 => 65,
            8 => 5,
            129..=191 => usize::from(kind - 127),
            _ => 1,
        };
        let (record, behind) = rest.split_at(length);
        records.push(record.to_vec());
        rest = behind;
    }
    records
}

/// A peer of 00 to 11.
pub fn peer() -> Vec<u8> {
    (0..18).collect()
}

/// Streams of some records of every kind, thawed and converted; some of short messages with each byte changed, left
/// out or doubled; and every start and room beside what a message takes.
pub fn small(put: &mut dyn FnMut(String)) {
    let kinds = kinds();
    strings_over(&[0, 1, 2, 3, 7], 5, &mut |string| put(format!("thaw old 9 71000 {}", hex(&joined(&kinds, string)))));
    strings_over(&[0, 4, 5, 6, 7], 5, &mut |string| put(format!("thaw new 9 71000 {}", hex(&joined(&kinds, string)))));
    strings_over(&[0, 2, 4, 5, 7], 4, &mut |string| put(format!("thaw old 9 71000 {}", hex(&joined(&kinds, string)))));
    strings_over(&[0, 2, 4, 7, 8, 9], 4, &mut |string| {
        put(format!("thaw new 9 71000 {}", hex(&joined(&kinds, string))))
    });
    strings_over(&[0, 2, 4, 5, 7], 5, &mut |string| {
        let stream = hex(&joined(&kinds, string));
        FORMS.iter().for_each(|(word, _)| put(format!("convert {word} 71000 {stream}")));
    });
    for (word, form) in FORMS {
        let good = frozen(form, &peer(), &[0x40, 1, 0, 1]);
        each_change(&good, &mut |stream| put(format!("thaw {word} 3 4 {}", hex(stream))));
        each_change(&good, &mut |stream| put(format!("convert {word} 52 {}", hex(stream))));
        let beside = good.len() - 2..good.len() + 12;
        for (start, room) in (0..10).flat_map(|start| beside.clone().map(move |room| (start, room))) {
            put(format!("freeze {word} {room} {start} {} 1 0 Request.Get 0 - - -", hex(&peer())));
        }
    }
}

/// A peer; of each form a full chunk, a short one with a message and one with a byte; an end; kinds beside those of short ones.
fn kinds() -> Vec<Vec<u8>> {
    let mut full = vec![0x40, 1, 0, 1, 0xff];
    full.resize(64, 0x61);
    let old = |bytes: &[u8]| [&[2, bytes.len() as u8], bytes, &vec![0; 30 - bytes.len()]].concat();
    let new = |kind: u8, bytes: &[u8]| [&[kind], bytes].concat();
    let (old_full, old_short, old_single) = (old(&full[..30]), old(&full[..4]), old(&[0]));
    let (new_full, new_short, new_single) = (new(4, &full), new(0x84, &full[..4]), new(0x81, &[0]));
    let peer = new(1, &peer());
    vec![peer, old_full, old_short, old_single, new_full, new_short, new_single, vec![3], vec![0x80], new(0xc0, &full)]
}

pub fn joined(kinds: &[Vec<u8>], string: &[u8]) -> Vec<u8> {
    string.iter().flat_map(|&kind| kinds[usize::from(kind)].clone()).collect()
}

/// Each byte of a stream as each telling one, left out, doubled, or the first to be cut off.
pub fn each_change(stream: &[u8], take: &mut dyn FnMut(&[u8])) {
    for at in 0..stream.len() {
        let (before, behind) = stream.split_at(at);
        TELLING.iter().for_each(|&byte| take(&[before, &[byte], &behind[1..]].concat()));
        take(&[before, &behind[1..]].concat());
        take(&[before, &behind[..1], behind].concat());
        take(before);
    }
}
