//! Messages to be heard by a table, and traces to be replayed: beside each boundary of time, place and room, good ones, damaged
//! ones, and all small ones.

use super::frozen::{each_change, joined, peer, FORMS, SIZES};
use super::short::strings_over;
use super::varied::Varied;
use crate::freezing::{frozen, Form};
use crate::words::{hex, MOST_ROOM};

const PLACES: usize = 64;
const PLACE: usize = 25;
const TABLE: usize = PLACES * PLACE;

/// Seconds beside which a message of either type is none that was heard before.
const SPANS: [u32; 12] = [0, 1, 143, 144, 145, 146, 245, 246, 247, 248, 289, 494];
const LATEST: u32 = u32::MAX;

/// A message as a table sees it.
#[derive(Clone, Copy)]
struct Sent {
    time: u32,
    kind: u8,
    peer: [u8; 18],
    id: u16,
}

impl Sent {
    /// One of the peer 00 to 11.
    fn of(time: u32, kind: u8, id: u16) -> Sent {
        Sent { time, kind, peer: peer().try_into().expect("18 bytes"), id }
    }

    /// The shortest datagram of such a message.
    fn datagram(&self) -> Vec<u8> {
        [&[0x40 | self.kind << 4, 1][..], &self.id.to_be_bytes()].concat()
    }

    /// The place that the message has in a table, if it takes one.
    fn place(&self) -> Vec<u8> {
        [&[self.kind + 1], &self.peer[..], &self.id.to_be_bytes(), &self.time.to_be_bytes()].concat()
    }

    /// The same at another time.
    fn at(&self, time: u32) -> Sent {
        Sent { time, ..*self }
    }
}

/// A datagram in a trace, after its time.
fn timed(form: Form, sent: &Sent, datagram: &[u8]) -> Vec<u8> {
    [&[8], &sent.time.to_be_bytes()[..], &frozen(form, &sent.peer, datagram)].concat()
}

fn trace(form: Form, messages: &[Sent]) -> Vec<u8> {
    messages.iter().flat_map(|sent| timed(form, sent, &sent.datagram())).collect()
}

/// A replay in the shorter form, with a place in the listing for each message.
fn replay(messages: &[Sent]) -> String {
    format!("replay {TABLE} {} {}", messages.len(), hex(&trace(Form::New, messages)))
}

/// A message over a table, at the time of the message before.
fn hear(sent: &Sent, table: &[u8]) -> String {
    format!("hear {0} {0} {1} {2} {3} {4}", sent.time, sent.kind, sent.id, hex(&sent.peer), hex(table))
}

/// A table of these places, and unused ones behind them.
fn table(places: &[Vec<u8>]) -> Vec<u8> {
    let mut table = places.concat();
    table.resize(TABLE, 0);
    table
}

impl Varied {
    // ---- messages

    /// Any time, but most often one that is beside the first or the last.
    fn time(&mut self) -> u32 {
        match self.random.below(4) {
            0 => self.random.below(600) as u32,
            1 => LATEST - self.random.below(600) as u32,
            _ => self.random.wide(32) as u32,
        }
    }

    /// One of few messages, so that many are heard again.
    fn sent(&mut self, time: u32) -> Sent {
        let kind = self.random.of(&[0, 0, 0, 1, 1, 1, 2, 3]);
        let mut sent = Sent::of(time, kind, self.random.of(&[0, 5, 5, 5, 6, 0x0105, 0xffff]));
        if self.random.one_in(4) {
            sent.peer[self.random.of(&[0, 15, 16, 17])] ^= 0x80;
        }
        sent
    }

    /// Beside a boundary after a time, soon after it, or before it.
    fn later(&mut self, time: u32) -> u32 {
        let step = match self.random.below(8) {
            0 | 1 => 0,
            2 | 3 => self.random.near(&[144]),
            4 | 5 => self.random.near(&[246]),
            _ => self.random.below(300),
        };
        match self.random.below(40) {
            0 => time.saturating_sub(1 + self.random.below(3) as u32),
            1 => self.time(),
            _ => time.saturating_add(step as u32),
        }
    }

    // ---- over a table

    pub fn hear(&mut self) -> String {
        let now = self.time();
        let before = match self.random.below(8) {
            0 => self.random.near(&[now as usize]).min(LATEST as usize) as u32,
            1 => self.time(),
            2 => 0,
            _ => now - now.min(self.random.below(300) as u32),
        };
        let sent = self.sent(now);
        let words = format!("hear {before} {now} {} {} {}", sent.kind, sent.id, hex(&sent.peer));
        // a table is long, so half of them are told by their length
        if self.random.one_in(2) {
            let length = if self.random.one_in(2) { TABLE } else { self.random.near(&[0, PLACE, TABLE, 2 * TABLE]) };
            return format!("{words} zeros:{length}");
        }
        let mut table = self.table_at(&sent);
        if self.random.one_in(6) {
            let length = self.random.near(&[TABLE, TABLE, TABLE + PLACE, 0]);
            table.resize(length, self.random.of(&[0, 1, 0xff]));
        }
        format!("{words} {}", hex(&table))
    }

    /// A table that a message may find: empty but for few places, full, or full but for few.
    fn table_at(&mut self, sent: &Sent) -> Vec<u8> {
        let (mut table, full) = (Vec::new(), self.random.below(3));
        for place in 0..PLACES {
            let telling = match full {
                0 => place < 4,
                1 => self.random.one_in(40),
                _ => false,
            };
            table.push(match (full, telling) {
                (_, true) => self.place_at(sent),
                (0, false) => vec![0; PLACE],
                // an entry that stands and that no message asks for
                _ => Sent::of(sent.time, place as u8 % 2, 1000 + place as u16).place(),
            });
        }
        if self.random.one_in(2) {
            let at = self.random.below(PLACES);
            table[at] = self.place_at(sent);
        }
        table.concat()
    }

    /// A place that is beside the message in what it says, or beside the time at which it expires, or unused.
    fn place_at(&mut self, sent: &Sent) -> Vec<u8> {
        let mut entry = if self.random.one_in(2) { *sent } else { self.sent(sent.time) };
        entry.kind %= 2;
        let ago = match self.random.below(6) {
            0 => 0,
            1 | 2 => self.random.near(&[144]),
            3 | 4 => self.random.near(&[246]),
            _ => self.random.below(400),
        };
        entry.time = match self.random.below(8) {
            0 => sent.time.saturating_add(ago as u32),
            1 => self.time(),
            _ => sent.time.saturating_sub(ago as u32),
        };
        let mut place = entry.place();
        match self.random.below(12) {
            0 => place[0] = self.random.of(&[0, 3, 4, 0x80, 0x81, 0xff]),
            1 => place = vec![0; PLACE],
            2 => place[1 + self.random.below(20)] ^= 1 << self.random.below(8),
            _ => (),
        }
        place
    }

    // ---- traces

    pub fn replay(&mut self) -> String {
        let messages = if self.random.one_in(60) { self.crowd() } else { self.sent_in_turn() };
        let form = self.random.of(&[Form::New, Form::New, Form::Old]);
        let mut trace = Vec::new();
        for sent in &messages {
            let datagram = self.datagram_of(sent);
            let form = if self.random.one_in(40) { self.random.of(&FORMS).1 } else { form };
            trace.extend(timed(form, sent, &datagram));
        }
        if self.random.one_in(4) {
            trace = self.damaged_stream(&trace);
        }
        let (table, listing) = self.replay_rooms(messages.len());
        format!("replay {table} {listing} {}", hex(&trace))
    }

    fn replay_rooms(&mut self, messages: usize) -> (usize, u64) {
        let table = match self.random.below(12) {
            0 => self.random.near(&[TABLE]),
            1 => self.random.of(&[0, 1, PLACE, TABLE - PLACE, TABLE + PLACE, 2_000]),
            _ => TABLE,
        };
        let listing = match self.random.below(8) {
            0 | 1 => self.random.near(&[messages]) as u64,
            2 => MOST_ROOM,
            _ => (messages + self.random.below(4)) as u64,
        };
        (table, listing)
    }

    /// Most often the shortest datagram; sometimes a longer one, a damaged one, or one that says something else.
    fn datagram_of(&mut self, sent: &Sent) -> Vec<u8> {
        match self.random.below(60) {
            0 => self.damaged(),
            1 => self.sized(&SIZES),
            2 | 3 => self.well_formed(),
            4 => vec![0x40 | sent.kind << 4, 0, (sent.id >> 8) as u8, sent.id as u8],
            5..=8 => [&sent.datagram()[..], &[0xff], &self.random.bytes(60)].concat(),
            _ => sent.datagram(),
        }
    }

    fn sent_in_turn(&mut self) -> Vec<Sent> {
        let count = self.random.of(&[0, 1, 2, 3, 3, 4, 4, 5, 6, 8]);
        let mut time = self.time();
        let mut messages = Vec::new();
        for _ in 0..count {
            messages.push(self.sent(time));
            time = self.later(time);
        }
        messages
    }

    /// As many as fill a table, some more, and one of them again.
    fn crowd(&mut self) -> Vec<Sent> {
        let count = self.random.near(&[PLACES - 1, PLACES, PLACES + 2]);
        self.crowd_of(count, 3)
    }

    /// Messages of ever new ids and now and then of an old one, up to so many seconds apart.
    fn crowd_of(&mut self, count: usize, apart: usize) -> Vec<Sent> {
        let mut time = self.time();
        let types = self.random.of(&[&[0][..], &[1], &[0, 0, 1], &[0, 1, 1, 2]]);
        let mut messages: Vec<Sent> = Vec::new();
        for id in 0..count {
            let id = if self.random.one_in(12) { self.random.below(id + 1) } else { id };
            messages.push(Sent::of(time, self.random.of(types), id as u16));
            time = time.saturating_add(self.random.below(apart) as u32);
        }
        let last = messages.last().map_or(0, |sent| sent.time);
        for _ in 0..self.random.below(4) {
            let again = self.random.below(count + 1) as u16;
            let time = self.later(last);
            messages.push(Sent::of(time, self.random.of(types), again));
        }
        messages
    }

    /// A trace in which the places of a table are taken many times, and beside one another all of them.
    pub fn long_replay(&mut self) -> String {
        let count = 100 + self.random.below(500);
        let apart = self.random.of(&[5, 7, 8, 9, 20]);
        let messages = self.crowd_of(count, apart);
        let listing = if self.random.one_in(4) { self.random.near(&[messages.len()]) } else { messages.len() };
        format!("replay {TABLE} {listing} {}", hex(&trace(Form::New, &messages)))
    }
}

/// Records and messages in every order, short traces with each byte changed, and every room beside what is needed; each span
/// of time between messages that are the same and that differ; full tables; and places in every state.
pub fn small(put: &mut dyn FnMut(String)) {
    orders(put);
    rooms(put);
    spans(put);
    differing(put);
    crowds(put);
    heard_first(put);
    heard_again(put);
    places(put);
}

/// A time, a peer, a short chunk of each form, an end; times and whole messages, of each form and both, in every order.
fn orders(put: &mut dyn FnMut(String)) {
    let sent = Sent::of(10, 0, 5);
    let (old, new) = (frozen(Form::Old, &sent.peer, &sent.datagram()), frozen(Form::New, &sent.peer, &sent.datagram()));
    let time = [&[8], &sent.time.to_be_bytes()[..]].concat();
    let bad = frozen(Form::New, &sent.peer, &[0x00, 1, 0, 5]);
    let back = [&[8], &9u32.to_be_bytes()[..], &new].concat();
    let kinds = vec![
        time.clone(),
        old[..19].to_vec(),
        old[19..51].to_vec(),
        new[19..24].to_vec(),
        vec![3],
        [&time[..], &old].concat(),
        [&time[..], &new].concat(),
        new,
        [&time[..], &bad].concat(),
        back,
    ];
    let mut orders = |kinds_in_use: &[u8], most| {
        strings_over(kinds_in_use, most, &mut |string| put(format!("replay 1600 4 {}", hex(&joined(&kinds, string)))));
    };
    orders(&[0, 1, 3, 4], 6);
    orders(&[0, 1, 2, 4], 5);
    orders(&[0, 1, 2, 3, 4], 5);
    orders(&[0, 5, 6, 7, 8, 9], 4);
    orders(&[6, 8, 9], 6);
    for (_, form) in FORMS {
        each_change(&trace(form, &[sent]), &mut |trace| put(format!("replay 1600 3 {}", hex(trace))));
    }
    each_change(&trace(Form::New, &[sent, sent]), &mut |trace| put(format!("replay 1600 3 {}", hex(trace))));
}

/// Each table and listing beside what a trace needs, whatever else is wrong with it.
fn rooms(put: &mut dyn FnMut(String)) {
    let good = |times: &[u32]| {
        let messages: Vec<Sent> = times.iter().map(|&time| Sent::of(time, 0, 5)).collect();
        trace(Form::New, &messages)
    };
    let bad = frozen(Form::New, &peer(), &[0x00, 1, 0, 5]);
    let traces = [
        Vec::new(),
        good(&[5]),
        good(&[5, 5, 400]),
        good(&[5, 4, 5]),
        good(&[5, 5, 4]),
        [&good(&[5, 4])[..], &[9]].concat(),
        [&good(&[5, 4])[..], &[8, 0, 0, 0, 3], &bad].concat(),
    ];
    for trace in traces.map(|trace| hex(&trace)) {
        for table in [0, 1, 25, 1_575, 1_599, 1_600, 1_601, 1_625, 2_000] {
            for listing in (0..5).chain([71_000]) {
                put(format!("replay {table} {listing} {trace}"));
            }
        }
    }
}

/// Two messages of any types, and three of the types that are remembered, so many seconds apart.
fn spans(put: &mut dyn FnMut(String)) {
    for span in SPANS {
        for start in [0, 1, 0x7fff_ff80, LATEST - span] {
            for (first, second) in (0..4).flat_map(|first| (0..4).map(move |second| (first, second))) {
                let first = Sent::of(start, first, 5);
                put(replay(&[first, Sent::of(start + span, second, 5)]));
                put(replay(&[first.at(start + span), Sent::of(start, second, 6)]));
            }
        }
        for after in SPANS {
            for kinds in [[0, 0, 0], [1, 1, 1], [0, 1, 0], [1, 0, 1], [0, 1, 1], [1, 0, 0], [0, 2, 0], [1, 3, 1]] {
                for ids in [[5, 5, 5], [5, 6, 5], [5, 6, 7]] {
                    let sent = |at: usize, time| Sent::of(time, kinds[at], ids[at]);
                    put(replay(&[sent(0, 3), sent(1, 3 + span), sent(2, 3 + span + after)]));
                }
            }
        }
    }
}

/// Two messages that differ in one bit of peer or id, or in the type alone.
fn differing(put: &mut dyn FnMut(String)) {
    for kind in 0..2 {
        let first = Sent::of(7, kind, 5);
        for bit in 0..144 {
            let mut other = first;
            other.peer[bit / 8] ^= 1 << (bit % 8);
            put(replay(&[first, other]));
        }
        for bit in 0..16 {
            put(replay(&[first, Sent::of(7, kind, 5 ^ 1 << bit)]));
        }
        put(replay(&[first, Sent::of(7, 1 - kind, 5)]));
    }
}

/// As many messages as fill a table, or one fewer, and then two more of which the first may be one of them.
fn crowds(put: &mut dyn FnMut(String)) {
    for (kind, count) in [(0, 64), (1, 64), (0, 63)] {
        let crowd: Vec<Sent> = (0..count).map(|id| Sent::of(9, kind, id)).collect();
        for span in SPANS {
            for (next, id) in (0..4).flat_map(|next| [0, 40, count].map(|id| (next, id))) {
                let next = Sent::of(9 + span, next, id);
                put(replay(&[&crowd[..], &[next, Sent::of(9 + span, 0, 1000)]].concat()));
            }
        }
    }
    // one second apart, the types in turn: the places expire one by one
    for turn in [1, 2, 5] {
        let crowd: Vec<Sent> = (0..64).map(|id| Sent::of(id.into(), u8::from(id % turn != 0), id)).collect();
        for time in (144..=150).chain(205..=212).chain(244..=252).chain([310, 311]) {
            let more: Vec<Sent> = (0..4).map(|id| Sent::of(time, 0, 1000 + id)).collect();
            put(replay(&[&crowd[..], &more].concat()));
        }
    }
}

/// Times and types over tables that are told by their length.
fn heard_first(put: &mut dyn FnMut(String)) {
    const TIMES: [u32; 6] = [0, 1, 5, 0x0102_0304, LATEST - 1, LATEST];
    const LENGTHS: [usize; 12] = [0, 1, 24, 25, 1_575, 1_598, 1_599, 1_600, 1_601, 1_625, 2_000, 100_000];
    for kind in 0..4 {
        for (before, time) in TIMES.into_iter().flat_map(|before| TIMES.map(|time| (before, time))) {
            for (id, peer) in [(0, "zeros:18".into()), (0x0506, hex(&peer()))] {
                put(format!("hear {before} {time} {kind} {id} {peer} zeros:1600"));
            }
        }
        for (length, time) in LENGTHS.into_iter().flat_map(|length| [4, 5].map(|time| (length, time))) {
            put(format!("hear 5 {time} {kind} 5 {} zeros:{length}", hex(&peer())));
        }
    }
}

/// One entry: every first byte; each span between it and the message, before and after; each of its bytes changed.
fn heard_again(put: &mut dyn FnMut(String)) {
    for first in 0..=255 {
        for kind in 0..2 {
            let sent = Sent::of(10, kind, 5);
            let mut place = sent.place();
            place[0] = first;
            put(hear(&sent, &table(&[place])));
        }
    }
    for span in SPANS {
        for (entry, kind) in (0..2).flat_map(|entry| (0..3).map(move |kind| (entry, kind))) {
            for (then, now) in [(LATEST - span, LATEST), (2 + span, 2), (LATEST, span), (20, 20 + span)] {
                put(hear(&Sent::of(now, kind, 5), &table(&[Sent::of(then, entry, 5).place()])));
            }
        }
    }
    for at in 0..PLACE {
        let sent = Sent::of(10, 0, 5);
        let mut place = sent.place();
        place[at] ^= 0x40;
        put(hear(&sent, &table(&[place])));
    }
}

/// Places that are unused, expired or standing, or that have the message itself, in all orders before others that are unused,
/// and before others that stand; each place as the only one to be taken; and what is behind the last place.
fn places(put: &mut dyn FnMut(String)) {
    let now = 1_000;
    let sent = Sent::of(now, 0, 5);
    let states = [
        vec![0; PLACE],
        Sent::of(now - 247, 0, 6).place(),
        Sent::of(now - 246, 0, 7).place(),
        sent.at(now - 247).place(),
        sent.at(now - 246).place(),
        Sent::of(now - 144, 1, 5).place(),
        Sent::of(now - 145, 1, 5).place(),
    ];
    let standing: Vec<Vec<u8>> = (0..64).map(|id| Sent::of(now - 1, 0, 1000 + id).place()).collect();
    strings_over(&[0, 1, 2, 3, 4, 5, 6], 3, &mut |string| {
        let places: Vec<Vec<u8>> = string.iter().map(|&state| states[usize::from(state)].clone()).collect();
        put(hear(&sent, &table(&places)));
        let full = [&standing[places.len()..], &places].concat();
        put(hear(&sent, &table(&full)));
    });
    for at in 0..PLACES {
        for state in [0, 1, 4] {
            let mut places = standing.clone();
            places[at] = states[state].clone();
            put(hear(&sent, &table(&places)));
        }
    }
    for state in states {
        put(hear(&sent, &[standing.concat(), state.clone()].concat()));
        put(hear(&sent, &[&[0; TABLE][..], &state].concat()));
    }
}
