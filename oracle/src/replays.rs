//! Messages heard by a table, and replays of traces: docs/RULES.md, Replay. The duplicate rule of
//! RFC 7252 4.5 stands here twice, over the table and over the history of messages: a replay is answered by the table, and only
//! where the history says the same.

use crate::freezing::{peer, traced, PEER_BYTES};
use crate::strict_answers::{demand, read, Judged};
use crate::words::{hex, kind_number, Words, MOST_ROOM};

/// 02, [12]: a table has 64 entries. Each is a byte for the type, or for none, then peer, id and time, high byte first.
const PLACES: usize = 64;
const PLACE: usize = 1 + PEER_BYTES + 2 + 4;
const TABLE: usize = PLACES * PLACE;
/// The longest table that a request can lend a replay.
const MOST_TABLE: u64 = 2_000;

/// What a replay lists of a message.
const NEW: u8 = 1;
const DUPLICATE: u8 = 2;
const PASSED: u8 = 3;

/// What identifies a message, and its time in seconds.
#[derive(Clone, Copy)]
struct Heard {
    time: u32,
    kind: u8,
    id: u16,
    peer: [u8; PEER_BYTES],
}

impl Heard {
    /// A message is identified while fewer seconds than this have passed: confirmable, then non-confirmable. Acknowledgements
    /// and resets pass.
    fn seconds(&self) -> Option<u64> {
        match self.kind {
            0 => Some(247),
            1 => Some(145),
            _ => None,
        }
    }

    fn is_same(&self, other: &Heard) -> bool {
        (self.kind, self.id, self.peer) == (other.kind, other.id, other.peer)
    }
}

// ---- by the table

/// What a message is, a new one with the place that it takes.
enum Verdict {
    New(usize),
    Duplicate,
    Passed,
}

/// `hear BEFORE TIME TYPE ID PEER HEX`
pub fn answer_hear(words: &mut Words) -> Option<Judged<String>> {
    let (before, time) = (words.number(u32::MAX.into())? as u32, words.number(u32::MAX.into())? as u32);
    let (kind, id) = (words.number(3)? as u8, words.number(65535)? as u16);
    let message = Heard { time, kind, id, peer: peer(words)? };
    let mut table = words.bytes()?;
    Some(hear(before, &message, &mut table).map(|verdict| match verdict {
        Verdict::New(place) => format!("new {place} {}", hex(&table[place * PLACE..][..PLACE])),
        Verdict::Duplicate => "duplicate".into(),
        Verdict::Passed => "passed".into(),
    }))
}

/// 21 when the time is less than the one before; 12 of a table that is too short; 12 when a new one finds 64 entries that
/// stand. Nothing but the place of a new one changes.
fn hear(before: u32, message: &Heard, table: &mut [u8]) -> Judged<Verdict> {
    demand(message.time >= before, 21)?;
    demand(table.len() >= TABLE, 12)?;
    if message.seconds().is_none() {
        return Ok(Verdict::Passed);
    }
    let standing = |place: &[u8]| entry(place).filter(|entry| stands(entry, message.time));
    let places: Vec<Option<Heard>> = table[..TABLE].chunks(PLACE).map(standing).collect();
    if places.iter().flatten().any(|entry| entry.is_same(message)) {
        return Ok(Verdict::Duplicate);
    }
    let place = places.iter().position(Option::is_none).ok_or(12)?;
    table[place * PLACE..][..PLACE].copy_from_slice(&place_of(message));
    Ok(Verdict::New(place))
}

/// Unexpired: as whole numbers, which may pass 32 bits. An entry later than now is.
fn stands(entry: &Heard, now: u32) -> bool {
    entry.seconds().is_some_and(|seconds| u64::from(now) < u64::from(entry.time) + seconds)
}

/// A first byte of 1 is a confirmable message, 2 a non-confirmable one, any other an unused place.
fn entry(place: &[u8]) -> Option<Heard> {
    let kind = match place[0] {
        1 => 0,
        2 => 1,
        _ => return None,
    };
    let (peer, numbers) = place[1..].split_at(PEER_BYTES);
    let (id, time) = numbers.split_at(2);
    let (id, time) = (id.try_into().expect("2 bytes"), time.try_into().expect("4 bytes"));
    let peer = peer.try_into().expect("18 bytes");
    Some(Heard { time: u32::from_be_bytes(time), kind, id: u16::from_be_bytes(id), peer })
}

fn place_of(message: &Heard) -> Vec<u8> {
    [&[message.kind + 1], &message.peer[..], &message.id.to_be_bytes(), &message.time.to_be_bytes()].concat()
}

// ---- replays

/// What a replay lists, and the refusal that ends it, if one does.
#[derive(PartialEq)]
struct Replay {
    listed: Vec<u8>,
    refusal: Option<u8>,
}

/// `replay TABLE LISTING HEX`
pub fn answer_replay(words: &mut Words) -> Option<String> {
    let (table, listing) = (words.number(MOST_TABLE)? as usize, words.number(MOST_ROOM)? as usize);
    let messages = match judged(table, &words.bytes()?) {
        Ok(messages) => messages,
        Err(refusal) => return Some(format!("refused {refusal} 0 - untouched kept")),
    };
    // all places are unused when a replay begins
    let mut places = vec![0; TABLE];
    let replay = replayed(&messages, listing, &mut places);
    if replay != by_history(&messages, listing) {
        return Some("at odds".into());
    }
    let end = places.iter().rposition(|&byte| byte != 0).map_or(0, |last| last + 1);
    let outcome = replay.refusal.map_or("replayed".into(), |refusal| format!("refused {refusal}"));
    Some(format!("{outcome} {} {} {} kept", replay.listed.len(), hex(&replay.listed), hex(&places[..end])))
}

/// 19 of the whole trace, the first bad datagram's own refusal, then 12 of the table.
fn judged(table: usize, trace: &[u8]) -> Judged<Vec<Heard>> {
    let mut messages = Vec::new();
    for message in traced(trace)? {
        let packet = read(&message.datagram)?;
        let kind = kind_number(packet.kind);
        messages.push(Heard { time: message.time, kind, id: packet.id, peer: message.peer });
    }
    demand(table >= TABLE, 12)?;
    Ok(messages)
}

/// Message by message: 21, then 12 of the listing, then what the table says.
fn replayed(messages: &[Heard], listing: usize, table: &mut [u8]) -> Replay {
    let mut listed = Vec::new();
    let mut before = 0;
    for message in messages {
        let room = demand(message.time >= before, 21).and_then(|()| demand(listed.len() < listing, 12));
        match room.and_then(|()| hear(before, message, table)) {
            Ok(Verdict::New(_)) => listed.push(NEW),
            Ok(Verdict::Duplicate) => listed.push(DUPLICATE),
            Ok(Verdict::Passed) => listed.push(PASSED),
            Err(refusal) => return Replay { listed, refusal: Some(refusal) },
        }
        before = message.time;
    }
    Replay { listed, refusal: None }
}

// ---- by the history

/// The listing on the messages alone, up to the first that is refused: 21 when its time is less than that of the one before, 12
/// when the listing has no place, or when it is new and 64 earlier new ones have not expired.
fn by_history(messages: &[Heard], listing: usize) -> Replay {
    let back = (1..messages.len()).find(|&at| messages[at].time < messages[at - 1].time);
    let mut listed = Vec::new();
    let mut new: Vec<&Heard> = Vec::new();
    for message in &messages[..back.unwrap_or(messages.len())] {
        // an earlier message is never later than this one here
        let unexpired = |earlier: &Heard| {
            let seconds = earlier.seconds().expect("what passes is not new");
            u64::from(message.time - earlier.time) < seconds
        };
        let verdict = match message.seconds() {
            None => PASSED,
            Some(_) if new.iter().any(|earlier| earlier.is_same(message) && unexpired(earlier)) => DUPLICATE,
            Some(_) => NEW,
        };
        let full = verdict == NEW && new.iter().filter(|earlier| unexpired(earlier)).count() >= PLACES;
        if listed.len() == listing || full {
            return Replay { listed, refusal: Some(12) };
        }
        listed.push(verdict);
        if verdict == NEW {
            new.push(message);
        }
    }
    Replay { listed, refusal: back.map(|_| 21) }
}
