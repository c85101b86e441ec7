//! Streams of frozen messages, written, read and converted, and traces: docs/RULES.md, Freeze streams and Replay.

use crate::plans::listed;
use crate::raw::Raw;
use crate::strict_answers::{demand, layout, read, written, Judged};
use crate::words::{hex, Words, MOST_ROOM, MOST_VALUES};

/// Kinds of records in both forms.
const PEER: u8 = 1;
const END: u8 = 3;
/// And in traces: the time of a message in seconds, 4 bytes, high byte first.
const TIME: u8 = 8;
/// 16 address bytes and 2 port bytes.
pub const PEER_BYTES: usize = 18;
/// A message's bytes are a strict datagram of 4 to so many.
const MOST_FROZEN: usize = 1_280;

/// The kinds of chunks that a stream has.
#[derive(Clone, Copy, PartialEq)]
pub enum Form {
    Old,
    New,
}

impl Form {
    fn of(words: &mut Words) -> Option<Form> {
        match words.word()? {
            b"old" => Some(Form::Old),
            b"new" => Some(Form::New),
            _ => None,
        }
    }

    fn other(self) -> Form {
        match self {
            Form::Old => Form::New,
            Form::New => Form::Old,
        }
    }

    /// How many bytes of a message a full chunk has.
    fn full(self) -> usize {
        match self {
            Form::Old => 30,
            Form::New => 64,
        }
    }
}

/// `freeze FORM ROOM START PEER PACKET`: the strict writer's refusals, then 12 of the stream after the start.
pub fn answer_freeze(words: &mut Words) -> Option<Judged<String>> {
    let form = Form::of(words)?;
    let (room, start) = (words.number(MOST_ROOM)?, words.number(u64::MAX)?);
    let peer = peer(words)?;
    let datagram = layout(MOST_FROZEN as u64, &Raw::named(words)?);
    Some(datagram.and_then(|datagram| written(&frozen(form, &peer, &datagram), room.checked_sub(start).ok_or(12)?)))
}

/// PEER
pub fn peer(words: &mut Words) -> Option<[u8; PEER_BYTES]> {
    words.bytes()?.try_into().ok()
}

/// `thaw FORM PLACES ROOM HEX`: 19 of the whole stream, the first bad datagram's own refusal, then 12 of either room.
pub fn answer_thaw(words: &mut Words) -> Option<Judged<String>> {
    let form = Form::of(words)?;
    let (places, room) = (words.number(MOST_VALUES)?, words.number(MOST_ROOM)?);
    let messages = thawed(form, &words.bytes()?);
    Some(messages.and_then(|messages| {
        let bytes: Vec<u8> = messages.iter().flat_map(|message| message.datagram.clone()).collect();
        demand(3 * messages.len() as u64 <= places && bytes.len() as u64 <= room, 12)?;
        Ok(format!("thawed {} {} {}", messages.len(), listed(&places_of(&messages)), hex(&bytes)))
    }))
}

/// `convert FORM ROOM HEX`: the refusals of thawing the stream, then 12. What is written is the same list in the other form.
pub fn answer_convert(words: &mut Words) -> Option<Judged<String>> {
    let form = Form::of(words)?;
    let (room, stream) = (words.number(MOST_ROOM)?, words.bytes()?);
    Some(thawed(form, &stream).and_then(|messages| {
        let message = |message: &Message| {
            let peer = &stream[message.peer..message.peer + PEER_BYTES];
            frozen(form.other(), peer, &message.datagram)
        };
        written(&messages.iter().flat_map(message).collect::<Vec<u8>>(), room)
    }))
}

/// A message is one kind 1, chunks, all of them full but perhaps the last, then one kind 3.
pub fn frozen(form: Form, peer: &[u8], datagram: &[u8]) -> Vec<u8> {
    let chunks: Vec<u8> = datagram.chunks(form.full()).flat_map(|bytes| chunk(form, bytes)).collect();
    [&[PEER], peer, &chunks, &[END]].concat()
}

/// Old: kind 2, a count and 30 bytes, unused ones zero. New: kind 4 and 64 bytes, or 128 + the count and fewer.
fn chunk(form: Form, bytes: &[u8]) -> Vec<u8> {
    let count = bytes.len() as u8;
    match form {
        Form::Old => [&[2, count], bytes, &vec![0; 30 - bytes.len()]].concat(),
        Form::New if count == 64 => [&[4], bytes].concat(),
        Form::New => [&[128 + count], bytes].concat(),
    }
}

/// A message, and where its peer starts in the stream.
struct Message {
    peer: usize,
    datagram: Vec<u8>,
}

/// For each message the peer's start in the stream, the datagram's start in the output and its length. Datagrams stand end to
/// end.
fn places_of(messages: &[Message]) -> Vec<u64> {
    let mut end = 0;
    let mut places = Vec::new();
    for message in messages {
        places.extend([message.peer, end, message.datagram.len()].map(|number| number as u64));
        end += message.datagram.len();
    }
    places
}

/// The messages of a stream, all of which strict reading accepts.
fn thawed(form: Form, stream: &[u8]) -> Judged<Vec<Message>> {
    let messages = messages(form, &records(form, stream)?)?;
    messages.iter().try_for_each(|message| read(&message.datagram).map(drop))?;
    Ok(messages)
}

/// A message of a trace with its time and its peer.
pub struct Traced {
    pub time: u32,
    pub peer: [u8; PEER_BYTES],
    pub datagram: Vec<u8>,
}

/// The messages of a trace, a stream of either form with a time before each message; 19 where it is neither.
pub fn traced(trace: &[u8]) -> Judged<Vec<Traced>> {
    traced_in(Form::Old, trace).or_else(|_| traced_in(Form::New, trace))
}

fn traced_in(form: Form, trace: &[u8]) -> Judged<Vec<Traced>> {
    let records = records(form, trace)?;
    let mut messages = Vec::new();
    let mut rest = &records[..];
    while let Some((first, more)) = rest.split_first() {
        let Record::Time(time) = *first else {
            return Err(19);
        };
        let (message, behind) = first_message(form, more)?;
        let peer = trace[message.peer..message.peer + PEER_BYTES].try_into().expect("a record of a peer has all of it");
        messages.push(Traced { time, peer, datagram: message.datagram });
        rest = behind;
    }
    Ok(messages)
}

/// A record: a time, a peer, by its start in the stream, the bytes that a chunk counts, or an end.
#[derive(Clone, Copy, PartialEq)]
enum Record<'a> {
    Time(u32),
    Peer(usize),
    Chunk(&'a [u8]),
    End,
}

/// One byte of kind and a body whose length the kind fixes, up to the end of the stream; 19 for any other, one of the other
/// form too. A time is a record of a trace alone: where no trace is asked for, none of the orders below has it.
fn records(form: Form, stream: &[u8]) -> Judged<Vec<Record<'_>>> {
    let mut records = Vec::new();
    let mut at = 0;
    while let Some(&kind) = stream.get(at) {
        let length = match (form, kind) {
            (_, PEER) => PEER_BYTES,
            (_, END) => 0,
            (_, TIME) => 4,
            (Form::Old, 2) => 1 + 30,
            (Form::New, 4) => 64,
            (Form::New, 129..=191) => usize::from(kind) - 128,
            _ => return Err(19),
        };
        let body = stream.get(at + 1..at + 1 + length).ok_or(19)?;
        records.push(match kind {
            PEER => Record::Peer(at + 1),
            END => Record::End,
            TIME => Record::Time(u32::from_be_bytes(body.try_into().expect("4 bytes"))),
            2 => Record::Chunk(counted(body)?),
            _ => Record::Chunk(body),
        });
        at += 1 + length;
    }
    Ok(records)
}

/// A count 1..30, and unused bytes that are zero.
fn counted(body: &[u8]) -> Judged<&[u8]> {
    let count = usize::from(body[0]);
    demand((1..=30).contains(&count), 19)?;
    let (used, unused) = body[1..].split_at(count);
    demand(unused.iter().all(|&byte| byte == 0), 19)?;
    Ok(used)
}

/// Messages one after the other; 19 for any order or message length outside the rule.
fn messages(form: Form, records: &[Record]) -> Judged<Vec<Message>> {
    let mut messages = Vec::new();
    let mut rest = records;
    while !rest.is_empty() {
        let (message, behind) = first_message(form, rest)?;
        messages.push(message);
        rest = behind;
    }
    Ok(messages)
}

/// The message that records begin with, and those behind it.
fn first_message<'a, 'b>(form: Form, records: &'a [Record<'b>]) -> Judged<(Message, &'a [Record<'b>])> {
    let Some((Record::Peer(peer), more)) = records.split_first() else {
        return Err(19);
    };
    let end = more.iter().position(|&record| record == Record::End).ok_or(19)?;
    Ok((Message { peer: *peer, datagram: joined(form, &more[..end])? }, &more[end + 1..]))
}

/// What stands between peer and end: chunks, all of them full but perhaps the last, of 4 to 1,280 bytes together.
fn joined(form: Form, records: &[Record]) -> Judged<Vec<u8>> {
    let mut datagram = Vec::new();
    for (index, record) in records.iter().enumerate() {
        let Record::Chunk(bytes) = *record else {
            return Err(19);
        };
        demand(bytes.len() == form.full() || index == records.len() - 1, 19)?;
        datagram.extend(bytes);
    }
    demand((4..=MOST_FROZEN).contains(&datagram.len()), 19)?;
    Ok(datagram)
}
