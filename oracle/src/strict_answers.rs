//! The answers that coap-lite can't give, or not all of them: strict messages and blocks here, the other subjects in files
//! of their own. They are the rules written a second time, straight from the documents: "Rules" is docs/RULES.md, the
//! refusals' numbers and order are those of docs/REFUSALS.md, a section is one of RFC 7252 unless another is named. Code
//! bytes' names, the list of content formats and what plain writing answers after 10 and 11 are coap-lite's.

use crate::raw::{Raw, MOST_OPTIONS};
use crate::uints::Uint;
use crate::words::{hex, kind, kind_number, number, yes, Parts, Words, DEFAULT_LIMIT, LONGEST_LINE, MOST_ROOM};
use crate::{
    builds, compaction, counts, edits, frames, freezing, getters, plain_answers, plans, register, replays, steps,
    targets, uints,
};
use coap_lite::MessageClass;

/// Rules, Packets: the most bytes of a datagram or a store.
pub const MOST_BYTES: usize = 70_000;
/// RFC 7959 2.2: a block's number has at most 20 bits.
const LARGEST_BLOCK_NUMBER: u64 = 0xf_ffff;

/// What is asked for, or the number of a refusal.
pub type Judged<T> = Result<T, u8>;

pub fn demand(holds: bool, refusal: u8) -> Judged<()> {
    holds.then_some(()).ok_or(refusal)
}

pub fn answer(line: &[u8]) -> String {
    match answer_request(line) {
        Some(Ok(answer)) => answer,
        Some(Err(refusal)) => format!("refused {refusal}"),
        None => "no request".into(),
    }
}

fn answer_request(line: &[u8]) -> Option<Judged<String>> {
    if line.len() > LONGEST_LINE {
        return None;
    }
    let mut words = Words::of(line);
    let answer = match words.word()? {
        b"read-strict" => read(&words.bytes()?).map(|packet| packet.shown()),
        b"write-strict" => write(limit(words.word()?)?, words.number(MOST_ROOM)?, &Raw::named(&mut words)?),
        b"write-raw" => kept(write_plain(limit(words.word()?)?, words.number(MOST_ROOM)?, &Raw::of(&mut words)?)),
        b"write-raw-strict" => kept(write(limit(words.word()?)?, words.number(MOST_ROOM)?, &Raw::of(&mut words)?)),
        b"steps" => steps::answer(false, &mut words)?,
        b"steps-strict" => steps::answer(true, &mut words)?,
        b"build" => Ok(builds::answer(false, &mut words)?),
        b"build-strict" => Ok(builds::answer(true, &mut words)?),
        b"block-new-strict" => block_new(words.number(u64::MAX)?, words.flag()?, words.number(u64::MAX)?),
        b"block-read" => plain_block_read(&words.bytes()?),
        b"block-read-strict" => block_read(&words.bytes()?),
        b"block-write-strict" => {
            let (room, number) = (words.number(MOST_ROOM)?, words.number(u32::MAX.into())?);
            block_write(room, number, words.flag()?, words.byte()?)
        }
        b"block-size-strict" => block_size(words.byte()?).map(|size| format!("size {size}")),
        b"uint-read" => uints::shown(width(words.word()?)?, &words.bytes()?),
        b"to-uint" => uints::shown(words.number(u64::MAX)?, &words.bytes()?),
        // of a script, the counts alone are ours
        b"edit" => return Some(Ok(counts::put_in(line, plain_answers::answer(line)))),
        b"plan" => kept(plans::answer_plan(&mut words)?),
        b"plan-check" => plans::answer_check(&mut words)?,
        b"frame-out" => kept(frames::answer_out(&mut words)?),
        b"frame-back" => kept(frames::answer_back(&mut words)?),
        b"freeze" => kept(freezing::answer_freeze(&mut words)?),
        b"thaw" => kept(freezing::answer_thaw(&mut words)?),
        b"convert" => kept(freezing::answer_convert(&mut words)?),
        b"hear" => kept(replays::answer_hear(&mut words)?),
        b"replay" => Ok(replays::answer_replay(&mut words)?),
        b"target-write" => kept(targets::answer_write(&mut words)?),
        b"target-read" => Ok(targets::answer_read(&mut words)?),
        b"register" => register::check(&Raw::named(&mut words)?),
        b"register-raw" => register::check(&Raw::of(&mut words)?),
        b"get-raw" => Ok(getters::answer(&mut words)?),
        b"compact" => Ok(compaction::answer(&mut words)?),
        // what follows a step that is refused isn't looked at
        b"edit-raw" => return Some(Ok(edits::answer(&mut words)?)),
        b"properties" => Ok(register::properties(words.option_number()?).map(yes).join(" ")),
        _ => return None,
    };
    words.end()?;
    Some(answer)
}

fn width(word: &[u8]) -> Option<u64> {
    number(word, 8).filter(|width| matches!(width, 1 | 2 | 4 | 8))
}

/// No rule changes what isn't written: nothing after a refusal, and nothing behind what was written.
fn kept(answer: Judged<String>) -> Judged<String> {
    let answer = answer.unwrap_or_else(|refusal| format!("refused {refusal}"));
    Ok(format!("{answer} kept"))
}

/// 12 is the last refusal of every order.
pub fn written(bytes: &[u8], room: u64) -> Judged<String> {
    demand(bytes.len() as u64 <= room, 12)?;
    Ok(format!("written {} {}", bytes.len(), hex(bytes)))
}

// ---- reading

/// 3, in the order of Rules, Reading: 10, 1, 7, 2, 8, the options, 9.
pub fn read(datagram: &[u8]) -> Judged<Parts> {
    demand(datagram.len() <= MOST_BYTES, 10)?;
    demand(datagram.len() >= 4, 1)?;
    let (version, token_length, code) = (datagram[0] >> 6, usize::from(datagram[0] & 0xf), datagram[1]);
    demand(version == 1, 7)?;
    demand(token_length <= 8 && 4 + token_length <= datagram.len(), 2)?;
    // 4.1: an empty message ends after its id
    demand(code != 0 || datagram.len() == 4 && token_length == 0, 8)?;
    let mut rest = &datagram[4 + token_length..];
    let options = read_options(&mut rest)?;
    // 3: a marker without a payload behind it is a format error
    demand(rest != [0xff], 9)?;
    Ok(Parts {
        version,
        kind: kind(datagram[0] >> 4 & 3).expect("two bits"),
        class: MessageClass::from(code),
        id: u16::from_be_bytes([datagram[2], datagram[3]]),
        token: datagram[4..4 + token_length].to_vec(),
        options,
        payload: rest.get(1..).unwrap_or(&[]).to_vec(),
    })
}

/// 3.1, in the order of Rules, Reading. What is left starts with the marker, or has no bytes.
fn read_options(rest: &mut &[u8]) -> Judged<Vec<(u16, Vec<u8>)>> {
    let mut options = Vec::new();
    let mut number = 0;
    while !rest.is_empty() && rest[0] != 0xff {
        let first = take(rest, 1)?[0];
        let (high, low) = (first >> 4, first & 0xf);
        let delta = read_extended(high, rest)?;
        demand(high != 15 && delta <= 65535, 3)?;
        let length = read_extended(low, rest)?;
        demand(low != 15, 4)?;
        number += delta;
        demand(number <= 65535, 3)?;
        let value = take(rest, length)?;
        demand(options.len() < MOST_OPTIONS, 6)?;
        options.push((number as u16, value.to_vec()));
    }
    Ok(options)
}

/// 3.1: the number that a nibble stands for, with its extension; 15 has none.
fn read_extended(nibble: u8, rest: &mut &[u8]) -> Judged<usize> {
    Ok(match nibble {
        13 => 13 + usize::from(take(rest, 1)?[0]),
        14 => {
            let extension = take(rest, 2)?;
            269 + 256 * usize::from(extension[0]) + usize::from(extension[1])
        }
        _ => usize::from(nibble),
    })
}

/// The next bytes of an option; 4 where they run past the end.
fn take<'a>(rest: &mut &'a [u8], count: usize) -> Judged<&'a [u8]> {
    demand(count <= rest.len(), 4)?;
    let (taken, left) = rest.split_at(count);
    *rest = left;
    Ok(taken)
}

// ---- writing

/// Rules, Writing: by default, as 4.6 suggests, 1,152; or a given one, or none, which is here more than there are bytes to
/// write.
fn limit(word: &[u8]) -> Option<u64> {
    match word {
        b"default" => Some(DEFAULT_LIMIT as u64),
        b"none" => Some(u64::MAX),
        given => number(given, u64::MAX),
    }
}

/// 3, in the order of Rules, Writing: 10, 11, 7, 2, 8, 5, 12.
fn write(limit: u64, room: u64, packet: &Raw) -> Judged<String> {
    written(&layout(limit, packet)?, room)
}

/// What is written, or what is refused before 12.
pub fn layout(limit: u64, packet: &Raw) -> Judged<Vec<u8>> {
    packet.judge()?;
    let packet = packet.meaning();
    demand(packet.version == 1, 7)?;
    demand(packet.token.len() <= 8, 2)?;
    // 4.1: an empty message carries nothing
    let code = u8::from(packet.class);
    demand(code != 0 || packet.token.is_empty() && packet.options.is_empty() && packet.payload.is_empty(), 8)?;
    let mut bytes = vec![1 << 6 | kind_number(packet.kind) << 4 | packet.token.len() as u8, code];
    bytes.extend(packet.id.to_be_bytes());
    bytes.extend(&packet.token);
    let mut before = 0;
    for (number, value) in &packet.options {
        bytes.extend(option_bytes(number - before, value));
        before = *number;
    }
    if !packet.payload.is_empty() {
        bytes.push(0xff);
        bytes.extend(&packet.payload);
    }
    demand(bytes.len() as u64 <= limit, 5)?;
    Ok(bytes)
}

/// Rules, Writing, plain: 10 and 11; then coap-lite decides.
fn write_plain(limit: u64, room: u64, packet: &Raw) -> Judged<String> {
    packet.judge()?;
    Ok(plain_answers::write_packet(&packet.meaning().packet(), Some(limit as usize), room))
}

/// 3.1: a byte of two nibbles, the extension of each, the value.
pub fn option_bytes(delta: u16, value: &[u8]) -> Vec<u8> {
    let (delta, delta_extension) = extended(usize::from(delta));
    let (length, length_extension) = extended(value.len());
    [&[delta << 4 | length], &delta_extension[..], &length_extension, value].concat()
}

/// 3.1: the nibble of a number, and its extension.
fn extended(number: usize) -> (u8, Vec<u8>) {
    match number {
        0..=12 => (number as u8, Vec::new()),
        13..=268 => (13, vec![(number - 13) as u8]),
        _ => (14, ((number - 269) as u16).to_be_bytes().to_vec()),
    }
}

// ---- blocks (RFC 7959 2.2: NUM, M and SZX)

/// RFC 7959 2.2: the size is 2 to the power of SZX + 4, and SZX 7 is reserved.
fn block_size(exponent: u8) -> Judged<u64> {
    demand(exponent <= 6, 14)?;
    Ok(1 << (exponent + 4))
}

/// Rules, Blocks: 14, then 17.
fn block_new(number: u64, more: bool, size: u64) -> Judged<String> {
    let exponent = (0..=6).find(|&exponent| block_size(exponent) == Ok(size)).ok_or(14)?;
    demand(number <= LARGEST_BLOCK_NUMBER, 17)?;
    Ok(format!("block {number} {} {exponent}", u8::from(more)))
}

/// Rules, Blocks: 13, then 14, of up to 3 bytes.
fn block_read(value: &[u8]) -> Judged<String> {
    let uint = uints::read(3, value)?;
    block_size((uint.number & 7) as u8)?;
    Ok(block_shown(&uint))
}

/// Rules, Blocks: of up to 2 bytes, and with any exponent.
fn plain_block_read(value: &[u8]) -> Judged<String> {
    Ok(block_shown(&uints::read(2, value)?))
}

/// The low four bits of the value, a uint (3.2), are M and SZX.
fn block_shown(uint: &Uint) -> String {
    format!("block {} {} {} zeros {}", uint.number >> 4, uint.number >> 3 & 1, uint.number & 7, uint.zeros)
}

/// Rules, Blocks: 14, 17, then 12. 3.2: a uint has no leading zero bytes.
fn block_write(room: u64, number: u64, more: bool, exponent: u8) -> Judged<String> {
    block_size(exponent)?;
    demand(number <= LARGEST_BLOCK_NUMBER, 17)?;
    let uint = number << 4 | u64::from(more) << 3 | u64::from(exponent);
    written(&uints::shortest(uint), room)
}
