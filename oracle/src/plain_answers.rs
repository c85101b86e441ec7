//! coap-lite's answer to a request.

use crate::words::{bytes, class_word, hex, kind_number, number, or_none, yes, Parts, Words};
use crate::words::{DEFAULT_LIMIT, LONGEST_LINE, MOST_ROOM, STORE};
use crate::{builds, steps};
use coap_lite::block_value::BlockValue;
use coap_lite::error::{InvalidBlockValue, MessageError};
use coap_lite::option_value::{OptionValueString, OptionValueU16, OptionValueU32, OptionValueU64, OptionValueU8};
use coap_lite::{CoapOption, ContentFormat, Header, HeaderRaw, MessageClass, Packet};
use std::collections::LinkedList;
use std::panic;

/// The answer where coap-lite's types leave no way to ask.
const OUTSIDE: &str = "outside";

pub fn answer(line: &[u8]) -> String {
    if line.len() > LONGEST_LINE {
        return "no request".into();
    }
    match panic::catch_unwind(|| answer_request(line)) {
        Ok(Some(answer)) => answer,
        Ok(None) => "no request".into(),
        Err(_) => "panic".into(),
    }
}

fn answer_request(line: &[u8]) -> Option<String> {
    let mut words = Words::of(line);
    match words.word()? {
        b"read" => read(words),
        b"write" => write(words),
        b"edit" => edit(words),
        b"steps" => step_by_step(words),
        b"build" => call_by_call(words),
        b"uint-read" => uint_read(words),
        b"uint-write" => uint_write(words),
        b"text-read" => text_read(words),
        b"text-write" => text_write(words),
        b"header-read" => header_read(words),
        b"code-read" => code_read(words),
        b"code-write" => code_write(words),
        b"class-of" => class_of(words),
        b"byte-of" => byte_of(words),
        b"is-error" => is_error(words),
        b"block-new" => block_new(words),
        b"block-read" => block_read(words),
        b"block-write" => block_write(words),
        b"block-size" => block_size(words),
        b"is-option" => is_option(words),
        b"is-format" => is_format(words),
        b"read-strict"
        | b"write-strict"
        | b"steps-strict"
        | b"build-strict"
        | b"block-new-strict"
        | b"block-read-strict"
        | b"block-write-strict"
        | b"block-size-strict"
        | b"register"
        | b"write-raw"
        | b"write-raw-strict"
        | b"register-raw"
        | b"get-raw"
        | b"edit-raw"
        | b"compact"
        | b"properties"
        | b"plan"
        | b"plan-check"
        | b"frame-out"
        | b"frame-back"
        | b"freeze"
        | b"thaw"
        | b"convert"
        | b"target-write"
        | b"target-read" => Some(OUTSIDE.into()),
        _ => None,
    }
}

fn refused(number: u8) -> String {
    format!("refused {number}")
}

/// The output is never short in coap-lite, which makes it itself: the length that it has tells whether the room that
/// our caller lends is enough, and nothing is judged after that.
fn written(bytes: &[u8], room: u64) -> String {
    if bytes.len() as u64 > room {
        return refused(12);
    }
    format!("written {} {}", bytes.len(), hex(bytes))
}

// ---- packets

fn read(mut words: Words) -> Option<String> {
    let datagram = words.bytes()?;
    words.end()?;
    Some(read_datagram(&datagram).map_or_else(refused, |parts| parts.shown()))
}

/// What coap-lite reads, or the number of its refusal.
pub fn read_datagram(datagram: &[u8]) -> Result<Parts, u8> {
    Packet::from_bytes(datagram).map(|packet| Parts::of(&packet)).map_err(refusal_number)
}

/// The steps of the rules, held to coap-lite.
fn step_by_step(mut words: Words) -> Option<String> {
    let answer = steps::answer(false, &mut words)?;
    words.end()?;
    Some(answer.unwrap_or_else(refused))
}

/// The calls of the rules, held to coap-lite.
fn call_by_call(mut words: Words) -> Option<String> {
    let answer = builds::answer(false, &mut words)?;
    words.end()?;
    Some(answer)
}

/// The encoder's `InvalidHeader` has no number of its own, since nothing leads there: were it met, it would be told as a
/// reader's 1, which no writer answers.
fn refusal_number(error: MessageError) -> u8 {
    match error {
        MessageError::InvalidHeader => 1,
        MessageError::InvalidTokenLength => 2,
        MessageError::InvalidOptionDelta => 3,
        MessageError::InvalidOptionLength => 4,
        MessageError::InvalidPacketLength => 5,
    }
}

/// The limit that a word names, if it names one at all.
fn limit(word: &[u8]) -> Option<Option<usize>> {
    Some(match word {
        b"default" => Some(DEFAULT_LIMIT),
        b"none" => None,
        given => Some(number(given, u64::MAX)? as usize),
    })
}

fn write(mut words: Words) -> Option<String> {
    let limit = limit(words.word()?)?;
    let room = words.number(MOST_ROOM)?;
    let parts = words.parts()?;
    words.end()?;
    // a header of coap-lite has two bits for it
    if parts.version > 3 {
        return Some(OUTSIDE.into());
    }
    Some(write_packet(&parts.packet(), limit, room))
}

pub fn write_packet(packet: &Packet, limit: Option<usize>, room: u64) -> String {
    let answer = match limit {
        Some(limit) => packet.to_bytes_with_limit(limit),
        None => packet.to_bytes_unlimited(),
    };
    match answer {
        Ok(bytes) => written(&bytes, room),
        Err(error) => refused(refusal_number(error)),
    }
}

// ---- edit scripts

/// A packet on its way through a script, and how many bytes of the edit store its steps took.
struct Script {
    packet: Packet,
    used: usize,
}

/// What becomes of a step: coap-lite takes it or can't, or its bytes find no place in the edit store.
enum Step {
    Taken,
    Outside,
    NoRoom,
}

fn edit(mut words: Words) -> Option<String> {
    let start = words.word()?;
    let mut script = Script { packet: Packet::new(), used: 0 };
    if start != b"new" {
        let datagram = bytes(start)?;
        if datagram.len() > STORE {
            return Some(refused(10));
        }
        match Packet::from_bytes(&datagram) {
            Ok(packet) => script.packet = packet,
            Err(error) => return Some(refused(refusal_number(error))),
        }
    }
    let mut asked = Vec::new();
    while words.end().is_none() {
        if words.word()? != b";" {
            return None;
        }
        let name = words.word()?;
        if name == b"ask" {
            asked = ask(&script.packet, words.word()?)?;
            words.end()?;
        } else {
            match script.step(name, &mut words)? {
                Step::Taken => {}
                Step::Outside => return Some(OUTSIDE.into()),
                Step::NoRoom => return Some(refused(12)),
            }
        }
    }
    Some(edited(&script.packet, &asked))
}

impl Script {
    /// Whether the edit store has room for so many bytes more, which they then take.
    fn take(&mut self, bytes: usize) -> bool {
        self.used += bytes;
        self.used <= STORE
    }

    fn step(&mut self, name: &[u8], words: &mut Words) -> Option<Step> {
        match name {
            b"add" => {
                let (number, value) = (words.option_number()?, words.bytes()?);
                if !self.take(value.len()) {
                    return Some(Step::NoRoom);
                }
                self.packet.add_option(CoapOption::from(number), value);
            }
            b"set" => {
                let (number, values) = (words.option_number()?, values(words.word()?)?);
                if !self.take(values.iter().map(Vec::len).sum()) {
                    return Some(Step::NoRoom);
                }
                self.packet.set_option(CoapOption::from(number), values);
            }
            b"clear" => self.packet.clear_option(CoapOption::from(words.option_number()?)),
            b"clear-all" => self.packet.clear_all_options(),
            b"token" => {
                let token = words.bytes()?;
                if !self.take(token.len()) {
                    return Some(Step::NoRoom);
                }
                self.packet.set_token(token);
            }
            b"payload" => {
                let payload = words.bytes()?;
                if !self.take(payload.len()) {
                    return Some(Step::NoRoom);
                }
                self.packet.payload = payload;
            }
            b"content-format" => {
                let format = words.number(65535)? as u16;
                if !self.take(Vec::from(OptionValueU16(format)).len()) {
                    return Some(Step::NoRoom);
                }
                let Ok(format) = ContentFormat::try_from(usize::from(format)) else {
                    return Some(Step::Outside);
                };
                self.packet.set_content_format(format);
            }
            b"observe" => {
                let value = words.number(u32::MAX.into())? as u32;
                if !self.take(Vec::from(OptionValueU32(value)).len()) {
                    return Some(Step::NoRoom);
                }
                self.packet.set_observe_value(value);
            }
            b"compact" => return Some(self.compact()),
            b"version" => self.packet.header.set_version(words.byte()?),
            b"type" => self.packet.header.set_type(words.kind()?),
            b"class" => self.packet.header.code = words.class()?,
            b"id" => self.packet.header.message_id = words.number(65535)? as u16,
            _ => return None,
        }
        Some(Step::Taken)
    }
}

/// A longer value can't be compacted.
const LONGEST_VALUE: usize = 65_804;

impl Script {
    /// Nothing is dead in coap-lite's packet, which stays: its bytes are those that the edit store has then taken.
    fn compact(&mut self) -> Step {
        let parts = Parts::of(&self.packet);
        if parts.options.iter().any(|(_, value)| value.len() > LONGEST_VALUE) {
            return Step::Outside;
        }
        self.used = 0;
        if self.take(parts.store()) {
            Step::Taken
        } else {
            Step::NoRoom
        }
    }
}

/// `HEX,HEX,..`, or `none`.
fn values(word: &[u8]) -> Option<LinkedList<Vec<u8>>> {
    if word == b"none" {
        return Some(LinkedList::new());
    }
    word.split(|&byte| byte == b',').map(bytes).collect()
}

/// Presence, count and first value of each number that is asked for.
fn ask(packet: &Packet, numbers: &[u8]) -> Option<Vec<String>> {
    let one = |word: &[u8]| {
        let number = number(word, 65535)? as u16;
        let option = CoapOption::from(number);
        let present = yes(packet.get_option(option).is_some());
        let count = packet.get_option(option).map_or(0, LinkedList::len);
        let first = packet.get_first_option(option).map_or("-".into(), |value| hex(value));
        Some(format!("{number}:{present}:{count}:{first}"))
    };
    numbers.split(|&byte| byte == b',').map(one).collect()
}

fn edited(packet: &Packet, asked: &[String]) -> String {
    let shown = Parts::of(packet).shown();
    let format = packet.get_content_format();
    let format = format.map_or("none".into(), |format| usize::from(format).to_string());
    let observe = match packet.get_observe_value() {
        None => "none".into(),
        Some(Ok(value)) => value.to_string(),
        Some(Err(_)) => refused(13),
    };
    let asked = or_none(&asked.join(","));
    let limited = write_packet(packet, Some(DEFAULT_LIMIT), MOST_ROOM);
    let whole = write_packet(packet, None, MOST_ROOM);
    format!("{shown} format {format} observe {observe} asked {asked} default {limited} none {whole}")
}

// ---- uints and text

fn uint_read(mut words: Words) -> Option<String> {
    let width = words.number(8)?;
    let value = words.bytes()?;
    words.end()?;
    let number = match width {
        1 => OptionValueU8::try_from(value).map(|number| u64::from(number.0)),
        2 => OptionValueU16::try_from(value).map(|number| u64::from(number.0)),
        4 => OptionValueU32::try_from(value).map(|number| u64::from(number.0)),
        8 => OptionValueU64::try_from(value).map(|number| number.0),
        _ => return None,
    };
    Some(number.map_or(refused(13), |number| format!("number {number}")))
}

fn uint_write(mut words: Words) -> Option<String> {
    let (width, room) = (words.number(8)?, words.number(MOST_ROOM)?);
    let bytes = match width {
        1 => Vec::from(OptionValueU8(words.byte()?)),
        2 => Vec::from(OptionValueU16(words.number(u16::MAX.into())? as u16)),
        4 => Vec::from(OptionValueU32(words.number(u32::MAX.into())? as u32)),
        8 => Vec::from(OptionValueU64(words.number(u64::MAX)?)),
        _ => return None,
    };
    words.end()?;
    Some(written(&bytes, room))
}

fn text_read(mut words: Words) -> Option<String> {
    let value = words.bytes()?;
    words.end()?;
    let text = OptionValueString::try_from(value);
    Some(text.map_or(refused(15), |text| format!("text {}", hex(&Vec::from(text)))))
}

fn text_write(mut words: Words) -> Option<String> {
    let (room, value) = (words.number(MOST_ROOM)?, words.bytes()?);
    words.end()?;
    let text = OptionValueString::try_from(value);
    Some(text.map_or(OUTSIDE.into(), |text| written(&Vec::from(text), room)))
}

// ---- header

fn header_read(mut words: Words) -> Option<String> {
    let bytes = words.bytes()?;
    words.end()?;
    let Ok(raw) = HeaderRaw::try_from(&bytes[..]) else {
        return Some(refused(1));
    };
    let header = Header::from_raw(&raw);
    let (version, kind) = (header.get_version(), kind_number(header.get_type()));
    let (code, class) = (u8::from(header.code), class_word(header.code));
    let (token_length, id) = (header.get_token_length(), header.message_id);
    Some(format!("header {version} {kind} {token_length} {code} {class} {id}"))
}

fn code_read(mut words: Words) -> Option<String> {
    let text = words.bytes()?;
    words.end()?;
    let Ok(text) = std::str::from_utf8(&text) else {
        return Some(OUTSIDE.into());
    };
    let mut header = Header::new();
    header.set_code(text);
    Some(format!("class {}", class_word(header.code)))
}

fn code_write(mut words: Words) -> Option<String> {
    let room = words.number(MOST_ROOM)?;
    let mut header = Header::new();
    header.code = words.class()?;
    words.end()?;
    Some(written(header.get_code().as_bytes(), room))
}

fn class_of(mut words: Words) -> Option<String> {
    let byte = words.byte()?;
    words.end()?;
    Some(format!("class {}", class_word(MessageClass::from(byte))))
}

fn byte_of(mut words: Words) -> Option<String> {
    let class = words.class()?;
    words.end()?;
    Some(format!("byte {}", u8::from(class)))
}

fn is_error(mut words: Words) -> Option<String> {
    let MessageClass::Response(response) = words.class()? else {
        return None;
    };
    words.end()?;
    Some(yes(response.is_error()))
}

// ---- blocks

fn block(value: BlockValue) -> String {
    format!("block {} {} {}", value.num, u8::from(value.more), value.size_exponent)
}

fn block_new(mut words: Words) -> Option<String> {
    let number = words.number(u64::MAX)? as usize;
    let more = words.flag()?;
    let size = words.number(u64::MAX)? as usize;
    words.end()?;
    Some(match BlockValue::new(number, more, size) {
        Ok(value) => block(value),
        Err(InvalidBlockValue::SizeExponentEncodingError(_)) => refused(14),
        Err(InvalidBlockValue::TypeBoundsError(_)) => refused(17),
    })
}

fn block_read(mut words: Words) -> Option<String> {
    let value = words.bytes()?;
    words.end()?;
    Some(BlockValue::try_from(value).map_or(refused(13), block))
}

fn block_write(mut words: Words) -> Option<String> {
    let room = words.number(MOST_ROOM)?;
    let num = words.number(u16::MAX.into())? as u16;
    let more = words.flag()?;
    let size_exponent = words.byte()?;
    words.end()?;
    Some(written(&Vec::from(BlockValue { num, more, size_exponent }), room))
}

fn block_size(mut words: Words) -> Option<String> {
    let size_exponent = words.byte()?;
    words.end()?;
    let value = BlockValue { num: 0, more: false, size_exponent };
    Some(format!("size {}", value.size()))
}

// ---- tables

fn is_option(mut words: Words) -> Option<String> {
    let option = CoapOption::from(words.option_number()?);
    words.end()?;
    Some(yes(!matches!(option, CoapOption::Unknown(_))))
}

fn is_format(mut words: Words) -> Option<String> {
    let number = words.number(65535)? as usize;
    words.end()?;
    Some(yes(ContentFormat::try_from(number).is_ok()))
}
