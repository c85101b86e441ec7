//! Messages as frames on TCP, and back: docs/RULES.md, Frames. A section is one of RFC 8323.

use crate::strict_answers::{demand, read, written, Judged, MOST_BYTES};
use crate::words::{Words, MOST_ROOM};

/// `frame-out ROOM HEX`: the strict reader's refusals, then 12.
pub fn answer_out(words: &mut Words) -> Option<Judged<String>> {
    let (room, datagram) = (words.number(MOST_ROOM)?, words.bytes()?);
    Some(read(&datagram).and_then(|_| written(&frame_of(&datagram), room)))
}

/// `frame-back ROOM TYPE ID HEX`: 20, 10, the strict reader's refusals, then 12.
pub fn answer_back(words: &mut Words) -> Option<Judged<String>> {
    let (room, kind, id) = (words.number(MOST_ROOM)?, words.number(3)?, words.number(65535)?);
    let datagram = back(kind as u8, id as u16, &words.bytes()?);
    Some(datagram.and_then(|datagram| written(&datagram, room)))
}

/// 3.2: of a datagram's header, the token's length and the code stay; the length of what follows the token is new.
pub fn frame_of(datagram: &[u8]) -> Vec<u8> {
    let token_length = datagram[0] & 0xf;
    let rest = &datagram[4..];
    frame_claiming((rest.len() as u64).saturating_sub(token_length.into()), token_length, datagram[1], rest)
}

/// 3.2: a nibble of the length and one of the token's length, the length's extension, the code; then the rest: token, options,
/// marker and payload.
pub fn frame_claiming(length: u64, token_length: u8, code: u8, rest: &[u8]) -> Vec<u8> {
    let (nibble, extension) = match length {
        0..=12 => (length as u8, vec![]),
        13..=268 => (13, vec![(length - 13) as u8]),
        269..=65_804 => (14, ((length - 269) as u16).to_be_bytes().to_vec()),
        _ => (15, ((length - 65_805) as u32).to_be_bytes().to_vec()),
    };
    [&[nibble << 4 | token_length], &extension[..], &[code], rest].concat()
}

/// 20, then 10 of the datagram that the frame becomes, then what the strict reader refuses of it.
fn back(kind: u8, id: u16, frame: &[u8]) -> Judged<Vec<u8>> {
    let (first, rest) = frame.split_first().ok_or(20)?;
    let (nibble, token_length) = (first >> 4, first & 0xf);
    let (base, extension_length) = match nibble {
        13 => (13, 1),
        14 => (269, 2),
        15 => (65_805, 4),
        _ => (u64::from(nibble), 0),
    };
    let (extension, rest) = rest.split_at_checked(extension_length).ok_or(20)?;
    let length = base + extension.iter().fold(0, |number, &byte| number << 8 | u64::from(byte));
    let (&code, rest) = rest.split_first().ok_or(20)?;
    demand(rest.len() as u64 == u64::from(token_length) + length, 20)?;
    demand(4 + rest.len() <= MOST_BYTES, 10)?;
    let head = [1 << 6 | kind << 4 | token_length, code];
    let datagram = [&head, &id.to_be_bytes(), rest].concat();
    read(&datagram)?;
    Ok(datagram)
}
