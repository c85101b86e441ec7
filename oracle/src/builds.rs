//! A message built call by call in a lent room: docs/RULES.md, Building. What plain calls build is held to coap-lite's bytes of the
//! parts that they took.

use crate::raw::{LONGEST_TOKEN, LONGEST_VALUE, MOST_OPTIONS};
use crate::strict_answers::{demand, option_bytes, Judged, MOST_BYTES};
use crate::words::{hex, kind_number, options, Parts, Words, MOST_ROOM};
use coap_lite::MessageClass;

/// The most bytes of the token, the payload and the longest value together.
const MOST_TOGETHER: usize = 200_000;
/// The answer where the calls' bytes aren't coap-lite's.
const AT_ODDS: &str = "at odds";

/// `build ROOM VERSION TYPE CLASS ID TOKEN OPTIONS PAYLOAD`, `build-strict ..`
pub fn answer(strict: bool, words: &mut Words) -> Option<String> {
    let room = words.number(MOST_ROOM)? as usize;
    let parts = Parts {
        version: words.byte()?,
        kind: words.kind()?,
        class: words.class()?,
        id: words.number(65535)? as u16,
        token: words.bytes()?,
        options: options(words.word()?)?,
        payload: words.bytes()?,
    };
    let longest = parts.options.iter().map(|(_, value)| value.len()).max().unwrap_or(0);
    if MOST_TOGETHER < parts.token.len() + parts.payload.len() + longest {
        return None;
    }
    let mut building = Building { strict, room, class: parts.class, taken: 0, number: 0, bytes: Vec::new() };
    let verdict = building.calls(&parts);
    if !strict && !building.agrees(&parts) {
        return Some(AT_ODDS.into());
    }
    let bytes = hex(&building.bytes);
    Some(match verdict {
        Ok(()) => format!("built {} {bytes} kept", building.bytes.len()),
        Err(refusal) => format!("refused {refusal} {} {bytes} kept", building.taken),
    })
}

/// A message on its way: how many calls were taken, the last option's number, and the bytes.
struct Building {
    strict: bool,
    room: usize,
    class: MessageClass,
    taken: usize,
    number: u16,
    bytes: Vec<u8>,
}

impl Building {
    /// The first call that is refused ends the building.
    fn calls(&mut self, parts: &Parts) -> Judged<()> {
        self.start(parts)?;
        parts.options.iter().try_for_each(|(number, value)| self.option(*number, value))?;
        self.payload(&parts.payload)
    }

    /// 11, strict 7, strict 2, strict 8, 12. RFC 7252 3: the header and the token.
    fn start(&mut self, parts: &Parts) -> Judged<()> {
        demand(parts.version <= 3 && parts.token.len() as u64 <= LONGEST_TOKEN, 11)?;
        demand(!self.strict || parts.version == 1, 7)?;
        demand(!self.strict || parts.token.len() <= 8, 2)?;
        self.may_carry(parts.token.is_empty())?;
        let first = parts.version << 6 | kind_number(parts.kind) << 4 | parts.token.len() as u8;
        self.put(&[&[first, u8::from(parts.class)], &parts.id.to_be_bytes()[..], &parts.token].concat())
    }

    /// 11, strict 8, 12. The calls before this one are the start and the options before it.
    fn option(&mut self, number: u16, value: &[u8]) -> Judged<()> {
        demand(number >= self.number && value.len() as u64 <= LONGEST_VALUE && self.taken <= MOST_OPTIONS, 11)?;
        self.may_carry(false)?;
        self.put(&option_bytes(number - self.number, value))?;
        self.number = number;
        Ok(())
    }

    /// 10, strict 8, 12. Rules, Writing: plain drops the payload of class `Empty`, and a payload of no bytes has no marker.
    fn payload(&mut self, payload: &[u8]) -> Judged<()> {
        demand(payload.len() <= MOST_BYTES, 10)?;
        self.may_carry(payload.is_empty())?;
        if payload.is_empty() || self.class == MessageClass::Empty {
            return self.put(&[]);
        }
        self.put(&[&[0xff], payload].concat())
    }

    /// RFC 7252 4.1: strict, by the code byte, 0.00 carries nothing.
    fn may_carry(&self, nothing: bool) -> Judged<()> {
        demand(!self.strict || u8::from(self.class) != 0 || nothing, 8)
    }

    /// 12 comes last, and after it the call is taken.
    fn put(&mut self, bytes: &[u8]) -> Judged<()> {
        demand(self.bytes.len() + bytes.len() <= self.room, 12)?;
        self.bytes.extend(bytes);
        self.taken += 1;
        Ok(())
    }

    /// Whether the bytes are those that coap-lite writes of the parts that were taken.
    fn agrees(&self, parts: &Parts) -> bool {
        let Some(options) = self.taken.checked_sub(1) else {
            return self.bytes.is_empty();
        };
        let mut taken = parts.clone();
        if options <= parts.options.len() {
            taken.payload.clear();
        }
        taken.options.truncate(options);
        taken.datagram() == self.bytes
    }
}
