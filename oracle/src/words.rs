//! The words of requests and answers (numbers, bytes, classes, options and whole packets) and their limits.

use crate::raw::{homed_bytes, Home};
use coap_lite::{CoapOption, MessageClass, MessageType, Packet, RequestType, ResponseType};
use std::fmt::Write;
use std::sync::OnceLock;

/// A longer line is no request.
pub const LONGEST_LINE: usize = 200_000;
/// The most that a packet may count where a request names no limit. coap-lite has another default: with this one it is
/// asked by its given-limit form.
pub const DEFAULT_LIMIT: usize = 1_152;
/// The longest output that a request can lend.
pub const MOST_ROOM: u64 = 71_000;
/// The most bytes of a word `zeros:N`, and of each store of a packet that a request names by its parts.
const MOST_NAMED: u64 = 100_000;
/// The most values of a plan, and the most that a request can lend for one.
pub const MOST_VALUES: u64 = 40_000;
/// How many bytes the edit store of a script holds, and a datagram at most.
pub const STORE: usize = 70_000;

/// What is left of a line. Words stand one space apart, so a second space makes an empty word, which is no word of
/// any request.
pub struct Words<'a>(Option<&'a [u8]>);

impl<'a> Words<'a> {
    pub fn of(line: &'a [u8]) -> Self {
        Words(Some(line))
    }

    pub fn word(&mut self) -> Option<&'a [u8]> {
        let (word, rest) = split(self.0?, b' ');
        self.0 = rest;
        Some(word)
    }

    /// Nothing, if words are left.
    pub fn end(&self) -> Option<()> {
        self.0.is_none().then_some(())
    }

    pub fn number(&mut self, most: u64) -> Option<u64> {
        number(self.word()?, most)
    }

    pub fn byte(&mut self) -> Option<u8> {
        Some(self.number(255)? as u8)
    }

    pub fn flag(&mut self) -> Option<bool> {
        Some(self.number(1)? == 1)
    }

    pub fn bytes(&mut self) -> Option<Vec<u8>> {
        bytes(self.word()?)
    }

    pub fn class(&mut self) -> Option<MessageClass> {
        class(self.word()?)
    }

    pub fn option_number(&mut self) -> Option<u16> {
        Some(self.number(65535)? as u16)
    }

    pub fn kind(&mut self) -> Option<MessageType> {
        kind(self.byte()?)
    }

    /// Numbers with commas between, or `-`.
    pub fn numbers(&mut self, count: u64, most: u64) -> Option<Vec<u64>> {
        let word = self.word()?;
        if word == b"-" {
            return Some(Vec::new());
        }
        let numbers: Vec<u64> =
            word.split(|&byte| byte == b',').map(|word| number(word, most)).collect::<Option<_>>()?;
        (numbers.len() as u64 <= count).then_some(numbers)
    }

    /// A PACKET, wherever its values are.
    pub fn parts(&mut self) -> Option<Parts> {
        Some(self.homed_parts()?.0)
    }

    /// A PACKET, and the homes of its token, its values and its payload.
    pub fn homed_parts(&mut self) -> Option<(Parts, Vec<Home>)> {
        let (version, kind, class, id) = (self.byte()?, self.kind()?, self.class()?, self.number(65535)? as u16);
        let (token_home, token) = homed_bytes(self.word()?)?;
        let values = options_of(self.word()?, homed_bytes)?;
        let (payload_home, payload) = homed_bytes(self.word()?)?;
        let value_homes = values.iter().map(|&(_, (home, _))| home);
        let homes: Vec<Home> = [token_home].into_iter().chain(value_homes).chain([payload_home]).collect();
        let options = values.into_iter().map(|(number, (_, value))| (number, value)).collect();
        let parts = Parts { version, kind, class, id, token, options, payload };
        let fits = |home| parts.store_of(home, &homes) as u64 <= MOST_NAMED;
        (fits(Home::Datagram) && fits(Home::Edits)).then_some((parts, homes))
    }
}

/// A packet as a request names its parts.
#[derive(Clone)]
pub struct Parts {
    pub version: u8,
    pub kind: MessageType,
    pub class: MessageClass,
    pub id: u16,
    pub token: Vec<u8>,
    pub options: Vec<(u16, Vec<u8>)>,
    pub payload: Vec<u8>,
}

impl Parts {
    pub fn of(packet: &Packet) -> Self {
        let values = |(number, list): (&u16, &std::collections::LinkedList<Vec<u8>>)| {
            let number = *number;
            list.clone().into_iter().map(move |value| (number, value)).collect::<Vec<_>>()
        };
        Parts {
            version: packet.header.get_version(),
            kind: packet.header.get_type(),
            class: packet.header.code,
            id: packet.header.message_id,
            token: packet.get_token().to_vec(),
            options: packet.options().flat_map(values).collect(),
            payload: packet.payload.clone(),
        }
    }

    /// coap-lite's packet of these parts. It keeps the low two bits of the version.
    pub fn packet(&self) -> Packet {
        let mut packet = Packet::new();
        packet.header.set_version(self.version);
        packet.header.set_type(self.kind);
        packet.header.code = self.class;
        packet.header.message_id = self.id;
        packet.set_token(self.token.clone());
        for (number, value) in &self.options {
            packet.add_option(CoapOption::from(*number), value.clone());
        }
        packet.payload = self.payload.clone();
        packet
    }

    /// What coap-lite writes of these parts when no limit is given.
    pub fn datagram(&self) -> Vec<u8> {
        self.packet().to_bytes_unlimited().expect("there is no limit to exceed")
    }

    /// Token, values and payload.
    fn contents(&self) -> impl Iterator<Item = &[u8]> {
        let values = self.options.iter().map(|(_, value)| &value[..]);
        [&self.token[..]].into_iter().chain(values).chain([&self.payload[..]])
    }

    /// How many bytes the packet's stores have together.
    pub fn store(&self) -> usize {
        self.contents().map(<[u8]>::len).sum()
    }

    /// How many bytes are in one of the stores, by the homes of token, values and payload.
    fn store_of(&self, home: Home, homes: &[Home]) -> usize {
        self.contents().zip(homes).filter(|&(_, &its)| its == home).map(|(bytes, _)| bytes.len()).sum()
    }

    /// The words of a request, all bytes being in the datagram.
    pub fn asked(&self) -> String {
        self.asked_at(&mut || Home::Datagram)
    }

    /// The words of a request, with a home for the token, for each value and for the payload.
    pub fn asked_at(&self, home: &mut dyn FnMut() -> Home) -> String {
        let (version, kind, class) = (self.version, kind_number(self.kind), class_word(self.class));
        format!("{version} {kind} {class} {} {}", self.id, self.content_words(home))
    }

    /// The words of an answer, which has the code byte before the class.
    pub fn shown(&self) -> String {
        let (version, kind, class) = (self.version, kind_number(self.kind), class_word(self.class));
        let code = u8::from(self.class);
        let contents = self.content_words(&mut || Home::Datagram);
        format!("packet {version} {kind} {code} {class} {} {contents}", self.id)
    }

    fn content_words(&self, home: &mut dyn FnMut() -> Home) -> String {
        let mut word = |bytes: &[u8]| match home() {
            Home::Datagram => hex(bytes),
            Home::Edits => format!("e:{}", hex(bytes)),
        };
        let token = word(&self.token);
        let options: Vec<String> =
            self.options.iter().map(|(number, value)| format!("{number}:{}", word(value))).collect();
        format!("{token} {} {}", or_none(&options.join(",")), word(&self.payload))
    }
}

/// What stands before the first such byte, and what after it if there is one.
fn split(text: &[u8], at: u8) -> (&[u8], Option<&[u8]>) {
    match text.iter().position(|&byte| byte == at) {
        Some(end) => (&text[..end], Some(&text[end + 1..])),
        None => (text, None),
    }
}

pub fn number(word: &[u8], most: u64) -> Option<u64> {
    if word.is_empty() || word.len() > 20 || !word.iter().all(u8::is_ascii_digit) {
        return None;
    }
    let number: u64 = std::str::from_utf8(word).ok()?.parse().ok()?;
    (number <= most).then_some(number)
}

pub fn bytes(word: &[u8]) -> Option<Vec<u8>> {
    if word == b"-" {
        return Some(Vec::new());
    }
    if let Some(count) = word.strip_prefix(b"zeros:") {
        return Some(vec![0; number(count, MOST_NAMED)? as usize]);
    }
    if word.is_empty() || word.len() % 2 == 1 {
        return None;
    }
    word.chunks(2).map(|pair| Some(digit(pair[0])? * 16 + digit(pair[1])?)).collect()
}

fn digit(byte: u8) -> Option<u8> {
    match byte {
        b'0'..=b'9' => Some(byte - b'0'),
        b'a'..=b'f' => Some(byte - b'a' + 10),
        _ => None,
    }
}

pub fn hex(bytes: &[u8]) -> String {
    const DIGITS: &[u8; 16] = b"0123456789abcdef";
    let digits = bytes.iter().flat_map(|byte| [byte / 16, byte % 16]);
    or_none(&digits.map(|digit| char::from(DIGITS[usize::from(digit)])).collect::<String>())
}

pub fn or_none(word: &str) -> String {
    if word.is_empty() {
        "-".into()
    } else {
        word.into()
    }
}

pub fn yes(is: bool) -> String {
    if is { "yes" } else { "no" }.into()
}

/// `NUMBER:HEX` with commas between, or `-`.
pub fn options(word: &[u8]) -> Option<Vec<(u16, Vec<u8>)>> {
    options_of(word, bytes)
}

/// A number, a colon and the word of a value, with commas between; or `-`.
fn options_of<T>(word: &[u8], value: fn(&[u8]) -> Option<T>) -> Option<Vec<(u16, T)>> {
    if word == b"-" {
        return Some(Vec::new());
    }
    let option = |text: &[u8]| {
        let (left, right) = split(text, b':');
        Some((number(left, 65535)? as u16, value(right?)?))
    };
    word.split(|&byte| byte == b',').map(option).collect()
}

/// A class as the enum names it, with a dot for what it holds.
pub fn class_word(class: MessageClass) -> String {
    let mut word = String::new();
    write!(word, "{class:?}").expect("a string takes all");
    word.replace('(', ".").replace(')', "")
}

/// The classes that have a name of their own, `Reserved` apart.
pub fn named_classes() -> &'static [(String, MessageClass)] {
    static CLASSES: OnceLock<Vec<(String, MessageClass)>> = OnceLock::new();
    CLASSES.get_or_init(|| {
        let unknown = [MessageClass::Request(RequestType::UnKnown), MessageClass::Response(ResponseType::UnKnown)];
        (0..=255)
            .map(MessageClass::from)
            .filter(|class| !matches!(class, MessageClass::Reserved(_)))
            .chain(unknown)
            .map(|class| (class_word(class), class))
            .collect()
    })
}

fn class(word: &[u8]) -> Option<MessageClass> {
    if let Some(byte) = word.strip_prefix(b"Reserved.") {
        return Some(MessageClass::Reserved(number(byte, 255)? as u8));
    }
    let (_, class) = named_classes().iter().find(|(name, _)| name.as_bytes() == word)?;
    Some(*class)
}

const KINDS: [MessageType; 4] =
    [MessageType::Confirmable, MessageType::NonConfirmable, MessageType::Acknowledgement, MessageType::Reset];

pub fn kind(number: u8) -> Option<MessageType> {
    KINDS.get(usize::from(number)).copied()
}

pub fn kind_number(kind: MessageType) -> u8 {
    match kind {
        MessageType::Confirmable => 0,
        MessageType::NonConfirmable => 1,
        MessageType::Acknowledgement => 2,
        MessageType::Reset => 3,
    }
}
