//! Datagrams to be read step by step and messages to be built call by call, and all small ones.

use super::short::strings_over;
use super::varied::{length, Varied};
use crate::words::{hex, Parts, MOST_ROOM, STORE};

impl Varied {
    /// A datagram such as is read whole, now and then one of as many options as there may be, or of one more.
    pub fn steps(&mut self) -> String {
        let read = match self.random.below(24) {
            0 => self.full_read(),
            1 => self.crowded_read(),
            2 | 3 => self.last_number_read(),
            _ => self.read(),
        };
        stepped(&read)
    }

    pub fn long_steps(&mut self) -> String {
        let read = if self.random.one_in(2) { self.long_value_read() } else { self.long_payload_read() };
        stepped(&read)
    }

    /// A message with a fault or two half of the time. Code 0 that has no token lets the calls after the start be judged.
    pub fn build(&mut self) -> String {
        let mut parts = self.parts();
        if u8::from(parts.class) == 0 && !self.random.one_in(3) {
            parts.token.clear();
        }
        if self.random.one_in(5) {
            parts.options.clear();
        }
        let room = self.room_for_calls(&parts);
        for _ in 0..self.random.below(4).saturating_sub(1) {
            self.spoil(&mut parts);
        }
        format!("build {room} {}", parts.asked())
    }

    /// A value or a payload beside the longest, in a room beside what it takes or the largest.
    pub fn long_build(&mut self) -> String {
        let options = self.random.below(4);
        let mut parts = self.parts_of(options);
        if self.random.one_in(2) {
            let number = parts.options.last().map_or(0, |&(number, _)| number);
            let value = self.random.near(&[65_804]);
            parts.options.push((number, self.random.bytes(value)));
        } else {
            let payload = self.random.near(&[STORE]);
            parts.payload = self.random.bytes(payload);
        }
        let room = if self.random.one_in(2) { self.room_for_calls(&parts) } else { MOST_ROOM };
        format!("build {} {}", room.min(MOST_ROOM), parts.asked())
    }

    /// A room beside what all calls take together, or those up to some option; or the largest.
    fn room_for_calls(&mut self, parts: &Parts) -> u64 {
        let mut some = parts.clone();
        match self.random.below(8) {
            0 | 1 => (),
            2..=4 => {
                some.payload.clear();
                some.options.truncate(self.random.below(parts.options.len() + 1));
            }
            _ => return MOST_ROOM,
        }
        self.random.near(&[length(&some)]) as u64
    }
}

/// A request to read, as one to read step by step.
fn stepped(read: &str) -> String {
    read.replacen("read ", "steps ", 1)
}

/// Over bytes that tell, what follows a header, a token or an option; and every first byte. Of messages to be built, every
/// version, token, code and payload beside their bounds, each pair of numbers and each length beside a change of form, and
/// every room.
pub fn small(put: &mut dyn FnMut(String)) {
    const TELLING: [u8; 12] = [0x00, 0x01, 0x0d, 0x0e, 0x0f, 0x10, 0x61, 0xd0, 0xe0, 0xf0, 0xf1, 0xff];
    for (head, longest) in
        [("40010001", 3), ("4201000161ff", 2), ("40010001d10061", 3), ("40010001e0fee6", 3), ("40000001", 2)]
    {
        strings_over(&TELLING, longest, &mut |rest| put(format!("steps {head}{}", hex(rest).replace('-', ""))));
    }
    for first in 0..=255 {
        for tail in ["", "0001", "000161", "0001b161ff62", "000161626364656667680161ff"] {
            put(format!("steps {}{tail}", hex(&[first, 1])));
            put(format!("steps {}{tail}", hex(&[first, 0])));
        }
    }
    for version in 0..=5 {
        for token in 0..=17 {
            for class in ["Empty", "Reserved.0", "Request.Get"] {
                for rest in ["- -", "- 61", "11:- -", "11:61 61", "11:-,7:- 61"] {
                    put(format!("build 71000 {version} 0 {class} 1 zeros:{token} {rest}"));
                }
            }
        }
    }
    const NUMBERS: [u32; 14] = [0, 1, 11, 12, 13, 14, 267, 268, 269, 270, 524, 525, 65534, 65535];
    for (first, second) in NUMBERS.iter().flat_map(|first| NUMBERS.iter().map(move |second| (first, second))) {
        for length in [0, 1, 12, 13, 14, 268, 269, 270] {
            put(format!("build 71000 1 1 Response.Content 2 - {first}:-,{second}:zeros:{length} -"));
        }
    }
    for room in 0..=40 {
        for rest in ["- - -", "- - 61", "6162 11:61,11:-,12:3c 7a", "61 300:61,600:zeros:13 616263"] {
            put(format!("build {room} 1 0 Request.Get 1 {rest}"));
            put(format!("build {room} 1 0 Empty 1 {rest}"));
        }
    }
}
