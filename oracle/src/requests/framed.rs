//! Datagrams to be converted to frames, and frames to be converted back: good ones and damaged ones.

use super::varied::Varied;
use crate::frames::{frame_claiming, frame_of};
use crate::words::{hex, MOST_ROOM, STORE};
use coap_lite::MessageClass;

/// Lengths beside which the form of a frame's length changes, the last of which few requests have.
const FORMS: [usize; 4] = [12, 13, 268, 269];
const LONG_FORM: usize = 65_805;

impl Varied {
    pub fn frame(&mut self) -> String {
        let datagram = match self.random.below(16) {
            0..=8 => self.well_formed(),
            9 | 10 => self.stream(),
            11..=13 => self.damaged(),
            14 => self.full_datagram(),
            _ => self.random.up_to(8),
        };
        if datagram.len() < 4 || self.random.one_in(3) {
            return self.out(&datagram);
        }
        let frame = match self.random.below(4) {
            0 | 1 => frame_of(&datagram),
            2 => self.frame_with_another_length(&datagram),
            _ => self.damaged_frame(&datagram),
        };
        self.back(&frame)
    }

    /// Lengths beside the last form, and datagrams beside the longest.
    pub fn long_frame(&mut self) -> String {
        let mut datagram = self.well_formed();
        let header = 4 + usize::from(datagram[0] & 0xf);
        let length = self.random.of(&[LONG_FORM + header, STORE]);
        let length = self.random.near(&[length]);
        datagram.truncate(header);
        datagram.push(0xff);
        datagram.resize(length, 0x61);
        if self.random.one_in(2) {
            return self.out(&datagram);
        }
        let frame = if self.random.one_in(3) { self.frame_with_another_length(&datagram) } else { frame_of(&datagram) };
        self.back(&frame)
    }

    /// The layout of a message that strict reading accepts, most often.
    pub fn well_formed(&mut self) -> Vec<u8> {
        let mut parts = self.parts();
        parts.version = 1;
        parts.token.truncate(8);
        if u8::from(parts.class) == 0 {
            if self.random.one_in(2) {
                return vec![0x40, 0x00, self.random.byte(), self.random.byte()];
            }
            parts.class = MessageClass::from(self.random.byte());
        }
        if self.random.one_in(3) {
            parts.payload.clear();
            let length = parts.datagram().len() - 4 - parts.token.len();
            let missing = self.random.near(&FORMS).saturating_sub(length + 1);
            parts.payload = self.random.bytes(missing);
        }
        parts.datagram()
    }

    /// A length that is off by little, by the token or by 2^32, which 32 bits can't tell from none.
    fn frame_with_another_length(&mut self, datagram: &[u8]) -> Vec<u8> {
        let token_length = datagram[0] & 0xf;
        let rest = &datagram[4..];
        let length = rest.len().saturating_sub(token_length.into());
        let claimed = match self.random.below(6) {
            0 => length + (1 << 32),
            1 => rest.len(),
            2 => rest.len() + 1,
            _ => self.random.near(&[length]),
        };
        frame_claiming(claimed as u64, token_length, datagram[1], rest)
    }

    fn damaged_frame(&mut self, datagram: &[u8]) -> Vec<u8> {
        const TELLING: [u8; 10] = [0x00, 0x01, 0x09, 0x10, 0x61, 0xc0, 0xd0, 0xe0, 0xf0, 0xff];
        let mut frame = frame_of(datagram);
        let at = self.random.below(frame.len().min(12));
        match self.random.below(6) {
            0 => frame.truncate(at),
            1 => frame.push(self.random.of(&TELLING)),
            2 => drop(frame.pop()),
            3 => frame.insert(at, self.random.of(&TELLING)),
            4 => frame[at] = self.random.of(&TELLING),
            _ => frame[at] ^= 1 << self.random.below(8),
        }
        frame
    }

    fn out(&mut self, datagram: &[u8]) -> String {
        let aim = if datagram.len() < 4 { 2 } else { frame_of(datagram).len() };
        format!("frame-out {} {}", self.room_beside(aim), hex(datagram))
    }

    fn back(&mut self, frame: &[u8]) -> String {
        let room = self.room_beside(frame.len() + 2);
        let (kind, id) = (self.random.below(4), self.random.wide(16));
        format!("frame-back {room} {kind} {id} {}", hex(frame))
    }

    fn room_beside(&mut self, length: usize) -> u64 {
        match self.random.below(8) {
            0 | 1 => self.random.near(&[length]) as u64,
            2 => self.random.below(8) as u64,
            _ => MOST_ROOM,
        }
    }
}
