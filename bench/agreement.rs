//! All sides read the same of a message, refuse the same of its beginnings, and write the datagram that it was read from.

#[cfg(libcoap)]
use crate::linked::libcoap;
use crate::linked::{floor, timed};
use crate::turns::{Room, MOST_NUMBERS};
use crate::{exported::now, Message};
use coap_lite::{MessageClass, MessageType, Packet};

pub fn check(name: &str, message: &Message) {
    let Message { datagram, flat, theirs } = message;
    assert_eq!(meaning_of_flat(flat, datagram), meaning(theirs), "{name}");
    assert_eq!(theirs.to_bytes_unlimited().unwrap(), *datagram, "{name}");
    assert_eq!(message.made(), *theirs, "{name}: made");
    let mut numbers = [0; MOST_NUMBERS];
    assert_eq!(floor::read(datagram, &mut numbers), 0, "{name}");
    assert_eq!(numbers[..flat.len()], *flat, "{name}");
    let writers: [(&str, &dyn Fn(&mut [u8]) -> u64); 5] = [
        ("flat", &|out| now::write(flat, datagram, out)),
        ("copy", &|out| now::copy(datagram, out)),
        ("packet", &|out| timed::packet_write(flat, datagram, out)),
        ("builder", &|out| timed::builder(flat, datagram, out)),
        ("C", &|out| floor::write(flat, datagram, out)),
    ];
    for (writer, write) in writers {
        let mut room = Room::new();
        let bytes = room.out();
        let length = write(bytes) as usize;
        assert_eq!(&bytes[..length], datagram, "{name}: {writer}");
    }
    #[cfg(libcoap)]
    {
        assert!(libcoap::parse(datagram), "{name}: libcoap");
        libcoap::parsed(datagram.len(), &mut numbers);
        assert_eq!(numbers[..flat.len()], *flat, "{name}: libcoap");
        assert!(libcoap::write(flat, datagram) && libcoap::agrees(flat, datagram), "{name}: libcoap");
    }
    let most = datagram.len().min(400);
    (0..=most).for_each(|end| check_beginning(name, &datagram[..end]));
    check_beginning(name, datagram);
}

/// All that walk over the first bytes of a message add up the same, or refuse them for the same.
fn check_beginning(name: &str, bytes: &[u8]) {
    let mut numbers = [0; MOST_NUMBERS];
    let answer = now::read(bytes, &mut numbers);
    assert_eq!(floor::read(bytes, &mut [0; MOST_NUMBERS]), answer, "{name}");
    let ranges = numbers[11..][..4 * numbers[10] as usize].iter().chain(&numbers[8..10]);
    let sum = if answer == 0 { ranges.map(|n| *n as u64).sum() } else { (1 << 32) + answer as u64 };
    assert_eq!(floor::walk(bytes), sum, "{name}: C");
    assert_eq!(timed::packet_read(bytes), sum, "{name}: packet");
    assert_eq!(timed::cursor(bytes), sum, "{name}: cursor");
}

type Meaning = ([u32; 4], Vec<u8>, Vec<(u32, Vec<u8>)>, Vec<u8>);

/// What a flat form means whose ranges all lie in the datagram: home 0.
fn meaning_of_flat(numbers: &[u32], datagram: &[u8]) -> Meaning {
    let part = |at: usize| {
        assert_eq!(numbers[at], 0);
        datagram[numbers[at + 1] as usize..][..numbers[at + 2] as usize].to_vec()
    };
    let options = (0..numbers[10] as usize).map(|i| (numbers[11 + 4 * i], part(12 + 4 * i))).collect();
    ([numbers[0], numbers[1], numbers[2], numbers[3]], part(4), options, part(7))
}

fn meaning(packet: &Packet) -> Meaning {
    let kind = match packet.header.get_type() {
        MessageType::Confirmable => 0,
        MessageType::NonConfirmable => 1,
        MessageType::Acknowledgement => 2,
        MessageType::Reset => 3,
    };
    let code: u8 = <MessageClass as Into<u8>>::into(packet.header.code);
    let head = [packet.header.get_version() as u32, kind, code as u32, packet.header.message_id as u32];
    let mut options = Vec::new();
    for (&number, values) in packet.options() {
        options.extend(values.iter().map(|value| (number as u32, value.clone())));
    }
    (head, packet.get_token().to_vec(), options, packet.payload.clone())
}
