//! Times reading and writing by this tree and by an earlier one, on the same messages, and prints the ratio. A time is the least of
//! many short runs that take turns, in nanoseconds for one message; a ratio under 1 is in favour of this tree.

#[macro_use]
mod exported;
mod messages;
mod turns;

use exported::now;
use turns::{least, side, Room, MOST_NUMBERS};

exported!(before, "before_rickwinter_v2_read", "before_rickwinter_v2_write", "before_rickwinter_copy");

fn main() {
    println!("{:34}{:>27}{:>27}{:>27}", "", "read", "write", "read and write");
    println!("{:26}{:>8}{}", "message", "bytes", "      now   before    ratio".repeat(3));
    for (name, datagrams) in messages::cases() {
        measure(&name, &datagrams.into_iter().map(read_by_both).collect::<Vec<_>>());
    }
}

/// A datagram and its flat form, which both trees read, and write as it was.
fn read_by_both(datagram: Vec<u8>) -> (Vec<u8>, Vec<u32>) {
    let mut flat = vec![0; MOST_NUMBERS];
    let mut other = vec![0; MOST_NUMBERS];
    assert_eq!(now::read(&datagram, &mut flat), 0);
    assert_eq!(before::read(&datagram, &mut other), 0);
    assert_eq!(flat, other);
    flat.truncate(11 + 4 * flat[10] as usize);
    let writers: [&dyn Fn(&mut [u8]) -> u64; 4] = [
        &|out| now::write(&flat, &datagram, out),
        &|out| now::copy(&datagram, out),
        &|out| before::write(&flat, &datagram, out),
        &|out| before::copy(&datagram, out),
    ];
    for writer in writers {
        let mut room = Room::new();
        let bytes = room.out();
        let length = writer(bytes) as usize;
        assert_eq!(&bytes[..length], datagram);
    }
    (datagram, flat)
}

fn measure(name: &str, messages: &[(Vec<u8>, Vec<u32>)]) {
    let times = least(&[
        side(messages, |m, room| now::read(&m.0, &mut room.numbers)),
        side(messages, |m, room| before::read(&m.0, &mut room.numbers)),
        side(messages, |m, room| now::write(&m.1, &m.0, room.out())),
        side(messages, |m, room| before::write(&m.1, &m.0, room.out())),
        side(messages, |m, room| now::copy(&m.0, room.out())),
        side(messages, |m, room| before::copy(&m.0, room.out())),
    ]);
    let bytes: usize = messages.iter().map(|m| m.0.len()).sum();
    print!("{name:26}{:>8}", bytes / messages.len());
    for pair in times.chunks(2) {
        let [now, before] = [pair[0], pair[1]].map(|time| time / messages.len() as f64);
        print!("{now:>9.0}{before:>9.0}{:>9.2}", now / before);
    }
    println!();
}
