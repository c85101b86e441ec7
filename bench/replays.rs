//! Times the replay of traces of several lengths and kinds, beside memcpy of the same bytes, and one message heard over a table. A time
//! is the least of many calls, in microseconds.

mod least;

use least::least;
use std::hint::black_box;

const TABLE: usize = 1600;

/// Calls that are timed together, since one is shorter than a clock tells.
const CALLS: usize = 100;

// A slice is a pointer and a length.
extern "C" {
    fn timed_replay(
        trace: *const u8,
        length: usize,
        table: *mut u8,
        places: usize,
        listing: *mut u8,
        room: usize,
    ) -> usize;
    fn timed_hear(table: *mut u8, places: usize, time: u32, id: u16) -> u8;
}

// SAFETY, of both: the pointers and lengths are those of slices, and the functions are proved to stay within them.
fn replay(trace: &[u8], table: &mut [u8], listing: &mut [u8]) -> usize {
    unsafe {
        timed_replay(trace.as_ptr(), trace.len(), table.as_mut_ptr(), table.len(), listing.as_mut_ptr(), listing.len())
    }
}

fn hear(table: &mut [u8], time: u32, id: u16) -> u8 {
    unsafe { timed_hear(table.as_mut_ptr(), table.len(), time, id) }
}

/// A message of the new form with its time: a confirmable GET of so many bytes.
fn message(time: u32, id: u16, bytes: usize) -> Vec<u8> {
    let mut datagram = vec![0x40, 0x01, (id >> 8) as u8, id as u8];
    if bytes > 4 {
        datagram.push(0xFF);
        datagram.resize(bytes, 7);
    }
    let mut made = vec![8];
    made.extend(time.to_be_bytes());
    made.push(1);
    made.extend([7; 18]);
    for chunk in datagram.chunks(64) {
        made.push(if chunk.len() == 64 { 4 } else { 128 + chunk.len() as u8 });
        made.extend(chunk);
    }
    made.push(3);
    made
}

/// A trace of so many messages, by the time and the id of each.
fn trace(messages: u32, bytes: usize, of: fn(u32) -> (u32, u16)) -> Vec<u8> {
    (0..messages)
        .flat_map(|i| {
            let (time, id) = of(i);
            message(time, id, bytes)
        })
        .collect()
}

fn replays(what: &str, messages: u32, bytes: usize, of: fn(u32) -> (u32, u16)) {
    let trace = trace(messages, bytes, of);
    let mut table = vec![0; TABLE];
    let mut listing = vec![0; messages as usize];
    let mut copy = vec![0; trace.len()];
    assert_eq!(replay(&trace, &mut table, &mut listing), messages as usize);
    let took = least(|| replay(black_box(&trace), black_box(&mut table), black_box(&mut listing)) == messages as usize);
    let copied = least(|| {
        black_box(&mut copy).copy_from_slice(black_box(&trace));
        true
    });
    let new = listing.iter().filter(|&&byte| byte == 1).count();
    println!(
        "{what:>24}{messages:>9}{bytes:>7}{new:>9}{took:>12.1}{:>10.1}{copied:>10.1}{:>8.0}",
        took * 1000.0 / messages as f64,
        took / copied
    );
}

/// One message over a table with so many unexpired entries: the last of them again, and an id that is not among them.
fn hears(entries: u16) {
    let mut full = vec![0; TABLE];
    for id in 0..entries {
        assert_eq!(hear(&mut full, 0, id), 1);
    }
    let known = least(|| (0..CALLS).all(|_| hear(black_box(&mut full), 1, entries - 1) == 2));
    // A full table refuses a new one; a table with a place left takes it, and the place is made unused again.
    let said = if entries == 64 { 0 } else { 1 };
    let place = entries as usize * 25;
    let fresh = least(|| {
        (0..CALLS).all(|_| {
            let answer = hear(black_box(&mut full), 1, 1000);
            if place < TABLE {
                full[place] = 0;
            }
            answer == said
        })
    });
    let each = |took: f64| took * 1000.0 / CALLS as f64;
    println!("{entries:>9}{:>12.0}{:>10.0}", each(known), each(fresh));
}

fn main() {
    println!(
        "{:>24}{:>9}{:>7}{:>9}{:>12}{:>10}{:>10}{:>8}",
        "trace", "messages", "bytes", "new", "replay", "ns each", "memcpy", "ratio"
    );
    for messages in [1_000, 10_000, 100_000] {
        replays("one duplicate for ever", messages, 4, |i| (i / 1_000, 5));
        replays("a new one every 10 s", messages, 4, |i| (10 * i, i as u16));
        replays("a new one every 4 s", messages, 4, |i| (4 * i, i as u16));
        replays("the same, longer", messages, 200, |i| (4 * i, i as u16));
    }
    println!("{:>9}{:>12}{:>10}", "entries", "known, ns", "new, ns");
    for entries in [1, 16, 63, 64] {
        hears(entries);
    }
}
