//! Times compaction of packets with 1, 16 and 128 records and 1 KiB to 64 KiB of live bytes, beside memcpy of the same bytes.
//! A time is the least of many calls, in microseconds.

mod least;

use least::least;
use std::hint::black_box;

/// How many bytes the edit store and the second buffer have.
const STORE: usize = 70000;

// A slice is a pointer and a length.
extern "C" {
    fn timed_compact(
        numbers: *const u32,
        count: usize,
        datagram: *const u8,
        length: usize,
        edits: *mut u8,
        store: usize,
        second: *mut u8,
        room: usize,
    ) -> usize;
    fn timed_taken(numbers: *const u32, count: usize) -> usize;
}

fn compact(numbers: &[u32], datagram: &[u8], edits: &mut [u8], second: &mut [u8]) -> usize {
    // SAFETY: the pointers and lengths are those of slices, and the function is proved to stay within them.
    unsafe {
        timed_compact(
            numbers.as_ptr(),
            numbers.len(),
            datagram.as_ptr(),
            datagram.len(),
            edits.as_mut_ptr(),
            edits.len(),
            second.as_mut_ptr(),
            second.len(),
        )
    }
}

fn taken(numbers: &[u32]) -> usize {
    // SAFETY: as above.
    unsafe { timed_taken(numbers.as_ptr(), numbers.len()) }
}

fn main() {
    println!("{:>8}{:>8}{:>10}{:>10}{:>10}{:>8}", "records", "bytes", "packet", "compact", "memcpy", "ratio");
    for records in [1, 16, 128] {
        for bytes in [1024, 4096, 16384, 65536] {
            measure(records, bytes);
        }
    }
}

/// Values of equal length, from the last to the first: of even records in the datagram, of odd ones in the edit store.
fn flat(records: usize, each: usize) -> Vec<u32> {
    let mut numbers = vec![1, 0, 1, 1, 0, 0, 0, 0, 0, 0, records as u32];
    for i in 0..records {
        numbers.extend([11, (i % 2) as u32, ((records - 1 - i) * each) as u32, each as u32]);
    }
    numbers
}

fn measure(records: usize, bytes: usize) {
    let each = bytes / records;
    let numbers = flat(records, each);
    let datagram: Vec<u8> = (0..STORE).map(|i| (i * 7 % 251) as u8).collect();
    let mut edits: Vec<u8> = (0..STORE).map(|i| (i * 11 % 253) as u8).collect();
    let mut second = vec![0xAA; STORE];
    let live: Vec<u8> = (0..records)
        .flat_map(|i| {
            let start = (records - 1 - i) * each;
            let store = if i % 2 == 0 { &datagram } else { &edits };
            store[start..start + each].to_vec()
        })
        .collect();
    assert_eq!(compact(&numbers, &datagram, &mut edits, &mut second), bytes);
    assert!(edits[..bytes] == live[..] && second[..bytes] == live[..] && second[bytes..].iter().all(|b| *b == 0xAA));
    let packet = least(|| taken(black_box(&numbers)) == records);
    let compacted = least(|| compact(black_box(&numbers), black_box(&datagram), black_box(&mut edits), black_box(&mut second)) == bytes);
    let copied = least(|| {
        black_box(&mut second)[..bytes].copy_from_slice(&black_box(&live)[..bytes]);
        true
    });
    println!("{records:>8}{bytes:>8}{packet:>10.2}{compacted:>10.2}{copied:>10.2}{:>8.1}", compacted / copied);
}
