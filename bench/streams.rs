//! Times thawing and converting of freeze streams, freezing, and path and query as text, at several sizes, beside memcpy of the
//! same bytes. A time is the least of many calls, in microseconds.

mod least;

use least::least;
use std::hint::black_box;

// A slice is a pointer and a length.
extern "C" {
    fn timed_thaw(
        new: bool,
        stream: *const u8,
        length: usize,
        list: *mut usize,
        places: usize,
        out: *mut u8,
        room: usize,
    ) -> usize;
    fn timed_convert(new: bool, stream: *const u8, length: usize, out: *mut u8, room: usize) -> usize;
    fn timed_freeze(new: bool, datagram: *const u8, length: usize, stream: *mut u8, room: usize) -> usize;
    fn timed_write(numbers: *const u32, count: usize, datagram: *const u8, length: usize, out: *mut u8, room: usize) -> usize;
    fn timed_read(text: *const u8, length: usize, edits: *mut u8, room: usize) -> usize;
}

// SAFETY, of all five: the pointers and lengths are those of slices, and the functions are proved to stay within them.
fn thaw(new: bool, stream: &[u8], list: &mut [usize], out: &mut [u8]) -> usize {
    unsafe { timed_thaw(new, stream.as_ptr(), stream.len(), list.as_mut_ptr(), list.len(), out.as_mut_ptr(), out.len()) }
}

fn convert(new: bool, stream: &[u8], out: &mut [u8]) -> usize {
    unsafe { timed_convert(new, stream.as_ptr(), stream.len(), out.as_mut_ptr(), out.len()) }
}

fn freeze(new: bool, datagram: &[u8], stream: &mut [u8]) -> usize {
    unsafe { timed_freeze(new, datagram.as_ptr(), datagram.len(), stream.as_mut_ptr(), stream.len()) }
}

fn write(numbers: &[u32], datagram: &[u8], out: &mut [u8]) -> usize {
    unsafe { timed_write(numbers.as_ptr(), numbers.len(), datagram.as_ptr(), datagram.len(), out.as_mut_ptr(), out.len()) }
}

fn read(text: &[u8], edits: &mut [u8]) -> usize {
    unsafe { timed_read(text.as_ptr(), text.len(), edits.as_mut_ptr(), edits.len()) }
}

fn main() {
    println!("{:>9}{:>9}{:>10}{:>10}{:>10}{:>10}{:>8}", "messages", "bytes", "thaw old", "to new", "to old", "memcpy", "ratio");
    for messages in [16, 256, 4096] {
        for bytes in [64, 1024] {
            streams(messages, bytes);
        }
    }
    println!("{:>9}{:>10}{:>10}", "bytes", "freeze", "memcpy");
    for bytes in [9, 64, 1024, 1280] {
        frozen(bytes);
    }
    println!("{:>9}{:>9}{:>10}{:>10}{:>10}{:>8}", "segments", "text", "write", "read", "memcpy", "ratio");
    for (segments, each) in [(1, 8), (8, 16), (64, 64), (128, 255)] {
        texts(segments, each);
    }
}

/// A GET of so many bytes: header, marker, payload.
fn datagram(bytes: usize) -> Vec<u8> {
    let mut message = vec![0x40, 0x01, 0x00, 0x01, 0xFF];
    message.extend((0..bytes - 5).map(|i| (i * 7 % 251) as u8));
    message
}

fn old_stream(messages: usize, datagram: &[u8]) -> Vec<u8> {
    let mut stream = Vec::new();
    for _ in 0..messages {
        stream.push(1);
        stream.extend([7; 18]);
        for chunk in datagram.chunks(30) {
            stream.extend([2, chunk.len() as u8]);
            stream.extend(chunk);
            stream.extend(vec![0; 30 - chunk.len()]);
        }
        stream.push(3);
    }
    stream
}

fn streams(messages: usize, bytes: usize) {
    let old = old_stream(messages, &datagram(bytes));
    let mut list = vec![0; 3 * messages];
    let mut out = vec![0; messages * bytes];
    let mut other = vec![0; old.len()];
    let mut back = vec![0; old.len()];
    assert_eq!(thaw(false, &old, &mut list, &mut out), messages);
    let there = convert(false, &old, &mut other);
    let new = other[..there].to_vec();
    assert_eq!(convert(true, &new, &mut back), old.len());
    assert!(back == old);
    let thawed = least(|| thaw(false, black_box(&old), black_box(&mut list), black_box(&mut out)) == messages);
    let to_new = least(|| convert(false, black_box(&old), black_box(&mut other)) == there);
    let to_old = least(|| convert(true, black_box(&new), black_box(&mut back)) == old.len());
    let copied = least(|| {
        black_box(&mut back).copy_from_slice(black_box(&old));
        true
    });
    println!("{messages:>9}{bytes:>9}{thawed:>10.1}{to_new:>10.1}{to_old:>10.1}{copied:>10.2}{:>8.0}", thawed / copied);
}

fn frozen(bytes: usize) {
    let message = datagram(bytes);
    let mut stream = vec![0; 1396];
    let size = 20 + 32 * bytes.div_ceil(30);
    let took = least(|| freeze(false, black_box(&message), black_box(&mut stream)) == size);
    let copied = least(|| {
        black_box(&mut stream)[..bytes].copy_from_slice(black_box(&message));
        true
    });
    println!("{bytes:>9}{took:>10.3}{copied:>10.3}");
}

fn texts(segments: usize, each: usize) {
    let store: Vec<u8> = (0..segments * each).map(|i| b'a' + (i % 26) as u8).collect();
    let mut numbers = vec![1, 0, 1, 1, 0, 0, 0, 0, 0, 0, segments as u32];
    for i in 0..segments {
        numbers.extend([11, 0, (i * each) as u32, each as u32]);
    }
    let length = segments * (each + 1);
    let mut text = vec![0; length];
    let mut edits = vec![0; store.len()];
    assert_eq!(write(&numbers, &store, &mut text), length);
    assert_eq!(read(&text, &mut edits), segments);
    assert!(edits == store);
    let wrote = least(|| write(black_box(&numbers), black_box(&store), black_box(&mut text)) == length);
    let took = least(|| read(black_box(&text), black_box(&mut edits)) == segments);
    let copied = least(|| {
        black_box(&mut edits).copy_from_slice(black_box(&store));
        true
    });
    println!("{segments:>9}{length:>9}{wrote:>10.2}{took:>10.2}{copied:>10.3}{:>8.0}", took / copied);
}
