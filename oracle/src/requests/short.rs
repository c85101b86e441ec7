//! Every short input of every kind.

use super::{frozen, planned, ranged, stepped, traced, typed};
use crate::register::lengths;
use crate::words::{class_word, hex, named_classes};
use coap_lite::MessageClass;

pub fn all(put: &mut dyn FnMut(String)) {
    datagrams(put);
    uints(put);
    texts(put);
    codes(put);
    blocks(put);
    for number in 0..=65535 {
        put(format!("is-option {number}"));
        put(format!("is-format {number}"));
    }
}

/// What is asked in its strict form, what has no plain form, and what is answered with counts of zeros.
pub fn strict(put: &mut dyn FnMut(String)) {
    datagrams(put);
    blocks(put);
    uints(put);
    padded(put);
    for exponent in 8..=255 {
        put(format!("block-size {exponent}"));
    }
    for number in 0..=65535 {
        put(format!("properties {number}"));
    }
    registers(put);
    planned::small(put);
    frames(put);
    stepped::small(put);
    ranged::small(put);
    frozen::small(put);
    traced::small(put);
    typed::small(put);
}

/// All byte strings of at most two bytes.
fn two_bytes(mut put: impl FnMut(String)) {
    put("-".into());
    for first in 0..=255 {
        put(hex(&[first]));
        for second in 0..=255 {
            put(hex(&[first, second]));
        }
    }
}

fn datagrams(put: &mut dyn FnMut(String)) {
    two_bytes(|tail| put(format!("read 40010001{}", tail.replace('-', ""))));
    two_bytes(|tail| put(format!("read 40010001d10061{}", tail.replace('-', ""))));
    for first in 0..=255 {
        for second in 0..=255 {
            let head = hex(&[first, second]);
            put(format!("read {head}7b2db1610201b34051ff62"));
            if second % 16 == 5 {
                put(format!("header-read {head}7b2d"));
            }
        }
    }
    for byte in 0..=255 {
        put(format!("read {}", hex(&[byte])));
        put(format!("read {}", hex(&[0x40, byte, 0x00])));
    }
}

fn uints(put: &mut dyn FnMut(String)) {
    two_bytes(|bytes| put(format!("uint-read 2 {bytes}")));
    for width in [1, 4, 8] {
        for byte in 0..=255 {
            put(format!("uint-read {width} {}", hex(&[byte])));
            put(format!("uint-read {width} {}", hex(&[byte, 255 - byte])));
            put(format!("uint-write {width} 8 {byte}"));
        }
    }
    for number in 0..=65535 {
        put(format!("uint-write 2 2 {number}"));
    }
}

/// Values over a few bytes: uints of each width, blocks, content formats, Observe; and two of the latter, of which the
/// first decides.
fn padded(put: &mut dyn FnMut(String)) {
    let mut values = Vec::new();
    strings_over(&[0, 1, 0x3c], 5, &mut |value| values.push(hex(value)));
    for value in &values {
        for width in [1, 2, 4, 8] {
            put(format!("uint-read {width} {value}"));
        }
        put(format!("block-read {value}"));
        for number in [6, 12] {
            put(format!("edit new ; add {number} {value}"));
        }
    }
    let mut short = Vec::new();
    strings_over(&[0, 0x3c], 2, &mut |value| short.push(hex(value)));
    for first in &short {
        for second in &short {
            put(format!("edit new ; set 6 {first},{second} ; set 12 {second},{first}"));
        }
    }
}

/// All of one and two bytes; of three and four, every second byte after the lead bytes that allow some, with the ends
/// of the continuation range and their neighbours behind it.
fn texts(put: &mut dyn FnMut(String)) {
    two_bytes(|bytes| put(format!("text-read {bytes}")));
    const LATER: [u8; 4] = [0x7f, 0x80, 0xbf, 0xc0];
    for lead in 0xdf..=0xf8 {
        for second in 0..=255 {
            for third in LATER {
                put(format!("text-read {}", hex(&[lead, second, third])));
                if lead < 0xef {
                    continue;
                }
                for fourth in LATER {
                    put(format!("text-read {}", hex(&[lead, second, third, fourth])));
                }
            }
        }
    }
}

/// The class of each byte, and what there is to know of each class.
pub fn classes(put: &mut dyn FnMut(String)) {
    for byte in 0..=255 {
        put(format!("class-of {byte}"));
    }
    for class in class_words() {
        put(format!("byte-of {class}"));
        if class.starts_with("Response.") {
            put(format!("is-error {class}"));
        }
    }
}

fn class_words() -> impl Iterator<Item = String> {
    let reserved = (0..=255).map(|byte| class_word(MessageClass::Reserved(byte)));
    named_classes().iter().map(|(word, _)| word.clone()).chain(reserved)
}

fn codes(put: &mut dyn FnMut(String)) {
    for class in class_words() {
        for room in 3..=5 {
            put(format!("code-write {room} {class}"));
        }
    }
    words_over(b"0123456789.+- a\xc3", 3, put);
    words_over(b"0278.+", 5, put);
    for class in 0..=9 {
        for detail in 0..=99 {
            put(format!("code-read {}", hex(format!("{class}.{detail:02}").as_bytes())));
        }
    }
}

/// The code texts of up to so many of these bytes. What isn't UTF-8 is no text for coap-lite, and left out.
fn words_over(alphabet: &[u8], most: usize, put: &mut dyn FnMut(String)) {
    strings_over(alphabet, most, &mut |word| {
        if std::str::from_utf8(word).is_ok() {
            put(format!("code-read {}", hex(word)));
        }
    });
}

/// All strings of up to so many of these bytes.
pub fn strings_over(alphabet: &[u8], most: usize, take: &mut dyn FnMut(&[u8])) {
    let mut strings = vec![Vec::new()];
    for length in 0..=most {
        strings.iter().for_each(|string| take(string));
        if length == most {
            break;
        }
        let longer = |string: &Vec<u8>| {
            let string = string.clone();
            alphabet.iter().map(move |&byte| [&string[..], &[byte]].concat())
        };
        strings = strings.iter().flat_map(longer).collect();
    }
}

fn blocks(put: &mut dyn FnMut(String)) {
    two_bytes(|bytes| put(format!("block-read {bytes}")));
    for size in 0..=4200 {
        put(format!("block-new {} {} {size}", size * 16, size % 2));
    }
    for exponent in 0..=255 {
        for number in [0, 1, 15, 16, 255, 256, 4095, 4096, 4097, 65535] {
            put(format!("block-write 2 {number} {} {exponent}", (number + exponent) % 2));
        }
    }
    for exponent in 0..=7 {
        put(format!("block-size {exponent}"));
    }
}

/// Every frame of up to two bytes; and, over bytes that tell, what follows a code and the header of a datagram. Every first
/// byte of a datagram, and every room beside what a message takes.
fn frames(put: &mut dyn FnMut(String)) {
    const TELLING: [u8; 12] = [0x00, 0x01, 0x0d, 0x0e, 0x0f, 0x10, 0x61, 0xd0, 0xe0, 0xf0, 0xf1, 0xff];
    two_bytes(|frame| put(format!("frame-back 71000 1 258 {frame}")));
    for (head, longest) in
        [("0100", 2), ("0101", 2), ("1000", 2), ("1001", 2), ("0201", 3), ("1101", 3), ("2001", 3), ("2101", 3)]
    {
        strings_over(&TELLING, longest, &mut |rest| {
            put(format!("frame-back 71000 2 4660 {head}{}", hex(rest).replace('-', "")));
        });
    }
    strings_over(&TELLING, 3, &mut |rest| {
        put(format!("frame-out 71000 40010001{}", hex(rest).replace('-', "")));
    });
    for first in 0..=255 {
        for code in [0, 1, 69] {
            let head = hex(&[first, code]);
            put(format!("frame-out 71000 {head}7b2d"));
            put(format!("frame-out 71000 {head}7b2d6162636465666768b161ff62"));
        }
    }
    for room in 0..=16 {
        put(format!("frame-out {room} 4401000120304050b474657374"));
        put(format!("frame-back {room} 0 1 540120304050b474657374"));
    }
}

/// Each number up to the listed ones and beside them, with lengths beside those of any; and all lists of up to three
/// records of the numbers below.
fn registers(put: &mut dyn FnMut(String)) {
    for number in (0..=64).chain([257, 258, 259, 65535]) {
        for length in [0, 1, 2, 3, 4, 5, 8, 9, 255, 256, 1034, 1035] {
            put(register(&[(number, length)]));
        }
    }
    // those that are listed, three elective ones and a critical one that aren't
    const NUMBERS: [u16; 22] = [1, 2, 3, 4, 5, 6, 7, 8, 9, 11, 12, 14, 15, 17, 20, 23, 27, 28, 35, 39, 60, 258];
    let records: Vec<(u16, usize)> = NUMBERS
        .into_iter()
        .flat_map(|number| lengths_beside_bounds(number).into_iter().map(move |length| (number, length)))
        .collect();
    let mut lists = vec![Vec::new()];
    for _ in 0..3 {
        let longer = |list: &Vec<(u16, usize)>| {
            let list = list.clone();
            let last = list.last().map_or(0, |&(number, _)| number);
            let next = records.iter().filter(move |&&(number, _)| number >= last);
            next.map(move |&record| [&list[..], &[record]].concat())
        };
        lists = lists.iter().flat_map(longer).collect();
        lists.iter().for_each(|list| put(register(list)));
    }
}

/// A good and a bad length at each bound that is a few bytes, or no bytes where there is none.
fn lengths_beside_bounds(number: u16) -> Vec<usize> {
    let lengths = lengths(number).unwrap_or(0..=255);
    let (shortest, longest) = (*lengths.start(), *lengths.end());
    let mut beside = Vec::new();
    if shortest > 0 {
        beside.extend([shortest - 1, shortest]);
    }
    if longest < 9 {
        beside.extend([longest, longest + 1]);
    }
    if beside.is_empty() {
        beside.push(0);
    }
    beside
}

fn register(records: &[(u16, usize)]) -> String {
    let option = |&(number, length): &(u16, usize)| format!("{number}:{}", hex(&vec![0; length]));
    let options: Vec<String> = records.iter().map(option).collect();
    format!("register 1 0 Request.Get 1 - {} -", options.join(","))
}
