//! The messages that reading and writing are timed on.

/// Name and messages of each case: (a), (b), (c), so many options, so much payload, and many different messages.
pub fn cases() -> Vec<(String, Vec<Vec<u8>>)> {
    let mut cases = vec![
        ("(a) GET, 4 options".into(), vec![get()]),
        ("(b) 2.05, 1,024 of payload".into(), vec![content()]),
        ("(c) 40 options of 8".into(), vec![message(40, 0)]),
    ];
    cases.push(("no option".into(), vec![message(0, 0)]));
    for options in [8, 16, 32, 64, 128] {
        cases.push((format!("{options} options of 8"), vec![message(options, 0)]));
    }
    for payload in [1 << 10, 4 << 10, 16 << 10, 64 << 10] {
        cases.push((format!("{payload} of payload"), vec![message(0, payload)]));
    }
    cases.push(("4,096 varied".into(), varied()));
    cases
}

/// A request for coap://example.com/sensors/temp.
fn get() -> Vec<u8> {
    let mut datagram = vec![0x44, 0x01, 0x12, 0x34, 0xDE, 0xAD, 0xBE, 0xEF];
    let options: [(u16, &[u8]); 4] = [(3, b"example.com"), (11, b"sensors"), (11, b"temp"), (17, &[50])];
    append(&mut datagram, &options, 0);
    assert_eq!(datagram.len(), 35);
    datagram
}

/// An answer with ETag, Content-Format and Max-Age.
fn content() -> Vec<u8> {
    let mut datagram = vec![0x64, 0x45, 0x12, 0x34, 0xDE, 0xAD, 0xBE, 0xEF];
    let options: [(u16, &[u8]); 3] = [(4, b"etag1234"), (12, &[50]), (14, &[60])];
    append(&mut datagram, &options, 1024);
    datagram
}

/// A request with so many Uri-Path options of 8 bytes, and so many bytes of payload.
fn message(options: usize, payload: usize) -> Vec<u8> {
    let mut datagram = vec![0x44, 0x02, 0x12, 0x34, 0xDE, 0xAD, 0xBE, 0xEF];
    append(&mut datagram, &vec![(11, &b"segments"[..]); options], payload);
    datagram
}

/// Options that messages have, each with the least and the most bytes of its value that libcoap takes, here at most 40; Uri-Path and Uri-Query stand
/// several times, so that they come more often. The last two have no meaning. Proxy-Uri and Proxy-Scheme are left out: libcoap adds a
/// Hop-Limit to them.
const OPTIONS: [(u16, usize, usize); 24] = [
    (1, 0, 8),
    (3, 1, 40),
    (4, 1, 8),
    (5, 0, 0),
    (6, 0, 3),
    (7, 0, 2),
    (8, 0, 40),
    (11, 0, 40),
    (11, 0, 20),
    (11, 1, 12),
    (11, 1, 8),
    (12, 0, 2),
    (14, 0, 4),
    (15, 1, 40),
    (15, 1, 12),
    (17, 0, 2),
    (20, 0, 40),
    (23, 0, 3),
    (27, 0, 3),
    (28, 0, 4),
    (60, 0, 4),
    (258, 0, 1),
    (2049, 0, 40),
    (65001, 0, 40),
];

const REPEATABLE: [u16; 8] = [1, 4, 8, 11, 15, 20, 2049, 65001];

/// 4,096 messages, the same in every run: a token of 0 to 8 bytes, 0 to 12 options, and no payload in one of four, 1,024 bytes in
/// one of 32, else up to 256.
fn varied() -> Vec<Vec<u8>> {
    let mut random = Random(0x9E37_79B9_7F4A_7C15);
    (0..4096).map(|_| one_of_them(&mut random)).collect()
}

fn one_of_them(random: &mut Random) -> Vec<u8> {
    let token = random.upto(8);
    let code = [1, 1, 2, 3, 4, 65, 68, 69, 69, 132][random.upto(9)];
    let mut datagram = vec![0x40 + 16 * random.upto(2) as u8 + token as u8, code, random.byte(), random.byte()];
    datagram.extend((0..token).map(|_| random.byte()));
    let mut options: Vec<(u16, Vec<u8>)> = (0..random.upto(12))
        .map(|_| {
            let (number, least, most) = OPTIONS[random.upto(OPTIONS.len() - 1)];
            (number, (0..least + random.upto(most - least)).map(|_| random.byte()).collect())
        })
        .collect();
    options.sort_by_key(|option| option.0);
    options.dedup_by(|next, option| next.0 == option.0 && !REPEATABLE.contains(&next.0));
    let lent: Vec<(u16, &[u8])> = options.iter().map(|(number, value)| (*number, &value[..])).collect();
    let payload = match random.upto(31) {
        0..8 => 0,
        8 => 1024,
        _ => random.upto(256),
    };
    append(&mut datagram, &lent, payload);
    datagram
}

/// Numbers that nothing foresees: xorshift, from a fixed start.
struct Random(u64);

impl Random {
    fn upto(&mut self, most: usize) -> usize {
        self.0 ^= self.0 << 13;
        self.0 ^= self.0 >> 7;
        self.0 ^= self.0 << 17;
        (self.0 >> 33) as usize % (most + 1)
    }

    fn byte(&mut self) -> u8 {
        self.upto(255) as u8
    }
}

/// Options of rising numbers, and a payload.
fn append(datagram: &mut Vec<u8>, options: &[(u16, &[u8])], payload: usize) {
    let mut before = 0;
    for &(number, value) in options {
        let (delta, delta_extension) = parts((number - before) as usize);
        let (length, length_extension) = parts(value.len());
        datagram.push(delta * 16 + length);
        datagram.extend(delta_extension);
        datagram.extend(length_extension);
        datagram.extend_from_slice(value);
        before = number;
    }
    if payload > 0 {
        datagram.push(0xFF);
        datagram.extend((0..payload).map(|i| (i * 7) as u8));
    }
}

/// The nibble of a delta or a length, and its extension.
fn parts(value: usize) -> (u8, Vec<u8>) {
    match value {
        0..13 => (value as u8, vec![]),
        13..269 => (13, vec![(value - 13) as u8]),
        _ => (14, vec![((value - 269) >> 8) as u8, (value - 269) as u8]),
    }
}
