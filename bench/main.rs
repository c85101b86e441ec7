//! Times reading and writing of the same messages by coap-lite, by libcoap, by plain C and by each of our designs, and prints the
//! ratios and the goals. A time is the least of many short runs that take turns, in nanoseconds for one message; a ratio under 1 is
//! in favour of ours. With --table the lines are rows of Markdown.

mod agreement;
mod exported;
mod linked;
mod messages;
mod tables;
mod turns;

use coap_lite::{CoapOption, Packet};
use exported::now;
#[cfg(libcoap)]
use linked::libcoap;
use linked::{floor, timed};
use tables::{goals, growth, line, rule, shown, Times};
use turns::{least, side, Side, MOST_NUMBERS};

/// A message in each of the forms that it is read or written from.
pub struct Message {
    datagram: Vec<u8>,
    flat: Vec<u32>,
    theirs: Packet,
}

impl Message {
    fn of(datagram: Vec<u8>) -> Message {
        let mut flat = vec![0; MOST_NUMBERS];
        assert_eq!(now::read(&datagram, &mut flat), 0);
        flat.truncate(11 + 4 * flat[10] as usize);
        let theirs = Packet::from_bytes(&datagram).unwrap();
        Message { datagram, flat, theirs }
    }

    /// coap-lite's packet of the flat form: the header as it is, and the rest by the calls that a program makes for it.
    fn made(&self) -> Packet {
        let part = |range: &[u32]| self.datagram[range[0] as usize..][..range[1] as usize].to_vec();
        let mut packet = Packet::new();
        packet.header = self.theirs.header.clone();
        packet.set_token(part(&self.flat[5..7]));
        for record in self.flat[11..].chunks(4) {
            packet.add_option(CoapOption::from(record[0] as u16), part(&record[2..]));
        }
        packet.payload = part(&self.flat[8..10]);
        packet
    }
}

struct Case {
    name: String,
    messages: Vec<Message>,
}

type Sides<'a> = Vec<(&'static str, Side<'a>)>;

fn main() {
    let markdown = std::env::args().any(|word| word == "--table");
    #[cfg(libcoap)]
    libcoap::prepare();
    let cases: Vec<Case> = messages::cases()
        .into_iter()
        .map(|(name, datagrams)| Case { name, messages: datagrams.into_iter().map(Message::of).collect() })
        .collect();
    for case in &cases {
        case.messages.iter().for_each(|message| agreement::check(&case.name, message));
    }
    let read = [
        ("flat", "coap-lite"),
        ("flat", "libcoap"),
        ("flat", "C"),
        ("cursor", "coap-lite"),
        ("cursor", "libcoap"),
        ("cursor", "C walk"),
    ];
    let write = [
        ("flat", "coap-lite"),
        ("flat", "libcoap"),
        ("flat", "C"),
        ("builder", "coap-lite"),
        ("builder", "libcoap"),
        ("builder", "C"),
        ("packet", "coap-lite made"),
    ];
    let tables = [
        timed_table(markdown, "read", &cases, readers, &read),
        timed_table(markdown, "write", &cases, writers, &write),
        timed_table(markdown, "read and write", &cases, copiers, &[("flat", "coap-lite")]),
    ];
    growth(markdown, "read", &tables[0]);
    growth(markdown, "write", &tables[1]);
    goals(markdown, &tables);
}

fn readers(messages: &[Message]) -> Sides<'_> {
    let mut sides: Sides = vec![("coap-lite", side(messages, |m, _| Packet::from_bytes(&m.datagram)))];
    #[cfg(libcoap)]
    sides.push(("libcoap", side(messages, |m, _| libcoap::parse(&m.datagram))));
    sides.push(("C", side(messages, |m, room| floor::read(&m.datagram, &mut room.numbers))));
    sides.push(("C walk", side(messages, |m, _| floor::walk(&m.datagram))));
    sides.push(("packet", side(messages, |m, _| timed::packet_read(&m.datagram))));
    sides.push(("flat", side(messages, |m, room| now::read(&m.datagram, &mut room.numbers))));
    sides.push(("cursor", side(messages, |m, _| timed::cursor(&m.datagram))));
    sides
}

fn writers(messages: &[Message]) -> Sides<'_> {
    let mut sides: Sides = vec![
        ("coap-lite", side(messages, |m, _| m.theirs.to_bytes_unlimited())),
        ("coap-lite made", side(messages, |m, _| m.made().to_bytes_unlimited())),
    ];
    #[cfg(libcoap)]
    sides.push(("libcoap", side(messages, |m, _| libcoap::write(&m.flat, &m.datagram))));
    sides.push(("C", side(messages, |m, room| floor::write(&m.flat, &m.datagram, room.out()))));
    sides.push(("packet", side(messages, |m, room| timed::packet_write(&m.flat, &m.datagram, room.out()))));
    sides.push(("flat", side(messages, |m, room| now::write(&m.flat, &m.datagram, room.out()))));
    sides.push(("builder", side(messages, |m, room| timed::builder(&m.flat, &m.datagram, room.out()))));
    sides
}

fn copiers(messages: &[Message]) -> Sides<'_> {
    vec![
        ("coap-lite", side(messages, |m, _| Packet::from_bytes(&m.datagram).map(|packet| packet.to_bytes_unlimited()))),
        ("flat", side(messages, |m, room| now::copy(&m.datagram, room.out()))),
    ]
}

/// Times all sides of an operation on all cases, and prints a line for each case: the times, and the ratios of some columns.
fn timed_table(
    markdown: bool,
    operation: &str,
    cases: &[Case],
    sides: fn(&[Message]) -> Sides,
    pairs: &[(&str, &str)],
) -> Times {
    let columns: Vec<&str> = sides(&[]).iter().map(|(name, _)| *name).collect();
    let mut times = Times { columns, rows: Vec::new() };
    let timed = |pair: &&(&str, &str)| times.columns.contains(&pair.0) && times.columns.contains(&pair.1);
    let pairs: Vec<_> = pairs.iter().filter(timed).copied().collect();
    let mut names = vec!["bytes".to_string()];
    names.extend(times.columns.iter().map(|name| name.to_string()));
    names.extend(pairs.iter().map(|(ours, theirs)| format!("{ours} / {theirs}")));
    let widths: Vec<usize> = names.iter().map(|name| name.len().max(7) + 2).collect();
    line(markdown, operation, &names, &widths);
    rule(markdown, names.len());
    for case in cases {
        let running: Vec<Side> = sides(&case.messages).into_iter().map(|(_, side)| side).collect();
        let count = case.messages.len();
        let took = least(&running).into_iter().map(|time| time / count as f64).collect();
        times.rows.push((case.name.clone(), took));
        let row = times.rows.len() - 1;
        let bytes: usize = case.messages.iter().map(|message| message.datagram.len()).sum();
        let mut cells = vec![(bytes / count).to_string()];
        cells.extend(times.rows[row].1.iter().map(|time| shown(*time)));
        cells.extend(pairs.iter().map(|(ours, theirs)| format!("{:.2}", times.ratio(row, ours, theirs).unwrap())));
        line(markdown, &case.name, &cells, &widths);
    }
    println!();
    times
}
