//! The counts of zero bytes in answers. coap-lite has none: they are put into its answers by the rule, and left out of
//! ours where the two are compared.

use crate::uints;
use crate::words::{bytes, number, options, Words};

const OBSERVE: u16 = 6;
const CONTENT_FORMAT: u16 = 12;

/// coap-lite's answer to a request, with the counts that ours has.
pub fn put_in(request: &[u8], answer: String) -> String {
    let counted = match Words::of(request).word() {
        Some(b"uint-read" | b"block-read") => put_after_number(request, &answer),
        Some(b"edit") => put_into_packet(&answer),
        _ => None,
    };
    counted.unwrap_or(answer)
}

/// Behind what was read of the value, which is the request's last word.
fn put_after_number(request: &[u8], answer: &str) -> Option<String> {
    if !answer.starts_with("number ") && !answer.starts_with("block ") {
        return None;
    }
    let value = bytes(request.rsplit(|&byte| byte == b' ').next()?)?;
    Some(format!("{answer} zeros {}", uints::read(8, &value).ok()?.zeros))
}

/// Behind the content format and Observe. Rules, Uints and text: the first record decides; none that is absent or over-long
/// has zeros, and a refusal carries no count.
fn put_into_packet(answer: &str) -> Option<String> {
    let (packet, rest) = answer.split_once(" format ")?;
    let (format, rest) = rest.split_once(" observe ")?;
    let (observe, rest) = rest.split_once(" asked ")?;
    let options = options(packet.split(' ').nth(7)?.as_bytes())?;
    let first = |wanted: u16| options.iter().find(|(number, _)| *number == wanted).map_or(&[][..], |(_, value)| value);
    let format_zeros = uints::read(2, first(CONTENT_FORMAT)).map_or(0, |uint| uint.zeros);
    let observe_zeros = uints::read(4, first(OBSERVE)).map_or(String::new(), |uint| format!(" zeros {}", uint.zeros));
    Some(format!("{packet} format {format} zeros {format_zeros} observe {observe}{observe_zeros} asked {rest}"))
}

/// An answer without its counts.
pub fn left_out(answer: &[u8]) -> Vec<u8> {
    let mut words: Vec<&[u8]> = answer.split(|&byte| byte == b' ').collect();
    while let Some(at) = words.windows(2).position(|two| two[0] == b"zeros" && number(two[1], u64::MAX).is_some()) {
        words.drain(at..at + 2);
    }
    words.join(&b' ')
}
