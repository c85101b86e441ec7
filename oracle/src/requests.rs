//! Requests to ask. The plain ones stay where coap-lite's answer is the one that the Rattle program has to give, or, of steps
//! and of calls, where the rules have the rest of it.

mod framed;
mod frozen;
mod listed;
mod planned;
mod random;
mod ranged;
mod registered;
mod scripts;
mod short;
mod stepped;
mod traced;
mod typed;
mod varied;

pub use listed::documented;
use random::Random;
use std::io::{self, Write};
use varied::Varied;

/// Lines that are written up to a number of them.
struct Lines<'a, W> {
    out: &'a mut W,
    left: usize,
    fault: io::Result<()>,
}

impl<W: Write> Lines<'_, W> {
    fn go_on(&self) -> bool {
        self.left > 0 && self.fault.is_ok()
    }

    fn put(&mut self, line: &str) {
        if self.go_on() {
            self.left -= 1;
            self.fault = writeln!(self.out, "{line}");
        }
    }

    fn put_strict(&mut self, line: &str) {
        strict_forms(line).iter().for_each(|line| self.put(line));
    }

    /// All that a list has; or, where that would be more than three quarters of what is left, only every third, fifth ..
    /// of it: an odd step, since kinds take turns.
    fn put_thinned(&mut self, list: impl Fn(&mut dyn FnMut(String))) {
        let mut count = 0;
        list(&mut |_| count += 1);
        let every = (count / (self.left * 3 / 4).max(1) + 1) | 1;
        let mut at = 0;
        list(&mut |line| {
            if at % every == 0 {
                self.put(&line);
            }
            at += 1;
        });
    }
}

/// The fixed requests, then the short ones, then random ones until there are `size`.
pub fn plain(seed: u64, size: usize, out: &mut impl Write) -> io::Result<()> {
    let mut lines = Lines { out, left: size, fault: Ok(()) };
    listed::plain(&mut |line| lines.put(&line));
    lines.put_thinned(short::all);
    let mut varied = Varied::new(Random::new(seed));
    while lines.go_on() {
        lines.put(&varied.plain());
    }
    lines.fault
}

/// The strict forms of plain requests, requests that have no plain form, and those whose answers have counts of zeros.
pub fn strict(seed: u64, size: usize, out: &mut impl Write) -> io::Result<()> {
    let mut lines = Lines { out, left: size, fault: Ok(()) };
    listed::plain(&mut |line| lines.put_strict(&line));
    listed::strict(&mut |line| lines.put(&line));
    lines.put_thinned(|put| short::strict(&mut |line| strict_forms(&line).into_iter().for_each(&mut *put)));
    let mut varied = Varied::new(Random::new(seed));
    while lines.go_on() {
        lines.put_strict(&varied.strict());
        lines.put_strict(&varied.plain());
    }
    lines.fault
}

/// Requests where coap-lite can't be asked, or where its answer need not be ours.
pub fn outside(out: &mut impl Write) -> io::Result<()> {
    let mut lines = Lines { out, left: usize::MAX, fault: Ok(()) };
    listed::outside(&mut |line| lines.put(&line));
    lines.fault
}

/// The kinds of request that have a strict form; those that coap-lite has no answer to, or not all of it: with no plain form,
/// over two stores, by steps or by calls; and those whose answers have counts of zeros, which coap-lite doesn't tell.
const BOTH: [&str; 9] =
    ["read", "write", "write-raw", "block-new", "block-read", "block-write", "block-size", "steps", "build"];
const STRICT: [&str; 20] = [
    "steps",
    "build",
    "register",
    "properties",
    "plan",
    "plan-check",
    "frame-out",
    "frame-back",
    "write-raw",
    "register-raw",
    "get-raw",
    "edit-raw",
    "compact",
    "freeze",
    "thaw",
    "convert",
    "hear",
    "replay",
    "target-write",
    "target-read",
];
const COUNTED: [&str; 4] = ["uint-read", "to-uint", "block-read", "edit"];

/// What a strict comparison asks of a request: its strict form; itself, if coap-lite has no answer to it or not the counts.
fn strict_forms(line: &str) -> Vec<String> {
    let mut forms = Vec::new();
    if let Some((name, rest)) = line.split_once(' ') {
        if BOTH.contains(&name) {
            forms.push(format!("{name}-strict {rest}"));
        }
        if STRICT.contains(&name) || COUNTED.contains(&name) {
            forms.push(line.into());
        }
    }
    forms
}

/// The place of a strict request's kind among the kinds.
fn strict_kind(line: &str) -> Option<usize> {
    let name = line.split(' ').next()?;
    let name = name.strip_suffix("-strict").unwrap_or(name);
    BOTH.iter().chain(&STRICT).chain(&COUNTED).position(|&kind| kind == name)
}
