//! Requests that are always asked: the samples, the order of refusals, and each boundary once.

use super::{short, strict_kind};

const PLAIN: &str = include_str!("../../cases/plain.txt");
const OUTSIDE: &str = include_str!("../../cases/outside.txt");
const DOCUMENTED: &str = include_str!("../../cases/documented.txt");

pub fn plain(put: &mut dyn FnMut(String)) {
    listed(PLAIN, put);
    short::classes(put);
}

/// The marks of documented requests that are asked in every strict comparison, the second of those too long for the sample.
const MARKS: [&str; 2] = ["+ ", "* "];

/// The documented requests that are marked; those of one section in the order of their kinds.
pub fn strict(put: &mut dyn FnMut(String)) {
    for section in DOCUMENTED.split("\n\n") {
        let mut marked = Vec::new();
        listed(section, &mut |line| {
            if let Some(row) = MARKS.iter().find_map(|mark| line.strip_prefix(mark)) {
                marked.push(row.split_once(" = ").map_or(row, |(request, _)| request).to_string());
            }
        });
        marked.sort_by_key(|request| strict_kind(request));
        marked.into_iter().for_each(&mut *put);
    }
}

pub fn outside(put: &mut dyn FnMut(String)) {
    listed(OUTSIDE, put);
}

/// Requests with the answers that the documents give: those that the sample has, or those that are too long for it.
pub fn documented(long: bool) -> Vec<(String, String)> {
    let mut pairs = Vec::new();
    listed(DOCUMENTED, &mut |line| {
        if line.starts_with("* ") != long {
            return;
        }
        let row = MARKS.iter().find_map(|mark| line.strip_prefix(mark)).unwrap_or(&line);
        if let Some((request, answer)) = row.split_once(" = ") {
            pairs.push((request.to_string(), answer.to_string()));
        }
    });
    pairs
}

/// The lines of a list, comments and empty lines apart.
fn listed(list: &str, put: &mut dyn FnMut(String)) {
    for line in list.lines() {
        if !line.starts_with('#') && !line.is_empty() {
            put(spelled(line));
        }
    }
}

/// A line in which `{61*9}` stands for nine times `61`, `{#:-,*3}` for `1:-,2:-,3:-,`, `{%ff*3}` for `01ff02ff03ff` and
/// `{#@&+0,*2}` for `1@5+0,2@6+0,`.
fn spelled(line: &str) -> String {
    let mut spelled = String::new();
    for (at, part) in line.split(['{', '}']).enumerate() {
        match part.rsplit_once('*') {
            Some((text, times)) if at % 2 == 1 => {
                let times: usize = times.parse().expect("a number of times");
                for time in 1..=times {
                    let (count, digits, behind_header) =
                        (time.to_string(), format!("{time:02x}"), (time + 4).to_string());
                    spelled.push_str(&text.replace('#', &count).replace('%', &digits).replace('&', &behind_header));
                }
            }
            _ => spelled.push_str(part),
        }
    }
    spelled
}
