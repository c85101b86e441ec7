//! The comparison of two lists of answers to the same requests.

use crate::counts;
use std::fs::File;
use std::io::{self, BufRead, BufReader, Write};

/// How many differences are shown.
const SHOWN: usize = 10;
/// A longer line is shown by its ends.
const WIDTH: usize = 160;

/// Writes the first differences and, last, how many requests were compared and how many answers differ; answers the
/// latter. A list that is short differs in the answers that it lacks, and so does one that is too long. The counts of zeros
/// in the second list are compared where it is asked for.
pub fn count(files: [&str; 3], with_counts: bool, out: &mut impl Write) -> io::Result<usize> {
    let (mut compared, mut different) = (0, 0);
    each(files, |request, rust, rattle| {
        compared += 1;
        let compared_part = rattle.map(|line| if with_counts { line.to_vec() } else { counts::left_out(line) });
        if same(request, rust, compared_part.as_deref()) {
            return Ok(());
        }
        different += 1;
        if different > SHOWN {
            return Ok(());
        }
        write_one(out, request, rust, rattle)
    })?;
    writeln!(out, "{compared} compared, {different} differ")?;
    Ok(different)
}

/// Writes each request with both answers.
pub fn show(files: [&str; 3], out: &mut impl Write) -> io::Result<()> {
    each(files, |request, rust, rattle| write_one(out, request, rust, rattle))
}

type Line<'a> = Option<&'a [u8]>;

fn each(files: [&str; 3], mut take: impl FnMut(Line, Line, Line) -> io::Result<()>) -> io::Result<()> {
    let mut lists = Vec::new();
    for file in files {
        lists.push(BufReader::new(File::open(file)?).split(b'\n'));
    }
    loop {
        let mut lines = Vec::new();
        for list in &mut lists {
            lines.push(list.next().transpose()?);
        }
        if lines.iter().all(Option::is_none) {
            return Ok(());
        }
        take(lines[0].as_deref(), lines[1].as_deref(), lines[2].as_deref())?;
    }
}

/// Equal answers; and where coap-lite panics on a code's text, ours is refused with 15. An answer that coap-lite
/// can't give, as its types leave no way to ask, has no place in a comparison; nor has one where the rules are at odds.
fn same(request: Line, rust: Line, rattle: Line) -> bool {
    let (Some(request), Some(rust), Some(rattle)) = (request, rust, rattle) else {
        return false;
    };
    match rust {
        b"outside" | b"at odds" => false,
        b"panic" => request.starts_with(b"code-read ") && rattle == b"refused 15",
        _ => rust == rattle,
    }
}

fn write_one(out: &mut impl Write, request: Line, rust: Line, rattle: Line) -> io::Result<()> {
    for (name, line) in [("request", request), ("   rust", rust), (" rattle", rattle)] {
        writeln!(out, "{name}: {}", line.map_or("(no line)".into(), short))?;
    }
    Ok(())
}

fn short(line: &[u8]) -> String {
    let text = String::from_utf8_lossy(line);
    let end = text.char_indices().nth(WIDTH - 40);
    let tail = text.char_indices().rev().nth(19);
    match (end, tail) {
        (Some((end, _)), Some((tail, _))) if line.len() > WIDTH => {
            format!("{} .. {} ({} bytes)", &text[..end], &text[tail..], line.len())
        }
        _ => text.into(),
    }
}
