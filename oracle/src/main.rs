//! Answers requests with coap-lite's own code, writes requests to ask, and compares two lists of answers.
//! docs/ANSWERS.md says what requests and answers are.
#![forbid(unsafe_code)]

mod builds;
mod compaction;
mod comparison;
mod counts;
mod edits;
mod frames;
mod freezing;
mod getters;
mod plain_answers;
mod plans;
mod raw;
mod register;
mod replays;
mod requests;
mod sample;
mod steps;
mod strict_answers;
mod targets;
mod uints;
mod words;

use std::io::{self, BufRead, BufWriter, Write};
use std::path::Path;
use std::process::ExitCode;
use std::{env, panic};

const USAGE: &str = "usage: oracle answer              coap-lite's answers to the requests on standard input
       oracle answer-strict       the answers to those that coap-lite has none to, or not all of it, from the documents
       oracle plain SEED SIZE     requests that coap-lite has to answer as the Rattle program does
       oracle strict SEED SIZE    requests that coap-lite has no answer to, or not all of it
       oracle outside             requests outside coap-lite's part, to show what differs
       oracle sample FOLDER       writes requests and expected answers to FOLDER/stdin and FOLDER/stdout
       oracle long                documented requests too long for the sample, each with a tab and its answer
       oracle differ REQUESTS RUST RATTLE     how many of the answers in the two files differ, counts of zeros apart
       oracle differ-strict REQUESTS RUST RATTLE      the same, counts of zeros and all
       oracle show REQUESTS RUST RATTLE       each request with both answers";

fn main() -> ExitCode {
    let words: Vec<String> = env::args().skip(1).collect();
    let words: Vec<&str> = words.iter().map(String::as_str).collect();
    match run(&words) {
        Ok(status) => status,
        Err(error) if error.kind() == io::ErrorKind::BrokenPipe => ExitCode::SUCCESS,
        Err(error) => {
            eprintln!("oracle: {error}");
            ExitCode::from(2)
        }
    }
}

fn run(words: &[&str]) -> io::Result<ExitCode> {
    let mut out = BufWriter::new(io::stdout().lock());
    let number = |word: &str| word.parse().map_err(|_| io::Error::other(format!("{word} is no number\n{USAGE}")));
    let mut status = ExitCode::SUCCESS;
    if matches!(words, ["answer" | "answer-strict"] | ["sample", _]) {
        // coap-lite's panics are answers, and not to be reported.
        panic::set_hook(Box::new(|_| ()));
    }
    match *words {
        ["answer"] => answer_all(plain_answers::answer, &mut out)?,
        ["answer-strict"] => answer_all(strict_answers::answer, &mut out)?,
        ["plain", seed, size] => requests::plain(number(seed)?, number(size)? as usize, &mut out)?,
        ["strict", seed, size] => requests::strict(number(seed)?, number(size)? as usize, &mut out)?,
        ["sample", folder] => sample::write(Path::new(folder))?,
        ["long"] => {
            for (request, answer) in requests::documented(true) {
                writeln!(out, "{request}\t{answer}")?;
            }
        }
        ["outside"] => requests::outside(&mut out)?,
        [verdict @ ("differ" | "differ-strict"), requests, rust, rattle] => {
            if comparison::count([requests, rust, rattle], verdict == "differ-strict", &mut out)? > 0 {
                status = ExitCode::FAILURE;
            }
        }
        ["show", requests, rust, rattle] => comparison::show([requests, rust, rattle], &mut out)?,
        _ => return Err(io::Error::other(USAGE)),
    }
    out.flush()?;
    Ok(status)
}

fn answer_all(answer: fn(&[u8]) -> String, out: &mut impl Write) -> io::Result<()> {
    for line in io::stdin().lock().split(b'\n') {
        writeln!(out, "{}", answer(&line?))?;
    }
    Ok(())
}
