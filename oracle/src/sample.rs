//! The sample that the gate replays without coap-lite: some thousands of plain requests with coap-lite's answers and the
//! counts of zeros that are ours, and those on which it is no judge with the answers of the documents.

use crate::{counts, plain_answers, requests};
use std::fs;
use std::io;
use std::path::Path;

/// How many plain requests are looked at, and how long one may be, and its answer.
const LOOKED_AT: usize = 5_000;
const LONGEST: usize = 400;
const SEED: u64 = 2;

/// Writes the requests to `stdin` and the answers to `stdout` in a folder. The last request lacks its newline, as it may.
pub fn write(folder: &Path) -> io::Result<()> {
    let pairs = [plain()?, requests::documented(false)].concat();
    let requests: Vec<&str> = pairs.iter().map(|(request, _)| request.as_str()).collect();
    let answers: String = pairs.iter().map(|(_, answer)| format!("{answer}\n")).collect();
    fs::write(folder.join("stdin"), requests.join("\n"))?;
    fs::write(folder.join("stdout"), answers)
}

/// Short plain requests that coap-lite answers, with its answers and the counts of zeros.
fn plain() -> io::Result<Vec<(String, String)>> {
    let mut requests = Vec::new();
    requests::plain(SEED, LOOKED_AT, &mut requests)?;
    let requests = String::from_utf8(requests).map_err(io::Error::other)?;
    let short = requests.lines().filter(|line| line.len() <= LONGEST);
    let pairs = short.map(|line| (line.to_string(), plain_answers::answer(line.as_bytes())));
    let pairs = pairs.filter(|(_, answer)| answer != "panic" && answer.len() <= LONGEST);
    Ok(pairs.map(|(line, answer)| (line.clone(), counts::put_in(line.as_bytes(), answer))).collect())
}
