//! Compaction of a packet into its edit store: docs/RULES.md, Compaction.

use crate::raw::{filled, Home, Range, Raw, Record};
use crate::strict_answers::{demand, Judged};
use crate::words::{hex, Words, MOST_ROOM};

/// `compact ROOM RAW`: the second buffer begins with the live bytes, and its rest is kept; a refusal leaves all.
pub fn answer(words: &mut Words) -> Option<String> {
    let room = words.number(MOST_ROOM)?;
    let mut raw = Raw::of(words)?;
    Some(match compact(&mut raw, room) {
        Ok(live) => format!("compacted {} {} kept {}", live.len(), hex(&live), raw.shown()),
        Err(refusal) => format!("refused {refusal} kept {}", raw.shown()),
    })
}

/// 10, 11 (any in Writing), then 12 when the sum of the lengths exceeds the edit store or the second buffer. The live bytes are
/// those of token, options and payload, each range as often as it is named.
fn compact(raw: &mut Raw, room: u64) -> Judged<Vec<u8>> {
    raw.judge()?;
    let live: Vec<u8> = raw.ranges().iter().flat_map(|&range| raw.part(range)).copied().collect();
    let edits = &mut raw.stores[Home::Edits as usize];
    demand(live.len() <= edits.len() && live.len() as u64 <= room, 12)?;
    edits[..live.len()].copy_from_slice(&live);
    rewrite(raw);
    Ok(live)
}

/// Every range is in the edit store, one after the other from 0 on. Header, numbers and count stay, and the records past the
/// count are empty.
fn rewrite(raw: &mut Raw) {
    let mut end = 0;
    let mut moved = |range: Range| {
        let start = end;
        end += range.length;
        Range { home: Home::Edits, start, length: range.length }
    };
    raw.token = moved(raw.token);
    let records: Vec<Record> =
        raw.counted().iter().map(|record| Record { number: record.number, range: moved(record.range) }).collect();
    raw.payload = moved(raw.payload);
    raw.records = filled(&records).expect("at most 128 are counted");
}
