//! The time of a pass over some messages, of sides that take turns: the least of many short runs, in nanoseconds.

use std::hint::black_box;
use std::time::{Duration, Instant};

/// How long one run takes at least, and how many there are of each side. A pass over the varied messages takes longer, so that there is
/// one in a run: in eight a processor learns these, too.
const RUN: Duration = Duration::from_micros(50);
const RUNS: usize = 100;

/// The largest flat form: 11 numbers, and 4 for each of 128 options.
pub const MOST_NUMBERS: usize = 11 + 4 * 128;
/// The largest datagram that is read.
const MOST_BYTES: usize = 70_000;

/// How far a run's places lie behind those of the run before: on the stack, and in what is lent and allocated, where it is another
/// page, too.
const DEEPER: usize = 48;
const APART: usize = 4096 + 48;

/// What is lent to each side for its answer: the same to all, since a copy takes longer from some places to some others.
pub struct Room {
    pub numbers: [u32; MOST_NUMBERS],
    bytes: Vec<u8>,
    from: usize,
}

impl Room {
    pub fn new() -> Room {
        Room { numbers: [0; MOST_NUMBERS], bytes: vec![0; MOST_BYTES + APART * RUNS], from: 0 }
    }

    /// The bytes that are lent.
    pub fn out(&mut self) -> &mut [u8] {
        &mut self.bytes[self.from..][..MOST_BYTES]
    }
}

/// A side: so many passes.
pub type Side<'a> = Box<dyn Fn(u32, &mut Room) + 'a>;

/// The side that makes a call for each of some messages.
pub fn side<'a, M, A>(messages: &'a [M], call: impl Fn(&M, &mut Room) -> A + 'a) -> Side<'a> {
    Box::new(move |passes, room| {
        for _ in 0..passes {
            for message in black_box(messages) {
                black_box(call(message, room));
            }
        }
    })
}

/// The least time of a pass of each side, over runs that take turns. Each run has other places on the stack, in the output and, for who
/// allocates, behind pieces of the heap that are in use: of 65,536 bytes the ratio was 0.7 in one program and 1.2 in the next.
pub fn least(sides: &[Side]) -> Vec<f64> {
    let room = &mut Room::new();
    let passes: Vec<u32> = sides.iter().map(|side| fitting(side, room)).collect();
    let mut best = vec![f64::MAX; sides.len()];
    for run in 0..RUNS {
        room.from = APART * run;
        let in_use: Vec<Vec<u8>> = (0..run).map(|_| black_box(vec![0; APART])).collect();
        for (i, side) in sides.iter().enumerate() {
            best[i] = best[i].min(deeper(run, &mut || time(side, passes[i], room)));
        }
        drop(in_use);
    }
    best
}

/// Calls from so many frames further down the stack. How long an array there takes to be cleared or copied depends on where it lies
/// to a line of the cache and to a page, and this lets each side have the best of many places.
#[inline(never)]
fn deeper(frames: usize, call: &mut dyn FnMut() -> f64) -> f64 {
    let frame = black_box([0u8; DEEPER]);
    let took = if frames == 0 { call() } else { deeper(frames - 1, call) };
    black_box(&frame);
    took
}

/// How many passes make up a run.
fn fitting(side: &Side, room: &mut Room) -> u32 {
    let mut passes = 1;
    while time(side, passes, room) * (passes as f64) < RUN.as_nanos() as f64 {
        passes *= 2;
    }
    passes
}

/// Nanoseconds of one of so many passes.
fn time(side: &Side, passes: u32, room: &mut Room) -> f64 {
    let start = Instant::now();
    side(passes, room);
    start.elapsed().as_nanos() as f64 / passes as f64
}
