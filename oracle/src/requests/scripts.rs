//! Random edit scripts in which no step is refused.

use super::varied::{Varied, MOST_OPTIONS};
use crate::words::{class_word, hex, DEFAULT_LIMIT, STORE};
use std::collections::BTreeMap;
use std::fmt::Write;

const OBSERVE: u16 = 6;
const CONTENT_FORMAT: u16 = 12;

/// A script on its way, with how many values each number has: a number with none is one that coap-lite still calls
/// present. The bytes of the edit store that are used, and how many are live at most: token, values by their numbers, payload.
#[derive(Default)]
struct Script {
    line: String,
    counts: BTreeMap<u16, usize>,
    used: usize,
    token: usize,
    values: BTreeMap<u16, usize>,
    payload: usize,
}

impl Script {
    fn records(&self) -> usize {
        self.counts.values().sum()
    }

    fn of(&self, number: u16) -> usize {
        self.counts.get(&number).copied().unwrap_or(0)
    }

    fn step(&mut self, words: std::fmt::Arguments) {
        self.line.push_str(" ; ");
        self.line.write_fmt(words).expect("a string takes all");
    }

    /// Whether so many bytes more fit into the edit store, which they then take.
    fn fits(&mut self, bytes: usize) -> bool {
        let fits = self.used + bytes <= STORE;
        self.used += if fits { bytes } else { 0 };
        fits
    }

    fn add(&mut self, number: u16, value: &[u8]) {
        if self.records() < MOST_OPTIONS && self.fits(value.len()) {
            *self.counts.entry(number).or_default() += 1;
            *self.values.entry(number).or_default() += value.len();
            self.step(format_args!("add {number} {}", hex(value)));
        }
    }

    fn set(&mut self, number: u16, values: &[Vec<u8>]) {
        let records = self.records() - self.of(number) + values.len();
        let bytes = values.iter().map(Vec::len).sum();
        if records > MOST_OPTIONS || !self.fits(bytes) {
            return;
        }
        self.counts.insert(number, values.len());
        self.values.insert(number, bytes);
        let values: Vec<String> = values.iter().map(|value| hex(value)).collect();
        let values = if values.is_empty() { "none".into() } else { values.join(",") };
        self.step(format_args!("set {number} {values}"));
    }

    fn clear(&mut self, number: u16) {
        if let Some(count) = self.counts.get_mut(&number) {
            *count = 0;
        }
        self.values.remove(&number);
        self.step(format_args!("clear {number}"));
    }

    fn observe(&mut self, value: u32) {
        if self.records() - self.of(OBSERVE) < MOST_OPTIONS && self.fits(4) {
            self.counts.insert(OBSERVE, 1);
            self.values.insert(OBSERVE, 4);
            self.step(format_args!("observe {value}"));
        }
    }

    fn content_format(&mut self, format: usize) {
        if self.records() < MOST_OPTIONS && self.fits(2) {
            *self.counts.entry(CONTENT_FORMAT).or_default() += 1;
            *self.values.entry(CONTENT_FORMAT).or_default() += 2;
            self.step(format_args!("content-format {format}"));
        }
    }

    fn clear_all(&mut self) {
        self.counts.clear();
        self.values.clear();
        self.step(format_args!("clear-all"));
    }

    fn token(&mut self, token: &[u8]) {
        if self.fits(token.len()) {
            self.token = token.len();
            self.step(format_args!("token {}", hex(token)));
        }
    }

    fn payload(&mut self, payload: &[u8]) {
        if self.fits(payload.len()) {
            self.payload = payload.len();
            self.step(format_args!("payload {}", hex(payload)));
        }
    }

    /// What isn't live is room again.
    fn compact(&mut self) {
        let live = self.token + self.values.values().sum::<usize>() + self.payload;
        if live <= STORE {
            self.used = live;
            self.step(format_args!("compact"));
        }
    }

    /// Asks for the numbers whose presence coap-lite has as we do.
    fn ask(mut self, numbers: &[u16]) -> String {
        let asked: Vec<String> =
            numbers.iter().filter(|number| self.counts.get(number) != Some(&0)).map(u16::to_string).collect();
        if !asked.is_empty() {
            self.step(format_args!("ask {}", asked.join(",")));
        }
        self.line
    }
}

impl Varied {
    pub fn edit(&mut self) -> String {
        let mut script = self.start();
        let numbers = self.numbers();
        let steps = if self.random.one_in(80) { 140 } else { 1 + self.random.below(10) };
        for _ in 0..steps {
            self.step(&mut script, &numbers);
        }
        script.ask(&numbers)
    }

    pub fn long_edit(&mut self) -> String {
        let mut script = self.start();
        let numbers = self.numbers();
        for _ in 0..4 {
            let length = self.random.near(&[DEFAULT_LIMIT, 20_000, 40_000, 65_535, 65_802]);
            let bytes = self.random.bytes(length);
            let number = self.random.of(&numbers);
            match self.random.below(3) {
                0 => script.add(number, &bytes),
                1 => script.set(number, &[bytes]),
                _ => script.payload(&bytes),
            }
            self.step(&mut script, &numbers);
            if self.random.one_in(2) {
                script.clear(number);
                script.compact();
            }
        }
        script.ask(&numbers)
    }

    /// A new packet, or one that is read.
    fn start(&mut self) -> Script {
        if self.random.one_in(2) {
            return Script { line: "edit new".into(), ..Script::default() };
        }
        let mut parts = self.parts();
        parts.token.truncate(8);
        let datagram = parts.datagram();
        let mut script = Script { line: format!("edit {}", hex(&datagram)), ..Script::default() };
        (script.token, script.payload) = (parts.token.len(), parts.payload.len());
        for (number, value) in &parts.options {
            *script.counts.entry(*number).or_default() += 1;
            *script.values.entry(*number).or_default() += value.len();
        }
        script
    }

    /// The numbers that a script is about.
    fn numbers(&mut self) -> Vec<u16> {
        let mut numbers = vec![OBSERVE, CONTENT_FORMAT];
        for _ in 0..=self.random.below(3) {
            let number = self.random.of(&[0, 1, 5, 7, 11, 13, 27, 258, 282, 65534, 65535]);
            if !numbers.contains(&number) {
                numbers.push(number);
            }
        }
        numbers
    }

    fn step(&mut self, script: &mut Script, numbers: &[u16]) {
        let number = self.random.of(numbers);
        match self.random.below(34) {
            0..=11 => {
                let value = self.value_of(number);
                script.add(number, &value);
            }
            12..=15 => {
                let most = if self.random.one_in(20) { 128 } else { 4 };
                let count = self.random.below(most + 1);
                let values: Vec<Vec<u8>> = (0..count).map(|_| self.value(count)).collect();
                script.set(number, &values);
            }
            16..=18 => script.clear(number),
            19 if self.random.one_in(3) => script.clear_all(),
            19 | 20 => script.token(&self.random.up_to(15)),
            21 | 22 => script.payload(&self.value(0)),
            23 | 24 => {
                let format = self.random.of(&self.formats);
                script.content_format(format);
            }
            25 | 26 => {
                let value = self.random.wide(32) as u32;
                script.observe(value);
            }
            27 => script.step(format_args!("version {}", self.random.byte())),
            28 => script.step(format_args!("type {}", self.random.below(4))),
            29 => script.step(format_args!("id {}", self.random.wide(16))),
            30 | 31 => script.compact(),
            _ => script.step(format_args!("class {}", class_word(self.class()))),
        }
    }

    /// A value such as the getters of the two special numbers read: listed or not, padded, over-long.
    fn value_of(&mut self, number: u16) -> Vec<u8> {
        match number {
            CONTENT_FORMAT if self.random.one_in(2) => {
                let format = self.random.of(&self.formats) as u16;
                let padding = self.random.below(2);
                [vec![0; padding], format.to_be_bytes().to_vec()].concat()
            }
            OBSERVE | CONTENT_FORMAT => self.padded(5),
            _ => self.value(1),
        }
    }
}
