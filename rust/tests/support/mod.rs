//! What the comparing tests share: random numbers, fragments, counting.

#![allow(dead_code)] // each test uses its own share

pub mod calls;
pub mod entries;
pub mod outputs;
pub mod pieces;
pub mod streams;
pub mod types;

use std::time::{SystemTime, UNIX_EPOCH};
use zombirels::Refusal;

/// A splitmix64 generator.
pub struct Random(u64);

impl Random {
    /// A generator for one test. The seed is printed; ZOMBIRELS_SEED sets it.
    pub fn new(test: &str) -> Random {
        let seed = match std::env::var("ZOMBIRELS_SEED") {
            Ok(seed) => seed.parse().expect("ZOMBIRELS_SEED is a number"),
            Err(_) => {
                let now = SystemTime::now().duration_since(UNIX_EPOCH);
                now.map_or(1, |now| now.as_nanos() as u64)
            }
        };
        println!("{test}: ZOMBIRELS_SEED={seed}");
        Random(seed)
    }

    pub fn next(&mut self) -> u64 {
        self.0 = self.0.wrapping_add(0x9E37_79B9_7F4A_7C15);
        let mut z = self.0;
        z = (z ^ (z >> 30)).wrapping_mul(0xBF58_476D_1CE4_E5B9);
        z = (z ^ (z >> 27)).wrapping_mul(0x94D0_49BB_1331_11EB);
        z ^ (z >> 31)
    }

    /// A number below `end`, which isn't 0.
    pub fn below(&mut self, end: usize) -> usize {
        (self.next() % end as u64) as usize
    }

    /// True once in `times`.
    pub fn once_in(&mut self, times: usize) -> bool {
        self.below(times) == 0
    }

    pub fn byte(&mut self) -> u8 {
        self.next() as u8
    }

    /// So many random bytes.
    pub fn bytes(&mut self, count: usize) -> Vec<u8> {
        let mut bytes = Vec::with_capacity(count + 8);
        while bytes.len() < count {
            bytes.extend_from_slice(&self.next().to_le_bytes());
        }
        bytes.truncate(count);
        bytes
    }

    pub fn pick<T: Copy>(&mut self, from: &[T]) -> T {
        from[self.below(from.len())]
    }

    /// Up to `most` fragments in a row.
    pub fn joined(&mut self, fragments: &[&[u8]], most: usize) -> Vec<u8> {
        let count = self.below(most + 1);
        let mut text = Vec::new();
        for _ in 0..count {
            text.extend_from_slice(self.pick(fragments));
        }
        text
    }

    /// Up to `most` of the segments, at least one, a slash before each.
    pub fn name(&mut self, segments: &[&[u8]], most: usize) -> Vec<u8> {
        let mut name = Vec::new();
        for _ in 0..1 + self.below(most) {
            name.push(b'/');
            name.extend_from_slice(self.pick(segments));
        }
        name
    }

    /// `text` with each letter's case flipped at random.
    pub fn flip_case(&mut self, text: &[u8]) -> Vec<u8> {
        let flip = |&byte: &u8| match byte {
            b'A'..=b'Z' | b'a'..=b'z' if self.once_in(2) => byte ^ 0x20,
            _ => byte,
        };
        text.iter().map(flip).collect()
    }

    /// `text` with one byte changed, removed or added.
    pub fn damaged(&mut self, text: &[u8]) -> Vec<u8> {
        let mut text = text.to_vec();
        let at = self.below(text.len() + 1);
        let byte = self.byte();
        match self.below(3) {
            0 => text.insert(at, byte),
            1 if at < text.len() => text[at] = byte,
            _ if at < text.len() => {
                text.remove(at);
            }
            _ => text.push(byte),
        }
        text
    }
}

/// Counts what a test compares, and how much of it was accepted.
#[derive(Default)]
pub struct Tally {
    pub compared: usize,
    pub accepted: usize,
}

impl Tally {
    pub fn add(&mut self, accepted: bool) {
        self.compared += 1;
        self.accepted += usize::from(accepted);
    }

    pub fn print(&self, test: &str) {
        let Tally { compared, accepted } = self;
        println!("{test}: {compared} inputs compared, {accepted} accepted");
    }

    /// Checks that the inputs are many, and of both kinds.
    pub fn require(&self, test: &str, least: usize) {
        self.print(test);
        assert!(self.compared >= least, "{test}: too few inputs");
        let refused = self.compared - self.accepted;
        assert!(
            self.accepted * 20 > self.compared,
            "{test}: too few accepted"
        );
        assert!(refused * 20 > self.compared, "{test}: too few refused");
    }
}

/// The number of a refusal and the length that it carries.
pub fn numbers(refusal: Refusal) -> (u64, usize) {
    match refusal {
        Refusal::OutputTooShort { needed } => (3, needed),
        _ => (u64::from(refusal.number()), 0),
    }
}

/// The number in an environment variable, else another.
pub fn count(variable: &str, otherwise: usize) -> usize {
    match std::env::var(variable) {
        Ok(text) => text.parse().expect("a number"),
        Err(_) => otherwise,
    }
}

/// Bytes as text for messages.
pub fn show(bytes: &[u8]) -> String {
    format!("\"{}\" ({} bytes)", bytes.escape_ascii(), bytes.len())
}
