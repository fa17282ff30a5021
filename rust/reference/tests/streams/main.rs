//! The streams read: by hand, at random, damaged, written and read back, and
//! those of `samples/streams`.

mod clauses;
mod damaged;
mod entries;
mod ledger;
mod random;
mod refusals;
mod samples;

use reference::examples::streams::{Kind, RELATIONSHIP};
use reference::ledger::Ledger;
use reference::streams::{read_relationships, read_types};
use reference::Refusal;

const LENGTH: u64 = 1_032_768;

/// A splitmix64 generator.
struct Random(u64);

impl Random {
    fn below(&mut self, end: usize) -> usize {
        self.0 = self.0.wrapping_add(0x9E37_79B9_7F4A_7C15);
        let mut z = self.0;
        z = (z ^ (z >> 30)).wrapping_mul(0xBF58_476D_1CE4_E5B9);
        z = (z ^ (z >> 27)).wrapping_mul(0x94D0_49BB_1331_11EB);
        ((z ^ (z >> 31)) % end as u64) as usize
    }

    fn pick<'a>(&mut self, from: &[&'a str]) -> &'a str {
        from[self.below(from.len())]
    }
}

/// How many entries a stream of that kind has, or 19 or 20.
fn read(kind: &Kind, stream: &[u8]) -> Result<usize, u8> {
    if kind.root == RELATIONSHIP.root {
        read_relationships(stream).map(|entries| entries.len())
    } else {
        read_types(stream).map(|entries| entries.len())
    }
}

fn started(capacity: u64) -> Ledger {
    let mut ledger = Ledger::default();
    ledger.start(LENGTH, capacity).expect("room");
    ledger
}

fn number<T>(answer: Result<T, Refusal>) -> u64 {
    answer.map_or_else(Refusal::number, |_| 0)
}

/// All that a ledger holds, by set, and its charge.
fn held(ledger: &Ledger) -> (Vec<Vec<Vec<u8>>>, u64) {
    let items = ledger.items().map(|(a, b)| vec![a, b]);
    let defaults = ledger.defaults().map(|(a, b)| vec![a, b]);
    let overrides = ledger.overrides().map(|(a, b)| vec![a, b]);
    let relationships = ledger.relationships().map(|fields| fields.to_vec());
    let rows = items.chain(defaults).chain(overrides).chain(relationships);
    let rows = rows.map(|row| row.into_iter().map(<[u8]>::to_vec).collect());
    (rows.collect(), ledger.totals().charge)
}

/// The types stream of a ledger.
fn written_types(ledger: &Ledger) -> Vec<u8> {
    written(|out| ledger.write_types(out))
}

/// The Relationships part of a source.
fn written_relationships(ledger: &Ledger, source: &str) -> Vec<u8> {
    written(|out| ledger.write_relationships(source.as_bytes(), out))
}

fn written(write: impl Fn(&mut [u8]) -> Result<usize, Refusal>) -> Vec<u8> {
    let Err(Refusal::OutputTooShort(length)) = write(&mut []) else {
        panic!("a stream isn't empty");
    };
    let mut out = vec![0; length];
    assert_eq!(write(&mut out), Ok(length));
    out
}
