//! Full sets, streams of more entries than any set takes, and the charge.

use crate::support::streams::{default, link, part, relationships_of, types_of};
use crate::Pair;
use std::ops::Range;
use zombirels::package::{DEFAULTS_MAX, OVERRIDES_MAX, RELATIONSHIPS_MAX};

const CAPACITY: u64 = 100_000;

fn defaults(numbers: Range<usize>) -> Vec<Vec<u8>> {
    let entry = |i| default(format!("e{i}"), "a/b");
    numbers.map(entry).collect()
}

fn parts(numbers: Range<usize>) -> Vec<Vec<u8>> {
    let entry = |i| part(format!("/n{i}"), "a/b");
    numbers.map(entry).collect()
}

fn links(numbers: Range<usize>) -> Vec<Vec<u8>> {
    let entry = |i| link(format!("r{i}"), "a:", "", "t");
    numbers.map(entry).collect()
}

/// Sets filled by one stream to the limit, in any order of the entries; one
/// more is refused, and so is any other then.
#[test]
fn types() {
    let mut pair = Pair::start(CAPACITY);
    let both = [defaults(0..DEFAULTS_MAX), parts(0..OVERRIDES_MAX)].concat();
    let mut reversed = both.clone();
    reversed.reverse();
    let pairs = both[..DEFAULTS_MAX].iter().zip(&both[DEFAULTS_MAX..]);
    let mixed = pairs.flat_map(|(a, b)| [a.clone(), b.clone()]).collect();
    for full in [both, reversed, mixed] {
        for more in [default("more", "a/b"), part("/more", "a/b")] {
            for place in [0, 1, 70, full.len()] {
                pair.restart(CAPACITY);
                let mut entries = full.clone();
                entries.insert(place, more.clone());
                assert_eq!(pair.types(&types_of(&entries)), 15);
            }
        }
        assert_eq!(pair.types(&types_of(&full)), 0);
        assert_eq!(pair.types(&types_of(&[default("more", "a/b")])), 15);
        assert_eq!(pair.types(&types_of(&[part("/more", "a/b")])), 15);
        assert_eq!(pair.types(&types_of(&[part("/N7", "a/b")])), 10);
        assert_eq!(pair.types(&types_of(&[])), 0);
    }
}

/// The same of relationships, of one source or of several.
#[test]
fn relationships() {
    let mut pair = Pair::start(CAPACITY);
    let all = links(0..RELATIONSHIPS_MAX);
    let mut reversed = all.clone();
    reversed.reverse();
    for full in [all, reversed] {
        pair.restart(CAPACITY);
        let more = [full.clone(), links(300..301)].concat();
        assert_eq!(pair.links(b"/a", &relationships_of(&more)), 15);
        assert_eq!(pair.links(b"/a", &relationships_of(&full)), 0);
        assert_eq!(pair.links(b"/b", &relationships_of(&links(0..1))), 15);
        assert_eq!(pair.links(b"/A", &relationships_of(&links(0..1))), 10);
        assert_eq!(pair.links(b"/b", &relationships_of(&[])), 0);
    }
    for held in [1, 56, 255] {
        pair.restart(CAPACITY);
        assert_eq!(pair.links(b"/x", &relationships_of(&links(0..held))), 0);
        let rest = RELATIONSHIPS_MAX - held;
        assert_eq!(pair.links(b"/", &relationships_of(&links(0..rest + 1))), 15);
        assert_eq!(pair.links(b"/", &relationships_of(&links(0..rest))), 0);
    }
}

/// Streams of 128 and 256 entries and more, up to 1,000: refused by 15 at the
/// first that finds no place, whatever stands behind; what is malformed or too
/// deep comes before that, wherever it stands.
#[test]
fn many_entries() {
    let mut pair = Pair::start(CAPACITY);
    for count in [65, 128, 129, 256, 257, 258, 300, 1000] {
        for tail in [None, Some(default("", "")), Some(link("", "", "", ""))] {
            let tail: Vec<Vec<u8>> = tail.into_iter().collect();
            let malformed = !tail.is_empty();
            for kind in [defaults(0..count), parts(0..count)] {
                pair.restart(CAPACITY);
                let entries = [kind, tail.clone()].concat();
                let wrong = tail.iter().any(|entry| entry.starts_with(b"<R"));
                let expected = if wrong { 19 } else { 15 };
                assert_eq!(pair.types(&types_of(&entries)), expected);
            }
            let entries = [links(0..count), tail.clone()].concat();
            pair.restart(CAPACITY);
            let wrong = malformed && tail[0].starts_with(b"<D");
            let expected = match count {
                _ if wrong => 19,
                ..=256 if malformed => 8,
                ..=256 => 0,
                _ => 15,
            };
            assert_eq!(pair.links(b"/a", &relationships_of(&entries)), expected);
        }
        pair.restart(CAPACITY);
        let deep = vec![b"<p:a>".repeat(16)];
        let entries = [defaults(0..count), deep.clone()].concat();
        assert_eq!(pair.types(&types_of(&entries)), 20);
        let entries = [links(0..count), deep].concat();
        assert_eq!(pair.links(b"/a", &relationships_of(&entries)), 20);
    }
    // one key again and again, and a refused field far behind
    pair.restart(CAPACITY);
    let again = vec![default("e", "a/b"); 1000];
    assert_eq!(pair.types(&types_of(&again)), 10);
    let again = vec![link("r", "a:", "", "t"); 1000];
    assert_eq!(pair.links(b"/a", &relationships_of(&again)), 10);
}

/// The charge just met, and passed by one byte, by one entry or by the last of
/// many; beside what is held.
#[test]
fn charge() {
    for count in [1, 2, 5, 64] {
        let entries = defaults(100..100 + count);
        let charge = 7 * count as u64;
        for (spare, expected) in [(0, 0), (1, 0)] {
            let mut pair = Pair::start(charge + spare);
            assert_eq!(pair.types(&types_of(&entries)), expected);
            assert_eq!(pair.types(&types_of(&[])), 0);
        }
        let mut pair = Pair::start(charge - 1);
        assert_eq!(pair.types(&types_of(&entries)), 15);
        let item = vec![7; 40];
        let mut pair = Pair::start(42 + charge);
        pair.package.put_item("/i", &item).expect("room");
        pair.ledger.put_item(b"/i", &item).expect("room");
        let more = [entries.clone(), vec![default("x", "a/b")]].concat();
        assert_eq!(pair.types(&types_of(&more)), 15);
        assert_eq!(pair.types(&types_of(&entries)), 0);
    }
    for count in [1, 2, 5, 156] {
        let entries = links(100..100 + count);
        let charge = (5 + 4 + 2 + 1) * count as u64;
        let mut pair = Pair::start(charge);
        assert_eq!(pair.links(b"/abcd", &relationships_of(&entries)), 0);
        assert_eq!(pair.links(b"/", &relationships_of(&links(0..1))), 15);
        let mut pair = Pair::start(charge - 1);
        assert_eq!(pair.links(b"/abcd", &relationships_of(&entries)), 15);
        assert_eq!(pair.links(b"/abc", &relationships_of(&entries)), 0);
    }
}

/// What was read is dropped again, and its room is free for another stream.
#[test]
fn read_and_dropped() {
    let mut pair = Pair::start(7 * 64);
    for round in 0..20 {
        let first = 100 + 7 * round;
        assert_eq!(pair.types(&types_of(&defaults(first..first + 64))), 0);
        assert_eq!(pair.types(&types_of(&defaults(900..901))), 15);
        for i in first..first + 64 {
            let extension = format!("E{i}");
            pair.package.drop_default(&extension).expect("held");
            let dropped = pair.ledger.drop_default(extension.as_bytes());
            assert_eq!(dropped, Ok(()));
            // a gap at any time, and one entry in it
            if i == first + round {
                let stream = types_of(&[default("gap", "a/b")]);
                let answer = pair.types(&stream);
                assert_eq!(answer, 0);
                pair.package.drop_default("gap").expect("held");
                assert_eq!(pair.ledger.drop_default(b"gap"), Ok(()));
            }
        }
    }
}
