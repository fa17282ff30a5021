//! Names of every length up to 255 bytes, and where they differ.

use crate::set::{Set, SETS};
use crate::support::calls::Call;
use crate::support::show;
use crate::{buffer, drop, find, put, spellings, turned, view, Pair};
use zombirels::script::Code;

/// A name of so many bytes, letters of both cases.
fn name(length: usize) -> Vec<u8> {
    let letters = b"tTiIlLeEzZaA".iter().cycle();
    [b'/'].iter().chain(letters).take(length).copied().collect()
}

/// The longest text of each set, held in each spelling and asked for in each.
#[test]
fn longest_texts() {
    for set in SETS {
        for held in spellings(&name(set.longest())) {
            let mut buffer = buffer(2000);
            let mut pair = Pair::start(&mut buffer);
            if let Some(part) = set.part(&held) {
                pair.expect(&put(&part), 0);
            }
            pair.expect(&set.put(&held), 0);
            for asked in spellings(&held) {
                pair.expect(&set.asks(&asked)[0], 0);
                for call in set.asks(&asked) {
                    pair.number(&call);
                }
                pair.expect(&set.put(&asked), 10);
                pair.expect(&set.drop(&asked), 0);
                pair.expect(&set.asks(&asked)[0], set.missing());
                pair.expect(&set.drop(&asked), 13);
                pair.expect(&set.put(&held), 0);
            }
        }
    }
}

/// A byte more than the longest is refused in each spelling, whatever is held.
#[test]
fn a_byte_too_long() {
    let mut buffer = buffer(5000);
    let mut pair = Pair::start(&mut buffer);
    for set in SETS {
        pair.expect(&set.put(&name(set.longest())), 0);
    }
    for set in SETS {
        let number = if set == Set::Defaults { 7 } else { 4 };
        for long in spellings(&name(set.longest() + 1)) {
            pair.expect(&set.put(&long), number);
            pair.expect(&set.drop(&long), number);
            if set != Set::Defaults {
                pair.expect(&set.asks(&long)[0], 4);
            }
        }
    }
}

/// The pieces of a part whose name has 255 bytes: item names of up to 273.
#[test]
fn longest_pieces() {
    let mut buffer = buffer(5000);
    let mut pair = Pair::start(&mut buffer);
    let name = name(255);
    let piece = |name: &[u8], suffix: &str| [name, suffix.as_bytes()].concat();
    let suffixes = ["/[0].piece", "/[1].PIECE", "/[2].Last.Piece"];
    for (suffix, name) in suffixes.into_iter().zip(spellings(&name)) {
        pair.expect(&put(&piece(&name, suffix)), 0);
    }
    for name in spellings(&name) {
        for suffix in suffixes {
            pair.expect(&put(&piece(&name, suffix)), 10);
            pair.expect(&find(&piece(&name, suffix)), 0);
            pair.make(&view(&piece(&name, suffix))).expect("a view");
        }
        pair.expect(&put(&name), 12);
        pair.expect(&put(&piece(&name, "/[9999].last.piece")), 12);
        pair.expect(&find(&piece(&name, "/[9999].last.piece")), 13);
        let read = Call::new(Code::ReadPart, &[&name]).with_output(1000);
        assert_eq!(pair.make(&read), Ok([3 * 255 + 10 + 10 + 15, 0, 0]));
    }
    pair.check_parts();
}

/// The lengths around the ends of blocks, and the greatest ones.
fn lengths() -> impl Iterator<Item = usize> {
    (2..=42).chain([63, 64, 65, 127, 128, 129]).chain(246..=255)
}

/// Names that differ in the case of one byte, in each place, are one name.
#[test]
fn case_of_one_byte() {
    for length in lengths() {
        let mut buffer = buffer(1000);
        let mut pair = Pair::start(&mut buffer);
        let name = name(length);
        pair.expect(&put(&name), 0);
        for at in 1..length {
            let mut other = name.clone();
            other[at] = turned(&name)[at];
            pair.expect(&put(&other), 10);
            assert_eq!(pair.make(&find(&other)), Ok([length, 0, 0]));
            let seen = pair.package.view_item(&other);
            assert_eq!(seen, Some(&name[..]), "{}", show(&other));
            pair.expect(&drop(&other), 0);
            pair.expect(&put(&name), 0);
        }
    }
}

/// Names that differ in another letter, in each place, are two; so are those
/// that differ in the last byte alone.
#[test]
fn another_byte() {
    for length in lengths() {
        let mut buffer = buffer(2000);
        let mut pair = Pair::start(&mut buffer);
        let name = name(length);
        pair.expect(&put(&name), 0);
        for at in 1..length {
            let mut other = name.clone();
            // the letter before or behind
            other[at] = name[at] ^ 1;
            let asked = spellings(&other);
            for asked in asked.iter().filter(|asked| asked[at].is_ascii_alphabetic()) {
                pair.expect(&find(asked), 13);
                pair.expect(&drop(asked), 13);
                pair.expect(&put(asked), 0);
                for name in spellings(&name) {
                    let seen = pair.package.view_item(&name);
                    assert_eq!(seen.map(<[u8]>::len), Some(length));
                    pair.make(&view(&name)).expect("a view");
                }
                pair.make(&view(asked)).expect("a view");
                pair.expect(&drop(&turned(asked)), 0);
            }
        }
    }
}

/// As many names as can be that differ in their last byte alone.
#[test]
fn last_bytes() {
    for length in lengths() {
        let ends = b"abcdefghijklmnopqrstuvwxyz0123456789-_~!$&'()*+,;=:@";
        let stem = name(length - 1);
        let names = ends.iter().map(|&end| [&stem[..], &[end]].concat());
        let names: Vec<Vec<u8>> = names.collect();
        let mut buffer = buffer(2 * 52 * 255);
        let mut pair = Pair::start(&mut buffer);
        for (i, name) in names.iter().enumerate() {
            let spelled = &spellings(name)[i % 4];
            pair.expect(&put(spelled), 0);
        }
        for (i, name) in names.iter().enumerate() {
            let held = &spellings(name)[i % 4];
            for asked in spellings(name) {
                pair.expect(&put(&asked), 10);
                pair.expect(&find(&asked), 0);
                let seen = pair.package.view_item(&asked);
                assert_eq!(seen, Some(&held[..]), "{}", show(&asked));
            }
        }
        pair.check_parts();
        for name in &names {
            pair.expect(&drop(&turned(name)), 0);
            pair.expect(&drop(name), 13);
        }
    }
}
