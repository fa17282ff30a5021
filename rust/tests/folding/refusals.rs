//! The refusals 10, 11 and 12 in the other case, with rows between the names
//! that they are about.

use crate::{buffer, drop, find, put, spellings, turned, Pair};

/// Names that stand between `/a/b` and `/a/b/c` in folded order: the bytes
/// before the slash, each with more behind it.
fn between() -> Vec<Vec<u8>> {
    let bytes = b"!$&'()*+,-".iter();
    let name = |&byte: &u8| [&b"/A/b"[..], &[byte]].concat();
    let stems: Vec<Vec<u8>> = bytes.map(name).collect();
    let mut names = Vec::new();
    for stem in stems {
        for end in ["", "0", "a", "Z", "~"] {
            names.push([&stem[..], end.as_bytes()].concat());
        }
    }
    names
}

/// A name that is held derives none, and is derived from none, in any spelling
/// and whatever stands between them.
#[test]
fn derivable() {
    for with_others in [false, true] {
        for held in [&b"/A/b"[..], b"/a/B/[0].piece", b"/a/b/[3].LAST.piece"] {
            let mut buffer = buffer(5000);
            let mut pair = Pair::start(&mut buffer);
            if with_others {
                for name in between() {
                    pair.expect(&put(&name), 0);
                }
            }
            pair.expect(&put(held), 0);
            let names: [&[u8]; 7] = [
                b"/a/B/c",
                b"/A/b/!",
                b"/a/b/~",
                b"/a/b/c/d/E",
                b"/A",
                b"/a/[0].piece",
                b"/a/B/c/[0].piece",
            ];
            for name in names.iter().flat_map(|name| spellings(name)) {
                pair.expect(&put(&name), 11);
                pair.expect(&find(&name), 13);
            }
            for name in [&b"/a/bb"[..], b"/a/B.c", b"/a-", b"/a/c/b", b"/a0", b"/b"] {
                pair.expect(&put(name), 0);
                pair.expect(&put(&turned(name)), 10);
            }
            pair.expect(&drop(&turned(held)), 0);
            pair.expect(&put(b"/A/B/c"), 0);
            pair.expect(&put(b"/a/b/C/d"), 11);
            pair.expect(&put(held), 11);
            pair.check_parts();
        }
    }
}

/// A name of many segments is derivable from each of its beginnings.
#[test]
fn every_beginning() {
    let name = b"/Aa/bB/cC/Dd/E/f/G/hh/Ii/z";
    for (at, _) in name.iter().enumerate().filter(|(_, &byte)| byte == b'/') {
        let beginning = &name[..at];
        if beginning.is_empty() {
            continue;
        }
        for (first, second) in [(beginning, &name[..]), (name, beginning)] {
            for second in spellings(second) {
                let mut buffer = buffer(2000);
                let mut pair = Pair::start(&mut buffer);
                for end in 1..=at {
                    // beside it, at every length
                    pair.expect(&put(&[&name[..end], b"-x"].concat()), 0);
                }
                pair.expect(&put(first), 0);
                pair.expect(&put(&second), 11);
                pair.expect(&find(&second), 13);
                pair.expect(&drop(&turned(first)), 0);
                pair.expect(&put(&second), 0);
                pair.expect(&put(first), 11);
            }
        }
    }
}

/// Whole items and pieces of one name, in any case: 10 for what is held, 12
/// for what disagrees.
#[test]
fn taken_or_disagreeing() {
    for (held, then) in [
        (
            &[&b"/T3"[..]][..],
            &[
                (&b"/t3"[..], 10),
                (b"/t3/[0].piece", 12),
                (b"/T3/[0].last.PIECE", 12),
                (b"/t3-", 0),
                (b"/t", 0),
            ][..],
        ),
        (
            &[b"/T3/[1].piece"],
            &[
                (b"/t3", 12),
                (b"/t3/[1].PIECE", 10),
                (b"/t3/[1].last.piece", 10),
                (b"/t3/[0].last.piece", 12),
                (b"/T3-/[0].last.piece", 0),
                (b"/t3/[0].piece", 0),
                (b"/T3/[2].LAST.piece", 0),
            ],
        ),
        (
            &[b"/t3-", b"/t30", b"/t3/[4].Last.Piece", b"/t3/[2].piece"],
            &[
                (b"/T3/[5].piece", 12),
                (b"/T3/[3].last.piece", 12),
                (b"/T3/[2].piece", 10),
                (b"/T3/[4].piece", 10),
                (b"/T3", 12),
                (b"/T3-", 10),
                (b"/T30/[0].piece", 12),
                (b"/T3/x", 11),
                (b"/T3/[3].piece", 0),
            ],
        ),
    ] {
        for spelling in 0..4 {
            let mut buffer = buffer(1000);
            let mut pair = Pair::start(&mut buffer);
            for name in held {
                pair.expect(&put(&spellings(name)[spelling]), 0);
            }
            for (name, number) in then {
                if *number != 0 {
                    for name in spellings(name) {
                        pair.expect(&put(&name), *number);
                    }
                } else {
                    pair.expect(&put(name), 0);
                    pair.expect(&put(&turned(name)), 10);
                }
            }
            pair.check_parts();
        }
    }
}
