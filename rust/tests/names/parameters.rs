//! Media types with parameters.

use crate::support::types::{media_type, near_media_type, odd_media_type};
use crate::support::{show, Random, Tally};
use crate::{alike, compare, ref_names};
use zombirels::names;

/// How many byte values there are in tokens: letters, digits and 15 others.
const TOKEN_BYTES: usize = 2 * 26 + 10 + 15;

/// What both sides say of a media type.
fn judged(text: &[u8]) -> bool {
    let right = ref_names::is_media_type(text);
    alike("media type", names::is_media_type(text), right, || {
        show(text)
    })
}

/// What stands before and after a byte, and for how many of its values all is
/// a media type: for those in tokens, or for the one that parts two.
#[rustfmt::skip]
const HOLES: &[(&[u8], &[u8], usize)] = &[
    // in the type
    (b"", b"/b;c=d", TOKEN_BYTES), (b"a", b"/b;c=d", TOKEN_BYTES), (b"a", b"b;c=d", 1), (b"a/", b";c=d", TOKEN_BYTES),
    (b"a/b", b";c=d", TOKEN_BYTES), (b"a/b", b"c=d", 1),
    // behind a `;`, in a parameter's name
    (b"a/b;", b"=d", TOKEN_BYTES), (b"a/b;", b"c=d", TOKEN_BYTES), (b"a/b;c", b"=d", TOKEN_BYTES), (b"a/b;c", b"d", 1),
    // behind a `=`, in its value
    (b"a/b;c=", b"", TOKEN_BYTES), (b"a/b;c=", b"d", TOKEN_BYTES), (b"a/b;c=d", b"e", TOKEN_BYTES), (b"a/b;c=d", b"", TOKEN_BYTES),
    // in the next one
    (b"a/b;c=d", b"e=f", 1), (b"a/b;c=", b";e=f", TOKEN_BYTES), (b"a/b;c=d;", b"=f", TOKEN_BYTES), (b"a/b;c=d;e", b"f", 1),
    (b"a/b;c=d;e=", b"", TOKEN_BYTES), (b"a/b;c=d;e=f", b"", TOKEN_BYTES),
    // where none helps
    (b"a/b;", b"", 0), (b"a/b;c", b"", 0), (b"a/b;c=d;", b"", 0), (b"", b";a/b", 0), (b"a", b";c=d/b", 0), (b"a/b;c=d=", b"", 0),
    (b"a/b/c", b"d=e", 0), (b"a/b;c=\"", b"\"", 0), (b"a/b; ", b"=d", 0),
];

#[test]
fn every_byte() {
    let mut tally = Tally::default();
    for (before, after, expected) in HOLES {
        let mut accepted = 0;
        for byte in 0..=255 {
            let text = [before, &[byte][..], after].concat();
            compare(&text);
            let taken = judged(&text);
            assert!(!taken || byte < 0x80, "{}", show(&text));
            tally.add(taken);
            accepted += usize::from(taken);
        }
        let hole = [before, &b" "[..], after].concat();
        assert_eq!(accepted, *expected, "{}", show(&hole));
    }
    tally.require("every byte of a type", HOLES.len() * 256);
}

/// The same of two bytes.
#[test]
fn every_two_bytes() {
    let holes: [(&[u8], &[u8], usize); 9] = [
        (b"a/b", b"=d", TOKEN_BYTES),
        (b"a/b;", b"d", TOKEN_BYTES),
        (b"a/b;c", b"", TOKEN_BYTES),
        // the byte that parts stands first or last
        (b"a/b;c", b"d", 2 * TOKEN_BYTES),
        (b"a/b;c=d", b"e=f", 2 * TOKEN_BYTES),
        (b"a", b"b;c=d", 2 * TOKEN_BYTES),
        (b"a/b;c=d", b"", TOKEN_BYTES * TOKEN_BYTES),
        (b"a/b;c=", b";e=f", TOKEN_BYTES * TOKEN_BYTES),
        (b"a/b;c=d;", b"", 0),
    ];
    for (before, after, expected) in holes {
        let text = |pair: u16| [before, &pair.to_be_bytes(), after].concat();
        let accepted = (0..=u16::MAX).filter(|&pair| judged(&text(pair))).count();
        assert_eq!(accepted, expected, "{}", show(&text(0)));
    }
}

/// Every text of up to 11 bytes out of a letter and the bytes that part
/// tokens. Of n bytes, n - 2 are types without parameters; with one the
/// letters are shared out among four tokens, with two among six.
#[test]
fn every_short_text() {
    let mut tally = Tally::default();
    for length in 0..=11 {
        for number in 0..1_u32 << (2 * length) {
            let byte = |at: u32| b"a/;="[(number >> (2 * at) & 3) as usize];
            let text: Vec<u8> = (0..length).map(byte).collect();
            tally.add(judged(&text));
        }
    }
    tally.print("every short text");
    let without: usize = (3..=11).map(|length| length - 2).sum();
    let with_one = 1 + 4 + 10 + 20 + 35; // of 7 to 11 bytes
    assert_eq!(tally.accepted, without + with_one + 1);
}

/// So many parameters, each token of one byte but one, which fills the whole
/// up to `length` bytes.
fn filled(parameters: usize, long: usize, length: usize) -> Vec<u8> {
    let least = 3 + 4 * parameters;
    let mut text = Vec::new();
    for token in 0..2 + 2 * parameters {
        if token > 0 {
            text.push(if token == 1 { b'/' } else { b";="[token % 2] });
        }
        let count = if token == long { 1 + length - least } else { 1 };
        text.resize(text.len() + count, b'x');
    }
    text
}

/// The 127 bytes cover the whole, whichever of its tokens is long.
#[test]
fn lengths_with_parameters() {
    let mut tally = Tally::default();
    for parameters in 0..=31 {
        for long in 0..2 + 2 * parameters {
            for length in (3 + 4 * parameters).max(120)..=130 {
                let text = filled(parameters, long, length);
                assert_eq!(text.len(), length);
                let fits = judged(&text);
                assert_eq!(fits, length <= 127, "{}", show(&text));
                compare(&text);
                tally.add(fits);
                // one more byte, that makes it none at any length
                assert!(!judged(&[&text, &b";"[..]].concat()));
                assert!(!judged(&[&b";"[..], &text].concat()));
            }
        }
    }
    tally.require("lengths with parameters", 10_000);
    let many = |count| [&b"a/b"[..], &b";c=d".repeat(count)].concat();
    assert_eq!(many(31).len(), 127);
    for count in 0..=80 {
        assert_eq!(judged(&many(count)), count <= 31, "{count} parameters");
    }
}

/// Random types: those that are some by the way they are made, those that are
/// none, and what becomes of either by changes.
#[test]
fn random_types() {
    let mut random = Random::new("random types");
    let mut tally = Tally::default();
    while tally.compared < 100_000 {
        let text = media_type(&mut random);
        assert!(judged(&text), "a media type: {}", show(&text));
        let text = odd_media_type(&mut random);
        assert!(!judged(&text), "no media type: {}", show(&text));
        let mut text = near_media_type(&mut random);
        for _ in 0..random.below(4) {
            text = changed(&mut random, &text);
        }
        compare(&text);
        let taken = judged(&text);
        if text.contains(&b';') {
            tally.add(taken);
        }
    }
    tally.require("random types", 100_000);
}

/// One byte changed, removed or added, most often with one that matters.
fn changed(random: &mut Random, text: &[u8]) -> Vec<u8> {
    let bytes = b"/;=/;=ab&\"' \0\x80\xC3\xFF";
    let mut text = text.to_vec();
    let at = random.below(text.len() + 1);
    let byte = random.pick(bytes);
    match random.below(4) {
        0 => return random.damaged(&text),
        1 if at < text.len() => text[at] = byte,
        2 if at < text.len() => {
            text.remove(at);
        }
        _ => text.insert(at, byte),
    }
    text
}

/// What types with parameters have, and what they must not have.
#[rustfmt::skip]
const STRETCHES: &[&[u8]] = &[
    b"a", b"2", b"&", b"/", b";", b"=", b";c=d", b";&=", b"=2", b"a/b", b"\"", b" ", b"\t", b"\0", b"\x80", b"\xC3\xA9",
];

#[test]
fn random_stretches() {
    let starts: [&[u8]; 5] = [b"", b"a/b", b"a/b;c=", b"a/b;c=d", b"image/tiff;page=2"];
    let mut random = Random::new("random stretches");
    let mut tally = Tally::default();
    while tally.compared < 200_000 {
        let text = [random.pick(&starts), &random.joined(STRETCHES, 4)].concat();
        let taken = judged(&text);
        if text.contains(&b';') {
            tally.add(taken);
        }
    }
    tally.require("random stretches", 200_000);
}
