//! Names and fields of each length.

use crate::compare;
use crate::support::{show, Tally};
use zombirels::{iri, names};

/// `unit` over and over, cut or filled up with `a` to `length` bytes.
fn filled(start: &[u8], unit: &[u8], length: usize) -> Vec<u8> {
    let mut text = start.to_vec();
    while text.len() + unit.len() <= length {
        text.extend_from_slice(unit);
    }
    text.resize(length, b'a');
    text
}

/// `unit` at the very end of `length` bytes.
fn ended(start: &[u8], unit: &[u8], length: usize) -> Vec<u8> {
    let mut text = start.to_vec();
    text.resize(length.max(start.len() + unit.len()) - unit.len(), b'a');
    text.extend_from_slice(unit);
    text
}

#[test]
fn every_length() {
    let starts: [&[u8]; 8] = [b"", b"/", b"a/", b"a:", b"a:/", b"_", b"/a/", b"a/b;c="];
    let units: [&[u8]; 12] = [
        b"a",
        b"/a",
        b"%20",
        b"%41",
        b"%",
        b".",
        b"\xC3\xA9",
        b"\xE2\x82\xAC",
        b"\xF0\x9F\x94\xAC",
        b"\xC3",
        b"#",
        b";c=d",
    ];
    let suffixes: [&[u8]; 3] = [b"", b"/[0].piece", b"/[9999].LAST.piece"];
    let mut tally = Tally::default();
    for length in 0..=300 {
        for (start, unit) in starts.iter().flat_map(|s| units.map(|u| (*s, u))) {
            for suffix in suffixes {
                let text = [&filled(start, unit, length), suffix].concat();
                tally.add(compare(&text));
                let text = [&ended(start, unit, length), suffix].concat();
                tally.add(compare(&text));
            }
        }
    }
    tally.require("every length", 100_000);
}

/// The limits themselves, so that both sides can't be wrong alike.
#[test]
fn limits() {
    let units: [&[u8]; 5] = [
        b"a",
        b"%C3",
        b"\xC3\xA9",
        b"\xE2\x82\xAC",
        b"\xF0\x9F\x94\xAC",
    ];
    for unit in units {
        for (length, fits) in [(254, true), (255, true), (256, false), (257, false)] {
            let name = ended(b"/", unit, length);
            assert_eq!(names::is_part_name(&name), fits, "{}", show(&name));
            let item = [&name, &b"/[9999].last.piece"[..]].concat();
            assert_eq!(names::take_apart(&item).is_ok(), fits, "{}", show(&item));
            assert_eq!(iri::is_iri(&name), fits, "{}", show(&name));
        }
        for (length, fits) in [(30, true), (31, true), (32, false)] {
            let extension = ended(b"", unit, length);
            assert_eq!(
                names::is_extension(&extension),
                fits,
                "{}",
                show(&extension)
            );
        }
    }
    assert!(!names::is_part_name(b"/") && names::is_part_name(b"/a"));
    for (length, fits) in [(2, false), (3, true), (127, true), (128, false)] {
        let text = filled(b"a/", b"a", length);
        assert_eq!(names::is_media_type(&text), fits, "{}", show(&text));
    }
    for (length, fits) in [(0, false), (1, true), (63, true), (64, false)] {
        let text = filled(b"", b"a", length);
        assert_eq!(names::is_id(&text), fits, "{}", show(&text));
    }
    assert!(!names::is_extension(b"") && names::is_extension(b"a"));
    assert!(!iri::is_iri(b"") && iri::is_iri(b"a"));
}
