//! Random names and fields.

use crate::compare;
use crate::support::{Random, Tally};

#[rustfmt::skip]
pub const FRAGMENTS: &[&[u8]] = &[
    b"/", b"/", b"/", b"/", b"a", b"B", b"zZ", b"0", b".", b"..", b".xml", b"-", b"_", b"~",
    b"!", b"$&'()*+,;=", b":", b"@", b"%", b"%2F", b"%2f", b"%5C", b"%5c", b"%2e", b"%2E",
    b"%41", b"%7a", b"%7E", b"%20", b"%25", b"%C3%A9", b"%c3%a9", b"%D1", b"%ff", b"%0", b"%g0",
    b"[", b"]", b"_rels", b"_RELS", b".rels", b".Rels", b"/_rels/", b"/_rels/a.rels",
    b"\xC3\xA9", b"\xE2\x82\xAC", b"\xF0\x9F\x94\xAC", b"\xC3", b"\xA9", b"\xEF\xBF\xBE",
    b"tiles", b"r012c044.tiff", b" ", b"?", b"#", b"\\", b"\0", b"\x7F", b"text/xml",
    b"image/tiff", b";page=2", b"rId1", b"http://", b"urn:",
];

#[rustfmt::skip]
const NUMBERS: &[&[u8]] = &[
    b"0", b"1", b"9", b"10", b"99", b"100", b"999", b"1000", b"9999", b"10000", b"65536",
    b"4294967296", b"18446744073709551616", b"00", b"01", b"010", b"", b"-1", b"+1", b"a",
    b"1 ", b"1]", b"[1", b"\xC2\xB2",
];

#[rustfmt::skip]
const MARKS: &[&[u8]] = &[
    b".piece", b".PIECE", b".Piece", b".last.piece", b".LAST.piece", b".lAsT.pIeCe", b".last",
    b"piece", b".piec", b".piece ", b".last.last.piece", b".piece.last", b".", b"",
    b".lost.piece",
];

/// A piece suffix or something close to it.
fn suffix(random: &mut Random) -> Vec<u8> {
    let number = match random.below(2) {
        0 => random.below(10_001).to_string().into_bytes(),
        _ => random.pick(NUMBERS).to_vec(),
    };
    let mark = match random.below(3) {
        0 => random.pick(MARKS),
        1 => &b".piece"[..],
        _ => b".Last.Piece",
    };
    [b"/[", &number[..], b"]", mark].concat()
}

/// A part name, most of the time.
pub fn plain_name(random: &mut Random) -> Vec<u8> {
    let segments: [&[u8]; 14] = [
        b"a",
        b"B",
        b"tiles",
        b"L3",
        b"t.tiff",
        b".x",
        b"%20",
        b"\xC3\xA9",
        b"%C3",
        b"_rels",
        b"x.rels",
        b"a-b",
        b"A",
        b"b.",
    ];
    random.name(&segments, 5)
}

pub fn random_text(random: &mut Random) -> Vec<u8> {
    let text = match random.below(4) {
        0 => random.joined(FRAGMENTS, 8),
        1 => [&b"/"[..], &random.joined(FRAGMENTS, 6)].concat(),
        _ => plain_name(random),
    };
    let text = match random.below(3) {
        0 => [text, suffix(random)].concat(),
        _ => text,
    };
    match random.below(8) {
        0 | 1 => random.damaged(&text),
        2 | 3 => random.flip_case(&text),
        _ => text,
    }
}

#[test]
fn random_names() {
    let mut random = Random::new("random names");
    let mut tally = Tally::default();
    for _ in 0..300_000 {
        tally.add(compare(&random_text(&mut random)));
    }
    tally.require("random names", 200_000);
}

/// Fields are short texts out of few bytes, so that many are accepted.
#[test]
fn random_fields() {
    let mut random = Random::new("random fields");
    let mut tally = Tally::default();
    let bytes = b"aAzZ09-._~!#$%&'*+^`|/:;=@,?()\"<>[]{} \\\x7F\x80\xC3";
    for _ in 0..200_000 {
        let few = 4 + random.below(bytes.len() - 3);
        let length = random.below(8);
        let text: Vec<u8> = (0..length).map(|_| bytes[random.below(few)]).collect();
        tally.add(compare(&text));
    }
    tally.require("random fields", 200_000);
}
