//! Every byte in every position, and every character.

use crate::support::{show, Random, Tally};
use crate::{alike, compare, ref_names};
use zombirels::names;

/// What stands before and after a byte, for each class of positions.
const HOLES: &[(&[u8], &[u8])] = &[
    // alone, first, in the middle, last, after a slash, before one
    (b"", b""),
    (b"", b"a"),
    (b"", b"/a"),
    (b"/", b""),
    (b"/", b"a"),
    (b"/a", b"b"),
    (b"/ab", b""),
    (b"/a/", b"b"),
    (b"/a/", b""),
    (b"/a", b"/b"),
    (b"/a.", b""),
    (b"/a", b"."),
    // in triplets
    (b"/%", b"0"),
    (b"/%", b"A"),
    (b"/%", b"f"),
    (b"/a%", b""),
    (b"/%2", b""),
    (b"/%3", b""),
    (b"/%4", b"x"),
    (b"/%5", b"x"),
    (b"/%6", b""),
    (b"/%7", b""),
    (b"/%a", b""),
    (b"/%C3%A", b""),
    (b"%", b"1"),
    (b"%4", b""),
    (b"a:%", b"1"),
    (b"a:%4", b"/"),
    // in characters of two to four bytes
    (b"/", b"\x80"),
    (b"/", b"\xBF\xBF"),
    (b"/", b"\x90\x80\x80"),
    (b"/\xC2", b""),
    (b"/\xC3", b"a"),
    (b"/\xE0", b"\xA0"),
    (b"/\xE2", b"\x82"),
    (b"/\xED", b"\x80"),
    (b"/\xEF", b"\xB7"),
    (b"/\xE2\x82", b""),
    (b"/\xEF\xB7", b""),
    (b"/\xEF\xBF", b""),
    (b"/\xF0", b"\x90\x80"),
    (b"/\xF3", b"\xA1\x80"),
    (b"/\xF4", b"\x80\x80"),
    (b"/\xF0\x9F", b"\xBF"),
    (b"/\xF0\x9F\xBF", b""),
    (b"\xC3", b""),
    (b"a:\xE2\x82", b""),
    // in the prefix and the suffix of an item name
    (b"", b"a/[0].piece"),
    (b"/a", b"b/[0].piece"),
    (b"/a", b"/[0].piece"),
    (b"/a/", b"0].piece"),
    (b"/a/", b"[0].piece"),
    (b"/a/[", b"].piece"),
    (b"/a/[", b"1].piece"),
    (b"/a/[1", b"].piece"),
    (b"/a/[12", b"3].piece"),
    (b"/a/[999", b"].piece"),
    (b"/a/[9999", b"].piece"),
    (b"/a/[1", b".piece"),
    (b"/a/[1]", b"piece"),
    (b"/a/[1]", b".piece"),
    (b"/a/[1].", b"iece"),
    (b"/a/[1].piec", b""),
    (b"/a/[1].piece", b""),
    (b"/a/[1].", b"ast.piece"),
    (b"/a/[1].las", b".piece"),
    (b"/a/[1].last", b"piece"),
    (b"/a/[1].last.", b"iece"),
    (b"/a/[1].last.piec", b""),
    (b"/a/[1].last.piece", b""),
    // in reserved names
    (b"/_rels", b".rels"),
    (b"/", b"rels/.rels"),
    (b"/_rel", b"/.rels"),
    (b"/_rels/", b"rels"),
    (b"/_rels/.rel", b""),
    (b"/_rels/", b".rels"),
    (b"/_rels/.rels", b""),
    // in media types
    (b"", b"/b"),
    (b"a", b"b"),
    (b"a/", b""),
    (b"a/b", b""),
    (b"a", b"c/b"),
    (b"a/b", b"c"),
    // in extensions and ids
    (b"x", b""),
    (b"x", b"y"),
    (b"_", b""),
    // in IRIs and schemes
    (b"", b":"),
    (b"", b"a:b"),
    (b"a", b":b"),
    (b"a", b"c:b"),
    (b"a:", b""),
    (b"a:b", b"c"),
    (b"a:", b"/h/p"),
    (b"a#", b"b"),
    (b"a:b#", b""),
    (b"a?", b"#b"),
    (b"a/", b":b"),
    (b"/", b":b"),
    (b"?", b":b"),
];

#[test]
fn every_byte_in_every_position() {
    let mut tally = Tally::default();
    for (before, after) in HOLES {
        for byte in 0..=255 {
            let text = [before, &[byte][..], after].concat();
            tally.add(compare(&text));
        }
    }
    tally.require("every byte", HOLES.len() * 256);
}

#[test]
fn every_two_bytes() {
    let holes: [(&[u8], &[u8]); 9] = [
        (b"", b""),
        (b"/", b""),
        (b"/%", b""),
        (b"/a", b"b"),
        (b"/a/", b"].piece"),
        (b"/a/[", b"].piece"),
        (b"/a/[1", b"piece"),
        (b"", b":b"),
        (b"a/", b""),
    ];
    let mut tally = Tally::default();
    for (before, after) in holes {
        for pair in 0..=u16::MAX {
            let text = [before, &pair.to_be_bytes(), after].concat();
            tally.add(compare(&text));
        }
    }
    tally.print("every two bytes");
    assert_eq!(tally.compared, holes.len() << 16);
}

/// Compares the judgements in which characters occur.
fn compare_characters(bytes: &[u8], tally: &mut Tally) {
    let name = [b"/", bytes].concat();
    let right = ref_names::is_part_name(&name);
    let accepted = alike("part name", names::is_part_name(&name), right, || {
        show(&name)
    });
    let well_formed = std::str::from_utf8(bytes).is_ok();
    assert!(well_formed || !accepted, "no UTF-8: {}", show(bytes));
    tally.add(accepted);
}

/// ucschar has 1888 characters of two bytes: U+00A0 to 07FF.
#[test]
fn characters_of_two_bytes() {
    let mut tally = Tally::default();
    for lead in 0xC0..=0xDF {
        for second in 0..=0xFF {
            compare_characters(&[lead, second], &mut tally);
            compare(&[lead, second]);
        }
    }
    tally.print("characters of two bytes");
    assert_eq!(tally.accepted, 1888);
}

/// And of three bytes: 0800 to D7FF, F900 to FDCF, FDF0 to FFEF.
#[test]
fn characters_of_three_bytes() {
    let mut tally = Tally::default();
    for lead in 0xE0..=0xEF {
        for rest in 0..1 << 12 {
            let bytes = [lead, tail(rest, 6), tail(rest, 0)];
            compare_characters(&bytes, &mut tally);
            compare(&bytes);
        }
    }
    tally.print("characters of three bytes");
    assert_eq!(tally.accepted, 0xD000 + 0x4D0 + 0x200);
}

/// And of four bytes: 13 planes without their last two, and E1000 to EFFFD.
#[test]
fn characters_of_four_bytes() {
    let mut tally = Tally::default();
    for lead in 0xF0..=0xF7 {
        for rest in 0..1 << 18 {
            let bytes = [lead, tail(rest, 12), tail(rest, 6), tail(rest, 0)];
            compare_characters(&bytes, &mut tally);
        }
    }
    tally.print("characters of four bytes");
    assert_eq!(tally.accepted, 13 * 0xFFFE + 0xEFFE);
}

/// The continuation byte with six bits of `rest`.
fn tail(rest: u32, shift: u32) -> u8 {
    0x80 | (rest >> shift & 0x3F) as u8
}

/// A lead byte with too few, wrong or too many continuations.
#[test]
fn broken_characters() {
    let mut random = Random::new("broken characters");
    let mut tally = Tally::default();
    for _ in 0..200_000 {
        let mut bytes = [0; 5].map(|_| 0x80 | random.byte() & 0x3F);
        bytes[0] = 0xC0 | random.byte() & 0x3F;
        if random.once_in(2) {
            bytes[1 + random.below(4)] = random.byte();
        }
        let bytes = &bytes[..1 + random.below(5)];
        compare_characters(bytes, &mut tally);
        compare(bytes);
    }
    tally.require("broken characters", 200_000);
}
