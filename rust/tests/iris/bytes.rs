//! Every byte in every position, and every short reference.

use crate::support::{Random, Tally};
use crate::Call;

/// A call, what stands before and after a byte, and the other input.
type Hole = (Call, &'static [u8], &'static [u8], &'static [u8]);

const HOLES: &[Hole] = &[
    (Call::Reference, b"a", b":b", b"c"),
    (Call::Reference, b"a:", b"", b"c"),
    (Call::Reference, b"a:", b"/b/c", b"../d"),
    (Call::Reference, b"a:/b/", b"/c", b"../d"),
    (Call::Reference, b"a://h", b"", b"?"),
    (Call::Reference, b"a://h/b", b"c", b"d/.."),
    (Call::Target, b"", b"a", b"b"),
    (Call::Target, b"/", b"", b"./b"),
    (Call::Target, b"/a", b"b", b"../b"),
    (Call::Target, b"/a/", b"rels/b", b"x.rels"),
    (Call::Compose, b"a:", b"b", b"/c"),
    (Call::Compose, b"", b":b", b"/c"),
    (Call::Compose, b"a:%4", b"", b"/"),
    (Call::Resolve, b"", b"ack://a%3A/b", b""),
    (Call::Resolve, b"pack", b"//a%3A/b", b""),
    (Call::Resolve, b"pack:", b"/a%3A/b", b""),
    (Call::Resolve, b"pack://", b"%3A/b", b""),
    (Call::Resolve, b"pack://a%3A", b"/b", b""),
    (Call::Resolve, b"pack://a%3A%", b"1/b", b""),
    (Call::Resolve, b"pack://a%3A%4", b"/b", b""),
    (Call::Resolve, b"pack://a%3A%25", b"1/b", b""),
    (Call::Resolve, b"pack://a%3A/", b"", b""),
    (Call::RelationshipsPart, b"/a/", b"", b""),
    (Call::SourceOf, b"/a/", b"rels/b.rels", b""),
    (Call::SourceOf, b"/a/_rels/b", b"rels", b""),
    (Call::SourceOf, b"/a", b"_rels/.rels", b""),
];

#[test]
fn every_byte_in_every_position() {
    let mut random = Random::new("every byte");
    let mut tally = Tally::default();
    for &(call, before, after, other) in HOLES {
        for byte in 0..=255 {
            let text = [before, &[byte], after].concat();
            tally.add(call.compare(&mut random, &text, other) == 0);
            if matches!(call, Call::Reference | Call::Target | Call::Compose) {
                let text = [before, b"z", after].concat();
                let other = [other, &[byte], b"x"].concat();
                tally.add(call.compare(&mut random, &text, &[byte]) == 0);
                tally.add(call.compare(&mut random, &text, &other) == 0);
            }
        }
    }
    tally.require("every byte", HOLES.len() * 256);
}

/// All references of up to five bytes that decide the shape of the result.
#[test]
fn every_short_reference() {
    let mut random = Random::new("every short reference");
    let mut tally = Tally::default();
    let bytes = b"./a:?#";
    for length in 0..=5 {
        for number in 0..bytes.len().pow(length) {
            let digit = |i: u32| bytes[number / bytes.len().pow(i) % bytes.len()];
            let reference: Vec<u8> = (0..length).map(digit).collect();
            for base in [&b"a:"[..], b"a:b", b"a:/b/c", b"a://h", b"a://h/b/./c?q#f"] {
                tally.add(Call::Reference.compare(&mut random, base, &reference) == 0);
            }
            for source in [&b"/"[..], b"/b", b"/b/c/d"] {
                tally.add(Call::Target.compare(&mut random, source, &reference) == 0);
            }
        }
    }
    tally.require("every short reference", 70_000);
}
