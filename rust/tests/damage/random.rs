//! Random calls on a package.

use crate::support::calls::Call;
use crate::support::types::near_media_type;
use crate::support::{streams, Random};
use zombirels::script::Code;

#[rustfmt::skip]
const NAMES: &[&[u8]] = &[
    b"/a", b"/A", b"/a/b", b"/b/[0].piece", b"/B/[1].piece", b"/b/[2].last.piece", b"/b", b"/c.tiff", b"/tiles/L3/r012c044.tiff",
    b"/tiles/L3/r012c044.tiff/[0].piece", b"/tiles/L3/r012c044.tiff/[1].last.piece", b"/d", b"/e/[9999].last.piece", b"/\xC3\xA9",
    b"/_rels/.rels", b"/a/[x]", b"a", b"", b"/",
];

const EXTENSIONS: &[&[u8]] = &[b"tiff", b"TIFF", b"xml", b"e", b"a.b", b""];
const IDS: &[&[u8]] = &[b"r1", b"R1", b"_", b"1"];
const KINDS: &[&[u8]] = &[b"a:", b"http://example.com/mask", b"a"];
const TARGETS: &[&[u8]] = &[b"b", b"../c.tiff", b"/a", b"_rels/.rels", b"a:b#c", b""];
const BASES: &[&[u8]] = &[b"http://www.example.com/ex.opc", b"a:,,#f", b"a"];

/// A source: the package, or a name.
fn source(random: &mut Random) -> Vec<u8> {
    match random.below(3) {
        0 => b"/".to_vec(),
        _ => name(random),
    }
}

pub fn name(random: &mut Random) -> Vec<u8> {
    let name = random.pick(NAMES);
    match random.below(3) {
        0 => format!("/t{}", random.below(20)).into_bytes(),
        1 => random.flip_case(name),
        _ => name.to_vec(),
    }
}

/// Puts a Default, an Override or a relationship.
pub fn put_field(random: &mut Random) -> Call {
    let (name, media_type) = (name(random), near_media_type(random));
    match random.below(3) {
        0 => Call::new(Code::PutDefault, &[random.pick(EXTENSIONS), &media_type]),
        1 => Call::new(Code::PutOverride, &[&name, &media_type]),
        _ => {
            let (source, id) = (source(random), random.pick(IDS));
            let (kind, target) = (random.pick(KINDS), random.pick(TARGETS));
            let mode = random.pick(&[0, 1]);
            Call::new(Code::PutRelationship, &[&source, id, kind, target]).with_number(mode)
        }
    }
}

pub fn drop_field(random: &mut Random) -> Call {
    match random.below(3) {
        0 => Call::new(Code::DropDefault, &[random.pick(EXTENSIONS)]),
        1 => Call::new(Code::DropOverride, &[&name(random)]),
        _ => Call::new(Code::DropRelationship, &[&source(random), random.pick(IDS)]),
    }
}

/// Cuts a part, or joins its pieces.
pub fn cut_or_join(random: &mut Random) -> Call {
    let name = name(random);
    let pieces = random.pick(&[0, 1, 2, 2, 3, 9, 60, 256, 257, u64::MAX]);
    match random.below(5) {
        0 | 1 => Call::new(Code::JoinPart, &[&name]),
        _ => Call::new(Code::CutPart, &[&name]).with_number(pieces),
    }
}

/// A call on a package; its texts are allocations of their own lengths.
pub fn random_call(random: &mut Random) -> Call {
    let length = random.pick(&[0, 1, 2, 7, 255, 600]);
    let (name, other) = (name(random), name(random));
    match random.below(41) {
        0 => {
            let size = random.below(400);
            Call::new(Code::PutItem, &[&name, &random.bytes(size)])
        }
        1..=3 => Call::new(Code::PutItem, &[&name, &other]),
        4..=5 => Call::new(Code::DropItem, &[&name]),
        6..=7 => Call::new(Code::FindItem, &[&name]),
        8 => Call::new(Code::ViewItem, &[&name]),
        9..=11 => {
            let offset = random.pick(&[0, 1, 100, u64::MAX, 1 << 32]);
            Call::new(Code::ReadPart, &[&name])
                .with_number(offset)
                .with_output(length)
        }
        12..=13 => {
            let position = random.pick(&[0, 1, 2, 3, 255, 256, u64::MAX]);
            Call::new(Code::PartAt, &[])
                .with_number(position)
                .with_output(length)
        }
        14..=17 => put_field(random),
        18..=19 => drop_field(random),
        20..=21 => Call::new(Code::MediaType, &[&name]).with_output(length),
        22..=24 => {
            let texts: [&[u8]; 3] = [&source(random), random.pick(IDS), random.pick(BASES)];
            Call::new(Code::ResolveRelationship, &texts).with_output(length)
        }
        25..=27 if random.once_in(3) => Call::new(Code::WriteTypes, &[]).with_output(length * 12),
        25..=27 => Call::new(Code::WriteRelationships, &[&source(random)]).with_output(length * 12),
        28..=31 => cut_or_join(random),
        32..=34 => Call::new(Code::TypeOrigin, &[&name]).with_output(length),
        35 | 36 => Call::new(Code::ReadTypes, &[&streams::types(random, 6)]),
        37 | 38 => {
            let (source, stream) = (source(random), streams::relationships(random, 6));
            Call::new(Code::ReadRelationships, &[&source, &stream])
        }
        _ => Call::new(Code::Totals, &[]),
    }
}
