//! Random IRIs, names, package IRIs and pack IRIs, or what is close to them.

use crate::support::Random;
use reference::{pack, relationships};

#[rustfmt::skip]
const SEGMENTS: &[&[u8]] = &[
    b"", b"", b".", b".", b"..", b"..", b"...", b"a", b"B", b"c.xml", b".a", b"..b", b"a.", b"g;x=1",
    b"%2F", b"%2f", b"%23", b"%25", b"%3C", b"%41", b"%C3%A9", b"%7F", b"%80", b"\xC3\xA9", b",",
    b":", b"a:b", b"@", b"_rels", b"_RELS", b"x.rels", b".rels",
];

#[rustfmt::skip]
const SCHEMES: &[&[u8]] = &[
    b"a:", b"http:", b"urn:", b"pack:", b"PACK:", b"h+-.1:", b"http:", b"A:", b"1:", b":", b"%41:",
];

#[rustfmt::skip]
const AUTHORITIES: &[&[u8]] = &[
    b"", b"a", b"www.example.com", b"u:p@h:80", b"%41", b"a,b", b"\xC3\xA9", b"..", b".",
];

#[rustfmt::skip]
const TAILS: &[&[u8]] = &[
    b"", b"y", b"a=b&c=d", b"/../x", b"./", b"?", b"%3F", b"a:b", b",@", b"\xE2\x82\xAC",
];

/// Segments with slashes between them, perhaps one before.
pub fn path(random: &mut Random) -> Vec<u8> {
    let mut path = Vec::new();
    if random.once_in(2) {
        path.push(b'/');
    }
    for i in 0..random.below(7) {
        if i > 0 {
            path.push(b'/');
        }
        path.extend_from_slice(random.pick(SEGMENTS));
    }
    path
}

/// A path with many segments, near the limit.
pub fn long_path(random: &mut Random) -> Vec<u8> {
    let units: [&[u8]; 9] = [
        b"../",
        b"./",
        b"a/",
        b"a/../",
        b"/",
        b"%20",
        b"\xC3\xA9/",
        b"abcdefgh/",
        b"b",
    ];
    let (one, other) = (random.pick(&units), random.pick(&units));
    let length = 235 + random.below(22);
    let turn = random.below(length);
    let mut path = if random.once_in(2) {
        b"/".to_vec()
    } else {
        Vec::new()
    };
    while path.len() < length {
        path.extend_from_slice(if path.len() < turn { one } else { other });
    }
    path.truncate(length);
    path
}

/// An IRI or something close to it.
pub fn reference_text(random: &mut Random, scheme_once_in: usize) -> Vec<u8> {
    let mut text = Vec::new();
    if random.once_in(scheme_once_in) {
        text.extend_from_slice(random.pick(SCHEMES));
    }
    if random.once_in(3) {
        text.extend_from_slice(b"//");
        text.extend_from_slice(random.pick(AUTHORITIES));
        if random.once_in(2) {
            text.push(b'/');
        }
    }
    let path = if random.once_in(10) {
        long_path(random)
    } else {
        path(random)
    };
    text.extend_from_slice(&path);
    for mark in [b'?', b'#'] {
        if random.once_in(4) {
            text.push(mark);
            text.extend_from_slice(random.pick(TAILS));
        }
    }
    damaged_at_times(random, text)
}

/// Once in ten times the text with one byte damaged.
fn damaged_at_times(random: &mut Random, text: Vec<u8>) -> Vec<u8> {
    if random.once_in(10) {
        random.damaged(&text)
    } else {
        text
    }
}

/// A part name or something close to it; at times `/`.
pub fn name_text(random: &mut Random) -> Vec<u8> {
    if random.once_in(10) {
        return b"/".to_vec();
    }
    let segments: [&[u8]; 12] = [
        b"a",
        b"B",
        b"foo",
        b"test.xml",
        b"%20",
        b"%C3",
        b"\xC3\xA9",
        b"a:b",
        b"_rels",
        b"x.rels",
        b",@",
        b"L3",
    ];
    let mut name = random.name(&segments, 4);
    match random.below(20) {
        0 | 1 => {
            let length = 250 + random.below(8);
            name.resize(length.max(name.len()), b'n');
        }
        2 => name.extend_from_slice(&random.flip_case(b"/_rels/x.rels")),
        _ => {}
    }
    damaged_at_times(random, name)
}

/// A package IRI or something close to it; at times of characters that all
/// become triplets, near the limit.
pub fn package_text(random: &mut Random) -> Vec<u8> {
    match random.below(8) {
        0 => {
            let unit: &[u8] = random.pick(&[b"@", b":", b",", b"?", b"/", b"a", b"%25"]);
            let length = 250 + random.below(8);
            let mut text = random.pick(&[&b"a:"[..], b"a:b", b"a:/"]).to_vec();
            while text.len() + unit.len() <= length {
                text.extend_from_slice(unit);
            }
            text
        }
        1 => b"http://www.example.com/ex.opc#frag".to_vec(),
        _ => reference_text(random, 1),
    }
}

#[rustfmt::skip]
const ENCODED: &[&[u8]] = &[
    b"http%3A", b",", b",", b",,", b"www.my.com", b"%3A", b"%3a", b"%3F", b"%40", b"%25", b"%2541",
    b"%2C", b"%2c", b"%2F", b"%23", b"%3C", b"%00", b"%20", b"%5B", b"%7F", b"%80", b"%C3%A9",
    b"%41", b"%61", b"%", b"%%341", b"%2", b":", b"@", b"a", b"B1", b"\xC3\xA9", b"!$&'()*+;=", b"~",
    b"%2525", b"%25C3",
];

/// An authority near 765 bytes, or one whose package IRI is near 255.
fn long_authority(random: &mut Random) -> Vec<u8> {
    let start: &[u8] = random.pick(&[&b"%61%3A"[..], b"a%3A", b"a:"]);
    let unit: &[u8] = random.pick(&[b"%40", b"%41", b"%25", b"%80", b"ab,", b"%2C"]);
    let mut text = start.to_vec();
    for _ in 0..248 + random.below(8) {
        text.extend_from_slice(unit);
    }
    let extra = random.below(4);
    text.resize(text.len() + extra, b'x');
    text
}

/// A pack IRI or something close to it.
pub fn pack_text(random: &mut Random) -> Vec<u8> {
    if random.once_in(3) {
        let (package, name) = (package_text(random), name_text(random));
        let mut out = [0; 1100];
        if let Ok(length) = pack::compose(&package, &name, &mut out) {
            let text = random.flip_case(&out[..length]);
            return damaged_at_times(random, text);
        }
    }
    let schemes: [&[u8]; 8] = [
        b"pack://",
        b"pack://",
        b"PACK://",
        b"pAcK://",
        b"pack:/",
        b"pack:",
        b"packs://",
        b"//",
    ];
    let mut text = random.pick(&schemes).to_vec();
    text.extend_from_slice(random.pick(&[&b"http%3A"[..], b"a%3A", b"a:", b""]));
    let authority = match random.below(8) {
        0 => long_authority(random),
        _ => random.joined(ENCODED, 5),
    };
    text.extend_from_slice(&authority);
    match random.below(4) {
        0 => {}
        1 => text.push(b'/'),
        _ => text.extend_from_slice(&name_text(random)),
    }
    if random.once_in(20) {
        text.extend_from_slice(random.pick(&[&b"?"[..], b"#", b"?q", b"#f", b"//", b"/"]));
    }
    damaged_at_times(random, text)
}

/// The name of a Relationships part or something close to it.
pub fn rels_text(random: &mut Random) -> Vec<u8> {
    let source = name_text(random);
    let mut out = [0; 300];
    let text = match relationships::relationships_part(&source, &mut out) {
        Ok(length) => random.flip_case(&out[..length]),
        Err(_) => {
            let end = random.pick(&[&b"/_rels/.rels"[..], b".rels", b"/_RELS/x.Rels"]);
            [&source, end].concat()
        }
    };
    damaged_at_times(random, text)
}
