//! The texts that random calls are made of, well-formed and odd ones.

use crate::support::Random;

#[rustfmt::skip]
pub const SEGMENTS: &[&[u8]] = &[
    b"a", b"b", b"a.b", b"ab", b"T3", b"\xC3\xA9", b"\xC3\x89", b"%20", b"%C3", b"_rels", b"x.rels", b"R&D.&", b"Az", b"a@",
];

#[rustfmt::skip]
pub const ODD_SUFFIXES: &[&[u8]] = &[
    b"/[0]", b"/[00].piece", b"/[10000].piece", b"/[1].last", b"/[1].piece.last", b"/[x].piece",
    b"/[-1].piece", b"/", b".", b"/[1].piece/b", b"/[1].lastpiece", b"/[", b"/[9999].last.piece",
];

#[rustfmt::skip]
pub const ODD_NAMES: &[&[u8]] = &[
    b"", b"/", b"a", b"//", b"/a/", b"/a.", b"/%2f", b"/%41", b"/[0].piece", b"[0].piece", b"/_rels/.rels",
    b"/x/_RELS/y.Rels", b"/_rels/a.rels/[0].piece", b"/\xC3", b"/a b",
];

pub const RESERVED: &[&[u8]] = &[b"/_rels/.rels", b"/_Rels/a.RELS", b"/x/_RELS/y.Rels"];

#[rustfmt::skip]
pub const EXTENSIONS: &[&[u8]] = &[
    b"b", b"&", b"&&&", b"tiff", b"tif", b"tiffZ", b"tiff@", b"xml", b"rels", b"\xC3\xA9", b"\xC3\x89", b"%20", b"x",
    b"abcdefghijklmnopqrstuvwxyz-12345",
];

#[rustfmt::skip]
pub const ODD_EXTENSIONS: &[&[u8]] = &[
    b"", b".", b"a.b", b"%41", b"%2f", b"a/b", b"%2", b"\xC3", b"a b", b"[", b"\xEE\x80\x80", b"abcdefghijklmnopqrstuvwxyz-12345%",
    b"abcdefghijklmnopqrstuvwxyz-123456",
];

pub const IDS: &[&[u8]] = &[b"r1", b"R1", b"_", b"rId9", b"a.b-c_d", b"r"];

#[rustfmt::skip]
pub const ODD_IDS: &[&[u8]] = &[b"", b"1a", b"-a", b".a", b"a b", b"a:b", b"\xC3\xA9", b"a/b", b"r1\n", b"%20"];

#[rustfmt::skip]
pub const KINDS: &[&[u8]] = &[b"a:", b"a:?b&&c=d&", b"http://example.com/mask", b"urn:x:y?z#f", b"A+-.1://h/%41", b"x:\xC3\xA9"];

#[rustfmt::skip]
pub const ODD_KINDS: &[&[u8]] = &[b"", b"a", b"/a:b", b":a", b"1a:b", b"a:[", b"a:b#c#d", b"#a:", b"a: b", b"a:%4", b"a:\xC3"];

/// Package IRIs, to resolve relationships in.
#[rustfmt::skip]
pub const BASES: &[&[u8]] = &[
    b"http://www.example.com/ex.opc", b"http://a/b/c/d;p?q#f", b"http://h", b"http://h?q", b"urn:x,y@z", b"a:", b"a:#f", b"a:/b/../c",
    b"x:\xC3\xA9/%41%2f,", b"A+-.1://u@h:8/%25?/",
];

/// Targets, well-formed or not, in either mode or in one only.
#[rustfmt::skip]
pub const TARGETS: &[&[u8]] = &[
    b"a", b"T3", b"&", b"a&&b", b"a?b&c", b"a/b", b"./a", b"../g", b"../../g", b"../../../g", b"/a/b", b"/", b".", b"..", b"a/",
    b"./", b"../", b"a//b", b"b.",
    b"/./a", b"/../a", b"a/../b", b"a/./b", b"../b/../c", b"a:b", b"./a:b", b"//h/p", b"/.//a", b"?q", b"#f", b"a?q", b"a#f", b"a#f#g",
    b"http://example.com/x?y#z", b"_rels/.rels", b"_RELS/x.Rels", b"../_rels/a.rels", b"/x/_rels/y.rels", b"x.rels", b"%41", b"a%2fb",
    b"%20", b"\xC3\xA9", b"\xC3\x89", b"\xC3", b"", b"a b", b"[0].piece", b"a/[0].piece", b":a", b"1:a", b"...", b"a..",
];

/// Numbers that are no mode.
pub const ODD_MODES: &[u64] = &[
    2,
    3,
    255,
    256,
    257,
    1 << 32,
    (1 << 32) + 1,
    1 << 63,
    u64::MAX,
];

/// The path whose beginnings names share.
const PATH: &[u8] = b"/tiles-of-the-Left-Ovary-17-scanned-in-2026-";

/// As many bytes of a long path as names may share, few or up to 240.
pub fn beginning(random: &mut Random) -> Vec<u8> {
    let most = random.pick(&[2, 9, 44, 240]);
    let bytes = PATH.iter().chain(PATH[1..].iter().cycle());
    bytes.take(1 + random.below(most)).copied().collect()
}

/// A name that begins as others do, and leaves their path by a few bytes.
pub fn forked_name(random: &mut Random) -> Vec<u8> {
    let ends: [&[u8]; 8] = [b"a", b"Z", b"-", b"@", b"~", b"t", b"-17", b"/t"];
    let mut name = beginning(random);
    name.extend_from_slice(random.pick(&ends));
    name
}

/// A well-formed text most often, in its own or in another case, or an odd one.
pub fn field(random: &mut Random, texts: &[&[u8]], odd: &[&[u8]]) -> Vec<u8> {
    if random.once_in(12) {
        return random.pick(odd).to_vec();
    }
    let text = random.pick(texts);
    match random.below(8) {
        0..=2 => random.flip_case(text),
        3 if random.once_in(4) => random.damaged(text),
        _ => text.to_vec(),
    }
}

/// `start`, then as many of `byte` as make `length`.
pub fn filled(start: &[u8], byte: u8, length: usize) -> Vec<u8> {
    let mut text = start.to_vec();
    text.resize(length.max(start.len()), byte);
    text
}

/// The length of an output: none, short, or long.
pub fn random_length(random: &mut Random) -> usize {
    match random.below(8) {
        0 => 0,
        1..=3 => random.below(24),
        4 | 5 => 200 + random.below(80),
        _ => random.below(5000),
    }
}
