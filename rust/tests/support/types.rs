//! Random media types, with parameters and without, and texts close to them.

use super::Random;

#[rustfmt::skip]
const TYPES: &[&[u8]] = &[
    b"a/b", b"image/tiff", b"Image/TIFF", b"text/xml", b"application/vnd.example.tile+xml", b"!#$/%&'*+-.^_`|~", b"image/tiff;page=2",
    b"a/b;c=&", b"a/b;&=d", b"a/b;c=d;C=D;c=d", b"text/xml;q=1",
];

#[rustfmt::skip]
const ODD_TYPES: &[&[u8]] = &[
    b"", b"/", b"a", b"a/", b"/b", b"a/b/c", b"a b/c", b" a/b", b"a/b ", b"a/\xC3\xA9", b"a/(b)", b"a,b/c", b"a/b;", b"a/b;;", b"a/b;c=d;",
    b"a/b;;c=d", b"a/b;c", b"a/b;c;e=f", b"a/b;=d", b"a/b;c=", b"a/b;c=d=e", b"a/b;c==d", b"a/b;c=d/e", b"a/b;c/d=e", b"a/b;c=\"d\"",
    b"a/b; c=d", b"a/b ;c=d", b"a/b;c =d", b"a/b;c= d", b"a/b;c=d\0", b"a/b;c=\x80", b"a/b;c=\xC3\xA9", b"a;c=d/b", b";a/b", b"a/b/c;d=e",
];

const TOKENS: &[&[u8]] = &[
    b"a",
    b"B",
    b"2",
    b"page",
    b"tiff",
    b"&",
    b"&amp",
    b"x-tile+xml",
    b"!#$%&'*+-.^_`|~",
];

/// The bytes that part the tokens of a media type.
const PARTING: &[u8] = b"/;=";

/// Bytes that no token has, those that part tokens more than once.
const ODD_BYTES: &[u8] = b"/;=/;=\0\t\r \"(),:<>?@[\\]{}\x7F\x80\xC3\xFF";

/// A media type most often, else a text that is close to one.
pub fn near_media_type(random: &mut Random) -> Vec<u8> {
    match random.below(8) {
        0 => odd_media_type(random),
        _ => media_type(random),
    }
}

/// A media type: without parameters, with few, with up to 31, or a long one.
pub fn media_type(random: &mut Random) -> Vec<u8> {
    match random.below(12) {
        0..=4 => random.pick(TYPES).to_vec(),
        5..=9 => with_parameters(random, TOKENS, 3),
        10 => with_parameters(random, &[b"a", b"&"], 31),
        _ => {
            let length = 100 + random.below(28);
            long_media_type(random, length)
        }
    }
}

/// A text that is no media type: one of those by hand, one that is too long,
/// or a media type with a byte too many or too few.
pub fn odd_media_type(random: &mut Random) -> Vec<u8> {
    let mut text = media_type(random);
    match random.below(4) {
        0 => return random.pick(ODD_TYPES).to_vec(),
        1 => {
            let length = 128 + random.below(4);
            return long_media_type(random, length);
        }
        2 => {
            let parts = |at: &usize| PARTING.contains(&text[*at]);
            let places: Vec<usize> = (0..text.len()).filter(parts).collect();
            text.remove(random.pick(&places));
        }
        _ => {
            let at = random.below(text.len() + 1);
            text.insert(at, random.pick(ODD_BYTES));
        }
    }
    text
}

/// A media type with up to `most` parameters, as many as 127 bytes take.
fn with_parameters(random: &mut Random, tokens: &[&[u8]], most: usize) -> Vec<u8> {
    let mut text = [random.pick(tokens), b"/", random.pick(tokens)].concat();
    for _ in 0..random.below(most + 1) {
        let parameter = [&b";"[..], random.pick(tokens), b"=", random.pick(tokens)].concat();
        if text.len() + parameter.len() <= 127 {
            text.extend_from_slice(&parameter);
        }
    }
    text
}

/// A media type of so many bytes, 3 or more, but for those above 127 that make
/// it none. It has up to 31 parameters, and one long token.
pub fn long_media_type(random: &mut Random, length: usize) -> Vec<u8> {
    let count = random.below(32).min((length - 3) / 4);
    let mut text = [&b"a/b"[..], &b";c=&".repeat(count)].concat();
    // every place is beside a token
    let at = random.below(text.len() + 1);
    let fill = vec![b'x'; length - text.len()];
    text.splice(at..at, fill);
    text
}
