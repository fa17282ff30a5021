//! Random streams, cut and damaged at every place.

use super::{read, Random};
use reference::examples::streams::{Kind, DEFAULT, RELATIONSHIP};
use reference::random_streams::{relationships, types, Damage};

const STREAMS: usize = 100;
/// Longer streams are left out: each is read many times per byte.
const LENGTH_MAX: usize = 1500;

/// A stream to be damaged: where it gets too deep, and where its root ends.
struct Whole {
    bytes: Vec<u8>,
    deep: Option<usize>,
    end: usize,
}

/// Calls `check` with so many streams of that kind.
fn each(kind: &Kind, seed: u64, mut check: impl FnMut(&mut Random, &Whole)) {
    let mut random = Random(seed);
    let mut count = 0;
    while count < STREAMS {
        let below = &mut |end| random.below(end);
        let (bytes, deep, end) = if kind == &RELATIONSHIP {
            let made = relationships(below);
            (made.bytes, made.deep, made.end)
        } else {
            let made = types(below);
            (made.bytes, made.deep, made.end)
        };
        if bytes.len() <= LENGTH_MAX {
            count += 1;
            check(&mut random, &Whole { bytes, deep, end });
        }
    }
}

/// A stream that is cut before its root ends gives 19; one that gets too deep,
/// 20 from the first byte of the deep name on.
#[test]
fn cut_at_every_place() {
    for (kind, seed) in [(DEFAULT, 5_011), (RELATIONSHIP, 5_012)] {
        each(&kind, seed, |_, whole| {
            let count = read(&kind, &whole.bytes);
            for at in 0..whole.bytes.len() {
                let answer = read(&kind, &whole.bytes[..at]);
                let shown = whole.bytes[..at].escape_ascii();
                match whole.deep {
                    Some(deep) if at >= deep + 2 => assert_eq!(answer, Err(20), "{shown}"),
                    None if at >= whole.end => {
                        // in what follows the root, a comment may be cut
                        assert!(answer == count || answer == Err(19), "{shown}");
                    }
                    _ => assert_eq!(answer, Err(19), "{shown}"),
                }
            }
        });
    }
}

/// A damaged stream has entries, or gives 19, or 20: then all before the tag
/// that is too deep begins an accepted stream.
#[test]
fn damaged_at_every_place() {
    for (kind, seed) in [(DEFAULT, 5_013), (RELATIONSHIP, 5_014)] {
        let (mut accepted, mut malformed, mut deep) = (0, 0, 0);
        each(&kind, seed, |random, whole| {
            for at in 0..whole.bytes.len() {
                for damage in Damage::each(&mut |end| random.below(end)) {
                    let stream = damage.to(&whole.bytes, at);
                    match read(&kind, &stream) {
                        Ok(_) => accepted += 1,
                        Err(19) => malformed += 1,
                        Err(20) => {
                            deep += 1;
                            if deep % 20 == 0 {
                                check_deep(&kind, &stream);
                            }
                        }
                        Err(number) => panic!("{number}: {}", stream.escape_ascii()),
                    }
                }
            }
        });
        println!(
            "{}: {accepted} accepted, {malformed} give 19, {deep} give 20",
            kind.root
        );
        assert!(accepted > 5_000 && malformed > 5_000 && deep > 5_000);
    }
}

/// Checks that a stream which is too deep is so from one place on, and that
/// all before the tag there can be ended.
fn check_deep(kind: &Kind, stream: &[u8]) {
    let (mut malformed, mut deep) = (0, stream.len());
    while malformed + 1 < deep {
        let middle = (malformed + deep) / 2;
        match read(kind, &stream[..middle]) {
            Err(20) => deep = middle,
            Err(19) => malformed = middle,
            answer => panic!("{answer:?}: {}", stream[..middle].escape_ascii()),
        }
    }
    let before = &stream[..deep - 2];
    assert_eq!(stream[deep - 2], b'<');
    let (ended, depth) = ended(before);
    let shown = ended.escape_ascii();
    assert_eq!(depth, 16, "{shown}");
    assert!(read(kind, &ended).is_ok(), "{shown}");
}

/// What begins an accepted stream, with end tags for all that is open there,
/// and how many they are.
fn ended(start: &[u8]) -> (Vec<u8>, usize) {
    let mut open: Vec<&[u8]> = Vec::new();
    let mut rest = start;
    while let Some(at) = rest.iter().position(|&byte| byte == b'<') {
        rest = &rest[at..];
        let length = if rest.starts_with(b"<!--") {
            find(rest, b"-->", 4) + 3
        } else if rest.starts_with(b"</") {
            open.pop();
            find(rest, b">", 2) + 1
        } else if rest.starts_with(b"<?") {
            find(rest, b"?>", 2) + 2
        } else {
            let length = tag_length(rest);
            if !rest[..length].ends_with(b"/>") {
                let ends = |byte: &u8| b" \t\r\n>".contains(byte);
                let end = rest.iter().position(ends).expect("a tag ends");
                open.push(&rest[1..end]);
            }
            length
        };
        rest = &rest[length..];
    }
    let mut ended = start.to_vec();
    for name in open.iter().rev() {
        ended.extend_from_slice(&[b"</", *name, b">"].concat());
    }
    (ended, open.len())
}

/// Where a text stands, from a place on.
fn find(bytes: &[u8], text: &[u8], from: usize) -> usize {
    let at = bytes[from..].windows(text.len()).position(|w| w == text);
    from + at.expect("the text stands there")
}

/// The length of a start tag: up to the first `>` that isn't in a value.
fn tag_length(tag: &[u8]) -> usize {
    let mut quote = None;
    for (at, &byte) in tag.iter().enumerate() {
        match quote {
            None if byte == b'>' => return at + 1,
            None if b"\"'".contains(&byte) => quote = Some(byte),
            Some(mark) if mark == byte => quote = None,
            _ => {}
        }
    }
    panic!("a tag ends");
}
