//! Random lines.

use crate::corpus::{Corpus, Feed};
use crate::support::types::near_media_type;
use crate::support::{self, Random};
use crate::LINE_MAX;

/// How many random inputs there are if ZOMBIRELS_INPUTS is not set.
const INPUTS: usize = 300;

/// What random lines are made of.
#[rustfmt::skip]
const FIRST: &[&str] = &[
    "/a", "/A", "/b", "/B.xml", "/b.XML", "/a/b", "/A/c.tif", "/t", "/T", "/t/u", "/x.y.TIF", "/tile-3.tif", "/%20", "/\u{e9}", "/c.",
    "/%41",
    "a", "/", "/_rels/a.rels", "/x/_RELS/y.Rels",
];
#[rustfmt::skip]
const SUFFIXES: &[&str] = &[
    "/[0].piece", "/[1].piece", "/[2].piece", "/[0].last.piece", "/[1].last.piece", "/[2].LAST.piece", "/[3].last.PIECE", "/[9].piece",
    "/[9999].piece", "/[10000].piece", "/[00].piece", "/[", "/[0]", "/", "/[0].piece.", "/[0].piece/[0].piece",
];
#[rustfmt::skip]
const EXTENSIONS: &[&str] = &["xml", "XML", "tif", "TIF", "y", "%20", "\u{e9}", "a.b", ".", "e1", "e2", "e3", "e4"];
const LETTERS: &[&str] = &[
    "L", "L ", "l", "p", "Q", "", " ", "P", "X", "D", "O", "PP", "\r", "\0", "P ", "X  ", "D x",
];

/// A name, most often of an item that can be put.
fn random_name(random: &mut Random, spread: usize) -> Vec<u8> {
    let mut name = match random.below(4) {
        0..=1 => format!("/tile{}.tif", random.below(spread)),
        _ => random.pick(FIRST).to_string(),
    };
    if random.once_in(3) {
        name += random.pick(SUFFIXES);
    }
    match random.below(12) {
        0..=3 => random.flip_case(name.as_bytes()),
        4 if random.once_in(4) => random.damaged(name.as_bytes()),
        _ => name.into_bytes(),
    }
}

/// Content without a line feed.
fn random_content(random: &mut Random, most: usize) -> Vec<u8> {
    let length = random.below(most + 1);
    let mut content = random.bytes(length);
    for byte in &mut content {
        if *byte == b'\n' {
            *byte = b' ';
        }
    }
    content
}

fn random_line(random: &mut Random, spread: usize, most: usize) -> Vec<u8> {
    let name = random_name(random, spread);
    let media_type = near_media_type(random);
    let line = match random.below(40) {
        0..=19 => [b"P ", &name[..], b" ", &random_content(random, most)].concat(),
        20..=25 => [b"X ", &name[..]].concat(),
        26..=29 => {
            let extension = random.pick(EXTENSIONS).as_bytes();
            [b"D ", extension, b" ", &media_type].concat()
        }
        30..=33 => [b"O ", &name[..], b" ", &media_type].concat(),
        34..=37 => b"L".to_vec(),
        38 => random.pick(LETTERS).as_bytes().to_vec(),
        _ => [random.pick(LETTERS).as_bytes(), b" ", &name].concat(),
    };
    match random.below(30) {
        0 => random.damaged(&line),
        1 => [&line[..], b" "].concat(),
        2 => [&line[..], b"\r"].concat(),
        3 => {
            let longer = LINE_MAX - 2 + random.below(5);
            let mut line = line;
            line.resize(longer.max(line.len()), b'x');
            line
        }
        _ => line,
    }
}

#[test]
fn random_lines() {
    let mut corpus = Corpus::new("random lines");
    let mut random = Random::new("random lines");
    let inputs = support::count("ZOMBIRELS_INPUTS", INPUTS);
    for _ in 0..inputs {
        let lines = random.pick(&[10, 50, 200, 800]);
        let spread = random.pick(&[3, 30, 300]);
        let most = random.pick(&[0, 10, 200, 1010]);
        let mut input = Vec::new();
        for _ in 0..1 + random.below(lines) {
            input.extend_from_slice(&random_line(&mut random, spread, most));
            input.push(b'\n');
        }
        input.extend_from_slice(b"L");
        if random.once_in(2) {
            input.push(b'\n');
        }
        let feed = match random.below(8) {
            0 => Feed::Pipe(1 + random.below(5000)),
            _ => Feed::File,
        };
        corpus.check_by(feed, &input);
    }
    corpus.require(
        inputs.min(150),
        &[
            "  0", "  4", "  5", "  6", "  7", " 10", " 11", " 12", " 13", " 15", " 16", "row",
            "row;",
        ],
    );
}
