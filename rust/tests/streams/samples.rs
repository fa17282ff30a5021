//! The streams in `samples/streams`, beside the answers that stand there.

use crate::Pair;
use reference::examples::streams::{Kind, DEFAULT, RELATIONSHIP};
use std::fs;
use std::path::PathBuf;

const CAPACITY: u64 = 30_000;

fn folder() -> PathBuf {
    let manifest = PathBuf::from(env!("CARGO_MANIFEST_DIR"));
    manifest.join("../samples/streams")
}

/// The stream from its root on: what stands before it is dropped.
fn from_root<'a>(kind: &Kind, stream: &'a [u8]) -> &'a [u8] {
    let tag = format!("<{} ", kind.root);
    let starts = |at: &usize| stream[*at..].starts_with(tag.as_bytes());
    let at = (0..stream.len()).find(starts).expect("a root");
    &stream[at..]
}

/// How many Defaults, Overrides and relationships are held.
fn held(pair: &Pair) -> usize {
    let package = &pair.package;
    let types = package.defaults().expect("a package").len()
        + package.overrides().expect("a package").len();
    types + package.relationships().expect("a package").len()
}

/// Each row: a file, the source (`-` for a types stream), the answers as the
/// file is and from its root on, and how many entries it has.
#[test]
fn all_samples() {
    let rows = fs::read_to_string(folder().join("answers")).expect("the answers");
    for row in rows.lines() {
        let fields: Vec<&str> = row.split_whitespace().collect();
        let [file, source, numbers @ ..] = &fields[..] else {
            panic!("a short row: {row}");
        };
        let numbers = numbers.iter().map(|n| n.parse().expect("a number"));
        let [whole, bare, entries] = numbers.collect::<Vec<u64>>()[..] else {
            panic!("three numbers: {row}");
        };
        let stream = fs::read(folder().join(file)).expect("a sample");
        let answer = |stream: &[u8]| {
            let mut pair = Pair::start(CAPACITY);
            let number = match *source {
                "-" => pair.types(stream),
                _ => pair.links(source.as_bytes(), stream),
            };
            (number, held(&pair) as u64)
        };
        let count = |number| if number == 0 { entries } else { 0 };
        assert_eq!(answer(&stream), (whole, count(whole)), "{file}");
        let kind = if *source == "-" {
            DEFAULT
        } else {
            RELATIONSHIP
        };
        let rooted = from_root(&kind, &stream);
        assert_eq!(answer(rooted), (bare, count(bare)), "{file}");
    }
}
