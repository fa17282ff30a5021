//! The streams in `samples/streams`, beside the answers that stand there.

use super::{number, read, started};
use reference::examples::streams::{Kind, DEFAULT, RELATIONSHIP};
use std::collections::BTreeSet;
use std::fs;
use std::path::PathBuf;

const CAPACITY: u64 = 30_000;

fn folder() -> PathBuf {
    let manifest = PathBuf::from(env!("CARGO_MANIFEST_DIR"));
    manifest.join("../../samples/streams")
}

/// What a package without entries answers; a types stream has no source.
fn answer(source: &str, stream: &[u8]) -> u64 {
    let mut ledger = started(CAPACITY);
    number(match source {
        "-" => ledger.read_types(stream),
        _ => ledger.read_relationships(source.as_bytes(), stream),
    })
}

/// The stream from its root on: what stands before it is dropped.
fn from_root<'a>(kind: &Kind, stream: &'a [u8]) -> &'a [u8] {
    let tag = format!("<{} ", kind.root);
    let starts = |at: &usize| stream[*at..].starts_with(tag.as_bytes());
    let at = (0..stream.len()).find(starts).expect("a root");
    &stream[at..]
}

/// Each row: a file, the source, the answers as the file is and from its root
/// on, and how many entries it has.
#[test]
fn all_samples() {
    let mut files = BTreeSet::from(["README.md".to_string(), "answers".to_string()]);
    let rows = fs::read_to_string(folder().join("answers")).expect("the answers");
    for row in rows.lines() {
        let fields: Vec<&str> = row.split_whitespace().collect();
        let [file, source, numbers @ ..] = &fields[..] else {
            panic!("a short row: {row}");
        };
        let numbers: Vec<u64> = numbers
            .iter()
            .map(|n| n.parse().expect("a number"))
            .collect();
        let stream = fs::read(folder().join(file)).expect("a sample");
        let kind = if *source == "-" {
            DEFAULT
        } else {
            RELATIONSHIP
        };
        let bare = from_root(&kind, &stream);
        let entries = read(&kind, bare).expect("accepted") as u64;
        let answers = [answer(source, &stream), answer(source, bare), entries];
        assert_eq!(answers, numbers[..], "{file}");
        files.insert(file.to_string());
    }
    let held = fs::read_dir(folder()).expect("a folder");
    let name = |file: fs::DirEntry| file.file_name().into_string().expect("UTF-8");
    let held: BTreeSet<String> = held.map(|file| name(file.expect("a file"))).collect();
    assert_eq!(held, files);
}
