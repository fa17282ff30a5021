//! Compares the archive with the reference on names and other fields.

mod bytes;
mod eights;
mod lengths;
mod order;
mod parameters;
mod random;
#[path = "../support/mod.rs"]
mod support;

use reference::{iri as ref_iri, names as ref_names};
use std::cmp::Ordering;
use std::fmt::Debug;
use support::{show, Tally};
use zombirels::{iri, names};

/// Piece number and last mark, prefix; or the refusal.
type Taken = Result<(Vec<u8>, Option<(u16, bool)>), u64>;

fn taken_by_archive(name: &[u8]) -> Taken {
    match names::take_apart(name) {
        Ok(item) => {
            let piece = item.piece.map(|piece| (piece.number, piece.last));
            Ok((item.prefix.to_vec(), piece))
        }
        Err(refusal) => Err(u64::from(refusal.number())),
    }
}

fn taken_by_reference(name: &[u8]) -> Taken {
    match ref_names::take_apart(name) {
        Ok(item) => {
            let piece = item.piece.map(|piece| (piece.number, piece.last));
            Ok((item.prefix.to_vec(), piece))
        }
        Err(refusal) => Err(refusal.number()),
    }
}

/// Gives `text` to every judgement of both sides. Answers whether one of
/// them accepts it.
fn compare(text: &[u8]) -> bool {
    let pairs = [
        (
            "part name",
            names::is_part_name(text),
            ref_names::is_part_name(text),
        ),
        (
            "media type",
            names::is_media_type(text),
            ref_names::is_media_type(text),
        ),
        (
            "extension",
            names::is_extension(text),
            ref_names::is_extension(text),
        ),
        ("id", names::is_id(text), ref_names::is_id(text)),
        ("IRI", iri::is_iri(text), ref_iri::is_iri(text)),
        (
            "package IRI",
            iri::is_package_iri(text),
            ref_iri::is_package_iri(text),
        ),
    ];
    for (what, archive, reference) in pairs {
        alike(what, archive, reference, || show(text));
    }
    let (taken, right) = (taken_by_archive(text), taken_by_reference(text));
    let taken = alike("item name", taken, right, || show(text));
    if let Ok((prefix, _)) = &taken {
        compare_part_name(prefix);
    }
    taken.is_ok() || pairs.iter().any(|pair| pair.1)
}

/// Compares what is answered for part names only.
fn compare_part_name(name: &[u8]) {
    let name_text = || show(name);
    alike(
        "reserved",
        names::is_reserved(name),
        ref_names::is_reserved(name),
        name_text,
    );
    alike(
        "extension of",
        names::extension(name),
        ref_names::extension(name),
        name_text,
    );
}

/// What both sides answer, which is the same.
fn alike<T: PartialEq + Debug>(
    what: &str,
    archive: T,
    reference: T,
    input: impl Fn() -> String,
) -> T {
    assert_eq!(archive, reference, "{what}: {}", input());
    archive
}

/// All spellings of `text` that differ in the case of letters only.
fn spellings(text: &[u8]) -> Vec<Vec<u8>> {
    let letters: Vec<usize> = (0..text.len())
        .filter(|&i| text[i].is_ascii_alphabetic())
        .collect();
    let spelling = |choice: usize| {
        let mut text = text.to_vec();
        for (i, &at) in letters.iter().enumerate() {
            text[at] ^= (choice >> i & 1) as u8 * 0x20;
        }
        text
    };
    (0..1 << letters.len()).map(spelling).collect()
}

#[test]
fn every_case() {
    let mut tally = Tally::default();
    for name in spellings(b"/_rels/.rels")
        .iter()
        .chain(&spellings(b"/x/_rels/y.rels"))
    {
        tally.add(compare(name));
        assert!(names::is_reserved(name), "{}", show(name));
    }
    for name in spellings(b"/a/[1].last.piece") {
        tally.add(compare(&name));
        let taken = Ok((name[..2].to_vec(), Some((1, true))));
        assert_eq!(taken_by_archive(&name), taken, "{}", show(&name));
    }
    tally.print("every case");
    assert_eq!((tally.compared, tally.accepted), (2304, 2304));
}

/// The examples of the paper, with their answers.
#[test]
fn examples() {
    for name in [
        &b"/hello/world/doc.xml"[..],
        b"/\xC3\xA9",
        b"/_rels/x.rels.xml",
    ] {
        assert!(names::is_part_name(name) && !names::is_reserved(name));
    }
    for name in [&b""[..], b"/", b"/a%2fb", b"/a/%41", b"/a/b."] {
        assert_eq!(taken_by_archive(name), Err(4), "{}", show(name));
    }
    assert!(names::is_reserved(b"/x/_RELS/y.RELS"));
    assert!(names::is_equivalent(b"/a", b"/A"));
    assert!(names::is_derivable(b"/a/b", b"/a"));
    assert!(!names::is_derivable(b"/ab", b"/a"));
    assert!(!names::is_equivalent("/é".as_bytes(), "/É".as_bytes()));
    assert_eq!(taken_by_archive(b"/a/[01].piece"), Err(6));
    assert_eq!(taken_by_archive(b"/a%2f/[x]"), Err(6));
    assert_eq!(taken_by_archive(b"/a%2f/[0].piece"), Err(4));
    let piece = Ok((b"/b".to_vec(), Some((1, true))));
    assert_eq!(taken_by_archive(b"/b/[1].LAST.piece"), piece);
    assert_eq!(names::extension(b"/a.b/c.tar.gz"), Some(&b"gz"[..]));
    assert_eq!(names::extension(b"/a.b/c"), None);
    assert_eq!(names::compare_folded(b"/b-", b"/B/c"), Ordering::Less);
}
