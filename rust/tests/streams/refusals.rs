//! Every refusal, at the first, at a middle and at the last entry.

use crate::support::streams::{default, link, part, relationships_of, types_of};
use crate::Pair;
use std::iter;

const ENTRIES: usize = 9;

/// Entries that are accepted, one after the other.
fn good_types(i: usize) -> Vec<u8> {
    match i % 2 {
        0 => default(format!("e{i}"), "a/b"),
        _ => part(format!("/n{i}"), "a/b;c=d"),
    }
}

fn good_links(i: usize) -> Vec<u8> {
    let (mode, target) = [("", "t"), ("External", "b:c?d&e"), ("Internal", "../u")][i % 3];
    link(format!("r{i}"), "a:b", mode, target)
}

/// The places among the entries where one is put in another's.
fn places() -> impl Iterator<Item = usize> {
    [0, 1, ENTRIES / 2, ENTRIES - 2, ENTRIES - 1].into_iter()
}

/// All entries, but the one at a place.
fn but(good: fn(usize) -> Vec<u8>, place: usize, entry: &[u8]) -> Vec<Vec<u8>> {
    let mut entries: Vec<Vec<u8>> = (0..ENTRIES).map(good).collect();
    entries[place] = entry.to_vec();
    entries
}

fn long(start: &str, length: usize) -> String {
    start
        .chars()
        .chain(iter::repeat('x'))
        .take(length)
        .collect()
}

/// An entry is refused as its put is, the fields in their order, whatever
/// follows it; and at its limits it is accepted.
#[test]
fn fields_of_types() {
    let mut pair = Pair::start(5000);
    let rows = [
        (default("", "a/b"), 7),
        (default("a.b", "a/b"), 7),
        (default("<&\"", "a/b"), 7),
        (default("x", "a"), 7),
        (default("x", "a/b;"), 7),
        (default(long("", 31), "a/b"), 0),
        (default(long("", 32), "a/b"), 7),
        (default(long("", 255), "a/b"), 7),
        (default(long("", 256), "a/b"), 7),
        (default(long("", 257), "a/b"), 7),
        (default(long("", 70_000), "a/b"), 7),
        (default("x", long("a/", 127)), 0),
        (default("x", long("a/", 128)), 7),
        (default("x", long("a/", 256)), 7),
        (default("x", long("a/", 70_000)), 7),
        (part("", "a/b"), 4),
        (part("a", ""), 4),
        (part("/a/", "a/b"), 4),
        (part("/a/[0].piece", "a/b"), 4),
        (part("/a\n", "a/b"), 4),
        (part("/_rels/.rels", "a/b"), 0),
        (part(long("/", 255), "a/b"), 0),
        (part(long("/", 256), "a/b"), 4),
        (part(long("/", 257), "a/b"), 4),
        (part(long("/", 70_000), "a/b"), 4),
        (part("/a", ""), 7),
        (part("/a", long("a/", 127)), 0),
        (part("/a", long("a/", 128)), 7),
        (part(b"/\xC3", "a/b"), 4),
        (part("/é", "a/b"), 0),
    ];
    for (entry, expected) in rows {
        for place in places() {
            pair.restart(5000);
            let stream = types_of(&but(good_types, place, &entry));
            assert_eq!(pair.types(&stream), expected, "{}", stream.escape_ascii());
        }
    }
}

#[test]
fn fields_of_relationships() {
    let mut pair = Pair::start(5000);
    let rows = [
        (link("", "", "?", ""), 8),
        (link("1", "a:b", "", "t"), 8),
        (link("a", "b", "", "t"), 8),
        (link("a", "a:b", "internal", "t"), 8),
        (link("a", "a:b", " ", "t"), 8),
        (link("a", "a:b", "\tExternal", "t"), 8),
        (link(long("i", 63), "a:b", "", "t"), 0),
        (link(long("i", 64), "a:b", "", "t"), 8),
        (link(long("i", 256), "a:b", "", "t"), 8),
        (link(long("i", 70_000), "a:b", "", "t"), 8),
        (link("a", long("a:", 255), "", "t"), 0),
        (link("a", long("a:", 256), "", "t"), 8),
        (link("a", long("a:", 257), "", "t"), 8),
        (link("a", long("a:", 70_000), "", "t"), 8),
        (link("a", "a:b", long("", 70_000).as_str(), "t"), 8),
        (link("a", "a:b", "Internal", ""), 9),
        (link("a", "a:b", "Internal", "t?u"), 9),
        (link("a", "a:b", "", "t."), 9),
        (link("a", "a:b", "", "_rels/.rels"), 5),
        (link("a", "a:b", "External", "_rels/.rels"), 0),
        (link("a", "a:b", "External", "t u"), 9),
        (link("a", "a:b", "External", long("", 255)), 0),
        (link("a", "a:b", "External", long("", 256)), 9),
        (link("a", "a:b", "External", long("", 257)), 9),
        (link("a", "a:b", "External", long("", 70_000)), 9),
        (link("a", "a:b", "", long("", 253)), 0),
        (link("a", "a:b", "", long("", 256)), 9),
        (link("a", "a:&", "External", "?t&u"), 0),
    ];
    for (entry, expected) in rows {
        for place in places() {
            pair.restart(5000);
            let stream = relationships_of(&but(good_links, place, &entry));
            let answer = pair.links(b"/Source", &stream);
            assert_eq!(answer, expected, "{}", stream.escape_ascii());
        }
    }
}

/// Two entries of one stream with the same key, in the same case or in another;
/// ids differ by case.
#[test]
fn keys_twice() {
    let mut pair = Pair::start(5000);
    for (first, second) in [(0, 1), (0, ENTRIES - 1), (3, 5), (7, 8)] {
        for [key, again] in [["xml", "xml"], ["Xml", "xml"], ["\u{e9}t", "\u{e9}T"]] {
            for form in [
                |key: &str| default(key, "a/b"),
                |key: &str| part(format!("/{key}"), "a/b"),
            ] {
                pair.restart(5000);
                let mut entries = but(good_types, first, &form(key));
                entries[second] = form(again);
                assert_eq!(pair.types(&types_of(&entries)), 10);
                entries[second] = form("other");
                assert_eq!(pair.types(&types_of(&entries)), 0);
            }
        }
        for ([id, again], expected) in [(["own", "own"], 10), (["own", "Own"], 0)] {
            pair.restart(5000);
            let mut entries = but(good_links, first, &link(id, "a:", "", "t"));
            entries[second] = link(again, "a:", "", "t");
            assert_eq!(pair.links(b"/a", &relationships_of(&entries)), expected);
        }
    }
    // a Default and an Override have no key in common
    pair.restart(5000);
    let both = [default("a", "a/b"), part("/a", "a/b"), default("b", "a/b")];
    assert_eq!(pair.types(&types_of(&both)), 0);
}

/// The key of one entry is held already, in another case; that of another
/// source is none of these.
#[test]
fn keys_held() {
    let mut pair = Pair::start(5000);
    for place in places() {
        for [held, key] in [["own", "Own"], ["OWN", "own"]] {
            for form in [
                |key: &str| default(key, "a/b"),
                |key: &str| part(format!("/{key}"), "a/b"),
            ] {
                pair.restart(5000);
                assert_eq!(pair.types(&types_of(&[form(held)])), 0);
                let entries = but(good_types, place, &form(key));
                assert_eq!(pair.types(&types_of(&entries)), 10);
            }
        }
        for (held, id, expected) in [("own", "own", 10), ("own", "Own", 0)] {
            pair.restart(5000);
            let held = [link(held, "a:", "", "t")];
            assert_eq!(pair.links(b"/a", &relationships_of(&held)), 0);
            let entries = but(good_links, place, &link(id, "a:", "", "t"));
            assert_eq!(pair.links(b"/A", &relationships_of(&entries)), expected);
            assert_eq!(pair.links(b"/b", &relationships_of(&entries)), 0);
            assert_eq!(pair.links(b"/", &relationships_of(&entries)), 0);
        }
    }
}

/// 1, then the source's 4 and 5, then 20 or 19, then the entries.
#[test]
fn their_order() {
    let (bad, deep) = (link("", "", "", ""), b"<p:a>".repeat(16));
    let contents = [(b"<x/>".to_vec(), 19), (deep, 20), (bad, 8), (vec![], 0)];
    let mut pair = Pair::start(1000);
    for (content, expected) in contents {
        let stream = relationships_of(&[content]);
        for (source, refused) in [
            (&b""[..], 4),
            (b"x", 4),
            (b"/x/", 4),
            (b"//", 4),
            (b"/_rels/x.rels", 5),
            (b"/A/_RELS/x.Rels", 5),
            (long("/", 256).as_bytes(), 4),
        ] {
            assert_eq!(pair.links(source, &stream), refused);
            let mut none = [0; 100];
            assert_eq!(crate::read(&mut none, Some(source), &stream), 1);
        }
        for source in [&b"/"[..], b"/x", b"/not/held", long("/", 255).as_bytes()] {
            assert_eq!(pair.links(source, &stream), expected);
        }
    }
    // the first entry that is refused, be it by 15, 10 or its fields
    for (entries, expected) in [
        ([default("a", "b/c"), part("/a", "b/c"), default("", "")], 7),
        (
            [
                default("b", long("b/", 99)),
                default("", ""),
                default("", ""),
            ],
            15,
        ),
        (
            [
                default("", ""),
                default("b", long("b/", 99)),
                default("", ""),
            ],
            7,
        ),
        ([part("/a", "b/c"), part("/A", "d/e"), part("", "")], 10),
        ([part("/a", "b/c"), part("", ""), part("/A", "d/e")], 4),
    ] {
        pair.restart(10);
        assert_eq!(pair.types(&types_of(&entries)), expected);
    }
}
