//! The order of each set, and its fields, by hand.

use crate::{buffer, column, entry, DEFAULTS, ITEMS, OVERRIDES, RELATIONSHIPS};
use zombirels::package::{Mode, Package};

/// Puts items in this order, each with the number of its put as content.
fn put_items(package: &mut Package, names: &[&str]) {
    for (i, name) in names.iter().enumerate() {
        let put = package.put_item(name.as_bytes(), i.to_string().as_bytes());
        assert_eq!(put, Ok(()), "{name}");
    }
}

/// The names of these items as they are told.
fn items(names: &[&str]) -> Vec<String> {
    let mut buffer = buffer(1000);
    let package = &mut Package::start(&mut buffer, 1000).expect("room");
    put_items(package, names);
    column(package, ITEMS, 0)
}

#[test]
fn items_in_folded_order() {
    let told = ["/_", "/A", "/b", "/C", "/d/E", "/D/f", "/é"];
    assert_eq!(items(&["/b", "/C", "/A", "/_", "/é", "/d/E", "/D/f"]), told);
}

/// Piece 9 comes before piece 10, and each name is told with its suffix as it
/// was put.
#[test]
fn pieces_by_number() {
    let told = [
        "/T/[0].piece",
        "/t/[1].Piece",
        "/T/[9].PIECE",
        "/t/[10].piece",
        "/t/[99].piece",
        "/t/[100].LAST.piece",
    ];
    for order in [
        [0, 1, 2, 3, 4, 5],
        [5, 4, 3, 2, 1, 0],
        [3, 2, 5, 0, 4, 1],
        [4, 5, 1, 3, 0, 2],
    ] {
        assert_eq!(items(&order.map(|i| told[i])), told);
    }
}

/// The prefix counts, not the whole name: `-` comes before `/`, but `/a` before
/// `/a-`.
#[test]
fn items_by_prefix() {
    let told = [
        "/a/[0].piece",
        "/A/[1].piece",
        "/a-",
        "/ab",
        "/B/[7].last.piece",
        "/b-/0",
        "/b0/[0].last.piece",
        "/c/9",
    ];
    let mut turned = told;
    turned.reverse();
    assert_eq!(items(&turned), told);
}

#[test]
fn contents() {
    let mut buffer = buffer(1000);
    let package = &mut Package::start(&mut buffer, 1000).expect("room");
    put_items(package, &["/b", "/A", "/c/[1].piece", "/C/[0].piece"]);
    assert_eq!(column(package, ITEMS, 1), ["1", "0", "3", "2"]);
}

/// An item may have no bytes: then no output suffices.
#[test]
fn empty_contents() {
    let mut buffer = buffer(100);
    let package = &mut Package::start(&mut buffer, 100).expect("room");
    package.put_item(b"/a", b"").expect("room");
    package.put_item(b"/b", b"x").expect("room");
    assert_eq!(entry(package, ITEMS, 0, 1, 0), Ok((vec![], 2)));
    assert_eq!(entry(package, ITEMS, 0, 1, 9), Ok((vec![], 2)));
    assert_eq!(entry(package, ITEMS, 1, 1, 0), Err((3, 1)));
    assert_eq!(package.find_item(b"/a"), Ok(0));
}

#[test]
fn types_in_folded_order() {
    let mut buffer = buffer(1000);
    let package = &mut Package::start(&mut buffer, 1000).expect("room");
    for (extension, media_type) in [("Xml", "a/1"), ("b", "a/2"), ("_", "A/3"), ("BA", "a/4")] {
        let put = package.put_default(extension.as_bytes(), media_type.as_bytes());
        assert_eq!(put, Ok(()));
    }
    for (name, media_type) in [("/b/c", "b/1"), ("/B-", "b/2"), ("/a", "b/3;Q=1")] {
        let put = package.put_override(name.as_bytes(), media_type.as_bytes());
        assert_eq!(put, Ok(()));
    }
    assert_eq!(column(package, DEFAULTS, 0), ["_", "b", "BA", "Xml"]);
    assert_eq!(column(package, DEFAULTS, 1), ["A/3", "a/2", "a/4", "a/1"]);
    assert_eq!(column(package, OVERRIDES, 0), ["/a", "/B-", "/b/c"]);
    assert_eq!(column(package, OVERRIDES, 1), ["b/3;Q=1", "b/2", "b/1"]);
}

/// Sources are folded, `/` comes first; ids are compared exactly.
#[test]
fn relationships_by_source_and_id() {
    let mut buffer = buffer(1000);
    let package = &mut Package::start(&mut buffer, 1000).expect("room");
    for (source, id, mode, target) in [
        ("/B", "a", Mode::Internal, "t1"),
        ("/a", "r10", Mode::External, "t2"),
        ("/b", "B", Mode::Internal, "t3"),
        ("/A", "r9", Mode::Internal, "t4"),
        ("/", "z", Mode::External, "t5"),
        ("/b", "A", Mode::External, "t6"),
        ("/", "Z", Mode::Internal, "t7"),
        ("/a", "R9", Mode::Internal, "t8"),
    ] {
        let kind = format!("k:{target}").into_bytes();
        let [source, id, target] = [source, id, target].map(str::as_bytes);
        let put = package.put_relationship(source, id, &kind, mode, target);
        assert_eq!(put, Ok(()));
    }
    let of = |field| column(package, RELATIONSHIPS, field);
    assert_eq!(of(0), ["/", "/", "/a", "/a", "/A", "/b", "/b", "/B"]);
    assert_eq!(of(1), ["Z", "z", "R9", "r10", "r9", "A", "B", "a"]);
    let targets = ["t7", "t5", "t8", "t2", "t4", "t6", "t3", "t1"];
    assert_eq!(of(2), targets.map(|target| format!("k:{target}")));
    assert_eq!(of(4), targets);
    let modes = ["\0", "\x01", "\0", "\x01", "\0", "\x01", "\0", "\0"];
    assert_eq!(of(3), modes);
}

/// A mode is one byte.
#[test]
fn modes() {
    let mut buffer = buffer(100);
    let package = &mut Package::start(&mut buffer, 100).expect("room");
    for (id, mode) in [(b"a", Mode::External), (b"b", Mode::Internal)] {
        let put = package.put_relationship(b"/", id, b"t:", mode, b"x");
        assert_eq!(put, Ok(()));
    }
    for lent in [1, 2, 300] {
        assert_eq!(entry(package, RELATIONSHIPS, 0, 3, lent), Ok((vec![1], 2)));
        assert_eq!(entry(package, RELATIONSHIPS, 1, 3, lent), Ok((vec![0], 2)));
    }
    for position in [0, 1] {
        assert_eq!(entry(package, RELATIONSHIPS, position, 3, 0), Err((3, 1)));
    }
}
